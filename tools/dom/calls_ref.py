#!/usr/bin/env python3
"""The reference's dom driven by calls given as data: calls_ref.py < case. And make(seed): a random case."""
import os, sys, json, random
ORACLE = os.environ.get('ORACLE') or sys.exit('ORACLE has to name the folder of the reference program')
sys.path.insert(0, ORACLE)
sys.setrecursionlimit(100000)
from jsonread import read_json
from form import check_form
from script import Script
from engine import Limits, VirtualDom, Fault, DomFault, SessionFault, Event, session
from tree import Mutations, NoOpMutations, FailingMutations
from printing import edit_line

def value(w):
    k, r = w[:1], w[1:]
    if k == 'i':
        try: return ("int", int(r))
        except ValueError: return ("none",)
    if k == 's': return ("text", r)
    if k == 'c': return ("cell", int(r))
    if k == 't': return ("task", int(r))
    return ("none",)

def put_value(v):
    return {"none": "n", "int": "i", "text": "s", "cell": "c", "task": "t"}[v[0]] + ("" if v[0] == "none" else str(v[1]))

def fault_text(f):
    if f.name != "Run": return f.name
    return fault_line(f.fault)

def fault_line(x):
    return f"fault {x.number}" if x.number in (1, 2) else x.line()

def names(d): return sorted(d)

class Stop(Exception): pass

def scope_line(dom, s, out):
    if s not in dom.scopes: return
    sc = dom.scopes[s]
    o = lambda x: "-" if x is None else str(x)
    line = f"scope {s} {sc.height} {o(dom.parent_scope(s))} {o(dom.height(s))} {o(dom.suspense_context(s))}"
    blk = dom.shown_block(sc)
    line += " built" if blk is not None else " unbuilt"
    for other in range(8):
        p, hit = sc.parent, False
        while p is not None:
            if p == other: hit = True
            p = dom.scopes[p].parent
        line += "1" if hit else "0"
    for k in range(3):
        for v in (dom.consume_context(s, k), dom.has_context(s, k)):
            line += " " + ("-" if v is None else put_value(v))
    b = dom.error_context(s)
    if b is None: line += " - -"
    else:
        e = dom.scopes[b].error
        line += f" {b}" + (" -" if e is None else f" {e[0]}:{e[1]}")
    if sc.is_boundary():
        line += (" frozen" if sc.frozen else " thawed") + (" hidden" if sc.hidden else " shown") + (" held" if sc.holders else " free")
    out.append(line)
    if blk is not None:
        out.append(edit_line(("append", s, tuple(dom.nodes(blk)))))

def query(dom, out):
    for s in range(30): scope_line(dom, s, out)
    for t in range(14):
        if t in dom.tasks:
            x = dom.tasks[t]
            out.append(f"task {t} {x.scope} {'-' if x.parent is None else x.parent}" + (" paused" if dom.paused(t) else " active"))
    out.append("skipped" + "".join(f" {s}" for s in dom.skipped()) + (" remaining" if dom.suspended_tasks_remaining() else " none"))

def holds(dom, cells, out):
    """The values of these cells, the live scopes, and the document."""
    for w in cells:
        held = dom.cells.get(int(w))
        out.append(f"cell {w} " + ("-" if held is None else put_value(held[1])))
    out.append("live" + "".join(f" {s}" for s in sorted(dom.scopes)))
    blk = dom.shown_block(dom.scopes[0]) if 0 in dom.scopes else None
    out.append(edit_line(("append", 0, tuple(dom.nodes(blk)) if blk is not None else ())))

def places(dom):
    """Where each number stands, in hidden blocks too: the scope, whether in a fallback, the steps, the path."""
    found = {}
    def walk(s, side, block, steps):
        for path, n in block.ids.items(): found[n] = (s, side, steps, path)
        for k, slot in enumerate(block.slots):
            path = block.vnode.template.node_paths[k]
            if slot[0] in ("text", "hole"): found[slot[1]] = (s, side, steps, path)
            elif slot[0] == "frag" and not slot[1]: found[slot[2]] = (s, side, steps, path)
            elif slot[0] == "frag":
                for i, item in enumerate(slot[1]): walk(s, side, item, steps + [(k, i)])
    for s, sc in dom.scopes.items():
        for side, block in (("own", sc.block), ("own", sc.children_block), ("fallback", sc.fallback_block)):
            if block is not None: walk(s, side, block, [])
    return found

def place_line(n, found):
    if n not in found: return f"at {n} nowhere"
    s, side, steps, path = found[n]
    return f"at {n} {s} {side}" + "".join(f" {k}:{i}" for k, i in steps) + " /" + "".join(f" {i}" for i in path)

def messages(ws):
    out = []
    for w in ws:
        n = int(w[1:] or 0)
        out.append(("mark", n) if w[0] == 'm' else ("wake", n) if w[0] == 'w' else ("all",))
    return out

def do(dom, src, ws, out):
    k = ws[0]
    n = int(ws[1]) if len(ws) > 1 and ws[1].isdigit() else 0
    sink = Mutations()
    def edits(m): out.extend(edit_line(e) for e in m.edits)
    def ran(f, m=sink):
        try:
            r = f()
        except DomFault as e:
            edits(m); out.append(fault_text(e)); return
        edits(m); out.append(r.line(0))
    def vec(f):
        m = f(); edits(m); out.append("vec")
    def flag(b): out.append("true" if b else "false")
    if k == "rebuild": ran(lambda: dom.rebuild(sink))
    elif k == "inplace": ran(lambda: dom.rebuild_in_place())
    elif k == "tovec": vec(dom.rebuild_to_vec)
    elif k == "render": ran(lambda: dom.render_immediate(sink))
    elif k == "rendervec": vec(dom.render_immediate_to_vec)
    elif k == "events": ran(lambda: dom.process_events())
    elif k == "settle": ran(lambda: dom.settle(sink))
    elif k == "failing":
        m = FailingMutations([n]); ran({"rebuild": lambda: dom.rebuild(m), "render": lambda: dom.render_immediate(m)}.get(ws[2], lambda: dom.settle(m)), m)
    elif k == "susp":
        try: r = dom.render_suspense_immediate(sink)
        except DomFault as e:
            edits(sink); out.append(fault_text(e)); return
        edits(sink); out.append("resolved" + "".join(f" {b}" for b in r))
    elif k == "pollwork": out.append(dom.poll_work(messages(ws[2:]), ws[1] == "1"))
    elif k == "pollsusp": out.append(dom.poll_suspense(messages(ws[2:]), ws[1] == "1"))
    elif k == "mark": dom.mark_dirty(n); out.append("ok")
    elif k == "markall": dom.mark_all_dirty(); out.append("ok")
    elif k == "markctx": flag(dom.mark_context(n))
    elif k == "write": flag(dom.write(n, value(ws[2])))
    elif k == "cancel": flag(dom.cancel(n))
    elif k == "pause": dom.pause(n); out.append("ok")
    elif k == "resume": dom.resume(n); out.append("ok")
    elif k == "active":
        (dom.resume if ws[2] == "1" else dom.pause)(n); out.append("ok")
    elif k == "wake": dom.wake(n); out.append("ok")
    elif k == "pollnow": out.append(dom.poll_now(n))
    elif k == "spawn":
        state = ("steps", names(src.tasks)[int(ws[3])], tuple(value(w) for w in ws[4:]), 0)
        t = dom.spawn_isomorphic(n, state) if ws[2] == "iso" else dom.spawn(n, state)
        out.append("none" if t is None else f"task {t}")
    elif k == "throw": dom.throw_error(n, ws[2]); out.append("ok")
    elif k == "insert": dom.insert_error(n, ws[2]); out.append("ok")
    elif k == "clear": dom.clear_errors(n); out.append("ok")
    elif k == "after":
        # a number that no action has names an effect that can be registered, not run
        known = dict(enumerate(names(src.actions)))
        dom.after_suspense_resolved(n, (known.get(int(ws[2]), ""), tuple(value(w) for w in ws[3:]))); out.append("ok")
    elif k == "freeze": dom.freeze(n); out.append("ok")
    elif k == "event":
        e = Event(value(ws[3]), ws[4] == "1")
        e.prevented = ws[5] == "1"
        e = dom.handle_event(ws[1], e, int(ws[2]))
        out.append("event" + (" on" if e.propagates else " stopped") + (" prevented " if e.prevented else " enabled ") + put_value(e.payload))
    elif k in ("provide", "with"): dom.provide_root_context(n, value(ws[2])); out.append("ok")
    elif k == "query": query(dom, out)
    elif k == "holds": holds(dom, ws[1:], out)
    elif k == "place":
        found = places(dom)
        out.extend(place_line(int(w), found) for w in ws[1:])
    elif k == "close":
        dom.close(); out.append("closed"); raise Stop()
    else: out.append("what?")

def start(src, ws):
    limits = Limits(units=int(ws[1]), height=int(ws[2]))
    how = ws[3]
    firsts = None
    if how == "from":
        firsts = dict(zip(("tasks", "cells", "contexts", "elements", "errors"), map(int, ws[4:9])))
    return VirtualDom(Script(src), () if how in ("new", "pre") else src.props, limits, NoOpMutations(), firsts=firsts, tracked=True)

def sessions(text):
    """Sessions with the inputs of one source, over sinks that fail at these edits: what each took, its fault, how many reports were finished."""
    lines = text.split("\n")
    ws, out = lines[0].split(" "), []
    for call in ws[3:]:
        src, sink = check_form(read_json(lines[1].encode())), FailingMutations([int(call)])
        fault = None
        try: reports = session(Script(src), src.props, src.inputs, sink, Limits(units=int(ws[1]), height=int(ws[2])), True)
        except SessionFault as e: fault, reports = e.fault, e.reports
        out.extend(edit_line(e) for e in sink.edits)
        if fault is not None: out.append(fault_line(fault))
        out.append(f"reports {len(reports)}")
    return "".join(x + "\n" for x in out)

def reference(text):
    if text.startswith("session "): return sessions(text)
    lines = text.split("\n")
    out = []
    try:
        src = check_form(read_json(lines[0].encode()))
    except Exception as e:
        return "form\n"
    ws = lines[1].split(" ")
    dom = start(src, ws)
    if ws[3] == "pre":
        try: dom.rebuild_in_place()
        except DomFault as e: return fault_text(e) + "\n"
    for line in lines[2:]:
        if not line: continue
        try:
            do(dom, src, line.split(" "), out)
        except Stop:
            break
        except DomFault as e:
            out.append(fault_text(e))
        except Fault as e:
            out.append(fault_line(e)); break
    return "".join(x + "\n" for x in out)

# ---- random cases
def make(seed, size=12, mode="lawful"):
    import gen
    g = gen.make(seed, size, mode)
    s = json.loads(g)
    s.pop("inputs", None); s.pop("posts", None)
    source = json.dumps(s, ensure_ascii=False, separators=(",", ":"))
    r = random.Random(seed * 7919 + 1)
    try: src = check_form(read_json(source.encode()))
    except Exception: return None
    how = r.choice(["props"] * 8 + ["from 5 6 7 8 9", "pre" if not src.props else "props", "new" if not src.props else "props"])
    units = r.choice([10000] * 6 + [0, 1, 2, 3, 5, 40])
    height = r.choice([128] * 8 + [4, 5, 6])
    head = f"limits {units} {height} {how}"
    calls = []
    tasks, actions = names(src.tasks), names(src.actions)
    dom = start(src, head.split(" "))
    built = how == "pre"
    if built:
        try: dom.rebuild_in_place()
        except DomFault: pass
    out = []
    def run(line):
        if line == "query":
            if dom.failed or not dom.built: return
            calls.append("place " + " ".join(map(str, range(1, 50))))
            calls.append("holds " + " ".join(map(str, range(1, 12))))
        calls.append(line)
        if line.split(" ")[0] == "close": return
        try: do(dom, src, line.split(" "), out)
        except (DomFault, Stop): pass
    if not built:
        for _ in range(r.randrange(3)):
            run(r.choice(["provide 0 sroot", "with 1 i7", "render", "settle", "write 1 i1", "mark 0", "spawn 0 plain 0" if tasks else "mark 1", "events", "wake 1", "freeze 1", "throw 3 early", "cancel 1", "pollwork 1"]))
        run(r.choice(["rebuild", "rebuild", "inplace", "tovec"]))
    def pick(d, far=0.12):
        if d and r.random() > far: return r.choice(sorted(d))
        return r.randrange(0, 24)
    def val(kind=None):
        k = r.randrange(6) if kind is None else kind
        if k <= 2: return f"i{r.randrange(-1, 5)}"
        if k == 3: return "s" + r.choice(["", "a", "b", "12"])
        if k == 4: return f"c{pick(dom.cells)}"
        return f"t{pick(dom.tasks)}"
    def arglist(sig_len):
        # fuel first, then whatever
        return " ".join(["i3"] + [val() for _ in range(sig_len - 1)]) if sig_len else ""
    for _ in range(r.randrange(4, 26)):
        k = r.randrange(100)
        cells, ts, sc = dom.cells, dom.tasks, dom.scopes
        bounds = [s for s in sc if sc[s].is_boundary()]
        errs = [s for s in sc if sc[s].is_error_boundary()]
        if k < 14: run(f"write {pick(cells)} {val()}")
        elif k < 22: run("render")
        elif k < 30: run("settle")
        elif k < 34: run("events")
        elif k < 35: run("rendervec")
        elif k < 43: run("susp")
        elif k < 47: run("pollwork %d%s" % (r.randrange(2), "".join(" " + r.choice([f"m{pick(sc)}", f"w{pick(ts)}", "a"]) for _ in range(r.randrange(3)))))
        elif k < 52: run("pollsusp %d%s" % (r.randrange(2), "".join(" " + r.choice([f"m{pick(sc)}", f"w{pick(ts)}"]) for _ in range(r.randrange(3)))))
        elif k < 57: run(f"mark {pick(sc)}")
        elif k < 58: run("markall")
        elif k < 60: run(f"markctx {pick(dom.reactives)}")
        elif k < 62: run(f"cancel {pick(ts)}")
        elif k < 65: run(f"pause {pick(ts)}")
        elif k < 68: run(f"resume {pick(ts)}")
        elif k < 69: run(f"active {pick(ts)} {r.randrange(2)}")
        elif k < 73: run(f"wake {pick(ts)}")
        elif k < 77: run(f"pollnow {pick(ts)}")
        elif k < 81 and tasks:
            i = r.randrange(len(tasks))
            a = arglist(len(src.tasks[tasks[i]].params))
            run(f"spawn {pick(sc)} {r.choice(['plain', 'iso', 'new'])} {i}" + (" " + a if a else ""))
        elif k < 83: run(f"throw {pick(sc)} e{r.randrange(9)}")
        elif k < 84: run(f"insert {r.choice(sorted(errs) + [99999])} e{r.randrange(9)}")
        elif k < 85: run(f"clear {r.choice(sorted(errs) + [99999])}")
        elif k < 87 and actions:
            i = r.randrange(len(actions))
            a = arglist(len(src.actions[actions[i]].params))
            run(f"after {pick(bounds, 0)} {i}" + (" " + a if a else ""))
        elif k < 89: run(f"freeze {pick(bounds, 0)}")
        elif k < 95:
            run(f"event {r.choice(['click', 'click', 'input', 'x'])} {r.randrange(1, 16)} {val()} {r.choice([1, 1, 0])} {r.choice([0, 0, 0, 1])}")
        elif k < 96: run(f"provide {r.randrange(3)} {val()}")
        elif k < 97: run(f"failing {r.randrange(1, 4)} settle")
        else: run("query")
        if r.random() < 0.15: run("query")
    run("query")
    if r.random() < 0.5: run("close")
    return source + "\n" + head + "\n" + "\n".join(calls) + "\n"

if __name__ == "__main__":
    if len(sys.argv) > 1:
        sys.stdout.write(make(int(sys.argv[1])) or "")
    else:
        sys.stdout.write(reference(sys.stdin.read()))
