"""A refusal for want of memory leaves all: refused.py make DIR, then `rt try --fail-alloc N --cases DIR/cases > OUT` in crates/test_doms (the N-th allocation fails; some thousands fall into the calls),
then refused.py compare DIR OUT: what such a program writes is what the reference writes of the program without the call that was refused. Not run yet."""
import sys, json, random, pickle, re, os
import calls_ref as c
ASKS = ('mark', 'markall', 'spawn', 'throw', 'clear', 'provide', 'freeze', 'pause', 'resume', 'wake')

def source(name):
    s = {r['name']: r for r in json.load(open(c.ORACLE + '/rows.json'))}[name]['source']
    s = json.loads(s) if isinstance(s, str) else dict(s)
    s.pop('inputs', None); s.pop('posts', None)
    return json.dumps(s, ensure_ascii=False, separators=(',', ':'))

def make(folder):
    os.makedirs(folder + '/cases', exist_ok=True)
    programs = {}
    for k in range(60):
        r = random.Random(k)
        name = r.choice(['14', '12', '14'])
        head = source(name) + "\nlimits 10000 128 props"
        calls = ['inplace', 'settle'] + ['query'] * (k % 15)
        for _ in range(80):
            s = r.randrange(0, 6)
            calls.append(r.choice([f'mark {s}', 'markall', f'spawn {s} plain 0 i0' if name == '14' else f'mark {s}', f'throw {s} x{r.randrange(9)}',
                f'clear {s}', f'provide {r.randrange(3)} i{r.randrange(4)}', f"freeze {4 if name == '14' else 1}", 'freeze 1',
                f'pause {1 + r.randrange(3)}', f'resume {1 + r.randrange(3)}', f'wake {1 + r.randrange(3)}', f'provide 1 s{r.randrange(3)}']))
            if r.randrange(9) == 0: calls.append('events')
        calls += ['query', 'settle', 'query']
        t = head + "\n" + "\n".join(calls) + "\n"
        c.reference(t)
        programs[k] = (head, calls)
        open(f'{folder}/cases/c{k:02}', 'w').write(t)
    pickle.dump(programs, open(folder + '/programs.pkl', 'wb'))

def compare(folder, out):
    norm = lambda t: [l.rstrip() if l.startswith('report') else l for l in t.split('\n')]
    parts = re.split(rb"^== (\S+)\n", open(out, 'rb').read(), flags=re.M)
    got = dict(zip([p.decode() for p in parts[1::2]], [p.decode(errors='replace') for p in parts[2::2]]))
    same = elsewhere = different = 0
    for k, (head, calls) in pickle.load(open(folder + '/programs.pkl', 'rb')).items():
        g = norm(got.get(f'c{k:02}', '').replace('====\n', ''))
        if 'fault 1' not in g: elsewhere += 1; continue
        j = g.index('fault 1')
        left = g[:j] + g[j + 1:]
        if any(call.split(' ')[0] in ASKS and norm(c.reference(head + "\n" + "\n".join(calls[:i] + calls[i + 1:]) + "\n")) == left
               for i, call in enumerate(calls)): same += 1
        else: different += 1; print(k, g[max(0, j - 1):j + 3])
    print(same, 'same,', different, 'different or refused in another call,', elsewhere, 'ended elsewhere')

if sys.argv[1] == 'make': make(sys.argv[2])
else: compare(sys.argv[2], sys.argv[3])
