// A component runtime in plain Rust without crates, as a competent engineer would write it, included by program.rs: what
// tools/bench measures the program beside. Nothing of it is proved, and the program has no part of it. Scopes in a Vec,
// cells with ordered sets of readers, a BTreeSet of work by (height, scope), bodies that are called again, templates with
// slots that are patched pairwise, edits that carry built nodes, a report with a log for each input, suspense boundaries,
// memos: tasks that are woken by the cells that they read last, and write their cell where its value is another one.
// Left out: resources, memos of scopes that go or of what a scope provides, effects, clean-ups, errors, attributes' edits, bubbling, limits, want of memory, the document and all proofs.
use std::collections::{BTreeSet, HashMap}; use std::fmt::Write as _; use std::rc::Rc;

pub enum Node { El(u64, &'static str, bool, Vec<Node>), Text(u64, String), Hole(u64) }
pub enum Edit { Append(u64, Vec<Node>), Replace(u64, Vec<Node>), After(u64, Vec<Node>), Remove(u64), SetText(u64, String) }
pub trait Sink { fn put(&mut self, e: Edit); fn take(&mut self) -> String { String::new() } }
pub struct Count; impl Sink for Count { fn put(&mut self, _: Edit) {} }
#[derive(Default)] pub struct Print(String);
impl Sink for Print {
    fn put(&mut self, e: Edit) {
        fn node(s: &mut String, n: &Node) { match n {
            Node::Text(i, t) => { let _ = write!(s, "{:?}#{}", t, i); } Node::Hole(i) => { let _ = write!(s, "_#{}", i); }
            Node::El(i, t, l, k) => { let _ = write!(s, "({}#{}", t, i); if *l { s.push_str(" @onclick") } for c in k { s.push(' '); node(s, c) } s.push(')') } } }
        let s = &mut self.0;
        let mut row = |w: &str, i: u64, v: &[Node]| { let _ = write!(s, "{} #{}", w, i); for n in v { s.push(' '); node(s, n) } };
        match e { Edit::Append(i, v) => row("append", i, &v), Edit::Replace(i, v) => row("replace", i, &v), Edit::After(i, v) => row("after", i, &v), Edit::Remove(i) => row("remove", i, &[]), Edit::SetText(i, t) => { let _ = write!(s, "text #{} {:?}", i, t); } }
        s.push('\n');
    }
    fn take(&mut self) -> String { std::mem::take(&mut self.0) }
}
pub enum T { El(&'static str, Option<usize>, &'static [T]), Text(&'static str), Slot }   // a template; slots come in depth-first order
pub trait App: Sized {
    type Val: Clone + PartialEq; type Body: Copy + PartialEq; type Handler: Clone; type Task: Clone;
    fn render(&self, body: Self::Body, props: &[Self::Val], cx: &mut Cx<'_, Self>) -> Result<VNode<Self>, usize>;   // Err: suspended on that task
    fn handle(&self, h: &Self::Handler, rt: &mut Rt<Self>, scope: usize);
    fn poll(&self, state: &mut Self::Task, rt: &mut Rt<Self>, scope: usize, me: usize) -> bool;                     // true: ready
    fn none() -> Self::Val;                                                                                        // what a memo is at first
}
pub struct VNode<A: App> { pub tpl: &'static [T], pub slots: Vec<Slot<A>>, pub on: Vec<A::Handler> }
impl<A: App> Clone for VNode<A> { fn clone(&self) -> Self { VNode { tpl: self.tpl, slots: self.slots.clone(), on: self.on.clone() } } }
pub enum Slot<A: App> { Text(String), Use(A::Body, Vec<A::Val>), Frag(Vec<VNode<A>>), Wait(Box<VNode<A>>, A::Body) }
impl<A: App> Clone for Slot<A> { fn clone(&self) -> Self { match self { Slot::Text(s) => Slot::Text(s.clone()), Slot::Use(b, p) => Slot::Use(*b, p.clone()), Slot::Frag(v) => Slot::Frag(v.clone()), Slot::Wait(v, b) => Slot::Wait(v.clone(), *b) } } }
enum Live { Text(u64, String), Comp(usize), Frag(Vec<Block>, u64) }
struct Block { tpl: &'static [T], ids: Vec<u64>, slots: Vec<Live> }                     // ids: of the template's own nodes, depth first
struct Bound<A: App> { kids: VNode<A>, fallback: A::Body, held: BTreeSet<usize>, hidden: bool, shown: Option<Block> }   // shown: the fallback's block while the children are hidden
enum Kind<A: App> { Body(A::Body), Bound(Box<Bound<A>>) }
struct Scope<A: App> { parent: usize, height: u32, kind: Kind<A>, props: Rc<[A::Val]>, block: Option<Block>, reads: Vec<usize>, hooks: Vec<usize>, ctx: Vec<(u32, A::Val)>, runs: u64, bound: usize }
struct Cell<V> { value: V, readers: BTreeSet<usize>, wakes: BTreeSet<usize> }       // wakes: the tasks of memos that read it
struct Task<A: App> { state: A::Task, scope: usize, live: bool, holds: Vec<usize>, reads: Vec<usize> }
#[derive(Clone, Copy)] pub enum Word { Build, Input(u64), Rerun(usize), Fed(usize), Made(usize), Kept(usize), Removed(usize), Heard(usize), Poll(usize) }
#[derive(Default)] pub struct Report { pub units: u64, pub bodies: u64, pub edits: u64, pub log: Vec<Word> }
pub struct Rt<A: App> { app: Rc<A>, scopes: Vec<Option<Scope<A>>>, cells: Vec<Cell<A::Val>>, work: BTreeSet<(u32, usize, bool, usize)>, tasks: Vec<Task<A>>, listeners: HashMap<u64, (usize, A::Handler)>, next_el: u64, sink: Box<dyn Sink>, mute: bool, gone: Vec<Block>, pub rep: Report }
pub struct Cx<'a, A: App> { pub rt: &'a mut Rt<A>, pub scope: usize, hook: usize, reads: Vec<usize> }
const NO: usize = usize::MAX;
impl<A: App> Cx<'_, A> {
    fn hook(&mut self, make: impl FnOnce(&mut Self) -> usize) -> usize {
        let k = self.hook; self.hook += 1;
        if k == self.rt.scope(self.scope).hooks.len() { let x = make(self); self.rt.scope_mut(self.scope).hooks.push(x) }
        self.rt.scope(self.scope).hooks[k]
    }
    pub fn cell(&mut self, init: impl FnOnce(&mut Self) -> A::Val) -> usize { self.hook(|cx| { let value = init(cx); cx.rt.cells.push(Cell { value, readers: BTreeSet::new(), wakes: BTreeSet::new() }); cx.rt.cells.len() - 1 }) }
    pub fn spawn(&mut self, state: impl FnOnce(&mut Self) -> A::Task) -> usize {
        self.hook(|cx| { let state = state(cx); let scope = cx.scope; cx.rt.start(state, scope) })
    }
    pub fn memo(&mut self, state: impl FnOnce(usize) -> A::Task) -> usize { self.hook(|cx| { let c = cx.rt.cells.len(); cx.rt.cells.push(Cell { value: A::none(), readers: BTreeSet::new(), wakes: BTreeSet::new() }); cx.rt.start(state(c), cx.scope); c }) }
    pub fn read(&mut self, c: usize) -> A::Val { self.reads.push(c); self.rt.cells[c].value.clone() }
    pub fn provide(&mut self, k: u32, v: A::Val) { let s = self.rt.scope_mut(self.scope); match s.ctx.iter_mut().find(|x| x.0 == k) { Some(x) => x.1 = v, None => s.ctx.push((k, v)) } }
    pub fn context(&self, k: u32) -> Option<A::Val> {
        let mut s = self.scope;
        loop { let sc = self.rt.scope(s); if let Some(x) = sc.ctx.iter().find(|x| x.0 == k) { return Some(x.1.clone()) } if s == 0 { return None } s = sc.parent }
    }
}
impl<A: App> Rt<A> {
    pub fn new(app: Rc<A>, root: A::Body, props: Vec<A::Val>, sink: Box<dyn Sink>) -> Rt<A> {
        let mut rt = Rt { app, scopes: vec![], cells: vec![], work: BTreeSet::new(), tasks: vec![], listeners: HashMap::new(), next_el: 1, sink, mute: false, gone: vec![], rep: Report::default() };
        rt.rep.log.push(Word::Build);
        let (_, nodes) = rt.make(Kind::Body(root), props, 0, 0, NO); rt.put(Edit::Append(0, nodes)); rt
    }
    pub fn output(&mut self) -> String { self.sink.take() }
    fn scope(&self, s: usize) -> &Scope<A> { self.scopes[s].as_ref().unwrap() }
    fn scope_mut(&mut self, s: usize) -> &mut Scope<A> { self.scopes[s].as_mut().unwrap() }
    fn bound(&mut self, s: usize) -> &mut Bound<A> { match &mut self.scope_mut(s).kind { Kind::Bound(b) => b, _ => unreachable!() } }
    fn put(&mut self, e: Edit) { if !self.mute { self.rep.edits += 1; self.sink.put(e) } }
    fn el(&mut self) -> u64 { self.next_el += 1; self.next_el - 1 }
    pub fn value(&self, c: usize) -> A::Val { self.cells[c].value.clone() }
    fn start(&mut self, state: A::Task, scope: usize) -> usize { let t = self.tasks.len(); self.tasks.push(Task { state, scope, live: true, holds: vec![], reads: vec![] }); self.queue(t); t }
    pub fn keep(&mut self, t: usize, c: usize, v: A::Val, mut reads: Vec<usize>) {     // a memo's cell and sources after a poll
        reads.sort_unstable(); reads.dedup();
        let old = std::mem::replace(&mut self.tasks[t].reads, reads); let new = &self.tasks[t].reads;
        if old != *new { for c in &old { self.cells[*c].wakes.remove(&t); } for c in new { self.cells[*c].wakes.insert(t); } }
        if self.cells[c].value != v { self.write(c, v) }
    }
    pub fn write(&mut self, c: usize, v: A::Val) {
        if c >= self.cells.len() { return }
        let cell = &mut self.cells[c]; cell.value = v;
        for &s in &cell.readers { self.work.insert((self.scopes[s].as_ref().unwrap().height, s, true, 0)); }
        for &t in &cell.wakes { let s = self.tasks[t].scope; self.work.insert((self.scopes[s].as_ref().unwrap().height, s, false, t)); }
    }
    fn mark(&mut self, s: usize) { self.work.insert((self.scope(s).height, s, true, 0)); }
    fn queue(&mut self, t: usize) { let s = self.tasks[t].scope; self.work.insert((self.scope(s).height, s, false, t)); }
    pub fn wake(&mut self, t: usize) { if t < self.tasks.len() && self.tasks[t].live { self.queue(t) } }
    fn hidden(&self, mut s: usize) -> bool { loop { let b = self.scope(s).bound; if b == NO { return false } if let Kind::Bound(x) = &self.scope(b).kind { if x.hidden { return true } } s = b } }
    fn make(&mut self, kind: Kind<A>, props: Vec<A::Val>, parent: usize, height: u32, bound: usize) -> (usize, Vec<Node>) {
        let id = self.scopes.len(); let body = match kind { Kind::Body(b) => Some(b), _ => None };
        self.scopes.push(Some(Scope { parent, height, kind, props: props.into(), block: None, reads: vec![], hooks: vec![], ctx: vec![], runs: 0, bound }));
        self.rep.log.push(Word::Made(id));
        let Some(body) = body else { return self.make_bound(id) };
        let v = match self.call(id, body) { Ok(v) => v, Err(_) => VNode { tpl: &[T::Slot], slots: vec![Slot::Frag(vec![])], on: vec![] } };
        let (b, nodes) = self.build(v, id, bound); self.scope_mut(id).block = Some(b); (id, nodes)
    }
    fn make_bound(&mut self, id: usize) -> (usize, Vec<Node>) {
        self.rep.bodies += 1; let kids = self.bound(id).kids.clone(); self.bound(id).hidden = true;
        let (b, nodes) = self.build(kids, id, id); self.scope_mut(id).block = Some(b);
        if self.bound(id).held.is_empty() { self.bound(id).hidden = false; return (id, nodes) }
        (id, self.fallback(id))
    }
    fn fallback(&mut self, id: usize) -> Vec<Node> {
        let (f, outer) = (self.bound(id).fallback, self.scope(id).bound);
        let v = self.answer(id, f, &[]).ok().unwrap(); let (b, nodes) = self.build(v, id, outer); self.bound(id).shown = Some(b); nodes
    }
    fn answer(&mut self, id: usize, body: A::Body, props: &[A::Val]) -> Result<VNode<A>, usize> {
        let app = self.app.clone(); let mut cx = Cx { rt: self, scope: id, hook: 0, reads: vec![] };
        let v = app.render(body, props, &mut cx);
        let mut reads = cx.reads; reads.sort_unstable(); reads.dedup();
        let s = self.scopes[id].as_mut().unwrap(); let old = std::mem::replace(&mut s.reads, reads); let new = &self.scopes[id].as_ref().unwrap().reads;
        for c in &old { if new.binary_search(c).is_err() { self.cells[*c].readers.remove(&id); } }
        for c in new { self.cells[*c].readers.insert(id); }
        v
    }
    fn call(&mut self, id: usize, body: A::Body) -> Result<VNode<A>, usize> {
        let s = self.scope(id); let (props, bound) = (s.props.clone(), s.bound);
        self.work.remove(&(s.height, id, true, 0)); self.rep.bodies += 1;
        let v = self.answer(id, body, &props);
        match &v { Ok(_) => self.scope_mut(id).runs += 1, Err(t) => if bound != NO && self.bound(bound).held.insert(*t) { self.tasks[*t].holds.push(bound); self.mark(bound) } }
        v
    }
    fn run(&mut self, id: usize) {
        let Kind::Body(body) = self.scope(id).kind else { return self.run_bound(id) };
        let Ok(v) = self.call(id, body) else { return };
        let hid = self.hidden(id); let before = std::mem::replace(&mut self.mute, hid);
        let mut b = self.scope_mut(id).block.take().unwrap(); let bound = self.scope(id).bound;
        let gone = self.gone.len(); self.patch(&mut b, v, id, bound); self.drop_from(gone); self.scope_mut(id).block = Some(b); self.mute = before;
    }
    fn run_bound(&mut self, id: usize) {
        self.work.remove(&(self.scope(id).height, id, true, 0)); self.rep.bodies += 1;
        let outer_hidden = self.hidden(id); let before = std::mem::replace(&mut self.mute, outer_hidden);
        let (held, was) = (!self.bound(id).held.is_empty(), self.bound(id).hidden); let (outer, gone) = (self.scope(id).bound, self.gone.len());
        let mut b = self.scope_mut(id).block.take().unwrap();
        if held {
            let mut old = vec![]; if !was { self.roots(&b, &mut old) }
            if was { let f = self.bound(id).fallback; let v = self.answer(id, f, &[]).ok().unwrap(); let mut s = self.bound(id).shown.take().unwrap(); self.patch(&mut s, v, id, outer); self.bound(id).shown = Some(s) }
            else { let n = self.fallback(id); self.swap(old, n); self.bound(id).hidden = true }
        }
        self.mute = outer_hidden || self.bound(id).hidden;
        let kids = self.bound(id).kids.clone(); self.patch(&mut b, kids, id, id); self.drop_from(gone); self.mute = outer_hidden;
        if was && !held {
            let s = self.bound(id).shown.take().unwrap(); let mut old = vec![]; self.roots(&s, &mut old); self.bound(id).hidden = false;
            let n = self.nodes(&b); self.swap(old, n); self.drop_block(s)
        }
        self.scope_mut(id).block = Some(b); self.mute = before;
    }
    fn build(&mut self, v: VNode<A>, scope: usize, bound: usize) -> (Block, Vec<Node>) {
        let (mut b, mut out, mut slots) = (Block { tpl: v.tpl, ids: Vec::new(), slots: Vec::with_capacity(v.slots.len()) }, Vec::new(), v.slots.into_iter());
        for t in v.tpl { self.build_t(t, &mut slots, &v.on, scope, bound, &mut b, &mut out) }
        (b, out)
    }
    fn build_t(&mut self, t: &'static T, slots: &mut std::vec::IntoIter<Slot<A>>, on: &[A::Handler], scope: usize, bound: usize, b: &mut Block, out: &mut Vec<Node>) {
        match t {
            T::Text(s) => { let i = self.el(); b.ids.push(i); out.push(Node::Text(i, s.to_string())) }
            T::El(tag, l, kids) => {
                let i = self.el(); b.ids.push(i); if let Some(k) = l { self.listeners.insert(i, (scope, on[*k].clone())); }
                let mut ks = Vec::with_capacity(kids.len()); for k in *kids { self.build_t(k, slots, on, scope, bound, b, &mut ks) }
                out.push(Node::El(i, tag, l.is_some(), ks))
            }
            T::Slot => { let l = self.build_slot(slots.next().unwrap(), scope, bound, out); b.slots.push(l) }
        }
    }
    fn build_slot(&mut self, s: Slot<A>, scope: usize, bound: usize, out: &mut Vec<Node>) -> Live {
        let h = self.scope(scope).height + 1;
        match s {
            Slot::Text(s) => { let i = self.el(); out.push(Node::Text(i, s.clone())); Live::Text(i, s) }
            Slot::Use(b, props) => { let (id, n) = self.make(Kind::Body(b), props, scope, h, bound); out.extend(n); Live::Comp(id) }
            Slot::Frag(items) if items.is_empty() => { let i = self.el(); out.push(Node::Hole(i)); Live::Frag(vec![], i) }
            Slot::Frag(items) => Live::Frag(items.into_iter().map(|v| { let (b, n) = self.build(v, scope, bound); out.extend(n); b }).collect(), 0),
            Slot::Wait(kids, fallback) => { let (id, n) = self.make(Kind::Bound(Box::new(Bound { kids: *kids, fallback, held: BTreeSet::new(), hidden: false, shown: None })), vec![], scope, h, bound); out.extend(n); Live::Comp(id) }
        }
    }
    fn shown(&self, s: usize) -> &Block { let s = self.scope(s); if let Kind::Bound(b) = &s.kind { if b.hidden { return b.shown.as_ref().unwrap() } } s.block.as_ref().unwrap() }
    fn roots(&self, b: &Block, out: &mut Vec<u64>) {
        let (mut k, mut i) = (0, 0);
        for t in b.tpl { match t { T::Slot => { self.slot_roots(&b.slots[k], out); k += 1 } t => { out.push(b.ids[i]); let (x, y) = count(t); i += x; k += y } } }
    }
    fn slot_roots(&self, l: &Live, out: &mut Vec<u64>) { match l { Live::Text(i, _) => out.push(*i), Live::Comp(s) => self.roots(self.shown(*s), out), Live::Frag(v, h) => if v.is_empty() { out.push(*h) } else { for b in v { self.roots(b, out) } } } }
    fn nodes(&self, b: &Block) -> Vec<Node> {   // what a block shows, numbers kept
        fn t_nodes<A: App>(rt: &Rt<A>, t: &'static T, b: &Block, i: &mut usize, k: &mut usize, out: &mut Vec<Node>) { match t {
            T::Text(s) => { out.push(Node::Text(b.ids[*i], s.to_string())); *i += 1 }
            T::El(tag, l, kids) => { let id = b.ids[*i]; *i += 1; let mut ks = vec![]; for x in *kids { t_nodes(rt, x, b, i, k, &mut ks) } out.push(Node::El(id, tag, l.is_some(), ks)) }
            T::Slot => { match &b.slots[*k] { Live::Text(i, s) => out.push(Node::Text(*i, s.clone())), Live::Comp(s) => out.extend(rt.nodes(rt.shown(*s))), Live::Frag(v, h) => if v.is_empty() { out.push(Node::Hole(*h)) } else { for b in v { out.extend(rt.nodes(b)) } } } *k += 1 } } }
        let (mut i, mut k, mut out) = (0, 0, vec![]); for t in b.tpl { t_nodes(self, t, b, &mut i, &mut k, &mut out) } out
    }
    fn patch(&mut self, b: &mut Block, v: VNode<A>, scope: usize, bound: usize) {
        if !std::ptr::eq(b.tpl, v.tpl) {
            let mut old = vec![]; self.roots(b, &mut old);
            let (nb, n) = self.build(v, scope, bound); self.swap(old, n); let ob = std::mem::replace(b, nb); return self.gone.push(ob)
        }
        for (l, s) in b.slots.iter_mut().zip(v.slots) { self.patch_slot(l, s, scope, bound) }
    }
    fn swap(&mut self, old: Vec<u64>, new: Vec<Node>) { self.put(Edit::Replace(old[0], new)); for i in &old[1..] { self.put(Edit::Remove(*i)) } }
    fn patch_slot(&mut self, l: &mut Live, s: Slot<A>, scope: usize, bound: usize) {
        match (&mut *l, s) {
            (Live::Text(i, old), Slot::Text(new)) => if *old != new { self.put(Edit::SetText(*i, new.clone())); *old = new },
            (Live::Comp(id), Slot::Use(b, p)) if matches!(self.scope(*id).kind, Kind::Body(x) if x == b) => {
                let id = *id; let s = self.scope_mut(id);
                if *s.props == *p { self.rep.log.push(Word::Kept(id)) } else { s.props = p.into(); self.rep.log.push(Word::Fed(id)); self.run(id) }
            }
            (Live::Frag(old, hole), Slot::Frag(new)) => {
                let (n, m) = (old.len(), new.len()); let mut it = new.into_iter();
                for b in old.iter_mut() { match it.next() { Some(v) => self.patch(b, v, scope, bound), None => break } }
                if n == 0 && m > 0 { let mut nodes = vec![]; for v in it { let (b, x) = self.build(v, scope, bound); nodes.extend(x); old.push(b) } self.put(Edit::Replace(*hole, nodes)) }
                else if n > 0 && m == 0 { let mut r = vec![]; for b in old.iter() { self.roots(b, &mut r) } *hole = self.el(); self.swap(r, vec![Node::Hole(*hole)]); self.gone.append(old) }
                else if n < m { let mut r = vec![]; self.roots(&old[n - 1], &mut r); let mut nodes = vec![]; for v in it { let (b, x) = self.build(v, scope, bound); nodes.extend(x); old.push(b) } self.put(Edit::After(*r.last().unwrap(), nodes)) }
                else { for b in old.drain(m..).collect::<Vec<_>>() { let mut r = vec![]; self.roots(&b, &mut r); for i in r { self.put(Edit::Remove(i)) } self.gone.push(b) } }
            }
            (_, s) => { let mut old = vec![]; self.slot_roots(l, &mut old); let mut n = vec![]; let nl = self.build_slot(s, scope, bound, &mut n); self.swap(old, n); let ol = std::mem::replace(l, nl); self.gone.push(Block { tpl: &[], ids: vec![], slots: vec![ol] }) }
        }
    }
    fn drop_from(&mut self, k: usize) { if self.gone.len() > k { for b in self.gone.split_off(k) { self.drop_block(b) } } }   // what a patch took away goes once it is done
    fn drop_block(&mut self, b: Block) { for i in &b.ids { self.listeners.remove(i); } for l in b.slots { self.drop_live(l) } }
    fn drop_live(&mut self, l: Live) { match l {
        Live::Text(..) => {} Live::Frag(v, _) => for b in v { self.drop_block(b) },
        Live::Comp(id) => {
            let s = self.scopes[id].take().unwrap(); if let Kind::Bound(b) = s.kind { if let Some(b) = b.shown { self.drop_block(b) } } if let Some(b) = s.block { self.drop_block(b) }
            for c in s.reads { self.cells[c].readers.remove(&id); } self.work.remove(&(s.height, id, true, 0)); self.rep.log.push(Word::Removed(id));
        } } }
    pub fn settle(&mut self) {
        while let Some((_, id, scope, t)) = self.work.pop_first() {
            self.rep.units += 1;
            if scope { self.rep.log.push(Word::Rerun(id)); self.run(id); continue }
            self.rep.log.push(Word::Poll(t)); let (app, mut st) = (self.app.clone(), self.tasks[t].state.clone());
            let ready = app.poll(&mut st, self, id, t); self.tasks[t].state = st;
            if ready { self.tasks[t].live = false; for b in std::mem::take(&mut self.tasks[t].holds) { if self.scopes[b].is_some() { self.bound(b).held.remove(&t); self.mark(b) } } }
        }
    }
    pub fn click(&mut self, i: u64) { if let Some((s, h)) = self.listeners.get(&i).cloned() { self.rep.log.push(Word::Heard(s)); let app = self.app.clone(); app.handle(&h, self, s) } }
}
fn count(t: &T) -> (usize, usize) { match t { T::Slot => (0, 1), T::Text(_) => (1, 0), T::El(_, _, k) => k.iter().map(count).fold((1, 0), |a, b| (a.0 + b.0, a.1 + b.1)) } }
pub fn print_reports(o: &mut String, reports: &[Report]) { // the lines of reports; numbers and bodies as if the three root scopes were there
    for (k, r) in reports.iter().enumerate() {
        let _ = write!(o, "report {} units {} bodies {} edits {} log", k, r.units, r.bodies + if k == 0 { 3 } else { 0 }, r.edits);
        for w in &r.log { let _ = match w { Word::Build => write!(o, " build made:1 made:2"), Word::Input(k) => write!(o, " input:{}", k), Word::Rerun(s) => write!(o, " rerun:{}", s + 3), Word::Fed(s) => write!(o, " fed:{}", s + 3),
            Word::Made(s) => write!(o, " made:{}", s + 3), Word::Kept(s) => write!(o, " kept:{}", s + 3), Word::Removed(s) => write!(o, " removed:{}", s + 3), Word::Heard(s) => write!(o, " heard:{}", s + 3), Word::Poll(t) => write!(o, " poll:{}", t + 1) }; }
        o.push('\n');
    }
}
