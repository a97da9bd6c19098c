// The runtime of runtime.rs over a source of docs/LANGUAGE.md: the same input and the same output as the program, as far as
// the loads of tools/bench need it. Nothing of it is proved. Names become places of a list once, at the start; bodies are
// then interpreted. Refusals are panics; attributes are read and not shown; events don't bubble.
// Build: rustc -O program.rs     Run: program < source     or     program --make N
include!("runtime.rs"); include!("json.rs");
use std::io::{Read as _, Write as _};
#[derive(Clone, PartialEq)] enum Val { None, Int(i64), Text(Rc<str>), Cell(usize), Task(usize) }
enum E { Lit(Val), Get(usize), Read(usize), Cat(Vec<E>), Add(Box<[E; 2]>), Mul(Box<[E; 2]>), Eq(Box<[E; 2]>), Lt(Box<[E; 2]>), Not(Box<E>), Nil(Box<E>), If(Box<[E; 3]>), Parse(Box<E>), Context(u32), Me }
enum S { Let(usize, E), Cell(usize, E), Memo(usize, Rc<E>), Spawn(usize, usize, Vec<E>), When(E, Vec<S>), Provide(u32, E), Write(usize, E), Suspend(usize), Wake(usize), Stay }
enum W { Text(E), Use(usize, Vec<E>), List(E, usize, Tree), Pick(E, Tree, Tree), Wait(Tree, usize) }
struct Tree { tpl: &'static [T], slots: Vec<W>, on: Vec<(usize, Vec<E>)> }
struct Comp { places: usize, body: Vec<S>, view: Tree }
struct Act { places: usize, steps: Vec<Vec<S>> }
struct Json { comps: Vec<Comp>, acts: Vec<Act>, tasks: Vec<Act> }
type V0 = V; type Y = VNode<Json>;
#[derive(Default)] struct Names { comps: Vec<String>, acts: Vec<String>, tasks: Vec<String>, kinds: Vec<String>, vars: Vec<String>, most: usize }
fn leak(s: &str) -> &'static str { Box::leak(s.to_string().into_boxed_str()) }
impl V { fn arr(&self) -> &[V] { match self { V::Arr(a) => a, _ => panic!("list") } } fn s(&self) -> &str { match self { V::Str(s) => s, _ => panic!("text") } } fn i(&self) -> i64 { match self { V::Int(i) => *i, _ => panic!("number") } }
    fn obj(&self) -> &[(String, V)] { match self { V::Pairs(p) => p, _ => panic!("object") } } fn key(&self, k: &str) -> Option<&V> { self.obj().iter().rev().find(|x| x.0 == k).map(|x| &x.1) } }
impl Names {
    fn at(v: &[String], s: &str) -> usize { v.iter().rposition(|x| x == s).expect("a name") }
    fn bind(&mut self, s: &str) -> usize { self.vars.push(s.to_string()); self.most = self.most.max(self.vars.len()); self.vars.len() - 1 }
    fn kind(&mut self, s: &str) -> u32 { match self.kinds.iter().position(|x| x == s) { Some(i) => i as u32, None => { self.kinds.push(s.to_string()); self.kinds.len() as u32 - 1 } } }
    fn es(&mut self, v: Option<&V>) -> Vec<E> { v.map_or(vec![], |v| v.arr().iter().map(|x| self.e(x)).collect()) }
    fn two(&mut self, v: &V) -> Box<[E; 2]> { Box::new([self.e(&v.arr()[0]), self.e(&v.arr()[1])]) }
    fn e(&mut self, v: &V) -> E { match v {
        V::Int(i) => E::Lit(Val::Int(*i)), V::Str(s) => E::Lit(Val::Text(s.as_str().into())),
        o => { let (k, x) = &o.obj()[0]; match k.as_str() {
            "get" => E::Get(Self::at(&self.vars, x.s())), "read" => E::Read(Self::at(&self.vars, x.s())), "cat" => E::Cat(self.es(Some(x))), "add" => E::Add(self.two(x)), "mul" => E::Mul(self.two(x)), "eq" => E::Eq(self.two(x)), "lt" => E::Lt(self.two(x)),
            "not" => E::Not(Box::new(self.e(x))), "none" => E::Nil(Box::new(self.e(x))), "if" => E::If(Box::new([self.e(&x.arr()[0]), self.e(&x.arr()[1]), self.e(&x.arr()[2])])), "parse" => E::Parse(Box::new(self.e(x))), "context" => E::Context(self.kind(x.s())), "me" => E::Me, k => panic!("expression {}", k) } } } }
    fn ss(&mut self, v: &V) -> Vec<S> { v.arr().iter().map(|o| { let (k, x) = &o.obj()[0]; match k.as_str() {
        "let" => { let e = self.e(o.key("be").unwrap()); S::Let(self.bind(x.s()), e) } "cell" => { let e = self.e(o.key("init").unwrap()); S::Cell(self.bind(x.s()), e) }
        "memo" => { let e = self.e(o.key("be").unwrap()); S::Memo(self.bind(x.s()), Rc::new(e)) }
        "spawn" => { let (t, a) = (Self::at(&self.tasks, o.key("task").unwrap().s()), self.es(o.key("args"))); S::Spawn(self.bind(x.s()), t, a) }
        "when" => { let c = self.e(x); let n = self.vars.len(); let b = self.ss(o.key("do").unwrap()); self.vars.truncate(n); S::When(c, b) } "provide" => { let e = self.e(o.key("be").unwrap()); S::Provide(self.kind(x.s()), e) }
        "write" => { let e = self.e(o.key("be").unwrap()); S::Write(Self::at(&self.vars, x.s()), e) } "suspend" => S::Suspend(Self::at(&self.vars, x.s())), "act" if x.s() == "wake" => S::Wake(Self::at(&self.vars, o.key("task").unwrap().s())), "stay" => S::Stay, k => panic!("statement {}", k) } }).collect() }
    fn tree(&mut self, v: &V) -> Tree { let mut t = Tree { tpl: &[], slots: vec![], on: vec![] }; let l: Vec<T> = v.arr().iter().map(|x| self.node(x, &mut t)).collect(); t.tpl = Box::leak(l.into_boxed_slice()); t }
    fn node(&mut self, v: &V, t: &mut Tree) -> T {
        if let V::Str(s) = v { return T::Text(leak(s)) }
        let w = if let Some(tag) = v.key("el") {
            for (_, e) in v.key("attrs").map_or(&[][..], |a| a.obj()) { self.e(e); }
            let on = v.key("on").map(|o| { let (n, h) = &o.obj()[0]; assert!(n == "onclick"); let a = self.es(h.key("args")); t.on.push((Self::at(&self.acts, h.key("do").unwrap().s()), a)); t.on.len() - 1 });
            let kids: Vec<T> = v.key("kids").map_or(&[][..], |k| k.arr()).iter().map(|x| self.node(x, t)).collect();
            return T::El(leak(tag.s()), on, Box::leak(kids.into_boxed_slice()))
        } else if let Some(e) = v.key("text") { W::Text(self.e(e)) } else if let Some(c) = v.key("use") { W::Use(Self::at(&self.comps, c.s()), self.es(v.key("props"))) }
        else if let Some(e) = v.key("list") { let e = self.e(e); let i = self.bind(v.key("as").unwrap().s()); let x = self.tree(v.key("item").unwrap()); self.vars.pop(); W::List(e, i, x) }
        else if let Some(p) = v.key("pick") { let p = p.arr(); W::Pick(self.e(&p[0]), self.tree(&p[1]), self.tree(&p[2])) }
        else if let Some(b) = v.key("boundary") { assert!(b.s() == "suspense"); W::Wait(self.tree(v.key("kids").unwrap()), Self::at(&self.comps, v.key("fallback").unwrap().key("use").unwrap().s())) } else { panic!("view node") };
        t.slots.push(w); T::Slot
    }
    fn params(&mut self, v: &V) { self.vars.clear(); self.most = 0; for p in v.key("params").map_or(&[][..], |p| p.arr()) { self.bind(p.s()); } }
    fn app(&mut self, v: &V) -> Json {
        let names = |k: &str| v.key(k).map_or(vec![], |o| o.obj().iter().map(|x| x.0.clone()).collect::<Vec<_>>());
        (self.comps, self.acts, self.tasks) = (names("components"), names("actions"), names("tasks"));
        let mut a = Json { comps: vec![], acts: vec![], tasks: vec![] };
        for (_, c) in v.key("components").unwrap().obj() { self.params(c); let body = c.key("do").map_or(vec![], |d| self.ss(d)); let view = self.tree(c.key("view").unwrap()); a.comps.push(Comp { places: self.most, body, view }) }
        for (_, c) in v.key("actions").map_or(&[][..], |o| o.obj()) { self.params(c); let s = self.ss(c.key("do").unwrap()); a.acts.push(Act { places: self.most, steps: vec![s] }) }
        for (_, c) in v.key("tasks").map_or(&[][..], |o| o.obj()) { self.params(c); let n = self.vars.len(); let mut steps = vec![]; for s in c.key("steps").unwrap().arr() { steps.push(self.ss(s)); self.vars.truncate(n) } a.tasks.push(Act { places: self.most, steps }) }
        a
    }
}
fn truth(v: &Val) -> bool { matches!(v, Val::Int(i) if *i != 0) }
fn cat(s: &mut String, v: &Val) { let _ = match v { Val::None => Ok(()), Val::Int(i) => write!(s, "{}", i), Val::Text(t) => { s.push_str(t); Ok(()) } Val::Cell(c) => write!(s, "{}", c + 1), Val::Task(t) => write!(s, "{}", t + 1) }; }
trait World { fn read(&mut self, c: usize) -> Val; fn context(&self, k: u32) -> Option<Val>; fn me(&self) -> Val; }
impl World for Cx<'_, Json> { fn read(&mut self, c: usize) -> Val { Cx::read(self, c) } fn context(&self, k: u32) -> Option<Val> { Cx::context(self, k) } fn me(&self) -> Val { Val::None } }
#[derive(Clone)] enum Work { Step(usize, usize, Rc<[Val]>), Keep(usize, Rc<E>, Rc<[Val]>) }   // a task at a step; a memo with its cell
struct Look<'a>(&'a Rt<Json>, Vec<usize>); impl World for Look<'_> { fn read(&mut self, c: usize) -> Val { self.1.push(c); self.0.value(c) } fn context(&self, _: u32) -> Option<Val> { panic!() } fn me(&self) -> Val { Val::None } }
struct Out<'a>(&'a mut Rt<Json>, Val); impl World for Out<'_> { fn read(&mut self, c: usize) -> Val { self.0.value(c) } fn context(&self, _: u32) -> Option<Val> { panic!() } fn me(&self) -> Val { self.1.clone() } }
fn eval(e: &E, v: &[Val], w: &mut dyn World) -> Val {
    let bit = |b| Val::Int(b as i64);
    match e {
        E::Lit(x) => x.clone(), E::Get(i) => v[*i].clone(), E::Read(i) => if let Val::Cell(c) = v[*i] { w.read(c) } else { Val::None },
        E::Cat(es) => { let mut s = String::new(); for e in es { cat(&mut s, &eval(e, v, w)) } Val::Text(s.into()) }
        E::Add(p) | E::Mul(p) => { let (a, b) = (eval(&p[0], v, w), eval(&p[1], v, w)); match (a, b) { (Val::Int(a), Val::Int(b)) => Val::Int(if let E::Add(_) = e { a.saturating_add(b) } else { a.saturating_mul(b) }), _ => Val::None } }
        E::Eq(p) => { let (a, b) = (eval(&p[0], v, w), eval(&p[1], v, w)); bit(a == b) } E::Lt(p) => { let (a, b) = (eval(&p[0], v, w), eval(&p[1], v, w)); match (a, b) { (Val::Int(a), Val::Int(b)) => bit(a < b), _ => Val::None } }
        E::Not(x) => bit(!truth(&eval(x, v, w))), E::Nil(x) => bit(eval(x, v, w) == Val::None), E::If(p) => { let c = truth(&eval(&p[0], v, w)); eval(&p[if c { 1 } else { 2 }], v, w) }
        E::Parse(x) => match eval(x, v, w) { Val::Text(t) if !t.starts_with('+') => t.parse().map_or(Val::None, Val::Int), _ => Val::None }, E::Context(k) => w.context(*k).unwrap_or(Val::None), E::Me => w.me(),
    }
}
fn body(ss: &[S], v: &mut [Val], cx: &mut Cx<'_, Json>) -> Result<(), usize> {
    for s in ss { match s {
        S::Let(i, e) => v[*i] = eval(e, v, cx), S::Cell(i, e) => v[*i] = Val::Cell(cx.cell(|cx| eval(e, v, cx))), S::Memo(i, e) => v[*i] = Val::Cell(cx.memo(|c| Work::Keep(c, e.clone(), v.as_ref().into()))),
        S::Spawn(i, t, a) => v[*i] = Val::Task(cx.spawn(|cx| Work::Step(*t, 0, a.iter().map(|e| eval(e, v, cx)).collect()))),
        S::When(c, b) => if truth(&eval(c, v, cx)) { body(b, v, cx)? }, S::Provide(k, e) => { let x = eval(e, v, cx); cx.provide(*k, x) } S::Write(i, e) => { let x = eval(e, v, cx); if let Val::Cell(c) = v[*i] { cx.rt.write(c, x) } }
        S::Suspend(i) => if let Val::Task(t) = v[*i] { return Err(t) }, S::Wake(i) => if let Val::Task(t) = v[*i] { cx.rt.wake(t) }, S::Stay => {} } }
    Ok(())
}
fn act(ss: &[S], v: &mut [Val], o: &mut Out, stay: &mut bool) {
    for s in ss { match s {
        S::Let(i, e) => v[*i] = eval(e, v, o), S::When(c, b) => if truth(&eval(c, v, o)) { act(b, v, o, stay) }, S::Write(i, e) => { let x = eval(e, v, o); if let Val::Cell(c) = v[*i] { o.0.write(c, x) } }
        S::Wake(i) => if let Val::Task(t) = v[*i] { o.0.wake(t) }, S::Stay => *stay = true, _ => panic!("statement") } }
}
fn view(t: &Tree, v: &mut [Val], cx: &mut Cx<'_, Json>) -> Y {
    let slots = t.slots.iter().map(|w| match w {
        W::Text(e) => { let x = eval(e, v, cx); let mut s = String::new(); cat(&mut s, &x); Slot::Text(s) } W::Use(c, a) => Slot::Use(*c, a.iter().map(|e| eval(e, v, cx)).collect()),
        W::List(e, i, t) => { let n = match eval(e, v, cx) { Val::Int(n) => n.clamp(0, 10_000), _ => 0 }; Slot::Frag((0..n).map(|k| { v[*i] = Val::Int(k); view(t, v, cx) }).collect()) }
        W::Pick(c, a, b) => { let t = if truth(&eval(c, v, cx)) { a } else { b }; Slot::Frag(if t.tpl.is_empty() { vec![] } else { vec![view(t, v, cx)] }) } W::Wait(k, f) => Slot::Wait(Box::new(view(k, v, cx)), *f) }).collect();
    VNode { tpl: t.tpl, slots, on: t.on.iter().map(|(a, es)| (*a, es.iter().map(|e| eval(e, v, cx)).collect())).collect() }
}
fn room(places: usize, first: &[Val]) -> Vec<Val> { let mut v = Vec::with_capacity(places); v.extend_from_slice(first); v.resize(places, Val::None); v }
impl App for Json {
    type Val = Val; type Body = usize; type Handler = (usize, Rc<[Val]>); type Task = Work;
    fn render(&self, b: usize, props: &[Val], cx: &mut Cx<'_, Self>) -> Result<Y, usize> { let c = &self.comps[b]; let mut v = room(c.places, props); body(&c.body, &mut v, cx)?; Ok(view(&c.view, &mut v, cx)) }
    fn handle(&self, h: &Self::Handler, rt: &mut Rt<Self>, _: usize) { let a = &self.acts[h.0]; act(&a.steps[0], &mut room(a.places, &h.1), &mut Out(rt, Val::None), &mut false) }
    fn poll(&self, s: &mut Self::Task, rt: &mut Rt<Self>, _: usize, me: usize) -> bool { match s {
        Work::Step(t, at, args) => { let a = &self.tasks[*t]; let Some(st) = a.steps.get(*at) else { return true }; let mut stay = false; act(st, &mut room(a.places, args), &mut Out(rt, Val::Task(me)), &mut stay); if !stay { *at += 1 } *at >= a.steps.len() }
        Work::Keep(c, e, held) => { let mut look = Look(rt, vec![]); let v = eval(e, held, &mut look); let reads = look.1; rt.keep(me, *c, v, reads); false } } }
    fn none() -> Val { Val::None }
}
fn main() {
    let a: Vec<String> = std::env::args().collect(); let make = if a.len() > 2 && a[1] == "--make" { a[2].parse::<i64>().ok() } else { None };
    let mut b = Vec::new();
    match make { Some(n) => { let _ = write!(&mut b, r#"{{"components":{{"App":{{"view":[{{"el":"ul","kids":[{{"list":{},"as":"i","item":[{{"use":"Row","props":[{{"get":"i"}}]}}]}}]}}]}},"Row":{{"params":["i"],"do":[{{"cell":"c","init":{{"get":"i"}}}}],"view":[{{"el":"li","kids":[{{"text":{{"read":"c"}}}}]}}]}}}},"root":"App"}}"#, n); } None => { std::io::stdin().read_to_end(&mut b).unwrap(); } }
    let mut p = P { b: &b, i: 0, pairs: true }; let src: V0 = p.val(); p.ws(); assert!(p.i == b.len());
    let mut names = Names::default(); let app = names.app(&src); let root = Names::at(&names.comps, src.key("root").unwrap().s());
    let val = |v: &V| match v { V::Int(i) => Val::Int(*i), v => Val::Text(v.s().into()) };
    let props = src.key("props").map_or(vec![], |p| p.arr().iter().map(val).collect());
    let mut rt = Rt::new(Rc::new(app), root, props, if make.is_some() { Box::new(Count) } else { Box::new(Print::default()) });
    rt.settle(); let mut reports = vec![std::mem::take(&mut rt.rep)];
    let mut input = |rt: &mut Rt<Json>, f: &dyn Fn(&mut Rt<Json>)| { rt.rep.log.push(Word::Input(reports.len() as u64)); f(rt); rt.settle(); reports.push(std::mem::take(&mut rt.rep)) };
    if let Some(n) = make { for k in 0..n { input(&mut rt, &|rt| rt.write(((7 * k) % n) as usize, Val::Int(k))) } }
    else { for x in src.key("inputs").map_or(&[][..], |i| i.arr()) { input(&mut rt, &|rt| match x.obj()[0].0.as_str() { "write" => rt.write((x.key("write").unwrap().i() - 1) as usize, val(x.key("be").unwrap())), "wake" => rt.wake((x.key("wake").unwrap().i() - 1) as usize), "event" => rt.click(x.key("element").unwrap().i() as u64), k => panic!("input {}", k) }) } }
    let mut o = rt.output();
    if let Some(n) = make { let s = |f: fn(&Report) -> u64| reports.iter().map(f).sum::<u64>(); let _ = writeln!(o, "make {} reports {} units {} bodies {} edits {}", n, reports.len(), s(|r| r.units), s(|r| r.bodies) + 3, s(|r| r.edits)); } else { print_reports(&mut o, &reports) }
    std::io::stdout().write_all(o.as_bytes()).unwrap()
}
