// A JSON reader in plain Rust, included by program.rs. Nothing of it is proved.
#[allow(dead_code)] enum V { Null, Bool(bool), Int(i64), Float(f64), Str(String), Arr(Vec<V>), Obj(std::collections::BTreeMap<String, V>), Pairs(Vec<(String, V)>) }
struct P<'a> { b: &'a [u8], i: usize, pairs: bool }
#[allow(dead_code)] impl P<'_> {
    fn ws(&mut self) { while self.i < self.b.len() && matches!(self.b[self.i], b' ' | b'\n' | b'\t' | b'\r') { self.i += 1 } }
    fn eat(&mut self, c: u8) { self.ws(); assert!(self.b.get(self.i) == Some(&c)); self.i += 1 }
    fn peek(&mut self) -> u8 { self.ws(); self.b[self.i] }
    fn span(&mut self) -> (usize, usize, bool) { // of a text; true where it has an escape
        self.eat(b'"'); let s = self.i; let mut esc = false;
        loop { match self.b[self.i] { b'"' => break, b'\\' => { esc = true; self.i += 2 } c => { assert!(c >= 0x20); self.i += 1 } } }
        self.i += 1; (s, self.i - 1, esc)
    }
    fn text(&mut self) -> String {
        let (s, e, esc) = self.span(); let t = std::str::from_utf8(&self.b[s..e]).unwrap();
        if !esc { return t.to_string() }
        let (mut o, mut it) = (String::new(), t.chars());
        while let Some(c) = it.next() { if c != '\\' { o.push(c); continue }
            match it.next().unwrap() { 'n' => o.push('\n'), 't' => o.push('\t'), 'r' => o.push('\r'), 'b' => o.push('\u{8}'), 'f' => o.push('\u{c}'), 'u' => { let mut x = 0; for _ in 0..4 { x = x * 16 + it.next().unwrap().to_digit(16).unwrap() } o.push(char::from_u32(x).unwrap_or('?')) } c => o.push(c) } }
        o
    }
    fn num(&mut self) -> (usize, usize) { let s = self.i; while self.i < self.b.len() && matches!(self.b[self.i], b'-' | b'+' | b'.' | b'e' | b'E' | b'0'..=b'9') { self.i += 1 } assert!(self.i > s); (s, self.i) }
    fn word(&mut self, w: &str) { assert!(self.b[self.i..].starts_with(w.as_bytes())); self.i += w.len() }
    fn val(&mut self) -> V { match self.peek() {
        b'{' if self.pairs => { self.i += 1; let mut m = vec![]; if self.peek() == b'}' { self.i += 1; return V::Pairs(m) }
            loop { self.ws(); let k = self.text(); self.eat(b':'); let v = self.val(); m.push((k, v)); if self.peek() == b',' { self.i += 1 } else { self.eat(b'}'); return V::Pairs(m) } } }
        b'{' => { self.i += 1; let mut m = std::collections::BTreeMap::new(); if self.peek() == b'}' { self.i += 1; return V::Obj(m) }
            loop { self.ws(); let k = self.text(); self.eat(b':'); let v = self.val(); m.insert(k, v); if self.peek() == b',' { self.i += 1 } else { self.eat(b'}'); return V::Obj(m) } } }
        b'[' => { self.i += 1; let mut a = vec![]; if self.peek() == b']' { self.i += 1; return V::Arr(a) } loop { a.push(self.val()); if self.peek() == b',' { self.i += 1 } else { self.eat(b']'); return V::Arr(a) } } }
        b'"' => V::Str(self.text()), b't' => { self.word("true"); V::Bool(true) } b'f' => { self.word("false"); V::Bool(false) } b'n' => { self.word("null"); V::Null }
        _ => { let (s, e) = self.num(); let t = std::str::from_utf8(&self.b[s..e]).unwrap(); match t.parse() { Ok(i) => V::Int(i), _ => V::Float(t.parse().unwrap()) } } } }
}
