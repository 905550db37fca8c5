//! Test vectors: `make` makes them. Format: VECTORS.md.
use crate::{
    Rng,
    check::{damage, example, random_list},
    data,
    found::*,
    hunt,
    lines::{Rec, get_both, rust_builder, rust_finish_arena},
    paper, rf, rp, tables,
};
use std::collections::BTreeMap;

#[derive(Default)]
struct Out {
    bytes: Vec<u8>,
    cases: u32,
    kinds: BTreeMap<(u8, u32), u32>,
    paper_only: u32,
}
#[derive(Default, Clone)]
struct P(Vec<u8>);
impl P {
    fn u8(mut self, v: u8) -> Self {
        self.0.push(v);
        self
    }
    fn u16(mut self, v: u16) -> Self {
        self.0.extend(v.to_le_bytes());
        self
    }
    fn u32(mut self, v: u64) -> Self {
        self.0.extend((v as u32).to_le_bytes());
        self
    }
    fn u64(mut self, v: u64) -> Self {
        self.0.extend(v.to_le_bytes());
        self
    }
    fn bytes(mut self, b: &[u8]) -> Self {
        self.0.extend((b.len() as u32).to_le_bytes());
        self.0.extend(b);
        self
    }
    fn raw(mut self, b: &[u8]) -> Self {
        self.0.extend(b);
        self
    }
    fn state(self, s: paper::State) -> Self {
        self.u64(s.used).u64(s.keys).u64(s.head)
    }
}
pub const BUFFER: u8 = 0x0f;
pub const ADD: u8 = 0x10;
pub const SET: u8 = 0x11;
pub const LOOK: u8 = 0x12;
pub const POKE: u8 = 0x13;
pub const FINISH: u8 = 0x18;
pub const FINISH_GEN: u8 = 0x19;
pub const BODY: u8 = 0x20;
pub const VALIDATE: u8 = 0x21;
pub const GET: u8 = 0x22;
pub const LIST: u8 = 0x23;
pub const LIST_RAW: u8 = 0x24;
pub const FBUILD: u8 = 0x30;
pub const FBUILD_GEN: u8 = 0x31;
pub const FBASE: u8 = 0x32;
pub const FASK: u8 = 0x33;

impl Out {
    fn put(&mut self, op: u8, result: u32, p: P) {
        self.bytes.push(op);
        self.bytes.extend((p.0.len() as u32).to_le_bytes());
        self.bytes.extend(p.0);
        self.cases += 1;
        *self.kinds.entry((op, result)).or_default() += 1;
    }
}
/// A changed copy as (new length, patches).
fn patches(base: &[u8], other: &[u8]) -> Option<P> {
    let mut v = Vec::new();
    for i in 0..other.len() {
        let old = if i < base.len() { base[i] } else { 0xA5 };
        if old != other[i] {
            v.push((i, other[i]));
        }
    }
    if v.len() > 40 {
        return None;
    }
    let mut p = P::default().u32(other.len() as u64).u8(v.len() as u8);
    for (at, x) in v {
        p = p.u32(at as u64).u8(x);
    }
    Some(p)
}
fn gen_keys(seed: u64, n: u64) -> Vec<[u8; 8]> {
    (0..n).map(|i| (i << 40 | paper::mix(seed.wrapping_add(i)) % (1 << 40)).to_be_bytes()).collect()
}
pub fn gen_arena(seed: u64, n: u64) -> Vec<u8> {
    let mut v = Vec::new();
    for (i, k) in gen_keys(seed, n).iter().enumerate() {
        v.extend(8u32.to_le_bytes());
        v.extend(1u32.to_le_bytes());
        v.extend(k);
        v.extend((i as u64 + 1).to_le_bytes());
        v.push(1);
        v.extend(8u32.to_le_bytes());
        v.extend((8 * i as u64).to_le_bytes());
    }
    v
}
pub fn gen_hashes(seed: u64, n: u64) -> Vec<u64> {
    (0..n).map(|i| paper::mix(seed.wrapping_add(i.wrapping_mul(paper::STEP)))).collect()
}

/// A body of an arena under any seed (as construct does it, pilots below 2^23): accepted bytes that finish does not make.
fn body_with_seed(arena: &[u8], seed: u64) -> Vec<u8> {
    let (heads, _) = paper::walk(arena, 0, None, None, &mut |_, _| true).unwrap();
    let n = heads.len();
    let b = n.div_ceil(3);
    let h: Vec<u64> = heads.iter().map(|&x| rp::hash(paper::key_at(arena, x), seed)).collect();
    let mut order: Vec<Vec<usize>> = (0..b).map(|k| (0..n).filter(|&i| rp::bucket(h[i], b) == k).collect()).collect();
    order.sort_by_key(|m: &Vec<usize>| std::cmp::Reverse(m.len()));
    let (mut pilots, mut slots) = (vec![0u32; b], vec![usize::MAX; n]);
    for m in order.iter().filter(|m| !m.is_empty()) {
        let p = (0..1u32 << 23)
            .find(|&p| {
                let at: Vec<usize> = m.iter().map(|&i| rp::position(h[i], p, n)).collect();
                at.iter().enumerate().all(|(i, &q)| slots[q] == usize::MAX && !at[..i].contains(&q))
            })
            .expect("a pilot");
        pilots[rp::bucket(h[m[0]], b)] = p;
        for &i in m {
            slots[rp::position(h[i], p, n)] = i;
        }
    }
    let mut o = b"KIBANPH2".to_vec();
    o.extend(seed.to_le_bytes());
    o.extend((n as u32).to_le_bytes());
    o.extend((b as u32).to_le_bytes());
    o.extend((32 + 4 * b as u64 + 12 * n as u64).to_le_bytes());
    for p in pilots {
        o.extend(p.to_le_bytes());
    }
    for i in slots {
        o.extend((heads[i] as u64).to_le_bytes());
        o.extend((rp::fingerprint(h[i]) as u32).to_le_bytes());
    }
    o.extend(arena);
    o
}
struct Builder<'a> {
    o: &'a mut Out,
    buf: Vec<u8>,
}
impl Builder<'_> {
    fn new<'a>(o: &'a mut Out, len: usize, fill: u8) -> Builder<'a> {
        o.put(BUFFER, 0, P::default().u32(len as u64).u8(fill));
        Builder { o, buf: vec![fill; len] }
    }
    fn add(&mut self, s: paper::State, new: bool, kind: u8, key: &[u8], vl: u64, seq: u64) -> paper::State {
        let same = key.len() > 100 && key.iter().all(|&x| x == key[0]);
        let p = P::default().state(s).u8(new as u8).u8(kind);
        let p = if same { p.u8(1).u8(key[0]).u32(key.len() as u64) } else { p.u8(0).bytes(key) };
        let p = p.u32(vl).u64(seq);
        let before = self.buf.clone();
        let r = paper::add(s, &mut self.buf, new, kind, key, vl, seq);
        let (num, t, place) = match r {
            Ok((t, place)) => (0, t, place),
            Err(e) => {
                assert!(before == self.buf);
                (e, paper::State::default(), 0)
            }
        };
        self.o.put(ADD, num, p.u8(num as u8).state(t).u64(place));
        if num == 0 { t } else { s }
    }
    fn set(&mut self, s: paper::State, place: u64, offset: u64) {
        let num = paper::set_offset(s, &mut self.buf, place, offset).err().unwrap_or(0);
        self.o.put(SET, num, P::default().state(s).u64(place).u64(offset).u8(num as u8));
    }
    fn poke(&mut self, at: usize, v: u8) {
        self.buf[at] = v;
        self.o.put(POKE, 0, P::default().u32(at as u64).u8(v));
    }
    fn look(&mut self) {
        let b = self.buf.clone();
        self.look_part(0, b.len())
    }
    fn look_part(&mut self, a: usize, z: usize) {
        let b = self.buf[a..z].to_vec();
        self.o.put(LOOK, 0, P::default().u32(a as u64).bytes(&b));
    }
    fn list(&mut self, recs: &[Rec]) -> paper::State {
        let mut s = paper::State::default();
        for r in recs {
            s = self.add(s, r.new, r.kind, &r.key, r.len, r.seq);
            let place = s.used - 8;
            self.set(s, place, r.offset);
        }
        // the Rust's builder on the same list
        assert!(rust_builder(recs).unwrap().arena() == &self.buf[..s.used as usize]);
        s
    }
}
fn finish(o: &mut Out, arena: &[u8], out: usize, w64: usize, w32: usize) -> Option<Vec<u8>> {
    let mut space = vec![0x5A; out];
    let r = paper::finish(arena, &mut space, w64, w32);
    let (num, body) = match r {
        Ok(l) => (0, space[..l].to_vec()),
        Err(e) => {
            assert!(space.iter().all(|&x| x == 0x5A));
            (e, vec![])
        }
    };
    if num == 0 || num == 10 {
        match rust_finish_arena(arena) {
            Ok(b) => assert!(b == body),
            Err(e) => assert!(e == num),
        }
    }
    o.put(
        FINISH,
        num,
        P::default().bytes(arena).u32(out as u64).u32(w64 as u64).u32(w32 as u64).u8(num as u8).bytes(&body),
    );
    if num == 0 { Some(body) } else { None }
}
fn arena(recs: &[Rec]) -> Vec<u8> {
    rust_builder(recs).unwrap().arena().to_vec()
}
fn finish_fit(o: &mut Out, a: &[u8], keys: usize) -> Option<Vec<u8>> {
    finish(o, a, 32 + 4 * keys.div_ceil(3) + 12 * keys + a.len(), 2 * keys, 8 * keys + 8)
}
fn validate(o: &mut Out, base: &[u8], b: &[u8], dl: u64) {
    let Some(p) = patches(base, b) else { return };
    let num = paper::validate(b, dl);
    if dl <= 1 << 30 {
        assert!(rp::validate_number(b, dl as usize) == num);
    } else {
        o.paper_only += 1;
    }
    o.put(VALIDATE, num, p.u64(dl).u8(num as u8));
}
fn get(o: &mut Out, base: &[u8], b: &[u8], dl: u64, key: &[u8], limit: Option<u64>) {
    let Some(p) = patches(base, b) else { return };
    let (a, _) = get_both(b, data(dl as usize), key, limit);
    let p = p.u64(dl).bytes(key).u8(limit.is_some() as u8).u64(limit.unwrap_or(0));
    let (tag, k, s, f, l) = match a {
        paper::Answer::Nothing => (0, 0, 0, 0, 0),
        paper::Answer::Damage => (14, 0, 0, 0, 0),
        paper::Answer::Found { kind, seq, offset, length } => (1, kind, seq, offset, length),
    };
    o.put(GET, tag as u32, p.u8(tag).u8(k).u64(s).u64(f).u64(l));
}
fn list(o: &mut Out, base: &[u8], b: &[u8], limit: u64, dl: u64) {
    let Some(p) = patches(base, b) else { return };
    let mut input = limit.to_le_bytes().to_vec();
    input.extend(dl.to_le_bytes());
    input.extend(b);
    let t = paper::listing(&input);
    o.put(LIST, t.starts_with("refused") as u32, p.u64(limit).u64(dl).bytes(t.as_bytes()));
}
fn base(o: &mut Out, b: &[u8]) {
    o.put(BODY, 0, P::default().bytes(b));
}
fn fbuild(o: &mut Out, hashes: &[u64], out: usize, w64: usize, w32: usize) -> Option<Vec<u8>> {
    let mut h = hashes.to_vec();
    let r = paper::filter_build(&mut h, out, w64, w32);
    let mut p = P::default().u32(hashes.len() as u64);
    for x in hashes {
        p = p.u64(*x);
    }
    let (num, f) = match r {
        Ok(f) => {
            let mut g = hashes.to_vec();
            assert!(rf::Filter::build(&mut g).encode() == f && g == h);
            (0, f)
        }
        Err(e) => (e, vec![]),
    };
    o.put(FBUILD, num, p.u32(out as u64).u32(w64 as u64).u32(w32 as u64).u8(num as u8).bytes(&f));
    if num == 0 { Some(f) } else { None }
}
fn fbuild_fit(o: &mut Out, h: &[u64]) -> Vec<u8> {
    let c = if h.is_empty() { 0 } else { paper::sizing(h.len() as u64).2 as usize };
    fbuild(o, h, 48 + c, if c == 0 { 0 } else { c + h.len() }, if c == 0 { 0 } else { 2 * c + h.len() }).unwrap()
}
fn fask(o: &mut Out, base: &[u8], b: &[u8], ask: &[u64]) {
    let Some(mut p) = patches(base, b) else { return };
    let d = rf::Filter::decode(b);
    assert!(d.is_some() == paper::filter_read(b).is_some());
    p = p.u32(ask.len() as u64);
    for x in ask {
        p = p.u64(*x);
    }
    let num = if d.is_some() { 0 } else { 15 };
    p = p.u8(num);
    for &x in ask {
        let a = paper::filter_ask(b, x);
        if let Some(d) = &d {
            assert!(d.maybe(x) as u32 == a);
        }
        p = p.u8(a as u8);
    }
    o.put(FASK, num as u32, p);
}
fn le32(b: &mut [u8], at: usize, v: u32) {
    b[at..at + 4].copy_from_slice(&v.to_le_bytes());
}
fn le64(b: &mut [u8], at: usize, v: u64) {
    b[at..at + 8].copy_from_slice(&v.to_le_bytes());
}

/// The first bytes of a vector file.
pub const MAGIC: &[u8; 8] = b"WASHVEC1";

/// The vector file of a seed and a scale.
pub fn make(seed: u64, scale: u64) -> Vec<u8> {
    file(&cases(seed, scale))
}
fn file(o: &Out) -> Vec<u8> {
    let mut file = MAGIC.to_vec();
    file.extend(o.cases.to_le_bytes());
    file.extend(&o.bytes);
    file
}
/// Writes it, and prints how many cases of each op gave which answer.
pub fn write(seed: u64, path: &str, scale: u64) -> Result<(), String> {
    let o = cases(seed, scale);
    let file = file(&o);
    std::fs::write(path, &file).map_err(crate::failed(path))?;
    println!(
        "{path}: {} bytes, {} cases; {} validations answered by the paper alone (data longer than a Rust slice)",
        file.len(),
        o.cases,
        o.paper_only
    );
    let mut by: BTreeMap<u8, Vec<String>> = BTreeMap::new();
    for ((op, res), c) in &o.kinds {
        by.entry(*op).or_default().push(format!("{res}:{c}"));
    }
    for (op, v) in by {
        println!("  op {op:#04x}: {}", v.join(" "));
    }
    Ok(())
}
fn cases(seed: u64, scale: u64) -> Out {
    let mut out = Out::default();
    let (o, r) = (&mut out, &mut Rng(seed));
    leaves(o, r, scale);
    builder(o);
    lists(o, r, scale);
    example_body(o, r);
    listing_shapes(o);
    other_bodies(o);
    finishes(o, r, scale);
    plain_keys(o);
    let filters = filter_builds(o, r, scale);
    filter_asks(o, r, scale, &filters);
    filter_shapes(o);
    out
}
/// Ops 01 to 05.
fn leaves(o: &mut Out, r: &mut Rng, scale: u64) {
    for h in [0, 1, u64::MAX, 1 << 63, 1 << 32, paper::STEP]
        .into_iter()
        .chain((0..6 * scale).map(|_| r.next()).collect::<Vec<_>>())
    {
        o.put(1, 0, P::default().u64(h).u64(rp::mix(h)));
    }
    for l in (0..34).chain([63, 64, 65, 200]) {
        for _ in 0..scale {
            let s = match r.below(3) {
                0 => 0,
                _ => r.next(),
            };
            for k in [r.bytes(l), vec![0; l], vec![255; l]] {
                let h = rp::hash(&k, s);
                o.put(2, 0, P::default().u64(s).bytes(&k).u64(h).u16(rp::fingerprint(h)));
                if l > 18 {
                    break;
                }
            }
        }
    }
    for _ in 0..20 * scale {
        let n = [1, 2, 3, 65_536, 65_535, 1 + r.below(65_536), (1 << 31) - 1][r.below(7) as usize];
        let (h, p, b) = (r.next(), [0, 1, 99_999, 1 << 31 - 1, r.below(100_000)][r.below(5) as usize], n.div_ceil(3));
        o.put(
            3,
            0,
            P::default()
                .u64(h)
                .u32(p)
                .u32(n)
                .u32(b)
                .u32(rp::bucket(h, b as usize) as u64)
                .u32(rp::position(h, p as u32, n as usize) as u64),
        );
    }
    for (h, s, c) in [
        (0, 1, 11),
        (u64::MAX, 2, 6),
        (u64::MAX, 262_144, 16_380),
        (u64::MAX, 1, u32::MAX as u64 - 3),
        (1 << 63, 4096, 391),
    ]
    .into_iter()
    .chain((0..20 * scale).map(|_| (r.next(), 1 << r.below(19), 1 + r.below(2000))).collect::<Vec<_>>())
    {
        let p = rf::positions(h, s as usize, c as usize);
        o.put(4, 0, p.iter().fold(P::default().u64(h).u32(s).u32(c), |a, &x| a.u32(x as u64)));
    }
    let some: Vec<u64> = (1..130)
        .chain([355, 356, 1035, 1036, 3014, 3015, 8771, 8772, 25526, 25527, 65352, 65353, 65536])
        .chain((0..40 * scale).map(|_| 1 + r.below(65_536)).collect::<Vec<_>>())
        .collect();
    let edges = row_edges().into_iter().filter(|n| !some.contains(n));
    for n in some.iter().copied().chain(edges) {
        let (s, g, c) = paper::sizing(n);
        o.put(5, 0, P::default().u32(n).u32(s).u32(g).u32(c));
    }
}
/// The first and the last n of every row of the sizing table, found by running the Rust at each n.
fn row_edges() -> Vec<u64> {
    let firsts: Vec<u64> = tables::rows(65_536).iter().map(|row| row.0).collect();
    let lasts = firsts[1..].iter().map(|n| n - 1).chain([65_536]);
    let mut edges: Vec<u64> = firsts.iter().copied().chain(lasts).collect();
    edges.sort();
    edges.dedup();
    edges
}
/// Ops 0f to 13: each refusal of add and set offset, and the edges of the room.
fn builder(o: &mut Out) {
    let z = paper::State::default();
    let mut b = Builder::new(o, 400, 0xEE);
    b.add(z, false, 1, b"", 0, 5); // 4: continued, nothing added
    b.set(z, 0, 1);
    b.set(z, u64::MAX - 7, 1); // 7: nothing added
    b.add(z, true, 2, b"k", 1, 5); // 3
    b.add(z, true, 2, b"k", 16_777_217, 5); // 2 before 3
    b.add(z, true, 1, b"k", 16_777_217, 5); // 2
    b.add(z, true, 1, &vec![7; 1_048_577], 0, 5); // 2
    b.add(z, true, 1, &vec![7; 1_048_576], 0, 5); // 6
    b.add(z, true, 1, b"k", u32::MAX as u64, 5); // 2
    let s = b.add(z, true, 1, b"", 16_777_216, 5); // taken: empty key, greatest value length
    b.set(s, s.used - 8, u64::MAX);
    b.set(s, s.used - 8, 3);
    b.set(s, s.used - 7, 3);
    b.set(s, s.used - 9, 3);
    b.set(s, 0, 3);
    b.set(s, s.used, 3);
    b.add(s, true, 1, b"", 0, 4); // 4: equal to the last
    b.add(s, false, 1, b"a", 0, 4); // 4: unequal
    b.add(s, false, 1, b"", 0, 5); // 4: sequence equal
    b.add(s, false, 1, b"", 0, 6); // 4: above
    let s2 = b.add(s, false, 2, b"", 0, 4);
    let s3 = b.add(s2, false, 1, b"", 0, 0);
    b.add(s3, false, 1, b"", 0, 0); // 4: nothing below 0
    b.add(s, false, 2, b"", 0, 4); // 1: an older state, the version count moved on
    let t = b.add(s3, true, 2, &[0], 0, u64::MAX);
    b.add(t, true, 1, b"", 0, 1); // 4
    b.add(t, true, 1, &[0], 0, 1); // 4
    let t = b.add(t, true, 1, &[0, 0], 0, 1);
    b.add(t, true, 1, &[0, 0], 0, 0);
    b.add(t, true, 1, &[0], 0, 0);
    let t = b.add(t, true, 1, &[0, 1], 0, 1);
    b.add(t, true, 1, &[0, 0, 255], 0, 1); // 4
    let t = b.add(t, true, 1, &[255; 9], 9, 1);
    for bad in [
        paper::State { used: t.used + 1, ..t },
        paper::State { used: t.used - 1, ..t },
        paper::State { keys: 0, ..t },
        paper::State { keys: 65_537, ..t },
        paper::State { head: t.head + 1, ..t },
        paper::State { head: t.used, ..t },
        paper::State { head: u64::MAX, ..t },
        paper::State { head: t.used - 7, ..t },
        paper::State { used: u64::MAX, ..t },
        paper::State { used: 401, keys: 1, head: 0 },
        paper::State { used: 0, keys: 1, head: 0 },
        paper::State { used: 0, keys: 0, head: 1 },
        paper::State { used: 1, keys: 0, head: 0 },
        paper::State { used: 400, ..t },
    ] {
        b.add(bad, true, 1, &[255; 10], 0, 0);
        b.set(bad, bad.used.wrapping_sub(8), 9);
    }
    let q = paper::State { keys: 65_536, ..t };
    b.add(q, true, 1, &[255; 10], 0, 0); // 5
    b.add(q, true, 1, &[255; 8], 0, 0); // 4 before 5
    b.add(q, true, 1, &[255; 300], 0, 0); // 5 before 6
    let q2 = b.add(q, false, 1, &[255; 9], 0, 0); // a version more is taken
    b.add(paper::State { keys: 65_535, ..q2 }, true, 1, &[255; 11], 0, 0);
    b.look();
    // exact room
    let mut b = Builder::new(o, 29 + 5 + 21, 0x11);
    let s = b.add(z, true, 1, b"hello", 1, 9);
    let s = b.add(s, false, 1, b"hello", 1, 8);
    b.add(s, false, 1, b"hello", 1, 7); // 6
    b.add(s, true, 1, b"hellp", 1, 7); // 6
    b.look();
    b.poke(4, 0);
    b.add(s, false, 1, b"hello", 1, 7); // 1: no versions
    b.poke(4, 2);
    b.poke(0, 6);
    b.add(s, false, 1, b"hello", 1, 7);
    b.poke(0, 5);
    b.set(s, s.used - 8, 0x0102030405060708);
    b.look();
    let mut b = Builder::new(o, 28, 0);
    b.add(z, true, 1, b"", 0, 0);
    b.look(); // 6
    let mut b = Builder::new(o, 29, 0);
    let s = b.add(z, true, 1, b"", 0, 0);
    b.add(s, false, 1, b"", 0, 0);
    b.look(); // taken, then 4 before 6
    let mut b = Builder::new(o, 0, 0);
    b.add(z, true, 1, b"", 0, 0);
    let mut b = Builder::new(o, 1_048_576 + 29, 0x33);
    let s = b.add(z, true, 1, &vec![7; 1_048_576], 3, 3);
    b.set(s, s.used - 8, 5);
    b.add(s, true, 1, &vec![7; 1_048_576], 3, 3);
    b.look_part(0, 40);
    b.look_part(1_048_576 + 8, 1_048_576 + 29);
}
/// Lists: builder, finish, validate, get and listing on the result, whole and damaged.
fn lists(o: &mut Out, r: &mut Rng, scale: u64) {
    let mut lists: Vec<(Vec<Rec>, u64)> = vec![(example(), 116)];
    for (i, n) in [1usize, 1, 2, 3, 4, 5, 6, 7, 9, 12, 25]
        .iter()
        .chain(if scale > 1 { &[40usize, 100, 333][..] } else { &[][..] })
        .enumerate()
    {
        for _ in 0..scale.min(6) {
            let dl = [0, 8, 100, 1000][r.below(4) as usize];
            lists.push((random_list(r, *n, dl, i as u64), dl));
        }
    }
    for (recs, dl) in &lists {
        let keys = recs.iter().filter(|x| x.new).count();
        let room: usize = recs.iter().map(|x| 21 + if x.new { 8 + x.key.len() } else { 0 }).sum();
        let mut b = Builder::new(o, room + 3, 0xC3);
        b.list(recs);
        b.look();
        let a = arena(recs);
        let Some(body) = finish_fit(o, &a, keys) else { continue };
        let n = keys;
        if keys <= 4 {
            let need = 32 + 4 * n.div_ceil(3) + 12 * n + a.len();
            finish(o, &a, need + 9, 2 * n + 3, 8 * n + 11);
            finish(o, &a, need - 1, 2 * n, 8 * n + 8);
            finish(o, &a, need - 1, 2 * n - 1, 8 * n + 8);
            finish(o, &a, need, 2 * n, 8 * n + 7);
            finish(o, &a, 0, 0, 0);
            for cut in 0..a.len() {
                if cut % 9 == 0 || (cut < 12 && keys == 3) {
                    finish(o, &a[..cut], 400, 100, 100);
                }
            }
        }
        base(o, &body);
        validate(o, &body, &body, *dl);
        if *dl > 0 {
            validate(o, &body, &body, dl - 1);
        }
        validate(o, &body, &body, dl + 1);
        for x in recs {
            for limit in [None, Some(x.seq), Some(x.seq.wrapping_sub(1)), Some(u64::MAX), Some(0)] {
                if recs.len() < 30 || r.below(4) == 0 {
                    get(o, &body, &body, *dl, &x.key, limit);
                }
            }
        }
        for _ in 0..6 {
            let l = r.below(18) as usize;
            let k = r.bytes(l);
            get(o, &body, &body, *dl, &k, None);
        }
        for limit in [0, 5, 8, u64::MAX, recs[0].seq, recs[recs.len() - 1].seq] {
            list(o, &body, &body, limit, *dl);
        }
        for _ in 0..(25 * scale).min(200) {
            let bad = damage(r, &body);
            let d = if r.below(4) == 0 { r.below(dl + 1) } else { *dl };
            validate(o, &body, &bad, d);
            let k = if r.below(5) == 0 {
                let l = r.below(9) as usize;
                r.bytes(l)
            } else {
                recs[r.below(recs.len() as u64) as usize].key.clone()
            };
            let limit = match r.below(3) {
                0 => None,
                1 => Some(u64::MAX),
                _ => Some(r.next()),
            };
            get(o, &body, &bad, d, &k, limit);
            if r.below(6) == 0 {
                list(o, &body, &bad, r.next(), d);
            }
        }
    }
}
/// The example body, damaged at every place.
fn example_body(o: &mut Out, r: &mut Rng) {
    let ex = rust_finish_arena(&arena(&example())).unwrap();
    base(o, &ex);
    for i in 0..=ex.len() {
        validate(o, &ex, &ex[..i], 116);
        if i % 3 == 0 || i > 60 {
            get(o, &ex, &ex[..i], 116, [b"A", b"B", b"C"][i % 3], Some(8));
        }
    }
    for i in 0..ex.len() {
        let mut b = ex.clone();
        b[i] ^= 1 << r.below(8);
        validate(o, &ex, &b, 116);
        get(o, &ex, &b, 116, [b"A", b"B", b"C"][i % 3], None);
    }
    let mut longer = ex.clone();
    longer.push(0);
    validate(o, &ex, &longer, 116);
    get(o, &ex, &longer, 116, b"C", None);
    for (at, v) in [
        (36usize, u64::MAX),
        (36, u64::MAX - 71),
        (36, 1 << 63),
        (36, 124),
        (36, 125),
        (36, 132),
        (36, 131),
        (48, u64::MAX - 7),
        (60, u64::MAX - 72 + 1),
        (36, 1 << 32),
        (48, 102 + (1 << 32)),
        (60, 51 + (1 << 32)),
    ] {
        let mut b = ex.clone();
        le64(&mut b, at, v);
        validate(o, &ex, &b, 116);
        for k in [b"A", b"B", b"C"] {
            get(o, &ex, &b, 116, k, None);
        }
    }
    for (at, v) in [
        (32usize, 1u32 << 31),
        ((32), (1 << 31) + 2),
        (32, (1 << 31) + 3),
        (32, u32::MAX),
        (32, (1 << 31) - 1),
        (32, 100_000),
        (16, 0),
        (16, 1),
        (16, 2),
        (16, 4),
        (16, 1 << 31),
        (16, (1 << 31) - 1),
        (20, 0),
        (20, 2),
        (72, 0),
        (72, 1_048_577),
        (72, u32::MAX),
        (72, 124),
        (72, 125),
        (72, 1_048_576),
        (72, 0),
        (72, 2),
        (76, 0),
        (76, 1),
        (76, 3),
        (76, u32::MAX),
        (44, 0x193b + 65536),
    ] {
        let mut b = ex.clone();
        le32(&mut b, at, v);
        validate(o, &ex, &b, 116);
        for k in [b"A", b"B", b"C"] {
            get(o, &ex, &b, 116, k, None);
            get(o, &ex, &b, 116, k, Some(3));
        }
    }
    // fingerprint's upper half not zero: 26 in validation, found by get
    for slot in 0..3 {
        let mut b = ex.clone();
        b[36 + 12 * slot + 10] = 1;
        validate(o, &ex, &b, 116);
        for k in [b"A", b"B", b"C"] {
            get(o, &ex, &b, 116, k, None);
        }
    }
    // order of 25 and 26, and of 23 to 30, at chosen places
    for (at, v) in [
        (131usize, b'A'),
        (131, b'@'),
        (131, b'C'),
        (182, b'B'),
        (182, b'A'),
        (80, b'B'),
        (80, b'Z'),
        (89, 0),
        (89, 3),
        (89, 2),
        (110, 2),
        (110, 0),
        (140, 1),
        (90, 9),
        (91, 1),
    ] {
        let mut b = ex.clone();
        b[at] = v;
        validate(o, &ex, &b, 116);
        for k in [b"A", b"B", b"C"] {
            get(o, &ex, &b, 116, k, Some(8));
            get(o, &ex, &b, 116, k, None);
        }
    }
    for (at, v) in [
        (81usize, 4u64),
        (81, 5),
        (81, 3),
        (102, 9),
        (102, 8),
        (102, u64::MAX),
        (94, 108),
        (94, 109),
        (94, 100 + (1 << 32)),
        (152, 116),
        (152, 117),
        (152, u64::MAX),
    ] {
        let mut b = ex.clone();
        le64(&mut b, at, v);
        validate(o, &ex, &b, 116);
        for k in [b"A", b"B", b"C"] {
            get(o, &ex, &b, 116, k, Some(8));
            get(o, &ex, &b, 116, k, None);
        }
    }
    // dimensions that a 32-bit sum would take: 32 + 4b + 12n is 56 mod 2^32
    for (n, bk, a) in [
        (322_122_549u32, 107_374_183u32, 56u64),
        (322_122_549, 107_374_183, 56 + (1 << 32)),
        ((1 << 31) - 1, 715_827_883, 32 + 4 * 715_827_883 + 12 * ((1 << 31) - 1)),
        (3, 1, 72 + (1 << 32)),
        (u32::MAX, 1_431_655_765, 72),
        (3, 1, 71),
        (3, 1, 73),
    ] {
        let mut b = ex.clone();
        le32(&mut b, 16, n);
        le32(&mut b, 20, bk);
        le64(&mut b, 24, a);
        validate(o, &ex, &b, 116);
        get(o, &ex, &b, 116, b"A", None);
    }
    // magic of the compact form
    let mut b = ex.clone();
    b[7] = b'3';
    validate(o, &ex, &b, 116);
    get(o, &ex, &b, 116, b"A", None);
    list(o, &ex, &b, 8, 116);
    // offsets at the end of u64 (the paper's answer; no Rust slice is so long)
    for (off, vl, dl) in [
        (u64::MAX, 0u32, u64::MAX),
        (u64::MAX - 8, 8, u64::MAX),
        (u64::MAX - 7, 8, u64::MAX),
        (u64::MAX, 8, u64::MAX),
        (u64::MAX - 8, 8, u64::MAX - 1),
        (u64::MAX, 0, u64::MAX - 1),
        (1 << 63, 8, u64::MAX),
    ] {
        let mut b = ex.clone();
        le64(&mut b, 72 + 9 + 13, off);
        le32(&mut b, 72 + 9 + 9, vl);
        validate(o, &ex, &b, dl);
        list(o, &ex, &b, 9, dl);
    }
    for (vl, dl) in [(16_777_216u32, 1u64 << 25), (16_777_217, 1 << 25), (u32::MAX, 1 << 25)] {
        let mut b = ex.clone();
        le32(&mut b, 72 + 9 + 9, vl);
        validate(o, &ex, &b, dl);
    }
    for limit in [0, 2, 3, 4, 5, 6, 7, 8, 9, 11, 12, u64::MAX] {
        list(o, &ex, &ex, limit, 116);
        list(o, &ex, &ex, limit, 115);
    }
    for i in [0usize, 1, 15, 16, 17, 47, 48] {
        let raw = vec![0u8; i];
        let t = paper::listing(&raw);
        o.put(LIST_RAW, 1, P::default().bytes(&raw).bytes(t.as_bytes()));
    }
}
/// Listing: an older tombstone within the limit under a newer put (a `tomb` line in document 01), the empty key.
fn listing_shapes(o: &mut Out) {
    let recs: Vec<Rec> =
        ["1:1:-:9:1:0", "0:2:-:5:0:0", "0:1:-:2:3:4", "1:2:00:7:0:1", "1:1:00ff:3:0:7", "0:2:00ff:1:0:2"]
            .iter()
            .map(|s| crate::lines::rec(s))
            .collect();
    let body = finish_fit(o, &arena(&recs), 3).unwrap();
    base(o, &body);
    for limit in [0, 1, 2, 3, 4, 5, 6, 7, 8, 9, u64::MAX] {
        list(o, &body, &body, limit, 7);
        for k in [&b""[..], &[0], &[0, 255], &[255]] {
            get(o, &body, &body, 7, k, Some(limit));
        }
    }
    for k in [&b""[..], &[0], &[0, 255]] {
        get(o, &body, &body, 7, k, None);
        get(o, &body, &body, 0, k, None);
    }
}
/// Accepted bodies that finish never makes: other seeds, large pilots.
fn other_bodies(o: &mut Out) {
    for (sd, pilot) in
        [(0u64, 0u32), (1, 5), (77, 1 << 23), (77, (1 << 31) - 1), (u64::MAX, 1 << 31), (5, (1 << 23) - 1)]
    {
        let recs = [crate::lines::rec("1:1:6b6579:3:2:1")];
        let mut b = rust_finish_arena(&arena(&recs)).unwrap();
        le64(&mut b, 8, sd);
        le32(&mut b, 32, pilot);
        le32(&mut b, 44, rp::fingerprint(rp::hash(b"key", sd)) as u32);
        base(o, &b);
        validate(o, &b, &b, 3);
        validate(o, &b, &b, 2);
        get(o, &b, &b, 3, b"key", Some(3));
        get(o, &b, &b, 3, b"key", Some(2));
        get(o, &b, &b, 3, b"kez", None);
        get(o, &b, &b, 2, b"key", None);
    }
}
/// A put for each key.
fn puts(keys: &[Vec<u8>]) -> Vec<Rec> {
    let put = |(i, k): (usize, &Vec<u8>)| Rec { new: true, kind: 1, key: k.clone(), seq: i as u64, len: 0, offset: 0 };
    keys.iter().enumerate().map(put).collect()
}
/// Finish: every attempt, both causes, and 10.
fn finishes(o: &mut Out, r: &mut Rng, scale: u64) {
    let simple = |keys: &[Vec<u8>]| arena(&puts(keys));
    for k in 0..=8 {
        let v = hunt::keys_for_attempt(k, r);
        finish_fit(o, &simple(&v), v.len());
    }
    {
        // accepted, though finish answers 10 on its arena (single-member buckets without the direct mark, too)
        let v = hunt::keys_for_attempt(8, r);
        let a = simple(&v);
        let b = body_with_seed(&a, 12345);
        assert!(rust_finish_arena(&a) == Err(10) && rp::validate_number(&b, 0) == 0);
        finish_fit(o, &a, 16);
        base(o, &b);
        validate(o, &b, &b, 0);
        for k in &v {
            get(o, &b, &b, 0, k, None);
        }
    }
    for _ in 0..scale {
        let mut v = hunt::universal_pair(r.next(), r.next()).to_vec();
        v.push(b"x".to_vec());
        v.sort();
        v.dedup();
        finish_fit(o, &simple(&v), v.len());
    }
    for i in 0..2 {
        let short = if i == 0 { vec![] } else { r.bytes(7) };
        let mut v = vec![hunt::eight_like(&short, hunt::seed(0)), short];
        v.sort();
        finish_fit(o, &simple(&v), 2);
    }
    for (n, k) in [(20usize, 1u64), (20, 2), (18, 3)] {
        let v = hunt::crowded(n, k, r);
        finish_fit(o, &simple(&v), v.len());
    }
    let v: Vec<Vec<u8>> = NO_PILOT_15.iter().map(|x| x.to_be_bytes().to_vec()).collect();
    finish_fit(o, &simple(&v), 15);
    let v: Vec<Vec<u8>> = NO_PILOT_12.iter().map(|x| x.to_be_bytes().to_vec()).collect();
    finish_fit(o, &simple(&v), 12);
    for v in [PILOT_99999, PILOT_100000, PILOT_70000] {
        let v: Vec<Vec<u8>> = v.iter().map(|x| x.to_be_bytes().to_vec()).collect();
        finish_fit(o, &simple(&v), 12);
    }
    for n in [0u64, 50, 100, 333, 1000, 4096, 20_000, 65_535, 65_536, 65_537]
        .into_iter()
        .chain((0..2 * (scale - 1)).map(|_| 1 + r.below(65_536)).collect::<Vec<_>>())
    {
        let s = r.next();
        let a = gen_arena(s, n);
        let (num, len, digest, sd) = match rust_finish_arena(&a) {
            Ok(b) => (0, b.len() as u64, rp::hash(&b, 0), u64::from_le_bytes(b[8..16].try_into().unwrap())),
            Err(e) => (e, 0, 0, 0),
        };
        o.put(FINISH_GEN, num, P::default().u64(s).u32(n).u8(num as u8).u64(len).u64(digest).u64(sd));
    }
}
/// Small lists of plain keys that add takes and no seed places (10), and one that the eighth seed alone places.
const PLAIN_KEYS: [(u32, &[&[u8]]); 6] = [
    (10, &[b"T0410-2024110300", b"T0413-2024110308", b"T0415-2024110308", b"T0416-2024110300"]),
    (0, &[b"T0151-2019110300", b"T0152-2019110308", b"T0420-2019110300", b"T0423-2019110308"]),
    (10, &[b"TRAMA-2024110301", b"TRAMI-202411030q", b"TRAMY-202411030q"]),
    (10, &[b"L150A-20241103-a", b"L150U-20241103-A"]),
    (10, &[b"AAAAAAAABBBBBBBB", b"AAAAQAAABBBBBBB\xc2"]),
    (10, &[b"AAAAAAAAAAAAAAAAAAAAAAAA", b"AAAAQAAAAAAAQAA\xc1AAAAAAA\xc1"]),
];
fn plain_keys(o: &mut Out) {
    for (number, keys) in PLAIN_KEYS {
        let recs = puts(&keys.iter().map(|k| k.to_vec()).collect::<Vec<_>>());
        let a = arena(&recs);
        let mut b = Builder::new(o, a.len(), 0xC3);
        b.list(&recs);
        b.look();
        match finish_fit(o, &a, keys.len()) {
            Some(body) => assert!(number == 0 && body[8..16] == hunt::seed(7).to_le_bytes()),
            None => assert!(number == 10 && rust_finish_arena(&a) == Err(10)),
        }
    }
}
/// Filter builds; the filters that were built, with their hashes.
fn filter_builds(o: &mut Out, r: &mut Rng, scale: u64) -> Vec<(Vec<u8>, Vec<u64>)> {
    let mut filters = Vec::new();
    for n in (0..16).chain([30, 42, 43, 122, 123, 200]) {
        for _ in 0..scale.min(if n > 20 { 2 } else { 8 }) {
            let h: Vec<u64> = (0..n).map(|_| r.next()).collect();
            filters.push((fbuild_fit(o, &h), h));
        }
    }
    for _ in 0..4 * scale {
        let n = 2 + r.below(13) as usize;
        let s = r.next() % 1000;
        let h: Vec<u64> = (0..n as u64).rev().map(|i| s + i).collect();
        filters.push((fbuild_fit(o, &h), h));
    }
    for h in [vec![0u64, 0], vec![5, 1, 5], vec![u64::MAX, 0, u64::MAX], vec![u64::MAX; 4], vec![u64::MAX, 0], vec![0]]
    {
        filters.push((fbuild_fit(o, &h), h));
    }
    {
        let h = EXHAUST_30.to_vec();
        let f = fbuild_fit(o, &h);
        assert!(f.len() == 48);
        filters.push((f, h));
    }
    {
        let h = LAST_14.to_vec();
        let f = fbuild_fit(o, &h);
        assert!(f.len() > 48 && f[24..32] == rf::mix(100).to_le_bytes());
        filters.push((f, h));
    }
    {
        let h = EXHAUST_14.to_vec();
        let f = fbuild_fit(o, &h);
        assert!(f.len() == 48);
        let mut g = h.clone();
        g[0] += 1;
        let f = fbuild_fit(o, &g);
        filters.push((f, g));
    }
    {
        let h = hunt::exhaust_pairs(200, r);
        if h.len() == 200 {
            let f = fbuild_fit(o, &h);
            assert!(f.len() == 48);
        }
    }
    // a set that needs many attempts
    let mut deep = (0, vec![]);
    for _ in 0..60_000 {
        let h: Vec<u64> = (0..4).map(|_| r.next()).collect();
        let d = rf::Filter::build(&mut h.clone()).dims().unwrap().3;
        let a = (1..=100u64).find(|&a| rf::mix(a) == d).unwrap();
        if a > deep.0 {
            deep = (a, h);
        }
    }
    filters.push((fbuild_fit(o, &deep.1), deep.1.clone()));
    let h: Vec<u64> = (0..5).map(|_| r.next()).collect();
    let c = 18;
    for (out, a, b) in [
        (48 + c, c + 5, 2 * c + 5),
        (48 + c - 1, c + 5, 2 * c + 5),
        (48 + c, c + 4, 2 * c + 5),
        (48 + c, c + 5, 2 * c + 4),
        (0, c + 4, 0),
        (48 + c + 9, c + 9, 2 * c + 9),
    ] {
        fbuild(o, &h, out, a, b);
    }
    fbuild(o, &[], 47, 0, 0);
    fbuild(o, &[], 48, 0, 0);
    fbuild(o, &[], 60, 0, 0);
    fbuild(o, &[7, 7], 48, 16, 30);
    fbuild(o, &[7, 7], 62, 16, 30);
    fbuild(o, &[7, 7], 61, 16, 30);
    for n in [300u64, 1000, 1036, 8772, 25_526, 25_527, 65_535, 65_536, 65_537]
        .into_iter()
        .chain((0..2 * (scale - 1)).map(|_| 1 + r.below(65_536)).collect::<Vec<_>>())
    {
        let s = r.next();
        let mut h = gen_hashes(s, n);
        let (num, len, digest) = if n > 65_536 {
            (12, 0, 0)
        } else {
            let f = rf::Filter::build(&mut h).encode();
            (0, f.len() as u64, rp::hash(&f, 0))
        };
        o.put(FBUILD_GEN, num, P::default().u64(s).u32(n).u8(num as u8).u64(len).u64(digest));
    }
    filters
}
/// Filters read and asked, whole and damaged.
fn filter_asks(o: &mut Out, r: &mut Rng, scale: u64, filters: &[(Vec<u8>, Vec<u64>)]) {
    for (i, (f, h)) in filters.iter().enumerate() {
        if i % 3 != 0 && scale == 1 && i > 30 {
            continue;
        }
        o.put(FBASE, 0, P::default().bytes(f));
        let mut ask: Vec<u64> = h.iter().copied().take(10).collect();
        for _ in 0..8 {
            ask.push(r.next());
        }
        fask(o, f, f, &ask);
        let few = [r.next(), h.first().copied().unwrap_or(0)];
        for _ in 0..(8 * scale).min(60) {
            let mut b = f.clone();
            match r.below(8) {
                0 => {
                    let at = r.below(48) as usize;
                    b[at] ^= 1 << r.below(8);
                }
                1 => {
                    let at = r.below(b.len() as u64) as usize;
                    b[at] = r.next() as u8;
                }
                2 => {
                    let l = r.below(b.len() as u64 + 1) as usize;
                    b.truncate(l);
                }
                3 => b.push(0xA5),
                4 => {
                    let at = 16 + 4 * r.below(8) as usize;
                    let v = [0u32, 1, 2, 3, 262_144, 524_288, u32::MAX, 1 << 31][r.below(8) as usize];
                    le32(&mut b, at, v);
                }
                5 => {
                    let at = 8 + r.below(8) as usize;
                    b[at] = [0, 1, 2, 8, 48][r.below(5) as usize];
                }
                6 => {
                    le64(&mut b, 16, [0, 1, u32::MAX as u64, 1 << 32, u64::MAX][r.below(5) as usize]);
                }
                _ => {
                    let s = r.next();
                    le64(&mut b, 24, s);
                }
            }
            fask(o, f, &b, &few);
        }
    }
}
/// Shapes that only reading can meet: segment 1 to 4 with count 0 to 2, segment 3, 262,144 and 524,288 with too few bytes, sums that wrap 32 bits.
fn filter_shapes(o: &mut Out) {
    let p = paper::positive();
    o.put(FBASE, 0, P::default().bytes(&p));
    fask(o, &p, &p, &[0, 1, u64::MAX]);
    fask(o, &p, &p[..47], &[0]);
    fask(o, &p, &[], &[0]);
    for (seg, cnt, cells, len) in [
        (1u32, 1u32, 4u32, 4usize),
        (1, 0, 3, 3),
        (2, 1, 8, 8),
        (4, 1, 16, 16),
        (3, 1, 12, 12),
        (0, 1, 0, 0),
        (0, 5, 0, 0),
        (1, 1, 4, 5),
        (1, 1, 5, 5),
        (2, 2, 10, 10),
        (1, u32::MAX, 2, 2),
        (1, u32::MAX - 2, 0, 0),
        (2, (1 << 31) - 3 + 1, 2, 2),
        (262_144, 16_384 - 3, 0, 0),
        (65_536, 65_533, 0, 0),
        (262_144, 1, 1_048_576, 16),
        (262_144, 1, 1_048_576, 1_048_576),
        (524_288, 1, 2_097_152, 2_097_152),
    ] {
        let mut b = p.clone();
        b[9..12].copy_from_slice(&[2, 1, 8]);
        le64(&mut b, 16, 1);
        le64(&mut b, 24, 3);
        for (at, v) in [(32, seg), (36, cnt), (40, cells), (44, cells)] {
            le32(&mut b, at, v);
        }
        b.resize(48 + len, 0xA5);
        fask(o, &p, &b, &[0, 1, u64::MAX, 12345]);
        if len > 100 {
            continue;
        }
        for i in 48..b.len() {
            b[i] = [0, 255, 0x80, 1][i % 4];
        }
        fask(o, &p, &b, &[0, 1, u64::MAX, 12345]);
        if len > 0 {
            b[44] ^= 1;
            fask(o, &p, &b, &[0]);
        }
    }
}
