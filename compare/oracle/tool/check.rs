//! `selfcheck SEED COUNT`: the paper's reading against the Rust on random and damaged inputs. `figures`: P1 to P9, the example, the listing.
use crate::{
    Rng, data,
    lines::{Rec, get_both, rust_builder, rust_finish},
    paper, rf, rp,
};
use std::collections::BTreeMap;

/// A random record list that the paper's add takes (keys rising, sequences falling). Data inside `data_len` if asked.
pub fn random_list(r: &mut Rng, keys: usize, data_len: u64, style: u64) -> Vec<Rec> {
    let mut ks: Vec<Vec<u8>> = Vec::new();
    while ks.len() < keys {
        for _ in 0..keys {
            let k = match style % 4 {
                0 => {
                    let l = r.below(20) as usize;
                    r.bytes(l)
                }
                1 => {
                    let l = r.below(4) as usize;
                    (0..l).map(|_| r.below(3) as u8).collect()
                }
                2 => r.bytes(16),
                _ => {
                    let l = [0, 1, 7, 8, 9, 15, 16, 17, 24, 40][r.below(10) as usize];
                    let mut k = vec![r.below(2) as u8 * 255; l];
                    for x in k.iter_mut() {
                        if r.below(3) == 0 {
                            *x = r.next() as u8
                        }
                    }
                    k
                }
            };
            ks.push(k);
        }
        ks.sort();
        ks.dedup();
        if style % 4 == 1 && ks.len() < keys {
            for _ in 0..keys {
                let l = r.below(9) as usize;
                ks.push(r.bytes(l));
            }
            ks.sort();
            ks.dedup();
        }
    }
    while ks.len() > keys {
        let i = r.below(ks.len() as u64) as usize;
        ks.remove(i);
    }
    let mut out = Vec::new();
    for k in ks {
        let v = match r.below(6) {
            0 => 3,
            1 => 2,
            2 => 5,
            _ => 1,
        };
        let mut seq = match r.below(4) {
            0 => u64::MAX - r.below(3),
            1 => r.below(50) + 20,
            _ => r.next(),
        };
        for i in 0..v {
            let kind = if r.below(4) == 0 { 2 } else { 1 };
            let len = if kind == 2 { 0 } else { r.below(data_len.min(64) + 1) };
            let offset = match r.below(6) {
                0 => data_len - len,
                _ => r.below(data_len - len + 1),
            };
            out.push(Rec { new: i == 0, kind, key: k.clone(), seq, len, offset });
            if seq == 0 {
                break;
            }
            seq = match r.below(3) {
                0 => seq - 1,
                1 => seq - 1 - r.below(seq.min(9)),
                _ => r.below(seq),
            };
        }
    }
    out
}
/// One damage: bytes set, cut, lengthened; aimed at header, pilots, slots, arena fields.
pub fn damage(r: &mut Rng, body: &[u8]) -> Vec<u8> {
    let mut b = body.to_vec();
    let n = u32::from_le_bytes(b[16..20].try_into().unwrap()) as u64;
    let bk = u32::from_le_bytes(b[20..24].try_into().unwrap()) as u64;
    let start = u64::from_le_bytes(b[24..32].try_into().unwrap());
    let len = b.len() as u64;
    let put = |b: &mut Vec<u8>, at: u64, v: u64, w: usize| {
        for i in 0..w {
            let p = at as usize + i;
            if p < b.len() {
                b[p] = (v >> (8 * i)) as u8;
            }
        }
    };
    let wild = |r: &mut Rng| -> u64 {
        match r.below(9) {
            0 => 0,
            1 => 1,
            2 => u64::MAX,
            3 => u32::MAX as u64,
            4 => 1 << 31,
            5 => r.below(64),
            6 => 1_048_577,
            7 => 16_777_217,
            _ => r.next(),
        }
    };
    for _ in 0..1 + r.below(2) {
        match r.below(14) {
            0 => {
                let at = r.below(8);
                b[at as usize] ^= 1 << r.below(8);
            }
            1 => {
                let at = 8 + r.below(24);
                b[at as usize] ^= 1 << r.below(8);
            }
            2 => {
                let (at, w) = [(8, 8), (16, 4), (20, 4), (24, 8)][r.below(4) as usize];
                let v = wild(r);
                put(&mut b, at, v, w);
            }
            3 => {
                let v = wild(r);
                put(&mut b, 32 + 4 * r.below(bk), v, 4);
            }
            4 => {
                let v = (1 << 31)
                    + match r.below(3) {
                        0 => n,
                        1 => n - 1,
                        _ => r.below(n + 2),
                    };
                put(&mut b, 32 + 4 * r.below(bk), v, 4);
            }
            5 => {
                let v = match r.below(4) {
                    0 => r.below(len),
                    1 => len - start - r.below(9).min(len - start),
                    2 => u64::MAX - r.below(64),
                    _ => wild(r),
                };
                put(&mut b, 32 + 4 * bk + 12 * r.below(n), v, 8);
            }
            6 => {
                let at = 32 + 4 * bk + 12 * r.below(n) + 8 + r.below(4);
                if (at as usize) < b.len() {
                    b[at as usize] ^= 1 << r.below(8);
                }
            }
            7 => {
                let l = r.below(len + 1) as usize;
                b.truncate(l);
            }
            8 => {
                for _ in 0..1 + r.below(30) {
                    b.push(r.next() as u8);
                }
            }
            9 | 10 => {
                let at = start + r.below(len - start);
                if (at as usize) < b.len() {
                    b[at as usize] ^= 1 << r.below(8);
                }
            }
            11 => {
                let at = start + r.below(len - start);
                let v = wild(r);
                let w = [1, 4, 8][r.below(3) as usize];
                put(&mut b, at, v, w);
            }
            12 => {
                let cut = r.below(40).min(b.len() as u64) as usize;
                let l = b.len() - cut;
                b.truncate(l);
            }
            _ => {
                let at = start + r.below(8);
                let v = wild(r);
                put(&mut b, at, v, 4);
            }
        }
        if b.len() < 32 {
            break;
        }
    }
    b
}
fn arena_of(recs: &[Rec], buf: &mut Vec<u8>) -> paper::State {
    let mut s = paper::State::default();
    for r in recs {
        let (t, place) = paper::add(s, buf, r.new, r.kind, &r.key, r.len, r.seq).expect("add");
        s = t;
        paper::set_offset(s, buf, place, r.offset).expect("set offset");
    }
    s
}
pub fn run(seed: u64, count: u64) {
    let mut r = Rng(seed);
    let mut numbers: BTreeMap<u32, u64> = BTreeMap::new();
    let mut gets: BTreeMap<String, u64> = BTreeMap::new();
    let mut shown: BTreeMap<String, u64> = BTreeMap::new();
    for round in 0..count {
        // leaves
        for _ in 0..20 {
            let h = r.next();
            let l = r.below(40) as usize;
            let k = r.bytes(l);
            let n = 1 + r.below(70_000);
            let p = r.below(100_000);
            assert!(paper::mix(h) == rp::mix(h) && rp::mix(h) == rf::mix(h));
            assert!(paper::hash(&k, h) == rp::hash(&k, h) && paper::fingerprint(h) == rp::fingerprint(h) as u64);
            assert!(paper::position(h, p, n) == rp::position(h, p as u32, n as usize) as u64);
            let (seg, cnt) = (1u64 << r.below(19), 1 + r.below(3000));
            assert!(paper::positions(h, seg, cnt) == rf::positions(h, seg as usize, cnt as usize).map(|x| x as u64));
        }
        // index
        let keys = match round % 10 {
            0 => 1,
            1 => 2,
            2 => 3,
            3 => 4,
            9 => 40 + r.below(200),
            _ => 1 + r.below(30),
        } as usize;
        let data_len = [0, 1, 8, 100, 1000][r.below(5) as usize];
        let style = r.next();
        let list = random_list(&mut r, keys, data_len, style);
        let mut buf = vec![0xAA; list.iter().map(|x| 29 + x.key.len()).sum::<usize>() + 50];
        let s = arena_of(&list, &mut buf);
        let rb = rust_builder(&list).unwrap();
        assert!(rb.arena() == &buf[..s.used as usize] && buf[s.used as usize..].iter().all(|&x| x == 0xAA));
        assert!(rb.heads().len() as u64 == s.keys && rb.heads().last().copied().unwrap() as u64 == s.head);
        let mut out = vec![0x55; buf.len() + 32 + 16 * keys + 40];
        let got = paper::finish(&buf[..s.used as usize], &mut out, 2 * keys, 8 * keys + 8);
        let rust = rust_finish(&list);
        let body = match (got, rust) {
            (Ok(l), Ok(b)) => {
                assert!(out[..l] == b[..]);
                b
            }
            (Err(a), Err(b)) => {
                assert!(a == b);
                continue;
            }
            _ => panic!("finish differs"),
        };
        assert!(rp::validate_number(&body, data_len as usize) == 0 && paper::validate(&body, data_len) == 0);
        let d = data(data_len as usize);
        let key_pick = |r: &mut Rng, b: &[u8]| -> Vec<u8> {
            let _ = b;
            if r.below(4) == 0 {
                let l = r.below(18) as usize;
                r.bytes(l)
            } else {
                list[r.below(list.len() as u64) as usize].key.clone()
            }
        };
        for _ in 0..6 {
            let k = key_pick(&mut r, &body);
            let limit = match r.below(4) {
                0 => None,
                1 => Some(r.next()),
                _ => {
                    let x = &list[r.below(list.len() as u64) as usize];
                    Some(x.seq.wrapping_sub(r.below(2)))
                }
            };
            let (a, rust) = get_both(&body, d.clone(), &k, limit);
            assert!(rust == "same");
            // against the list itself
            let want = list.iter().filter(|x| x.key == k && limit.is_none_or(|m| x.seq <= m)).max_by_key(|x| x.seq);
            match (a, want) {
                (paper::Answer::Nothing, None) => {}
                (paper::Answer::Found { kind, seq, offset, length }, Some(w)) => {
                    assert!((kind, seq, offset, length) == (w.kind, w.seq, w.offset, w.len))
                }
                _ => panic!("get against the list"),
            }
        }
        for _ in 0..12 {
            let bad = damage(&mut r, &body);
            let dl = if r.below(3) == 0 { r.below(data_len + 1) } else { data_len };
            let (a, b) = (paper::validate(&bad, dl), rp::validate_number(&bad, dl as usize));
            assert!(a == b, "validate {a} {b} {}", crate::hex(&bad));
            *numbers.entry(a).or_default() += 1;
            for _ in 0..3 {
                let k = key_pick(&mut r, &bad);
                let limit = match r.below(3) {
                    0 => None,
                    1 => Some(u64::MAX),
                    _ => Some(r.next()),
                };
                let (x, rust) = get_both(&bad, data(dl as usize), &k, limit);
                let x = match x {
                    paper::Answer::Nothing => "nothing",
                    paper::Answer::Damage => "14",
                    _ => "found",
                };
                let cat = format!("{x} / {rust}");
                *gets.entry(cat.clone()).or_default() += 1;
                if rust != "same" {
                    let c = shown.entry(cat.clone()).or_default();
                    *c += 1;
                    if *c <= 2 {
                        println!(
                            "example of '{cat}': validate {a}, data {dl}, key {}, limit {limit:?}, body {}",
                            crate::hex(&k),
                            crate::hex(&bad)
                        );
                    }
                }
            }
        }
        // filter
        let n = match round % 8 {
            0 => r.below(6),
            1 => r.below(50),
            7 => r.below(3000),
            _ => r.below(300),
        };
        let mut h: Vec<u64> = (0..n).map(|_| if round % 5 == 0 { r.below(200) } else { r.next() }).collect();
        if round % 11 == 0 && n > 1 {
            let i = r.below(n) as usize;
            h[0] = h[i];
        }
        let mut g = h.clone();
        let f = rf::Filter::build(&mut h);
        let enc = f.encode();
        let c = if n == 0 { 0 } else { paper::sizing(n).2 as usize };
        let p = paper::filter_build(&mut g, 48 + c, c + n as usize, 2 * c + n as usize).unwrap();
        assert!(p == enc && g == h);
        for &x in &h {
            assert!(f.maybe(x) && paper::filter_ask(&enc, x) == 1);
        }
        for _ in 0..20 {
            let x = r.next();
            assert!(f.maybe(x) as u32 == paper::filter_ask(&enc, x));
        }
        for _ in 0..20 {
            let mut bad = enc.clone();
            match r.below(6) {
                0 => {
                    let at = r.below(48.min(bad.len() as u64)) as usize;
                    bad[at] ^= 1 << r.below(8);
                }
                1 => {
                    let at = r.below(bad.len() as u64) as usize;
                    bad[at] = r.next() as u8;
                }
                2 => {
                    let l = r.below(bad.len() as u64 + 1) as usize;
                    bad.truncate(l);
                }
                3 => bad.push(0),
                4 => {
                    let at = 16 + 4 * r.below(8) as usize;
                    let v = [0u32, 1, 2, 3, 262_144, 524_288, u32::MAX, 1 << 31][r.below(8) as usize];
                    bad[at..at + 4].copy_from_slice(&v.to_le_bytes());
                }
                _ => {
                    let k = r.below(10) as u32;
                    let seg = 1u32 << k;
                    let cnt = r.below(6) as u32;
                    let cells = seg * (cnt + 3);
                    bad.resize(48, 0);
                    bad[9..12].copy_from_slice(&[2, 1, 8]);
                    bad[16..24].copy_from_slice(&[1, 0, 0, 0, (r.below(2)) as u8, 0, 0, 0]);
                    for (at, v) in [(32, seg), (36, cnt), (40, cells), (44, cells)] {
                        bad[at..at + 4].copy_from_slice(&v.to_le_bytes());
                    }
                    bad.resize(48 + cells as usize, 7);
                }
            }
            let d = rf::Filter::decode(&bad);
            assert!(d.is_some() == paper::filter_read(&bad).is_some(), "filter read {}", crate::hex(&bad));
            if let Some(d) = d {
                assert!(d.encode() == bad);
                for _ in 0..5 {
                    let x = r.next();
                    assert!(d.maybe(x) as u32 == paper::filter_ask(&bad, x));
                }
            }
        }
    }
    println!("selfcheck seed {seed}, {count} rounds: paper and Rust agree");
    println!("validation answers on damaged bodies: {numbers:?}");
    println!("get on damaged bodies (paper's answer / Rust): {gets:?}");
}

pub fn example() -> Vec<Rec> {
    ["1:1:41:9:8:100", "0:1:41:4:8:40", "1:2:42:7:0:108", "0:1:42:3:8:60", "1:1:43:12:8:108"]
        .iter()
        .map(|s| crate::lines::rec(s))
        .collect()
}
pub fn figures() {
    let ok = |name: &str, b: bool| {
        println!("{name}: {}", if b { "agrees" } else { "DISAGREES" });
    };
    let dims = |n: usize| {
        let keys: Vec<Rec> =
            (0..n).map(|i| Rec { new: true, kind: 1, key: vec![i as u8], seq: 1, len: 0, offset: 0 }).collect();
        let b = rust_finish(&keys).unwrap();
        (u32::from_le_bytes(b[20..24].try_into().unwrap()), u64::from_le_bytes(b[24..32].try_into().unwrap()))
    };
    ok("P1 n = 1, 3, 4 give b = 1, 1, 2", dims(1).0 == 1 && dims(3).0 == 1 && dims(4).0 == 2);
    ok("P2 arena start 48 for n = 1, 72 for n = 3", dims(1).1 == 48 && dims(3).1 == 72);
    let rb = rust_builder(&example()).unwrap();
    let heads = rb.heads().to_vec();
    let body = rb.finish().unwrap();
    ok("P3 example body 204 bytes, records at 0, 51, 102", body.len() == 204 && heads == [0, 51, 102]);
    let s = |n: usize| crate::sizing_cut::sizing(&crate::sizing_cut::Len(n)).unwrap();
    let b = |n: u64| {
        let mut h: Vec<u64> = (0..n).map(|i| i.wrapping_mul(0x1234567890abcdef) ^ 77).collect();
        let d = rf::Filter::build(&mut h).dims().unwrap();
        (d.0, d.1 + 3, d.2)
    };
    ok("P4 n = 1, 2, 3: segment 1, 14 segments", (1..4).all(|n| s(n) == (1, 14, 14) && b(n as u64) == (1, 14, 14)));
    ok("P5 n = 4: 1, 15", s(4) == (1, 15, 15) && b(4) == (1, 15, 15));
    ok("P6 n = 5: 2, 9", s(5) == (2, 9, 18) && b(5) == (2, 9, 18));
    ok("P7 n = 65,536: 512, 146, 74,752", s(65536) == (512, 146, 74752) && b(65536) == (512, 146, 74752));
    ok("P8 positions 0, 1, 2, 3", rf::positions(0, 1, 11) == [0, 1, 2, 3]);
    ok("P9 positions 11, 12, 14, 16", rf::positions(u64::MAX, 2, 6) == [11, 12, 14, 16]);
    ok(
        "example accepted with 116 data bytes, 29 with 115",
        rp::validate_number(&body, 116) == 0 && rp::validate_number(&body, 115) == 29,
    );
    for limit in [8u64, 5, 12, 6, 2, u64::MAX] {
        let mut input = limit.to_le_bytes().to_vec();
        input.extend(116u64.to_le_bytes());
        input.extend(&body);
        print!("{}", paper::listing(&input));
        // the Rust's own get beside each key
        for k in [b"A", b"B", b"C"] {
            if let (paper::Answer::Found { kind, seq, offset, length }, w) = get_both(&body, data(116), k, Some(limit))
            {
                println!(
                    "    get {} at {limit}: kind {kind} seq {seq} offset {offset} length {length} ({w})",
                    k[0] as char
                );
            }
        }
    }
    let seeds: Vec<String> = (0..8u64).map(|i| format!("{:016x}", rp::mix(rp::STEP.wrapping_mul(i + 1)))).collect();
    println!("seeds of the eight attempts: {}", seeds.join(" "));
    println!("mix(0) = {}, mix(1) = {:016x}, mix(2^64-1) = {:016x}", rp::mix(0), rp::mix(1), rp::mix(u64::MAX));
    println!("hash of the empty key at seed 0 = {:016x}; of \"A\" = {:016x}", rp::hash(b"", 0), rp::hash(b"A", 0));
    println!("example body: {}", crate::hex(&body));
}
