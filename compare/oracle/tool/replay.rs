//! Test vectors replayed with the paper's reading.
use crate::paper;
use crate::vectors::*;

/// The cases of a vector file, op and bytes; none where it is no such file, or not whole.
pub fn cases(file: &[u8]) -> Option<Vec<(u8, &[u8])>> {
    let (&count, mut rest) = file.strip_prefix(MAGIC)?.split_first_chunk()?;
    let mut all = Vec::new();
    while let Some((&[op, a, b, c, d], after)) = rest.split_first_chunk() {
        let (case, after) = after.split_at_checked(u32::from_le_bytes([a, b, c, d]) as usize)?;
        all.push((op, case));
        rest = after;
    }
    (rest.is_empty() && all.len() as u32 == u32::from_le_bytes(count)).then_some(all)
}
/// Reads a file back and answers each case with the paper's reading.
pub fn replay(path: &str) -> Result<(), String> {
    let f = std::fs::read(path).map_err(crate::failed(path))?;
    let all = cases(&f).ok_or_else(|| format!("{path}: no whole vector file, which begins with WASHVEC1"))?;
    struct R<'a>(&'a [u8]);
    impl<'a> R<'a> {
        fn take(&mut self, n: usize) -> &'a [u8] {
            let (a, b) = self.0.split_at(n);
            self.0 = b;
            a
        }
        fn u8(&mut self) -> u8 {
            self.take(1)[0]
        }
        fn u16(&mut self) -> u64 {
            u16::from_le_bytes(self.take(2).try_into().unwrap()) as u64
        }
        fn u32(&mut self) -> u64 {
            u32::from_le_bytes(self.take(4).try_into().unwrap()) as u64
        }
        fn u64(&mut self) -> u64 {
            u64::from_le_bytes(self.take(8).try_into().unwrap())
        }
        fn bytes(&mut self) -> &'a [u8] {
            let n = self.u32() as usize;
            self.take(n)
        }
        fn state(&mut self) -> paper::State {
            paper::State { used: self.u64(), keys: self.u64(), head: self.u64() }
        }
        fn patched(&mut self, base: &[u8]) -> Vec<u8> {
            let n = self.u32() as usize;
            let mut b = base.to_vec();
            b.resize(n, 0xA5);
            for _ in 0..self.u8() {
                let at = self.u32() as usize;
                b[at] = self.u8();
            }
            b
        }
    }
    let (mut buf, mut body, mut filter) = (vec![], vec![], vec![]);
    for (case, &(op, bytes)) in all.iter().enumerate() {
        let mut p = R(bytes);
        let ok = match op {
            1 => paper::mix(p.u64()) == p.u64(),
            2 => {
                let s = p.u64();
                let k = p.bytes();
                let h = paper::hash(k, s);
                h == p.u64() && paper::fingerprint(h) == p.u16()
            }
            3 => {
                let (h, q, n, b) = (p.u64(), p.u32(), p.u32(), p.u32());
                h % b == p.u32() && paper::position(h, q, n) == p.u32()
            }
            4 => {
                let (h, s, c) = (p.u64(), p.u32(), p.u32());
                paper::positions(h, s, c).iter().all(|&x| x == p.u32())
            }
            5 => {
                let n = p.u32();
                paper::sizing(n) == (p.u32(), p.u32(), p.u32())
            }
            BUFFER => {
                let n = p.u32() as usize;
                buf = vec![p.u8(); n];
                true
            }
            ADD => {
                let s = p.state();
                let new = p.u8() == 1;
                let kind = p.u8();
                let key = if p.u8() == 1 {
                    let v = p.u8();
                    vec![v; p.u32() as usize]
                } else {
                    p.bytes().to_vec()
                };
                let (vl, seq) = (p.u32(), p.u64());
                match paper::add(s, &mut buf, new, kind, &key, vl, seq) {
                    Ok((t, pl)) => p.u8() == 0 && p.state() == t && p.u64() == pl,
                    Err(e) => {
                        let b = p.u8() as u32 == e;
                        p.take(32);
                        b
                    }
                }
            }
            SET => {
                let s = p.state();
                let (pl, of) = (p.u64(), p.u64());
                paper::set_offset(s, &mut buf, pl, of).err().unwrap_or(0) == p.u8() as u32
            }
            LOOK => {
                let a = p.u32() as usize;
                let b = p.bytes();
                &buf[a..a + b.len()] == b
            }
            POKE => {
                let a = p.u32() as usize;
                buf[a] = p.u8();
                true
            }
            FINISH => {
                let a = p.bytes();
                let mut out = vec![0; p.u32() as usize];
                let (x, y) = (p.u32() as usize, p.u32() as usize);
                match paper::finish(a, &mut out, x, y) {
                    Ok(l) => p.u8() == 0 && p.bytes() == &out[..l],
                    Err(e) => p.u8() as u32 == e && p.bytes().is_empty(),
                }
            }
            FINISH_GEN => {
                let s = p.u64();
                let n = p.u32();
                let a = gen_arena(s, n);
                let mut out = vec![0; a.len() + 32 + 17 * n as usize];
                match paper::finish(&a, &mut out, 2 * n as usize, 8 * n as usize + 8) {
                    Ok(l) => {
                        p.u8() == 0
                            && p.u64() == l as u64
                            && p.u64() == paper::hash(&out[..l], 0)
                            && p.u64() == u64::from_le_bytes(out[8..16].try_into().unwrap())
                    }
                    Err(e) => {
                        let b = p.u8() as u32 == e;
                        p.take(24);
                        b
                    }
                }
            }
            BODY => {
                body = p.bytes().to_vec();
                true
            }
            VALIDATE => {
                let b = p.patched(&body);
                paper::validate(&b, p.u64()) == p.u8() as u32
            }
            GET => {
                let b = p.patched(&body);
                let dl = p.u64();
                let k = p.bytes();
                let has = p.u8() == 1;
                let l = p.u64();
                let want = (p.u8(), p.u8(), p.u64(), p.u64(), p.u64());
                want == match paper::get(&b, dl, k, if has { Some(l) } else { None }) {
                    paper::Answer::Nothing => (0, 0, 0, 0, 0),
                    paper::Answer::Damage => (14, 0, 0, 0, 0),
                    paper::Answer::Found { kind, seq, offset, length } => (1, kind, seq, offset, length),
                }
            }
            LIST => {
                let b = p.patched(&body);
                let mut i = p.u64().to_le_bytes().to_vec();
                i.extend(p.u64().to_le_bytes());
                i.extend(b);
                paper::listing(&i).as_bytes() == p.bytes()
            }
            LIST_RAW => {
                let i = p.bytes();
                paper::listing(i).as_bytes() == p.bytes()
            }
            FBUILD => {
                let n = p.u32();
                let mut h: Vec<u64> = (0..n).map(|_| p.u64()).collect();
                let (x, y, z) = (p.u32() as usize, p.u32() as usize, p.u32() as usize);
                match paper::filter_build(&mut h, x, y, z) {
                    Ok(f) => p.u8() == 0 && p.bytes() == f,
                    Err(e) => p.u8() as u32 == e && p.bytes().is_empty(),
                }
            }
            FBUILD_GEN => {
                let s = p.u64();
                let n = p.u32();
                let mut h = gen_hashes(s, n);
                let c = 2 * n as usize + 100;
                match paper::filter_build(&mut h, 48 + c, c + n as usize, 2 * c + n as usize) {
                    Ok(f) => p.u8() == 0 && p.u64() == f.len() as u64 && p.u64() == paper::hash(&f, 0),
                    Err(e) => {
                        let b = p.u8() as u32 == e;
                        p.take(16);
                        b
                    }
                }
            }
            FBASE => {
                filter = p.bytes().to_vec();
                true
            }
            FASK => {
                let b = p.patched(&filter);
                let m = p.u32();
                let h: Vec<u64> = (0..m).map(|_| p.u64()).collect();
                (paper::filter_read(&b).is_none()) == (p.u8() == 15)
                    && h.iter().all(|&x| paper::filter_ask(&b, x) == p.u8() as u32)
            }
            _ => false,
        };
        assert!(p.0.is_empty(), "case {case} op {op:#x} has bytes left");
        if !ok {
            println!("case {case} (op {op:#x}) differs");
        }
    }
    println!("{path}: {} cases replayed with the paper's reading", all.len());
    Ok(())
}
