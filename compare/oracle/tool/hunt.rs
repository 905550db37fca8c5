//! Searches: how often attempts fail, and inputs that make them fail.
use crate::{Rng, hex, num, paper, rf, rp};
use std::collections::BTreeMap;
use std::time::{Duration, Instant};

fn inverse(a: u64) -> u64 {
    let mut x = 1u64;
    for _ in 0..6 {
        x = x.wrapping_mul(2u64.wrapping_sub(a.wrapping_mul(x)));
    }
    x
}
fn unshift(mut x: u64, k: u32) -> u64 {
    let y = x;
    let mut s = k;
    while s < 64 {
        x = y ^ (x >> k);
        s += k;
    }
    x
}
pub fn unmix(h: u64) -> u64 {
    let h = unshift(h, 31).wrapping_mul(inverse(0x94d049bb133111eb));
    let h = unshift(h, 27).wrapping_mul(inverse(0xbf58476d1ce4e5b9));
    unshift(h, 30)
}
/// Two keys of 16 bytes with equal hashes under EVERY seed: bit 36 of the first word lands on bit 63 after the rotation,
/// an odd multiplier keeps it there, and bit 63 of the second word takes it away.
pub fn universal_pair(w1: u64, w2: u64) -> [Vec<u8>; 2] {
    let k = |a: u64, b: u64| {
        let mut v = a.to_le_bytes().to_vec();
        v.extend(b.to_le_bytes());
        v
    };
    [k(w1, w2), k(w1 ^ 1 << 36, w2 ^ 1 << 63)]
}
/// Two keys of 16 bytes with equal hashes under one seed (and no others, but by chance).
pub fn pair_for(seed: u64, r: &mut Rng) -> [Vec<u8>; 2] {
    let step = |h: u64, w: u64| (h ^ w).rotate_left(27).wrapping_mul(rp::STEP);
    let h0 = rp::mix(seed ^ 16);
    let (a, b, c) = (r.next(), r.next(), r.next());
    let d = step(h0, a) ^ b ^ step(h0, c);
    let k = |a: u64, b: u64| {
        let mut v = a.to_le_bytes().to_vec();
        v.extend(b.to_le_bytes());
        v
    };
    let p = [k(a, b), k(c, d)];
    assert!(rp::hash(&p[0], seed) == rp::hash(&p[1], seed));
    p
}
/// The 8-byte key whose hash under `seed` equals that of a key shorter than 8 bytes.
pub fn eight_like(short: &[u8], seed: u64) -> Vec<u8> {
    let mut t = [0u8; 8];
    t[..short.len()].copy_from_slice(short);
    let target = rp::mix(seed ^ short.len() as u64) ^ u64::from_le_bytes(t);
    let w = target.wrapping_mul(inverse(rp::STEP)).rotate_right(27) ^ rp::mix(seed ^ 8);
    let k = w.to_le_bytes().to_vec();
    assert!(rp::hash(&k, seed) == rp::hash(short, seed));
    k
}
pub fn seed(i: u64) -> u64 {
    rp::mix(rp::STEP.wrapping_mul(i + 1))
}
/// A list of keys that construction places at attempt k, the earlier attempts failing by equal hashes (2k keys; k = 0 to 7), or 10 (k = 8).
pub fn keys_for_attempt(k: u64, r: &mut Rng) -> Vec<Vec<u8>> {
    let mut v: Vec<Vec<u8>> = (0..k).flat_map(|i| pair_for(seed(i), r)).collect();
    if k == 0 {
        v.push(r.bytes(5));
    }
    v.sort();
    v
}
/// n keys of 8 bytes that share one bucket under the seeds of attempts 0 to k-1.
pub fn crowded(n: usize, k: u64, r: &mut Rng) -> Vec<Vec<u8>> {
    let b = n.div_ceil(3) as u64;
    let mut v = Vec::new();
    while v.len() < n {
        let key = r.next().to_le_bytes();
        if (0..k).all(|i| rp::hash(&key, seed(i)) % b == 0) {
            v.push(key.to_vec());
        }
    }
    v.sort();
    v.dedup();
    v
}
fn attempt_of(keys: &[Vec<u8>]) -> Result<u64, String> {
    let refs: Vec<&[u8]> = keys.iter().map(|k| &k[..]).collect();
    rp::construct(&refs).map(|(s, _, _)| (0..8).find(|&i| seed(i) == s).unwrap())
}
fn trace(keys: &[Vec<u8>]) -> String {
    let refs: Vec<&[u8]> = keys.iter().map(|k| &k[..]).collect();
    match paper::construct(&refs) {
        Ok((_, _, _, t)) => format!(
            "placed at attempt {}; failed before by equal hashes {}, by no pilot {}; largest pilot {}",
            t.attempt, t.equal_hash_fails, t.no_pilot_fails, t.max_pilot
        ),
        Err((e, t)) => format!("refused {e}: by equal hashes {}, by no pilot {}", t.equal_hash_fails, t.no_pilot_fails),
    }
}

pub fn run(what: &str, a: &[&str]) {
    let n = |i: usize| num(a[i]);
    match what {
        // oracle hunt-finish SETS SEED: random key sets at many n
        "finish" => {
            let mut r = Rng(n(1));
            println!(
                "n, sets, sets by attempt used (0 first), average pilot tried per bucket of two or more, largest pilot"
            );
            let sizes: Vec<usize> =
                (2..=50).chain([60, 75, 99, 100, 150, 200, 300, 500, 1000, 3000, 10_000, 65_536]).collect();
            for m in sizes {
                let sets = (n(0) * 50 / m as u64).max(3).min(n(0));
                let mut used: BTreeMap<u64, u64> = BTreeMap::new();
                let (mut sum, mut multi, mut top) = (0u64, 0u64, 0u32);
                for _ in 0..sets {
                    let keys: Vec<[u8; 16]> = (0..m)
                        .map(|_| {
                            let mut k = [0; 16];
                            k[..8].copy_from_slice(&r.next().to_le_bytes());
                            k[8..].copy_from_slice(&r.next().to_le_bytes());
                            k
                        })
                        .collect();
                    let refs: Vec<&[u8]> = keys.iter().map(|k| &k[..]).collect();
                    let (s, pilots, _) = rp::construct(&refs).unwrap();
                    *used.entry((0..8).find(|&i| seed(i) == s).unwrap()).or_default() += 1;
                    let b = pilots.len();
                    let mut size = vec![0u32; b];
                    for k in &refs {
                        size[rp::bucket(rp::hash(k, s), b)] += 1;
                    }
                    for i in 0..b {
                        if size[i] >= 2 {
                            sum += pilots[i] as u64 + 1;
                            multi += 1;
                            top = top.max(pilots[i]);
                        }
                    }
                }
                println!("{m} {sets} {used:?} {:.2} {top}", sum as f64 / multi.max(1) as f64);
            }
        }
        // oracle hunt-examples: key lists for each attempt and each cause
        "examples" => {
            let mut r = Rng(42);
            let u = universal_pair(0x4141414141414141, 0x4242424242424242);
            let mut v = u.to_vec();
            v.sort();
            println!("two keys with equal hashes under every seed: {} {} -> {}", hex(&v[0]), hex(&v[1]), trace(&v));
            println!("   the Rust: {:?}", attempt_of(&v));
            let v = vec![vec![], eight_like(b"", seed(0))];
            println!(
                "the empty key and an 8-byte key, equal under seed 0: - {} -> {} (Rust {:?})",
                hex(&v[1]),
                trace(&v),
                attempt_of(&v)
            );
            for k in 1..=8 {
                let v = keys_for_attempt(k, &mut r);
                println!(
                    "equal hashes under seeds 0..{k}, {} keys -> {} (Rust {:?}): {}",
                    v.len(),
                    trace(&v),
                    attempt_of(&v),
                    if k < 3 { v.iter().map(|x| hex(x)).collect::<Vec<_>>().join(",") } else { "..".into() }
                );
            }
            // no pilot: the smallest single-bucket sets
            for m in [12usize, 11] {
                let start = Instant::now();
                let mut tried = 0u64;
                loop {
                    if start.elapsed() > Duration::from_secs(if m == 12 { 60 } else { 150 }) {
                        println!("no pilot, n = {m}: none found in {tried} crowded sets");
                        break;
                    }
                    tried += 1;
                    let v = crowded(m, 1, &mut r);
                    if v.len() != m {
                        continue;
                    }
                    if attempt_of(&v) != Ok(0) {
                        println!(
                            "no pilot at attempt 0, n = {m}, after {tried} crowded sets -> {}: {}",
                            trace(&v),
                            v.iter().map(|x| hex(x)).collect::<Vec<_>>().join(",")
                        );
                        break;
                    }
                }
            }
            for (m, k) in [(20usize, 1u64), (20, 2), (20, 3), (20, 7), (20, 8), (16, 8), (15, 8)] {
                let mut tries = 0;
                loop {
                    tries += 1;
                    let v = crowded(m, k, &mut r);
                    let a = attempt_of(&v);
                    if (k < 8 && a == Ok(k)) || (k == 8 && a.is_err()) {
                        println!(
                            "no pilot under seeds 0..{k}, n = {m}, {tries} tries -> {}: {}",
                            trace(&v),
                            v.iter().map(|x| hex(x)).collect::<Vec<_>>().join(",")
                        );
                        break;
                    }
                    if tries > 40 {
                        println!("n = {m}, k = {k}: none in {tries} tries");
                        break;
                    }
                }
            }
        }
        // oracle hunt-pilot-edge P SEED: twelve keys in one bucket of attempt 0 whose least pilot (unbounded) is exactly P
        "pilot-edge" => {
            let want = n(0) as u32;
            let mut r = Rng(n(1));
            let fits = |h: &[u64], p: u32| {
                let mut m = 0u32;
                h.iter().all(|&x| {
                    let b = 1 << rp::position(x, p, 12);
                    let f = m & b == 0;
                    m |= b;
                    f
                })
            };
            loop {
                let v = crowded(12, 1, &mut r);
                if v.len() != 12 {
                    continue;
                }
                let h: Vec<u64> = v.iter().map(|k| rp::hash(k, seed(0))).collect();
                if !fits(&h, want) || (0..want).any(|p| fits(&h, p)) {
                    continue;
                }
                println!(
                    "least pilot {want}: {} (Rust attempt {:?}, {})",
                    v.iter().map(|x| format!("0x{}", hex(x))).collect::<Vec<_>>().join(","),
                    attempt_of(&v),
                    trace(&v)
                );
                break;
            }
        }
        // oracle hunt-filter SETS SEED: attempts used by random hash sets
        "filter" => {
            let mut r = Rng(n(1));
            println!("n, sets, sets by attempt used (1 first); 0 = Positive");
            let sizes: Vec<usize> = (1..=20)
                .chain([
                    25, 30, 42, 43, 60, 100, 122, 123, 200, 355, 356, 1000, 1035, 1036, 3000, 10_000, 30_000, 65_536,
                ])
                .collect();
            for m in sizes {
                let sets = (n(0) * 20 / m as u64).max(20).min(n(0));
                let mut used: BTreeMap<u64, u64> = BTreeMap::new();
                for _ in 0..sets {
                    let mut h: Vec<u64> = (0..m).map(|_| r.next()).collect();
                    let f = rf::Filter::build(&mut h);
                    let a = f.dims().map_or(0, |d| (1..=100u64).find(|&a| rf::mix(a) == d.3).unwrap());
                    *used.entry(a).or_default() += 1;
                }
                println!("{m} {sets} {used:?}");
            }
        }
        // oracle hunt-exhaust N SECONDS SEED: n distinct hashes that no attempt of 100 peels
        "exhaust" => {
            let (m, secs) = (n(0) as usize, n(1));
            match exhaust(m, Duration::from_secs(secs), n(2)) {
                Ok(h) => {
                    let mut g = h.clone();
                    println!(
                        "n = {m}: Positive after 100 attempts ({}): {}",
                        rf::Filter::build(&mut g).is_positive(),
                        h.iter().map(|x| format!("0x{x:016x}")).collect::<Vec<_>>().join(",")
                    );
                }
                Err(best) => println!("n = {m}: best {best} of 100 attempts fail in {secs} s"),
            }
        }
        // oracle hunt-last N SECONDS SEED: n hashes that only the 100th attempt peels
        "last" => match cover(n(0) as usize, Duration::from_secs(n(1)), n(2), 99) {
            Ok(h) => {
                let d = rf::Filter::build(&mut h.clone()).dims().map(|d| d.3 == rf::mix(100));
                println!(
                    "n = {}: peeled by attempt 100 ({d:?}): {}",
                    h.len(),
                    h.iter().map(|x| format!("0x{x:016x}")).collect::<Vec<_>>().join(",")
                );
            }
            Err(best) => println!("best {best}"),
        },
        _ => unreachable!("a hunt of command.rs"),
    }
}
/// Simple exhaustion for any n >= 200: a pair that collides in every position for each attempt.
pub fn exhaust_pairs(n: usize, r: &mut Rng) -> Vec<u64> {
    let (segment, segments, _) = paper::sizing(n as u64);
    let mut v: Vec<u64> = Vec::new();
    for a in 1..=100u64 {
        let h = r.next();
        // another h with the same positions: change bits that no position reads
        let mut g = h;
        for bit in (0..64).rev() {
            let c = h ^ (1 << bit);
            if c != h && paper::positions(c, segment, segments - 3) == paper::positions(h, segment, segments - 3) {
                g = c;
                break;
            }
        }
        assert!(g != h);
        v.push(unmix(h).wrapping_sub(rf::mix(a)));
        v.push(unmix(g).wrapping_sub(rf::mix(a)));
    }
    while v.len() < n {
        v.push(r.next());
    }
    v.sort();
    v.dedup();
    v
}
/// Hill climbing on "some two hashes have the same four positions" over the 100 attempts; ends when the Rust says Positive.
pub fn exhaust(n: usize, time: Duration, s: u64) -> Result<Vec<u64>, usize> {
    cover(n, time, s, 100)
}
/// The same for attempts 1 to `last` only; with last < 100 the next attempt must peel.
pub fn cover(n: usize, time: Duration, s: u64, last: usize) -> Result<Vec<u64>, usize> {
    let (segment, segments, _) = paper::sizing(n as u64);
    let count = segments - 3;
    let class = |x: u64, a: usize| -> u32 {
        let h = rf::mix(x.wrapping_add(rf::mix(a as u64 + 1)));
        let p = paper::positions(h, segment, count);
        let m = segment as u32;
        let (p1, p2, p3) = (((h % segment) as u32), ((h >> 16) % segment) as u32, ((h >> 32) % segment) as u32);
        ((p[0] as u32 * m + p1) * m + p2) * m + p3
    };
    let total = (count * segment * segment * segment * segment) as usize;
    let mut r = Rng(s);
    let mut xs: Vec<u64> = (0..n).map(|_| r.next()).collect();
    let mut counts = vec![vec![0u16; total]; 100];
    let mut cls: Vec<Vec<u32>> = xs.iter().map(|&x| (0..100).map(|a| class(x, a)).collect()).collect();
    for c in &cls {
        for a in 0..100 {
            counts[a][c[a] as usize] += 1;
        }
    }
    let mut dups = vec![0u32; 100]; // number of surplus members
    for a in 0..100 {
        dups[a] = counts[a].iter().map(|&c| (c as u32).saturating_sub(1)).sum();
    }
    let start = Instant::now();
    let mut best = 0;
    while start.elapsed() < time {
        let j = r.below(n as u64) as usize;
        for a in 0..100 {
            let c = &mut counts[a][cls[j][a] as usize];
            if *c > 1 {
                dups[a] -= 1;
            }
            *c -= 1;
        }
        let open: Vec<usize> = (0..last).filter(|&a| dups[a] == 0).collect();
        let score = |c: &dyn Fn(usize) -> u32, floor: usize| -> usize {
            let mut got = 0;
            for (i, &a) in open.iter().enumerate() {
                if got + open.len() - i < floor {
                    return 0;
                }
                if counts[a][c(a) as usize] > 0 {
                    got += 1;
                }
            }
            got
        };
        let old = {
            let k = &cls[j];
            score(&|a| k[a], 0)
        };
        let mut pick = (old, xs[j]);
        if !open.is_empty() {
            for _ in 0..3000 {
                // aim at one open attempt and one partner
                let a = open[r.below(open.len() as u64) as usize];
                let q = r.below(n as u64) as usize;
                if q == j {
                    continue;
                }
                let hq = rf::mix(xs[q].wrapping_add(rf::mix(a as u64 + 1)));
                // same a (top part) and same low residues: keep the bits that positions read, change others
                let cl = (count * segment) as u128;
                let p0 = ((hq as u128 * cl) >> 64) as u128;
                let lo = ((p0 << 64) + cl - 1) / cl;
                let hi = (((p0 + 1) << 64) + cl - 1) / cl;
                let mut h = (lo + (r.next() as u128 % (hi - lo))) as u64;
                let mask = (segment - 1) | (segment - 1) << 16 | (segment - 1) << 32;
                h = (h & !mask) | (hq & mask);
                if (h as u128) < lo || (h as u128) >= hi {
                    continue;
                }
                let x = unmix(h).wrapping_sub(rf::mix(a as u64 + 1));
                let sc = score(&|b| class(x, b), pick.0);
                if sc >= pick.0 && !xs.contains(&x) {
                    pick = (sc, x);
                }
            }
        }
        xs[j] = pick.1;
        cls[j] = (0..100).map(|a| class(xs[j], a)).collect();
        for a in 0..100 {
            let c = &mut counts[a][cls[j][a] as usize];
            if *c > 0 {
                dups[a] += 1;
            }
            *c += 1;
        }
        let mut failing = dups[..last].iter().filter(|&&d| d > 0).count();
        if failing > best {
            best = failing;
        }
        if failing + 8 >= last {
            failing = (1..=last as u64).filter(|&a| !paper::peels(&xs, a)).count();
            best = best.max(failing);
        }
        if failing == last && (last == 100 || paper::peels(&xs, last as u64 + 1)) {
            xs.sort();
            return Ok(xs);
        }
    }
    Err(best)
}
