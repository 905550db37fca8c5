//! The sizing tables, by running the Rust's statements at each n.
use crate::{
    Rng, failed, paper, rf,
    sizing_cut::{Len, sizing},
};
use std::fmt::Write as _;

/// A whole number as base-2^32 digits, little-endian.
fn mul(a: &[u32], m: u64) -> Vec<u32> {
    let mut out = Vec::new();
    let mut carry = 0u128;
    for &d in a {
        let x = d as u128 * m as u128 + carry;
        out.push(x as u32);
        carry = x >> 32;
    }
    while carry > 0 {
        out.push(carry as u32);
        carry >>= 32;
    }
    out
}
fn pow(b: u64, e: u32) -> Vec<u32> {
    (0..e).fold(vec![1], |a, _| mul(&a, b))
}
fn le(a: &[u32], b: &[u32]) -> bool {
    let t = |x: &[u32]| {
        let mut v = x.to_vec();
        while v.last() == Some(&0) {
            v.pop();
        }
        v
    };
    let (a, b) = (t(a), t(b));
    if a.len() != b.len() {
        return a.len() < b.len();
    }
    a.iter().rev().cmp(b.iter().rev()) != std::cmp::Ordering::Greater
}
/// 291^(2k+1) <= m^2 * 100^(2k+1)
fn rule(k: u32, m: u64) -> bool {
    le(&pow(291, 2 * k + 1), &mul(&mul(&pow(100, 2 * k + 1), m), m))
}
/// Least m >= 2 with the rule for k.
fn least(k: u32) -> u64 {
    let (mut lo, mut hi) = (1u64, 1u64 << 40); // rule false at lo (or lo = 1), true at hi
    if rule(k, 2) {
        return 2;
    }
    while hi - lo > 1 {
        let mid = (lo + hi) / 2;
        if rule(k, mid) { hi = mid } else { lo = mid }
    }
    hi
}
pub fn rows(max: u64) -> Vec<(u64, u64, u64)> {
    let mut rows: Vec<(u64, u64, u64)> = Vec::new();
    for n in 1..=max {
        let (s, g, _) = sizing(&Len(n as usize)).unwrap();
        if rows.last().is_none_or(|r| r.1 != s as u64 || r.2 != g as u64) {
            rows.push((n, s as u64, g as u64));
        }
    }
    rows
}
/// The first key count of each segment, by document 01's whole-number rule.
pub fn leasts() -> Vec<u64> {
    (0..=18).map(|k| if k == 0 { 1 } else { least(k) }).collect()
}
pub fn segments_text() -> String {
    let mut t = String::from(
        "# exponent k, segment 2^k, least key count (document 01's whole-number rule; key counts 1 and 2 share m = 2)\n",
    );
    for (k, least) in leasts().iter().enumerate() {
        writeln!(t, "{k} {} {least}", 1u64 << k).unwrap();
    }
    t
}
/// The rows to `top` keys: first key count, segments, segment.
pub fn rows_text(top: u64) -> String {
    let mut t = format!("# rows (first key count, segments) for n = 1..{top}; third figure: the segment there\n");
    for (n, s, g) in rows(top) {
        writeln!(t, "{n} {g} {s}").unwrap();
    }
    t
}
pub fn run(max: u64, dir: &str) -> Result<(), String> {
    std::fs::create_dir_all(dir).map_err(failed(dir))?;
    // (a) segments
    let leasts: Vec<u64> = (0..=18).map(least).collect();
    let t = segments_text();
    std::fs::write(format!("{dir}/segments.txt"), &t).map_err(failed(dir))?;
    print!("{t}");
    // k = 0 must hold at m = 2, and the rule is monotone in m and antitone in k: check the latter by the leasts rising.
    assert!(rule(0, 2) && leasts.windows(2).all(|w| w[0] < w[1]));
    let mut wrong = 0u64;
    for n in 1..=max {
        let (s, g, c) = sizing(&Len(n as usize)).unwrap();
        let m = n.max(2);
        let k = (0..=18).rev().find(|&k| leasts[k as usize] <= m).unwrap();
        if s as u64 != 1 << k {
            wrong += 1;
            println!("segment disagrees at n = {n}: rust {s}, rule {}", 1u64 << k);
        }
        assert_eq!(c, s * g);
    }
    println!("segment by f64 ln against the whole-number rule, n = 1..{max}: {wrong} disagreements");
    // how near to an integer does the f64 exponent come, at the steps?
    for (k, &l) in leasts.iter().enumerate().skip(1) {
        if l > max {
            break;
        }
        let e = |n: u64| (n as f64).ln() / 2.91f64.ln() - 0.5;
        println!("  k = {k}: least {l}, f64 exponent at least-1 = {:.9}, at least = {:.9}", e(l - 1), e(l));
    }
    // (b) rows
    for top in [65_536u64, max] {
        if top > max {
            continue;
        }
        let r = rows(top);
        let mut bad = 0;
        let mut tight = (u64::MAX, 0, 0.0f64);
        for (i, &(n, s, g)) in r.iter().enumerate() {
            let last = if i + 1 < r.len() { r[i + 1].0 - 1 } else { top };
            if g < 4 || (i > 0 && r[i - 1].0 >= n) || 40 * g * s < 43 * last {
                bad += 1;
                println!("row rule broken at {n} {g} {s} last {last}");
            }
            let slack = 40 * g * s - 43 * last;
            if slack < tight.0 {
                tight = (slack, last, (g * s) as f64 / last as f64);
            }
        }
        std::fs::write(format!("{dir}/rows-{top}.txt"), rows_text(top)).map_err(failed(dir))?;
        let min_g = r.iter().map(|r| r.2).min().unwrap();
        let max_g = r.iter().map(|r| r.2).max().unwrap();
        let falls = r.windows(2).filter(|w| w[1].1 == w[0].1 && w[1].2 < w[0].2).count();
        let seg_changes = r.windows(2).filter(|w| w[1].1 != w[0].1).count();
        let seg_change_same_g = r.windows(2).filter(|w| w[1].1 != w[0].1 && w[1].2 == w[0].2).count();
        println!(
            "rows 1..{top}: {} rows, first {:?}, last {:?}, {bad} break the rule; least slack of 40*cells - 43*n is {} at n = {} (cells/n = {:.6}); segments from {min_g} to {max_g}; {seg_changes} segment changes ({seg_change_same_g} of them with equal segments); {falls} rows where segments fall within one segment size",
            r.len(),
            r[0],
            r[r.len() - 1],
            tight.0,
            tight.1,
            tight.2
        );
    }
    // is cells monotone in n?
    let mut prev = 0;
    let mut falls = Vec::new();
    let mut most = (0, 0);
    let mut first_over = 0;
    let mut over_then_under = Vec::new();
    let mut was_over = false;
    for n in 1..=max {
        let (_, _, c) = sizing(&Len(n as usize)).unwrap();
        if c < prev {
            falls.push((n, prev, c));
        }
        prev = c;
        if c > most.1 {
            most = (n, c);
        }
        let over = 17 * c as u64 + 32 * n > 67_108_864;
        if over && first_over == 0 {
            first_over = n;
        }
        if was_over && !over {
            over_then_under.push(n);
        }
        was_over = over;
    }
    println!("cells falls from n-1 to n at {} places (n, before, after): {:?}", falls.len(), falls);
    println!("most cells {} first at n = {}", most.1, most.0);
    println!("17*cells + 32*n > 67,108,864 first at n = {first_over}; falls back under at {:?}", over_then_under);
    let mut s = String::new();
    if first_over > 0 {
        for n in [first_over - 1, first_over] {
            let (g, k, c) = sizing(&Len(n as usize)).unwrap();
            writeln!(s, "n = {n}: segment {g}, segments {k}, cells {c}, 17*cells + 32*n = {}", 17 * c as u64 + 32 * n)
                .unwrap();
        }
        print!("{s}");
    }
    Ok(())
}
/// Real builds at each n of a range: the header's fields against the cut statements.
pub fn by_builds(from: u64, to: u64) {
    let mut rng = Rng(7);
    let mut attempts = std::collections::BTreeMap::new();
    for n in from..=to {
        let mut h: Vec<u64> = (0..n).map(|_| rng.next()).collect();
        let f = rf::Filter::build(&mut h);
        let (s, g, c) = sizing(&Len(n as usize)).unwrap();
        let (fs, fc, fcells, seed, keys) = f.dims().expect("random hashes give a Fuse filter");
        assert_eq!((s, g - 3, c, n), (fs, fc, fcells, keys), "n = {n}");
        let a = (1..=100u64).find(|&a| rf::mix(a) == seed).unwrap();
        *attempts.entry(a).or_insert(0u64) += 1;
    }
    println!(
        "real builds at each n from {from} to {to}: header fields equal the cut statements; attempts used {attempts:?}"
    );
}
/// Real builds at the first and last n of each row up to max (and below the workspace limit).
pub fn at_rows(max: u64) {
    let r = rows(max);
    let mut rng = Rng(8);
    let mut n_builds = 0;
    let pool: Vec<u64> = {
        let mut v: Vec<u64> = (0..max).map(|_| rng.next()).collect();
        v.sort();
        v
    };
    for i in 0..r.len() {
        let last = if i + 1 < r.len() { r[i + 1].0 - 1 } else { max };
        for n in [r[i].0, last] {
            if n <= 65_536 {
                continue;
            }
            let over = 17 * r[i].1 * r[i].2 + 32 * n > 67_108_864;
            let mut h = pool[..n as usize].to_vec();
            let f = rf::Filter::build(&mut h);
            assert_eq!(f.is_positive(), over, "n = {n}");
            if let Some((s, c, cells, _, keys)) = f.dims() {
                assert_eq!((s as u64, c as u64 + 3, cells as u64, keys), (r[i].1, r[i].2, r[i].1 * r[i].2, n));
            }
            n_builds += 1;
            if last == r[i].0 {
                break;
            }
        }
    }
    println!(
        "real builds at the first and last n of each row over 65,536 up to {max}: {n_builds} builds agree (Positive exactly when over the workspace limit)"
    );
    let _ = paper::MAX_KEYS;
}
