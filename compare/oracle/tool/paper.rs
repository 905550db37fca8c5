//! Document 01 read literally, written apart from the Rust: used (a) for what document 01 adds (refusals 1 to 9, 12,
//! 14 to 16, the listing), and (b) as a second opinion that `selfcheck` compares with the Rust.
pub const MAX_KEY: u64 = 1_048_576;
pub const MAX_VALUE: u64 = 16_777_216;
pub const MAX_KEYS: u64 = 65_536;
pub const STEP: u64 = 0x9e3779b97f4a7c15;

pub fn mix(h: u64) -> u64 {
    let a = (h ^ (h / (1 << 30))) as u128 * 0xbf58476d1ce4e5b9u128 % (1u128 << 64);
    let a = a as u64;
    let b = (a ^ (a / (1 << 27))) as u128 * 0x94d049bb133111ebu128 % (1u128 << 64);
    let b = b as u64;
    b ^ (b / (1 << 31))
}
fn rotl27(x: u64) -> u64 {
    ((x as u128 * (1 << 27)) % (1u128 << 64)) as u64 + x / (1 << 37)
}
fn word(b: &[u8]) -> u64 {
    b.iter().rev().fold(0, |a, &x| a * 256 + x as u64)
}
pub fn hash(key: &[u8], seed: u64) -> u64 {
    let mut h = mix(seed ^ key.len() as u64);
    let whole = key.len() / 8;
    for i in 0..whole {
        h = ((rotl27(h ^ word(&key[8 * i..8 * i + 8])) as u128 * STEP as u128) % (1u128 << 64)) as u64;
    }
    mix(h ^ word(&key[8 * whole..]))
}
pub fn fingerprint(h: u64) -> u64 {
    mix(h ^ 0xd6e8feb86659fd93) / (1 << 48)
}
pub fn position(h: u64, pilot: u64, n: u64) -> u64 {
    mix(h ^ ((pilot as u128 * STEP as u128) % (1u128 << 64)) as u64) % n
}
pub fn seed_of(attempt: u64) -> u64 {
    mix(((STEP as u128 * (attempt as u128 + 1)) % (1u128 << 64)) as u64)
}

/// The figures of one construction, for reports.
#[derive(Default, Clone, Debug)]
pub struct Trace {
    pub attempt: u64,
    pub equal_hash_fails: u32,
    pub no_pilot_fails: u32,
    pub pilots_tried: u64,
    pub multi: u64,
    pub max_pilot: u32,
}

/// (seed, pilots, slot -> key), or 10.
pub fn construct(keys: &[&[u8]]) -> Result<(u64, Vec<u32>, Vec<usize>, Trace), (u32, Trace)> {
    let n = keys.len();
    let b = n.div_ceil(3);
    let mut t = Trace::default();
    'seeds: for attempt in 0..8u64 {
        t.attempt = attempt;
        let seed = seed_of(attempt);
        let h: Vec<u64> = keys.iter().map(|k| hash(k, seed)).collect();
        let mut members: Vec<Vec<usize>> = vec![Vec::new(); b];
        for i in 0..n {
            members[(h[i] % b as u64) as usize].push(i);
        }
        for m in &members {
            for i in 0..m.len() {
                for j in 0..i {
                    if h[m[i]] == h[m[j]] {
                        t.equal_hash_fails += 1;
                        continue 'seeds;
                    }
                }
            }
        }
        let largest = members.iter().map(|m| m.len()).max().unwrap();
        let mut pilots = vec![0u32; b];
        let mut slots = vec![usize::MAX; n];
        for size in (2..=largest).rev() {
            for k in (0..b).filter(|&k| members[k].len() == size) {
                let mut found = None;
                for pilot in 0..100_000u32 {
                    t.pilots_tried += 1;
                    let at: Vec<usize> =
                        members[k].iter().map(|&m| position(h[m], pilot as u64, n as u64) as usize).collect();
                    if at.iter().enumerate().all(|(i, &p)| slots[p] == usize::MAX && !at[..i].contains(&p)) {
                        found = Some((pilot, at));
                        break;
                    }
                }
                let Some((pilot, at)) = found else {
                    t.no_pilot_fails += 1;
                    continue 'seeds;
                };
                t.multi += 1;
                t.max_pilot = t.max_pilot.max(pilot);
                pilots[k] = pilot;
                for (&m, &p) in members[k].iter().zip(&at) {
                    slots[p] = m;
                }
            }
        }
        let mut low = 0;
        for k in (0..b).filter(|&k| members[k].len() == 1) {
            while slots[low] != usize::MAX {
                low += 1;
            }
            pilots[k] = (1 << 31) + low as u32;
            slots[low] = members[k][0];
        }
        return Ok((seed, pilots, slots, t));
    }
    Err((10, t))
}

#[derive(Clone, Copy, PartialEq, Eq, Debug, Default)]
pub struct State {
    pub used: u64,
    pub keys: u64,
    pub head: u64,
}
fn u32_at(b: &[u8], at: usize) -> u64 {
    word(&b[at..at + 4])
}
fn u64_at(b: &[u8], at: usize) -> u64 {
    word(&b[at..at + 8])
}

pub fn fits(s: State, buf: &[u8]) -> bool {
    if s == State::default() {
        return true;
    }
    if s.keys < 1 || s.keys > MAX_KEYS || s.used > buf.len() as u64 {
        return false;
    }
    if s.head > s.used || s.used - s.head < 8 {
        return false;
    }
    let (l, v) = (u32_at(buf, s.head as usize), u32_at(buf, s.head as usize + 4));
    l <= MAX_KEY && v >= 1 && s.head as u128 + 8 + l as u128 + 21 * v as u128 == s.used as u128
}
/// kind 1 put, 2 tombstone.
pub fn add(s: State, buf: &mut [u8], new: bool, kind: u8, key: &[u8], vl: u64, seq: u64) -> Result<(State, u64), u32> {
    if !fits(s, buf) {
        return Err(1);
    }
    if key.len() as u64 > MAX_KEY || vl > MAX_VALUE {
        return Err(2);
    }
    if kind == 2 && vl != 0 {
        return Err(3);
    }
    let (used, head) = (s.used as usize, s.head as usize);
    let l = if s.keys > 0 { u32_at(buf, head) as usize } else { 0 };
    if new {
        if s.keys > 0 && key <= &buf[head + 8..head + 8 + l] {
            return Err(4);
        }
        if s.keys == MAX_KEYS {
            return Err(5);
        }
        let need = 8 + key.len() + 21;
        if buf.len() - used < need {
            return Err(6);
        }
        buf[used..used + 4].copy_from_slice(&(key.len() as u32).to_le_bytes());
        buf[used + 4..used + 8].copy_from_slice(&1u32.to_le_bytes());
        buf[used + 8..used + 8 + key.len()].copy_from_slice(key);
        version(buf, used + 8 + key.len(), kind, vl, seq);
        let t = State { used: s.used + need as u64, keys: s.keys + 1, head: s.used };
        Ok((t, t.used - 8))
    } else {
        if s.keys == 0 || key != &buf[head + 8..head + 8 + l] || seq >= u64_at(buf, used - 21) {
            return Err(4);
        }
        let v = u32_at(buf, head + 4);
        if v == u32::MAX as u64 {
            return Err(5);
        }
        if buf.len() - used < 21 {
            return Err(6);
        }
        buf[head + 4..head + 8].copy_from_slice(&(v as u32 + 1).to_le_bytes());
        version(buf, used, kind, vl, seq);
        let t = State { used: s.used + 21, ..s };
        Ok((t, t.used - 8))
    }
}
fn version(buf: &mut [u8], at: usize, kind: u8, vl: u64, seq: u64) {
    buf[at..at + 8].copy_from_slice(&seq.to_le_bytes());
    buf[at + 8] = kind;
    buf[at + 9..at + 13].copy_from_slice(&(vl as u32).to_le_bytes());
    buf[at + 13..at + 21].fill(0);
}
pub fn set_offset(s: State, buf: &mut [u8], place: u64, offset: u64) -> Result<(), u32> {
    if !fits(s, buf) {
        return Err(1);
    }
    if s.keys == 0 || place != s.used - 8 {
        return Err(7);
    }
    buf[place as usize..place as usize + 8].copy_from_slice(&offset.to_le_bytes());
    Ok(())
}

/// Walks the keys of raw[from..] under 23 to 25 and 27 to 29; `data` None leaves the data test out; `slot` is rule 26.
pub fn walk(
    raw: &[u8],
    from: usize,
    most: Option<u64>,
    data: Option<u64>,
    slot: &mut dyn FnMut(usize, &[u8]) -> bool,
) -> Result<(Vec<usize>, usize), u32> {
    let mut heads = Vec::new();
    let mut p = from;
    let mut last: Option<&[u8]> = None;
    while most.map_or(p < raw.len(), |m| (heads.len() as u64) < m) {
        let start = p;
        if raw.len() - p < 8 {
            return Err(23);
        }
        let (l, v) = (u32_at(raw, p), u32_at(raw, p + 4));
        p += 8;
        if l > MAX_KEY || l > (raw.len() - p) as u64 || v == 0 {
            return Err(24);
        }
        let key = &raw[p..p + l as usize];
        p += l as usize;
        if last.is_some_and(|x| x >= key) {
            return Err(25);
        }
        last = Some(key);
        if !slot(start, key) {
            return Err(26);
        }
        let mut before: Option<u64> = None;
        for _ in 0..v {
            if raw.len() - p < 21 {
                return Err(27);
            }
            let (seq, kind, vl, off) = (u64_at(raw, p), raw[p + 8], u32_at(raw, p + 9), u64_at(raw, p + 13));
            if kind != 1 && kind != 2 {
                return Err(28);
            }
            if vl > MAX_VALUE
                || data.is_some_and(|d| off as u128 + vl as u128 > d as u128)
                || (kind == 2 && vl != 0)
                || before.is_some_and(|b| seq >= b)
            {
                return Err(29);
            }
            before = Some(seq);
            p += 21;
        }
        heads.push(start - from);
    }
    Ok((heads, p))
}
pub fn key_at(arena: &[u8], head: usize) -> &[u8] {
    &arena[head + 8..head + 8 + u32_at(arena, head) as usize]
}

/// Answers the body's length; writes it into out.
pub fn finish(arena: &[u8], out: &mut [u8], ws64: usize, ws32: usize) -> Result<usize, u32> {
    let (heads, _) = walk(arena, 0, None, None, &mut |_, _| true).map_err(|_| 8u32)?;
    let n = heads.len();
    if n == 0 || n as u64 > MAX_KEYS {
        return Err(5);
    }
    if ws64 < 2 * n || ws32 < 8 * n + 8 {
        return Err(9);
    }
    let start = 32 + 4 * n.div_ceil(3) + 12 * n;
    if out.len() < start + arena.len() {
        return Err(6);
    }
    let keys: Vec<&[u8]> = heads.iter().map(|&h| key_at(arena, h)).collect();
    let (seed, pilots, slots, _) = construct(&keys).map_err(|e| e.0)?;
    let mut b = b"KIBANPH2".to_vec();
    b.extend(seed.to_le_bytes());
    b.extend((n as u32).to_le_bytes());
    b.extend((pilots.len() as u32).to_le_bytes());
    b.extend((start as u64).to_le_bytes());
    for p in pilots {
        b.extend(p.to_le_bytes());
    }
    for m in slots {
        b.extend((heads[m] as u64).to_le_bytes());
        b.extend((fingerprint(hash(keys[m], seed)) as u32).to_le_bytes());
    }
    b.extend(arena);
    out[..b.len()].copy_from_slice(&b);
    Ok(b.len())
}

/// 20 and 21, else (seed, n, b, arena start).
fn dims(body: &[u8]) -> Result<(u64, u64, u64, usize), u32> {
    if body.len() < 32 || &body[..8] != b"KIBANPH2" {
        return Err(20);
    }
    let (seed, n, b, a) = (u64_at(body, 8), u32_at(body, 16), u32_at(body, 20), u64_at(body, 24));
    if n == 0 || n > (1 << 31) - 1 || b != n.div_ceil(3) || a != 32 + 4 * b + 12 * n || a >= body.len() as u64 {
        return Err(21);
    }
    Ok((seed, n, b, a as usize))
}
/// Slot place for a hash, or None for a direct pilot at or past n.
fn slot(body: &[u8], h: u64, n: u64, b: u64) -> Option<usize> {
    let pilot = u32_at(body, 32 + 4 * (h % b) as usize);
    let at = if pilot >= 1 << 31 { pilot - (1 << 31) } else { position(h, pilot, n) };
    if at >= n { None } else { Some((32 + 4 * b + 12 * at) as usize) }
}
pub fn validate(body: &[u8], data: u64) -> u32 {
    let (seed, n, b, a) = match dims(body) {
        Ok(d) => d,
        Err(e) => return e,
    };
    for i in 0..b as usize {
        let p = u32_at(body, 32 + 4 * i);
        if p >= 1 << 31 && p - (1 << 31) >= n {
            return 22;
        }
    }
    let r = walk(body, a, Some(n), Some(data), &mut |start, key| {
        let h = hash(key, seed);
        let s = slot(body, h, n, b).unwrap();
        u64_at(body, s) == (start - a) as u64 && u32_at(body, s + 8) == fingerprint(h)
    });
    match r {
        Err(e) => e,
        Ok((_, end)) => {
            if end != body.len() {
                30
            } else {
                0
            }
        }
    }
}
#[derive(Clone, Copy, PartialEq, Eq, Debug)]
pub enum Answer {
    Nothing,
    Damage,
    Found { kind: u8, seq: u64, offset: u64, length: u64 },
}
pub fn get(body: &[u8], data: u64, key: &[u8], limit: Option<u64>) -> Answer {
    let Ok((seed, n, b, a)) = dims(body) else { return Answer::Damage };
    let h = hash(key, seed);
    let Some(s) = slot(body, h, n, b) else { return Answer::Damage };
    if u32_at(body, s + 8) % 65536 != fingerprint(h) {
        return Answer::Nothing;
    }
    let end = body.len() as u128;
    let p = a as u128 + u64_at(body, s) as u128;
    if p + 8 > end {
        return Answer::Damage;
    }
    let p = p as usize;
    let (l, v) = (u32_at(body, p), u32_at(body, p + 4));
    if p as u128 + 8 + l as u128 > end {
        return Answer::Damage;
    }
    if &body[p + 8..p + 8 + l as usize] != key {
        return Answer::Nothing;
    }
    let mut p = p + 8 + l as usize;
    for _ in 0..v {
        if p as u128 + 21 > end {
            return Answer::Damage;
        }
        let (seq, kind, length, offset) = (u64_at(body, p), body[p + 8], u32_at(body, p + 9), u64_at(body, p + 13));
        if kind != 1 && kind != 2 {
            return Answer::Damage;
        }
        if limit.is_none_or(|m| seq <= m) {
            if offset as u128 + length as u128 > data as u128 {
                return Answer::Damage;
            }
            return Answer::Found { kind, seq, offset, length };
        }
        p += 21;
    }
    Answer::Nothing
}

pub fn positions(h: u64, segment: u64, count: u64) -> [u64; 4] {
    let a = ((h as u128 * (count * segment) as u128) >> 64) as u64;
    [
        a,
        (a + segment) ^ (h % segment),
        (a + 2 * segment) ^ (h / (1 << 16) % segment),
        (a + 3 * segment) ^ (h / (1 << 32) % segment),
    ]
}
/// Segment by the whole-number rule: the least counts for the exponents, from exact powers.
pub fn sizing(n: u64) -> (u64, u64, u64) {
    let (s, g, c) = crate::sizing_cut::sizing(&crate::sizing_cut::Len(n as usize)).unwrap();
    (s as u64, g as u64, c as u64)
}
/// The attempt that peels (1 to 100), if any, with the order of peeling; one attempt at a time.
fn peel(hs: &[u64], segment: u64, count: u64, cells: usize) -> Option<Vec<(u64, usize)>> {
    let mut degree = vec![0u32; cells];
    let mut xor = vec![0u64; cells];
    for &h in hs {
        for p in positions(h, segment, count) {
            degree[p as usize] += 1;
            xor[p as usize] ^= h;
        }
    }
    let mut queue: Vec<usize> = (0..cells).filter(|&i| degree[i] == 1).collect();
    let mut pushes = queue.len();
    let mut stack = Vec::new();
    while let Some(p) = queue.pop() {
        if degree[p] != 1 {
            continue;
        }
        let h = xor[p];
        stack.push((h, p));
        for q in positions(h, segment, count) {
            let q = q as usize;
            degree[q] -= 1;
            xor[q] ^= h;
            if degree[q] == 1 {
                queue.push(q);
                pushes += 1;
            }
        }
    }
    assert!(pushes <= cells);
    if stack.len() == hs.len() { Some(stack) } else { None }
}
pub fn peels(hashes: &[u64], attempt: u64) -> bool {
    let (segment, segments, cells) = sizing(hashes.len() as u64);
    let hs: Vec<u64> = hashes.iter().map(|&x| mix(x.wrapping_add(mix(attempt)))).collect();
    peel(&hs, segment, segments - 3, cells as usize).is_some()
}
pub fn positive() -> Vec<u8> {
    let mut o = b"KIBANFL2".to_vec();
    o.extend([1, 0, 0, 0, 48, 0, 0, 0]);
    o.resize(48, 0);
    o
}
/// Refusal, or the filter's bytes; hashes sorted unless refused.
pub fn filter_build(hashes: &mut [u64], out: usize, ws64: usize, ws32: usize) -> Result<Vec<u8>, u32> {
    let n = hashes.len();
    if n as u64 > MAX_KEYS {
        return Err(12);
    }
    if n == 0 {
        return if out < 48 { Err(6) } else { Ok(positive()) };
    }
    let (segment, segments, cells) = sizing(n as u64);
    let c = cells as usize;
    if ws64 < c + n || ws32 < 2 * c + n {
        return Err(9);
    }
    if out < 48 + c {
        return Err(6);
    }
    hashes.sort();
    if hashes.windows(2).any(|w| w[0] == w[1]) {
        return Ok(positive());
    }
    for attempt in 1..=100u64 {
        let seed = mix(attempt);
        let hs: Vec<u64> = hashes.iter().map(|&x| mix(x.wrapping_add(seed))).collect();
        let Some(stack) = peel(&hs, segment, segments - 3, c) else { continue };
        let mut fp = vec![0u8; c];
        for &(h, p) in stack.iter().rev() {
            let x = positions(h, segment, segments - 3).iter().fold((h % 256) as u8, |a, &q| a ^ fp[q as usize]);
            fp[p] = x;
        }
        let mut o = b"KIBANFL2".to_vec();
        o.extend([1, 2, 1, 8, 48, 0, 0, 0]);
        o.extend((n as u64).to_le_bytes());
        o.extend(seed.to_le_bytes());
        for v in [segment, segments - 3, cells, cells] {
            o.extend((v as u32).to_le_bytes());
        }
        o.extend(fp);
        return Ok(o);
    }
    Ok(positive())
}
/// None = 15; Some(None) = Positive; Some(Some((segment, count, cells, seed, keys))) = Fuse.
pub fn filter_read(b: &[u8]) -> Option<Option<(u64, u64, u64, u64, u64)>> {
    if b == positive() {
        return Some(None);
    }
    if b.len() < 48 || b[..16] != *b"KIBANFL2\x01\x02\x01\x08\x30\0\0\0" {
        return None;
    }
    let (keys, seed, segment, count, cells, again) =
        (u64_at(b, 16), u64_at(b, 24), u32_at(b, 32), u32_at(b, 36), u32_at(b, 40), u32_at(b, 44));
    let ok = keys >= 1
        && keys < 1 << 32
        && segment.count_ones() == 1
        && segment <= 262_144
        && count >= 1
        && (count + 3) * segment == cells
        && again == cells
        && b.len() as u64 == 48 + cells;
    if ok { Some(Some((segment, count, cells, seed, keys))) } else { None }
}
/// 0 absent, 1 maybe, 15.
pub fn filter_ask(b: &[u8], hash: u64) -> u32 {
    match filter_read(b) {
        None => 15,
        Some(None) => 1,
        Some(Some((segment, count, _, seed, _))) => {
            let h = mix(hash.wrapping_add(seed));
            let x = positions(h, segment, count).iter().fold(0u8, |a, &p| a ^ b[48 + p as usize]);
            (x == (h % 256) as u8) as u32
        }
    }
}
/// The listing as document 01 has it.
pub fn listing(input: &[u8]) -> String {
    if input.len() < 16 || input.len() > 65_536 {
        return "refused 16\n".into();
    }
    let (limit, data) = (u64_at(input, 0), u64_at(input, 8));
    let body = &input[16..];
    let v = validate(body, data);
    if v != 0 {
        return format!("refused {v}\n");
    }
    let (_, n, _, a) = dims(body).unwrap();
    let (heads, _) = walk(body, a, Some(n), Some(data), &mut |_, _| true).unwrap();
    let mut lines = String::new();
    let mut shown = 0;
    for h in heads {
        let key = key_at(&body[a..], h);
        let first = a + h + 8 + key.len();
        if body[first + 8] == 2 {
            continue;
        }
        if let Answer::Found { kind, seq, offset, length } = get(body, data, key, Some(limit)) {
            let hex: String =
                if key.is_empty() { "-".into() } else { key.iter().map(|b| format!("{b:02x}")).collect() };
            lines += &format!("{hex} {seq} {} {offset} {length}\n", if kind == 1 { "put" } else { "tomb" });
            shown += 1;
        }
    }
    format!("limit {limit} keys {n} shown {shown}\n{lines}")
}
