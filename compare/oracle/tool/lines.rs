//! One request a line, one answer a line. Byte strings are lower-case hex, `-` when empty; numbers decimal or 0x..
use crate::{Kind, failed, hex, num, paper, rf, rp, unhex};
use std::io::{BufRead, Read, Write};

/// One record: new(1)/continued(0):kind(1 put, 2 tombstone):key:sequence:value length:offset
#[derive(Clone, Debug)]
pub struct Rec {
    pub new: bool,
    pub kind: u8,
    pub key: Vec<u8>,
    pub seq: u64,
    pub len: u64,
    pub offset: u64,
}
pub fn rec(s: &str) -> Rec {
    let f: Vec<&str> = s.split(':').collect();
    Rec { new: f[0] == "1", kind: num(f[1]) as u8, key: unhex(f[2]), seq: num(f[3]), len: num(f[4]), offset: num(f[5]) }
}
static ZEROS: std::sync::OnceLock<Vec<u8>> = std::sync::OnceLock::new();
/// The Rust's builder on a record list: the builder, or its message. (The value's bytes are zeros; only its length matters.)
pub fn rust_builder(recs: &[Rec]) -> Result<rp::Legacy, String> {
    let zeros = ZEROS.get_or_init(|| vec![0; 16_777_217]);
    let mut b = rp::Legacy::new();
    for r in recs {
        let kind = Kind::from_u8(r.kind).expect("kind");
        let patch = b.add(kind, &r.key, &zeros[..r.len as usize], r.seq, r.new)?;
        b.set_value_offset(patch, r.offset);
    }
    Ok(b)
}
pub fn rust_finish(recs: &[Rec]) -> Result<Vec<u8>, u32> {
    rust_builder(recs).map_err(|_| 2u32)?.finish().map_err(|m| number(&m))
}
pub fn number(m: &str) -> u32 {
    match m {
        "sstable invalid argument: point index key count" => 5,
        "sstable invalid argument: point index construction exhausted seed retries" => 10,
        "sstable corrupt: point index: construction did not fill every slot"
        | "sstable corrupt: point index: construction slot mismatch" => 11,
        other => panic!("no number for {other}"),
    }
}
/// The records of an arena (walked by the paper's rules 23 to 25, 27 to 29 without the data test).
pub fn records_of(arena: &[u8]) -> Result<Vec<Rec>, u32> {
    let (heads, _) = paper::walk(arena, 0, None, None, &mut |_, _| true).map_err(|_| 8u32)?;
    let mut out = Vec::new();
    for h in heads {
        let key = paper::key_at(arena, h);
        let v = u32::from_le_bytes(arena[h + 4..h + 8].try_into().unwrap());
        let mut p = h + 8 + key.len();
        for i in 0..v {
            let w = |a: usize| u64::from_le_bytes(arena[a..a + 8].try_into().unwrap());
            out.push(Rec {
                new: i == 0,
                kind: arena[p + 8],
                key: key.to_vec(),
                seq: w(p),
                len: u32::from_le_bytes(arena[p + 9..p + 13].try_into().unwrap()) as u64,
                offset: w(p + 13),
            });
            p += 21;
        }
    }
    Ok(out)
}
/// Finish on arena bytes: 8 and 5 from the paper, the body from the Rust's builder fed with the arena's records.
pub fn rust_finish_arena(arena: &[u8]) -> Result<Vec<u8>, u32> {
    let recs = records_of(arena)?;
    let keys = recs.iter().filter(|r| r.new).count();
    if keys == 0 || keys > 65_536 {
        return Err(5);
    }
    let b = rust_builder(&recs).unwrap();
    assert!(b.arena() == arena, "the Rust's arena differs");
    b.finish().map_err(|m| number(&m))
}
/// The answer of get: from the Rust (kind, sequence, value bytes), with the paper's offset and length checked against it.
/// Second part: what the Rust itself did, where the two are allowed to differ (bodies that validation refuses).
pub fn get_both(
    body: &[u8],
    data: std::sync::Arc<[u8]>,
    key: &[u8],
    limit: Option<u64>,
) -> (paper::Answer, &'static str) {
    let want = paper::get(body, data.len() as u64, key, limit);
    let accepted = rp::validate_number(body, data.len()) == 0;
    let got = rp::get_on(body, data.clone(), key, limit);
    let rust = match (&got, &want) {
        (rp::Got::Nothing, paper::Answer::Nothing) => "same",
        (rp::Got::Refused | rp::Got::Panicked, paper::Answer::Damage) => "same",
        (rp::Got::Found(k, s, v), paper::Answer::Found { kind, seq, offset, length }) => {
            assert!(k.to_u8() == *kind && s == seq && v[..] == data[*offset as usize..(*offset + *length) as usize]);
            "same"
        }
        (rp::Got::Nothing, _) => "rust: nothing",
        (rp::Got::Panicked, _) => "rust: panic",
        (rp::Got::Refused, _) => "rust: refused",
        (rp::Got::Found(..), _) => "rust: found",
    };
    assert!(!accepted || rust == "same", "get differs on an accepted body");
    (want, rust)
}
fn answer(l: &str) -> String {
    let f: Vec<&str> = l.split_whitespace().collect();
    let hashes = |s: &str| -> Vec<u64> { if s == "-" { vec![] } else { s.split(',').map(num).collect() } };
    match f[0] {
        "mix" => rp::mix(num(f[1])).to_string(),
        "hash" => rp::hash(&unhex(f[1]), num(f[2])).to_string(),
        "fingerprint" => rp::fingerprint(num(f[1])).to_string(),
        "bucket" => rp::bucket(num(f[1]), num(f[2]) as usize).to_string(),
        "position" => rp::position(num(f[1]), num(f[2]) as u32, num(f[3]) as usize).to_string(),
        "construct" => {
            let keys: Vec<Vec<u8>> = f[1].split(',').map(unhex).collect();
            let refs: Vec<&[u8]> = keys.iter().map(|k| &k[..]).collect();
            match rp::construct(&refs) {
                Ok((s, p, m)) => format!("ok {s} {p:?} {m:?}").replace(", ", ","),
                Err(m) => format!("refused {}", number(&m)),
            }
        }
        "finish" => match rust_finish(&f[1..].iter().map(|s| rec(s)).collect::<Vec<_>>()) {
            Ok(b) => format!("ok {}", hex(&b)),
            Err(e) => format!("refused {e}"),
        },
        "arena" => match rust_finish_arena(&unhex(f[1])) {
            Ok(b) => format!("ok {}", hex(&b)),
            Err(e) => format!("refused {e}"),
        },
        "validate" => rp::validate_number(&unhex(f[2]), num(f[1]) as usize).to_string(),
        "get" => {
            let limit = if f[1] == "none" { None } else { Some(num(f[1])) };
            let (a, rust) = get_both(&unhex(f[3]), crate::data(num(f[2]) as usize), &unhex(f[4]), limit);
            let a = match a {
                paper::Answer::Nothing => "nothing".into(),
                paper::Answer::Damage => "refused 14".into(),
                paper::Answer::Found { kind, seq, offset, length } => format!("found {kind} {seq} {offset} {length}"),
            };
            if rust == "same" { a } else { format!("{a} ({rust})") }
        }
        "filter" => {
            let mut h = hashes(f[1]);
            hex(&rf::Filter::build(&mut h).encode())
        }
        "accept" => match rf::Filter::decode(&unhex(f[1])) {
            None => "refused 15".into(),
            Some(x) => {
                assert!(x.encode() == unhex(f[1]));
                "accepted".into()
            }
        },
        "ask" => match rf::Filter::decode(&unhex(f[1])) {
            None => "refused 15".into(),
            Some(x) => {
                if x.maybe(num(f[2])) {
                    "maybe".into()
                } else {
                    "absent".into()
                }
            }
        },
        "positions" => {
            let p = rf::positions(num(f[1]), num(f[2]) as usize, num(f[3]) as usize);
            format!("{} {} {} {}", p[0], p[1], p[2], p[3])
        }
        "sizing" => format!("{:?}", crate::sizing_cut::sizing(&crate::sizing_cut::Len(num(f[1]) as usize)).unwrap()),
        other => format!("unknown request {other}"),
    }
}
pub fn run() {
    let out = std::io::stdout();
    let mut out = std::io::BufWriter::new(out.lock());
    for l in std::io::stdin().lock().lines() {
        let l = l.unwrap();
        if l.trim().is_empty() || l.starts_with('#') {
            continue;
        }
        let a = crate::caught(|| answer(&l)).unwrap_or_else(|| "bad request or panic".into());
        writeln!(out, "{a}").unwrap();
    }
}
/// The listing of standard input. validate is the Rust's (compared with the paper's), get as in get_both.
pub fn listing() {
    let mut b = Vec::new();
    std::io::stdin().read_to_end(&mut b).unwrap();
    print!("{}", paper::listing(&b));
}
/// Arena bytes in a file -> body in a file; prints 0 or the refusal.
pub fn finish_file(i: &str, o: &str) -> Result<(), String> {
    match rust_finish_arena(&std::fs::read(i).map_err(failed(i))?) {
        Ok(b) => {
            std::fs::write(o, b).map_err(failed(o))?;
            println!("0")
        }
        Err(e) => println!("{e}"),
    }
    Ok(())
}
/// u64 hashes in a file -> filter bytes in a file.
pub fn filter_file(i: &str, o: &str) -> Result<(), String> {
    let bytes = std::fs::read(i).map_err(failed(i))?;
    let (words, rest) = bytes.as_chunks::<8>();
    if !rest.is_empty() {
        return Err(format!("{i}: {} bytes are no whole number of u64 hashes", bytes.len()));
    }
    let mut h: Vec<u64> = words.iter().map(|&word| u64::from_le_bytes(word)).collect();
    std::fs::write(o, rf::Filter::build(&mut h).encode()).map_err(failed(o))?;
    println!("0");
    Ok(())
}
