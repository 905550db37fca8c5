//! `wash [FOLDER]`: a corrected wash and a withdrawn one. Their index is built newest version first, made the store's
//! index file, read back at limits before and after, filtered and listed. In FOLDER it leaves wash.idx and wash.dat, to
//! try the example `read` on.
use std::error::Error;
use std::path::Path;
use wobarelind::{Answer, Kind, LegacyIndex, PointBuilder, Refusal, SstFilter, body_of, listing, with_trailer};

/// A version of a wash's figure: its sequence, and the litres as the meter's text; none where it was withdrawn.
type Version = (u64, Option<&'static str>);

/// The washes by key, each with its versions newest first. Tram 17's figure of sequence 4 was corrected at 9, tram 23's
/// of 3 was withdrawn at 7.
const WASHES: [(&str, &[Version]); 3] = [
    ("tram 04", &[(2, Some("655"))]),
    ("tram 17", &[(9, Some("812")), (4, Some("8120"))]),
    ("tram 23", &[(7, None), (3, Some("790"))]),
];

/// What has to be said of a tram within a limit.
const FIGURES: [(&str, Option<u64>, &str); 8] = [
    ("tram 17", None, "812"),
    ("tram 17", Some(9), "812"),
    ("tram 17", Some(8), "8120"),
    ("tram 17", Some(3), "no record within the limit"),
    ("tram 23", None, "withdrawn"),
    ("tram 23", Some(7), "withdrawn"),
    ("tram 23", Some(6), "790"),
    ("tram 23", Some(2), "no record within the limit"),
];

/// XXH3 of the three keys, 64 bits, as the store's filters take it. It is the host's to make; here `xxhsum -H3` did.
const XXH3: [u64; 3] = [0x5658_830b_2c80_286d, 0xd120_3cab_bdf8_8166, 0x563e_bff8_c6d9_cebe];
/// XXH3 of "tram 99", which has no wash.
const XXH3_OF_99: u64 = 0xa3be_39de_469b_17a4;

/// Adds the versions of one key in the given order, and their text to the data. A tombstone's offset is then where the
/// older figure starts.
fn add(
    to: &mut PointBuilder,
    data: &mut Vec<u8>,
    key: &str,
    versions: impl Iterator<Item = Version>,
) -> Result<(), Refusal> {
    for (i, (seq, litres)) in versions.enumerate() {
        let (kind, text) = litres.map_or((Kind::Tombstone, ""), |text| (Kind::Put, text));
        let patch = to.add(kind, key.as_bytes(), text.len() as u64, seq, i == 0)?;
        to.set_value_offset(patch, data.len() as u64)?;
        data.extend_from_slice(text.as_bytes());
    }
    Ok(())
}

/// The index file of the washes, as the store writes it, and the data.
fn build() -> Result<(Vec<u8>, Vec<u8>), Refusal> {
    let (mut builder, mut data) = (PointBuilder::new(), Vec::new());
    for (key, versions) in WASHES {
        add(&mut builder, &mut data, key, versions.iter().copied())?;
    }
    Ok((with_trailer(&builder.finish_legacy()?), data))
}

/// Writes a file, and names it where that fails.
fn write(folder: &Path, name: &str, bytes: &[u8]) -> Result<(), String> {
    let path = folder.join(name);
    std::fs::write(&path, bytes).map_err(|e| format!("{}: {e}", path.display()))
}

/// What is said of a tram within the limit.
fn said(index: &LegacyIndex<'_, '_>, tram: &str, limit: Option<u64>) -> String {
    match index.get(tram.as_bytes(), limit) {
        Answer::Put { value, .. } => String::from_utf8_lossy(value).into(),
        Answer::Withdrawn { .. } => "withdrawn".into(),
        Answer::Nothing => "no record within the limit".into(),
    }
}

fn main() -> Result<(), Box<dyn Error>> {
    let oldest_first = WASHES[1].1.iter().rev().copied();
    let refused = add(&mut PointBuilder::new(), &mut Vec::new(), "tram 17", oldest_first);
    assert_eq!(refused, Err(Refusal::ORDER));
    println!("oldest version first: {}", Refusal::ORDER);

    let (file, data) = build()?;
    if let Some(folder) = std::env::args_os().nth(1) {
        write(folder.as_ref(), "wash.idx", &file)?;
        write(folder.as_ref(), "wash.dat", &data)?;
    }
    let body = body_of(&file)?;
    let index = LegacyIndex::decode(body, &data)?;
    println!("an index file of {} bytes for {} bytes of data", file.len(), data.len());

    for (tram, limit, figure) in FIGURES {
        assert_eq!(said(&index, tram, limit), figure);
        println!("{tram}, limit {limit:?}: {figure}");
    }

    let mut hashes = XXH3;
    let filter = SstFilter::build(&mut hashes)?;
    assert_eq!(filter.may_contain_hashes(&hashes), [true; 3]);
    println!("tram 99 may be there: {}", filter.may_contain_hash(XXH3_OF_99));

    let text = listing(8, data.len() as u64, body)?;
    assert_eq!(text, "limit 8 keys 3 shown 2\n7472616d203034 2 put 0 3\n7472616d203137 4 put 6 4\n");
    print!("{text}");
    Ok(())
}
