//! Reading a plant's files, and telling by their first bytes what they are; with clear words where that fails.
use crate::progress::Progress;
use std::fs::File;
use std::io::Read;

/// The longest file that is read: all of it is held in memory.
const MOST: u64 = 4 << 30;
/// As many hashes as a filter takes.
const MOST_HASHES: usize = 65_536;

/// What the first eight bytes of a file say it is, and which command takes it.
pub struct Form {
    pub magic: &'static str,
    name: &'static str,
    goes: &'static str,
}
pub const INDEX: Form =
    Form { magic: "KIBANPH2", name: "an index", goes: "an index goes to make compare-files (beside index)" };
pub const COMPACT: Form =
    Form { magic: "KIBANPH3", name: "an index in the compact form", goes: "the compact form is not carried over" };
pub const FILTER: Form = Form { magic: "KIBANFL2", name: "a filter", goes: "a filter goes to beside filter" };
/// Hashes have no first bytes to know them by.
pub const HASHES_GO: &str = "hashes go to make compare-hashes (beside hashes)";

impl Form {
    /// Whether the first bytes are this form's.
    pub fn has(&self, bytes: &[u8]) -> bool {
        bytes.starts_with(self.magic.as_bytes())
    }
    /// Whether half of the first bytes are this form's: then it was damaged there.
    pub fn resembles(&self, bytes: &[u8]) -> bool {
        bytes.iter().zip(self.magic.bytes()).filter(|(a, b)| *a == b).count() >= 4
    }
}

/// Refuses a file that is of one of these forms, and so was given in place of what is wanted.
pub fn none_of(path: &str, bytes: &[u8], forms: &[Form], wanted: &str) -> Result<(), String> {
    let told = |form: &Form| {
        let Form { magic, name, goes } = form;
        format!("{path}: this is {name} (it begins with {magic}), not {wanted}; {goes}")
    };
    forms.iter().find(|form| form.has(bytes)).map_or(Ok(()), |form| Err(told(form)))
}

/// A file's bytes.
pub fn read(path: &str) -> Result<Vec<u8>, String> {
    if path.is_empty() {
        return Err("a file is not named".into());
    }
    let failed = |e: std::io::Error| format!("{path}: {e}");
    let long = || format!("{path}: over {MOST} bytes, which is as much as this tool reads");
    let file = File::open(path).map_err(failed)?;
    if file.metadata().map_err(failed)?.len() > MOST {
        return Err(long());
    }
    let _waiting = Progress::waiting(&format!("{path} is read"));
    let mut bytes = Vec::new();
    file.take(MOST + 1).read_to_end(&mut bytes).map_err(failed)?;
    if bytes.len() as u64 > MOST {
        return Err(long());
    }
    Ok(bytes)
}

/// A file of hashes: u64, little-endian.
pub fn hashes(path: &str) -> Result<Vec<u64>, String> {
    let bytes = read(path)?;
    none_of(path, &bytes, &[INDEX, COMPACT, FILTER], "a file of hashes")?;
    let (words, rest) = bytes.as_chunks::<8>();
    if !rest.is_empty() {
        return Err(format!("{path}: {} bytes are no whole number of u64 hashes", bytes.len()));
    }
    if words.len() > MOST_HASHES {
        return Err(format!("{path}: {} hashes; a filter here takes {MOST_HASHES} (refusal 12)", words.len()));
    }
    Ok(words.iter().map(|&word| u64::from_le_bytes(word)).collect())
}
