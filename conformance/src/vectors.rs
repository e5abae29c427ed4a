//! Test vectors: a case file, or those of a night, what is lent with it, and what the checker has to
//! answer.

use crate::checker::{Refusal, Verdict};
use crate::rooms::entries_of;

/// One example or vector.
pub struct Vector {
    pub name: String,
    pub file: Vec<u8>,
    pub room: usize,
    pub verdict: Verdict,
    /// The room's first entries after the check; every later one is unchanged.
    pub written: Vec<u16>,
}

/// One vector of building an index.
pub struct Building {
    pub name: String,
    pub file: Vec<u8>,
    /// The entries of the index room.
    pub room: usize,
    /// The entries of the index, or a refusal.
    pub answer: Result<u16, Refusal>,
    /// The index; every later entry of its room is unchanged.
    pub written: Vec<u16>,
}

/// One vector of a check through an index that is lent.
pub struct Through {
    pub vector: Vector,
    pub index: Vec<u16>,
}

/// One vector of a night's cases.
pub struct NightVector {
    pub name: String,
    /// The files in one buffer, and the bytes of the list.
    pub files: Vec<u8>,
    pub list: Vec<u8>,
    pub room: usize,
    /// The number of files, or 33.
    pub answer: Result<u16, Refusal>,
    /// One for each file; every later one of the table is unchanged.
    pub verdicts: Vec<Verdict>,
    /// The room's first entries after the night; every later one is unchanged.
    pub written: Vec<u16>,
}

/// Reads tab separated lines: name, room entries lent, case file in hex, verdict, entries written.
/// A file or list of nothing is "-"; lines that begin with "#" are remarks. None if any line is
/// not so.
pub fn read(text: &str) -> Option<Vec<Vector>> {
    read_lines(text, read_vector)
}

/// The same for: name, index room entries lent, case file in hex, answer, entries written.
pub fn read_buildings(text: &str) -> Option<Vec<Building>> {
    read_lines(text, read_building)
}

/// The same for: name, room entries lent, case file in hex, index lent, verdict, entries written.
pub fn read_throughs(text: &str) -> Option<Vec<Through>> {
    read_lines(text, read_through)
}

/// The same for: name, room entries lent, files in hex, list in hex, answer, verdicts, entries
/// written. "; " stands between two verdicts.
pub fn read_nights(text: &str) -> Option<Vec<NightVector>> {
    read_lines(text, read_night)
}

fn read_lines<T>(text: &str, read: fn(&[&str]) -> Option<T>) -> Option<Vec<T>> {
    let lines = text.lines().filter(|line| !line.starts_with('#'));
    lines.map(|line| read(&line.split('\t').collect::<Vec<&str>>())).collect()
}

fn read_vector(columns: &[&str]) -> Option<Vector> {
    let [name, room, file, verdict, written] = *columns else { return None };
    Some(Vector {
        name: name.to_string(),
        file: read_hex(file)?,
        room: room.parse().ok()?,
        verdict: read_verdict(verdict)?,
        written: read_entries(written)?,
    })
}

fn read_building(columns: &[&str]) -> Option<Building> {
    let [name, room, file, answer, written] = *columns else { return None };
    let (answer, written) = (read_answer("built ", answer)?, read_entries(written)?);
    let entries = answer.unwrap_or(0) as usize;
    let building = Building {
        name: name.to_string(),
        file: read_hex(file)?,
        room: room.parse().ok()?,
        answer,
        written,
    };
    (building.written.len() == entries).then_some(building)
}

fn read_through(columns: &[&str]) -> Option<Through> {
    let [name, room, file, index, verdict, written] = *columns else { return None };
    let vector = read_vector(&[name, room, file, verdict, written])?;
    Some(Through { vector, index: read_entries(index)? })
}

fn read_night(columns: &[&str]) -> Option<NightVector> {
    let [name, room, files, list, answer, verdicts, written] = *columns else { return None };
    let night = NightVector {
        name: name.to_string(),
        files: read_hex(files)?,
        list: read_hex(list)?,
        room: room.parse().ok()?,
        answer: read_answer("checked ", answer)?,
        verdicts: read_verdicts(verdicts)?,
        written: read_entries(written)?,
    };
    let sound = match night.answer {
        Ok(files) => night.verdicts.len() == files as usize,
        Err(refusal) => night.verdicts.is_empty() && refusal.number == 33,
    };
    let entries: usize = night.verdicts.iter().map(|verdict| entries_of(*verdict)).sum();
    (sound && night.written.len() == entries).then_some(night)
}

fn read_hex(text: &str) -> Option<Vec<u8>> {
    match text {
        "" => return None,
        "-" => return Some(Vec::new()),
        _ => (),
    }
    let pairs = text.as_bytes().chunks(2);
    let byte = |pair: &[u8]| {
        let digits = std::str::from_utf8(pair).ok().filter(|digits| digits.len() == 2)?;
        u8::from_str_radix(digits, 16).ok()
    };
    pairs.map(byte).collect()
}

/// The words the program prints.
fn read_verdict(text: &str) -> Option<Verdict> {
    let words: Vec<&str> = text.split(' ').collect();
    match words[..] {
        ["passed", obligations, rows] => Some(Verdict::Passed {
            obligations: obligations.parse().ok()?,
            rows: rows.parse().ok()?,
        }),
        ["none", "owed"] => Some(Verdict::NoneOwed),
        ["refused", number, place] => {
            Some(Verdict::Refused { number: number.parse().ok()?, place: place.parse().ok()? })
        }
        _ => None,
    }
}

/// Verdicts, or "-" for none.
fn read_verdicts(text: &str) -> Option<Vec<Verdict>> {
    if text == "-" {
        return Some(Vec::new());
    }
    text.split("; ").map(read_verdict).collect()
}

/// This word and a number, or "refused" as a verdict is.
fn read_answer(word: &str, text: &str) -> Option<Result<u16, Refusal>> {
    match (text.strip_prefix(word), read_verdict(text)) {
        (Some(number), _) => Some(Ok(number.parse().ok()?)),
        (_, Some(Verdict::Refused { number, place })) => Some(Err(Refusal { number, place })),
        _ => None,
    }
}

fn read_entries(text: &str) -> Option<Vec<u16>> {
    if text == "-" {
        return Some(Vec::new());
    }
    text.split(' ').map(|entry| entry.parse().ok()).collect()
}
