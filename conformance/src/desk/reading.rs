//! A case file's records, as far as its header is sound.

use std::ops::Range;

use crate::builder::{CaseFile, FormulaRow, LogRow, Obligation, Step};
use crate::checker::{check_2, fields, number_at, numbers, pairs};
use crate::checker::{ACTION_AT, AGENT_AT, HEADER_BYTES, HOUR_AT, PARTS};

/// A file taken apart; the parts from the first faulty one on are left empty.
pub struct Reading {
    pub case: CaseFile,
    /// How many parts are sound, from the first on.
    pub sound: usize,
    /// The eight pairs of offset and length.
    pub header: [(u16, u16); 8],
}

/// None if the file is shorter than a header.
pub fn read(file: &[u8]) -> Option<Reading> {
    let header = pairs(file.get(..HEADER_BYTES)?);
    let sound = check_2(file).map_or_else(|refusal| refusal.place as usize, |parts| parts.len());
    let part = |place: usize| match place < sound {
        true => &file[range(header[place])],
        false => &[],
    };
    let mut case = CaseFile::new(number_at(file, AGENT_AT));
    case.action = number_at(file, ACTION_AT);
    case.hour = number_at(file, HOUR_AT);
    case.formulas = part(0).chunks_exact(PARTS[0].0).map(formula_row).collect();
    case.rows = rows(&numbers(part(1)), &numbers(part(2)));
    case.conditions = numbers(part(3));
    case.obligations = numbers(part(4)).chunks(fields(4)).map(obligation).collect();
    let labels = numbers(part(5));
    case.labels = labels.chunks(fields(5)).map(|label| (label[0], label[1])).collect();
    case.steps = steps(&numbers(part(6)), &numbers(part(7)));
    Some(Reading { case, sound, header })
}

fn range((offset, length): (u16, u16)) -> Range<usize> {
    let offset = offset as usize;
    offset..offset + length as usize
}

fn formula_row(record: &[u8]) -> FormulaRow {
    let fields = numbers(&record[2..]);
    FormulaRow { kind: record[0], code: record[1], fields: [fields[0], fields[1], fields[2]] }
}

fn obligation(record: &[u16]) -> Obligation {
    Obligation { mark: record[0], action: record[1], due: record[2], row: record[3] }
}

fn rows(records: &[u16], observers: &[u16]) -> Vec<LogRow> {
    let records = records.chunks(fields(1));
    let lists = share(records.clone().map(|row| (row[1], row[2])).collect(), observers);
    let row =
        |(record, (observers, span)): (&[u16], List)| LogRow { action: record[0], observers, span };
    records.zip(lists).map(row).collect()
}

fn steps(records: &[u16], premises: &[u16]) -> Vec<Step> {
    let records = records.chunks(fields(6));
    let lists = share(records.clone().map(|step| (step[3], step[4])).collect(), premises);
    let step = |(record, (premises, span)): (&[u16], List)| Step {
        rule: record[0],
        formula: record[1],
        argument: record[2],
        premises,
        span,
    };
    records.zip(lists).map(step).collect()
}

/// A record's own entries, and its span where it is not just these.
pub type List = (Vec<u16>, Option<(u16, u16)>);

/// Shares out the entries: a record whose span is the one due has what the span names. What is
/// left is the last record's, whatever its span.
fn share(spans: Vec<(u16, u16)>, entries: &[u16]) -> Vec<List> {
    let mut lists: Vec<List> = Vec::new();
    let mut due = 0;
    for span in &spans {
        let named = entries.get(range(*span)).filter(|_| span.0 as usize == due);
        due += named.map_or(0, <[u16]>::len);
        lists.push(named.map_or((Vec::new(), Some(*span)), |named| (named.to_vec(), None)));
    }
    if let (Some(last), Some(span), true) = (lists.last_mut(), spans.last(), due < entries.len()) {
        last.0.extend(&entries[due..]);
        last.1 = Some(*span);
    }
    lists
}

/// The entries that each record's span names, as far as the part has them.
pub fn named<'a>(
    lists: impl Iterator<Item = (&'a [u16], Option<(u16, u16)>)> + Clone,
) -> Vec<Vec<u16>> {
    let entries: Vec<u16> = lists.clone().flat_map(|(list, _)| list).copied().collect();
    let mut due = 0;
    let mut found = Vec::new();
    for (list, span) in lists {
        let (offset, count) = span.unwrap_or((due, list.len() as u16));
        due += list.len() as u16;
        let named = entries.iter().skip(offset as usize).take(count as usize);
        found.push(named.copied().collect());
    }
    found
}
