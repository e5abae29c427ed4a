//! The files of `examples/`. Cases: document 01's desk cases, what the requests of document 02 bring,
//! as the desk meets it, and the worked examples of the two papers; a vector's name is its file's.
//! Indexes by observer, for some of these cases. And a night of them: the files in one, and lists of
//! where they lie.

use std::fs;
use std::io;
use std::path::{Path, PathBuf};

use crate::builder::bytes;
use crate::cases;
use crate::checker::{Refusal, Verdict};
use crate::indexes::{laid_out, Lists, NOT_AS_BUILT};
use crate::nights::{bad_pair, list_of, Night};
use crate::output::printed;
use crate::papers;
use crate::vectors::Vector;

/// Each desk case's file, and its name among the examples. Row 23 needs a short room, which no
/// program lends: the tests have it.
const DESK: [(&str, &str); 43] = [
    ("grant", "Grant"),
    ("grant-no-steps", "row 10: Grant, no steps, no premises"),
    ("grant-other-agent", "row 11: Grant, agent 1"),
    ("grant-argument-absent", "row 14: Grant, first argument 65535"),
    ("grant-no-such-row", "row 15: Grant, first argument 1"),
    ("grant-not-an-observer", "row 16: Grant, observer 1"),
    ("grant-seen-step-alone", "row 22: Grant, seen step alone"),
    ("creator", "Creator"),
    ("visit", "Visit"),
    ("visit-condition-absent", "Visit, condition absent"),
    ("visit-no-conditions", "Visit, no conditions"),
    ("twice", "row 17: Twice"),
    ("twice-second-obligation", "Twice, a second obligation"),
    ("twice-once", "Twice, kind 7 and mark 2"),
    ("supposed", "row 21: one step supposing what is owed"),
    ("visit-premises-swapped", "24: Visit, the reading before the policy"),
    ("grant-not-the-owner", "25: Grant, by another than the owner"),
    ("visit-said-to-another", "25: Visit, what was said to another"),
    ("any-modem", "Any modem"),
    ("any-modem-other-number", "26: Any modem, another modem's number"),
    ("any-modem-no-modem", "18: Any modem, the technician's number"),
    ("grant-swap", "27: Grant, a swap for any modem"),
    ("grant-swap-told", "27: Grant, a swap for any modem told of"),
    ("grant-for-all-of-none", "Grant, for all data, of none of them"),
    ("grant-refined", "Grant, refined"),
    ("grant-refined-under-duty", "Grant, refined under a duty"),
    ("grant-refined-by-reading", "28: Grant, refined by a reading"),
    ("grant-refined-by-row", "28: Grant, refined by a log row"),
    ("grant-refined-by-duty", "28: Grant, refined by a duty done"),
    ("grant-refined-by-supposing", "28: Grant, refined by supposing"),
    ("shared-log", "Shared log"),
    ("twice-reported", "Twice, a report for each use"),
    ("twice-not-reported", "31: Twice, a report not made"),
    ("twice-report-struck", "31: Twice, a report struck out"),
    ("twice-report-unseen", "31: Twice, a report unseen"),
    ("visit-row-of-another-action", "31: Visit, a row of another action"),
    ("creator-not-reported", "31: Creator, a report not made"),
    ("creator-reported", "Creator, a report made"),
    ("twice-one-report", "32: Twice, one report for two uses"),
    ("twice-one-report-once", "Twice, one report for two duties owed once"),
    ("grant-duty-no-hour", "7: Grant, a duty without a due hour"),
    ("grant-duty-no-such-row", "7: Grant, a duty done beyond the log"),
    ("grant-no-hour", "9: Grant, no audit hour"),
];

pub fn all() -> Vec<Vector> {
    let mut known = cases::examples();
    let mut all = Vec::new();
    for (file, name) in DESK {
        let at = known.iter().position(|vector| vector.name == name);
        let vector = known.swap_remove(at.expect("it is among the examples"));
        all.push(Vector { name: file.to_string(), ..vector });
    }
    all.extend(papers::examples());
    all
}

/// The case of this name.
pub fn example(name: &str) -> Vector {
    let found = all().into_iter().find(|example| example.name == name);
    found.unwrap_or_else(|| panic!("no example is named {name}"))
}

/// An index of `examples/`.
pub struct Index {
    pub name: &'static str,
    /// The case that is checked through it.
    pub case: &'static str,
    pub entries: Vec<u16>,
    /// The verdict of that check.
    pub verdict: Verdict,
}

/// Agents and the rows that they observe in the shared log.
fn shared_lists() -> Lists {
    vec![(0, vec![1, 2, 4]), (1, vec![4]), (2, vec![0]), (3, vec![0, 2]), (16_383, vec![1, 4])]
}

pub fn indexes() -> Vec<Index> {
    let index = |name, case, lists: &Lists, verdict| {
        let entries = laid_out(lists);
        Index { name, case, entries, verdict }
    };
    let passed = Verdict::Passed { obligations: 0, rows: 1 };
    let mut row_too_many = shared_lists();
    row_too_many[0].1.insert(0, 0);
    vec![
        index("grant", "grant", &vec![(0, vec![0])], passed),
        index("shared-log", "shared-log", &shared_lists(), passed),
        index("shared-log-row-too-many", "shared-log", &row_too_many, NOT_AS_BUILT),
    ]
}

/// The cases of the desk's night, in their order.
pub const DESK_NIGHT: [&str; 5] =
    ["grant", "creator", "visit-premises-swapped", "twice-second-obligation", "visit"];

/// These cases in one, with four bytes of a gap before each and behind the last one, and their list.
pub fn desk_night() -> Night {
    Night::of(&DESK_NIGHT.map(|name| example(name).file), || vec![0; 4])
}

/// A list of `examples/`, for the files of the desk's night.
pub struct List {
    pub name: &'static str,
    pub bytes: Vec<u8>,
    /// The number of files, or 33.
    pub answer: Result<u16, Refusal>,
}

pub fn lists() -> Vec<List> {
    let night = desk_night();
    let mut early = night.pairs();
    early[1].0 = early[0].0 + early[0].1 - 1;
    let (cut, _) = night.list.split_at(night.list.len() - 1);
    vec![
        List { name: "desk-night", bytes: night.list.clone(), answer: Ok(5) },
        List { name: "desk-night-early", bytes: list_of(&early), answer: Err(bad_pair(1)) },
        List { name: "desk-night-cut", bytes: cut.to_vec(), answer: Err(bad_pair(4)) },
    ]
}

/// The folder, beside this package.
pub fn folder() -> PathBuf {
    Path::new(env!("CARGO_MANIFEST_DIR")).join("../examples")
}

/// What the program has to print for this example.
pub fn output(example: &Vector) -> String {
    printed(example.file.len(), example.verdict, &example.written)
}

/// Every file with its name: each example as `NAME.case`, what the program prints as `NAME.out`, each
/// index as `NAME.index`, the desk's night as `desk-night.files`, and each list as `NAME.list`.
pub fn files() -> Vec<(String, Vec<u8>)> {
    let mut files = Vec::new();
    for example in all() {
        let printed = output(&example).into_bytes();
        files.push((format!("{}.case", example.name), example.file));
        files.push((format!("{}.out", example.name), printed));
    }
    let index = |index: Index| (format!("{}.index", index.name), bytes(index.entries));
    files.extend(indexes().into_iter().map(index));
    files.push(("desk-night.files".to_string(), desk_night().files));
    let list = |list: List| (format!("{}.list", list.name), list.bytes);
    files.extend(lists().into_iter().map(list));
    files
}

pub fn write() -> io::Result<()> {
    files().into_iter().try_for_each(|(name, content)| fs::write(folder().join(name), content))
}
