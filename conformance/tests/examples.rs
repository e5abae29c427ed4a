//! The files of `examples/`: as they are built, with the output, the indexes and the answers to lists
//! that the separate checker gives, and each in a table of their README.

use std::collections::BTreeSet;
use std::fs;

use conformance::cases::ROOM;
use conformance::checker::{check, check_indexed, check_night, Refusal, ABSENT};
use conformance::desk::reading::read;
use conformance::examples::DESK_NIGHT;
use conformance::examples::{all, desk_night, example, files, folder, indexes, lists, output};
use conformance::indexes::{due, NOT_AS_BUILT};
use conformance::nights::outcome;
use conformance::output::printed;
use conformance::vectors::Vector;

const REMEDY: &str = "run `cargo run --offline --bin write-examples`";

#[test]
fn files_are_as_built() {
    let mut names = BTreeSet::from(["README.md".to_string()]);
    for (name, content) in files() {
        assert!(fs::read(folder().join(&name)).ok() == Some(content), "{name}: {REMEDY}");
        assert!(names.insert(name));
    }
    let found = fs::read_dir(folder()).expect("the folder is there");
    let found = found.map(|entry| entry.expect("it can be listed").file_name());
    let found: BTreeSet<String> = found.map(|name| name.to_string_lossy().into_owned()).collect();
    assert_eq!(found, names);
}

#[test]
fn the_separate_checker_agrees() {
    for example in all() {
        let mut room = [0; ROOM];
        let verdict = check(&example.file, &mut room);
        let found = printed(example.file.len(), verdict, &room);
        assert_eq!(found, output(&example), "{}", example.name);
    }
}

/// An index is the one that is built, and gives the verdict of the plain check, or is another one,
/// and gives 30; both are met.
#[test]
fn the_separate_checker_agrees_on_indexes() {
    let mut verdicts = BTreeSet::new();
    for index in indexes() {
        let case = example(index.case);
        let (mut plain, mut through) = ([0; ROOM], [0; ROOM]);
        let due_through = match due(&case.file) == Ok(index.entries.clone()) {
            true => check(&case.file, &mut plain),
            false => NOT_AS_BUILT,
        };
        assert_eq!(check_indexed(&case.file, &index.entries, &mut through), due_through);
        assert_eq!((index.verdict, through), (due_through, plain), "{}", index.name);
        verdicts.insert(index.verdict.to_string());
    }
    assert_eq!(verdicts, ["passed 0 1", "refused 30 0"].map(str::to_string).into());
}

/// The number of files, or 33.
fn in_words(answer: Result<u16, Refusal>) -> String {
    match answer {
        Ok(files) => format!("checked {files}"),
        Err(Refusal { number, place }) => format!("refused {number} {place}"),
    }
}

/// A list is the one of the desk's night, by which each of its cases has its own verdict and entries,
/// or is another one, and gives 33; both are met.
#[test]
fn the_separate_checker_agrees_on_nights() {
    let night = desk_night();
    let mut answers = BTreeSet::new();
    for list in lists() {
        let found = outcome(check_night, &night.files, &list.bytes, ROOM);
        let cases = if list.bytes == night.list { &DESK_NIGHT[..] } else { &[] };
        let alone: Vec<Vector> = cases.iter().map(|name| example(name)).collect();
        let due = alone.iter().map(|case| (case.verdict, &case.written[..]));
        assert_eq!(found.by_file(), due.collect::<Vec<_>>(), "{}", list.name);
        assert_eq!(found.answer, list.answer, "{}", list.name);
        answers.insert(in_words(list.answer));
    }
    let told = ["checked 5", "refused 33 1", "refused 33 4"];
    assert_eq!(answers, told.map(str::to_string).into());
}

/// In the desk's night there are a pass, a pass with obligations, a case that owes nothing and one
/// that is refused, and behind this one another pass; and gaps.
#[test]
fn the_desk_night_has_all_kinds() {
    let verdicts = DESK_NIGHT.map(|name| example(name).verdict.to_string());
    let told = ["passed 0 1", "none owed", "refused 24 3", "passed 2 1", "passed 0 1"];
    assert_eq!(verdicts, told);
    let night = desk_night();
    let of_files: u32 = night.pairs().iter().map(|(_, length)| length).sum();
    assert_eq!(night.files.len(), of_files as usize + 4 * 6);
}

fn readme() -> String {
    fs::read_to_string(folder().join("README.md")).expect("it has a README")
}

/// One line for each example, each index and each list, which ends with the verdict or the answer.
#[test]
fn the_readme_lists_each() {
    let text = readme();
    let examples = all().into_iter().map(|example| (example.name, example.verdict.to_string()));
    let indexes = indexes()
        .into_iter()
        .map(|index| (format!("{}.index", index.name), index.verdict.to_string()));
    let lists =
        lists().into_iter().map(|list| (format!("{}.list", list.name), in_words(list.answer)));
    let listed: Vec<(String, String)> = examples.chain(indexes).chain(lists).collect();
    for (name, answer) in &listed {
        let begins = format!("| `{name}` |");
        let lines: Vec<&str> = text.lines().filter(|line| line.starts_with(&begins)).collect();
        let [line] = lines[..] else { panic!("{} lines for {name}", lines.len()) };
        assert!(line.ends_with(&format!("| {answer} |")), "{line}");
    }
    assert_eq!(text.lines().filter(|line| line.starts_with("| `")).count(), listed.len());
}

/// A section of the README, without its heading.
fn section(heading: &str) -> String {
    let text = readme();
    let (_, section) = text.split_once(&format!("\n## {heading}\n")).expect("a section");
    section.split_once("\n## ").expect("another one").0.to_string()
}

fn on_the_index() -> String {
    section("The index by observer")
}

/// The first lines of a section that are indented: the numbers, and the words behind them in each
/// line.
fn in_numbers(section: &str) -> Vec<(Vec<u32>, String)> {
    let lines = section.lines().skip_while(|line| !line.starts_with("    "));
    let lines = lines.map_while(|line| line.strip_prefix("    ")?.split_once("  "));
    let numbers =
        |text: &str| text.split(' ').map(|word| word.parse().expect("a number")).collect();
    lines.map(|(front, words)| (numbers(front), words.trim_start().to_string())).collect()
}

/// The README has the rows of the shared log: the one that is struck out, and who sees each. The
/// agent does not see two of them.
#[test]
fn the_readme_tells_the_shared_log() {
    let section = on_the_index();
    let case = read(&example("shared-log").file).expect("it has a header").case;
    let is_row = |line: &&str| line.trim_start_matches("| ").starts_with(char::is_numeric);
    let table: Vec<&str> =
        section.lines().filter(|line| line.starts_with('|')).filter(is_row).collect();
    assert_eq!(table.len(), case.rows.len());
    for (number, (line, row)) in table.iter().zip(&case.rows).enumerate() {
        let observers: Vec<String> = row.observers.iter().map(u16::to_string).collect();
        let seen_by = if observers.is_empty() { "none".to_string() } else { observers.join(", ") };
        assert!(line.starts_with(&format!("| {number} | ")), "{line}");
        assert!(line.ends_with(&format!(" | {seen_by} |")), "{line}");
        assert_eq!(line.contains(" | struck out | "), row.action == ABSENT, "{line}");
    }
    let hidden = case.rows.iter().filter(|row| !row.observers.contains(&case.agent));
    assert_eq!(hidden.count(), 2);
}

/// The README has the numbers of the shared log's index, with words behind them in each line, and
/// those of the small one in its table.
#[test]
fn the_readme_has_indexes_in_numbers() {
    let section = on_the_index();
    let entries = |name: &str| {
        let found = indexes().into_iter().find(|index| index.name == name);
        found.expect("there is such an index").entries
    };
    let told = in_numbers(&section).into_iter().flat_map(|(numbers, _)| numbers);
    let due = entries("shared-log").into_iter().map(u32::from);
    assert_eq!(told.collect::<Vec<u32>>(), due.collect::<Vec<u32>>());
    let grant = entries("grant").iter().map(u16::to_string).collect::<Vec<String>>().join(" ");
    assert!(section.contains(&format!(": {grant} | `grant` |")), "{grant}");
}

/// The README has the list of the desk's night in numbers, a line for each case, with the bytes of
/// all files, and tells where the other lists differ.
#[test]
fn the_readme_has_the_list_in_numbers() {
    let section = section("A night's cases");
    let night = desk_night();
    let told = in_numbers(&section);
    assert_eq!(told.len(), DESK_NIGHT.len());
    for ((numbers, words), (case, pair)) in told.iter().zip(DESK_NIGHT.iter().zip(night.pairs())) {
        assert_eq!(numbers[..], [pair.0, pair.1], "{case}");
        assert_eq!(words.split(':').next(), Some(*case));
    }
    assert!(section.contains(&format!(", {} bytes in all.", night.files.len())));
    let early = night.pairs()[0].0 + night.pairs()[0].1 - 1;
    assert!(section.contains(&format!("begins at byte {early}, one before the end of the first")));
}
