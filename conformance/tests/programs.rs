//! The two programs over the proved library, on every example: the C console, which is built here
//! with `cc`, in its five ways, and document 01's program. And the C header by itself.

use std::collections::BTreeSet;
use std::fs::{self, File};
use std::io::{self, Read, Seek, Write};
use std::iter::once;
use std::os::fd::OwnedFd;
use std::os::unix::net::{UnixDatagram, UnixStream};
use std::path::{Path, PathBuf};
use std::process::{Child, Command, Output, Stdio};

use conformance::builder::bytes;
use conformance::cases::{self, ROOM};
use conformance::checker::{check, check_night, Refusal, Verdict, MOST_BYTES, NIGHT};
use conformance::desk::words::{self, check_refusals, number_of, refusals};
use conformance::examples::{all, desk_night, example, folder, indexes, lists, output};
use conformance::full_size;
use conformance::indexes::{checked, due, MOST_ENTRIES, NOT_AS_BUILT};
use conformance::loads::index_loads;
use conformance::misfits;
use conformance::nights::{list_of, outcome, random_count, Files, Night};
use conformance::pack::{known_files, random_file};
use conformance::random::Random;
use conformance::rooms::room_too_short;
use conformance::streams;
use conformance::vectors::{Through, Vector};
use conformance::wrong_lists::change_list;

/// The entries that the console lends for a night.
const NIGHT_ROOM: usize = NIGHT * ROOM;

const WARNINGS: [&str; 4] = ["-Wall", "-Wextra", "-Wpedantic", "-Werror"];

fn project(path: &str) -> PathBuf {
    Path::new(env!("CARGO_MANIFEST_DIR")).join("..").join(path)
}

/// A file of this test's own.
fn scratch(name: &str) -> PathBuf {
    Path::new(env!("CARGO_TARGET_TMPDIR")).join(name)
}

/// The same with this content.
fn scratch_with(name: &str, content: impl AsRef<[u8]>) -> PathBuf {
    let path = scratch(name);
    fs::write(&path, content).expect("the file is written");
    path
}

fn compile(arguments: &mut Command) {
    let output = arguments.args(WARNINGS).output().expect("the compiler starts");
    assert!(output.status.success(), "{}", String::from_utf8_lossy(&output.stderr));
}

/// A C program over a library, built under a name of the test's own.
fn built(source: PathBuf, library: PathBuf, name: &str) -> PathBuf {
    let built = scratch(name);
    compile(
        Command::new("cc")
            .args(["-std=c99", "-I"])
            .arg(project("include"))
            .args([source, library])
            .arg("-o")
            .arg(&built),
    );
    built
}

/// A C program over the proved library.
fn linked(source: PathBuf, name: &str) -> PathBuf {
    built(source, project("target/staticlib/libjustification.a"), name)
}

fn console(test: &str) -> PathBuf {
    linked(project("console/console.c"), &format!("console-{test}"))
}

fn run(program: &Path, input: &[u8]) -> Output {
    streams::run(&mut Command::new(program), input)
}

/// The console as it writes an index.
fn indexing(console: &Path) -> Command {
    let mut command = Command::new(console);
    command.arg("--index");
    command
}

/// The console as it checks through this file of an index.
fn through(console: &Path, index: &Path) -> Command {
    let mut command = Command::new(console);
    command.arg("--through").arg(index);
    command
}

/// The console as it checks a night by this file of a list.
fn at_night(console: &Path, list: &Path) -> Command {
    let mut command = Command::new(console);
    command.arg("--night").arg(list);
    command
}

// ---- The header ----

#[test]
fn header_by_itself() {
    let languages =
        [("cc", "c", "-std=c89"), ("cc", "c", "-std=c99"), ("c++", "c++", "-std=c++98")];
    for (compiler, language, standard) in languages {
        compile(
            Command::new(compiler)
                .args([standard, "-fsyntax-only", "-x", language])
                .arg(project("include/justification.h")),
        );
    }
}

fn header() -> String {
    fs::read_to_string(project("include/justification.h")).expect("it is there")
}

/// The refusals that a part of the manual tells, each as a paragraph that begins with its number.
fn told(manual: &str) -> Vec<u16> {
    let numbers = manual.lines().filter_map(|line| {
        let (number, words) = line.strip_prefix("** ")?.trim_start().split_once("  ")?;
        number.parse().ok().filter(|_| !words.is_empty())
    });
    numbers.collect()
}

/// The manual in the header tells each refusal of the list, in the order of the list: the one of a
/// night's list in a section of its own, before what is found in a file, and those that only an index
/// brings in another, before what is found in a sound file.
#[test]
fn manual_in_the_header() {
    let header = header();
    let (manual, _) = header.split_once("#define JUSTIFICATION_REFUSALS").expect("a list");
    let listed = refusals().iter().map(|refusal| refusal.number);
    assert_eq!(told(manual), listed.collect::<Vec<u16>>());
    let (order, rest) = manual.split_once("\n** A night's list.").expect("a section");
    let (night, rest) = rest.split_once("\n** The file is damaged").expect("the next section");
    assert_eq!((told(order), told(night)), (vec![], vec![number_of("BAD_PAIR")]));
    let (before, rest) = rest.split_once("\n** The index by observer.").expect("a section");
    let (index, behind) = rest.split_once("\n** The file is sound,").expect("the next section");
    assert_eq!(told(index), ["INDEX_ROOM_TOO_SHORT", "NOT_THE_INDEX"].map(number_of));
    let of_a_check = check_refusals().map(|refusal| refusal.number);
    assert_eq!([told(before), told(behind)].concat(), of_a_check.collect::<Vec<u16>>());
}

/// What a program prints on Grant: first come lines of its own, then the lines of C by which the
/// manual shows something, from the one with these words on, then lines that print.
fn as_the_manual_shows(name: &str, before: &str, from: &str, print: &str) -> String {
    let header = header();
    let lines = header.lines().skip_while(|line| !line.contains(from));
    let shown = lines.map_while(|line| line.strip_prefix("**     ")).collect::<Vec<_>>().join("\n");
    let program = format!(
        "#include <stdio.h>\n#include \"justification.h\"\nint main(void) {{\n\
         static uint8_t file[JUSTIFICATION_LARGEST_FILE];\n\
         size_t file_bytes = fread(file, 1, sizeof file, stdin);\n\
         {before}\n{shown}\n{print}\nreturn file_bytes == 0;\n}}\n"
    );
    let source = scratch_with(&format!("{name}.c"), program);
    printed(run(&linked(source, name), &cases::grant().to_bytes()))
}

/// How to get the sizes of a case's formulas.
#[test]
fn sizes_as_the_manual_shows() {
    let print = "printf(\"%u %u:\", a.number, a.place);\n\
                 for (size_t k = 0; k < book_bytes / 8; k++) printf(\" %u\", sizes[k]);";
    let told = as_the_manual_shows("sizes", "", "uint8_t sizes[JUST", print);
    assert_eq!(told, "0 0: 1 1 1 2 2");
}

/// How to build an index, and to check through it.
#[test]
fn index_as_the_manual_shows() {
    let before = "uint16_t room[JUSTIFICATION_ROOM];\nstruct justification_verdict v = {9, 9, 9};";
    let print = "printf(\"%u %u %u:\", b.kind, b.first, b.second);\n\
                 for (size_t k = 0; k < b.first; k++) printf(\" %u\", index[k]);\n\
                 printf(\", %u %u %u: %u\", v.kind, v.first, v.second, room[0]);";
    let told = as_the_manual_shows("index", before, "uint16_t index[JUST", print);
    assert_eq!(told, "0 5 0: 1 0 4 1 0, 0 0 1: 0");
}

/// How to check a night's cases: Grant, Grant again so far behind it that no byte of its offset is 0,
/// and then 258 bytes that are no case.
#[test]
fn night_as_the_manual_shows() {
    let before = "static uint8_t files[0x1020304 + JUSTIFICATION_LARGEST_FILE];\n\
                  static uint16_t room[JUSTIFICATION_NIGHT_ROOM];\n\
                  struct justification_verdict verdicts[JUSTIFICATION_NIGHT], n;\n\
                  uint8_t list[8 * JUSTIFICATION_NIGHT];\n\
                  uint32_t offsets[] = {5, 0x1020304, 0x1020370}, lengths[] = {108, 108, 258};\n\
                  size_t k, b, count = 3, files_bytes = sizeof files;\n\
                  for (k = 0; k < file_bytes; k++)\n\
                  files[offsets[0] + k] = files[offsets[1] + k] = file[k];";
    let print = "printf(\"%u %u %u:\", n.kind, n.first, n.second);\n\
                 for (k = 0; k < n.first; k++) printf(\" %u %u %u,\", verdicts[k].kind,\n\
                 verdicts[k].first, verdicts[k].second);\n\
                 printf(\" %u %u\", room[0], room[1]);";
    let told = as_the_manual_shows("night", before, "for (k = 0; k < count", print);
    assert_eq!(told, "0 3 0: 0 0 1, 0 0 1, 2 2 0, 0 0");
}

// ---- The console on one file ----

/// The words of the separate checker's side.
fn said(example: &Vector) -> Vec<String> {
    words::words(&example.file, example.verdict, &example.written)
}

/// The exit status.
fn status(verdict: Verdict) -> i32 {
    match verdict {
        Verdict::Passed { .. } => 0,
        Verdict::NoneOwed => 1,
        Verdict::Refused { .. } => 2,
    }
}

/// The exit status, the verdict in the first line, and then the words that `show-case` has too.
fn assert_console_says(output: &Output, example: &Vector) {
    assert_eq!(output.status.code(), Some(status(example.verdict)), "{}", example.name);
    let text = String::from_utf8_lossy(&output.stdout);
    let lines: Vec<&str> = text.lines().collect();
    assert_eq!(lines[0], example.verdict.to_string(), "{}", example.name);
    assert_eq!(lines[1..], said(example), "{}", example.name);
}

#[test]
fn console_on_examples() {
    let console = console("examples");
    for example in all() {
        assert_console_says(&run(&console, &example.file), &example);
        let file = folder().join(format!("{}.case", example.name));
        let named = Command::new(&console).arg(file).output().expect("the console starts");
        assert_console_says(&named, &example);
    }
}

/// The console has the words of every refusal but those of short rooms, which it never lends.
#[test]
fn console_on_every_refusal() {
    let console = console("refusals");
    let mut said = BTreeSet::from([room_too_short(), number_of("INDEX_ROOM_TOO_SHORT")]);
    let mut note = |verdict: Verdict| match verdict {
        Verdict::Refused { number, .. } => said.insert(number),
        _ => false,
    };
    for example in cases::examples().into_iter().filter(|example| example.room == ROOM) {
        assert_console_says(&run(&console, &example.file), &example);
        note(example.verdict);
    }
    for index in indexes() {
        let case = Vector { verdict: index.verdict, ..example(index.case) };
        let lent = folder().join(format!("{}.index", index.name));
        assert_console_says(&streams::run(&mut through(&console, &lent), &case.file), &case);
        note(index.verdict);
    }
    for list in lists() {
        let lent = folder().join(format!("{}.list", list.name));
        let output = at_night(&console, &lent).arg(folder().join("desk-night.files")).output();
        let night = Night { list: list.bytes, ..desk_night() };
        let answer = assert_says_of_night(&output.expect("the console starts"), &night);
        assert_eq!(answer, list.answer, "{}", list.name);
        if let Err(Refusal { number, place }) = answer {
            note(Verdict::Refused { number, place });
        }
    }
    assert_eq!(said, refusals().iter().map(|refusal| refusal.number).collect());
}

/// A stand-in for the library: each answer refuses, with the file's first byte for the number and
/// the second for the place. So does a night without a list; of one with a list it is each verdict.
const REFUSING: &str = r#"
#include "justification.h"

static struct justification_verdict refused(const uint8_t *file)
{
    struct justification_verdict verdict = {JUSTIFICATION_REFUSED, 0, 0};

    verdict.first = file[0];
    verdict.second = file[1];
    return verdict;
}

struct justification_verdict justification_check(const uint8_t *file,
                                                 size_t file_bytes,
                                                 uint16_t *room,
                                                 size_t room_entries)
{
    (void)file_bytes, (void)room, (void)room_entries;
    return refused(file);
}

struct justification_verdict justification_index(const uint8_t *file,
                                                 size_t file_bytes,
                                                 uint16_t *index,
                                                 size_t index_entries)
{
    (void)file_bytes, (void)index, (void)index_entries;
    return refused(file);
}

struct justification_verdict
justification_check_indexed(const uint8_t *file, size_t file_bytes,
                            const uint16_t *index, size_t index_entries,
                            uint16_t *room, size_t room_entries)
{
    (void)file_bytes, (void)index, (void)index_entries;
    (void)room, (void)room_entries;
    return refused(file);
}

struct justification_verdict
justification_night(const uint8_t *files, size_t files_bytes,
                    const uint8_t *list, size_t list_bytes,
                    struct justification_verdict verdicts[JUSTIFICATION_NIGHT],
                    uint16_t *room, size_t room_entries)
{
    struct justification_verdict answer = {JUSTIFICATION_CHECKED, 0, 0};

    (void)files_bytes, (void)room, (void)room_entries;
    if (list_bytes == 0)
        return refused(files);
    for (; answer.first < list_bytes / 8; answer.first++)
        verdicts[answer.first] = refused(files + list[8 * answer.first]);
    return answer;
}
"#;

/// The words of each number, also of those that the proved library never gives to the console. Of an
/// index they go to standard error; of many files they stand in one line.
#[test]
fn console_words_by_number() {
    let stand_in = scratch_with("refusing.c", REFUSING);
    let console = built(project("console/console.c"), stand_in, "console-refusing");
    let nothing = scratch_with("refusing.nothing", []);
    let says = |number: u8, place: u8, words: &str| {
        let said = format!("refused {number} {place}\n{words}\n").into_bytes();
        let file = [number, place];
        let plain = run(&console, &file);
        assert_eq!((plain.status.code(), &plain.stdout), (Some(2), &said));
        assert!(plain.stderr.is_empty());
        assert_eq!(streams::run(&mut through(&console, &nothing), &file), plain);
        assert_eq!(streams::run(&mut at_night(&console, &nothing), &file), plain);
        let name = scratch_with("refusing.case", file);
        let many = Command::new(&console).args([&name, &name]).output();
        let line = format!("{}: refused {number} {place}: {words}\n", name.display());
        let lines = format!("{line}{line}0 passed, 0 none owed, 2 refused\n");
        assert_eq!(printed(many.expect("the console starts")), lines);
        let output = streams::run(&mut indexing(&console), &file);
        assert_eq!((output.status, &output.stderr), (plain.status, &said));
        assert!(output.stdout.is_empty());
    };
    for refusal in refusals() {
        for place in [0, 1, 7, 8, 255] {
            let verdict = Verdict::Refused { number: refusal.number, place: place.into() };
            let said = words::words(&[refusal.number as u8, place], verdict, &[]);
            says(refusal.number as u8, place, &said.join("\n"));
        }
    }
    says(29, 5, "Entries needed 5: the room for the index is too short.");
    says(30, 0, "The index is not that of this file's log.");
    let bad_pair = "Pair 64: it begins before the last one's end, ends beyond the files, is cut \
                    short, or is the 65th.";
    says(33, 64, bad_pair);
    let numbers = refusals().iter().map(|refusal| refusal.number as u8);
    says(numbers.max().expect("there are refusals") + 1, 0, "No such refusal.");
    says(255, 5, "No such refusal.");
}

/// The console tells a misfit by the rule of the step, in the words that the header has for it.
#[test]
fn console_on_every_misfit() {
    let console = console("misfits");
    let mut told = BTreeSet::new();
    for case in misfits::misfits() {
        let output = run(&console, &case.file);
        assert_console_says(&output, &case);
        let text = printed(output);
        let found = words::step_faults().iter().filter(|fault| text.contains(&fault.wrong));
        told.extend(found.map(|fault| (fault.number, fault.rule)));
    }
    let listed = words::step_faults().iter().map(|fault| (fault.number, fault.rule));
    assert_eq!(told, listed.collect());
}

#[test]
fn console_words() {
    let console = console("words");
    let second = |input: &[u8]| {
        let text = String::from_utf8(run(&console, input).stdout).expect("it prints plain text");
        text.lines().nth(1).map(str::to_string)
    };
    let says = |input: &[u8], words: &str| assert_eq!(second(input).as_deref(), Some(words));
    let example = |name: &str| example(name).file;
    for length in [0, 37, 47_911] {
        says(&vec![0; length], "The file has under 38 or over 47,910 bytes.");
    }
    let mut longer = example("grant");
    longer.push(0);
    says(&longer, "Part 7 (premises): it is not where it is due, or its length is not right.");
    says(&example("grant"), "The justification proves what is owed.");
    says(&example("creator"), "This action asks nothing of this agent.");
    says(&example("twice"), "Step 5: a duty owed at each use is used twice.");
    says(&example("supposed"), "Label 0: it is still open at the end.");
    let swapped =
        "Step 3: the first premise of rule 10 (implied) is no implication, \"F implies G\".";
    says(&example("visit-premises-swapped"), swapped);
    let data_variable = "Formula 2: it holds a data variable, and stands in the formula of an \
                         owner step (rule 5), which may hold none.";
    says(&example("grant-swap"), data_variable);
    let by_reading = "Step 6: the first premise of rule 4 (refine) is not proved by logic alone: it, or \
                      a step that it rests on, cites a log row, a condition or an obligation, or it \
                      leaves a label open.";
    says(&example("grant-refined-by-reading"), by_reading);
}

/// What duties with a due hour bring; which of its reasons a 31 has is not told.
#[test]
fn console_words_of_duties() {
    let console = console("duties");
    let tells = |name: &str, text: &str| {
        assert_eq!(printed(run(&console, &example(name).file)), text, "{name}");
    };
    let bad_duty = "refused 7 0\n\
                    Obligation 0: its mark, its action, its due hour or its row is not well made.\n";
    tells("grant-duty-no-hour", bad_duty);
    tells("grant-duty-no-such-row", bad_duty);
    let no_hour = "refused 9 0\nThe agent is no agent, the audited action is no action, or the \
                   audit hour is absent.\n";
    tells("grant-no-hour", no_hour);
    let not_done = |place: u16| {
        format!(
            "refused 31 {place}\nObligation {place}: it was due before the audit hour, and it \
             names no log row that the agent observes with its action.\n"
        )
    };
    tells("twice-not-reported", &not_done(1));
    tells("twice-report-unseen", &not_done(1));
    tells("twice-report-struck", &not_done(0));
    tells("visit-row-of-another-action", &not_done(0));
    tells("creator-not-reported", &not_done(0));
    let one_row = "refused 32 1\nObligation 1: it is owed at each use, and an earlier one owed at \
                   each use names the same log row.\n";
    tells("twice-one-report", one_row);
    tells("creator-reported", "none owed\nThis action asks nothing of this agent.\n");
}

/// Runs a program over a file that is longer than any case, and tells how many bytes it has read.
fn run_on_long_file(program: &mut Command, test: &str) -> (Output, u64) {
    let long = scratch_with(&format!("long-{test}.case"), vec![0; 2 * MOST_BYTES]);
    let mut file = File::open(&long).expect("the file is there");
    let input = file.try_clone().expect("the file is shared");
    let output = program.stdin(input).output().expect("the program starts");
    (output, file.stream_position().expect("it has a position"))
}

/// Nothing is judged: the words are on standard error alone.
fn assert_trouble(output: &Output) -> String {
    assert_eq!(output.status.code(), Some(3), "{output:?}");
    assert!(output.stdout.is_empty() && !output.stderr.is_empty(), "{output:?}");
    String::from_utf8_lossy(&output.stderr).into_owned()
}

/// The name of a file of `examples/`.
fn name_of(file: &str) -> String {
    folder().join(file).to_str().expect("it is text").to_string()
}

/// Trouble is told apart from every verdict, and no byte is read that is not needed.
#[test]
fn console_trouble() {
    let console = console("trouble");
    let [case, index] = ["grant.case", "grant.index"].map(name_of);
    let [list, files] = ["desk-night.list", "desk-night.files"].map(name_of);
    let early = folder().join("desk-night-early.list");
    let [case, index, list, files] = [&case, &index, &list, &files].map(String::as_str);
    let trouble = |arguments: &[&str]| {
        let output = Command::new(&console).args(arguments).output().expect("the console starts");
        assert_trouble(&output)
    };
    let usage = format!(
        "usage: {0} [--index | --through INDEX | --night LIST] [FILE]\n       {0} FILE FILE...\n",
        console.display()
    );
    let misused: [&[&str]; 29] = [
        &[case, "--index"],
        &["--other"],
        &["--"],
        &["--", case],
        &["--indexes", case],
        &["--index", case, case],
        &["--index", "--index"],
        &["--index", "--through", index],
        &["--through"],
        &["--through", "--index", case],
        &["--through", index, "--other"],
        &["--through", index, case, case],
        &[case, "--through", index],
        &[case, case, "--index"],
        &[case, "--other", case],
        &[case, case, "--"],
        &["--night"],
        &["--night", "--night", list],
        &["--night", "--index", case],
        &["--night", "--through", index],
        &["--night", list, "--index"],
        &["--night", list, "--through", index],
        &["--night", list, files, "--other"],
        &["--night", list, files, files],
        &["--index", "--night", list],
        &["--through", "--night", list],
        &["--through", "--night", index, list],
        &["--through", index, "--night", list],
        &[case, "--night", list],
    ];
    for arguments in misused {
        assert_eq!(trouble(arguments), usage, "{arguments:?}");
    }
    let missing = "no such file";
    let unread: [(&[&str], &str); 14] = [
        (&[missing], missing),
        (&["/"], "/"),
        (&["--index", missing], missing),
        (&["--index", "/"], "/"),
        (&["--through", missing, case], missing),
        (&["--through", "/", case], "/"),
        (&["--through", index, missing], missing),
        (&["--through", index, "/"], "/"),
        (&["--night", missing], missing),
        (&["--night", missing, files], missing),
        (&["--night", "/", files], "/"),
        (&["--night", list, missing], missing),
        (&["--night", list, "/"], "/"),
        (&["--night", missing, "/"], missing),
    ];
    for (arguments, name) in unread {
        assert!(trouble(arguments).starts_with(&format!("{name}: ")), "{arguments:?}");
    }
    let lent = Path::new(index);
    let ways = [Command::new(&console), indexing(&console), through(&console, lent)];
    for mut way in ways {
        let (output, bytes) = run_on_long_file(&mut way, "console");
        assert_eq!(output.status.code(), Some(2), "{way:?}");
        assert_eq!(bytes, 47_911, "{way:?}");
        assert_trouble_when_full(way.stdin(File::open(case).expect("it is there")));
    }
    for count in [2, NIGHT, 1_000] {
        assert_trouble_when_full(Command::new(&console).args(vec![case; count]));
    }
    assert_trouble_when_full(at_night(&console, Path::new(list)).arg(files));
    assert_trouble_when_full(at_night(&console, &early).arg(files));
}

/// What cannot be written is trouble.
fn assert_trouble_when_full(command: &mut Command) {
    let full = File::options().write(true).open("/dev/full").expect("it is there");
    let output = command.stdout(full).output().expect("the console starts");
    let words = assert_trouble(&output);
    assert!(words.starts_with("standard output: "), "{words}");
}

/// Runs the console over a pipe that holds these bytes, and tells how many it has taken out.
fn taken(command: &mut Command, bytes: &[u8]) -> (Output, usize) {
    let (mut left, mut pipe) = io::pipe().expect("there are pipes");
    pipe.write_all(bytes).expect("the pipe takes them all");
    drop(pipe);
    let input = left.try_clone().expect("the pipe is shared");
    let output = command.stdin(input).output().expect("the console starts");
    let rest = left.read_to_end(&mut Vec::new()).expect("the pipe can be read");
    (output, bytes.len() - rest)
}

/// Of a list no byte is read beyond the first of a 65th pair, and of a file among many none beyond
/// the first that is too many. Where files are named, or there is no list, standard input is left
/// alone.
#[test]
fn console_takes_no_more_bytes() {
    let console = console("bytes");
    let [grant, files] = ["grant.case", "desk-night.files"].map(name_of);
    for length in [0, 8, 511, 512, 513, 514, 520, 5_000] {
        let list = vec![0; length];
        let night = Night { list: list.clone(), ..desk_night() };
        let (output, bytes) = taken(at_night(&console, Path::new("/dev/stdin")).arg(&files), &list);
        let is_sound = assert_says_of_night(&output, &night).is_ok();
        assert_eq!((is_sound, bytes), ([0, 8, 512].contains(&length), length.min(513)));
    }
    for length in [0, 108, 47_910, 47_911, 47_912, 65_536] {
        let content = vec![0; length];
        let names = [&grant, "/dev/stdin", &grant];
        let (output, bytes) = taken(Command::new(&console).args(names), &content);
        let input = Named { name: "/dev/stdin".to_string(), content: Some(content) };
        assert_says_of_many(&output, &[case("grant"), input, case("grant")]);
        assert_eq!(bytes, length.min(47_911));
    }
    let (_, bytes) = taken(Command::new(&console).args([&grant, &grant]), &[0; 9]);
    assert_eq!(bytes, 0);
    let (output, bytes) = taken(&mut at_night(&console, Path::new("no such file")), &[0; 9]);
    assert_trouble(&output);
    assert_eq!(bytes, 0);
}

// ---- The console and indexes ----

/// What the console gives for the index of a file's log: its bytes and nothing else, or the refusal
/// in words on standard error and nothing else. Tells the number of the refusal, or 0.
fn assert_console_builds(output: &Output, file: &[u8]) -> u16 {
    let (number, status, stdout, stderr) = match due(file) {
        Ok(index) => (0, 0, bytes(index), String::new()),
        Err(Refusal { number, place }) => {
            let refused = Verdict::Refused { number, place };
            let words = words::words(file, refused, &[]).join("\n");
            (number, 2, Vec::new(), format!("{refused}\n{words}\n"))
        }
    };
    assert_eq!(output.status.code(), Some(status), "{output:?}, {file:?}");
    assert!(output.stdout == stdout, "{output:?}, {file:?}");
    assert_eq!(String::from_utf8_lossy(&output.stderr), stderr, "{file:?}");
    number
}

/// Files of all kinds: the examples, the vectors, the loads, and random ones.
fn files() -> impl Iterator<Item = Vec<u8>> {
    let building = cases::building_vectors().into_iter().map(|vector| vector.file);
    let mut random = Random(0x510E_527F_ADE6_82D1);
    let random = (0..400).map(move |_| random_file(&mut random));
    known_files().into_iter().chain(building).chain(random)
}

/// The index of every log, of the longest too, and each refusal that there is of building one in a
/// room that is long enough.
#[test]
fn console_builds_indexes() {
    let console = console("index");
    let mut numbers = BTreeSet::new();
    let mut entries = 0;
    for file in files() {
        let output = streams::run(&mut indexing(&console), &file);
        numbers.insert(assert_console_builds(&output, &file));
        entries = entries.max(output.stdout.len() / 2);
    }
    assert_eq!((numbers, entries), ((0..=5).collect(), MOST_ENTRIES));
    for example in all() {
        let case = folder().join(format!("{}.case", example.name));
        let named = indexing(&console).arg(case).output().expect("the console starts");
        assert_eq!(assert_console_builds(&named, &example.file), 0, "{}", example.name);
    }
}

/// Through the index as built the console does in all what it does without, whatever stands behind
/// the index: also half a number, behind all that is read. Where none can be built, it is the same
/// with any.
#[test]
fn console_through_indexes_as_built() {
    let console = console("as-built");
    for file in files() {
        let plain = run(&console, &file);
        let index = bytes(due(&file).unwrap_or_default());
        let longer = [&index[..], &[0xA5; 4]].concat();
        let mut longest = longer.clone();
        longest.resize(2 * MOST_ENTRIES + 1, 0xA5);
        for content in [index, longer, longest] {
            let lent = scratch_with("as-built.index", content);
            let output = streams::run(&mut through(&console, &lent), &file);
            assert_eq!(output, plain, "{file:?}");
        }
    }
    for example in all() {
        let case = folder().join(format!("{}.case", example.name));
        let index = due(&example.file).expect("an example has an index");
        let lent = scratch_with("named.index", bytes(index));
        let named = through(&console, &lent).arg(case).output().expect("the console starts");
        assert_console_says(&named, &example);
    }
}

/// The vectors of checks through an index, in the console's room.
#[test]
fn console_on_vectors_of_checks_through() {
    let console = console("through-vectors");
    for Through { vector, index } in cases::through_vectors() {
        let (verdict, written) = checked(&vector.file, &index, ROOM);
        let case = Vector { verdict, written, ..vector };
        let lent = scratch_with("vector.index", bytes(index));
        assert_console_says(&streams::run(&mut through(&console, &lent), &case.file), &case);
    }
}

/// An index that is changed in any byte or cut at any number is refused by 30, unless the file falls
/// before; one that is cut in a number is trouble, whatever the file.
#[test]
fn console_through_other_indexes() {
    let console = console("other-indexes");
    let told = |content: &[u8], file: &[u8]| {
        let lent = scratch_with("other.index", content);
        streams::run(&mut through(&console, &lent), file)
    };
    let refused = format!("{NOT_AS_BUILT}\n{}\n", words::meaning(30).wrong);
    let is_refused = |content: &[u8], file: &[u8]| {
        let output = told(content, file);
        assert_eq!(output.status.code(), Some(2), "{content:?}");
        assert_eq!(printed(output), refused, "{content:?}");
    };
    for name in ["grant", "visit", "shared-log"] {
        let file = example(name).file;
        let index = bytes(due(&file).expect("it has an index"));
        for at in 0..index.len() {
            let mut changed = index.clone();
            changed[at] ^= 1;
            is_refused(&changed, &file);
            match at % 2 {
                0 => is_refused(&index[..at], &file),
                _ => _ = assert_trouble(&told(&index[..at], &file)),
            }
        }
        assert_trouble(&told(&[&index[..], &[0]].concat(), &file));
    }
    is_refused(&bytes(due(&example("grant").file).expect("an index")), &example("visit").file);
    for example in cases::examples() {
        if let Verdict::Refused { number: 1..=9, .. } = example.verdict {
            assert_eq!(told(&[9, 9], &example.file), run(&console, &example.file));
            assert_trouble(&told(&[9], &example.file));
        }
    }
}

/// The longest index is read to its last entry.
#[test]
fn console_through_the_longest_index() {
    let console = console("longest");
    let loads = index_loads().into_iter().map(|load| load.case.to_bytes());
    let index_of = |file: &[u8]| bytes(due(file).expect("a load has an index"));
    let file = loads.max_by_key(|file| index_of(file).len()).expect("there are loads");
    let index = index_of(&file);
    assert_eq!(index.len(), 2 * MOST_ENTRIES);
    let told = |content: &[u8]| {
        let lent = scratch_with("longest.index", content);
        streams::run(&mut through(&console, &lent), &file)
    };
    let plain = run(&console, &file);
    assert_eq!(plain.status.code(), Some(0));
    assert_eq!(told(&index), plain);
    assert_eq!(told(&[&index[..], &[1]].concat()), plain);
    assert_trouble(&told(&index[..index.len() - 1]));
    let mut changed = index.clone();
    changed[2 * MOST_ENTRIES - 1] ^= 0x80;
    for other in [&index[..index.len() - 2], &changed] {
        assert!(printed(told(other)).starts_with("refused 30 0\n"));
    }
}

// ---- The console on many files ----

/// What the console prints of these files, each with what its line begins with, and the exit status;
/// so many more could not be read.
fn lines_of(files: &[(String, &[u8], Verdict)], unread: usize) -> (String, i32) {
    let mut counts = [0, 0, 0, unread];
    let mut text = String::new();
    for (name, file, verdict) in files {
        let fault = match verdict {
            Verdict::Refused { .. } => format!(": {}", words::words(file, *verdict, &[]).concat()),
            _ => String::new(),
        };
        text += &format!("{name}: {verdict}{fault}\n");
        counts[status(*verdict) as usize] += 1;
    }
    let [passed, none_owed, refused, _] = counts;
    text += &format!("{passed} passed, {none_owed} none owed, {refused} refused");
    if unread > 0 {
        text += &format!(", {unread} not read");
    }
    let highest = counts.iter().rposition(|count| *count > 0).unwrap_or(0);
    (text + "\n", highest as i32)
}

/// A file by its name, and its bytes; none where it cannot be read.
#[derive(Clone)]
struct Named {
    name: String,
    content: Option<Vec<u8>>,
}

/// The file of an example.
fn file_of(example: Vector) -> Named {
    Named { name: name_of(&format!("{}.case", example.name)), content: Some(example.file) }
}

fn case(name: &str) -> Named {
    file_of(example(name))
}

fn cases_of_examples() -> Vec<Named> {
    all().into_iter().map(file_of).collect()
}

/// A file of this test's own.
fn kept(name: &str, content: Vec<u8>) -> Named {
    let path = scratch_with(name, &content);
    Named { name: path.to_str().expect("it is text").to_string(), content: Some(content) }
}

/// There is no such file, or it is a folder.
fn unread(turn: usize) -> Named {
    Named { name: ["no such file", "/"][turn % 2].to_string(), content: None }
}

/// What the separate checker says of each file, in their order; and a complaint of each that cannot
/// be read, in their order too.
fn assert_says_of_many(output: &Output, files: &[Named]) {
    let judged = files.iter().filter_map(|Named { name, content }| {
        let content = content.as_deref()?;
        Some((name.clone(), content, check(content, &mut [0; ROOM])))
    });
    let unread: Vec<&Named> = files.iter().filter(|file| file.content.is_none()).collect();
    let (text, status) = lines_of(&judged.collect::<Vec<_>>(), unread.len());
    assert_eq!(output.status.code(), Some(status), "{output:?}");
    let complaints = String::from_utf8_lossy(&output.stderr).into_owned();
    assert_eq!(complaints.lines().count(), unread.len(), "{complaints}");
    for (complaint, file) in complaints.lines().zip(unread) {
        assert!(complaint.starts_with(&format!("{}: ", file.name)), "{complaint}");
    }
    assert_eq!(String::from_utf8_lossy(&output.stdout), text);
}

/// The same of the console on these names.
fn assert_console_says_of_many(console: &Path, files: &[Named]) -> Output {
    let names = files.iter().map(|file| &file.name);
    let output = Command::new(console).args(names).output().expect("the console starts");
    assert_says_of_many(&output, files);
    output
}

/// The line of a file among many, by what the console says of it alone.
fn line_alone(console: &Path, name: &str) -> String {
    let output = Command::new(console).arg(name).output().expect("the console starts");
    let refused = output.status.code() == Some(2);
    let text = printed(output);
    let lines: Vec<&str> = text.lines().collect();
    format!("{name}: {}", if refused { lines.join(": ") } else { lines[0].to_string() })
}

/// All examples and a case for each misfit that is told by the rule, there and back: each verdict is
/// the one that the console gives for the file alone.
#[test]
fn console_on_many_examples() {
    let console = console("many");
    let misfits = misfits::misfits().into_iter().enumerate();
    let misfits = misfits.map(|(turn, case)| kept(&format!("misfit-{turn}.case"), case.file));
    let mut files: Vec<Named> = cases_of_examples().into_iter().chain(misfits).collect();
    assert!(files.len() > NIGHT + 10, "{}", files.len());
    for _ in 0..2 {
        let text = printed(assert_console_says_of_many(&console, &files));
        let lines = files.iter().map(|file| line_alone(&console, &file.name));
        let told: Vec<&str> = text.lines().take(files.len()).collect();
        assert_eq!(told, lines.collect::<Vec<String>>());
        files.reverse();
    }
}

/// As many files as fit into one call and into two, one fewer and one more, and many. A file may be
/// named twice, and stand on both sides of the end of a call.
#[test]
fn console_on_numbers_of_files() {
    let console = console("numbers");
    let known = cases_of_examples();
    let turns = ["grant", "twice", "grant", "creator"].map(case);
    for count in [2, 3, 63, 64, 65, 127, 128, 129, 192, 1_000] {
        let files: Vec<Named> = known.iter().cycle().skip(count).take(count).cloned().collect();
        assert_console_says_of_many(&console, &files);
        assert_console_says_of_many(&console, &vec![case("grant"); count]);
        let files: Vec<Named> = turns.iter().cycle().take(count).cloned().collect();
        assert_console_says_of_many(&console, &files);
    }
}

/// No file is left open: a few may be at a time, and there are many.
#[test]
fn console_closes_files() {
    let console = console("closing");
    let files: Vec<Named> = cases_of_examples().into_iter().cycle().take(1_000).collect();
    let names = files.iter().map(|file| &file.name);
    let limited = ["-c", "ulimit -n 8 && exec \"$@\"", "sh"];
    let output = Command::new("sh").args(limited).arg(console).args(names).output();
    assert_says_of_many(&output.expect("the shell starts"), &files);
}

/// One that cannot be read at each place, also where a call ends; each set of those that cannot be
/// read of five; and none that can.
#[test]
fn console_on_files_that_cannot_be_read() {
    let console = console("unread");
    let files: Vec<Named> = cases_of_examples().into_iter().cycle().take(2 * NIGHT + 2).collect();
    for place in 0..files.len() {
        let mut files = files.clone();
        files[place] = unread(place);
        assert_console_says_of_many(&console, &files);
        files.insert(place, unread(place + 1));
        assert_console_says_of_many(&console, &files);
    }
    for set in 0..32 {
        let of_set = |place: usize| match set >> place & 1 {
            0 => files[place].clone(),
            _ => unread(place),
        };
        assert_console_says_of_many(&console, &(0..5).map(of_set).collect::<Vec<_>>());
    }
    for count in [2, 3, 63, 64, 65, 1_000] {
        let output = assert_console_says_of_many(&console, &vec![unread(count); count]);
        assert_eq!(
            printed(output),
            format!("0 passed, 0 none owed, 0 refused, {count} not read\n")
        );
    }
}

/// Two and three files of each kind, in each order: the exit status is the highest.
#[test]
fn console_status_of_many() {
    let console = console("status");
    let kinds = [case("grant"), case("creator"), case("twice"), unread(0)];
    for (count, sets) in [(2, 16), (3, 64)] {
        for set in 0..sets {
            let kind = |place: u32| set / 4_i32.pow(place) % 4;
            let file = |place: u32| kinds[kind(place) as usize].clone();
            let files: Vec<Named> = (0..count).map(file).collect();
            let output = assert_console_says_of_many(&console, &files);
            assert_eq!(output.status.code(), (0..count).map(kind).max(), "{output:?}");
        }
    }
}

/// Files of all lengths, with others before them and behind them. Of a longer one no more is taken
/// than has it refused; 64 of these fill all that the console has for a call.
#[test]
fn console_on_lengths_of_many() {
    let console = console("lengths");
    let (file, _) = full_size();
    let lengths = [0, 1, 37, 38, 47_907, 47_908, 47_909, 47_910, 47_911, 47_912, 65_536, 200_000];
    let of_length = |length: usize| {
        let mut content = file.clone();
        content.resize(length, 0xA5);
        kept(&format!("of-{length}.case"), content)
    };
    let files = lengths.map(of_length);
    let [grant, visit] = ["grant", "visit"].map(case);
    for file in &files {
        let [file, grant, visit] = [file, &grant, &visit].map(Named::clone);
        assert_console_says_of_many(&console, &[file.clone(), grant.clone()]);
        assert_console_says_of_many(&console, &[grant.clone(), file.clone(), visit]);
        assert_console_says_of_many(&console, &[file.clone(), file, grant]);
    }
    assert_console_says_of_many(&console, &files);
    let largest = kept("largest.case", full_size::largest().to_bytes());
    for long in [&largest, &files[8], &files[11]] {
        let mut many = vec![long.clone(); NIGHT - 1];
        many.extend([grant.clone(), visit.clone(), long.clone(), grant.clone()]);
        assert_console_says_of_many(&console, &many);
        let many = vec![long.clone(); NIGHT];
        assert_console_says_of_many(&console, &[&many[..], &[visit.clone()]].concat());
    }
}

/// The largest file that passes, in a whole call and one more: the room is long enough for all.
#[test]
fn console_on_full_size_files() {
    let console = console("full-size");
    let file = kept("full-size.case", full_size().0);
    for count in [NIGHT, NIGHT + 1] {
        let text = printed(assert_console_says_of_many(&console, &vec![file.clone(); count]));
        assert_eq!(text.matches(": passed 64 1024\n").count(), count);
    }
    let night = Night::of(&vec![full_size().0; NIGHT], Vec::new);
    assert_eq!(assert_console_says_of_night(&console, &night), Ok(64));
}

// ---- The console on a night in one file ----

/// A line for each file by its number, or 33 in words: what the separate checker says in the
/// console's room.
fn assert_says_of_night(output: &Output, night: &Night) -> Result<u16, Refusal> {
    let found = outcome(check_night, &night.files, &night.list, NIGHT_ROOM);
    let (text, status) = match found.answer {
        Ok(_) => {
            let judged = night.pairs().into_iter().zip(found.verdicts()).enumerate();
            let judged = judged.map(|(turn, ((offset, length), verdict))| {
                let file = &night.files[offset as usize..][..length as usize];
                (format!("file {turn}"), file, verdict)
            });
            lines_of(&judged.collect::<Vec<_>>(), 0)
        }
        Err(Refusal { number, place }) => {
            let verdict = Verdict::Refused { number, place };
            let words = words::words(&night.files, verdict, &[]).concat();
            (format!("{verdict}\n{words}\n"), status(verdict))
        }
    };
    assert_eq!(output.status.code(), Some(status), "{output:?}");
    assert_eq!(String::from_utf8_lossy(&output.stdout), text, "{:?}", night.list);
    assert!(output.stderr.is_empty(), "{output:?}");
    found.answer
}

/// The same of a night whose files are named, and come on standard input. The console is a test's
/// own, and so are the files beside it.
fn assert_console_says_of_night(console: &Path, night: &Night) -> Result<u16, Refusal> {
    let (list, files) = (console.with_extension("list"), console.with_extension("files"));
    fs::write(&list, &night.list).expect("the list is written");
    fs::write(&files, &night.files).expect("the files are written");
    let named = at_night(console, &list).arg(files).output().expect("the console starts");
    let on_input = streams::run(&mut at_night(console, &list), &night.files);
    assert_eq!(on_input, named);
    assert_says_of_night(&named, night)
}

#[test]
fn console_on_vectors_of_nights() {
    let console = console("night-vectors");
    let (mut checked, mut refused) = (0, 0);
    for vector in cases::night_vectors() {
        let night = Night { files: vector.files, list: vector.list };
        let answer = assert_console_says_of_night(&console, &night);
        assert_eq!(answer, vector.answer, "{}", vector.name);
        *(if answer.is_ok() { &mut checked } else { &mut refused }) += 1;
    }
    assert!(checked > 40 && refused > 40, "{checked}, {refused}");
}

/// Random nights, with lists of all kinds, up to 64 files and more.
#[test]
fn console_on_random_nights() {
    let console = console("nights");
    let mut random = Random(0x9B05_688C_2B3E_6C1F);
    let mut files = Files::new(&mut random);
    let mut answers = BTreeSet::new();
    let mut refused = BTreeSet::new();
    for _ in 0..600 {
        let count = random_count(&mut random);
        let mut night = files.night(count, &mut random);
        change_list(&mut night, &mut random);
        match assert_console_says_of_night(&console, &night) {
            Ok(files) => answers.insert(files),
            Err(refusal) => refused.insert(refusal.place),
        };
    }
    assert!(answers.contains(&64) && refused.contains(&64), "{answers:?}, {refused:?}");
    assert!(answers.len() > 8 && refused.len() > 8, "{answers:?}, {refused:?}");
}

/// Files of all lengths, those at which the console needs more memory too, up to their last byte and
/// a byte beyond. At their end is a case that is told by the rule of its step, at last so far from
/// the first byte that no byte of its offset is 0.
#[test]
fn console_on_long_nights() {
    let console = console("long-nights");
    let case = example("visit-premises-swapped").file;
    let doubled = (0..6).map(|turn| (MOST_BYTES + 1) << turn);
    let lengths = doubled.flat_map(|length| [length - 1, length, length + 1]);
    let furthest = 0x0102_0304 + case.len();
    for length in lengths.chain([case.len(), 4_096, 65_536, 5_000_000, furthest]) {
        let at = length - case.len();
        let mut night = Night { files: [vec![0xA5; at], case.clone()].concat(), list: vec![] };
        let mut told = |pairs: [(usize, usize); 2]| {
            night.list = list_of(&pairs.map(|(offset, length)| (offset as u32, length as u32)));
            assert_console_says_of_night(&console, &night).map_err(|refusal| refusal.place)
        };
        assert_eq!(told([(0, 0), (at, case.len())]), Ok(2));
        assert_eq!(told([(0, length), (length, 0)]), Ok(2));
        assert_eq!(told([(0, 0), (at + 1, case.len())]), Err(1));
    }
}

// ---- The console on the examples' page ----

/// The commands in the examples' README: an index as it is beside the cases, and what is printed by
/// the others, which stands in the next lines that are indented.
#[test]
fn console_as_the_examples_tell() {
    let console = console("readme");
    let page = fs::read_to_string(folder().join("README.md")).expect("it has a README");
    let mut lines = page.lines();
    let (mut built, mut checked) = (0, 0);
    while let Some(line) = lines.next() {
        let Some(command) = line.strip_prefix("    target/console ") else { continue };
        let words = command.split(' ').take_while(|word| *word != ">");
        let output = Command::new(&console).args(words).current_dir(project("")).output();
        let output = output.expect("the console starts");
        if command.starts_with("--index ") {
            let beside = fs::read(folder().join("shared-log.index")).expect("it is there");
            assert!(output.stdout == beside, "{command}");
            built += 1;
            continue;
        }
        let text = lines.by_ref().skip_while(|line| !line.starts_with("    "));
        let text = text.map_while(|line| line.strip_prefix("    ")).flat_map(|line| [line, "\n"]);
        assert_eq!(printed(output), text.collect::<String>(), "{command}");
        checked += 1;
    }
    assert_eq!((built, checked), (1, 5));
}

// ---- The program ----

fn check_case() -> PathBuf {
    project("target/bin/check_case")
}

fn printed(output: Output) -> String {
    String::from_utf8(output.stdout).expect("it prints plain text")
}

fn program(input: &[u8]) -> String {
    printed(run(&check_case(), input))
}

#[test]
fn program_on_examples() {
    for example in all() {
        assert_eq!(program(&example.file), output(&example), "{}", example.name);
    }
    assert_eq!(program(&example("grant").file), "case 108\npassed 0 1\nrow 0\n");
}

/// Of a longer input 47,911 bytes are read; the empty one and the edges are told as they are.
#[test]
fn program_on_lengths() {
    for (length, verdict) in [(0, "refused 1 0"), (37, "refused 1 0"), (38, "refused 2 0")] {
        assert_eq!(program(&vec![0; length]), format!("case {length}\n{verdict}\n"));
    }
    assert_eq!(program(&vec![0; MOST_BYTES]), "case 47910\nrefused 2 0\n");
    for length in [MOST_BYTES + 1, MOST_BYTES + 2, 65_536, 200_000] {
        assert_eq!(program(&vec![0; length]), "case 47911\nrefused 1 0\n");
    }
    let (output, bytes) = run_on_long_file(&mut Command::new(check_case()), "program");
    assert_eq!((printed(output).as_str(), bytes), ("case 47911\nrefused 1 0\n", 47_911));
}

/// The full-size file, and what the program prints of it.
fn full_size() -> (Vec<u8>, String) {
    let duties = (0..64).map(|number| format!("duty {number}\n"));
    let rows = (0..1_024).map(|number| format!("row {number}\n"));
    let listed: String = duties.chain(rows).collect();
    let file = full_size::full_size().to_bytes();
    (file, format!("case 47908\npassed 64 1024\n{listed}"))
}

#[test]
fn program_on_a_full_size_file() {
    let (file, text) = full_size();
    assert_eq!(program(&file), text);
}

/// Starts a program over this standard input, of which nobody else keeps a copy.
fn start(mut program: Command, input: impl Into<Stdio>) -> Child {
    let piped = program.stdin(input).stdout(Stdio::piped()).stderr(Stdio::piped());
    piped.spawn().expect("the program starts")
}

/// Runs a program over an input that comes in these pieces, each to a read of its own: a read from
/// a socket of datagrams gives one of them, and of an empty one no byte, which is the end.
fn run_on_pieces(program: Command, pieces: &[&[u8]]) -> Output {
    let (ours, theirs) = UnixDatagram::pair().expect("there are sockets");
    let child = start(program, OwnedFd::from(theirs));
    // It may stop reading before the end.
    let _ = pieces.iter().chain([&&[][..]]).try_for_each(|piece| ours.send(piece).map(|_| ()));
    child.wait_with_output().expect("the program ends")
}

/// Ways to cut an input: single bytes, pieces of several sizes, and one with the last byte alone.
/// No piece is longer than what the program reads at once, since a datagram's rest would be lost.
fn cuts(input: &[u8]) -> Vec<Vec<&[u8]>> {
    let (front, last) = input.split_at(input.len() - 1);
    let sizes = [1, 2, 7, 107, 4_096];
    let even = sizes.map(|size| input.chunks(size).collect());
    even.into_iter().chain(once(front.chunks(4_096).chain([last]).collect())).collect()
}

#[test]
fn programs_on_pieces_of_examples() {
    let console = console("pieces");
    for example in all() {
        for pieces in cuts(&example.file) {
            let text = printed(run_on_pieces(Command::new(check_case()), &pieces));
            assert_eq!(text, output(&example), "{}", example.name);
            assert_console_says(&run_on_pieces(Command::new(&console), &pieces), &example);
        }
    }
}

#[test]
fn program_on_pieces_of_long_inputs() {
    let (file, text) = full_size();
    for pieces in cuts(&file) {
        assert_eq!(printed(run_on_pieces(Command::new(check_case()), &pieces)), text);
    }
    let longest = vec![0; MOST_BYTES];
    for pieces in cuts(&longest) {
        let text = printed(run_on_pieces(Command::new(check_case()), &pieces));
        assert_eq!(text, "case 47910\nrefused 2 0\n");
    }
    for length in [MOST_BYTES + 1, MOST_BYTES + 2, 65_536] {
        for pieces in cuts(&vec![0; length]) {
            let text = printed(run_on_pieces(Command::new(check_case()), &pieces));
            assert_eq!(text, "case 47911\nrefused 1 0\n");
        }
    }
}

/// The files of a night in pieces, also where the console needs more memory for them twice.
#[test]
fn console_on_pieces_of_a_night() {
    let console = console("night-pieces");
    let (file, _) = full_size();
    let longer = Night::of(&[file.clone(), file, cases::grant().to_bytes()], || vec![1]);
    assert!(longer.files.len() > 2 * (MOST_BYTES + 1));
    for night in [desk_night(), longer] {
        let list = scratch_with("pieces.list", &night.list);
        for pieces in cuts(&night.files) {
            let output = run_on_pieces(at_night(&console, &list), &pieces);
            assert!(assert_says_of_night(&output, &night).is_ok());
        }
    }
}

/// Runs a program over an input behind which a read fails: what the program's side has sent, and
/// nobody has read, makes of the other side's end an error.
fn run_until_error(program: Command, input: &[u8]) -> Output {
    let (mut ours, mut theirs) = UnixStream::pair().expect("there are sockets");
    theirs.write_all(&[0]).expect("the socket takes a byte");
    let child = start(program, OwnedFd::from(theirs));
    ours.write_all(input).expect("the socket takes the input");
    drop(ours);
    child.wait_with_output().expect("the program ends")
}

/// What cannot be read whole is not judged; what lies behind the last byte that is read does not
/// matter. The files of a night are read to their end.
#[test]
fn programs_on_read_errors() {
    let console = console("errors");
    let longest = vec![0; MOST_BYTES];
    let (file, _) = full_size();
    let grant = folder().join("grant.index");
    let ways = || [Command::new(&console), indexing(&console), through(&console, &grant)];
    let list = folder().join("desk-night.list");
    let check_case = || Command::new(check_case());
    let cases = all().into_iter().map(|example| example.file);
    for input in cases.chain([vec![], longest, file]) {
        let output = run_until_error(check_case(), &input);
        assert_eq!(output.stderr, b"check_case: cannot read standard input\n");
        assert!(output.stdout.is_empty());
        for way in ways().into_iter().chain([at_night(&console, &list)]) {
            assert_trouble(&run_until_error(way, &input));
        }
    }
    for length in [720, 2 * (MOST_BYTES + 1) - 1, 2 * (MOST_BYTES + 1), 300_000] {
        let night = [desk_night().files, vec![0; length - 720]].concat();
        let words = assert_trouble(&run_until_error(at_night(&console, &list), &night));
        assert!(words.starts_with("standard input: "), "{words}");
    }
    let on_a_folder = start(check_case(), File::open("/").expect("it is there"));
    let output = on_a_folder.wait_with_output().expect("the program ends");
    assert!(output.stdout.is_empty() && !output.stderr.is_empty());
    let longer = vec![0; MOST_BYTES + 1];
    let text = printed(run_until_error(check_case(), &longer));
    assert_eq!(text, "case 47911\nrefused 1 0\n");
    for way in ways() {
        assert_eq!(run_until_error(way, &longer).status.code(), Some(2));
    }
}

/// The code of a file of the program, without comments, imports and contracts.
fn code(file: &str) -> String {
    let text = fs::read_to_string(project(&format!("crates/check_case/src/{file}.rt")));
    let text = text.expect("it is there");
    let other = ["//", "use ", "ghost use ", "requires ", "ensures "];
    let lines = text.lines().map(str::trim);
    let kept = lines.filter(|line| !other.iter().any(|start| line.starts_with(start)));
    kept.flat_map(|line| [line, "\n"]).collect()
}

/// What no contract can say of a call of the system is read off the source: there is one read, its answer
/// goes to `take_answer` and nobody else writes it, and what the program tells is all that it
/// writes on standard output.
#[test]
fn program_source() {
    let (input, main) = (code("input"), code("main"));
    let all = [&input, &main, &code("report"), &code("text")].map(String::as_str).concat();
    let count = |text: &str| all.matches(text).count();
    // The system is asked in one place, and the answer goes on as it is.
    assert_eq!((count("libc"), count("io::"), count("std::")), (0, 1, 0));
    assert_eq!((count(".read"), count("stdin."), count("stdin.read(")), (1, 1, 1));
    assert!(input.contains(
        "*got = number_of(stdin.read(piece));\ntake_answer(done, *got, piece, buffer)\n"
    ));
    assert_eq!(count("*got"), 2);
    assert_eq!(count("piece["), count("&piece[..more]") + count("&mut piece[..most]"));
    assert_eq!((count("Stdin"), count("&mut Stdin")), (4, 4));
    // Each is defined and called once.
    for function in
        ["number_of(", "take_answer(", "read_piece(", "read_on(", "read_case(", "judge_input("]
    {
        assert_eq!(count(function), 2, "{function}");
    }
    // Only `main` has the handle by which one writes, and it writes the text told, and two complaints.
    let (_, body) = main.split_once("fn main(rt: HostRuntime) {").expect("there is a main");
    assert_eq!((count("HostRuntime"), count("rt."), count("(rt;")), (1, 2, 2));
    assert_eq!((count("&rt"), count("write!"), count("writeln!")), (0, 0, 0));
    assert_eq!((count(".write"), count("print")), (1, 2));
    assert_eq!(body.matches("rt.write_all(&text[..end])").count(), 1);
    assert_eq!(body.matches("eprintln!(rt;").count(), 2);
}
