//! The proved library under attack, as far as no more than a C compiler is needed: guard pages
//! around all that is lent, and eight threads at once. `attack/run` has the rest; the nights that its
//! fuzzer is given are tried here.

use std::io::Write;
use std::path::{Path, PathBuf};
use std::process::{Command, Output, Stdio};
use std::sync::Barrier;
use std::thread;

use conformance::builder::{user_action, CaseFile};
use conformance::cases::ROOM;
use conformance::checker::{self, ABSENT, NIGHT};
use conformance::columns::{self, book_of, lent, Sizer};
use conformance::examples::example;
use conformance::indexes::{building, through, Builder, IndexedChecker, MOST_ENTRIES};
use conformance::night_inputs::{as_it_stands, in_order, mutated_night, night_of};
use conformance::nights::{bad_pair, list_of, outcome, Files, Night, Pair};
use conformance::pack::{known_files, known_nights, night_record};
use conformance::pack::{random_file, random_night, record};
use conformance::proved;
use conformance::random::{damage, Random};
use conformance::rooms::{answer, Checker};

// ---- Harnesses ----

/// What the C compiler makes of this, with paths from `attack/`, under this name.
fn built(name: &str, arguments: &[&str]) -> PathBuf {
    let built = Path::new(env!("CARGO_TARGET_TMPDIR")).join(name);
    let mut compiler = Command::new("cc");
    compiler.current_dir(Path::new(env!("CARGO_MANIFEST_DIR")).join("attack"));
    compiler.args(["-std=c99", "-O1", "-Wall", "-Wextra", "-Wpedantic", "-Werror"]);
    compiler.arg("-I../../include").args(arguments).arg("-o").arg(&built);
    let output = compiler.output().expect("the compiler starts");
    assert!(output.status.success(), "{}", String::from_utf8_lossy(&output.stderr));
    built
}

/// Runs a harness over these records.
fn run(harness: &Path, records: impl Iterator<Item = Vec<u8>>) -> Output {
    let mut command = Command::new(harness);
    command.stdin(Stdio::piped()).stdout(Stdio::piped()).stderr(Stdio::piped());
    let mut child = command.spawn().expect("the harness starts");
    let mut stdin = child.stdin.take().expect("standard input is a pipe");
    for record in records {
        // A harness that has found a fault reads no more.
        let _ = stdin.write_all(&record);
    }
    drop(stdin);
    child.wait_with_output().expect("the harness ends")
}

/// This harness over the proved library finds nothing in these records, and says that it has read
/// them all.
fn finds_nothing(harness: &str, records: impl ExactSizeIterator<Item = Vec<u8>>, said: &str) {
    let source = format!("{harness}.c");
    let library = "../../target/staticlib/libjustification.a";
    let (program, count) = (built(harness, &[&source, "areas.c", library]), records.len());
    let output = run(&program, records);
    let text = String::from_utf8_lossy(&output.stdout);
    assert!(output.status.success(), "{}", String::from_utf8_lossy(&output.stderr));
    assert!(text.starts_with(&format!("{count} {said}, ")), "{text}");
}

/// Each of so many faults of a stand-in is caught by this harness, by what it compares (1), if it is
/// one of these, or else by a guard page (2); and no fault is none.
fn catches(
    harness: &str,
    stand_in: &str,
    faults: usize,
    compared: fn(usize) -> bool,
    records: &[Vec<u8>],
) {
    let object = built(&format!("{harness}.o"), &["-r", &format!("{harness}.c"), "areas.c"]);
    let object = object.to_str().expect("its name is text");
    for fault in 0..=faults {
        let define = format!("-DFAULT={fault}");
        let program = built(&format!("{harness}-{fault}"), &[&define, object, stand_in]);
        let status = match fault {
            0 => 0,
            _ if compared(fault) => 1,
            _ => 2,
        };
        let found = run(&program, records.iter().cloned()).status.code();
        assert_eq!(found, Some(status), "fault {fault}");
    }
}

// ---- Case files ----

/// The known files, and random ones.
fn files(seed: u64, count: usize) -> Vec<Vec<u8>> {
    let mut random = Random(seed);
    let files = (0..count).map(|_| random_file(&mut random));
    known_files().into_iter().chain(files).collect()
}

#[test]
fn guard_pages() {
    let files = files(0xD1B5_4A32_D192_ED03, 20_000);
    finds_nothing("guard", files.iter().map(|file| record(file)), "files");
}

/// The files that `attack/faulty.c` knows. Agent 1 owes nothing for what agent 0 has done; in the
/// second one it has a duty that is expired and not done.
fn known_to_the_stand_in() -> [CaseFile; 2] {
    let case = CaseFile::new(1).formula("0 acts", user_action(0, &[0])).audits("0 acts");
    let case = case.row("0 acts", &[0]);
    [case.clone(), case.expired(1, "0 acts", ABSENT)]
}

#[test]
fn guard_pages_catch_faults() {
    let known = known_to_the_stand_in().map(|case| case.to_bytes());
    let files = [vec![0]].into_iter().chain(known);
    let records: Vec<Vec<u8>> = files.map(|file| record(&file)).collect();
    let compared = |fault| matches!(fault, 5 | 7 | 11..=13 | 17..=20 | 22..=24 | 31..=36 | 38..=42);
    catches("guard", "faulty.c", 42, compared, &records);
}

// ---- Nights ----

/// The known nights, and random ones.
fn nights(seed: u64, count: usize) -> Vec<Night> {
    let mut random = Random(seed);
    let mut files = Files::new(&mut random);
    let nights = (0..count).map(|_| random_night(&mut files, &mut random));
    known_nights().into_iter().chain(nights).collect()
}

#[test]
fn guard_pages_of_nights() {
    let nights = nights(0x3C6E_F372_FE94_F82B, 5_000);
    finds_nothing("guard-night", nights.iter().map(night_record), "nights");
}

/// Nights of files that `attack/faulty-night.c` knows. Some have lists that 33 refuses: each way to
/// it, and two at once.
fn nights_known_to_the_stand_in() -> Vec<Night> {
    let [grant, twice, creator] =
        ["grant", "twice-second-obligation", "creator"].map(|name| example(name).file);
    let (short, empty) = (vec![7; 5], Vec::new());
    let mixed = [&grant, &short, &creator, &twice, &empty, &grant];
    let mixed = Night::of(&mixed, || vec![1, 2, 3]);
    let adjoining = Night::of(&[&twice, &grant], Vec::new);
    let without_pass = Night::of(&[&short, &creator, &empty], || vec![1]);
    let many =
        |count: usize| Night::of(&[vec![&empty; count - 1], vec![&grant]].concat(), Vec::new);
    let none = Night { files: grant.clone(), list: Vec::new() };
    let bytes = mixed.files.len() as u32;
    let with = |pairs: &[Pair]| Night { files: mixed.files.clone(), list: list_of(pairs) };
    let bad = [
        with(&[(3, 108), (110, 5), (200, 86), (bytes - 2, 3)]),
        with(&[(3, 108), (120, 0), (115, 5)]),
        with(&[(3, 108), (114, bytes - 113)]),
        with(&[(3, 108), (114, u32::MAX - 3)]),
        with(&[(3, 108), (65_536 + 114, 5)]),
        Night { list: mixed.list[..8 * 6 - 1].to_vec(), ..mixed.clone() },
    ];
    let good = [mixed.clone(), adjoining, without_pass, many(NIGHT), many(NIGHT + 1), none];
    good.into_iter().chain(bad).collect()
}

#[test]
fn guard_pages_catch_faults_of_nights() {
    let records: Vec<Vec<u8>> = nights_known_to_the_stand_in().iter().map(night_record).collect();
    let compared =
        |fault| matches!(fault, 8 | 10..=14 | 16..=23 | 27 | 28 | 32 | 34 | 37..=45 | 47..=52);
    catches("guard-night", "faulty-night.c", 52, compared, &records);
}

// ---- Threads ----

/// What is compared.
struct Checkers {
    check: Checker,
    sizer: Sizer,
    build: Builder,
    check_indexed: IndexedChecker,
}

const SEPARATE: Checkers = Checkers {
    check: checker::check,
    sizer: checker::size_column,
    build: checker::build_index,
    check_indexed: checker::check_indexed,
};

const PROVED: Checkers = Checkers {
    check: proved::check,
    sizer: proved::size_column,
    build: proved::build_index,
    check_indexed: proved::check_indexed,
};

/// Eight threads start each of these at once: in turn all the same one, and each one of its own. What
/// they say is what is due.
fn on_eight_threads<T: Sync, A: PartialEq + Send + Sync>(
    all: &[T],
    due: impl Fn(&T) -> A,
    said: impl Fn(&T) -> A + Sync,
) {
    const THREADS: usize = 8;
    let expected: Vec<A> = all.iter().map(due).collect();
    let barrier = Barrier::new(THREADS);
    let differing = |thread: usize| {
        let check = |turn: usize| {
            let at = (turn + turn % 2 * thread * 37) % all.len();
            barrier.wait();
            (said(&all[at]) != expected[at]).then_some(at)
        };
        (0..all.len()).filter_map(check).collect::<Vec<usize>>()
    };
    thread::scope(|scope| {
        let start = |thread| scope.spawn(move || differing(thread));
        let threads: Vec<_> = (0..THREADS).map(start).collect();
        for thread in threads {
            assert_eq!(thread.join().expect("the thread ends"), Vec::<usize>::new());
        }
    });
}

#[test]
fn eight_threads() {
    let said = |checkers: &Checkers, file: &[u8]| {
        let (index, room) = building(checkers.build, file, MOST_ENTRIES);
        let verdict = through(checkers.check_indexed, file, &room, ROOM);
        let sizes = columns::answer(checkers.sizer, book_of(file), lent());
        (answer(checkers.check, file, ROOM), sizes, index, room, verdict)
    };
    let files = files(0xA076_1D64_78BD_642F, 2_000);
    on_eight_threads(&files, |file| said(&SEPARATE, file), |file| said(&PROVED, file));
}

/// The files and the list are lent to all threads at once.
#[test]
fn eight_threads_on_nights() {
    let said = |check, night: &Night| outcome(check, &night.files, &night.list, 2 * ROOM);
    let nights = nights(0xA54F_F53A_5F1D_36F1, 2_000);
    let separate = |night: &Night| said(checker::check_night, night);
    on_eight_threads(&nights, separate, |night| said(proved::check_night, night));
}

// ---- The fuzzer's inputs ----

/// Inputs tell the nights that they are written from. In the second form the list is in order, whatever
/// the bytes, up to the 65th pair. Changed ones tell nights too, with 33 and without.
#[test]
fn nights_as_inputs() {
    let mut random = Random(0x1F83_D9AB_FB41_BD6B);
    let (mut ordered, mut refused) = (0, [0; 2]);
    let answer = |night: &Night| outcome(checker::check_night, &night.files, &night.list, 0).answer;
    for night in nights(0x5BE0_CD19_137E_2179, 5_000) {
        let input = as_it_stands(&night).expect("the list has under 64 KiB");
        assert!(night_of(&input).as_ref() == Some(&night));
        let changed = mutated_night(&input, &mut random).expect("it tells a night");
        let changed = night_of(&changed).expect("it tells one still");
        refused[usize::from(answer(&changed).is_err())] += 1;
        let Some(input) = in_order(&night) else { continue };
        assert!(night_of(&input).as_ref() == Some(&night));
        let other = [&input[..1], &damage(&input[1..], &mut random)].concat();
        if let Some(other) = night_of(&other) {
            let answer = answer(&other);
            assert!(answer.is_ok() || answer == Err(bad_pair(NIGHT)), "{answer:?}");
            ordered += 1;
        }
    }
    println!("{ordered} in order; changed: {refused:?}");
    assert!(
        ordered > 2_000 && refused.iter().all(|count| *count > 1_000),
        "{ordered}, {refused:?}"
    );
}
