//! How long a night takes: one call for 64 files, against a call of the plain check for each of them,
//! and against the separate checker, in turn, in one run. And how long the console takes for many
//! files in one command, against programs that are started for each file.
//!
//! With the arguments CALL LOAD TIMES (`count-instructions` gives them) it only makes that call so
//! many times and prints nothing; with `loads` it lists the loads; with `programs CONSOLE PROGRAM` it
//! times only these two, which are else `target/console` and `target/bin/check_case`.

use std::env;
use std::fs::{self, File};
use std::hint::black_box;
use std::io;
use std::ops::Range;
use std::path::{Path, PathBuf};
use std::process::{self, Command, Stdio};
use std::time::Instant;

use conformance::cases::{grant, ROOM};
use conformance::checker::{self, Table, Verdict, NIGHT};
use conformance::examples;
use conformance::full_size::full_size;
use conformance::nights::{checked, list_of, Night, Pair};
use conformance::proved;
use conformance::rooms::entries_of;
use conformance::timing::{best_in_turn, call_only, Call};

// ---- The library ----

const RUNS: usize = 101;

/// The entries of the room, of which no night needs more.
const ENTRIES: usize = NIGHT * ROOM;

/// A night, and what is lent.
struct Load {
    name: &'static str,
    night: Night,
    /// Where each file lies; none where the list is refused.
    files: Vec<Range<usize>>,
    table: Table,
    verdicts: [Verdict; NIGHT],
    room: Vec<u16>,
}

impl Load {
    /// Nothing that is timed is called here.
    fn new(name: &'static str, files: &[Vec<u8>]) -> Load {
        let night = Night::of(files, Vec::new);
        let range = |(offset, length): Pair| offset as usize..offset as usize + length as usize;
        let files = night.pairs().into_iter().map(range).collect();
        let (table, verdicts) = ([[0; 3]; NIGHT], [Verdict::NoneOwed; NIGHT]);
        Load { name, night, files, table, verdicts, room: vec![0; ENTRIES] }
    }

    /// The same files, but the last pair ends beyond them.
    fn refused(name: &'static str, files: &[Vec<u8>]) -> Load {
        let mut load = Load::new(name, files);
        let mut pairs = load.night.pairs();
        pairs[NIGHT - 1].1 += 1;
        load.night.list = list_of(&pairs);
        load.files.clear();
        load
    }

    /// A plain check of each file, with the part of the room that the passes before it leave.
    fn check_each(&mut self) {
        let mut written = 0;
        for (range, told) in self.files.iter().zip(&mut self.verdicts) {
            let file = black_box(&self.night.files[range.clone()]);
            *told = proved::check(file, &mut self.room[written..]);
            written += entries_of(*told);
        }
        black_box(&self.verdicts);
    }

    /// Everybody has to say the same.
    fn check_answers(&mut self) {
        let expected = checked(&self.night, ENTRIES);
        assert_eq!(expected.answer.unwrap_or(0) as usize, self.files.len(), "{}", self.name);
        self.check_each();
        assert_eq!(expected.verdicts(), self.verdicts[..self.files.len()], "{}", self.name);
    }
}

fn all() -> Vec<Load> {
    let examples = examples::all();
    let files = |wanted: fn(Verdict) -> bool| -> Vec<Vec<u8>> {
        let wanted = examples.iter().filter(|example| wanted(example.verdict));
        wanted.cycle().take(NIGHT).map(|example| example.file.clone()).collect()
    };
    let grants = vec![grant().to_bytes(); NIGHT];
    vec![
        Load::new("Grant", &grants),
        Load::new("examples", &files(|_| true)),
        Load::new("refused examples", &files(|verdict| matches!(verdict, Verdict::Refused { .. }))),
        Load::new("full size", &vec![full_size().to_bytes(); NIGHT]),
        Load::new("empty files", &vec![Vec::new(); NIGHT]),
        Load::refused("Grant, 33 at the last", &grants),
    ]
}

/// The load of this name.
fn load(name: &str) -> Load {
    all().into_iter().find(|known| known.name == name).expect("there is such a load")
}

/// What is timed. The table and the room are as the last call left them.
const CALLS: [Call<Load>; 3] = [
    ("proved-night", |load| {
        let Night { files, list } = black_box(&load.night);
        _ = black_box(proved::check_night(files, list, &mut load.table, &mut load.room));
    }),
    ("proved-checks", Load::check_each),
    ("separate-night", |load| {
        let Night { files, list } = black_box(&load.night);
        _ = black_box(checker::check_night(files, list, &mut load.table, &mut load.room));
    }),
];

fn compare() {
    println!("The best of {RUNS} runs in turn, in microseconds. The files are in the cache; the");
    println!(
        "table of {NIGHT} verdicts and the room of {ENTRIES} entries are not cleared. Calls are"
    );
    println!(
        "of the plain check, one for each of {NIGHT} files, on the same bytes and the same parts"
    );
    println!("of the room.\n");
    println!("load                       bytes     night     calls  night/calls  separate  separate/night");
    for mut load in all() {
        load.check_answers();
        let [night, calls, separate] = best_in_turn(&mut load, CALLS, RUNS);
        let (calls, ratio) = match load.files.len() {
            0 => ("-".to_string(), "-".to_string()),
            _ => (format!("{calls:.2}"), format!("{:.3}", night / calls)),
        };
        println!(
            "{:22} {:9} {night:9.2} {calls:>9} {ratio:>12} {separate:9.1} {:15.1}",
            load.name,
            load.night.files.len(),
            separate / night
        );
    }
}

// ---- The programs ----

/// The examples again and again, up to so many files.
const FILES: usize = 1_000;

/// How often each way is tried.
const TRIES: usize = 5;

/// A folder of these files, which goes at the end.
struct Folder(PathBuf);

impl Folder {
    fn new() -> io::Result<Folder> {
        let folder = Folder(env::temp_dir().join(format!("bench-night-{}", process::id())));
        fs::create_dir(&folder.0)?;
        for (path, example) in folder.paths().iter().zip(examples::all().iter().cycle()) {
            fs::write(path, &example.file)?;
        }
        Ok(folder)
    }

    fn paths(&self) -> Vec<PathBuf> {
        (0..FILES).map(|number| self.0.join(format!("{number:03}.case"))).collect()
    }
}

impl Drop for Folder {
    fn drop(&mut self) {
        _ = fs::remove_dir_all(&self.0);
    }
}

/// A way to have files checked by a program.
type Way = fn(&Path, &[PathBuf]);

/// The console takes names.
const BY_NAMES: [(&str, Way); 3] = [
    ("console, one command", |program, files| run(Command::new(program).args(files))),
    ("console, a command for each", |program, files| {
        files.iter().for_each(|file| run(Command::new(program).arg(file)));
    }),
    ("console, the same in a shell", |program, files| {
        run_in_shell("for file do \"$0\" \"$file\"; done", program, files);
    }),
];

/// The program of document 01 reads standard input.
const BY_INPUT: [(&str, Way); 2] = [
    ("check_case, a command for each", |program, files| {
        let open = |file: &PathBuf| File::open(file).expect("it was written");
        files.iter().for_each(|file| run(Command::new(program).stdin(open(file))));
    }),
    ("check_case, the same in a shell", |program, files| {
        run_in_shell("for file do \"$0\" < \"$file\"; done", program, files);
    }),
];

/// Waits for the end of a command, of which nobody reads the output.
fn run(command: &mut Command) {
    command.stdout(Stdio::null()).status().expect("it starts");
}

fn run_in_shell(script: &str, program: &Path, files: &[PathBuf]) {
    run(Command::new("sh").args(["-c", script]).arg(program).args(files));
}

/// The console's last line has to count the verdicts of the examples.
fn check_counts(console: &Path, files: &[PathBuf]) {
    let output = Command::new(console).args(files).output().expect("the console starts");
    let text = String::from_utf8_lossy(&output.stdout);
    let examples = examples::all();
    let verdicts = examples.iter().map(|example| example.verdict).cycle().take(FILES);
    let verdicts: Vec<Verdict> = verdicts.collect();
    let count = |wanted: fn(&&Verdict) -> bool| verdicts.iter().filter(wanted).count();
    let passed = count(|verdict| matches!(verdict, Verdict::Passed { .. }));
    let none_owed = count(|verdict| **verdict == Verdict::NoneOwed);
    let refused = FILES - passed - none_owed;
    let due = format!("{passed} passed, {none_owed} none owed, {refused} refused");
    assert_eq!(text.lines().last(), Some(&due[..]));
}

/// Ways in turn, with their names and programs: the best time of each, in milliseconds, for all files
/// and for one, and how often the first one's it is.
fn print_ways(ways: &[(&str, Way, &Path)], files: &[PathBuf]) {
    let mut best = vec![f64::INFINITY; ways.len()];
    for _ in 0..TRIES {
        for (time, (_, way, program)) in best.iter_mut().zip(ways) {
            let start = Instant::now();
            way(program, files);
            *time = time.min(start.elapsed().as_secs_f64() * 1e3);
        }
    }
    println!("\n{FILES} files, the best of {TRIES} tries in turn, in milliseconds. The output is not read.");
    println!("\nway                                   all       each    ratio");
    for ((name, ..), time) in ways.iter().zip(&best) {
        println!("{name:31} {time:9.1} {:10.4} {:8.1}", time / FILES as f64, time / best[0]);
    }
}

/// What is not built is named and passed over.
fn compare_programs(console: &Path, program: &Path) -> io::Result<()> {
    if !console.is_file() {
        println!("\nNo console is built: the programs are not timed.");
        return Ok(());
    }
    let folder = Folder::new()?;
    let files = folder.paths();
    check_counts(console, &files);
    let mut ways: Vec<_> = BY_NAMES.map(|(name, way)| (name, way, console)).to_vec();
    match program.is_file() {
        true => ways.extend(BY_INPUT.map(|(name, way)| (name, way, program))),
        false => println!("\nNo check_case is built: it is not timed."),
    }
    print_ways(&ways, &files);
    Ok(())
}

fn main() -> io::Result<()> {
    let arguments: Vec<String> = env::args().skip(1).collect();
    let words: Vec<&str> = arguments.iter().map(String::as_str).collect();
    let target = Path::new(env!("CARGO_MANIFEST_DIR")).join("../target");
    match words[..] {
        [] => {
            compare();
            compare_programs(&target.join("console"), &target.join("bin/check_case"))?;
        }
        ["loads"] => all().iter().for_each(|load| println!("{}", load.name)),
        ["programs", console, program] => {
            compare_programs(Path::new(console), Path::new(program))?;
        }
        [call, name, times] => {
            call_only(&CALLS, call, &mut load(name), times.parse().expect("a number of calls"));
        }
        _ => panic!("give nothing, `loads`, `programs` and two, or a call, a load and a number"),
    }
    Ok(())
}
