//! How long a check takes: the proved checker and the separate one, in turn, in one run.
//!
//! With the arguments CHECKER LOAD CHECKS (`count-instructions` gives them) it only checks that
//! load so many times and prints nothing; with `loads` it lists the loads.

use std::env;
use std::hint::black_box;
use std::time::Instant;

use conformance::cases::ROOM;
use conformance::checker::{self, Verdict};
use conformance::examples;
use conformance::loads::{eighths, loads};
use conformance::proved;
use conformance::rooms::Checker;

const RUNS: usize = 301;
/// A run checks a short load so often that it takes about this long, in microseconds.
const RUN: f64 = 50.0;

/// Case files that are checked one after the other.
struct Load {
    name: String,
    files: Vec<Vec<u8>>,
}

impl Load {
    fn new(name: &str, files: Vec<Vec<u8>>) -> Load {
        Load { name: name.to_string(), files }
    }

    fn bytes(&self) -> usize {
        self.files.iter().map(Vec::len).sum()
    }

    /// Checks each file. The room is as the last check left it.
    fn check(&self, check: Checker, room: &mut [u16]) {
        for file in &self.files {
            black_box(check(black_box(file), room));
        }
    }

    /// Both checkers have to say the same; what they say.
    fn verdict(&self) -> String {
        let verdict = |check: Checker| -> Vec<Verdict> {
            self.files.iter().map(|file| check(file, &mut [0; ROOM])).collect()
        };
        let verdicts = verdict(proved::check);
        assert_eq!(verdicts, verdict(checker::check), "{}", self.name);
        match verdicts[..] {
            [verdict] => verdict.to_string(),
            _ => format!("{} files", verdicts.len()),
        }
    }
}

fn all() -> Vec<Load> {
    let (mut grant, mut papers) = (Vec::new(), Vec::new());
    for example in examples::all() {
        match example.name.as_bytes()[0] {
            b'0' => papers.push(example.file),
            _ if example.name == "grant" => grant.push(example.file),
            _ => (),
        }
    }
    let mut all = vec![Load::new("Grant", grant), Load::new("the papers' examples", papers)];
    for load in loads() {
        all.push(Load::new(load.name, vec![load.case.to_bytes()]));
    }
    for count in [1, 2, 4, 8] {
        all.push(Load::new(&format!("{count}/8 of the size"), vec![eighths(count).to_bytes()]));
    }
    all
}

fn median(mut times: Vec<f64>) -> f64 {
    times.sort_by(f64::total_cmp);
    times[times.len() / 2]
}

/// Microseconds of so many checks.
fn time(load: &Load, check: Checker, times: usize, room: &mut [u16]) -> f64 {
    let start = Instant::now();
    for _ in 0..times {
        load.check(check, room);
    }
    start.elapsed().as_secs_f64() * 1e6
}

/// Microseconds of one check by each: the medians of runs in turn, after one run of each that is
/// not counted.
fn times(load: &Load) -> [f64; 2] {
    let checkers: [Checker; 2] = [proved::check, checker::check];
    let mut room = [0; ROOM];
    let once = checkers.map(|check| time(load, check, 1, &mut room));
    let often = once.map(|time| (RUN / time).ceil() as usize);
    let mut found = [Vec::new(), Vec::new()];
    for _ in 0..RUNS {
        for side in 0..2 {
            let run = time(load, checkers[side], often[side], &mut room);
            found[side].push(run / often[side] as f64);
        }
    }
    found.map(median)
}

fn compare() {
    println!("Medians of {RUNS} runs in turn. The files are in the cache; the room of {ROOM}");
    println!("entries is not cleared between checks. The ratio is separate to proved.\n");
    println!("load                          bytes  verdict            proved us  separate us  ratio  proved ns/byte");
    for load in all() {
        let (verdict, bytes) = (load.verdict(), load.bytes());
        let [proved, separate] = times(&load);
        println!(
            "{:28} {bytes:6}  {verdict:16} {proved:11.2} {separate:12.2} {:6.1} {:15.2}",
            load.name,
            separate / proved,
            1e3 * proved / bytes as f64
        );
    }
}

/// Checks a load so many times; none makes the load and checks nothing.
fn check_only(check: Checker, name: &str, times: usize) {
    let load = all().into_iter().find(|load| load.name == name).expect("there is such a load");
    let mut room = [0; ROOM];
    for _ in 0..times {
        load.check(check, &mut room);
    }
}

fn main() {
    let arguments: Vec<String> = env::args().skip(1).collect();
    let words: Vec<&str> = arguments.iter().map(String::as_str).collect();
    let number = |text: &str| text.parse().expect("a number of checks");
    match words[..] {
        [] => compare(),
        ["loads"] => all().iter().for_each(|load| println!("{}", load.name)),
        ["proved", load, checks] => check_only(proved::check, load, number(checks)),
        ["separate", load, checks] => check_only(checker::check, load, number(checks)),
        _ => panic!("give nothing, `loads`, or a checker, a load and a number of checks"),
    }
}
