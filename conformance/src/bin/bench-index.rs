//! How long an index takes: building it, and a check through it, by the proved library and by the
//! separate checker, in turn, in one run. Beside them stands an index made from the log's bytes by a
//! `BTreeMap`, without a check.
//!
//! With the arguments CALL LOAD TIMES (`count-instructions` gives them) it only makes that call so
//! many times and prints nothing; with `loads` it lists the loads.

use std::collections::BTreeMap;
use std::env;
use std::hint::black_box;

use conformance::cases::ROOM;
use conformance::checker::{self, number_at, pair_at, Verdict};
use conformance::full_size::full_size;
use conformance::indexes::{as_built, due, MOST_ENTRIES};
use conformance::loads::index_loads;
use conformance::proved;
use conformance::timing::{best_in_turn, call_only, Call};

const RUNS: usize = 301;

/// A case file, its index, and what is lent.
struct Load {
    name: &'static str,
    file: Vec<u8>,
    index: Vec<u16>,
    index_room: Vec<u16>,
    room: Vec<u16>,
}

impl Load {
    /// Nothing that is timed is called here but the map.
    fn new(name: &'static str, file: Vec<u8>) -> Load {
        let (mut index, index_room) = (vec![0; MOST_ENTRIES], vec![0; MOST_ENTRIES]);
        let entries = by_a_map(&file, &mut index);
        index.truncate(entries);
        Load { name, file, index, index_room, room: vec![0; ROOM] }
    }

    /// Everybody has to say the same; what they say.
    fn verdict(&self) -> Verdict {
        assert_eq!(due(&self.file).as_ref(), Ok(&self.index), "{}", self.name);
        as_built(&self.file)
    }
}

fn all() -> Vec<Load> {
    let mut all: Vec<Load> = Vec::new();
    for load in index_loads() {
        all.push(Load::new(load.name, load.case.to_bytes()));
    }
    all.push(Load::new("full size, all rows cited", full_size().to_bytes()));
    all
}

/// The numbers of the part at this place.
fn part(file: &[u8], place: usize) -> impl Iterator<Item = u16> + '_ {
    let number = |at: usize| number_at(file, at) as usize;
    let (offset, length) = (number(pair_at(place)), number(pair_at(place) + 2));
    let pairs = file[offset..offset + length].chunks_exact(2);
    pairs.map(|pair| u16::from_le_bytes([pair[0], pair[1]]))
}

/// The index from the bytes of the log: no checks. Gives the entries written.
fn by_a_map(file: &[u8], index: &mut [u16]) -> usize {
    let mut lists: BTreeMap<u16, Vec<u16>> = BTreeMap::new();
    let (mut rows, mut observers) = (part(file, 1), part(file, 2));
    for row in 0.. {
        let (Some(_), Some(count)) = (rows.nth(1), rows.next()) else { break };
        for agent in observers.by_ref().take(count as usize) {
            lists.entry(agent).or_default().push(row);
        }
    }
    index[0] = lists.len() as u16;
    let mut end = 1 + 3 * lists.len();
    for (place, (agent, rows)) in lists.iter().enumerate() {
        let entry = [*agent, end as u16, rows.len() as u16];
        index[1 + 3 * place..][..3].copy_from_slice(&entry);
        index[end..end + rows.len()].copy_from_slice(rows);
        end += rows.len();
    }
    end
}

/// What is timed. The index and the room are as the last call left them.
const CALLS: [Call<Load>; 8] = [
    ("proved-index", |load| {
        _ = black_box(proved::build_index(black_box(&load.file), &mut load.index_room));
    }),
    ("separate-index", |load| {
        _ = black_box(checker::build_index(black_box(&load.file), &mut load.index_room));
    }),
    ("proved-admit", |load| _ = black_box(proved::admit(black_box(&load.file)))),
    ("map", |load| _ = black_box(by_a_map(black_box(&load.file), &mut load.index_room))),
    ("proved-through", |load| {
        let index = black_box(&load.index);
        _ = black_box(proved::check_indexed(black_box(&load.file), index, &mut load.room));
    }),
    ("proved-check", |load| {
        _ = black_box(proved::check(black_box(&load.file), &mut load.room));
    }),
    ("separate-through", |load| {
        let index = black_box(&load.index);
        _ = black_box(checker::check_indexed(black_box(&load.file), index, &mut load.room));
    }),
    ("separate-check", |load| {
        _ = black_box(checker::check(black_box(&load.file), &mut load.room));
    }),
];

/// The times of one load.
type Times = [f64; CALLS.len()];

fn print_building(load: &Load, [proved, separate, admit, map, ..]: Times) {
    let share = proved - admit;
    println!(
        "{:25} {:8} {proved:8.1} {separate:8.1} {:6.2} {admit:8.1} {share:8.1} {map:8.1} {:10.2} {:11.2}",
        load.name,
        load.index.len(),
        separate / proved,
        share / map,
        proved / map
    );
}

fn print_checking(load: &Load, verdict: Verdict, times: Times) {
    let [.., map, through, without, separate, plain] = times;
    let verifying = through - without;
    println!(
        "{:25}  {:16} {through:9.1} {without:8.1} {:6.2} {verifying:10.1} {:14.2} {separate:17.1} {plain:8.1}",
        load.name,
        verdict.to_string(),
        through / without,
        verifying / map
    );
}

fn compare() {
    let mut loads = all();
    let verdicts: Vec<Verdict> = loads.iter().map(Load::verdict).collect();
    let times = |load: &mut Load| best_in_turn(load, CALLS, RUNS);
    let found: Vec<Times> = loads.iter_mut().map(times).collect();
    println!("The best of {RUNS} runs in turn, in microseconds; the files are in the cache.\n");
    println!(
        "Building: checks 1 to 5, and the index. The index's share is the proved call less admit,"
    );
    println!("which has checks 6 to 9 in it too. The map makes no checks.");
    println!("load                       entries   proved separate  ratio    admit    share      map  share/map  proved/map");
    for (load, times) in loads.iter().zip(&found) {
        print_building(load, *times);
    }
    println!("\nChecking. Verifying is the proved check through the index less the one without.");
    println!("load                       verdict            through  without  ratio  verifying  verifying/map  separate through  without");
    for ((load, verdict), times) in loads.iter().zip(verdicts).zip(&found) {
        print_checking(load, verdict, *times);
    }
}

/// The load of this name.
fn load(name: &str) -> Load {
    all().into_iter().find(|known| known.name == name).expect("there is such a load")
}

fn main() {
    let arguments: Vec<String> = env::args().skip(1).collect();
    let words: Vec<&str> = arguments.iter().map(String::as_str).collect();
    match words[..] {
        [] => compare(),
        ["loads"] => all().iter().for_each(|load| println!("{}", load.name)),
        [call, name, times] => {
            call_only(&CALLS, call, &mut load(name), times.parse().expect("a number of calls"));
        }
        _ => panic!("give nothing, `loads`, or a call, a load and a number of calls"),
    }
}
