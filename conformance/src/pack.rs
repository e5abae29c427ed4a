//! Case files with what the separate checker says of them, of their books and of their logs, and
//! nights with what it says of them, as records for `attack/guard.c` and `attack/guard-night.c`, which
//! share nothing with the proved library's Rust side.

use crate::cases::{examples_and_vectors, grant, night_vectors, ROOM};
use crate::checker::{check, check_night, size_column, Refusal, Verdict, NIGHT};
use crate::columns::{answer, book_of};
use crate::damages::damaged;
use crate::examples;
use crate::full_size::{full_size, largest};
use crate::indexes::due;
use crate::justifications::{failing_duties, passing, slipping};
use crate::loads::{index_loads, loads};
use crate::nights::{random_count, random_gap, Files, Night};
use crate::old_layout::old_vectors;
use crate::random::{damage, Random};
use crate::wrong_lists::change_list;

// ---- Case files ----

/// The examples, the vectors, those of the old layout too, the loads, the largest file, and that with
/// a byte more.
pub fn known_files() -> Vec<Vec<u8>> {
    let vectors = examples_and_vectors().into_iter().chain(examples::all()).chain(old_vectors());
    let largest = largest().to_bytes();
    let larger = [&largest[..], &[0]].concat();
    vectors.map(|vector| vector.file).chain(load_files()).chain([largest, larger]).collect()
}

fn load_files() -> impl Iterator<Item = Vec<u8>> {
    loads().into_iter().chain(index_loads()).map(|load| load.case.to_bytes())
}

/// A random justification: it passes, it has a slip, its duties fail, or a field or any bytes are
/// damaged.
pub fn random_file(random: &mut Random) -> Vec<u8> {
    match random.below(9) {
        0 | 1 => passing(random).to_bytes(),
        2 => slipping(random).to_bytes(),
        3 | 4 => damage(&passing(random).to_bytes(), random),
        5 => (0..random.below(100)).map(|_| random.below(256) as u8).collect(),
        6 => failing_duties(random).to_bytes(),
        _ => damaged(&passing(random), random).1,
    }
}

/// A record: the file's, its book's, and that of its log's index.
pub fn record(file: &[u8]) -> Vec<u8> {
    [file_record(file), book_record(book_of(file)), index_record(file)].concat()
}

/// The file's length, the verdict in three numbers, the entries listed, the file.
fn file_record(file: &[u8]) -> Vec<u8> {
    let mut room = [0; ROOM];
    let (numbers, listed) = match check(file, &mut room) {
        Verdict::Passed { obligations, rows } => ([0, obligations, rows], obligations + rows),
        Verdict::NoneOwed => ([1, 0, 0], 0),
        Verdict::Refused { number, place } => ([2, number, place], 0),
    };
    let length = u16::try_from(file.len()).expect("a file has under 64 KiB");
    let head = [length].into_iter().chain(numbers);
    let words = head.chain(room[..listed as usize].iter().copied());
    words.flat_map(u16::to_le_bytes).chain(file.iter().copied()).collect()
}

/// The book's length, the answer in two numbers, how many sizes are told, the sizes, the book. No
/// size is 0, so the bytes that stay 0 are not told.
fn book_record(book: &[u8]) -> Vec<u8> {
    let (admitted, column) = answer(size_column, book, [0; 1_024]);
    let (number, place) =
        admitted.map_or_else(|refusal| (refusal.number, refusal.place), |()| (0, 0));
    let sizes: Vec<u8> = column.into_iter().take_while(|size| *size > 0).collect();
    let words = [book.len() as u16, number, place, sizes.len() as u16];
    words.into_iter().flat_map(u16::to_le_bytes).chain(sizes).chain(book.iter().copied()).collect()
}

/// The answer of building in three numbers, and the index.
fn index_record(file: &[u8]) -> Vec<u8> {
    let due = due(file);
    let numbers = in_numbers(due.as_ref().map(Vec::len).map_err(|refusal| *refusal));
    numbers.into_iter().chain(due.unwrap_or_default()).flat_map(u16::to_le_bytes).collect()
}

/// A count or a refusal in three numbers.
fn in_numbers(answer: Result<usize, Refusal>) -> [u16; 3] {
    match answer {
        Ok(count) => [0, count as u16, 0],
        Err(Refusal { number, place }) => [2, number, place],
    }
}

// ---- Nights ----

/// The entries that no night needs more of.
const LONGEST: usize = NIGHT * ROOM;

/// The vectors; the examples; the loads; 64 files of full size; no files, and one that no pair names;
/// as many empty files as there may be, and one more.
pub fn known_nights() -> Vec<Night> {
    let vectors = night_vectors().into_iter();
    let vectors = vectors.map(|vector| Night { files: vector.files, list: vector.list });
    let files: Vec<Vec<u8>> = examples::all().into_iter().map(|example| example.file).collect();
    let mut random = Random(0xBB67_AE85_84CA_A73B);
    let examples = files.chunks(NIGHT).map(|files| Night::of(files, || random_gap(&mut random)));
    let loads: Vec<Vec<u8>> = load_files().collect();
    let empty = |count: usize| Night::of(&vec![Vec::new(); count], || vec![0]);
    let others = [
        Night::of(&loads, Vec::new),
        Night::of(&vec![full_size().to_bytes(); NIGHT], Vec::new),
        Night { files: Vec::new(), list: Vec::new() },
        Night { files: grant().to_bytes(), list: Vec::new() },
        empty(NIGHT),
        empty(NIGHT + 1),
    ];
    vectors.chain(examples).chain(others).collect()
}

/// A random night. In every second one the list is changed, most often so that 33 comes.
pub fn random_night(files: &mut Files, random: &mut Random) -> Night {
    let count = random_count(random);
    let mut night = files.night(count, random);
    if random.one_in(2) {
        change_list(&mut night, random);
    }
    night
}

/// A record of a night: the bytes of the files and of the list, the answer in three numbers, how many
/// rooms are told, the files, the list, and each room, the longest one last. Counts of bytes and
/// entries have 32 bits.
pub fn night_record(night: &Night) -> Vec<u8> {
    let needed = night.needed();
    let more = (needed + 5).min(LONGEST);
    let mut rooms = vec![0, needed / 2, needed.saturating_sub(1), needed, more, LONGEST];
    rooms.dedup();
    let told: Vec<Told> = rooms.into_iter().map(|entries| Told::of(night, entries)).collect();
    let answer = in_numbers(told[0].answer.map(usize::from));
    let words = answer.into_iter().chain([told.len() as u16]);
    let mut record = [night.files.len(), night.list.len()].map(long).concat();
    record.extend(words.flat_map(u16::to_le_bytes));
    record.extend(night.files.iter().chain(&night.list));
    record.extend(told.iter().flat_map(Told::record));
    record
}

/// What the separate checker says of a night in a room of so many entries.
struct Told {
    entries: usize,
    answer: Result<u16, Refusal>,
    verdicts: Vec<[u16; 3]>,
    written: Vec<u16>,
}

impl Told {
    fn of(night: &Night, entries: usize) -> Told {
        let (mut table, mut room) = ([[0; 3]; NIGHT], vec![0; entries]);
        let answer = check_night(&night.files, &night.list, &mut table, &mut room);
        let verdicts = table[..answer.unwrap_or(0) as usize].to_vec();
        let listed = |verdict: &[u16; 3]| match *verdict {
            [0, obligations, rows] => obligations as usize + rows as usize,
            _ => 0,
        };
        room.truncate(verdicts.iter().map(listed).sum());
        Told { entries, answer, verdicts, written: room }
    }

    /// The entries lent, the entries written, the verdicts, and what is written.
    fn record(&self) -> Vec<u8> {
        let words = self.verdicts.iter().flatten().chain(&self.written);
        let counts = [self.entries, self.written.len()].map(long).concat();
        counts.into_iter().chain(words.flat_map(|word| word.to_le_bytes())).collect()
    }
}

fn long(number: usize) -> [u8; 4] {
    u32::try_from(number).expect("it has 32 bits").to_le_bytes()
}
