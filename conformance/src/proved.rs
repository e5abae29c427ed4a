//! The proved library, behind safe functions. Nothing checks these declarations against the
//! library's source, so they are few.

use crate::checker::{Refusal, Table, Verdict};

#[repr(C)]
struct VerdictNumbers {
    kind: u16,
    first: u16,
    second: u16,
}

#[repr(C)]
struct RunNumbers {
    number: u16,
    place: u16,
}

extern "C" {
    fn formula_book_admit(book: *const u8, length: usize) -> RunNumbers;
    fn formula_book_sizes(book: *const u8, length: usize, sizes: *mut u8) -> RunNumbers;
    fn justification_check(
        file: *const u8,
        length: usize,
        room: *mut u16,
        entries: usize,
    ) -> VerdictNumbers;
    fn justification_admit(file: *const u8, length: usize) -> RunNumbers;
    fn justification_index(
        file: *const u8,
        length: usize,
        index: *mut u16,
        entries: usize,
    ) -> VerdictNumbers;
    fn justification_check_indexed(
        file: *const u8,
        length: usize,
        index: *const u16,
        index_entries: usize,
        room: *mut u16,
        entries: usize,
    ) -> VerdictNumbers;
    fn justification_night(
        files: *const u8,
        files_bytes: usize,
        list: *const u8,
        list_bytes: usize,
        verdicts: *mut VerdictNumbers,
        room: *mut u16,
        entries: usize,
    ) -> VerdictNumbers;
}

/// The number and place of the first check that fails, or 0 and 0.
fn answer(numbers: RunNumbers) -> Result<(), Refusal> {
    match (numbers.number, numbers.place) {
        (0, 0) => Ok(()),
        (number, place) => Err(Refusal { number, place }),
    }
}

/// The answer to any bytes as a formula book, by check 2 of its length and by checks 3 and 4.
pub fn admit_book(book: &[u8]) -> Result<(), Refusal> {
    // The library reads `length` bytes from the pointer and writes nothing.
    answer(unsafe { formula_book_admit(book.as_ptr(), book.len()) })
}

/// The same, and the column of sizes after it.
pub fn size_column(book: &[u8], column: &mut [u8; 1_024]) -> Result<(), Refusal> {
    // The library reads `length` bytes from the one pointer, and reads and writes the 1,024 bytes
    // behind the other; a mutable column overlaps nothing.
    answer(unsafe { formula_book_sizes(book.as_ptr(), book.len(), column.as_mut_ptr()) })
}

/// The verdict on any bytes as a case file, and what a pass writes to the room.
pub fn check(file: &[u8], room: &mut [u16]) -> Verdict {
    // The library reads `length` bytes from the one pointer and writes at most `entries` numbers
    // to the other; a mutable room overlaps nothing.
    verdict(unsafe {
        justification_check(file.as_ptr(), file.len(), room.as_mut_ptr(), room.len())
    })
}

/// The kind of a verdict, and its two values.
fn verdict(answer: VerdictNumbers) -> Verdict {
    match (answer.kind, answer.first, answer.second) {
        (0, obligations, rows) => Verdict::Passed { obligations, rows },
        (1, 0, 0) => Verdict::NoneOwed,
        (2, number, place) => Verdict::Refused { number, place },
        numbers => panic!("a verdict of {numbers:?}"),
    }
}

/// The answer to any bytes as a case file, by checks 1 to 9.
pub fn admit(file: &[u8]) -> Result<(), Refusal> {
    // The library reads `length` bytes from the pointer and writes nothing.
    answer(unsafe { justification_admit(file.as_ptr(), file.len()) })
}

/// The answer to any bytes as a case file whose log is to be indexed, and the index that is built.
pub fn build_index(file: &[u8], index: &mut [u16]) -> Result<u16, Refusal> {
    // The library reads `length` bytes from the one pointer and writes at most `entries` numbers
    // to the other; a mutable index overlaps nothing.
    count(unsafe {
        justification_index(file.as_ptr(), file.len(), index.as_mut_ptr(), index.len())
    })
}

/// The one value of an answer that is no refusal.
fn count(answer: VerdictNumbers) -> Result<u16, Refusal> {
    match (answer.kind, answer.first, answer.second) {
        (0, count, 0) => Ok(count),
        (2, number, place) => Err(Refusal { number, place }),
        numbers => panic!("an answer of {numbers:?}"),
    }
}

/// The verdict on any bytes as a case file, through any entries as an index.
pub fn check_indexed(file: &[u8], index: &[u16], room: &mut [u16]) -> Verdict {
    // The library reads `length` bytes and `index_entries` numbers from the first two pointers and
    // writes at most `entries` numbers to the third; a mutable room overlaps nothing.
    verdict(unsafe {
        justification_check_indexed(
            file.as_ptr(),
            file.len(),
            index.as_ptr(),
            index.len(),
            room.as_mut_ptr(),
            room.len(),
        )
    })
}

/// The answer to any bytes as the files of a night and to any bytes as their list, the verdicts, and
/// what passes write to the room.
pub fn check_night(
    files: &[u8],
    list: &[u8],
    verdicts: &mut Table,
    room: &mut [u16],
) -> Result<u16, Refusal> {
    // The library reads `files_bytes` and `list_bytes` bytes from the first two pointers, writes at
    // most 64 verdicts, each of three numbers as in the table, to the third and at most `entries`
    // numbers to the fourth; what is mutable overlaps nothing.
    count(unsafe {
        justification_night(
            files.as_ptr(),
            files.len(),
            list.as_ptr(),
            list.len(),
            verdicts.as_mut_ptr().cast(),
            room.as_mut_ptr(),
            room.len(),
        )
    })
}
