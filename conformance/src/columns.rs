//! The sizes of a book in a column whose content is known.

#[cfg(feature = "proved")]
use crate::{checker, proved};

use crate::checker::{number_at, pair_at, Refusal, HEADER_BYTES};

pub type Column = [u8; 1_024];

/// Checks 3 and 4 over the bytes of a book, with a column to fill.
pub type Sizer = fn(&[u8], &mut Column) -> Result<(), Refusal>;

/// A column starts full of these: none is a size, and neighbours differ, so that a byte written
/// shows.
pub fn lent() -> Column {
    std::array::from_fn(|place| 100 + (place % 151) as u8)
}

/// The formulas of a case file, as far as it has them: any bytes as a book.
pub fn book_of(file: &[u8]) -> &[u8] {
    let Some(rest) = file.get(HEADER_BYTES..) else { return &[] };
    let length = number_at(file, pair_at(0) + 2) as usize;
    &rest[..length.min(rest.len())]
}

/// The answer and the whole column after it.
pub fn answer(sizer: Sizer, book: &[u8], mut column: Column) -> (Result<(), Refusal>, Column) {
    let answer = sizer(book, &mut column);
    (answer, column)
}

/// The answer of the proved library and the column, which have to be those of the separate checker,
/// whatever was lent; and the answer is the same without a column.
#[cfg(feature = "proved")]
pub fn agreed(book: &[u8]) -> (Result<(), Refusal>, Column) {
    let [_, expected] = [[0; 1_024], lent()].map(|column| {
        let expected = answer(checker::size_column, book, column);
        assert_eq!(answer(proved::size_column, book, column), expected, "{book:?}");
        expected
    });
    assert_eq!(proved::admit_book(book), expected.0, "{book:?}");
    assert_eq!(checker::admit_book(book).map(|_| ()), expected.0, "{book:?}");
    expected
}
