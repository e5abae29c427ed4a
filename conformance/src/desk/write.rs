//! Reads the text of a case file and lays the file out.

use std::fmt;

use crate::builder::{CaseFile, LogRow, Obligation, Step};
use crate::checker::{ABSENT, PARTS};

use super::formulas::{Maker, Written};
use super::parser::Parser;
use super::reading::List;
use super::records::{read_marked, read_raw, read_reference, read_rule};

/// What is wrong with a text, and in which line, counted from 1.
#[derive(Debug, PartialEq, Eq)]
pub struct Fault {
    pub line: usize,
    pub what: String,
}

impl fmt::Display for Fault {
    fn fmt(&self, out: &mut fmt::Formatter) -> fmt::Result {
        write!(out, "line {}: {}", self.line, self.what)
    }
}

/// The case file that the text tells. Its header is sound; the rest may be such as the checker
/// refuses. Lines of formulas come first, so that a formula found elsewhere has its row by then.
pub fn write(text: &[u8]) -> Result<Vec<u8>, Fault> {
    let mut writer = Writer::new();
    let lines: Vec<&[u8]> = text.split(|byte| *byte == b'\n').collect();
    for formulas in [true, false] {
        for (before, line) in lines.iter().enumerate() {
            writer.line(line, formulas).map_err(|what| Fault { line: before + 1, what })?;
        }
    }
    writer.finish().map_err(|what| Fault { line: lines.len(), what })
}

/// The case so far.
struct Writer {
    agent: Option<u16>,
    action: Option<u16>,
    hour: Option<u16>,
    book: Maker,
    /// All but the agent, the action, the hour and the formulas.
    case: CaseFile,
    observers: usize,
    premises: usize,
}

/// The words that begin a line.
const LINES: &str = "agent, action, hour, formula, row, condition, obligation, label or step";

const LAST_HOUR: u16 = ABSENT - 1;

/// Reads a record and gives its number.
type Reader = fn(&mut Writer, &mut Parser) -> Result<usize, String>;

/// The lines that are records: the word, the part, the reader.
const RECORDS: [(&str, usize, Reader); 6] = [
    ("formula", 0, Writer::formula),
    ("row", 1, Writer::row),
    ("condition", 3, Writer::condition),
    ("obligation", 4, Writer::obligation),
    ("label", 5, Writer::label),
    ("step", 6, Writer::step),
];

impl Writer {
    fn new() -> Writer {
        Writer {
            agent: None,
            action: None,
            hour: None,
            book: Maker::default(),
            case: CaseFile::new(0),
            observers: 0,
            premises: 0,
        }
    }

    /// Takes a line if it is a formula's, or if it is not.
    fn line(&mut self, line: &[u8], formulas: bool) -> Result<(), String> {
        let line = std::str::from_utf8(line).map_err(|_| "this is no plain text".to_string())?;
        let mut parser = Parser::new(line)?;
        if parser.is_at_end() || parser.is_before("formula") != formulas {
            return Ok(());
        }
        if parser.take("agent") {
            set(&mut self.agent, parser.value()?)?;
        } else if parser.take("action") {
            let action = self.reference(&mut parser)?;
            set(&mut self.action, action)?;
        } else if parser.take("hour") {
            set(&mut self.hour, parser.hour()?)?;
        } else {
            self.record(&mut parser)?;
        }
        parser.end()
    }

    /// The number of a record may be left out; where it is given, it is the one due.
    fn record(&mut self, parser: &mut Parser) -> Result<(), String> {
        let found = RECORDS.into_iter().find(|(word, _, _)| parser.take(word));
        let Some((word, part, read)) = found else {
            return parser.expected(LINES);
        };
        let given = parser.take_number();
        parser.expect_sign(':')?;
        let number = read(self, parser)?;
        limit(number + 1, part, word)?;
        match given {
            Some(given) if given as usize != number => {
                Err(format!("this is {word} {number}, not {given}"))
            }
            _ => Ok(()),
        }
    }

    fn finish(mut self) -> Result<Vec<u8>, String> {
        self.case.agent = self.agent.ok_or("there is no line \"agent\"")?;
        self.case.action = self.action.ok_or("there is no line \"action\"")?;
        self.case.hour = self.hour()?;
        self.case.formulas = self.book.rows;
        Ok(self.case.to_bytes())
    }

    /// An hour that nobody told must let no duty off: with obligations there has to be one, and
    /// without them it is the last.
    fn hour(&self) -> Result<u16, String> {
        match self.hour {
            None if self.case.obligations.is_empty() => Ok(LAST_HOUR),
            hour => hour.ok_or("there are obligations, and no line \"hour\"".to_string()),
        }
    }

    fn reference(&mut self, parser: &mut Parser) -> Result<u16, String> {
        let written = read_reference(parser)?;
        self.book.number(&written)
    }

    fn marked(&mut self, parser: &mut Parser) -> Result<(u16, u16), String> {
        let (mark, written) = read_marked(parser)?;
        Ok((mark, self.book.number(&written)?))
    }

    /// A formula of its own line gets a row, also where it repeats one.
    fn formula(&mut self, parser: &mut Parser) -> Result<usize, String> {
        let row = match parser.take("kind") {
            true => read_raw(parser)?,
            false => match parser.formula()? {
                Written::Node(node) => self.book.row(&node)?,
                Written::Row(number) => return Err(format!("#{number} alone makes no formula")),
            },
        };
        Ok(self.book.push(row)? as usize)
    }

    fn row(&mut self, parser: &mut Parser) -> Result<usize, String> {
        let action = self.reference(parser)?;
        let (observers, span) = list_and_span(parser, "seen by")?;
        self.observers += observers.len();
        limit(self.observers, 2, "observer")?;
        Ok(push(&mut self.case.rows, LogRow { action, observers, span }))
    }

    fn condition(&mut self, parser: &mut Parser) -> Result<usize, String> {
        let condition = self.reference(parser)?;
        Ok(push(&mut self.case.conditions, condition))
    }

    fn obligation(&mut self, parser: &mut Parser) -> Result<usize, String> {
        let (mark, action) = self.marked(parser)?;
        let (due, row) = due_and_row(parser)?;
        Ok(push(&mut self.case.obligations, Obligation { mark, action, due, row }))
    }

    fn label(&mut self, parser: &mut Parser) -> Result<usize, String> {
        let label = self.marked(parser)?;
        Ok(push(&mut self.case.labels, label))
    }

    fn step(&mut self, parser: &mut Parser) -> Result<usize, String> {
        let formula = self.reference(parser)?;
        parser.expect_sign(';')?;
        let (rule, argument) = read_rule(parser)?;
        let (premises, span) = list_and_span(parser, "from")?;
        self.premises += premises.len();
        limit(self.premises, 7, "premise")?;
        Ok(push(&mut self.case.steps, Step { rule, formula, argument, premises, span }))
    }
}

/// A line that stands once.
fn set(field: &mut Option<u16>, value: u16) -> Result<(), String> {
    match field.replace(value) {
        None => Ok(()),
        Some(_) => Err("there is such a line already".to_string()),
    }
}

fn push<T>(records: &mut Vec<T>, record: T) -> usize {
    records.push(record);
    records.len() - 1
}

fn limit(count: usize, part: usize, word: &str) -> Result<(), String> {
    let most = PARTS[part].1;
    match count <= most {
        true => Ok(()),
        false => Err(format!("there are more than {most} {word}s")),
    }
}

/// An obligation's due hour, which has to be told, and the row that it names, if any.
fn due_and_row(parser: &mut Parser) -> Result<(u16, u16), String> {
    if !parser.take_sign(';') {
        return parser.expected("\"; due\" and an hour");
    }
    parser.expect("due")?;
    let due = parser.hour()?;
    if !parser.take_sign(';') {
        return Ok((due, ABSENT));
    }
    parser.expect("done by row")?;
    Ok((due, parser.present("a row's number")?))
}

/// A record's entries, and its span where that is not just these.
fn list_and_span(parser: &mut Parser, words: &str) -> Result<List, String> {
    let (mut list, mut span) = (Vec::new(), None);
    while parser.take_sign(';') {
        if parser.take(words) {
            list.extend(parser.list(Parser::value)?);
        } else if parser.take("span") {
            span = Some((parser.number()?, parser.number()?));
        } else {
            return parser.expected(&format!("\"{words}\" or \"span\""));
        }
    }
    Ok((list, span))
}
