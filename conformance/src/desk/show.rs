//! A case file as people read it.

use std::fmt::Write;

use crate::cases::ROOM;
use crate::checker::{admit, check, owed, Verdict, ABSENT};
use crate::refinements::grounds;

use super::formulas::{Book, Written};
use super::notation::{formula, value};
use super::reading::{named, read, Reading};
use super::records::{list, marked, or_absent, reference, rule, RULES};
use super::text::formula_row;
use super::tree::{trees, Kind, Line};
use super::words::{meaning, words, PARTS};

/// What can be shown of any file, and the verdict.
pub fn show(file: &[u8]) -> String {
    let mut text = format!("Case file of {} bytes\n", file.len());
    let reading = read(file);
    let view = reading.as_ref().map(View::new);
    if let Some(view) = &view {
        text += &view.header(file);
        text += &view.parts();
    }
    let mut room = [0; ROOM];
    let verdict = check(file, &mut room);
    writeln!(text, "\nVerdict: {verdict}").expect("a string takes any text");
    let points_at = view.iter().flat_map(|view| view.points_at(verdict));
    let more = view.iter().flat_map(|view| view.rests_on(verdict).or(view.about_duties(verdict)));
    for line in words(file, verdict, &room).into_iter().chain(points_at).chain(more) {
        writeln!(text, "  {line}").expect("a string takes any text");
    }
    text
}

/// A file with a header, and what its spans name.
pub(super) struct View<'a> {
    pub(super) reading: &'a Reading,
    pub(super) book: Book<'a>,
    observers: Vec<Vec<u16>>,
    premises: Vec<Vec<u16>>,
}

/// The parts whose entries other parts' spans name.
const OBSERVERS: usize = 2;
const PREMISES: usize = 7;

/// A part's title and the lines below it.
pub(super) type Section = (String, Vec<String>);

type Show<T> = fn(&T) -> Section;

impl View<'_> {
    fn new(reading: &Reading) -> View<'_> {
        let case = &reading.case;
        let book = Book::new(&case.formulas);
        let observers = named(case.rows.iter().map(|row| (&row.observers[..], row.span)));
        let premises = named(case.steps.iter().map(|step| (&step.premises[..], step.span)));
        View { reading, book, observers, premises }
    }

    /// The agent, the audited action, the audit hour, and what is owed if the file is admitted.
    fn header(&self, file: &[u8]) -> String {
        let case = &self.reading.case;
        let mut text = format!("Agent: {}\n", value(case.agent));
        text += &format!("Audited action: {}\n", reference(&self.book, case.action));
        text += &format!("Audit hour: {}\n", or_absent(case.hour));
        if let Ok(admitted) = admit(file) {
            let is_owed = owed(&admitted.action, admitted.agent).is_some();
            text += &format!("Owed: {}\n", if is_owed { self.owed() } else { "nothing".into() });
        }
        text
    }

    /// "X says Y to Z" for "X communicates Y to Z", a predicate for a user action: the fields are
    /// the action's.
    fn owed(&self) -> String {
        let mut written = self.book.written(self.reading.case.action);
        if let Written::Node(node) = &mut written {
            node.kind = if node.kind == 8 { 2 } else { 0 };
        }
        formula(&written)
    }

    /// The sound parts, observers with their rows and premises with their steps.
    fn parts(&self) -> String {
        let sections: [(usize, Show<Self>); 6] = [
            (0, Self::formulas),
            (1, Self::log),
            (3, Self::conditions),
            (4, Self::obligations),
            (5, Self::labels),
            (6, Self::steps),
        ];
        let sound = self.reading.sound;
        let (mut text, mut empty) = (String::new(), Vec::new());
        for (part, section) in sections.into_iter().filter(|(part, _)| *part < sound) {
            let (title, lines) = section(self);
            if lines.is_empty() {
                empty.push(PARTS[part]);
                continue;
            }
            text += &format!("\n{title}\n");
            text.extend(lines.into_iter().map(|line| format!("  {line}\n")));
        }
        if !empty.is_empty() {
            text += &format!("\nNone: {}\n", empty.join(", "));
        }
        if sound < PARTS.len() {
            text += &format!("\nNot shown: {}\n", PARTS[sound..].join(", "));
        }
        text
    }

    fn formulas(&self) -> Section {
        section("Formulas", self.reading.case.formulas.len(), |number| self.formula(number))
    }

    fn formula(&self, number: usize) -> String {
        formula_row(&self.reading.case, &self.book, number)
    }

    /// Who sees a row is told if the observers are sound.
    fn log(&self) -> Section {
        if self.reading.sound == OBSERVERS {
            return section("Log", self.observers.len(), |number| self.action(number));
        }
        let seen = (0..self.observers.len()).filter(|row| self.is_seen(*row)).count();
        let agent = value(self.reading.case.agent);
        let title = format!("Log ({agent} sees {seen} of {})", self.observers.len());
        section(&title, self.observers.len(), |number| self.row(number))
    }

    pub(super) fn is_seen(&self, row: usize) -> bool {
        self.observers[row].contains(&self.reading.case.agent)
    }

    pub(super) fn eye(&self, row: usize) -> &'static str {
        match self.is_seen(row) {
            true => "seen",
            false => "hidden",
        }
    }

    fn row(&self, number: usize) -> String {
        let row = &self.reading.case.rows[number];
        let action = self.action(number);
        let by = match &self.observers[number][..] {
            [] => "seen by none".to_string(),
            observers => format!("seen by {}", list(observers, value)),
        };
        format!("{:6}  {action}  [{by}{}]", self.eye(number), span(row.span))
    }

    pub(super) fn action(&self, row: usize) -> String {
        match self.reading.case.rows[row].action {
            ABSENT => "struck out".to_string(),
            action => reference(&self.book, action),
        }
    }

    fn conditions(&self) -> Section {
        section("Conditions", self.reading.case.conditions.len(), |number| self.condition(number))
    }

    fn condition(&self, number: usize) -> String {
        match self.reading.case.conditions[number] {
            ABSENT => "not certified".to_string(),
            condition => reference(&self.book, condition),
        }
    }

    fn labels(&self) -> Section {
        let labels = &self.reading.case.labels;
        section("Labels", labels.len(), |number| marked(&self.book, labels[number]))
    }

    /// The tree of the last step, then what it does not rest on; a list if the premises are not
    /// sound.
    fn steps(&self) -> Section {
        if self.reading.sound == PREMISES {
            let steps = (0..self.premises.len()).map(|number| self.step(number));
            return ("Steps".to_string(), steps.collect());
        }
        let (main, rest) = trees(&self.premises);
        let mut lines: Vec<String> = main.iter().map(|line| self.tree_line(line)).collect();
        if let (Some(last), false) = (main.first(), rest.is_empty()) {
            lines.push(format!("not used by step {}:", last.step));
            lines.extend(rest.iter().map(|line| self.tree_line(line)));
        }
        ("Steps".to_string(), lines)
    }

    fn tree_line(&self, line: &Line) -> String {
        let number = line.step;
        let text = match line.kind {
            Kind::Step => self.step(number as usize),
            Kind::Again => format!("{number}, as above"),
            Kind::NotEarlier => format!("{number}, which is no earlier step"),
        };
        format!("{}{text}", "  ".repeat(line.depth))
    }

    fn step(&self, number: usize) -> String {
        let step = &self.reading.case.steps[number];
        let cited = self.cited(step.rule, step.argument as usize);
        let cited = cited.map_or(String::new(), |cited| format!(" [{cited}]"));
        let proved = reference(&self.book, step.formula);
        format!("{number} {}{cited}{}: {proved}", rule(step), span(step.span))
    }

    /// The entry that a step of this rule cites, if it is there.
    fn cited(&self, rule: u16, entry: usize) -> Option<String> {
        let case = &self.reading.case;
        let (words, _) = RULES.get(rule as usize)?;
        match words.rsplit(' ').next()? {
            "label" => case.labels.get(entry).map(|label| marked(&self.book, *label)),
            "condition" => case.conditions.get(entry).map(|_| self.condition(entry)),
            "row" => case.rows.get(entry).map(|_| self.action(entry)),
            "obligation" => case.obligations.get(entry).map(|duty| self.duty(duty)),
            _ => None,
        }
    }

    /// The part or record that a refusal points at.
    fn points_at(&self, verdict: Verdict) -> Option<String> {
        let Verdict::Refused { number, place } = verdict else { return None };
        let case = &self.reading.case;
        let at = place as usize;
        match meaning(number).counts.as_str() {
            "Part" => self.reading.header.get(at).map(|(offset, length)| {
                format!("The header says: offset {offset}, length {length}.")
            }),
            "Formula" => Some(self.formula(at)),
            "Log row" => Some(self.row(at)),
            "Condition" => Some(self.condition(at)),
            "Obligation" => Some(self.obligation(at)),
            "Label" => case.labels.get(at).map(|label| marked(&self.book, *label)),
            "Step" => Some(self.step(at)),
            _ => None,
        }
    }

    /// A step that cites or supposes: the first premise of the refine step that 28 points at, or one
    /// on which it rests.
    fn rests_on(&self, verdict: Verdict) -> Option<String> {
        let Verdict::Refused { number: 28, place } = verdict else { return None };
        let case = &self.reading.case;
        let first = case.steps[place as usize].premises[0];
        let ground = grounds(case, first).first()?;
        let how = if ground == first { "is" } else { "rests on" };
        Some(format!("Its first premise {how} step {}", self.step(ground as usize)))
    }
}

/// A part's records by number.
pub(super) fn section(title: &str, count: usize, record: impl Fn(usize) -> String) -> Section {
    let width = count.saturating_sub(1).to_string().len();
    let lines = (0..count).map(|number| format!("{number:width$}  {}", record(number)));
    (title.to_string(), lines.collect())
}

/// A span that is not the one due.
fn span(span: Option<(u16, u16)>) -> String {
    span.map_or(String::new(), |(offset, count)| format!(", span {offset} {count}"))
}
