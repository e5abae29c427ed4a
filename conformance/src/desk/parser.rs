//! Reads the words of one line, and formulas among them.

use crate::builder::{agent_parameter, agent_variable, data, data_parameter, data_variable};
use crate::checker::{Term, ABSENT};

use super::formulas::{Field, Node, Written};

#[derive(Clone, Debug, PartialEq, Eq)]
enum Token {
    Word(String),
    Number(u16),
    Sign(char),
}

/// Formulas in formulas; a text is refused before it takes too much of the stack.
const DEEPEST: usize = 200;

/// The words of a line, from some place on.
pub struct Parser {
    tokens: Vec<Token>,
    at: usize,
    /// The names bound where the parser is, outermost first, and the codes of their for-alls.
    scope: Vec<(String, u8)>,
    depth: usize,
}

type Parsed<T> = Result<T, String>;

impl Parser {
    /// Of a line; what follows "--" is a remark.
    pub fn new(line: &str) -> Parsed<Parser> {
        let line = line.split("--").next().unwrap_or("");
        Ok(Parser { tokens: tokens(line)?, at: 0, scope: Vec::new(), depth: 0 })
    }

    pub fn is_at_end(&self) -> bool {
        self.at == self.tokens.len()
    }

    /// What comes next, for a message.
    fn next(&self) -> String {
        match self.tokens.get(self.at) {
            None => "the end of the line".to_string(),
            Some(Token::Word(word)) => format!("\"{word}\""),
            Some(Token::Number(number)) => format!("\"{number}\""),
            Some(Token::Sign(sign)) => format!("\"{sign}\""),
        }
    }

    pub fn expected<T>(&self, what: &str) -> Parsed<T> {
        Err(format!("expected {what}, found {}", self.next()))
    }

    pub fn end(&self) -> Parsed<()> {
        match self.is_at_end() {
            true => Ok(()),
            false => self.expected("the end of the line"),
        }
    }

    fn word(&self) -> Option<&str> {
        match self.tokens.get(self.at) {
            Some(Token::Word(word)) => Some(word),
            _ => None,
        }
    }

    pub fn is_before(&self, word: &str) -> bool {
        self.word() == Some(word)
    }

    /// Takes these words if they come next.
    pub fn take(&mut self, words: &str) -> bool {
        let start = self.at;
        for word in words.split(' ') {
            if !self.is_before(word) {
                self.at = start;
                return false;
            }
            self.at += 1;
        }
        true
    }

    pub fn expect(&mut self, words: &str) -> Parsed<()> {
        match self.take(words) {
            true => Ok(()),
            false => self.expected(&format!("\"{words}\"")),
        }
    }

    pub fn take_sign(&mut self, sign: char) -> bool {
        let taken = self.tokens.get(self.at) == Some(&Token::Sign(sign));
        self.at += usize::from(taken);
        taken
    }

    pub fn expect_sign(&mut self, sign: char) -> Parsed<()> {
        match self.take_sign(sign) {
            true => Ok(()),
            false => self.expected(&format!("\"{sign}\"")),
        }
    }

    pub fn take_number(&mut self) -> Option<u16> {
        let Some(Token::Number(number)) = self.tokens.get(self.at) else { return None };
        self.at += 1;
        Some(*number)
    }

    pub fn number(&mut self) -> Parsed<u16> {
        self.take_number().map_or_else(|| self.expected("a number"), Ok)
    }

    /// An hour, or "absent".
    pub fn hour(&mut self) -> Parsed<u16> {
        match self.take("absent") {
            true => Ok(ABSENT),
            false => self.present("an hour"),
        }
    }

    /// A number; the one that means "absent" is none.
    pub fn present(&mut self, what: &str) -> Parsed<u16> {
        match self.take_number() {
            None => self.expected(what),
            Some(ABSENT) => Err(format!("{ABSENT} means absent, and is not {what}")),
            Some(number) => Ok(number),
        }
    }

    /// A number, a term, or "absent".
    pub fn value(&mut self) -> Parsed<u16> {
        if let Some(number) = self.take_number() {
            return Ok(number);
        }
        match self.take("absent") {
            true => Ok(ABSENT),
            false => self.term(),
        }
    }

    pub fn list<T>(&mut self, one: impl Fn(&mut Parser) -> Parsed<T>) -> Parsed<Vec<T>> {
        let mut list = vec![one(self)?];
        while self.take_sign(',') {
            list.push(one(self)?);
        }
        Ok(list)
    }

    fn term(&mut self) -> Parsed<u16> {
        let Some(word) = self.word() else { return self.expected("a term") };
        let number = match is_name(word) {
            true => self.bound(word)?,
            false => read_term(word)?,
        };
        self.at += 1;
        Ok(number)
    }

    /// The variable of this name: the number of for-alls between it and its own.
    fn bound(&self, name: &str) -> Parsed<u16> {
        let mut inner = self.scope.iter().rev();
        let Some(index) = inner.position(|(known, _)| known == name) else {
            return Err(format!("no \"for all\" binds {name} here"));
        };
        if index > 7 {
            return Err(format!("more than 7 for-alls stand between {name} and its own"));
        }
        let code = self.scope[self.scope.len() - 1 - index].1;
        let variable = if code == 0 { agent_variable } else { data_variable };
        Ok(variable(index as u16))
    }

    /// A formula as far as it goes: "implies" groups to the right and binds least.
    pub fn formula(&mut self) -> Parsed<Written> {
        self.depth += 1;
        if self.depth > DEEPEST {
            return Err("the formula is nested too deep".to_string());
        }
        let written = match self.mark() {
            Some(mark) => {
                let action = self.operand()?;
                self.expect("implies")?;
                self.duty(mark, action)?
            }
            None => self.implication()?,
        };
        self.depth -= 1;
        Ok(written)
    }

    /// The mark "!" is 1, "?" is 2.
    pub fn mark(&mut self) -> Option<u16> {
        if self.take_sign('!') {
            return Some(1);
        }
        self.take_sign('?').then_some(2)
    }

    /// What follows "implies" in a formula with a duty.
    pub fn duty(&mut self, mark: u16, action: Written) -> Parsed<Written> {
        let policy = self.formula()?;
        Ok(parts(5 + mark as u8, [action, policy]))
    }

    fn implication(&mut self) -> Parsed<Written> {
        let mut left = self.operand()?;
        while self.take("and") {
            left = parts(3, [left, self.operand()?]);
        }
        match self.take("implies") {
            true => Ok(parts(5, [left, self.formula()?])),
            false => Ok(left),
        }
    }

    /// What "and" and the marks take.
    pub fn operand(&mut self) -> Parsed<Written> {
        if self.take_sign('(') {
            let inner = self.formula()?;
            self.expect_sign(')')?;
            return Ok(inner);
        }
        if self.take_sign('#') {
            return Ok(Written::Row(self.number()?));
        }
        if self.take("for all") {
            return self.for_all();
        }
        let applied = self.word().and_then(read_code);
        match applied {
            Some((kind, code)) => {
                self.at += 1;
                self.applied(kind, code)
            }
            None => self.sentence(),
        }
    }

    fn for_all(&mut self) -> Parsed<Written> {
        let code = match self.take("agents") {
            true => 0,
            false => {
                self.expect("data")?;
                1
            }
        };
        let Some(name) = self.word().filter(|word| is_name(word)) else {
            return self.expected("a variable (u to z)");
        };
        let name = name.to_string();
        self.at += 1;
        self.expect_sign('.')?;
        self.scope.push((name, code));
        let body = self.formula()?;
        self.scope.pop();
        Ok(Written::Node(Node { kind: 4, code, fields: vec![Field::Child(body)] }))
    }

    /// The terms of a predicate or user action.
    fn applied(&mut self, kind: u8, code: u8) -> Parsed<Written> {
        self.expect_sign('(')?;
        let mut fields = Vec::new();
        if !self.take_sign(')') {
            fields = self.list(|parser| parser.term().map(Field::Term))?;
            self.expect_sign(')')?;
        }
        match fields.len() {
            0..=3 => Ok(Written::Node(Node { kind, code, fields })),
            _ => Err("there are more than three terms".to_string()),
        }
    }

    /// A term, a verb, and what the verb takes.
    fn sentence(&mut self) -> Parsed<Written> {
        let verbs = [("owns", 1), ("says", 2), ("communicates", 8), ("creates", 9)];
        let x = self.term().or_else(|error| match self.word() {
            Some(_) => Err(error),
            None => self.expected("a formula"),
        })?;
        let Some((_, kind)) = verbs.into_iter().find(|(verb, _)| self.take(verb)) else {
            return self.expected("a verb: owns, says, communicates or creates");
        };
        let mut fields = vec![Field::Term(x)];
        if matches!(kind, 1 | 9) {
            fields.push(Field::Term(self.term()?));
        } else {
            fields.push(Field::Child(self.formula()?));
            self.expect("to")?;
            fields.push(Field::Term(self.term()?));
        }
        Ok(Written::Node(Node { kind, code: 0, fields }))
    }
}

fn parts(kind: u8, children: [Written; 2]) -> Written {
    let fields = children.into_iter().map(Field::Child).collect();
    Written::Node(Node { kind, code: 0, fields })
}

/// Names of variables: a letter from u to z, and perhaps digits.
fn is_name(word: &str) -> bool {
    let mut letters = word.chars();
    matches!(letters.next(), Some('u'..='z')) && letters.all(|letter| letter.is_ascii_digit())
}

/// `p7` is predicate 7, `act7` user action 7.
fn read_code(word: &str) -> Option<(u8, u8)> {
    let (kind, code) = match word.strip_prefix("act") {
        Some(code) => (10, code),
        None => (0, word.strip_prefix('p')?),
    };
    Some((kind, code.parse().ok()?))
}

/// The ways of writing a term, but for bound variables: each has so many, and a number for each.
type Way = (&'static str, u16, fn(u16) -> u16);

const WAYS: [Way; 6] = [
    ("a'", 32, agent_parameter),
    ("a^", 8, agent_variable),
    ("d'", 32, data_parameter),
    ("d^", 8, data_variable),
    ("a", 16_384, |index| *Term::AGENTS.start() + index),
    ("d", 16_384, data),
];

fn read_term(word: &str) -> Parsed<u16> {
    let found = WAYS.into_iter().find_map(|(prefix, count, number)| {
        let index: u16 = word.strip_prefix(prefix)?.parse().ok()?;
        (index < count).then(|| number(index))
    });
    found.ok_or_else(|| format!("\"{word}\" is no term"))
}

fn tokens(line: &str) -> Parsed<Vec<Token>> {
    let mut tokens = Vec::new();
    let mut rest = line.trim_start();
    while let Some(first) = rest.chars().next() {
        let in_word = |letter: char| letter.is_ascii_alphanumeric() || "'^".contains(letter);
        let end = rest.find(|letter| !in_word(letter)).unwrap_or(rest.len());
        let end = end.max(first.len_utf8());
        let (token, after) = rest.split_at(end);
        tokens.push(match first {
            '0'..='9' => Token::Number(read_number(token)?),
            'a'..='z' => Token::Word(token.to_string()),
            '(' | ')' | ',' | '.' | ':' | ';' | '#' | '!' | '?' => Token::Sign(first),
            _ => return Err(format!("\"{first}\" has no meaning here")),
        });
        rest = after.trim_start();
    }
    Ok(tokens)
}

fn read_number(token: &str) -> Parsed<u16> {
    token.parse().map_err(|_| format!("\"{token}\" is no number up to 65535"))
}
