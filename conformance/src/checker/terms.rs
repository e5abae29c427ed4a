//! Terms: agents, data, parameters and variables, by their numbers.

use std::ops::RangeInclusive;

use super::case_file::ABSENT;

#[derive(Clone, Copy, Debug, PartialEq, Eq, PartialOrd, Ord)]
pub enum Sort {
    Agent,
    Data,
}

#[derive(Clone, Copy, Debug, PartialEq, Eq, PartialOrd, Ord)]
pub enum Shape {
    Name,
    Parameter,
    Variable,
}

/// A term, ordered by its number. The index is its number within its range: that of a variable
/// "counts the binders between it and its own, 0 for the innermost".
#[derive(Clone, Copy, Debug, PartialEq, Eq, PartialOrd, Ord)]
pub struct Term {
    pub(crate) number: u16,
    pub(crate) index: u16,
    pub(crate) sort: Sort,
    pub(crate) shape: Shape,
}

impl Term {
    pub(crate) const AGENTS: RangeInclusive<u16> = 0..=16_383;
    pub(crate) const DATA: RangeInclusive<u16> = 16_384..=32_767;
    pub(crate) const AGENT_PARAMETERS: RangeInclusive<u16> = 32_768..=32_799;
    pub(crate) const DATA_PARAMETERS: RangeInclusive<u16> = 32_800..=32_831;
    pub(crate) const AGENT_VARIABLES: RangeInclusive<u16> = 40_960..=40_967;
    pub(crate) const DATA_VARIABLES: RangeInclusive<u16> = 40_968..=40_975;

    /// "Others are no terms."
    pub(crate) fn read(number: u16) -> Option<Term> {
        let ranges = [
            (Term::AGENTS, Sort::Agent, Shape::Name),
            (Term::DATA, Sort::Data, Shape::Name),
            (Term::AGENT_PARAMETERS, Sort::Agent, Shape::Parameter),
            (Term::DATA_PARAMETERS, Sort::Data, Shape::Parameter),
            (Term::AGENT_VARIABLES, Sort::Agent, Shape::Variable),
            (Term::DATA_VARIABLES, Sort::Data, Shape::Variable),
        ];
        let found = ranges.into_iter().find(|(range, _, _)| range.contains(&number));
        found.map(|(range, sort, shape)| Term {
            number,
            index: number - range.start(),
            sort,
            shape,
        })
    }

    pub(super) fn read_sort(number: u16, sort: Sort) -> Option<Term> {
        Term::read(number).filter(|term| term.sort == sort)
    }

    /// "Up to" so many terms, "absent ones last".
    pub(super) fn read_list(fields: &[u16]) -> Option<Vec<Term>> {
        let present = fields.iter().take_while(|field| **field != ABSENT).count();
        let absent_last = fields[present..].iter().all(|field| *field == ABSENT);
        let terms = fields[..present].iter().map(|field| Term::read(*field));
        terms.collect::<Option<Vec<Term>>>().filter(|_| absent_last)
    }
}
