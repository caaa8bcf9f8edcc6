//! What a comparison of two judges saw.

use crate::members;
use crate::program::Verdict;
use crate::subjects::{Sort, SORTS};
use std::fmt;

/// The numbers a judge answers.
pub const NUMBERS: [u32; 13] = [0, 1, 2, 3, 4, 5, 6, 7, 8, 9, 10, 16, 17];

/// How often each number was answered.
type Row = [u64; NUMBERS.len()];

/// Which of a row a number is.
fn column(number: u32) -> Option<usize> {
    NUMBERS.iter().position(|known| *known == number)
}

/// How often a number was answered, of a row.
fn of(row: &Row, number: u32) -> u64 {
    column(number).map_or(0, |column| row[column])
}

/// What a message may spend.
#[derive(Clone, Copy, Debug, PartialEq, Eq)]
pub enum Allowed {
    /// Large enough for all but walks that grow without end.
    Ample,
    NoVisit,
    OneVisit,
    /// A visit less than it takes.
    VisitLess,
    NoContent,
    /// A byte of content less than it takes.
    ByteLess,
    /// Some of both, up to one more than it takes.
    Some,
    /// Just as much of both as it takes.
    Exact,
    Largest,
}

const ALLOWED: [Allowed; 9] = [
    Allowed::Ample,
    Allowed::NoVisit,
    Allowed::OneVisit,
    Allowed::VisitLess,
    Allowed::NoContent,
    Allowed::ByteLess,
    Allowed::Some,
    Allowed::Exact,
    Allowed::Largest,
];

/// How often each number was answered, by sort and by budget.
#[derive(Clone, Default)]
pub struct Tally {
    pub messages: u64,
    pub calls: u64,
    by_sort: [Row; SORTS.len()],
    by_allowed: [Row; ALLOWED.len()],
    by_member: [[u64; members::NAMES.len()]; NUMBERS.len()],
}

impl Tally {
    /// Counts a message by what an ample budget gives.
    pub fn message(&mut self, sort: Sort, verdict: Verdict) {
        self.messages += 1;
        if let Some(column) = column(verdict.number) {
            self.by_sort[sort as usize][column] += 1;
            self.by_member[column][members::which(verdict.member)] += 1;
        }
    }

    /// Counts a call.
    pub fn call(&mut self, allowed: Allowed, verdict: Verdict) {
        self.calls += 1;
        if let Some(column) = column(verdict.number) {
            self.by_allowed[allowed as usize][column] += 1;
        }
    }

    /// How many messages an ample budget gives this number.
    pub fn of_number(&self, number: u32) -> u64 {
        self.by_sort.iter().map(|row| of(row, number)).sum()
    }

    /// How many messages of a sort there were.
    pub fn of_sort(&self, sort: Sort) -> u64 {
        self.by_sort[sort as usize].iter().sum()
    }

    /// How many messages of a sort an ample budget gives this number.
    pub fn of(&self, sort: Sort, number: u32) -> u64 {
        of(&self.by_sort[sort as usize], number)
    }

    /// How many messages an ample budget gives this number, by the range of the member.
    pub fn members(&self, number: u32) -> [u64; members::NAMES.len()] {
        column(number).map_or_else(Default::default, |column| self.by_member[column])
    }

    /// How many calls with a budget gave this number.
    pub fn with(&self, allowed: Allowed, number: u32) -> u64 {
        of(&self.by_allowed[allowed as usize], number)
    }
}

fn row(out: &mut fmt::Formatter, name: &str, counts: &Row) -> fmt::Result {
    write!(out, "  {name:<14}")?;
    for count in counts {
        write!(out, " {count:>9}")?;
    }
    writeln!(out)
}

impl fmt::Display for Tally {
    fn fmt(&self, out: &mut fmt::Formatter) -> fmt::Result {
        let numbers = NUMBERS.map(u64::from);
        writeln!(out, "{} messages, {} calls", self.messages, self.calls)?;
        row(out, "messages", &numbers)?;
        for sort in SORTS {
            let name = format!("{sort:?}");
            row(out, &name, &self.by_sort[sort as usize])?;
        }
        row(out, "budgets", &numbers)?;
        for allowed in ALLOWED {
            let name = format!("{allowed:?}");
            row(out, &name, &self.by_allowed[allowed as usize])?;
        }
        for number in members::REFUSALS {
            let counts = self.members(number);
            writeln!(out, "  {number}, members {:?}: {counts:?}", members::NAMES)?;
        }
        Ok(())
    }
}
