//! Counters of what a run made and saw, so that a reader can tell that the
//! tests reach things.

use crate::members;
use std::collections::BTreeMap;
use std::fmt;

/// The counters of a run.
#[derive(Default, Clone)]
pub struct Counts {
    /// Answers by number: 0 for accepted, 1 to 17 for refusals.
    pub answers: [u64; 18],
    /// Objects of accepted messages reached by offset, by kind.
    pub by_offset: [u64; 19],
    /// Objects of accepted messages reached in place, by kind.
    pub in_place: [u64; 19],
    /// Everything else, by name.
    pub named: BTreeMap<String, u64>,
}

impl Counts {
    /// Counts an answer.
    pub fn answer(&mut self, number: u32) {
        if let Some(count) = self.answers.get_mut(number as usize) {
            *count += 1;
        }
    }

    /// Counts the member of a refusal that may have one.
    pub fn member(&mut self, number: u32, member: u32) {
        if members::REFUSALS.contains(&number) {
            let which = members::NAMES[members::which(member)];
            self.note(&format!("refused {number}, member {which}"));
        }
    }

    /// Counts something by name.
    pub fn note(&mut self, name: &str) {
        self.add(name, 1);
    }

    /// Counts something by name, several times over.
    pub fn add(&mut self, name: &str, times: u64) {
        match self.named.get_mut(name) {
            Some(count) => *count += times,
            None => {
                self.named.insert(name.to_string(), times);
            }
        }
    }

    /// How often something was counted.
    pub fn named(&self, name: &str) -> u64 {
        self.named.get(name).copied().unwrap_or(0)
    }
}

impl fmt::Display for Counts {
    fn fmt(&self, out: &mut fmt::Formatter) -> fmt::Result {
        writeln!(out, "answers by number:")?;
        for (number, count) in self.answers.iter().enumerate() {
            writeln!(out, "  {number:>2}  {count}")?;
        }
        writeln!(out, "objects of accepted messages (by offset, in place):")?;
        let kinds = [(13, "text"), (14, "bytes"), (15, "list"), (16, "table")];
        for (kind, name) in kinds.into_iter().chain([(18, "direct")]) {
            let (offset, place) = (self.by_offset[kind], self.in_place[kind]);
            writeln!(out, "  {name:<6} {offset:>9} {place:>9}")?;
        }
        writeln!(out, "made and seen:")?;
        for (name, count) in &self.named {
            writeln!(out, "  {name:<44} {count}")?;
        }
        Ok(())
    }
}
