//! The walk: the verdict on a message.

use crate::message::{
    content_length, element_lead, find, fit, judge_struct, judge_text, member_lead, open_message,
    Lead, Object, Refusal, Spot,
};
use crate::positions::Lent;
use crate::schema::{Kind, Schema, Target};

/// How much a walk may spend: "\"Budget\" ... now means both allowances".
#[derive(Clone, Copy, Debug, PartialEq, Eq)]
pub struct Budget {
    pub visits: u32,
    pub content: u64,
}

impl Budget {
    /// The largest of both.
    pub const LARGEST: Budget = Budget::of_visits(u32::MAX);

    /// So many visits, and "the largest content allowance".
    pub const fn of_visits(visits: u32) -> Budget {
        let content = u64::MAX;
        Budget { visits, content }
    }
}

/// "Judging answers number, place and visits", the member and the content:
/// "The verdict record reports both."
#[derive(Clone, Copy, Debug, PartialEq, Eq)]
pub struct Verdict {
    pub number: u32,
    pub place: u64,
    /// The member's or element's number in its holder, or `NO_MEMBER`.
    pub member: u32,
    pub visits: u32,
    pub content: u64,
}

impl Verdict {
    fn new(refusal: Refusal, visits: u32, content: u64) -> Verdict {
        Verdict {
            number: refusal.number,
            place: refusal.place,
            member: refusal.member,
            visits,
            content,
        }
    }

    /// A schema that is not lawful, or not with the table lent.
    pub(crate) fn not_lawful() -> Verdict {
        Verdict::new(Refusal::new(1, 0), 0, 0)
    }

    /// The same walk's visits and content with a refusal after it.
    pub(crate) fn refused(&self, refusal: Refusal) -> Verdict {
        Verdict::new(refusal, self.visits, self.content)
    }
}

/// Judges a message by a packed schema. Numbers 0 to 10, 16 and 17.
pub fn judge(lent: Lent, message: &[u8], budget: Budget) -> Verdict {
    match lent.parse() {
        Some(schema) => judge_parsed(&schema, message, budget),
        None => Verdict::not_lawful(),
    }
}

/// The same as `judge` with the schema parsed beforehand.
pub fn judge_parsed(schema: &Schema, message: &[u8], budget: Budget) -> Verdict {
    let mut walk = Walk {
        schema,
        message,
        budget,
        visits: 0,
        content: 0,
    };
    let ended = open_message(schema, message).and_then(|(root, spot)| walk.arrive(root, spot, 1));
    let refusal = ended.err().unwrap_or(Refusal::new(0, 0));
    Verdict::new(refusal, walk.visits, walk.content)
}

struct Walk<'a> {
    schema: &'a Schema,
    message: &'a [u8],
    budget: Budget,
    visits: u32,
    content: u64,
}

impl Walk<'_> {
    /// "Every arrival at an object counts one visit, shared objects each time,
    /// in-place ones too"; "an arrival refused by 4 isn't counted".
    fn arrive(&mut self, target: Target, spot: Spot, depth: u32) -> Result<(), Refusal> {
        if self.visits >= self.budget.visits {
            return Err(Refusal::new(4, spot.place()));
        }
        self.visits += 1;
        let object = fit(self.schema, self.message, target, spot, depth)?;
        self.add_content(&object)?;
        judge_text(self.message, &object)?;
        match target {
            Target::Text | Target::Bytes => Ok(()),
            Target::List(index) => self.list(index, &object, depth),
            Target::Table(index) => self.table(index, &object, depth),
            Target::Direct(index) => self.direct(index, &object, depth),
        }
    }

    /// "Each arrival whose content fits adds its content length". "17, exactly
    /// if the sum would pass the allowance, at the object, after content fits
    /// and before its bytes are judged; such an arrival counts as a visit but
    /// adds no content."
    fn add_content(&mut self, object: &Object) -> Result<(), Refusal> {
        let length = content_length(self.schema, object.target, object.length as u64);
        // Under 2^32 visits of under 2^24 bytes each are far below 2^64.
        let sum = self.content + length;
        if sum > self.budget.content {
            return Err(Refusal::new(17, object.place));
        }
        self.content = sum;
        Ok(())
    }

    /// "Then each member or element in turn: cut, struct booleans, union
    /// offset, and the arrival it leads to."
    fn table(&mut self, index: u8, table: &Object, depth: u32) -> Result<(), Refusal> {
        for member in &self.schema.table(index).members {
            let Some(at) = find(self.message, table, member)? else {
                continue;
            };
            match member.record.kind {
                Kind::Struct(index) => {
                    judge_struct(self.schema, self.message, table, member.number, index, at)?;
                }
                Kind::Object(_) | Kind::Union(_) => {
                    let lead = member_lead(self.schema, self.message, table, member, at)?;
                    self.follow(lead, depth)?;
                }
                _ => {}
            }
        }
        Ok(())
    }

    /// Only references and unions lead anywhere; the rest needs no judging.
    fn list(&mut self, index: u8, list: &Object, depth: u32) -> Result<(), Refusal> {
        let kind = self.schema.element(index);
        let Some(size) = self.schema.reference_size(kind) else {
            return Ok(());
        };
        for number in 0..list.length {
            let lead = element_lead(self.schema, self.message, list, kind, size, number)?;
            self.follow(lead, depth)?;
        }
        Ok(())
    }

    /// "The list is one visit, each element one more and one deeper".
    fn direct(&mut self, index: u8, list: &Object, depth: u32) -> Result<(), Refusal> {
        for number in 0..list.length {
            let element = list.direct_element(number);
            self.arrive(Target::Table(index), element, depth + 1)?;
        }
        Ok(())
    }

    /// "following a reference or entering in-place content adds 1"
    fn follow(&mut self, lead: Lead, depth: u32) -> Result<(), Refusal> {
        match lead {
            Lead::Object { target, spot, .. } => self.arrive(target, spot, depth + 1),
            Lead::Absent | Lead::Unknown(_) => Ok(()),
        }
    }
}
