//! The plain Rust program as a judge.

use crate::program::{Budget, Judge, Verdict};
use crate::schema::Packed;

/// The plain Rust program.
pub struct Plain;

/// The second program's budget as the plain one's.
fn to_plain(Budget { visits, content }: Budget) -> plain::Budget {
    plain::Budget { visits, content }
}

/// The plain program's verdict as the second one's.
fn of_plain(verdict: plain::Verdict) -> Verdict {
    Verdict {
        number: verdict.number,
        place: verdict.place,
        member: verdict.member,
        visits: verdict.visits,
        content: verdict.content,
    }
}

impl Judge for Plain {
    fn name(&self) -> &'static str {
        "plain Rust program"
    }

    fn judge(&self, schema: &Packed, message: &[u8], budget: Budget) -> Verdict {
        let budget = to_plain(budget);
        of_plain(plain::judge(
            schema.coding(),
            schema.bytes(),
            message,
            budget,
        ))
    }

    fn judge_unpacked(&self, schema: &Packed, message: &[u8], budget: Budget) -> Option<Verdict> {
        let schema = plain::Schema::new(schema.coding(), schema.bytes())?;
        Some(of_plain(schema.judge(message, to_plain(budget))))
    }
}
