//! Objects at depth 32 and 33, and what is tried before the depth and after.

use super::builder::{ways, Setup};
use super::objects::AMPLE;
use super::tables::{message_of, schema_with};
use super::Case;
use crate::coding::Coding;
use crate::schema::*;

/// Adds the cases.
pub fn add(coding: Coding, cases: &mut Vec<Case>) {
    for (way, kind) in ways(coding) {
        let above = if way.element() { 2 } else { 1 };
        for depth in [32, 33] {
            let setup = Setup::new(coding, way, kind, depth - above);
            at_depth(cases, &setup, depth);
        }
    }
    to_itself(coding, cases);
    chains(coding, cases);
}

fn at_depth(cases: &mut Vec<Case>, setup: &Setup, depth: usize) {
    cases.push(setup.case(&format!("depth {depth}"), AMPLE));
    let budget = depth as u32 - 1;
    let name = format!("depth {depth}, budget {budget}");
    cases.push(setup.case(&name, budget));
    let budget = depth as u32;
    let name = format!("depth {depth}, budget {budget}");
    cases.push(setup.case(&name, budget));
    let name = format!("depth {depth}, number too large");
    let far = setup.with(setup.reference, setup.coding().largest());
    cases.push(far.case(&name, AMPLE));
    let name = format!("depth {depth}, number 0");
    let none = setup.with(setup.reference, 0);
    cases.push(none.case(&name, AMPLE));
    let name = format!("depth {depth}, message cut");
    let cut = setup.sized(setup.message.len() - 1);
    cases.push(cut.case(&name, AMPLE));
}

/// A table that leads to itself.
fn to_itself(coding: Coding, cases: &mut Vec<Case>) {
    let next = Record::plain(TABLE, 0);
    let root = coding.bytes(coding.header() as u64);
    for budget in [0, 1, 31, 32, 33, u32::MAX] {
        cases.push(Case {
            group: "table to itself".to_string(),
            name: format!("budget {budget}"),
            schema: schema_with(coding, vec![next]).pack(),
            message: message_of(coding, &root, &[]),
            budget,
        });
    }
}

/// Tables in place inside each other; in the older coding by a union.
fn chains(coding: Coding, cases: &mut Vec<Case>) {
    let (kind, choice): (u8, &[u8]) = match coding {
        Coding::Bits48 => (TABLE, &[]),
        Coding::Bits32 => (UNION, &[1, 0]),
    };
    let mut next = Record::plain(kind, 0);
    next.in_place = true;
    let mut schema = schema_with(coding, vec![next]);
    if coding.is_older() {
        schema.unions[0][0] = Record::plain(TABLE, 0);
    }
    let (_, fixed) = schema.slots(0);
    let link = [choice, &coding.bytes(fixed as u64)].concat();
    for inner in 30..=33 {
        // Each fixed part is the length of the next; the last one's is 0.
        let behind = [link.repeat(inner - 1), vec![0; fixed]].concat();
        for budget in [inner as u32, inner as u32 + 1, u32::MAX] {
            cases.push(Case {
                group: "tables in place".to_string(),
                name: format!("{inner} inside each other, budget {budget}"),
                schema: schema.pack(),
                message: message_of(coding, &link, &behind),
                budget,
            });
        }
    }
}
