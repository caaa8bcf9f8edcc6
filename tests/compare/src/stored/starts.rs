//! What is judged before the walk, and the root.

use super::builder::{Setup, Way};
use super::objects::AMPLE;
use super::Case;
use crate::coding::Coding;
use crate::schema::TEXT;

/// Adds the cases.
pub fn add(coding: Coding, cases: &mut Vec<Case>) {
    let setup = Setup::new(coding, Way::Member, TEXT, 1);
    let mut push = |name: &str, message: Vec<u8>, budget| {
        cases.push(Case {
            group: "start".to_string(),
            name: name.to_string(),
            schema: setup.schema.pack(),
            message,
            budget,
        });
    };
    push("accepted", setup.message.clone(), AMPLE);
    for size in 0..=20 {
        let message = setup.message[..size].to_vec();
        push(&format!("{size} bytes"), message, AMPLE);
    }
    for (bit, budget) in [(0, 0), (9, 1), (18, AMPLE), (31, u32::MAX)] {
        let mut message = setup.message.clone();
        message[bit / 8] ^= 1 << (bit % 8);
        push(&format!("bit {bit} of the magic wrong"), message, budget);
    }
    let (size, header) = (setup.message.len() as u64, coding.header() as u64);
    let near = [0, 1, header - 1, header + 1];
    let edges = [size - header, size - header + 1, size, size + 1];
    let far = [coding.largest() / 65_536 + 1, coding.largest()];
    for offset in near.into_iter().chain(edges).chain(far) {
        let message = setup.with(4, offset).message;
        push(&format!("root at {offset}"), message.clone(), AMPLE);
        push(&format!("root at {offset}, budget 0"), message, 0);
    }
    for i in 0..4 {
        let mut message = setup.message.clone();
        message[coding.header() + i] ^= 0x40;
        push(&format!("root's magic, byte {i} wrong"), message, AMPLE);
    }
    let mut filled = setup.message.clone();
    filled.resize(65_536, 0);
    push("the longest message of a file", filled, AMPLE);
}
