//! Structs: booleans at every place, inner structs, flags, and cuts.

use super::tables::Root;
use super::Case;
use crate::coding::Coding;
use crate::schema::*;

/// Adds the cases.
pub fn add(coding: Coding, cases: &mut Vec<Case>) {
    for optional in [false, true] {
        let member = Record {
            optional,
            ..Record::plain(STRUCT, 1)
        };
        let group = if optional {
            "optional struct"
        } else {
            "struct"
        };
        let mut root = Root {
            coding,
            group,
            members: &[Record::plain(1, 0), member],
        };
        // A U8, the flag's byte if there is one, and a U16, an inner bool, an
        // inner U8, an enum and a bool.
        let start = if optional { 2 } else { 1 };
        bytes(cases, &root, start, 1);
        cuts(cases, &root, start);
        if optional {
            root.group = "struct with flag 0";
            bytes(cases, &root, start, 0);
        }
    }
}

/// Each byte of the struct with other values.
fn bytes(cases: &mut Vec<Case>, root: &Root, start: usize, flag: u8) {
    for at in 0..6 {
        for byte in [0, 1, 2, 0x80, 0xFE, 0xFF] {
            let mut fixed = vec![0; start + 6];
            fixed[start - 1] = flag;
            fixed[start + at] = byte;
            cases.push(root.case(format!("byte {at} is {byte}"), &fixed, &[]));
        }
    }
}

/// A bad boolean in a struct that is cut, or that is gone.
fn cuts(cases: &mut Vec<Case>, root: &Root, start: usize) {
    for length in 0..=start + 6 {
        for flag in [0, 1] {
            let mut fixed = vec![2; length];
            if length >= start {
                fixed[start - 1] = flag;
            }
            let name = format!("bad booleans, flag {flag}, {length} bytes");
            cases.push(root.case(name, &fixed, &[]));
        }
    }
}
