//! What the tests share.

use scalgo::{Coding, Schema};

/// The schema of these bytes, which are lawful under the coding.
pub fn by(coding: Coding, bytes: &[u8]) -> Schema {
    Schema::new(coding, bytes).expect("a lawful schema")
}
