//! A safe wrapper of `libscalgo.a`, a proved library for scalgoproto messages.
//!
//! The archive is for x86-64 Linux. The crate looks for it in the folder that the environment
//! variable `SCALGO_LIB_DIR` names, or else in `target/staticlib` of the repository, where
//! `tools/archive` puts it. There is nothing else to install.
//!
//! A [`Schema`] is made once, of bytes and a [`Coding`], of which there are two. It works out where
//! the members of its tables stand, and all that is done with messages is a method of it. Making
//! one allocates what it keeps. No method panics, allocates or keeps what it is given, and none has
//! a state, so all may be called from several threads at once. Any bytes may be given: what is not
//! lawful is answered by a number.
//!
//! Where the table names two numbers of bytes, the first is of the coding of 48 bits and the second
//! of that of 32.
//!
//! | Number | Meaning | Place |
//! |---|---|---|
//! | 0 | accepted | 0 |
//! | 1 | the schema is not lawful under the coding: [`NotLawful`], by no method | 0 |
//! | 2 | the message is under 10 or 8 bytes, or over 16,777,215 | 0 |
//! | 3 | wrong message magic | 0 |
//! | 4 | the visits are spent | the object not visited |
//! | 5 | deeper than 32 objects | the object |
//! | 6 | an offset under 10 or 8, a header or content that does not fit, or a direct list's count over 4,294,967,295 | the object |
//! | 7 | wrong object magic, or a direct list with another table's id | the object |
//! | 8 | a member cut by its table's end, or a flag without its value | the table |
//! | 9 | a known union choice, not in place, with offset 0; never under 32 bits | the holder |
//! | 10 | a struct's boolean not 0 or 1, or a text's end byte not 0 | the object |
//! | 11 | the sheet is not lawful, over 16,777,215 bytes, or deeper than 32 objects | 0 |
//! | 12 | the sheet is lawful but cannot be written, by a text that is not UTF-8 too, and under 48 bits by a union present in place | 0 |
//! | 13 | the message would be over 16,777,215 bytes | 0 |
//! | 14 | no room in the output, or a sheet over 16,777,215 bytes | 0 |
//! | 15 | a step that has no such part, or a path over 96 numbers | the last object judged; 0 for length |
//! | 16 | a text is not UTF-8, its end byte aside | the text |
//! | 17 | the content is spent | the object with which it would be passed |
//!
//! With 8, 9 and 10 there is a member too: the number of the table's member or the list's element that
//! is refused. A text's end byte has none.
//!
//! UTF-8 is what RFC 3629 says, and what a [`str`] is: no overlong forms, no surrogates, nothing above
//! U+10FFFF; U+0000 is text. So a text that is handed out can be had as one, by
//! [`text_str`](Schema::text_str).
//!
//! Unions in place are read under both codings, but under 48 bits no longer written. A stored message
//! with one is moved over by its sheet and a schema in which their flag is cleared: [`clear_unions`].
//!
//! # Example
//!
//! ```
//! use scalgo::{Budget, Coding, Schema};
//!
//! // A table with a U16 and a text, and a message of the two.
//! let bytes = b"\x00\x00\x00\x01\x00\x4C\x49\x43\x45\x02\x10\x00\x68\x00";
//! let schema = Schema::new(Coding::Bits48, bytes)?;
//! let message = b"\xB3\xC4\xC0\xB5\x0A\x00\x00\x00\x00\x00\
//!     \x45\x43\x49\x4C\x08\x00\x00\x00\x00\x00\x03\x00\x1C\x00\x00\x00\x00\x00\
//!     \xF5\xC8\x12\xD8\x02\x00\x00\x00\x00\x00ab\x00";
//!
//! // At most 100 objects, and 1,000 bytes of content in all.
//! let budget = Budget { visits: 100, content: 1000 };
//! let verdict = schema.judge(message, budget);
//! assert!(verdict.accepted());
//! assert_eq!((verdict.visits, verdict.content), (2, 10));
//!
//! let cut = schema.judge(&message[..40], budget);
//! assert_eq!((cut.number, cut.place, cut.visits), (6, 28, 2));
//!
//! // The same in the older coding.
//! let older = b"\xB3\xC4\xC0\xB5\x08\x00\x00\x00\
//!     \x45\x43\x49\x4C\x06\x00\x00\x00\x03\x00\x16\x00\x00\x00\
//!     \xF5\xC8\x12\xD8\x02\x00\x00\x00ab\x00";
//!
//! assert!(Schema::new(Coding::Bits32, bytes)?.judge(older, budget).accepted());
//! assert_eq!(schema.judge(older, budget).number, 6);
//! # Ok::<(), scalgo::NotLawful>(())
//! ```

mod answer;
mod clear;
mod coding;
mod field;
mod judge;
mod list;
mod read;
mod schema;
mod verdict;
mod write;

pub use answer::Answer;
pub use clear::{clear_unions, ClearAnswer};
pub use coding::Coding;
pub use list::List;
pub use read::ReadAnswer;
pub use schema::{NotLawful, Schema};
pub use verdict::{Budget, Verdict};
pub use write::WriteAnswer;
