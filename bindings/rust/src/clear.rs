//! A schema without unions in place, for stored messages to be moved over to.

extern "C" {
    fn scalgo_clear_unions(
        schema: *const u8,
        schema_len: usize,
        cleared: *mut u8,
        room: usize,
        length: *mut u64,
    ) -> u32;
}

/// What clearing a schema answers.
#[derive(Clone, Copy, Debug, PartialEq, Eq)]
pub struct ClearAnswer {
    /// 0 where the cleared schema is written, else 1 or 14.
    pub number: u32,
    /// The bytes written, as many as the schema has; 0 with a refusal.
    pub length: usize,
}

/// Writes to the front of `cleared` the same schema in which only the in-place flag of unions is
/// cleared, of every table's member that is a union in place. The bytes after the length that is
/// answered keep what they held; with a refusal all do. It takes no coding: messages of 32 bits keep
/// unions in place.
///
/// The schema is the stored messages' own, for 48 bits. A stored message is moved over by reading its
/// sheet with it, and writing that sheet with the cleared schema:
///
/// ```
/// use scalgo::{clear_unions, Budget, Coding::Bits48, Schema};
///
/// // A table with a U8 and, in place, a union of a text; and a stored message of 5 and "ab".
/// let schema = b"\x00\x00\x01\x01\x00\x01\x68\x00\x4C\x49\x43\x45\x02\x08\x00\x8A\x00";
/// let message = b"\xB3\xC4\xC0\xB5\x0A\x00\x00\x00\x00\x00\
///     \x45\x43\x49\x4C\x09\x00\x00\x00\x00\x00\x05\x01\x00\x02\x00\x00\x00\x00\x00ab\x00";
///
/// let mut sheet = [0; 100];
/// let stored = Schema::new(Bits48, schema)?;
/// let answer = stored.read(message, Budget::LARGEST, &mut sheet);
/// assert!(answer.verdict.accepted());
/// let sheet = &sheet[..answer.length];
///
/// // By its own schema it is no longer written.
/// let mut written = [0; 100];
/// assert_eq!(stored.write(sheet, &mut written).number, 12);
///
/// let mut cleared = *schema;
/// let answer = clear_unions(schema, &mut cleared);
/// assert_eq!((answer.number, answer.length), (0, schema.len()));
/// assert_eq!(cleared, *b"\x00\x00\x01\x01\x00\x01\x68\x00\x4C\x49\x43\x45\x02\x08\x00\x88\x00");
///
/// let cleared = Schema::new(Bits48, cleared)?;
/// let answer = cleared.write(sheet, &mut written);
/// assert_eq!((answer.number, answer.length), (0, 42));
/// let moved = &written[..answer.length];
/// assert_eq!(moved, b"\xB3\xC4\xC0\xB5\x0A\x00\x00\x00\x00\x00\
///     \x45\x43\x49\x4C\x09\x00\x00\x00\x00\x00\x05\x01\x00\x1D\x00\x00\x00\x00\x00\
///     \xF5\xC8\x12\xD8\x02\x00\x00\x00\x00\x00ab\x00");
///
/// // Its sheet is the same.
/// let mut back = [0; 100];
/// let answer = cleared.read(moved, Budget::LARGEST, &mut back);
/// assert_eq!(&back[..answer.length], sheet);
/// # Ok::<(), scalgo::NotLawful>(())
/// ```
///
/// The write is refused by 12 only where the stored schema's would have been while unions in place
/// were written, by 13 where the message would be too large, for each object that stood in place gets
/// a header, and by 14. The cleared schema is no append: whoever reads the moved message needs it.
pub fn clear_unions(schema: &[u8], cleared: &mut [u8]) -> ClearAnswer {
    let mut length = 0;
    // SAFETY: each slice is given as its pointer, which is not null, and its length; no one writes
    // to the shared one during the call, and the output is lent to this function alone; the length
    // is this function's own; nothing is kept.
    let number = unsafe {
        scalgo_clear_unions(
            schema.as_ptr(),
            schema.len(),
            cleared.as_mut_ptr(),
            cleared.len(),
            &mut length,
        )
    };
    ClearAnswer {
        number,
        length: length as usize,
    }
}
