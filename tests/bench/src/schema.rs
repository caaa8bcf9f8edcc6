//! A packed schema, built.

pub const BOOL: u8 = 0;
pub const U8: u8 = 1;
pub const U16: u8 = 2;
pub const U32: u8 = 3;
pub const U64: u8 = 4;
pub const F32: u8 = 9;
pub const F64: u8 = 10;
pub const ENUM: u8 = 11;
pub const STRUCT: u8 = 12;
pub const TEXT: u8 = 13;
pub const BYTES: u8 = 14;
pub const LIST: u8 = 15;
pub const TABLE: u8 = 16;
pub const UNION: u8 = 17;
pub const DIRECT: u8 = 18;

/// "Record, 16 bits: kind 5, optional 1, in place 1, zero 1, argument 8."
#[derive(Clone, Copy)]
pub struct Record(u16);

impl Record {
    /// A record whose argument is an index, or an enum's number of values.
    pub fn of(kind: u8, argument: usize) -> Record {
        Record(u16::from(kind) << 11 | argument as u16)
    }

    pub fn optional(self) -> Record {
        Record(self.0 | 1 << 10)
    }

    pub fn in_place(self) -> Record {
        Record(self.0 | 1 << 9)
    }
}

/// A record without an argument.
pub fn plain(kind: u8) -> Record {
    Record::of(kind, 0)
}

/// A table's id and members.
#[derive(Clone)]
pub struct Table {
    pub id: u32,
    pub members: Vec<Record>,
}

impl Table {
    pub fn new(id: u32, members: &[Record]) -> Table {
        Table {
            id,
            members: members.to_vec(),
        }
    }
}

/// The root is table 0.
#[derive(Clone, Default)]
pub struct Schema {
    pub structs: Vec<Vec<Record>>,
    pub lists: Vec<Record>,
    pub unions: Vec<Vec<Record>>,
    pub tables: Vec<Table>,
}

impl Schema {
    pub fn pack(&self) -> Vec<u8> {
        let counts = [
            self.structs.len(),
            self.lists.len(),
            self.unions.len(),
            self.tables.len(),
        ];
        let mut packed = counts.map(|count| count as u8).to_vec();
        packed.push(0);
        for members in &self.structs {
            put_counted(&mut packed, members);
        }
        put_records(&mut packed, &self.lists);
        for cases in &self.unions {
            put_counted(&mut packed, cases);
        }
        for table in &self.tables {
            packed.extend_from_slice(&table.id.to_be_bytes());
            put_counted(&mut packed, &table.members);
        }
        packed
    }
}

fn put_counted(packed: &mut Vec<u8>, records: &[Record]) {
    packed.push(records.len() as u8);
    put_records(packed, records);
}

fn put_records(packed: &mut Vec<u8>, records: &[Record]) {
    for record in records {
        packed.extend_from_slice(&record.0.to_be_bytes());
    }
}
