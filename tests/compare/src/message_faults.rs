//! Single faults that a message can be given, and where in a value each one
//! has a place.

use crate::rng::Rng;
use crate::schema::*;
use crate::value::Value;

/// A fault of a message.
#[derive(Clone, Copy, Debug, PartialEq, Eq)]
pub enum FaultKind {
    Magic,
    SmallOffset,
    FarOffset,
    /// A length whose content does not fit: a direct list's count or size.
    LongLength,
    /// A direct list of another table's id.
    ElementId,
    /// A direct list's count over 4,294,967,295.
    CountOver,
    TextEnd,
    Cut,
    FlagWithoutValue,
    StructBool,
    UnionZero,
    /// A reference back to the object with this number.
    Cycle(usize),
}

impl FaultKind {
    /// What tables call it.
    pub fn name(&self) -> String {
        match self {
            FaultKind::Cycle(_) => "cycle".to_string(),
            other => format!("{other:?}"),
        }
    }
}

/// A fault and its place: the object, counted in walk order from 0, and the
/// member or element.
#[derive(Clone, Copy, Debug, PartialEq, Eq)]
pub struct Fault {
    pub object: usize,
    pub part: usize,
    pub kind: FaultKind,
}

struct Finder<'a> {
    schema: &'a Schema,
    next: usize,
    faults: Vec<Fault>,
    /// The objects reached by offset that are above the present one.
    above: Vec<(u8, u8, usize)>,
}

/// Every fault that a layout of this value can be given.
pub fn sites(schema: &Schema, root: &Value) -> Vec<Fault> {
    let mut finder = Finder {
        schema,
        next: 0,
        faults: Vec::new(),
        above: Vec::new(),
    };
    finder.object(&Record::plain(TABLE, schema.root), root, Held::ByOffset);
    finder.faults
}

/// How an object is held.
#[derive(Clone, Copy, Debug, PartialEq, Eq)]
pub enum Held {
    ByOffset,
    InPlace,
    /// As an element of a direct list.
    Direct,
}

impl Held {
    /// How an object holds a part of this record.
    pub fn of(holder: &Record, part: &Record) -> Held {
        match (holder.kind, part.in_place) {
            (DIRECT, _) => Held::Direct,
            (_, true) => Held::InPlace,
            (_, false) => Held::ByOffset,
        }
    }

    /// The bytes that stand before the content of an object so held.
    pub fn header(self, schema: &Schema, kind: u8) -> usize {
        match self {
            Held::ByOffset => schema.header(kind),
            Held::InPlace | Held::Direct => 0,
        }
    }
}

/// One of the faults, of a kind chosen first, so that rare kinds come up too.
pub fn choose(schema: &Schema, rng: &mut Rng, root: &Value) -> Fault {
    let sites = sites(schema, root);
    let mut kinds: Vec<String> = sites.iter().map(|site| site.kind.name()).collect();
    kinds.sort_unstable();
    kinds.dedup();
    let kind = &kinds[rng.below(kinds.len())];
    let fitting: Vec<Fault> = (sites.into_iter())
        .filter(|site| site.kind.name() == *kind)
        .collect();
    rng.pick(&fitting)
}

/// Whether a member can be absent while it is wholly inside its table.
pub fn may_be_absent(member: &Record) -> bool {
    member.optional || member.kind == ENUM || member.kind >= TEXT
}

/// Whether a fixed part of this length can say what the members say.
pub fn says(members: &[Record], slots: &[Slot], parts: &[Value], length: usize) -> bool {
    (0..members.len()).all(|i| match slots[i].reach(length) {
        Reach::Cut => false,
        Reach::Gone | Reach::FlagOnly => parts[i] == Value::Absent,
        Reach::Inside => parts[i] != Value::Absent || may_be_absent(&members[i]),
    })
}

impl Finder<'_> {
    fn add(&mut self, object: usize, part: usize, kind: FaultKind) {
        self.faults.push(Fault { object, part, kind });
    }

    fn object(&mut self, record: &Record, value: &Value, held: Held) {
        let index = self.next;
        self.next += 1;
        let by_offset = held == Held::ByOffset;
        if by_offset {
            self.add(index, 0, FaultKind::Magic);
            self.add(index, 0, FaultKind::SmallOffset);
            self.add(index, 0, FaultKind::FarOffset);
            self.above.push((record.kind, record.argument, index));
        }
        if held != Held::Direct {
            self.add(index, 0, FaultKind::LongLength);
        }
        if record.kind == TEXT {
            self.add(index, 0, FaultKind::TextEnd);
        }
        match value {
            Value::Table(parts) => self.table(index, record.argument, parts, &[]),
            Value::List(parts) if record.kind == DIRECT => {
                self.add(index, 0, FaultKind::ElementId);
                self.add(index, 0, FaultKind::CountOver);
                self.direct(record.argument, parts);
            }
            Value::List(parts) => {
                let element = self.schema.element_of(record);
                for (i, part) in parts.iter().enumerate() {
                    self.entry(index, i, &element, part);
                }
            }
            _ => {}
        }
        if by_offset {
            self.above.pop();
        }
    }

    /// The elements of a direct list.
    fn direct(&mut self, table: u8, elements: &[Value]) {
        for (number, element) in elements.iter().enumerate() {
            let index = self.next;
            self.next += 1;
            if let Value::Table(parts) = element {
                self.table(index, table, parts, &elements[..number]);
            }
        }
    }

    /// Whether every earlier element of a direct list says the same with this size.
    fn earlier_say(&self, table: u8, earlier: &[Value], size: usize) -> bool {
        let members = &self.schema.tables[usize::from(table)].members;
        let (slots, _) = self.schema.slots(table);
        earlier.iter().all(|element| match element {
            Value::Table(parts) => says(members, &slots, parts, size),
            _ => false,
        })
    }

    /// A table's members; `earlier` are the elements before it in a direct list.
    /// These have its size, so that a cut is the first element's.
    fn table(&mut self, index: usize, table: u8, parts: &[Value], earlier: &[Value]) {
        let schema = self.schema;
        let members = &schema.tables[usize::from(table)].members;
        let (slots, _) = schema.slots(table);
        let mut inside = true;
        for (i, (member, part)) in members.iter().zip(parts).enumerate() {
            let slot = slots[i];
            if inside && slot.end() - slot.first() >= 2 && earlier.is_empty() {
                self.add(index, i, FaultKind::Cut);
            }
            if inside
                && slot.start() < slot.first()
                && self.earlier_say(table, earlier, slot.first())
            {
                self.add(index, i, FaultKind::FlagWithoutValue);
            }
            if matches!(part, Value::Struct(_)) && schema.struct_has_bool(member.argument) {
                self.add(index, i, FaultKind::StructBool);
            }
            self.entry(index, i, member, part);
            inside &= *part != Value::Absent || may_be_absent(member);
        }
    }

    fn entry(&mut self, index: usize, part: usize, record: &Record, value: &Value) {
        let (record, value) = match value {
            Value::Union(choice, object) => {
                if !record.in_place {
                    self.add(index, part, FaultKind::UnionZero);
                }
                let cases = &self.schema.unions[usize::from(record.argument)];
                let mut case = cases[usize::from(*choice) - 1];
                case.in_place = record.in_place;
                (case, object.as_ref())
            }
            value => (*record, value),
        };
        if !matches!(value, Value::Blob(_) | Value::List(_) | Value::Table(_)) {
            return;
        }
        if !record.in_place {
            let key = (record.kind, record.argument);
            let targets: Vec<usize> = (self.above.iter())
                .filter(|(kind, argument, _)| (*kind, *argument) == key)
                .map(|(_, _, target)| *target)
                .collect();
            for target in targets {
                self.add(index, part, FaultKind::Cycle(target));
            }
        }
        let held = match record.in_place {
            true => Held::InPlace,
            false => Held::ByOffset,
        };
        self.object(&record, value, held);
    }
}
