//! Messages, sheets and paths at their limits.

use super::*;
use crate::canonical;
use crate::doubling;
use crate::schema::*;
use crate::sheet;
use crate::value::{self, Value};

/// Runs the large cases once.
pub fn run(programs: &Programs, coding: Coding, counts: &mut Counts) -> Result<(), String> {
    let mut context = Context {
        coding,
        rng: Rng::new(0),
        counts,
        program: programs.program,
        relations: programs.relations,
    };
    let checks = [
        text_at_the_limit,
        absent_elements,
        shared_text,
        sizes,
        sheet_at_the_limit,
        longest_path,
        doubling,
    ];
    for check in checks {
        check(&mut context)
            .map_err(|failure| format!("{coding:?} large cases: {}", failure.text))?;
    }
    Ok(())
}

/// The bytes of a message start, a root of one reference and another header.
fn before_content(coding: Coding) -> usize {
    3 * coding.header() + coding.offset()
}

/// A text whose message has exactly the largest size, and one byte more.
fn text_at_the_limit(context: &mut Context) -> Checked {
    let schema = root_with(context.coding, Record::plain(TEXT, 0));
    let packed = schema.pack();
    for over in [0, 1] {
        let text = vec![b'x'; SIZE_LIMIT - before_content(context.coding) - 1 + over];
        let value = Value::Table(vec![Value::Blob(text)]);
        let bytes = sheet::encode(&schema, &value);
        let (number, message) = context.write(&packed, &bytes, SIZE_LIMIT + 100);
        let data: Data = &[("schema", packed.bytes())];
        not_written(context, &schema, value.clone())?;
        if over == 1 {
            same(
                "one byte over the size",
                &(13, 0),
                &(number, message.len()),
                data,
            )?;
            let (number, _) = context.write(&packed, &bytes, 0);
            same("13 comes before 14", &13, &number, data)?;
            continue;
        }
        let expected = canonical::message(&schema, &value);
        same(
            "exactly the size",
            &(0, true),
            &(number, message == expected),
            data,
        )?;
        same("exactly the size", &SIZE_LIMIT, &message.len(), data)?;
        let spent = value::spent(&schema, &value);
        let (verdict, back) = context.read(&packed, &message, spent, bytes.len());
        let read = (verdict, back == bytes);
        same(
            "reading the size",
            &(accepted_with(spent), true),
            &read,
            data,
        )?;
    }
    Ok(())
}

/// The same with a last byte that is no text's: 12, before 13 and 14.
fn not_written(context: &mut Context, schema: &Schema, mut value: Value) -> Checked {
    let packed = schema.pack();
    let data: Data = &[("schema", packed.bytes())];
    if let Value::Table(members) = &mut value {
        if let Some(Value::Blob(text)) = members.first_mut() {
            *text.last_mut().expect("a long text") = 0xC2;
        }
    }
    let bytes = sheet::encode(schema, &value);
    for room in [0, SIZE_LIMIT] {
        let given = context.write(&packed, &bytes, room);
        same("12 comes before 13", &(12, Vec::new()), &given, data)?;
    }
    Ok(())
}

/// A list of absent elements is far larger in a message than in a sheet.
fn absent_elements(context: &mut Context) -> Checked {
    let mut schema = root_with(context.coding, Record::plain(LIST, 0));
    for kind in [
        F64,
        if context.coding.is_older() {
            TEXT
        } else {
            UNION
        },
    ] {
        let element = Record::plain(kind, 0);
        schema.lists = vec![element];
        schema.unions = vec![vec![Record::plain(TEXT, 0)]];
        let packed = schema.pack();
        let fitting = (SIZE_LIMIT - before_content(context.coding)) / schema.value_size(&element);
        let data: Data = &[("schema", packed.bytes())];
        let value = Value::Table(vec![Value::List(vec![Value::Absent; fitting + 1])]);
        let bytes = sheet::encode(&schema, &value);
        for room in 0..51 {
            let (number, message) = context.write(&packed, &bytes, room);
            same(
                "absent elements over the size",
                &(13, 0),
                &(number, message.len()),
                data,
            )?;
        }
    }
    Ok(())
}

/// A small message whose sheet has exactly the largest size, and ones over it.
fn shared_text(context: &mut Context) -> Checked {
    let mut schema = root_with(context.coding, Record::plain(LIST, 0));
    schema.tables[0].members.push(Record::plain(BYTES, 0));
    schema.lists = vec![Record::plain(TEXT, 0)];
    let packed = schema.pack();
    let data: Data = &[("schema", packed.bytes())];
    let (text, count) = (65_536, 255);
    // Mark and length, 34 bits, for the list, each text and the blob.
    let bits = 34 * (2 + count) + 8 * text * count;
    let blob = (8 * SIZE_LIMIT - bits) / 8;
    for (count, blob, number) in [(count, blob, 0), (count, blob + 1, 14), (300, 0, 14)] {
        let message = naming_one_text(&schema, text, count, blob);
        // The root, the list, the text each time, and the blob.
        let visits = 3 + count as u32;
        let content = ((2 + count) * context.coding.offset() + count * text + blob) as u64;
        let spent = Budget { visits, content };
        let verdict = context.judge(&packed, &message, spent);
        let expected = accepted(visits, content);
        same("a text named often", &expected, &verdict, data)?;
        let (verdict, sheet) = context.read(&packed, &message, spent, SIZE_LIMIT + 1000);
        let expected = super::verdict(number, 0, visits, content);
        same("its sheet", &expected, &verdict, data)?;
        let length = if number == 0 { SIZE_LIMIT } else { 0 };
        same("its sheet's length", &length, &sheet.len(), data)?;
    }
    Ok(())
}

/// A message with a list that names one text over and over, and a blob.
fn naming_one_text(schema: &Schema, text: usize, count: usize, blob: usize) -> Vec<u8> {
    let texts = Value::List(vec![Value::Blob(vec![b'y'; text])]);
    let one = Value::Table(vec![texts, Value::Blob(vec![b'z'; blob])]);
    let mut message = canonical::message(schema, &one);
    let coding = schema.coding;
    let (offset, header) = (coding.offset(), coding.header());
    let list = coding.bytes(message.len() as u64);
    message[2 * header..2 * header + offset].copy_from_slice(&list);
    message.extend_from_slice(&0x3400_BB46u32.to_le_bytes());
    message.extend(coding.bytes(count as u64));
    // The text stands after the start, the root and the first list.
    let text = header + (header + 2 * offset) + (header + offset);
    for _ in 0..count {
        message.extend(coding.bytes(text as u64));
    }
    message
}

/// A message and a sheet one byte over the size.
fn sizes(context: &mut Context) -> Checked {
    let schema = root_with(context.coding, Record::plain(BYTES, 0));
    let packed = schema.pack();
    let blob = vec![7; 100];
    let value = Value::Table(vec![Value::Blob(blob)]);
    let mut message = canonical::message(&schema, &value);
    message.resize(SIZE_LIMIT, 0xAA);
    let data: Data = &[("schema", packed.bytes())];
    let verdict = context.judge(&packed, &message, AMPLE);
    let expected = accepted(2, context.coding.offset() as u64 + 100);
    same("a message of the size", &expected, &verdict, data)?;
    message.push(0);
    starts::refused(context, &packed, &message, 2)?;
    let mut bytes = sheet::encode(&schema, &value);
    bytes.resize(SIZE_LIMIT + 1, 0);
    let (number, written) = context.write(&packed, &bytes, SIZE_LIMIT + 1000);
    same(
        "a sheet over the size",
        &(11, 0),
        &(number, written.len()),
        data,
    )
}

/// 32 tables, each inside the one before, and 64 structs, each inside the
/// next: the innermost number has a path of 96 numbers.
fn longest_path(context: &mut Context) -> Checked {
    let back = Record::plain(TABLE, 0);
    let mut schema = root_with(context.coding, back);
    schema.tables[0].members.push(Record::plain(STRUCT, 63));
    schema.structs = vec![vec![Record::plain(5, 0)]];
    let mut inner = Value::Struct(vec![Value::Number(0xFE)]);
    for index in 0..63 {
        schema.structs.push(vec![Record::plain(STRUCT, index)]);
        inner = Value::Struct(vec![inner]);
    }
    let mut value = Value::Table(vec![Value::Absent, inner.clone()]);
    for _ in 1..DEPTH_LIMIT {
        value = Value::Table(vec![value, inner.clone()]);
    }
    let packed = schema.pack();
    let message = canonical::message(&schema, &value);
    let data: Data = &[("schema", packed.bytes()), ("message", &message)];
    let mut path = vec![0; 31];
    path.push(1);
    path.resize(96, 0);
    let (bits, width, signed) = (0xFE, 8, true);
    let answer = Answer::Number {
        bits,
        width,
        signed,
    };
    let given = context.field(&packed, &message, &path);
    same("the longest path", &answer, &given, data)?;
    path.push(0);
    let given = context.field(&packed, &message, &path);
    same("a path one longer", &refused(15, 0), &given, data)
}

/// Lists that each name the next table twice, so that the walk doubles 15
/// times over.
fn doubling(context: &mut Context) -> Checked {
    let schema = doubling::schema(context.coding);
    let packed = schema.pack();
    let levels = 15;
    let message = doubling::message(&schema, levels);
    let spent = doubling::spent(context.coding, levels);
    let Budget { visits, content } = spent;
    let data: Data = &[("schema", packed.bytes()), ("message", &message)];
    for budget in [spent, Budget::LARGEST] {
        let verdict = context.judge(&packed, &message, budget);
        let expected = accepted(visits, content);
        same("a walk that doubles", &expected, &verdict, data)?;
    }
    // The last table is not visited, or is and adds nothing.
    let last = doubling::table_at(context.coding, levels);
    let before = content - context.coding.offset() as u64;
    let verdict = context.judge(&packed, &message, Budget::of_visits(visits - 1));
    let short = super::verdict(4, last, visits - 1, before);
    same("a walk that doubles, a visit less", &short, &verdict, data)?;
    let content = content - 1;
    let verdict = context.judge(&packed, &message, Budget { visits, content });
    let short = super::verdict(17, last, visits, before);
    same("a walk that doubles, a byte less", &short, &verdict, data)
}

/// A sheet of exactly the largest size, whose message is smaller, and one a
/// byte longer: list elements of 64 bits take 66 in a sheet.
fn sheet_at_the_limit(context: &mut Context) -> Checked {
    let mut schema = root_with(context.coding, Record::plain(LIST, 0));
    schema.tables[0].members.push(Record::plain(BYTES, 0));
    schema.lists = vec![Record::plain(F64, 0)];
    let packed = schema.pack();
    let data: Data = &[("schema", packed.bytes())];
    let count = (8 * SIZE_LIMIT - 100) / 66;
    let blob = (8 * SIZE_LIMIT - 68 - 66 * count) / 8;
    for (blob, number) in [(blob, 0), (blob + 1, 11)] {
        let list = Value::List(vec![Value::Number(1 << 62); count]);
        let value = Value::Table(vec![list, Value::Blob(vec![3; blob])]);
        let bytes = sheet::encode(&schema, &value);
        let over = usize::from(number == 11);
        same(
            "a sheet near the size",
            &(SIZE_LIMIT + over),
            &bytes.len(),
            data,
        )?;
        let (given, message) = context.write(&packed, &bytes, SIZE_LIMIT);
        same("writing it", &number, &given, data)?;
        if number == 0 {
            let expected = canonical::message(&schema, &value);
            same("its message", &true, &(message == expected), data)?;
            let spent = value::spent(&schema, &value);
            let (verdict, back) = context.read(&packed, &message, spent, SIZE_LIMIT);
            let given = (verdict, back == bytes);
            same(
                "reading it back",
                &(accepted_with(spent), true),
                &given,
                data,
            )?;
        }
    }
    Ok(())
}
