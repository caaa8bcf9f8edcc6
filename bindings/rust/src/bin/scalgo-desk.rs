//! The whole library at the desk, on files. See `USAGE`.

use scalgo::{Answer, Budget, Coding, NotLawful, Schema, Verdict};
use std::process::ExitCode;
use std::str::FromStr;

const USAGE: &str = "\
usage: scalgo-desk [--coding 32] [--visits N] [--content N] COMMAND
  scalgo-desk judge SCHEMA MESSAGE          prints number, place, visits, content, and any member
  scalgo-desk field SCHEMA MESSAGE N N N..  prints what stands at the path
  scalgo-desk list SCHEMA MESSAGE N N N..   prints what each element of the list is
  scalgo-desk read SCHEMA MESSAGE SHEET     prints the same with the length; writes SHEET
  scalgo-desk write SCHEMA SHEET MESSAGE    prints number, length; writes MESSAGE
  scalgo-desk migrate SCHEMA MESSAGE NEW-SCHEMA NEW-MESSAGE
                                            moves a stored message over to a schema without unions
                                            in place; prints what read does where it refuses, else
                                            what write does; writes NEW-SCHEMA and NEW-MESSAGE
SCHEMA, MESSAGE and SHEET are files; a refusal writes none. The coding is 48 unless it is said, and
100000 objects may be visited, with content of as many bytes as there are.
A text that is not UTF-8 is refused by 16, and writing a sheet with one by 12. Under 48 bits writing
a sheet in which a union in place is present is refused by 12; under 32 bits they stay.";

/// What the words before the command say, or else 48 bits, 100,000 visits and all content.
struct Asked {
    coding: Coding,
    budget: Budget,
}

impl Asked {
    /// The schema of a file's bytes.
    fn schema(&self, bytes: Vec<u8>) -> Result<Schema, NotLawful> {
        Schema::new(self.coding, bytes)
    }
}

/// The most bytes of a sheet or a message.
const SIZE: usize = 16_777_215;

fn main() -> ExitCode {
    let arguments: Vec<String> = std::env::args().skip(1).collect();
    let words: Vec<&str> = arguments.iter().map(String::as_str).collect();
    match run(&words) {
        Ok(text) => {
            print!("{text}");
            ExitCode::SUCCESS
        }
        Err(trouble) => {
            eprintln!("{trouble}");
            ExitCode::from(2)
        }
    }
}

/// Runs one command and gives what it prints.
fn run(mut words: &[&str]) -> Result<String, String> {
    let mut asked = Asked {
        coding: Coding::Bits48,
        budget: Budget::of_visits(100_000),
    };
    while let [flag @ ("--coding" | "--visits" | "--content"), word, rest @ ..] = words {
        match *flag {
            "--coding" => asked.coding = coding(word)?,
            "--visits" => asked.budget.visits = number(word)?,
            _ => asked.budget.content = number(word)?,
        }
        words = rest;
    }
    command(&asked, words)
}

fn command(asked: &Asked, words: &[&str]) -> Result<String, String> {
    match words {
        ["judge", schema, message] => {
            let (schema, message) = (load(schema)?, load(message)?);
            let verdict = match asked.schema(schema) {
                Ok(schema) => schema.judge(&message, asked.budget),
                Err(refusal) => refusal.into(),
            };
            Ok(format!("{}\n", verdict_line(verdict, "")))
        }
        ["field", schema, message, path @ ..] => {
            let (schema, message, path) = (load(schema)?, load(message)?, numbers(path)?);
            let said = match asked.schema(schema) {
                Ok(schema) => field(&schema, &message, &path),
                Err(refusal) => line(refusal.into()),
            };
            Ok(said + "\n")
        }
        ["list", schema, message, path @ ..] => {
            let (schema, message, path) = (load(schema)?, load(message)?, numbers(path)?);
            Ok(match asked.schema(schema) {
                Ok(schema) => list(&schema, &message, &path),
                Err(refusal) => line(refusal.into()) + "\n",
            })
        }
        ["read", schema, message, sheet] => read(asked, load(schema)?, &load(message)?, sheet),
        ["write", schema, sheet, message] => write(asked, load(schema)?, &load(sheet)?, message),
        ["migrate", schema, message, new_schema, new_message] => {
            let (schema, message) = (load(schema)?, load(message)?);
            migrate(asked, schema, &message, [new_schema, new_message])
        }
        _ => Err(USAGE.to_string()),
    }
}

/// What stands at a path, a text or bytes with its content.
fn field(schema: &Schema, message: &[u8], path: &[u32]) -> String {
    let line = line(schema.field(message, path));
    if let Some(text) = schema.text_str(message, path) {
        return format!("{line}: {}", text.escape_debug());
    }
    match schema.text(message, path) {
        Some(bytes) => format!("{line}: {}", bytes.escape_ascii()),
        None => line,
    }
}

fn list(schema: &Schema, message: &[u8], path: &[u32]) -> String {
    match schema.list(message, path) {
        Ok(list) => list.map(|element| line(element) + "\n").collect(),
        Err(refusal) => line(refusal) + "\n",
    }
}

fn read(asked: &Asked, schema: Vec<u8>, message: &[u8], file: &str) -> Result<String, String> {
    let mut sheet = vec![0; SIZE];
    let (verdict, length) = match asked.schema(schema) {
        Ok(schema) => {
            let answer = schema.read(message, asked.budget, &mut sheet);
            (answer.verdict, answer.length)
        }
        Err(refusal) => (refusal.into(), 0),
    };
    if verdict.accepted() {
        save(file, &sheet[..length])?;
    }
    Ok(format!(
        "{}\n",
        verdict_line(verdict, &format!(" {length}"))
    ))
}

fn write(asked: &Asked, schema: Vec<u8>, sheet: &[u8], file: &str) -> Result<String, String> {
    let mut message = vec![0; SIZE];
    let (number, length) = match asked.schema(schema) {
        Ok(schema) => {
            let answer = schema.write(sheet, &mut message);
            (answer.number, answer.length)
        }
        Err(_) => (NotLawful::NUMBER, 0),
    };
    if number == 0 {
        save(file, &message[..length])?;
    }
    Ok(format!("{number} {length}\n"))
}

/// Moves a stored message over: its sheet is read by its schema and written with that schema cleared.
fn migrate(
    asked: &Asked,
    schema: Vec<u8>,
    message: &[u8],
    [new_schema, new_message]: [&str; 2],
) -> Result<String, String> {
    if asked.coding != Coding::Bits48 {
        let why = "migrate: messages of 32 bits keep their unions in place and are not moved over";
        return Err(why.to_string());
    }
    let stored = match asked.schema(schema) {
        Ok(schema) => schema,
        Err(refusal) => return Ok(format!("{}\n", verdict_line(refusal.into(), " 0"))),
    };
    let mut sheet = vec![0; SIZE];
    let read = stored.read(message, asked.budget, &mut sheet);
    if !read.verdict.accepted() {
        return Ok(format!("{}\n", verdict_line(read.verdict, " 0")));
    }
    let sheet = &sheet[..read.length];
    let cleared = cleared(&stored)?;
    let mut moved = vec![0; SIZE];
    let answer = cleared.write(sheet, &mut moved);
    if answer.number == 0 {
        let moved = &moved[..answer.length];
        same_sheet(&cleared, moved, sheet)?;
        save(new_schema, cleared.bytes())?;
        save(new_message, moved)?;
    }
    Ok(format!("{} {}\n", answer.number, answer.length))
}

/// The schema that stored messages are moved over to.
fn cleared(stored: &Schema) -> Result<Schema, String> {
    let mut cleared = vec![0; stored.bytes().len()];
    let answer = scalgo::clear_unions(stored.bytes(), &mut cleared);
    match (answer.number, Schema::new(Coding::Bits48, cleared)) {
        (0, Ok(schema)) => Ok(schema),
        (number, _) => Err(format!("migrate: the schema was not cleared: {number}")),
    }
}

/// Makes sure that a message that was written has the sheet it was written from.
fn same_sheet(schema: &Schema, message: &[u8], sheet: &[u8]) -> Result<(), String> {
    let mut back = vec![0; SIZE];
    let answer = schema.read(message, Budget::LARGEST, &mut back);
    match answer.verdict.accepted() && back[..answer.length] == *sheet {
        true => Ok(()),
        false => Err(format!(
            "migrate: the new message has another sheet: {}",
            verdict_line(answer.verdict, "")
        )),
    }
}

/// A verdict's numbers, what is said behind them, and the member.
fn verdict_line(verdict: Verdict, more: &str) -> String {
    let (number, place) = (verdict.number, verdict.place);
    let (visits, content) = (verdict.visits, verdict.content);
    let member = member(verdict.member);
    format!("{number} {place} {visits} {content}{more}{member}")
}

/// The member in words, where there is one.
fn member(number: Option<u32>) -> String {
    number.map_or(String::new(), |number| format!(", member {number}"))
}

/// An answer in words.
fn line(answer: Answer) -> String {
    match answer {
        Answer::Boolean(value) => format!("boolean {value}"),
        Answer::Number {
            bits,
            width,
            signed: false,
        } => format!("unsigned number of {width} bits: {bits}"),
        Answer::Number { bits, width, .. } => {
            format!("signed number of {width} bits: {}", signed(bits, width))
        }
        Answer::Float { bits, width: 32 } => {
            format!("float of 32 bits: {}", f32::from_bits(bits as u32))
        }
        Answer::Float { bits, width } => {
            format!("float of {width} bits: {}", f64::from_bits(bits))
        }
        Answer::Object {
            kind,
            place,
            length,
        } => format!("{} at {place}, length {length}", name(kind)),
        Answer::Struct { place } => format!("struct at {place}"),
        Answer::Absent => "absent".to_string(),
        Answer::Unknown(number) => format!("unknown {number}"),
        Answer::Refused {
            number,
            place,
            member: part,
        } => format!("refused: {number} at {place}{}", member(part)),
    }
}

/// The number whose two's complement of so many bits these are.
fn signed(bits: u64, width: u32) -> i64 {
    let unused = 64 - width.clamp(1, 64);
    (bits << unused) as i64 >> unused
}

fn name(kind: u8) -> &'static str {
    match kind {
        13 => "text",
        14 => "bytes",
        15 => "list",
        18 => "direct list",
        _ => "table",
    }
}

fn load(file: &str) -> Result<Vec<u8>, String> {
    std::fs::read(file).map_err(|trouble| format!("{file}: {trouble}"))
}

fn save(file: &str, bytes: &[u8]) -> Result<(), String> {
    std::fs::write(file, bytes).map_err(|trouble| format!("{file}: {trouble}"))
}

fn coding(word: &str) -> Result<Coding, String> {
    let coding = word.parse().ok().and_then(Coding::of);
    coding.ok_or_else(|| format!("{word}: no coding"))
}

fn number<N: FromStr>(word: &str) -> Result<N, String> {
    let bits = 8 * size_of::<N>();
    let parsed = word.parse();
    parsed.map_err(|_| format!("{word}: no number of {bits} bits"))
}

fn numbers(words: &[&str]) -> Result<Vec<u32>, String> {
    words.iter().map(|word| number(word)).collect()
}
