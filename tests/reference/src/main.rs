//! The second program as a command. See `USAGE`.

#![forbid(unsafe_code)]

use std::process::ExitCode;

use reference::{appends, clear_unions, field, judge, positions, read, with_added};
use reference::{without_appended, write, Answer, Budget, Lent};

const USAGE: &str = "\
usage: reference [--coding 32] COMMAND; without it the coding is 48
  reference positions SCHEMA OUT                     prints number, and on 0 the table to OUT
  reference judge SCHEMA MESSAGE VISITS CONTENT      prints number, place, member, visits, content
  reference read SCHEMA MESSAGE VISITS CONTENT OUT   the same, and on 0 the sheet to OUT
  reference write SCHEMA SHEET OUT                   prints number, and on 0 the message to OUT
  reference clear SCHEMA OUT                         prints number, and on 0 the schema to OUT
  reference field SCHEMA MESSAGE N N N..             prints the answer at the path
  reference appends OLD NEW                          prints yes or no
  reference without OLD NEW SHEET OUT                the newer sheet without the appended members
  reference with OLD NEW SHEET OUT                   the older sheet with the added members
SCHEMA, MESSAGE, SHEET, OLD, NEW and OUT are files; the others are numbers, VISITS and CONTENT
the two allowances. Every command makes the table of positions that it reads with. Clearing takes
a schema of coding 48, whatever coding is said.";

fn main() -> ExitCode {
    let arguments: Vec<String> = std::env::args().skip(1).collect();
    let words: Vec<&str> = arguments.iter().map(String::as_str).collect();
    match run(&words) {
        Ok(line) => {
            println!("{line}");
            ExitCode::SUCCESS
        }
        Err(trouble) => {
            eprintln!("{trouble}");
            ExitCode::from(2)
        }
    }
}

/// Runs one command and answers the line it prints.
fn run(words: &[&str]) -> Result<String, String> {
    match words {
        ["--coding", coding, words @ ..] => command(number(coding)?, words),
        _ => command(48, words),
    }
}

/// A command under the coding of this number.
fn command(coding: u32, words: &[&str]) -> Result<String, String> {
    match words {
        ["positions", schema, out] => {
            let (number, table) = positions(coding, &load(schema)?, usize::MAX);
            if number == 0 {
                save(out, &table)?;
            }
            Ok(number.to_string())
        }
        ["judge", schema, message, visits, content] => {
            let (schema, message) = (Tabled::load(coding, schema)?, load(message)?);
            let budget = budget(visits, content)?;
            Ok(verdict_line(judge(schema.lent(), &message, budget)))
        }
        ["read", schema, message, visits, content, out] => {
            let (schema, message) = (Tabled::load(coding, schema)?, load(message)?);
            let budget = budget(visits, content)?;
            let (verdict, sheet) = read(schema.lent(), &message, budget, usize::MAX);
            if verdict.number == 0 {
                save(out, &sheet)?;
            }
            Ok(verdict_line(verdict))
        }
        ["write", schema, sheet, out] => {
            let (number, message) = write(coding, &load(schema)?, &load(sheet)?, usize::MAX);
            if number == 0 {
                save(out, &message)?;
            }
            Ok(number.to_string())
        }
        ["clear", schema, out] => {
            let (number, cleared) = clear_unions(&load(schema)?, usize::MAX);
            if number == 0 {
                save(out, &cleared)?;
            }
            Ok(number.to_string())
        }
        ["field", schema, message, path @ ..] => {
            let path: Result<Vec<u32>, String> = path.iter().map(|word| number(word)).collect();
            let (schema, message) = (Tabled::load(coding, schema)?, load(message)?);
            Ok(answer_line(field(schema.lent(), &message, &path?)))
        }
        ["appends", old, new] => {
            let yes = appends(coding, &load(old)?, &load(new)?);
            Ok(String::from(if yes { "yes" } else { "no" }))
        }
        ["without", old, new, sheet, out] => carried(
            without_appended(coding, &load(old)?, &load(new)?, &load(sheet)?),
            out,
        ),
        ["with", old, new, sheet, out] => carried(
            with_added(coding, &load(old)?, &load(new)?, &load(sheet)?),
            out,
        ),
        _ => Err(String::from(USAGE)),
    }
}

/// A schema with the table that it has under a coding; with none if it is not lawful.
struct Tabled {
    coding: u32,
    schema: Vec<u8>,
    positions: Vec<u8>,
}

impl Tabled {
    fn load(coding: u32, file: &str) -> Result<Tabled, String> {
        let schema = load(file)?;
        let (_, positions) = positions(coding, &schema, usize::MAX);
        Ok(Tabled {
            coding,
            schema,
            positions,
        })
    }

    fn lent(&self) -> Lent<'_> {
        Lent {
            coding: self.coding,
            schema: &self.schema,
            positions: &self.positions,
        }
    }
}

/// Saves a sheet that was carried between two schemas, if there is one.
fn carried(sheet: Option<Vec<u8>>, out: &str) -> Result<String, String> {
    match sheet {
        Some(sheet) => {
            save(out, &sheet)?;
            Ok(String::from("done"))
        }
        None => Ok(String::from("none")),
    }
}

fn verdict_line(verdict: reference::Verdict) -> String {
    let (number, place, member) = (verdict.number, verdict.place, verdict.member);
    let (visits, content) = (verdict.visits, verdict.content);
    format!("{number} {place} {member} {visits} {content}")
}

fn answer_line(answer: Answer) -> String {
    match answer {
        Answer::Boolean(value) => format!("boolean {value}"),
        Answer::Number {
            bits,
            width,
            signed,
        } => {
            let sign = if signed { "signed" } else { "unsigned" };
            format!("number {bits:#x} {width} {sign}")
        }
        Answer::Float { bits, width } => format!("float {bits:#x} {width}"),
        Answer::Object {
            kind,
            place,
            length,
        } => format!("object {kind} {place} {length}"),
        Answer::Struct { place } => format!("struct {place}"),
        Answer::Absent => String::from("absent"),
        Answer::Unknown(number) => format!("unknown {number}"),
        Answer::Refused {
            number,
            place,
            member,
        } => format!("refused {number} {place} {member}"),
    }
}

fn load(file: &str) -> Result<Vec<u8>, String> {
    std::fs::read(file).map_err(|trouble| format!("{file}: {trouble}"))
}

fn save(file: &str, bytes: &[u8]) -> Result<(), String> {
    std::fs::write(file, bytes).map_err(|trouble| format!("{file}: {trouble}"))
}

fn budget(visits: &str, content: &str) -> Result<Budget, String> {
    let (visits, content) = (number(visits)?, number(content)?);
    Ok(Budget { visits, content })
}

fn number<N: std::str::FromStr>(word: &str) -> Result<N, String> {
    let bits = 8 * size_of::<N>();
    word.parse()
        .map_err(|_| format!("{word}: not a {bits}-bit unsigned number"))
}
