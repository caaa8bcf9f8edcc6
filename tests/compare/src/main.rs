//! Runs the tests at any length, under the 48-bit coding or with `--coding 32`
//! under the older one.
//!
//! `compare laws --cases N --seed S` runs the laws on the second program, with
//! `--library` on the proved library, or one case of a run with `--case K`.
//! `compare judge --cases N --seed S` judges N messages with the proved library
//! and the second program side by side, or those of one round of a run with
//! `--round K`; `compare plain` does so with the plain Rust program and the
//! second. `compare fields`, `reads`, `writes` and `clears` put N calls to both,
//! `compare positions` makes and lends N tables of positions, `compare moves` moves
//! N stored messages over to a schema without unions in place (of the 48-bit coding
//! alone), `compare texts` puts N texts in every way that one is held, and
//! `compare all` does each of these with N, and the laws on the library; its last
//! lines say how many answers of each sort were not refusal 1.
//! `compare utf8 --cases N --seed S` judges a message with one text by both, and
//! asks Rust's standard library besides: every text of up to three bytes, N random
//! ones of four, 10,000,000 if N is not said, and a tenth as many longer ones.
//! `compare cases FOLDER` writes the stored cases into the folder of their
//! crate, and `compare names` says what each of them is.

use compare::calls::{clears, fields, lists, moves, positions, reads, texts, writes};
use compare::calls::{LibraryCalls, SecondCalls};
use compare::coding::Coding;
use compare::counts::Counts;
use compare::every_text;
use compare::judging;
use compare::laws::{self, Programs};
use compare::plain_program::Plain;
use compare::program::{Judge, Library, Program, Second};
use compare::stored;
use compare::tally::Tally;
use std::path::Path;
use std::process::ExitCode;

const USAGE: &str = "usage: compare laws [--library] [--cases N] [--seed S] [--case K]
       compare judge|plain [--cases N] [--seed S] [--round K]
       compare fields|reads|writes|positions|clears|moves|texts|all [--cases N] [--seed S]
       compare utf8 [--cases N] [--seed S]
       compare cases FOLDER
       compare names
all but moves and the last two with [--coding 32]; without it the coding is 48";

/// What the words ask for.
struct Asked {
    coding: Coding,
    seed: u64,
    cases: Option<u64>,
    /// One case or round of a run alone.
    one: Option<u64>,
    library: bool,
    folder: Option<String>,
}

impl Asked {
    /// Reads the words after the command.
    fn new(words: &[String]) -> Result<Asked, String> {
        let mut asked = Asked {
            coding: Coding::Bits48,
            seed: 1,
            cases: None,
            one: None,
            library: false,
            folder: None,
        };
        let mut words = words.iter();
        while let Some(word) = words.next() {
            let mut number = || {
                let word = words.next().and_then(|word| word.parse::<u64>().ok());
                word.ok_or(USAGE)
            };
            match word.as_str() {
                "--coding" => asked.coding = coding(number()?).ok_or(USAGE)?,
                "--seed" => asked.seed = number()?,
                "--cases" => asked.cases = Some(number()?),
                "--case" | "--round" => asked.one = Some(number()?),
                "--library" => asked.library = true,
                _ if word.starts_with('-') || asked.folder.is_some() => return Err(USAGE.into()),
                _ => asked.folder = Some(word.clone()),
            }
        }
        Ok(asked)
    }

    /// The number of cases; 200,000 if none is said.
    fn cases(&self) -> u64 {
        self.cases.unwrap_or(200_000)
    }
}

fn coding(number: u64) -> Option<Coding> {
    u32::try_from(number).ok().and_then(Coding::of)
}

fn run_laws(asked: &Asked) -> Result<String, String> {
    let program: &dyn Program = match asked.library {
        true => &Library,
        false => &Second,
    };
    let programs = Programs {
        program,
        relations: &Second,
    };
    if let Some(case) = asked.one {
        let mut counts = Counts::default();
        laws::run_case(&programs, asked.coding, (asked.seed, case), &mut counts)?;
        return Ok(counts.to_string());
    }
    let cases = asked.cases.unwrap_or(100_000);
    Ok(laws::run(&programs, asked.coding, asked.seed, cases)?.to_string())
}

/// A judge beside the second program.
fn judges(judge: &dyn Judge, asked: &Asked) -> Result<Tally, String> {
    let (coding, seed) = (asked.coding, asked.seed);
    if let Some(round) = asked.one {
        let mut tally = Tally::default();
        judging::on_round(judge, &Second, coding, (seed, round), &mut tally)?;
        return Ok(tally);
    }
    judging::run(judge, &Second, coding, seed, asked.cases())
}

/// The C interface's calls put to both: `fields`, `reads`, `writes`, `positions`,
/// `clears`, `moves` or `texts`.
fn calls(sort: &str, asked: &Asked) -> Result<Counts, String> {
    let (coding, seed, cases) = (asked.coding, asked.seed, asked.cases());
    match sort {
        "fields" => fields::run(&LibraryCalls, &SecondCalls, coding, seed, cases),
        "reads" => reads::run(&LibraryCalls, &SecondCalls, coding, seed, cases),
        "writes" => writes::run(&LibraryCalls, &SecondCalls, coding, seed, cases),
        "positions" => positions::run(&LibraryCalls, &SecondCalls, coding, seed, cases),
        "clears" => clears::run(&LibraryCalls, &SecondCalls, coding, seed, cases),
        "moves" if coding.is_older() => Err(USAGE.to_string()),
        "moves" => moves::run(&LibraryCalls, &SecondCalls, seed, cases),
        _ => texts::run(&LibraryCalls, &SecondCalls, coding, seed, cases),
    }
}

/// Every short text and many others.
fn utf8(asked: &Asked) -> Result<String, String> {
    let cases = asked.cases.unwrap_or(10_000_000);
    let short = every_text::exhaustive(&LibraryCalls, asked.coding, 3)?;
    let others = every_text::random(&LibraryCalls, asked.coding, asked.seed, cases)?;
    Ok(short + &others)
}

/// Every side by side with so many calls each, and the laws on the library with
/// a tenth of as many cases.
fn run_all(asked: &Asked) -> Result<String, String> {
    let tally = judges(&LibraryCalls, asked)?;
    let [fields, reads, writes, positions, clears, texts] = [
        calls("fields", asked)?,
        calls("reads", asked)?,
        calls("writes", asked)?,
        calls("positions", asked)?,
        calls("clears", asked)?,
        calls("texts", asked)?,
    ];
    let moves = match asked.coding {
        Coding::Bits48 => calls("moves", asked)?.to_string(),
        Coding::Bits32 => String::new(),
    };
    let laws = run_laws(&Asked {
        cases: Some(asked.cases() / 10),
        library: true,
        folder: None,
        ..*asked
    })?;
    let beyond = [
        ("messages judged", tally.messages, tally.of_number(1)),
        answered(&fields, fields::ANSWERS, "refused 1"),
        answered(&fields, lists::CALLS, lists::REFUSED_1),
        (reads::CALLS, reads.named(reads::CALLS), reads.answers[1]),
        (
            writes::CALLS,
            writes.named(writes::CALLS),
            writes.answers[1],
        ),
        (
            clears::CALLS,
            clears.named(clears::CALLS),
            clears.answers[1],
        ),
    ];
    let mut seen =
        format!("{tally}\n{fields}\n{reads}\n{writes}\n{positions}\n{clears}\n{moves}\n");
    seen += &format!("{texts}\n{laws}\n");
    for (sort, all, refused) in beyond {
        let beyond = all - refused;
        seen += &format!("{:?}: {all} {sort}, {beyond} not refusal 1\n", asked.coding);
    }
    Ok(seen)
}

/// How often something was counted, and how often as refused by 1.
fn answered<'a>(counts: &Counts, sort: &'a str, refused: &str) -> (&'a str, u64, u64) {
    (sort, counts.named(sort), counts.named(refused))
}

fn write_cases(asked: &Asked) -> Result<String, String> {
    let folder = asked.folder.as_ref().ok_or(USAGE)?;
    match stored::write(Path::new(folder)) {
        Ok(count) => Ok(format!("{count} cases\n")),
        Err(error) => Err(error.to_string()),
    }
}

fn run(words: &[String]) -> Result<String, String> {
    let (command, rest) = words.split_first().ok_or(USAGE)?;
    let asked = Asked::new(rest)?;
    match command.as_str() {
        "laws" => run_laws(&asked),
        "judge" => Ok(judges(&LibraryCalls, &asked)?.to_string()),
        "plain" => Ok(judges(&Plain, &asked)?.to_string()),
        "fields" | "reads" | "writes" | "positions" | "clears" | "moves" | "texts" => {
            Ok(calls(command, &asked)?.to_string())
        }
        "utf8" => utf8(&asked),
        "all" => run_all(&asked),
        "cases" => write_cases(&asked),
        "names" => Ok(stored::names(&stored::cases())),
        _ => Err(USAGE.to_string()),
    }
}

fn main() -> ExitCode {
    let words: Vec<String> = std::env::args().skip(1).collect();
    match run(&words) {
        Ok(table) => {
            print!("{table}");
            ExitCode::SUCCESS
        }
        Err(report) => {
            eprintln!("{report}");
            ExitCode::from(if report == USAGE { 2 } else { 1 })
        }
    }
}
