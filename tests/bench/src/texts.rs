//! Texts at volume: a day of checkout messages, and long and short texts in letters of one to four
//! bytes. Beside the library stand the second and the plain program, and the standard library's
//! check of the same texts alone.

use crate::judging::{ratio, ratios};
use crate::message::{Fixed, Message, LIST_MAGIC};
use crate::programs::plain_budget;
use crate::schema::{plain, Record, Schema, Table, BOOL, ENUM, LIST, TEXT, U16, U32, U64};
use crate::timing::{self, Plan, Times};
use scalgo::Budget;
use scalgo::Coding::Bits48;
use std::hint::black_box;
use std::ops::Range;
use std::str::from_utf8;

/// Messages under one schema, and the texts that are in them.
pub struct Batch {
    pub name: String,
    schema: scalgo::Schema,
    /// The messages, one behind the other.
    bytes: Vec<u8>,
    messages: Vec<Range<usize>>,
    texts: Vec<Range<usize>>,
    /// The objects of all messages.
    objects: u64,
}

/// What judging a batch comes to: the messages that are refused, and the sum of the visits.
#[derive(Debug, PartialEq)]
pub struct Judged {
    refused: u64,
    visits: u64,
}

impl Batch {
    fn new(name: &str, schema: &Schema) -> Batch {
        Batch {
            name: name.to_string(),
            schema: scalgo::Schema::new(Bits48, schema.pack()).expect("a lawful schema"),
            bytes: Vec::new(),
            messages: Vec::new(),
            texts: Vec::new(),
            objects: 0,
        }
    }

    /// Adds a message with its texts and the number of its objects.
    fn add(&mut self, message: Message, texts: &[Range<usize>], objects: usize) {
        let start = self.bytes.len();
        self.bytes.extend(message.finish());
        self.messages.push(start..self.bytes.len());
        let texts = texts
            .iter()
            .map(|text| start + text.start..start + text.end);
        self.texts.extend(texts);
        self.objects += objects as u64;
    }

    /// Judges every message; `judge` answers number and visits.
    fn judged(&self, judge: impl Fn(&[u8]) -> (u32, u32)) -> Judged {
        let mut judged = Judged {
            refused: 0,
            visits: 0,
        };
        for message in &self.messages {
            let (number, visits) = judge(black_box(&self.bytes[message.clone()]));
            judged.refused += u64::from(number != 0);
            judged.visits += u64::from(visits);
        }
        judged
    }

    pub fn ours(&self) -> Judged {
        self.judged(|message| {
            let verdict = self.schema.judge(message, Budget::LARGEST);
            (verdict.number, verdict.visits)
        })
    }

    fn second(&self) -> Judged {
        let lent = reference::Lent {
            coding: Bits48.number(),
            schema: self.schema.bytes(),
            positions: self.schema.positions(),
        };
        self.judged(|message| {
            let verdict = reference::judge(lent, message, reference::Budget::LARGEST);
            (verdict.number, verdict.visits)
        })
    }

    /// By the plain program, its schema decoded once.
    fn plain(&self, schema: &plain::Schema) -> Judged {
        let budget = plain_budget(Budget::LARGEST);
        self.judged(|message| {
            let verdict = schema.judge(message, budget);
            (verdict.number, verdict.visits)
        })
    }

    /// By the plain program's whole calls.
    fn plain_whole(&self) -> Judged {
        let budget = plain_budget(Budget::LARGEST);
        self.judged(|message| {
            let verdict = plain::judge(Bits48.number(), self.schema.bytes(), message, budget);
            (verdict.number, verdict.visits)
        })
    }

    fn decoded(&self) -> plain::Schema {
        plain::Schema::new(Bits48.number(), self.schema.bytes()).expect("a lawful schema")
    }

    /// How many texts the standard library accepts.
    fn texts_accepted(&self) -> usize {
        let texts = self
            .texts
            .iter()
            .map(|text| black_box(&self.bytes[text.clone()]));
        texts.filter(|text| from_utf8(text).is_ok()).count()
    }

    /// What is wrong with the batch, if anything is.
    pub fn fault(&self) -> Option<String> {
        let judged = [
            self.ours(),
            self.second(),
            self.plain(&self.decoded()),
            self.plain_whole(),
        ];
        let expected = Judged {
            refused: 0,
            visits: self.objects,
        };
        let texts = self.texts_accepted();
        let sound = judged.iter().all(|judged| *judged == expected) && texts == self.texts.len();
        (!sound).then(|| format!("{}: {judged:?}, {texts} texts accepted", self.name))
    }
}

/// Each batch is built when its turn comes.
pub const BATCHES: &[fn() -> Batch] = &[
    day,
    || long_text("10 MB of ASCII", ASCII),
    || long_text("10 MB of two-byte letters", TWO),
    || long_text("10 MB of three-byte letters", THREE),
    || long_text("10 MB of four-byte letters", FOUR),
    || names("names of 2 bytes, ASCII", 2, &["ab", "Li", "Jo", "Al"]),
    || names("names of 2 bytes, one letter", 2, &["ä", "Ö", "ß", "é"]),
    || names("names of 24 bytes, ASCII", 24, ASCII_NAMES),
    || names("names of 24 bytes, German", 24, GERMAN_NAMES),
    || names("names of 24 bytes, Japanese", 24, JAPANESE_NAMES),
    || names("names of 24 bytes, emoji", 24, EMOJI_NAMES),
];

const LEGEND: &str = "\
Texts: microseconds for all messages, the best of each, and ours by each of the others'.
  second: the second program.
  plain:  the plain Rust program, its schema decoded once beforehand.
  whole:  the plain Rust program's whole calls, which decode the schema each time, as ours do.
  std:    the standard library's from_utf8 of the same texts, and nothing else.";

fn print_head() {
    println!("{LEGEND}");
    println!(
        "{:>103} {:>7} {:>15} {:>7} {:>15} {:>23}",
        "", "by sec.", "ours by plain", "whole", "by std", "GB/s of text"
    );
    println!(
        "{:<38} {:>8} {:>6} {:>9} {:>9} {:>9} {:>9} {:>9} {:>7} {:>7} {:>7} {:>7} {:>7} {:>7} {:>7} {:>7} {:>7}",
        "batch", "texts", "MB", "ours", "second", "plain", "whole", "std", "best", "best", "median", "best", "best",
        "median", "ours", "plain", "std",
    );
}

/// Times every batch; false where one is not accepted by every program.
pub fn times(plan: &Plan) -> bool {
    print_head();
    let mut sound = true;
    for build in BATCHES {
        let batch = build();
        match batch.fault() {
            None => time(plan, &batch),
            Some(report) => {
                println!("{report}");
                sound = false;
            }
        }
    }
    sound
}

fn time(plan: &Plan, batch: &Batch) {
    let schema = batch.decoded();
    let [ours, second, plain, whole, std] = timing::in_turn(
        plan,
        [
            &|| _ = black_box(batch.ours()),
            &|| _ = black_box(batch.second()),
            &|| _ = black_box(batch.plain(&schema)),
            &|| _ = black_box(batch.plain_whole()),
            &|| _ = black_box(batch.texts_accepted()),
        ],
    );
    let bytes = batch.texts.iter().map(Range::len).sum::<usize>() as f64;
    let speed = |times: &Times| format!("{:>7.2}", bytes / times.best);
    println!(
        "{:<38} {:>8} {:>6.2} {:>9.1} {:>9.1} {:>9.1} {:>9.1} {:>9.1} {} {} {} {} {} {} {}",
        batch.name,
        batch.texts.len(),
        bytes / 1e6,
        ours.best / 1e3,
        second.best / 1e3,
        plain.best / 1e3,
        whole.best / 1e3,
        std.best / 1e3,
        ratio(ours.best / second.best),
        ratios(&ours, Some(&plain)),
        ratio(ours.best / whole.best),
        ratios(&ours, Some(&std)),
        speed(&ours),
        speed(&plain),
        speed(&std),
    );
}

const ASCII: &str = "All seats are taken; the next one falls free at ten. ";
const TWO: &str = "äöüßéñøåçžøþðæœłđħŋЖДЯШЩЮ";
const THREE: &str = "席はすべて埋まっています。次は十時に空きます。";
const FOUR: &str = "🦊🌲🎨🦉🌻🐝🦔🍄🪶🐚";

const ASCII_NAMES: &[&str] = &["Henrike van der Straaten", "Bartholomew J. Featherly"];
const GERMAN_NAMES: &[&str] = &["Jürgen Großmann-Hübel", "Käthe Weiß-Löwenstein"];
const JAPANESE_NAMES: &[&str] = &["山田太郎佐藤花子", "鈴木一郎高橋美咲"];
const EMOJI_NAMES: &[&str] = &["🦊🌲🎨🦉🌻🐝", "🐝🌻🦉🎨🌲🦊"];

/// A table with these members.
fn one_table(members: &[Record]) -> Schema {
    Schema {
        lists: vec![plain(TEXT)],
        tables: vec![Table::new(SEAT, members)],
        ..Schema::default()
    }
}

/// The id of "Seats at the counter".
const SEAT: u32 = 0x4C49_4345;

/// Puts a text and answers where its bytes are.
fn put_text(message: &mut Message, text: &str) -> Range<usize> {
    message.text(text.as_bytes());
    let end = message.end() - 1;
    end - text.len()..end
}

/// One message with one text of 10 MB or a few bytes less, of whole letters.
fn long_text(name: &str, letters: &str) -> Batch {
    let text = letters.repeat(10_000_000 / letters.len());
    let mut message = Message::new(Bits48);
    message.header(SEAT, 6);
    message.refer_behind();
    let text = put_text(&mut message, &text);
    let mut batch = Batch::new(name, &one_table(&[plain(TEXT)]));
    batch.add(message, &[text], 2);
    batch
}

/// One message with a list of 100,000 texts: these names in turn, each of so many bytes.
fn names(name: &str, bytes: usize, names: &[&str]) -> Batch {
    const NAMES: usize = 100_000;
    let sizes_hold = names.iter().all(|name| name.len() == bytes);
    assert!(sizes_hold, "{names:?} are not of {bytes} bytes each");
    let mut message = Message::new(Bits48);
    message.header(SEAT, 6);
    message.refer_behind();
    let names = (0..NAMES).map(|number| names[number % names.len()]);
    let texts = put_texts(&mut message, &names.collect::<Vec<_>>());
    let mut batch = Batch::new(name, &one_table(&[Record::of(LIST, 0)]));
    batch.add(message, &texts, 2 + NAMES);
    batch
}

/// Puts a list of texts and answers where their bytes are.
fn put_texts(message: &mut Message, texts: &[&str]) -> Vec<Range<usize>> {
    message.header(LIST_MAGIC, texts.len());
    let references = message.end();
    message.zeros(6 * texts.len());
    let put = |(number, text): (usize, &&str)| {
        message.set_offset(references + 6 * number, message.end());
        put_text(message, text)
    };
    texts.iter().enumerate().map(put).collect()
}

const PEOPLE: [&[&str]; 4] = [
    &[
        "Henrike Olsen",
        "Anna Schmidt",
        "J. Doe",
        "Robert Alan Walker",
        "Li Wei",
    ],
    &[
        "Jürgen Großmann",
        "Käthe Müller",
        "Björn Weiß",
        "Ägidius Löhr",
    ],
    &["山田太郎", "佐藤 花子", "鈴木一郎", "高橋美咲"],
    &["🦊", "Lena 🌲", "🎨 Studio 🖌", "🐝🐝🐝"],
];

const FEATURES: [&str; 6] = ["layout", "floor plan", "render", "export", "print", "share"];

/// Numbers that look like chance, the same in every run.
struct Chance(u64);

impl Chance {
    fn below(&mut self, n: usize) -> usize {
        self.0 = self
            .0
            .wrapping_mul(6_364_136_223_846_793_005)
            .wrapping_add(1);
        (self.0 >> 33) as usize % n
    }

    fn pick<T: Copy>(&mut self, things: &[T]) -> T {
        things[self.below(things.len())]
    }
}

/// 200,000 checkouts: the seat, a name, a host and the features asked for, and some numbers. The
/// names are ASCII, German, Japanese and emoji, a quarter each.
fn day() -> Batch {
    let schema = one_table(&[
        plain(U16),
        plain(TEXT),
        plain(TEXT),
        Record::of(LIST, 0),
        plain(U64),
        Record::of(ENUM, 4),
        plain(BOOL),
        plain(U32).optional(),
    ]);
    let mut batch = Batch::new("a day: 200,000 checkout messages", &schema);
    let mut chance = Chance(14);
    for number in 0..200_000 {
        let (message, texts) = checkout(number, &mut chance);
        batch.add(message, &texts, 2 + texts.len());
    }
    batch
}

fn checkout(number: usize, chance: &mut Chance) -> (Message, Vec<Range<usize>>) {
    let name = chance.pick(PEOPLE[number % 4]);
    let host = format!("seat-{:04}.atelier.example", chance.below(2000));
    let features: Vec<&str> = (0..chance.below(4))
        .map(|_| chance.pick(&FEATURES))
        .collect();
    let mut fixed = Fixed::default();
    fixed.put(&(number as u16).to_le_bytes());
    let [name_at, host_at, list_at] = [(); 3].map(|()| fixed.put(&[0; 6]));
    fixed.put(&(1_700_000_000 + number as u64).to_le_bytes());
    fixed.put(&[chance.below(4) as u8]);
    fixed.boolean(chance.below(2) == 1);
    fixed.boolean(true);
    fixed.put(&3600u32.to_le_bytes());
    let mut message = Message::new(Bits48);
    message.header(SEAT, fixed.bytes.len());
    let start = message.end();
    message.put(&fixed.bytes);
    let mut texts = Vec::new();
    for (at, text) in [(name_at, name), (host_at, &host)] {
        message.set_offset(start + at, message.end());
        texts.push(put_text(&mut message, text));
    }
    message.set_offset(start + list_at, message.end());
    texts.extend(put_texts(&mut message, &features));
    (message, texts)
}
