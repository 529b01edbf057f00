//! Holds docs/FORMAT.md to the linked library: every example of the page is taken from the page and judged.
//!
//! A table is known by the names of its columns, an annotated file by its fence: `capture` for a file, `answer`
//! for the bytes of an answer. `(0A × 3)` stands for `0A 0A 0A`. The annotated files are spelled by the page's own
//! tables of objects, operations and returns, so that these are held too.

use kilteshva::{judge, raw, Answer, Model, Refusal};
use std::collections::BTreeSet;
use std::fs;

const MODELS: [Model; 2] = [Model::Linearizable, Model::Sequential];

/// What the header of a register has before its value.
const REGISTER: &[u8] = b"RAW1\x00";

// The page, taken apart.

struct Page {
    tables: Vec<Table>,
    /// The lines of each fenced block, by the word behind its fence.
    blocks: Vec<(String, Vec<String>)>,
    /// The lines that stand in no fenced block.
    lines: Vec<String>,
}

struct Table {
    columns: Vec<String>,
    rows: Vec<Vec<String>>,
}

fn page() -> Page {
    let path = concat!(env!("CARGO_MANIFEST_DIR"), "/../../docs/FORMAT.md");
    let text = fs::read_to_string(path).expect("docs/FORMAT.md");
    let mut page = Page {
        tables: Vec::new(),
        blocks: Vec::new(),
        lines: Vec::new(),
    };
    let mut fenced = false;
    for line in text.lines() {
        if let Some(word) = line.strip_prefix("```") {
            fenced = !fenced;
            if fenced {
                page.blocks.push((word.to_string(), Vec::new()));
            }
        } else if fenced {
            let (_, lines) = page.blocks.last_mut().expect("an open block");
            lines.push(line.to_string());
        } else {
            page.lines.push(line.to_string());
        }
    }
    assert!(!fenced, "a block is not closed");
    page.tables = tables(&page.lines);
    page
}

fn tables(lines: &[String]) -> Vec<Table> {
    let runs = lines.split(|line| !line.starts_with('|'));
    runs.filter(|run| !run.is_empty())
        .map(|run| Table {
            columns: cells(&run[0]),
            rows: run[2..].iter().map(|line| cells(line)).collect(),
        })
        .collect()
}

fn cells(line: &str) -> Vec<String> {
    let inner = line.trim().trim_matches('|');
    inner.split('|').map(|cell| cell.trim().into()).collect()
}

impl Page {
    /// The cells of these columns, of every table that has them all.
    fn rows<const N: usize>(&self, columns: [&str; N]) -> Vec<[String; N]> {
        let mut rows = Vec::new();
        for table in &self.tables {
            let of = |name: &str| table.columns.iter().position(|column| column == name);
            let places = columns.map(of);
            if places.iter().all(Option::is_some) {
                let taken = |row: &Vec<String>| places.map(|place| row[place.unwrap()].clone());
                rows.extend(table.rows.iter().map(taken));
            }
        }
        rows
    }

    fn blocks(&self, word: &str) -> Vec<&Vec<String>> {
        let named = self.blocks.iter().filter(|(named, _)| named == word);
        named.map(|(_, lines)| lines).collect()
    }
}

// Examples.

/// A file with what a model has to say of it.
struct Example {
    file: Vec<u8>,
    model: Model,
    budget: u64,
    answer: String,
}

fn examples(page: &Page) -> Vec<Example> {
    let mut examples = Vec::new();
    let mut add = |file: &str, model, answer: &str| {
        examples.push(Example {
            file: quoted(file),
            model,
            budget: u64::MAX,
            answer: answer.to_string(),
        })
    };
    for [file, answer] in page.rows(["file", "both models"]) {
        for model in MODELS {
            add(&file, model, &answer);
        }
    }
    for [file, linearizable, sequential] in page.rows(["file", "linearizable", "sequential"]) {
        add(&file, Model::Linearizable, &linearizable);
        add(&file, Model::Sequential, &sequential);
    }
    for capture in captures(page) {
        examples.extend(capture.examples);
    }
    examples
}

/// The words with each `(… × n)` written out.
fn expanded(words: &str) -> String {
    let bracket = words.split_once('(');
    let Some((before, (inner, after))) =
        bracket.and_then(|(before, rest)| Some((before, rest.split_once(')')?)))
    else {
        return words.to_string();
    };
    let Some((part, times)) = inner.split_once(" × ") else {
        return format!("{before}({inner}){}", expanded(after));
    };
    let times = times.parse().expect("how often");
    let repeated = vec![part; times].join(" ");
    format!("{before}{repeated}{}", expanded(after))
}

/// Bytes in hex, or none if these are no bytes.
fn hex(words: &str) -> Option<Vec<u8>> {
    let upper = |digit: u8| digit.is_ascii_digit() || (b'A'..=b'F').contains(&digit);
    let byte = |pair: &str| {
        let hex = pair.len() == 2 && pair.bytes().all(upper);
        u8::from_str_radix(pair, 16).ok().filter(|_| hex)
    };
    expanded(words).split_whitespace().map(byte).collect()
}

fn bytes(words: &str) -> Vec<u8> {
    hex(words).unwrap_or_else(|| panic!("no bytes: {words}"))
}

/// Bytes in backquotes; `(empty)` is none.
fn quoted(cell: &str) -> Vec<u8> {
    let inner = cell
        .strip_prefix('`')
        .and_then(|rest| rest.strip_suffix('`'));
    match inner {
        Some(inner) => bytes(inner),
        None if cell == "(empty)" => Vec::new(),
        None => panic!("no bytes in backquotes: {cell}"),
    }
}

/// A decimal number, with or without commas.
fn decimal(words: &str) -> i64 {
    let digits = words.replace(',', "");
    digits.parse().unwrap_or_else(|_| panic!("{words}"))
}

/// An answer in the page's words, without and with its attempts.
fn worded(answer: &Answer) -> [String; 2] {
    let (words, attempts) = match answer {
        Answer::Order { threads, attempts } if threads.is_empty() => {
            ("Order, empty".to_string(), Some(*attempts))
        }
        Answer::Order { threads, attempts } => {
            let threads: Vec<String> = threads.iter().map(u8::to_string).collect();
            (format!("Order {}", threads.join(" ")), Some(*attempts))
        }
        Answer::NoOrder { attempts } => ("No order".to_string(), Some(*attempts)),
        Answer::Undecided { attempts } => ("Undecided".to_string(), Some(*attempts)),
        Answer::Invalid { refusal, place } => {
            (format!("Invalid {} at {place}", refusal.number()), None)
        }
        Answer::Refused { refusal, place } => {
            (format!("Refused {} at {place}", refusal.number()), None)
        }
        other => panic!("{other:?}"),
    };
    let counted = match attempts {
        None => words.clone(),
        Some(1) => format!("{words} (1 attempt)"),
        Some(attempts) => format!("{words} ({attempts} attempts)"),
    };
    [words, counted]
}

// Annotated files.

struct Capture {
    fields: Vec<Field>,
    examples: Vec<Example>,
}

/// A line of an annotated file.
struct Field {
    place: usize,
    bytes: Vec<u8>,
    words: String,
}

/// `13  03  thread 1 returns`, or none if the line doesn't begin with a place.
fn field(line: &str) -> Option<Field> {
    let (place, rest) = line.trim_start().split_once("  ")?;
    let (shown, words) = rest.split_once("  ")?;
    Some(Field {
        place: place.parse().ok()?,
        bytes: bytes(shown),
        words: words.trim().to_string(),
    })
}

fn captures(page: &Page) -> Vec<Capture> {
    let blocks = page.blocks("capture").into_iter();
    blocks.map(|lines| capture(lines)).collect()
}

fn capture(lines: &[String]) -> Capture {
    let fields: Vec<Field> = lines.iter().map_while(|line| field(line)).collect();
    let file = joined(&fields);
    let asked = lines[fields.len()..].iter();
    Capture {
        examples: asked.map(|line| example(&file, line)).collect(),
        fields,
    }
}

/// `linearizable: Order 0 1 (2 attempts)` or `linearizable, budget 1: Undecided`.
fn example(file: &[u8], line: &str) -> Example {
    let (asked, answer) = line.split_once(": ").expect("a model and an answer");
    let (model, budget) = match asked.split_once(", budget ") {
        Some((model, budget)) => (model, budget.parse().expect("a budget")),
        None => (asked, u64::MAX),
    };
    let named = |known: &Model| known.to_string() == model;
    Example {
        file: file.to_vec(),
        model: MODELS.into_iter().find(named).expect("a model"),
        budget,
        answer: answer.to_string(),
    }
}

/// The bytes of all fields; each has to stand at its place.
fn joined(fields: &[Field]) -> Vec<u8> {
    let mut file = Vec::new();
    for field in fields {
        assert_eq!(field.place, file.len(), "the place of '{}'", field.words);
        file.extend(&field.bytes);
    }
    file
}

/// The page's tables of codes, and the lines of an annotated file that are still to be spelled.
struct Speller<'a> {
    objects: Vec<[String; 3]>,
    codes: Vec<[String; 5]>,
    rest: std::slice::Iter<'a, Field>,
    /// The lines of the tables that were used.
    used: BTreeSet<Vec<String>>,
}

impl Speller<'_> {
    /// The whole file: opening, header and events, each field as a table says.
    fn spell(&mut self) {
        let opening = self.rest.next().expect("an opening");
        assert_eq!(
            (&*opening.words, &*opening.bytes),
            ("opening", &b"RAW1"[..])
        );
        let object = self.coded("object");
        let [_, name, start] = self.look_up(self.objects.clone(), |[number, name, _]| {
            format!("{number}: {name}") == object
        });
        self.carried(&start);
        while !self.rest.as_slice().is_empty() {
            self.event(&name);
        }
    }

    fn event(&mut self, object: &str) {
        let words = self.next().words.clone();
        let (thread, event) = words.rsplit_once(' ').expect("a thread and an event");
        let code = match event {
            "invokes" => self.coded("operation"),
            "returns" => self.coded("return"),
            other => panic!("an event that {other}"),
        };
        assert!(thread.starts_with("thread "), "{words}");
        let [.., carries] = self.look_up(self.codes.clone(), |[of, kind, number, name, _]| {
            of == object && kind == event && format!("{number}: {name}") == code
        });
        self.carried(&carries);
    }

    /// What an object, an operation or a return carries, in the words of the tables.
    fn carried(&mut self, what: &str) {
        match what {
            "nothing" => {}
            "a value" => {
                self.coded("value");
            }
            "a length" => {
                self.coded("length");
            }
            "a flag, and a value if it is 1" => {
                if self.coded("flag") == "1" {
                    self.coded("value");
                }
            }
            "a count, and so many values" => {
                for _ in 0..decimal(&self.coded("count")) {
                    self.coded("value");
                }
            }
            other => panic!("what is carried: {other}"),
        }
    }

    /// What stands behind this word in the next line.
    fn coded(&mut self, word: &str) -> String {
        let words = &self.next().words;
        match words.split_once(' ') {
            Some((first, code)) if first == word => code.to_string(),
            _ => panic!("'{words}' where {word} should stand"),
        }
    }

    /// The next line, whose bytes have to be those of its words.
    fn next(&mut self) -> &Field {
        let field = self.rest.next().expect("a line more");
        let number = shortest(number(&field.words));
        assert_eq!(field.bytes, number, "the bytes of '{}'", field.words);
        field
    }

    fn look_up<const N: usize>(
        &mut self,
        table: Vec<[String; N]>,
        is: impl Fn(&[String; N]) -> bool,
    ) -> [String; N] {
        let found = table.into_iter().find(is).expect("a line of the tables");
        self.used.insert(found.to_vec());
        found
    }
}

/// The number that the words of a field tell.
fn number(words: &str) -> u32 {
    let told: Vec<&str> = words.split([' ', ':']).collect();
    let number = decimal(told[1]);
    let number = match (told[0], told[2..].first()) {
        ("thread", Some(&"invokes")) => 2 * number,
        ("thread", Some(&"returns")) => 2 * number + 1,
        ("value", None) => return sent(number),
        ("flag" | "count" | "length", None) => number,
        ("object" | "operation" | "return", Some(_)) => number,
        _ => panic!("a field: {words}"),
    };
    u32::try_from(number).expect("a number of 32 bits")
}

/// The number that a signed value is sent as.
fn sent(value: i64) -> u32 {
    let number = if value >= 0 {
        2 * value
    } else {
        -2 * value - 1
    };
    u32::try_from(number).expect("a value of 32 bits")
}

/// A number's shortest form.
fn shortest(number: u32) -> Vec<u8> {
    match (number as u8 & 127, number >> 7) {
        (last, 0) => vec![last],
        (group, rest) => [vec![group | 128], shortest(rest)].concat(),
    }
}

// The tests.

#[test]
fn files_are_judged_as_the_page_says() {
    let examples = examples(&page());
    for example in &examples {
        let answer = judge(&example.file, example.model, example.budget);
        let expected = expanded(&example.answer);
        assert!(
            worded(&answer).contains(&expected),
            "{}: {answer}, and the page says {expected}: {:02X?}",
            example.model,
            example.file
        );
    }
    assert!(examples.len() >= 116, "{} examples", examples.len());
}

#[test]
fn every_refusal_has_a_file() {
    let page = page();
    let mut told = BTreeSet::new();
    for [refusal, file, answer] in page.rows(["refusal", "file", "both models"]) {
        for model in MODELS {
            let said = judge(&quoted(&file), model, u64::MAX);
            let (Answer::Invalid { refusal: of, .. } | Answer::Refused { refusal: of, .. }) = said
            else {
                panic!("{file} is not refused: {said}");
            };
            assert_eq!(of.number().to_string(), refusal, "{file}: {answer}");
            told.insert(of);
        }
    }
    assert_eq!(told, BTreeSet::from(Refusal::ALL));
}

/// A register starts with these bytes, and thread 0 reads this number.
fn register_read(start: &[u8], read: u32) -> Answer {
    let events = [b"\x00\x01\x01\x01", &*shortest(read)].concat();
    let file = [REGISTER, start, &*events].concat();
    judge(&file, Model::Linearizable, u64::MAX)
}

#[test]
fn numbers_and_values_have_their_bytes() {
    let page = page();
    let mut numbers = Vec::new();
    for [number, cell] in page.rows(["number", "bytes"]) {
        let number = u32::try_from(decimal(&number)).expect("a number");
        assert_eq!(quoted(&cell), shortest(number), "{number}");
        numbers.push((number, quoted(&cell)));
    }
    for [number, cell] in page.rows(["number", "padded"]) {
        let number = u32::try_from(decimal(&number)).expect("a number");
        assert!(quoted(&cell).len() > shortest(number).len(), "{number}");
        numbers.push((number, quoted(&cell)));
    }
    for [value, cell] in page.rows(["value", "bytes"]) {
        let number = sent(decimal(&value));
        assert_eq!(quoted(&cell), shortest(number), "{value}");
        numbers.push((number, quoted(&cell)));
    }
    for (number, bytes) in &numbers {
        assert!(register_read(bytes, *number).is_order(), "{number}");
        let other = register_read(bytes, number.wrapping_add(1));
        assert_eq!(worded(&other)[0], "No order", "{number}");
    }
    assert!(numbers.len() >= 27, "{} numbers", numbers.len());

    let refused = page.rows(["bytes", "refused"]);
    for [bytes, refusal] in &refused {
        let file = [REGISTER, &*quoted(bytes)].concat();
        let answer = judge(&file, Model::Linearizable, u64::MAX);
        assert_eq!(worded(&answer)[0], format!("Refused {refusal} at 0"));
    }
    assert!(refused.len() >= 6, "{} refused", refused.len());
}

#[test]
fn whole_files_are_spelled_by_the_tables() {
    let page = page();
    let captures = captures(&page);
    let objects = page.rows(["object", "name", "start"]);
    let codes = page.rows(["object", "event", "number", "name", "what it carries"]);
    assert_eq!((objects.len(), codes.len()), (3, 15));
    let mut used = BTreeSet::new();
    for capture in &captures {
        let mut speller = Speller {
            objects: objects.clone(),
            codes: codes.clone(),
            rest: capture.fields.iter(),
            used: BTreeSet::new(),
        };
        speller.spell();
        used.append(&mut speller.used);
        assert!(capture.examples.len() >= 2, "an answer for each model");
    }
    assert!(captures.len() >= 6, "{} captures", captures.len());
    let objects = objects.into_iter().map(Vec::from);
    let all: BTreeSet<_> = objects.chain(codes.into_iter().map(Vec::from)).collect();
    let unused: Vec<_> = all.difference(&used).collect();
    assert!(unused.is_empty(), "in no whole file: {unused:?}");
}

/// The file and the answer of each block of answers.
fn answers(page: &Page) -> Vec<(Vec<u8>, Vec<Field>)> {
    let blocks = page.blocks("answer").into_iter();
    blocks
        .map(|lines| {
            let file = lines[0].strip_prefix("of  ").expect("a file");
            let fields: Vec<Field> = lines[1..].iter().filter_map(|line| field(line)).collect();
            assert_eq!(fields.len(), lines.len() - 1, "a line of an answer");
            (bytes(file), fields)
        })
        .collect()
}

#[test]
fn answers_have_the_bytes_of_the_page() {
    let page = page();
    let answers = answers(&page);
    for (file, fields) in &answers {
        let expected = joined(fields);
        for model in MODELS {
            for budget in [2, u64::MAX] {
                let mut answer = [0x5a; raw::ANSWER];
                let result = raw::judge(file, model.number(), budget, &mut answer);
                assert_eq!((result, &answer[..]), (raw::ANSWERED, &expected[..]));
            }
        }
    }
    assert!(answers.len() >= 2, "{} answers", answers.len());

    let mut end = 0;
    for [offset, width] in page.rows(["offset", "bytes"]) {
        assert_eq!(offset, end.to_string(), "an offset");
        let begins = |field: &Field| field.place == end;
        let begun = |(_, fields): &(_, Vec<Field>)| fields.iter().any(begins);
        assert!(answers.iter().all(begun), "no field at {offset}");
        end += width.parse::<usize>().expect("a width");
    }
    assert_eq!(end, raw::ANSWER);
}

#[test]
fn calls_return_the_numbers_of_the_page() {
    let calls = page().rows(["model", "buffer", "returns"]);
    let (file, _) = answers(&page()).swap_remove(0);
    let mut returned = BTreeSet::new();
    for [model, buffer, returns] in &calls {
        let model = u32::try_from(decimal(model)).expect("a model");
        let mut answer = vec![0x5a; buffer.parse().expect("a size")];
        let result = raw::judge(&file, model, 2, &mut answer);
        assert_eq!(result.to_string(), *returns, "{model} {buffer}");
        let written = if result == raw::ANSWERED {
            raw::ANSWER
        } else {
            0
        };
        assert!(answer[written..].iter().all(|byte| *byte == 0x5a));
        assert!(answer[..written].iter().all(|byte| *byte != 0x5a));
        returned.insert(result);
    }
    let all = [raw::ANSWERED, raw::SHORT_BUFFER, raw::UNKNOWN_MODEL];
    assert_eq!(returned, BTreeSet::from(all));
}

/// Bytes that stand in the running text are those of some example.
#[test]
fn no_bytes_stand_outside_of_examples() {
    let page = page();
    let mut held: Vec<Vec<u8>> = examples(&page).into_iter().map(|of| of.file).collect();
    for columns in [
        ["number", "bytes"],
        ["number", "padded"],
        ["value", "bytes"],
    ] {
        held.extend(page.rows(columns).iter().map(|[_, cell]| quoted(cell)));
    }
    let refused = page.rows(["bytes", "refused"]);
    held.extend(refused.iter().map(|[cell, _]| quoted(cell)));
    let mut seen = 0;
    for line in &page.lines {
        for span in line.split('`').skip(1).step_by(2) {
            let Some(span) = hex(span).filter(|span| !span.is_empty()) else {
                continue;
            };
            let part = |of: &Vec<u8>| of.windows(span.len()).any(|window| window == span);
            assert!(held.iter().any(part), "in no example: {line}");
            seen += 1;
        }
    }
    assert!(seen >= 86, "{seen} runs of bytes");
    let blocks = page.blocks.iter().map(|(word, _)| word.as_str());
    let kinds: BTreeSet<&str> = blocks.collect();
    assert_eq!(kinds, BTreeSet::from(["answer", "capture"]));
}
