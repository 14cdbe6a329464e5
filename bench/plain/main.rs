//! An ordinary Rust program for the work that the program `cases` does: it reads the same lines (docs/CASES.md) and answers as it does. It uses
//! hash maps, lists and strings of the standard library, and nothing else.
//!
//! It does less than the library where that is said: `decode` checks frames, forms, indexes, labels, names that stand twice and that views of an
//! interface agree, and no other rule of validity. It knows no canonical names, no nested packages in what it prints, and no `check`.

mod bound;
mod collide;
mod compare;
mod decode;
mod encode;
mod forms;
mod lexer;
mod map;
mod merge;
mod model;
mod print;
mod senses;
mod texts;
mod trees;
mod words;

use model::Resolve;
use std::fmt::Write as _;
use std::io::{BufRead, Write};
use std::time::Instant;
use words::{Tokens, unhex};

enum Answer {
    Word(&'static str),
    Refused(String),
    Bytes(Vec<u8>),
    Text(String),
    Resolved(u32, usize),
    /// The package of each text, and how many types there are.
    Packages(Vec<u32>, usize),
}

/// An answer, or why it is refused.
type Asked = Result<Answer, String>;

#[derive(Default)]
struct State {
    current: Option<Resolve>,
    other: Option<Resolve>,
    kept: Vec<u8>,
    texts: Vec<String>,
}

impl State {
    /// The bytes that follow, or those that were kept.
    fn on_bytes(&self, word: &str, t: &mut Tokens) -> Asked {
        let given = t.next().map(unhex);
        let bytes = given.as_ref().unwrap_or(&self.kept);
        match word {
            "decode" => {
                let (r, own) = decode::decode(bytes)?;
                Ok(Answer::Resolved(own, r.types.len()))
            }
            "text" => {
                let (r, own) = decode::decode(bytes)?;
                Ok(Answer::Text(print::print(&r, own, false)))
            }
            "world-text" => {
                let (r, world) = decode::decode_world(bytes)?;
                Ok(Answer::Text(print::print(&r, r.worlds[world as usize].package, false)))
            }
            _ => {
                let (left, _bound) = merge::decode(bytes)?;
                Ok(left.map_or(Answer::Word("nothing"), Answer::Bytes))
            }
        }
    }

    /// The packages of the texts that were kept, which lines are asked on from now on.
    fn on_texts(&mut self) -> Asked {
        self.current = None;
        let (r, mains) = texts::read(&self.texts)?;
        let types = r.types.len();
        self.current = Some(r);
        Ok(Answer::Packages(mains, types))
    }

    fn on_current(&mut self, word: &str, t: &mut Tokens) -> Asked {
        if word == "semver" {
            let r = self.current.take().ok_or("no resolve")?;
            compare::semver(&r, t.number(), t.number())?;
            return Ok(Answer::Word("ok"));
        }
        let r = self.current.as_ref().ok_or("no resolve")?;
        match word {
            "encode" => Ok(Answer::Bytes(encode::encode(r, t.number()))),
            "metadata" => Ok(Answer::Bytes(encode::metadata(r, t.number()))),
            "print" => Ok(Answer::Text(print::print(r, t.number(), t.number() == 1))),
            "sense" => {
                let (at, there) = (t.place(), t.place());
                let same = senses::same_sense(r, at, self.other.as_ref().unwrap_or(r), there);
                Ok(Answer::Word(if same { "ok" } else { "no" }))
            }
            _ => Ok(Answer::Word("bad")),
        }
    }

    fn answer(&mut self, line: &str) -> Answer {
        let mut t = Tokens::new(line);
        let word = t.word();
        let ok = Ok(Answer::Word("ok"));
        let asked = match word {
            "brief" | "full" => ok,
            "resolve" => {
                self.current = None;
                self.current = Some(t.resolve());
                ok
            }
            "other" => {
                self.other = None;
                self.other = Some(t.resolve());
                ok
            }
            "bytes" => {
                self.kept = unhex(t.word());
                ok
            }
            "texts" => {
                self.texts = t.list(Tokens::text);
                ok
            }
            "read" => self.on_texts(),
            "decode" | "text" | "world-text" | "stripped" => self.on_bytes(word, &mut t),
            _ => self.on_current(word, &mut t),
        };
        asked.unwrap_or_else(Answer::Refused)
    }
}

/// A text in quotation marks.
fn quoted(text: &str) -> String {
    let mut out = String::from("\"");
    for c in text.chars() {
        match c {
            '"' => out.push_str("\\\""),
            '\\' => out.push_str("\\\\"),
            '\n' => out.push_str("\\n"),
            '\r' => out.push_str("\\r"),
            '\t' => out.push_str("\\t"),
            _ => out.push(c),
        }
    }
    out.push('"');
    out
}

fn line_of(answer: &Answer, brief: bool) -> String {
    match answer {
        Answer::Word(word) => word.to_string(),
        Answer::Refused(why) => format!("refused {why}"),
        Answer::Resolved(own, types) => format!("resolved {own} {types}"),
        Answer::Packages(mains, types) => {
            let mut out = String::from("words");
            for number in mains {
                let _ = write!(out, " {number}");
            }
            let _ = write!(out, " {types}");
            out
        }
        Answer::Bytes(bytes) if brief => format!("bytes {}", bytes.len()),
        Answer::Text(text) if brief => format!("text {}", text.len()),
        Answer::Text(text) => format!("text {}", quoted(text)),
        Answer::Bytes(bytes) => {
            let mut out = String::from("bytes .");
            for b in bytes {
                let _ = write!(out, "{b:02x}");
            }
            out
        }
    }
}

fn main() {
    if let Some(count) = std::env::args().nth(1) {
        return collide::print(count.parse().expect("a count"));
    }
    let mut out = std::io::BufWriter::new(std::io::stdout().lock());
    let mut state = State::default();
    let mut brief = false;
    for line in std::io::stdin().lock().lines() {
        let line = line.expect("a line");
        match line.as_str() {
            "brief" => brief = true,
            "full" => brief = false,
            _ => {}
        }
        let start = Instant::now();
        let answer = state.answer(&line);
        let spent = start.elapsed().as_nanos();
        let mut text = line_of(&answer, brief);
        if brief {
            let _ = write!(text, " {spent}");
        }
        writeln!(out, "{text}").expect("a write");
    }
}
