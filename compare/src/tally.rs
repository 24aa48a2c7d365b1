//! What a run counted, and the first differences that it found.

use crate::calls::{Answer, Settings, MOST_RANGES};
use crate::places::Faults;
use std::collections::BTreeMap;
use std::fmt::{Debug, Write};

/// How many differences are kept with their text.
const KEPT: usize = 20;

/// Where sequences are told apart by the most ranges that were held at once.
const HELD: [usize; 3] = [8, MOST_RANGES / 2, MOST_RANGES - 1];

/// Counts by name. Names are few and the same literals come again, so that a look at the pointers finds most at once.
#[derive(Default)]
pub struct Counts(Vec<(&'static str, u64)>);

impl Counts {
    pub fn add(&mut self, name: &'static str, count: u64) {
        let same = |known: &&'static str| std::ptr::eq(*known, name);
        let found = self.0.iter().position(|(known, _)| same(known));
        let found = found.or_else(|| self.0.iter().position(|(known, _)| *known == name));
        match found {
            Some(at) => self.0[at].1 += count,
            None => self.0.push((name, count)),
        }
    }

    #[cfg(test)]
    pub fn total(&self) -> u64 {
        self.0.iter().map(|(_, count)| count).sum()
    }

    fn print(&self, title: &str) {
        println!("{title}:");
        for (name, count) in &self.0 {
            println!("  {count:>12}  {name}");
        }
    }
}

#[derive(Default)]
pub struct Tally {
    /// Inputs by kind.
    pub inputs: Counts,
    /// What was compared, by what it is: calls, tables, buffers, reports.
    pub compared: Counts,
    /// The crate's answers by number; a string's error as 90 plus which of the six.
    pub answers: BTreeMap<u64, u64>,
    /// Payloads, messages and options parts that are refused for an option.
    pub faults: Faults,
    /// What was read under which settings: accepted, refused by 23, refused otherwise.
    pub by_settings: BTreeMap<(&'static str, Settings), [u64; 3]>,
    /// Payloads, messages and options parts that are refused by 23, by what the crate itself says of them.
    pub before: BTreeMap<u64, u64>,
    /// Sequences by kind and the most ranges that were held at once: up to each of `HELD`, and as many as may be held.
    pub held: BTreeMap<&'static str, [u64; 4]>,
    /// Answers that the crate has not, judged by the rules alone, by number.
    pub by_document: BTreeMap<u64, u64>,
    /// Inputs that fell outside what can be compared, by why.
    pub left_out: Counts,
    pub differences: u64,
    pub first: Vec<String>,
}

impl Tally {
    pub fn input(&mut self, kind: &'static str) {
        self.inputs.add(kind, 1);
    }

    pub fn leave_out(&mut self, why: &'static str) {
        self.left_out.add(why, 1);
    }

    /// Counts an answer of the crate; 23 is of the rules alone.
    pub fn answer(&mut self, answer: Answer) {
        let number = match answer.number {
            9 => 90 + answer.values[0],
            23 => return self.document(23),
            number => number,
        };
        *self.answers.entry(number).or_default() += 1;
    }

    /// Counts a 23 by the crate's own answer, which it comes before.
    pub fn before(&mut self, said: Answer) {
        *self.before.entry(said.number).or_default() += 1;
    }

    /// Counts an answer under the settings that it was given under.
    pub fn under(&mut self, what: &'static str, settings: Settings, answer: Answer) {
        let counts = self.by_settings.entry((what, settings)).or_default();
        counts[match answer.number {
            0 => 0,
            23 => 1,
            _ => 2,
        }] += 1;
    }

    /// Counts a sequence by the most ranges that were held at once.
    pub fn held(&mut self, kind: &'static str, most: usize) {
        let place = HELD.iter().filter(|border| most > **border).count();
        self.held.entry(kind).or_default()[place] += 1;
    }

    pub fn document(&mut self, number: u64) {
        *self.by_document.entry(number).or_default() += 1;
    }

    /// Compares two things of one kind; `input` says for what.
    pub fn same<T: PartialEq + Debug>(
        &mut self,
        what: &'static str,
        want: &T,
        got: &T,
        input: impl FnOnce() -> String,
    ) -> bool {
        self.compared.add(what, 1);
        if want == got {
            return true;
        }
        self.differences += 1;
        if self.first.len() < KEPT {
            let text = format!(
                "{what}\n  for  {}\n  want {want:?}\n  got  {got:?}",
                input()
            );
            self.first.push(text);
        }
        false
    }

    pub fn add(&mut self, other: Tally) {
        for (mine, theirs) in [
            (&mut self.inputs, other.inputs),
            (&mut self.compared, other.compared),
            (&mut self.left_out, other.left_out),
        ] {
            for (name, count) in theirs.0 {
                mine.add(name, count);
            }
        }
        for (number, count) in other.answers {
            *self.answers.entry(number).or_default() += count;
        }
        self.faults.add(other.faults);
        for (under, counts) in other.by_settings {
            let mine = self.by_settings.entry(under).or_default();
            for (sum, count) in mine.iter_mut().zip(counts) {
                *sum += count;
            }
        }
        for (kind, counts) in other.held {
            let mine = self.held.entry(kind).or_default();
            for (sum, count) in mine.iter_mut().zip(counts) {
                *sum += count;
            }
        }
        for (mine, theirs) in [
            (&mut self.before, other.before),
            (&mut self.by_document, other.by_document),
        ] {
            for (number, count) in theirs {
                *mine.entry(number).or_default() += count;
            }
        }
        self.differences += other.differences;
        let room = KEPT - self.first.len();
        self.first.extend(other.first.into_iter().take(room));
    }

    pub fn print(&self) {
        self.inputs.print("inputs");
        self.compared
            .print("compared without a difference, unless listed below");
        println!("answers of the crate:");
        for (number, count) in &self.answers {
            println!("  {count:>12}  {}", answer_name(*number));
        }
        self.faults.print();
        if !self.by_settings.is_empty() {
            println!("accepted, refused by 23 and refused otherwise:");
        }
        for ((what, settings), [accepted, strictly, otherwise]) in &self.by_settings {
            println!("  {accepted:>12} {strictly:>12} {otherwise:>12}  {what}, {settings}");
        }
        if !self.before.is_empty() {
            println!("payloads, messages and options parts refused by 23, by what the crate itself says:");
        }
        for (number, count) in &self.before {
            println!("  {count:>12}  {}", answer_name(*number));
        }
        if !self.held.is_empty() {
            let [few, some, many] = HELD;
            println!(
                "the most ranges held at once: up to {few}, {some}, {many}, and {MOST_RANGES}:"
            );
        }
        for (kind, [few, some, many, all]) in &self.held {
            println!("  {few:>12} {some:>12} {many:>12} {all:>12}  {kind}");
        }
        println!("answers that the crate has not, compared with the rules alone:");
        for (number, count) in &self.by_document {
            println!("  {count:>12}  {number}");
        }
        self.left_out.print("left out");
        println!("differences: {}", self.differences);
        for difference in &self.first {
            println!("\n{difference}");
        }
    }
}

/// What a counted answer is called.
fn answer_name(number: u64) -> String {
    match number {
        0 => "accepted".to_string(),
        91..=96 => format!("9, string error {}", number - 90),
        _ => number.to_string(),
    }
}

pub fn hex(bytes: &[u8]) -> String {
    let mut text = String::with_capacity(2 * bytes.len());
    for byte in bytes {
        write!(text, "{byte:02x}").expect("a string takes all");
    }
    text
}
