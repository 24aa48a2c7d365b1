//! Writes the crate's answers to seeded inputs, for replay by programs that have no Rust. FORMAT.md has the layout.

use crate::calls::{Answer, Settings, MOST_RANGES, SLOTS};
use crate::ends;
use crate::oracle;
use crate::oracle_tp::{has_bytes_behind, Stream};
use crate::places::{self, Cause, Faults};
use crate::random::Random;
use crate::tp_inputs::{self, Sequence, Step};
use crate::{inputs, plan::family};
use std::collections::BTreeMap;
use std::io;
use std::path::Path;

/// What a record is about.
#[derive(Clone, Copy, PartialEq, Eq, PartialOrd, Ord, Debug)]
#[repr(u8)]
pub enum Kind {
    Payload = 1,
    Message = 2,
    Index = 3,
    Entry = 4,
    Option = 5,
    String = 6,
    Lookup = 7,
    Run = 8,
    Begin = 16,
    Segment = 17,
    Clear = 18,
}

impl Kind {
    /// How many values an accepted answer of this kind has.
    fn accepted_values(self) -> usize {
        match self {
            Kind::Payload | Kind::Message | Kind::Lookup => 3,
            Kind::Index | Kind::Run => 1,
            _ => 0,
        }
    }
}

/// The most bytes that a record has after its length field.
pub const MOST_RECORD: usize = 2048;
/// How often each number that the crate can give must come up.
pub const OFTEN: u64 = 50;

// ---- the check sum

/// A check sum over bytes and numbers, by plain arithmetic.
#[derive(Default)]
pub struct Sum(u64);

impl Sum {
    pub fn byte(&mut self, byte: u8) {
        self.0 = (self.0 * 16_777_619 + u64::from(byte) + 1) % 4_294_967_291;
    }

    pub fn bytes(&mut self, bytes: &[u8]) {
        for byte in bytes {
            self.byte(*byte);
        }
    }

    /// A number as its four bytes, the high one first.
    pub fn number(&mut self, number: u64) {
        self.bytes(&(number as u32).to_be_bytes());
    }

    pub fn value(&self) -> u32 {
        self.0 as u32
    }
}

fn sum_of_table(table: &[u16; SLOTS]) -> u32 {
    let mut sum = Sum::default();
    for slot in table {
        sum.bytes(&slot.to_be_bytes());
    }
    sum.value()
}

fn add_answer(sum: &mut Sum, answer: Answer) {
    sum.number(answer.number);
    for value in &answer.values {
        sum.number(*value);
    }
}

/// The entry cursor from the front: each entry's answer and fields, the last being 20 or the first refusal.
fn sum_of_entries(entries: &[u8]) -> u32 {
    let mut sum = Sum::default();
    let mut at = 0;
    loop {
        let entry = oracle::next_entry(entries, at);
        add_entry(&mut sum, &entry);
        if !entry.answer.accepted() {
            return sum.value();
        }
        at += 16;
    }
}

fn add_entry(sum: &mut Sum, entry: &crate::calls::Entry) {
    add_answer(sum, entry.answer);
    for field in [
        entry.code,
        entry.start1,
        entry.start2,
        entry.count1,
        entry.count2,
        entry.service,
        entry.instance,
        entry.major,
        entry.ttl,
        entry.minor,
        entry.initial_data,
        entry.counter,
        entry.eventgroup,
    ] {
        sum.number(field);
    }
}

fn add_option(sum: &mut Sum, option: &crate::calls::Opt) {
    add_answer(sum, option.answer);
    for field in [
        option.code,
        option.size,
        option.discardable,
        option.priority,
        option.weight,
        option.address_at,
        option.address_len,
        option.protocol,
        option.port,
        option.string_at,
        option.string_len,
    ] {
        sum.number(field);
    }
}

/// The option cursor from the front: each answer, the last being 20 or the first refusal.
fn sum_of_options(options: &[u8], settings: Settings) -> u32 {
    let mut sum = Sum::default();
    let mut at = 0;
    loop {
        let answer = oracle::next_option(options, at, settings);
        add_answer(&mut sum, answer);
        if !answer.accepted() {
            return sum.value();
        }
        at += answer.values[2] as usize;
    }
}

// ---- records

/// A list of records in the making, with what it holds.
#[derive(Default)]
pub struct List {
    bytes: Vec<u8>,
    records: u32,
    longest: usize,
    /// Records by kind, under each settings.
    pub kinds: BTreeMap<Kind, BTreeMap<Settings, u64>>,
    /// Answers by number; a string's error as 90 plus which of the six.
    pub answers: BTreeMap<u64, u64>,
    /// Payloads, messages and options parts that are refused for an option.
    pub faults: Faults,
    /// Sequences that are no equal runs, of which the last records are the first few.
    pub left_out: usize,
}

impl List {
    /// One record: arguments, the answer, what is checked further, and the input.
    fn record(
        &mut self,
        kind: Kind,
        settings: Settings,
        arguments: &[u32],
        answer: Answer,
        checks: &[u32],
        input: &[u8],
    ) {
        let count = match answer.number {
            0 => kind.accepted_values(),
            oracle::UNEXPECTED => panic!("no answer to {input:02x?}"),
            _ => answer.value_count(),
        };
        let values = answer.values[..count].iter().map(|value| *value as u32);
        let values: Vec<u32> = values.collect();
        let counts = [arguments.len(), values.len(), checks.len()].map(|n| n as u8);
        let words = arguments.iter().chain(&values).chain(checks);
        let length = 6 + 4 * words.clone().count() + input.len();
        assert!(length <= MOST_RECORD, "a record of {length} bytes");
        self.bytes.extend_from_slice(&(length as u16).to_be_bytes());
        self.bytes
            .extend_from_slice(&[kind as u8, settings.word() as u8, answer.number as u8]);
        self.bytes.extend_from_slice(&counts);
        for word in words {
            self.bytes.extend_from_slice(&word.to_be_bytes());
        }
        self.bytes.extend_from_slice(input);
        self.records += 1;
        self.longest = self.longest.max(length);
        let kinds = self.kinds.entry(kind).or_default();
        *kinds.entry(settings).or_default() += 1;
        self.count(answer);
    }

    /// Counts an answer that is recorded.
    fn count(&mut self, answer: Answer) {
        let number = match answer.number {
            9 => 90 + answer.values[0],
            number => number,
        };
        *self.answers.entry(number).or_default() += 1;
    }

    /// The whole file: magic, the number of records, the longest record, the records.
    pub fn file(&self, magic: &[u8; 8]) -> Vec<u8> {
        let mut file = magic.to_vec();
        file.extend_from_slice(&self.records.to_be_bytes());
        file.extend_from_slice(&(self.longest as u32).to_be_bytes());
        file.extend_from_slice(&self.bytes);
        file
    }

    fn often(&self, number: u64) -> u64 {
        self.answers.get(&number).copied().unwrap_or(0)
    }

    fn print(&self, name: &str, size: usize) {
        println!("{name}: {} records, {size} bytes", self.records);
        for (kind, counts) in &self.kinds {
            println!("  {:>8}  {kind:?}", counts.values().sum::<u64>());
            for (settings, count) in counts.iter().filter(|_| counts.len() > 1) {
                println!("    {count:>8}  {settings}");
            }
        }
        println!("  answers by number (9 by its six errors, 91 to 96):");
        for (number, count) in &self.answers {
            println!("  {count:>8}  {number}");
        }
        self.faults.print();
        if self.left_out > 0 {
            let left_out = self.left_out;
            println!("  left out, since a final segment ends behind data held: {left_out} sequences, of which {KEPT_BEHIND} come last");
        }
    }
}

// ---- service discovery

fn payload_record(list: &mut List, payload: &[u8], settings: Settings) {
    let reading = oracle::read(payload, settings);
    reading_record(list, Kind::Payload, payload, payload, settings, reading);
}

fn message_record(list: &mut List, message: &[u8], settings: Settings) {
    if let Some(reading) = oracle::read_message(message, settings) {
        let payload = &message[16..];
        reading_record(list, Kind::Message, message, payload, settings, reading);
    }
}

/// After an accepted reading: sums over the table, the entry cursor, the option cursor, and every option's lookup.
fn reading_record(
    list: &mut List,
    kind: Kind,
    input: &[u8],
    payload: &[u8],
    settings: Settings,
    reading: Result<someip_parse::sd::SdSlice, Answer>,
) {
    match reading {
        Ok(sd) => {
            let index = sd.options_index();
            let mut table = [0; SLOTS];
            oracle::fill_table(index, &mut table);
            let checks = [
                oracle::place_in(payload, sd.entries_slice()) as u32,
                sd.entries_slice().len() as u32,
                sum_of_table(&table),
                sum_of_entries(sd.entries_slice()),
                sum_of_options(index.options(), settings),
            ];
            let answer = oracle::read_answer(&sd);
            list.record(kind, settings, &[], answer, &checks, input);
        }
        Err(answer) => {
            if answer.tells_place() {
                list.faults.count(places::in_payload(payload, settings));
            }
            list.record(kind, settings, &[], answer, &[], input)
        }
    }
}

fn index_record(list: &mut List, options: &[u8], settings: Settings) {
    match oracle::index(options, settings) {
        Ok(index) => {
            let mut table = [0; SLOTS];
            oracle::fill_table(&index, &mut table);
            let answer = Answer::new(0, &[index.len() as u64]);
            let checks = [sum_of_table(&table), sum_of_options(options, settings)];
            list.record(Kind::Index, settings, &[], answer, &checks, options);
        }
        Err(answer) => {
            if answer.tells_place() {
                list.faults.count(places::in_options(options, settings));
            }
            list.record(Kind::Index, settings, &[], answer, &[], options)
        }
    }
}

/// Lookup at one place of the crate's own index.
fn lookup_record(list: &mut List, options: &[u8], ordinal: usize) {
    if let Ok(index) = oracle::index(options, Settings::OFF) {
        let answer = oracle::option_at(&index, ordinal);
        let arguments = [ordinal as u32];
        list.record(
            Kind::Lookup,
            Settings::OFF,
            &arguments,
            answer,
            &[],
            options,
        );
    }
}

/// A run of the crate's own index: how many options it handed out, and a sum over its answers.
fn run_record(list: &mut List, options: &[u8], start: u8, count: u8) {
    if let Ok(index) = oracle::index(options, Settings::OFF) {
        let answers = oracle::run(&index, start, count);
        let mut sum = Sum::default();
        for answer in &answers {
            add_answer(&mut sum, *answer);
        }
        let said = Answer::new(0, &[answers.len() as u64 - 1]);
        let arguments = [start.into(), count.into()];
        let checks = [sum.value()];
        list.record(Kind::Run, Settings::OFF, &arguments, said, &checks, options);
    }
}

/// One entry alone; the empty one is the cursor's 20.
fn entry_record(list: &mut List, bytes: &[u8]) {
    let entry = oracle::next_entry(bytes, 0);
    let mut sum = Sum::default();
    add_entry(&mut sum, &entry);
    let checks = [sum.value()];
    list.record(
        Kind::Entry,
        Settings::OFF,
        &[],
        entry.answer,
        &checks,
        bytes,
    );
}

fn option_record(list: &mut List, bytes: &[u8], settings: Settings) {
    let option = oracle::read_option(bytes, settings);
    let mut sum = Sum::default();
    add_option(&mut sum, &option);
    let checks = [sum.value()];
    list.record(Kind::Option, settings, &[], option.answer, &checks, bytes);
}

fn string_record(list: &mut List, string: &[u8]) {
    let answer = oracle::string(string);
    list.record(Kind::String, Settings::OFF, &[], answer, &[], string);
}

/// Whether an input is kept: all short ones, one in sixty of those over 150 bytes, none that a record cannot hold.
fn kept(r: &mut Random, input: &[u8]) -> bool {
    input.len() <= 150 || (input.len() <= 1900 && r.once_in(60))
}

/// The service discovery list: at least 24,000 inputs, and every number that the crate can give at least fifty times; then options that are refused;
/// then strict readings.
pub fn service_discovery(seed: u64) -> List {
    let mut list = List::default();
    let (mut out, mut number) = (Vec::new(), 0);
    let wanted = || (1..=20).filter(|n| *n != 9).chain(91..=96);
    while list.records < 24_000 || wanted().any(|n| list.often(n) < OFTEN) {
        let mut r = Random::of(seed, family::RECORD, number);
        let settings = Settings {
            strict: false,
            discard: r.once_in(2),
        };
        inputs::payload(&mut r, &mut out);
        if kept(&mut r, &out) {
            payload_record(&mut list, &out, settings);
        }
        if number % 3 == 0 {
            inputs::message(&mut r, &mut out);
            if kept(&mut r, &out) {
                message_record(&mut list, &out, settings);
            }
        }
        if number % 4 == 0 {
            inputs::options(&mut r, &mut out);
            if kept(&mut r, &out) {
                index_record(&mut list, &out, Settings::OFF);
                lookup_record(&mut list, &out, number as usize % 7);
                run_record(&mut list, &out, r.below(6) as u8, r.below(16) as u8);
            }
        }
        if number % 5 == 0 {
            inputs::entry(&mut r, &mut out);
            entry_record(&mut list, &out);
            inputs::option(&mut r, &mut out);
            option_record(&mut list, &out, Settings::OFF);
            inputs::string(&mut r, &mut out);
            string_record(&mut list, &out);
        }
        // Refusals of long inputs are rare among the kept ones.
        if number % 150 == 0 {
            inputs::announcing_too_much(&mut r, &mut out);
            payload_record(&mut list, &out, settings);
            let length = 1389 + r.below(200);
            out.clear();
            out.resize(length, 0x41);
            index_record(&mut list, &out, Settings::OFF);
        }
        number += 1;
    }
    for number in 0..REFUSED {
        refused_records(&mut list, seed, number);
    }
    all_strict_records(&mut list, seed);
    list
}

/// How many lists of options that are refused for one of them.
const REFUSED: u64 = 330;

/// Options of which one is refused, for each cause in turn.
fn refused_records(list: &mut List, seed: u64, number: u64) {
    let mut r = Random::of(seed, family::REFUSED_RECORD, number);
    let cause = Cause::PLAIN[number as usize % Cause::PLAIN.len()];
    let settings = Settings {
        strict: false,
        discard: cause != Cause::Unknown && r.once_in(2),
    };
    let mut options = Vec::new();
    let start = inputs::refused_option(&mut r, cause, &mut options);
    list_records(list, &mut r, &options, start, Settings::OFF, settings);
}

/// Options of which the one at `start` is refused: as an options part, that one alone, in a payload, and behind a header.
fn list_records(
    list: &mut List,
    r: &mut Random,
    options: &[u8],
    start: usize,
    of_options: Settings,
    of_payload: Settings,
) {
    if !kept(r, options) {
        return;
    }
    let mut out = Vec::new();
    index_record(list, options, of_options);
    option_record(list, &options[start..], of_options);
    inputs::payload_of(r, options, &mut out);
    // So that 23 stands before 11 too.
    if of_payload.strict && r.once_in(4) {
        inputs::spoil_entry(r, &mut out);
    }
    payload_record(list, &out, of_payload);
    inputs::message_of(r, &mut out);
    message_record(list, &out, of_payload);
}

// ---- the strict setting

/// How many payloads are read strictly, with what goes beside them.
const STRICT: u64 = 240;
/// How many lists of options that any settings refuse.
const STRICT_REFUSED: u64 = 77;
/// How many lists of options that only a strict reading refuses.
const WRONG_PROTOCOLS: u64 = 136;

/// All strict readings of the list.
fn all_strict_records(list: &mut List, seed: u64) {
    for number in 0..STRICT {
        strict_records(list, seed, number);
    }
    for number in 0..STRICT_REFUSED {
        strict_refused_records(list, seed, number);
    }
    for number in 0..WRONG_PROTOCOLS {
        wrong_protocol_records(list, seed, number);
    }
}

fn strict_settings(r: &mut Random) -> Settings {
    Settings {
        strict: true,
        discard: r.once_in(2),
    }
}

/// A payload, one time in two a well-formed one, one in three behind a good header too; and at times another message, an options part and an option
/// alone.
fn strict_records(list: &mut List, seed: u64, number: u64) {
    let mut r = Random::of(seed, family::STRICT_RECORD, number);
    let settings = strict_settings(&mut r);
    let mut out = Vec::new();
    if r.once_in(2) {
        inputs::well_formed(&mut r, &mut out);
    } else {
        inputs::payload(&mut r, &mut out);
    }
    inputs::vary_protocols_of_payload(&mut r, &mut out);
    if kept(&mut r, &out) {
        payload_record(list, &out, settings);
        if number % 3 == 1 {
            inputs::message_of(&mut r, &mut out);
            message_record(list, &out, settings);
        }
    }
    if number % 3 == 2 {
        inputs::message(&mut r, &mut out);
        inputs::vary_protocols_of_payload(&mut r, &mut out[16..]);
        if kept(&mut r, &out) {
            message_record(list, &out, settings);
        }
    }
    if number % 4 == 1 {
        inputs::options(&mut r, &mut out);
        inputs::vary_protocols(&mut r, &mut out);
        if kept(&mut r, &out) {
            index_record(list, &out, settings);
        }
        inputs::option(&mut r, &mut out);
        inputs::vary_protocols(&mut r, &mut out);
        option_record(list, &out, settings);
    }
}

/// Options of which one is refused under any settings, for each cause in turn.
fn strict_refused_records(list: &mut List, seed: u64, number: u64) {
    let mut r = Random::of(seed, family::STRICT_REFUSED_RECORD, number);
    let cause = Cause::PLAIN[number as usize % Cause::PLAIN.len()];
    let settings = Settings {
        strict: true,
        discard: cause != Cause::Unknown && r.once_in(2),
    };
    let mut options = Vec::new();
    let start = inputs::refused_option(&mut r, cause, &mut options);
    inputs::protocols_around(&mut r, &mut options, start);
    list_records(list, &mut r, &options, start, settings, settings);
}

/// Options of which only a strict reading refuses one, for each kind and cause in turn; a quarter of them once more with protocols that it takes.
fn wrong_protocol_records(list: &mut List, seed: u64, number: u64) {
    let mut r = Random::of(seed, family::WRONG_PROTOCOL_RECORD, number);
    let (round, cause) = (number as usize / 8, Cause::STRICT[number as usize % 8]);
    let settings = strict_settings(&mut r);
    let mut options = Vec::new();
    let start = inputs::refused_option(&mut r, cause, &mut options);
    list_records(list, &mut r, &options, start, settings, settings);
    if round % 4 == 0 {
        inputs::mend_protocols(&mut r, &mut options);
        list_records(list, &mut r, &options, start, settings, settings);
    }
}

// ---- streams

/// What is checked after each step: complete, whether an end is known, the end, the number of ranges, the number of the report's answer, its
/// length and its sum (0 when there is none), then each range's start and end, ascending.
fn state_checks(list: &mut List, stream: &mut Stream) -> Vec<u32> {
    let seen = stream.seen();
    let mut checks = vec![
        stream.complete().into(),
        seen.end.is_some().into(),
        seen.end.unwrap_or(0),
        seen.ranges.len() as u32,
    ];
    let (answer, report) = stream.take();
    let mut sum = Sum::default();
    sum.bytes(report.as_deref().unwrap_or(&[]));
    list.count(answer);
    checks.extend([answer.number as u32, answer.values[0] as u32, sum.value()]);
    for (start, end) in seen.ranges {
        checks.extend([start, end]);
    }
    checks
}

/// Which final segments of a sequence end behind data held, the buffer being lent with 16 plus the limit bytes.
fn ends_behind(sequence: &Sequence) -> Vec<(usize, Answer)> {
    ends::behind(sequence, 16 + sequence.limit as usize)
}

/// The answer to a step: the crate's, but for a final segment that ends behind data held, which it is not handed.
fn answer_to(
    stream: &mut Stream,
    segment: &[u8],
    behind: &[(usize, Answer)],
    number: usize,
) -> Answer {
    ends::due(behind, number).unwrap_or_else(|| stream.consume(segment))
}

/// Whether a sequence can be recorded: it stays inside the comparison domain as far as ranges go, and no record is too long.
fn recordable(sequence: &Sequence, behind: &[(usize, Answer)]) -> bool {
    if sequence.limit > 4096 {
        return false;
    }
    let mut tried = Stream::begin(sequence.limit);
    for (number, step) in sequence.steps.iter().enumerate() {
        match step {
            Step::Segment(segment) if segment.len() > 700 => return false,
            Step::Segment(segment) if has_bytes_behind(segment) => return false,
            Step::Segment(segment) if tried.would_overflow(segment) => return false,
            Step::Segment(segment) => {
                answer_to(&mut tried, segment, behind, number);
            }
            Step::Clear => tried.clear(),
            Step::Take => {}
        }
    }
    true
}

/// A sequence as records: its beginning, then each segment and each clearing.
fn sequence_records(list: &mut List, sequence: &Sequence, behind: &[(usize, Answer)]) {
    let mut stream = Stream::begin(sequence.limit);
    let checks = state_checks(list, &mut stream);
    let begun = Answer::default();
    list.record(
        Kind::Begin,
        Settings::OFF,
        &[sequence.limit],
        begun,
        &checks,
        &[],
    );
    for (number, step) in sequence.steps.iter().enumerate() {
        match step {
            Step::Segment(segment) => {
                let answer = answer_to(&mut stream, segment, behind, number);
                let checks = state_checks(list, &mut stream);
                list.record(Kind::Segment, Settings::OFF, &[], answer, &checks, segment);
            }
            Step::Clear => {
                stream.clear();
                let checks = state_checks(list, &mut stream);
                list.record(
                    Kind::Clear,
                    Settings::OFF,
                    &[],
                    Answer::default(),
                    &checks,
                    &[],
                );
            }
            // The report is asked for after every step.
            Step::Take => {}
        }
    }
}

/// How many sequences are kept in which a final segment ends behind data held, the smallest aside.
const KEPT_BEHIND: usize = 24;

/// The list of streams: at least 3,200 sequences, behind them reports in odd-even order, and last a few of the sequences that were left out
/// because a final segment in them ends behind data held.
pub fn streams(seed: u64) -> List {
    let mut list = List::default();
    let mut number = 0;
    let mut sequences = 0;
    let mut left_out = vec![smallest_behind()];
    while sequences < 3_200 || [30, 31, 32, 33, 37].iter().any(|n| list.often(*n) < OFTEN) {
        let mut r = Random::of(seed, family::RECORD, number);
        let sequence = tp_inputs::sequence(&mut r);
        number += 1;
        // Long sequences are few, so that the file stays small.
        if sequence.steps.len() > 12 && number % 8 != 0 {
            continue;
        }
        let behind = ends_behind(&sequence);
        if !recordable(&sequence, &behind) {
            continue;
        }
        if !behind.is_empty() {
            left_out.push(sequence);
            continue;
        }
        sequence_records(&mut list, &sequence, &behind);
        sequences += 1;
    }
    odd_even_records(&mut list, seed);
    list.left_out = left_out.len() - 1;
    for sequence in left_out.iter().take(1 + KEPT_BEHIND) {
        sequence_records(&mut list, sequence, &ends_behind(sequence));
    }
    list
}

/// 16 bytes at 0 and 16 at 16, with more to follow, and then a final segment from 0 to 16.
fn smallest_behind() -> Sequence {
    let steps = [(0, true), (16, true), (0, false)]
        .map(|(offset, more)| Step::Segment(tp_inputs::segment(offset, more, &[7; 16])));
    Sequence {
        limit: 32,
        spare: 0,
        steps: steps.to_vec(),
    }
}

/// Reports of 8, 16, .. segments in odd-even order, until as many ranges are held as may be.
fn odd_even_records(list: &mut List, seed: u64) {
    for (number, segments) in (8..=2 * MOST_RANGES).step_by(8).enumerate() {
        let mut r = Random::of(seed, family::ODD_EVEN_RECORD, number as u64);
        let sequence = tp_inputs::odd_even(&mut r, segments, 16);
        let behind = ends_behind(&sequence);
        assert!(behind.is_empty() && recordable(&sequence, &behind));
        sequence_records(list, &sequence, &behind);
    }
}

/// Writes both lists into `folder`.
pub fn run(folder: &Path, seed: u64) -> io::Result<()> {
    std::fs::create_dir_all(folder)?;
    for (name, magic, list) in [
        ("sd.bin", b"VIADSD01", service_discovery(seed)),
        ("tp.bin", b"VIADTP01", streams(seed)),
    ] {
        let file = list.file(magic);
        std::fs::write(folder.join(name), &file)?;
        list.print(name, file.len());
    }
    Ok(())
}

#[cfg(test)]
mod tests {
    use super::*;
    use crate::calls::{self, DISCARD};

    /// The records of a file, found by their length fields.
    fn walked(file: &[u8]) -> Vec<&[u8]> {
        let mut at = 16;
        let mut records = Vec::new();
        while at < file.len() {
            let length = usize::from(u16::from_be_bytes([file[at], file[at + 1]]));
            records.push(&file[at + 2..at + 2 + length]);
            at += 2 + length;
        }
        assert_eq!(at, file.len());
        records
    }

    /// A file can be walked front to back by its length fields, and says how many records it has.
    #[test]
    fn files_can_be_walked() {
        let mut list = List::default();
        let strict = Settings::of(DISCARD | calls::STRICT);
        let counterfeit = [0, 9, 4, 0, 192, 168, 1, 1, 0, 0x99, 31, 144];
        payload_record(&mut list, &[0; 12], Settings::OFF);
        payload_record(&mut list, &[0; 11], Settings::of(DISCARD));
        string_record(&mut list, &[5, 0x41, 0]);
        index_record(&mut list, &counterfeit, strict);
        option_record(&mut list, &counterfeit, Settings::STRICT);
        let file = list.file(b"VIADSD01");
        let records = walked(&file);
        assert_eq!(file[8..12], 5u32.to_be_bytes());
        // 11 bytes, discarding: 1 with 12.
        assert_eq!(records[1][..6], [1, 1, 1, 0, 1, 0]);
        assert_eq!(records[1][6..10], [0, 0, 0, 12]);
        assert_eq!(records[1][10..], [0; 11]);
        // The string 054100: 9, the second error, item 0, 5 bytes, 2 remaining, at byte 0.
        assert_eq!(records[2][..6], [6, 0, 9, 0, 5, 0]);
        // An endpoint with protocol 0x99, strictly: 23, 0x99 at byte 9; of an option alone with a sum.
        assert_eq!(records[3][..6], [3, 3, 23, 0, 2, 0]);
        assert_eq!(records[3][6..14], [0, 0, 0, 0x99, 0, 0, 0, 9]);
        assert_eq!(records[4][..6], [5, 2, 23, 0, 2, 1]);
    }

    #[test]
    fn sums_are_as_formatted() {
        let mut sum = Sum::default();
        assert_eq!(sum.value(), 0);
        sum.byte(0);
        assert_eq!(sum.value(), 1);
        sum.byte(2);
        assert_eq!(sum.value(), 16_777_622);
        let mut word = Sum::default();
        word.number(258);
        let mut bytes = Sum::default();
        bytes.bytes(&[0, 0, 1, 2]);
        assert_eq!(word.value(), bytes.value());
    }

    /// Strict readings come last, so that what was recorded before there were any stays where it is; some of each kind are accepted.
    #[test]
    fn strict_records_come_last() {
        let file = service_discovery(1).file(b"VIADSD01");
        let records = walked(&file);
        let strict = |record: &&[u8]| u32::from(record[1]) & calls::STRICT != 0;
        let first = records.iter().position(strict).expect("some");
        assert!(records[first..].iter().all(strict));
        assert!((1_000..1_500).contains(&(records.len() - first)));
        for (kind, number) in [1, 2, 3, 5]
            .into_iter()
            .flat_map(|kind| [(kind, 0), (kind, 23)])
        {
            let such = |record: &&&[u8]| (record[0], record[2]) == (kind, number);
            let count = records[first..].iter().filter(such).count();
            assert!(count >= 20, "{kind}, {number}: {count}");
        }
    }

    /// Sequences in which a final segment ends behind data held come last, the smallest first, each with 33 as the rules have it.
    #[test]
    fn ends_behind_the_data_come_last() {
        let list = streams(1);
        assert!(list.left_out >= KEPT_BEHIND);
        let file = list.file(b"VIADTP01");
        let records = walked(&file);
        let begin = |(at, record): (usize, &&[u8])| (record[0] == Kind::Begin as u8).then_some(at);
        let begins: Vec<usize> = records.iter().enumerate().filter_map(begin).collect();
        let smallest = begins[begins.len() - 1 - KEPT_BEHIND];
        // Begun, two segments accepted, the third refused by 33 (32, 16): two values, and nine checks, of which the fourth says that one range is held.
        assert_eq!(records[smallest + 1][2], 0);
        assert_eq!(records[smallest + 2][2], 0);
        let refused = records[smallest + 3];
        assert_eq!(refused[..6], [Kind::Segment as u8, 0, 33, 0, 2, 9]);
        assert_eq!(refused[6..14], [0, 0, 0, 32, 0, 0, 0, 16]);
        assert_eq!(refused[26..30], [0, 0, 0, 1]);
        for at in &begins[begins.len() - KEPT_BEHIND..] {
            let behind = records[at + 1..].iter().find(|record| record[2] == 33);
            let values = &behind.expect("one of them is refused")[6..14];
            assert!(values[4..] < values[..4], "{values:?}");
        }
    }

    #[test]
    fn every_number_is_recorded_often() {
        let list = service_discovery(1);
        assert!(list.records >= 20_000);
        for number in (1..=20).filter(|n| *n != 9).chain(91..=96) {
            assert!(list.often(number) >= OFTEN, "{number}");
        }
        for (cause, often) in Cause::PLAIN
            .map(|cause| (cause, OFTEN))
            .into_iter()
            .chain(Cause::STRICT.map(|cause| (cause, 15)))
        {
            let counts = list.faults.0[&cause];
            assert!(
                counts.iter().all(|count| *count >= often),
                "{cause}: {counts:?}"
            );
        }
        let list = streams(1);
        assert!(list.kinds[&Kind::Begin][&Settings::OFF] >= 3_000);
        for number in [30, 31, 32, 33, 37] {
            assert!(list.often(number) >= OFTEN, "{number}");
        }
    }
}
