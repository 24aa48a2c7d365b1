//! The comparison of one stream: what the port answers, holds and writes after each step, beside the crate's `TpBuf`; and its numbers of arrival,
//! which the crate has not, beside a count of the comparison's own.

use crate::arrivals::Arrivals;
use crate::calls::{
    put_range, ranges_of, Answer, Calls, FRONT_WORDS, LAST_NUMBER, MOST_LIMIT, MOST_RANGES,
    NOTHING, RANGE_WORDS, WORDS,
};
use crate::ends;
use crate::oracle_tp::{has_bytes_behind, Seen, Stream};
use crate::tally::{hex, Tally};
use crate::tp_inputs::{Sequence, Step};

/// Why a sequence is no equal run, though all of it is compared: the rules refuse by 33 what the crate takes.
const ENDS_BEHIND: &str = "sequences in which a final segment ends behind data held";

/// Why two orders of the same segments are not held to each other, though each is compared.
const REFUSED: &str = "pairs of orders in one of which a segment is refused";

/// One sequence in so many runs a second time, the ranges of its words turned round before each call.
const TURNED: u64 = 8;

/// How such runs are called.
const OUT_OF_ORDER: &str = "sequences over words out of order";

/// How two orders of the same segments are called that are held to each other.
const TWO_ORDERS: &str = "two orders, one report";

/// Up to how many ranges are told one by one after each step; more are at a sequence's end.
const FEW_RANGES: usize = 8;

/// How words that are one too few are called.
const ONE_FEWER: &str = "a word fewer than a state has";

/// A way to change a state, most often to damage it.
type Spoil = fn(&mut [u32; WORDS]);

/// A stream of the port: its state and the lent buffer.
struct Lent {
    state: [u32; WORDS],
    buffer: Vec<u8>,
}

/// What a byte of the buffer holds before the first call, so that a byte left alone shows.
fn before(at: usize) -> u8 {
    (at as u8).wrapping_mul(29) ^ 0xa5
}

impl Lent {
    fn new(room: usize) -> Lent {
        Lent {
            state: [0xdead_beef; WORDS],
            buffer: (0..room).map(before).collect(),
        }
    }

    /// Limit, ranges in ascending order without their numbers, end.
    fn seen(&self) -> (u32, Vec<(u32, u32)>, Option<u32>) {
        let place = |[start, end, _]: [u32; RANGE_WORDS]| (start, end);
        let mut ranges: Vec<(u32, u32)> = ranges_of(&self.state).map(place).collect();
        ranges.sort_unstable();
        let end = (self.state[2] != 0).then_some(self.state[3]);
        (self.state[0], ranges, end)
    }
}

/// The words after clearing: the limit, no range, no end and no segment accepted, and the ranges' words as they were.
fn cleared(state: &[u32; WORDS]) -> [u32; WORDS] {
    let mut words = *state;
    words[1..FRONT_WORDS].fill(0);
    words
}

/// The ranges in reverse, as no call leaves two of them: what is answered is the same.
fn turn(state: &mut [u32; WORDS]) {
    let ranges: Vec<_> = ranges_of(state).collect();
    for (place, range) in ranges.iter().rev().enumerate() {
        put_range(state, place, *range);
    }
}

/// Words that hold these ranges and no other, of segments of which so many were accepted.
fn hold(state: &mut [u32; WORDS], accepted: u32, ranges: &[[u32; RANGE_WORDS]]) {
    (state[1], state[4]) = (ranges.len() as u32, accepted);
    for (place, range) in ranges.iter().enumerate() {
        put_range(state, place, *range);
    }
}

pub struct Tp<'a, P> {
    port: &'a P,
    pub tally: Tally,
    /// A buffer of the largest size as it is before any call.
    untouched: Vec<u8>,
    /// How many sequences there were.
    sequences: u64,
}

impl<'a, P: Calls> Tp<'a, P> {
    pub fn new(port: &'a P) -> Tp<'a, P> {
        Tp {
            port,
            tally: Tally::default(),
            untouched: (0..16 + MOST_LIMIT as usize + 16).map(before).collect(),
            sequences: 0,
        }
    }

    /// One sequence, and at times the same one over words that are out of order.
    pub fn sequence(&mut self, kind: &'static str, sequence: &Sequence) {
        self.sequences += 1;
        self.run(kind, sequence, |_| ());
        if self.sequences % TURNED == 0 {
            self.run(OUT_OF_ORDER, sequence, turn);
        }
    }

    /// The same segments in two orders: each is compared with the crate; and over buffers that hold other bytes both are complete or neither is, and
    /// the reports are equal.
    pub fn two_orders(&mut self, kind: &'static str, orders: &[Sequence; 2]) {
        for sequence in orders {
            self.sequence(kind, sequence);
        }
        let [one, other] = orders;
        let (Some(want), Some(got)) = (self.fed(one, before), self.fed(other, |at| !before(at)))
        else {
            return self.tally.leave_out(REFUSED);
        };
        self.tally.same(TWO_ORDERS, &want, &got, || {
            let last = one.steps.len();
            format!("{}; and {}", name(one, last), name(other, last))
        });
    }

    /// Whether a sequence's stream is complete, and its report; nothing where a segment is refused.
    fn fed(&self, sequence: &Sequence, byte: fn(usize) -> u8) -> Option<(Answer, Answer, Vec<u8>)> {
        let room = 16 + sequence.limit as usize + sequence.spare;
        let mut lent = Lent::new(0);
        lent.buffer = (0..room).map(byte).collect();
        self.port.begin(&mut lent.state, sequence.limit);
        for step in &sequence.steps {
            if let Step::Segment(segment) = step {
                let came = self
                    .port
                    .consume(&mut lent.state, segment, &mut lent.buffer);
                came.accepted().then_some(())?;
            }
        }
        let complete = self.port.complete(&lent.state);
        let taken = self.port.take(&lent.state, &mut lent.buffer);
        let length = match taken.accepted() {
            true => (taken.values[0] as usize).min(room),
            false => 0,
        };
        lent.buffer.truncate(length);
        Some((complete, taken, lent.buffer))
    }

    /// One sequence inside the rules' domain: the buffer has room for the limit. A segment that would make a range too many is not handed to
    /// the crate; 35 is due. Nor is a final segment that ends behind data held; 33 is due, and the sequence is none of the equal runs. What is
    /// done to the words before each call changes nothing that is answered.
    fn run(&mut self, kind: &'static str, sequence: &Sequence, between: Spoil) {
        let room = 16 + sequence.limit as usize + sequence.spare;
        let behind = ends::behind(sequence, room);
        if behind.is_empty() {
            self.tally.input(kind);
        } else if kind != OUT_OF_ORDER {
            self.tally.leave_out(ENDS_BEHIND); // once, and not again when it runs a second time
        }
        let mut lent = Lent::new(room);
        let mut stream = Stream::begin(sequence.limit);
        let mut arrivals = Arrivals::default();
        let mut touched = Touched::default();
        let began = self.port.begin(&mut lent.state, sequence.limit);
        self.tally
            .same("begin", &Answer::default(), &began, || name(sequence, 0));
        self.state_is(&stream, &lent, &touched, sequence, 0);
        self.numbers_are(&stream, &arrivals, &lent, sequence, 0);
        let differences = self.tally.differences;
        let mut most = 0;
        for number in 0..sequence.steps.len() {
            let due = ends::due(&behind, number);
            between(&mut lent.state);
            let held = self.step(
                due,
                (&mut stream, &mut arrivals),
                &mut lent,
                &mut touched,
                sequence,
                number,
            );
            self.numbers_are(&stream, &arrivals, &lent, sequence, number);
            most = most.max(held);
            if self.tally.differences > differences {
                return;
            }
        }
        if behind.is_empty() {
            self.tally.held(kind, most);
        }
    }

    /// One step, with the answer that is due by the rules alone, if it is; answers how many ranges the crate holds after it.
    fn step(
        &mut self,
        due: Option<Answer>,
        (stream, arrivals): (&mut Stream, &mut Arrivals),
        lent: &mut Lent,
        touched: &mut Touched,
        sequence: &Sequence,
        number: usize,
    ) -> usize {
        let held = lent.state;
        match &sequence.steps[number] {
            Step::Segment(segment) => {
                let want = match due {
                    Some(answer) => self.refused_by_rules(stream, segment, answer),
                    None => self.consume(stream, segment),
                };
                let got = self
                    .port
                    .consume(&mut lent.state, segment, &mut lent.buffer);
                self.tally
                    .same("consume", &want, &got, || name(sequence, number));
                if want.accepted() {
                    arrivals.add(segment);
                } else {
                    self.tally
                        .same("state after a refusal", &held, &lent.state, || {
                            name(sequence, number)
                        });
                }
            }
            Step::Take => {
                let (want, report) = stream.take();
                self.tally.answer(want);
                let got = self.port.take(&lent.state, &mut lent.buffer);
                self.tally
                    .same("take", &want, &got, || name(sequence, number));
                if let (Some(report), true) = (report, got.accepted()) {
                    let length = (got.values[0] as usize).min(lent.buffer.len());
                    let part = lent.buffer[..length].to_vec();
                    self.tally
                        .same("report", &report, &part, || name(sequence, number));
                }
            }
            Step::Clear => {
                touched.add(&stream.seen(), stream.header_set);
                stream.clear();
                *arrivals = Arrivals::default();
                let got = self.port.clear(&mut lent.state);
                self.tally
                    .same("clear", &Answer::default(), &got, || name(sequence, number));
                self.tally
                    .same("words after clear", &cleared(&held), &lent.state, || {
                        name(sequence, number)
                    });
            }
        }
        self.state_is(stream, lent, touched, sequence, number)
    }

    /// The answer that is due by the rules to a segment that the crate takes. It is not handed to it, but it has to be one that it takes.
    fn refused_by_rules(&mut self, stream: &Stream, segment: &[u8], due: Answer) -> Answer {
        let taken = stream.clone().consume(segment);
        self.tally.same(
            "taken by the crate, refused by the rules",
            &Answer::default(),
            &taken,
            || hex(segment),
        );
        self.tally.document(due.number);
        due
    }

    /// The crate's answer to a segment, or 35 by the rules.
    fn consume(&mut self, stream: &mut Stream, segment: &[u8]) -> Answer {
        if stream.would_overflow(segment) {
            // A refusal that comes before 35 is still the crate's.
            let answer = stream.clone().consume(segment);
            if answer.accepted() {
                self.tally.document(35);
                return Answer::new(35, &[]);
            }
        }
        let answer = stream.consume(segment);
        if has_bytes_behind(segment) {
            self.tally.document(30);
        } else {
            self.tally.answer(answer);
        }
        answer
    }

    /// Limit, ranges, end, whether complete, and every byte of the buffer; answers how many ranges the crate holds.
    fn state_is(
        &mut self,
        stream: &Stream,
        lent: &Lent,
        touched: &Touched,
        sequence: &Sequence,
        number: usize,
    ) -> usize {
        let seen = stream.seen();
        let want = (sequence.limit, seen.ranges.clone(), seen.end);
        self.tally
            .same("limit, ranges, end", &want, &lent.seen(), || {
                name(sequence, number)
            });
        let want = Answer::new(0, &[u64::from(stream.complete())]);
        let got = self.port.complete(&lent.state);
        self.tally
            .same("complete", &want, &got, || name(sequence, number));
        self.buffer_is(&seen, stream.header_set, lent, touched, || {
            name(sequence, number)
        });
        seen.ranges.len()
    }

    /// The count, and the crate's ranges with the numbers that are due: in the words, and as they are told one after the other.
    fn numbers_are(
        &mut self,
        stream: &Stream,
        arrivals: &Arrivals,
        lent: &Lent,
        sequence: &Sequence,
        number: usize,
    ) {
        let due = arrivals.numbered(&stream.seen().ranges);
        let mut words: Vec<_> = ranges_of(&lent.state).collect();
        words.sort_unstable();
        let want = (arrivals.count(), &due);
        let got = (u64::from(lent.state[4]), &words);
        self.tally
            .same("count and numbers in the words", &want, &got, || {
                name(sequence, number)
            });
        let want = Answer::new(0, &[arrivals.count()]);
        let got = self.port.count(&lent.state);
        self.tally
            .same("count", &want, &got, || name(sequence, number));
        if due.len() > FEW_RANGES && number + 1 < sequence.steps.len() {
            return; // each call judges the whole state
        }
        let mut from = 0;
        for range in due {
            let want = Answer::new(0, &range.map(u64::from));
            let got = self.port.range(&lent.state, from);
            self.tally
                .same("range", &want, &got, || name(sequence, number));
            from = range[1] + 1;
        }
        let got = self.port.range(&lent.state, from);
        self.tally
            .same("no range", &NOTHING, &got, || name(sequence, number));
    }

    /// Under the ranges and in the header the crate's bytes; elsewhere what was there before, but for bytes that an earlier stream set.
    fn buffer_is(
        &mut self,
        seen: &Seen,
        header_set: bool,
        lent: &Lent,
        touched: &Touched,
        name: impl FnOnce() -> String,
    ) {
        let mut want = self.untouched[..lent.buffer.len()].to_vec();
        touched.keep(&mut want, &lent.buffer);
        let mut set = |from: usize, to: usize| want[from..to].copy_from_slice(&seen.data[from..to]);
        if header_set {
            set(0, 16);
        }
        for (start, end) in &seen.ranges {
            set(16 + *start as usize, 16 + *end as usize);
        }
        self.tally.same("buffer", &want, &lent.buffer, name);
    }

    /// What only the rules say: 34 under a short buffer, 36, 38, 39, and states of too few words.
    pub fn by_document(&mut self, sequence: &Sequence, short: usize, limit: u32) {
        let mut lent = Lent::new(short);
        let mut stream = Stream::begin(sequence.limit);
        self.port.begin(&mut lent.state, sequence.limit);
        let mut walk = ends::Walk::new(sequence.limit, short);
        let mut arrivals = Arrivals::default();
        for (number, step) in sequence.steps.iter().enumerate() {
            let Step::Segment(segment) = step else {
                continue;
            };
            let mut tried = stream.clone();
            let mut want = tried.consume(segment);
            if let Some(due) = walk.comes(segment) {
                want = due;
            } else if want.accepted() {
                let offset =
                    u32::from_be_bytes([segment[16], segment[17], segment[18], segment[19] & 0xf0]);
                let needed = 16 + offset as usize + segment.len() - 20;
                if short < needed {
                    want = Answer::new(34, &[needed as u64]);
                } else if stream.would_overflow(segment) {
                    want = Answer::new(35, &[]);
                }
            }
            self.at_last_number(want, segment, &lent, sequence, number);
            let (held, bytes) = (lent.state, lent.buffer.clone());
            let got = self
                .port
                .consume(&mut lent.state, segment, &mut lent.buffer);
            self.tally.document(want.number);
            self.tally
                .same("consume in a short buffer", &want, &got, || {
                    name(sequence, number)
                });
            if want.accepted() {
                stream = tried;
                arrivals.add(segment);
            } else {
                let (kept, same) = ((held, &bytes), (lent.state, &lent.buffer));
                self.tally
                    .same("all as it was", &kept, &same, || name(sequence, number));
            }
        }
        self.numbers_are(&stream, &arrivals, &lent, sequence, sequence.steps.len());
        self.take_short(&mut stream, &mut lent, sequence);
        self.begin_anyhow(limit);
        self.full_at_last_number();
        self.malformed(&lent, sequence);
    }

    /// The same stream with one number left, and with none: what is accepted has the last number, and is then refused by 39, which comes after all
    /// other refusals; and the words and the buffer are as they were.
    fn at_last_number(
        &mut self,
        due: Answer,
        segment: &[u8],
        lent: &Lent,
        sequence: &Sequence,
        number: usize,
    ) {
        let mut state = lent.state;
        state[4] = LAST_NUMBER - 1;
        let mut buffer = lent.buffer.clone();
        let got = self.port.consume(&mut state, segment, &mut buffer);
        self.tally
            .same("consume with one number left", &due, &got, || {
                name(sequence, number)
            });
        let mut newest = ranges_of(&state).map(|[_, _, number]| number);
        let given = due.accepted() && state[4] == LAST_NUMBER;
        self.tally.same(
            "the last number",
            &(due.accepted(), due.accepted()),
            &(given, newest.any(|number| number == LAST_NUMBER)),
            || name(sequence, number),
        );

        let mut state = lent.state;
        state[4] = LAST_NUMBER;
        let (held, mut buffer) = (state, lent.buffer.clone());
        let want = match due.accepted() {
            true => Answer::new(39, &[]),
            false => due,
        };
        let got = self.port.consume(&mut state, segment, &mut buffer);
        self.tally.document(want.number);
        self.tally
            .same("consume with no number left", &want, &got, || {
                name(sequence, number)
            });
        self.tally.same(
            "all as it was",
            &(held, &lent.buffer),
            &(state, &buffer),
            || name(sequence, number),
        );
        let got = self.port.clear(&mut state);
        self.tally.same(
            "cleared at the last number",
            &(Answer::default(), cleared(&held)),
            &(got, state),
            || name(sequence, number),
        );
    }

    /// Taking the message with a buffer one byte shorter than it is: 34, unless it is not complete.
    fn take_short(&mut self, stream: &mut Stream, lent: &mut Lent, sequence: &Sequence) {
        let want = match stream.take() {
            (_, Some(report)) => Answer::new(34, &[report.len() as u64]),
            (answer, None) => answer,
        };
        let room = want.values[0].saturating_sub(1) as usize;
        let bytes = lent.buffer.clone();
        let got = self.port.take(&lent.state, &mut lent.buffer[..room]);
        self.tally.document(want.number);
        self.tally
            .same("take from a short buffer", &want, &got, || {
                name(sequence, 0)
            });
        self.tally
            .same("buffer as it was", &bytes, &lent.buffer, || {
                name(sequence, 0)
            });
    }

    /// No place for a range more and no number left: 35; and 39 to a segment that joins ranges.
    fn full_at_last_number(&mut self) {
        let mut lent = Lent::new(16 + 64);
        self.port.begin(&mut lent.state, 64);
        let empty: Vec<_> = (0..MOST_RANGES as u32).map(|at| [at, at, 1]).collect();
        hold(&mut lent.state, LAST_NUMBER, &empty);
        for (offset, length, due) in [(64, 0, 35), (48, 16, 39)] {
            let segment = crate::tp_inputs::segment(offset, true, &vec![7; length]);
            let mut state = lent.state;
            let got = self.port.consume(&mut state, &segment, &mut lent.buffer);
            self.tally.document(due);
            self.tally.same(
                "consume with no place and no number left",
                &(Answer::new(due, &[]), lent.state),
                &(got, state),
                || hex(&segment),
            );
        }
    }

    /// Beginning under any limit: 36 above 65,520, and the state then has limit 0; no range and no end either way.
    fn begin_anyhow(&mut self, limit: u32) {
        let mut lent = Lent::new(0);
        let got = self.port.begin(&mut lent.state, limit);
        let (want, kept) = if limit > MOST_LIMIT {
            (Answer::new(36, &[limit.into()]), 0)
        } else {
            (Answer::default(), limit)
        };
        self.tally.document(want.number);
        self.tally.same("begin", &want, &got, || limit.to_string());
        self.tally
            .same("state begun", &(kept, vec![], None), &lent.seen(), || {
                limit.to_string()
            });
    }

    /// The state damaged in each way that the rules list: 38, nothing written; and too few words.
    fn malformed(&mut self, lent: &Lent, sequence: &Sequence) {
        let limit = lent.state[0];
        let damage: [(&str, Spoil); 11] = [
            ("a range too many", |s| s[1] = MOST_RANGES as u32 + 1),
            ("a range that ends before its start", |s| {
                hold(s, 1, &[[16, 0, 1]])
            }),
            ("a range past the limit", |s| {
                hold(s, 1, &[[0, s[0] + 1, 1]])
            }),
            ("a range past the known end", |s| {
                (s[0], s[2], s[3]) = (32, 1, 31);
                hold(s, 1, &[[0, 32, 1]])
            }),
            ("two ranges that touch", |s| {
                hold(s, 2, &[[0, 0, 1], [0, 0, 2]])
            }),
            ("a number of 0", |s| hold(s, 5, &[[0, 0, 0]])),
            ("a number above the count", |s| hold(s, 5, &[[0, 0, 6]])),
            ("an end past the limit", |s| {
                s[2] = 1;
                s[3] = s[0] + 1;
            }),
            ("a limit above 65,520", |s| s[0] = MOST_LIMIT + 1),
            ("a count that is huge", |s| s[1] = u32::MAX),
            ("neither an end nor none", |s| s[2] = 2),
        ];
        let segment = crate::tp_inputs::segment(0, true, &[]);
        let want = Answer::new(38, &[]);
        for (why, spoil) in damage {
            let mut state = lent.state;
            spoil(&mut state);
            let held = state;
            let mut buffer = lent.buffer.clone();
            let name = || format!("{why}, limit {limit}: {}", crate::tp::name(sequence, 0));
            let got = self.port.consume(&mut state, &segment, &mut buffer);
            self.tally.document(38);
            self.tally.same("consume, malformed", &want, &got, name);
            let got = self.port.take(&state, &mut buffer);
            self.tally.same("take, malformed", &want, &got, name);
            let got = self.port.complete(&state);
            self.tally
                .same("complete, malformed", &Answer::default(), &got, name);
            let got = (self.port.count(&state), self.port.range(&state, 0));
            self.tally
                .same("count and range, malformed", &(want, want), &got, name);
            self.tally.same(
                "all as it was",
                &(held, &lent.buffer),
                &(state, &buffer),
                name,
            );
            // Clearing mends ranges, end and count, but leaves words that hold no stream alone.
            let (due, left) = match held[2] {
                0 | 1 => (Answer::default(), cleared(&held)),
                _ => (want, held),
            };
            let got = self.port.clear(&mut state);
            self.tally.same("clear, malformed", &due, &got, name);
            self.tally.same("words after clear", &left, &state, name);
        }
        let mut state = lent.state;
        let mut buffer = lent.buffer.clone();
        let got = self
            .port
            .consume(&mut state[..WORDS - 1], &segment, &mut buffer);
        self.tally
            .same("consume, few words", &want, &got, || ONE_FEWER.into());
        let got = self.port.clear(&mut state[..WORDS - 1]);
        self.tally
            .same("clear, few words", &want, &got, || ONE_FEWER.into());
        let got = self.port.begin(&mut state[..WORDS - 1], 16);
        self.tally
            .same("begin, few words", &want, &got, || ONE_FEWER.into());
        self.tally.same(
            "all as it was",
            &(lent.state, &lent.buffer),
            &(state, &buffer),
            || ONE_FEWER.into(),
        );
    }
}

/// Bytes that a stream set before it was cleared: the crate forgets them, the lent buffer keeps them.
#[derive(Default)]
struct Touched {
    ranges: Vec<(usize, usize)>,
}

impl Touched {
    fn add(&mut self, seen: &Seen, header_set: bool) {
        if header_set {
            self.ranges.push((0, 16));
        }
        for (start, end) in &seen.ranges {
            self.ranges.push((16 + *start as usize, 16 + *end as usize));
        }
    }

    /// Takes these bytes from the buffer as it is.
    fn keep(&self, want: &mut [u8], buffer: &[u8]) {
        for (from, to) in &self.ranges {
            want[*from..*to].copy_from_slice(&buffer[*from..*to]);
        }
    }
}

/// A sequence in words, up to the step that showed the difference.
fn name(sequence: &Sequence, number: usize) -> String {
    let mut text = format!("limit {}, spare {}", sequence.limit, sequence.spare);
    for step in &sequence.steps[..sequence.steps.len().min(number + 1)] {
        match step {
            Step::Segment(segment) => text += &format!(", segment {}", hex(segment)),
            Step::Take => text += ", take",
            Step::Clear => text += ", clear",
        }
    }
    text
}

#[cfg(test)]
mod tests {
    use super::*;
    use crate::standin::StandIn;
    use crate::tp_inputs::segment;

    /// How many differences two orders of two segments show, and how many pairs were held to each other.
    fn differences(pieces: [(u32, bool, Vec<u8>); 2]) -> (u64, u64) {
        let order = |places: [usize; 2]| {
            let piece = |place: usize| {
                let (offset, more, payload) = &pieces[place];
                Step::Segment(segment(*offset, *more, payload))
            };
            Sequence {
                limit: 64,
                spare: 0,
                steps: places.map(piece).to_vec(),
            }
        };
        let mut tp = Tp::new(&StandIn);
        tp.two_orders("two segments", &[order([0, 1]), order([1, 0])]);
        let held = 1 - tp.tally.left_out.total();
        (tp.tally.differences, held)
    }

    #[test]
    fn orders_that_matter_show() {
        let whole = [(0, true, vec![1; 16]), (16, false, vec![2; 4])];
        assert_eq!(differences(whole), (0, 1));
        // The newest bytes win where two overlap.
        let overlapping = [(0, true, vec![1; 16]), (0, false, vec![2; 32])];
        assert_eq!(differences(overlapping), (1, 1));
        // Two ends: refused in either order.
        let two_ends = [(0, false, vec![1; 16]), (16, false, vec![2; 4])];
        assert_eq!(differences(two_ends), (0, 0));
    }
}
