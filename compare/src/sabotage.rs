//! Deliberate faults, each of which the comparison must notice: the port's answers, tables, states and buffers, wrong in one way at a time.

use crate::calls::*;
use crate::plan::Plan;
use crate::whole::{service_discovery, streams};

/// One fault in the port, or in what it is handed.
#[derive(Clone, Copy, Debug, PartialEq)]
pub enum Fault {
    NeededLengthOffByOne,
    RefusalsRenumbered,
    TableShifted,
    TableLeftAfterRefusal,
    SlotPastTableTouched,
    BytesBehindSwallowed,
    DiscardIgnored,
    RunNamesTheOther,
    ZeroCountRunRefused,
    SessionZeroAccepted,
    PartOffByFour,
    PartsAfterRefusal,
    UnnamedBitObeyed,
    EntryFieldsSwapped,
    TtlCutTo16Bits,
    LookupOneFurther,
    RunStopsEarly,
    PortBytesSwapped,
    DeleteInKeyAccepted,
    FarKeyByteMissed,
    ItemWithItsLength,
    PlaceFromTheOption,
    PlaceFromThePart,
    PlaceFromTheMessage,
    PlaceOfTheKey,
    PlaceOfTheUnknownOption,
    PlaceOfTheLastByte,
    TcpInMulticastTaken,
    CounterfeitSdEndpointTaken,
    StrictUnasked,
    StrictUnheardInMessages,
    DiscardTakenForStrict,
    ProtocolsBeforeAll,
    LaterLengthBeforeProtocol,
    UnknownBeforeProtocol,
    EntriesBeforeProtocol,
    PlaceOfTheReservedByte,
    ProtocolPlaceFromTheOption,
    TableLeftAfterProtocol,
    InputDamaged,
    SegmentSwallowed,
    FirstBytesWin,
    EndIgnored,
    MadeUpRange,
    FlagLeftInHeader,
    ReportLengthWrong,
    RefusalWrites,
    GapFillerRefused,
    FullOneEarly,
    EndBehindTaken,
    NewEndToldAsPrevious,
    EndAtTheDataRefused,
    RangePastEndTaken,
    ClearKeepsEnd,
    ClearWipesRanges,
    NoStreamCleared,
    SmallerNumberKept,
    RefusedCounted,
    EmptyNotCounted,
    ClearKeepsCount,
    LastNumberGivenAgain,
    CountFullBeforeRangesFull,
    NumberZeroTaken,
    NumberPastCountTaken,
    RangesToldAsHeld,
    RangesCounted,
    OutOfOrderRefused,
}

use Fault::*;

/// All faults: those of service discovery, then those of a stream.
const SERVICE_DISCOVERY: [Fault; 40] = [
    NeededLengthOffByOne,
    RefusalsRenumbered,
    TableShifted,
    TableLeftAfterRefusal,
    SlotPastTableTouched,
    BytesBehindSwallowed,
    DiscardIgnored,
    RunNamesTheOther,
    ZeroCountRunRefused,
    SessionZeroAccepted,
    PartOffByFour,
    PartsAfterRefusal,
    UnnamedBitObeyed,
    EntryFieldsSwapped,
    TtlCutTo16Bits,
    LookupOneFurther,
    RunStopsEarly,
    PortBytesSwapped,
    DeleteInKeyAccepted,
    FarKeyByteMissed,
    ItemWithItsLength,
    PlaceFromTheOption,
    PlaceFromThePart,
    PlaceFromTheMessage,
    PlaceOfTheKey,
    PlaceOfTheUnknownOption,
    PlaceOfTheLastByte,
    TcpInMulticastTaken,
    CounterfeitSdEndpointTaken,
    StrictUnasked,
    StrictUnheardInMessages,
    DiscardTakenForStrict,
    ProtocolsBeforeAll,
    LaterLengthBeforeProtocol,
    UnknownBeforeProtocol,
    EntriesBeforeProtocol,
    PlaceOfTheReservedByte,
    ProtocolPlaceFromTheOption,
    TableLeftAfterProtocol,
    InputDamaged,
];
const STREAMS: [Fault; 27] = [
    SegmentSwallowed,
    FirstBytesWin,
    EndIgnored,
    MadeUpRange,
    FlagLeftInHeader,
    ReportLengthWrong,
    RefusalWrites,
    GapFillerRefused,
    FullOneEarly,
    EndBehindTaken,
    NewEndToldAsPrevious,
    EndAtTheDataRefused,
    RangePastEndTaken,
    ClearKeepsEnd,
    ClearWipesRanges,
    NoStreamCleared,
    SmallerNumberKept,
    RefusedCounted,
    EmptyNotCounted,
    ClearKeepsCount,
    LastNumberGivenAgain,
    CountFullBeforeRangesFull,
    NumberZeroTaken,
    NumberPastCountTaken,
    RangesToldAsHeld,
    RangesCounted,
    OutOfOrderRefused,
];

/// A port with one fault.
pub struct Faulty<'a, P> {
    inner: &'a P,
    fault: Fault,
}

/// Moves the place that a refusal tells, if it tells one.
fn move_place(answer: &mut Answer, by: i64) {
    if let Some(place) = answer.place() {
        *place = place.wrapping_add_signed(by);
    }
}

/// The greatest end of the ranges that a state holds.
fn furthest(state: &[u32]) -> Option<u32> {
    ranges_of(state).map(|[_, end, _]| end).max()
}

/// Whether it is past the known end, nothing else being wrong with the one range that is held.
fn past_end(state: &[u32]) -> bool {
    let [_, end, _] = range_at(state, 0);
    state.len() == WORDS && state[1..3] == [1, 1] && state[3] < end && end <= state[0]
}

/// The number of the one range that is held, where it is at 0.
fn number_at_zero(state: &[u32]) -> Option<u32> {
    let [start, end, number] = range_at(state, 0);
    (state.len() == WORDS && state[1] == 1 && (start, end) == (0, 0)).then_some(number)
}

impl<P: Calls> Faulty<'_, P> {
    fn is(&self, fault: Fault) -> bool {
        self.fault == fault
    }

    /// The first refusal of the option cursor, which counts the place from the option.
    fn refused_alone(&self, options: &[u8], settings: u32) -> Answer {
        let mut at = 0;
        loop {
            let answer = self.inner.next_option(options, at, settings);
            if !answer.accepted() {
                return answer;
            }
            at += answer.values[2] as usize;
        }
    }

    /// The first 23 of an option, whatever else is wrong in front of it.
    fn first_protocol(&self, options: &[u8], settings: u32) -> Option<Answer> {
        let mut at = 0;
        while at + 3 <= options.len() {
            let mut answer = self.inner.next_option(options, at, settings);
            if answer.number == 23 {
                move_place(&mut answer, at as i64);
                return Some(answer);
            }
            at += 3 + 256 * usize::from(options[at]) + usize::from(options[at + 1]);
        }
        None
    }

    /// The number that comes, by this fault, before the 23 of an option in front.
    fn before_protocol(&self, number: u64) -> bool {
        match self.fault {
            LaterLengthBeforeProtocol => number == 7,
            UnknownBeforeProtocol => number == 10,
            EntriesBeforeProtocol => number == 11 || number == 12,
            _ => false,
        }
    }

    /// The faults of a 23 for a payload.
    fn strict_reading(
        &self,
        mut answer: Answer,
        payload: &[u8],
        table: &mut [u16],
        settings: u32,
    ) -> Answer {
        let start = self.inner.parts(payload, Answer::default()).options_at;
        match self.fault {
            TcpInMulticastTaken if answer.values[0] == 0x06 => {
                let mut other = payload.to_vec();
                other[(start + answer.values[1]) as usize] = 0x11;
                return self.read(&other, table, settings);
            }
            LaterLengthBeforeProtocol | UnknownBeforeProtocol | EntriesBeforeProtocol => {
                let lenient = self.inner.read(payload, table, settings & !STRICT);
                table[..SLOTS].fill(0);
                if self.before_protocol(lenient.number) {
                    answer = lenient;
                }
            }
            ProtocolPlaceFromTheOption => {
                return self.refused_alone(&payload[start as usize..], settings)
            }
            TableLeftAfterProtocol => table[0] = 4,
            _ => {}
        }
        answer
    }

    /// The faults of a whole reading's answer.
    fn reading(
        &self,
        mut answer: Answer,
        payload: &[u8],
        table: &mut [u16],
        settings: u32,
    ) -> Answer {
        match (self.fault, answer.number) {
            (_, 23) => return self.strict_reading(answer, payload, table, settings),
            (NeededLengthOffByOne, 1) => answer.values[0] += 1,
            (RefusalsRenumbered, 10) => answer.number = 11,
            (RefusalsRenumbered, 11) => answer.number = 10,
            (RunNamesTheOther, 12) => answer.values[0] = 3 - answer.values[0],
            (BytesBehindSwallowed, 6) if answer.values[0] < answer.values[1] => {
                let known = answer.values[0] as usize;
                return self.inner.read(&payload[..known], table, 0);
            }
            (ZeroCountRunRefused, 0) => {
                let options = answer.values[2];
                let entries = &payload[8..8 + 16 * answer.values[1] as usize];
                let past = |entry: &[u8]| entry[3] >> 4 == 0 && u64::from(entry[1]) > options;
                if let Some(entry) = entries.chunks(16).find(|entry| past(entry)) {
                    table[..SLOTS].fill(0);
                    return Answer::new(12, &[1, entry[1].into(), 0, options]);
                }
            }
            (PlaceFromTheOption, 7..=9) => {
                let parts = self.inner.parts(payload, Answer::default());
                return self.refused_alone(&payload[parts.options_at as usize..], settings);
            }
            (ProtocolsBeforeAll, 7..=9) => {
                let parts = self.inner.parts(payload, Answer::default());
                let options = &payload[parts.options_at as usize..];
                return self.first_protocol(options, settings).unwrap_or(answer);
            }
            (PlaceOfTheKey, 9) if ![1, 3].contains(&answer.values[0]) => move_place(&mut answer, 1),
            (PlaceOfTheUnknownOption, 10) => move_place(&mut answer, -3),
            (TableShifted, 0) if answer.values[2] > 1 => table[..SLOTS].rotate_right(1),
            (TableLeftAfterRefusal, 7..=12) => table[0] = 4,
            (SlotPastTableTouched, 0) => {
                if let Some(slot) = table.get_mut(SLOTS) {
                    *slot = 0;
                }
            }
            _ => {}
        }
        answer
    }
}

impl<P: Calls> Calls for Faulty<'_, P> {
    fn read(&self, payload: &[u8], table: &mut [u16], settings: u32) -> Answer {
        if self.is(InputDamaged) && payload.len() > 40 {
            let mut other = payload.to_vec();
            *other.last_mut().expect("not empty") ^= 1;
            return self.inner.read(&other, table, settings);
        }
        let settings = match self.fault {
            DiscardIgnored => settings & !DISCARD,
            UnnamedBitObeyed if settings & 0x4 != 0 => settings | DISCARD,
            _ => settings,
        };
        let answer = self.inner.read(payload, table, settings);
        self.reading(answer, payload, table, settings)
    }

    fn read_message(&self, message: &[u8], table: &mut [u16], settings: u32) -> Answer {
        let settings = match self.fault {
            StrictUnheardInMessages => settings & !STRICT,
            _ => settings,
        };
        let mut answer = self.inner.read_message(message, table, settings);
        if self.is(SessionZeroAccepted) && answer.number == 16 {
            return self.inner.read(&message[16..], table, settings);
        }
        if self.is(PlaceFromTheMessage) {
            move_place(&mut answer, 16);
        }
        answer
    }

    fn index(&self, options: &[u8], table: &mut [u16], settings: u32) -> Answer {
        let settings = match self.fault {
            StrictUnasked => settings | STRICT,
            DiscardTakenForStrict if settings & DISCARD != 0 => settings | STRICT,
            _ => settings,
        };
        self.inner.index(options, table, settings)
    }

    fn parts(&self, payload: &[u8], answer: Answer) -> Places {
        let handed = match self.fault {
            PartsAfterRefusal => Answer::default(),
            _ => answer,
        };
        let mut places = self.inner.parts(payload, handed);
        if self.is(PartOffByFour) && places.options_at != 0 {
            places.options_at -= 4;
        }
        places
    }

    fn lookup(&self, options: &[u8], table: &[u16], count: usize, ordinal: usize) -> Answer {
        let further =
            usize::from(self.is(LookupOneFurther) && ordinal < count && count - ordinal > 1);
        self.inner.lookup(options, table, count, ordinal + further)
    }

    fn next_option(&self, options: &[u8], at: usize, settings: u32) -> Answer {
        let mut answer = self.inner.next_option(options, at, settings);
        if self.is(PlaceFromThePart) {
            move_place(&mut answer, at as i64);
        }
        if self.is(PlaceOfTheReservedByte) && answer.number == 23 {
            move_place(&mut answer, -1);
        }
        answer
    }

    fn next_of_run(
        &self,
        options: &[u8],
        table: &[u16],
        count: usize,
        next: usize,
        left: usize,
    ) -> Answer {
        let left = match self.fault {
            RunStopsEarly => left.saturating_sub(1),
            _ => left,
        };
        self.inner.next_of_run(options, table, count, next, left)
    }

    fn string(&self, string: &[u8]) -> Answer {
        let mut answer = self.inner.string(string);
        if self.is(PlaceOfTheLastByte) && answer.number == 9 && answer.values[0] == 1 {
            move_place(&mut answer, -1);
        }
        if self.is(DeleteInKeyAccepted) && answer.number == 9 && answer.values[3] == 0x7f {
            return Answer::default();
        }
        if self.is(FarKeyByteMissed)
            && answer.number == 9
            && answer.values[0] == 5
            && answer.values[2] >= 128
        {
            return Answer::default();
        }
        answer
    }

    fn next_item(&self, string: &[u8], at: usize) -> Answer {
        let mut answer = self.inner.next_item(string, at);
        if self.is(ItemWithItsLength) && answer.accepted() {
            answer.values[0] -= 1;
        }
        answer
    }

    fn next_entry(&self, entries: &[u8], at: usize) -> Entry {
        let mut entry = self.inner.next_entry(entries, at);
        if self.is(EntryFieldsSwapped) {
            std::mem::swap(&mut entry.service, &mut entry.instance);
        }
        if self.is(TtlCutTo16Bits) {
            entry.ttl &= 0xffff;
        }
        entry
    }

    fn read_option(&self, option: &[u8], settings: u32) -> Opt {
        let mut said = self.inner.read_option(option, settings);
        if self.is(CounterfeitSdEndpointTaken)
            && said.answer.number == 23
            && said.answer.values[0] == 0x99
            && [0x24, 0x26].contains(&option[2])
        {
            return self.inner.read_option(option, settings & !STRICT);
        }
        if self.is(PortBytesSwapped) {
            said.port = (said.port as u16).swap_bytes().into();
        }
        said
    }

    fn begin(&self, state: &mut [u32], limit: u32) -> Answer {
        self.inner.begin(state, limit)
    }

    fn consume(&self, state: &mut [u32], segment: &[u8], buffer: &mut [u8]) -> Answer {
        let (held, bytes) = (state.to_vec(), buffer.to_vec());
        if self.is(RangePastEndTaken) && past_end(state) {
            return Answer::default();
        }
        if self.is(OutOfOrderRefused) && !ranges_of(state).is_sorted() {
            return Answer::new(38, &[]);
        }
        if self.is(NumberZeroTaken) && number_at_zero(state) == Some(0)
            || self.is(NumberPastCountTaken)
                && number_at_zero(state).is_some_and(|number| number > state[4])
        {
            return Answer::default();
        }
        let mut answer = self.inner.consume(state, segment, buffer);
        match self.fault {
            // No end is known before, so that 33 is for the data held.
            EndBehindTaken if answer.number == 33 && held[2] == 0 => {
                (state[2], state[3]) = (1, answer.values[1] as u32);
                return Answer::default();
            }
            NewEndToldAsPrevious if answer.number == 33 && held[2] == 0 => {
                answer.values[0] = answer.values[1]
            }
            EndAtTheDataRefused
                if answer.accepted()
                    && (held[2], state[2]) == (0, 1)
                    && furthest(&held) == Some(state[3]) =>
            {
                let end = state[3].into();
                state.copy_from_slice(&held);
                buffer.copy_from_slice(&bytes);
                return Answer::new(33, &[end, end]);
            }
            SegmentSwallowed if answer.accepted() && segment.len() == 20 + 48 => {
                state.copy_from_slice(&held);
                buffer.copy_from_slice(&bytes);
            }
            FirstBytesWin if answer.accepted() => {
                for [start, end, _] in ranges_of(&held) {
                    let (from, to) = (16 + start as usize, 16 + end as usize);
                    buffer[from..to].copy_from_slice(&bytes[from..to]);
                }
            }
            EndIgnored if answer.accepted() => state[2] = 0,
            MadeUpRange if answer.accepted() && state[1] == 2 => {
                let [start, end, number] = range_at(state, 0);
                put_range(state, 0, [start, end + 1, number]);
            }
            // A range was joined: the newest keeps the number before.
            SmallerNumberKept if answer.accepted() && state[1] <= held[1] => {
                let newest = ranges_of(state).position(|[_, _, number]| number == state[4]);
                if let Some(place) = newest {
                    let [start, end, number] = range_at(state, place);
                    put_range(state, place, [start, end, number - 1]);
                }
            }
            RefusedCounted if !answer.accepted() && answer.number != 38 => {
                state[4] = state[4].saturating_add(1)
            }
            EmptyNotCounted if answer.accepted() && segment.len() == 20 && held[1] > 0 => {
                state.copy_from_slice(&held)
            }
            LastNumberGivenAgain if answer.number == 39 => return Answer::default(),
            CountFullBeforeRangesFull if answer.number == 35 && held[4] == LAST_NUMBER => {
                return Answer::new(39, &[])
            }
            FlagLeftInHeader
                if answer.accepted() && segment[16..19] == [0; 3] && segment[19] < 16 =>
            {
                buffer[14] |= 0x20
            }
            RefusalWrites if answer.number == 33 => buffer[16] ^= 1,
            GapFillerRefused if answer.accepted() && held[1] as usize == MOST_RANGES => {
                state.copy_from_slice(&held);
                buffer.copy_from_slice(&bytes);
                return Answer::new(35, &[]);
            }
            FullOneEarly
                if state[1] as usize == MOST_RANGES && (held[1] as usize) < MOST_RANGES =>
            {
                state.copy_from_slice(&held);
                buffer.copy_from_slice(&bytes);
                return Answer::new(35, &[]);
            }
            _ => {}
        }
        answer
    }

    fn complete(&self, state: &[u32]) -> Answer {
        self.inner.complete(state)
    }

    fn take(&self, state: &[u32], buffer: &mut [u8]) -> Answer {
        let answer = self.inner.take(state, buffer);
        if self.is(ReportLengthWrong) && answer.accepted() {
            buffer[7] = buffer[7].wrapping_sub(8);
        }
        answer
    }

    fn clear(&self, state: &mut [u32]) -> Answer {
        let (known, accepted) = (state[2], state[4]);
        if self.is(NoStreamCleared) {
            state[2] = 0;
        }
        let answer = self.inner.clear(state);
        match self.fault {
            ClearKeepsEnd => state[2] = known,
            ClearWipesRanges => state[FRONT_WORDS..].fill(0),
            ClearKeepsCount => state[4] = accepted,
            _ => {}
        }
        answer
    }

    fn count(&self, state: &[u32]) -> Answer {
        let mut answer = self.inner.count(state);
        if self.is(RangesCounted) && answer.accepted() {
            answer.values[0] = state[1].into();
        }
        answer
    }

    fn range(&self, state: &[u32], from: u32) -> Answer {
        let mut answer = self.inner.range(state, from);
        if self.is(RangesToldAsHeld) && answer.accepted() {
            let behind = ranges_of(state).find(|[start, _, _]| *start >= from);
            let range = behind.expect("one is told").map(u64::from);
            answer.values[..RANGE_WORDS].copy_from_slice(&range);
        }
        answer
    }
}

/// Tries each fault over a small run. Returns how many went unnoticed.
pub fn run<P: Calls>(port: &P, plan: &Plan) -> usize {
    let mut unnoticed = 0;
    let sides = SERVICE_DISCOVERY
        .iter()
        .map(|fault| (fault, true))
        .chain(STREAMS.iter().map(|fault| (fault, false)));
    for (fault, discovery) in sides {
        let faulty = Faulty {
            inner: port,
            fault: *fault,
        };
        let tally = if discovery {
            service_discovery(&faulty, plan)
        } else {
            streams(&faulty, plan)
        };
        let first = tally.first.first().and_then(|text| text.lines().next());
        match first {
            Some(what) => println!(
                "noticed   {fault:?}: {} differences, the first in {what}",
                tally.differences
            ),
            None => {
                println!("UNNOTICED {fault:?}");
                unnoticed += 1;
            }
        }
    }
    let tried = SERVICE_DISCOVERY.len() + STREAMS.len();
    println!("{tried} faults tried, {unnoticed} unnoticed");
    unnoticed
}

#[cfg(test)]
mod tests {
    use super::*;
    use crate::plan::Exhaustive;
    use crate::standin::StandIn;

    #[test]
    fn every_fault_in_the_stand_in_is_noticed() {
        let plan = Plan {
            seed: 1,
            payloads: 20_000,
            sequences: 5_000,
            exhaustive: Exhaustive::None,
            threads: 2,
        };
        assert_eq!(run(&StandIn, &plan), 0);
    }
}
