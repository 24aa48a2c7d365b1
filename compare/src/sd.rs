//! The comparison on the service discovery side: what the port answers beside what the crate says, for one input at a time.

use crate::calls::{Answer, Calls, Places, Settings, DISCARD, NOTHING, SLOTS, STRICT};
use crate::oracle;
use crate::places;
use crate::tally::{hex, Tally};
use someip_parse::sd::{SdOptionsIndex, SdSlice};

/// Slots that a lent table may have past the 347.
const SPARE: usize = 53;

pub struct Sd<'a, P> {
    port: &'a P,
    pub tally: Tally,
    table: [u16; SLOTS + SPARE],
}

/// What a slot holds before a call, so that a slot left alone shows.
fn before(slot: usize) -> u16 {
    0xa5c3 ^ (slot as u16).wrapping_mul(0x0101)
}

/// The settings as a word, of which these bits are obeyed. With every second input all others are set too: they are ignored.
fn word(settings: Settings, obeyed: u32, input: &[u8]) -> u32 {
    let ignored = if input.len() % 2 == 1 { !obeyed } else { 0 };
    settings.word() | ignored
}

/// What a payload and a message obey.
const OF_A_PAYLOAD: u32 = DISCARD | STRICT;
/// What the index, one option and the option cursor obey.
const OF_OPTIONS: u32 = STRICT;

impl<'a, P: Calls> Sd<'a, P> {
    pub fn new(port: &'a P) -> Sd<'a, P> {
        Sd {
            port,
            tally: Tally::default(),
            table: [0; SLOTS + SPARE],
        }
    }

    fn lend(&mut self) {
        for (slot, value) in self.table.iter_mut().enumerate() {
            *value = before(slot);
        }
    }

    /// The lent table after a call: the 347 slots by the crate's index or zeros, the others untouched; after 22 all are untouched.
    fn table_is(&mut self, index: Option<&SdOptionsIndex>, slots: usize, input: &[u8]) {
        let mut want = [0; SLOTS + SPARE];
        for (slot, value) in want.iter_mut().enumerate() {
            *value = before(slot);
        }
        if slots >= SLOTS {
            let mut filled = [0; SLOTS];
            if let Some(index) = index {
                oracle::fill_table(index, &mut filled);
            }
            want[..SLOTS].copy_from_slice(&filled);
        }
        let table = self.table;
        self.tally.same("table", &want, &table, || hex(input));
    }

    /// A payload under some settings, with a table of `slots` slots.
    pub fn payload(&mut self, payload: &[u8], settings: Settings, slots: usize) {
        self.tally.input("payloads");
        self.lend();
        let word = word(settings, OF_A_PAYLOAD, payload);
        let got = self.port.read(payload, &mut self.table[..slots], word);
        let reading = oracle::read(payload, settings);
        self.reading("read", payload, payload, settings, slots, got, reading);
    }

    /// A message with SD header; what `SomeipMsgSlice` does not accept whole is left out.
    pub fn message(&mut self, message: &[u8], settings: Settings, slots: usize) {
        let Some(reading) = oracle::read_message(message, settings) else {
            self.tally
                .leave_out("messages that SomeipMsgSlice does not accept whole");
            return;
        };
        self.tally.input("messages with SD header");
        self.lend();
        let word = word(settings, OF_A_PAYLOAD, message);
        let got = self
            .port
            .read_message(message, &mut self.table[..slots], word);
        let payload = &message[16..];
        self.reading(
            "read_message",
            message,
            payload,
            settings,
            slots,
            got,
            reading,
        );
    }

    /// Fewer than 16 bytes of a message: the crate cannot be asked.
    pub fn short_message(&mut self, message: &[u8]) {
        self.lend();
        let got = self.port.read_message(message, &mut self.table[..SLOTS], 0);
        self.tally.document(1);
        let want = Answer::new(1, &[16]);
        self.tally
            .same("read_message", &want, &got, || hex(message));
        self.table_is(None, SLOTS, message);
    }

    #[allow(clippy::too_many_arguments)]
    fn reading(
        &mut self,
        call: &'static str,
        input: &[u8],
        payload: &[u8],
        settings: Settings,
        slots: usize,
        got: Answer,
        reading: Result<SdSlice, Answer>,
    ) {
        let name = || format!("{settings}, {slots} slots, {}", hex(input));
        if slots < SLOTS {
            self.tally.document(22);
            let want = Answer::new(22, &[slots as u64]);
            self.tally.same(call, &want, &got, name);
            self.table_is(None, slots, input);
            return;
        }
        let want = match &reading {
            Ok(sd) => oracle::read_answer(sd),
            Err(answer) => *answer,
        };
        self.tally.answer(want);
        self.tally.under("payloads and messages", settings, want);
        if want.tells_place() {
            let fault = places::in_payload(payload, settings);
            self.tally.faults.count(fault);
        }
        if want.number == 23 {
            let lenient = oracle::read(payload, settings.lenient());
            self.tally.before(lenient.err().unwrap_or_default());
        }
        self.tally.same(call, &want, &got, name);
        self.table_is(
            reading.as_ref().ok().map(|sd| sd.options_index()),
            slots,
            input,
        );
        if !(14..=19).contains(&want.number) {
            self.insides(payload, settings, want, reading.ok(), slots);
        }
    }

    /// The parts of a payload and what the cursors and lookups hand out.
    fn insides(
        &mut self,
        payload: &[u8],
        settings: Settings,
        said: Answer,
        sd: Option<SdSlice>,
        slots: usize,
    ) {
        // The crate hands out no part after a refusal; by the rules they are empty.
        let want = match &sd {
            Some(sd) => oracle::places(payload, sd),
            None => Places::default(),
        };
        let got = self.port.parts(payload, said);
        self.tally.same("parts", &want, &got, || hex(payload));
        // With an answer of other bytes: by the sizes alone, which are judged before all else.
        let want = match said.number {
            1..=6 => Places::default(),
            _ => oracle::places_by_sizes(payload),
        };
        let got = self.port.parts(payload, Answer::default());
        self.tally
            .same("parts by the sizes", &want, &got, || hex(payload));
        if want == Places::default() {
            return;
        }
        let part = |at: u64, len: u64| &payload[at as usize..(at + len) as usize];
        let entries = part(want.entries_at, want.entries_len);
        let options = part(want.options_at, want.options_len);
        self.entries(entries);
        self.options(options, settings);
        if let Some(sd) = &sd {
            let index = sd.options_index();
            self.lookups(options, index, slots);
            for entry in entries.chunks(16) {
                self.run(options, index, slots, entry[1], entry[3] >> 4);
                self.run(options, index, slots, entry[2], entry[3] & 0x0f);
            }
        }
    }

    /// The entry cursor from the front to its end or first refusal.
    fn entries(&mut self, entries: &[u8]) {
        let mut at = 0;
        loop {
            let want = oracle::next_entry(entries, at);
            let got = self.port.next_entry(entries, at);
            self.tally.same("next_entry", &want, &got, || {
                format!("at {at}: {}", hex(entries))
            });
            if !want.answer.accepted() {
                return;
            }
            at += 16;
        }
    }

    /// One step of the option cursor.
    fn next_option(&mut self, options: &[u8], at: usize, settings: Settings) -> Answer {
        let want = oracle::next_option(options, at, settings);
        let word = word(settings, OF_OPTIONS, options);
        let got = self.port.next_option(options, at, word);
        self.tally.same("next_option", &want, &got, || {
            format!("{settings}, at {at}: {}", hex(options))
        });
        want
    }

    /// The option in front of some bytes, with its fields.
    fn read_option(&mut self, bytes: &[u8], settings: Settings) -> Answer {
        let want = oracle::read_option(bytes, settings);
        let word = word(settings, OF_OPTIONS, bytes);
        let got = self.port.read_option(bytes, word);
        self.tally.same("read_option", &want, &got, || {
            format!("{settings}, {}", hex(bytes))
        });
        want.answer
    }

    /// The option cursor from the front to its end or first refusal, and each option's fields.
    fn options(&mut self, options: &[u8], settings: Settings) {
        let mut at = 0;
        loop {
            let said = self.next_option(options, at, settings);
            if said == NOTHING {
                return;
            }
            self.read_option(&options[at..], settings);
            if !said.accepted() {
                return;
            }
            at += said.values[2] as usize;
        }
    }

    /// Lookup at every place, and past the last.
    fn lookups(&mut self, options: &[u8], index: &SdOptionsIndex, slots: usize) {
        let count = index.len();
        let past = [count, count + 1, 346, 347, 348, usize::MAX];
        for ordinal in (0..count).chain(past) {
            let want = oracle::option_at(index, ordinal);
            let got = self
                .port
                .lookup(options, &self.table[..slots], count, ordinal);
            self.tally.same("lookup", &want, &got, || {
                format!("place {ordinal} of {count}: {}", hex(options))
            });
        }
    }

    /// One run, option by option, to its end or where it leaves the list.
    fn run(&mut self, options: &[u8], index: &SdOptionsIndex, slots: usize, start: u8, count: u8) {
        let (mut next, mut left) = (usize::from(start), usize::from(count));
        for want in oracle::run(index, start, count) {
            let table = &self.table[..slots];
            let got = self
                .port
                .next_of_run(options, table, index.len(), next, left);
            self.tally.same("next_of_run", &want, &got, || {
                format!(
                    "next {next}, {left} left of {start}, {count}: {}",
                    hex(options)
                )
            });
            next += 1;
            left = left.saturating_sub(1);
        }
    }

    /// The index alone, with lookups and some runs of it, which may leave the list.
    pub fn index(&mut self, options: &[u8], settings: Settings, slots: usize, runs: [(u8, u8); 2]) {
        self.tally.input("options parts for the index alone");
        self.lend();
        let word = word(settings, OF_OPTIONS, options);
        let got = self.port.index(options, &mut self.table[..slots], word);
        let name = || format!("{settings}, {slots} slots, {}", hex(options));
        if slots < SLOTS {
            self.tally.document(22);
            let want = Answer::new(22, &[slots as u64]);
            self.tally.same("index", &want, &got, name);
            self.table_is(None, slots, options);
            return;
        }
        let index = oracle::index(options, settings);
        let want = match &index {
            Ok(index) => Answer::new(0, &[index.len() as u64]),
            Err(answer) => *answer,
        };
        self.tally.answer(want);
        self.tally.under("options parts", settings, want);
        if want.tells_place() {
            let fault = places::in_options(options, settings);
            self.tally.faults.count(fault);
        }
        if want.number == 23 {
            let lenient = oracle::index(options, settings.lenient());
            self.tally.before(lenient.err().unwrap_or_default());
        }
        self.tally.same("index", &want, &got, name);
        self.table_is(index.as_ref().ok(), slots, options);
        if let Ok(index) = &index {
            self.lookups(options, index, slots);
            for (start, count) in runs {
                self.run(options, index, slots, start, count & 0x0f);
            }
        }
    }

    /// Lookup in a table that no index filled: the crate has none such, the rules and its decoding of one option decide.
    pub fn foreign_table(&mut self, options: &[u8], table: &[u16], count: usize, ordinal: usize) {
        let want = oracle::lookup_in(options, table, count, ordinal);
        let name = || format!("place {ordinal} of {count} in {table:?}: {}", hex(options));
        self.tally.document(want.number);
        let got = self.port.lookup(options, table, count, ordinal);
        self.tally.same("lookup in any table", &want, &got, name);
        let got = self.port.next_of_run(options, table, count, ordinal, 1);
        self.tally
            .same("next_of_run in any table", &want, &got, name);
    }

    /// One entry alone, at the front of some bytes, and cursors beside and past the end.
    pub fn entry(&mut self, bytes: &[u8]) {
        self.tally.input("entries alone");
        for at in [0, 1, bytes.len(), bytes.len() + 1] {
            let want = oracle::next_entry(bytes, at);
            let got = self.port.next_entry(bytes, at);
            self.tally.answer(want.answer);
            self.tally.same("next_entry", &want, &got, || {
                format!("at {at}: {}", hex(bytes))
            });
        }
    }

    /// One option alone, at the front of some bytes, and cursors beside and past the end; with the strict setting off and on.
    pub fn option(&mut self, bytes: &[u8]) {
        self.tally.input("options alone");
        for settings in [Settings::OFF, Settings::STRICT] {
            let said = self.read_option(bytes, settings);
            self.tally.answer(said);
            self.tally.under("options alone", settings, said);
            for at in [0, 1, bytes.len(), bytes.len() + 1] {
                self.next_option(bytes, at, settings);
            }
        }
    }

    /// One configuration string.
    pub fn string(&mut self, string: &[u8]) {
        self.tally.input("strings");
        let (want, got) = (oracle::string(string), self.port.string(string));
        self.tally.answer(want);
        self.tally.same("string", &want, &got, || hex(string));
        let mut at = 0;
        loop {
            let (want, got) = (
                oracle::next_item(string, at),
                self.port.next_item(string, at),
            );
            self.tally.same("next_item", &want, &got, || {
                format!("at {at}: {}", hex(string))
            });
            if !want.accepted() {
                return;
            }
            at += 1 + want.values[1] as usize;
        }
    }
}
