//! What the crate someip_parse says, as the rules' numbers and values; one function for each call.
//! Nothing is judged here: errors are renamed, and slices become the places where they lie. The byte place of 7 to 10, which the crate does not
//! tell, is what `places.rs` finds; and under the strict setting, which the crate has not, its answer is followed by what `places.rs` refuses.

use crate::calls::{Answer, Entry, Opt, Places, Settings, NOTHING, SLOTS};
use crate::places::{self, Cause, Fault};
use someip_parse::err::{LenError, LenSource, SdError, SdOptionSliceError, SdSliceError};
use someip_parse::sd::entries::U4;
use someip_parse::sd::options::{self, ConfigurationOption, SdConfigurationStringError};
use someip_parse::sd::{SdEntrySlice, SdOptionSlice, SdOptionsIndex, SdSlice};
use someip_parse::SomeipMsgSlice;

/// An error that no reading gives: it differs from every answer of the port.
pub const UNEXPECTED: u64 = 99;

// ---- errors: the place, where one is due, is left at 0

fn wide(n: usize) -> u64 {
    n as u64
}

fn string_error(error: &SdConfigurationStringError) -> Answer {
    use SdConfigurationStringError::*;
    match *error {
        MissingTerminator => Answer::new(9, &[1]),
        ItemLengthExceedsRemaining {
            item_offset,
            item_length,
            remaining,
        } => Answer::new(
            9,
            &[2, wide(item_offset), item_length.into(), wide(remaining)],
        ),
        TrailingDataAfterTerminator { terminator_offset } => {
            Answer::new(9, &[3, wide(terminator_offset)])
        }
        EmptyKey { item_offset } => Answer::new(9, &[4, wide(item_offset)]),
        InvalidKeyByte {
            item_offset,
            byte_offset,
            value,
        } => Answer::new(9, &[5, wide(item_offset), wide(byte_offset), value.into()]),
        KeyContainsOnlyWhitespace { item_offset } => Answer::new(9, &[6, wide(item_offset)]),
    }
}

fn length_error(error: &LenError) -> Answer {
    let source = match error.len_source {
        LenSource::Slice => 0,
        LenSource::SdOptionLength => 1,
        _ => UNEXPECTED,
    };
    Answer::new(7, &[wide(error.required_len), wide(error.len), source])
}

fn option_error(error: &SdOptionSliceError) -> Answer {
    match error {
        SdOptionSliceError::Len(error) => length_error(error),
        SdOptionSliceError::OptionLengthZero => Answer::new(8, &[]),
        SdOptionSliceError::ConfigurationString(error) => string_error(error),
        SdOptionSliceError::OptionsArrayLengthTooLarge { len, .. } => {
            Answer::new(13, &[wide(*len)])
        }
    }
}

fn slice_error(error: &SdSliceError) -> Answer {
    let content = match error {
        SdSliceError::UnexpectedEndOfSlice(needed) => return Answer::new(1, &[wide(*needed)]),
        SdSliceError::Content(content) => content,
    };
    match content {
        SdError::SdEntriesArrayLengthTooLarge(length) => Answer::new(2, &[(*length).into()]),
        SdError::SdEntriesArrayLengthInvalid(length) => Answer::new(3, &[(*length).into()]),
        SdError::SdOptionsArrayLengthTooLarge(length) => Answer::new(4, &[(*length).into()]),
        SdError::SdPayloadLengthTooLarge(length) => Answer::new(5, &[(*length).into()]),
        SdError::SdPayloadLengthMismatch {
            expected_len,
            actual_len,
        } => Answer::new(6, &[wide(*expected_len), wide(*actual_len)]),
        SdError::SdOption(error) => option_error(error),
        SdError::UnknownSdOptionType(code) => Answer::new(10, &[(*code).into()]),
        SdError::UnknownSdServiceEntryType(code) | SdError::UnknownSdEventGroupEntryType(code) => {
            Answer::new(11, &[(*code).into()])
        }
        SdError::SdOptionRunOutOfBounds {
            run,
            start_index,
            number_of_options,
            options_len,
        } => Answer::new(
            12,
            &[
                (*run).into(),
                (*start_index).into(),
                (*number_of_options).into(),
                wide(*options_len),
            ],
        ),
        SdError::SdMessageIdInvalid(id) => Answer::new(14, &[(*id).into()]),
        SdError::SdClientIdInvalid(id) => Answer::new(15, &[(*id).into()]),
        SdError::SdSessionIdZero => Answer::new(16, &[]),
        SdError::SdInterfaceVersionInvalid(version) => Answer::new(17, &[(*version).into()]),
        SdError::SdMessageTypeInvalid(code) => Answer::new(18, &[(*code).into()]),
        SdError::SdReturnCodeInvalid(code) => Answer::new(19, &[(*code).into()]),
        _ => Answer::new(UNEXPECTED, &[]),
    }
}

/// A refusal with the place that the walk finds. Where the walk finds nothing, or something else than the crate refused, it is no answer at all.
fn with_place(mut said: Answer, walk: impl FnOnce() -> Option<Fault>) -> Answer {
    let (number, error) = (said.number, said.values[0]);
    let Some(place) = said.place() else {
        return said;
    };
    let same = |cause: Cause| match cause {
        Cause::Text(found) => number == 9 && error == found,
        _ => number == cause.number(),
    };
    match walk() {
        Some(fault) if same(fault.cause) => *place = wide(fault.place),
        _ => return Answer::new(UNEXPECTED, &[]),
    }
    said
}

/// What is answered under the settings: the crate's answer, and where they are strict the comparison's own check behind it. The first option whose
/// protocol is wrong is refused by 23, unless the crate refused something that comes before it: sizes or a header, or an option in front, at which
/// the walk stops too. Where the walk stops at an option that the crate took, the two are no answer.
fn strictly<T>(
    said: Result<T, Answer>,
    settings: Settings,
    options: &[u8],
    walk: fn(&[u8], Settings) -> Option<Fault>,
) -> Result<T, Answer> {
    let number = said.as_ref().err().map_or(0, |refusal| refusal.number);
    let options_judged = matches!(number, 0 | 7..=12);
    if !settings.strict || !options_judged {
        return said;
    }
    match walk(options, settings) {
        Some(fault) if fault.cause.number() == 23 => {
            let protocol = options[fault.place];
            Err(Answer::new(23, &[protocol.into(), wide(fault.place)]))
        }
        Some(_) if !(7..=9).contains(&number) => Err(Answer::new(UNEXPECTED, &[])),
        _ => said,
    }
}

// ---- payload, message, index

/// The reading of a payload, or its refusal.
pub fn read(payload: &[u8], settings: Settings) -> Result<SdSlice<'_>, Answer> {
    let said = SdSlice::from_slice_with_flag(payload, settings.discard);
    payload_answer(said, payload, settings)
}

fn payload_answer<'a>(
    said: Result<SdSlice<'a>, SdSliceError>,
    payload: &[u8],
    settings: Settings,
) -> Result<SdSlice<'a>, Answer> {
    let walk = || places::in_payload(payload, settings.lenient());
    let said = said.map_err(|error| with_place(slice_error(&error), walk));
    let options = places::options_part(payload).unwrap_or(&[]);
    strictly(said, settings, options, places::in_options)
}

/// The reading of a message with SD header; `None` where `SomeipMsgSlice` does not accept the message whole, and nothing is compared.
pub fn read_message(message: &[u8], settings: Settings) -> Option<Result<SdSlice<'_>, Answer>> {
    let header = SomeipMsgSlice::from_slice(message).ok()?;
    if header.slice().len() != message.len() {
        return None;
    }
    let said = SdSlice::from_someip_with_flag(&header, settings.discard);
    Some(payload_answer(said, &message[16..], settings))
}

/// The answer to an accepted payload: the three flags, the numbers of entries and of options.
pub fn read_answer(sd: &SdSlice) -> Answer {
    let flags = sd.flags();
    let bits = (u64::from(flags.reboot) << 7)
        | (u64::from(flags.unicast) << 6)
        | (u64::from(flags.explicit_initial_data_control) << 5);
    let entries = sd.entries_slice().len() / 16;
    Answer::new(0, &[bits, wide(entries), wide(sd.options_index().len())])
}

/// The index over an options part, or its refusal.
pub fn index(options: &[u8], settings: Settings) -> Result<SdOptionsIndex<'_>, Answer> {
    let walk = || places::in_options(options, Settings::OFF);
    let said =
        SdOptionsIndex::from_slice(options).map_err(|error| with_place(option_error(&error), walk));
    strictly(said, settings, options, places::in_options)
}

/// What the 347 slots hold after an accepted reading: where the crate's own lookup finds each option, then zeros.
pub fn fill_table(index: &SdOptionsIndex, table: &mut [u16; SLOTS]) {
    table.fill(0);
    for (ordinal, slot) in table.iter_mut().enumerate().take(index.len()) {
        *slot = option_at(index, ordinal).values[1] as u16;
    }
}

/// Where a part of `whole` begins.
pub fn place_in(whole: &[u8], part: &[u8]) -> usize {
    (part.as_ptr() as usize).wrapping_sub(whole.as_ptr() as usize)
}

/// Where the crate's two parts of an accepted payload are.
pub fn places(payload: &[u8], sd: &SdSlice) -> Places {
    let (entries, options) = (sd.entries_slice(), sd.options_index().options());
    Places {
        entries_at: wide(place_in(payload, entries)),
        entries_len: wide(entries.len()),
        options_at: wide(place_in(payload, options)),
        options_len: wide(options.len()),
    }
}

/// Where they are in a payload whose sizes are good, whatever else is wrong: the crate hands out no part there.
pub fn places_by_sizes(payload: &[u8]) -> Places {
    let length = [payload[4], payload[5], payload[6], payload[7]];
    let entries = u64::from(u32::from_be_bytes(length));
    Places {
        entries_at: 8,
        entries_len: entries,
        options_at: 12 + entries,
        options_len: wide(payload.len()) - 12 - entries,
    }
}

// ---- one option

/// The type byte of an option and the bytes after it.
fn frame<'a>(option: &SdOptionSlice<'a>) -> (u8, &'a [u8]) {
    match option {
        SdOptionSlice::Configuration(o) => (options::CONFIGURATION_TYPE, o.slice()),
        SdOptionSlice::LoadBalancing(o) => (options::LOAD_BALANCING_TYPE, o.slice()),
        SdOptionSlice::Ipv4Endpoint(o) => (options::IPV4_ENDPOINT_TYPE, o.slice()),
        SdOptionSlice::Ipv6Endpoint(o) => (options::IPV6_ENDPOINT_TYPE, o.slice()),
        SdOptionSlice::Ipv4Multicast(o) => (options::IPV4_MULTICAST_TYPE, o.slice()),
        SdOptionSlice::Ipv6Multicast(o) => (options::IPV6_MULTICAST_TYPE, o.slice()),
        SdOptionSlice::Ipv4SdEndpoint(o) => (options::IPV4_SD_ENDPOINT_TYPE, o.slice()),
        SdOptionSlice::Ipv6SdEndpoint(o) => (options::IPV6_SD_ENDPOINT_TYPE, o.slice()),
        SdOptionSlice::Unknown(o) => (o.option_type(), o.slice()),
    }
}

/// The answer to an option of `options`: its type, its place and the bytes that it takes.
fn placed(options: &[u8], option: &SdOptionSlice) -> Answer {
    let (code, body) = frame(option);
    let at = place_in(options, body).wrapping_sub(3);
    Answer::new(0, &[code.into(), wide(at), wide(3 + body.len())])
}

/// The crate's lookup in its own index; past the count 20.
pub fn option_at(index: &SdOptionsIndex, ordinal: usize) -> Answer {
    match index.get(ordinal) {
        Some(option) => placed(index.options(), &option),
        None => NOTHING,
    }
}

/// The rules' lookup in any table, with the crate's decoding of one option: the crate itself has no lent table.
pub fn lookup_in(options: &[u8], table: &[u16], count: usize, ordinal: usize) -> Answer {
    let misfit = Answer::new(21, &[]);
    if ordinal >= count {
        return NOTHING;
    }
    if ordinal >= SLOTS || ordinal >= table.len() {
        return misfit;
    }
    let at = usize::from(table[ordinal]);
    let Some(rest) = options.get(at..) else {
        return misfit;
    };
    match SdOptionSlice::from_slice(rest) {
        Ok((option, _)) => placed(options, &option),
        // The string is not rescanned.
        Err(SdOptionSliceError::ConfigurationString(_)) => {
            let length = u64::from(u16::from_be_bytes([rest[0], rest[1]]));
            Answer::new(0, &[rest[2].into(), wide(at), 3 + length])
        }
        Err(_) => misfit,
    }
}

/// The option in front of some bytes, or its refusal.
fn one_option(bytes: &[u8], settings: Settings) -> Result<SdOptionSlice<'_>, Answer> {
    let walk = || places::in_option(bytes, Settings::OFF);
    let said = SdOptionSlice::from_slice(bytes)
        .map(|(option, _)| option)
        .map_err(|error| with_place(option_error(&error), walk));
    strictly(said, settings, bytes, places::in_option)
}

/// The option at `at`, as a cursor reads it.
pub fn next_option(options: &[u8], at: usize, settings: Settings) -> Answer {
    if at >= options.len() {
        return NOTHING;
    }
    match one_option(&options[at..], settings) {
        Ok(option) => placed(options, &option),
        Err(answer) => answer,
    }
}

/// The crate's own run, option by option, closed by 20.
pub fn run(index: &SdOptionsIndex, start: u8, count: u8) -> Vec<Answer> {
    // SAFETY: the mask keeps the count in four bits.
    let options = index.run(start, unsafe { U4::new_unchecked(count & 0x0f) });
    let mut answers: Vec<Answer> = options
        .map(|option| placed(index.options(), &option))
        .collect();
    answers.push(NOTHING);
    answers
}

pub fn string(string: &[u8]) -> Answer {
    with_place(judged(string), || places::in_string(string))
}

/// The crate's check of a string, without a place.
fn judged(string: &[u8]) -> Answer {
    match ConfigurationOption::validate_configuration_string(string) {
        Ok(()) => Answer::default(),
        Err(error) => string_error(&error),
    }
}

/// The item at a place of a string: the crate's answer to that item as a string of its own, closed. The crate itself hands out no items.
pub fn next_item(string: &[u8], at: usize) -> Answer {
    let size = match string.get(at) {
        None | Some(0) => return NOTHING,
        Some(size) => usize::from(*size),
    };
    let rest = &string[at + 1..];
    let mut alone = vec![size as u8];
    match rest.get(..size) {
        Some(item) => {
            alone.extend_from_slice(item);
            alone.push(0);
        }
        None => alone.extend_from_slice(rest),
    }
    let mut answer = judged(&alone);
    match answer.number {
        0 => Answer::new(0, &[wide(at + 1), wide(size)]),
        _ => {
            answer.values[1] += wide(at);
            with_place(answer, || places::in_item(string, at))
        }
    }
}

/// The option in front of some bytes with all its fields.
pub fn read_option(bytes: &[u8], settings: Settings) -> Opt {
    let option = match one_option(bytes, settings) {
        Ok(option) => option,
        Err(answer) => {
            return Opt {
                answer,
                ..Opt::default()
            }
        }
    };
    let (code, body) = frame(&option);
    let mut said = Opt {
        code: code.into(),
        size: wide(3 + body.len()),
        discardable: u64::from(body[0] >> 7),
        ..Opt::default()
    };
    let mut addressed = |address: &[u8], protocol: u8, port: u16| {
        said.address_at = 4;
        said.address_len = wide(address.len());
        said.protocol = protocol.into();
        said.port = port.into();
        if &bytes[4..4 + address.len()] != address {
            said.answer.number = UNEXPECTED;
        }
    };
    match option {
        SdOptionSlice::Configuration(o) => {
            said.string_at = wide(place_in(bytes, o.configuration_string()));
            said.string_len = wide(o.configuration_string().len());
            said.discardable = u64::from(o.discardable());
        }
        SdOptionSlice::LoadBalancing(o) => {
            said.priority = o.priority().into();
            said.weight = o.weight().into();
            said.discardable = u64::from(o.discardable());
        }
        SdOptionSlice::Ipv4Endpoint(o) => {
            addressed(&o.ipv4_address(), o.transport_protocol().into(), o.port())
        }
        SdOptionSlice::Ipv4Multicast(o) => {
            addressed(&o.ipv4_address(), o.transport_protocol().into(), o.port())
        }
        SdOptionSlice::Ipv4SdEndpoint(o) => {
            addressed(&o.ipv4_address(), o.transport_protocol().into(), o.port())
        }
        SdOptionSlice::Ipv6Endpoint(o) => {
            addressed(&o.ipv6_address(), o.transport_protocol().into(), o.port())
        }
        SdOptionSlice::Ipv6Multicast(o) => {
            addressed(&o.ipv6_address(), o.transport_protocol().into(), o.port())
        }
        SdOptionSlice::Ipv6SdEndpoint(o) => {
            addressed(&o.ipv6_address(), o.transport_protocol().into(), o.port())
        }
        SdOptionSlice::Unknown(o) => said.discardable = u64::from(o.discardable()),
    }
    said
}

// ---- one entry

/// The entry at `at`, as a cursor reads it, with all its fields.
pub fn next_entry(entries: &[u8], at: usize) -> Entry {
    let refused = |answer| Entry {
        answer,
        ..Entry::default()
    };
    if at >= entries.len() {
        return refused(NOTHING);
    }
    match SdEntrySlice::from_slice(&entries[at..]) {
        Ok(entry) => entry_fields(&entry),
        Err(error) => refused(slice_error(&error)),
    }
}

fn entry_fields(entry: &SdEntrySlice) -> Entry {
    let mut said = Entry {
        code: entry.slice()[0].into(),
        start1: entry.start_index_options_1().into(),
        start2: entry.start_index_options_2().into(),
        count1: entry.number_of_options_1().value().into(),
        count2: entry.number_of_options_2().value().into(),
        service: entry.service_id().into(),
        instance: entry.instance_id().into(),
        major: entry.major_version().into(),
        ttl: entry.ttl().value().into(),
        ..Entry::default()
    };
    match entry {
        SdEntrySlice::Service(service) => said.minor = service.minor_version().into(),
        SdEntrySlice::Eventgroup(group) => {
            said.initial_data = u64::from(group.initial_data_requested());
            said.counter = group.counter().value().into();
            said.eventgroup = group.eventgroup_id().into();
            // The crate has no accessor for these two; they are what lies between the others.
            said.reserved = group.slice()[12].into();
            said.spare = u64::from(group.slice()[13] >> 4 & 0x07);
        }
    }
    said
}

#[cfg(test)]
mod tests {
    use super::*;
    use crate::calls::{DISCARD, STRICT};

    fn hex(text: &str) -> Vec<u8> {
        let digits: Vec<u8> = text.bytes().filter(|b| *b != b' ').collect();
        digits
            .chunks(2)
            .map(|pair| u8::from_str_radix(std::str::from_utf8(pair).unwrap(), 16).unwrap())
            .collect()
    }

    fn said_under(payload: &[u8], settings: Settings) -> Answer {
        match read(payload, settings) {
            Ok(sd) => read_answer(&sd),
            Err(answer) => answer,
        }
    }

    fn said(payload: &[u8], discard: bool) -> Answer {
        said_under(payload, Settings::of(if discard { DISCARD } else { 0 }))
    }

    /// The rules, 'Both sides of each line': payloads.
    #[test]
    fn payloads_of_the_rules() {
        assert_eq!(said(&[0; 12], false), Answer::new(0, &[]));
        assert_eq!(said(&[0; 11], false), Answer::new(1, &[12]));
        assert_eq!(said(&[0; 13], false), Answer::new(6, &[12, 13]));
        let mut short = [0; 12];
        short[7] = 17;
        assert_eq!(said(&short, false), Answer::new(3, &[17]));
        short[7] = 16;
        assert_eq!(said(&short, false), Answer::new(1, &[28]));
        let mut large = [0; 28];
        large[7] = 16;
        large[26..].copy_from_slice(&1388u16.to_be_bytes());
        assert_eq!(said(&large, false), Answer::new(5, &[1416]));
        let mut whole = hex(
            "80000000 00000010 01000010 12345678 01000E10 01000000 0000000C 00090400 C0A80101 00061F90",
        );
        assert_eq!(said(&whole, false), Answer::new(0, &[0x80, 1, 1]));
        whole[9] = 1;
        assert_eq!(said(&whole, false), Answer::new(12, &[1, 1, 1, 1]));
        whole[9] = 200;
        whole[11] = 0;
        assert_eq!(said(&whole, false), Answer::new(0, &[0x80, 1, 1]));
        let unknown = |last: u8| [&[0u8; 11][..], &[4, 0, 1, 0x77, last]].concat();
        assert_eq!(said(&unknown(0x80), false), Answer::new(0, &[0, 0, 1]));
        assert_eq!(said(&unknown(0), false), Answer::new(10, &[0x77, 3]));
        assert_eq!(said(&unknown(0), true), Answer::new(0, &[0, 0, 1]));
        let many = [0, 1, 0x77, 0x80].repeat(347);
        for settings in Settings::ALL {
            assert_eq!(index(&many, settings).unwrap().len(), 347);
            let more = [0, 1, 0x77, 0x80].repeat(348);
            let refused = index(&more, settings).unwrap_err();
            assert_eq!(refused, Answer::new(13, &[1392]));
        }
    }

    /// The rules, 'Both sides of each line': strings.
    #[test]
    fn strings_of_the_rules() {
        for (text, values) in [
            ("", &[1, 0][..]),
            ("0000", &[3, 0, 0]),
            ("013D00", &[4, 0, 0]),
            ("012000", &[6, 0, 0]),
            ("0241FF00", &[5, 0, 1, 255, 0]),
            ("054100", &[2, 0, 5, 2, 0]),
            ("0141", &[1, 2]),
        ] {
            assert_eq!(string(&hex(text)), Answer::new(9, values), "{text}");
        }
        assert!(string(&hex("00")).accepted());
        assert!(string(&hex("03413DFF00")).accepted());
    }

    /// The option of `options` at `front` is refused in each call that reads it, with the place as that call counts it.
    fn refused_in_each_call(
        options: &[u8],
        front: usize,
        settings: Settings,
        answer: impl Fn(u64) -> Answer,
        place: u64,
    ) {
        let alone = &options[front..];
        assert_eq!(read_option(alone, settings).answer, answer(place));
        assert_eq!(next_option(options, front, settings), answer(place));
        let place = place + front as u64;
        assert_eq!(index(options, settings).unwrap_err(), answer(place));
        let payload = payload_of(options);
        assert_eq!(read(&payload, settings).unwrap_err(), answer(place));
        let message = message_of(&payload);
        let refused = read_message(&message, settings).unwrap().unwrap_err();
        assert_eq!(refused, answer(place));
    }

    /// A payload of these options without entries.
    fn payload_of(options: &[u8]) -> Vec<u8> {
        let length = (options.len() as u32).to_be_bytes();
        [&[0; 8][..], &length, options].concat()
    }

    fn message_of(payload: &[u8]) -> Vec<u8> {
        let mut message = hex("FFFF8100 00000000 00000001 01010200");
        message[7] = 8 + payload.len() as u8;
        message.extend(payload);
        message
    }

    /// One bad option in front and behind another, as each call counts its place.
    #[test]
    fn places_by_call() {
        let good = hex("00017780");
        for (text, number, values, place) in [
            ("00", 7, &[3, 1, 0][..], 0),
            ("00050280", 7, &[8, 4, 0], 0),
            ("00010280", 7, &[5, 1, 1], 0),
            ("000077", 8, &[], 0),
            ("00010100", 9, &[1], 4),
            ("00060100 0141054200", 9, &[2, 2, 5, 2], 6),
            ("00030100 0000", 9, &[3, 0], 4),
            ("00060100 0141013D00", 9, &[4, 2], 6),
            ("00050100 0241FF00", 9, &[5, 0, 1, 255], 4),
            ("00040100 012000", 9, &[6, 0], 4),
        ] {
            let option = hex(text);
            let answer = |place| Answer::new(number, &[values, &[place]].concat());
            for (front, settings) in [0, 4]
                .into_iter()
                .flat_map(|front| Settings::ALL.map(|settings| (front, settings)))
            {
                let options = [&good[..front], &option].concat();
                refused_in_each_call(&options, front, settings, answer, place);
            }
        }
        let item = |at| next_item(&hex("01410541"), at);
        assert_eq!(item(2), Answer::new(9, &[2, 2, 5, 1, 2]));
        assert_eq!(item(0), Answer::new(0, &[1, 1]));
    }

    /// The strict setting: the crate's answer stands where it refused something before, else 23 does.
    #[test]
    fn strict_answers() {
        let counterfeit = hex("00090400 C0A80101 00991F90");
        let tcp = hex("00151600 FF020000 00000000 00000000 00000001 00067530");
        let (good, unknown, zero) = (hex("00017780"), hex("00017700"), hex("000077"));
        let under = |options: &[u8], word| said_under(&payload_of(options), Settings::of(word));
        for (option, protocol, place) in [(&counterfeit, 0x99, 9), (&tcp, 0x06, 21)] {
            let answer = |place| Answer::new(23, &[protocol, place]);
            for front in [0, 4] {
                let options = [&good[..front], option].concat();
                refused_in_each_call(&options, front, Settings::STRICT, answer, place);
                // In front of 8 and of 10, wherever that option stands; behind 8 of an option in front.
                let place = place + front as u64;
                let late = [&options[..], &zero, &unknown].concat();
                assert_eq!(under(&late, STRICT), answer(place));
                let early = [&zero[..], &options].concat();
                assert_eq!(under(&early, STRICT), Answer::new(8, &[0]));
                let early = [&unknown[..], &options].concat();
                assert_eq!(under(&early, STRICT), answer(place + 4));
                assert_eq!(under(&early, 0), Answer::new(10, &[0x77, 3]));
                // In front of 11; behind 6 and a header's 16.
                let entry = [&[0, 0, 0, 0, 0, 0, 0, 16, 5][..], &[0; 15]].concat();
                let payload = [&entry[..], &payload_of(&options)[8..]].concat();
                assert_eq!(said_under(&payload, Settings::STRICT), answer(place));
                assert_eq!(said_under(&payload, Settings::OFF).number, 11);
                let mut payload = payload_of(&options);
                payload.push(0);
                assert_eq!(said_under(&payload, Settings::STRICT).number, 6);
                let mut message = message_of(&payload_of(&options));
                message[11] = 0;
                let refused = read_message(&message, Settings::STRICT).unwrap();
                assert_eq!(refused.unwrap_err().number, 16);
            }
            assert_eq!(under(option, 0), Answer::new(0, &[0, 0, 1]));
            assert_eq!(under(option, DISCARD | STRICT), answer(place));
            let mut mended = option.clone();
            mended[place as usize] = 0x11;
            assert_eq!(under(&mended, STRICT), Answer::new(0, &[0, 0, 1]));
        }
    }

    /// A walk that stops at an option which the crate takes leaves no answer under the strict setting; with it off no such walk is made.
    #[test]
    fn strict_and_no_answer() {
        let stops = |_: &[u8], _| {
            Some(Fault {
                cause: Cause::LengthZero,
                option: 0,
                place: 0,
            })
        };
        let took = |settings, number| {
            let said = match number {
                0 => Ok(()),
                _ => Err(Answer::new(number, &[])),
            };
            strictly(said, settings, &[], stops).map_or_else(|answer| answer.number, |()| 0)
        };
        for number in [0, 10, 11, 12] {
            assert_eq!(took(Settings::STRICT, number), UNEXPECTED);
        }
        for number in (1..=9).chain(13..=19) {
            assert_eq!(took(Settings::STRICT, number), number);
        }
        for number in 0..=19 {
            assert_eq!(took(Settings::OFF, number), number);
        }
    }

    /// A walk that finds nothing, or something else than the crate, leaves no answer.
    #[test]
    fn what_does_not_fit_is_no_answer() {
        let fault = |cause| {
            let (option, place) = (0, 6);
            Some(Fault {
                cause,
                option,
                place,
            })
        };
        let causes = Cause::PLAIN.map(|cause| (cause, fault(cause)));
        for (cause, _) in causes {
            let number = cause.number();
            let first = match cause {
                Cause::Text(error) => error,
                _ => 1,
            };
            let said = Answer::new(number, &[first]);
            assert_eq!(with_place(said, || None).number, UNEXPECTED);
            for (other, found) in causes {
                let mut want = said;
                *want.place().unwrap() = 6;
                let fits = cause == other || (number, other.number()) == (7, 7);
                let want = if fits {
                    want
                } else {
                    Answer::new(UNEXPECTED, &[])
                };
                assert_eq!(with_place(said, || found), want, "{cause} and {other}");
            }
        }
        // Other answers tell no place, and no walk is made.
        let other = Answer::new(11, &[5]);
        assert_eq!(with_place(other, || unreachable!()), other);
    }

    /// Over the generator's inputs: the walk finds a fault exactly where the crate refuses by 7 to 10, and the same one.
    #[test]
    fn the_walk_fits_the_crate() {
        let mut out = Vec::new();
        for n in 0..100_000 {
            let mut r = crate::random::Random::of(7, 0, n);
            let discard = r.once_in(2);
            let off = Settings::OFF;
            crate::inputs::payload(&mut r, &mut out);
            let walked = match said(&out, discard).number {
                1..=6 => continue,
                number => (7..=10).contains(&number),
            };
            let settings = Settings { discard, ..off };
            assert_eq!(places::in_payload(&out, settings).is_some(), walked);
            crate::inputs::options(&mut r, &mut out);
            if out.len() <= 1388 {
                let refused = index(&out, off).is_err();
                assert_eq!(places::in_options(&out, off).is_some(), refused);
            }
            crate::inputs::option(&mut r, &mut out);
            let refused = !read_option(&out, off).answer.accepted();
            assert_eq!(places::in_option(&out, off).is_some(), refused);
            crate::inputs::string(&mut r, &mut out);
            assert_eq!(places::in_string(&out).is_some(), !string(&out).accepted());
        }
    }

    #[test]
    fn fields_of_the_whole_payload() {
        let whole = hex(
            "80000000 00000010 01000010 12345678 01000E10 01000000 0000000C 00090400 C0A80101 00061F90",
        );
        let entry = next_entry(&whole[8..24], 0);
        assert_eq!((entry.service, entry.ttl, entry.count1), (0x1234, 3600, 1));
        assert_eq!(next_entry(&whole[8..24], 16).answer, NOTHING);
        let option = read_option(&whole[28..], Settings::STRICT);
        assert_eq!((option.protocol, option.port, option.size), (6, 8080, 12));
        assert_eq!((option.address_at, option.address_len), (4, 4));
        let sd = read(&whole, Settings::STRICT).unwrap();
        let mut table = [9; SLOTS];
        fill_table(sd.options_index(), &mut table);
        assert_eq!(table, [0; SLOTS]);
        assert_eq!(
            run(sd.options_index(), 0, 2),
            [Answer::new(0, &[4, 0, 12]), NOTHING]
        );
    }

    #[test]
    fn own_lookup_and_document_lookup_agree() {
        let options = hex("00010780 0009 04 00C0A8010100061F90 0002 0100 00");
        let index = index(&options, Settings::OFF).unwrap();
        let mut table = [0; SLOTS];
        fill_table(&index, &mut table);
        for ordinal in 0..5 {
            assert_eq!(
                option_at(&index, ordinal),
                lookup_in(&options, &table, index.len(), ordinal)
            );
        }
        assert_eq!(lookup_in(&options, &table, 400, 347).number, 21);
        assert_eq!(lookup_in(&options, &[999], 1, 0).number, 21);
    }
}
