//! The byte at which an option or a string was refused, as each call counts it.

mod common;
use common::*;
use viaductle::sd::options::{validate_configuration_string, ConfigurationItems};
use viaductle::sd::{OffsetTable, SdMessage, SdOptionSlice, SdOptionsIndex, SdOptionsIterator};
use viaductle::sd::{SdSlice, Settings};
use viaductle::{Place, Refusal, MAX_REFUSAL_VALUES};

/// Refused options: number, the values in front of the place, and the place counted from the option's first byte.
const OPTIONS: [(&str, u64, &[u64], usize); 11] = [
    // 7: under three bytes, the whole length, and the kind's length.
    ("0001", 7, &[3, 2, 0], 0),
    ("0005 02 80", 7, &[8, 4, 0], 0),
    ("0001 02 80", 7, &[5, 1, 1], 0),
    (
        "0015 04 00 C0A80101 00061F90 0000000000000000 00000000",
        7,
        &[9, 21, 1],
        0,
    ),
    ("0000 77", 8, &[], 0),
    // 9: the string begins at byte 4.
    ("0005 01 00 0141 0142", 9, &[1], 8),
    ("0006 01 00 0141 0542 00", 9, &[2, 2, 5, 2], 6),
    ("0006 01 00 0141 0000 00", 9, &[3, 2], 6),
    ("0006 01 00 0141 013D 00", 9, &[4, 2], 6),
    ("0008 01 00 0141 03427F43 00", 9, &[5, 2, 1, 0x7f], 6),
    ("0006 01 00 0141 0120 00", 9, &[6, 2], 6),
];

/// Of unknown type, and not to be discarded: only in a payload or a message is it refused.
const UNKNOWN: (&str, u64, &[u64], usize) = ("0001 78 7F", 10, &[0x78], 3);

/// What the strict setting refuses by 23: the option's type, its protocol, and at which byte that stands.
const PROTOCOLS: [(u8, u8, usize); 8] = [
    (0x04, 0x99, 9),
    (0x06, 0x99, 21),
    (0x14, 0x99, 9),
    (0x14, 0x06, 9),
    (0x16, 0x99, 21),
    (0x16, 0x06, 21),
    (0x24, 0x99, 9),
    (0x26, 0x99, 21),
];

/// Good options that may stand in front: none, one of four bytes, and three of 25 in all.
const FRONTS: [&str; 3] = [
    "",
    "0001 77 80",
    "0001 77 80 0009 04 00 C0A80101 00061F90 0006 01 00 03613D31 00",
];

/// A find that has no options.
const FIND: &str = "00 00 00 00 0102 FFFF FF 000003 FFFFFFFF";

fn is(refusal: Refusal, number: u64, values: &[u64], place: Place) {
    let all = [values, &[place.byte() as u64]].concat();
    assert_eq!(
        (refusal.number(), &refusal.values()[..]),
        (number, &all[..])
    );
    assert_eq!(refusal.place(), Some(place));
    let text = refusal.to_string();
    assert!(text.contains(&format!(" {place}")), "{text}");
}

/// The settings under which there is this refusal: the discard setting passes what is 10, and 23 is the strict setting's alone.
fn settings_of(number: u64) -> impl Iterator<Item = Settings> {
    let given = move |settings: &Settings| match number {
        10 => !settings.discard_unknown_option,
        23 => settings.strict,
        _ => true,
    };
    EVERY_SETTING.into_iter().filter(given)
}

/// The same place in a payload and in a message, whatever entries stand in front of the options, under all settings that refuse them.
fn payloads_are(options: &[u8], number: u64, values: &[u64], place: Place) {
    let mut table = OffsetTable::new();
    for entries in [0, 1, 3] {
        let payload = payload(&hex(FIND).repeat(entries), options);
        let message = [hex(HEADER), payload.clone()].concat();
        for settings in settings_of(number) {
            let refusal = SdSlice::from_slice_with(&payload, &mut table, settings).unwrap_err();
            is(refusal, number, values, place);
            let again = SdMessage::from_slice_with(&message, &mut table, settings);
            assert_eq!(again.unwrap_err(), refusal);
        }
        if number != 23 {
            let refusal = SdSlice::from_slice(&payload, &mut table).unwrap_err();
            is(refusal, number, values, place);
            let again = SdMessage::from_slice(&message, &mut table).unwrap_err();
            assert_eq!(again, refusal);
        }
    }
}

/// The same place for an index.
fn index_is(options: &[u8], number: u64, values: &[u64], place: Place) {
    let mut table = OffsetTable::new();
    for settings in settings_of(number) {
        let refusal = SdOptionsIndex::from_slice_with(options, &mut table, settings).unwrap_err();
        is(refusal, number, values, place);
    }
}

#[test]
fn of_the_options() {
    for front in FRONTS.map(hex) {
        for (option, number, values, place) in OPTIONS.into_iter().chain([UNKNOWN]) {
            let options = [front.clone(), hex(option)].concat();
            let place = Place::Options(front.len() + place);
            payloads_are(&options, number, values, place);
            let mut table = OffsetTable::new();
            let index = SdOptionsIndex::from_slice(&options, &mut table);
            match number {
                10 => assert!(index.is_ok()),
                _ => {
                    is(index.unwrap_err(), number, values, place);
                    index_is(&options, number, values, place);
                }
            }
        }
        for (code, protocol, at) in PROTOCOLS {
            let options = [front.clone(), addressed(code, at, protocol)].concat();
            let place = Place::Options(front.len() + at);
            payloads_are(&options, 23, &[protocol.into()], place);
            index_is(&options, 23, &[protocol.into()], place);
        }
    }
}

/// What stands behind the option does not move the place, unless bytes are missing. The first one that is refused counts, 10 after all others.
#[test]
fn of_the_first_that_is_refused() {
    let zero = hex("0000 77");
    for (option, number, values, place) in &OPTIONS[2..] {
        let options = [hex(FRONTS[2]), hex(option), zero.clone()].concat();
        payloads_are(&options, *number, values, Place::Options(25 + place));
    }
    let unknown = [hex(UNKNOWN.0), hex(UNKNOWN.0), hex(FRONTS[2])].concat();
    payloads_are(&unknown, 10, &[0x78], Place::Options(3));
    let after = [unknown.clone(), zero.clone()].concat();
    payloads_are(&after, 8, &[], Place::Options(33));
    for (code, protocol, at) in PROTOCOLS {
        let option = addressed(code, at, protocol);
        let options = [unknown.clone(), option.clone(), option, zero.clone()].concat();
        payloads_are(&options, 23, &[protocol.into()], Place::Options(33 + at));
    }
}

#[test]
fn of_one_option() {
    for front in FRONTS.map(hex) {
        for (option, number, values, place) in OPTIONS {
            let option = hex(option);
            let place = Place::Alone(place);
            let alone = SdOptionSlice::from_slice(&option).unwrap_err();
            is(alone, number, values, place);
            for settings in settings_of(number) {
                let again = SdOptionSlice::from_slice_with(&option, settings);
                assert_eq!(again.unwrap_err(), alone);
            }
            let options = [front.clone(), option].concat();
            let mut iterator = SdOptionsIterator::new(&options);
            let last = iterator.find_map(Result::err);
            is(last.unwrap(), number, values, place);
        }
        for (code, protocol, at) in PROTOCOLS {
            let option = addressed(code, at, protocol);
            let options = [front.clone(), option.clone()].concat();
            for settings in settings_of(23) {
                let alone = SdOptionSlice::from_slice_with(&option, settings).unwrap_err();
                is(alone, 23, &[protocol.into()], Place::Alone(at));
                let mut iterator = SdOptionsIterator::with(&options, settings);
                assert_eq!(iterator.find_map(Result::err), Some(alone));
            }
        }
    }
    for settings in EVERY_SETTING {
        assert!(SdOptionSlice::from_slice_with(&hex(UNKNOWN.0), settings).is_ok());
    }
    let nothing = SdOptionSlice::from_slice(&[]).unwrap_err();
    is(nothing, 7, &[3, 0, 0], Place::Alone(0));
}

#[test]
fn of_a_string() {
    for (option, number, values, place) in OPTIONS {
        if number != 9 {
            continue;
        }
        let string = &hex(option)[4..];
        let place = Place::Alone(place - 4);
        let refusal = validate_configuration_string(string).unwrap_err();
        is(refusal, number, values, place);
        // Item by item neither the missing end nor what is behind it is looked at.
        match (
            ConfigurationItems::new(string).find_map(Result::err),
            values[0],
        ) {
            (None, 1 | 3) => {}
            (refusal, _) => is(refusal.unwrap(), number, values, place),
        }
    }
    let empty = validate_configuration_string(&[]).unwrap_err();
    is(empty, 9, &[1], Place::Alone(0));
}

#[test]
fn of_nothing_else() {
    let mut table = OffsetTable::new();
    for refusal in [
        SdSlice::from_slice(&[0; 13], &mut table).unwrap_err(),
        SdOptionsIndex::from_slice(&[0; 1389], &mut table).unwrap_err(),
        // By a table of other bytes: no option is read at the slot's offset, and at which of its bytes is not told.
        SdOptionsIndex::from_table(&hex("0000 77"), &[0; 347], 1)
            .lookup(0)
            .unwrap_err(),
        SdOptionsIterator::new(&[]).advance().unwrap_err(),
        Refusal::Other {
            number: 99,
            values: [7; MAX_REFUSAL_VALUES],
        },
    ] {
        assert_eq!(refusal.place(), None, "{refusal}");
    }
}

#[test]
fn in_words() {
    assert_eq!(Place::Options(24).to_string(), "byte 24 of the options");
    assert_eq!(Place::Alone(6).to_string(), "byte 6 of what was read");
    assert_eq!((Place::Options(24).byte(), Place::Alone(6).byte()), (24, 6));
    assert_ne!(Place::Options(6), Place::Alone(6));
}
