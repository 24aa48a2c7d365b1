//! The words of a refusal here and in `bin/show` (crates/words/src/lib.rt) are the same. That file's arms are read as text: an arm writes one literal,
//! in which a name of its pattern stands for a value, and behind the name how many hexadecimal digits.

use std::{fs, path::Path};
use viaductle::{LenSource, Place, Refusal, SdConfigurationStringError};

/// The names that a pattern gives a variant's values, in their order.
fn names(pattern: &str) -> Vec<&str> {
    let Some((_, fields)) = pattern.split_once(['(', '{']) else {
        return Vec::new();
    };
    let (fields, _) = fields.split_once([')', '}']).unwrap();
    let names = fields
        .split(',')
        .map(|field| field.split(':').next().unwrap().trim());
    names.filter(|name| !name.is_empty()).collect()
}

/// What some code prints, its numbers as {place of the value} or {place:digits in hexadecimal}; the first of the names has the place `first`.
fn printed(code: &str, names: &[&str], first: usize) -> String {
    let text = code.split('"').nth(1).unwrap_or("");
    let mut pieces = text.split('{');
    let mut all = pieces.next().unwrap().to_string();
    for piece in pieces {
        let (hole, behind) = piece.split_once('}').unwrap();
        let (name, form) = hole.split_once(':').unwrap_or((hole, ""));
        // `{}` stands for other words, those of a string's error.
        if !name.is_empty() {
            let place = first + names.iter().position(|one| *one == name).expect(name);
            all = match form
                .strip_prefix('0')
                .and_then(|rest| rest.strip_suffix('x'))
            {
                Some(digits) => format!(
                    "{}{{{place}:{digits}}}",
                    all.strip_suffix("0x").expect(text)
                ),
                None => format!("{all}{{{place}}}"),
            };
        }
        all += behind;
    }
    all
}

/// The arms of the match over this enum: the variant and what is printed. The first value that its patterns name has the place `first`.
fn arms(source: &str, of: &str, first: usize) -> Vec<(String, String)> {
    let marker = format!("\n            {of}::");
    let mut all = Vec::new();
    for arm in source.split(&marker[..]).skip(1) {
        let arm = arm.split("\n        }\n").next().unwrap();
        let (pattern, code) = arm.split_once("=>").unwrap();
        let name = pattern.split(|c: char| !c.is_alphanumeric()).next();
        all.push((
            name.unwrap().to_string(),
            printed(code, &names(pattern), first),
        ));
    }
    all
}

/// What this crate says, written as `printed` does: each value must be one that no text has.
fn said(refusal: Refusal, values: &[u64]) -> String {
    let text = refusal.to_string();
    let head = format!("refused, {}: ", refusal.number());
    let mut text = text.strip_prefix(&head).unwrap().to_string();
    for (place, value) in values.iter().enumerate() {
        for digits in [8, 4, 2] {
            let code = format!("0x{value:0digits$x}");
            if text.contains(&code) {
                text = text.replace(&code, &format!("{{{place}:{digits}}}"));
                break;
            }
        }
        text = text.replace(&value.to_string(), &format!("{{{place}}}"));
    }
    text
}

/// A value that no text has.
const WHICH: u64 = 7_777_777;

/// Where 7 to 10 and 23 went wrong. What `bin/show` reads is a payload or a message, whose places count from the options.
const BYTE: usize = 6001;
const PLACE: Place = Place::Options(BYTE);

#[test]
fn bin_show_says_the_same() {
    let file = Path::new(env!("CARGO_MANIFEST_DIR")).join("../../crates/words/src/lib.rt");
    let Ok(source) = fs::read_to_string(file) else {
        println!("not in the repository: nothing to compare with");
        return;
    };
    assert!(source.contains("\"refused, {number}: \""));
    let refusals = arms(&source, "Refusal", 0);
    let printed_for = |variant: &str| -> Vec<&str> {
        let of_it = refusals.iter().filter(|(name, _)| name == variant);
        of_it.map(|(_, text)| &text[..]).collect()
    };

    // The first value of 9 is which of the six it is. In front of its words stands where it went wrong.
    use SdConfigurationStringError::*;
    let front = printed_for("ConfigurationString")[0].replace("{1}", &BYTE.to_string());
    let string = |error, values: &[u64]| {
        let place = PLACE;
        let text = said(Refusal::ConfigurationString { error, place }, values);
        text.strip_prefix(&front).expect(&front).to_string()
    };
    let (a, b) = (4001, 4002);
    let expected = [
        string(MissingTerminator, &[]),
        string(
            ItemLengthExceedsRemaining {
                item_offset: a,
                item_length: 201,
                remaining: b,
            },
            &[WHICH, 4001, 201, 4002],
        ),
        string(
            TrailingDataAfterTerminator {
                terminator_offset: a,
            },
            &[WHICH, 4001],
        ),
        string(EmptyKey { item_offset: a }, &[WHICH, 4001]),
        string(
            InvalidKeyByte {
                item_offset: a,
                byte_offset: b,
                value: 201,
            },
            &[WHICH, 4001, 4002, 201],
        ),
        string(KeyContainsOnlyWhitespace { item_offset: a }, &[WHICH, 4001]),
    ];
    let found: Vec<String> = arms(&source, "StringError", 1)
        .into_iter()
        .map(|(_, text)| text)
        .collect();
    assert_eq!(found, expected);

    // 33, by which of the two ends is the lower.
    let end = |previous_end: u32, conflicting_end: u32| {
        let refusal = Refusal::ConflictingEnd {
            previous_end,
            conflicting_end,
        };
        said(refusal, &[previous_end.into(), conflicting_end.into()])
    };
    assert_eq!(
        printed_for("ConflictingEnd"),
        [end(4002, 4001), end(4001, 4002)]
    );

    let length = |len_source| {
        let refusal = Refusal::OptionLen {
            required_len: a,
            len: b,
            len_source,
            place: PLACE,
        };
        said(refusal, &[4001, 4002, WHICH, 6001])
    };
    assert_eq!(
        printed_for("OptionLength"),
        [length(LenSource::Slice), length(LenSource::SdOptionLength)]
    );

    use Refusal::*;
    let one = &[4001][..];
    let byte = &[201][..];
    let expected = [
        (UnexpectedEndOfSlice(a), one),
        (SdEntriesArrayLengthTooLarge(4001), one),
        (SdEntriesArrayLengthInvalid(4001), one),
        (SdOptionsArrayLengthTooLarge(4001), one),
        (SdPayloadLengthTooLarge(4001), one),
        (
            SdPayloadLengthMismatch {
                expected_len: a,
                actual_len: b,
            },
            &[4001, 4002],
        ),
        (OptionLengthZero { place: PLACE }, &[6001]),
        (
            UnknownSdOptionType {
                option_type: 201,
                place: PLACE,
            },
            &[201, 6001],
        ),
        (
            TransportProtocolInvalid {
                protocol: 201,
                place: PLACE,
            },
            &[201, 6001],
        ),
        (UnknownSdServiceEntryType(201), byte),
        (
            SdOptionRunOutOfBounds {
                run: 201,
                start_index: 202,
                number_of_options: 203,
                options_len: a,
            },
            &[201, 202, 203, 4001],
        ),
        (OptionsArrayLengthTooLarge(a), one),
        (SdMessageIdInvalid(0x0234_5678), &[0x0234_5678]),
        (SdClientIdInvalid(0x0234), &[0x0234]),
        (SdSessionIdZero, &[]),
        (SdInterfaceVersionInvalid(201), byte),
        (SdMessageTypeInvalid(201), byte),
        (SdReturnCodeInvalid(201), byte),
        (NothingThere, &[]),
        (TableMisfit, &[]),
        (TableTooShort(a), one),
        (NotASegment, &[]),
        (
            SegmentTooBig {
                offset: 4001,
                payload_len: b,
                max: 4003,
            },
            &[4001, 4002, 4003],
        ),
        (
            UnalignedTpPayloadLen {
                offset: 4001,
                payload_len: b,
            },
            &[4001, 4002],
        ),
        (BufferTooShort(a), one),
        (RangesFull, &[]),
        (LimitTooLarge(4001), one),
        (NotComplete, &[]),
        (MalformedState, &[]),
        (CountFull, &[]),
    ]
    .map(|(refusal, values): (Refusal, &[u64])| said(refusal, values));
    let by_two = ["OptionLength", "ConfigurationString", "ConflictingEnd"];
    let found: Vec<String> = refusals
        .iter()
        .filter(|(name, _)| !by_two.contains(&&name[..]))
        .map(|(_, text)| text.clone())
        .collect();
    assert_eq!(found, expected);
}
