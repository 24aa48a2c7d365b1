//! Every refusal as the library gives it: its number, its values and its text.

mod common;
use common::*;
use viaductle::sd::{
    OffsetTable, SdEntriesIterator, SdEntrySlice, SdMessage, SdOptionSlice, SdOptionsIndex, SdSlice,
};
use viaductle::{Refusal, TpBuf, TpStream, MAX_REFUSAL_VALUES, TP_STREAM_WORDS};

fn is(refusal: Refusal, number: u64, values: &[u64], text: &str) {
    assert_eq!((refusal.number(), &refusal.values()[..]), (number, values));
    assert_eq!(refusal.to_string(), format!("refused, {number}: {text}"));
}

fn payload_is(payload: &[u8], number: u64, values: &[u64], text: &str) {
    let refusal = SdSlice::from_slice(payload, &mut OffsetTable::new()).unwrap_err();
    is(refusal, number, values, text);
}

fn options_are(options: &str, number: u64, values: &[u64], text: &str) {
    let options = hex(options);
    payload_is(&payload(&[], &options), number, values, text);
    let alone = SdOptionSlice::from_slice(&options);
    let text = text.replace(" of the options", " of what was read");
    match number {
        10 => assert!(alone.is_ok(), "alone an unknown option passes"),
        _ => is(alone.unwrap_err(), number, values, &text),
    }
}

fn header_is(at: usize, byte: u8, number: u64, values: &[u64], text: &str) {
    let mut message = [hex(HEADER), hex(WHOLE)].concat();
    message[at] = byte;
    let refusal = SdMessage::from_slice(&message, &mut OffsetTable::new()).unwrap_err();
    is(refusal, number, values, text);
}

#[test]
fn r01_to_r06_sizes() {
    payload_is(
        &[0; 11],
        1,
        &[12],
        "the bytes end too soon: at least 12 are needed",
    );
    let sized = |entries: u32, options: u32| {
        let mut bytes = vec![0; 4];
        bytes.extend(entries.to_be_bytes());
        bytes.extend(vec![0; if entries > 1388 { 0 } else { entries as usize }]);
        bytes.extend(options.to_be_bytes());
        bytes
    };
    payload_is(
        &sized(1389, 0),
        2,
        &[1389],
        "the payload says that its entries take 1389 bytes; at most 1388 fit",
    );
    payload_is(
        &sized(17, 0),
        3,
        &[17],
        "the payload says that its entries take 17 bytes; an entry takes 16, and this is no multiple of it",
    );
    payload_is(
        &sized(0, 1389),
        4,
        &[1389],
        "the payload says that its options take 1389 bytes; at most 1388 fit",
    );
    payload_is(
        &sized(16, 1388),
        5,
        &[1416],
        "by its own length fields the payload takes 1416 bytes; at most 1400 are allowed",
    );
    payload_is(
        &[0; 13],
        6,
        &[12, 13],
        "by its own length fields the payload takes 12 bytes, but 13 were handed in",
    );
}

#[test]
fn r07_to_r10_options() {
    options_are(
        "0001",
        7,
        &[3, 2, 0, 0],
        "option at byte 0 of the options: it needs 3 bytes, but only 2 are left",
    );
    options_are(
        "00050280",
        7,
        &[8, 4, 0, 0],
        "option at byte 0 of the options: it needs 8 bytes, but only 4 are left",
    );
    options_are(
        "0001 02 80",
        7,
        &[5, 1, 1, 0],
        "option at byte 0 of the options: its length field says 1, but an option of its type has 5",
    );
    options_are(
        "000077",
        8,
        &[0],
        "option at byte 0 of the options: its length field is 0; it is at least 1",
    );
    for (string, values, text) in [
        (
            "00040100 014120",
            &[2, 2, 32, 0, 6][..],
            "the item at byte 2 says that 32 bytes follow, but 0 are left",
        ),
        ("00010100", &[1, 4], "it ends without a closing zero byte"),
        (
            "00030100 0000",
            &[3, 0, 4],
            "bytes follow the closing zero byte, which is byte 0",
        ),
        (
            "00040100 013D00",
            &[4, 0, 4],
            "the item at byte 0 has nothing before its '='",
        ),
        (
            "00050100 0241FF00",
            &[5, 0, 1, 255, 4],
            "in the item at byte 0, byte 1 of the key is 0xff; keys are 0x20 to 0x7e",
        ),
        (
            "00040100 012000",
            &[6, 0, 4],
            "the item at byte 0 has a key of spaces only",
        ),
    ] {
        let place = values.last().unwrap();
        options_are(
            string,
            9,
            values,
            &format!("configuration string wrong at byte {place} of the options: {text}"),
        );
    }
    options_are(
        "00017700",
        10,
        &[0x77, 3],
        "option of unknown type 0x77 may not be discarded, by byte 3 of the options; the discard setting would pass it",
    );
}

#[test]
fn r11_r12_entries() {
    let mut whole = hex(WHOLE);
    whole[8] = 2;
    let unknown = "an entry has the unknown type 0x02; known are 0x00, 0x01, 0x06 and 0x07";
    payload_is(&whole, 11, &[2], unknown);
    is(
        SdEntrySlice::from_slice(&whole[8..]).unwrap_err(),
        11,
        &[2],
        unknown,
    );
    let short = SdEntrySlice::from_slice(&whole[9..24]).unwrap_err();
    is(
        short,
        1,
        &[16],
        "the bytes end too soon: at least 16 are needed",
    );

    whole[8..12].copy_from_slice(&[1, 0, 3, 0x12]);
    payload_is(
        &whole,
        12,
        &[2, 3, 2, 1],
        "run 2 of an entry starts at option 3, counted from 0, and takes 2, but the payload has 1",
    );
}

#[test]
fn r13_and_r22_table() {
    let long = vec![0; 1389];
    let mut table = OffsetTable::new();
    is(
        SdOptionsIndex::from_slice(&long, &mut table).unwrap_err(),
        13,
        &[1389],
        "1389 bytes of options were handed in for an index; at most 1388 fit",
    );
    let mut short = [7; 346];
    let text = "the lent offset table has 346 slots; 347 are needed";
    is(
        SdSlice::from_slice(&[], &mut short).unwrap_err(),
        22,
        &[346],
        text,
    );
    is(
        SdMessage::from_slice(&[], &mut short).unwrap_err(),
        22,
        &[346],
        text,
    );
    is(
        SdOptionsIndex::from_slice(&long, &mut short).unwrap_err(),
        22,
        &[346],
        text,
    );
    assert_eq!(short, [7; 346]);
}

#[test]
fn r14_to_r19_header() {
    header_is(
        3,
        1,
        14,
        &[0xffff_8101],
        "the message id is 0xffff8101; service discovery has 0xffff8100",
    );
    header_is(
        9,
        3,
        15,
        &[3],
        "the client id is 0x0003; service discovery has 0",
    );
    header_is(
        11,
        0,
        16,
        &[],
        "the session id is 0; service discovery counts from 1",
    );
    header_is(
        13,
        2,
        17,
        &[2],
        "the interface version is 2; service discovery has 1",
    );
    header_is(
        14,
        0,
        18,
        &[0],
        "the message type is 0x00; service discovery has 0x02, a notification",
    );
    header_is(
        15,
        9,
        19,
        &[9],
        "the return code is 0x09; service discovery has 0x00",
    );
    let short = SdMessage::from_slice(&[0; 15], &mut OffsetTable::new()).unwrap_err();
    is(
        short,
        1,
        &[16],
        "the bytes end too soon: at least 16 are needed",
    );
}

#[test]
fn r20_r21_places() {
    let nothing = "there is no option or entry at this place";
    is(
        SdEntriesIterator::new(&[]).advance().unwrap_err(),
        20,
        &[],
        nothing,
    );
    let options = hex("00017780");
    let table = [1; 347];
    let index = SdOptionsIndex::from_table(&options, &table, 1);
    is(index.lookup(1).unwrap_err(), 20, &[], nothing);
    is(
        index.lookup(0).unwrap_err(),
        21,
        &[],
        "the offset table does not belong to these options: it is another payload's, or was changed",
    );
}

#[test]
fn r23_protocols() {
    for (code, at) in ADDRESSED {
        let option = addressed(code, at, 0x99);
        let payload = payload(&[], &option);
        let mut table = OffsetTable::new();
        assert!(SdSlice::from_slice(&payload, &mut table).is_ok());
        let text = format!(
            "the transport protocol is 0x99, by byte {at} of the options; the strict setting takes 0x06 (TCP) and 0x11 (UDP), for multicast 0x11 alone"
        );
        let values = [0x99, at as u64];
        let refusal = SdSlice::from_slice_with(&payload, &mut table, STRICT).unwrap_err();
        is(refusal, 23, &values, &text);
        let refusal = SdOptionsIndex::from_slice_with(&option, &mut table, STRICT).unwrap_err();
        is(refusal, 23, &values, &text);
        let alone = SdOptionSlice::from_slice_with(&option, STRICT).unwrap_err();
        let text = text.replace(" of the options", " of what was read");
        is(alone, 23, &values, &text);
    }
}

#[test]
fn r30_to_r39_streams() {
    let mut buffer = [0; 16 + 4096];
    let mut stream = TpBuf::new(1024, &mut buffer[..16 + 512]).unwrap();
    let not_one = "not one TP segment: under 20 bytes, or a length field that is not the byte count less 8, or a protocol version other than 1, or no TP message type";
    let good = segment(0, false, &[0; 16]);
    is(
        stream.consume_tp(&good[..19]).unwrap_err(),
        30,
        &[],
        not_one,
    );
    is(
        stream.consume_tp(&good[..35]).unwrap_err(),
        30,
        &[],
        not_one,
    );
    for (at, byte) in [(12, 2), (14, 0x02)] {
        let mut bad = good.clone();
        bad[at] = byte;
        is(stream.consume_tp(&bad).unwrap_err(), 30, &[], not_one);
    }
    is(
        stream.consume_tp(&segment(1024, false, &[0])).unwrap_err(),
        31,
        &[1024, 1, 1024],
        "a segment of 1 bytes at offset 1024 passes the stream's payload limit of 1024",
    );
    is(
        stream.consume_tp(&segment(16, true, &[0; 15])).unwrap_err(),
        32,
        &[16, 15],
        "a segment of 15 bytes at offset 16 says that more follows; its length is then a multiple of 16",
    );
    is(
        stream
            .consume_tp(&segment(512, true, &[0; 16]))
            .unwrap_err(),
        34,
        &[544],
        "the lent buffer is too short: 544 bytes are needed",
    );
    is(
        stream.take().unwrap_err(),
        37,
        &[],
        "the report is not complete",
    );
    stream.consume_tp(&segment(16, false, &[0; 16])).unwrap();
    is(
        stream.consume_tp(&segment(32, true, &[0; 16])).unwrap_err(),
        33,
        &[32, 48],
        "a segment ends at 48, but the report's end is known to be 32",
    );
    let mut full = TpBuf::new(4096, &mut buffer).unwrap();
    for place in 0..64 {
        full.consume_tp(&segment(32 * place, true, &[0; 16]))
            .unwrap();
    }
    is(
        full.consume_tp(&segment(32 * 64, true, &[0; 16]))
            .unwrap_err(),
        35,
        &[],
        "too many gaps: 64 separate ranges are held, and this segment joins none of them",
    );
    is(
        TpStream::new(65_521).unwrap_err(),
        36,
        &[65_521],
        "a payload limit of 65521 was asked for; at most 65520 is possible",
    );
    let mut malformed = TpStream::from_words([u32::MAX; TP_STREAM_WORDS]);
    is(
        malformed.consume_tp(&good, &mut buffer).unwrap_err(),
        38,
        &[],
        "these words are no state of a stream: they come from elsewhere, or were changed; begin the stream anew",
    );
    let mut words = *TpStream::new(64).unwrap().words();
    words[4] = u32::MAX;
    is(
        TpStream::from_words(words)
            .consume_tp(&good, &mut buffer)
            .unwrap_err(),
        39,
        &[],
        "4294967295 segments were taken since the stream was begun or cleared, and no number is left: clear it",
    );
}

#[test]
fn a_newer_number() {
    let values = [7; MAX_REFUSAL_VALUES];
    let refusal = Refusal::Other { number: 99, values };
    is(
        refusal,
        99,
        &values,
        &format!("values {values:?}; this crate does not know the number: the library is newer"),
    );
}
