//! What a reading and a stream show of themselves (`Debug`).

mod common;
use common::*;
use viaductle::sd::{
    OffsetTable, SdEntriesIterator, SdMessage, SdOptionsIndex, SdOptionsIterator, SdSlice,
};
use viaductle::{TpBuf, TpStream, TP_STREAM_WORDS};

const OFFER: &str = "OfferService { service_id: 0x1234, instance_id: 0x5678, major_version: 1, ttl: 3600, run_1: 0..1, run_2: 0..0, minor_version: 16777216 }";
const ENDPOINT: &str =
    "Ipv4Endpoint { ipv4_address: 192.168.1.1, transport_protocol: Tcp, port: 8080 }";

#[test]
fn a_reading() {
    let whole = hex(WHOLE);
    let mut table = OffsetTable::new();
    let sd = SdSlice::from_slice(&whole, &mut table).unwrap();
    let flags =
        "SdHeaderFlags { reboot: true, unicast: false, explicit_initial_data_control: false }";
    let shown = format!("SdSlice {{ flags: {flags}, entries: [{OFFER}], options: [{ENDPOINT}] }}");
    assert_eq!(format!("{sd:?}"), shown);
    assert_eq!(
        format!("{:?}", sd.options_index()),
        format!("SdOptionsIndex {{ len: 1, options: [{ENDPOINT}] }}")
    );
    let mut entries = sd.entries_with_options();
    assert_eq!(
        format!("{:?}", entries.next().unwrap().unwrap()),
        format!("SdEntryWithOptions {{ entry: {OFFER}, options_run_1: [{ENDPOINT}], options_run_2: [] }}")
    );
    assert_eq!(
        format!("{:?}", sd.entries()),
        format!("SdEntriesIterator([{OFFER}])")
    );

    let message = [hex(HEADER), whole].concat();
    let mut table = OffsetTable::new();
    let message = SdMessage::from_slice(&message, &mut table).unwrap();
    let header = "SomeipMsgSlice { message_id: 0xffff8100, length: 0, client_id: 0x0000, session_id: 7, protocol_version: 1, interface_version: 1, message_type: 0x02, return_code: 0x00, payload: 40 bytes }";
    assert_eq!(
        format!("{message:?}"),
        format!("SdMessage {{ header: {header}, sd: {shown} }}")
    );
}

#[test]
fn every_kind() {
    let options = hex("0006 01 80 03 613D31 00
        0005 02 80 1234 5678
        0015 26 00 20010DB8000000000000000000000003 00 11 7535
        0002 77 80AA");
    let mut table = OffsetTable::new();
    let index = SdOptionsIndex::from_slice(&options, &mut table).unwrap();
    let shown: Vec<String> = (0..4)
        .map(|place| format!("{:?}", index.get(place).unwrap()))
        .collect();
    assert_eq!(
        shown,
        [
            r#"Configuration { discardable: true, items: ["a=1"] }"#,
            "LoadBalancing { discardable: true, priority: 4660, weight: 22136 }",
            "Ipv6SdEndpoint { ipv6_address: 2001:db8::3, transport_protocol: Udp, port: 30005 }",
            "Unknown { option_type: 0x77, discardable: true, slice: [80, aa] }",
        ]
    );
    assert_eq!(format!("{table:?}"), "OffsetTable([0, 9, 17, 41], then 0)");
    assert_eq!(
        format!("{:?}", OffsetTable::new()),
        "OffsetTable([], then 0)"
    );

    let mut entries = hex("06 01 06 23 1111 2222 03 FFFFFF 5A DC 0007 05");
    assert_eq!(
        format!("{:?}", SdEntriesIterator::new(&entries)),
        "SdEntriesIterator([SubscribeOrStop { service_id: 0x1111, instance_id: 0x2222, major_version: 3, ttl: 16777215, run_1: 1..3, run_2: 6..9, eventgroup_id: 0x0007, counter: 12, initial_data_requested: true }, refused, 1: the bytes end too soon: at least 16 are needed])"
    );
    entries.truncate(0);
    assert_eq!(
        format!("{:?}", SdEntriesIterator::new(&entries)),
        "SdEntriesIterator([])"
    );
    let options = hex("0002 77 80AA 0000");
    assert_eq!(
        format!("{:?}", SdOptionsIterator::new(&options)),
        "SdOptionsIterator([Unknown { option_type: 0x77, discardable: true, slice: [80, aa] }, refused, 7: option at byte 0 of what was read: it needs 3 bytes, but only 2 are left])"
    );
}

#[test]
fn a_stream() {
    let mut buffer = [0; 16 + 64];
    let mut stream = TpBuf::new(64, &mut buffer).unwrap();
    stream.consume_tp(&segment(48, false, &[0; 16])).unwrap();
    stream.consume_tp(&segment(0, true, &[0; 16])).unwrap();
    let shown = format!("{:?}", stream.stream());
    assert_eq!(
        shown,
        "TpStream { limit: 64, end: Some(64), count: 2, ranges: [0..16 #2, 48..64 #1] }"
    );
    assert_eq!(
        format!("{stream:?}"),
        format!("TpBuf {{ stream: {shown}, buffer: 80 bytes }}")
    );
    let mut words = [9; TP_STREAM_WORDS];
    words[..8].copy_from_slice(&[64, 1, 1, 16, 1, 0, 32, 1]);
    assert_eq!(
        format!("{:?}", TpStream::from_words(words)),
        "TpStream { words: no state of a stream, [64, 1, 1, 16, 1, 0, 32, 1] }"
    );
}

#[test]
fn the_values_of_a_refusal() {
    let mut table = OffsetTable::new();
    let refused = SdSlice::from_slice(&[0; 13], &mut table).unwrap_err();
    assert_eq!(format!("{:?}", refused.values()), "[12, 13]");
}
