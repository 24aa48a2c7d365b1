//! The rules' cases, 'both sides of each line', through the safe types.

mod common;
use common::*;
use viaductle::sd::entries::SdServiceEntryType;
use viaductle::sd::options::{validate_configuration_string, TransportProtocol};
use viaductle::sd::{
    OffsetTable, SdEntrySlice, SdMessage, SdOptionSlice, SdOptionsIndex, SdSlice, Settings,
};
use viaductle::{Place, Refusal, TpBuf, TpStream, TP_STREAM_WORDS};

/// The number and values of a payload's refusal, or 0 and the counts of entries and options.
fn read(payload: &[u8], discard: bool) -> (u64, Vec<u64>) {
    let mut table = OffsetTable::new();
    answer(SdSlice::from_slice_with_flag(payload, &mut table, discard))
}

fn read_with(payload: &[u8], settings: Settings) -> (u64, Vec<u64>) {
    let mut table = OffsetTable::new();
    answer(SdSlice::from_slice_with(payload, &mut table, settings))
}

fn answer(read: Result<SdSlice, Refusal>) -> (u64, Vec<u64>) {
    match read {
        Ok(sd) => {
            let counts = [sd.entries().count(), sd.options().count()];
            (0, counts.map(|n| n as u64).to_vec())
        }
        Err(refusal) => (refusal.number(), refusal.values().to_vec()),
    }
}

fn with(text: &str, at: usize, byte: u8) -> Vec<u8> {
    let mut bytes = hex(text);
    bytes[at] = byte;
    bytes
}

#[test]
fn sizes() {
    assert_eq!(read(&[0; 12], false), (0, vec![0, 0]));
    assert_eq!(read(&[0; 11], false), (1, vec![12]));
    assert_eq!(read(&[0; 13], false), (6, vec![12, 13]));
    assert_eq!(
        read(&hex("00000000 00000011 00000000"), false),
        (3, vec![17])
    );
    assert_eq!(
        read(&hex("00000000 00000010 00000000"), false),
        (1, vec![28])
    );
    let mut large = payload(&[0; 16], &[]);
    large[24..28].copy_from_slice(&1388u32.to_be_bytes());
    assert_eq!(read(&large, false), (5, vec![1416]));
    let many = payload(&[], &hex("00017780").repeat(347));
    assert_eq!(read(&many, false), (0, vec![0, 347]));
}

#[test]
fn flags() {
    for (byte, flags) in [
        (0x80, [true, false, false]),
        (0x40, [false, true, false]),
        (0x20, [false, false, true]),
        (0x1f, [false; 3]),
    ] {
        let bytes = with("000000000000000000000000", 0, byte);
        let mut table = OffsetTable::new();
        let sd = SdSlice::from_slice(&bytes, &mut table).unwrap();
        let said = sd.flags();
        let said = [
            said.reboot,
            said.unicast,
            said.explicit_initial_data_control,
        ];
        assert_eq!(said, flags, "{byte:#04x}");
    }
}

#[test]
fn the_whole_payload() {
    let bytes = hex(WHOLE);
    let mut table = OffsetTable::new();
    let sd = SdSlice::from_slice(&bytes, &mut table).unwrap();
    let flags = sd.flags();
    assert!(flags.reboot && !flags.unicast && !flags.explicit_initial_data_control);
    assert_eq!(sd.entries_slice(), &bytes[8..24]);
    assert_eq!(sd.options_index().options(), &bytes[28..]);

    let entries: Vec<_> = sd.entries_with_options().map(Result::unwrap).collect();
    let [offer] = &entries[..] else { panic!() };
    let SdEntrySlice::Service(entry) = offer.entry() else {
        panic!()
    };
    assert_eq!(entry.entry_type(), SdServiceEntryType::OfferService);
    assert_eq!((entry.service_id(), entry.instance_id()), (0x1234, 0x5678));
    assert_eq!(
        (entry.major_version(), entry.minor_version()),
        (1, 0x0100_0000)
    );
    assert_eq!(entry.ttl().value(), 3600);
    assert_eq!(offer.options_run_2().count(), 0);

    let options: Vec<_> = offer.options_run_1().collect();
    let [SdOptionSlice::Ipv4Endpoint(endpoint)] = &options[..] else {
        panic!()
    };
    assert_eq!(endpoint.ipv4_address(), [192, 168, 1, 1]);
    assert_eq!(endpoint.transport_protocol(), TransportProtocol::Tcp);
    assert_eq!(endpoint.port(), 8080);
    assert_eq!(endpoint.slice(), &bytes[31..]);
}

#[test]
fn runs() {
    assert_eq!(read(&with(WHOLE, 9, 1), false), (12, vec![1, 1, 1, 1]));
    let mut none = with(WHOLE, 11, 0);
    none[9] = 200;
    assert_eq!(read(&none, false), (0, vec![1, 1]));
}

#[test]
fn unknown_options() {
    let may = payload(&[], &hex("00017780"));
    let may_not = payload(&[], &hex("00017700"));
    assert_eq!(read(&may, false), (0, vec![0, 1]));
    assert_eq!(read(&may_not, false), (10, vec![0x77, 3]));
    assert_eq!(read(&may_not, true), (0, vec![0, 1]));
}

/// Every protocol in every kind with an address, under both values of both settings.
#[test]
fn protocols() {
    for (code, at) in ADDRESSED {
        for protocol in 0..=255 {
            let option = addressed(code, at, protocol);
            let payload = payload(&[], &option);
            let known = protocol == 0x11 || (protocol == 0x06 && !is_multicast(code));
            for settings in EVERY_SETTING {
                let passes = known || !settings.strict;
                let expected = match passes {
                    true => (0, vec![0, 1]),
                    false => (23, vec![protocol.into(), at as u64]),
                };
                assert_eq!(read_with(&payload, settings), expected, "{code:#04x}");
                let alone = SdOptionSlice::from_slice_with(&option, settings);
                assert_eq!(alone.is_ok(), passes, "{code:#04x}, {protocol:#04x}");
            }
            assert!(SdOptionSlice::from_slice(&option).is_ok());
        }
    }
}

/// The kinds without an address have no protocol: the bytes that would be one are free under the strict setting too.
#[test]
fn protocols_of_no_other_kind() {
    let free = "99".repeat(16);
    let options = format!(
        "0015 01 00 12613D{free}00
        0005 02 00 99999999
        0015 77 80 {free}99999999
        0009 34 80 9999999999999999"
    );
    let payload = payload(&[], &hex(&options));
    for settings in EVERY_SETTING {
        assert_eq!(read_with(&payload, settings), (0, vec![0, 4]));
    }
}

/// What options that break two rules are under the strict setting, and without it.
fn strictly_and_not(entries: &[u8], options: &[u8]) -> [(u64, Vec<u64>); 2] {
    let bytes = payload(entries, options);
    [read_with(&bytes, STRICT), read(&bytes, false)]
}

#[test]
fn lengths_before_protocols() {
    for (code, at) in ADDRESSED {
        let cut = &addressed(code, at, 0x99)[..at + 2];
        let short = (7, vec![at as u64 + 3, at as u64 + 2, 0, 0]);
        assert_eq!(strictly_and_not(&[], cut), [short.clone(), short]);
        // As long as the other three kinds: 21 bytes for 9, and 9 for 21.
        let long = addressed(code, 30 - at, 0x99);
        let misfit = (7, vec![at as u64, 30 - at as u64, 1, 0]);
        assert_eq!(strictly_and_not(&[], &long), [misfit.clone(), misfit]);
    }
}

#[test]
fn protocols_among_options() {
    let wrong = addressed(0x04, 9, 0x99);
    let protocol = |at| (23, vec![0x99, at]);
    // Another option's refusal: number, the values in front of the place, and the place in that option.
    for (other, number, values, place) in [
        ("0001 02 80", 7, &[5, 1, 1][..], 0),
        ("0000 77", 8, &[], 0),
        ("0001 01 00", 9, &[1], 4),
    ] {
        let refused = |at: u64| (number, [values, &[at + place]].concat());
        let later = [wrong.clone(), hex(other)].concat();
        assert_eq!(strictly_and_not(&[], &later), [protocol(9), refused(12)]);
        let earlier = [hex(other), wrong.clone()].concat();
        assert_eq!(strictly_and_not(&[], &earlier), [refused(0), refused(0)]);
    }
    let later = [&wrong[..], &[0, 1]].concat();
    let short = (7, vec![3, 2, 0, 12]);
    assert_eq!(strictly_and_not(&[], &later), [protocol(9), short]);
    // Of two protocols the first; 10 after all options, wherever the unknown one stands.
    let multicast = addressed(0x14, 9, 0x06);
    let both = [multicast, wrong.clone()].concat();
    let first = (23, vec![0x06, 9]);
    assert_eq!(strictly_and_not(&[], &both), [first, (0, vec![0, 2])]);
    let unknown = hex("0001 77 00");
    let later = [&wrong[..], &unknown].concat();
    let earlier = [unknown, wrong].concat();
    let refused = |place| (10, vec![0x77, place]);
    assert_eq!(strictly_and_not(&[], &later), [protocol(9), refused(15)]);
    assert_eq!(strictly_and_not(&[], &earlier), [protocol(13), refused(3)]);
}

/// The table and the sizes come before the protocols, the entries after them.
#[test]
fn protocols_among_the_rest() {
    let wrong = addressed(0x04, 9, 0x99);
    let bytes = payload(&[], &wrong);
    let mut short = [7; 346];
    let few = Refusal::TableTooShort(346);
    let refused = SdSlice::from_slice_with(&bytes, &mut short, STRICT);
    assert_eq!(refused, Err(few));
    let refused = SdOptionsIndex::from_slice_with(&wrong, &mut short, STRICT);
    assert_eq!(refused, Err(few));
    let many = wrong.repeat(116);
    let mut table = OffsetTable::new();
    let refused = SdOptionsIndex::from_slice_with(&many, &mut table, STRICT);
    assert_eq!(refused, Err(Refusal::OptionsArrayLengthTooLarge(1392)));

    let long = [&bytes[..], &[0]].concat();
    assert_eq!(read_with(&long, STRICT), (6, vec![24, 25]));
    assert_eq!(read_with(&bytes[..23], STRICT), (1, vec![24]));

    let entry = |at: usize, byte: u8| with("01000010 12345678 01000E10 01000000", at, byte);
    let protocol = || (23, vec![0x99, 9]);
    let unknown = (11, vec![5]);
    let both = strictly_and_not(&entry(0, 5), &wrong);
    assert_eq!(both, [protocol(), unknown]);
    let run = (12, vec![1, 1, 1, 1]);
    let both = strictly_and_not(&entry(1, 1), &wrong);
    assert_eq!(both, [protocol(), run]);
}

#[test]
fn strings() {
    for (text, values) in [
        ("", &[1, 0][..]),
        ("0000", &[3, 0, 0]),
        ("013D00", &[4, 0, 0]),
        ("012000", &[6, 0, 0]),
        ("0241FF00", &[5, 0, 1, 255, 0]),
        ("054100", &[2, 0, 5, 2, 0]),
        ("0141", &[1, 2]),
    ] {
        let refusal = validate_configuration_string(&hex(text)).unwrap_err();
        assert_eq!(
            (refusal.number(), &refusal.values()[..]),
            (9, values),
            "{text}"
        );
    }
    assert_eq!(validate_configuration_string(&hex("00")), Ok(()));
    assert_eq!(validate_configuration_string(&hex("03413DFF00")), Ok(()));
}

#[test]
fn messages() {
    let message = [hex(HEADER), hex(WHOLE)].concat();
    let mut table = OffsetTable::new();
    let sd = SdMessage::from_slice(&message, &mut table).unwrap();
    assert_eq!(sd.header().session_id(), 7);
    assert_eq!(sd.header().payload(), &message[16..]);
    assert_eq!(sd.sd().entries_slice(), &message[24..40]);

    let unknown = [hex(HEADER), payload(&[], &hex("00017700"))].concat();
    let discard = Settings::new().discard_unknown_option(true);
    assert!(SdMessage::from_slice_with(&unknown, &mut table, discard).is_ok());
    let refusal = SdMessage::from_slice(&unknown, &mut table).unwrap_err();
    assert_eq!(refusal.number(), 10);

    // The endpoint's TCP is known; of multicast it would be 23, counted from the options as in a payload.
    assert!(SdMessage::from_slice_with(&message, &mut table, STRICT).is_ok());
    let mut multicast = message.clone();
    multicast[16 + 28 + 2] = 0x14;
    assert!(SdMessage::from_slice_with(&multicast, &mut table, discard).is_ok());
    let refusal = SdMessage::from_slice_with(&multicast, &mut table, STRICT).unwrap_err();
    let place = Place::Options(9);
    let protocol = 0x06;
    assert_eq!(
        refusal,
        Refusal::TransportProtocolInvalid { protocol, place }
    );
    // The header comes first.
    multicast[15] = 9;
    let refusal = SdMessage::from_slice_with(&multicast, &mut table, STRICT).unwrap_err();
    assert_eq!(refusal, Refusal::SdReturnCodeInvalid(9));
}

#[test]
fn header_fields() {
    // Neither the length field nor the protocol version is judged.
    let message = hex("FFFF8100 01020304 00000506 09010200 000000000000000000000000");
    let mut table = OffsetTable::new();
    let header = SdMessage::from_slice(&message, &mut table)
        .unwrap()
        .header();
    assert_eq!(header.slice(), message);
    assert_eq!(
        (header.service_id(), header.event_or_method_id()),
        (0xffff, 0x8100)
    );
    assert_eq!(
        (header.length(), header.request_id()),
        (0x0102_0304, 0x0506)
    );
    assert_eq!((header.client_id(), header.session_id()), (0, 0x0506));
    assert_eq!(
        (header.protocol_version(), header.interface_version()),
        (9, 1)
    );

    let mut final_segment = segment(0, false, &[]);
    final_segment[8..16].copy_from_slice(&hex("AABBCCDD 0105A177"));
    let mut buffer = [0; 16];
    let mut stream = TpBuf::new(0, &mut buffer).unwrap();
    stream.consume_tp(&final_segment).unwrap();
    let header = stream.take().unwrap();
    assert_eq!((header.message_id(), header.length()), (0x1234_8001, 8));
    assert_eq!(
        (header.request_id(), header.client_id()),
        (0xaabb_ccdd, 0xaabb)
    );
    assert_eq!(
        (header.protocol_version(), header.interface_version()),
        (1, 5)
    );
    assert_eq!(
        (header.message_type_raw(), header.return_code()),
        (0x81, 0x77)
    );
}

#[test]
fn two_segments() {
    let mut buffer = [0xee; 16 + 64];
    let mut stream = TpBuf::new(64, &mut buffer).unwrap();
    stream.consume_tp(&segment(0, true, &[1; 16])).unwrap();
    assert_eq!(stream.take().unwrap_err(), Refusal::NotComplete);
    stream.consume_tp(&segment(16, false, &[2; 16])).unwrap();
    assert!(stream.is_complete());
    let report = stream.try_finalize().unwrap();
    assert_eq!(report.length(), 40);
    assert_eq!(report.message_type_raw(), 0x02);
    assert_eq!(report.payload(), [[1; 16], [2; 16]].concat());
    assert_eq!(buffer[48..], [0xee; 32]);
}

#[test]
fn ends_and_limits() {
    let mut buffer = [0; 16 + 64];
    let mut stream = TpBuf::new(64, &mut buffer).unwrap();
    let uneven = Refusal::UnalignedTpPayloadLen {
        offset: 0,
        payload_len: 15,
    };
    assert_eq!(stream.consume_tp(&segment(0, true, &[0; 15])), Err(uneven));
    assert_eq!(stream.consume_tp(&segment(0, false, &[0; 15])), Ok(()));

    stream.clear();
    stream.consume_tp(&segment(0, false, &[0; 16])).unwrap();
    let conflict = Refusal::ConflictingEnd {
        previous_end: 16,
        conflicting_end: 32,
    };
    assert_eq!(
        stream.consume_tp(&segment(16, true, &[0; 16])),
        Err(conflict)
    );

    assert_eq!(
        conflict.to_string(),
        "refused, 33: a segment ends at 32, but the report's end is known to be 16"
    );

    stream.clear();
    stream.consume_tp(&segment(0, false, &[])).unwrap();
    assert_eq!(stream.try_finalize().unwrap().length(), 8);

    let mut stream = TpBuf::new(32, &mut buffer).unwrap();
    assert_eq!(stream.consume_tp(&segment(32, true, &[])), Ok(()));
    let past = Refusal::SegmentTooBig {
        offset: 48,
        payload_len: 0,
        max: 32,
    };
    assert_eq!(stream.consume_tp(&segment(48, true, &[])), Err(past));
}

/// A final segment that ends behind data held is refused, one that ends with it is taken.
#[test]
fn an_end_behind_the_data() {
    let mut buffer = [0xee; 16 + 64];
    let mut stream = TpBuf::new(64, &mut buffer).unwrap();
    stream.consume_tp(&segment(0, true, &[1; 16])).unwrap();
    stream.consume_tp(&segment(16, true, &[2; 16])).unwrap();
    for (offset, length) in [(0, 16), (16, 15), (0, 0)] {
        let behind = Refusal::ConflictingEnd {
            previous_end: 32,
            conflicting_end: offset + length as u32,
        };
        let last = segment(offset, false, &vec![3; length]);
        assert_eq!(stream.consume_tp(&last), Err(behind));
        assert!(!stream.is_complete());
        assert_eq!(stream.stream().end(), None);
        let reach = format!(
            "ends at {}, but the report is known to reach 32",
            offset + length as u32
        );
        assert!(behind.to_string().ends_with(&reach), "{behind}");
    }
    stream.consume_tp(&segment(32, false, &[])).unwrap();
    let report = stream.take().unwrap();
    assert_eq!(report.payload(), [[1; 16], [2; 16]].concat());

    // The end that is known is told before how far the data reaches: a state that no run comes to.
    let mut words = [0; TP_STREAM_WORDS];
    words[..8].copy_from_slice(&[64, 1, 1, 64, 1, 0, 32, 1]);
    let mut stream = TpStream::from_words(words);
    let known = Refusal::ConflictingEnd {
        previous_end: 64,
        conflicting_end: 16,
    };
    let last = segment(0, false, &[3; 16]);
    assert_eq!(stream.consume_tp(&last, &mut buffer), Err(known));
}
