//! Entries, options and runs, one after the other; every kind and every field.

mod common;
use common::*;
use viaductle::sd::entries::{EventGroupEntryType, SdServiceEntryType, U4};
use viaductle::sd::options::{ConfigurationItems, TransportProtocol};
use viaductle::sd::{
    OffsetTable, SdEntriesIterator, SdEntrySlice, SdOptionSlice, SdOptionsIndex, SdOptionsIterator,
    SdSlice,
};
use viaductle::{Place, Refusal, SdConfigurationStringError};

/// One option of each kind.
const OPTIONS: &str = "0006 01 80 03 613D31 00
    0005 02 80 1234 5678
    0009 04 00 0A000001 00 11 7530
    0015 06 00 20010DB8000000000000000000000001 00 06 7531
    0009 14 00 EF000001 00 99 7532
    0015 16 00 FF020000000000000000000000000002 00 11 7533
    0009 24 00 0A000002 00 11 7534
    0015 26 00 20010DB8000000000000000000000003 00 11 7535
    0002 77 80AA";

/// A find, and a subscribe with both runs, reserved byte 0x5a and reserved bits 5.
const ENTRIES: &str = "00 00 00 00 0102 FFFF FF 000003 FFFFFFFF
    06 01 06 23 1111 2222 03 FFFFFF 5A DC 0007
    07 00 00 10 1111 2222 03 000000 00 00 0007";

fn six(last: u8) -> [u8; 16] {
    let mut address = [0; 16];
    address[..4].copy_from_slice(&[0x20, 0x01, 0x0d, 0xb8]);
    address[15] = last;
    address
}

fn every_kind(options: &[SdOptionSlice]) {
    use SdOptionSlice::*;
    let [Configuration(a), LoadBalancing(b), Ipv4Endpoint(c), Ipv6Endpoint(d), Ipv4Multicast(e), Ipv6Multicast(f), Ipv4SdEndpoint(g), Ipv6SdEndpoint(h), Unknown(i)] =
        options
    else {
        panic!("{options:?}")
    };
    assert!(a.discardable());
    assert_eq!(a.configuration_string(), b"\x03a=1\0");
    assert_eq!(a.slice(), b"\x80\x03a=1\0");
    assert!(b.discardable());
    assert_eq!((b.priority(), b.weight()), (0x1234, 0x5678));
    assert_eq!(b.slice(), hex("8012345678"));
    use TransportProtocol::*;
    assert_eq!(
        (c.ipv4_address(), c.transport_protocol(), c.port()),
        ([10, 0, 0, 1], Udp, 30000)
    );
    assert_eq!(
        (d.ipv6_address(), d.transport_protocol(), d.port()),
        (six(1), Tcp, 30001)
    );
    let protocol = Generic(0x99);
    assert_eq!(
        (e.ipv4_address(), e.transport_protocol(), e.port()),
        ([239, 0, 0, 1], protocol, 30002)
    );
    let mut group = [0; 16];
    (group[0], group[1], group[15]) = (0xff, 2, 2);
    assert_eq!(
        (f.ipv6_address(), f.transport_protocol(), f.port()),
        (group, Udp, 30003)
    );
    assert_eq!(
        (g.ipv4_address(), g.transport_protocol(), g.port()),
        ([10, 0, 0, 2], Udp, 30004)
    );
    assert_eq!(
        (h.ipv6_address(), h.transport_protocol(), h.port()),
        (six(3), Udp, 30005)
    );
    assert_eq!(
        (i.option_type(), i.discardable(), i.slice()),
        (0x77, true, &[0x80, 0xaa][..])
    );
    assert_eq!((c.slice().len(), d.slice().len()), (9, 21));
}

#[test]
fn options_by_cursor_lookup_and_alone() {
    let bytes = payload(&hex(ENTRIES), &hex(OPTIONS));
    let mut table = OffsetTable::new();
    let sd = SdSlice::from_slice(&bytes, &mut table).unwrap();
    let by_cursor: Vec<_> = sd.options().map(Result::unwrap).collect();
    every_kind(&by_cursor);

    let index = sd.options_index();
    assert_eq!((index.len(), index.is_empty()), (9, false));
    let by_lookup: Vec<_> = (0..9).map(|place| index.get(place).unwrap()).collect();
    assert_eq!(by_cursor, by_lookup);
    assert!(index.get(9).is_none());
    assert!(index.get(usize::MAX).is_none());

    let mut rest = index.options();
    for option in &by_cursor {
        let (alone, after) = SdOptionSlice::from_slice(rest).unwrap();
        assert_eq!(alone, *option);
        rest = after;
    }
    assert!(rest.is_empty());
}

#[test]
fn options_that_may_not_be_discarded() {
    use SdOptionSlice::*;
    let bytes = payload(&[], &hex("00020100 00 00050200 00010002 000177 7F"));
    let mut table = OffsetTable::new();
    let sd = SdSlice::from_slice_with_flag(&bytes, &mut table, true).unwrap();
    let options: Vec<_> = sd.options().map(Result::unwrap).collect();
    let [Configuration(a), LoadBalancing(b), Unknown(c)] = &options[..] else {
        panic!("{options:?}")
    };
    assert!(!a.discardable() && !b.discardable() && !c.discardable());
}

/// What was read strictly is handed out as it always is: by cursor, by lookup, in runs, and with all its fields.
#[test]
fn after_a_strict_reading() {
    let mut options = hex(OPTIONS);
    let multicast = options.iter().position(|byte| *byte == 0x99).unwrap();
    let bytes = payload(&hex(ENTRIES), &options);
    let mut table = OffsetTable::new();
    let refusal = SdSlice::from_slice_with(&bytes, &mut table, STRICT).unwrap_err();
    let place = Place::Options(multicast);
    let protocol = 0x99;
    assert_eq!(
        refusal,
        Refusal::TransportProtocolInvalid { protocol, place }
    );

    options[multicast] = 0x11;
    let bytes = payload(&hex(ENTRIES), &options);
    let strict = SdSlice::from_slice_with(&bytes, &mut table, STRICT).unwrap();
    let mut another = OffsetTable::new();
    let lenient = SdSlice::from_slice(&bytes, &mut another).unwrap();
    assert_eq!(strict, lenient);
    assert_eq!(format!("{strict:?}"), format!("{lenient:?}"));
    let all: Vec<_> = strict.options().map(Result::unwrap).collect();
    let index = strict.options_index();
    let by_lookup: Vec<_> = (0..9).map(|place| index.lookup(place).unwrap()).collect();
    assert_eq!(all, by_lookup);
    let entries: Vec<_> = strict.entries_with_options().map(Result::unwrap).collect();
    assert_eq!(entries[1].options_run_1().collect::<Vec<_>>(), all[1..3]);
    assert_eq!(entries[1].options_run_2().collect::<Vec<_>>(), all[6..9]);
    let SdOptionSlice::Ipv4Multicast(group) = all[4] else {
        panic!()
    };
    assert_eq!(
        (
            group.ipv4_address(),
            group.transport_protocol(),
            group.port()
        ),
        ([239, 0, 0, 1], TransportProtocol::Udp, 30002)
    );
}

/// Neither a lookup nor a run judges a protocol: what an index without the setting let pass is found.
#[test]
fn settings_of_an_index() {
    let options = hex(OPTIONS);
    let mut table = OffsetTable::new();
    for settings in EVERY_SETTING {
        table.fill(5);
        match SdOptionsIndex::from_slice_with(&options, &mut table, settings) {
            Ok(index) => {
                assert!(!settings.strict);
                let run: Vec<_> = index.run(0, U4::try_new(9).unwrap()).collect();
                every_kind(&run);
            }
            Err(refusal) => {
                assert!(settings.strict);
                assert_eq!(refusal.number(), 23);
                assert_eq!(table, OffsetTable::new());
            }
        }
    }
    // The discard setting does not matter to an index.
    let may_not = hex("00017700");
    for settings in EVERY_SETTING {
        assert!(SdOptionsIndex::from_slice_with(&may_not, &mut table, settings).is_ok());
    }
}

#[test]
fn settings_of_an_iterator() {
    let options = hex(OPTIONS);
    let first_four: Vec<_> = SdOptionsIterator::new(&options).take(4).collect();
    let place = Place::Alone(9);
    let protocol = 0x99;
    let refusal = Refusal::TransportProtocolInvalid { protocol, place };
    let mut strict = SdOptionsIterator::with(&options, STRICT);
    assert_eq!(strict.by_ref().take(4).collect::<Vec<_>>(), first_four);
    let mut cursor = strict.clone();
    assert_eq!((strict.next(), strict.next()), (Some(Err(refusal)), None));
    for _ in 0..2 {
        assert_eq!(cursor.advance(), Err(refusal));
    }
    assert_ne!(
        SdOptionsIterator::with(&options, STRICT),
        SdOptionsIterator::new(&options)
    );
    for settings in EVERY_SETTING {
        let all: Vec<_> = SdOptionsIterator::with(&options, settings).collect();
        match settings.strict {
            true => assert_eq!(all, [&first_four[..], &[Err(refusal)]].concat()),
            false => every_kind(&all.into_iter().map(Result::unwrap).collect::<Vec<_>>()),
        }
        let may_not = hex("00017700");
        let mut unknown = SdOptionsIterator::with(&may_not, settings);
        assert!(unknown.next().unwrap().is_ok() && unknown.next().is_none());
    }
}

#[test]
fn entries_and_their_runs() {
    let bytes = payload(&hex(ENTRIES), &hex(OPTIONS));
    let mut table = OffsetTable::new();
    let sd = SdSlice::from_slice(&bytes, &mut table).unwrap();
    let entries: Vec<_> = sd.entries().map(Result::unwrap).collect();
    let [SdEntrySlice::Service(find), SdEntrySlice::Eventgroup(subscribe), SdEntrySlice::Eventgroup(ack)] =
        &entries[..]
    else {
        panic!("{entries:?}")
    };
    assert_eq!(find.entry_type(), SdServiceEntryType::FindService);
    assert_eq!((find.service_id(), find.instance_id()), (0x0102, 0xffff));
    assert_eq!(
        (find.major_version(), find.minor_version()),
        (0xff, 0xffff_ffff)
    );
    assert_eq!(find.ttl().value(), 3);

    assert_eq!(subscribe.entry_type(), EventGroupEntryType::SubscribeOrStop);
    assert_eq!(
        (
            subscribe.index_first_option_run(),
            subscribe.index_second_option_run()
        ),
        (1, 6)
    );
    assert_eq!(subscribe.number_of_options_1().value(), 2);
    assert_eq!(subscribe.number_of_options_2().value(), 3);
    assert_eq!(
        (subscribe.service_id(), subscribe.instance_id()),
        (0x1111, 0x2222)
    );
    assert_eq!(
        (subscribe.major_version(), subscribe.ttl().value()),
        (3, 0x00ff_ffff)
    );
    assert_eq!((subscribe.reserved(), subscribe.spare()), (0x5a, 5));
    assert!(subscribe.initial_data_requested());
    assert_eq!(
        (subscribe.counter().value(), subscribe.eventgroup_id()),
        (12, 7)
    );
    assert_eq!(subscribe.slice(), &bytes[24..40]);
    assert_eq!(ack.entry_type(), EventGroupEntryType::SubscribeAckOrNack);
    assert!(!ack.initial_data_requested());

    let all: Vec<_> = sd.options().map(Result::unwrap).collect();
    for (number, entry) in sd.entries_with_options().map(Result::unwrap).enumerate() {
        assert_eq!(*entry.entry(), entries[number]);
        let (first, second) = [(0..0, 0..0), (1..3, 6..9), (0..1, 0..0)][number].clone();
        assert_eq!(entry.options_run_1().collect::<Vec<_>>(), all[first]);
        assert_eq!(entry.options_run_2().collect::<Vec<_>>(), all[second]);
        let same = SdEntrySlice::from_slice(entry.entry().slice()).unwrap();
        assert_eq!(same, entries[number]);
    }
}

#[test]
fn either_kind_of_entry_answers() {
    let bytes = hex(ENTRIES);
    let entry = SdEntrySlice::from_slice(&bytes[16..]).unwrap();
    assert_eq!(
        (entry.start_index_options_1(), entry.start_index_options_2()),
        (1, 6)
    );
    assert_eq!(
        (
            entry.number_of_options_1().value(),
            entry.number_of_options_2().value()
        ),
        (2, 3)
    );
    assert_eq!((entry.service_id(), entry.instance_id()), (0x1111, 0x2222));
    assert_eq!(
        (entry.major_version(), entry.ttl().value()),
        (3, 0x00ff_ffff)
    );
    assert_eq!(entry.slice(), &bytes[16..32]);
}

#[test]
fn a_run_that_leaves_the_list_ends_there() {
    let options = hex(OPTIONS);
    let mut table = OffsetTable::new();
    let index = SdOptionsIndex::from_slice(&options, &mut table).unwrap();
    let mut run = index.run(8, U4::try_new(3).unwrap());
    assert!(matches!(run.next(), Some(SdOptionSlice::Unknown(_))));
    assert_eq!((run.next(), run.next()), (None, None));
    assert_eq!(run.advance(), Err(Refusal::NothingThere));
    assert_eq!(
        index.run(0, U4::try_new(0).unwrap()).advance(),
        Err(Refusal::NothingThere)
    );
    assert!(U4::try_new(16).is_none());
}

#[test]
fn iterators_end_after_a_refusal_and_cursors_stay() {
    let mut bytes = hex(ENTRIES);
    bytes[16] = 0x05;
    let refusal = Refusal::UnknownSdServiceEntryType(5);
    let mut entries = SdEntriesIterator::new(&bytes);
    assert!(entries.next().unwrap().is_ok());
    let mut cursor = entries.clone();
    assert_eq!(entries.next(), Some(Err(refusal)));
    assert_eq!(entries.next(), None);
    assert_eq!(cursor.advance(), Err(refusal));
    assert_eq!(cursor.advance(), Err(refusal));
    assert_eq!(
        SdEntriesIterator::new(&bytes[..10]).next(),
        Some(Err(Refusal::UnexpectedEndOfSlice(16)))
    );

    let bytes = hex("00017780 0000");
    let mut options = SdOptionsIterator::new(&bytes);
    assert!(options.next().unwrap().is_ok());
    let mut cursor = options.clone();
    let refusal = options.next().unwrap().unwrap_err();
    assert_eq!(refusal.values()[..], [3, 2, 0, 0]);
    assert_eq!(options.next(), None);
    assert_eq!(cursor.advance(), cursor.clone().advance());
}

#[test]
fn a_table_outlives_its_reading() {
    let options = hex(OPTIONS);
    let mut table = OffsetTable::new();
    let len = SdOptionsIndex::from_slice(&options, &mut table)
        .unwrap()
        .len();
    let kept = SdOptionsIndex::from_table(&options, &table, len);
    every_kind(
        &(0..len)
            .map(|place| kept.lookup(place).unwrap())
            .collect::<Vec<_>>(),
    );
    let mut again = OffsetTable::new();
    assert_eq!(
        kept,
        SdOptionsIndex::from_slice(&options, &mut again).unwrap()
    );

    // Other bytes under the table: 21, and nothing found.
    let other = hex("00017780");
    let misfit = SdOptionsIndex::from_table(&other, &table, len);
    assert_eq!(misfit.lookup(8), Err(Refusal::TableMisfit));
    assert_eq!(misfit.get(8), None);
    assert_eq!(
        misfit.run(8, U4::try_new(1).unwrap()).advance(),
        Err(Refusal::TableMisfit)
    );
    // More options than slots: past the lent table, and past the 347.
    let wide = SdOptionsIndex::from_table(&options, &table[..3], 400);
    assert_ne!(wide, SdOptionsIndex::from_table(&options, &table[..3], 401));
    assert_eq!(wide.lookup(3), Err(Refusal::TableMisfit));
    assert_eq!(wide.lookup(347), Err(Refusal::TableMisfit));
    assert_eq!(wide.lookup(400), Err(Refusal::NothingThere));
    // A string is not scanned again.
    let unscanned = hex("00020100FF");
    let zeros = [0; 347];
    let index = SdOptionsIndex::from_table(&unscanned, &zeros, 1);
    assert!(matches!(
        index.get(0),
        Some(SdOptionSlice::Configuration(_))
    ));
}

#[test]
fn lent_tables() {
    let bytes = hex(WHOLE);
    let mut table = [9; 400];
    assert!(SdSlice::from_slice(&bytes, &mut table).is_ok());
    assert_eq!(
        (&table[..347], &table[347..]),
        (&[0; 347][..], &[9; 53][..])
    );
    table[..347].fill(5);
    assert!(SdSlice::from_slice(&bytes[..39], &mut table).is_err());
    assert_eq!(
        (&table[..347], &table[347..]),
        (&[0; 347][..], &[9; 53][..])
    );
    let many = payload(&[], &hex("00017780").repeat(347));
    assert!(SdSlice::from_slice(&many, &mut table).is_ok());
    assert!(table[..347]
        .iter()
        .enumerate()
        .all(|(slot, at)| usize::from(*at) == 4 * slot));
}

#[test]
fn items_of_a_string() {
    let items = |string| -> Vec<_> { ConfigurationItems::new(string).collect() };
    let found = items(b"\x03a=1\x02b=\x04flag\x05c==\xff\0\0");
    let pairs: Vec<_> = found
        .iter()
        .map(|item| item.as_ref().unwrap())
        .map(|item| (item.key(), item.value()))
        .collect();
    let value = |bytes: &'static [u8]| Some(bytes);
    assert_eq!(
        pairs,
        [
            (&b"a"[..], value(b"1")),
            (b"b", value(b"")),
            (b"flag", None),
            (b"c", value(b"=\xff\0"))
        ]
    );
    assert_eq!(found[3].unwrap().slice(), b"c==\xff\0");
    // The end, with and without a closing zero byte; behind it nothing is looked at.
    assert!(items(b"").is_empty() && items(b"\0").is_empty() && items(b"\0\x01a").is_empty());
    assert_eq!(items(b"\x01a").len(), 1);
    let refused = Refusal::ConfigurationString {
        error: SdConfigurationStringError::EmptyKey { item_offset: 2 },
        place: Place::Alone(2),
    };
    let found = items(b"\x01a\x02=b\x01c\0");
    assert_eq!((found.len(), found[1]), (2, Err(refused)));
    let mut cursor = ConfigurationItems::new(b"\x01a\x05b\0");
    assert!(cursor.advance().is_ok());
    let long = Refusal::ConfigurationString {
        error: SdConfigurationStringError::ItemLengthExceedsRemaining {
            item_offset: 2,
            item_length: 5,
            remaining: 2,
        },
        place: Place::Alone(2),
    };
    for _ in 0..2 {
        assert_eq!(cursor.advance(), Err(long));
    }
    let bytes = payload(&hex(ENTRIES), &hex(OPTIONS));
    let mut table = OffsetTable::new();
    let sd = SdSlice::from_slice(&bytes, &mut table).unwrap();
    let Some(SdOptionSlice::Configuration(option)) = sd.options_index().get(0) else {
        panic!()
    };
    let keys: Vec<_> = option.items().map(|item| item.unwrap().key()).collect();
    assert_eq!(keys, [b"a"]);
}
