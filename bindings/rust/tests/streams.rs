//! Streams: order, overlaps, gaps, numbers of arrival, refusals that change nothing, malformed states.

mod common;
use common::*;
use viaductle::{Refusal, TpBuf, TpRange, TpStream, MAX_TP_NUMBER, MAX_TP_RANGES, TP_STREAM_WORDS};

/// Start, end and number of each range, as they are told.
fn held(stream: &TpStream) -> Vec<(u32, u32, u32)> {
    let fields = |range: TpRange| (range.start, range.end, range.number);
    stream.ranges().map(fields).collect()
}

/// All orders of four pieces.
fn orders() -> impl Iterator<Item = [usize; 4]> {
    let any = (0..256).map(|n| [n / 64, n / 16 % 4, n / 4 % 4, n % 4]);
    any.filter(|order| (0..4).all(|piece| order.contains(&piece)))
}

/// A report of four pieces, which come in this order, over a buffer of these bytes.
fn joined(order: [usize; 4], lent: u8) {
    let report: Vec<u8> = (0..100).collect();
    let pieces = [(0, 32), (32, 48), (48, 96), (96, 100)];
    let mut buffer = [lent; 16 + 128];
    let mut stream = TpBuf::new(128, &mut buffer).unwrap();
    for piece in order {
        assert!(!stream.is_complete());
        let (start, end) = pieces[piece];
        let bytes = &report[start..end];
        stream
            .consume_tp(&segment(start as u32, end != 100, bytes))
            .unwrap();
    }
    assert_eq!(stream.stream().end(), Some(100));
    assert_eq!(held(stream.stream()), [(0, 100, 4)]);
    let taken = stream.take().unwrap();
    assert_eq!(taken.payload(), report);
    assert_eq!(
        taken.slice()[..16],
        hex("12348001 0000006C 00000001 01010200")
    );
    assert_eq!(
        stream.try_finalize().unwrap().payload(),
        report,
        "it can be taken again"
    );
    stream.clear();
    assert_eq!(
        (stream.stream().limit(), stream.stream().end()),
        (128, None)
    );
    assert_eq!(
        (stream.stream().count(), held(stream.stream())),
        (Ok(0), vec![])
    );
    assert_eq!(buffer[116..], [lent; 28], "the caller's bytes stay");
}

#[test]
fn a_report_in_any_order() {
    for order in [[0, 1, 2, 3], [3, 2, 1, 0], [2, 0, 3, 1]] {
        joined(order, 0xee);
    }
}

#[test]
fn a_report_in_every_order() {
    assert_eq!(orders().count(), 24);
    for (lent, order) in (0xe0..).zip(orders()) {
        joined(order, lent);
    }
}

#[test]
fn a_gap_in_any_order() {
    let pieces = [(0, true), (16, true), (48, true), (64, false)];
    for order in orders() {
        let mut buffer = [0; 16 + 128];
        let mut stream = TpBuf::new(128, &mut buffer).unwrap();
        for piece in order {
            let (at, more) = pieces[piece];
            stream.consume_tp(&segment(at, more, &[7; 16])).unwrap();
        }
        assert!(!stream.is_complete());
        assert!(matches!(stream.take(), Err(Refusal::NotComplete)));
    }
}

#[test]
fn the_newest_bytes_win() {
    let mut buffer = [0; 64];
    let mut stream = TpBuf::new(48, &mut buffer).unwrap();
    stream.consume_tp(&segment(0, true, &[1; 32])).unwrap();
    stream.consume_tp(&segment(16, false, &[2; 32])).unwrap();
    let report = stream.try_finalize().unwrap();
    assert_eq!(report.payload(), [[1; 16], [2; 16], [2; 16]].concat());
}

#[test]
fn a_gap_filler_is_taken_where_a_new_range_is_not() {
    let mut buffer = vec![0; 16 + 65_520];
    let mut stream = TpBuf::new(65_520, &mut buffer).unwrap();
    for place in 0..64 {
        stream
            .consume_tp(&segment(32 * place, true, &[0; 16]))
            .unwrap();
    }
    assert_eq!(stream.stream().ranges().count(), MAX_TP_RANGES);
    let kept = *stream.stream();
    assert_eq!(
        stream.consume_tp(&segment(2048, true, &[0; 16])),
        Err(Refusal::RangesFull)
    );
    assert_eq!(*stream.stream(), kept);
    stream.consume_tp(&segment(16, true, &[0; 16])).unwrap();
    assert_eq!(stream.stream().ranges().count(), 63);
    stream.consume_tp(&segment(2048, true, &[0; 16])).unwrap();
    assert_eq!(stream.stream().ranges().count(), 64);
}

/// Every second segment, and then the others: as many ranges as there are pairs.
#[test]
fn a_report_in_odd_even_order() {
    let report: Vec<u8> = (0..65_520).map(|at| (at / 7) as u8).collect();
    let pieces: Vec<(usize, &[u8])> = (0..).step_by(512).zip(report.chunks(512)).collect();
    assert_eq!(pieces.len(), 2 * MAX_TP_RANGES);
    let mut buffer = vec![0; 16 + report.len()];
    let mut stream = TpBuf::new(report.len() as u32, &mut buffer).unwrap();
    for first in [1, 0] {
        for (at, bytes) in pieces.iter().skip(first).step_by(2) {
            let more = at + bytes.len() < report.len();
            stream
                .consume_tp(&segment(*at as u32, more, bytes))
                .unwrap();
        }
        let held = [1, MAX_TP_RANGES][first];
        assert_eq!(stream.stream().ranges().count(), held);
        assert_eq!(stream.is_complete(), held == 1);
    }
    assert_eq!(stream.take().unwrap().payload(), report);
}

/// The ranges stand in the report's order in the words, and words in another order get the same answers.
#[test]
fn words_in_order_and_out_of_order() {
    let mut buffer = [0; 16 + 160];
    let mut stream = TpStream::new(160).unwrap();
    for at in [96, 0, 48] {
        stream
            .consume_tp(&segment(at, true, &[at as u8; 16]), &mut buffer)
            .unwrap();
    }
    let words = *stream.words();
    assert_eq!([5, 8, 11].map(|at| words[at]), [0, 48, 96]);
    let mut turned = words;
    for (to, from) in [(5, 11), (11, 5)] {
        turned[to..to + 3].copy_from_slice(&words[from..from + 3]);
    }
    let (mut other, mut bytes) = (TpStream::from_words(turned), buffer);
    assert_eq!(held(&other), held(&stream));
    for comes in [
        segment(160, true, &[1; 16]),
        segment(48, false, &[2; 16]),
        segment(16, true, &[3; 32]),
        segment(128, false, &[4; 32]),
        segment(64, true, &[5; 64]),
    ] {
        let answer = stream.consume_tp(&comes, &mut buffer);
        assert_eq!(other.consume_tp(&comes, &mut bytes), answer);
        assert_eq!((held(&other), bytes), (held(&stream), buffer));
        assert_eq!(other.is_complete(), stream.is_complete());
    }
    assert!(stream.is_complete());
    assert_eq!(other.take(&mut bytes), stream.take(&mut buffer));
}

#[test]
fn a_refusal_changes_nothing() {
    let mut buffer = [0xee; 48];
    let mut stream = TpStream::new(64).unwrap();
    stream
        .consume_tp(&segment(16, false, &[1; 16]), &mut buffer)
        .unwrap();
    let (words, bytes) = (*stream.words(), buffer);
    for bad in [
        hex("00"),
        segment(64, false, &[2; 16]),
        segment(0, true, &[2; 17]),
        segment(0, false, &[2; 16]),
        segment(32, true, &[2; 16]),
    ] {
        assert!(stream.consume_tp(&bad, &mut buffer).is_err());
        assert_eq!((*stream.words(), buffer), (words, bytes));
    }
    let too_short = stream.consume_tp(&segment(0, true, &[2; 16]), &mut buffer[..31]);
    assert_eq!(too_short, Err(Refusal::BufferTooShort(32)));
    assert_eq!((*stream.words(), buffer), (words, bytes));
}

#[test]
fn a_stream_kept_apart_from_its_buffer() {
    let mut buffer = vec![0; 16 + 64];
    let mut stream = TpStream::new(64).unwrap();
    stream
        .consume_tp(&segment(0, true, &[1; 16]), &mut buffer)
        .unwrap();
    let mut whole = TpBuf::resume(TpStream::from_words(*stream.words()), &mut buffer);
    whole.consume_tp(&segment(16, false, &[2; 8])).unwrap();
    let stream = *whole.stream();
    assert!(stream.is_complete());
    // Another buffer may be too short for the report.
    assert_eq!(stream.take(&mut [0; 39]), Err(Refusal::BufferTooShort(40)));
    assert_eq!(stream.take(&mut buffer).unwrap().payload().len(), 24);
}

/// Each accepted segment has the next number, and a range has that of the latest in it, whatever order they come in.
#[test]
fn numbers_of_arrival() {
    let mut buffer = [0; 16 + 128];
    let mut stream = TpBuf::new(128, &mut buffer).unwrap();
    let mut comes = |offset, length: usize, due: &[(u32, u32, u32)]| {
        let came = stream.consume_tp(&segment(offset, true, &vec![1; length]));
        assert_eq!(held(stream.stream()), due);
        (came.is_ok(), stream.stream().count().unwrap())
    };
    assert_eq!(comes(64, 16, &[(64, 80, 1)]), (true, 1));
    assert_eq!(comes(0, 16, &[(0, 16, 2), (64, 80, 1)]), (true, 2));
    // One that was there already, one of no byte, and a refused one.
    assert_eq!(comes(64, 16, &[(0, 16, 2), (64, 80, 3)]), (true, 3));
    assert_eq!(comes(16, 0, &[(0, 16, 4), (64, 80, 3)]), (true, 4));
    assert_eq!(comes(16, 15, &[(0, 16, 4), (64, 80, 3)]), (false, 4));
    // Joined to one, and then to two at once.
    assert_eq!(comes(16, 16, &[(0, 32, 5), (64, 80, 3)]), (true, 5));
    assert_eq!(comes(32, 32, &[(0, 80, 6)]), (true, 6));
    stream.consume_tp(&segment(80, false, &[2; 4])).unwrap();
    assert!(stream.try_finalize().is_some(), "taking changes neither");
    assert_eq!(
        (stream.stream().count(), held(stream.stream())),
        (Ok(7), vec![(0, 84, 7)])
    );
    let shown = "TpStream { limit: 128, end: Some(84), count: 7, ranges: [0..84 #7] }";
    assert_eq!(format!("{:?}", stream.stream()), shown);
    stream.clear();
    stream.consume_tp(&segment(32, true, &[1; 16])).unwrap();
    assert_eq!(
        (stream.stream().count(), held(stream.stream())),
        (Ok(1), vec![(32, 48, 1)])
    );
}

/// Asked by where they begin: at a place, behind it, and where there is none.
#[test]
fn a_range_by_where_it_begins() {
    let mut buffer = [0; 16 + 128];
    let mut stream = TpStream::new(128).unwrap();
    assert_eq!(stream.range_from(0), Err(Refusal::NothingThere));
    for offset in [64, 0] {
        stream
            .consume_tp(&segment(offset, true, &[1; 16]), &mut buffer)
            .unwrap();
    }
    let begins = |from| stream.range_from(from).map(|range| range.start);
    assert_eq!([begins(0), begins(1), begins(64)], [Ok(0), Ok(64), Ok(64)]);
    assert_eq!(begins(65), Err(Refusal::NothingThere));
    assert_eq!(begins(u32::MAX), Err(Refusal::NothingThere));
}

/// The last number is given; then 39, until the stream is cleared, and 35 comes before it.
#[test]
fn no_number_is_left() {
    let mut buffer = [0; 16 + 128];
    let mut words = *TpStream::new(128).unwrap().words();
    words[4] = MAX_TP_NUMBER - 1;
    let mut stream = TpStream::from_words(words);
    let next = segment(16, true, &[1; 16]);
    stream.consume_tp(&next, &mut buffer).unwrap();
    assert_eq!(held(&stream), [(16, 32, MAX_TP_NUMBER)]);
    let kept = *stream.words();
    for bytes in [next.clone(), segment(64, false, &[1; 16])] {
        assert_eq!(
            stream.consume_tp(&bytes, &mut buffer),
            Err(Refusal::CountFull)
        );
        assert_eq!(*stream.words(), kept);
    }
    stream.clear();
    stream.consume_tp(&next, &mut buffer).unwrap();
    assert_eq!(held(&stream), [(16, 32, 1)]);

    let mut buffer = vec![0; 16 + 4096];
    let mut full = TpStream::new(4096).unwrap();
    for place in 0..64 {
        full.consume_tp(&segment(32 * place, true, &[0; 16]), &mut buffer)
            .unwrap();
    }
    let mut words = *full.words();
    words[4] = MAX_TP_NUMBER;
    let mut full = TpStream::from_words(words);
    let mut comes = |offset| full.consume_tp(&segment(offset, true, &[0; 16]), &mut buffer);
    assert_eq!(comes(2048), Err(Refusal::RangesFull));
    assert_eq!(comes(16), Err(Refusal::CountFull));
}

#[test]
fn malformed_states_are_refused_everywhere() {
    // Ranges of start, end and number; five segments were accepted.
    let state = |limit, count, has_end, end, ranges: &[[u32; 3]]| {
        let mut words = [0; TP_STREAM_WORDS];
        words[..5].copy_from_slice(&[limit, count, has_end, end, 5]);
        let ranges = ranges.concat();
        words[5..5 + ranges.len()].copy_from_slice(&ranges);
        words
    };
    let good = state(64, 2, 1, 64, &[[0, 16, 1], [32, 48, 5]]);
    let bad = [
        state(65_521, 0, 0, 0, &[]),
        state(64, MAX_TP_RANGES as u32 + 1, 0, 0, &[]),
        state(64, u32::MAX, 0, 0, &[]),
        state(64, 1, 0, 0, &[[32, 16, 1]]),
        state(64, 1, 0, 0, &[[0, 80, 1]]),
        state(64, 1, 1, 31, &[[0, 32, 1]]),
        state(64, 2, 0, 0, &[[0, 16, 1], [16, 32, 2]]),
        state(64, 1, 0, 0, &[[0, 16, 0]]),
        state(64, 1, 0, 0, &[[0, 16, 6]]),
        state(64, 1, 1, 65, &[[0, 64, 1]]),
        state(64, 1, 2, 64, &[[0, 64, 1]]),
        [u32::MAX; TP_STREAM_WORDS],
    ];
    let mut buffer = [0; 80];
    let next = segment(16, true, &[1; 16]);
    assert!(TpStream::from_words(good)
        .consume_tp(&next, &mut buffer)
        .is_ok());
    buffer.fill(0xee);
    for words in bad {
        let mut stream = TpStream::from_words(words);
        assert_eq!(
            stream.consume_tp(&next, &mut buffer),
            Err(Refusal::MalformedState)
        );
        assert_eq!(
            stream.consume_tp(&[], &mut buffer),
            Err(Refusal::MalformedState)
        );
        assert_eq!(stream.take(&mut buffer), Err(Refusal::MalformedState));
        assert!(!stream.is_complete());
        assert_eq!(stream.count(), Err(Refusal::MalformedState));
        assert_eq!(stream.range_from(0), Err(Refusal::MalformedState));
        assert_eq!(stream.ranges().count(), 0);
        let shown = format!("{stream:?}");
        assert!(shown.contains("no state of a stream"), "{shown}");
        assert_eq!((*stream.words(), buffer), (words, [0xee; 80]));
        // Clearing mends ranges, end and count, leaves the ranges' words, and leaves words alone that hold no stream.
        stream.clear();
        let mut cleared = words;
        if words[2] <= 1 {
            cleared[1..5].fill(0);
        }
        assert_eq!(*stream.words(), cleared);
    }
}

#[test]
fn places_that_hold_no_range_do_not_count() {
    let mut buffer = [0; 80];
    let mut stream = TpStream::new(64).unwrap();
    stream
        .consume_tp(&segment(32, false, &[1; 16]), &mut buffer)
        .unwrap();
    assert_ne!(stream, TpStream::new(64).unwrap());
    stream.clear();
    assert_eq!(stream, TpStream::new(64).unwrap());
    assert_eq!(stream.ranges().count(), 0);
    let hash = |stream: TpStream| {
        use std::hash::{BuildHasher, RandomState};
        static STATE: std::sync::OnceLock<RandomState> = std::sync::OnceLock::new();
        STATE.get_or_init(RandomState::new).hash_one(stream)
    };
    assert_eq!(hash(stream), hash(TpStream::new(64).unwrap()));
}

#[test]
fn limits() {
    assert_eq!(TpStream::new(65_520).unwrap().limit(), 65_520);
    assert_eq!(
        TpStream::new(u32::MAX),
        Err(Refusal::LimitTooLarge(u32::MAX))
    );
    assert!(TpBuf::new(0, &mut []).is_ok());
}
