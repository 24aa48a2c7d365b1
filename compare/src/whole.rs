//! The whole comparison: every kind of input over every thread, in one tally.

use crate::calls::{Calls, Settings, MOST_LIMIT, SLOTS};
use crate::inputs;
use crate::places::Cause;
use crate::plan::{family, Exhaustive, Plan};
use crate::random::Random;
use crate::sd::Sd;
use crate::tally::Tally;
use crate::tp::Tp;
use crate::tp_inputs;

/// Does `count` pieces of work in blocks, on all threads.
fn spread<W>(threads: usize, count: u64, work: W) -> Tally
where
    W: Fn(std::ops::Range<u64>) -> Tally + Sync,
{
    const BLOCK: u64 = 4096;
    let next = std::sync::atomic::AtomicU64::new(0);
    let mut whole = Tally::default();
    std::thread::scope(|scope| {
        let workers: Vec<_> = (0..threads)
            .map(|_| {
                scope.spawn(|| {
                    let mut mine = Tally::default();
                    loop {
                        let from = next.fetch_add(BLOCK, std::sync::atomic::Ordering::Relaxed);
                        if from >= count {
                            return mine;
                        }
                        mine.add(work(from..count.min(from + BLOCK)));
                    }
                })
            })
            .collect();
        for worker in workers {
            whole.add(worker.join().expect("a worker does not panic"));
        }
    });
    whole
}

/// How many slots are lent: mostly 347, at times more, rarely fewer.
fn slots(r: &mut Random) -> usize {
    match r.below(64) {
        0 => r.pick(&[0, 1, 346]),
        1..=8 => SLOTS + r.between(1, 53),
        _ => SLOTS,
    }
}

/// Whether an input of a family is read strictly, one time in two, and what its protocols are then drawn from.
fn strictly(seed: u64, family: u64, number: u64) -> (bool, Random) {
    let mut r = Random::of(seed, family::STRICTLY + family, number);
    (r.once_in(2), r)
}

/// A seeded payload, or a message with SD header one time in four.
pub fn one_payload<P: Calls>(sd: &mut Sd<P>, seed: u64, number: u64, out: &mut Vec<u8>) {
    let mut r = Random::of(seed, family::PAYLOAD, number);
    let (discard, slots) = (r.once_in(2), slots(&mut r));
    let (strict, mut protocols) = strictly(seed, family::PAYLOAD, number);
    let settings = Settings { strict, discard };
    let is_message = r.once_in(4);
    if is_message {
        inputs::message(&mut r, out);
    } else {
        inputs::payload(&mut r, out);
    }
    if strict {
        let payload = if is_message { 16 } else { 0 };
        inputs::vary_protocols_of_payload(&mut protocols, &mut out[payload..]);
    }
    if is_message {
        sd.message(out, settings, slots);
    } else {
        sd.payload(out, settings, slots);
    }
}

/// An options part for the index alone, with two runs of any kind.
fn one_index<P: Calls>(sd: &mut Sd<P>, seed: u64, number: u64, out: &mut Vec<u8>) {
    let mut r = Random::of(seed, family::INDEX, number);
    let (strict, mut protocols) = strictly(seed, family::INDEX, number);
    inputs::options(&mut r, out);
    if strict {
        inputs::vary_protocols(&mut protocols, out);
    }
    let runs = [
        (r.below(12) as u8, r.byte() & 0x0f),
        (r.byte(), r.byte() & 0x0f),
    ];
    let settings = Settings {
        strict,
        discard: protocols.once_in(2),
    };
    sd.index(out, settings, slots(&mut r), runs);
}

/// An entry, an option and a string alone. The option is read both ways, every second time with a protocol that was drawn for the strict one.
fn one_alone<P: Calls>(sd: &mut Sd<P>, seed: u64, number: u64, out: &mut Vec<u8>) {
    let mut r = Random::of(seed, family::ALONE, number);
    let (drawn, mut protocols) = strictly(seed, family::ALONE, number);
    inputs::entry(&mut r, out);
    sd.entry(out);
    inputs::option(&mut r, out);
    if drawn {
        inputs::vary_protocols(&mut protocols, out);
    }
    sd.option(out);
    inputs::string(&mut r, out);
    sd.string(out);
}

/// A string with long items alone.
fn one_long_string<P: Calls>(sd: &mut Sd<P>, seed: u64, number: u64, out: &mut Vec<u8>) {
    let mut r = Random::of(seed, family::LONG_STRING, number);
    inputs::long_string(&mut r, out);
    sd.string(out);
}

/// Options of which one is refused under any settings, for each cause in turn. In a strict reading that one is the first, unless it is for 10, which
/// comes after any protocol; behind it protocols are wrong every second time.
fn one_refused<P: Calls>(sd: &mut Sd<P>, seed: u64, number: u64, out: &mut Vec<u8>) {
    let mut r = Random::of(seed, family::REFUSED_OPTION, number);
    let (strict, mut protocols) = strictly(seed, family::REFUSED_OPTION, number);
    let cause = Cause::PLAIN[number as usize % Cause::PLAIN.len()];
    let discard = cause != Cause::Unknown && r.once_in(2);
    let mut options = Vec::new();
    let start = inputs::refused_option(&mut r, cause, &mut options);
    if strict {
        inputs::protocols_around(&mut protocols, &mut options, start);
    }
    let settings = Settings { strict, discard };
    refused_list(sd, &mut r, &options, start, settings, out);
}

/// Options of which a strict reading refuses one for its protocol, for each kind and cause in turn; one time in four they are not read strictly.
fn one_wrong_protocol<P: Calls>(sd: &mut Sd<P>, seed: u64, number: u64, out: &mut Vec<u8>) {
    let mut r = Random::of(seed, family::WRONG_PROTOCOL, number);
    let cause = Cause::STRICT[number as usize % Cause::STRICT.len()];
    let settings = Settings {
        strict: !r.once_in(4),
        discard: r.once_in(2),
    };
    let mut options = Vec::new();
    let start = inputs::refused_option(&mut r, cause, &mut options);
    refused_list(sd, &mut r, &options, start, settings, out);
}

/// Options of which the one at `start` is refused: that one alone, all as an options part, as a payload, and behind a header.
fn refused_list<P: Calls>(
    sd: &mut Sd<P>,
    r: &mut Random,
    options: &[u8],
    start: usize,
    settings: Settings,
    out: &mut Vec<u8>,
) {
    sd.option(&options[start..]);
    sd.index(options, settings, slots(r), [(0, 0); 2]);
    inputs::payload_of(r, options, out);
    sd.payload(out, settings, slots(r));
    inputs::message_of(r, out);
    sd.message(out, settings, slots(r));
}

/// Tables that no index filled.
fn one_foreign<P: Calls>(sd: &mut Sd<P>, seed: u64, number: u64, out: &mut Vec<u8>) {
    let mut r = Random::of(seed, family::FOREIGN, number);
    inputs::options(&mut r, out);
    let size = r.pick(&[0, 1, 3, 8, 346, 347, 348, 400]);
    let reach = out.len() + 3;
    let table: Vec<u16> = (0..size)
        .map(|_| {
            if r.once_in(20) {
                r.next() as u16
            } else {
                r.below(reach) as u16
            }
        })
        .collect();
    for _ in 0..4 {
        let ordinal = match r.below(4) {
            0 => r.pick(&[345, 346, 347, 348, 399, 400]),
            _ => r.below(size + 2),
        };
        let count = match r.below(4) {
            0 => ordinal,
            1 => 1000,
            _ => ordinal + 1,
        };
        sd.foreign_table(out, &table, count, ordinal);
    }
    let short = out.len().min(15);
    sd.short_message(&out[..short]);
}

/// What sequences are counted as.
const SEQUENCES: &str = "sequences of segments";
const ODD_EVEN: &str = "reports in odd-even order";
const TWO_ORDERS: &str = "reports in one of two orders";

/// A seeded sequence inside the comparison domain.
pub fn one_sequence<P: Calls>(tp: &mut Tp<P>, seed: u64, number: u64) {
    let mut r = Random::of(seed, family::SEQUENCE, number);
    tp.sequence(SEQUENCES, &tp_inputs::sequence(&mut r));
}

/// A report in odd-even order: every number of segments in turn, the most first, and every second time one of the five highest; one in eight is up to
/// 64 KB long.
fn one_odd_even<P: Calls>(tp: &mut Tp<P>, seed: u64, number: u64) {
    let mut r = Random::of(seed, family::ODD_EVEN, number);
    let most = tp_inputs::MOST_ODD_EVEN;
    let turn = number as usize / 2;
    let segments = match number % 2 {
        0 => most - turn % 5,
        _ => most - turn % most,
    };
    let sixteens = if r.once_in(8) {
        r.between(1, (MOST_LIMIT as usize / segments / 16).min(87))
    } else {
        r.between(1, 3)
    };
    let sequence = tp_inputs::odd_even(&mut r, segments, 16 * sixteens);
    tp.sequence(ODD_EVEN, &sequence);
}

/// The segments of a report in two orders.
fn one_in_two_orders<P: Calls>(tp: &mut Tp<P>, seed: u64, number: u64) {
    let mut r = Random::of(seed, family::TWO_ORDERS, number);
    tp.two_orders(TWO_ORDERS, &tp_inputs::two_orders(&mut r));
}

/// A sequence outside it, where the rules alone say what is due.
fn one_short<P: Calls>(tp: &mut Tp<P>, seed: u64, number: u64) {
    let mut r = Random::of(seed, family::SHORT, number);
    let sequence = tp_inputs::sequence(&mut r);
    if sequence.limit > 4096 {
        return;
    }
    let short = r.below(sequence.limit as usize + 17);
    let limit = r.pick(&[0, 16, 65_519, 65_520, 65_521, 65_536, u32::MAX]);
    tp.by_document(&sequence, short, limit);
}

fn with_sd<P: Calls>(
    port: &P,
    plan: &Plan,
    count: u64,
    one: fn(&mut Sd<P>, u64, u64, &mut Vec<u8>),
) -> Tally {
    spread(plan.threads, count, |block| {
        let (mut sd, mut out) = (Sd::new(port), Vec::new());
        for number in block {
            one(&mut sd, plan.seed, number, &mut out);
        }
        sd.tally
    })
}

fn with_tp<P: Calls>(port: &P, plan: &Plan, count: u64, one: fn(&mut Tp<P>, u64, u64)) -> Tally {
    spread(plan.threads, count, |block| {
        let mut tp = Tp::new(port);
        for number in block {
            one(&mut tp, plan.seed, number);
        }
        tp.tally
    })
}

/// Every string of up to two bytes, every string of up to five telling bytes, and at length all of three bytes.
fn all_strings<P: Calls>(port: &P, plan: &Plan) -> Tally {
    let bytes: Vec<u8> = (0..=255).collect();
    let mut lists = vec![(&bytes[..], 0..=2)];
    lists.push((
        &inputs::TELLING,
        3..=if plan.exhaustive == Exhaustive::Long {
            6
        } else {
            5
        },
    ));
    if plan.exhaustive == Exhaustive::Long {
        lists.push((&bytes[..], 3..=3));
    }
    let mut whole = Tally::default();
    for (alphabet, lengths) in lists {
        for length in lengths {
            let count = (alphabet.len() as u64).pow(length as u32);
            whole.add(spread(plan.threads, count, |block| {
                let (mut sd, mut out) = (Sd::new(port), Vec::new());
                for number in block {
                    inputs::nth_string(alphabet, length, number as usize, &mut out);
                    sd.string(&out);
                }
                sd.tally
            }));
        }
    }
    whole
}

/// All short sequences over a small set of segments, and every order of the cut messages.
fn all_sequences<P: Calls>(port: &P, plan: &Plan) -> Tally {
    let mut whole = Tally::default();
    for length in 0..=if plan.exhaustive == Exhaustive::Long {
        4
    } else {
        3
    } {
        let count = (tp_inputs::LETTERS as u64).pow(length as u32);
        whole.add(spread(plan.threads, count, |block| {
            let mut tp = Tp::new(port);
            for number in block {
                tp.sequence(SEQUENCES, &tp_inputs::nth_sequence(length, number as usize));
            }
            tp.tally
        }));
    }
    let orders = tp_inputs::orders(6);
    let count = orders.len() * tp_inputs::ORDERED.len();
    whole.add(spread(plan.threads, count as u64, |block| {
        let mut tp = Tp::new(port);
        for number in block {
            let number = number as usize;
            let pieces = tp_inputs::ORDERED[number / orders.len()];
            let order = &orders[number % orders.len()];
            tp.sequence(SEQUENCES, &tp_inputs::ordered_sequence(pieces, order));
        }
        tp.tally
    }));
    whole
}

/// Every short option and every short entry.
fn all_short<P: Calls>(port: &P, plan: &Plan) -> Tally {
    let (options, entries) = (inputs::SHORT_OPTIONS, inputs::SHORT_ENTRIES);
    let mut whole = with_sd(port, plan, options as u64, |sd, _, number, out| {
        inputs::nth_option(number as usize, out);
        sd.option(out);
    });
    whole.add(with_sd(port, plan, entries as u64, |sd, _, number, out| {
        inputs::nth_entry(number as usize, out);
        sd.entry(out);
    }));
    whole
}

/// Every kind with an address with every protocol, in front and behind another option: alone with the strict setting off and on; as an options part,
/// in a payload and behind a header under all settings.
fn all_protocols<P: Calls>(port: &P, plan: &Plan) -> Tally {
    let count = inputs::ADDRESSED_OPTIONS as u64;
    with_sd(port, plan, count, |sd, seed, number, out| {
        let mut option = Vec::new();
        inputs::nth_addressed(number as usize, &mut option);
        sd.option(&option);
        for front in [&[][..], &[0, 1, 0x77, 0x80]] {
            let options = [front, &option].concat();
            let count = 1 + (front.len() / 4) as u8;
            for settings in Settings::ALL {
                sd.index(&options, settings, SLOTS, [(0, count), (1, 1)]);
                inputs::offered(&options, count, out);
                sd.payload(out, settings, SLOTS);
                let mut r = Random::of(seed, family::WRONG_PROTOCOL, number);
                inputs::message_of(&mut r, out);
                sd.message(out, settings, SLOTS);
            }
        }
    })
}

/// The service discovery side.
pub fn service_discovery<P: Calls>(port: &P, plan: &Plan) -> Tally {
    let mut whole = with_sd(port, plan, plan.payloads, one_payload);
    whole.add(with_sd(port, plan, plan.payloads / 10, one_index));
    whole.add(with_sd(port, plan, plan.payloads / 10, one_alone));
    whole.add(with_sd(port, plan, plan.payloads / 10, one_long_string));
    whole.add(with_sd(port, plan, plan.payloads / 20, one_refused));
    whole.add(with_sd(port, plan, plan.payloads / 20, one_wrong_protocol));
    whole.add(with_sd(port, plan, plan.payloads / 50, one_foreign));
    if plan.exhaustive > Exhaustive::None {
        whole.add(all_strings(port, plan));
        whole.add(all_short(port, plan));
        whole.add(all_protocols(port, plan));
    }
    whole
}

/// The side of the streams.
pub fn streams<P: Calls>(port: &P, plan: &Plan) -> Tally {
    let mut whole = with_tp(port, plan, plan.sequences, one_sequence);
    whole.add(with_tp(port, plan, plan.sequences / 100, one_odd_even));
    whole.add(with_tp(port, plan, plan.sequences / 20, one_in_two_orders));
    whole.add(with_tp(port, plan, plan.sequences / 20, one_short));
    if plan.exhaustive > Exhaustive::None {
        whole.add(all_sequences(port, plan));
    }
    whole
}

#[cfg(test)]
mod tests {
    use super::*;
    use crate::standin::StandIn;

    const SMALL: Plan = Plan {
        seed: 1,
        payloads: 50_000,
        sequences: 10_000,
        exhaustive: Exhaustive::Short,
        threads: 2,
    };

    #[test]
    fn the_stand_in_agrees() {
        for tally in [
            service_discovery(&StandIn, &SMALL),
            streams(&StandIn, &SMALL),
        ] {
            assert_eq!(tally.differences, 0, "{}", tally.first.join("\n"));
            assert!(tally.compared.total() > 100_000);
        }
    }

    /// Every refusal that the crate can give comes up in a run of this size, and every one that only the rules have.
    #[test]
    fn every_number_comes_up() {
        let mut tally = service_discovery(&StandIn, &SMALL);
        tally.add(streams(&StandIn, &SMALL));
        for number in (0..=8)
            .chain(10..=20)
            .chain([31, 32, 33, 37])
            .chain(91..=96)
        {
            assert!(tally.answers.contains_key(&number), "{number}");
        }
        for number in [21, 22, 23, 30, 34, 35, 36, 38, 39] {
            assert!(tally.by_document.contains_key(&number), "{number}");
        }
        for (kind, often) in [(SEQUENCES, 20), (ODD_EVEN, 1)] {
            assert!(tally.held[kind][3] >= often, "{kind}: {:?}", tally.held);
        }
        for cause in Cause::PLAIN.into_iter().chain(Cause::STRICT) {
            let counts = tally.faults.0[&cause];
            assert!(
                counts.iter().all(|count| *count >= 300),
                "{cause}: {counts:?}"
            );
        }
        // In front of every answer that comes after all or later options.
        for number in [0, 7, 8, 9, 10, 11, 12] {
            assert!(tally.before[&number] >= 100, "{number}");
        }
        // 23 under the strict setting alone, and beside it as often acceptance and other refusals.
        for ((what, settings), counts) in tally.by_settings {
            let [accepted, strictly, otherwise] = counts;
            assert_eq!(strictly > 0, settings.strict, "{what}, {settings}");
            for count in [accepted, strictly, otherwise] {
                assert!(count == 0 || count >= 500, "{what}, {settings}: {counts:?}");
            }
        }
    }
}
