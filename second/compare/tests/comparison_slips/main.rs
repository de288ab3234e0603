//! Drawn pairs tell likely slips of a comparison: each would answer some pair otherwise than the second checker.

mod rule;

use compare::comparisons::Pair;
use compare::generate::{bytes::bytes_of, to_hd};
use compare::numbers::Numbers;
use rule::{every, find, Held, Holds, Rule, Side, RIGHT};
use second::certificate::{Entry, Kind};
use second::{compare, Comparison, Report};

/// Pairs that are drawn, and by how many at least a slip must be told.
const PAIRS: u64 = 1_200;
const TOLD: usize = 5;

const fn front(front: fn(Held) -> Vec<u8>) -> Rule {
    Rule { front, ..RIGHT }
}

/// Slips before the first EN.
const FRONTS: [(&str, Rule); 14] = [
    ("entry count compared", front(|held| held.without(0..0))),
    (
        "high byte of the count alone left aside",
        front(|held| held.without(7..8)),
    ),
    (
        "low byte of the count alone left aside",
        front(|held| held.without(8..9)),
    ),
    ("no count compared", front(|held| held.without(2..9))),
    (
        "first record alone compared",
        front(|held| held.without(7..held.bytes.len())),
    ),
    (
        "LK not compared",
        front(|held| held.without_records(held.links())),
    ),
    (
        "TN not compared",
        front(|held| held.without_records(held.turns())),
    ),
    (
        "SG not compared",
        front(|held| held.without_records(held.signals())),
    ),
    (
        "MD not compared",
        front(|held| held.without_records(held.modes())),
    ),
    (
        "GR not compared",
        front(|held| held.without_records(held.grid())),
    ),
    (
        "AR not compared",
        front(|held| held.without_records(held.arrivals())),
    ),
    (
        "last byte not compared",
        front(|held| {
            let end = held.arrivals().end;
            held.without_records(end - 1..end)
        }),
    ),
    (
        "up to the first bytes EN",
        front(|held| {
            let found = held.bytes.windows(2).position(|two| two == b"EN");
            held.without_records(found.unwrap_or(0)..held.bytes.len())
        }),
    ),
    (
        "what an HD certificate has",
        front(|held| {
            let mut copy = held.certificate.clone();
            to_hd(&mut copy);
            let bytes = bytes_of(&copy);
            (RIGHT.front)(Held {
                certificate: &copy,
                bytes: &bytes,
            })
        }),
    ),
];

/// Where marks differ so do other bytes: an LK of an HD certificate has no start flow, and where it would stand in the
/// bytes there is a mark, which is above every flow; an MD of an H2 certificate has no goal number, and there is a mark,
/// whose first byte is above 7. No pair of accepted certificates tells this slip.
const MARK: (&str, Rule) = (
    "mark not compared",
    front(|held| (RIGHT.front)(held)[2..].to_vec()),
);

const fn ranks(holds: Holds) -> Rule {
    Rule { holds, ..RIGHT }
}

/// Slips in ranks.
const RANKS: [(&str, Rule); 9] = [
    (
        "ranks the wrong way round",
        ranks(|own, other| own.rank >= other.rank),
    ),
    ("< for <=", ranks(|own, other| own.rank < other.rank)),
    (
        "< for <= above 0",
        ranks(|own, other| own.rank == 0 || own.rank < other.rank),
    ),
    ("ranks not compared", ranks(|_, _| true)),
    (
        "high bytes of ranks alone",
        ranks(|own, other| own.rank >> 8 <= other.rank >> 8),
    ),
    (
        "low bytes of ranks alone",
        ranks(|own, other| own.rank & 255 <= other.rank & 255),
    ),
    (
        "ranks with a sign",
        ranks(|own, other| own.rank as i16 <= other.rank as i16),
    ),
    (
        "signals compared",
        ranks(|own, other| own.rank <= other.rank && own.signal == other.signal),
    ),
    (
        "next modes compared",
        ranks(|own, other| own.rank <= other.rank && own.next == other.next),
    ),
];

const fn covers(covers: fn(&[Entry], &[Entry], Holds) -> bool) -> Rule {
    Rule { covers, ..RIGHT }
}

/// Slips in pairs.
const PAIRED: [(&str, Rule); 9] = [
    (
        "its own pairs in the other",
        covers(|own, other, _| every(other, own, |other, own| own.rank <= other.rank)),
    ),
    (
        "no more pairs than the other",
        covers(|own, other, holds| own.len() <= other.len() && every(own, other, holds)),
    ),
    (
        "no pairs missing in the other",
        covers(|own, other, holds| every(other, own, |_, _| true) && every(own, other, holds)),
    ),
    (
        "pairs missing in it pass",
        covers(|own, other, holds| {
            let mut other = other.iter();
            other.all(|entry| find(own, entry).is_none_or(|own| holds(own, entry)))
        }),
    ),
    (
        "as many of the other as it has",
        covers(|own, other, holds| every(own, &other[..other.len().min(own.len())], holds)),
    ),
    (
        "as many of its own as the other has",
        covers(|own, other, holds| every(&own[..other.len().min(own.len())], other, holds)),
    ),
    (
        "by position",
        covers(|own, other, holds| {
            let mut both = own.iter().zip(other);
            own.len() >= other.len() && both.all(|(own, other)| holds(own, other))
        }),
    ),
    (
        "by cell alone",
        covers(|own, other, holds| {
            let mut other = other.iter();
            other.all(|entry| {
                let found = own.iter().find(|own| own.cell == entry.cell);
                found.is_some_and(|own| holds(own, entry))
            })
        }),
    ),
    (
        "the greatest ranks alone",
        covers(|own, other, _| {
            let greatest = |entries: &[Entry]| entries.iter().map(|entry| entry.rank).max();
            every(own, other, |_, _| true) && greatest(own) <= greatest(other)
        }),
    ),
];

const fn refusals(refusal: fn([&Side; 2]) -> Option<Report>) -> Rule {
    Rule { refusal, ..RIGHT }
}

const fn words(said: fn(bool, bool) -> Comparison) -> Rule {
    Rule { said, ..RIGHT }
}

/// Slips in refusals, and in what is said.
const ANSWERS: [(&str, Rule); 9] = [
    (
        "the second refused first",
        refusals(|[first, second]| second.refusal.or(first.refusal)),
    ),
    (
        "the second not judged",
        refusals(|[first, second]| {
            let is_read = |refusal: &Report| !(12..=15).contains(&refusal.number);
            first.refusal.or(second.refusal.filter(is_read))
        }),
    ),
    (
        "the first not judged",
        refusals(|[first, second]| {
            let is_read = |refusal: &Report| !(12..=15).contains(&refusal.number);
            first.refusal.filter(is_read).or(second.refusal)
        }),
    ),
    (
        "a refused second is never better",
        refusals(|[first, _]| first.refusal),
    ),
    (
        "refused only if both are",
        refusals(|[first, second]| first.refusal.and(second.refusal)),
    ),
    (
        "the lower number refused",
        refusals(|[first, second]| {
            let both = [first.refusal, second.refusal];
            both.into_iter()
                .flatten()
                .min_by_key(|refusal| refusal.number)
        }),
    ),
    (
        "no count in a refusal",
        refusals(|sides| {
            let refusal = (RIGHT.refusal)(sides);
            refusal.map(|refusal| refusal.counting(0))
        }),
    ),
    (
        "first and second exchanged",
        words(|first, second| (RIGHT.said)(second, first)),
    ),
    (
        "equal as first",
        words(|first, second| (RIGHT.said)(first, second && !first)),
    ),
];

#[test]
fn pairs_tell_slips() {
    let slips: Vec<(&str, Rule)> = [&FRONTS[..], &RANKS, &PAIRED, &ANSWERS].concat();
    let mut told = vec![0; slips.len()];
    for part in 0..PAIRS {
        let mut numbers = Numbers::of(28, part);
        let pair = Pair::draw(Kind::ALL[part as usize % 3], &mut numbers);
        let [one, other] = pair.bytes.each_ref().map(|bytes| Side::of(bytes));
        let right = RIGHT.answer([&one, &other]);
        assert_eq!(right, compare(&one.bytes, &other.bytes));
        assert_eq!(right, MARK.1.answer([&one, &other]), "{}", MARK.0);
        for (told, (_, slip)) in told.iter_mut().zip(&slips) {
            *told += usize::from(slip.answer([&one, &other]) != right);
        }
    }
    for (told, (name, _)) in told.iter().zip(&slips) {
        println!("{name}: told by {told}");
    }
    for (told, (name, _)) in told.iter().zip(&slips) {
        assert!(*told >= TOLD, "{name}: told by {told}");
    }
}
