//! The peer's comparison gives what the second checker's gives, which goes by a map of ranks.

use compare::generate::{bytes::bytes_of, certificate, damaged, Size};
use compare::numbers::Numbers;
use compare::pairs::Pair;
use compare::peer::compare;
use compare::{fast, samples};
use second::certificate::{Certificate, Kind};
use second::comparing::{compare_tables, Table};
use second::reading::read;
use second::{Comparison, Report};

/// The certificates of a pair, or the refusals of those that are not accepted.
type Tables = [Result<Table, Report>; 2];

/// Both ways round, and each with itself.
fn agree(bytes: [&[u8]; 2]) -> (Tables, Comparison) {
    let tables = bytes.map(Table::of);
    let both = |one: usize, other: usize| {
        let due = compare_tables(&tables[one], &tables[other]);
        assert_eq!(compare(bytes[one], bytes[other]), due);
        due
    };
    both(0, 0);
    both(1, 1);
    both(1, 0);
    let due = both(0, 1);
    (tables, due)
}

fn agreed(first: &[u8], second: &[u8]) -> Comparison {
    agree([first, second]).1
}

/// L with other ranks, one an entry; entries without rank are left out.
fn listed(ranks: &[u16]) -> Certificate {
    let mut certificate = read(&samples::listed()).expect("L");
    certificate.entries.truncate(ranks.len());
    for (entry, &rank) in certificate.entries.iter_mut().zip(ranks) {
        entry.rank = rank;
    }
    certificate
}

#[test]
fn worked_by_hand() {
    let cases: [(&[u16], &[u16], Comparison); 9] = [
        (&[0, 1, 2], &[0, 1, 2], Comparison::Equal),
        (&[0, 1, 2], &[0, 1, 3], Comparison::First),
        (&[0, 2, 9], &[0, 1, 9], Comparison::Second),
        (&[0, 1, 9], &[0, 2, 8], Comparison::Neither),
        (&[0, 1, 256], &[0, 1, 255], Comparison::Second),
        (&[0, 1, 9], &[0, 1], Comparison::First),
        (&[0, 3], &[0, 2, 3], Comparison::Second),
        (&[0, 1], &[0, 2, 3], Comparison::Neither),
        (&[0], &[0], Comparison::Equal),
    ];
    for (first, second, due) in cases {
        let [first, second] = [first, second].map(|ranks| bytes_of(&listed(ranks)));
        assert_eq!(agreed(&first, &second), due);
    }
}

/// Tables are not compared where anything before them differs.
#[test]
fn other_fronts() {
    let own = listed(&[0, 1, 2]);
    let mut narrower = own.clone();
    narrower.arrivals[0][0].high = 1;
    let mut longer = own.clone();
    longer.signals.push(0);
    // Of an HD certificate the first record alone tells the modes.
    let mut more = own.clone();
    more.modes = 2;
    for other in [narrower, longer, more] {
        let bytes = [&own, &other].map(bytes_of);
        assert_eq!(agreed(&bytes[0], &bytes[1]), Comparison::Neither);
    }
}

#[test]
fn the_first_refusal() {
    let good = bytes_of(&listed(&[0, 1, 2]));
    let [goal, rank] = [&[1, 1, 2], &[0, 2, 2]].map(|ranks| bytes_of(&listed(ranks)));
    let refused = |first: &[u8], second: &[u8]| match agreed(first, second) {
        Comparison::Refused(report) => report.number,
        better => panic!("{better:?}"),
    };
    assert_eq!(refused(&good, &goal), 13);
    assert_eq!(refused(&goal, &good), 13);
    assert_eq!(refused(&goal, &rank), 13);
    assert_eq!(refused(&rank, &goal), 15);
    assert_eq!(refused(&good, &[]), 1);
    assert_eq!(refused(&[], &rank), 1);
}

/// Tries some changes; each stays if the certificate is accepted with it.
fn change(certificate: &mut Certificate, numbers: &mut Numbers) {
    for _ in 0..numbers.pick(&[0, 1, 2, 8]) {
        let mut copy = certificate.clone();
        let place = numbers.below(copy.entries.len());
        let entry = &mut copy.entries[place];
        match numbers.below(4) {
            0 => entry.rank = entry.rank.saturating_add(1),
            1 => entry.rank = entry.rank.saturating_sub(1),
            2 => {
                entry.signal = numbers.below(copy.signals.len()) as u8;
                entry.next = numbers.below(usize::from(copy.modes)) as u8;
            }
            _ => drop(copy.entries.remove(place)),
        }
        if fast::judge(&bytes_of(&copy)).is_accepted() {
            *certificate = copy;
        }
    }
}

/// Changes a byte before the entries if the certificate is accepted with it.
fn change_front(bytes: &mut Vec<u8>, entries: usize, numbers: &mut Numbers) {
    let front = bytes.len() - 2 - 9 * entries;
    for _ in 0..20 {
        let mut copy = bytes.clone();
        let place = numbers.below(front);
        copy[place] = numbers.pick(&[bytes[place] ^ 1, bytes[place].wrapping_sub(1)]);
        if fast::judge(&copy).is_accepted() {
            return *bytes = copy;
        }
    }
}

/// Two certificates of one network, or nearly one; now and then damaged, or of two networks.
fn drawn(kind: Kind, numbers: &mut Numbers) -> [Vec<u8>; 2] {
    let pair = Pair::draw(kind, numbers);
    let mut both = pair.bytes.map(|bytes| read(&bytes).expect("accepted"));
    if numbers.chance(50) {
        both[1] = pair.certificate;
    }
    both.iter_mut().for_each(|paper| change(paper, numbers));
    let mut bytes = both.each_ref().map(bytes_of);
    let place = numbers.below(2);
    match numbers.below(20) {
        0 | 1 => change_front(&mut bytes[place], both[place].entries.len(), numbers),
        2 | 3 => bytes[place] = damaged(&both[place], numbers),
        4 | 5 => bytes = both.each_ref().map(|paper| damaged(paper, numbers)),
        6 => bytes[place] = bytes_of(&certificate(numbers, Size::Small, kind)),
        _ => (),
    }
    bytes
}

/// How often each answer came, and for what.
#[derive(Debug, Default)]
struct Tally {
    /// In the order of `Comparison::WORDS`.
    answers: [u64; 5],
    /// Refusals of the second certificate, and of the first where the second would get another one.
    second: u64,
    both: u64,
    /// Of neither: tables of which one covers the other. Of first and second: those that list the same pairs.
    fronts: u64,
    ranks: u64,
    /// Accepted ones of which each lists a pair that the other does not.
    crossed: u64,
}

fn lists(table: &Table, other: &Table) -> bool {
    let mut pairs = other.ranks.keys();
    pairs.all(|pair| table.ranks.contains_key(pair))
}

impl Tally {
    fn add(&mut self, tables: Tables, answer: Comparison) {
        let mut words = self.answers.iter_mut().zip(Comparison::WORDS);
        let (count, _) = words
            .find(|(_, word)| *word == answer.word())
            .expect("a word");
        *count += 1;
        match tables {
            [Ok(_), Err(_)] => self.second += 1,
            [Err(first), Err(second)] => self.both += u64::from(first != second),
            [Err(_), Ok(_)] => (),
            [Ok(first), Ok(second)] => self.add_accepted(first, second),
        }
    }

    fn add_accepted(&mut self, first: Table, mut second: Table) {
        let lists = [lists(&first, &second), lists(&second, &first)];
        self.crossed += u64::from(lists == [false, false]);
        let is_one = first.front == second.front;
        second.front.clone_from(&first.front);
        let covers = [first.covers(&second), second.covers(&first)];
        self.fronts += u64::from(!is_one && covers != [false, false]);
        self.ranks += u64::from(is_one && lists == [true, true] && covers[0] != covers[1]);
    }
}

#[test]
fn on_generated_pairs() {
    for kind in Kind::ALL {
        let mut tally = Tally::default();
        for part in 0..400 {
            let [first, second] = drawn(kind, &mut Numbers::of(8, part));
            let (tables, answer) = agree([&first, &second]);
            tally.add(tables, answer);
        }
        println!("{} {tally:?}", kind.name());
        assert!(tally.answers.iter().all(|&count| count > 25), "{tally:?}");
        let told = [tally.second, tally.both, tally.fronts, tally.ranks];
        assert!(told.iter().all(|&count| count > 8), "{tally:?}");
        assert!(tally.crossed > 8, "{tally:?}");
    }
}

/// Each covers itself alone: the fronts differ.
#[test]
fn on_samples() {
    let samples = [
        samples::listed(),
        samples::typical(),
        samples::largest(),
        samples::h2::typical(),
        samples::h3::typical(),
    ];
    for one in &samples {
        for other in &samples {
            let due = match one == other {
                true => Comparison::Equal,
                false => Comparison::Neither,
            };
            assert_eq!(compare(one, other), due);
        }
    }
}
