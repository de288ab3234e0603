//! The two readings of an EN record. Queries and polls go by cell, mode, signal and next mode; the rank is left to the
//! bench, and to 24 where a state is tested for 18.

mod common;

use common::goals::{as_h2, goals, goals_text_with, CORRIDOR};
use common::{bytes, l_with, start, Numbers, L};
use second::reading::{cabinet_entries, read};
use second::state::Answer;
use second::{judge, listing, Cabinet, Report, State};

/// Other ranks for those above 0, by rank and entry: lower ones stay lower. No rank here is above 3.
const RULES: [fn(u16, u16) -> u16; 5] = [
    |rank, _| 256 * rank,
    |rank, _| 65_532 + rank,
    |rank, entry| 9 * rank + entry % 9,
    |rank, entry| 16_000 * rank + entry * 1_111 % 16_000,
    |rank, _| rank * rank + 254,
];

/// HD, HD with a cell that is not listed, H2, and H3 with three and with two modes. Every cap is 10.
fn certificates() -> [Vec<u8>; 5] {
    let third = "entry cell 2 mode 0 signal 0 next 0 rank 2\n";
    let fewer = l_with(third, "");
    [L.to_vec(), fewer, start(), goals(), bytes(CORRIDOR)]
}

fn count(bytes: &[u8]) -> usize {
    u16::from_be_bytes([bytes[7], bytes[8]]).into()
}

/// Where the rank of an entry stands.
fn rank_at(bytes: &[u8], entry: usize) -> usize {
    bytes.len() - 2 - 9 * (count(bytes) - entry) + 7
}

fn rank_of(bytes: &[u8], entry: usize) -> u16 {
    let at = rank_at(bytes, entry);
    u16::from_be_bytes([bytes[at], bytes[at + 1]])
}

fn with_rank(bytes: &[u8], entry: usize, rank: u16) -> Vec<u8> {
    let mut bytes = bytes.to_vec();
    let at = rank_at(&bytes, entry);
    bytes[at..at + 2].copy_from_slice(&rank.to_be_bytes());
    bytes
}

/// The same with other ranks; each is told by the old one and the entry.
fn reranked(bytes: &[u8], rank: impl Fn(u16, u16) -> u16) -> Vec<u8> {
    let mut changed = bytes.to_vec();
    for entry in 0..count(bytes) {
        let new = rank(rank_of(bytes, entry), entry as u16);
        changed = with_rank(&changed, entry, new);
    }
    changed
}

/// The same certificate by every rule.
fn by_rules(bytes: &[u8]) -> Vec<Vec<u8>> {
    let by = |rule: fn(u16, u16) -> u16| {
        reranked(bytes, |rank, entry| match rank {
            0 => 0,
            _ => rule(rank, entry),
        })
    };
    RULES.map(by).to_vec()
}

fn loaded(bytes: &[u8]) -> State {
    let mut state = State::fresh();
    assert!(state.load(bytes).is_accepted());
    state
}

fn by_hand(bytes: &[u8], mode: u8) -> State {
    State::by_hand(bytes, bytes.len(), mode)
}

/// A detector that reads so many halves of a vehicle, one that is beyond cap, or a fault.
fn any_detector(numbers: &mut Numbers) -> Vec<u8> {
    let reading = match numbers.between(0, 19) {
        0 => -1.0,
        1..=3 => return vec![1; 9],
        _ => numbers.between(0, 20) as f64 / 2.0,
    };
    [&[0], &reading.to_be_bytes()[..]].concat()
}

/// What a fixed list of queries and polls gets, and the mode after each of them.
fn answers(state: &mut State, links: usize) -> Vec<(Answer, u8)> {
    let mut numbers = Numbers(7);
    let mut answers = Vec::new();
    for call in 0..600 {
        let links = links + usize::from(call % 50 == 49);
        let answer = match numbers.between(0, 1) {
            0 => {
                let queue = |_| numbers.between(0, 21) as u32;
                let queues: Vec<u32> = (0..links).map(queue).collect();
                state.query(&queues, 2)
            }
            _ => {
                let detector = |_| any_detector(&mut numbers);
                let poll: Vec<Vec<u8>> = (0..2 * links).map(detector).collect();
                state.poll(&poll.concat())
            }
        };
        answers.push((answer, state.mode));
    }
    answers
}

/// The answers of a state that has loaded these bytes, and of states made by hand in modes 0 to 3.
fn all_answers(bytes: &[u8]) -> Vec<Vec<(Answer, u8)>> {
    let links = bytes[2].into();
    let mut all = vec![answers(&mut loaded(bytes), links)];
    all.extend((0..4).map(|mode| answers(&mut by_hand(bytes, mode), links)));
    all
}

#[test]
fn other_ranks_same_answers() {
    let mut numbers = [0; 25];
    let mut modes = [0; 8];
    for certificate in certificates() {
        let due = all_answers(&certificate);
        for other in by_rules(&certificate) {
            assert_ne!(other, certificate);
            assert!(judge(&other).is_accepted());
            assert_eq!(all_answers(&other), due);
        }
        for (answer, mode) in &due[0] {
            numbers[answer.report.number as usize] += 1;
            modes[usize::from(*mode)] += 1;
        }
    }
    let mut due = [0, 16, 19, 20, 21].into_iter();
    assert!(due.all(|number| numbers[number] > 20), "{numbers:?}");
    assert!(modes[..3].iter().all(|&mode| mode > 20), "{modes:?}");
}

/// The cabinet's entries are the bench's without ranks, whatever bytes stand there.
#[test]
fn entries_without_ranks() {
    for certificate in certificates() {
        let bench = read(&certificate).unwrap().entries;
        let names = |entry: usize| {
            let entry = &bench[entry];
            (entry.cell, entry.mode, entry.signal, entry.next)
        };
        let seen = Cabinet::of(&certificate).unwrap();
        assert_eq!(seen.entries.len(), bench.len());
        for (at, entry) in seen.entries.iter().enumerate() {
            let own = (entry.cell, entry.mode, entry.signal, entry.next);
            assert_eq!(own, names(at));
            let found = seen.entry(entry.cell.into(), entry.mode);
            assert_eq!(found, Some(entry));
        }
        for other in by_rules(&certificate) {
            assert_eq!(Cabinet::of(&other).as_ref(), Some(&seen));
        }
    }
    let due = cabinet_entries(&L, 3);
    for rank in 0..=u16::MAX {
        assert_eq!(cabinet_entries(&reranked(&L, |_, _| rank), 3), due);
    }
}

/// Every call finds no certificate, and nothing changes.
fn refused_with_18(bytes: &[u8], links: usize) {
    let refused = Answer {
        report: Report::refusal(18),
        signal: 0,
        green: 0,
    };
    for mode in 0..3 {
        let mut state = by_hand(bytes, mode);
        for answer in answers(&mut state, links) {
            assert_eq!(answer, (refused, mode));
        }
        assert_eq!(state, by_hand(bytes, mode));
        let mut buffer = vec![7; bytes.len()];
        assert_eq!(state.write(&mut buffer, 0), Report::refusal(18));
        assert_eq!(buffer, vec![7; bytes.len()]);
    }
}

/// 24 reads the rank of every entry before any call is answered; the entries that the cabinet sees are as they were.
#[test]
fn ranks_that_fail_24() {
    let certificate = bytes(CORRIDOR);
    let entries = count(&certificate);
    for entry in 0..entries {
        let others = match rank_of(&certificate, entry) {
            0 => &[1, 255, 256, 65_535][..],
            _ => &[0],
        };
        for &rank in others {
            let faulty = with_rank(&certificate, entry, rank);
            let place = rank_at(&faulty, entry) - 7;
            assert_eq!(judge(&faulty).report, Report::at(24, place));
            refused_with_18(&faulty, 2);
            let seen = cabinet_entries(&faulty, entries);
            assert_eq!(seen, cabinet_entries(&certificate, entries));
        }
    }
    // As H2 there is no 24, and the same ranks change nothing.
    let start = bytes(&as_h2(CORRIDOR));
    let due = answers(&mut by_hand(&start, 0), 2);
    for entry in 0..entries {
        let other = with_rank(&start, entry, 1 - rank_of(&start, entry));
        assert_eq!(answers(&mut by_hand(&other, 0), 2), due);
    }
}

/// The H3 certificate with the first goal in every mode: any rank passes 24.
fn one_goal() -> Vec<u8> {
    let mut text = goals_text_with("goal 1 goals 8", "goal 0 goals 5");
    for mode in [1, 2] {
        let line = format!("entry cell 1 mode {mode} signal 0 next 0 rank");
        text = text.replace(&format!("{line} 0"), &format!("{line} 1"));
    }
    bytes(&text)
}

/// Ranks that judging would refuse stand in states made by hand: they are answered, and write.
#[test]
fn ranks_that_fail_13_or_15() {
    let mut numbers = Numbers(3);
    for certificate in [L.to_vec(), start(), one_goal()] {
        let due: Vec<_> = (0..3)
            .map(|mode| answers(&mut by_hand(&certificate, mode), 1))
            .collect();
        let (mut by_13, mut by_15) = (0, 0);
        for _ in 0..40 {
            let keeps_zeros = numbers.between(0, 1) == 0;
            let ranks: Vec<u16> = (0..count(&certificate))
                .map(|_| [0, 1, 1, 2, 3, 65_535][numbers.between(0, 5) as usize])
                .collect();
            let other = reranked(&certificate, |old, entry| {
                let rank = ranks[usize::from(entry)];
                match (keeps_zeros, old) {
                    (true, 0) => 0,
                    (true, _) => rank.max(1),
                    (false, _) => rank,
                }
            });
            match judge(&other).report.number {
                13 => by_13 += 1,
                15 => by_15 += 1,
                number => assert_eq!(number, 0),
            }
            for (mode, due) in due.iter().enumerate() {
                assert_eq!(answers(&mut by_hand(&other, mode as u8), 1), *due);
            }
            let mut written = vec![0; other.len()];
            let report = by_hand(&other, 0).write(&mut written, 0);
            assert_eq!(report, Report::at(0, other.len()));
            assert_eq!(written, other);
        }
        assert!(by_13 > 3 && by_15 > 3, "{by_13} {by_15}");
    }
}

/// Writing, the listing and judging have the ranks after any number of calls.
#[test]
fn ranks_come_back() {
    for certificate in certificates() {
        for other in by_rules(&certificate) {
            let mut state = loaded(&other);
            let links = other[2].into();
            answers(&mut state, links);
            let mut buffer = vec![7; other.len() + 9];
            assert_eq!(state.write(&mut buffer, 5), Report::at(0, other.len()));
            let written = &buffer[5..5 + other.len()];
            assert_eq!(written, other);
            assert!(judge(written).is_accepted());
            let (text, _) = listing(written);
            for (entry, line) in text.lines().skip(1).take(count(&other)).enumerate() {
                let rank = line.rsplit(' ').next().unwrap();
                assert_eq!(rank, rank_of(&other, entry).to_string());
            }
        }
    }
}
