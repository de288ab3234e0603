//! The plain checkers, `fast` and `peer`, give what the second checker gives.

use compare::generate::{
    any_poll, any_state, bytes::bytes_of, certificate, damaged, spoilt, Size, Way,
};
use compare::numbers::Numbers;
use compare::sides::state_bytes;
use compare::tally::NUMBERS;
use compare::{fast, peer, samples};
use second::certificate::Kind;
use second::conditions::read_sound;
use second::text::encode;
use second::{listing, Report, State, Verdict};

fn screened(bytes: &[u8]) -> Report {
    match read_sound(bytes) {
        Ok(_) => Report::SUCCESS,
        Err(refusal) => refusal,
    }
}

fn agrees(bytes: &[u8]) -> Verdict {
    let (text, verdict) = listing(bytes);
    assert_eq!(fast::judge(bytes), verdict);
    assert_eq!(peer::judge(bytes), verdict);
    assert_eq!(fast::screen(bytes), screened(bytes));
    lists(fast::listing, bytes, &text);
    lists(peer::listing, bytes, &text);
    verdict
}

fn lists(listing: impl Fn(&[u8], &mut [u8]) -> Option<usize>, bytes: &[u8], text: &str) {
    let mut buffer = vec![0; text.len()];
    assert_eq!(listing(bytes, &mut buffer), Some(text.len()));
    assert_eq!(buffer, text.as_bytes());
    assert_eq!(listing(bytes, &mut buffer[..text.len() - 1]), None);
}

/// Generated certificates of a kind and two damaged copies of each: how often each number came for the copies.
fn on_generated(kind: Kind) -> [u64; NUMBERS] {
    let (mut accepted, mut ranked) = (0, 0);
    let mut refused = [0; NUMBERS];
    for part in 0..1_000 {
        let mut numbers = Numbers::of(3, part);
        let drawn = certificate(&mut numbers, Size::Small, kind);
        if agrees(&bytes_of(&drawn)).is_accepted() {
            accepted += 1;
            ranked += usize::from(drawn.entries.iter().any(|entry| entry.rank > 0));
        }
        for _ in 0..2 {
            let verdict = agrees(&damaged(&drawn, &mut numbers));
            refused[verdict.report.number as usize] += 1;
        }
    }
    assert!(accepted > 930, "{accepted}");
    assert!(ranked > 450, "{ranked}");
    refused
}

#[test]
fn on_generated_certificates() {
    let refused = on_generated(Kind::Hd);
    let often = [9, 12, 13, 14, 15, 22];
    assert!(often.iter().all(|&at| refused[at] > 15), "{refused:?}");
}

#[test]
fn on_generated_h2_certificates() {
    let refused = on_generated(Kind::H2);
    let often = [1, 2, 4, 6, 9, 12, 13, 14, 15, 22, 23];
    assert!(often.iter().all(|&at| refused[at] > 15), "{refused:?}");
}

#[test]
fn on_generated_h3_certificates() {
    let refused = on_generated(Kind::H3);
    let often = [1, 2, 4, 6, 9, 13, 14, 15, 22, 23, 24];
    assert!(often.iter().all(|&at| refused[at] > 15), "{refused:?}");
}

/// Missing names, wrong order, memories of other signals and other goal numbers: the due refusal, and a state made by
/// hand holds no certificate.
#[test]
fn on_spoilt_entries() {
    for part in 0..200 {
        let mut numbers = Numbers::of(9, part);
        let kind = Kind::ALL[part as usize % 3];
        let drawn = certificate(&mut numbers, Size::Small, kind);
        for way in Way::all(&drawn) {
            let (bytes, due) = spoilt(&drawn, way, &mut numbers);
            assert_eq!(agrees(&bytes), Verdict::refused(due), "{way:?}");
            let mut own = State::by_hand(&bytes, bytes.len(), 0);
            let mut state = state_bytes(&own);
            let poll = any_poll(&drawn, 0, &mut numbers);
            let answer = peer::poll(&mut state, &poll);
            assert_eq!(answer.report, Report::refusal(18), "{way:?}");
            assert_eq!(answer, own.poll(&poll), "{way:?}");
            assert_eq!(state, state_bytes(&own));
        }
    }
}

#[test]
fn on_large_certificates() {
    for part in 0..6 {
        let kind = Kind::ALL[part as usize % 3];
        let drawn = certificate(&mut Numbers::of(4, part), Size::Large, kind);
        agrees(&bytes_of(&drawn));
    }
}

/// Every prefix and every byte changed, against the second checker.
#[test]
fn on_small_changes() {
    let mut numbers = Numbers::of(5, 0);
    let drawn = Kind::ALL.map(|kind| bytes_of(&certificate(&mut numbers, Size::Small, kind)));
    let listed = [
        samples::listed(),
        samples::h2::listed(),
        samples::h3::listed(),
    ];
    for bytes in listed.into_iter().chain(drawn) {
        let bytes = &bytes[..bytes.len().min(400)];
        for at in 0..bytes.len() {
            agrees(&bytes[..at]);
            let mut copy = bytes.to_vec();
            for change in [1, 255, 128, bytes[at].wrapping_neg()] {
                copy[at] = bytes[at].wrapping_add(change);
                agrees(&copy);
            }
        }
    }
}

/// Sizes and verdicts of the H2 samples; the second checker is not asked for the last two.
#[test]
fn on_h2_samples() {
    assert_eq!(agrees(&samples::h2::listed()), Verdict::accepted(10, 0));
    let typical = samples::h2::typical();
    assert_eq!(agrees(&typical), Verdict::accepted(61_062, 404));
    assert_eq!(read_sound(&typical).unwrap().entries.len(), 2_500);
    let largest = samples::h2::largest();
    assert_eq!(fast::judge(&largest), Verdict::accepted(6_071_344, 4_012));
    assert_eq!(peer::judge(&largest), fast::judge(&largest));
    let longest = samples::h2::longest();
    assert_eq!(longest.len(), 37_663);
    assert_eq!(fast::judge(&longest), Verdict::accepted(6_285_008, 4_096));
    assert_eq!(peer::judge(&longest), fast::judge(&longest));
}

/// Sizes and verdicts of the H3 samples; the second checker is not asked for the last two.
#[test]
fn on_h3_samples() {
    assert_eq!(agrees(&samples::h3::listed()), Verdict::accepted(11, 0));
    let typical = samples::h3::typical();
    assert_eq!(agrees(&typical), Verdict::accepted(90_175, 746));
    assert_eq!(read_sound(&typical).unwrap().entries.len(), 3_750);
    let largest = samples::h3::largest();
    assert_eq!(fast::judge(&largest), Verdict::accepted(6_024_112, 3_971));
    assert_eq!(peer::judge(&largest), fast::judge(&largest));
    let longest = samples::h3::longest();
    assert_eq!(longest.len(), 37_799);
    assert_eq!(fast::judge(&longest), Verdict::accepted(6_285_008, 4_096));
    assert_eq!(peer::judge(&longest), fast::judge(&longest));
}

/// Sizes and verdicts of the samples; the second checker takes half a minute for each of the last two.
#[test]
fn on_samples() {
    assert_eq!(agrees(&samples::listed()), Verdict::accepted(4, 0));
    let typical = samples::typical();
    assert_eq!(agrees(&typical), Verdict::accepted(15_370, 113));
    assert_eq!(read_sound(&typical).unwrap().entries.len(), 625);
    let largest = samples::largest();
    assert_eq!(fast::judge(&largest), Verdict::accepted(13_420_164, 3_982));
    assert_eq!(peer::judge(&largest), fast::judge(&largest));
    let read = read_sound(&largest).unwrap();
    assert_eq!((read.turns.len(), read.entries.len()), (32, 4_096));
    let worst = samples::worst();
    assert_eq!(
        fast::judge(&worst),
        Verdict::accepted(4_096 * 8 * 4_096, 4_096)
    );
    assert_eq!(peer::judge(&worst), fast::judge(&worst));
}

/// One rank changed or one entry left out, anywhere: the plain checkers refuse alike.
#[test]
fn on_damaged_samples() {
    let mut numbers = Numbers::of(6, 0);
    for bytes in [
        samples::typical(),
        samples::largest(),
        samples::worst(),
        samples::h2::typical(),
        samples::h2::largest(),
        samples::h3::typical(),
        samples::h3::largest(),
    ] {
        let read = read_sound(&bytes).unwrap();
        let mut seen = [0; NUMBERS];
        for _ in 0..20 {
            let mut copy = read.clone();
            let at = numbers.below(copy.entries.len());
            if numbers.chance(50) {
                copy.entries.remove(at);
            } else {
                copy.entries[at].rank ^= numbers.wide(1, 3);
            }
            let copy = bytes_of(&copy);
            let verdict = peer::judge(&copy);
            assert_eq!(verdict, fast::judge(&copy));
            seen[verdict.report.number as usize] += 1;
        }
        assert!(seen[0] < 20, "{seen:?}");
    }
}

/// The greatest rank is not taken for no entry.
#[test]
fn on_the_greatest_rank() {
    let text = "\
        link tail 0 head 1 cap 10 flow 10 safe 10 goal 4\n\
        signal green none\n\
        signal green 0\n\
        grid 4\n\
        arrivals 1-1\n\
        entry cell 0 mode 0 signal 0 next 0 rank 0\n\
        entry cell 1 mode 0 signal 1 next 0 rank 65535\n\
        end\n";
    let bytes = encode(text).unwrap();
    assert_eq!(agrees(&bytes), Verdict::accepted(3, 0));
    let equal = text.replace("signal 1", "signal 0");
    let refused = Report::at(15, 1).and(1).counting(3);
    assert_eq!(agrees(&encode(&equal).unwrap()), Verdict::refused(refused));
}

/// Polls by the peer, on states made by hand around certificates, damaged ones too.
#[test]
fn on_polls() {
    let mut seen = [0; 22];
    for part in 0..400 {
        let mut numbers = Numbers::of(8, part);
        let kind = Kind::ALL[part as usize % 3];
        let drawn = certificate(&mut numbers, Size::Small, kind);
        for bytes in [bytes_of(&drawn), damaged(&drawn, &mut numbers)] {
            let mut own = any_state(&bytes, &mut numbers);
            let mut state = state_bytes(&own);
            for _ in 0..8 {
                let poll = any_poll(&drawn, own.mode, &mut numbers);
                let answer = peer::poll(&mut state, &poll);
                assert_eq!(answer, own.poll(&poll), "{poll:?}");
                assert_eq!(state, state_bytes(&own));
                seen[answer.report.number as usize] += 1;
            }
        }
    }
    assert!(
        [0, 16, 18, 19, 20, 21].iter().all(|&at| seen[at] > 100),
        "{seen:?}"
    );
}
