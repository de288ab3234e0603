//! A fixed part of every comparison.

use compare::differential::{differential, roadside, shown, slices, Kinds, Plan};
use compare::generate::{any_poll, any_query, certificate, spoilt, Size, Way};
use compare::numbers::Numbers;
use compare::readings::{readings, Extent};
use compare::samples;
use compare::sides::{screen, Agreed, Sides};
use compare::tally::{KindLoads, Tally, LOAD_REFUSALS};
use second::certificate::Kind;
use second::conditions::read_sound;
use second::{Certificate, Report, State, Verdict};

/// The tally of a plan without differences.
fn done(plan: &Plan) -> Tally {
    let tally = differential(plan).unwrap_or_else(|found| panic!("{}", shown(plan.seed, &found)));
    assert_eq!(tally.loads.all(), plan.loads);
    assert_eq!(tally.queries.all(), plan.queries);
    assert_eq!(tally.polls.all(), plan.polls);
    tally
}

#[test]
fn library_and_second_checker_agree() {
    let tally = done(&Plan {
        seed: 1,
        loads: 1_500,
        queries: 6_000,
        polls: 6_000,
        kinds: Kinds::All,
    });
    assert!(tally.loads.of(0) * 10 > tally.loads.all() * 4, "{tally}");
    for number in LOAD_REFUSALS {
        assert!(tally.loads.of(number) > 0, "no {number}\n{tally}");
    }
    for number in [9, 22, 23, 24] {
        assert!(tally.loads.of(number) > 20, "few {number}\n{tally}");
    }
    for loads in [&tally.h2, &tally.h3] {
        third_of(loads, &tally);
    }
    let overflows = &tally.overflows;
    for kind in [overflows.none, overflows.some, overflows.all] {
        assert!(kind * 10 > tally.loads.of(0), "{tally}");
    }
    assert!(overflows.sum > tally.loads.of(0), "{tally}");
    for number in [0, 16, 18, 19] {
        assert!(tally.queries.of(number) > 100, "few {number}\n{tally}");
    }
    for number in [0, 16, 18, 19, 20, 21] {
        assert!(tally.polls.of(number) > 100, "few {number}\n{tally}");
    }
    assert!(tally.polls.of(0) * 2 > tally.polls.all(), "{tally}");
    for number in [0, 17, 18] {
        assert!(tally.writes.of(number) > 10, "few {number}\n{tally}");
    }
    assert!(tally.listings.of(0) > 100, "{tally}");
}

/// About a third of the loads are of this kind; most of those are accepted or damaged from accepted ones.
fn third_of(loads: &KindLoads, tally: &Tally) {
    let (results, all) = (&loads.results, tally.loads.all());
    let share = results.all() * 100 / all;
    assert!((25..=42).contains(&share), "{tally}");
    let good = results.of(0) + loads.damaged;
    assert!(good * 10 > results.all() * 8, "{tally}");
    assert!(results.of(0) * 10 > results.all() * 3, "{tally}");
    for number in [1, 2, 4, 6, 9, 22, 23, 12, 13, 14, 15] {
        assert!(results.of(number) > 0, "no {number}\n{tally}");
    }
}

#[test]
fn h2_certificates_agree() {
    let tally = of_kind(Kind::H2, 2);
    let loads = tally.h2.results.all();
    assert!(loads * 10 > tally.loads.all() * 9, "{tally}");
}

#[test]
fn h3_certificates_agree() {
    let tally = of_kind(Kind::H3, 20);
    let results = &tally.h3.results;
    assert!(results.all() * 10 > tally.loads.all() * 9, "{tally}");
    assert!(results.of(0) * 10 > results.all() * 4, "{tally}");
    for number in [6, 13, 24] {
        assert!(results.of(number) > 10, "few {number}\n{tally}");
    }
}

/// One kind alone: every call is answered in every way on states that hold such certificates.
fn of_kind(kind: Kind, seed: u64) -> Tally {
    let tally = done(&Plan {
        seed,
        loads: 500,
        queries: 2_500,
        polls: 2_500,
        kinds: Kinds::Only(kind),
    });
    for number in [0, 16, 18, 19] {
        assert!(tally.queries.of(number) > 50, "few {number}\n{tally}");
    }
    for number in [0, 16, 18, 19, 20, 21] {
        assert!(tally.polls.of(number) > 50, "few {number}\n{tally}");
    }
    for number in [0, 17, 18] {
        assert!(tally.writes.of(number) > 10, "few {number}\n{tally}");
    }
    assert!(tally.listings.of(0) > 50, "{tally}");
    tally
}

/// Missing names, wrong order, memories of other signals and other goal numbers in every way: 9, 22, 23 or 24 as is due,
/// and 18 of a state made by hand.
#[test]
fn spoilt_entries_agree() {
    for part in 0..60 {
        let mut numbers = Numbers::of(10, part);
        let kind = Kind::ALL[part as usize % 3];
        let drawn = certificate(&mut numbers, Size::Small, kind);
        for way in Way::all(&drawn) {
            let (bytes, due) = spoilt(&drawn, way, &mut numbers);
            let told = refused_alike(&bytes, due, &drawn, &mut numbers);
            told.unwrap_or_else(|difference| panic!("{way:?} {difference:?}"));
        }
    }
}

/// Both sides refuse the bytes, and a state made by hand that holds them refuses every call.
fn refused_alike(
    bytes: &[u8],
    due: Report,
    certificate: &Certificate,
    numbers: &mut Numbers,
) -> Agreed<()> {
    assert_eq!(screen(bytes)?, due);
    let mut sides = Sides::of(State::by_hand(bytes, bytes.len(), 0));
    assert_eq!(sides.load(bytes)?, Verdict::refused(due));
    let no_certificate = Report::refusal(18);
    let query = sides.query(&any_query(certificate, numbers))?;
    assert_eq!(query, no_certificate);
    let poll = sides.poll(&any_poll(certificate, 0, numbers))?;
    assert_eq!(poll, no_certificate);
    assert_eq!(sides.write(bytes.len(), 0)?, no_certificate);
    Ok(())
}

/// The longest certificate fits the state: it is read, asked and written alike.
#[test]
fn the_longest_agrees() {
    let longest = samples::h3::longest();
    assert_eq!(longest.len(), 37_799);
    let agreed = || -> Agreed<()> {
        assert_eq!(screen(&longest)?, Report::SUCCESS);
        let mut sides = Sides::of(State::by_hand(&longest, longest.len(), 0));
        let certificate = read_sound(&longest).expect("the longest");
        let mut numbers = Numbers::of(13, 0);
        for _ in 0..20 {
            sides.query(&any_query(&certificate, &mut numbers))?;
            sides.poll(&any_poll(&certificate, sides.own.mode, &mut numbers))?;
        }
        let written = sides.write(longest.len() + 9, 5)?;
        assert_eq!(written, Report::at(0, longest.len()));
        Ok(())
    };
    agreed().unwrap_or_else(|difference| panic!("{difference:?}"));
}

#[test]
fn readings_agree() {
    let tried = readings(Extent::Part).unwrap_or_else(|difference| panic!("{difference}"));
    assert!(tried > 2_000);
}

/// On a fresh state and on one that holds a certificate, with bytes that load as accepted and with others.
#[test]
fn slices_of_other_lengths() {
    let listed = samples::listed();
    let certificate = read_sound(&listed).expect("L");
    let mut sides = Sides::of(State::by_hand(&[255; State::CAPACITY], 3, 200));
    let mut numbers = Numbers::of(7, 0);
    let mut compare = |bytes: &[u8], sides: &Sides| {
        for _ in 0..20 {
            slices::compare(bytes, sides, &mut numbers)
                .and_then(|()| roadside::compare(bytes, &certificate, sides, &mut numbers))
                .unwrap_or_else(|difference| panic!("{difference:?}"));
        }
    };
    compare(&listed, &sides);
    sides.fresh().expect("fresh");
    compare(&listed, &sides);
    sides.load(&listed).expect("load");
    compare(&listed, &sides);
    compare(&listed[1..], &sides);
}
