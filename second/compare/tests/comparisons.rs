//! A fixed part of the comparisons, what drawn pairs are like, and wrong answers that are found.

use compare::comparisons::{
    answer_numbers, compare, comparisons, shown, Exported, Found, Pair, Plan, Tally, Way,
};
use compare::differential::Kinds;
use compare::library::{self, COMPARISON_SIZE, TOO_SHORT};
use compare::numbers::Numbers;
use compare::samples;
use compare::sides::Difference;
use second::certificate::Kind;
use second::comparing::Table;
use second::text::decode;
use second::Comparison;

/// The tally of a plan without differences.
fn done(plan: &Plan) -> Tally {
    let tally = comparisons(plan).unwrap_or_else(|found| panic!("{}", shown(plan.seed, &found)));
    println!("{tally}");
    assert_eq!(tally.pairs(), plan.pairs);
    tally
}

/// At least so many of a hundred pairs each.
fn share(tally: &Tally, parts: &[u64], least: u64) {
    for part in parts {
        assert!(part * 100 >= tally.pairs() * least, "{part}\n{tally}");
    }
}

#[test]
fn library_and_second_checker_agree() {
    let tally = done(&Plan {
        seed: 1,
        pairs: 600,
        kinds: Kinds::All,
    });
    share(&tally, &tally.kinds, 25);
    share(&tally, &tally.answers(), 8);
    assert_eq!(tally.answers().iter().sum::<u64>(), tally.pairs());
    let (equal, neither, refused) = (&tally.equal, &tally.neither, &tally.refused);
    share(&tally, &[equal.signals, equal.next_modes], 4);
    for better in [&tally.first, &tally.second] {
        share(&tally, &[better.ranks, better.pairs], 3);
        assert!(better.both > 2, "{tally}");
    }
    share(&tally, &[neither.fronts, neither.alone], 8);
    share(&tally, &[neither.one_byte, neither.ranks, neither.pairs], 4);
    assert!(neither.marks > 5 && neither.mixed > 5, "{tally}");
    share(&tally, &[refused.first, refused.second], 3);
    share(&tally, &[refused.both], 1);
    for number in [1, 2, 4, 6, 8, 9, 12, 13, 14, 15, 22, 23, 24] {
        assert!(refused.numbers.of(number) > 0, "no {number}\n{tally}");
    }
    share(&tally, &[tally.low], 15);
    assert!(tally.high > 5 && tally.full > 0, "{tally}");
    share(&tally, &[tally.selves], 10);
    share(&tally, &[tally.lengths], 5);
    let calls = 2 * tally.pairs() + 2 * tally.selves + 7 * tally.lengths;
    assert_eq!(tally.calls, calls, "{tally}");
}

#[test]
fn one_kind_alone() {
    for (place, kind) in Kind::ALL.into_iter().enumerate() {
        let tally = done(&Plan {
            seed: 2,
            pairs: 100,
            kinds: Kinds::Only(kind),
        });
        assert_eq!(tally.kinds[place], 100);
        assert!(tally.answers().iter().all(|&count| count > 3), "{tally}");
    }
    let both = done(&Plan {
        seed: 3,
        pairs: 40,
        kinds: Kinds::Both,
    });
    assert_eq!(both.kinds[2], 0);
}

/// By the second checker: all are accepted but damaged ones, and each way changes what it is to change.
#[test]
fn what_pairs_are_like() {
    let mut drawn = [0; Way::ALL.len()];
    for part in 0..300 {
        let mut numbers = Numbers::of(4, part);
        let pair = Pair::draw(Kind::ALL[part as usize % 3], &mut numbers);
        let place = Way::ALL.iter().position(|&(way, _)| way == pair.way);
        drawn[place.expect("a way")] += 1;
        let tables = pair.bytes.each_ref().map(|bytes| Table::of(bytes));
        if pair.way == Way::Damaged {
            continue;
        }
        let [Ok(one), Ok(other)] = tables else {
            panic!("{:?} refused", pair.way);
        };
        let listed = |table: &Table| -> Vec<(u16, u8)> { table.ranks.keys().copied().collect() };
        match pair.way {
            Way::Same => assert_eq!(pair.bytes[0], pair.bytes[1]),
            Way::Ranks => assert_eq!(listed(&one), listed(&other)),
            Way::Fewer => {
                let mut pairs = one.ranks.iter();
                assert!(pairs.all(|(pair, rank)| other.ranks.get(pair).is_none_or(|r| r == rank)));
            }
            _ => (),
        }
        if !matches!(pair.way, Way::Fronts | Way::Unrelated) {
            assert_eq!(one.front, other.front, "{:?}", pair.way);
        }
    }
    assert!(drawn.iter().all(|&count| count > 2), "{drawn:?}");
}

/// The answer of the second checker in the form of the exported call.
fn right(first: &[u8], second: &[u8], answer: &mut [u32]) -> u32 {
    put(second::compare(first, second), answer)
}

fn put(said: Comparison, answer: &mut [u32]) -> u32 {
    let Some(part) = answer.get_mut(..COMPARISON_SIZE) else {
        return TOO_SHORT;
    };
    part.copy_from_slice(&answer_numbers(said));
    part[0]
}

const WRONG: [(&str, Exported); 9] = [
    ("the reverse", |first, second, answer| {
        right(second, first, answer)
    }),
    ("always equal", |_, _, answer| {
        put(Comparison::Equal, answer)
    }),
    ("nothing put down", |first, second, _| {
        right(first, second, &mut [0; COMPARISON_SIZE])
    }),
    ("0 returned", |first, second, answer| {
        let result = right(first, second, answer);
        if result == TOO_SHORT {
            result
        } else {
            0
        }
    }),
    ("words from 0", |first, second, answer| {
        let result = right(first, second, answer);
        if result == 0 {
            answer[4] -= 1;
        }
        result
    }),
    ("a number too many", |first, second, answer| {
        let result = right(first, second, answer);
        answer
            .iter_mut()
            .skip(COMPARISON_SIZE)
            .for_each(|number| *number = 0);
        result
    }),
    ("a short answer filled", |first, second, answer| {
        let mut whole = [0; COMPARISON_SIZE];
        right(first, second, &mut whole);
        let result = right(first, second, answer);
        if result == TOO_SHORT {
            answer.copy_from_slice(&whole[..answer.len()]);
        }
        result
    }),
    (
        "a short answer not told",
        |first, second, answer| match right(first, second, answer) {
            TOO_SHORT => 0,
            result => result,
        },
    ),
    (
        "six numbers asked for",
        |first, second, answer| match answer.len() {
            ..=COMPARISON_SIZE => TOO_SHORT,
            _ => right(first, second, answer),
        },
    ),
];

/// The first pair at which a function differs from the second checker.
fn found(exported: Exported, pairs: u64) -> Option<Found> {
    (0..pairs).find_map(|number| {
        let mut numbers = Numbers::of(5, number);
        let drawn = Pair::draw(Kind::ALL[number as usize % 3], &mut numbers);
        let agreed = compare(exported, &drawn, &mut numbers, &mut Tally::default());
        let difference = *agreed.err()?;
        Some(Found {
            pair: number,
            difference,
            drawn,
        })
    })
}

#[test]
fn wrong_answers_are_found() {
    assert!(found(right, 60).is_none());
    for (name, exported) in WRONG {
        let found = found(exported, 60).unwrap_or_else(|| panic!("{name} is not found"));
        println!("{name}: pair {}, {}", found.pair, found.difference.call);
    }
}

/// A difference is told with its place, both answers and both certificates.
#[test]
fn differences_are_shown() {
    let bytes = [samples::listed(), samples::h2::listed()];
    let texts = bytes.each_ref().map(|bytes| decode(bytes).expect("text"));
    let drawn = Pair {
        bytes,
        kind: Kind::Hd,
        way: Way::Unrelated,
    };
    let word = |word: &str| word.to_string();
    let difference = Difference {
        call: word("the call"),
        second: word("one"),
        library: word("other"),
    };
    let text = shown(
        6,
        &Found {
            pair: 3,
            difference,
            drawn,
        },
    );
    let due = format!(
        "difference at pair 3 of seed 6, unrelated\nthe call\n  second checker: one\n  library: other\n\
         the first certificate:\n{}the second certificate:\n{}",
        texts[0], texts[1]
    );
    assert_eq!(text, due);
}

/// The longest certificates by the library alone, which says what is known of them: the second checker takes too long.
#[test]
fn the_longest_certificates() {
    let (longest, largest) = (samples::h3::longest(), samples::h3::largest());
    let mut fewer = longest.clone();
    let last = fewer.len() - 2 - 9;
    fewer.drain(last..last + 9);
    fewer[7..9].copy_from_slice(&4_095_u16.to_be_bytes());
    for (first, second, due) in [
        (&longest, &longest, Comparison::Equal),
        (&longest, &largest, Comparison::Neither),
        (&largest, &largest, Comparison::Equal),
    ] {
        let mut answer = [9; COMPARISON_SIZE];
        let result = library::compare(first, second, &mut answer);
        assert_eq!((result, answer), (0, answer_numbers(due)));
    }
    let verdict = compare::fast::judge(&fewer);
    let mut answer = [9; COMPARISON_SIZE];
    assert!(!verdict.is_accepted());
    let refused = Comparison::Refused(verdict.report);
    let result = library::compare(&longest, &fewer, &mut answer);
    assert_eq!(
        (result, answer),
        (verdict.report.number, answer_numbers(refused))
    );
}
