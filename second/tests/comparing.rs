//! Which of two certificates is better, on small certificates of each kind.

mod common;

use common::goals::goals;
use common::offices::{office, says, with_ranks, Row};
use common::{bytes, crossing, l_with, start, L, L_TEXT};
use second::certificate::Kind;
use second::comparing::Table;
use second::Comparison::{Equal, First, Neither, Refused, Second};
use second::{compare, judge, Report};

#[test]
fn lower_ranks_and_more_pairs_are_better() {
    for kind in Kind::ALL {
        let own = with_ranks(kind, &[(1, 0, 4), (2, 1, 7)]);
        let with = |ranks: &[(u16, u8, u16)]| with_ranks(kind, ranks);
        says(&own, &own, Equal);
        says(&own, &with(&[(1, 0, 4), (2, 1, 8)]), First);
        says(&own, &with(&[(1, 0, 3), (2, 1, 7)]), Second);
        says(&own, &with(&[(1, 0, 4)]), First);
        says(&own, &with(&[]), First);
        says(&own, &with(&[(1, 0, 4), (1, 1, 9), (2, 1, 7)]), Second);
        says(&own, &with(&[(1, 0, 5), (2, 1, 65_535)]), First);
    }
}

/// Ranks that are lower here and there, pairs that are missing here and there, and one of each.
#[test]
fn neither_is_better() {
    for kind in Kind::ALL {
        let own = with_ranks(kind, &[(1, 0, 4), (2, 1, 7)]);
        for other in [
            &[(1, 0, 5), (2, 1, 6)][..],
            &[(1, 0, 3), (2, 1, 8)],
            &[(1, 0, 4), (2, 0, 7)],
            &[(1, 1, 4), (2, 1, 7)],
            &[(1, 0, 3)],
            &[(2, 1, 6)],
            &[(1, 0, 5), (1, 1, 1), (2, 1, 7)],
            &[(1, 1, 1)],
        ] {
            says(&own, &with_ranks(kind, other), Neither);
        }
    }
}

#[test]
fn ranks_have_two_bytes() {
    let of = |rank| with_ranks(Kind::Hd, &[(1, 0, rank)]);
    for (lower, higher) in [(255, 256), (1, 256), (2, 257), (511, 513), (1, 65_535)] {
        says(&of(lower), &of(higher), First);
    }
    for rank in [1, 255, 256, 32_768, 65_535] {
        says(&of(rank), &of(rank), Equal);
    }
}

/// The ranks of a table: the goal cell in mode 1, and two other pairs.
type Ranks = [Option<u16>; 3];

fn table(kind: Kind, ranks: Ranks) -> Vec<u8> {
    let pairs = [(0, 1), (1, 0), (2, 1)].into_iter().zip(ranks);
    let listed = pairs.filter_map(|((cell, mode), rank)| Some((cell, mode, rank?)));
    with_ranks(kind, &listed.collect::<Vec<_>>())
}

/// By the words of the request: every rank of the other is there, and no higher.
fn covers(own: Ranks, other: Ranks) -> bool {
    let mut pairs = own.into_iter().zip(other);
    pairs.all(|(own, other)| match (own, other) {
        (_, None) => true,
        (None, Some(_)) => false,
        (Some(own), Some(other)) => own <= other,
    })
}

/// All tables of three pairs with a few ranks.
fn all_ranks() -> Vec<Ranks> {
    let above = [None, Some(1), Some(2), Some(300)];
    let mut all = Vec::new();
    for goal in [None, Some(0)] {
        for one in above {
            all.extend(above.map(|other| [goal, one, other]));
        }
    }
    all
}

#[test]
fn every_two_tables() {
    for kind in Kind::ALL {
        let all = all_ranks();
        let bytes: Vec<Vec<u8>> = all.iter().map(|&ranks| table(kind, ranks)).collect();
        let mut said = [0; 4];
        for (one, first) in all.iter().zip(&bytes) {
            for (other, second) in all.iter().zip(&bytes) {
                let (due, at) = match (covers(*one, *other), covers(*other, *one)) {
                    (true, true) => (Equal, 0),
                    (true, false) => (First, 1),
                    (false, true) => (Second, 2),
                    (false, false) => (Neither, 3),
                };
                assert_eq!(compare(first, second), due, "{one:?} {other:?}");
                said[at] += 1;
            }
        }
        assert_eq!(said[0], all.len());
        assert!(said[1] == said[2] && said[1] > 200, "{said:?}");
        assert!(said[3] > 300, "{said:?}");
    }
}

/// Each table covers itself; two that cover each other are equal in all that counts. Kinds are mixed.
#[test]
fn reflexive_and_transitive() {
    let mut tables = Vec::new();
    for kind in Kind::ALL {
        let of_kind = all_ranks().into_iter().map(|ranks| table(kind, ranks));
        tables.extend(of_kind.map(|bytes| Table::of(&bytes).unwrap()));
    }
    let covering: Vec<Vec<bool>> = tables
        .iter()
        .map(|own| tables.iter().map(|other| own.covers(other)).collect())
        .collect();
    let all = 0..tables.len();
    let mut chains = 0;
    for a in all.clone() {
        assert!(covering[a][a]);
        for b in all.clone().filter(|&b| covering[a][b]) {
            assert_eq!(covering[b][a], tables[a] == tables[b]);
            for c in all.clone().filter(|&c| covering[b][c]) {
                assert!(covering[a][c]);
                chains += usize::from(a != b && b != c);
            }
        }
    }
    assert!(chains > 3_000, "{chains}");
}

/// Other signals and next modes, in one entry and in all of them.
#[test]
fn signals_and_next_modes_are_not_compared() {
    let rows = |next: [u8; 4]| -> [Row; 4] {
        [
            (0, 0, next[0], 0),
            (0, 1, next[1], 0),
            (1, 0, next[2], 4),
            (2, 1, next[3], 7),
        ]
    };
    for kind in Kind::ALL {
        let own = office(kind, &rows([0, 0, 0, 0]));
        for next in [[0, 0, 0, 1], [0, 1, 0, 0], [1, 1, 1, 1], [1, 0, 1, 0]] {
            let other = office(kind, &rows(next));
            assert_ne!(own, other);
            says(&own, &other, Equal);
            let mut higher = rows(next);
            higher[3].3 = 8;
            says(&own, &office(kind, &higher), First);
            says(&own, &office(kind, &higher[..3]), First);
            higher[2].3 = 3;
            says(&own, &office(kind, &higher), Neither);
            says(&own, &office(kind, &higher[..3]), Neither);
        }
    }
    let other = l_with("signal green 0\n", "signal green 0\nsignal green 0\n");
    let signal = "signal green 0\nsignal green 0\n";
    let last = "entry cell 2 mode 0 signal 1 next 0 rank 2\n";
    let changed = L_TEXT
        .replace("signal green 0\n", signal)
        .replace("entry cell 2 mode 0 signal 0 next 0 rank 2\n", last);
    says(&other, &bytes(&changed), Equal);
}

/// Report number, places and count of the first one that is not accepted.
#[test]
fn the_first_refusal_is_given() {
    let refused = [
        (Vec::new(), Report::at(1, 0)),
        (L[..65].to_vec(), Report::at(1, 64)),
        ([&L[..], &[0]].concat(), Report::at(2, 66)),
        (l_with("flow 6", "flow 11"), Report::at(4, 9)),
        (
            l_with("safe 10 goal 5", "safe 9 goal 5"),
            Report::at(12, 2).counting(2),
        ),
        (
            l_with("next 0 rank 1", "next 0 rank 0"),
            Report::at(13, 1).counting(1),
        ),
        (
            l_with("entry cell 1 mode 0 signal 0 next 0 rank 1\n", ""),
            Report::at(14, 1).and(1).counting(3),
        ),
        (l_with("0-2", "0-3"), Report::at(15, 1).and(1).counting(3)),
    ];
    let accepted = [L.to_vec(), start(), goals(), crossing()];
    for (one, refusal) in &refused {
        assert_eq!(judge(one).report, *refusal);
        for (other, _) in &refused {
            assert_eq!(compare(one, other), Refused(*refusal));
        }
        for other in &accepted {
            says(one, other, Refused(*refusal));
        }
    }
}
