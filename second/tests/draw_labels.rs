//! No two labels of a picture meet, and none leaves the page.

mod common;

use common::large::Large;
use common::{bytes, crossing, header_of, start, BESIDE, L};
use second::certificate::Kind;
use second::draw::draw;

/// What a rectangle holds, and its edges in tenths of a pixel.
struct Taken {
    what: String,
    left: i64,
    right: i64,
    top: i64,
    bottom: i64,
}

impl Taken {
    fn meets(&self, other: &Taken) -> bool {
        let beside = self.right <= other.left || other.right <= self.left;
        let over = self.bottom <= other.top || other.bottom <= self.top;
        !beside && !over
    }
}

/// Size of a class of text, and whether it is bold.
fn measure(class: &str) -> (i64, bool) {
    match class.split(' ').next().unwrap() {
        "title" => (20, true),
        "heading" => (14, true),
        "strong" | "rank" => (13, true),
        "body" => (12, false),
        "badge" => (11, true),
        "tiny" => (9, false),
        "small" | "head" | "label" | "goal-text" | "safe-text" => (10, false),
        other => panic!("class {other}"),
    }
}

/// Width of a character in hundredths of its size, as in DejaVu Sans, which is wider than most.
fn hundredths(character: char) -> i64 {
    match character {
        ' ' | '.' | ',' | ':' | '·' => 34,
        'i' | 'j' | 'l' | '\'' => 28,
        '(' | ')' | 't' | 'f' | 'r' => 41,
        'm' | 'w' => 98,
        'A'..='Z' | '→' | '×' => 84,
        _ => 64,
    }
}

/// The value of an attribute.
fn value<'a>(element: &'a str, name: &str) -> &'a str {
    let from = element.split(&format!(" {name}=\"")).nth(1).unwrap_or("");
    from.split('"').next().unwrap_or("")
}

/// A number of an element, in tenths.
fn number(element: &str, name: &str) -> i64 {
    10 * value(element, name).parse::<i64>().unwrap()
}

/// The room of a text.
fn label(element: &str) -> Taken {
    let text = element.split('>').nth(1).unwrap();
    let text = text.split('<').next().unwrap();
    let (size, bold) = measure(value(element, "class"));
    let factor = if bold { 11 } else { 10 };
    let width = text.chars().map(hundredths).sum::<i64>() * size * factor / 100;
    let (x, y) = (number(element, "x"), number(element, "y"));
    let left = match value(element, "text-anchor") {
        "middle" => x - width / 2,
        "end" => x - width,
        _ => x,
    };
    Taken {
        what: text.to_string(),
        left,
        right: left + width,
        top: y - 8 * size,
        bottom: y + size,
    }
}

/// The room of a circle.
fn junction(element: &str) -> Taken {
    let [x, y, radius] = ["cx", "cy", "r"].map(|name| number(element, name));
    Taken {
        what: "junction".to_string(),
        left: x - radius,
        right: x + radius,
        top: y - radius,
        bottom: y + radius,
    }
}

/// No label meets another one or a junction, but for the junction's own number. Texts that read upwards are left out.
fn labels_stand_apart(name: &str, picture: &str) {
    let height = number(picture, "height");
    let texts: Vec<&str> = picture
        .lines()
        .filter(|line| line.starts_with("<text class=") && !line.contains("rotate"))
        .collect();
    let labels: Vec<Taken> = texts.iter().map(|text| label(text)).collect();
    for (i, one) in labels.iter().enumerate() {
        assert!(one.left >= 0 && one.right <= 10_000, "{name}: {}", one.what);
        assert!(one.top >= 0 && one.bottom <= height, "{name}: {}", one.what);
        for other in &labels[i + 1..] {
            assert!(!one.meets(other), "{name}: {} and {}", one.what, other.what);
        }
    }
    let circles = picture
        .lines()
        .filter(|line| line.starts_with("<circle class=\"junction\""));
    for circle in circles.map(junction) {
        let in_body = |text: &str| value(text, "class") == "body";
        let others = texts.iter().zip(&labels).filter(|(text, _)| !in_body(text));
        for (_, label) in others {
            assert!(
                !label.meets(&circle),
                "{name}: {} and a junction",
                label.what
            );
        }
    }
}

/// The picture of a certificate that can be read.
fn picture(certificate: &[u8], links: Option<[usize; 2]>) -> String {
    let (picture, verdict) = draw(certificate, links).unwrap();
    let number = verdict.report.number;
    assert!(number == 0 || (10..=15).contains(&number), "{verdict}");
    picture
}

/// A certificate with these links, from tail to head, and amounts of many lengths.
fn network(ends: &[(u8, u8)], kind: Kind) -> Vec<u8> {
    let mut text = header_of(kind);
    for (i, (tail, head)) in ends.iter().enumerate() {
        let (amounts, start) = [
            ("cap 40 flow 12 safe 30 goal 10", " start 8"),
            ("cap 10000 flow 10000 safe 10000 goal 10000", " start 10000"),
            ("cap 120 flow 1 safe 0 goal 0", " start 1"),
        ][i % 3];
        let start = if kind.has_starts() { start } else { "" };
        text += &format!("link tail {tail} head {head} {amounts}{start}\n");
    }
    text += &"signal green none\n".repeat(16);
    let goals: String = (0..ends.len())
        .map(|i| [" 25", " 9999", " 0"][i % 3])
        .collect();
    text += &match kind {
        Kind::Hd => String::new(),
        Kind::H2 => "mode signal 15\n".repeat(3),
        Kind::H3 => format!("mode signal 15 goal 0 goals{goals}\n").repeat(3),
    };
    text += &"grid 1 39\n".repeat(ends.len().min(3));
    text += &"grid\n".repeat(ends.len().saturating_sub(3));
    text += &format!("arrivals{}\n", " 0-1".repeat(ends.len()));
    bytes(&(text + "entry cell 0..2 mode 0..2 signal 15 next 1 rank 65535\nend\n"))
}

/// The labels of a network stand apart in a certificate of each kind.
fn labels_of_network(ends: &[(u8, u8)]) {
    for kind in Kind::ALL {
        let picture = picture(&network(ends, kind), None);
        labels_stand_apart(&format!("{kind:?} {ends:?}"), &picture);
    }
}

#[test]
fn of_known_networks() {
    let chain: Vec<(u8, u8)> = (0..8).map(|i| (i, i + 1)).collect();
    let inner_chain: Vec<(u8, u8)> = (1..9).map(|i| (i, i + 1)).collect();
    let star: Vec<(u8, u8)> = (2..10).map(|i| (1, i)).collect();
    let apart: Vec<(u8, u8)> = (1..9).map(|i| (2 * i - 1, 2 * i)).collect();
    let ring = [
        (1, 2),
        (2, 3),
        (3, 4),
        (4, 1),
        (2, 1),
        (3, 2),
        (4, 3),
        (1, 4),
    ];
    for ends in [
        &chain[..],
        &inner_chain,
        &star,
        &apart,
        &ring,
        &[(0, 255); 8],
    ] {
        labels_of_network(ends);
    }
}

/// Links drawn at random from a fixed start, the same at every run.
#[test]
fn of_random_networks() {
    let mut state: u64 = 1;
    let mut below = |most: u64| {
        state = state
            .wrapping_mul(6_364_136_223_846_793_005)
            .wrapping_add(1_442_695_040_888_963_407);
        ((state >> 33) % most) as u8
    };
    for _ in 0..400 {
        let (links, junctions) = (1 + below(8), 2 + below(8));
        let mut ends = Vec::new();
        while ends.len() < links.into() {
            let (tail, head) = (below(u64::from(junctions)), 1 + below(u64::from(junctions)));
            if tail != head {
                ends.push((tail, head));
            }
        }
        labels_of_network(&ends);
    }
}

#[test]
fn of_large_certificates() {
    for (counts, modes) in [
        ([15, 15, 2, 1, 1, 1, 1, 1], 8),
        ([6, 4, 4, 4, 2, 2, 1, 1], 8),
        ([1, 1, 1, 1, 1, 1, 1, 15], 3),
    ] {
        let large = Large {
            counts,
            modes,
            rank: |cell, mode| (cell % 7 > 0).then_some(65_535 - (cell + mode) as u16),
        };
        for bytes in [large.bytes(), large.start_bytes()] {
            for links in [None, Some([7, 0]), Some([1, 7])] {
                let picture = picture(&bytes, links);
                labels_stand_apart(&format!("{counts:?} {links:?}"), &picture);
            }
        }
    }
}

#[test]
fn of_small_certificates() {
    let start = start();
    for certificate in [
        &L[..],
        &L[..65],
        &crossing(),
        &bytes(BESIDE),
        &start,
        &start[..30],
    ] {
        let (picture, _) = draw(certificate, None).unwrap();
        labels_stand_apart("small", &picture);
    }
}
