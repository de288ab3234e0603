//! Images against sampled steps, and large certificates.

mod common;

use common::{bytes, header_of, Numbers};
use second::certificate::{is_green, Greens, Kind};
use second::conditions::read_sound;
use second::flow::{caps, next_queues, uncut_queues, Amounts, FINER};
use second::grid::{cells, Interval};
use second::image::image;
use second::{judge, Certificate, Verdict};

/// Two to five links by tail and head, and the text up to them.
fn links(numbers: &mut Numbers, kind: Kind) -> (Vec<(u64, u64)>, String) {
    let mut ends = Vec::new();
    let mut text = header_of(kind);
    for _ in 0..numbers.between(2, 5) {
        let tail = numbers.between(0, 3);
        let head = 1 + (tail + numbers.between(0, 1)) % 3;
        let cap = numbers.between(10, 40);
        let flow = numbers.between(1, 6);
        ends.push((tail, head));
        text += &format!("link tail {tail} head {head} cap {cap} flow {flow} safe {cap} goal 0");
        if kind.has_starts() {
            text += &format!(" start {}", numbers.between(1, flow));
        }
        text += "\n";
    }
    (ends, text)
}

/// A small network of junctions 1 to 3 with random links, turns, signals and cuts. But in an HD certificate the links
/// have start flows, and the mode remembers the second signal.
fn network(numbers: &mut Numbers, kind: Kind) -> String {
    let (ends, mut text) = links(numbers, kind);
    let count = ends.len() as u64;
    for from in 0..ends.len() {
        for to in 0..ends.len() {
            if ends[from].1 == ends[to].0 && numbers.between(0, 3) > 0 {
                let share = numbers.between(1, 33);
                let pull = numbers.between(20, 250);
                text += &format!("turn from {from} to {to} share {share} pull {pull}\n");
            }
        }
    }
    for _ in 0..2 {
        text += &format!("signal byte {:02X}\n", numbers.between(0, (1 << count) - 1));
    }
    text += &match kind {
        Kind::Hd => String::new(),
        Kind::H2 => "mode signal 1\n".to_string(),
        Kind::H3 => format!("mode signal 1 goal 0 goals{}\n", " 0".repeat(ends.len())),
    };
    for _ in 0..count {
        let first = numbers.between(1, 4);
        text += &format!("grid {first} {}\n", first + numbers.between(1, 4));
    }
    let lows = (0..count)
        .map(|_| numbers.between(0, 2))
        .collect::<Vec<_>>();
    let pairs = lows.iter().map(|low| format!(" {low}-{}", low + 1));
    text += &format!("arrivals{}\n", pairs.collect::<String>());
    text + "entry cell 0 mode 0 signal 1 next 0 rank 0\nend\n"
}

/// A point of each range, over `scale`.
fn point(numbers: &mut Numbers, ranges: &[(u16, u16)], scale: u64) -> Amounts {
    let mut point = [0; 8];
    for (link, &(low, high)) in ranges.iter().enumerate() {
        let number = numbers.between(u64::from(low) * scale, u64::from(high) * scale);
        point[link] = number.into();
    }
    point
}

/// The first signal after the second.
fn greens(certificate: &Certificate) -> Greens {
    Greens {
        now: certificate.signals[0],
        before: certificate.signals[1],
    }
}

/// Steps from points of a closed cell stay in its image, which meets the cell they lead to and tells where a link may
/// exceed its cap. Tells how many steps had such a link.
fn sample(
    certificate: &Certificate,
    cell: &[Interval],
    all: &[Vec<Interval>],
    numbers: &mut Numbers,
) -> usize {
    let greens = greens(certificate);
    let arrivals = &certificate.arrivals[0];
    let image = image(certificate, greens, cell, arrivals);
    let sides: Vec<_> = cell.iter().map(|i| (i.low, i.high)).collect();
    let ranges: Vec<_> = arrivals.iter().map(|a| (a.low, a.high)).collect();
    let mut exceeding = 0;
    for _ in 0..20 {
        let scale = numbers.between(1, 9);
        let queues = point(numbers, &sides, scale);
        let come = point(numbers, &ranges, scale);
        let scale = i128::from(scale);
        let next = next_queues(certificate, greens, &queues, &come, scale);
        for (link, &queue) in next.iter().enumerate() {
            assert!(image.low[link] * scale <= queue);
            assert!(queue <= image.high[link] * scale);
        }
        let uncut = uncut_queues(certificate, greens, &queues, &come, scale);
        let caps = caps(certificate, scale);
        let over = uncut.iter().zip(&caps).map(|(queue, cap)| queue > cap);
        let over: Vec<bool> = over.collect();
        assert!(over.iter().zip(&image.over).all(|(own, all)| own <= all));
        exceeding += usize::from(over.contains(&true));
        let holds = |other: &&Vec<Interval>| {
            let mut sides = other.iter().zip(&next);
            sides.all(|(side, &queue)| side.holds(queue, FINER * scale))
        };
        let leads_to: Vec<_> = all.iter().filter(holds).collect();
        assert_eq!(leads_to.len(), 1);
        assert!(image.meets(leads_to[0]));
    }
    exceeding
}

/// Is there a turn from a green link, where links have start flows one that was red before?
fn is_telling(certificate: &Certificate) -> bool {
    let Greens { now, before } = greens(certificate);
    let starts = |link| !certificate.kind.has_starts() || !is_green(before, link);
    let mut from = certificate.turns.iter().map(|turn| turn.from);
    from.any(|link| is_green(now, link) && starts(link))
}

#[test]
fn images_hold_every_sampled_step() {
    for kind in Kind::ALL {
        let mut numbers = Numbers(1);
        let (mut sampled, mut passing, mut exceeding) = (0, 0, 0);
        for _ in 0..3_000 {
            let read = read_sound(&bytes(&network(&mut numbers, kind)));
            let Ok(certificate) = read else {
                continue;
            };
            assert_eq!(certificate.kind, kind);
            if !is_telling(&certificate) {
                continue;
            }
            passing += 1;
            let all = cells(&certificate);
            for _ in 0..10 {
                let cell = numbers.between(0, all.len() as u64 - 1) as usize;
                exceeding += sample(&certificate, &all[cell], &all, &mut numbers);
                sampled += 1;
            }
        }
        assert!(passing > 100, "{kind:?}: {passing}");
        assert_eq!(sampled, 10 * passing);
        assert!(
            exceeding > sampled && exceeding < 15 * sampled,
            "{kind:?}: {exceeding} of {sampled}"
        );
    }
}

/// Eight green links, all of whose cells are goal, under arrivals that may lead anywhere.
fn widest(grids: &str, entries: usize, boxes: usize) -> Vec<u8> {
    let mut text = String::new();
    for link in 0..8 {
        let (tail, head) = if link < 4 { (0, 1) } else { (1, 2) };
        text += &format!("link tail {tail} head {head} cap 20 flow 10 safe 20 goal 20\n");
    }
    for from in 0..4 {
        for to in 4..8 {
            text += &format!("turn from {from} to {to} share 25 pull 100\n");
        }
    }
    text += "signal green 0 1 2 3 4 5 6 7\n";
    text += grids;
    for _ in 0..boxes {
        text += &format!("arrivals{}\n", " 0-20".repeat(8));
    }
    let last = entries - 1;
    text += &format!("entry cell 0..{last} mode 0 signal 0 next 0 rank 0\nend\n");
    bytes(&text)
}

/// As many entries, boxes, links and cells as a certificate may have.
#[test]
fn widest_certificate_is_judged() {
    let grids = "grid 10\n".repeat(4) + &"grid 5 10 15\n".repeat(4);
    let certificate = widest(&grids, 4_096, 8);
    let Verdict { report, overflows } = judge(&certificate);
    assert_eq!((report.number, report.a, report.b), (0, 0, 0));
    // What turns into links 4 to 7 comes on top of 20 arrivals.
    assert_eq!(overflows, 4_096);
    assert!(report.count <= 4_096 * 8 * 4_096);
    assert_eq!(report.count % 8, 0);
}

/// A link that may send everything and gain up to its cap reaches every cell: the count's bound is met.
#[test]
fn count_can_reach_its_bound() {
    let text = "\
        link tail 0 head 1 cap 10 flow 10 safe 10 goal 10\n\
        link tail 0 head 1 cap 10 flow 10 safe 10 goal 10\n\
        signal green 0 1\n\
        grid 1 2 3 4 5 6 7\n\
        grid 1 2 3 4 5 6 7\n\
        arrivals 0-10 0-10\n\
        arrivals 0-10 0-12\n\
        arrivals 0-20 0-20\n\
        entry cell 0..63 mode 0 signal 0 next 0 rank 0\n\
        end\n";
    assert_eq!(judge(&bytes(text)), Verdict::accepted(64 * 3 * 64, 64));
}
