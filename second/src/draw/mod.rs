//! A picture of a certificate for planners: its network, its policy over two links, and the verdict.

mod lanes;
mod layout;
mod legend;
mod limits;
mod network;
mod order;
mod panel;
mod panels;
mod shades;
mod slice;
mod step;
mod style;
mod svg;
mod tables;
mod verdict;

use crate::certificate::Certificate;
use crate::judging::judge;
use crate::reading::read;
use crate::report::Verdict;
use panel::Panel;
use panels::Panels;
use shades::Shades;
use slice::{link_intervals, Slice};
use style::{Style, LEFT, RIGHT};
use svg::{Anchor, Svg};

/// What start flows and modes are where there are any, and goals of modes.
const START_WORDS: &str = "Start is the most that a link sends in a green step after a red one.";
const MEMORY_WORDS: &str =
    "Each mode remembers the signal shown before: a green link that was red in it sends at most \
    its start flow.";
const GOAL_WORDS: &str =
    "Each mode has a goal. The goals are to be met in turn by their numbers, and after the greatest comes 0 \
    again: a step from rank 0 passes to the next number, and from any other rank it keeps the number.";

/// The picture as SVG, and the verdict that it shows. The cells drawn are those of the two links named, else of the
/// first two. Links that cannot be drawn are told as a fault; a certificate that cannot be read has nothing but words.
pub fn draw(bytes: &[u8], links: Option<[usize; 2]>) -> Result<(String, Verdict), String> {
    let certificate = match read(bytes) {
        Ok(certificate) => certificate,
        Err(refusal) => {
            let verdict = Verdict::refused(refusal);
            let mut page = Page::new(verdict);
            let headline = verdict::unread_headline(refusal, bytes);
            page.verdict(&headline, &verdict::reading_details(refusal));
            return Ok((page.finish(), verdict));
        }
    };
    let slice = Slice::of(&certificate, links)?;
    let verdict = judge(bytes);
    let mut page = Page::new(verdict);
    page.network(&certificate);
    page.policy(&certificate, &slice);
    let details = verdict::details(&certificate, &slice, verdict);
    page.verdict(&verdict::headline(verdict), &details);
    Ok((page.finish(), verdict))
}

/// A page that is filled from top to bottom.
struct Page {
    svg: Svg,
    verdict: Verdict,
    title: String,
    bottom: i32,
}

impl Page {
    fn new(verdict: Verdict) -> Page {
        let word = match verdict.is_accepted() {
            true => "accepted",
            false => "refused",
        };
        let mut svg = Svg::default();
        let title = format!("Signal policy certificate: {word}");
        svg.text(Style::Title, (LEFT, 38), Anchor::Start, &title);
        Page {
            svg,
            verdict,
            title,
            bottom: 46,
        }
    }

    fn finish(self) -> String {
        self.svg.finish(&self.title, self.bottom + 20)
    }

    fn heading(&mut self, text: &str) {
        self.bottom += 34;
        let place = (LEFT, self.bottom);
        self.svg.text(Style::Heading, place, Anchor::Start, text);
        self.bottom += 4;
    }

    /// Lines of running text.
    fn paragraph(&mut self, text: &str) {
        for line in Style::Body.wrap(text, RIGHT - LEFT) {
            self.bottom += 17;
            let place = (LEFT, self.bottom);
            self.svg.text(Style::Body, place, Anchor::Start, &line);
        }
    }

    fn network(&mut self, certificate: &Certificate) {
        self.paragraph(&counts(certificate));
        self.heading("Network");
        self.paragraph(
            "Circles are junctions, arrows links with their numbers. Links from the left edge come in from outside. \
             Amounts are in vehicles.",
        );
        if certificate.kind.has_starts() {
            self.paragraph(START_WORDS);
        }
        let report = self.verdict.report;
        let marked = (report.number == 10).then_some(report.b as usize);
        let top = self.bottom + 12;
        self.bottom = network::network(&mut self.svg, certificate, marked, top);
        let top = self.bottom + 16;
        self.bottom = tables::tables(&mut self.svg, certificate, report, top);
    }

    fn policy(&mut self, certificate: &Certificate, slice: &Slice) {
        self.heading("Policy");
        self.paragraph(&slice_words(certificate, slice));
        if certificate.kind.has_starts() {
            self.paragraph(MEMORY_WORDS);
        }
        if certificate.kind.has_goals() {
            self.paragraph(GOAL_WORDS);
        }
        let report = self.verdict.report;
        let shades = Shades::of(certificate, slice);
        let top = self.bottom + 12;
        self.bottom = legend::legend(&mut self.svg, &shades, report, top);
        let panels = Panels::new(slice, certificate.modes, self.bottom + 8);
        for mode in 0..usize::from(certificate.modes) {
            let panel = Panel {
                certificate,
                slice,
                panels: &panels,
                shades: &shades,
                mode,
            };
            panel.draw(&mut self.svg);
        }
        step::step(&mut self.svg, certificate, slice, &panels, report);
        self.bottom = panels.bottom();
    }

    fn verdict(&mut self, headline: &str, lines: &[String]) {
        self.bottom += 22;
        let alarm = !self.verdict.is_accepted();
        let place = (LEFT, self.bottom);
        self.svg
            .text_or_alarm(Style::Heading, alarm, place, Anchor::Start, headline);
        self.bottom += 4;
        for line in lines {
            self.paragraph(line);
        }
    }
}

/// How much of each kind a certificate has.
fn counts(certificate: &Certificate) -> String {
    let kinds = [
        (certificate.links.len(), "link", "links"),
        (certificate.turns.len(), "turn", "turns"),
        (certificate.signals.len(), "signal", "signals"),
        (certificate.modes.into(), "mode", "modes"),
        (certificate.arrivals.len(), "arrival box", "arrival boxes"),
        (certificate.entries.len(), "entry", "entries"),
    ];
    let words = kinds.map(|(count, one, more)| match count {
        1 => format!("1 {one}"),
        _ => format!("{count} {more}"),
    });
    words.join(", ")
}

/// A multiple in words.
fn times(factor: usize, what: &str) -> String {
    match factor {
        1 => what.to_string(),
        _ => format!("{factor} × {what}"),
    }
}

/// Which cells are drawn, and how they are numbered.
fn slice_words(certificate: &Certificate, slice: &Slice) -> String {
    let across = &slice.across;
    let Some(up) = &slice.up else {
        return "Each box is a cell: the queue of link 0 grows to the right. Cells are numbered from 0.".to_string();
    };
    let axes = format!(
        "Each box is a cell: the queue of link {} grows to the right, that of link {} upwards. \
         Its number is {} + {}, both counted from 0.",
        across.link,
        up.link,
        times(across.stride, "column"),
        times(up.stride, "row")
    );
    let others = (0..certificate.links.len()).filter(|&link| !slice.has(link));
    let words: Vec<String> = others
        .map(|link| {
            format!(
                "link {link}: 0–{}",
                link_intervals(certificate, link)[0].high
            )
        })
        .collect();
    if words.is_empty() {
        return axes;
    }
    format!(
        "{axes} The other links are in their first intervals ({}).",
        words.join(", ")
    )
}
