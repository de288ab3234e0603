//! Colours, text styles and how wide a text is.

/// Width of every picture, and where its contents begin and end.
pub const WIDTH: i32 = 1_000;
pub const LEFT: i32 = 24;
pub const RIGHT: i32 = WIDTH - LEFT;

/// Rules for all elements. Everything that colour tells is told by dashes, hatching or numbers too.
pub const RULES: &str = "\
text { font-family: Helvetica, Arial, 'Liberation Sans', 'DejaVu Sans', sans-serif; fill: #1f2a36 }
.title { font-size: 20px; font-weight: bold }
.heading { font-size: 14px; font-weight: bold }
.body { font-size: 12px }
.strong { font-size: 13px; font-weight: bold }
.small { font-size: 10px }
.head { font-size: 10px; fill: #5d6b78 }
.label { font-size: 10px; paint-order: stroke; stroke: #ffffff; stroke-width: 4px; stroke-linejoin: round }
.badge { font-size: 11px; font-weight: bold; fill: #ffffff }
.rank { font-size: 13px; font-weight: bold }
.tiny { font-size: 9px }
.on-line text { paint-order: stroke; stroke-width: 4px; stroke-linejoin: round }
.goal-text { font-size: 10px; fill: #23643e }
.safe-text { font-size: 10px; fill: #8f4a00 }
.alarm { fill: #b3261e; font-weight: bold }
.frame { fill: #fafbfc; stroke: #d5dce2; stroke-width: 1 }
.rule { stroke: #d5dce2; stroke-width: 1 }
.edge { stroke: #5d6b78; stroke-width: 3 }
.link { fill: none; stroke: #3b4f63; stroke-width: 2 }
.link-alarm { fill: none; stroke: #b3261e; stroke-width: 3 }
.tip { fill: #3b4f63 }
.tip-alarm { fill: #b3261e }
.junction { fill: #ffffff; stroke: #1f2a36; stroke-width: 2 }
.cell { stroke: #93a1ad; stroke-width: 1 }
.goal { fill: none; stroke: #2f7d4f; stroke-width: 2; stroke-dasharray: 9 4 }
.safe { fill: none; stroke: #b8640a; stroke-width: 2; stroke-dasharray: 2 3 }
.entry { fill: none; stroke: #b3261e; stroke-width: 3 }
.successor { fill: none; stroke: #123f73; stroke-width: 3; stroke-dasharray: 6 3 }
.halo { fill: none; stroke: #ffffff; stroke-width: 5; stroke-linejoin: round }
.step { fill: none; stroke: #b3261e; stroke-width: 2; stroke-linejoin: round }
";

/// How a text looks.
#[derive(Clone, Copy, Debug, PartialEq, Eq)]
pub enum Style {
    Title,
    Heading,
    Body,
    Strong,
    Small,
    /// Heads of tables and other asides.
    Head,
    /// Small text that may lie on a line.
    Label,
    Badge,
    Rank,
    Tiny,
    Goal,
    Safe,
}

impl Style {
    /// Its class in the rules.
    pub fn class(self) -> &'static str {
        match self {
            Style::Title => "title",
            Style::Heading => "heading",
            Style::Body => "body",
            Style::Strong => "strong",
            Style::Small => "small",
            Style::Head => "head",
            Style::Label => "label",
            Style::Badge => "badge",
            Style::Rank => "rank",
            Style::Tiny => "tiny",
            Style::Goal => "goal-text",
            Style::Safe => "safe-text",
        }
    }

    /// Pixels from line to line of a text, and whether it is bold.
    fn measure(self) -> (i32, bool) {
        match self {
            Style::Title => (20, true),
            Style::Heading => (14, true),
            Style::Strong | Style::Rank => (13, true),
            Style::Body => (12, false),
            Style::Badge => (11, true),
            Style::Small | Style::Head | Style::Label | Style::Goal | Style::Safe => (10, false),
            Style::Tiny => (9, false),
        }
    }

    /// Pixels that a text is wide at most, by the widest of the usual sans-serif fonts.
    pub fn width(self, text: &str) -> i32 {
        let (size, bold) = self.measure();
        let thousandths: i32 = text.chars().map(thousandths).sum();
        let extra = if bold { 110 } else { 100 };
        (thousandths * size * extra + 99_999) / 100_000
    }

    /// The text in lines that are no wider than `most`, broken between words.
    pub fn wrap(self, text: &str, most: i32) -> Vec<String> {
        let mut lines: Vec<String> = Vec::new();
        for word in text.split(' ') {
            match lines.last_mut() {
                Some(line) if self.width(&format!("{line} {word}")) <= most => {
                    line.push(' ');
                    line.push_str(word);
                }
                _ => lines.push(word.to_string()),
            }
        }
        lines
    }
}

/// Width of a character in thousandths of the text's size.
fn thousandths(character: char) -> i32 {
    match character {
        ' ' | '.' | ',' | ':' | 'i' | 'j' | 'l' => 330,
        'f' | 'r' | 't' | '(' | ')' | '\'' => 410,
        'm' | 'w' => 980,
        'A'..='Z' | '→' | '×' | '=' => 840,
        _ => 640,
    }
}
