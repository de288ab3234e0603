//! The rules of MD records and of goal numbers, once more and in the plainest way.

/// An MD record as it stands.
pub struct Mode {
    pub signal: u8,
    pub number: u8,
    pub goals: Vec<u16>,
}

/// What an MD record is tested against.
pub struct Limits {
    pub signals: u8,
    pub safe: Vec<u16>,
    pub cap: Vec<u16>,
}

/// The goal numbers of an entry's mode and next mode, the greatest one, and the greatest of modes that are listed.
#[derive(Clone, Copy)]
pub struct Step {
    pub from: u8,
    pub to: u8,
    pub rank: u16,
    pub greatest: u8,
    pub listed: u8,
}

pub fn keeps_turn(step: Step) -> bool {
    match step.rank {
        0 => step.to == (step.from + 1) % (step.greatest + 1),
        _ => step.to == step.from,
    }
}

/// Has a mode that cannot stand alone?
pub fn is_out_of_bounds(mode: &Mode, limits: &Limits) -> bool {
    let mut goals = mode.goals.iter().zip(&limits.safe);
    mode.signal >= limits.signals || mode.number > 7 || goals.any(|(goal, safe)| goal > safe)
}

pub fn is_unlike(one: &Mode, other: &Mode) -> bool {
    one.number == other.number && one.goals != other.goals
}

pub fn has_gap(modes: &[Mode]) -> bool {
    let is_used = |number: u8| modes.iter().any(|mode| mode.number == number);
    (0..7).any(|number| !is_used(number) && (number + 1..8).any(is_used))
}

/// The last of these modes is at fault; there are so many modes in all.
pub fn is_faulty_mode(modes: &[Mode], count: usize, limits: &Limits) -> bool {
    let Some((last, before)) = modes.split_last() else {
        return false;
    };
    is_out_of_bounds(last, limits)
        || before.iter().any(|mode| is_unlike(mode, last))
        || modes.len() == count && has_gap(modes)
}
