//! Slices of other lengths. A report that is too short gets 255, and nothing changes; of a longer one only the due part
//! changes. A state of another length gets 18, in the report too, and its bytes and the buffer stay.

use crate::library::{
    self, NO_STATE, REPORT_SIZE, SHOWN_SIZE, STATE_SIZE, TOO_SHORT, VERDICT_SIZE,
};
use crate::numbers::Numbers;
use crate::sides::{agree_bytes, lent_buffer, Agreed, Sides};

/// What stands in a report before a call.
const BEFORE: u32 = 0x5A5A_5A5A;

/// One of the exported functions on a state, a report and a buffer.
type Call<'a> = dyn Fn(&mut [u8], &mut [u32], &mut [u8]) -> u32 + 'a;

/// All that a call may change, and its result.
#[derive(Clone)]
struct Lent {
    state: Vec<u8>,
    report: Vec<u32>,
    buffer: Vec<u8>,
    result: u32,
}

impl Lent {
    fn after(mut self, call: &Call) -> Lent {
        self.result = call(&mut self.state, &mut self.report, &mut self.buffer);
        self
    }

    fn bytes(&self) -> Vec<u8> {
        let mut bytes = self.result.to_be_bytes().to_vec();
        bytes.extend(self.report.iter().flat_map(|number| number.to_be_bytes()));
        bytes.extend(&self.state);
        bytes.extend(&self.buffer);
        bytes
    }
}

/// Makes every call with reports, and with states, of other lengths.
pub fn compare(bytes: &[u8], sides: &Sides, numbers: &mut Numbers) -> Agreed<()> {
    let queues = [0; 8];
    let queues = &queues[..numbers.below(9)];
    let screen: &Call = &|_, report, _| library::screen(bytes, report);
    let judge: &Call = &|_, verdict, _| library::judge(bytes, verdict);
    let fresh: &Call = &|state, _, _| library::fresh(state);
    let load: &Call = &|state, verdict, _| library::load(state, bytes, verdict);
    let query: &Call = &|state, shown, _| library::query(state, queues, 1, shown);
    let write: &Call = &|state, report, buffer| library::write(state, buffer, 0, report);
    let list: &Call = &|_, report, buffer| library::list(bytes, buffer, report);
    let calls = [
        ("screen", REPORT_SIZE, 0, screen),
        ("judge", VERDICT_SIZE, 0, judge),
        ("fresh", 0, STATE_SIZE, fresh),
        ("load", VERDICT_SIZE, STATE_SIZE, load),
        ("query", SHOWN_SIZE, STATE_SIZE, query),
        ("write", REPORT_SIZE, STATE_SIZE, write),
        ("list", REPORT_SIZE, 0, list),
    ];
    for (name, report, state, call) in calls {
        let lent = Lent {
            state: sides.library[..state].to_vec(),
            report: vec![BEFORE; report],
            buffer: lent_buffer(numbers.below(3_000)),
            result: 0,
        };
        if report > 0 {
            for size in [report - 1, numbers.below(report)] {
                short_report(name, &lent, call, size, numbers)?;
            }
            long_report(name, &lent, call, numbers)?;
        }
        if state > 0 {
            for size in other_sizes(numbers) {
                other_state(name, &lent, call, size)?;
            }
        }
    }
    Ok(())
}

/// Lengths that are no state's: one byte less, one more, and any.
pub(super) fn other_sizes(numbers: &mut Numbers) -> [usize; 4] {
    let less = numbers.below(STATE_SIZE);
    let more = STATE_SIZE + numbers.between(1, 5_000) as usize;
    [STATE_SIZE - 1, STATE_SIZE + 1, less, more]
}

/// As many bytes of a state, and others behind them where it has fewer.
pub(super) fn resized(state: &[u8], size: usize) -> Vec<u8> {
    let mut state = state.to_vec();
    state.extend(lent_buffer(size.saturating_sub(state.len())));
    state.truncate(size);
    state
}

/// A report of so many numbers, too few: 255, and nothing changes, whatever the state's length.
fn short_report(
    name: &str,
    lent: &Lent,
    call: &Call,
    size: usize,
    numbers: &mut Numbers,
) -> Agreed<()> {
    let mut before = lent.clone();
    before.report.truncate(size);
    if !lent.state.is_empty() && numbers.chance(50) {
        let sizes = other_sizes(numbers);
        before.state = resized(&lent.state, numbers.pick(&sizes));
    }
    let after = before.clone().after(call);
    before.result = TOO_SHORT;
    let told = || {
        let (report, state) = (before.report.len(), before.state.len());
        format!("{name} with a report of {report} numbers and a state of {state} bytes")
    };
    agree_bytes(told, &before.bytes(), &after.bytes())
}

/// A longer report: as with the due length, and the rest stays.
fn long_report(name: &str, lent: &Lent, call: &Call, numbers: &mut Numbers) -> Agreed<()> {
    let more = vec![BEFORE; numbers.between(1, 5) as usize];
    let mut longer = lent.clone();
    longer.report.extend(&more);
    let mut due = lent.clone().after(call);
    due.report.extend(&more);
    let told = || format!("{name} with a report longer by {}", more.len());
    agree_bytes(told, &due.bytes(), &longer.after(call).bytes())
}

/// A state of another length: 18 and else zeros in the report, and state and buffer stay.
fn other_state(name: &str, lent: &Lent, call: &Call, size: usize) -> Agreed<()> {
    let mut due = lent.clone();
    due.state = resized(&lent.state, size);
    let after = due.clone().after(call);
    due.report.fill(0);
    if let Some(number) = due.report.first_mut() {
        *number = NO_STATE;
    }
    due.result = NO_STATE;
    let told = || format!("{name} with a state of {size} bytes");
    agree_bytes(told, &due.bytes(), &after.bytes())
}
