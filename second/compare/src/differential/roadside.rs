//! The roadside crate with slices of other lengths. A state of another length gets 18 from every call, before every
//! other test, and its bytes stay. Bytes of queues that are not four a link get 16, after 18.

use super::slices::{other_sizes, resized};
use crate::library::NO_STATE;
use crate::numbers::Numbers;
use crate::roadside::{self, packed_answer, shown_answer};
use crate::sides::{agree_bytes, agree_results, Agreed, Sides};
use second::Certificate;

/// One of the exported functions on a state.
type Call<'a> = dyn Fn(&mut [u8]) -> u64 + 'a;

/// Makes every call with states of other lengths, and queries with bytes of other counts. The state may hold this
/// certificate.
pub fn compare(
    bytes: &[u8],
    certificate: &Certificate,
    sides: &Sides,
    numbers: &mut Numbers,
) -> Agreed<()> {
    let links = certificate.links.len();
    other_states(bytes, links, sides, numbers)?;
    let most = 4 * links;
    let any = numbers.below(60);
    for count in [most, most - 4, most - 1, most + 1, most + 4, 0, 40, any] {
        other_queues(count, sides, numbers)?;
    }
    Ok(())
}

/// States of other lengths, the empty one too, with arguments that would be accepted and with others.
fn other_states(bytes: &[u8], links: usize, sides: &Sides, numbers: &mut Numbers) -> Agreed<()> {
    let queues = vec![0; numbers.pick(&[4 * links, 3])];
    let scale = numbers.pick(&[0, 1]);
    let detectors = vec![numbers.pick(&[0, 0, 1, 2]); numbers.pick(&[18 * links, 17])];
    let fresh: &Call = &|state| roadside::fresh(state);
    let load: &Call = &|state| roadside::load(state, bytes);
    let query: &Call = &|state| roadside::query(state, &queues, scale);
    let poll: &Call = &|state| roadside::poll(state, &detectors);
    let calls = [
        ("fresh", fresh),
        ("load", load),
        ("query", query),
        ("poll", poll),
    ];
    for (name, call) in calls {
        for size in other_sizes(numbers).into_iter().chain([0]) {
            let due = resized(&sides.library, size);
            let mut state = due.clone();
            let told = || format!("roadside {name} with a state of {size} bytes");
            agree_results(told, shown_answer, NO_STATE.into(), call(&mut state))?;
            agree_bytes(told, &due, &state)?;
        }
    }
    Ok(())
}

/// A query whose queues are so many bytes. Where that is no whole number of queues it is due what a query without
/// any gets, as no certificate has no link.
fn other_queues(count: usize, sides: &Sides, numbers: &mut Numbers) -> Agreed<()> {
    let bytes: Vec<u8> = (0..count)
        .map(|at| u8::from(at % 4 == 3 && numbers.chance(50)))
        .collect();
    let scale = numbers.pick(&[1, 1, 7, 0]);
    let queues: Vec<u32> = match count % 4 {
        0 => bytes.chunks(4).map(whole_queue).collect(),
        _ => Vec::new(),
    };
    let mut after = Sides {
        own: sides.own.clone(),
        library: sides.library.clone(),
    };
    let due = packed_answer(after.own.query(&queues, scale));
    let told = || format!("roadside query of {bytes:?} over {scale}");
    let result = roadside::query(&mut after.library, &bytes, scale);
    agree_results(told, shown_answer, due, result)?;
    after.agree_states(told)
}

/// Four bytes, high byte first.
fn whole_queue(bytes: &[u8]) -> u32 {
    bytes
        .iter()
        .fold(0, |queue, &byte| queue << 8 | u32::from(byte))
}
