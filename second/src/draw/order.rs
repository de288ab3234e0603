//! The order of junctions from left to right.

use crate::certificate::Link;

/// All junctions, as a walk along the links meets them. A walk starts where no link leads to from inside,
/// first where a link comes in from outside; then where none has been yet.
pub fn junction_order(links: &[Link]) -> Vec<u8> {
    let mut starts: Vec<u8> = Vec::new();
    for junction in links.iter().flat_map(|link| [link.tail, link.head]) {
        if junction != 0 && !starts.contains(&junction) {
            starts.push(junction);
        }
    }
    starts.sort_by_key(|&junction| {
        let leads_here = |inside: bool| {
            links
                .iter()
                .any(|link| link.head == junction && (link.tail != 0) == inside)
        };
        (leads_here(true), !leads_here(false))
    });
    let mut order = Vec::new();
    for start in starts {
        walk(links, start, &mut order);
    }
    order
}

/// Adds a junction and all that its links lead to, each once.
fn walk(links: &[Link], junction: u8, order: &mut Vec<u8>) {
    if order.contains(&junction) {
        return;
    }
    order.push(junction);
    for link in links.iter().filter(|link| link.tail == junction) {
        walk(links, link.head, order);
    }
}
