//! The order of parts: always the lowest-numbered part whose direct sources all are before it.

use crate::model::{Part, MOST_PARTS};
use std::cmp::Reverse;
use std::collections::BinaryHeap;

/// The order of the parts, or none if wires into direct ports close a loop. Every source is a part.
pub(crate) fn order(parts: &[Part]) -> Option<Vec<u8>> {
    let mut missing = vec![0; parts.len()];
    let mut readers = vec![Vec::new(); parts.len()];
    for (reader, part) in parts.iter().enumerate() {
        for source in part.direct_sources() {
            missing[reader] += 1;
            readers[source].push(reader);
        }
    }
    let mut ready: BinaryHeap<_> = (0..parts.len()).filter(|&i| missing[i] == 0).map(Reverse).collect();
    let mut order = Vec::with_capacity(parts.len());
    while let Some(Reverse(next)) = ready.pop() {
        order.push(next as u8);
        for &reader in &readers[next] {
            missing[reader] -= 1;
            if missing[reader] == 0 {
                ready.push(Reverse(reader));
            }
        }
    }
    (order.len() == parts.len()).then_some(order)
}

/// Whether `given` is what [`order`] gives for these parts, found without building it again.
///
/// A part must be after its direct sources, and where a higher number is before it, it must have been held up
/// there: between the nearest such higher number (itself counted) and the part is one of its direct sources.
pub(crate) fn is_the_order(parts: &[Part], given: &[u8]) -> bool {
    if given.len() != parts.len() || parts.len() > MOST_PARTS {
        return false;
    }
    // Where each part is, counted from 1; 0 as long as it is not.
    let mut place = [0u8; MOST_PARTS];
    // Of the parts placed so far, those without a higher number after them, so in falling order.
    let mut higher = [0u8; MOST_PARTS];
    let mut height = 0;
    for (at, &number) in (1..).zip(given) {
        let Some(part) = parts.get(usize::from(number)) else { return false };
        if place[usize::from(number)] != 0 {
            return false;
        }
        let mut last_source = 0;
        for source in part.direct_sources() {
            if place[source] == 0 {
                return false;
            }
            last_source = last_source.max(place[source]);
        }
        while height > 0 && higher[height - 1] < number {
            height -= 1;
        }
        if height > 0 && last_source < place[usize::from(higher[height - 1])] {
            return false;
        }
        higher[height] = number;
        height += 1;
        place[usize::from(number)] = at;
    }
    true
}
