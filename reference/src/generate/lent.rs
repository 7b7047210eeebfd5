//! What stands in lent lists before a call: entries that differ from place to place, so that an entry that is moved, or
//! not written, shows.

use crate::case::Case;
use crate::random::Random;

/// Odd, so that as many places as an entry has values hold different ones, also where only its lower bits are kept.
const STEP: u64 = 0x9e37_79b9_7f4a_7c15;

/// The entry at a place of a list with this first entry.
pub fn entry(first: u64, place: usize) -> u64 {
    first.wrapping_add((place as u64).wrapping_mul(STEP))
}

fn fill_list<T>(random: &mut Random, list: &mut [T], kept: fn(u64) -> T) {
    let first = random.bits();
    for (place, at) in list.iter_mut().enumerate() {
        *at = kept(entry(first, place));
    }
}

/// Fills the lists that a call may write, each from another first entry, by a number of the case.
pub fn fill(case: &mut Case, number: usize) {
    let random = &mut Random::new(number as u64);
    let narrow = |entry| entry as u16;
    let word = |entry| entry as u32;
    let state = |entry| entry;
    match case {
        Case::Values { values, .. } => fill_list(random, values, narrow),
        Case::Read { nodes, .. } => {
            fill_list(random, &mut nodes.kind, |entry| entry as u8);
            fill_list(random, &mut nodes.first, narrow);
            fill_list(random, &mut nodes.second, narrow);
        }
        Case::Search { lists, .. } | Case::Texts { lists, .. } => {
            fill_list(random, &mut lists.packet, narrow);
            fill_list(random, &mut lists.left, state);
            fill_list(random, &mut lists.right, state);
            fill_list(random, &mut lists.parent, narrow);
            fill_list(random, &mut lists.trace, narrow);
            fill_list(random, &mut lists.work, word);
        }
        Case::Evidence { lists, .. } => fill_list(random, &mut lists.work, word),
        Case::Records { work, .. } | Case::Trace { work, .. } => fill_list(random, work, word),
        Case::Number { .. }
        | Case::Policy { .. }
        | Case::Policies { .. }
        | Case::Program { .. } => {}
    }
}
