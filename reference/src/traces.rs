//! The trace checker: which policies have a trace?

use crate::answer::{Holders, Refusal};
use crate::automaton::{Automaton, Step, START};
use crate::names::{Fields, Tables};
use crate::packets::{set, Packets};
use crate::policy::{self, NodeLists, Policy};
use crate::search::test_work;

/// Checks a trace. Tests the tables, 4 to 8, 19, 9, 3, 10 for the work list, then 13.
pub fn check(
    tables: Tables,
    left: NodeLists,
    right: NodeLists,
    entering: u16,
    trace: &[u16],
    work: &mut [u32],
) -> Result<Holders, Refusal> {
    let pair = policy::pair(&Fields::new(tables)?, left, right)?;
    test_work(work.len())?;
    work.fill(0);
    let count = pair.numbering.count();
    let out_of_range = |&packet: &u16| usize::from(packet) >= count;
    if out_of_range(&entering) {
        return Err(Refusal::new(13, 0));
    }
    if let Some(at) = trace.iter().position(out_of_range) {
        return Err(Refusal::new(13, at + 1));
    }
    let packets = Packets::new(pair.numbering);
    let left = has_trace(&packets, &pair.left, entering.into(), trace);
    let right = has_trace(&packets, &pair.right, entering.into(), trace);
    Ok(match (left, right) {
        (true, true) => Holders::Both,
        (true, false) => Holders::Left,
        (false, true) => Holders::Right,
        (false, false) => Holders::Neither,
    })
}

/// Is the trace one of the policy's from the entering packet?
fn has_trace(packets: &Packets, policy: &Policy, entering: usize, trace: &[u16]) -> bool {
    let (&last, recorded) = match trace.split_last() {
        Some(parts) => parts,
        None => return false,
    };
    let mut automaton = Automaton::new(packets, policy);
    let mut step = Step::new(packets);
    let (mut state, mut packet) = (START, entering);
    for &next in recorded {
        if state == 0 {
            return false;
        }
        automaton.step(state, packet, &mut step);
        packet = next.into();
        state = step.next(packet);
    }
    automaton.step(state, packet, &mut step);
    set::contains(step.output(), last.into())
}
