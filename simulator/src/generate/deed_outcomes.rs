//! What becomes of the guarded deeds of a sequence.

use crate::deeds::{GuardedDeed, Scene};
use crate::expressions::Evaluator;
use crate::refusals::Refusal;

pub const OUTCOMES: [&str; 6] = [
    "a guard that holds",
    "a guard that fails",
    "a guard that faults",
    "a guard that holds by a deed before it",
    "a guard that fails by a deed before it",
    "a deed left out that would fault",
];

/// Runs the deeds up to a fault, and tells which of the `OUTCOMES` there were.
pub fn outcomes(scene: &mut Scene, deeds: &[GuardedDeed]) -> Vec<&'static str> {
    let nodes = scene.nodes;
    let first = *scene.values;
    let mut met = Vec::new();
    for deed in deeds {
        if let Some(guard) = deed.guard {
            let at_first = Evaluator { nodes, variables: &first }.truth(guard);
            let now = Evaluator { nodes, variables: scene.values }.truth(guard);
            met.extend(of_guard(at_first, now));
            if now == Ok(false) && done_anyway(scene, deed).is_err() {
                met.push(OUTCOMES[5]);
            }
        }
        if scene.run([deed]).is_err() {
            break;
        }
    }
    met
}

fn of_guard(at_first: Result<bool, Refusal>, now: Result<bool, Refusal>) -> Vec<&'static str> {
    let (outcome, changed) = match now {
        Ok(true) => (OUTCOMES[0], Some(OUTCOMES[3])),
        Ok(false) => (OUTCOMES[1], Some(OUTCOMES[4])),
        Err(_) => (OUTCOMES[2], None),
    };
    [outcome].into_iter().chain(changed.filter(|_| at_first != now)).collect()
}

/// The deed without its guard, on a copy.
fn done_anyway(scene: &Scene, deed: &GuardedDeed) -> Result<(), Refusal> {
    let (mut values, mut events) = (*scene.values, *scene.events);
    let mut copy =
        Scene { nodes: scene.nodes, variables: scene.variables, values: &mut values, events: &mut events };
    copy.run([&GuardedDeed { guard: None, ..*deed }])
}
