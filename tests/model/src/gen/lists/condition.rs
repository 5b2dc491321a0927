//! The condition on the flips of a list.

use std::collections::HashSet;

use crate::calls::{Call, Outcome};
use crate::flat::{doubleword, FlatMachine};
use crate::record::Record;

/// True if a list meets LIST-6, judged by the flat machine's refusals; an
/// independent check on [`super::list`].
pub fn keeps_condition(record: &Record, calls: &[Call]) -> bool {
    let mut flat = FlatMachine::of_record(record).expect("a record just switched on");
    let mut flipped = HashSet::new();
    calls.iter().all(|call| {
        let accepted = !matches!(flat.step(call), Some(Outcome::Refused(_)));
        match call {
            Call::Flip { address, .. } if accepted => flipped.insert(doubleword(*address)),
            Call::Scrub { address } if accepted => {
                flipped.remove(&doubleword(*address));
                true
            }
            Call::Write { address, bytes } if accepted => {
                for (address, _) in (*address..=u32::MAX).zip(bytes) {
                    flipped.remove(&doubleword(address));
                }
                true
            }
            Call::BurstWrite { address, .. } if accepted => {
                flipped.retain(|flipped| flipped / 4 != address / 32);
                true
            }
            _ => true,
        }
    })
}
