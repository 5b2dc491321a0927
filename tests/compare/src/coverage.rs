//! Which answers occurred in a test. A random test fails if one of the answers
//! that it is meant to cover never occurred.

use std::collections::BTreeSet;
use std::fmt::Debug;

pub struct Coverage<K> {
    met: BTreeSet<K>,
}

impl<K: Ord + Debug> Coverage<K> {
    pub fn new() -> Self {
        Coverage {
            met: BTreeSet::new(),
        }
    }

    pub fn meet(&mut self, key: K) {
        self.met.insert(key);
    }

    pub fn extend(&mut self, keys: impl IntoIterator<Item = K>) {
        self.met.extend(keys);
    }

    /// An error that names the answers that should have occurred and did not.
    pub fn check(&self, wanted: impl IntoIterator<Item = K>) -> Result<(), String> {
        let lacking: Vec<K> = wanted
            .into_iter()
            .filter(|key| !self.met.contains(key))
            .collect();
        if lacking.is_empty() {
            Ok(())
        } else {
            Err(format!("the test never met {lacking:?}"))
        }
    }
}
