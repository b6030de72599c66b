//! Who is on the roster, who is blocked and who waits, told from the calls and
//! answers alone. The engine's own tables are held against this after each call.

use crate::{
    kinds::{KeyKind, PeerKind},
    script::{OutcomeName, Rule},
};
use std::collections::{BTreeMap, BTreeSet};

pub struct History<P, K> {
    /// The list of the last `reconcile` that was not refused.
    pub roster: Vec<P>,
    /// The list of the last `set_blocked` that was not refused.
    pub blocked: Vec<P>,
    /// For each key that somebody waits for, those who do.
    pub waits: BTreeMap<K, BTreeSet<P>>,
}

impl<P, K> Default for History<P, K> {
    fn default() -> Self {
        Self {
            roster: Vec::new(),
            blocked: Vec::new(),
            waits: BTreeMap::new(),
        }
    }
}

impl<P: PeerKind, K: KeyKind> History<P, K> {
    pub fn wanted(&mut self, key: K, subscribers: &[P]) {
        self.waits.entry(key).or_default().extend(subscribers);
    }

    /// A verdict on a delivery of this key to these subscribers.
    pub fn judged(&mut self, key: &K, delivered: &[P], accepted: bool, outcome: OutcomeName) {
        let gone = match outcome {
            OutcomeName::Complete | OutcomeName::None => false,
            OutcomeName::Partial | OutcomeName::Unresolved => return,
            OutcomeName::Invalid if !accepted => return,
            OutcomeName::Invalid | OutcomeName::Ignored => true,
        };
        let Some(waits) = self.waits.get_mut(key) else {
            return;
        };
        waits.retain(|subscriber| !gone && !delivered.contains(subscriber));
        if waits.is_empty() {
            self.waits.remove(key);
        }
    }

    pub fn retained(&mut self, rule: &Rule<P>) {
        self.waits.retain(|key, waits| {
            waits.retain(|subscriber| rule.keeps(key, subscriber));
            !waits.is_empty()
        });
    }
}
