use ahash::AHashMap;
use std::{collections::BTreeSet, hash::Hash};

/// Items with priorities. They come in the order of priority, then of the item.
#[derive(Clone, Debug)]
pub struct PrioritySet<I, P> {
    order: BTreeSet<Entry<I, P>>,
    priorities: AHashMap<I, P>,
}

// The order of the fields is the order of the set.
#[derive(Clone, Debug, PartialEq, Eq, PartialOrd, Ord)]
struct Entry<I, P> {
    priority: P,
    item: I,
}

impl<I, P> Default for PrioritySet<I, P>
where
    I: Clone + Ord + Hash,
    P: Copy + Ord,
{
    fn default() -> Self {
        Self::new()
    }
}

impl<I, P> PrioritySet<I, P>
where
    I: Clone + Ord + Hash,
    P: Copy + Ord,
{
    pub fn new() -> Self {
        Self {
            order: BTreeSet::new(),
            priorities: AHashMap::new(),
        }
    }

    /// Puts an item in, or changes its priority.
    pub fn put(&mut self, item: I, priority: P) {
        if let Some(priority) = self.priorities.insert(item.clone(), priority) {
            let item = item.clone();
            self.order.remove(&Entry { priority, item });
        }
        self.order.insert(Entry { priority, item });
    }

    /// Takes an item out. Says whether it was there.
    pub fn remove(&mut self, item: &I) -> bool {
        let Some(priority) = self.priorities.remove(item) else {
            return false;
        };
        let item = item.clone();
        self.order.remove(&Entry { priority, item })
    }

    /// Takes the first item out.
    pub fn pop(&mut self) -> Option<(I, P)> {
        let Entry { priority, item } = self.order.pop_first()?;
        self.priorities.remove(&item);
        Some((item, priority))
    }

    pub fn peek(&self) -> Option<(&I, &P)> {
        self.iter().next()
    }

    pub fn iter(&self) -> impl Iterator<Item = (&I, &P)> {
        self.order
            .iter()
            .map(|entry| (&entry.item, &entry.priority))
    }

    /// Keeps the items that the predicate says yes to.
    pub fn retain(&mut self, predicate: impl Fn(&I) -> bool) {
        self.order.retain(|entry| predicate(&entry.item));
        self.priorities.retain(|item, _| predicate(item));
    }

    pub fn contains(&self, item: &I) -> bool {
        self.priorities.contains_key(item)
    }

    pub fn is_empty(&self) -> bool {
        self.order.is_empty()
    }

    pub fn len(&self) -> usize {
        self.order.len()
    }
}
