//! Weighted and uniform draws.
//!
//! A weighted pick takes x below the sum left and answers the first place whose
//! running sum exceeds x. A uniform pick answers the below(number left)-th of
//! the places that have a weight and are left. When a draw over a lent index
//! ends, on every way out, each weight that it took out is back.

use rand_core::{Rng, below};
use std::ops::{Deref, DerefMut};

/// Running sums over places, with each step in logarithmic time.
#[derive(Clone, Debug)]
struct Sums {
    // tree[i] is the sum over the 2^k places that end at i, where 2^k is the
    // lowest bit of i. The row starts at 1; tree[0] stays 0.
    tree: Vec<u64>,
}

impl Sums {
    fn new(values: &[u64]) -> Self {
        let mut tree = vec![0; values.len() + 1];
        for (place, value) in values.iter().enumerate() {
            let node = place + 1;
            tree[node] += value;
            let parent = node + lowest_bit(node);
            if parent < tree.len() {
                tree[parent] += tree[node];
            }
        }
        Self { tree }
    }

    fn change(&mut self, place: usize, from: u64, to: u64) {
        let mut node = place + 1;
        while node < self.tree.len() {
            self.tree[node] = self.tree[node] - from + to;
            node += lowest_bit(node);
        }
    }

    /// The first place whose running sum exceeds `x`.
    fn find(&self, mut x: u64) -> usize {
        let mut node = 0;
        let mut step = self.tree.len().next_power_of_two();
        while step > 0 {
            let next = node + step;
            if next < self.tree.len() && self.tree[next] <= x {
                node = next;
                x -= self.tree[next];
            }
            step /= 2;
        }
        node
    }
}

const fn lowest_bit(n: usize) -> usize {
    n & n.wrapping_neg()
}

/// Weights by place.
#[derive(Clone, Debug)]
pub struct WeightedIndex {
    weights: Vec<u64>,
    sums: Sums,
    counts: Sums,
    total: u64,
    count: u64,
}

impl WeightedIndex {
    pub fn new(weights: impl IntoIterator<Item = u64>) -> Self {
        let weights: Vec<u64> = weights.into_iter().collect();
        let ones: Vec<u64> = weights.iter().copied().map(one).collect();
        Self {
            sums: Sums::new(&weights),
            counts: Sums::new(&ones),
            total: weights.iter().sum(),
            count: ones.iter().sum(),
            weights,
        }
    }

    pub fn weight(&self, place: usize) -> u64 {
        self.weights[place]
    }

    pub fn total(&self) -> u64 {
        self.total
    }

    pub fn set(&mut self, place: usize, weight: u64) {
        let old = std::mem::replace(&mut self.weights[place], weight);
        self.sums.change(place, old, weight);
        self.total = self.total - old + weight;
        if one(old) != one(weight) {
            self.counts.change(place, one(old), one(weight));
            self.count = self.count - one(old) + one(weight);
        }
    }

    pub fn update(&mut self, place: usize, change: impl FnOnce(u64) -> u64) {
        self.set(place, change(self.weights[place]));
    }

    /// A draw over this index, which is as before once the draw ends.
    pub fn without_replacement(&mut self) -> WithoutReplacement<'_> {
        WithoutReplacement {
            index: Index::Lent(self),
            drawn: Vec::new(),
        }
    }

    /// A draw that owns its index.
    pub fn into_without_replacement(self) -> WithoutReplacement<'static> {
        WithoutReplacement {
            index: Index::Own(self),
            drawn: Vec::new(),
        }
    }
}

/// What a weight counts for in a uniform pick.
const fn one(weight: u64) -> u64 {
    if weight == 0 { 0 } else { 1 }
}

enum Index<'a> {
    Lent(&'a mut WeightedIndex),
    Own(WeightedIndex),
}

impl Deref for Index<'_> {
    type Target = WeightedIndex;

    fn deref(&self) -> &WeightedIndex {
        match self {
            Self::Lent(index) => index,
            Self::Own(index) => index,
        }
    }
}

impl DerefMut for Index<'_> {
    fn deref_mut(&mut self) -> &mut WeightedIndex {
        match self {
            Self::Lent(index) => index,
            Self::Own(index) => index,
        }
    }
}

/// Picks that do not repeat a place.
pub struct WithoutReplacement<'a> {
    index: Index<'a>,
    drawn: Vec<(usize, u64)>,
}

impl WithoutReplacement<'_> {
    pub fn is_empty(&self) -> bool {
        self.index.total == 0
    }

    /// A pick by weight.
    pub fn sample<R: Rng>(&mut self, rng: &mut R) -> Option<usize> {
        if self.is_empty() {
            return None;
        }
        let x = below(rng, self.index.total);
        let place = self.index.sums.find(x);
        Some(self.take(place))
    }

    /// A pick in which every place left counts the same.
    pub fn sample_uniform<R: Rng>(&mut self, rng: &mut R) -> Option<usize> {
        if self.is_empty() {
            return None;
        }
        let x = below(rng, self.index.count);
        let place = self.index.counts.find(x);
        Some(self.take(place))
    }

    fn take(&mut self, place: usize) -> usize {
        self.drawn.push((place, self.index.weights[place]));
        self.index.set(place, 0);
        place
    }
}

impl Drop for WithoutReplacement<'_> {
    fn drop(&mut self) {
        while let Some((place, weight)) = self.drawn.pop() {
            self.index.set(place, weight);
        }
    }
}

#[cfg(test)]
mod tests {
    use super::*;

    struct Words(Vec<u64>);

    impl Rng for Words {
        fn next_u64(&mut self) -> u64 {
            self.0.remove(0)
        }
    }

    /// The same pick by adding up, place by place.
    fn plain_find(weights: &[u64], x: u64) -> usize {
        let mut sum = 0;
        weights
            .iter()
            .position(|weight| {
                sum += weight;
                sum > x
            })
            .unwrap()
    }

    #[test]
    fn every_weighted_pick_is_the_first_place_whose_running_sum_exceeds_x() {
        for weights in [
            vec![1],
            vec![0, 3, 0, 0, 2],
            vec![1, 1, 4, 0, 2, 7, 0, 1, 5],
        ] {
            let total: u64 = weights.iter().sum();
            for x in 0..total {
                let mut index = WeightedIndex::new(weights.iter().copied());
                let picked = index.without_replacement().sample(&mut Words(vec![x]));
                assert_eq!(picked, Some(plain_find(&weights, x)));
                assert_eq!(index.weights, weights);
                assert_eq!(index.total(), total);
            }
        }
    }

    #[test]
    fn uniform_picks_pass_over_places_without_weight() {
        let mut index = WeightedIndex::new([1001, 0, 3]);
        let mut draws = index.without_replacement();
        assert_eq!(draws.sample_uniform(&mut Words(vec![1])), Some(2));
        assert_eq!(draws.sample_uniform(&mut Words(vec![1])), Some(0));
        assert!(draws.is_empty());
        assert_eq!(draws.sample_uniform(&mut Words(vec![])), None);
        drop(draws);
        assert_eq!(index.weights, [1001, 0, 3]);
    }

    #[test]
    fn weighted_picks_at_the_edge() {
        let mut index = WeightedIndex::new([1001, 0, 3]);
        assert_eq!(
            index.without_replacement().sample(&mut Words(vec![1001])),
            Some(2)
        );
        assert_eq!(
            index.without_replacement().sample(&mut Words(vec![1000])),
            Some(0)
        );
    }
}
