//! The highest of many numbers, each with its place: the greatest first, and of equal ones the one of the lowest place.
use std::cmp::Reverse;
use std::collections::BinaryHeap;

/// A number and its place, x, y, z.
pub type Found = (i64, [usize; 3]);

/// As many as are asked for, of those that were offered.
pub struct Highest {
    count: usize,
    /// The lowest of those that are kept is the greatest here.
    kept: BinaryHeap<Reverse<(i64, Reverse<[usize; 3]>)>>,
}

impl Highest {
    pub fn new(count: usize) -> Highest {
        Highest { count, kept: BinaryHeap::new() }
    }

    /// Whether a number at a place would be kept.
    pub fn takes(&self, (number, at): Found) -> bool {
        self.kept.len() < self.count || self.kept.peek().is_some_and(|Reverse(lowest)| (number, Reverse(at)) > *lowest)
    }

    pub fn offer(&mut self, found: Found) {
        if !self.takes(found) {
            return;
        }
        if self.kept.len() == self.count {
            self.kept.pop();
        }
        self.kept.push(Reverse((found.0, Reverse(found.1))));
    }

    /// Those that are kept, the highest first.
    pub fn sorted(self) -> Vec<Found> {
        self.kept.into_sorted_vec().into_iter().map(|Reverse((number, Reverse(at)))| (number, at)).collect()
    }
}

#[cfg(test)]
mod tests {
    use super::*;

    /// Of numbers with many equal ones, in an order that is mixed, as many as are asked for, against all of them sorted.
    #[test]
    fn the_highest_of_all() {
        let numbers: Vec<Found> = (0..500).map(|turn: usize| ((turn * turn % 23) as i64 - 11, [turn * 37 % 11, turn * 13 % 7, turn])).collect();
        let mut sorted = numbers.clone();
        sorted.sort_by_key(|&(number, at)| (Reverse(number), at));
        for count in [0, 1, 2, 10, 499, 500, 600] {
            let mut highest = Highest::new(count);
            numbers.iter().for_each(|&found| highest.offer(found));
            assert_eq!(highest.sorted(), sorted[..count.min(500)]);
        }
    }
}
