//! All orders of an instant of a score or of a draft, where they are few enough.

use std::collections::{HashMap, HashSet};
use std::hash::Hash;

/// An order, as far as it has come.
pub trait Steps: Sized {
    /// What the rest of an order and its end hang on.
    type Point: Eq + Hash;
    type End: Eq + Hash;

    fn point(&self) -> Self::Point;
    /// The weight of the copies left.
    fn weight(&self) -> u64;
    /// The orders that are one step longer.
    fn onward(&self) -> Vec<Self>;
    /// The end of an order that is finished.
    fn end(&self) -> Self::End;
}

struct Search<O: Steps> {
    /// The points met, and the most steps that an order takes from each.
    longest: HashMap<O::Point, u64>,
    most_points: usize,
    ends: HashSet<O::End>,
}

/// The ends of all finished orders; nothing where they pass through too many points, and an error where an order is
/// longer than its weight.
pub fn ends<O: Steps>(start: O, most_points: usize) -> Result<Option<HashSet<O::End>>, String> {
    let mut search = Search { longest: HashMap::new(), most_points, ends: HashSet::new() };
    let longest = search.follow(&start)?;
    Ok(longest.map(|_| search.ends))
}

impl<O: Steps> Search<O> {
    /// The most steps that an order takes from here on.
    fn follow(&mut self, order: &O) -> Result<Option<u64>, String> {
        let point = order.point();
        if let Some(&longest) = self.longest.get(&point) {
            return Ok(Some(longest));
        }
        if self.longest.len() >= self.most_points {
            return Ok(None);
        }
        let Some(longest) = self.follow_steps(order)? else { return Ok(None) };
        let weight = order.weight();
        if longest > weight {
            return Err(format!("an order of {longest} steps has weight {weight}"));
        }
        self.longest.insert(point, longest);
        Ok(Some(longest))
    }

    fn follow_steps(&mut self, order: &O) -> Result<Option<u64>, String> {
        let onward = order.onward();
        if onward.is_empty() {
            self.ends.insert(order.end());
        }
        let mut longest = 0;
        for longer in &onward {
            let Some(steps) = self.follow(longer)? else { return Ok(None) };
            longest = longest.max(1 + steps);
        }
        Ok(Some(longest))
    }
}
