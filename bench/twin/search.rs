//! The best rota: the thresholds rise place by place (Algorithm 4), and for each a search goes through the lowest open
//! variable's values upwards, with the lists narrowed after each choice.

use crate::lists::{Lists, highest, keep, values_from};
use crate::network::{Network, OBJECTIVES, VARIABLES};

/// A value for each variable.
pub type Rota = [u8; VARIABLES];

/// A search's network, objectives and thresholds: place i asks that all but i of the objectives reach floors[i].
struct Search<'a> {
    network: &'a Network,
    objectives: &'a [u8],
    floors: [u8; OBJECTIVES],
}

/// The best rota. The i-th threshold rises to the i-th of the sorted values found, and by one more for as long as a rota reaches it.
pub fn best(network: &Network, objectives: &[u8]) -> Option<Rota> {
    let mut search = Search {
        network,
        objectives,
        floors: [0; OBJECTIVES],
    };
    let mut rota = search.first()?;
    let mut i = 0;
    while i < objectives.len() {
        let reached = search.sorted(&rota)[i];
        search.floors[i] = reached + 1;
        match search.first() {
            Some(higher) => rota = higher,
            None => {
                search.floors[i] = reached;
                i += 1;
            }
        }
    }
    Some(rota)
}

impl Search<'_> {
    /// The objectives' values upwards.
    fn sorted(&self, rota: &Rota) -> Vec<u8> {
        let mut values: Vec<u8> = self.objectives.iter().map(|&x| rota[x as usize]).collect();
        values.sort_unstable();
        values
    }

    /// The first rota that meets every rule and reaches the thresholds.
    fn first(&self) -> Option<Rota> {
        let mut left = *self.network.lists();
        if left[..self.network.variables()].contains(&0) {
            return None;
        }
        if self.narrow(0, &mut left) {
            self.choose(&left)
        } else {
            None
        }
    }

    /// The first rota within narrowed lists. Where no variable is open, each list's only value makes it.
    fn choose(&self, lists: &Lists) -> Option<Rota> {
        let n = self.network.variables();
        let Some(x) = lists[..n]
            .iter()
            .position(|&list| list & list.wrapping_sub(1) != 0)
        else {
            return Some(lists.map(|list| list.trailing_zeros() as u8));
        };
        let mut rest = lists[x];
        while rest != 0 {
            let mut left = *lists;
            left[x] = rest & rest.wrapping_neg();
            if self.narrow(self.network.touching(x), &mut left) {
                let rota = self.choose(&left);
                if rota.is_some() {
                    return rota;
                }
            }
            rest &= rest - 1;
        }
        None
    }

    /// Filters by the rules that are due and by the thresholds, until neither drops anything;
    /// false where some list empties or the thresholds are out of reach.
    fn narrow(&self, mut due: u64, lists: &mut Lists) -> bool {
        loop {
            if !self.network.spread(due, true, lists) {
                return false;
            }
            match self.raise(lists) {
                None => return false,
                Some(0) => return true,
                Some(changed) => due = self.network.affected_by(changed, lists).0,
            }
        }
    }

    /// Drops the values with which a threshold cannot be reached. The answer is the set of the variables whose lists change,
    /// or none where a threshold is out of reach.
    fn raise(&self, lists: &mut Lists) -> Option<u64> {
        let count = self.objectives.len();
        let mut tops = [0; OBJECTIVES];
        for (top, &x) in tops.iter_mut().zip(self.objectives) {
            *top = highest(lists[x as usize]) as u8;
        }
        let tops = &tops[..count];
        let mut changed = 0;
        for (i, &floor) in self.floors[..count]
            .iter()
            .enumerate()
            .filter(|&(_, &floor)| floor > 0)
        {
            let enough = tops.iter().filter(|&&top| floor <= top).count();
            if enough < count - i {
                return None;
            }
            if enough == count - i {
                changed |= self.lift(tops, floor, lists);
            }
        }
        Some(changed)
    }

    /// Drops what lies below the floor from the list of each objective whose top reaches it.
    fn lift(&self, tops: &[u8], floor: u8, lists: &mut Lists) -> u64 {
        let mut changed = 0;
        for (&x, _) in self
            .objectives
            .iter()
            .zip(tops)
            .filter(|&(_, &top)| floor <= top)
        {
            changed |= keep(lists, x, values_from(floor as u32));
        }
        changed
    }
}
