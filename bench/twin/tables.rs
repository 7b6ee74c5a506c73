//! Filtering by tables of allowed or of forbidden tuples.

use crate::lists::{Lists, keep};
use crate::network::VALUES;

/// A table's variables, and its tuples' values one after the other.
pub struct Table {
    pub scope: Vec<u8>,
    pub cells: Vec<u8>,
}

/// Calls a table's method with the arity as a constant, so that the loops over a tuple's places have a known length.
macro_rules! by_arity {
    ($table:ident.$method:ident($lists:ident)) => {
        match $table.scope.len() {
            1 => $table.$method::<1>($lists),
            2 => $table.$method::<2>($lists),
            3 => $table.$method::<3>($lists),
            4 => $table.$method::<4>($lists),
            5 => $table.$method::<5>($lists),
            6 => $table.$method::<6>($lists),
            7 => $table.$method::<7>($lists),
            _ => $table.$method::<8>($lists),
        }
    };
}

/// Drops what no allowed tuple supports. The answer is the set of the variables whose lists change.
pub fn filter_allowed(table: &Table, lists: &mut Lists) -> u64 {
    by_arity!(table.keep_listed(lists))
}

/// Drops what only forbidden tuples would support. The answer is the set of the variables whose lists change.
pub fn filter_forbidden(table: &Table, lists: &mut Lists) -> u64 {
    by_arity!(table.drop_listed(lists))
}

impl Table {
    /// A value stays where some live tuple has it.
    fn keep_listed<const ARITY: usize>(&self, lists: &mut Lists) -> u64 {
        let masks = self.gather::<ARITY>(lists);
        let mut marked = [0; ARITY];
        for tuple in self.live_tuples(&masks) {
            for j in 0..ARITY {
                marked[j] |= 1 << tuple[j];
            }
        }
        self.keep_each(&marked, lists)
    }

    /// A value goes where every way to choose the others is among the tuples.
    fn drop_listed<const ARITY: usize>(&self, lists: &mut Lists) -> u64 {
        let masks = self.gather::<ARITY>(lists);
        let ways = ways_of(&masks);
        let tuples = self.cells.len() / ARITY;
        if ways.iter().all(|&ways| ways > tuples) {
            return 0;
        }
        let mut counts = [[0u16; VALUES]; ARITY];
        for tuple in self.live_tuples(&masks) {
            for j in 0..ARITY {
                counts[j][tuple[j] as usize] += 1;
            }
        }
        let left = std::array::from_fn::<_, ARITY, _>(|j| fewer(masks[j], &counts[j], ways[j]));
        self.keep_each(&left, lists)
    }

    /// The lists of the table's variables, side by side: a mask for each place of a tuple.
    fn gather<const ARITY: usize>(&self, lists: &Lists) -> [u64; ARITY] {
        std::array::from_fn(|j| lists[self.scope[j] as usize])
    }

    /// The tuples whose values are all in their masks.
    fn live_tuples<const ARITY: usize>(
        &self,
        masks: &[u64; ARITY],
    ) -> impl Iterator<Item = &[u8; ARITY]> {
        let (tuples, _) = self.cells.as_chunks();
        tuples
            .iter()
            .filter(|tuple| (0..ARITY).all(|j| masks[j] >> tuple[j] & 1 == 1))
    }

    /// Keeps of the lists of the table's variables what the masks have too.
    fn keep_each<const ARITY: usize>(&self, masks: &[u64; ARITY], lists: &mut Lists) -> u64 {
        self.scope
            .iter()
            .zip(masks)
            .fold(0, |changed, (&x, &mask)| changed | keep(lists, x, mask))
    }
}

/// For each place in how many ways values can be chosen from all other masks.
fn ways_of<const ARITY: usize>(masks: &[u64; ARITY]) -> [usize; ARITY] {
    let sizes = masks.map(|mask| mask.count_ones() as usize);
    std::array::from_fn(|j| (0..ARITY).filter(|&i| i != j).map(|i| sizes[i]).product())
}

/// The values of the set that are counted fewer than limit times.
fn fewer(set: u64, counts: &[u16; VALUES], limit: usize) -> u64 {
    let mut kept = 0;
    let mut rest = set;
    while rest != 0 {
        let value = rest.trailing_zeros() as usize;
        if (counts[value] as usize) < limit {
            kept |= 1 << value;
        }
        rest &= rest - 1;
    }
    kept
}
