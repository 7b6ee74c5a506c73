//! Variables and rules, with the values left: the largest lists in which every value has support in every rule.

use crate::linear::{Linear, filter_linear};
use crate::lists::Lists;
use crate::tables::{Table, filter_allowed, filter_forbidden};

pub const VARIABLES: usize = 32;
pub const VALUES: usize = 64;
pub const RULES: usize = 48;
pub const ROOM: usize = 4096;
pub const ARITY: usize = 8;
pub const OBJECTIVES: usize = 16;

pub enum Rule {
    Allowed(Table),
    Forbidden(Table),
    /// No wcsp file has one.
    #[allow(dead_code)]
    Linear(Linear),
}

impl Rule {
    fn scope(&self) -> Vec<u8> {
        match self {
            Rule::Allowed(table) | Rule::Forbidden(table) => table.scope.clone(),
            Rule::Linear(linear) => linear.terms.iter().map(|&(x, _)| x).collect(),
        }
    }

    /// Drops every value without support. The answer is the set of the variables whose lists change.
    fn filter(&self, lists: &mut Lists) -> u64 {
        match self {
            Rule::Allowed(table) => filter_allowed(table, lists),
            Rule::Forbidden(table) => filter_forbidden(table, lists),
            Rule::Linear(linear) => filter_linear(linear, lists),
        }
    }
}

pub struct Network {
    variables: usize,
    rules: Vec<Rule>,
    /// For each variable the set of the rules on it.
    touching: [u64; VARIABLES],
    lists: Lists,
}

impl Network {
    pub fn new() -> Self {
        Network {
            variables: 0,
            rules: Vec::with_capacity(RULES),
            touching: [0; VARIABLES],
            lists: [0; VARIABLES],
        }
    }

    pub fn variables(&self) -> usize {
        self.variables
    }

    pub fn lists(&self) -> &Lists {
        &self.lists
    }

    pub fn touching(&self, x: usize) -> u64 {
        self.touching[x]
    }

    /// One variable more, with these values.
    pub fn add_variable(&mut self, values: u64) {
        self.lists[self.variables] = values;
        self.variables += 1;
    }

    /// One rule more; the lists follow.
    pub fn add_rule(&mut self, rule: Rule) {
        let due = 1 << self.rules.len();
        for x in rule.scope() {
            self.touching[x as usize] |= due;
        }
        self.rules.push(rule);
        let mut left = self.lists;
        self.spread(due, false, &mut left);
        self.lists = left;
    }

    /// Filters by the rules that are due, and by those that this makes due, until none is.
    /// A hasty caller has no use for lists once one is empty: then it stops with `false`.
    pub fn spread(&self, mut due: u64, hasty: bool, lists: &mut Lists) -> bool {
        while due != 0 {
            let k = due.trailing_zeros() as usize;
            let changed = self.rules[k].filter(lists);
            let (rules, empty) = self.affected_by(changed, lists);
            if hasty && empty {
                return false;
            }
            due = (due & (due - 1)) | (rules & !(1 << k));
        }
        true
    }

    /// The rules on the changed variables, and whether one of these has no value left.
    pub fn affected_by(&self, mut changed: u64, lists: &Lists) -> (u64, bool) {
        let mut rules = 0;
        let mut empty = false;
        while changed != 0 {
            let x = changed.trailing_zeros() as usize;
            rules |= self.touching[x];
            empty |= lists[x] == 0;
            changed &= changed - 1;
        }
        (rules, empty)
    }
}
