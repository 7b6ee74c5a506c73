//! Filtering by linear rules.

use crate::lists::{Lists, highest, keep, values_from};

/// The sum of coefficient times value is at most the bound.
pub struct Linear {
    pub terms: Vec<(u8, i64)>,
    pub bound: i64,
}

/// Drops each value without support in the rule. The answer is the set of the variables whose lists change.
pub fn filter_linear(rule: &Linear, lists: &mut Lists) -> u64 {
    match slack_of(rule, lists) {
        Some(slack) => rule
            .terms
            .iter()
            .fold(0, |changed, &term| changed | keep_near(lists, term, slack)),
        None => rule
            .terms
            .iter()
            .fold(0, |changed, &(x, _)| changed | keep(lists, x, 0)),
    }
}

/// By how much the least sum fits the bound, where it does.
/// In the least sum a term with a negative coefficient stands at its highest value, any other at its lowest.
fn slack_of(rule: &Linear, lists: &Lists) -> Option<i64> {
    let mut slack = rule.bound;
    for &(x, coefficient) in &rule.terms {
        let list = lists[x as usize];
        if list == 0 {
            return None;
        }
        let value = if coefficient < 0 {
            highest(list)
        } else {
            list.trailing_zeros()
        };
        slack -= coefficient * value as i64;
    }
    (slack >= 0).then_some(slack)
}

/// Keeps the values whose term is within the slack of its least.
fn keep_near(lists: &mut Lists, (x, coefficient): (u8, i64), slack: i64) -> u64 {
    let list = lists[x as usize];
    let (lowest, highest) = (list.trailing_zeros(), highest(list));
    if coefficient.abs() * (highest - lowest) as i64 <= slack {
        return 0;
    }
    let reach = (slack / coefficient.abs()) as u32;
    if coefficient < 0 {
        keep(lists, x, values_from(highest - reach))
    } else {
        keep(lists, x, !values_from(lowest + reach + 1))
    }
}
