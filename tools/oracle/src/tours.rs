//! Tours of windows held to the words of document 02, Job 14, without writing down an order: what an answer says of itself,
//! over the square that the altered Rust's fields give; and where all orders were tried, the best there is, by what remains
//! to be paid from each window with each set of windows left.

use std::fmt;

use crate::squares::rust_square;
use crate::subject::*;

type Square = [[u32; WINDOWS]; WINDOWS];

/// What was seen of tours that are what they must be.
#[derive(Clone, Copy, Default, PartialEq, Eq, Debug)]
pub struct Toured {
    pub inputs: usize,
    /// Inputs whose orders were all tried.
    pub whole: usize,
    /// Those of them with an order that counts.
    pub best: usize,
}

impl Toured {
    pub fn add(&mut self, other: &Toured) {
        self.inputs += other.inputs;
        self.whole += other.whole;
        self.best += other.best;
    }

    /// What has to have been seen, and was not.
    pub fn lacks(&self) -> Option<&'static str> {
        let needed = [
            (self.inputs - self.whole, "a limit below the number of orders"),
            (self.best, "the best of all orders"),
            (self.whole - self.best, "windows of which no order counts"),
        ];
        needed.into_iter().find(|(count, _)| *count == 0).map(|(_, what)| what)
    }
}

impl fmt::Display for Toured {
    fn fmt(&self, f: &mut fmt::Formatter) -> fmt::Result {
        write!(f, "{} tours, all orders tried in {}, the best there is in {}", self.inputs, self.whole, self.best)
    }
}

/// A cost that can be paid.
fn paid(cost: u32) -> Option<u32> {
    (cost != 65535).then_some(cost)
}

/// The least that remains to be paid from a window when the windows of a set are left, by the set's bits and the window; none
/// where they cannot all be entered.
fn remaining(square: &Square, windows: usize) -> Vec<[Option<u32>; WINDOWS]> {
    let mut least = vec![[Some(0); WINDOWS]; 1 << windows];
    for left in 1..1usize << windows {
        for from in 0..windows {
            let ways = (0..windows).filter(|next| left >> next & 1 == 1);
            least[left][from] =
                ways.filter_map(|next| Some(paid(square[from][next])? + least[left & !(1 << next)][next]?)).min();
        }
    }
    least
}

/// The best sum of all orders and the first order in the dictionary that has it; none where none counts.
pub fn best_of_all(square: &Square, windows: usize) -> Option<(u32, Vec<u8>)> {
    let least = remaining(square, windows);
    let mut left = (1usize << windows) - 2;
    let sum = least[left][0]?;
    let (mut order, mut rest) = (vec![0], sum);
    while left != 0 {
        let from = usize::from(order[order.len() - 1]);
        let goes_on = |next: &usize| {
            let behind = least[left & !(1 << next)][*next];
            left >> next & 1 == 1
                && paid(square[from][*next]).zip(behind).is_some_and(|(move_to, then)| move_to + then == rest)
        };
        let next = (0..windows).find(goes_on).expect("the least is met by some window");
        rest -= square[from][next];
        left &= !(1 << next);
        order.push(next as u8);
    }
    Some((sum, order))
}

/// "over the windows but the first, the sum of the cheapest entry into each from another"
fn least_figure(square: &Square, windows: usize) -> u32 {
    let cheapest = |into: usize| (0..windows).filter(|from| *from != into).map(|from| square[from][into]).min();
    (1..windows).filter_map(cheapest).sum()
}

/// Whether an answer is one by its own words: an order of all windows with the first leading and its sum, or none.
fn order_held(square: &Square, windows: usize, tour: &WindowTour) -> Result<(), String> {
    let (order, behind) = tour.order.split_at(windows);
    if !tour.found {
        let nothing = tour.order == [0; WINDOWS] && tour.sum == 0;
        return if nothing { Ok(()) } else { Err("no order is found, and order or sum is not 0".to_string()) };
    }
    let mut named = order.to_vec();
    named.sort();
    if order[0] != 0 || behind.iter().any(|place| *place != 0) || !named.iter().copied().eq(0..windows as u8) {
        return Err(format!("{:?} is no order of {windows} windows", tour.order));
    }
    let moves = order.windows(2).map(|pair| square[usize::from(pair[0])][usize::from(pair[1])]);
    let sum = moves.map(paid).try_fold(0, |sum, cost| Some(sum + cost?));
    match sum {
        Some(sum) if sum == tour.sum => Ok(()),
        Some(sum) => Err(format!("{order:?} comes to {sum}, and {} is answered", tour.sum)),
        None => Err(format!("{order:?} uses a 65535")),
    }
}

/// Holds a tour over a square to the words.
pub fn held_on(square: &Square, windows: usize, limit: u16, tour: &WindowTour) -> Result<Toured, String> {
    let all: u32 = (1..windows as u32).product();
    if tour.tried != all.min(u32::from(limit)) {
        return Err(format!("{} orders tried of {all}, the limit being {limit}", tour.tried));
    }
    let least = least_figure(square, windows);
    if tour.least != least {
        return Err(format!("the cheapest entries come to {least}, and {} is answered", tour.least));
    }
    order_held(square, windows, tour)?;
    if tour.found && tour.sum < least {
        return Err(format!("the sum {} goes under the least figure {least}", tour.sum));
    }
    let whole = tour.tried == all;
    if whole {
        let found = tour.found.then(|| (tour.sum, tour.order[..windows].to_vec()));
        let best = best_of_all(square, windows);
        if found != best {
            return Err(format!("the best of all orders is {best:?}, and {found:?} is answered"));
        }
    }
    Ok(Toured { inputs: 1, whole: usize::from(whole), best: usize::from(whole && tour.found) })
}

/// Holds the answer of an accepted call.
pub fn held(costs: &[u8], steps: &[u8], limit: u16, tour: &WindowTour) -> Result<Toured, String> {
    held_on(&rust_square(costs, steps), steps.len() / 8, limit, tour)
}
