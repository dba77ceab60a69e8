//! A round of windows (02, Job 14), by trying: the orders are written down one after the other, in dictionary order, and as
//! many of them are tried as the limit allows.

use std::sync::LazyLock;

use super::{Model, Slip};
use crate::subject::*;

const UNREACHED: u32 = 65535;

/// The orders of so many windows, by that number: all lists that begin with 0 and have each window once.
static ORDERS: LazyLock<Vec<Vec<Vec<usize>>>> = LazyLock::new(|| {
    let of = |windows: usize| {
        let mut orders = Vec::new();
        write_down(&[0], &(1..windows).collect::<Vec<usize>>(), &mut orders);
        orders
    };
    (0..=WINDOWS).map(of).collect()
});

/// Writes down the orders that begin so and go on with the rest, the rest being in order.
fn write_down(begun: &[usize], rest: &[usize], orders: &mut Vec<Vec<usize>>) {
    if rest.is_empty() {
        orders.push(begun.to_vec());
    }
    for next in rest {
        let left: Vec<usize> = rest.iter().copied().filter(|other| other != next).collect();
        write_down(&[begun, &[*next]].concat(), &left, orders);
    }
}

/// All orders of so many windows, in dictionary order.
pub fn orders(windows: usize) -> &'static [Vec<usize>] {
    &ORDERS[windows]
}

impl Model {
    /// What windows in one sector and a limit give, of which no number is due.
    pub(crate) fn tour_of_windows(&self, costs: &[u8], steps: &[u8], limit: u16) -> WindowTour {
        self.tour(&self.costs_between_windows(costs, steps).square(), steps.len() / 8, limit)
    }

    /// The tour of the first windows of a square: "the best order tried, the earlier one on ties, its sum, the number tried
    /// (limit or all, the smaller), and a least figure".
    pub fn tour(&self, square: &[[u32; WINDOWS]; WINDOWS], windows: usize, limit: u16) -> WindowTour {
        let orders = self.dictionary(square, windows);
        let looked_at = self.looked_at(&orders, limit);
        let mut best: Option<(u32, &Vec<usize>)> = None;
        for order in looked_at {
            let Some(sum) = self.sum(square, order) else { continue };
            if best.is_none_or(|(least, _)| self.takes(sum, least)) {
                best = Some((sum, order));
            }
        }
        let least = self.least_figure(square, windows, best.map(|(sum, _)| sum));
        let tried = self.tried(square, windows, looked_at, limit);
        self.told(best, windows, tried, least)
    }

    /// The orders, as they are tried.
    fn dictionary(&self, square: &[[u32; WINDOWS]; WINDOWS], windows: usize) -> Vec<Vec<usize>> {
        let mut all = orders(windows).to_vec();
        match self.slip {
            Slip::TourBackward => all.reverse(),
            Slip::TourByEnds => all.sort_by_key(|order| order.iter().rev().copied().collect::<Vec<usize>>()),
            Slip::TourLastLeftOut if windows > 2 => drop(all.pop()),
            Slip::TourEndOneLeftOut if windows > 2 => all.retain(|order| order[windows - 1] != 1),
            Slip::TourTurned => {
                let goes_on =
                    |order: &Vec<usize>| order[1..].windows(2).all(|pair| pair[1] == pair[0] % (windows - 1) + 1);
                all.retain(goes_on);
            }
            Slip::TourAnyStart => {
                let turned =
                    |by: usize| all.iter().map(move |order| order.iter().map(|k| (k + by) % windows).collect());
                all = (0..windows).flat_map(turned).collect();
                all.sort();
            }
            Slip::TourNearest => all = vec![nearest(square, windows)],
            Slip::TourUnreachedSkipped => all.retain(|order| self.sum(square, order).is_some()),
            _ => {}
        }
        all
    }

    /// Those that are looked at.
    fn looked_at<'a>(&self, orders: &'a [Vec<usize>], limit: u16) -> &'a [Vec<usize>] {
        let limit = usize::from(limit);
        let most = match self.slip {
            Slip::TourLimitLess => limit.saturating_sub(1),
            Slip::TourLimitMore | Slip::TourOneMoreLookedAt => limit + 1,
            Slip::TourLimitByte => limit % 256,
            Slip::TourLimitNotRead => orders.len(),
            _ => limit,
        };
        &orders[..most.min(orders.len())]
    }

    /// The number tried that is answered.
    fn tried(&self, square: &[[u32; WINDOWS]; WINDOWS], windows: usize, looked_at: &[Vec<usize>], limit: u16) -> u32 {
        let (limit, all) = (usize::from(limit), orders(windows).len());
        let tried = match self.slip {
            Slip::TourTriedIsLimit => limit,
            Slip::TourTriedIsAll => all,
            Slip::TourOneMoreLookedAt | Slip::TourTurned | Slip::TourNearest => limit.min(all),
            Slip::TourLastLeftOut | Slip::TourEndOneLeftOut => limit.min(all),
            Slip::TourTriedCounts => looked_at.iter().filter(|order| self.sum(square, order).is_some()).count(),
            _ => looked_at.len(),
        };
        tried as u32
    }

    /// What an order comes to, if it counts: "orders using a 65535 do not count". A move from a to b costs row a, place b.
    fn sum(&self, square: &[[u32; WINDOWS]; WINDOWS], order: &[usize]) -> Option<u32> {
        let way_back = [order[order.len() - 1], order[0]];
        let moves = order.windows(2).chain(self.slips(Slip::TourWayBack).then_some(&way_back[..]));
        let cost = |pair: &[usize]| {
            if self.slips(Slip::TourExchanged) { square[pair[1]][pair[0]] } else { square[pair[0]][pair[1]] }
        };
        let costs: Vec<u32> = moves.map(cost).collect();
        let sum: u32 = costs.iter().sum();
        match self.slip {
            Slip::TourUnreachedCounts => Some(sum),
            Slip::TourLastMoveUnread if costs[..costs.len() - 1].contains(&UNREACHED) => None,
            Slip::TourLastMoveUnread => Some(sum),
            Slip::TourDearBarred if sum >= UNREACHED => None,
            _ if costs.contains(&UNREACHED) => None,
            Slip::TourSixteenBits => Some(sum % 65536),
            _ => Some(sum),
        }
    }

    /// Whether a later order is taken for its sum.
    fn takes(&self, sum: u32, best: u32) -> bool {
        match self.slip {
            Slip::TourLater => sum <= best,
            Slip::TourGreatest => sum > best,
            Slip::TourFirstAlone => false,
            _ => sum < best,
        }
    }

    /// "over the windows but the first, the sum of the cheapest entry into each from another"
    fn least_figure(&self, square: &[[u32; WINDOWS]; WINDOWS], windows: usize, best: Option<u32>) -> u32 {
        let entry = |a: usize, b: usize| {
            if self.slips(Slip::TourLeastExchanged) { square[b][a] } else { square[a][b] }
        };
        let from = usize::from(self.slips(Slip::TourLeastNotFromFirst) && windows > 2);
        let into = match self.slip {
            Slip::TourLeastIntoFirst => 0..windows,
            Slip::TourLeastUnused => 1..WINDOWS,
            _ => 1..windows,
        };
        let cheapest = |b: usize| {
            let own = self.slips(Slip::TourLeastOwn);
            let entries = (from..windows).filter(|a| own || *a != b).map(|a| entry(a, b));
            match entries.min().unwrap_or(UNREACHED) {
                UNREACHED if self.slips(Slip::TourLeastUnreachedZero) => 0,
                least => least,
            }
        };
        let least: u32 = into.map(cheapest).sum();
        match (self.slip, best) {
            (Slip::TourLeastOfBest, Some(best)) => best,
            (Slip::TourLeastSixteenBits, _) => least.min(UNREACHED),
            _ => least,
        }
    }

    /// The answer: "all window numbers, the first window's 0 leading"; where no order counts "the number tried and the least
    /// figure beside it, order and sum all 0".
    fn told(&self, best: Option<(u32, &Vec<usize>)>, windows: usize, tried: u32, least: u32) -> WindowTour {
        let mut tour = WindowTour { tried, least, ..refused::window_tour(0) };
        let numbers: Vec<usize> = (0..windows).collect();
        let (found, sum, order) = match (best, self.slip) {
            (Some((sum, order)), _) => (true, sum, &order[..]),
            (None, Slip::TourNoneFound) => (true, 0, &[][..]),
            (None, Slip::TourNoneOrder) => (false, 0, &numbers[..]),
            (None, Slip::TourNoneSum) => (false, UNREACHED, &[][..]),
            _ => (false, 0, &[][..]),
        };
        (tour.found, tour.sum) = (found, sum);
        for (place, window) in tour.order.iter_mut().zip(order) {
            *place = *window as u8 + u8::from(self.slips(Slip::TourFromOne));
        }
        match self.slip {
            Slip::TourPlacesBehind if found => (windows..WINDOWS).for_each(|at| tour.order[at] = at as u8),
            Slip::TourNoneLeast if !found => tour.least = 0,
            Slip::TourNoneTried if !found => tour.tried = 0,
            Slip::TourLeastOfNone if !found => tour.least = tour.least.max(UNREACHED),
            Slip::TourNothingTried if tried == 0 => tour.least = 0,
            _ => {}
        }
        tour
    }

    pub(super) fn refused_window_tour(&self, number: u8, limit: u16) -> WindowTour {
        let tour = refused::window_tour(number);
        match self.slip {
            Slip::TourTriedOfRefusal if number != 0 => WindowTour { tried: u32::from(limit), ..tour },
            Slip::TourLeastOfRefusal if number != 0 => WindowTour { least: UNREACHED, ..tour },
            _ => tour,
        }
    }
}

/// From the first window always on to the nearest that is left.
fn nearest(square: &[[u32; WINDOWS]; WINDOWS], windows: usize) -> Vec<usize> {
    let mut order = vec![0];
    while order.len() < windows {
        let last = order[order.len() - 1];
        let left = (1..windows).filter(|window| !order.contains(window));
        order.push(left.min_by_key(|window| square[last][*window]).expect("one is left"));
    }
    order
}
