//! A cart's moves over a floor's sheet (our own addition, docs/DECISIONS.md), from the words of that addition: by the columns
//! and rows of a floor of 80 by 80, and for a way with the set of places where the cart was.

use super::{Model, Slip};
use crate::refusals::{Given, Table};
use crate::subject::*;

/// A place of the floor: column from the west, row from the north.
pub type Place = (i32, i32);

/// The place of a cell of a sector: eight sectors to a row of sectors, ten cells to a row of a sector.
pub fn place_of(sector: u8, cell: u8) -> Place {
    let [sector, cell] = [sector, cell].map(i32::from);
    (sector % 8 * 10 + cell % 10, sector / 8 * 10 + cell / 10)
}

/// The sector and the cell of a place.
pub fn named((column, row): Place) -> [u8; 2] {
    [row / 10 * 8 + column / 10, row % 10 * 10 + column % 10].map(|number| number as u8)
}

/// The byte of a place.
pub fn byte_at(sheet: &[u8], place: Place) -> u8 {
    let [sector, cell] = named(place).map(usize::from);
    sheet[CELLS * sector + cell]
}

/// Columns and rows that a byte's direction goes: N is 1, E 2, S 4, W 8; none for no bit and for opposite bits.
pub fn direction(byte: u8) -> Option<(i32, i32)> {
    let [north, east, south, west] = [1, 2, 4, 8].map(|bit| i32::from(byte & bit != 0));
    let is_one = byte & 15 != 0 && north + south < 2 && east + west < 2;
    is_one.then_some((east - west, south - north))
}

/// Whether a byte reads as goal, as in sight.
pub fn reads_as_goal(byte: u8) -> bool {
    byte & 0x50 == 0x50
}

pub fn reads_as_sight(byte: u8) -> bool {
    byte & 0x30 == 0x30
}

/// The places where a cart was, and how many they are.
struct Passed {
    places: Vec<bool>,
    count: usize,
}

impl Passed {
    fn new(first: Place) -> Self {
        let mut passed = Passed { places: vec![false; 80 * 80], count: 0 };
        passed.add(first);
        passed
    }

    fn add(&mut self, (column, row): Place) {
        self.places[(80 * row + column) as usize] = true;
        self.count += 1;
    }

    fn has(&self, (column, row): Place) -> bool {
        self.places[(80 * row + column) as usize]
    }
}

impl Model {
    fn cart_place(&self, sector: u8, cell: u8) -> Place {
        let (column, row) = place_of(sector, cell);
        match self.slip {
            Slip::MoveSectorsByColumns => (row / 10 * 10 + column % 10, column / 10 * 10 + row % 10),
            _ => (column, row),
        }
    }

    fn cart_named(&self, place: Place) -> [u8; 2] {
        let [sector, cell] = named(place);
        match self.slip {
            Slip::MoveSectorsByColumns => [sector % 8 * 8 + sector / 8, cell],
            Slip::MoveCellsByColumns => [sector, cell % 10 * 10 + cell / 10],
            _ => [sector, cell],
        }
    }

    /// Columns and rows that a byte goes, or with a slip others.
    fn goes(&self, byte: u8) -> Option<(i32, i32)> {
        let (columns, rows) = match self.slip {
            Slip::MoveOppositeCancel => {
                let [north, east, south, west] = [1, 2, 4, 8].map(|bit| i32::from(byte & bit != 0));
                Some((east - west, south - north)).filter(|by| *by != (0, 0))
            }
            _ => direction(byte),
        }?;
        let flagged = match self.slip {
            Slip::MoveGoalStands => reads_as_goal(byte),
            Slip::MoveSightStands => reads_as_sight(byte),
            Slip::MovePortalStands => byte & 0x90 == 0x90,
            Slip::MoveUnwalkableStands => byte & 0x10 == 0,
            Slip::MoveWallStands => byte & 0xE0 == 0xE0,
            _ => false,
        };
        match self.slip {
            _ if flagged => None,
            Slip::MoveColumnsByRows => Some((rows, columns)),
            Slip::MoveDiagonalsStraight if columns != 0 => Some((columns, 0)),
            Slip::MoveSouthUp => Some((columns, -rows)),
            _ => Some((columns, rows)),
        }
    }

    /// The place that the byte of a place leads to: none off the floor.
    fn led_to(&self, sheet: &[u8], (column, row): Place) -> Option<Place> {
        let (columns, rows) = self.goes(byte_at(sheet, (column, row)))?;
        let (to_column, to_row) = (column + columns, row + rows);
        let (wide, high) = match self.slip {
            Slip::MoveFloorOf79Rows => (80, 79),
            Slip::MoveFloorOf79Columns => (79, 80),
            _ => (80, 80),
        };
        let (across, down) = (to_column.div_euclid(10) != column / 10, to_row.div_euclid(10) != row / 10);
        match self.slip {
            Slip::MoveSectorAlone if across || down => None,
            Slip::MoveCrossesStraightOnly if across && down => None,
            Slip::MoveWrapsColumns if (0..80).contains(&to_row) => Some((to_column.rem_euclid(80), to_row)),
            Slip::MoveWrapsRows if (0..80).contains(&to_column) => Some((to_column, to_row.rem_euclid(80))),
            Slip::MoveHeldAtEdge => Some((to_column.clamp(0, 79), to_row.clamp(0, 79))),
            _ => ((0..wide).contains(&to_column) && (0..high).contains(&to_row)).then_some((to_column, to_row)),
        }
    }

    /// Why a cart stands still at a byte that leads nowhere.
    fn still(&self, byte: u8) -> u8 {
        let goal = match self.slip {
            Slip::MoveGoalUnwalkable => byte & 0x40 != 0,
            Slip::MoveGoalBareOnly => reads_as_goal(byte) && byte & 15 == 0,
            Slip::MovePortalArrives => reads_as_goal(byte) || byte & 0x90 == 0x90,
            _ => reads_as_goal(byte),
        };
        let sight = match self.slip {
            Slip::MoveSightUnwalkable => byte & 0x20 != 0,
            Slip::MoveSightBareOnly => reads_as_sight(byte) && byte & 15 == 0,
            _ => reads_as_sight(byte),
        };
        match self.slip {
            Slip::MoveSightBeforeGoal if sight => outcome::IN_SIGHT,
            Slip::MoveSightArrives if sight => outcome::ARRIVED,
            Slip::MoveWallIsNoGoal if byte & 0xE0 == 0xE0 => outcome::STOPPED,
            _ if goal => outcome::ARRIVED,
            _ if sight => outcome::IN_SIGHT,
            _ => outcome::STOPPED,
        }
    }

    /// "moved, exactly where the byte's direction leads to a place of the floor; otherwise the cart stands still"
    pub fn move_over(&self, sheet: &[u8], sector: u8, cell: u8) -> CartMove {
        let at = self.cart_place(sector, cell);
        let led = self.led_to(sheet, at);
        let [sector, cell] = match self.slip {
            Slip::MoveOwnPlace => [sector, cell],
            Slip::MoveStandsAtZero => led.map_or([0, 0], named),
            _ => self.cart_named(led.unwrap_or(at)),
        };
        let outcome = if led.is_some() { outcome::MOVED } else { self.still(byte_at(sheet, at)) };
        CartMove { number: 0, outcome, sector, cell }
    }

    /// Whether a way that was at these places ends at the last of them, though its byte leads on.
    fn ends_early(&self, sheet: &[u8], first: Place, at: Place) -> bool {
        let byte = byte_at(sheet, at);
        let [from, to] = [first, at].map(|place| named(place)[0]);
        match self.slip {
            Slip::WayEndsAtGoalByte => reads_as_goal(byte),
            Slip::WayEndsInSight => reads_as_sight(byte),
            Slip::WayEndsInNextSector => from != to,
            _ => false,
        }
    }

    /// Whether a cart that goes from one place to the next counts as having been there.
    fn was_there(&self, passed: &Passed, from: Place, next: Place) -> bool {
        let [sector, cell] = named(next);
        match self.slip {
            Slip::WaySectorAgain if named(from)[0] != sector => (0..100).any(|cell| passed.has(place_of(sector, cell))),
            Slip::WayCellAgain => (0..64).any(|sector| passed.has(place_of(sector, cell))),
            _ => passed.has(next),
        }
    }

    /// The moves of a cart until it stands still, or *never*: "it comes again to a place where it was".
    pub fn way_over(&self, sheet: &[u8], sector: u8, cell: u8) -> CartWay {
        let first = self.cart_place(sector, cell);
        let most = match self.slip {
            Slip::WayGivenUpAt1000 => 1_000,
            Slip::WayGivenUpAt1599 => 1_599,
            Slip::WayGivenUpAt6398 => 6_398,
            _ => usize::MAX,
        };
        let (mut at, mut passed) = (first, Passed::new(first));
        while let Some(next) = self.led_to(sheet, at) {
            if self.ends_early(sheet, first, at) {
                break;
            }
            if self.was_there(&passed, at, next) || passed.count > most {
                return self.never(first, next, passed.count);
            }
            passed.add(next);
            at = next;
        }
        self.ended(sheet, first, at, passed.count - 1)
    }

    /// A way that ends so, after so many moves.
    fn ended(&self, sheet: &[u8], first: Place, last: Place, moves: usize) -> CartWay {
        let [sector, cell] = self.cart_named(if self.slips(Slip::WayOwnPlace) { first } else { last });
        let outcome = match self.slip {
            Slip::WayMovedAtEnd if moves > 0 => outcome::MOVED,
            _ => self.still(byte_at(sheet, last)),
        };
        let moves = match self.slip {
            Slip::WayOneMore => moves + 1,
            Slip::WayOneMoreMoved if moves > 0 => moves + 1,
            Slip::WayMovesOfByte => moves % 256,
            Slip::WayMovesOf4096 => moves % 4096,
            _ => moves,
        };
        CartWay { number: 0, outcome, sector, cell, moves: moves as u16 }
    }

    /// A way that never ends and comes again to this place after so many moves.
    fn never(&self, first: Place, again: Place, moves: usize) -> CartWay {
        let [sector, cell] = self.cart_named(if self.slips(Slip::WayNeverPlace) { again } else { first });
        let outcome = match self.slip {
            Slip::WayCircleStops => outcome::STOPPED,
            Slip::WayCircleMoved => outcome::MOVED,
            Slip::WayIntoCircleStops if again != first => outcome::STOPPED,
            _ => outcome::NEVER,
        };
        let moves = match self.slip {
            Slip::WayNeverMoves => moves as u16,
            Slip::WayNever6400 => 6_400,
            _ => 0,
        };
        CartWay { number: 0, outcome, sector, cell, moves }
    }

    /// The number of a cart's call, or with a slip another.
    fn cart_number(&self, sheet: &[u8], sector: u8, cell: u8) -> u8 {
        let given = Given { cart: Some([sector, cell]), sheet: Some(sheet.len()), ..Given::default() };
        let mut table = Table::documents();
        match self.slip {
            Slip::CartSector64 => table.cart[0].holds = |g| g.cart.is_some_and(|[sector, _]| sector > 64),
            Slip::CartCell100 => table.cart[1].holds = |g| g.cart.is_some_and(|[_, cell]| cell > 100),
            Slip::CartCellFirst => table.cart.swap(0, 1),
            Slip::CartLongerSheet => table.lent[1].holds = |g| g.sheet.is_some_and(|length| length < 6400),
            Slip::CartPlaceFirst => {
                let place = Table::documents().number(&Given { sheet: None, ..given });
                return if place != 0 { place } else { table.number(&given) };
            }
            _ => {}
        }
        table.number(&given)
    }

    /// What a refused call answers, all but the number zero; none where the call is taken.
    fn refused_cart(&self, sheet: &[u8], sector: u8, cell: u8) -> Option<CartWay> {
        let number = self.cart_number(sheet, sector, cell);
        let off = sheet.len() != 6400 || sector > 63 || cell > 99;
        let plain = refused::way(number);
        let answer = match self.slip {
            _ if number == 0 => plain,
            Slip::CartPlaceOfRefusal => CartWay { sector, cell, ..plain },
            Slip::CartOutcomeOfRefusal => CartWay { outcome: outcome::MOVED, ..plain },
            Slip::WayMovesOfRefusal => CartWay { moves: 6_400, ..plain },
            Slip::WayNeverOfRefusal => CartWay { outcome: outcome::NEVER, ..plain },
            _ => plain,
        };
        (number != 0 || off).then_some(answer)
    }

    pub(super) fn answered_move(&self, sheet: &[u8], sector: u8, cell: u8) -> CartMove {
        match self.refused_cart(sheet, sector, cell) {
            Some(CartWay { number, outcome, sector, cell, .. }) => {
                let outcome = if self.slips(Slip::WayNeverOfRefusal) { 0 } else { outcome };
                CartMove { number, outcome, sector, cell }
            }
            None => self.move_over(sheet, sector, cell),
        }
    }

    pub(super) fn answered_way(&self, sheet: &[u8], sector: u8, cell: u8) -> CartWay {
        self.refused_cart(sheet, sector, cell).unwrap_or_else(|| self.way_over(sheet, sector, cell))
    }
}
