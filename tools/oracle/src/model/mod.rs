//! A model of document 01, of what document 02 adds, and of our own additions, written from those pages and from the words
//! that say what is added, not from the Rust or the library, and the same model with one slip planted (`Slip`), to see that the groups find it.

mod answers;
mod arrivals;
mod bounds;
mod cart;
mod flow;
mod integration;
mod leg;
mod leg_field;
mod leg_file;
mod line;
mod numbers;
mod positions;
mod practice;
mod slips;
mod window_costs;
mod window_tour;
mod without_sight;

pub use arrivals::{Lost, lost_by};
pub use cart::{Place, byte_at, direction, named, place_of, reads_as_goal, reads_as_sight};
pub use leg::{CLOSED, Plan, PlannedStep};
pub use slips::Slip;
pub use window_tour::orders;

/// The model, with no slip or with one.
pub struct Model {
    pub slip: Slip,
}

impl Model {
    pub const PLAIN: Model = Model { slip: Slip::None };

    fn slips(&self, slip: Slip) -> bool {
        self.slip == slip
    }
}

/// Differences of column and row toward N, E, S, W, NE, SE, SW, NW.
const DIFFERENCES: [(i32, i32); 8] = [(0, -1), (1, 0), (0, 1), (-1, 0), (1, -1), (1, 1), (-1, 1), (-1, -1)];

const NORTH: usize = 0;
const EAST: usize = 1;
const SOUTH: usize = 2;
const WEST: usize = 3;

/// The cell one step away, inside the sector.
fn beside(cell: usize, direction: usize) -> Option<usize> {
    let (column, row) = DIFFERENCES[direction];
    shifted(cell, column, row)
}

fn shifted(cell: usize, columns: i32, rows: i32) -> Option<usize> {
    let (column, row) = (cell as i32 % 10 + columns, cell as i32 / 10 + rows);
    let inside = (0..10).contains(&column) && (0..10).contains(&row);
    inside.then_some((row * 10 + column) as usize)
}

/// Whether the two cells beside a diagonal move, one in the row of the cell it leaves and one in its column, are walls. The
/// move is barred if either is (02, Job 7). A move that is not diagonal has none beside it.
fn walls_beside_move(from: usize, to: usize, wall: impl Fn(usize) -> bool) -> [bool; 2] {
    let columns = to as i32 % 10 - from as i32 % 10;
    let rows = to as i32 / 10 - from as i32 / 10;
    if columns == 0 || rows == 0 {
        return [false; 2];
    }
    [shifted(from, columns, 0), shifted(from, 0, rows)].map(|cell| cell.is_some_and(&wall))
}
