//! Whether arrows keep clear of walls (02, Job 7), from that request's words: an arrow that leads to a cell of its sector
//! does not pass a wall diagonally, that is, neither of the two cells beside a diagonal, one in the row of the cell it
//! leaves and one in its column, is of cost 255. By rows and columns and an arrow's bits, N 1, E 2, S 4, W 8; neither the
//! model nor the Rust nor the library plays a part here.

use std::fmt;

use crate::subject::CELLS;

/// What was looked at in sheets in which no arrow passes a wall.
#[derive(Clone, Copy, Default, PartialEq, Eq, Debug)]
pub struct Cleared {
    pub sectors: usize,
    /// Arrows that lead to a cell of the sector, and the diagonal ones among them.
    pub arrows: usize,
    pub diagonal: usize,
    /// Diagonals with one wall beside them, from a cell with such an arrow to one that is no wall: none is taken.
    pub past_one_wall: usize,
}

impl Cleared {
    pub fn add(&mut self, other: &Cleared) {
        self.sectors += other.sectors;
        self.arrows += other.arrows;
        self.diagonal += other.diagonal;
        self.past_one_wall += other.past_one_wall;
    }

    /// What has to have been looked at, and was not.
    pub fn lacks(&self) -> Option<&'static str> {
        let needed = [(self.diagonal, "a diagonal arrow"), (self.past_one_wall, "a diagonal past one wall")];
        needed.into_iter().find(|(count, _)| *count == 0).map(|(_, what)| what)
    }
}

impl fmt::Display for Cleared {
    fn fmt(&self, f: &mut fmt::Formatter) -> fmt::Result {
        write!(f, "{} arrows of {} sectors, {} diagonal; ", self.arrows, self.sectors, self.diagonal)?;
        write!(f, "of {} diagonals past one wall none taken", self.past_one_wall)
    }
}

/// A column and a row.
type Cell = (i32, i32);

fn index((column, row): Cell) -> usize {
    (10 * row + column) as usize
}

/// The cell of the sector that lies so many columns and rows away.
fn away((column, row): Cell, columns: i32, rows: i32) -> Option<Cell> {
    let to = (column + columns, row + rows);
    (0..10).contains(&to.0).then_some(to).filter(|(_, row)| (0..10).contains(row))
}

/// The cell of the sector that a byte's arrow leads to: none where it has no arrow, or one that leaves the sector.
fn led_to(from: Cell, byte: u8) -> Option<Cell> {
    let [north, east, south, west] = [1, 2, 4, 8].map(|bit| i32::from(byte & bit != 0));
    away(from, east - west, south - north).filter(|to| *to != from)
}

/// The walls beside the move from a cell to another: none where it is not diagonal.
fn walls_beside(costs: &[u8], from: Cell, to: Cell) -> Vec<usize> {
    let beside = if from.0 != to.0 && from.1 != to.1 { vec![(to.0, from.1), (from.0, to.1)] } else { Vec::new() };
    beside.into_iter().map(index).filter(|cell| costs[*cell] == 255).collect()
}

/// The diagonals from a cell that have one wall beside them and no wall at their end.
fn past_one_wall(costs: &[u8], from: Cell) -> usize {
    let diagonals = [(-1, -1), (1, -1), (-1, 1), (1, 1)].into_iter().filter_map(|(x, y)| away(from, x, y));
    diagonals.filter(|to| costs[index(*to)] != 255 && walls_beside(costs, from, *to).len() == 1).count()
}

/// Looks at the arrows of a sector, given its hundred costs and its hundred bytes.
pub fn of_sector(costs: &[u8], sheet: &[u8]) -> Result<Cleared, String> {
    let mut looked = Cleared { sectors: 1, ..Cleared::default() };
    for from in (0..10).flat_map(|row| (0..10).map(move |column| (column, row))) {
        let Some(to) = led_to(from, sheet[index(from)]) else { continue };
        if let Some(wall) = walls_beside(costs, from, to).first() {
            return Err(format!("the arrow of cell {} passes the wall at cell {wall} diagonally", index(from)));
        }
        looked.arrows += 1;
        looked.diagonal += usize::from(from.0 != to.0 && from.1 != to.1);
        looked.past_one_wall += past_one_wall(costs, from);
    }
    Ok(looked)
}

/// Looks at the arrows of every sector that a planned leg names.
pub fn of_leg(floor: &[u8], steps: &[u8], sheet: &[u8]) -> Result<Cleared, String> {
    let mut looked = Cleared::default();
    for sector in steps.chunks(8).map(|step| usize::from(step[0])) {
        let part = sector * CELLS..(sector + 1) * CELLS;
        let found = of_sector(&floor[part.clone()], &sheet[part]);
        looked.add(&found.map_err(|fault| format!("sector {sector}: {fault}"))?);
    }
    Ok(looked)
}
