//! A cart's place on a floor.

use core::fmt::{Display, Formatter, Result as Written};

use crate::{CELLS, Outcome, SECTORS, move_from};

/// Sectors along a side of the floor, and cells along a side of a sector.
const SIDE: usize = 8;
const ROW: usize = 10;

/// A cell of a floor: its sector, 0 to 63, and its index there, 0 to 99. A place exists only of cells that exist: who has one need
/// not ask again, and no call is refused for it. Columns, rows and bytes of places are worked out by this crate, which is tested
/// and not proved; where a cart moves is the library's answer ([`move_from`]).
#[derive(Clone, Copy, Debug, PartialEq, Eq, Hash)]
pub struct Place {
    sector: u8,
    cell: u8,
}

impl Place {
    /// The place of a cell, 0 to 99, in a sector, 0 to 63; none where there is no such cell.
    ///
    /// # Examples
    ///
    /// ```
    /// use hanjolum::Place;
    ///
    /// // A place that is written down is judged when the program is compiled.
    /// const CART: Place = Place::new(10, 49).unwrap();
    /// assert_eq!((CART.sector(), CART.cell()), (10, 49));
    /// assert_eq!((Place::new(64, 0), Place::new(63, 100)), (None, None));
    /// ```
    pub const fn new(sector: u8, cell: u8) -> Option<Place> {
        if (sector as usize) < SECTORS && (cell as usize) < CELLS { Some(Place { sector, cell }) } else { None }
    }

    /// The place at a column and a row of the floor, both 0 to 79, or none outside.
    ///
    /// # Examples
    ///
    /// ```
    /// use hanjolum::Place;
    ///
    /// assert_eq!(Place::at(29, 14), Place::new(10, 49));
    /// assert_eq!(Place::at(80, 0), None);
    /// ```
    pub const fn at(column: usize, row: usize) -> Option<Place> {
        if column >= SIDE * ROW || row >= SIDE * ROW {
            return None;
        }
        Place::new((row / ROW * SIDE + column / ROW) as u8, (row % ROW * ROW + column % ROW) as u8)
    }

    /// The sector, 0 to 63.
    ///
    /// # Examples
    ///
    /// ```
    /// let place = hanjolum::Place::new(10, 49).unwrap();
    /// assert_eq!((place.sector(), place.cell()), (10, 49));
    /// ```
    pub const fn sector(self) -> u8 {
        self.sector
    }

    /// The cell's index in its sector, 0 to 99.
    ///
    /// # Examples
    ///
    /// ```
    /// let place = hanjolum::Place::new(10, 49).unwrap();
    /// assert_eq!((place.sector(), place.cell()), (10, 49));
    /// ```
    pub const fn cell(self) -> u8 {
        self.cell
    }

    /// The column on the floor, 0 to 79, counted from the west.
    ///
    /// # Examples
    ///
    /// ```
    /// let place = hanjolum::Place::new(10, 49).unwrap();
    /// assert_eq!((place.column(), place.row()), (29, 14));
    /// ```
    pub const fn column(self) -> usize {
        self.sector as usize % SIDE * ROW + self.cell as usize % ROW
    }

    /// The row on the floor, 0 to 79, counted from the north.
    ///
    /// # Examples
    ///
    /// ```
    /// let place = hanjolum::Place::new(10, 49).unwrap();
    /// assert_eq!((place.column(), place.row()), (29, 14));
    /// ```
    pub const fn row(self) -> usize {
        self.sector as usize / SIDE * ROW + self.cell as usize / ROW
    }

    /// The place's index in the 6,400 bytes of a floor, or of its sheet: always below [`FLOOR`](crate::FLOOR).
    ///
    /// # Examples
    ///
    /// ```
    /// use hanjolum::{FLOOR, Place, WALL};
    ///
    /// let mut floor = [1; FLOOR];
    /// floor[Place::new(10, 49).unwrap().index()] = WALL;
    /// assert_eq!(floor[1049], WALL);
    /// ```
    pub const fn index(self) -> usize {
        self.sector as usize * CELLS + self.cell as usize
    }

    /// The byte of a floor's sheet, or of a floor, that belongs to it; none where the list is too short.
    ///
    /// # Examples
    ///
    /// ```
    /// use hanjolum::{FLOOR, Place};
    ///
    /// let place = Place::new(10, 49).unwrap();
    /// assert_eq!((place.byte_of(&[7; FLOOR]), place.byte_of(&[7; 100])), (Some(7), None));
    /// ```
    pub fn byte_of(self, bytes: &[u8]) -> Option<u8> {
        bytes.get(self.index()).copied()
    }

    /// Where a cart's move leads from here by a floor's sheet, as [`move_from`] answers it; none where the cart stands still,
    /// and where the sheet is not 6,400 bytes. Who has to know why asks [`move_from`] itself.
    ///
    /// # Examples
    ///
    /// ```
    /// use hanjolum::{FLOOR, Place};
    ///
    /// // A sheet whose arrows all lead east: across the border, and not off the floor.
    /// let sheet = [0x12; FLOOR];
    /// assert_eq!(Place::new(10, 49).unwrap().next(&sheet), Place::new(11, 40));
    /// assert_eq!(Place::new(15, 49).unwrap().next(&sheet), None);
    /// ```
    pub fn next(self, sheet: &[u8]) -> Option<Place> {
        move_from(sheet, self).ok().filter(|made| made.outcome == Outcome::Moved).map(|made| made.place)
    }
}

impl Display for Place {
    fn fmt(&self, out: &mut Formatter<'_>) -> Written {
        write!(out, "sector {}, cell {}", self.sector, self.cell)
    }
}
