//! Flow bytes, and the directions that they hold.

use crate::sys;

/// A direction to walk in.
#[derive(Clone, Copy, Debug, PartialEq, Eq, Hash)]
#[allow(missing_docs)]
pub enum Direction {
    North,
    East,
    South,
    West,
    NorthEast,
    SouthEast,
    SouthWest,
    NorthWest,
}

impl Direction {
    /// All of them, in the order of their numbers.
    pub const ALL: [Direction; 8] = [
        Direction::North,
        Direction::East,
        Direction::South,
        Direction::West,
        Direction::NorthEast,
        Direction::SouthEast,
        Direction::SouthWest,
        Direction::NorthWest,
    ];

    /// What a move adds to the column and to the row.
    ///
    /// # Examples
    ///
    /// ```
    /// assert_eq!(hanjolum::Direction::NorthEast.differences(), (1, -1));
    /// ```
    pub const fn differences(self) -> (isize, isize) {
        match self {
            Direction::North => (0, -1),
            Direction::East => (1, 0),
            Direction::South => (0, 1),
            Direction::West => (-1, 0),
            Direction::NorthEast => (1, -1),
            Direction::SouthEast => (1, 1),
            Direction::SouthWest => (-1, 1),
            Direction::NorthWest => (-1, -1),
        }
    }
}

/// A byte of a sheet. Read the direction first: a goal and a cell in sight have none.
#[derive(Clone, Copy, Debug, PartialEq, Eq, Hash)]
pub struct FlowByte(pub u8);

impl FlowByte {
    /// The direction to walk in, where the byte has one.
    ///
    /// # Examples
    ///
    /// ```
    /// use hanjolum::{Direction, FlowByte};
    ///
    /// assert_eq!(FlowByte(0x13).direction(), Some(Direction::NorthEast));
    /// assert_eq!(FlowByte(0x70).direction(), None); // the goal
    /// ```
    pub fn direction(self) -> Option<Direction> {
        // SAFETY: it takes any byte.
        let number = unsafe { sys::hanjolum_get_compass_dir_from_bits(self.0) };
        Direction::ALL.get(usize::from(number)).copied()
    }

    /// The cell can be walked.
    ///
    /// # Examples
    ///
    /// ```
    /// use hanjolum::FlowByte;
    ///
    /// assert!(FlowByte(0x12).is_pathable() && !FlowByte(0xE0).is_pathable());
    /// ```
    pub fn is_pathable(self) -> bool {
        // SAFETY: it takes any byte.
        unsafe { sys::hanjolum_is_pathable(self.0) }
    }

    /// The cell is the goal.
    ///
    /// # Examples
    ///
    /// ```
    /// use hanjolum::FlowByte;
    ///
    /// assert!(FlowByte(0x70).is_goal() && !FlowByte(0x12).is_goal());
    /// ```
    pub fn is_goal(self) -> bool {
        // SAFETY: it takes any byte.
        unsafe { sys::hanjolum_is_goal(self.0) }
    }

    /// The cell leads into the next sector.
    ///
    /// # Examples
    ///
    /// ```
    /// use hanjolum::FlowByte;
    ///
    /// assert!(FlowByte(0x92).is_portal_goal() && !FlowByte(0x12).is_portal_goal());
    /// ```
    pub fn is_portal_goal(self) -> bool {
        // SAFETY: it takes any byte.
        unsafe { sys::hanjolum_is_portal_goal(self.0) }
    }

    /// The goal is in sight: a cart heads straight for it. Without sight no byte but the goal's says so.
    ///
    /// # Examples
    ///
    /// ```
    /// use hanjolum::FlowByte;
    ///
    /// assert!(FlowByte(0x30).has_line_of_sight() && !FlowByte(0x12).has_line_of_sight());
    /// ```
    pub fn has_line_of_sight(self) -> bool {
        // SAFETY: it takes any byte.
        unsafe { sys::hanjolum_has_line_of_sight(self.0) }
    }

    /// The cell is a wall, or nothing reaches it.
    ///
    /// # Examples
    ///
    /// ```
    /// use hanjolum::FlowByte;
    ///
    /// assert!(FlowByte(0xE0).is_wall() && !FlowByte(0x12).is_wall());
    /// ```
    pub fn is_wall(self) -> bool {
        // SAFETY: it takes any byte.
        unsafe { sys::hanjolum_is_wall(self.0) }
    }
}
