//! A cart's moves and ways on sheets made by hand: each outcome, the floor's edges, circles, and refused calls.

use hanjolum::*;

/// A sheet of zeros but for some places' bytes.
fn sheet(bytes: &[(u8, u8, u8)]) -> [u8; FLOOR] {
    let mut sheet = [0; FLOOR];
    for (sector, cell, byte) in bytes {
        sheet[usize::from(*sector) * CELLS + usize::from(*cell)] = *byte;
    }
    sheet
}

fn place(sector: u8, cell: u8) -> Place {
    Place::new(sector, cell).unwrap()
}

#[test]
fn a_cart_moves_within_a_sector_and_into_the_next() {
    let tried = [
        ((0, 0, 0x16), (0, 11)),
        ((3, 44, 0x11), (3, 34)),
        ((9, 49, 0x12), (10, 40)),
        ((9, 40, 0x18), (8, 49)),
        ((9, 4, 0x11), (1, 94)),
        ((9, 94, 0x14), (17, 4)),
        ((9, 9, 0x13), (2, 90)),
        ((9, 99, 0x16), (18, 0)),
        ((9, 90, 0x1C), (16, 9)),
        ((9, 0, 0x19), (0, 99)),
        // Whatever the flags are: none, a goal's and a wall's.
        ((3, 44, 0x02), (3, 45)),
        ((3, 44, 0x72), (3, 45)),
        ((3, 44, 0xE2), (3, 45)),
        ((3, 44, 0xF2), (3, 45)),
    ];
    for ((sector, cell, byte), (to_sector, to_cell)) in tried {
        let (sheet, to) = (sheet(&[(sector, cell, byte)]), place(to_sector, to_cell));
        let made = move_from(&sheet, place(sector, cell)).unwrap();
        assert_eq!((made.outcome, made.place), (Outcome::Moved, to), "0x{byte:02x} at {sector}, {cell}");
        assert_eq!(place(sector, cell).next(&sheet), Some(to));
    }
}

#[test]
fn a_cart_stands_still_and_its_byte_says_why() {
    let tried = [
        (3, 44, 0x70, Outcome::Arrived),
        (3, 44, 0x50, Outcome::Arrived),
        (3, 44, 0x30, Outcome::InSight),
        (3, 44, 0xB0, Outcome::InSight),
        (3, 44, 0x10, Outcome::Stopped),
        (3, 44, 0x90, Outcome::Stopped),
        (3, 44, 0xE0, Outcome::Stopped),
        (3, 44, 0x60, Outcome::Stopped),
        (3, 44, 0x00, Outcome::Stopped),
        // Low halves that are no direction.
        (3, 44, 0x15, Outcome::Stopped),
        (3, 44, 0x7F, Outcome::Arrived),
        // Off the floor, on each of its sides.
        (7, 9, 0x12, Outcome::Stopped),
        (0, 5, 0x11, Outcome::Stopped),
        (8, 50, 0x18, Outcome::Stopped),
        (60, 95, 0x14, Outcome::Stopped),
        (63, 99, 0x13, Outcome::Stopped),
        (7, 9, 0x72, Outcome::Arrived),
        (7, 9, 0x32, Outcome::InSight),
    ];
    for (sector, cell, byte, outcome) in tried {
        let (sheet, own) = (sheet(&[(sector, cell, byte)]), place(sector, cell));
        assert_eq!(move_from(&sheet, own), Ok(Move { outcome, place: own }), "0x{byte:02x} at {own:?}");
        assert_eq!(way(&sheet, own), Ok(Way { outcome, place: own, moves: 0 }), "0x{byte:02x} at {own:?}");
        assert_eq!(own.next(&sheet), None);
    }
}

#[test]
fn a_move_goes_by_the_floor_s_columns_and_rows() {
    let bits = [0b0001, 0b0010, 0b0100, 0b1000, 0b0011, 0b0110, 0b1100, 0b1001];
    for (direction, bits) in Direction::ALL.iter().zip(bits) {
        let (sheet, (east, south)) = ([0x10 | bits; FLOOR], direction.differences());
        for (column, row) in (0..FLOOR).map(|at| (at % 80, at / 80)) {
            let beside = column.checked_add_signed(east).zip(row.checked_add_signed(south));
            let expected = beside.and_then(|(column, row)| Place::at(column, row));
            assert_eq!(Place::at(column, row).unwrap().next(&sheet), expected, "{direction:?} of {column}, {row}");
        }
    }
}

#[test]
fn a_way_ends_where_the_cart_stands_still() {
    // The floor's first row, eastward through eight sectors and off the floor.
    let mut row = [0; FLOOR];
    for column in 0..80 {
        row[column / 10 * CELLS + column % 10] = 0x12;
    }
    let ends = |sheet: &[u8]| way(sheet, place(0, 0)).map(|way| (way.outcome, way.place, way.moves));
    assert_eq!(ends(&row), Ok((Outcome::Stopped, place(7, 9), 79)));
    row[7 * CELLS + 9] = 0x70;
    assert_eq!(ends(&row), Ok((Outcome::Arrived, place(7, 9), 79)));
    row[CELLS + 5] = 0x30;
    assert_eq!(ends(&row), Ok((Outcome::InSight, place(1, 5), 15)));
    row[3] = 0xE0;
    assert_eq!(ends(&row), Ok((Outcome::Stopped, place(0, 3), 3)));
}

#[test]
fn a_cart_in_a_circle_never_stands_still() {
    // Two cells on either side of a border point at each other, and a third leads to them.
    let sheet = sheet(&[(0, 9, 0x12), (1, 0, 0x18), (0, 19, 0x11)]);
    for (sector, cell) in [(0, 9), (1, 0), (0, 19)] {
        let own = place(sector, cell);
        assert_eq!(way(&sheet, own), Ok(Way { outcome: Outcome::Never, place: own, moves: 0 }), "{own:?}");
        assert_eq!(move_from(&sheet, own).unwrap().outcome, Outcome::Moved, "{own:?}");
    }
}

/// Every place of the floor one after the other: the first row eastward, the second westward, and so on to the last one's west end.
fn over_the_whole_floor() -> [u8; FLOOR] {
    let mut sheet = [0; FLOOR];
    for (column, row) in (0..FLOOR).map(|at| (at % 80, at / 80)) {
        let (last, along) = if row % 2 == 0 { (79, 0x12) } else { (0, 0x18) };
        let at = Place::at(column, row).unwrap();
        sheet[at.index()] = if column == last { 0x14 } else { along };
    }
    sheet
}

#[test]
fn the_longest_way_has_6399_moves() {
    let (mut sheet, end) = (over_the_whole_floor(), place(56, 90));
    sheet[56 * CELLS + 90] = 0x70;
    assert_eq!(way(&sheet, place(0, 0)), Ok(Way { outcome: Outcome::Arrived, place: end, moves: 6399 }));
    assert_eq!(way(&sheet, place(0, 1)), Ok(Way { outcome: Outcome::Arrived, place: end, moves: 6398 }));
    // Its last place leads back to the one before.
    sheet[56 * CELLS + 90] = 0x12;
    assert_eq!(way(&sheet, place(0, 0)), Ok(Way { outcome: Outcome::Never, place: place(0, 0), moves: 0 }));
}

#[test]
fn a_sheet_is_judged() {
    let longer = [0x12; FLOOR + 1];
    for sheet in [&longer[..], &longer[..FLOOR - 1], &longer[..CELLS], &[]] {
        assert_eq!(move_from(sheet, place(63, 99)), Err(Refusal::Sheet));
        assert_eq!(way(sheet, place(0, 0)), Err(Refusal::Sheet));
        assert_eq!(place(0, 0).next(sheet), None);
    }
}

/// A place exists exactly where the library takes one: its own numbers for all others are 4 and 5, with every other part zero.
#[test]
fn a_place_is_one_that_the_library_takes() {
    let sheet = [0x12; FLOOR];
    for (sector, cell) in (0..=255).flat_map(|sector| (0..=255).map(move |cell| (sector, cell))) {
        // SAFETY: the pointer with its length is a live slice.
        let (made, way) = unsafe {
            (
                sys::hanjolum_move(sheet.as_ptr(), FLOOR, sector, cell),
                sys::hanjolum_way(sheet.as_ptr(), FLOOR, sector, cell),
            )
        };
        assert_eq!(Place::new(sector, cell).is_some(), made.number == 0, "{sector}, {cell}");
        assert_eq!(made.number, way.number, "{sector}, {cell}");
        if made.number != 0 {
            assert_eq!(made.number, if sector > 63 { 4 } else { 5 }, "{sector}, {cell}");
            assert_eq!((made.outcome, made.sector, made.cell), (0, 0, 0));
            assert_eq!((way.outcome, way.sector, way.cell, way.moves), (0, 0, 0, 0));
        }
    }
}

#[test]
fn places_are_floor_columns_and_rows() {
    let mut met = [false; FLOOR];
    for (column, row) in (0..FLOOR).map(|at| (at % 80, at / 80)) {
        let place = Place::at(column, row).unwrap();
        assert_eq!((place.column(), place.row()), (column, row));
        assert_eq!(Place::new(place.sector(), place.cell()), Some(place));
        assert_eq!(place.index(), usize::from(place.sector()) * CELLS + usize::from(place.cell()));
        assert!(!core::mem::replace(&mut met[place.index()], true), "two places have byte {}", place.index());
    }
    assert_eq!((Place::at(80, 0), Place::at(0, 80), Place::at(usize::MAX, 0)), (None, None, None));
    assert_eq!((place(9, 49).column(), place(9, 49).row()), (19, 14));
    assert_eq!((place(1, 0).byte_of(&[7; 101]), place(1, 1).byte_of(&[7; 101])), (Some(7), None));
    assert_eq!(place(9, 4).to_string(), "sector 9, cell 4");
}
