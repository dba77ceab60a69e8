//! A leg is planned, written to a file, read back, and followed from every reached cell of its sectors.

use hanjolum::*;

type LegCall = fn(&[u8], &[u8], &mut [u8]) -> Result<(), Refusal>;
type SectorCall = fn(&[u8], &[u8], Option<&[u32]>, &mut [u8]) -> Result<Built, Refusal>;

/// The leg and the sector call, with sight and without.
const BOTH: [(LegCall, SectorCall); 2] = [
    (
        |floor, steps, sheet| leg(floor, steps, sheet),
        |costs, step, previous, sheet| sector(costs, step, previous, sheet),
    ),
    (
        |floor, steps, sheet| leg_without_sight(floor, steps, sheet),
        |costs, step, previous, sheet| sector_without_sight(costs, step, previous, sheet),
    ),
];

/// A sector's costs, a row a line: '#' a wall, '.' a cost of 1, a digit its own cost.
fn draw(floor: &mut [u8; FLOOR], sector: usize, rows: &str) {
    let cells = rows.split_whitespace().flat_map(str::bytes);
    for (cost, drawn) in floor[sector * CELLS..][..CELLS].iter_mut().zip(cells) {
        *cost = match drawn {
            b'#' => WALL,
            b'.' => 1,
            digit => digit - b'0',
        };
    }
}

/// The goal is in sector 9; sector 10 lies east of it, sector 18 south of 10.
fn floor() -> [u8; FLOOR] {
    let mut floor = [1; FLOOR];
    draw(
        &mut floor,
        9,
        ".......... .......... ..####.... .....#.... .....#.... .....#.... .......... .......... ...####... ..........",
    );
    draw(
        &mut floor,
        10,
        "#......... #....9.... #...##.... ....##.... ....##.... .......... .......... #......... #....###.. #.........",
    );
    draw(
        &mut floor,
        18,
        "###....### .......... .....44... ..######.. .......#.. .......#.. ..######.. .......... .......... ..........",
    );
    floor
}

fn list() -> [Step; 3] {
    [Step::goal(9, 44), Step::window(10, Boundary::West, 30, 60), Step::window(18, Boundary::North, 3, 6)]
}

fn place(sector: u8, cell: u8) -> Place {
    Place::new(sector, cell).unwrap()
}

/// How many moves the arrows take from a place into the goal's sector.
fn moves(sheet: &[u8], from: Place) -> usize {
    let mut place = from;
    for count in 0..=1500 {
        if place.sector() == 9 {
            assert!(!FlowByte(place.byte_of(sheet).unwrap()).is_wall(), "{from:?} ends in a wall");
            return count;
        }
        place = place.next(sheet).unwrap_or_else(|| panic!("{from:?} stops at {place:?}"));
    }
    panic!("{from:?} is still on its way after 1,500 moves");
}

#[test]
fn a_leg_is_planned_carried_and_followed() {
    let (floor, mut sheet) = (floor(), [0xAB; FLOOR]);
    // The tablet writes the leg's file; the cart reads it and plans.
    let file = leg_file_write(Steps::new(&list()).unwrap()).unwrap();
    assert_eq!(file.as_ref()[..FILE_HEAD], *b"LEG\x01\x00\x03");
    let steps = leg_file_read(file.as_ref()).unwrap();
    assert_eq!(steps, Steps::new(&list()).unwrap());
    assert_eq!(steps.as_slice(), list());
    leg(&floor, steps, &mut sheet).unwrap();
    let mut followed = 0;
    for sector in [10, 18] {
        for cell in 0..100 {
            let place = place(sector, cell);
            let byte = FlowByte(place.byte_of(&sheet).unwrap());
            assert!(place.byte_of(&floor) != Some(WALL) || byte.is_wall());
            if !byte.is_wall() {
                assert!(moves(&sheet, place) > 0);
                followed += 1;
            }
        }
    }
    assert_eq!(followed, 85 + 80);
    for sector in (0..64).filter(|sector| ![9, 10, 18].contains(sector)) {
        assert!(sheet[sector * CELLS..][..CELLS].iter().all(|byte| *byte == 0xAB), "sector {sector} was written");
    }
}

/// How many moves the arrows take within a sector to the goal, into its sight or to a window; none where they never do.
fn moves_within(sheet: &[u8], from: Place) -> Option<u8> {
    let mut place = from;
    for count in 0..100 {
        let byte = FlowByte(place.byte_of(sheet).unwrap());
        if byte.is_goal() || byte.has_line_of_sight() || byte.is_portal_goal() {
            return Some(count);
        }
        place = place.next(sheet).filter(|place| place.sector() == from.sector())?;
    }
    None
}

/// The goal's sector 9 has a wall at 1 and its goal at 10, so that arrows of its cells 2 to 9 never arrive; sector 1 leads there.
#[test]
fn arrivals_tell_a_planned_leg_s_whole_way() {
    let (mut floor, mut sheet) = ([1; FLOOR], [0; FLOOR]);
    floor[9 * CELLS + 1] = WALL;
    let list = [Step::goal(9, 10), Step::window(1, Boundary::South, 92, 99)];
    leg(&floor, Steps::new(&list).unwrap(), &mut sheet).unwrap();
    for sector in [9, 1] {
        let found = arrivals(&sheet[usize::from(sector) * CELLS..][..CELLS]).unwrap();
        for cell in (0..100).filter(|cell| (sector, *cell) != (9, 1)) {
            let place = place(sector, cell);
            assert_eq!(found.of(cell.into()), moves_within(&sheet, place), "{place:?}");
            assert_eq!(found.of(cell.into()).is_none(), sector == 9 && (2..=9).contains(&cell), "{place:?}");
        }
    }
    let cart = place(1, 95);
    let entered = cart.next(&sheet).unwrap();
    assert_eq!((entered.sector(), moves_within(&sheet, entered)), (9, None));
    // A way tells the same over the whole floor: this cart never stands still. Beside the goal it is in sight.
    assert_eq!(way(&sheet, cart), Ok(Way { outcome: Outcome::Never, place: cart, moves: 0 }));
    for (cell, outcome) in [(10, Outcome::Arrived), (20, Outcome::InSight), (1, Outcome::Stopped)] {
        let place = place(9, cell);
        assert_eq!(way(&sheet, place), Ok(Way { outcome, place, moves: 0 }));
    }
}

/// How many moves a cart takes from a place until it arrives, and where that is: move by move, which its way must tell alike.
fn to_the_end(sheet: &[u8], from: Place) -> (usize, Place) {
    let (mut at, mut moves) = (move_from(sheet, from).unwrap(), 0);
    while at.outcome == Outcome::Moved && moves < 1599 {
        (at, moves) = (move_from(sheet, at.place).unwrap(), moves + 1);
    }
    assert_eq!(at.outcome, Outcome::Arrived, "{from:?} after {moves} moves");
    let told = way(sheet, from).unwrap();
    assert_eq!((told.outcome, told.place, usize::from(told.moves)), (at.outcome, at.place, moves), "{from:?}");
    (moves, at.place)
}

#[test]
fn without_sight_a_leg_leads_to_the_goal() {
    let (floor, mut sheet) = (floor(), [0xAB; FLOOR]);
    leg_without_sight(&floor, Steps::new(&list()).unwrap(), &mut sheet).unwrap();
    let (mut followed, goal) = (0, place(9, 44));
    for (k, step) in list().iter().enumerate() {
        for cell in 0..100 {
            let place = place(step.sector().unwrap(), cell);
            if !FlowByte(place.byte_of(&sheet).unwrap()).is_wall() {
                let (moves, end) = to_the_end(&sheet, place);
                assert_eq!(end, goal, "{place:?}");
                assert!(moves <= 99 * (k + 1) + k, "{place:?}");
                followed += 1;
            }
        }
    }
    // Walls alone are not reached: 11, 15 and 20 of them.
    assert_eq!(followed, 89 + 85 + 80);
    for sector in (0..64).filter(|sector| ![9, 10, 18].contains(sector)) {
        assert!(sheet[sector * CELLS..][..CELLS].iter().all(|byte| *byte == 0xAB), "sector {sector} was written");
    }
}

/// The leg of `arrivals_tell_a_planned_leg_s_whole_way`, without sight: from cell 95 of sector 1 a cart crosses south-west into
/// cell 4, goes south-west to 13, and west along the row to the goal at 10.
#[test]
fn without_sight_a_cart_comes_through_where_it_never_arrived() {
    let (mut floor, mut sheet) = ([1; FLOOR], [0; FLOOR]);
    floor[9 * CELLS + 1] = WALL;
    let list = [Step::goal(9, 10), Step::window(1, Boundary::South, 92, 99)];
    leg_without_sight(&floor, Steps::new(&list).unwrap(), &mut sheet).unwrap();
    let cart = place(1, 95);
    assert_eq!(cart.next(&sheet), Some(place(9, 4)));
    assert_eq!(to_the_end(&sheet, cart), (5, place(9, 10)));
    let found = arrivals(&sheet[9 * CELLS..][..CELLS]).unwrap();
    assert_eq!([2, 3, 4, 9].map(|cell| found.of(cell)), [Some(3), Some(3), Some(4), Some(9)]);
}

#[test]
fn a_leg_is_what_its_sector_calls_write() {
    let (floor, mut sheet, mut part) = (floor(), [0; FLOOR], [0; CELLS]);
    for (leg, sector) in BOTH {
        leg(&floor, Steps::new(&list()).unwrap().as_ref(), &mut sheet).unwrap();
        let mut previous: Option<Built> = None;
        for step in list() {
            let own = usize::from(step.sector().unwrap()) * CELLS..;
            let cells = previous.as_ref().map(|built| &built.field.field[..]);
            previous = Some(sector(&floor[own.clone()][..CELLS], step.bytes(), cells, &mut part).unwrap());
            assert_eq!(sheet[own][..CELLS], part);
        }
    }
}

#[test]
fn a_leg_is_refused_and_its_sheet_stays() {
    for (leg, _) in BOTH {
        refused_by(leg);
    }
}

/// What a leg, with sight or without, refuses.
fn refused_by(leg: LegCall) {
    let (mut floor, mut sheet) = ([1; FLOOR], [0xAB; FLOOR]);
    let goal = Step::goal(9, 44);
    let tried = [
        (Refusal::LegOrder, vec![list()[1]]),
        (Refusal::LegOrder, vec![goal, goal]),
        (Refusal::NotAcross, vec![goal, Step::window(10, Boundary::East, 9, 99)]),
        (Refusal::NotAcross, vec![Step::goal(0, 0), Step::window(7, Boundary::East, 9, 99)]),
        (Refusal::Goal, vec![Step::goal(9, 100)]),
    ];
    for (refusal, list) in tried {
        assert_eq!(leg(&floor, Steps::new(&list).unwrap().as_ref(), &mut sheet), Err(refusal), "{list:?}");
    }
    assert_eq!(leg(&floor[1..], goal.bytes(), &mut sheet), Err(Refusal::CostBytes));
    assert_eq!(leg(&floor, goal.bytes(), &mut sheet[1..]), Err(Refusal::Sheet));
    assert_eq!(leg(&floor, &[], &mut sheet), Err(Refusal::StepList));
    // A wall all along the goal's sector: no cell of the window counts.
    for row in 0..10 {
        floor[9 * CELLS + row * 10 + 9] = WALL;
    }
    assert_eq!(leg(&floor, Steps::new(&list()).unwrap().as_ref(), &mut sheet), Err(Refusal::NoCountingCell));
    floor[9 * CELLS + 44] = WALL;
    assert_eq!(leg(&floor, Steps::new(&list()).unwrap().as_ref(), &mut sheet), Err(Refusal::OnWall));
    assert_eq!(sheet, [0xAB; FLOOR]);
}

#[test]
fn files_are_refused_and_lists_are_counted() {
    assert_eq!(Steps::new(&[]), Err(Refusal::StepList));
    assert_eq!(Steps::new(&[Step::goal(0, 0); 17]), Err(Refusal::StepList));
    assert_eq!(leg_file_write([0; 136]), Err(Refusal::StepList));
    assert_eq!(leg_file_write([0; 9]), Err(Refusal::StepList));
    assert_eq!(leg_file_write([]), Err(Refusal::StepList));
    let longest = leg_file_write(Steps::new(&[Step::goal(255, 0); 16]).unwrap()).unwrap();
    assert_eq!((longest.as_ref().len(), leg_file_read(longest.as_ref()).unwrap().len()), (FILE, STEPS));
    assert_eq!(leg_file_read(&longest.as_ref()[1..]), Err(Refusal::LegFile));
    assert_eq!(leg_file_read(&[]), Err(Refusal::LegFile));
}
