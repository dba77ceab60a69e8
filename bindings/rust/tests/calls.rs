//! Every call, through the library that is linked: what it answers where it is accepted, and each number where it is refused.

use hanjolum::*;

const ONES: [u8; CELLS] = [1; CELLS];
const EAST: Step = Step::window(0, Boundary::East, 9, 99);

type SectorCall = fn(&[u8], &[u8], Option<&[u32]>, &mut [u8]) -> Result<Built, Refusal>;

/// The sector call, with sight and without.
const SECTOR_CALLS: [SectorCall; 2] = [
    |costs, step, previous, sheet| sector(costs, step, previous, sheet),
    |costs, step, previous, sheet| sector_without_sight(costs, step, previous, sheet),
];

/// A sheet that a refused call must leave.
fn marked() -> [u8; CELLS] {
    [0xAB; CELLS]
}

/// A floor of 1 with one cell otherwise.
fn with(cell: usize, cost: u8) -> [u8; CELLS] {
    let mut costs = ONES;
    costs[cell] = cost;
    costs
}

fn steps(list: &[Step]) -> Steps {
    Steps::new(list).expect("1 to 16 steps")
}

#[test]
fn a_sector_is_planned() {
    let mut sheet = marked();
    let built = sector(&ONES, Step::goal(0, 44), None, &mut sheet).unwrap();
    assert_eq!((built.field.field[45], built.field.field[0], built.waves), (0x10001, 0x10008, 0));
    assert_eq!((sheet[44], sheet[0]), (0x70, 0x30));
    let built = sector(&ONES, EAST, Some(&[0; CELLS]), &mut sheet).unwrap();
    assert_eq!((built.field.cost(0), built.waves, sheet[0], sheet[9]), (Some(9), 9, 0x12, 0x92));
    assert_eq!((built.field.count, built.field.los_corners[1], built.field.positions[30]), (10, 19, 3));
    assert_eq!(FlowByte(sheet[0]).direction(), Some(Direction::East));
}

#[test]
fn a_sector_is_planned_without_sight() {
    let mut sheet = marked();
    let built = sector_without_sight(&ONES, Step::goal(0, 44), None, &mut sheet).unwrap();
    // Walking costs from the goal, and ten waves to the farthest corner, cell 99.
    assert_eq!([44, 45, 0, 99].map(|cell| built.field.field[cell]), [0x20000, 1, 8, 10]);
    assert_eq!((built.waves, built.field.count, built.field.los_corners[0]), (10, 1, 44));
    assert_eq!([44, 45, 0].map(|cell: usize| sheet[cell]), [0x70, 0x18, 0x16]);
    assert_eq!([44, 45, 0].map(|cell: usize| built.field.positions[cell]), [255, 0, 0]);
    // The goal's own cost is never paid; walls, and a cell that they close in, are not reached.
    let mut costs = with(44, 200);
    (costs[1], costs[10]) = (WALL, WALL);
    let built = sector_without_sight(&costs, Step::goal(0, 44), None, &mut sheet).unwrap();
    assert_eq!([44, 45, 1, 0].map(|cell| built.field.field[cell]), [0x20000, 1, 0x200FFFF, 65535]);
    assert_eq!([1, 0].map(|cell: usize| (sheet[cell], built.field.positions[cell])), [(0xE0, 255); 2]);
}

#[test]
fn a_window_is_planned_without_sight_as_with_it() {
    let (mut sheet, mut without) = (marked(), marked());
    let previous: [u32; CELLS] = core::array::from_fn(|cell| cell as u32 * 37 % 11);
    let costs = with(47, 30);
    let built = sector(&costs, EAST, Some(&previous), &mut sheet).unwrap();
    assert_eq!(sector_without_sight(&costs, EAST, Some(&previous), &mut without), Ok(built));
    assert_eq!(without, sheet);
    // Cell 46 is reached round the dear cell beside it, by 36.
    assert_eq!([49, 47, 36, 46].map(|cell| built.field.cost(cell)), [Some(0), Some(31), Some(3), Some(4)]);
}

/// A field given by hand that starts from its goal alone.
fn started_at(costs: &[u8; CELLS], goal: usize) -> IntegrationField {
    let mut started =
        IntegrationField { field: [65535; CELLS], los_corners: [0; CELLS], count: 1, positions: [0; CELLS] };
    for (word, _) in started.field.iter_mut().zip(costs).filter(|(_, cost)| **cost == WALL) {
        *word = 0x200FFFF;
    }
    (started.field[goal], started.los_corners[0]) = (0x20000, goal as u64);
    started
}

#[test]
fn the_sector_calls_are_made_of_the_calls_by_hand() {
    let (costs, goal, previous) = (with(55, WALL), Step::goal(0, 44), [7u32; CELLS]);
    let (mut sheet, mut without) = (marked(), marked());
    let tried = [
        (goal, init(&costs, goal).unwrap(), sector(&costs, goal, Some(&previous), &mut sheet), sheet),
        (EAST, init(&costs, EAST).unwrap(), sector(&costs, EAST, Some(&previous), &mut sheet), sheet),
        (goal, started_at(&costs, 44), sector_without_sight(&costs, goal, Some(&previous), &mut without), without),
    ];
    for (step, started, built, sheet) in tried {
        let mut by_hand = [0; CELLS];
        let field = build(&costs, started).unwrap();
        assert_eq!(Ok(field), built);
        flow_new(step, field.field, Some(&previous), &mut by_hand).unwrap();
        flow_build(field.field, &mut by_hand).unwrap();
        assert_eq!(by_hand, sheet);
    }
}

#[test]
fn arrows_that_never_arrive_are_told() {
    // With a wall at 1 and the goal at 10 the arrows of 2 and 3 point at each other, and those of 4 to 9 lead to them.
    let mut sheet = marked();
    sector(&with(1, WALL), Step::goal(0, 10), None, &mut sheet).unwrap();
    let found = arrivals(&sheet).unwrap();
    for cell in 0..CELLS {
        assert_eq!(found.of(cell).is_none(), (1..=9).contains(&cell), "cell {cell}");
    }
    assert_eq!((found.of(10), found.of(100)), (Some(0), None));
    // Without sight they all arrive: 2 and 3 go by 12 and 11, and 9 by 18 along the second row.
    sector_without_sight(&with(1, WALL), Step::goal(0, 10), None, &mut sheet).unwrap();
    let found = arrivals(&sheet).unwrap();
    assert_eq!([2, 3, 9, 10, 1].map(|cell| found.of(cell)), [Some(3), Some(3), Some(9), Some(0), None]);
    assert_eq!((0..CELLS).filter(|cell| found.of(*cell).is_none()).count(), 1);
    // Left by a window, every reached cell arrives, in as many moves as there are columns to it.
    sector(&ONES, EAST, Some(&[0; CELLS]), &mut sheet).unwrap();
    for cell in 0..CELLS {
        assert_eq!(arrivals(&sheet).unwrap().of(cell), Some(9 - (cell % 10) as u8), "cell {cell}");
    }
    // Out of the sector, and onto a byte with no direction.
    let mut by_hand = [0; CELLS];
    by_hand[..3].copy_from_slice(&[0x11, 0x12, 0x12]);
    assert_eq!(arrivals(&by_hand).unwrap().moves, [NEVER; CELLS]);
    assert_eq!(arrivals(&by_hand[1..]), Err(Refusal::Sheet));
}

#[test]
fn a_step_is_judged_and_nothing_is_written() {
    let mut sheet = marked();
    let zeros = [0; CELLS];
    let tried = [
        (Refusal::StepBytes, Step::goal(64, 0)),
        (Refusal::Goal, Step::goal(63, 100)),
        (Refusal::Window, Step::window(0, Boundary::East, 9, 109)),
        (Refusal::OffEdge, Step::window(0, Boundary::East, 9, 98)),
        (Refusal::FirstAfterLast, Step::window(0, Boundary::East, 99, 9)),
        (Refusal::OnWall, Step::goal(0, 50)),
        (Refusal::OnWall, Step::window(0, Boundary::West, 40, 60)),
    ];
    for call in SECTOR_CALLS {
        for (refusal, step) in tried {
            assert_eq!(call(&with(50, WALL), step.bytes(), Some(&zeros), &mut sheet), Err(refusal));
        }
        let (east, goal) = (EAST.bytes(), Step::goal(0, 44));
        assert_eq!(call(&ONES[1..], east, None, &mut sheet), Err(Refusal::CostBytes));
        assert_eq!(call(&ONES, east, Some(&zeros), &mut sheet[1..]), Err(Refusal::Sheet));
        assert_eq!(call(&ONES, &[0; 7], None, &mut sheet), Err(Refusal::StepList));
        assert_eq!(call(&ONES, east, None, &mut sheet), Err(Refusal::NoPrevious));
        assert_eq!(call(&ONES, east, Some(&zeros[1..]), &mut sheet), Err(Refusal::PreviousLength));
        assert_eq!(call(&ONES, goal.bytes(), Some(&zeros[1..]), &mut sheet), Err(Refusal::PreviousLength));
    }
    assert_eq!(flow_new(EAST, init(&ONES, EAST).unwrap(), Some(&zeros[1..]), &mut sheet), Err(Refusal::PreviousLength));
    assert_eq!(flow_build(init(&ONES, EAST).unwrap(), &mut sheet[1..]), Err(Refusal::Sheet));
    assert_eq!(sheet, marked());
    let mut field = init(&ONES, EAST).unwrap();
    field.los_corners[0] = 100;
    assert_eq!(build(&ONES, field).err(), Some(Refusal::Corners));
}

#[test]
fn lines_and_their_ends() {
    let cell = |column, row| FieldCell { column, row };
    let found = line(cell(0, 0), cell(3, 1)).unwrap();
    assert_eq!(found.cells(), [cell(0, 0), cell(1, 0), cell(2, 1), cell(3, 1)]);
    assert_eq!(walk_bresenham_shallow(cell(0, 0), cell(3, 1)), Ok(found));
    assert_eq!(walk_bresenham_shallow(cell(3, 1), cell(0, 0)).unwrap().cells(), []);
    assert_eq!(walk_bresenham_steep(cell(0, 0), cell(1, 3)).unwrap().cells().len(), 4);
    assert_eq!(line(cell(0, 0), cell(10, 0)), Err(Refusal::Outside));
    assert_eq!(line_end(cell(4, 3), cell(5, 4)), Ok(cell(0, 0)));
    assert_eq!(line_end(cell(4, 3), cell(5, u64::MAX)), Err(Refusal::Outside));
}

#[test]
fn bounds_hold_what_lies_between() {
    let (low, high) = (ONES, [3; CELLS]);
    let found = bounds(&low, &high, EAST).unwrap();
    assert_eq!((found.least[0], found.greatest[0], found.least[9]), (9, 27, 0));
    assert_eq!((found.sure[8], found.sure[9]), (true, false));
    assert_eq!(bounds(&high, &low, EAST), Err(Refusal::BoundsInput));
    assert_eq!(bounds(&low, &high, Step::goal(0, 0)), Err(Refusal::BoundsInput));
    assert_eq!(bounds(&low, &[], EAST), Err(Refusal::CostBytes));
}

#[test]
fn windows_are_compared_and_toured() {
    let west = Step::window(0, Boundary::West, 0, 90);
    let north = Step::window(0, Boundary::North, 5, 5);
    let list = steps(&[EAST, west, north]);
    let rows = window_costs(&ONES, list).unwrap();
    assert_eq!(rows[0].costs[..4], [0, 9, 4, UNREACHED]);
    assert_eq!((rows[1].costs[2], rows[2].costs[0]), (5, 4));
    let tour = window_tour(&ONES, list, u16::MAX).unwrap();
    let best = tour.best.unwrap();
    assert_eq!((best.windows(), best.sum, tour.tried, tour.least), (&[0, 2, 1][..], 9, 2, 9));
    let none = window_tour(&ONES, list, 0).unwrap();
    assert_eq!((none.best, none.tried, none.least), (None, 0, 9));
    assert_eq!(window_costs(&ONES, EAST), Err(Refusal::WindowCount));
    assert_eq!(window_tour(&ONES, steps(&[EAST; 9]), 1), Err(Refusal::WindowCount));
    let other = Step::window(1, Boundary::East, 9, 99);
    assert_eq!(window_costs(&ONES, steps(&[EAST, other])), Err(Refusal::OtherSector));
    assert_eq!(window_tour(&ONES, steps(&[EAST, Step::goal(0, 0)]), 1), Err(Refusal::OtherSector));
}

#[test]
fn practice_floors_are_taken() {
    for seed in [0, 1, 2026, 2654435769, u32::MAX] {
        let floor = practice_floor(seed);
        assert!(floor.costs.iter().all(|cost| [1, 10, WALL].contains(cost)));
        let mut sheet = marked();
        sector(&floor.costs, Step::goal(0, floor.goal), None, &mut sheet).unwrap();
        assert!(FlowByte(sheet[usize::from(floor.goal)]).is_goal());
    }
    assert_eq!(practice_floor(2026).goal, 88);
}

#[test]
fn every_byte_is_read_as_document_01_has_it() {
    let bits = [0b0001, 0b0010, 0b0100, 0b1000, 0b0011, 0b0110, 0b1100, 0b1001];
    for byte in 0..=255u8 {
        let read = FlowByte(byte);
        let direction = bits.iter().position(|bits| *bits == byte & 15).map(|number| Direction::ALL[number]);
        assert_eq!(read.direction(), direction, "0x{byte:02x}");
    }
    let odd = FlowByte(0xF3);
    assert!(odd.is_goal() && odd.is_portal_goal() && odd.has_line_of_sight() && odd.is_pathable() && !odd.is_wall());
    let wall = FlowByte(0xE0);
    assert!(wall.is_wall() && !wall.is_pathable());
}
