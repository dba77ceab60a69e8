//! Following a leg's arrows to the goal's sector (02, Job 4): journeys counted by hand, each fault that a sheet may have, and
//! what the group has to have met.

use oracle::floors::{goal_step, leg_with_a_gap, straight_leg, window_step};
use oracle::groups::{Clean, Group, JOURNEY};
use oracle::journey::{End, Followed, PlannedLeg};
use oracle::model::{Model, Slip};
use oracle::oracle::Oracle;
use oracle::subject::*;

const N: u8 = 1;
const E: u8 = 2;
const S: u8 = 4;
const W: u8 = 8;

/// A leg planned by the oracle.
struct Planned {
    floor: Vec<u8>,
    steps: Vec<u8>,
    built: Vec<[u32; CELLS]>,
    sheet: Vec<u8>,
}

impl Planned {
    fn new(floor: Vec<u8>, steps: Vec<u8>) -> Self {
        let mut sheet = vec![0x55; 6400];
        assert_eq!(Oracle.leg(&floor, &steps, &mut sheet), 0);
        let built = Oracle.built_steps(true, &floor, &steps);
        Planned { floor, steps, built, sheet }
    }

    fn leg(&self) -> PlannedLeg<'_> {
        let (floor, steps, built, sheet) = (&self.floor, &self.steps, &self.built, &self.sheet);
        PlannedLeg { floor, steps, built, sheet, end: End::GoalsSector }
    }

    /// The journey from a cell of sector 1, the second step's, where the cell has another byte.
    fn with_byte(&self, cell: usize, byte: u8) -> Result<Followed, String> {
        let mut sheet = self.sheet.clone();
        sheet[CELLS + cell] = byte;
        PlannedLeg { sheet: &sheet, ..self.leg() }.journey(1, cell)
    }

    /// What is wrong with it.
    fn fault(&self, cell: usize, byte: u8) -> String {
        self.with_byte(cell, byte).expect_err("a fault")
    }
}

/// Sector 1 is left by the west edge's cells of these rows; only rows 3 and 9 across are floor.
fn with_a_gap(first: usize, last: usize) -> Planned {
    let (floor, _) = leg_with_a_gap();
    Planned::new(floor, [goal_step(0, 44), window_step(1, 3, first, last)].concat())
}

fn made(straight: usize, diagonal: usize, moves: usize) -> Result<Followed, String> {
    Ok(Followed { cells: 1, straight, diagonal, longest: moves, ..Followed::default() })
}

#[test]
fn journeys_into_a_window_with_gaps() {
    let planned = with_a_gap(0, 9);
    let leg = planned.leg();
    // South twice, then south-west into row 3; straight into row 3; north, then north-west into row 3.
    assert_eq!(leg.journey(1, 0), made(0, 1, 3));
    assert_eq!(leg.journey(1, 30), made(1, 0, 1));
    assert_eq!(leg.journey(1, 50), made(0, 1, 2));
    let all = leg.journeys().expect("every journey ends");
    assert_eq!((all.legs, all.of_sixteen, all.cells, all.straight + all.diagonal), (1, 0, 100, 100));
}

#[test]
fn journeys_over_an_open_floor() {
    let planned = Planned::new(vec![1; 6400], straight_leg(16));
    let leg = planned.leg();
    assert_eq!(leg.journey(1, 9), made(1, 0, 10));
    // East through seven sectors, north over the edge, west over the edge and through six more: along their row 9, so that
    // the last crossing, into sector 0 with its goal in row 0, leans north.
    assert_eq!(leg.journey(15, 0), made(14, 1, 7 * 10 + 1 + 1 + 6 * 10));
    let all = leg.journeys().expect("every journey ends");
    assert_eq!((all.legs, all.of_sixteen, all.cells), (1, 1, 1_500));
    assert_eq!(all.straight + all.diagonal, (1..=15).map(|k| 100 * k).sum::<usize>());
}

/// A cost 0 ends what is promised of its own sector and of those behind it; in the goal's sector it does not.
#[test]
fn costs_0_on_the_way_are_not_followed() {
    for (sector, followed) in [(0, 1_500), (3, 200), (40, 1_500)] {
        let mut floor = vec![1; 6400];
        floor[sector * CELLS + 55] = 0;
        let all = Planned::new(floor, straight_leg(16)).leg().journeys().expect("every journey ends");
        assert_eq!(all.cells, followed);
    }
}

#[test]
fn wrong_crossings_are_seen() {
    let whole = with_a_gap(0, 9);
    assert!(
        whole
            .fault(30, W + N)
            .ends_with("move 1, which leaves cell 30 of sector 1, crosses into a cell that is not reached")
    );
    assert!(whole.fault(50, W).ends_with("crosses into a cell that is not reached"));
    assert!(whole.fault(95, S).ends_with("crosses into another sector than the one listed before"));
    assert!(whole.fault(39, E).ends_with("crosses into another sector than the one listed before"));
    let short = with_a_gap(3, 8);
    assert!(short.fault(90, W).ends_with("crosses beside the window"));
    assert!(short.fault(80, W + S).ends_with("crosses from a window cell that does not count"));
}

#[test]
fn wrong_moves_inside_are_seen() {
    let planned = with_a_gap(0, 9);
    for byte in [0, 0x90, 0xE0, N, N + E, N + S, E + W, N + E + S + W, W + E + S] {
        assert!(planned.fault(5, byte).ends_with("has no place to go to"));
    }
    assert!(planned.fault(5, E).ends_with("goes to a cell of no lower cost"));
    // The window's own cells cost 0.
    assert!(planned.fault(30, E).ends_with("goes to a cell of no lower cost"));
    assert!(planned.fault(30, N).ends_with("goes to a cell of no lower cost"));
}

#[test]
fn a_move_between_two_walls_is_seen() {
    let (mut floor, steps) = leg_with_a_gap();
    floor[CELLS + 54] = 255;
    // One wall does not bar a diagonal.
    assert!(Planned::new(floor.clone(), steps.clone()).with_byte(55, N + W).is_ok());
    floor[CELLS + 45] = 255;
    assert!(Planned::new(floor, steps).fault(55, N + W).ends_with("cuts between two walls"));
}

/// All cells of a sector along columns or rows, back and forth, so that each is beside the one before, and the last is left
/// by this boundary: west from the north-east corner, east or north from the south-west corner.
fn winding(boundary: u8) -> Vec<usize> {
    let cells = (0..CELLS).map(|i| {
        let (over, along) = (i / 10, if i / 10 % 2 == 0 { i % 10 } else { 9 - i % 10 });
        match boundary {
            3 => along * 10 + 9 - over,
            1 => (9 - along) * 10 + over,
            _ => (9 - over) * 10 + along,
        }
    });
    cells.collect()
}

/// The bit of a move to the cell beside, or over this boundary.
fn bit(from: usize, to: Option<&usize>, boundary: u8) -> u8 {
    match to.map(|to| *to as i32 - from as i32) {
        Some(-10) => N,
        Some(1) => E,
        Some(10) => S,
        Some(-1) => W,
        _ => [N, E, S, W][usize::from(boundary)],
    }
}

/// A leg with made-up costs that fall by one a move, and arrows that wind through every cell of every sector.
fn winding_leg(steps: usize) -> Planned {
    let steps = straight_leg(steps);
    let mut planned = Planned { floor: vec![1; 6400], steps, built: vec![[0; CELLS]], sheet: vec![0; 6400] };
    for (k, step) in planned.steps.chunks(8).enumerate().skip(1) {
        // The eighth sector is entered by its south edge and left by its west edge.
        let cells = winding(if k == 7 { 0 } else { step[5] });
        let mut built = [0; CELLS];
        for (i, cell) in cells.iter().enumerate() {
            built[*cell] = 99 - i as u32;
            planned.sheet[usize::from(step[0]) * CELLS + cell] = bit(*cell, cells.get(i + 1), step[5]);
        }
        planned.built.push(built);
    }
    planned
}

#[test]
fn fifteen_hundred_moves_are_enough_and_one_more_is_too_many() {
    assert_eq!(winding_leg(16).leg().journey(15, 90), made(15, 0, 1_500));
    assert_eq!(winding_leg(16).leg().journeys().expect("every journey ends").longest, 1_500);
    // Sector 16, left at once from its cell 0, makes it 1,501.
    let fault = winding_leg(17).leg().journey(16, 0).expect_err("a fault");
    assert_eq!(fault, "from cell 0 of sector 16, move 1501, which leaves cell 0 of sector 1, is one too many");
}

/// The same arrows on to the goal, cell 0, through every cell of its sector: 99 moves in each of the sixteen, and a crossing
/// between each two.
#[test]
fn moves_to_the_goal_may_be_1599() {
    let mut planned = winding_leg(16);
    let cells = winding(3);
    for (i, cell) in cells.iter().enumerate() {
        planned.built[0][*cell] = 99 - i as u32;
        planned.sheet[*cell] = bit(*cell, cells.get(i + 1), 3);
    }
    let leg = PlannedLeg { end: End::Goal, ..planned.leg() };
    assert_eq!(leg.journey(0, 9), made(0, 0, 99));
    assert_eq!(leg.journey(1, 9), made(1, 0, 2 * 99 + 1));
    assert_eq!(leg.journey(15, 90), made(15, 0, 1_599));
    let all = leg.journeys().expect("every way ends");
    assert_eq!((all.cells, all.longest, all.of_sixteen), (1_600, 1_599, 1));
}

/// The model's own slips, found by following: Job 2's rule dropped, and a crossing that does not go where the choice says.
#[test]
fn slips_lead_the_cart_astray() {
    for slip in [Slip::EveryCellCounts, Slip::CrossesStraight] {
        let difference = Group::named(JOURNEY).run(&Model { slip }, 7, 2_000).err().expect("a difference");
        assert!(difference.found[0].ends_with("crosses into a cell that is not reached"), "{}", difference.found[0]);
    }
}

type Change = fn(&mut Clean);

#[test]
fn the_group_must_have_followed() {
    let group = Group::named(JOURNEY);
    let whole = group.run(&Model::PLAIN, 6, 4_000).unwrap_or_else(|_| panic!("a journey of the model goes wrong"));
    assert_eq!(group.unmet(&whole), None);
    let lacking: [(Change, &str); 4] = [
        (|clean| clean.followed = Followed::default(), "a cell to follow"),
        (|clean| clean.followed.straight = 0, "a straight crossing"),
        (|clean| clean.followed.diagonal = 0, "a diagonal crossing"),
        (|clean| clean.followed.of_sixteen = 0, "a leg of 16 steps"),
    ];
    for (without, what) in lacking {
        let mut clean = whole.clone();
        without(&mut clean);
        assert!(group.unmet(&clean).expect("a fault").contains(&format!("did not meet {what} in")));
    }
}
