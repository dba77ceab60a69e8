//! Sectors and legs planned without sight (our own addition): worked out by hand, by the model and by the Rust's own parts;
//! and what holding an answer to its words shows of wrong ones.

use oracle::cases::Case;
use oracle::floors::{self, Rng, goal_step, leg_past_a_dear_row, one_wall, round_a_dear_cell, window_step};
use oracle::groups::{Clean, Group, JOURNEY_WITHOUT_SIGHT, SECTOR_WITHOUT_SIGHT};
use oracle::journey::{End, PlannedLeg};
use oracle::judges::{self, Judge};
use oracle::model::{CLOSED, Model, Slip};
use oracle::oracle::Oracle;
use oracle::refusals::{FIELDLESS, ON_WALL};
use oracle::subject::*;
use oracle::without_sight::{Held, held};

const NONE: Previous = Previous { lent: false, numbers: &[] };

fn sides() -> [&'static dyn Subject; 2] {
    [&Oracle, &Model::PLAIN]
}

/// A sector with a goal, planned with sight or without, and its sheet.
fn planned(side: &dyn Subject, sight: bool, costs: &[u8], goal: usize) -> (BuildAnswer, [u8; CELLS]) {
    let (step, mut sheet) = (goal_step(0, goal), [0x55; CELLS]);
    let answer = match sight {
        true => side.sector(costs, &step, NONE, &mut sheet),
        false => side.sector_without_sight(costs, &step, NONE, &mut sheet),
    };
    (answer, sheet)
}

/// A wall at cell 1 and the goal at 10: with sight cells 2 and 3 point at each other, and 4 to 9 lead there. Without, cell 2
/// goes south to 12, since the diagonal to 11 passes the wall, and on west over 11 to the goal; 3 goes south-west to 12.
#[test]
fn a_wall_at_cell_1_and_the_goal_at_10() {
    for side in sides() {
        let (_, with) = planned(side, true, &one_wall(1), 10);
        let (answer, without) = planned(side, false, &one_wall(1), 10);
        let moves = |sheet: &[u8]| [2, 3, 9].map(|cell| side.arrivals(sheet).moves[cell]);
        assert_eq!(moves(&with), [NEVER; 3]);
        assert_eq!(moves(&without), [3, 3, 9]);
        let cells = answer.field.field;
        assert_eq!([10, 0, 1, 2, 3, 9, 99].map(|cell| cells[cell]), [GOAL, 1, 0x200FFFF, 3, 4, 10, 17]);
        assert_eq!([10, 0, 1, 2, 3, 11].map(|cell| without[cell]), [0x70, 0x14, 0xE0, 0x14, 0x1C, 0x18]);
        assert_eq!((answer.waves, answer.field.corners()), (17, &[10][..]));
        let (floor, steps, built) = (&one_wall(1), &goal_step(0, 10), &[cells]);
        let leg = PlannedLeg { floor, steps, built, sheet: &without, end: End::Goal };
        assert_eq!([2, 3, 9].map(|cell| leg.journey(0, cell).expect("it arrives").longest), [3, 3, 9]);
    }
}

/// Two rows of three cells, in which the cheapest way is not the shortest.
#[test]
fn a_way_round_a_dear_cell() {
    for side in sides() {
        let (answer, sheet) = planned(side, false, &round_a_dear_cell().0, 0);
        let named = [0, 1, 2, 10, 11, 12, 99, 50];
        assert_eq!(named.map(|cell| answer.field.field[cell]), [GOAL, 200, 4, 1, 2, 3, 65535, IMPASSABLE + 65535],);
        // Wave 1 changes 1 and 10, wave 2 cells 2 (201) and 11, wave 3 cell 12, wave 4 cell 2 once more.
        assert_eq!(answer.waves, 4);
        assert_eq!(named.map(|cell| answer.field.positions[cell]), [255, 0, 0, 0, 0, 0, 255, 255]);
        assert_eq!(named.map(|cell| sheet[cell]), [0x70, 0x18, 0x1C, 0x11, 0x19, 0x18, 0xE0, 0xE0]);
        assert_eq!(named.map(|cell| side.arrivals(&sheet).moves[cell]), [0, 1, 2, 1, 1, 2, NEVER, NEVER]);
    }
}

/// The table is that of the sector call: 16 under the goal, 17 for a window without previous field and for it alone, 12.
#[test]
fn numbers_are_those_of_the_sector_call() {
    for side in sides() {
        let mut sheet = [0x55; CELLS];
        let mut number = |costs: &[u8], step: &[u8], lent: bool, numbers: &[u32]| {
            side.sector_without_sight(costs, step, Previous { lent, numbers }, &mut sheet)
        };
        let (goal, window) = (goal_step(0, 44), window_step(0, 1, 2, 5));
        assert_eq!(number(&one_wall(44), &goal, false, &[]), refused::build(ON_WALL));
        assert_eq!(number(&one_wall(39), &window, false, &[]), refused::build(ON_WALL));
        assert_eq!(number(&one_wall(44), &window, false, &[0; CELLS]), refused::build(FIELDLESS));
        assert_eq!(number(&one_wall(45), &goal, true, &[0; 99]), refused::build(12));
        assert_eq!(number(&one_wall(45), &goal, false, &[0; 99]).number, 0);
    }
}

/// A window has the field, the waves and the bytes that it has with sight.
#[test]
fn windows_are_planned_as_before() {
    let mut rng = Rng::new(39);
    for side in sides() {
        for (k, step) in floors::all_windows().into_iter().enumerate() {
            let (mut costs, numbers) = (floors::any(&mut rng), floors::previous_for(&mut rng, &step).1);
            floors::open(&mut rng, &mut costs, &step);
            let (previous, mut sheets) = (Previous { lent: true, numbers: &numbers }, [[k as u8; CELLS]; 2]);
            let [with, without] = &mut sheets;
            let answers = (
                side.sector(&costs, &step, previous, with),
                side.sector_without_sight(&costs, &step, previous, without),
            );
            assert!(answers.0 == answers.1 && answers.0.number == 0 && with == without);
        }
    }
}

/// In sight cell 49 is the nearest of the edge, on foot its neighbours are.
#[test]
fn a_crossing_goes_by_what_walking_costs() {
    let (floor, steps) = leg_past_a_dear_row();
    for side in sides() {
        let [mut with, mut without] = [(); 2].map(|()| vec![0x55; 6400]);
        assert_eq!((side.leg(&floor, &steps, &mut with), side.leg_without_sight(&floor, &steps, &mut without)), (0, 0));
        let edge = |sheet: &[u8]| [20, 30, 40, 50, 60].map(|cell| sheet[CELLS + cell]);
        assert_eq!(edge(&with), [0x9C, 0x9C, 0x98, 0x99, 0x99]);
        assert_eq!(edge(&without), [0x9C, 0x98, 0x99, 0x98, 0x99]);
        let built = Oracle.built_steps(false, &floor, &steps);
        assert_eq!([39, 49, 59].map(|cell| built[0][cell]), [10, 110, 10]);
        // Over the boundary to 39, eight moves west to 31, and south-west to the goal.
        let leg = PlannedLeg { floor: &floor, steps: &steps, built: &built, sheet: &without, end: End::Goal };
        let made = leg.journey(1, 40).expect("it arrives");
        assert_eq!((made.straight, made.diagonal, made.longest), (0, 1, 10));
    }
}

/// What is wrong with a sheet of the leg above, where one cell has another byte and is set out from.
fn fault(step: usize, cell: usize, byte: u8) -> String {
    let (floor, steps) = leg_past_a_dear_row();
    let mut sheet = vec![0x55; 6400];
    Oracle.leg_without_sight(&floor, &steps, &mut sheet);
    sheet[step * CELLS + cell] = byte;
    let built = Oracle.built_steps(false, &floor, &steps);
    let leg = PlannedLeg { floor: &floor, steps: &steps, built: &built, sheet: &sheet, end: End::Goal };
    leg.journey(step, cell).expect_err("a fault")
}

#[test]
fn wrong_moves_toward_the_goal_are_seen() {
    assert!(fault(0, 39, 0x12).ends_with("move 1, which leaves cell 39 of sector 0, leaves the goal's sector"));
    assert!(fault(0, 39, 0x13).ends_with("leaves the goal's sector"));
    assert!(fault(0, 30, 0x11).ends_with("goes to a cell of no lower cost"));
    assert!(fault(0, 30, 0x30).ends_with("has no place to go to"));
    assert!(fault(1, 40, 0x92).ends_with("goes to a cell of no lower cost"));
    assert!(fault(1, 95, 0x14).ends_with("crosses into another sector than the one listed before"));
}

/// Toward the goal itself one wall bars a diagonal; toward its sector two do.
#[test]
fn a_move_past_one_wall_is_seen() {
    let (floor, steps, mut sheet) = (one_wall(1), goal_step(0, 10), planned(&Oracle, false, &one_wall(1), 10).1);
    sheet[2] = 0x1C;
    let built = [planned(&Oracle, false, &floor, 10).0.field.field];
    let leg = PlannedLeg { floor: &floor, steps: &steps, built: &built, sheet: &sheet, end: End::Goal };
    assert!(leg.journey(0, 2).expect_err("a fault").ends_with("passes a wall diagonally"));
}

/// A cost 0 in the goal's sector ends what is promised of the whole leg; in the second sector, of that one.
#[test]
fn costs_0_on_the_way_are_not_followed_to_the_goal() {
    for (cost_0, followed) in [(None, 200), (Some(CELLS + 55), 100), (Some(55), 0), (Some(2 * CELLS), 200)] {
        let (mut floor, steps) = leg_past_a_dear_row();
        cost_0.into_iter().for_each(|cell: usize| floor[cell] = 0);
        let mut sheet = vec![0x55; 6400];
        assert_eq!(Oracle.leg_without_sight(&floor, &steps, &mut sheet), 0);
        let built = Oracle.built_steps(false, &floor, &steps);
        let leg = PlannedLeg { floor: &floor, steps: &steps, built: &built, sheet: &sheet, end: End::Goal };
        assert_eq!(leg.journeys().expect("every way ends").cells, followed);
    }
}

/// The judges of a goal's sector, of a window, and of legs by whether every window cell counts.
#[test]
fn the_rusts_parts_decide() {
    let decided = |answer: &dyn Fn() -> u8| {
        let (_, judges) = judges::during(answer);
        Judge::ALL.into_iter().filter(|judge| judges[*judge as usize]).collect::<Vec<Judge>>()
    };
    let (costs, zeros) = (floors::uniform(1), Previous { lent: true, numbers: &[0; CELLS] });
    let goal = || Oracle.sector_without_sight(&costs, &goal_step(0, 44), NONE, &mut [0; CELLS]).number;
    assert_eq!(decided(&goal), [Judge::Published, Judge::Altered, Judge::Counted, Judge::Model]);
    let window = || Oracle.sector_without_sight(&costs, &window_step(0, 1, 2, 5), zeros, &mut [0; CELLS]).number;
    assert_eq!(decided(&window), [Judge::Altered, Judge::Counted, Judge::Model]);
    let (floor, steps) = leg_past_a_dear_row();
    assert_eq!(
        decided(&|| Oracle.leg_without_sight(&floor, &steps, &mut [0; 6400])),
        [Judge::Published, Judge::Altered]
    );
    let (floor, steps) = floors::leg_with_a_gap();
    assert_eq!(decided(&|| Oracle.leg_without_sight(&floor, &steps, &mut [0; 6400])), [Judge::Model]);
}

/// What holding answers to their words shows of a wrong model, without a comparison.
fn shown(slip: Slip, group: &str) -> String {
    let side = Model { slip };
    let cases = (Group::named(group).cases)(Rng::new(39), 20_000);
    let faults = cases.filter_map(|case: Case| held(&case, &case.run(&Oracle), &case.run(&side), &side).err());
    faults.into_iter().next().unwrap_or_else(|| panic!("{slip:?} is not shown"))
}

#[test]
fn words_show_what_is_wrong() {
    let sector = |slip: Slip| shown(slip, SECTOR_WITHOUT_SIGHT);
    assert_eq!(sector(Slip::FieldlessWithoutSight), "the number is 17, and with sight 0");
    assert_eq!(sector(Slip::OnWallWithoutSight), "the number is 0, and with sight 16");
    assert_eq!(sector(Slip::WindowUnfaced), "a window is planned otherwise");
    assert!(sector(Slip::GoalNotListed).ends_with("has 0xe0, and is reached: true"));
    assert!(sector(Slip::GoalCostPaid).ends_with("holds 0x20001, and with sight 0x20000"));
    assert_eq!(sector(Slip::GoalsPositionZero), "the position of cell 0 is 0");
    assert_eq!(sector(Slip::GoalsPositionsUnset), "the position of cell 1 is 255");
    assert_eq!(sector(Slip::SightKept), "the position of cell 1 is 255");
    assert!(sector(Slip::ArrivalsFromOne).ends_with("by arrivals"));
    let leg = |slip: Slip| shown(slip, "leg without sight");
    assert_eq!(leg(Slip::LegClosedPlanned), format!("the number is 0, and with sight {CLOSED}"));
    assert!(leg(Slip::LegSightKept).ends_with("has no place to go to"));
    assert_eq!(leg(Slip::LegStepsAlone), format!("the number is 0, and with sight {CLOSED}"));
    let followed = shown(Slip::LegStepsAlone, JOURNEY_WITHOUT_SIGHT);
    assert!(followed.ends_with("crosses into a cell that is not reached"));
}

type Change = fn(&mut Held);

/// A group that has not met what it must says so.
fn must_meet(name: &str, inputs: usize, lacking: &[(Change, &str)]) {
    let group = Group::named(name);
    let whole = group.run(&Model::PLAIN, 39, inputs).unwrap_or_else(|_| panic!("the model differs from the Rust"));
    assert_eq!(group.unmet(&whole), None);
    for (without, what) in lacking {
        let mut clean: Clean = whole.clone();
        without(&mut clean.without_sight);
        assert!(group.unmet(&clean).expect("a fault").contains(&format!("did not meet {what} in")), "{what}");
    }
}

#[test]
fn groups_must_meet_each_kind() {
    let any: [(Change, &str); 3] = [
        (|held| held.followed.cells = 0, "a cell to follow to the goal"),
        (|held| held.lost = 0, "a goal's sector with a cell that never arrives with sight"),
        (|held| held.lost = held.goals - held.with_zero, "one of which every cell arrives with sight too"),
    ];
    let sectors: [(Change, &str); 3] = [
        (|held| held.windows = 0, "a window"),
        (|held| held.closed_off = 0, "one with a floor cell that nothing reaches"),
        (|held| held.other_costs = 0, "one with other costs than with sight"),
    ];
    let legs: [(Change, &str); 4] = [
        (|held| held.followed.of_sixteen = 0, "a leg of 16 steps"),
        (|held| held.followed.straight = 0, "a straight crossing"),
        (|held| held.followed.diagonal = 0, "a diagonal crossing"),
        (|held| held.other_crossings = 0, "another crossing than with sight"),
    ];
    let zero: [(Change, &str); 1] = [(|held| held.with_zero = 0, "a goal's sector with a cost 0")];
    must_meet(SECTOR_WITHOUT_SIGHT, 2_000, &[&any[..], &sectors, &zero].concat());
    must_meet(JOURNEY_WITHOUT_SIGHT, 4_000, &[&any[..], &legs, &zero].concat());
    must_meet("leg without sight", 4_000, &any);
    must_meet("sector without sight, two walls", 4_000, &any);
}
