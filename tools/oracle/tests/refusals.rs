//! The table of refusals sees what a call was lent, cost bytes and a previous field among it: 16 to 20 (02, Jobs 3, 8, 9 and
//! 13).

use oracle::floors::{Step, all_windows, goal_step, one_wall, uniform, window_step};
use oracle::refusals::{FIELDLESS, Given, NO_RANGE, NO_WINDOW_THERE, NOT_2_TO_8, ON_WALL, number};
use oracle::subject::Previous;

/// The number of a sector call with a previous field.
fn sector(costs: &[u8], step: &Step) -> u8 {
    let previous = Some(Previous { lent: true, numbers: &[0; 100] });
    number(&Given { costs: Some(costs), sheet: Some(100), steps: Some(step), previous, ..Given::default() })
}

/// The number of a leg over a floor of costs 1 with walls at these places.
fn leg(walls: &[usize], steps: &[Step]) -> u8 {
    let mut floor = vec![1; 6400];
    walls.iter().for_each(|wall| floor[*wall] = 255);
    number(&Given {
        leg: true,
        costs: Some(&floor),
        sheet: Some(6400),
        steps: Some(&steps.concat()),
        ..Given::default()
    })
}

fn changed(step: Step, byte: usize, value: u8) -> Step {
    let mut step = step;
    step[byte] = value;
    step
}

#[test]
fn a_goal_on_a_wall() {
    let step = goal_step(3, 44);
    assert_eq!((sector(&one_wall(44), &step), sector(&one_wall(45), &step)), (ON_WALL, 0));
    assert_eq!((sector(&uniform(254), &step), sector(&uniform(0), &step)), (0, 0));
    // A length that is wrong comes first.
    assert_eq!(sector(&uniform(255)[..99], &step), 1);
}

/// Of all 220 windows: one wall is under a window cell exactly where it lies on the edge, from first to last.
#[test]
fn any_window_cell_on_a_wall() {
    for step in all_windows() {
        for wall in 0..100u8 {
            let between = (step[3]..=step[4]).contains(&wall);
            let within = between && [wall < 10, wall % 10 == 9, wall > 89, wall % 10 == 0][usize::from(step[5])];
            assert_eq!(sector(&one_wall(usize::from(wall)), &step), if within { ON_WALL } else { 0 });
        }
    }
}

#[test]
fn what_the_mark_leaves_unread_is_not_looked_at() {
    let window = changed(window_step(0, 1, 2, 5), 1, 44);
    assert_eq!(sector(&one_wall(44), &window), 0);
    let goal = [0, 44, 0, 9, 99, 1, 0, 0];
    assert_eq!((sector(&one_wall(9), &goal), sector(&one_wall(59), &goal)), (0, 0));
}

#[test]
fn a_leg_looks_at_the_sector_that_a_step_names() {
    let west = window_step(10, 3, 2, 5);
    assert_eq!((leg(&[944], &[goal_step(9, 44)]), leg(&[844], &[goal_step(9, 44)])), (ON_WALL, 0));
    assert_eq!((leg(&[1030], &[goal_step(9, 44), west]), leg(&[930], &[goal_step(9, 44), west])), (ON_WALL, 0));
    // The goal byte of the second step is not read, and sector 64 has no costs.
    assert_eq!(leg(&[1044], &[goal_step(9, 44), changed(west, 1, 44)]), 0);
    assert_eq!(leg(&[44], &[goal_step(64, 44)]), 4);
}

/// After 8 of the same step, before 4 of the next, 9, 10 and 12.
#[test]
fn its_place_among_the_numbers() {
    let (goal, west) = (goal_step(9, 44), window_step(10, 3, 2, 5));
    let turned = changed(changed(west, 3, 50), 4, 20);
    assert_eq!((leg(&[1020], &[goal, turned]), leg(&[944], &[goal, turned])), (8, ON_WALL));
    assert_eq!(leg(&[944], &[goal, changed(west, 0, 64)]), ON_WALL);
    assert_eq!((leg(&[1030], &[west]), leg(&[1030], &[goal, west, west])), (ON_WALL, ON_WALL));
    assert_eq!(leg(&[1230], &[goal, window_step(12, 3, 2, 5)]), ON_WALL);
    let previous = Some(Previous { lent: true, numbers: &[0; 99] });
    let given = Given { costs: Some(&[255; 100]), sheet: Some(100), steps: Some(&goal), previous, ..Given::default() };
    assert_eq!((number(&given), number(&Given { costs: Some(&[1; 100]), ..given })), (ON_WALL, 12));
}

#[test]
fn a_call_without_costs_has_none_to_look_at() {
    assert_eq!(number(&Given { sheet: Some(100), steps: Some(&goal_step(0, 44)), ..Given::default() }), 0);
}

/// The number of a sector call on costs of 1 but for a wall, where there is one.
fn sector_with(wall: Option<usize>, step: &Step, lent: bool, numbers: &[u32]) -> u8 {
    let costs = wall.map_or([1; 100], one_wall);
    let previous = Some(Previous { lent, numbers });
    number(&Given { costs: Some(&costs), sheet: Some(100), steps: Some(step), previous, ..Given::default() })
}

/// Of all 220 windows, those of one cell too; with a previous field they are taken, and goals are without.
#[test]
fn every_window_wants_a_previous_field() {
    for step in all_windows() {
        let with = |lent: bool, length: usize| sector_with(None, &step, lent, &[0; 101][..length]);
        assert_eq!([with(false, 0), with(false, 100), with(false, 99)], [FIELDLESS; 3]);
        assert_eq!([with(true, 100), with(true, 99), with(true, 0), with(true, 101)], [0, 12, 12, 12]);
    }
    assert_eq!(sector_with(None, &goal_step(0, 44), false, &[]), 0);
}

/// After 16, which comes after 8.
#[test]
fn where_seventeen_stands() {
    let east = window_step(0, 1, 2, 5);
    let turned = changed(changed(east, 3, 59), 4, 29);
    let bare = |wall: Option<usize>, step: &Step| sector_with(wall, step, false, &[]);
    assert_eq!((bare(Some(29), &east), bare(Some(29), &turned), bare(Some(19), &east)), (ON_WALL, 8, FIELDLESS));
    assert_eq!((bare(None, &changed(east, 0, 64)), bare(None, &changed(east, 5, 4))), (4, 6));
}

/// In the sector call alone: a leg that begins with a window keeps 9.
#[test]
fn other_calls_have_no_seventeen() {
    let (east, none) = (window_step(0, 1, 2, 5), Some(Previous { lent: false, numbers: &[] }));
    let init = Given { costs: Some(&[1; 100]), steps: Some(&east), ..Given::default() };
    let flow_new = Given { sheet: Some(100), steps: Some(&east), previous: none, ..Given::default() };
    assert_eq!((number(&init), number(&flow_new)), (0, 0));
    assert_eq!((leg(&[], &[east]), leg(&[], &[goal_step(1, 44), east])), (9, 0));
}

/// The number of two floors of cost 1 to 3 and a step, but for these costs in some cells.
fn bounds(cells: &[(usize, u8, u8)], step: &[u8]) -> u8 {
    let [mut low, mut high] = [[1; 100], [3; 100]];
    cells.iter().for_each(|(cell, from, to)| (low[*cell], high[*cell]) = (*from, *to));
    number(&Given { costs: Some(&low), high: Some(&high), steps: Some(step), ..Given::default() })
}

/// A step without window, low above high, 255 in only one of the two: in any one cell, the window's too.
#[test]
fn what_is_no_range() {
    let east = window_step(0, 1, 2, 5);
    assert_eq!((bounds(&[], &east), bounds(&[], &goal_step(0, 44))), (0, NO_RANGE));
    for cell in 0..100 {
        let at = |from: u8, to: u8| bounds(&[(cell, from, to)], &east);
        assert_eq!([at(1, 1), at(0, 0), at(0, 254), at(254, 254)], [0; 4]);
        assert_eq!([at(4, 3), at(254, 0), at(1, 0)], [NO_RANGE; 3]);
        // In a window cell 255 on either floor is 16.
        let (wall, opened) = if [29, 39, 49, 59].contains(&cell) { (ON_WALL, ON_WALL) } else { (0, NO_RANGE) };
        assert_eq!(
            [at(255, 255), at(1, 255), at(254, 255), at(255, 3), at(255, 254)],
            [wall, opened, opened, opened, opened]
        );
    }
}

/// After 16, which looks at both floors and comes after 8; 1 for either floor and 3 before them.
#[test]
fn where_eighteen_stands() {
    let (east, goal) = (window_step(0, 1, 2, 5), goal_step(0, 44));
    let turned = changed(changed(east, 3, 59), 4, 29);
    for (from, to) in [(255, 255), (1, 255), (255, 3)] {
        assert_eq!((bounds(&[(29, from, to)], &east), bounds(&[(44, from, to)], &goal)), (ON_WALL, ON_WALL));
        assert_eq!((bounds(&[(29, from, to), (0, 3, 1)], &east), bounds(&[(29, from, to)], &turned)), (ON_WALL, 8));
    }
    assert_eq!((bounds(&[(0, 3, 1)], &turned), bounds(&[(0, 3, 1)], &changed(east, 0, 64))), (8, 4));
    assert_eq!((bounds(&[(0, 3, 1)], &goal_step(0, 100)), bounds(&[(0, 3, 1)], &east[1..])), (5, 3));
    let lent = |low: usize, high: usize| {
        let (low, high) = (vec![255; low], vec![1; high]);
        number(&Given { costs: Some(&low), high: Some(&high), steps: Some(&east[1..]), ..Given::default() })
    };
    assert_eq!([lent(99, 100), lent(100, 99), lent(101, 100), lent(100, 101), lent(0, 100), lent(100, 0)], [1; 6]);
    assert_eq!(lent(100, 100), 3);
}

/// In the call for bounds alone, which has no 17.
#[test]
fn other_calls_have_no_eighteen() {
    let (goal, east) = (goal_step(0, 44), window_step(0, 1, 2, 5));
    let init = |step: &Step| number(&Given { costs: Some(&[1; 100]), steps: Some(step), ..Given::default() });
    assert_eq!((init(&goal), init(&east), sector_with(None, &goal, false, &[])), (0, 0, 0));
    assert_eq!(bounds(&[], &east), 0);
}

/// The number of windows in one sector of cost 1 but for walls.
fn windows(walls: &[usize], steps: &[Step]) -> u8 {
    let mut costs = [1; 100];
    walls.iter().for_each(|wall| costs[*wall] = 255);
    windows_of(&costs, &steps.concat())
}

fn windows_of(costs: &[u8], steps: &[u8]) -> u8 {
    number(&Given { windows: true, costs: Some(costs), steps: Some(steps), ..Given::default() })
}

/// 3 is a length that is no multiple of 8, whatever the length; 19 any other number of steps than 2 to 8, none too.
#[test]
fn how_many_windows() {
    let steps = [window_step(5, 1, 2, 5); 20].concat();
    for length in 0..=160 {
        let due = match (length % 8, length / 8) {
            (0, 2..=8) => 0,
            (0, _) => NOT_2_TO_8,
            _ => 3,
        };
        assert_eq!(windows_of(&[1; 100], &steps[..length]), due);
        assert_eq!(windows_of(&[1; 99], &steps[..length]), 1);
    }
    assert_eq!((windows_of(&[1; 100], &[255; 72]), windows_of(&[1; 100], &[255; 64])), (NOT_2_TO_8, 4));
    assert_eq!((windows_of(&[1; 6400], &steps[..16]), windows_of(&[], &[])), (1, 1));
}

/// At any of eight steps, the first too: a goal, or another sector than the first's.
#[test]
fn what_is_no_window_there() {
    let windows_at = |at: usize, step: Step| {
        let mut steps = [window_step(9, 1, 2, 5); 8];
        steps[at] = step;
        windows(&[], &steps)
    };
    for at in 0..8 {
        assert_eq!(windows_at(at, goal_step(9, 44)), NO_WINDOW_THERE);
        assert_eq!(windows_at(at, window_step(10, 1, 2, 5)), NO_WINDOW_THERE);
        assert_eq!((windows_at(at, window_step(9, 3, 0, 9)), windows_at(at, window_step(9, 1, 2, 5))), (0, 0));
    }
    let [here, there] = [9, 63].map(|sector| window_step(sector, 0, 0, 9));
    assert_eq!((windows(&[], &[there, there]), windows(&[], &[here, there, here])), (0, NO_WINDOW_THERE));
}

/// After 16 for the same step, before 4 of the next.
#[test]
fn where_twenty_stands() {
    let (east, goal, away) = (window_step(9, 1, 2, 5), goal_step(9, 44), window_step(10, 1, 2, 5));
    let turned = changed(changed(away, 3, 59), 4, 29);
    assert_eq!((windows(&[44], &[east, goal]), windows(&[44], &[goal, east])), (ON_WALL, ON_WALL));
    assert_eq!((windows(&[29], &[goal, east]), windows(&[29], &[east, goal])), (NO_WINDOW_THERE, ON_WALL));
    assert_eq!((windows(&[], &[east, turned]), windows(&[], &[east, goal, turned])), (8, NO_WINDOW_THERE));
    assert_eq!(windows(&[], &[goal, changed(east, 0, 64)]), NO_WINDOW_THERE);
    assert_eq!(windows(&[], &[east, changed(goal, 1, 100)]), 5);
    // The costs are those of the one sector, for a step elsewhere too.
    assert_eq!((windows(&[29], &[window_step(9, 0, 0, 9), away]), windows(&[19], &[east, east])), (ON_WALL, 0));
}

/// In the calls of windows alone, which have neither 9, 10, 12 nor 17.
#[test]
fn other_calls_have_no_nineteen_or_twenty() {
    let (goal, east) = (goal_step(0, 44), window_step(1, 3, 2, 5));
    assert_eq!((leg(&[], &[goal]), leg(&[], &[goal, east])), (0, 0));
    assert_eq!((sector(&uniform(1), &goal), bounds(&[], &goal)), (0, NO_RANGE));
    assert_eq!(windows(&[], &[east, east]), 0);
}
