//! The built fields of a leg's steps: over the window cells that count, and refused as the leg is.

use hanjolum::*;

type FieldCall = fn(&[u8], &[u8], usize) -> Result<Built, Refusal>;
type SectorCall = fn(&[u8], &[u8], Option<&[u32]>, &mut [u8]) -> Result<Built, Refusal>;

/// The field of a leg's step and the sector call, with sight and without.
const BOTH: [(FieldCall, SectorCall); 2] = [
    (
        |floor, steps, place| leg_field(floor, steps, place),
        |costs, step, previous, sheet| sector(costs, step, previous, sheet),
    ),
    (
        |floor, steps, place| leg_field_without_sight(floor, steps, place),
        |costs, step, previous, sheet| sector_without_sight(costs, step, previous, sheet),
    ),
];

/// The goal is in sector 9; sector 10, east of it, is left by its west window, cells 30 to 60; sector 18, south of 10, by its north.
const LEG: [Step; 3] =
    [Step::goal(9, 44), Step::window(10, Boundary::West, 30, 60), Step::window(18, Boundary::North, 3, 6)];

fn steps() -> Steps {
    Steps::new(&LEG).unwrap()
}

#[test]
fn each_cell_is_told_its_door() {
    let mut floor = [1; FLOOR];
    for (field, _) in BOTH {
        let built = field(&floor, steps().as_ref(), 1).unwrap();
        assert_eq!(built.field.los_corners[..built.field.count as usize], [30, 40, 50, 60]);
        // Straight west into the window's row, or first along the first column to its end.
        assert_eq!([49, 0, 99, 30].map(|cell| built.field.cost(cell)), [Some(9), Some(3), Some(12), Some(0)]);
        assert_eq!([49, 0, 99, 30].map(|cell| built.field.corner_of(cell)), [Some(40), Some(30), Some(60), Some(30)]);
        assert_eq!((built.waves, built.field.corner_of(100)), (12, None));
    }
    // Racks at cells 39 and 49 of the goal's sector: window cell 30 faces nothing else, so that it does not count.
    (floor[9 * CELLS + 39], floor[9 * CELLS + 49]) = (WALL, WALL);
    for (field, sector) in BOTH {
        let built = field(&floor, steps().as_ref(), 1).unwrap();
        assert_eq!(built.field.los_corners[..built.field.count as usize], [40, 50, 60]);
        assert_eq!([49, 0, 99, 30].map(|cell| built.field.cost(cell)), [Some(9), Some(4), Some(12), Some(1)]);
        assert_eq!([49, 0, 99, 30].map(|cell| built.field.corner_of(cell)), [Some(40), Some(40), Some(60), Some(40)]);
        // The sector call, which knows nothing of the cells that count, names the whole window.
        let alone = sector(&floor[10 * CELLS..][..CELLS], LEG[1].bytes(), Some(&[0; CELLS]), &mut [0; CELLS]).unwrap();
        assert_eq!((alone.field.corner_of(0), alone.field.cost(0)), (Some(30), Some(3)));
    }
}

#[test]
fn where_every_window_cell_counts_it_is_the_sector_call_s_field() {
    let mut floor = [1; FLOOR];
    (floor[9 * CELLS + 22], floor[10 * CELLS + 55], floor[18 * CELLS + 40]) = (WALL, 30, WALL);
    for (field, sector) in BOTH {
        let mut previous: Option<Built> = None;
        for (place, step) in LEG.iter().enumerate() {
            let costs = &floor[usize::from(step.sector().unwrap()) * CELLS..][..CELLS];
            let cells = previous.as_ref().map(|built| &built.field.field[..]);
            let built = sector(costs, step.bytes(), cells, &mut [0; CELLS]).unwrap();
            assert_eq!(field(&floor, steps().as_ref(), place), Ok(built), "place {place}");
            previous = Some(built);
        }
    }
    // With sight and without, the goal's field is another: cell 45 is in sight, or not.
    let goals = BOTH.map(|(field, _)| field(&floor, steps().as_ref(), 0).unwrap().field.field[45]);
    assert_eq!(goals, [0x10001, 1]);
}

#[test]
fn it_is_refused_as_the_leg_is() {
    let mut floor = [1; FLOOR];
    let (wrong, twice) = (Steps::new(&[LEG[0], Step::goal(64, 0)]).unwrap(), Steps::new(&[LEG[0], LEG[0]]).unwrap());
    for (field, _) in BOTH {
        assert_eq!(field(&floor[1..], steps().as_ref(), 3), Err(Refusal::CostBytes));
        assert_eq!(field(&floor, &[], 0), Err(Refusal::StepList));
        assert_eq!(field(&floor, &steps().as_ref()[1..], 0), Err(Refusal::StepList));
        assert_eq!(field(&floor, steps().as_ref(), 3), Err(Refusal::Place));
        assert_eq!(field(&floor, steps().as_ref(), usize::MAX), Err(Refusal::Place));
        // A place beyond the last step comes before what is wrong with a step; and a step behind the place is judged too.
        assert_eq!(field(&floor, wrong.as_ref(), 2), Err(Refusal::Place));
        assert_eq!(field(&floor, wrong.as_ref(), 0), Err(Refusal::StepBytes));
        assert_eq!(field(&floor, twice.as_ref(), 0), Err(Refusal::LegOrder));
    }
    // A wall all along the east of the goal's sector: no cell of the second step's window counts, at any place.
    for row in 0..10 {
        floor[9 * CELLS + row * 10 + 9] = WALL;
    }
    for (field, _) in BOTH {
        for place in 0..3 {
            assert_eq!(field(&floor, steps().as_ref(), place), Err(Refusal::NoCountingCell), "place {place}");
        }
    }
    floor[18 * CELLS + 4] = WALL;
    assert_eq!(leg_field(&floor, steps(), 0), Err(Refusal::OnWall));
}
