//! Practice floors: the model by floors that another program made, by what every floor has, and by each slip.

use oracle::floors::Rng;
use oracle::groups::{Group, NAMED};
use oracle::model::{Model, Slip};
use oracle::subject::*;

const MODEL: Model = Model::PLAIN;

/// The floors of the named seeds as a program of a few lines in another language prints them, a row of costs a line, then
/// the goal.
const PRINTED: [&str; 4] = [
    "01010aff01010aff0101\n\
     0affff01010aff01010a\n\
     ff01010affff0a0a0101\n\
     01ffff0a0a010101ffff\n\
     0a0a010101ffff0a0a01\n\
     0a010a01010101010101\n\
     0a0affffff0101010101\n\
     010aff0a01ff0a010101\n\
     0101ffffffff0a0a0a0a\n\
     0a010101010101ff0101\n\
     54\n",
    "01010aff01010aff0101\n\
     0affff01010aff01010a\n\
     ff01010affff0a0a0101\n\
     01ffff0a0a010101ffff\n\
     0a0a010101ffff0a0a01\n\
     0a010a01010101010101\n\
     0a0aff01ff0101010101\n\
     010aff0a01ff0a010101\n\
     0101ffffffff0a0a0a0a\n\
     0a010101010101ff0101\n\
     63\n",
    "010aff01010aff01010a\n\
     ffff01010aff01010aff\n\
     01010affff0a0a010101\n\
     ffff0a0a010101ffff0a\n\
     0a010101ffff0a01010a\n\
     010a0101ff010101010a\n\
     0affffff010101010101\n\
     0a0a0a01ff0a0101ff01\n\
     01ffffffff0a0a0a0a0a\n\
     010101010101ff010101\n\
     99\n",
    "01010aff01010aff0101\n\
     0affff01010aff01010a\n\
     ff01010affff0a0a0101\n\
     01ffff0a0a010101ffff\n\
     0a0a01010101ff0a0a01\n\
     0a010a01010101010101\n\
     0a0affffff0101010101\n\
     010aff0a01ff0a010101\n\
     0101ffffffff0a0a0a0a\n\
     0a010101010101ff0101\n\
     45\n",
];

#[test]
fn the_named_seeds() {
    for (seed, printed) in NAMED.into_iter().zip(PRINTED) {
        assert_eq!(MODEL.practice_text(&seed.to_le_bytes()), printed, "seed {seed}");
    }
}

/// The low byte comes first: these bytes are the seed 1, and not 16777216.
#[test]
fn the_seed_is_four_bytes() {
    assert_eq!(MODEL.practice_text(&[1, 0, 0, 0]), PRINTED[1]);
    assert_ne!(MODEL.practice_text(&[0, 0, 0, 1]), PRINTED[1]);
    for length in (0..10).filter(|length| *length != 4) {
        assert_eq!(MODEL.practice_text(&vec![0; length]), "no\n");
    }
}

/// The program's run in the gate is one of the recorded seeds, and has to print what the model says.
#[test]
fn the_printer_is_held_to_the_model() {
    let (input, due) = (
        include_bytes!("../../../crates/practice_printer/stdin"),
        include_str!("../../../crates/practice_printer/stdout"),
    );
    assert!(NAMED.contains(&u32::from_le_bytes(*input)));
    assert_eq!(MODEL.practice_text(input), due);
}

#[test]
fn every_floor_has_its_goal_on_cost_1() {
    let mut rng = Rng::new(6);
    for seed in NAMED.into_iter().chain((0..20_000).map(|_| (rng.draw() >> 32) as u32)) {
        let (floor, drawn) = (MODEL.practice_floor(seed), MODEL.drawn(seed));
        let goal = usize::from(floor.goal);
        assert!(goal < CELLS && floor.costs[goal] == 1, "seed {seed}");
        assert!(floor.costs.iter().all(|cost| [1, 10, 255].contains(cost)), "seed {seed}");
        assert!((0..CELLS).all(|cell| cell == goal || floor.costs[cell] == drawn.costs[cell]), "seed {seed}");
    }
}

#[test]
fn every_slip_is_found() {
    let slips: Vec<_> = Slip::ALL.iter().filter(|(_, text)| text.starts_with("practice: ")).collect();
    assert_eq!(slips.len(), 23);
    for (slip, text) in slips {
        assert!(Group::named("practice").run(&Model { slip: *slip }, 6, 1000).is_err(), "not found: {text}");
    }
}
