//! A cart that follows arrows alone: one leg planned with sight and without, and driven by the sheet that leads to the goal.
//!
//!     cargo run --example without_sight

use hanjolum::{Boundary, CELLS, FLOOR, Outcome, Place, Refusal, Step, Steps, WALL};

/// The goal is cell 10 of sector 9. Sector 1, north of it, is left by its south window.
const LEG: [Step; 2] = [Step::goal(9, 10), Step::window(1, Boundary::South, 92, 99)];

const CART: Place = Place::new(1, 55).unwrap();

/// A floor of 1 with one wall, beside the goal: arrows that are planned with sight run in a circle behind it.
fn floor() -> [u8; FLOOR] {
    let mut floor = [1; FLOOR];
    floor[9 * CELLS + 1] = WALL;
    floor
}

/// The leg's sheet, with sight or without.
fn plan(sight: bool) -> Result<[u8; FLOOR], Refusal> {
    let mut sheet = [0; FLOOR];
    let plan = if sight { hanjolum::leg } else { hanjolum::leg_without_sight };
    plan(&floor(), Steps::new(&LEG)?, &mut sheet)?;
    Ok(sheet)
}

/// The places that a cart drives to until it stands still, and why it does. Ask its way first: it may never stand still.
fn drive(sheet: &[u8], start: Place) -> Result<(Vec<Place>, Outcome), Refusal> {
    let mut driven = Vec::new();
    let mut at = hanjolum::move_from(sheet, start)?;
    while at.outcome == Outcome::Moved {
        driven.push(at.place);
        at = hanjolum::move_from(sheet, at.place)?;
    }
    Ok((driven, at.outcome))
}

fn main() -> Result<(), Refusal> {
    for (said, sight) in [("with sight", true), ("without sight", false)] {
        let sheet = plan(sight)?;
        if hanjolum::way(&sheet, CART)?.outcome == Outcome::Never {
            println!("{said}: the cart would drive in a circle, and is not sent off");
            continue;
        }
        let (driven, outcome) = drive(&sheet, CART)?;
        let end = driven.last().copied().unwrap_or(CART);
        println!("{said}: after {} moves the cart is in {end}: {outcome:?}", driven.len());
    }
    Ok(())
}

#[test]
fn without_sight_every_cell_arrives() {
    let (sheet, goal) = (plan(false).unwrap(), Place::new(9, 10).unwrap());
    for sector in [9, 1] {
        for cell in (0..100).filter(|cell| (sector, *cell) != (9, 1)) {
            let way = hanjolum::way(&sheet, Place::new(sector, cell).unwrap()).unwrap();
            assert_eq!((way.outcome, way.place), (Outcome::Arrived, goal), "sector {sector}, cell {cell}");
        }
    }
    // Every cell of the window counts: straight south to 95, south-west across it into cell 4, on to 13, west along the row.
    let (driven, outcome) = drive(&sheet, CART).unwrap();
    let cells: Vec<u8> = driven.iter().map(|place| place.cell()).collect();
    assert_eq!((cells, outcome), (vec![65, 75, 85, 95, 4, 13, 12, 11, 10], Outcome::Arrived));
}

#[test]
fn with_sight_the_same_cart_never_arrives() {
    assert_eq!(hanjolum::way(&plan(true).unwrap(), CART).unwrap().outcome, Outcome::Never);
}
