//! A tablet's leg: plan it with sight over a floor, carry it in a file, ask where a cart's way ends, and drive it there.
//!
//!     cargo run --example leg

use hanjolum::{Boundary, CELLS, FLOOR, Outcome, Place, Refusal, Step, Steps, Target, WALL};

/// The goal is cell 44 of sector 9. Sector 10, east of it, is left by its west window; sector 18, south of 10, by its north.
const LEG: [Step; 3] =
    [Step::goal(9, 44), Step::window(10, Boundary::West, 30, 60), Step::window(18, Boundary::North, 3, 6)];

/// The cart's place, in the sector of the leg's last step, and that step's place in the list.
const CART: (Place, usize) = (Place::new(18, 95).unwrap(), 2);

/// A floor of 1 with a wall across sector 18.
fn floor() -> [u8; FLOOR] {
    let mut floor = [1; FLOOR];
    floor[18 * CELLS + 40..][..8].fill(WALL);
    floor
}

/// The tablet: the leg's file.
fn tablet() -> Result<Vec<u8>, Refusal> {
    Ok(hanjolum::leg_file_write(Steps::new(&LEG)?)?.as_ref().to_vec())
}

/// The cart: says what it reads in the file, and plans.
fn plan(file: &[u8]) -> Result<[u8; FLOOR], Refusal> {
    let (steps, mut sheet) = (hanjolum::leg_file_read(file)?, [0; FLOOR]);
    for step in &steps {
        println!("{}", said(step));
    }
    hanjolum::leg(&floor(), steps, &mut sheet)?;
    Ok(sheet)
}

/// A step in words. A file's bytes are not judged where it is read, so that they may be no step.
fn said(step: &Step) -> String {
    match (step.sector(), step.target()) {
        (Some(sector), Some(Target::Goal { cell })) => format!("to cell {cell} of sector {sector}"),
        (Some(sector), Some(Target::Window { boundary, first, last })) => {
            format!("out of sector {sector} across its {boundary:?} boundary, by cells {first} to {last}")
        }
        _ => format!("{:?} is no step", step.bytes()),
    }
}

/// Drives a cart until it stands still.
fn drive(sheet: &[u8], start: Place) -> Result<Outcome, Refusal> {
    let mut at = hanjolum::move_from(sheet, start)?;
    while at.outcome == Outcome::Moved {
        println!("{}", at.place);
        at = hanjolum::move_from(sheet, at.place)?;
    }
    Ok(at.outcome)
}

fn main() -> Result<(), Refusal> {
    let (file, (cart, place)) = (tablet()?, CART);
    println!("the leg's file is {} bytes", file.len());
    let sheet = plan(&file)?;
    // Which cell of its window is the cart's door, among those that count in this leg.
    let field = hanjolum::leg_field(&floor(), Steps::new(&LEG)?, place)?.field;
    if let Some(door) = field.corner_of(cart.cell().into()) {
        println!("the door of {cart} is cell {door} there");
    }
    // Planned with sight, arrows need not lead to the goal: the way tells it beforehand.
    let way = hanjolum::way(&sheet, cart)?;
    match way.outcome {
        Outcome::Never => println!("the cart would drive in a circle: plan without sight, or choose another goal cell"),
        _ => println!("after {} moves: {:?}", way.moves, drive(&sheet, cart)?),
    }
    // What is wrong with a leg is said in words.
    if let Err(refusal) = hanjolum::leg(&floor(), Step::goal(9, 100), &mut [0; FLOOR]) {
        println!("a goal at 100 is {refusal}");
    }
    Ok(())
}
