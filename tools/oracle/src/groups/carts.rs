//! Sheets of a floor over which a cart moves (our own addition): what is tried in full, what is drawn, and what such inputs
//! have to meet.

use std::fmt;

use super::arrivals::any_byte;
use super::good::{drawn, leg_case};
use super::legs::leg_that_counts;
use super::{Cases, Met};
use crate::cases::Case;
use crate::floors::Rng;
use crate::model::{Model, Place, byte_at, direction, named, place_of, reads_as_goal, reads_as_sight};
use crate::subject::*;

/// What a cart's move or way meets.
#[derive(Clone, Copy, PartialEq, Eq, PartialOrd, Ord, Debug)]
pub enum Cart {
    /// A move inside the sector, into the next one, into one that lies diagonally.
    Inside,
    Across,
    AcrossCorner,
    /// A move from a byte that reads as goal, that reads as in sight, without 0x10.
    FromGoal,
    FromSight,
    FromUnwalkable,
    /// A direction that leads off the floor: stopped, arrived, in sight.
    OffStopped,
    OffArrived,
    OffInSight,
    /// A low half that is no direction: 0, or not.
    NoDirection,
    OppositeBits,
    /// Arrived with a byte that also reads as in sight, and with one that does not; in sight.
    ArrivedInSight,
    ArrivedAlone,
    InSight,
    /// A way of no move, of up to 99, of up to 1,599, of up to 6,398, of 6,399.
    NoMove,
    To99,
    To1599,
    To6398,
    All6399,
    /// A way that ends with arrived, in sight, stopped.
    EndsArrived,
    EndsInSight,
    EndsStopped,
    /// A way that ends and passes a byte that reads as goal; one that comes again to a sector.
    PastGoal,
    SectorAgain,
    /// A way that never ends: a circle of two places, of more, of all 6,400, one that leads into a circle.
    Pair,
    Circle,
    WholeCircle,
    IntoCircle,
}

impl fmt::Display for Cart {
    fn fmt(&self, f: &mut fmt::Formatter) -> fmt::Result {
        f.write_str(match self {
            Cart::Inside => "a move inside a sector",
            Cart::Across => "into the next sector",
            Cart::AcrossCorner => "into a sector that lies diagonally",
            Cart::FromGoal => "a move from a goal byte",
            Cart::FromSight => "from a byte in sight",
            Cart::FromUnwalkable => "from a byte without 0x10",
            Cart::OffStopped => "off the floor, stopped",
            Cart::OffArrived => "off the floor, arrived",
            Cart::OffInSight => "off the floor, in sight",
            Cart::NoDirection => "stopped with no direction",
            Cart::OppositeBits => "stopped with opposite bits",
            Cart::ArrivedInSight => "arrived, in sight too",
            Cart::ArrivedAlone => "arrived, not in sight",
            Cart::InSight => "in sight",
            Cart::NoMove => "a way of no move",
            Cart::To99 => "of up to 99",
            Cart::To1599 => "of 100 to 1,599",
            Cart::To6398 => "of 1,600 to 6,398",
            Cart::All6399 => "of 6,399",
            Cart::EndsArrived => "a way that ends with arrived",
            Cart::EndsInSight => "in sight of the goal",
            Cart::EndsStopped => "with stopped",
            Cart::PastGoal => "a way past a goal byte",
            Cart::SectorAgain => "a way that comes again to a sector",
            Cart::Pair => "a circle of two places",
            Cart::Circle => "of more",
            Cart::WholeCircle => "of all 6,400",
            Cart::IntoCircle => "a way into a circle",
        })
    }
}

/// The low half of a move by so many columns and rows.
fn bits((columns, rows): (i32, i32)) -> u8 {
    let upright = [1, 0, 4][(rows + 1) as usize];
    upright + [8, 0, 2][(columns + 1) as usize]
}

/// All places in the order of a snake: row after row, to and fro, turned round, upright, or both.
fn snake_places(turned: bool, upright: bool) -> Vec<Place> {
    let place = |at: i32| {
        let (row, column) = (at / 80, if at / 80 % 2 == 0 { at % 80 } else { 79 - at % 80 });
        let (column, row) = if upright { (row, column) } else { (column, row) };
        if turned { (79 - column, 79 - row) } else { (column, row) }
    };
    (0..6400).map(place).collect()
}

/// All places in the order of a circle: a snake over all columns but the first, and back along that one.
fn circle_places() -> Vec<Place> {
    let place = |at: i32| {
        let (row, along) = (at / 79, at % 79);
        (if row % 2 == 0 { 1 + along } else { 79 - along }, row)
    };
    (0..79 * 80).map(place).chain((0..80).map(|row| (0, 79 - row))).collect()
}

fn put(sheet: &mut [u8], place: Place, byte: u8) {
    let [sector, cell] = named(place).map(usize::from);
    sheet[CELLS * sector + cell] = byte;
}

/// A sheet on which each of these places points at the next, and the last has a byte of its own.
fn along(places: &[Place], last: u8, fill: u8) -> Vec<u8> {
    let mut sheet = vec![fill; 6400];
    for pair in places.windows(2) {
        let by = (pair[1].0 - pair[0].0, pair[1].1 - pair[0].1);
        put(&mut sheet, pair[0], 0x10 + bits(by));
    }
    put(&mut sheet, places[places.len() - 1], last);
    sheet
}

fn case(call: Call, sheet: Vec<u8>, place: Place) -> Case {
    Case { sheet, cart: named(place), ..Case::of(call) }
}

/// Columns and rows at the edges of the floor and of sectors, and one inside.
const NEAR: [i32; 8] = [0, 1, 9, 10, 44, 69, 70, 79];

fn any_place(rng: &mut Rng) -> Place {
    let mut any = || if rng.one_in(2) { rng.pick(&NEAR) } else { rng.below(80) as i32 };
    (any(), any())
}

/// Sheets of any bytes.
fn any_bytes(rng: &mut Rng) -> Vec<u8> {
    (0..800).flat_map(|_| rng.draw().to_le_bytes()).collect()
}

/// A byte of each kind that a cart stands still at or passes.
fn marked_byte(rng: &mut Rng) -> u8 {
    match rng.below(4) {
        0 => rng.pick(&[0x70, 0x30, 0x50, 0x90, 0, 0x10, 0xE0, 0xF0, 0x75, 0x3A, 0x1F]),
        1 => rng.pick(&[0x70, 0x30, 0x50, 0xF0]) + rng.pick(&[1, 2, 4, 8, 3, 6, 12, 9]),
        2 => rng.pick(&[1, 2, 4, 8, 3, 6, 12, 9]),
        _ => rng.below(256) as u8,
    }
}

/// A snake over the whole floor, or a part of it, with a few bytes made others, and a place on it.
fn long_way(rng: &mut Rng) -> (Vec<u8>, Place) {
    let places = match rng.below(8) {
        0 => circle_places(),
        _ => snake_places(rng.one_in(2), rng.one_in(2)),
    };
    let last = if rng.one_in(4) { marked_byte(rng) } else { rng.pick(&[0x70, 0x30, 0x50, 0, 0x18, 0x12]) };
    let (mut sheet, first) = (along(&places, last, 0), if rng.one_in(3) { 0 } else { rng.below(6400) });
    for _ in 0..rng.below(4) {
        put(&mut sheet, places[rng.below(6400)], marked_byte(rng));
    }
    (sheet, places[first])
}

/// One direction all over, or one in each part of the floor, with few bytes made others.
fn one_direction(rng: &mut Rng) -> (Vec<u8>, Place) {
    let mut direction = || 0x10 + rng.pick(&[1, 2, 4, 8, 3, 6, 12, 9]);
    let parts = [direction(), direction(), direction(), direction()];
    let parts = if rng.one_in(2) { [parts[0]; 4] } else { parts };
    let (column, row) = (rng.below(80) as i32, rng.below(80) as i32);
    let mut sheet = vec![0; 6400];
    for place in (0..6400).map(|at| (at % 80, at / 80)) {
        put(&mut sheet, place, parts[usize::from(place.0 < column) + 2 * usize::from(place.1 < row)]);
    }
    for _ in 0..rng.below(8) {
        put(&mut sheet, any_place(rng), marked_byte(rng));
    }
    (sheet, any_place(rng))
}

/// A circle around a rectangle, anywhere; every other place points one way.
fn circle(rng: &mut Rng) -> (Vec<u8>, Place) {
    let (wide, high) = (1 + rng.below(30) as i32, 1 + rng.below(30) as i32);
    let (west, north) = (rng.below(80 - wide as usize) as i32, rng.below(80 - high as usize) as i32);
    let (east, south) = (west + wide, north + high);
    let top = (west..east).map(|column| (column, north));
    let right = (north..south).map(|row| (east, row));
    let bottom = (west + 1..=east).rev().map(|column| (column, south));
    let left = (north + 1..=south).rev().map(|row| (west, row));
    let mut places: Vec<Place> = top.chain(right).chain(bottom).chain(left).collect();
    if rng.one_in(2) {
        places.reverse();
    }
    places.push(places[0]);
    let (last, fill) = (places.len() - 1, 0x10 + rng.pick(&[1, 2, 4, 8, 3, 6, 12, 9]));
    let by = (places[1].0 - places[0].0, places[1].1 - places[0].1);
    let sheet = along(&places, 0x10 + bits(by), fill);
    let place = if rng.one_in(2) { places[rng.below(last)] } else { any_place(rng) };
    (sheet, place)
}

/// The sheet of a leg, with sight or without, as the model plans it over a sheet of any bytes, and a place on its way.
fn planned(rng: &mut Rng) -> (Vec<u8>, Place) {
    let (leg, sight) = (leg_case(rng), rng.one_in(2));
    let mut sheet = leg.sheet;
    Model::PLAIN.leg_by(sight, &leg.costs, &leg.steps, &mut sheet);
    let sector = leg.steps[8 * rng.below(leg.steps.len() / 8)];
    (sheet, place_of(sector, rng.below(CELLS) as u8))
}

/// A drawn sheet and a place on it.
fn drawn_cart(rng: &mut Rng, call: Call) -> Case {
    let (sheet, place) = match rng.below(16) {
        0..4 => (any_bytes(rng), any_place(rng)),
        4..8 => ((0..6400).map(|_| any_byte(rng)).collect(), any_place(rng)),
        8..10 => long_way(rng),
        10..13 => one_direction(rng),
        13..15 => circle(rng),
        _ => planned(rng),
    };
    case(call, sheet, place)
}

/// Every byte at places at the edges of the floor and of sectors.
fn every_byte(call: Call) -> impl Iterator<Item = Case> {
    let places = NEAR.into_iter().flat_map(|column| NEAR.map(|row| (column, row)));
    places.flat_map(move |place| {
        (0..=255).map(move |byte| {
            let mut sheet = vec![0; 6400];
            put(&mut sheet, place, byte);
            case(call, sheet, place)
        })
    })
}

/// Every place with every direction, or every n-th where fewer inputs are asked for.
fn every_place(call: Call, inputs: usize) -> impl Iterator<Item = Case> {
    let all = (0..6400).flat_map(|at| [1, 2, 4, 8, 3, 6, 12, 9].map(|bits| ((at % 80, at / 80), 0x10 + bits)));
    // An odd step, so that every direction comes.
    let every = (8 * 6400_usize).div_ceil(inputs.max(1));
    all.step_by(every | 1).map(move |(place, byte)| case(call, vec![byte; 6400], place))
}

/// The longest ways that there are: each from its first place, its second and one in the middle, to a byte of each kind and
/// back into itself; and the circle of all places.
pub fn longest_ways(call: Call) -> impl Iterator<Item = Case> {
    let kinds = [0x70, 0x30, 0x50, 0, 0x10, 0xE0, 0x75];
    let snakes = (0..4).flat_map(move |kind| kinds.map(|last| (snake_places(kind % 2 == 1, kind / 2 == 1), last)));
    let backward = (0..4).map(|kind| {
        let places = snake_places(kind % 2 == 1, kind / 2 == 1);
        let [from, to] = [places[6399], places[6398]];
        (places, 0x10 + bits((to.0 - from.0, to.1 - from.1)))
    });
    let all = snakes.chain(backward).chain([(circle_places(), 0x12)]);
    all.flat_map(move |(places, last)| [0, 1, 3200].map(|first| case(call, along(&places, last, 0), places[first])))
}

/// Every byte, every place with every direction, then a quarter of the inputs: a sheet is as much as 64 sectors.
pub fn moves(rng: Rng, inputs: usize) -> Cases {
    let full = every_byte(Call::Move).chain(every_place(Call::Move, inputs / 4));
    Box::new(full.chain(drawn(rng, inputs / 4, |rng| drawn_cart(rng, Call::Move))))
}

/// The longest ways, every place with every direction, then a quarter of the inputs.
pub fn ways(rng: Rng, inputs: usize) -> Cases {
    let full = longest_ways(Call::Way).chain(every_place(Call::Way, inputs / 16));
    Box::new(full.chain(drawn(rng, inputs / 4, |rng| drawn_cart(rng, Call::Way))))
}

/// A sheet of another length, a sector over 63, a cell over 99, each perhaps.
fn bad_cart(rng: &mut Rng, call: Call) -> Case {
    let mut spoiled = Case { sheet: vec![marked_byte(rng); 6400], ..drawn_bad(rng, call) };
    if rng.one_in(3) {
        let length = rng.pick(&[6399, 6401, 0, 100, 6300, 6500, 12800]);
        spoiled.sheet.resize(length, 0x12);
    }
    spoiled
}

fn drawn_bad(rng: &mut Rng, call: Call) -> Case {
    let sector = if rng.one_in(2) { rng.pick(&[63, 64, 65, 128, 255]) } else { rng.below(64) as u8 };
    let cell = if rng.one_in(2) { rng.pick(&[99, 100, 101, 127, 128, 255]) } else { rng.below(CELLS) as u8 };
    Case { cart: [sector, cell], ..Case::of(call) }
}

pub fn bad_moves(rng: Rng, inputs: usize) -> Cases {
    Box::new(drawn(rng, inputs / 4, |rng| bad_cart(rng, Call::Move)))
}

pub fn bad_ways(rng: Rng, inputs: usize) -> Cases {
    Box::new(drawn(rng, inputs / 4, |rng| bad_cart(rng, Call::Way)))
}

/// What moves must meet.
pub fn move_kinds() -> Vec<Met> {
    let moved = [Cart::Inside, Cart::Across, Cart::AcrossCorner, Cart::FromGoal, Cart::FromSight, Cart::FromUnwalkable];
    let off = [Cart::OffStopped, Cart::OffArrived, Cart::OffInSight, Cart::NoDirection, Cart::OppositeBits];
    let still = [Cart::ArrivedInSight, Cart::ArrivedAlone, Cart::InSight];
    moved.into_iter().chain(off).chain(still).map(Met::Cart).collect()
}

/// What ways must meet.
pub fn way_kinds() -> Vec<Met> {
    let counts = [Cart::NoMove, Cart::To99, Cart::To1599, Cart::To6398, Cart::All6399];
    let ends = [Cart::EndsArrived, Cart::EndsInSight, Cart::EndsStopped, Cart::PastGoal, Cart::SectorAgain];
    let never = [Cart::Pair, Cart::Circle, Cart::WholeCircle, Cart::IntoCircle];
    counts.into_iter().chain(ends).chain(never).map(Met::Cart).collect()
}

/// What a move meets.
fn met_by_move(case: &Case) -> Vec<Cart> {
    let at = place_of(case.cart[0], case.cart[1]);
    let byte = byte_at(&case.sheet, at);
    let answer = Model::PLAIN.move_over(&case.sheet, case.cart[0], case.cart[1]);
    let [from, to] = [case.cart[0], answer.sector].map(|sector| (sector % 8, sector / 8));
    let off = direction(byte).is_some();
    if answer.outcome == outcome::MOVED {
        let across = [Cart::Inside, Cart::Across, Cart::AcrossCorner];
        let crossed = usize::from(from.0 != to.0) + usize::from(from.1 != to.1);
        let flags = [
            (Cart::FromGoal, reads_as_goal(byte)),
            (Cart::FromSight, reads_as_sight(byte)),
            (Cart::FromUnwalkable, byte & 0x10 == 0),
        ];
        let flags = flags.into_iter().filter(|(_, holds)| *holds).map(|(kind, _)| kind);
        return flags.chain([across[crossed]]).collect();
    }
    vec![match (answer.outcome, off) {
        (outcome::ARRIVED, true) => Cart::OffArrived,
        (outcome::IN_SIGHT, true) => Cart::OffInSight,
        (_, true) => Cart::OffStopped,
        (outcome::ARRIVED, _) if reads_as_sight(byte) => Cart::ArrivedInSight,
        (outcome::ARRIVED, _) => Cart::ArrivedAlone,
        (outcome::IN_SIGHT, _) => Cart::InSight,
        _ if byte % 16 == 0 => Cart::NoDirection,
        _ => Cart::OppositeBits,
    }]
}

/// The places of a way, by the model's moves: those up to where it ends, or comes again to one of them.
fn passed(case: &Case) -> (Vec<[u8; 2]>, Option<usize>) {
    let (mut places, mut seen) = (vec![case.cart], vec![usize::MAX; 6400]);
    loop {
        let at = places[places.len() - 1];
        seen[CELLS * usize::from(at[0]) + usize::from(at[1])] = places.len() - 1;
        let made = Model::PLAIN.move_over(&case.sheet, at[0], at[1]);
        if made.outcome != outcome::MOVED {
            return (places, None);
        }
        match seen[CELLS * usize::from(made.sector) + usize::from(made.cell)] {
            usize::MAX => places.push([made.sector, made.cell]),
            again => return (places, Some(again)),
        }
    }
}

/// What a way meets.
fn met_by_way(case: &Case) -> Vec<Cart> {
    let (places, again) = passed(case);
    let moves = places.len() - 1;
    if let Some(again) = again {
        return vec![match places.len() - again {
            _ if again > 0 => Cart::IntoCircle,
            2 => Cart::Pair,
            6400 => Cart::WholeCircle,
            _ => Cart::Circle,
        }];
    }
    let byte = |place: &[u8; 2]| byte_at(&case.sheet, place_of(place[0], place[1]));
    let count = match moves {
        0 => Cart::NoMove,
        1..=99 => Cart::To99,
        100..=1599 => Cart::To1599,
        1600..=6398 => Cart::To6398,
        _ => Cart::All6399,
    };
    let last = byte(&places[moves]);
    let end = match last {
        _ if reads_as_goal(last) => Cart::EndsArrived,
        _ if reads_as_sight(last) => Cart::EndsInSight,
        _ => Cart::EndsStopped,
    };
    let mut sectors: Vec<u8> = places.iter().map(|place| place[0]).collect();
    sectors.dedup();
    let runs = sectors.len();
    sectors.sort();
    sectors.dedup();
    let more = [
        (Cart::PastGoal, places[..moves].iter().any(|place| reads_as_goal(byte(place)))),
        (Cart::SectorAgain, sectors.len() < runs),
    ];
    [count, end].into_iter().chain(more.into_iter().filter(|(_, holds)| *holds).map(|(kind, _)| kind)).collect()
}

/// What a move or a way that is taken meets.
pub fn met(case: &Case) -> Vec<Met> {
    let found = if case.call() == Call::Move { met_by_move(case) } else { met_by_way(case) };
    found.into_iter().map(Met::Cart).collect()
}

/// Sheets of every kind, each with so many places: every byte once, at the edges of the floor and of sectors, among any bytes;
/// the longest way to a goal, one into itself, and the circle of all places; one direction, circles, planned legs, arrows in any
/// direction.
pub fn some_carts(rng: &mut Rng, places: usize) -> Vec<(Vec<u8>, Vec<[u8; 2]>)> {
    let near: Vec<Place> = NEAR.into_iter().flat_map(|column| NEAR.map(|row| (column, row))).collect();
    let bytes = (0..4).map(|k| {
        let mut sheet = any_bytes(rng);
        near.iter().enumerate().for_each(|(at, place)| put(&mut sheet, *place, (64 * k + at * 37 % 64) as u8));
        (sheet, near.iter().map(|place| named(*place)).collect())
    });
    let mut list: Vec<(Vec<u8>, Vec<[u8; 2]>)> = bytes.collect();
    let mut with = |rng: &mut Rng, sheet: Vec<u8>, first: &[Place]| {
        let drawn = std::iter::repeat_with(|| named(any_place(rng)));
        let all = first.iter().map(|place| named(*place)).chain(drawn).take(places).collect();
        list.push((sheet, all));
    };
    for (order, last) in [(snake_places(false, false), 0x70), (snake_places(true, true), 0x14), (circle_places(), 0x12)]
    {
        with(rng, along(&order, last, 0), &[order[0], order[1], order[3200], order[6398], order[6399]]);
    }
    for draw in [one_direction, one_direction, circle, circle, long_way] {
        let (sheet, place) = draw(rng);
        with(rng, sheet, &[place]);
    }
    for sight in [true, false] {
        let leg = leg_that_counts(rng, 4);
        let mut sheet = any_bytes(rng);
        Model::PLAIN.leg_by(sight, &leg.costs, &leg.steps, &mut sheet);
        let first: Vec<Place> = (0..48).map(|k| place_of(leg.steps[8 * (k % 4)], rng.below(CELLS) as u8)).collect();
        with(rng, sheet, &first);
    }
    let arrows = (0..6400).map(|_| any_byte(rng)).collect();
    with(rng, arrows, &[]);
    list
}
