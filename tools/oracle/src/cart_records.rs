//! The records of a cart's moves and ways and of the fields of a leg's steps; `records` has their layouts.

use crate::cases::Case;
use crate::floors::{self, Rng};
use crate::groups::{self, asked};
use crate::judges::{self, Judge};
use crate::oracle::Oracle;
use crate::records::{list, wide};
use crate::subject::*;

/// The places that a record of moves and ways has.
const PLACES: usize = 64;

/// The bytes that a record has room for, of a sheet and of a leg's list.
const SHEET: usize = 6401;
const STEPS: usize = 136;

/// So many bytes, 0 beyond those that there are.
fn filled(bytes: &[u8], places: usize) -> impl Iterator<Item = u8> {
    bytes.iter().copied().chain(std::iter::repeat(0)).take(places)
}

fn short(value: usize) -> [u8; 2] {
    (value as u16).to_le_bytes()
}

/// A sheet with the moves and ways from its places.
fn carts((sheet, places): (Vec<u8>, Vec<[u8; 2]>)) -> Vec<u8> {
    assert_eq!(places.len(), PLACES);
    let mut record = short(sheet.len()).to_vec();
    record.extend(filled(&sheet, SHEET));
    for [sector, cell] in places {
        let made = Oracle.next_move(&sheet, sector, cell);
        let way = Oracle.way(&sheet, sector, cell);
        record.extend([sector, cell, made.number, made.outcome, made.sector, made.cell]);
        record.extend([way.number, way.outcome, way.sector, way.cell]);
        record.extend(way.moves.to_le_bytes());
    }
    record
}

pub fn carts_taken(mut rng: Rng) -> Vec<Vec<u8>> {
    groups::some_carts(&mut rng, PLACES).into_iter().map(carts).collect()
}

/// Sectors over 63 and cells over 99, alone and together; then sheets that are a byte shorter or longer, with any places.
pub fn carts_refused(mut rng: Rng) -> Vec<Vec<u8>> {
    let ends = [(64, 0), (64, 100), (0, 100), (63, 100), (255, 99), (255, 255), (63, 255), (64, 99)];
    let mut off: Vec<[u8; 2]> = ends.map(|(sector, cell)| [sector, cell]).to_vec();
    while off.len() < PLACES {
        let [sector, cell] = [rng.below(256) as u8, rng.below(256) as u8];
        if sector > 63 || cell > 99 {
            off.push([sector, cell]);
        }
    }
    let mut any: Vec<[u8; 2]> = (0..PLACES).map(|_| [rng.below(80) as u8, rng.below(120) as u8]).collect();
    any[0] = [0, 0];
    let records = [(6400, off), (6399, any.clone()), (6401, any)];
    records.map(|(length, places)| carts((vec![0x72; length], places))).to_vec()
}

/// The field of a leg's step, and who decides it. Cost bytes of sectors not named are made 1.
fn leg_field(case: &Case) -> (Judge, Vec<u8>) {
    let (steps, place) = (&case.steps, case.place.min(65535));
    let mut floor = vec![1; case.costs.len()];
    let mut costs = Vec::new();
    for step in steps.chunks_exact(8).take(16) {
        let part = usize::from(step[0]) * CELLS..(usize::from(step[0]) + 1) * CELLS;
        let own = case.costs.get(part.clone()).map_or(vec![0; CELLS], <[u8]>::to_vec);
        if let Some(there) = floor.get_mut(part) {
            there.copy_from_slice(&own);
        }
        costs.extend(own);
    }
    let (answer, judges) = judges::during(|| match case.call() {
        Call::LegFieldWithoutSight => Oracle.leg_field_without_sight(&floor, steps, place),
        _ => Oracle.leg_field(&floor, steps, place),
    });
    let mut record = [&short(floor.len())[..], &[steps.len() as u8], &short(place)].concat();
    record.extend(filled(steps, STEPS));
    record.extend(filled(&costs, 16 * CELLS));
    record.extend([answer.number, answer.waves as u8]);
    record.extend(list(&answer.field));
    record.extend(wide(&answer.field.field));
    // Where other judges decide a part, the altered Rust decides the rest, and the file has its name.
    let judge = [Judge::Altered, Judge::Table, Judge::Model].into_iter().find(|judge| judges[*judge as usize]);
    (judge.expect("a judge decided the field"), record)
}

/// Legs in which every window cell counts, of three steps at each place, of sixteen at some; legs with gaps; 15 before the
/// place, at it and behind it.
fn planned_fields(rng: &mut Rng) -> Vec<Case> {
    let [three, sixteen] = [3, 16].map(|steps| groups::leg_that_counts(rng, steps));
    let mut cases: Vec<Case> = (0..3).map(|place| asked(three.clone(), place)).collect();
    cases.extend([0, 1, 8, 15].map(|place| asked(sixteen.clone(), place)));
    let (costs, steps) = floors::leg_with_a_gap();
    let gap = Case { costs, steps, ..Case::of(Call::Leg) };
    cases.extend((0..gap.steps.len() / 8).map(|place| asked(gap.clone(), place)));
    cases.extend((0..3).map(|_| groups::leg_field_that_meets(rng, groups::Met::Field(groups::Field::SomeCount))));
    cases.extend(groups::field_kinds().into_iter().map(|kind| groups::leg_field_that_meets(rng, kind)));
    cases
}

/// A leg of two steps that is taken, with a place, and the same with its length, its steps or its floor made others.
fn refused_fields(rng: &mut Rng) -> Vec<Case> {
    let steps = [floors::goal_step(0, 44), floors::window_step(1, 3, 2, 5)].concat();
    let sound = Case { costs: vec![1; 6400], steps: steps.clone(), ..Case::of(Call::Leg) };
    let floors_of = [6399, 6401].map(|length| Case { costs: vec![1; length], ..sound.clone() });
    let lists =
        [&[][..], &steps[..9], &steps.repeat(9)[..136]].map(|list| Case { steps: list.to_vec(), ..sound.clone() });
    let mut cases: Vec<Case> =
        floors_of.into_iter().chain(lists).flat_map(|leg| [0, 20].map(|at| asked(leg.clone(), at))).collect();
    cases.extend([2, 3, 15, 16, 255, 256, 257, 65535].map(|place| asked(sound.clone(), place)));
    let changes: [&[(usize, u8)]; 8] = [
        &[(8, 64)],
        &[(1, 100)],
        &[(11, 100)],
        &[(11, 21)],
        &[(11, 50), (12, 20)],
        &[(8, 0)],
        &[(8, 2)],
        &[(0, 64), (8, 64)],
    ];
    for change in changes {
        let mut spoiled = sound.clone();
        change.iter().for_each(|(at, byte)| spoiled.steps[*at] = *byte);
        cases.extend([0, 2].map(|place| asked(spoiled.clone(), place)));
    }
    let mut walled = sound.clone();
    walled.costs[130] = 255;
    cases.extend([0, 1, 2].map(|place| asked(walled.clone(), place)));
    let closed = groups::closed_leg(rng, 3, 3);
    cases.push(asked(closed, 3));
    cases
}

/// Those of the fields of legs, with sight or without, that a judge decides.
pub fn leg_fields(mut rng: Rng, sight: bool, judge: Judge) -> Vec<Vec<u8>> {
    // Without sight nothing is refused otherwise: of what is refused a half will do.
    let (planned, refused) = (planned_fields(&mut rng), refused_fields(&mut rng));
    let cases = planned.into_iter().chain(refused.into_iter().step_by(if sight { 1 } else { 2 }));
    let by_sight = cases.map(|case| if sight { case } else { case.without_sight() });
    by_sight.map(|case| leg_field(&case)).filter(|(by, _)| *by == judge).map(|(_, record)| record).collect()
}
