//! The built field of a leg's step (our own addition, docs/DECISIONS.md): what the leg plans for the step at a place of the
//! list, over the cells that count, with positions (02, Job 10) and waves.

use super::integration::window_cells;
use super::leg::{CLOSED, part};
use super::{Model, Slip};
use crate::refusals::{self, Given, NO_STEP_THERE, ON_WALL, Table};
use crate::subject::*;

/// A leg's field as it is asked for.
#[derive(Clone, Copy)]
struct Asked<'a> {
    sight: bool,
    floor: &'a [u8],
    steps: &'a [u8],
    place: usize,
}

impl<'a> Asked<'a> {
    fn step(&self, place: usize) -> &'a [u8] {
        &self.steps[8 * place..8 * (place + 1)]
    }

    fn costs(&self, place: usize) -> &'a [u8] {
        &self.floor[part(self.step(place)[0].into())]
    }

    fn given(&self) -> Given<'a> {
        let (costs, steps, place) = (Some(self.floor), Some(self.steps), Some(self.place));
        Given { leg: true, costs, steps, place, ..Given::default() }
    }
}

impl Model {
    /// The number that the table gives, or with a slip another; 15 is not the table's.
    fn field_number(&self, asked: &Asked) -> u8 {
        let given = asked.given();
        let count = given.step_count();
        let mut table = Table::documents();
        let before: &[u8] = match self.slip {
            Slip::LegFieldPlaceTaken => {
                table.leg_field[0].holds = |g| g.place.is_some_and(|place| place > g.step_count());
                return table.number(&given);
            }
            Slip::LegFieldPlaceOf16 => {
                table.leg_field[0].holds = |g| g.place.is_some_and(|place| place > 15);
                return table.number(&given);
            }
            Slip::LegFieldPlaceByte => {
                table.leg_field[0].holds = |g| g.place.is_some_and(|place| place % 256 >= g.step_count());
                return table.number(&given);
            }
            Slip::LegFieldPlaceFirst if asked.place >= count => return NO_STEP_THERE,
            Slip::LegFieldPlaceBeforeList if asked.place >= count && asked.floor.len() == 6400 => {
                return NO_STEP_THERE;
            }
            Slip::LegFieldPlaceAfterSteps => &[4, 5, 6, 7, 8, ON_WALL],
            Slip::LegFieldPlaceAfterNine => &[9],
            Slip::LegFieldPlaceAfterTen => &[10],
            Slip::LegFieldPlaceAfterClosed => &[],
            Slip::LegFieldJudgedUpTo if asked.place < count => {
                let known = 8 * (asked.place + 1);
                return table.number(&Given { steps: Some(&asked.steps[..known]), ..given });
            }
            _ => return self.number_of(&given),
        };
        let placeless = refusals::number(&Given { place: None, ..given });
        match self.slip {
            Slip::LegFieldPlaceAfterClosed if placeless == 0 => {
                if self.plan_by(asked.sight, asked.floor, asked.steps).closed { CLOSED } else { self.number_of(&given) }
            }
            _ if before.contains(&placeless) => placeless,
            _ => self.number_of(&given),
        }
    }

    /// The field of a step that is planned.
    fn planned_field(&self, asked: &Asked) -> BuildAnswer {
        let plan = self.plan_by(asked.sight, asked.floor, asked.steps);
        let last = asked.steps.len() / 8 - 1;
        let closed = match self.slip {
            Slip::LegFieldClosedUpTo => plan.closed && plan.steps.len() <= asked.place,
            Slip::LegFieldClosedAtPlace => plan.closed && plan.steps.len() == asked.place,
            Slip::LegFieldClosedBehind => plan.closed && plan.steps.len() > asked.place,
            _ => plan.closed,
        };
        if closed {
            return self.refused_field(CLOSED);
        }
        let place = match self.slip {
            Slip::LegFieldOfStepBefore => asked.place.saturating_sub(1),
            Slip::LegFieldOfFirst => 0,
            Slip::LegFieldOfLast => last,
            Slip::LegFieldFromTheEnd => last - asked.place,
            _ => asked.place,
        };
        if place >= plan.steps.len() {
            return refused::build(0);
        }
        let counting = |k: usize| match self.slip {
            Slip::LegFieldWholeWindow => window_cells(asked.step(k)),
            _ => plan.steps[k].counting.clone(),
        };
        self.positioned_field(asked, place, &counting)
    }

    /// The step's sector built from these of its window cells, with positions and waves.
    fn positioned_field(&self, asked: &Asked, place: usize, counting: &dyn Fn(usize) -> Vec<usize>) -> BuildAnswer {
        let sight = match self.slip {
            Slip::LegFieldSightLost => false,
            Slip::LegFieldSightKept => true,
            _ => asked.sight,
        };
        let built = |k: usize, counting: &[usize]| {
            let (costs, step) = (asked.costs(k), asked.step(k));
            let started = self.started_by(sight, costs, step, counting);
            let (field, waves) = self.built_by(sight, costs, step, &started);
            let positions = self.positions(costs, &started, &field.field);
            BuildAnswer { number: 0, field: field.with_positions(positions), waves }
        };
        let mut answer = built(place, &counting(place));
        let other = match self.slip {
            Slip::LegFieldPositionsBefore | Slip::LegFieldWavesBefore => place.saturating_sub(1),
            _ => place,
        };
        match self.slip {
            Slip::LegFieldPositionsBefore => answer.field.positions = built(other, &counting(other)).field.positions,
            Slip::LegFieldPositionsWhole => {
                answer.field.positions = built(place, &window_cells(asked.step(place))).field.positions;
            }
            Slip::LegFieldPositionsUnset => answer.field.positions = self.started_positions(),
            Slip::LegFieldWavesBefore => answer.waves = built(other, &counting(other)).waves,
            Slip::LegFieldWavesSummed => answer.waves = (0..=place).map(|k| built(k, &counting(k)).waves).sum(),
            Slip::LegFieldListWhole => {
                let whole = built(place, &window_cells(asked.step(place))).field;
                (answer.field.los_corners, answer.field.count) = (whole.los_corners, whole.count);
            }
            _ => {}
        }
        answer
    }

    /// What a refused call answers: all but the number zero; slips leave something in it.
    fn refused_field(&self, number: u8) -> BuildAnswer {
        let mut answer = self.refused_build(number);
        match self.slip {
            Slip::LegFieldCellsOfRefusal if number != 0 => answer.field.field = [65535; CELLS],
            Slip::LegFieldListOfRefusal if number != 0 => answer.field.count = 1,
            Slip::LegFieldPositionsOfRefusal if number != 0 => answer.field.positions = [NO_POSITION; CELLS],
            Slip::LegFieldWavesOfRefusal if number != 0 => answer.waves = 1,
            _ => {}
        }
        answer
    }

    /// The field of a leg's step, with the sight of the leg's goal or without.
    pub(crate) fn leg_field_by(&self, sight: bool, floor: &[u8], steps: &[u8], place: usize) -> BuildAnswer {
        let asked = Asked { sight, floor, steps, place };
        let due = refusals::number(&asked.given());
        match self.field_number(&asked) {
            0 if due == 0 => self.planned_field(&asked),
            number => self.refused_field(number),
        }
    }
}
