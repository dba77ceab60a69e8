//! The groups of the comparison. A group names the call that it needs and makes its inputs from the
//! seed; `run` asks the oracle and a side, and stops at the first difference with the smallest input
//! that shows it.

mod arrivals;
mod bad;
mod bounds;
mod carts;
mod good;
mod journeys;
mod leg_fields;
mod leg_files;
mod legs;
mod positions;
mod practice;
mod tours;
mod windows;

use std::collections::BTreeMap;

pub use arrivals::{
    Counted, arrival_kinds, counted, drawn_sheet, goal_sheets, is_walked, one_wall_sheets, sheet_that_meets, snakes,
    some_sheets,
};
pub use bad::{refused_floors, refused_tour, refused_windows};
pub use bounds::{any_floors, floors_that_meet, range_kinds};
pub use carts::{Cart, longest_ways, met as met_by_cart, move_kinds, some_carts, way_kinds};
pub use leg_fields::{Field, asked, field_kinds, field_that_meets as leg_field_that_meets};
pub use legs::{
    Met, Place, closed_leg, leg_kinds, leg_on_walls_that_meets, leg_that_counts, leg_that_meets, wall_kinds,
};
pub use positions::{field_that_meets, position_kinds};
pub use practice::NAMED;
pub use tours::{any_tour, tour_kinds, tour_that_meets};
pub use windows::{any_windows, window_kinds, windows_that_meet};

use crate::between::{Between, Bounded};
use crate::cases::{Ask, Case, Outcome};
use crate::clear::{self, Cleared};
use crate::drive::{self, Driven};
use crate::floors::Rng;
use crate::journey::Followed;
use crate::judges::{self, Judge, Judges};
use crate::leg_fields as fields;
use crate::model::CLOSED;
use crate::oracle::{self, Oracle};
use crate::refusals::{FIELDLESS, NO_RANGE, NO_STEP_THERE, NO_WINDOW_THERE, NOT_2_TO_8, ON_WALL};
use crate::shrink;
use crate::squares::{self, Squared};
use crate::subject::{Call, Subject};
use crate::tours::{Toured, held as tour_held};
use crate::without_sight;

/// Inputs of a group, one by one.
pub type Cases = Box<dyn Iterator<Item = Case>>;

/// A group. What is there to be tried in full comes first, then `inputs` that are drawn.
pub struct Group {
    pub name: &'static str,
    /// The calls that a side must offer.
    pub needs: &'static [Call],
    pub cases: fn(Rng, usize) -> Cases,
    /// The numbers that must have been reached, or the group has not compared what it is there for.
    pub reaches: &'static [u8],
}

/// All groups, in the order in which they run.
pub const GROUPS: &[Group] = &[
    Group { name: "line", needs: &[Call::Line], cases: good::lines, reaches: &[0] },
    Group { name: "walk shallow", needs: &[Call::WalkShallow], cases: good::shallow_walks, reaches: &[0] },
    Group { name: "walk steep", needs: &[Call::WalkSteep], cases: good::steep_walks, reaches: &[0] },
    Group { name: "line end", needs: &[Call::LineEnd], cases: good::line_ends, reaches: &[0] },
    Group { name: "readers", needs: &[Call::Readers], cases: good::readers, reaches: &[0] },
    Group { name: "init", needs: &[Call::Init], cases: good::inits, reaches: &[0, ON_WALL] },
    Group { name: "build started", needs: &[Call::Build], cases: good::builds_started, reaches: &[0] },
    Group { name: "build by hand", needs: &[Call::Build], cases: good::builds_by_hand, reaches: &[0] },
    Group { name: POSITIONS, needs: &[Call::Build], cases: positions::builds, reaches: &[0] },
    Group { name: "flow new", needs: &[Call::FlowNew], cases: good::flows_new, reaches: &[0] },
    Group { name: "flow build", needs: &[Call::FlowBuild], cases: good::flows_build, reaches: &[0] },
    Group {
        name: "flow new and build",
        needs: &[Call::FlowNew, Call::FlowBuild],
        cases: good::flows_both,
        reaches: &[0],
    },
    Group { name: "sector", needs: &[Call::Sector], cases: good::sectors, reaches: &[0, ON_WALL, FIELDLESS] },
    Group { name: "sector, two walls", needs: &[Call::Sector], cases: good::two_walls, reaches: &[0, ON_WALL] },
    Group { name: "leg", needs: &[Call::Leg], cases: good::legs, reaches: &[0, CLOSED, ON_WALL] },
    Group { name: GAPS, needs: &[Call::Leg], cases: legs::gaps, reaches: &[0, CLOSED] },
    Group { name: ON_WALLS, needs: &[Call::Leg], cases: legs::on_walls, reaches: &[0, 8, CLOSED, ON_WALL] },
    Group { name: JOURNEY, needs: &[Call::Leg, Call::Move, Call::Way], cases: journeys::journeys, reaches: &[0] },
    Group {
        name: SECTOR_WITHOUT_SIGHT,
        needs: SECTORS_WITHOUT_SIGHT,
        cases: |rng, inputs| asked_without_sight(good::sectors(rng, inputs)),
        reaches: &[0, ON_WALL, FIELDLESS],
    },
    Group {
        name: "sector without sight, two walls",
        needs: SECTORS_WITHOUT_SIGHT,
        cases: |rng, inputs| asked_without_sight(good::two_walls(rng, inputs)),
        reaches: &[0, ON_WALL],
    },
    Group {
        name: "leg without sight",
        needs: LEGS_WITHOUT_SIGHT,
        cases: |rng, inputs| asked_without_sight(good::legs(rng, inputs)),
        reaches: &[0, CLOSED, ON_WALL],
    },
    Group {
        name: GAPS_WITHOUT_SIGHT,
        needs: LEGS_WITHOUT_SIGHT,
        cases: |rng, inputs| asked_without_sight(legs::gaps(rng, inputs)),
        reaches: &[0, CLOSED],
    },
    Group {
        name: ON_WALLS_WITHOUT_SIGHT,
        needs: LEGS_WITHOUT_SIGHT,
        cases: |rng, inputs| asked_without_sight(legs::on_walls(rng, inputs)),
        reaches: &[0, 8, CLOSED, ON_WALL],
    },
    Group {
        name: JOURNEY_WITHOUT_SIGHT,
        needs: JOURNEYS_WITHOUT_SIGHT,
        cases: |rng, inputs| asked_without_sight(journeys::journeys(rng, inputs)),
        reaches: &[0],
    },
    Group { name: "file write", needs: &[Call::LegFileWrite], cases: leg_files::writes, reaches: &[0, 2, 3] },
    Group { name: "file read", needs: &[Call::LegFileRead], cases: leg_files::reads, reaches: &[0, 14] },
    Group { name: PRACTICE, needs: &[Call::PracticeFloor], cases: practice::floors, reaches: &[0] },
    Group { name: BOUNDS, needs: &[Call::Bounds, Call::Sector], cases: bounds::bounds, reaches: &[0] },
    Group { name: WINDOW_COSTS, needs: &[Call::WindowCosts, Call::Sector], cases: windows::costs, reaches: &[0] },
    Group { name: WINDOW_TOUR, needs: &[Call::WindowTour], cases: tours::tours, reaches: &[0] },
    Group { name: ARRIVALS, needs: &[Call::Arrivals], cases: arrivals::sheets, reaches: &[0] },
    Group { name: MOVE, needs: &[Call::Move], cases: carts::moves, reaches: &[0] },
    Group { name: WAY, needs: &[Call::Way, Call::Move], cases: carts::ways, reaches: &[0] },
    Group { name: LEG_FIELD, needs: LEG_FIELDS, cases: leg_fields::fields, reaches: &[0, CLOSED, ON_WALL] },
    Group { name: LEG_FIELD_GAPS, needs: LEG_FIELDS, cases: leg_fields::gaps, reaches: &[0, CLOSED] },
    Group {
        name: LEG_FIELD_WITHOUT_SIGHT,
        needs: LEG_FIELDS_WITHOUT_SIGHT,
        cases: |rng, inputs| asked_without_sight(leg_fields::fields(rng, inputs)),
        reaches: &[0, CLOSED, ON_WALL],
    },
    Group {
        name: LEG_FIELD_GAPS_WITHOUT_SIGHT,
        needs: LEG_FIELDS_WITHOUT_SIGHT,
        cases: |rng, inputs| asked_without_sight(leg_fields::gaps(rng, inputs)),
        reaches: &[0, CLOSED],
    },
    Group { name: "line refusals", needs: &[Call::Line], cases: bad::lines, reaches: &[0, 13] },
    Group { name: "walk shallow refusals", needs: &[Call::WalkShallow], cases: bad::shallow_walks, reaches: &[0, 13] },
    Group { name: "walk steep refusals", needs: &[Call::WalkSteep], cases: bad::steep_walks, reaches: &[0, 13] },
    Group { name: "line end refusals", needs: &[Call::LineEnd], cases: bad::line_ends, reaches: &[0, 13] },
    Group {
        name: "init refusals",
        needs: &[Call::Init],
        cases: bad::inits,
        reaches: &[0, 1, 3, 4, 5, 6, 7, 8, ON_WALL],
    },
    Group { name: "build refusals", needs: &[Call::Build], cases: bad::builds, reaches: &[0, 1, 11] },
    Group {
        name: "flow new refusals",
        needs: &[Call::FlowNew],
        cases: bad::flows_new,
        reaches: &[0, 2, 3, 4, 5, 6, 7, 8, 12],
    },
    Group { name: "flow build refusals", needs: &[Call::FlowBuild], cases: bad::flows_build, reaches: &[0, 2] },
    Group {
        name: "sector refusals",
        needs: &[Call::Sector],
        cases: bad::sectors,
        reaches: &[0, 1, 2, 3, 4, 5, 6, 7, 8, 12, ON_WALL, FIELDLESS],
    },
    Group {
        name: "leg refusals",
        needs: &[Call::Leg],
        cases: bad::legs,
        reaches: &[0, 1, 2, 3, 4, 5, 6, 7, 8, 9, 10, CLOSED, ON_WALL],
    },
    Group {
        name: "sector without sight refusals",
        needs: SECTORS_WITHOUT_SIGHT,
        cases: |rng, inputs| asked_without_sight(bad::sectors(rng, inputs)),
        reaches: &[0, 1, 2, 3, 4, 5, 6, 7, 8, 12, ON_WALL, FIELDLESS],
    },
    Group {
        name: "leg without sight refusals",
        needs: LEGS_WITHOUT_SIGHT,
        cases: |rng, inputs| asked_without_sight(bad::legs(rng, inputs)),
        reaches: &[0, 1, 2, 3, 4, 5, 6, 7, 8, 9, 10, CLOSED, ON_WALL],
    },
    Group {
        name: "bounds refusals",
        needs: &[Call::Bounds, Call::Sector],
        cases: bad::bounds,
        reaches: &[0, 1, 3, 4, 5, 6, 7, 8, ON_WALL, NO_RANGE],
    },
    Group {
        name: "window costs refusals",
        needs: &[Call::WindowCosts, Call::Sector],
        cases: bad::windows,
        reaches: &[0, 1, 3, 4, 5, 6, 7, 8, ON_WALL, NOT_2_TO_8, NO_WINDOW_THERE],
    },
    Group {
        name: "window tour refusals",
        needs: &[Call::WindowTour],
        cases: bad::tours,
        reaches: &[0, 1, 3, 4, 5, 6, 7, 8, ON_WALL, NOT_2_TO_8, NO_WINDOW_THERE],
    },
    Group { name: "arrivals refusals", needs: &[Call::Arrivals], cases: bad::arrivals, reaches: &[0, 2] },
    Group { name: "move refusals", needs: &[Call::Move], cases: carts::bad_moves, reaches: &[0, 2, 4, 5] },
    Group { name: "way refusals", needs: &[Call::Way, Call::Move], cases: carts::bad_ways, reaches: &[0, 2, 4, 5] },
    Group {
        name: LEG_FIELD_REFUSALS,
        needs: LEG_FIELDS,
        cases: leg_fields::bad_fields,
        reaches: &[0, 1, 3, 4, 5, 6, 7, 8, 9, 10, CLOSED, ON_WALL, NO_STEP_THERE],
    },
    Group {
        name: LEG_FIELD_REFUSALS_WITHOUT_SIGHT,
        needs: LEG_FIELDS_WITHOUT_SIGHT,
        cases: |rng, inputs| asked_without_sight(leg_fields::bad_fields(rng, inputs)),
        reaches: &[0, 1, 3, 4, 5, 6, 7, 8, 9, 10, CLOSED, ON_WALL, NO_STEP_THERE],
    },
];

/// Fields whose positions are looked for.
pub const POSITIONS: &str = "build, positions";

/// Legs whose windows face cells that were not reached.
const GAPS: &str = "leg, gaps";

/// Legs with walls under goals and window cells.
const ON_WALLS: &str = "leg, on walls";

/// Legs whose arrows are followed to the goal's sector.
pub const JOURNEY: &str = "journey";

const FOLLOWED_ALONE: &str = "journey, followed alone";

/// The same where nothing but following finds a fault.
pub const FOLLOWED: Group =
    Group { name: FOLLOWED_ALONE, needs: &[Call::Leg], cases: journeys::journeys, reaches: &[0] };

/// The calls that sectors without sight are held to, the one that is asked first, and those of legs.
const SECTORS_WITHOUT_SIGHT: &[Call] = &[Call::SectorWithoutSight, Call::Sector, Call::Arrivals];
const LEGS_WITHOUT_SIGHT: &[Call] = &[Call::LegWithoutSight, Call::Leg, Call::Arrivals];

const JOURNEYS_WITHOUT_SIGHT: &[Call] = &[Call::LegWithoutSight, Call::Leg, Call::Arrivals, Call::Move, Call::Way];

/// The calls that fields of a leg's steps are held to, the one that is asked first.
const LEG_FIELDS: &[Call] = &[Call::LegField, Call::Leg, Call::Build, Call::Sector];
const LEG_FIELDS_WITHOUT_SIGHT: &[Call] =
    &[Call::LegFieldWithoutSight, Call::LegWithoutSight, Call::Build, Call::SectorWithoutSight];

/// Fields of a leg's steps.
pub const LEG_FIELD: &str = "leg field";
pub const LEG_FIELD_GAPS: &str = "leg field, gaps";
const LEG_FIELD_REFUSALS: &str = "leg field refusals";
const LEG_FIELD_WITHOUT_SIGHT: &str = "leg field without sight";
const LEG_FIELD_GAPS_WITHOUT_SIGHT: &str = "leg field without sight, gaps";
const LEG_FIELD_REFUSALS_WITHOUT_SIGHT: &str = "leg field without sight refusals";

/// Sheets over which a cart moves, by one move or until it stands still.
pub const MOVE: &str = "move";
pub const WAY: &str = "way";

const DRIVEN_ALONE: &str = "journey without sight, driven alone";

/// Legs without sight where nothing but driving over them finds a fault.
pub const DRIVEN: Group = Group {
    name: DRIVEN_ALONE,
    needs: JOURNEYS_WITHOUT_SIGHT,
    cases: |rng, inputs| asked_without_sight(journeys::journeys(rng, inputs)),
    reaches: &[0],
};

/// The groups of sectors and legs, their inputs planned without sight.
pub const SECTOR_WITHOUT_SIGHT: &str = "sector without sight";
const GAPS_WITHOUT_SIGHT: &str = "leg without sight, gaps";
const ON_WALLS_WITHOUT_SIGHT: &str = "leg without sight, on walls";
pub const JOURNEY_WITHOUT_SIGHT: &str = "journey without sight";

const TO_GOAL_ALONE: &str = "journey without sight, followed alone";

/// Legs without sight where nothing but following to the goal finds a fault.
pub const FOLLOWED_TO_GOAL: Group = Group {
    name: TO_GOAL_ALONE,
    needs: LEGS_WITHOUT_SIGHT,
    cases: |rng, inputs| asked_without_sight(journeys::journeys(rng, inputs)),
    reaches: &[0],
};

/// The same inputs of the calls without sight.
fn asked_without_sight(cases: Cases) -> Cases {
    Box::new(cases.map(Case::without_sight))
}

/// Practice floors.
const PRACTICE: &str = "practice";

/// Two floors and a window step, and floors between them.
pub const BOUNDS: &str = "bounds";

const BUILT_ALONE: &str = "bounds, built alone";

/// The same where nothing but building floors between finds a fault.
pub const BUILT: Group =
    Group { name: BUILT_ALONE, needs: &[Call::Bounds, Call::Sector], cases: bounds::bounds, reaches: &[0] };

/// Windows of one sector.
pub const WINDOW_COSTS: &str = "window costs";

/// Sheets whose arrows are followed.
pub const ARRIVALS: &str = "arrivals";

/// Tours of windows.
pub const WINDOW_TOUR: &str = "window tour";

/// What a group that found no difference saw.
#[derive(Clone, Default)]
pub struct Clean {
    pub inputs: usize,
    /// How often each number was due. 16 is due where the Rust would open a wall, 17 where it would fall back on the
    /// boundary's bits: so many inputs of a group that has the Rust are left out of the comparison with it.
    pub numbers: [usize; 22],
    /// How many inputs each judge decided, by its place in `Judge::ALL`. A build has two: fields and waves.
    pub judged: [usize; Judge::ALL.len()],
    /// How many inputs met what the group has to meet besides numbers.
    pub met: BTreeMap<Met, usize>,
    /// What was followed, in the group that follows.
    pub followed: Followed,
    /// The arrows that were looked at, of accepted sector calls and legs.
    pub cleared: Cleared,
    /// The floors that were built, of accepted calls for bounds.
    pub between: Between,
    /// The costs that were held to built fields, of accepted calls for window costs.
    pub squared: Squared,
    /// The tours that were held to their words, of accepted calls.
    pub toured: Toured,
    /// The calls without sight that were held to what is promised of them.
    pub without_sight: without_sight::Held,
    /// What was driven by a side's own calls.
    pub driven: Driven,
    /// The fields of a leg's steps that were held to a side's other calls.
    pub fields: fields::Held,
}

impl Clean {
    pub fn add(&mut self, other: &Clean) {
        let sum = |ours: &mut [usize], theirs: &[usize]| ours.iter_mut().zip(theirs).for_each(|(a, b)| *a += b);
        self.inputs += other.inputs;
        sum(&mut self.numbers, &other.numbers);
        sum(&mut self.judged, &other.judged);
        other.met.iter().for_each(|(met, count)| *self.met.entry(*met).or_default() += count);
        self.followed.add(&other.followed);
        self.cleared.add(&other.cleared);
        self.between.add(&other.between);
        self.squared.add(&other.squared);
        self.toured.add(&other.toured);
        self.without_sight.add(&other.without_sight);
        self.driven.add(&other.driven);
        self.fields.add(&other.fields);
    }
}

impl Clean {
    /// Notes what was compared of an input.
    fn note(&mut self, compared: &Compared) {
        self.numbers[usize::from(compared.due.number)] += 1;
        for (count, decided) in self.judged.iter_mut().zip(compared.judges) {
            *count += usize::from(decided);
        }
        self.followed.add(&compared.followed);
        self.cleared.add(&compared.cleared);
        self.between.add(&compared.between);
        self.squared.add(&compared.squared);
        self.toured.add(&compared.toured);
        self.without_sight.add(&compared.without_sight);
        self.driven.add(&compared.driven);
        self.fields.add(&compared.fields);
    }
}

/// The first difference.
pub struct Difference {
    /// Its place among the inputs, from 1.
    pub input: usize,
    pub smallest: Case,
    pub found: Vec<String>,
}

/// What the oracle says of one input, by which judges, and where a side differs from it; what was followed, if anything,
/// which arrows were looked at, which floors were built between two, which costs were held to built fields, which tours to
/// their words, which calls without sight to what is promised, what was driven, and which fields of a leg's steps were held to
/// other calls.
struct Compared {
    due: Outcome,
    outcome: Outcome,
    judges: Judges,
    found: Vec<String>,
    followed: Followed,
    cleared: Cleared,
    between: Between,
    squared: Squared,
    toured: Toured,
    without_sight: without_sight::Held,
    driven: Driven,
    fields: fields::Held,
}

impl Compared {
    /// What was compared, and nothing looked at besides.
    fn of(due: Outcome, outcome: Outcome, judges: Judges, found: Vec<String>) -> Self {
        let (followed, cleared, between, squared, toured, without_sight) = Default::default();
        let (driven, fields) = Default::default();
        Compared {
            due,
            outcome,
            judges,
            found,
            followed,
            cleared,
            between,
            squared,
            toured,
            without_sight,
            driven,
            fields,
        }
    }

    /// Holds a way that both answer to moves one after the other.
    fn way_driven(mut self, case: &Case, side: &dyn Subject) -> Self {
        let taken = case.call() == Call::Way && self.due.number == 0;
        let Some(answer) = self.outcome.cart.filter(|answer| taken && answer.number == 0) else { return self };
        match drive::way_held(case, answer, side) {
            Ok(driven) => self.driven = driven,
            Err(fault) => self.found.push(fault),
        }
        self
    }

    /// Drives over the sheet of a leg that both take, from every reached cell.
    fn leg_driven(mut self, case: &Case, side: &dyn Subject) -> Self {
        if self.due.number == 0 && self.outcome.number == 0 {
            match drive::leg_held(case, &self.outcome.sheet, side) {
                Ok(driven) => self.driven = driven,
                Err(fault) => self.found.push(fault),
            }
        }
        self
    }

    /// Holds the field of a leg's step to the side's other calls.
    fn fields_held(mut self, case: &Case, side: &dyn Subject) -> Self {
        if [Call::LegField, Call::LegFieldWithoutSight].contains(&case.call()) {
            match fields::held(case, &self.outcome, side) {
                Ok(fields) => self.fields = fields,
                Err(fault) => self.found.push(fault),
            }
        }
        self
    }

    /// Holds a call without sight to what is promised of it.
    fn without_sight(mut self, case: &Case, side: &dyn Subject) -> Self {
        if [Call::SectorWithoutSight, Call::LegWithoutSight].contains(&case.call()) {
            match without_sight::held(case, &self.due, &self.outcome, side) {
                Ok(held) => self.without_sight = held,
                Err(fault) => self.found.push(fault),
            }
        }
        self
    }

    /// Follows the arrows of a call without sight that both take to the goal, and finds nothing else.
    fn followed_to_goal(mut self, case: &Case) -> Self {
        self.found.clear();
        if self.due.number == 0 && self.outcome.number == 0 {
            match without_sight::followed(case, &self.due, &self.outcome) {
                Ok(followed) => self.followed = followed,
                Err(fault) => self.found.push(fault),
            }
        }
        self
    }

    /// Holds the tour that both answer to its words (02, Job 14).
    fn toured(mut self, case: &Case) -> Self {
        let answer = self.outcome.tour.filter(|answer| self.due.number == 0 && answer.number == 0);
        let Some(answer) = answer else { return self };
        match tour_held(&case.costs, &case.steps, case.limit, &answer) {
            Ok(toured) => self.toured = toured,
            Err(fault) => self.found.push(fault),
        }
        self
    }

    /// Holds the costs from window to window that both answer to built fields (02, Job 13).
    fn squared(mut self, case: &Case, side: &dyn Subject) -> Self {
        let answer = self.outcome.windows.filter(|answer| self.due.number == 0 && answer.number == 0);
        let Some(answer) = answer else { return self };
        match squares::held(&case.costs, &case.steps, &answer, side) {
            Ok(squared) => self.squared = squared,
            Err(fault) => self.found.push(fault),
        }
        self
    }

    /// Builds floors between the two of a call for bounds that both take, and holds the answer to them (02, Job 9).
    fn built(mut self, case: &Case, side: &dyn Subject) -> Self {
        let answer = self.outcome.bounds.filter(|answer| self.due.number == 0 && answer.number == 0);
        let Some(answer) = answer else { return self };
        let bounded = Bounded { low: &case.costs, high: &case.high, step: &case.steps, answer: &answer };
        match bounded.held(side) {
            Ok(between) => self.between = between,
            Err(fault) => self.found.push(fault),
        }
        self
    }

    /// Looks at the arrows of a sector call or a leg that both take: none passes a wall diagonally (02, Job 7).
    fn cleared(mut self, case: &Case) -> Self {
        let sheet = &self.outcome.sheet;
        let looked = match case.ask {
            _ if self.due.number != 0 || self.outcome.number != 0 => Ok(Cleared::default()),
            Ask::One(Call::Sector | Call::SectorWithoutSight) => clear::of_sector(&case.costs, sheet),
            Ask::One(Call::Leg | Call::LegWithoutSight) => clear::of_leg(&case.costs, &case.steps, sheet),
            _ => Ok(Cleared::default()),
        };
        match looked {
            Ok(cleared) => self.cleared = cleared,
            Err(fault) => self.found.push(fault),
        }
        self
    }
}

fn compared(case: &Case, side: &dyn Subject) -> Compared {
    let (due, judges) = judges::during(|| case.run(&Oracle));
    assert!(judges.contains(&true), "no judge decided {:?}", case.ask);
    let outcome = case.run(side);
    let found = if due == outcome { Vec::new() } else { due.differences(&outcome) };
    Compared::of(due, outcome, judges, found)
}

impl Group {
    /// The group of that name.
    pub fn named(name: &str) -> &'static Group {
        GROUPS.iter().find(|group| group.name == name).expect("a group of that name")
    }

    /// What the inputs must have met besides numbers.
    fn meets(&self) -> Vec<Met> {
        match self.name {
            POSITIONS => positions::position_kinds().to_vec(),
            GAPS | GAPS_WITHOUT_SIGHT => legs::all(),
            ON_WALLS | ON_WALLS_WITHOUT_SIGHT => legs::all_on_walls(),
            JOURNEY | JOURNEY_WITHOUT_SIGHT => legs::planned_kinds(),
            PRACTICE => practice::all(),
            BOUNDS => bounds::all(),
            WINDOW_COSTS => windows::all(),
            WINDOW_TOUR => tours::all(),
            ARRIVALS => arrivals::all(),
            MOVE => carts::move_kinds(),
            WAY => carts::way_kinds(),
            LEG_FIELD_GAPS | LEG_FIELD_GAPS_WITHOUT_SIGHT => leg_fields::field_kinds(),
            LEG_FIELD_REFUSALS | LEG_FIELD_REFUSALS_WITHOUT_SIGHT => leg_fields::refused_kinds(),
            _ => Vec::new(),
        }
    }

    /// What of that an input meets.
    fn met(&self, case: &Case) -> Vec<Met> {
        match self.name {
            POSITIONS => positions::met(case),
            GAPS | JOURNEY | GAPS_WITHOUT_SIGHT | JOURNEY_WITHOUT_SIGHT => legs::met(case),
            ON_WALLS | ON_WALLS_WITHOUT_SIGHT => legs::met_on_walls(case),
            PRACTICE => practice::met(case),
            BOUNDS => bounds::met(case),
            WINDOW_COSTS => windows::met(case),
            WINDOW_TOUR => tours::met(case),
            ARRIVALS => arrivals::met(case),
            MOVE | WAY => carts::met(case),
            LEG_FIELD_GAPS | LEG_FIELD_GAPS_WITHOUT_SIGHT => leg_fields::met(case),
            LEG_FIELD_REFUSALS | LEG_FIELD_REFUSALS_WITHOUT_SIGHT => leg_fields::met(case),
            _ => Vec::new(),
        }
    }

    /// The judges of the group: those of the calls that it asks, and the table where it must have reached a refusal of the
    /// table's, which has neither 15 nor the numbers of a leg's file.
    pub fn judges(&self) -> Vec<Judge> {
        // Of several calls the first is asked, and the others serve to hold its answers to; but a flow field is made by two.
        let asked = if self.needs == [Call::FlowNew, Call::FlowBuild] { self.needs } else { &self.needs[..1] };
        let accepted = asked.iter().filter(|_| self.reaches.contains(&0)).flat_map(|call| oracle::judges(*call));
        let named: Vec<Judge> = accepted.copied().collect();
        let refused = self.reaches.iter().any(|number| ![0, CLOSED].contains(number));
        let files = [Call::LegFileWrite, Call::LegFileRead];
        let table = refused && !self.needs.iter().any(|call| files.contains(call));
        let named = |judge: &Judge| named.contains(judge) || (*judge == Judge::Table && table);
        Judge::ALL.into_iter().filter(named).collect()
    }

    /// Whether the Rust decides what the group's inputs must give.
    pub fn has_rust(&self) -> bool {
        self.judges().iter().any(|judge| [Judge::Published, Judge::Altered].contains(judge))
    }

    fn compared(&self, case: &Case, side: &dyn Subject) -> Compared {
        match self.name {
            JOURNEY => journeys::compared(case, side).cleared(case).leg_driven(case, side),
            FOLLOWED_ALONE => journeys::compared(case, side),
            DRIVEN_ALONE => {
                let compared = compared(case, side);
                Compared { found: Vec::new(), ..compared }.leg_driven(case, side)
            }
            TO_GOAL_ALONE => compared(case, side).followed_to_goal(case),
            BUILT_ALONE => {
                let compared = compared(case, side);
                Compared { found: Vec::new(), ..compared }.built(case, side)
            }
            _ => {
                let compared = compared(case, side).cleared(case).built(case, side).squared(case, side).toured(case);
                let compared = compared.without_sight(case, side).way_driven(case, side).fields_held(case, side);
                if self.name == JOURNEY_WITHOUT_SIGHT { compared.leg_driven(case, side) } else { compared }
            }
        }
    }

    pub fn run(&self, side: &dyn Subject, seed: u64, inputs: usize) -> Result<Clean, Box<Difference>> {
        let mut clean = Clean::default();
        for case in (self.cases)(Rng::new(seed), inputs) {
            clean.inputs += 1;
            self.met(&case).into_iter().for_each(|met| *clean.met.entry(met).or_default() += 1);
            let compared = self.compared(&case, side);
            clean.note(&compared);
            if !compared.found.is_empty() {
                let smallest = shrink::smallest(&case, &|simpler| !self.compared(simpler, side).found.is_empty());
                let found = self.compared(&smallest, side).found;
                return Err(Box::new(Difference { input: clean.inputs, smallest, found }));
            }
        }
        Ok(clean)
    }

    /// What calls without sight have to have been held to, and were not.
    fn lacks_without_sight(&self, held: &without_sight::Held) -> Option<&'static str> {
        match self.name {
            SECTOR_WITHOUT_SIGHT => held.lacks_of_sectors(),
            JOURNEY_WITHOUT_SIGHT => held.lacks_of_legs(),
            _ if [SECTORS_WITHOUT_SIGHT, LEGS_WITHOUT_SIGHT].contains(&self.needs) => held.lacks(),
            _ => None,
        }
    }

    /// What the group has to have met and has not: a number, a kind of input, or a judge; or a judge that it does not
    /// name.
    pub fn unmet(&self, clean: &Clean) -> Option<String> {
        let (name, inputs) = (self.name, clean.inputs);
        if let Some(number) = self.reaches.iter().find(|number| clean.numbers[usize::from(**number)] == 0) {
            return Some(format!(
                "`{name}` did not reach number {number} in {inputs} inputs: ask for more by --inputs"
            ));
        }
        if let Some(met) = self.meets().into_iter().find(|met| !clean.met.contains_key(met)) {
            return Some(format!("`{name}` did not meet `{met}` in {inputs} inputs: ask for more by --inputs"));
        }
        if let Some(lacking) = clean.followed.lacks().filter(|_| self.name == JOURNEY) {
            return Some(format!("`{name}` did not meet {lacking} in {inputs} inputs: ask for more by --inputs"));
        }
        if let Some(lacking) = clean.between.lacks().filter(|_| self.needs.contains(&Call::Bounds)) {
            return Some(format!("`{name}` did not meet {lacking} in {inputs} inputs: ask for more by --inputs"));
        }
        if let Some(lacking) = clean.squared.lacks().filter(|_| self.needs.contains(&Call::WindowCosts)) {
            return Some(format!("`{name}` did not meet {lacking} in {inputs} inputs: ask for more by --inputs"));
        }
        if let Some(lacking) = clean.toured.lacks().filter(|_| self.needs.contains(&Call::WindowTour)) {
            return Some(format!("`{name}` did not meet {lacking} in {inputs} inputs: ask for more by --inputs"));
        }
        if let Some(lacking) = self.lacks_without_sight(&clean.without_sight) {
            return Some(format!("`{name}` did not meet {lacking} in {inputs} inputs: ask for more by --inputs"));
        }
        let lacking = match self.name {
            JOURNEY => clean.driven.lacks_of_legs(true),
            JOURNEY_WITHOUT_SIGHT => clean.driven.lacks_of_legs(false),
            WAY => clean.driven.lacks_of_ways(),
            LEG_FIELD_GAPS | LEG_FIELD_GAPS_WITHOUT_SIGHT => clean.fields.lacks(),
            _ => None,
        };
        if let Some(lacking) = lacking {
            return Some(format!("`{name}` did not meet {lacking} in {inputs} inputs: ask for more by --inputs"));
        }
        let writes = ![Call::LegField, Call::LegFieldWithoutSight].contains(&self.needs[0]);
        let has_arrows =
            writes && self.has_rust() && self.needs.iter().any(|call| [Call::Sector, Call::Leg].contains(call));
        if let Some(lacking) = clean.cleared.lacks().filter(|_| has_arrows) {
            return Some(format!("`{name}` did not look at {lacking} in {inputs} inputs: ask for more by --inputs"));
        }
        let named = self.judges();
        let decided = |judge: Judge| clean.judged[judge as usize] > 0;
        let other = Judge::ALL.into_iter().find(|judge| named.contains(judge) != decided(*judge))?;
        let fault = if decided(other) { "does not name it" } else { "names it, and it decided nothing" };
        Some(format!("the judge of `{name}`, {}: the group {fault}", other.name()))
    }
}
