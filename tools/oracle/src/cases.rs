//! One input of a call, what a side makes of it, and where two sides differ.

use std::fmt::{Debug, Write};

use crate::fence::Fenced;
use crate::subject::*;

/// What is asked: a call, or `new` and `build` of a flow field together.
#[derive(Clone, Copy, PartialEq, Eq, Debug)]
pub enum Ask {
    One(Call),
    FlowBoth,
}

/// An input. A call reads the parts that it has, the others stay as `Case::of` leaves them. A leg's file is lent as
/// `steps` to be read, and as `sheet` to be written; the low one of two floors is lent as `costs`.
#[derive(Clone, PartialEq, Debug)]
pub struct Case {
    pub ask: Ask,
    /// The two cells of a line call.
    pub cells: [FieldCell; 2],
    /// The byte that is read.
    pub byte: u8,
    /// The seed of a practice floor.
    pub seed: u32,
    /// The orders of windows that are tried at most.
    pub limit: u16,
    /// A cart's sector and cell.
    pub cart: [u8; 2],
    /// The place of a step in a leg's list.
    pub place: usize,
    pub costs: Vec<u8>,
    /// The high one of two floors.
    pub high: Vec<u8>,
    pub steps: Vec<u8>,
    pub field: IntegrationField,
    pub previous_lent: bool,
    pub previous: Vec<u32>,
    pub sheet: Vec<u8>,
}

/// What a side made of an input.
#[derive(Clone, PartialEq, Debug)]
pub struct Outcome {
    pub number: u8,
    pub line: Line,
    pub readings: Option<Readings>,
    pub field: IntegrationField,
    pub waves: usize,
    /// Start and length of the steps in a leg's file.
    pub part: [usize; 2],
    pub practice: Option<PracticeFloor>,
    pub bounds: Option<Bounds>,
    pub windows: Option<WindowCosts>,
    pub tour: Option<WindowTour>,
    pub arrivals: Option<Arrivals>,
    /// A cart's move or way; a move has 0 moves.
    pub cart: Option<CartWay>,
    pub sheet: Vec<u8>,
    /// What is lent to be read is unchanged, and no guard beside lent memory is.
    pub memory_kept: bool,
}

impl Case {
    pub fn of(call: Call) -> Self {
        Case {
            ask: Ask::One(call),
            cells: [FieldCell::default(); 2],
            byte: 0,
            seed: 0,
            limit: 0,
            cart: [0; 2],
            place: 0,
            costs: Vec::new(),
            high: Vec::new(),
            steps: Vec::new(),
            field: IntegrationField::ZERO,
            previous_lent: false,
            previous: Vec::new(),
            sheet: Vec::new(),
        }
    }

    /// The call that is asked; of two, the first.
    pub fn call(&self) -> Call {
        match self.ask {
            Ask::One(call) => call,
            Ask::FlowBoth => Call::FlowNew,
        }
    }

    /// The same input, of a sector call, a leg or a leg's field, asked without sight.
    pub fn without_sight(self) -> Self {
        let ask = match self.ask {
            Ask::One(Call::Sector) => Ask::One(Call::SectorWithoutSight),
            Ask::One(Call::Leg) => Ask::One(Call::LegWithoutSight),
            Ask::One(Call::LegField) => Ask::One(Call::LegFieldWithoutSight),
            other => other,
        };
        Case { ask, ..self }
    }

    /// The same input asked with sight again.
    pub fn with_sight(self) -> Self {
        let ask = match self.ask {
            Ask::One(Call::SectorWithoutSight) => Ask::One(Call::Sector),
            Ask::One(Call::LegWithoutSight) => Ask::One(Call::Leg),
            Ask::One(Call::LegFieldWithoutSight) => Ask::One(Call::LegField),
            other => other,
        };
        Case { ask, ..self }
    }

    /// The call on a side, its memory lent from between guards.
    pub fn run(&self, side: &dyn Subject) -> Outcome {
        let (costs, steps) = (Fenced::new(&self.costs), Fenced::new(&self.steps));
        let (high, previous) = (Fenced::new(&self.high), Fenced::new(&self.previous));
        let mut sheet = Fenced::new(&self.sheet);
        let lent = Previous { lent: self.previous_lent, numbers: previous.lent() };
        let mut outcome = self.called(side, [costs.lent(), high.lent()], steps.lent(), lent, sheet.lent_mut());
        outcome.sheet = sheet.lent().to_vec();
        outcome.memory_kept = costs.lent() == self.costs
            && high.lent() == self.high
            && steps.lent() == self.steps
            && previous.lent() == self.previous
            && costs.stands()
            && high.stands()
            && steps.stands()
            && previous.stands()
            && sheet.stands();
        outcome
    }

    /// `floors` are the costs, and the high one of two floors.
    fn called(
        &self,
        side: &dyn Subject,
        floors: [&[u8]; 2],
        steps: &[u8],
        previous: Previous,
        sheet: &mut [u8],
    ) -> Outcome {
        let ([first, second], [costs, high]) = (self.cells, floors);
        match self.ask {
            Ask::One(Call::Line) => Outcome::of_line(side.line(first, second)),
            Ask::One(Call::WalkShallow) => Outcome::of_line(side.walk(false, first, second)),
            Ask::One(Call::WalkSteep) => Outcome::of_line(side.walk(true, first, second)),
            Ask::One(Call::LineEnd) => {
                let end = side.line_end(first, second);
                let mut line = Line { count: 1, ..Line::default() };
                line.cells[0] = end.cell;
                Outcome { line, ..Outcome::of_number(end.number) }
            }
            Ask::One(Call::Readers) => Outcome { readings: Some(side.readings(self.byte)), ..Outcome::of_number(0) },
            Ask::One(Call::Init) => {
                let answer = side.init(costs, steps);
                Outcome { field: answer.field, ..Outcome::of_number(answer.number) }
            }
            Ask::One(Call::Build) => Outcome::of_build(side.build(costs, self.field)),
            Ask::One(Call::FlowNew) => Outcome::of_number(side.flow_new(steps, self.field, previous, sheet)),
            Ask::One(Call::FlowBuild) => Outcome::of_number(side.flow_build(self.field, sheet)),
            Ask::One(Call::Sector) => Outcome::of_build(side.sector(costs, steps, previous, sheet)),
            Ask::One(Call::SectorWithoutSight) => {
                Outcome::of_build(side.sector_without_sight(costs, steps, previous, sheet))
            }
            Ask::One(Call::Leg) => Outcome::of_number(side.leg(costs, steps, sheet)),
            Ask::One(Call::LegWithoutSight) => Outcome::of_number(side.leg_without_sight(costs, steps, sheet)),
            Ask::One(Call::LegFileWrite) => Outcome::of_number(side.leg_file_write(steps, sheet)),
            Ask::One(Call::LegFileRead) => {
                let found = side.leg_file_read(steps);
                Outcome { part: [found.start, found.length], ..Outcome::of_number(found.number) }
            }
            Ask::One(Call::PracticeFloor) => {
                Outcome { practice: Some(side.practice_floor(self.seed)), ..Outcome::of_number(0) }
            }
            Ask::One(Call::Bounds) => {
                let bounds = side.bounds(costs, high, steps);
                Outcome { bounds: Some(bounds), ..Outcome::of_number(bounds.number) }
            }
            Ask::One(Call::WindowCosts) => {
                let windows = side.window_costs(costs, steps);
                Outcome { windows: Some(windows), ..Outcome::of_number(windows.number) }
            }
            Ask::One(Call::WindowTour) => {
                let tour = side.window_tour(costs, steps, self.limit);
                Outcome { tour: Some(tour), ..Outcome::of_number(tour.number) }
            }
            Ask::One(Call::Arrivals) => {
                let arrivals = side.arrivals(sheet);
                Outcome { arrivals: Some(arrivals), ..Outcome::of_number(arrivals.number) }
            }
            Ask::One(Call::Move) => {
                let CartMove { number, outcome, sector, cell } = side.next_move(sheet, self.cart[0], self.cart[1]);
                Outcome::of_cart(CartWay { number, outcome, sector, cell, moves: 0 })
            }
            Ask::One(Call::Way) => Outcome::of_cart(side.way(sheet, self.cart[0], self.cart[1])),
            Ask::One(Call::LegField) => Outcome::of_build(side.leg_field(costs, steps, self.place)),
            Ask::One(Call::LegFieldWithoutSight) => {
                Outcome::of_build(side.leg_field_without_sight(costs, steps, self.place))
            }
            Ask::FlowBoth => {
                let number = side.flow_new(steps, self.field, previous, sheet);
                let second = if number == 0 { side.flow_build(self.field, sheet) } else { 0 };
                Outcome::of_number(number + second)
            }
        }
    }

    /// The input as statements that make it.
    pub fn pasted(&self) -> String {
        let mut text = format!("// {:?}\n", self.ask);
        if matches!(self.ask, Ask::One(Call::Line | Call::WalkShallow | Call::WalkSteep | Call::LineEnd)) {
            let _ = writeln!(text, "let cells = {:?};", self.cells.map(|cell| (cell.column, cell.row)));
        }
        if self.ask == Ask::One(Call::Readers) {
            let _ = writeln!(text, "let byte = {:#04x};", self.byte);
        }
        if self.ask == Ask::One(Call::PracticeFloor) {
            let _ = writeln!(text, "let seed = {};", self.seed);
        }
        if self.ask == Ask::One(Call::WindowTour) {
            let _ = writeln!(text, "let limit = {};", self.limit);
        }
        if matches!(self.ask, Ask::One(Call::Move | Call::Way)) {
            let _ = writeln!(text, "let [sector, cell] = {:?};", self.cart);
        }
        if matches!(self.ask, Ask::One(Call::LegField | Call::LegFieldWithoutSight)) {
            let _ = writeln!(text, "let place = {};", self.place);
        }
        paste(&mut text, "costs", &self.costs, |x| format!("{x}"));
        paste(&mut text, "high", &self.high, |x| format!("{x}"));
        let _ = if self.steps.is_empty() { Ok(()) } else { writeln!(text, "let steps = {:?};", self.steps) };
        if self.field != IntegrationField::ZERO {
            paste(&mut text, "field", &self.field.field, |x| format!("{x:#x}"));
            let listed = &self.field.los_corners[..self.field.count.min(CELLS)];
            let _ = writeln!(text, "let los_corners = {listed:?}; // count {}", self.field.count);
            paste(&mut text, "positions", &self.field.positions, |x| format!("{x}"));
        }
        if self.previous_lent || !self.previous.is_empty() {
            let _ = writeln!(text, "let has_previous = {};", self.previous_lent);
            paste(&mut text, "previous", &self.previous, |x| format!("{x:#x}"));
        }
        paste(&mut text, "sheet", &self.sheet, |x| format!("{x:#04x}"));
        text
    }
}

/// `let mut NAME = [most frequent value; length]; NAME[i] = other; ..`
fn paste<T: Copy + PartialEq>(text: &mut String, name: &str, values: &[T], shown: impl Fn(T) -> String) {
    let frequency = |value: &T| values.iter().filter(|other| *other == value).count();
    let Some(usual) = values.iter().max_by_key(|value| frequency(value)).copied() else { return };
    let _ = write!(text, "let mut {name} = [{}; {}];", shown(usual), values.len());
    for (i, value) in values.iter().enumerate().filter(|(_, value)| **value != usual) {
        let _ = write!(text, " {name}[{i}] = {};", shown(*value));
    }
    text.push('\n');
}

impl Outcome {
    fn of_number(number: u8) -> Self {
        Outcome {
            number,
            line: Line::default(),
            readings: None,
            field: IntegrationField::ZERO,
            waves: 0,
            part: [0; 2],
            practice: None,
            bounds: None,
            windows: None,
            tour: None,
            arrivals: None,
            cart: None,
            sheet: Vec::new(),
            memory_kept: true,
        }
    }

    fn of_line(line: Line) -> Self {
        Outcome { line, ..Outcome::of_number(line.number) }
    }

    fn of_build(answer: BuildAnswer) -> Self {
        Outcome { field: answer.field, waves: answer.waves, ..Outcome::of_number(answer.number) }
    }

    fn of_cart(way: CartWay) -> Self {
        Outcome { cart: Some(way), ..Outcome::of_number(way.number) }
    }

    /// Where another outcome differs from this one, which is the right one.
    pub fn differences(&self, other: &Outcome) -> Vec<String> {
        let mut found = Vec::new();
        differ(&mut found, "number", &[self.number], &[other.number]);
        differ(&mut found, "line count", &[self.line.count], &[other.line.count]);
        differ(&mut found, "line cell", &self.line.cells, &other.line.cells);
        differ(&mut found, "readings", &[self.readings], &[other.readings]);
        differ(&mut found, "field", &self.field.field.map(Hex), &other.field.field.map(Hex));
        differ(&mut found, "corner count", &[self.field.count], &[other.field.count]);
        differ(&mut found, "los_corners", &self.field.los_corners, &other.field.los_corners);
        differ(&mut found, "position", &self.field.positions, &other.field.positions);
        differ(&mut found, "waves", &[self.waves], &[other.waves]);
        differ(&mut found, "part", &self.part, &other.part);
        let [ours, theirs] = [self, other].map(|outcome| outcome.practice.as_ref());
        let costs = |floor: Option<&PracticeFloor>| floor.map_or(Vec::new(), |floor| floor.costs.to_vec());
        differ(&mut found, "cost", &costs(ours), &costs(theirs));
        differ(&mut found, "goal", &[ours.map(|floor| floor.goal)], &[theirs.map(|floor| floor.goal)]);
        let [ours, theirs] = [self, other].map(|outcome| outcome.bounds.unwrap_or(refused::bounds(0)));
        differ(&mut found, "least", &ours.least, &theirs.least);
        differ(&mut found, "greatest", &ours.greatest, &theirs.greatest);
        differ(&mut found, "sure", &ours.sure, &theirs.sure);
        let [ours, theirs] = [self, other].map(|outcome| outcome.windows.unwrap_or(refused::window_costs(0)).square());
        for (i, (ours, theirs)) in ours.iter().zip(&theirs).enumerate() {
            differ(&mut found, &format!("row {i}"), ours, theirs);
        }
        let [ours, theirs] = [self, other].map(|outcome| outcome.tour.unwrap_or(refused::window_tour(0)));
        differ(&mut found, "found", &[ours.found], &[theirs.found]);
        differ(&mut found, "order", &ours.order, &theirs.order);
        let figures = |tour: WindowTour| [tour.sum, tour.tried, tour.least];
        differ(&mut found, "sum, tried and least figure", &figures(ours), &figures(theirs));
        let [ours, theirs] = [self, other].map(|outcome| outcome.arrivals.unwrap_or(refused::arrivals(0)));
        differ(&mut found, "moves", &ours.moves, &theirs.moves);
        let [ours, theirs] = [self, other].map(|outcome| outcome.cart.unwrap_or_default());
        differ(&mut found, "outcome", &[ours.outcome], &[theirs.outcome]);
        differ(&mut found, "sector and cell", &[ours.sector, ours.cell], &[theirs.sector, theirs.cell]);
        differ(&mut found, "number of moves", &[ours.moves], &[theirs.moves]);
        let bytes = |sheet: &[u8]| sheet.iter().map(|byte| Hex(u32::from(*byte))).collect::<Vec<_>>();
        differ(&mut found, "sheet", &bytes(&self.sheet), &bytes(&other.sheet));
        differ(&mut found, "memory kept", &[self.memory_kept], &[other.memory_kept]);
        found
    }
}

/// Shown in hexadecimal.
#[derive(Clone, Copy, PartialEq)]
struct Hex(u32);

impl Debug for Hex {
    fn fmt(&self, f: &mut std::fmt::Formatter) -> std::fmt::Result {
        write!(f, "{:#x}", self.0)
    }
}

fn differ<T: PartialEq + Debug>(found: &mut Vec<String>, name: &str, right: &[T], other: &[T]) {
    if right.len() != other.len() {
        found.push(format!("{name}: {} values where {} are due", other.len(), right.len()));
    }
    for (i, (right, other)) in right.iter().zip(other).enumerate().filter(|(_, (right, other))| right != other) {
        found.push(format!("{name}[{i}] is {other:?} where {right:?} is due"));
    }
}
