//! Speed: our sector call against the Rust's `init`, `build`, `new`, `build` on the same inputs, from the same driver, in
//! one run; our leg against its sector calls, where every window cell counts, and by itself, where some do not; our sector
//! call and our leg without sight, which the Rust does not have, against those with sight; our bounds
//! against the Rust's `init` and `build` on both floors; our costs from window to window against the Rust's `init` and
//! `build` for each window, our tours against these, our arrivals against the sector calls that write their sheets, our fields
//! of a leg's steps against the leg, and a cart's moves and ways by themselves. The
//! Rust is the copy altered as document 02, Jobs 7 and 11 ask, which writes the same bytes. A few inputs are timed at once,
//! and of many rounds the least time counts: another program that runs adds to a time and never takes from it. Of the sector
//! call the medians are compared too.

use std::hint::black_box;
use std::process::ExitCode;
use std::time::Instant;

use altered::flowfields::fields::Field;
use altered::flowfields::fields::cost_field::CostField;
use altered::flowfields::fields::flow_field::FlowField;
use altered::flowfields::fields::integration_field::IntegrationField as RustField;
use altered::flowfields::route::RouteStep;
use oracle::command;
use oracle::copies::altered::{cost_field, route_step, window_cells};
use oracle::floors::{self, Rng, Step};
use oracle::groups::{longest_ways, snakes};
use oracle::library::Library;
use oracle::model::Model;
use oracle::oracle::rust_built;
use oracle::subject::*;

/// Inputs of a group.
const INPUTS: usize = 256;
/// Inputs that are timed at once.
const AT_ONCE: usize = 16;
/// Floors that a leg is planned over.
const LEGS: usize = 16;
/// Lists of windows of each length.
const LISTS: usize = 64;
/// How often each side runs through them.
const ROUNDS: usize = 101;

/// One input in both forms, made before any time is taken.
struct Input {
    costs: [u8; CELLS],
    step: Step,
    previous: Option<Vec<u32>>,
    rust_costs: CostField,
    rust_step: RouteStep,
    rust_previous: Option<RustField>,
}

/// A window comes with a previous field, as in a leg; a goal with none.
fn input(rng: &mut Rng, open: bool, window: bool) -> Input {
    let percent = rng.below(50);
    let mut costs = if open { floors::uniform(1) } else { floors::walls(rng, percent, &[1, 2, 10, 200]) };
    let side = rng.below(4);
    let (a, b) = (rng.below(10), rng.below(10));
    let step =
        if window { floors::window_step(0, side, a.min(b), a.max(b)) } else { floors::goal_step(0, rng.below(CELLS)) };
    floors::open(rng, &mut costs, &step);
    let previous = window.then(|| rust_built(&floors::any(rng), &floors::any_step(rng)).field);
    Input {
        costs,
        step,
        rust_costs: cost_field(&costs),
        rust_step: route_step(&step),
        rust_previous: previous.map(|cells| RustField::oracle_from(cells, Vec::new())),
        previous: previous.map(|cells| cells.to_vec()),
    }
}

fn by_rust(input: &Input) -> u8 {
    let mut field = RustField::init(&input.rust_costs, &input.rust_step);
    field.build(&input.rust_costs);
    let mut flow = FlowField::new(&input.rust_step, &field, input.rust_previous.as_ref());
    flow.build(&field);
    // Both answers are looked at whole, so that no work can be left out.
    black_box(&field);
    black_box(flow.get())[99]
}

fn by_us(input: &Input, sheet: &mut [u8; CELLS]) -> u8 {
    let numbers = input.previous.as_deref().unwrap_or(&[]);
    let previous = Previous { lent: input.previous.is_some(), numbers };
    black_box(Library.sector(&input.costs, &input.step, previous, sheet));
    black_box(&*sheet)[99]
}

/// What one side took: round by round, nanoseconds for each few inputs.
#[derive(Default)]
struct Times(Vec<Vec<f64>>);

impl Times {
    /// Times one round over all inputs, so many at once.
    fn round<T>(&mut self, inputs: &[T], at_once: usize, mut call: impl FnMut(&T) -> u8) {
        let few = inputs.chunks(at_once).map(|few| {
            let start = Instant::now();
            for input in few {
                black_box(call(black_box(input)));
            }
            start.elapsed().as_nanos() as f64
        });
        self.0.push(few.collect());
    }

    /// Nanoseconds a call: what is chosen of the rounds of each few, together.
    fn chosen(&self, inputs: usize, choose: fn(Vec<f64>) -> f64) -> f64 {
        let few = |k: usize| choose(self.0.iter().map(|round| round[k]).collect());
        (0..self.0[0].len()).map(few).sum::<f64>() / inputs as f64
    }

    /// By the least times.
    fn each(&self, inputs: usize) -> f64 {
        self.chosen(inputs, |rounds| rounds.into_iter().fold(f64::INFINITY, f64::min))
    }

    /// By the medians.
    fn middle(&self, inputs: usize) -> f64 {
        self.chosen(inputs, |mut rounds| {
            rounds.sort_by(f64::total_cmp);
            rounds[rounds.len() / 2]
        })
    }
}

/// The same without sight.
fn without_sight(input: &Input, sheet: &mut [u8; CELLS]) -> u8 {
    let previous = Previous { lent: false, numbers: &[] };
    black_box(Library.sector_without_sight(&input.costs, &input.step, previous, sheet)).number
}

/// What the Rust takes, ours on the sheet as it was left, and ours on a cleared sheet.
fn measure(inputs: &[Input]) -> [Times; 3] {
    let mut times: [Times; 3] = Default::default();
    let mut sheet = [0x55; CELLS];
    let alike = inputs.iter().all(|input| by_rust(input) == by_us(input, &mut sheet));
    assert!(alike, "both write the same last byte");
    for _ in 0..ROUNDS {
        times[0].round(inputs, AT_ONCE, by_rust);
        times[1].round(inputs, AT_ONCE, |input| by_us(input, &mut sheet));
        times[2].round(inputs, AT_ONCE, |input| {
            sheet.fill(0);
            by_us(input, &mut sheet)
        });
    }
    times
}

/// A floor and a leg of sixteen steps over it.
struct Leg {
    floor: Vec<u8>,
    steps: Vec<u8>,
}

impl Leg {
    /// The leg of so many of its first steps.
    fn first(mut self, steps: usize) -> Leg {
        self.steps.truncate(8 * steps);
        self
    }
}

/// What is asked of a floor.
#[derive(Clone, Copy, PartialEq)]
enum Floor {
    Open,
    /// Walls, and every window cell counts: such a leg is its sector calls.
    Counting,
    /// Walls, and every window has a cell that counts. The sector calls know of no others, so the leg stands alone.
    Gaps,
}

/// Whether a leg whose last sector has these costs can go on as the floor wants it.
fn goes_on(leg: &Leg, steps: usize, wanted: Floor) -> bool {
    let plan = Model::PLAIN.plan(&leg.floor, &leg.steps[..leg.steps.len().min(8 * (steps + 1))]);
    let whole = plan.steps.iter().all(|step| step.counting == step.window);
    !plan.closed && (whole || wanted == Floor::Gaps)
}

/// Each sector is drawn until the window that faces it is as wanted.
fn leg(rng: &mut Rng, wanted: Floor) -> Leg {
    let mut leg = Leg { floor: vec![1; 64 * CELLS], steps: floors::straight_leg(16) };
    for k in 0..16 {
        draw(rng, &mut leg, k, wanted == Floor::Open);
        while !goes_on(&leg, k + 1, wanted) {
            draw(rng, &mut leg, k, wanted == Floor::Open);
        }
    }
    leg
}

/// The costs of the k-th step's sector, from 0, with no wall under its goal or its window cells.
fn draw(rng: &mut Rng, leg: &mut Leg, k: usize, open: bool) {
    let step = &leg.steps[8 * k..8 * (k + 1)];
    let at = usize::from(step[0]) * CELLS;
    let mut costs = input(rng, open, false).costs;
    floors::open(rng, &mut costs, step);
    leg.floor[at..at + CELLS].copy_from_slice(&costs);
}

fn as_a_leg(leg: &Leg, sheet: &mut [u8]) -> u8 {
    Library.leg(&leg.floor, &leg.steps, sheet)
}

fn as_a_leg_without_sight(leg: &Leg, sheet: &mut [u8]) -> u8 {
    Library.leg_without_sight(&leg.floor, &leg.steps, sheet)
}

/// The sector calls that the leg is made of, each with the field that the call before answered.
fn by_sectors(leg: &Leg, sheet: &mut [u8]) -> u8 {
    let mut built: Option<BuildAnswer> = None;
    for step in leg.steps.chunks(8) {
        let at = usize::from(step[0]) * CELLS;
        let numbers = built.as_ref().map_or(&[][..], |answer| &answer.field.field[..]);
        let previous = Previous { lent: built.is_some(), numbers };
        built = Some(Library.sector(&leg.floor[at..at + CELLS], step, previous, &mut sheet[at..at + CELLS]));
    }
    built.map_or(0, |answer| answer.number)
}

/// What the leg takes, and its sector calls, on sheets that must come out equal.
fn measure_legs(legs: &[Leg]) -> [f64; 2] {
    let mut times: [Times; 2] = Default::default();
    let (mut one, mut other) = (vec![0x55; 64 * CELLS], vec![0x55; 64 * CELLS]);
    for _ in 0..ROUNDS {
        times[0].round(legs, 1, |leg| as_a_leg(leg, &mut one));
        times[1].round(legs, 1, |leg| by_sectors(leg, &mut other));
        assert_eq!(one, other, "a leg and its sector calls write the same sheet");
    }
    times.map(|side| side.each(legs.len()))
}

/// What the leg takes alone.
fn measure_alone(legs: &[Leg]) -> f64 {
    let mut times = Times::default();
    let mut sheet = vec![0x55; 64 * CELLS];
    assert!(legs.iter().all(|leg| as_a_leg(leg, &mut sheet) == 0), "the leg is planned");
    (0..ROUNDS).for_each(|_| times.round(legs, 1, |leg| as_a_leg(leg, &mut sheet)));
    times.each(legs.len())
}

fn sectors() {
    println!("nanoseconds a sector: {INPUTS} inputs, {AT_ONCE} timed at once, the least of {ROUNDS} rounds");
    println!(
        "Rust: init, build, new, build of the copy that decides, altered as 02's Jobs 7 and 11 ask, from its own types made"
    );
    println!("before; its flow field is new each time");
    println!("ours: the sector call, from bytes, refusals and answer by value included; `left` the sheet as the");
    println!("call before left it, `cleared` the sheet filled with 0 before each call, within the time");
    println!("the last column is left/Rust by the medians of the rounds in place of the least");
    println!(
        "{:<14} {:>9} {:>9} {:>9}  {:>9} {:>12} {:>8}",
        "", "Rust", "left", "cleared", "left/Rust", "cleared/Rust", "medians"
    );
    let groups = [
        ("random goal", false, false),
        ("random window", false, true),
        ("open goal", true, false),
        ("open window", true, true),
    ];
    for (name, open, window) in groups {
        let mut rng = Rng::new(7);
        let inputs: Vec<Input> = (0..INPUTS).map(|_| input(&mut rng, open, window)).collect();
        let times = measure(&inputs);
        let [rust, left, cleared] = [0, 1, 2].map(|side| times[side].each(INPUTS));
        let (by_left, by_cleared) = (left / rust, cleared / rust);
        let medians = times[1].middle(INPUTS) / times[0].middle(INPUTS);
        println!("{name:<14} {rust:>9.0} {left:>9.0} {cleared:>9.0}  {by_left:>9.3} {by_cleared:>12.3} {medians:>8.3}");
    }
}

fn sectors_without_sight() {
    println!(
        "nanoseconds a goal's sector with sight, by the sector call, and without, by the call without sight, on the same"
    );
    println!(
        "inputs: {INPUTS} inputs, {AT_ONCE} timed at once, the least of {ROUNDS} rounds; the sheet as the call before left it"
    );
    println!("{:<14} {:>9} {:>9}  {:>12}", "", "with", "without", "without/with");
    for (name, open) in [("random goal", false), ("open goal", true)] {
        let mut rng = Rng::new(7);
        let inputs: Vec<Input> = (0..INPUTS).map(|_| input(&mut rng, open, false)).collect();
        let (mut times, mut sheet): ([Times; 2], _) = (Default::default(), [0x55; CELLS]);
        assert!(inputs.iter().all(|input| without_sight(input, &mut sheet) == 0), "the sector is planned");
        for _ in 0..ROUNDS {
            times[0].round(&inputs, AT_ONCE, |input| by_us(input, &mut sheet));
            times[1].round(&inputs, AT_ONCE, |input| without_sight(input, &mut sheet));
        }
        let [with, without] = times.map(|side| side.each(INPUTS));
        println!("{name:<14} {with:>9.0} {without:>9.0}  {:>12.2}", without / with);
    }
}

/// Legs of sixteen steps over floors as wanted.
fn drawn_legs(wanted: Floor) -> Vec<Leg> {
    let mut rng = Rng::new(7);
    (0..LEGS).map(|_| leg(&mut rng, wanted)).collect()
}

fn legs_without_sight() {
    println!(
        "nanoseconds a leg of 16 steps with sight and without, on the same floors: {LEGS} floors, the least of {ROUNDS} rounds"
    );
    println!("{:<14} {:>9} {:>9}  {:>12}", "", "with", "without", "without/with");
    for (name, wanted) in [("random floor", Floor::Counting), ("open floor", Floor::Open), ("gaps", Floor::Gaps)] {
        let (legs, mut sheet) = (drawn_legs(wanted), vec![0x55; 64 * CELLS]);
        let mut times: [Times; 2] = Default::default();
        assert!(legs.iter().all(|leg| as_a_leg_without_sight(leg, &mut sheet) == 0), "the leg is planned");
        for _ in 0..ROUNDS {
            times[0].round(&legs, 1, |leg| as_a_leg(leg, &mut sheet));
            times[1].round(&legs, 1, |leg| as_a_leg_without_sight(leg, &mut sheet));
        }
        let [with, without] = times.map(|side| side.each(LEGS));
        println!("{name:<14} {with:>9.0} {without:>9.0}  {:>12.2}", without / with);
    }
}

fn legs() {
    println!(
        "nanoseconds a leg of 16 steps: {LEGS} floors, the least of {ROUNDS} rounds for each; each sector drawn until"
    );
    println!("every cell of the window that faces it counts, or for `gaps` some cell does");
    println!("{:<14} {:>9} {:>9}  {:>11}", "", "sectors", "leg", "leg/sectors");
    for (name, wanted) in [("random floor", Floor::Counting), ("open floor", Floor::Open)] {
        let [as_leg, sectors] = measure_legs(&drawn_legs(wanted));
        println!("{name:<14} {sectors:>9.0} {as_leg:>9.0}  {:>11.2}", as_leg / sectors);
    }
    println!("{:<14} {:>9} {:>9.0}", "gaps", "", measure_alone(&drawn_legs(Floor::Gaps)));
    println!("how a leg grows, on the random floors: its first steps alone, and what a step takes");
    println!("{:<14} {:>9} {:>9}", "", "leg", "a step");
    for steps in [1, 2, 4, 8, 16] {
        let leg =
            measure_alone(&drawn_legs(Floor::Counting).into_iter().map(|leg| leg.first(steps)).collect::<Vec<_>>());
        println!(
            "{:<14} {leg:>9.0} {:>9.0}",
            if steps == 1 { "1 step".to_string() } else { format!("{steps} steps") },
            leg / steps as f64
        );
    }
}

/// Two floors with a window, low and high, in both forms.
struct Range {
    floors: [[u8; CELLS]; 2],
    step: Step,
    rust_floors: [CostField; 2],
    rust_step: RouteStep,
}

/// High is up to nineteen above low in each cell; both have the same walls.
fn range(rng: &mut Rng, open: bool) -> Range {
    let Input { costs: low, step, rust_step, .. } = input(rng, open, true);
    let high = low.map(|cost| if cost == 255 { 255 } else { (cost + rng.below(20) as u8).min(254) });
    Range { floors: [low, high], step, rust_floors: [cost_field(&low), cost_field(&high)], rust_step }
}

/// The Rust's fields of both floors.
fn both_built(range: &Range) -> u8 {
    for costs in &range.rust_floors {
        let mut field = RustField::init(costs, &range.rust_step);
        field.build(costs);
        black_box(&field);
    }
    0
}

fn bounds() {
    println!(
        "nanoseconds a call for bounds: {INPUTS} pairs of floors, {AT_ONCE} timed at once, the least of {ROUNDS} rounds"
    );
    println!("Rust: init and build on both floors, from its own types made before, which tells no cell that is sure");
    println!("{:<14} {:>9} {:>9}  {:>9}", "", "Rust", "ours", "ours/Rust");
    for (name, open) in [("random floors", false), ("open floors", true)] {
        let mut rng = Rng::new(7);
        let inputs: Vec<Range> = (0..INPUTS).map(|_| range(&mut rng, open)).collect();
        let mut times: [Times; 2] = Default::default();
        for _ in 0..ROUNDS {
            times[0].round(&inputs, AT_ONCE, both_built);
            times[1].round(&inputs, AT_ONCE, |Range { floors: [low, high], step, .. }| {
                black_box(Library.bounds(low, high, step)).number
            });
        }
        let [rust, ours] = times.map(|side| side.each(INPUTS));
        println!("{name:<14} {rust:>9.0} {ours:>9.0}  {:>9.2}", ours / rust);
    }
}

/// Windows of one sector in both forms.
struct Windows {
    costs: [u8; CELLS],
    steps: Vec<u8>,
    rust_costs: CostField,
    rust_steps: Vec<RouteStep>,
    cells: Vec<Vec<usize>>,
}

/// So many windows, of any boundary and length, on a floor with no wall under them.
fn windows(rng: &mut Rng, open: bool, count: usize) -> Windows {
    let mut costs = input(rng, open, false).costs;
    let steps: Vec<Step> = (0..count).map(|_| input(rng, true, true).step).collect();
    steps.iter().for_each(|step| floors::open(rng, &mut costs, step));
    Windows {
        costs,
        steps: steps.concat(),
        rust_costs: cost_field(&costs),
        rust_steps: steps.iter().map(|step| route_step(step)).collect(),
        cells: steps.iter().map(|step| window_cells(step)).collect(),
    }
}

/// The square by the Rust: a field for each window, and of it the least cost of each window's cells.
fn square_by_rust(windows: &Windows) -> [[u32; WINDOWS]; WINDOWS] {
    let mut square = [[65535; WINDOWS]; WINDOWS];
    for (j, step) in windows.rust_steps.iter().enumerate() {
        let mut field = RustField::init(&windows.rust_costs, step);
        field.build(&windows.rust_costs);
        let cells = field.get();
        for (row, window) in square.iter_mut().zip(&windows.cells) {
            row[j] = window.iter().fold(65535, |least, cell| least.min(cells[*cell] & 0xffff));
        }
    }
    square
}

/// What the Rust takes for the square, and ours.
fn measure_windows(inputs: &[Windows]) -> [f64; 2] {
    let ours = |input: &Windows| Library.window_costs(&input.costs, &input.steps);
    let alike = inputs.iter().all(|input| square_by_rust(input) == ours(input).square());
    assert!(alike, "both have the same costs from window to window");
    let mut times: [Times; 2] = Default::default();
    for _ in 0..ROUNDS {
        times[0].round(inputs, 1, |input| black_box(square_by_rust(input))[0][1] as u8);
        times[1].round(inputs, 1, |input| black_box(ours(input)).number);
    }
    times.map(|side| side.each(inputs.len()))
}

fn squares() {
    println!("nanoseconds a square of window costs: {LISTS} lists of windows, the least of {ROUNDS} rounds for each");
    println!(
        "Rust: init and build for each window, from its own types made before, and the least cost of each window's"
    );
    println!("cells; ours: the call, from bytes, refusals and answer by value included");
    println!("{:<20} {:>9} {:>9}  {:>9}", "", "Rust", "ours", "ours/Rust");
    for (name, open) in [("random", false), ("open", true)] {
        for count in [2, 4, 8] {
            let mut rng = Rng::new(7);
            let inputs: Vec<Windows> = (0..LISTS).map(|_| windows(&mut rng, open, count)).collect();
            let [rust, ours] = measure_windows(&inputs);
            let name = format!("{name}, {count} windows");
            println!("{name:<20} {rust:>9.0} {ours:>9.0}  {:>9.2}", ours / rust);
        }
    }
}

/// What the costs from window to window take, and a tour of the same windows with a limit.
fn measure_tours(inputs: &[Windows], limit: u16) -> [f64; 2] {
    let mut times: [Times; 2] = Default::default();
    for _ in 0..ROUNDS {
        times[0].round(inputs, 1, |input| black_box(Library.window_costs(&input.costs, &input.steps)).number);
        times[1].round(inputs, 1, |input| black_box(Library.window_tour(&input.costs, &input.steps, limit)).number);
    }
    times.map(|side| side.each(inputs.len()))
}

fn tours() {
    println!(
        "nanoseconds a tour: {LISTS} lists of windows on random floors, the least of {ROUNDS} rounds for each; beside the"
    );
    println!("costs from window to window that it is made of, and what an order takes");
    println!("{:<26} {:>9} {:>9} {:>9}", "", "costs", "tour", "an order");
    for (count, limit) in [(2, 1), (4, 6), (5, 24), (6, 120), (7, 720), (8, 1), (8, 720), (8, 5040)] {
        let mut rng = Rng::new(7);
        let inputs: Vec<Windows> = (0..LISTS).map(|_| windows(&mut rng, false, count)).collect();
        let [costs, tour] = measure_tours(&inputs, limit);
        let name = format!("{count} windows, {limit} orders");
        println!("{name:<26} {costs:>9.0} {tour:>9.0} {:>9.1}", (tour - costs) / f64::from(limit));
    }
}

/// The sheet that the sector call writes.
fn written(input: &Input) -> Vec<u8> {
    let mut sheet = [0x55; CELLS];
    by_us(input, &mut sheet);
    sheet.to_vec()
}

/// What arrivals of sheets take.
fn measure_arrivals(sheets: &[Vec<u8>]) -> f64 {
    let mut times = Times::default();
    assert!(sheets.iter().all(|sheet| Library.arrivals(sheet).number == 0), "the sheets are taken");
    (0..ROUNDS).for_each(|_| times.round(sheets, AT_ONCE, |sheet| black_box(Library.arrivals(sheet)).moves[99]));
    times.each(sheets.len())
}

fn arrivals() {
    println!(
        "nanoseconds a call for arrivals: {INPUTS} sheets, {AT_ONCE} timed at once, the least of {ROUNDS} rounds;"
    );
    println!(
        "beside the sector call that wrote the sheet. `snakes` are ways over all 100 cells, `pairs` a sheet of cells that"
    );
    println!("point at each other and never arrive");
    println!("{:<14} {:>9} {:>9}", "", "sector", "arrivals");
    for (name, open, window) in
        [("random goal", false, false), ("random window", false, true), ("open goal", true, false)]
    {
        let mut rng = Rng::new(7);
        let inputs: Vec<Input> = (0..INPUTS).map(|_| input(&mut rng, open, window)).collect();
        let sheets: Vec<Vec<u8>> = inputs.iter().map(written).collect();
        let sector = measure(&inputs)[1].each(INPUTS);
        println!("{name:<14} {sector:>9.0} {:>9.0}", measure_arrivals(&sheets));
    }
    let pairs = (0..CELLS).map(|cell| if cell % 2 == 0 { 0x12 } else { 0x18 }).collect();
    for (name, sheets) in [("snakes", snakes().collect()), ("pairs", vec![pairs])] {
        println!("{name:<14} {:>9} {:>9.0}", "", measure_arrivals(&sheets));
    }
}

fn leg_fields() {
    println!(
        "nanoseconds a field of a leg of 16 steps, at the first place, the ninth and the last, and without sight at the last,"
    );
    println!("beside the leg: {LEGS} floors, the least of {ROUNDS} rounds");
    println!("{:<14} {:>9} {:>9} {:>9} {:>9} {:>9}", "", "leg", "first", "ninth", "last", "without");
    for (name, wanted) in [("random floor", Floor::Counting), ("open floor", Floor::Open), ("gaps", Floor::Gaps)] {
        let (legs, mut sheet) = (drawn_legs(wanted), vec![0x55; 64 * CELLS]);
        let mut times: [Times; 5] = Default::default();
        let field = |leg: &Leg, place: usize| black_box(Library.leg_field(&leg.floor, &leg.steps, place)).number;
        let without = |leg: &Leg| black_box(Library.leg_field_without_sight(&leg.floor, &leg.steps, 15)).number;
        assert!(legs.iter().all(|leg| field(leg, 15) == 0 && without(leg) == 0), "the leg is planned");
        for _ in 0..ROUNDS {
            times[0].round(&legs, 1, |leg| as_a_leg(leg, &mut sheet));
            [0, 8, 15]
                .into_iter()
                .zip(&mut times[1..4])
                .for_each(|(place, times)| times.round(&legs, 1, |leg| field(leg, place)));
            times[4].round(&legs, 1, without);
        }
        let [leg, first, ninth, last, without] = times.map(|side| side.each(LEGS));
        println!("{name:<14} {leg:>9.0} {first:>9.0} {ninth:>9.0} {last:>9.0} {without:>9.0}");
    }
}

/// A sheet and places on it.
type Driven = (Vec<u8>, Vec<[u8; 2]>);

/// Legs planned without sight, with the cells of the last sector from which a way arrives.
fn planned_carts() -> Vec<Driven> {
    let planned = drawn_legs(Floor::Counting).into_iter().map(|leg| {
        let mut sheet = vec![0; 64 * CELLS];
        assert_eq!(as_a_leg_without_sight(&leg, &mut sheet), 0, "the leg is planned");
        let places = (0..CELLS as u8).map(|cell| [leg.steps[8 * 15], cell]);
        let arrives = |place: &[u8; 2]| Library.way(&sheet, place[0], place[1]).outcome == outcome::ARRIVED;
        let places = places.filter(arrives).collect();
        (sheet, places)
    });
    planned.collect()
}

fn carts() {
    println!(
        "nanoseconds a move and a way, and the moves of a way: the least of {ROUNDS} rounds. `legs` are {LEGS} legs of 16 steps"
    );
    println!(
        "planned without sight, from the last sector to the goal; `longest` a way over the whole floor; `never` a way between"
    );
    println!("two places, which is followed as long");
    println!("{:<14} {:>9} {:>9} {:>9}", "", "move", "way", "moves");
    let longest = longest_ways(Call::Way).next().expect("a way");
    let pairs = (0..64 * CELLS).map(|cell| if cell % 2 == 0 { 0x12 } else { 0x18 }).collect();
    let one = |sheet: Vec<u8>, place: [u8; 2]| vec![(sheet, vec![place])];
    let groups =
        [("legs", planned_carts()), ("longest", one(longest.sheet, longest.cart)), ("never", one(pairs, [27, 44]))];
    for (name, sheets) in groups {
        let mut times: [Times; 2] = Default::default();
        let each: Vec<(&[u8], [u8; 2])> =
            sheets.iter().flat_map(|(sheet, places)| places.iter().map(|place| (&sheet[..], *place))).collect();
        let made = |(sheet, place): &(&[u8], [u8; 2])| black_box(Library.next_move(sheet, place[0], place[1])).number;
        let way = |(sheet, place): &(&[u8], [u8; 2])| black_box(Library.way(sheet, place[0], place[1]));
        assert!(!each.is_empty() && each.iter().all(|at| made(at) == 0 && way(at).number == 0), "the carts are taken");
        let moves: usize = each.iter().map(|at| usize::from(way(at).moves)).sum();
        for _ in 0..ROUNDS {
            // A move is over before the clock has moved: a hundred of each.
            times[0].round(&each, AT_ONCE, |at| (0..100).fold(0, |sum, _| sum | made(at)));
            times[1].round(&each, AT_ONCE, |at| way(at).number);
        }
        let [made, way] = times.map(|side| side.each(each.len()));
        println!("{name:<14} {:>9.1} {way:>9.0} {:>9}", made / 100.0, moves / each.len());
    }
}

fn bench(words: Vec<String>) -> Result<(), String> {
    if let Some(word) = words.first() {
        return Err(format!("`{word}`: bench takes no words"));
    }
    if !cfg!(panic = "abort") {
        return Err("not built with the profile `fastest`: use tools/oracle/run bench".to_string());
    }
    let without_sight = [Call::SectorWithoutSight, Call::LegWithoutSight];
    let others = [Call::Sector, Call::Leg, Call::Bounds, Call::WindowCosts, Call::WindowTour, Call::Arrivals];
    let carts_calls = [Call::Move, Call::Way, Call::LegField, Call::LegFieldWithoutSight];
    Library::found(&[&others[..], &without_sight, &carts_calls].concat())?;
    println!("the Rust and this driver are built with {}", env!("ORACLE_PROFILE"));
    sectors();
    legs();
    sectors_without_sight();
    legs_without_sight();
    bounds();
    squares();
    tours();
    arrivals();
    leg_fields();
    carts();
    Ok(())
}

fn main() -> ExitCode {
    command::run("bench", "usage: bench", bench)
}
