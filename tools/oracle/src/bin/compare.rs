//! Compares the proved library with the Rust, group by group; `--model` compares the model of the
//! documents instead, `--slips` the model with one slip after the other.

use std::collections::BTreeMap;
use std::process::ExitCode;
use std::time::Instant;

use oracle::command;
use oracle::groups::{
    BOUNDS, BUILT, Clean, DRIVEN, Difference, FOLLOWED, FOLLOWED_TO_GOAL, GROUPS, Group, JOURNEY,
    JOURNEY_WITHOUT_SIGHT, Met,
};
use oracle::judges::Judge;
use oracle::library::Library;
use oracle::model::{CLOSED, Model, Slip};
use oracle::refusals::{FIELDLESS, ON_WALL};
use oracle::subject::Subject;

/// What is held to the oracle.
#[derive(PartialEq)]
enum Side {
    Library,
    Model,
    Slips,
}

struct Arguments {
    side: Side,
    seed: u64,
    /// None asks for the usual number.
    inputs: Option<usize>,
    group: Option<String>,
    /// Print the smallest input of each slip.
    smallest: bool,
}

const USAGE: &str = "usage: compare [--model | --slips [--smallest]] [--inputs N] [--seed N] [--group NAME]";

/// The whole number behind an option, underscores left out.
fn number(option: &str, word: Option<&String>) -> Result<u64, String> {
    let parsed = word.and_then(|word| word.replace('_', "").parse().ok());
    parsed.ok_or_else(|| format!("{option} takes a whole number; {USAGE}"))
}

fn parsed(words: &[String]) -> Result<Arguments, String> {
    let mut found = Arguments { side: Side::Library, seed: 1, inputs: None, group: None, smallest: false };
    let mut words = words.iter();
    while let Some(word) = words.next() {
        match word.as_str() {
            "--model" if found.side == Side::Library => found.side = Side::Model,
            "--slips" if found.side == Side::Library => found.side = Side::Slips,
            "--inputs" => found.inputs = Some(number(word, words.next())? as usize),
            "--seed" => found.seed = number(word, words.next())?,
            "--smallest" => found.smallest = true,
            "--group" => found.group = Some(words.next().ok_or("--group takes a name")?.clone()),
            _ => return Err(format!("`{word}` is not understood; {USAGE}")),
        }
    }
    Ok(found)
}

/// The words, where they ask for something that can be done.
fn arguments(words: &[String]) -> Result<Arguments, String> {
    let found = parsed(words)?;
    let names: Vec<&str> = GROUPS.iter().map(|group| group.name).collect();
    if found.inputs == Some(0) {
        return Err("--inputs 0 compares nothing".to_string());
    }
    if found.smallest && found.side != Side::Slips {
        return Err(format!("--smallest goes with --slips; {USAGE}"));
    }
    match &found.group {
        Some(_) if found.side == Side::Slips => {
            Err("--slips tries every group, so --group does not go with it".to_string())
        }
        Some(name) if !names.contains(&name.as_str()) => {
            Err(format!("no group `{name}`; there are: {}", names.join("; ")))
        }
        _ => Ok(found),
    }
}

/// How many inputs each judge decided, those left out that decided none.
fn judged(counts: &[usize]) -> String {
    let decided = Judge::ALL.into_iter().zip(counts).filter(|(_, count)| **count > 0);
    let words: Vec<String> = decided.map(|(judge, count)| format!("{} {count}", judge.name())).collect();
    words.join(", ")
}

fn report_clean(group: &Group, clean: &Clean, start: Instant) {
    let due = clean.numbers.iter().enumerate().filter(|(_, count)| **count > 0);
    let numbers: Vec<String> = due.map(|(number, count)| format!("{number}: {count}")).collect();
    let seconds = start.elapsed().as_secs_f64();
    println!("{:<20} {:>9} inputs alike  {seconds:>7.1} s  numbers {}", group.name, clean.inputs, numbers.join(", "));
    println!("{:<20} decided by: {}", "", judged(&clean.judged));
    if let Some(words) = left_out(clean).filter(|_| group.has_rust()) {
        println!("{:<20} {words}", "");
    }
    if !clean.met.is_empty() {
        println!("{:<20} met: {}", "", met(&clean.met));
    }
    if clean.followed.legs > 0 {
        println!("{:<20} followed: {}", "", clean.followed);
    }
    if clean.cleared.sectors > 0 {
        println!("{:<20} looked at: {}", "", clean.cleared);
    }
    if clean.between.inputs > 0 {
        println!("{:<20} built between: {}", "", clean.between);
    }
    if clean.squared.inputs > 0 {
        println!("{:<20} held to built fields: {}", "", clean.squared);
    }
    if clean.toured.inputs > 0 {
        println!("{:<20} held to their words: {}", "", clean.toured);
    }
    if clean.without_sight.numbers > 0 {
        println!("{:<20} without sight: {}", "", clean.without_sight);
    }
    if clean.driven.ways > 0 {
        println!("{:<20} driven: {}", "", clean.driven);
    }
    if clean.fields.numbers > 0 {
        println!("{:<20} held to other calls: {}", "", clean.fields);
    }
}

/// How many inputs have a goal or a window cell of cost 255, or a window without a previous field.
fn left_out(clean: &Clean) -> Option<String> {
    let counts = [ON_WALL, FIELDLESS].map(|number| (number, clean.numbers[usize::from(number)]));
    let words: Vec<String> = counts
        .iter()
        .filter(|(_, count)| *count > 0)
        .map(|(number, count)| format!("being {number}: {count}"))
        .collect();
    (!words.is_empty()).then(|| format!("left out of the comparison with the Rust, {}", words.join(", ")))
}

/// How many inputs met what, the places at which 15 was found together, those of 16, and how many kinds of window.
fn met(counts: &BTreeMap<Met, usize>) -> String {
    let placed = |met: &Met| matches!(met, Met::Closed { .. } | Met::OnWall { .. });
    let (windows, others): (Vec<_>, Vec<_>) = counts.iter().partition(|(met, _)| matches!(met, Met::Window { .. }));
    let (places, kinds): (Vec<_>, Vec<_>) = others.into_iter().partition(|(met, _)| placed(met));
    let mut words: Vec<String> = kinds.iter().map(|(met, count)| format!("{met} {count}")).collect();
    if !windows.is_empty() {
        words.push(format!("{} kinds of window", windows.len()));
    }
    let inputs: usize = places.iter().map(|(_, count)| **count).sum();
    let number = if matches!(places.first(), Some((Met::OnWall { .. }, _))) { ON_WALL } else { CLOSED };
    if !places.is_empty() {
        words.push(format!("{number} at {} places of legs of up to 16 steps {inputs}", places.len()));
    }
    words.join(", ")
}

fn report_difference(group: &Group, difference: &Difference) {
    println!("{}: input {} differs. The smallest found:", group.name, difference.input);
    println!("{}", difference.smallest.pasted());
    for line in difference.found.iter().take(12) {
        println!("  {line}");
    }
}

/// Runs one group.
fn run(group: &Group, side: &dyn Subject, chosen: &Arguments) -> Result<Clean, String> {
    let start = Instant::now();
    let clean = group.run(side, chosen.seed, chosen.inputs.unwrap_or(100_000)).map_err(|difference| {
        report_difference(group, &difference);
        format!("`{}` differs at input {}", group.name, difference.input)
    })?;
    report_clean(group, &clean, start);
    group.unmet(&clean).map_or(Ok(clean), Err)
}

/// Runs every group that was chosen. A group whose calls the side does not have compares nothing, which is a failure.
fn compare(side: &dyn Subject, chosen: &Arguments) -> Result<(), String> {
    let (mut all, mut beside_rust) = (Clean::default(), Clean::default());
    let mut left = Vec::new();
    for group in GROUPS.iter().filter(|group| chosen.group.as_ref().is_none_or(|name| name == group.name)) {
        if group.needs.iter().all(|call| side.offers(*call)) {
            let clean = run(group, side, chosen)?;
            all.add(&clean);
            if group.has_rust() {
                beside_rust.add(&clean);
            }
        } else {
            println!("{:<20} not there: {:?}", group.name, group.needs);
            left.push(group.name);
        }
    }
    if !left.is_empty() {
        return Err(format!("not compared, since the library does not export their calls: {}", left.join("; ")));
    }
    if all.inputs == 0 {
        return Err("nothing was compared".to_string());
    }
    println!("{} inputs, no difference (seed {}); decided by: {}", all.inputs, chosen.seed, judged(&all.judged));
    left_out(&beside_rust).into_iter().for_each(|words| println!("{words}"));
    if all.cleared.sectors > 0 {
        println!("looked at: {}", all.cleared);
    }
    if all.between.inputs > 0 {
        println!("built between: {}", all.between);
    }
    if all.squared.inputs > 0 {
        println!("held to built fields: {}", all.squared);
    }
    if all.toured.inputs > 0 {
        println!("held to their words: {}", all.toured);
    }
    if all.without_sight.numbers > 0 {
        println!("without sight: {}", all.without_sight);
    }
    if all.driven.ways > 0 {
        println!("driven: {}", all.driven);
    }
    if all.fields.numbers > 0 {
        println!("fields of a leg's steps, held to other calls: {}", all.fields);
    }
    Ok(())
}

/// How far back a group is tried for a slip: first where its name begins as the text of the slip does up to the colon, then
/// where it begins with the text's first word, then the others.
fn unlikely(group: &Group, text: &str) -> usize {
    let [words, word] = [&[':'][..], &[':', ' ']].map(|ends| text.split(ends).next().unwrap_or(text));
    let refusals = ["number", "numbers", "refusals"].contains(&word);
    match group.name {
        name if name.starts_with(words) => 0,
        name if name.starts_with(word) || (refusals && name.ends_with("refusals")) => 1,
        _ => 2,
    }
}

/// Whether one of these groups finds a slip: the first that does, and after how many inputs of it.
fn found(slip: Slip, groups: &[&Group], chosen: &Arguments) -> bool {
    let (side, inputs) = (Model { slip }, chosen.inputs.unwrap_or(20_000));
    let differs = |group: &&Group| Some((group.name, group.run(&side, chosen.seed, inputs).err()?));
    let Some((name, difference)) = groups.iter().find_map(differs) else {
        println!("    NOT FOUND by {}", if groups.len() == 1 { groups[0].name } else { "any group" });
        return false;
    };
    println!("    found by `{name}` at input {}: {}", difference.input, difference.found[0]);
    if chosen.smallest {
        println!("{}", difference.smallest.pasted());
    }
    true
}

/// Tries every slip, on likely groups first; those that lead a cart astray once more, by following it alone, to the goal's
/// sector or to the goal, those of moves and ways by driving alone, and those that floors between two show, by building these
/// alone.
fn try_slips(chosen: &Arguments) -> Result<(), String> {
    let mut missed = 0;
    for (slip, text) in Slip::ALL {
        println!("{text}");
        let mut groups: Vec<&Group> = GROUPS.iter().collect();
        groups.sort_by_key(|group| unlikely(group, text));
        let alone = [
            (Slip::ASTRAY, &FOLLOWED),
            (Slip::NOT_TO_GOAL, &FOLLOWED_TO_GOAL),
            (Slip::NOT_DRIVEN, &DRIVEN),
            (Slip::BETWEEN, &BUILT),
        ];
        let mut missing = !found(*slip, &groups, chosen);
        for (_, group) in alone.into_iter().filter(|(slips, _)| slips.contains(slip)) {
            missing |= !found(*slip, &[group], chosen);
        }
        missed += usize::from(missing);
    }
    let (slips, lists) = (Slip::ALL.len(), [Slip::ASTRAY, Slip::NOT_TO_GOAL, Slip::NOT_DRIVEN, Slip::BETWEEN]);
    let [astray, not_to_goal, not_driven, between] = lists.map(|slips| slips.len());
    println!(
        "{slips} slips, {astray} of them tried by following in `{JOURNEY}` alone too, {not_to_goal} in \
         `{JOURNEY_WITHOUT_SIGHT}` alone, {not_driven} by driving there alone, {between} by the floors between of `{BOUNDS}` alone, {missed} not found (seed {})",
        chosen.seed
    );
    if missed == 0 { Ok(()) } else { Err(format!("{missed} slips were not found")) }
}

fn program(words: Vec<String>) -> Result<(), String> {
    let chosen = arguments(&words)?;
    if chosen.side == Side::Library {
        Library::found(&[])?;
    }
    println!("the Rust's nine files: {:#018x}", reference::FINGERPRINT);
    match chosen.side {
        Side::Library => compare(&Library, &chosen),
        Side::Model => compare(&Model::PLAIN, &chosen),
        Side::Slips => try_slips(&chosen),
    }
}

fn main() -> ExitCode {
    command::run("compare", USAGE, program)
}
