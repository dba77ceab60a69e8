//! Which arrows turn: what is printed beside a count of its own, byte by byte; the causes on the smallest floors; slips that are
//! planted; legs that are refused; drawings, read by the drawing tool's own reading.

use oracle::copies::published;
use oracle::drawing::{self, Fault};
use oracle::floors::{Rng, any_whole_floor, goal_step, leg_of, leg_with_a_gap, open_leg, window_step};
use oracle::model::{Model, Slip};
use oracle::oracle::Oracle;
use oracle::subject::*;
use oracle::turned::{Cause, Refused, Turn, Turned, by_published, caught, plan};
use oracle::turned_text::{Page, byte_words};

/// A byte that differs: sector, cell, the published Rust's and the side's.
type Differing = (usize, usize, u8, u8);

/// The bytes that differ, counted apart from the module: the Rust's four calls written out, and the judge's whole sheet.
fn counted(sight: bool, floor: &[u8], steps: &[u8]) -> Vec<Differing> {
    let mut sheet = vec![0; 6400];
    let number =
        if sight { Oracle.leg(floor, steps, &mut sheet) } else { Oracle.leg_without_sight(floor, steps, &mut sheet) };
    assert_eq!(number, 0);
    let (mut before, mut differing): (Option<[u32; CELLS]>, _) = (None, Vec::new());
    for step in steps.chunks(8) {
        let sector = usize::from(step[0]);
        let costs = &floor[100 * sector..100 * sector + 100];
        let built = published::built(costs, &published::started(costs, step)).field;
        let starting = published::flow_new(step, &built, before.as_ref().map(|field| &field[..]));
        let bytes = published::flow_build(&built, &starting);
        for (cell, old) in bytes.into_iter().enumerate().filter(|(cell, old)| *old != sheet[100 * sector + cell]) {
            differing.push((sector, cell, old, sheet[100 * sector + cell]));
        }
        before = Some(built);
    }
    differing.sort();
    differing
}

/// The number behind a word of a line.
fn behind(line: &str, word: &str) -> usize {
    let from = &line[line.find(word).unwrap_or_else(|| panic!("no `{word}` in `{line}`")) + word.len()..];
    from.trim_start().chars().take_while(char::is_ascii_digit).collect::<String>().parse().expect("a number")
}

/// A byte behind a word of a line, in hexadecimal.
fn byte_behind(line: &str, word: &str) -> u8 {
    let at = line.rfind(word).unwrap_or_else(|| panic!("no `{word}` in `{line}`")) + word.len();
    u8::from_str_radix(&line[at..at + 2], 16).expect("two digits")
}

/// The bytes that a printed page names, with sight or without.
fn named(page: &str, sight: bool) -> Vec<Differing> {
    let start = if sight { "sector " } else { "without sight, sector " };
    let lines = page.lines().filter(|line| line.starts_with(start) && line.contains(", now 0x"));
    let mut named: Vec<Differing> = lines
        .map(|line| {
            let cell = behind(line, "column ") + 10 * behind(line, "row ");
            (behind(line, "sector "), cell, byte_behind(line, "(0x"), byte_behind(line, "now 0x"))
        })
        .collect();
    named.sort();
    named
}

/// Whether a byte's low half is one of the eight directions, and which.
fn arrow(byte: u8) -> Option<u8> {
    Some(byte & 15).filter(|half| [1, 2, 4, 8, 3, 6, 12, 9].contains(half))
}

/// The last line's figures must be these bytes', and add up.
fn hold_totals(page: &str, sight: bool, sectors: usize, differing: &[Differing]) {
    let start = if sight { "with sight: " } else { "without sight: " };
    let line = page.lines().find(|line| line.starts_with(start)).expect("a line with totals");
    let arrows: Vec<_> = differing.iter().map(|(_, _, old, new)| (arrow(*old), arrow(*new))).collect();
    let count = |holds: fn(&(Option<u8>, Option<u8>)) -> bool| arrows.iter().filter(|pair| holds(pair)).count();
    assert_eq!(behind(line, "planned"), 100 * sectors);
    assert_eq!(behind(line, "turned in"), count(|(old, new)| old.is_some() && new.is_some() && old != new));
    assert_eq!(behind(line, "gained in"), count(|(old, new)| old.is_none() && new.is_some()));
    assert_eq!(behind(line, "lost in"), count(|(old, new)| old.is_some() && new.is_none()));
    assert_eq!(behind(line, "alone in"), count(|(old, new)| old == new));
    assert_eq!(behind(line, "alike"), 100 * sectors - differing.len());
}

#[test]
fn every_byte_that_differs_is_named_marked_and_counted() {
    let mut rng = Rng::new(71);
    let (mut legs, mut bytes, mut causes) = (0, 0, Vec::new());
    while legs < 400 {
        let (mut floor, count) = (any_whole_floor(&mut rng), 1 + rng.below(5));
        let steps = leg_of(&mut rng, count);
        open_leg(&mut rng, &mut floor, &steps);
        let Ok(sectors) = plan(&Oracle, true, &floor, &steps) else { continue };
        let page = Page { floor: &floor, ascii: legs % 2 == 1 }.report(&sectors);
        for sight in [true, false] {
            let differing = counted(sight, &floor, &steps);
            assert_eq!(named(&page, sight), differing, "{page}");
            hold_totals(&page, sight, count, &differing);
            causes.extend(sectors.iter().flat_map(|sector| sector.turned(sight)).map(|turned| turned.cause));
            bytes += differing.len();
        }
        let marks = page.lines().filter(|line| line.starts_with(|c: char| c.is_ascii_digit())).collect::<String>();
        let differing = counted(true, &floor, &steps).len() + counted(false, &floor, &steps).len();
        assert_eq!(marks.matches('~').count(), differing, "{page}");
        legs += 1;
    }
    assert!(bytes > 10_000, "only {bytes} bytes differ");
    for cause in Cause::ALL {
        assert_eq!(causes.contains(&cause), cause != Cause::Unexplained, "{cause:?}");
    }
}

/// The cells of a leg's step that turn.
fn turned(floor: &[u8], steps: &[u8], place: usize) -> Vec<Turned> {
    plan(&Oracle, false, floor, steps).unwrap_or_else(|refused| panic!("{refused:?}"))[place].turned(true)
}

fn with_walls(walls: &[usize]) -> Vec<u8> {
    let mut floor = vec![1; 6400];
    walls.iter().for_each(|wall| floor[*wall] = 255);
    floor
}

/// Wall 0, goal 1 (02, Job 7): cell 10 pointed north-east past the wall.
#[test]
fn a_diagonal_past_a_wall_is_job_7() {
    let found = turned(&with_walls(&[0]), &goal_step(0, 1), 0);
    assert_eq!(found, [Turned { cell: 10, old: 0x13, new: 0x12, cause: Cause::Look }]);
    assert_eq!(found[0].turn(), Turn::Turns);
}

/// Sector 0 has walls 9 and 19, sector 1 is left by its whole West edge (02, Job 2): cell 0 pointed at a wall, and the cells of
/// its row at cell 0.
#[test]
fn a_window_cell_that_does_not_count_is_job_2() {
    let steps = [goal_step(0, 44), window_step(1, 3, 0, 9)].concat();
    let found = turned(&with_walls(&[9, 19]), &steps, 1);
    let row = (1..10).map(|cell| Turned { cell, old: 0x18, new: 0x1C, cause: Cause::Counting });
    let first = Turned { cell: 0, old: 0x98, new: 0x14, cause: Cause::Counting };
    assert_eq!(found, [first].into_iter().chain(row).collect::<Vec<_>>());
}

/// In a sector left by a window no line is drawn: what the altered Rust gives there is the look's, or the window's.
#[test]
fn lines_play_a_part_in_the_goals_sector_alone() {
    let mut rng = Rng::new(72);
    for _ in 0..200 {
        let (mut floor, steps) = (any_whole_floor(&mut rng), leg_of(&mut rng, 3));
        open_leg(&mut rng, &mut floor, &steps);
        let Ok(sectors) = plan(&Oracle, false, &floor, &steps) else { continue };
        for (place, sector) in sectors.iter().enumerate() {
            for Turned { cell, cause, .. } in sector.turned(true) {
                assert!(cause != Cause::Lines || place == 0, "lines at place {place}, cell {cell}");
                assert!(cause != Cause::Facing || sector.in_window(cell), "facing at place {place}, cell {cell}");
            }
        }
    }
}

/// A model with a slip in the library's place: what it writes wrongly is shown as no request's, or, where the published Rust has
/// the same, as not what the comparison asks for.
#[test]
fn a_slip_is_shown() {
    let (gap, gap_steps) = leg_with_a_gap();
    let inputs = [(with_walls(&[0]), goal_step(0, 1).to_vec()), (gap, gap_steps)];
    for (slip, (floor, steps), wrong) in [
        (Slip::TwoWallsBar, &inputs[0], false),
        (Slip::BestLessOrEqual, &inputs[1], true),
        (Slip::GapsFilled, &inputs[1], false),
        (Slip::EveryCellCounts, &inputs[1], false),
    ] {
        let sectors = plan(&Model { slip }, false, floor, steps).unwrap_or_else(|refused| panic!("{refused:?}"));
        let page = Page { floor, ascii: false }.report(&sectors);
        let misjudged: usize = sectors.iter().map(|sector| sector.misjudged(true).len()).sum();
        let unexplained = page.lines().filter(|line| line.contains("; NO JOB)")).count();
        assert!(misjudged > 0 && page.contains("is not what the comparison asks for"), "{slip:?}: {page}");
        assert_eq!(unexplained > 0, wrong, "{slip:?}: {page}");
    }
    let sectors =
        plan(&Model::PLAIN, false, &inputs[1].0, &inputs[1].1).unwrap_or_else(|refused| panic!("{refused:?}"));
    assert!(sectors.iter().all(|sector| sector.misjudged(true).is_empty()));
}

#[test]
fn a_refused_leg_names_its_step() {
    let leg = |steps: &[Vec<u8>]| plan(&Oracle, true, &with_walls(&[9, 844]), &steps.concat()).err();
    let (goal, west) = (goal_step(0, 44).to_vec(), window_step(1, 3, 0, 9).to_vec());
    let refused = |number, place| Some(Refused { number, place, sight: true });
    assert_eq!(leg(&[goal.clone(), west.clone()]), None);
    assert_eq!(leg(&[goal_step(8, 44).to_vec()]), refused(16, 0));
    assert_eq!(leg(&[goal.clone(), west.clone(), goal_step(2, 0).to_vec()]), refused(9, 2));
    assert_eq!(leg(&[goal.clone(), window_step(2, 3, 0, 9).to_vec()]), refused(10, 1));
    assert_eq!(leg(&[goal, window_step(1, 3, 0, 0).to_vec(), window_step(2, 3, 0, 9).to_vec()]), refused(15, 1));
}

#[test]
fn a_panic_is_caught_with_its_words() {
    assert_eq!(caught(|| 7), Ok(7));
    assert_eq!(caught(|| -> u8 { panic!("a cell of column {}", 10) }), Err("a cell of column 10".to_string()));
    assert_eq!(caught(|| -> u8 { panic!("no cell") }), Err("no cell".to_string()));
}

/// A goal of 100, which no drawing has and the published Rust panics on; behind it the Rust is not asked on.
#[test]
fn behind_a_panic_the_published_rust_is_not_asked() {
    let asked = by_published(&with_walls(&[]), &[goal_step(0, 100), window_step(1, 3, 0, 9)].concat());
    let words: Vec<String> = asked.into_iter().map(|step| step.expect_err("a panic")).collect();
    assert!(words[0].contains("index"), "{}", words[0]);
    assert_eq!(words[0], words[1]);
}

/// A sector without the published Rust's sheet: its cells are said not to be compared, and are neither turned nor alike.
#[test]
fn a_sector_that_the_published_rust_panics_on_is_not_compared() {
    let (floor, steps) = (with_walls(&[0]), [goal_step(0, 1), window_step(1, 3, 0, 9)].concat());
    let mut sectors = plan(&Oracle, false, &floor, &steps).unwrap_or_else(|refused| panic!("{refused:?}"));
    sectors[0].rust.published = Err("no cell".to_string());
    let page = Page { floor: &floor, ascii: false }.report(&sectors);
    assert!(page.contains("\n0  ? ? ? ? ? ? ? ? ? ?   █ G * "), "{page}");
    assert!(page.contains("\nsector 0: not compared, the published Rust panics: no cell\n"), "{page}");
    let line = page.lines().last().expect("a last line");
    assert_eq!((behind(line, "planned"), behind(line, "not compared")), (200, 100));
    assert_eq!(behind(line, "alike") + sectors[1].turned(true).len(), 100);
}

#[test]
fn a_byte_is_said_in_words() {
    let words = [0x12, 0x1C, 0x98, 0x30, 0x70, 0xE0, 0xF4, 0x00].map(byte_words);
    let expected = [
        "east",
        "south-west",
        "west out of the window",
        "in sight without an arrow",
        "the goal",
        "not reached",
        "south with the marks of goal, window and sight at once",
        "no arrow",
    ];
    assert_eq!(words, expected);
}

/// The page of a floor that is worked out by hand: wall 0, goal 1.
#[test]
fn a_page_is_printed_as_it_should_be() {
    let floor = with_walls(&[0]);
    let page =
        Page { floor: &floor, ascii: true }.report(&plan(&Oracle, false, &floor, &goal_step(0, 1)).ok().unwrap());
    let lines: Vec<&str> = page.lines().collect();
    assert_eq!(lines[2], "sector 0, the goal's");
    assert_eq!(lines[3], "   published Rust                  altered Rust                    library");
    assert!(lines[4].starts_with("   0  1  2  3  4  5  6  7  8  9    0  1 "), "{}", lines[4]);
    let sight = "*  ".repeat(8);
    assert_eq!(lines[5], format!("0  ## G  {sight}  ## G  {sight}  ## G  {}", sight.trim_end()));
    let sight = "*  ".repeat(9);
    assert_eq!(lines[6], format!("1  NE {sight}  E  {sight}  E ~{}", sight.trim_end()));
    assert_eq!(lines[15], "sector 0, column 0, row 1: north-east, now east (0x13, now 0x12; Job 7)");
    let last =
        "with sight: planned 100 cells, arrow turned in 1, gained in 0, lost in 0, another mark alone in 0, alike 99";
    assert_eq!(lines.last(), Some(&last));
}

const DRAWING: &str = "\
cost a 25
leave sector 10 west from 3 to 6
corner 9
..........|..........
..........|..........
....G.....|#.........
..........|.....a....
..........|..........
..........|..........
..........|..........
..........|..........
..........|..........
..........|..........
";

#[test]
fn a_drawing_is_read_as_the_drawing_tool_reads_it() {
    let read = drawing::read(DRAWING.as_bytes()).expect("it is a drawing");
    assert_eq!(read.steps, [goal_step(9, 24), window_step(10, 3, 3, 6)].concat());
    assert_eq!(read.lines, [0, 2]);
    assert_eq!((read.costs[1000 + 35], read.costs[1000 + 20], read.costs[900]), (25, 255, 1));
    assert!(read.costs[..900].iter().chain(&read.costs[1100..]).all(|cost| *cost == 255));
}

#[test]
fn what_is_wrong_with_a_drawing_is_said_with_its_line() {
    let fault = |text: &str| drawing::read(text.as_bytes()).err();
    let wrong = DRAWING.replace("from 3 to 6", "from 6 to 3");
    let found: Fault = fault(&wrong).expect("it is wrong");
    assert_eq!(found.line, 2);
    assert!(found.words.contains("ends before it begins"), "{}", found.words);
    assert_eq!(fault("").expect("nothing is drawn").line, 0);
    assert!(drawing::read(DRAWING.replace('G', ".").as_bytes()).expect("a floor without a leg").steps.is_empty());
}

/// The header's own words.
#[test]
fn a_number_is_said_in_the_headers_words() {
    assert_eq!(drawing::refusal_text(0), "accepted");
    assert!(drawing::refusal_text(16).contains("255"), "{}", drawing::refusal_text(16));
}
