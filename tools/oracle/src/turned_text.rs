//! What turns, as a trainer reads it: the sheets of each sector side by side, in the order of driving and with the letters of
//! `tools/draw`, below them each cell whose byte is not the published Rust's, and at the end how many there are.

use crate::copies::published;
use crate::refusals::named_cells;
use crate::subject::CELLS;
use crate::turned::{Cause, NO_ARROW, Refused, Sector, Sheet, Turn, Turned};

const ARROWS: [&str; 8] = ["↑", "→", "↓", "←", "↗", "↘", "↙", "↖"];
const LETTERS: [&str; 8] = ["N ", "E ", "S ", "W ", "NE", "SE", "SW", "NW"];
const DIRECTIONS: [&str; 8] =
    ["north", "east", "south", "west", "north-east", "south-east", "south-west", "north-west"];

/// A floor's costs, and whether arrows are written as compass letters.
pub struct Page<'a> {
    pub floor: &'a [u8],
    pub ascii: bool,
}

/// So many of something.
fn many(count: usize, one: &str, more: &str) -> String {
    format!("{count} {}", if count == 1 { one } else { more })
}

/// By which request a byte differs, and what it asked for.
pub fn cause_words(cause: Cause) -> (&'static str, &'static str) {
    match cause {
        Cause::Look => ("Job 7", "a diagonal past a wall is barred"),
        Cause::Lines => {
            ("Job 7 or 11", "in the goal's sector a corner's line of sight runs otherwise, and with it the costs")
        }
        Cause::Facing => {
            ("Job 7 or 11, by the window", "the costs across the window are others, as sight is in the goal's sector")
        }
        Cause::Counting => ("Job 2", "some window cell of this sector, or of one nearer the goal, does not count"),
        Cause::CountingToo => {
            ("Job 2, and 7 or 11", "some window cell does not count, and a diagonal or a line is another besides")
        }
        Cause::Sightless => {
            ("planning without sight", "in the goal's sector every reached cell has an arrow, and costs are others")
        }
        Cause::Unexplained => ("NO JOB", "no request explains it: tell the maintainers, with this drawing"),
    }
}

/// A flow byte in words: its arrow, or what it has in place of one.
pub fn byte_words(byte: u8) -> String {
    let read = published::readings(byte);
    let marks = [read.is_goal, read.is_portal_goal, read.has_line_of_sight];
    let (arrow, beside) = match (DIRECTIONS.get(usize::from(read.direction)), marks) {
        (None, _) if read.is_wall => ("not reached", ""),
        (None, [true, false, true]) => ("the goal", ""),
        (None, [false, false, true]) => ("in sight without an arrow", ""),
        (None, _) => ("no arrow", ""),
        (Some(arrow), [false, true, false]) => (*arrow, " out of the window"),
        (Some(arrow), [true, true, true]) => (*arrow, " with the marks of goal, window and sight at once"),
        (Some(arrow), _) => (*arrow, ""),
    };
    format!("{arrow}{beside}")
}

/// The cells of a window by columns and rows: it lies along one of either.
fn along(step: &[u8; 8], cells: &[usize]) -> String {
    let listed = |at: fn(&usize) -> usize| cells.iter().map(|cell| format!(" {}", at(cell))).collect::<String>();
    let (word, several) = if step[5] % 2 == 0 { ("column", "columns") } else { ("row", "rows") };
    let word = if cells.len() == 1 { word } else { several };
    match step[5] % 2 {
        0 => format!("row {}, {word}{}", cells[0] / 10, listed(|cell| cell % 10)),
        _ => format!("column {}, {word}{}", cells[0] % 10, listed(|cell| cell / 10)),
    }
}

/// A sheet to be shown beside others: what it is called, its bytes, and the sign behind each cell.
struct Column<'a> {
    title: &'a str,
    /// None where there is nothing to show, since the published Rust panicked.
    sheet: Option<&'a Sheet>,
    sign: Box<dyn Fn(usize) -> char + 'a>,
}

impl Page<'_> {
    /// The columns that a cell takes, its sign with it.
    fn width(&self) -> usize {
        if self.ascii { 3 } else { 2 }
    }

    /// A cell as `tools/draw` shows it.
    fn glyph(&self, sector: usize, cell: usize, byte: u8) -> &'static str {
        let read = published::readings(byte);
        let letters = |plain, ascii| if self.ascii { ascii } else { plain };
        match usize::from(read.direction) {
            arrow if read.direction != NO_ARROW => letters(ARROWS[arrow], LETTERS[arrow]),
            _ if read.is_wall && self.floor[sector * CELLS + cell] == 255 => letters("█", "##"),
            _ if read.is_wall => letters("x", "x "),
            _ if read.is_goal => letters("G", "G "),
            _ => letters("*", "* "),
        }
    }

    /// One row of a sheet.
    fn row(&self, sector: usize, row: usize, column: &Column) -> String {
        let cell = |cell: usize| match column.sheet {
            Some(sheet) => format!("{}{}", self.glyph(sector, cell, sheet[cell]), (column.sign)(cell)),
            None => format!("{:width$}", "?", width = self.width()),
        };
        (10 * row..10 * row + 10).map(cell).collect()
    }

    /// Sheets side by side, rows and columns numbered.
    fn beside(&self, sector: usize, columns: &[Column]) -> String {
        let width = 10 * self.width() + 2;
        let heads: String = columns.iter().map(|column| format!("{:width$}", column.title)).collect();
        let digits: String = (0..10).map(|digit| format!("{digit:<width$}", width = self.width())).collect();
        let counted: String = columns.iter().map(|_| format!("{digits:width$}")).collect();
        let mut lines = vec![format!("   {heads}"), format!("   {counted}")];
        for row in 0..10 {
            let cells: Vec<String> = columns.iter().map(|column| self.row(sector, row, column)).collect();
            lines.push(format!("{row}  {}", cells.join("  ")));
        }
        lines.iter().map(|line| line.trim_end().to_string() + "\n").collect()
    }

    /// The sheets of a sector: by the published Rust, the altered one, and the side with sight and without.
    fn sheets(&self, sector: &Sector) -> String {
        let window = |cell| if sector.in_window(cell) { '+' } else { ' ' };
        let rust = |title, sheet| Column { title, sheet, sign: Box::new(window) };
        let mut columns = vec![
            rust("published Rust", sector.rust.published.as_ref().ok()),
            rust("altered Rust", Some(&sector.rust.altered)),
        ];
        for (sight, title) in [(true, "library"), (false, "without sight")] {
            let Some(written) = sector.written(sight) else { continue };
            let (turned, idle) = (sector.turned(sight), sector.idle());
            let sign = move |cell| match window(cell) {
                _ if turned.iter().any(|turned| turned.cell == cell) => '~',
                '+' if idle.contains(&cell) => '-',
                plain => plain,
            };
            columns.push(Column { title, sheet: Some(&written.bytes), sign: Box::new(sign) });
        }
        self.beside(sector.number(), &columns)
    }

    /// What is said below a sector's sheets.
    fn said(&self, sector: &Sector) -> String {
        let (number, mut text) = (sector.number(), String::new());
        if let Err(words) = &sector.rust.published {
            text += &format!("sector {number}: not compared, the published Rust panics: {words}\n");
        }
        let idle = sector.idle();
        if !idle.is_empty() {
            text += &format!("sector {number}: of its window {} {} not count", along(&sector.step, &idle), does(&idle));
            text += " (Job 2), since nothing is reached there across; the Rust is asked over the whole window\n";
        }
        for sight in [true, false] {
            let before = if sight { "" } else { "without sight, " };
            for turned in sector.turned(sight) {
                let place = format!("column {}, row {}", turned.cell % 10, turned.cell / 10);
                let Turned { old, new, cause, .. } = turned;
                text += &format!("{before}sector {number}, {place}: {}, now {}", byte_words(old), byte_words(new));
                text += &format!(" (0x{old:02x}, now 0x{new:02x}; {})\n", cause_words(cause).0);
            }
        }
        text
    }

    /// A leg's sectors in the order of driving, what differs in each, and the totals.
    pub fn report(&self, sectors: &[Sector]) -> String {
        let sightless = sectors.iter().any(|sector| sector.sightless.is_some());
        let mut text = format!(
            "A leg over {}, planned by the Rust as it was published, ",
            many(sectors.len(), "sector", "sectors")
        );
        text += "by the Rust altered in the rules of Jobs 7 and 11 alone, and by the library";
        text += if sightless { ", with sight and without.\n\n" } else { ".\n\n" };
        for (place, sector) in sectors.iter().enumerate().rev() {
            text += &format!("{}\n{}", head(sector.number(), place, sectors.len()), self.sheets(sector));
            let said = self.said(sector);
            text += if said.is_empty() { "every byte is the published Rust's\n" } else { &said };
            text += "\n";
        }
        text += &format!("{} wall   x not reached   G goal   * goal in sight\n", if self.ascii { "##" } else { "█" });
        text +=
            "behind a cell: ~ another byte than the published Rust's   + window   - window cell that does not count\n";
        text += &totals(sectors, true);
        if sightless {
            text += &totals(sectors, false);
        }
        text
    }

    /// What the published Rust makes of a leg that is refused, where it can be asked.
    pub fn refused(&self, steps: &[u8], sheets: &[Result<Sheet, String>]) -> String {
        let mut text = String::new();
        for (place, (step, sheet)) in steps.chunks(8).zip(sheets).enumerate().rev() {
            let (sector, window) = (usize::from(step[0]), if step[2] == 1 { named_cells(step) } else { Vec::new() });
            let sign = move |cell| if window.contains(&cell) { '+' } else { ' ' };
            let column = Column { title: "published Rust", sheet: sheet.as_ref().ok(), sign: Box::new(sign) };
            text += &format!("{}\n{}", head(sector, place, sheets.len()), self.beside(sector, &[column]));
            text +=
                &sheet.as_ref().err().map_or(String::new(), |words| format!("the published Rust panics: {words}\n"));
            text += "\n";
        }
        text
    }
}

fn does(cells: &[usize]) -> &'static str {
    if cells.len() == 1 { "does" } else { "do" }
}

/// What a sector of a leg is called, as `tools/draw` heads it: the steps are listed from the goal back.
fn head(sector: usize, place: usize, count: usize) -> String {
    match place {
        0 => format!("sector {sector}, the goal's"),
        _ => format!("sector {sector}, {} of {count}", count - place),
    }
}

/// How many cells differ and why, and in one last line how many were planned, turn and are alike.
fn totals(sectors: &[Sector], sight: bool) -> String {
    let name = if sight { "with sight" } else { "without sight" };
    let turned: Vec<_> = sectors.iter().flat_map(|sector| sector.turned(sight)).collect();
    let mut text = String::new();
    for cause in Cause::ALL {
        let count = turned.iter().filter(|turned| turned.cause == cause).count();
        if count > 0 {
            let (request, words) = cause_words(cause);
            text += &format!("{name}, {} by {request}: {words}\n", many(count, "cell", "cells"));
        }
    }
    let misjudged = sectors.iter().map(|sector| sector.misjudged(sight).len()).sum::<usize>();
    if misjudged > 0 {
        let words = "the library's byte is not what the comparison asks for: tell the maintainers, with this drawing";
        text += &format!("{name}, {}: {words}\n", many(misjudged, "cell", "cells"));
    }
    text + &last_line(sectors, &turned, name)
}

/// How many cells were planned, how many are alike, and what becomes of the arrows of the others.
fn last_line(sectors: &[Sector], turned: &[Turned], name: &str) -> String {
    let of = |turn| turned.iter().filter(|turned| turned.turn() == turn).count();
    let planned = CELLS * sectors.len();
    let lacking = CELLS * sectors.iter().filter(|sector| sector.rust.published.is_err()).count();
    let mut text = format!("{name}: planned {planned} cells");
    if lacking > 0 {
        text += &format!(", not compared {lacking}, since the published Rust panics");
    }
    text += &format!(", arrow turned in {}, gained in {}", of(Turn::Turns), of(Turn::Comes));
    text += &format!(", lost in {}, another mark alone in {}", of(Turn::Goes), of(Turn::Stays));
    text + &format!(", alike {}\n", planned - lacking - turned.len())
}

/// Why a step of a drawn leg is refused, in the words of a drawing.
pub fn refusal_words(refused: Refused, floor: &[u8], steps: &[u8], text: impl Fn(u8) -> String) -> String {
    let step = &steps[8 * refused.place..8 * refused.place + 8];
    let wall = |cell: &usize| floor[usize::from(step[0]) * CELLS + cell] == 255;
    match (refused.number, named_cells(step).into_iter().find(wall)) {
        (9, _) => "the leg is in this sector twice".to_string(),
        (10, _) => "that side does not lead into the sector where the leg goes on".to_string(),
        (15, _) => "no cell of its window faces a cell from which the leg goes on".to_string(),
        (16, Some(cell)) if step[2] == 0 => format!("the goal, column {}, row {}, is a wall", cell % 10, cell / 10),
        (16, Some(cell)) => format!("its window's cell column {}, row {} is a wall", cell % 10, cell / 10),
        (number, _) => text(number),
    }
}

/// Whether the published Rust can be asked for a leg that the library refuses: it knows neither cells that do not count nor
/// refusals of walls, and for any other number there is no leg.
pub fn rust_takes(number: u8) -> bool {
    [15, 16].contains(&number)
}
