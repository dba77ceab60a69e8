//! Plans the leg of a drawn floor by the published Rust, by the altered one and by the library, and shows every cell whose byte
//! is not the published Rust's.

use std::io::{self, Read, Write};
use std::process::ExitCode;
use std::{fs, iter};

use oracle::command;
use oracle::drawing::{self, Drawing};
use oracle::library::Library;
use oracle::subject::Call;
use oracle::turned::{self, Refused};
use oracle::turned_text::{Page, refusal_words, rust_takes};

const USAGE: &str = "usage: floor DRAWING [--without-sight] [--ascii], DRAWING - for standard input; \
                     tools/draw/run --help says what a drawing is";

#[derive(Default)]
struct Arguments {
    drawing: String,
    sightless: bool,
    ascii: bool,
}

fn arguments(words: Vec<String>) -> Result<Arguments, String> {
    let mut found = Arguments::default();
    for word in words {
        match word.as_str() {
            "--without-sight" => found.sightless = true,
            "--ascii" => found.ascii = true,
            option if option.starts_with("--") => return Err(format!("`{option}` is not understood; {USAGE}")),
            _ if !found.drawing.is_empty() => return Err(format!("a second drawing, {word}; {USAGE}")),
            _ => found.drawing = word,
        }
    }
    match found.drawing.as_str() {
        "" => Err(format!("no drawing is named; {USAGE}")),
        _ => Ok(found),
    }
}

/// The bytes of a file, or of standard input.
fn bytes_of(name: &str) -> Result<Vec<u8>, String> {
    let mut bytes = Vec::new();
    match name {
        "-" => io::stdin().read_to_end(&mut bytes).map_err(|e| format!("standard input cannot be read: {e}"))?,
        _ => return fs::read(name).map_err(|e| format!("{name} cannot be read: {e}")),
    };
    Ok(bytes)
}

/// Where something stands in a drawing.
fn at(name: &str, line: usize) -> String {
    let name = if name == "-" { "standard input" } else { name };
    if line == 0 { name.to_string() } else { format!("{name}, line {line}") }
}

fn show(text: &str) -> Result<(), String> {
    let mut out = io::stdout().lock();
    let written = out.write_all(text.as_bytes()).and_then(|()| out.flush());
    written.map_err(|e| format!("standard output cannot be written: {e}"))
}

/// Says what a refused leg is refused for, behind what the published Rust makes of it.
fn refuse(words: &Arguments, drawing: &Drawing, refused: Refused) -> Result<(), String> {
    let Drawing { costs, steps, lines } = drawing;
    let sector = steps[8 * refused.place];
    let what = if refused.place == 0 { "the goal's step".to_string() } else { format!("leaving sector {sector}") };
    let why = refusal_words(refused, costs, steps, drawing::refusal_text);
    let sight = if refused.sight { "" } else { ", planned without sight," };
    let line = format!(
        "{}: {what}{sight} is refused with number {}: {why}",
        at(&words.drawing, lines[refused.place]),
        refused.number
    );
    if !rust_takes(refused.number) {
        return Err(format!("{line}; the Rust was not asked either"));
    }
    let sheets: Vec<_> =
        turned::by_published(costs, steps).into_iter().map(|step| step.map(|(bytes, _)| bytes)).collect();
    let page = Page { floor: costs, ascii: words.ascii };
    show(&format!("The library refuses this leg. The published Rust takes it:\n\n{}", page.refused(steps, &sheets)))?;
    Err(format!("{line}; the library plans no sector of this leg, so that nothing can be compared"))
}

fn floor(words: Vec<String>) -> Result<(), String> {
    let words = arguments(words)?;
    let calls = iter::once(Call::Leg).chain(words.sightless.then_some(Call::LegWithoutSight));
    Library::found(&calls.collect::<Vec<_>>())?;
    let text = bytes_of(&words.drawing)?;
    let drawing =
        drawing::read(&text).map_err(|fault| format!("{}: {}", at(&words.drawing, fault.line), fault.words))?;
    if drawing.steps.is_empty() {
        return Err(format!("{}: no goal; draw a G, or say it as: goal 9 at 4 5", at(&words.drawing, 0)));
    }
    match turned::plan(&Library, words.sightless, &drawing.costs, &drawing.steps) {
        Ok(sectors) => show(&Page { floor: &drawing.costs, ascii: words.ascii }.report(&sectors)),
        Err(refused) => refuse(&words, &drawing, refused),
    }
}

fn main() -> ExitCode {
    command::run("floor", USAGE, floor)
}
