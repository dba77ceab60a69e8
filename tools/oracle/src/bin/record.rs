//! Writes the recorded sample, a file for each section and a README that says how it was made, and prints the lines that
//! `replay` has to print of it; with `--check`, compares the files that are there with what it would write.

use std::fs;
use std::path::{Path, PathBuf};
use std::process::ExitCode;

use oracle::command;
use oracle::records::{Section, sections};

/// The layouts, from the head of the module that makes the records.
fn layouts() -> String {
    let source = include_str!("../records.rs");
    let head = source.lines().take_while(|line| line.starts_with("//!"));
    head.map(|line| line.trim_start_matches("//!").trim_start().to_string() + "\n").collect()
}

fn readme(sections: &[Section]) -> String {
    let mut text = String::from("# Recorded answers\n\n");
    text += "Made by `record` of tools/oracle, never by hand: `tools/oracle/run record`.\n";
    text += "`tools/oracle/run record --check` says whether the files are what it writes.\n";
    text += &format!(
        "Made from nine files of the Rust whose fingerprint (FNV-1a, 64 bits) is {:#018x}.\n\n",
        reference::FINGERPRINT
    );
    text += &layouts();
    text += "\n| file | records | bytes | judge |\n|---|---|---|---|\n";
    for section in sections {
        let records = section.records.len();
        let judges: Vec<&str> = section.judges().iter().map(|judge| judge.name()).collect();
        text += &format!("| {} | {records} | {} | {} |\n", section.name, records * section.length, judges.join(", "));
    }
    text
}

/// The files and what they hold.
fn files(sections: &[Section]) -> Vec<(String, Vec<u8>)> {
    for section in sections {
        assert!(section.records.iter().all(|record| record.len() == section.length), "{}: a length", section.name);
    }
    let mut files = vec![("README.md".to_string(), readme(sections).into_bytes())];
    files.extend(sections.iter().map(|section| (section.name.to_string(), section.records.concat())));
    files
}

fn default_folder() -> PathBuf {
    Path::new(env!("CARGO_MANIFEST_DIR")).join("../../crates/replay/data")
}

const USAGE: &str = "usage: record [--check] [FOLDER]";

/// Whether to check, and the folder.
fn arguments(words: Vec<String>) -> Result<(bool, PathBuf), String> {
    let (options, folders): (Vec<String>, Vec<String>) = words.into_iter().partition(|word| word.starts_with('-'));
    if let Some(word) = options.iter().find(|word| *word != "--check").or(folders.get(1)) {
        return Err(format!("`{word}` is not understood; {USAGE}"));
    }
    Ok((!options.is_empty(), folders.first().map_or_else(default_folder, PathBuf::from)))
}

/// Holds the files of a folder to what would be written.
fn check(folder: &Path) -> Result<(), String> {
    let mut otherwise = Vec::new();
    for (name, bytes) in files(&sections()) {
        let same = fs::read(folder.join(&name)).is_ok_and(|there| there == bytes);
        println!("{name}: {}", if same { "as recorded" } else { "OTHERWISE" });
        if !same {
            otherwise.push(name);
        }
    }
    if otherwise.is_empty() {
        return Ok(());
    }
    Err(format!("not what would be recorded, in {}: {}", folder.display(), otherwise.join(", ")))
}

fn write(folder: &Path) -> Result<(), String> {
    fs::create_dir_all(folder).map_err(|e| format!("{}: {e}", folder.display()))?;
    let sections = sections();
    for (name, bytes) in files(&sections) {
        let path = folder.join(&name);
        fs::write(&path, &bytes).map_err(|e| format!("{}: {e}", path.display()))?;
        println!("{name}: {} bytes", bytes.len());
    }
    println!("\nWhat `replay` has to print, crates/replay/stdout:");
    sections.iter().for_each(|section| println!("{}", section.agreed()));
    Ok(())
}

fn record(words: Vec<String>) -> Result<(), String> {
    let (only_check, folder) = arguments(words)?;
    if only_check { check(&folder) } else { write(&folder) }
}

fn main() -> ExitCode {
    command::run("record", USAGE, record)
}
