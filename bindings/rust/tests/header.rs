//! Holds the crate to the library's header: a C compiler says what the header's sizes, places, constants and texts are, and the
//! prototypes are read off its text. The header is the repository's where the crate stands in it, else the crate's own copy.
//! Needs `cc`. Where the tests are of another machine, `HANJOLUM_TEST_CC` names its C compiler, and
//! `HANJOLUM_RUNNER` the program that runs what it makes, as `qemu-aarch64` (`tools/crate/cross`).

use hanjolum::{FieldCell, IntegrationField, Outcome, PracticeFloor, Refusal, WindowRow, sys};
use std::fmt::Write;
use std::mem::{offset_of, size_of};
use std::path::{Path, PathBuf};
use std::process::Command;
use std::{env, fs};

fn folder() -> &'static Path {
    Path::new(env!("CARGO_MANIFEST_DIR"))
}

/// The folder of the header.
fn include() -> PathBuf {
    let repository = folder().join("../../include");
    if repository.join("hanjolum.h").is_file() { repository } else { folder().join("c") }
}

fn header() -> String {
    fs::read_to_string(include().join("hanjolum.h")).expect("the header is there")
}

/// The words of a variable, or those that stand for it.
fn words(name: &str, otherwise: &str) -> Vec<String> {
    let said = env::var(name).unwrap_or_else(|_| otherwise.to_string());
    said.split_whitespace().map(String::from).collect()
}

/// What a C program with this body prints, one line a `put`.
fn printed(name: &str, body: &str) -> Vec<String> {
    let file = Path::new(env!("CARGO_TARGET_TMPDIR")).join(name);
    let text = format!(
        "#include <stdio.h>\n#include \"hanjolum.h\"\n#define put(n) printf(\"%zu\\n\", (size_t)(n))\nint main(void) {{\n{body}return 0;\n}}\n"
    );
    fs::write(file.with_extension("c"), text).expect("the tests' folder can be written");
    let compiler = words("HANJOLUM_TEST_CC", "cc");
    let made = Command::new(&compiler[0])
        .args(&compiler[1..])
        .args(["-std=c11", "-Wall", "-Wextra", "-Werror", "-I"])
        .arg(include())
        .arg(file.with_extension("c"))
        .arg("-o")
        .arg(&file)
        .status();
    assert!(made.expect("a C compiler is there").success());
    let run = [words("HANJOLUM_RUNNER", ""), vec![file.display().to_string()]].concat();
    let run = Command::new(&run[0]).args(&run[1..]).output().expect("the program runs");
    assert!(run.status.success(), "{}", String::from_utf8_lossy(&run.stderr));
    String::from_utf8(run.stdout).expect("the program prints text").lines().map(String::from).collect()
}

/// A struct of the header: its name there, the crate's size of it, and its parts with the crate's offsets.
struct Layout {
    name: &'static str,
    size: usize,
    parts: Vec<(&'static str, usize)>,
}

macro_rules! layout {
    ($name:literal, $type:ty, $($part:ident),+) => {
        Layout { name: $name, size: size_of::<$type>(), parts: vec![$((stringify!($part), offset_of!($type, $part))),+] }
    };
}

fn layouts() -> Vec<Layout> {
    vec![
        layout!("IntegrationField", IntegrationField, field, los_corners, count, positions),
        layout!("InitAnswer", sys::InitAnswer, number, field),
        layout!("BuildAnswer", sys::BuildAnswer, number, field, waves),
        layout!("FieldCell", FieldCell, column, row),
        layout!("Line", sys::Line, number, cells, count),
        layout!("LineEnd", sys::LineEnd, number, cell),
        layout!("LegFile", sys::LegFile, number, start, length),
        layout!("PracticeFloor", PracticeFloor, costs, goal),
        layout!("Bounds", sys::Bounds, number, least, greatest, sure),
        layout!("Arrivals", sys::Arrivals, number, moves),
        layout!("WindowRow", WindowRow, costs),
        layout!("WindowCosts", sys::WindowCosts, number, rows),
        layout!("WindowTour", sys::WindowTour, number, found, order, sum, tried, least),
        layout!("Move", sys::Move, number, outcome, sector, cell),
        layout!("Way", sys::Way, number, outcome, sector, cell, moves),
    ]
}

#[test]
fn every_struct_has_the_header_s_size_and_offsets() {
    let (mut body, mut expected) = (String::new(), Vec::new());
    for layout in layouts() {
        writeln!(body, "put(sizeof(Hanjolum{}));", layout.name).unwrap();
        expected.push((layout.name, "its size", layout.size));
        for (part, offset) in layout.parts {
            writeln!(body, "put(offsetof(Hanjolum{}, {part}));", layout.name).unwrap();
            expected.push((layout.name, part, offset));
        }
    }
    let found = printed("layouts", &body);
    assert_eq!(found.len(), expected.len());
    for (number, (name, part, size)) in found.iter().zip(expected) {
        assert_eq!(*number, size.to_string(), "Hanjolum{name}, {part}");
    }
}

#[test]
fn no_struct_and_no_part_of_one_is_left_out() {
    let text = header();
    let structs: Vec<&str> = text.split("typedef struct {").skip(1).collect();
    assert_eq!(structs.len(), layouts().len());
    for said in structs {
        let (parts, rest) = said.split_once("} Hanjolum").expect("a struct has a name");
        let name = rest.split(';').next().unwrap();
        let layout = layouts().into_iter().find(|layout| layout.name == name);
        let layout = layout.unwrap_or_else(|| panic!("Hanjolum{name} is not in the crate"));
        let parts = parts.lines().filter(|line| line.contains(';')).count();
        assert_eq!(parts, layout.parts.len(), "parts of Hanjolum{name}");
    }
}

#[test]
fn constants_are_the_header_s() {
    let constants = [
        ("CELLS", hanjolum::CELLS),
        ("STEP", hanjolum::STEP),
        ("STEPS", hanjolum::STEPS),
        ("WINDOWS", hanjolum::WINDOWS),
        ("SECTORS", hanjolum::SECTORS),
        ("FLOOR", hanjolum::FLOOR),
        ("FILE_HEAD", hanjolum::FILE_HEAD),
        ("FILE", hanjolum::FILE),
        ("WALL", hanjolum::WALL.into()),
        ("NEVER", hanjolum::NEVER.into()),
        ("FIELD_COST", hanjolum::UNREACHED as usize),
    ];
    let body: String = constants.iter().map(|(name, _)| format!("put(HANJOLUM_{name});\n")).collect();
    let expected: Vec<String> = constants.iter().map(|(_, value)| value.to_string()).collect();
    assert_eq!(printed("constants", &body), expected);
}

#[test]
fn the_version_is_the_header_s_and_the_library_s() {
    let body = "puts(HANJOLUM_VERSION);\nprintf(\"%d.%d.%d\\n\", HANJOLUM_VERSION_MAJOR, HANJOLUM_VERSION_MINOR, HANJOLUM_VERSION_PATCH);\nput(HANJOLUM_VERSION_NUMBER);\n";
    let version = hanjolum::version();
    assert_eq!(format!("{}.{}.{}", version / 1_000_000, version / 1_000 % 1_000, version % 1_000), hanjolum::VERSION);
    assert_eq!(printed("version", body), [hanjolum::VERSION, hanjolum::VERSION, &version.to_string()]);
    assert!(hanjolum::is_same_version());
}

/// What the build script links is what it was told to.
#[test]
fn the_archive_is_linked_where_it_is_named() {
    let named = option_env!("HANJOLUM_LIBRARY").is_some_and(|name| !name.trim().is_empty());
    assert_eq!(hanjolum::LINKED, if named { "the archive" } else { "the C file" });
}

/// In the repository, the crate's copies are the files that they are copies of; `tools/crate/copy` writes them.
#[test]
fn the_copies_are_the_repository_s_files() {
    let copies =
        [("c/hanjolum.h", "include/hanjolum.h"), ("c/hanjolum.c", "portable/hanjolum.c"), ("NOTICE", "NOTICE")];
    let repository = folder().join("../..");
    for (copy, file) in copies.map(|(copy, file)| (folder().join(copy), repository.join(file))) {
        let own = fs::read(&copy).expect("the copy is there");
        assert!(!own.is_empty(), "{}", copy.display());
        if repository.join("include/hanjolum.h").is_file() {
            assert!(
                fs::read(&file).is_ok_and(|file| file == own),
                "{} is no copy of {}",
                copy.display(),
                file.display()
            );
        }
    }
}

#[test]
fn every_number_has_the_header_s_text_and_name() {
    let found = printed("texts", "for (int n = 0; n < 256; n++) puts(hanjolum_refusal_text((uint8_t)n));\n");
    assert_eq!(found.len(), 256);
    assert_eq!((found[0].as_str(), Refusal::of(0)), ("accepted", None));
    let text = header();
    for number in 1..=255u8 {
        let refusal = Refusal::of(number).expect("every number but 0 is a refusal");
        assert_eq!(refusal.number(), number);
        assert_eq!(refusal.text(), found[usize::from(number)], "number {number}");
        let known = !matches!(refusal, Refusal::Unknown(_));
        assert_eq!(known, number <= 21);
        let name = header_name(&format!("{refusal:?}"));
        assert_eq!(text.matches(&format!("HANJOLUM_REFUSED_{name} = {number}")).count(), usize::from(known), "{name}");
    }
    assert_eq!(Refusal::Place.to_string(), "refused with number 21: the place is beyond the leg's last step");
}

/// A name of the crate as the header has it: InSight is IN_SIGHT.
fn header_name(name: &str) -> String {
    let mut written = String::new();
    for letter in name.chars() {
        written.extend((letter.is_uppercase() && !written.is_empty()).then_some('_'));
        written.push(letter.to_ascii_uppercase());
    }
    written
}

#[test]
fn every_outcome_has_the_header_s_name_and_number() {
    let text = header();
    for (number, outcome) in Outcome::ALL.iter().enumerate() {
        let said = format!("HANJOLUM_OUTCOME_{} = {number}", header_name(&format!("{outcome:?}")));
        assert_eq!(text.matches(&said).count(), 1, "{said}");
    }
    let listed = text.lines().filter(|line| line.trim().starts_with("HANJOLUM_OUTCOME_")).count();
    assert_eq!(listed, Outcome::ALL.len());
}

/// A C type in Rust's words, read off the words before a parameter's or a function's name.
fn rust_type(words: &str) -> String {
    let plain = match words.replace("const ", "").replace('*', "").trim() {
        "uint8_t" => "u8",
        "uint16_t" => "u16",
        "uint32_t" => "u32",
        "uint64_t" => "u64",
        "size_t" => "usize",
        "bool" => "bool",
        other => other.strip_prefix("Hanjolum").unwrap_or_else(|| panic!("`{other}` is not known")),
    }
    .to_string();
    match (words.contains('*'), words.contains("const ")) {
        (false, _) => plain,
        (true, true) => format!("*const {plain}"),
        (true, false) => format!("*mut {plain}"),
    }
}

/// The words before a C name, and the name.
fn named(words: &str) -> (&str, &str) {
    let at =
        words.rfind(|letter: char| !letter.is_alphanumeric() && letter != '_').expect("a type stands before a name");
    words.split_at(at + 1)
}

/// A prototype of the header as Rust declares it.
fn declared(prototype: &str) -> String {
    let (head, rest) = prototype.split_once('(').expect("a prototype has parameters");
    let (answer, name) = named(head);
    let parameters: Vec<String> = rest
        .trim_end_matches([')', ';'])
        .split(',')
        .filter(|parameter| *parameter != "void")
        .map(|parameter| {
            let (words, name) = named(parameter.trim());
            format!("{name}: {}", rust_type(words))
        })
        .collect();
    format!("pub fn {name}({}) -> {};", parameters.join(", "), rust_type(answer))
}

#[test]
fn every_function_is_declared_as_the_header_has_it() {
    let text = header().replace("\\\n", " ");
    let after_comments: String =
        text.split("/*").map(|part| part.split_once("*/").map_or(part, |(_, rest)| rest)).collect();
    let macros = |line: &&str| line.starts_with('#') || line.starts_with("HANJOLUM_LAID_OUT");
    let after_comments = after_comments.lines().filter(|line| !macros(line)).collect::<Vec<_>>().join("\n");
    let prototypes: Vec<String> = after_comments
        .split(';')
        .map(|part| part.split_whitespace().collect::<Vec<_>>().join(" "))
        .map(|part| part.rsplit(['}', '{']).next().unwrap().trim().to_string())
        .filter(|part| part.contains(" hanjolum_") && part.ends_with(')') && !part.contains("static"))
        .map(|part| format!("{part};"))
        .collect();
    let source = fs::read_to_string(folder().join("src/sys.rs")).expect("the declarations stand in sys.rs");
    let source = source.split_whitespace().collect::<Vec<_>>().join(" ").replace("( ", "(").replace(", )", ")");
    for prototype in &prototypes {
        let expected = declared(prototype);
        assert!(source.contains(&expected), "sys.rs lacks `{expected}`");
    }
    assert_eq!(prototypes.len(), 30);
    assert_eq!(source.matches("pub fn hanjolum_").count(), prototypes.len());
}
