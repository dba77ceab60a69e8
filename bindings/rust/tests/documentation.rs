//! Every function that a caller may call says in its documentation how it is called, by an example, and what it is refused with.

use std::fs;
use std::path::Path;

/// The functions of a file that are `pub`, each with the lines above it that belong to it and its own head.
fn functions(text: &str) -> Vec<(String, String)> {
    let lines: Vec<&str> = text.lines().map(str::trim).collect();
    let mut found = Vec::new();
    for (at, line) in lines.iter().enumerate() {
        if line.starts_with("pub fn ") || line.starts_with("pub const fn ") {
            let above = lines[..at].iter().rev().take_while(|line| line.starts_with("///") || line.starts_with("#["));
            let mut above: Vec<&str> = above.copied().collect();
            above.reverse();
            let head = lines[at..]
                .iter()
                .take_while(|line| !line.ends_with('{'))
                .chain(lines[at..].iter().find(|line| line.ends_with('{')));
            found.push((above.join("\n"), head.copied().collect::<Vec<_>>().join(" ")));
        }
    }
    found
}

#[test]
fn every_function_has_an_example_and_says_what_it_is_refused_with() {
    let folder = Path::new(env!("CARGO_MANIFEST_DIR")).join("src");
    let (mut functions_met, mut refusing) = (0, 0);
    for file in fs::read_dir(folder).unwrap().map(|file| file.unwrap().path()) {
        // The header's own declarations are told in the header.
        if file.extension().is_none_or(|kind| kind != "rs") || file.ends_with("sys.rs") {
            continue;
        }
        for (above, head) in functions(&fs::read_to_string(&file).unwrap()) {
            assert!(
                above.contains("/// # Examples") && above.contains("/// ```"),
                "{}: no example: {head}",
                file.display()
            );
            if head.contains("-> Result<") {
                assert!(above.contains("/// # Errors"), "{}: no refusals: {head}", file.display());
                refusing += 1;
            }
            functions_met += 1;
        }
    }
    // None is passed over: so many functions there are, and so many of them can be refused.
    assert_eq!((functions_met, refusing), (57, 23));
}
