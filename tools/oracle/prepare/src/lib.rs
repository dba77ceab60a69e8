//! Lays out a copy of the Rust reference for a build script: the nine files as published or with changes that
//! are listed, the two that were not published (stubs/flowfields/), and at the end of four of them an item that
//! reads, makes or calls what they keep private (stubs/appended/). All of it goes to OUT_DIR; nothing is written
//! elsewhere. What cannot be laid out ends the build with one line.

use std::path::{Path, PathBuf};
use std::process::exit;
use std::{env, fs};

/// The published files, below `src/flowfields/` of the reference's folder.
pub const PUBLISHED: [&str; 9] = [
    "fields/bresenham.rs",
    "fields/cost_field.rs",
    "fields/flow_field.rs",
    "fields/integration_field.rs",
    "fields/mod.rs",
    "portal/mod.rs",
    "route.rs",
    "sectors/mod.rs",
    "utilities/mod.rs",
];

/// The files that stand in for unpublished ones.
const STOOD_IN: [&str; 2] = ["mod.rs", "sectors/sector_cost.rs"];

/// The files that get an item of ours at their end.
const APPENDED: [&str; 4] =
    ["fields/cost_field.rs", "fields/flow_field.rs", "fields/integration_field.rs", "portal/mod.rs"];

/// A change of a copy: in this file, this text, which it has so often, becomes that one.
pub struct Change {
    pub file: &'static str,
    pub old: &'static str,
    pub new: &'static str,
    pub times: usize,
}

/// The text of one file with the changes of that file made, one after the other.
pub fn changed(name: &str, text: &str, changes: &[Change]) -> Result<String, String> {
    changes.iter().filter(|change| change.file == name).try_fold(text.to_string(), |text, change| {
        let (old, found) = (change.old, text.matches(change.old).count());
        if found == change.times {
            return Ok(text.replace(old, change.new));
        }
        Err(format!("{name} has {old:?} {found} times, and the copy lists {}", change.times))
    })
}

/// Ends the build with one line, which `tools/oracle/run` shows alone.
fn fail(message: String) -> ! {
    eprintln!("oracle: {message}");
    exit(1)
}

/// The folder that holds `src/flowfields/`: ORACLE_REFERENCE, or `../shared/docs/src` seen from the
/// repository's root.
fn reference_folder() -> PathBuf {
    println!("cargo:rerun-if-env-changed=ORACLE_REFERENCE");
    match env::var_os("ORACLE_REFERENCE") {
        Some(folder) => PathBuf::from(folder),
        None => oracle_folder().join("../../../shared/docs/src"),
    }
}

/// `tools/oracle`: the parent of every crate that calls this.
fn oracle_folder() -> PathBuf {
    let manifest = env::var("CARGO_MANIFEST_DIR").expect("cargo sets CARGO_MANIFEST_DIR");
    Path::new(&manifest).parent().expect("the crate stands in tools/oracle").to_path_buf()
}

fn read(path: &Path) -> String {
    println!("cargo:rerun-if-changed={}", path.display());
    fs::read_to_string(path).unwrap_or_else(|e| fail(format!("{}: {e}", path.display())))
}

fn write(path: &Path, text: &str) {
    fs::create_dir_all(path.parent().expect("a file has a folder")).expect("OUT_DIR can be written");
    fs::write(path, text).expect("OUT_DIR can be written");
}

/// The text of one published file as it is compiled.
fn compiled_text(published: &str, name: &str, changes: &[Change]) -> String {
    let mut text = changed(name, published, changes).unwrap_or_else(|message| fail(message));
    if APPENDED.contains(&name) {
        text.push_str(&read(&oracle_folder().join("stubs/appended").join(name)));
    }
    text
}

/// A number that changes with the published text (FNV-1a, 64 bits).
fn fingerprint(text: &str, start: u64) -> u64 {
    text.bytes().fold(start, |sum, byte| (sum ^ u64::from(byte)).wrapping_mul(0x100_0000_01b3))
}

/// Writes the crate's modules to OUT_DIR, with `root.rs` to include at the crate's root: the published files
/// with these changes.
pub fn lay_out(changes: &[Change]) {
    if let Some(change) = changes.iter().find(|change| !PUBLISHED.contains(&change.file)) {
        fail(format!("a change names {}, which is none of the published files", change.file));
    }
    let out = PathBuf::from(env::var("OUT_DIR").expect("cargo sets OUT_DIR"));
    let published = reference_folder().join("src/flowfields");
    let mut sum = 0xcbf2_9ce4_8422_2325;
    for name in PUBLISHED {
        let text = read(&published.join(name));
        sum = fingerprint(&text, sum);
        write(&out.join("flowfields").join(name), &compiled_text(&text, name, changes));
    }
    for name in STOOD_IN {
        let ours = oracle_folder().join("stubs/flowfields").join(name);
        write(&out.join("flowfields").join(name), &read(&ours));
    }
    let root = out.join("flowfields/mod.rs").display().to_string();
    let item = format!("pub const FINGERPRINT: u64 = {sum:#x};\n");
    write(
        &out.join("root.rs"),
        &format!("#[path = {root:?}]\npub mod flowfields;\n/// Of the nine published files.\n{item}"),
    );
}

#[cfg(test)]
mod tests {
    use super::*;

    const CHANGE: Change = Change { file: "route.rs", old: "a && b", new: "a || b", times: 2 };

    #[test]
    fn each_place_is_changed() {
        assert_eq!(changed("route.rs", "a && b; a && b", &[CHANGE]).as_deref(), Ok("a || b; a || b"));
    }

    #[test]
    fn another_file_stays() {
        assert_eq!(changed("portal/mod.rs", "a && b", &[CHANGE]).as_deref(), Ok("a && b"));
    }

    #[test]
    fn a_count_that_is_off_is_one_line() {
        for text in ["", "a && b", "a && b a && b a && b"] {
            let message = changed("route.rs", text, &[CHANGE]).expect_err("the count is off");
            assert!(!message.contains('\n') && message.starts_with("route.rs has \"a && b\""), "{message}");
        }
    }
}
