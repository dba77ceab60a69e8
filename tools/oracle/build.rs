//! Finds the proved library and tells the crate which of its exports exist (`cfg(export = "..")`), and
//! by which profile it is built; and compiles the drawing tool's reading of drawings.

use std::path::{Path, PathBuf};
use std::process::{Command, exit};
use std::{env, fs};

/// Ends the build with one line, which `run` shows alone.
fn fail(message: String) -> ! {
    eprintln!("oracle: {message}");
    exit(1)
}

/// `tools/oracle`.
fn folder() -> PathBuf {
    PathBuf::from(env::var("CARGO_MANIFEST_DIR").expect("cargo sets CARGO_MANIFEST_DIR"))
}

/// The archive: ORACLE_LIBRARY, or what `tools/proved/make hanjolum` writes.
fn archive() -> PathBuf {
    println!("cargo:rerun-if-env-changed=ORACLE_LIBRARY");
    println!("cargo:rerun-if-env-changed=ORACLE_LIBRARY_SUM");
    match env::var_os("ORACLE_LIBRARY") {
        Some(path) => PathBuf::from(path),
        None => folder().join("../../target/staticlib/libhanjolum.a"),
    }
}

/// The names that the archive defines, by `nm`.
fn defined(archive: &Path) -> Vec<String> {
    let listing = Command::new("nm").args(["-g", "--defined-only"]).arg(archive).output();
    let listing = listing.unwrap_or_else(|e| fail(format!("nm, which lists the library's exports: {e}")));
    if !listing.status.success() {
        fail(String::from_utf8_lossy(&listing.stderr).trim().replace('\n', "; "));
    }
    let text = String::from_utf8_lossy(&listing.stdout).into_owned();
    let names = text.lines().filter_map(|line| line.split_whitespace().nth(2));
    names.filter(|name| name.starts_with("hanjolum_")).map(String::from).collect()
}

/// The lines of the profile `fastest` in Cargo.toml, what the environment sets beside them, and the compiler.
fn profile() -> String {
    let manifest = fs::read_to_string(folder().join("Cargo.toml")).expect("the crate has a Cargo.toml");
    let section = manifest.lines().skip_while(|line| *line != "[profile.fastest]").skip(1);
    let mut words: Vec<String> = section.take_while(|line| line.contains('=')).map(String::from).collect();
    let set = |name: &String| name.starts_with("CARGO_PROFILE_") || name.ends_with("RUSTFLAGS");
    words.extend(
        env::vars()
            .filter(|(name, value)| set(name) && !value.is_empty())
            .map(|(name, value)| format!("{name}={value}")),
    );
    let compiler = Command::new(env::var("RUSTC").expect("cargo sets RUSTC")).arg("--version").output();
    let compiler = compiler.expect("the compiler says its version").stdout;
    format!("{} ({})", words.join(", "), String::from_utf8_lossy(&compiler).trim())
}

/// Runs a program of the C toolchain, and ends the build with what it says where it fails.
fn made(program: &mut Command, what: &str) {
    let name = program.get_program().to_string_lossy().into_owned();
    let output = program.output().unwrap_or_else(|e| fail(format!("{name}, {what}: {e}")));
    if !output.status.success() {
        fail(format!("{name}: {}", String::from_utf8_lossy(&output.stderr).trim().replace('\n', "; ")));
    }
}

/// Compiles tools/draw/reading.c, and what hands its answers on, into a static library.
fn drawing() {
    let out = PathBuf::from(env::var("OUT_DIR").expect("cargo sets OUT_DIR"));
    let (draw, include) = (folder().join("../draw"), folder().join("../../include"));
    println!("cargo:rerun-if-env-changed=CC");
    for file in [draw.join("reading.h"), include.join("hanjolum.h")] {
        println!("cargo:rerun-if-changed={}", file.display());
    }
    let words = env::var("CC").unwrap_or_default();
    let compiler: Vec<&str> = words.split_whitespace().collect();
    let compiler = if compiler.is_empty() { vec!["cc"] } else { compiler };
    let mut archiver = Command::new("ar");
    let archive = out.join("libdrawing.a");
    let _ = fs::remove_file(&archive);
    archiver.arg("rcs").arg(&archive);
    for source in [draw.join("reading.c"), folder().join("src/drawing.c")] {
        println!("cargo:rerun-if-changed={}", source.display());
        let object = out.join(source.with_extension("o").file_name().expect("a source has a name"));
        let mut compile = Command::new(compiler[0]);
        compile.args(&compiler[1..]).args(["-std=c11", "-O2", "-Wall", "-Wextra", "-c"]);
        compile.arg("-I").arg(&draw).arg("-I").arg(&include).arg(&source).arg("-o").arg(&object);
        made(&mut compile, "the C compiler, which compiles the reading of drawings (Debian package gcc)");
        archiver.arg(object);
    }
    made(&mut archiver, "which packs the reading of drawings (Debian package binutils)");
    println!("cargo:rustc-link-search=native={}", out.display());
    println!("cargo:rustc-link-lib=static=drawing");
}

fn main() {
    drawing();
    println!("cargo:rustc-check-cfg=cfg(export, values(any()))");
    println!("cargo:rustc-check-cfg=cfg(library)");
    println!("cargo:rerun-if-changed=Cargo.toml");
    println!("cargo:rustc-env=ORACLE_PROFILE={}", profile());
    let archive = archive();
    println!("cargo:rustc-env=ORACLE_ARCHIVE={}", archive.display());
    println!("cargo:rerun-if-changed={}", archive.display());
    if !archive.exists() {
        return;
    }
    if archive.file_name().is_none_or(|name| name != "libhanjolum.a") {
        fail(format!("ORACLE_LIBRARY names {}, and the library's file is libhanjolum.a", archive.display()));
    }
    println!("cargo:rustc-cfg=library");
    for name in defined(&archive) {
        println!("cargo:rustc-cfg=export={name:?}");
    }
    let folder = archive.parent().expect("an archive stands in a folder");
    println!("cargo:rustc-link-search=native={}", folder.display());
    println!("cargo:rustc-link-lib=static=hanjolum");
}
