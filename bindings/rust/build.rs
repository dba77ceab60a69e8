//! Gives the crate its library: the archive that HANJOLUM_LIBRARY names; and where none is named, `c/hanjolum.c`, compiled by the
//! target's C compiler. What cannot be done is said in one line that begins with `hanjolum: `.
//!
//! Compiler, archiver and flags are read where the crate `cc` reads them. For the target aarch64-unknown-linux-gnu the compiler is
//! the first of CC_aarch64-unknown-linux-gnu, CC_aarch64_unknown_linux_gnu, TARGET_CC (HOST_CC where the target is the host) and CC
//! that is set; the archiver is read from AR alike and more flags from CFLAGS. Where none is set, `usual` has the compiler.

use std::ffi::OsStr;
use std::path::{Path, PathBuf};
use std::process::{Command, exit};
use std::{env, fs};

/// Ends the build with one line.
fn fail(message: String) -> ! {
    eprintln!("hanjolum: {message}");
    exit(1)
}

/// What cargo tells a build script by a variable.
fn told(name: &str) -> String {
    env::var(name).unwrap_or_else(|_| fail(format!("cargo did not set {name}")))
}

/// What the user has set, if it is more than blanks. Cargo runs this script again when it changes. What cannot be read is not passed
/// over: another library, or another compiler, would be taken in its place.
fn set(name: &str) -> Option<String> {
    println!("cargo:rerun-if-env-changed={name}");
    let value = env::var_os(name)?;
    let value = value.into_string().unwrap_or_else(|_| fail(format!("what {name} holds is no text in UTF-8")));
    Some(value).filter(|value| !value.trim().is_empty())
}

/// The variables that may name a tool of the target, the one that comes first in front.
fn variables(tool: &str) -> [String; 4] {
    let target = told("TARGET");
    let kind = if target == told("HOST") { "HOST" } else { "TARGET" };
    let plain = target.replace(['-', '.'], "_");
    [format!("{tool}_{target}"), format!("{tool}_{plain}"), format!("{kind}_{tool}"), tool.to_string()]
}

/// What is set for a tool of the target, and by which variable.
fn named(tool: &str) -> Option<(String, String)> {
    // All are looked at, so that cargo watches all.
    let all: Vec<_> = variables(tool).into_iter().map(|name| (set(&name), name)).collect();
    all.into_iter().find_map(|(value, name)| value.map(|value| (value, name)))
}

/// A program with words that always come with it, and what it is said to be where it fails.
struct Tool {
    words: Vec<String>,
    said: String,
}

impl Tool {
    /// A tool from what a variable holds, as `ccache gcc`; a file of that name is taken as it is, blanks and all.
    fn of(value: &str, said: String) -> Tool {
        let whole = Path::new(value).is_file();
        let words = if whole { vec![value.to_string()] } else { value.split_whitespace().map(String::from).collect() };
        Tool { words, said }
    }

    /// Runs it, and fails in words.
    fn run<S: AsRef<OsStr>>(&self, more: &[S], advice: &str) {
        let (program, words) = (&self.words[0], &self.words[1..]);
        let ran = Command::new(program).args(words).args(more).output();
        let ran =
            ran.unwrap_or_else(|error| fail(format!("{program}, {}, cannot be run: {error}; {advice}", self.said)));
        if !ran.status.success() {
            let (error, out) = (String::from_utf8_lossy(&ran.stderr), String::from_utf8_lossy(&ran.stdout));
            let first = error.lines().chain(out.lines()).find(|line| !line.trim().is_empty()).unwrap_or("nothing");
            fail(format!("{program}, {}, ended with {} and said: {}; {advice}", self.said, ran.status, first.trim()));
        }
    }
}

/// Targets whose compiler or whose flags do not follow from their names: how the name begins and ends, the compiler, and flags.
const USUAL: [(&str, &str, &str, &str); 16] = [
    ("thumbv6m-", "-eabi", "arm-none-eabi-gcc", "-mthumb -march=armv6s-m -mfloat-abi=soft"),
    ("thumbv7m-", "-eabi", "arm-none-eabi-gcc", "-mthumb -march=armv7-m -mfloat-abi=soft"),
    ("thumbv7em-", "-eabi", "arm-none-eabi-gcc", "-mthumb -march=armv7e-m -mfloat-abi=soft"),
    ("thumbv7em-", "-eabihf", "arm-none-eabi-gcc", "-mthumb -march=armv7e-m -mfloat-abi=hard -mfpu=fpv4-sp-d16"),
    ("thumbv8m.base-", "-eabi", "arm-none-eabi-gcc", "-mthumb -march=armv8-m.base -mfloat-abi=soft"),
    ("thumbv8m.main-", "-eabi", "arm-none-eabi-gcc", "-mthumb -march=armv8-m.main -mfloat-abi=soft"),
    (
        "thumbv8m.main-",
        "-eabihf",
        "arm-none-eabi-gcc",
        "-mthumb -march=armv8-m.main -mfloat-abi=hard -mfpu=fpv5-sp-d16",
    ),
    ("riscv32imc-", "-elf", "riscv64-unknown-elf-gcc", "-march=rv32imc -mabi=ilp32"),
    ("riscv32imac-", "-elf", "riscv64-unknown-elf-gcc", "-march=rv32imac -mabi=ilp32"),
    ("riscv64gc-", "-elf", "riscv64-unknown-elf-gcc", "-march=rv64gc -mabi=lp64d -mcmodel=medany"),
    ("riscv64gc-", "-linux-gnu", "riscv64-linux-gnu-gcc", ""),
    ("armv7-", "-linux-gnueabihf", "arm-linux-gnueabihf-gcc", ""),
    ("x86_64-", "-windows-gnu", "x86_64-w64-mingw32-gcc", ""),
    ("i686-", "-windows-gnu", "i686-w64-mingw32-gcc", ""),
    ("x86_64-unknown-none", "", "clang", "--target=x86_64-unknown-none -fPIC -mno-red-zone -mgeneral-regs-only"),
    ("wasm32-", "", "clang", "--target=wasm32 -nostdlibinc"),
];

/// The usual compiler of the target, and the flags that its machine needs. A machine and a system that are the host's have `cc`;
/// GNU's Linux on another machine has its gcc, as aarch64-unknown-linux-gnu has aarch64-linux-gnu-gcc; all else has clang, which compiles
/// for every machine, and needs no headers of the target's: the C file includes none but the compiler's own.
fn usual() -> (String, Vec<String>) {
    let (target, host) = (told("TARGET"), told("HOST"));
    let found = USUAL.iter().find(|(begins, ends, ..)| target.starts_with(begins) && target.ends_with(ends));
    if let Some((_, _, compiler, flags)) = found.filter(|_| target != host) {
        return (compiler.to_string(), flags.split_whitespace().map(String::from).collect());
    }
    let (theirs, own): (Vec<&str>, Vec<&str>) = (target.split('-').collect(), host.split('-').collect());
    match theirs[..] {
        _ if theirs[..3.min(theirs.len())] == own[..3.min(own.len())] => ("cc".to_string(), Vec::new()),
        [machine, _, "linux", library] if library.starts_with("gnu") => {
            (format!("{machine}-linux-{library}-gcc"), Vec::new())
        }
        _ => ("clang".to_string(), vec![format!("--target={target}"), "-nostdlibinc".to_string()]),
    }
}

/// The Debian package that has a usual compiler, in words.
fn package(tool: &str) -> String {
    let package = match (tool, tool.strip_suffix("-gcc")) {
        ("cc", _) => "gcc".to_string(),
        (_, Some(machine)) if machine.contains("mingw") => "gcc-mingw-w64".to_string(),
        (_, Some(machine)) => format!("gcc-{}", machine.replace('_', "-")),
        _ => tool.to_string(),
    };
    format!(" (Debian's package {package})")
}

/// The compiler of the target, its flags, and what to do where it fails.
fn compiler() -> (Tool, Vec<String>, String) {
    let (target, (usual, mut flags)) = (told("TARGET"), usual());
    let archive = "or an archive for it by HANJOLUM_LIBRARY";
    let (tool, advice) = match named("CC") {
        Some((value, variable)) => {
            // A compiler that is named is of the target as it is named: gcc does not know clang's words.
            flags.retain(|flag| value.contains("clang") || flag.starts_with("-m") || flag.starts_with("-f"));
            let tool = Tool::of(&value, format!("the C compiler for {target} that {variable} names"));
            (tool, format!("name another by {variable}, {archive}"))
        }
        None => {
            let advice = format!("install it{}, or name a C compiler by CC_{target}, {archive}", package(&usual));
            (Tool::of(&usual, format!("the usual C compiler for {target}")), advice)
        }
    };
    if let Some((more, _)) = named("CFLAGS") {
        flags.extend(more.split_whitespace().map(String::from));
    }
    (tool, flags, advice)
}

/// The archiver beside a compiler: of aarch64-linux-gnu-gcc, aarch64-linux-gnu-ar; of clang for another machine, llvm-ar; else ar.
fn archiver(compiler: &Tool) -> (Tool, String) {
    let (target, host) = (told("TARGET"), told("HOST"));
    if let Some((value, variable)) = named("AR") {
        let tool = Tool::of(&value, format!("the archiver for {target} that {variable} names"));
        return (tool, format!("name another by {variable}"));
    }
    let program = compiler.words.last().map_or("", String::as_str);
    let usual = match program.strip_suffix("-gcc") {
        Some(machine) => format!("{machine}-ar"),
        None if program == "clang" && target != host && !host.contains("apple") => "llvm-ar".to_string(),
        None => "ar".to_string(),
    };
    let advice =
        format!("install it (Debian's package binutils, llvm for llvm-ar), or name an archiver by AR_{target}");
    (Tool::of(&usual, format!("the usual archiver for {target}")), advice)
}

/// The flags that every C compiler for the target is given. The C file is made fast also where the Rust is not: -O2, or -Os where
/// cargo asks for size.
fn flags() -> Vec<&'static str> {
    let (system, level) = (told("CARGO_CFG_TARGET_OS"), told("OPT_LEVEL"));
    let mut flags = vec!["-std=c11", if level == "s" || level == "z" { "-Os" } else { "-O2" }];
    flags.extend(["-ffunction-sections", "-fdata-sections"]);
    match system.as_str() {
        // No system, and perhaps no headers but the compiler's own.
        "none" | "unknown" => flags.push("-ffreestanding"),
        "windows" | "wasi" => {}
        _ => flags.push("-fPIC"),
    }
    flags
}

/// Compiles the crate's copy of the C file, and answers the folder of the archive that is made.
fn compiled() -> PathBuf {
    let (source, made) = (Path::new(&told("CARGO_MANIFEST_DIR")).join("c"), PathBuf::from(told("OUT_DIR")));
    for file in ["hanjolum.c", "hanjolum.h"] {
        let file = source.join(file);
        println!("cargo:rerun-if-changed={}", file.display());
        if !file.is_file() {
            fail(format!("{} is not there: tools/crate/copy puts it there", file.display()));
        }
    }
    let msvc = env::var("CARGO_CFG_TARGET_ENV").is_ok_and(|name| name == "msvc");
    let archive = made.join(if msvc { "hanjolum.lib" } else { "libhanjolum.a" });
    let (object, (compiler, more, advice)) = (made.join("hanjolum.o"), compiler());
    let mut words: Vec<String> = flags().into_iter().map(String::from).chain(more).collect();
    words.extend(["-c".to_string(), source.join("hanjolum.c").display().to_string()]);
    words.extend(["-o".to_string(), object.display().to_string()]);
    compiler.run(&words, &advice);
    // An archiver adds to what is there.
    let _ = fs::remove_file(&archive);
    let (archiver, advice) = archiver(&compiler);
    archiver.run(&[OsStr::new("crs"), archive.as_os_str(), object.as_os_str()], &advice);
    made
}

/// The machines that an ELF object can say it is for, by their numbers there and as cargo names them.
const MACHINES: [(u16, &str); 7] =
    [(3, "x86"), (22, "s390x"), (40, "arm"), (62, "x86_64"), (183, "aarch64"), (243, "riscv32"), (243, "riscv64")];

/// Fails where the first object of an archive is for another machine than the target: the linker would only pass it over.
fn judge_machine(archive: &Path, bytes: &[u8]) {
    let object = bytes.windows(4).position(|four| four == b"\x7fELF").map(|at| &bytes[at..]);
    let Some(&[low, high]) = object.and_then(|object| object.get(18..20)) else { return };
    let big = object.is_some_and(|object| object[5] == 2);
    let number = if big { u16::from_be_bytes([low, high]) } else { u16::from_le_bytes([low, high]) };
    let (named, target) = (archive.display(), told("CARGO_CFG_TARGET_ARCH"));
    let theirs: Vec<&str> = MACHINES.iter().filter(|(of, _)| *of == number).map(|(_, name)| *name).collect();
    if MACHINES.iter().any(|(_, name)| *name == target) && !theirs.is_empty() && !theirs.contains(&target.as_str()) {
        let theirs = theirs.join(" or ");
        fail(format!(
            "HANJOLUM_LIBRARY names {named}, which is for {theirs}, and the target is for {target}; unset it, and the C file is compiled"
        ));
    }
}

/// Judges the archive that is named, and answers its folder.
fn archived(named: &str) -> PathBuf {
    let archive = PathBuf::from(named);
    if archive.file_name().is_none_or(|name| name != "libhanjolum.a") {
        fail(format!("HANJOLUM_LIBRARY names {named}, and the archive's file is libhanjolum.a"));
    }
    let advice = "tools/proved/make hanjolum makes it; unset HANJOLUM_LIBRARY, and the C file is compiled";
    let whence = if archive.is_absolute() { "" } else { " from the crate's folder" };
    let archive = fs::canonicalize(&archive).unwrap_or_else(|error| {
        fail(format!("HANJOLUM_LIBRARY names {named}, which is not there{whence}: {error}; {advice}"))
    });
    let bytes = fs::read(&archive).unwrap_or_else(|error| {
        fail(format!("HANJOLUM_LIBRARY names {named}, which cannot be read: {error}; {advice}"))
    });
    if !bytes.starts_with(b"!<arch>\n") {
        fail(format!("HANJOLUM_LIBRARY names {named}, which is no archive; {advice}"));
    }
    judge_machine(&archive, &bytes);
    println!("cargo:rerun-if-changed={}", archive.display());
    archive.parent().expect("an archive stands in a folder").to_path_buf()
}

fn main() {
    println!("cargo:rerun-if-changed=build.rs");
    let (linked, folder) = match set("HANJOLUM_LIBRARY") {
        Some(named) => ("the archive", archived(&named)),
        None => ("the C file", compiled()),
    };
    println!("cargo:rustc-env=HANJOLUM_LINKED={linked}");
    println!("cargo:rustc-link-search=native={}", folder.display());
    println!("cargo:rustc-link-lib=static=hanjolum");
}
