//! The C header: compiled as C and as C++ without a warning, its layout against the Rust side's, and C programs that call
//! the library through it.

use reference::interface::STRUCTS;
use std::fs;
use std::path::{Path, PathBuf};
use std::process::{Command, Output};

const PACKAGE: &str = env!("CARGO_MANIFEST_DIR");
const WARNINGS: [&str; 5] = ["-Wall", "-Wextra", "-Wconversion", "-Wpedantic", "-Werror"];

fn run(command: &mut Command) -> Output {
    command.output().unwrap_or_else(|error| panic!("{command:?}: {error}"))
}

fn expect_success(command: &mut Command) -> Output {
    let output = run(command);
    assert!(
        output.status.success(),
        "{command:?}: {}\n{}{}",
        output.status,
        String::from_utf8_lossy(&output.stdout),
        String::from_utf8_lossy(&output.stderr)
    );
    output
}

fn header() -> PathBuf {
    Path::new(PACKAGE).join("../include/tesolvagna.h")
}

#[derive(Clone, Copy)]
enum Language {
    C,
    Cxx,
}

impl Language {
    /// The compiler for the language, which is to warn.
    fn compiler(self) -> Command {
        let (program, arguments) = match self {
            Language::C => ("cc", ["-std=c99", "-x", "c"]),
            Language::Cxx => ("c++", ["-std=c++11", "-x", "c++"]),
        };
        let mut command = Command::new(program);
        command.args(arguments).args(WARNINGS).arg("-I").arg(header().parent().expect("a file stands in a folder"));
        command
    }

    /// Whether there is a C++ compiler; the gate needs none.
    fn is_here(self) -> bool {
        let here = matches!(self, Language::C) || Command::new("c++").arg("--version").output().is_ok();
        if !here {
            eprintln!("no c++ here: not tried as C++");
        }
        here
    }
}

/// Compiles one of the C programs with the library and runs it: its exit status says whether all answers are right. Gives
/// what it prints.
fn run_program(language: Language, name: &str) -> String {
    let suffix = if matches!(language, Language::C) { "c" } else { "cxx" };
    let program = Path::new(env!("CARGO_TARGET_TMPDIR")).join(format!("{name}_{suffix}"));
    expect_success(
        language
            .compiler()
            .arg(format!("{PACKAGE}/c/{name}.c"))
            .args(["-x", "none", env!("TESOLVAGNA_ARCHIVE"), "-o"])
            .arg(&program),
    );
    let output = expect_success(&mut Command::new(&program));
    String::from_utf8(output.stdout).expect("a program prints text")
}

#[test]
fn c_program_calls_the_library() {
    run_program(Language::C, "header");
}

#[test]
fn c_program_reads_and_writes_beacons() {
    run_program(Language::C, "beacons");
}

#[test]
fn c_program_reads_and_writes_acknowledgements() {
    run_program(Language::C, "acks");
}

#[test]
fn cxx_program_calls_the_library() {
    if Language::Cxx.is_here() {
        run_program(Language::Cxx, "header");
    }
}

/// The header alone, as the first that a program includes.
#[test]
fn header_is_c_and_cxx() {
    for language in [Language::C, Language::Cxx] {
        if language.is_here() {
            expect_success(language.compiler().arg("-fsyntax-only").arg(header()));
        }
    }
}

/// Name, offset and size of each field, as the Rust side has them, in the lines that `c/layout.c` prints.
fn layout() -> Vec<String> {
    let mut lines = Vec::new();
    for (name, size, fields) in STRUCTS {
        lines.push(format!("{name}  0 {size}"));
        lines.extend(fields.iter().map(|(field, offset, size)| format!("{name} {field} {offset} {size}")));
    }
    assert_eq!(STRUCTS.len(), 19);
    lines
}

/// The places and sizes of all fields are the same in C, in C++ and in Rust.
#[test]
fn layout_is_the_same() {
    for language in [Language::C, Language::Cxx] {
        if language.is_here() {
            let printed = run_program(language, "layout");
            assert_eq!(printed.lines().collect::<Vec<_>>(), layout());
        }
    }
}

/// The structs that the header declares, each with its fields in their order: none is left out on the Rust side.
#[test]
fn structs_are_those_of_the_header() {
    let text = fs::read_to_string(header()).expect("the header can be read");
    let mut declared: Vec<(String, Vec<String>)> = Vec::new();
    let mut inside = false;
    for line in text.lines().map(str::trim) {
        if let Some(name) = line.strip_prefix("struct tesolvagna_").and_then(|rest| rest.strip_suffix(" {")) {
            declared.push((name.into(), Vec::new()));
            inside = true;
        } else if line == "};" {
            inside = false;
        } else if let (true, Some(field)) = (inside, line.strip_suffix(';')) {
            let name = field.rsplit(' ').next().and_then(|name| name.split('[').next()).expect("a field has a name");
            declared.last_mut().expect("a struct was begun").1.push(name.into());
        }
    }
    let mirrored: Vec<(String, Vec<String>)> = STRUCTS
        .iter()
        .map(|(name, _, fields)| (name.to_string(), fields.iter().map(|(field, _, _)| field.to_string()).collect()))
        .collect();
    for found in &mirrored {
        assert!(declared.contains(found), "not in the header: {found:?}");
    }
    assert_eq!(declared.len(), mirrored.len());
}
