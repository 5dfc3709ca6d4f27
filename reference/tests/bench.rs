//! The bench program, run on beacons, and the examples of the programs' document.

use reference::frame;
use reference::program::{in_repository, Program};
use reference::worked;
use std::process::Command;

const BENCH: Program =
    Program { name: "bench", example: &["examples/minimal.frame"], answer: "asn 256 metric 2 size 11 links 1\n" };

/// The line that the reference gives.
fn line(frame: &[u8]) -> String {
    match frame::read(frame) {
        Ok(beacon) => {
            format!("asn {} metric {} size {} links {}\n", beacon.asn, beacon.join_metric, beacon.size, beacon.count)
        }
        Err(check) => format!("refused {}\n", check.number()),
    }
}

#[test]
fn the_worked_frames() {
    let frames = worked::frames();
    assert!(frames.len() > 100, "{} frames", frames.len());
    for worked in frames {
        assert_eq!(BENCH.run(&[&worked.frame]), line(&worked.frame), "{}", worked.name);
    }
}

#[test]
fn every_cut_of_a_beacon() {
    let minimal = worked::bytes(worked::MINIMAL);
    assert_eq!(BENCH.run(&[&minimal]), BENCH.answer);
    for length in 0..minimal.len() {
        assert_eq!(BENCH.run(&[&minimal[..length]]), line(&minimal[..length]), "{length} bytes");
    }
}

#[test]
fn lengths_around_the_longest_frame() {
    let mut long = worked::bytes(worked::MINIMAL);
    // The payload list ends; what follows does not matter.
    long.extend([0x00, 0xF8]);
    long.resize(100_000, 0xA5);
    assert_eq!(BENCH.run(&[&long[..125]]), BENCH.answer);
    for length in [126, 127, 300, 100_000] {
        assert_eq!(BENCH.run(&[&long[..length]]), "refused 1\n", "{length} bytes");
    }
}

#[test]
fn input_that_comes_in_pieces() {
    let minimal = worked::bytes(worked::MINIMAL);
    for at in [1, 10, 37] {
        let (first, second) = minimal.split_at(at);
        assert_eq!(BENCH.run(&[first, second]), BENCH.answer, "in two at {at}");
    }
    let mut long = minimal.clone();
    long.resize(126, 0);
    assert_eq!(BENCH.run(&[&long[..125], &long[125..]]), "refused 1\n");
}

#[test]
fn the_example_as_text() {
    BENCH.has_its_example_as_text();
}

#[test]
fn a_file_by_name() {
    BENCH.reads_files_by_name();
}

#[test]
fn files_that_cannot_be_read() {
    BENCH.tells_which_file_cannot_be_read();
}

#[test]
fn unknown_arguments() {
    BENCH.tells_unknown_arguments();
}

#[test]
fn standard_input_that_cannot_be_read() {
    BENCH.tells_that_standard_input_cannot_be_read();
}

#[test]
fn a_terminal() {
    BENCH.hints_at_a_terminal();
}

#[test]
fn output_that_cannot_be_written() {
    BENCH.tells_that_standard_output_cannot_be_written();
}

/// The examples of docs/PROGRAMS.md: behind `$` a command, and under it what it prints.
#[test]
fn the_examples_of_the_document() {
    let document = std::fs::read_to_string(in_repository("docs/PROGRAMS.md")).expect("the document is there");
    let mut lines = document.lines().peekable();
    let mut tried = 0;
    while let Some(line) = lines.next() {
        let Some(command) = line.strip_prefix("    $ ") else { continue };
        let mut expected = String::new();
        while let Some(printed) = lines.next_if(|line| line.starts_with("    ") && !line.starts_with("    $ ")) {
            expected += printed.trim_start();
            expected.push('\n');
        }
        let output = Command::new("sh")
            .args(["-c", &format!("{{ {command}; }} 2>&1")])
            .current_dir(in_repository("."))
            .output()
            .expect("the shell runs");
        assert_eq!(String::from_utf8_lossy(&output.stdout), expected, "{command}");
        tried += 1;
    }
    assert!(tried >= 14, "{tried} commands");
}
