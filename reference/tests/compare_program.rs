//! The compare program, run on pairs of frames.

use reference::coverage::Counts;
use reference::fields::{compare, text, FIELDS, NAMES};
use reference::frame::{Address, Beacon, JoiningInformation, LONGEST_NETWORK_ID, TIMINGS};
use reference::pairs::{pair, Kind, PLACES};
use reference::parts::house_form;
use reference::program::{in_repository, terminal, Program};
use reference::random::Random;
use reference::slot::{Link, LARGEST_ASN, MOST_LINKS};
use reference::worked;
use reference::write::{FIRST_TIMINGS, LARGEST_FIRST_TIMING, LARGEST_LAST_TIMING};
use std::fs;
use std::io::{ErrorKind, Read};
use std::path::{Path, PathBuf};
use std::process::Stdio;
use std::thread::sleep;
use std::time::Duration;

const COMPARE: Program = Program {
    name: "compare",
    example: &["examples/joining.frame", "examples/bad.frame"],
    answer: "sequence-number 92 absent
timing-tx-offset 2120 2100
slotframe-size 101 11
link-count 2 1
link-1-timeslot 7 absent
link-1-channel-offset 2 absent
link-1-options 2 absent
joining-p 1 0
proxy-address extended:020000fffe000001 absent
network-id 8:73747564696f2d31 8:73747564696f2d32
",
};

/// Two files of one test, to be written again for each pair.
struct Files(PathBuf, PathBuf);

impl Files {
    fn of(test: &str) -> Files {
        let file = |name| Path::new(env!("CARGO_TARGET_TMPDIR")).join(format!("{test}_{name}.frame"));
        Files(file("good"), file("bad"))
    }

    /// Runs the program on a pair: both from files, and each of them from standard input.
    fn run(&self, first: &[u8], second: &[u8]) -> [String; 3] {
        fs::write(&self.0, first).expect("a file can be written");
        fs::write(&self.1, second).expect("a file can be written");
        let input = Path::new("-");
        [
            COMPARE.run_with(&[&self.0, &self.1], &[]),
            COMPARE.run_with(&[input, &self.1], &[first]),
            COMPARE.run_with(&[&self.0, input], &[second]),
        ]
    }
}

/// Panics unless the program prints the reference's text for a pair, which is given back.
fn expect(files: &Files, first: &[u8], second: &[u8]) -> String {
    let expected = text(&compare(first, second));
    for printed in files.run(first, second) {
        assert_eq!(printed, expected, "{first:02X?} {second:02X?}");
    }
    expected
}

#[test]
fn pairs_of_every_kind() {
    let mut random = Random::new(0xC0);
    let files = Files::of("pairs");
    let (mut tried, mut longest) = (0, 0);
    let (mut names, mut answers) = (Counts::default(), Counts::default());
    for kind in Kind::ALL {
        for turn in 0..if kind == Kind::OneChange { 2 * PLACES } else { 60 } {
            let (first, second) = pair(&mut random, kind, turn);
            let printed = expect(&files, &first, &second);
            for line in printed.lines().filter(|line| !line.starts_with("refused ")) {
                names.add(line.split(' ').next().unwrap_or_default());
            }
            answers.add(match printed.split(' ').next().unwrap_or_default() {
                "refused" => "a refusal",
                "" => "nothing",
                _ => "fields",
            });
            longest = longest.max(printed.len());
            tried += 1;
        }
    }
    println!("{tried} pairs, longest text {longest} bytes");
    assert_eq!(tried, 6 * 60 + 2 * PLACES);
    assert!(longest >= 1800, "{longest} bytes");
    names.expect("fields that are printed", 1, &NAMES);
    answers.expect("what is printed", 60, &["a refusal", "nothing", "fields"]);
}

/// Each worked frame beside the minimal beacon, on both sides.
#[test]
fn the_worked_frames() {
    let files = Files::of("worked");
    let minimal = worked::bytes(worked::MINIMAL);
    let frames = worked::frames();
    assert!(frames.len() > 100, "{} frames", frames.len());
    for worked in frames {
        expect(&files, &minimal, &worked.frame);
        expect(&files, &worked.frame, &minimal);
    }
}

/// All fields differ: one frame has sixteen links, the other timings and joining information.
#[test]
fn all_fields_differ() {
    let first = Beacon {
        sequence: Some(255),
        pan: 65535,
        source: Address::Extended(u64::MAX),
        asn: LARGEST_ASN,
        join_metric: 255,
        template: 0,
        timings: None,
        hopping: 255,
        handle: 255,
        size: 65535,
        count: MOST_LINKS,
        links: [Link { timeslot: 65534, offset: 65535, options: 255 }; MOST_LINKS],
        joining: None,
    };
    let mut links = [Link::default(); MOST_LINKS];
    links[0] = Link { timeslot: 65533, offset: 65534, options: 254 };
    let mut timings = [LARGEST_LAST_TIMING; TIMINGS];
    timings[..FIRST_TIMINGS].fill(LARGEST_FIRST_TIMING);
    let second = Beacon {
        sequence: None,
        pan: 65534,
        source: Address::Extended(u64::MAX - 1),
        asn: LARGEST_ASN - 1,
        join_metric: 254,
        template: 255,
        timings: Some(timings),
        hopping: 254,
        handle: 254,
        size: 65534,
        count: 1,
        links,
        joining: Some(JoiningInformation {
            router: true,
            proxy: Some(u64::MAX),
            proxy_priority: 127,
            rank_priority: 4095,
            pan_priority: 255,
            network: [0xFF; LONGEST_NETWORK_ID],
            network_length: LONGEST_NETWORK_ID,
        }),
    };
    let printed = expect(&Files::of("all"), &house_form(&first).bytes(), &house_form(&second).bytes());
    assert_eq!(printed.lines().count(), FIELDS);
    println!("{} bytes", printed.len());
}

#[test]
fn lengths_around_the_longest_frame() {
    let files = Files::of("lengths");
    let minimal = worked::bytes(worked::MINIMAL);
    let mut long = minimal.clone();
    // The payload list ends; what follows does not matter.
    long.extend([0x00, 0xF8]);
    long.resize(100_000, 0xA5);
    assert_eq!(files.run(&minimal, &long[..125]), [""; 3]);
    for length in [126, 127, 300, 100_000] {
        assert_eq!(files.run(&minimal, &long[..length]), ["refused 0 1\n"; 3], "{length} bytes");
        assert_eq!(files.run(&long[..length], &minimal), ["refused 1 0\n"; 3], "{length} bytes");
        assert_eq!(files.run(&long[..length], &long[..length]), ["refused 1 1\n"; 3], "{length} bytes");
    }
}

#[test]
fn input_that_comes_in_pieces() {
    let [first, second] = &COMPARE.files()[..] else { panic!("two files") };
    let good = fs::read(first).expect("the first example is there");
    let mut long = good.clone();
    long.resize(126, 0);
    let input = Path::new("-");
    for at in [1, 10, 98] {
        let (start, end) = good.split_at(at);
        assert_eq!(COMPARE.run_with(&[input, second], &[start, end]), COMPARE.answer, "in two at {at}");
        assert_eq!(COMPARE.run_with(&[first, input], &[start, end]), "", "in two at {at}");
    }
    assert_eq!(COMPARE.run_with(&[input, second], &[&long[..125], &long[125..]]), "refused 1 0\n");
    assert_eq!(COMPARE.run_with(&[first, input], &[&long[..125], &long[125..]]), "refused 0 1\n");
}

/// What the gate runs the program on is the example, and so is what it is to print.
#[test]
fn the_gate_runs_the_example() {
    let [first, second] = &COMPARE.files()[..] else { panic!("two files") };
    let of_the_gate = |name: &str| fs::read(in_repository("crates/compare").join(name)).expect("the file is there");
    assert_eq!(of_the_gate("args"), b"good.frame\nbad.frame\n");
    assert_eq!(of_the_gate("data/good.frame"), fs::read(first).expect("the first example is there"));
    assert_eq!(of_the_gate("data/bad.frame"), fs::read(second).expect("the second example is there"));
    assert_eq!(of_the_gate("stdout"), COMPARE.answer.as_bytes());
}

/// Equal records have no answer, and nothing is told where nobody looks.
#[test]
fn equal_records() {
    for file in COMPARE.files() {
        assert_eq!(COMPARE.called(&[&file, &file], Stdio::null()), (String::new(), String::new()));
        assert_eq!(COMPARE.told_without_output(&[&file, &file]), ["", ""]);
    }
}

/// At a terminal they are told.
#[test]
fn equal_records_at_a_terminal() {
    let told_at_terminal = |arguments: &[&Path]| {
        let mut terminal = terminal();
        let errors = terminal.try_clone().expect("a terminal can be handed over");
        let output = COMPARE.command(arguments).stderr(errors).output().expect("the program runs");
        assert!(output.status.success(), "{:?}", output.status);
        let mut told = [0; 100];
        for _ in 0..20 {
            match terminal.read(&mut told) {
                Ok(length) => return (output.stdout, String::from_utf8_lossy(&told[..length]).into_owned()),
                // The echo may come late, or never.
                Err(error) => assert_eq!(error.kind(), ErrorKind::WouldBlock),
            }
            sleep(Duration::from_millis(20));
        }
        (output.stdout, String::new())
    };
    let [first, second] = &COMPARE.files()[..] else { panic!("two files") };
    assert_eq!(told_at_terminal(&[first, first]), (Vec::new(), "compare: equal\r\n".into()));
    assert_eq!(told_at_terminal(&[first, second]), (COMPARE.answer.into(), String::new()));
    let null = Path::new("/dev/null");
    assert_eq!(told_at_terminal(&[null, null]), ("refused 2 2\n".into(), String::new()));
}

#[test]
fn a_wrong_number_of_arguments() {
    for arguments in [&[][..], &["/"], &["--help"], &["-"], &["/", "/", "/"], &["-h", "-", "-"], &["-"; 12]] {
        let what = format!("arguments: {}, where 2 are needed", arguments.len());
        assert_eq!(COMPARE.complaint(arguments, Stdio::null()), COMPARE.told_with_usage(&what));
    }
}

/// They are looked at before any file is read: those named here cannot be.
#[test]
fn unknown_arguments() {
    for name in ["-h", "--help", "--version", "--", "-x.frame"] {
        let told = COMPARE.told_with_usage(&format!("{name}: unknown argument"));
        for arguments in [[name, "/"], ["/", name], [name, "-"], ["-", name], [name, "-y"]] {
            assert_eq!(COMPARE.complaint(&arguments, Stdio::null()), told);
        }
    }
}

#[test]
fn standard_input_for_both() {
    let told = COMPARE.told_with_usage("-: standard input is one frame");
    assert_eq!(COMPARE.complaint(&["-", "-"], Stdio::null()), told);
}

/// Of two files that cannot be read the first is told.
#[test]
fn the_first_file_that_cannot_be_read() {
    let told = COMPARE.told("/no/such.frame: No such file or directory");
    for second in ["/", "/no/other.frame", "-"] {
        assert_eq!(COMPARE.complaint(&["/no/such.frame", second], Stdio::null()), told);
    }
}

/// The reference prints what is written here for the example.
#[test]
fn the_example() {
    let frames = COMPARE.files().into_iter().map(|file| fs::read(file).expect("the example is there"));
    let [first, second] = &frames.collect::<Vec<_>>()[..] else { panic!("two files") };
    assert_eq!(text(&compare(first, second)), COMPARE.answer);
}

#[test]
fn the_example_as_text() {
    COMPARE.has_its_example_as_text();
}

#[test]
fn files_by_name() {
    COMPARE.reads_files_by_name();
}

#[test]
fn files_that_cannot_be_read() {
    COMPARE.tells_which_file_cannot_be_read();
}

#[test]
fn standard_input_that_cannot_be_read() {
    COMPARE.tells_that_standard_input_cannot_be_read();
}

#[test]
fn a_terminal() {
    COMPARE.hints_at_a_terminal();
}

#[test]
fn output_that_cannot_be_written() {
    COMPARE.tells_that_standard_output_cannot_be_written();
}
