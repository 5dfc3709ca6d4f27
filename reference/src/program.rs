//! The programs, run as a technician runs them: frames on standard input or in files, answers on standard output, and on
//! standard error what is not about a frame. What holds of every such program is tried here for each.

use crate::worked;
use std::ffi::OsStr;
use std::fs::{File, OpenOptions};
use std::io::Write;
use std::os::unix::fs::OpenOptionsExt;
use std::path::PathBuf;
use std::process::{Command, Stdio};
use std::thread::sleep;
use std::time::Duration;

/// A file of the repository.
pub fn in_repository(name: &str) -> PathBuf {
    PathBuf::from(env!("CARGO_MANIFEST_DIR")).join("..").join(name)
}

/// A program by its name, with an example: a file for each of its frames, and its answer.
pub struct Program {
    pub name: &'static str,
    pub example: &'static [&'static str],
    pub answer: &'static str,
}

impl Program {
    fn path(&self) -> PathBuf {
        in_repository("target/bin").join(self.name)
    }

    /// The program with arguments, to be run.
    pub fn command(&self, arguments: &[impl AsRef<OsStr>]) -> Command {
        let mut command = Command::new(self.path());
        command.args(arguments);
        command
    }

    /// What the program prints for its input, which is handed over in pieces. Standard error stays empty.
    pub fn run(&self, pieces: &[&[u8]]) -> String {
        self.run_with(&[""; 0], pieces)
    }

    /// The same with arguments.
    pub fn run_with(&self, arguments: &[impl AsRef<OsStr>], pieces: &[&[u8]]) -> String {
        let mut child = self
            .command(arguments)
            .stdin(Stdio::piped())
            .stdout(Stdio::piped())
            .stderr(Stdio::piped())
            .spawn()
            .unwrap_or_else(|error| panic!("{}: {error}", self.path().display()));
        let mut input = child.stdin.take().expect("the input is a pipe");
        for (place, piece) in pieces.iter().enumerate() {
            if place > 0 {
                sleep(Duration::from_millis(30));
            }
            // The program may have seen enough and be gone: a long input is then cut off here.
            let _ = input.write_all(piece);
        }
        drop(input);
        let output = child.wait_with_output().expect("the program ends");
        assert!(output.status.success(), "{:?}", output.status);
        assert_eq!(String::from_utf8_lossy(&output.stderr), "");
        String::from_utf8(output.stdout).expect("the answer is text")
    }

    /// What the program prints on standard output and on standard error for its arguments and its standard input.
    pub fn called(&self, arguments: &[impl AsRef<OsStr>], input: Stdio) -> (String, String) {
        texts(self.command(arguments).stdin(input))
    }

    /// What it prints where it has no answer.
    pub fn complaint(&self, arguments: &[impl AsRef<OsStr>], input: Stdio) -> String {
        let (answer, told) = self.called(arguments, input);
        assert_eq!(answer, "", "{told}");
        told
    }

    /// What it prints on standard error where standard output cannot be written: it is full, and it is closed.
    pub fn told_without_output(&self, arguments: &[impl AsRef<OsStr>]) -> [String; 2] {
        let full = OpenOptions::new().write(true).open("/dev/full").expect("the full device opens");
        let (_, when_full) = texts(self.command(arguments).stdout(full));
        let (answer, when_closed) = texts(self.by_shell(">&-").args(arguments));
        assert_eq!(answer, "");
        [when_full, when_closed]
    }

    /// The program as a shell runs it, with a redirection; arguments are to be added.
    fn by_shell(&self, redirection: &str) -> Command {
        let mut command = Command::new("sh");
        command.args(["-c", &format!("exec \"$0\" \"$@\" {redirection}")]).arg(self.path());
        command
    }

    /// A line that it tells, with its name in front.
    pub fn told(&self, what: &str) -> String {
        format!("{}: {what}\n", self.name)
    }

    /// What it tells of arguments that it cannot take: a line, and how it is called.
    pub fn told_with_usage(&self, what: &str) -> String {
        let usage = match self.example {
            [_] => "[FILE]; without FILE the frame comes from standard input",
            _ => "GOOD BAD; - for one of them is standard input",
        };
        format!("{}usage: {} {usage}\n", self.told(what), self.name)
    }

    /// The example's files.
    pub fn files(&self) -> Vec<PathBuf> {
        self.example.iter().map(|file| in_repository(file)).collect()
    }

    /// The same with another argument in each place.
    pub fn with_other(&self, argument: &str) -> Vec<Vec<PathBuf>> {
        let with_other = |place| {
            let mut arguments = self.files();
            arguments[place] = argument.into();
            arguments
        };
        (0..self.example.len()).map(with_other).collect()
    }

    /// The arguments with which a frame comes from standard input.
    fn with_input(&self) -> Vec<Vec<PathBuf>> {
        match self.example {
            [_] => vec![Vec::new()],
            _ => self.with_other("-"),
        }
    }

    /// Beside the example stands a text that has it field by field: place, bytes, meaning.
    pub fn has_its_example_as_text(&self) {
        for file in self.files() {
            let frame = std::fs::read(&file).expect("the example is there");
            let text = std::fs::read_to_string(file.with_extension("txt")).expect("its text is there");
            let mut bytes = Vec::new();
            for line in text.lines().filter(|line| !line.starts_with('#')) {
                let (place, field) = line.split_once(' ').expect("a line has a place and a field");
                assert_eq!(place.parse(), Ok(bytes.len()), "{line}");
                bytes.extend(worked::bytes(field));
            }
            assert_eq!(bytes, frame);
        }
    }

    pub fn reads_files_by_name(&self) {
        let answer_alone = (self.answer.to_string(), String::new());
        assert_eq!(self.called(&self.files(), Stdio::null()), answer_alone);
        // Nothing is read from standard input then.
        assert_eq!(self.called(&self.files(), File::open("/").expect("a folder opens").into()), answer_alone);
        // An input of no bytes is a frame of no bytes. One without an end is refused for its length.
        for (file, number) in [("/dev/null", " 2"), ("/dev/zero", " 1")] {
            let refused = format!("refused{}\n", number.repeat(self.example.len()));
            assert_eq!(self.called(&vec![file; self.example.len()], Stdio::null()), (refused, String::new()));
        }
    }

    pub fn tells_which_file_cannot_be_read(&self) {
        let long = "a".repeat(4096);
        for (name, what) in [
            ("/no/such.frame", "/no/such.frame: No such file or directory"),
            ("", ": No such file or directory"),
            ("/", "/: Is a directory"),
            (&long, &format!("{long}: File name too long")),
            (&"a".repeat(4097), "argument: File name too long"),
        ] {
            for arguments in self.with_other(name) {
                assert_eq!(self.complaint(&arguments, Stdio::null()), self.told(what));
            }
        }
    }

    /// Of a program that takes one frame.
    pub fn tells_unknown_arguments(&self) {
        let file = in_repository(self.example[0]);
        let unknown = |name: &str| self.told_with_usage(&format!("{name}: unknown argument"));
        for name in ["-", "-h", "--help", "--version"] {
            assert_eq!(self.complaint(&[name], Stdio::null()), unknown(name));
            assert_eq!(self.complaint(&[file.as_os_str(), name.as_ref()], Stdio::null()), unknown(name));
        }
        assert_eq!(self.complaint(&[file.as_os_str(), "b.frame".as_ref()], Stdio::null()), unknown("b.frame"));
    }

    pub fn tells_that_standard_input_cannot_be_read(&self) {
        for arguments in self.with_input() {
            let folder = File::open("/").expect("a folder opens");
            assert_eq!(self.complaint(&arguments, folder.into()), self.told("standard input: Is a directory"));
            let (answer, told) = texts(self.by_shell("<&-").args(&arguments));
            assert_eq!((answer, told), (String::new(), self.told("standard input: Bad file descriptor")));
        }
    }

    /// A terminal gets a hint. This one has nothing to read, so that a read fails.
    pub fn hints_at_a_terminal(&self) {
        let way = match self.example {
            [_] => format!(": {name} FILE, or {name} <FILE", name = self.name),
            _ => String::new(),
        };
        let hint = format!("standard input: a terminal; a frame is raw bytes{way}");
        let failed = "standard input: Resource temporarily unavailable";
        for arguments in self.with_input() {
            let told = self.complaint(&arguments, terminal().into());
            assert_eq!(told, self.told(&hint) + &self.told(failed));
        }
    }

    pub fn tells_that_standard_output_cannot_be_written(&self) {
        let reasons = ["No space left on device", "Bad file descriptor"];
        let told = reasons.map(|reason| self.told(&format!("standard output: {reason}")));
        assert_eq!(self.told_without_output(&self.files()), told);
    }
}

/// What a command prints on standard output and on standard error.
fn texts(command: &mut Command) -> (String, String) {
    let output = command.output().unwrap_or_else(|error| panic!("{command:?}: {error}"));
    assert!(output.status.success(), "{command:?}: {}", output.status);
    let text = |bytes| String::from_utf8(bytes).expect("what is printed is text");
    (text(output.stdout), text(output.stderr))
}

/// A terminal that does not wait where there is nothing to read (Linux's O_NONBLOCK and O_NOCTTY). What is written to it
/// comes back as its echo, with a carriage return before each newline.
pub fn terminal() -> File {
    let mut options = OpenOptions::new();
    options.read(true).write(true).custom_flags(0o4000 | 0o400).open("/dev/ptmx").expect("a terminal opens")
}
