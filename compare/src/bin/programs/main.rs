//! Runs the programs on good and damaged input and compares what they print with what the
//! reference says they should. Its argument is the directory of the crates.

mod answers;
mod block_inputs;
mod expected;
#[cfg(test)]
mod expected_tests;
mod inputs;
mod record_inputs;
mod several_inputs;
mod stepwise;
mod width_inputs;

use std::fs::File;
use std::io::{Seek, Write};
use std::path::{Path, PathBuf};
use std::process::{Child, ChildStdin, Command, ExitCode, Output, Stdio};

use answers::Answers;
use compare::random::Random;

/// A program by its name, and what it should print for an input.
type Program = (&'static str, fn(&[u8]) -> String);

/// A way to run a program on an input.
type Run = fn(&Path, &[u8]) -> Output;

/// The programs that read a line, those that go through a file of sets, the one that reads a set and
/// words, the one that reads records, and the one that reads a kind and two widths.
const LINE_PROGRAMS: [Program; 2] = [
    ("report", expected::report),
    ("make_set", expected::make_set),
];
const CHECK_SET: Program = ("check_set", expected::check_set);
const SET_TO_HEX: Program = ("set_to_hex", expected::set_to_hex);
const FILE_PROGRAMS: [Program; 3] = [CHECK_SET, ("count_set", expected::count_set), SET_TO_HEX];
const WORDS_PROGRAM: Program = ("evaluate_set", expected::evaluate_set);
const RECORDS_PROGRAM: Program = ("hex_to_set", expected::hex_to_set);
const WIDTHS_PROGRAM: Program = ("smallest_design", expected::smallest_design);

struct Runs {
    directory: PathBuf,
    random: Random,
    count: usize,
    answers: Answers,
}

impl Runs {
    fn new(directory: PathBuf) -> Runs {
        Runs {
            directory,
            random: Random::new(1),
            count: 0,
            answers: Answers::default(),
        }
    }

    /// The programs that are not there.
    fn missing(&self) -> Vec<&'static str> {
        let programs = LINE_PROGRAMS.iter().chain(&FILE_PROGRAMS);
        let programs = programs.chain([&WORDS_PROGRAM, &RECORDS_PROGRAM, &WIDTHS_PROGRAM]);
        programs
            .map(|program| program.0)
            .filter(|name| !self.program(name).is_file())
            .collect()
    }

    /// Where a program stands when it has been built.
    fn program(&self, name: &str) -> PathBuf {
        self.directory.join(name).join("out").join(name)
    }

    /// Every program on the same input.
    fn all(&mut self, input: &[u8]) {
        self.line(input);
        self.set(input);
        self.records(input);
        self.widths(input);
    }

    /// The programs that read a line.
    fn line(&mut self, input: &[u8]) {
        for program in LINE_PROGRAMS {
            self.compare(program, input);
        }
    }

    /// The programs that read sets, or one and words.
    fn set(&mut self, input: &[u8]) {
        self.every_set(input);
        self.words(input);
    }

    /// The programs that go through a file of sets.
    fn every_set(&mut self, input: &[u8]) {
        for program in FILE_PROGRAMS {
            self.compare(program, input);
        }
    }

    /// The program that reads a set and words.
    fn words(&mut self, input: &[u8]) {
        self.compare(WORDS_PROGRAM, input);
    }

    /// The program that reads records.
    fn records(&mut self, input: &[u8]) {
        self.compare(RECORDS_PROGRAM, input);
    }

    /// The program that reads a kind and two widths.
    fn widths(&mut self, input: &[u8]) {
        self.compare(WIDTHS_PROGRAM, input);
    }

    /// Returns what the program prints, and ends everything at a difference. A program ends with
    /// status 0 whatever it prints.
    fn compare(&mut self, program: Program, input: &[u8]) -> String {
        self.compare_run(run, program, input)
    }

    fn compare_run(&mut self, run: Run, (name, expected): Program, input: &[u8]) -> String {
        let output = run(&self.program(name), input);
        let expected = expected(input);
        if output.stdout != expected.as_bytes() || !output.status.success() {
            print_difference(name, input, &output, &expected);
            std::process::exit(1);
        }
        self.count += 1;
        self.answers.note(name, &expected);
        expected
    }

    /// Ends everything if a program does not read exactly what it is asked to.
    fn reads_only(&mut self, name: &str, asked: &str, behind: &str) {
        let input = [asked, behind].concat();
        let read = bytes_read(&self.program(name), input.as_bytes());
        let read = read.unwrap_or_else(|error| panic!("{name} on a file: {error}"));
        if read != asked.len() as u64 {
            let input = shortened(&input);
            println!(
                "{name} on\n{input}\nread {read} bytes and not {}",
                asked.len()
            );
            std::process::exit(1);
        }
        self.count += 1;
    }
}

/// Starts a program with pipes for its input, which is returned beside it, and its output.
fn start(program: &Path) -> (Child, ChildStdin) {
    let mut child = Command::new(program)
        .stdin(Stdio::piped())
        .stdout(Stdio::piped())
        .spawn()
        .unwrap_or_else(|error| panic!("{} does not start: {error}", program.display()));
    let stdin = child.stdin.take().expect("a pipe");
    (child, stdin)
}

fn run(program: &Path, input: &[u8]) -> Output {
    let (child, mut stdin) = start(program);
    let input = input.to_vec();
    // A program may end before it has read all, and then the rest cannot be written.
    let writer = std::thread::spawn(move || {
        let _ = stdin.write_all(&input);
    });
    let output = child.wait_with_output().expect("the program ends");
    writer.join().expect("the writer ends");
    output
}

/// A file with an input, which has no name any more.
fn file_with(input: &[u8]) -> std::io::Result<File> {
    let path = std::env::temp_dir().join(format!("programs-{}", std::process::id()));
    std::fs::write(&path, input)?;
    let file = File::open(&path);
    std::fs::remove_file(&path)?;
    file
}

/// Runs a program on a file, of which it always gets as many bytes as it asks for while there are
/// some. A pipe may give fewer.
fn run_on_file(program: &Path, input: &[u8]) -> Output {
    let output = file_with(input).and_then(|file| {
        Command::new(program)
            .stdin(file)
            .stderr(Stdio::inherit())
            .output()
    });
    output.unwrap_or_else(|error| panic!("{} on a file: {error}", program.display()))
}

/// How much of an input a program reads. The program shares its place in the file.
fn bytes_read(program: &Path, input: &[u8]) -> std::io::Result<u64> {
    let mut file = file_with(input)?;
    Command::new(program)
        .stdin(file.try_clone()?)
        .stdout(Stdio::null())
        .status()?;
    file.stream_position()
}

fn print_difference(name: &str, input: &[u8], output: &Output, expected: &str) {
    let printed = String::from_utf8_lossy(&output.stdout);
    println!("{name} on\n{}", shortened(&String::from_utf8_lossy(input)));
    println!("printed\n{}", shortened(&printed));
    println!("and not\n{}", shortened(expected));
    let same = printed
        .lines()
        .zip(expected.lines())
        .take_while(|(left, right)| left == right);
    println!("{} lines are the same; {}", same.count(), output.status);
}

/// The start of a text that has many lines, and of each line that has many characters.
fn shortened(text: &str) -> String {
    let (lines, length) = (text.lines().count(), 100);
    let shown = if lines > 1000 { 5 } else { lines };
    let mut start: Vec<String> = text.lines().take(shown).map(str::to_string).collect();
    for line in &mut start {
        let characters = line.chars().count();
        if characters > length {
            let kept: String = line.chars().take(length).collect();
            *line = format!("{kept}... {characters} characters");
        }
    }
    if shown < lines {
        start.push(format!("... {lines} lines"));
    }
    start.join("\n")
}

fn main() -> ExitCode {
    let Some(directory) = std::env::args().nth(1) else {
        println!("usage: programs DIRECTORY");
        return ExitCode::FAILURE;
    };
    let mut runs = Runs::new(directory.into());
    let missing = runs.missing();
    if !missing.is_empty() {
        let (names, directory) = (missing.join(" "), runs.directory.display());
        println!("not built in {directory}: {names}; 'rt run' in the folder of each builds it");
        return ExitCode::FAILURE;
    }
    runs.inputs();
    runs.answers.print();
    let missing = runs.answers.missing();
    for missing in &missing {
        println!("did not come up: {missing}");
    }
    if !missing.is_empty() {
        return ExitCode::FAILURE;
    }
    println!("programs: {} runs, no difference", runs.count);
    ExitCode::SUCCESS
}
