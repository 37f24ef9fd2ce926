//! Runs in which the input comes in steps: a program must not wait for the next one before it has
//! answered those that came, and must take a line that comes in several as one.

use std::io::{Read, Write};
use std::path::Path;
use std::process::{Child, ChildStdin, ChildStdout, Output};
use std::sync::mpsc::{channel, Receiver, Sender};
use std::thread::{sleep, spawn};
use std::time::{Duration, Instant};

use super::block_inputs::{ending_at, BLOCKS};
use super::inputs::SHORT;
use super::record_inputs::{file_of, with_ends};
use super::several_inputs::with_empty_lines;
use super::{shortened, start, Program, Runs};
use super::{CHECK_SET, FILE_PROGRAMS, RECORDS_PROGRAM, WORDS_PROGRAM};

/// How long an answer may take before it counts as one that does not come.
const LIMIT: Duration = Duration::from_secs(20);

/// How long a program is given to read a part of a line, before the rest follows.
const PAUSE: Duration = Duration::from_millis(5);

/// The same for each of many parts.
const SHORT_PAUSE: Duration = Duration::from_micros(200);

/// The lengths of parts, in turn.
const PARTS: [usize; 7] = [1, 2, 3, 5, 8, 13, 21];

/// A program whose input stays open until it is closed here. Threads write and read, so that nothing
/// here waits without a limit.
struct Open {
    child: Child,
    input: Option<Sender<Vec<u8>>>,
    output: Receiver<Vec<u8>>,
    printed: Vec<u8>,
}

/// Writes what comes, as long as the program takes it. The input is closed when nothing more can come.
fn write_all(mut stdin: ChildStdin, texts: &Receiver<Vec<u8>>) {
    for text in texts {
        if stdin.write_all(&text).is_err() {
            return;
        }
    }
}

/// Hands on what the program prints, until its output ends.
fn read_all(mut stdout: ChildStdout, printed: &Sender<Vec<u8>>) {
    let mut buffer = [0; 4096];
    while let Ok(length @ 1..) = stdout.read(&mut buffer) {
        if printed.send(buffer[..length].to_vec()).is_err() {
            return;
        }
    }
}

impl Open {
    fn start(program: &Path) -> Open {
        let (mut child, stdin) = start(program);
        let stdout = child.stdout.take().expect("a pipe");
        let (input, texts) = channel();
        let (printed, output) = channel();
        spawn(move || write_all(stdin, &texts));
        spawn(move || read_all(stdout, &printed));
        Open {
            child,
            input: Some(input),
            output,
            printed: vec![],
        }
    }

    /// A program that has ended takes nothing more, which is no fault here.
    fn write(&mut self, text: &str) {
        if let Some(input) = &self.input {
            let _ = input.send(text.as_bytes().to_vec());
        }
    }

    fn close(&mut self) {
        self.input = None;
    }

    /// Waits until so many bytes are printed or the output ends. Returns whether one of the two came
    /// in time.
    fn wait_for(&mut self, length: usize) -> bool {
        let end = Instant::now() + LIMIT;
        while self.printed.len() < length {
            let left = end.saturating_duration_since(Instant::now());
            match self.output.recv_timeout(left) {
                Ok(text) => self.printed.extend(text),
                Err(error) => return error == std::sync::mpsc::RecvTimeoutError::Disconnected,
            }
        }
        true
    }

    /// Waits for the end of the output and of the program. Returns whether both came in time and the
    /// status is 0.
    fn wait_for_end(&mut self) -> bool {
        let end = Instant::now() + LIMIT;
        let mut in_time = self.wait_for(usize::MAX);
        while in_time {
            match self.child.try_wait() {
                Ok(Some(status)) => return status.success(),
                _ => sleep(SHORT_PAUSE),
            }
            in_time = Instant::now() < end;
        }
        false
    }

    /// Ends everything, the program, too, unless it has printed what it should, in time.
    fn expect(&mut self, name: &str, input: &str, expected: &str, in_time: bool) {
        if in_time && self.printed == expected.as_bytes() {
            return;
        }
        let _ = self.child.kill();
        let printed = String::from_utf8_lossy(&self.printed);
        println!("{name} on\n{}", shortened(input));
        println!("printed\n{}", shortened(&printed));
        println!("and not\n{}", shortened(expected));
        if !in_time {
            println!("and waits for more input, or did not end well");
        }
        std::process::exit(1);
    }
}

/// Runs a program with input that comes in small parts.
fn run_on_parts(program: &Path, input: &[u8]) -> Output {
    let (child, mut stdin) = start(program);
    let input = input.to_vec();
    let writer = spawn(move || {
        let mut rest = &input[..];
        for length in PARTS.into_iter().cycle() {
            let (part, behind) = rest.split_at(length.min(rest.len()));
            // A program may end before it has read all.
            if part.is_empty() || stdin.write_all(part).is_err() {
                return;
            }
            rest = behind;
            sleep(SHORT_PAUSE);
        }
    });
    let output = child.wait_with_output().expect("the program ends");
    writer.join().expect("the writer ends");
    output
}

impl Runs {
    pub fn stepwise(&mut self) {
        let sets = [0, 4, 2].map(|kind| self.any_set(kind).concat());
        self.sets_in_steps(&sets);
        self.words_in_steps(&sets[0]);
        for block in BLOCKS {
            self.steps_that_end_at(block);
        }
        self.ends_before_input(&sets);
        self.in_small_parts();
    }

    /// Writes the steps, and after each that ends a set or a word waits for what should be printed by
    /// then.
    fn in_steps(&mut self, (name, expected): Program, steps: &[&str]) {
        let mut open = Open::start(&self.program(name));
        let (mut input, mut text) = (String::new(), String::new());
        for step in steps {
            open.write(step);
            input += step;
            text = expected(input.as_bytes());
            if input.ends_with('\n') && !text.contains("UNFINISHED") {
                let in_time = open.wait_for(text.len());
                open.expect(name, &input, &text, in_time);
            } else {
                sleep(PAUSE);
            }
        }
        open.close();
        let in_time = open.wait_for_end();
        open.expect(name, &input, &text, in_time);
        self.count += 1;
        self.answers.note(name, &text);
    }

    /// What there is to print of a set is printed before more input is waited for.
    fn sets_in_steps(&mut self, [first, second, third]: &[String; 3]) {
        let (start, rest) = second.split_at(second.len() / 2);
        let last = third.len() - 1;
        let steps = [first, "\n", start, rest, "\n", "\n\n", &third[..last], "\n"];
        let both = [first, "\n", second, "\n"].concat();
        for program in FILE_PROGRAMS {
            self.in_steps(program, &steps);
            self.in_steps(program, &["\n", "\n", &both, third]);
        }
    }

    /// Words are answered one by one, also one that comes in two parts and several at once.
    fn words_in_steps(&mut self, set: &str) {
        let first = [set, "7\n"].concat();
        let steps = ["0\n", "1", "3\n", "1\n2\n3\n", "\n", "x\n", "4", "\n", "5"];
        let steps = [&[first.as_str()], &steps[..]].concat();
        self.in_steps(WORDS_PROGRAM, &steps);
        self.in_steps(WORDS_PROGRAM, &["\n\n", set, "7\n", "9999999999\n", "8\n"]);
    }

    /// A set or a word that ends about where a block does.
    fn steps_that_end_at(&mut self, block: usize) {
        let [first, second] = [(); 2].map(|()| self.set_of(&SHORT).concat());
        let word = [&first, "7\n"].concat();
        for end in block - 1..=block + 1 {
            self.in_steps(CHECK_SET, &[&ending_at(end, &first), "\n", &second]);
            self.in_steps(WORDS_PROGRAM, &[&ending_at(end, &word), "8\n", "9\n"]);
        }
    }

    /// Programs end at a line that is refused, and the one that reads records at the end record,
    /// though their input stays open.
    fn ends_before_input(&mut self, [first, second, _]: &[String; 3]) {
        let line = second.split_inclusive('\n').next().unwrap_or_default();
        for program in FILE_PROGRAMS {
            self.ends(program, "\n0\n");
            self.ends(program, &[first, line].concat());
            self.ends(program, &[first, "\n", line, "\n"].concat());
        }
        self.ends(WORDS_PROGRAM, "\n0\n");
        let tables = self.random.plausible(&SHORT);
        let records = with_ends(&file_of(&SHORT, &tables), "\n");
        self.ends(RECORDS_PROGRAM, &records);
        self.ends(RECORDS_PROGRAM, &[line, "\n"].concat());
    }

    fn ends(&mut self, (name, expected): Program, input: &str) {
        let mut open = Open::start(&self.program(name));
        open.write(input);
        let in_time = open.wait_for_end();
        let text = expected(input.as_bytes());
        open.expect(name, input, &text, in_time);
        self.count += 1;
        self.answers.note(name, &text);
    }

    /// Input that comes in small parts is the same as one that comes at once.
    fn in_small_parts(&mut self) {
        let sets = [(); 3].map(|()| self.set_of(&SHORT).concat());
        let file = with_empty_lines(&sets, [1, 2, 1]);
        for program in FILE_PROGRAMS {
            self.compare_run(run_on_parts, program, file.as_bytes());
        }
        let words = [&sets[0], "7\n12\n\n4294967296\n63\n0"].concat();
        self.compare_run(run_on_parts, WORDS_PROGRAM, words.as_bytes());
        let tables = self.random.plausible(&SHORT);
        let records = with_ends(&file_of(&SHORT, &tables), "\r\n");
        self.compare_run(run_on_parts, RECORDS_PROGRAM, records.as_bytes());
    }
}
