//! Compares the proved library with the reference: made-up files, sheets and buffers go to both,
//! and every number, place, count and byte is compared. Exits with 1 if anything differs or comes
//! up too seldom.
//!
//! `differential [--count N] [--seed S] [--only I] [--plant [two-states | no-empty-set | rounds]]`

#![forbid(unsafe_code)]

mod desks;
mod fields;
mod files;
mod lent;
mod random;
mod sheets;
mod tally;

use desks::{Call, Plant, Reference, CALLS, SUBJECT};
use lent::Lent;
use random::Random;
use std::process::ExitCode;
use std::time::{Duration, Instant, SystemTime, UNIX_EPOCH};
use tally::Tally;

/// Differences beyond so many are counted but not shown.
const SHOWN: usize = 5;

/// What the command line asks for.
struct Options {
    count: u64,
    seed: u64,
    /// One input of the run, to look at a difference again.
    only: Option<u64>,
    plant: Option<Plant>,
}

impl Options {
    fn read(arguments: impl Iterator<Item = String>) -> Result<Options, String> {
        let now = SystemTime::now().duration_since(UNIX_EPOCH);
        let mut options = Options {
            count: 20_000,
            seed: now.map_or(1, |time| time.as_secs()),
            only: None,
            plant: None,
        };
        let mut arguments = arguments.peekable();
        while let Some(argument) = arguments.next() {
            if argument == "--plant" {
                let name = arguments.next_if(|next| !next.starts_with("--"));
                let name = name.unwrap_or_else(|| "two-states".into());
                let plant = Plant::named(&name).ok_or(format!("no fault is called {name}"))?;
                options.plant = Some(plant);
                continue;
            }
            let value = arguments.next().and_then(|value| value.parse().ok());
            let value = value.ok_or(format!("{argument} needs a number"))?;
            match argument.as_str() {
                "--count" => options.count = value,
                "--seed" => options.seed = value,
                "--only" => options.only = Some(value),
                _ => return Err(format!("{argument} is no option")),
            }
        }
        Ok(options)
    }
}

/// A run over many inputs.
struct Run {
    options: Options,
    tally: Tally,
    inputs: usize,
    differences: usize,
    /// The time that the subject took.
    subject: Duration,
    /// The longest time that the subject took over one input, and the input.
    slowest: (Duration, u64),
}

impl Run {
    /// Makes one input, a file with a sheet, and compares the three calls on it, each with buffers
    /// of its own.
    fn input(&mut self, input: u64) {
        let random = &mut Random::new(self.options.seed, input);
        let file = files::file(random);
        let reference = Reference::new(&file, self.options.plant);
        let solved = reference.outcome.as_ref().ok();
        let sheet = sheets::sheet(random, solved);
        let (needs, written) = match solved {
            Some(solved) => (solved.accepted.needs(), solved.sheet().len()),
            None => Default::default(),
        };
        self.inputs += 1;
        let mut time = Duration::ZERO;
        for call in CALLS {
            let used: &[usize] = match call {
                Call::Check => &[1, 2],
                _ => &[0, 1, 2, 3],
            };
            let mut due_lent = Lent::draw(random, needs, used, written);
            let mut lent = due_lent.clone();
            let start = Instant::now();
            let answer = desks::subject(call, &file, &sheet, &mut lent);
            time += start.elapsed();
            let due = reference.answer(call, &sheet, &mut due_lent);
            self.tally.answer(call, &due);
            if let (Call::Analyse, 0, Some(solved)) = (call, due.number, solved) {
                self.tally.analysed(&file, solved);
            }
            if call == Call::Write && due.number == 0 {
                lent.order_atoms(due.states, due.bytes);
                due_lent.order_atoms(due.states, due.bytes);
            }
            let differing = lent.differing(&due_lent);
            if answer != due || !differing.is_empty() {
                self.differences += 1;
                if self.differences <= SHOWN {
                    println!("input {input}, {call:?}: {SUBJECT} hands back {answer:?}");
                    println!("  the reference {due:?}");
                    println!("  buffers that differ: {differing:?}");
                    println!("  file {}", hexadecimal(&file));
                    if call == Call::Check {
                        println!("  sheet {}", hexadecimal(&sheet));
                    }
                }
            }
        }
        self.subject += time;
        self.slowest = self.slowest.max((time, input));
    }

    /// Prints the counts; says whether all is well.
    fn report(&self, time: Duration) -> bool {
        println!("{}", self.tally);
        println!(
            "seed {}, {} inputs ({} calls) in {:.1} s, of which {SUBJECT} took {:.1} s, over input {} {:.3} s",
            self.options.seed,
            self.inputs,
            self.inputs * CALLS.len(),
            time.as_secs_f64(),
            self.subject.as_secs_f64(),
            self.slowest.1,
            self.slowest.0.as_secs_f64(),
        );
        let seldom = match self.options.only {
            Some(_) => Vec::new(),
            None => self.tally.seldom(),
        };
        for line in &seldom {
            println!("too seldom: {line}");
        }
        println!("{} differences", self.differences);
        seldom.is_empty() && self.differences == 0
    }
}

/// The bytes in hexadecimal, cut if they are many.
fn hexadecimal(bytes: &[u8]) -> String {
    let shown = bytes.iter().take(2_000);
    let mut text: String = shown.map(|byte| format!("{byte:02x}")).collect();
    if bytes.len() > 2_000 {
        text.push_str(&format!(".. ({} bytes)", bytes.len()));
    }
    text
}

fn main() -> ExitCode {
    let options = match Options::read(std::env::args().skip(1)) {
        Ok(options) => options,
        Err(fault) => {
            eprintln!("{fault}");
            return ExitCode::from(2);
        }
    };
    println!("{SUBJECT} against the reference, seed {}", options.seed);
    let inputs = match options.only {
        Some(input) => input..input + 1,
        None => 0..options.count,
    };
    let mut run = Run {
        options,
        tally: Tally::default(),
        inputs: 0,
        differences: 0,
        subject: Duration::ZERO,
        slowest: (Duration::ZERO, 0),
    };
    let start = Instant::now();
    inputs.for_each(|input| run.input(input));
    match run.report(start.elapsed()) {
        true => ExitCode::SUCCESS,
        false => ExitCode::FAILURE,
    }
}
