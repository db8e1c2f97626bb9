//! Measures, in one run, the proved library against two plain programs, against the independent
//! implementation, and against gringo where it is installed: the files of rules/bench, and files
//! that grow in one number. Times are the least of several runs, in a process of their own each,
//! which is ended at a limit; those that end must give the same answer.
//!
//!     bench [--without-slow]
//!     bench files [name ..]
//!     bench before PROGRAM [name ..]     PROGRAM is a bench linked with an earlier library

mod family;
mod flat;
mod gringo;
mod rows;
mod seminaive;

use reference::Accepted;
use std::borrow::Borrow;
use std::io::Read;
use std::path::{Path, PathBuf};
use std::process::{Child, Command, Stdio};
use std::time::{Duration, Instant};

const LIMIT: Duration = Duration::from_secs(20);
const SLOW_LIMIT: Duration = Duration::from_secs(150);

/// How often the programs are run in turn, and how long one may take to be run again.
const TURNS: usize = 4;
const SHORT: Duration = Duration::from_secs(1);

const FILES: [&str; 8] = [
    "e",
    "tokenring",
    "revapp",
    "typical",
    "wide",
    "dense",
    "long",
    "longest",
];

/// Those that take a minute or more.
const SLOW: [&str; 2] = ["adversary", "worst"];

/// The counts of atoms and rounds, and the verdicts.
type Answer = (usize, usize, Vec<u8>);

/// The whole job.
type Program = fn(&[u8]) -> Answer;

/// Those who do the whole job, by their names on the command line; the library is the first.
const PROGRAMS: [(&str, Program); 4] = [
    ("library", library),
    ("seminaive", seminaive::solve),
    ("rows", rows::solve),
    ("reference", solve),
];

fn library(file: &[u8]) -> Answer {
    let analysis = rules::analyse(file).expect("an answer");
    let open = |&verdict| u8::from(verdict == rules::Verdict::Open);
    let verdicts = analysis.verdicts.iter().map(open).collect();
    (analysis.atoms, analysis.rounds, verdicts)
}

fn solve(file: &[u8]) -> Answer {
    let solved = Accepted::of(file).expect("an answer").solve();
    (solved.atoms(), solved.rounds, solved.verdicts)
}

/// Waits for a process, to the limit; whether it ended well.
fn ends(child: &mut Child, limit: Duration) -> bool {
    let start = Instant::now();
    loop {
        if let Ok(Some(status)) = child.try_wait() {
            return status.success();
        }
        if limit < start.elapsed() {
            let _ = child.kill();
            let _ = child.wait();
            return false;
        }
        std::thread::sleep(Duration::from_micros(200));
    }
}

/// Prints the least time of several runs in nanoseconds, and the answer.
fn print_least(work: Program, file: &[u8]) {
    let mut least = Duration::MAX;
    let begun = Instant::now();
    let mut answer = Answer::default();
    for _ in 0..1000 {
        let start = Instant::now();
        answer = work(file);
        least = least.min(start.elapsed());
        if Duration::from_millis(300) < begun.elapsed() {
            break;
        }
    }
    println!("{}\n{answer:?}", least.as_nanos());
}

/// The least time of a program for a file, and its answer, if it ends within the limit.
fn least(bench: &Path, who: &str, file: &Path, limit: Duration) -> Option<(Duration, String)> {
    let mut command = Command::new(bench);
    command.arg(who).arg(file).stdout(Stdio::piped());
    let mut child = command.spawn().expect("the bench starts again");
    if !ends(&mut child, limit) {
        return None;
    }
    let mut text = String::new();
    child.stdout?.read_to_string(&mut text).ok()?;
    let (time, answer) = text.trim_end().split_once('\n')?;
    Some((Duration::from_nanos(time.parse().ok()?), answer.into()))
}

/// A time, if it is not over the limit.
#[derive(Clone, Copy)]
struct Time {
    taken: Option<Duration>,
    limit: Duration,
}

impl Time {
    fn better(self, other: Time) -> Time {
        let taken = self.taken.into_iter().chain(other.taken).min();
        Time { taken, ..self }
    }

    fn shown(self) -> String {
        match self.taken {
            None => format!("over {} s", self.limit.as_secs()),
            Some(t) if t < Duration::from_millis(1) => format!("{:.1} us", t.as_secs_f64() * 1e6),
            Some(t) if t < Duration::from_secs(1) => format!("{:.2} ms", t.as_secs_f64() * 1e3),
            Some(t) => format!("{:.2} s", t.as_secs_f64()),
        }
    }

    /// This time over the other.
    fn ratio(self, other: Time) -> String {
        let seconds = |time: Time| time.taken.unwrap_or(time.limit).as_secs_f64();
        let ratio = seconds(self) / seconds(other);
        match (self.taken, other.taken) {
            (Some(_), Some(_)) => format!("{ratio:.3}"),
            (Some(_), None) => format!("under {ratio:.3}"),
            (None, Some(_)) => format!("over {ratio:.3}"),
            (None, None) => "-".to_string(),
        }
    }
}

/// The times of some programs of a bench for a file, in turns, since the machine may change its
/// speed, and the answer if one has ended; ends the run if two have given different ones.
fn times<const N: usize>(
    name: &str,
    programs: [(&Path, &str); N],
    file: &[u8],
    limit: Duration,
) -> ([Time; N], Option<String>) {
    let path = std::env::temp_dir().join(format!("rules-bench-{}.rules", std::process::id()));
    std::fs::write(&path, file).expect("a file is written");
    let mut given: Option<(&str, String)> = None;
    let mut once = |(bench, who)| {
        let (taken, answer) = least(bench, who, &path, limit).unzip();
        match (&given, answer) {
            (Some((other, first)), Some(answer)) if *first != answer => {
                eprintln!("bench: {name}: {who} gives {answer}, but {other} {first}");
                std::process::exit(1);
            }
            (None, Some(answer)) => given = Some((who, answer)),
            _ => {}
        }
        Time { taken, limit }
    };
    let mut times = programs.map(&mut once);
    for _ in 1..TURNS {
        for (time, program) in times.iter_mut().zip(programs) {
            if time.taken.is_some_and(|taken| taken < SHORT) {
                *time = time.better(once(program));
            }
        }
    }
    let _ = std::fs::remove_file(&path);
    (times, given.map(|(_, answer)| answer))
}

/// The path of this bench.
fn own_path() -> PathBuf {
    std::env::current_exe().expect("this program has a path")
}

/// What a table shows.
#[derive(Clone, Copy)]
struct Table {
    /// Both plain programs, or the better one alone.
    both: bool,
    gringo: bool,
}

fn print_row<T: Borrow<str>>(cells: &[T]) {
    println!("| {} |", cells.join(" | "));
}

fn print_heading(cells: &[&str]) {
    println!();
    print_row(cells);
    println!("|{}", "---|".repeat(cells.len()));
}

impl Table {
    fn heading(self, what: &str) {
        let mut cells = vec![what, "model", "library"];
        match self.both {
            true => cells.extend(["semi-naive", "16-bit rows", "ratio to the better"]),
            false => cells.extend(["better plain", "ratio"]),
        }
        cells.extend(["reference", "ratio"]);
        if self.gringo {
            cells.extend(["gringo", "ratio"]);
        }
        print_heading(&cells);
    }

    fn measure(self, name: &str, file: &[u8], limit: Duration) {
        let own = own_path();
        let programs = PROGRAMS.map(|(who, _)| (own.as_path(), who));
        let ([library, seminaive, rows, reference], answer) = times(name, programs, file, limit);
        let better = seminaive.better(rows);
        let mut cells = vec![name.to_string(), model(answer.as_deref()), library.shown()];
        match self.both {
            true => cells.extend([seminaive.shown(), rows.shown()]),
            false => cells.push(better.shown()),
        }
        cells.push(library.ratio(better));
        cells.extend([reference.shown(), library.ratio(reference)]);
        if self.gringo {
            let accepted = Accepted::of(file).expect("the file is accepted");
            let taken = gringo::time(&gringo::program(&accepted), limit);
            let gringo = Time { taken, limit };
            cells.extend([gringo.shown(), library.ratio(gringo)]);
        }
        print_row(&cells);
    }
}

/// The listing's words for an answer as it is printed: its first two numbers.
fn model(answer: Option<&str>) -> String {
    let mut numbers = answer.into_iter().flat_map(|text| text[1..].split(", "));
    match (numbers.next(), numbers.next()) {
        (Some(atoms), Some(rounds)) => format!("{atoms} rounds {rounds}"),
        _ => "-".to_string(),
    }
}

/// A file of rules/bench, and how long a program may take for it.
fn bench_file(name: &str) -> (Vec<u8>, Duration) {
    let folder = Path::new(env!("CARGO_MANIFEST_DIR")).join("../../../rules/bench");
    let file = std::fs::read(folder.join(name).with_extension("rules")).expect("a bench file");
    match SLOW.contains(&name) {
        true => (file, SLOW_LIMIT),
        false => (file, LIMIT),
    }
}

fn print_files(gringo: bool, names: &[&str]) {
    let table = Table { both: true, gringo };
    table.heading("file");
    for name in names {
        let (file, limit) = bench_file(name);
        table.measure(name, &file, limit);
    }
}

/// An earlier library, by a bench that is linked with it, beside this one and the plain programs.
fn print_before(earlier: &Path, names: &[&str]) {
    let heading = ["file", "before", "after", "ratio", "better plain", "ratio"];
    print_heading(&heading);
    let own = own_path();
    let ours = ["library", "seminaive", "rows"].map(|who| (own.as_path(), who));
    let programs = [(earlier, "library"), ours[0], ours[1], ours[2]];
    for name in names {
        let (file, limit) = bench_file(name);
        let ([before, after, seminaive, rows], _) = times(name, programs, &file, limit);
        let better = seminaive.better(rows);
        print_row(&[
            name.to_string(),
            before.shown(),
            after.shown(),
            after.ratio(before),
            better.shown(),
            after.ratio(better),
        ]);
    }
}

fn print_families(gringo: bool) {
    let both = false;
    let table = Table { both, gringo };
    table.heading("states");
    for states in [2, 4, 6, 8, 10, 12, 14, 16] {
        table.measure(&states.to_string(), &family::by_states(states), LIMIT);
    }
    table.heading("variables");
    for variables in 1..=6 {
        table.measure(
            &variables.to_string(),
            &family::by_variables(variables),
            LIMIT,
        );
    }
    table.heading("rounds");
    for digits in 1..=4 {
        let rounds = 10usize.pow(digits.into()).to_string();
        table.measure(&rounds, &family::by_rounds(digits), LIMIT);
    }
}

/// Whether gringo is installed.
fn has_gringo() -> bool {
    let has = gringo::time("d(0).", LIMIT).is_some();
    if !has {
        println!("gringo is not installed");
    }
    has
}

fn main() {
    let words: Vec<String> = std::env::args().skip(1).collect();
    let words: Vec<&str> = words.iter().map(String::as_str).collect();
    let work = |who: &str| PROGRAMS.iter().find(|program| program.0 == who);
    match words.as_slice() {
        [] => {
            let gringo = has_gringo();
            print_files(gringo, &[&FILES[..], &SLOW].concat());
            print_families(gringo);
        }
        ["--without-slow"] => {
            let gringo = has_gringo();
            print_files(gringo, &FILES);
            print_families(gringo);
        }
        ["files"] => print_files(has_gringo(), &FILES),
        ["files", names @ ..] => print_files(has_gringo(), names),
        ["before", earlier] => print_before(Path::new(earlier), &FILES),
        ["before", earlier, names @ ..] => print_before(Path::new(earlier), names),
        [who, path] if work(who).is_some() => {
            let file = std::fs::read(path).expect("the file is read");
            work(who)
                .into_iter()
                .for_each(|program| print_least(program.1, &file));
        }
        _ => eprintln!(
            "bench [--without-slow], bench files [name ..], or bench before PROGRAM [name ..]"
        ),
    }
}

#[cfg(test)]
mod tests {
    use super::*;

    #[test]
    fn the_programs_agree() {
        let folder = Path::new(env!("CARGO_MANIFEST_DIR")).join("../../../rules/bench");
        let read = |name: &&str| std::fs::read(folder.join(name).with_extension("rules"));
        let small = FILES[..4].iter().map(|name| read(name).expect("a file"));
        let files = (small.chain((2..=16).map(family::by_states)))
            .chain((1..=6).map(family::by_variables))
            .chain((1..=3).map(family::by_rounds));
        for file in files {
            let due = solve(&file);
            assert!(PROGRAMS.iter().all(|(_, program)| program(&file) == due));
        }
    }
}
