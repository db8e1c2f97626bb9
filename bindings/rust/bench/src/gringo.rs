//! A file's clauses for gringo: the states as numbers, and a predicate for each symbol's table.

use reference::{Accepted, Atom, Term};
use std::fmt::Write;
use std::process::{Command, Stdio};
use std::time::{Duration, Instant};

struct Clause<'a> {
    accepted: &'a Accepted,
    body: Vec<String>,
    fresh: usize,
}

impl Clause<'_> {
    fn term(&mut self, term: &Term) -> String {
        match term {
            Term::Variable(variable) => format!("V{variable}"),
            Term::Apply(symbol, arguments) => {
                let mut row: Vec<String> = arguments.iter().map(|a| self.term(a)).collect();
                let own = format!("T{}", self.fresh);
                self.fresh += 1;
                row.push(own.clone());
                self.body.push(format!("t{symbol}({})", row.join(",")));
                own
            }
        }
    }

    fn atom(&mut self, atom: &Atom) -> String {
        let row: Vec<String> = atom.terms.iter().map(|t| self.term(t)).collect();
        let name = &self.accepted.rules.predicates[atom.predicate].name;
        let name = String::from_utf8_lossy(name).replace(['[', ']'], "_");
        format!("p_{name}_{}({})", atom.predicate, row.join(",")).replace("()", "")
    }
}

/// The program.
pub fn program(accepted: &Accepted) -> String {
    let m = accepted.automaton.states.len();
    let mut text = format!("d(0..{}).\n", m - 1);
    for (symbol, named) in accepted.rules.symbols.iter().enumerate() {
        for c in 0..m.pow(named.arity as u32) {
            let row: Vec<usize> = (0..named.arity)
                .rev()
                .map(|i| c / m.pow(i as u32) % m)
                .collect();
            let value = accepted.automaton.over(symbol, row.iter().copied());
            let row: Vec<String> = row.iter().chain([&value]).map(usize::to_string).collect();
            writeln!(text, "t{symbol}({}).", row.join(",")).expect("a string grows");
        }
    }
    for clause in &accepted.rules.clauses {
        let mut own = Clause {
            accepted,
            body: Vec::new(),
            fresh: 0,
        };
        let head = own.atom(&clause.head);
        let atoms: Vec<String> = clause.body.iter().map(|a| own.atom(a)).collect();
        let domain = (0..clause.variables).map(|i| format!("d(V{i})"));
        let body: Vec<String> = atoms.into_iter().chain(own.body).chain(domain).collect();
        let arrow = if body.is_empty() { "" } else { " :- " };
        writeln!(text, "{head}{arrow}{}.", body.join(", ")).expect("a string grows");
    }
    text
}

/// How long gringo takes for a program, if it is installed and ends within the limit.
pub fn time(program: &str, limit: Duration) -> Option<Duration> {
    let path = std::env::temp_dir().join(format!("rules-bench-{}.lp", std::process::id()));
    std::fs::write(&path, program).ok()?;
    let start = Instant::now();
    let mut command = Command::new("gringo");
    command.arg("--text").arg(&path).stdout(Stdio::null());
    let taken = (command.spawn().ok())
        .and_then(|mut child| crate::ends(&mut child, limit).then(|| start.elapsed()));
    let _ = std::fs::remove_file(&path);
    taken
}
