//! The search for instances against the words of the specification: every giving of states to every
//! declared variable, where there are few enough.

use reference::{row, Accepted, Clause, Condition, Query};
use std::fs;
use std::path::Path;

/// Every giving of states to so many variables.
fn givings(accepted: &Accepted, variables: usize) -> impl Iterator<Item = Vec<usize>> {
    let m = accepted.automaton.states.len();
    (0..m.pow(variables as u32)).map(move |cell| row(m, variables, cell))
}

/// The next stage.
fn next(accepted: &Accepted, stage: &[u8]) -> Vec<u8> {
    let mut next = vec![0; stage.len()];
    for Clause {
        variables,
        head,
        body,
    } in &accepted.rules.clauses
    {
        for giving in givings(accepted, *variables) {
            if (body.iter()).all(|atom| stage[accepted.instance(atom, &giving)] == 1) {
                next[accepted.instance(head, &giving)] = 1;
            }
        }
    }
    next
}

/// Whether a query is OPEN.
fn open(accepted: &Accepted, model: &[u8], Query { conditions, atom }: &Query) -> bool {
    givings(accepted, conditions.len()).any(|giving| {
        let met = conditions.iter().zip(&giving).all(|(condition, &state)| {
            let set = accepted.automaton.states[state];
            match condition {
                Condition::Of(of) => set & 1 << of != 0,
                Condition::NotOf(of) => set & 1 << of == 0,
                Condition::Free => true,
            }
        });
        met && model[accepted.instance(atom, &giving)] == 1
    })
}

#[test]
fn every_giving() {
    let crates = Path::new(env!("CARGO_MANIFEST_DIR")).join("../../../crates");
    let mut played = 0;
    for folder in [
        "vectors/data/base",
        "vectors/data/full",
        "sheet_vectors/data/made",
        "sheet_vectors/data/pass",
    ] {
        for entry in fs::read_dir(crates.join(folder)).expect("a folder of vectors") {
            let path = entry.expect("an entry").path();
            if path.extension().is_none_or(|end| end != "rules") {
                continue;
            }
            let Ok(accepted) = Accepted::of(&fs::read(&path).expect("a vector")) else {
                continue;
            };
            let m = accepted.automaton.states.len();
            let clauses = accepted.rules.clauses.iter().map(|clause| clause.variables);
            let queries = accepted
                .rules
                .queries
                .iter()
                .map(|query| query.conditions.len());
            let most = clauses.chain(queries).max().unwrap_or(0);
            if m.pow(most as u32) > 5_000 {
                continue;
            }
            let mut stage = vec![0; accepted.needs().marks];
            let mut rounds = 0;
            while next(&accepted, &stage) != stage {
                stage = next(&accepted, &stage);
                rounds += 1;
            }
            let verdicts: Vec<u8> = (accepted.rules.queries.iter())
                .map(|query| u8::from(open(&accepted, &stage, query)))
                .collect();
            let solved = accepted.solve();
            assert_eq!(solved.model, stage, "{}", path.display());
            assert_eq!(solved.rounds, rounds, "{}", path.display());
            assert_eq!(solved.verdicts, verdicts, "{}", path.display());
            played += 1;
        }
    }
    assert!(played > 50, "{played} files played");
}
