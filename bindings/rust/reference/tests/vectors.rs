//! Plays the vectors of the repository, in `data` of `crates/vectors` and `crates/sheet_vectors`;
//! their formats are in the `README.md` of each.

use reference::{check, listing, write, Answer, Buffers};
use std::fs;
use std::path::{Path, PathBuf};

fn data(folder: &str) -> PathBuf {
    Path::new(env!("CARGO_MANIFEST_DIR"))
        .join("../../../crates")
        .join(folder)
}

/// The rule files of a folder, each with the file beside it of the other extension.
fn pairs(folder: &str, other: &str) -> Vec<(String, Vec<u8>, Vec<u8>)> {
    let mut paths: Vec<PathBuf> = fs::read_dir(data(folder))
        .expect("a folder of vectors")
        .map(|entry| entry.expect("an entry").path())
        .filter(|path| path.extension().is_some_and(|end| end == "rules"))
        .collect();
    paths.sort();
    assert!(!paths.is_empty());
    paths
        .into_iter()
        .map(|path| {
            let bytes = |path: &Path| fs::read(path).expect("a vector");
            let name = path.display().to_string();
            (name, bytes(&path), bytes(&path.with_extension(other)))
        })
        .collect()
}

#[test]
fn listings() {
    for folder in ["vectors/data/base", "vectors/data/full"] {
        for (name, rules, text) in pairs(folder, "listing") {
            assert_eq!(listing(&rules).as_bytes(), text, "{name}");
        }
    }
}

#[test]
fn written_sheets() {
    for (name, rules, expected) in pairs("sheet_vectors/data/made", "sheet") {
        let mut sheet = vec![0; 1 << 20];
        let buffers = Buffers {
            states: &mut [0; 16],
            tables: &mut [0; 6_144],
            marks: &mut [0; 65_536],
            verdicts: &mut [0; 32],
        };
        let answer = write(&rules, buffers, &mut sheet);
        assert_eq!(answer.number, 0, "{name}");
        assert_eq!(sheet[..answer.bytes], expected, "{name}");
    }
}

#[test]
fn checked_sheets() {
    for (name, rules, expected) in pairs("sheet_vectors/data/pass", "check") {
        let two = |at: usize| u16::from_be_bytes([expected[at], expected[at + 1]]).into();
        let due = Answer {
            number: expected[0].into(),
            place: two(1),
            ..Answer::default()
        };
        let (cells, sheet) = expected[5..].split_at(two(3));
        let mut tables = [0; 6_144];
        let answer = check(&rules, sheet, &mut tables, &mut [0; 65_536]);
        assert_eq!(answer, due, "{name}");
        assert_eq!(tables[..cells.len()], *cells, "{name}");
    }
}
