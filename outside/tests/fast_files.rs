//! The inputs of tests/fast, whose outputs were worked out by hand: our own second mapping program (request 107), and the checker.

use std::fs;
use std::path::{Path, PathBuf};

use outside::fast_check::check_output;
use outside::fast_program::print;

/// The inputs there, without the ending.
fn names() -> Vec<PathBuf> {
    let folder = Path::new(env!("CARGO_MANIFEST_DIR")).join("../tests/fast");
    let files = fs::read_dir(folder).expect("tests/fast").map(|file| file.expect("a file").path());
    files.filter(|path| path.extension().is_some_and(|ending| ending == "in")).map(|path| path.with_extension("")).collect()
}

fn text(name: &Path, ending: &str) -> Option<String> {
    fs::read_to_string(name.with_extension(ending)).ok()
}

/// What is settled of an output: all of a refusal, of a list line 0 and what follows its tables.
fn told(printed: &str) -> String {
    let used = printed.get(12..18).and_then(|field| field.trim_start().parse().ok());
    let Some(used) = used.filter(|_| !printed.trim_start().starts_with('-')) else { return printed.into() };
    let mut lines = printed.split_inclusive('\n');
    let top = lines.next().unwrap_or_default().to_string();
    top + &lines.skip(used).collect::<String>()
}

#[test]
fn as_by_hand() {
    let (mut whole, mut some) = (0, 0);
    for name in names() {
        let input = text(&name, "in").expect("an input");
        let printed = print(input.as_bytes());
        if let Some(right) = text(&name, "told") {
            assert_eq!(told(&printed), right, "{name:?}");
            some += 1;
        }
        if let Some(right) = text(&name, "out") {
            assert_eq!(told(&printed), told(&right), "{name:?}");
            assert_eq!(check_output(input.as_bytes(), right.as_bytes()), Ok(()), "{name:?}");
            whole += 1;
        }
        assert_eq!(check_output(input.as_bytes(), printed.as_bytes()), Ok(()), "{name:?}");
    }
    assert!(whole >= 30 && some >= 10, "{whole} {some}");
}
