//! Runs the programs on each script that the repository stores, and compares what they print, and their status, with what is stored.

use std::env;
use std::fs::{self, File};
use std::path::{Path, PathBuf};
use std::process::Command;

/// Runs a program with these words on an input: it has to print what the file of the output has, and to end with the status.
fn check(program: &Path, words: &[&str], input: &str, output: &str, status: i32) {
    // cargo runs a test in the folder of its package.
    let input = File::open(input).expect("the input is there");
    let wanted = fs::read(output).expect("the output is there");
    let ended = Command::new(program)
        .args(words)
        .stdin(input)
        .output()
        .expect("the program runs");
    assert!(
        ended.stdout == wanted,
        "{}",
        first_difference(&ended.stdout, &wanted)
    );
    assert_eq!(ended.status.code(), Some(status), "the status");
}

/// The program as it was built with this test, also if the folder has been moved since.
fn program(name: &str, built: &str) -> PathBuf {
    let test = env::current_exe().expect("the test has a place");
    let beside = test.ancestors().nth(2).map(|folder| folder.join(name));
    let found = beside.map(|path| path.with_extension(env::consts::EXE_EXTENSION));
    found
        .filter(|path| path.exists())
        .unwrap_or_else(|| built.into())
}

/// Says in which line two texts differ first.
fn first_difference(printed: &[u8], wanted: &[u8]) -> String {
    let (printed, wanted) = (
        String::from_utf8_lossy(printed),
        String::from_utf8_lossy(wanted),
    );
    let lines = printed.lines().zip(wanted.lines());
    let same = lines.take_while(|(a, b)| a == b).count();
    let at = |text: &str| text.lines().nth(same).map(String::from);
    let (printed, wanted) = (at(&printed), at(&wanted));
    format!(
        "line {} of the output is {printed:?} and not {wanted:?}",
        same + 1
    )
}

/// A test for each stored run: its name, the program's words, input, output and status.
macro_rules! stored {
    ($($folder:ident $program:literal { $($name:ident [$($word:literal),*] $input:literal $output:literal $status:literal;)* })*) => {
        $(mod $folder {
            $(#[test]
            fn $name() {
                let program = super::program($program, env!(concat!("CARGO_BIN_EXE_", $program)));
                super::check(&program, &[$($word),*], $input, $output, $status);
            })*
        })*
    };
}
