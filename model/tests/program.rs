//! The program `journal`: from files and standard input, and what it says and
//! leaves unsaid where it fails.

use std::io::Write;
use std::process::{Command, Output, Stdio};

const TEXT: &str = "../examples/worked.txt";
const JOURNAL: &str = "../examples/worked.journal";

fn journal(arguments: &[&str], input: &[u8]) -> Output {
    let mut program = Command::new(env!("CARGO_BIN_EXE_journal"))
        .args(arguments)
        .stdin(Stdio::piped())
        .stdout(Stdio::piped())
        .stderr(Stdio::piped())
        .spawn()
        .unwrap();
    // A program that does not read its input may be gone by now.
    let _ = program.stdin.take().unwrap().write_all(input);
    program.wait_with_output().unwrap()
}

fn done(arguments: &[&str], input: &[u8]) -> Vec<u8> {
    let output = journal(arguments, input);
    assert!(output.status.success() && output.stderr.is_empty(), "{output:?}");
    output.stdout
}

fn said_on_failing(arguments: &[&str], input: &[u8]) -> String {
    let output = journal(arguments, input);
    assert_eq!(output.status.code(), Some(1), "{output:?}");
    assert!(output.stdout.is_empty(), "{output:?}");
    String::from_utf8(output.stderr).unwrap()
}

#[test]
fn makes_and_shows_from_a_file_and_from_standard_input() {
    let (text, bytes) = (std::fs::read(TEXT).unwrap(), std::fs::read(JOURNAL).unwrap());
    assert_eq!(done(&["make", TEXT], b""), bytes);
    assert_eq!(done(&["make"], &text), bytes);
    let shown = done(&["show", JOURNAL], b"");
    assert_eq!(done(&["show"], &bytes), shown);
    assert_eq!(done(&["make"], &shown), bytes);
    let dated = done(&["show", "--dates", JOURNAL], b"");
    assert_eq!(done(&["show", "--dates"], &bytes), dated);
    assert_eq!(done(&["make"], &dated), bytes);
    assert!(String::from_utf8(dated).unwrap().contains("due 2000-01-05\n"));
}

#[test]
fn says_why_it_failed_and_nothing_else() {
    assert_eq!(said_on_failing(&["make"], b"calendar days 1-3\nopen\npya\n").lines().count(), 1);
    assert_eq!(
        said_on_failing(&["make"], b"calendar days 1\nsize"),
        "line 2: size needs a number of sheets\n"
    );
    assert_eq!(said_on_failing(&["make"], b"\xff"), "line 1: this is not UTF-8 text\n");
    let refused = "journal refused: a count past its limit, an early end, or bytes left over\n";
    assert_eq!(said_on_failing(&["show"], b"\x01"), refused);
    assert!(said_on_failing(&["show", "no such file"], b"").starts_with("cannot read no such file: "));
    let wrong: [&[&str]; 7] = [
        &[],
        &["list"],
        &["make", TEXT, JOURNAL],
        &["make", "--dates", TEXT],
        &["show", JOURNAL, "--dates"],
        &["show", "--date", JOURNAL],
        &["show", "--date"],
    ];
    for arguments in wrong {
        assert!(said_on_failing(arguments, b"").starts_with("usage: journal make [TEXT] > JOURNAL\n"));
    }
}
