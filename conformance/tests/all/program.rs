//! The program ./ubfa: what it writes for a message on its standard input, beside what the model says.

use conformance::check::{shown, PROGRAM, PROGRAM_BYTES};
use conformance::messages::{any, filled};
use conformance::model::decode::decode;
use conformance::model::forest::Forest;
use conformance::model::text::plain;
use conformance::noise::Noise;
use std::fs::File;
use std::io::Write;
use std::path::PathBuf;
use std::process::{Command, Output, Stdio};
use std::time::Duration;

const GENERATED: u64 = 500;

/// The program itself, which ./ubfa builds and runs.
fn program() -> Command {
    let file = PathBuf::from(env!("CARGO_MANIFEST_DIR")).join("../crates/ubfa_text/out/ubfa_text");
    assert!(file.is_file(), "{} is missing: run ./ubfa", file.display());
    Command::new(file)
}

/// What the program says, given the message in pieces with a pause after each.
fn given(pieces: &[&[u8]]) -> Output {
    let mut child = program()
        .stdin(Stdio::piped())
        .stdout(Stdio::piped())
        .stderr(Stdio::piped())
        .spawn()
        .expect("the program starts");
    let mut input = child.stdin.take().expect("a pipe to the program");
    for (at, piece) in pieces.iter().enumerate() {
        if at > 0 {
            std::thread::sleep(Duration::from_millis(20));
        }
        // It stops reading once there is a byte too many, so a pipe may be closed early.
        let _ = input.write_all(piece);
    }
    drop(input);
    child.wait_with_output().expect("the program ends")
}

/// The line that 01 asks for.
fn due(message: &[u8]) -> Vec<u8> {
    let refused = |number: u32, place: u32| format!("refused {number} at {place}\n").into_bytes();
    if message.len() > PROGRAM_BYTES {
        return refused(1, 0);
    }
    let mut forest = Forest::new();
    let decoded = decode(&mut forest, message, PROGRAM);
    match decoded.term.map(|term| plain(&forest, term, PROGRAM_BYTES)) {
        None => refused(decoded.number, decoded.place),
        Some(None) => refused(15, 0),
        Some(Some(text)) => [&text[..], b"\n"].concat(),
    }
}

fn expect(pieces: &[&[u8]]) {
    let message = pieces.concat();
    let output = given(pieces);
    let what = shown(&message);
    assert_eq!(shown(&output.stdout), shown(&due(&message)), "{what}");
    assert_eq!(shown(&output.stderr), "``", "{what}");
}

#[test]
fn lines_of_01() {
    let lines: [(&[u8], &[u8]); 6] = [
        (b"#2 &1 &$", b"#2 &1 &$\n"),
        (b"1 2$", b"refused 11 at 3\n"),
        (b"", b"refused 3 at 0\n"),
        (b"-0 $", b"0 $\n"),
        (b"1 >a{aa}>a{aa}>aa$", b"{{1 1 }{1 1 }}$\n"),
        (b"2~\n\0~$and more", b"2~\n\0~$\n"),
    ];
    for (message, line) in lines {
        expect(&[message]);
        assert_eq!(shown(&given(&[message]).stdout), shown(line));
    }
}

/// A message of so many bytes: an atom, white space before it, or digits.
fn of_length(bytes: usize) -> [Vec<u8>; 3] {
    [
        filled(bytes, b"'", b'a', b"'$"),
        filled(bytes, b"", b' ', b"1$"),
        filled(bytes, b"", b'0', b""),
    ]
}

#[test]
fn input_up_to_its_bound_is_read_and_more_refused() {
    let refused_1 = shown(b"refused 1 at 0\n");
    for bytes in [PROGRAM_BYTES - 1, PROGRAM_BYTES, PROGRAM_BYTES + 1, 1 << 20] {
        for message in of_length(bytes) {
            expect(&[&message]);
            let is_refused_1 = shown(&given(&[&message]).stdout) == refused_1;
            assert_eq!(is_refused_1, bytes > PROGRAM_BYTES, "{bytes} bytes");
        }
    }
}

/// Each thing that the program lends itself, at its end and one past it.
#[test]
fn tables_are_those_that_01_lists() {
    let rows = |count: usize| ["#>a".repeat(count), "a$".to_string()].concat();
    let stack = |count: usize| format!("1>a{{{}}}$", "a".repeat(count));
    let marks = |count: usize| format!("{}{}$", "{".repeat(count), "}".repeat(count));
    let cases = [
        (rows(1024), rows(1025), "refused 12 at 3072\n"),
        (stack(256), stack(257), "refused 13 at 260\n"),
        (marks(64), marks(65), "refused 14 at 64\n"),
    ];
    for (fits, does_not, line) in cases {
        expect(&[does_not.as_bytes()]);
        assert_eq!(
            shown(&given(&[does_not.as_bytes()]).stdout),
            shown(line.as_bytes())
        );
        expect(&[fits.as_bytes()]);
    }
}

/// The longest text that is written, and one a byte longer, of a message that doubles.
#[test]
fn texts_up_to_the_output_are_written() {
    let message = |last: &str| format!("1 >a{}{{{last}a}}$", "{aa}>a".repeat(11));
    let length = |message: &str| due(message.as_bytes()).len() - 1;
    let short = length(&message("''"));
    let filler = "b".repeat(PROGRAM_BYTES - short);
    let fits = message(&format!("'{filler}'"));
    let longer = message(&format!("'{filler}b'"));
    assert_eq!(length(&fits), PROGRAM_BYTES);
    assert_eq!(due(longer.as_bytes()), b"refused 15 at 0\n");
    expect(&[fits.as_bytes()]);
    expect(&[longer.as_bytes()]);
}

#[test]
fn input_in_pieces_is_one_message() {
    expect(&[b"#2", b" &1 ", b"&$"]);
    expect(&[b"", b"1", b" 2$"]);
    let [atom, ..] = of_length(PROGRAM_BYTES);
    expect(&[&atom[..5], &atom[5..9_000], &atom[9_000..]]);
    expect(&[&atom, b" "]);
}

#[test]
fn generated_messages_agree() {
    for seed in 0..GENERATED {
        let message = any(&mut Noise::new(seed));
        expect(&[&message]);
    }
}

/// A read that fails is said on standard error, and nothing is written on standard output.
#[test]
fn a_failed_read_is_said() {
    let folder = File::open(env!("CARGO_MANIFEST_DIR")).expect("a folder opens");
    let output = program().stdin(folder).output().expect("the program ends");
    assert_eq!(shown(&output.stdout), "``");
    assert!(String::from_utf8_lossy(&output.stderr).contains("cannot read standard input"));
}

/// So is a line that cannot be written.
#[test]
fn a_failed_write_is_said() {
    let full = File::options()
        .write(true)
        .open("/dev/full")
        .expect("/dev/full opens");
    let output = program()
        .stdin(Stdio::null())
        .stdout(full)
        .output()
        .expect("the program ends");
    let said = String::from_utf8_lossy(&output.stderr).into_owned();
    assert_eq!(
        said.matches("cannot write standard output").count(),
        1,
        "{said}"
    );
}
