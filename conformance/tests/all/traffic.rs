//! The traffic checker: what it says of the samples and of files made here, and its exit status.

use conformance::header::MESSAGE_BYTES;
use std::fs;
use std::path::{Path, PathBuf};
use std::process::Command;

const SAMPLES: &str = concat!(env!("CARGO_MANIFEST_DIR"), "/samples");

/// A folder for the files of one test, removed at its end.
struct Folder(PathBuf);

impl Folder {
    fn new(name: &str) -> Folder {
        let folder = format!("conformance-{}-{name}", std::process::id());
        let folder = std::env::temp_dir().join(folder);
        fs::create_dir_all(&folder).expect("a folder for temporary files");
        Folder(folder)
    }

    fn file(&self, name: &str, bytes: &[u8]) -> String {
        let path = self.0.join(name);
        fs::write(&path, bytes).expect("a temporary file");
        text(&path)
    }
}

impl Drop for Folder {
    fn drop(&mut self) {
        fs::remove_dir_all(&self.0).expect("the folder made here");
    }
}

fn text(path: &Path) -> String {
    path.to_str().expect("a path in UTF-8").to_string()
}

fn sample(name: &str) -> String {
    format!("{SAMPLES}/{name}")
}

/// The exit status, and what was written on standard output and error.
fn traffic(arguments: &[&str]) -> (i32, String) {
    let run = Command::new(env!("CARGO_BIN_EXE_traffic"))
        .args(arguments)
        .output()
        .expect("the traffic checker runs");
    let said = [run.stdout, run.stderr].concat();
    let status = run.status.code().expect("an exit status");
    (status, String::from_utf8_lossy(&said).into_owned())
}

/// The number beside a count's name.
fn count(said: &str, name: &str) -> u64 {
    let line = said.lines().find(|line| line.starts_with(name));
    let number = line.and_then(|line| line.split_whitespace().last());
    number
        .and_then(|number| number.parse().ok())
        .unwrap_or_else(|| panic!("{name}: {said}"))
}

/// Runs the checker and compares its status and these counts.
fn expect(arguments: &[&str], status: i32, counts: &[(&str, u64)]) -> String {
    let (found, said) = traffic(arguments);
    assert_eq!(found, status, "{arguments:?}: {said}");
    for &(name, number) in counts {
        assert_eq!(
            count(&said, name),
            number,
            "{name} of {arguments:?}: {said}"
        );
    }
    said
}

const MESSAGES: [(&str, u64); 4] = [
    ("messages", 8),
    ("accepted", 5),
    ("refused", 3),
    ("bytes", 941),
];
const TAPES: [(&str, u64); 5] = [
    ("messages", 6),
    ("accepted", 5),
    ("refused", 1),
    ("bytes", 896),
    ("not looked at", 160),
];

#[test]
fn samples_agree() {
    let messages = sample("messages");
    let said = expect(&[&messages], 0, &MESSAGES);
    assert_eq!(count(&said, "differences"), 0);
    for line in [
        "      3          1  the message ends",
        "      9          1  an empty register",
    ] {
        assert!(said.contains(line), "{said}");
    }
    let said = expect(&["--tape", &sample("tapes")], 0, &TAPES);
    assert!(
        said.contains("pass-2.tape") && said.contains("the message at offset 147 is not accepted"),
        "{said}"
    );
    expect(
        &["--expect", &sample("messages.expected"), &messages],
        0,
        &MESSAGES,
    );
    let arguments = [
        "--tape",
        "--expect",
        &sample("tapes.expected"),
        &sample("tapes"),
    ];
    expect(&arguments, 0, &TAPES);
}

#[test]
fn another_answer_is_a_difference() {
    let folder = Folder::new("answer");
    let mut answers = fs::read(sample("tapes.expected")).expect("the sample");
    let at = answers
        .windows(6)
        .position(|bytes| bytes == b"1043 \"")
        .expect("a number");
    answers[at] = b'7';
    let expected = folder.file("wrong", &answers);
    let arguments = ["--tape", "--expect", &expected, &sample("tapes")];
    let said = expect(&arguments, 1, &[("differences", 1), ("messages", 6)]);
    assert!(
        said.contains("pass-1.tape, offset 239: library answers"),
        "{said}"
    );
    assert!(
        said.contains("{\\'tlm\\'1043 ") && said.contains("{\\'tlm\\'7043 "),
        "{said}"
    );
}

#[test]
fn too_few_and_too_many_answers_are_differences() {
    let folder = Folder::new("answers");
    let answers = fs::read(sample("messages.expected")).expect("the sample");
    let messages = sample("messages");
    let few = folder.file(
        "few",
        answers.strip_suffix(b"refused 6 at 2\n").expect("the last"),
    );
    let said = expect(&["--expect", &few, &messages], 1, &[("differences", 1)]);
    assert!(said.contains("through-the-brace.ubf, offset 0"), "{said}");
    let many = folder.file("many", &[&answers, b"refused 3 at 0\n".as_slice()].concat());
    let said = expect(&["--expect", &many, &messages], 1, &[("differences", 1)]);
    assert!(said.contains("refused 3 at 0"), "{said}");
}

/// A text with newlines in it, a message and a text too long for the program, and no room for its depths.
#[test]
fn answers_are_those_of_the_program() {
    let folder = Folder::new("program");
    let long = [b"'".as_slice(), &[b'a'; 16_382], b"'$"].concat();
    let doubled = [b"1 >a", b"{aa}>a".repeat(14).as_slice(), b"a$"].concat();
    let files: [(&[u8], &[u8]); 5] = [
        (b"'a\nb\n'$", b"'a\nb\n'$"),
        (&long, b"refused 1 at 0"),
        (&doubled, b"refused 15 at 0"),
        (&[b'{'; 65], b"refused 14 at 64"),
        (&long[1..], b"refused 9 at 0"),
    ];
    let mut answers = Vec::new();
    let mut arguments = vec!["--expect".to_string(), String::new()];
    for (at, (message, answer)) in files.iter().enumerate() {
        answers.extend([answer, b"\n".as_slice()].concat());
        arguments.push(folder.file(&at.to_string(), message));
    }
    arguments[1] = folder.file("answers", &answers);
    let arguments: Vec<&str> = arguments.iter().map(String::as_str).collect();
    expect(
        &arguments,
        0,
        &[("messages", 5), ("accepted", 1), ("differences", 0)],
    );
}

#[test]
fn a_tape_ends_in_white_space_or_where_nothing_can_be_cut() {
    let folder = Folder::new("tape");
    let quiet = folder.file("quiet", b"1$ \n2$\t\r\n ");
    let said = expect(&["--tape", &quiet], 0, &[("messages", 2), ("bytes", 6)]);
    assert!(!said.contains("cannot be cut"), "{said}");
    let cut = folder.file("cut", b"1$}2$");
    let counts = [
        ("messages", 2),
        ("refused", 1),
        ("bytes", 2),
        ("not looked at", 3),
    ];
    let said = expect(&["--tape", &cut], 0, &counts);
    assert!(
        said.contains("offset 2 is not accepted, so 3 bytes"),
        "{said}"
    );
    let short = folder.file("short", b"1$'a");
    let counts = [
        ("messages", 2),
        ("refused", 1),
        ("bytes", 4),
        ("not looked at", 0),
    ];
    let said = expect(&["--tape", &short], 0, &counts);
    assert!(!said.contains("cannot be cut"), "{said}");
    let blank = folder.file("blank", b" \n");
    expect(&["--tape", &blank], 2, &[]);
}

/// A tape longer than a message may be; a file that is longer, too; and a text that is too long to be compared.
#[test]
fn long_files() {
    let folder = Folder::new("long");
    let message = [b"'".as_slice(), &[b'a'; 999], b"'$"].concat();
    let tape = folder.file("tape", &message.repeat(1_100));
    assert!(1_100 * message.len() > MESSAGE_BYTES);
    expect(
        &["--tape", &tape],
        0,
        &[("messages", 1_100), ("accepted", 1_100)],
    );
    let said = expect(&[&tape], 0, &[("refused", 1)]);
    assert!(
        said.contains("a message slice is over UBFA_MESSAGE_BYTES"),
        "{said}"
    );
    let doubled = [b"1 >a", b"{aa}>a".repeat(25).as_slice(), b"a$"].concat();
    let doubled = folder.file("doubled", &doubled);
    expect(&[&doubled], 0, &[("accepted", 1), ("long texts", 1)]);
}

#[test]
fn bad_usage_is_said() {
    let folder = Folder::new("usage");
    let missing = text(&folder.0.join("missing"));
    let empty = text(&folder.0);
    let messages = sample("messages");
    let cases: [(&[&str], &str); 7] = [
        (&[], "no path given"),
        (&["--tape"], "no path given"),
        (&["--tapes", &messages], "--tapes is unknown"),
        (&[&messages, "--expect"], "--expect wants a file"),
        (&[&messages, &missing], "cannot be read"),
        (&["--expect", &missing, &messages], "cannot be read"),
        (&[&empty], "no messages"),
    ];
    for (arguments, problem) in cases {
        let said = expect(arguments, 2, &[]);
        assert!(said.contains(problem), "{arguments:?}: {said}");
    }
    let said = expect(&["--help"], 0, &[]);
    assert!(said.starts_with("usage:"), "{said}");
}
