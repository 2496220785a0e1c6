//! The program `relabel`, as it is built, against the model: what it prints
//! for an input, byte for byte. It is looked for in target/bin, or where
//! ODL_BIN_DIR says. It is made for x86-64; tests/emulated/program runs it on
//! another processor.

use odl_model::random::{self, Random};
use std::collections::{BTreeMap, BTreeSet};
use std::io::{ErrorKind, Write};
use std::path::{Path, PathBuf};
use std::process::{ChildStdin, Command, Stdio};
use std::thread;
use std::time::Duration;

const LONGEST: usize = 65_535;
const RANDOM_LABELS: usize = 300;

fn program() -> Command {
    let root = Path::new(env!("CARGO_MANIFEST_DIR")).join("../..");
    let directory = std::env::var_os("ODL_BIN_DIR").map(PathBuf::from);
    let program = directory.unwrap_or(root.join("target/bin")).join("relabel");
    assert!(
        program.is_file(),
        "{} is missing: run `tools/build` at the project's root",
        program.display()
    );
    if cfg!(target_arch = "x86_64") {
        return Command::new(program);
    }
    let mut command = Command::new(root.join("tests/emulated/program"));
    command.arg(program);
    command
}

/// What the program prints for this input, handed over in these pieces.
fn printed(pieces: &[&[u8]]) -> Vec<u8> {
    let mut child = program()
        .stdin(Stdio::piped())
        .stdout(Stdio::piped())
        .stderr(Stdio::piped())
        .spawn()
        .unwrap();
    let mut input = child.stdin.take().unwrap();
    // In a thread of its own, since the program may print before it has read all.
    let output = thread::scope(|scope| {
        scope.spawn(move || hand_over(&mut input, pieces));
        child.wait_with_output().unwrap()
    });
    assert!(output.status.success(), "{}", output.status);
    assert!(output.stderr.is_empty(), "{}", output.stderr.escape_ascii());
    output.stdout
}

fn hand_over(input: &mut ChildStdin, pieces: &[&[u8]]) {
    for (number, piece) in pieces.iter().enumerate() {
        if number > 0 {
            // Long enough for the program to see a reading cut short.
            thread::sleep(Duration::from_millis(2));
        }
        match input.write_all(piece) {
            // The program reads no more than it needs to refuse.
            Err(error) if error.kind() == ErrorKind::BrokenPipe => return,
            written => written.unwrap(),
        }
    }
}

/// The code in a line `REFUSED code place`; 0 for a label.
fn code_of(output: &[u8]) -> u8 {
    let text = String::from_utf8_lossy(output);
    let code = text
        .strip_prefix("REFUSED ")
        .and_then(|rest| rest.split(' ').next())
        .and_then(|code| code.parse().ok());
    code.unwrap_or(0)
}

fn shown(bytes: &[u8]) -> String {
    let start = &bytes[..bytes.len().min(400)];
    format!("{} bytes \"{}\"", bytes.len(), start.escape_ascii())
}

/// Compares program and model on an input, and gives what both print.
fn compared(input: &[u8]) -> Vec<u8> {
    let model = odl_model::relabel(input);
    let ours = printed(&[input]);
    assert!(
        ours == model,
        "input {}\nprogram {}\nmodel {}",
        shown(input),
        shown(&ours),
        shown(&model)
    );
    ours
}

/// `A=(1,1,..,1)`, then so many empty sets, then END: 7 bytes of table and 9
/// for each member, 7 for each set, 3 for END.
fn label_of_table(members: usize, sets: usize) -> Vec<u8> {
    let ones = "1,".repeat(members - 1);
    format!("A=({ones}1)\n{}END", "A={}\n".repeat(sets)).into_bytes()
}

/// `A="xx..x" END`, written with 13 bytes more than the text has.
fn label_of_text(length: usize) -> Vec<u8> {
    format!("A=\"{}\" END", "x".repeat(length)).into_bytes()
}

/// `A="xx..x" B=(1E-18,1E-18,..,1E-18) END`, each real written with 20 bytes.
fn label_of_reals(text: usize, reals: usize) -> Vec<u8> {
    let (text, more) = ("x".repeat(text), "1E-18,".repeat(reals - 1));
    format!("A=\"{text}\" B=({more}1E-18) END").into_bytes()
}

fn padded(end: &str, length: usize) -> Vec<u8> {
    let mut label = vec![b' '; length];
    label[length - end.len()..].copy_from_slice(end.as_bytes());
    label
}

const EXAMPLE: &str = "object = cam /* rig 4 */ ignored\n start = 1990-158T15:24:12\n \
    hold = 1.50 <sec**1>\nend_object\nEND\n";

const EXAMPLE_WRITTEN: &str = "OBJECT = CAM\r\n  START = 1990-06-07T15:24:12Z\r\n  \
    HOLD = 1.5 <SEC>\r\nEND_OBJECT = CAM\r\nEND\r\n";

fn refused(label: &str, code: u8, place: usize) -> (Vec<u8>, String) {
    let line = format!("REFUSED {code} {place}\r\n");
    (label.as_bytes().to_vec(), line)
}

/// Inputs with what the documents say is printed, worked out by hand.
fn listed() -> Vec<(Vec<u8>, String)> {
    let nested = "OBJECT=X ".repeat(81);
    let mut list = vec![
        refused("", 10, 0),
        refused("A=1 ", 10, 4),
        refused("A=& END", 2, 2),
        refused("A=1 /*/ END", 3, 4),
        refused("A='' END", 4, 2),
        refused("A=1990-366 END", 5, 2),
        refused("A=() END", 6, 3),
        refused("OBJECT=X END_OBJECT=Y END", 7, 20),
        refused(&nested, 8, 80 * 9),
        refused("END;", 9, 0),
        (b"END".to_vec(), "END\r\n".to_string()),
        (EXAMPLE.into(), EXAMPLE_WRITTEN.to_string()),
        (EXAMPLE_WRITTEN.into(), EXAMPLE_WRITTEN.to_string()),
        (padded("END", LONGEST), "END\r\n".to_string()),
    ];
    for length in [LONGEST + 1, 70_000, 200_000] {
        let label = padded("END", length);
        list.push((label, "REFUSED 1 65535\r\n".to_string()));
        let label = [b"END ".to_vec(), vec![b' '; length - 4]].concat();
        list.push((label, "REFUSED 1 65535\r\n".to_string()));
    }
    list.extend(about_as_long_as_may_be());
    list.extend(rows());
    list.extend(reals());
    list.extend(zones());
    list
}

/// Rows are separated by one comma (02 §2).
fn rows() -> [(Vec<u8>, String); 6] {
    let written = "A = ((1, 2), (3, 4))\r\nEND\r\n";
    [
        ("A=((1,2),(3,4)) END".into(), written.to_string()),
        (written.into(), written.to_string()),
        refused("A=((1,2)(3,4)) END", 6, 8),
        refused("A=((1,2),,(3,4)) END", 6, 9),
        refused("A=((1,2),) END", 6, 9),
        refused("A=((1,2),", 10, 9),
    ]
}

/// Reals are written so that people can read them (02 §4); the written label is
/// written as it is.
fn reals() -> [(Vec<u8>, String); 2] {
    let input = "A=(1.50,0.15e-1,-.5,-15.,0E9,1E-18,-15E-18,1E-19,15E-30,1E2) \
        B={1E17,12E16,12E17,1E18,123456789012345678.,1234567890123456780.} C=1e3<m> END";
    let written = "A = (1.5, 0.015, -0.5, -15.0, 0.0, 0.000000000000000001, \
        -0.000000000000000015, 1.E-19, 15.E-30, 100.0)\r\n\
        B = {100000000000000000.0, 120000000000000000.0, 12.E17, 1.E18, \
        123456789012345678.0, 123456789012345678.E1}\r\nC = 1000.0 <M>\r\nEND\r\n";
    [
        (input.into(), written.to_string()),
        (written.into(), written.to_string()),
    ]
}

/// A time is written with Z, or with a signed zone if its offset is not 0,
/// however its zone was given (02 §6); the written label is written as it is.
fn zones() -> [(Vec<u8>, String); 5] {
    let input = "A=(10:00,10:00Z,10:00z,10:00+0,10:00-00:00,10:00+7,10:00-0:30,1990-158) \
        B={1990-158T10:00,1990-158t10:00z,1990-158T10:00-0,1990-158T10:00-12:59} END";
    let written = "A = (10:00:00Z, 10:00:00Z, 10:00:00Z, 10:00:00Z, 10:00:00Z, \
        10:00:00+07:00, 10:00:00-00:30, 1990-06-07)\r\n\
        B = {1990-06-07T10:00:00Z, 1990-06-07T10:00:00Z, 1990-06-07T10:00:00Z, \
        1990-06-07T10:00:00-12:59}\r\nEND\r\n";
    [
        (input.into(), written.to_string()),
        (written.into(), written.to_string()),
        refused("A=1990-158Z END", 4, 2),
        refused("A=10:00+13 END", 5, 2),
        refused("A=10:00 Z END", 6, 10),
    ]
}

/// Tables and written labels of 65,535 bytes, and of 65,536.
fn about_as_long_as_may_be() -> [(Vec<u8>, String); 6] {
    // 7 + 9 * 7,279 + 2 * 7 + 3 = 65,535 bytes of table.
    let written = "A = (".to_string() + &"1, ".repeat(7_278) + "1)\r\nA = {}\r\nA = {}\r\nEND\r\n";
    let over = label_of_table(7_276, 6);
    let refused = format!("REFUSED 11 {}\r\n", over.len());
    let text = "x".repeat(LONGEST - 13);
    // 8 and 10,516 of text, 6 + 22 * 2,500 of reals, 5: 65,535 bytes.
    let before = "x".repeat(10_516);
    let reals = "0.000000000000000001, ".repeat(2_499) + "0.000000000000000001";
    [
        (label_of_table(7_279, 2), written),
        (over, refused),
        (
            label_of_text(text.len()),
            format!("A = \"{text}\"\r\nEND\r\n"),
        ),
        (
            label_of_text(text.len() + 1),
            "REFUSED 13 65535\r\n".to_string(),
        ),
        (
            label_of_reals(before.len(), 2_500),
            format!("A = \"{before}\"\r\nB = ({reals})\r\nEND\r\n"),
        ),
        (
            label_of_reals(before.len() + 1, 2_500),
            "REFUSED 13 65535\r\n".to_string(),
        ),
    ]
}

#[test]
fn listed_inputs_give_what_the_documents_say() {
    let mut codes = BTreeSet::new();
    for (input, output) in listed() {
        let ours = compared(&input);
        assert!(
            ours == output.as_bytes(),
            "input {}\nprogram {}\nlisted {}",
            shown(&input),
            shown(&ours),
            shown(output.as_bytes())
        );
        codes.insert(code_of(&ours));
    }
    let seen: Vec<u8> = codes.into_iter().collect();
    assert_eq!(seen, [0, 1, 2, 3, 4, 5, 6, 7, 8, 9, 10, 11, 13]);
}

#[test]
fn input_that_comes_in_pieces_is_read_whole() {
    for (input, output) in listed() {
        let (first, rest) = input.split_at(input.len() / 3);
        let (second, third) = rest.split_at(rest.len() / 2);
        let ours = printed(&[first, second, third]);
        assert!(ours == output.as_bytes(), "{}", shown(&input));
    }
}

#[test]
fn random_labels_agree() {
    let seed = std::env::var("ODL_SEED").map_or(11, |seed| seed.parse().unwrap());
    let mut random = Random::new(seed);
    let mut codes = BTreeMap::new();
    for _ in 0..RANDOM_LABELS {
        let label = random::label(&mut random);
        *codes.entry(code_of(&compared(&label))).or_insert(0) += 1;
    }
    let accepted = codes.get(&0).copied().unwrap_or(0);
    let refused = RANDOM_LABELS - accepted;
    assert!(accepted >= 100 && refused >= 100, "{codes:?}");
    assert!(codes.len() >= 8, "{codes:?}");
}
