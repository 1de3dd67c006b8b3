//! The program as it is called: input, output, exit status.

use std::env;
use std::fs;
use std::io::Write;
use std::process::{self, Command, Output, Stdio};

fn call(arguments: &[&str], input: &[u8]) -> Output {
    let mut child = Command::new(env!("CARGO_BIN_EXE_second"))
        .args(arguments)
        .stdin(Stdio::piped())
        .stdout(Stdio::piped())
        .stderr(Stdio::piped())
        .spawn()
        .expect("the program starts");
    // A program that refuses its arguments may be gone before its input is written.
    let _ = child.stdin.take().expect("a pipe").write_all(input);
    child.wait_with_output().expect("the program ends")
}

/// The PGM of a command that draws.
fn screen(arguments: &[&str], input: &[u8]) -> Vec<u8> {
    let output = call(arguments, input);
    assert!(output.status.success());
    assert!(output.stderr.is_empty());
    output.stdout
}

fn printed(input: &[u8]) -> String {
    let output = call(&["plot"], input);
    assert!(output.status.success());
    assert!(output.stderr.is_empty());
    String::from_utf8(output.stdout).expect("text")
}

#[test]
fn the_whole_output_is_one_line() {
    let bytes = [1, 0, 1, 0, 4, 0, 4, 0, 0, 0x97, 6, 0x40, 4, 0, 0, 0xF4];
    assert_eq!(printed(&bytes), "1 3 4 4 8 6 4\n");
}

#[test]
fn a_coordinate_below_zero_has_a_minus_sign() {
    // Short vectors, then X -5 and Y -6, then a stop.
    let bytes = [1, 0, 1, 0, 4, 0, 3, 0, 0x00, 0x88, 0xC6, 0x22, 0x00, 0xF4];
    assert_eq!(printed(&bytes), "1 3 3 0 6 -5 -6\n");
}

#[test]
fn refused_input_is_a_number_and_six_zeros() {
    assert_eq!(printed(&[]), "12 0 0 0 0 0 0\n");
    assert_eq!(printed(&[1]), "19 0 0 0 0 0 0\n");
    assert_eq!(printed(&[3, 0, 1, 0]), "13 0 0 0 0 0 0\n");
    assert_eq!(printed(&[0; 65_536]), "13 0 0 0 0 0 0\n");
    assert_eq!(printed(&[0; 65_537]), "19 0 0 0 0 0 0\n");
    assert_eq!(printed(&[0; 65_538]), "19 0 0 0 0 0 0\n");
    assert_eq!(printed(&[0; 200_000]), "19 0 0 0 0 0 0\n");
}

/// Six steps over and over: a mode, two points of value 3, a mode, a vector of value 0 back across
/// them, and a jump.
fn endless() -> Vec<u8> {
    let words: [u16; 11] = [
        1, 1, 4, 7, 0o133400, 0o040400, 0o040400, 0o106000, 0o061000, 0o160000, 0,
    ];
    words.iter().flat_map(|word| word.to_le_bytes()).collect()
}

#[test]
fn a_screen_without_a_budget_is_that_of_32768_steps() {
    let bytes = endless();
    for command in ["picture", "fault"] {
        let usual = screen(&[command], &bytes);
        assert!(screen(&[command, "32768"], &bytes) == usual);
        assert!(screen(&[command, "32767"], &bytes) != usual);
        assert!(screen(&[command, "32769"], &bytes) != usual);
    }
}

#[test]
fn a_budget_may_be_0_and_a_million() {
    let mut blank = b"P5\n512 512\n3\n".to_vec();
    let row = blank.len() + 511 * 512;
    blank.resize(row + 512, 0);
    // A million steps end with the fourth of the six.
    let mut points = blank.clone();
    points[row + 1] = 3;
    points[row + 2] = 3;
    for command in ["picture", "fault"] {
        assert!(screen(&[command, "0"], &endless()) == blank);
        assert!(screen(&[command, "1000000"], &endless()) == points);
        for refused in [&[1][..], &[3, 0, 1, 0][..]] {
            assert!(screen(&[command, "0"], refused) == blank);
            assert!(screen(&[command, "1000000"], refused) == blank);
        }
    }
}

#[test]
fn the_built_in_set_is_written_byte_by_byte() {
    assert_eq!(screen(&["set"], &[]), second::BUILT_IN);
}

/// The picture of the characters 1 and 7 with a file of so many bytes, all 0xFF, as the set.
fn picture_with_set(name: &str, bytes: usize) -> Vec<u8> {
    let path = env::temp_dir().join(format!("second-set-{}-{}", process::id(), name));
    fs::write(&path, vec![0xFF; bytes]).expect("a file");
    let words: [u16; 7] = [1, 1, 4, 3, 0o100000, 0x3731, 0o172000];
    let input: Vec<u8> = words.iter().flat_map(|word| word.to_le_bytes()).collect();
    let drawn = screen(&["picture", "1000", path.to_str().expect("text")], &input);
    fs::remove_file(&path).expect("removed");
    if bytes == 0 {
        // As without a set.
        assert!(drawn == screen(&["picture", "1000"], &input));
        assert!(drawn == screen(&["fault", "1000"], &input));
    }
    drawn
}

#[test]
fn a_picture_takes_a_lent_set_from_a_file() {
    let mut blank = b"P5\n512 512\n3\n".to_vec();
    let head = blank.len();
    blank.resize(head + 512 * 512, 0);
    // Two cells full of ink in the lower left corner.
    let mut cells = blank.clone();
    for row in 504..512 {
        cells[head + 512 * row..head + 512 * row + 16].fill(3);
    }
    assert!(picture_with_set("full", 760) == cells);
    for (name, bytes) in [("one", 1), ("less", 759), ("more", 761), ("much", 70_000)] {
        assert!(picture_with_set(name, bytes) == blank, "{} bytes", bytes);
    }
    let built_in = picture_with_set("none", 0);
    assert_eq!(
        built_in
            .iter()
            .skip(head)
            .filter(|&&digit| digit == 3)
            .count(),
        21 + 18
    );
}

#[test]
fn a_set_that_is_not_there_is_a_failure() {
    let output = call(&["picture", "1000", "/dev/null/none"], &[1, 0]);
    assert_eq!(output.status.code(), Some(1));
    assert!(output.stdout.is_empty());
}

#[test]
fn other_arguments_get_a_sentence_and_status_2() {
    let wrong: [&[&str]; 19] = [
        &[],
        &["Plot"],
        &["plot", "file"],
        &["--help"],
        &[""],
        &["plot", "1000"],
        &["picture", "1000001"],
        &["picture", "18446744073709551616"],
        &["picture", "-1"],
        &["picture", "1.5"],
        &["picture", "1,000"],
        &["picture", "many"],
        &["picture", ""],
        &["picture", "many", "set"],
        &["picture", "1000", "set", "set"],
        &["set", "1000"],
        &["fault", "1000001"],
        &["fault", "many"],
        &["fault", "1000", "set"],
    ];
    for arguments in wrong {
        let output = call(arguments, &[1, 0]);
        assert_eq!(output.status.code(), Some(2));
        assert!(output.stdout.is_empty());
        let complaint = String::from_utf8(output.stderr).expect("text");
        assert_eq!(complaint.lines().count(), 1);
        assert!(complaint.ends_with(".\n"));
    }
}
