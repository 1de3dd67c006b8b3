//! The random files as the command prints them.

use std::process::{Command, Output};

use second::plot::{plot, stored};

fn call(arguments: &[&str]) -> Output {
    Command::new(env!("CARGO_BIN_EXE_second"))
        .args(arguments)
        .output()
        .expect("the program starts and ends")
}

fn printed(seed: &str, count: &str) -> String {
    let output = call(&["cases", seed, count]);
    assert!(output.status.success());
    assert!(output.stderr.is_empty());
    String::from_utf8(output.stdout).expect("text")
}

/// The bytes that a case shows in hex.
fn bytes_in(hex: &str) -> Vec<u8> {
    if hex == "-" {
        return Vec::new();
    }
    assert_eq!(hex.len() % 2, 0);
    assert!(hex.chars().all(|c| matches!(c, '0'..='9' | 'a'..='f')));
    (0..hex.len() / 2)
        .map(|i| u8::from_str_radix(&hex[2 * i..2 * i + 2], 16).expect("hex"))
        .collect()
}

#[test]
fn each_line_is_a_file_and_what_plot_prints_for_it_and_its_stores() {
    let text = printed("3", "300");
    assert!(text.ends_with('\n'));
    assert_eq!(text.lines().count(), 300);
    for line in text.lines() {
        let parts: Vec<&str> = line.split(' ').collect();
        let bytes = bytes_in(parts[0]);
        assert_eq!(parts[1..8].join(" "), plot(&bytes).to_string(), "{}", line);
        let places: Vec<String> = stored(&bytes)
            .iter()
            .map(|place| format!("{},{}", place.x.0, place.y.0))
            .collect();
        assert_eq!(parts[8..], places, "{}", line);
        assert_eq!(parts[4], places.len().to_string(), "{}", line);
    }
}

#[test]
fn a_seed_gives_the_same_files_each_time() {
    assert_eq!(printed("9", "50"), printed("9", "50"));
    assert_ne!(printed("9", "50"), printed("10", "50"));
    assert!(printed("9", "50").starts_with(&printed("9", "20")));
    assert_eq!(printed("18446744073709551615", "0"), "");
}

#[test]
fn files_of_one_to_eight_segments_occur() {
    let text = printed("4", "500");
    let counts: Vec<u8> = text
        .lines()
        .filter(|line| line.starts_with("0100"))
        .filter_map(|line| bytes_in(line.split(' ').next()?).get(2).copied())
        .collect();
    for count in 1..=8 {
        assert!(counts.contains(&count), "{} segments", count);
    }
}

#[test]
fn other_arguments_get_a_sentence_and_status_2() {
    let wrong: [&[&str]; 6] = [
        &["cases"],
        &["cases", "1"],
        &["cases", "1", "2", "3"],
        &["cases", "one", "2"],
        &["cases", "1", "-2"],
        &["cases", "18446744073709551616", "1"],
    ];
    for arguments in wrong {
        let output = call(arguments);
        assert_eq!(output.status.code(), Some(2), "{:?}", arguments);
        assert!(output.stdout.is_empty());
        let complaint = String::from_utf8(output.stderr).expect("text");
        assert_eq!(complaint.lines().count(), 1);
        assert!(complaint.ends_with(".\n"));
    }
}
