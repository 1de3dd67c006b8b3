//! The random files as the command writes them.

use std::env;
use std::fs;
use std::path::Path;
use std::process::{self, Command, Output};

use second::plot::plot;

fn call(arguments: &[&str]) -> Output {
    Command::new(env!("CARGO_BIN_EXE_second"))
        .args(arguments)
        .output()
        .expect("the program starts and ends")
}

#[test]
fn each_file_has_its_line_in_the_list() {
    let folder = env::temp_dir().join(format!("second-files-{}", process::id()));
    fs::create_dir(&folder).expect("a folder");
    let path = folder.to_str().expect("a name in UTF-8");
    let output = call(&["files", "5", "120", path]);
    assert!(output.status.success());
    assert!(output.stdout.is_empty() && output.stderr.is_empty());
    let expected = fs::read_to_string(folder.join("expected")).expect("the list");
    assert_eq!(expected.lines().count(), 120);
    for (number, line) in (1..).zip(expected.lines()) {
        let bytes = fs::read(folder.join(format!("{:05}.df", number))).expect("a file");
        assert_eq!(line, plot(&bytes).to_string(), "file {}", number);
    }
    assert_eq!(fs::read_dir(&folder).expect("the folder").count(), 121);
    fs::remove_dir_all(&folder).expect("removed");
}

#[test]
fn a_folder_that_is_not_there_is_a_failure() {
    let output = call(&["files", "5", "1", "/dev/null/none"]);
    assert_eq!(output.status.code(), Some(1));
    assert!(!Path::new("/dev/null/none").exists());
}

#[test]
fn other_arguments_get_a_sentence_and_status_2() {
    let wrong: [&[&str]; 4] = [
        &["files"],
        &["files", "1", "2"],
        &["files", "1", "-2", "."],
        &["files", "1", "2", ".", "."],
    ];
    for arguments in wrong {
        let output = call(arguments);
        assert_eq!(output.status.code(), Some(2));
        assert!(output.stdout.is_empty());
        assert_eq!(output.stderr.iter().filter(|&&b| b == b'\n').count(), 1);
    }
}
