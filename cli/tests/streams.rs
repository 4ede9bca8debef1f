//! Input that cannot be read and output that cannot be written: always status 2 and a
//! line that says why, and never a panic.

mod program;

use program::{bik, command, fed, finish, piped, CALLS, CLUB};
use std::fs::{File, OpenOptions};
use std::process::Stdio;

/// A file on a disk that is full.
fn full() -> File {
    let full = OpenOptions::new().write(true).open("/dev/full");
    full.expect("/dev/full")
}

#[test]
fn a_full_disk_is_told() {
    let told = "bik: cannot write standard output: No space left on device (os error 28)\n";
    let others: [&[&str]; 3] = [&["text", "schema.bin"], &["--help"], &["--version"]];
    for call in CALLS.iter().map(|(call, _)| *call).chain(others) {
        let mut command = command(call);
        command
            .stdin(Stdio::piped())
            .stdout(full())
            .stderr(Stdio::piped());
        let child = command.spawn().expect("the program runs");
        let ran = finish(child, CLUB.as_bytes());
        assert_eq!((ran.faults.as_str(), ran.status), (told, 2), "{call:?}");
    }
}

#[test]
fn a_closed_pipe_is_told() {
    let told = "bik: cannot write standard output: Broken pipe (os error 32)\n";
    for (call, status) in CALLS {
        // It answers only after its standard input has ended.
        let mut child = piped(call);
        drop(child.stdout.take());
        let ran = finish(child, CLUB.as_bytes());
        assert_eq!((ran.faults.as_str(), ran.status), (told, 2), "{call:?}");
        let ran = fed(CLUB, call);
        assert_eq!((ran.faults.as_str(), ran.status), ("", status), "{call:?}");
    }
}

#[test]
fn faults_that_cannot_be_written_are_no_panic() {
    let mut full_disk = command(&["decide"]);
    let status = full_disk.stderr(full()).status().expect("it ends");
    assert_eq!(status.code(), Some(2));
    let mut child = piped(&["check", "-"]);
    drop((child.stdout.take(), child.stderr.take()));
    assert_eq!(finish(child, b"").status, 2);
}

#[test]
fn a_file_that_cannot_be_written_is_told_by_name() {
    let call = ["explain", "rowing.bik", "Recorded", "Rowers"];
    for option in ["--svg", "--dot"] {
        let ran = bik(&[&call[..], &[option, "not/there.x"]].concat());
        ran.faults_as("bik: cannot write not/there.x: No such file or directory (os error 2)\n");
        let ran = bik(&[&call[..], &[option, "/dev/full"]].concat());
        ran.faults_as("bik: cannot write /dev/full: No space left on device (os error 28)\n");
    }
}

#[test]
fn input_that_cannot_be_read() {
    let unread = "bik: cannot read nowhere.bik: No such file or directory (os error 2)\n";
    bik(&["check", "nowhere.bik"]).faults_as(unread);
    bik(&["check", ""]).faults_as("bik: cannot read : No such file or directory (os error 2)\n");
    bik(&["check", "."]).faults_as("bik: cannot read .: Is a directory (os error 21)\n");
    bik(&["check", "/dev/zero"])
        .faults_as("bik: cannot read /dev/zero: it has more than 16000000 bytes\n");
    bik(&["text", "/dev/zero"])
        .faults_as("bik: cannot read /dev/zero: it has more than 16000000 bytes\n");
    let bad = "-:2:9: the byte 0xff here is no text in UTF-8\nClass Bé\u{fffd} end\n        ^\n";
    fed(b"Class A end\nClass B\xc3\xa9\xff end\n", &["check", "-"]).faults_as(bad);
    let odd = fed(b"\0\0\0", &["text", "-"]);
    assert!(odd.faults.starts_with("-: 3 bytes"), "{}", odd.faults);
    assert_eq!(odd.status, 2);
}
