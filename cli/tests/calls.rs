//! Wrong calls and names that are not there, told with status 2, and the help.

mod program;

use program::{bik, command, fed, CALLS, CLUB};
use std::ffi::OsStr;
use std::os::unix::ffi::OsStrExt;

#[test]
fn wrong_calls_have_a_line_of_fault_and_one_of_usage() {
    let general = "usage: bik COMMAND ARGUMENT ..";
    let decide = "usage: bik decide FILE QUERY VIEW";
    let explain = "usage: bik explain FILE QUERY VIEW [--svg F] [--dot F] [--json]";
    for (call, wrong, usage) in [
        (&[][..], "which command?", general),
        (&["--"], "which command?", general),
        (
            &["decied"],
            "no command is called `decied`; did you mean `decide`?",
            general,
        ),
        (&["help", "xyzzy"], "no command is called `xyzzy`", general),
        (
            &["decide", "a", "b"],
            "`decide` takes 3 arguments, not 2",
            decide,
        ),
        (
            &["decide", "a", "b", "c", "d"],
            "`decide` takes 3 arguments, not 4",
            decide,
        ),
        (
            &["check"],
            "`check` takes 1 argument, not 0",
            "usage: bik check FILE",
        ),
        (
            &["text"],
            "`text` takes 1 argument or more, not 0",
            "usage: bik text SCHEMA.bin [RECORD.bin ..]",
        ),
        (
            &["decide", "--jsn", "a"],
            "no option is called `--jsn`; did you mean `--json`?",
            decide,
        ),
        (&["-x"], "no option is called `-x`", general),
        (
            &["decide", "--json", "a", "b", "c"],
            "`decide` has no option `--json`",
            decide,
        ),
        (
            &["explain", "a", "b", "c", "--svg"],
            "`--svg` needs the name of a file",
            explain,
        ),
        (
            &["explain", "--svg", "--json", "a"],
            "`--svg` needs the name of a file",
            explain,
        ),
        (
            &["explain", "--dot=", "a"],
            "`--dot` needs the name of a file",
            explain,
        ),
        (
            &["explain", "--json=x", "a"],
            "`--json` takes no value",
            explain,
        ),
        (
            &["explain", "--json", "a", "--json"],
            "`--json` is given twice",
            explain,
        ),
    ] {
        bik(call).faults_as(&format!("bik: {wrong}\n{usage}\n"));
    }
}

#[test]
fn options_may_stand_anywhere_before_two_dashes() {
    let asked = bik(&["explain", "rowing.bik", "Rowers", "Recorded", "--json"]);
    let early = bik(&[
        "--json",
        "explain",
        "rowing.bik",
        "--",
        "Rowers",
        "Recorded",
    ]);
    assert_eq!((asked.bytes, asked.status), (early.bytes, early.status));
    let unread = "bik: cannot read --json: No such file or directory (os error 2)\n";
    bik(&["check", "--", "--json"]).faults_as(unread);
}

/// The version in the header: the command has that of the library.
fn library_version() -> String {
    let header = include_str!("../../include/bikuvoa.h");
    let parts = ["MAJOR", "MINOR", "PATCH"].map(|part| {
        let define = format!("#define BIKUVOA_VERSION_{part} ");
        let number = header.lines().find_map(|line| line.strip_prefix(&define));
        number.expect("a part of the version")
    });
    parts.join(".")
}

#[test]
fn help_and_version() {
    bik(&["--version"]).says(&format!("bik {}\n", library_version()), 0);
    bik(&["-V"]).says("bik 0.8.0\n", 0);
    let all = bik(&["--help"]);
    let called = CALLS.iter().filter_map(|(call, _)| call.first().copied());
    for name in called.chain(["text"]) {
        assert!(all.text().contains(&format!("\n  {name} ")), "{name}");
        let one = bik(&[name, "--help"]);
        assert!(
            one.text().starts_with(&format!("usage: bik {name} ")),
            "{name}"
        );
        assert_eq!((one.faults.as_str(), one.status), ("", 0));
        assert_eq!(bik(&["help", name]).bytes, one.bytes);
    }
    all.says(bik(&["help"]).text(), 0);
    all.says(bik(&["-h"]).text(), 0);
}

#[test]
fn names_that_are_not_there() {
    let missing = "no query or view is called `Rower5` in rowing.bik; did you mean `Rowers`?\n";
    bik(&["decide", "rowing.bik", "Rower5", "Recorded"]).faults_as(missing);
    for (call, fault) in [
        (
            &["decide", "-", "Rowers", "Qqqqqqq"][..],
            "no query or view is called `Qqqqqqq` in -",
        ),
        (
            &["serve", "-", "good"],
            "`good` is a state of -, and no query or view",
        ),
        (
            &["select", "-", "Rowers", "god"],
            "no state is called `god` in -; did you mean `good`?",
        ),
        (
            &["legal", "-", "Rowers"],
            "no state is called `Rowers` in -",
        ),
        (
            &["links", "-", "Rowers", "good", "nows"],
            "no attribute is called `nows` in -; did you mean `knows`?",
        ),
        (
            &["links", "-", "Rowers", "good", "wearer"],
            "`wearer` is the inverse of an attribute; did you mean `wears`?",
        ),
        (
            &["words", "-", "shema"],
            "no query, view or state is called `shema` in -; did you mean `schema`?",
        ),
    ] {
        fed(CLUB, call).faults_as(&format!("{fault}\n"));
    }
    let mut call = command(&["decide", "rowing.bik", "Rowers"]);
    call.arg(OsStr::from_bytes(b"\xff\xfe"));
    assert_eq!(call.output().expect("it ends").status.code(), Some(2));
}

#[test]
fn what_the_library_refuses_has_a_place() {
    let ran = fed(CLUB, &["select", "-", "ByWho", "good"]);
    assert!(ran.faults.starts_with("-:10:40: "), "{}", ran.faults);
    let ran = fed(CLUB, &["decide", "-", "Rowers", "ByWho"]);
    assert!(ran.faults.starts_with("-:10:40: "), "{}", ran.faults);
    let steps = "Attribute a end QueryClass Long with derived a.a.a.a.a.a.a end";
    let ran = fed(steps, &["decide", "-", "Long", "Long"]);
    assert!(
        ran.faults.starts_with("-:1:28: ") && ran.faults.contains("7 steps"),
        "{}",
        ran.faults
    );
}

#[test]
fn a_catalogue_has_1_to_16_views() {
    let refused = "refused as 13: catalogue: no view, too many, or a length that does not fit the count and the length words";
    let views = |count| {
        (0..count)
            .map(|i| format!("View V{i} end\n"))
            .collect::<String>()
    };
    for call in [&["order", "-"][..], &["words", "-", "catalogue"]] {
        fed("", call).faults_as(&format!("- has no view: {refused}\n"));
        let fault =
            format!("-:17:6: View `V16` is one more than 16: {refused}\nView V16 end\n     ^^^\n");
        fed(views(17), call).faults_as(&fault);
        assert_eq!(fed(views(16), call).status, 0);
    }
}
