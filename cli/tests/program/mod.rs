//! Runs the built program, in the folder of the examples.

// Each file of tests uses a part of this.
#![allow(dead_code)]

use std::io::Write;
use std::path::PathBuf;
use std::process::{Child, Command, Output, Stdio};

/// The rowing club with some views and states.
pub const CLUB: &str = "\
Class Person with attribute, single wears end Person
Class Rower isA Person with attribute, necessary wears end Rower
Class Strap end
Attribute wears with domain: Person range: Strap inverse: wearer end
Attribute knows end
Constant Ann
Constant Bea loose
QueryClass Acquainted with derived knows.(knows: ?who) end
QueryClass Rowers isA Rower end
QueryClass ByWho with derived (knows^: ?who) end
View Persons isA Person end
View Wearers with derived (wears: Strap) end
View Strapped isA Person with derived wears end
View Known with derived knows^ end
State good
  ann in Person, Rower with wears: s1; knows: bob, carl
  bob in Person
  carl in Person with knows: ann
  s1 in Strap
  Ann is ann
  Bea is ann
end good
State bad
  ann in Rower, Person
  Ann is ann
  Bea is ann
end
State asked for Acquainted
  ann in Person with knows: bob
  bob in Person with knows: bob
  ?who is bob
  Ann is ann
  Bea is bob
end asked
";

/// A call of each command but `text` on the club as standard input, and the status of
/// its answer. Each prints something.
pub const CALLS: [(&[&str], i32); 11] = [
    (&["decide", "-", "Rowers", "Persons"], 0),
    (&["decide", "-", "Persons", "Rowers"], 1),
    (&["explain", "-", "Rowers", "Persons"], 0),
    (&["explain", "-", "Persons", "Rowers", "--json"], 1),
    (&["serve", "-", "Rowers"], 0),
    (&["order", "-"], 0),
    (&["select", "-", "Rowers", "good"], 0),
    (&["legal", "-", "good"], 0),
    (&["links", "-", "Rowers", "good", "knows"], 0),
    (&["check", "-"], 0),
    (&["words", "-", "good"], 0),
];

/// What the program printed, and its status.
#[derive(Debug)]
pub struct Ran {
    pub bytes: Vec<u8>,
    pub faults: String,
    pub status: i32,
}

impl Ran {
    fn of(output: Output) -> Ran {
        Ran {
            bytes: output.stdout,
            faults: String::from_utf8(output.stderr).expect("faults are text"),
            status: output.status.code().expect("no signal ends it"),
        }
    }

    pub fn text(&self) -> &str {
        std::str::from_utf8(&self.bytes).expect("text")
    }

    /// Standard output and the status, with nothing on standard error.
    #[track_caller]
    pub fn says(&self, text: &str, status: i32) {
        assert_eq!((self.text(), self.faults.as_str()), (text, ""));
        assert_eq!(self.status, status);
    }

    /// Standard error with status 2, and nothing on standard output.
    #[track_caller]
    pub fn faults_as(&self, faults: &str) {
        assert_eq!((self.text(), self.faults.as_str()), ("", faults));
        assert_eq!(self.status, 2);
    }
}

pub fn examples() -> PathBuf {
    PathBuf::from(env!("CARGO_MANIFEST_DIR")).join("../example")
}

pub fn command(arguments: &[&str]) -> Command {
    let mut command = Command::new(env!("CARGO_BIN_EXE_bik"));
    command.args(arguments).current_dir(examples());
    command
}

/// A run without standard input.
pub fn bik(arguments: &[&str]) -> Ran {
    let output = command(arguments).stdin(Stdio::null()).output();
    Ran::of(output.expect("the program runs"))
}

/// A run with this on standard input, which a file called `-` is.
pub fn fed(input: impl AsRef<[u8]>, arguments: &[&str]) -> Ran {
    finish(piped(arguments), input.as_ref())
}

/// A run that waits for its standard input.
pub fn piped(arguments: &[&str]) -> Child {
    let mut command = command(arguments);
    command
        .stdin(Stdio::piped())
        .stdout(Stdio::piped())
        .stderr(Stdio::piped());
    command.spawn().expect("the program runs")
}

/// Hands over standard input and waits for the end.
pub fn finish(mut child: Child, input: &[u8]) -> Ran {
    if let Some(mut stdin) = child.stdin.take() {
        // A program that ends before it has read all is judged by what it says.
        let _ = stdin.write_all(input);
    }
    Ran::of(child.wait_with_output().expect("the program ends"))
}
