//! `words` and `text`: text to records and back, by the built program.

mod program;

use program::{bik, examples, fed, CLUB};
use std::fs;
use std::path::{Path, PathBuf};

#[test]
fn words_are_numbers_where_asked() {
    let query = "6 1\n1 5 1 6 8 4\n1 0 3 3 0 0\n";
    bik(&["words", "rowing.bik", "Rowers", "--numbers"]).says(query, 0);
    let schema = "3 2 2 4 2\n1024 257 769 1280\n0 0 0 2\n";
    fed(CLUB, &["words", "--numbers", "-", "schema"]).says(schema, 0);
    let state = "\
1 4 2
0 512 16384 16896
0 0 0 0
";
    fed(CLUB, &["words", "-", "bad", "--numbers"]).says(state, 0);
    let views = "View A isA Object end View B with derived this end";
    let catalogue = "2\n4 6\n1 0\n2\n0\n2 0\n5 8\n0 0\n";
    fed(views, &["words", "-", "catalogue", "--numbers"]).says(catalogue, 0);
}

#[test]
fn long_records_are_wrapped() {
    let classes: String = (0..24).map(|i| format!("Class C{i} end\n")).collect();
    let axioms: String = (1..20).map(|i| format!("axiom C{i} isA C0\n")).collect();
    let printed = fed(classes + &axioms, &["words", "-", "schema", "--numbers"]);
    let lines: Vec<usize> = printed
        .text()
        .lines()
        .map(|line| line.split(' ').count())
        .collect();
    assert_eq!(lines, [5, 16, 3, 16, 3]);
}

/// Every record that is written as bytes is the shipped one.
#[test]
fn words_are_the_shipped_records() {
    for (file, name, record) in [
        ("rowing.bik", "schema", "schema.bin"),
        ("rowing.bik", "Rowers", "query.bin"),
        ("rowing.bik", "Recorded", "view.bin"),
        ("rowing.bik", "catalogue", "catalogue.bin"),
        ("stroke.bik", "schema", "stroke/schema.bin"),
        ("stroke.bik", "StrokeBeats", "stroke/query.bin"),
        ("stroke.bik", "RowerBeats", "stroke/view.bin"),
        ("stroke.bik", "AttendedBeats", "stroke/attended/view.bin"),
    ] {
        let written = bik(&["words", file, name]);
        let shipped = fs::read(examples().join(record)).expect("a shipped record");
        assert_eq!((written.status, written.faults.as_str()), (0, ""));
        assert_eq!(written.bytes, shipped, "{file} {name}");
    }
}

/// The text of all shipped records is read again, and has the same records.
#[test]
fn text_of_the_shipped_records_is_read_again() {
    for folder in ["", "reversed", "stroke", "stroke/attended"] {
        let folder = examples().join(folder);
        let mut further: Vec<PathBuf> = records(&folder);
        further.retain(|path| path.file_name() != Some("schema.bin".as_ref()));
        assert!(!further.is_empty());
        let schema = folder.join("schema.bin");
        let paths: Vec<&str> = [&schema]
            .into_iter()
            .chain(&further)
            .map(|path| utf8(path))
            .collect();
        let text = bik(&[&["text"], &paths[..]].concat());
        assert_eq!((text.status, text.faults.as_str()), (0, ""));
        for path in [&schema].into_iter().chain(&further) {
            let name = utf8(Path::new(path.file_stem().expect("a stem")));
            let again = fed(&text.bytes, &["words", "-", name]);
            let shipped = fs::read(path).expect("a shipped record");
            assert_eq!((again.status, again.faults.as_str()), (0, ""));
            assert_eq!(again.bytes, shipped, "{}", path.display());
        }
    }
}

fn records(folder: &Path) -> Vec<PathBuf> {
    let entries = fs::read_dir(folder).expect("a folder of records");
    let paths = entries.map(|entry| entry.expect("an entry").path());
    let mut paths: Vec<PathBuf> = paths
        .filter(|path| path.extension() == Some("bin".as_ref()))
        .collect();
    paths.sort();
    paths
}

fn utf8(path: &Path) -> &str {
    path.to_str().expect("text")
}
