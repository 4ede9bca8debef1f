//! The pictures in docs/ are those that the command draws of the examples now.

use bik::source::Source;
use bik::{explain, picture, read};
use std::fs;
use std::path::Path;

/// The picture of the answer to that query and view of that example.
fn drawn(example: &str, query: &str, view: &str) -> String {
    let root = Path::new(env!("CARGO_MANIFEST_DIR")).join("..");
    let text = fs::read_to_string(root.join("example").join(example)).expect("an example");
    let name = example.to_string();
    let file = read::read(Source { name, text }).expect("a file without faults");
    let asked = |name| file.query(name).expect("a query or view of the file");
    let answer = explain::explain(&file, asked(query), asked(view), &mut |_| {});
    let drawing = answer.expect("an explanation").drawing(&mut |_| {});
    picture::svg(&drawing.expect("a drawing"))
}

#[test]
fn the_pictures_are_up_to_date() {
    let pictures = [
        ("rowing-held.svg", "rowing.bik", "Rowers", "Recorded"),
        ("rowing-open.svg", "rowing.bik", "Recorded", "Rowers"),
        (
            "patient-open.svg",
            "patient.bik",
            "ViewPatient",
            "QueryPatient",
        ),
    ];
    let docs = Path::new(env!("CARGO_MANIFEST_DIR")).join("../docs");
    for (picture, example, query, view) in pictures {
        let kept = fs::read_to_string(docs.join(picture)).expect("a picture");
        let is_kept = kept == drawn(example, query, view);
        assert!(is_kept, "{picture} is another one: run example/write");
    }
}
