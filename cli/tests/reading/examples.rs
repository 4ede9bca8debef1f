//! The examples, with the words of tests/triples.py.

use super::{file_of, query, words};
use bikuvoa::{layout, Mark};

#[test]
fn the_patients() {
    let file = file_of(include_str!("../../../example/patient.bik"));
    let schema = [
        9, 5, 0, 10, 0, 256, 512, 512, 512, 768, 513, 769, 1025, 515, 1284, 1, 2, 259, 516, 2, 773,
        3, 3, 1028, 262,
    ];
    assert_eq!(file.schema(), schema);
    let asked = [
        13, 3, 1, 1, 4, 5, 1, 6, 5, 2, 6, 1, 7, 9, 4, 7, 0, 0, 0, 8, 1, 0, 0, 2, 3, 4, 0, 0,
    ];
    assert_eq!(words(&file, "QueryPatient"), asked);
    let listed = [
        16, 4, 1, 5, 1, 6, 8, 4, 5, 1, 6, 1, 6, 5, 1, 6, 9, 4, 0, 0, 5, 3, 0, 0, 0, 3, 1, 4, 4, 0,
        4, 2, 0, 0,
    ];
    assert_eq!(words(&file, "ViewPatient"), listed);
    let views: Vec<_> = file.views().map(|view| view.name.text.as_str()).collect();
    assert_eq!(views, ["ViewPatient"]);
}

#[test]
fn the_club() {
    let file = file_of(include_str!("../../../example/rowing.bik"));
    let schema = [
        5, 4, 0, 10, 0, 1024, 257, 769, 1280, 770, 1281, 772, 1028, 1282, 1283, 0, 0, 0, 2, 1, 516,
        2, 2, 1027, 3,
    ];
    assert_eq!(file.schema(), schema);
    let asked = [6, 1, 1, 5, 1, 6, 8, 4, 1, 0, 3, 3, 0, 0];
    assert_eq!(words(&file, "Rowers"), asked);
    let listed = [
        10, 3, 1, 5, 1, 6, 2, 6, 1, 6, 8, 4, 0, 0, 2, 0, 0, 1, 3, 2, 0, 0,
    ];
    assert_eq!(words(&file, "Recorded"), listed);

    let views: Vec<Vec<u16>> = file.views().map(|view| view.concept.words()).collect();
    let wearers = [4, 1, 5, 1, 6, 8, 0, 2, 0, 0];
    let catalogue: [&[u16]; 5] = [
        &[4, 4, 22, 14, 10],
        &[1, 0, 1, 0],
        &listed,
        &asked,
        &wearers,
    ];
    assert_eq!(layout::catalogue(&views), catalogue.concat());
}

#[test]
fn the_stroke() {
    let file = file_of(include_str!("../../../example/stroke.bik"));
    let schema = [
        5, 5, 0, 11, 0, 1024, 257, 769, 1280, 770, 1281, 772, 1028, 1282, 1283, 1284, 0, 0, 0, 2,
        1, 516, 2, 2, 1027, 3, 769,
    ];
    assert_eq!(file.schema(), schema);
    let asked = [
        13, 4, 5, 1, 7, 10, 7, 8, 5, 1, 6, 10, 6, 8, 4, 0, 2, 1, 0, 0, 0, 0, 3, 2, 0, 4, 0, 0,
    ];
    assert_eq!(words(&file, "StrokeBeats"), asked);
    let marks = [("stroke".to_string(), Mark(0))];
    assert_eq!(query(&file, "StrokeBeats").marks, marks);
    let rowers = [6, 2, 5, 1, 7, 1, 7, 8, 0, 2, 1, 1, 0, 0];
    assert_eq!(words(&file, "RowerBeats"), rowers);
    let attended = [6, 2, 5, 1, 6, 1, 7, 8, 0, 3, 2, 0, 3, 0];
    assert_eq!(words(&file, "AttendedBeats"), attended);
}
