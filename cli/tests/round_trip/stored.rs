//! The records that are stored in the repository.

use super::there_and_back;
use bik::decode;
use bikuvoa::{check_query, check_view, layout, Schema};
use std::fs;
use std::path::{Path, PathBuf};

fn root() -> PathBuf {
    Path::new(env!("CARGO_MANIFEST_DIR")).join("..")
}

fn words(file: &Path) -> Vec<u16> {
    let bytes = fs::read(file).unwrap_or_else(|error| panic!("{}: {error}", file.display()));
    let words = decode::words("stored", &bytes).expect("an even number of bytes");
    assert_eq!(decode::bytes(&words), bytes);
    words
}

/// The next so many words.
fn take<'a>(words: &mut &'a [u16], count: u16) -> &'a [u16] {
    let (taken, rest) = words.split_at(count.into());
    *words = rest;
    taken
}

#[test]
fn triples() {
    let words = words(&root().join("crates/triples/data/triples.bin"));
    let mut rest = words.as_slice();
    let mut count = 0;
    while let [schema, query, view, ..] = *rest {
        take(&mut rest, 3);
        let records = [schema, query, view].map(|length| take(&mut rest, length).to_vec());
        let [schema, query, view] = records;
        // Some triples have a refused record; the others of these are held too.
        let mut records = Vec::new();
        if Schema::from_words(schema.clone()).is_ok() {
            records.push(schema.clone());
        }
        if check_query(&schema, &query).is_ok() {
            records.push(query);
        }
        if check_view(&schema, &view).is_ok() {
            let catalogue = layout::catalogue(&[&view, &view]);
            records.extend([view, catalogue]);
        }
        if !records.is_empty() {
            there_and_back(&records);
        }
        count += records.len();
    }
    assert!(rest.is_empty() && count >= 184, "{count} accepted");
}

/// A case is its role, its length and its words; the expected output has its refusal,
/// 0 if it is accepted.
#[test]
fn edges() {
    let words = words(&root().join("crates/record_edges/data/cases.bin"));
    let expected = fs::read_to_string(root().join("crates/record_edges/stdout"));
    let expected = expected.expect("the expected output");
    let mut rest = words.as_slice();
    let mut schema = vec![0; 5];
    let mut accepted = 0;
    for line in expected.lines() {
        let header = take(&mut rest, 2);
        let record = take(&mut rest, header[1]).to_vec();
        let told: Vec<&str> = line.split(' ').collect();
        match (told[1], told[2]) {
            ("schema", "0") => {
                there_and_back(std::slice::from_ref(&record));
                schema = record;
            }
            ("schema", _) => assert!(decode::file(("s", record), Vec::new()).is_err(), "{line}"),
            ("query", "0") | ("concept", "0") | ("state", "0") => {
                there_and_back(&[schema.clone(), record]);
            }
            ("view", "0") => {
                there_and_back(&[schema.clone(), layout::catalogue(&[record])]);
            }
            ("query", _) => {
                let decoded = decode::file(("s", schema.clone()), vec![("q", record)]);
                assert!(decoded.is_err(), "{line}");
            }
            _ => continue,
        }
        accepted += usize::from(told[2] == "0");
    }
    assert!(rest.is_empty() && accepted >= 67, "{accepted} accepted");
}

#[test]
fn files() {
    let mut folders = Vec::new();
    let crates = fs::read_dir(root().join("crates")).expect("the crates");
    let crates = crates.map(|entry| entry.expect("a crate").path().join("data"));
    let mut open: Vec<PathBuf> = crates.filter(|data| data.is_dir()).collect();
    open.push(root().join("example"));
    while let Some(folder) = open.pop() {
        let entries = fs::read_dir(&folder).expect("a folder");
        let paths = entries.map(|entry| entry.expect("an entry").path());
        let (inner, mut files): (Vec<_>, Vec<_>) = paths.partition(|path| path.is_dir());
        open.extend(inner);
        files.retain(|path| path.extension().is_some_and(|ending| ending == "bin"));
        files.sort();
        folders.push((folder, files));
    }
    let mut count = 0;
    for (folder, files) in folders {
        let schema = folder.join("schema.bin");
        if !files.contains(&schema) {
            continue;
        }
        let schema = words(&schema);
        for file in files {
            let record = words(&file);
            match file.file_stem().and_then(|stem| stem.to_str()) {
                Some("schema") => there_and_back(&[record]),
                Some("view") => {
                    assert!(check_view(&schema, &record).is_ok());
                    there_and_back(&[schema.clone(), record.clone(), layout::catalogue(&[record])])
                }
                _ => there_and_back(&[schema.clone(), record]),
            };
            count += 1;
        }
    }
    assert!(count >= 21, "{count} files");
}
