//! Each script of examples/ has its stored answers.

use std::fs::{read, read_dir};

#[test]
fn scripts_have_their_answers() {
    let mut played = 0;
    for entry in read_dir("..").unwrap() {
        let path = entry.unwrap().path();
        let name = path.to_string_lossy().into_owned();
        let stem = match name.strip_suffix(".answers.jsonl") {
            Some(stem) if !stem.ends_with(".format3") => stem, // these are of sessions that read version 3
            _ => continue,
        };
        let mut session = pgpeer::Session::open().unwrap();
        let mut told: Vec<u8> = Vec::new();
        for line in read(format!("{stem}.jsonl")).unwrap().split_inclusive(|byte| *byte == b'\n') {
            told.extend(session.tell(line.strip_suffix(b"\n").unwrap_or(line)).unwrap());
        }
        assert_eq!(told, read(&path).unwrap(), "{stem}");
        played += 1;
    }
    assert!(played > 10);
}
