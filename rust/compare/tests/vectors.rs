//! The vectors of the definition reader: the stored answers, derived by hand, are those of both independent readers.

use std::path::Path;
use zarfolin_compare::face::{Face, Plain};
use zarfolin_compare::naive::Naive;
use zarfolin_compare::vectors::answers;

fn told(face: &dyn Face) {
    let folder = Path::new(env!("CARGO_MANIFEST_DIR")).join("../../crates/vectors");
    let cases = std::fs::read(folder.join("stdin")).unwrap();
    let stored = std::fs::read(folder.join("stdout")).unwrap();
    let found = answers(face, &cases);
    let lines = |text: &[u8]| String::from_utf8_lossy(text).split('\n').map(String::from).collect::<Vec<_>>();
    let differ: Vec<_> = lines(&stored).into_iter().zip(lines(&found)).filter(|(a, b)| a != b).take(20).collect();
    assert!(differ.is_empty(), "{}, stored and found: {differ:#?}", face.name());
    assert!(stored == found);
}

#[test]
fn the_plain_reader_answers_every_vector() {
    told(&Plain);
}

#[test]
fn the_literal_reader_answers_every_vector() {
    told(&Naive);
}
