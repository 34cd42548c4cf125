//! Library and Rust give the same answers on every line of Derive, Open and Replay.
use crate::{derive, open, replay};
use library::answer::{word, REFUSED};

#[test]
fn derive_answers_alike() {
    for case in derive::cases() {
        assert_eq!(case.proved(), case.rust());
    }
}

#[test]
fn open_answers_alike() {
    for file in open::groups().iter().flat_map(|group| &group.files) {
        assert_eq!(library::open(file), open::open(file), "{file:02x?}");
    }
}

#[test]
fn replay_answers_alike() {
    for (name, (file, trace)) in replay::all() {
        for length in 0..=trace.len() {
            assert_eq!(library::replay(&file, &trace[..length]), replay::replay(&file, &trace[..length]), "{name}, {length} bytes");
        }
        assert_ne!(word(library::replay(&file, &trace)), REFUSED, "{name}");
    }
}
