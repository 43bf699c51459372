//! HOLES over marks of every kind of row: whole words, a tail of bytes and bits, and spare bits of 1, which never count.
//!
//! Random planes begin at every offset in a word, since the caller chooses where they lie.

mod paper;
mod random;

use luphwezane::{lent, Settings};
use random::Random;

fn settings(w: usize, h: usize) -> Settings {
    let (w, h) = (w as u32, h as u32);
    Settings { w, h, left: [0; 256], right: [0; 256], share: 0, tolerance: 0, widest_gap: 8, torn_distance: 1, total: 0 }
}

/// The widths of every tail behind none to three words, and the widest.
fn widths() -> impl Iterator<Item = usize> {
    (1..=256).chain(4025..=4096)
}

fn holes(settings: &Settings, view: u32, marks: [&[u8]; 2]) -> u64 {
    lent::holes(settings, view, marks).expect("HOLES accepts it")
}

#[test]
fn every_bit_counts_once() {
    for w in widths() {
        let settings = settings(w, 1);
        let mut marks = vec![0; paper::mark_bytes(w)];
        let none = marks.clone();
        for bit in 0..8 * marks.len() {
            marks[bit / 8] = 1 << (bit % 8);
            assert_eq!(holes(&settings, 0, [&marks, &none]), u64::from(bit < w), "bit {bit} of a row of {w}");
            assert_eq!(holes(&settings, 1, [&marks, &none]), 0);
            marks[bit / 8] = 0;
        }
    }
}

#[test]
fn every_mark_is_a_hole() {
    for w in widths() {
        let marks = vec![255; 3 * paper::mark_bytes(w)];
        assert_eq!(holes(&settings(w, 3), 1, [&marks, &marks]), 3 * w as u64, "rows of {w}");
    }
}

#[test]
fn random_marks() {
    random::sessions("holes", 2000, |random: &mut Random, number| {
        let w = random.pick(&widths().collect::<Vec<usize>>());
        let (h, start) = (random.between(1, 9), number as usize % 8);
        let settings = settings(w, h);
        let memory = [0, 1].map(|_| random.bytes(start + paper::mark_bytes(w) * h));
        let marks = [&memory[0][start..], &memory[1][start..]];
        for view in 0..2 {
            assert_eq!(holes(&settings, view as u32, marks), paper::holes(&settings, marks[view]));
        }
    });
}
