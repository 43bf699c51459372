//! The filter of smooth pairs (card 2): RENDER against the independent renderer in rows of every small width, with every k
//! at every column, windows past the ends, and sums that are held to 0 and to 1,023. Rows are written as the view reads them.

mod paper;
mod random;

use luphwezane::{render, Settings, View};
use paper::{stored, Kind, LeftRow};
use random::Random;
use std::collections::BTreeSet;

/// What the rows of a test have had.
#[derive(Default)]
struct Reached {
    /// View, width, column and k of smooth pairs.
    steps: BTreeSet<(usize, usize, usize, usize)>,
    /// View, and whether the filter's window passes the first column and the last.
    windows: BTreeSet<(usize, bool, bool)>,
    /// View, and whether the filter gave less than 0 or more than 1,023.
    held: BTreeSet<(usize, bool, bool)>,
}

impl Reached {
    /// Draws a row by the library and by the independent renderer.
    fn compare(&mut self, view: View, texture: &[u16], depths: &[u8]) -> Vec<u16> {
        let settings = settings(depths.len());
        let (stored_texture, stored_depths) = (stored(view, texture), stored(view, depths));
        let row = render(&settings, view, &stored_texture, &stored_depths).expect("RENDER accepts it");
        let pixels = paper::drawn_row(&settings, view as usize, &stored_texture, &stored_depths).pixels;
        assert_eq!(row.samples, pixels.iter().map(|x| x.sample).collect::<Vec<_>>(), "{view:?}, {texture:?}, {depths:?}");
        assert_eq!(row.marks, paper::packed(pixels.iter().map(|x| x.mark)));
        assert_eq!(row.fronts, pixels.iter().map(|x| x.front).collect::<Vec<_>>());
        self.note(view as usize, &LeftRow::new(&settings, view as usize, texture, depths));
        stored(view, &row.samples)
    }

    fn note(&mut self, view: usize, row: &LeftRow) {
        let w = row.w();
        for p in 0..w {
            let c = row.owner(p);
            let Some(k) = smooth_step(row, p) else { continue };
            self.steps.insert((view, w, c, k));
            if (1..=3).contains(&k) {
                let filtered = row.filtered(c, k);
                self.windows.insert((view, c < 3, c + 4 > w - 1));
                self.held.insert((view, filtered < 0, filtered > 1023));
            }
        }
    }

    /// Every k at every column but the last of rows of these widths; windows inside and past either end or both; sums that
    /// were held and such that were not.
    fn assert_all(&self, widths: &[usize]) {
        for view in 0..2 {
            for &w in widths {
                for c in 0..w - 1 {
                    assert!((0..=4).all(|k| self.steps.contains(&(view, w, c, k))), "view {view}, column {c} of {w}");
                }
            }
            for (first, last) in [(false, false), (true, false), (false, true), (true, true)] {
                assert!(self.windows.contains(&(view, first, last)), "view {view}, past the first {first}, past the last {last}");
            }
            for (below, above) in [(false, false), (true, false), (false, true)] {
                assert!(self.held.contains(&(view, below, above)), "view {view}, below 0 {below}, above 1,023 {above}");
            }
        }
    }
}

/// Settings of a row; the tables' entry d is d.
fn settings(w: usize) -> Settings {
    let table = std::array::from_fn(|d| d as u16);
    let (w, widest_gap, torn_distance) = (w as u32, 8, 1);
    Settings { w, h: 1, left: table, right: table, share: 0, tolerance: 0, widest_gap, torn_distance, total: 0 }
}

/// The k of a position that a smooth pair shows.
fn smooth_step(row: &LeftRow, p: usize) -> Option<usize> {
    let c = row.owner(p);
    let smooth = c < row.w() - 1 && row.kind(c) == Kind::Smooth && row.near_edge(p).is_none();
    smooth.then(|| paper::step(4 * p as i32 - row.place(c), row.gap(c)))
}

/// Depths with a step: columns up to c have the first, the others the second.
fn step(w: usize, c: usize, depths: [u8; 2]) -> Vec<u8> {
    (0..w).map(|e| depths[usize::from(e > c)]).collect()
}

/// Equal depths of k quarters give every column that k; a gap of 8, 7 quarters on, gives 4.
#[test]
fn every_row_of_black_and_white() {
    let (widths, mut reached) = ([1, 2, 3, 4, 5, 6, 7, 8, 9], Reached::default());
    for w in widths {
        let flat = (0..4).map(|k| vec![k; w]);
        let depths: Vec<Vec<u8>> = flat.chain((0..w).map(|c| step(w, c, [7, 3]))).collect();
        for bits in 0..1 << w {
            let texture: Vec<u16> = (0..w).map(|c| if bits >> c & 1 == 1 { 1023 } else { 0 }).collect();
            for (view, depths) in View::BOTH.into_iter().flat_map(|view| depths.iter().map(move |depths| (view, depths))) {
                reached.compare(view, &texture, depths);
            }
        }
    }
    reached.assert_all(&widths);
}

/// Steps of every gap at every column, over random textures.
#[test]
fn every_step_of_depth() {
    let (widths, mut reached, random) = ([1, 2, 3, 4, 5, 6, 7, 8, 9, 16, 40], Reached::default(), &mut Random::new(1, 0));
    for w in widths {
        for (view, c) in View::BOTH.into_iter().flat_map(|view| (0..w).map(move |c| (view, c))) {
            for depths in (0..=12).flat_map(|first| (0..=12).map(move |second| [first, second])) {
                reached.compare(view, &random::texture(random, w, 1, 1023), &step(w, c, depths));
            }
        }
    }
    reached.assert_all(&widths);
}

/// One sample 64 above the others shows the taps of each k, from the last to the first, in dark rows and in light ones.
#[test]
fn one_sample_shows_the_taps() {
    for (view, ground) in View::BOTH.into_iter().flat_map(|view| [(view, 100), (view, 900)]) {
        let mut texture = [ground; 15];
        texture[7] += 64;
        let shown = |k| {
            let row = Reached::default().compare(view, &texture, &[k; 15]);
            row[2..12].iter().map(|&sample| i32::from(sample) - i32::from(ground)).collect::<Vec<_>>()
        };
        assert_eq!(shown(0), [0, 0, 0, 0, 0, 64, 0, 0, 0, 0]);
        assert_eq!(shown(1), [0, 0, 1, -5, 17, 58, -10, 4, -1, 0]);
        assert_eq!(shown(2), [0, -1, 4, -11, 40, 40, -11, 4, -1, 0]);
        assert_eq!(shown(3), [0, -1, 4, -10, 58, 17, -5, 1, 0, 0]);
    }
}

/// The sample that a position of an eight-bit row had when the filter held to 255.
fn eight_bit_sample(row: &LeftRow, p: usize) -> i32 {
    match smooth_step(row, p) {
        Some(k @ 1..=3) => row.filtered(row.owner(p), k).clamp(0, 255),
        _ => i32::from(row.pixel(p).sample),
    }
}

/// Depths that come in runs, some of them a few quarters apart.
fn any_depths(random: &mut Random, w: usize) -> Vec<u8> {
    let mut depths = Vec::new();
    while depths.len() < w {
        depths.resize(depths.len() + random.between(1, 12), random.between(0, 12) as u8);
    }
    depths.truncate(w);
    depths
}

/// Eight-bit rows keep their samples unless the filter cut one down to 255.
#[test]
fn eight_bit_rows_keep_their_samples() {
    let (mut reached, random) = (Reached::default(), &mut Random::new(1, 0));
    for view in View::BOTH {
        let (mut kept, mut cut) = (0, 0);
        for _ in 0..2000 {
            let w = random.between(1, 40);
            let (texture, depths) = (random::texture(random, w, 1, 255), any_depths(random, w));
            let samples = reached.compare(view, &texture, &depths);
            let settings = settings(w);
            let row = LeftRow::new(&settings, view as usize, &texture, &depths);
            for (p, sample) in samples.into_iter().map(i32::from).enumerate() {
                let before = eight_bit_sample(&row, p);
                assert!(sample == before || before == 255 && sample > 255, "{sample}, which was {before}");
                kept += usize::from(sample == before);
                cut += usize::from(sample > before);
            }
        }
        assert!(kept > 0 && cut > 0, "{view:?}: {kept} kept, {cut} cut before");
    }
}
