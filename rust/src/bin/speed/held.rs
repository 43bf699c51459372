//! What both comparison programs hold and share: the planes of a session, the pixel of a pair of columns with its filter,
//! where a near edge shows, and the combined sample. Plain safe Rust, which trusts its caller: no call tests lengths or
//! tables.

use crate::scene::Scene;
use luphwezane::{Block, Pictures, Planes, PlanesMut, Settings, GREATEST_SAMPLE};

/// Entry i is i × i.
static SQUARES: [u32; 1024] = {
    let mut table = [0; 1024];
    let mut i = 0;
    while i < 1024 {
        table[i] = (i * i) as u32;
        i += 1;
    }
    table
};

/// The planes of a session; views are numbered 0 and 1.
#[derive(Clone, PartialEq)]
pub struct Held {
    pub w: usize,
    pub h: usize,
    pub tables: [[u16; 256]; 2],
    pub share: u32,
    pub tolerance: u32,
    pub gaps: Gaps,
    pub textures: [Vec<u16>; 2],
    pub reference: Vec<u16>,
    pub depths: [Vec<u8>; 2],
    pub samples: [Vec<u16>; 2],
    pub fronts: [Vec<u8>; 2],
    pub limits: [Vec<i16>; 2],
    pub marks: [Vec<u8>; 2],
    pub combined: Vec<u16>,
    pub total: u64,
}

/// The widest gap of a smooth pair and how far a column is shown into a hole, in quarters.
#[derive(Clone, Copy, PartialEq)]
pub struct Gaps {
    widest: i32,
    distance: i32,
}

impl Gaps {
    fn new(settings: &Settings) -> Gaps {
        Gaps { widest: i32::from(settings.widest_gap), distance: i32::from(settings.torn_distance) }
    }
}

impl Held {
    /// Empty planes for a scene.
    pub fn new(settings: &Settings, scene: &Scene) -> Held {
        let (w, h) = (scene.w, scene.h);
        Held {
            w,
            h,
            tables: [settings.left, settings.right],
            share: u32::from(settings.share),
            tolerance: u32::from(settings.tolerance),
            gaps: Gaps::new(settings),
            textures: scene.textures.clone(),
            reference: scene.reference.clone(),
            depths: scene.depths.clone(),
            samples: [vec![0; w * h], vec![0; w * h]],
            fronts: [vec![0; w * h], vec![0; w * h]],
            limits: [vec![0; w * h], vec![0; w * h]],
            marks: [vec![0; w.div_ceil(8) * h], vec![0; w.div_ceil(8) * h]],
            combined: vec![0; w * h],
            total: 0,
        }
    }

    /// Takes what a MOVE brings; the planes stay.
    pub fn move_to(&mut self, to: &Settings, reference: &[u16]) {
        self.tables = [to.left, to.right];
        (self.share, self.tolerance, self.gaps) = (u32::from(to.share), u32::from(to.tolerance), Gaps::new(to));
        self.reference.copy_from_slice(reference);
    }

    pub fn is_same(&self, planes: &Planes, total: u64) -> bool {
        let same = |v: usize| {
            planes.depths[v] == self.depths[v]
                && planes.samples[v] == self.samples[v]
                && planes.fronts[v] == self.fronts[v]
                && planes.limits[v] == self.limits[v]
                && planes.marks[v] == self.marks[v]
        };
        same(0) && same(1) && planes.combined == self.combined && total == self.total
    }

    /// The pictures and planes as the library's calls are lent them.
    pub fn lent(&mut self) -> (Pictures<'_>, PlanesMut<'_>) {
        let pictures = Pictures { textures: self.textures.each_ref().map(Vec::as_slice), reference: &self.reference };
        let planes = PlanesMut {
            depths: self.depths.each_mut().map(Vec::as_mut_slice),
            samples: self.samples.each_mut().map(Vec::as_mut_slice),
            fronts: self.fronts.each_mut().map(Vec::as_mut_slice),
            limits: self.limits.each_mut().map(Vec::as_mut_slice),
            marks: self.marks.each_mut().map(Vec::as_mut_slice),
            combined: &mut self.combined,
        };
        (pictures, planes)
    }

    /// Bytes of packed marks in a row.
    pub fn mark_bytes(&self) -> usize {
        self.w.div_ceil(8)
    }

    /// The depths of a block of one view, in row order.
    pub fn read(&self, view: usize, block: Block) -> Vec<u8> {
        let rows = block.row as usize..(block.row + block.height) as usize;
        rows.flat_map(|y| &self.depths[view][y * self.w + block.column as usize..][..block.width as usize]).copied().collect()
    }

    /// Writes a candidate into a block of one view's depths.
    pub fn write(&mut self, view: usize, block: Block, candidate: &[u8]) {
        let width = block.width as usize;
        for (k, part) in candidate.chunks_exact(width).enumerate() {
            let at = (block.row as usize + k) * self.w + block.column as usize;
            self.depths[view][at..at + width].copy_from_slice(part);
        }
    }
}

/// A sample as it is read: a higher one is the greatest.
#[inline(always)]
pub fn read(entry: u16) -> u32 {
    u32::from(entry.min(GREATEST_SAMPLE))
}

/// What a view shows at a position. It is wider than it need be: a pixel that fits a word is packed and taken apart again.
#[derive(Clone, Copy)]
pub struct Pixel {
    pub sample: u32,
    pub front: u32,
    pub hole: bool,
}

/// A column, its right neighbour as the view reads the row, their gap in quarters, and the samples around them.
#[derive(Clone, Copy)]
pub struct Pair<'a, const RIGHT: bool> {
    pub window: &'a Window,
    pub depths: [u8; 2],
    pub gap: i32,
    pub gaps: Gaps,
    pub last: bool,
}

impl<const RIGHT: bool> Pair<'_, RIGHT> {
    /// What the pair shows t quarters from its place.
    #[inline(always)]
    pub fn pixel(&self, t: i32) -> Pixel {
        if !self.last && self.gap <= self.gaps.widest {
            let (t, gap) = (t as u32, self.gap as u32);
            let k = (8 * t + gap) / (2 * gap);
            return Pixel { sample: filtered::<RIGHT>(self.window, k as usize), hole: false, front: u32::from(self.depths[0]) };
        }
        let far = t > self.gaps.distance;
        Pixel { sample: read(self.window[if far == RIGHT { 3 } else { 4 }]), hole: far, front: u32::from(self.depths[usize::from(far)]) }
    }
}

/// Whether the last position before the limit of c + 1 shows the greatest column placed at that limit (card 7), where c owns
/// the position: the limit is one quarter further, and `next`, the place of c + 1, is above it.
#[inline(always)]
pub fn near_edge(limit: i32, next: i32) -> bool {
    limit & 3 == 1 && next > limit
}

/// The samples around a pair, in the order in which the row is stored: of columns c − 3 to c + 4 for the left view, of c + 4 to
/// c − 3 for the right.
pub type Window = [u16; 8];

/// The window of the column at entry `at`: a part of the row, or, where it passes an end, `own`, in which ends are repeated. The
/// column's own sample is entry 3, or 4 in the right view, and the other of these is its neighbour's; the last column is its own
/// neighbour.
#[inline(always)]
pub fn window<'a, const RIGHT: bool>(texture: &'a [u16], at: usize, own: &'a mut Window) -> &'a Window {
    let before = if RIGHT { 4 } else { 3 };
    let first = at.wrapping_sub(before);
    match texture.get(first..first.wrapping_add(8)) {
        Some(inside) => inside.try_into().expect("there are eight"),
        None => {
            *own = end_window(texture, at, before);
            own
        }
    }
}

/// Kept out of the loops, which seldom come to an end of the row.
#[cold]
#[inline(never)]
fn end_window(texture: &[u16], at: usize, before: usize) -> Window {
    std::array::from_fn(|i| texture[(at + i).saturating_sub(before).min(texture.len() - 1)])
}

/// The H.265 luma filters of k = 1, 2 and 3; k of 0 and 4 are plain samples. Those of k, read backwards, are those of 4 − k.
#[rustfmt::skip]
static TAPS: [[i16; 8]; 5] = [
    [ 0, 0,   0, 64,  0,   0, 0,  0],
    [-1, 4, -10, 58, 17,  -5, 1,  0],
    [-1, 4, -11, 40, 40, -11, 4, -1],
    [ 0, 1,  -5, 17, 58, -10, 4, -1],
    [ 0, 0,   0,  0, 64,   0, 0,  0],
];

/// The sample of a smooth pair. Products of eight numbers of 16 bits that are added up in 32 have an instruction of their own,
/// which the compiler finds where the window is still in the row.
#[inline(always)]
fn filtered<const RIGHT: bool>(window: &Window, k: usize) -> u32 {
    if k == 0 {
        return read(window[if RIGHT { 4 } else { 3 }]);
    }
    let taps = &TAPS[if RIGHT { 4 - k } else { k }];
    let product = |(&entry, &tap): (&u16, &i16)| i32::from(read(entry) as i16) * i32::from(tap);
    let sum: i32 = window.iter().zip(taps).map(product).sum();
    ((sum + 32) >> 6).clamp(0, i32::from(GREATEST_SAMPLE)) as u32
}

#[inline(always)]
pub fn combine(share: u32, tolerance: u32, left: Pixel, right: Pixel) -> u32 {
    match (left.hole, right.hole) {
        (false, false) if left.front.abs_diff(right.front) <= tolerance => (left.sample * (64 - share) + right.sample * share + 32) / 64,
        (false, false) if left.front > right.front => left.sample,
        (false, true) => left.sample,
        (true, true) if left.front <= right.front => left.sample,
        _ => right.sample,
    }
}

/// The squared difference of two samples, both at most the greatest; the mask spares a test of the index.
#[inline(always)]
pub fn square(a: u32, b: u32) -> u32 {
    SQUARES[a.abs_diff(b) as usize & 1023]
}

/// The first position at or after a place.
#[inline(always)]
pub fn position(place: i32) -> usize {
    ((place + 3) >> 2).max(0) as usize
}

/// Entry i of a row of w as a view reads it.
#[inline(always)]
pub fn seen<const RIGHT: bool>(w: usize, i: usize) -> usize {
    if RIGHT {
        w - 1 - i
    } else {
        i
    }
}

#[cfg(test)]
mod tests {
    use super::{filtered, square, window, TAPS};

    /// The filters over black and white, which have the greatest sums, as each view reads the row.
    #[test]
    fn sums_are_held_to_ten_bits() {
        for (k, taps) in TAPS.iter().enumerate() {
            for bits in 0..256 {
                let window: [u16; 8] = std::array::from_fn(|i| if bits >> i & 1 == 1 { 1023 } else { 0 });
                let sum: i64 = window.iter().zip(taps).map(|(&sample, &tap)| i64::from(sample) * i64::from(tap)).sum();
                let expected = (sum + 32).div_euclid(64).clamp(0, 1023);
                assert_eq!(i64::from(filtered::<false>(&window, k)), expected, "{window:?}, k = {k}");
                let mut backwards = window;
                backwards.reverse();
                assert_eq!(i64::from(filtered::<true>(&backwards, k)), expected, "{backwards:?}, k = {k}");
            }
        }
    }

    #[test]
    fn ends_are_repeated() {
        let row: Vec<u16> = (0..10).collect();
        let left = |row: &[u16], at: usize| *window::<false>(row, at, &mut [0; 8]);
        let right = |row: &[u16], at: usize| *window::<true>(row, at, &mut [0; 8]);
        assert_eq!(left(&row, 3), [0, 1, 2, 3, 4, 5, 6, 7]);
        assert_eq!(left(&row, 2), [0, 0, 1, 2, 3, 4, 5, 6]);
        assert_eq!(left(&row, 9), [6, 7, 8, 9, 9, 9, 9, 9]);
        assert_eq!(right(&row, 4), [0, 1, 2, 3, 4, 5, 6, 7]);
        assert_eq!(right(&row, 9), [5, 6, 7, 8, 9, 9, 9, 9]);
        assert_eq!(right(&row, 0), [0, 0, 0, 0, 0, 1, 2, 3]);
        assert_eq!(left(&row[5..7], 1), [5, 5, 5, 6, 6, 6, 6, 6]);
    }

    #[test]
    fn higher_samples_are_the_greatest() {
        let (high, white) = ([0, 1022, 1024, 65535, 1025, 1023, 32768, 2047], [0, 1022, 1023, 1023, 1023, 1023, 1023, 1023]);
        for k in 0..5 {
            assert_eq!(filtered::<false>(&high, k), filtered::<false>(&white, k), "k = {k}");
            assert_eq!(filtered::<true>(&high, k), filtered::<true>(&white, k), "k = {k}");
        }
    }

    #[test]
    fn squares() {
        for a in 0..=1023 {
            assert_eq!((square(a, 0), square(1023, a)), (a.pow(2), (1023 - a).pow(2)));
        }
    }
}
