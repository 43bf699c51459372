//! A made scene: a wall and a floor with a ball, a box, a pole and a sign in front of them, seen by two cameras and from
//! seats between them, in samples of ten bits. All numbers are whole, so that it is the same everywhere.
#![allow(dead_code)] // each program uses its own part

/// The seats from which the scene is seen, from the left camera to the right one.
pub const SEATS: [i32; 5] = [0, 1, 2, 3, 4];
pub const LEFT: i32 = 0;
pub const MIDDLE: i32 = 2;
pub const RIGHT: i32 = 4;

/// Two textures with their depths, and what is seen from between.
pub struct Scene {
    pub w: usize,
    pub h: usize,
    pub textures: [Vec<u16>; 2],
    pub reference: Vec<u16>,
    pub depths: [Vec<u8>; 2],
}

/// Disparities in quarter samples that rise with the depth, 0 to `largest`.
pub fn table(largest: u16) -> [u16; 256] {
    std::array::from_fn(|d| (d as u32 * u32::from(largest) / 255) as u16)
}

/// What a seat is called besides its number.
pub fn place(seat: i32) -> &'static str {
    match seat {
        LEFT => ", left camera",
        MIDDLE => ", middle",
        RIGHT => ", right camera",
        _ => "",
    }
}

/// How far a seat shows each depth left of where the middle shows it, in quarters: as far as the table says at the right camera,
/// as far to the right at the left one.
fn shift(table: &[u16; 256], seat: i32) -> [i32; 256] {
    table.map(|quarters| (seat - MIDDLE) * i32::from(quarters) / 2)
}

/// The tables of both views for a seat, where `table` is that of the middle: what one camera's picture is shifted more, the
/// other's is shifted less.
pub fn tables(table: &[u16; 256], seat: i32) -> [[u16; 256]; 2] {
    let shift = shift(table, seat);
    [1, -1].map(|side| std::array::from_fn(|d| (i32::from(table[d]) + side * shift[d]) as u16))
}

/// The scene at w × h for these disparities.
pub fn made(w: usize, h: usize, table: &[u16; 256]) -> Scene {
    let ((left, left_depths), (right, right_depths)) = (drawn(w, h, table, LEFT, 1), drawn(w, h, table, RIGHT, 2));
    Scene { w, h, textures: [left, right], reference: seen_from(w, h, table, MIDDLE), depths: [left_depths, right_depths] }
}

/// What a further camera would see from a seat.
pub fn seen_from(w: usize, h: usize, table: &[u16; 256], seat: i32) -> Vec<u16> {
    drawn(w, h, table, seat, 3).0
}

/// The picture of a camera at a seat, with a grain of its own, and the depths.
fn drawn(w: usize, h: usize, table: &[u16; 256], seat: i32, seed: u32) -> (Vec<u16>, Vec<u8>) {
    let stage = Stage { w: w as i32, h: h as i32, shift: shift(table, seat) };
    let places = (0..h as i32).flat_map(|y| (0..w as i32).map(move |x| (x, y)));
    places.map(|(x, y)| stage.seen(seed, x, y)).unzip()
}

/// Depths at a coarse resolution: the nearest of each block.
pub fn coarse(depths: &[u8], w: usize, h: usize, side: usize) -> Vec<u8> {
    let mut plane = vec![0; w * h];
    for row in (0..h).step_by(side) {
        for column in (0..w).step_by(side) {
            let places = || (row..h.min(row + side)).flat_map(|y| (column..w.min(column + side)).map(move |x| y * w + x));
            let nearest = places().map(|at| depths[at]).max().expect("a block has a place");
            places().for_each(|at| plane[at] = nearest);
        }
    }
    plane
}

struct Stage {
    w: i32,
    h: i32,
    shift: [i32; 256],
}

/// Things from near to far. Their outlines are on a stage of 320 × 192.
#[derive(Clone, Copy)]
enum Thing {
    Pole,
    Ball,
    Box,
    Sign,
    Ground,
}

const THINGS: [Thing; 5] = [Thing::Pole, Thing::Ball, Thing::Box, Thing::Sign, Thing::Ground];

impl Stage {
    /// Sample and depth at column x of row y.
    fn seen(&self, seed: u32, x: i32, y: i32) -> (u16, u8) {
        for thing in THINGS {
            let depth = self.depth(thing, y);
            let quarters = 4 * x + self.shift[usize::from(depth)];
            if self.covers(thing, quarters, y) {
                let grain = (hash(x, y, seed) % 17) as i32 - 8;
                return ((self.sample(thing, quarters, y) + grain).clamp(0, 1023) as u16, depth);
            }
        }
        unreachable!("the ground is everywhere");
    }

    /// The stage's place of a number of quarters and a row, in quarters and rows of 320 × 192.
    fn stage(&self, quarters: i32, y: i32) -> (i32, i32) {
        (quarters * 320 / self.w, y * 192 / self.h)
    }

    fn depth(&self, thing: Thing, y: i32) -> u8 {
        let (_, y) = self.stage(0, y);
        match thing {
            Thing::Pole => 225,
            Thing::Ball => 190,
            Thing::Box => 140,
            Thing::Sign => 96,
            Thing::Ground if y < 120 => 40,
            Thing::Ground => (40 + (y - 120) * 3 / 4) as u8,
        }
    }

    fn covers(&self, thing: Thing, quarters: i32, y: i32) -> bool {
        let (x, y) = self.stage(quarters, y);
        match thing {
            Thing::Pole => (4 * 248..4 * 257).contains(&x) && (18..172).contains(&y),
            Thing::Ball => (x - 4 * 112).pow(2) + (4 * (y - 112)).pow(2) < (4 * 44_i32).pow(2),
            Thing::Box => (4 * 190..4 * 296).contains(&x) && (86..158).contains(&y),
            Thing::Sign => (4 * 36..4 * 92).contains(&x) && (24..58).contains(&y),
            Thing::Ground => true,
        }
    }

    fn sample(&self, thing: Thing, quarters: i32, y: i32) -> i32 {
        let (x, t) = self.stage(quarters, y);
        let rough = noise(quarters, 4 * y, 24, 11) / 5 + noise(quarters, 4 * y, 10, 12) / 10;
        match thing {
            Thing::Pole => 800 + rough / 2 - wave(t, 14) / 6,
            Thing::Ball => 800 + rough - ((x - 4 * 100).pow(2) + (4 * (t - 96)).pow(2)) / 120,
            Thing::Box => 120 + rough + wave(x, 4 * 22) / 2,
            Thing::Sign => 600 + rough + wave(x + 4 * t, 4 * 16) / 6,
            Thing::Ground if t < 120 => 60 + rough + wave(x, 4 * 50) / 6 + wave(t, 40) / 8,
            Thing::Ground => rough - 40 + 2 * (t - 120) + wave(x + 2 * t, 4 * 34) / 5,
        }
    }
}

/// A triangle wave, 0 to 1,023.
fn wave(x: i32, period: i32) -> i32 {
    let at = x.rem_euclid(period);
    at.min(period - at) * 2046 / period
}

/// Noise that is smooth between the points of a grid, 0 to 1,023.
fn noise(x: i32, y: i32, step: i32, seed: u32) -> i32 {
    let (column, row) = (x.div_euclid(step), y.div_euclid(step));
    let (right, down) = (x.rem_euclid(step), y.rem_euclid(step));
    let at = |c: i32, r: i32| (hash(c, r, seed) & 1023) as i32;
    let top = at(column, row) * (step - right) + at(column + 1, row) * right;
    let bottom = at(column, row + 1) * (step - right) + at(column + 1, row + 1) * right;
    (top * (step - down) + bottom * down) / (step * step)
}

fn hash(x: i32, y: i32, seed: u32) -> u32 {
    let mut z = (x as u32).wrapping_mul(0x9e37_79b1) ^ (y as u32).wrapping_mul(0x85eb_ca77) ^ seed.wrapping_mul(0xc2b2_ae3d);
    z = (z ^ (z >> 15)).wrapping_mul(0x2c1b_3c6d);
    z = (z ^ (z >> 12)).wrapping_mul(0x297a_2d39);
    z ^ (z >> 15)
}
