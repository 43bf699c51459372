//! Random numbers, settings, pictures, blocks and candidates for the tests, all from one printed seed.
#![allow(dead_code)] // each test program uses its own part

use crate::paper;
use luphwezane::{Block, Candidate, Pictures, Planes, PlanesMut, Point, Settings, View};
use std::io::Write;

/// A small generator (SplitMix64).
pub struct Random(u64);

impl Random {
    /// The generator of one numbered session of a seed.
    pub fn new(seed: u64, session: u64) -> Random {
        let mut random = Random(seed ^ session.wrapping_mul(0xd134_2543_de82_ef95));
        random.next();
        random
    }

    pub fn next(&mut self) -> u64 {
        self.0 = self.0.wrapping_add(0x9e37_79b9_7f4a_7c15);
        let mut z = self.0;
        z = (z ^ (z >> 30)).wrapping_mul(0xbf58_476d_1ce4_e5b9);
        z = (z ^ (z >> 27)).wrapping_mul(0x94d0_49bb_1331_11eb);
        z ^ (z >> 31)
    }

    /// A number from `low` to `high`, both included.
    pub fn between(&mut self, low: usize, high: usize) -> usize {
        low + (self.next() % (high - low + 1) as u64) as usize
    }

    /// True once in `n` times.
    pub fn once_in(&mut self, n: usize) -> bool {
        self.between(1, n) == 1
    }

    pub fn byte(&mut self) -> u8 {
        self.next() as u8
    }

    pub fn pick<T: Copy>(&mut self, from: &[T]) -> T {
        from[self.between(0, from.len() - 1)]
    }

    pub fn bytes(&mut self, n: usize) -> Vec<u8> {
        (0..n).map(|_| self.byte()).collect()
    }

    /// Entries of samples, of 16 bits, with anything in them.
    pub fn entries(&mut self, n: usize) -> Vec<u16> {
        (0..n).map(|_| self.next() as u16).collect()
    }

    /// A word of a journal: any, a small one, a depth, or one at an edge.
    pub fn word(&mut self) -> u32 {
        match self.between(0, 3) {
            0 => self.next() as u32,
            1 => self.between(0, 9) as u32,
            2 => self.byte().into(),
            _ => self.pick(&[0, 1, 2, 255, 256, 4096, 4097, 65536, 1 << 31, u32::MAX - 1, u32::MAX]),
        }
    }

    /// An entry above the greatest sample.
    pub fn high(&mut self) -> u16 {
        match self.between(0, 3) {
            0 => 1024,
            1 => self.pick(&[1025, 2047, 2048, 32767, 32768, 65535]),
            _ => self.between(1024, 65535) as u16,
        }
    }
}

/// A number from the environment, for repeating a run or a longer one.
pub fn from_environment(name: &str, otherwise: u64) -> u64 {
    match std::env::var(name) {
        Ok(text) => text.parse().unwrap_or_else(|_| panic!("{name} must be a number, not {text:?}")),
        Err(_) => otherwise,
    }
}

/// A line of the test's log.
pub fn say(name: &str, text: &str) {
    writeln!(std::io::stderr(), "{name}: {text}").expect("standard error takes a line");
}

/// Runs numbered sessions of one seed and, where one fails, says how to repeat it alone.
///
/// LUPH_SEED, LUPH_FIRST and LUPH_SESSIONS choose the seed, the first session and how many there are.
pub fn sessions(name: &str, otherwise: u64, session: impl Fn(&mut Random, u64)) {
    let seed = from_environment("LUPH_SEED", 1);
    let first = from_environment("LUPH_FIRST", 0);
    let count = from_environment("LUPH_SESSIONS", otherwise);
    let say = |text: String| say(name, &text);
    say(format!("LUPH_SEED={seed} LUPH_FIRST={first} LUPH_SESSIONS={count}"));
    for number in first..first + count {
        let run = || session(&mut Random::new(seed, number), number);
        if let Err(failure) = std::panic::catch_unwind(std::panic::AssertUnwindSafe(run)) {
            say(format!("session {number} failed; to repeat it: LUPH_SEED={seed} LUPH_FIRST={number} LUPH_SESSIONS=1"));
            std::panic::resume_unwind(failure);
        }
        if count > otherwise && (number - first + 1) % otherwise == 0 {
            say(format!("{} of {count} done", number - first + 1));
        }
    }
}

/// Columns and rows: mostly small, many too narrow for a whole filter, some at the edges.
pub fn size(random: &mut Random) -> (usize, usize) {
    match random.between(0, 599) {
        0 => (4096, random.between(1, 2)),
        1 => (random.between(1, 3), 4096),
        2..=5 => (random.between(200, 1100), random.between(1, 2)),
        6..=25 => (random.between(41, 130), random.between(1, 4)),
        26..=40 => (random.pick(&[63, 64, 65, 72, 127, 128, 129]), random.between(1, 4)),
        41..=160 => (random.pick(&[1, 7, 8, 9, 15, 16, 17]), random.between(1, 6)),
        161..=360 => (random.between(1, 9), random.between(1, 6)),
        _ => (random.between(1, 40), random.between(1, 8)),
    }
}

/// A table of disparities: rising, falling, flat, a sample apart or wild, small or large, or such that neighbours may have the
/// widest smooth gap, or a quarter more.
fn table(random: &mut Random, w: usize, widest_gap: u8) -> [u16; 256] {
    let most = random.pick(&[3, 9, 20, 60, 4 * w.min(255), 255, 1023]);
    let entry = random.between(0, most);
    match random.between(0, 8) {
        0 => std::array::from_fn(|d| d as u16),
        1 => std::array::from_fn(|d| (d * most / 255) as u16),
        2 => std::array::from_fn(|d| ((255 - d) * most / 255) as u16),
        3 => [entry as u16; 256],
        4 => std::array::from_fn(|_| random.pick(&[0, most as u16])),
        5 => std::array::from_fn(|_| random.pick(&[entry.saturating_sub(4), entry]) as u16),
        6 => {
            let (low, high) = (random.between(0, 3) as u16, u16::from(widest_gap) - 4);
            std::array::from_fn(|_| low + random.pick(&[0, high, high, high + 1]))
        }
        _ => std::array::from_fn(|_| random.between(0, most) as u16),
    }
}

/// Disparities of a ground, up to depth 127, and of near things before it. Most of these are 3 above a multiple of 4, so that
/// the place is 1 above one; where they rise by 4, neighbours may share a place.
fn near_table(random: &mut Random, w: usize) -> [u16; 256] {
    let (ground, most) = (random.pick(&[0, 0, 2, 9]), random.pick(&[11, 19, 2 * w, 4 * w]).clamp(11, 1020));
    let rises = random.once_in(2);
    std::array::from_fn(|d| match random.between(0, 5) {
        _ if d < 128 => random.between(0, ground) as u16,
        _ if rises => (4 * (d - 128) + 3) as u16,
        0 => random.between(0, most) as u16,
        _ => (random.between(0, most) | 3) as u16,
    })
}

/// The tables of both views, one for both or two, for thin near things before a ground or for any depths.
fn tables(random: &mut Random, w: usize, widest_gap: u8, near: bool) -> [[u16; 256]; 2] {
    let table = |random: &mut Random| if near { near_table(random, w) } else { table(random, w, widest_gap) };
    let left = table(random);
    [left, if random.once_in(2) { left } else { table(random) }]
}

/// Share, tolerance, widest gap and torn distance by turns: every 244 turns have every two of the last two.
fn in_turn(turn: u64) -> [u8; 4] {
    [turn % 65, turn % 256, 4 + turn % 61, turn / 61 % 4].map(|number| number as u8)
}

/// A seat to move to: all of it new, or the tables, share and tolerance or the two numbers as they are. w, h and total are not
/// looked at and may be anything.
pub fn seat(random: &mut Random, settings: &Settings) -> Settings {
    let mut to = Settings { w: random.word(), h: random.word(), total: random.next(), ..*settings };
    let [share, tolerance, widest_gap, torn_distance] = in_turn(random.next());
    if !random.once_in(4) {
        (to.widest_gap, to.torn_distance) = (widest_gap, torn_distance);
    }
    if !random.once_in(4) {
        (to.share, to.tolerance) = (share, tolerance);
    }
    if !random.once_in(4) {
        let near = random.once_in(3);
        [to.left, to.right] = tables(random, settings.w as usize, to.widest_gap, near);
    }
    to
}

/// Makes a number or a table's entry of a seat wrong: 3, 4 or 20.
pub fn spoil_seat(random: &mut Random, to: &mut Settings) {
    match random.between(0, 6) {
        0 => to.left[random.pick(&[0, 1, 127, 254, 255])] = random.pick(&[1024, 1025, 32768, 65535]),
        1 => to.right[random.pick(&[0, 1, 127, 254, 255])] = random.pick(&[1024, 1025, 32768, 65535]),
        2 => to.share = random.pick(&[65, 66, 128, 255]),
        3 | 4 => to.widest_gap = random.pick(&[0, 1, 2, 3, 65, 66, 68, 128, 255]),
        _ => to.torn_distance = random.pick(&[4, 5, 8, 128, 254, 255]),
    }
}

/// What a MOVE of a session is passed, besides its textures and planes.
#[derive(Clone, PartialEq)]
pub struct Move {
    pub settings: Settings,
    pub to: Settings,
    pub reference: Vec<u16>,
    pub journal: Guarded<u32>,
}

impl Move {
    /// The same with one thing or several made wrong, so that it has a number, any that MOVE has.
    pub fn refused(mut self, random: &mut Random) -> Move {
        let area = self.reference.len();
        for _ in 0..random.pick(&[1, 1, 2, 3]) {
            match random.between(0, 9) {
                0 => self.settings.w = random.pick(&[0, 4097, u32::MAX]),
                1 => self.settings.h = random.pick(&[0, 4097, u32::MAX]),
                2 | 3 => self.reference.resize(random.pick(&[0, area - 1, area + 1, 2 * area]), 0),
                4 => self.journal = Guarded::new(&[], 7),
                5 | 6 if !self.reference.is_empty() => {
                    let at = random.between(0, self.reference.len() - 1);
                    self.reference[at] = random.high();
                }
                _ => spoil_seat(random, &mut self.to),
            }
        }
        self
    }
}

/// A plane of numbers from 0 to `most`, which is one below a power of two: noise, few levels, a slope, or rectangles on a
/// ground.
fn plane(random: &mut Random, w: usize, h: usize, most: u16) -> Vec<u16> {
    let any = |random: &mut Random| random.next() as u16 & most;
    let (low, high) = (any(random), any(random));
    match random.between(0, 4) {
        0 => (0..w * h).map(|_| any(random)).collect(),
        1 => (0..w * h).map(|_| random.pick(&[low, high, high])).collect(),
        2 => (0..w * h).map(|at| (low + (at % w + at / w) as u16) & most).collect(),
        3 => (0..w * h).map(|_| (low + random.between(0, 5) as u16) & most).collect(),
        _ => {
            let mut plane = vec![low; w * h];
            for _ in 0..3 {
                let b = block(random, w, h);
                fill(&mut plane, w, b, any(random));
            }
            plane
        }
    }
}

/// A plane of depths.
fn depths(random: &mut Random, w: usize, h: usize) -> Vec<u8> {
    plane(random, w, h, 255).into_iter().map(|depth| depth as u8).collect()
}

/// Depths of a ground, flat or not, with things before it that are one to three columns wide, their columns as near as each
/// other or nearer from one to the next.
fn near_plane(random: &mut Random, w: usize, h: usize) -> Vec<u8> {
    let (ground, rough) = (random.byte() % 128, random.once_in(3));
    let mut plane: Vec<u8> = (0..w * h).map(|_| if rough { random.byte() % 128 } else { ground }).collect();
    for _ in 0..random.between(1, 1 + w * h / 16) {
        let (column, row) = (random.between(0, w - 1), random.between(0, h - 1));
        let (width, height) = (random.between(1, 3.min(w - column)), random.between(1, h - row));
        let (depth, rise) = (129 + random.between(0, w.min(240) / 2), random.pick(&[0, 0, 1, -1]));
        for k in 0..width {
            let b = Block { column: (column + k) as u32, row: row as u32, width: 1, height: height as u32 };
            fill(&mut plane, w, b, (depth as i32 + rise * k as i32) as u8);
        }
    }
    plane
}

/// A plane of samples from 0 to `white`: any plane, or black and white in runs of 1 to 4, where the filter passes both.
pub fn texture(random: &mut Random, w: usize, h: usize, white: u16) -> Vec<u16> {
    if random.once_in(2) {
        return plane(random, w, h, white);
    }
    let (longest, mut sample) = (random.between(1, 4), random.pick(&[0, white]));
    let mut plane = Vec::new();
    while plane.len() < w * h {
        plane.resize(plane.len() + random.between(1, longest), sample);
        sample = white - sample;
    }
    plane.truncate(w * h);
    plane
}

fn fill<T: Copy>(plane: &mut [T], w: usize, block: Block, value: T) {
    for y in block.row as usize..(block.row + block.height) as usize {
        let start = y * w + block.column as usize;
        plane[start..start + block.width as usize].fill(value);
    }
}

/// A block, from 1 × 1 to the whole picture.
pub fn block(random: &mut Random, w: usize, h: usize) -> Block {
    let (width, height) = match random.between(0, 9) {
        0 => (w, h),
        1 => (1, 1),
        2 => (w, 1),
        3 => (1, h),
        4..=6 => (random.between(1, w.min(8)), random.between(1, h.min(4))),
        _ => (random.between(1, w), random.between(1, h)),
    };
    let column = random.between(0, w - width);
    let row = random.between(0, h - height);
    Block { column: column as u32, row: row as u32, width: width as u32, height: height as u32 }
}

/// A block to edit: any, or one that ends just left of a near thing, as the view reads the row, and reaches back to the
/// position before the thing's place.
pub fn edited_block(random: &mut Random, settings: &Settings, view: usize, depths: &[u8]) -> Block {
    let (w, h) = (settings.w as usize, settings.h as usize);
    let (y, table) = (random.between(0, h - 1), [&settings.left, &settings.right][view]);
    let place = |c: usize| 4 * c as i32 - i32::from(table[usize::from(depths[y * w + if view == 0 { c } else { w - 1 - c }])]);
    let things: Vec<usize> = (1..w).filter(|&c| place(c) < place(c - 1)).collect();
    if things.is_empty() || random.once_in(3) {
        return block(random, w, h);
    }
    let thing = random.pick(&things);
    let edge = place(thing).div_euclid(4).max(0) as usize;
    let end = random.between(edge + 1, thing);
    let first = random.between(edge.saturating_sub(2), (edge + 1).min(end - 1));
    let (row, last) = (random.between(0, y), random.between(y, h - 1));
    let column = if view == 0 { first } else { w - end };
    Block { column: column as u32, row: row as u32, width: (end - first) as u32, height: (last - row + 1) as u32 }
}

/// A candidate with bytes of its own, as a C program passes it: kind 0 is a full block, 1 one value, 2 a line, 3 a mask, and
/// others are unknown. What its kind does not look at may be anything.
#[derive(Clone, PartialEq, Eq, Debug)]
pub struct Tried {
    pub kind: u32,
    pub values: [u8; 2],
    pub start: Point,
    pub end: Point,
    pub bytes: Guarded<u8>,
}

impl Tried {
    /// The same as the crate takes it; nothing where the kind is unknown.
    pub fn known(&self) -> Option<Candidate<'_>> {
        let Tried { values, start, end, .. } = *self;
        match self.kind {
            0 => Some(Candidate::Full(self.bytes.entries())),
            1 => Some(Candidate::Flat(values[0])),
            2 => Some(Candidate::line(start, end, values)),
            3 => Some(Candidate::mask(self.bytes.entries(), values)),
            _ => None,
        }
    }

    /// The same for the independent renderer: a kind that is unknown is refused as a full block without depths is.
    pub fn candidate(&self) -> Candidate<'_> {
        self.known().unwrap_or(Candidate::Full(&[]))
    }

    /// Its depths as a full block.
    pub fn as_full(&self, block: Block) -> Tried {
        full(&paper::filled(block, self.candidate()))
    }
}

/// A full block of these depths.
pub fn full(depths: &[u8]) -> Tried {
    Tried {
        kind: 0,
        values: [0; 2],
        start: Point { column: 0, row: 0 },
        end: Point { column: 0, row: 0 },
        bytes: Guarded::new(depths, 0x3c),
    }
}

/// A candidate that a block takes, of any kind that it can have.
pub fn candidate(random: &mut Random, w: usize, depths: &[u8], block: Block) -> Tried {
    let tried = anything(random, depths, block);
    match random.between(0, 11) {
        0..=3 => Tried { kind: 0, bytes: Guarded::new(&full_depths(random, w, depths, block), 0x3c), ..tried },
        4..=6 => Tried { kind: 1, ..tried },
        7..=9 if block.width > 1 && block.height > 1 => {
            let (start, end) = line(random, block);
            Tried { kind: 2, start, end, ..tried }
        }
        _ => Tried { kind: 3, bytes: Guarded::new(&bits(random, paper::mask_length(block) as usize), 0x3c), ..tried },
    }
}

/// A candidate that a block does not take: 7, 14 or 15.
pub fn refused_candidate(random: &mut Random, w: usize, depths: &[u8], block: Block) -> Tried {
    let tried = anything(random, depths, block);
    let resized = |random: &mut Random, right: usize| {
        let lengths = [0, right - 1, right - 1, right + 1, right + 1, right + 8, 2 * right, right.div_ceil(8), 8 * right];
        let wrong: Vec<usize> = lengths.into_iter().filter(|&n| n != right).collect();
        let length = random.pick(&wrong);
        Guarded::new(&bits(random, length), 0x3c)
    };
    match random.between(0, 9) {
        0 | 1 => Tried { kind: 0, bytes: resized(random, (block.width * block.height) as usize), ..tried },
        2..=5 => {
            let (start, end) = refused_line(random, block);
            Tried { kind: 2, start, end, ..tried }
        }
        6 | 7 => Tried { kind: 3, bytes: resized(random, paper::mask_length(block) as usize), ..tried },
        _ => Tried { kind: unknown_kind(random), ..candidate(random, w, depths, block) },
    }
}

/// An edit of these depths that GET and SET accept.
pub fn edit(random: &mut Random, settings: &Settings, depths: [&[u8]; 2]) -> (View, Block, Tried) {
    let view = random.pick(&View::BOTH);
    let plane = depths[view as usize];
    let block = edited_block(random, settings, view as usize, plane);
    (view, block, candidate(random, settings.w as usize, plane, block))
}

/// One that they refuse: 5, 6, 7, 14 or 15.
pub fn refused_edit(random: &mut Random, settings: &Settings, depths: [&[u8]; 2]) -> (u32, Block, Tried) {
    let (view, mut block, mut tried) = edit(random, settings, depths);
    if random.once_in(2) {
        return (view as u32, block, refused_candidate(random, settings.w as usize, depths[view as usize], block));
    }
    let mut view = view as u32;
    match random.between(0, 4) {
        0 => view = random.pick(&[2, 3, 255, 256, u32::MAX]),
        1 => block.width = 0,
        2 => block.height = 0,
        3 => block.column = random.pick(&[settings.w, u32::MAX, u32::MAX - block.width + 1]),
        _ => block.row = random.pick(&[settings.h, u32::MAX, u32::MAX - block.height + 1]),
    }
    if random.once_in(3) {
        tried.kind = kind(random);
    }
    (view, block, tried)
}

fn unknown_kind(random: &mut Random) -> u32 {
    let high = random.pick(&[4, 256, 1 << 16, 1 << 24, 1 << 31]);
    random.pick(&[4, 5, 255, u32::MAX, u32::MAX - 3, high, high + 1, high + 2, high + 3])
}

/// Any kind, with the unknown ones.
pub fn kind(random: &mut Random) -> u32 {
    let unknown = unknown_kind(random);
    random.pick(&[0, 1, 2, 3, unknown])
}

/// Values, points and bytes, whatever a kind looks at.
fn anything(random: &mut Random, depths: &[u8], block: Block) -> Tried {
    let values = [(); 2].map(|()| if random.once_in(2) { random.byte() } else { random.pick(depths) });
    let (start, end, length) = (point(random, block), point(random, block), random.between(0, 20));
    Tried { kind: 0, values, start, end, bytes: Guarded::new(&random.bytes(length), 0x3c) }
}

/// Bits of a mask: any, few, many, none or all.
fn bits(random: &mut Random, length: usize) -> Vec<u8> {
    match random.between(0, 7) {
        0 => vec![random.pick(&[0, 255]); length],
        1 => (0..length).map(|_| 1 << random.between(0, 7)).collect(),
        2 => (0..length).map(|_| !(1 << random.between(0, 7))).collect(),
        _ => random.bytes(length),
    }
}

/// Two border points with no side in common, of a block of two columns and rows at least: from either to the other, many of
/// them corners.
pub fn line(random: &mut Random, block: Block) -> (Point, Point) {
    let mut border = || {
        let along = |random: &mut Random, n: u32| {
            let any = random.between(0, n as usize - 1) as u32;
            random.pick(&[0, n - 1, any])
        };
        let (mut column, mut row) = (along(random, block.width), along(random, block.height));
        match random.once_in(2) {
            true => column = random.pick(&[0, block.width - 1]),
            false => row = random.pick(&[0, block.height - 1]),
        }
        Point { column, row }
    };
    loop {
        let (start, end) = (border(), border());
        if paper::line_is_taken(block, start, end) {
            return (start, end);
        }
    }
}

/// Two points that make no line: inside, outside, far outside, or on one side.
pub fn refused_line(random: &mut Random, block: Block) -> (Point, Point) {
    loop {
        let (start, end) = (point(random, block), point(random, block));
        if !paper::line_is_taken(block, start, end) {
            return (start, end);
        }
    }
}

/// A point of the border, inside, just outside, or anywhere.
fn point(random: &mut Random, block: Block) -> Point {
    if block.width > 2 && block.height > 2 && random.once_in(5) {
        let [column, row] = [block.width, block.height].map(|n| random.between(1, n.min(4096) as usize - 2) as u32);
        return Point { column, row };
    }
    let mut along = |n: u32| match random.between(0, 19) {
        0..=5 => 0,
        6..=11 => n.wrapping_sub(1),
        12..=15 => random.between(0, n.max(1) as usize - 1) as u32,
        16 => random.pick(&[n, n.wrapping_add(1), n.wrapping_sub(2)]),
        17 => random.pick(&[u32::MAX, u32::MAX - 1, 1 << 31, (1 << 31) - 1, 4096, 65536]),
        18 => random.pick(&[0u32.wrapping_sub(n), n.wrapping_add(65535), n.wrapping_add((1 << 31) - 1), 1 << 16]),
        _ => random.next() as u32,
    };
    Point { column: along(block.width), row: along(block.height) }
}

/// Depths of a full block: flat, noise, few levels, any depths of the plane, or the depths as they are, some or none of them
/// moved.
pub fn full_depths(random: &mut Random, w: usize, depths: &[u8], block: Block) -> Vec<u8> {
    let area = (block.width * block.height) as usize;
    let now = || -> Vec<u8> {
        let rows = block.row as usize..(block.row + block.height) as usize;
        rows.flat_map(|y| depths[y * w + block.column as usize..][..block.width as usize].to_vec()).collect()
    };
    let (low, high) = (random.byte(), random.byte());
    match random.between(0, 11) {
        0 => now(),
        1..=3 => now().into_iter().map(|d| if random.once_in(4) { d.wrapping_add(random.byte() % 16) } else { d }).collect(),
        4 | 5 => vec![low; area],
        6 => vec![random.pick(depths); area],
        7 => (0..area).map(|_| random.pick(&[low, high])).collect(),
        8 | 9 => (0..area).map(|_| random.pick(depths)).collect(),
        _ => random.bytes(area),
    }
}

/// Pictures and depths of a session.
pub struct Scene {
    pub settings: Settings,
    pub textures: [Vec<u16>; 2],
    pub reference: Vec<u16>,
    pub depths: [Vec<u8>; 2],
}

impl Scene {
    /// A scene whose share, tolerance and numbers of gaps are those of a turn: one in three has thin near things before a ground,
    /// one in five has pictures of eight bits.
    pub fn new(random: &mut Random, turn: u64) -> Scene {
        let (w, h) = size(random);
        Scene::sized(random, w, h, turn)
    }

    pub fn sized(random: &mut Random, w: usize, h: usize, turn: u64) -> Scene {
        let near = random.once_in(3);
        let [share, tolerance, widest_gap, torn_distance] = in_turn(turn);
        let [left, right] = tables(random, w, widest_gap, near);
        let total = random.next();
        let settings = Settings { w: w as u32, h: h as u32, left, right, share, tolerance, widest_gap, torn_distance, total };
        let white = if random.once_in(5) { 255 } else { 1023 };
        let textures = [texture(random, w, h, white), texture(random, w, h, white)];
        let reference = if random.once_in(3) { textures[0].clone() } else { texture(random, w, h, white) };
        let mut depths = || if near { near_plane(random, w, h) } else { depths(random, w, h) };
        Scene { settings, textures, reference, depths: [depths(), depths()] }
    }

    /// Any scene, or a small one whose pictures are black and white, where much can change.
    pub fn stark(random: &mut Random, turn: u64) -> Scene {
        if random.once_in(3) {
            return Scene::new(random, turn);
        }
        let (w, h) = (random.between(1, 12), random.between(1, 3));
        let mut scene = Scene::sized(random, w, h, turn);
        for plane in scene.textures.iter_mut().chain([&mut scene.reference]) {
            plane.iter_mut().for_each(|sample| *sample = random.pick(&[0, paper::WHITE]));
        }
        scene
    }

    pub fn pictures(&self) -> Pictures<'_> {
        Pictures { textures: [&self.textures[0], &self.textures[1]], reference: &self.reference }
    }

    /// The pictures with another reference.
    pub fn pictures_with<'a>(&'a self, reference: &'a [u16]) -> Pictures<'a> {
        Pictures { reference, ..self.pictures() }
    }

    pub fn depths(&self) -> [&[u8]; 2] {
        [&self.depths[0], &self.depths[1]]
    }

    /// A reference to move to: a texture, the scene's own, or any picture.
    pub fn any_reference(&self, random: &mut Random) -> Vec<u16> {
        let (w, h) = (self.settings.w as usize, self.settings.h as usize);
        match random.between(0, 5) {
            v @ 0..=1 => self.textures[v].clone(),
            2 => self.reference.clone(),
            _ => texture(random, w, h, 1023),
        }
    }
}

/// A journal with anything in its words: with room for many SETs of a picture of this area, for one, or for hardly more. It has
/// room for a SET of the whole picture once it is emptied.
pub fn journal(random: &mut Random, area: usize) -> Guarded<u32> {
    let one = 1 + 6 + area;
    let most = random.pick(&[one, one + 1, one + 7, 2 * one, 5 * one, 20 * one]);
    let length = random.between(one, most);
    Guarded::new(&(0..length).map(|_| random.word()).collect::<Vec<u32>>(), 0x3c3c_3c3c)
}

/// One word of a journal's chain made different: word 0, or a word of one of its records. Where there is no chain, any word.
pub fn damage_journal(random: &mut Random, settings: &Settings, words: &mut [u32]) {
    let Some(last) = words.len().checked_sub(1) else { return };
    let records = paper::chain(settings, words).unwrap_or_default();
    let (mut at, mut near) = (random.between(0, last), vec![words[0], words[0].wrapping_add(1), last as u32, last as u32 + 1]);
    if random.once_in(5) {
        at = 0;
    } else if !records.is_empty() {
        let record = &records[random.between(0, records.len() - 1)];
        let depth = 6 + random.between(0, record.depths.len() - 1);
        at = record.index as usize + random.pick(&[0, 0, 1, 2, 3, 4, 5, depth]);
        let Block { column, row, width, height } = record.block;
        let Settings { w, h, .. } = *settings;
        near.extend([record.index, record.index - 1, record.index + 1, record.end() as u32]);
        near.extend([w, h, w - column, h - row, w - column + 1, h - row + 1, w - width, h - height, w - width + 1, h - height + 1]);
    }
    words[at] = if random.once_in(2) { random.pick(&near) } else { random.word() };
}

/// Entries with guards on both sides, which show a write outside.
#[derive(Clone, PartialEq, Eq, Debug)]
pub struct Guarded<T> {
    all: Vec<T>,
    guard: T,
}

const MARGIN: usize = 64;

impl<T: Copy + PartialEq> Guarded<T> {
    pub fn new(entries: &[T], guard: T) -> Guarded<T> {
        let mut all = vec![guard; MARGIN];
        all.extend(entries);
        all.extend([guard; MARGIN]);
        Guarded { all, guard }
    }

    pub fn entries(&self) -> &[T] {
        &self.all[MARGIN..self.all.len() - MARGIN]
    }

    pub fn entries_mut(&mut self) -> &mut [T] {
        let end = self.all.len() - MARGIN;
        &mut self.all[MARGIN..end]
    }

    pub fn is_intact(&self) -> bool {
        let end = self.all.len() - MARGIN;
        self.all[..MARGIN].iter().chain(&self.all[end..]).all(|&x| x == self.guard)
    }
}

impl<T: Copy + PartialEq + Default> Guarded<T> {
    /// The same entries, fewer or more of them.
    pub fn resized(&self, length: usize) -> Guarded<T> {
        let mut entries = self.entries().to_vec();
        entries.resize(length, T::default());
        Guarded::new(&entries, self.guard)
    }
}

/// The planes of a session in guarded memory.
#[derive(Clone, PartialEq, Eq, Debug)]
pub struct GuardedPlanes {
    pub depths: [Guarded<u8>; 2],
    pub samples: [Guarded<u16>; 2],
    pub fronts: [Guarded<u8>; 2],
    pub limits: [Guarded<i16>; 2],
    pub marks: [Guarded<u8>; 2],
    pub combined: Guarded<u16>,
}

impl GuardedPlanes {
    /// Planes of the right lengths for a picture of w × h, with anything in the held ones.
    pub fn new(random: &mut Random, w: usize, h: usize, depths: [&[u8]; 2]) -> GuardedPlanes {
        let mut pair = |n: usize| [(); 2].map(|()| Guarded::new(&random.bytes(n), 0xa5));
        let (fronts, marks) = (pair(w * h), pair(w.div_ceil(8) * h));
        let mut samples = || Guarded::new(&random.entries(w * h), 0xa5a5);
        let (samples, combined) = ([samples(), samples()], samples());
        let limits = [(); 2].map(|()| Guarded::new(&garbage_limits(random, w * h), -23206));
        GuardedPlanes { depths: depths.map(|plane| Guarded::new(plane, 0xa5)), samples, fronts, limits, marks, combined }
    }

    /// A copy of planes as a session left them.
    pub fn copied(planes: &Planes) -> GuardedPlanes {
        let bytes = |pair: [&[u8]; 2]| pair.map(|plane| Guarded::new(plane, 0xa5));
        let samples = |plane: &[u16]| Guarded::new(plane, 0xa5a5);
        GuardedPlanes {
            depths: bytes(planes.depths),
            samples: planes.samples.map(samples),
            fronts: bytes(planes.fronts),
            limits: planes.limits.map(|plane| Guarded::new(plane, -23206)),
            marks: bytes(planes.marks),
            combined: samples(planes.combined),
        }
    }

    pub fn shared(&self) -> Planes<'_> {
        Planes {
            depths: both(&self.depths),
            samples: both(&self.samples),
            fronts: both(&self.fronts),
            limits: both(&self.limits),
            marks: both(&self.marks),
            combined: self.combined.entries(),
        }
    }

    pub fn lent(&mut self) -> PlanesMut<'_> {
        PlanesMut {
            depths: both_mut(&mut self.depths),
            samples: both_mut(&mut self.samples),
            fronts: both_mut(&mut self.fronts),
            limits: both_mut(&mut self.limits),
            marks: both_mut(&mut self.marks),
            combined: self.combined.entries_mut(),
        }
    }

    pub fn are_intact(&self) -> bool {
        let bytes = [&self.depths, &self.fronts, &self.marks];
        bytes.into_iter().flatten().all(Guarded::is_intact)
            && self.samples.iter().all(Guarded::is_intact)
            && self.limits.iter().all(Guarded::is_intact)
            && self.combined.is_intact()
    }
}

/// Limits of no session, each on its own or in runs of one limit.
fn garbage_limits(random: &mut Random, n: usize) -> Vec<i16> {
    let longest = random.pick(&[1, 1, 9, 4096]);
    let mut limits = Vec::new();
    while limits.len() < n {
        limits.resize(limits.len() + random.between(1, longest), garbage_limit(random));
    }
    limits.truncate(n);
    limits
}

/// A limit that may be right, wrong, or far off.
pub fn garbage_limit(random: &mut Random) -> i16 {
    match random.between(0, 4) {
        0 => random.pick(&[i16::MIN, i16::MAX, -1024, -1023, -1, 0, 1, 16384]),
        1 => random.next() as i16,
        2 => 4 * random.between(0, 60) as i16 + 1,
        _ => random.between(0, 1200) as i16 - 1000,
    }
}

fn both<T: Copy + PartialEq>(pair: &[Guarded<T>; 2]) -> [&[T]; 2] {
    let [left, right] = pair;
    [left.entries(), right.entries()]
}

fn both_mut<T: Copy + PartialEq>(pair: &mut [Guarded<T>; 2]) -> [&mut [T]; 2] {
    let [left, right] = pair;
    [left.entries_mut(), right.entries_mut()]
}
