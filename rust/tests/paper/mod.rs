//! The independent renderer: document 01 said again as plainly as it can be, each position drawn from its owner, the journal of
//! card 3, the bound of card 4, the separate edits of card 10, and the seat of card 11.
//!
//! It shares no code with the library and holds nothing between calls. It is slow on purpose: every question is answered
//! by a fresh drawing of the whole picture.
#![allow(dead_code)] // each test program uses its own part

use luphwezane::{Block, Candidate, Pictures, Planes, Point, Regions, Report, Settings, View};
use std::fmt::Debug;

/// The greatest sample (card 12).
pub const WHITE: u16 = 1023;

/// The greatest squared error.
pub const WORST: u64 = 1_046_529;

/// The H.265 luma filters of k = 1, 2 and 3, over columns c − 3 to c + 4 (card 2).
#[rustfmt::skip]
pub const TAPS: [[i32; 8]; 3] = [
    [-1, 4, -10, 58, 17,  -5, 1,  0],
    [-1, 4, -11, 40, 40, -11, 4, -1],
    [ 0, 1,  -5, 17, 58, -10, 4, -1],
];

/// Calls read a higher entry of a texture or reference as 1,023, and GET, SET and TAKE BACK a held or combined sample so too (cards 12 and 3).
pub fn read(entry: u16) -> u16 {
    if entry > WHITE {
        WHITE
    } else {
        entry
    }
}

/// What a view shows at a position.
#[derive(Clone, Copy, Debug, PartialEq, Eq)]
pub struct Pixel {
    pub sample: u16,
    pub mark: u8,
    pub front: u8,
}

/// One drawn row of a view, unpacked, and its limits.
#[derive(Clone, Debug, PartialEq, Eq)]
pub struct DrawnRow {
    pub pixels: Vec<Pixel>,
    pub limits: Vec<i16>,
}

/// "One row of the left view", with the two numbers that card 11 has among the settings: the widest smooth gap and the nearest
/// torn distance.
pub struct LeftRow<'a> {
    pub table: &'a [u16; 256],
    pub widest_gap: i32,
    pub torn_distance: i32,
    pub texture: &'a [u16],
    pub depths: &'a [u8],
}

/// The kind of a pair follows from its gap.
#[derive(Clone, Copy, Debug, PartialEq, Eq, PartialOrd, Ord)]
pub enum Kind {
    Hidden,
    Smooth,
    Torn,
}

impl<'a> LeftRow<'a> {
    /// A row as the view reads it, with that view's table.
    pub fn new(settings: &'a Settings, view: usize, texture: &'a [u16], depths: &'a [u8]) -> LeftRow<'a> {
        let [widest_gap, torn_distance] = [settings.widest_gap, settings.torn_distance].map(i32::from);
        LeftRow { table: table(settings, view), widest_gap, torn_distance, texture, depths }
    }

    pub fn w(&self) -> usize {
        self.depths.len()
    }

    /// The sample of column c.
    pub fn sample(&self, c: usize) -> u16 {
        read(self.texture[c])
    }

    /// Column c with depth d has the place 4 × c − table[d].
    pub fn place(&self, c: usize) -> i32 {
        4 * c as i32 - i32::from(self.table[usize::from(self.depths[c])])
    }

    /// The limit of c is the least place among columns c to w − 1.
    pub fn limit(&self, c: usize) -> i32 {
        (c..self.w()).map(|e| self.place(e)).min().expect("c is a column")
    }

    /// Position p is owned by the greatest column whose place is at most 4 × p.
    pub fn owner(&self, p: usize) -> usize {
        (0..self.w()).rev().find(|&c| self.place(c) <= 4 * p as i32).expect("column 0 has a place of 0 or less")
    }

    /// The gap of column c, which is not the last.
    pub fn gap(&self, c: usize) -> i32 {
        self.place(c + 1) - self.place(c)
    }

    /// 0 or less is hidden and owns nothing; 1 to the widest gap is smooth; more is torn.
    pub fn kind(&self, c: usize) -> Kind {
        match self.gap(c) {
            gap if gap <= 0 => Kind::Hidden,
            gap if gap <= self.widest_gap => Kind::Smooth,
            _ => Kind::Torn,
        }
    }

    /// A near edge begins at the rounded place (card 7): let c be the owner of p, not the last column, and m the limit of
    /// c + 1. Where the place of c + 1 is above m and m − 4 × p is at most 1, p shows the greatest column placed at m.
    pub fn near_edge(&self, p: usize) -> Option<usize> {
        let c = self.owner(p);
        if c == self.w() - 1 {
            return None;
        }
        let m = self.limit(c + 1);
        if self.place(c + 1) > m && m - 4 * p as i32 <= 1 {
            (0..self.w()).rev().find(|&e| self.place(e) == m)
        } else {
            None
        }
    }

    /// The filter of k over columns c − 3 to c + 4, ends repeated, before it is held to 0 to 1,023.
    pub fn filtered(&self, c: usize, k: usize) -> i32 {
        let last = self.w() as i32 - 1;
        let sample = |column: i32| i32::from(self.sample(column.clamp(0, last) as usize));
        let sum: i32 = (-3..=4).zip(TAPS[k - 1]).map(|(i, tap)| tap * sample(c as i32 + i)).sum();
        (sum + 32).div_euclid(64)
    }

    pub fn pixel(&self, p: usize) -> Pixel {
        let c = self.owner(p);
        let t = 4 * p as i32 - self.place(c);
        let plain = |c: usize, mark: u8| Pixel { sample: self.sample(c), mark, front: self.depths[c] };
        if c == self.w() - 1 {
            return plain(c, u8::from(t > self.torn_distance));
        }
        if let Some(near) = self.near_edge(p) {
            return plain(near, 0);
        }
        match self.kind(c) {
            Kind::Hidden => panic!("a hidden pair owns nothing"),
            Kind::Smooth => {
                let sample = match step(t, self.gap(c)) {
                    0 => self.sample(c),
                    4 => self.sample(c + 1),
                    k => self.filtered(c, k).clamp(0, i32::from(WHITE)) as u16,
                };
                Pixel { sample, mark: 0, front: self.depths[c] }
            }
            Kind::Torn if t <= self.torn_distance => plain(c, 0),
            Kind::Torn => plain(c + 1, 1),
        }
    }

    pub fn drawn(&self) -> DrawnRow {
        DrawnRow { pixels: (0..self.w()).map(|p| self.pixel(p)).collect(), limits: (0..self.w()).map(|c| self.limit(c) as i16).collect() }
    }
}

/// The k of a smooth pair, t quarters from its column's place.
pub fn step(t: i32, gap: i32) -> usize {
    let k = (8 * t + gap) / (2 * gap);
    assert!((0..=4).contains(&k));
    k as usize
}

pub fn reversed<T: Copy>(row: &[T]) -> Vec<T> {
    row.iter().rev().copied().collect()
}

/// A row as it is stored, from how the view reads it.
pub fn stored<T: Copy>(view: View, row: &[T]) -> Vec<T> {
    if view == View::Left {
        row.to_vec()
    } else {
        reversed(row)
    }
}

/// What belongs to the view and what belongs to the other, the left view's first.
pub fn left_first<T>(view: View, own: T, other: T) -> [T; 2] {
    if view == View::Left {
        [own, other]
    } else {
        [other, own]
    }
}

/// The block of columns a to b of one row, counted as the view reads it.
pub fn block_of(view: View, w: usize, a: usize, b: usize) -> Block {
    let column = if view == View::Left { a } else { w - 1 - b };
    Block { column: column as u32, row: 0, width: (b - a + 1) as u32, height: 1 }
}

/// Settings of a row whose combined picture is what the view shows, but for its holes. Entry d of the tables is d.
pub fn row_settings(view: View, w: usize) -> Settings {
    let (table, share) = (std::array::from_fn(|d| d as u16), if view == View::Left { 0 } else { 64 });
    Settings { w: w as u32, h: 1, left: table, right: table, share, tolerance: 255, widest_gap: 8, torn_distance: 1, total: 0 }
}

/// Every row of w entries among these; the first column changes fastest.
pub fn rows<T: Copy>(w: usize, values: &[T]) -> impl Iterator<Item = Vec<T>> + '_ {
    let digit = |n: usize, c: usize| n / values.len().pow(c as u32) % values.len();
    (0..values.len().pow(w as u32)).map(move |n| (0..w).map(|c| values[digit(n, c)]).collect())
}

/// One row of view 0 or 1. The right view is the same rule over the row read backwards, its results written back in
/// reverse.
pub fn drawn_row(settings: &Settings, view: usize, texture: &[u16], depths: &[u8]) -> DrawnRow {
    if view == 0 {
        return LeftRow::new(settings, view, texture, depths).drawn();
    }
    let backwards = LeftRow::new(settings, view, &reversed(texture), &reversed(depths)).drawn();
    DrawnRow { pixels: reversed(&backwards.pixels), limits: reversed(&backwards.limits) }
}

/// (w + 7) div 8 bytes a row.
#[allow(clippy::manual_div_ceil)]
pub fn mark_bytes(w: usize) -> usize {
    (w + 7) / 8
}

/// Marks packed, position p in bit p mod 8 of byte p div 8, spare bits zero.
pub fn packed(marks: impl ExactSizeIterator<Item = u8>) -> Vec<u8> {
    let mut bytes = vec![0; mark_bytes(marks.len())];
    for (p, mark) in marks.enumerate() {
        bytes[p / 8] += mark << (p % 8);
    }
    bytes
}

/// "Combined picture and total": the combined sample of a position.
pub fn combined(share: u8, tolerance: u8, left: Pixel, right: Pixel) -> u16 {
    let share = u32::from(share);
    match (left.mark, right.mark) {
        (0, 0) if left.front.abs_diff(right.front) <= tolerance => {
            ((u32::from(left.sample) * (64 - share) + u32::from(right.sample) * share + 32) / 64) as u16
        }
        (0, 0) if left.front > right.front => left.sample,
        (0, 0) => right.sample,
        (0, _) => left.sample,
        (_, 0) => right.sample,
        _ if left.front <= right.front => left.sample,
        _ => right.sample,
    }
}

/// Every held plane, and the total.
#[derive(Clone, Debug, PartialEq, Eq)]
pub struct Drawing {
    pub samples: [Vec<u16>; 2],
    pub fronts: [Vec<u8>; 2],
    pub limits: [Vec<i16>; 2],
    pub marks: [Vec<u8>; 2],
    pub combined: Vec<u16>,
    pub total: u64,
}

impl Drawing {
    /// The planes of a session over these depths, which hold this drawing of them.
    pub fn planes<'a>(&'a self, depths: [&'a [u8]; 2]) -> Planes<'a> {
        let Drawing { samples, fronts, limits, marks, combined, .. } = self;
        Planes { depths, samples: both(samples), fronts: both(fronts), limits: both(limits), marks: both(marks), combined }
    }
}

pub fn both<T>(pair: &[Vec<T>; 2]) -> [&[T]; 2] {
    let [left, right] = pair;
    [left, right]
}

/// Every entry of the planes, spare bits too, to compare them by.
pub fn entries<'a>(planes: &Planes<'a>) -> impl PartialEq + Debug + 'a {
    let Planes { depths, samples, fronts, limits, marks, combined } = *planes;
    (depths, samples, fronts, limits, marks, combined)
}

pub fn table(settings: &Settings, view: usize) -> &[u16; 256] {
    [&settings.left, &settings.right][view]
}

/// A fresh drawing of both depth planes.
pub fn drawing(settings: &Settings, pictures: &Pictures, depths: [&[u8]; 2]) -> Drawing {
    let (w, h) = (settings.w as usize, settings.h as usize);
    let mut all = Drawing {
        samples: [vec![], vec![]],
        fronts: [vec![], vec![]],
        limits: [vec![], vec![]],
        marks: [vec![], vec![]],
        combined: vec![],
        total: 0,
    };
    for y in 0..h {
        let part = y * w..(y + 1) * w;
        let rows = [0, 1].map(|v| drawn_row(settings, v, &pictures.textures[v][part.clone()], &depths[v][part.clone()]));
        for (v, DrawnRow { pixels, limits }) in rows.iter().enumerate() {
            all.samples[v].extend(pixels.iter().map(|x| x.sample));
            all.fronts[v].extend(pixels.iter().map(|x| x.front));
            all.limits[v].extend(limits);
            all.marks[v].extend(packed(pixels.iter().map(|x| x.mark)));
        }
        for x in 0..w {
            let sample = combined(settings.share, settings.tolerance, rows[0].pixels[x], rows[1].pixels[x]);
            let error = i64::from(sample) - i64::from(read(pictures.reference[y * w + x]));
            all.combined.push(sample);
            all.total += (error * error) as u64;
        }
    }
    all
}

/// The sides of a block that a point of it lies on: first column, last column, first row, last row (card 6). No point outside
/// the block lies on one.
pub fn sides(block: Block, point: Point) -> [bool; 4] {
    let [column, row, width, height] = [point.column, point.row, block.width, block.height].map(u64::from);
    let within = column < width && row < height;
    [column == 0, column + 1 == width, row == 0, row + 1 == height].map(|on| within && on)
}

/// A line has two border points of the block with no side in common.
pub fn line_is_taken(block: Block, start: Point, end: Point) -> bool {
    let (start, end) = (sides(block, start), sides(block, end));
    start.contains(&true) && end.contains(&true) && !start.iter().zip(end).any(|(a, b)| *a && b)
}

/// Whether a position is in region 1 of a line.
pub fn beside(start: Point, end: Point, column: u32, row: u32) -> bool {
    let [from, to, at] = [start, end, Point { column, row }].map(|point| (i128::from(point.column), i128::from(point.row)));
    (to.0 - from.0) * (at.1 - from.1) - (to.1 - from.1) * (at.0 - from.0) > 0
}

/// (area + 7) div 8 bytes of a mask.
#[allow(clippy::manual_div_ceil)]
pub fn mask_length(block: Block) -> u64 {
    (u64::from(block.width) * u64::from(block.height) + 7) / 8
}

/// The bit of a position: one bit a position, packed by rows without gaps, low bit first.
pub fn bit(block: Block, bits: &[u8], column: u32, row: u32) -> bool {
    let k = row as usize * block.width as usize + column as usize;
    bits[k / 8] >> (k % 8) & 1 == 1
}

/// The depths of a block so filled, in row order: each region's value fills its positions, region 0 being the rest.
pub fn filled(block: Block, candidate: Candidate) -> Vec<u8> {
    let mut depths = Vec::new();
    for (row, column) in (0..block.height).flat_map(|row| (0..block.width).map(move |column| (row, column))) {
        depths.push(match candidate {
            Candidate::Full(depths) => depths[row as usize * block.width as usize + column as usize],
            Candidate::Flat(value) => value,
            Candidate::Regions { values, regions: Regions::Line { start, end } } => values[usize::from(beside(start, end, column, row))],
            Candidate::Regions { values, regions: Regions::Mask(bits) } => values[usize::from(bit(block, bits, column, row))],
        });
    }
    depths
}

/// The depth planes with the candidate written into the block of the view's plane.
pub fn written(settings: &Settings, depths: [&[u8]; 2], view: usize, block: Block, candidate: Candidate) -> [Vec<u8>; 2] {
    let (mut planes, candidate) = (depths.map(<[u8]>::to_vec), filled(block, candidate));
    for y in 0..block.height as usize {
        for x in 0..block.width as usize {
            let at = (block.row as usize + y) * settings.w as usize + block.column as usize + x;
            planes[view][at] = candidate[y * block.width as usize + x];
        }
    }
    planes
}

/// "Calls and what they turn down": the lengths of all planes but the candidate.
pub fn lengths_are_exact(settings: &Settings, pictures: &Pictures, planes: &Planes) -> bool {
    let n = settings.w as usize * settings.h as usize;
    let m = mark_bytes(settings.w as usize) * settings.h as usize;
    let samples = [pictures.textures, planes.samples, [pictures.reference, planes.combined]];
    let bytes = [planes.depths, planes.fronts];
    samples.iter().flatten().all(|plane| plane.len() == n)
        && bytes.iter().flatten().all(|plane| plane.len() == n)
        && planes.limits.iter().all(|plane| plane.len() == n)
        && planes.marks.iter().all(|plane| plane.len() == m)
}

pub fn side_is_taken(n: u32) -> bool {
    (1..=4096).contains(&n)
}

pub fn tables_are_taken(settings: &Settings) -> bool {
    settings.left.iter().chain(&settings.right).all(|&entry| entry <= 1023)
}

/// The widest gap may be 4 to 64, the distance 0 to 3 (card 11).
pub fn gaps_are_taken(settings: &Settings) -> bool {
    (4..=64).contains(&settings.widest_gap) && (0..=3).contains(&settings.torn_distance)
}

/// CHECK refuses 1, 2, 3, 4, then 20. The number, 0 for none.
pub fn common_number(settings: &Settings, pictures: &Pictures, planes: &Planes) -> u32 {
    if !side_is_taken(settings.w) || !side_is_taken(settings.h) {
        1
    } else if !lengths_are_exact(settings, pictures, planes) {
        2
    } else if !tables_are_taken(settings) {
        3
    } else if settings.share > 64 {
        4
    } else if !gaps_are_taken(settings) {
        20
    } else {
        0
    }
}

/// The settings after an accepted MOVE, but for the total: tables, share, tolerance and the two numbers are new.
pub fn moved(settings: &Settings, to: &Settings) -> Settings {
    let Settings { left, right, share, tolerance, widest_gap, torn_distance, .. } = *to;
    Settings { left, right, share, tolerance, widest_gap, torn_distance, ..*settings }
}

/// MOVE refuses as OPEN does, judged by w, h and what is new; the pictures have the new reference.
pub fn move_number(settings: &Settings, to: &Settings, pictures: &Pictures, planes: &Planes, journal: &[u32]) -> u32 {
    open_number(&moved(settings, to), pictures, planes, journal)
}

/// OPEN refuses 1, 2, 3, 4, 20, then 13, a journal of no words, then 21, a texture or reference entry above 1,023.
pub fn open_number(settings: &Settings, pictures: &Pictures, planes: &Planes, journal: &[u32]) -> u32 {
    let common = common_number(settings, pictures, planes);
    let [left, right] = pictures.textures;
    if common != 0 {
        common
    } else if journal.is_empty() {
        13
    } else if [left, right, pictures.reference].into_iter().flatten().any(|&entry| entry > WHITE) {
        21
    } else {
        0
    }
}

/// Refusal 8: the total plus the change is from 0 to 1,046,529 × w × h.
pub fn total_is_taken(settings: &Settings, change: i64) -> bool {
    let total = i128::from(settings.total) + i128::from(change);
    (0..=i128::from(WORST) * i128::from(settings.w) * i128::from(settings.h)).contains(&total)
}

/// What a candidate's kind turns down: 7 a full block, 14 a line, 15 a mask. The number, 0 for none.
pub fn candidate_number(block: Block, candidate: Candidate) -> u32 {
    let area = u64::from(block.width) * u64::from(block.height);
    match candidate {
        Candidate::Full(depths) if depths.len() as u64 != area => 7,
        Candidate::Regions { regions: Regions::Line { start, end }, .. } if !line_is_taken(block, start, end) => 14,
        Candidate::Regions { regions: Regions::Mask(bits), .. } if bits.len() as u64 != mask_length(block) => 15,
        _ => 0,
    }
}

/// A block of some width and height that reaches past no edge.
pub fn block_is_taken(settings: &Settings, block: Block) -> bool {
    let [column, row, width, height] = [block.column, block.row, block.width, block.height].map(u64::from);
    width > 0 && height > 0 && column + width <= u64::from(settings.w) && row + height <= u64::from(settings.h)
}

/// Whether a position of the picture lies in a block.
pub fn lies_in(block: Block, column: u32, row: u32) -> bool {
    let along = |first: u32, length: u32, at: u32| first <= at && u64::from(at) < u64::from(first) + u64::from(length);
    along(block.column, block.width, column) && along(block.row, block.height, row)
}

/// The positions of a block of the picture, by rows.
pub fn positions(block: Block) -> impl Iterator<Item = (u32, u32)> {
    let Block { column, row, width, height } = block;
    (row..row + height).flat_map(move |y| (column..column + width).map(move |x| (x, y)))
}

/// Edits are separate where they share no position of the same view (card 10).
pub fn are_separate(views: [View; 2], blocks: [Block; 2]) -> bool {
    views[0] != views[1] || !positions(blocks[0]).any(|(column, row)| lies_in(blocks[1], column, row))
}

/// The usual test of two blocks, none of them empty: one ends before the other begins, in columns or in rows.
pub fn are_apart(blocks: [Block; 2]) -> bool {
    let [a, b] = blocks;
    let before = |a: Block, b: Block| a.column + a.width <= b.column || a.row + a.height <= b.row;
    before(a, b) || before(b, a)
}

/// GET and SET refuse 1, 2, 3, 4, 20, 6, 5, then what the candidate's kind has, and then 8, which is left out here. What SET has
/// after 8 is `journal_number`.
pub fn call_number(settings: &Settings, pictures: &Pictures, planes: &Planes, view: u32, block: Block, candidate: Candidate) -> u32 {
    let common = common_number(settings, pictures, planes);
    if common != 0 {
        common
    } else if view > 1 {
        6
    } else if !block_is_taken(settings, block) {
        5
    } else {
        candidate_number(block, candidate)
    }
}

/// A record of a journal (card 3): index of the one before, view, first column, first row, width, height, old depths one a word.
#[derive(Clone, Debug, PartialEq, Eq)]
pub struct Record {
    pub index: u32,
    pub before: u32,
    pub view: u32,
    pub block: Block,
    pub depths: Vec<u8>,
}

impl Record {
    /// The record that stands at an index; nothing where it is past the end, its block empty or past an edge, its view above 1
    /// or a depth above 255.
    pub fn read(settings: &Settings, journal: &[u32], index: u32) -> Option<Record> {
        let words = journal.get(index as usize..)?;
        let [before, view, column, row, width, height] = *words.first_chunk()?;
        let block = Block { column, row, width, height };
        if !block_is_taken(settings, block) || view > 1 {
            return None;
        }
        let depths = words[6..].get(..width as usize * height as usize)?;
        let depths = depths.iter().map(|&depth| u8::try_from(depth).ok()).collect::<Option<_>>()?;
        Some(Record { index, before, view, block, depths })
    }

    /// The index directly after it.
    pub fn end(&self) -> usize {
        self.index as usize + 6 + self.depths.len()
    }

    /// Its words.
    pub fn words(&self) -> Vec<u32> {
        let Block { column, row, width, height } = self.block;
        let mut words = vec![self.before, self.view, column, row, width, height];
        words.extend(self.depths.iter().map(|&depth| u32::from(depth)));
        words
    }
}

/// The records of a journal, the newest first; nothing where it is refused with 13: a journal of no words, a chain that doesn't
/// fall to zero, or a record that cannot be read.
pub fn chain(settings: &Settings, journal: &[u32]) -> Option<Vec<Record>> {
    let (mut records, mut index) = (Vec::new(), *journal.first()?);
    while index > 0 {
        let record = Record::read(settings, journal, index)?;
        if record.before >= index {
            return None;
        }
        index = record.before;
        records.push(record);
    }
    Some(records)
}

/// Where the next record stands: it follows the newest, or word 0, directly.
pub fn next_index(records: &[Record]) -> usize {
    records.first().map_or(1, Record::end)
}

/// What SET has after 8: 13, then 11, where the words beyond the newest record can't hold the new one or its index passes 32
/// bits. The number, 0 for none.
pub fn journal_number(settings: &Settings, journal: &[u32], block: Block) -> u32 {
    let Some(records) = chain(settings, journal) else { return 13 };
    let (next, area) = (next_index(&records), block.width as usize * block.height as usize);
    if next > u32::MAX as usize || journal.len() - next < 6 + area {
        11
    } else {
        0
    }
}

/// TAKE BACK refuses 1, 2, 3, 4, 20, 13, 12, and then 8, which is left out here.
pub fn take_back_number(settings: &Settings, pictures: &Pictures, planes: &Planes, journal: &[u32]) -> u32 {
    match (common_number(settings, pictures, planes), chain(settings, journal)) {
        (0, None) => 13,
        (0, Some(records)) if records.is_empty() => 12,
        (common, _) => common,
    }
}

/// The depths of a block in row order.
pub fn depths_of(settings: &Settings, plane: &[u8], block: Block) -> Vec<u8> {
    let rows = block.row as usize..(block.row + block.height) as usize;
    rows.flat_map(|y| &plane[y * settings.w as usize + block.column as usize..][..block.width as usize]).copied().collect()
}

/// The journal after an accepted SET of a block over these depths: word 0 and the new record are written.
pub fn saved(settings: &Settings, journal: &[u32], depths: [&[u8]; 2], view: usize, block: Block) -> Vec<u32> {
    let records = chain(settings, journal).expect("SET accepts the journal");
    let (index, before) = (next_index(&records) as u32, journal[0]);
    let record = Record { index, before, view: view as u32, block, depths: depths_of(settings, depths[view], block) };
    let mut journal = journal.to_vec();
    journal[0] = index;
    journal[index as usize..record.end()].copy_from_slice(&record.words());
    journal
}

/// The newest record, which TAKE BACK writes back.
pub fn newest(settings: &Settings, journal: &[u32]) -> Record {
    chain(settings, journal).expect("TAKE BACK accepts the journal").swap_remove(0)
}

/// The journal with another word 0: that of the record before after an accepted TAKE BACK, zero after an accepted OPEN or MOVE.
pub fn with_newest(journal: &[u32], index: u32) -> Vec<u32> {
    let mut journal = journal.to_vec();
    journal[0] = index;
    journal
}

/// RENDER refuses 1, 2, 3, 20, then 6; `lens` are those of texture, depths, samples and fronts.
pub fn render_number(settings: &Settings, view: u32, lens: [usize; 4], marks: usize) -> u32 {
    let w = settings.w as usize;
    if !side_is_taken(settings.w) {
        1
    } else if lens != [w; 4] || marks != mark_bytes(w) {
        2
    } else if !tables_are_taken(settings) {
        3
    } else if !gaps_are_taken(settings) {
        20
    } else if view > 1 {
        6
    } else {
        0
    }
}

/// HOLES refuses 1, 2, then 6.
pub fn holes_number(settings: &Settings, view: u32, marks: [&[u8]; 2]) -> u32 {
    let m = mark_bytes(settings.w as usize) * settings.h as usize;
    if !side_is_taken(settings.w) || !side_is_taken(settings.h) {
        1
    } else if marks.iter().any(|plane| plane.len() != m) {
        2
    } else if view > 1 {
        6
    } else {
        0
    }
}

/// The mark of column x of row y.
pub fn mark(settings: &Settings, marks: &[u8], y: usize, x: usize) -> u8 {
    marks[y * mark_bytes(settings.w as usize) + x / 8] >> (x % 8) & 1
}

/// HOLES counts the marks of 1 at positions below w.
pub fn holes(settings: &Settings, marks: &[u8]) -> u64 {
    let mut count = 0;
    for y in 0..settings.h as usize {
        for x in 0..settings.w as usize {
            count += u64::from(mark(settings, marks, y, x));
        }
    }
    count
}

/// What CHECK answers for these planes and this total: the first difference by rows from a fresh drawing, with which held
/// samples are compared as they are.
pub fn report(settings: &Settings, fresh: &Drawing, planes: &Planes) -> Report {
    let (w, h) = (settings.w as usize, settings.h as usize);
    let spare = |marks: &[u8], y: usize| if w % 8 == 0 { 0 } else { marks[(y + 1) * mark_bytes(w) - 1] >> (w % 8) };
    for y in 0..h {
        for x in 0..w {
            let at = y * w + x;
            let same = (0..2).all(|v| {
                planes.samples[v][at] == fresh.samples[v][at]
                    && planes.fronts[v][at] == fresh.fronts[v][at]
                    && planes.limits[v][at] == fresh.limits[v][at]
                    && mark(settings, planes.marks[v], y, x) == mark(settings, &fresh.marks[v], y, x)
                    && (x < w - 1 || spare(planes.marks[v], y) == spare(&fresh.marks[v], y))
            });
            if !same || planes.combined[at] != fresh.combined[at] {
                return Report::Difference { row: y as u32, column: x as u32 };
            }
        }
    }
    if settings.total == fresh.total {
        Report::Sound
    } else {
        Report::Total
    }
}

/// "The span of an edit": where an edit of the block from the depths `old` to the depths `new` of one view may show in row
/// y, and which of the row's limits may change.
pub struct Span {
    pub shown: Vec<bool>,
    pub limits: Vec<bool>,
}

pub fn span(settings: &Settings, view: usize, block: Block, old: &[u8], new: &[u8], y: usize) -> Span {
    let w = settings.w as usize;
    let row = |plane: &[u8]| if view == 0 { plane[y * w..(y + 1) * w].to_vec() } else { reversed(&plane[y * w..(y + 1) * w]) };
    let (old, new) = (row(old), row(new));
    let (a, width) = (block.column as usize, block.width as usize);
    let a = if view == 0 { a } else { w - a - width };
    let b = a + width - 1;
    let old = LeftRow::new(settings, view, &[], &old);
    let new = LeftRow::new(settings, view, &[], &new);
    let mut low = (a..=b).map(|c| old.place(c).min(new.place(c))).min().expect("the block has a column");
    if a > 0 {
        low = low.min(old.place(a - 1));
    }
    low -= 1; // card 7
    let shown = |p: usize| low <= 4 * p as i32 && (b == w - 1 || 4 * (p as i32) < old.limit(b + 1));
    let mut span = Span { shown: (0..w).map(shown).collect(), limits: (0..w).map(|c| c <= b).collect() };
    if view == 1 {
        span.shown.reverse();
        span.limits.reverse();
    }
    span
}

/// The span of an edit of one column of one row.
#[derive(Clone, Copy, Debug, PartialEq, Eq)]
pub struct Reach {
    pub low: i32,
    pub high: i32,
}

impl Reach {
    /// Column c of a row as the view reads it gets the depth `new`. Low is the least of the old and the new place of c and, if
    /// c > 0, the place of c − 1, and then a quarter less (card 7). High is the limit of c + 1, and 4 × w for the last column.
    pub fn of(row: &LeftRow, c: usize, new: u8) -> Reach {
        let mut low = row.place(c).min(4 * c as i32 - i32::from(row.table[usize::from(new)]));
        if c > 0 {
            low = low.min(row.place(c - 1));
        }
        let last = c == row.w() - 1;
        Reach { low: low - 1, high: if last { 4 * row.w() as i32 } else { row.limit(c + 1) } }
    }

    /// The same in a view's depth plane, for a block of one column and one row; the right view's row is reversed.
    pub fn in_plane(settings: &Settings, view: usize, depths: &[u8], block: Block, new: u8) -> Reach {
        assert_eq!((block.width, block.height), (1, 1));
        let (w, column) = (settings.w as usize, block.column as usize);
        let row = &depths[block.row as usize * w..][..w];
        match view {
            0 => Reach::of(&LeftRow::new(settings, view, &[], row), column, new),
            _ => Reach::of(&LeftRow::new(settings, view, &[], &reversed(row)), w - 1 - column, new),
        }
    }

    /// L is high minus low, with low taken as 0 if it is below (card 4).
    pub fn length(self) -> i32 {
        self.high - self.low.max(0)
    }

    /// How far the edit can move the total: 0 if L is 0 or less, else 1,046,529 × ((L + 3) div 4).
    #[allow(clippy::manual_div_ceil)]
    pub fn most_change(self) -> u64 {
        match self.length() {
            length if length <= 0 => 0,
            length => WORST * ((length as u64 + 3) / 4),
        }
    }
}
