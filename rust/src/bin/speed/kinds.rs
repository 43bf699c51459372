//! Candidates of one value, of a line and of a mask, each with the full block of the same depths.

use crate::scene::Scene;
use crate::{Random, Stage};
use luphwezane::{Block, Candidate, Point, View};

/// A kind of candidate that is no full block.
#[derive(Clone, Copy)]
pub enum Kind {
    Value,
    Line,
    Mask,
}

pub const KINDS: [(&str, Kind); 3] = [("one value", Kind::Value), ("a line", Kind::Line), ("a mask", Kind::Mask)];

/// Candidates of one kind for one block.
pub struct Shapes {
    pub view: View,
    pub block: Block,
    pub shapes: Vec<Shape>,
}

/// A candidate, and its depths as a full block.
pub struct Shape {
    kind: Kind,
    values: [u8; 2],
    ends: [Point; 2],
    bits: Vec<u8>,
    pub depths: Vec<u8>,
}

impl Shape {
    #[inline]
    pub fn candidate(&self) -> Candidate<'_> {
        match self.kind {
            Kind::Value => Candidate::Flat(self.values[0]),
            Kind::Line => Candidate::line(self.ends[0], self.ends[1], self.values),
            Kind::Mask => Candidate::mask(&self.bits, self.values),
        }
    }

    /// Fills the full block.
    fn filled(mut self, side: usize) -> Shape {
        let in_line = |x: usize, y: usize| {
            let [from, to] = self.ends.map(|point| [i64::from(point.column), i64::from(point.row)]);
            (to[0] - from[0]) * (y as i64 - from[1]) > (to[1] - from[1]) * (x as i64 - from[0])
        };
        let region = |k: usize| match self.kind {
            Kind::Value => false,
            Kind::Line => in_line(k % side, k / side),
            Kind::Mask => self.bits[k / 8] >> (k % 8) & 1 == 1,
        };
        self.depths = (0..side * side).map(|k| self.values[usize::from(region(k))]).collect();
        self
    }
}

impl Stage {
    /// Trials of one kind at one random block, as an encoder makes them: values are the block's own first and last depth, moved
    /// by up to 12; a line joins any border points that have no side in common; a mask is 1 where the texture is above its mean.
    pub fn shapes(&self, kind: Kind, side: usize, count: usize, random: &mut Random) -> Shapes {
        let Scene { w, h, depths, textures, .. } = &self.scene;
        let view = View::BOTH[random.below(2)];
        let (column, row) = (random.below(w / side) * side, random.below(h / side) * side);
        let entry = |k: usize| (row + k / side) * w + column + k % side;
        let samples: Vec<usize> = (0..side * side).map(|k| usize::from(textures[view as usize][entry(k)])).collect();
        let sum: usize = samples.iter().sum();
        let above = |part: &[usize]| part.iter().rev().fold(0, |byte, sample| byte << 1 | u8::from(sample * side * side > sum));
        let bits: Vec<u8> = samples.chunks(8).map(above).collect();
        let own = [0, side * side - 1].map(|k| i32::from(depths[view as usize][entry(k)]));
        let shapes = (0..count).map(|_| {
            let values = own.map(|depth| (depth + random.below(25) as i32 - 12).clamp(0, 255) as u8);
            let ends = if let Kind::Line = kind { line(side, random) } else { [Point { column: 0, row: 0 }; 2] };
            Shape { kind, values, ends, bits: bits.clone(), depths: Vec::new() }.filled(side)
        });
        let shapes = shapes.collect();
        Shapes { view, block: Block { column: column as u32, row: row as u32, width: side as u32, height: side as u32 }, shapes }
    }
}

/// Any two border points of a square block that have no side in common.
fn line(side: usize, random: &mut Random) -> [Point; 2] {
    let last = side as u32 - 1;
    let point = |random: &mut Random| {
        let (along, end) = (random.below(side) as u32, [0, last][random.below(2)]);
        match random.below(2) {
            0 => Point { column: along, row: end },
            _ => Point { column: end, row: along },
        }
    };
    loop {
        let [a, b] = [point(random), point(random)];
        let on_side = |x: u32, y: u32| x == y && (x == 0 || x == last);
        if !on_side(a.column, b.column) && !on_side(a.row, b.row) {
            return [a, b];
        }
    }
}
