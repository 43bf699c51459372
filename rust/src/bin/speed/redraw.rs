//! A program that redraws the block's rows completely for every trial. It keeps each row's error, so that a trial draws
//! one view's row, combines it with the other view's and adds up.

use crate::held::{combine, near_edge, position, read, seen, square, window, Gaps, Held, Pair, Pixel};
use crate::scene::Scene;
use luphwezane::{Block, Settings};

pub struct Redraw {
    pub held: Held,
    errors: Vec<u64>,
    row: Row,
}

/// A drawn row: what the view shows, what is combined, and the limits.
struct Row {
    depths: Vec<u8>,
    pixels: Vec<Pixel>,
    combined: Vec<u16>,
    limits: Vec<i16>,
}

impl Redraw {
    pub fn open(settings: &Settings, scene: &Scene) -> Redraw {
        let (w, pixel) = (scene.w, Pixel { sample: 0, hole: false, front: 0 });
        let row = Row { depths: vec![0; w], pixels: vec![pixel; w], combined: vec![0; w], limits: vec![0; w] };
        let mut redraw = Redraw { held: Held::new(settings, scene), errors: vec![0; scene.h], row };
        redraw.draw_all();
        redraw
    }

    /// Draws both views and the combined picture.
    pub fn draw_all(&mut self) {
        let (w, h) = (self.held.w, self.held.h);
        for y in 0..h {
            self.render(0, y);
            self.render(1, y);
            self.errors[y] = self.combine(1, y);
            self.held.combined[y * w..(y + 1) * w].copy_from_slice(&self.row.combined);
        }
        self.held.total = self.errors.iter().sum();
    }

    pub fn move_seat(&mut self, to: &Settings, reference: &[u16]) {
        self.held.move_to(to, reference);
        self.draw_all();
    }

    /// Draws row y of a view into its planes.
    pub fn render(&mut self, view: usize, y: usize) {
        self.draw(view, y, None);
        self.keep(view, y);
    }

    pub fn get(&mut self, view: usize, block: Block, candidate: &[u8]) -> i64 {
        let mut change = 0;
        for (k, part) in candidate.chunks_exact(block.width as usize).enumerate() {
            let y = block.row as usize + k;
            self.draw(view, y, Some((block.column as usize, part)));
            change += self.combine(view, y) as i64 - self.errors[y] as i64;
        }
        change
    }

    pub fn set(&mut self, view: usize, block: Block, candidate: &[u8]) -> i64 {
        let (w, mut change) = (self.held.w, 0);
        self.held.write(view, block, candidate);
        for y in block.row as usize..(block.row + block.height) as usize {
            self.render(view, y);
            let error = self.combine(view, y);
            self.held.combined[y * w..(y + 1) * w].copy_from_slice(&self.row.combined);
            change += error as i64 - self.errors[y] as i64;
            self.errors[y] = error;
        }
        self.held.total = self.held.total.wrapping_add_signed(change);
        change
    }

    /// Draws row y of a view, with a candidate in the columns from the given one on.
    fn draw(&mut self, view: usize, y: usize, part: Option<(usize, &[u8])>) {
        let w = self.held.w;
        self.row.depths.copy_from_slice(&self.held.depths[view][y * w..(y + 1) * w]);
        if let Some((column, part)) = part {
            self.row.depths[column..column + part.len()].copy_from_slice(part);
        }
        let (table, texture) = (&self.held.tables[view], &self.held.textures[view][y * w..(y + 1) * w]);
        match view {
            0 => draw_row::<false>(table, self.held.gaps, texture, &mut self.row),
            _ => draw_row::<true>(table, self.held.gaps, texture, &mut self.row),
        }
    }

    /// Keeps the drawn row in the view's planes.
    fn keep(&mut self, view: usize, y: usize) {
        let (w, bytes) = (self.held.w, self.held.mark_bytes());
        let Row { pixels, limits, .. } = &self.row;
        self.held.limits[view][y * w..(y + 1) * w].copy_from_slice(limits);
        self.held.samples[view][y * w..(y + 1) * w].iter_mut().zip(pixels).for_each(|(sample, pixel)| *sample = pixel.sample as u16);
        self.held.fronts[view][y * w..(y + 1) * w].iter_mut().zip(pixels).for_each(|(front, pixel)| *front = pixel.front as u8);
        let marks = &mut self.held.marks[view][y * bytes..(y + 1) * bytes];
        for (byte, pixels) in marks.iter_mut().zip(pixels.chunks(8)) {
            *byte = pixels.iter().enumerate().fold(0, |byte, (k, pixel)| byte | u8::from(pixel.hole) << k);
        }
    }

    /// Combines the drawn row of a view with the other view's and answers the row's error.
    fn combine(&mut self, view: usize, y: usize) -> u64 {
        let (held, other) = (&self.held, 1 - view);
        let (w, bytes) = (held.w, held.mark_bytes());
        let (samples, fronts) = (&held.samples[other][y * w..(y + 1) * w], &held.fronts[other][y * w..(y + 1) * w]);
        let (marks, reference) = (&held.marks[other][y * bytes..(y + 1) * bytes], &held.reference[y * w..(y + 1) * w]);
        let mut error = 0;
        for (x, own) in self.row.pixels.iter().enumerate() {
            let far = Pixel { sample: read(samples[x]), hole: marks[x / 8] >> (x % 8) & 1 == 1, front: u32::from(fronts[x]) };
            let (left, right) = if view == 0 { (*own, far) } else { (far, *own) };
            let sample = combine(held.share, held.tolerance, left, right);
            self.row.combined[x] = sample as u16;
            error += square(sample, read(reference[x]));
        }
        u64::from(error)
    }
}

/// Draws a whole row from the right, column by column. `front` is the entry of the greatest column placed at the limit.
fn draw_row<const RIGHT: bool>(table: &[u16; 256], gaps: Gaps, texture: &[u16], row: &mut Row) {
    let w = texture.len();
    let (mut top, mut limit, mut front) = (w, i32::MAX, 0);
    let (mut next, mut ends) = (None, [0; 8]);
    for c in (0..w).rev() {
        let at = seen::<RIGHT>(w, c);
        let depth = row.depths[at];
        let place = 4 * c as i32 - i32::from(table[usize::from(depth)]);
        let from = position(place);
        if from < top {
            let (far_depth, far_place) = next.unwrap_or((depth, 0));
            let window = window::<RIGHT>(texture, at, &mut ends);
            let pair = Pair::<RIGHT> { window, depths: [depth, far_depth], gap: far_place - place, gaps, last: next.is_none() };
            for p in from..top {
                row.pixels[seen::<RIGHT>(w, p)] = pair.pixel(4 * p as i32 - place);
            }
            if near_edge(limit, far_place) {
                row.pixels[seen::<RIGHT>(w, top - 1)] =
                    Pixel { sample: read(texture[front]), hole: false, front: u32::from(row.depths[front]) };
            }
            top = from;
        }
        if place < limit {
            (limit, front) = (place, at);
        }
        row.limits[at] = limit as i16;
        next = Some((depth, place));
    }
}
