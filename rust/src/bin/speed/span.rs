//! A span renderer written for speed: the library's own way of working, by hand. A trial goes over the span of each of the
//! block's rows once, from the right, and adds up old and new errors without storing a pixel.

use crate::held::{combine, near_edge, position, read, seen, square, window, Held, Pair, Pixel};
use crate::scene::Scene;
use luphwezane::{Block, Settings};

pub struct Span {
    pub held: Held,
    /// A row of a SET, drawn before it is written.
    drawn: Vec<Drawn>,
}

/// Where one row of an edit lies: the row, the block's stored columns, and its columns as the view reads them.
#[derive(Clone, Copy)]
struct Edit<'a> {
    y: usize,
    column: usize,
    part: &'a [u8],
    first: usize,
    end: usize,
}

/// What is drawn at a position, and where: entry of the row, the view's pixel, the combined sample.
struct Drawn {
    at: usize,
    own: Pixel,
    sample: u32,
}

/// What is beside the drawn view in a row: the other view, the combined picture as it is held, and the reference.
struct Beside<'a> {
    share: u32,
    tolerance: u32,
    samples: &'a [u16],
    fronts: &'a [u8],
    marks: &'a [u8],
    combined: &'a [u16],
    reference: &'a [u16],
}

impl Beside<'_> {
    /// Combines what the view shows at a position and adds to the old and new errors.
    #[inline(always)]
    fn measured<const RIGHT: bool>(&self, p: usize, own: Pixel, old: &mut u32, new: &mut u32) -> Drawn {
        let at = seen::<RIGHT>(self.reference.len(), p);
        let far =
            Pixel { sample: read(self.samples[at]), hole: self.marks[at / 8] >> (at % 8) & 1 == 1, front: u32::from(self.fronts[at]) };
        let (left, right) = if RIGHT { (far, own) } else { (own, far) };
        let sample = combine(self.share, self.tolerance, left, right);
        let reference = read(self.reference[at]);
        *old += square(read(self.combined[at]), reference);
        *new += square(sample, reference);
        Drawn { at, own, sample }
    }
}

impl Span {
    pub fn open(settings: &Settings, scene: &Scene) -> Span {
        let mut span = Span { held: Held::new(settings, scene), drawn: Vec::with_capacity(scene.w) };
        span.draw_all();
        span
    }

    /// Draws both views and the combined picture.
    pub fn draw_all(&mut self) {
        self.held.total = 0;
        for y in 0..self.held.h {
            self.draw_row::<false>(y);
            self.draw_row::<true>(y);
            self.held.total += u64::from(self.combine_row(y));
        }
    }

    pub fn move_seat(&mut self, to: &Settings, reference: &[u16]) {
        self.held.move_to(to, reference);
        self.draw_all();
    }

    /// Combines row y of both views as they are held and answers the row's error.
    fn combine_row(&mut self, y: usize) -> u32 {
        let held = &mut self.held;
        let (w, bytes, share, tolerance) = (held.w, held.mark_bytes(), held.share, held.tolerance);
        let (row, packed) = (y * w..(y + 1) * w, y * bytes..(y + 1) * bytes);
        let samples = held.samples.each_ref().map(|plane| &plane[row.clone()]);
        let fronts = held.fronts.each_ref().map(|plane| &plane[row.clone()]);
        let marks = held.marks.each_ref().map(|plane| &plane[packed.clone()]);
        let (combined, reference) = (&mut held.combined[row.clone()], &held.reference[row]);
        let mut error = 0;
        for x in 0..w {
            let shown = |v: usize| Pixel {
                sample: u32::from(samples[v][x]),
                hole: marks[v][x / 8] >> (x % 8) & 1 == 1,
                front: u32::from(fronts[v][x]),
            };
            let sample = combine(share, tolerance, shown(0), shown(1));
            combined[x] = sample as u16;
            error += square(sample, read(reference[x]));
        }
        error
    }

    /// Draws row y of a view into its planes.
    pub fn render(&mut self, view: usize, y: usize) {
        match view {
            0 => self.draw_row::<false>(y),
            _ => self.draw_row::<true>(y),
        }
    }

    pub fn get(&self, view: usize, block: Block, candidate: &[u8]) -> i64 {
        let mut change = 0;
        for (k, part) in candidate.chunks_exact(block.width as usize).enumerate() {
            change += match view {
                0 => self.row_change::<false>(self.edit::<false>(block, k, part), |_| ()),
                _ => self.row_change::<true>(self.edit::<true>(block, k, part), |_| ()),
            };
        }
        change
    }

    /// How many positions a trial draws.
    pub fn positions(&self, view: usize, block: Block, candidate: &[u8]) -> i64 {
        let mut count = 0;
        for (k, part) in candidate.chunks_exact(block.width as usize).enumerate() {
            match view {
                0 => self.row_change::<false>(self.edit::<false>(block, k, part), |_| count += 1),
                _ => self.row_change::<true>(self.edit::<true>(block, k, part), |_| count += 1),
            };
        }
        count
    }

    pub fn set(&mut self, view: usize, block: Block, candidate: &[u8]) -> i64 {
        let mut change = 0;
        for (k, part) in candidate.chunks_exact(block.width as usize).enumerate() {
            change += match view {
                0 => self.set_row::<false>(block, k, part),
                _ => self.set_row::<true>(block, k, part),
            };
        }
        self.held.total = self.held.total.wrapping_add_signed(change);
        change
    }

    fn edit<'a, const RIGHT: bool>(&self, block: Block, k: usize, part: &'a [u8]) -> Edit<'a> {
        let (column, width) = (block.column as usize, block.width as usize);
        let first = if RIGHT { self.held.w - column - width } else { column };
        Edit { y: block.row as usize + k, column, part, first, end: first + width }
    }

    /// The change of a row's error; `keep` is told each position that is drawn.
    #[inline(always)]
    fn row_change<const RIGHT: bool>(&self, edit: Edit, mut keep: impl FnMut(Drawn)) -> i64 {
        let (held, view, other) = (&self.held, usize::from(RIGHT), usize::from(!RIGHT));
        let (w, bytes) = (held.w, held.mark_bytes());
        let (base, packed) = (edit.y * w, edit.y * bytes);
        let (table, texture, depths) = (&held.tables[view], &held.textures[view][base..base + w], &held.depths[view][base..base + w]);
        let limits = &held.limits[view][base..base + w];
        let beside = Beside {
            share: held.share,
            tolerance: held.tolerance,
            samples: &held.samples[other][base..base + w],
            fronts: &held.fronts[other][base..base + w],
            marks: &held.marks[other][packed..packed + bytes],
            combined: &held.combined[base..base + w],
            reference: &held.reference[base..base + w],
        };
        let place = |c: usize, depth: u8| 4 * c as i32 - i32::from(table[usize::from(depth)]);
        let plain = |c: usize| {
            let at = seen::<RIGHT>(w, c);
            let front = if (edit.first..edit.end).contains(&c) { edit.part[at - edit.column] } else { depths[at] };
            Pixel { sample: read(texture[at]), hole: false, front: u32::from(front) }
        };

        let mut low = i32::MAX;
        if edit.first > 0 {
            low = place(edit.first - 1, depths[seen::<RIGHT>(w, edit.first - 1)]);
        }
        for c in edit.first..edit.end {
            let at = seen::<RIGHT>(w, c);
            low = low.min(place(c, depths[at])).min(place(c, edit.part[at - edit.column]));
        }
        let start = position(low - 1);
        let (mut top, mut limit, mut next) = (w, i32::MAX, None);
        if edit.end < w {
            let at = seen::<RIGHT>(w, edit.end);
            limit = i32::from(limits[at]);
            top = position(limit);
            next = Some((depths[at], place(edit.end, depths[at])));
        }

        // `front` is the greatest column placed at the limit, w where it lies right of the block.
        let (mut old, mut new) = (0, 0);
        let (mut c, mut front, mut ends) = (edit.end, w, [0; 8]);
        while c > 0 && top > start {
            c -= 1;
            let at = seen::<RIGHT>(w, c);
            let depth = if c >= edit.first { edit.part[at - edit.column] } else { depths[at] };
            let here = place(c, depth);
            if here < limit {
                let from = position(here).max(start);
                if from < top {
                    let (far_depth, far_place) = next.unwrap_or((depth, 0));
                    let window = window::<RIGHT>(texture, at, &mut ends);
                    let pair =
                        Pair::<RIGHT> { window, depths: [depth, far_depth], gap: far_place - here, gaps: held.gaps, last: next.is_none() };
                    if near_edge(limit, far_place) {
                        top -= 1;
                        let near = if front < w { front } else { front_column::<RIGHT>(limits, edit.end) };
                        keep(beside.measured::<RIGHT>(top, plain(near), &mut old, &mut new));
                    }
                    for p in from..top {
                        keep(beside.measured::<RIGHT>(p, pair.pixel(4 * p as i32 - here), &mut old, &mut new));
                    }
                    top = from;
                }
                (limit, front) = (here, c);
            }
            next = Some((depth, here));
        }
        i64::from(new) - i64::from(old)
    }

    fn set_row<const RIGHT: bool>(&mut self, block: Block, k: usize, part: &[u8]) -> i64 {
        let edit = self.edit::<RIGHT>(block, k, part);
        let mut drawn = std::mem::take(&mut self.drawn);
        let change = self.row_change::<RIGHT>(edit, |position| drawn.push(position));
        let (view, base, packed) = (usize::from(RIGHT), edit.y * self.held.w, edit.y * self.held.mark_bytes());
        self.held.depths[view][base + edit.column..base + edit.column + part.len()].copy_from_slice(part);
        for Drawn { at, own, sample } in drawn.drain(..) {
            self.held.samples[view][base + at] = own.sample as u16;
            self.held.fronts[view][base + at] = own.front as u8;
            self.held.combined[base + at] = sample as u16;
            put_mark(&mut self.held.marks[view][packed + at / 8], at % 8, own.hole);
        }
        self.drawn = drawn;
        self.set_limits::<RIGHT>(edit.y, edit.first, edit.end);
        change
    }

    /// Limits of the columns below `end`; left of `first` they stand as soon as one is as it was.
    fn set_limits<const RIGHT: bool>(&mut self, y: usize, first: usize, end: usize) {
        let (view, w, base) = (usize::from(RIGHT), self.held.w, y * self.held.w);
        let mut limit = if end < w { i32::from(self.held.limits[view][base + seen::<RIGHT>(w, end)]) } else { i32::MAX };
        for c in (0..end).rev() {
            let at = base + seen::<RIGHT>(w, c);
            limit = limit.min(4 * c as i32 - i32::from(self.held.tables[view][usize::from(self.held.depths[view][at])]));
            if c < first && i32::from(self.held.limits[view][at]) == limit {
                return;
            }
            self.held.limits[view][at] = limit as i16;
        }
    }

    /// Draws a whole row of a view into its planes.
    fn draw_row<const RIGHT: bool>(&mut self, y: usize) {
        let held = &mut self.held;
        let (view, w, bytes) = (usize::from(RIGHT), held.w, held.mark_bytes());
        let (row, packed) = (y * w..(y + 1) * w, y * bytes..(y + 1) * bytes);
        let (table, texture, depths) = (&held.tables[view], &held.textures[view][row.clone()], &held.depths[view][row.clone()]);
        let (samples, fronts) = (&mut held.samples[view][row.clone()], &mut held.fronts[view][row.clone()]);
        let (limits, marks) = (&mut held.limits[view][row], &mut held.marks[view][packed]);
        let (mut top, mut limit, mut front, mut next, mut ends) = (w, i32::MAX, 0, None, [0; 8]);
        for c in (0..w).rev() {
            let at = seen::<RIGHT>(w, c);
            let depth = depths[at];
            let place = 4 * c as i32 - i32::from(table[usize::from(depth)]);
            if place < limit {
                let from = position(place);
                if from < top {
                    let (far_depth, far_place) = next.unwrap_or((depth, 0));
                    let window = window::<RIGHT>(texture, at, &mut ends);
                    let pair =
                        Pair::<RIGHT> { window, depths: [depth, far_depth], gap: far_place - place, gaps: held.gaps, last: next.is_none() };
                    if near_edge(limit, far_place) {
                        top -= 1;
                        let at = seen::<RIGHT>(w, top);
                        samples[at] = read(texture[front]) as u16;
                        fronts[at] = depths[front];
                        put_mark(&mut marks[at / 8], at % 8, false);
                    }
                    for p in from..top {
                        let (at, pixel) = (seen::<RIGHT>(w, p), pair.pixel(4 * p as i32 - place));
                        samples[at] = pixel.sample as u16;
                        fronts[at] = pixel.front as u8;
                        put_mark(&mut marks[at / 8], at % 8, pixel.hole);
                    }
                    top = from;
                }
                (limit, front) = (place, at);
            }
            limits[at] = limit as i16;
            next = Some((depth, place));
        }
    }
}

/// The greatest column placed at the held limit of column `end`: limits never fall with the column, and it is the last that
/// has this one. No disparity brings a column there that is 256 columns further right.
#[cold]
#[inline(never)]
fn front_column<const RIGHT: bool>(limits: &[i16], end: usize) -> usize {
    let w = limits.len();
    let limit = limits[seen::<RIGHT>(w, end)];
    let (mut last, mut above) = (end, w.min(end + 256));
    while above - last > 1 {
        let middle = (last + above) / 2;
        if limits[seen::<RIGHT>(w, middle)] == limit {
            last = middle;
        } else {
            above = middle;
        }
    }
    last
}

#[inline(always)]
fn put_mark(byte: &mut u8, bit: usize, hole: bool) {
    *byte = *byte & !(1 << bit) | u8::from(hole) << bit;
}
