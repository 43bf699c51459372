//! A small search, as an encoder makes it: for each unit of a view, a block of 8 × 8, many candidates are tried. They are those
//! of Test Model 8's depth modes: one value for the block; two regions parted by a line between border points; two regions told
//! by the texture of the block, 1 where a sample is above their mean. Then the unit is coded as four quarters of one value each,
//! one after the other, since each depends on those before it. Where that is worse, the quarters are taken back and the best
//! candidate for the whole unit is set.

use luphwezane::{Block, Candidate, Point, Refusal, Regions, Session, View};

/// The side of a unit.
pub const SIDE: u32 = 8;

/// How far around a block depths are looked for.
const REACH: u32 = 16;

/// What it costs to send one value, or two with their regions, for a block, and that a unit is coded in quarters: so many of
/// them cost as much as the greatest squared error.
const FLATS: i64 = 130;
const SPLITS: i64 = 65;
const QUARTERS: i64 = 520;

/// Of so many values, the best as flat blocks, two are tried for regions.
const VALUES: usize = 5;

/// What a pass over one view did: the trials, the units set to one value, by a line, by a mask and as quarters, those whose
/// quarters were taken back, and the change.
#[derive(Default)]
pub struct Pass {
    pub trials: u64,
    pub values: u64,
    pub lines: u64,
    pub masks: u64,
    pub quarters: u64,
    pub backed_out: u64,
    pub change: i64,
}

/// Goes over the units of one view by rows. The pictures have samples up to `largest`; `progress` is told how many of how many
/// units are done.
pub fn pass(session: &mut Session, view: View, largest: u16, mut progress: impl FnMut(usize, usize)) -> Result<Pass, Refusal> {
    let whole = Block { column: 0, row: 0, width: session.settings().w, height: session.settings().h };
    let units = parts(whole, SIDE);
    let mut pass = Pass::default();
    for (done, &block) in units.iter().enumerate() {
        progress(done, units.len());
        pass.decide(session, view, block, i64::from(largest).pow(2))?;
    }
    Ok(pass)
}

impl Pass {
    /// Decides how a unit is coded, and keeps it so. `worst` is the greatest squared error.
    fn decide(&mut self, session: &mut Session, view: View, unit: Block, worst: i64) -> Result<(), Refusal> {
        let mask = contour(session, view, unit);
        let mut trials = Trials::new(session, view, unit, worst);
        let (cost, candidate) = trials.best(&mask)?;
        self.trials += trials.made;
        let (quarters_cost, sets) = self.set_quarters(session, view, unit, worst)?;
        if sets > 0 && quarters_cost + worst / QUARTERS < cost.min(0) {
            self.quarters += 1;
        } else {
            for _ in 0..sets {
                self.change += session.take_back()?;
            }
            self.backed_out += u64::from(sets > 0);
            if cost < 0 {
                self.change += session.set(view, unit, candidate)?;
                match candidate {
                    Candidate::Regions { regions: Regions::Line { .. }, .. } => self.lines += 1,
                    Candidate::Regions { regions: Regions::Mask(_), .. } => self.masks += 1,
                    _ => self.values += 1,
                }
            }
        }
        session.keep();
        Ok(())
    }

    /// Sets each quarter of a unit to its best value, where that is better than what it has. Answers the cost and how many were
    /// set. A unit at an edge may have two quarters, or be no larger than one and have none.
    fn set_quarters(&mut self, session: &mut Session, view: View, unit: Block, worst: i64) -> Result<(i64, usize), Refusal> {
        let (quarters, mut sum, mut sets) = (parts(unit, SIDE / 2), 0, 0);
        for &quarter in quarters.iter().filter(|_| quarters.len() > 1) {
            let mut trials = Trials::new(session, view, quarter, worst);
            let (cost, depth) = trials.flats()?[0];
            self.trials += trials.made;
            if cost < 0 {
                self.change += session.set(view, quarter, Candidate::Flat(depth))?;
                sum += cost;
                sets += 1;
            }
        }
        Ok((sum, sets))
    }
}

/// The parts of a block that have this side, by rows; those at its right and lower edge may be smaller.
pub fn parts(block: Block, side: u32) -> Vec<Block> {
    let (right, lower) = (block.column + block.width, block.row + block.height);
    let rows = (block.row..lower).step_by(side as usize);
    rows.flat_map(|row| {
        let columns = (block.column..right).step_by(side as usize);
        columns.map(move |column| Block { column, row, width: side.min(right - column), height: side.min(lower - row) })
    })
    .collect()
}

/// The mask of a block that its texture gives.
fn contour(session: &Session, view: View, block: Block) -> Vec<u8> {
    let (w, texture) = (session.settings().w as usize, session.pictures().textures[view as usize]);
    let rows = block.row as usize..(block.row + block.height) as usize;
    let samples: Vec<u32> =
        rows.flat_map(|y| &texture[y * w + block.column as usize..][..block.width as usize]).map(|&sample| u32::from(sample)).collect();
    let (area, sum) = (samples.len() as u32, samples.iter().sum::<u32>());
    let byte = |part: &[u32]| part.iter().rev().fold(0, |byte, sample| byte << 1 | u8::from(sample * area > sum));
    samples.chunks(8).map(byte).collect()
}

/// The trials of one block.
struct Trials<'a> {
    session: &'a Session,
    view: View,
    block: Block,
    flat_cost: i64,
    split_cost: i64,
    made: u64,
}

impl Trials<'_> {
    fn new(session: &Session, view: View, block: Block, worst: i64) -> Trials<'_> {
        Trials { session, view, block, flat_cost: worst / FLATS, split_cost: worst / SPLITS, made: 0 }
    }

    /// Values for the whole block and their costs, the least first.
    fn flats(&mut self) -> Result<Vec<(i64, u8)>, Refusal> {
        let mut flats = Vec::new();
        for depth in self.depths() {
            flats.push((self.cost(Candidate::Flat(depth))?, depth));
        }
        flats.sort();
        Ok(flats)
    }

    /// The candidate with the least cost.
    fn best<'m>(&mut self, mask: &'m [u8]) -> Result<(i64, Candidate<'m>), Refusal> {
        let flats = self.flats()?;
        let depths: Vec<u8> = flats.iter().take(VALUES).map(|&(_, depth)| depth).collect();
        let mut best = (flats[0].0, Candidate::Flat(flats[0].1));
        let values = pairs(&depths);
        for &values in &values {
            let cost = self.cost(Candidate::mask(mask, values))?;
            if cost < best.0 {
                best = (cost, Candidate::mask(mask, values));
            }
        }
        if let Some((cost, line)) = self.line(&values)? {
            if cost < best.0 {
                best = (cost, line.candidate());
            }
        }
        Ok(best)
    }

    /// The best line with two of these values: first among few lines, then with its ends moved along the border, a point at a
    /// time, as long as that is better.
    fn line(&mut self, values: &[[u8; 2]]) -> Result<Option<(i64, Line)>, Refusal> {
        let mut best = None;
        for (start, end) in lines(self.block) {
            for &values in values {
                self.better(&mut best, Line { start, end, values })?;
            }
        }
        let border = border(self.block);
        while let Some((before, line)) = best {
            for line in line.moved(&border) {
                if is_line(self.block, line.start, line.end) {
                    self.better(&mut best, line)?;
                }
            }
            if best.is_some_and(|(cost, _)| cost == before) {
                break;
            }
        }
        Ok(best)
    }

    /// Tries a line and keeps it where it is better.
    fn better(&mut self, best: &mut Option<(i64, Line)>, line: Line) -> Result<(), Refusal> {
        let cost = self.cost(line.candidate())?;
        if best.map_or(true, |(least, _)| cost < least) {
            *best = Some((cost, line));
        }
        Ok(())
    }

    /// Up to 64 depths, from the farthest to the nearest of the block and its neighbours.
    fn depths(&self) -> Vec<u8> {
        let Block { column, row, width, height } = self.block;
        let (w, h) = (self.session.settings().w, self.session.settings().h);
        let columns = column.saturating_sub(REACH) as usize..w.min(column + width + REACH) as usize;
        let rows = row.saturating_sub(REACH)..h.min(row + height + REACH);
        let plane = self.session.planes().depths[self.view as usize];
        let around = rows.flat_map(|y| &plane[y as usize * w as usize..][columns.clone()]);
        let (far, near) = around.fold((255, 0), |(far, near), &depth| (depth.min(far), depth.max(near)));
        (far..=near).step_by(1 + usize::from(near - far) / 64).collect()
    }

    /// The change of the total and what the candidate costs to send.
    fn cost(&mut self, candidate: Candidate) -> Result<i64, Refusal> {
        self.made += 1;
        let sent = if let Candidate::Flat(_) = candidate { self.flat_cost } else { self.split_cost };
        Ok(self.session.get(self.view, self.block, candidate)? + sent)
    }
}

/// A line of a block, with its values.
#[derive(Clone, Copy)]
struct Line {
    start: Point,
    end: Point,
    values: [u8; 2],
}

impl Line {
    fn candidate(self) -> Candidate<'static> {
        Candidate::line(self.start, self.end, self.values)
    }

    /// The four lines with one end a point further along the border, to either side.
    fn moved(self, border: &[Point]) -> [Line; 4] {
        let at = |point: Point| border.iter().position(|&other| other == point).expect("an end is on the border");
        let beside = |point: Point| [1, border.len() - 1].map(|step| border[(at(point) + step) % border.len()]);
        let ([a, b], [c, d]) = (beside(self.start), beside(self.end));
        [Line { start: a, ..self }, Line { start: b, ..self }, Line { end: c, ..self }, Line { end: d, ..self }]
    }
}

/// Every two of these values, in either order.
fn pairs(values: &[u8]) -> Vec<[u8; 2]> {
    let pairs = values.iter().flat_map(|&zero| values.iter().map(move |&one| [zero, one]));
    pairs.filter(|[zero, one]| zero != one).collect()
}

/// The border points of a block, once around it.
fn border(block: Block) -> Vec<Point> {
    let (right, lower) = (block.width - 1, block.height - 1);
    let point = |column: u32, row: u32| Point { column, row };
    let top = (0..right).map(|column| point(column, 0));
    let down = (0..lower).map(|row| point(right, row));
    let back = (1..=right).rev().map(|column| point(column, lower));
    let up = (1..=lower).rev().map(|row| point(0, row));
    top.chain(down).chain(back).chain(up).collect()
}

/// Whether two border points have no side in common.
fn is_line(block: Block, a: Point, b: Point) -> bool {
    let (right, lower) = (block.width - 1, block.height - 1);
    let column = a.column == b.column && (a.column == 0 || a.column == right);
    let row = a.row == b.row && (a.row == 0 || a.row == lower);
    !column && !row
}

/// Lines between the corners of a block and the middles of its sides. A block of one column or row has none.
fn lines(block: Block) -> Vec<(Point, Point)> {
    if block.width < 2 || block.height < 2 {
        return Vec::new();
    }
    let (right, lower) = (block.width - 1, block.height - 1);
    let points: Vec<Point> = border(block)
        .into_iter()
        .filter(|point| {
            let column = point.column == 0 || point.column == right;
            let row = point.row == 0 || point.row == lower;
            column && row || point.column == right / 2 || point.row == lower / 2
        })
        .collect();
    let two = points.iter().enumerate().flat_map(|(k, &a)| points[k + 1..].iter().map(move |&b| (a, b)));
    two.filter(|&(a, b)| is_line(block, a, b)).collect()
}
