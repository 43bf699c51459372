//! Two neighbouring units, set in both orders from one start: the answers, and whether both orders end alike.

use crate::encoder::{parts, SIDE};
use luphwezane::{Block, Candidate, Refusal, Session, View};

/// By how much a unit is set nearer than its nearest depth.
const NEARER: u8 = 16;

/// Two units of a view that were set in both orders.
pub struct Pair {
    pub units: [Block; 2],
    /// What the two SETs answer where the first unit is set first, and where it is set second.
    pub answers: [[i64; 2]; 2],
    /// Whether depths, held planes, settings and the sum of the answers are the same.
    pub alike: bool,
}

impl Pair {
    /// Of every two neighbours in the middle row of units, the two whose answers depend on the order the most, or that do not end
    /// alike. None where a row is one unit.
    pub fn found(session: &mut Session, view: View) -> Result<Option<Pair>, Refusal> {
        let (w, h) = (session.settings().w, session.settings().h);
        let row = h / 2 / SIDE * SIDE;
        let units = parts(Block { column: 0, row, width: w, height: SIDE.min(h - row) }, SIDE);
        let pairs = units.windows(2).map(|units| Pair::new(session, view, [units[0], units[1]]));
        Ok(pairs.collect::<Result<Vec<Pair>, Refusal>>()?.into_iter().max_by_key(|pair| (!pair.alike, pair.difference())))
    }

    /// Each unit is set to one value, nearer than what it has. In the end both are taken back.
    fn new(session: &mut Session, view: View, units: [Block; 2]) -> Result<Pair, Refusal> {
        let [one, other] = units.map(|unit| Candidate::Flat(nearest(session, view, unit).saturating_add(NEARER)));
        let forth: [i64; 2] = [session.set(view, units[0], one)?, session.set(view, units[1], other)?];
        let end = session.clone();
        session.take_back()?;
        session.take_back()?;
        let back: [i64; 2] = [session.set(view, units[1], other)?, session.set(view, units[0], one)?];
        let alike = are_alike(session, &end) && forth.iter().sum::<i64>() == back.iter().sum();
        session.take_back()?;
        session.take_back()?;
        Ok(Pair { units, answers: [forth, back], alike })
    }

    /// How far the first unit's answers are apart.
    fn difference(&self) -> u64 {
        self.answers[0][0].abs_diff(self.answers[1][1])
    }
}

fn nearest(session: &Session, view: View, unit: Block) -> u8 {
    let (w, plane) = (session.settings().w as usize, session.planes().depths[view as usize]);
    let rows = unit.row as usize..(unit.row + unit.height) as usize;
    rows.flat_map(|y| &plane[y * w + unit.column as usize..][..unit.width as usize]).copied().max().expect("a unit has depths")
}

fn are_alike(one: &Session, other: &Session) -> bool {
    let (a, b) = (one.planes(), other.planes());
    (a.depths, a.samples, a.fronts) == (b.depths, b.samples, b.fronts)
        && (a.limits, a.marks, a.combined) == (b.limits, b.marks, b.combined)
        && one.settings() == other.settings()
}
