//! How far one depth can move the total: the bound that `Session::get` names, from what the session holds, beside what GET answers.

use luphwezane::{Block, Candidate, Refusal, Session, View};

/// One depth, tried in one column.
#[derive(Clone, Copy)]
pub struct Trial {
    pub column: u32,
    pub depth: u8,
    /// L, in quarters.
    pub length: i64,
    pub bound: i64,
    pub change: i64,
}

impl Trial {
    fn new(session: &Session, view: View, row: u32, column: u32, depth: u8) -> Result<Trial, Refusal> {
        let length = length(session, view, row as usize, column as usize, depth);
        let bound = if length > 0 { 1_046_529 * ((length + 3) / 4) } else { 0 };
        let change = session.get(view, Block { column, row, width: 1, height: 1 }, Candidate::Flat(depth))?;
        Ok(Trial { column, depth, length, bound, change })
    }

    /// Whether its change is a greater part of its bound.
    fn is_nearer(&self, other: &Trial) -> bool {
        self.change.abs() * other.bound.max(1) > other.change.abs() * self.bound.max(1)
    }
}

/// L of a depth for column x of row y.
fn length(session: &Session, view: View, y: usize, x: usize, depth: u8) -> i64 {
    let (settings, planes, v) = (session.settings(), session.planes(), view as usize);
    let (w, table) = (settings.w as usize, [&settings.left, &settings.right][v]);
    let (depths, limits) = (&planes.depths[v][y * w..][..w], &planes.limits[v][y * w..][..w]);
    let place = |c: usize, depth: u8| 4 * c as i64 - i64::from(table[usize::from(depth)]);
    let (c, before, next) = match view {
        View::Left => (x, x.wrapping_sub(1), x + 1),
        View::Right => (w - 1 - x, x + 1, x.wrapping_sub(1)),
    };
    let mut least = place(c, depths[x]).min(place(c, depth));
    if c > 0 {
        least = least.min(place(c - 1, depths[before]));
    }
    let high = if c < w - 1 { i64::from(limits[next]) } else { 4 * w as i64 };
    high - (least - 1).max(0)
}

/// What became of a row in which every depth was tried in every column: how many trials that were, how many of them stayed within
/// their bound, and the one that came nearest to it.
pub struct Row {
    pub trials: u64,
    pub within: u64,
    pub nearest: Trial,
}

impl Row {
    pub fn tried(session: &Session, view: View, row: u32) -> Result<Row, Refusal> {
        let mut all = Row { trials: 0, within: 0, nearest: Trial::new(session, view, row, 0, 0)? };
        for (column, depth) in (0..session.settings().w).flat_map(|column| (0..=255).map(move |depth| (column, depth))) {
            let trial = Trial::new(session, view, row, column, depth)?;
            all.trials += 1;
            all.within += u64::from(trial.change.abs() <= trial.bound);
            if trial.is_nearer(&all.nearest) {
                all.nearest = trial;
            }
        }
        Ok(all)
    }
}
