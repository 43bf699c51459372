//! Near edges (card 7): RENDER against the independent renderer over every small row, GET and SET over every small edit, and
//! occluders right of the block, up to 256 columns away. Rows are written as the view reads them.

mod paper;

use luphwezane::{render, Candidate, Pictures, Report, Session, Settings, View};
use paper::{block_of, rows, stored, Drawing, Kind, LeftRow, Pixel};
use std::collections::BTreeSet;

const TEXTURE: [u16; 8] = [10, 20, 30, 40, 50, 60, 70, 80];

/// Entry d is d.
fn table() -> [u16; 256] {
    std::array::from_fn(|d| d as u16)
}

/// Settings of a row whose combined picture is what the view shows, but for its holes.
fn settings(view: View, w: usize, table: [u16; 256]) -> Settings {
    Settings { left: table, right: table, ..paper::row_settings(view, w) }
}

/// Samples, marks and front depths of a row, drawn by the library and by the independent renderer.
fn drawn(view: View, depths: &[u8]) -> [Vec<u16>; 3] {
    let (w, settings) = (depths.len(), settings(view, depths.len(), table()));
    let (texture, depths) = (stored(view, &TEXTURE[..w]), stored(view, depths));
    let row = render(&settings, view, &texture, &depths).expect("RENDER accepts it");
    let pixels = paper::drawn_row(&settings, view as usize, &texture, &depths).pixels;
    let of = |part: fn(&Pixel) -> u16| pixels.iter().map(part).collect::<Vec<u16>>();
    let (samples, marks, fronts) = (of(|x| x.sample), of(|x| x.mark.into()), of(|x| x.front.into()));
    assert_eq!(row.samples, samples, "{view:?}, {depths:?}");
    assert_eq!(row.marks, paper::packed(pixels.iter().map(|x| x.mark)), "{view:?}, {depths:?}");
    assert_eq!(row.fronts, pixels.iter().map(|x| x.front).collect::<Vec<_>>(), "{view:?}, {depths:?}");
    [samples, marks, fronts].map(|row| stored(view, &row))
}

/// What the rows of a test have had.
#[derive(Default)]
struct Reached {
    /// View, width, owner and column shown of near edges.
    edges: BTreeSet<(usize, usize, usize, usize)>,
    /// View, and whether the owner's pair is smooth and whether it would have shown a hole.
    pairs: BTreeSet<(usize, bool, bool)>,
    /// View, and how many columns are placed at m.
    columns: BTreeSet<(usize, usize)>,
    /// View, m − 4 × p, and whether the place of c + 1 is above m, where p is no near edge.
    others: BTreeSet<(usize, i32, bool)>,
}

impl Reached {
    fn note(&mut self, view: usize, row: &LeftRow) {
        let w = row.w();
        for p in 0..w {
            let (c, x) = (row.owner(p), 4 * p as i32);
            if c == w - 1 {
                continue;
            }
            let m = row.limit(c + 1);
            if let Some(near) = row.near_edge(p) {
                let smooth = row.kind(c) == Kind::Smooth;
                self.edges.insert((view, w, c, near));
                self.pairs.insert((view, smooth, !smooth && x - row.place(c) > 1));
                self.columns.insert((view, (0..w).filter(|&e| row.place(e) == m).count()));
            } else {
                self.others.insert((view, m - x, row.place(c + 1) > m));
            }
        }
    }

    /// Near edges of every owner and every column that can be shown there, over smooth and torn pairs and holes, of one
    /// column and of several; and rows where the place of c + 1 is m, or m is a quarter too far.
    fn assert_all(&self, widest: usize) {
        for view in 0..2 {
            for (w, c) in (1..=widest).flat_map(|w| (0..w).map(move |c| (w, c))) {
                assert!((c + 2..w).all(|near| self.edges.contains(&(view, w, c, near))), "view {view}, owner {c} of {w}");
            }
            for (smooth, hole) in [(true, false), (false, false), (false, true)] {
                assert!(self.pairs.contains(&(view, smooth, hole)), "view {view}, smooth {smooth}, hole {hole}");
            }
            assert!((1..=3).all(|count| self.columns.contains(&(view, count))), "view {view}");
            assert!(self.others.contains(&(view, 1, false)) && self.others.contains(&(view, 2, true)), "view {view}");
        }
    }
}

#[test]
fn every_small_row() {
    let mut reached = Reached::default();
    for (view, w) in View::BOTH.into_iter().flat_map(|view| (1..=6).map(move |w| (view, w))) {
        let settings = settings(view, w, table());
        for depths in rows(w, &[0, 5, 6, 7, 11, 15, 19]) {
            drawn(view, &depths);
            reached.note(view as usize, &LeftRow::new(&settings, view as usize, &TEXTURE[..w], &depths));
        }
    }
    reached.assert_all(6);
}

/// The card's own row, the same with a quarter more or less, and rows in which the place of c + 1 is m, two columns are placed
/// at m, and a hole was shown before.
#[test]
fn rows_by_hand() {
    for view in View::BOTH {
        assert_eq!(drawn(view, &[0, 0, 7, 0]), [[30, 40, 40, 40], [0, 1, 1, 0], [7, 0, 0, 0]], "{view:?}");
        assert_eq!(drawn(view, &[0, 0, 6, 0]), [[10, 40, 40, 40], [0, 1, 1, 0], [0, 0, 0, 0]], "{view:?}");
        assert_eq!(drawn(view, &[0, 0, 8, 0]), [[30, 40, 40, 40], [0, 1, 1, 0], [8, 0, 0, 0]], "{view:?}");
        assert_eq!(drawn(view, &[0, 3, 7, 0]), [[10, 40, 40, 40], [0, 1, 1, 0], [0, 0, 0, 0]], "{view:?}");
        assert_eq!(drawn(view, &[0, 0, 7, 11]), [[40, 40, 40, 40], [0, 1, 1, 1], [11, 11, 11, 11]], "{view:?}");
        assert_eq!(drawn(view, &[6, 0, 0, 11]), [[40, 40, 40, 40], [0, 1, 1, 1], [11, 11, 11, 11]], "{view:?}");
    }
}

/// A session of one row, its other view's depths 0 and all its pictures the texture.
struct Stage {
    view: View,
    settings: Settings,
    texture: Vec<u16>,
}

impl Stage {
    fn new(view: View, table: [u16; 256], texture: &[u16]) -> Stage {
        Stage { view, settings: settings(view, texture.len(), table), texture: stored(view, texture) }
    }

    /// Pictures and stored depths for a row of the view, as OPEN and the independent renderer take them.
    fn with<T>(&self, depths: &[u8], made: impl FnOnce(&Settings, &Pictures, [&[u8]; 2]) -> T) -> T {
        let (own, other) = (stored(self.view, depths), vec![0; depths.len()]);
        let pictures = Pictures { textures: [&self.texture, &self.texture], reference: &self.texture };
        made(&self.settings, &pictures, if self.view == View::Left { [&own, &other] } else { [&other, &own] })
    }

    fn open(&self, depths: &[u8]) -> Session {
        self.with(depths, Session::open).expect("OPEN accepts it")
    }

    fn drawing(&self, depths: &[u8]) -> Drawing {
        self.with(depths, paper::drawing)
    }
}

fn compare(session: &Session, view: View, fresh: &Drawing) {
    let (planes, v) = (session.planes(), view as usize);
    assert_eq!(planes.samples[v], fresh.samples[v]);
    assert_eq!(planes.fronts[v], fresh.fronts[v]);
    assert_eq!(planes.limits[v], fresh.limits[v]);
    assert_eq!(planes.marks[v], fresh.marks[v]);
    assert_eq!(planes.combined, fresh.combined);
    assert_eq!(session.total(), fresh.total);
}

/// Column 2 leaves m, and position 1 shows column 5, three columns right of the block; or column 6 where both are placed at m.
#[test]
fn edits_by_hand() {
    for view in View::BOTH {
        for (depths, sample) in [([0, 0, 3, 0, 0, 15, 0, 0], 60), ([0, 0, 3, 0, 0, 15, 19, 0], 70)] {
            let (stage, block) = (Stage::new(view, table(), &TEXTURE), block_of(view, 8, 2, 2));
            let mut session = stage.open(&depths);
            let shown = |session: &Session| stored(view, session.planes().combined)[1];
            let change = (sample - 20_i64).pow(2);
            assert_eq!(shown(&session), 20);
            assert_eq!(session.get(view, block, Candidate::Full(&[0])), Ok(change), "{view:?}, {depths:?}");
            assert_eq!(session.set(view, block, Candidate::Full(&[0])), Ok(change));
            assert_eq!(i64::from(shown(&session)), sample);
            assert_eq!(session.get(view, block, Candidate::Full(&[2])), Ok(0), "{view:?}, {depths:?}");
            assert_eq!(session.get(view, block, Candidate::Full(&[3])), Ok(-change));
            assert_eq!(session.set(view, block, Candidate::Full(&[3])), Ok(-change));
            assert_eq!(session.check(), Report::Sound);
        }
    }
}

/// How far right of its block the last position of an edit's span finds the column that it shows, where it is a near edge.
fn distance(old: &LeftRow, new: &LeftRow, a: usize, b: usize) -> Option<usize> {
    let high = if b + 1 < old.w() { old.limit(b + 1) } else { return None };
    let low = (a.saturating_sub(1)..=b).map(|c| old.place(c).min(new.place(c))).min().expect("the block has a column") - 1;
    let p = usize::try_from((high - 1).div_euclid(4)).ok().filter(|&p| 4 * p as i32 >= low)?;
    new.near_edge(p).filter(|&near| near > b).map(|near| near - b)
}

/// Every block up to a width in every row of these depths, with every candidate of these depths: GET, SET, and the SET back or
/// TAKE BACK.
#[test]
fn every_small_edit() {
    let (mut reached, table) = (BTreeSet::new(), table());
    for view in View::BOTH {
        for (w, widest, values) in [(5, 3, &[0, 3, 7, 15][..]), (6, 2, &[0, 7, 11, 19]), (7, 3, &[0, 7, 11])] {
            let stage = Stage::new(view, table, &TEXTURE[..w]);
            let rows: Vec<Vec<u8>> = rows(w, values).collect();
            let drawings: Vec<Drawing> = rows.iter().map(|depths| stage.drawing(depths)).collect();
            let row = |n: usize| LeftRow::new(&stage.settings, view as usize, &TEXTURE[..w], &rows[n]);
            for (n, depths) in rows.iter().enumerate() {
                let mut session = stage.open(depths);
                compare(&session, view, &drawings[n]);
                for (a, b) in (0..w).flat_map(|a| (a..w.min(a + widest)).map(move |b| (a, b))) {
                    let (block, part) = (block_of(view, w, a, b), values.len().pow(a as u32));
                    let own = stored(view, &depths[a..=b]);
                    for k in 0..values.len().pow((b - a + 1) as u32) {
                        // The row's number with the candidate's digits at a to b.
                        let whole = values.len().pow((b + 1) as u32);
                        let after = n / whole * whole + k * part + n % part;
                        let candidate = stored(view, &rows[after][a..=b]);
                        let change = drawings[after].total as i64 - drawings[n].total as i64;
                        assert_eq!(
                            session.get(view, block, Candidate::Full(&candidate)),
                            Ok(change),
                            "{view:?}, {depths:?}, {:?}",
                            rows[after]
                        );
                        assert_eq!(session.set(view, block, Candidate::Full(&candidate)), Ok(change));
                        compare(&session, view, &drawings[after]);
                        if k % 2 == 0 {
                            assert_eq!(session.set(view, block, Candidate::Full(&own)), Ok(-change));
                            session.keep();
                        } else {
                            assert_eq!(session.take_back(), Ok(-change));
                        }
                        reached.extend(distance(&row(n), &row(after), a, b).map(|far| (view as usize, far)));
                    }
                    compare(&session, view, &drawings[n]);
                }
            }
        }
    }
    assert!((0..2).all(|view| (1..=5).all(|far| reached.contains(&(view, far)))), "{reached:?}");
}

/// The largest disparity, 1,023, places a column a quarter behind the position 256 before it. The one left of it may share that
/// place, and the owner's right neighbour may be placed there until it is edited.
#[test]
fn farthest_columns() {
    let (w, table) = (530, std::array::from_fn(|d| [0, 3, 1019, 1023][d.min(3)]));
    let texture: Vec<u16> = (0..w).map(|c| (29 * c % 1021) as u16).collect();
    let mut reached = BTreeSet::new();
    for (view, near) in View::BOTH.into_iter().flat_map(|view| [256, 257, 300, 511, 528].map(|near| (view, near))) {
        let (stage, p) = (Stage::new(view, table, &texture), near - 256);
        for [next, left] in [[0, 0], [0, 2], [1, 0], [1, 2]] {
            let mut depths = vec![0; w];
            (depths[p + 1], depths[near - 1], depths[near]) = (next, left, 3);
            let (session, fresh) = (stage.open(&depths), stage.drawing(&depths));
            compare(&session, view, &fresh);
            for b in [p, p + 1, p + 2, p + 127, p + 128, p + 254] {
                for (a, depth) in [b, b.saturating_sub(1), p].into_iter().flat_map(|a| [(a, 0), (a, 1)]) {
                    let mut after = depths.clone();
                    after[a..=b].fill(depth);
                    let change = stage.drawing(&after).total as i64 - fresh.total as i64;
                    let answer = session.get(view, block_of(view, w, a, b), Candidate::Full(&after[a..=b]));
                    assert_eq!(answer, Ok(change), "{view:?}, {near}, {next}, {left}, {a} to {b}, {depth}");
                    let [old, new] = [&depths, &after].map(|depths| LeftRow::new(&stage.settings, view as usize, &texture, depths));
                    reached.extend(distance(&old, &new, a, b).map(|far| (view as usize, far)));
                }
            }
        }
    }
    assert!((0..2).all(|view| [2, 128, 129, 254, 255, 256].iter().all(|&far| reached.contains(&(view, far)))), "{reached:?}");
}
