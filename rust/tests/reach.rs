//! How far one depth sample reaches (card 4): every GET of one column and one row against the bound, which the independent renderer
//! works out from the depths and settings as they stand, and a caller from what it holds. Edits that reach the bound, every edit of
//! small rows with black and white pictures, and random sessions with SETs, TAKE BACKs and MOVEs. Columns count as the view reads
//! the row, and the rows of the examples are written so.
//!
//! A longer run of the random sessions:
//!
//!     LUPH_SEED=7 LUPH_SESSIONS=100000 cargo test --release --offline --test reach random_sessions

mod paper;
mod random;

use luphwezane::{Block, Candidate, Pictures, Session, Settings, View};
use paper::{block_of, left_first, row_settings, rows, stored, LeftRow, Reach, WHITE as W};
use random::{Random, Scene};
use std::cell::RefCell;
use std::collections::{BTreeMap, BTreeSet};

/// L from what a caller holds: the view's table, the depth that stands there and the candidate's, the depth of the column before
/// and the limit of the next one. In the right view the column before is the one at the right.
fn held_length(session: &Session, view: View, block: Block, depth: u8) -> i32 {
    let (settings, planes, v) = (session.settings(), session.planes(), view as usize);
    let (w, x) = (settings.w as usize, block.column as usize);
    let at = block.row as usize * w + x;
    let (c, before, next) = match view {
        View::Left => (x, at.wrapping_sub(1), at + 1),
        View::Right => (w - 1 - x, at + 1, at.wrapping_sub(1)),
    };
    let table = [&settings.left, &settings.right][v];
    let place = |c: usize, depth: u8| 4 * c as i32 - i32::from(table[usize::from(depth)]);
    let mut low = place(c, planes.depths[v][at]).min(place(c, depth));
    if c > 0 {
        low = low.min(place(c - 1, planes.depths[v][before]));
    }
    let high = if c < w - 1 { i32::from(planes.limits[v][next]) } else { 4 * w as i32 };
    high - (low - 1).max(0)
}

/// What is known of the GETs of a test.
#[derive(Default)]
struct Known {
    gets: u64,
    at_bound: u64,
    /// By view, of how many GETs each of these is true.
    had: [[(&'static str, u64); 12]; 2],
    /// The same for what only random sessions note.
    had_besides: BTreeMap<(usize, &'static str), u64>,
    /// View, whether the total would rise, and L, where the bound was reached.
    reached: BTreeSet<(usize, bool, i32)>,
    /// The nearest approach to a bound: the change, the bound and L.
    nearest: Option<(i64, u64, i32)>,
}

impl Known {
    /// A GET of one column and one row: the answer is within the bound, and the caller has the same L.
    fn get(&mut self, session: &Session, view: View, block: Block, candidate: Candidate, reach: Reach) {
        let (length, most) = (reach.length(), reach.most_change());
        let change = session.get(view, block, candidate).expect("GET accepts it");
        let what = || format!("{view:?}, {block:?}, {candidate:?}, {reach:?}");
        assert!(change.unsigned_abs() <= most, "{change} is beyond {most}: {}", what());
        assert!(length > 0 || change == 0, "{}", what());
        let depth = paper::filled(block, candidate)[0];
        assert_eq!(held_length(session, view, block, depth), length, "{}", what());
        self.note(view as usize, session.settings().w, block.column, reach, change);
    }

    fn note(&mut self, view: usize, w: u32, column: u32, reach: Reach, change: i64) {
        let (length, most) = (reach.length(), reach.most_change());
        let c = if view == 0 { column } else { w - 1 - column };
        let is_reached = length > 0 && change.unsigned_abs() == most;
        let had = [
            ("the first column", c == 0),
            ("the last column", c == w - 1),
            ("low below 0", reach.low < 0),
            ("low of 0 or more", reach.low >= 0),
            ("high below 0", reach.high < 0),
            ("L of 0", length == 0),
            ("L below 0", length < 0),
            ("L above 0, L mod 4 of 0", length > 0 && length % 4 == 0),
            ("L above 0, L mod 4 of 1", length > 0 && length % 4 == 1),
            ("L above 0, L mod 4 of 2", length > 0 && length % 4 == 2),
            ("L above 0, L mod 4 of 3", length > 0 && length % 4 == 3),
            ("the bound reached", is_reached),
        ];
        self.gets += 1;
        self.at_bound += u64::from(is_reached);
        for (count, (what, is)) in self.had[view].iter_mut().zip(had) {
            *count = (what, count.1 + u64::from(is));
        }
        if is_reached {
            self.reached.insert((view, change > 0, length));
        }
        let is_nearer = |(other, bound, far): (i64, u64, i32)| {
            let (own, its) = (change.unsigned_abs() * bound, other.unsigned_abs() * most);
            own > its || own == its && length > far
        };
        if length > 0 && self.nearest.map_or(true, is_nearer) {
            self.nearest = Some((change, most, length));
        }
    }

    fn note_besides(&mut self, view: usize, what: &'static str, is: bool) {
        *self.had_besides.entry((view, what)).or_default() += u64::from(is);
    }

    /// Everything was had in both views, and the bound was reached up and down.
    fn assert_all(&self) {
        assert!(self.had.as_flattened().iter().all(|&(_, times)| times > 0), "{:?}", self.had);
        assert!(self.had_besides.values().all(|&times| times > 0), "{:?}", self.had_besides);
        for (view, up) in [(0, true), (0, false), (1, true), (1, false)] {
            assert!(!self.reached_lengths(view, up).is_empty(), "view {view}, up {up}");
        }
    }

    /// The lengths with which the bound was reached in a view, up or down.
    fn reached_lengths(&self, view: usize, up: bool) -> BTreeSet<i32> {
        self.reached.iter().filter(|reached| (reached.0, reached.1) == (view, up)).map(|reached| reached.2).collect()
    }

    /// A line of the log.
    fn say(&self, name: &str) {
        if let Some((change, bound, length)) = self.nearest {
            let nearest = format!("nearest approach {change} / {bound} with L = {length}");
            random::say(name, &format!("{} GETs, {} reach the bound; {nearest}", self.gets, self.at_bound));
        }
    }
}

/// A row of one view in which the depth of a column is replaced. The other view has depths of 0: it shows its texture, and the
/// combined picture has it where this view has a hole.
#[derive(Clone, Copy)]
struct Example<'a> {
    depths: &'a [u8],
    texture: &'a [u16],
    other: &'a [u16],
    column: usize,
    depth: u8,
    reach: Reach,
    /// The combined picture before and after.
    shown: [&'a [u16]; 2],
}

impl Example<'_> {
    fn open(&self, settings: &Settings, view: View, reference: &[u16]) -> Session {
        let (own, other) = (stored(view, self.texture), stored(view, self.other));
        let (depths, none, reference) = (stored(view, self.depths), vec![0; self.depths.len()], stored(view, reference));
        let pictures = Pictures { textures: left_first(view, &own, &other), reference: &reference };
        Session::open(settings, &pictures, left_first(view, &depths, &none)).expect("OPEN accepts it")
    }

    /// The bound is reached in both views, up where the reference is what was shown before and down where it is what is shown
    /// after; and once the depth is set, the old one reaches as far.
    fn assert_reached(&self, with_table: impl Fn(View) -> Settings) {
        let (most, old) = (self.reach.most_change() as i64, self.depths[self.column]);
        assert!(most > 0);
        for (view, up) in View::BOTH.into_iter().flat_map(|view| [(view, true), (view, false)]) {
            let (settings, block) = (with_table(view), block_of(view, self.depths.len(), self.column, self.column));
            let [before, after] = self.shown.map(|row| stored(view, row));
            let mut session = self.open(&settings, view, self.shown[usize::from(!up)]);
            let own = |session: &Session| session.planes().depths[view as usize].to_vec();
            let reach = |session: &Session, depth: u8| Reach::in_plane(&settings, view as usize, &own(session), block, depth);
            let change = if up { most } else { -most };
            assert_eq!(session.planes().combined, before);
            assert_eq!(reach(&session, self.depth), self.reach);
            assert_eq!(held_length(&session, view, block, self.depth), self.reach.length());
            assert_eq!(session.get(view, block, Candidate::Flat(self.depth)), Ok(change), "{view:?}");
            assert_eq!(session.set(view, block, Candidate::Flat(self.depth)), Ok(change));
            assert_eq!(session.planes().combined, after);
            assert_eq!(reach(&session, old), self.reach);
            assert_eq!(held_length(&session, view, block, old), self.reach.length());
            assert_eq!(session.get(view, block, Candidate::Flat(old)), Ok(-change), "{view:?}");
        }
    }

    /// The old and the new place of the column, and the place of the column before.
    fn places(&self) -> [i32; 3] {
        let place = |c: usize, depth: u8| 4 * c as i32 - i32::from(depth);
        let before = self.column - 1;
        [place(self.column, self.depths[self.column]), place(self.column, self.depth), place(before, self.depths[before])]
    }
}

/// Column 2 goes from place 5 to place 1. Then position 0 shows it as a near edge, a quarter before its place, and position 1 lies
/// between columns 2 and 3: both turn black, with L of 5.
const QUARTER: Example = Example {
    depths: &[0, 0, 3, 7],
    texture: &[W, W, 0, 0],
    other: &[0, 0, 0, 0],
    column: 2,
    depth: 7,
    reach: Reach { low: 0, high: 5 },
    shown: [&[W, W, 0, 0], &[0, 0, 0, 0]],
};

/// The same a column further right: low is above 0.
const LATER: Example = Example {
    depths: &[0, 0, 0, 3, 7],
    texture: &[0, W, W, 0, 0],
    other: &[0, 0, 0, 0, 0],
    column: 3,
    depth: 7,
    reach: Reach { low: 4, high: 9 },
    shown: [&[0, W, W, 0, 0], &[0, 0, 0, 0, 0]],
};

/// Three positions, with L of 9.
const THREE: Example = Example {
    depths: &[0, 0, 0, 3, 7],
    texture: &[0, 0, 0, W, W],
    other: &[0, 0, 0, 0, 0],
    column: 3,
    depth: 11,
    reach: Reach { low: 0, high: 9 },
    shown: [&[0, 0, 0, 0, 0], &[W, W, W, 0, 0]],
};

/// As QUARTER, but column 3, with place 12, is hidden by column 4: its limit is 5, and high is that limit and not the place.
const LIMIT: Example = Example {
    depths: &[0, 0, 3, 0, 11],
    texture: &[W, W, 0, 0, 0],
    other: &[0, 0, 0, 0, 0],
    column: 2,
    depth: 7,
    reach: Reach { low: 0, high: 5 },
    shown: [&[W, W, 0, 0, 0], &[0, 0, 0, 0, 0]],
};

/// Column 1 has the least place, −3. It is torn from column 2, with a hole at position 0 and the near edge of column 4 at position
/// 1; then the two are one surface, which both positions show.
const BEFORE: Example = Example {
    depths: &[0, 7, 0, 0, 11],
    texture: &[0, W, W, 0, 0],
    other: &[0, 0, 0, 0, 0],
    column: 2,
    depth: 3,
    reach: Reach { low: -4, high: 5 },
    shown: [&[0, 0, 0, 0, 0], &[W, W, 0, 0, 0]],
};

/// The last column: what is right of its new place is a hole up to the row's end, and there the other view is shown.
const LAST: Example = Example {
    depths: &[0, 0, 0, 0],
    texture: &[0, W, 0, 0],
    other: &[0, 0, W, W],
    column: 3,
    depth: 7,
    reach: Reach { low: 4, high: 16 },
    shown: [&[0, W, 0, 0], &[0, 0, W, W]],
};

/// The last column, with low below 0.
const WHOLE: Example = Example {
    depths: &[0, 0],
    texture: &[W, 0],
    other: &[0, W],
    column: 1,
    depth: 4,
    reach: Reach { low: -1, high: 8 },
    shown: [&[W, 0], &[0, W]],
};

/// One column.
const ONE: Example =
    Example { depths: &[0], texture: &[0], other: &[W], column: 0, depth: 2, reach: Reach { low: -3, high: 4 }, shown: [&[0], &[W]] };

/// Low below 0, with L of 5, of 6 and of 7, and of 3 in the first column.
const BELOW: [Example; 4] = [
    Example {
        depths: &[0, 0, 3],
        texture: &[0, 0, 0],
        other: &[W, W, 0],
        column: 1,
        depth: 8,
        reach: Reach { low: -5, high: 5 },
        shown: [&[0, 0, 0], &[W, W, 0]],
    },
    Example {
        depths: &[0, 0, 2],
        texture: &[0, 0, 0],
        other: &[W, W, 0],
        column: 1,
        depth: 7,
        reach: Reach { low: -4, high: 6 },
        shown: [&[0, 0, 0], &[W, W, 0]],
    },
    Example {
        depths: &[0, 0, 0, 5],
        texture: &[0, 0, 0, 0],
        other: &[W, W, 0, 0],
        column: 1,
        depth: 6,
        reach: Reach { low: -3, high: 7 },
        shown: [&[0, 0, 0, 0], &[W, W, 0, 0]],
    },
    Example {
        depths: &[0, 0, 5],
        texture: &[0, 0, 0],
        other: &[W, 0, 0],
        column: 0,
        depth: 5,
        reach: Reach { low: -6, high: 3 },
        shown: [&[0, 0, 0], &[W, 0, 0]],
    },
];

#[test]
fn edits_that_reach_the_bound() {
    for example in [QUARTER, LATER, THREE, LIMIT, BEFORE, LAST, WHOLE, ONE].iter().chain(&BELOW) {
        example.assert_reached(|view| row_settings(view, example.depths.len()));
    }
}

/// Nothing can be left out of low: without the quarter, or one of the places, the bound would be below a change that there is. With
/// the place of the next column instead of its limit the bound would not be reached.
#[test]
fn spans_of_another_length() {
    for example in [QUARTER, LATER, THREE, LIMIT] {
        let Reach { low, high } = example.reach;
        assert_eq!(Reach { low: low + 1, high }.most_change() + paper::WORST, example.reach.most_change());
    }
    let back = Example { depths: &[0, 0, 0, 7, 7], depth: 3, ..LATER };
    for (left_out, example) in [back, LATER, BEFORE].iter().enumerate() {
        let (places, reach) = (example.places(), example.reach);
        let least = |from: &dyn Fn(usize) -> bool| (0..3).filter(|&k| from(k)).map(|k| places[k]).min().expect("there are places");
        assert_eq!(least(&|_| true) - 1, reach.low);
        let without = Reach { low: least(&|k| k != left_out) - 1, ..reach };
        assert!(without.most_change() < reach.most_change(), "{places:?} without {}", places[left_out]);
    }
    let place_of_column_3 = 12;
    assert!(Reach { high: place_of_column_3, ..LIMIT.reach }.most_change() > LIMIT.reach.most_change());
}

/// L of 0 or less: the column is hidden before and after, and nothing shows.
#[test]
fn edits_that_show_nothing() {
    let zero = |depths: &[u8], column: usize, depth: u8, low: i32, high: i32| {
        let (w, texture, reach) = (depths.len(), &[W, 0, W, 0][..], Reach { low, high });
        assert!(reach.length() <= 0 && reach.most_change() == 0);
        let example = Example { depths, texture, other: &[0, W, 0, W], column, depth, reach, shown: [&[], &[]] };
        for view in View::BOTH {
            let (settings, block) = (row_settings(view, w), block_of(view, w, column, column));
            for reference in [[0; 4], [W; 4], [0, W, 0, W], [W, 0, W, 0]] {
                let session = example.open(&settings, view, &reference);
                let planes = session.planes();
                assert_eq!(Reach::in_plane(&settings, view as usize, planes.depths[view as usize], block, depth), reach);
                assert_eq!(held_length(&session, view, block, depth), reach.length());
                assert_eq!(session.get(view, block, Candidate::Flat(depth)), Ok(0), "{view:?}, {depths:?}");
            }
        }
    };
    zero(&[0, 0, 0, 9], 2, 3, 3, 3);
    zero(&[0, 0, 0, 12], 2, 5, 2, 0);
    zero(&[0, 0, 0, 15], 1, 200, -197, -3);
}

/// The largest disparity, 1,023, takes the last column over the 256 columns before it: 257 positions change.
#[test]
fn the_farthest_reach() {
    const N: usize = 300;
    let texture: Vec<u16> = (0..N).map(|c| if (N - 257..N - 1).contains(&c) { W } else { 0 }).collect();
    let other: Vec<u16> = (0..N).map(|c| if c == N - 1 { W } else { 0 }).collect();
    let example = Example {
        depths: &[0; N],
        texture: &texture,
        other: &other,
        column: N - 1,
        depth: 255,
        reach: Reach { low: 4 * (N as i32 - 257), high: 4 * N as i32 },
        shown: [&texture, &other],
    };
    let table = std::array::from_fn(|d| if d == 255 { 1023 } else { 0 });
    example.assert_reached(|view| Settings { left: table, right: table, ..row_settings(view, N) });
    assert_eq!(example.reach.most_change(), 257 * paper::WORST);
}

/// Every edit of one column in every small row, with every picture of black and white; of the widest rows the other view is all
/// black or all white. The other view's depths are 0; in rows of up to 3 columns also 4, with tolerance 0, so that the nearer view is
/// shown.
#[test]
fn every_small_row() {
    let mut known = Known::default();
    let sizes: [(usize, &[u8]); 4] = [(1, &[0, 1, 2, 3, 4, 9]), (2, &[0, 2, 3, 4, 5, 9]), (3, &[0, 3, 5, 7, 11]), (4, &[0, 3, 8, 11])];
    for (view, (w, values)) in View::BOTH.into_iter().flat_map(|view| sizes.map(|size| (view, size))) {
        let pictures: Vec<Vec<u16>> = rows(w, &[0, W]).collect();
        let others = if w < 4 { &pictures[..] } else { &[vec![0; w], vec![W; w]] };
        for (depth, tolerance) in [(0, 255), (4, 0)].into_iter().take(if w < 4 { 2 } else { 1 }) {
            let (settings, around) = (Settings { tolerance, ..row_settings(view, w) }, vec![depth; w]);
            for depths in rows(w, values) {
                let row = LeftRow::new(&settings, view as usize, &[], &depths);
                let edits: Vec<(usize, u8, Reach)> =
                    (0..w).flat_map(|c| values.iter().map(move |&depth| (c, depth))).map(|(c, d)| (c, d, Reach::of(&row, c, d))).collect();
                let depths = stored(view, &depths);
                for (own, other) in pictures.iter().flat_map(|own| others.iter().map(move |other| (own, other))) {
                    for reference in &pictures {
                        let pictures = Pictures { textures: left_first(view, own, other), reference };
                        let session = Session::open(&settings, &pictures, left_first(view, &depths, &around)).expect("OPEN accepts it");
                        for &(c, depth, reach) in &edits {
                            known.get(&session, view, block_of(view, w, c, c), Candidate::Flat(depth), reach);
                        }
                    }
                }
            }
        }
    }
    known.say("every small row");
    known.assert_all();
    for (view, up) in [(0, true), (0, false), (1, true), (1, false)] {
        let lengths = known.reached_lengths(view, up);
        assert!([1, 4, 5, 8, 12, 16].iter().all(|length| lengths.contains(length)), "view {view}, up {up}: {lengths:?}");
    }
}

/// A session under test, with the depths and settings as they stand.
struct Run {
    session: Session,
    settings: Settings,
    depths: [Vec<u8>; 2],
    /// The depths before each SET that stands.
    before: Vec<[Vec<u8>; 2]>,
    /// The last call that was not a GET.
    last: &'static str,
}

impl Run {
    fn open(scene: &Scene) -> Run {
        let session = Session::open(&scene.settings, &scene.pictures(), scene.depths()).expect("OPEN accepts it");
        Run { session, settings: scene.settings, depths: scene.depths.clone(), before: Vec::new(), last: "after OPEN" }
    }

    /// GETs of one column and one row in both views: the first column, the last one and some others.
    fn gets(&self, random: &mut Random, known: &mut Known) {
        let (w, h) = (self.settings.w as usize, self.settings.h as usize);
        for view in View::BOTH {
            let plane = &self.depths[view as usize];
            for k in 0..(w + 2).min(10) {
                let c = if k < 2 { k * (w - 1) } else { random.between(0, w - 1) };
                let block = Block { row: random.between(0, h - 1) as u32, ..block_of(view, w, c, c) };
                let row = stored(view, &plane[block.row as usize * w..][..w]);
                let row = LeftRow::new(&self.settings, view as usize, &[], &row);
                let tried = random::candidate(random, w, plane, block);
                let new = paper::filled(block, tried.candidate())[0];
                let reach = Reach::of(&row, c, new);
                known.get(&self.session, view, block, tried.candidate(), reach);
                let mut had = |what: &'static str, is: bool| known.note_besides(view as usize, what, is);
                had(["a full block", "one value", "a line", "a mask"][tried.kind as usize], true);
                had(self.last, true);
                had("a limit below the next column's place", c < w - 1 && row.limit(c + 1) < row.place(c + 1));
                let own = row.place(c).min(4 * c as i32 - i32::from(row.table[usize::from(new)]));
                had("low from the column before", reach.low < own - 1);
            }
        }
    }

    fn set(&mut self, random: &mut Random) {
        let depths = [&self.depths[0][..], &self.depths[1][..]];
        let (view, block, tried) = random::edit(random, &self.settings, depths);
        self.session.set(view, block, tried.candidate()).expect("SET accepts it");
        let depths = paper::written(&self.settings, depths, view as usize, block, tried.candidate());
        self.before.push(std::mem::replace(&mut self.depths, depths));
        self.last = "after SET";
    }

    fn take_back(&mut self) {
        if let Some(depths) = self.before.pop() {
            self.session.take_back().expect("a SET stands");
            self.depths = depths;
            self.last = "after TAKE BACK";
        }
    }

    fn move_seat(&mut self, random: &mut Random, scene: &Scene) {
        let (to, reference) = (random::seat(random, &self.settings), scene.any_reference(random));
        self.session.move_seat(&to, &reference).expect("MOVE accepts it");
        self.settings = paper::moved(&self.settings, &to);
        self.before.clear();
        self.last = "after MOVE";
    }
}

const SESSIONS: u64 = 6000;

#[test]
fn random_sessions() {
    let known = RefCell::new(Known::default());
    random::sessions("reach", SESSIONS, |random, number| {
        let (scene, known) = (Scene::stark(random, number), &mut *known.borrow_mut());
        let mut run = Run::open(&scene);
        run.gets(random, known);
        for _ in 0..random.between(2, 8) {
            match random.between(0, 5) {
                0..=2 => run.set(random),
                3 | 4 => run.take_back(),
                _ => run.move_seat(random, &scene),
            }
            run.gets(random, known);
        }
    });
    let known = known.into_inner();
    known.say("reach");
    if random::from_environment("LUPH_SESSIONS", SESSIONS) < SESSIONS {
        return;
    }
    known.assert_all();
    let seen = ["a full block", "one value", "a mask", "after OPEN", "after SET", "after TAKE BACK", "after MOVE"];
    for what in seen.into_iter().chain(["a limit below the next column's place", "low from the column before"]) {
        assert!((0..2).all(|view| known.had_besides.contains_key(&(view, what))), "{what}");
    }
}
