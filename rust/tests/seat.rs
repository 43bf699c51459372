//! The seat (card 11): the widest smooth gap and the nearest torn distance, all 61 × 4 of them, over rows with every gap and every
//! distance; their bounds, and 20's place in every call; and MOVE by hand, with what it looks at and what it does not. What MOVE
//! does among other calls, the random sessions compare. Rows are written as the view reads them.

mod boundary;
mod paper;
mod random;

use luphwezane::{lent, render, Block, Candidate, Pictures, Refusal, Report, Session, Settings, View};
use paper::{left_first, rows, stored, Drawing, Kind, LeftRow};
use random::{GuardedPlanes, Random, Scene, Tried};
use std::collections::BTreeSet;

/// Entry d is d.
fn table() -> [u16; 256] {
    std::array::from_fn(|d| d as u16)
}

fn settings(w: usize, widest_gap: u8, torn_distance: u8) -> Settings {
    Settings { w: w as u32, h: 1, left: table(), right: table(), share: 0, tolerance: 255, widest_gap, torn_distance, total: 0 }
}

/// Every widest gap with every torn distance.
fn numbers() -> impl Iterator<Item = (u8, u8)> {
    (4..=64).flat_map(|widest_gap| (0..=3).map(move |torn_distance| (widest_gap, torn_distance)))
}

/// Samples, marks and front depths of a row, drawn by the library and by the independent renderer.
fn drawn(settings: &Settings, view: View, texture: &[u16], depths: &[u8]) -> [Vec<u16>; 3] {
    let (texture, depths) = (stored(view, texture), stored(view, depths));
    let row = render(settings, view, &texture, &depths).expect("RENDER accepts it");
    let pixels = paper::drawn_row(settings, view as usize, &texture, &depths).pixels;
    let what = || format!("{view:?}, gap {}, distance {}, {depths:?}", settings.widest_gap, settings.torn_distance);
    assert_eq!(row.samples, pixels.iter().map(|x| x.sample).collect::<Vec<_>>(), "{}", what());
    assert_eq!(row.marks, paper::packed(pixels.iter().map(|x| x.mark)), "{}", what());
    assert_eq!(row.fronts, pixels.iter().map(|x| x.front).collect::<Vec<_>>(), "{}", what());
    let marks: Vec<u16> = pixels.iter().map(|x| x.mark.into()).collect();
    [row.samples, marks, row.fronts.into_iter().map(u16::from).collect()].map(|row| stored(view, &row))
}

/// Cases d, f and g, and the row of card 7, with other numbers.
#[test]
fn rows_by_hand() {
    let row = |view, numbers: (u8, u8), depths: [u8; 4]| drawn(&settings(4, numbers.0, numbers.1), view, &[10, 20, 30, 40], &depths);
    for view in View::BOTH {
        // Gaps of 8 and of 9: smooth up to the widest gap, else torn.
        assert_eq!(row(view, (8, 1), [0, 0, 4, 0]), [[10, 30, 36, 40], [0, 0, 0, 0], [0, 4, 4, 0]], "{view:?}");
        assert_eq!(row(view, (7, 1), [0, 0, 4, 0]), [[10, 30, 40, 40], [0, 0, 1, 0], [0, 4, 0, 0]], "{view:?}");
        assert_eq!(row(view, (4, 3), [0, 0, 4, 0]), [[10, 30, 40, 40], [0, 0, 1, 0], [0, 4, 0, 0]], "{view:?}");
        assert_eq!(row(view, (8, 1), [0, 0, 5, 0]), [[10, 30, 40, 40], [0, 0, 1, 0], [0, 5, 0, 0]], "{view:?}");
        assert_eq!(row(view, (9, 1), [0, 0, 5, 0]), [[10, 30, 36, 40], [0, 0, 0, 0], [0, 5, 5, 0]], "{view:?}");
        // A gap of 64, of which 15 positions are smooth, and one of 65. The place of the near column is 0, and −1.
        for (near, widest_gap, smooth) in [(60, 64, true), (60, 63, false), (61, 64, false)] {
            let depths: Vec<u8> = (0..18).map(|c| if c == 15 { near } else { 0 }).collect();
            let texture: Vec<u16> = (0..18).map(|c| if c == 15 { 900 } else { 100 }).collect();
            let [_, marks, fronts] = drawn(&settings(18, widest_gap, 3), view, &texture, &depths);
            let hole = u16::from(!smooth);
            assert_eq!(marks, [[0].as_slice(), &[hole; 15], &[0, 0]].concat(), "{view:?}, {near}, {widest_gap}");
            assert_eq!(fronts[1..16], [if smooth { u16::from(near) } else { 0 }; 15], "{view:?}, {near}, {widest_gap}");
        }
        // t of 1, 2 and 3 at a tear and at the last column.
        for (t, torn_distance) in (1..=3).flat_map(|t| (0..=3).map(move |distance| (t, distance))) {
            let (shown, hole) = (t <= torn_distance, u16::from(t > torn_distance));
            let [samples, marks, fronts] = row(view, (4, torn_distance), [t, t, 0, 0]);
            let (sample, front) = if shown { (20, t) } else { (30, 0) };
            assert_eq!((samples[1], marks[1], fronts[1]), (sample, hole, u16::from(front)), "{view:?}, {t}, {torn_distance}");
            let [samples, marks, fronts] = row(view, (8, torn_distance), [t, t, t, t]);
            assert_eq!((samples[3], marks[3], fronts[3]), (40, hole, u16::from(t)), "{view:?}, {t}, {torn_distance}");
        }
        // A near edge begins one quarter before its place whatever the distance is.
        for (widest_gap, torn_distance) in numbers() {
            assert_eq!(row(view, (widest_gap, torn_distance), [0, 0, 7, 0])[0][0], 30, "{view:?}");
            assert_eq!(row(view, (widest_gap, torn_distance), [0, 0, 6, 0])[0][0], 10, "{view:?}");
        }
    }
}

/// What the rows of a test have had.
#[derive(Default)]
struct Reached {
    /// View and gap.
    gaps: BTreeSet<(usize, i32)>,
    /// View, and t at a tear and at the last column, up to 5, with the mark.
    torn: BTreeSet<(usize, i32, bool)>,
    last: BTreeSet<(usize, i32, bool)>,
}

impl Reached {
    fn note(&mut self, view: usize, row: &LeftRow) {
        let w = row.w();
        self.gaps.extend((0..w - 1).map(|c| (view, row.gap(c))));
        for p in 0..w {
            let (c, mark) = (row.owner(p), row.pixel(p).mark == 1);
            let t = (4 * p as i32 - row.place(c)).min(5);
            if c == w - 1 {
                self.last.insert((view, t, mark));
            } else if row.kind(c) == Kind::Torn && row.near_edge(p).is_none() {
                self.torn.insert((view, t, mark));
            }
        }
    }

    /// Every gap from below 0 to beyond 64, and every t up to beyond 4, marked exactly beyond the distance.
    fn assert_all(&self, torn_distance: u8) {
        let marked: BTreeSet<(usize, i32, bool)> =
            (0..2).flat_map(|view| (0..=5).map(move |t| (view, t, t > i32::from(torn_distance)))).collect();
        assert!((0..2).all(|view| (-1..=70).all(|gap| self.gaps.contains(&(view, gap)))), "{:?}", self.gaps);
        assert_eq!(self.torn, marked);
        assert_eq!(self.last, marked);
    }
}

/// All numbers over rows of two depths, as near as to give every gap from −1 to 70, each in four places.
#[test]
fn every_gap_and_distance() {
    const W: usize = 40;
    let texture: Vec<u16> = (0..W).map(|c| (c * c * 29 % 1021) as u16).collect();
    for (widest_gap, torn_distance) in numbers() {
        let (settings, mut reached) = (settings(W, widest_gap, torn_distance), Reached::default());
        for (view, gap) in View::BOTH.into_iter().flat_map(|view| (-1..=70).map(move |gap| (view, gap))) {
            for quarters in 0..4 {
                let [near, far] = [(gap - 4).max(0) + quarters, (4 - gap).max(0) + quarters].map(|depth| depth as u8);
                let depths: Vec<u8> = (0..W).map(|c| if c < 20 { near } else { far }).collect();
                drawn(&settings, view, &texture, &depths);
                reached.note(view as usize, &LeftRow::new(&settings, view as usize, &texture, &depths));
            }
        }
        reached.assert_all(torn_distance);
    }
}

/// All numbers over random rows: many tears, columns that are hidden, and near edges.
#[test]
fn random_rows() {
    let random = &mut Random::new(1, 0);
    for (turn, (widest_gap, torn_distance)) in (0..10).flat_map(|_| numbers()).enumerate() {
        let w = random.between(1, 60);
        let scene = Scene::sized(random, w, 1, turn as u64);
        let settings = Settings { widest_gap, torn_distance, ..scene.settings };
        for view in View::BOTH {
            drawn(&settings, view, &scene.textures[view as usize], &scene.depths[view as usize]);
        }
    }
}

/// Numbers about the gaps of small rows, with the least and the greatest.
const SOME: [(u8, u8); 8] = [(4, 0), (4, 2), (5, 3), (7, 1), (10, 2), (15, 0), (16, 3), (64, 0)];

const TEXTURE: [u16; 5] = [10, 200, 30, 400, 50];

/// Every small row: its last column, tears, hidden columns and near edges together.
#[test]
fn every_small_row() {
    for (view, w) in View::BOTH.into_iter().flat_map(|view| (1..=5).map(move |w| (view, w))) {
        for depths in rows(w, &[0, 1, 3, 6, 7, 11]) {
            for (widest_gap, torn_distance) in SOME {
                drawn(&settings(w, widest_gap, torn_distance), view, &TEXTURE[..w], &depths);
            }
        }
    }
}

/// Every block of every small row, with every candidate: a span holds all that an edit changes, whatever the numbers are.
#[test]
fn every_small_edit() {
    const VALUES: [u8; 4] = [0, 3, 7, 12];
    const W: usize = 4;
    let all: Vec<Vec<u8>> = rows(W, &VALUES).collect();
    for (view, (widest_gap, torn_distance)) in View::BOTH.into_iter().flat_map(|view| SOME.map(|numbers| (view, numbers))) {
        let share = if view == View::Left { 0 } else { 64 };
        let settings = Settings { share, ..settings(W, widest_gap, torn_distance) };
        let texture = stored(view, &TEXTURE[..W]);
        let pictures = Pictures { textures: [&texture, &texture], reference: &TEXTURE[..W] };
        let planes = |own: &[u8]| left_first(view, stored(view, own), vec![0; W]);
        let drawing = |own: &Vec<u8>| paper::drawing(&settings, &pictures, [&planes(own)[0], &planes(own)[1]]);
        let drawings: Vec<Drawing> = all.iter().map(drawing).collect();
        for (n, depths) in all.iter().enumerate() {
            let [left, right] = planes(depths);
            let mut session = Session::open(&settings, &pictures, [&left, &right]).expect("OPEN accepts it");
            for (a, b) in (0..W).flat_map(|a| (a..W).map(move |b| (a, b))) {
                let column = if view == View::Left { a } else { W - 1 - b } as u32;
                let block = Block { column, row: 0, width: (b - a + 1) as u32, height: 1 };
                let (part, whole) = (VALUES.len().pow(a as u32), VALUES.len().pow(b as u32 + 1));
                for k in 0..whole / part {
                    // The row's number with the candidate's digits at a to b.
                    let after = n / whole * whole + k * part + n % part;
                    let (candidate, change) = (stored(view, &all[after][a..=b]), drawings[after].total as i64 - drawings[n].total as i64);
                    let what = || format!("{view:?}, gap {widest_gap}, distance {torn_distance}, {depths:?}, {:?}", all[after]);
                    assert_eq!(session.get(view, block, Candidate::Full(&candidate)), Ok(change), "{}", what());
                    assert_eq!(session.set(view, block, Candidate::Full(&candidate)), Ok(change), "{}", what());
                    compare(&session, &drawings[after]);
                    assert_eq!(session.take_back(), Ok(-change), "{}", what());
                }
            }
            compare(&session, &drawings[n]);
        }
    }
}

fn compare(session: &Session, fresh: &Drawing) {
    let planes = session.planes();
    assert_eq!(paper::entries(&planes), paper::entries(&fresh.planes(planes.depths)));
    assert_eq!((session.total(), session.check()), (fresh.total, Report::Sound));
}

/// A picture in which every shift shows.
fn scene(w: u32, h: u32) -> Scene {
    let area = (w * h) as usize;
    let texture = |k: usize| (0..area).map(|at| ((at + k) * (at + 3) * 37 % 1021) as u16).collect::<Vec<u16>>();
    let depths = |k: usize| (0..area).map(|at| (at / 4 * k % 70) as u8).collect::<Vec<u8>>();
    Scene {
        settings: Settings { w, h, share: 24, tolerance: 6, ..settings(0, 8, 1) },
        textures: [texture(1), texture(2)],
        reference: texture(5),
        depths: [depths(31), depths(47)],
    }
}

/// One session moved through all numbers, with edits in each seat that leave the widest gap and one of a quarter more.
#[test]
fn moved_through_every_number() {
    let scene = scene(36, 2);
    let mut session = Session::open(&scene.settings, &scene.pictures(), scene.depths()).expect("OPEN accepts it");
    let mut depths = scene.depths.clone();
    for (turn, (widest_gap, torn_distance)) in numbers().enumerate() {
        let to = Settings { widest_gap, torn_distance, share: (turn % 65) as u8, tolerance: (3 * turn % 256) as u8, ..scene.settings };
        let reference = &[&scene.reference, &scene.textures[0], &scene.textures[1]][turn % 3];
        assert_eq!(session.move_seat(&to, reference), Ok(()));
        let pictures = scene.pictures_with(reference);
        let drawing = |depths: &[Vec<u8>; 2]| paper::drawing(&to, &pictures, [&depths[0], &depths[1]]);
        let mut before = drawing(&depths);
        compare(&session, &before);
        for (k, view) in View::BOTH.into_iter().enumerate() {
            // Four columns, near and then far as the view reads the row.
            let far = (turn % 5) as u8;
            let near = far + widest_gap - 4 + (turn / 4 + k) as u8 % 2;
            let block = Block { column: 17 + (turn % 14) as u32, row: k as u32, width: 4, height: 1 };
            let candidate = stored(view, &[near, near, far, far]);
            let after = paper::written(&to, [&depths[0], &depths[1]], k, block, Candidate::Full(&candidate));
            let fresh = drawing(&after);
            let change = fresh.total as i64 - before.total as i64;
            assert_eq!(session.get(view, block, Candidate::Full(&candidate)), Ok(change));
            assert_eq!(session.set(view, block, Candidate::Full(&candidate)), Ok(change));
            compare(&session, &fresh);
            if turn % 3 == 0 {
                assert_eq!(session.take_back(), Ok(-change));
                compare(&session, &before);
            } else {
                (depths, before) = (after, fresh);
            }
        }
    }
}

/// All that a call is passed.
#[derive(Clone, PartialEq)]
struct Call {
    settings: Settings,
    to: Settings,
    textures: [Vec<u16>; 2],
    reference: Vec<u16>,
    planes: GuardedPlanes,
    journal: Vec<u32>,
    view: u32,
    block: Block,
    candidate: Tried,
}

/// The calls that have 20.
#[derive(Clone, Copy, PartialEq, Debug)]
enum Entry {
    Render,
    Open,
    Move,
    Get,
    Set,
    TakeBack,
    Check,
}

/// The calls that have 20, and their lists of refusals; of a candidate's own the full block's.
const LISTS: [(Entry, &[u32]); 7] = [
    (Entry::Render, &[1, 2, 3, 20, 6]),
    (Entry::Open, &[1, 2, 3, 4, 20, 13, 21]),
    (Entry::Move, &[1, 2, 3, 4, 20, 13, 21]),
    (Entry::Get, &[1, 2, 3, 4, 20, 6, 5, 7, 8]),
    (Entry::Set, &[1, 2, 3, 4, 20, 6, 5, 7, 8, 13, 11]),
    (Entry::TakeBack, &[1, 2, 3, 4, 20, 13, 12, 8]),
    (Entry::Check, &[1, 2, 3, 4, 20]),
];

impl Call {
    /// Every call of it is accepted: one SET stands, and the journal has room for one more. Where it moves to has everything
    /// else, and each thing that is new shows.
    fn new() -> Call {
        let (random, mut scene) = (&mut Random::new(1, 0), scene(5, 3));
        scene.depths = [vec![0, 0, 0, 1, 2, 12, 12, 0, 0, 2, 3, 3, 3, 0, 0], vec![1, 1, 0, 0, 0, 0, 0, 0, 12, 12, 2, 0, 0, 0, 3]];
        let mut planes = GuardedPlanes::new(random, 5, 3, scene.depths());
        let (mut settings, mut journal) = (scene.settings, vec![77; 1 + 2 * (6 + 4)]);
        let (pictures, block) = (scene.pictures(), Block { column: 1, row: 1, width: 2, height: 2 });
        lent::open(&mut settings, &pictures, &mut planes.lent(), &mut journal).expect("OPEN accepts it");
        lent::set(&mut settings, &pictures, &mut planes.lent(), &mut journal, 0, block, Candidate::Flat(9)).expect("SET accepts it");
        let (left, right) = (std::array::from_fn(|d| d as u16 / 2), std::array::from_fn(|d| 3 * d as u16));
        let to = Settings { w: 0, h: 70_000, left, right, share: 50, tolerance: 200, widest_gap: 30, torn_distance: 2, total: u64::MAX };
        let Scene { textures, reference, .. } = scene;
        Call { settings, to, textures, reference, planes, journal, view: 1, block, candidate: random::full(&[9, 8, 7, 6]) }
    }

    fn pictures(&self) -> Pictures<'_> {
        Pictures { textures: [&self.textures[0], &self.textures[1]], reference: &self.reference }
    }

    /// What the call is judged by: MOVE by what is new.
    fn judged(&mut self, entry: Entry) -> &mut Settings {
        if entry == Entry::Move {
            &mut self.to
        } else {
            &mut self.settings
        }
    }

    /// Makes it a call that is refused with this number. Several are made in the order of the list, the last first.
    fn spoil(&mut self, entry: Entry, number: u32, way: usize) {
        let three = way % 3;
        match number {
            1 if three == 0 => self.settings.w = 0,
            1 if three == 1 || entry == Entry::Render => self.settings.w = 4097,
            1 => self.settings.h = 4097,
            2 if three == 0 || entry == Entry::Render => self.textures[0].push(0),
            2 if three == 1 => self.reference.truncate(14),
            2 => self.reference.push(0),
            3 if three == 0 => self.judged(entry).left[255] = 1024,
            3 => self.judged(entry).right[0] = 65535,
            4 => self.judged(entry).share = [65, 128, 255][three],
            20 if three == 0 => self.judged(entry).widest_gap = 3,
            20 if three == 1 => self.judged(entry).widest_gap = 65,
            20 => self.judged(entry).torn_distance = 4,
            5 => self.block.column = 4,
            6 => self.view = 2,
            7 => self.candidate = random::full(&[9; 3]),
            8 => self.settings.total = u64::MAX,
            11 => self.journal.truncate(1 + 10 + 6 + 3),
            12 => self.journal[0] = 0,
            13 => self.journal.clear(),
            21 if three == 0 => self.textures[1][14] = 1024,
            21 => *self.reference.last_mut().expect("it has entries") = 1024,
            _ => panic!("no call here has {number}"),
        }
    }

    /// RENDER of the last row of view 0 or 1.
    fn render(&self) -> Result<(), Refusal> {
        let (texture, depths) = (&self.textures[0][10..], &self.planes.shared().depths[0][10..]);
        let mut all = ([7; 5], [7; 1], [7; 5]);
        let answer = lent::render(&self.settings, self.view, texture, depths, &mut all.0, &mut all.1, &mut all.2);
        assert!(answer.is_ok() || all == ([7; 5], [7; 1], [7; 5]), "a refused RENDER wrote");
        answer
    }

    fn made(&mut self, entry: Entry) -> Result<(), Refusal> {
        let Call { settings, to, textures, reference, planes, journal, view, block, candidate } = self;
        let pictures = &Pictures { textures: [&textures[0], &textures[1]], reference };
        match entry {
            Entry::Render => self.render(),
            Entry::Open => lent::open(settings, pictures, &mut planes.lent(), journal),
            Entry::Move => boundary::move_seat(settings, pictures, &mut planes.lent(), journal, to),
            Entry::Get => boundary::get(settings, pictures, &planes.shared(), *view, *block, candidate).map(|_| ()),
            Entry::Set => boundary::set(settings, pictures, &mut planes.lent(), journal, *view, *block, candidate).map(|_| ()),
            Entry::TakeBack => boundary::take_back(settings, pictures, &mut planes.lent(), journal).map(|_| ()),
            Entry::Check => lent::check(settings, pictures, &planes.shared()).map(|_| ()),
        }
    }

    /// The number of the call, 0 where it is accepted; a refused one leaves everything: settings, planes, journal and answers.
    fn number(&self, entry: Entry) -> u32 {
        let mut call = self.clone();
        let number = call.made(entry).map_or_else(Refusal::number, |()| 0);
        assert!(number == 0 || call == *self, "a refused {entry:?} wrote");
        assert!(call.planes.are_intact(), "a guard was written");
        if entry == Entry::Move {
            let mut same = self.clone();
            let Call { settings, to, textures, reference, planes, journal, .. } = &mut same;
            let pictures = Pictures { textures: [&textures[0], &textures[1]], reference };
            let answer = lent::move_seat(settings, &pictures, &mut planes.lent(), journal, to);
            assert!(answer.map_or_else(Refusal::number, |()| 0) == number && same == call, "the crate's MOVE ends otherwise");
        }
        number
    }
}

/// Every number of every call that has 20, alone and with every other of its list: the first of the list is answered.
#[test]
fn the_order_of_refusals() {
    for (entry, list) in LISTS {
        assert_eq!(Call::new().number(entry), 0, "{entry:?}");
        for ((k, &first), way) in list.iter().enumerate().flat_map(|first| (0..3).map(move |way| (first, way))) {
            let mut alone = Call::new();
            alone.spoil(entry, first, way);
            assert_eq!(alone.number(entry), first, "{entry:?}");
            for (&second, other) in list[k + 1..].iter().flat_map(|second| (0..3).map(move |other| (second, other))) {
                let mut both = Call::new();
                both.spoil(entry, second, other);
                both.spoil(entry, first, way);
                assert_eq!(both.number(entry), first, "{entry:?}: {first} before {second}");
            }
        }
        let mut all = Call::new();
        for &number in list.iter().rev() {
            all.spoil(entry, number, 0);
            assert_eq!(all.number(entry), number, "{entry:?} with all that follow {number}");
        }
    }
}

/// Each of the two numbers from 0 to 255, with the other in its range, at its bounds and past them: 20 unless both are in range, in
/// every call that has it. MOVE is judged by the new ones alone; HOLES looks at neither.
#[test]
fn bounds_of_both_numbers() {
    let mut call = Call::new();
    call.block = Block { width: 1, height: 1, ..call.block };
    call.candidate = random::full(&[9]);
    let gaps = (0..=255).flat_map(|gap| [0, 1, 3, 4, 255].map(|distance| (gap, distance)));
    let distances = (0..=255).flat_map(|distance| [0, 3, 4, 8, 64, 65, 255].map(|gap| (gap, distance)));
    for (widest_gap, torn_distance) in gaps.chain(distances) {
        let taken = (4..=64).contains(&widest_gap) && torn_distance <= 3;
        for (entry, _) in LISTS {
            let mut call = call.clone();
            (call.judged(entry).widest_gap, call.judged(entry).torn_distance) = (widest_gap, torn_distance);
            let what = format!("{entry:?}: gap {widest_gap}, distance {torn_distance}");
            assert_eq!(call.number(entry), if taken { 0 } else { 20 }, "{what}");
            assert_eq!(call.number(Entry::Move), if taken || entry != Entry::Move { 0 } else { 20 }, "{what}");
            assert!(lent::holes(&call.settings, 0, call.planes.shared().marks).is_ok(), "{what}");
        }
    }
}

/// What a MOVE ends with, by the independent renderer: everything drawn anew with what is new, and the journal emptied.
fn assert_moved(before: &Call, after: &Call) {
    let settings = paper::moved(&before.settings, &before.to);
    let fresh = paper::drawing(&settings, &before.pictures(), before.planes.shared().depths);
    assert_eq!(after.settings, Settings { total: fresh.total, ..settings });
    let held = after.planes.shared();
    assert_eq!(held.depths, before.planes.shared().depths);
    for v in 0..2 {
        assert_eq!(held.samples[v], fresh.samples[v]);
        assert_eq!((held.fronts[v], held.limits[v], held.marks[v]), (&fresh.fronts[v][..], &fresh.limits[v][..], &fresh.marks[v][..]));
    }
    assert_eq!(held.combined, fresh.combined);
    assert_eq!(after.journal, paper::with_newest(&before.journal, 0));
    assert_eq!((&after.textures, &after.reference, after.to), (&before.textures, &before.reference, before.to));
}

/// A change, and what it is of.
type Named<Change> = (&'static str, Change);

/// MOVE judges w and h of the session and nothing else of what was there before: not its tables, share and numbers, which may be
/// anything, nor w, h and total of where it goes, nor what the held planes and the journal have.
#[test]
fn what_is_not_looked_at() {
    let changes: [Named<fn(&mut Call)>; 12] = [
        ("nothing", |_| ()),
        ("w and h of the seat", |call| (call.to.w, call.to.h) = (5, 3)),
        ("a wide seat", |call| (call.to.w, call.to.h) = (4096, 4096)),
        ("the seat's total", |call| call.to.total = 0),
        ("the total", |call| call.settings.total = u64::MAX),
        ("the tables", |call| (call.settings.left, call.settings.right) = ([1024; 256], [65535; 256])),
        ("the share", |call| call.settings.share = 65),
        ("the tolerance", |call| call.settings.tolerance = 0),
        ("the numbers", |call| (call.settings.widest_gap, call.settings.torn_distance) = (0, 255)),
        ("the journal", |call| call.journal.iter_mut().for_each(|word| *word = u32::MAX)),
        ("a journal of one word", |call| call.journal.truncate(1)),
        ("the held planes", |call| {
            let depths = call.planes.shared().depths.map(<[u8]>::to_vec);
            call.planes = GuardedPlanes::new(&mut Random::new(2, 0), 5, 3, [&depths[0], &depths[1]]);
        }),
    ];
    for (what, change) in changes {
        let mut before = Call::new();
        change(&mut before);
        let mut after = before.clone();
        assert_eq!(after.made(Entry::Move), Ok(()), "{what}");
        assert_moved(&before, &after);
        assert_eq!(before.number(Entry::Move), 0, "{what}");
    }
    for (w, h) in [(0, 3), (5, 0), (4097, 3), (5, 4097)] {
        let mut call = Call::new();
        (call.settings.w, call.settings.h, call.to.w, call.to.h) = (w, h, 5, 3);
        assert_eq!(call.number(Entry::Move), 1, "{w} × {h}");
    }
    let mut call = Call::new();
    (call.settings.w, call.settings.h, call.to.w, call.to.h) = (3, 5, 5, 3);
    assert_eq!(call.number(Entry::Move), 2, "marks of five columns, where the session has three");
}

/// Takes one thing of other settings.
type Taken = fn(&mut Settings, &Settings);

/// Everything that is new, each alone: it becomes the session's, and nothing else does. To the session's own settings MOVE is OPEN.
#[test]
fn one_thing_new() {
    let new = Call::new().to;
    let changes: [Named<Taken>; 7] = [
        ("nothing", |_, _| ()),
        ("left", |to, new| to.left = new.left),
        ("right", |to, new| to.right = new.right),
        ("share", |to, new| to.share = new.share),
        ("tolerance", |to, new| to.tolerance = new.tolerance),
        ("widest gap", |to, new| to.widest_gap = new.widest_gap),
        ("torn distance", |to, new| to.torn_distance = new.torn_distance),
    ];
    let opened = |mut call: Call| {
        call.made(Entry::Open).expect("OPEN accepts it");
        call
    };
    let (mut ends, mut references) = (Vec::new(), BTreeSet::new());
    for (what, change) in changes {
        let mut before = Call::new();
        before.to = before.settings;
        change(&mut before.to, &new);
        let mut after = before.clone();
        assert_eq!(after.made(Entry::Move), Ok(()), "{what}");
        assert_moved(&before, &after);
        let mut open = before.clone();
        change(&mut open.settings, &new);
        assert!(opened(open) == after, "{what}: OPEN ends otherwise");
        ends.push((what, after.planes.clone()));
        // The reference is the new one, for the total alone.
        let mut other = Call { reference: before.textures[0].clone(), ..before };
        assert_eq!(other.made(Entry::Move), Ok(()), "{what}");
        assert!(other.planes == after.planes && other.settings.total != after.settings.total, "{what}: the reference");
        references.insert(other.settings.total);
    }
    for (k, (what, end)) in ends.iter().enumerate() {
        assert!(ends[..k].iter().all(|(_, other)| other != end), "{what} shows");
    }
    assert!(references.len() > 1);
}

/// A session by hand: the seat goes half a sample to the right of the left camera and back.
#[test]
fn a_move_by_hand() {
    const X: u32 = 7777;
    let (mut now, texture, seen) = (settings(4, 8, 1), [10, 20, 30, 40], [14, 25, 36, 40]);
    let (middle, own) = (now, Pictures { textures: [&texture, &texture], reference: &texture });
    let there = Pictures { reference: &seen, ..own };
    let mut guarded = GuardedPlanes::new(&mut Random::new(1, 0), 4, 1, [&[0; 4], &[0; 4]]);
    let (planes, mut journal) = (&mut guarded.lent(), [X; 9]);
    let block = Block { column: 2, row: 0, width: 1, height: 1 };
    assert_eq!(lent::open(&mut now, &own, planes, &mut journal), Ok(()));
    assert_eq!(lent::set(&mut now, &own, planes, &mut journal, 0, block, Candidate::Flat(5)), Ok(100));
    assert_eq!((&*planes.combined, journal), (&[10, 30, 30, 40][..], [1, 0, 0, 2, 0, 1, 1, 0, X]));

    // Refused, it leaves all of this; the SET can still be taken back.
    let to = Settings { w: 99, h: 0, left: [2; 256], right: [0; 256], total: 12345, ..now };
    let refused = |to: Settings, reference: &[u16], journal: &mut [u32], refusal: Refusal| {
        let (mut now, mut guarded) = (now, GuardedPlanes::new(&mut Random::new(3, 0), 4, 1, [&[0, 0, 5, 0], &[0; 4]]));
        let (before, words) = (guarded.clone(), journal.to_vec());
        let pictures = Pictures { reference, ..own };
        assert_eq!(lent::move_seat(&mut now, &pictures, &mut guarded.lent(), journal, &to), Err(refusal));
        assert!(now.total == 100 && now.left == middle.left && guarded == before && *journal == words, "{refusal}: it wrote");
    };
    refused(to, &seen[..3], &mut journal, Refusal::Plane);
    refused(to, &[14, 25, 36, 40, 50], &mut journal, Refusal::Plane);
    refused(Settings { left: [1024; 256], ..to }, &seen, &mut journal, Refusal::Table);
    refused(Settings { share: 65, ..to }, &seen, &mut journal, Refusal::Share);
    refused(Settings { widest_gap: 3, ..to }, &seen, &mut journal, Refusal::Gap);
    refused(Settings { widest_gap: 65, ..to }, &seen, &mut journal, Refusal::Gap);
    refused(Settings { torn_distance: 4, ..to }, &seen, &mut journal, Refusal::Gap);
    refused(to, &[14, 25, 36, 1024], &mut [], Refusal::Journal);
    refused(to, &[14, 25, 36, 1024], &mut journal, Refusal::Sample);

    // Left: case d, whose last position is a hole, which the right view fills.
    assert_eq!(lent::move_seat(&mut now, &there, planes, &mut journal, &to), Ok(()));
    assert_eq!(now, Settings { w: 4, h: 1, total: 0, ..to });
    assert_eq!((&*planes.samples[0], &*planes.marks[0], &*planes.fronts[0]), (&[14, 25, 36, 40][..], &[8][..], &[0, 0, 5, 0][..]));
    assert_eq!((&*planes.samples[1], &*planes.marks[1], &*planes.combined), (&[10, 20, 30, 40][..], &[0][..], &seen[..]));
    assert_eq!((&*planes.depths[0], &*planes.limits[0]), (&[0, 0, 5, 0][..], &[-2, 2, 6, 10][..]));
    assert_eq!(journal, [0, 0, 0, 2, 0, 1, 1, 0, X]);
    assert_eq!(lent::take_back(&mut now, &there, planes, &mut journal), Err(Refusal::NothingToTakeBack));
    assert_eq!(lent::check(&now, &there, &planes.shared()), Ok(Report::Sound));
    assert_eq!(lent::check(&now, &own, &planes.shared()), Ok(Report::Total), "the reference is another");

    // A distance of 2 quarters, half of the right view, and a tolerance below 5.
    let to = Settings { torn_distance: 2, share: 32, tolerance: 4, ..now };
    assert_eq!(lent::move_seat(&mut now, &there, planes, &mut journal, &to), Ok(()));
    assert_eq!((&*planes.marks[0], &*planes.combined, now.total), (&[0][..], &[12, 23, 36, 40][..], 8));

    // A SET in the new seat, and back to the first one: what was set stays.
    let change = lent::set(&mut now, &there, planes, &mut journal, 0, block, Candidate::Flat(4)).expect("SET accepts it");
    assert_eq!((change, journal), ((33 - 36_i64).pow(2), [1, 0, 0, 2, 0, 1, 1, 5, X]));
    assert_eq!(lent::move_seat(&mut now, &own, planes, &mut journal, &middle), Ok(()));
    assert_eq!((now.total, &*planes.combined, journal[0]), (136, &[10, 30, 36, 40][..], 0));
    assert_eq!((now, lent::check(&now, &own, &planes.shared())), (Settings { total: 136, ..middle }, Ok(Report::Sound)));
    let own_settings = now;
    assert_eq!(lent::move_seat(&mut now, &own, planes, &mut journal, &own_settings), Ok(()));
    assert_eq!(now, own_settings);
    assert!(guarded.are_intact(), "a guard was written");
}
