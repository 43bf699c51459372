//! The order of separate edits (card 10). SETs that share no position of the same view, made in two orders from one start: both end
//! with equal depths, held planes and total, and their answers add up to the same sum. Separate blocks by their positions and as
//! rectangles; edits by hand; every two separate edits of small rows with black and white pictures; and random sessions, with SETs,
//! TAKE BACKs and MOVEs before, GETs and refused calls between, and different journals. Besides, SETs of the depths that a block has.
//!
//! A longer run of the random sessions:
//!
//!     LUPH_SEED=7 LUPH_SESSIONS=100000 cargo test --release --offline --test order random

mod boundary;
mod paper;
mod random;

use luphwezane::{lent, Block, Pictures, Planes, Refusal, Report, Session, Settings, View};
use paper::{block_of, both, left_first, row_settings, rows, stored, WHITE as W};
use random::{Guarded, GuardedPlanes, Random, Scene, Tried};
use std::cell::RefCell;
use std::collections::BTreeMap;

/// A SET that is to be made.
#[derive(Clone, Debug)]
struct Edit {
    view: View,
    block: Block,
    tried: Tried,
}

impl Edit {
    fn full(view: View, block: Block, depths: &[u8]) -> Edit {
        Edit { view, block, tried: random::full(depths) }
    }

    fn any(random: &mut Random, session: &Session) -> Edit {
        let (view, block, tried) = random::edit(random, session.settings(), session.planes().depths);
        Edit { view, block, tried }
    }

    fn is_separate(&self, view: View, block: Block) -> bool {
        paper::are_separate([self.view, view], [self.block, block])
    }

    fn set(&self, session: &mut Session) -> i64 {
        session.set(self.view, self.block, self.tried.candidate()).expect("SET accepts it")
    }

    /// The depths with the candidate written.
    fn written(&self, settings: &Settings, depths: [&[u8]; 2]) -> [Vec<u8>; 2] {
        paper::written(settings, depths, self.view as usize, self.block, self.tried.candidate())
    }

    /// The words of its record.
    fn room(&self) -> usize {
        6 + self.block.width as usize * self.block.height as usize
    }
}

/// Two edits made in one order: their answers, the first edit's first whichever was made first, and the session in the end.
struct Made {
    answers: [i64; 2],
    session: Session,
}

impl Made {
    /// In this order and in the other, on copies of a session.
    fn in_both_orders(start: &Session, [one, other]: [&Edit; 2]) -> [Made; 2] {
        let (mut forth, mut back) = (start.clone(), start.clone());
        let forth_answers = [one.set(&mut forth), other.set(&mut forth)];
        let mut back_answers = [other.set(&mut back), one.set(&mut back)];
        back_answers.reverse();
        [Made { answers: forth_answers, session: forth }, Made { answers: back_answers, session: back }]
    }

    /// The same of separate edits: the depths are those with both written, every plane and all settings agree, and in either order
    /// the answers add up to the change of the total.
    fn alike(start: &Session, edits: [&Edit; 2]) -> [Made; 2] {
        let [one, other] = edits;
        assert!(one.is_separate(other.view, other.block));
        let made = Made::in_both_orders(start, edits);
        let [forth, back] = made.each_ref().map(|made| &made.session);
        let what = || format!("{:?}, {edits:?}", start.planes().depths);
        let depths = one.written(start.settings(), start.planes().depths);
        let depths = other.written(start.settings(), both(&depths));
        assert_eq!(forth.planes().depths, both(&depths), "{}", what());
        assert_eq!(paper::entries(&forth.planes()), paper::entries(&back.planes()), "{}", what());
        assert_eq!(forth.settings(), back.settings(), "{}", what());
        let sums: [i64; 2] = made.each_ref().map(|made| made.answers.iter().sum());
        assert_eq!(sums, [forth.total() as i64 - start.total() as i64; 2], "{}", what());
        made
    }
}

/// Every two blocks of a small picture: they share no position of a view exactly where one ends before the other begins, in columns
/// or in rows. In two views they never share one.
#[test]
fn blocks_that_share_no_position() {
    let sides = |n: u32| (0..n).flat_map(move |first| (1..=n - first).map(move |length| (first, length)));
    let blocks = sides(4).flat_map(|(column, width)| sides(3).map(move |(row, height)| Block { column, row, width, height }));
    let blocks: Vec<Block> = blocks.collect();
    let (mut pairs, mut apart) = (0, 0);
    for (&a, &b) in blocks.iter().flat_map(|a| blocks.iter().map(move |b| (a, b))) {
        let separate = |a_view, b_view| paper::are_separate([a_view, b_view], [a, b]);
        assert_eq!(separate(View::Left, View::Left), paper::are_apart([a, b]), "{a:?}, {b:?}");
        assert_eq!(separate(View::Right, View::Right), paper::are_apart([a, b]), "{a:?}, {b:?}");
        assert!(separate(View::Left, View::Right) && separate(View::Right, View::Left), "{a:?}, {b:?}");
        pairs += 1;
        apart += u32::from(paper::are_apart([a, b]));
    }
    assert_eq!((pairs, apart), (60 * 60, 1780));
}

const TEXTURE: [u16; 4] = [10, 20, 30, 40];

/// A session of one row of 4 columns: the view's depths, as it reads them, and 0 in the other. All pictures are the texture.
fn row(settings: &Settings, view: View, depths: &[u8; 4]) -> Session {
    let (texture, depths) = (stored(view, &TEXTURE), stored(view, depths));
    let pictures = Pictures { textures: [&texture, &texture], reference: &texture };
    Session::open(settings, &pictures, left_first(view, &depths, &[0; 4])).expect("OPEN accepts it")
}

/// An edit of such a row: new depths from a column on, as the view reads it.
fn edit(view: View, first: usize, depths: &[u8]) -> Edit {
    Edit::full(view, block_of(view, TEXTURE.len(), first, first + depths.len() - 1), &stored(view, depths))
}

/// Two edits of neighbouring columns of one view.
struct Example<'a> {
    depths: [u8; 4],
    /// The first column of each and its new depths.
    edits: [(usize, &'a [u8]); 2],
    /// The answers of both, the first edit's first, where it is made first and where it is made second.
    answers: [[i64; 2]; 2],
    /// The combined picture in the end.
    shown: [u16; 4],
}

const NEIGHBOURS: [Example; 6] = [
    // Column 2 moves to position 1. Position 2 is then mixed from columns 2 and 3, or shows column 3 where that has moved too.
    Example { depths: [0; 4], edits: [(2, &[4]), (3, &[4])], answers: [[136, 64], [100, 100]], shown: [10, 30, 40, 40] },
    // Column 3 moves before column 2, wherever that is.
    Example { depths: [0; 4], edits: [(2, &[4]), (3, &[8])], answers: [[136, 264], [0, 400]], shown: [10, 40, 30, 40] },
    // Column 3 has a near edge at position 1 as long as column 2 is farther away.
    Example { depths: [0; 4], edits: [(2, &[3]), (3, &[7])], answers: [[36, -36], [-400, 400]], shown: [10, 20, 30, 40] },
    Example { depths: [0; 4], edits: [(1, &[4]), (2, &[4])], answers: [[125, 111], [100, 136]], shown: [20, 30, 36, 40] },
    Example { depths: [0; 4], edits: [(0, &[4, 4]), (2, &[4, 4])], answers: [[125, 175], [100, 200]], shown: [20, 30, 40, 40] },
    Example { depths: [0, 3, 7, 0], edits: [(0, &[0, 4]), (2, &[2])], answers: [[100, 73], [139, 34]], shown: [20, 28, 33, 40] },
];

/// The spans of neighbours overlap: what an edit answers depends on whether the other was made before. The sum does not.
#[test]
fn answers_that_differ() {
    for (example, view) in NEIGHBOURS.iter().flat_map(|example| View::BOTH.map(|view| (example, view))) {
        let start = row(&row_settings(view, 4), view, &example.depths);
        let edits = example.edits.map(|(first, depths)| edit(view, first, depths));
        let made = Made::alike(&start, edits.each_ref());
        assert_eq!(made.each_ref().map(|made| made.answers), example.answers, "{edits:?}");
        assert_eq!(stored(view, made[1].session.planes().combined), example.shown, "{edits:?}");
    }
}

/// One block in both views: they are mixed half and half, or the nearer one is shown.
#[test]
fn one_block_in_both_views() {
    let of = |tolerance: u8, first: usize, depths: &[u8], answers: [[i64; 2]; 2], shown: [u16; 4]| {
        let start = row(&Settings { share: 32, tolerance, ..row_settings(View::Left, 4) }, View::Left, &[0; 4]);
        let left = edit(View::Left, first, depths);
        let made = Made::alike(&start, [&left, &Edit { view: View::Right, ..left.clone() }]);
        assert_eq!(made.each_ref().map(|made| made.answers), answers);
        assert_eq!(made[1].session.planes().combined, shown);
    };
    of(255, 0, &[4, 4, 4, 4], [[75, 125], [125, 75]], [20, 20, 30, 30]);
    of(3, 2, &[8], [[400, 100], [500, 0]], [30, 20, 40, 40]);
}

/// Blocks that have one column in common are not separate. That column keeps the depth of the last SET, and the ends differ.
#[test]
fn edits_that_overlap() {
    for view in View::BOTH {
        let start = row(&row_settings(view, 4), view, &[0; 4]);
        let edits = [edit(view, 1, &[4, 4]), edit(view, 2, &[8, 8])];
        assert!(!edits[0].is_separate(view, edits[1].block) && !paper::are_apart(edits.each_ref().map(|edit| edit.block)));
        let ends = Made::in_both_orders(&start, edits.each_ref()).map(|Made { session, .. }| {
            let Planes { depths, combined, .. } = session.planes();
            (stored(view, depths[view as usize]), stored(view, combined), session.total())
        });
        assert_eq!(ends[0], (vec![0, 4, 8, 8], vec![30, 40, 30, 40], 800), "{view:?}");
        assert_eq!(ends[1], (vec![0, 4, 4, 8], vec![20, 40, 30, 40], 500), "{view:?}");
    }
}

/// What was had, and how often.
#[derive(Default)]
struct Known(BTreeMap<String, u64>);

impl Known {
    fn note(&mut self, what: &str, is: bool) {
        match self.0.get_mut(what) {
            Some(times) => *times += u64::from(is),
            None => drop(self.0.insert(what.to_string(), is.into())),
        }
    }

    fn times(&self, what: &str) -> u64 {
        self.0.get(what).copied().unwrap_or(0)
    }

    fn assert_had(&self, expected: &[&str]) {
        for what in expected {
            assert!(self.times(what) > 0, "never {what}: {:?}", self.0);
        }
    }

    /// Two edits of a row, and whether what they answer depends on the order.
    fn note_order(&mut self, [one, other]: [&Edit; 2], differs: bool) {
        let what = match one.block.width + other.block.width {
            _ if one.view != other.view => PAIRS[2],
            2 => PAIRS[0],
            _ => PAIRS[1],
        };
        self.note(what[0], true);
        self.note(what[1], differs);
    }
}

/// The pairs of edits of small rows, and those of them whose single answers depend on the order.
const PAIRS: [[&str; 2]; 3] = [
    ["of one column each", "of one column each, with other answers"],
    ["of more columns", "of more columns, with other answers"],
    ["in two views", "in two views, with other answers"],
];

/// Every edit of one or two columns of the view among these depths, and those of one column of the other view with the last of them.
fn edits_of_row(view: View, w: usize, values: &[u8]) -> Vec<Edit> {
    let (other, last) = (View::BOTH[1 - view as usize], &values[values.len() - 1..]);
    let own = (1..=2).flat_map(|width| (0..=w - width).map(move |a| (view, block_of(view, w, a, a + width - 1), values)));
    let places = own.chain((0..w).map(|a| (other, block_of(other, w, a, a), last)));
    places
        .flat_map(|(view, block, values)| rows(block.width as usize, values).map(move |depths| Edit::full(view, block, &depths)))
        .collect()
}

/// Every two separate edits of every small row with every texture of black and white; of the widest rows the reference is all black
/// or all white. The other view has depths of 0 and the texture's opposite. By turns the view alone is shown, both mixed, or the nearer.
#[test]
fn every_small_row() {
    let mut known = Known::default();
    let sizes: [(usize, &[u8]); 3] = [(2, &[0, 3, 7, 9]), (3, &[0, 4, 7]), (4, &[0, 11])];
    for (view, (w, values)) in View::BOTH.into_iter().flat_map(|view| sizes.map(|size| (view, size))) {
        let edits = edits_of_row(view, w, values);
        let pairs = edits.iter().enumerate().flat_map(|(k, one)| edits[k + 1..].iter().map(move |other| [one, other]));
        let pairs: Vec<[&Edit; 2]> = pairs.filter(|[one, other]| one.is_separate(other.view, other.block)).collect();
        let alone = row_settings(view, w);
        let settings = [alone, Settings { share: 32, ..alone }, Settings { share: 32, tolerance: 0, ..alone }];
        let textures: Vec<Vec<u16>> = rows(w, &[0, W]).collect();
        let references = if w < 4 { &textures[..] } else { &[vec![0; w], vec![W; w]] };
        for (turn, depths) in rows(w, values).enumerate() {
            for (own, reference) in textures.iter().flat_map(|own| references.iter().map(move |reference| (own, reference))) {
                let opposite: Vec<u16> = own.iter().map(|sample| W - sample).collect();
                let pictures = Pictures { textures: left_first(view, own, &opposite), reference };
                let depths = left_first(view, &depths[..], &[0; 4][..w]);
                let start = Session::open(&settings[turn % 3], &pictures, depths).expect("OPEN accepts it");
                for &pair in &pairs {
                    let [forth, back] = Made::alike(&start, pair);
                    known.note_order(pair, forth.answers != back.answers);
                }
            }
        }
    }
    let counts = PAIRS.map(|[all, differ]| format!("{} pairs {all}, {} with other answers", known.times(all), known.times(differ)));
    random::say("every small row", &counts.join("; "));
    known.assert_had(PAIRS.as_flattened());
}

/// A session after some calls, and which of them was the last.
fn begun(random: &mut Random, scene: &Scene) -> (Session, &'static str) {
    let mut session = Session::open(&scene.settings, &scene.pictures(), scene.depths()).expect("OPEN accepts it");
    let mut when = "after OPEN";
    for _ in 0..random.between(0, 4) {
        when = match random.between(0, 5) {
            0..=2 => {
                Edit::any(random, &session).set(&mut session);
                "after SET"
            }
            3 | 4 if session.take_back().is_ok() => "after TAKE BACK",
            _ => {
                let to = random::seat(random, session.settings());
                session.move_seat(&to, &scene.any_reference(random)).expect("MOVE accepts it");
                "after MOVE"
            }
        }
    }
    (session, when)
}

/// A block that touches another or is level with it, in columns and in rows, or lies anywhere.
fn beside(random: &mut Random, settings: &Settings, other: Block) -> Block {
    let mut along = |first: u32, length: u32, size: u32| {
        let (end, up_to) = (first + length, |random: &mut Random, n: u32| random.between(1, n as usize) as u32);
        match random.between(0, 3) {
            0 if first > 0 => {
                let own = up_to(random, first.min(8));
                (first - own, own)
            }
            1 if end < size => (end, up_to(random, (size - end).min(8))),
            2 => (first, length),
            _ => {
                let own = up_to(random, size);
                (up_to(random, size - own + 1) - 1, own)
            }
        }
    };
    let (column, width) = along(other.column, other.width, settings.w);
    let (row, height) = along(other.row, other.height, settings.h);
    Block { column, row, width, height }
}

/// Two to six edits of a session, each separate from every other.
fn separate_edits(random: &mut Random, session: &Session) -> Vec<Edit> {
    let (settings, depths, count) = (session.settings(), session.planes().depths, random.between(2, 6));
    let (mut edits, mut tries) = (vec![Edit::any(random, session)], 6 * count);
    while edits.len() < 2 || edits.len() < count && tries > 0 {
        tries = tries.saturating_sub(1);
        let Edit { view, block, .. } = edits[random.between(0, edits.len() - 1)];
        let other = View::BOTH[1 - view as usize];
        let (view, block) = match random.between(0, 5) {
            0 => (other, block),
            1 => (other, beside(random, settings, block)),
            _ => (view, beside(random, settings, block)),
        };
        if edits.iter().all(|edit| edit.is_separate(view, block)) {
            let tried = random::candidate(random, settings.w as usize, depths[view as usize], block);
            edits.push(Edit { view, block, tried });
        }
    }
    edits
}

const KINDS: [&str; 4] = ["a full block", "one value", "a line", "a mask"];

impl Known {
    fn note_edits(&mut self, start: &Session, edits: &[Edit]) {
        for (k, edit) in edits.iter().enumerate() {
            edits[..k].iter().for_each(|other| self.note_pair(start, edit, other));
            self.note(KINDS[edit.tried.kind as usize], true);
            self.note("a block of one column", edit.block.width == 1);
            self.note("a block of one row", edit.block.height == 1);
        }
        self.note("three edits or more", edits.len() > 2);
    }

    /// How two edits lie to each other.
    fn note_pair(&mut self, start: &Session, a: &Edit, b: &Edit) {
        // Below 0 they have columns or rows in common, at 0 one begins where the other ends.
        let gap = |a: u32, a_length: u32, b: u32, b_length: u32| (b as i32 - (a + a_length) as i32).max(a as i32 - (b + b_length) as i32);
        let columns = gap(a.block.column, a.block.width, b.block.column, b.block.width);
        let rows = gap(a.block.row, a.block.height, b.block.row, b.block.height);
        let what = match (columns.signum(), rows.signum()) {
            _ if a.view != b.view && a.block == b.block => "one block in both views",
            (-1, -1) => "blocks of two views that overlap",
            _ if a.view != b.view => "blocks of two views that do not",
            (0, -1) => "side by side",
            (-1, 0) => "one above the other",
            (0, 0) => "corner to corner",
            _ => "far apart",
        };
        self.note(what, true);
        if a.view == b.view && spans_overlap(start, a, b) {
            self.note("spans that overlap", true);
            self.note("spans that overlap, of blocks far apart", what == "far apart");
        }
    }
}

/// Whether there is a position at which both of two edits of one view may show.
fn spans_overlap(start: &Session, a: &Edit, b: &Edit) -> bool {
    let (settings, depths, v) = (start.settings(), start.planes().depths, a.view as usize);
    let [one, other] = [a, b].map(|edit| (edit.block, edit.written(settings, depths)));
    let shown = |(block, new): &(Block, [Vec<u8>; 2]), y: u32| paper::span(settings, v, *block, depths[v], &new[v], y as usize).shown;
    let mut rows = a.block.row.max(b.block.row)..(a.block.row + a.block.height).min(b.block.row + b.block.height);
    rows.any(|y| shown(&one, y).iter().zip(shown(&other, y)).any(|(one, other)| *one && other))
}

/// Calls that are made twice at once: by a `Session`, and over guarded planes with a journal that the test keeps.
struct Run<'a> {
    pictures: Pictures<'a>,
    session: Session,
    settings: Settings,
    planes: GuardedPlanes,
    journal: Guarded<u32>,
}

impl<'a> Run<'a> {
    /// Goes on where a session stands, with another journal: words with anything in them, but no record, and room for so many words
    /// of records at least.
    fn from(random: &mut Random, start: &'a Session, room: usize) -> Run<'a> {
        let (settings, planes, length) = (*start.settings(), GuardedPlanes::copied(&start.planes()), room + random.between(1, 9));
        let mut journal = Guarded::new(&(0..length).map(|_| random.word()).collect::<Vec<u32>>(), 0x3c3c_3c3c);
        lent::keep(journal.entries_mut());
        Run { pictures: start.pictures(), session: start.clone(), settings, planes, journal }
    }

    fn get(&self, edit: &Edit) -> i64 {
        let (view, block, candidate) = (edit.view, edit.block, edit.tried.candidate());
        let answer = lent::get(&self.settings, &self.pictures, &self.planes.shared(), view as u32, block, candidate);
        assert_eq!(self.session.get(view, block, candidate), answer);
        answer.expect("GET accepts it")
    }

    fn set(&mut self, edit: &Edit) -> i64 {
        let (view, block, candidate) = (edit.view, edit.block, edit.tried.candidate());
        let (planes, journal) = (&mut self.planes.lent(), self.journal.entries_mut());
        let answer = lent::set(&mut self.settings, &self.pictures, planes, journal, view as u32, block, candidate);
        assert_eq!(self.session.set(view, block, candidate), answer);
        answer.expect("SET accepts it")
    }

    fn take_back(&mut self) -> i64 {
        let (planes, journal) = (&mut self.planes.lent(), self.journal.entries_mut());
        let answer = lent::take_back(&mut self.settings, &self.pictures, planes, journal);
        assert_eq!(self.session.take_back(), answer);
        answer.expect("a SET stands")
    }

    /// A SET that is refused, with 5, 6, 7, 14 or 15 or, where the journal has no room, with 11; answers which. A `Session` always
    /// has room, and takes no view or kind that is unknown.
    fn refused(&mut self, view: u32, block: Block, tried: &Tried) -> u32 {
        let number = match paper::call_number(&self.settings, &self.pictures, &self.planes.shared(), view, block, tried.candidate()) {
            0 => paper::journal_number(&self.settings, self.journal.entries(), block),
            number => number,
        };
        let refusal = Err(Refusal::from_number(number).expect("SET is to be refused"));
        let (planes, journal) = (&mut self.planes.lent(), self.journal.entries_mut());
        assert_eq!(boundary::set(&mut self.settings, &self.pictures, planes, journal, view, block, tried), refusal);
        if let Some(candidate) = tried.known() {
            assert_eq!(lent::set(&mut self.settings, &self.pictures, planes, journal, view, block, candidate), refusal);
            if let Some(view) = View::BOTH.into_iter().find(|v| *v as u32 == view && number != 11) {
                assert_eq!(self.session.set(view, block, candidate), refusal);
            }
        }
        number
    }

    /// GETs, and SETs that are refused.
    fn other_calls(&mut self, random: &mut Random, known: &mut Known) {
        for _ in 0..random.between(0, 3) {
            if random.once_in(3) {
                self.get(&Edit::any(random, &self.session));
                known.note("GET between", true);
            } else {
                let (view, block, tried) = random::refused_edit(random, &self.settings, self.session.planes().depths);
                let number = self.refused(view, block, &tried);
                known.note(&format!("{number} between"), true);
            }
        }
    }

    /// A SET of the depths that the block has, tried before and then taken back: it answers 0, and only its record is new.
    fn no_op(&mut self, edit: &Edit) {
        let (settings, planes, journal) = (self.settings, self.planes.clone(), self.journal.clone());
        let saved = paper::saved(&settings, journal.entries(), planes.shared().depths, edit.view as usize, edit.block);
        assert_eq!([self.get(edit), self.set(edit)], [0, 0], "{edit:?}");
        self.compare(&settings, &planes.shared());
        assert_eq!(self.journal.entries(), saved);
        assert_eq!(self.take_back(), 0, "{edit:?}");
        self.compare(&settings, &planes.shared());
    }

    /// The settings are these, every entry is that of these planes, and CHECK says so.
    fn compare(&self, settings: &Settings, planes: &Planes) {
        assert_eq!([&self.settings, self.session.settings()], [settings; 2]);
        assert!(self.planes.are_intact() && self.journal.is_intact(), "a guard was written");
        assert_eq!(paper::entries(&self.planes.shared()), paper::entries(planes));
        assert_eq!(paper::entries(&self.session.planes()), paper::entries(planes));
        assert_eq!(lent::check(&self.settings, &self.pictures, &self.planes.shared()), Ok(Report::Sound));
        assert_eq!(self.session.check(), Report::Sound);
    }
}

/// Makes the edits in turn, with a journal that has room for all of them, and perhaps a record of something else. Their records stand
/// in that order, with the depths that were there at the start.
fn in_turn<'a>(random: &mut Random, start: &'a Session, edits: &[Edit]) -> (Run<'a>, Vec<i64>) {
    let mut run = Run::from(random, start, edits.iter().chain(&edits[..1]).map(Edit::room).sum());
    let has_record = random.once_in(2);
    if has_record {
        let other = View::BOTH[1 - edits[0].view as usize] as usize;
        let journal = paper::saved(&run.settings, run.journal.entries(), start.planes().depths, other, edits[0].block);
        run.journal.entries_mut().copy_from_slice(&journal);
    }
    let answers = edits.iter().map(|edit| run.set(edit)).collect();
    let records = paper::chain(&run.settings, run.journal.entries()).expect("SET leaves a chain");
    assert_eq!(records.len(), edits.len() + usize::from(has_record));
    for (record, edit) in records.iter().zip(edits.iter().rev()) {
        let depths = paper::depths_of(&run.settings, start.planes().depths[edit.view as usize], edit.block);
        assert_eq!((record.view, record.block, &record.depths), (edit.view as u32, edit.block, &depths));
    }
    (run, answers)
}

/// Makes them in another order, with other calls between, and a journal that is emptied where it has no room. The answers are in the
/// order of the edits.
fn in_another_order<'a>(random: &mut Random, start: &'a Session, edits: &[Edit], known: &mut Known) -> (Run<'a>, Vec<i64>) {
    let mut order: Vec<usize> = (0..edits.len()).collect();
    (1..edits.len()).for_each(|k| order.swap(k, random.between(0, k)));
    if order.windows(2).all(|two| two[0] < two[1]) {
        order.reverse();
    }
    let mut run = Run::from(random, start, edits.iter().map(Edit::room).max().expect("there are edits"));
    let mut answers = vec![0; edits.len()];
    for k in order {
        run.other_calls(random, known);
        if paper::journal_number(&run.settings, run.journal.entries(), edits[k].block) != 0 {
            assert_eq!(run.refused(edits[k].view as u32, edits[k].block, &edits[k].tried), 11);
            lent::keep(run.journal.entries_mut());
            known.note("a journal emptied between", true);
        }
        answers[k] = run.set(&edits[k]);
    }
    run.other_calls(random, known);
    (run, answers)
}

const SESSIONS: u64 = 6000;

/// Separate edits in two orders: both end with the drawing of the depths with all of them written, and their answers add up to the
/// change of the fresh total. One order is taken back.
#[test]
fn random_orders() {
    let known = RefCell::new(Known::default());
    random::sessions("order", SESSIONS, |random, number| {
        let (scene, known) = (Scene::stark(random, number), &mut *known.borrow_mut());
        let (start, when) = begun(random, &scene);
        let (settings, before, edits) = (start.settings(), start.planes().depths, separate_edits(random, &start));
        known.note(when, true);
        known.note_edits(&start, &edits);
        let mut after = before.map(<[u8]>::to_vec);
        for edit in &edits {
            after = edit.written(settings, both(&after));
        }
        let after = both(&after);
        let [old, new] = [before, after].map(|depths| paper::drawing(settings, &start.pictures(), depths));

        let (mut first, answers) = in_turn(random, &start, &edits);
        let (second, others) = in_another_order(random, &start, &edits, known);
        for run in [&first, &second] {
            run.compare(&Settings { total: new.total, ..*settings }, &new.planes(after));
        }
        let sums: [i64; 2] = [&answers, &others].map(|answers| answers.iter().sum());
        assert_eq!(sums, [new.total as i64 - old.total as i64; 2]);
        known.note("other answers", answers != others);
        for (edit, (one, other)) in edits.iter().zip(answers.iter().zip(&others)) {
            known.note(["another answer, left", "another answer, right"][edit.view as usize], one != other);
            known.note("an edit", true);
        }
        for change in answers.iter().rev() {
            assert_eq!(first.take_back(), -change);
        }
        first.compare(&Settings { total: old.total, ..*settings }, &old.planes(before));
    });
    let known = known.into_inner();
    let [edits, left, right, sessions] =
        ["an edit", "another answer, left", "another answer, right", "other answers"].map(|what| known.times(what));
    random::say("order", &format!("{edits} edits; in {sessions} sessions {} of them answer otherwise in the other order", left + right));
    if random::from_environment("LUPH_SESSIONS", SESSIONS) >= SESSIONS {
        known.assert_had(&["after OPEN", "after SET", "after TAKE BACK", "after MOVE", "three edits or more"]);
        known.assert_had(&["side by side", "one above the other", "corner to corner", "far apart"]);
        known.assert_had(&["one block in both views", "blocks of two views that overlap", "a block of one column", "a block of one row"]);
        known.assert_had(&["spans that overlap", "spans that overlap, of blocks far apart"]);
        known.assert_had(&KINDS);
        known.assert_had(&["GET between", "5 between", "6 between", "7 between", "14 between", "15 between", "a journal emptied between"]);
        known.assert_had(&["another answer, left", "another answer, right"]);
    }
}

/// Candidates that fill a block with the depths that it has: a full block; of one depth, one value, masks and a line; of two, a mask
/// and its opposite, whose spare bits are 1.
fn standing(random: &mut Random, block: Block, depths: &[u8]) -> Vec<Tried> {
    let (mut values, bits) = (depths.to_vec(), paper::packed(depths.iter().map(|depth| u8::from(*depth != depths[0]))));
    values.sort();
    values.dedup();
    let mut all = vec![random::full(depths)];
    let of = |kind: u32, values: [u8; 2], bytes: &[u8]| Tried { kind, values, bytes: Guarded::new(bytes, 0x3c), ..random::full(&[]) };
    match values[..] {
        [depth] => {
            all.push(of(1, [depth, random.byte()], &[]));
            all.push(of(3, [depth; 2], &random.bytes(bits.len())));
            all.push(of(3, [depth, random.byte()], &bits));
            if block.width > 1 && block.height > 1 {
                let (start, end) = random::line(random, block);
                all.push(Tried { start, end, ..of(2, [depth; 2], &[]) });
            }
        }
        [low, high] => {
            let (first, other) = if depths[0] == low { (low, high) } else { (high, low) };
            all.push(of(3, [first, other], &bits));
            all.push(of(3, [other, first], &bits.iter().map(|byte| !byte).collect::<Vec<u8>>()));
        }
        _ => (),
    }
    all
}

const NO_OP_SESSIONS: u64 = 2000;

/// SETs of the depths that a block has, by every kind of candidate that has them.
#[test]
fn random_no_op_sets() {
    let known = RefCell::new(Known::default());
    random::sessions("no-op", NO_OP_SESSIONS, |random, number| {
        let (scene, known) = (Scene::stark(random, number), &mut *known.borrow_mut());
        let (start, _) = begun(random, &scene);
        let mut run = Run::from(random, &start, 4 * (6 + scene.reference.len()));
        for _ in 0..3 {
            let Edit { view, block, tried } = Edit::any(random, &run.session);
            let mut no_ops = Vec::new();
            if random.once_in(2) {
                run.set(&Edit { view, block, tried: tried.clone() });
                no_ops.push(tried);
            }
            let depths = paper::depths_of(&run.settings, run.session.planes().depths[view as usize], block);
            no_ops.extend(standing(random, block, &depths));
            let several = depths.iter().any(|depth| *depth != depths[0]);
            for tried in no_ops {
                known.note(&format!("{} of {}", KINDS[tried.kind as usize], if several { "several depths" } else { "one depth" }), true);
                run.no_op(&Edit { view, block, tried });
            }
        }
    });
    if random::from_environment("LUPH_SESSIONS", NO_OP_SESSIONS) >= NO_OP_SESSIONS {
        let known = known.into_inner();
        known.assert_had(&["a full block of one depth", "one value of one depth", "a line of one depth", "a mask of one depth"]);
        known.assert_had(&["a full block of several depths", "a line of several depths", "a mask of several depths"]);
    }
}
