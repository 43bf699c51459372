//! Cases of document 01 and of the cards, beyond those that are proved: what is taken at each boundary, every refusal alone and before
//! the next, every kind of candidate, SETs taken back, MOVE, rows by gap and distance, and HOLES of given marks.
//!
//! Every case is printed with its calls and replies, and the lines are held to vectors/expected.txt, where a reader sees them side by
//! side. Every reply is also compared with the independent renderer, and a refused call must leave all that it was lent.

mod boundary;
mod paper;
mod random;

use luphwezane::{lent, Block, Candidate, Pictures, Point, Refusal, Report, Settings};
use random::{Guarded, GuardedPlanes, Tried};
use std::fmt::{Debug, Display};

const ROW: [u16; 4] = [10, 20, 30, 40];

/// A session over planes of `size`: OPEN, and then its turns.
struct Case {
    title: &'static str,
    size: (usize, usize),
    settings: Settings,
    pictures: [Vec<u16>; 3],
    journal: Vec<u32>,
    turns: Vec<Turn>,
}

/// A turn is a call, or a change by hand. CHECK and HOLES follow each.
enum Turn {
    Get(u32, Block, Tried),
    /// GET, and then SET of the same.
    Set(u32, Block, Tried),
    Back,
    /// MOVE to a seat, with a reference and with the journal or no words of it.
    Move(Box<Settings>, Vec<u16>, bool),
    Total(u64),
    /// The journal's word at an index.
    Word(usize, u32),
    /// Entry 1 of the left samples and of the combined picture.
    Samples(u16),
    Pictures([Vec<u16>; 3]),
}
use Turn::*;

/// Document 01's session: a row of four columns of depth 0, tables whose entry d is d, and a total that OPEN ignores.
fn row(title: &'static str) -> Case {
    let settings = Settings { total: 7, ..seat([0, 0], 255, 0, 255, 8, 1) };
    Case { title, size: (4, 1), settings, pictures: pictures(ROW, ROW, ROW), journal: vec![0; 128], turns: vec![] }
}

/// A picture of w × h, all white before a black reference.
fn large(title: &'static str, w: usize, h: usize) -> Case {
    let case = Case { size: (w, h), pictures: [vec![1023; w * h], vec![1023; w * h], vec![0; w * h]], ..row(title) };
    case.with(|s| (s.w, s.h) = (w as u32, h as u32))
}

/// Four rows of four columns.
fn square(title: &'static str) -> Case {
    let texture = [10, 200, 30, 400, 500, 60, 70, 8, 90, 1000, 110, 120, 13, 140, 650, 16];
    let reference = [10, 20, 30, 40, 50, 600, 70, 80, 9, 100, 110, 12, 130, 40, 15, 160];
    let case = Case { size: (4, 4), pictures: [texture.into(), texture.into(), reference.into()], ..row(title) };
    case.with(|s| (s.h, s.share) = (4, 16))
}

impl Case {
    fn with(mut self, change: impl Fn(&mut Settings)) -> Case {
        change(&mut self.settings);
        self
    }

    fn tear(self, gap: u8, distance: u8) -> Case {
        self.with(|s| (s.widest_gap, s.torn_distance) = (gap, distance))
    }

    fn over(self, pictures: [Vec<u16>; 3]) -> Case {
        Case { pictures, ..self }
    }

    fn journal(self, words: &[u32]) -> Case {
        Case { journal: words.into(), ..self }
    }

    fn turns(self, turns: impl Into<Vec<Turn>>) -> Case {
        Case { turns: turns.into(), ..self }
    }
}

fn pictures(left: [u16; 4], right: [u16; 4], reference: [u16; 4]) -> [Vec<u16>; 3] {
    [left, right, reference].map(Vec::from)
}

/// Settings with tables whose entry d is d and a shift, but for the last entry, which is 255 and in the right one `last`.
fn seat(shifts: [u16; 2], last: u16, share: u8, tolerance: u8, widest_gap: u8, torn_distance: u8) -> Settings {
    let table = |shift, last| std::array::from_fn(|d| if d < 255 { d as u16 + shift } else { last });
    let (left, right) = (table(shifts[0], 255), table(shifts[1], last));
    Settings { w: 4, h: 1, left, right, share, tolerance, widest_gap, torn_distance, total: 0 }
}

fn block(column: u32, row: u32, width: u32, height: u32) -> Block {
    Block { column, row, width, height }
}

/// GET of a depth for a column of the left view.
fn get(column: u32, depth: u8) -> Turn {
    Get(0, block(column, 0, 1, 1), random::full(&[depth]))
}

/// GET and SET of a depth for a column of a view.
fn set(view: u32, column: u32, depth: u8) -> Turn {
    Set(view, block(column, 0, 1, 1), random::full(&[depth]))
}

/// GET and SET of a block of any size at column 2, with any number of depths.
fn any(view: u32, width: u32, height: u32, count: usize) -> Turn {
    Set(view, block(2, 0, width, height), random::full(&vec![0; count]))
}

/// 6, 5 and 7 at once.
fn wrong() -> Turn {
    any(2, 0, 1, 1)
}

/// A block of a square from column 1 and row 1 on.
fn part(width: u32, height: u32) -> Block {
    block(1, 1, width, height)
}

fn full(depths: &[u8]) -> Turn {
    Set(0, part(3, 3), random::full(depths))
}

/// One value, with bytes beside it that are not looked at.
fn flat(view: u32, block: Block, value: u8, bytes: &[u8]) -> Turn {
    Set(view, block, Tried { kind: 1, values: [value, 0], ..random::full(bytes) })
}

fn line(view: u32, block: Block, from: (u32, u32), to: (u32, u32)) -> Turn {
    let [start, end] = [from, to].map(|(column, row)| Point { column, row });
    Set(view, block, Tried { kind: 2, values: [3, 8], start, end, ..random::full(&[]) })
}

fn mask(block: Block, bits: &[u8]) -> Turn {
    Set(0, block, Tried { kind: 3, values: [1, 9], ..random::full(bits) })
}

fn moves(to: Settings, reference: &[u16], lends: bool) -> Turn {
    Move(Box::new(to), reference.into(), lends)
}

#[rustfmt::skip]
fn cases() -> Vec<Case> {
    let bright = [10, 1023, 30, 40];
    let above = [10, 1024, 30, 40];
    let target = [10, 20, 1023, 40];
    let none = &[];
    const FAR: u32 = u32::MAX;
    vec![
        // The session of document 01 with k, l and m; 8, and 7 before it; holes of either view; the highest total; CHECK's reports.
        row("session").turns([
            get(2, 4), get(2, 5), set(0, 2, 4), get(2, 5), set(0, 2, 0), set(0, 2, 4),
            Total(0), set(0, 2, 0), any(0, 1, 1, 2), Total(136), set(0, 2, 5), set(0, 2, 0),
            set(1, 1, 5), set(1, 1, 0),
            Total(4186116), get(0, 0), Total(4186117), set(0, 0, 0), Total(1), get(0, 0), Samples(99),
        ]),

        // What is taken at the boundaries.
        large("w 4096", 4096, 1).turns([set(0, 4095, 4)]),
        large("h 4096", 1, 4096).turns([Set(0, block(0, 4095, 1, 1), random::full(&[4]))]),
        row("share 64").with(|s| s.share = 64).turns([set(0, 2, 4)]),
        row("left entry 1023").with(|s| s.left[255] = 1023).turns([set(0, 2, 255)]),
        row("right entry 1023").with(|s| s.right[255] = 1023).turns([set(1, 1, 255)]),

        // At the last turn the edge's column lies two past the block's and is the greater of two placed there, and the reply depends on it.
        row("near edge").turns([set(0, 2, 7), set(0, 3, 11), set(0, 1, 3), set(0, 1, 0)]),
        row("near edge, right").with(|s| s.share = 64).turns([set(1, 1, 7), set(1, 0, 11), set(1, 2, 3), set(1, 2, 0)]),

        // Samples of 1,023: OPEN takes no higher one, and the other calls read it as 1,023, but CHECK compares held ones as they are.
        row("samples 1023").with(|s| s.share = 32).over(pictures(bright, bright, target)).turns([set(1, 1, 4), set(0, 2, 4)]),
        row("samples raised after open").with(|s| s.share = 32).over(pictures(bright, bright, target))
            .turns([Pictures(pictures([10, 65535, 30, 40], above, [10, 20, 1024, 40])), set(1, 1, 4), set(0, 2, 4)]),
        row("held samples raised").with(|s| s.share = 32).over(pictures(bright, bright, target))
            .turns([get(2, 4), Samples(1024), set(1, 1, 4), set(0, 2, 4)]),
        row("left sample 1024").over(pictures(above, ROW, ROW)),
        row("right sample 1024").over(pictures(ROW, above, ROW)),
        row("reference sample 1024").over(pictures(ROW, ROW, [10, 20, 1024, 40])),
        row("4 before 21").with(|s| s.share = 65).over(pictures(above, ROW, ROW)).turns([wrong()]),

        // What every entry refuses.
        row("w 0").with(|s| s.w = 0).turns([set(0, 2, 4)]),
        row("h 0").with(|s| s.h = 0).turns([set(0, 2, 4)]),
        large("w 4097", 4096, 1).with(|s| s.w = 4097).turns([set(0, 2, 4)]),
        large("h 4097", 1, 4096).with(|s| s.h = 4097).turns([set(0, 2, 4)]),
        row("planes").with(|s| s.w = 9).turns([set(0, 2, 4)]),
        row("left entry 1024").with(|s| s.left[255] = 1024).turns([set(0, 2, 4)]),
        row("right entry 1024").with(|s| s.right[255] = 1024).turns([set(0, 2, 4)]),
        row("share 65").with(|s| s.share = 65).turns([set(0, 2, 4)]),
        row("view, block and candidate").turns([
            set(2, 2, 4), any(0, 0, 1, 0), any(0, 1, 0, 0), any(0, 3, 1, 3), any(1, 1, 2, 2), any(0, 2, 1, 1), any(1, 2, 1, 3), any(1, 2, 1, 2),
        ]),

        // Several conditions at once.
        row("1 before 2").with(|s| (s.w, s.left[255], s.share) = (0, 1024, 65)).turns([wrong()]),
        row("2 before 3").with(|s| (s.w, s.left[255], s.share) = (9, 1024, 65)).turns([wrong()]),
        row("3 before 4").with(|s| (s.right[255], s.share) = (1024, 65)).turns([wrong()]),
        row("4 before 6").with(|s| s.share = 65).turns([wrong()]),
        row("6 before 5, 5 before 7").turns([wrong(), any(0, 0, 1, 1)]),

        // A line from corner to corner, the same reversed, one between points that are no corners; a mask with spare bits 0 and 1.
        square("candidates").turns([
            line(0, part(3, 3), (0, 0), (2, 2)), line(0, part(3, 3), (2, 2), (0, 0)), line(1, block(0, 1, 4, 3), (1, 0), (2, 2)),
            flat(0, part(3, 3), 6, &[]), mask(part(3, 3), &[154, 1]), flat(0, part(3, 3), 6, &[6; 5]), mask(part(3, 3), &[154, 255]),
        ]),
        square("candidates in full").turns([
            full(&[3, 3, 3, 8, 3, 3, 8, 8, 3]), full(&[3, 8, 8, 3, 3, 8, 3, 3, 3]),
            Set(1, block(0, 1, 4, 3), random::full(&[8, 3, 3, 3, 8, 8, 3, 3, 8, 8, 3, 3])),
            full(&[6; 9]), full(&[1, 9, 1, 9, 9, 1, 1, 9, 9]), full(&[6; 9]), full(&[1, 9, 1, 9, 9, 1, 1, 9, 9]),
        ]),
        // 14 for a point inside or outside, a shared side, and a block of one row or column; 15 and 7 for the wrong number of bytes; 5
        // and 6 before 14 and 15, and 8 after them.
        square("candidates refused").turns([
            line(0, part(3, 3), (1, 1), (2, 2)), line(0, part(3, 3), (0, 0), (3, 2)), line(0, part(3, 3), (0, 0), (2, FAR)),
            line(0, part(3, 3), (FAR, FAR), (2, 2)), line(0, part(3, 3), (0, 0), (2, 0)), line(0, part(3, 3), (2, 0), (2, 1)),
            line(0, part(3, 1), (0, 0), (2, 0)), line(0, part(1, 3), (0, 0), (0, 2)),
            mask(part(3, 3), &[154]), mask(part(3, 3), &[154, 1, 0]), full(&[6; 8]),
            line(0, part(4, 3), (1, 1), (2, 2)), mask(part(4, 3), &[154]), line(2, part(3, 3), (1, 1), (2, 2)),
            Total(16744465), line(0, part(3, 3), (1, 1), (2, 2)), mask(part(3, 3), &[154]), line(0, part(3, 3), (0, 0), (2, 2)),
        ]),

        // Three records fill the journal and a fourth finds no room; two are taken back, the space of one is used again, and all are
        // taken back; one is left.
        row("take back").journal(&[9; 22]).turns([
            set(0, 2, 4), set(0, 2, 5), set(1, 1, 5), set(0, 2, 0), Back, Back, set(1, 1, 7), Back, Back, Back, set(0, 2, 4),
        ]),
        // The journal as that session left it. A depth above 255, then 8, which is last in TAKE BACK; a view above 1, after 8 in SET; a
        // depth that another wrote is taken as a SET of it would be.
        row("damaged").journal(&[1, 0, 0, 2, 0, 1, 1, 0, 1, 1, 1, 0, 1, 1, 0, 8, 1, 1, 0, 1, 1, 0]).turns([
            set(0, 2, 4), Word(7, 256), Back, Word(7, 5), Total(0), Back,
            Word(2, 2), Total(136), set(0, 2, 0), Total(0), set(0, 2, 0), Word(2, 0), Total(136), Back,
        ]),
        // The third block lies over the first.
        square("take back in both views").journal(&[9; 29])
            .turns([mask(part(2, 2), &[154]), flat(1, part(3, 1), 8, &[]), flat(0, part(1, 3), 3, &[]), Back, Back, Back]),
        row("word short").journal(&[9; 7]).turns([set(0, 2, 4)]),
        row("one record").journal(&[9; 8]).turns([set(0, 2, 4), set(0, 2, 5)]),
        row("no words").journal(none).turns([Back]),
        row("1 before 13").with(|s| s.w = 0).journal(none).turns([Back]),
        row("2 before 13").with(|s| s.w = 9).journal(none).turns([Back]),
        row("3 before 13").with(|s| s.right[255] = 1024).journal(none).turns([Back]),
        row("4 before 13").with(|s| s.share = 65).journal(none).turns([Back]),
        row("13 before 21").journal(none).over(pictures(above, ROW, ROW)),

        // The least and the greatest gap and distance, and 20 after 4 and before 6 and 13.
        row("gap 4, distance 0").tear(4, 0).turns([set(0, 2, 4), set(0, 3, 1)]),
        row("gap 64, distance 3").tear(64, 3).turns([set(0, 2, 5), set(0, 3, 3)]),
        row("gap 3").tear(3, 1).turns([set(0, 2, 0), Back]),
        row("gap 65").tear(65, 1).turns([set(0, 2, 0), Back]),
        row("distance 4").tear(8, 4).turns([set(0, 2, 0), Back]),
        row("4 before 20").with(|s| s.share = 65).tear(3, 1).turns([wrong()]),
        row("20 before 6").tear(3, 1).turns([wrong()]),
        row("20 before 13").tear(3, 1).journal(none).turns([set(0, 2, 0), Back]),

        // MOVE refused, each number before the next, after which the SET is taken back; then accepted twice, and nothing to take back.
        row("move").with(|s| s.share = 16).over(pictures([10, 200, 30, 400], [90, 60, 700, 8], ROW)).journal(&[9; 15]).turns([
            set(0, 2, 4),
            moves(seat([0, 0], 1024, 65, 3, 8, 1), &[10, 20, 30], true),
            moves(seat([0, 0], 1024, 65, 3, 8, 1), &ROW, true),
            moves(seat([0, 0], 255, 65, 3, 3, 1), &ROW, true),
            moves(seat([0, 0], 255, 64, 3, 3, 1), &ROW, false),
            moves(seat([0, 0], 255, 64, 3, 65, 1), &ROW, true),
            moves(seat([0, 0], 255, 64, 3, 8, 4), &ROW, true),
            moves(seat([1, 2], 255, 24, 3, 4, 3), &[10, 20, 1024, 40], false),
            moves(seat([1, 2], 255, 24, 3, 4, 3), &[10, 20, 1024, 40], true),
            Back, set(0, 2, 5), set(1, 1, 7),
            moves(seat([1, 2], 255, 24, 3, 4, 3), &[12, 90, 300, 41], true),
            Back, set(0, 1, 3), Back, set(1, 0, 3),
            moves(seat([3, 0], 1023, 48, 255, 64, 0), &[12, 90, 300, 41], true),
            Back,
        ]),
        // It is judged by w, h and what is new.
        row("w 0, move").with(|s| s.w = 0).turns([moves(seat([3, 0], 1023, 48, 255, 64, 0), &ROW, true)]),
        row("3, 4 and 20, move").with(|s| (s.left[255], s.share) = (1024, 65)).tear(3, 4)
            .turns([moves(seat([3, 0], 1023, 48, 255, 64, 0), &ROW, true)]),
    ]
}

/// All that the calls of a session are lent.
#[derive(Clone, PartialEq)]
struct Held {
    title: &'static str,
    settings: Settings,
    pictures: [Vec<u16>; 3],
    planes: GuardedPlanes,
    journal: Vec<u32>,
}

fn lend([left, right, reference]: &[Vec<u16>; 3]) -> Pictures<'_> {
    Pictures { textures: [left, right], reference }
}

/// An answer where the number is 0, else the refusal of that number.
fn unless<T>(number: u32, answer: impl FnOnce() -> T) -> Result<T, Refusal> {
    Refusal::from_number(number).map_or_else(|| Ok(answer()), Err)
}

impl Held {
    /// Makes a call, whose reply is the expected one. A refused call writes nothing.
    fn call<T>(&mut self, expected: Result<T, Refusal>, call: impl FnOnce(&mut Held) -> Result<T, Refusal>) -> Result<T, Refusal>
    where
        T: PartialEq + Debug,
    {
        let before = self.clone();
        let answer = call(self);
        assert_eq!(answer, expected, "{}: the independent renderer replies otherwise", self.title);
        assert!(answer.is_ok() || *self == before, "{}: a refused call wrote", self.title);
        assert!(self.planes.are_intact(), "{}: a guard was written", self.title);
        answer
    }

    /// How the total changes where the block has the candidate, or 8.
    fn change(&self, view: u32, block: Block, candidate: Candidate) -> Result<i64, Refusal> {
        let (now, pictures) = (self.planes.shared().depths, lend(&self.pictures));
        let next = paper::written(&self.settings, now, view as usize, block, candidate);
        let total = |depths| paper::drawing(&self.settings, &pictures, depths).total as i64;
        let change = total([&next[0], &next[1]]) - total(now);
        unless(if paper::total_is_taken(&self.settings, change) { 0 } else { 8 }, || change)
    }

    fn open(&mut self) -> Result<(), Refusal> {
        let number = paper::open_number(&self.settings, &lend(&self.pictures), &self.planes.shared(), &self.journal);
        self.call(unless(number, || ()), |held| {
            lent::open(&mut held.settings, &lend(&held.pictures), &mut held.planes.lent(), &mut held.journal)
        })
    }

    fn get(&mut self, view: u32, block: Block, tried: &Tried) -> Result<i64, Refusal> {
        let number = paper::call_number(&self.settings, &lend(&self.pictures), &self.planes.shared(), view, block, tried.candidate());
        let expected = unless(number, || self.change(view, block, tried.candidate())).and_then(|change| change);
        self.call(expected, |held| boundary::get(&held.settings, &lend(&held.pictures), &held.planes.shared(), view, block, tried))
    }

    /// SET of what GET answered.
    fn set(&mut self, tried: (u32, Block, &Tried), answered: Result<i64, Refusal>) -> Result<i64, Refusal> {
        let (view, block, tried) = tried;
        let expected = answered.and_then(|change| unless(paper::journal_number(&self.settings, &self.journal, block), || change));
        self.call(expected, |held| {
            let (pictures, planes) = (lend(&held.pictures), &mut held.planes.lent());
            boundary::set(&mut held.settings, &pictures, planes, &mut held.journal, view, block, tried)
        })
    }

    fn take_back(&mut self) -> Result<i64, Refusal> {
        let number = paper::take_back_number(&self.settings, &lend(&self.pictures), &self.planes.shared(), &self.journal);
        let newest = || paper::newest(&self.settings, &self.journal);
        let expected = unless(number, newest).and_then(|r| self.change(r.view, r.block, Candidate::Full(&r.depths)));
        self.call(expected, |held| {
            boundary::take_back(&mut held.settings, &lend(&held.pictures), &mut held.planes.lent(), &mut held.journal)
        })
    }

    /// MOVE; the reference is the session's where it is accepted.
    fn move_seat(&mut self, to: &Settings, reference: &[u16], words: usize) -> Result<(), Refusal> {
        let pictures = [self.pictures[0].clone(), self.pictures[1].clone(), reference.into()];
        let number = paper::move_number(&self.settings, to, &lend(&pictures), &self.planes.shared(), &self.journal[..words]);
        self.call(unless(number, || ()), |held| {
            let (planes, journal) = (&mut held.planes.lent(), &mut held.journal[..words]);
            boundary::move_seat(&mut held.settings, &lend(&pictures), planes, journal, to)?;
            held.pictures = pictures;
            Ok(())
        })
    }

    fn check(&mut self) -> Result<Report, Refusal> {
        let planes = self.planes.shared();
        let number = paper::common_number(&self.settings, &lend(&self.pictures), &planes);
        let expected = unless(number, || {
            let fresh = paper::drawing(&self.settings, &lend(&self.pictures), planes.depths);
            paper::report(&self.settings, &fresh, &planes)
        });
        self.call(expected, |held| lent::check(&held.settings, &lend(&held.pictures), &held.planes.shared()))
    }
}

fn listed<T: Display>(entries: &[T]) -> String {
    entries.iter().map(|entry| format!(" {entry}")).collect()
}

fn number<T>(answer: Result<T, Refusal>) -> u32 {
    answer.map_or_else(Refusal::number, |_| 0)
}

fn changed(answer: Result<i64, Refusal>) -> String {
    answer.map_or_else(|refusal| refusal.number().to_string(), |change| format!("0 change {change}"))
}

fn holes(settings: &Settings, view: u32, marks: [&[u8]; 2]) -> String {
    let answer = lent::holes(settings, view, marks);
    assert_eq!(answer, unless(paper::holes_number(settings, view, marks), || paper::holes(settings, marks[view as usize])));
    answer.map_or_else(|refusal| format!("refused {}", refusal.number()), |count| count.to_string())
}

fn asked(view: u32, block: Block, tried: &Tried) -> String {
    let (Block { column, row, width, height }, Tried { start, end, .. }) = (block, tried);
    let (bytes, values) = (listed(tried.bytes.entries()), listed(&tried.values));
    let candidate = match tried.kind {
        0 => format!("full{bytes}"),
        1 if bytes.is_empty() => format!("flat {}", tried.values[0]),
        1 => format!("flat {} bytes{bytes}", tried.values[0]),
        2 => format!("line {} {} {} {} values{values}", start.column, start.row, end.column, end.row),
        _ => format!("mask values{values} bytes{bytes}"),
    };
    format!("view {view} block {column} {row} {width} {height} {candidate}")
}

fn seated(to: &Settings, reference: &[u16], lends: bool) -> String {
    let Settings { left, right, share, tolerance, widest_gap, torn_distance, .. } = to;
    let numbers = format!("share {share} tolerance {tolerance} gap {widest_gap} distance {torn_distance}");
    let tables = format!("left {} {} right {} {}", left[0], left[255], right[0], right[255]);
    format!("move {tables} {numbers} reference{}{}", listed(reference), if lends { "" } else { " no words" })
}

/// A turn and its replies; a change by hand has none.
fn played(held: &mut Held, turn: &Turn) -> String {
    match turn {
        Get(view, block, tried) => format!("{}: get {}", asked(*view, *block, tried), changed(held.get(*view, *block, tried))),
        Set(view, block, tried) => {
            let get = held.get(*view, *block, tried);
            let set = held.set((*view, *block, tried), get);
            format!("{}: get {} set {} total {}", asked(*view, *block, tried), changed(get), changed(set), held.settings.total)
        }
        Back => format!("take back: {} total {}", changed(held.take_back()), held.settings.total),
        Move(to, reference, lends) => {
            let words = if *lends { held.journal.len() } else { 0 };
            let number = number(held.move_seat(to, reference, words));
            let combined = if number == 0 { format!(" combined{}", listed(held.planes.combined.entries())) } else { String::new() };
            format!("{}: {number} total {}{combined}", seated(to, reference, *lends), held.settings.total)
        }
        Total(total) => {
            held.settings.total = *total;
            format!("total {total} by hand:")
        }
        Word(at, word) => {
            held.journal[*at] = *word;
            format!("word {at} {word} by hand:")
        }
        Samples(sample) => {
            let GuardedPlanes { samples: [left, _], combined, .. } = &mut held.planes;
            (left.entries_mut()[1], combined.entries_mut()[1]) = (*sample, *sample);
            format!("samples {sample} by hand:")
        }
        Pictures(pictures) => {
            held.pictures = pictures.clone();
            let [left, right, reference] = pictures.each_ref().map(|picture| listed(picture));
            format!("left{left} right{right} reference{reference} by hand:")
        }
    }
}

/// Planes of w × h in which every entry is 0.
fn zeros(w: usize, h: usize) -> GuardedPlanes {
    let (area, marks) = (w * h, w.div_ceil(8) * h);
    let bytes = |n: usize| [(); 2].map(|()| Guarded::new(&vec![0; n], 0xa5));
    let samples = || Guarded::new(&vec![0; area], 0xa5a5);
    let limits = [(); 2].map(|()| Guarded::new(&vec![0; area], -23206));
    GuardedPlanes {
        depths: bytes(area),
        samples: [samples(), samples()],
        fronts: bytes(area),
        limits,
        marks: bytes(marks),
        combined: samples(),
    }
}

/// A session's lines. Of the journal of a case that is not about it nothing is printed.
fn session(Case { title, size: (w, h), settings, pictures, journal, turns }: Case) -> Vec<String> {
    let mut held = Held { title, settings, pictures, planes: zeros(w, h), journal };
    let words = |held: &Held| if held.journal.len() < 128 { format!(" words{}", listed(&held.journal)) } else { String::new() };
    let number = number(held.open());
    let mut lines = vec![format!("{title}: open {number} total {}{}", held.settings.total, words(&held))];
    for turn in &turns {
        let replies = played(&mut held, turn);
        let check = match held.check() {
            Ok(Report::Sound) => "sound".into(),
            Ok(Report::Difference { row, column }) => format!("row {row} column {column}"),
            Ok(Report::Total) => "total".into(),
            Err(refusal) => refusal.number().to_string(),
        };
        let view = if let Get(view, ..) | Set(view, ..) = turn { *view } else { 0 };
        let holes = holes(&held.settings, view, held.planes.shared().marks);
        lines.push(format!("  {replies} check {check} holes {holes}{}", words(&held)));
    }
    if w > 1 && h > 1 {
        let [left, right] = held.planes.shared().depths.map(listed);
        lines.push(format!("  left depths{left} right depths{right}"));
    }
    lines
}

/// RENDER of a row, with what it drew of a short one.
fn strip(title: &str, settings: &Settings, view: u32, texture: &[u16], depths: &[u8]) -> String {
    let (w, bytes) = (depths.len(), depths.len().div_ceil(8));
    let (mut samples, mut marks, mut fronts) = (vec![0; w], vec![0; bytes], vec![0; w]);
    let answer = lent::render(settings, view, texture, depths, &mut samples, &mut marks, &mut fronts);
    let expected = unless(paper::render_number(settings, view, [texture.len(), w, w, w], bytes), || {
        let pixels = paper::drawn_row(settings, view as usize, texture, depths).pixels;
        let marks = paper::packed(pixels.iter().map(|x| x.mark));
        (pixels.iter().map(|x| x.sample).collect(), marks, pixels.iter().map(|x| x.front).collect())
    });
    let drawn = (samples.clone(), marks.clone(), fronts.clone());
    assert_eq!((answer, drawn), (expected.clone().map(|_| ()), expected.unwrap_or((vec![0; w], vec![0; bytes], vec![0; w]))), "{title}");
    let [samples, marks, fronts] = [listed(&samples), listed(&marks), listed(&fronts)];
    let shown = if w > 4 { String::new() } else { format!(" samples{samples} marks{marks} fronts{fronts}") };
    format!("{title}: render {}{shown}", number(answer))
}

/// Rows of four columns, what is taken and what is refused, and the order of the refusals.
#[rustfmt::skip]
fn rows() -> Vec<String> {
    let usual = row("").settings;
    let with = |change: fn(&mut Settings)| row("").with(change).settings;
    let strips = [
        strip("row g", &usual, 0, &ROW, &[0, 0, 5, 0]),
        strip("row e", &usual, 1, &ROW, &[2; 4]),
        strip("row k 1", &usual, 0, &ROW, &[1; 4]),
        strip("row k 1, right", &usual, 1, &ROW, &[1; 4]),
        strip("row k 3", &usual, 0, &ROW, &[3; 4]),
        strip("row k 3, right", &usual, 1, &ROW, &[3; 4]),
        strip("row near edge", &usual, 0, &ROW, &[0, 0, 7, 0]),
        strip("row near edge, right", &usual, 1, &ROW, &[0, 7, 0, 0]),
        strip("row w 4096", &with(|s| s.w = 4096), 1, &[1023; 4096], &[0; 4096]),
        strip("row h 0, share 65", &with(|s| (s.h, s.right[255], s.share) = (0, 1023, 65)), 0, &ROW, &[2; 4]),
        strip("row w 0", &with(|s| s.w = 0), 0, &ROW, &[2; 4]),
        strip("row w 4097", &with(|s| s.w = 4097), 0, &[1023; 4096], &[0; 4096]),
        strip("row planes", &with(|s| s.w = 5), 0, &ROW, &[2; 4]),
        strip("row left entry 1024", &with(|s| s.left[255] = 1024), 1, &ROW, &[2; 4]),
        strip("row right entry 1024", &with(|s| s.right[255] = 1024), 0, &ROW, &[2; 4]),
        strip("row view 2", &usual, 2, &ROW, &[2; 4]),
        strip("row samples 1024", &usual, 0, &[10, 1024, 30, 65535], &[0; 4]),
        strip("row samples 1024, k 2", &usual, 0, &[10, 1024, 30, 65535], &[2; 4]),
        strip("row samples 1024, k 2, right", &usual, 1, &[10, 1024, 30, 65535], &[2; 4]),
        strip("row 1 before 2", &with(|s| (s.w, s.left[255]) = (0, 1024)), 2, &ROW, &[2; 4]),
        strip("row 2 before 3", &with(|s| (s.w, s.left[255]) = (5, 1024)), 2, &ROW, &[2; 4]),
        strip("row 3 before 6", &with(|s| s.left[255] = 1024), 2, &ROW, &[2; 4]),
        strip("row gap 3", &with(|s| (s.share, s.widest_gap) = (65, 3)), 0, &ROW, &[2; 4]),
        strip("row gap 65", &with(|s| (s.share, s.widest_gap) = (65, 65)), 1, &ROW, &[2; 4]),
        strip("row distance 4", &with(|s| (s.share, s.torn_distance) = (65, 4)), 0, &ROW, &[2; 4]),
        strip("row 3 before 20", &with(|s| (s.right[255], s.widest_gap) = (1024, 3)), 0, &ROW, &[2; 4]),
        strip("row 20 before 6", &with(|s| (s.share, s.widest_gap) = (65, 3)), 2, &ROW, &[2; 4]),
    ];
    // At the widest smooth gap and one beyond, at the distance and one beyond, between columns and in the last one, and at a near edge,
    // whose 1 stays.
    let tears = [
        (4, 1, [1, 1, 1, 0]), (4, 0, [1, 1, 1, 0]), (5, 0, [1, 1, 1, 0]), (8, 1, [0, 0, 4, 0]), (9, 1, [0, 0, 5, 0]), (64, 1, [0, 0, 60, 0]),
        (64, 1, [0, 0, 61, 0]), (4, 0, [0, 0, 5, 1]), (4, 1, [0, 0, 5, 1]), (4, 1, [0, 0, 6, 2]), (4, 3, [0, 0, 7, 3]), (4, 3, [0, 0, 8, 4]),
        (8, 0, [0, 0, 7, 0]), (8, 3, [0, 0, 6, 0]),
    ];
    let torn = tears.into_iter().flat_map(|(gap, distance, depths)| {
        let (settings, title) = (row("").tear(gap, distance).settings, format!("row gap {gap} distance {distance} depths{}", listed(&depths)));
        [strip(&title, &settings, 0, &ROW, &depths), strip("  right", &settings, 1, &ROW, &paper::reversed(&depths))]
    });
    strips.into_iter().chain(torn).collect()
}

/// HOLES of rows with and without whole words and a tail: every bit 1 in the left view, the last of each byte in the right, spare bits
/// too.
fn marks() -> Vec<String> {
    let line = |(w, h): (usize, usize)| {
        let [left, right] = [255, 128].map(|byte| vec![byte; w.div_ceil(8) * h]);
        let settings = row("").with(|s| (s.w, s.h) = (w as u32, h as u32)).settings;
        let [left, right] = [0, 1].map(|view| holes(&settings, view, [&left, &right]));
        format!("marks w {w} h {h}: holes {left} right {right}")
    };
    [(7, 1), (63, 1), (64, 1), (65, 1), (83, 2), (88, 2)].map(line).into()
}

#[test]
fn every_case() {
    let lines = [cases().into_iter().flat_map(session).collect(), rows(), marks()].concat();
    let expected: Vec<&str> = include_str!("vectors/expected.txt").lines().collect();
    for k in 0..lines.len().max(expected.len()) {
        let (printed, expected) = (lines.get(k).map(String::as_str), expected.get(k).copied());
        assert!(printed == expected, "line {} of expected.txt\n expected {expected:?}\n  printed {printed:?}", k + 1);
        println!("{}", lines[k]);
    }
}
