//! Candidates (card 6), in the card's words and without the independent renderer: every line and every mask of small blocks, the
//! order of the refusals, and blocks up to the whole picture. What the changes must be, the random sessions compare.

mod boundary;
mod paper;
mod random;

use luphwezane::{lent, Block, Candidate, Pictures, Point, Refusal, Report, Session, Settings, View};
use random::{Guarded, GuardedPlanes, Random, Tried};

/// A session of w × h over a texture that no shift leaves as it is; entry d of the tables is d div 16.
fn session(w: u32, h: u32) -> Session {
    let table = std::array::from_fn(|d| d as u16 / 16);
    let settings = Settings { w, h, left: table, right: table, share: 20, tolerance: 8, widest_gap: 8, torn_distance: 1, total: 0 };
    let area = w as usize * h as usize;
    let texture: Vec<u16> = (0..area).map(|at| (at * at % 1021) as u16).collect();
    let pictures = Pictures { textures: [&texture, &texture], reference: &texture };
    Session::open(&settings, &pictures, [&vec![90; area], &vec![90; area]]).expect("OPEN accepts it")
}

fn block(column: u32, row: u32, width: u32, height: u32) -> Block {
    Block { column, row, width, height }
}

fn points(side: u32) -> impl Iterator<Item = Point> + Clone {
    (0..side).flat_map(move |row| (0..side).map(move |column| Point { column, row }))
}

/// The points of the four sides of a block: its first and last column, its first and last row.
fn sides(width: u32, height: u32) -> [Vec<Point>; 4] {
    let column = |column: u32| (0..height).map(|row| Point { column, row }).collect();
    let row = |row: u32| (0..width).map(|column| Point { column, row }).collect();
    [column(0), column(width - 1), row(0), row(height - 1)]
}

/// The depth of a position after a line: (end column − start column) × (row − start row) − (end row − start row) × (column −
/// start column) above 0 is region 1.
fn depth_by_line(start: Point, end: Point, values: [u8; 2], column: u32, row: u32) -> u8 {
    let [ec, er, sc, sr, c, r] = [end.column, end.row, start.column, start.row, column, row].map(i64::from);
    if (ec - sc) * (r - sr) - (er - sr) * (c - sc) > 0 {
        values[1]
    } else {
        values[0]
    }
}

/// GET, then SET, of a candidate that is taken: both answer alike, the block has these depths by rows, and nothing else has
/// changed. What is set is kept.
fn set(session: &mut Session, view: View, at: Block, candidate: Candidate, depth: impl Fn(u32, u32) -> u8) {
    let w = session.settings().w as usize;
    let mut expected = session.planes().depths.map(<[u8]>::to_vec);
    for row in 0..at.height {
        for column in 0..at.width {
            expected[view as usize][(at.row + row) as usize * w + (at.column + column) as usize] = depth(column, row);
        }
    }
    let total = session.total() as i64;
    let change = session.get(view, at, candidate).unwrap_or_else(|refusal| panic!("{candidate:?} in {at:?}: {refusal}"));
    assert_eq!(session.set(view, at, candidate), Ok(change));
    assert_eq!(session.total() as i64, total + change);
    assert!(session.planes().depths == [&expected[0][..], &expected[1][..]], "{candidate:?} in {at:?} filled other depths");
    session.keep();
}

/// Every two points with coordinates up to 6, in every block up to 5 × 5: 14 unless each lies on a side and no side has both,
/// and every position of the accepted ones.
#[test]
fn every_small_line() {
    for (width, height) in points(5).map(|size| (size.column + 1, size.row + 1)) {
        let (mut session, at, sides) = (session(7, 6), block(1, 1, width, height), sides(width, height));
        let on = |point: Point| sides.iter().filter(move |side| side.contains(&point));
        let mut taken = 0;
        for (start, end) in points(7).flat_map(|start| points(7).map(move |end| (start, end))) {
            let border = on(start).count() > 0 && on(end).count() > 0;
            let shared = sides.iter().any(|side| side.contains(&start) && side.contains(&end));
            let values = [(16 * start.column + end.row) as u8, 255 - (16 * end.column + start.row) as u8];
            let candidate = Candidate::line(start, end, values);
            if border && !shared {
                set(&mut session, View::Left, at, candidate, |column, row| depth_by_line(start, end, values, column, row));
                taken += 1;
            } else {
                assert_eq!(session.get(View::Left, at, candidate), Err(Refusal::Line), "{candidate:?} in {at:?}");
                assert_eq!(session.set(View::Left, at, candidate), Err(Refusal::Line), "{candidate:?} in {at:?}");
            }
        }
        assert_eq!(taken > 0, width > 1 && height > 1, "a block of {width} × {height} has {taken} lines");
        assert_eq!(session.check(), Report::Sound);
    }
}

/// Exchanged ends make the positions on the line, where the product is 0, region 0 both times, and the others change sides.
#[test]
fn exchanged_ends() {
    let (mut session, at) = (session(5, 5), block(0, 0, 5, 5));
    let (start, end) = (Point { column: 0, row: 0 }, Point { column: 4, row: 4 });
    session.set(View::Right, at, Candidate::line(start, end, [10, 20])).expect("SET accepts it");
    let below = session.planes().depths[1].to_vec();
    session.set(View::Right, at, Candidate::line(end, start, [10, 20])).expect("SET accepts it");
    for (k, (&there, &back)) in below.iter().zip(session.planes().depths[1]).enumerate() {
        let (column, row) = (k % 5, k / 5);
        let expected = if column == row { (10, 10) } else { (if row > column { 20 } else { 10 }, if row > column { 10 } else { 20 }) };
        assert_eq!((there, back), expected, "column {column}, row {row}");
    }
}

/// Points far outside, up to the greatest number, beside one that would make a line with a corner.
#[test]
fn points_far_outside() {
    let mut session = session(6, 6);
    let far =
        [6, 7, 255, 256, 4095, 4096, 65535, 65536, 65541, (1 << 31) - 1, 1 << 31, (1 << 31) + 5, u32::MAX - 5, u32::MAX - 1, u32::MAX];
    for at in [block(0, 0, 6, 6), block(2, 1, 2, 3)] {
        let (first, last) = (Point { column: 0, row: 0 }, Point { column: at.width - 1, row: at.height - 1 });
        set(&mut session, View::Left, at, Candidate::line(first, last, [1, 2]), |c, r| depth_by_line(first, last, [1, 2], c, r));
        for far in far {
            for (start, end) in [
                (first, Point { column: far, ..last }),
                (first, Point { row: far, ..last }),
                (Point { column: far, ..first }, last),
                (Point { row: far, ..first }, last),
                (first, Point { column: far, row: far }),
                (Point { column: far, row: far }, Point { column: far, row: far }),
                (Point { column: far, row: 0 }, Point { column: 0, row: far }),
            ] {
                let candidate = Candidate::line(start, end, [1, 2]);
                assert_eq!(session.get(View::Left, at, candidate), Err(Refusal::Line), "{candidate:?}");
                assert_eq!(session.set(View::Left, at, candidate), Err(Refusal::Line), "{candidate:?}");
            }
        }
    }
}

/// Every mask of every block of up to 12 positions, in which spare bits have every pattern, and every length up to 4 bytes.
#[test]
fn every_small_mask() {
    for (width, height) in points(12).map(|size| (size.column + 1, size.row + 1)).filter(|(width, height)| width * height <= 12) {
        let (mut session, at) = (session(12, 12), block(12 - width, 12 - height, width, height));
        let bytes = if width * height <= 8 { 1 } else { 2 };
        for pattern in 0..1_u32 << (8 * bytes) {
            let (bits, values) = (pattern.to_le_bytes(), [40, pattern as u8 % 40]);
            let depth = |column, row| values[(pattern >> (row * width + column) & 1) as usize];
            set(&mut session, View::Left, at, Candidate::mask(&bits[..bytes], values), depth);
        }
        for wrong in (0..5).filter(|&length| length != bytes) {
            let candidate = Candidate::mask(&[255; 5][..wrong], [1, 2]);
            assert_eq!(session.get(View::Left, at, candidate), Err(Refusal::Mask), "{wrong} bytes in {at:?}");
            assert_eq!(session.set(View::Left, at, candidate), Err(Refusal::Mask), "{wrong} bytes in {at:?}");
        }
        assert_eq!(session.check(), Report::Sound);
    }
}

/// The least change of a mask, one bit, at every position of blocks whose rows end within a byte.
#[test]
fn every_bit_of_wider_masks() {
    for (width, height) in [(64, 1), (65, 3), (1, 100), (100, 2), (13, 17), (127, 1), (128, 2)] {
        let (mut session, at) = (session(width + 3, height + 1), block(2, 1, width, height));
        let area = width * height;
        for bit in 0..area.div_ceil(8) * 8 {
            let mut bits = vec![0; area.div_ceil(8) as usize];
            bits[bit as usize / 8] = 1 << (bit % 8);
            set(
                &mut session,
                View::Right,
                at,
                Candidate::mask(&bits, [3, 250]),
                |column, row| {
                    if row * width + column == bit {
                        250
                    } else {
                        3
                    }
                },
            );
        }
        assert_eq!(session.check(), Report::Sound);
    }
}

/// Each value of 0 to 255 as one value, in region 0 and in region 1.
#[test]
fn every_value() {
    let (mut session, at) = (session(4, 4), block(1, 0, 3, 3));
    let (start, end) = (Point { column: 0, row: 2 }, Point { column: 2, row: 0 });
    for value in 0..=255 {
        set(&mut session, View::Left, at, Candidate::Flat(value), |_, _| value);
        for values in [[value, 0], [0, value], [value, value], [value, !value]] {
            set(&mut session, View::Left, at, Candidate::line(start, end, values), |c, r| depth_by_line(start, end, values, c, r));
            let odd = |column: u32, row: u32| values[((row * 3 + column) % 2) as usize];
            set(&mut session, View::Right, at, Candidate::mask(&[0b1010_1010, 0], values), odd);
        }
    }
    assert_eq!(session.check(), Report::Sound);
}

/// Blocks as wide as the widest picture, and wider than 64.
#[test]
fn wide_blocks() {
    for (w, h, at) in [
        (4096, 2, block(0, 0, 4096, 2)),
        (4096, 2, block(0, 1, 4096, 1)),
        (2, 4096, block(0, 0, 2, 4096)),
        (70, 3, block(2, 0, 65, 3)),
        (128, 5, block(20, 1, 100, 4)),
        (67, 66, block(0, 0, 67, 66)),
        (600, 400, block(0, 0, 600, 400)),
    ] {
        let mut session = session(w, h);
        set(&mut session, View::Left, at, Candidate::Flat(77), |_, _| 77);
        let area = at.width as usize * at.height as usize;
        let bits: Vec<u8> = (0..area.div_ceil(8)).map(|k| (k * 151 + k / 7) as u8).collect();
        let by_mask = |column: u32, row: u32| {
            let k = (row * at.width + column) as usize;
            [200, 100][usize::from(bits[k / 8] & 1 << (k % 8) != 0)]
        };
        set(&mut session, View::Right, at, Candidate::mask(&bits, [200, 100]), by_mask);
        let (right, lower) = (at.width - 1, at.height - 1);
        let [a, b, c, d] = [(0, 0), (right, lower), (right, 0), (0, lower)].map(|(column, row)| Point { column, row });
        let (above, below) = (Point { column: right / 3, row: 0 }, Point { column: right / 2, row: lower });
        for (start, end) in [(a, b), (b, a), (c, d), (d, c), (above, below), (below, above), (a, below), (above, c)] {
            let candidate = Candidate::line(start, end, [20, 90]);
            let on_side = |a: u32, b: u32, last: u32| a == b && (a == 0 || a == last);
            if on_side(start.column, end.column, right) || on_side(start.row, end.row, lower) {
                assert_eq!(session.get(View::Left, at, candidate), Err(Refusal::Line));
            } else {
                set(&mut session, View::Left, at, candidate, |c, r| depth_by_line(start, end, [20, 90], c, r));
            }
        }
        assert_eq!(session.check(), Report::Sound);
    }
}

/// The largest block there is, and a line and a mask over it.
#[test]
fn the_largest_block() {
    let (mut session, at) = (session(4096, 4096), block(0, 0, 4096, 4096));
    let (start, end) = (Point { column: 4095, row: 4095 }, Point { column: 0, row: 1 });
    set(&mut session, View::Left, at, Candidate::line(start, end, [10, 30]), |c, r| depth_by_line(start, end, [10, 30], c, r));
    let bits: Vec<u8> = (0..4096 * 512).map(|k| (k + k / 512) as u8).collect();
    let by_mask = |c: u32, r: u32| [30, 10][usize::from(bits[(r * 512 + c / 8) as usize] >> (c % 8) & 1)];
    set(&mut session, View::Left, at, Candidate::mask(&bits, [30, 10]), by_mask);
    for wrong in [bits.len() - 1, 4096 * 4096] {
        assert_eq!(session.get(View::Left, at, Candidate::mask(&vec![0; wrong], [30, 10])), Err(Refusal::Mask));
    }
}

/// A call of the library over planes of its own, for refusals that no `Session` has.
struct Call {
    settings: Settings,
    texture: Vec<u16>,
    planes: GuardedPlanes,
    view: u32,
    block: Block,
}

impl Call {
    fn new() -> Call {
        let mut settings = *session(8, 4).settings();
        let (texture, depths) = (vec![500; 32], [7; 32]);
        let mut planes = GuardedPlanes::new(&mut Random::new(1, 0), 8, 4, [&depths, &depths]);
        let pictures = Pictures { textures: [&texture, &texture], reference: &texture };
        lent::open(&mut settings, &pictures, &mut planes.lent(), &mut [0]).expect("OPEN accepts it");
        Call { settings, texture, planes, view: 0, block: block(1, 1, 4, 3) }
    }

    /// What GET answers; SET with an empty journal that has room must answer the same.
    fn number(&self, candidate: &Tried) -> u32 {
        let pictures = Pictures { textures: [&self.texture, &self.texture], reference: &self.texture };
        let answer = boundary::get(&self.settings, &pictures, &self.planes.shared(), self.view, self.block, candidate);
        let (mut settings, mut planes, mut journal) = (self.settings, self.planes.clone(), [0; 64]);
        let set = boundary::set(&mut settings, &pictures, &mut planes.lent(), &mut journal, self.view, self.block, candidate);
        assert_eq!(set, answer);
        if let Some(known) = candidate.known() {
            assert_eq!(lent::get(&self.settings, &pictures, &self.planes.shared(), self.view, self.block, known), answer);
        }
        if answer.is_err() {
            assert!((settings, &planes, journal) == (self.settings, &self.planes, [0; 64]), "a refused SET wrote");
        }
        answer.map_or_else(Refusal::number, |_| 0)
    }
}

/// 7, 14 and 15, by the candidate's kind, stand after 1, 2, 3, 4, 20, 6 and 5 and before 8; one value has nothing there.
#[test]
fn the_order_of_refusals() {
    let (first, last, inside) = (Point { column: 0, row: 0 }, Point { column: 3, row: 2 }, Point { column: 1, row: 1 });
    let tried = |kind: u32, end: Point, bytes: &[u8]| Tried { kind, values: [9, 8], start: first, end, bytes: Guarded::new(bytes, 0x77) };
    let candidates = [
        (tried(0, last, &[5; 12]), 0),
        (tried(1, inside, &[]), 0),
        (tried(2, last, &[]), 0),
        (tried(3, inside, &[5; 2]), 0),
        (tried(0, last, &[5; 11]), 7),
        (tried(0, last, &[5; 13]), 7),
        (tried(0, last, &[5; 2]), 7),
        (tried(2, inside, &[5; 12]), 14),
        (tried(3, last, &[5; 1]), 15),
        (tried(3, last, &[5; 3]), 15),
        (tried(3, last, &[5; 12]), 15),
        (tried(3, last, &[]), 15),
        (tried(4, last, &[5; 12]), 7),
        (tried(5, last, &[5; 2]), 7),
        (tried(256, last, &[5; 12]), 7),
        (tried(259, last, &[5; 2]), 7),
        (tried(u32::MAX, last, &[5; 12]), 7),
    ];
    for (candidate, own) in &candidates {
        let mut call = Call::new();
        assert_eq!(call.number(candidate), *own, "{candidate:?}");
        // Each of these is refused before those above it.
        call.settings.total = u64::MAX;
        assert_eq!(call.number(candidate), if *own == 0 { 8 } else { *own }, "{candidate:?}");
        call.block.column = 5;
        assert_eq!(call.number(candidate), 5, "{candidate:?}");
        call.view = 2;
        assert_eq!(call.number(candidate), 6, "{candidate:?}");
        call.settings.widest_gap = 65;
        assert_eq!(call.number(candidate), 20, "{candidate:?}");
        call.settings.share = 65;
        assert_eq!(call.number(candidate), 4, "{candidate:?}");
        call.settings.right[9] = 1024;
        assert_eq!(call.number(candidate), 3, "{candidate:?}");
        call.texture.push(0);
        assert_eq!(call.number(candidate), 2, "{candidate:?}");
        call.settings.h = 0;
        assert_eq!(call.number(candidate), 1, "{candidate:?}");
    }
}

/// A block of no width or height is refused with 5, whatever the candidate says of it.
#[test]
fn empty_blocks() {
    let mut call = Call::new();
    let (start, end) = (Point { column: 0, row: 0 }, Point { column: u32::MAX, row: u32::MAX });
    for empty in [block(0, 0, 0, 0), block(0, 0, 0, 4), block(0, 0, 8, 0), block(8, 4, 0, 0)] {
        call.block = empty;
        for kind in [0, 1, 2, 3, 4] {
            for bytes in [&[][..], &[1]] {
                let candidate = Tried { kind, values: [1, 2], start, end, bytes: Guarded::new(bytes, 0x77) };
                assert_eq!(call.number(&candidate), 5, "{candidate:?} in {empty:?}");
            }
        }
    }
}
