//! What a caller of the Rust crate sees besides the answers: refusals as errors, and a session's planes.

use luphwezane::{Block, Candidate, Pictures, Point, Refusal, Regions, Report, Session, Settings, View, GREATEST_SAMPLE};
use std::error::Error;
use std::mem::{align_of, offset_of, size_of};

#[test]
fn refusals_have_numbers_and_words() {
    let refusals = [
        (Refusal::Size, 1, "refused (1): w or h is outside 1 to 4,096"),
        (Refusal::Plane, 2, "refused (2): a plane does not have its exact length"),
        (Refusal::Table, 3, "refused (3): a disparity is above 1,023"),
        (Refusal::Share, 4, "refused (4): the share is above 64"),
        (Refusal::Bounds, 5, "refused (5): the block is empty or reaches past an edge"),
        (Refusal::View, 6, "refused (6): the view is neither 0 nor 1"),
        (Refusal::Candidate, 7, "refused (7): the full block does not have width × height depths"),
        (Refusal::Total, 8, "refused (8): the total would leave its range"),
        (Refusal::JournalFull, 11, "refused (11): the journal has no room for the record"),
        (Refusal::NothingToTakeBack, 12, "refused (12): there is nothing to take back"),
        (Refusal::Journal, 13, "refused (13): the journal has no words or a record that cannot be right"),
        (Refusal::Line, 14, "refused (14): the line does not join two border points of the block that have no side in common"),
        (Refusal::Mask, 15, "refused (15): the mask does not have (width × height + 7) / 8 bytes"),
        (Refusal::Gap, 20, "refused (20): the widest gap is outside 4 to 64 or the torn distance above 3"),
        (Refusal::Sample, 21, "refused (21): a texture or reference sample is above 1,023"),
    ];
    assert_eq!(Refusal::ALL, refusals.map(|(refusal, ..)| refusal));
    for (refusal, number, words) in refusals {
        assert_eq!((refusal.number(), Refusal::from_number(number)), (number, Some(refusal)));
        assert_eq!(refusal.to_string(), words);
        let error: Box<dyn Error + Send + Sync> = refusal.into();
        assert_eq!(error.to_string(), words);
    }
    for number in [0, 9, 10, 16, 19, 22, 263, 267, 276, 277, u32::MAX] {
        assert_eq!(Refusal::from_number(number), None);
    }
}

/// What is passed by value has the layout that the C header gives it.
#[test]
fn layouts_and_constants() {
    assert_eq!((size_of::<Settings>(), align_of::<Settings>()), (1048, 8));
    assert_eq!([offset_of!(Settings, w), offset_of!(Settings, h), offset_of!(Settings, left), offset_of!(Settings, right)], [0, 4, 8, 520]);
    assert_eq!([offset_of!(Settings, share), offset_of!(Settings, tolerance), offset_of!(Settings, total)], [1032, 1033, 1040]);
    assert_eq!([offset_of!(Settings, widest_gap), offset_of!(Settings, torn_distance)], [1034, 1035]);
    assert_eq!((size_of::<Block>(), align_of::<Block>()), (16, 4));
    assert_eq!((size_of::<Point>(), align_of::<Point>()), (8, 4));
    assert_eq!([offset_of!(Point, column), offset_of!(Point, row)], [0, 4]);
    assert_eq!(GREATEST_SAMPLE, 1023);
}

fn session() -> Session {
    let table = std::array::from_fn(|d| d as u16);
    let (share, tolerance, widest_gap, torn_distance) = (32, 0, 8, 1);
    let settings = Settings { w: 9, h: 2, left: table, right: table, share, tolerance, widest_gap, torn_distance, total: 0 };
    let texture: Vec<u16> = (0..18).map(|x| 50 * x).collect();
    let pictures = Pictures { textures: [&texture, &texture], reference: &texture };
    Session::open(&settings, &pictures, [&[0; 18], &[0; 18]]).expect("OPEN accepts it")
}

#[test]
fn a_session_refuses_5_7_14_and_15_and_stays() {
    let mut session = session();
    let block = |column, row, width, height| Block { column, row, width, height };
    for wrong in [block(8, 0, 2, 1), block(0, 1, 1, 2), block(0, 0, 0, 1), block(0, 0, 1, 0), block(u32::MAX, 0, 1, 1)] {
        for candidate in [Candidate::Full(&[0, 0]), Candidate::Flat(0), Candidate::mask(&[0], [0; 2])] {
            assert_eq!(session.get(View::Left, wrong, candidate), Err(Refusal::Bounds));
            assert_eq!(session.set(View::Right, wrong, candidate), Err(Refusal::Bounds));
        }
    }
    assert_eq!(session.get(View::Left, block(0, 0, 2, 1), Candidate::Full(&[0])), Err(Refusal::Candidate));
    assert_eq!(session.set(View::Left, block(0, 0, 2, 1), Candidate::Full(&[])), Err(Refusal::Candidate));
    let line = Candidate::line(Point { column: 0, row: 0 }, Point { column: 0, row: 1 }, [1, 2]);
    assert_eq!(session.get(View::Left, block(0, 0, 2, 2), line), Err(Refusal::Line));
    assert_eq!(session.set(View::Left, block(0, 0, 2, 2), line), Err(Refusal::Line));
    assert_eq!(session.get(View::Left, block(0, 0, 9, 1), Candidate::mask(&[0], [1, 2])), Err(Refusal::Mask));
    assert_eq!(session.set(View::Left, block(0, 0, 9, 1), Candidate::mask(&[0; 3], [1, 2])), Err(Refusal::Mask));
    assert_eq!((session.total(), session.check()), (0, Report::Sound));
    assert_eq!(session.take_back(), Err(Refusal::NothingToTakeBack), "a refused SET does not stand");
}

/// SETs are taken back one by one, the newest first, up to the last `keep`.
#[test]
fn sets_are_taken_back() {
    let mut session = session();
    let opening = session.planes().combined.to_vec();
    let block = |column, row, width, height| Block { column, row, width, height };
    let mut changes = Vec::new();
    for (k, view) in [View::Left, View::Right, View::Left].into_iter().enumerate() {
        changes.push(session.set(view, block(k as u32, 0, 6, 2), Candidate::Flat(30 + 9 * k as u8)).expect("SET accepts it"));
    }
    assert_eq!(session.total() as i64, changes.iter().sum::<i64>());
    let mut copy = session.clone();
    for change in changes.iter().rev() {
        assert_eq!(session.take_back(), Ok(-change));
        assert_eq!(session.check(), Report::Sound);
    }
    assert_eq!((session.total(), session.planes().combined), (0, &opening[..]));
    assert_eq!(session.planes().depths, [[0; 18]; 2]);
    for _ in 0..2 {
        assert_eq!(session.take_back(), Err(Refusal::NothingToTakeBack));
    }

    // The copy has the SETs of its own.
    assert_eq!(copy.take_back(), Ok(-changes[2]));
    copy.keep();
    let kept = copy.planes().depths.map(<[u8]>::to_vec);
    assert_eq!(copy.take_back(), Err(Refusal::NothingToTakeBack));
    let change = copy.set(View::Right, block(8, 1, 1, 1), Candidate::Flat(255)).expect("SET accepts it");
    assert_eq!(copy.take_back(), Ok(-change));
    assert_eq!(copy.planes().depths, [&kept[0][..], &kept[1][..]]);
    assert_eq!(copy.take_back(), Err(Refusal::NothingToTakeBack));
    assert_eq!((copy.total() as i64, copy.check()), (changes[0] + changes[1], Report::Sound));
}

/// A session that moves has a copy of the new reference, stays sound and keeps what was set; refused, it stays as it was, with the
/// reference that it had.
#[test]
fn a_session_moves() {
    let mut session = session();
    let at = Block { column: 2, row: 0, width: 5, height: 2 };
    session.set(View::Left, at, Candidate::Flat(6)).expect("SET accepts it");
    let (before, total) = (session.clone(), session.total());
    let there = *session.settings();
    let reference: Vec<u16> = (0..18).map(|x| 40 * x).collect();
    let high: Vec<u16> = (0..18).map(|x| if x == 17 { GREATEST_SAMPLE + 1 } else { 40 * x }).collect();
    let mut wrong_tables = there.left;
    wrong_tables[255] = 1024;
    let refused = [
        (there, &reference[1..], Refusal::Plane),
        (Settings { right: wrong_tables, share: 65, ..there }, &reference[..], Refusal::Table),
        (Settings { share: 65, widest_gap: 3, ..there }, &high, Refusal::Share),
        (Settings { widest_gap: 3, ..there }, &high, Refusal::Gap),
        (Settings { torn_distance: 4, ..there }, &high, Refusal::Gap),
        (Settings { w: 0, h: 5000, ..there }, &high, Refusal::Sample),
    ];
    for (to, reference, refusal) in refused {
        assert_eq!(session.move_seat(&to, reference), Err(refusal));
        assert_eq!((session.settings(), session.check()), (&there, Report::Sound));
        assert_eq!(session.pictures().reference, before.pictures().reference);
        assert_eq!(session.planes().combined, before.planes().combined);
    }
    assert_eq!(session.clone().take_back(), Ok(-(total as i64)), "a refused MOVE empties nothing");

    let to = Settings { w: 1, h: 1, left: [3; 256], right: [0; 256], share: 1, tolerance: 2, widest_gap: 64, torn_distance: 3, total: 5 };
    assert_eq!(session.move_seat(&to, &reference), Ok(()));
    assert_eq!(session.settings(), &Settings { w: 9, h: 2, total: session.total(), ..to });
    assert_eq!((session.pictures().reference, session.check()), (&reference[..], Report::Sound));
    assert_eq!(session.planes().depths, before.planes().depths);
    assert_eq!(session.take_back(), Err(Refusal::NothingToTakeBack));
    let fresh = Session::open(session.settings(), &session.pictures(), session.planes().depths).expect("OPEN accepts it");
    assert_eq!((fresh.total(), fresh.planes().combined), (session.total(), session.planes().combined));

    // SETs after it can be taken back, and it can move to its own settings.
    let change = session.set(View::Right, at, Candidate::Flat(90)).expect("SET accepts it");
    assert_eq!(session.take_back(), Ok(-change));
    let own = *session.settings();
    assert_eq!(session.move_seat(&own, &reference), Ok(()));
    assert_eq!((session.settings(), session.check()), (&own, Report::Sound));
}

/// Between SETs that find room come some that are refused by every number, of small blocks and of huge ones: each leaves the
/// session as it was, and what is taken back after all of them is what was set.
#[test]
fn a_session_makes_room() {
    let mut session = session();
    let block = |column, row, width, height| Block { column, row, width, height };
    let (corner, level) = (Point { column: 0, row: 0 }, Point { column: 8, row: 0 });
    let refused = [
        (block(0, 0, u32::MAX, u32::MAX), Candidate::Flat(1), Refusal::Bounds),
        (block(1, 0, 9, 2), Candidate::Flat(1), Refusal::Bounds),
        (block(0, 0, 9, u32::MAX), Candidate::Full(&[]), Refusal::Bounds),
        (block(0, 0, 0, 2), Candidate::Full(&[]), Refusal::Bounds),
        (block(8, 1, 1, 1), Candidate::Full(&[1, 2]), Refusal::Candidate),
        (block(0, 0, 9, 2), Candidate::Full(&[1; 17]), Refusal::Candidate),
        (block(8, 1, 1, 1), Candidate::line(corner, corner, [1, 2]), Refusal::Line),
        (block(0, 0, 9, 2), Candidate::line(corner, level, [1, 2]), Refusal::Line),
        (block(8, 1, 1, 1), Candidate::mask(&[], [1, 2]), Refusal::Mask),
        (block(0, 0, 9, 2), Candidate::mask(&[1; 4], [1, 2]), Refusal::Mask),
    ];
    for (k, width) in [1, 9, 2, 9, 9, 3].into_iter().enumerate() {
        session.set(View::Left, block(0, 0, width, 2), Candidate::Flat(k as u8)).expect("SET accepts it");
        let before = session.clone();
        for (block, candidate, refusal) in refused {
            assert_eq!(session.set(View::Left, block, candidate), Err(refusal), "{block:?}");
            assert_eq!(session.get(View::Left, block, candidate), Err(refusal), "{block:?}");
            assert_eq!((session.settings(), session.planes().depths), (before.settings(), before.planes().depths));
        }
        assert_eq!(session.check(), Report::Sound);
    }
    let firsts: Vec<u8> = (0..6).map(|_| session.take_back().map(|_| session.planes().depths[0][0]).expect("it stands")).collect();
    assert_eq!(firsts, [4, 3, 2, 1, 0, 0]);
    assert_eq!(session.take_back(), Err(Refusal::NothingToTakeBack));
}

/// A candidate is small, can be copied and compared, and is a value that a constant may have.
#[test]
fn candidates_are_values() {
    const LINE: Candidate = Candidate::line(Point { column: 0, row: 3 }, Point { column: 7, row: 0 }, [10, 20]);
    const MASK: Candidate = Candidate::mask(&[0x0f], [30, 40]);
    let Candidate::Regions { values, regions } = LINE else { panic!("a line has two regions") };
    assert_eq!((values, regions), ([10, 20], Regions::Line { start: Point { column: 0, row: 3 }, end: Point { column: 7, row: 0 } }));
    assert_eq!(MASK, Candidate::Regions { values: [30, 40], regions: Regions::Mask(&[0x0f]) });
    assert_ne!(MASK, Candidate::mask(&[0x0f], [40, 30]));
    let mut session = session();
    let block = Block { column: 0, row: 0, width: 8, height: 1 };
    for candidate in [MASK, Candidate::Flat(7), Candidate::Full(&[7; 8])] {
        assert_eq!(session.get(View::Left, block, candidate), session.set(View::Left, block, candidate));
    }
    assert_eq!(session.planes().depths[0][..9], [7, 7, 7, 7, 7, 7, 7, 7, 0]);
    assert!(format!("{LINE:?}").starts_with("Regions { values: [10, 20], regions: Line {"));
    assert!(size_of::<Candidate>() <= 40);
}

#[test]
fn every_plane_can_be_read() {
    let mut session = session();
    session.set(View::Left, Block { column: 8, row: 1, width: 1, height: 1 }, Candidate::Full(&[9])).expect("SET accepts it");
    let planes = session.planes();
    assert_eq!(planes.depths[0][17], 9);
    assert_eq!(planes.depths[1], [0; 18]);
    assert_eq!(planes.fronts[0][16], 9);
    assert_eq!(planes.limits[0][17], 23);
    assert_eq!(planes.limits[1][9], 32);
    assert_eq!(planes.marks[0], [0, 0, 128, 1]);
    assert_eq!(planes.samples[0][17], 850);
    assert_eq!((planes.combined.len(), session.pictures().reference.len()), (18, 18));
    assert!(session.is_hole(View::Left, 7, 1) && session.is_hole(View::Left, 8, 1));
    assert!(!session.is_hole(View::Left, 6, 1) && !session.is_hole(View::Left, 8, 0) && !session.is_hole(View::Right, 8, 1));
    assert_eq!((session.holes(View::Left), session.holes(View::Right)), (2, 0));
    assert_eq!(session.settings().total, session.total());
}

#[test]
#[should_panic(expected = "column 9, row 0 is outside 9 × 2")]
fn a_hole_outside_the_picture_is_a_mistake() {
    session().is_hole(View::Left, 9, 0);
}

#[test]
fn sessions_can_be_copied_and_sent() {
    let mut session = session();
    let copy = session.clone();
    session.set(View::Right, Block { column: 3, row: 0, width: 2, height: 2 }, Candidate::Flat(40)).expect("SET accepts it");
    let check = std::thread::spawn(move || copy.check());
    assert_eq!(check.join().expect("the thread ends"), Report::Sound);
    assert_eq!(session.check(), Report::Sound);
    assert!(format!("{session:?}").starts_with("Session { w: 9, h: 2, total: "));
}
