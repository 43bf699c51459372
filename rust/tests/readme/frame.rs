//! What the Rust text of README.md uses, and what it must leave. The text takes the place of the line READMETEXT.
//!
//! The left view's depths are 60 but for a block of 8 × 8 with a line in it. The pictures to be seen, from the middle and from nearer
//! to the right camera, are drawn from these depths. So a session that begins without the block has a total of 0 when its line is
//! set and is worse without it, and the total is still 0 after the seat has moved.

use luphwezane::{Block, Candidate, Pictures, Point, Refusal, Report, Session, Settings, View};

const W: usize = 32;
const H: usize = 24;

/// The left view's depths, with the line or without. It parts each row of the block between columns 3 and 5.
fn depths(with_line: bool) -> Vec<u8> {
    let in_block = |at: usize| with_line && (16..24).contains(&(at % W)) && (8..16).contains(&(at / W));
    let side = |x: i32, y: i32| if 2 * y > 7 * (x - 3) { 90 } else { 40 };
    (0..W * H).map(|at| if in_block(at) { side((at % W) as i32 - 16, (at / W) as i32 - 8) } else { 60 }).collect()
}

fn readme() -> Result<(), Refusal> {
    let table: [u16; 256] = std::array::from_fn(|d| d as u16 / 4);
    let settings = Settings {
        w: W as u32,
        h: H as u32,
        left: table,
        right: table,
        share: 32,
        tolerance: 255,
        widest_gap: 8,
        torn_distance: 1,
        total: 0,
    };
    let there = Settings { left: table.map(|x| x + x / 2), right: table.map(|x| x - x / 2), share: 48, ..settings };
    let left: Vec<u16> = (0..W * H).map(|at| (at * at * 37 % 1021) as u16).collect();
    let right = left.clone();
    let (left_depths, right_depths) = (depths(false), vec![60; W * H]);
    let seen = |settings: &Settings| {
        let session = Session::open(settings, &Pictures { textures: [&left, &right], reference: &left }, [&depths(true), &right_depths])?;
        Ok(session.planes().combined.to_vec())
    };
    let (reference, seen_there) = (seen(&settings)?, seen(&there)?);

    READMETEXT

    assert_eq!((session.total(), session.check()), (0, Report::Sound));
    assert!(session.planes().depths == [&depths(true)[..], &right_depths], "the line is set");
    assert!(session.settings() == &there && session.pictures().reference == seen_there, "the seat has moved");
    assert_eq!(session.take_back(), Err(Refusal::NothingToTakeBack));
    Ok(())
}

fn main() {
    readme().expect("no call of README.md is refused");
}
