//! Safe functions over the symbols of the static library. All unsafe code of the crate is here.
//!
//! The library takes a slice as a pointer and then a length, and `Settings`, `Block` and a candidate's `Shape` by value; GET,
//! the hot call, takes the settings field by field and the tables, of 256 entries each, by a pointer. It answers the
//! refusal's number, 0 where the call is accepted. It is proved for every length and every content, so that what is
//! left to show for each call below is that the pointers are of slices that live through the call, that a slice lent for
//! writing overlaps no other, and that `symbols` declares what the library exports. The first two follow from the borrows;
//! the last is seen by tests/exports.rs, which compares the texts.

mod symbols;

use crate::{Block, Candidate, Pictures, Planes, PlanesMut, Point, Refusal, Regions, Report, Settings};
use symbols::*;

/// A candidate as the library takes it: its shape, and the bytes that its kind has.
#[inline(always)]
fn parts(candidate: Candidate<'_>) -> (Shape, &[u8]) {
    const CORNER: Point = Point { column: 0, row: 0 };
    match candidate {
        Candidate::Full(depths) => (Shape { kind: 0, value: [0; 2], start: CORNER, end: CORNER }, depths),
        Candidate::Flat(value) => (Shape { kind: 1, value: [value, 0], start: CORNER, end: CORNER }, &[]),
        Candidate::Regions { values, regions: Regions::Line { start, end } } => (Shape { kind: 2, value: values, start, end }, &[]),
        Candidate::Regions { values, regions: Regions::Mask(bits) } => (Shape { kind: 3, value: values, start: CORNER, end: CORNER }, bits),
    }
}

#[inline]
fn accepted<T>(number: u32, answer: T) -> Result<T, Refusal> {
    match number {
        0 => Ok(answer),
        _ => Err(Refusal::from_number(number).expect("the library answers 0 or a refusal's number")),
    }
}

/// RENDER: draws one row of one view, with that view's table, into samples, packed marks and front depths.
///
/// Texture, depths, samples and fronts have `settings.w` entries, marks (w + 7) / 8 bytes; h, share, tolerance and
/// total are not looked at. A texture entry above 1,023 is read as 1,023. View 0 is left, view 1 right. Refuses 1 (by w
/// alone), 2, 3, 20, then 6.
#[rustfmt::skip]
pub fn render(
    settings: &Settings, view: u32, texture: &[u16], depths: &[u8], samples: &mut [u16], marks: &mut [u8], fronts: &mut [u8],
) -> Result<(), Refusal> {
    // SAFETY: see above.
    let number = unsafe {
        luph_raw_render(
            *settings, view, texture.as_ptr(), texture.len(), depths.as_ptr(), depths.len(),
            samples.as_mut_ptr(), samples.len(), marks.as_mut_ptr(), marks.len(), fronts.as_mut_ptr(), fronts.len(),
        )
    };
    accepted(number, ())
}

/// OPEN: draws both views from pictures and depths into the held planes, writes the total into the settings and empties the
/// journal: its word 0 becomes 0.
///
/// The total passed in is ignored, and so is what the journal holds; the depths are only read. Refuses 1, 2, 3, 4, 20, 13 (a
/// journal of no words), then 21: a texture or reference entry above 1,023.
#[rustfmt::skip]
pub fn open(settings: &mut Settings, pictures: &Pictures, planes: &mut PlanesMut, journal: &mut [u32]) -> Result<(), Refusal> {
    let Pictures { textures: [lt, rt], reference } = pictures;
    let PlanesMut { depths: [ld, rd], samples: [ls, rs], fronts: [lf, rf], limits: [ll, rl], marks: [lm, rm], combined } = planes;
    let mut total = 0;
    // SAFETY: see above.
    let number = unsafe {
        luph_raw_open(
            *settings, lt.as_ptr(), lt.len(), rt.as_ptr(), rt.len(), reference.as_ptr(), reference.len(),
            ld.as_ptr(), ld.len(), rd.as_ptr(), rd.len(),
            ls.as_mut_ptr(), ls.len(), lf.as_mut_ptr(), lf.len(), ll.as_mut_ptr(), ll.len(), lm.as_mut_ptr(), lm.len(),
            rs.as_mut_ptr(), rs.len(), rf.as_mut_ptr(), rf.len(), rl.as_mut_ptr(), rl.len(), rm.as_mut_ptr(), rm.len(),
            combined.as_mut_ptr(), combined.len(), journal.as_mut_ptr(), journal.len(), &mut total,
        )
    };
    settings.total = accepted(number, total)?;
    Ok(())
}

/// MOVE: moves the seat. Tables, share, tolerance, widest gap and torn distance of `to` become those of the settings, and the
/// reference of `pictures` is the session's from then on; w, h and total of `to` are not looked at.
///
/// All rows of both views and the combined picture are drawn again over the depths as they stand, the new total is written into
/// the settings, and the journal is emptied: its word 0 becomes 0, and no SET before can be taken back. The textures are the
/// session's. The depths are only read; what the held planes and the journal hold is not looked at.
///
/// Refuses as [`open`] does, judged by w and h of `settings` and by what is new: 1, 2, 3, 4, 20, 13 (a journal of no words),
/// then 21. A refused MOVE leaves the session as it was, with the reference that it had.
#[rustfmt::skip]
pub fn move_seat(
    settings: &mut Settings, pictures: &Pictures, planes: &mut PlanesMut, journal: &mut [u32], to: &Settings,
) -> Result<(), Refusal> {
    let Pictures { textures: [lt, rt], reference } = pictures;
    let PlanesMut { depths: [ld, rd], samples: [ls, rs], fronts: [lf, rf], limits: [ll, rl], marks: [lm, rm], combined } = planes;
    let mut total = 0;
    // SAFETY: see above.
    let number = unsafe {
        luph_raw_move(
            *settings, *to, lt.as_ptr(), lt.len(), rt.as_ptr(), rt.len(), reference.as_ptr(), reference.len(),
            ld.as_ptr(), ld.len(), rd.as_ptr(), rd.len(),
            ls.as_mut_ptr(), ls.len(), lf.as_mut_ptr(), lf.len(), ll.as_mut_ptr(), ll.len(), lm.as_mut_ptr(), lm.len(),
            rs.as_mut_ptr(), rs.len(), rf.as_mut_ptr(), rf.len(), rl.as_mut_ptr(), rl.len(), rm.as_mut_ptr(), rm.len(),
            combined.as_mut_ptr(), combined.len(), journal.as_mut_ptr(), journal.len(), &mut total,
        )
    };
    let total = accepted(number, total)?;
    *settings = Settings { w: settings.w, h: settings.h, total, ..*to };
    Ok(())
}

/// GET: how the total would change if the block of the view's depths were the candidate. Nothing is written.
///
/// Where the call is passed what [`lent`](crate::lent) asks for, a block of one column and one row moves the total by no more than
/// the bound in the text of [`Session::get`](crate::Session::get). The bound follows from the view's table, the depth that stands
/// there, the candidate's depth, the depth of the column before and the limit of the next column.
///
/// Samples above 1,023, of the pictures and of the planes, are read as 1,023. View 0 is left, view 1 right. Refuses 1, 2, 3, 4,
/// 20, 6, 5, then by the candidate's kind 7 (a full block), 14 (a line) or 15 (a mask), then 8.
#[rustfmt::skip]
#[inline]
pub fn get(
    settings: &Settings, pictures: &Pictures, planes: &Planes, view: u32, block: Block, candidate: Candidate,
) -> Result<i64, Refusal> {
    let Pictures { textures: [lt, rt], reference } = pictures;
    let Planes { depths: [ld, rd], samples: [ls, rs], fronts: [lf, rf], limits: [ll, rl], marks: [lm, rm], combined } = planes;
    let (shape, bytes) = parts(candidate);
    let mut change = 0;
    // SAFETY: see above.
    let number = unsafe {
        luph_raw_get(
            settings.w, settings.h, settings.left.as_ptr(), settings.right.as_ptr(), settings.share, settings.tolerance,
            settings.widest_gap, settings.torn_distance, settings.total,
            lt.as_ptr(), lt.len(), rt.as_ptr(), rt.len(), reference.as_ptr(), reference.len(),
            ld.as_ptr(), ld.len(), rd.as_ptr(), rd.len(),
            ls.as_ptr(), ls.len(), lf.as_ptr(), lf.len(), ll.as_ptr(), ll.len(), lm.as_ptr(), lm.len(),
            rs.as_ptr(), rs.len(), rf.as_ptr(), rf.len(), rl.as_ptr(), rl.len(), rm.as_ptr(), rm.len(),
            combined.as_ptr(), combined.len(), view, block, shape, bytes.as_ptr(), bytes.len(), &mut change,
        )
    };
    accepted(number, change)
}

/// SET: writes the candidate into the block, brings the held planes up to date, saves the depths that were there in the
/// journal, in 6 + width × height words, answers the change, and writes the new total into the settings.
///
/// Where the calls are passed what [`lent`](crate::lent) asks for, SETs whose blocks share no position of the same view may be made
/// in any order, one after the other: depths, held planes and total are the same in the end, and the answers add up to the same sum,
/// though a single answer may depend on the order. The journals differ: their records stand in the order of the calls. A SET of the
/// depths that the block has answers 0 there, writes its record, and leaves depths, held planes and total as they are.
///
/// Reads samples and refuses as [`get`] does, then 13 and 11. Every word of the journal's chain is examined: [`keep`] a journal
/// whose SETs need not be taken back.
#[rustfmt::skip]
pub fn set(
    settings: &mut Settings, pictures: &Pictures, planes: &mut PlanesMut, journal: &mut [u32], view: u32, block: Block,
    candidate: Candidate,
) -> Result<i64, Refusal> {
    let Pictures { textures: [lt, rt], reference } = pictures;
    let PlanesMut { depths: [ld, rd], samples: [ls, rs], fronts: [lf, rf], limits: [ll, rl], marks: [lm, rm], combined } = planes;
    let (shape, bytes) = parts(candidate);
    let (mut change, mut total) = (0, 0);
    // SAFETY: see above.
    let number = unsafe {
        luph_raw_set(
            *settings, lt.as_ptr(), lt.len(), rt.as_ptr(), rt.len(), reference.as_ptr(), reference.len(),
            ld.as_mut_ptr(), ld.len(), rd.as_mut_ptr(), rd.len(),
            ls.as_mut_ptr(), ls.len(), lf.as_mut_ptr(), lf.len(), ll.as_mut_ptr(), ll.len(), lm.as_mut_ptr(), lm.len(),
            rs.as_mut_ptr(), rs.len(), rf.as_mut_ptr(), rf.len(), rl.as_mut_ptr(), rl.len(), rm.as_mut_ptr(), rm.len(),
            combined.as_mut_ptr(), combined.len(), journal.as_mut_ptr(), journal.len(),
            view, block, shape, bytes.as_ptr(), bytes.len(), &mut change, &mut total,
        )
    };
    settings.total = accepted(number, total)?;
    Ok(change)
}

/// TAKE BACK: writes the depths of the journal's newest record into its block as a SET of them would, and gives word 0 of the
/// journal the index of the record before. Answers the change and writes the new total into the settings as that SET would;
/// nothing is saved.
///
/// Reads samples as [`get`] does. Refuses 1, 2, 3, 4, 20, 13, 12, then 8.
#[rustfmt::skip]
pub fn take_back(
    settings: &mut Settings, pictures: &Pictures, planes: &mut PlanesMut, journal: &mut [u32],
) -> Result<i64, Refusal> {
    let Pictures { textures: [lt, rt], reference } = pictures;
    let PlanesMut { depths: [ld, rd], samples: [ls, rs], fronts: [lf, rf], limits: [ll, rl], marks: [lm, rm], combined } = planes;
    let (mut change, mut total) = (0, 0);
    // SAFETY: see above.
    let number = unsafe {
        luph_raw_take_back(
            *settings, lt.as_ptr(), lt.len(), rt.as_ptr(), rt.len(), reference.as_ptr(), reference.len(),
            ld.as_mut_ptr(), ld.len(), rd.as_mut_ptr(), rd.len(),
            ls.as_mut_ptr(), ls.len(), lf.as_mut_ptr(), lf.len(), ll.as_mut_ptr(), ll.len(), lm.as_mut_ptr(), lm.len(),
            rs.as_mut_ptr(), rs.len(), rf.as_mut_ptr(), rf.len(), rl.as_mut_ptr(), rl.len(), rm.as_mut_ptr(), rm.len(),
            combined.as_mut_ptr(), combined.len(), journal.as_mut_ptr(), journal.len(), &mut change, &mut total,
        )
    };
    settings.total = accepted(number, total)?;
    Ok(change)
}

/// Empties a journal, so that the SETs in it stay and the next ones find a short chain: word 0, where there is one, becomes 0.
pub fn keep(journal: &mut [u32]) {
    if let Some(newest) = journal.first_mut() {
        *newest = 0;
    }
}

/// CHECK: compares every held entry with a fresh drawing of the depths. Nothing is written.
///
/// The fresh drawing reads texture and reference entries above 1,023 as 1,023; held samples are compared as they are.
/// Refuses 1, 2, 3, 4, 20.
#[rustfmt::skip]
pub fn check(settings: &Settings, pictures: &Pictures, planes: &Planes) -> Result<Report, Refusal> {
    let Pictures { textures: [lt, rt], reference } = pictures;
    let Planes { depths: [ld, rd], samples: [ls, rs], fronts: [lf, rf], limits: [ll, rl], marks: [lm, rm], combined } = planes;
    let (mut kind, mut row, mut column) = (0, 0, 0);
    // SAFETY: see above.
    let number = unsafe {
        luph_raw_check(
            *settings, lt.as_ptr(), lt.len(), rt.as_ptr(), rt.len(), reference.as_ptr(), reference.len(),
            ld.as_ptr(), ld.len(), rd.as_ptr(), rd.len(),
            ls.as_ptr(), ls.len(), lf.as_ptr(), lf.len(), ll.as_ptr(), ll.len(), lm.as_ptr(), lm.len(),
            rs.as_ptr(), rs.len(), rf.as_ptr(), rf.len(), rl.as_ptr(), rl.len(), rm.as_ptr(), rm.len(),
            combined.as_ptr(), combined.len(), &mut kind, &mut row, &mut column,
        )
    };
    accepted(number, ())?;
    Ok(match kind {
        0 => Report::Sound,
        1 => Report::Difference { row, column },
        2 => Report::Total,
        _ => unreachable!("the library reports kinds 0 to 2"),
    })
}

/// HOLES: counts the chosen view's marks of 1 at columns below w. `marks` are the left and the right view's.
///
/// View 0 is left, view 1 right. Refuses 1, 2, then 6.
pub fn holes(settings: &Settings, view: u32, marks: [&[u8]; 2]) -> Result<u64, Refusal> {
    let [left, right] = marks;
    let mut count = 0;
    // SAFETY: see above.
    let number = unsafe { luph_raw_holes(*settings, view, left.as_ptr(), left.len(), right.as_ptr(), right.len(), &mut count) };
    accepted(number, count)
}
