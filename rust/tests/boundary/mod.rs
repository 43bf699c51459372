//! GET, SET, TAKE BACK and MOVE through the library's own symbols: a candidate of any kind, as a C program may pass it, and answers
//! that a refused call must leave alone.
#![allow(dead_code)] // each test program uses its own part

#[path = "../../src/raw/symbols.rs"]
mod symbols;

use crate::random::Tried;
use luphwezane::{Block, Pictures, Planes, PlanesMut, Point, Refusal, Settings};
use symbols::*;

impl Shape {
    fn of(candidate: &Tried) -> Shape {
        Shape { kind: candidate.kind, value: candidate.values, start: candidate.start, end: candidate.end }
    }
}

/// What a refused call must leave in its answers.
const UNTOUCHED: (i64, u64) = (-987_654_321, 0x1234_5678_9abc_def0);

fn refused(number: u32) -> Refusal {
    Refusal::from_number(number).unwrap_or_else(|| panic!("{number} is no refusal's number"))
}

#[rustfmt::skip]
pub fn get(
    settings: &Settings, pictures: &Pictures, planes: &Planes, view: u32, block: Block, candidate: &Tried,
) -> Result<i64, Refusal> {
    let Pictures { textures: [lt, rt], reference } = pictures;
    let Planes { depths: [ld, rd], samples: [ls, rs], fronts: [lf, rf], limits: [ll, rl], marks: [lm, rm], combined } = planes;
    let (mut change, bytes) = (UNTOUCHED.0, candidate.bytes.entries());
    // SAFETY: pointers and lengths are those of slices that live through the call, and nothing but `change` is written.
    let number = unsafe {
        luph_raw_get(
            settings.w, settings.h, settings.left.as_ptr(), settings.right.as_ptr(), settings.share, settings.tolerance,
            settings.widest_gap, settings.torn_distance, settings.total,
            lt.as_ptr(), lt.len(), rt.as_ptr(), rt.len(), reference.as_ptr(), reference.len(),
            ld.as_ptr(), ld.len(), rd.as_ptr(), rd.len(),
            ls.as_ptr(), ls.len(), lf.as_ptr(), lf.len(), ll.as_ptr(), ll.len(), lm.as_ptr(), lm.len(),
            rs.as_ptr(), rs.len(), rf.as_ptr(), rf.len(), rl.as_ptr(), rl.len(), rm.as_ptr(), rm.len(),
            combined.as_ptr(), combined.len(), view, block, Shape::of(candidate), bytes.as_ptr(), bytes.len(), &mut change,
        )
    };
    match number {
        0 => Ok(change),
        _ => {
            assert_eq!(change, UNTOUCHED.0, "a refused GET answered");
            Err(refused(number))
        }
    }
}

#[rustfmt::skip]
pub fn set(
    settings: &mut Settings, pictures: &Pictures, planes: &mut PlanesMut, journal: &mut [u32], view: u32, block: Block,
    candidate: &Tried,
) -> Result<i64, Refusal> {
    let Pictures { textures: [lt, rt], reference } = pictures;
    let PlanesMut { depths: [ld, rd], samples: [ls, rs], fronts: [lf, rf], limits: [ll, rl], marks: [lm, rm], combined } = planes;
    let ((mut change, mut total), bytes) = (UNTOUCHED, candidate.bytes.entries());
    // SAFETY: pointers and lengths are those of slices that live through the call, and those lent for writing overlap no other.
    let number = unsafe {
        luph_raw_set(
            *settings, lt.as_ptr(), lt.len(), rt.as_ptr(), rt.len(), reference.as_ptr(), reference.len(),
            ld.as_mut_ptr(), ld.len(), rd.as_mut_ptr(), rd.len(),
            ls.as_mut_ptr(), ls.len(), lf.as_mut_ptr(), lf.len(), ll.as_mut_ptr(), ll.len(), lm.as_mut_ptr(), lm.len(),
            rs.as_mut_ptr(), rs.len(), rf.as_mut_ptr(), rf.len(), rl.as_mut_ptr(), rl.len(), rm.as_mut_ptr(), rm.len(),
            combined.as_mut_ptr(), combined.len(), journal.as_mut_ptr(), journal.len(),
            view, block, Shape::of(candidate), bytes.as_ptr(), bytes.len(), &mut change, &mut total,
        )
    };
    written("SET", settings, number, change, total)
}

#[rustfmt::skip]
pub fn take_back(
    settings: &mut Settings, pictures: &Pictures, planes: &mut PlanesMut, journal: &mut [u32],
) -> Result<i64, Refusal> {
    let Pictures { textures: [lt, rt], reference } = pictures;
    let PlanesMut { depths: [ld, rd], samples: [ls, rs], fronts: [lf, rf], limits: [ll, rl], marks: [lm, rm], combined } = planes;
    let (mut change, mut total) = UNTOUCHED;
    // SAFETY: pointers and lengths are those of slices that live through the call, and those lent for writing overlap no other.
    let number = unsafe {
        luph_raw_take_back(
            *settings, lt.as_ptr(), lt.len(), rt.as_ptr(), rt.len(), reference.as_ptr(), reference.len(),
            ld.as_mut_ptr(), ld.len(), rd.as_mut_ptr(), rd.len(),
            ls.as_mut_ptr(), ls.len(), lf.as_mut_ptr(), lf.len(), ll.as_mut_ptr(), ll.len(), lm.as_mut_ptr(), lm.len(),
            rs.as_mut_ptr(), rs.len(), rf.as_mut_ptr(), rf.len(), rl.as_mut_ptr(), rl.len(), rm.as_mut_ptr(), rm.len(),
            combined.as_mut_ptr(), combined.len(), journal.as_mut_ptr(), journal.len(), &mut change, &mut total,
        )
    };
    written("TAKE BACK", settings, number, change, total)
}

#[rustfmt::skip]
pub fn move_seat(
    settings: &mut Settings, pictures: &Pictures, planes: &mut PlanesMut, journal: &mut [u32], to: &Settings,
) -> Result<(), Refusal> {
    let Pictures { textures: [lt, rt], reference } = pictures;
    let PlanesMut { depths: [ld, rd], samples: [ls, rs], fronts: [lf, rf], limits: [ll, rl], marks: [lm, rm], combined } = planes;
    let mut total = UNTOUCHED.1;
    // SAFETY: pointers and lengths are those of slices that live through the call, and those lent for writing overlap no other.
    let number = unsafe {
        luph_raw_move(
            *settings, *to, lt.as_ptr(), lt.len(), rt.as_ptr(), rt.len(), reference.as_ptr(), reference.len(),
            ld.as_ptr(), ld.len(), rd.as_ptr(), rd.len(),
            ls.as_mut_ptr(), ls.len(), lf.as_mut_ptr(), lf.len(), ll.as_mut_ptr(), ll.len(), lm.as_mut_ptr(), lm.len(),
            rs.as_mut_ptr(), rs.len(), rf.as_mut_ptr(), rf.len(), rl.as_mut_ptr(), rl.len(), rm.as_mut_ptr(), rm.len(),
            combined.as_mut_ptr(), combined.len(), journal.as_mut_ptr(), journal.len(), &mut total,
        )
    };
    match number {
        0 => {
            *settings = Settings { w: settings.w, h: settings.h, total, ..*to };
            Ok(())
        }
        _ => {
            assert_eq!(total, UNTOUCHED.1, "a refused MOVE answered");
            Err(refused(number))
        }
    }
}

/// The answer of a call that writes: the total goes into the settings, and a refused call has touched neither.
fn written(call: &str, settings: &mut Settings, number: u32, change: i64, total: u64) -> Result<i64, Refusal> {
    match number {
        0 => {
            settings.total = total;
            Ok(change)
        }
        _ => {
            assert_eq!((change, total), UNTOUCHED, "a refused {call} answered");
            Err(refused(number))
        }
    }
}
