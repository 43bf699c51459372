//! Held views and distortion change for two cameras with depth.
//!
//! A [`Session`] holds what two cameras, left and right, show from one place between them: each view drawn from its
//! texture and depths, the picture combined from both, and the total of its squared errors against a reference.
//! [`Session::get`] answers how that total would change if a block of depths were replaced; [`Session::set`]
//! replaces it, and [`Session::take_back`] puts back what the newest SET replaced. What takes the block's place is a
//! [`Candidate`]: a full block, one value, or two regions with one value each. Samples, front depths, hole marks and the
//! combined picture change only in the stretch of each row that the block can change; how far one depth can move the total is
//! known before it is tried (see [`Session::get`]). [`Session::move_seat`] shows everything from another place, with new
//! settings and a new reference. Samples have ten bits, 0 to [`GREATEST_SAMPLE`].
//!
//! ```
//! use luphwezane::{Block, Candidate, Pictures, Report, Session, Settings, View};
//!
//! // One row of four columns. Depth d is shifted by d quarters of a sample.
//! let table = std::array::from_fn(|d| d as u16);
//! let settings =
//!     Settings { w: 4, h: 1, left: table, right: table, share: 0, tolerance: 255, widest_gap: 8, torn_distance: 1, total: 0 };
//! let row = [10, 20, 30, 40];
//! let pictures = Pictures { textures: [&row, &row], reference: &row };
//! let mut session = Session::open(&settings, &pictures, [&[0; 4], &[0; 4]])?;
//! assert_eq!(session.total(), 0);
//!
//! // Trying depths in column 2 of the left view changes nothing.
//! let block = Block { column: 2, row: 0, width: 1, height: 1 };
//! assert_eq!(session.get(View::Left, block, Candidate::Flat(4))?, 136);
//! assert_eq!(session.get(View::Left, block, Candidate::Flat(5))?, 100);
//!
//! // Setting one does.
//! assert_eq!(session.set(View::Left, block, Candidate::Flat(5))?, 100);
//! assert_eq!(session.total(), 100);
//! assert_eq!(session.planes().combined, [10, 30, 30, 40]);
//! assert_eq!(session.holes(View::Left), 1);
//! assert_eq!(session.check(), Report::Sound);
//!
//! // And it can be taken back.
//! assert_eq!(session.take_back()?, -100);
//! assert_eq!(session.planes().combined, row);
//! # Ok::<(), luphwezane::Refusal>(())
//! ```
//!
//! Callers that keep the planes in memory of their own use [`lent`], the same calls over slices.
//! Numbers and lengths may be anything: a call that cannot be answered is refused with a [`Refusal`] and writes nothing
//! ([`Session::is_hole`] alone panics).

#![deny(missing_docs, unsafe_code)]

mod candidate;
#[allow(unsafe_code)]
mod raw;
mod refusal;
mod row;
mod session;
mod types;

pub use candidate::{Candidate, Point, Regions};
pub use refusal::Refusal;
pub use row::{render, Row};
pub use session::Session;
pub use types::{Block, Pictures, Planes, PlanesMut, Report, Settings, View, GREATEST_SAMPLE};

/// The calls over planes and a journal that the caller keeps, as the C header has them.
///
/// Nothing is copied. The lengths, for w columns and h rows, are w × h entries, and ((w + 7) / 8) × h bytes for marks.
/// After [`open`](lent::open) the caller passes the same pictures, and planes and settings as the last call left them; from an
/// accepted [`move_seat`](lent::move_seat) on, the reference is the one that it was passed. With others the change that
/// [`get`](lent::get), [`set`](lent::set) and [`take_back`](lent::take_back) answer is undecided, and any number of the call's
/// list may come. They write no depth outside the block, and besides planes and journal only the total in the settings.
///
/// A journal has as many words as the caller likes. Word 0 is the index of the newest record, 0 for none. A record at index i
/// has in word i the index of the record before (0 for none), then view, first column, first row, width, height, and from word
/// i + 6 on the width × height depths that were there, in row order, one a word. SET puts its record directly after the newest
/// one, or after word 0 where there is none, so that n SETs of blocks of width × height need 1 + n × (6 + width × height) words.
/// OPEN, MOVE and TAKE BACK write word 0 alone, SET word 0 and its record, a refused call nothing.
///
/// Where OPEN and every SET, TAKE BACK and MOVE of a session are passed one journal that nothing else writes, TAKE BACK restores
/// depths, held planes and total to what they were before the newest SET that still stands and answers its change negated; it
/// is refused with 12 exactly where none stands, and 13 never occurs. OPEN and MOVE empty the journal: no SET before them
/// stands. SET and TAKE BACK examine the whole chain of records, whoever wrote it: [`keep`](lent::keep) a journal whose SETs
/// need not be taken back.
///
/// ```
/// use luphwezane::{lent, Block, Candidate, Pictures, PlanesMut, Refusal, Settings};
///
/// let table = std::array::from_fn(|d| d as u16);
/// let mut settings =
///     Settings { w: 4, h: 1, left: table, right: table, share: 0, tolerance: 255, widest_gap: 8, torn_distance: 1, total: 0 };
/// let row = [10, 20, 30, 40];
/// let pictures = Pictures { textures: [&row, &row], reference: &row };
/// let (mut depths, mut fronts, mut marks) = ([[0; 4]; 2], [[0; 4]; 2], [[0; 1]; 2]);
/// let (mut samples, mut limits, mut combined) = ([[0; 4]; 2], [[0; 4]; 2], [0; 4]);
/// let mut planes = PlanesMut {
///     depths: depths.each_mut().map(|plane| &mut plane[..]),
///     samples: samples.each_mut().map(|plane| &mut plane[..]),
///     fronts: fronts.each_mut().map(|plane| &mut plane[..]),
///     limits: limits.each_mut().map(|plane| &mut plane[..]),
///     marks: marks.each_mut().map(|plane| &mut plane[..]),
///     combined: &mut combined,
/// };
///
/// // Room for one SET of one column.
/// let mut journal = [0; 8];
/// lent::open(&mut settings, &pictures, &mut planes, &mut journal)?;
/// let block = Block { column: 2, row: 0, width: 1, height: 1 };
/// assert_eq!(lent::set(&mut settings, &pictures, &mut planes, &mut journal, 0, block, Candidate::Flat(5))?, 100);
/// assert_eq!(journal, [1, 0, 0, 2, 0, 1, 1, 0]);
/// let again = lent::set(&mut settings, &pictures, &mut planes, &mut journal, 0, block, Candidate::Flat(4));
/// assert_eq!(again, Err(Refusal::JournalFull));
/// assert_eq!(lent::take_back(&mut settings, &pictures, &mut planes, &mut journal)?, -100);
/// assert_eq!((settings.total, journal[0]), (0, 0));
///
/// // From half a sample beside the left camera another picture is seen. What was set stays.
/// lent::set(&mut settings, &pictures, &mut planes, &mut journal, 0, block, Candidate::Flat(5))?;
/// let (to, there) = (Settings { left: [2; 256], ..settings }, Pictures { reference: &[14, 25, 36, 40], ..pictures });
/// lent::move_seat(&mut settings, &there, &mut planes, &mut journal, &to)?;
/// assert_eq!((settings.left, settings.total, journal[0]), ([2; 256], 0, 0));
/// assert_eq!(*planes.depths[0], [0, 0, 5, 0]);
/// # Ok::<(), luphwezane::Refusal>(())
/// ```
pub mod lent {
    pub use crate::raw::{check, get, holes, keep, move_seat, open, render, set, take_back};
}
