//! A session that owns its planes.

use crate::{lent, Block, Candidate, Pictures, Planes, PlanesMut, Refusal, Report, Settings, View};
use std::fmt;

/// Two drawn views, the picture combined from them and the total of its squared errors, held for a pair of depth planes.
///
/// A session owns copies of its pictures and depths, and nothing but [`set`](Session::set),
/// [`take_back`](Session::take_back) and [`move_seat`](Session::move_seat) changes its pictures, planes or settings. It is
/// therefore always sound: every held plane and the total are those of a fresh drawing of the depths as they stand.
///
/// It also has a journal of the depths that its SETs replaced: for each SET 6 words and one for each depth of the block, of 4
/// bytes each. The journal grows where a SET needs room, and never becomes shorter; [`keep`](Session::keep) empties it.
///
/// ```
/// use luphwezane::{Block, Candidate, Pictures, Refusal, Session, Settings, View};
///
/// let table = std::array::from_fn(|d| d as u16);
/// let settings =
///     Settings { w: 8, h: 2, left: table, right: table, share: 32, tolerance: 255, widest_gap: 8, torn_distance: 1, total: 0 };
/// let texture: Vec<u16> = (0..16).map(|x| 60 * x).collect();
/// let pictures = Pictures { textures: [&texture, &texture], reference: &texture };
/// let mut session = Session::open(&settings, &pictures, [&[0; 16], &[0; 16]])?;
///
/// // A unit is set whole, then as two halves. The halves are worse and are taken back, the last one first.
/// let (unit, left) = (Block { column: 0, row: 0, width: 8, height: 2 }, Block { column: 0, row: 0, width: 4, height: 2 });
/// let right = Block { column: 4, ..left };
/// session.set(View::Left, unit, Candidate::Flat(2))?;
/// let whole = session.total();
/// let changes = [session.set(View::Left, left, Candidate::Flat(9))?, session.set(View::Left, right, Candidate::Flat(4))?];
/// assert!(session.total() > whole);
/// assert_eq!(session.take_back(), Ok(-changes[1]));
/// assert_eq!(session.take_back(), Ok(-changes[0]));
/// assert_eq!((session.total(), session.planes().depths[0]), (whole, &[2; 16][..]));
///
/// // The unit is decided: what is set stays.
/// session.keep();
/// assert_eq!(session.take_back(), Err(Refusal::NothingToTakeBack));
/// # Ok::<(), luphwezane::Refusal>(())
/// ```
#[derive(Clone)]
pub struct Session {
    settings: Settings,
    textures: [Vec<u16>; 2],
    reference: Vec<u16>,
    depths: [Vec<u8>; 2],
    samples: [Vec<u16>; 2],
    fronts: [Vec<u8>; 2],
    limits: [Vec<i16>; 2],
    marks: [Vec<u8>; 2],
    combined: Vec<u16>,
    journal: Vec<u32>,
}

impl Session {
    /// Draws both views from the pictures and depths. `settings.total` is ignored.
    ///
    /// # Errors
    /// Refuses [`Size`](Refusal::Size), [`Plane`](Refusal::Plane), [`Table`](Refusal::Table),
    /// [`Share`](Refusal::Share), [`Gap`](Refusal::Gap) and [`Sample`](Refusal::Sample), in this order.
    pub fn open(settings: &Settings, pictures: &Pictures, depths: [&[u8]; 2]) -> Result<Session, Refusal> {
        let (area, packed) = lengths(settings);
        let mut session = Session {
            settings: *settings,
            textures: pictures.textures.map(<[u16]>::to_vec),
            reference: pictures.reference.to_vec(),
            depths: depths.map(<[u8]>::to_vec),
            samples: [vec![0; area], vec![0; area]],
            fronts: [vec![0; area], vec![0; area]],
            limits: [vec![0; area], vec![0; area]],
            marks: [vec![0; packed], vec![0; packed]],
            combined: vec![0; area],
            journal: vec![0],
        };
        let (settings, pictures, mut planes, journal) = session.lent();
        lent::open(settings, &pictures, &mut planes, journal)?;
        Ok(session)
    }

    /// Moves the seat, the place that the combined picture is shown from: tables, share, tolerance, widest gap and torn distance
    /// become those of `to`, whose w, h and total are not looked at, and the reference becomes a copy of this one. Everything is
    /// drawn again over the depths as they stand, as [`open`](Session::open) would draw it. What was set before stays: it can no
    /// longer be taken back.
    ///
    /// ```
    /// use luphwezane::{Block, Candidate, Pictures, Refusal, Session, Settings, View};
    ///
    /// // Depth d is shifted by d quarters of a sample for a seat in the middle, by nothing for one at the left camera.
    /// let table = std::array::from_fn(|d| d as u16);
    /// let middle =
    ///     Settings { w: 4, h: 1, left: table, right: table, share: 32, tolerance: 255, widest_gap: 8, torn_distance: 1, total: 0 };
    /// let twice = std::array::from_fn(|d| 2 * d as u16);
    /// let at_left = Settings { left: [0; 256], right: twice, share: 0, ..middle };
    ///
    /// let (left, right) = ([10, 20, 30, 40], [20, 30, 40, 50]);
    /// let pictures = Pictures { textures: [&left, &right], reference: &[15, 25, 35, 45] };
    /// let mut session = Session::open(&middle, &pictures, [&[2; 4], &[2; 4]])?;
    /// session.set(View::Left, Block { column: 0, row: 0, width: 1, height: 1 }, Candidate::Flat(0))?;
    /// session.move_seat(&at_left, &left)?;
    /// assert_eq!((session.planes().combined, session.total()), (&left[..], 0));
    /// assert_eq!(session.planes().depths[0], [0, 2, 2, 2]);
    /// assert_eq!(session.take_back(), Err(Refusal::NothingToTakeBack));
    /// # Ok::<(), luphwezane::Refusal>(())
    /// ```
    ///
    /// # Errors
    /// Refuses [`Plane`](Refusal::Plane) (the reference), [`Table`](Refusal::Table), [`Share`](Refusal::Share),
    /// [`Gap`](Refusal::Gap) and [`Sample`](Refusal::Sample) (the reference), in this order; the session then stays as it is.
    pub fn move_seat(&mut self, to: &Settings, reference: &[u16]) -> Result<(), Refusal> {
        let (settings, pictures, mut planes, journal) = self.lent();
        lent::move_seat(settings, &Pictures { reference, ..pictures }, &mut planes, journal, to)?;
        self.reference.copy_from_slice(reference);
        Ok(())
    }

    /// How the total would change if the block of the view's depths were the candidate. The session stays as it is.
    ///
    /// How far one depth can move the total is known before the call, whatever the pictures show: rate controllers can plan by it.
    /// Take a block of one column x and one row y. A caller needs the view's table and, from the view's planes, three entries: the
    /// depth at entry i = y × w + x, the depth of the column before and the limit of the next column. The left view reads a row
    /// from left to right. The right view reads it from right to left: there the column before is the one at the right, and the
    /// next column is the one at the left.
    ///
    /// ```text
    /// left view:   c = x            before = i - 1   next = i + 1
    /// right view:  c = w - 1 - x    before = i + 1   next = i - 1
    /// ```
    ///
    /// In signed numbers, with d for the depth that the candidate gives the block:
    ///
    /// ```text
    /// least = the least of  4 * c - table[depths[i]],
    ///                       4 * c - table[d],
    ///                       and, unless c is 0,  4 * (c - 1) - table[depths[before]]
    /// low   = max(least - 1, 0)
    /// high  = limits[next],  or 4 * w where c is w - 1
    /// L     = high - low
    /// bound = 1046529 * ((L + 3) / 4)
    /// ```
    ///
    /// Where L is 0 or less, the answer is 0. Where L is above 0, the answer is from -bound to bound.
    ///
    /// ```
    /// use luphwezane::{Block, Candidate, Pictures, Session, Settings, View};
    ///
    /// fn bound(session: &Session, view: View, x: usize, y: usize, d: u8) -> i64 {
    ///     let (settings, planes, v) = (session.settings(), session.planes(), view as usize);
    ///     let (w, table) = (settings.w as usize, [&settings.left, &settings.right][v]);
    ///     let (depths, limits) = (&planes.depths[v][y * w..][..w], &planes.limits[v][y * w..][..w]);
    ///     let place = |c: usize, d: u8| 4 * c as i64 - i64::from(table[usize::from(d)]);
    ///     let (c, before, next) = match view {
    ///         View::Left => (x, x.wrapping_sub(1), x + 1),
    ///         View::Right => (w - 1 - x, x + 1, x.wrapping_sub(1)),
    ///     };
    ///     let mut least = place(c, depths[x]).min(place(c, d));
    ///     if c > 0 {
    ///         least = least.min(place(c - 1, depths[before]));
    ///     }
    ///     let high = if c < w - 1 { i64::from(limits[next]) } else { 4 * w as i64 };
    ///     let length = high - (least - 1).max(0);
    ///     if length > 0 { 1_046_529 * ((length + 3) / 4) } else { 0 }
    /// }
    ///
    /// let table = std::array::from_fn(|d| d as u16);
    /// let settings =
    ///     Settings { w: 4, h: 1, left: table, right: table, share: 0, tolerance: 255, widest_gap: 8, torn_distance: 1, total: 0 };
    /// let row = [1023, 1023, 0, 0];
    /// let pictures = Pictures { textures: [&row, &row], reference: &row };
    /// let session = Session::open(&settings, &pictures, [&[0, 0, 3, 7], &[0; 4]])?;
    /// for (view, x) in [View::Left, View::Right].into_iter().flat_map(|view| (0..4).map(move |x| (view, x))) {
    ///     let block = Block { column: x, row: 0, width: 1, height: 1 };
    ///     for d in 0..=255 {
    ///         let change = session.get(view, block, Candidate::Flat(d))?;
    ///         assert!(change.abs() <= bound(&session, view, x as usize, 0, d));
    ///     }
    /// }
    ///
    /// // Depth 7 in column 2 of the left view reaches the bound: two positions turn from white to black.
    /// let block = Block { column: 2, row: 0, width: 1, height: 1 };
    /// assert_eq!(bound(&session, View::Left, 2, 0, 7), 2 * 1_046_529);
    /// assert_eq!(session.get(View::Left, block, Candidate::Flat(7))?, 2 * 1_046_529);
    /// # Ok::<(), luphwezane::Refusal>(())
    /// ```
    ///
    /// # Errors
    /// Refuses [`Bounds`](Refusal::Bounds), then by the candidate's kind [`Candidate`](Refusal::Candidate) (a full block),
    /// [`Line`](Refusal::Line) or [`Mask`](Refusal::Mask), and nothing else.
    // Taken into every caller: passing all of it on costs fewer instructions there, and a kind that the caller knows none.
    #[inline(always)]
    pub fn get(&self, view: View, block: Block, candidate: Candidate) -> Result<i64, Refusal> {
        lent::get(&self.settings, &self.pictures(), &self.planes(), view as u32, block, candidate)
    }

    /// Writes the candidate into the block of the view's depths and answers how the total changed. A SET of one depth has the bound
    /// that [`get`](Session::get) names.
    ///
    /// The depths that were there are saved for [`take_back`](Session::take_back). Every call examines all that is saved, so
    /// that a long list of SETs becomes slow: call [`keep`](Session::keep) when they need not be taken back.
    ///
    /// The journal grows where the library answers that it has no room for this block, as a rule to twice its length, and the call
    /// is repeated: of a long list of SETs few are made twice. A call that is refused for another reason leaves the journal's
    /// length too.
    ///
    /// SETs whose blocks share no position of the same view may be made in any order: depths, held planes and total are the same
    /// in the end, and the answers add up to the same sum. A single answer may depend on the order, and SETs are taken back in the
    /// order in which they were made, the last one first. Two blocks of one view share no position where one ends before the other
    /// begins, in columns or in rows. A SET of the depths that the block has answers 0 and changes nothing, except that it can be
    /// taken back.
    ///
    /// ```
    /// use luphwezane::{Block, Candidate, Pictures, Session, Settings, View};
    ///
    /// let table = std::array::from_fn(|d| d as u16);
    /// let settings =
    ///     Settings { w: 4, h: 1, left: table, right: table, share: 0, tolerance: 255, widest_gap: 8, torn_distance: 1, total: 0 };
    /// let row = [10, 20, 30, 40];
    /// let pictures = Pictures { textures: [&row, &row], reference: &row };
    /// let mut session = Session::open(&settings, &pictures, [&[0; 4], &[0; 4]])?;
    /// let mut other = session.clone();
    ///
    /// // Two neighbouring columns. Each answers something else where it is set first.
    /// let (one, next) = (Block { column: 2, row: 0, width: 1, height: 1 }, Block { column: 3, row: 0, width: 1, height: 1 });
    /// assert_eq!(session.set(View::Left, one, Candidate::Flat(4))?, 136);
    /// assert_eq!(session.set(View::Left, next, Candidate::Flat(4))?, 64);
    /// assert_eq!(other.set(View::Left, next, Candidate::Flat(4))?, 100);
    /// assert_eq!(other.set(View::Left, one, Candidate::Flat(4))?, 100);
    /// assert_eq!((session.total(), other.total()), (200, 200));
    /// assert_eq!(session.planes().combined, other.planes().combined);
    ///
    /// // The depths that the block has.
    /// assert_eq!(session.set(View::Left, one, Candidate::Flat(4))?, 0);
    /// # Ok::<(), luphwezane::Refusal>(())
    /// ```
    ///
    /// # Errors
    /// Refuses as [`get`](Session::get) does, then [`JournalFull`](Refusal::JournalFull) where the record's index would pass 32
    /// bits: that takes a journal of 2³² words, which are 16 GB. The session then stays as it is.
    pub fn set(&mut self, view: View, block: Block, candidate: Candidate) -> Result<i64, Refusal> {
        match self.set_with_room(view, block, candidate) {
            Err(Refusal::JournalFull) if self.make_room(block) => self.set_with_room(view, block, candidate),
            answer => answer,
        }
    }

    /// Takes back the newest SET that stands: depths, held planes and total become what they were before it. Answers how the
    /// total changed, which is that SET's answer negated.
    ///
    /// A SET stands until it is taken back, or until [`keep`](Session::keep) or [`move_seat`](Session::move_seat) is called.
    ///
    /// # Errors
    /// Refuses [`NothingToTakeBack`](Refusal::NothingToTakeBack) where no SET stands, and nothing else.
    pub fn take_back(&mut self) -> Result<i64, Refusal> {
        let (settings, pictures, mut planes, journal) = self.lent();
        lent::take_back(settings, &pictures, &mut planes, journal)
    }

    /// Keeps what is set: no SET made so far can be taken back any more, and the next ones find nothing saved to examine.
    ///
    /// Every SET and TAKE BACK examines all that is saved, so a caller with many SETs that it will not take back should call
    /// this, for example whenever a coding unit is decided. The memory is kept for the next SETs.
    pub fn keep(&mut self) {
        lent::keep(&mut self.journal);
    }

    /// Compares every held entry and the total with a fresh drawing of the depths. A session is always sound, so this is
    /// for those who want to see it.
    pub fn check(&self) -> Report {
        lent::check(&self.settings, &self.pictures(), &self.planes()).expect("the settings and planes of a session are accepted")
    }

    /// The number of holes in a view.
    pub fn holes(&self, view: View) -> u64 {
        lent::holes(&self.settings, view as u32, self.planes().marks).expect("the settings and marks of a session are accepted")
    }

    /// Whether a view has a hole at this column and row.
    ///
    /// # Panics
    /// Where the column or the row is outside the picture.
    pub fn is_hole(&self, view: View, column: u32, row: u32) -> bool {
        let Settings { w, h, .. } = self.settings;
        assert!(column < w && row < h, "column {column}, row {row} is outside {w} × {h}");
        let (column, row) = (column as usize, row as usize);
        let bytes = (w as usize).div_ceil(8);
        self.marks[view as usize][row * bytes + column / 8] >> (column % 8) & 1 == 1
    }

    /// The total: the sum of squared differences between the combined picture and the reference.
    pub fn total(&self) -> u64 {
        self.settings.total
    }

    /// The settings, with the total as it stands.
    pub fn settings(&self) -> &Settings {
        &self.settings
    }

    /// The pictures; the reference is that of the last accepted [`move_seat`](Session::move_seat).
    #[inline]
    pub fn pictures(&self) -> Pictures<'_> {
        Pictures { textures: both(&self.textures), reference: &self.reference }
    }

    /// The depths and every held plane.
    #[inline]
    pub fn planes(&self) -> Planes<'_> {
        Planes {
            depths: both(&self.depths),
            samples: both(&self.samples),
            fronts: both(&self.fronts),
            limits: both(&self.limits),
            marks: both(&self.marks),
            combined: &self.combined,
        }
    }

    /// SET with the journal as long as it is.
    fn set_with_room(&mut self, view: View, block: Block, candidate: Candidate) -> Result<i64, Refusal> {
        let (settings, pictures, mut planes, journal) = self.lent();
        lent::set(settings, &pictures, &mut planes, journal, view as u32, block, candidate)
    }

    /// Makes the journal long enough for the record of a block of the picture, if any length is.
    fn make_room(&mut self, block: Block) -> bool {
        let size = |width: u32, height: u32| 6 + width as usize * height as usize;
        let next = match self.journal[0] as usize {
            0 => 1,
            newest => newest + size(self.journal[newest + 4], self.journal[newest + 5]),
        };
        match grown(self.journal.len(), next, size(block.width, block.height)) {
            Some(length) => {
                self.journal.resize(length, 0);
                true
            }
            None => false,
        }
    }

    fn lent(&mut self) -> (&mut Settings, Pictures<'_>, PlanesMut<'_>, &mut [u32]) {
        let planes = PlanesMut {
            depths: both_mut(&mut self.depths),
            samples: both_mut(&mut self.samples),
            fronts: both_mut(&mut self.fronts),
            limits: both_mut(&mut self.limits),
            marks: both_mut(&mut self.marks),
            combined: &mut self.combined,
        };
        let pictures = Pictures { textures: both(&self.textures), reference: &self.reference };
        (&mut self.settings, pictures, planes, &mut self.journal)
    }
}

impl fmt::Debug for Session {
    fn fmt(&self, f: &mut fmt::Formatter<'_>) -> fmt::Result {
        let Settings { w, h, total, .. } = self.settings;
        f.debug_struct("Session").field("w", &w).field("h", &h).field("total", &total).finish_non_exhaustive()
    }
}

/// The lengths of a plane and of packed marks; 0 for sizes that OPEN refuses.
fn lengths(settings: &Settings) -> (usize, usize) {
    let (w, h) = (settings.w as usize, settings.h as usize);
    match (1..=4096).contains(&w) && (1..=4096).contains(&h) {
        true => (w * h, w.div_ceil(8) * h),
        false => (0, 0),
    }
}

/// The words of a journal of `length` words that is to hold a record of `size` words at index `next`: at least twice as many,
/// but past an index of 32 bits no more than the record needs. None where its own index passes 32 bits.
fn grown(length: usize, next: usize, size: usize) -> Option<usize> {
    const INDICES: usize = 1 << 32;
    (next < INDICES).then(|| (next + size).max((2 * length).min(INDICES)))
}

#[inline]
fn both<T>(pair: &[Vec<T>; 2]) -> [&[T]; 2] {
    let [left, right] = pair;
    [left, right]
}

fn both_mut<T>(pair: &mut [Vec<T>; 2]) -> [&mut [T]; 2] {
    let [left, right] = pair;
    [left, right]
}

#[cfg(test)]
mod tests {
    use super::*;
    use crate::Point;

    fn session(w: u32, h: u32) -> Session {
        let table = std::array::from_fn(|d| d as u16);
        let settings = Settings { w, h, left: table, right: table, share: 32, tolerance: 0, widest_gap: 8, torn_distance: 1, total: 0 };
        let (texture, depths) = (vec![500; (w * h) as usize], vec![0; (w * h) as usize]);
        let pictures = Pictures { textures: [&texture, &texture], reference: &texture };
        Session::open(&settings, &pictures, [&depths, &depths]).expect("OPEN accepts it")
    }

    /// A SET that is refused with 5, 7, 14 or 15 leaves the journal's length and its memory, whatever size its block says.
    #[test]
    fn refused_sets_make_no_room() {
        let side = 1024;
        let mut session = session(side, side);
        let block = |column, row, width, height| Block { column, row, width, height };
        let start = Point { column: 0, row: 0 };
        let flat_line = Candidate::line(start, Point { column: 1, row: 0 }, [1, 2]);
        for stands in [false, true] {
            if stands {
                session.set(View::Left, block(3, 5, 8, 8), Candidate::Flat(9)).expect("SET accepts it");
            }
            let (journal, capacity) = (session.journal.clone(), session.journal.capacity());
            for (width, height) in [(2, 2), (side, side), (side, 1), (1, side)] {
                let full = vec![0; (width * height) as usize + 1];
                let refused = [
                    (block(side - width + 1, 0, width, height), Candidate::Flat(1), Refusal::Bounds),
                    (block(0, side, width, height), Candidate::Flat(1), Refusal::Bounds),
                    (block(0, 0, width, 0), Candidate::Flat(1), Refusal::Bounds),
                    (block(0, 0, u32::MAX, u32::MAX), Candidate::Flat(1), Refusal::Bounds),
                    (block(0, 0, width, height), Candidate::Full(&full), Refusal::Candidate),
                    (block(0, 0, width, height), Candidate::Full(&[]), Refusal::Candidate),
                    (block(0, 0, width, height), flat_line, Refusal::Line),
                    (block(0, 0, width, height), Candidate::mask(&full, [1, 2]), Refusal::Mask),
                ];
                for (block, candidate, refusal) in refused {
                    assert_eq!(session.set(View::Right, block, candidate), Err(refusal));
                    assert!(session.journal == journal && session.journal.capacity() == capacity, "{refusal} with {block:?} made room");
                }
            }
        }
    }

    /// Few of many SETs find no room, and then the journal becomes at least twice as long.
    #[test]
    fn room_is_made_ahead() {
        let mut session = session(4, 1);
        let mut lengths = vec![session.journal.len()];
        for k in 0..1000 {
            let block = Block { column: k % 4, row: 0, width: 1, height: 1 };
            session.set(View::Left, block, Candidate::Flat(k as u8)).expect("SET accepts it");
            if session.journal.len() != lengths[lengths.len() - 1] {
                lengths.push(session.journal.len());
            }
        }
        assert!(lengths.windows(2).all(|pair| pair[1] >= 2 * pair[0]), "{lengths:?}");
        assert!((7001..14002).contains(&session.journal.len()) && lengths.len() < 15, "{lengths:?}");
        session.keep();
        session.set(View::Left, Block { column: 0, row: 0, width: 4, height: 1 }, Candidate::Flat(7)).expect("SET accepts it");
        assert_eq!(session.journal.len(), lengths[lengths.len() - 1], "room that is there is used again");
    }

    #[test]
    fn room_ends_with_the_indices() {
        let last = u32::MAX as usize;
        assert_eq!(grown(1, 1, 7), Some(8));
        assert_eq!(grown(100, 98, 7), Some(200));
        assert_eq!(grown(100, 98, 7000), Some(7098));
        assert_eq!(grown(last - 1000, last - 1005, 6 + 4096 * 4096), Some(last - 999 + 4096 * 4096));
        assert_eq!(grown(last - 1000, last - 1005, 7), Some(last + 1));
        assert_eq!(grown(last + 1, last, 7), Some(last + 7));
        assert_eq!((grown(last + 7, last + 1, 7), grown(last + 7, last + 7, 7)), (None, None));
    }
}
