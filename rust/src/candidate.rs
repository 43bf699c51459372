//! What is tried and written in a block.

/// What takes the place of a block's depths: a full block, one value, or two regions with one value each.
///
/// GET and SET answer as for the full block that a candidate fills. It is small and can be copied; depths and bits are
/// borrowed.
///
/// ```
/// use luphwezane::{Block, Candidate, Pictures, Point, Refusal, Session, Settings, View};
///
/// let table = std::array::from_fn(|d| d as u16);
/// let settings =
///     Settings { w: 3, h: 3, left: table, right: table, share: 0, tolerance: 255, widest_gap: 8, torn_distance: 1, total: 0 };
/// let texture = [10, 20, 30, 40, 50, 60, 70, 80, 90];
/// let pictures = Pictures { textures: [&texture, &texture], reference: &texture };
/// let mut session = Session::open(&settings, &pictures, [&[0; 9], &[0; 9]])?;
/// let block = Block { column: 0, row: 0, width: 3, height: 3 };
///
/// // One value.
/// session.set(View::Left, block, Candidate::Flat(4))?;
/// assert_eq!(session.planes().depths[0], [4; 9]);
///
/// // From the upper left corner to the lower right: region 1 is below.
/// let (corner, opposite) = (Point { column: 0, row: 0 }, Point { column: 2, row: 2 });
/// let line = Candidate::line(corner, opposite, [1, 7]);
/// session.set(View::Left, block, line)?;
/// assert_eq!(session.planes().depths[0], [1, 1, 1, 7, 1, 1, 7, 7, 1]);
///
/// // The same regions by a mask, and as a full block: nothing would change.
/// assert_eq!(session.get(View::Left, block, Candidate::mask(&[0b1100_1000, 0], [1, 7]))?, 0);
/// assert_eq!(session.get(View::Left, block, Candidate::Full(&[1, 1, 1, 7, 1, 1, 7, 7, 1]))?, 0);
///
/// // Both corners are on the first row.
/// let level = Candidate::line(corner, Point { column: 2, row: 0 }, [1, 7]);
/// assert_eq!(session.get(View::Left, block, level), Err(Refusal::Line));
/// # Ok::<(), luphwezane::Refusal>(())
/// ```
#[derive(Clone, Copy, Debug, PartialEq, Eq, Hash)]
pub enum Candidate<'a> {
    /// Width × height depths in row order.
    Full(&'a [u8]),
    /// One value for the whole block.
    Flat(u8),
    /// Two regions with one value each.
    Regions {
        /// The values of region 0 and of region 1.
        values: [u8; 2],
        /// Which positions are in which region.
        regions: Regions<'a>,
    },
}

/// How the positions of a block are parted into region 0 and region 1.
#[derive(Clone, Copy, Debug, PartialEq, Eq, Hash)]
pub enum Regions<'a> {
    /// A line between two points of the block's border that have no side in common.
    ///
    /// The sides are the block's first and last column and its first and last row; a corner lies on two. So a block of one
    /// column or one row has no line. A position is in region 1 where (end column − start column) × (row − start row) −
    /// (end row − start row) × (column − start column) is above 0: left of a line from the first row down to the last, and
    /// below one from the first column to the last.
    Line {
        /// Where the line starts.
        start: Point,
        /// Where it ends.
        end: Point,
    },
    /// (width × height + 7) / 8 bytes with a bit for each position, by rows without gaps, low bit first: position k, counted by
    /// rows, has bit k % 8 of byte k / 8. 1 is region 1. The bits past the last position are ignored.
    Mask(&'a [u8]),
}

/// A position of a block, counted from the block's first column and row.
#[repr(C)]
#[derive(Clone, Copy, Debug, PartialEq, Eq, Hash)]
pub struct Point {
    /// Its column.
    pub column: u32,
    /// Its row.
    pub row: u32,
}

impl<'a> Candidate<'a> {
    /// Two regions parted by a line, with the values of region 0 and of region 1.
    pub const fn line(start: Point, end: Point, values: [u8; 2]) -> Candidate<'static> {
        Candidate::Regions { values, regions: Regions::Line { start, end } }
    }

    /// Two regions told by the bits of a mask, with the values of region 0 and of region 1.
    pub const fn mask(bits: &'a [u8], values: [u8; 2]) -> Candidate<'a> {
        Candidate::Regions { values, regions: Regions::Mask(bits) }
    }
}
