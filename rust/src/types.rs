//! The types that the calls share.

/// The greatest sample of a picture: samples have ten bits, in entries of 16.
///
/// OPEN and MOVE refuse a texture or reference with a higher entry. The other calls read a higher entry of a texture or
/// reference as this one, and GET, SET and TAKE BACK read a higher held or combined sample so too; CHECK compares these as they
/// are, so that a higher one is a difference.
pub const GREATEST_SAMPLE: u16 = 1023;

/// The settings of a session. The layout is that of `luph_settings` in the C header.
///
/// A column's place is where its disparity shifts it to. Two neighbours whose places lie at most [`widest_gap`] apart are one
/// surface, and what lies between them is interpolated. Further apart they are torn: the first, as the view reads the row, is
/// shown up to [`torn_distance`] past its place, and the rest of the gap is a hole, which the far one fills. The last column of
/// a row is shown so far too, and what is left of the row is a hole. 8 and 1 are the usual numbers.
///
/// [`widest_gap`]: Settings::widest_gap
/// [`torn_distance`]: Settings::torn_distance
#[repr(C)]
#[derive(Clone, Copy, Debug, PartialEq, Eq)]
pub struct Settings {
    /// Columns, 1 to 4,096.
    pub w: u32,
    /// Rows, 1 to 4,096.
    pub h: u32,
    /// The left view's disparity of each depth, in quarter samples, 0 to 1,023.
    pub left: [u16; 256],
    /// The right view's disparity of each depth, in quarter samples, 0 to 1,023.
    pub right: [u16; 256],
    /// The right view's part where both views show a position, in 64ths, 0 to 64.
    pub share: u8,
    /// How far front depths may differ for both views to be mixed.
    pub tolerance: u8,
    /// The widest gap within one surface, in quarter samples, 4 to 64.
    pub widest_gap: u8,
    /// How far a column is shown into a hole, in quarter samples, 0 to 3.
    pub torn_distance: u8,
    /// The sum of squared errors of the combined picture. OPEN, SET, TAKE BACK and MOVE write it; OPEN and MOVE ignore what is
    /// passed in.
    pub total: u64,
}

/// A block of a depth plane.
#[repr(C)]
#[derive(Clone, Copy, Debug, PartialEq, Eq)]
pub struct Block {
    /// Its first column.
    pub column: u32,
    /// Its first row.
    pub row: u32,
    /// Its columns, at least 1.
    pub width: u32,
    /// Its rows, at least 1.
    pub height: u32,
}

/// One of the two cameras.
#[derive(Clone, Copy, Debug, PartialEq, Eq)]
pub enum View {
    /// View 0.
    Left = 0,
    /// View 1.
    Right = 1,
}

impl View {
    /// The left view, then the right.
    pub const BOTH: [View; 2] = [View::Left, View::Right];
}

/// The pictures of a session, which no call writes: w × h samples each, 0 to [`GREATEST_SAMPLE`], in row order.
#[derive(Clone, Copy, Debug)]
pub struct Pictures<'a> {
    /// The left and the right view's texture.
    pub textures: [&'a [u16]; 2],
    /// What the combined picture is measured against.
    pub reference: &'a [u16],
}

/// The planes of a session, to read. Of each pair the first is the left view's, the second the right view's.
#[derive(Clone, Copy, Debug)]
pub struct Planes<'a> {
    /// The depths, larger is nearer.
    pub depths: [&'a [u8]; 2],
    /// The drawn samples, 0 to [`GREATEST_SAMPLE`].
    pub samples: [&'a [u16]; 2],
    /// The depth that is seen at each drawn position.
    pub fronts: [&'a [u8]; 2],
    /// The limits, in quarter samples: the least place of the column and of all that the view reads after it.
    pub limits: [&'a [i16]; 2],
    /// The hole marks, packed, (w + 7) / 8 bytes a row: column x in bit x % 8 of byte x / 8, spare bits zero.
    pub marks: [&'a [u8]; 2],
    /// The picture combined from both views.
    pub combined: &'a [u16],
}

/// The planes of a session, lent for writing.
#[derive(Debug)]
pub struct PlanesMut<'a> {
    /// The depths, larger is nearer. OPEN and MOVE only read them.
    pub depths: [&'a mut [u8]; 2],
    /// The drawn samples.
    pub samples: [&'a mut [u16]; 2],
    /// The depth that is seen at each drawn position.
    pub fronts: [&'a mut [u8]; 2],
    /// The limits, in quarter samples: the least place of the column and of all that the view reads after it.
    pub limits: [&'a mut [i16]; 2],
    /// The hole marks, packed.
    pub marks: [&'a mut [u8]; 2],
    /// The picture combined from both views.
    pub combined: &'a mut [u16],
}

impl PlanesMut<'_> {
    /// The same planes, to read.
    pub fn shared(&self) -> Planes<'_> {
        Planes {
            depths: both(&self.depths),
            samples: both(&self.samples),
            fronts: both(&self.fronts),
            limits: both(&self.limits),
            marks: both(&self.marks),
            combined: self.combined,
        }
    }
}

fn both<'a, T>(pair: &'a [&mut [T]; 2]) -> [&'a [T]; 2] {
    let [left, right] = pair;
    [left, right]
}

/// What CHECK found.
#[derive(Clone, Copy, Debug, PartialEq, Eq)]
pub enum Report {
    /// Every held entry and the total are those of a fresh drawing.
    Sound,
    /// The first held entry, by rows, that differs.
    Difference {
        /// Its row.
        row: u32,
        /// Its column; spare bits of the marks count with a row's last column.
        column: u32,
    },
    /// Every held entry is right; only the total differs.
    Total,
}
