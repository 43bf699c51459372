//! One drawn row.

use crate::{lent, Refusal, Settings, View};

/// One drawn row of one view.
#[derive(Clone, Debug, PartialEq, Eq)]
pub struct Row {
    /// The drawn samples, 0 to 1,023.
    pub samples: Vec<u16>,
    /// The hole marks, packed: column x in bit x % 8 of byte x / 8, spare bits zero.
    pub marks: Vec<u8>,
    /// The depth that is seen at each position.
    pub fronts: Vec<u8>,
}

/// Draws one row of one view with that view's table. A sample between two columns of one surface is interpolated by the H.265
/// luma filters, in quarters, and held to 0 to 1,023; the edge of a near object that hides columns begins at the rounded place,
/// with the object's sample and depth and no mark. How wide a surface's gaps may be, and how far a column is shown into a hole,
/// is as [`Settings`] has it.
///
/// Texture and depths have `settings.w` entries; h, share, tolerance and total are not looked at. A texture entry above
/// [`GREATEST_SAMPLE`](crate::GREATEST_SAMPLE) is read as that.
///
/// ```
/// use luphwezane::{render, Settings, View};
///
/// let table = std::array::from_fn(|d| d as u16);
/// let settings = Settings { w: 4, h: 1, left: table, right: table, share: 0, tolerance: 0, widest_gap: 8, torn_distance: 1, total: 0 };
/// let row = render(&settings, View::Left, &[10, 20, 30, 40], &[0, 0, 5, 0])?;
/// assert_eq!(row.samples, [10, 30, 40, 40]);
/// assert_eq!(row.marks, [0b0100]);
/// assert_eq!(row.fronts, [0, 5, 0, 0]);
///
/// // The gap between the columns of depths 5 and 0 is 9 quarters: with wider gaps it is no hole.
/// let row = render(&Settings { widest_gap: 9, ..settings }, View::Left, &[10, 20, 30, 40], &[0, 0, 5, 0])?;
/// assert_eq!(row.marks, [0]);
/// # Ok::<(), luphwezane::Refusal>(())
/// ```
///
/// # Errors
/// Refuses [`Size`](Refusal::Size) (by w alone), [`Plane`](Refusal::Plane), [`Table`](Refusal::Table) and [`Gap`](Refusal::Gap),
/// in this order.
pub fn render(settings: &Settings, view: View, texture: &[u16], depths: &[u8]) -> Result<Row, Refusal> {
    let w = if settings.w <= 4096 { settings.w as usize } else { 0 };
    let mut row = Row { samples: vec![0; w], marks: vec![0; w.div_ceil(8)], fronts: vec![0; w] };
    lent::render(settings, view as u32, texture, depths, &mut row.samples, &mut row.marks, &mut row.fronts)?;
    Ok(row)
}
