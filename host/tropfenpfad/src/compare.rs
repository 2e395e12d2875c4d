//! The comparison of two frames.

use tropfenpfad_sys as ffi;

use crate::refusal::{check, Refusal};

/// What a comparison gives beside its two lists.
#[derive(Clone, Copy, Debug, PartialEq, Eq)]
pub struct Differences {
    /// The smallest rectangle that holds all pixels that differ; none where the frames are equal.
    pub rectangle: Option<Rectangle>,
    /// Pixels that differ.
    pub pixels: u32,
    /// Cells that differ, the listed ones and all others.
    pub cells: u32,
}

/// A part of a frame; its last x and its last line belong to it.
#[derive(Clone, Copy, Debug, PartialEq, Eq)]
pub struct Rectangle {
    /// The leftmost x, 0 to 239.
    pub first_x: u8,
    /// The rightmost x.
    pub last_x: u8,
    /// The topmost line, 0 to 223.
    pub first_line: u8,
    /// The bottommost line.
    pub last_line: u8,
}

/// Says where two frames differ; a pixel may be any byte. A differing cell is one with a differing
/// pixel among its six, and its number is 40 times the line plus the column. `line_counts` takes how
/// many pixels of each of the 224 lines differ, `cells` the numbers of the first 64 differing cells,
/// and 65,535 in each place that is left. Refuses output, for either frame and either list.
///
/// ```
/// use tropfenpfad::{compare, Rectangle, FRAME_LENGTH, LINES, LISTED_CELLS, NO_CELL};
///
/// let reference = vec![0; FRAME_LENGTH];
/// let mut grabbed = reference.clone();
/// grabbed[240 * 2 + 5] = 7;
/// let (mut line_counts, mut cells) = ([0; LINES], [0; LISTED_CELLS]);
/// let differences = compare(&reference, &grabbed, &mut line_counts, &mut cells)?;
/// let place = Rectangle { first_x: 5, last_x: 5, first_line: 2, last_line: 2 };
/// assert_eq!((differences.rectangle, differences.pixels), (Some(place), 1));
/// assert_eq!((line_counts[2], cells[0], cells[1]), (1, 80, NO_CELL));
/// # Ok::<(), tropfenpfad::Refusal>(())
/// ```
pub fn compare(
    first: &[u8],
    second: &[u8],
    line_counts: &mut [u16],
    cells: &mut [u16],
) -> Result<Differences, Refusal> {
    // SAFETY: all slices are valid for their lengths, and the exclusive ones overlap no other.
    let answer = unsafe {
        ffi::tropfenpfad_compare(
            first.as_ptr(),
            first.len(),
            second.as_ptr(),
            second.len(),
            line_counts.as_mut_ptr(),
            line_counts.len(),
            cells.as_mut_ptr(),
            cells.len(),
        )
    };
    check(answer.status).map(|()| Differences {
        rectangle: (!answer.empty).then_some(Rectangle {
            first_x: answer.first_x,
            last_x: answer.last_x,
            first_line: answer.first_line,
            last_line: answer.last_line,
        }),
        pixels: answer.pixels,
        cells: answer.cells,
    })
}
