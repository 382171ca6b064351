//! What a display without grey shows of an outline.

use crate::{ffi, Outline, Refusal};

/// The two numbers of a picture.
#[derive(Clone, Copy, Debug, PartialEq, Eq)]
pub struct Shown {
    /// How many pixels are black, at most 4,194,304.
    pub black: u32,
    /// Their Euler number: pieces less holes. Black pixels hang together by sides and corners, white ones by sides.
    pub euler: i32,
}

/// Counts what a display without grey shows of an outline: its black pixels, and their pieces less holes. A 3 has 1, an 8 -1, a 0 0, and a 4 that is broken one more than it should.
///
/// The number that a glyph should have is the caller's, kept for each character as a typesetter set it. A fitted glyph is shown where its own is the same; one that is equal is
/// needed and not enough, since a piece more and a hole more cancel.
///
/// `magnify`, 1 to 64, makes the outline larger first: with 1 the pixels are those of the display, with more it is a closer look at the outline, in which a slanted notch falls
/// apart towards its end all the same. Magnified, every coordinate is from -65,535 to 65,535.
///
/// The pixel of column i and row j is black where the path winds around its centre, at 64 i + 32 and 64 j + 32 units; lines through a centre count as left of it, and a line's lower
/// end belongs to it, its upper end not. A curve is sixteen lines.
///
/// ```
/// use khsaemudol::{count_shown, Outline, Shown};
///
/// // a ring of eight pixels: its hole goes the other way round
/// let ring = Outline {
///     xs: &[0, 192, 192, 0, 64, 64, 128, 128],
///     ys: &[0, 0, 192, 192, 64, 128, 128, 64],
///     marks: &[1; 8],
///     ends: &[3, 7],
/// };
/// assert_eq!(count_shown(&ring, 1)?, Shown { black: 8, euler: 0 });
/// assert_eq!(count_shown(&ring, 16)?, Shown { black: 8 * 256, euler: 0 });
/// # Ok::<(), khsaemudol::Refusal>(())
/// ```
///
/// # Errors
///
/// [`Refusal::TooLong`], [`Refusal::BadParameter`], [`Refusal::BadIndex`] or [`Refusal::OutOfRange`].
pub fn count_shown(outline: &Outline<'_>, magnify: i32) -> Result<Shown, Refusal> {
    let (mut black, mut euler) = (0, 0);
    Refusal::of(ffi::count_shown(outline, magnify, &mut black, &mut euler))?;
    Ok(Shown { black, euler })
}
