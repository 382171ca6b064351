//! Weak-point jobs as lines of a log, which `refit` runs again.

use crate::{align_weak_points, ffi, Refusal};
use alloc::{string::String, vec, vec::Vec};

/// The digits of the longest line.
pub const MOST_DIGITS: usize = 3_066;

/// The most points of a line, and the most contours.
const PLACES: usize = 255;

/// What [`align_weak_points`] is given, by one line of a log each: at most 255 points and 255 contours.
///
/// ```
/// use khsaemudol::{Job, Refusal};
///
/// let line = "010301010000000500000A0063000014001402";
/// let mut job = Job::read(line.as_bytes())?;
/// assert_eq!(job.touched, [1, 0, 0]);
/// assert_eq!(job.line()?, line);
///
/// job.align()?;
/// assert_eq!(job.currents, [5, 15, 25]);
///
/// assert_eq!(Job::read(b"010000\r"), Err(Refusal::NotFrame));
/// # Ok::<(), Refusal>(())
/// ```
#[derive(Clone, Debug, Default, PartialEq, Eq, Hash)]
pub struct Job {
    /// The scaled coordinates of the points, in units.
    pub originals: Vec<i32>,
    /// Where the points are now.
    pub currents: Vec<i32>,
    /// A mark for each point: any nonzero one means touched. It is kept as it is.
    pub touched: Vec<u8>,
    /// The last points of the contours.
    pub ends: Vec<u16>,
}

impl Job {
    /// The job of a line, which is given without its line feed. Written again it is the same line.
    ///
    /// # Errors
    ///
    /// [`Refusal::NotFrame`] where the line is not a whole frame.
    pub fn read(line: &[u8]) -> Result<Self, Refusal> {
        let mut job = Self {
            originals: vec![0; PLACES],
            currents: vec![0; PLACES],
            touched: vec![0; PLACES],
            ends: vec![0; PLACES],
        };
        let (mut points, mut contours) = (0, 0);
        Refusal::of(ffi::read_frame(
            line,
            &mut job.originals,
            &mut job.currents,
            &mut job.touched,
            &mut job.ends,
            &mut points,
            &mut contours,
        ))?;
        job.originals.truncate(points as usize);
        job.currents.truncate(points as usize);
        job.touched.truncate(points as usize);
        job.ends.truncate(contours as usize);
        Ok(job)
    }

    /// The line of the job, without a line feed. A job that [`align`](Self::align) would refuse has one too.
    ///
    /// # Errors
    ///
    /// [`Refusal::TooLong`], [`Refusal::BadIndex`] or [`Refusal::OutOfRange`]: lists of points that differ in length or more than 255 entries, an end above 255, a number that two signed bytes
    /// do not hold.
    pub fn line(&self) -> Result<String, Refusal> {
        let mut line = vec![0; MOST_DIGITS];
        let mut digits = 0;
        Refusal::of(ffi::write_frame(
            &self.originals,
            &self.currents,
            &self.touched,
            &self.ends,
            &mut line,
            &mut digits,
        ))?;
        line.truncate(digits as usize);
        Ok(line.into_iter().map(char::from).collect())
    }

    /// Aligns the weak points.
    ///
    /// # Errors
    ///
    /// As [`align_weak_points`].
    pub fn align(&mut self) -> Result<(), Refusal> {
        align_weak_points(
            &self.originals,
            &mut self.currents,
            &self.touched,
            &self.ends,
        )
    }
}
