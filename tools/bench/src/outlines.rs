//! The outlines that are timed.

use oracle::{generate::Random, job::Points};

/// How the points of an outline are made.
#[derive(Copy, Clone)]
pub enum Outlines {
    /// Scattered points, one in so many touched.
    Scattered(usize),
    /// Points that rise and fall around each contour, touched in pairs at its extrema.
    Glyph,
    /// The same, as large as a panel of 1,000 pixels.
    Panel,
    /// The same, so large that currents are 65,536 and more apart.
    Largest,
}

impl Outlines {
    /// All kinds, in the order of the tables.
    pub const ALL: [Self; 6] = [
        Self::Scattered(2),
        Self::Scattered(4),
        Self::Scattered(16),
        Self::Glyph,
        Self::Panel,
        Self::Largest,
    ];

    /// What stands above its table.
    pub fn title(self) -> String {
        match self {
            Self::Scattered(times) => format!("scattered points, one in {times} touched"),
            Self::Glyph => "like a glyph's, touched at the extrema".to_string(),
            Self::Panel => "the same on a panel of 1,000 pixels".to_string(),
            Self::Largest => "the same, currents 65,536 apart".to_string(),
        }
    }
}

/// An accepted outline of so many points, the untouched ones where their originals are.
pub fn outline(kind: Outlines, count: usize, random: &mut Random) -> Points {
    let mut points = Points {
        originals: Vec::new(),
        currents: Vec::new(),
        touches: Vec::new(),
        ends: Vec::new(),
    };
    while points.originals.len() < count {
        let left = count - points.originals.len();
        contour(kind, contour_length(left, random), random, &mut points);
        points.ends.push((points.originals.len() - 1) as u16);
    }
    points
}

/// An accepted outline of so many points in so many contours of one length.
pub fn in_contours(kind: Outlines, count: usize, contours: usize, random: &mut Random) -> Points {
    let mut points = Points::none();
    for _ in 0..contours {
        contour(kind, count / contours, random, &mut points);
        points.ends.push((points.originals.len() - 1) as u16);
    }
    points
}

/// How many of the points that are left the next contour has.
fn contour_length(left: usize, random: &mut Random) -> usize {
    let length = 4 + random.below(45);
    if left < length + 4 {
        left
    } else {
        length
    }
}

/// Adds a contour of so many points.
fn contour(kind: Outlines, count: usize, random: &mut Random, points: &mut Points) {
    match kind {
        Outlines::Scattered(times) => {
            for _ in 0..count {
                let original = random.between(-2_000, 2_000);
                add(original, random.once_in(times), points);
            }
        }
        Outlines::Glyph => {
            let (low, high) = (random.between(-200, 0), random.between(300, 900));
            waves(low, high, count, random, points);
        }
        Outlines::Panel => {
            let (low, high) = (random.between(0, 9_000), random.between(30_000, 64_000));
            waves(low, high, count, random, points);
        }
        Outlines::Largest => {
            let (low, high) = (
                -random.between(40_000, 65_000),
                random.between(40_000, 65_000),
            );
            waves(low, high, count, random, points);
        }
    }
}

/// Adds so many points that rise and fall between two heights, touched in pairs at both.
fn waves(low: i32, high: i32, count: usize, random: &mut Random, points: &mut Points) {
    let wave = 4 + random.below(12);
    for ix in 0..count {
        let phase = ix % wave;
        let extremum = phase < 2 || (wave / 2..wave / 2 + 2).contains(&phase);
        add(height(phase, wave, low, high), extremum, points);
    }
}

/// The height at a phase of a wave: a pair of points at the bottom, a way up, a pair at the top, a way down.
fn height(phase: usize, wave: usize, low: i32, high: i32) -> i32 {
    let half = wave / 2;
    let (from, to, step, steps) = if phase < half {
        (low, high, phase, half)
    } else {
        (high, low, phase - half, wave - half)
    };
    from + (to - from) * step.saturating_sub(1) as i32 / (steps - 1) as i32
}

/// Adds a point, at its original or, if it is touched, at the nearest pixel.
fn add(original: i32, touched: bool, points: &mut Points) {
    let current = if touched {
        (original + 32) & !63
    } else {
        original
    };
    points.originals.push(original);
    points.currents.push(current);
    points.touches.push(u8::from(touched));
}

/// The words of a job of weak points.
pub fn job(points: &Points) -> Vec<i32> {
    fn list<T: Copy + Into<i32>>(words: &mut Vec<i32>, list: &[T]) {
        words.push(list.len() as i32);
        words.extend(list.iter().map(|number| (*number).into()));
    }
    let mut words = vec![3];
    list(&mut words, &points.originals);
    list(&mut words, &points.currents);
    list(&mut words, &points.touches);
    list(&mut words, &points.ends);
    words
}
