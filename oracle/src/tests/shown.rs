//! What the display shows: worked values, the order of refusals, three ways to the Euler number, what moving and turning leave, and the definition read a second time, with the slips that
//! made-up jobs tell from it.

use super::{job_of, walk};
use crate::{
    answer::answer,
    generate::{
        line,
        shown::{picture_of, small},
        Profile, Random, PROFILES,
    },
    job::{Job, Walk},
    plain,
    refusals::{Answer, Refusal},
    shown::{count_shown, Picture, Shown},
};
use std::convert::Infallible;

/// An outline of contours of places on the curve.
fn on_curve(contours: &[&[(i32, i32)]]) -> Walk {
    let places = || contours.iter().copied().flatten();
    let mut ends: Vec<u16> = Vec::new();
    for contour in contours {
        ends.push(ends.last().map_or(0, |end| end + 1) + contour.len() as u16 - 1);
    }
    Walk {
        xs: places().map(|place| place.0).collect(),
        ys: places().map(|place| place.1).collect(),
        marks: vec![1; places().count()],
        ends,
    }
}

/// The corners of a box, counter-clockwise.
fn corners(left: i32, low: i32, right: i32, high: i32) -> Vec<(i32, i32)> {
    vec![(left, low), (right, low), (right, high), (left, high)]
}

/// The same, clockwise.
fn turned(left: i32, low: i32, right: i32, high: i32) -> Vec<(i32, i32)> {
    corners(left, low, right, high).into_iter().rev().collect()
}

/// Black pixels and the Euler number of an outline that is not magnified.
fn counted(outline: &Walk) -> (usize, i32) {
    times(outline, 1)
}

/// Black pixels and the Euler number of a magnified outline.
fn times(outline: &Walk, magnify: i32) -> (usize, i32) {
    let shown = count_shown(outline, magnify).expect("the outline is accepted");
    (shown.black, shown.euler)
}

#[test]
fn figures_and_rings() {
    let ring = |hole: &[(i32, i32)]| on_curve(&[&corners(0, 0, 192, 192), hole]);
    assert_eq!(counted(&ring(&turned(64, 64, 128, 128))), (8, 0));
    assert_eq!(counted(&ring(&corners(64, 64, 128, 128))), (9, 1));
    let three = [
        (0, 0),
        (192, 0),
        (192, 320),
        (0, 320),
        (0, 256),
        (128, 256),
        (128, 192),
        (64, 192),
        (64, 128),
        (128, 128),
        (128, 64),
        (0, 64),
    ];
    assert_eq!(counted(&on_curve(&[&three])), (10, 1));
    let eight = on_curve(&[
        &corners(0, 0, 192, 320),
        &turned(64, 64, 128, 128),
        &turned(64, 192, 128, 256),
    ]);
    assert_eq!(counted(&eight), (13, -1));
    let pair = on_curve(&[&corners(0, 0, 64, 64), &corners(64, 64, 128, 128)]);
    assert_eq!(counted(&pair), (2, 1));
    let around = [(64, 0), (0, 64), (128, 64), (64, 128)];
    let around = around.map(|(x, y)| corners(x, y, x + 64, y + 64));
    let around: Vec<&[(i32, i32)]> = around.iter().map(Vec::as_slice).collect();
    assert_eq!(counted(&on_curve(&around)), (4, 0));
    let bow_tie = on_curve(&[&[(0, 0), (128, 128), (128, 0), (0, 128)]]);
    assert_eq!(counted(&bow_tie), (2, 1));
}

#[test]
fn curves_and_lone_points() {
    let quarter = walk(&[0, 128, 128, 0], &[0, 0, 128, 128], &[1, 1, 0, 1], &[3]);
    assert_eq!(counted(&quarter), (3, 1));
    assert_eq!(times(&quarter, 16), (850, 1));
    let round = walk(&[0, 128, 128, 0], &[0, 0, 128, 128], &[0; 4], &[3]);
    assert_eq!(counted(&round), (4, 1));
    for mark in [0, 1] {
        assert_eq!(counted(&walk(&[32], &[32], &[mark], &[0])), (0, 0));
    }
    assert_eq!(counted(&walk(&[], &[], &[], &[])), (0, 0));
    assert_eq!(
        counted(&walk(&[0, 64, 0], &[0, 0, 64], &[1; 3], &[])),
        (0, 0)
    );
    // Of sixteen lines, and not of thirty-two, of which pixel (2, 2) is black.
    let bent = walk(&[0, 384, 0], &[0, 80, 256], &[1, 0, 1], &[2]);
    let pixels = Picture::of(&bent, 1);
    let at = |column: i64, row: i64| {
        let place = (row - pixels.bottom) * pixels.width as i64 + column - pixels.left;
        pixels.pixels[place as usize]
    };
    assert!(at(1, 2) && !at(3, 2));
    assert_ne!(
        at(2, 2),
        Reading::of(Slip::Thirty2Lines).is_black(&bent, 1, 2, 2)
    );
}

#[test]
fn a_centre_on_a_line_belongs_to_what_is_right_of_it_and_above() {
    let black = |places: &[(i32, i32)]| counted(&on_curve(&[places]));
    assert_eq!(black(&corners(32, 0, 64, 64)), (1, 1));
    assert_eq!(black(&corners(0, 32, 64, 64)), (1, 1));
    assert_eq!(black(&corners(0, 0, 32, 64)), (0, 0));
    assert_eq!(black(&corners(0, 0, 64, 32)), (0, 0));
    assert_eq!(black(&[(0, 0), (64, 0), (64, 64)]), (1, 1));
    assert_eq!(black(&[(0, 0), (64, 64), (0, 64)]), (0, 0));
}

#[test]
fn the_whole_field() {
    let far = 65_535;
    let field = on_curve(&[&corners(-far, -far, far, far)]);
    assert_eq!(counted(&field), (4_194_304, 1));
    let most = 1_023;
    let magnified = on_curve(&[&corners(-most, -most, most, most)]);
    assert_eq!(times(&magnified, 64), (2_046 * 2_046, 1));
    let beyond = on_curve(&[&corners(-most, -most, most, most + 1)]);
    assert_eq!(count_shown(&beyond, 64), Err(Refusal(4)));
}

#[test]
fn every_set_of_faults_answers_the_first() {
    for faults in 0..1 << 4 {
        let has = |fault: u32| faults >> fault & 1 == 1;
        let mut outline = on_curve(&[&corners(0, 0, 64, 64), &corners(0, 0, 64, 64)]);
        let mut magnify = 64;
        if has(0) {
            outline.marks.pop();
        }
        if has(1) {
            magnify = 65;
        }
        if has(2) {
            outline.ends.reverse();
        }
        if has(3) {
            outline.ys[2] = -1_100;
        }
        let first = (0..4).find(|fault| has(*fault));
        let number = [1, 2, 3, 4];
        let expected = first.map(|fault| Refusal(number[fault as usize]));
        assert_eq!(count_shown(&outline, magnify).err(), expected);
    }
}

#[test]
fn refusals_at_their_limits() {
    let outline = |far: i32| walk(&[0, 64, far], &[0, 0, 64], &[1; 3], &[1]);
    for magnify in 1..=64 {
        let most = 65_535 / magnify;
        for far in [most, -most] {
            assert!(count_shown(&outline(far), magnify).is_ok());
            let beyond = outline(far + far.signum());
            assert_eq!(count_shown(&beyond, magnify), Err(Refusal(4)));
        }
    }
    for magnify in [0, -1, 65, i32::MIN, i32::MAX] {
        assert_eq!(count_shown(&outline(0), magnify), Err(Refusal(2)));
    }
    assert_eq!(count_shown(&outline(i32::MIN), 64), Err(Refusal(4)));
    let long = |count: usize| Walk {
        xs: vec![0; count],
        ys: vec![0; count],
        marks: vec![1; count],
        ends: Vec::new(),
    };
    assert!(count_shown(&long(4_096), 1).is_ok());
    assert_eq!(count_shown(&long(4_097), 1), Err(Refusal(1)));
}

#[test]
fn the_words_of_the_call() {
    let mut words = vec![132, 3, 0, 64, 64, 3, 0, 0, 64, 3, 1, 255, 2, 1, 2, 1];
    let answered = |words: &[i32]| job_of(crate::text::write(words).as_bytes()).map(answer);
    assert_eq!(answered(&words).expect("a job").values, [0, 1, 1]);
    words[15] = 0;
    assert_eq!(answered(&words).expect("a job").values, [2, 0, 0]);
    words.push(0);
    assert!(answered(&words).is_none());
    words.truncate(15);
    assert!(answered(&words).is_none());
}

/// Corners less sides plus pixels, and outer less inner turns, both counted at each corner from the four pixels around it.
fn by_corners(picture: &Picture) -> (i32, i32) {
    let height = picture.pixels.len() / picture.width;
    let at = |x: usize, y: usize| {
        let inside = x > 0 && y > 0 && x <= picture.width && y <= height;
        inside && picture.pixels[(y - 1) * picture.width + x - 1]
    };
    let (mut euler, mut turns) = (0, 0);
    for y in 0..=height {
        for x in 0..=picture.width {
            let [a, b, c, d] = [at(x, y), at(x + 1, y), at(x, y + 1), at(x + 1, y + 1)];
            let one = |is: bool| i32::from(is);
            euler += one(a || b || c || d) - one(b || d) - one(c || d) + one(d);
            turns += one(a && !b && !c && !d) - one(b && c && !d);
        }
    }
    (euler, turns)
}

/// Asserts that the three ways to a picture's Euler number agree.
fn assert_alike(picture: &Picture) {
    let flood = picture.pieces() - picture.holes();
    assert_eq!(by_corners(picture), (flood, flood), "{picture:?}");
}

/// A picture of so many columns, with a white frame.
fn framed(columns: usize, rows: usize, mut black: impl FnMut() -> bool) -> Picture {
    let width = columns + 2;
    let mut pixels = vec![false; width * (rows + 2)];
    for row in 1..=rows {
        for column in 1..=columns {
            pixels[row * width + column] = black();
        }
    }
    Picture {
        left: 0,
        bottom: 0,
        width,
        pixels,
    }
}

#[test]
fn pieces_less_holes_of_every_picture_of_4_by_4() {
    for number in 0..1u32 << 16 {
        let mut bits = (0..16).map(|ix| number >> ix & 1 == 1);
        let picture = framed(4, 4, || bits.next().expect("sixteen pixels"));
        assert_alike(&picture);
        let shown = count_shown(&picture_of(number), 1).expect("a picture is accepted");
        let flood = picture.pieces() - picture.holes();
        let expected = Shown {
            black: number.count_ones() as usize,
            euler: flood,
        };
        assert_eq!(shown, expected);
    }
}

#[test]
fn pieces_less_holes_of_a_million_random_pictures() {
    let mut random = Random::new(55);
    let (mut many, mut holed) = (0, 0);
    for _ in 0..1_000_000 {
        let (columns, rows) = (random.below(12) + 1, random.below(12) + 1);
        let share = random.pick(&[2, 3, 5, 7, 8]);
        let picture = framed(columns, rows, || random.below(10) < share);
        assert_alike(&picture);
        many += u32::from(picture.pieces() > 1);
        holed += u32::from(picture.holes() > 0);
    }
    assert!(many > 100_000 && holed > 100_000, "{many} {holed}");
}

/// The jobs that are made up, and whether they are accepted.
fn made_up(each: u32) -> Vec<(Walk, i32)> {
    let mut random = Random::new(132);
    let mut jobs = Vec::new();
    for (_, profile) in PROFILES {
        let count = if profile == Profile::Limits {
            each / 4
        } else {
            each
        };
        for _ in 0..count {
            if let Some(Job::Shown(walk, magnify)) = job_of(&line(132, profile, &mut random)) {
                jobs.push((walk, magnify));
            }
        }
    }
    jobs
}

#[test]
fn the_plain_fill_counts_the_same() {
    let mut done = 0;
    for (outline, magnify) in made_up(4_000) {
        if let Ok(shown) = count_shown(&outline, magnify) {
            assert_eq!(plain::count_shown(&outline, magnify), shown);
            done += 1;
        }
    }
    assert!(done > 8_000, "{done}");
}

/// An outline whose coordinates are changed.
fn moved(outline: &Walk, xs: impl Fn(i32) -> i32, ys: impl Fn(i32) -> i32) -> Walk {
    Walk {
        xs: outline.xs.iter().map(|x| xs(*x)).collect(),
        ys: outline.ys.iter().map(|y| ys(*y)).collect(),
        ..outline.clone()
    }
}

/// An outline whose contours are written backward.
fn backward(outline: &Walk) -> Walk {
    let mut back = outline.clone();
    let mut first = 0;
    for end in outline.ends.iter().map(|end| usize::from(*end)) {
        back.xs[first..=end].reverse();
        back.ys[first..=end].reverse();
        back.marks[first..=end].reverse();
        first = end + 1;
    }
    back
}

#[test]
fn moving_by_pixels_and_writing_backward_change_nothing() {
    let (mut shifted, mut reversed, mut black) = (0, 0, 0);
    for (outline, magnify) in made_up(5_000) {
        let Ok(shown) = count_shown(&outline, magnify) else {
            continue;
        };
        if outline
            .xs
            .iter()
            .chain(&outline.ys)
            .any(|c| c.abs() > 8_192)
        {
            continue;
        }
        black += u32::from(shown.black > 0);
        assert_eq!(count_shown(&backward(&outline), magnify), Ok(shown));
        reversed += 1;
        let by = |x: i32, y: i32| moved(&outline, |at| at + x, |at| at + y);
        for aside in [by(64, 0), by(0, -64), by(-640, 128)] {
            if let Ok(aside) = count_shown(&aside, magnify) {
                assert_eq!(aside, shown);
                shifted += 1;
            }
        }
        let flat = moved(&outline, |x| x, |_| 32);
        let thin = moved(&outline, |_| 96, |y| y);
        for line in [flat, thin] {
            let none = Shown::default();
            assert_eq!(count_shown(&line, magnify).unwrap_or(none), none);
        }
    }
    assert!(reversed > 9_000 && shifted > 20_000, "{reversed} {shifted}");
    assert!(black > 5_000, "{black}");
}

/// What a careless person gets wrong, or nothing.
#[derive(Copy, Clone, PartialEq, Debug)]
enum Slip {
    Nothing,
    RefusesEverything,
    Constant,
    FirstContourOnly,
    RestIsContour,
    UpperEndTakenIn,
    LowerEndLeftOut,
    EvenOdd,
    UpwardAlone,
    CornersBySidesAlone,
    PixelsAlone,
    CurveAsChord,
    CurveByItsPoint,
    Thirty2Lines,
    EightLines,
    CentreOnLineLeftOut,
    CrossingRoundedDown,
    CornersOfPixels,
    NoWayBack,
    StartsAtFirstPoint,
    WholeUnits,
    MagnifiedCurvesInUnits,
    MarkIsOne,
    NotMagnified,
    NarrowRange,
    RangeNotMagnified,
    YNotTested,
    RestNotTested,
    MagnifyTo63,
    TwoBeforeOne,
    ThreeBeforeTwo,
    FourBeforeThree,
}

/// Every slip.
const SLIPS: [Slip; 31] = [
    Slip::RefusesEverything,
    Slip::Constant,
    Slip::FirstContourOnly,
    Slip::RestIsContour,
    Slip::UpperEndTakenIn,
    Slip::LowerEndLeftOut,
    Slip::EvenOdd,
    Slip::UpwardAlone,
    Slip::CornersBySidesAlone,
    Slip::PixelsAlone,
    Slip::CurveAsChord,
    Slip::CurveByItsPoint,
    Slip::Thirty2Lines,
    Slip::EightLines,
    Slip::CentreOnLineLeftOut,
    Slip::CrossingRoundedDown,
    Slip::CornersOfPixels,
    Slip::NoWayBack,
    Slip::StartsAtFirstPoint,
    Slip::WholeUnits,
    Slip::MagnifiedCurvesInUnits,
    Slip::MarkIsOne,
    Slip::NotMagnified,
    Slip::NarrowRange,
    Slip::RangeNotMagnified,
    Slip::YNotTested,
    Slip::RestNotTested,
    Slip::MagnifyTo63,
    Slip::TwoBeforeOne,
    Slip::ThreeBeforeTwo,
    Slip::FourBeforeThree,
];

/// A place in 2,048ths of a unit, so that thirty-two lines are whole numbers too.
type Spot = (i64, i64);

/// The side of a pixel in these.
const SIDE: i64 = 64 * 2_048;

/// The definition as it is read aloud, line by line and pixel by pixel, with a slip.
struct Reading {
    slip: Slip,
}

impl Reading {
    /// The reading with a slip.
    fn of(slip: Slip) -> Self {
        Self { slip }
    }

    /// Whether the slip is this one.
    fn slips(&self, slip: Slip) -> bool {
        self.slip == slip
    }

    /// The call.
    fn count(&self, outline: &Walk, magnify: i32) -> Answer<Shown> {
        if let Some(number) = self.refusal(outline, magnify) {
            return Err(Refusal(number));
        }
        let magnify = if self.slips(Slip::NotMagnified) {
            1
        } else {
            magnify
        };
        let lines = self.lines(outline, magnify.into());
        let ends = || lines.iter().flat_map(|line| [line.0, line.1]);
        let columns = range(ends().map(|end| end.0));
        let rows = range(ends().map(|end| end.1));
        let picture = |row: i64| -> Vec<bool> {
            let columns = columns.clone();
            columns.map(|at| self.is_wound(&lines, at, row)).collect()
        };
        let mut below = vec![false; columns.clone().count()];
        let mut shown = Shown::default();
        for row in rows {
            let here = picture(row);
            for at in 1..here.len() {
                let [a, b, c, d] = [below[at - 1], below[at], here[at - 1], here[at]];
                let one = |is: bool| i32::from(is);
                let sides = one(b || d) + one(c || d);
                shown.black += usize::from(d);
                shown.euler += match self.slip {
                    Slip::CornersBySidesAlone if a && d && !b && !c || b && c && !a && !d => {
                        2 - sides + one(d)
                    }
                    Slip::PixelsAlone => one(d),
                    _ => one(a || b || c || d) - sides + one(d),
                };
            }
            below = here;
        }
        Ok(if self.slips(Slip::Constant) {
            Shown { black: 9, euler: 1 }
        } else {
            shown
        })
    }

    /// Why an outline is refused.
    fn refusal(&self, outline: &Walk, magnify: i32) -> Option<i32> {
        let Walk {
            xs,
            ys,
            marks,
            ends,
        } = outline;
        let count = xs.len();
        let most = if self.slips(Slip::MagnifyTo63) {
            63
        } else {
            64
        };
        let long = count > 4_096 || ys.len() != count || marks.len() != count;
        let times = magnify < 1 || magnify > most;
        let rises = ends.windows(2).all(|pair| pair[0] < pair[1]);
        let wild = !rises || ends.iter().any(|end| usize::from(*end) >= count);
        let far = if self.slips(Slip::NarrowRange) {
            49_149
        } else {
            65_535
        };
        let beyond = |c: &i32| match self.slip {
            Slip::RangeNotMagnified => c.unsigned_abs() > far,
            _ => i64::from(*c).abs() * i64::from(magnify) > i64::from(far),
        };
        let tested = match self.slip {
            Slip::RestNotTested => ends
                .last()
                .map_or(0, |end| usize::from(*end) + 1)
                .min(count),
            _ => count,
        };
        let of_ys = if self.slips(Slip::YNotTested) {
            &[]
        } else {
            &ys[..tested.min(ys.len())]
        };
        let wide = xs[..tested].iter().chain(of_ys).any(beyond);
        let faults = match self.slip {
            Slip::RefusesEverything => return Some(1),
            Slip::TwoBeforeOne => [(times, 2), (long, 1), (wild, 3), (wide, 4)],
            Slip::ThreeBeforeTwo => [(long, 1), (wild, 3), (times, 2), (wide, 4)],
            Slip::FourBeforeThree => [(long, 1), (times, 2), (wide && !times, 4), (wild, 3)],
            _ => [(long, 1), (times, 2), (wild, 3), (wide, 4)],
        };
        let first = faults.iter().find(|fault| fault.0);
        first.map(|fault| fault.1)
    }

    /// The lines of all contours.
    fn lines(&self, outline: &Walk, magnify: i64) -> Vec<(Spot, Spot)> {
        let mut ends: Vec<usize> = outline.ends.iter().map(|end| usize::from(*end)).collect();
        let last = outline.xs.len();
        if self.slips(Slip::RestIsContour) && last > ends.last().map_or(0, |end| end + 1) {
            ends.push(last - 1);
        }
        if self.slips(Slip::FirstContourOnly) {
            ends.truncate(1);
        }
        let mut lines = Vec::new();
        let mut first = 0;
        for end in ends {
            lines.extend(self.contour(outline, magnify, first, end + 1));
            first = end + 1;
        }
        lines
    }

    /// The lines of the contour from one point up to another.
    fn contour(
        &self,
        outline: &Walk,
        magnify: i64,
        first: usize,
        behind: usize,
    ) -> Vec<(Spot, Spot)> {
        let count = behind - first;
        let is_on = |ix: usize| match self.slip {
            Slip::MarkIsOne => outline.marks[ix] == 1,
            _ => outline.marks[ix] != 0,
        };
        let point = |ix: usize| {
            let place = |c: i32| i64::from(c) * magnify * 2_048;
            (place(outline.xs[ix]), place(outline.ys[ix]))
        };
        let halfway = |a: usize, b: usize| {
            let (a, b) = (point(a), point(b));
            let half = |a: i64, b: i64| match self.slip {
                Slip::WholeUnits => ((a + b) / 2).div_euclid(2_048) * 2_048,
                _ => (a + b) / 2,
            };
            (half(a.0, b.0), half(a.1, b.1))
        };
        let on = (first..behind).find(|ix| is_on(*ix));
        let on = if self.slips(Slip::StartsAtFirstPoint) {
            Some(first)
        } else {
            on
        };
        let (start, from, legs) = match on {
            Some(ix) => (point(ix), ix + 1, count - 1),
            None => (halfway(behind - 1, first), first, count),
        };
        let around = |ix: usize| first + (ix - first) % count;
        let (mut at, mut lines) = (start, Vec::new());
        for leg in 0..legs {
            let here = around(from + leg);
            if is_on(here) {
                lines.push((at, point(here)));
                at = point(here);
                continue;
            }
            let next = around(from + leg + 1);
            let to = match leg + 1 == legs {
                true => start,
                false if is_on(next) => point(next),
                false => halfway(here, next),
            };
            self.curve(&mut lines, [at, point(here), to], magnify);
            at = to;
        }
        if !self.slips(Slip::NoWayBack) {
            lines.push((at, start));
        }
        lines
    }

    /// Adds the lines of a curve.
    fn curve(&self, lines: &mut Vec<(Spot, Spot)>, [from, by, to]: [Spot; 3], magnify: i64) {
        let cuts = match self.slip {
            Slip::CurveAsChord => 1,
            Slip::CurveByItsPoint => return lines.extend([(from, by), (by, to)]),
            Slip::Thirty2Lines => 32,
            Slip::EightLines => 8,
            _ => 16,
        };
        let place = |cut: i64| {
            let mix = |a: i64, b: i64, c: i64| {
                let left = cuts - cut;
                let whole = left * left * a + 2 * left * cut * b + cut * cut * c;
                let place = whole / (cuts * cuts);
                match self.slip {
                    Slip::MagnifiedCurvesInUnits => {
                        place.div_euclid(2_048 * magnify) * 2_048 * magnify
                    }
                    _ => place,
                }
            };
            (mix(from.0, by.0, to.0), mix(from.1, by.1, to.1))
        };
        lines.extend((0..cuts).map(|cut| (place(cut), place(cut + 1))));
    }

    /// Whether the lines wind around the centre of a pixel.
    fn is_wound(&self, lines: &[(Spot, Spot)], column: i64, row: i64) -> bool {
        let centre = if self.slips(Slip::CornersOfPixels) {
            0
        } else {
            SIDE / 2
        };
        let (x, y) = (column * SIDE + centre, row * SIDE + centre);
        let crosses = |low: Spot, high: Spot| {
            let rows = match self.slip {
                Slip::UpperEndTakenIn => low.1 <= y && y <= high.1 && low.1 < high.1,
                Slip::LowerEndLeftOut => low.1 < y && y < high.1,
                _ => low.1 <= y && y < high.1,
            };
            let wide = |a: i64, b: i64| i128::from(a) * i128::from(b);
            let at = wide(low.0, high.1 - y) + wide(high.0, y - low.1);
            let place = wide(x, high.1 - low.1);
            rows && match self.slip {
                Slip::CentreOnLineLeftOut => at < place,
                // In 512ths of a unit, as a port has them.
                Slip::CrossingRoundedDown => {
                    at.div_euclid(4 * i128::from(high.1 - low.1)) <= i128::from(x / 4)
                }
                _ => at <= place,
            }
        };
        let ups = lines.iter().filter(|line| crosses(line.0, line.1)).count();
        let downs = lines.iter().filter(|line| crosses(line.1, line.0)).count();
        match self.slip {
            Slip::EvenOdd => (ups + downs) % 2 == 1,
            Slip::UpwardAlone => ups > downs,
            _ => ups != downs,
        }
    }

    /// Whether a pixel of an outline is black.
    fn is_black(&self, outline: &Walk, magnify: i32, column: i64, row: i64) -> bool {
        self.is_wound(&self.lines(outline, magnify.into()), column, row)
    }
}

/// The columns or rows of places, and one on either side.
fn range(places: impl Iterator<Item = i64> + Clone) -> std::ops::RangeInclusive<i64> {
    let pixels = places.map(|place| place.div_euclid(SIDE));
    let (first, last) = (pixels.clone().min(), pixels.max());
    first.unwrap_or(0) - 1..=last.unwrap_or(0) + 1
}

/// Whether the reading, which takes a while for many pixels, is to be asked.
fn is_small(outline: &Walk, magnify: i32) -> bool {
    let refused = count_shown(outline, magnify).is_err();
    let span = |c: &[i32]| {
        let (least, most) = (c.iter().min(), c.iter().max());
        i64::from(most.copied().unwrap_or(0)) - i64::from(least.copied().unwrap_or(0))
    };
    let pixels = |c: &[i32]| span(c) * i64::from(magnify) / 64 + 2;
    let lines = outline.xs.len() as i64 * 16;
    refused || pixels(&outline.xs) * pixels(&outline.ys) * lines < 100_000
}

#[test]
fn the_definition_read_aloud_counts_the_same() {
    let reading = Reading::of(Slip::Nothing);
    let (mut done, mut refused) = (0, 0);
    for (outline, magnify) in made_up(5_000) {
        if !is_small(&outline, magnify) {
            continue;
        }
        let expected = count_shown(&outline, magnify);
        assert_eq!(
            reading.count(&outline, magnify),
            expected,
            "{outline:?} {magnify}"
        );
        done += u32::from(expected.is_ok());
        refused += u32::from(expected.is_err());
    }
    assert!(done > 7_000 && refused > 1_000, "{done} {refused}");
}

#[test]
fn the_definition_read_aloud_counts_the_same_of_every_small_outline() {
    let reading = Reading::of(Slip::Nothing);
    let mut jobs = 0;
    let never: Result<(), Infallible> = small(&mut |job| {
        let Job::Shown(outline, magnify) = job else {
            unreachable!("every job is of this call");
        };
        if outline.xs.len() <= 4 {
            assert_eq!(
                reading.count(outline, *magnify),
                count_shown(outline, *magnify)
            );
        }
        jobs += 1;
        Ok(())
    });
    let Ok(()) = never;
    assert_eq!(jobs, 111_150 + 65_536);
}

#[test]
fn made_up_jobs_tell_slips() {
    let asked: Vec<_> = made_up(4_000)
        .into_iter()
        .filter(|(outline, magnify)| is_small(outline, *magnify))
        .map(|(outline, magnify)| (count_shown(&outline, magnify), outline, magnify))
        .collect();
    for slip in SLIPS {
        let reading = Reading::of(slip);
        let told = asked
            .iter()
            .any(|(expected, outline, magnify)| reading.count(outline, *magnify) != *expected);
        assert!(told, "{slip:?}");
    }
}
