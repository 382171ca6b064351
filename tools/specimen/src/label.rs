//! A label file: glyphs, each an empty line, a title line and the job lines of its chain, as the program label reads them.

use crate::{advance::Advance, text};
use khsaemudol::{
    Building, Dimension, Direction, Edge, Flags, Group, Order, Segment, WidthRule, EDGE_WORDS,
    SEGMENT_WORDS,
};

/// A glyph and all that its chain is given.
#[derive(Clone)]
pub struct Glyph {
    pub title: String,
    /// Its advance width, where the file tells it.
    pub advance: Option<Advance>,
    pub heights: Axis,
    pub widths: Axis,
    pub on_curve: Vec<u8>,
    pub ends: Vec<u16>,
    /// The fitted points, x and y, where the file has them: those of another hinter, for this one to be held to.
    pub held_to: [Vec<i32>; 2],
}

/// What the chain is given of an axis.
#[derive(Clone)]
pub struct Axis {
    /// Units per em, where the library links the segments: CJK alone.
    pub linked_by: Option<i32>,
    pub segments: Vec<Segment>,
    pub building: Building,
    pub zones: Vec<Zone>,
    pub stem_adjust: bool,
    /// The standards that widths snap to, or none where they stay.
    pub standards: Option<Vec<i32>>,
    /// Whether the rule of the lowercase m applies.
    pub is_m: bool,
    /// The positions of the points in design units.
    pub designs: Vec<i16>,
    /// Their marks where they are weak.
    pub weak: Vec<u8>,
    /// Their scaled coordinates.
    pub originals: Vec<i32>,
    /// The segment that each point is on, where it is on one.
    pub segment_of: Vec<Option<usize>>,
    /// The last point of each contour.
    pub ends: Vec<u16>,
}

/// A blue zone: the design position of its edges, their direction where only those of one have it, where that comes to, in units, and whether it is neutral.
#[derive(Clone, Copy, Debug, Default, PartialEq)]
pub struct Zone {
    pub position: i16,
    pub direction: Direction,
    pub fitted: i32,
    pub is_neutral: bool,
}

impl Zone {
    /// Whether an edge is in this zone.
    pub fn has(&self, edge: &Edge) -> bool {
        self.position == edge.fpos() && [Direction::None, edge.dir()].contains(&self.direction)
    }
}

impl Axis {
    /// How widths are fitted.
    pub fn rule(&self) -> WidthRule<'_> {
        self.standards
            .as_deref()
            .map_or(WidthRule::Keep, WidthRule::Snap)
    }
}

/// The glyphs of a label file, or what is wrong with it.
pub fn read(file: &[u8]) -> Result<Vec<Glyph>, String> {
    let mut lines = Lines::of(file);
    let mut glyphs = Vec::new();
    while let Some(title) = lines.title()? {
        glyphs.push(lines.glyph(title)?);
    }
    match glyphs.is_empty() {
        true => Err("there is no glyph in it".into()),
        false => Ok(glyphs),
    }
}

/// What a line begins with that tells an advance width.
const ADVANCE: &[u8] = b"# advance ";

/// The calls that make a chain, by their words.
const WEAK: i32 = 3;
const LINKING: i32 = 4;
const PATH: i32 = 15;
const BUILDING: i32 = 105;
const M: i32 = 113;
const FITTING: i32 = 122;
const REMAINING: i32 = 130;
const STRONG: i32 = 131;

/// The lines that are still to be read, and how many were.
struct Lines<'a> {
    lines: std::iter::Peekable<std::vec::IntoIter<&'a [u8]>>,
    read: usize,
}

impl<'a> Lines<'a> {
    fn of(file: &'a [u8]) -> Self {
        let lines = text::lines(file).into_iter().peekable();
        Self { lines, read: 0 }
    }

    fn next(&mut self) -> Option<&'a [u8]> {
        self.read += 1;
        self.lines.next()
    }

    /// The next glyph's title, or none at the end of the file.
    fn title(&mut self) -> Result<Option<String>, String> {
        while self.lines.next_if(|line| line.is_empty()).is_some() {
            self.read += 1;
        }
        let Some(line) = self.next() else {
            return Ok(None);
        };
        let title = line.strip_prefix(b"# ");
        let title = title
            .ok_or_else(|| self.wrong("a title, which begins with # and a space, is missing"))?;
        Ok(Some(String::from_utf8_lossy(title).into_owned()))
    }

    /// The glyph's advance width, where the line behind its title tells it.
    fn advance(&mut self) -> Result<Option<Advance>, String> {
        let told = self.lines.next_if(|line| line.starts_with(ADVANCE));
        let Some(line) = told else {
            return Ok(None);
        };
        self.read += 1;
        let text = String::from_utf8_lossy(&line[ADVANCE.len()..]);
        let advance = Advance::told(&text).ok_or_else(|| {
            self.wrong(
                "an advance width is 0 to 32767, with fixed behind it where it may not change",
            )
        })?;
        Ok(Some(advance))
    }

    /// The words of the next job, if it is of this call.
    fn job_if(&mut self, call: i32) -> Option<Words> {
        let words = text::parse(self.lines.peek()?)?;
        (words[0] == call).then(|| {
            self.next();
            Words { words, at: 1 }
        })
    }

    /// The words of the next job, which has to be of this call.
    fn job(&mut self, call: i32, name: &str) -> Result<Words, String> {
        let job = self.job_if(call);
        job.ok_or_else(|| {
            format!(
                "line {}: the job of {name}, {call:08X}, is missing",
                self.read + 1
            )
        })
    }

    /// What is wrong with the line that was read last.
    fn wrong(&self, what: &str) -> String {
        format!("line {}: {what}", self.read)
    }

    /// The jobs of a glyph.
    fn glyph(&mut self, title: String) -> Result<Glyph, String> {
        let advance = self.advance()?;
        let axes = [self.axis()?, self.axis()?];
        let (held_to, on_curve, ends) = self.path()?;
        let [first, second] = axes;
        let (heights, widths) = match first.building.dimension {
            Dimension::Vertical => (first, second),
            Dimension::Horizontal => (second, first),
        };
        if heights.building.dimension == widths.building.dimension {
            return Err(self.wrong("both axes of the glyph have one dimension"));
        }
        let count = on_curve.len();
        let counts = |axis: &Axis| [axis.designs.len(), axis.weak.len(), axis.originals.len()];
        if [&heights, &widths].map(counts) != [[count; 3]; 2] {
            return Err(self.wrong("the axes and the path have not as many points"));
        }
        Ok(Glyph {
            title,
            advance,
            heights,
            widths,
            on_curve,
            ends,
            held_to,
        })
    }

    /// The jobs of an axis.
    fn axis(&mut self) -> Result<Axis, String> {
        let linked = match self.job_if(LINKING) {
            None => None,
            Some(job) => Some(self.read_by(job, Words::linking)?),
        };
        let job = self.job(BUILDING, "building")?;
        let (built, building) = self.read_by(job, Words::building)?;
        let (linked_by, segments) = match linked {
            Some((units, segments)) => (Some(units), segments),
            None => (None, built),
        };
        let job = self.job(FITTING, "blue zones and stems")?;
        let (zones, stem_adjust, standards) = self.read_by(job, Words::fitting)?;
        let m = match self.job_if(M) {
            None => None,
            Some(job) => Some(self.read_by(job, Words::m)?),
        };
        let job = self.job(REMAINING, "remaining edges")?;
        self.read_by(job, Words::remaining)?;
        let job = self.job(STRONG, "strong points")?;
        let (designs, weak) = self.read_by(job, Words::strong)?;
        let job = self.job(WEAK, "weak points")?;
        let points = |job: &mut Words| job.points(segments.len());
        let (originals, segment_of, ends) = self.read_by(job, points)?;
        Ok(Axis {
            linked_by,
            segments,
            building,
            zones,
            stem_adjust,
            standards,
            is_m: m.is_some(),
            designs,
            weak,
            originals,
            segment_of,
            ends,
        })
    }

    /// The job of the path: coordinates, if it has them, on-curve marks and contour ends.
    fn path(&mut self) -> Result<Walk, String> {
        let job = self.job(PATH, "the path")?;
        self.read_by(job, Words::path)
    }

    /// What a job says, whose words have to be read to the last.
    fn read_by<T>(
        &self,
        mut job: Words,
        read: impl FnOnce(&mut Words) -> Option<T>,
    ) -> Result<T, String> {
        read(&mut job)
            .filter(|_| job.at == job.words.len())
            .ok_or_else(|| self.wrong("the words are not those of such a job"))
    }
}

/// What the path is told: x and y of points, on-curve marks and contour ends.
type Walk = ([Vec<i32>; 2], Vec<u8>, Vec<u16>);

/// The points of an axis: originals, segments and contour ends.
type Points = (Vec<i32>, Vec<Option<usize>>, Vec<u16>);

/// The words of a job, from a place on.
struct Words {
    words: Vec<i32>,
    at: usize,
}

impl Words {
    fn word(&mut self) -> Option<i32> {
        let word = self.words.get(self.at).copied();
        self.at += 1;
        word
    }

    /// A word that stands for one of these values, by its place.
    fn choice<T: Copy>(&mut self, values: &[T]) -> Option<T> {
        let word = usize::try_from(self.word()?).ok()?;
        values.get(word).copied()
    }

    fn count(&mut self) -> Option<usize> {
        usize::try_from(self.word()?).ok()
    }

    fn numbers<T: TryFrom<i32>>(&mut self) -> Option<Vec<T>> {
        let count = self.count()?;
        (0..count).map(|_| T::try_from(self.word()?).ok()).collect()
    }

    /// Records of so many words, behind their count.
    fn records<const N: usize, T: TryFrom<[i32; N]>>(&mut self) -> Option<Vec<T>> {
        let count = self.count()?;
        let record = |_| {
            let words = self.words.get(self.at..self.at + N)?;
            self.at += N;
            T::try_from(words.try_into().ok()?).ok()
        };
        (0..count).map(record).collect()
    }

    fn segments(&mut self) -> Option<Vec<Segment>> {
        self.records::<SEGMENT_WORDS, _>()
    }

    fn edges(&mut self) -> Option<Vec<Edge>> {
        self.records::<EDGE_WORDS, _>()
    }

    fn direction(&mut self) -> Option<Direction> {
        self.choice(&[
            Direction::None,
            Direction::Right,
            Direction::Left,
            Direction::Up,
            Direction::Down,
        ])
    }

    fn dimension(&mut self) -> Option<Dimension> {
        self.choice(&[Dimension::Horizontal, Dimension::Vertical])
    }

    fn group(&mut self) -> Option<Group> {
        self.choice(&[Group::Latin, Group::Cjk])
    }

    fn order(&mut self) -> Option<Order> {
        self.choice(&[Order::BottomToTop, Order::TopToBottom])
    }

    /// Linking: units per em and the segments. Major direction and scale are building's too.
    fn linking(&mut self) -> Option<(i32, Vec<Segment>)> {
        let segments = self.segments()?;
        self.direction()?;
        let units_per_em = self.word()?;
        self.word()?;
        Some((units_per_em, segments))
    }

    /// Building: its segments, none where they were linked before, no edges, and its numbers.
    fn building(&mut self) -> Option<(Vec<Segment>, Building)> {
        let segments = self.segments()?;
        self.edges()?;
        let building = Building {
            dimension: self.dimension()?,
            major: self.direction()?,
            group: self.group()?,
            order: self.order()?,
            scale: self.word().filter(|scale| *scale > 0)?,
            distance: self.word()?,
            length: self.word()?,
            width: self.word()?,
        };
        Some((segments, building))
    }

    /// Blue zones and stems: the zones of the edges that have one, whether CJK stems may be moved as far as it takes, and the width rule's standards.
    fn fitting(&mut self) -> Option<(Vec<Zone>, bool, Option<Vec<i32>>)> {
        let edges = self.edges()?;
        let zone = |edge: &Edge| {
            Some(Zone {
                position: edge.fpos(),
                direction: edge.dir(),
                fitted: edge.blue()?,
                is_neutral: edge.flags().contains(Flags::NEUTRAL),
            })
        };
        let zones = edges.iter().filter_map(zone).collect();
        self.dimension()?;
        self.group()?;
        let stem_adjust = self.choice(&[false, true])?;
        self.order()?;
        let snap = self.choice(&[false, true])?;
        Some((zones, stem_adjust, Some(self.numbers()?).filter(|_| snap)))
    }

    /// The rule of the lowercase m: no edges, and the group, which is building's too.
    fn m(&mut self) -> Option<()> {
        self.edges()?;
        self.group()?;
        Some(())
    }

    /// Remaining edges: no edges, dimension and group, which are building's too, and no count and anchor, which are the stems'.
    fn remaining(&mut self) -> Option<()> {
        self.edges()?;
        self.dimension()?;
        self.group()?;
        self.word()?;
        self.word()?;
        Some(())
    }

    /// Strong points: no edges, where points are drawn, three lists that are left to weak points, and which points are weak.
    fn strong(&mut self) -> Option<(Vec<i16>, Vec<u8>)> {
        self.edges()?;
        let designs = self.numbers()?;
        for _ in 0..3 {
            self.numbers::<i32>()?;
        }
        Some((designs, self.numbers()?))
    }

    /// Weak points: the originals, the segment that each point is on, one of so many, and the contour ends. A mark is a segment's number, counted from 1.
    fn points(&mut self, segments: usize) -> Option<Points> {
        let originals: Vec<i32> = self.numbers()?;
        self.numbers::<i32>()?;
        let marks: Vec<usize> = self.numbers()?;
        let ends = self.numbers()?;
        let known = marks.len() == originals.len() && marks.iter().all(|mark| *mark <= segments);
        let segment_of = marks.iter().map(|mark| mark.checked_sub(1)).collect();
        known.then_some((originals, segment_of, ends))
    }

    /// The path: coordinates or none, on-curve marks and contour ends.
    fn path(&mut self) -> Option<Walk> {
        let places = [self.numbers()?, self.numbers()?];
        let marks: Vec<i32> = self.numbers()?;
        let on_curve = marks.iter().map(|mark| u8::from(*mark != 0)).collect();
        Some((places, on_curve, self.numbers()?))
    }
}
