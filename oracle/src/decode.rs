//! Words back to a job, or not a job.

use crate::{
    job::{
        Building, Catalogue, CjkStem, Dimension, Direction, Edge, EdgePoints, Fit, Job, Joined,
        Mark, Points, References, Remaining, ScaledWidth, ScriptGroup, Segment, Stems, Strong,
        Table, TopoFlags, Walk, WidthRule,
    },
    limits::{EDGES, FIT_NUMBERS, LENT, NUMBERS, SEGMENTS},
};

/// The job that these words are, if they are one.
pub fn decode(words: &[i32]) -> Option<Job> {
    let mut r = Reader { words };
    let job = r.job()?;
    r.words.is_empty().then_some(job)
}

/// The words that are still to be read; every read may find that this is not a job.
struct Reader<'a> {
    words: &'a [i32],
}

impl Reader<'_> {
    /// A number of any value.
    fn word(&mut self) -> Option<i32> {
        let (first, rest) = self.words.split_first()?;
        self.words = rest;
        Some(*first)
    }

    /// A number of a narrower type.
    fn number<T: TryFrom<i32>>(&mut self) -> Option<T> {
        T::try_from(self.word()?).ok()
    }

    /// A count up to a limit.
    fn count(&mut self, limit: usize) -> Option<usize> {
        self.number().filter(|count| *count <= limit)
    }

    /// A choice.
    fn choice(&mut self) -> Option<bool> {
        match self.word()? {
            0 => Some(false),
            1 => Some(true),
            _ => None,
        }
    }

    /// An index or none.
    fn index(&mut self) -> Option<Option<u16>> {
        match self.word()? {
            -1 => Some(None),
            ix => u16::try_from(ix).ok().map(Some),
        }
    }

    /// A direction.
    fn direction(&mut self) -> Option<Direction> {
        use Direction::*;
        let directions = [None, Right, Left, Up, Down];
        directions.get(self.number::<usize>()?).copied()
    }

    /// A group.
    fn group(&mut self) -> Option<ScriptGroup> {
        Some(match self.choice()? {
            false => ScriptGroup::Default,
            true => ScriptGroup::Cjk,
        })
    }

    /// A dimension.
    fn dimension(&mut self) -> Option<Dimension> {
        Some(match self.choice()? {
            false => Dimension::Horizontal,
            true => Dimension::Vertical,
        })
    }

    /// Flags.
    fn flags(&mut self) -> Option<TopoFlags> {
        let bits = self.number::<u8>()?;
        (bits <= 15).then(|| TopoFlags::from_bits_truncate(bits))
    }

    /// A list of numbers.
    fn numbers<T: TryFrom<i32>>(&mut self) -> Option<Vec<T>> {
        let count = self.count(NUMBERS)?;
        (0..count).map(|_| self.number()).collect()
    }

    /// A width rule.
    fn rule(&mut self) -> Option<WidthRule> {
        let snap = self.choice()?;
        self.standards(snap)
    }

    /// The standards of a width rule that snaps or keeps.
    fn standards(&mut self, snap: bool) -> Option<WidthRule> {
        let standards = self.numbers()?;
        Some(if snap {
            WidthRule::Snap(standards)
        } else {
            WidthRule::Keep(standards)
        })
    }

    /// A segment.
    fn segment(&mut self) -> Option<Segment> {
        Some(Segment {
            flags: self.flags()?,
            dir: self.direction()?,
            pos: self.number()?,
            delta: self.number()?,
            min_coord: self.number()?,
            max_coord: self.number()?,
            height: self.number()?,
            score: self.word()?,
            len: self.word()?,
            link_ix: self.index()?,
            serif_ix: self.index()?,
            first_ix: self.number()?,
            last_ix: self.number()?,
            edge_ix: self.index()?,
            edge_next_ix: self.index()?,
        })
    }

    /// An edge.
    fn edge(&mut self) -> Option<Edge> {
        Some(Edge {
            fpos: self.number()?,
            opos: self.word()?,
            pos: self.word()?,
            flags: self.flags()?,
            dir: self.direction()?,
            blue_edge: self.blue()?,
            link_ix: self.index()?,
            serif_ix: self.index()?,
            first_ix: self.number()?,
            last_ix: self.number()?,
            mark: self.mark()?,
            ..Edge::default()
        })
    }

    /// A mark.
    fn mark(&mut self) -> Option<Mark> {
        Mark::ALL.get(self.number::<usize>()?).copied()
    }

    /// A blue or its absence; an absent one has fitted 0.
    fn blue(&mut self) -> Option<Option<ScaledWidth>> {
        let present = self.choice()?;
        let fitted = self.word()?;
        match (present, fitted) {
            (true, fitted) => Some(Some(ScaledWidth { fitted })),
            (false, 0) => Some(None),
            (false, _) => None,
        }
    }

    /// As many records as the count says, up to the table's limit.
    fn table<T>(
        &mut self,
        limit: usize,
        record: impl Fn(&mut Self) -> Option<T>,
    ) -> Option<Table<T>> {
        let count = self.count(u16::MAX.into())?;
        let items = (0..count.min(limit)).map(|_| record(self));
        Some(Table {
            count,
            items: items.collect::<Option<Vec<T>>>()?,
        })
    }

    /// A table of segments.
    fn segments(&mut self) -> Option<Table<Segment>> {
        self.table(SEGMENTS, Self::segment)
    }

    /// A table of edges.
    fn edges(&mut self) -> Option<Table<Edge>> {
        self.table(EDGES, Self::edge)
    }

    /// A whole job.
    fn job(&mut self) -> Option<Job> {
        Some(match self.word()? {
            1 => Job::MidPos(self.word()?, self.word()?),
            2 => Job::MidDelta(self.word()?, self.word()?),
            3 => Job::Weak(self.points()?),
            4 => Job::Link(
                self.segments()?,
                self.direction()?,
                self.word()?,
                self.word()?,
            ),
            15 => Job::Path(self.walk()?),
            16 => Job::PathStep(self.walk()?, self.number()?),
            17 => Job::Catalogue(self.catalogue()?),
            18 => Job::Remember(self.numbers()?, self.numbers()?, self.references()?),
            19 => Job::WithReferences(self.points()?, self.references()?),
            20 => Job::Drag(self.points()?, self.number()?),
            25 => Job::WriteFrame(self.points()?, self.numbers()?),
            26 => Job::ReadFrame(self.numbers()?),
            105 => Job::Build(self.segments()?, self.edges()?, self.building()?),
            106 => Job::Blues(
                self.edges()?,
                self.dimension()?,
                self.group()?,
                self.rule()?,
            ),
            107 => Job::Linked(self.edges()?, self.rule()?, self.number()?, self.number()?),
            108 => Job::Serif(self.edges()?, self.number()?, self.number()?),
            109 => Job::Adjust(
                self.edges()?,
                self.number()?,
                self.choice()?,
                self.choice()?,
            ),
            110 => Job::Bounds(self.edges()?, self.number()?),
            111 => Job::CjkStem(self.edges()?, self.cjk_stem()?),
            112 => Job::Stems(self.edges()?, self.stems()?),
            113 => Job::M(self.edges()?, self.group()?),
            114 => Job::MLent(self.lent()?, self.group()?),
            121 => Job::Mend(self.segments()?, self.edges()?),
            122 => Job::Joined(self.edges()?, self.joined()?),
            123 => Job::Pack(self.segments()?, self.edges()?),
            124 => Job::TurnOver(self.segments()?, self.edges()?),
            127 => Job::Gaps(self.edges()?, self.word()?, self.choice()?),
            128 => Job::EdgePoints(self.segments()?, self.edges()?, self.edge_points()?),
            129 => Job::Fit(self.segments()?, self.edges()?, self.fit()?),
            130 => Job::Remaining(self.edges()?, self.remaining()?),
            131 => Job::Strong(self.edges()?, self.strong()?),
            132 => Job::Shown(self.walk()?, self.word()?),
            _ => return None,
        })
    }

    /// One axis of an outline.
    fn points(&mut self) -> Option<Points> {
        Some(Points {
            originals: self.numbers()?,
            currents: self.numbers()?,
            touches: self.numbers()?,
            ends: self.numbers()?,
        })
    }

    /// The list beside an outline.
    fn references(&mut self) -> Option<References> {
        Some(References {
            before: self.numbers()?,
            behind: self.numbers()?,
        })
    }

    /// An outline to be walked.
    fn walk(&mut self) -> Option<Walk> {
        Some(Walk {
            xs: self.numbers()?,
            ys: self.numbers()?,
            marks: self.numbers()?,
            ends: self.numbers()?,
        })
    }

    /// Outlines one behind another.
    fn catalogue(&mut self) -> Option<Catalogue> {
        Some(Catalogue {
            shared: self.points()?,
            point_counts: self.numbers()?,
            contour_counts: self.numbers()?,
            answers: self.numbers()?,
        })
    }

    /// What building is told.
    fn building(&mut self) -> Option<Building> {
        Some(Building {
            dim: self.dimension()?,
            major: self.direction()?,
            group: self.group()?,
            top_to_bottom: self.choice()?,
            scale: self.word()?,
            distance: self.word()?,
            length: self.word()?,
            width: self.word()?,
        })
    }

    /// What the CJK stem is told.
    fn cjk_stem(&mut self) -> Option<CjkStem> {
        Some(CjkStem {
            dim: self.dimension()?,
            stem_adjust: self.choice()?,
            rule: self.rule()?,
            edge: self.number()?,
            edge2: self.number()?,
            delta: self.word()?,
        })
    }

    /// What the stem pass is told.
    fn stems(&mut self) -> Option<Stems> {
        Some(Stems {
            dim: self.dimension()?,
            group: self.group()?,
            stem_adjust: self.choice()?,
            top_to_bottom: self.choice()?,
            anchor: self.index()?,
            rule: self.rule()?,
        })
    }

    /// What blues and stems in one call are told.
    fn joined(&mut self) -> Option<Joined> {
        Some(Joined {
            dim: self.dimension()?,
            group: self.group()?,
            stem_adjust: self.choice()?,
            top_to_bottom: self.choice()?,
            rule: self.rule()?,
        })
    }

    /// What remaining edges are told.
    fn remaining(&mut self) -> Option<Remaining> {
        Some(Remaining {
            dim: self.dimension()?,
            group: self.group()?,
            count: self.number()?,
            anchor: self.index()?,
        })
    }

    /// What strong points are told.
    fn strong(&mut self) -> Option<Strong> {
        Some(Strong {
            fonts: self.numbers()?,
            originals: self.numbers()?,
            currents: self.numbers()?,
            touches: self.numbers()?,
            weak: self.numbers()?,
        })
    }

    /// What edge points are told.
    fn edge_points(&mut self) -> Option<EdgePoints> {
        Some(EdgePoints {
            snap: self.choice()?,
            done_alone: self.choice()?,
            currents: self.numbers()?,
            touches: self.numbers()?,
            ends: self.numbers()?,
        })
    }

    /// What fitting an axis is told: its numbers in a list that has just these, and the other lists.
    fn fit(&mut self) -> Option<Fit> {
        self.count(FIT_NUMBERS)
            .filter(|count| *count == FIT_NUMBERS)?;
        let (dim, group) = (self.dimension()?, self.group()?);
        let (stem_adjust, snap, done_alone) = (self.choice()?, self.choice()?, self.choice()?);
        let (snaps_widths, lowercase_m) = (self.choice()?, self.choice()?);
        let (least, linked) = (self.word()?, self.choice()?);
        Some(Fit {
            dim,
            group,
            stem_adjust,
            snap,
            done_alone,
            rule: self.standards(snaps_widths)?,
            lowercase_m,
            least,
            linked,
            fonts: self.numbers()?,
            originals: self.numbers()?,
            currents: self.numbers()?,
            touches: self.numbers()?,
            weak: self.numbers()?,
            ends: self.numbers()?,
        })
    }

    /// A lent list of edges.
    fn lent(&mut self) -> Option<Vec<Edge>> {
        let count = self.count(LENT)?;
        (0..count).map(|_| self.edge()).collect()
    }
}
