//! An axis in one call: the same as the calls in a row, and nothing written where it is refused.

use khsaemudol::*;

/// An axis whose edges are built, and its points; everything that the call is lent.
#[derive(Clone, Debug, PartialEq)]
struct Axis {
    segments: Vec<Segment>,
    edges: Vec<Edge>,
    fonts: Vec<i16>,
    originals: Vec<i32>,
    currents: Vec<i32>,
    touched: Vec<u8>,
    weak: Vec<u8>,
    ends: Vec<u16>,
}

/// An edge in design units, with its link and its serif.
type Place = (i16, Option<u16>, Option<u16>);

/// Stems, each of two edges that are linked to each other.
fn stems<const N: usize>(places: [i16; N]) -> Vec<Place> {
    let link = |ix: usize| Some((ix ^ 1) as u16);
    (0..N).map(|ix| (places[ix], link(ix), None)).collect()
}

impl Axis {
    /// An axis of edges, each of a segment of two points, with a strong and a weak point behind them; the first two edges are of one contour, and the others of another.
    fn of(places: &[Place]) -> Self {
        let scaled = |font: i16| i32::from(font) * 3 / 4;
        let edge = |(ix, &(fpos, link, serif)): (usize, &Place)| {
            let edge = Edge::default().with_fpos(fpos).with_opos(scaled(fpos));
            edge.with_pos(scaled(fpos))
                .with_link(link)
                .with_serif(serif)
                .with_first(ix as u16)
                .with_last(ix as u16)
        };
        let segment = |ix: u16| {
            Segment::default()
                .with_edge(Some(ix))
                .with_next(Some(ix))
                .with_first(4 * ix)
                .with_last(4 * ix + 1)
        };
        let around = |place: &Place| [0, 0, 9, 13].map(|beyond| place.0 + beyond);
        let fonts: Vec<i16> = places.iter().flat_map(around).collect();
        let originals: Vec<i32> = fonts.iter().copied().map(scaled).collect();
        let count = places.len() as u16;
        let mut axis = Self {
            segments: (0..count).map(segment).collect(),
            edges: places.iter().enumerate().map(edge).collect(),
            currents: originals.clone(),
            touched: vec![0; fonts.len()],
            weak: [0, 0, 0, 1].repeat(places.len()),
            ends: vec![7, 4 * count - 1],
            fonts,
            originals,
        };
        axis.ends.dedup();
        axis
    }

    /// The same with an edge that is done, at a position.
    fn done(mut self, edge: usize, pos: i32) -> Self {
        self.edges[edge] = self.edges[edge].with_pos(pos).with_flags(Flags::DONE);
        self
    }

    /// The same with a zone at the foot, where that is a stem and the group has zones.
    fn zoned(mut self, given: &Fitting<'_>) -> Self {
        let zones = given.dimension == Dimension::Vertical || given.group == Group::Cjk;
        if zones && self.edges[0].link().is_some() {
            self.edges[0].set_blue(Some(64));
        }
        self
    }

    /// Fits it in one call.
    fn fit(&mut self, given: &Fitting<'_>) -> Result<Fitted, Refusal> {
        let points = AxisPoints {
            fonts: &self.fonts,
            originals: &self.originals,
            weak: &self.weak,
            ends: &self.ends,
        };
        let (currents, touched) = (&mut self.currents, &mut self.touched);
        fit_axis(
            &self.segments,
            &mut self.edges,
            given,
            &points,
            currents,
            touched,
        )
    }

    /// Fits it call by call.
    fn fit_in_a_row(&mut self, given: &Fitting<'_>) -> Result<Fitted, Refusal> {
        let (dimension, group) = (given.dimension, given.group);
        let edges = &mut self.edges;
        let joined = BluesAndStems {
            dimension,
            group,
            stem_adjust: given.stem_adjust,
            order: Order::BottomToTop,
            rule: given.rule,
        };
        let mut stems = align_blues_and_stems(edges, &joined)?;
        let evened = given.lowercase_m && dimension == Dimension::Horizontal;
        if evened && [6, 12].contains(&edges.len()) {
            hint_lowercase_m(edges, group)?;
        }
        if stems.passed_over > 0 || stems.anchor.is_none() {
            stems.anchor = align_remaining_edges(edges, dimension, group, stems)?;
        }
        let lost = lost_gaps(edges, given.least, given.linked)?;
        self.move_points(given.moving)?;
        Ok(Fitted {
            lost,
            passed_over: stems.passed_over,
            anchor: stems.anchor,
        })
    }

    /// Moves its points by its edges, call by call.
    fn move_points(&mut self, moving: Moving) -> Result<(), Refusal> {
        let (currents, touched) = (&mut self.currents, &mut self.touched);
        let (segments, edges, ends) = (&self.segments, &self.edges, &self.ends);
        align_edge_points(segments, edges, moving, currents, touched, ends)?;
        let (fonts, originals) = (&self.fonts, &self.originals);
        align_strong_points(edges, fonts, originals, currents, touched, &self.weak)?;
        align_weak_points(originals, currents, touched, ends)
    }
}

/// Fitting that most tests ask for.
const FITTING: Fitting<'_> = Fitting {
    dimension: Dimension::Vertical,
    group: Group::Latin,
    stem_adjust: false,
    moving: Moving {
        snap: true,
        done_alone: false,
    },
    rule: WidthRule::Snap(&[64, 128]),
    lowercase_m: false,
    least: 32,
    linked: true,
};

/// An m: three stems, the third of them a little too far.
fn m() -> Axis {
    Axis::of(&stems([40, 120, 290, 372, 545, 630]))
}

/// A bar, a serif of its upper side, a lone edge and a stem too close to it.
fn with_serifs() -> Axis {
    let lone = [(160, None, Some(1)), (230, None, None)];
    let mut places = stems([-12, 68]);
    places.extend(lone);
    places.extend([(250, Some(5), None), (330, Some(4), None)]);
    Axis::of(&places)
}

/// The axes that are fitted both ways.
fn axes() -> Vec<Axis> {
    let mut two = with_serifs();
    // a point on the way that is touched already, and a segment without an edge
    two.touched[2] = 7;
    two.segments.push(Segment::default());
    let bars = [0, 70, 100, 190, 200, 300, 320, 400, 900, 980, 1_060, 1_140];
    vec![
        m(),
        with_serifs(),
        two,
        Axis::of(&stems(bars)),
        Axis::of(&stems([0, 100])),
        Axis::of(&[(0, None, None), (30, None, None)]),
    ]
}

/// All ways in which an axis is fitted.
fn ways() -> Vec<Fitting<'static>> {
    let mut ways = Vec::new();
    for choices in 0..256 {
        let choice = |bit: u32| choices >> bit & 1 == 1;
        ways.push(Fitting {
            dimension: [Dimension::Horizontal, Dimension::Vertical][usize::from(choice(0))],
            group: [Group::Latin, Group::Cjk][usize::from(choice(1))],
            stem_adjust: choice(2),
            moving: Moving {
                snap: choice(3),
                done_alone: choice(4),
            },
            rule: [WidthRule::Keep, FITTING.rule][usize::from(choice(5))],
            lowercase_m: choice(6),
            least: 0,
            linked: choice(7),
        });
    }
    ways
}

#[test]
fn the_same_as_the_calls_in_a_row() {
    let (mut lost, mut passed_over, mut without_anchor) = (0, 0, 0);
    for axis in axes() {
        for given in ways() {
            let mut once = axis.clone().zoned(&given);
            let mut in_a_row = once.clone();
            let fitted = once.fit(&given).expect("the axis is accepted");
            assert_eq!(Ok(fitted), in_a_row.fit_in_a_row(&given), "{given:?}");
            assert_eq!(once, in_a_row, "{given:?}");
            lost += usize::from(fitted.lost.first.is_some());
            passed_over += usize::from(fitted.passed_over > 0);
            without_anchor += usize::from(fitted.anchor.is_none());
        }
    }
    assert!(lost > 0 && passed_over > 0 && without_anchor > 0);
}

#[test]
fn an_m_is_evened_out_where_it_is_one() {
    let across = Fitting {
        dimension: Dimension::Horizontal,
        ..FITTING
    };
    let marks = |given: &Fitting<'_>| {
        let mut axis = m();
        axis.fit(given).unwrap();
        axis.edges[4].mark()
    };
    assert_eq!(marks(&across), Mark::Stem);
    let lowercase_m = true;
    let upward = Fitting {
        lowercase_m,
        ..FITTING
    };
    assert_eq!(marks(&upward), Mark::Stem);
    let even = Fitting {
        lowercase_m,
        ..across
    };
    assert_eq!(marks(&even), Mark::LowercaseM);
}

#[test]
fn an_empty_axis() {
    let nothing = AxisPoints {
        fonts: &[],
        originals: &[],
        weak: &[],
        ends: &[],
    };
    let fitted = Fitted {
        lost: LostGaps::default(),
        passed_over: 0,
        anchor: None,
    };
    assert_eq!(
        fit_axis(&[], &mut [], &FITTING, &nothing, &mut [], &mut []),
        Ok(fitted)
    );
}

/// The call refuses an axis by this, and leaves all that it was lent.
fn refused(axis: &Axis, given: &Fitting<'_>, refusal: Refusal) {
    let mut lent = axis.clone();
    assert_eq!(lent.fit(given), Err(refusal));
    assert_eq!(lent, *axis);
}

/// The same of an axis of one stem that is damaged.
fn refuses(refusal: Refusal, damage: impl FnOnce(&mut Axis)) {
    let mut axis = Axis::of(&stems([0, 100]));
    damage(&mut axis);
    refused(&axis, &FITTING, refusal);
}

#[test]
fn lists_that_are_too_long() {
    let refuses = |damage: fn(&mut Axis)| refuses(Refusal::TooLong, damage);
    refuses(|axis| axis.segments.resize(MOST_SEGMENTS + 1, Segment::default()));
    refuses(|axis| axis.edges.resize(MOST_EDGES + 1, Edge::default()));
    refuses(|axis| {
        axis.fonts.resize(4_097, 0);
        axis.originals.resize(4_097, 0);
        axis.currents.resize(4_097, 0);
        axis.touched.resize(4_097, 0);
        axis.weak.resize(4_097, 0);
    });
    refuses(|axis| axis.fonts.push(0));
    refuses(|axis| axis.originals.push(0));
    refuses(|axis| axis.currents.push(0));
    refuses(|axis| axis.touched.push(0));
    refuses(|axis| axis.weak.push(0));
    // in front of a parameter
    let mut axis = Axis::of(&stems([0, 100]));
    axis.weak.clear();
    let given = Fitting {
        least: -1,
        ..FITTING
    };
    refused(&axis, &given, Refusal::TooLong);
}

#[test]
fn parameters_outside_their_limits() {
    let mut axis = Axis::of(&stems([0, 100]));
    // an index beyond its list comes behind
    axis.edges[0].set_link(Some(2));
    let refuses = |axis: &Axis, given: Fitting<'_>| refused(axis, &given, Refusal::BadParameter);
    for least in [-1, 65_536, i32::MIN, i32::MAX] {
        refuses(&axis, Fitting { least, ..FITTING });
    }
    for standards in [&[0][..], &[64, 64], &[16_384], &[1; 17]] {
        let rule = WidthRule::Snap(standards);
        refuses(&axis, Fitting { rule, ..FITTING });
    }
    let dimension = Dimension::Horizontal;
    axis.edges[1].set_blue(Some(0));
    let across = Fitting {
        dimension,
        ..FITTING
    };
    refuses(&axis, across);
}

#[test]
fn indices_beyond_their_lists() {
    let refuses = |damage: fn(&mut Axis)| refuses(Refusal::BadIndex, damage);
    refuses(|axis| axis.segments[1].set_link(Some(2)));
    refuses(|axis| axis.segments[1].set_serif(Some(2)));
    refuses(|axis| axis.segments[1].set_edge(Some(2)));
    refuses(|axis| axis.segments[1].set_next(Some(2)));
    refuses(|axis| axis.edges[1].set_link(Some(2)));
    refuses(|axis| axis.edges[1].set_serif(Some(2)));
    refuses(|axis| axis.edges[1].set_first(2));
    refuses(|axis| axis.edges[1].set_last(2));
    refuses(|axis| axis.ends[0] = 8);
    refuses(|axis| axis.ends = vec![7, 7]);
    // on two contours, behind the last one, and in front of a number
    refuses(|axis| axis.ends = vec![4, 7]);
    refuses(|axis| axis.ends = vec![3]);
    refuses(|axis| {
        axis.segments[1].set_last(8);
        axis.currents[0] = 65_536;
    });
}

#[test]
fn numbers_out_of_range() {
    let refuses = |damage: fn(&mut Axis)| refuses(Refusal::OutOfRange, damage);
    refuses(|axis| axis.segments[1].set_score(-1));
    refuses(|axis| axis.segments[1].set_overlap(65_536));
    refuses(|axis| axis.edges[1].set_opos(65_536));
    refuses(|axis| axis.edges[1].set_pos(-16_777_217));
    refuses(|axis| axis.edges[1].set_blue(Some(65_536)));
    refuses(|axis| axis.originals[7] = -65_536);
    refuses(|axis| axis.currents[7] = 65_536);
}

#[test]
fn refused_on_the_way_by_edges() {
    // the second stem's first side is placed by its other one, which is done, beyond what is accepted
    let far = m().done(3, -16_777_216);
    let across = Fitting {
        dimension: Dimension::Horizontal,
        lowercase_m: true,
        ..FITTING
    };
    refused(&far, &across, Refusal::OutOfRange);
    refused(&far, &FITTING, Refusal::OutOfRange);
    // a serif of an edge at the limit
    let steep = with_serifs().done(0, 0).done(1, 16_777_216);
    refused(&steep, &FITTING, Refusal::TooSteep);
}

#[test]
fn refused_on_the_way_by_points() {
    let stem = || Axis::of(&stems([0, 100]));
    let placed = |low: i32, high: i32| stem().done(0, low).done(1, high);
    // an edge by which points are moved
    refused(&placed(0, 65_536), &FITTING, Refusal::OutOfRange);
    // a current behind edge points, which were moved with their edge
    let mut moved = placed(0, 60_000);
    moved.currents[4] = 60_000;
    let moving = Moving {
        snap: false,
        ..FITTING.moving
    };
    refused(&moved, &Fitting { moving, ..FITTING }, Refusal::OutOfRange);
    // a current behind strong points, beyond the last edge
    let mut strong = placed(0, 65_000);
    strong.originals[6] = 20_000;
    refused(&strong, &FITTING, Refusal::OutOfRange);
    // a strong point between two edges that are too far apart
    let mut steep = placed(-40_000, 40_000);
    steep.edges[1].set_fpos(2);
    steep.fonts[2] = 1;
    refused(&steep, &FITTING, Refusal::TooSteep);
    // a weak point between two points that are
    let mut weak = placed(-40_000, 40_000);
    weak.weak = vec![1; 8];
    weak.originals = vec![0, 0, 1, 1, 2, 2, 2, 2];
    refused(&weak, &FITTING, Refusal::TooSteep);
}
