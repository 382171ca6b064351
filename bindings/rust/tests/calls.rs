//! Every call of the library through the wrapper: what it does, and by what it is refused, nothing being written then.

use khsaemudol::*;

/// An edge at a position, unmoved.
fn at(opos: i32) -> Edge {
    Edge::default().with_opos(opos).with_pos(opos)
}

/// A stem of two edges.
fn stem(low: i32, high: i32) -> [Edge; 2] {
    [at(low).with_link(Some(1)), at(high).with_link(Some(0))]
}

/// What gave each edge its position.
fn marks<const N: usize>(edges: [Edge; N]) -> [Mark; N] {
    edges.map(|edge| edge.mark())
}

/// A segment at a position, 200 long.
fn side(dir: Direction, pos: i16) -> Segment {
    Segment::default()
        .with_dir(dir)
        .with_pos(pos)
        .with_max_coord(200)
        .with_height(200)
        .with_score(32_000)
}

/// Building that most tests ask for.
const BUILDING: Building = Building {
    dimension: Dimension::Vertical,
    major: Direction::Left,
    group: Group::Latin,
    order: Order::BottomToTop,
    scale: 65_536,
    distance: 3,
    length: 0,
    width: 32,
};

/// A stem pass on the vertical axis.
const PASS: StemPass<'_> = StemPass {
    dimension: Dimension::Vertical,
    group: Group::Latin,
    stem_adjust: false,
    order: Order::BottomToTop,
    anchor: None,
    rule: WidthRule::Keep,
};

/// Blues and stems on the vertical axis.
const JOINED: BluesAndStems<'_> = BluesAndStems {
    dimension: Dimension::Vertical,
    group: Group::Latin,
    stem_adjust: false,
    order: Order::BottomToTop,
    rule: WidthRule::Keep,
};

/// A CJK stem of edges 0 and 1.
const STEM: CjkStem<'_> = CjkStem {
    dimension: Dimension::Vertical,
    stem_adjust: false,
    rule: WidthRule::Keep,
    edge: 0,
    edge2: 1,
    delta: 0,
};

/// A call over edges is refused by this, and leaves them.
fn refused<T>(
    edges: &[Edge],
    refusal: Refusal,
    call: impl FnOnce(&mut [Edge]) -> Result<T, Refusal>,
) {
    let mut lent = edges.to_vec();
    assert_eq!(call(&mut lent).err(), Some(refusal));
    assert_eq!(lent, edges);
}

/// What every call over edges refuses: too many, a link that is beyond them, a position outside its limits.
fn refuses_edges<T>(edges: &[Edge], call: impl Fn(&mut [Edge]) -> Result<T, Refusal>) {
    let many = vec![Edge::default(); MOST_EDGES + 1];
    refused(&many, Refusal::TooLong, &call);
    let with = |edge: Edge| {
        let mut edges = edges.to_vec();
        edges[0] = edge;
        edges
    };
    refused(
        &with(edges[0].with_link(Some(u16::MAX))),
        Refusal::BadIndex,
        &call,
    );
    refused(
        &with(edges[0].with_serif(Some(200))),
        Refusal::BadIndex,
        &call,
    );
    refused(
        &with(edges[0].with_opos(65_536)),
        Refusal::OutOfRange,
        &call,
    );
    refused(
        &with(edges[0].with_pos(-16_777_217)),
        Refusal::OutOfRange,
        &call,
    );
    refused(
        &with(edges[0].with_blue(Some(-65_536))),
        Refusal::OutOfRange,
        &call,
    );
}

#[test]
fn the_default_is_empty() {
    let edge = Edge::default();
    assert_eq!(
        <[i32; EDGE_WORDS]>::from(edge),
        [0, 0, 0, 0, 0, 0, 0, -1, -1, 0, 0, 0]
    );
    assert_eq!((edge.link(), edge.serif(), edge.blue()), (None, None, None));
    let segment = Segment::default();
    let words = <[i32; SEGMENT_WORDS]>::from(segment);
    assert_eq!(words, [0, 0, 0, 0, 0, 0, 0, 0, 0, -1, -1, 0, 0, -1, -1]);
    assert_eq!((segment.edge(), segment.next()), (None, None));
}

#[test]
fn words_are_read_back() {
    let edge = at(-7)
        .with_fpos(-32_768)
        .with_flags(Flags::ROUND | Flags::NEUTRAL)
        .with_dir(Direction::Down)
        .with_blue(Some(-64))
        .with_link(Some(u16::MAX))
        .with_serif(Some(0))
        .with_first(3)
        .with_last(65_535)
        .with_mark(Mark::LowercaseM);
    let words = <[i32; EDGE_WORDS]>::from(edge);
    assert_eq!(
        words,
        [-32_768, -7, -7, 9, 4, 1, -64, 65_535, 0, 3, 65_535, 9]
    );
    assert_eq!(Edge::try_from(words), Ok(edge));
    for (ix, word) in [
        (0, 32_768),
        (3, 16),
        (4, 5),
        (5, 2),
        (5, 0),
        (7, -2),
        (8, 65_536),
        (9, -1),
        (11, 13),
        (11, -1),
    ] {
        let mut words = words;
        words[ix] = word;
        assert_eq!(Edge::try_from(words), Err(Refusal::NotWords), "word {ix}");
    }
    let segment = side(Direction::Up, 12)
        .with_overlap(9)
        .with_edge(Some(4))
        .with_next(Some(5));
    assert_eq!(
        Segment::try_from(<[i32; SEGMENT_WORDS]>::from(segment)),
        Ok(segment)
    );
}

#[test]
fn marks_have_words_and_names() {
    for (word, mark) in (0..).zip(Mark::ALL) {
        let edge = Edge::default().with_mark(mark);
        assert_eq!(<[i32; EDGE_WORDS]>::from(edge)[EDGE_WORDS - 1], word);
        assert_eq!((edge.mark(), mark.to_string()), (mark, mark.name().into()));
    }
    assert_eq!(
        format!("{:>12}", Mark::LowercaseM),
        " lowercase m",
        "as wide as a log wants it"
    );
}

#[test]
fn refusals_have_numbers_and_one_line() {
    use Refusal::*;
    let all = [
        TooLong,
        BadParameter,
        BadIndex,
        OutOfRange,
        NoRoom,
        NotFrame,
        TooSteep,
        NotMatching,
        NotWords,
        Other(7),
    ];
    assert_eq!(all.map(Refusal::number), [1, 2, 3, 4, 5, 6, 8, 9, 255, 7]);
    for refusal in all {
        let text = refusal.to_string();
        assert!(text.starts_with(&format!("refused by {}: ", refusal.number())));
        assert!(!text.contains('\n'));
    }
}

#[test]
fn middles() {
    assert_eq!(compute_mid_pos(-3, 0), -2);
    assert_eq!(compute_mid_pos(i32::MAX, 1), 0);
    assert_eq!(compute_mid_delta(0, -3), -2);
    assert_eq!(compute_mid_delta(i32::MIN, i32::MAX), -1);
}

#[test]
fn weak_points() {
    let mut currents = [0, 0, 0, 64];
    assert_eq!(
        align_weak_points(&[0, 1, 2, 3], &mut currents, &[1, 0, 0, 1], &[3]),
        Ok(())
    );
    assert_eq!(currents, [0, 21, 43, 64]);
    assert_eq!(align_weak_points(&[], &mut [], &[], &[]), Ok(()));
    let refused = |originals: &[i32], ends: &[u16], refusal: Refusal| {
        let mut currents = [7];
        let answer = align_weak_points(originals, &mut currents, &[0], ends);
        assert_eq!((answer, currents), (Err(refusal), [7]));
    };
    refused(&[0, 0], &[0], Refusal::TooLong);
    refused(&[0], &[1], Refusal::BadIndex);
    refused(&[65_536], &[0], Refusal::OutOfRange);
}

#[test]
fn weak_points_that_are_too_steep() {
    let align = |span: i32, rise: i32| {
        let mut currents = [-65_535, 7, rise - 65_535];
        let answer = align_weak_points(&[0, 1, span], &mut currents, &[1, 0, 1], &[2]);
        (answer, currents[1])
    };
    assert_eq!(align(2, 65_536), (Err(Refusal::TooSteep), 7));
    assert_eq!(align(3, 98_304), (Err(Refusal::TooSteep), 7));
    assert_eq!(align(2, 65_535), (Ok(()), -32_767));
    assert_eq!(align(3, 98_303), (Ok(()), -32_767));
    assert_eq!(align(4, 131_070), (Ok(()), -32_767));
}

#[test]
fn references_at_two_sizes() {
    let (touched, ends) = ([0, 1, 0, 255, 0, 0], [4]);
    let references = References::of(&touched, &ends).unwrap();
    assert_eq!(references.before(), [3, 65_535, 1, 65_535, 3, 65_534]);
    assert_eq!(references.behind(), [1, 65_535, 3, 65_535, 1, 65_534]);
    for originals in [[0, 10, 20, 30, 40, 50], [0, 5, 5, 5, 9, 0]] {
        let given = [1, 12, 2, 45, 3, 4];
        let (mut with, mut without) = (given, given);
        references
            .align(&originals, &mut with, &touched, &ends)
            .unwrap();
        align_weak_points(&originals, &mut without, &touched, &ends).unwrap();
        assert_eq!(with, without);
    }
    let refused = |touched: &[u8], ends: &[u16], why| {
        let mut currents = [65_536; 6];
        let answer = references.align(&[0; 6], &mut currents, touched, ends);
        assert_eq!((answer, currents), (Err(why), [65_536; 6]));
    };
    refused(&[0, 7, 0, 1, 0, 0], &ends, Refusal::OutOfRange);
    refused(&[0, 1, 0, 1, 1, 0], &ends, Refusal::NotMatching);
    refused(&touched, &[3], Refusal::NotMatching);
    refused(&touched, &[6], Refusal::BadIndex);
    refused(&touched[1..], &ends, Refusal::TooLong);
    assert_eq!(References::of(&touched, &[6]), Err(Refusal::BadIndex));
    assert_eq!(References::of(&[0; 4_097], &[]), Err(Refusal::TooLong));
}

#[test]
fn one_point_dragged() {
    let (originals, touched, ends) = ([0, 10, 20, 30, 40], [0, 1, 0, 255, 0], [4]);
    let mut currents = [99, 30, 20, 30, 40];
    drag_point(&originals, &mut currents, &touched, &ends, 1).unwrap();
    assert_eq!(currents, [20, 30, 30, 30, 40]);
    let mut full = currents;
    full[3] = 50;
    let mut dragged = full;
    align_weak_points(&originals, &mut full, &touched, &ends).unwrap();
    drag_point(&originals, &mut dragged, &touched, &ends, 3).unwrap();
    assert_eq!(dragged, full);
    for point in [0, 2, 5, u32::MAX] {
        let mut currents = full;
        let answer = drag_point(&originals, &mut currents, &touched, &ends, point);
        assert_eq!((answer, currents), (Err(Refusal::BadIndex), full));
    }
}

#[test]
fn catalogue() {
    let catalogue = Catalogue {
        originals: &[0, 1, 2, 3, 65_536, 0, 10, 20],
        touched: &[1, 0, 0, 1, 0, 1, 0, 0],
        ends: &[3, 0, 2],
        point_counts: &[4, 0, 1, 3],
        contour_counts: &[1, 0, 1, 1],
    };
    let given = [0, 0, 0, 64, 7, 5, 99, 20];
    let mut currents = given;
    let answers = vec![Ok(()), Ok(()), Err(Refusal::OutOfRange), Ok(())];
    assert_eq!(catalogue.align(&mut currents), Ok(answers));
    assert_eq!(currents, [0, 21, 43, 64, 7, 5, 15, 25]);
    let refused = |catalogue: Catalogue<'_>| {
        let mut currents = given;
        let answer = catalogue.align(&mut currents);
        assert_eq!((answer, currents), (Err(Refusal::TooLong), given));
    };
    let (one_less, one_more) = ([4, 0, 1, 2], [4, 0, 1, 4]);
    let point_counts = &one_less;
    refused(Catalogue {
        point_counts,
        ..catalogue
    });
    let point_counts = &one_more;
    refused(Catalogue {
        point_counts,
        ..catalogue
    });
    let contour_counts = &[1, 0, 2, 1];
    refused(Catalogue {
        contour_counts,
        ..catalogue
    });
    let contour_counts = &[1, 0, 1, 1, 0];
    refused(Catalogue {
        contour_counts,
        ..catalogue
    });
    let touched = &[0; 7];
    refused(Catalogue {
        touched,
        ..catalogue
    });
    let empty = Catalogue {
        originals: &[],
        touched: &[],
        ends: &[],
        point_counts: &[],
        contour_counts: &[],
    };
    assert_eq!(empty.align(&mut []), Ok(vec![]));
}

#[test]
fn linking() {
    let mut segments = [side(Direction::Up, 0), side(Direction::Down, 100)];
    assert_eq!(
        link_segments_cjk(&mut segments, Direction::Up, 1_000, 65_536),
        Ok(())
    );
    assert_eq!(
        (
            segments[0].link(),
            segments[0].score(),
            segments[0].overlap()
        ),
        (Some(1), 100, 200)
    );
    let given = segments;
    let mut refused = |segment: Segment, units_per_em: i32, refusal: Refusal| {
        segments[1] = segment;
        let answer = link_segments_cjk(&mut segments, Direction::Up, units_per_em, 65_536);
        assert_eq!((answer, segments), (Err(refusal), [given[0], segment]));
    };
    refused(given[1], 15, Refusal::BadParameter);
    refused(given[1].with_next(Some(2)), 1_000, Refusal::BadIndex);
    refused(given[1].with_score(-1), 1_000, Refusal::OutOfRange);
    let mut many = [Segment::default(); MOST_SEGMENTS + 1];
    let answer = link_segments_cjk(&mut many, Direction::Up, 1_000, 65_536);
    assert_eq!(answer, Err(Refusal::TooLong));
}

#[test]
fn building() {
    let mut segments = [side(Direction::Right, 80), side(Direction::Left, 0)];
    segments[0].set_link(Some(1));
    segments[1].set_link(Some(0));
    let full = at(5).with_mark(Mark::Stem);
    let mut room = [full; MOST_EDGES];
    let edges =
        compute_edges(&mut segments, &mut room, &BUILDING).expect("the segments are accepted");
    assert_eq!(edges.iter().map(Edge::fpos).collect::<Vec<_>>(), [0, 80]);
    assert_eq!(
        edges.iter().map(Edge::link).collect::<Vec<_>>(),
        [Some(1), Some(0)]
    );
    assert_eq!(marks([room[0], room[1]]), [Mark::Nothing; 2]);
    assert_eq!(room[2..], [full; MOST_EDGES - 2]);
    assert_eq!(segments.map(|segment| segment.edge()), [Some(1), Some(0)]);
    assert_eq!(segments.map(|segment| segment.next()), [Some(0), Some(1)]);
}

#[test]
fn building_refused() {
    let refused = |segments: &[Segment], given: &Building, refusal: Refusal| {
        let mut lent = segments.to_vec();
        let full = at(5).with_flags(Flags::DONE).with_mark(Mark::Stem);
        let mut room = [full; MOST_EDGES];
        assert_eq!(
            compute_edges(&mut lent, &mut room, given).err(),
            Some(refusal)
        );
        assert_eq!((&lent[..], room), (segments, [full; MOST_EDGES]));
    };
    let one = side(Direction::Right, 0);
    refused(&[one; MOST_SEGMENTS + 1], &BUILDING, Refusal::TooLong);
    // the retired order, behind too many segments and in front of a parameter, on either axis and for either group
    let retired = Building {
        order: Order::TopToBottom,
        scale: 0,
        ..BUILDING
    };
    refused(&[one; MOST_SEGMENTS + 1], &retired, Refusal::TooLong);
    refused(&[one], &retired, Refusal::Retired);
    refused(
        &[one],
        &Building {
            dimension: Dimension::Horizontal,
            group: Group::Cjk,
            ..retired
        },
        Refusal::Retired,
    );
    refused(
        &[one],
        &Building {
            scale: 0,
            ..BUILDING
        },
        Refusal::BadParameter,
    );
    refused(&[one.with_link(Some(1))], &BUILDING, Refusal::BadIndex);
    let scale = 131_076;
    refused(
        &[one.with_pos(i16::MAX)],
        &Building { scale, ..BUILDING },
        Refusal::OutOfRange,
    );
    let apart: Vec<Segment> = (0..=128).map(|ix| side(Direction::Right, 9 * ix)).collect();
    refused(&apart, &BUILDING, Refusal::NoRoom);
}

#[test]
fn blues() {
    let mut edges = stem(-9, 52);
    edges[0].set_blue(Some(0));
    let rule = WidthRule::Snap(&[64, 128]);
    let align =
        |edges: &mut [Edge], dimension| align_edges_to_blues(edges, dimension, Group::Latin, rule);
    let before = edges;
    assert_eq!(align(&mut edges, Dimension::Horizontal), Ok(None));
    assert_eq!(edges, before);
    assert_eq!(align(&mut edges, Dimension::Vertical), Ok(Some(0)));
    assert_eq!(edges.map(|edge| edge.pos()), [0, 64]);
    assert_eq!(marks(edges), [Mark::BlueAnchor, Mark::Linked]);
    assert_eq!(align(&mut [], Dimension::Vertical), Ok(None));
    refuses_edges(&edges, |edges| align(edges, Dimension::Horizontal));
    refused(&edges, Refusal::BadParameter, |edges| {
        let rule = WidthRule::Snap(&[64, 64]);
        align_edges_to_blues(edges, Dimension::Vertical, Group::Latin, rule)
    });
}

#[test]
fn linked_edge() {
    let mut edges = stem(0, 60);
    edges[0].set_pos(10);
    assert_eq!(
        align_linked_edge(&mut edges, WidthRule::Snap(&[64]), 0, 1),
        Ok(())
    );
    assert_eq!(edges[1].pos(), 74);
    assert_eq!(marks(edges), [Mark::Nothing, Mark::Linked]);
    refuses_edges(&edges, |edges| {
        align_linked_edge(edges, WidthRule::Keep, 0, 1)
    });
    refused(&edges, Refusal::BadParameter, |edges| {
        align_linked_edge(edges, WidthRule::Snap(&[0]), 0, 1)
    });
    refused(&edges, Refusal::BadIndex, |edges| {
        align_linked_edge(edges, WidthRule::Keep, 2, 1)
    });
    refused(&edges, Refusal::BadIndex, |edges| {
        align_linked_edge(edges, WidthRule::Keep, 0, u16::MAX)
    });
}

#[test]
fn serif_edge() {
    let mut edges = stem(0, 60);
    edges[0].set_pos(10);
    assert_eq!(align_serif_edge(&mut edges, 0, 1), Ok(()));
    assert_eq!(edges[1].pos(), 70);
    assert_eq!(marks(edges), [Mark::Nothing, Mark::Serif]);
    refuses_edges(&edges, |edges| align_serif_edge(edges, 0, 1));
    refused(&edges, Refusal::BadIndex, |edges| {
        align_serif_edge(edges, 0, 2)
    });
    refused(&[], Refusal::BadIndex, |edges| {
        align_serif_edge(edges, 0, 0)
    });
}

#[test]
fn adjusted_link() {
    let done = |pos: i32| at(pos).with_flags(Flags::DONE);
    let edges = [done(100), at(90).with_link(Some(2)), at(50)];
    let adjusted = |mut edges: [Edge; 3], neighbour, order| {
        adjust_link(&mut edges, 1, neighbour, order).map(|()| (edges[1].pos(), edges[1].mark()))
    };
    assert_eq!(
        adjusted(edges, Neighbour::Previous, Order::BottomToTop),
        Ok((100, Mark::Bound))
    );
    assert_eq!(
        adjusted(edges, Neighbour::Previous, Order::TopToBottom),
        Err(Refusal::Retired)
    );
    assert_eq!(
        adjusted(edges, Neighbour::Next, Order::BottomToTop),
        Ok((90, Mark::Nothing))
    );
    let next_done = [edges[0], edges[1], done(50)];
    assert_eq!(
        adjusted(next_done, Neighbour::Next, Order::BottomToTop),
        Ok((50, Mark::Bound))
    );
    let call = |edges: &mut [Edge]| adjust_link(edges, 1, Neighbour::Next, Order::BottomToTop);
    refuses_edges(&edges, call);
    refused(&edges[..1], Refusal::BadIndex, call);
}

#[test]
fn bounds() {
    let edges = [at(0), at(10), at(20).with_flags(Flags::DONE)];
    let bounds = |edge: u16| latin_remaining_bounds(&edges, edge);
    assert_eq!(
        bounds(0),
        Ok(Bounds {
            lower: None,
            upper: None
        })
    );
    assert_eq!(
        bounds(1),
        Ok(Bounds {
            lower: Some(0),
            upper: Some(2)
        })
    );
    assert_eq!(
        bounds(2),
        Ok(Bounds {
            lower: Some(1),
            upper: None
        })
    );
    assert_eq!(bounds(3), Err(Refusal::BadIndex));
    refuses_edges(&edges, |edges| latin_remaining_bounds(edges, 1));
}

#[test]
fn cjk_stem() {
    let hinted = |given: &CjkStem<'_>| {
        let mut edges = stem(40, 80);
        let delta = hint_normal_stem_cjk(&mut edges, given)?;
        assert_eq!(marks(edges), [Mark::Stem; 2]);
        Ok::<_, Refusal>((delta, edges.map(|edge| edge.pos())))
    };
    assert_eq!(hinted(&STEM), Ok((-14, [26, 66])));
    assert_eq!(
        hinted(&CjkStem {
            stem_adjust: true,
            ..STEM
        }),
        Ok((-16, [24, 64]))
    );
    let edges = stem(40, 80);
    refuses_edges(&edges, |edges| hint_normal_stem_cjk(edges, &STEM));
    let wrong = |given: CjkStem<'static>, refusal| {
        refused(&edges, refusal, |edges| hint_normal_stem_cjk(edges, &given));
    };
    wrong(
        CjkStem {
            rule: WidthRule::Snap(&[2, 1]),
            ..STEM
        },
        Refusal::BadParameter,
    );
    wrong(CjkStem { edge2: 2, ..STEM }, Refusal::BadIndex);
    wrong(
        CjkStem {
            delta: 16_384,
            ..STEM
        },
        Refusal::OutOfRange,
    );
}

#[test]
fn stem_pass() {
    let [low, high] = [at(100).with_link(Some(2)), at(160).with_link(Some(1))];
    let mut edges = [at(0).with_flags(Flags::DONE), low, high, at(300)];
    let pass = StemPass {
        anchor: Some(0),
        ..PASS
    };
    let stems = Stems {
        passed_over: 1,
        anchor: Some(0),
    };
    assert_eq!(align_stem_edges(&mut edges, &pass), Ok(stems));
    assert_eq!(edges.map(|edge| edge.pos()), [0, 130, 190, 300]);
    assert_eq!(
        marks(edges),
        [Mark::Nothing, Mark::Stem, Mark::Stem, Mark::Nothing]
    );
    assert!(edges[1].flags().contains(Flags::DONE));
    let none = Stems {
        passed_over: 0,
        anchor: None,
    };
    assert_eq!(align_stem_edges(&mut [], &PASS), Ok(none));
    refuses_edges(&edges, |edges| align_stem_edges(edges, &PASS));
    let wrong = |given: StemPass<'static>, refusal| {
        refused(&edges, refusal, |edges| align_stem_edges(edges, &given));
    };
    let retired = StemPass {
        order: Order::TopToBottom,
        rule: WidthRule::Snap(&[16_384]),
        ..PASS
    };
    wrong(retired, Refusal::Retired);
    wrong(
        StemPass {
            dimension: Dimension::Horizontal,
            group: Group::Cjk,
            ..retired
        },
        Refusal::Retired,
    );
    let many = [Edge::default(); MOST_EDGES + 1];
    refused(&many, Refusal::TooLong, |edges| {
        align_stem_edges(edges, &retired)
    });
    wrong(
        StemPass {
            rule: WidthRule::Snap(&[16_384]),
            ..PASS
        },
        Refusal::BadParameter,
    );
    wrong(
        StemPass {
            anchor: Some(4),
            ..PASS
        },
        Refusal::BadIndex,
    );
}

#[test]
fn blues_and_stems() {
    let [foot, top] = stem(-9, 52);
    let bar = [at(200).with_link(Some(3)), at(261).with_link(Some(2))];
    let before = [foot.with_blue(Some(0)), top, bar[0], bar[1], at(400)];
    let stems = Stems {
        passed_over: 1,
        anchor: Some(0),
    };
    let mut edges = before;
    assert_eq!(align_blues_and_stems(&mut edges, &JOINED), Ok(stems));
    assert_eq!(edges.map(|edge| edge.pos()), [0, 61, 194, 254, 400]);
    use Mark::{BlueAnchor, Linked, Nothing, Stem};
    assert_eq!(marks(edges), [BlueAnchor, Linked, Stem, Stem, Nothing]);
    // the same as the two calls in a row
    let mut apart = before;
    let anchor = align_edges_to_blues(&mut apart, JOINED.dimension, JOINED.group, WidthRule::Keep);
    let pass = StemPass {
        anchor: anchor.unwrap(),
        ..PASS
    };
    assert_eq!(align_stem_edges(&mut apart, &pass), Ok(stems));
    assert_eq!(edges, apart);
    // CJK's anchor is the last stem, and not the blues'
    let cjk = BluesAndStems {
        group: Group::Cjk,
        ..JOINED
    };
    let last = Stems {
        passed_over: 1,
        anchor: Some(2),
    };
    assert_eq!(align_blues_and_stems(&mut before.clone(), &cjk), Ok(last));
    let none = Stems {
        passed_over: 0,
        anchor: None,
    };
    assert_eq!(align_blues_and_stems(&mut [], &JOINED), Ok(none));
    refuses_edges(&before, |edges| align_blues_and_stems(edges, &JOINED));
}

#[test]
fn blues_and_stems_refused() {
    let edges = stem(0, 60);
    let wrong = |edges: &[Edge], given: BluesAndStems<'static>, refusal| {
        refused(edges, refusal, |edges| align_blues_and_stems(edges, &given));
    };
    let retired = BluesAndStems {
        order: Order::TopToBottom,
        rule: WidthRule::Snap(&[16_384]),
        ..JOINED
    };
    wrong(&edges, retired, Refusal::Retired);
    let many = [Edge::default(); MOST_EDGES + 1];
    wrong(&many, retired, Refusal::TooLong);
    let standards = BluesAndStems {
        rule: WidthRule::Snap(&[64, 64]),
        ..JOINED
    };
    wrong(&edges, standards, Refusal::BadParameter);
    // a zone on Latin's horizontal axis, also of an edge that is done, and in front of 3 and 4
    let across = BluesAndStems {
        dimension: Dimension::Horizontal,
        ..JOINED
    };
    assert!(align_blues_and_stems(&mut edges.clone(), &across).is_ok());
    for zone in [
        at(9),
        at(9).with_flags(Flags::DONE),
        at(20_000).with_link(Some(9)),
    ] {
        let edges = [edges[0], edges[1], zone.with_blue(Some(0))];
        wrong(&edges, across, Refusal::BadParameter);
    }
    let cjk = BluesAndStems {
        group: Group::Cjk,
        ..across
    };
    let mut zoned = [edges[0].with_blue(Some(0)), edges[1]];
    assert!(align_blues_and_stems(&mut zoned, &cjk).is_ok());
}

#[test]
fn lowercase_m() {
    let mut edges = [Edge::default(); 6];
    for (stem, opos, pos) in [(0, 0, 0), (2, 100, 128), (4, 207, 270)] {
        edges[stem] = at(opos).with_pos(pos);
    }
    let before = edges;
    assert_eq!(hint_lowercase_m(&mut edges, Group::Cjk), Ok(()));
    assert_eq!(edges, before);
    assert_eq!(hint_lowercase_m(&mut edges, Group::Latin), Ok(()));
    assert_eq!((edges[4].pos(), edges[4].flags()), (256, Flags::DONE));
    assert_eq!(edges[4].mark(), Mark::LowercaseM);
    refuses_edges(&edges, |edges| hint_lowercase_m(edges, Group::Latin));
    refused(&edges[..5], Refusal::BadParameter, |edges| {
        hint_lowercase_m(edges, Group::Latin)
    });
}

#[test]
fn guard() {
    let placed = |opos: i32, pos: i32| at(opos).with_pos(pos).with_flags(Flags::DONE);
    let tied = |opos: i32, pos: i32, link: u16| placed(opos, pos).with_link(Some(link));
    let lost = |gaps, stems, [first, second]: [u16; 2], [before, after]: [i32; 2], not_done| {
        let pair = LostPair {
            first,
            second,
            before,
            after,
        };
        Ok(LostGaps {
            gaps,
            stems,
            first: Some(pair),
            not_done,
        })
    };
    let nothing = |not_done| {
        Ok(LostGaps {
            not_done,
            ..LostGaps::default()
        })
    };
    // a gap without a row, an edge that is not done, and a gap turned across it
    let edges = [
        placed(0, 0),
        placed(32, 32),
        at(60).with_pos(500),
        placed(160, -64),
    ];
    let first = lost(2, 0, [0, 1], [32, 32], 1);
    assert_eq!(lost_gaps(&edges, 32, false), first);
    let second = lost(1, 0, [1, 3], [128, -96], 1);
    assert_eq!(lost_gaps(&edges, 33, false), second);
    assert_eq!(lost_gaps(&edges, 129, false), nothing(1));
    assert_eq!(lost_gaps(&edges, 0, true), nothing(1));
    // two bars that fuse
    let bars = [
        placed(0, 0),
        tied(87, 119, 2),
        tied(157, 189, 1),
        tied(223, 192, 4),
        tied(287, 256, 3),
    ];
    for linked in [false, true] {
        let fused = lost(1, 0, [2, 3], [66, 3], 0);
        assert_eq!(lost_gaps(&bars, 32, linked), fused);
    }
    // a stem, whatever its width
    let stem = [tied(0, 33, 1), placed(1, 96)];
    let vanished = lost(0, 1, [0, 1], [1, 63], 0);
    assert_eq!(lost_gaps(&stem, 65_535, false), vanished);
    assert_eq!(lost_gaps(&stem, 0, true), nothing(0));
    // two edges at one place lose nothing while they are not turned
    let same = [placed(9, 70), placed(9, 70), placed(9, 69)];
    let turned = lost(1, 0, [1, 2], [0, -1], 0);
    assert_eq!(lost_gaps(&same, 0, false), turned);
    assert_eq!(lost_gaps(&same[..2], 0, false), nothing(0));
    assert_eq!(lost_gaps(&[], 0, false), nothing(0));
    let apart = [placed(0, 16_777_216), placed(1, -16_777_216)];
    let far = lost(1, 0, [0, 1], [1, -33_554_432], 0);
    assert_eq!(lost_gaps(&apart, 0, false), far);
    refuses_edges(&edges, |edges| lost_gaps(edges, 0, true));
    for least in [-1, 65_536] {
        refused(&edges, Refusal::BadParameter, |edges| {
            lost_gaps(edges, least, false)
        });
        let many = [Edge::default(); MOST_EDGES + 1];
        refused(&many, Refusal::TooLong, |edges| {
            lost_gaps(edges, least, true)
        });
        let beyond = [at(0).with_link(Some(1))];
        refused(&beyond, Refusal::BadParameter, |edges| {
            lost_gaps(edges, least, false)
        });
    }
}

/// A triangle whose first corner is off the curve, a lone point, and a point of no contour.
const OUTLINE: Outline<'_> = Outline {
    xs: &[0, 64, 0, 96, 7],
    ys: &[0, 0, 64, -32, 7],
    marks: &[0, 1, 255, 0, 1],
    ends: &[2, 3],
};

/// A place in pixels.
fn place(x: f32, y: f32) -> PixelPoint {
    PixelPoint { x, y }
}

#[test]
fn path_is_stepping_until_finished() {
    let steps = [
        PathStep::Move(place(1.0, 0.0)),
        PathStep::Line(place(0.0, 1.0)),
        PathStep::Curve(place(0.0, 0.0), place(1.0, 0.0)),
        PathStep::Close,
        PathStep::Move(place(1.5, -0.5)),
        PathStep::Curve(place(1.5, -0.5), place(1.5, -0.5)),
        PathStep::Close,
    ];
    let (mut kinds, mut places) = ([9; 10], [9.0; 37]);
    let path = path(&OUTLINE, &mut kinds, &mut places).unwrap();
    assert_eq!(path.len(), steps.len());
    assert!(path.eq(steps));
    assert_eq!((&kinds[7..], &places[28..]), (&[9; 3][..], &[9.0; 9][..]));
    for (cursor, step) in (0..).zip(steps) {
        assert_eq!(path_step(&OUTLINE, cursor), Ok(Some((step, cursor + 1))));
    }
    for cursor in [7, 8, u32::MAX] {
        assert_eq!(path_step(&OUTLINE, cursor), Ok(None));
    }
}

#[test]
fn path_refuses() {
    let refused = |outline: Outline<'_>, room: usize, floats: usize, refusal: Refusal| {
        let (mut kinds, mut places) = (vec![9; room], vec![9.0; floats]);
        let answer = path(&outline, &mut kinds, &mut places).map(|path| path.len());
        assert_eq!(answer, Err(refusal));
        assert!(kinds.iter().all(|kind| *kind == 9) && places.iter().all(|float| *float == 9.0));
    };
    let late = Outline {
        ends: &[2, 5],
        ..OUTLINE
    };
    refused(OUTLINE, 8, 36, Refusal::TooLong);
    refused(OUTLINE, 9, 35, Refusal::TooLong);
    refused(late, 8, 36, Refusal::TooLong);
    refused(late, 9, 36, Refusal::BadIndex);
    for (outline, refusal) in [
        (
            Outline {
                marks: &[1; 4],
                ..OUTLINE
            },
            Refusal::TooLong,
        ),
        (late, Refusal::BadIndex),
        (
            Outline {
                ys: &[0, 0, 0, 0, 196_606],
                ..OUTLINE
            },
            Refusal::OutOfRange,
        ),
    ] {
        refused(outline, 9, 36, refusal);
        assert_eq!(path_step(&outline, 0), Err(refusal));
        assert_eq!(path_step(&outline, u32::MAX), Err(refusal));
    }
}

#[test]
fn jobs_are_lines_of_a_log() {
    let job = Job {
        originals: vec![0, -1, -32_768],
        currents: vec![5, 99, 32_767],
        touched: vec![1, 0, 255],
        ends: vec![2, 255],
    };
    let line = "010302 0100000005 00FFFF0063 FF80007FFF 02FF".replace(' ', "");
    assert_eq!(job.line(), Ok(line.clone()));
    assert_eq!(Job::read(line.as_bytes()), Ok(job));
    // the shortest, and the longest
    assert_eq!(Job::default().line(), Ok("010000".to_owned()));
    let most = Job {
        originals: vec![-1; 255],
        currents: vec![1; 255],
        touched: vec![7; 255],
        ends: vec![255; 255],
    };
    assert_eq!(most.line().map(|line| line.len()), Ok(MOST_DIGITS));
    assert_eq!(Job::read(most.line().unwrap().as_bytes()), Ok(most));
}

#[test]
fn jobs_and_lines_are_refused() {
    let job = |originals: Vec<i32>, ends: Vec<u16>| Job {
        currents: vec![0; originals.len()],
        touched: vec![0; originals.len()],
        originals,
        ends,
    };
    assert_eq!(
        job(vec![32_768; 256], vec![256]).line(),
        Err(Refusal::TooLong)
    );
    assert_eq!(job(vec![], vec![0; 256]).line(), Err(Refusal::TooLong));
    assert_eq!(job(vec![32_768], vec![256]).line(), Err(Refusal::BadIndex));
    assert_eq!(job(vec![32_768], vec![]).line(), Err(Refusal::OutOfRange));
    assert_eq!(job(vec![-32_769], vec![]).line(), Err(Refusal::OutOfRange));
    for line in [
        "", "01000", "0100000", "01000000", "020000", "01000a", "010000\r", " 010000", "010100",
    ] {
        assert_eq!(
            Job::read(line.as_bytes()),
            Err(Refusal::NotFrame),
            "{line:?}"
        );
    }
    // a line of 3,068 digits
    assert_eq!(
        Job::read("01FFFF".repeat(512)[..3_068].as_bytes()),
        Err(Refusal::NotFrame)
    );
}

#[test]
fn turned_over() {
    let edge = |fpos, segment: u16| {
        Edge::default()
            .with_fpos(fpos)
            .with_first(segment)
            .with_last(segment)
    };
    let edges = [
        edge(80, 0).with_link(Some(2)),
        edge(40, 1).with_serif(Some(0)).with_flags(Flags::SERIF),
        edge(0, 2).with_link(Some(0)),
    ];
    let segments = [0, 1, 2].map(|ix| {
        side(Direction::Right, 80)
            .with_edge(Some(ix))
            .with_next(Some(ix))
    });
    let (mut turned, mut table) = (edges, segments);
    assert_eq!(turn_over(&mut table, &mut turned), Ok(()));
    assert_eq!(
        turned,
        [
            edges[2].with_link(Some(2)),
            edges[1].with_serif(Some(2)),
            edges[0].with_link(Some(0)),
        ]
    );
    assert_eq!(
        table.map(|segment| segment.edge()),
        [Some(2), Some(1), Some(0)]
    );
    assert_eq!(
        table.map(|segment| segment.next()),
        segments.map(|segment| segment.next())
    );
    assert_eq!(turn_over(&mut table, &mut turned), Ok(()));
    assert_eq!((turned, table), (edges, segments));
    assert_eq!(turn_over(&mut [], &mut []), Ok(()));
}

#[test]
fn mended() {
    // the ring of edge 0 was 0, 2, 3, but 3 is gone, and so is what the serif of 1 and the link of edge 1 name
    let of = |edge, next| {
        Segment::default()
            .with_edge(Some(edge))
            .with_next(Some(next))
    };
    let saved = [of(0, 2), of(1, 1).with_serif(Some(7)), of(0, 3)];
    let ends = [
        Edge::default().with_last(3),
        Edge::default()
            .with_first(1)
            .with_last(1)
            .with_link(Some(2)),
    ];
    let (mut table, mut edges) = (saved, ends);
    let altered = mend(&mut table, &mut edges).unwrap();
    assert_eq!(altered.len(), 4);
    let told = |of_edge, index, field, was, is| Alteration {
        of_edge,
        index,
        field,
        was: Some(was),
        is,
    };
    assert_eq!(
        altered.collect::<Vec<_>>(),
        [
            told(false, 1, LinkField::Serif, 7, None),
            told(false, 2, LinkField::Next, 3, Some(0)),
            told(true, 0, LinkField::Last, 3, Some(2)),
            told(true, 1, LinkField::Link, 2, None),
        ]
    );
    assert_eq!(table, [of(0, 2), of(1, 1), of(0, 0)]);
    assert_eq!(edges, [ends[0].with_last(2), ends[1].with_link(None)]);
    assert_eq!(mend(&mut table, &mut edges).unwrap().len(), 0);
    assert_eq!(pack_axis(&mut table, &mut edges), Ok(3));
    assert_eq!(mend(&mut [], &mut []).unwrap().len(), 0);
}

#[test]
fn mending_refused() {
    let refused = |segments: &[Segment], edges: &[Edge], refusal| {
        let (mut table, mut ends) = (segments.to_vec(), edges.to_vec());
        assert_eq!(mend(&mut table, &mut ends).err(), Some(refusal));
        assert_eq!((&table[..], &ends[..]), (segments, edges));
    };
    let open = Segment::default().with_edge(Some(0)).with_link(Some(9));
    let edge = Edge::default();
    refused(&[open; MOST_SEGMENTS + 1], &[edge], Refusal::TooLong);
    refused(&[open], &[edge; MOST_EDGES + 1], Refusal::TooLong);
    // a position beyond its limit, then an edge that is gone, then an edge without segments
    let gone = open.with_edge(Some(2));
    refused(&[gone], &[at(65_536), edge], Refusal::OutOfRange);
    refused(&[gone], &[edge, edge], Refusal::BadIndex);
    refused(&[open], &[edge, edge], Refusal::BrokenRing);
}

#[test]
fn packed() {
    // 1 has the edge, its link is 3, whose serif is 2, in front of it; 0 names a kept one and is named by none
    let ring = Segment::default().with_edge(Some(0)).with_next(Some(1));
    let mut table = [
        Segment::default().with_link(Some(1)),
        ring.with_pos(11).with_link(Some(3)),
        Segment::default().with_pos(12).with_next(Some(1)),
        Segment::default().with_pos(13).with_serif(Some(2)),
    ];
    let mut edges = [Edge::default().with_first(1).with_last(1)];
    assert_eq!(pack_axis(&mut table, &mut edges), Ok(3));
    let kept = [
        ring.with_pos(11).with_link(Some(2)).with_next(Some(0)),
        Segment::default().with_pos(12),
        Segment::default().with_pos(13).with_serif(Some(1)),
        Segment::default(),
    ];
    assert_eq!((table, edges), (kept, [Edge::default()]));
    assert_eq!(pack_axis(&mut table[..3], &mut edges), Ok(3));
    assert_eq!((table, edges), (kept, [Edge::default()]));
    assert_eq!(pack_axis(&mut [], &mut []), Ok(0));
    // a ring that does not close, and an index beyond, which is found first
    let open = ring.with_next(None);
    assert_eq!(
        pack_axis(&mut [open], &mut [Edge::default()]),
        Err(Refusal::BrokenRing)
    );
    assert_eq!(
        pack_axis(&mut [open.with_link(Some(1))], &mut [Edge::default()]),
        Err(Refusal::BadIndex)
    );
}

#[test]
fn turning_over_refused() {
    let refused = |segments: &[Segment], edges: &[Edge], refusal| {
        let (mut table, mut turned) = (segments.to_vec(), edges.to_vec());
        assert_eq!(turn_over(&mut table, &mut turned), Err(refusal));
        assert_eq!((&table[..], &turned[..]), (segments, edges));
    };
    let segment = Segment::default();
    let edge = Edge::default();
    refused(&[segment; MOST_SEGMENTS + 1], &[edge], Refusal::TooLong);
    refused(&[segment], &[edge; MOST_EDGES + 1], Refusal::TooLong);
    refused(&[segment.with_link(Some(1))], &[edge], Refusal::BadIndex);
    refused(&[segment.with_next(Some(1))], &[edge], Refusal::BadIndex);
    refused(&[segment.with_edge(Some(1))], &[edge], Refusal::BadIndex);
    refused(&[segment], &[edge.with_serif(Some(1))], Refusal::BadIndex);
    refused(&[segment], &[edge.with_first(1)], Refusal::BadIndex);
    refused(&[segment], &[edge.with_last(1)], Refusal::BadIndex);
    refused(&[], &[edge], Refusal::BadIndex);
    refused(&[segment.with_score(-1)], &[edge], Refusal::OutOfRange);
    refused(&[segment], &[edge.with_opos(65_536)], Refusal::OutOfRange);
}

/// A segment of an edge, from a point to another.
fn walk(edge: u16, first: u16, last: u16) -> Segment {
    let segment = Segment::default().with_edge(Some(edge));
    segment.with_first(first).with_last(last)
}

/// An edge that was at a position, is at another, and is done.
fn moved(opos: i32, pos: i32) -> Edge {
    at(opos).with_pos(pos).with_flags(Flags::DONE)
}

/// Snapped to every edge.
const MOVING: Moving = Moving {
    snap: true,
    done_alone: false,
};

/// Currents and marks of three points of a contour, whose first is marked.
fn edge_points(
    segments: &[Segment],
    edges: &[Edge],
    moving: Moving,
) -> Result<([i32; 3], [u8; 3]), Refusal> {
    let (mut currents, mut touched) = ([1, 2, 3], [9, 0, 0]);
    align_edge_points(segments, edges, moving, &mut currents, &mut touched, &[2])?;
    Ok((currents, touched))
}

#[test]
fn points_of_edges() {
    let edges = [moved(0, 5), at(0).with_pos(9)];
    let segments = [walk(0, 2, 0), walk(1, 0, 1)];
    assert_eq!(
        edge_points(&segments, &edges, MOVING),
        Ok(([9, 9, 5], [1, 1, 1]))
    );
    let shifted = Moving {
        snap: false,
        ..MOVING
    };
    assert_eq!(
        edge_points(&segments, &edges, shifted),
        Ok(([15, 11, 8], [1, 1, 1]))
    );
    let filtered = Moving {
        done_alone: true,
        ..MOVING
    };
    assert_eq!(
        edge_points(&segments, &edges, filtered),
        Ok(([5, 2, 5], [1, 0, 1]))
    );
    assert_eq!(edge_points(&[], &[], MOVING), Ok(([1, 2, 3], [9, 0, 0])));
}

#[test]
fn points_of_edges_refused() {
    let refused = |segments: &[Segment], edges: &[Edge], refusal| {
        assert_eq!(edge_points(segments, edges, MOVING), Err(refusal));
    };
    let (segment, edge) = (walk(0, 0, 0), moved(0, 5));
    refused(&[segment; MOST_SEGMENTS + 1], &[edge], Refusal::TooLong);
    refused(&[segment], &[edge; MOST_EDGES + 1], Refusal::TooLong);
    refused(&[walk(0, 0, 3)], &[edge], Refusal::BadIndex);
    refused(&[walk(0, 3, 0)], &[edge], Refusal::BadIndex);
    refused(&[walk(1, 0, 0)], &[edge], Refusal::BadIndex);
    refused(&[segment], &[edge.with_last(1)], Refusal::BadIndex);
    refused(&[segment], &[moved(0, 65_536)], Refusal::OutOfRange);
    refused(&[segment.with_score(-1)], &[edge], Refusal::OutOfRange);
    let (mut currents, mut touched) = ([1, 2], [7, 0]);
    let lists = (&mut currents, &mut touched);
    let (segments, edges) = ([walk(0, 0, 1)], [edge]);
    // on two contours, behind the last one, and of another length
    let refusal = Err(Refusal::BadIndex);
    assert_eq!(
        align_edge_points(&segments, &edges, MOVING, lists.0, lists.1, &[0, 1]),
        refusal
    );
    assert_eq!(
        align_edge_points(&segments, &edges, MOVING, lists.0, lists.1, &[0]),
        refusal
    );
    assert_eq!(
        align_edge_points(&segments, &edges, MOVING, lists.0, &mut lists.1[..1], &[1]),
        Err(Refusal::TooLong)
    );
    assert_eq!((currents, touched), ([1, 2], [7, 0]));
}

/// Remaining edges on the vertical axis, with two left.
fn remaining(
    edges: &mut [Edge],
    group: Group,
    anchor: Option<u16>,
) -> Result<Option<u16>, Refusal> {
    let stems = Stems {
        passed_over: 2,
        anchor,
    };
    align_remaining_edges(edges, Dimension::Vertical, group, stems)
}

#[test]
fn remaining_edges() {
    let given = [at(40), at(70), at(100).with_serif(Some(1))];
    let mut edges = given;
    assert_eq!(remaining(&mut edges, Group::Latin, None), Ok(Some(0)));
    assert_eq!(edges.map(|edge| edge.pos()), [64, 96, 126]);
    assert_eq!(
        marks(edges),
        [Mark::RemainingAnchor, Mark::Spaced, Mark::Serif]
    );
    assert!(edges.iter().all(|edge| edge.flags() == Flags::DONE));
    // CJK has one done edge then, by which the others are shifted
    let mut edges = given;
    edges[1] = edges[1].with_pos(90);
    assert_eq!(remaining(&mut edges, Group::Cjk, None), Ok(None));
    assert_eq!(edges.map(|edge| edge.pos()), [60, 90, 120]);
    assert_eq!(marks(edges), [Mark::Serif; 3]);
    let flags = [Flags::NONE, Flags::NONE, Flags::DONE];
    assert_eq!(edges.map(|edge| edge.flags()), flags);
    let stems = Stems {
        passed_over: 0,
        anchor: Some(1),
    };
    let mut edges = [at(5), at(9)];
    let anchor = align_remaining_edges(&mut edges, Dimension::Horizontal, Group::Cjk, stems);
    assert_eq!((anchor, edges), (Ok(Some(1)), [at(5), at(9)]));
}

#[test]
fn remaining_edges_refused() {
    for group in [Group::Latin, Group::Cjk] {
        refuses_edges(&[at(0), at(64)], |edges| remaining(edges, group, None));
        refused(&[at(0)], Refusal::BadIndex, |edges| {
            remaining(edges, group, Some(1))
        });
        let beyond = [moved(0, 16_777_216), at(1).with_serif(Some(0))];
        refused(&beyond, Refusal::TooSteep, |edges| {
            remaining(edges, group, Some(0))
        });
    }
}

/// Currents and marks of points at font positions, of which the second is touched and the third weak; their originals are twice these.
fn strong<const N: usize>(edges: &[Edge], fonts: [i16; N]) -> Result<([i32; N], [u8; N]), Refusal> {
    let originals = fonts.map(|font| 2 * i32::from(font));
    let (mut currents, mut touched, mut weak) = ([-1; N], [0; N], [0; N]);
    (touched[1], weak[2]) = (9, 1);
    align_strong_points(
        edges,
        &fonts,
        &originals,
        &mut currents,
        &mut touched,
        &weak,
    )
    .inspect_err(|_| assert_eq!((currents, touched[0]), ([-1; N], 0)))?;
    Ok((currents, touched))
}

#[test]
fn strong_points() {
    let edge = |fpos: i16, pos: i32| at(2 * i32::from(fpos)).with_fpos(fpos).with_pos(pos);
    let edges = [edge(0, 10), edge(10, 64), edge(10, 70), edge(20, 100)];
    assert_eq!(
        strong(&edges, [-3, 0, 5, 0, 5, 10, 15, 20, 21]),
        Ok((
            [4, -1, -1, 10, 37, 64, 85, 100, 102],
            [1, 9, 0, 1, 1, 1, 1, 1, 1]
        ))
    );
    assert_eq!(strong(&[], [1, 2, 3]), Ok(([-1; 3], [0, 9, 0])));
}

#[test]
fn strong_points_refused() {
    let three = |edges: &mut [Edge]| strong(edges, [1, 1, 1]);
    refuses_edges(&[at(0), at(64)], three);
    let steep = |pos: i32| [at(0), at(0).with_fpos(2).with_pos(pos)];
    assert_eq!(
        strong(&steep(65_535), [1, 1, 1]).map(|told| told.0[0]),
        Ok(32_768)
    );
    refused(&steep(65_536), Refusal::TooSteep, three);
    refused(&[at(0).with_pos(16_777_216)], Refusal::TooSteep, three);
    let (mut currents, mut touched) = ([7, 8], [0, 0]);
    let lists = (&mut currents, &mut touched);
    let short = [
        align_strong_points(&[], &[0], &[0, 0], lists.0, lists.1, &[0, 0]),
        align_strong_points(&[], &[0, 0], &[0], lists.0, lists.1, &[0, 0]),
        align_strong_points(&[], &[0, 0], &[0, 0], &mut lists.0[..1], lists.1, &[0, 0]),
        align_strong_points(&[], &[0, 0], &[0, 0], lists.0, &mut lists.1[..1], &[0, 0]),
        align_strong_points(&[], &[0, 0], &[0, 0], lists.0, lists.1, &[0]),
    ];
    assert_eq!(short, [Err(Refusal::TooLong); 5]);
    assert_eq!((currents, touched), ([7, 8], [0, 0]));
}

/// What is shown of an outline, as two numbers.
fn shown(outline: &Outline<'_>, magnify: i32) -> Result<(u32, i32), Refusal> {
    count_shown(outline, magnify).map(|shown| (shown.black, shown.euler))
}

#[test]
fn what_is_shown() {
    // A box of three by five pixels, with holes of one pixel that go the other way round.
    let eight = Outline {
        xs: &[0, 192, 192, 0, 64, 64, 128, 128, 64, 64, 128, 128],
        ys: &[0, 0, 320, 320, 64, 128, 128, 64, 192, 256, 256, 192],
        marks: &[1; 12],
        ends: &[3, 7, 11],
    };
    assert_eq!(shown(&eight, 1), Ok((13, -1)));
    assert_eq!(shown(&eight, 64), Ok((13 * 4_096, -1)));
    // Without its upper hole, and with it but as points of no contour.
    let six = Outline {
        ends: &[3, 7],
        ..eight
    };
    assert_eq!(shown(&six, 1), Ok((14, 0)));
    // A corner that is rounded by a curve.
    let round = Outline {
        xs: &[0, 128, 128, 0],
        ys: &[0, 0, 128, 128],
        marks: &[1, 255, 0, 2],
        ends: &[3],
    };
    assert_eq!(shown(&round, 1), Ok((3, 1)));
    assert_eq!(shown(&round, 16), Ok((850, 1)));
    let none = Outline {
        xs: &[],
        ys: &[],
        marks: &[],
        ends: &[],
    };
    assert_eq!(shown(&none, 1), Ok((0, 0)));
    assert_eq!(shown(&OUTLINE, 1), Ok((0, 0)));
}

#[test]
fn what_is_shown_of_the_whole_field() {
    let far = 65_535;
    let field = Outline {
        xs: &[-far, far, far, -far],
        ys: &[-far, -far, far, far],
        marks: &[1; 4],
        ends: &[3],
    };
    assert_eq!(shown(&field, 1), Ok((4_194_304, 1)));
    assert_eq!(shown(&field, 2), Err(Refusal::OutOfRange));
}

#[test]
fn what_is_shown_refuses() {
    let far = Outline {
        ys: &[0, 0, 64, -32, 1_024],
        ..OUTLINE
    };
    assert_eq!(shown(&far, 63), Ok((1_291, 1)));
    assert_eq!(shown(&far, 64), Err(Refusal::OutOfRange));
    let late = Outline {
        ends: &[2, 5],
        ..far
    };
    assert_eq!(shown(&late, 64), Err(Refusal::BadIndex));
    for magnify in [0, -1, 65, i32::MIN, i32::MAX] {
        assert_eq!(shown(&late, magnify), Err(Refusal::BadParameter));
        let short = Outline {
            marks: &[1; 4],
            ..late
        };
        assert_eq!(shown(&short, magnify), Err(Refusal::TooLong));
    }
}

#[test]
fn releases() {
    let [major, minor, patch] = [
        env!("CARGO_PKG_VERSION_MAJOR"),
        env!("CARGO_PKG_VERSION_MINOR"),
        env!("CARGO_PKG_VERSION_PATCH"),
    ]
    .map(|number| number.parse::<u32>().expect("cargo's numbers are numbers"));
    assert_eq!(VERSION, major * 10_000 + minor * 100 + patch);
    assert_eq!(version(), VERSION);
}
