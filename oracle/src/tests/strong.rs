//! Strong points: worked values, the order of refusals, which edges the search finds, and the given Rust and the second writing on made-up jobs and on every small one.

use super::{job_of, linked};
use crate::{
    generate::{line, strong::small, Random, PROFILES},
    job::{Edge, Job, Strong, Table},
    refusals::{self, Answer, Refusal},
    strong::{align_strong_points, by_given_rust, found, placed, Found},
};
use std::convert::Infallible;

/// The farthest position.
const FAR: i32 = 16_777_216;

/// An edge by its font position, where it was and where it is.
fn at(fpos: i16, opos: i32, pos: i32) -> Edge {
    Edge {
        fpos,
        opos,
        pos,
        ..Edge::default()
    }
}

/// Edges at font positions, each at the position of its place in the table.
fn numbered(fonts: &[i16]) -> Vec<Edge> {
    let edges = fonts.iter().zip(0..);
    edges.map(|(font, pos)| at(*font, 0, pos)).collect()
}

/// Points with font positions and originals, none of them touched or weak.
fn points(points: &[(i16, i32)]) -> Strong {
    Strong {
        fonts: points.iter().map(|point| point.0).collect(),
        originals: points.iter().map(|point| point.1).collect(),
        currents: vec![-99; points.len()],
        touches: vec![0; points.len()],
        weak: vec![0; points.len()],
    }
}

/// The currents and marks that the call leaves.
fn aligned(edges: &[Edge], given: &Strong) -> Answer<(Vec<i32>, Vec<u8>)> {
    let mut given = given.clone();
    align_strong_points(&Table::of(edges.to_vec()), &mut given)?;
    Ok((given.currents, given.touches))
}

/// Where one point comes to.
fn one(edges: &[Edge], font: i16, original: i32) -> Answer<i32> {
    aligned(edges, &points(&[(font, original)])).map(|(currents, _)| currents[0])
}

#[test]
fn between_two_edges_and_outside() {
    let edges = [at(0, 0, 0), at(100, 64, 128)];
    let worked = [
        (50, 7, 64),
        (1, 7, 1),
        (99, 7, 127),
        (0, 3, 3),
        (-5, -3, -3),
        (100, 70, 134),
        (150, 96, 160),
    ];
    for (font, original, place) in worked {
        assert_eq!(one(&edges, font, original), Ok(place));
    }
    for pos in [1, -1] {
        let edges = [at(0, 0, 0), at(2, 0, pos)];
        assert_eq!(one(&edges, 1, 0), Ok(pos));
    }
    assert_eq!(one(&[at(10, 10, 64)], 10, 12), Ok(66));
}

#[test]
fn edges_of_one_font_position() {
    let edges = [at(0, 0, 0), at(10, 0, 5), at(10, 0, 7), at(20, 0, 20)];
    for (font, place) in [(9, 5), (10, 5), (11, 8), (19, 19)] {
        assert_eq!(one(&edges, font, 0), Ok(place));
    }
    // eight are searched one by one, nine by halving
    assert_eq!(
        one(&numbered(&[0, 10, 10, 10, 10, 10, 10, 20]), 10, 0),
        Ok(1)
    );
    assert_eq!(
        one(&numbered(&[0, 10, 10, 10, 10, 10, 10, 10, 20]), 10, 0),
        Ok(4)
    );
}

#[test]
fn the_first_edge_is_asked_first() {
    let falling = [at(20, 0, 1_000), at(0, 0, 2_000)];
    assert_eq!(one(&falling, 10, 7), Ok(1_007));
    assert_eq!(one(&falling, 30, 7), Ok(2_007));
}

#[test]
fn touched_and_weak_points_stay() {
    let mut given = points(&[(1, 1); 4]);
    given.touches = vec![0, 9, 0, 255];
    given.weak = vec![0, 0, 255, 1];
    let result = aligned(&[at(0, 0, 64)], &given);
    assert_eq!(result, Ok((vec![65, -99, -99, -99], vec![1, 9, 0, 255])));
    // nor are those that have no place
    given.fonts = vec![0, 1, 1, 1];
    let steep = [at(0, 0, 0), at(2, 0, 65_536)];
    let result = aligned(&steep, &given);
    assert_eq!(result, Ok((vec![1, -99, -99, -99], vec![1, 9, 0, 255])));
}

#[test]
fn without_edges_nothing_happens() {
    let given = points(&[(1, 1), (2, 2)]);
    assert_eq!(aligned(&[], &given), Ok((vec![-99; 2], vec![0; 2])));
}

#[test]
fn points_without_a_place() {
    let steep = |pos: i32| [at(0, 0, 0), at(2, 0, pos)];
    assert_eq!(one(&steep(65_535), 1, 0), Ok(32_768));
    assert_eq!(one(&steep(-65_535), 1, 0), Ok(-32_768));
    for pos in [65_536, -65_536, FAR] {
        assert_eq!(one(&steep(pos), 1, 0), Err(Refusal(8)));
        assert_eq!(one(&steep(pos), 2, 0), Ok(pos));
        assert_eq!(one(&steep(pos), 0, 5), Ok(5));
    }
    // as far apart as positions go
    let far = |span: i16| [at(0, 0, -FAR), at(span, 0, FAR)];
    assert_eq!(one(&far(1_024), 512, 0), Err(Refusal(8)));
    assert!(one(&far(1_025), 512, 0).is_ok());
    let end = |pos: i32| [at(0, 0, pos)];
    assert_eq!(one(&end(FAR), 0, 0), Ok(FAR));
    assert_eq!(one(&end(FAR), 0, 1), Err(Refusal(8)));
    assert_eq!(one(&end(-FAR), 0, -1), Err(Refusal(8)));
    assert_eq!(one(&end(FAR), 5, -1), Ok(FAR - 1));
}

#[test]
fn refuses_in_order() {
    let mut table = Table {
        count: 129,
        items: vec![linked(65_536, 200); 128],
    };
    let mut given = points(&[(1, 65_536)]);
    given.weak.clear();
    let mut answers = Vec::new();
    for mend in 0..7 {
        match mend {
            1 => table = Table::of(vec![linked(65_536, 1)]),
            2 => given.weak.push(0),
            3 => table.items[0].link_ix = None,
            4 => (table.items[0].opos, table.items[0].pos) = (0, FAR),
            5 => given.originals[0] = 1,
            6 => given.originals[0] = 0,
            _ => {}
        }
        let before = given.clone();
        let result = align_strong_points(&table, &mut given);
        assert!(result.is_ok() || given == before, "a refusal writes");
        answers.push(result.map_or_else(|refusal| refusal.0, |()| 0));
    }
    assert_eq!(answers, [1, 1, 3, 4, 4, 8, 0]);
    for list in 0..5 {
        let mut given = points(&[(0, 0)]);
        match list {
            0 => given.fonts.push(0),
            1 => given.originals.push(0),
            2 => given.currents.push(0),
            3 => given.touches.push(0),
            _ => given.weak.push(0),
        }
        assert_eq!(aligned(&[], &given), Err(Refusal(1)));
    }
}

/// Holds a search to its claim: the font position is on the edge that is found, or strictly between it and the next one; of edges that rise that is the nearest around it.
fn held_to_claim(edges: &[Edge], font: i16) {
    let rises = edges.windows(2).all(|pair| pair[0].fpos <= pair[1].fpos);
    match found(edges, font.into()) {
        Found::On(ix) => assert_eq!(edges[ix].fpos, font),
        Found::Behind(ix) => {
            assert!(edges[ix].fpos < font && font < edges[ix + 1].fpos);
            let behind = edges.iter().take_while(|edge| edge.fpos < font);
            assert!(!rises || behind.count() == ix + 1);
        }
    }
}

/// Whether the given Rust and the second writing agree on a job that is accepted; tells how many points were moved.
fn agree(edges: &[Edge], given: &Strong) -> usize {
    let plain = placed(edges, given).expect("every point has a place");
    assert_eq!(by_given_rust(edges, given), plain);
    if let (Some(first), Some(last)) = (edges.first(), edges.last()) {
        let within = |font: &&i16| first.fpos < **font && **font < last.fpos;
        let fonts = given.fonts.iter().filter(within);
        fonts.for_each(|font| held_to_claim(edges, *font));
    }
    plain.iter().flatten().count()
}

#[test]
fn the_second_writing_is_the_given_rust() {
    let mut random = Random::new(131);
    let (mut accepted, mut moved, mut steep, mut equal, mut many) = (0, 0, 0, 0, 0);
    for (_, profile) in PROFILES {
        for _ in 0..75_000 {
            let Some(Job::Strong(edges, given)) = job_of(&line(131, profile, &mut random)) else {
                continue;
            };
            match refusals::strong(&edges, &given) {
                Ok(()) => accepted += 1,
                Err(refusal) => {
                    steep += usize::from(refusal == Refusal(8));
                    continue;
                }
            }
            moved += agree(&edges.items, &given);
            let pairs = edges.items.windows(2);
            equal += usize::from(pairs.into_iter().any(|pair| pair[0].fpos == pair[1].fpos));
            many += usize::from(edges.count > 8);
        }
    }
    assert!(accepted > 150_000, "{accepted} jobs are accepted");
    assert!(moved > 1_000_000, "{moved} points are moved");
    assert!(steep > 5_000, "{steep} jobs have a point without a place");
    assert!(
        equal > 50_000,
        "{equal} jobs have edges of one font position"
    );
    assert!(many > 40_000, "{many} jobs have more than eight edges");
}

#[test]
fn every_small_table() {
    let (mut accepted, mut jobs) = (0, 0);
    let done: Result<(), Infallible> = small(&mut |job| {
        let Job::Strong(edges, given) = job else {
            unreachable!("the jobs are of strong points");
        };
        jobs += 1;
        if refusals::strong(edges, given).is_ok() {
            accepted += 1;
            agree(&edges.items, given);
        }
        Ok(())
    });
    assert_eq!((done, jobs, accepted), (Ok(()), 1_574, 1_544));
}

#[test]
fn no_unit_of_the_order_is_lost() {
    let mut random = Random::new(7);
    let mut pairs = 0;
    for _ in 0..20_000 {
        let Some(Job::Strong(edges, given)) = job_of(&line(131, PROFILES[0].1, &mut random)) else {
            continue;
        };
        let (Some(first), Some(last)) = (edges.items.first(), edges.items.last()) else {
            continue;
        };
        let rising = edges.items.windows(2);
        if !rising
            .into_iter()
            .all(|two| two[0].fpos <= two[1].fpos && two[0].pos <= two[1].pos)
        {
            continue;
        }
        if refusals::strong(&edges, &given).is_err() {
            continue;
        }
        let places = placed(&edges.items, &given).expect("every point has a place");
        let side = |font: i16| match font {
            font if font <= first.fpos => 0,
            font if font >= last.fpos => 2,
            _ => 1,
        };
        let placed: Vec<(i16, i32, i32)> = places
            .iter()
            .enumerate()
            .filter_map(|(ix, place)| Some((given.fonts[ix], given.originals[ix], (*place)?)))
            .collect();
        for low in &placed {
            for high in &placed {
                if low.0 <= high.0 && low.1 <= high.1 && side(low.0) == side(high.0) {
                    assert!(low.2 <= high.2);
                    pairs += 1;
                }
            }
        }
    }
    assert!(pairs > 100_000, "{pairs} pairs");
}
