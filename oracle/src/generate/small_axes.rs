//! Every axis of a few segments and edges, as jobs of the calls that mend an axis and make it smaller.

use crate::job::{Edge, Job, Segment, Table};

/// The parts that the axes come in, so that each fits a file.
pub const PARTS: usize = 16;

/// The most segments and edges of which every ring is made.
const MOST: (usize, usize) = (3, 2);

/// Hands on the axes of a part: every one of up to three segments and two edges over next, edge, first and last; to be made smaller also every one of up to three
/// segments over link, serif and whether it has the one edge, and of four that have a link or a serif.
pub fn jobs<E>(
    pack: bool,
    part: usize,
    hand_on: &mut impl FnMut(&Job) -> Result<(), E>,
) -> Result<(), E> {
    let mut made = 0;
    let mut of_part = |segments: Vec<Segment>, edges: Vec<Edge>| {
        made += 1;
        if made % PARTS != part {
            return Ok(());
        }
        let (segments, edges) = (Table::of(segments), Table::of(edges));
        hand_on(&if pack {
            Job::Pack(segments, edges)
        } else {
            Job::Mend(segments, edges)
        })
    };
    rings(&mut of_part)?;
    if pack {
        names(&mut of_part)?;
    }
    Ok(())
}

/// Every axis of up to three segments and two edges over next, edge, first and last, each also one beyond its list.
pub fn rings<E>(
    hand_on: &mut impl FnMut(Vec<Segment>, Vec<Edge>) -> Result<(), E>,
) -> Result<(), E> {
    for count in 0..=MOST.0 {
        for edge_count in 0..=MOST.1 {
            let of_segments = ((count + 2) * (edge_count + 2)).pow(count as u32);
            let of_edges = (count + 1).pow(2 * edge_count as u32);
            for code in 0..of_segments * of_edges {
                let mut digits = Digits(code);
                let segments = (0..count).map(|_| Segment {
                    edge_next_ix: digits.index(count + 1),
                    edge_ix: digits.index(edge_count + 1),
                    ..Segment::default()
                });
                let segments = segments.collect();
                let edges = (0..edge_count).map(|_| Edge {
                    first_ix: digits.next(count + 1) as u16,
                    last_ix: digits.next(count + 1) as u16,
                    ..Edge::default()
                });
                hand_on(segments, edges.collect())?;
            }
        }
    }
    Ok(())
}

/// Every axis of up to three segments over link and serif, and of four with one of them, each with the one edge or not, in rising order around its ring.
fn names<E>(hand_on: &mut impl FnMut(Vec<Segment>, Vec<Edge>) -> Result<(), E>) -> Result<(), E> {
    for count in 1..=MOST.0 {
        for code in 0..(2 * (count + 1) * (count + 1)).pow(count as u32) {
            let mut digits = Digits(code);
            let segments = (0..count).map(|_| Segment {
                edge_ix: digits.index(1),
                link_ix: digits.index(count),
                serif_ix: digits.index(count),
                ..Segment::default()
            });
            let (segments, edges) = closed(segments.collect());
            hand_on(segments, edges)?;
        }
    }
    let count = MOST.0 + 1;
    for code in 0..(2 * (2 * count + 1)).pow(count as u32) {
        let mut digits = Digits(code);
        let segments = (0..count).map(|_| {
            let edge_ix = digits.index(1);
            let name = digits.index(2 * count);
            Segment {
                edge_ix,
                link_ix: name.filter(|ix| usize::from(*ix) < count),
                serif_ix: name.and_then(|ix| ix.checked_sub(count as u16)),
                ..Segment::default()
            }
        });
        let (segments, edges) = closed(segments.collect());
        hand_on(segments, edges)?;
    }
    Ok(())
}

/// An axis of these segments, with an edge where one of them has it.
fn closed(mut segments: Vec<Segment>) -> (Vec<Segment>, Vec<Edge>) {
    let ring: Vec<usize> = (0..segments.len())
        .filter(|ix| segments[*ix].edge_ix.is_some())
        .collect();
    for (place, ix) in ring.iter().enumerate() {
        segments[*ix].edge_next_ix = Some(ring[(place + 1) % ring.len()] as u16);
    }
    let ends = ring.first().zip(ring.last());
    let edge = ends.map(|(first, last)| Edge {
        first_ix: *first as u16,
        last_ix: *last as u16,
        ..Edge::default()
    });
    (segments, edge.into_iter().collect())
}

/// A number whose digits, the lowest first, are taken one by one, each in a base of its own.
struct Digits(usize);

impl Digits {
    /// The next digit, below its base.
    fn next(&mut self, base: usize) -> usize {
        let digit = self.0 % base;
        self.0 /= base;
        digit
    }

    /// The next digit as an index below this one, or none.
    fn index(&mut self, end: usize) -> Option<u16> {
        self.next(end + 1).checked_sub(1).map(|ix| ix as u16)
    }
}
