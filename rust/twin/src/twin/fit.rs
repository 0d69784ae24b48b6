//! Whether two elements fit, and the first pair of a mesh that does not.

use super::solid::{Place, Record, around, solid_of};

/// A set of places of one element, bit p - 1 for place p.
type Places = u8;

/// The place that each vertex has in one element, as a set of one place or none; there is one
/// for every `u16`, so that no lookup needs a bound.
struct Marks([Places; 1 << 16]);

impl Marks {
    fn set(&mut self, record: &Record) {
        for place in 1..=solid_of(record).corner_count() {
            self.0[record[place] as usize] = bit(place);
        }
    }

    /// Takes the marks of an element away; the mark of 0, the unused number, is never set.
    fn clear(&mut self, record: &Record) {
        for &vertex in &record[1..] {
            self.0[vertex as usize] = 0;
        }
    }

    /// The places of the marked element that hold vertices of another.
    fn common(&self, other: &Record) -> Places {
        let [_, vertices @ ..] = other;
        vertices
            .iter()
            .fold(0, |places, &v| places | self.0[v as usize])
    }

    /// The places of another element that hold marked vertices.
    fn common_in(&self, other: &Record) -> Places {
        let marked = |place: &Place| self.0[other[*place] as usize] != 0;
        (1..=8)
            .filter(marked)
            .fold(0, |places, place| places | bit(place))
    }
}

/// The lowest j, with its lowest i below, of two judged elements that do not fit, from 1.
///
/// Every pair is compared; one with at most one common vertex fits and is left at that.
pub fn first_misfit(elements: &[Record]) -> Option<(usize, usize)> {
    let mut marks = Marks([0; 1 << 16]);
    for (j, later) in elements.iter().enumerate() {
        marks.set(later);
        for (i, earlier) in elements[..j].iter().enumerate() {
            let common = marks.common(earlier);
            if common.count_ones() > 1 && !fits_in(earlier, marks.common_in(earlier), later, common)
            {
                return Some((j + 1, i + 1));
            }
        }
        marks.clear(later);
    }
    None
}

/// Whether two judged elements fit.
pub fn fits(a: &Record, b: &Record) -> bool {
    fits_in(a, common_places(a, b), b, common_places(b, a))
}

/// Whether the common vertices, given by their places in both elements, are none, one, the ends of
/// an edge of both, or a face of both, in opposite directions.
fn fits_in(a: &Record, in_a: Places, b: &Record, in_b: Places) -> bool {
    match in_a.count_ones() {
        0 | 1 => true,
        2 => has_edge(a, in_a) && has_edge(b, in_b),
        _ => match (face_of(a, in_a), face_of(b, in_b)) {
            (Some(face), Some(other)) => is_reverse(a, face, b, other),
            _ => false,
        },
    }
}

/// The places of an element whose vertices are also another's.
fn common_places(record: &Record, other: &Record) -> Places {
    let others = &other[1..=solid_of(other).corner_count()];
    (1..=solid_of(record).corner_count())
        .filter(|&place| others.contains(&record[place]))
        .fold(0, |places, place| places | bit(place))
}

fn bit(place: Place) -> Places {
    1 << (place - 1)
}

/// Whether two places are the ends of an edge, a side of a face.
fn has_edge(record: &Record, ends: Places) -> bool {
    let mut faces = solid_of(record).faces().iter();
    faces.any(|face| {
        let closing = bit(face[face.len() - 1]) | bit(face[0]);
        closing == ends
            || face
                .windows(2)
                .any(|side| bit(side[0]) | bit(side[1]) == ends)
    })
}

/// The face of an element that has exactly these places.
fn face_of(record: &Record, places: Places) -> Option<&'static [Place]> {
    let mut faces = solid_of(record).faces().iter().copied();
    faces.find(|face| face.iter().fold(0, |set, &place| set | bit(place)) == places)
}

/// Whether a face's cycle is the cycle of another face of the same vertices read backwards.
fn is_reverse(a: &Record, face: &[Place], b: &Record, other: &[Place]) -> bool {
    let length = face.len();
    let start = (0..length).find(|&step| b[other[step]] == a[face[0]]);
    start.is_some_and(|start| {
        let backwards = |step| b[other[around(start + length - step, length)]];
        (0..length).all(|step| a[face[step]] == backwards(step))
    })
}
