//! Answers 1 to 9, 12, 24 and the answer at ratio zero, written from the table of
//! document 01 and from wishes 2 and 3 of document 02, and not from the Rust, which
//! is asked only about admitted meshes.

use crate::case::{Answer, Case, Lent};

const MOST_POINTS: usize = 65_536;
const MOST_FACES: usize = 131_072;

pub const MILLIMETRE: u32 = 1;
pub const MICROMETRE: u32 = 2;

/// The largest size of a coordinate in a unit; none where the number is no unit.
pub fn bound(unit: u32) -> Option<f32> {
    match unit {
        MILLIMETRE => Some(1_024.0),
        MICROMETRE => Some(1_048_576.0),
        _ => None,
    }
}

/// The answer, unless the mesh is admitted and its ratio is above zero.
pub fn answer_before_walk(case: &Case) -> Option<Answer> {
    if let Some((number, place)) = refusal_before_faces(case) {
        return Some(refused(number, place));
    }
    if f32::from_bits(case.ratio) == 0.0 {
        let (points, faces) = (case.points.clone(), case.faces.clone());
        return Some(Answer { points, faces, ..Answer::default() });
    }
    let refusal = refusal_of_faces(case).or_else(|| refusal_of_margin(case));
    refusal.map(|(number, place)| refused(number, place))
}

fn refused(number: u32, place: usize) -> Answer {
    Answer { number, place: place as u32, ..Answer::default() }
}

/// Numbers 1 to 6, 24 and 7, in their order.
fn refusal_before_faces(case: &Case) -> Option<(u32, usize)> {
    if case.points.len() % 3 != 0 || case.faces.len() % 3 != 0 {
        return Some((1, 0));
    }
    let (points, faces) = (case.points.len() / 3, case.faces.len() / 3);
    if points > MOST_POINTS || faces > MOST_FACES {
        return Some((2, 0));
    }
    if case.lent.shorter_than(&Lent::stated(points, faces)) {
        return Some((3, 0));
    }
    if points == 0 || faces == 0 {
        return Some((4, 0));
    }
    let ratio = f32::from_bits(case.ratio);
    if ratio.is_nan() || ratio < 0.0 || ratio > 1.0 {
        return Some((5, 0));
    }
    if case.limited && f32::from_bits(case.limit).is_nan() {
        return Some((6, 0));
    }
    let Some(bound) = bound(case.unit) else {
        return Some((24, 0));
    };
    let bad = |bits: &u32| {
        let coordinate = f32::from_bits(*bits);
        !coordinate.is_finite() || coordinate.abs() > bound
    };
    case.points.iter().position(bad).map(|place| (7, place))
}

/// Numbers 8 and 9: the lowest bad face; within it 8 comes first.
fn refusal_of_faces(case: &Case) -> Option<(u32, usize)> {
    let points = case.points.len() as u32 / 3;
    for (place, face) in case.faces.chunks(3).enumerate() {
        if face.iter().any(|&point| point >= points) {
            return Some((8, place));
        }
        if face[0] == face[1] || face[1] == face[2] || face[2] == face[0] {
            return Some((9, place));
        }
    }
    None
}

/// Number 12: the first entry that is not below V, or not above the one before it.
fn refusal_of_margin(case: &Case) -> Option<(u32, usize)> {
    let points = case.points.len() as u32 / 3;
    let margin = &case.margin;
    let bad =
        |&place: &usize| margin[place] >= points || place > 0 && margin[place] <= margin[place - 1];
    (0..margin.len()).find(bad).map(|place| (12, place))
}
