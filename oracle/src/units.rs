//! Units: cases at the bound of each, the same mesh in both, and numbers that are no unit.

use crate::bad_input::{bad_coordinate, spoil as spoil_any, spoil_limit};
use crate::case::Case;
use crate::dressing::{dressed, lend_as_stated, set_options};
use crate::edge_cases::ray_to_bound;
use crate::margins::spoil_margin;
use crate::random::Random;
use crate::rules::{self, MICROMETRE, MILLIMETRE};
use crate::shapes::{self, Point};
use crate::steps::{course, moved};

pub const UNITS: [u32; 2] = [MILLIMETRE, MICROMETRE];

/// The bound of a number that is a unit.
pub fn bound_of(unit: u32) -> f32 {
    rules::bound(unit).expect("a unit")
}

/// The admitted coordinate of a unit that is nearest to a number.
pub fn admitted(unit: u32, x: f32) -> f32 {
    x.clamp(-bound_of(unit), bound_of(unit))
}

/// The first unit that has room for these coordinates, or the last one.
pub fn first_for(points: &[u32]) -> u32 {
    let fits = |&unit: &u32| points.iter().all(|&x| f32::from_bits(x).abs() <= bound_of(unit));
    UNITS.into_iter().find(fits).unwrap_or(MICROMETRE)
}

/// Any unit: either one where both have room for the mesh. Where millimetres have
/// none they are now and then taken all the same, and the mesh is refused.
pub fn set(random: &mut Random, case: &mut Case) {
    case.unit = match first_for(&case.points) {
        MILLIMETRE => random.choose(&UNITS),
        _ if random.once_in(8) => MILLIMETRE,
        _ => MICROMETRE,
    };
}

/// A mesh that touches the bound of a unit.
fn touching(random: &mut Random, most: usize, unit: u32) -> Case {
    let mesh = shapes::any(random, most);
    let mut case = dressed(random, mesh);
    case.points = pushed(random, &case.points, bound_of(unit) as f64);
    // The size changed, so a limit by length must be chosen anew.
    lend_as_stated(&mut case);
    set_options(random, &mut case);
    case.unit = unit;
    case
}

/// The same points in another size, pushed against the bound on one side of an axis.
fn pushed(random: &mut Random, points: &[u32], bound: f64) -> Vec<u32> {
    let point = |p: &[u32]| [p[0], p[1], p[2]].map(|x| f32::from_bits(x) as f64);
    let points: Vec<Point> = points.chunks(3).map(point).collect();
    let (low, high) = extent(&points);
    let widest = (0..3).fold(1e-30, |most: f64, i| most.max(high[i] - low[i]));
    let scale = random.choose(&[1.0, 0.25, 0.0625, 0.001]) * bound / widest;
    // Pressed flat, more of the mesh is near the bound.
    let press = random.choose(&[1.0, 1.0, 0.1]) * scale;
    let (axis, side) = (random.below(3), random.choose(&[1.0, -1.0]));
    let place = |p: Point| {
        let mut place = [0, 1, 2].map(|i| (p[i] - low[i]) * scale);
        place[axis] = side * (bound - (high[axis] - p[axis]) * press);
        place.map(|x| (x as f32).to_bits())
    };
    points.into_iter().flat_map(place).collect()
}

/// The least and the greatest coordinate on each axis.
fn extent(points: &[Point]) -> (Point, Point) {
    let low = points.iter().fold([f64::MAX; 3], |low, p| [0, 1, 2].map(|i| low[i].min(p[i])));
    let high = points.iter().fold([f64::MIN; 3], |high, p| [0, 1, 2].map(|i| high[i].max(p[i])));
    (low, high)
}

/// Coordinates at the bound of a unit or a step beside it, in that unit or the other.
pub fn at_bound(random: &mut Random, most: usize) -> Case {
    let unit = random.choose(&UNITS);
    let mut case = touching(random, most, unit);
    let size = bound_of(unit).to_bits();
    let at: Vec<usize> =
        (0..case.points.len()).filter(|&i| case.points[i] & !(1 << 31) == size).collect();
    let beside = moved(size, random.below(3) as i32 - 1);
    // All of them, so that the shape stays, or one.
    let one = random.choose(&at);
    let all = random.once_in(2);
    for place in at.into_iter().filter(|&place| all || place == one) {
        case.points[place] = beside | case.points[place] & 1 << 31;
    }
    if random.once_in(if unit == MILLIMETRE { 3 } else { 8 }) {
        case.unit = if unit == MILLIMETRE { MICROMETRE } else { MILLIMETRE };
    }
    case
}

/// The same mesh in both units, its solved points near the bound of millimetres or beyond.
pub fn both(random: &mut Random, most: usize) -> Vec<Case> {
    if random.once_in(2) {
        let size = random.choose(&[0.0625, 1.0, 8.0]);
        let (axis, beyond) = (random.below(3), random.part() - 0.2);
        return in_both(ray_to_bound(random, MILLIMETRE, size, axis, beyond)).to_vec();
    }
    // Few walks come near the bound: the first that does, of some.
    let mut pair = in_both(touching(random, most.max(40), MILLIMETRE));
    for _ in 0..40 {
        if course(&pair[0]) != course(&pair[1]) {
            break;
        }
        pair = in_both(touching(random, most.max(40), MILLIMETRE));
    }
    pair.to_vec()
}

fn in_both(case: Case) -> [Case; 2] {
    UNITS.map(|unit| Case { unit, ..case.clone() })
}

/// A number that is no unit, though a part of its bits may be one.
pub fn spoil(random: &mut Random, case: &mut Case) {
    case.unit = random.choose(&[
        0,
        3,
        4,
        255,
        256,
        257,
        258,
        65_536,
        65_537,
        65_538,
        1 << 31,
        1 << 31 | 1,
        1 << 31 | 2,
        u32::MAX,
    ]);
}

/// No unit, alone or with a fault that is looked at before it or after it.
pub fn bad(random: &mut Random) -> Case {
    let mesh = shapes::surface(random, 12);
    let mut case = dressed(random, mesh);
    match random.below(8) {
        0 => spoil_limit(random, &mut case),
        1 => {
            let place = random.below(case.points.len());
            case.points[place] = bad_coordinate(random, case.unit);
        }
        2 => case.ratio = random.choose(&[0.0f32, -0.0]).to_bits(),
        3 | 4 => spoil_any(random, &mut case),
        5 => spoil_margin(random, &mut case),
        _ => {}
    }
    spoil(random, &mut case);
    case
}
