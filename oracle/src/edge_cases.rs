//! Both sides of a comparison, found by `steps`: of target, limit, costs, the
//! fold test's two tests, the distance of the solved point and its size.

use crate::case::Case;
use crate::dressing::{dressed, length, plain, random_face};
use crate::random::Random;
use crate::shapes::{self, along, Mesh, Point};
use crate::steps::{course, search, Knob};
use crate::units::{self, UNITS};

pub fn ratio_step(random: &mut Random, most: usize) -> Vec<Case> {
    let mesh = shapes::surface(random, most);
    let mut case = dressed(random, mesh);
    case.limited = false;
    case.ratio = (random.part() as f32).to_bits();
    search(random, case, 4, course, |random, _| {
        (Knob::Ratio, random.choose(&[1.0f32, 0.0, 1e-9, 0.5, 0.1]).to_bits())
    })
}

pub fn limit_step(random: &mut Random, most: usize) -> Vec<Case> {
    let mesh = shapes::any(random, most);
    let mut case = dressed(random, mesh);
    case.limited = true;
    case.limit = f32::INFINITY.to_bits();
    search(random, case, 4, course, |random, case| {
        let [a, b, _] = random_face(random, case);
        let part = random.choose(&[0.5, 0.999, 1.001, 1.5]);
        (Knob::Limit, (length(case, a, b) * part).to_bits())
    })
}

/// Any coordinate of any mesh.
pub fn point_step(random: &mut Random, most: usize) -> Vec<Case> {
    let mesh = match random.below(3) {
        0 => shapes::torn(random, most),
        _ => shapes::surface(random, most.min(32)),
    };
    let case = dressed(random, mesh);
    search(random, case, 6, course, |random, case| {
        let place = random.below(case.points.len());
        let size = random.choose(&[0.01, 0.5, 2.0]);
        let other = f32::from_bits(case.points[place]) as f64 + random.around(size);
        (Knob::Coordinate(place), (other as f32).to_bits())
    })
}

/// A flat face whose point is moved almost onto its other edge by the fold.
/// All costs are zero, so the place is keep's point and the areas are exact.
pub fn squash_step(random: &mut Random) -> Vec<Case> {
    let width = random.choose(&[1.0, 4.0, 3.0, 1.7]);
    let height = 0.5 + random.part();
    let middle = random.choose(&[0.0, 0.5, 1.0]);
    let points = vec![
        [middle, height / 4.0, 0.0],
        [middle, height, 0.0],
        [middle + 4.0, height, 0.0],
        [0.0, 0.0, 0.0],
        [width, 0.0, 0.0],
    ];
    let axis = random.below(3);
    let size = 2.0f64.powi(random.below(36) as i32 - 20);
    let mesh = along(axis, Mesh { points, faces: vec![[0, 1, 2], [1, 3, 4]] });
    let mut case = plain(mesh.map(|p| p.map(|x| x * size)));
    units::set(random, &mut case);
    one_fold(&mut case);
    let knob = Knob::Coordinate((1 + axis) % 3);
    search(random, case, 1, course, |_, _| (knob, 0))
}

/// No pair longer than that of points 0 and 1 is eligible, and one fold is due.
pub fn only_first_pair(case: &mut Case) {
    case.limited = true;
    case.limit = length(case, 0, 1).to_bits();
    one_fold(case);
}

/// The walk is to stop after one fold, so that it can be seen which.
fn one_fold(case: &mut Case) {
    case.ratio = (0.5 / (case.faces.len() / 3) as f32).to_bits();
}

/// Points 0 and 1 with one face between them, and faces at each that stand any
/// way: the solved point may lie anywhere, and the fold is the only one tried.
fn leaves(random: &mut Random, size: f64) -> Mesh {
    let mut mesh = Mesh {
        points: vec![
            [0.0; 3],
            [0; 3].map(|_| random.around(0.8)),
            [0; 3].map(|_| random.around(1.0) + 2.0),
        ],
        faces: vec![[0, 1, 2]],
    };
    for end in 0..2 {
        for _ in 0..random.between(1, 4) {
            let level = random.below(6);
            let mut tip = || {
                let mut point = mesh.points[end].map(|x| x + random.around(size));
                // In a plane of the axes, moving within it leaves the quadric as it is.
                if level < 3 {
                    point[level] = mesh.points[end][level];
                }
                point
            };
            let tips = [tip(), tip()];
            add_leaf(&mut mesh, end, tips);
        }
    }
    mesh
}

/// A face at one point over two new ones.
fn add_leaf(mesh: &mut Mesh, at: usize, tips: [Point; 2]) {
    let next = mesh.points.len() as u32;
    mesh.points.extend(tips);
    mesh.faces.push([at as u32, next, next + 1]);
}

/// Moves some coordinate past the first three points.
fn leaf_step(random: &mut Random, case: Case, size: f64) -> Vec<Case> {
    search(random, case, 12, course, |random, case| {
        let place = random.between(9, case.points.len() - 1);
        let other = f32::from_bits(case.points[place]) as f64 + random.around(size);
        (Knob::Coordinate(place), units::admitted(case.unit, other as f32).to_bits())
    })
}

/// Faces turn over or not.
pub fn turn_step(random: &mut Random) -> Vec<Case> {
    if random.once_in(3) {
        // Leaves no larger than the fold.
        let mut case = plain(leaves(random, 1.5));
        units::set(random, &mut case);
        only_first_pair(&mut case);
        return leaf_step(random, case, 2.0);
    }
    // Every plane holds the direction of x, so there is no inverse, and keep's
    // point has the least error. The flat face (2, 0, 3) at the removed point is
    // set upright by the fold as far as point 0 lies before or behind.
    let height = 0.5 + random.part();
    let reach = height * (2.0 + random.part());
    let width = 4.0 + 4.0 * random.part();
    let mut mesh = Mesh {
        points: vec![
            [0.0, -height, 0.0],
            [0.0, 0.0, height],
            [0.0, reach, 0.0],
            [width, random.around(1.0), 0.0],
            [width, 0.0, height],
        ],
        faces: vec![[2, 0, 3], [1, 2, 4]],
    };
    for _ in 0..random.between(1, 3) {
        let mut side = || random.choose(&[-1.0, 1.0]) * (4.0 + 4.0 * random.part());
        let tips = [[side(), 0.0, side()], [side(), 0.0, side()]];
        add_leaf(&mut mesh, 1, tips);
    }
    let mut case = plain(mesh);
    units::set(random, &mut case);
    one_fold(&mut case);
    case.limited = true;
    case.limit = length(&case, 1, 2).to_bits();
    search(random, case, 1, course, |_, _| (Knob::Coordinate(1), 0))
}

/// Three planes that meet on the axis of x: those of y and z at point 0, and one
/// at point 1 that leans so as to meet the axis near `aim` lengths from point 0.
/// The leaves are so large that none turns over: the place is seen.
fn ray(random: &mut Random, aim: f64) -> Mesh {
    let (near, side) = (random.around(0.5), 0.5 + random.part());
    let length = (near * near + side * side).sqrt();
    let mut mesh = Mesh {
        points: vec![[0.0; 3], [near, side, 0.0], [random.around(1.0), -20.0, 0.0]],
        faces: vec![[0, 1, 2]],
    };
    let mut far = || random.choose(&[-1.0, 1.0]) * (20.0 + 20.0 * random.part());
    let flat = [[far(), far(), 0.0], [far(), far(), 0.0]];
    let upright = [[far(), 0.0, far()], [far(), 0.0, far()]];
    // From point 1 away from where it is to meet the axis, and up or down.
    let lean = [near - aim * length, side];
    let tips = [20.0, 30.0].map(|by| [near + by * lean[0], side + by * lean[1], far()]);
    add_leaf(&mut mesh, 1, tips);
    add_leaf(&mut mesh, 0, flat);
    add_leaf(&mut mesh, 0, upright);
    mesh
}

/// The solved point near twice the length, or near twice 2^-23.
pub fn place_step(random: &mut Random) -> Vec<Case> {
    if random.once_in(3) {
        let mut case = plain(leaves(random, 30.0));
        units::set(random, &mut case);
        only_first_pair(&mut case);
        return leaf_step(random, case, 30.0);
    }
    let tiny = random.once_in(3);
    let size = if tiny { 2.0f64.powi(-24) } else { 1.0 };
    let axis = random.below(3);
    let aim = if tiny { 4.0 + random.around(1.0) } else { 2.0 + random.around(0.2) };
    let mut case = plain(along(axis, ray(random, aim)).map(|p| p.map(|x| x * size)));
    units::set(random, &mut case);
    only_first_pair(&mut case);
    lean_step(random, case, size, axis)
}

/// Moves the first coordinate of the leaning leaf.
fn lean_step(random: &mut Random, case: Case, size: f64, axis: usize) -> Vec<Case> {
    let knob = Knob::Coordinate(9 + axis);
    search(random, case, 8, course, |random, case| {
        let now = f32::from_bits(case.points[9 + axis]) as f64;
        let other = (now + random.around(20.0 * size)) as f32;
        (knob, units::admitted(case.unit, other).to_bits())
    })
}

/// The solved point near the bound of a unit.
pub fn bound_step(random: &mut Random) -> Vec<Case> {
    let unit = random.choose(&UNITS);
    let axis = random.below(3);
    // As small beside the bound in either unit.
    let size = random.choose(&[1.0, 8.0, 64.0]) / 1_048_576.0 * units::bound_of(unit) as f64;
    let case = ray_to_bound(random, unit, size, axis, 0.0);
    lean_step(random, case, size, axis)
}

/// A ray along an axis, its solved point at the bound of a unit, or beyond it by a
/// part of the way from point 0.
pub fn ray_to_bound(random: &mut Random, unit: u32, size: f64, axis: usize, beyond: f64) -> Case {
    let side = random.choose(&[1.0, -1.0]);
    let aim = 1.0 + random.part();
    let mut mesh = along(axis, ray(random, aim)).map(|p| p.map(|x| x * size));
    let length = mesh.points[1].iter().map(|x| x * x).sum::<f64>().sqrt();
    let bound = units::bound_of(unit) as f64;
    let start = bound - (1.0 - beyond) * aim * length;
    for p in &mut mesh.points {
        p[axis] = side * (start + p[axis]).min(bound);
    }
    let mut case = plain(mesh);
    case.unit = unit;
    only_first_pair(&mut case);
    case
}
