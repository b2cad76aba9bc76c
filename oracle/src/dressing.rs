//! From a mesh to a case: place, size, numbering and settings.

use crate::case::{Case, Lent};
use crate::random::Random;
use crate::shapes::{self, Mesh};
use crate::steps::moved;
use crate::units;

/// The mesh in some place, size and numbering, with any settings.
pub fn dressed(random: &mut Random, mut mesh: Mesh) -> Case {
    if random.once_in(2) {
        mesh = shapes::tilted(random, mesh);
    }
    if random.once_in(3) {
        mesh = shapes::shaken(random, mesh);
    }
    let size = random.choose(&[1.0, 1.0, 1.0, 0.5, 10.0, 1000.0, 0.001]);
    let mut case = plain(mesh.map(|p| p.map(|x| x * size)));
    if random.once_in(2) {
        renumber(random, &mut case);
    }
    set_options(random, &mut case);
    case
}

/// The mesh as it stands: no margin, the first unit that has room for it, ratio 1,
/// no limit, preserve off, memory as stated.
pub fn plain(mesh: Mesh) -> Case {
    let points: Vec<u32> = mesh.points.concat().iter().map(|&x| (x as f32).to_bits()).collect();
    Case {
        family: 0,
        unit: units::first_for(&points),
        points,
        faces: mesh.faces.concat(),
        margin: Vec::new(),
        ratio: 1.0f32.to_bits(),
        preserve: false,
        limited: false,
        limit: 0,
        lent: Lent::stated(mesh.points.len(), mesh.faces.len()),
    }
}

/// Other numbers for the points, another order of the faces, other first
/// corners, some faces turned over, some points in no face.
pub fn renumber(random: &mut Random, case: &mut Case) {
    if random.once_in(4) {
        for _ in 0..random.between(1, 3) {
            case.points.extend([0; 3].map(|_| (random.around(2.0) as f32).to_bits()));
        }
    }
    let mut numbers: Vec<u32> = (0..case.points.len() as u32 / 3).collect();
    random.shuffle(&mut numbers);
    let mut points = case.points.clone();
    for (old, &new) in numbers.iter().enumerate() {
        points[3 * new as usize..][..3].copy_from_slice(&case.points[3 * old..][..3]);
    }
    case.points = points;
    let turn_over = random.once_in(6);
    let mut faces: Vec<Vec<u32>> = case.faces.chunks(3).map(<[u32]>::to_vec).collect();
    for face in &mut faces {
        face.iter_mut().for_each(|point| *point = numbers[*point as usize]);
        face.rotate_left(random.below(3));
        if turn_over && random.once_in(4) {
            face.swap(1, 2);
        }
    }
    if random.once_in(2) {
        random.shuffle(&mut faces);
    }
    case.faces = faces.concat();
    lend_as_stated(case);
}

pub fn lend_as_stated(case: &mut Case) {
    case.lent = Lent::stated(case.points.len() / 3, case.faces.len() / 3);
}

pub fn set_options(random: &mut Random, case: &mut Case) {
    units::set(random, case);
    case.ratio = any_ratio(random, case.faces.len() / 3);
    case.preserve = random.once_in(2);
    case.limited = random.once_in(3);
    // Without the flag the number isn't looked at, whatever it is.
    case.limit = if case.limited { any_limit(random, case) } else { random.bits() as u32 };
    if random.once_in(4) {
        lend_more(random, case);
    }
}

fn lend_more(random: &mut Random, case: &mut Case) {
    let lent = &mut case.lent;
    lent.out_points += random.below(9);
    lent.out_faces += random.below(9);
    lent.work_u32 += random.below(9);
    lent.work_f32 += random.below(9);
    lent.work_f64 += random.below(9);
}

/// Above zero and at most one.
fn any_ratio(random: &mut Random, faces: usize) -> u32 {
    let part = random.below(faces + 1) as f32 / faces as f32;
    let ratio: f32 = match random.below(10) {
        0 | 1 => 1.0,
        2 => 0.5,
        3 => 0.9,
        // A walk that ends in no mesh at all hides its course.
        4..=6 => random.part() as f32,
        7 => random.choose(&[
            1.0 / 16_777_216.0,
            1.0 / 33_554_432.0,
            1.0 - 1.0 / 16_777_216.0,
            1e-45,
        ]),
        _ => f32::from_bits(moved(part.to_bits(), random.below(3) as i32 - 1)),
    };
    if ratio > 0.0 && ratio <= 1.0 {
        ratio.to_bits()
    } else {
        1.0f32.to_bits()
    }
}

/// Mostly the length of some edge, or a step beside it.
fn any_limit(random: &mut Random, case: &Case) -> u32 {
    let [a, b, c] = random_face(random, case);
    let length = length(case, a, if random.once_in(2) { b } else { c });
    match random.below(8) {
        0 | 1 => length.to_bits(),
        2 => moved(length.to_bits(), -1),
        3 => moved(length.to_bits(), 1),
        4 | 5 => (length * (2.0 * random.part()) as f32).to_bits(),
        _ => random
            .choose(&[0.0, -0.0, 1e-45, -1.0, f32::MAX, f32::INFINITY, f32::NEG_INFINITY])
            .to_bits(),
    }
}

pub fn random_face(random: &mut Random, case: &Case) -> [usize; 3] {
    let face = 3 * random.below(case.faces.len() / 3);
    [0, 1, 2].map(|i| case.faces[face + i] as usize)
}

pub fn length(case: &Case, a: usize, b: usize) -> f32 {
    let [x, y, z] = [0, 1, 2]
        .map(|i| f32::from_bits(case.points[3 * a + i]) - f32::from_bits(case.points[3 * b + i]));
    ((x * x + y * y) + z * z).sqrt()
}
