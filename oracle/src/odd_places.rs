//! Points where arithmetic is least like numbers on paper.

use crate::case::Case;
use crate::dressing::{dressed, lend_as_stated, plain, renumber, set_options};
use crate::edge_cases::only_first_pair;
use crate::random::Random;
use crate::shapes::{self, along, Mesh};
use crate::units::{self, UNITS};

/// Faces without area: points that coincide or lie on a line.
pub fn no_area(random: &mut Random, most: usize) -> Case {
    let mut mesh = shapes::any(random, most);
    let count = mesh.points.len();
    match random.below(5) {
        // Some points moved onto others.
        0 | 1 => {
            for _ in 0..random.between(1, 1 + count / 2) {
                let from = random.below(count);
                mesh.points[random.below(count)] = mesh.points[from];
            }
        }
        // Everything on a line, at steps that may repeat.
        2 => {
            let along = [0; 3].map(|_| random.below(4) as f64 - 1.0);
            mesh.points.iter_mut().for_each(|p| *p = along.map(|x| x * random.below(6) as f64));
        }
        // One face pressed onto one of its edges.
        3 => {
            let [a, b, c] = random.choose(&mesh.faces).map(|i| i as usize);
            let part = random.choose(&[0.0, 0.25, 0.5, 1.0, 2.0]);
            let (p, q) = (mesh.points[a], mesh.points[b]);
            mesh.points[c] = [0, 1, 2].map(|i| p[i] + part * (q[i] - p[i]));
        }
        // Every point the same.
        _ => {
            let one = mesh.points[0];
            mesh.points.fill(one);
        }
    }
    dressed(random, mesh)
}

/// Coordinates at the bound of a unit, at the smallest numbers there are, and at -0.0.
pub fn far(random: &mut Random, most: usize) -> Case {
    let mesh = shapes::any(random, most);
    let mut case = dressed(random, mesh);
    let largest = case.points.iter().map(|&x| f32::from_bits(x).abs()).fold(0.0, f32::max);
    let kind = random.below(5);
    let unit = random.choose(&UNITS);
    let bound = units::bound_of(unit);
    let small = 2.0f64.powi(-(random.between(20, 149) as i32));
    for bits in &mut case.points {
        let x = f32::from_bits(*bits);
        *bits = match kind {
            // The farthest point is just at the bound.
            0 => (x / largest.max(1e-30) * bound).clamp(-bound, bound),
            // Near one corner of what is admitted.
            1 => (bound - x.abs()).clamp(-bound, bound),
            // So small that squares vanish, in part or whole.
            2 => (x as f64 * small) as f32,
            // Everything at once.
            3 => {
                let x = x.clamp(-bound, bound);
                random.choose(&[0.0, -0.0, bound, -bound, 1e-45, -1e-45, 1e-38, 1.0, x, x])
            }
            // Whole steps of the smallest number.
            _ => f32::from_bits(random.below(5) as u32 | (random.below(2) as u32) << 31),
        }
        .to_bits();
    }
    // The size changed, so a limit by length must be chosen anew.
    lend_as_stated(&mut case);
    set_options(random, &mut case);
    case.unit = unit;
    case
}

/// Hats as they are: turned or stretched, their planes would miss the tip.
pub fn hats(random: &mut Random, most: usize) -> Case {
    let mut case = plain(shapes::hats(random, most));
    renumber(random, &mut case);
    set_options(random, &mut case);
    // Every point lies on a border.
    case.preserve = random.once_in(8);
    case
}

/// Parts of three faces whose planes all hold the line through the first two
/// points: there is no inverse, and far along the line the errors are rounding,
/// of either sign. They decide the place, and which part is folded.
pub fn choice(random: &mut Random) -> Case {
    let mut mesh = Mesh::default();
    let step: f64 = random.choose(&[1001.0, -3001.0, 5003.0]);
    for first in [0, 6, 12].iter().take(random.between(1, 3)) {
        let start = random.choose(&[3.0, -5.0, 7.0, 11.0]);
        let on_line = |by: f64| [start + by * step, by * step, 0.0];
        let mut far = || {
            [0; 3].map(|_| random.choose(&[-8.0, 8.0, -20.0, 60.0]) * step * (1.0 + random.part()))
        };
        mesh.points.extend([on_line(0.0), on_line(1.0), far(), far(), on_line(-6.0), far()]);
        // The last of the three shows where its first point went.
        mesh.faces.extend([[0, 1, 2], [0, 3, 1], [0, 4, 5]].map(|face| face.map(|i| first + i)));
    }
    let mut case = plain(along(random.below(3), mesh));
    only_first_pair(&mut case);
    case
}
