//! Meshes to start from. Points are f64 here and narrowed once, at the end.

use crate::random::Random;
use std::collections::BTreeMap;

pub type Point = [f64; 3];
pub type Face = [u32; 3];

#[derive(Clone, Default)]
pub struct Mesh {
    pub points: Vec<Point>,
    pub faces: Vec<Face>,
}

impl Mesh {
    pub fn map(mut self, mut change: impl FnMut(Point) -> Point) -> Self {
        self.points.iter_mut().for_each(|p| *p = change(*p));
        self
    }

    fn quad(&mut self, [a, b, c, d]: [u32; 4], other_diagonal: bool) {
        if other_diagonal {
            self.faces.extend([[a, b, d], [b, c, d]]);
        } else {
            self.faces.extend([[a, b, c], [a, c, d]]);
        }
    }
}

/// Cosine and sine of a part of the full turn. The machine's library may round
/// them differently on another processor; this sum of a series doesn't.
pub fn circle(part: f64) -> (f64, f64) {
    let angle = (part - part.floor()) * std::f64::consts::TAU;
    let (mut cosine, mut sine, mut term) = (0.0, 0.0, 1.0);
    for k in 0..48 {
        match k % 4 {
            0 => cosine += term,
            1 => sine += term,
            2 => cosine -= term,
            _ => sine -= term,
        }
        term *= angle / (k + 1) as f64;
    }
    (cosine, sine)
}

fn scaled(p: Point, by: f64) -> Point {
    p.map(|x| x * by)
}

/// A closed surface: a solid with flat sides, cut finer and blown up to a ball.
pub fn ball(random: &mut Random, most: usize) -> Mesh {
    let mut mesh = match random.below(3) {
        0 => tetrahedron(),
        1 => octahedron(),
        _ => icosahedron(),
    };
    let round = !random.once_in(4);
    while mesh.faces.len() * 4 <= most && !random.once_in(3) {
        mesh = cut_finer(mesh);
    }
    if round {
        mesh = mesh.map(|p| scaled(p, 1.0 / (p[0] * p[0] + p[1] * p[1] + p[2] * p[2]).sqrt()));
    }
    mesh
}

fn tetrahedron() -> Mesh {
    Mesh {
        points: vec![[1.0, 1.0, 1.0], [1.0, -1.0, -1.0], [-1.0, 1.0, -1.0], [-1.0, -1.0, 1.0]],
        faces: vec![[0, 1, 2], [0, 2, 3], [0, 3, 1], [1, 3, 2]],
    }
}

fn octahedron() -> Mesh {
    let mut mesh = Mesh::default();
    for axis in 0..3 {
        for side in [1.0, -1.0] {
            let mut point = [0.0; 3];
            point[axis] = side;
            mesh.points.push(point);
        }
    }
    mesh.faces =
        [[0, 2, 4], [2, 1, 4], [1, 3, 4], [3, 0, 4], [2, 0, 5], [1, 2, 5], [3, 1, 5], [0, 3, 5]]
            .to_vec();
    mesh
}

fn icosahedron() -> Mesh {
    let golden = (1.0 + 5.0f64.sqrt()) / 2.0;
    let mut mesh = Mesh::default();
    for axis in 0..3 {
        for (a, b) in [(1.0, golden), (-1.0, golden), (1.0, -golden), (-1.0, -golden)] {
            let mut point = [0.0; 3];
            point[axis] = a;
            point[(axis + 1) % 3] = b;
            mesh.points.push(point);
        }
    }
    // The faces are the triples of points that lie an edge (2) apart.
    let apart = |a: &Point, b: &Point| (0..3).map(|i| (a[i] - b[i]) * (a[i] - b[i])).sum::<f64>();
    let edge = |a: usize, b: usize| (apart(&mesh.points[a], &mesh.points[b]) - 4.0).abs() < 0.1;
    let mut faces = Vec::new();
    for a in 0..12 {
        for b in a + 1..12 {
            for c in b + 1..12 {
                if edge(a, b) && edge(b, c) && edge(a, c) {
                    let [p, q, r] = [a, b, c].map(|i| mesh.points[i]);
                    let outward = p[0] * (q[1] * r[2] - q[2] * r[1])
                        + p[1] * (q[2] * r[0] - q[0] * r[2])
                        + p[2] * (q[0] * r[1] - q[1] * r[0]);
                    let (b, c) = if outward > 0.0 { (b, c) } else { (c, b) };
                    faces.push([a as u32, b as u32, c as u32]);
                }
            }
        }
    }
    mesh.faces = faces;
    mesh
}

/// Each face into four, over the middles of its edges.
fn cut_finer(mesh: Mesh) -> Mesh {
    let mut points = mesh.points;
    let mut middles = BTreeMap::new();
    let mut middle = |a: u32, b: u32| {
        *middles.entry((a.min(b), a.max(b))).or_insert_with(|| {
            let (p, q) = (points[a as usize], points[b as usize]);
            points.push([0, 1, 2].map(|i| (p[i] + q[i]) / 2.0));
            points.len() as u32 - 1
        })
    };
    let mut faces = Vec::new();
    for [a, b, c] in mesh.faces {
        let (ab, bc, ca) = (middle(a, b), middle(b, c), middle(c, a));
        faces.extend([[a, ab, ca], [b, bc, ab], [c, ca, bc], [ab, bc, ca]]);
    }
    Mesh { points, faces }
}

/// The surface of a block of cubes: closed, flat sides, many equal costs.
pub fn block(random: &mut Random, most: usize) -> Mesh {
    let mut size = [1, 1, 1];
    loop {
        let axis = random.below(3);
        size[axis] += 1;
        let [a, b, c] = size;
        if 4 * (a * b + b * c + c * a) > most || random.once_in(4) {
            size[axis] -= 1;
            break;
        }
    }
    let mut mesh = Mesh::default();
    let mut numbers = BTreeMap::new();
    let mixed = random.once_in(2);
    for axis in 0..3 {
        let (next, last) = ((axis + 1) % 3, (axis + 2) % 3);
        for side in [0, size[axis]] {
            for i in 0..size[next] {
                for j in 0..size[last] {
                    let mut corners = [(0, 0), (1, 0), (1, 1), (0, 1)].map(|(di, dj)| {
                        let mut place = [0; 3];
                        (place[axis], place[next], place[last]) = (side, i + di, j + dj);
                        *numbers.entry(place).or_insert_with(|| {
                            mesh.points.push(place.map(|x| x as f64));
                            mesh.points.len() as u32 - 1
                        })
                    });
                    if side == 0 {
                        corners.reverse();
                    }
                    mesh.quad(corners, mixed && random.once_in(2));
                }
            }
        }
    }
    mesh
}

/// In squares of two faces; with 255 a grid has 65,536 points.
fn longest_side(most: usize) -> usize {
    (24..255).find(|side| 2 * side * side > most).unwrap_or(255)
}

pub fn torus(random: &mut Random, most: usize) -> Mesh {
    let around = random.between(3, (most / 6).clamp(3, longest_side(most)));
    let across = random.between(3, (most / (2 * around)).clamp(3, longest_side(most)));
    let thin = random.choose(&[0.25, 0.4, 0.9]);
    let mixed = random.once_in(3);
    torus_of(around, across, thin, || mixed && random.once_in(2))
}

/// A torus of so many squares, each cut along the one diagonal or the other.
pub fn torus_of(
    around: usize,
    across: usize,
    thin: f64,
    mut other_diagonal: impl FnMut() -> bool,
) -> Mesh {
    let mut mesh = Mesh::default();
    for i in 0..around {
        for j in 0..across {
            let (c, s) = circle(i as f64 / around as f64);
            let (d, t) = circle(j as f64 / across as f64);
            mesh.points.push([c * (1.0 + thin * d), s * (1.0 + thin * d), thin * t]);
        }
    }
    let at = |i: usize, j: usize| ((i % around) * across + j % across) as u32;
    for i in 0..around {
        for j in 0..across {
            let corners = [at(i, j), at(i + 1, j), at(i + 1, j + 1), at(i, j + 1)];
            mesh.quad(corners, other_diagonal());
        }
    }
    mesh
}

/// An open grid of unit squares in the plane.
pub fn grid(random: &mut Random, most: usize) -> Mesh {
    let wide = random.between(1, (most / 2).clamp(1, longest_side(most)));
    let high = random.between(1, (most / (2 * wide)).clamp(1, longest_side(most)));
    let mixed = random.once_in(2);
    grid_of(wide, high, || mixed && random.once_in(2))
}

pub fn grid_of(wide: usize, high: usize, mut other_diagonal: impl FnMut() -> bool) -> Mesh {
    let mut mesh = Mesh::default();
    for y in 0..=high {
        for x in 0..=wide {
            mesh.points.push([x as f64, y as f64, 0.0]);
        }
    }
    let at = |x: usize, y: usize| (y * (wide + 1) + x) as u32;
    for y in 0..high {
        for x in 0..wide {
            let corners = [at(x, y), at(x + 1, y), at(x + 1, y + 1), at(x, y + 1)];
            mesh.quad(corners, other_diagonal());
        }
    }
    mesh
}

/// A grid bent into a dome, a saddle, a trough or waves.
pub fn patch(random: &mut Random, most: usize) -> Mesh {
    let flat = grid(random, most);
    let kind = random.below(4);
    let bend = random.choose(&[0.01, 0.1, 0.3, 1.0]);
    let (across, along) = (random.around(4.0), random.around(4.0));
    flat.map(|[x, y, _]| {
        let (u, v) = (x - across, y - along);
        let z = match kind {
            0 => -bend * (u * u + v * v),
            1 => bend * (u * u - v * v),
            2 => bend * u * u,
            _ => bend * circle(x / 5.0).1 * circle(y / 7.0).0,
        };
        [x, y, z]
    })
}

/// Faces around one point, all the way round or not; sometimes a second ring.
pub fn fan(random: &mut Random, most: usize) -> Mesh {
    let blades = random.between(3, most.clamp(3, 40));
    let closed = random.once_in(2);
    let height = random.choose(&[0.0, 0.0, 0.1, 1.0, 5.0]);
    let ring = if closed { blades } else { blades + 1 };
    let mut mesh = Mesh { points: vec![[0.0, 0.0, height]], faces: Vec::new() };
    for i in 0..ring {
        let (c, s) = circle(i as f64 / (blades + 1 - closed as usize) as f64);
        mesh.points.push([c, s, 0.0]);
    }
    let at = |i: usize| (1 + i % ring) as u32;
    mesh.faces.extend((0..blades).map(|i| [0, at(i), at(i + 1)]));
    if closed && 3 * blades <= most && random.once_in(2) {
        mesh.points.extend(
            (1..=ring)
                .map(|i| [2.0 * mesh.points[i][0], 2.0 * mesh.points[i][1], -height])
                .collect::<Vec<_>>(),
        );
        let outer = |i: usize| at(i) + ring as u32;
        (0..blades).for_each(|i| mesh.quad([at(i), outer(i), outer(i + 1), at(i + 1)], false));
    }
    mesh
}

/// A strip of triangles that goes anywhere. A pair has few planes, which often
/// meet in one point: its cost is zero but for rounding, and may be negative.
pub fn ribbon(random: &mut Random, most: usize) -> Mesh {
    let count = random.between(1, most.clamp(1, 16)) as u32;
    let mut mesh = Mesh::default();
    for i in 0..count + 2 {
        let across = (i % 2) as f64;
        mesh.points.push([
            i as f64 * 0.7 + random.around(0.4),
            across + random.around(0.4),
            random.around(0.8),
        ]);
    }
    for i in 0..count {
        mesh.faces.push(if i % 2 == 0 { [i, i + 1, i + 2] } else { [i + 1, i, i + 2] });
    }
    mesh
}

/// Small pointed hats, each with its tip on an axis. All planes of a hat meet in
/// its tip and often miss it by nothing: every cost is rounding, of either sign.
pub fn hats(random: &mut Random, most: usize) -> Mesh {
    let mut mesh = Mesh::default();
    for _ in 0..random.between(1, (most / 3).clamp(1, 6)) {
        let mut tip = [0.0; 3];
        let axis = random.below(3);
        tip[axis] = random.choose(&[3.0, 5.0, 6.0, 7.0, -3.0, -5.0, 11.0]);
        let first = mesh.points.len() as u32;
        mesh.points.push(tip);
        let brim = random.between(3, 4) as u32;
        for i in 0..brim {
            let (c, s) = circle(i as f64 / brim as f64 + random.around(0.1));
            let around = [random.around(0.5) - 1.0, c, s];
            mesh.points.push([0, 1, 2].map(|i| tip[(i + axis) % 3] + around[i]));
            mesh.points.last_mut().expect("a point").rotate_right(axis);
        }
        for i in 0..brim {
            mesh.faces.push([first, first + 1 + i, first + 1 + (i + 1) % brim]);
        }
    }
    mesh
}

/// Triangles over a few points in any way: edges in three faces, one directed
/// edge in two, points with several fans, points in no face.
pub fn soup(random: &mut Random, most: usize) -> Mesh {
    let count = random.between(3, most.clamp(3, 14));
    let whole = random.once_in(2);
    let mut mesh = Mesh::default();
    for _ in 0..count {
        let point = [0; 3].map(|_| random.around(3.0));
        mesh.points.push(if whole { point.map(f64::round) } else { point });
    }
    for _ in 0..random.between(1, (2 * count).min(most)) {
        let mut numbers: Vec<u32> = (0..count as u32).collect();
        random.shuffle(&mut numbers);
        mesh.faces.push([numbers[0], numbers[1], numbers[2]]);
    }
    mesh
}

/// A surface with some faces more on its own points, doubled or turned over.
pub fn torn(random: &mut Random, most: usize) -> Mesh {
    let mut mesh = surface(random, most * 2 / 3);
    for _ in 0..random.between(1, 1 + most / 6) {
        let [a, b, c] = random.choose(&mesh.faces);
        let other = random.below(mesh.points.len()) as u32;
        match random.below(5) {
            0 => mesh.faces.push([a, b, c]),
            1 => mesh.faces.push([a, c, b]),
            2 if mesh.faces.len() > 1 => {
                let gone = random.below(mesh.faces.len());
                mesh.faces.swap_remove(gone);
            }
            _ if ![a, b].contains(&other) => mesh.faces.push([a, b, other]),
            _ => {}
        }
    }
    mesh
}

/// A surface without border.
pub fn closed(random: &mut Random, most: usize) -> Mesh {
    if random.once_in(2) {
        ball(random, most)
    } else {
        block(random, most)
    }
}

/// Any shape that is a surface.
pub fn surface(random: &mut Random, most: usize) -> Mesh {
    let shapes = [ball, block, torus, grid, patch, fan];
    random.choose(&shapes)(random, most)
}

/// A surface, whole or torn.
pub fn any(random: &mut Random, most: usize) -> Mesh {
    if random.once_in(2) {
        surface(random, most)
    } else {
        torn(random, most)
    }
}

/// Turned, stretched and moved by any numbers, so that nothing stays even.
pub fn tilted(random: &mut Random, mesh: Mesh) -> Mesh {
    let rows: [[f64; 3]; 3] = [[0; 3]; 3].map(|row| row.map(|_: i32| random.around(1.0)));
    // Far from zero the rounding of the costs shows, down to negative ones.
    let far = random.choose(&[0.0, 1.0, 100.0, 10_000.0]);
    let move_by = [0; 3].map(|_| random.around(far));
    mesh.map(|p| {
        [0, 1, 2].map(|i| rows[i][0] * p[0] + rows[i][1] * p[1] + rows[i][2] * p[2] + move_by[i])
    })
}

/// Every coordinate off by a little.
pub fn shaken(random: &mut Random, mesh: Mesh) -> Mesh {
    let size = random.choose(&[1e-6, 1e-3, 0.05, 0.3]);
    mesh.map(|p| p.map(|x| x + random.around(size)))
}

/// The axis of x becomes another.
pub fn along(axis: usize, mesh: Mesh) -> Mesh {
    mesh.map(|mut p| {
        p.rotate_right(axis);
        p
    })
}
