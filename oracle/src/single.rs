//! Single operations of the Rust: bit patterns in, bit patterns out. This is a child of the
//! patched file, whose own functions are private. Every NaN is written as one pattern.

use super::{QuadricErrorSimplifier, Working};
use nalgebra::{Matrix3, Matrix4, Vector4};
use std::collections::HashSet;
use threecrate_core::Point3f;

/// The place of a pair and the error there.
#[derive(Clone, Copy, PartialEq, Debug)]
pub struct Place {
    pub place: [u32; 3],
    pub cost: u64,
}

/// What the Rust answers, and what the rule says where an error is a NaN.
pub struct Placed {
    pub rust: Place,
    /// Given where the choice of the three places meets an error that is a NaN:
    /// document 01's order with every NaN above all numbers. The Rust goes by the
    /// NaN's sign and payload, which no operation fixes.
    pub by_rule: Option<Place>,
}

/// `compute_plane`, as published.
pub fn plane(points: &[u32; 9]) -> [u64; 4] {
    let [a, b, c] = [0, 3, 6].map(|i| point(&points[i..]));
    <[f64; 4]>::from(simplifier().compute_plane(&a, &b, &c)).map(bits64)
}

/// The error, an expression inside the published `candidate`.
pub fn error(quadric: &[u64; 10], at: &[u32; 3]) -> u64 {
    bits64(error_at(&matrix(quadric), &point(at)))
}

/// nalgebra's inverse, by rows.
pub fn inverse(rows: &[u64; 9]) -> Option<[u64; 9]> {
    let m = Matrix3::from_row_slice(&rows.map(f64::from_bits));
    m.try_inverse().map(|inverse| {
        let by_columns: [f64; 9] = inverse.transpose().as_slice().try_into().expect("nine");
        by_columns.map(bits64)
    })
}

/// The length of a pair, an expression inside the published `candidate`.
pub fn length(points: &[u32; 6]) -> u32 {
    bits32((point(points) - point(&points[3..])).magnitude())
}

/// The place and the cost of a pair, by the published `candidate` itself. The bound
/// of the solved point is a pattern like the others.
pub fn place(bound: u32, points: &[u32; 6], quadrics: &[u64; 20]) -> Placed {
    let simplifier = QuadricErrorSimplifier { bound: f32::from_bits(bound), ..simplifier() };
    let [pa, pb] = [point(points), point(&points[3..])];
    let [qa, qb] = [0, 10].map(|i| matrix(quadrics[i..i + 10].try_into().expect("ten")));
    let w = Working {
        positions: vec![pa, pb],
        quadrics: vec![qa, qb],
        stamps: vec![0; 2],
        alive: vec![true; 2],
        faces: Vec::new(),
        face_alive: Vec::new(),
        vertex_faces: vec![Vec::new(); 2],
        live_faces: 0,
    };
    let found = simplifier.any_cost(&w, 0, 1, &HashSet::new()).expect("a pair of free points");
    let rust = Place { place: point_bits(&found.position), cost: bits64(found.cost) };
    Placed { rust, by_rule: by_rule(simplifier.bound, pa, pb, qa + qb, rust) }
}

/// The choice of the three places, where an error of theirs is a NaN.
fn by_rule(bound: f32, pa: Point3f, pb: Point3f, q: Matrix4<f64>, rust: Place) -> Option<Place> {
    let three = [pa, pb, Point3f::from((pa.coords + pb.coords) * 0.5)];
    let placed = |p: &Point3f| Place { place: point_bits(p), cost: bits64(error_at(&q, p)) };
    if let Some(solved) = solved(bound, pa, pb, &q) {
        assert_eq!(rust, placed(&solved), "the solved point, worked out twice");
        return None;
    }
    if !three.iter().any(|p| error_at(&q, p).is_nan()) {
        assert!(three.iter().any(|p| rust == placed(p)), "one of the three places");
        return None;
    }
    // bits64 writes a NaN above every number; min_by keeps the earliest on equals
    let key = |p: &&Point3f| f64::from_bits(bits64(error_at(&q, p)));
    three.iter().min_by(|x, y| key(x).total_cmp(&key(y))).map(placed)
}

/// The solved point where it may stand: the expression of the patched `candidate`.
fn solved(bound: f32, pa: Point3f, pb: Point3f, q: &Matrix4<f64>) -> Option<Point3f> {
    let length = (pa - pb).magnitude();
    (q.fixed_view::<3, 3>(0, 0).into_owned().try_inverse())
        .map(|inv| -inv * q.fixed_view::<3, 1>(0, 3))
        .map(|v| Point3f::new(v[0] as f32, v[1] as f32, v[2] as f32))
        .filter(|p| {
            p.coords.iter().all(|c| c.is_finite() && c.abs() <= bound)
                && (p - pa).magnitude() <= 2.0 * length.max(f32::EPSILON)
        })
}

/// The quadric of a plane through three points, as published.
pub fn quadric_of(points: &[u32; 9]) -> [u64; 10] {
    let [a, b, c] = [0, 3, 6].map(|i| point(&points[i..]));
    let simplifier = simplifier();
    let m = simplifier.plane_to_quadric(&simplifier.compute_plane(&a, &b, &c));
    UPPER.map(|(i, j)| bits64(m[(i, j)]))
}

fn simplifier() -> QuadricErrorSimplifier {
    QuadricErrorSimplifier::with_params(None, false, 0.0)
}

fn error_at(q: &Matrix4<f64>, p: &Point3f) -> f64 {
    let h = Vector4::new(p.x as f64, p.y as f64, p.z as f64, 1.0);
    (h.transpose() * q * h)[0]
}

fn point(bits: &[u32]) -> Point3f {
    Point3f::from([bits[0], bits[1], bits[2]].map(f32::from_bits))
}

fn point_bits(p: &Point3f) -> [u32; 3] {
    [p.x, p.y, p.z].map(bits32)
}

/// The upper right half of a symmetric matrix, by rows.
const UPPER: [(usize, usize); 10] =
    [(0, 0), (0, 1), (0, 2), (0, 3), (1, 1), (1, 2), (1, 3), (2, 2), (2, 3), (3, 3)];

fn matrix(upper: &[u64; 10]) -> Matrix4<f64> {
    let mut m = Matrix4::zeros();
    for (bits, (i, j)) in upper.iter().zip(UPPER) {
        m[(i, j)] = f64::from_bits(*bits);
        m[(j, i)] = f64::from_bits(*bits);
    }
    m
}

fn bits32(x: f32) -> u32 {
    if x.is_nan() {
        0x7fc0_0000
    } else {
        x.to_bits()
    }
}

fn bits64(x: f64) -> u64 {
    if x.is_nan() {
        0x7ff8_0000_0000_0000
    } else {
        x.to_bits()
    }
}

#[cfg(test)]
mod tests {
    use super::*;

    /// The smallest input on which the Rust goes another way than document 01: an error
    /// that is a NaN is taken before a number where the NaN's sign bit is set.
    #[test]
    fn a_nan_with_its_sign_set_comes_first() {
        let nan_at_keep = |nan: u32| place(0x4480_0000, &[nan, 0, 0, 0, 0, 0], &[0; 20]);
        let below = nan_at_keep(0xffc0_0000);
        assert_eq!(below.rust.place, [0x7fc0_0000, 0, 0]);
        assert_eq!(below.by_rule.expect("a NaN").place, [0, 0, 0]);
        let above = nan_at_keep(0x7fc0_0000);
        assert_eq!(above.rust.place, [0, 0, 0]);
    }
}
