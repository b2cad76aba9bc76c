//! The answer to a case: the rules before the walk, then the Rust itself.

use crate::case::{Answer, Case};
use crate::fold_report::{self, Report};
use crate::quadric_error::QuadricErrorSimplifier;
use crate::{rules, MeshSimplifier};
use threecrate_core::{Error, Point3f, TriangleMesh};

pub fn answer(case: &Case) -> Answer {
    rules::answer_before_walk(case).unwrap_or_else(|| walked(case).0)
}

/// The Rust's answer on an admitted mesh, and the report of its walk.
pub fn walked(case: &Case) -> (Answer, Report) {
    let result = simplifier(case).simplify(&mesh(case), f32::from_bits(case.ratio));
    let report = fold_report::take();
    let mut answer = match result {
        Ok(mesh) => Answer {
            points: mesh.vertices.iter().flat_map(|p| [p.x, p.y, p.z]).map(f32::to_bits).collect(),
            faces: mesh.faces.concat().iter().map(|&point| point as u32).collect(),
            folds: report.folds.iter().map(|f| [f.keep as u32, f.remove as u32]).collect(),
            ..Answer::default()
        },
        Err(Error::Algorithm(message)) => no_fold(&message),
        Err(error) => panic!("the Rust refused an admitted mesh: {error:?}"),
    };
    answer.closed = report.counts();
    (answer, report)
}

/// The Rust with the settings of a case.
pub fn simplifier(case: &Case) -> QuadricErrorSimplifier {
    let limit = case.limited.then_some(f32::from_bits(case.limit));
    // The third parameter is stored by the Rust and never read.
    let mut simplifier = QuadricErrorSimplifier::with_params(limit, case.preserve, 0.0);
    simplifier.margin = case.margin.iter().map(|&point| point as usize).collect();
    simplifier.bound = rules::bound(case.unit).expect("a unit, of an admitted mesh");
    simplifier
}

pub fn mesh(case: &Case) -> TriangleMesh {
    let point = |p: &[u32]| Point3f::from([p[0], p[1], p[2]].map(f32::from_bits));
    let face = |f: &[u32]| [f[0] as usize, f[1] as usize, f[2] as usize];
    TriangleMesh::from_vertices_and_faces(
        case.points.chunks(3).map(point).collect(),
        case.faces.chunks(3).map(face).collect(),
    )
}

/// Answers 10 and 11, read from the message: "... (4 of 5 vertices are on a hole ...".
fn no_fold(message: &str) -> Answer {
    let fixed_points = message.split_once('(').and_then(|(_, rest)| rest.split_once(" of "));
    match fixed_points {
        Some((count, _)) => {
            let place = count.parse().expect("a count of fixed points");
            Answer { number: 10, place, ..Answer::default() }
        }
        None => Answer { number: 11, ..Answer::default() },
    }
}
