//! One mesh of the largest size, asked several times for its time.

use crate::answer;
use crate::case::{self, Case};
use crate::dressing::{plain, renumber};
use crate::fold_report::{self, without_reasons};
use crate::random::Random;
use crate::shapes::{self, circle, Mesh};
use crate::MeshSimplifier;
use std::io::{self, Write};
use std::time::{Duration, Instant};

/// How often each mesh is asked; the least time counts.
const TIMES: usize = 3;

/// With side 256 the torus has 65,536 points and 131,072 faces, and the grid 65,536 points
/// and 130,050 faces; held is the grid with every sixteenth point in the margin.
pub fn write(shape: &str, side: usize, ratio: f32, out: &mut impl Write) -> io::Result<()> {
    let mut random = Random::new(1, 0);
    let mesh = match shape {
        "torus" | "shuffled" => shapes::torus_of(side, side, 0.4, || false),
        "grid" | "held" => shapes::grid_of(side - 1, side - 1, || false),
        _ => panic!("shapes: torus, shuffled, grid, held"),
    };
    let mut case = plain(waved(&mut random, mesh));
    if shape == "shuffled" {
        case = shuffled(&case);
    }
    if shape == "held" {
        case.margin = (0..case.points.len() as u32 / 3).step_by(16).collect();
    }
    case.ratio = ratio.to_bits();
    eprintln!("{shape}, {} faces, ratio {ratio}", case.faces.len() / 3);
    eprintln!("the Rust: {:.1} ms", 1e3 * least_time(&case).as_secs_f64());
    case::write_head(out, &[shape])?;
    let answer = answer::answer(&case);
    (0..TIMES).try_for_each(|_| case.write(&answer, out))
}

/// Numbered anew. Points in no face, which are sometimes added, would be too many.
fn shuffled(case: &Case) -> Case {
    let renumbered = |turn| {
        let mut other = case.clone();
        renumber(&mut Random::new(1, turn), &mut other);
        other
    };
    (1..).map(renumbered).find(|other| other.points.len() == case.points.len()).expect("a case")
}

/// With waves and some noise.
pub fn waved(random: &mut Random, mesh: Mesh) -> Mesh {
    let width = mesh.points.iter().flatten().fold(1.0, |most: f64, x| most.max(x.abs()));
    mesh.map(|[x, y, z]| {
        let wave = circle(x / width * 9.0).1 * circle(y / width * 7.0).0;
        let rise = width * (0.01 * wave + random.around(0.0002));
        [x, y, z + rise]
    })
}

fn least_time(case: &Case) -> Duration {
    let mesh = answer::mesh(case);
    let simplifier = answer::simplifier(case);
    let once = |_| {
        let start = Instant::now();
        let thinned = without_reasons(|| simplifier.simplify(&mesh, f32::from_bits(case.ratio)));
        let took = start.elapsed();
        drop(thinned);
        fold_report::take();
        took
    };
    (0..TIMES).map(once).min().expect("a time")
}
