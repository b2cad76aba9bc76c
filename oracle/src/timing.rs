//! Meshes for bench/run, and the Rust's processor time for one of them.
//!
//! A mesh file is words of 32 bits, little-endian: the number of points, the number of faces, the
//! coordinates as f32, the faces' point numbers. Every program of bench/run reads it.

use crate::answer;
use crate::dressing::plain;
use crate::fold_report::{self, without_reasons};
use crate::large::waved;
use crate::quadric_error::QuadricErrorSimplifier;
use crate::random::Random;
use crate::shapes::{self, circle, Mesh};
use crate::MeshSimplifier;
use std::io::{self, Write};
use threecrate_core::{Result, TriangleMesh};

/// Writes a mesh file. Torus and grid are those of `oracle large`, flat is the grid without
/// waves; plate, disc and cone are fans of as many faces as their side says, the last two with
/// the same waves.
pub fn write(shape: &str, side: usize, out: &mut impl Write) -> io::Result<()> {
    let mut random = Random::new(1, 0);
    let mesh = match shape {
        "torus" => waved(&mut random, shapes::torus_of(side, side, 0.4, || false)),
        "grid" => waved(&mut random, shapes::grid_of(side - 1, side - 1, || false)),
        "flat" => shapes::grid_of(side - 1, side - 1, || false),
        "plate" => fan(side, 0.0),
        "disc" => waved(&mut random, fan(side, 0.0)),
        "cone" => waved(&mut random, fan(side, 1.0)),
        _ => panic!("shapes: torus, grid, flat, plate, disc, cone"),
    };
    let case = plain(mesh);
    let counts = [case.points.len() as u32 / 3, case.faces.len() as u32 / 3];
    let mut words = counts.iter().chain(&case.points).chain(&case.faces);
    words.try_for_each(|word| out.write_all(&word.to_le_bytes()))
}

/// Faces all the way round one point, which is so high above the others.
fn fan(faces: usize, height: f64) -> Mesh {
    let mut mesh = Mesh { points: vec![[0.0, 0.0, height]], faces: Vec::new() };
    for i in 0..faces {
        let (c, s) = circle(i as f64 / faces as f64);
        mesh.points.push([c, s, 0.0]);
    }
    let at = |i: usize| (1 + i % faces) as u32;
    mesh.faces.extend((0..faces).map(|i| [0, at(i), at(i + 1)]));
    mesh
}

/// Thins the mesh of a file so many times. Writes the least processor time in milliseconds, the
/// number of faces left, and a sum over the bits of the thinned mesh.
pub fn time(file: &str, ratio: f32, times: u64, out: &mut impl Write) -> io::Result<()> {
    let case = plain(read(file)?);
    let (mesh, simplifier) = (answer::mesh(&case), answer::simplifier(&case));
    let mut least = f64::INFINITY;
    let mut told = (0, 0);
    for _ in 0..times {
        let start = processor_milliseconds();
        let thinned = without_reasons(|| timed_call(&simplifier, &mesh, ratio));
        least = least.min(processor_milliseconds() - start);
        let thinned = thinned.expect("a thinned mesh");
        told = (thinned.faces.len(), sum(&thinned));
        fold_report::take();
    }
    writeln!(out, "{least:.4} {} {:08x}", told.0, told.1)
}

/// What is timed, under the name by which callgrind is told to count it.
#[no_mangle]
#[inline(never)]
fn timed_call(
    by: &QuadricErrorSimplifier,
    mesh: &TriangleMesh,
    ratio: f32,
) -> Result<TriangleMesh> {
    by.simplify(mesh, ratio)
}

fn read(file: &str) -> io::Result<Mesh> {
    let bytes = std::fs::read(file)?;
    let word = |four: &[u8]| u32::from_le_bytes([four[0], four[1], four[2], four[3]]);
    let words: Vec<u32> = bytes.chunks_exact(4).map(word).collect();
    let (points, faces) = words[2..].split_at(3 * words[0] as usize);
    let place = |bits: u32| f32::from_bits(bits) as f64;
    Ok(Mesh {
        points: points.chunks(3).map(|p| [place(p[0]), place(p[1]), place(p[2])]).collect(),
        faces: faces.chunks(3).map(|f| [f[0], f[1], f[2]]).collect(),
    })
}

/// The same as in bench/timing.h: any difference of two meshes shows.
fn sum(mesh: &TriangleMesh) -> u32 {
    let points = mesh.vertices.iter().flat_map(|p| [p.x, p.y, p.z]).map(f32::to_bits);
    let faces = mesh.faces.iter().flatten().map(|&point| point as u32);
    points.chain(faces).fold(2_166_136_261, |sum, word| (sum ^ word).wrapping_mul(16_777_619))
}

/// The processor time of this process.
fn processor_milliseconds() -> f64 {
    #[repr(C)]
    struct Moment {
        seconds: i64,
        nanoseconds: i64,
    }
    extern "C" {
        fn clock_gettime(clock: i32, moment: *mut Moment) -> i32;
    }
    /// CLOCK_PROCESS_CPUTIME_ID of Linux.
    const PROCESSOR: i32 = 2;
    let mut moment = Moment { seconds: 0, nanoseconds: 0 };
    // Every Rust program of Linux is linked with the C library that has it.
    let failed = unsafe { clock_gettime(PROCESSOR, &mut moment) };
    assert_eq!(failed, 0, "no clock");
    moment.seconds as f64 * 1e3 + moment.nanoseconds as f64 * 1e-6
}
