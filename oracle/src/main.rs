//! The oracle: meshes with the answers that the Rust of document 01 gives.
//!
//!     oracle SEED COUNT MOST_FACES [FAMILY]
//!
//! writes COUNT cases with their answers to standard output; the same numbers
//! give the same bytes. MOST_FACES bounds the size of the shapes. FAMILY keeps
//! to one kind of mesh.
//!
//!     oracle single SEED COUNT
//!
//! writes COUNT cases of single operations.
//!
//!     oracle large SHAPE SIDE RATIO
//!
//! writes one mesh several times, and says how long the Rust takes for it.
//!
//!     oracle mesh SHAPE SIDE
//!     oracle time FILE RATIO TIMES
//!
//! are for bench/run: they write a mesh file, and time the Rust on one.

mod answer;
mod bad_input;
mod case;
mod dressing;
mod edge_cases;
mod families;
mod fold_report;
mod large;
mod margins;
mod odd_places;
mod patterns;
mod random;
mod reasons;
mod rules;
mod shapes;
mod single_cases;
mod steps;
mod timing;
mod units;

// The published file with quadric_error.patch applied by ./build.
#[allow(dead_code)]
#[path = "../patched/quadric_error.rs"]
mod quadric_error;

use std::io::{self, BufWriter, Write};
use threecrate_core::{Result, TriangleMesh};

/// As the published lib.rs has it.
pub trait MeshSimplifier {
    fn simplify(&self, mesh: &TriangleMesh, reduction_ratio: f32) -> Result<TriangleMesh>;
}

fn main() -> io::Result<()> {
    let words: Vec<String> = std::env::args().skip(1).collect();
    let words: Vec<&str> = words.iter().map(String::as_str).collect();
    let mut out = BufWriter::new(io::stdout().lock());
    match words[..] {
        ["single", seed, count] => single(number(seed), number(count), &mut out)?,
        ["large", shape, side, ratio] => {
            let ratio = ratio.parse().unwrap_or_else(|_| usage());
            large::write(shape, number(side) as usize, ratio, &mut out)?
        }
        ["mesh", shape, side] => timing::write(shape, number(side) as usize, &mut out)?,
        ["time", file, ratio, times] => {
            let ratio = ratio.parse().unwrap_or_else(|_| usage());
            timing::time(file, ratio, number(times), &mut out)?
        }
        [seed, count, most] => meshes(number(seed), number(count), number(most), None, &mut out)?,
        [seed, count, most, name] => {
            let only = Some(families::number_of(name));
            meshes(number(seed), number(count), number(most), only, &mut out)?
        }
        _ => usage(),
    }
    out.flush()
}

fn number(word: &str) -> u64 {
    word.parse().unwrap_or_else(|_| usage())
}

fn usage() -> ! {
    eprintln!("usage: oracle SEED COUNT MOST_FACES [FAMILY]");
    eprintln!("       oracle single SEED COUNT");
    eprintln!("       oracle large SHAPE SIDE RATIO");
    eprintln!("       oracle mesh SHAPE SIDE");
    eprintln!("       oracle time FILE RATIO TIMES");
    std::process::exit(2)
}

fn meshes(
    seed: u64,
    count: u64,
    most: u64,
    only: Option<usize>,
    out: &mut impl Write,
) -> io::Result<()> {
    case::write_head(out, &families::names())?;
    let mut written = 0;
    let mut turn = 0;
    while written < count {
        for case in families::make(seed, turn, most as usize, only) {
            case.write(&answer::answer(&case), out)?;
            written += 1;
        }
        turn += 1;
    }
    Ok(())
}

fn single(seed: u64, count: u64, out: &mut impl Write) -> io::Result<()> {
    let told = single_cases::write(seed, count, out)?;
    eprintln!(
        "{} places with an error that is a NaN; the Rust itself goes another way in {} of them",
        told.nan_places, told.rust_differs
    );
    Ok(())
}
