//! Cases of single operations, and the file that holds them.
//!
//! The file is u32 words, little-endian: the magic word, and then for each case
//! its kind, its patterns and the patterns of the answer. An f64 is two words,
//! the low one first. The kind says how many words there are.

use crate::patterns::{any32, any64, any_bound, spoil32, spoil64, Style};
use crate::quadric_error::single::{self, Placed};
use crate::random::Random;
use crate::units::{bound_of, UNITS};
use std::io::{self, Write};

/// "hjs2" as bytes in the file.
const MAGIC: u32 = u32::from_le_bytes(*b"hjs2");

/// The kinds of case: what goes in; what comes out.
enum Single {
    /// Nine f32; four f64.
    Plane,
    /// Ten f64 and three f32; one f64.
    Error,
    /// Nine f64; whether there is one, and nine f64.
    Inverse,
    /// Six f32; one f32.
    Length,
    /// The bound, an f32, then six f32 and twenty f64; three f32 and one f64.
    Place,
    /// The same, where a NaN is among the errors of the three places.
    NanPlace,
}

/// How often the Rust itself differs from the rule for errors that are NaNs.
#[derive(Default)]
pub struct Told {
    pub nan_places: u64,
    pub rust_differs: u64,
}

pub fn write(seed: u64, count: u64, out: &mut impl Write) -> io::Result<Told> {
    let mut told = Told::default();
    write_words(out, &[MAGIC])?;
    for turn in 0..count {
        let mut random = Random::new(seed, turn);
        let words = match random.below(8) {
            0 | 1 => plane(&mut random),
            2 => error(&mut random),
            3 | 4 => inverse(&mut random),
            5 => length(&mut random),
            _ => place(&mut random, &mut told),
        };
        write_words(out, &words)?;
    }
    Ok(told)
}

fn write_words(out: &mut impl Write, words: &[u32]) -> io::Result<()> {
    words.iter().try_for_each(|word| out.write_all(&word.to_le_bytes()))
}

fn wide(list: &[u64]) -> Vec<u32> {
    list.iter().flat_map(|&x| [x as u32, (x >> 32) as u32]).collect()
}

fn list32<const N: usize>(random: &mut Random, style: Style) -> [u32; N] {
    let mut list = [0; N].map(|_| any32(random, style));
    spoil32(random, &mut list);
    list
}

fn list64<const N: usize>(random: &mut Random, style: Style) -> [u64; N] {
    let mut list = [0; N].map(|_| any64(random, style));
    spoil64(random, &mut list);
    list
}

/// Both sizes, in one style or in two.
fn lists<const M: usize, const N: usize>(random: &mut Random) -> ([u32; M], [u64; N]) {
    let style = Style::any(random);
    let other = match style {
        Style::Zeros(_) => Style::Zeros(random.once_in(2)),
        _ if random.once_in(2) => style,
        _ => Style::any(random),
    };
    (list32(random, style), list64(random, other))
}

fn plane(random: &mut Random) -> Vec<u32> {
    let style = Style::any(random);
    let points = list32::<9>(random, style);
    [&[Single::Plane as u32], &points[..], &wide(&single::plane(&points))].concat()
}

fn length(random: &mut Random) -> Vec<u32> {
    let style = Style::any(random);
    let points = list32::<6>(random, style);
    [&[Single::Length as u32], &points[..], &[single::length(&points)]].concat()
}

fn inverse(random: &mut Random) -> Vec<u32> {
    let style = Style::any(random);
    let mut rows = list64::<9>(random, style);
    // A quarter without an inverse, or nearly: a row that is twice another, or the same.
    if random.once_in(4) {
        let times = random.choose(&[1.0, 2.0, -0.5, 3.0]);
        (0..3).for_each(|i| rows[6 + i] = (f64::from_bits(rows[i]) * times).to_bits());
    }
    let found = single::inverse(&rows);
    let (is, entries) = (found.is_some() as u32, found.unwrap_or([0; 9]));
    [&[Single::Inverse as u32], &wide(&rows)[..], &[is], &wide(&entries)].concat()
}

fn error(random: &mut Random) -> Vec<u32> {
    let (point, mut quadric) = lists::<3, 10>(random);
    if random.once_in(2) {
        quadric = real_quadric(random);
    }
    let answer = wide(&[single::error(&quadric, &point)]);
    [&[Single::Error as u32], &wide(&quadric)[..], &point, &answer].concat()
}

fn place(random: &mut Random, told: &mut Told) -> Vec<u32> {
    let bound = any_bound(random);
    let endless = f32::from_bits(bound).is_infinite();
    let (points, quadrics) = match random.below(10) {
        0..=4 if endless => endless_pair(random),
        0 | 1 => lists(random),
        2 | 3 => real_pair(random),
        4 => flat_pair(random),
        5 => zero_pair(random),
        _ => solvable_pair(random, bound),
    };
    let Placed { rust, by_rule } = single::place(bound, &points, &quadrics);
    let kind = if by_rule.is_some() { Single::NanPlace } else { Single::Place };
    let expected = by_rule.unwrap_or(rust);
    told.nan_places += by_rule.is_some() as u64;
    told.rust_differs += (expected.place != rust.place) as u64;
    let answer = [&expected.place[..], &wide(&[expected.cost])].concat();
    [&[kind as u32, bound], &points[..], &wide(&quadrics), &answer].concat()
}

/// A sum of the quadrics of some planes.
fn real_quadric(random: &mut Random) -> [u64; 10] {
    let mut sum = [0f64; 10];
    let style = Style::any(random);
    for _ in 0..random.between(1, 4) {
        let quadric = single::quadric_of(&[0; 9].map(|_| any32(random, style)));
        (0..10).for_each(|i| sum[i] += f64::from_bits(quadric[i]));
    }
    sum.map(f64::to_bits)
}

/// A pair with quadrics of planes, its points anywhere.
fn real_pair(random: &mut Random) -> ([u32; 6], [u64; 20]) {
    let (a, b) = (real_quadric(random), real_quadric(random));
    let mut quadrics: [u64; 20] = [a, b].concat().try_into().expect("twenty");
    if random.once_in(4) {
        spoil64(random, &mut quadrics);
    }
    let style = Style::any(random);
    (list32(random, style), quadrics)
}

/// A pair whose quadric looks at one axis only, and is smallest about half way.
fn flat_pair(random: &mut Random) -> ([u32; 6], [u64; 20]) {
    let style = Style::any(random);
    let points = [0; 6].map(|_| any32(random, style));
    let axis = random.below(3);
    let [a, b] = [axis, 3 + axis].map(|i| f32::from_bits(points[i]) as f64);
    let middle = a + (b - a) * random.choose(&[0.5, 0.5, 0.25, 0.75, 1.0]);
    // the places of the diagonal and of the last column in the ten
    let (square, column) = [(0, 3), (4, 6), (7, 8)][axis];
    let mut quadric = [0f64; 10];
    quadric[square] = 1.0;
    quadric[column] = -middle;
    quadric[9] = middle * middle;
    let zero = random.choose(&[[0; 10], [1 << 63; 10]]);
    let quadrics = [quadric.map(f64::to_bits), zero].concat();
    (points, quadrics.try_into().expect("twenty"))
}

/// A pair whose errors are zeros of either sign.
fn zero_pair(random: &mut Random) -> ([u32; 6], [u64; 20]) {
    let style = random.choose(&[Style::Whole, Style::Zeros(false), Style::Zeros(true), Style::Low]);
    let mut quadrics = [1 << 63; 20];
    if random.once_in(2) {
        quadrics[random.below(20)] = 0;
    }
    ([0; 6].map(|_| any32(random, style)), quadrics)
}

/// A pair whose quadric is solved by a point that is chosen, with its distance from keep
/// about twice the length, and its parts sometimes about the bound or a unit's.
fn solvable_pair(random: &mut Random, bound: u32) -> ([u32; 6], [u64; 20]) {
    let bound = f32::from_bits(bound).abs();
    let at = match random.below(5) {
        0 | 1 if bound.is_finite() => bound as f64,
        2 => bound_of(random.choose(&UNITS)) as f64,
        _ => random.below(64) as f64 / 8.0,
    };
    let solution = [0; 3].map(|_| random.choose(&[0.0, 1.0, -1.0, 0.5]) * at);
    let step = random.choose(&[0.125, 1.0, 3.0, 2f64.powi(-24), 2f64.powi(-22), 0.0]);
    let axis = random.below(3);
    let mut points = [0f32; 6];
    for i in 0..3 {
        let away = if i == axis { step } else { 0.0 };
        points[i] = (solution[i] - 2.0 * away) as f32;
        points[3 + i] = (solution[i] - random.choose(&[1.0, 3.0]) * away) as f32;
    }
    let mut points = points.map(f32::to_bits);
    let mut quadrics = [0; 20];
    for half in quadrics.chunks_mut(10) {
        half.copy_from_slice(&solved_by(random, solution));
    }
    // A few steps of one number, or of the last column, across the edge of a comparison.
    match random.below(5) {
        0 | 1 => {
            let i = random.below(6);
            points[i] = points[i].wrapping_add(random.below(5) as u32).wrapping_sub(2);
        }
        2 | 3 => {
            let i = 10 * random.below(2) + random.choose(&[3, 6, 8]);
            let small = random.choose(&[1u64, 1 << 27, 1 << 28, 1 << 29]);
            quadrics[i] =
                quadrics[i].wrapping_add(small * random.below(5) as u64).wrapping_sub(2 * small);
        }
        _ => {}
    }
    if random.once_in(16) {
        spoil32(random, &mut points);
        spoil64(random, &mut quadrics);
    }
    (points, quadrics)
}

/// A pair of infinite length, whose quadric is solved beyond every f32.
fn endless_pair(random: &mut Random) -> ([u32; 6], [u64; 20]) {
    let axis = random.below(3);
    let (mut points, mut solution) = ([0f32; 6], [0.0; 3]);
    // its square is infinite
    points[3 + axis] = 1e30;
    solution[axis] = random.choose(&[1e39, -1e39]);
    let quadrics = [solved_by(random, solution), solved_by(random, solution)].concat();
    (points.map(f32::to_bits), quadrics.try_into().expect("twenty"))
}

/// A quadric that is smallest at a point: a diagonal block, or one that mixes the axes.
fn solved_by(random: &mut Random, [x, y, z]: [f64; 3]) -> [u64; 10] {
    let [a, b, c] = [0; 3].map(|_| random.choose(&[1.0, 2.0, 3.0, 0.25]));
    let d = random.choose(&[0.0, 0.0, 0.5]);
    // block (a d 0, d b 0, 0 0 c), column minus the block times the point
    [a, d, 0.0, -(a * x + d * y), b, 0.0, -(d * x + b * y), c, -(c * z), random.below(3) as f64]
        .map(f64::to_bits)
}
