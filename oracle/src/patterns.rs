//! Bit patterns of f32 and f64, in the styles that single operations are asked in.

use crate::random::Random;
use crate::units::{bound_of, UNITS};

/// How the numbers of one case hang together.
#[derive(Clone, Copy)]
pub enum Style {
    /// Any bits.
    Uniform,
    /// Exponents near one another, so that sums and products round.
    Window(i32),
    /// A few steps from a first number.
    Near(f64),
    /// Small whole numbers over eight.
    Whole,
    /// Around the bound of a unit, on either side.
    Bound(u32),
    /// Subnormal, or nearly.
    Low,
    /// Zeros, most of them of one sign, and ones.
    Zeros(bool),
}

impl Style {
    pub fn any(random: &mut Random) -> Self {
        match random.below(9) {
            0 => Style::Uniform,
            1 | 2 => Style::Window(random.between(0, 276) as i32 - 149),
            3 => Style::Window(random.between(0, 40) as i32 - 20),
            4 => Style::Near(random.around(1000.0)),
            5 => Style::Whole,
            6 => Style::Bound(random.choose(&UNITS)),
            7 => Style::Zeros(random.once_in(2)),
            _ => Style::Low,
        }
    }
}

pub fn any32(random: &mut Random, style: Style) -> u32 {
    let sign = (random.below(2) as u32) << 31;
    let digits = random.between(1, 25);
    match style {
        Style::Uniform => random.bits() as u32,
        Style::Window(middle) => {
            let field = (middle + 127 + random.below(5) as i32 - 2).clamp(0, 254) as u32;
            sign | field << 23 | random.below(1 << 23) as u32
        }
        Style::Near(first) => ((first as f32).to_bits()).wrapping_add(random.below(9) as u32),
        Style::Whole => ((random.below(33) as f32 - 16.0) / 8.0).to_bits(),
        Style::Bound(unit) => sign | (bound_of(unit).to_bits() + random.below(9) as u32 - 4),
        Style::Low => sign | random.below(1 << digits) as u32,
        Style::Zeros(below) => (zero_or_one(random, below) as f32).to_bits(),
    }
}

pub fn any64(random: &mut Random, style: Style) -> u64 {
    let sign = (random.below(2) as u64) << 63;
    let digits = random.between(1, 54);
    match style {
        Style::Uniform => random.bits(),
        Style::Window(middle) => {
            // as far out as an f64 goes
            let field = (7 * middle + 1023 + random.below(5) as i32 - 2).clamp(0, 2046) as u64;
            sign | field << 52 | random.bits() >> 12
        }
        Style::Near(first) => first.to_bits().wrapping_add(random.below(9) as u64),
        Style::Whole => ((random.below(33) as f64 - 16.0) / 8.0).to_bits(),
        Style::Bound(unit) => {
            let bound = (bound_of(unit) as f64).to_bits() as i64;
            sign | (bound + random.choose(&[1, 1 << 28, 1 << 29]) * (random.below(9) as i64 - 4))
                as u64
        }
        Style::Low => sign | random.below(1 << digits) as u64,
        Style::Zeros(below) => zero_or_one(random, below).to_bits(),
    }
}

/// A bound of coordinates: mostly that of a unit, now and then any pattern.
pub fn any_bound(random: &mut Random) -> u32 {
    match random.below(8) {
        0 => random.choose(&ENDS_32),
        1 => {
            let style = Style::any(random);
            any32(random, style)
        }
        _ => bound_of(random.choose(&UNITS)).to_bits(),
    }
}

fn zero_or_one(random: &mut Random, below: bool) -> f64 {
    let main = if below { -0.0 } else { 0.0 };
    if random.below(12) > 0 {
        main
    } else {
        random.choose(&[-main, 1.0, -1.0, 2.0])
    }
}

/// The f32 patterns at the ends of what there is. Some of the NaNs signal.
const ENDS_32: [u32; 18] = [
    0,
    0x8000_0000,
    0x7f80_0000,
    0xff80_0000,
    0x7fc0_0000,
    0xffc0_0000,
    0x7f80_0001,
    0xffff_ffff,
    1,
    0x8000_0001,
    0x007f_ffff,
    0x0080_0000,
    0x7f7f_ffff,
    0xff7f_ffff,
    0x4480_0000,
    0xc480_0000,
    0x4980_0000,
    0xc980_0000,
];

const ENDS_64: [u64; 14] = [
    0,
    0x8000_0000_0000_0000,
    0x7ff0_0000_0000_0000,
    0xfff0_0000_0000_0000,
    0x7ff8_0000_0000_0000,
    0xfff8_0000_0000_0000,
    0x7ff0_0000_0000_0001,
    0xffff_ffff_ffff_ffff,
    1,
    0x8000_0000_0000_0001,
    0x000f_ffff_ffff_ffff,
    0x0010_0000_0000_0000,
    0x7fef_ffff_ffff_ffff,
    0xffef_ffff_ffff_ffff,
];

/// Puts patterns from the ends, or copies of others, in a few places of a list.
pub fn spoil32(random: &mut Random, list: &mut [u32]) {
    for _ in 0..random.choose(&[0, 0, 0, 1, 1, 2, 3]) {
        let (to, from) = (random.below(list.len()), random.below(list.len()));
        list[to] = if random.once_in(3) { list[from] } else { random.choose(&ENDS_32) };
    }
}

pub fn spoil64(random: &mut Random, list: &mut [u64]) {
    for _ in 0..random.choose(&[0, 0, 0, 1, 1, 2, 3]) {
        let (to, from) = (random.below(list.len()), random.below(list.len()));
        list[to] = if random.once_in(3) { list[from] } else { random.choose(&ENDS_64) };
    }
}
