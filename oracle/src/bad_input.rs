//! Input that is refused, and input just inside what is admitted.

use crate::case::{Case, Lent};
use crate::dressing::{dressed, lend_as_stated, plain};
use crate::margins::spoil_margin;
use crate::random::Random;
use crate::rules;
use crate::shapes::{self, Mesh};
use crate::steps::moved;
use crate::units;

/// One fault, or several at once so that their order counts.
pub fn refused(random: &mut Random) -> Case {
    let mesh = shapes::surface(random, 12);
    let mut case = dressed(random, mesh);
    for _ in 0..random.choose(&[1, 1, 2, 3, 4, 5]) {
        spoil(random, &mut case);
    }
    if random.once_in(4) {
        spoil_margin(random, &mut case);
    }
    case
}

/// One fault, of any kind but the margin's.
pub fn spoil(random: &mut Random, case: &mut Case) {
    let coordinate = random.below(case.points.len().max(1));
    let face = random.below((case.faces.len() / 3).max(1));
    // A long list that repeats itself stays short in the file only if left alone.
    let lists = case.points.len().max(case.faces.len()) < 1000;
    match random.below(11) {
        0 => add_odd_entries(random, case),
        1 => shorten(random, case),
        2 => {
            // Without points or faces; the lent memory may fit or be as it was.
            if random.once_in(2) {
                case.points.clear()
            } else {
                case.faces.clear()
            }
            if random.once_in(2) {
                lend_as_stated(case);
            }
        }
        3 => case.ratio = bad_ratio(random),
        4 => spoil_limit(random, case),
        5 if lists && !case.points.is_empty() => {
            case.points[coordinate] = bad_coordinate(random, case.unit)
        }
        6 | 7 if lists && case.faces.len() >= 3 => spoil_face(random, case, face),
        8 => case.ratio = random.choose(&[0.0f32, -0.0]).to_bits(),
        9 => units::spoil(random, case),
        _ if random.once_in(8) => *case = over_size_limit(random),
        _ => shorten(random, case),
    }
}

/// A NaN, mostly with the flag that has it looked at.
pub fn spoil_limit(random: &mut Random, case: &mut Case) {
    case.limited = !random.once_in(4);
    case.limit = any_nan(random);
}

/// Faces that name a point too high, a point twice, or both.
pub fn bad_faces(random: &mut Random) -> Case {
    let mesh = shapes::surface(random, 12);
    let mut case = dressed(random, mesh);
    let faces = case.faces.len() / 3;
    let one = random.below(faces);
    for _ in 0..random.between(1, 3) {
        let face = if random.once_in(2) { one } else { random.below(faces) };
        spoil_face(random, &mut case, face);
    }
    if random.once_in(3) {
        spoil_margin(random, &mut case);
    }
    case
}

fn spoil_face(random: &mut Random, case: &mut Case, face: usize) {
    let points = case.points.len() as u32 / 3;
    let corners = &mut case.faces[3 * face..][..3];
    let corner = random.below(3);
    corners[corner] = if random.once_in(2) {
        corners[(corner + random.between(1, 2)) % 3]
    } else {
        random.choose(&[points, points + 1, u32::MAX, 1 << 31, 65_536, 1 << 16 | 1])
    };
}

fn add_odd_entries(random: &mut Random, case: &mut Case) {
    let list = if random.once_in(2) { &mut case.points } else { &mut case.faces };
    let more = if list.len() < 1000 { random.between(1, 2) } else { 1 };
    list.extend(vec![list.first().copied().unwrap_or(0); more]);
    if random.once_in(2) {
        lend_as_stated(case);
    }
}

fn shorten(random: &mut Random, case: &mut Case) {
    let lent = &mut case.lent;
    let lengths = [
        &mut lent.out_points,
        &mut lent.out_faces,
        &mut lent.work_u32,
        &mut lent.work_f32,
        &mut lent.work_f64,
    ];
    let one = random.below(5);
    for (number, length) in lengths.into_iter().enumerate() {
        if number == one {
            *length =
                if random.once_in(5) { 0 } else { length.saturating_sub(random.between(1, 2)) };
        }
    }
}

fn bad_ratio(random: &mut Random) -> u32 {
    let above = moved(1.0f32.to_bits(), 1);
    match random.below(4) {
        0 => any_nan(random),
        1 => above,
        // A step below -0.0.
        2 => 0x8000_0001,
        _ => random.choose(&[-1.0, 2.0, f32::INFINITY, f32::NEG_INFINITY]).to_bits(),
    }
}

fn any_nan(random: &mut Random) -> u32 {
    random.choose(&[0x7fc0_0000, 0xffc0_0000, 0x7f80_0001, 0xff80_0001, 0x7fff_ffff, 0xffff_ffff])
}

/// Not finite, or above the unit's bound; of a number that is no unit, above every bound.
pub fn bad_coordinate(random: &mut Random, unit: u32) -> u32 {
    let sign = (random.below(2) as u32) << 31;
    let bound = rules::bound(unit).unwrap_or(f32::MAX);
    match random.below(4) {
        0 => any_nan(random),
        1 => f32::INFINITY.to_bits() | sign,
        2 => f32::MAX.to_bits() | sign,
        _ => moved(bound.to_bits(), 1) | sign,
    }
}

/// One triangle over and over, and its points over and over. No pair is short
/// enough to be opened: the Rust is slow where many faces meet.
pub fn repeated(points: usize, faces: usize) -> Case {
    let triangle = [[0.0, 0.0, 0.0], [1.0, 0.0, 0.0], [0.0, 1.0, 0.0]];
    let mut case = plain(Mesh {
        points: (0..points).map(|i| triangle[i % 3]).collect(),
        faces: vec![[2, 0, 1]; faces],
    });
    (case.limited, case.limit) = (true, 0.5f32.to_bits());
    case
}

fn over_size_limit(random: &mut Random) -> Case {
    let mut case = if random.once_in(2) { repeated(65_537, 1) } else { repeated(3, 131_073) };
    if random.once_in(2) {
        case.lent = Lent::stated(1, 1);
    }
    case
}

/// As large as can be, and one more.
pub fn at_size_limit(random: &mut Random) -> Case {
    let points = random.choose(&[65_535, 65_536, 65_536, 65_536, 65_537]);
    let faces = random.choose(&[131_071, 131_072, 131_072, 131_072, 131_073]);
    let mut case = repeated(points, faces);
    units::set(random, &mut case);
    match random.below(4) {
        0 => case.ratio = (1.0f32 / 33_554_432.0).to_bits(),
        1 => case.ratio = 0,
        2 => shorten(random, &mut case),
        _ => {}
    }
    case
}

/// Ratio zero copies whatever faces and margin say.
pub fn ratio_zero(random: &mut Random, most: usize) -> Case {
    let mesh = shapes::torn(random, most.min(12));
    let mut case = dressed(random, mesh);
    if random.once_in(2) {
        spoil(random, &mut case);
    }
    case.ratio = random.choose(&[0.0f32, -0.0]).to_bits();
    if random.once_in(2) {
        spoil_margin(random, &mut case);
    }
    case
}
