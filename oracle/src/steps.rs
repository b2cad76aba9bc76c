//! Cases at the edge of a comparison. One number of a case is moved, by halves
//! and then by single f32 steps, to where the course of the walk changes; the
//! two neighbours are both kept. Random meshes alone hardly ever get there.

use crate::answer;
use crate::case::Case;
use crate::random::Random;
use crate::rules;

/// The number that is moved.
#[derive(Clone, Copy)]
pub enum Knob {
    Coordinate(usize),
    Ratio,
    Limit,
}

impl Knob {
    pub fn of(self, case: &mut Case) -> &mut u32 {
        match self {
            Knob::Coordinate(i) => &mut case.points[i],
            Knob::Ratio => &mut case.ratio,
            Knob::Limit => &mut case.limit,
        }
    }

    fn set(self, case: &Case, step: i32) -> Case {
        let mut case = case.clone();
        *self.of(&mut case) = bits_at(step);
        case
    }
}

/// The number of an f32 in the row of all of them, -0.0 just below +0.0.
pub fn step_of(bits: u32) -> i32 {
    let number = bits as i32;
    number ^ ((number >> 31) as u32 >> 1) as i32
}

/// The f32 at a step; the map is its own inverse.
pub fn bits_at(step: i32) -> u32 {
    step_of(step as u32) as u32
}

/// The same number, so many f32 steps further.
pub fn moved(bits: u32, steps: i32) -> u32 {
    bits_at(step_of(bits) + steps)
}

/// What happened: answer and place, and for each fold its pair and whether its
/// place was keep's point, remove's, the middle, or solved.
#[derive(PartialEq)]
pub struct Course {
    answer: (u32, u32),
    folds: Vec<(usize, usize, u8)>,
}

pub fn course(case: &Case) -> Course {
    if let Some(answer) = rules::answer_before_walk(case) {
        return Course { answer: (answer.number, answer.place), folds: Vec::new() };
    }
    let (answer, report) = answer::walked(case);
    let mut points: Vec<[f32; 3]> =
        case.points.chunks(3).map(|p| [p[0], p[1], p[2]].map(f32::from_bits)).collect();
    let folds = report.folds.iter().map(|fold| {
        let (keep, remove) = (points[fold.keep], points[fold.remove]);
        let middle = [0, 1, 2].map(|i| (keep[i] + remove[i]) * 0.5);
        let place = [fold.place.x, fold.place.y, fold.place.z];
        let same = |p: [f32; 3]| p.map(f32::to_bits) == place.map(f32::to_bits);
        points[fold.keep] = place;
        let kind = [keep, remove, middle].iter().position(|&p| same(p)).unwrap_or(3);
        (fold.keep, fold.remove, kind as u8)
    });
    Course { answer: (answer.number, answer.place), folds: folds.collect() }
}

/// The two neighbours between `case` and the same with another number, if what is told of
/// the walk isn't the same at both ends.
fn neighbours<T: PartialEq>(
    case: &Case,
    knob: Knob,
    other: u32,
    told: fn(&Case) -> T,
) -> Option<[Case; 2]> {
    let mut low = step_of(*knob.of(&mut case.clone()));
    let mut high = step_of(other);
    if low > high {
        (low, high) = (high, low);
    }
    let first = told(&knob.set(case, low));
    if first == told(&knob.set(case, high)) {
        return None;
    }
    while low as i64 + 1 < high as i64 {
        let middle = ((low as i64 + high as i64) >> 1) as i32;
        if first == told(&knob.set(case, middle)) {
            low = middle;
        } else {
            high = middle;
        }
    }
    Some([knob.set(case, low), knob.set(case, high)])
}

/// Tries some knobs with some other numbers; the case itself if nothing changes in what is
/// told of the walk, which is mostly its course.
pub fn search<T: PartialEq>(
    random: &mut Random,
    case: Case,
    tries: usize,
    told: fn(&Case) -> T,
    mut pick: impl FnMut(&mut Random, &Case) -> (Knob, u32),
) -> Vec<Case> {
    for _ in 0..tries {
        let (knob, other) = pick(random, &case);
        if let Some(pair) = neighbours(&case, knob, other, told) {
            return pair.to_vec();
        }
    }
    vec![case]
}
