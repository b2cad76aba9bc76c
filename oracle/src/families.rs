//! The kinds of case, each with its name and how often it is made.

use crate::bad_input::{at_size_limit, bad_faces, ratio_zero, refused};
use crate::case::Case;
use crate::dressing::dressed;
use crate::edge_cases::{
    bound_step, limit_step, place_step, point_step, ratio_step, squash_step, turn_step,
};
use crate::margins;
use crate::odd_places::{choice, far, hats, no_area};
use crate::random::Random;
use crate::reasons;
use crate::shapes::{self, Mesh};
use crate::units;

type Maker = fn(&mut Random, usize) -> Vec<Case>;

struct Family {
    name: &'static str,
    weight: usize,
    make: Maker,
}

const fn family(name: &'static str, weight: usize, make: Maker) -> Family {
    Family { name, weight, make }
}

const FAMILIES: [Family; 39] = [
    family("refused", 30, |r, _| vec![refused(r)]),
    family("bad faces", 6, |r, _| vec![bad_faces(r)]),
    family("sizes", 1, |r, _| vec![at_size_limit(r)]),
    family("ratio zero", 6, |r, most| vec![ratio_zero(r, most)]),
    family("closed", 18, |r, most| of_shape(r, most, shapes::closed)),
    family("torus", 12, |r, most| of_shape(r, most, shapes::torus)),
    family("grid", 18, |r, most| of_shape(r, most, shapes::grid)),
    family("patch", 18, |r, most| of_shape(r, most, shapes::patch)),
    family("fan", 15, |r, most| of_shape(r, most, shapes::fan)),
    family("ribbon", 15, |r, most| of_shape(r, most, shapes::ribbon)),
    family("hats", 9, |r, most| vec![hats(r, most)]),
    family("soup", 24, |r, most| of_shape(r, most, shapes::soup)),
    family("torn", 24, |r, most| of_shape(r, most, shapes::torn)),
    family("no area", 24, |r, most| vec![no_area(r, most)]),
    family("choice", 9, |r, _| vec![choice(r)]),
    family("far", 24, |r, most| vec![far(r, most)]),
    family("larger", 2, |r, most| of_shape(r, 12 * most, shapes::surface)),
    family("ratio step", 9, ratio_step),
    family("limit step", 18, limit_step),
    family("point step", 24, point_step),
    family("squash step", 12, |r, _| squash_step(r)),
    family("turn step", 18, |r, _| turn_step(r)),
    family("place step", 18, |r, _| place_step(r)),
    family("bound step", 18, |r, _| bound_step(r)),
    family("margin points", 15, |r, most| vec![margins::points(r, most)]),
    family("margin curve", 15, |r, most| vec![margins::curve(r, most)]),
    family("margin all", 6, |r, most| vec![margins::every(r, most)]),
    family("margin border", 15, |r, most| vec![margins::border(r, most)]),
    family("margin unused", 9, |r, most| vec![margins::unused(r, most)]),
    family("margin sizes", 1, |r, _| vec![margins::at_size_limit(r)]),
    family("bad margin", 12, |r, _| vec![margins::bad(r)]),
    family("at bound", 24, |r, most| vec![units::at_bound(r, most)]),
    family("both units", 12, units::both),
    family("bad unit", 15, |r, _| vec![units::bad(r)]),
    family("mixed harm", 24, |r, _| vec![reasons::mixed_harm(r)]),
    family("last harm", 24, |r, _| vec![reasons::last_harm(r)]),
    family("not linked", 18, |r, _| vec![reasons::not_linked(r)]),
    family("doubled pair", 24, |r, _| vec![reasons::doubled_pair(r)]),
    family("reason step", 12, |r, _| reasons::reason_step(r)),
];

pub fn names() -> Vec<&'static str> {
    FAMILIES.iter().map(|family| family.name).collect()
}

pub fn number_of(name: &str) -> usize {
    names().iter().position(|&n| n == name).unwrap_or_else(|| panic!("families: {:?}", names()))
}

/// The cases of one turn: one, or two neighbours.
pub fn make(seed: u64, turn: u64, most: usize, only: Option<usize>) -> Vec<Case> {
    let mut random = Random::new(seed, turn);
    let number = only.unwrap_or_else(|| weighted(&mut random));
    // Most meshes are small, whatever the bound.
    let usual = if random.once_in(8) { most } else { most.min(24) };
    let most = if FAMILIES[number].name == "larger" { most } else { usual };
    let mut cases = (FAMILIES[number].make)(&mut random, most);
    cases.iter_mut().for_each(|case| case.family = number as u32);
    cases
}

fn weighted(random: &mut Random) -> usize {
    let mut left = random.below(FAMILIES.iter().map(|family| family.weight).sum());
    FAMILIES
        .iter()
        .position(|family| {
            let found = left < family.weight;
            left = left.saturating_sub(family.weight);
            found
        })
        .expect("a weight")
}

/// A shape, now and then with a margin.
fn of_shape(random: &mut Random, most: usize, shape: fn(&mut Random, usize) -> Mesh) -> Vec<Case> {
    let mesh = shape(random, most);
    let mut case = dressed(random, mesh);
    if random.once_in(6) {
        margins::hold_any(random, &mut case);
    }
    vec![case]
}
