//! Cases with margin points, and margins that are refused. A margin is chosen
//! last, over the numbers that the points have then.

use crate::answer;
use crate::bad_input::{repeated, spoil};
use crate::case::Case;
use crate::dressing::{dressed, random_face};
use crate::random::Random;
use crate::shapes::{self, Mesh};
use crate::units;
use std::collections::{BTreeMap, BTreeSet, VecDeque};

/// These points become the margin, in order and each once.
fn hold(case: &mut Case, points: impl IntoIterator<Item = u32>) {
    case.margin = points.into_iter().collect::<BTreeSet<_>>().into_iter().collect();
}

/// How many points there are.
fn count(case: &Case) -> u32 {
    case.points.len() as u32 / 3
}

/// From one to so many of these points; none where there are none.
fn some_of(random: &mut Random, points: &[u32], most: usize) -> Vec<u32> {
    if points.is_empty() {
        return Vec::new();
    }
    (0..random.between(1, most)).map(|_| random.choose(points)).collect()
}

/// A few points, in half of the cases such as the walk folds without a margin.
pub fn hold_points(random: &mut Random, case: &mut Case) {
    let all: Vec<u32> = (0..count(case)).collect();
    let folded = answer::answer(case).folds.concat();
    let from = if folded.is_empty() || random.once_in(2) { all } else { folded };
    hold(case, some_of(random, &from, 4));
}

/// One point or two, whether the walk folds them or not.
pub fn hold_few(random: &mut Random, case: &mut Case) {
    let all: Vec<u32> = (0..count(case)).collect();
    hold(case, some_of(random, &all, 2));
}

/// A few points or a curve, for a mesh of any kind.
pub fn hold_any(random: &mut Random, case: &mut Case) {
    if random.once_in(2) {
        hold_points(random, case);
    } else {
        hold_curve(random, case);
    }
}

/// A few points of any mesh.
pub fn points(random: &mut Random, most: usize) -> Case {
    let mesh = shapes::any(random, most);
    let mut case = dressed(random, mesh);
    hold_points(random, &mut case);
    case
}

/// A curve on a surface that is large enough to be thinned beside it.
pub fn curve(random: &mut Random, most: usize) -> Case {
    let mesh = shapes::surface(random, most.max(60));
    let mut case = dressed(random, mesh);
    hold_curve(random, &mut case);
    case
}

/// The points at one distance from a point, or an edge with the ways from its
/// ends to a point: the longest of a few, which is closed but where it is an edge.
fn hold_curve(random: &mut Random, case: &mut Case) {
    let first = random_face(random, case)[0] as u32;
    let ways = ways_from(case, first);
    if random.once_in(3) {
        let farthest = ways.values().map(|way| way.distance).max().expect("the first point");
        let distance = random.between(1, farthest - 1);
        hold(case, ways.into_iter().filter(|(_, way)| way.distance == distance).map(|(p, _)| p));
        return;
    }
    let rings = (0..6).map(|_| {
        let [a, b, _] = random_face(random, case).map(|point| way_back(&ways, point as u32));
        ring(a, b)
    });
    let longest = rings.max_by_key(Vec::len).expect("six rings");
    hold(case, longest);
}

/// How a point is reached along edges: how many there are, and the point before it.
struct Way {
    distance: usize,
    before: u32,
}

/// The shortest ways from one point to every point that can be reached.
fn ways_from(case: &Case, first: u32) -> BTreeMap<u32, Way> {
    let mut beside: BTreeMap<u32, BTreeSet<u32>> = BTreeMap::new();
    for face in case.faces.chunks(3) {
        face.iter().for_each(|&point| beside.entry(point).or_default().extend(face));
    }
    let mut ways = BTreeMap::from([(first, Way { distance: 0, before: first })]);
    let mut next = VecDeque::from([first]);
    while let Some(before) = next.pop_front() {
        let distance = ways[&before].distance + 1;
        for &point in &beside[&before] {
            ways.entry(point).or_insert_with(|| {
                next.push_back(point);
                Way { distance, before }
            });
        }
    }
    ways
}

/// From a point to the first one; the point alone where there is no way.
fn way_back(ways: &BTreeMap<u32, Way>, mut point: u32) -> Vec<u32> {
    let mut way = vec![point];
    while let Some(next) = ways.get(&point).filter(|next| next.distance > 0) {
        point = next.before;
        way.push(point);
    }
    way
}

/// Two ways back without what they share, but for the point where they meet.
fn ring(mut a: Vec<u32>, mut b: Vec<u32>) -> Vec<u32> {
    while a.len() > 1 && b.len() > 1 && a[a.len() - 2] == b[b.len() - 2] {
        a.pop();
        b.pop();
    }
    a.append(&mut b);
    a
}

/// Every point, or all but one, two or three corners of a face.
pub fn every(random: &mut Random, most: usize) -> Case {
    let mesh = shapes::any(random, most);
    let mut case = dressed(random, mesh);
    let corners = random_face(random, &case).map(|point| point as u32);
    let free = &corners[..random.choose(&[0, 0, 1, 2, 2, 3])];
    let held = (0..count(&case)).filter(|point| !free.contains(point));
    hold(&mut case, held);
    case
}

/// Points of an open mesh on its border, off it, or both, mostly with preserve
/// on; or just the border, with preserve off or on.
pub fn border(random: &mut Random, most: usize) -> Case {
    let mesh = match random.below(4) {
        0 => shapes::patch(random, most.max(48)),
        1 => shapes::torn(random, most.max(48)),
        // Wide enough for points off the border.
        _ => shapes::grid_of(random.between(3, 6), random.between(3, 6), || random.once_in(2)),
    };
    let mut case = dressed(random, mesh);
    case.preserve = !random.once_in(6);
    let on = border_points(&case);
    let off: Vec<u32> = (0..count(&case)).filter(|point| !on.contains(point)).collect();
    let held = match random.below(4) {
        0 => some_of(random, &on, 3),
        1 => some_of(random, &off, 3),
        2 => [some_of(random, &on, 3), some_of(random, &off, 3)].concat(),
        _ => {
            case.preserve = random.once_in(2);
            on
        }
    };
    hold(&mut case, held);
    if random.once_in(6) {
        no_pair(&mut case);
    }
    case
}

/// The ends of the edges that are in one face only.
fn border_points(case: &Case) -> Vec<u32> {
    let mut faces_at = BTreeMap::new();
    for face in case.faces.chunks(3) {
        for (a, b) in [(face[0], face[1]), (face[1], face[2]), (face[2], face[0])] {
            *faces_at.entry([a.min(b), a.max(b)]).or_insert(0) += 1;
        }
    }
    faces_at.into_iter().filter(|&(_, faces)| faces == 1).flat_map(|(edge, _)| edge).collect()
}

/// No pair is short enough to be opened, and a fold is due.
fn no_pair(case: &mut Case) {
    case.ratio = 1.0f32.to_bits();
    (case.limited, case.limit) = (true, (-1.0f32).to_bits());
}

/// Points in no face, held alone or with a few others. Where no fold can be made
/// they are counted all the same.
pub fn unused(random: &mut Random, most: usize) -> Case {
    let mut mesh = shapes::surface(random, most.min(24));
    add_unused(random, &mut mesh);
    let mut case = dressed(random, mesh);
    case.preserve = random.once_in(3);
    let unused: Vec<u32> = (0..count(&case)).filter(|point| !case.faces.contains(point)).collect();
    let mut held = some_of(random, &unused, 4);
    if random.once_in(2) {
        let [a, b, _] = random_face(random, &case);
        held.extend([a as u32, b as u32]);
    }
    hold(&mut case, held);
    if random.once_in(2) {
        no_pair(&mut case);
    }
    case
}

/// One to four points in no face, before and after the others.
fn add_unused(random: &mut Random, mesh: &mut Mesh) {
    for _ in 0..random.between(0, 2) {
        mesh.points.insert(0, [0; 3].map(|_| random.around(2.0)));
        mesh.faces.iter_mut().flatten().for_each(|point| *point += 1);
    }
    for _ in 0..random.between(1, 2) {
        mesh.points.push([0; 3].map(|_| random.around(2.0)));
    }
}

/// The highest point number that there can be, and one more.
pub fn at_size_limit(random: &mut Random) -> Case {
    let mut case = repeated(65_536, 1);
    units::set(random, &mut case);
    case.margin = random.choose(&[&[65_535][..], &[0, 65_535], &[65_536], &[0, 65_536]]).to_vec();
    case
}

/// A bad margin, alone or with another fault, which may be ratio zero.
pub fn bad(random: &mut Random) -> Case {
    let mesh = shapes::surface(random, 12);
    let mut case = dressed(random, mesh);
    if random.once_in(4) {
        spoil(random, &mut case);
    }
    spoil_margin(random, &mut case);
    case
}

/// A margin that is refused if nothing else is: out of order, or out of range.
pub fn spoil_margin(random: &mut Random, case: &mut Case) {
    let points = count(case);
    // The list of every point of a large mesh would be long in the file.
    let few = points.min(1000);
    let from: Vec<u32> = (0..few).collect();
    let held = some_of(random, &from, 5);
    hold(case, held);
    match random.below(6) {
        0 if points > 0 => repeat_one(random, &mut case.margin),
        1 if points > 1 => exchange_two(random, &mut case.margin),
        2 if points == few => every_and_one_more(random, case),
        3 => case.margin.insert(0, too_high(random, points)),
        4 => case.margin.push(too_high(random, points)),
        _ => {
            let place = random.between(0, case.margin.len());
            case.margin.insert(place, too_high(random, points));
        }
    }
    // A second fault, which isn't the first.
    if random.once_in(3) {
        case.margin.push(too_high(random, points));
    }
}

/// One entry twice.
fn repeat_one(random: &mut Random, margin: &mut Vec<u32>) {
    let place = random.below(margin.len());
    margin.insert(place, margin[place]);
}

/// Two neighbours the wrong way round.
fn exchange_two(random: &mut Random, margin: &mut Vec<u32>) {
    if margin.len() < 2 {
        *margin = vec![0, 1];
    }
    let place = random.below(margin.len() - 1);
    margin.swap(place, place + 1);
}

/// Every point, and then one of them again or one that there isn't.
fn every_and_one_more(random: &mut Random, case: &mut Case) {
    let points = count(case);
    case.margin = (0..points).collect();
    case.margin.push(random.choose(&[points, points.saturating_sub(1), 0]));
}

/// A number that no point has.
fn too_high(random: &mut Random, points: u32) -> u32 {
    let high =
        random.choose(&[points, points, points + 1, u32::MAX, u32::MAX - 1, 1 << 31, 65_536]);
    high.max(points)
}
