//! Walks that close pairs because they are not allowed: by faces that fare differently, by
//! points that aren't linked, and pairs that are opened twice.
//!
//! The meshes are put together from rows. A row is two or three points on the axis of x,
//! with faces between them, and at each point leaves: faces over two points far from the
//! axis. All of them lie in the plane of z = 0, so that every place has the same error and
//! keep's is taken, unless an upright wall at a point keeps it there. A leaf is squashed
//! where the line of its two far points crosses the axis at the place, and turned over where
//! it crosses between the point and the place.

use crate::answer;
use crate::case::Case;
use crate::dressing::plain;
use crate::margins;
use crate::random::Random;
use crate::shapes::{along, shaken, Face, Mesh, Point};
use crate::steps::{search, Knob};
use crate::units;

/// How a leaf fares in the fold of its row.
#[derive(Clone, Copy, PartialEq)]
enum Fate {
    Fair,
    Squashed,
    TurnedOver,
}
use Fate::{Fair, Squashed, TurnedOver};

const FATES: [Fate; 3] = [Fair, Squashed, TurnedOver];

/// How the faces between two points run, by their numbers.
#[derive(Clone, Copy)]
enum Between {
    /// One up and one down: the pair is opened once.
    BothWays,
    /// Two or three up: it is opened as often.
    Doubled,
    /// The same three points twice, both faces up or one down. The common neighbours
    /// are fewer than the faces, so the points aren't linked.
    OneOverTheOther,
}
use Between::{BothWays, Doubled, OneOverTheOther};

/// Whether a face gets a low number, a high one, or any.
#[derive(Clone, Copy)]
enum Turn {
    Early,
    Any,
    Late,
}
use Turn::{Any, Early, Late};

/// Rows that are being put together.
#[derive(Default)]
struct Rows {
    points: Vec<Point>,
    /// Each face with a key; their numbers go by the keys.
    faces: Vec<(f64, Face)>,
    /// The first point of each row and the others on the axis. The first gets the lowest number.
    rows: Vec<Vec<u32>>,
}

impl Rows {
    /// A new row of points at these places on the axis.
    fn row<const N: usize>(&mut self, places: [f64; N]) -> [u32; N] {
        let row = places.map(|x| self.point([x, 0.0, 0.0]));
        self.rows.push(row.to_vec());
        row
    }

    /// A new point; its number here, which it doesn't keep.
    fn point(&mut self, point: Point) -> u32 {
        self.points.push(point);
        self.points.len() as u32 - 1
    }

    /// A new face, with any of its points first.
    fn face(&mut self, random: &mut Random, turn: Turn, mut face: Face) {
        face.rotate_left(random.below(3));
        let key = match turn {
            Early => 0.5 * random.part(),
            Any => random.part(),
            Late => 0.5 + 0.5 * random.part(),
        };
        self.faces.push((key, face));
    }

    /// A point far from the axis, in the plane; a line from it to `crossing` may lean.
    fn far(&mut self, random: &mut Random, crossing: f64) -> u32 {
        let lean = random.choose(&[0.0, 0.0, 1.0, -2.0]);
        self.point([crossing + lean, random.choose(&[4.0, -4.0, 5.0, -6.0]), 0.0])
    }

    /// A leaf at a point, which fares so when the point goes from one place to another.
    fn leaf(&mut self, random: &mut Random, turn: Turn, at: u32, fate: Fate, way: [f64; 2]) {
        let crossing = crossing(random, fate, way);
        let first = self.far(random, crossing);
        self.leaf_over(random, turn, at, first, crossing);
    }

    /// A leaf at a point: over a far point and a second one, on the line from the first
    /// through the axis at `crossing`.
    fn leaf_over(&mut self, random: &mut Random, turn: Turn, at: u32, first: u32, crossing: f64) {
        let [x, y, _] = self.points[first as usize];
        let times = random.choose(&[-1.0, 2.0, 3.0]);
        let second = self.point([crossing + times * (x - crossing), times * y, 0.0]);
        let over = if random.once_in(2) { [first, second] } else { [second, first] };
        self.face(random, turn, [at, over[0], over[1]]);
    }

    /// An upright face at a point; the errors grow with the distance from its plane.
    fn wall(&mut self, random: &mut Random, at: u32) {
        let x = self.points[at as usize][0];
        let high = random.choose(&[4.0, 5.0, -6.0]);
        let [a, b] = [4.0, -4.0].map(|y| self.point([x, y, high]));
        self.face(random, Any, [at, a, b]);
    }

    /// Faces between two points, the first with the lower number. Some far points are then
    /// in no face.
    fn join(&mut self, random: &mut Random, [a, b]: [u32; 2], between: Between) {
        let far = [0; 3].map(|_| self.far(random, 0.5));
        let faces = match between {
            BothWays => vec![[a, b, far[0]], [b, a, far[1]]],
            Doubled => far.iter().take(random.between(2, 3)).map(|&third| [a, b, third]).collect(),
            OneOverTheOther => {
                let back = random.once_in(2);
                vec![[a, b, far[0]], if back { [b, a, far[0]] } else { [a, b, far[0]] }]
            }
        };
        faces.into_iter().for_each(|face| self.face(random, Any, face));
    }

    /// A tent: a leaf at each of two points, both over one far point. No face joins the
    /// three, so the two aren't linked.
    fn tent(&mut self, random: &mut Random, ends: [u32; 2]) {
        let top = self.far(random, 0.5);
        for end in ends {
            let crossing = random.choose(&[-3.0, -2.0, 0.25, 0.5, 0.75, 3.0]);
            self.leaf_over(random, Any, end, top, crossing);
        }
    }

    /// Two points with faces between them. The place of their fold is 0, which is keep's,
    /// 1, which is remove's, or the middle.
    fn ends(&mut self, random: &mut Random, between: Between, place: f64) -> [u32; 2] {
        let ends = self.row([0.0, 1.0]);
        self.join(random, ends, between);
        if place == 0.5 {
            self.wall(random, ends[0]);
        }
        if place > 0.0 {
            self.wall(random, ends[1]);
        }
        ends
    }

    /// Two points, one of which or both are moved by their fold, with leaves of these fates.
    fn pair(&mut self, random: &mut Random, between: Between, fates: &[Fate]) -> [u32; 2] {
        let place = random.choose(&[0.0, 0.5, 1.0]);
        let ends = self.ends(random, between, place);
        for &fate in fates {
            let moving = if place == 0.5 { random.below(2) } else { 1 - place as usize };
            self.leaf(random, Any, ends[moving], fate, [moving as f64, place]);
        }
        ends
    }

    /// Two points that meet in the middle, with a leaf at remove and one at keep.
    fn meeting(&mut self, random: &mut Random, leaves: [(Turn, Fate); 2]) {
        let ends = self.ends(random, BothWays, 0.5);
        for (end, (turn, fate)) in [1, 0].into_iter().zip(leaves) {
            self.leaf(random, turn, ends[end], fate, [end as f64, 0.5]);
        }
    }

    /// Three points in a row. The second is folded onto the first and brings a leaf; then
    /// the first, with a leaf of its own, is tried with the third, by whose wall the place is.
    fn brought(&mut self, random: &mut Random, between: Between, leaves: [(Turn, Fate); 2]) {
        let [first, second, third] = self.row([0.0, -0.5, 1.0]);
        self.join(random, [first, second], BothWays);
        self.join(random, [first, third], between);
        self.wall(random, third);
        for (point, (turn, fate)) in [second, first].into_iter().zip(leaves) {
            let fates: &[Fate] = if random.once_in(2) { &[fate] } else { &[fate, Fair, fate] };
            fates.iter().for_each(|&fate| self.leaf(random, turn, point, fate, [0.0, 1.0]));
        }
    }

    /// The case of these rows: faces by their keys, any numbers for the points, and no pair
    /// eligible but those of the rows.
    fn case(mut self, random: &mut Random) -> Case {
        self.faces.sort_by(|a, b| a.0.total_cmp(&b.0));
        let numbers = self.numbers(random);
        let mut mesh = Mesh { points: vec![[0.0; 3]; numbers.len()], faces: Vec::new() };
        for (point, &number) in self.points.iter().zip(&numbers) {
            mesh.points[number as usize] = *point;
        }
        mesh.faces = self.faces.iter().map(|(_, face)| face.map(|i| numbers[i as usize])).collect();
        if random.once_in(6) {
            mesh = shaken(random, mesh);
        }
        let size = 2.0f64.powi(random.below(18) as i32 - 12);
        let mut case = plain(along(random.below(3), mesh).map(|p| p.map(|x| x * size)));
        units::set(random, &mut case);
        (case.limited, case.limit) = (true, (1.5 * size as f32).to_bits());
        if random.once_in(4) {
            case.ratio = (random.part() as f32).to_bits();
        }
        if random.once_in(4) {
            margins::hold_few(random, &mut case);
        }
        case
    }

    /// Other numbers for the points, the first of each row below the others of it.
    fn numbers(&self, random: &mut Random) -> Vec<u32> {
        let mut numbers: Vec<u32> = (0..self.points.len() as u32).collect();
        random.shuffle(&mut numbers);
        for row in &self.rows {
            let lowest = row.iter().copied().min_by_key(|&point| numbers[point as usize]);
            numbers.swap(row[0] as usize, lowest.expect("a point") as usize);
        }
        numbers
    }
}

/// Where the line of a leaf is to cross the axis, so that the leaf fares so when its point
/// goes from one place to another.
fn crossing(random: &mut Random, fate: Fate, [from, to]: [f64; 2]) -> f64 {
    let tiny = 2.0f64.powi(-20);
    let part = match fate {
        Fair => random.choose(&[-0.5, -2.0, 3.0, 4.0]),
        // At the place, or so near that less than a millionth of the area is left.
        Squashed => random.choose(&[0.0, 0.0, tiny, -tiny, 0.5 * tiny]),
        // Between the two, now and then with hardly more area left.
        TurnedOver => random.choose(&[0.25, 0.5, 0.75, 2.0 * tiny]),
    };
    to + part * (from - to)
}

/// A few fates, in any order, with these among them.
fn fates(random: &mut Random, among: &[Fate]) -> Vec<Fate> {
    let mut fates = among.to_vec();
    (0..random.below(3)).for_each(|_| fates.push(random.choose(&FATES)));
    random.shuffle(&mut fates);
    fates
}

/// Now and then a row more: one that is folded, so that the answer is 0, or one that is
/// closed for one reason only.
fn maybe_more(random: &mut Random, rows: &mut Rows) {
    if random.once_in(3) {
        rows.pair(random, BothWays, &[Fair, Fair]);
    }
    if random.once_in(4) {
        let fate = random.choose(&[Squashed, TurnedOver]);
        rows.pair(random, BothWays, &[fate, Fair]);
    }
}

/// In one fold a face is squashed and another turned over; either has the lower number.
pub fn mixed_harm(random: &mut Random) -> Case {
    let mut rows = Rows::default();
    let fates = fates(random, &[Squashed, TurnedOver]);
    rows.pair(random, BothWays, &fates);
    maybe_more(random, &mut rows);
    rows.case(random)
}

/// The lowest face that fails comes last, if the faces are asked keep's first, or in the
/// order in which they came to keep; or, in a third of the cases, if they are asked the
/// other way round. Those before it fail for the other reason.
pub fn last_harm(random: &mut Random) -> Case {
    let mut rows = Rows::default();
    // The same in each row, so that one doesn't make up for the other in the counts.
    let [low, high] = random.choose(&[[Squashed, TurnedOver], [TurnedOver, Squashed]]);
    let mut leaves = [(Early, low), (Late, high)];
    if random.once_in(3) {
        leaves.reverse();
    }
    for _ in 0..random.between(1, 2) {
        if random.once_in(3) {
            rows.meeting(random, leaves);
        } else {
            let between = random.choose(&[BothWays, Doubled]);
            rows.brought(random, between, leaves);
        }
    }
    maybe_more(random, &mut rows);
    rows.case(random)
}

/// Points that aren't linked, most of them with faces that would be squashed or turned over.
pub fn not_linked(random: &mut Random) -> Case {
    let mut rows = Rows::default();
    for _ in 0..random.between(1, 2) {
        let among = random.choose(&[&[Squashed][..], &[TurnedOver], &[Squashed, TurnedOver], &[]]);
        let fates = fates(random, among);
        if random.once_in(3) {
            rows.pair(random, OneOverTheOther, &fates);
        } else {
            let ends = rows.pair(random, BothWays, &fates);
            rows.tent(random, ends);
        }
    }
    maybe_more(random, &mut rows);
    rows.case(random)
}

/// Pairs that are opened twice or three times at the start, and closed for any reason; a few
/// are folded.
pub fn doubled_pair(random: &mut Random) -> Case {
    let mut rows = Rows::default();
    for _ in 0..random.between(1, 2) {
        let fate = random.choose(&[Squashed, Squashed, TurnedOver, TurnedOver, Fair]);
        let between = if random.once_in(8) { OneOverTheOther } else { Doubled };
        let ends = rows.pair(random, between, &[fate, Fair]);
        if random.once_in(4) {
            rows.tent(random, ends);
        }
    }
    maybe_more(random, &mut rows);
    rows.case(random)
}

/// Two neighbours between which a pair is closed for another reason, or is closed or not,
/// while a coordinate is moved.
pub fn reason_step(random: &mut Random) -> Vec<Case> {
    let case = mixed_harm(random);
    let counts = |case: &Case| answer::answer(case).closed;
    search(random, case, 12, counts, |random, case| {
        let place = random.below(case.points.len());
        // The limit is some one and a half times the length of a pair.
        let size = f32::from_bits(case.limit) as f64;
        let other = f32::from_bits(case.points[place]) as f64 + random.around(size);
        (Knob::Coordinate(place), (other as f32).to_bits())
    })
}
