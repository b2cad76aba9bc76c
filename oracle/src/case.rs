//! Cases and answers, and the file that holds them.
//!
//! The file is u32 words, little-endian. It begins with the magic word, the
//! number of families and their names, sixteen bytes each, padded with zeros.
//! Then come the cases, each in the order of `Case::write`. A list is stored up
//! to where it begins to repeat itself; the reader repeats it to its length. The three
//! counts of closed pairs are two words each, the low word first.

use std::io::{self, Write};

/// "hjc4" as bytes in the file.
const MAGIC: u32 = u32::from_le_bytes(*b"hjc4");

/// What a call is given. Floats are kept as bits, so that any NaN can be stored.
#[derive(Clone, Debug)]
pub struct Case {
    pub family: u32,
    pub points: Vec<u32>,
    pub faces: Vec<u32>,
    /// Numbers of points that must not move.
    pub margin: Vec<u32>,
    /// Any number; units are 1 and 2.
    pub unit: u32,
    pub ratio: u32,
    pub preserve: bool,
    pub limited: bool,
    pub limit: u32,
    pub lent: Lent,
}

/// Lengths of the lent buffers.
#[derive(Clone, Debug)]
pub struct Lent {
    pub out_points: usize,
    pub out_faces: usize,
    pub work_u32: usize,
    pub work_f32: usize,
    pub work_f64: usize,
}

impl Lent {
    /// What document 01 states for this many points and faces.
    pub fn stated(points: usize, faces: usize) -> Self {
        Self {
            out_points: 3 * points,
            out_faces: 3 * faces,
            work_u32: 16 * points + 32 * faces,
            work_f32: 4 * points + 12 * faces,
            work_f64: 16 * points + 6 * faces,
        }
    }

    pub fn shorter_than(&self, other: &Self) -> bool {
        self.out_points < other.out_points
            || self.out_faces < other.out_faces
            || self.work_u32 < other.work_u32
            || self.work_f32 < other.work_f32
            || self.work_f64 < other.work_f64
    }
}

/// What a call must answer. The lists are empty unless the number is 0.
#[derive(Clone, Debug, Default)]
pub struct Answer {
    pub number: u32,
    pub place: u32,
    pub points: Vec<u32>,
    pub faces: Vec<u32>,
    /// Keep and remove of each fold, in order.
    pub folds: Vec<[u32; 2]>,
    /// How many pairs were closed because they are not allowed: not linked, squashed,
    /// turned over. Zeros unless there was a walk.
    pub closed: [u64; 3],
}

pub fn write_head(out: &mut impl Write, families: &[&str]) -> io::Result<()> {
    write_words(out, &[MAGIC, families.len() as u32])?;
    for name in families {
        let mut bytes = [0; 16];
        bytes[..name.len()].copy_from_slice(name.as_bytes());
        out.write_all(&bytes)?;
    }
    Ok(())
}

impl Case {
    pub fn write(&self, answer: &Answer, out: &mut impl Write) -> io::Result<()> {
        let folds = answer.folds.concat();
        let lists =
            [&self.points, &self.faces, &self.margin, &answer.points, &answer.faces, &folds]
                .map(|list| &list[..period(list)]);
        let lent = &self.lent;
        let mut words = vec![
            self.family,
            self.unit,
            self.ratio,
            self.preserve as u32 | (self.limited as u32) << 1,
            self.limit,
            self.points.len() as u32,
            self.faces.len() as u32,
            self.margin.len() as u32,
            lent.out_points as u32,
            lent.out_faces as u32,
            lent.work_u32 as u32,
            lent.work_f32 as u32,
            lent.work_f64 as u32,
            answer.number,
            answer.place,
            answer.points.len() as u32 / 3,
            answer.faces.len() as u32 / 3,
            answer.folds.len() as u32,
        ];
        words.extend(answer.closed.iter().flat_map(|&count| [count as u32, (count >> 32) as u32]));
        words.extend(lists.iter().map(|list| list.len() as u32));
        words.extend(lists.concat());
        write_words(out, &[words.len() as u32])?;
        write_words(out, &words)
    }
}

fn write_words(out: &mut impl Write, words: &[u32]) -> io::Result<()> {
    words.iter().try_for_each(|word| out.write_all(&word.to_le_bytes()))
}

/// The least p so that every entry equals the one p before it.
fn period(list: &[u32]) -> usize {
    // same[i]: length of the longest proper start of list[..=i] that is also its end
    let mut same = vec![0; list.len()];
    for i in 1..list.len() {
        let mut length: usize = same[i - 1];
        while length > 0 && list[i] != list[length] {
            length = same[length - 1];
        }
        same[i] = length + (list[i] == list[length]) as usize;
    }
    list.len() - same.last().unwrap_or(&0)
}
