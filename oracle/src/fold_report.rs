//! What the walk now running did, told by the patched Rust: its folds, and the pairs
//! that it closed because they are not allowed, each in order.

use std::cell::{Cell, RefCell};
use threecrate_core::Point3f;

/// A fold: the point kept, the point removed, and where the kept one went.
#[derive(Clone, Debug)]
pub struct Fold {
    pub keep: usize,
    pub remove: usize,
    pub place: Point3f,
}

/// Why a pair is not allowed; where it is for a face, with that face.
#[derive(Clone, Copy, Debug, PartialEq)]
pub enum Reason {
    NotLinked,
    Squashed(usize),
    TurnedOver(usize),
}

/// A pair that was closed, with the stamps of its points, and why.
#[derive(Clone, Debug, PartialEq)]
pub struct Closed {
    pub keep: usize,
    pub remove: usize,
    pub stamps: [u32; 2],
    pub reason: Reason,
}

/// All that was told of a walk.
#[derive(Default)]
pub struct Report {
    pub folds: Vec<Fold>,
    pub closed: Vec<Closed>,
}

impl Report {
    /// How many pairs were closed: not linked, squashed, turned over.
    pub fn counts(&self) -> [u64; 3] {
        let mut counts = [0; 3];
        for closed in &self.closed {
            counts[match closed.reason {
                Reason::NotLinked => 0,
                Reason::Squashed(_) => 1,
                Reason::TurnedOver(_) => 2,
            }] += 1;
        }
        counts
    }
}

thread_local! {
    static REPORT: RefCell<Report> = RefCell::default();
    static REASONS_WANTED: Cell<bool> = const { Cell::new(true) };
}

/// A pair was folded.
pub fn add(keep: usize, remove: usize, place: Point3f) {
    REPORT.with_borrow_mut(|report| report.folds.push(Fold { keep, remove, place }));
}

/// A pair was tried. The reason must agree with the Rust on whether it is allowed.
pub fn tried(
    [keep, remove]: [usize; 2],
    stamps: [u32; 2],
    allowed: bool,
    reason: impl FnOnce() -> Option<Reason>,
) {
    if !REASONS_WANTED.get() {
        return;
    }
    let reason = reason();
    assert_eq!(allowed, reason.is_none(), "pair {keep} {remove}: {reason:?}");
    let Some(reason) = reason else { return };
    let closed = Closed { keep, remove, stamps, reason };
    REPORT.with_borrow_mut(|report| {
        // A pair that two faces opened at the start is in the Rust's queue twice, with the same
        // cost and stamps. It comes off twice, one directly behind the other, and counts once.
        if report.closed.last() != Some(&closed) {
            report.closed.push(closed);
        }
    });
}

/// Hands over what was told since the last call.
pub fn take() -> Report {
    REPORT.take()
}

/// Runs something without asking for reasons, which take time that isn't the Rust's.
pub fn without_reasons<T>(run: impl FnOnce() -> T) -> T {
    REASONS_WANTED.set(false);
    let result = run();
    REASONS_WANTED.set(true);
    result
}
