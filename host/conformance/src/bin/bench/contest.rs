//! Painters that take turns over the images of a kind.

use std::hint::black_box;
use std::ops::Range;
use std::time::Duration;

use tropfenpfad_conformance::calls;
use tropfenpfad_conformance::images::{self, Kind};
use tropfenpfad_conformance::inputs::COUNTERS;
use tropfenpfad_conformance::model::{planes, Video};
use tropfenpfad_sys::{State, FRAME_LENGTH, MAP_LENGTH, PROFILE_48K};

use crate::row::best;

/// Images of each kind.
pub const IMAGES: usize = 32;

/// An image, and the state to paint it from.
pub type Subject = (Vec<u8>, State);

/// The images of a kind, of the 48K machine.
pub fn subjects(kind: Kind) -> Vec<Subject> {
    let subject = |index| {
        let state = State {
            mode: index as u8 % 8,
            counter: COUNTERS[index / 8 % 4],
            profile: PROFILE_48K,
        };
        (images::image(PROFILE_48K, kind, index as u64), state)
    };
    (0..IMAGES).map(subject).collect()
}

/// The frame that the library paints.
pub fn painted((memory, state): &Subject) -> Vec<u8> {
    let mut frame = vec![0; FRAME_LENGTH];
    calls::paint_frame(memory, *state, &mut frame);
    frame
}

/// What is lent to a painter; the map stays without marks if it takes none.
#[derive(PartialEq)]
struct Lent {
    frame: Vec<u8>,
    map: Vec<u8>,
}

type Paint<'a> = dyn Fn(&[u8], State, &mut Lent) + 'a;

/// A painter, and what it paints.
pub struct Contestant<'a> {
    paint: Box<Paint<'a>>,
    subjects: &'a [Subject],
}

impl<'a> Contestant<'a> {
    fn new(subjects: &'a [Subject], paint: impl Fn(&[u8], State, &mut Lent) + 'a) -> Self {
        Contestant {
            paint: Box::new(paint),
            subjects,
        }
    }

    pub fn library(subjects: &'a [Subject]) -> Self {
        Self::new(subjects, |memory, state, lent| {
            black_box(calls::paint_frame(memory, state, &mut lent.frame));
        })
    }

    pub fn tables(model: &'a Video, subjects: &'a [Subject]) -> Self {
        Self::new(subjects, |memory, state, lent| {
            black_box(model.paint_frame(memory, state, &mut lent.frame));
        })
    }

    pub fn planes(subjects: &'a [Subject]) -> Self {
        Self::new(subjects, |memory, state, lent| {
            black_box(planes::paint_frame(memory, state, &mut lent.frame));
        })
    }

    /// Only fills the frame: the limit.
    pub fn fill(subjects: &'a [Subject]) -> Self {
        Self::new(subjects, |_, state, lent| {
            black_box(&mut lent.frame).fill(black_box(state.mode));
        })
    }

    /// Clears the map before each frame.
    pub fn library_mapped(subjects: &'a [Subject]) -> Self {
        Self::new(subjects, |memory, state, lent| {
            let Lent { frame, map } = lent;
            map.fill(0);
            black_box(calls::paint_frame_mapped(memory, state, frame, map));
        })
    }

    /// Clears the map before each frame.
    pub fn tables_mapped(model: &'a Video, subjects: &'a [Subject]) -> Self {
        Self::new(subjects, |memory, state, lent| {
            let Lent { frame, map } = lent;
            map.fill(0);
            black_box(model.paint_frame_mapped(memory, state, frame, map));
        })
    }
}

/// The time that each contestant takes for all images, each image at its best. The pictures and the
/// maps of the first `alike` contestants have to be the same.
pub fn one_by_one<const N: usize>(contestants: [Contestant; N], alike: usize) -> [Duration; N] {
    let mut lent = lent();
    let mut total = [Duration::ZERO; N];
    for index in 0..IMAGES {
        let times = time_round(&contestants, index..index + 1, &mut lent);
        for (total, time) in total.iter_mut().zip(times) {
            *total += time;
        }
        let [first, others @ ..] = &lent[..alike] else {
            panic!("nobody paints");
        };
        let same = others.iter().all(|other| other == first);
        assert!(same, "image {index} differs");
    }
    total
}

/// The same with all images in one round.
pub fn in_rotation<const N: usize>(contestants: [Contestant; N]) -> [Duration; N] {
    time_round(&contestants, 0..IMAGES, &mut lent())
}

fn lent<const N: usize>() -> [Lent; N] {
    std::array::from_fn(|_| Lent {
        frame: vec![0; FRAME_LENGTH],
        map: vec![0; MAP_LENGTH],
    })
}

/// The best time of each contestant for one round of some images.
fn time_round<const N: usize>(
    contestants: &[Contestant; N],
    images: Range<usize>,
    lent: &mut [Lent; N],
) -> [Duration; N] {
    let mut lent = lent.iter_mut();
    let mut runs = contestants.each_ref().map(|contestant| {
        let lent = lent.next().expect("each has a frame");
        let subjects = &contestant.subjects[images.clone()];
        move || {
            for (memory, state) in subjects {
                (contestant.paint)(black_box(memory), *state, lent);
            }
        }
    });
    best(runs.each_mut().map(|run| run as &mut dyn FnMut()))
}
