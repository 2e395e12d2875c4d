//! Paintings with a map against the models: exactly those bits are set that were set before and those
//! of the used addresses, and all else is as without a map.

use std::collections::BTreeSet;
use std::ops::Range;

use tropfenpfad_conformance::buffers::assert_same_bytes;
use tropfenpfad_conformance::calls;
use tropfenpfad_conformance::images::{self, Kind};
use tropfenpfad_conformance::inputs::{in_each_profile, random_bytes, start_states};
use tropfenpfad_conformance::maps::{assert_same_marks, lent_maps, marked, with_marks};
use tropfenpfad_conformance::model::{planes, Video};
use tropfenpfad_conformance::random::Xorshift;
use tropfenpfad_sys::{Painted, State, FRAME_LENGTH, LINES, LINE_LENGTH, MAP_LENGTH};

/// What is painted.
#[derive(Clone, Copy, Debug)]
enum Part {
    Line(usize),
    Frame,
}

impl Part {
    fn length(self) -> usize {
        match self {
            Part::Line(_) => LINE_LENGTH,
            Part::Frame => FRAME_LENGTH,
        }
    }

    fn lines(self) -> Range<usize> {
        match self {
            Part::Line(line) => line..line + 1,
            Part::Frame => 0..LINES,
        }
    }

    fn without_map(self, memory: &[u8], state: State, picture: &mut [u8]) -> Painted {
        match self {
            Part::Line(line) => calls::paint_line(memory, state, line, picture),
            Part::Frame => calls::paint_frame(memory, state, picture),
        }
    }

    fn with_map(self, memory: &[u8], state: State, picture: &mut [u8], map: &mut [u8]) -> Painted {
        match self {
            Part::Line(line) => calls::paint_line_mapped(memory, state, line, picture, map),
            Part::Frame => calls::paint_frame_mapped(memory, state, picture, map),
        }
    }

    fn by_model(
        self,
        model: &Video,
        memory: &[u8],
        state: State,
        picture: &mut [u8],
        map: &mut [u8],
    ) -> Painted {
        match self {
            Part::Line(line) => model.paint_line_mapped(memory, state, line, picture, map),
            Part::Frame => model.paint_frame_mapped(memory, state, picture, map),
        }
    }
}

/// The library with a map, held to the library without one and to the model; each has a picture of
/// its own that holds other bytes before.
struct Bench {
    model: Video,
    pictures: [Vec<u8>; 3],
    paintings: usize,
}

impl Bench {
    fn new() -> Self {
        Bench {
            model: Video::new(),
            pictures: std::array::from_fn(|_| vec![0; FRAME_LENGTH]),
            paintings: 0,
        }
    }

    /// Paints onto a map and compares all of it; gives the answer and the map afterwards.
    fn paint(
        &mut self,
        part: Part,
        image: &Image,
        state: State,
        before: &[u8],
    ) -> (Painted, Vec<u8>) {
        let memory = &image.memory;
        let what = format!("{}, {part:?} from {state:?}", image.name);
        let [first, second, third] = self
            .pictures
            .each_mut()
            .map(|picture| &mut picture[..part.length()]);
        first.fill(0xA5);
        second.fill(0x5A);
        third.fill(0x96);
        let [mut map, mut model_map] = [before.to_vec(), before.to_vec()];
        let library = part.with_map(memory, state, first, &mut map);
        let plain = part.without_map(memory, state, second);
        let model = part.by_model(&self.model, memory, state, third, &mut model_map);
        assert_eq!(library, plain, "{what}, without a map");
        assert_eq!(library, model, "{what}, by the model");
        assert_eq!(library.status, 0, "{what}");
        assert_same_bytes(&format!("{what}, without a map"), first, second);
        assert_same_bytes(&format!("{what}, by the model"), first, third);
        let used = self.model.used_addresses(memory, state, part.lines());
        assert_eq!(used.len(), (library.screen + library.character) as usize);
        assert_same_marks(&what, &map, &with_marks(before, &used));
        assert_same_marks(&format!("{what}, by the model"), &map, &model_map);
        self.paintings += 1;
        (library, map)
    }

    /// The map that a frame leaves of one without a mark.
    fn map_of(&mut self, image: &Image, state: State) -> Vec<u8> {
        self.paint(Part::Frame, image, state, &[0; MAP_LENGTH]).1
    }
}

/// A memory image with its name.
struct Image {
    name: String,
    memory: Vec<u8>,
}

impl Image {
    fn new(profile: u8, kind: Kind, seed: u64) -> Self {
        Image {
            name: format!("{kind:?} image {seed}"),
            memory: images::image(profile, kind, seed),
        }
    }
}

/// An image of each kind with each start state.
fn subjects(profile: u8, first_seed: u64) -> impl Iterator<Item = (Image, State)> {
    let seeded = move || (first_seed..).zip(start_states(profile));
    Kind::ALL.into_iter().flat_map(move |kind| {
        seeded().map(move |(seed, state)| (Image::new(profile, kind, seed), state))
    })
}

fn compare_lines(profile: u8) {
    let mut bench = Bench::new();
    let maps = lent_maps(1);
    let mut turn = maps.iter().cycle();
    for kind in Kind::ALL {
        let image = Image::new(profile, kind, 7_000_000);
        for line in 0..LINES {
            for state in start_states(profile) {
                let before = turn.next().expect("maps come again");
                bench.paint(Part::Line(line), &image, state, before);
            }
        }
    }
    println!(
        "profile {profile}, lines with a map: {} paintings compared, every line, mode and phase",
        bench.paintings
    );
}

#[test]
fn a_line_mapped_otherwise() {
    in_each_profile(compare_lines);
}

fn compare_frames(profile: u8) {
    let mut bench = Bench::new();
    let maps = lent_maps(2);
    for (image, state) in subjects(profile, 7_100_000) {
        for before in &maps {
            bench.paint(Part::Frame, &image, state, before);
        }
    }
    println!(
        "profile {profile}, frames with a map: {} paintings compared, onto no marks, some and all",
        bench.paintings
    );
}

#[test]
fn a_frame_mapped_otherwise() {
    in_each_profile(compare_frames);
}

fn compare_with_bytes_read(profile: u8) {
    let mut bench = Bench::new();
    let mut frame = vec![0; FRAME_LENGTH];
    for (image, state) in subjects(profile, 7_200_000) {
        let map = bench.map_of(&image, state);
        let (_, read) = planes::paint_frame_noted(&image.memory, state, &mut frame);
        let read: Vec<u16> = (0..=u16::MAX)
            .zip(read)
            .filter_map(|(address, read)| read.then_some(address))
            .collect();
        assert_same_marks(&image.name, &map, &with_marks(&[0; MAP_LENGTH], &read));
        let used = bench.model.used_addresses(&image.memory, state, 0..LINES);
        let distinct: BTreeSet<u16> = used.into_iter().collect();
        assert!(distinct.into_iter().eq(read), "{}", image.name);
    }
    println!(
        "profile {profile}, maps against the bytes that a painter reads: {} paintings compared",
        bench.paintings
    );
}

#[test]
fn a_map_that_is_not_what_a_painter_reads() {
    in_each_profile(compare_with_bytes_read);
}

fn change_unmarked_bytes(profile: u8) {
    let mut bench = Bench::new();
    let mut generator = Xorshift::new(5);
    for (mut image, state) in subjects(profile, 7_300_000) {
        let (answer, map) = bench.paint(Part::Frame, &image, state, &[0; MAP_LENGTH]);
        let (picture, before) = (bench.pictures[0].clone(), image.memory.clone());
        generator.fill(&mut image.memory);
        for address in marked(&map).into_iter().map(usize::from) {
            image.memory[address] = before[address];
        }
        let (answer_again, map_again) = bench.paint(Part::Frame, &image, state, &[0; MAP_LENGTH]);
        assert_eq!(answer_again, answer, "{}", image.name);
        assert_same_bytes(&image.name, &bench.pictures[0], &picture);
        assert_same_marks(&image.name, &map_again, &map);
    }
    println!(
        "profile {profile}, unmarked bytes: {} paintings compared",
        bench.paintings
    );
}

#[test]
fn a_frame_that_hangs_on_bytes_it_does_not_mark() {
    in_each_profile(change_unmarked_bytes);
}

fn compare_frames_with_lines(profile: u8) {
    let mut bench = Bench::new();
    for (image, state) in subjects(profile, 7_400_000) {
        let map = bench.map_of(&image, state);
        let (mut reached, mut gathered) = (state, vec![0; MAP_LENGTH]);
        for line in 0..LINES {
            let (answer, map) = bench.paint(Part::Line(line), &image, reached, &gathered);
            (reached, gathered) = (answer.state, map);
        }
        assert_same_marks(&image.name, &map, &gathered);
    }
    println!(
        "profile {profile}, maps of frames against those of their lines: {} paintings compared",
        bench.paintings
    );
}

#[test]
fn a_frame_that_is_not_mapped_as_its_lines() {
    in_each_profile(compare_frames_with_lines);
}

fn gather_frames(profile: u8) {
    let mut bench = Bench::new();
    let other = Image::new(profile, Kind::Hires, 7_500_000);
    for (image, state) in subjects(profile, 7_600_000) {
        let [first, second] = [&image, &other].map(|image| bench.map_of(image, state));
        let both: Vec<u8> = first.iter().zip(&second).map(|(a, b)| a | b).collect();
        for (image, before) in [(&other, &first), (&image, &second), (&image, &both)] {
            let (_, gathered) = bench.paint(Part::Frame, image, state, before);
            assert_same_marks(&image.name, &gathered, &both);
        }
    }
    println!(
        "profile {profile}, two frames in one map: {} paintings compared",
        bench.paintings
    );
}

#[test]
fn a_second_frame_that_clears_or_loses_marks() {
    in_each_profile(gather_frames);
}

/// What `make check` leaves out.
mod long {
    use super::*;

    /// Seeds for each kind and each start state.
    const SEEDS: u64 = 8;

    fn compare_many(profile: u8) {
        let mut bench = Bench::new();
        for seed in 0..SEEDS {
            let before = random_bytes(seed, MAP_LENGTH);
            for (image, state) in subjects(profile, 7_700_000 + 32 * seed) {
                bench.paint(Part::Frame, &image, state, &before);
            }
        }
        println!(
            "profile {profile}, frames onto random maps: {} paintings compared",
            bench.paintings
        );
    }

    #[test]
    fn one_of_many_frames_mapped_otherwise() {
        in_each_profile(compare_many);
    }
}
