//! Lent buffers against inaccessible pages.

use std::ptr;

use tropfenpfad_conformance::guarded::{memories, outputs, Against, Lent, SIDES};
use tropfenpfad_conformance::images::{self, Kind};
use tropfenpfad_conformance::inputs::{
    fresh_of_profile, image_length, in_each_profile, random_bytes, start_states,
};
use tropfenpfad_conformance::model::Video;
use tropfenpfad_conformance::refusals::{
    lent_bytes, mapped, Mapped, Values, FRAME_OUTPUTS, LINES as LINE_NUMBERS, LINE_OUTPUTS,
    NO_LINES,
};
use tropfenpfad_sys::{
    self as ffi, Painted, State, FRAME_LENGTH, IMAGE_LENGTH, LINES, LINE_LENGTH, MAP_LENGTH,
};

const LINE_LENGTHS: [usize; 6] = [LINE_LENGTH, 0, 1, LINE_LENGTH - 1, LINE_LENGTH + 1, 4096];
const FRAME_LENGTHS: [usize; 6] = [
    FRAME_LENGTH,
    0,
    LINE_LENGTH,
    FRAME_LENGTH - 1,
    FRAME_LENGTH + 1,
    IMAGE_LENGTH,
];
const MAP_LENGTHS: [usize; 6] = [
    MAP_LENGTH,
    0,
    MAP_LENGTH / 4,
    MAP_LENGTH - 1,
    MAP_LENGTH + 1,
    IMAGE_LENGTH,
];
/// Modes with counters, right ones and wrong ones.
const STATES: [(u8, u8); 5] = [(2, 0), (6, 16), (7, 31), (8, 0), (4, 32)];

/// Each of them in both profiles and in a wrong one.
fn states() -> impl Iterator<Item = State> {
    (0..3).flat_map(|profile| {
        STATES.map(|(mode, counter)| State {
            mode,
            counter,
            profile,
        })
    })
}

fn paint_line(memory: &Lent, state: State, line: usize, output: &Lent) -> Painted {
    // SAFETY: both buffers are open for their lengths and lie in mappings of their own.
    unsafe {
        ffi::tropfenpfad_paint_line(
            memory.pointer(),
            memory.length(),
            state,
            line,
            output.pointer(),
            output.length(),
        )
    }
}

fn paint_frame(memory: &Lent, state: State, frame: &Lent) -> Painted {
    // SAFETY: as for a line.
    unsafe {
        ffi::tropfenpfad_paint_frame(
            memory.pointer(),
            memory.length(),
            state,
            frame.pointer(),
            frame.length(),
        )
    }
}

fn paint_line_mapped(
    memory: &Lent,
    state: State,
    line: usize,
    output: &Lent,
    map: &Lent,
) -> Painted {
    // SAFETY: all buffers are open for their lengths and lie in mappings of their own.
    unsafe {
        ffi::tropfenpfad_paint_line_mapped(
            memory.pointer(),
            memory.length(),
            state,
            line,
            output.pointer(),
            output.length(),
            map.pointer(),
            map.length(),
        )
    }
}

fn paint_frame_mapped(memory: &Lent, state: State, frame: &Lent, map: &Lent) -> Painted {
    // SAFETY: as for a line with a map.
    unsafe {
        ffi::tropfenpfad_paint_frame_mapped(
            memory.pointer(),
            memory.length(),
            state,
            frame.pointer(),
            frame.length(),
            map.pointer(),
            map.length(),
        )
    }
}

#[test]
fn a_line_painter_that_leaves_its_buffers() {
    let model = Video::new();
    let (mut calls, mut refused) = (0, 0);
    for memory in memories(Kind::Random) {
        memory.make_read_only();
        for output in &mut outputs(&LINE_LENGTHS) {
            for state in states() {
                for line in [0, 199, 200, 223, 224, usize::MAX] {
                    let answer = paint_line(&memory, state, line, output);
                    let due = model.paint_line(&memory.copy, state, line, &mut output.copy);
                    assert_eq!(answer, due);
                    output.check("output");
                    calls += 1;
                    refused += usize::from(answer.status != 0);
                }
            }
        }
        memory.check("memory");
    }
    println!("lines in guarded buffers: {calls} calls compared, {refused} with bad inputs");
}

#[test]
fn a_frame_painter_that_leaves_its_buffers() {
    let model = Video::new();
    let (mut calls, mut refused) = (0, 0);
    for kind in Kind::ALL {
        for memory in memories(kind) {
            memory.make_read_only();
            for output in &mut outputs(&FRAME_LENGTHS) {
                for state in states() {
                    let answer = paint_frame(&memory, state, output);
                    let due = model.paint_frame(&memory.copy, state, &mut output.copy);
                    assert_eq!(answer, due);
                    output.check("frame");
                    calls += 1;
                    refused += usize::from(answer.status != 0);
                }
            }
            memory.check("memory");
        }
    }
    println!("frames in guarded buffers: {calls} calls compared, {refused} with bad inputs");
}

/// Calls with each picture of some lengths, each map and each state, and in the end looks at the
/// memory.
fn each_map(
    memory: &Lent,
    pictures: &[usize],
    mut call: impl FnMut(&Lent, &mut Lent, &mut Lent, State),
) {
    let mut maps = outputs(&MAP_LENGTHS);
    memory.make_read_only();
    for picture in &mut outputs(pictures) {
        for map in &mut maps {
            for state in states() {
                call(memory, picture, map, state);
                picture.check("picture");
                map.check("map");
            }
        }
    }
    memory.check("memory");
}

#[test]
fn a_line_painter_that_leaves_its_map() {
    let model = Video::new();
    let (mut calls, mut refused) = (0, 0);
    for memory in memories(Kind::Modes) {
        each_map(&memory, &LINE_LENGTHS, |memory, output, map, state| {
            for line in [0, 200, 224] {
                let answer = paint_line_mapped(memory, state, line, output, map);
                let (output, map) = (&mut output.copy, &mut map.copy);
                let due = model.paint_line_mapped(&memory.copy, state, line, output, map);
                assert_eq!(answer, due);
                calls += 1;
                refused += usize::from(answer.status != 0);
            }
        });
    }
    println!("lines in guarded maps: {calls} calls compared, {refused} with bad inputs");
}

#[test]
fn a_frame_painter_that_leaves_its_map() {
    let model = Video::new();
    let (mut calls, mut refused) = (0, 0);
    for memory in memories(Kind::Modes) {
        each_map(&memory, &FRAME_LENGTHS, |memory, frame, map, state| {
            let answer = paint_frame_mapped(memory, state, frame, map);
            let (frame, map) = (&mut frame.copy, &mut map.copy);
            let due = model.paint_frame_mapped(&memory.copy, state, frame, map);
            assert_eq!(answer, due);
            calls += 1;
            refused += usize::from(answer.status != 0);
        });
    }
    println!("frames in guarded maps: {calls} calls compared, {refused} with bad inputs");
}

fn paint_every_line(profile: u8) {
    let model = Video::new();
    let mut calls = 0;
    for side in SIDES {
        let memory = Lent::new(side, images::image(profile, Kind::Modes, 3));
        let mut output = Lent::new(side, random_bytes(3, LINE_LENGTH));
        let mut map = Lent::new(side, random_bytes(4, MAP_LENGTH));
        memory.make_read_only();
        for line in 0..LINES {
            for state in start_states(profile) {
                let answer = paint_line(&memory, state, line, &output);
                let due = model.paint_line(&memory.copy, state, line, &mut output.copy);
                assert_eq!(answer, due);
                output.check("output");
                let answer = paint_line_mapped(&memory, state, line, &output, &map);
                let (pixels, marks) = (&mut output.copy, &mut map.copy);
                let due = model.paint_line_mapped(&memory.copy, state, line, pixels, marks);
                assert_eq!(answer, due);
                output.check("output with a map");
                map.check("map");
                calls += 2;
            }
        }
    }
    println!("profile {profile}, every line in guarded buffers: {calls} paintings compared");
}

#[test]
fn a_line_that_is_painted_beyond_its_240_bytes() {
    in_each_profile(paint_every_line);
}

/// Makes each call that is to be refused, and says how many there are.
fn refuse_each(
    pictures: Values<usize>,
    lines: Values<usize>,
    call: impl Fn(Mapped) -> Painted,
) -> usize {
    let inputs = mapped(pictures, lines).into_iter();
    let bad = inputs.filter(|(_, wrong)| wrong.contains(&true));
    bad.map(|(lent, _)| assert_ne!(call(lent).status, 0, "{lent:?}"))
        .count()
}

#[test]
fn a_refused_painting_with_a_map_that_stores() {
    let [memory, picture, map] = [(); 3].map(|()| Lent::new(Against::Start, lent_bytes()));
    for lent in [&memory, &picture, &map] {
        lent.make_read_only();
    }
    let (memory, picture, map) = (memory.pointer(), picture.pointer(), map.pointer());
    let lines = refuse_each(LINE_OUTPUTS, LINE_NUMBERS, |lent| {
        let (bytes, pixels, marks) = (lent.memory, lent.picture, lent.map);
        let (state, line) = (lent.state, lent.line);
        // SAFETY: all buffers are open for these lengths and lie in mappings of their own.
        unsafe {
            ffi::tropfenpfad_paint_line_mapped(
                memory, bytes, state, line, picture, pixels, map, marks,
            )
        }
    });
    let frames = refuse_each(FRAME_OUTPUTS, NO_LINES, |lent| {
        let (bytes, pixels, marks) = (lent.memory, lent.picture, lent.map);
        // SAFETY: as for a line.
        unsafe {
            ffi::tropfenpfad_paint_frame_mapped(
                memory, bytes, lent.state, picture, pixels, map, marks,
            )
        }
    });
    let calls = lines + frames;
    println!("refused paintings with read-only pages: {calls} bad inputs compared");
}

fn lend_null_pointers(profile: u8) {
    let state = fresh_of_profile(profile);
    let image = images::image(profile, Kind::Random, 4);
    let (memory, length) = (image.as_ptr(), image_length(profile));
    let mut output = [0; LINE_LENGTH];
    let (read, write) = (ptr::null::<u8>(), ptr::null_mut::<u8>());
    // SAFETY: a null pointer comes with the length 0 only.
    unsafe {
        let line = ffi::tropfenpfad_paint_line(read, 0, state, 0, output.as_mut_ptr(), 240);
        assert_eq!(line.status, 1);
        let line = ffi::tropfenpfad_paint_line(memory, length, state, 0, write, 0);
        assert_eq!(line.status, 2);
        let frame = ffi::tropfenpfad_paint_frame(read, 0, state, write, 0);
        assert_eq!(frame.status, 1);
        let frame = ffi::tropfenpfad_paint_frame(memory, length, state, write, 0);
        assert_eq!(frame.status, 2);
    }
    assert_eq!(output, [0; LINE_LENGTH]);
    println!("profile {profile}, null pointers to paint from or to: 4 bad inputs compared");
}

fn lend_null_pointers_with_a_map(profile: u8) {
    use ffi::{
        tropfenpfad_paint_frame_mapped as paint_frame, tropfenpfad_paint_line_mapped as paint_line,
    };
    let state = fresh_of_profile(profile);
    let image = images::image(profile, Kind::Random, 5);
    let (memory, length) = (image.as_ptr(), image_length(profile));
    let (mut pixels, mut bits) = (vec![0; FRAME_LENGTH], [0; MAP_LENGTH]);
    let (picture, map) = (pixels.as_mut_ptr(), bits.as_mut_ptr());
    let (read, write) = (ptr::null::<u8>(), ptr::null_mut::<u8>());
    // SAFETY: a null pointer comes with the length 0 only.
    let answers = unsafe {
        [
            paint_line(read, 0, state, 0, picture, LINE_LENGTH, map, MAP_LENGTH),
            paint_line(memory, length, state, 0, write, 0, map, MAP_LENGTH),
            paint_line(memory, length, state, 0, picture, LINE_LENGTH, write, 0),
            paint_frame(read, 0, state, picture, FRAME_LENGTH, map, MAP_LENGTH),
            paint_frame(memory, length, state, write, 0, map, MAP_LENGTH),
            paint_frame(memory, length, state, picture, FRAME_LENGTH, write, 0),
        ]
    };
    assert_eq!(answers.map(|answer| answer.status), [1, 2, 2, 1, 2, 2]);
    assert_eq!(
        (&pixels[..], bits),
        (&[0; FRAME_LENGTH][..], [0; MAP_LENGTH])
    );
    println!(
        "profile {profile}, null pointers beside a map or in its place: 6 bad inputs compared"
    );
}

#[test]
fn a_null_pointer_of_length_0_that_is_followed() {
    in_each_profile(lend_null_pointers);
    in_each_profile(lend_null_pointers_with_a_map);
}
