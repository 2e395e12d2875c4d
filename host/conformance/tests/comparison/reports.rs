//! The library's reports against the model by sets: the answer, the line counts, the listed cells.
//! The other two models are held to it in the same way.

use std::iter::once;

use tropfenpfad_conformance::calls;
use tropfenpfad_conformance::comparisons::{Compare, Lists, HELD};
use tropfenpfad_conformance::images::{self, Kind};
use tropfenpfad_conformance::inputs::{in_each_profile, random_bytes, start_states, MODES};
use tropfenpfad_conformance::model::compare::{self, differing, Places, CELL_LENGTH};
use tropfenpfad_conformance::random::Xorshift;
use tropfenpfad_sys::{
    Comparison, State, COLUMNS, FRAME_LENGTH, LINES, LINE_LENGTH, LISTED_CELLS, NO_CELL,
};

/// Cells of a frame.
const CELLS: usize = COLUMNS * LINES;

type Report = (Comparison, Lists);

/// The report that is due on frames that differ at these places.
fn due_for(places: &Places) -> Report {
    let mut lists = Lists::of(0);
    let answer = compare::report(places, &mut lists.line_counts, &mut lists.cells);
    (answer, lists)
}

/// What every report says twice has to agree.
#[track_caller]
fn check_within((answer, lists): &Report, what: &str) {
    let sum: u32 = lists
        .line_counts
        .iter()
        .map(|&count| u32::from(count))
        .sum();
    assert_eq!(sum, answer.pixels, "{what}: line counts and pixels");
    assert_eq!(answer.empty, sum == 0, "{what}: empty");
    let counted = |&count: &u16| count != 0;
    let lines = [
        lists.line_counts.iter().position(counted),
        lists.line_counts.iter().rposition(counted),
    ];
    let given = [answer.first_line, answer.last_line].map(usize::from);
    assert_eq!(lines.map(Option::unwrap_or_default), given, "{what}: lines");
    let listed = LISTED_CELLS.min(answer.cells as usize);
    let (cells, unused) = lists.cells.split_at(listed);
    let rising = cells.windows(2).all(|pair| pair[0] < pair[1]);
    assert!(
        rising && cells.iter().all(|&cell| usize::from(cell) < CELLS),
        "{what}: cells"
    );
    assert!(unused.iter().all(|&cell| cell == NO_CELL), "{what}: unused");
}

/// Compares pairs of frames by all that are held to the model, in both orders, with lists that hold
/// something else before.
struct Bench {
    generator: Xorshift,
    before: [Lists; 4],
    pairs: usize,
    calls: usize,
}

impl Bench {
    fn new(seed: u64) -> Self {
        Bench {
            generator: Xorshift::new(seed),
            before: [
                Lists::of(0),
                Lists::of(1),
                Lists::of(NO_CELL),
                Lists::random(3),
            ],
            pairs: 0,
            calls: 0,
        }
    }

    #[track_caller]
    fn call(&mut self, what: &str, by: Compare, frames: [&[u8]; 2], due: &Report) {
        let mut lists = self.generator.pick(&self.before);
        let [first, second] = frames;
        let answer = lists.compare(by, first, second);
        assert_eq!((answer, lists), *due, "{what}");
        self.calls += 1;
    }

    /// Compares a pair that differs at these places.
    #[track_caller]
    fn pair(&mut self, what: &str, first: &[u8], second: &[u8], places: &Places) -> Comparison {
        assert_eq!(differing(first, second), *places, "{what}: the frames");
        let due = due_for(places);
        check_within(&due, what);
        for (name, by) in HELD {
            self.call(&format!("{what}, {name}"), by, [first, second], &due);
            self.call(
                &format!("{what}, {name}, swapped"),
                by,
                [second, first],
                &due,
            );
        }
        self.pairs += 1;
        due.0
    }

    /// Compares a random frame with one that differs from it at these places.
    #[track_caller]
    fn places(&mut self, what: &str, places: &Places) -> Comparison {
        let mut first = vec![0; FRAME_LENGTH];
        self.generator.fill(&mut first);
        let mut second = first.clone();
        for &place in places {
            second[place] ^= 1 + self.generator.below(255) as u8;
        }
        self.pair(what, &first, &second, places)
    }

    fn finish(&self, what: &str) {
        println!(
            "{what}: {} pairs of frames, {} comparisons",
            self.pairs, self.calls
        );
    }
}

#[test]
fn equal_frames_that_are_not_empty() {
    let mut bench = Bench::new(1);
    let contents = (0..=u8::MAX).map(|byte| vec![byte; FRAME_LENGTH]);
    let random = (0..64).map(|seed| random_bytes(seed, FRAME_LENGTH));
    for frame in contents.chain(random) {
        let copy = frame.clone();
        let answer = bench.pair("a copy", &frame, &copy, &Places::new());
        assert_eq!((answer.empty, answer.pixels, answer.cells), (true, 0, 0));
        bench.pair("the same memory", &frame, &frame, &Places::new());
    }
    bench.finish("equal frames");
}

#[test]
fn overlapping_frames_taken_for_others() {
    let mut bench = Bench::new(2);
    let bytes = random_bytes(2, 2 * FRAME_LENGTH);
    let shifts = [
        1,
        5,
        CELL_LENGTH,
        LINE_LENGTH - 1,
        LINE_LENGTH,
        LINE_LENGTH + 1,
        FRAME_LENGTH,
    ];
    for shift in shifts {
        let (first, second) = (&bytes[..FRAME_LENGTH], &bytes[shift..shift + FRAME_LENGTH]);
        let places = differing(first, second);
        bench.pair(&format!("shifted by {shift}"), first, second, &places);
    }
    bench.finish("overlapping frames");
}

/// Cells in the order in which a case takes them, so many at a time.
fn orders_of_cells(generator: &mut Xorshift) -> [(&'static str, Vec<usize>); 6] {
    let by_line = || 0..CELLS;
    let by_column = || (0..COLUMNS).flat_map(|column| (column..CELLS).step_by(COLUMNS));
    let mut mixed: Vec<usize> = by_line().collect();
    for last in (1..CELLS).rev() {
        mixed.swap(last, generator.below(last + 1));
    }
    let mut last_columns: Vec<usize> = by_column().collect();
    last_columns.reverse();
    // A step that has no factor in common with the number of cells reaches all of them.
    let spread = by_line().map(|index| index * 139 % CELLS).collect();
    [
        ("first cells", by_line().collect()),
        ("last cells", by_line().rev().collect()),
        ("first columns", by_column().collect()),
        ("last columns", last_columns),
        ("spread cells", spread),
        ("random cells", mixed),
    ]
}

/// Which pixels of a differing cell differ: one, all, or any.
fn pixels_of_cell(choice: usize, generator: &mut Xorshift) -> Vec<usize> {
    match choice {
        0..CELL_LENGTH => vec![choice],
        CELL_LENGTH => (0..CELL_LENGTH).collect(),
        _ => {
            let bits = 1 + generator.below((1 << CELL_LENGTH) - 1);
            (0..CELL_LENGTH)
                .filter(|pixel| bits >> pixel & 1 != 0)
                .collect()
        }
    }
}

#[test]
fn a_cell_listed_in_another_place_or_miscounted() {
    let mut bench = Bench::new(3);
    let mut generator = Xorshift::new(3);
    let few = [0, 1, 2, 3, 39, 40, 41, 62, 63, 64, 65, 66, 127, 128, 129];
    for (order, cells) in orders_of_cells(&mut generator) {
        for number in few.into_iter().chain([255, 256, 1000, CELLS - 1, CELLS]) {
            for choice in 0..CELL_LENGTH + 2 {
                let mut places = Places::new();
                for cell in &cells[..number] {
                    let pixels = pixels_of_cell(choice, &mut generator);
                    places.extend(pixels.iter().map(|pixel| CELL_LENGTH * cell + pixel));
                }
                let answer = bench.places(&format!("{number} {order}"), &places);
                assert_eq!(answer.cells as usize, number, "{order}");
            }
        }
    }
    bench.finish("numbers of cells");
}

#[test]
fn a_rectangle_of_another_size() {
    let mut bench = Bench::new(4);
    let mut generator = Xorshift::new(4);
    let full = (0..FRAME_LENGTH).collect();
    let answer = bench.places("every pixel", &full);
    assert_eq!((answer.last_x, answer.last_line), (239, 223));
    assert_eq!((answer.pixels, answer.cells), (53_760, 8_960));
    // The pixels that hold the edges lie on different lines and at different x.
    for case in 0..3000 {
        let corners = 2 + case % 4;
        let places = (0..corners)
            .map(|_| generator.below(FRAME_LENGTH))
            .collect();
        bench.places(&format!("random corners {case}"), &places);
    }
    let edges = [
        0,
        1,
        LINE_LENGTH - 1,
        LINE_LENGTH,
        FRAME_LENGTH - LINE_LENGTH,
        FRAME_LENGTH - 1,
    ];
    for (index, first) in edges.iter().enumerate() {
        for second in &edges[index..] {
            bench.places("two of the edges", &[*first, *second].into());
        }
    }
    bench.finish("rectangles");
}

#[test]
fn a_line_or_column_taken_for_its_neighbour() {
    let mut bench = Bench::new(5);
    let mut whole = |what: &str, differs: &dyn Fn(usize, usize) -> bool| {
        let there = |&place: &usize| differs(place % LINE_LENGTH, place / LINE_LENGTH);
        bench.places(what, &(0..FRAME_LENGTH).filter(there).collect());
    };
    for number in 0..LINES {
        whole(&format!("line {number}"), &|_, line| line == number);
    }
    for number in 0..LINE_LENGTH {
        whole(&format!("x {number}"), &|x, _| x == number);
    }
    for number in 0..COLUMNS {
        whole(&format!("column {number}"), &|x, _| {
            x / CELL_LENGTH == number
        });
    }
    for pixel in 0..CELL_LENGTH {
        whole(&format!("pixel {pixel} of every cell"), &|x, _| {
            x % CELL_LENGTH == pixel
        });
        whole(&format!("all but pixel {pixel} of every cell"), &|x, _| {
            x % CELL_LENGTH != pixel
        });
    }
    for step in 2..10 {
        whole(&format!("every line of {step}"), &|_, line| {
            line % step == 1
        });
        whole(&format!("a slope of {step}"), &|x, line| {
            x == line * step % LINE_LENGTH
        });
    }
    whole("a frame about the picture", &|x, line| {
        x == 0 || x == LINE_LENGTH - 1 || line == 0 || line == LINES - 1
    });
    bench.finish("lines and columns");
}

#[test]
fn pixels_compared_by_some_of_their_bits() {
    let mut bench = Bench::new(6);
    let mut generator = Xorshift::new(6);
    // Every pair of bytes, in as many frames as they take.
    let pairs: Vec<[u8; 2]> = (0..=u16::MAX).map(u16::to_le_bytes).collect();
    for start in [0, pairs.len() - FRAME_LENGTH] {
        let [first, second] = [0, 1].map(|side| -> Vec<u8> {
            let there = &pairs[start..start + FRAME_LENGTH];
            there.iter().map(|pair| pair[side]).collect()
        });
        let places = differing(&first, &second);
        bench.pair("every pair of bytes", &first, &second, &places);
    }
    // Every difference alone: in the low three bits, in the others, in bit 7 only.
    for byte in [0, 1, 7, 8, 127, 128, 248, 255] {
        let first = vec![byte; FRAME_LENGTH];
        let mut second = first.clone();
        for difference in 1..=u8::MAX {
            let place = generator.below(FRAME_LENGTH);
            second[place] = byte ^ difference;
            let what = format!("{byte} against {}", second[place]);
            bench.pair(&what, &first, &second, &once(place).collect());
            second[place] = byte;
        }
    }
    // The same difference everywhere: pixels that are equal mod 8, mod 128, and opposite.
    let first = random_bytes(6, FRAME_LENGTH);
    let everywhere = (0..FRAME_LENGTH).collect();
    for difference in [0x08, 0x78, 0x80, 0xF8, 0xFF] {
        let second: Vec<u8> = first.iter().map(|byte| byte ^ difference).collect();
        let what = format!("a difference of {difference} everywhere");
        bench.pair(&what, &first, &second, &everywhere);
    }
    bench.finish("bytes");
}

fn compare_painted(profile: u8) {
    let mut bench = Bench::new(7);
    let mut equal = 0;
    let [mut first, mut second] = [vec![0; FRAME_LENGTH], vec![0; FRAME_LENGTH]];
    for kind in Kind::ALL {
        for (seed, state) in start_states(profile).enumerate() {
            let memory = images::image(profile, kind, 4_000_000 + seed as u64);
            let after = calls::paint_frame(&memory, state, &mut first).state;
            let mode = (state.mode + 1 + seed as u8 % 4) % MODES;
            for other in [after, State { mode, ..state }] {
                assert_eq!(calls::paint_frame(&memory, other, &mut second).status, 0);
                let places = differing(&first, &second);
                let what = format!("{kind:?} image {seed} from {state:?} and {other:?}");
                equal += usize::from(bench.pair(&what, &first, &second, &places).empty);
            }
        }
    }
    bench.finish(&format!(
        "profile {profile}, painted frames, {equal} of them alike"
    ));
    assert!(
        0 < equal && equal < bench.pairs,
        "the frames are too much alike"
    );
}

#[test]
fn painted_frames_of_neighbouring_states_reported_otherwise() {
    in_each_profile(compare_painted);
}

/// What `make check` leaves out.
mod long {
    use super::*;

    #[test]
    fn a_pixel_that_is_missed_or_put_elsewhere() {
        let mut bench = Bench::new(8);
        let first = random_bytes(8, FRAME_LENGTH);
        let mut second = first.clone();
        for place in 0..FRAME_LENGTH {
            second[place] ^= 1 << (place % 8);
            let due = due_for(&once(place).collect());
            let what = format!("a difference at {place}");
            bench.call(&what, calls::compare, [&first, &second], &due);
            bench.call(&what, calls::compare, [&second, &first], &due);
            second[place] = first[place];
            bench.pairs += 1;
        }
        bench.finish("one pixel");
    }

    #[test]
    fn random_differences_reported_otherwise() {
        let mut bench = Bench::new(9);
        let mut generator = Xorshift::new(9);
        let rare = (0..16).map(|bit| 1 << bit);
        let often = (0..16).map(|bit| 0x1_0000 - (1 << bit));
        for chance in rare.chain(often) {
            for seed in 0..40 {
                let drawn = |_: &usize| generator.below(0x1_0000) < chance;
                let places = (0..FRAME_LENGTH).filter(drawn).collect();
                bench.places(&format!("chance {chance}, seed {seed}"), &places);
            }
        }
        bench.finish("random differences");
    }
}
