//! The library's answers against the model by overlaps, and against lines that are made to have a
//! certain slip. The plain search is held to both in the same way.

use std::iter::once;

use tropfenpfad_conformance::calls;
use tropfenpfad_conformance::images::{self, Kind};
use tropfenpfad_conformance::inputs::random_bytes;
use tropfenpfad_conformance::model::slip::{self, disagreements, SLIPS};
use tropfenpfad_conformance::random::Xorshift;
use tropfenpfad_conformance::slips::{moved, stripes, FARTHEST, HELD};
use tropfenpfad_sys::{FARTHEST_SLIP, FRAME_LENGTH, LINE_LENGTH, PROFILE_48K};

/// Pixels of a line, as they are counted.
const ALL: u16 = LINE_LENGTH as u16;

/// Searches pairs of lines by all that are held to the model.
#[derive(Default)]
struct Bench {
    pairs: usize,
    calls: usize,
}

impl Bench {
    /// Searches a pair; gives slip and disagreements.
    #[track_caller]
    fn pair(&mut self, what: &str, reference: &[u8], grabbed: &[u8]) -> (i8, u16) {
        let due = slip::find_slip(reference, grabbed);
        assert_eq!(due.status, 0, "{what}");
        for (name, find_slip) in HELD {
            assert_eq!(find_slip(reference, grabbed), due, "{what}, {name}");
            self.calls += 1;
        }
        self.pairs += 1;
        (due.slip, due.disagreements)
    }

    /// Searches a pair of which slip and disagreements are known.
    #[track_caller]
    fn known(&mut self, what: &str, reference: &[u8], grabbed: &[u8], known: (i8, u16)) {
        assert_eq!(self.pair(what, reference, grabbed), known, "{what}");
    }

    fn finish(&self, what: &str) {
        println!(
            "{what}: {} pairs of lines, {} searches",
            self.pairs, self.calls
        );
    }
}

/// A line of random pixels, of so many colours.
fn random_line(generator: &mut Xorshift, colours: usize) -> Vec<u8> {
    let pixel = |_| generator.below(colours) as u8;
    (0..LINE_LENGTH).map(pixel).collect()
}

/// Gives a pixel another byte, any one.
fn change(generator: &mut Xorshift, pixel: &mut u8) {
    *pixel ^= 1 + generator.below(255) as u8;
}

/// A reference in which no byte is found twice, and a byte that it lacks. So a pixel of a grabbed
/// line agrees at one slip or at none.
struct Distinct {
    reference: Vec<u8>,
    lacking: u8,
}

impl Distinct {
    fn new(generator: &mut Xorshift) -> Self {
        let mut bytes: Vec<u8> = (0..=u8::MAX).collect();
        for last in (1..bytes.len()).rev() {
            bytes.swap(last, generator.below(last + 1));
        }
        Distinct {
            lacking: bytes[LINE_LENGTH],
            reference: bytes[..LINE_LENGTH].to_vec(),
        }
    }

    /// A grabbed line of which these pixels agree, each at its slip: its x, and the slip.
    fn grabbed(&self, agreeing: &[(usize, i8)]) -> Vec<u8> {
        let mut line = vec![self.lacking; LINE_LENGTH];
        for &(x, slip) in agreeing {
            line[x] = self.reference[x.wrapping_add_signed(-isize::from(slip))];
        }
        line
    }
}

/// Agreements for slips, so many for each, at random places of the grabbed line that all slips
/// reach.
fn spread(generator: &mut Xorshift, counts: &[(i8, usize)]) -> Vec<(usize, i8)> {
    let mut places: Vec<usize> = (FARTHEST..LINE_LENGTH - FARTHEST).collect();
    let mut agreeing = Vec::new();
    for &(slip, count) in counts {
        for _ in 0..count {
            let place = places.swap_remove(generator.below(places.len()));
            agreeing.push((place, slip));
        }
    }
    agreeing
}

/// All slips, the one that is taken on a tie before the others.
fn in_order() -> Vec<i8> {
    let sides = (1..=FARTHEST_SLIP).flat_map(|distance| [-distance, distance]);
    once(0).chain(sides).collect()
}

#[test]
fn equal_lines_that_have_slipped() {
    let mut bench = Bench::default();
    let random = (0..256).map(|seed| random_bytes(seed, LINE_LENGTH));
    let striped = (1..=LINE_LENGTH).map(stripes);
    for line in random.chain(striped) {
        bench.known("a copy", &line, &line.clone(), (0, 0));
        bench.known("the same memory", &line, &line, (0, 0));
    }
    bench.finish("equal lines");
}

#[test]
fn a_pixel_compared_with_another() {
    let mut bench = Bench::default();
    let mut generator = Xorshift::new(1);
    let distinct = Distinct::new(&mut generator);
    // Only one pixel of the reference is found in the grabbed line.
    for x in 0..LINE_LENGTH {
        for place in 0..LINE_LENGTH {
            let mut grabbed = distinct.grabbed(&[]);
            grabbed[place] = distinct.reference[x];
            let distance = place as i16 - x as i16;
            let known = match i8::try_from(distance) {
                Ok(slip) if SLIPS.contains(&slip) => (slip, ALL - 1),
                _ => (0, ALL),
            };
            let what = format!("pixel {x} at {place}");
            bench.known(&what, &distinct.reference, &grabbed, known);
        }
    }
    bench.finish("one pixel");
}

#[test]
fn pixels_compared_by_some_of_their_bits() {
    let mut bench = Bench::default();
    let mut generator = Xorshift::new(2);
    for pair in 0..=u16::MAX {
        let [first, second] = pair.to_le_bytes();
        let [reference, grabbed] = [first, second].map(|byte| [byte; LINE_LENGTH]);
        let differing = if first == second { 0 } else { ALL };
        let what = format!("{first} against {second}");
        bench.known(&what, &reference, &grabbed, (0, differing));
    }
    // Lines that have slipped, but for the same bit of all pixels, or for all but the colour.
    for slip in SLIPS {
        let reference = random_line(&mut generator, 8);
        let grabbed = moved(&reference, slip.into(), &reference);
        for difference in [0x08, 0x10, 0x20, 0x40, 0x80, 0xF8] {
            let other: Vec<u8> = grabbed.iter().map(|pixel| pixel ^ difference).collect();
            let what = format!("slip {slip} with a difference of {difference}");
            bench.known(&what, &reference, &other, (0, ALL));
        }
    }
    bench.finish("bytes");
}

#[test]
fn a_slip_that_is_not_found() {
    let mut bench = Bench::default();
    let mut generator = Xorshift::new(3);
    for slip in SLIPS {
        let outside = u16::from(slip.unsigned_abs());
        for colours in [1, 2, 3, 4, 5, 6, 7, 8, 16, 256] {
            for _ in 0..40 {
                let [reference, incoming] = [0; 2].map(|_| random_line(&mut generator, colours));
                let grabbed = moved(&reference, slip.into(), &incoming);
                let what = format!("slip {slip}, {colours} colours");
                assert_eq!(disagreements(&reference, &grabbed, slip), outside, "{what}");
                // A line of one colour is the same wherever it stands.
                let known = if colours == 1 {
                    (0, 0)
                } else {
                    (slip, outside)
                };
                bench.known(&what, &reference, &grabbed, known);
            }
        }
    }
    bench.finish("slips");
}

#[test]
fn a_change_that_is_missed_or_an_incoming_pixel_that_counts() {
    let mut bench = Bench::default();
    let mut generator = Xorshift::new(4);
    let [reference, incoming] = [4, 5].map(|seed| random_bytes(seed, LINE_LENGTH));
    for slip in SLIPS {
        let outside = u16::from(slip.unsigned_abs());
        let line = moved(&reference, slip.into(), &incoming);
        let held = |x: usize| (0..LINE_LENGTH as isize).contains(&(x as isize - isize::from(slip)));
        for x in 0..LINE_LENGTH {
            let mut grabbed = line.clone();
            change(&mut generator, &mut grabbed[x]);
            let known = (slip, outside + u16::from(held(x)));
            let what = format!("slip {slip}, changed at {x}");
            bench.known(&what, &reference, &grabbed, known);
        }
        for changes in 2..60 {
            let mut grabbed = line.clone();
            for _ in 0..changes {
                let x = generator.below(LINE_LENGTH);
                change(&mut generator, &mut grabbed[x]);
            }
            let what = format!("slip {slip}, {changes} changes");
            let (found, _) = bench.pair(&what, &reference, &grabbed);
            assert_eq!(found, slip, "{what}");
        }
    }
    bench.finish("changed lines");
}

#[test]
fn a_move_that_is_too_far_and_found() {
    let mut bench = Bench::default();
    let mut generator = Xorshift::new(5);
    let distinct = Distinct::new(&mut generator);
    let incoming = distinct.grabbed(&[]);
    for distance in FARTHEST as i16 + 1..=ALL as i16 {
        for pixels in [-distance, distance] {
            let far = moved(&distinct.reference, pixels, &incoming);
            let what = format!("moved by {pixels}");
            bench.known(&what, &distinct.reference, &far, (0, ALL));
            // One pixel at a slip that is tried outweighs all that have moved too far.
            for slip in SLIPS {
                let (x, _) = spread(&mut generator, &[(slip, 1)])[0];
                let mut grabbed = far.clone();
                grabbed[x] = distinct.grabbed(&[(x, slip)])[x];
                let what = format!("{what}, one pixel by {slip}");
                bench.known(&what, &distinct.reference, &grabbed, (slip, ALL - 1));
            }
        }
    }
    bench.finish("lines that are moved too far");
}

#[test]
fn a_tie_of_two_slips_won_by_the_wrong_one() {
    let mut bench = Bench::default();
    let mut generator = Xorshift::new(6);
    let slips = in_order();
    assert_eq!(slips.len(), 25);
    for (index, &winner) in slips.iter().enumerate() {
        for &other in &slips[index + 1..] {
            for count in [1, 2, 30, 107] {
                let distinct = Distinct::new(&mut generator);
                let what = format!("{winner} and {other}, {count} agreements");
                let tied = spread(&mut generator, &[(winner, count), (other, count)]);
                let known = (winner, ALL - count as u16);
                let grabbed = distinct.grabbed(&tied);
                bench.known(&what, &distinct.reference, &grabbed, known);
                let more = spread(&mut generator, &[(winner, count), (other, count + 1)]);
                let known = (other, ALL - count as u16 - 1);
                let grabbed = distinct.grabbed(&more);
                bench.known(&what, &distinct.reference, &grabbed, known);
            }
        }
    }
    bench.finish("ties of two slips");
}

#[test]
fn a_tie_of_many_slips_won_by_the_wrong_one() {
    let mut bench = Bench::default();
    let mut generator = Xorshift::new(7);
    for case in 0..5000 {
        let distinct = Distinct::new(&mut generator);
        let most = 1 + generator.below(8);
        let chance = 1 + case % 8;
        let counts: Vec<(i8, usize)> = in_order()
            .into_iter()
            .map(|slip| match generator.below(8) < chance {
                true => (slip, most),
                false => (slip, generator.below(most)),
            })
            .collect();
        // The first of those with the most agreements, if there are any.
        let first = counts.iter().find(|(_, count)| *count == most);
        let Some(&(winner, _)) = first else {
            continue;
        };
        let grabbed = distinct.grabbed(&spread(&mut generator, &counts));
        let known = (winner, ALL - most as u16);
        bench.known(&format!("{counts:?}"), &distinct.reference, &grabbed, known);
    }
    assert!(bench.pairs > 4000, "too few ties");
    bench.finish("ties of many slips");
}

#[test]
fn a_tie_of_a_whole_line_won_by_the_wrong_slip() {
    let mut bench = Bench::default();
    let mut generator = Xorshift::new(8);
    // A line that is the same again after twice the distance has slipped to both sides alike.
    for distance in 1..=FARTHEST {
        let known = (-(distance as i8), distance as u16);
        for _ in 0..100 {
            let distinct = Distinct::new(&mut generator);
            let period = &distinct.reference[..2 * distance];
            let [reference, grabbed] = [0, distance].map(|start| -> Vec<u8> {
                let line = period.iter().cycle().skip(start).take(LINE_LENGTH);
                line.copied().collect()
            });
            let what = format!("{distance} to either side");
            bench.known(&what, &reference, &grabbed, known);
            bench.known(&what, &grabbed, &reference, known);
        }
    }
    bench.finish("ties of two sides");
}

#[test]
fn stripes_found_elsewhere() {
    let mut bench = Bench::default();
    for width in 1..=LINE_LENGTH {
        let reference = stripes(width);
        let inverted: Vec<u8> = reference.iter().map(|colour| 1 - colour).collect();
        let what = format!("inverted stripes of {width}");
        match i8::try_from(width) {
            Ok(slip) if slip <= FARTHEST_SLIP => {
                let known = (-slip, width as u16);
                bench.known(&what, &reference, &inverted, known);
                bench.known(&what, &inverted, &reference, known);
            }
            _ => {
                bench.pair(&what, &reference, &inverted);
                bench.pair(&what, &inverted, &reference);
            }
        }
        // Stripes of the same width that begin anywhere, and of the widths next to it.
        for start in 0..2 * width.min(30) {
            let other: Vec<u8> = (0..LINE_LENGTH)
                .map(|x| ((x + start) / width % 2) as u8)
                .collect();
            bench.pair(
                &format!("stripes of {width} from {start}"),
                &reference,
                &other,
            );
        }
        for other in width.saturating_sub(3).max(1)..width + 4 {
            let what = format!("stripes of {width} and {other}");
            bench.pair(&what, &reference, &stripes(other));
        }
    }
    bench.finish("stripes");
}

#[test]
fn random_lines_found_elsewhere() {
    let mut bench = Bench::default();
    let mut generator = Xorshift::new(9);
    let mut found = [0; 25];
    for colours in [1, 2, 3, 4, 5, 6, 7, 8, 16, 256] {
        for case in 0..2000 {
            let [reference, grabbed] = [0; 2].map(|_| random_line(&mut generator, colours));
            let what = format!("{colours} colours, {case}");
            let (slip, _) = bench.pair(&what, &reference, &grabbed);
            found[(slip + FARTHEST_SLIP) as usize] += 1;
            bench.pair(&what, &grabbed, &reference);
        }
    }
    bench.finish("random lines");
    println!("by slip from -12 on: {found:?}");
    assert!(found.iter().all(|&lines| lines > 0), "every slip is found");
}

#[test]
fn nearly_plain_lines_found_elsewhere() {
    let mut bench = Bench::default();
    let mut generator = Xorshift::new(10);
    for case in 0..20_000 {
        let marks = 1 + case % 6;
        let start = generator.below(LINE_LENGTH - 24);
        let [reference, grabbed] = [0; 2].map(|_| {
            let mut line = vec![0; LINE_LENGTH];
            for _ in 0..marks {
                line[start + generator.below(24)] = 1 + generator.below(2) as u8;
            }
            line
        });
        bench.pair(&format!("{marks} marks, {case}"), &reference, &grabbed);
    }
    bench.finish("nearly plain lines");
}

#[test]
fn overlapping_lines_taken_for_others() {
    let mut bench = Bench::default();
    let bytes = random_bytes(11, 2 * LINE_LENGTH);
    let first = &bytes[..LINE_LENGTH];
    for shift in 0..=LINE_LENGTH {
        let second = &bytes[shift..shift + LINE_LENGTH];
        let what = format!("lines that begin {shift} apart");
        if shift <= FARTHEST {
            let slip = shift as i8;
            bench.known(&what, first, second, (-slip, shift as u16));
            bench.known(&what, second, first, (slip, shift as u16));
        } else {
            bench.pair(&what, first, second);
            bench.pair(&what, second, first);
        }
    }
    bench.finish("overlapping lines");
}

#[test]
fn painted_lines_found_elsewhere() {
    let mut bench = Bench::default();
    let mut frame = vec![0; FRAME_LENGTH];
    let mut as_moved = 0;
    for kind in Kind::ALL {
        let memory = images::image(PROFILE_48K, kind, 8_000_000);
        let painted = calls::paint_frame(&memory, calls::fresh_state(), &mut frame);
        assert_eq!(painted.status, 0);
        let lines: Vec<&[u8]> = frame.chunks_exact(LINE_LENGTH).collect();
        for (number, pair) in lines.windows(2).enumerate() {
            bench.pair(
                &format!("{kind:?}, line {number} and the next"),
                pair[0],
                pair[1],
            );
            for slip in SLIPS {
                let grabbed = moved(pair[0], slip.into(), pair[1]);
                let what = format!("{kind:?}, line {number} moved by {slip}");
                let (found, least) = bench.pair(&what, pair[0], &grabbed);
                assert!(least <= slip.unsigned_abs().into(), "{what}");
                as_moved += usize::from(found == slip);
            }
        }
    }
    bench.finish(&format!("painted lines, {as_moved} found as moved"));
    assert!(as_moved > bench.pairs / 2, "the lines are too plain");
}
