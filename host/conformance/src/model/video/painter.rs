//! Painting by tables: what a screen byte does to the registers, where style and mode find a
//! definition, which lanes a pattern turns to ink.

use tropfenpfad_sys::{COLUMNS, LINE_LENGTH};

use super::Block;

// Places in the block, whose first address is 8000 in the 48K machine.
const TEXT_SCREEN: usize = 0xBB80 - 0x8000;
const HIRES_SCREEN: usize = 0xA000 - 0x8000;
const TEXT_SET: usize = 0xB400 - 0x8000;
const HIRES_SET: usize = 0x9800 - 0x8000;
const ALTERNATE_SET: usize = 0x400;
const BITMAP_LINES: usize = 200;

/// The four registers in one word, the style's bits in the order flash, alternate, double. The
/// low seven bits find the colours, the five above them the definitions, and the top byte is all
/// ones in hires and zero in text.
type Word = u32;
const INK: u32 = 0;
const PAPER: u32 = 3;
const FLASH: u32 = 6;
const ALTERNATE: u32 = 7;
const DOUBLE: u32 = 8;
const MODE: u32 = 9;
const HIRES: Word = 0xFF << 24;

/// Six pixels in the low six bytes of a word, the leftmost lowest.
type Lanes = u64;
const EACH: Lanes = 0x0101_0101_0101;

type Row = [u8; COLUMNS];
type Pixels = [u8; LINE_LENGTH];

/// Paper in each lane, and what turns it to ink: nothing while flash hides it.
#[derive(Clone, Copy)]
struct Colours {
    paper: Lanes,
    turn: Lanes,
}

pub(super) struct Painter {
    /// By screen byte: the bits of the registers that stay, and those that are set.
    keep: [Word; 256],
    set: [Word; 256],
    /// By screen byte: the bits of a pattern that it shows, none for an attribute.
    drawn: [u8; 256],
    /// By screen byte: seven in each lane, which turns c into 7 - c, for bit 7.
    inverse: [Lanes; 256],
    /// By pattern: all ones in the lanes that are ink.
    lanes: [Lanes; 64],
    /// By flash phase; then by ink, paper and flash.
    colours: [[Colours; 128]; 2],
    /// By line modulo 16; then by alternate, double and mode: the line's row of character 0.
    definitions: [[u16; 32]; 16],
}

/// What one line is painted with.
struct Line<'a> {
    painter: &'a Painter,
    block: &'a Block,
    colours: &'a [Colours; 128],
    definitions: &'a [u16; 32],
    /// All ones where a hires byte is its own pattern.
    bitmap: u8,
}

impl Painter {
    pub(super) fn new() -> Self {
        Painter {
            keep: std::array::from_fn(|byte| !effect(byte as u8).0),
            set: std::array::from_fn(|byte| effect(byte as u8).1),
            drawn: std::array::from_fn(|byte| if byte & 0x60 == 0 { 0 } else { 0x3F }),
            inverse: std::array::from_fn(|byte| 7 * EACH * (byte as Lanes >> 7)),
            lanes: std::array::from_fn(lanes),
            colours: [false, true].map(|hidden| std::array::from_fn(|word| colours(word, hidden))),
            definitions: std::array::from_fn(definitions),
        }
    }

    /// Paints one line; gives the mode that it leaves and how many character bytes it used.
    #[inline]
    pub(super) fn line(
        &self,
        block: &Block,
        line: usize,
        mode: u8,
        counter: u8,
        output: &mut Pixels,
    ) -> (u8, u32) {
        let [text, hires] = line_starts(line).map(|start| row(block, start));
        let work = self.work(block, line, counter);
        let start = line_reset(mode);
        let first = if start & HIRES == 0 { text } else { hires };
        let (word, used) = if !keeps_mode(first) {
            work.switching(text, hires, start, output)
        } else if start & HIRES != 0 && work.bitmap != 0 {
            let word = work.steady(first, start, output, |_, byte| byte);
            (word, 0)
        } else {
            let word = work.steady(first, start, output, |word, byte| {
                work.definition(word, byte)
            });
            (word, pictures(first))
        };
        (mode_of(word), used)
    }

    /// Calls with the place in the block of each byte that a line uses, in painting order; gives the
    /// mode that it leaves. Which bytes these are does not hang on the counter.
    pub(super) fn used(&self, block: &Block, line: usize, mode: u8, call: impl FnMut(usize)) -> u8 {
        let work = self.work(block, line, 0);
        mode_of(work.used(line_starts(line), line_reset(mode), call))
    }

    /// What a line is painted with.
    #[inline(always)]
    fn work<'a>(&'a self, block: &'a Block, line: usize, counter: u8) -> Line<'a> {
        Line {
            painter: self,
            block,
            colours: &self.colours[usize::from(counter >> 4 & 1)],
            definitions: &self.definitions[line & 15],
            bitmap: if line < BITMAP_LINES { 0xFF } else { 0 },
        }
    }
}

impl Line<'_> {
    /// Paints a row whose bytes leave the mode; gives the registers afterwards.
    #[inline(always)]
    fn steady(
        &self,
        row: &Row,
        mut word: Word,
        output: &mut Pixels,
        pattern: impl Fn(Word, u8) -> u8,
    ) -> Word {
        for (pixels, &byte) in output.chunks_exact_mut(6).zip(row) {
            word = self.latched(word, byte);
            self.put(pixels, word, byte, pattern(word, byte));
        }
        word
    }

    /// Paints a line whose mode may change in any cell: both candidates for the next byte are
    /// at hand, and the mode in force masks one of them out. Gives the registers afterwards and
    /// the character bytes used.
    #[inline(always)]
    fn switching(
        &self,
        text: &Row,
        hires: &Row,
        mut word: Word,
        output: &mut Pixels,
    ) -> (Word, u32) {
        let mut used = 0;
        let rows = text.iter().zip(hires);
        for (pixels, (&text, &hires)) in output.chunks_exact_mut(6).zip(rows) {
            let (byte, own, after) = self.chosen(word, text, hires);
            word = after;
            let definition = self.definition(word, byte);
            self.put(pixels, word, byte, definition ^ (definition ^ byte) & own);
            used += u32::from(self.painter.drawn[usize::from(byte)] & !own & 1);
        }
        (word, used)
    }

    /// Of the candidates for the next byte the one that the mode in force leaves, all ones if it is
    /// its own pattern, and the registers once it is latched.
    #[inline(always)]
    fn chosen(&self, word: Word, text: u8, hires: u8) -> (u8, u8, Word) {
        let in_hires = (word as i32 >> 24) as Word;
        let byte = text ^ (text ^ hires) & in_hires as u8;
        let own = self.bitmap & in_hires as u8;
        let [after_text, after_hires] = [text, hires].map(|byte| self.latched(word, byte));
        let after = after_text ^ (after_text ^ after_hires) & in_hires;
        (byte, own, after)
    }

    /// Follows the cells without painting them: calls with the place of each screen byte, and of
    /// the definition after it if the byte is drawn by one. Gives the registers afterwards.
    #[inline(always)]
    fn used(&self, starts: [usize; 2], mut word: Word, mut call: impl FnMut(usize)) -> Word {
        let [text, hires] = starts.map(|start| row(self.block, start));
        for (column, (&text, &hires)) in text.iter().zip(hires).enumerate() {
            call(starts[(word >> 31) as usize] + column);
            let (byte, own, after) = self.chosen(word, text, hires);
            word = after;
            if self.painter.drawn[usize::from(byte)] & !own != 0 {
                call(self.definition_place(word, byte));
            }
        }
        word
    }

    /// The registers once a screen byte is latched; a picture leaves them.
    #[inline(always)]
    fn latched(&self, word: Word, byte: u8) -> Word {
        word & self.painter.keep[usize::from(byte)] | self.painter.set[usize::from(byte)]
    }

    /// The byte of the character set. For an attribute it is read too, as the chip does, and
    /// then not drawn.
    #[inline(always)]
    fn definition(&self, word: Word, byte: u8) -> u8 {
        self.block[self.definition_place(word, byte)]
    }

    /// Where that byte stands in the block.
    #[inline(always)]
    fn definition_place(&self, word: Word, byte: u8) -> usize {
        let base = self.definitions[(word >> ALTERNATE) as usize & 31];
        (usize::from(base) + 8 * usize::from(byte & 0x7F)) & 0x3FFF
    }

    /// Six pixels, from the registers that the cell's own byte has left.
    #[inline(always)]
    fn put(&self, pixels: &mut [u8], word: Word, byte: u8, pattern: u8) {
        let byte = usize::from(byte);
        let colours = self.colours[word as usize & 127];
        let ink = self.painter.lanes[usize::from(pattern & self.painter.drawn[byte] & 63)];
        let lanes = colours.paper ^ colours.turn & ink ^ self.painter.inverse[byte];
        pixels.copy_from_slice(&lanes.to_le_bytes()[..6]);
    }
}

/// The register bits that a screen byte replaces, and what it puts there.
fn effect(byte: u8) -> (Word, Word) {
    let value = Word::from(byte & 7);
    match byte >> 3 & 0b1111 {
        0 => (7 << INK, value << INK),
        1 => (
            1 << FLASH | 1 << ALTERNATE | 1 << DOUBLE,
            (value >> 2) << FLASH | (value & 1) << ALTERNATE | (value >> 1 & 1) << DOUBLE,
        ),
        2 => (7 << PAPER, value << PAPER),
        3 => (7 << MODE | HIRES, mode_bits(byte & 7)),
        _ => (0, 0),
    }
}

fn mode_bits(mode: u8) -> Word {
    Word::from(mode) << MODE | if mode & 4 != 0 { HIRES } else { 0 }
}

fn mode_of(word: Word) -> u8 {
    (word >> MODE & 7) as u8
}

/// The registers at the start of a line.
fn line_reset(mode: u8) -> Word {
    7 << INK | mode_bits(mode)
}

/// Whether no byte of a row sets the mode.
fn keeps_mode(row: &Row) -> bool {
    let sets_mode = |byte: &u8| byte & 0x78 == 0x18;
    !row.iter()
        .fold(false, |found, byte| found | sets_mode(byte))
}

/// How many bytes of a row are pictures.
fn pictures(row: &Row) -> u32 {
    let count: u8 = row.iter().map(|byte| u8::from(byte & 0x60 != 0)).sum();
    u32::from(count)
}

/// All ones in the lane of each set bit of a pattern; bit 5 is the first lane.
fn lanes(pattern: usize) -> Lanes {
    (0..6)
        .filter(|lane| pattern << lane & 0x20 != 0)
        .map(|lane| 0xFF << (8 * lane))
        .sum()
}

fn colours(word: usize, hidden: bool) -> Colours {
    let [ink, paper] = [INK, PAPER].map(|place| word as Lanes >> place & 7);
    let flashes = word >> FLASH & 1 != 0;
    Colours {
        paper: EACH * paper,
        turn: if flashes && hidden {
            0
        } else {
            EACH * (ink ^ paper)
        },
    }
}

fn definitions(line: usize) -> [u16; 32] {
    std::array::from_fn(|index| {
        let [alternate, double, _, _, hires] = std::array::from_fn(|bit| index >> bit & 1);
        let set = [TEXT_SET, HIRES_SET][hires];
        (set + ALTERNATE_SET * alternate + (line >> double & 7)) as u16
    })
}

/// Where column 0 of a line stands in the block: in text, in hires.
pub(super) fn line_starts(line: usize) -> [usize; 2] {
    let text = TEXT_SCREEN + COLUMNS * (line >> 3);
    if line < BITMAP_LINES {
        [text, HIRES_SCREEN + COLUMNS * line]
    } else {
        [text, text]
    }
}

fn row(block: &Block, start: usize) -> &Row {
    block[start..start + COLUMNS]
        .try_into()
        .expect("forty bytes")
}
