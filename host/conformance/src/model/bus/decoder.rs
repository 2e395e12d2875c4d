//! Decode by a map of pages: which target answers in each, for every way the upper 16K can lie.

use tropfenpfad_sys::Latches;

const RAM: u8 = 0;
const VIA: u8 = 1;
const CONTROLLER: u8 = 2;
const BASIC_ROM: u8 = 3;
const OVERLAY_RAM: u8 = 4;
const BOOT_EPROM: u8 = 5;
const UNASSIGNED: u8 = 6;
/// In a map: look into page 3.
const INSIDE: u8 = 7;

/// The address bits that are the number, by profile, kind and target. The 16K machine takes no
/// controller.
const NUMBER_BITS: [[[u16; 8]; 3]; 2] = [
    [
        number_bits(0xFFFF, 0),
        number_bits(0xFFFF, 0x1FFF),
        number_bits(0xFFFF, 0x3FFF),
    ],
    [number_bits(0x3FFF, 0); 3],
];

/// By target, those of RAM and of the EPROM given. Every number but RAM's counts from a multiple of
/// its mask plus one, so that the bits left are the address less that start.
const fn number_bits(ram: u16, eprom: u16) -> [u16; 8] {
    [ram, 0x000F, 0x00FF, 0x3FFF, 0xFFFF, eprom, 0x00FF, 0]
}

/// What answers from C000 to DFFF, and what from E000 to FFFF.
type Halves = [u8; 2];
const BASIC: Halves = [BASIC_ROM; 2];
const OVERLAY: Halves = [OVERLAY_RAM; 2];
const EPROM_8K: Halves = [OVERLAY_RAM, BOOT_EPROM];
const EPROM_16K: Halves = [BOOT_EPROM; 2];

/// What lies at C000, by kind and by two latch bits.
const UPPER: [[Halves; 4]; 3] = [
    [BASIC; 4],
    // Bit 7, then bit 1 of the first latch.
    [EPROM_8K, BASIC, OVERLAY, BASIC],
    // Bit 0 of the second latch, then of the first.
    [BASIC, OVERLAY, EPROM_16K, OVERLAY],
];

const NO_LATCH: u8 = 0;
const FIRST: u8 = 1;
const SECOND: u8 = 2;

/// Page 3 under one controller kind.
struct Page3 {
    target: [u8; 256],
    latch: [u8; 256],
}

pub(in crate::model) struct Decoder {
    /// The target of each page, by kind and by two latch bits.
    maps: [[[u8; 256]; 4]; 3],
    page3: [Page3; 3],
}

impl Decoder {
    pub(in crate::model) fn new() -> Self {
        Decoder {
            maps: UPPER.map(|by_bits| by_bits.map(map)),
            page3: [no_controller(), microdisc(), jasmin()],
        }
    }

    /// The target and its number; the profile is known to be 0 or 1, the kind 0 to 2.
    #[inline]
    pub(in crate::model) fn decode(
        &self,
        profile: u8,
        latches: Latches,
        address: u16,
    ) -> (u8, u16) {
        let kind = usize::from(latches.kind);
        let [page, byte] = address.to_be_bytes().map(usize::from);
        let mut target = self.maps[kind][latch_bits(latches)][page];
        if target == INSIDE {
            target = self.page3[kind].target[byte];
        }
        let bits = NUMBER_BITS[usize::from(profile)][kind][usize::from(target)];
        (target, address & bits)
    }

    /// Whether a latch is written at the address.
    #[inline]
    pub(in crate::model) fn has_latch(&self, kind: u8, address: u16) -> bool {
        self.latch_at(kind, address) != NO_LATCH
    }

    /// Takes the byte into the latch that is written at the address, if one is.
    #[inline]
    pub(in crate::model) fn latch(&self, latches: &mut Latches, address: u16, byte: u8) {
        match self.latch_at(latches.kind, address) {
            FIRST => latches.first = byte,
            SECOND => latches.second = byte,
            _ => {}
        }
    }

    #[inline]
    fn latch_at(&self, kind: u8, address: u16) -> u8 {
        match address.to_be_bytes() {
            [3, byte] => self.page3[usize::from(kind)].latch[usize::from(byte)],
            _ => NO_LATCH,
        }
    }
}

/// The two latch bits by which the upper 16K lies.
fn latch_bits(latches: Latches) -> usize {
    let bits = match latches.kind {
        1 => latches.first >> 6 & 2 | latches.first >> 1 & 1,
        _ => latches.second << 1 & 2 | latches.first & 1,
    };
    usize::from(bits)
}

/// RAM and overlay RAM: the targets that the image holds.
#[inline]
pub(in crate::model) fn is_ram(target: u8) -> bool {
    (1 << RAM | 1 << OVERLAY_RAM) >> target & 1 != 0
}

fn map([low, high]: Halves) -> [u8; 256] {
    let mut pages = [RAM; 256];
    pages[0x03] = INSIDE;
    pages[0xC0..0xE0].fill(low);
    pages[0xE0..].fill(high);
    pages
}

fn no_controller() -> Page3 {
    Page3 {
        target: [VIA; 256],
        latch: [NO_LATCH; 256],
    }
}

fn microdisc() -> Page3 {
    let mut page = no_controller();
    page.target[0x10..=0x1F].fill(UNASSIGNED);
    page.target[0x10..=0x14].fill(CONTROLLER);
    page.target[0x18] = CONTROLLER;
    page.latch[0x14] = FIRST;
    page
}

fn jasmin() -> Page3 {
    let mut page = no_controller();
    page.target[0xF4..=0xFF].fill(CONTROLLER);
    page.latch[0xFA] = FIRST;
    page.latch[0xFB] = SECOND;
    page
}
