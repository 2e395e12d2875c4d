//! Buffers that lie against pages that nobody may touch: a call that leaves such a buffer stops the
//! test with a fault. Bytes beside it that can be reached must stay as they were.

use std::ffi::{c_int, c_void};
use std::io::Error;
use std::mem::size_of_val;
use std::ptr;

use tropfenpfad_sys::{Cycle, Latches};

use crate::images::{self, Kind};
use crate::inputs::{latches, random_bytes, random_numbers, PROFILES};
use crate::random::Xorshift;
use crate::traces::random_cycles;

const PAGE: usize = 4096;
const NO_ACCESS: c_int = 0;
const READ: c_int = 1;
const READ_WRITE: c_int = 3;
const PRIVATE_ANONYMOUS: c_int = 0x22;
const BAD_ADDRESS: i32 = 14;

extern "C" {
    fn mmap(
        place: *mut c_void,
        length: usize,
        protection: c_int,
        flags: c_int,
        file: c_int,
        offset: i64,
    ) -> *mut c_void;
    fn mprotect(place: *mut c_void, length: usize, protection: c_int) -> c_int;
    fn munmap(place: *mut c_void, length: usize) -> c_int;
    fn access(path: *const c_void, mode: c_int) -> c_int;
}

/// What bytes beside a buffer hold.
const BESIDE: u8 = 0xA5;

/// Which side of a buffer touches an inaccessible page.
#[derive(Clone, Copy, Debug)]
pub enum Against {
    End,
    Start,
}

pub const SIDES: [Against; 2] = [Against::End, Against::Start];

/// Memories of each profile's length, and shorter and longer ones, against both sides, with the
/// bytes of an image as far as they go.
pub fn memories(kind: Kind) -> impl Iterator<Item = Lent> {
    PROFILES.into_iter().flat_map(move |profile| {
        let image = images::image(profile, kind, 1);
        let right = image.len();
        let lengths = [right, 0, 1, 4096, right - 1, right + 1, right + 4096];
        lengths.into_iter().flat_map(move |length| {
            let content: Vec<u8> = image.iter().cycle().take(length).copied().collect();
            SIDES.map(|side| Lent::new(side, content.clone()))
        })
    })
}

/// Latches of every kind, a refused one too, with bits that select each thing at C000, in both
/// profiles and in a wrong one.
pub fn boards() -> impl Iterator<Item = (u8, Latches)> {
    let mut records = vec![latches(0, 0, 0), latches(255, 1, 1)];
    for first in [0x00, 0x01, 0x02, 0x80] {
        records.extend([
            latches(1, first, 0),
            latches(2, first, 0),
            latches(2, first, 1),
        ]);
    }
    (0..3).flat_map(move |profile| {
        let records = records.clone().into_iter();
        records.map(move |record| (profile, record))
    })
}

/// Buffers of these lengths against both sides, with random bytes.
pub fn outputs(lengths: &[usize]) -> Vec<Lent> {
    on_both_sides(lengths, |length| random_bytes(2, length))
}

/// Lists of these lengths against both sides, with random numbers.
pub fn lists(lengths: &[usize]) -> Vec<Lent<u16>> {
    on_both_sides(lengths, |length| random_numbers(2, length))
}

/// Lists of so many records against both sides, with random accesses.
pub fn traces(lengths: &[usize]) -> Vec<Lent<Cycle>> {
    on_both_sides(lengths, |length| {
        random_cycles(&mut Xorshift::new(2), length)
    })
}

fn on_both_sides<T: Element>(lengths: &[usize], content: impl Fn(usize) -> Vec<T>) -> Vec<Lent<T>> {
    let lent = |&length| SIDES.map(|side| Lent::new(side, content(length)));
    lengths.iter().flat_map(lent).collect()
}

/// What a lent buffer is made of.
///
/// # Safety
///
/// It has no padding.
pub unsafe trait Element: Copy + PartialEq {}

// SAFETY: a number has no padding.
unsafe impl Element for u8 {}
// SAFETY: as above.
unsafe impl Element for u16 {}
// SAFETY: the numbers of a record come to its 8 bytes.
unsafe impl Element for Cycle {}

/// The bytes of a list.
fn bytes_of<T: Element>(list: &[T]) -> &[u8] {
    // SAFETY: these are the list's own bytes, and none of them is padding.
    unsafe { std::slice::from_raw_parts(list.as_ptr().cast(), size_of_val(list)) }
}

/// A buffer of a length against one side of guarded pages, and what it holds in a vector.
pub struct Lent<T = u8> {
    pages: Pages,
    against: Against,
    /// What the buffer has to hold, for the model to change.
    pub copy: Vec<T>,
}

impl<T: Element> Lent<T> {
    pub fn new(against: Against, content: Vec<T>) -> Self {
        let mut lent = Lent {
            pages: Pages::new(size_of_val(&content[..])),
            against,
            copy: content,
        };
        assert!(lent.pages.are_guarded());
        lent.pages.bytes_mut().fill(BESIDE);
        lent.restore();
        lent
    }

    /// Puts the vector's content into the buffer, and makes it writable.
    pub fn restore(&mut self) {
        let place = self.place();
        let content = bytes_of(&self.copy);
        self.pages.bytes_mut()[place..place + content.len()].copy_from_slice(content);
    }

    /// The buffer, aligned for its elements on either side: pages are, and so is a page's end less
    /// some whole elements.
    pub fn pointer(&self) -> *mut T {
        self.pages.first().wrapping_add(self.place()).cast()
    }

    /// Its length in elements.
    pub fn length(&self) -> usize {
        self.copy.len()
    }

    /// Where in the open bytes it lies.
    fn place(&self) -> usize {
        self.pages.place(self.against, size_of_val(&self.copy[..]))
    }

    /// From now on a store into the buffer is a fault too.
    pub fn make_read_only(&self) {
        self.pages.protect(READ);
    }

    /// Compares the buffer with the vector, and all beside it with what was there.
    #[track_caller]
    pub fn check(&self, what: &str) {
        let content = bytes_of(&self.copy);
        let (before, rest) = self.pages.bytes().split_at(self.place());
        let (buffer, after) = rest.split_at(content.len());
        assert!(buffer == content, "{what}: the buffer");
        assert!(before.iter().all(|&byte| byte == BESIDE), "{what}: before");
        assert!(after.iter().all(|&byte| byte == BESIDE), "{what}: after");
    }
}

/// Open pages between two inaccessible ones.
struct Pages {
    mapping: *mut u8,
    open: usize,
}

impl Pages {
    /// Room for this many bytes, and for one page at least.
    fn new(bytes: usize) -> Self {
        let open = bytes.div_ceil(PAGE).max(1) * PAGE;
        // SAFETY: a new mapping at a place of the system's choice.
        let mapping = unsafe {
            mmap(
                ptr::null_mut(),
                open + 2 * PAGE,
                NO_ACCESS,
                PRIVATE_ANONYMOUS,
                -1,
                0,
            )
        };
        assert_ne!(mapping as isize, -1, "mmap: {}", Error::last_os_error());
        let pages = Pages {
            mapping: mapping.cast(),
            open,
        };
        pages.protect(READ_WRITE);
        pages
    }

    fn protect(&self, protection: c_int) {
        // SAFETY: the open pages are this mapping's own.
        let failed = unsafe { mprotect(self.first().cast(), self.open, protection) };
        assert_eq!(failed, 0, "mprotect: {}", Error::last_os_error());
    }

    fn first(&self) -> *mut u8 {
        self.mapping.wrapping_add(PAGE)
    }

    /// Where in the open bytes a buffer of this length lies against an inaccessible page.
    fn place(&self, against: Against, length: usize) -> usize {
        assert!(length <= self.open);
        match against {
            Against::Start => 0,
            Against::End => self.open - length,
        }
    }

    /// All open bytes.
    fn bytes(&self) -> &[u8] {
        // SAFETY: open pages can be read, and nobody changes them while they are lent.
        unsafe { std::slice::from_raw_parts(self.first(), self.open) }
    }

    /// All open bytes, to be changed.
    fn bytes_mut(&mut self) -> &mut [u8] {
        self.protect(READ_WRITE);
        // SAFETY: they were just made writable, and `self` is lent exclusively.
        unsafe { std::slice::from_raw_parts_mut(self.first(), self.open) }
    }

    /// Whether the bytes just before and just after the open pages are out of reach. The system
    /// is asked to read a name there, which it refuses without a fault.
    fn are_guarded(&self) -> bool {
        let outside = [
            self.mapping.wrapping_add(PAGE - 1),
            self.first().wrapping_add(self.open),
        ];
        outside.into_iter().all(|place| {
            // SAFETY: the system tests the address before it reads.
            let answer = unsafe { access(place.cast_const().cast(), 0) };
            answer == -1 && Error::last_os_error().raw_os_error() == Some(BAD_ADDRESS)
        })
    }
}

impl Drop for Pages {
    fn drop(&mut self) {
        // SAFETY: the mapping is this one's own and is not used again.
        unsafe { munmap(self.mapping.cast(), self.open + 2 * PAGE) };
    }
}
