//! The video half: screen addresses, lines, frames, and maps of what these use.

use tropfenpfad_sys::{self as ffi, Painted, State};

use crate::refusal::{check, Refusal};

/// What painting a line or a frame gives beside its pixels.
#[derive(Clone, Copy, Debug, PartialEq, Eq)]
pub struct Painting {
    /// The state to hand to the next line or frame.
    pub state: State,
    /// Screen bytes used.
    pub screen: u32,
    /// Character bytes used.
    pub character: u32,
}

/// The state to begin with: mode 2 (text, 50 Hz), counter 0, profile 0. For the 16K machine the
/// caller sets the profile.
///
/// ```
/// use tropfenpfad::{fresh_state, State, PROFILE_16K};
///
/// let state = State { profile: PROFILE_16K, ..fresh_state() };
/// assert_eq!((state.mode, state.counter), (2, 0));
/// ```
pub fn fresh_state() -> State {
    // SAFETY: no pointer is handed over.
    unsafe { ffi::tropfenpfad_fresh_state() }
}

/// Where the screen byte of a cell stands: the folded address. Refuses profile, mode, line, column.
///
/// ```
/// use tropfenpfad::{screen_address, PROFILE_16K, PROFILE_48K};
///
/// assert_eq!(screen_address(PROFILE_48K, 199, 39, 6), Ok(0xBF3F));
/// assert_eq!(screen_address(PROFILE_16K, 199, 39, 6), Ok(0x3F3F));
/// ```
pub fn screen_address(profile: u8, line: usize, column: usize, mode: u8) -> Result<u16, Refusal> {
    // SAFETY: no pointer is handed over.
    let answer = unsafe { ffi::tropfenpfad_screen_address(profile, line, column, mode) };
    check(answer.status).map(|()| answer.address)
}

/// Paints one line of 240 pixels; the counter does not move. Refuses profile, memory, output,
/// mode, counter, line.
pub fn paint_line(
    memory: &[u8],
    state: State,
    line: usize,
    output: &mut [u8],
) -> Result<Painting, Refusal> {
    // SAFETY: both slices are valid for their lengths, and the exclusive one overlaps no other.
    painting(unsafe {
        ffi::tropfenpfad_paint_line(
            memory.as_ptr(),
            memory.len(),
            state,
            line,
            output.as_mut_ptr(),
            output.len(),
        )
    })
}

/// Paints a frame, line after line from 240 times its number on; the counter moves by one.
/// Refuses profile, memory, output, mode, counter.
///
/// ```
/// use tropfenpfad::{fresh_state, paint_frame, FRAME_LENGTH, IMAGE_LENGTH};
///
/// let memory = vec![0; IMAGE_LENGTH];
/// let mut frame = vec![0; FRAME_LENGTH];
/// let mut state = fresh_state();
/// for _ in 0..3 {
///     state = paint_frame(&memory, state, &mut frame)?.state;
/// }
/// assert_eq!((state.mode, state.counter), (2, 3));
/// # Ok::<(), tropfenpfad::Refusal>(())
/// ```
pub fn paint_frame(memory: &[u8], state: State, frame: &mut [u8]) -> Result<Painting, Refusal> {
    // SAFETY: as for a line.
    painting(unsafe {
        ffi::tropfenpfad_paint_frame(
            memory.as_ptr(),
            memory.len(),
            state,
            frame.as_mut_ptr(),
            frame.len(),
        )
    })
}

/// Paints one line as [`paint_line`] does, and marks the addresses that it uses: those of its screen
/// bytes, and of the character byte of each cell that uses one, also where flash hides the ink. In
/// `map`, 8,192 bytes, address a has bit a % 8 of byte a / 8; on the 16K machine it is the folded
/// address. A mark sets a bit, and all other bits stay as they were. Refuses profile, memory,
/// output, for the line and then for the map, mode, counter, line.
///
/// ```
/// use tropfenpfad::{fresh_state, paint_line_mapped, IMAGE_LENGTH, LINE_LENGTH, MAP_LENGTH};
///
/// let mut memory = vec![0; IMAGE_LENGTH];
/// memory[0xBB80] = b'A';
/// let mut output = [0; LINE_LENGTH];
/// let mut map = [0; MAP_LENGTH];
/// paint_line_mapped(&memory, fresh_state(), 3, &mut output, &mut map)?;
/// let uses = |address: usize| map[address / 8] >> (address % 8) & 1 == 1;
/// assert!(uses(0xBB80) && uses(0xB400 + 8 * 65 + 3) && !uses(0xB400));
/// # Ok::<(), tropfenpfad::Refusal>(())
/// ```
pub fn paint_line_mapped(
    memory: &[u8],
    state: State,
    line: usize,
    output: &mut [u8],
    map: &mut [u8],
) -> Result<Painting, Refusal> {
    // SAFETY: all slices are valid for their lengths, and the exclusive ones overlap no other.
    painting(unsafe {
        ffi::tropfenpfad_paint_line_mapped(
            memory.as_ptr(),
            memory.len(),
            state,
            line,
            output.as_mut_ptr(),
            output.len(),
            map.as_mut_ptr(),
            map.len(),
        )
    })
}

/// Paints a frame as [`paint_frame`] does, and marks the addresses that its lines use, as
/// [`paint_line_mapped`] does. Refuses profile, memory, output, for the frame and then for the map,
/// mode, counter.
///
/// How many bytes of RAM does a test pattern exercise?
///
/// ```
/// use tropfenpfad::{fresh_state, paint_frame_mapped, FRAME_LENGTH, IMAGE_LENGTH, MAP_LENGTH};
///
/// let mut pattern = vec![0; IMAGE_LENGTH];
/// pattern[0xBB80..=0xBFDF].fill(b'A');
/// let mut frame = vec![0; FRAME_LENGTH];
/// let mut map = [0; MAP_LENGTH];
/// paint_frame_mapped(&pattern, fresh_state(), &mut frame, &mut map)?;
/// let exercised: u32 = map.iter().map(|byte| byte.count_ones()).sum();
/// // All 1,120 bytes of the text screen, and the eight of the letter's definition.
/// assert_eq!(exercised, 1120 + 8);
/// # Ok::<(), tropfenpfad::Refusal>(())
/// ```
pub fn paint_frame_mapped(
    memory: &[u8],
    state: State,
    frame: &mut [u8],
    map: &mut [u8],
) -> Result<Painting, Refusal> {
    // SAFETY: as for a line.
    painting(unsafe {
        ffi::tropfenpfad_paint_frame_mapped(
            memory.as_ptr(),
            memory.len(),
            state,
            frame.as_mut_ptr(),
            frame.len(),
            map.as_mut_ptr(),
            map.len(),
        )
    })
}

fn painting(answer: Painted) -> Result<Painting, Refusal> {
    check(answer.status).map(|()| Painting {
        state: answer.state,
        screen: answer.screen,
        character: answer.character,
    })
}
