//! The calls of the video half.

use tropfenpfad_sys::{self as ffi, Address, Painted, State};

pub fn fresh_state() -> State {
    // SAFETY: no pointer is handed over.
    unsafe { ffi::tropfenpfad_fresh_state() }
}

pub fn screen_address(profile: u8, line: usize, column: usize, mode: u8) -> Address {
    // SAFETY: no pointer is handed over.
    unsafe { ffi::tropfenpfad_screen_address(profile, line, column, mode) }
}

pub fn paint_line(memory: &[u8], state: State, line: usize, output: &mut [u8]) -> Painted {
    // SAFETY: both slices are valid for their lengths, and the exclusive one overlaps no other.
    unsafe {
        ffi::tropfenpfad_paint_line(
            memory.as_ptr(),
            memory.len(),
            state,
            line,
            output.as_mut_ptr(),
            output.len(),
        )
    }
}

pub fn paint_frame(memory: &[u8], state: State, frame: &mut [u8]) -> Painted {
    // SAFETY: as for a line.
    unsafe {
        ffi::tropfenpfad_paint_frame(
            memory.as_ptr(),
            memory.len(),
            state,
            frame.as_mut_ptr(),
            frame.len(),
        )
    }
}

pub fn paint_line_mapped(
    memory: &[u8],
    state: State,
    line: usize,
    output: &mut [u8],
    map: &mut [u8],
) -> Painted {
    // SAFETY: all slices are valid for their lengths, and the exclusive ones overlap no other.
    unsafe {
        ffi::tropfenpfad_paint_line_mapped(
            memory.as_ptr(),
            memory.len(),
            state,
            line,
            output.as_mut_ptr(),
            output.len(),
            map.as_mut_ptr(),
            map.len(),
        )
    }
}

pub fn paint_frame_mapped(
    memory: &[u8],
    state: State,
    frame: &mut [u8],
    map: &mut [u8],
) -> Painted {
    // SAFETY: as for a line with a map.
    unsafe {
        ffi::tropfenpfad_paint_frame_mapped(
            memory.as_ptr(),
            memory.len(),
            state,
            frame.as_mut_ptr(),
            frame.len(),
            map.as_mut_ptr(),
            map.len(),
        )
    }
}
