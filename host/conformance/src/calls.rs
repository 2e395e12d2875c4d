//! The C calls over slices and records: each answer is what C gives, status included, since on a
//! refusal the rest of the answer is promised too.

mod bus;
mod compare;
mod slip;
mod trace;
mod video;

pub use bus::{decode, fresh_latches, read, write, write_in_place};
pub use compare::compare;
pub use slip::find_slip;
pub use trace::trace;
pub use video::{
    fresh_state, paint_frame, paint_frame_mapped, paint_line, paint_line_mapped, screen_address,
};
