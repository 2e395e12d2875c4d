//! How fast the library is beside the models, as a page in Markdown. Contestants take turns in one
//! run, and each figure is the best of several.

mod bus;
mod compare;
mod contest;
mod frames;
mod frames_16k;
mod frames_mapped;
mod growth;
mod head;
mod row;
mod slip;
mod table;
mod trace;
mod video;

use row::Rows;

fn main() {
    head::print();
    frames::print();
    frames_16k::print();
    frames_mapped::print();
    let rows = Rows::begin();
    video::rows(&rows);
    bus::rows(&rows);
    trace::print();
    compare::print();
    slip::print();
    growth::print();
}
