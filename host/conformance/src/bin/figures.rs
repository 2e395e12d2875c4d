//! Writes all figures of `crates/figures/stdout`, as the models make them.

fn main() {
    print!("{}", tropfenpfad_conformance::figures::lines());
}
