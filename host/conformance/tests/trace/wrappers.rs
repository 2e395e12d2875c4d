//! The wrapper against the C call, right and wrong inputs alike.

use tropfenpfad_conformance::calls;
use tropfenpfad_conformance::refusals::{lent_bytes, lent_cycles, result, tracings, Tracing};

#[test]
fn a_trace_that_the_wrapper_gives_otherwise() {
    let [mut first, mut second] = [lent_bytes(), lent_bytes()];
    let [mut left, mut right] = [lent_cycles(), lent_cycles()];
    let inputs = tracings();
    for (handed_over, _) in &inputs {
        let Tracing {
            memory,
            profile,
            latches,
            cycles,
        } = *handed_over;
        let answer = calls::trace(&mut first[..memory], profile, latches, &mut left[..cycles]);
        let given = tropfenpfad::trace(
            &mut second[..memory],
            profile,
            latches,
            &mut right[..cycles],
        );
        let expected = result(answer.status).map(|()| answer.latches);
        assert_eq!(given, expected, "{handed_over:?}");
        assert!(first == second, "{handed_over:?}: memory");
        assert!(left == right, "{handed_over:?}: records");
    }
    println!("wrapper of trace: {} calls compared", inputs.len());
}
