//! What proved programs have stored, made again by the models.

use tropfenpfad_conformance::figures;
use tropfenpfad_conformance::files;
use tropfenpfad_conformance::model::Video;
use tropfenpfad_sys::{FRAME_LENGTH, LINE_LENGTH};

/// Says where the two part, line by line.
fn first_difference(stored: &str, made: &str) -> String {
    let pairs = stored.lines().zip(made.lines());
    match (1..).zip(pairs).find(|(_, (stored, made))| stored != made) {
        Some((line, (stored, made))) => format!("line {line}: stored {stored:?}, made {made:?}"),
        None => format!(
            "{} lines stored, {} made",
            stored.lines().count(),
            made.lines().count()
        ),
    }
}

#[test]
fn stored_figures_that_are_stale() {
    let made = figures::lines();
    let machines = 8 + 15 + 256 + 7 + 2 + 256;
    let maps = 2 * 8 + 2 + 3;
    assert_eq!(
        made.lines().count(),
        machines + maps + 8 + 4 + 25 + 7 + 2 + 56
    );
    let stored = files::text("crates/figures/stdout");
    assert!(stored == made, "{}", first_difference(&stored, &made));
    println!(
        "figures: 15 limits, 256 paintings in each profile, 17 times 65,536 decodes, 21 maps, \
         12 comparisons, 34 slips, 448 line starts compared"
    );
}

/// The listing of an image, as the model paints it from the fresh state.
fn listing(memory: &[u8]) -> String {
    let model = Video::new();
    let mut frame = vec![0; FRAME_LENGTH];
    let painted = model.paint_frame(memory, model.fresh_state(), &mut frame);
    if painted.status != 0 {
        return format!("refused {}\n", painted.status);
    }
    let mut text = String::new();
    for line in frame.chunks(LINE_LENGTH) {
        text.extend(line.iter().map(|&pixel| char::from(b'0' + pixel)));
        text.push('\n');
    }
    text + &format!(
        "mode {} counter {} screen {} character {}\n",
        painted.state.mode, painted.state.counter, painted.screen, painted.character
    )
}

#[test]
fn a_stored_listing_of_the_test_card_that_is_stale() {
    let made = listing(&files::bytes("crates/testcard/stdout"));
    let stored = files::text("crates/listing/stdout");
    assert!(stored == made, "{}", first_difference(&stored, &made));
    println!("listing: 1 painting compared");
}
