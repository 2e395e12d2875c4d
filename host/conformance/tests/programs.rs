//! The programs on streams that a shell does not make.

use std::os::fd::OwnedFd;
use std::os::unix::net::UnixDatagram;
use std::process::{Child, Command, ExitStatus, Stdio};
use std::thread::sleep;
use std::time::{Duration, Instant};
use tropfenpfad_conformance::files;

/// A program as `tests/listing` has built it.
#[track_caller]
fn program(name: &str) -> Command {
    Command::new(files::path(&format!("crates/{name}/out/{name}")))
}

fn ends_within(child: &mut Child, limit: Duration) -> Option<ExitStatus> {
    let start = Instant::now();
    while start.elapsed() < limit {
        if let Some(status) = child.try_wait().expect("the child can be asked") {
            return Some(status);
        }
        sleep(Duration::from_millis(10));
    }
    child.kill().expect("the child can be ended");
    None
}

#[test]
fn a_listing_that_cuts_an_image_in_one_packet() {
    let (ours, theirs) = UnixDatagram::pair().expect("a pair of sockets");
    let listing = program("listing")
        .stdin(Stdio::from(OwnedFd::from(theirs)))
        .stdout(Stdio::piped())
        .spawn()
        .expect("the listing starts");
    let image = files::bytes("crates/testcard/stdout");
    assert_eq!(ours.send(&image).expect("the packet is sent"), image.len());
    // An empty packet is the end of the input.
    ours.send(&[]).expect("the end is sent");
    let answer = listing.wait_with_output().expect("the listing ends");
    assert!(answer.status.success());
    assert_eq!(answer.stdout, files::bytes("crates/listing/stdout"));
}

#[test]
fn a_test_card_that_waits_for_its_reader() {
    let mut card = program("testcard")
        .stdout(Stdio::piped())
        .spawn()
        .expect("the test card starts");
    let status = ends_within(&mut card, Duration::from_secs(20))
        .expect("a pipe takes the image in one write");
    assert!(status.success());
}
