//! The shipped cases: what they come to, and that their files are current.

use std::fs;

use journal::engine::Proved;

use crate::answer::answer;
use crate::broken::RefillOnWake;
use crate::common::{encode, listing};
use crate::controller::{play, Server, LENGTH, RESERVATIONS};
use crate::files::{broken_picture, files, LISTING};

/// 2f(1000 − f)m + fP for readout and the default settings.
const BOUND: i64 = 60_000_000;

/// What docs/CASES.md tells of readout beside an exporter: by the rule whatever the
/// server does it has what it reserves; by a rule that refills on wake it would not.
#[test]
fn readout_by_the_rule_and_by_the_broken_one() {
    for server in [Server::Steady, Server::Jittery] {
        let outcome = play::<Proved>(server, LENGTH);
        assert!(outcome.shares[0] >= RESERVATIONS[0] && outcome.largest[0] <= BOUND);
        assert_eq!(outcome.wakes[3] > 25, server == Server::Jittery);
    }
    let broken = play::<RefillOnWake>(Server::Jittery, LENGTH);
    assert!(broken.shares[0] < RESERVATIONS[0] / 2 && broken.largest[0] > 5 * BOUND);
}

#[test]
fn the_picture_of_the_broken_rule_says_so_and_shows_the_lost_share() {
    let svg = broken_picture();
    crate::draw::check(&svg);
    assert!(svg.contains("NOT the scheduler"));
    assert!(!svg.contains("by the proved library."));
    // Readout's reservation and its share.
    assert!(svg.contains(">500 ‰<") && svg.contains(">181 ‰<"));
    assert!(svg.contains(">319 ms<"));
    assert!(answer(&["--draw"]).unwrap_err().starts_with("usage"));
}

/// `cargo run --release -p journal --example cases -- --renew` renews them.
#[test]
fn the_shipped_files_are_current() {
    let files = files();
    assert_eq!(files.len(), 20);
    assert_eq!(encode(LISTING), listing());
    for (path, bytes) in files {
        let shipped = fs::read(&path).unwrap_or_default();
        assert!(shipped == bytes, "{} is out of date", path.display());
        // A text gives the journal of its name.
        let text = String::from_utf8(bytes.clone()).unwrap_or_default();
        if text.contains("\nblock 0\n") {
            let name = path.file_stem().unwrap();
            let blocks = path
                .with_file_name("../../../examples/journals")
                .join(name)
                .with_extension("blocks");
            assert_eq!(fs::read(blocks).unwrap(), encode(&text));
        }
    }
}
