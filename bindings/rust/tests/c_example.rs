//! The example in C: compiled against the header and the archive, and its output compared.

mod compiled;

use std::path::Path;

#[test]
fn the_example_prints_what_it_should() {
    let sources = Path::new(env!("CARGO_MANIFEST_DIR")).join("../c");
    let expected = std::fs::read_to_string(sources.join("example.out")).expect("it is there");
    // Beside the header it would take that one, and not the one in the folder that TURGAMYSK_INCLUDE names.
    let apart = Path::new(env!("CARGO_TARGET_TMPDIR")).join("example.c");
    std::fs::copy(sources.join("example.c"), &apart).expect("it can be copied");
    assert_eq!(compiled::printed_by(&apart), expected);
}
