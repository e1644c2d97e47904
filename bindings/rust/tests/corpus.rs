//! The plain implementation prints what the corpus has, and what lies beside each example.
mod common;

use common::{check_beside, check_index, top};
use framed::plain::framerun;
use std::path::Path;

#[test]
fn examples() {
    check_beside(&top().join("examples"), "framed", framerun);
}

/// The sources of the program `framecorpus`, in the order of its index, print its stored output.
#[test]
fn corpus() {
    check_index("framecorpus", |source, _| framerun(source));
}

/// A further directory of sources with their outputs, where FRAMED_CORPUS names one.
#[test]
fn further_corpus() {
    if let Some(dir) = std::env::var_os("FRAMED_CORPUS") {
        check_beside(Path::new(&dir), "framed", framerun);
    }
}
