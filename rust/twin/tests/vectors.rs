//! The twin writes for each stored input what is stored beside it.

use brinetoggle_twin::{twin, vectors};

#[test]
fn twin_writes_every_expected_output() {
    vectors::check_all(twin::program);
}
