//! The table of quantiser factors that the proved code stores.

use crate::common::{assert_stored, assert_writes, crate_folder};
use vectors::factors::factors;

#[test]
fn the_stored_table_is_that_of_the_formulas() {
    let stored = crate_folder("coefficients").join("src/factors.rt");
    assert_stored(&stored, factors().as_bytes());
}

#[test]
fn the_command_writes_the_table() {
    assert_writes("factors", &[factors().as_bytes()]);
}
