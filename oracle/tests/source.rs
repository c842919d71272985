//! The source that the oracle was built from: the known one, or none.

use oracle::OTHER;

#[test]
fn no_other_source() {
    assert_eq!(OTHER, None);
}
