//! Comparisons in functions of their own, so that a test ends only where it returns.
use std::fmt::Debug;
use std::process::Abort;

/// Asserts that a value is the expected one.
pub(crate) fn assert_same<T: PartialEq + Debug + Drop>(rt: &impl Abort, found: T, expected: T) {
    assert_eq!(rt; found, expected);
}

/// Asserts that a fact about this subject holds.
pub(crate) fn assert_holds(rt: &impl Abort, subject: &str, fact: bool) {
    assert!(rt; fact, "{subject}");
}
