//! The runtime of tests that poll by hand.
use std::alloc::AllocGlobal;
use std::process::Abort;
use std::random::RandomSource;

/// What such a test needs of its runtime.
pub(crate) trait Tests: Abort + RandomSource + AllocGlobal {}

impl<R: Abort + RandomSource + AllocGlobal> Tests for R {}
