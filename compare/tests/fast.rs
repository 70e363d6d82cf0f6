//! The fast implementation against the reference. Needs no proved library.

mod suite;

suite!(compare::fast::Fast);
