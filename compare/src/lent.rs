//! Lists lent to an implementation, with guards around them that show whether
//! it writes outside a list.

use std::fmt::Debug;

/// What a number to be given back holds before a call.
pub const UNTOUCHED: u32 = 3_141_592_653;

/// What lies before and after each lent list.
const GUARD: [u8; 16] = [77; 16];

/// What lists hold: symbols, message values, bytes, or signed numbers.
pub trait Value: Copy + PartialEq + From<u8> {}

impl Value for u16 {}
impl Value for u8 {}
impl Value for i16 {}

/// A lent list, between guards.
pub struct Lent<T>(Vec<T>);

impl<T: Value> Lent<T> {
    pub fn new(values: &[T]) -> Lent<T> {
        let guard = GUARD.map(T::from);
        Lent([&guard, values, &guard].concat())
    }

    pub fn list(&mut self) -> &mut [T] {
        let end = self.0.len() - GUARD.len();
        &mut self.0[GUARD.len()..end]
    }

    /// What the list holds after a call. Panics, with the call, if a guard
    /// was changed.
    pub fn values(mut self, call: &impl Debug) -> Vec<T> {
        let values = self.list().to_vec();
        let intact = self.0 == Lent::new(&values).0;
        assert!(intact, "{call:?}\nwrites outside a list");
        values
    }
}

/// Lends a list to be read. Panics, with the call, if it was changed.
pub fn reading<T: Value>(call: &impl Debug, list: &[T], run: impl FnOnce(&[T]) -> u32) -> u32 {
    let mut lent = Lent::new(list);
    let status = run(lent.list());
    let unchanged = lent.values(call) == list;
    assert!(unchanged, "{call:?}\nchanges a list lent to be read");
    status
}
