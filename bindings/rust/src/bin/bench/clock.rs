//! Times of calls.
use std::hint::black_box;
use std::time::Instant;

/// One call's time in nanoseconds, over a stretch of calls.
fn stretch<T>(f: &mut impl FnMut() -> T) -> f64 {
    let mut calls = 0;
    let began = Instant::now();
    while calls == 0 || began.elapsed().as_micros() < 1000 {
        black_box(f());
        calls += 1;
    }
    began.elapsed().as_nanos() as f64 / calls as f64
}

/// Ours and another, which must answer alike. They take turns, so that a machine whose speed changes slows both; the
/// least time of each counts.
pub fn race<T: PartialEq + std::fmt::Debug>(mut ours: impl FnMut() -> T, mut other: impl FnMut() -> T) -> (f64, f64) {
    assert_eq!(ours(), other());
    let (mut a, mut b) = (f64::MAX, f64::MAX);
    for _ in 0..100 {
        a = a.min(stretch(&mut ours));
        b = b.min(stretch(&mut other));
    }
    (a, b)
}

/// The least time of some calls.
pub fn alone<T>(mut f: impl FnMut() -> T) -> f64 {
    (0..100).map(|_| stretch(&mut f)).fold(f64::MAX, f64::min)
}

/// What one call that may be long answers, and its time.
pub fn once<T>(f: impl FnOnce() -> T) -> (T, f64) {
    let began = Instant::now();
    let answer = f();
    (answer, began.elapsed().as_nanos() as f64)
}
