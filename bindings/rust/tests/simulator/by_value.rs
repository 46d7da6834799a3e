//! Step by value as C calls it; `sic::step` goes through the form in place.
use sic::State;

/// The refusal's number, or 0, and the state.
pub fn step(body: &[u8], state: State, hit_cycles: u32) -> (u32, State) {
    let stepped = unsafe { sic::raw::sic_step(body.as_ptr(), body.len(), state, hit_cycles) };
    (stepped.refusal, stepped.state)
}
