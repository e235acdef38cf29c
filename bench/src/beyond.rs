//! States that no book can have: more than 65,535 changes, more than 2^32 - 1
//! used bytes, fewer than three numbers. Book and lent bytes then don't belong
//! together, so every call gives 16 and leaves what was lent as it was; an
//! empty input holds no call, and gives 0.

use crate::bridge;

const NOT_TOGETHER: u32 = 16;
const SIZE: u64 = 0xA5A5_A5A5_A5A5_A5A5;
const LENT: [u8; 64] = [0xA5; 64];
const STATES: [&[u64]; 8] = [
    &[65_536, 0, 0],
    &[70_000, 0, 1],
    &[0, 4_294_967_296, 0],
    &[u64::MAX, u64::MAX, u64::MAX],
    &[1, 1 << 40, 7],
    &[],
    &[0],
    &[0, 0],
];
/// Calls made with such states.
pub const CALLS: usize = STATES.len() * 4;

/// What went wrong, in words.
pub fn faults() -> Vec<String> {
    let calls = STATES.iter().flat_map(|state| {
        [
            changed(state),
            fed(state, b"TB", NOT_TOGETHER),
            fed(state, b"", 0),
            asked(state),
        ]
    });
    calls.flatten().collect()
}

fn changed(state: &[u64]) -> Option<String> {
    let (mut numbers, mut lent) = (state.to_vec(), LENT);
    let number = bridge::change_of_numbers(0, &mut numbers, &mut lent, b"CL");
    let kept = numbers == state && lent == LENT;
    fault("a change", state, number, NOT_TOGETHER, kept)
}

/// The counts are told whatever the number is: nothing was taken.
fn fed(state: &[u64], input: &[u8], expected: u32) -> Option<String> {
    let (mut numbers, mut lent, mut sizes) = (state.to_vec(), LENT, [SIZE; 2]);
    let number = bridge::feed_of_numbers(&mut numbers, &mut lent, input, &mut sizes);
    let kept = numbers == state && lent == LENT && sizes == [0, 0];
    fault("an input", state, number, expected, kept)
}

fn asked(state: &[u64]) -> Option<String> {
    let mut sizes = [SIZE];
    let number = bridge::free_of_numbers(state, &LENT, &mut sizes);
    fault("a question", state, number, NOT_TOGETHER, sizes == [SIZE])
}

fn fault(call: &str, state: &[u64], number: u32, expected: u32, kept: bool) -> Option<String> {
    if number == expected && kept {
        return None;
    }
    let left = if kept { "" } else { ", with other outputs" };
    Some(format!(
        "{call} with the state {state:?} gave {number} for {expected}{left}"
    ))
}
