//! The floating-point environment: what changes it is told, and why it matters is shown.

use saddlekerf::{environment_is_default, Microseconds, Satellite};
use std::arch::asm;

const LINE1: &[u8] = b"1 00005U 58002B   00179.78495062  .00000023  00000-0  28098-4 0  4753";
const LINE2: &[u8] = b"2 00005  34.2682 348.7242 1859667 331.7664  19.3264 10.82419157413667";

fn mxcsr() -> u32 {
    let mut word = 0u32;
    // SAFETY: stmxcsr writes the four bytes of `word`.
    unsafe { asm!("stmxcsr [{}]", in(reg) &raw mut word) };
    word
}

/// What `told` answers under another control word, which is put back.
fn under<T>(word: u32, told: impl FnOnce() -> T) -> T {
    let before = mxcsr();
    // SAFETY: ldmxcsr reads the four bytes of a word without reserved bits.
    unsafe { asm!("ldmxcsr [{}]", in(reg) &raw const word) };
    let answer = told();
    // SAFETY: the same.
    unsafe { asm!("ldmxcsr [{}]", in(reg) &raw const before) };
    answer
}

/// Denormals-are-zero, each unmasked trap, each rounding mode and flush-to-zero are told; flags that
/// operations raised are not.
#[test]
fn every_change_is_told() {
    assert!(environment_is_default());
    for bit in 6..16 {
        assert!(!under(0x1f80 ^ 1 << bit, environment_is_default), "bit {bit}");
    }
    assert!(!under(0x1f80 | 3 << 13, environment_is_default));
    assert!(under(0x1f80 | 0x3f, environment_is_default));
    assert!(environment_is_default());
    assert!(std::thread::spawn(environment_is_default).join().unwrap());
}

/// Another rounding mode gives other bits.
#[test]
fn rounding_changes_bits() {
    let x = || {
        let mut satellite = Satellite::open(LINE1, LINE2).unwrap();
        satellite.at(Microseconds::from_minutes(360)).unwrap().position[0].to_bits()
    };
    let nearest = x();
    for mode in [1, 2, 3] {
        assert_ne!(under(0x1f80 | mode << 13, x), nearest, "mode {mode}");
    }
    assert_eq!(x(), nearest);
}
