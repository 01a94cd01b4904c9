//! What the tests share. Not every one of them needs all of it.
#![allow(dead_code)]

use fermion::{Record, Refusal};

/// The specification's whole example: {0|0} - {1|1} on 2 modes.
#[rustfmt::skip]
pub const EXAMPLE: [u8; 80] = [
    1, 0, 0, 0, 2, 0, 0, 0, 2, 0, 0, 0, 32, 0, 0, 0, 48, 0, 0, 0, 64, 0, 0, 0, 80, 0, 0, 0, 0, 0, 0, 0,
    1, 0, 0, 0, 0, 0, 0, 0, 2, 0, 0, 0, 0, 0, 0, 0, 1, 0, 0, 0, 0, 0, 0, 0, 2, 0, 0, 0, 0, 0, 0, 0,
    1, 0, 0, 0, 0, 0, 0, 0, 255, 255, 255, 255, 255, 255, 255, 255,
];

/// A record of one term.
pub fn one(modes: u64, cre: u64, ann: u64, coeff: i64) -> Record<'static> {
    Record::build(modes, [(cre, ann, coeff)]).unwrap()
}

/// The three numbers of a call that must be refused.
pub fn refusal<T>(answer: Result<T, Refusal>) -> (u64, u64, u64) {
    let refusal = answer.err().expect("refused");
    (refusal.number, refusal.operand, refusal.place)
}

/// Numbers that look drawn and are the same in every run: the generator splitmix64.
pub struct Draw(pub u64);

impl Draw {
    pub fn number(&mut self) -> u64 {
        self.0 = self.0.wrapping_add(0x9E37_79B9_7F4A_7C15);
        let z = (self.0 ^ self.0 >> 30).wrapping_mul(0xBF58_476D_1CE4_E5B9);
        let z = (z ^ z >> 27).wrapping_mul(0x94D0_49BB_1331_11EB);
        z ^ z >> 31
    }

    /// A number below another.
    pub fn below(&mut self, end: u64) -> u64 {
        self.number() % end
    }
}
