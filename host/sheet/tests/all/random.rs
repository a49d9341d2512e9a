//! Numbers and sheets made from a seed.

use entry::{CODES, Index};

/// Splitmix64.
pub struct Random(pub u64);

impl Random {
    pub fn bits(&mut self) -> u64 {
        self.0 = self.0.wrapping_add(0x9e3779b97f4a7c15);
        let z = (self.0 ^ (self.0 >> 30)).wrapping_mul(0xbf58476d1ce4e5b9);
        let z = (z ^ (z >> 27)).wrapping_mul(0x94d049bb133111eb);
        z ^ (z >> 31)
    }

    fn below(&mut self, limit: usize) -> usize {
        (self.bits() % limit as u64) as usize
    }

    /// Any number; one in four has all bits of its exponent set or none, so that it is no normal number.
    fn put_numbers(&mut self, bytes: &mut Vec<u8>, count: usize) {
        const EXPONENT: u64 = 0x7ff0000000000000;
        for _ in 0..count {
            let bits = self.bits();
            let bits =
                [bits, (bits as i32 as f64 / 1024.0).to_bits(), bits | EXPONENT, bits & !EXPONENT][self.below(4)];
            bytes.extend(bits.to_le_bytes());
        }
    }

    fn put_task(&mut self, bytes: &mut Vec<u8>, directions: usize, exponents: usize) {
        let (code, indices) = loop {
            let code = self.below(CODES.len());
            match CODES[code].1 {
                Index::Zero => break (code, 1),
                Index::Exponent if exponents > 0 => break (code, exponents),
                Index::Direction if directions > 0 => break (code, directions),
                _ => {}
            }
        };
        bytes.extend([code as u8, self.below(indices) as u8]);
    }

    /// A sheet that is accepted.
    pub fn sheet(&mut self) -> Vec<u8> {
        let (order, directions, exponents, tasks) =
            (1 + self.below(8), self.below(9), self.below(9), 1 + self.below(16));
        let mut bytes = vec![order as u8];
        self.put_numbers(&mut bytes, order * order);
        bytes.push(directions as u8);
        self.put_numbers(&mut bytes, directions * order * order);
        bytes.push(exponents as u8);
        self.put_numbers(&mut bytes, exponents);
        bytes.push(tasks as u8);
        for _ in 0..tasks {
            self.put_task(&mut bytes, directions, exponents);
        }
        bytes
    }
}
