use crate::Rng;

const SIGN: u32 = 1 << 31;

/// Single-precision numbers without their sign.
const MAGNITUDES: [u32; 68] = [
    0x0000_0000,
    // Subnormal.
    0x0000_0001,
    0x0000_0002,
    0x0000_0003,
    0x0012_3456,
    0x0040_0000,
    0x0055_5555,
    0x007F_FFFE,
    0x007F_FFFF,
    // The smallest normal ones.
    0x0080_0000,
    0x0080_0001,
    0x00FF_FFFF,
    0x0100_0000,
    0x0100_0001,
    // At 2^-25, 2^-24 and 2^-23, which make ties with numbers at 1.
    0x32FF_FFFF,
    0x3300_0000,
    0x3300_0001,
    0x337F_FFFF,
    0x3380_0000,
    0x3380_0001,
    0x33FF_FFFF,
    0x3400_0000,
    0x3400_0001,
    // At 0.1, 0.5, 1, 2 and pi.
    0x3DCC_CCCD,
    0x3EFF_FFFF,
    0x3F00_0000,
    0x3F00_0001,
    0x3F7F_FFFE,
    0x3F7F_FFFF,
    0x3F80_0000,
    0x3F80_0001,
    0x3F80_0002,
    0x3F80_0003,
    0x3FC0_0000,
    0x3FFF_FFFF,
    0x4000_0000,
    0x4000_0001,
    0x4049_0FDB,
    // At 2^23, 2^24 and 2^25, which make ties with them too.
    0x4AFF_FFFF,
    0x4B00_0000,
    0x4B00_0001,
    0x4B7F_FFFF,
    0x4B80_0000,
    0x4B80_0001,
    0x4BFF_FFFF,
    0x4C00_0000,
    0x4C00_0001,
    // At 2^103 and 2^104, half the last distance and all of it; the largest ones.
    0x72FF_FFFF,
    0x7300_0000,
    0x7300_0001,
    0x737F_FFFF,
    0x7380_0000,
    0x7380_0001,
    0x7EFF_FFFF,
    0x7F00_0000,
    0x7F00_0001,
    0x7F7F_FFFE,
    0x7F7F_FFFF,
    // Infinity.
    0x7F80_0000,
    // Signalling and quiet not-a-numbers.
    0x7F80_0001,
    0x7FA5_A5A5,
    0x7FBF_FFFF,
    0x7FC0_0000,
    0x7FC0_0001,
    0x7FCA_FE00,
    0x7FE0_0000,
    0x7FFF_FFFE,
    0x7FFF_FFFF,
];

/// Single-precision numbers of every class, with both signs.
pub fn numbers() -> Vec<u32> {
    MAGNITUDES.iter().flat_map(|magnitude| [*magnitude, magnitude | SIGN]).collect()
}

/// One of these, a small integer, 0 or any bits.
pub fn number(rng: &mut Rng) -> u32 {
    match rng.below(5) {
        0 => 0,
        1 => rng.below(40) as u32,
        2 => rng.bits() as u32,
        _ => rng.pick(&MAGNITUDES) | rng.bits() as u32 & SIGN,
    }
}

/// Two normal numbers whose sum is, more often than not, half way between two others or next to
/// that.
pub fn near_tie(rng: &mut Rng) -> [u32; 2] {
    let exponent = 30 + rng.below(200) as u32;
    let apart = rng.below(27) as u32;
    // The last bit of the first number is worth 2^apart of the second's; its upper half is the tie.
    let low = (1_u32 << apart) >> 1;
    let fraction = rng.bits() as u32 & !(low << 1).wrapping_sub(1) | low;
    let nudged = fraction.wrapping_add(rng.pick(&[0, 0, 1, u32::MAX]));
    let first = exponent << 23 | rng.bits() as u32 >> 9 | rng.bits() as u32 & SIGN;
    let second = (exponent - apart) << 23 | nudged & 0x7F_FFFF | rng.bits() as u32 & SIGN;
    if rng.percent(50) { [first, second] } else { [second, first] }
}
