//! The arithmetic of IEEE 754 binary32 in whole numbers, with no float of the machine's. A number is given by its bits, and is finite.
//! Each operation is carried out exactly and then rounded once: to the nearest number, and half-way between two to the one whose last bit
//! is 0.

/// The bit of a negative number.
const SIGN: u32 = 0x8000_0000;

/// The bits of infinity, to which is rounded what is too large.
const INFINITY: u32 = 0x7f80_0000;

/// How many bits of a number are kept.
const KEPT: i32 = 24;

/// The power of two that the last bit of the smallest numbers stands for.
const LEAST: i32 = -149;

/// How many bits behind a number's own are looked at, more than enough to round it.
const FAR: i32 = 64;

/// More bits than the parts of any number here have.
const MANY: i32 = 127;

/// A number before it is rounded: so many parts, each of them two to a power.
#[derive(Clone, Copy)]
struct Exact {
    negative: bool,
    parts: u128,
    power: i32,
}

impl Exact {
    /// The number of these bits. The smallest numbers have no leading 1 and share the power of the next larger ones.
    fn of(bits: u32) -> Exact {
        let (exponent, fraction) = (bits >> 23 & 0xff, bits & 0x007f_ffff);
        let parts = if exponent == 0 { fraction } else { fraction | 0x0080_0000 };
        Exact { negative: bits & SIGN != 0, parts: parts.into(), power: LEAST - 1 + exponent.max(1) as i32 }
    }

    /// The parts with the number's sign.
    fn signed(self) -> i128 {
        let parts = self.parts as i128;
        if self.negative { -parts } else { parts }
    }

    /// The bits of the nearest number. The leading 1 of the kept bits, which all but the smallest numbers have, counts as 1 in the exponent
    /// above them, and so does a carry out of them.
    fn rounded(self) -> u32 {
        let sign = if self.negative { SIGN } else { 0 };
        if self.parts == 0 {
            return sign;
        }
        let length = (u128::BITS - self.parts.leading_zeros()) as i32;
        let last = (self.power + length - KEPT).max(LEAST);
        let cut = last - self.power;
        let kept = if cut > 0 { nearest(self.parts, cut.min(MANY)) } else { self.parts << -cut };
        let exponent = ((last - LEAST) as u32) << 23;
        sign | (exponent + kept as u32).min(INFINITY)
    }
}

/// The parts, rounded to leave out so many bits at their end, at least one.
fn nearest(parts: u128, cut: i32) -> u128 {
    let (kept, half) = (parts >> cut, 1 << (cut - 1));
    let rest = parts - (kept << cut);
    let up = rest > half || rest == half && kept % 2 == 1;
    kept + u128::from(up)
}

/// A whole number, exactly up to 16,777,216.
pub fn whole(number: u32) -> u32 {
    Exact { negative: false, parts: number.into(), power: 0 }.rounded()
}

/// `x + y`, which is -0 only where both are. A number that is far below the other one changes nothing.
pub fn sum(x: u32, y: u32) -> u32 {
    let (x, y) = (Exact::of(x), Exact::of(y));
    let (high, low) = if x.power >= y.power { (x, y) } else { (y, x) };
    let apart = high.power - low.power;
    if apart > FAR {
        return high.rounded();
    }
    let total = (high.signed() << apart) + low.signed();
    let negative = total < 0 || x.negative && y.negative;
    Exact { negative, parts: total.unsigned_abs(), power: low.power }.rounded()
}

/// `x - y`.
pub fn difference(x: u32, y: u32) -> u32 {
    sum(x, y ^ SIGN)
}

/// `x * y`.
pub fn product(x: u32, y: u32) -> u32 {
    let (x, y) = (Exact::of(x), Exact::of(y));
    Exact { negative: x.negative != y.negative, parts: x.parts * y.parts, power: x.power + y.power }.rounded()
}

/// `x / y`, where `y` is not 0. Of what is left over it only matters whether there is any, which a last bit tells.
pub fn quotient(x: u32, y: u32) -> u32 {
    let (x, y) = (Exact::of(x), Exact::of(y));
    let divided = x.parts << FAR;
    let (times, left) = (divided / y.parts, divided % y.parts);
    let parts = 2 * times + u128::from(left > 0);
    Exact { negative: x.negative != y.negative, parts, power: x.power - y.power - FAR - 1 }.rounded()
}
