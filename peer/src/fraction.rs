//! Fractions of whole numbers, exact. Whoever uses them sees to it that i128 is wide enough.

use std::ops::{Add, Div, Mul, Sub};

/// A fraction in lowest terms with `under` above zero: equal fractions have equal parts.
#[derive(Clone, Copy, Debug, PartialEq, Eq)]
pub struct Fraction {
    pub over: i128,
    pub under: i128,
}

impl Fraction {
    /// The fraction `over` / `under`, which is not zero.
    pub fn of(over: i128, under: i128) -> Fraction {
        let by = common_divisor(over, under) * under.signum();
        Fraction { over: over / by, under: under / by }
    }

    pub fn whole(number: i64) -> Fraction {
        Fraction { over: i128::from(number), under: 1 }
    }
}

/// The greatest common divisor, above zero if one of the two is not zero.
fn common_divisor(a: i128, b: i128) -> i128 {
    if b == 0 {
        a.abs()
    } else {
        common_divisor(b, a % b)
    }
}

impl Add for Fraction {
    type Output = Fraction;

    fn add(self, other: Fraction) -> Fraction {
        let over = self.over * other.under + other.over * self.under;
        Fraction::of(over, self.under * other.under)
    }
}

impl Sub for Fraction {
    type Output = Fraction;

    fn sub(self, other: Fraction) -> Fraction {
        self + Fraction { over: -other.over, ..other }
    }
}

impl Mul for Fraction {
    type Output = Fraction;

    fn mul(self, other: Fraction) -> Fraction {
        Fraction::of(self.over * other.over, self.under * other.under)
    }
}

/// By a fraction that is not zero.
impl Div for Fraction {
    type Output = Fraction;

    fn div(self, other: Fraction) -> Fraction {
        Fraction::of(self.over * other.under, self.under * other.over)
    }
}
