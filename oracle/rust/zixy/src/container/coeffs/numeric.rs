//! Shim: `f64` and `Complex64` as coefficients. zixy's own file is not among the 37; this one was
//! written from the traits in `coeffs/traits.rs`.
use crate::container::coeffs::traits::*;
use crate::container::traits::{Elements, NewWithLen};
use num_complex::Complex64;

impl<T> Elements for Vec<T> {
    fn len(&self) -> usize {
        Vec::len(self)
    }
}
impl<T: Default + Clone> NewWithLen for Vec<T> {
    fn new_with_len(n: usize) -> Self {
        vec![T::default(); n]
    }
}
macro_rules! vecs {
    ($t: ty, $variant: ident) => {
        impl From<$t> for AnyNumRepr {
            fn from(v: $t) -> Self {
                Self::$variant(v)
            }
        }
        impl Signed for $t {}
        impl NewUnitsWithLen for Vec<$t> {
            fn new_units_with_len(n: usize) -> Self {
                vec![<$t as NumRepr>::ONE; n]
            }
        }
        impl NumReprVec for Vec<$t> {
            type Element = $t;
            fn get_unchecked(&self, index: usize) -> $t {
                self[index]
            }
            fn set_unchecked(&mut self, index: usize, value: $t) {
                self[index] = value;
            }
            fn push_default(&mut self) {
                Vec::push(self, <$t>::default());
            }
            fn resize(&mut self, n: usize) {
                Vec::resize(self, n, <$t>::default());
            }
        }
    };
}
vecs!(f64, Real);
vecs!(Complex64, Complex);

impl NumRepr for f64 {
    type Vector = Vec<f64>;
    const ONE: Self = 1.0;
    fn try_represent_any(value: AnyNumRepr) -> Result<Self, Unrepresentable> {
        match value {
            AnyNumRepr::Unity(_) => Ok(1.0),
            AnyNumRepr::Sign(x) => Ok(if x.0 { -1.0 } else { 1.0 }),
            AnyNumRepr::ComplexSign(x) if x.0 & 1 == 0 => Ok(if x.0 & 2 == 2 { -1.0 } else { 1.0 }),
            AnyNumRepr::ComplexSign(x) => Err(Unrepresentable::new::<Self, _>(&x)),
            AnyNumRepr::Whole(x) => Ok(x as f64),
            AnyNumRepr::Real(x) => Ok(x),
            AnyNumRepr::Complex(x) if x.im == 0.0 => Ok(x.re),
            AnyNumRepr::Complex(x) => Err(Unrepresentable::new::<Self, _>(&x)),
        }
    }
    fn ipow(&mut self, exp: i32) {
        *self = self.powi(exp);
    }
    fn parse(s: &str) -> Result<Self, Unrepresentable> {
        s.trim()
            .parse()
            .map_err(|_| Unrepresentable::new::<Self, _>(&s))
    }
}
impl NumRepr for Complex64 {
    type Vector = Vec<Complex64>;
    const ONE: Self = Complex64::new(1.0, 0.0);
    fn conj(&self) -> Self {
        Complex64::new(self.re, -self.im)
    }
    fn try_represent_any(value: AnyNumRepr) -> Result<Self, Unrepresentable> {
        Ok(match value {
            AnyNumRepr::Complex(x) => x,
            AnyNumRepr::ComplexSign(x) => [(1.0, 0.0), (0.0, 1.0), (-1.0, 0.0), (0.0, -1.0)]
                .map(|(a, b)| Complex64::new(a, b))[(x.0 & 3) as usize],
            other => Complex64::new(f64::try_represent_any(other)?, 0.0),
        })
    }
    fn ipow(&mut self, exp: i32) {
        *self = self.powi(exp);
    }
    fn parse(s: &str) -> Result<Self, Unrepresentable> {
        s.trim()
            .parse()
            .map_err(|_| Unrepresentable::new::<Self, _>(&s))
    }
}
impl FieldElem for f64 {
    const ZERO: Self = 0.0;
    const TWO: Self = 2.0;
    const HALF: Self = 0.5;
    const SQRT2: Self = std::f64::consts::SQRT_2;
    const ISQRT2: Self = std::f64::consts::FRAC_1_SQRT_2;
    fn scaled_complex(&self, complex: Complex64) -> Complex64 {
        complex * *self
    }
    fn real_part_is_significant(&self, atol: f64) -> bool {
        self.abs() > atol
    }
    fn imag_part_is_significant(&self, _atol: f64) -> bool {
        false
    }
    fn from_real(v: f64) -> Self {
        v
    }
    fn try_from_complex(v: Complex64) -> Result<Self, Unrepresentable> {
        Self::try_represent_any(v.into())
    }
    fn is_close(&self, other: Self, rtol: f64, atol: f64) -> bool {
        (self - other).abs() <= atol + rtol * other.abs()
    }
    fn magnitude(&self) -> f64 {
        self.abs()
    }
    fn complex_conj(&self) -> Self {
        *self
    }
    fn complex_part(v: Complex64) -> Self {
        v.re
    }
}
impl FieldElem for Complex64 {
    const ZERO: Self = Complex64::new(0.0, 0.0);
    const TWO: Self = Complex64::new(2.0, 0.0);
    const HALF: Self = Complex64::new(0.5, 0.0);
    const SQRT2: Self = Complex64::new(std::f64::consts::SQRT_2, 0.0);
    const ISQRT2: Self = Complex64::new(std::f64::consts::FRAC_1_SQRT_2, 0.0);
    fn scaled_complex(&self, complex: Complex64) -> Complex64 {
        complex * *self
    }
    fn real_part_is_significant(&self, atol: f64) -> bool {
        self.re.abs() > atol
    }
    fn imag_part_is_significant(&self, atol: f64) -> bool {
        self.im.abs() > atol
    }
    fn from_real(v: f64) -> Self {
        Complex64::new(v, 0.0)
    }
    fn try_from_complex(v: Complex64) -> Result<Self, Unrepresentable> {
        Ok(v)
    }
    fn is_close(&self, other: Self, rtol: f64, atol: f64) -> bool {
        (self - other).norm() <= atol + rtol * other.norm()
    }
    fn magnitude(&self) -> f64 {
        self.norm()
    }
    fn complex_conj(&self) -> Self {
        Complex64::new(self.re, -self.im)
    }
    fn complex_part(v: Complex64) -> Self {
        v
    }
}
