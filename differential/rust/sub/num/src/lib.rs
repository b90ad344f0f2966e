//! Stands for the part of `num` that the published files name.

pub use complex::Complex;
pub use traits::{Num, One, PrimInt, ToPrimitive, Zero};

pub mod traits {
    use std::ops::{Add, BitAnd, Div, Mul, Shr, Sub};

    pub trait Zero: Sized + Add<Output = Self> {
        fn zero() -> Self;
    }
    pub trait One: Sized + Mul<Output = Self> {
        fn one() -> Self;
    }
    pub trait Num: PartialEq + Zero + One + Sub<Output = Self> + Div<Output = Self> {}
    /// Only named as a bound.
    pub trait ToPrimitive {}
    pub trait PrimInt: Num + Copy + BitAnd<Output = Self> + Shr<usize, Output = Self> {}

    macro_rules! numbers {
        ($($t:ty)*) => {$(
            impl Zero for $t { fn zero() -> Self { 0 as $t } }
            impl One for $t { fn one() -> Self { 1 as $t } }
            impl Num for $t {}
            impl ToPrimitive for $t {}
        )*};
    }
    numbers!(u64 f64);
    impl PrimInt for u64 {}
}

pub mod complex {
    use super::traits::{Num, One};
    use std::ops::{AddAssign, Mul, MulAssign, Sub};

    #[derive(Clone, Copy, PartialEq, Debug)]
    pub struct Complex<T> {
        pub re: T,
        pub im: T,
    }
    pub type Complex64 = Complex<f64>;

    /// Only named as a bound.
    pub trait ComplexFloat {}
    impl ComplexFloat for Complex64 {}

    impl<T: Clone + Num> Complex<T> {
        /// re² + im², each operation rounded once.
        pub fn norm_sqr(&self) -> T {
            self.re.clone() * self.re.clone() + self.im.clone() * self.im.clone()
        }
    }
    impl<T: Num> Sub for Complex<T> {
        type Output = Self;
        fn sub(self, o: Self) -> Self {
            Complex { re: self.re - o.re, im: self.im - o.im }
        }
    }
    impl<T: Num> One for Complex<T>
    where
        Complex<T>: Mul<Output = Self>,
    {
        fn one() -> Self {
            Complex { re: T::one(), im: T::zero() }
        }
    }

    // Bounds of the published functions, which use none of the three.
    impl<T> Mul for Complex<T> {
        type Output = Self;
        fn mul(self, _: Self) -> Self {
            unreachable!()
        }
    }
    impl<T> AddAssign for Complex<T> {
        fn add_assign(&mut self, _: Self) {
            unreachable!()
        }
    }
    impl<T> MulAssign for Complex<T> {
        fn mul_assign(&mut self, _: Self) {
            unreachable!()
        }
    }
}
