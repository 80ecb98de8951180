//! What is left of libm once the trigonometry is lent: the correctly rounded square root.

pub fn sqrt(x: f64) -> f64 {
    x.sqrt()
}
