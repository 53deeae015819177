// Bits, areas and names, as docs/CALLS.md writes them.
use rubato::{FixedAsync, PolynomialDegree, WindowFunction};

pub fn hex(x: f64) -> String {
    if x.is_nan() {
        "7ff8000000000000".into()
    } else {
        format!("{:016x}", x.to_bits())
    }
}

pub fn area(xs: &[f64]) -> String {
    if xs.is_empty() {
        return "-".into();
    }
    xs.iter().map(|x| hex(*x)).collect()
}

pub fn float(word: &str) -> f64 {
    f64::from_bits(u64::from_str_radix(word, 16).expect("16 hex digits"))
}

pub fn floats(word: &str) -> Vec<f64> {
    if word == "-" {
        return vec![];
    }
    (0..word.len() / 16).map(|k| float(&word[16 * k..16 * k + 16])).collect()
}

pub fn degree(points: usize) -> PolynomialDegree {
    match points {
        1 => PolynomialDegree::Nearest,
        2 => PolynomialDegree::Linear,
        4 => PolynomialDegree::Cubic,
        6 => PolynomialDegree::Quintic,
        _ => PolynomialDegree::Septic,
    }
}

pub fn side(word: &str) -> FixedAsync {
    if word == "in" {
        FixedAsync::Input
    } else {
        FixedAsync::Output
    }
}

pub fn window(word: &str) -> WindowFunction {
    match word {
        "bh" => WindowFunction::BlackmanHarris,
        "bh2" => WindowFunction::BlackmanHarris2,
        "b" => WindowFunction::Blackman,
        "b2" => WindowFunction::Blackman2,
        "h" => WindowFunction::Hann,
        _ => WindowFunction::Hann2,
    }
}
