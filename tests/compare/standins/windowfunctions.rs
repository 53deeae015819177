// Stand-in for the crate windowfunctions, which is not in the source: the three windows that src/windows.rs
// asks for, periodic, by the formulas of crates/window_points/specs, in double precision with the machine's
// cosine.
use std::f64::consts::PI;

pub enum Symmetry {
    Periodic,
}

pub enum WindowFunction {
    Blackman,
    BlackmanHarris,
    Hann,
}

// Point i of n is a0 - a1*cos(2*pi*i/n) + a2*cos(4*pi*i/n) - a3*cos(6*pi*i/n).
pub fn window<T: From<f64>>(length: usize, kind: WindowFunction, symmetry: Symmetry) -> std::vec::IntoIter<T> {
    let Symmetry::Periodic = symmetry;
    let [a0, a1, a2, a3] = match kind {
        WindowFunction::Hann => [0.5, 0.5, 0.0, 0.0],
        WindowFunction::Blackman => [0.42, 0.5, 0.08, 0.0],
        WindowFunction::BlackmanHarris => [0.35875, 0.48829, 0.14128, 0.01168],
    };
    let point = |i: usize| {
        let angle = 2.0 * PI * i as f64 / length as f64;
        T::from(a0 - a1 * angle.cos() + a2 * (2.0 * angle).cos() - a3 * (3.0 * angle).cos())
    };
    (0..length).map(point).collect::<Vec<T>>().into_iter()
}
