// The crate's part of tests/cost: reads what crates/cost/src/main.rt reads, runs as many blocks of the same
// record on the same signal, and prints the same line. A sinc's table is the crate's own here, so that only
// the sizes of its line are the same.
//
// Input and output are one flat area each, a channel after the other, as the port's are. Input is copied by
// slices, and a sample is written with no test of its place.
//
// C's `main`: what Rust does before its own `main` asks for /proc/self/maps, on which some emulators fail.
#![no_main]
use audioadapter::{Adapter, AdapterMut};
use rubato::{Async, FixedAsync, PolynomialDegree, Resampler};
use rubato::{SincInterpolationParameters, SincInterpolationType, WindowFunction};
use std::io::Read;

struct Flat {
    data: Vec<f64>,
    channels: usize,
    frames: usize,
}

impl Adapter<f64> for Flat {
    fn channels(&self) -> usize {
        self.channels
    }

    fn frames(&self) -> usize {
        self.frames
    }

    fn read_sample(&self, channel: usize, frame: usize) -> Option<f64> {
        if channel >= self.channels || frame >= self.frames {
            return None;
        }
        Some(self.data[channel * self.frames + frame])
    }

    fn copy_from_channel_to_slice(&self, channel: usize, skip: usize, slice: &mut [f64]) -> usize {
        if channel >= self.channels || skip >= self.frames {
            return 0;
        }
        let n = (self.frames - skip).min(slice.len());
        let at = channel * self.frames + skip;
        slice[..n].copy_from_slice(&self.data[at..at + n]);
        n
    }
}

impl AdapterMut<f64> for Flat {
    fn write_sample(&mut self, channel: usize, frame: usize, value: &f64) -> Option<bool> {
        if channel >= self.channels || frame >= self.frames {
            return None;
        }
        self.data[channel * self.frames + frame] = *value;
        Some(false)
    }

    unsafe fn write_sample_unchecked(&mut self, channel: usize, frame: usize, value: &f64) -> bool {
        let at = channel * self.frames + frame;
        *self.data.get_unchecked_mut(at) = *value;
        false
    }
}

fn sample(k: usize) -> f64 {
    (k % 101 * 37 % 101) as f64 / 101.0 - 0.5
}

fn polynomial(l: usize, chunk: usize, channels: usize) -> Async<f64> {
    let degree = match l {
        1 => PolynomialDegree::Nearest,
        2 => PolynomialDegree::Linear,
        4 => PolynomialDegree::Cubic,
        6 => PolynomialDegree::Quintic,
        _ => PolynomialDegree::Septic,
    };
    Async::new_poly(0.9, 1.1, degree, chunk, channels, FixedAsync::Output).unwrap()
}

fn sinc(points: usize, factor: usize, blend: usize, chunk: usize, channels: usize) -> Async<f64> {
    let interpolation = match blend {
        1 => SincInterpolationType::Nearest,
        2 => SincInterpolationType::Linear,
        3 => SincInterpolationType::Quadratic,
        _ => SincInterpolationType::Cubic,
    };
    let parameters = SincInterpolationParameters {
        sinc_len: points,
        f_cutoff: Some(0.95),
        oversampling_factor: factor,
        interpolation,
        window: WindowFunction::BlackmanHarris2,
    };
    Async::new_sinc(0.9, 1.1, &parameters, chunk, channels, FixedAsync::Output).unwrap()
}

#[no_mangle]
pub extern "C" fn main() -> i32 {
    let mut text = String::new();
    std::io::stdin().read_to_string(&mut text).unwrap();
    let n: Vec<usize> = text.split_whitespace().map(|word| word.parse().unwrap()).collect();
    let [l, points, factor, blend, channels, chunk, blocks] = n[..] else {
        eprintln!("seven numbers are wanted");
        return 1;
    };
    let mut r = match l {
        0 => sinc(points, factor, blend, chunk, channels),
        _ => polynomial(l, chunk, channels),
    };
    let share = r.input_frames_max() + 2 * if l == 0 { points } else { l };
    let input = Flat { data: (0..channels * share).map(sample).collect(), channels, frames: share };
    let mut output = Flat { data: vec![0.0; channels * chunk], channels, frames: chunk };
    for _ in 0..blocks {
        r.process_into_buffer(&input, &mut output, None).unwrap();
    }
    let (mut first, mut second) = (0u64, 0u64);
    for x in &output.data {
        first = first.wrapping_add(x.to_bits());
        second = second.wrapping_add(first);
    }
    println!("{} {} {first:016x}{second:016x}", r.input_frames_next(), r.output_frames_next());
    0
}
