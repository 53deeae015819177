// Random arguments of the words `sincs`, `window`, `cosine` and `sine`: ordinary ones, at the ends, and those
// that must be refused.
use crate::random::Random;
use crate::words::window;
use rubato::calculate_cutoff;

// The most entries of a table, and the most points of a window.
pub const LARGEST: usize = 65_536;
// Steps of the wave are below this in size: 2^52.
pub const LIMIT: f64 = 4_503_599_627_370_496.0;

// The crate takes an f32. A double that is none is for the port alone.
pub enum Cutoff {
    Single(f32),
    Double(f64),
}

impl Cutoff {
    pub fn double(&self) -> f64 {
        match *self {
            Cutoff::Single(x) => x as f64,
            Cutoff::Double(x) => x,
        }
    }
}

// A number up to `most`, small ones as often as large ones.
pub fn size(random: &mut Random, most: usize) -> usize {
    ((most as f64 + 1.0).powf(random.unit()) as usize).clamp(1, most)
}

// Points and factor whose product is 2 to 65,536.
pub fn shape(random: &mut Random) -> (usize, usize) {
    let (points, factor) = match random.below(12) {
        0 => (1, size(random, LARGEST)),
        1 => (size(random, LARGEST), 1),
        2 => {
            let a = random.below(17);
            (1 << a, 1 << random.below(17 - a))
        }
        3 => {
            let points = size(random, LARGEST);
            (points, LARGEST / points)
        }
        4 => {
            let factor = size(random, LARGEST);
            (LARGEST / factor, factor)
        }
        5 => (1 + random.below(8), 1 + random.below(8)),
        6 | 7 => (random.pick(&[8, 16, 24, 32, 48, 64, 96, 128, 192, 256]), random.pick(&[3, 16, 32, 64, 96, 128, 147, 160, 256])),
        8 => (size(random, 255) | 1, size(random, 255) | 1),
        _ => {
            let points = size(random, LARGEST);
            (points, size(random, LARGEST / points))
        }
    };
    if points * factor < 2 {
        (2, 1)
    } else {
        (points, factor)
    }
}

pub fn cutoff(random: &mut Random, points: usize, factor: usize, name: &str) -> Cutoff {
    let single = match random.below(12) {
        0 => 1.0,
        1 => random.pick(&[1e-12, 1e-20, 1e-38, 1e-40, f32::from_bits(1), f32::MIN_POSITIVE, f32::from_bits(0x3f7f_ffff), 0.5]),
        // f32 subnormals
        2 => f32::from_bits(1 + random.below((1 << 23) - 1) as u32),
        // of any size
        3 => f32::from_bits(1 + random.below(0x3f80_0000) as u32),
        // some place stands near 2^-27, where sinc begins to be 1
        4 => {
            let place = 1 + random.below((points * factor / 2).max(1));
            let v = f64::powi(2.0, -27) * (0.5 + random.unit());
            (v * factor as f64 / place as f64).min(1.0) as f32
        }
        5 | 6 => calculate_cutoff::<f32>(points, window(name)),
        7 => {
            let some = [calculate_cutoff::<f64>(points, window(name)), 1e-300, 5e-324, 0.9999999999999999, 1.0 - random.unit()];
            return Cutoff::Double(random.pick(&some));
        }
        _ => 1.0 - random.unit() as f32,
    };
    Cutoff::Single(if single > 0.0 { single } else { 1.0 })
}

// Steps of the wave, |k| below 2^52.
pub fn steps(random: &mut Random) -> f64 {
    let k = match random.below(10) {
        0 => random.below(8193) as f64 - 4096.0,
        1 => random.below(8192) as f64 - 4095.5,
        2 => {
            let k = random.below(8193) as f64 - 4096.0;
            random.near(k)
        }
        // whole numbers and fractions of all sizes
        3 => LIMIT.powf(random.unit()).floor(),
        4 => LIMIT.powf(random.unit()),
        // small ones, of all sizes
        5 => f64::powf(2.0, -100.0 * random.unit()),
        6 => f64::powf(2.0, -1074.0 * random.unit()),
        7 => random.pick(&[0.0, 5e-324, f64::MIN_POSITIVE, 1.0, 1024.0, f64::from_bits(LIMIT.to_bits() - 1), LIMIT / 2.0, f64::powi(2.0, -16), f64::powi(2.0, -53)]),
        _ => 4096.0 * random.unit(),
    };
    if !(k.abs() < LIMIT) {
        return 0.0;
    }
    if random.one_in(2) {
        -k
    } else {
        k
    }
}

// Any number of points or a factor: at the ends, and those whose product wraps.
pub fn any_size(random: &mut Random) -> u64 {
    match random.below(6) {
        0 => random.pick(&[0, 1, 2, 3, 255, 256, 257, 65_535, 65_536, 65_537]),
        1 => 1 << random.below(64),
        2 => (1u64 << random.below(64)).wrapping_add(random.pick(&[1, 2, u64::MAX])),
        3 => random.pick(&[u64::MAX, u64::MAX - 1, 1 << 63, (1 << 63) + 1, 1 << 32, (1 << 32) + 1]),
        4 => random.word() >> random.below(64),
        _ => 1 + random.below(20) as u64,
    }
}

// The number whose product with an odd one is 1, modulo 2^64.
fn inverse(odd: u64) -> u64 {
    let mut x = odd;
    for _ in 0..6 {
        x = x.wrapping_mul(2u64.wrapping_sub(odd.wrapping_mul(x)));
    }
    x
}

// A pair whose product is a good size once it is cut to 64 bits, or, now and then, to 32.
pub fn wrapping(random: &mut Random) -> (u64, u64) {
    let points = random.word() | 1;
    let product = 2 + random.below(300) as u64;
    let factor = inverse(points).wrapping_mul(product);
    if random.one_in(4) {
        (points & 0xffff_ffff, factor & 0xffff_ffff)
    } else {
        (points, factor)
    }
}

pub fn any_cutoff(random: &mut Random) -> f64 {
    match random.below(4) {
        0 => random.pick(&[0.0, -0.0, -5e-324, -1.0, 2.0, 1.0000000000000002, f64::INFINITY, f64::NEG_INFINITY, f64::NAN, f64::MAX]),
        1 => random.pick(&[5e-324, f64::MIN_POSITIVE, 1.0, 0.9999999999999999]),
        2 => f64::from_bits(random.word()),
        _ => 1.0 - random.unit(),
    }
}

// Any number of steps, most of them too large.
pub fn any_steps(random: &mut Random) -> f64 {
    match random.below(3) {
        0 => random.pick(&[f64::NAN, f64::INFINITY, f64::NEG_INFINITY, LIMIT, -LIMIT, f64::MAX, f64::MIN]),
        1 => {
            let end = random.pick(&[LIMIT, -LIMIT]);
            random.near(end)
        }
        _ => f64::from_bits(random.word()),
    }
}
