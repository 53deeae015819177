// The definitions of crates/quarter, wave, window_points and sincs, worked out a second time: the same
// operations in the same order. Of the port's files nothing is read; the quarter wave is made here, from
// whole numbers of 128 bits.

// The unit of the whole numbers that stand for angles and cosines: 2^-60.
const PLACES: u32 = 60;
// pi is worked out with so many places more.
const SPARE: u32 = 50;

// The angle whose tangent is 1/n.
fn inverse_tangent(n: i128) -> i128 {
    let (mut power, mut sum, mut k) = ((1 << (PLACES + SPARE)) / n, 0, 1);
    while power != 0 {
        sum += if k % 4 == 1 { power / k } else { -(power / k) };
        power /= n * n;
        k += 2;
    }
    sum
}

// The cosine by its Taylor series, of an angle up to a quarter of a turn. Some twenty terms, each cut by
// less than a few units, so it is good to 100 units.
fn cosine(angle: i128) -> i128 {
    let square = (angle * angle) >> PLACES;
    let (mut term, mut sum, mut k) = (1i128 << PLACES, 0, 0);
    while term != 0 {
        sum += if k % 4 == 0 { term } else { -term };
        k += 2;
        term = ((term * square) >> PLACES) / (k * (k - 1));
    }
    sum
}

pub struct Wave {
    entries: Vec<i64>,
    // the entry that comes nearest to a tie, and how far from it it stays
    pub nearest: (usize, f64),
}

impl Wave {
    // Entry k is 2^30*cos(k*pi/2048), rounded to the nearest whole number.
    pub fn new() -> Self {
        let pi = (16 * inverse_tangent(5) - 4 * inverse_tangent(239)) >> SPARE;
        let unit = 1i128 << (PLACES - 30);
        let mut wave = Wave { entries: vec![], nearest: (0, 0.5) };
        for k in 0..=1024 {
            let c = cosine(pi * k as i128 / 2048);
            let tie = (c.rem_euclid(unit) - unit / 2).abs();
            assert!(tie > 1000, "entry {k}: too near to a tie to be rounded here");
            let tie = tie as f64 / unit as f64;
            if tie < wave.nearest.1 {
                wave.nearest = (k, tie);
            }
            wave.entries.push(((c + unit / 2).div_euclid(unit)) as i64);
        }
        wave
    }

    // crates/wave/specs/Carried.antt: the wave at every whole number of steps, 4,096 to a turn.
    fn carried(&self, n: i64) -> i64 {
        let place = n.rem_euclid(4096) as usize;
        let r = place % 1024;
        match place / 1024 {
            0 => self.entries[r],
            1 => -self.entries[1024 - r],
            2 => -self.entries[r],
            _ => self.entries[1024 - r],
        }
    }

    // crates/wave/specs/Cosine.antt
    fn between(&self, n: i64, x: f64) -> f64 {
        let (a, b) = (self.carried(n) as f64, self.carried(n + 1) as f64);
        (a + x * (b - a)) * f64::from_bits(0x3e10_0000_0000_0000)
    }

    pub fn cosine(&self, k: f64) -> f64 {
        self.between(k.floor() as i64, k - k.floor())
    }

    pub fn sine(&self, k: f64) -> f64 {
        self.between(k.floor() as i64 - 1024, k - k.floor())
    }

    // crates/window_points/specs/Points.antt; the name is that of the call script, a square's ends with 2.
    fn point(&self, name: &str, i: usize, n: usize) -> f64 {
        let c = |h: usize| self.cosine((4096 * h * i) as f64 / n as f64);
        let y = match name.trim_end_matches('2') {
            "h" => 0.5 - 0.5 * c(1),
            "b" => 0.42 - 0.5 * c(1) + 0.08 * c(2),
            _ => 0.35875 - 0.48829 * c(1) + 0.14128 * c(2) - 0.01168 * c(3),
        };
        if name.ends_with('2') {
            y * y
        } else {
            y
        }
    }

    pub fn window(&self, n: usize, name: &str) -> Vec<f64> {
        (0..n).map(|i| self.point(name, i, n)).collect()
    }

    // crates/sincs/specs/Sinc.antt
    fn sinc(&self, v: f64) -> f64 {
        let tiny = f64::from_bits(0x3e40_0000_0000_0000);
        if -tiny < v && v < tiny {
            1.0
        } else {
            self.sine(2048.0 * v) / (v * f64::from_bits(0x4009_21fb_5444_2d18))
        }
    }

    // crates/sincs/specs/Table.antt
    pub fn sincs(&self, points: usize, factor: usize, cutoff: f64, name: &str) -> Vec<f64> {
        let total = points * factor;
        let place = |x: usize| (x as f64 - (total / 2) as f64) * cutoff / factor as f64;
        let values: Vec<f64> = (0..total).map(|x| self.point(name, x, total) * self.sinc(place(x))).collect();
        let sum = values.iter().fold(0.0, |sum, v| sum + v) / factor as f64;
        let entry = |j: usize| values[factor * (j % points) + (factor - 1 - j / points)] / sum;
        (0..total).map(entry).collect()
    }
}
