// The crate's src/asynchro.rs, unchanged, with a window to its private fields and to the crate's
// private leaves, for the comparison.
include!(concat!(env!("CRATE_SRC"), "/asynchro.rs"));

/// The fields of the crate's resampler that the port keeps in its record.
#[derive(Clone, Debug, Default)]
pub struct Fields {
    pub channels: usize,
    pub chunk: usize,
    pub chunk0: usize,
    pub input: usize,
    pub output: usize,
    pub index: f64,
    pub fill: usize,
    pub current: f64,
    pub original: f64,
    pub target: f64,
    pub m: f64,
}

impl Async<f64> {
    /// No fields yet: the type has no name outside the crate.
    pub fn no_fields() -> Fields {
        Fields::default()
    }

    pub fn fields(&self) -> Fields {
        Fields {
            channels: self.nbr_channels,
            chunk: self.chunk_size,
            chunk0: self.max_chunk_size,
            input: self.needed_input_size,
            output: self.needed_output_size,
            index: self.last_index,
            fill: self.current_buffer_fill,
            current: self.resample_ratio,
            original: self.resample_ratio_original,
            target: self.target_ratio,
            m: self.max_relative_ratio,
        }
    }

    /// A resampler with any record in it; the buffer is zeros of the length that construction gives.
    pub fn with_fields(f: &Fields, degree: PolynomialDegree, fixed: FixedAsync) -> Self {
        Self::with_inner(f, Box::new(InnerPoly { interpolation: degree, _phantom: PhantomData }), fixed)
    }

    /// The same with the crate's own sinc run; `plain` is its interpolator without vectors, else it is the
    /// one that the crate picks on this machine. The points are a multiple of 8.
    #[allow(clippy::too_many_arguments)]
    pub fn sinc_with_fields(
        f: &Fields,
        points: usize,
        factor: usize,
        cutoff: f32,
        window: crate::WindowFunction,
        blend: SincInterpolationType,
        fixed: FixedAsync,
        plain: bool,
    ) -> Self {
        let interpolator = if plain {
            let scalar = crate::sinc_interpolator::ScalarInterpolator::new(points, factor, cutoff, window);
            AnyInterpolator::Scalar(scalar)
        } else {
            make_interpolator(points, 1.0, Some(cutoff), factor, window)
        };
        Self::with_inner(f, Box::new(InnerSinc::new(interpolator, blend)), fixed)
    }

    fn with_inner(f: &Fields, inner: Box<dyn InnerResampler<f64>>, fixed: FixedAsync) -> Self {
        let points = inner.nbr_points();
        let length =
            Self::calculate_max_input_size(f.chunk0, f.original, f.m, points, &fixed) + 2 * points;
        Async {
            nbr_channels: f.channels,
            chunk_size: f.chunk,
            max_chunk_size: f.chunk0,
            needed_input_size: f.input,
            needed_output_size: f.output,
            last_index: f.index,
            current_buffer_fill: f.fill,
            resample_ratio: f.current,
            resample_ratio_original: f.original,
            target_ratio: f.target,
            max_relative_ratio: f.m,
            buffer: vec![vec![0.0; length]; f.channels],
            inner_resampler: inner,
            channel_mask: vec![true; f.channels],
            fixed,
            sinc_cutoff: None,
        }
    }

    /// Sizes worked out again, as at the end of every call of the crate's own.
    pub fn sizes_again(&mut self) {
        self.update_lengths();
    }

    pub fn work(&self) -> &[Vec<f64>] {
        &self.buffer
    }

    pub fn set_work(&mut self, area: &[f64]) {
        let stride = self.buffer[0].len();
        for (c, part) in self.buffer.iter_mut().enumerate() {
            part.copy_from_slice(&area[c * stride..(c + 1) * stride]);
        }
    }
}


impl Async<f64> {
    pub fn kernel(points: usize, x: f64, ys: &[f64]) -> f64 {
        use crate::asynchro_fast as fast;
        match points {
            1 => ys[0],
            2 => fast::interp_lin(x, ys),
            4 => fast::interp_cubic(x, ys),
            6 => fast::interp_quintic(x, ys),
            _ => fast::interp_septic(x, ys),
        }
    }

    pub fn blend(points: usize, x: f64, ys: &[f64]) -> f64 {
        use crate::asynchro_sinc as sinc;
        match points {
            2 => sinc::interp_lin(x, ys.try_into().unwrap()),
            3 => sinc::interp_quad(x, ys.try_into().unwrap()),
            _ => sinc::interp_cubic(x, ys.try_into().unwrap()),
        }
    }

    pub fn weights(points: usize, x: f64) -> Vec<f64> {
        use crate::asynchro_sinc as sinc;
        match points {
            2 => sinc::interp_lin_weights(x).to_vec(),
            3 => sinc::interp_quad_weights(x).to_vec(),
            _ => sinc::interp_cubic_weights(x).to_vec(),
        }
    }

    pub fn near(n: usize, t: f64, factor: isize) -> Vec<(isize, isize)> {
        use crate::interpolation as grid;
        match n {
            1 => vec![grid::get_nearest_time(t, factor)],
            2 => {
                let mut points = [(0, 0); 2];
                grid::get_nearest_times_2(t, factor, &mut points);
                points.to_vec()
            }
            3 => {
                let mut points = [(0, 0); 3];
                grid::get_nearest_times_3(t, factor, &mut points);
                points.to_vec()
            }
            _ => {
                let mut points = [(0, 0); 4];
                grid::get_nearest_times_4(t, factor, &mut points);
                points.to_vec()
            }
        }
    }

    pub fn sincs(points: usize, factor: usize, cutoff: f32, window: crate::WindowFunction) -> Vec<Vec<f64>> {
        crate::sinc::make_sincs(points, factor, cutoff, window)
    }

    pub fn window(points: usize, window: crate::WindowFunction) -> Vec<f64> {
        crate::windows::make_window(points, window)
    }
}
