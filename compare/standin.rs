// The band gain and the cosine sum that stand in for `exp2` and `imdct_cached_f32`. The tables
// are made by tables.py.

pub mod standin {
    use std::sync::OnceLock;

    pub fn gain_entry(i: usize) -> f64 {
        f64::from_bits(A_BITS[i])
    }

    pub fn cosine_entry(j: usize) -> f64 {
        f64::from_bits(C_BITS[j])
    }

    /// The gain of x = min(sum, 32), NaN giving 32: 2^x by a table of 256 and a cubic.
    pub fn band_gain(sum: f32) -> f32 {
        let x = if sum < 32.0 { sum } else { 32.0 };
        if x <= -150.0 {
            return 0.0;
        }
        let x = f64::from(x);
        let k = (256.0 * x).floor();
        let whole = k as i64;
        let (n, i) = (whole.div_euclid(256), whole.rem_euclid(256));
        let r = x - k / 256.0;
        let y = r * f64::from_bits(0x3FE6_2E42_FEFA_39EF);
        let p = 1.0 + y * (1.0 + y * (0.5 + y * (1.0 / 6.0)));
        let scale = f64::from_bits(((1023 + n) as u64) << 52);
        (gain_entry(i as usize) * p * scale) as f32
    }

    /// The cosine of angle index j, a 7,680th of a circle each: folded by quadrant.
    fn cosine(j: usize) -> f64 {
        match j / 1920 {
            0 => cosine_entry(j),
            1 => -cosine_entry(3840 - j),
            2 => -cosine_entry(j - 3840),
            _ => cosine_entry(7680 - j),
        }
    }

    /// `imdct_naive_f32`'s sum in its order, each cosine from the table.
    pub fn cosine_sum(spectrum: &[f32], out: &mut [f32]) -> bool {
        let n = spectrum.len();
        if ![120, 240, 480, 960].contains(&n) || out.len() != 2 * n {
            return false;
        }
        static CIRCLE: OnceLock<Vec<f64>> = OnceLock::new();
        let circle = CIRCLE.get_or_init(|| (0..7680).map(cosine).collect());
        for (t, slot) in out.iter_mut().enumerate() {
            let mut acc = 0.0f64;
            for (k, &x) in spectrum.iter().enumerate() {
                let angle = (2 * t + 1 + n) * (2 * k + 1) * (960 / n) % 7680;
                acc += f64::from(x) * circle[angle];
            }
            *slot = (0.5 * acc) as f32;
        }
        true
    }

    //@ tables
}
