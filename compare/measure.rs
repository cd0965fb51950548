// How far the stand-ins lie from the published functions: `exp2` over every f32 sum that has a
// gain, `imdct_cached_f32` over many spectra.

pub mod measure {
    /// Steps between two finite f32 of the same sign.
    fn steps(a: f32, b: f32) -> u32 {
        a.to_bits().abs_diff(b.to_bits())
    }

    /// Every f32 from -150 to 32, both zeros included.
    pub fn gains() {
        let positive = 0..=32f32.to_bits();
        let negative = (-0f32).to_bits()..=(-150f32).to_bits();
        let (mut count, mut unlike, mut worst, mut at, mut relative) = (0u64, 0u64, 0, 0f32, 0f64);
        let mut worst_small = 0f64;
        for bits in positive.chain(negative) {
            let x = f32::from_bits(bits);
            let (ours, theirs) = (crate::standin::band_gain(x), x.min(32.0).exp2());
            count += 1;
            if ours.to_bits() == theirs.to_bits() {
                continue;
            }
            unlike += 1;
            let n = steps(ours, theirs);
            if n > worst {
                (worst, at) = (n, x);
            }
            if theirs >= f32::MIN_POSITIVE {
                let part = f64::from(ours) / f64::from(theirs) - 1.0;
                relative = relative.max(part.abs());
            } else {
                worst_small = worst_small.max((f64::from(ours) - f64::from(theirs)).abs());
            }
        }
        println!("sums {count}, unlike {unlike}, at most {worst} steps (first at {at:e})");
        println!("largest relative difference of normal gains {relative:e}");
        println!("largest difference of subnormal gains {worst_small:e}");
    }

    /// Four kinds of spectra: noise with gains from faint to loud, every single bin, pairs of like
    /// bins, and pairs of unlike sign that cancel at some outputs.
    pub fn transforms() {
        for n in [120, 240, 480, 960] {
            let rounds = 2_000_000 / (n * n) * 20 + 20;
            let mut seed = 1u32;
            let noise = (0..rounds).map(|round| {
                let tilt = |k: usize| (((round + k) % 37) as f32 - 18.0).exp2();
                (0..n).map(|k| draw(&mut seed) * tilt(k)).collect()
            });
            let noise: Vec<Vec<f32>> = noise.collect();
            let single = |k: usize| (0..n).map(|i| if i == k { 1.0 } else { 0.0 }).collect();
            let pair = |k: usize| {
                let other = (7 * k + 1) % n;
                (0..n).map(|i| if i == k || i == other { 1.0 } else { 0.0 }).collect()
            };
            // At every 15th output, the two bins' cosines are the same table entry.
            let cancel = |k: usize| {
                let mut out = vec![0f32; n];
                (out[k], out[k + 4 * n / 15]) = (1.0, -1.0);
                out
            };
            widest("noise", n, &noise);
            widest("single bins", n, &(0..n).map(single).collect::<Vec<_>>());
            widest("like pairs", n, &(0..n).map(pair).collect::<Vec<_>>());
            let last = n - 4 * n / 15;
            widest("pairs that cancel", n, &(0..last).map(cancel).collect::<Vec<_>>());
        }
    }

    fn draw(seed: &mut u32) -> f32 {
        *seed = crate::band_quant::celt_lcg_rand(*seed);
        (*seed as i32 >> 20) as f32
    }

    fn widest(kind: &str, n: usize, spectra: &[Vec<f32>]) {
        let (mut cached, mut naive, mut tried) = (Widest::default(), Widest::default(), 0);
        let mut all = [vec![0f32; 2 * n], vec![0f32; 2 * n], vec![0f32; 2 * n]];
        for (round, spectrum) in spectra.iter().enumerate() {
            assert!(crate::standin::cosine_sum(spectrum, &mut all[0]));
            assert!(crate::mdct::imdct_cached_f32(spectrum, &mut all[1]));
            cached.add(&all[0], &all[1]);
            if round % 20 == 0 {
                assert!(crate::mdct::imdct_naive_f32(spectrum, &mut all[2]));
                naive.add(&all[0], &all[2]);
                tried += 1;
            }
        }
        println!("N {n}, {kind}, {} spectra, imdct_cached_f32: {cached}", spectra.len());
        println!("N {n}, {kind}, {tried} spectra, imdct_naive_f32: {naive}");
    }

    /// The widest difference seen: in steps, and against the block's largest value.
    #[derive(Default)]
    struct Widest {
        values: u64,
        unlike: u64,
        steps: u32,
        turned: u64,
        share: f64,
    }

    impl Widest {
        fn add(&mut self, ours: &[f32], theirs: &[f32]) {
            let top = theirs.iter().fold(0f32, |m, x| m.max(x.abs()));
            for (&a, &b) in ours.iter().zip(theirs) {
                self.values += 1;
                if a.to_bits() != b.to_bits() {
                    self.unlike += 1;
                    if a.is_sign_negative() == b.is_sign_negative() {
                        self.steps = self.steps.max(steps(a, b));
                    } else {
                        self.turned += 1;
                    }
                    self.share = self.share.max(f64::from((a - b).abs()) / f64::from(top));
                }
            }
        }
    }

    impl std::fmt::Display for Widest {
        fn fmt(&self, f: &mut std::fmt::Formatter<'_>) -> std::fmt::Result {
            write!(
                f,
                "{} of {} values unlike, at most {} steps ({} of unlike sign), at most {:e} of the block's largest",
                self.unlike, self.values, self.steps, self.turned, self.share
            )
        }
    }
}

fn further(what: &str) -> std::io::Result<()> {
    match what {
        "exp2" => measure::gains(),
        "imdct" => measure::transforms(),
        _ => panic!("one of: cases, records, exp2, imdct"),
    }
    Ok(())
}
