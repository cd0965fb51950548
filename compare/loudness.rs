// Bands of noise at unit energy, drawn by this repository's functions and by the Rust's: the same bits,
// and the exact sums of their squares.

extern "C" {
    fn leaf_band_noise(x: *mut f32, n: usize, seed: u32) -> u32;
}

const WIDEST: usize = 176;

/// Samples are counted in 2 ^ -SCALE: the least other than zero is above 2 ^ -15 and has 24 digits.
const SCALE: u32 = 40;
const ONE: u128 = 1 << (2 * SCALE);

/// The proved bounds: one part in so many.
const ASKED: u128 = 1 << 16;
const REACHED: u128 = 1 << 21;

/// A band as the Rust's lost path makes it.
fn theirs(x: &mut [f32], mut seed: u32) -> u32 {
    for v in x.iter_mut() {
        seed = band_quant::celt_lcg_rand(seed);
        *v = ((seed as i32) >> 20) as f32;
    }
    band_quant::renormalise_vector(x, 1.0);
    seed
}

/// The sum of the squares in 2 ^ -(2 * SCALE); nothing is rounded.
fn energy(x: &[f32]) -> u128 {
    let counted = |v: f32| {
        let units = f64::from(v.abs()) * (1u64 << SCALE) as f64;
        assert!(units.fract() == 0.0 && units < 2f64.powi(53), "{v} is no whole number of units");
        units as u128
    };
    x.iter().map(|&v| counted(v) * counted(v)).sum()
}

#[derive(Clone, Copy)]
struct Met {
    sum: u128,
    width: usize,
    seed: u32,
}

fn said(name: &str, met: Met) {
    let off = met.sum as i128 - ONE as i128;
    // in 2 ^ -24 of 1
    let parts = off as f64 / 2f64.powi(2 * SCALE as i32 - 24);
    println!("{name}: 1 {parts:+.3} * 2^-24, width {}, seed {:08X}", met.width, met.seed);
}

fn main() {
    let bands: u64 = std::env::args().nth(1).and_then(|n| n.parse().ok()).expect("how many bands");
    let (mut least, mut most) = (None::<Met>, None::<Met>);
    let (mut asked, mut silent, mut unlike, mut outside) = (0u64, 0u64, 0u64, 0u64);
    let mut state = 0x9E37_79B9_7F4A_7C15u64;
    let (mut ours, mut rust) = ([0f32; WIDEST], [0f32; WIDEST]);
    for width in 1..=WIDEST {
        for _ in 0..bands {
            state ^= state << 13;
            state ^= state >> 7;
            state ^= state << 17;
            let seed = (state >> 32) as u32;
            let (a, b) = (&mut ours[..width], &mut rust[..width]);
            let after = unsafe { leaf_band_noise(a.as_mut_ptr(), width, seed) };
            let same = after == theirs(b, seed) && a.iter().zip(b.iter()).all(|(x, y)| x.to_bits() == y.to_bits());
            asked += 1;
            unlike += u64::from(!same);
            let sum = energy(a);
            if a.iter().all(|&v| v == 0.0) {
                silent += 1;
                outside += u64::from(sum != 0);
                continue;
            }
            let met = Met { sum, width, seed };
            outside += u64::from(sum.abs_diff(ONE) * REACHED > ONE);
            if least.map_or(true, |m| sum < m.sum) {
                least = Some(met);
            }
            if most.map_or(true, |m| sum > m.sum) {
                most = Some(met);
            }
        }
    }
    println!("{asked} bands of widths 1 to {WIDEST}, {unlike} unlike the Rust's, {silent} of zeros alone");
    said("least sum", least.expect("a band with a value other than zero"));
    said("largest sum", most.expect("a band with a value other than zero"));
    let parts = |d: u128| (1u128 << 24) / d;
    println!("proved: 1 ± {} * 2^-24; asked: 1 ± {} * 2^-24; outside: {outside}", parts(REACHED), parts(ASKED));
    std::process::exit(i32::from(unlike + outside > 0));
}
