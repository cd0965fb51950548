// This repository's rounding from f64 to f32 beside `as f32`: the same words, NaN matching NaN (`words`,
// `all`), or the time of both (`times`).

use std::hint::black_box;
use std::time::Instant;

extern "C" {
    fn leaf_f64_to_f32(x: f64) -> f32;
    #[cfg(other)]
    fn other_f64_to_f32(x: f64) -> f32;
}

const SIGN: u64 = 1 << 63;

/// Words of one kind: how many were asked, and how many answers differ.
struct Kind {
    name: &'static str,
    asked: u64,
    unlike: u64,
}

impl Kind {
    fn new(name: &'static str) -> Kind {
        Kind { name, asked: 0, unlike: 0 }
    }

    fn hold(&mut self, x: f64, ours: f32, whose: &str) {
        let theirs = x as f32;
        if ours.to_bits() == theirs.to_bits() || (ours.is_nan() && theirs.is_nan()) {
            return;
        }
        self.unlike += 1;
        if self.unlike <= 10 {
            let (a, b, c) = (x.to_bits(), ours.to_bits(), theirs.to_bits());
            println!("{}: {a:016X}: {whose} {b:08X}, as f32 {c:08X}", self.name);
        }
    }

    fn ask(&mut self, bits: u64) {
        let x = f64::from_bits(bits);
        self.asked += 1;
        self.hold(x, unsafe { leaf_f64_to_f32(x) }, "ours");
        #[cfg(other)]
        self.hold(x, unsafe { other_f64_to_f32(x) }, "the other's");
    }

    /// A word with its two neighbours, of either sign.
    fn around(&mut self, bits: u64) {
        for b in [bits - 1, bits, bits + 1] {
            self.ask(b);
            self.ask(b | SIGN);
        }
    }

    fn said(self) -> Kind {
        println!("{}: {} words, {} unlike", self.name, self.asked, self.unlike);
        self
    }
}

/// The f64 halfway between an f32 and the next; after the largest one comes 2 ^ 128.
fn halfway(bits: u32) -> u64 {
    let next = if bits == 0x7F7F_FFFF { 2f64.powi(128) } else { f64::from(f32::from_bits(bits + 1)) };
    ((f64::from(f32::from_bits(bits)) + next) / 2.0).to_bits()
}

/// Ties at every exponent: all subnormal ones, and of each other exponent all or many.
fn ties(all: bool, random: &mut impl FnMut() -> u64) -> Kind {
    let mut kind = Kind::new("ties with their neighbours");
    for bits in 0..0x80_0000 {
        kind.around(halfway(bits));
    }
    for exponent in 1..255u32 {
        let first = exponent << 23;
        for i in 0..if all { 1 << 23 } else { 1 << 16 } {
            let digits = match i {
                _ if all => i,
                0..=7 => i,
                8..=15 => 0x80_0008 - i - 1,
                _ => random() as u32 & 0x7F_FFFF,
            };
            kind.around(halfway(first + digits));
        }
    }
    kind.said()
}

fn edges() -> Kind {
    let mut kind = Kind::new("beside an edge");
    let most = f64::from(f32::MAX);
    let places = [
        halfway(0x7F7F_FFFF),       // the threshold
        2f64.powi(-150).to_bits(),  // half the least subnormal
        2f64.powi(-149).to_bits(),  // the least subnormal
        2f64.powi(-126).to_bits(),  // the least normal
        2f64.powi(128).to_bits(),
        most.to_bits(),
        f64::MIN_POSITIVE.to_bits(),
        f64::MAX.to_bits() - 100_000,
        100_000,                    // zero and the least f64
    ];
    for place in places {
        for d in 0..200_001 {
            let bits = place + d - 100_000;
            kind.ask(bits);
            kind.ask(bits | SIGN);
        }
    }
    kind.said()
}

/// Every pattern of the upper 32 bits of a NaN or an infinity, with low words at the ends.
fn nans() -> Kind {
    let mut kind = Kind::new("infinities and NaN");
    for high in 0x7FF0_0000u64..=0x7FFF_FFFF {
        for low in [0, 1, 0x7FFF_FFFF, 0x8000_0000, 0xFFFF_FFFF] {
            kind.ask(high << 32 | low);
            kind.ask(high << 32 | low | SIGN);
        }
    }
    kind.said()
}

/// Any bits, and any digits at the exponents that an f32 has or just misses.
fn drawn(random: &mut impl FnMut() -> u64) -> Kind {
    let mut kind = Kind::new("drawn");
    for _ in 0..30_000_000 {
        kind.ask(random());
        let (b, e) = (random(), 1023 - 180 + random() % 320);
        kind.ask(b & (SIGN | (1 << 52) - 1) | e << 52);
    }
    kind.said()
}

/// The time of a value in ns, over all values once.
fn once(f: impl Fn(f64) -> f32, values: &[f64], out: &mut [f32]) -> f64 {
    let begin = Instant::now();
    for (o, &x) in black_box(out).iter_mut().zip(black_box(values)) {
        *o = f(x);
    }
    begin.elapsed().as_nanos() as f64 / values.len() as f64
}

/// The least times of many, taken in turn: ours, the Rust's, another checkout's.
fn times(name: &str, values: &[f64]) {
    let mut out = vec![0f32; values.len()];
    let mut best = [f64::INFINITY; 3];
    for _ in 0..5_000 {
        best[0] = best[0].min(once(|x| unsafe { leaf_f64_to_f32(x) }, values, &mut out));
        best[1] = best[1].min(once(|x| x as f32, values, &mut out));
        #[cfg(other)]
        (best[2] = best[2].min(once(|x| unsafe { other_f64_to_f32(x) }, values, &mut out)));
    }
    let seen = best.iter().filter(|t| t.is_finite()).map(|t| format!("{t:.3}"));
    println!("{name}: {}", seen.collect::<Vec<_>>().join(" "));
}

fn main() {
    let what = std::env::args().nth(1).expect("one of: words, all, times");
    let mut state = 1u64;
    // xorshift64
    let mut random = move || {
        state ^= state << 13;
        state ^= state >> 7;
        state ^= state << 17;
        state
    };
    if what == "times" {
        let mut values = |scale: f64| -> Vec<f64> {
            (0..1024).map(|_| (random() as f64 / 2f64.powi(64) - 0.5) * scale).collect()
        };
        times("ordinary values", &values(1e4));
        times("subnormal results", &values(1e-41));
        times("any bits", &(0..1024).map(|_| f64::from_bits(random())).collect::<Vec<_>>());
        return;
    }
    let kinds = [ties(what == "all", &mut random), edges(), nans(), drawn(&mut random)];
    let (asked, unlike) = kinds.iter().fold((0, 0), |(a, u), k| (a + k.asked, u + k.unlike));
    println!("{asked} words, {unlike} unlike");
    std::process::exit((unlike > 0) as i32);
}
