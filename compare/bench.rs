// Each exported function beside the Rust's: same input, outputs compared, the least time of many.

use std::hint::black_box;
use std::time::Instant;

#[allow(dead_code)]
extern "C" {
    fn leaf_celt_autocorr(x: *const f32, ac: *mut f32);
    fn leaf_celt_autocorr_windowed(x: *const f32, window: *const f32, ac: *mut f32);
    fn leaf_celt_lpc(lpc: *mut f32, p: usize, ac: *const f32, n: usize) -> bool;
    fn leaf_celt_fir(
        buf: *mut f32,
        n: usize,
        num: *const f32,
        order: usize,
        mem: *const f32,
        reach: usize,
    ) -> bool;
    fn leaf_celt_iir(buf: *mut f32, n: usize, den: *const f32, mem: *const f32) -> bool;
    fn leaf_pitch_downsample(x: *const f32, n: usize, x_lp: *mut f32, half: usize) -> bool;
    fn leaf_pitch_downsample_pair(
        x: *const f32,
        n: usize,
        y: *const f32,
        m: usize,
        x_lp: *mut f32,
        half: usize,
    ) -> bool;
    fn leaf_pitch_search(y: *const f32) -> usize;
    fn leaf_renormalise_vector(x: *mut f32, n: usize);
    fn leaf_imdct(spectrum: *const f32, n: usize, out: *mut f32, m: usize) -> bool;
    fn leaf_imdct_mirrored(spectrum: *const f32, n: usize, out: *mut f32, m: usize) -> usize;
    fn leaf_decode_lost(
        w: *mut u32,
        gain: f32,
        coarse: *mut f32,
        background: *const f32,
        memories: *mut f32,
        predictor: *mut f32,
        history: *mut f32,
        samples: usize,
        pcm: *mut f32,
        room: usize,
    ) -> u32;
    fn leaf_state_words(w: *mut u32);
    fn leaf_direct(
        state: *mut u32,
        history: *mut f32,
        samples: usize,
        pcm: *mut f32,
        room: usize,
        answer: *mut u32,
    ) -> u32;
    fn leaf_answer(record: *mut u8, bytes: usize, head: *mut u8, room: usize) -> usize;
}

/// Least time of a call, in ns; each call works on a fresh copy of the input.
fn least(rounds: usize, input: &[f32], out: usize, mut f: impl FnMut(&mut [f32], &mut [f32])) -> (f64, Vec<f32>) {
    let mut best = f64::INFINITY;
    let mut result = vec![0f32; out];
    for _ in 0..rounds {
        let mut copy = black_box(input.to_vec());
        let begin = Instant::now();
        f(black_box(&mut copy), black_box(&mut result));
        best = best.min(begin.elapsed().as_nanos() as f64);
        if out == 0 {
            result = Vec::new();
        }
        black_box(&copy);
    }
    (best, result)
}

fn row(name: &str, ours: (f64, Vec<f32>), theirs: (f64, Vec<f32>)) {
    let same = words(&ours.1) == words(&theirs.1);
    println!(
        "{name}: {:.0} ns, Rust {:.0} ns, {:.2} times as fast{}",
        ours.0,
        theirs.0,
        theirs.0 / ours.0,
        if same { "" } else { ", UNLIKE" }
    );
}

/// A voiced sound: pulses of one period through a decaying resonance, with some noise.
fn sound(n: usize) -> Vec<f32> {
    let mut seed = 7;
    (0..n)
        .map(|t| {
            seed = band_quant::celt_lcg_rand(seed);
            let at = (t % 173) as f64;
            (8000.0 * 0.98f64.powf(at) * (0.11 * at).sin()) as f32 + (seed as i32 >> 24) as f32
        })
        .collect()
}

fn predictor(x: &[f32]) -> Vec<f32> {
    let mut ac = [0f32; 25];
    plc::celt_autocorr(x, &mut ac, None, 0);
    let mut lpc = vec![0f32; 24];
    plc::celt_lpc(&mut lpc, &ac);
    lpc
}

/// A state's words: a voiced sound, the predictor that fits it, moderate energies.
#[cfg(any(leaf_decode_lost, leaf_direct, leaf_state_words))]
fn state(lm: u32, channels: u32, losses: u32) -> Vec<u32> {
    let x = sound(4336);
    let mut s = vec![lm, channels, 0, 21, 1, losses, 1, 173, 200, 0.375f32.to_bits(), 1];
    s.extend((0..100).map(|i| ((i % 9) as f32 - 3.5).to_bits()));
    s.extend([0, 0]);
    for c in 0..2 {
        s.extend(words(&predictor(&x[2168 * c + 1024..2168 * c + 2048])));
    }
    s.extend(words(&x));
    s
}

/// One whole loss: ours, the published text timed, the stand-ins' text for the answers.
#[cfg(leaf_decode_lost)]
fn loss(rounds: usize, name: &str, lm: u32, channels: u32, losses: u32) {
    let s = state(lm, channels, losses);
    let count = (channels as usize) * (120 << lm);
    let mut best = [f64::INFINITY; 2];
    let mut ours = vec![0f32; count];
    for _ in 0..rounds {
        let mut w = [s[0], s[1], s[2], s[3], s[4], s[5], s[6], s[7], s[8], s[10]];
        let (mut coarse, background) = (floats(&s[11..61]), floats(&s[61..111]));
        let (mut memories, mut predictor) = (floats(&s[111..113]), floats(&s[113..161]));
        let mut history = floats(&s[161..]);
        let begin = Instant::now();
        let number = unsafe {
            leaf_decode_lost(
                w.as_mut_ptr(),
                f32::from_bits(s[9]),
                coarse.as_mut_ptr(),
                background.as_ptr(),
                memories.as_mut_ptr(),
                predictor.as_mut_ptr(),
                history.as_mut_ptr(),
                history.len(),
                ours.as_mut_ptr(),
                count,
            )
        };
        best[0] = best[0].min(begin.elapsed().as_nanos() as f64);
        assert_eq!(number, 0);
        let mut d = published::decoder(&s);
        let begin = Instant::now();
        black_box(d.decode_lost().unwrap());
        best[1] = best[1].min(begin.elapsed().as_nanos() as f64);
    }
    let theirs = decoder(&s).decode_lost().unwrap();
    let name = format!("{name}, lm {lm}, channels {channels}");
    row(&name, (best[0], ours), (best[1], theirs));
}

/// The linked library's two calls on one loss, and the published text.
#[cfg(all(leaf_direct, leaf_answer))]
fn doors(rounds: usize, name: &str, lm: u32, channels: u32, losses: u32) {
    let s = state(lm, channels, losses);
    let count = (channels as usize) * (120 << lm);
    let bytes: Vec<u8> = s.iter().flat_map(|w| w.to_le_bytes()).collect();
    let mut best = [f64::INFINITY; 3];
    let (mut pcm, mut head) = (vec![0f32; count], vec![0u8; 7692]);
    for _ in 0..rounds {
        let (mut w, mut history, mut answer) = (s[..161].to_vec(), floats(&s[161..]), [0u32; 3]);
        let begin = Instant::now();
        let number = unsafe {
            leaf_direct(w.as_mut_ptr(), history.as_mut_ptr(), 4336, pcm.as_mut_ptr(), count, answer.as_mut_ptr())
        };
        best[0] = best[0].min(begin.elapsed().as_nanos() as f64);
        let mut record = black_box(bytes.clone());
        let begin = Instant::now();
        let written = unsafe { leaf_answer(record.as_mut_ptr(), record.len(), head.as_mut_ptr(), head.len()) };
        best[1] = best[1].min(begin.elapsed().as_nanos() as f64);
        assert!(number == 0 && written == 12 + 4 * count);
        let same = |words: &[f32]| words.iter().flat_map(|x| x.to_bits().to_le_bytes()).eq(head[12..written].iter().copied());
        assert!(same(&pcm), "the two calls' samples differ");
        let mut d = published::decoder(&s);
        let begin = Instant::now();
        black_box(d.decode_lost().unwrap());
        best[2] = best[2].min(begin.elapsed().as_nanos() as f64);
    }
    println!(
        "{name}, lm {lm}, channels {channels}: direct call {:.0} ns, record call {:.0} ns, Rust {:.0} ns",
        best[0], best[1], best[2]
    );
}

/// What the direct call does besides the loss: a state's 161 words read, and written. Many in a row,
/// since one takes few steps of the clock.
#[cfg(leaf_state_words)]
fn crossing(rounds: usize) {
    const CALLS: u32 = 1000;
    let mut w = state(0, 1, 2)[..161].to_vec();
    let mut best = f64::INFINITY;
    for _ in 0..rounds {
        let begin = Instant::now();
        for _ in 0..CALLS {
            unsafe { leaf_state_words(black_box(w.as_mut_ptr())) };
        }
        best = best.min(begin.elapsed().as_nanos() as f64 / CALLS as f64);
    }
    println!("a state's words read and written: {best:.1} ns");
}

fn main() {
    let rounds: usize = std::env::args().nth(1).and_then(|n| n.parse().ok()).unwrap_or(200);
    let x = sound(4096);
    let window = mdct::build_window_half_f32(120);
    let lpc = predictor(&x[..1024]);
    let mem: Vec<f32> = x[1024..1048].to_vec();
    let _ = (&window, &lpc, &mem);
    #[cfg(leaf_celt_autocorr)]
    row(
        "celt_autocorr, 5 lags",
        least(rounds, &x[..1024], 5, |x, ac| unsafe {
            leaf_celt_autocorr(x.as_ptr(), ac.as_mut_ptr());
        }),
        least(rounds, &x[..1024], 5, |x, ac| plc::celt_autocorr(x, ac, None, 0)),
    );
    #[cfg(leaf_celt_autocorr_windowed)]
    row(
        "celt_autocorr windowed, 25 lags",
        least(rounds, &x[..1024], 25, |x, ac| unsafe {
            leaf_celt_autocorr_windowed(x.as_ptr(), window.as_ptr(), ac.as_mut_ptr());
        }),
        least(rounds, &x[..1024], 25, |x, ac| plc::celt_autocorr(x, ac, Some(&window), 120)),
    );
    #[cfg(leaf_celt_lpc)]
    {
        let mut ac = vec![0f32; 25];
        plc::celt_autocorr(&x[..1024], &mut ac, None, 0);
        row(
            "celt_lpc, order 24",
            least(rounds, &ac, 24, |ac, lpc| unsafe {
                leaf_celt_lpc(lpc.as_mut_ptr(), lpc.len(), ac.as_ptr(), ac.len());
            }),
            least(rounds, &ac, 24, |ac, lpc| plc::celt_lpc(lpc, ac)),
        );
    }
    #[cfg(leaf_celt_fir)]
    row(
        "celt_fir_inplace, order 24",
        least(rounds, &x[..1024], 1024, |x, out| unsafe {
            leaf_celt_fir(x.as_mut_ptr(), x.len(), lpc.as_ptr(), 24, mem.as_ptr(), 24);
            out.copy_from_slice(x);
        }),
        least(rounds, &x[..1024], 1024, |x, out| {
            plc::celt_fir_inplace(x, &lpc, &mut mem.clone());
            out.copy_from_slice(x);
        }),
    );
    #[cfg(leaf_celt_iir)]
    row(
        "celt_iir_inplace, order 24, 1,200 samples",
        least(rounds, &x[..1200], 1200, |x, out| unsafe {
            leaf_celt_iir(x.as_mut_ptr(), x.len(), lpc.as_ptr(), mem.as_ptr());
            out.copy_from_slice(x);
        }),
        least(rounds, &x[..1200], 1200, |x, out| {
            plc::celt_iir_inplace(x, &lpc, &mut mem.clone());
            out.copy_from_slice(x);
        }),
    );
    #[cfg(leaf_pitch_downsample)]
    row(
        "pitch_downsample, one channel",
        least(rounds, &x[..2048], 1024, |x, out| unsafe {
            leaf_pitch_downsample(x.as_ptr(), x.len(), out.as_mut_ptr(), out.len());
        }),
        least(rounds, &x[..2048], 1024, |x, out| plc::pitch_downsample(&[x], out)),
    );
    #[cfg(leaf_pitch_downsample_pair)]
    row(
        "pitch_downsample, two channels",
        least(rounds, &x, 1024, |x, out| unsafe {
            let (a, b) = x.split_at(2048);
            leaf_pitch_downsample_pair(a.as_ptr(), 2048, b.as_ptr(), 2048, out.as_mut_ptr(), out.len());
        }),
        least(rounds, &x, 1024, |x, out| plc::pitch_downsample(&[&x[..2048], &x[2048..]], out)),
    );
    #[cfg(leaf_pitch_search)]
    {
        let mut y = vec![0f32; 1024];
        plc::pitch_downsample(&[&x[..2048]], &mut y);
        row(
            "pitch_search",
            least(rounds, &y, 1, |y, out| out[0] = unsafe { leaf_pitch_search(y.as_ptr()) } as f32),
            least(rounds, &y, 1, |y, out| out[0] = plc::pitch_search(&y[360..], y, 1328, 620) as f32),
        );
    }
    #[cfg(leaf_renormalise_vector)]
    for n in [8, 176] {
        row(
            &format!("renormalise_vector, width {n}"),
            least(rounds, &x[..n], n, |x, out| unsafe {
                leaf_renormalise_vector(x.as_mut_ptr(), x.len());
                out.copy_from_slice(x);
            }),
            least(rounds, &x[..n], n, |x, out| {
                band_quant::renormalise_vector(x, 1.0);
                out.copy_from_slice(x);
            }),
        );
    }
    // The published transform's sum differs in the last place now and then; time is against it,
    // equality against the stand-in.
    #[cfg(leaf_imdct)]
    for n in [120, 960] {
        let spectrum = &x[..n];
        let published = least(rounds, spectrum, 2 * n, |x, out| {
            mdct::imdct_cached_f32(x, out);
        });
        let standin = least(1, spectrum, 2 * n, |x, out| {
            standin::cosine_sum(x, out);
        });
        let ours = least(rounds, spectrum, 2 * n, |x, out| unsafe {
            leaf_imdct(x.as_ptr(), x.len(), out.as_mut_ptr(), out.len());
        });
        row(&format!("cosine sum, N {n}, beside imdct_cached_f32"), ours, (published.0, standin.1.clone()));
        #[cfg(leaf_imdct_mirrored)]
        {
            let mut products = 0;
            let ours = least(rounds, spectrum, 2 * n, |x, out| unsafe {
                products = leaf_imdct_mirrored(x.as_ptr(), x.len(), out.as_mut_ptr(), out.len());
            });
            assert_eq!(products, n * n);
            row(&format!("half of the cosine sums, N {n}"), ours, (published.0, standin.1));
        }
    }
    #[cfg(leaf_decode_lost)]
    for (name, losses) in [("first pitch loss", 0), ("repeated pitch loss", 2), ("noise loss", 6)] {
        for lm in [0, 3] {
            for channels in [1, 2] {
                loss(rounds, name, lm, channels, losses);
            }
        }
    }
    #[cfg(leaf_state_words)]
    crossing(rounds);
    #[cfg(all(leaf_direct, leaf_answer))]
    for (name, losses) in [("first pitch loss", 0), ("repeated pitch loss", 2), ("noise loss", 6)] {
        for lm in [0, 3] {
            for channels in [1, 2] {
                doors(rounds, name, lm, channels, losses);
            }
        }
    }
}
