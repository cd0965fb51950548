// Answers the case protocol (PROTOCOL.md): `cases` and `records`, from standard input to standard
// output.

use ref_decode::CeltRefDecoder;
use std::io::{Read, Write};

const STATE: usize = 4497;
const HISTORY: usize = 2168;

/// A word of an f32, a NaN's always the same.
fn word(x: f32) -> u32 {
    if x.is_nan() { 0x7FC0_0000 } else { x.to_bits() }
}

fn long(x: f64) -> [u32; 2] {
    let bits = if x.is_nan() { 0x7FF8_0000_0000_0000 } else { x.to_bits() };
    [bits as u32, (bits >> 32) as u32]
}

fn floats(words: &[u32]) -> Vec<f32> {
    words.iter().map(|&w| f32::from_bits(w)).collect()
}

fn words(values: &[f32]) -> Vec<u32> {
    values.iter().map(|&x| word(x)).collect()
}

fn filled(mut answer: Vec<u32>, length: usize) -> Vec<u32> {
    answer.resize(length, 0);
    answer
}

/// The operations: number, words in, words out.
const OPS: &[(u32, usize, usize)] = &[
//@ ops
];

fn answer(op: u32, w: &[u32]) -> Vec<u32> {
    let x = |i: usize| f32::from_bits(w[i]);
    match op {
        101 => vec![word(x(0).min(x(1)))],
        102 => vec![word(x(0).max(x(1)))],
        103 => vec![word(x(0).sqrt())],
        104 => vec![word(f64::from_bits(u64::from(w[0]) | u64::from(w[1]) << 32) as f32)],
        105 => long(f64::from(x(0))).to_vec(),
        106 => vec![word(x(0))],
        107 => vec![word((w[0] as i32 >> 20) as f32)],
        108 => vec![w[0].wrapping_mul(w[1])],
        201 => correlations(w, 5, None),
        202 => correlations(&w[..1024], 25, Some(&floats(&w[1024..]))),
        203 | 204 => {
            let mut lpc = vec![0f32; w.len() - 1];
            plc::celt_lpc(&mut lpc, &floats(w));
            words(&lpc)
        }
        205 => all_zero(w, 24),
        206 => all_zero(w, 4),
        207 => all_zero(w, 1),
        208 => {
            let n = w[0] as usize;
            let mut buf = floats(&w[1..1 + n]);
            plc::celt_iir_inplace(&mut buf, &floats(&w[1201..1225]), &mut floats(&w[1225..]));
            filled(words(&buf), 1200)
        }
        301 | 302 => words(&downsampled(w)),
        303 => best_pair(w, 155, 332),
        304 => best_pair(w, 310, 664),
        305 => {
            let y = floats(w);
            vec![plc::pitch_search(&y[360..], &y, 1328, 620) as u32]
        }
        306 | 307 => {
            let mut d = CeltRefDecoder::silent(0, w.len() / 2048);
            for (mem, part) in d.decode_mem.iter_mut().zip(w.chunks(2048)) {
                mem[..2048].copy_from_slice(&floats(part));
            }
            d.step_lag();
            vec![d.last_pitch_index as u32]
        }
        401 => vec![band_quant::celt_lcg_rand(w[0])],
        402 => {
            let mut v = floats(&w[1..1 + w[0] as usize]);
            band_quant::renormalise_vector(&mut v, 1.0);
            filled(words(&v), 176)
        }
        501 => vec![word(gain_step::band_gain(x(0), x(1)))],
        502 => vec![ref_decode::resampling_factor(w[0]).unwrap_or(0) as u32],
        503 => long(standin::gain_entry(w[0] as usize)).to_vec(),
        504 => vec![word(ref_decode::E_MEANS[w[0] as usize])],
        505 => vec![custom_mode::CeltCustomMode::standard().e_bands[w[0] as usize] as u32],
        601 => vec![word(mdct::celt_window_f32(w[0] as usize, 120))],
        602 => {
            let n = 120 << w[0];
            let window = mdct::build_low_overlap_window_f32(n, 120).unwrap();
            vec![word(window[(n - 120) / 2 + w[1] as usize])]
        }
        603 => long(standin::cosine_entry(w[0] as usize)).to_vec(),
        611..=614 => transformed(w),
        621..=624 => {
            let mut out = transformed(w);
            out.push((w.len() * w.len()) as u32);
            out
        }
        701 => deemphasis(w),
        801 => pitch_loss(w),
        901..=903 => noise_loss(op, w),
        1001 => one_call(w),
        1002 => run_of_calls(w),
        1003 => silent_call(w),
        _ => unreachable!(),
    }
}

fn correlations(w: &[u32], lags: usize, window: Option<&[f32]>) -> Vec<u32> {
    let mut ac = vec![0f32; lags];
    plc::celt_autocorr(&floats(w), &mut ac, window, window.map_or(0, <[f32]>::len));
    words(&ac)
}

fn all_zero(w: &[u32], order: usize) -> Vec<u32> {
    let mut buf = floats(&w[..1024]);
    let num = floats(&w[1024..1024 + order]);
    plc::celt_fir_inplace(&mut buf, &num, &mut floats(&w[1024 + order..]));
    words(&buf)
}

fn downsampled(w: &[u32]) -> Vec<f32> {
    let channels: Vec<Vec<f32>> = w.chunks(2048).map(floats).collect();
    let refs: Vec<&[f32]> = channels.iter().map(|c| &c[..]).collect();
    let mut out = vec![0f32; 1024];
    plc::pitch_downsample(&refs, &mut out);
    out
}

fn best_pair(w: &[u32], max: usize, len: usize) -> Vec<u32> {
    let pair = plc::best_two(&floats(&w[..max]), &floats(&w[max..]), len, max);
    vec![pair[0] as u32, pair[1] as u32]
}

/// The direct sum, whichever way the answer is worked out on the other side.
fn transformed(w: &[u32]) -> Vec<u32> {
    let mut out = vec![0f32; 2 * w.len()];
    assert!(ref_decode::transform(&floats(w), &mut out));
    words(&out)
}

fn deemphasis(w: &[u32]) -> Vec<u32> {
    let mut d = CeltRefDecoder::silent(w[0], w[1] as usize);
    d.downsample = w[2] as usize;
    d.deemph_mem = [f32::from_bits(w[3]), f32::from_bits(w[4])];
    let n = 120 << w[0];
    for (c, mem) in d.decode_mem.iter_mut().enumerate() {
        mem[2048 - n..2048].copy_from_slice(&floats(&w[5 + 960 * c..5 + 960 * c + n]));
    }
    let pcm = d.step_deemphasis();
    let mut out = filled(words(&pcm), 1920);
    out.extend(words(&d.deemph_mem));
    out
}

fn pitch_loss(w: &[u32]) -> Vec<u32> {
    let mut d = CeltRefDecoder::silent(w[0], 1);
    let first = w[1] == 1;
    d.loss_count = u32::from(!first);
    d.last_pitch_index = w[2] as usize;
    d.pf_gain = f32::from_bits(w[3]);
    d.pf_period = w[4] as usize;
    d.pf_tapset = w[5] as usize;
    d.plc_lpc[0].copy_from_slice(&floats(&w[6..30]));
    d.decode_mem[0] = floats(&w[30..]);
    d.step_pitch(if first { 1.0 } else { 0.8 });
    let mut out = words(&d.decode_mem[0]);
    out.extend(words(&d.plc_lpc[0]));
    out
}

fn noise_loss(op: u32, w: &[u32]) -> Vec<u32> {
    if op == 903 {
        let mut d = CeltRefDecoder::silent(0, w[0] as usize);
        d.start = w[1] as usize;
        d.end = w[2] as usize;
        d.loss_count = w[3];
        for c in 0..2 {
            d.coarse.energy[c].copy_from_slice(&floats(&w[4 + 25 * c..29 + 25 * c]));
        }
        d.step_energies();
        return d.coarse.energy.iter().flat_map(|e| words(e)).collect();
    }
    let mut d = CeltRefDecoder::silent(w[0], 1);
    d.start = w[1] as usize;
    d.end = w[2] as usize;
    d.downsample = w[3] as usize;
    d.rng = w[4];
    d.loss_count = 5;
    d.background_log_e[0].copy_from_slice(&floats(&w[5..30]));
    let gains = d.step_energies();
    let mut out = if op == 901 {
        filled(words(&d.step_noise_block(&gains).unwrap()), 1080)
    } else {
        d.decode_mem[0] = floats(&w[30..]);
        d.step_noise(&gains).unwrap();
        words(&d.decode_mem[0])
    };
    out.push(d.rng);
    out
}

/// The number of the first limit that a state breaks, or 0: all but the buffers' lengths.
fn refusal(s: &[u32], history: usize) -> u32 {
    let (lm, channels, start, end, downsample, losses) = (s[0], s[1], s[2], s[3], s[4], s[5]);
    let (lag, period, tapset) = (s[7], s[8], s[10]);
    if lm > 3 {
        1
    } else if channels != 1 && channels != 2 {
        2
    } else if start > 20 {
        3
    } else if end <= start || end > 21 {
        4
    } else if ![1, 2, 3, 4, 6].contains(&downsample) {
        5
    } else if losses == u32::MAX {
        6
    } else if start == 0 && (1..=4).contains(&losses) && !(102..=720).contains(&lag) {
        7
    } else if !(15..=1022).contains(&period) || tapset > 2 {
        8
    } else if history != 2 * HISTORY {
        9
    } else {
        0
    }
}

pub fn decoder(s: &[u32]) -> CeltRefDecoder {
    let mut d = CeltRefDecoder::silent(s[0], s[1] as usize);
    d.start = s[2] as usize;
    d.end = s[3] as usize;
    d.downsample = s[4] as usize;
    d.loss_count = s[5];
    d.rng = s[6];
    d.last_pitch_index = s[7] as usize;
    d.pf_period = s[8] as usize;
    d.pf_gain = f32::from_bits(s[9]);
    d.pf_tapset = s[10] as usize;
    for c in 0..2 {
        d.coarse.energy[c].copy_from_slice(&floats(&s[11 + 25 * c..36 + 25 * c]));
        d.background_log_e[c].copy_from_slice(&floats(&s[61 + 25 * c..86 + 25 * c]));
        d.deemph_mem[c] = f32::from_bits(s[111 + c]);
    }
    for c in 0..d.channels {
        d.plc_lpc[c].copy_from_slice(&floats(&s[113 + 24 * c..137 + 24 * c]));
        let base = 161 + HISTORY * c;
        d.decode_mem[c].copy_from_slice(&floats(&s[base..base + HISTORY]));
    }
    d
}

/// Puts what a loss changes back into the state's words; an unused channel's are carried.
fn put_back(d: &CeltRefDecoder, s: &mut [u32]) {
    s[5] = d.loss_count;
    s[6] = d.rng;
    s[7] = d.last_pitch_index as u32;
    for c in 0..2 {
        s[11 + 25 * c..36 + 25 * c].copy_from_slice(&words(&d.coarse.energy[c]));
        s[111 + c] = word(d.deemph_mem[c]);
    }
    for c in 0..d.channels {
        s[113 + 24 * c..137 + 24 * c].copy_from_slice(&words(&d.plc_lpc[c]));
        let base = 161 + HISTORY * c;
        s[base..base + HISTORY].copy_from_slice(&words(&d.decode_mem[c]));
    }
    one_nan(s);
}

/// Every NaN among the state's floats as the one NaN word.
fn one_nan(s: &mut [u32]) {
    for i in (9..10).chain(11..STATE) {
        s[i] = word(f32::from_bits(s[i]));
    }
}

/// One call: number, kind, sample count; samples to the front of `pcm`, the state in place.
fn conceal(s: &mut [u32], history: usize, pcm: &mut [f32]) -> [u32; 3] {
    let number = refusal(s, history);
    if number != 0 {
        return [number, 0, 0];
    }
    let mut d = decoder(s);
    let count = d.channels * (d.frame_size() / d.downsample);
    if pcm.len() < count {
        return [10, 0, 0];
    }
    let kind = if d.loss_count >= 5 || d.start != 0 { 2 } else { 1 };
    let samples = d.decode_lost().unwrap();
    assert_eq!(samples.len(), count);
    pcm[..count].copy_from_slice(&samples);
    put_back(&d, s);
    [0, kind, count as u32]
}

fn one_call(w: &[u32]) -> Vec<u32> {
    let mut s = w[2..].to_vec();
    let mut pcm = vec![1f32; w[0] as usize];
    let head = conceal(&mut s, w[1] as usize, &mut pcm);
    one_nan(&mut s);
    let mut out = head.to_vec();
    out.extend(filled(words(&pcm), 2000));
    out.extend(s);
    out
}

fn silent_call(w: &[u32]) -> Vec<u32> {
    let mut s = filled(w[2..].to_vec(), STATE);
    let head = conceal(&mut s, w[1] as usize, &mut vec![1f32; w[0] as usize]);
    [&head[..], &s[5..8]].concat()
}

fn run_of_calls(w: &[u32]) -> Vec<u32> {
    let mut s = w[17..].to_vec();
    let mut out = Vec::new();
    for i in 0..16 {
        if i >= w[0] as usize {
            out.extend([0; 4]);
            continue;
        }
        let mut pcm = vec![1f32; w[1 + i] as usize];
        out.extend(conceal(&mut s, 2 * HISTORY, &mut pcm));
        out.push(words(&pcm).iter().fold(1u32, |h, &p| h.wrapping_mul(1_664_525).wrapping_add(p)));
    }
    one_nan(&mut s);
    out.extend(s);
    out
}

fn cases(input: &[u32]) -> Vec<u32> {
    let mut out = Vec::new();
    let mut at = 0;
    while at < input.len() {
        let op = input[at];
        let Some(&(_, n, m)) = OPS.iter().find(|o| o.0 == op) else { break };
        let Some(body) = input.get(at + 1..at + 1 + n) else { break };
        let words = answer(op, body);
        assert_eq!(words.len(), m);
        out.extend(words);
        at += 1 + n;
    }
    out
}

/// Records as they come, one at a time; a cut last one yields 11, 0, 0.
fn records(mut input: impl Read, mut output: impl Write) -> std::io::Result<()> {
    let mut bytes = vec![0u8; 4 * STATE];
    loop {
        let mut got = 0;
        while got < bytes.len() {
            match input.read(&mut bytes[got..])? {
                0 => break,
                n => got += n,
            }
        }
        if got < bytes.len() {
            if got > 0 {
                output.write_all(&to_bytes(&[11, 0, 0]))?;
            }
            return output.flush();
        }
        let mut state = to_words(&bytes);
        let mut pcm = vec![0f32; 1920];
        let head = conceal(&mut state, 2 * HISTORY, &mut pcm);
        output.write_all(&to_bytes(&head))?;
        output.write_all(&to_bytes(&words(&pcm[..head[2] as usize])))?;
        output.write_all(&to_bytes(&state))?;
    }
}

fn to_words(bytes: &[u8]) -> Vec<u32> {
    let quads = bytes.chunks_exact(4);
    quads.map(|b| u32::from_le_bytes([b[0], b[1], b[2], b[3]])).collect()
}

fn to_bytes(words: &[u32]) -> Vec<u8> {
    words.iter().flat_map(|w| w.to_le_bytes()).collect()
}

fn main() -> std::io::Result<()> {
    let mut stdin = std::io::stdin().lock();
    let mut stdout = std::io::BufWriter::new(std::io::stdout().lock());
    match std::env::args().nth(1).as_deref() {
        Some("cases") => {
            let mut bytes = Vec::new();
            stdin.read_to_end(&mut bytes)?;
            stdout.write_all(&to_bytes(&cases(&to_words(&bytes))))?;
            stdout.flush()
        }
        Some("records") => records(std::io::BufReader::new(stdin), stdout),
        Some(other) => further(other),
        None => panic!("cases or records"),
    }
}
