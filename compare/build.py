"""Puts the extracted Rust and this folder's own together and builds it with plain rustc.

A build is a set of edits to the extracted text: `published` has none, `standin` puts in the band
gain and the cosine sum, each mutant is `standin` with one slip."""
import re
import subprocess
from pathlib import Path

import extract
import ops
import tables

HERE = Path(__file__).resolve().parent
BUILD = HERE / "build"

PLC = ["celt_autocorr", "celt_lpc", "celt_fir_inplace", "celt_iir_inplace", "pitch_downsample",
       "find_best_pitch", "pitch_search", "remove_doubling"]
MDCT = ["celt_window_f32", "build_window_half_f32", "build_low_overlap_window_f32",
        "imdct_naive_f32", "imdct_basis", "imdct_cached_f32"]
REF_CONSTANTS = ["E_MEANS", "COMB_GAINS", "COMBFILTER_MINPERIOD", "MAX_PERIOD",
                 "DECODE_BUFFER_SIZE", "SIG_SCALE", "MAX_BAND_LOG_ENERGY"]

GAIN = re.compile(r"\(([^()]*)\)\.min\(MAX_BAND_LOG_ENERGY\)\.exp2\(\)")


def pieces(folder):
    """The extracted text, by the module it goes to."""
    plc = extract.Source(folder, "plc.rs")
    band = extract.Source(folder, "band_quant.rs")
    mdct = extract.Source(folder, "mdct.rs")
    mode = extract.Source(folder, "custom_mode.rs")
    ref = extract.Source(folder, "ref_decode.rs")
    preemph = extract.between(mode.function("new"), "let preemph: [f32; 4] =",
                              "let nb_short_mdcts", "custom_mode.rs, new")
    return {
        "plc": plc.constant("LPC_ORDER") + plc.constant("SECOND_CHECK")
        + "".join(plc.function(f) for f in PLC),
        "band_quant": band.function("celt_lcg_rand") + band.function("renormalise_vector"),
        "mdct": mdct.constant("IMDCT_BASES") + mdct.constant("IMDCT_CACHED_SIZES")
        + "".join(mdct.function(f) for f in MDCT),
        "custom_mode": mode.constant("MAX_BANDS") + mode.constant("EBAND_5MS"),
        "preemph": preemph,
        "ref_decode": "".join(ref.constant(c) for c in REF_CONSTANTS)
        + "".join(ref.function(f) for f in ["comb_filter", "comb_filter_to", "resampling_factor"]),
        "max_band_log_energy": ref.constant("MAX_BAND_LOG_ENERGY"),
        "methods": ref.function("frame_size") + ref.function("decode_lost"),
    }


def steps(parts):
    """The parts of `decode_lost` that are compared by themselves, cut from its text."""
    lost, what = parts["methods"], "decode_lost"
    noise = extract.block(lost, "for c in 0..channels {\n                // Uniform pseudo-noise",
                          what)
    gain = re.search(r"be\[i\] = [^;]*bg\[i\][^;]*;", lost)
    if not gain:
        extract.stop("decode_lost: the gain of a background energy not found")
    return {
        "locals": extract.between(lost, "let lm = self.lm;", "let mut pcm = ", what),
        "lag": extract.between(lost, "let poffset = 720usize;", "} else {", what),
        "pitch": extract.block(
            lost, "for c in 0..channels {\n                let out_mem_base", what),
        "energies": extract.between(lost, "let mut band_e = ", "let mut seed = self.rng;", what),
        "noise": noise,
        "noise_block": extract.between(noise, "let mut x = vec![0f32; frame];",
                                       "let dm = &mut self.decode_mem[c];", what),
        "deemphasis": extract.between(lost, "let c0 = self.mode.preemph[0];",
                                      "self.loss_count +=", what),
        "gain": gain.group() + "\n",
        "transform": "",
    }


def put_standins(parts):
    """The two stand-ins at their two places, and nowhere else."""
    lost = parts["methods"]
    if len(GAIN.findall(lost)) != 2:
        extract.stop("decode_lost: `.min(MAX_BAND_LOG_ENERGY).exp2()` doesn't stand twice")
    lost = GAIN.sub(r"crate::standin::band_gain(\1)", lost)
    lost = extract.replace(lost, "imdct_cached_f32(&freq, &mut u)",
                           "crate::standin::cosine_sum(&freq, &mut u)", 1, "decode_lost")
    return dict(parts, methods=lost)


def drop_forward_filter(parts):
    """Without the call of the forward comb_filter."""
    lost = parts["methods"]
    call = re.search(r"comb_filter\(\n.*?\n\s*\);\n", lost, re.S)
    if not call:
        extract.stop("decode_lost: the call of comb_filter not found")
    return dict(parts, methods=lost.replace(call.group(), ""))


def program(parts, own=("around.rs", "standin.rs", "measure.rs", "tool.rs")):
    """The whole program's text; `own` are this folder's parts of it."""
    transform = re.search(r"if !([a-z_0-9:]+)\(&freq, &mut u\)", parts["methods"])
    if not transform:
        extract.stop("decode_lost: the transform's call not found")
    filled = dict(parts, **steps(parts))
    filled["ref_decode"] += (
        "pub fn transform(spectrum: &[f32], out: &mut [f32]) -> bool {\n"
        f"    {transform.group(1)}(spectrum, out)\n}}\n")
    filled["tables"] = parts.get("tables") or tables.rust()
    filled["ops"] = ops.rust()
    text = "#![allow(unused)]\n"
    for name in own:
        text += (HERE / name).read_text()
    for old, new in parts.get("edits", []):
        text = extract.replace(text, old, new, 1, "this folder's own text")

    def put(found):
        return filled[found.group(1)]

    return re.sub(r"^ *//@ (\w+)\n", put, text, flags=re.M)


def compile_rust(text, name, quick=False):
    """Builds the text, unless the same text is built already; gives the program's path. `quick`
    keeps what is the same from one build to the next, for many that differ little."""
    folder = BUILD / name
    folder.mkdir(parents=True, exist_ok=True)
    source, out = folder / "main.rs", folder / "tool"
    if out.is_file() and source.is_file() and source.read_text() == text:
        return out
    source.write_text(text)
    options = ["opt-level=1", f"incremental={BUILD / 'incremental'}"] if quick else ["opt-level=3"]
    command = ["rustc", "--edition", "2021", "-o", out, source]
    for option in options:
        command += ["-C", option]
    done = subprocess.run(command, capture_output=True, text=True)
    if done.returncode:
        out.unlink(missing_ok=True)
        extract.stop(f"rustc failed on {source}\n{done.stderr[-4000:]}")
    return out


def builds(folder):
    """The three builds, by name: the program's path of each."""
    published = pieces(folder)
    standin = put_standins(published)
    bare = drop_forward_filter(standin)
    texts = {"published": published, "standin": standin, "no_forward_filter": bare}
    return {name: compile_rust(program(parts), name) for name, parts in texts.items()}
