"""Plausible slips, one for each deliberately wrong build of the Rust.

A slip is a list of edits to the `standin` build: (piece, old text, new text), each old text
standing once; a fourth item picks one of several. Piece `own` is this folder's own Rust
(stand-ins and refusals). Piece `tables` turns the last bit of one entry of a stand-in's table,
piece `entry` moves one entry of a table of the Rust to the next value above."""
import words as w


def up(x):
    """The f32 next above a positive x, as Rust text."""
    return f"f32::from_bits(0x{w.bits(x) + 1:08X})"


def down(x):
    return f"f32::from_bits(0x{w.bits(x) - 1:08X})"


LAG_WINDOW = "*a -= *a * (0.008 * i as f32) * (0.008 * i as f32);"
MOVED = """                    best_num[1] = best_num[0];
                    best_den[1] = best_den[0];
                    best_pitch[1] = best_pitch[0];
"""
TAPS = "x[off + i] + g0 * x[a] + g1 * (x[a - 1] + x[a + 1]) + g2 * (x[a - 2] + x[a + 2])"
IN_PLACE = """for i in 0..overlap {
                        let (x, a, g) = (&self.decode_mem[c], DECODE_BUFFER_SIZE + i - t, -self.pf_gain);
                        let k = COMB_GAINS[self.pf_tapset];
                        pre[i] = x[DECODE_BUFFER_SIZE + i] + g * k[0] * x[a]
                            + g * k[1] * (x[a - 1] + x[a + 1]) + g * k[2] * (x[a - 2] + x[a + 2]);
                        self.decode_mem[c][DECODE_BUFFER_SIZE + i] = pre[i];
                    }"""
PREFILTER = """comb_filter_to(
                        &mut pre,
                        &self.decode_mem[c],
                        DECODE_BUFFER_SIZE,
                        t,
                        -self.pf_gain,
                        self.pf_tapset,
                    );"""
FIR_SUM = """        let mut sum = x;
        for j in 0..ord {
            sum += num[j] * mem[j];
        }
"""

SMOOTH = "0.5 * (0.5 * (x[0][2 * i - 1] + x[0][2 * i + 1]) + x[0][2 * i])"
NEW_FRAME = """                for (i, &ev) in e.iter().enumerate().take(frame) {
                    dm[DECODE_BUFFER_SIZE - frame + i] = ev;
                }
"""
WINDOW = "(std::f64::consts::FRAC_PI_2 * inner * inner).sin() as f32"
SUMMED = "*slot = (0.5 * acc) as f32;\n        }\n"


def mirrored(change):
    """An edit that works outputs out from their mirrors, for each t below n / 2."""
    return [("own", SUMMED, f"{SUMMED}        for t in 0..n / 2 {{\n            {change}\n        }}\n")]


SLIPS = {
    # plc.rs
    "autocorrelation summed backwards": [("plc", "for i in lag..n {", "for i in (lag..n).rev() {")],
    "window on one end only": [("plc", "xx[n - i - 1] = x[n - i - 1] * w[i];", "")],
    "noise floor of 10 left out": [("plc", "ac[0] += 10.0;", "")],
    "reflection summed from its last term": [
        ("plc", "let mut rr = 0f32;", "let mut rr = ac[i + 1];"), ("plc", "rr += ac[i + 1];", "")],
    "NaN error stops the predictor": [
        ("plc", "if error < 0.001 * ac[0] {", "if !(error >= 0.001 * ac[0]) {")],
    "early stop one step late": [
        ("plc", "error -= r * r * error;", "let before = error; error -= r * r * error;"),
        ("plc", "if error < 0.001 * ac[0] {", "if before < 0.001 * ac[0] {")],
    "no early stop": [("plc", "if error < 0.001 * ac[0] {", "if false {")],
    "early stop compared in f64": [
        ("plc", "if error < 0.001 * ac[0] {", "if f64::from(error) < 0.001 * f64::from(ac[0]) {")],
    "error by r times (r times error)": [
        ("plc", "error -= r * r * error;", "error -= r * (r * error);")],
    "zero correlation not set apart": [("plc", "if ac[0] == 0.0 {", "if false {")],
    "all-zero filter summed backwards": [
        ("plc", FIR_SUM, FIR_SUM.replace("0..ord", "(0..ord).rev()"))],
    "all-zero memory shifted before it is read": [
        ("plc", FIR_SUM, ""),
        ("plc", "mem[0] = x;\n        *v = sum;", "mem[0] = x;\n" + FIR_SUM + "        *v = sum;")],
    "all-pole filter summed backwards": [
        ("plc", "for j in 0..ord {\n            sum -= den[j] * mem[j];",
         "for j in (0..ord).rev() {\n            sum -= den[j] * mem[j];")],
    "all-pole products summed first": [
        ("plc", "for j in 0..ord {\n            sum -= den[j] * mem[j];\n        }",
         "let mut all = 0f32;\nfor j in 0..ord { all += den[j] * mem[j]; }\nsum -= all;")],
    "smoother rounded otherwise": [
        ("plc", f"*o = {SMOOTH};",
         "*o = 0.5 * (0.5 * x[0][2 * i - 1] + 0.5 * x[0][2 * i + 1] + x[0][2 * i]);")],
    "second channel's first sample left out": [
        ("plc", "x_lp[0] += 0.5 * (0.5 * x[1][1] + x[1][0]);", "")],
    "lag windowing's factor once (search)": [
        ("plc", LAG_WINDOW, "*a -= *a * (0.008 * i as f32);")],
    "lag windowing's factor once (predictor)": [
        ("methods", LAG_WINDOW, "*a -= *a * (0.008 * i as f32);")],
    "lag windowing by the square (search)": [
        ("plc", LAG_WINDOW, "*a -= *a * ((0.008 * i as f32) * (0.008 * i as f32));")],
    "lag windowing by the square (predictor)": [
        ("methods", LAG_WINDOW, "*a -= *a * ((0.008 * i as f32) * (0.008 * i as f32));")],
    "40 dB floor left out (search)": [("plc", "ac[0] *= 1.0001;", "")],
    "40 dB floor left out (predictor)": [("methods", "ac[0] *= 1.0001;", "")],
    "damping one power late": [("plc", "tmp *= 0.9;\n        *l *= tmp;", "*l *= tmp;\n        tmp *= 0.9;")],
    "one-tap filter left out": [("plc", "celt_fir_inplace(&mut x_lp[..half], &[0.8], &mut mem1);", "")],
    "tie takes the later lag (second)": [
        ("plc", "num * best_den[1] > best_num[1] * syy", "num * best_den[1] >= best_num[1] * syy")],
    "tie takes the later lag (first)": [
        ("plc", "num * best_den[0] > best_num[0] * syy", "num * best_den[0] >= best_num[0] * syy")],
    "less for greater in the tracker": [
        ("plc", "num * best_den[0] > best_num[0] * syy", "num * best_den[0] < best_num[0] * syy")],
    "second best not moved down": [("plc", MOVED, "")],
    "second best's energy not moved down": [("plc", "best_den[1] = best_den[0];", "")],
    "running energy not raised to 1": [("plc", "syy = syy.max(1.0);", "")],
    "running energy in two steps": [
        ("plc", "syy += y[i + len] * y[i + len] - y[i] * y[i];",
         "syy += y[i + len] * y[i + len]; syy -= y[i] * y[i];")],
    "running energy from 0": [("plc", "let mut syy = 1f32;", "let mut syy = 0f32;")],
    "zero correlation counts": [("plc", "if xcorr[i] > 0.0 {", "if xcorr[i] >= 0.0 {")],
    "correlation not raised (fine)": [("plc", "xcorr[i] = sum.max(-1.0);", "xcorr[i] = sum;", 1)],
    "correlation raised to 0 (fine)": [
        ("plc", "xcorr[i] = sum.max(-1.0);", "xcorr[i] = sum.max(0.0);", 1)],
    "refinement's sign turned": [("plc", "2 * best[0] as i32 - offset", "2 * best[0] as i32 + offset")],
    "refinement on the other side": [("plc", "0.7 * (b - a)", "0.7 * (b - c)")],
    "second candidate not refined": [
        ("plc", "&& (i as i32 - 2 * best[1] as i32).abs() > 2", "")],
    "fine sweep one narrower": [
        ("plc", "(i as i32 - 2 * best[0] as i32).abs() > 2", "(i as i32 - 2 * best[0] as i32).abs() > 1")],
    "coarse correlation summed backwards": [
        ("plc", "for j in 0..len >> 2 {", "for j in (0..len >> 2).rev() {")],
    "fine correlation summed backwards": [
        ("plc", "for j in 0..len >> 1 {", "for j in (0..len >> 1).rev() {")],
    "correlation's window from the second sample on": [
        ("plc", "for i in 0..overlap {", "for i in 1..overlap {")],
    "correlation's window one short": [
        ("plc", "for i in 0..overlap {", "for i in 0..overlap.max(1) - 1 {")],
    "window turned round at the near end": [
        ("plc", "xx[i] = x[i] * w[i];", "xx[i] = x[i] * w[overlap - 1 - i];")],
    "window turned round at the far end": [
        ("plc", "x[n - i - 1] * w[i];", "x[n - i - 1] * w[overlap - 1 - i];")],
    "autocorrelation's last product left out": [("plc", "for i in lag..n {", "for i in lag..n - 1 {")],
    "autocorrelation from -0": [("plc", "let mut d = 0f32;", "let mut d = -0f32;")],
    "autocorrelation in f64": [
        ("plc", "let mut d = 0f32;", "let mut d = 0f64;"),
        ("plc", "d += xx[i] * xx[i - lag];", "d += f64::from(xx[i]) * f64::from(xx[i - lag]);"),
        ("plc", "ac[lag] = d;", "ac[lag] = d as f32;")],
    "autocorrelation fused": [
        ("plc", "d += xx[i] * xx[i - lag];", "d = xx[i].mul_add(xx[i - lag], d);")],
    "noise floor added first": [
        ("plc", "let mut d = 0f32;", "let mut d = if lag == 0 { 10f32 } else { 0f32 };"),
        ("plc", "ac[0] += 10.0;", "")],
    "noise floor's next f32": [("plc", "ac[0] += 10.0;", f"ac[0] += {up(10)};")],
    "reflection summed backwards": [
        ("plc", "for j in 0..i {\n            rr", "for j in (0..i).rev() {\n            rr")],
    "reflection from -0": [("plc", "let mut rr = 0f32;", "let mut rr = -0f32;")],
    "reflection fused": [("plc", "rr += lpc[j] * ac[i - j];", "rr = lpc[j].mul_add(ac[i - j], rr);")],
    "reflection in f64": [
        ("plc", "let mut rr = 0f32;", "let mut rr = 0f64;"),
        ("plc", "rr += lpc[j] * ac[i - j];", "rr += f64::from(lpc[j]) * f64::from(ac[i - j]);"),
        ("plc", "rr += ac[i + 1];", "rr += f64::from(ac[i + 1]); let rr = rr as f32;")],
    "reflection as 0 - rr": [("plc", "let r = -rr / error;", "let r = (0.0 - rr) / error;")],
    "mirrored coefficient from the new one": [
        ("plc", "lpc[i - 1 - j] = tmp2 + r * tmp1;", "lpc[i - 1 - j] = tmp2 + r * lpc[j];")],
    "middle coefficient kept": [("plc", "for j in 0..((i + 1) >> 1) {", "for j in 0..(i >> 1) {")],
    "coefficient fused": [("plc", "lpc[j] = tmp1 + r * tmp2;", "lpc[j] = r.mul_add(tmp2, tmp1);")],
    "mirrored coefficient fused": [
        ("plc", "lpc[i - 1 - j] = tmp2 + r * tmp1;", "lpc[i - 1 - j] = r.mul_add(tmp1, tmp2);")],
    "error times 1 - r r": [("plc", "error -= r * r * error;", "error *= 1.0 - r * r;")],
    "error fused": [("plc", "error -= r * r * error;", "error = (-(r * r)).mul_add(error, error);")],
    "equal error stops": [("plc", "if error < 0.001 * ac[0] {", "if error <= 0.001 * ac[0] {")],
    "0.001's next f32": [("plc", "if error < 0.001 * ac[0] {", f"if error < {up(0.001)} * ac[0] {{")],
    "0.001's f32 before": [("plc", "if error < 0.001 * ac[0] {", f"if error < {down(0.001)} * ac[0] {{")],
    "stop by 1000 times the error": [("plc", "if error < 0.001 * ac[0] {", "if error * 1000.0 < ac[0] {")],
    "stop by the error's size": [("plc", "if error < 0.001 * ac[0] {", "if error.abs() < 0.001 * ac[0] {")],
    "coefficients cleared with -0": [("plc", "lpc.fill(0.0);", "lpc.fill(-0.0);")],
    "coefficients not cleared": [("plc", "lpc.fill(0.0);", "")],
    "negative first correlation set apart": [("plc", "if ac[0] == 0.0 {", "if ac[0] <= 0.0 {")],
    "first correlation -0 not set apart": [("plc", "if ac[0] == 0.0 {", "if ac[0].to_bits() == 0 {")],
    "NaN first correlation set apart": [("plc", "if ac[0] == 0.0 {", "if !(ac[0].abs() > 0.0) {")],
    "last coefficient not fitted": [("plc", "for i in 0..p {", "for i in 0..p - 1 {")],
    "all-zero products summed first": [
        ("plc", FIR_SUM, FIR_SUM.replace("= x;", "= 0f32;") + "        sum += x;\n")],
    "all-zero filter fused": [
        ("plc", FIR_SUM, FIR_SUM.replace("sum += num[j] * mem[j];", "sum = num[j].mul_add(mem[j], sum);"))],
    "all-zero filter in f64": [
        ("plc", FIR_SUM, FIR_SUM.replace("= x;", "= f64::from(x);").replace(
            "num[j] * mem[j]", "f64::from(num[j]) * f64::from(mem[j])") + "        let sum = sum as f32;\n")],
    "all-zero filter from 0 + x": [("plc", FIR_SUM, FIR_SUM.replace("= x;", "= 0.0 + x;"))],
    "all-zero memory of its output": [("plc", "mem[0] = x;\n        *v = sum;", "mem[0] = sum;\n        *v = sum;")],
    "all-zero filter skips coefficients of 0": [
        ("plc", "sum += num[j] * mem[j];", "if num[j] != 0.0 { sum += num[j] * mem[j]; }")],
    "all-pole filter fused": [
        ("plc", "sum -= den[j] * mem[j];", "sum = (-den[j]).mul_add(mem[j], sum);")],
    "all-pole filter in f64": [
        ("plc", "let mut sum = *v;\n        for j in 0..ord {\n            sum -= den[j] * mem[j];\n        }",
         "let mut sum = f64::from(*v);\n        for j in 0..ord {\n            sum -= f64::from(den[j])"
         " * f64::from(mem[j]);\n        }\n        let sum = sum as f32;")],
    "all-pole filter from 0 + x": [("plc", "let mut sum = *v;", "let mut sum = 0.0 + *v;")],
    "all-pole memory of its input": [("plc", "mem[0] = sum;\n        *v = sum;", "mem[0] = *v;\n        *v = sum;")],
    "all-pole filter skips coefficients of 0": [
        ("plc", "sum -= den[j] * mem[j];", "if den[j] != 0.0 { sum -= den[j] * mem[j]; }")],
    "smoother by quarters": [
        ("plc", f"*o = {SMOOTH};", "*o = 0.25 * (x[0][2 * i - 1] + x[0][2 * i + 1]) + 0.5 * x[0][2 * i];")],
    "smoother summed left to right": [
        ("plc", f"*o = {SMOOTH};",
         "*o = 0.5 * ((0.5 * x[0][2 * i - 1] + x[0][2 * i]) + 0.5 * x[0][2 * i + 1]);")],
    "smoother in f64": [
        ("plc", f"*o = {SMOOTH};",
         "*o = (0.25 * (f64::from(x[0][2 * i - 1]) + f64::from(x[0][2 * i + 1]))"
         " + 0.5 * f64::from(x[0][2 * i])) as f32;")],
    "smoother one sample early": [("plc", "+ x[0][2 * i]);", "+ x[0][2 * i - 1]);")],
    "first half-rate sample left at 0": [("plc", "x_lp[0] = 0.5 * (0.5 * x[0][1] + x[0][0]);", "")],
    "first half-rate sample mirrored": [
        ("plc", "x_lp[0] = 0.5 * (0.5 * x[0][1] + x[0][0]);", "x_lp[0] = 0.5 * (x[0][1] + x[0][0]);")],
    "last half-rate sample left out": [
        ("plc", "for (i, o) in x_lp.iter_mut().enumerate().take(half).skip(1) {",
         "for (i, o) in x_lp.iter_mut().enumerate().take(half - 1).skip(1) {", 0)],
    "second channel's last sample left out": [
        ("plc", "for (i, o) in x_lp.iter_mut().enumerate().take(half).skip(1) {",
         "for (i, o) in x_lp.iter_mut().enumerate().take(half - 1).skip(1) {", 1)],
    "channels summed before the smoother": [
        ("plc", f"*o += {SMOOTH.replace('x[0]', 'x[1]')};",
         "let s = |k: usize| x[0][k] + x[1][k];\n"
         "            *o = 0.5 * (0.5 * (s(2 * i - 1) + s(2 * i + 1)) + s(2 * i));")],
    "1.0001's next f32 (search)": [("plc", "ac[0] *= 1.0001;", f"ac[0] *= {up(1.0001)};")],
    "1.0001's next f32 (predictor)": [("methods", "ac[0] *= 1.0001;", f"ac[0] *= {up(1.0001)};")],
    "1.0001's f32 before (search)": [("plc", "ac[0] *= 1.0001;", f"ac[0] *= {down(1.0001)};")],
    "1.0001's f32 before (predictor)": [("methods", "ac[0] *= 1.0001;", f"ac[0] *= {down(1.0001)};")],
    "0.008's next f32 (search)": [("plc", LAG_WINDOW, LAG_WINDOW.replace("0.008", up(0.008)))],
    "0.008's next f32 (predictor)": [("methods", LAG_WINDOW, LAG_WINDOW.replace("0.008", up(0.008)))],
    "0.008's f32 before (search)": [("plc", LAG_WINDOW, LAG_WINDOW.replace("0.008", down(0.008)))],
    "0.008's f32 before (predictor)": [("methods", LAG_WINDOW, LAG_WINDOW.replace("0.008", down(0.008)))],
    "lag windowing from 0 (search)": [("plc", LAG_WINDOW, LAG_WINDOW.replace("i as", "(i - 1) as"))],
    "lag windowing from 0 (predictor)": [("methods", LAG_WINDOW, LAG_WINDOW.replace("i as", "(i - 1) as"))],
    "lag windowing as one factor (search)": [
        ("plc", LAG_WINDOW, "*a *= 1.0 - (0.008 * i as f32) * (0.008 * i as f32);")],
    "lag windowing as one factor (predictor)": [
        ("methods", LAG_WINDOW, "*a *= 1.0 - (0.008 * i as f32) * (0.008 * i as f32);")],
    "lag windowing fused (search)": [
        ("plc", LAG_WINDOW, "*a = (-(*a * (0.008 * i as f32))).mul_add(0.008 * i as f32, *a);")],
    "lag windowing fused (predictor)": [
        ("methods", LAG_WINDOW, "*a = (-(*a * (0.008 * i as f32))).mul_add(0.008 * i as f32, *a);")],
    "lag windowing in f64 (search)": [
        ("plc", LAG_WINDOW, "*a = (f64::from(*a) * (1.0 - (0.008 * i as f64) * (0.008 * i as f64))) as f32;")],
    "lag windowing in f64 (predictor)": [
        ("methods", LAG_WINDOW, "*a = (f64::from(*a) * (1.0 - (0.008 * i as f64) * (0.008 * i as f64))) as f32;")],
    "lag windowing without the last (predictor)": [
        ("methods", "for (i, a) in ac.iter_mut().enumerate().skip(1) {",
         "for (i, a) in ac.iter_mut().enumerate().skip(1).take(23) {")],
    "lag windowing without the last (search)": [
        ("plc", "for (i, a) in ac.iter_mut().enumerate().skip(1) {",
         "for (i, a) in ac.iter_mut().enumerate().skip(1).take(3) {")],
    "0.9's next f32": [("plc", "tmp *= 0.9;", f"tmp *= {up(0.9)};")],
    "0.9's f32 before": [("plc", "tmp *= 0.9;", f"tmp *= {down(0.9)};")],
    "damping in f64": [
        ("plc", "let mut tmp = 1.0f32;", "let mut tmp = 1.0f64;"),
        ("plc", "*l *= tmp;", "*l = (f64::from(*l) * tmp) as f32;")],
    "0.8's next f32 (search)": [("plc", "&[0.8]", f"&[{up(0.8)}]")],
    "0.8's f32 before (search)": [("plc", "&[0.8]", f"&[{down(0.8)}]")],
    "one-tap filter first": [
        ("plc", "celt_fir_inplace(&mut x_lp[..half], &lpc, &mut mem);", ""),
        ("plc", "celt_fir_inplace(&mut x_lp[..half], &[0.8], &mut mem1);",
         "celt_fir_inplace(&mut x_lp[..half], &[0.8], &mut mem1);\n"
         "    celt_fir_inplace(&mut x_lp[..half], &lpc, &mut mem);")],
    "both candidates begin at 0": [("plc", "let mut best_pitch = [0usize, 1];", "let mut best_pitch = [0usize, 0];")],
    "candidates begin at 1 and 0": [("plc", "let mut best_pitch = [0usize, 1];", "let mut best_pitch = [1usize, 0];")],
    "first energy summed backwards": [
        ("plc", "for &v in y.iter().take(len) {", "for &v in y[..len].iter().rev() {")],
    "first energy one short": [("plc", "for &v in y.iter().take(len) {", "for &v in y.iter().take(len - 1) {")],
    "first energy fused": [("plc", "syy += v * v;", "syy = v.mul_add(v, syy);")],
    "first energy's one added last": [
        ("plc", "let mut syy = 1f32;", "let mut syy = 0f32;"),
        ("plc", "        syy += v * v;\n    }", "        syy += v * v;\n    }\n    syy += 1.0;")],
    "running energy fused": [
        ("plc", "syy += y[i + len] * y[i + len] - y[i] * y[i];",
         "syy += y[i + len].mul_add(y[i + len], -(y[i] * y[i]));")],
    "running energy by sum and difference": [
        ("plc", "syy += y[i + len] * y[i + len] - y[i] * y[i];",
         "syy += (y[i + len] - y[i]) * (y[i + len] + y[i]);")],
    "running energy one sample early": [
        ("plc", "syy += y[i + len] * y[i + len] -", "syy += y[i + len - 1] * y[i + len - 1] -")],
    "running energy's NaN let through": [("plc", "syy = syy.max(1.0);", "if syy < 1.0 { syy = 1.0; }")],
    "running energy raised to 1's next f32": [("plc", "syy = syy.max(1.0);", f"syy = syy.max({up(1)});")],
    "candidates compared by quotients": [
        ("plc", "num * best_den[1] > best_num[1] * syy", "num / syy > best_num[1] / best_den[1]"),
        ("plc", "num * best_den[0] > best_num[0] * syy", "num / syy > best_num[0] / best_den[0]")],
    "second candidate compared in f64": [
        ("plc", "num * best_den[1] > best_num[1] * syy",
         "f64::from(num) * f64::from(best_den[1]) > f64::from(best_num[1]) * f64::from(syy)")],
    "first candidate compared in f64": [
        ("plc", "num * best_den[0] > best_num[0] * syy",
         "f64::from(num) * f64::from(best_den[0]) > f64::from(best_num[0]) * f64::from(syy)")],
    "second candidate's tie by not less or equal": [
        ("plc", "num * best_den[1] > best_num[1] * syy", "!(num * best_den[1] <= best_num[1] * syy)")],
    "first candidate's tie by not less or equal": [
        ("plc", "num * best_den[0] > best_num[0] * syy", "!(num * best_den[0] <= best_num[0] * syy)")],
    "first best's energy not kept": [("plc", "best_den[0] = syy;", "")],
    "second best's correlation not moved down": [("plc", "best_num[1] = best_num[0];", "")],
    "second best's place not moved down": [("plc", "best_pitch[1] = best_pitch[0];", "")],
    "last lag not asked": [("plc", "for i in 0..max_pitch {", "for i in 0..max_pitch - 1 {")],
    "first lag not asked": [
        ("plc", "if xcorr[i] > 0.0 {", "if i > 0 && xcorr[i] > 0.0 {")],
    "quarter rate from the odd samples": [
        ("plc", "x_lp[2 * j]).collect()", "x_lp[2 * j + 1]).collect()"),
        ("plc", "y[2 * j]).collect()", "y[2 * j + 1]).collect()")],
    "coarse correlation in f64": [
        ("plc", "let mut sum = 0f32;\n        for j in 0..len >> 2 {\n            sum += x_lp4[j] * y_lp4[i + j];\n        }",
         "let mut sum = 0f64;\n        for j in 0..len >> 2 {\n            sum += f64::from(x_lp4[j]) * f64::from(y_lp4[i + j]);\n"
         "        }\n        let sum = sum as f32;")],
    "fine correlation in f64": [
        ("plc", "let mut sum = 0f32;\n        for j in 0..len >> 1 {\n            sum += x_lp[j] * y[i + j];\n        }",
         "let mut sum = 0f64;\n        for j in 0..len >> 1 {\n            sum += f64::from(x_lp[j]) * f64::from(y[i + j]);\n"
         "        }\n        let sum = sum as f32;")],
    "coarse correlation fused": [
        ("plc", "sum += x_lp4[j] * y_lp4[i + j];", "sum = x_lp4[j].mul_add(y_lp4[i + j], sum);")],
    "fine correlation fused": [("plc", "sum += x_lp[j] * y[i + j];", "sum = x_lp[j].mul_add(y[i + j], sum);")],
    "coarse correlation one short": [("plc", "for j in 0..len >> 2 {", "for j in 0..(len >> 2) - 1 {")],
    "fine correlation one short": [("plc", "for j in 0..len >> 1 {", "for j in 0..(len >> 1) - 1 {")],
    "coarse search one lag short": [("plc", "for i in 0..max_pitch >> 2 {", "for i in 0..(max_pitch >> 2) - 1 {")],
    "fine search one lag short": [("plc", "for i in 0..max_pitch >> 1 {", "for i in 0..(max_pitch >> 1) - 1 {")],
    "coarse correlations left in the fine ones": [("plc", "xcorr[i] = 0.0;\n", "")],
    "fine sweep one wider": [
        ("plc", "(i as i32 - 2 * best[0] as i32).abs() > 2", "(i as i32 - 2 * best[0] as i32).abs() > 3")],
    "second's sweep one narrower": [
        ("plc", "(i as i32 - 2 * best[1] as i32).abs() > 2", "(i as i32 - 2 * best[1] as i32).abs() > 1")],
    "second's sweep one wider": [
        ("plc", "(i as i32 - 2 * best[1] as i32).abs() > 2", "(i as i32 - 2 * best[1] as i32).abs() > 3")],
    "fine sweep's lower end open": [
        ("plc", "(i as i32 - 2 * best[0] as i32).abs() > 2", "!(-2..2).contains(&(i as i32 - 2 * best[0] as i32))")],
    "fine energy one sample less": [
        ("plc", "find_best_pitch(&xcorr, y, len >> 1, max_pitch >> 1)",
         "find_best_pitch(&xcorr, y, (len >> 1) - 1, max_pitch >> 1)")],
    "fine correlation's NaN let through": [
        ("plc", "xcorr[i] = sum.max(-1.0);", "xcorr[i] = if sum < -1.0 { -1.0 } else { sum };", 1)],
    "fine correlation raised to -2": [("plc", "xcorr[i] = sum.max(-1.0);", "xcorr[i] = sum.max(-2.0);", 1)],
    "refinement from offset 2 on": [("plc", "if best[0] > 0 && best[0] <", "if best[0] > 1 && best[0] <")],
    "refinement up to 307": [("plc", "best[0] < (max_pitch >> 1) - 1 {", "best[0] < (max_pitch >> 1) - 2 {")],
    "0.7's next f32 (later)": [("plc", "c - a > 0.7 * (b - a)", f"c - a > {up(0.7)} * (b - a)", 0)],
    "0.7's f32 before (later)": [("plc", "c - a > 0.7 * (b - a)", f"c - a > {down(0.7)} * (b - a)", 0)],
    "0.7's next f32 (earlier)": [("plc", "a - c > 0.7 * (b - c)", f"a - c > {up(0.7)} * (b - c)", 0)],
    "0.7's f32 before (earlier)": [("plc", "a - c > 0.7 * (b - c)", f"a - c > {down(0.7)} * (b - c)", 0)],
    "refinement at a tie (later)": [("plc", "c - a > 0.7 * (b - a)", "c - a >= 0.7 * (b - a)", 0)],
    "refinement at a tie (earlier)": [("plc", "a - c > 0.7 * (b - c)", "a - c >= 0.7 * (b - c)", 0)],
    "refinement in f64 (later)": [
        ("plc", "c - a > 0.7 * (b - a)", "f64::from(c) - f64::from(a) > 0.7 * (f64::from(b) - f64::from(a))", 0)],
    "refinement in f64 (earlier)": [
        ("plc", "a - c > 0.7 * (b - c)", "f64::from(a) - f64::from(c) > 0.7 * (f64::from(b) - f64::from(c))", 0)],
    "refinement at NaN (later)": [("plc", "c - a > 0.7 * (b - a)", "!(c - a <= 0.7 * (b - a))", 0)],
    "refinement at NaN (earlier)": [("plc", "a - c > 0.7 * (b - c)", "!(a - c <= 0.7 * (b - c))", 0)],
    "refinement asks the earlier side first": [
        ("plc", "if c - a > 0.7 * (b - a) {\n            1\n        } else if a - c > 0.7 * (b - c) {\n            -1",
         "if a - c > 0.7 * (b - c) {\n            -1\n        } else if c - a > 0.7 * (b - a) {\n            1")],
    "search from one half-rate sample early": [
        ("methods", "&x_lp[poffset >> 1..],", "&x_lp[(poffset >> 1) - 1..],")],
    "shortest lag one step longer": [("methods", "poffset - 100,", "poffset - 102,")],
    "shortest lag one step shorter": [("methods", "poffset - 100,", "poffset - 98,")],
    "search over the overlap too": [("methods", "&d[..DECODE_BUFFER_SIZE]", "&d[120..]")],
    "search on the first channel alone": [
        ("methods", ".iter()\n                        .map(|d|", ".iter().take(1)\n                        .map(|d|")],
    # band_quant.rs
    "1e-15 left out": [("band_quant", "1e-15f64", "0f64")],
    "band energy in f32": [
        ("band_quant", "let mut e = 1e-15f64;", "let mut e = 1e-15f32;"),
        ("band_quant", "e += f64::from(v) * f64::from(v);", "e += v * v;")],
    "band energy summed backwards": [("band_quant", "in x.iter() {", "in x.iter().rev() {")],
    "divided value by value": [("band_quant", "*v *= g;", "*v /= (e as f32).sqrt();")],
    "draw's factor one less": [("band_quant", "1_664_525", "1_664_524")],
    "draw's summand one less": [("band_quant", "1_013_904_223", "1_013_904_222")],
    "1e-15 as 1e-14": [("band_quant", "1e-15f64", "1e-14f64")],
    "band's root in f64": [("band_quant", "gain / (e as f32).sqrt()", "gain / e.sqrt() as f32")],
    "band's values scaled in f64": [("band_quant", "*v *= g;", "*v = (f64::from(*v) / e.sqrt()) as f32;")],
    "band's last value left out of its energy": [("band_quant", "in x.iter() {", "in x[..x.len() - 1].iter() {")],
    # Noise path
    "noise shifted by 19": [("methods", "seed as i32 >> 20", "seed as i32 >> 19")],
    "noise unsigned": [("methods", "seed as i32 >> 20", "seed >> 20")],
    "draws only up to end": [("methods", "start..self.mode.eff_ebands", "start..end")],
    "drop of 1.5 at count 1 too": [
        ("methods", "if self.loss_count == 0 { 1.5 }", "if self.loss_count <= 1 { 1.5 }")],
    "noise path one loss late": [
        ("methods", "self.loss_count >= 5 || start != 0", "self.loss_count > 5 || start != 0")],
    "background one loss late": [("methods", "if self.loss_count >= 5 {", "if self.loss_count > 5 {")],
    "unused channel's energies drop": [
        ("methods", ".zip(self.coarse.energy.iter_mut())\n                    .take(channels)",
         ".zip(self.coarse.energy.iter_mut())\n                    .take(2)")],
    "energies drop above end": [
        ("methods", "for i in start..end.min(nb) {\n                        ce[i]",
         "for i in start..nb {\n                        ce[i]")],
    "bound by downsample left out": [("methods", "if downsample != 1 {", "if false {")],
    "bound one bin early": [("methods", "bound.min(frame / downsample)", "bound.min(frame / downsample - 1)")],
    "second channel from the same seed": [
        ("methods", "let mut x = vec![0f32; frame];", "seed = self.rng; let mut x = vec![0f32; frame];")],
    "seed not carried": [("methods", "self.rng = seed;", "")],
    "doubled after the window": [
        ("methods", "2.0 * u[p + j] * self.long_window[p + j]", "2.0 * (u[p + j] * self.long_window[p + j])")],
    "overlap added backwards": [
        ("methods", "xbuf[j] + dm[DECODE_BUFFER_SIZE + j]", "xbuf[j] + dm[DECODE_BUFFER_SIZE + overlap - 1 - j]")],
    "overlap not added": [("methods", "xbuf[j] + dm[DECODE_BUFFER_SIZE + j]", "xbuf[j]")],
    "noise value from the seed before": [
        ("methods", "seed = celt_lcg_rand(seed);\n                        *v = (seed as i32 >> 20) as f32;",
         "*v = (seed as i32 >> 20) as f32;\n                        seed = celt_lcg_rand(seed);")],
    "noise value with its fraction": [
        ("methods", "(seed as i32 >> 20) as f32", "seed as i32 as f32 / 1_048_576.0")],
    "draws from band 0 on": [("methods", "start..self.mode.eff_ebands", "0..self.mode.eff_ebands")],
    "noise path at count 4": [
        ("methods", "self.loss_count >= 5 || start != 0", "self.loss_count >= 4 || start != 0")],
    "noise path from start 2 on": [
        ("methods", "self.loss_count >= 5 || start != 0", "self.loss_count >= 5 || start > 1")],
    "background at count 4": [("methods", "if self.loss_count >= 5 {", "if self.loss_count >= 4 {")],
    "1.5's next f32": [("methods", "{ 1.5 }", f"{{ {up(1.5)} }}")],
    "0.5's next f32": [("methods", "{ 0.5 }", f"{{ {up(0.5)} }}")],
    "drop not kept": [
        ("methods", "ce[i] -= decay;", "let dropped = ce[i] - decay;"),
        ("methods", "band_gain(ce[i] + E_MEANS[i])", "band_gain(dropped + E_MEANS[i])")],
    "mean added before the drop": [
        ("methods", "ce[i] -= decay;", "let before = ce[i]; ce[i] -= decay;"),
        ("methods", "band_gain(ce[i] + E_MEANS[i])", "band_gain(before + E_MEANS[i] - decay)")],
    "drop taken from the mean": [
        ("methods", "ce[i] -= decay;", "let before = ce[i]; ce[i] -= decay;"),
        ("methods", "band_gain(ce[i] + E_MEANS[i])", "band_gain(before + (E_MEANS[i] - decay))")],
    "first band's energy kept": [
        ("methods", "for i in start..end.min(nb) {\n                        ce[i]",
         "for i in start + 1..end.min(nb) {\n                        ce[i]")],
    "last band's energy kept": [
        ("methods", "for i in start..end.min(nb) {\n                        ce[i]",
         "for i in start..end.min(nb) - 1 {\n                        ce[i]")],
    "last band's background left out": [
        ("methods", "for i in start..end.min(nb) {\n                        be[i]",
         "for i in start..end.min(nb) - 1 {\n                        be[i]")],
    "first channel's gains for both": [("methods", "band_e[c].iter()", "band_e[0].iter()")],
    "mean of the band above": [("methods", "band_gain(ce[i] + E_MEANS[i])", "band_gain(ce[i] + E_MEANS[i + 1])")],
    "norm and gain as one factor": [
        ("methods", "renormalise_vector(&mut x[lo..hi], 1.0);",
         "renormalise_vector(&mut x[lo..hi], if i < end { band_e[c][i] } else { 1.0 });"),
        ("methods", "freq[j] = x[j] * g;", "let _ = g; freq[j] = x[j];")],
    "last band's gain left out": [("methods", ".take(end).skip(start)", ".take(end - 1).skip(start)")],
    "bound one bin late": [("methods", "bound.min(frame / downsample)", "bound.min(frame / downsample + 1)")],
    "bound from factor 3 on": [("methods", "if downsample != 1 {", "if downsample > 2 {")],
    "block read one sample late": [
        ("methods", "2.0 * u[p + j] *", "2.0 * u[(p + j + 1) % (2 * frame)] *")],
    "window one sample late": [
        ("methods", "self.long_window[p + j];", "self.long_window[(p + j + 1) % (2 * frame)];")],
    "overlap added to 0 first": [
        ("methods", "xbuf[j] + dm[DECODE_BUFFER_SIZE + j]", "0.0 + xbuf[j] + dm[DECODE_BUFFER_SIZE + j]")],
    "overlap of 0 not added": [
        ("methods", "xbuf[j] + dm[DECODE_BUFFER_SIZE + j]",
         "if dm[DECODE_BUFFER_SIZE + j] == 0.0 { xbuf[j] } else { xbuf[j] + dm[DECODE_BUFFER_SIZE + j] }")],
    "overlap's last sample not added": [
        ("methods", "for j in 0..overlap {\n                    dm[out_start",
         "for j in 0..overlap - 1 {\n                    dm[out_start")],
    "overlap not replaced": [
        ("methods", "dm[DECODE_BUFFER_SIZE..DECODE_BUFFER_SIZE + overlap]\n                    .copy_from_slice(&xbuf[frame..frame + overlap]);",
         "")],
    "noise path rolls the newest 1,024": [
        ("methods", "let out_start = DECODE_BUFFER_SIZE - frame;\n                for j",
         "let out_start = DECODE_BUFFER_SIZE - frame;\n                dm.copy_within(1024 + frame..DECODE_BUFFER_SIZE, 1024);\n                for j")],
    "lag cleared by the noise path": [("methods", "self.rng = seed;", "self.rng = seed; self.last_pitch_index = 0;")],
    # Pitch path
    "fade folded into the decay": [
        ("methods", "*ev = decay * exc[idx];", "*ev = decay * fade * exc[idx];"),
        ("methods", "*ev *= fade;", "")],
    "filter memory from before the excitation": [
        ("methods", "self.decode_mem[c][out_mem_base + MAX_PERIOD - 1 - i]",
         "self.decode_mem[c][out_mem_base - 1 - i]", 0)],
    "cycle limit one lower": [("methods", "pitch_index.min(MAX_PERIOD / 2)", "pitch_index.min(MAX_PERIOD / 2 - 1)")],
    "cycle energies from 0": [("methods", "(1f32, 1f32)", "(0f32, 0f32)")],
    "decay above 1 let through": [("methods", "e1 = e1.min(e2);", "")],
    "decay multiplied, not squared": [
        ("methods", "let mut decay = (e1 / e2).sqrt();", "let mut decay = (e1 / e2).sqrt(); let once = decay;"),
        ("methods", "decay *= decay;", "decay *= once;")],
    "decay kept at a wrap": [("methods", "decay *= decay;", "")],
    "guard as s1 <= 0.2 s2": [("methods", "!(s1 > 0.2 * s2)", "s1 <= 0.2 * s2")],
    "guard lets equal through": [("methods", "!(s1 > 0.2 * s2)", "!(s1 >= 0.2 * s2)")],
    "guard compared in f64": [
        ("methods", "!(s1 > 0.2 * s2)", "!(f64::from(s1) > 0.2 * f64::from(s2))")],
    "ratio without the ones": [("methods", "((s1 + 1.0) / (s2 + 1.0)).sqrt()", "(s1 / s2).sqrt()")],
    "synthesis energy summed backwards": [("methods", "for &ev in e.iter() {", "for &ev in e.iter().rev() {")],
    "roll one short": [
        ("methods", "out_mem_base + frame..out_mem_base", "out_mem_base + frame - 1..out_mem_base")],
    "fold's sign turned": [
        ("methods", "+ self.window[overlap - i - 1] * e[frame + i]", "- self.window[overlap - i - 1] * e[frame + i]")],
    "fold's halves exchanged": [
        ("methods", "self.window[overlap - i - 1] * tmp;", "self.window[i] * tmp;"),
        ("methods", "overlap - i - 1] =\n                        self.window[i] * tmp;",
         "overlap - i - 1] =\n                        self.window[overlap - i - 1] * tmp;")],
    "pre-filter's taps summed first": [
        ("ref_decode", TAPS, TAPS.replace("x[off + i] + g0", "x[off + i] + (g0") + ")")],
    "pre-filter in place": [("methods", PREFILTER, IN_PLACE)],
    "pre-filter with the gain as it is": [("methods", "-self.pf_gain,", "self.pf_gain,")],
    "pre-filter at gain 0": [("methods", "if self.pf_gain != 0.0 {", "if true {", 1)],
    "pre-filter not at NaN": [("methods", "if self.pf_gain != 0.0 {", "if self.pf_gain.abs() > 0.0 {", 1)],
    "pre-filter only above 0": [("methods", "if self.pf_gain != 0.0 {", "if self.pf_gain > 0.0 {", 1)],
    "lag found anew at each loss": [
        ("methods", "if self.loss_count == 0 {\n                // Pitch over", "if true {\n                // Pitch over")],
    "predictor fitted anew at each loss": [
        ("methods", "if self.loss_count == 0 {\n                    let mut ac", "if true {\n                    let mut ac")],
    "predictor fitted without a window": [("methods", "Some(&self.window), overlap", "None, 0")],
    "first channel's predictor for both": [("methods", "let lpc = self.plc_lpc[c];", "let lpc = self.plc_lpc[0];")],
    "predictor of both channels in the first's place": [
        ("methods", "celt_lpc(&mut self.plc_lpc[c], &ac)", "celt_lpc(&mut self.plc_lpc[0], &ac)")],
    "first loss by the predictor of before": [
        ("methods", "let mut exc = [0f32; MAX_PERIOD];", "let before = self.plc_lpc[c]; let mut exc = [0f32; MAX_PERIOD];"),
        ("methods", "let lpc = self.plc_lpc[c];", "let lpc = before;")],
    "fitted predictor not kept": [
        ("methods", "let mut exc = [0f32; MAX_PERIOD];", "let before = self.plc_lpc[c]; let mut exc = [0f32; MAX_PERIOD];"),
        ("methods", "let lpc = self.plc_lpc[c];", "let lpc = self.plc_lpc[c]; self.plc_lpc[c] = before;")],
    "all-zero memory oldest first": [
        ("methods", "self.decode_mem[c][out_mem_base + MAX_PERIOD - 1 - i]",
         "self.decode_mem[c][out_mem_base + MAX_PERIOD - 24 + i]", 0)],
    "all-pole memory oldest first": [
        ("methods", "self.decode_mem[c][out_mem_base + MAX_PERIOD - 1 - i]",
         "self.decode_mem[c][out_mem_base + MAX_PERIOD - 24 + i]", 1)],
    "all-pole memory one sample early": [
        ("methods", "self.decode_mem[c][out_mem_base + MAX_PERIOD - 1 - i]",
         "self.decode_mem[c][out_mem_base + MAX_PERIOD - 2 - i]", 1)],
    "all-zero memory one sample early": [
        ("methods", "self.decode_mem[c][out_mem_base + MAX_PERIOD - 1 - i]",
         "self.decode_mem[c][out_mem_base + MAX_PERIOD - 2 - i]", 0)],
    "cycle energies summed backwards": [("methods", "for i in 0..period {", "for i in (0..period).rev() {")],
    "cycle energies one short": [("methods", "for i in 0..period {", "for i in 0..period - 1 {")],
    "cycle energies from the second sample on": [("methods", "for i in 0..period {", "for i in 1..period {")],
    "later cycle's energy fused": [("methods", "e1 += a * a;", "e1 = a.mul_add(a, e1);")],
    "earlier cycle's energy fused": [("methods", "e2 += b * b;", "e2 = b.mul_add(b, e2);")],
    "cycle energies' ones added last": [
        ("methods", "(1f32, 1f32)", "(0f32, 0f32)"), ("methods", "e1 = e1.min(e2);", "e1 += 1.0; e2 += 1.0; e1 = e1.min(e2);")],
    "cycle energies in f64": [
        ("methods", "(1f32, 1f32)", "(1f64, 1f64)"),
        ("methods", "e1 += a * a;", "e1 += f64::from(a) * f64::from(a);"),
        ("methods", "e2 += b * b;", "e2 += f64::from(b) * f64::from(b);"),
        ("methods", "e1 = e1.min(e2);", "let (mut e1, e2) = (e1 as f32, e2 as f32); e1 = e1.min(e2);")],
    "earlier cycle one sample late": [
        ("methods", "exc[MAX_PERIOD - 2 * period + i]", "exc[MAX_PERIOD - 2 * period + i + 1]")],
    "NaN of the later cycle let through": [("methods", "e1 = e1.min(e2);", "if e1 > e2 { e1 = e2; }")],
    "decay by two roots": [("methods", "let mut decay = (e1 / e2).sqrt();", "let mut decay = e1.sqrt() / e2.sqrt();")],
    "decay in f64": [
        ("methods", "let mut decay = (e1 / e2).sqrt();",
         "let mut decay = (f64::from(e1) / f64::from(e2)).sqrt() as f32;")],
    "decay from the second cycle on": [
        ("methods", "let mut decay = (e1 / e2).sqrt();", "let once = (e1 / e2).sqrt(); let mut decay = 1f32;"),
        ("methods", "decay *= decay;", "decay = if decay == 1.0 { once } else { decay * decay };")],
    "wrap one sample early": [
        ("methods", "if offset + i as isize >= MAX_PERIOD as isize {", "if offset + i as isize >= MAX_PERIOD as isize - 1 {")],
    "copy begins one sample late": [
        ("methods", "MAX_PERIOD as isize - pitch_index as isize;", "MAX_PERIOD as isize - pitch_index as isize + 1;")],
    "copy begins one sample early": [
        ("methods", "MAX_PERIOD as isize - pitch_index as isize;", "MAX_PERIOD as isize - pitch_index as isize - 1;")],
    "copy goes back one sample less": [
        ("methods", "offset -= pitch_index as isize;", "offset -= pitch_index as isize - 1;")],
    "copied energy of the excitation": [
        ("methods", "let tmp = self.decode_mem[c][out_mem_base + idx];", "let tmp = exc[idx];")],
    "copied energy fused": [("methods", "s1 += tmp * tmp;", "s1 = tmp.mul_add(tmp, s1);")],
    "copied energy summed backwards": [
        ("methods", "let mut s1 = 0f32;", "let mut s1 = 0f32; let mut copied: Vec<f32> = Vec::new();"),
        ("methods", "s1 += tmp * tmp;", "copied.push(tmp);"),
        ("methods", "let mut s2 = 0f32;", "for tmp in copied.iter().rev() { s1 += tmp * tmp; } let mut s2 = 0f32;")],
    "copied energy in f64": [
        ("methods", "let mut s1 = 0f32;", "let mut s1 = 0f64;"),
        ("methods", "s1 += tmp * tmp;", "s1 += f64::from(tmp) * f64::from(tmp);"),
        ("methods", "let mut s2 = 0f32;", "let s1 = s1 as f32; let mut s2 = 0f32;")],
    "synthesis energy fused": [("methods", "s2 += ev * ev;", "s2 = ev.mul_add(ev, s2);")],
    "synthesis energy in f64": [
        ("methods", "let mut s2 = 0f32;", "let mut s2 = 0f64;"),
        ("methods", "s2 += ev * ev;", "s2 += f64::from(ev) * f64::from(ev);"),
        ("methods", "// Written to catch", "let s2 = s2 as f32;\n                // Written to catch")],
    "synthesis energy without the last sample": [
        ("methods", "for &ev in e.iter() {", "for &ev in e[..len + overlap - 1].iter() {")],
    "fade of 0.8's next f32": [("methods", "fade = 0.8;", f"fade = {up(0.8)};")],
    "fade of 0.8's f32 before": [("methods", "fade = 0.8;", f"fade = {down(0.8)};")],
    "fade at the first loss too": [("methods", "let mut fade = 1.0f32;", "let mut fade = 0.8f32;")],
    "fade from count 2 on": [("methods", "fade = 0.8;", "fade = if self.loss_count > 1 { 0.8 } else { 1.0 };")],
    "fade after the all-pole filter": [
        ("methods", "for ev in e.iter_mut() {\n                    *ev *= fade;\n                }", ""),
        ("methods", "let mut s2 = 0f32;", "for ev in e.iter_mut() { *ev *= fade; } let mut s2 = 0f32;")],
    "0.2's next f32": [("methods", "!(s1 > 0.2 * s2)", f"!(s1 > {up(0.2)} * s2)")],
    "0.2's f32 before": [("methods", "!(s1 > 0.2 * s2)", f"!(s1 > {down(0.2)} * s2)")],
    "guard as 5 s1 > s2": [("methods", "!(s1 > 0.2 * s2)", "!(5.0 * s1 > s2)")],
    "guard's silence by a product": [("methods", "e.fill(0.0);", "for ev in e.iter_mut() { *ev *= 0.0; }")],
    "guard's silence of -0": [("methods", "e.fill(0.0);", "e.fill(-0.0);")],
    "guard's silence of the frame alone": [("methods", "e.fill(0.0);", "e[..frame].fill(0.0);")],
    "ratio by two roots": [
        ("methods", "((s1 + 1.0) / (s2 + 1.0)).sqrt()", "(s1 + 1.0).sqrt() / (s2 + 1.0).sqrt()")],
    "ratio in f64": [
        ("methods", "((s1 + 1.0) / (s2 + 1.0)).sqrt()",
         "((f64::from(s1) + 1.0) / (f64::from(s2) + 1.0)).sqrt() as f32")],
    "ratio's one above only": [("methods", "(s2 + 1.0)).sqrt()", "s2).sqrt()")],
    "roll of the whole history": [
        ("methods", "out_mem_base + frame..out_mem_base + MAX_PERIOD + overlap,\n                    out_mem_base,",
         "frame..out_mem_base + MAX_PERIOD + overlap,\n                    0,")],
    "roll one place low": [
        ("methods", "MAX_PERIOD + overlap,\n                    out_mem_base,", "MAX_PERIOD + overlap,\n                    out_mem_base - 1,")],
    "fold without its middle": [("methods", "for i in 0..overlap / 2 {", "for i in 0..overlap / 2 - 1 {")],
    "fold from the second sample on": [("methods", "for i in 0..overlap / 2 {", "for i in 1..overlap / 2 {")],
    "fold's later sample one early": [("methods", "e[frame + overlap - 1 - i]", "e[frame + overlap - 2 - i]")],
    "fold's earlier sample one late": [
        ("methods", "self.window[overlap - i - 1] * e[frame + i];", "self.window[overlap - i - 1] * e[frame + i + 1];")],
    "fold fused (later)": [
        ("methods", "self.window[i] * e[frame + overlap - 1 - i]\n                        + self.window[overlap - i - 1] * e[frame + i];",
         "self.window[i].mul_add(e[frame + overlap - 1 - i],\n                        self.window[overlap - i - 1] * e[frame + i]);")],
    "fold fused (earlier)": [
        ("methods", "self.window[i] * e[frame + overlap - 1 - i]\n                        + self.window[overlap - i - 1] * e[frame + i];",
         "self.window[overlap - i - 1].mul_add(e[frame + i],\n                        self.window[i] * e[frame + overlap - 1 - i]);")],
    "fold from 0": [
        ("methods", "let tmp = self.window[i] * e[frame", "let tmp = 0.0 + self.window[i] * e[frame")],
    "last new sample left out": [
        ("methods", "e.iter().enumerate().take(frame) {\n                    dm", "e.iter().enumerate().take(frame - 1) {\n                    dm")],
    "pre-filter's period one longer": [
        ("methods", "t,\n                        -self.pf_gain,", "t + 1,\n                        -self.pf_gain,")],
    "pre-filter's period one shorter": [
        ("methods", "t,\n                        -self.pf_gain,", "t - 1,\n                        -self.pf_gain,")],
    "pre-filter by tapset 0": [
        ("methods", "-self.pf_gain,\n                        self.pf_tapset,", "-self.pf_gain,\n                        0,")],
    "pre-filter before the new frame": [
        ("methods", NEW_FRAME, ""),
        ("methods", ".copy_from_slice(&pre);\n                }\n",
         ".copy_from_slice(&pre);\n                }\n                let dm = &mut self.decode_mem[c];\n" + NEW_FRAME)],
    "pre-filter one short": [
        ("methods", "let mut pre = vec![0f32; overlap];", "let mut pre = vec![0f32; overlap - 1];"),
        ("methods", "self.decode_mem[c][DECODE_BUFFER_SIZE..DECODE_BUFFER_SIZE + overlap]",
         "self.decode_mem[c][DECODE_BUFFER_SIZE..DECODE_BUFFER_SIZE + overlap - 1]")],
    "pre-filter's taps fused": [
        ("ref_decode", TAPS, "(g2 * (x[a - 2] + x[a + 2])) + g1.mul_add(x[a - 1] + x[a + 1], g0.mul_add(x[a], x[off + i]))")],
    "pre-filter's first tap fused": [("ref_decode", TAPS, TAPS.replace("x[off + i] + g0 * x[a]", "g0.mul_add(x[a], x[off + i])"))],
    "pre-filter summed from the last tap": [
        ("ref_decode", TAPS, "x[off + i] + g2 * (x[a - 2] + x[a + 2]) + g1 * (x[a - 1] + x[a + 1]) + g0 * x[a]")],
    "pre-filter's second tap in two products": [
        ("ref_decode", TAPS, TAPS.replace("g1 * (x[a - 1] + x[a + 1])", "g1 * x[a - 1] + g1 * x[a + 1]"))],
    "pre-filter's third tap in two products": [
        ("ref_decode", TAPS, TAPS.replace("g2 * (x[a - 2] + x[a + 2])", "g2 * x[a - 2] + g2 * x[a + 2]"))],
    "pre-filter's gain multiplied last": [
        ("ref_decode", TAPS, TAPS.replace("g0 * x[a]", "g * (COMB_GAINS[tapset][0] * x[a])"))],
    "pre-filter's third tap skipped at factor 0": [
        ("ref_decode", TAPS, "if g2 == 0.0 { x[off + i] + g0 * x[a] + g1 * (x[a - 1] + x[a + 1]) } else { " + TAPS + " }")],
    "pre-filter from 0 + x": [("ref_decode", TAPS, "0.0 + " + TAPS)],
    "pre-filter in f64": [
        ("ref_decode", f"*d = {TAPS};",
         "let x = |i: usize| f64::from(x[i]);\n        *d = (x(off + i) + f64::from(g0) * x(a) + f64::from(g1) * (x(a - 1) + x(a + 1))"
         " + f64::from(g2) * (x(a - 2) + x(a + 2))) as f32;")],
    "pitch path draws once": [
        ("methods", "let pitch_index = self.last_pitch_index;", "self.rng = celt_lcg_rand(self.rng); let pitch_index = self.last_pitch_index;")],
    # De-emphasis and the state
    "0 x v left out": [("methods", "mem = c0 * tmp - c1 * v;", "mem = c0 * tmp;")],
    "last of each group kept": [("methods", "j % downsample == 0", "j % downsample == downsample - 1")],
    "memory not carried": [("methods", "self.deemph_mem[c] = mem;", "")],
    "channels one after the other": [
        ("methods", "pcm[(j / downsample) * channels + c]", "pcm[(j / downsample) + c * (frame / downsample)]")],
    "loss count kept": [("methods", "self.loss_count += 1;", "self.loss_count += 0;")],
    "0.8500061's next f32": [("preemph", "0.850_006_1,", f"{up(0.8500061)},")],
    "0.8500061's f32 before": [("preemph", "0.850_006_1,", f"{down(0.8500061)},")],
    "0 x v added": [("methods", "mem = c0 * tmp - c1 * v;", "mem = c0 * tmp + c1 * v;")],
    "0 x v loses its sign": [("methods", "mem = c0 * tmp - c1 * v;", "mem = c0 * tmp - (c1 * v).abs();")],
    "memory of 0 not added": [
        ("methods", "let tmp = v + mem;", "let tmp = if mem == 0.0 { v } else { v + mem };")],
    "sample from 0 + v": [("methods", "let tmp = v + mem;", "let tmp = 0.0 + v + mem;")],
    "memory moved on at kept samples only": [
        ("methods", "mem = c0 * tmp - c1 * v;\n", ""),
        ("methods", "if j % downsample == 0 {", "if j % downsample == 0 {\n                    mem = c0 * tmp - c1 * v;")],
    "first channel's memory for both": [("methods", "let mut mem = self.deemph_mem[c];", "let mut mem = self.deemph_mem[0];")],
    "unused channel's memory cleared": [
        ("methods", "self.deemph_mem[c] = mem;", "self.deemph_mem[c] = mem; if channels == 1 { self.deemph_mem[1] = 0.0; }")],
    "scaled by 1/32767": [("methods", "c3 * tmp * (1.0 / SIG_SCALE)", "c3 * tmp * (1.0 / 32767.0)")],
    "PCM clipped": [("methods", "c3 * tmp * (1.0 / SIG_SCALE)", "(c3 * tmp * (1.0 / SIG_SCALE)).clamp(-1.0, 1.0)")],
    "frame read one sample early": [
        ("methods", "let v = self.decode_mem[c][out_start + j];", "let v = self.decode_mem[c][out_start + j - 1];")],
    "tiny memory cleared": [
        ("methods", "self.deemph_mem[c] = mem;", "self.deemph_mem[c] = if mem.abs() < 1e-30 { 0.0 } else { mem };")],
    "loss count held at 10": [("methods", "self.loss_count += 1;", "self.loss_count += 1; self.loss_count = self.loss_count.min(10);")],
    "unused channel's predictor cleared": [
        ("own", "    one_nan(s);\n}\n\n/// Every NaN", "    if d.channels == 1 {\n        s[137..161].fill(0);\n    }\n    one_nan(s);\n}\n\n/// Every NaN")],
    "unused channel's history cleared": [
        ("own", "    one_nan(s);\n}\n\n/// Every NaN", "    if d.channels == 1 {\n        s[161 + HISTORY..].fill(0);\n    }\n    one_nan(s);\n}\n\n/// Every NaN")],
    "seed not put back": [("own", "    s[6] = d.rng;\n", "")],
    "lag not put back": [("own", "    s[7] = d.last_pitch_index as u32;\n", "")],
    # The window
    "window's outer square": [
        ("mdct", WINDOW,
         "(std::f64::consts::FRAC_PI_2 * inner).sin().powi(2) as f32")],
    "window in f32": [
        ("mdct", WINDOW,
         "(std::f32::consts::FRAC_PI_2 * inner as f32 * inner as f32).sin()")],
    "window's falling half rising": [("mdct", "for i in (0..overlap).rev() {", "for i in 0..overlap {", 0)],
    "window's ones one step short": [
        ("mdct", "(n - overlap), 1.0)", f"(n - overlap), {down(1)})")],
    # The stand-ins
    "published exp2": [("own", "(gain_entry(i as usize) * p * scale) as f32", "(x as f32).exp2()")],
    "published cosine": [
        ("own", "![120, 240, 480, 960].contains(&n) || out.len() != 2 * n {\n            return false;",
         "true {\n            return crate::mdct::imdct_cached_f32(spectrum, out);")],
    "floor as truncation": [("own", "let k = (256.0 * x).floor();", "let k = (256.0 * x).trunc();")],
    "cubic's last term left out": [("own", "(0.5 + y * (1.0 / 6.0))", "0.5")],
    "gain rounded twice": [
        ("own", "(gain_entry(i as usize) * p * scale) as f32", "(gain_entry(i as usize) * p) as f32 * scale as f32")],
    "gain cut at 31": [("own", "if sum < 32.0 { sum } else { 32.0 }", "if sum < 31.0 { sum } else { 31.0 }")],
    "NaN gives 0": [("own", "if sum < 32.0 { sum } else { 32.0 }", "if sum < 32.0 || sum.is_nan() { sum } else { 32.0 }")],
    "gain table's last bit": [("tables", "A 123", "")],
    "cosine table's last bit (N 960)": [("tables", "C 1001", "")],
    "cosine table's last bit (N 120)": [("tables", "C 1000", "")],
    "quadrant's sign turned": [("own", "1 => -cosine_entry(3840 - j),", "1 => cosine_entry(3840 - j),")],
    "modulus off by one step": [("own", "% 7680;", "% 7679;")],
    "cosine sum in f32": [
        ("own", "let mut acc = 0.0f64;\n            for (k, &x) in spectrum.iter().enumerate() {\n                let angle",
         "let mut acc = 0.0f32;\n            for (k, &x) in spectrum.iter().enumerate() {\n                let angle"),
        ("own", "acc += f64::from(x) * circle[angle];", "acc += x * circle[angle] as f32;")],
    "cosine sum backwards": [
        ("own", "for (k, &x) in spectrum.iter().enumerate() {\n                let angle",
         "for (k, &x) in spectrum.iter().enumerate().rev() {\n                let angle")],
    "halved after rounding": [("own", "*slot = (0.5 * acc) as f32;\n        }\n        true\n    }\n\n    //@ tables",
                               "*slot = 0.5 * acc as f32;\n        }\n        true\n    }\n\n    //@ tables")],
    "floor as rounding": [("own", "let k = (256.0 * x).floor();", "let k = (256.0 * x).round();")],
    "gain cut at 32's f32 before": [
        ("own", "if sum < 32.0 { sum } else { 32.0 }", f"if sum < {down(32)} {{ sum }} else {{ {down(32)} }}")],
    "gain cut at 33": [("own", "if sum < 32.0 { sum } else { 32.0 }", "if sum < 33.0 { sum } else { 33.0 }")],
    "NaN gives +0": [("own", "if x <= -150.0 {", "if x <= -150.0 || sum.is_nan() {")],
    "gain of 0 below -149": [("own", "if x <= -150.0 {", "if x <= -149.0 {")],
    "gain of 0 below -150's f32 above": [("own", "if x <= -150.0 {", f"if x <= -{down(150)} {{")],
    "gain of -0 below -150": [("own", "            return 0.0;\n", "            return -0.0;\n")],
    "gain by f32 arithmetic": [
        ("own", "let y = r * f64::from_bits(0x3FE6_2E42_FEFA_39EF);", "let y = f64::from((r * f64::from_bits(0x3FE6_2E42_FEFA_39EF)) as f32);")],
    "cosine table's last bit (N 240)": [("tables", "C 1004", "")],
    "cosine table's last bit (N 480)": [("tables", "C 1002", "")],
    "third quadrant's sign turned": [("own", "2 => -cosine_entry(j - 3840),", "2 => cosine_entry(j - 3840),")],
    "fourth quadrant's sign turned": [("own", "_ => cosine_entry(7680 - j),", "_ => -cosine_entry(7680 - j),")],
    "cosine sum from -0": [("own", "let mut acc = 0.0f64;", "let mut acc = -0.0f64;")],
    "cosine sum fused": [
        ("own", "acc += f64::from(x) * circle[angle];", "acc = f64::from(x).mul_add(circle[angle], acc);")],
    "cosine sum's products in f32": [
        ("own", "acc += f64::from(x) * circle[angle];", "acc += f64::from(x * circle[angle] as f32);")],
    "cosine sum without the last bin": [
        ("own", "for (k, &x) in spectrum.iter().enumerate() {\n                let angle",
         "for (k, &x) in spectrum.iter().enumerate().take(n - 1) {\n                let angle")],
    "cosine sum in two halves": [
        ("own", "let mut acc = 0.0f64;", "let (mut acc, mut odd) = (0.0f64, 0.0f64);"),
        ("own", "acc += f64::from(x) * circle[angle];",
         "if k % 2 == 0 { acc += f64::from(x) * circle[angle]; } else { odd += f64::from(x) * circle[angle]; }"),
        ("own", "*slot = (0.5 * acc) as f32;", "*slot = (0.5 * (acc + odd)) as f32;")],
    "angle one bin late": [("own", "(2 * t + 1 + n) * (2 * k + 1)", "(2 * t + 1 + n) * (2 * k + 3)")],
    "mirrored zero is -0": mirrored("out[n - 1 - t] = -out[t];"),
    "mirrored zero is -0 (downwards)": mirrored("out[t] = -out[n - 1 - t];"),
    "mirror asks the f32 result": mirrored("out[n - 1 - t] = if out[t] == 0.0 { 0.0 } else { -out[t] };"),
    "mirror asks the f32 result (downwards)": mirrored(
        "out[t] = if out[n - 1 - t] == 0.0 { 0.0 } else { -out[n - 1 - t] };"),
    "first half mirrored even": mirrored("out[n - 1 - t] = out[t];"),
    "second half mirrored odd": mirrored("out[2 * n - 1 - t] = -out[n + t];"),
    "first half mirrored one place off": mirrored("out[n - 1 - t] = -out[t + 1];"),
    "second half mirrored one place off": mirrored("out[2 * n - 1 - t] = out[n + t + 1];"),
    "halves mirrored onto each other": mirrored("out[2 * n - 1 - t] = -out[t];"),
    "products of the direct sum": [("own", "(w.len() * w.len()) as u32", "(2 * w.len() * w.len()) as u32")],
    # The refusals
    "lag 101 passes": [("own", "(102..=720)", "(101..=720)")],
    "lag 102 refused": [("own", "(102..=720)", "(103..=720)")],
    "lag 721 passes": [("own", "(102..=720)", "(102..=721)")],
    "lag 720 refused": [("own", "(102..=720)", "(102..=719)")],
    "lag checked at count 0": [("own", "(1..=4).contains(&losses)", "(0..=4).contains(&losses)")],
    "lag checked at count 5": [("own", "(1..=4).contains(&losses)", "(1..=5).contains(&losses)")],
    "lag not checked at count 4": [("own", "(1..=4).contains(&losses)", "(1..=3).contains(&losses)")],
    "lag checked whatever the start": [("own", "start == 0 && (1..=4)", "(1..=4)")],
    "period 14 passes": [("own", "(15..=1022)", "(14..=1022)")],
    "period 15 refused": [("own", "(15..=1022)", "(16..=1022)")],
    "period 1,023 passes": [("own", "(15..=1022)", "(15..=1023)")],
    "period 1,022 refused": [("own", "(15..=1022)", "(15..=1021)")],
    "tapset 2 refused": [("own", "tapset > 2", "tapset > 1")],
    "start 20 refused": [("own", "start > 20", "start > 19")],
    "end 21 refused": [("own", "end <= start || end > 21", "end <= start || end > 20")],
    "end 0 read as 21": [("own", "end <= start || end > 21", "end != 0 && end <= start || end > 21")],
    "downsample 5 passes": [("own", "![1, 2, 3, 4, 6].contains", "![1, 2, 3, 4, 5, 6].contains")],
    "count 4,294,967,294 refused": [("own", "losses == u32::MAX", "losses >= u32::MAX - 1")],
    "period checked before the lag": [
        ("own", "} else if start == 0 && (1..=4)", "} else if !(15..=1022).contains(&period) || tapset > 2 {\n        8\n    } else if start == 0 && (1..=4)")],
    "channels checked before lm": [("own", "if lm > 3 {", "if channels != 1 && channels != 2 {\n        2\n    } else if lm > 3 {")],
    "NaN of a refused record changed": [("own", "return [number, 0, 0];", "one_nan(s); return [number, 0, 0];")],
    "NaN payload kept in a new record": [("own", "    one_nan(s);\n}\n\n/// Every NaN", "}\n\n/// Every NaN")],
    "lm 3 refused": [("own", "if lm > 3 {", "if lm > 2 {")],
    "channels 0 counted as 1": [
        ("own", "} else if channels != 1 && channels != 2 {", "} else if channels > 2 {"),
        ("own", "CeltRefDecoder::silent(s[0], s[1] as usize)", "CeltRefDecoder::silent(s[0], (s[1] as usize).max(1))")],
    "channels 3 counted as 2": [
        ("own", "} else if channels != 1 && channels != 2 {", "} else if channels == 0 {"),
        ("own", "CeltRefDecoder::silent(s[0], s[1] as usize)", "CeltRefDecoder::silent(s[0], (s[1] as usize).min(2))")],
    "start 21 passes": [("own", "start > 20", "start > 21")],
    "end equal to start passes": [("own", "end <= start || end > 21", "end < start || end > 21")],
    "end 22 passes": [("own", "end <= start || end > 21", "end <= start || end > 22")],
    "downsample 6 refused": [("own", "![1, 2, 3, 4, 6].contains", "![1, 2, 3, 4].contains")],
    "downsample 8 passes": [("own", "![1, 2, 3, 4, 6].contains", "![1, 2, 3, 4, 6, 8].contains")],
    "count 4,294,967,295 passes": [("own", "losses == u32::MAX", "false")],
    "lag not checked at count 1": [("own", "(1..=4).contains(&losses)", "(2..=4).contains(&losses)")],
    "tapset 3 passes": [("own", "tapset > 2", "tapset > 3")],
    "filter checked only where its gain is not 0": [
        ("own", "} else if !(15..=1022).contains(&period) || tapset > 2 {",
         "} else if s[9] << 1 != 0 && (!(15..=1022).contains(&period) || tapset > 2) {")],
    "start checked before channels": [
        ("own", "} else if channels != 1 && channels != 2 {", "} else if start > 20 {\n        3\n    } else if channels != 1 && channels != 2 {")],
    "end checked before start": [
        ("own", "} else if start > 20 {", "} else if end <= start || end > 21 {\n        4\n    } else if start > 20 {")],
    "downsample checked before end": [
        ("own", "} else if end <= start || end > 21 {",
         "} else if ![1, 2, 3, 4, 6].contains(&downsample) {\n        5\n    } else if end <= start || end > 21 {")],
    "count checked before downsample": [
        ("own", "} else if ![1, 2, 3, 4, 6].contains(&downsample) {",
         "} else if losses == u32::MAX {\n        6\n    } else if ![1, 2, 3, 4, 6].contains(&downsample) {")],
    "filter checked first": [
        ("own", "    if lm > 3 {", "    if !(15..=1022).contains(&period) || tapset > 2 {\n        8\n    } else if lm > 3 {")],
    "history of 4,335 passes": [("own", "history != 2 * HISTORY", "history > 2 * HISTORY")],
    "history of 4,337 passes": [("own", "history != 2 * HISTORY", "history < 2 * HISTORY")],
    "buffer of just the length refused": [("own", "if pcm.len() < count {", "if pcm.len() <= count {")],
    "buffer asked for the whole rate": [
        ("own", "if pcm.len() < count {", "if pcm.len() < d.channels * d.frame_size() {")],
    "rest of the buffer cleared": [
        ("own", "pcm[..count].copy_from_slice(&samples);", "pcm.fill(0.0); pcm[..count].copy_from_slice(&samples);")],
    "a short buffer counts as a loss": [
        ("own", "        return [10, 0, 0];", "        s[5] += 1;\n        return [10, 0, 0];")],
    "kind by the count alone": [("own", "if d.loss_count >= 5 || d.start != 0 { 2 }", "if d.loss_count >= 5 { 2 }")],
    "kind of the loss after": [("own", "if d.loss_count >= 5 || d.start != 0 { 2 }", "if d.loss_count >= 4 || d.start != 0 { 2 }")],
}

# Each entry of the tables that a loss reads.
SLIPS |= {f"mean energy {i}'s next f32": [("entry", f"ref_decode E_MEANS {i}", "")] for i in [*range(21), 24]}
SLIPS |= {f"band edge {i} one up": [("entry", f"custom_mode EBAND_5MS {i}", "")] for i in range(22)}
SLIPS |= {f"tapset {i // 3}, factor {i % 3}'s next f32": [("entry", f"ref_decode COMB_GAINS {i}", "")]
          for i in range(9)}
SLIPS |= {f"window value {i}'s last bit": [
    ("mdct", WINDOW, f"f32::from_bits(({WINDOW}).to_bits() ^ u32::from(n == {i}))")]
    for i in (0, 59, 60, 119)}
