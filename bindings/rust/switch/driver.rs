// Runs `decode_lost` and `conceal_lost` from the same decoders: records from standard input, and
// for each of them a line on standard output: losses compared, calls refused, and what is unlike or
// `same`. `beside` puts it after the text of compare/'s around.rs, standin.rs and tool.rs.

const LOSSES: usize = 12;

/// A run from one record.
#[derive(Default)]
struct Run {
    losses: usize,
    refused: usize,
    unlike: Option<String>,
}

/// Two decoders of the same record, or none where its settings can't be built.
fn pair(s: &[u32], custom: bool) -> Option<[CeltRefDecoder; 2]> {
    if s[0] > 3 || !(1..=2).contains(&s[1]) {
        return None;
    }
    let mut both = [decoder(s), decoder(s)];
    if custom {
        // The emphasis of a mode at another rate: its PCM is not the standard mode's.
        both.iter_mut().for_each(|d| d.mode.preemph = [0.75, 0.25, 0.5, 2.0]);
    }
    Some(both)
}

/// A run of losses, until one is refused or unlike.
fn run(s: &[u32], custom: bool) -> Run {
    let mut done = Run::default();
    let Some([mut rust, mut ours]) = pair(s, custom) else { return done };
    let mut limits = s[..11].to_vec();
    limits[3] = limits[3].min(21); // the end band as `decode_lost` takes it
    for loss in 0..LOSSES {
        (limits[5], limits[7]) = (ours.loss_count, ours.last_pitch_index as u32);
        let accepted = custom || refusal(&limits, 2 * HISTORY) == 0;
        let answer = ours.conceal_lost().ok();
        // Beyond the limits the Rust is not asked: it trusts its own decoder.
        let wanted = accepted.then(|| rust.decode_lost().unwrap());
        let unlike = if answer.map(|pcm| words(&pcm)) != wanted.map(|pcm| words(&pcm)) {
            Some("PCM, or a refusal".into())
        } else {
            decoders_unlike(&rust, &ours)
        };
        done.losses += usize::from(accepted);
        done.refused += usize::from(!accepted);
        done.unlike = unlike.map(|what| format!("loss {loss}: {what}"));
        if !accepted || done.unlike.is_some() {
            break;
        }
    }
    done
}

/// Where two decoders differ. Their debug text has every field, each f32 to the bit, and of a NaN
/// neither sign nor payload.
fn decoders_unlike(a: &CeltRefDecoder, b: &CeltRefDecoder) -> Option<String> {
    let (a, b) = (format!("{a:?}"), format!("{b:?}"));
    let at = a.bytes().zip(b.bytes()).position(|(x, y)| x != y);
    let at = at.or((a.len() != b.len()).then_some(a.len().min(b.len())))?;
    let field = a[..at].rsplit(": ").nth(1).and_then(|text| text.rsplit([' ', '{']).next());
    Some(format!("{} (byte {at} of the debug text)", field.unwrap_or("a field")))
}

fn main() -> std::io::Result<()> {
    let custom = std::env::args().nth(1).as_deref() == Some("custom");
    let mut bytes = Vec::new();
    std::io::stdin().read_to_end(&mut bytes)?;
    for s in to_words(&bytes).chunks_exact(STATE) {
        let done = run(s, custom);
        println!("{} {} {}", done.losses, done.refused, done.unlike.as_deref().unwrap_or("same"));
    }
    Ok(())
}
