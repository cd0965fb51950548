// Conceals one lost frame: a record from standard input, the answer and the new record to standard
// output.
use std::io::{Read, Write};

use vikkozhan::{f32_to_word, Concealer, PCM_SAMPLES, RECORD_BYTES};

fn main() -> std::io::Result<()> {
    let mut record = [0; RECORD_BYTES];
    std::io::stdin().read_exact(&mut record)?;

    let mut concealer = Concealer::from_record(&record);
    let mut pcm = [0.0; PCM_SAMPLES];
    let (head, samples) = match concealer.conceal(&mut pcm) {
        Ok(made) => {
            record = concealer.to_record();
            ([0, made.kind.number(), made.samples as u32], made.samples)
        }
        // The record leaves byte for byte as it came.
        Err(refusal) => {
            eprintln!("refused: {refusal}");
            ([refusal.number(), 0, 0], 0)
        }
    };

    let words = head
        .into_iter()
        .chain(pcm[..samples].iter().map(|&x| f32_to_word(x)));
    let mut answer: Vec<u8> = words.flat_map(u32::to_le_bytes).collect();
    answer.extend(record);
    let mut out = std::io::stdout().lock();
    out.write_all(&answer)?;
    out.flush()
}
