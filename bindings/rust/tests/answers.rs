//! The crate's answers are those of `vikkozhan_answer`, the library's call on bytes.
mod common;

use common::{all_settings, heard, spoil, Draw};
use vikkozhan::{f32_to_word, Concealer, PCM_SAMPLES, RECORD_BYTES};

const HEAD_BYTES: usize = 7692;

extern "C" {
    fn vikkozhan_answer(
        record: *mut u8,
        record_len: usize,
        head: *mut u8,
        head_len: usize,
    ) -> usize;
}

/// Number, kind, sample count and samples, and the record after the loss, by the call on bytes.
fn by_bytes(record: &[u8; RECORD_BYTES]) -> (Vec<u8>, Vec<u8>) {
    let mut record = record.to_vec();
    let mut head = vec![0; HEAD_BYTES];
    // Sound: both buffers are lent whole and to nobody else.
    let bytes = unsafe {
        vikkozhan_answer(record.as_mut_ptr(), record.len(), head.as_mut_ptr(), head.len())
    };
    head.truncate(bytes);
    (head, record)
}

/// The same by this crate.
fn by_crate(record: &[u8; RECORD_BYTES]) -> (Vec<u8>, Vec<u8>) {
    let mut concealer = Concealer::from_record(record);
    let mut pcm = [0.0; PCM_SAMPLES];
    let (head, samples, after) = match concealer.conceal(&mut pcm) {
        Ok(made) => {
            ([0, made.kind.number(), made.samples as u32], made.samples, concealer.to_record())
        }
        Err(refusal) => ([refusal.number(), 0, 0], 0, *record),
    };
    let samples = pcm[..samples].iter().map(|&x| f32_to_word(x));
    let head = head.into_iter().chain(samples).flat_map(u32::to_le_bytes).collect();
    (head, after.to_vec())
}

/// A run of losses from a record, as long as they are accepted; how many.
fn compare(mut record: [u8; RECORD_BYTES], losses: usize) -> usize {
    for loss in 0..losses {
        let (head, after) = by_bytes(&record);
        assert!(by_crate(&record) == (head.clone(), after.clone()), "loss {loss}");
        if head[..4] != [0; 4] {
            return loss;
        }
        record = after.try_into().unwrap();
    }
    losses
}

#[test]
fn runs_of_every_setting() {
    for (seed, settings) in (0..).zip(all_settings()) {
        let concealer = heard(settings, seed);
        assert_eq!(compare(concealer.to_record(), 7), 7);
    }
}

#[test]
fn hybrid_streams() {
    for (seed, mut settings) in (0..).zip(all_settings()) {
        (settings.start, settings.end) = (17, if seed % 2 == 0 { 19 } else { 21 });
        assert_eq!(compare(heard(settings, seed).to_record(), 3), 3);
    }
}

#[test]
fn nan_and_infinity() {
    for (seed, settings) in (0..).zip(all_settings()) {
        let mut concealer = heard(settings, seed);
        spoil(&mut concealer, seed);
        assert_eq!(compare(concealer.to_record(), 7), 7);
    }
}

#[test]
fn any_words() {
    let mut refused = 0;
    for seed in 0..200 {
        let mut draw = Draw(seed);
        let mut record = heard(all_settings()[seed as usize % 40], seed).to_record();
        // A few of the first words small, so that every limit is met from both sides.
        for _ in 0..2 {
            let at = 4 * (draw.word() as usize % 11);
            record[at..at + 4].copy_from_slice(&(draw.word() % 24).to_le_bytes());
        }
        refused += usize::from(compare(record, 2) == 0);
    }
    assert!((1..200).contains(&refused), "{refused} refused");
}
