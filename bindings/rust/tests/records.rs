//! Records are read and written word by word as the file has them.
mod common;

use common::{all_settings, bits, heard, spoil, Draw};
use vikkozhan::{Concealer, RECORD_BYTES};

/// A record of any words, but no NaN: an exponent's first bit is never set.
fn any_record(seed: u32) -> [u8; RECORD_BYTES] {
    let mut draw = Draw(seed);
    let mut record = [0; RECORD_BYTES];
    for word in record.chunks_exact_mut(4) {
        let bits = draw.word() << 16 ^ draw.word();
        word.copy_from_slice(&(bits & 0xBFFF_FFFF).to_le_bytes());
    }
    record
}

#[test]
fn a_record_comes_back_byte_for_byte() {
    for seed in 0..20 {
        let record = any_record(seed);
        assert_eq!(Concealer::from_record(&record).to_record(), record);
    }
}

#[test]
fn a_state_comes_back_bit_for_bit() {
    for (seed, settings) in (0..).zip(all_settings()) {
        let concealer = heard(settings, seed);
        let read = Concealer::from_record(&concealer.to_record());
        assert_eq!(bits(&read, &[]), bits(&concealer, &[]));
    }
}

#[test]
fn a_nan_is_read_as_it_is_and_leaves_as_the_one() {
    let mut concealer = heard(all_settings()[0], 1);
    spoil(&mut concealer, 2);
    concealer.state.coarse[0] = f32::from_bits(0xFFC1_2345);
    let mut record = concealer.to_record();
    assert_eq!(record[44..48], 0x7FC0_0000_u32.to_le_bytes());

    record[44..48].copy_from_slice(&0xFFC1_2345_u32.to_le_bytes());
    let read = Concealer::from_record(&record);
    assert_eq!(read.state.coarse[0].to_bits(), 0xFFC1_2345);
}

#[test]
fn each_word_stands_at_its_byte() {
    let mut record = [0; RECORD_BYTES];
    for (number, word) in (1u32..).zip(record.chunks_exact_mut(4)) {
        word.copy_from_slice(&number.to_le_bytes());
    }
    let Concealer { state, history } = Concealer::from_record(&record);
    let wholes = [
        (0, state.settings.lm),
        (4, state.settings.channels),
        (8, state.settings.start),
        (12, state.settings.end),
        (16, state.settings.downsample),
        (20, state.loss_count),
        (24, state.seed),
        (28, state.lag),
        (32, state.filter.period),
        (36, state.filter.gain.to_bits()),
        (40, state.filter.tapset),
        (44, state.coarse[0].to_bits()),
        (144, state.coarse[25].to_bits()),
        (244, state.background[0].to_bits()),
        (444, state.memories[0].to_bits()),
        (452, state.predictor[0].to_bits()),
        (548, state.predictor[24].to_bits()),
        (644, history.samples(0)[0].to_bits()),
        (644 + 4 * 2048, history.overlap(0)[0].to_bits()),
        (644 + 4 * 2168, history.samples(1)[0].to_bits()),
        (17_984, history.overlap(1)[119].to_bits()),
    ];
    for (byte, word) in wholes {
        assert_eq!(word, byte / 4 + 1, "byte {byte}");
    }
}
