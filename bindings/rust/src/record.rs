//! A record of the file: a state and its history as 4,497 little-endian words.

use crate::{Concealer, Filter, Settings, State, HISTORY_SAMPLES};

/// Bytes of a record.
pub const RECORD_BYTES: usize = size_of::<State>() + 4 * HISTORY_SAMPLES;

/// A sample's 32 bits as the file has them: those of the f32, and of any NaN 7FC00000.
///
/// ```
/// use vikkozhan::f32_to_word;
///
/// assert_eq!(f32_to_word(-0.0), 0x8000_0000);
/// assert_eq!(f32_to_word(f32::from_bits(0xFFC1_2345)), 0x7FC0_0000);
/// ```
pub fn f32_to_word(value: f32) -> u32 {
    if value.is_nan() {
        0x7FC0_0000
    } else {
        value.to_bits()
    }
}

/// A place for one word of a state.
enum Word<'a> {
    Whole(&'a mut u32),
    Float(&'a mut f32),
}

impl Word<'_> {
    fn set(self, word: u32) {
        match self {
            Word::Whole(place) => *place = word,
            Word::Float(place) => *place = f32::from_bits(word),
        }
    }

    fn get(self) -> u32 {
        match self {
            Word::Whole(place) => *place,
            Word::Float(place) => f32_to_word(*place),
        }
    }
}

/// A state's words in the file's order, which reading and writing share.
fn words(state: &mut State) -> impl Iterator<Item = Word<'_>> {
    let State { settings, loss_count, seed, lag, filter, coarse, background, memories, predictor } =
        state;
    let Settings { lm, channels, start, end, downsample } = settings;
    let Filter { period, gain, tapset } = filter;
    let whole = [lm, channels, start, end, downsample, loss_count, seed, lag, period];
    let floats = coarse.iter_mut().chain(background).chain(memories);
    let whole = whole.into_iter().map(Word::Whole);
    whole
        .chain([Word::Float(gain), Word::Whole(tapset)])
        .chain(floats.chain(predictor).map(Word::Float))
}

pub(crate) fn read(record: &[u8; RECORD_BYTES]) -> Concealer {
    let settings = Settings { lm: 0, channels: 0, start: 0, end: 0, downsample: 0 };
    let mut read = Concealer::new(settings);
    let history = read.history.as_mut_slice().iter_mut().map(Word::Float);
    let places = words(&mut read.state).chain(history);
    for (place, bytes) in places.zip(record.chunks_exact(4)) {
        place.set(u32::from_le_bytes([bytes[0], bytes[1], bytes[2], bytes[3]]));
    }
    read
}

pub(crate) fn write(from: &Concealer) -> [u8; RECORD_BYTES] {
    let mut state = from.state.clone();
    let history = from.history.as_slice().iter().map(|&x| f32_to_word(x));
    let words = words(&mut state).map(Word::get).chain(history);
    let mut record = [0; RECORD_BYTES];
    for (bytes, word) in record.chunks_exact_mut(4).zip(words) {
        bytes.copy_from_slice(&word.to_le_bytes());
    }
    record
}
