//! Decoders to conceal from, the same in every run.
#![allow(dead_code)] // each test reads a part of it

use vikkozhan::{Concealer, Filter, Settings};

/// Every frame size, channel count and output rate.
pub fn all_settings() -> Vec<Settings> {
    let mut all = Vec::new();
    for lm in 0..4 {
        for channels in [1, 2] {
            for downsample in [1, 2, 3, 4, 6] {
                all.push(Settings { lm, channels, start: 0, end: 21, downsample });
            }
        }
    }
    all
}

/// Draws without a package.
pub struct Draw(pub u32);

impl Draw {
    pub fn word(&mut self) -> u32 {
        self.0 = self.0.wrapping_mul(1_664_525).wrapping_add(1_013_904_223);
        self.0 >> 8
    }

    /// From -1 up to 1.
    pub fn float(&mut self) -> f32 {
        self.word() as f32 / (1 << 23) as f32 - 1.0
    }
}

/// A decoder that has heard a note in noise, another one for each seed, and lost nothing yet.
pub fn heard(settings: Settings, seed: u32) -> Concealer {
    let mut draw = Draw(seed);
    let mut heard = Concealer::new(settings);
    heard.state.seed = draw.word();
    heard.state.filter = Filter { period: 15 + draw.word() % 1008, gain: 0.375, tapset: seed % 3 };
    heard.state.coarse.fill_with(|| 8.0 * draw.float());
    heard.state.background.fill_with(|| 4.0 * draw.float() - 6.0);
    heard.state.memories.fill_with(|| 500.0 * draw.float());
    for channel in 0..2 {
        let turn = 0.02 + 0.01 * (1.0 + draw.float());
        for (t, sample) in heard.history.channel_mut(channel).iter_mut().enumerate() {
            *sample = 3000.0 * (turn * t as f32).sin() + 200.0 * draw.float();
        }
    }
    heard
}

/// Puts NaN of several kinds, infinities and -0 among the floats.
pub fn spoil(concealer: &mut Concealer, seed: u32) {
    const HOSTILE: [u32; 6] =
        [0x7FC0_0000, 0xFFC1_2345, 0x7F80_0001, 0x7F80_0000, 0xFF80_0000, 0x8000_0000];
    let mut draw = Draw(seed);
    let mut hostile = || f32::from_bits(HOSTILE[draw.word() as usize % HOSTILE.len()]);
    concealer.state.filter.gain = hostile();
    concealer.state.coarse[17] = hostile();
    concealer.state.background[40] = hostile();
    concealer.state.memories[1] = hostile();
    concealer.state.predictor[30] = hostile();
    for channel in 0..2 {
        concealer.history.samples_mut(channel)[1900] = hostile();
        concealer.history.overlap_mut(channel)[60] = hostile();
    }
}

/// Everything that a call may write, to the bit: a NaN's sign and payload too.
pub fn bits(concealer: &Concealer, pcm: &[f32]) -> Vec<u32> {
    let state = &concealer.state;
    let Settings { lm, channels, start, end, downsample } = state.settings;
    let Filter { period, gain, tapset } = state.filter;
    let mut bits = vec![lm, channels, start, end, downsample];
    bits.extend([state.loss_count, state.seed, state.lag, period, gain.to_bits(), tapset]);
    let parts: [&[f32]; 6] = [
        &state.coarse,
        &state.background,
        &state.memories,
        &state.predictor,
        concealer.history.as_slice(),
        pcm,
    ];
    bits.extend(parts.concat().iter().map(|x| x.to_bits()));
    bits
}
