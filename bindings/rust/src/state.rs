//! What a decoder carries from frame to frame, but for the history.

use std::mem::offset_of;

/// Energies of both channels, 25 of each.
pub const ENERGIES: usize = 50;
/// Predictor coefficients of both channels, 24 of each.
pub const COEFFICIENTS: usize = 48;
/// Room for the PCM of any frame.
pub const PCM_SAMPLES: usize = 1920;

/// What a stream is set to.
#[repr(C)]
#[derive(Clone, Copy, Debug, PartialEq, Eq, Hash)]
pub struct Settings {
    /// The frame is 120 × 2^lm samples at 48 kHz: 0 to 3.
    pub lm: u32,
    /// 1 or 2.
    pub channels: u32,
    /// First coded band: 0 for CELT alone.
    pub start: u32,
    /// One past the last coded band: 1 to 21, above `start`. 0 is not short for 21.
    pub end: u32,
    /// 1, 2, 3, 4, 6 for PCM at 48, 24, 16, 12, 8 kHz.
    pub downsample: u32,
}

impl Settings {
    /// A channel's samples of a frame at 48 kHz, 120 × 2^lm. None where lm is above 3.
    ///
    /// ```
    /// # use vikkozhan::Settings;
    /// let settings = Settings { lm: 3, channels: 2, start: 0, end: 21, downsample: 6 };
    /// assert_eq!(settings.frame(), Some(960));
    /// assert_eq!(Settings { lm: 4, ..settings }.frame(), None);
    /// ```
    pub fn frame(&self) -> Option<usize> {
        (self.lm <= 3).then(|| 120 << self.lm)
    }

    /// The samples of a frame's PCM, all channels counted: channels × frame / downsample. None
    /// where lm, channels or downsample is refused.
    ///
    /// ```
    /// # use vikkozhan::Settings;
    /// let settings = Settings { lm: 3, channels: 2, start: 0, end: 21, downsample: 6 };
    /// assert_eq!(settings.pcm_len(), Some(320));
    /// assert_eq!(Settings { downsample: 5, ..settings }.pcm_len(), None);
    /// ```
    pub fn pcm_len(&self) -> Option<usize> {
        let sane = matches!(self.channels, 1 | 2) && matches!(self.downsample, 1 | 2 | 3 | 4 | 6);
        let frame = self.frame().filter(|_| sane)?;
        Some(self.channels as usize * frame / self.downsample as usize)
    }
}

/// The post-filter that was last sent. [`Filter::default`] is the one to carry where none was.
#[repr(C)]
#[derive(Clone, Copy, Debug, PartialEq)]
pub struct Filter {
    /// 15 to 1,022.
    pub period: u32,
    /// 0 filters nothing.
    pub gain: f32,
    /// 0, 1 or 2.
    pub tapset: u32,
}

impl Default for Filter {
    /// Period 15, gain 0, tapset 0.
    fn default() -> Self {
        Self { period: 15, gain: 0.0, tapset: 0 }
    }
}

/// What a decoder carries from frame to frame, but for the [`History`](crate::History).
///
/// Of each array channel 0's values come first. What belongs to an unused channel is carried along.
/// It is the C header's `VikkozhanState`.
#[repr(C)]
#[derive(Clone, Debug, PartialEq)]
pub struct State {
    /// What the stream is set to.
    pub settings: Settings,
    /// Frames lost in a row so far: a decoded frame sets it to 0.
    pub loss_count: u32,
    /// Seed of the noise.
    pub seed: u32,
    /// Pitch lag, from the first loss on.
    pub lag: u32,
    /// Post-filter.
    pub filter: Filter,
    /// Band energies, base-2 logarithms.
    pub coarse: [f32; ENERGIES],
    /// Energies of the background noise.
    pub background: [f32; ENERGIES],
    /// De-emphasis memories.
    pub memories: [f32; 2],
    /// Predictor coefficients, from the first loss on.
    pub predictor: [f32; COEFFICIENTS],
}

impl State {
    /// That of a decoder that has heard nothing: no filter, all else zero.
    ///
    /// ```
    /// # use vikkozhan::{Filter, Settings, State};
    /// let settings = Settings { lm: 3, channels: 2, start: 0, end: 21, downsample: 1 };
    /// let state = State { seed: 7, ..State::new(settings) };
    /// assert_eq!(state.filter, Filter { period: 15, gain: 0.0, tapset: 0 });
    /// assert_eq!(state.loss_count, 0);
    /// ```
    pub fn new(settings: Settings) -> Self {
        Self {
            settings,
            loss_count: 0,
            seed: 0,
            lag: 0,
            filter: Filter::default(),
            coarse: [0.0; ENERGIES],
            background: [0.0; ENERGIES],
            memories: [0.0; 2],
            predictor: [0.0; COEFFICIENTS],
        }
    }
}

// The header's layout: 161 words with no padding.
const _: () = {
    assert!(size_of::<State>() == 644 && align_of::<State>() == 4);
    assert!(offset_of!(State, settings.lm) == 0);
    assert!(offset_of!(State, settings.channels) == 4);
    assert!(offset_of!(State, settings.start) == 8);
    assert!(offset_of!(State, settings.end) == 12);
    assert!(offset_of!(State, settings.downsample) == 16);
    assert!(offset_of!(State, loss_count) == 20);
    assert!(offset_of!(State, seed) == 24);
    assert!(offset_of!(State, lag) == 28);
    assert!(offset_of!(State, filter.period) == 32);
    assert!(offset_of!(State, filter.gain) == 36);
    assert!(offset_of!(State, filter.tapset) == 40);
    assert!(offset_of!(State, coarse) == 44);
    assert!(offset_of!(State, background) == 244);
    assert!(offset_of!(State, memories) == 444);
    assert!(offset_of!(State, predictor) == 452);
};
