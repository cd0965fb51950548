//! The newest samples of both channels.

use crate::Refusal;

/// Samples of a channel ahead of its overlap.
pub const CHANNEL_SAMPLES: usize = 2048;
/// Samples of a channel's overlap.
pub const OVERLAP_SAMPLES: usize = 120;
/// Samples of a whole history: both channels', in mono too.
pub const HISTORY_SAMPLES: usize = 2 * CHANNEL;

const CHANNEL: usize = CHANNEL_SAMPLES + OVERLAP_SAMPLES;

/// The newest samples of both channels, in mono too, where the second channel's are carried along.
///
/// Of each channel [`CHANNEL_SAMPLES`] ahead of de-emphasis, oldest first and scaled by 32,768, and
/// then [`OVERLAP_SAMPLES`] of overlap, to which the next frame's first samples are added. They lie
/// on the heap, so a move is cheap.
///
/// ```
/// use vikkozhan::History;
///
/// let mut history = History::new();
/// history.samples_mut(1)[2047] = 5.0; // the newest of channel 1
/// history.overlap_mut(1)[0] = 6.0;
/// assert_eq!(history.channel(1)[2046..2050], [0.0, 5.0, 6.0, 0.0]);
/// assert_eq!(history.as_slice()[2168 + 2047], 5.0);
/// ```
#[derive(Clone, Debug, PartialEq)]
pub struct History(Box<[[f32; CHANNEL]; 2]>);

impl History {
    /// Silence.
    pub fn new() -> Self {
        Self(Box::new([[0.0; CHANNEL]; 2]))
    }

    /// All [`HISTORY_SAMPLES`], channel 0's first; with any other number [`Refusal::BadHistory`].
    ///
    /// ```
    /// use vikkozhan::{History, Refusal};
    ///
    /// assert_eq!(History::from_samples(&[0.0; 4336]), Ok(History::new()));
    /// assert_eq!(History::from_samples(&[0.0; 2168]), Err(Refusal::BadHistory));
    /// ```
    pub fn from_samples(samples: &[f32]) -> Result<Self, Refusal> {
        if samples.len() != HISTORY_SAMPLES {
            return Err(Refusal::BadHistory);
        }
        let mut history = Self::new();
        history.as_mut_slice().copy_from_slice(samples);
        Ok(history)
    }

    /// Both channels, one after the other.
    pub fn as_slice(&self) -> &[f32] {
        self.0.as_flattened()
    }

    /// Both channels, one after the other.
    pub fn as_mut_slice(&mut self) -> &mut [f32] {
        self.0.as_flattened_mut()
    }

    /// A channel's samples and, after them, its overlap: 2,168.
    ///
    /// # Panics
    /// Unless `channel` is 0 or 1; so do the others that take a channel.
    pub fn channel(&self, channel: usize) -> &[f32] {
        &self.0[channel]
    }

    /// A channel's samples and, after them, its overlap: 2,168.
    pub fn channel_mut(&mut self, channel: usize) -> &mut [f32] {
        &mut self.0[channel]
    }

    /// A channel's [`CHANNEL_SAMPLES`], oldest first.
    pub fn samples(&self, channel: usize) -> &[f32] {
        &self.0[channel][..CHANNEL_SAMPLES]
    }

    /// A channel's [`CHANNEL_SAMPLES`], oldest first.
    pub fn samples_mut(&mut self, channel: usize) -> &mut [f32] {
        &mut self.0[channel][..CHANNEL_SAMPLES]
    }

    /// A channel's [`OVERLAP_SAMPLES`].
    pub fn overlap(&self, channel: usize) -> &[f32] {
        &self.0[channel][CHANNEL_SAMPLES..]
    }

    /// A channel's [`OVERLAP_SAMPLES`].
    pub fn overlap_mut(&mut self, channel: usize) -> &mut [f32] {
        &mut self.0[channel][CHANNEL_SAMPLES..]
    }
}

impl Default for History {
    fn default() -> Self {
        Self::new()
    }
}
