//! A state and its history together.

use crate::record::{self, RECORD_BYTES};
use crate::{decode_lost, Concealed, History, Refusal, Settings, State};

/// What a decoder carries from frame to frame, and the call that makes a lost frame up from it.
///
/// After a frame that arrived the decoder writes into both what it has decoded, and sets
/// [`State::loss_count`] to 0. For one that was lost it calls [`conceal`](Self::conceal) and
/// changes nothing itself.
#[derive(Clone, Debug, PartialEq)]
pub struct Concealer {
    /// All but the history.
    pub state: State,
    /// The newest samples and the overlap.
    pub history: History,
}

impl Concealer {
    /// That of a decoder that has heard nothing: [`State::new`] and silence.
    pub fn new(settings: Settings) -> Self {
        Self { state: State::new(settings), history: History::new() }
    }

    /// Conceals one lost frame: its samples, interleaved, go to the front of `pcm`, full scale 1.0.
    ///
    /// `pcm` has room for [`Settings::pcm_len`] samples; [`PCM_SAMPLES`](crate::PCM_SAMPLES) are
    /// always enough. The rest of a longer buffer stays. With a [`Refusal`] state, history and
    /// `pcm` are as they were.
    ///
    /// ```
    /// use vikkozhan::{Concealer, Refusal, Settings};
    ///
    /// let settings = Settings { lm: 2, channels: 2, start: 0, end: 21, downsample: 3 };
    /// let mut concealer = Concealer::new(settings);
    /// concealer.history.samples_mut(0)[2047] = 1000.0;
    ///
    /// let mut pcm = [7.0; 400];
    /// let made = concealer.conceal(&mut pcm)?;
    /// assert_eq!(made.samples, 320); // two channels of 480 / 3
    /// assert_eq!(pcm[320..], [7.0; 80]);
    ///
    /// let before = concealer.clone();
    /// assert_eq!(concealer.conceal(&mut pcm[..319]), Err(Refusal::ShortPcm));
    /// assert_eq!(concealer, before);
    /// # Ok::<(), Refusal>(())
    /// ```
    pub fn conceal(&mut self, pcm: &mut [f32]) -> Result<Concealed, Refusal> {
        decode_lost(&mut self.state, self.history.as_mut_slice(), pcm)
    }

    /// Reads a record of the file: a state and its history, 4,497 little-endian words.
    ///
    /// Every record can be read. One that no decoder has is refused when it is concealed.
    ///
    /// ```
    /// use vikkozhan::{Concealer, Refusal, RECORD_BYTES};
    ///
    /// let record = [0; RECORD_BYTES];
    /// let mut concealer = Concealer::from_record(&record);
    /// assert_eq!(concealer.state.settings.channels, 0);
    /// assert_eq!(concealer.conceal(&mut []), Err(Refusal::BadChannels));
    /// assert_eq!(concealer.to_record(), record);
    /// ```
    pub fn from_record(record: &[u8; RECORD_BYTES]) -> Self {
        record::read(record)
    }

    /// Writes the record of the file.
    ///
    /// A NaN leaves as 7FC00000, as it does from the program `conceal`. All else reads back to the
    /// bit.
    pub fn to_record(&self) -> [u8; RECORD_BYTES] {
        record::write(self)
    }
}
