//! What an accepted call tells.

/// A frame was made up.
#[derive(Clone, Copy, Debug, PartialEq, Eq, Hash)]
#[non_exhaustive]
pub struct Concealed {
    /// By which path.
    pub kind: Kind,
    /// How many samples stand at the front of the PCM buffer, all channels counted:
    /// [`Settings::pcm_len`](crate::Settings::pcm_len).
    pub samples: usize,
}

/// By which path a frame was made.
///
/// ```
/// # use vikkozhan::{Concealer, Kind, Settings};
/// let settings = Settings { lm: 0, channels: 1, start: 0, end: 21, downsample: 1 };
/// let mut concealer = Concealer::new(settings);
/// let mut kinds = Vec::new();
/// for _ in 0..6 {
///     kinds.push(concealer.conceal(&mut [0.0; 120])?.kind);
/// }
/// assert_eq!(kinds[..5], [Kind::Pitch; 5]);
/// assert_eq!(kinds[5], Kind::Noise); // from the sixth loss in a row on
/// # Ok::<(), vikkozhan::Refusal>(())
/// ```
#[derive(Clone, Copy, Debug, PartialEq, Eq, Hash)]
#[non_exhaustive]
pub enum Kind {
    /// The pitch was repeated: the first five losses in a row, where band 0 is coded.
    Pitch,
    /// Comfort noise, shaped by the band energies.
    Noise,
    /// A later library's path that this version of the crate does not know, by its number.
    Other(u32),
}

impl Kind {
    pub(crate) fn from_number(number: u32) -> Self {
        match number {
            1 => Kind::Pitch,
            2 => Kind::Noise,
            other => Kind::Other(other),
        }
    }

    /// The kind's number, as the header and the file have it.
    pub fn number(self) -> u32 {
        match self {
            Kind::Pitch => 1,
            Kind::Noise => 2,
            Kind::Other(number) => number,
        }
    }
}
