//! Why a call was refused.

use std::error::Error;
use std::fmt;

/// Why a call was refused: the first reason that applies. Nothing is changed by a call that is.
///
/// Its text says what is wrong and what to do about it.
///
/// ```
/// use vikkozhan::Refusal;
///
/// assert_eq!(Refusal::ShortPcm.number(), 10);
/// assert_eq!(
///     Refusal::ShortPcm.to_string(),
///     "PCM buffer shorter than needed (number 10): \
///      lend channels × N / downsample; 1,920 is always enough"
/// );
/// ```
#[derive(Clone, Copy, Debug, PartialEq, Eq, Hash)]
#[non_exhaustive]
pub enum Refusal {
    /// 1: lm above 3.
    BadLm,
    /// 2: channels not 1 or 2.
    BadChannels,
    /// 3: start above 20.
    BadStart,
    /// 4: end not above start, or above 21.
    BadEnd,
    /// 5: downsample not 1, 2, 3, 4 or 6.
    BadDownsample,
    /// 6: the loss count can't rise further.
    CountFull,
    /// 7: the lag was not carried from the loss before.
    BadLag,
    /// 8: filter period or tapset outside its limits.
    BadFilter,
    /// 9: history not 4,336 samples. A [`History`](crate::History) always has them.
    BadHistory,
    /// 10: PCM buffer shorter than needed.
    ShortPcm,
    /// A later library's reason that this version of the crate does not know, by its number.
    Other(u32),
}

/// The case, when it applies, and what to do: numbers 1 to 10 in order.
const TABLE: [(Refusal, &str, &str); 10] = [
    (
        Refusal::BadLm,
        "lm above 3",
        "set it for the frame: 0, 1, 2, 3 for 120, 240, 480, 960 samples at 48 kHz",
    ),
    (Refusal::BadChannels, "channels not 1 or 2", "set it for the stream"),
    (Refusal::BadStart, "start above 20", "set the stream's start band: 0 for CELT alone"),
    (
        Refusal::BadEnd,
        "end not above start, or above 21",
        "set the stream's end band. 0 is not short for 21 here: write 21",
    ),
    (
        Refusal::BadDownsample,
        "downsample not 1, 2, 3, 4 or 6",
        "these give 48,000, 24,000, 16,000, 12,000 and 8,000 Hz; resample for any other rate",
    ),
    (
        Refusal::CountFull,
        "loss count 4,294,967,295",
        "the count can't rise further: the outage outlasted it. Start from the state of the next \
         frame that arrives",
    ),
    (
        Refusal::BadLag,
        "start 0, loss count 1 to 4, lag outside 102 to 720",
        "the lag was not carried from the loss before: take it from there, or set the loss count \
         to 0 and it is searched for anew",
    ),
    (
        Refusal::BadFilter,
        "filter period outside 15 to 1,022, or tapset above 2",
        "where no filter was sent: period 15, gain 0, tapset 0",
    ),
    (Refusal::BadHistory, "history not 4,336 samples", "lend both channels' 2,168, in mono too"),
    (
        Refusal::ShortPcm,
        "PCM buffer shorter than needed",
        "lend channels × N / downsample; 1,920 is always enough",
    ),
];

impl Refusal {
    pub(crate) fn from_number(number: u32) -> Self {
        row(number).map_or(Refusal::Other(number), |row| row.0)
    }

    /// The number, as the header and the file have it.
    pub fn number(self) -> u32 {
        if let Refusal::Other(number) = self {
            return number;
        }
        let place = TABLE.iter().position(|row| row.0 == self);
        1 + place.expect("every named case has a row") as u32
    }

    /// When it applies.
    pub fn reason(self) -> &'static str {
        row(self.number())
            .map_or("a reason that this version of the crate does not know", |row| row.1)
    }

    /// What to do about it.
    pub fn remedy(self) -> &'static str {
        row(self.number())
            .map_or("see the table of numbers of the library that is linked", |row| row.2)
    }
}

fn row(number: u32) -> Option<&'static (Refusal, &'static str, &'static str)> {
    TABLE.get((number as usize).checked_sub(1)?)
}

impl fmt::Display for Refusal {
    fn fmt(&self, out: &mut fmt::Formatter<'_>) -> fmt::Result {
        write!(out, "{} (number {}): {}", self.reason(), self.number(), self.remedy())
    }
}

impl Error for Refusal {}
