//! Concealment of lost CELT frames: from a decoder's carried state and history to the PCM of a
//! frame that never came. The work is done by the static library of Vikkozhan, which is proved;
//! this crate is its safe face and has no dependency.
//!
//! A [`Concealer`] holds what a decoder carries from frame to frame: a [`State`] and a [`History`].
//! [`Concealer::conceal`] makes one frame up.
//!
//! ```
//! use vikkozhan::{Concealer, Kind, Settings};
//!
//! // A mono decoder at 8,000 Hz, frames of 2.5 ms, that has heard nothing yet.
//! let settings = Settings { lm: 0, channels: 1, start: 0, end: 21, downsample: 6 };
//! let mut concealer = Concealer::new(settings);
//!
//! let mut pcm = [1.0; 20];
//! let made = concealer.conceal(&mut pcm)?;
//!
//! assert_eq!(made.kind, Kind::Pitch);
//! assert_eq!(made.samples, 20);
//! assert_eq!(pcm, [0.0; 20]);
//! assert_eq!(concealer.state.loss_count, 1);
//! assert_eq!(concealer.state.lag, 720); // which is what silence gives
//! # Ok::<(), vikkozhan::Refusal>(())
//! ```
//!
//! A state that no decoder has is refused, and all stays as it was:
//!
//! ```
//! use vikkozhan::{Concealer, Refusal, Settings};
//!
//! let settings = Settings { lm: 0, channels: 3, start: 0, end: 21, downsample: 6 };
//! let mut concealer = Concealer::new(settings);
//! let before = concealer.clone();
//! let mut pcm = [1.0; 60];
//!
//! let refusal = concealer.conceal(&mut pcm).unwrap_err();
//!
//! assert_eq!(refusal, Refusal::BadChannels);
//! assert_eq!(refusal.number(), 2);
//! assert_eq!(refusal.to_string(), "channels not 1 or 2 (number 2): set it for the stream");
//! assert_eq!(concealer, before);
//! assert_eq!(pcm, [1.0; 60]);
//! ```
//!
//! The library keeps no memory between calls and allocates none. Any number of threads may conceal
//! at once, each with a [`Concealer`] of its own.
#![deny(missing_docs, unsafe_code)]

mod concealed;
mod concealer;
mod history;
mod linked;
mod record;
mod refusal;
mod state;
mod version;

pub use concealed::{Concealed, Kind};
pub use concealer::Concealer;
pub use history::{History, CHANNEL_SAMPLES, HISTORY_SAMPLES, OVERLAP_SAMPLES};
pub use linked::decode_lost;
pub use record::{f32_to_word, RECORD_BYTES};
pub use refusal::Refusal;
pub use state::{Filter, Settings, State, COEFFICIENTS, ENERGIES, PCM_SAMPLES};
pub use version::{check_version, version, Version, WrongVersion, HEADER_VERSION};

// The README's examples run with the doc tests.
#[cfg(doctest)]
#[doc = include_str!("../README.md")]
struct Readme;
