//! The linked library: the only file with `unsafe`.
#![allow(unsafe_code)]

use std::ffi::c_int;

use crate::{Concealed, Kind, Refusal, State};

/// The header's `VikkozhanAnswer`.
#[repr(C)]
#[derive(Default)]
struct Answer {
    number: u32,
    kind: u32,
    samples: u32,
}

#[link(name = "vikkozhan", kind = "static")]
extern "C" {
    fn vikkozhan_version() -> u32;

    fn vikkozhan_decode_lost(
        state: *mut State,
        history: *mut f32,
        history_len: usize,
        pcm: *mut f32,
        pcm_len: usize,
        answer: *mut Answer,
    ) -> c_int;
}

/// The linked library's version, as it counts it.
pub(crate) fn version() -> u32 {
    // Sound: it takes nothing and returns a number.
    unsafe { vikkozhan_version() }
}

/// Conceals one lost frame of a decoder that keeps its history elsewhere than in a
/// [`Concealer`](crate::Concealer).
///
/// `history` is [`HISTORY_SAMPLES`](crate::HISTORY_SAMPLES) long, in the layout of a
/// [`History`](crate::History). The frame's samples, interleaved, go to the front of `pcm`, full
/// scale 1.0; the rest of a longer buffer stays. Any bits may stand in state and history, NaN and
/// infinity too. With a [`Refusal`] all three are as they were.
///
/// ```
/// use vikkozhan::{decode_lost, Refusal, Settings, State, HISTORY_SAMPLES, PCM_SAMPLES};
///
/// let settings = Settings { lm: 3, channels: 2, start: 0, end: 21, downsample: 1 };
/// let mut state = State::new(settings);
/// let mut history = vec![0.0; HISTORY_SAMPLES];
/// let mut pcm = [0.0; PCM_SAMPLES];
///
/// assert_eq!(decode_lost(&mut state, &mut history, &mut pcm)?.samples, 1920);
/// assert_eq!(decode_lost(&mut state, &mut history[1..], &mut pcm), Err(Refusal::BadHistory));
/// # Ok::<(), Refusal>(())
/// ```
pub fn decode_lost(
    state: &mut State,
    history: &mut [f32],
    pcm: &mut [f32],
) -> Result<Concealed, Refusal> {
    let mut answer = Answer::default();
    // Sound: each pointer comes from a reference that is good for its struct or its length and lent
    // to nobody else, so no two overlap; `State` and `Answer` are the header's structs, and any
    // bits may stand in a u32 or an f32.
    unsafe {
        vikkozhan_decode_lost(
            state,
            history.as_mut_ptr(),
            history.len(),
            pcm.as_mut_ptr(),
            pcm.len(),
            &mut answer,
        );
    }
    match answer.number {
        0 => {
            Ok(Concealed { kind: Kind::from_number(answer.kind), samples: answer.samples as usize })
        }
        number => Err(Refusal::from_number(number)),
    }
}
