//! `State` and `History` lie in memory as the header has them. That the fields have the header's
//! offsets is asked where `State` is, when it is compiled.
mod common;

use std::mem::{align_of, size_of};
use std::slice;

use vikkozhan::{History, Settings, State, HISTORY_SAMPLES, PCM_SAMPLES, RECORD_BYTES};

const SETTINGS: Settings = Settings { lm: 1, channels: 2, start: 3, end: 4, downsample: 5 };

#[test]
fn sizes_are_the_headers() {
    assert_eq!((size_of::<State>(), align_of::<State>()), (644, 4));
    assert_eq!((HISTORY_SAMPLES, PCM_SAMPLES, RECORD_BYTES), (4336, 1920, 17_988));
}

#[test]
fn a_state_in_memory_is_the_front_of_its_record() {
    let mut concealer = common::heard(SETTINGS, 1);
    concealer.state.predictor.fill_with({
        let mut draw = common::Draw(2);
        move || draw.float()
    });
    let state: *const State = &concealer.state;
    // Sound: a state is 644 bytes without padding.
    let bytes = unsafe { slice::from_raw_parts(state.cast::<u8>(), size_of::<State>()) };
    assert_eq!(bytes, &concealer.to_record()[..644]);
}

#[test]
fn a_history_is_both_channels_each_with_its_overlap() {
    let numbers: Vec<f32> = (0..HISTORY_SAMPLES).map(|i| i as f32).collect();
    let mut history = History::from_samples(&numbers).unwrap();
    assert_eq!(history.as_slice(), numbers);
    for channel in 0..2 {
        let own = &numbers[2168 * channel..][..2168];
        assert_eq!(history.channel(channel), own);
        assert_eq!(history.samples(channel), &own[..2048]);
        assert_eq!(history.overlap(channel), &own[2048..]);
        history.samples_mut(channel)[0] = -1.0;
        history.overlap_mut(channel)[0] = -2.0;
        history.channel_mut(channel)[2167] = -3.0;
    }
    for (at, value) in [(0, -1.0), (2048, -2.0), (2167, -3.0)] {
        assert_eq!(history.as_slice()[at], value);
        assert_eq!(history.as_mut_slice()[2168 + at], value);
    }
}

#[test]
#[should_panic]
fn there_is_no_third_channel() {
    History::new().samples(2);
}
