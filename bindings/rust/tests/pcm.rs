//! How much of the PCM buffer is written, and by which path.
mod common;

use common::{all_settings, heard};
use vikkozhan::{Kind, PCM_SAMPLES};

#[test]
fn a_frame_fills_its_length_and_no_more() {
    // A bit pattern that no call makes.
    let mark = f32::from_bits(0xFFC5_4321);
    for (seed, settings) in (0..).zip(all_settings()) {
        let frame = 120 << settings.lm;
        let len = settings.pcm_len().unwrap();
        assert_eq!(settings.frame(), Some(frame));
        assert_eq!(len, settings.channels as usize * frame / settings.downsample as usize);

        let mut concealer = heard(settings, seed);
        for loss in 0..7 {
            let mut exact = vec![mark; len];
            let mut copy = concealer.clone();
            let made = copy.conceal(&mut exact).unwrap();
            let mut longer = vec![mark; PCM_SAMPLES + 80];
            assert_eq!(concealer.conceal(&mut longer), Ok(made));

            assert_eq!(made.samples, len);
            assert_eq!(made.kind, if loss < 5 { Kind::Pitch } else { Kind::Noise });
            assert_eq!(longer[..len], exact);
            assert!(longer[len..].iter().all(|x| x.to_bits() == mark.to_bits()));
            assert_eq!(concealer, copy);
            assert_eq!(concealer.state.loss_count, loss + 1);
        }
    }
}

#[test]
fn kinds_have_the_headers_numbers() {
    assert_eq!([Kind::Pitch, Kind::Noise, Kind::Other(9)].map(Kind::number), [1, 2, 9]);
}

#[test]
fn settings_that_are_refused_have_no_length() {
    let sane = all_settings()[0];
    let with = |change: fn(&mut vikkozhan::Settings)| {
        let mut settings = sane;
        change(&mut settings);
        settings
    };
    assert_eq!(with(|s| s.lm = 4).frame(), None);
    assert_eq!(with(|s| s.lm = 4).pcm_len(), None);
    assert_eq!(with(|s| s.channels = 0).pcm_len(), None);
    assert_eq!(with(|s| s.channels = 3).pcm_len(), None);
    assert_eq!(with(|s| s.downsample = 0).pcm_len(), None);
    assert_eq!(with(|s| s.downsample = 5).pcm_len(), None);
}
