//! Every refusal, on its condition, and that nothing changes with it.
mod common;

use common::{bits, heard, spoil};
use vikkozhan::{decode_lost, Concealer, Refusal, Settings, PCM_SAMPLES};

const SETTINGS: Settings = Settings { lm: 1, channels: 2, start: 0, end: 21, downsample: 2 };

type Change = fn(&mut Concealer);

/// Changes to an accepted state, each with the refusal that it brings, by number.
const CHANGES: &[(Refusal, Change)] = &[
    (Refusal::BadLm, |c| c.state.settings.lm = 4),
    (Refusal::BadLm, |c| c.state.settings.lm = u32::MAX),
    (Refusal::BadChannels, |c| c.state.settings.channels = 0),
    (Refusal::BadChannels, |c| c.state.settings.channels = 3),
    (Refusal::BadStart, |c| c.state.settings.start = 21),
    (Refusal::BadEnd, |c| c.state.settings.end = 0),
    (Refusal::BadEnd, |c| c.state.settings.end = 22),
    (Refusal::BadDownsample, |c| c.state.settings.downsample = 0),
    (Refusal::BadDownsample, |c| c.state.settings.downsample = 5),
    (Refusal::CountFull, |c| c.state.loss_count = u32::MAX),
    (Refusal::BadLag, |c| (c.state.loss_count, c.state.lag) = (1, 101)),
    (Refusal::BadLag, |c| (c.state.loss_count, c.state.lag) = (4, 721)),
    (Refusal::BadFilter, |c| c.state.filter.period = 14),
    (Refusal::BadFilter, |c| c.state.filter.period = 1023),
    (Refusal::BadFilter, |c| c.state.filter.tapset = 3),
];

/// Calls with the lengths given and asks for the refusal, and that all is as it was.
fn refused(mut concealer: Concealer, history: usize, pcm: usize, refusal: Refusal) {
    let mut samples = concealer.history.as_slice().to_vec();
    samples.resize(history, f32::NAN);
    let whole = samples.clone();
    let mut room = vec![f32::from_bits(0x7FC5_4321); pcm];
    let before = bits(&concealer, &room);

    assert_eq!(decode_lost(&mut concealer.state, &mut samples, &mut room), Err(refusal));
    assert_eq!(bits(&concealer, &room), before);
    let same = samples.iter().zip(&whole).all(|(a, b)| a.to_bits() == b.to_bits());
    assert!(same, "{refusal}: history changed");

    if history == 4336 {
        assert_eq!(concealer.conceal(&mut room), Err(refusal));
        assert_eq!(bits(&concealer, &room), before);
    }
}

fn accepted(seed: u32) -> Concealer {
    let mut concealer = heard(SETTINGS, seed);
    spoil(&mut concealer, seed);
    assert!(concealer.clone().conceal(&mut [0.0; PCM_SAMPLES]).is_ok());
    concealer
}

#[test]
fn each_limit_has_its_refusal() {
    for (seed, (refusal, change)) in (0..).zip(CHANGES) {
        let mut concealer = accepted(seed);
        change(&mut concealer);
        refused(concealer, 4336, PCM_SAMPLES, *refusal);
    }
}

#[test]
fn each_length_has_its_refusal() {
    for history in [0, 1, 2168, 4335, 4337, 5000] {
        refused(accepted(9), history, PCM_SAMPLES, Refusal::BadHistory);
    }
    for pcm in [0, 1, 239] {
        refused(accepted(10), 4336, pcm, Refusal::ShortPcm);
    }
}

#[test]
fn the_first_that_applies_is_the_answer() {
    let mut concealer = accepted(11);
    refused(concealer.clone(), 4335, 0, Refusal::BadHistory);
    for (refusal, change) in CHANGES.iter().rev() {
        change(&mut concealer);
        refused(concealer.clone(), 4335, 0, *refusal);
    }
}

#[test]
fn just_inside_each_limit_is_accepted() {
    let inside: &[Change] = &[
        |c| c.state.settings.lm = 3,
        |c| c.state.settings.channels = 1,
        |c| c.state.settings.start = 20,
        |c| c.state.settings.end = 1,
        |c| c.state.settings.downsample = 6,
        |c| c.state.loss_count = u32::MAX - 1,
        |c| (c.state.loss_count, c.state.lag) = (4, 102),
        |c| (c.state.loss_count, c.state.lag) = (1, 720),
        |c| (c.state.loss_count, c.state.lag) = (5, 0),
        |c| c.state.filter.period = 15,
        |c| c.state.filter.period = 1022,
        |c| c.state.filter.tapset = 2,
    ];
    for (seed, change) in (0..).zip(inside) {
        let mut concealer = heard(SETTINGS, seed);
        change(&mut concealer);
        let before = concealer.state.loss_count;
        assert!(concealer.conceal(&mut [0.0; PCM_SAMPLES]).is_ok());
        assert_eq!(concealer.state.loss_count, before + 1);
    }
}
