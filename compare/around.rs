// What stands around the extracted functions: the structs with the fields they read, the standard
// mode's constants, and a function around each part of `decode_lost` that is compared by itself.
// A line `//@ NAME` is replaced by an extracted piece.

#[derive(Debug)]
pub enum Error {
    InvalidParameter,
}

#[allow(dead_code)]
pub mod plc {
    //@ plc

    pub fn best_two(xcorr: &[f32], y: &[f32], len: usize, max_pitch: usize) -> [usize; 2] {
        find_best_pitch(xcorr, y, len, max_pitch)
    }
}

pub mod band_quant {
    //@ band_quant
}

#[allow(dead_code)]
pub mod mdct {
    //@ mdct
}

pub mod custom_mode {
    //@ custom_mode

    #[derive(Debug)]
    pub struct CeltCustomMode {
        pub short_mdct_size: usize,
        pub overlap: usize,
        pub nb_ebands: usize,
        pub eff_ebands: usize,
        pub e_bands: Vec<i16>,
        pub window: Vec<f32>,
        pub preemph: [f32; 4],
    }

    impl CeltCustomMode {
        pub fn standard() -> Self {
            let fs_i = 48_000;
            //@ preemph
            Self {
                short_mdct_size: 120,
                overlap: 120,
                nb_ebands: EBAND_5MS.len() - 1,
                eff_ebands: EBAND_5MS.len() - 1,
                e_bands: EBAND_5MS.to_vec(),
                window: crate::mdct::build_window_half_f32(120),
                preemph,
            }
        }
    }
}

#[derive(Debug)]
pub struct CoarseEnergyState {
    pub energy: [[f32; custom_mode::MAX_BANDS]; 2],
}

// The band gain by itself, the mean given beside the energy.
pub mod gain_step {
    //@ max_band_log_energy

    #[allow(non_snake_case)]
    pub fn band_gain(energy: f32, mean: f32) -> f32 {
        let (bg, E_MEANS, i) = ([energy], [mean], 0);
        let mut be = [0f32];
        //@ gain
        be[0]
    }
}

#[allow(dead_code)]
pub mod ref_decode {
    use crate::band_quant::{celt_lcg_rand, renormalise_vector};
    use crate::custom_mode::{CeltCustomMode, MAX_BANDS};
    use crate::mdct::{build_low_overlap_window_f32, imdct_cached_f32};
    use crate::{CoarseEnergyState, Error};

    //@ ref_decode

    #[derive(Debug)]
    pub struct CeltRefDecoder {
        pub mode: CeltCustomMode,
        pub lm: u32,
        pub channels: usize,
        pub start: usize,
        pub end: usize,
        pub coarse: CoarseEnergyState,
        pub background_log_e: [[f32; MAX_BANDS]; 2],
        pub long_window: Vec<f32>,
        pub decode_mem: Vec<Vec<f32>>,
        pub deemph_mem: [f32; 2],
        pub pf_period: usize,
        pub pf_gain: f32,
        pub pf_tapset: usize,
        pub rng: u32,
        pub window: Vec<f32>,
        pub loss_count: u32,
        pub last_pitch_index: usize,
        pub plc_lpc: Vec<[f32; crate::plc::LPC_ORDER]>,
        pub downsample: usize,
    }

    impl CeltRefDecoder {
        pub fn silent(lm: u32, channels: usize) -> Self {
            let mode = CeltCustomMode::standard();
            Self {
                lm,
                channels,
                start: 0,
                end: 21,
                coarse: CoarseEnergyState {
                    energy: [[0.0; MAX_BANDS]; 2],
                },
                background_log_e: [[0.0; MAX_BANDS]; 2],
                long_window: build_low_overlap_window_f32(120 << lm, 120).unwrap(),
                decode_mem: vec![vec![0.0; DECODE_BUFFER_SIZE + 120]; channels],
                deemph_mem: [0.0; 2],
                pf_period: COMBFILTER_MINPERIOD,
                pf_gain: 0.0,
                pf_tapset: 0,
                rng: 0,
                window: mode.window.clone(),
                loss_count: 0,
                last_pitch_index: 0,
                plc_lpc: vec![[0.0; crate::plc::LPC_ORDER]; channels],
                downsample: 1,
                mode,
            }
        }

        //@ methods
    }

    // Parts of `decode_lost`, after the locals that it begins with and what else they read.
    impl CeltRefDecoder {
        pub fn step_lag(&mut self) {
            //@ lag
        }

        pub fn step_pitch(&mut self, fade: f32) {
            //@ locals
            let pitch_index = self.last_pitch_index;
            let len = frame + overlap;
            //@ pitch
        }

        pub fn step_energies(&mut self) -> [[f32; MAX_BANDS]; 2] {
            //@ locals
            let nb = self.mode.nb_ebands;
            //@ energies
            band_e
        }

        pub fn step_noise_block(
            &mut self,
            band_e: &[[f32; MAX_BANDS]; 2],
        ) -> Result<Vec<f32>, Error> {
            let c = 0;
            //@ locals
            let mut seed = self.rng;
            //@ noise_block
            self.rng = seed;
            Ok(xbuf)
        }

        pub fn step_noise(&mut self, band_e: &[[f32; MAX_BANDS]; 2]) -> Result<(), Error> {
            //@ locals
            let mut seed = self.rng;
            //@ noise
            self.rng = seed;
            Ok(())
        }

        pub fn step_deemphasis(&mut self) -> Vec<f32> {
            //@ locals
            let mut pcm = vec![0f32; channels * (frame / downsample)];
            //@ deemphasis
            pcm
        }
    }
}
