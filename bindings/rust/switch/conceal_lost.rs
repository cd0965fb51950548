impl CeltRefDecoder {
    /// [`Self::decode_lost`] by way of the proved library: the same call, and the same decoder
    /// after it. Where the library refuses, the decoder stays as it was.
    pub fn conceal_lost(&mut self) -> Result<Vec<f32>, Error> {
        if !self.reads_standard_mode() {
            return self.decode_lost();
        }
        let mut lent = self.lend();
        let len = lent.state.settings.pcm_len().ok_or(Error::InvalidParameter)?;
        let mut pcm = vec![0f32; len];
        lent.conceal(&mut pcm).map_err(|_refusal| Error::InvalidParameter)?;
        self.take_back(&lent);
        Ok(pcm)
    }

    /// Whether all that `decode_lost` reads of the mode is the standard mode's, the only one that
    /// the library has.
    fn reads_standard_mode(&self) -> bool {
        let (mode, standard) = (&self.mode, CeltCustomMode::standard());
        mode.short_mdct_size == standard.short_mdct_size
            && mode.overlap == standard.overlap
            && mode.nb_ebands == standard.nb_ebands
            && mode.eff_ebands == standard.eff_ebands
            && mode.e_bands == standard.e_bands
            && mode.preemph == standard.preemph
    }

    fn lend(&self) -> vikkozhan::Concealer {
        let mut lent = vikkozhan::Concealer::new(vikkozhan::Settings {
            lm: self.lm,
            channels: self.channels as u32,
            start: self.start as u32,
            end: self.end.min(self.mode.eff_ebands) as u32,
            downsample: self.downsample as u32,
        });
        let state = &mut lent.state;
        state.loss_count = self.loss_count;
        state.seed = self.rng;
        state.lag = self.last_pitch_index as u32;
        state.filter.period = self.pf_period as u32;
        state.filter.gain = self.pf_gain;
        state.filter.tapset = self.pf_tapset as u32;
        state.coarse.copy_from_slice(self.coarse.energy.as_flattened());
        state.background.copy_from_slice(self.background_log_e.as_flattened());
        state.memories = self.deemph_mem;
        // In mono there is one predictor and one history; the second channel's stay zero.
        let predictor = self.plc_lpc.as_flattened();
        state.predictor[..predictor.len()].copy_from_slice(predictor);
        for (c, memory) in self.decode_mem.iter().enumerate() {
            lent.history.channel_mut(c).copy_from_slice(memory);
        }
        lent
    }

    /// What a loss changes, and nothing else.
    fn take_back(&mut self, lent: &vikkozhan::Concealer) {
        let state = &lent.state;
        self.loss_count = state.loss_count;
        self.rng = state.seed;
        self.last_pitch_index = state.lag as usize;
        self.coarse.energy.as_flattened_mut().copy_from_slice(&state.coarse);
        self.deemph_mem = state.memories;
        let predictor = self.plc_lpc.as_flattened_mut();
        predictor.copy_from_slice(&state.predictor[..predictor.len()]);
        for (c, memory) in self.decode_mem.iter_mut().enumerate() {
            memory.copy_from_slice(lent.history.channel(c));
        }
    }
}
