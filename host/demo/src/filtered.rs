//! The picture in one chroma format, from the scene to what the filters make of it.
use crate::choose;
use crate::coding;
use crate::filter::{Outputs, Setup};
use crate::format::Format;
use crate::planes::Planes;
use crate::scene::Scene;
use raspbegonia::Fault;

/// The clean picture, the coded one, the CTBs' parameters that suit it, and the outputs.
pub struct Filtered {
    pub format: Format,
    pub clean: Planes,
    pub before: Planes,
    pub ctb_params: Vec<u8>,
    pub outputs: Outputs,
}

impl Filtered {
    pub fn new(setup: Setup, scene: &Scene) -> Result<Filtered, Fault> {
        let clean = scene.planes(setup.format);
        let before = coding::degraded(&clean, setup.format);
        let ctb_params = choose::ctb_params(setup, &before, &clean)?;
        let outputs = setup.all(&ctb_params, &before)?;
        Ok(Filtered {
            format: setup.format,
            clean,
            before,
            ctb_params,
            outputs,
        })
    }
}
