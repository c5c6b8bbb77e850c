//! The operations of the library over the demo's picture.
use crate::format::Format;
use crate::layout::{Layout, CTBS};
use crate::planes::{Planes, CB, CR, Y};
use crate::tables::{Tables, SLICE_PARAMS};
use raspbegonia::{Fault, Parameters, Picture};

/// How many numbers a CTB has among the parameters.
pub const CTB_NUMBERS: usize = 8;

/// One of the filters; the number is the library's component, 0 for Cb and 1 for Cr.
#[derive(Clone, Copy)]
pub enum Filter {
    Luma,
    Chroma(u8),
    Cross(u8),
}

/// What the operations leave: the class map, chroma between its two filters, and the filtered picture.
pub struct Outputs {
    pub class_map: Vec<u8>,
    pub chroma: [Vec<u16>; 2],
    pub planes: Planes,
}

/// All that the picture is filtered with, save the CTBs' parameters.
#[derive(Clone, Copy)]
pub struct Setup<'a> {
    pub layout: &'a Layout,
    pub tables: &'a Tables,
    pub format: Format,
}

impl<'a> Setup<'a> {
    pub fn picture(&self) -> Picture<'a> {
        self.layout.picture(self.format)
    }

    /// Runs one filter over all CTBs. `input` is the plane that it filters; the cross-component filter reads `luma` beside it.
    pub fn filter_into(
        &self,
        picture: &Picture,
        filter: Filter,
        ctb_params: &[u8],
        luma: &[u16],
        input: &[u16],
        output: &mut [u16],
    ) -> Result<(), Fault> {
        let ctb_list: Vec<u32> = (0..CTBS as u32).collect();
        let parameters = Parameters {
            slice_params: &SLICE_PARAMS,
            bank: &self.tables.bank,
            ctb_params,
            ctb_list: &ctb_list,
        };
        match filter {
            Filter::Luma => raspbegonia::luma(picture, &parameters, &self.tables.fixed(), input, output),
            Filter::Chroma(component) => raspbegonia::chroma(picture, component, &parameters, input, output),
            Filter::Cross(component) => raspbegonia::cross_component(picture, component, &parameters, luma, input, output),
        }
    }

    /// The same, with a new plane for the output.
    pub fn filter(&self, filter: Filter, ctb_params: &[u8], luma: &[u16], input: &[u16]) -> Result<Vec<u16>, Fault> {
        let mut output = vec![0; input.len()];
        self.filter_into(&self.picture(), filter, ctb_params, luma, input, &mut output)?;
        Ok(output)
    }

    /// Runs the class map and every filter. The cross-component filter takes the filtered chroma and the luma as it came.
    pub fn all(&self, ctb_params: &[u8], input: &Planes) -> Result<Outputs, Fault> {
        let mut class_map = vec![0; input[Y].len() / 16];
        raspbegonia::classes(&self.picture(), &input[Y], &mut class_map)?;
        let run = |filter, plane: &[u16]| self.filter(filter, ctb_params, &input[Y], plane);
        let chroma = [run(Filter::Chroma(0), &input[CB])?, run(Filter::Chroma(1), &input[CR])?];
        let planes = [
            run(Filter::Luma, &input[Y])?,
            run(Filter::Cross(0), &chroma[0])?,
            run(Filter::Cross(1), &chroma[1])?,
        ];
        Ok(Outputs { class_map, chroma, planes })
    }
}
