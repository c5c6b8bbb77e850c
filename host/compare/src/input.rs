//! All that an operation may be given, owned, so that a test can change any part of it.

#[derive(Clone, Copy, Debug, PartialEq, Eq)]
pub enum Operation {
    Classes,
    Luma,
    Chroma,
    CrossComponent,
    Isolated,
    ClipCauses,
}

impl Operation {
    pub const ALL: [Operation; 6] = [
        Operation::Classes,
        Operation::Luma,
        Operation::Chroma,
        Operation::CrossComponent,
        Operation::Isolated,
        Operation::ClipCauses,
    ];
    /// Those that write an entry for each block or sample.
    pub const WITH_PLANE: [Operation; 4] = [Operation::Classes, Operation::Luma, Operation::Chroma, Operation::CrossComponent];

    pub fn is_filter(self) -> bool {
        matches!(self, Operation::Luma | Operation::Chroma | Operation::CrossComponent)
    }

    pub fn has_component(self) -> bool {
        matches!(self, Operation::Chroma | Operation::CrossComponent)
    }

    pub fn reads_luma(self) -> bool {
        matches!(self, Operation::Classes | Operation::Luma | Operation::CrossComponent)
    }
}

/// Sizes, switches, boundary tables; parameters; planes; and the output as it stands before the call.
#[derive(Clone, Debug)]
pub struct Input {
    pub width: u32,
    pub height: u32,
    pub ctb_log2: u8,
    pub bit_depth: u8,
    pub chroma_format: u8,
    pub slice_count: u32,
    pub across_tiles: bool,
    pub across_slices: bool,
    pub virtual_columns: Vec<u16>,
    pub virtual_rows: Vec<u16>,
    pub tile_columns: Vec<u8>,
    pub tile_rows: Vec<u8>,
    pub slice_map: Vec<u8>,
    pub subpic_map: Vec<u8>,
    pub subpic_across: Vec<u8>,
    pub component: u8,
    pub slice_params: Vec<u8>,
    pub bank: Vec<i16>,
    pub ctb_params: Vec<u8>,
    pub ctb_list: Vec<u32>,
    pub fixed_filters: Vec<i16>,
    pub fixed_map: Vec<u8>,
    pub luma: Vec<u16>,
    pub chroma: Vec<u16>,
    pub region: Vec<u8>,
    /// Column and row of a luma sample.
    pub position: (u32, u32),
    /// What stands in the class map, the luma output, the chroma output, the isolation test's answer and the causes before the call.
    pub class_map: Vec<u8>,
    pub luma_output: Vec<u16>,
    pub chroma_output: Vec<u16>,
    pub isolated: u8,
    pub causes: Vec<u8>,
}

impl Input {
    pub fn ctb(&self) -> u32 {
        1 << self.ctb_log2
    }

    pub fn columns(&self) -> usize {
        self.width.div_ceil(self.ctb()) as usize
    }

    pub fn rows(&self) -> usize {
        self.height.div_ceil(self.ctb()) as usize
    }

    pub fn ctbs(&self) -> usize {
        self.columns() * self.rows()
    }

    /// The address of the CTB with a luma sample.
    pub fn address(&self, x: usize, y: usize) -> usize {
        (y >> self.ctb_log2) * self.columns() + (x >> self.ctb_log2)
    }

    pub fn luma_length(&self) -> usize {
        self.width as usize * self.height as usize
    }

    /// Width and height of a chroma plane; 0 where there is no chroma.
    pub fn chroma_size(&self) -> (usize, usize) {
        let picture = self.picture();
        (picture.chroma_width() as usize, picture.chroma_height() as usize)
    }

    /// The picture as the wrapper takes it.
    pub fn picture(&self) -> raspbegonia::Picture<'_> {
        raspbegonia::Picture {
            width: self.width,
            height: self.height,
            ctb_log2: self.ctb_log2,
            bit_depth: self.bit_depth,
            chroma_format: self.chroma_format,
            slice_count: self.slice_count,
            across_tiles: self.across_tiles,
            across_slices: self.across_slices,
            virtual_columns: &self.virtual_columns,
            virtual_rows: &self.virtual_rows,
            tile_columns: &self.tile_columns,
            tile_rows: &self.tile_rows,
            slice_map: &self.slice_map,
            subpic_map: &self.subpic_map,
            subpic_across: &self.subpic_across,
        }
    }
}
