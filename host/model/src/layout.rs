//! What the operations are given, and the CTB grid and planes that follow.
//!
//! The methods count on sizes and lengths that have been judged.

/// Sizes, flags and boundary tables, in the layout of the C interface.
#[derive(Clone, Copy, Debug)]
pub struct Layout<'a> {
    pub width: u32,
    pub height: u32,
    pub ctb_log2: u8,
    pub bit_depth: u8,
    /// 0: luma alone; 1: 4:2:0; 2: 4:2:2; 3: 4:4:4.
    pub chroma: u8,
    /// The slice count, the N of 01.
    pub slice_count: u32,
    /// True where the filters reach across tiles; false: filtering stops at their sides.
    pub across_tiles: bool,
    /// True where the filters reach across slices; false: filtering stops at their sides.
    pub across_slices: bool,
    pub virtual_columns: &'a [u16],
    pub virtual_rows: &'a [u16],
    /// One number for each CTB column.
    pub tile_columns: &'a [u8],
    /// One number for each CTB row.
    pub tile_rows: &'a [u8],
    /// One slice for each CTB.
    pub slice_map: &'a [u8],
    /// One subpicture for each CTB.
    pub subpic_map: &'a [u8],
    /// One flag for each of the 64 subpicture numbers; 0: filtering stops at its sides.
    pub subpic_across: &'a [u8],
}

/// Slice parameters, filter bank, CTB parameters and the list of CTBs to filter.
#[derive(Clone, Copy, Debug)]
pub struct Parameters<'a> {
    pub slice_params: &'a [u8],
    pub bank: &'a [i16],
    pub ctb_params: &'a [u8],
    pub ctb_list: &'a [u32],
}

/// The standard's own tables: AlfFixFiltCoeff and AlfClassToFiltMap.
#[derive(Clone, Copy, Debug)]
pub struct FixedTables<'a> {
    pub filters: &'a [i16],
    pub map: &'a [u8],
}

/// How many luma samples, in each direction, one entry of a plane or a map stands for.
#[derive(Clone, Copy, Debug, PartialEq, Eq)]
pub(crate) struct Cell {
    pub width: i64,
    pub height: i64,
}

impl Cell {
    /// A luma sample stands for itself.
    pub(crate) const LUMA: Cell = Cell::square(1);

    pub(crate) const fn square(side: i64) -> Cell {
        Cell { width: side, height: side }
    }
}

/// A CTB by its position in the grid (rx, ry).
#[derive(Clone, Copy, Debug, PartialEq, Eq)]
pub(crate) struct Ctb {
    pub column: i64,
    pub row: i64,
}

impl Layout<'_> {
    /// CtbSizeY, the S of 01.
    pub(crate) fn ctb_size(&self) -> i64 {
        1 << self.ctb_log2
    }

    /// PicWidthInCtbsY.
    pub(crate) fn ctb_columns(&self) -> i64 {
        (i64::from(self.width) + self.ctb_size() - 1) / self.ctb_size()
    }

    /// PicHeightInCtbsY.
    pub(crate) fn ctb_rows(&self) -> i64 {
        (i64::from(self.height) + self.ctb_size() - 1) / self.ctb_size()
    }

    pub(crate) fn ctb_count(&self) -> i64 {
        self.ctb_columns() * self.ctb_rows()
    }

    /// SubWidthC by SubHeightC, the ratio of the chroma format.
    pub(crate) fn chroma_cell(&self) -> Cell {
        let (width, height) = match self.chroma {
            1 => (2, 2),
            2 => (2, 1),
            _ => (1, 1),
        };
        Cell { width, height }
    }

    /// The number of cells in the picture.
    pub(crate) fn cells(&self, cell: Cell) -> i64 {
        (i64::from(self.width) / cell.width) * (i64::from(self.height) / cell.height)
    }

    /// The CTB of an address; addresses go along the rows of the grid.
    pub(crate) fn ctb(&self, address: i64) -> Ctb {
        Ctb {
            column: address % self.ctb_columns(),
            row: address / self.ctb_columns(),
        }
    }

    pub(crate) fn address(&self, ctb: Ctb) -> usize {
        (ctb.row * self.ctb_columns() + ctb.column) as usize
    }

    /// The luma position of the CTB's first sample, ( xCtb, yCtb ).
    pub(crate) fn origin(&self, ctb: Ctb) -> (i64, i64) {
        (ctb.column * self.ctb_size(), ctb.row * self.ctb_size())
    }

    /// The CTB that covers a luma position of the picture.
    pub(crate) fn covering(&self, x: i64, y: i64) -> Ctb {
        Ctb {
            column: x / self.ctb_size(),
            row: y / self.ctb_size(),
        }
    }

    /// The CTB some columns and rows away, where the picture has one there.
    pub(crate) fn beside(&self, ctb: Ctb, columns: i64, rows: i64) -> Option<Ctb> {
        let column = ctb.column + columns;
        let row = ctb.row + rows;
        let there = (0..self.ctb_columns()).contains(&column) && (0..self.ctb_rows()).contains(&row);
        there.then_some(Ctb { column, row })
    }

    /// The pair of tile numbers of a CTB.
    pub(crate) fn tile(&self, ctb: Ctb) -> (u8, u8) {
        let column = self.tile_columns[ctb.column as usize];
        let row = self.tile_rows[ctb.row as usize];
        (column, row)
    }

    pub(crate) fn slice(&self, ctb: Ctb) -> u8 {
        self.slice_map[self.address(ctb)]
    }

    /// CurrSubpicIdx.
    pub(crate) fn subpic(&self, ctb: Ctb) -> u8 {
        self.subpic_map[self.address(ctb)]
    }
}

impl<'a> Parameters<'a> {
    /// The eight bytes of a CTB's parameters (01: choices).
    pub(crate) fn of_ctb(&self, address: usize) -> &'a [u8] {
        &self.ctb_params[8 * address..8 * address + 8]
    }

    /// The eleven bytes of a slice's parameters (01: slice row).
    pub(crate) fn of_slice(&self, slice: u8) -> &'a [u8] {
        let start = 11 * usize::from(slice);
        &self.slice_params[start..start + 11]
    }

    /// The 752 numbers of one APS of the filter bank (01: place).
    pub(crate) fn aps(&self, id: u8) -> &'a [i16] {
        let start = 752 * usize::from(id);
        &self.bank[start..start + 752]
    }

    /// 01: once in the list is enough; repeats add nothing.
    pub(crate) fn lists(&self, address: i64) -> bool {
        self.ctb_list.iter().any(|&each| i64::from(each) == address)
    }
}

/// One plane of samples with its sizes.
#[derive(Clone, Copy)]
pub(crate) struct Plane<'a> {
    samples: &'a [u16],
    pub width: i64,
    pub height: i64,
    pub cell: Cell,
}

impl<'a> Plane<'a> {
    pub(crate) fn luma(layout: &Layout, samples: &'a [u16]) -> Plane<'a> {
        Plane::of_cells(layout, samples, Cell::LUMA)
    }

    pub(crate) fn chroma(layout: &Layout, samples: &'a [u16]) -> Plane<'a> {
        Plane::of_cells(layout, samples, layout.chroma_cell())
    }

    fn of_cells(layout: &Layout, samples: &'a [u16], cell: Cell) -> Plane<'a> {
        let width = i64::from(layout.width) / cell.width;
        let height = i64::from(layout.height) / cell.height;
        Plane {
            samples,
            width,
            height,
            cell,
        }
    }

    /// (1517) and (1518): where the CTB begins in this plane.
    pub(crate) fn origin(&self, layout: &Layout, ctb: Ctb) -> (i64, i64) {
        let (x_ctb, y_ctb) = layout.origin(ctb);
        (x_ctb / self.cell.width, y_ctb / self.cell.height)
    }

    /// (1519) and (1520): width and height of a whole CTB in this plane.
    pub(crate) fn ctb_sizes(&self, layout: &Layout) -> (i64, i64) {
        (layout.ctb_size() / self.cell.width, layout.ctb_size() / self.cell.height)
    }

    pub(crate) fn holds(&self, x: i64, y: i64) -> bool {
        (0..self.width).contains(&x) && (0..self.height).contains(&y)
    }

    pub(crate) fn index(&self, x: i64, y: i64) -> usize {
        (y * self.width + x) as usize
    }

    pub(crate) fn at(&self, x: i64, y: i64) -> i64 {
        i64::from(self.samples[self.index(x, y)])
    }
}
