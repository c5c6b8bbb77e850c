//! The C interface of the proved library (include/alf.h). All unsafe code of the wrapper stands here: a slice passes as its pointer and its
//! length, so each pointer is good for as many entries as the length beside it says.
use crate::{FixedTables, Parameters, Picture};

/// Declares functions that begin with the picture and its tables, in the order of the header.
macro_rules! declare {
    ($($name:ident($($argument:ident: $kind:ty),*);)*) => {
        extern "C" {
            $(fn $name(
                width: u32,
                height: u32,
                ctb_log2: u8,
                bit_depth: u8,
                chroma_format: u8,
                slice_count: u32,
                across_tiles: bool,
                across_slices: bool,
                virtual_columns: *const u16,
                virtual_columns_length: usize,
                virtual_rows: *const u16,
                virtual_rows_length: usize,
                tile_columns: *const u8,
                tile_columns_length: usize,
                tile_rows: *const u8,
                tile_rows_length: usize,
                slice_map: *const u8,
                slice_map_length: usize,
                subpic_map: *const u8,
                subpic_map_length: usize,
                subpic_across: *const u8,
                subpic_across_length: usize,
                $($argument: $kind),*
            ) -> u8;)*
        }
    };
}

declare! {
    alf_classes(luma: *const u16, luma_length: usize, class_map: *mut u8, class_map_length: usize);
    alf_luma(
        slice_params: *const u8, slice_params_length: usize, bank: *const i16, bank_length: usize,
        ctb_params: *const u8, ctb_params_length: usize, ctb_list: *const u32, ctb_list_length: usize,
        fixed_filters: *const i16, fixed_filters_length: usize, fixed_map: *const u8, fixed_map_length: usize,
        luma: *const u16, luma_length: usize, output: *mut u16, output_length: usize
    );
    alf_chroma(
        component: u8, slice_params: *const u8, slice_params_length: usize, bank: *const i16, bank_length: usize,
        ctb_params: *const u8, ctb_params_length: usize, ctb_list: *const u32, ctb_list_length: usize,
        chroma: *const u16, chroma_length: usize, output: *mut u16, output_length: usize
    );
    alf_cross_component(
        component: u8, slice_params: *const u8, slice_params_length: usize, bank: *const i16, bank_length: usize,
        ctb_params: *const u8, ctb_params_length: usize, ctb_list: *const u32, ctb_list_length: usize,
        luma: *const u16, luma_length: usize, chroma: *const u16, chroma_length: usize, output: *mut u16, output_length: usize
    );
    alf_isolated(region: *const u8, region_length: usize, isolated: *mut u8);
    alf_clip_causes(x: u32, y: u32, causes: *mut u8, causes_length: usize);
}

// The functions of bank files, which are given no picture.
extern "C" {
    fn alf_bank_write(bit_depth: u8, bank: *const i16, bank_length: usize, file: *mut u8, file_length: usize, length: *mut u32) -> u8;
    fn alf_bank_read(file: *const u8, file_length: usize, bank: *mut i16, bank_length: usize, bit_depth: *mut u8) -> u8;
}

/// Calls a function with the picture and its tables, and what follows them.
macro_rules! call {
    ($name:ident, $picture:expr, $($argument:expr),*) => {
        // Safe: the pointers and lengths are those of slices, which live through the call; the mutable ones are borrowed by it alone.
        unsafe {
            $name(
                $picture.width,
                $picture.height,
                $picture.ctb_log2,
                $picture.bit_depth,
                $picture.chroma_format,
                $picture.slice_count,
                $picture.across_tiles,
                $picture.across_slices,
                $picture.virtual_columns.as_ptr(),
                $picture.virtual_columns.len(),
                $picture.virtual_rows.as_ptr(),
                $picture.virtual_rows.len(),
                $picture.tile_columns.as_ptr(),
                $picture.tile_columns.len(),
                $picture.tile_rows.as_ptr(),
                $picture.tile_rows.len(),
                $picture.slice_map.as_ptr(),
                $picture.slice_map.len(),
                $picture.subpic_map.as_ptr(),
                $picture.subpic_map.len(),
                $picture.subpic_across.as_ptr(),
                $picture.subpic_across.len(),
                $($argument),*
            )
        }
    };
}

/// The same for a filter, which has its parameters between the component, if any, and its planes.
macro_rules! call_filter {
    ($name:ident, $picture:expr, ($($component:expr),*), $parameters:expr, $($argument:expr),*) => {
        call!(
            $name,
            $picture,
            $($component,)*
            $parameters.slice_params.as_ptr(),
            $parameters.slice_params.len(),
            $parameters.bank.as_ptr(),
            $parameters.bank.len(),
            $parameters.ctb_params.as_ptr(),
            $parameters.ctb_params.len(),
            $parameters.ctb_list.as_ptr(),
            $parameters.ctb_list.len(),
            $($argument),*
        )
    };
}

pub fn classes(picture: &Picture, luma: &[u16], class_map: &mut [u8]) -> u8 {
    call!(
        alf_classes,
        picture,
        luma.as_ptr(),
        luma.len(),
        class_map.as_mut_ptr(),
        class_map.len()
    )
}

pub fn luma(picture: &Picture, parameters: &Parameters, fixed: &FixedTables, luma: &[u16], output: &mut [u16]) -> u8 {
    call_filter!(
        alf_luma,
        picture,
        (),
        parameters,
        fixed.filters.as_ptr(),
        fixed.filters.len(),
        fixed.map.as_ptr(),
        fixed.map.len(),
        luma.as_ptr(),
        luma.len(),
        output.as_mut_ptr(),
        output.len()
    )
}

pub fn chroma(picture: &Picture, component: u8, parameters: &Parameters, chroma: &[u16], output: &mut [u16]) -> u8 {
    call_filter!(
        alf_chroma,
        picture,
        (component),
        parameters,
        chroma.as_ptr(),
        chroma.len(),
        output.as_mut_ptr(),
        output.len()
    )
}

pub fn cross_component(picture: &Picture, component: u8, parameters: &Parameters, luma: &[u16], chroma: &[u16], output: &mut [u16]) -> u8 {
    call_filter!(
        alf_cross_component,
        picture,
        (component),
        parameters,
        luma.as_ptr(),
        luma.len(),
        chroma.as_ptr(),
        chroma.len(),
        output.as_mut_ptr(),
        output.len()
    )
}

pub fn isolated(picture: &Picture, region: &[u8], isolated: &mut u8) -> u8 {
    call!(alf_isolated, picture, region.as_ptr(), region.len(), isolated)
}

pub fn clip_causes(picture: &Picture, x: u32, y: u32, causes: &mut [u8]) -> u8 {
    call!(alf_clip_causes, picture, x, y, causes.as_mut_ptr(), causes.len())
}

pub fn bank_write(bit_depth: u8, bank: &[i16], file: &mut [u8], length: &mut u32) -> u8 {
    // Safe: as in `call!`; `length` is a number that this call alone borrows.
    unsafe { alf_bank_write(bit_depth, bank.as_ptr(), bank.len(), file.as_mut_ptr(), file.len(), length) }
}

pub fn bank_read(file: &[u8], bank: &mut [i16], bit_depth: &mut u8) -> u8 {
    // Safe: as in `call!`; `bit_depth` is a number that this call alone borrows.
    unsafe { alf_bank_read(file.as_ptr(), file.len(), bank.as_mut_ptr(), bank.len(), bit_depth) }
}
