//! The C of baseline.c, in its three builds. All unsafe code of the benchmark stands here.
use crate::case::Case;
use crate::operations::{Operation, Output};
use crate::padded::Padded;

/// `struct input` of baseline.c.
#[repr(C)]
struct Input {
    width: i32,
    height: i32,
    ctb_log2: i32,
    bit_depth: i32,
    sub_width: i32,
    sub_height: i32,
    slice_map: *const u8,
    slice_params: *const u8,
    ctb_params: *const u8,
    fixed_map: *const u8,
    bank: *const i16,
    fixed_filters: *const i16,
}

/// `struct plane` of baseline.c.
#[repr(C)]
struct Plane {
    first: *const u16,
    stride: isize,
}

type Classes = unsafe extern "C" fn(*const Input, *const Plane, *mut u8);
type Luma = unsafe extern "C" fn(*const Input, *const Plane, *mut u16);
type Chroma = unsafe extern "C" fn(*const Input, i32, *const Plane, *mut u16);
type CrossComponent = unsafe extern "C" fn(*const Input, i32, *const Plane, *const Plane, *mut u16);

/// One build of baseline.c.
pub struct Build {
    classes: Classes,
    luma: Luma,
    chroma: Chroma,
    cross_component: CrossComponent,
}

/// Declares the functions of a build and names it.
macro_rules! build {
    ($build:ident, $classes:ident, $luma:ident, $chroma:ident, $cross_component:ident) => {
        extern "C" {
            fn $classes(input: *const Input, luma: *const Plane, class_map: *mut u8);
            fn $luma(input: *const Input, luma: *const Plane, output: *mut u16);
            fn $chroma(input: *const Input, component: i32, chroma: *const Plane, output: *mut u16);
            fn $cross_component(input: *const Input, component: i32, luma: *const Plane, chroma: *const Plane, output: *mut u16);
        }

        pub static $build: Build = Build {
            classes: $classes,
            luma: $luma,
            chroma: $chroma,
            cross_component: $cross_component,
        };
    };
}

build!(
    O3,
    baseline_classes_o3,
    baseline_luma_o3,
    baseline_chroma_o3,
    baseline_cross_component_o3
);
build!(
    ROWS,
    baseline_classes_rows,
    baseline_luma_rows,
    baseline_chroma_rows,
    baseline_cross_component_rows
);
build!(
    NATIVE,
    baseline_classes_native,
    baseline_luma_native,
    baseline_chroma_native,
    baseline_cross_component_native
);

impl Build {
    pub fn run(&self, case: &Case, output: &mut Output) {
        assert!(output.fits(case));
        let input = input(case);
        let (luma, chroma) = (plane(&case.padded_luma), plane(&case.padded_chroma));
        let (map, samples) = (output.map.as_mut_ptr(), output.plane.as_mut_ptr());
        // Safe: a case has tables and padded planes of the sizes that its picture calls for, with numbers in range, and the output fits it.
        unsafe {
            match output.operation {
                Operation::Classes => (self.classes)(&input, &luma, map),
                Operation::Luma => (self.luma)(&input, &luma, samples),
                Operation::Chroma(component) => (self.chroma)(&input, component.into(), &chroma, samples),
                Operation::CrossComponent(component) => (self.cross_component)(&input, component.into(), &luma, &chroma, samples),
            }
        }
    }
}

fn input(case: &Case) -> Input {
    let (across, down) = case.format.ratio();
    Input {
        width: case.width as i32,
        height: case.height as i32,
        ctb_log2: case.ctb_log2.into(),
        bit_depth: case.bit_depth.into(),
        sub_width: across as i32,
        sub_height: down as i32,
        slice_map: case.slice_map.as_ptr(),
        slice_params: case.slice_params.as_ptr(),
        ctb_params: case.ctb_params.as_ptr(),
        fixed_map: case.fixed_map.as_ptr(),
        bank: case.bank.as_ptr(),
        fixed_filters: case.fixed_filters.as_ptr(),
    }
}

fn plane(padded: &Padded) -> Plane {
    Plane {
        first: padded.first(),
        stride: padded.stride as isize,
    }
}
