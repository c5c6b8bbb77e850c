//! The size of the chroma planes, by the chroma format.
use raspbegonia::Picture;

#[test]
fn the_chroma_format_gives_the_size_of_the_chroma_planes() {
    let sizes = [(0, (0, 0)), (1, (24, 20)), (2, (24, 40)), (3, (48, 40)), (4, (0, 0)), (255, (0, 0))];
    for (chroma_format, size) in sizes {
        let picture = Picture {
            width: 48,
            height: 40,
            ctb_log2: 5,
            bit_depth: 8,
            chroma_format,
            slice_count: 1,
            across_tiles: true,
            across_slices: true,
            virtual_columns: &[],
            virtual_rows: &[],
            tile_columns: &[0; 2],
            tile_rows: &[0; 2],
            slice_map: &[0; 4],
            subpic_map: &[0; 4],
            subpic_across: &[1; 64],
        };
        assert_eq!((picture.chroma_width(), picture.chroma_height()), size, "format {chroma_format}");
    }
}
