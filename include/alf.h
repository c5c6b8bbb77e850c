/* The adaptive loop filter of H.266 (VVC), proved. Link with libalf_c.a, which `make lib` writes to target/staticlib.
 *
 * Every function judges what it is given before it works. It returns 0 where the input is accepted, else the number of the lowest fault
 * that applies (enum alf_fault), and then nothing is written. It asks nothing of its caller but what C itself asks:
 *
 *   - a pointer is good for as many entries as the length beside it says, and aligned for its type; where the length is 0 it is not used
 *     and may be null. Three pointers have no length beside them, alf_isolated's `isolated`, alf_bank_write's `length` and
 *     alf_bank_read's `bit_depth`: each is good for one number, and never null;
 *   - an output overlaps no input and no other output;
 *   - a bool is 0 or 1;
 *   - a stack with 384 KB left.
 *
 * Nothing is kept between calls and nothing is allocated; calls from several threads at once do not disturb each other.
 *
 * The two functions of bank files are given no picture. Every other one begins with the picture and its boundary tables:
 *
 *   width, height       of the luma plane: multiples of 8, from 8 to 4096
 *   ctb_log2            5, 6 or 7; a CTB has S = 2^ctb_log2 luma samples a side
 *   bit_depth           B, 8 to 12
 *   chroma_format       0: luma alone. Else the chroma planes are, for 1: 4:2:0, width/2 by height/2; for 2: 4:2:2, width/2 by height; for
 *                       3: 4:4:4, width by height
 *   slice_count         N, 1 to 256
 *   across_tiles,
 *   across_slices       true: filtering goes across the sides of tiles, of slices
 *   virtual_columns,
 *   virtual_rows        at most 3 each; multiples of 8 from 8 to the size less 8, rising, at least S apart
 *   tile_columns,
 *   tile_rows           the tile column of each CTB column, the tile row of each CTB row: from 0, each as the one before or one more
 *   slice_map           for each CTB, row by row, its slice, below N. Where four CTBs meet, three of one slice with the upper right or the
 *                       lower left one of another are a fault
 *   subpic_map          for each CTB its subpicture, 0 to 63. Where four CTBs meet, never exactly three are of one subpicture
 *   subpic_across       64 numbers, 0 or 1; 1: filtering goes across the sides of that subpicture, as far as its own CTBs go
 *
 * The three filters go on with
 *
 *   component           chroma and cross-component: 0 (Cb) or 1 (Cr)
 *   slice_params        11 numbers for each slice: how many luma APSs (0 to 7), seven luma APS ids, the chroma APS id, the cross-component
 *                       APS ids of Cb and Cr; an id is 0 to 7, also where it is not used
 *   bank                eight APSs of 752 numbers: 25 luma filters of 12 coefficients and 12 clips; 8 chroma filters of 6 and 6; 4
 *                       cross-component filters of 7 coefficients for Cb, then 4 for Cr. A coefficient is -128 to 127, a clip 0 to 2^B
 *   ctb_params          8 numbers for each CTB: luma, Cb and Cr flags (0 or 1); the luma set (0 to 15 fixed, then 16 up to 15 + the count
 *                       of its slice); Cb's and Cr's alternative (0 to 7); Cb's and Cr's cross-component index (0 off, 1 to 4).
 *                       Where chroma_format is 0, all but the luma flag and the luma set are 0
 *   ctb_list            addresses of CTBs to filter, row by row from 0; any order, repeats and none at all are good
 *
 * Planes are 16-bit samples below 2^B, row by row with no gap between rows. */
#ifndef ALF_H
#define ALF_H

#include <stdbool.h>
#include <stddef.h>
#include <stdint.h>

#ifdef __cplusplus
extern "C" {
#endif

/* What a function returns. */
enum alf_fault {
    ALF_ACCEPTED = 0,
    ALF_PICTURE_SIZE = 1,
    ALF_CTB_SIZE = 2,
    ALF_BIT_DEPTH = 3,
    ALF_CHROMA_FORMAT = 4,
    ALF_LENGTH = 5,
    ALF_VIRTUAL_BOUNDARY = 6,
    ALF_TILE = 7,
    ALF_SLICE = 8,
    ALF_SUBPICTURE = 9,
    ALF_PARAMETER = 10,
    ALF_FILTER = 11,
    ALF_SAMPLE = 12,
    ALF_ADDRESS = 13,
    ALF_REGION = 14,
    ALF_POSITION = 15,
    ALF_FIELD_CUT_SHORT = 16,
    ALF_FIELD_UNLISTED = 17,
    ALF_FIELD_OUT_OF_PLACE = 18
};

/* What a returned number means, for a message. */
static inline const char *alf_meaning(uint8_t number)
{
    static const char *const meanings[] = {
        "accepted",
        "width or height is not a multiple of 8 from 8 to 4096",
        "CTB exponent is not 5, 6 or 7",
        "bit depth is not 8 to 12",
        "chroma format is not 0 to 3, or a chroma filter was asked for a picture without chroma or a component that is not 0 or 1",
        "slice count is not 1 to 256, or a plane, a table or the room for a bank file does not have the length called for",
        "virtual boundaries are more than three, out of range, not multiples of 8, not rising or less than a CTB apart",
        "tile numbers do not begin at 0 or do not rise by 0 or 1",
        "slice map has a number that is not below the slice count, or a corner that slices cannot have",
        "subpicture map has a number over 63 or a corner that subpictures cannot have, or a switch is not 0 or 1",
        "a slice's or a CTB's parameters are out of range",
        "a coefficient, a clip or an entry of the fixed filter map is out of range",
        "an input sample is 2^bit depth or more",
        "the list has an address that is not below the count of CTBs",
        "an entry of the region is not 0 or 1",
        "the position lies outside the picture",
        "a field of the bank file is cut short",
        "a field of the bank file has a tag, a length or a leading number that is not listed",
        "a field of the bank file is out of place: the bit depth is not first, or a filter is out of order, repeated or all zero",
    };
    return number < sizeof meanings / sizeof meanings[0] ? meanings[number] : "not a number of this library";
}

/* Why the filters read nothing across a clip position, as alf_clip_causes writes it. */
enum alf_clip_cause {
    ALF_CLIP_OPEN = 0, /* no clip position on that side */
    ALF_CLIP_LINE_BUFFER_BOUNDARY = 1,
    ALF_CLIP_VIRTUAL_BOUNDARY = 2,
    ALF_CLIP_TILE = 3,
    ALF_CLIP_SLICE = 4,
    ALF_CLIP_SUBPICTURE = 5
};

/* The name of a cause, for a message. */
static inline const char *alf_clip_cause_name(uint8_t cause)
{
    static const char *const names[] = {
        "open",
        "line-buffer boundary",
        "virtual boundary",
        "tile",
        "slice",
        "subpicture",
    };
    return cause < sizeof names / sizeof names[0] ? names[cause] : "not a cause of this library";
}

/* The class map of a luma plane: (width/4) * (height/4) numbers, class + 32 * transpose of each 4 by 4 block, row by row.
 * Judges the picture, the lengths and the samples: 1 to 9 and 12. */
uint8_t alf_classes(
    uint32_t width, uint32_t height, uint8_t ctb_log2, uint8_t bit_depth, uint8_t chroma_format, uint32_t slice_count,
    bool across_tiles, bool across_slices,
    const uint16_t *virtual_columns, size_t virtual_columns_length,
    const uint16_t *virtual_rows, size_t virtual_rows_length,
    const uint8_t *tile_columns, size_t tile_columns_length,
    const uint8_t *tile_rows, size_t tile_rows_length,
    const uint8_t *slice_map, size_t slice_map_length,
    const uint8_t *subpic_map, size_t subpic_map_length,
    const uint8_t *subpic_across, size_t subpic_across_length,
    const uint16_t *luma, size_t luma_length,
    uint8_t *class_map, size_t class_map_length);

/* The luma filter: output is luma with each listed CTB whose luma flag is 1 filtered. It finds the classes itself.
 * fixed_filters are the 64 times 12 coefficients of AlfFixFiltCoeff, fixed_map the 16 times 25 entries, 0 to 63, of AlfClassToFiltMap.
 * Judges the picture, the lengths, parameters, bank and fixed tables, samples and list: 1 to 13. */
uint8_t alf_luma(
    uint32_t width, uint32_t height, uint8_t ctb_log2, uint8_t bit_depth, uint8_t chroma_format, uint32_t slice_count,
    bool across_tiles, bool across_slices,
    const uint16_t *virtual_columns, size_t virtual_columns_length,
    const uint16_t *virtual_rows, size_t virtual_rows_length,
    const uint8_t *tile_columns, size_t tile_columns_length,
    const uint8_t *tile_rows, size_t tile_rows_length,
    const uint8_t *slice_map, size_t slice_map_length,
    const uint8_t *subpic_map, size_t subpic_map_length,
    const uint8_t *subpic_across, size_t subpic_across_length,
    const uint8_t *slice_params, size_t slice_params_length,
    const int16_t *bank, size_t bank_length,
    const uint8_t *ctb_params, size_t ctb_params_length,
    const uint32_t *ctb_list, size_t ctb_list_length,
    const int16_t *fixed_filters, size_t fixed_filters_length,
    const uint8_t *fixed_map, size_t fixed_map_length,
    const uint16_t *luma, size_t luma_length,
    uint16_t *output, size_t output_length);

/* The chroma filter of a component: output is chroma with each listed CTB whose flag of that component is 1 filtered.
 * Judges the same but for the fixed tables, and that there is chroma and such a component: 1 to 13. */
uint8_t alf_chroma(
    uint32_t width, uint32_t height, uint8_t ctb_log2, uint8_t bit_depth, uint8_t chroma_format, uint32_t slice_count,
    bool across_tiles, bool across_slices,
    const uint16_t *virtual_columns, size_t virtual_columns_length,
    const uint16_t *virtual_rows, size_t virtual_rows_length,
    const uint8_t *tile_columns, size_t tile_columns_length,
    const uint8_t *tile_rows, size_t tile_rows_length,
    const uint8_t *slice_map, size_t slice_map_length,
    const uint8_t *subpic_map, size_t subpic_map_length,
    const uint8_t *subpic_across, size_t subpic_across_length,
    uint8_t component,
    const uint8_t *slice_params, size_t slice_params_length,
    const int16_t *bank, size_t bank_length,
    const uint8_t *ctb_params, size_t ctb_params_length,
    const uint32_t *ctb_list, size_t ctb_list_length,
    const uint16_t *chroma, size_t chroma_length,
    uint16_t *output, size_t output_length);

/* The cross-component filter of a component: output is chroma, which is filtered already, with each listed CTB whose index of that
 * component is not 0 corrected from luma, which is not filtered. Judges as alf_chroma does, and both planes: 1 to 13. */
uint8_t alf_cross_component(
    uint32_t width, uint32_t height, uint8_t ctb_log2, uint8_t bit_depth, uint8_t chroma_format, uint32_t slice_count,
    bool across_tiles, bool across_slices,
    const uint16_t *virtual_columns, size_t virtual_columns_length,
    const uint16_t *virtual_rows, size_t virtual_rows_length,
    const uint8_t *tile_columns, size_t tile_columns_length,
    const uint8_t *tile_rows, size_t tile_rows_length,
    const uint8_t *slice_map, size_t slice_map_length,
    const uint8_t *subpic_map, size_t subpic_map_length,
    const uint8_t *subpic_across, size_t subpic_across_length,
    uint8_t component,
    const uint8_t *slice_params, size_t slice_params_length,
    const int16_t *bank, size_t bank_length,
    const uint8_t *ctb_params, size_t ctb_params_length,
    const uint32_t *ctb_list, size_t ctb_list_length,
    const uint16_t *luma, size_t luma_length,
    const uint16_t *chroma, size_t chroma_length,
    uint16_t *output, size_t output_length);

/* The isolation test: whether what lies outside the region can have an effect inside it. region has (width/8) * (height/8) numbers, one
 * for each 8 by 8 luma block: 1 inside, 0 outside. *isolated is written only where 0 is returned: it becomes 1 where every step out of
 * the region is closed, else 0. Where another number is returned it stays as it was, so that it says nothing: look at the number first.
 * Judges the picture, the lengths and the region: 1 to 9 and 14. */
uint8_t alf_isolated(
    uint32_t width, uint32_t height, uint8_t ctb_log2, uint8_t bit_depth, uint8_t chroma_format, uint32_t slice_count,
    bool across_tiles, bool across_slices,
    const uint16_t *virtual_columns, size_t virtual_columns_length,
    const uint16_t *virtual_rows, size_t virtual_rows_length,
    const uint8_t *tile_columns, size_t tile_columns_length,
    const uint8_t *tile_rows, size_t tile_rows_length,
    const uint8_t *slice_map, size_t slice_map_length,
    const uint8_t *subpic_map, size_t subpic_map_length,
    const uint8_t *subpic_across, size_t subpic_across_length,
    const uint8_t *region, size_t region_length,
    uint8_t *isolated);

/* What closes the sides of the luma sample in column x and row y: whether a clip position lies so near to it that the filters stop
 * there, and why. causes has 4 entries, for top, bottom, left and right; each becomes an enum alf_clip_cause. Where the number returned
 * is not 0 they stay as they were. Where several causes apply, the first counts of: at the top the line-buffer boundary, a virtual
 * boundary, the CTB's side; at the bottom a virtual boundary, the line-buffer boundary, the CTB's side; left and right a virtual
 * boundary, the CTB's side. A CTB's side is closed by a tile before a slice before a subpicture. The picture's rim is open. The
 * line-buffer boundary is luma's, 4 rows above the CTB's bottom, whatever the chroma format is. Judges the picture, the lengths and
 * last the position: 1 to 9 and 15. */
uint8_t alf_clip_causes(
    uint32_t width, uint32_t height, uint8_t ctb_log2, uint8_t bit_depth, uint8_t chroma_format, uint32_t slice_count,
    bool across_tiles, bool across_slices,
    const uint16_t *virtual_columns, size_t virtual_columns_length,
    const uint16_t *virtual_rows, size_t virtual_rows_length,
    const uint8_t *tile_columns, size_t tile_columns_length,
    const uint8_t *tile_rows, size_t tile_rows_length,
    const uint8_t *slice_map, size_t slice_map_length,
    const uint8_t *subpic_map, size_t subpic_map_length,
    const uint8_t *subpic_across, size_t subpic_across_length,
    uint32_t x, uint32_t y,
    uint8_t *causes, size_t causes_length);

/* A bank as a file, described in docs/bank-files.md: a row of fields of a tag (one byte), a length (two bytes, most significant first)
 * and a value. One bank at one bit depth has one file. */
enum {
    ALF_BANK_NUMBERS = 6016,    /* the numbers of a bank: eight APSs of 752 */
    ALF_BANK_FILE_BYTES = 10508 /* the bytes of the longest file: that of a bank in which no filter is all zero */
};

/* Writes the file of a bank at a bit depth. bank has ALF_BANK_NUMBERS numbers, in the order that is said above; file has room for
 * ALF_BANK_FILE_BYTES or more, also where this bank's file is shorter. The file goes to the front of it, *length becomes how many bytes
 * that is, and every byte behind them stays as it was. Where the number returned is not 0, nothing of file and *length is written.
 * Judges the bit depth, the two lengths, and the coefficients and clips: 3, 5 and 11. */
uint8_t alf_bank_write(
    uint8_t bit_depth,
    const int16_t *bank, size_t bank_length,
    uint8_t *file, size_t file_length,
    uint32_t *length);

/* Reads a bank file: bank, of ALF_BANK_NUMBERS numbers, becomes the bank and *bit_depth the depth that it was written of. It accepts
 * exactly the files that alf_bank_write makes; file_length is the length that alf_bank_write has returned, without the room behind it.
 * Where the number returned is not 0, nothing of bank and *bit_depth is written. Judges the length of the bank, 5, before any field;
 * then the first faulty field, and in it the lowest of 3, 11, 16, 17 and 18. A bit depth (3) or a clip (11) is judged only in a whole
 * field of listed tag and length, a clip only behind a good bit depth. */
uint8_t alf_bank_read(
    const uint8_t *file, size_t file_length,
    int16_t *bank, size_t bank_length,
    uint8_t *bit_depth);

#ifdef __cplusplus
}
#endif

#endif
