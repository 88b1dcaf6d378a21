/*
 * Gatemurmur: the QR label on a disc sleeve, from segments to modules and back.
 *
 * Link with libgatemurmur.a, which `bash tools/library` writes to target/staticlib, for x86-64. The library has no
 * state and no memory of its own but the stack, where an entry has local arrays of about 24 KB, and one with records of about
 * 94 KB; it calls memcpy and memset and nothing else. So calls from several threads at once are fine, each with its own buffers.
 *
 * Numbers
 *   level     0 Low, 1 Medium, 2 Quartile, 3 High
 *   version   1 to 40; a label has side = 4 * version + 17 modules to a row, 21 to 177
 *   mask      0 to 7; 8 asks for the automatic choice: the lowest mask of the least penalty
 *   grid      one byte a module, 0 light and 1 dark, row by row
 *   record    kind, start, length and assign
 *               kind 0 Numeric, 1 Alphanumeric, 2 Byte: the part of the text from start on, of that length; assign is 0
 *               kind 3 ECI: start and length are 0, assign is the ECI number, below 1,000,000
 *
 * Buffers
 *   A buffer is a pointer and its length, in elements. The caller owns it; nothing is kept after the return. A pointer is
 *   not null and is aligned for its type, even where the length is 0. A buffer that is written overlaps no other
 *   buffer of the call. That is all that is asked of a caller: every number and every content gets its answer.
 *
 *   grid      at least side * side bytes of the version that is chosen; GATEMURMUR_GRID bytes do for every version
 *   scratch   at least GATEMURMUR_SCRATCH bytes
 *   records   at most GATEMURMUR_RECORDS records
 *   text      of a reading: no label has more than GATEMURMUR_TEXT characters
 *
 * Refusals
 *   An answer's number is 0 for a label, or one of these; first and second are its details, and a detail that is not
 *   listed is 0. Where several apply, the first in the function's order is given; there is no other refusal.
 *
 *    1  level above 3                                              first: the level
 *    2  a version bound outside 1..40, or first above last         first, second: the two bounds
 *    3  mask above 8                                               first: the mask
 *    4  more than 2,048 records                                    first: their count
 *    5  a record that is not as above: its kind, its fields, a     first: the index of the first such record
 *       part outside the text, a character foreign to its kind
 *    6  no version in the range fits, and at the last version some
 *       length is at or above 2^(width of its count field)
 *    7  no version in the range fits, and 6 is not given           first: bits needed at the last version
 *                                                                  second: its capacity at the level asked for
 *    8  grid shorter than side * side                              first: side * side
 *    9  scratch shorter than 40,000 bytes                          first: 40,000
 *   10  as many data codewords as the version and level do not     first: the right length
 *       have
 *   11  size that is not 17 + 4 * version for a version 1..40      first: the size
 *   12  reading: grid length not size * size                       first: size * size
 *   13  reading: a byte above 1                                    first: the place of the first one
 *   14  reading: no label has this grid
 *   15  reading: text buffer too short                             first: the length needed
 *   16  reading: record buffer too short                           first: the count of records needed
 *
 * A refused call changes no byte that was lent to it, but for this: refusals 14, 15 and 16 leave the first 40,000 bytes of
 * scratch zero. An accepted call zeroes them too.
 */
#ifndef GATEMURMUR_H
#define GATEMURMUR_H

#include <stdbool.h>
#include <stddef.h>
#include <stdint.h>

#ifdef __cplusplus
extern "C" {
#endif

/* Bytes of the largest grid, 177 * 177. */
#define GATEMURMUR_GRID 31329

/* Bytes of scratch that an entry takes. */
#define GATEMURMUR_SCRATCH 40000

/* The most records that a list may have. */
#define GATEMURMUR_RECORDS 2048

/* The most characters that a label has: 7,089 digits at version 40, level Low. */
#define GATEMURMUR_TEXT 7089

/* The mask number that asks for the automatic choice. */
#define GATEMURMUR_MASK_AUTO 8

/* A segment record: a part of a text in one kind, or an ECI number. */
typedef struct gatemurmur_record {
    uint64_t kind;
    uint64_t start;
    uint64_t length;
    uint64_t assign;
} gatemurmur_record;

/* What an encoding function answers. */
typedef struct gatemurmur_answer {
    uint32_t number; /* 0 for a label, else the refusal's number */
    uint8_t version; /* of the label; 0 where refused, and so are level and mask */
    uint8_t level;
    uint8_t mask;
    uint64_t first;  /* the refusal's details; 0 for a label */
    uint64_t second;
} gatemurmur_answer;

/* What the reading function answers. */
typedef struct gatemurmur_reading {
    uint32_t number;  /* 0 for a label, else the refusal's number */
    uint8_t version;  /* of the label; 0 where refused, and so are level, mask, records and text */
    uint8_t level;
    uint8_t mask;
    uint64_t records; /* how many records the label has */
    uint64_t text;    /* how many characters it has */
    uint64_t first;   /* the refusal's details; 0 for a label */
    uint64_t second;
} gatemurmur_reading;

/*
 * Draws a label of a text: as Numeric if every byte is a digit, else as Alphanumeric if every byte is one of
 * "0123456789ABCDEFGHIJKLMNOPQRSTUVWXYZ $%*+-./:", else as Byte. Empty text has no segment. Any bytes are accepted.
 *
 * The version is the lowest from minversion to maxversion at which the text fits at the level. With boostecl the level
 * becomes the highest, not below the one asked for, at which it still fits in that version. The first side * side bytes
 * of the grid are written, and the bytes after them stay.
 *
 * Refusals in this order: 1, 2, 3, 4, 5, 6, 7, 8, 9. (4 and 5 can't apply to a text.)
 */
gatemurmur_answer gatemurmur_encode_text(
    const uint8_t *text, size_t text_length,
    uint8_t level, uint8_t minversion, uint8_t maxversion, uint8_t mask, bool boostecl,
    uint8_t *grid, size_t grid_length,
    uint8_t *scratch, size_t scratch_length);

/* The same of binary data, always as one Byte segment; empty data is one of length 0. */
gatemurmur_answer gatemurmur_encode_binary(
    const uint8_t *data, size_t data_length,
    uint8_t level, uint8_t minversion, uint8_t maxversion, uint8_t mask, bool boostecl,
    uint8_t *grid, size_t grid_length,
    uint8_t *scratch, size_t scratch_length);

/*
 * The same of a list of records over one text. Records may share text. records_length counts records.
 *
 * Refusals in this order: 1, 2, 3, 4, 5, 6, 7, 8, 9.
 */
gatemurmur_answer gatemurmur_encode_segments(
    const uint8_t *text, size_t text_length,
    const gatemurmur_record *records, size_t records_length,
    uint8_t level, uint8_t minversion, uint8_t maxversion, uint8_t mask, bool boostecl,
    uint8_t *grid, size_t grid_length,
    uint8_t *scratch, size_t scratch_length);

/*
 * Draws a label of data codewords (terminator and pad bytes among them), as many as the version and level have.
 *
 * Refusals in this order: 1, 2, 3, 10, 8, 9. Refusal 2 tells the version twice.
 */
gatemurmur_answer gatemurmur_encode_codewords(
    uint8_t version, uint8_t level,
    const uint8_t *data, size_t data_length,
    uint8_t mask,
    uint8_t *grid, size_t grid_length,
    uint8_t *scratch, size_t scratch_length);

/*
 * Whether the module in column x and row y is dark: the size is that of a version, the grid holds at least size * size
 * bytes, both coordinates lie in 0..size - 1, and the byte there is 1. Everything else is light.
 */
bool gatemurmur_get_module(
    const uint8_t *grid, size_t grid_length,
    size_t size, int32_t x, int32_t y);

/*
 * Reads the label that a grid shows. A grid is accepted exactly if gatemurmur_encode_segments draws it for some call.
 * The characters of all segments are written to text, joined, and the records to records, both from the start on;
 * what lies after them stays. The records' starts run on from 0; an ECI record has start 0.
 *
 * Refusals in this order: 11, 12, 13, 9, 14, 15, 16.
 */
gatemurmur_reading gatemurmur_read(
    const uint8_t *grid, size_t grid_length,
    size_t size,
    uint8_t *text, size_t text_length,
    gatemurmur_record *records, size_t records_length,
    uint8_t *scratch, size_t scratch_length);

#ifdef __cplusplus
}
#endif

#endif
