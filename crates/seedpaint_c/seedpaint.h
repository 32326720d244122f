/*
 * Seedpaint for C: growing, and views of strokes on a greyscale image.
 *
 * Link libseedpaint_c.a and the kit's liblibc_c.a, which gives it the program's malloc, realloc and free; or the shared
 * library libseedpaint.so that tools/build_python.sh makes of both.
 *
 * What each function answers is proved of the Rattle code behind it, crate seedpaint_c. This file is not: it says the
 * same in C's words, and a test compares the two.
 *
 * The caller owes, and nothing checks it:
 *   - no pointer is null, also where its length is 0;
 *   - each buffer has as many elements as the length beside it says, and cells lie at even addresses;
 *   - a buffer that is written overlaps no other argument;
 *   - no other thread writes what a running call reads, or touches what it writes;
 *   - malloc, realloc and free are of one allocator, and blocks lie at each power of two up to 16 that divides their
 *     size (as glibc's do);
 *   - no call comes from a signal handler, or from the forked child of a process with threads.
 * All else is tested inside: no value of a number, and no byte of an input, does harm.
 *
 * No function keeps anything from one call to the next, starts a thread or reads a file. Calls may run side by side in
 * threads of the caller. All memory that a function takes is given back before it returns.
 *
 * An image is w * h cells of 16 bits, row by row from the top, each row from the left. w and h are from 1 to 16384, and
 * w * h is at most 67108864, which is 2^26. A connectivity is 4 (pixels that share an edge) or 8 (or a corner).
 */
#ifndef SEEDPAINT_H
#define SEEDPAINT_H

#include <stddef.h>
#include <stdint.h>

#ifdef __cplusplus
extern "C" {
#endif

/* What a function answers. Unless it is SEEDPAINT_OK, images, `out` and `state` are as they were. */
enum seedpaint_code {
    SEEDPAINT_OK = 0,
    SEEDPAINT_REFUSED = 1,          /* what is read is refused: `fault` has the line that says why */
    SEEDPAINT_BAD_CONNECTIVITY = 2, /* it is neither 4 nor 8 */
    SEEDPAINT_NO_MEMORY = 3,        /* out of memory, also where what is read is refused and its line needs more */
    SEEDPAINT_NO_ROOM = 4,          /* `out` or `state` is too short: the lengths say how long each has to be */
    SEEDPAINT_BAD_SIZE = 5,         /* no image has these sides */
    SEEDPAINT_BAD_LENGTH = 6,       /* there are not w * h cells; or a fingerprint has not 32 bytes */
    SEEDPAINT_ABOVE_MASK = 7        /* the image is above the mask somewhere */
};

/* No line of a fault is longer. */
enum { SEEDPAINT_FAULT_BYTES = 64 };

/*
 * How many bytes an answer has: the image file, the new state file, the line of a fault. What an answer does not have
 * has length 0.
 */
struct seedpaint_lengths {
    size_t out;
    size_t state;
    size_t fault;
};

/*
 * Raises `image`, in place, until it is the reconstruction by dilation of `mask` from what it was (Vincent, 1993).
 * It has to be at most the mask, cell by cell. Neither is copied; beside them it takes about half a byte a cell, and
 * at least 4 KiB for each 32 rows.
 *
 * Answers 0, or BAD_CONNECTIVITY, BAD_SIZE, BAD_LENGTH, ABOVE_MASK or NO_MEMORY.
 */
uint32_t seedpaint_grow(const uint16_t *mask, size_t mask_cells, uint16_t *image, size_t image_cells, uint32_t w,
                        uint32_t h, uint32_t connectivity);

/*
 * Fills the holes of `image`, in place: each cell becomes the least level at which a path leads from it to the border,
 * with no cell on the path above that level (Soille). Takes memory of about two more images.
 *
 * Answers 0, or BAD_CONNECTIVITY, BAD_SIZE, BAD_LENGTH or NO_MEMORY.
 */
uint32_t seedpaint_fill(uint16_t *image, size_t image_cells, uint32_t w, uint32_t h, uint32_t connectivity);

/*
 * Cuts the domes of `image` down, in place: it becomes its reconstruction from itself less `height`, where no cell
 * falls below 0 (Vincent 1993, the h-maxima). Takes memory of about two more images.
 *
 * Answers as seedpaint_fill does.
 */
uint32_t seedpaint_hmax(uint16_t *image, size_t image_cells, uint32_t w, uint32_t h, uint16_t height,
                        uint32_t connectivity);

/*
 * Marks the regional maxima of `image`, in place: each cell becomes 1 on a plateau that strictly lower cells surround,
 * and 0 elsewhere (Vincent 1993). A plateau that is the whole image counts. Takes memory of about two more images.
 *
 * Answers as seedpaint_fill does.
 */
uint32_t seedpaint_regmax(uint16_t *image, size_t image_cells, uint32_t w, uint32_t h, uint32_t connectivity);

/*
 * Shows an input, as `seedpaint view` does: edit lines, a line `image`, and a PGM file. Puts the raw PGM file of the
 * result into the front of `out`.
 *
 * Answers 0; or BAD_CONNECTIVITY; or REFUSED or NO_MEMORY, where the front of `fault` has the line that the program
 * would write, without a newline and without a 0 behind it. Compare lengths->fault with fault_bytes first: of a longer
 * line nothing is written. With NO_MEMORY it is 0 where memory was wanting for the line, too. Or NO_ROOM, where
 * lengths->out says how long `out` has to be. A file is never longer than 20 bytes and two for each pixel.
 * docs/FORMATS.md has the formats and the faults.
 */
uint32_t seedpaint_view(const uint8_t *input, size_t input_bytes, uint32_t connectivity, uint8_t *out,
                        size_t out_bytes, uint8_t *fault, size_t fault_bytes, struct seedpaint_lengths *lengths);

/*
 * Shows an input over the old bytes of a state file, as `seedpaint view --state` does: puts the raw PGM file into the
 * front of `out`, and the new bytes of the state file into the front of `state`. A state file that is not there has no
 * bytes. Nothing is written to a disk.
 *
 * Answers as seedpaint_view does; NO_ROOM where one of both buffers is too short, and lengths tells of both.
 */
uint32_t seedpaint_view_kept(const uint8_t *input, size_t input_bytes, const uint8_t *old, size_t old_bytes,
                             uint32_t connectivity, uint8_t *out, size_t out_bytes, uint8_t *state,
                             size_t state_bytes, uint8_t *fault, size_t fault_bytes,
                             struct seedpaint_lengths *lengths);

/*
 * Joins edit lines into the old bytes of a state file, for a mask of these sides of which `print` is the fingerprint:
 * the 32 bytes of the SHA-256 of its raw PGM file. Puts the new bytes into the front of `state`. No image is made: it
 * takes a time of about the lines and the bytes. Two state files one behind the other are one, of both.
 *
 * Answers 0; or BAD_CONNECTIVITY, BAD_SIZE or BAD_LENGTH; or REFUSED or NO_MEMORY, with the line of the fault. Compare
 * lengths->fault with fault_bytes first, as behind seedpaint_view. Or NO_ROOM, where lengths->state says how long
 * `state` has to be.
 */
uint32_t seedpaint_merge(const uint8_t *edits, size_t edits_bytes, const uint8_t *old, size_t old_bytes,
                         const uint8_t *print, size_t print_bytes, uint32_t w, uint32_t h, uint32_t connectivity,
                         uint8_t *state, size_t state_bytes, uint8_t *fault, size_t fault_bytes,
                         struct seedpaint_lengths *lengths);

#ifdef __cplusplus
}
#endif

#endif
