/*
 * Cribstork: Type 1 charstrings made Type 2, for print boards.
 * C interface of the archive libboard.a (tools/build.sh archive), for x86-64.
 *
 * Every function returns on every input, and returns a number: 0, or why it refused.
 *
 *   number  given when
 *        1  a matrix entry is not finite
 *        2  the bank breaks its layout
 *        3  bytes run over 1,048,576
 *        4  subroutines 11 deep
 *        5  a number or an escape is cut
 *        6  an unknown operator
 *        7  operands missing
 *        8  no such subroutine
 *        9  a flex not started, or not of seven points
 *       10  div by 0
 *       11  pop, and nothing left for it
 *       12  seac
 *       13  a number not from -32768 to below 32768 once rounded
 *       14  a quotient, point, stem edge or folded value is not finite
 *       15  the 257th operand, or a PostScript stack over 256
 *       16  the 257th stem in force or group, or the stem store is full
 *       17  the command store is full
 *       18  the output is short
 *       19  a listed width is not finite
 *       20  the width scratch is shorter than the list
 *       21  bytes on which the Type 2 machine faults, or a glyph that draws no point
 *       22  the 25th operand in the strict reading
 *
 * An answer's first word is the number again; on a refusal its other words are 0.
 * Bytes run: the charstring's, and each subroutine's at every call of it. Stems in force: the hints that hold for what is
 * drawn next; a group: those that held for a stretch of the path. Folded: put through the matrix.
 *
 * Pointers: each is not null, aligned for its type and valid for its length. For a length of 0 any aligned address
 * that is not null will do. What a function writes overlaps nothing else that it is given.
 * Lent stores may hold any values of their types before a call (a bool is 0 or 1). After every call they are all zeros;
 * the bytes between a stem record's fields may be anything.
 * An output holds the result's bytes and then zeros, to its end; on a refusal zeros only.
 *
 * Processor: x86-64 with SSE2, System V calling convention; the kit's compiler makes code for no other. MXCSR as after
 * a reset, 1F80: exceptions masked, round to nearest, no flush to zero, denormals are not zeros. A port needs the kit's
 * compiler to make code for that processor; doubles that are IEEE 754's binary64, each operation rounded once to
 * nearest (no extended precision, no fused multiply-add); a size_t of 64 bits; and all tests run again there.
 *
 * Stack, in bytes, from the caller's stack pointer down: arguments on the stack and the return address are in it,
 * memset's own frame is not. "Measured" is the most on painted stacks, "bound" the most that the code can take on any
 * input (bench/stack.sh has both).
 *
 *   function                    measured   bound
 *   cribstork_convert             23,368  23,368
 *   cribstork_finish                 152     152
 *   cribstork_convert_finished    23,448  23,448
 *   cribstork_box                    360     360
 *   cribstork_choose_widths        2,424   2,464
 *   cribstork_decrypt                 72      72
 *
 * Reserve 24 KiB for a call, which is 1,128 bytes over the largest. What interrupts take comes on top, and a handler on
 * the same stack leaves the 128 bytes below the stack pointer as they are (the red zone; 120 of them are used). No
 * function tests how much stack is left: that it returns is proved of a machine that has enough.
 *
 * Nothing is kept between calls, nothing is allocated and there is no writable data. Functions may run in several
 * threads at once, or in a handler that interrupts one, if no two share what they write. Of C's library the archive
 * needs memset, and nothing else.
 */
#ifndef CRIBSTORK_H
#define CRIBSTORK_H

#include <stdbool.h>
#include <stddef.h>
#include <stdint.h>

#ifdef __cplusplus
extern "C" {
#endif

/* This lenIV means that nothing is encrypted. */
#define CRIBSTORK_NOT_ENCRYPTED SIZE_MAX

/*
 * Bits of a reading: how charstrings are read. 0 is the present reading, in which 256 operands fit.
 * Bits without a meaning are ignored.
 *
 * CRIBSTORK_STRICT  Type 1's own stack: 24 operands fit. A 25th, a number or one that a pop brings, is refused with 22.
 *                   A glyph that is not refused so has the answer and the bytes that it has without this bit.
 */
#define CRIBSTORK_STRICT UINT64_C(1)

/* Words of the command store to an entry. A remainder is unused. */
#define CRIBSTORK_ENTRY_WORDS 14

/* A record of the stem store. A horizontal stem is hstem's. */
typedef struct cribstork_stem {
    bool horizontal;
    double pos;
    double width;
} cribstork_stem;

/*
 * Converts a Type 1 charstring under a matrix: the program, without its width.
 *
 * charstring  as the font has it: encrypted, its first len_iv plain bytes dropped
 * bank        the font's subroutines: a count n (16 bits), n + 1 offsets (32 bits each) from the table's end, the first
 *             0, none below the one before, the last equal to the bytes that follow; then the bodies, encrypted like
 *             the charstring. All numbers are big-endian. No subroutines: 00 00 00 00 00 00
 * reading     0, or CRIBSTORK_STRICT
 * matrix      a b c d tx ty; 1 0 0 1 0 0 leaves the glyph as it is
 * stems       the stem store: one record for each stem of each group
 * commands    the command store: 14 words to an entry, one entry for each move, line, curve, flex and start of a group
 * out         the output
 * answer      number, length of the program, bits of the width (a double), bytes run
 */
uint64_t cribstork_convert(
    const uint8_t *charstring, size_t charstring_len,
    const uint8_t *bank, size_t bank_len,
    size_t len_iv,
    uint64_t reading,
    const double matrix[6],
    cribstork_stem *stems, size_t stems_len,
    uint64_t *commands, size_t commands_len,
    uint8_t *out, size_t out_len,
    uint64_t answer[4]);

/*
 * Finishes a program: no width if the rounded width is the default, else the rounded width less the nominal one first.
 *
 * width, program  as cribstork_convert answered them
 * answer          number, length of the charstring
 */
uint64_t cribstork_finish(
    double width,
    const uint8_t *program, size_t program_len,
    double default_width, double nominal_width,
    uint8_t *out, size_t out_len,
    uint64_t answer[2]);

/*
 * Converts and finishes. `program` is a lent store for the program; it is all zeros after the call.
 *
 * answer  number, length of the charstring, bits of the width (a double), bytes run
 */
uint64_t cribstork_convert_finished(
    const uint8_t *charstring, size_t charstring_len,
    const uint8_t *bank, size_t bank_len,
    size_t len_iv,
    uint64_t reading,
    const double matrix[6],
    cribstork_stem *stems, size_t stems_len,
    uint64_t *commands, size_t commands_len,
    uint8_t *program, size_t program_len,
    double default_width, double nominal_width,
    uint8_t *out, size_t out_len,
    uint64_t answer[4]);

/*
 * The box of a finished charstring, which holds all points that it draws, moves and control points included, and how it
 * lies to a window. Both are in units of 1/65536.
 *
 * program  as cribstork_finish or cribstork_convert_finished wrote it; what stands after its endchar is not read
 * window   least x, least y, greatest x, greatest y; any numbers. A window whose least is above its greatest has no point
 * box      least x, least y, greatest x, greatest y; all 0 on a refusal
 * answer   number; then 1 (within) where all of the box lies in the window, touching edges included, 3 (outside) where
 *          they share no point, 2 (crossing) in every other case; 0 on a refusal
 */
uint64_t cribstork_box(
    const uint8_t *program, size_t program_len,
    const int64_t window[4],
    int64_t box[4],
    uint64_t answer[2]);

/*
 * The default and the nominal width of a font whose glyphs have these widths.
 *
 * scratch  a lent store of at least n doubles
 * pair     default, nominal; both 0 on a refusal
 */
uint64_t cribstork_choose_widths(
    const double *widths, size_t n,
    double *scratch, size_t scratch_len,
    double pair[2]);

/*
 * The plain bytes of a charstring, the first len_iv dropped.
 *
 * answer  number, length
 */
uint64_t cribstork_decrypt(
    const uint8_t *data, size_t n,
    size_t len_iv,
    uint8_t *out, size_t out_len,
    uint64_t answer[2]);

#ifdef __cplusplus
}
#endif

#endif
