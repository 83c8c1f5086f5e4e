/*
 * Parts of an MPEG-4 Visual coder (ISO/IEC 14496-2): the static library libhencouch.a, for x86-64.
 *
 * What holds of every function here:
 *
 * Replies. It returns 0 when its work is done. Otherwise it returns the number of a refusal, of
 * those that apply the first in its list, and nothing that was lent to it is changed.
 *
 * Lengths. x_len is the number of elements that x points to. A pointer with no length is to one
 * element (count, activity), or to as many as are declared (counts[6]): that number is not handed
 * over and not checked, so the memory has to be there. Such a pointer is never NULL.
 *
 * NULL. Where x_len is 0, nothing is read or written through x. So x may be NULL, and is refused
 * for its length like any other area that is too short.
 *
 * Overlap. What a function writes overlaps nothing else that is lent to the same call: a scan in
 * place, for instance, with out the same as levels, gives wrong levels. Areas that are only read
 * may overlap each other.
 *
 * Threads. There is no state between calls. Calls may run at once as long as none writes to what
 * another reads or writes.
 *
 * Memory. No heap, and at most 80 KiB of stack (make stack: 67.4 by the machine code).
 */
#ifndef HENCOUCH_H
#define HENCOUCH_H

#include <stddef.h>
#include <stdint.h>

#ifdef __cplusplus
extern "C" {
#endif

/*
 * Predicts a block of block_w x block_h samples by half-sample interpolation (7.6.2.1) and writes
 * it to out, row by row.
 *
 * The reference plane is samples[0..samples_len), rows stride apart; coordinates outside it are
 * clamped into it. The vector is in half samples. Only the low bit of rounding counts.
 *
 * Refused:
 *    4  width or height not 1..4096, or stride not width..8192
 *    5  samples_len not above (height - 1) * stride + width - 1
 *    8  origin_x or origin_y outside -4096..4096, or mv_x or mv_y outside -2048..2047
 *   12  out_len not block_w * block_h
 *   14  block_w or block_h neither 8 nor 16
 */
uint8_t hencouch_interpolate_block_into(
    const uint8_t *samples, size_t samples_len, size_t width, size_t height, size_t stride,
    int32_t mv_x, int32_t mv_y, int32_t origin_x, int32_t origin_y,
    size_t block_w, size_t block_h, uint8_t rounding,
    uint8_t *out, size_t out_len);

/*
 * The same by quarter-sample interpolation (7.6.2.2): the vector is in quarter samples, and
 * interpolated samples are cut to 0..2^bits_per_pixel - 1. Samples of the reference above that are
 * legal, and a vector of whole samples returns them as they are.
 *
 * Refused:
 *    3  bits_per_pixel not 1..8
 *    4, 5, 8, 12, 14  as above
 */
uint8_t hencouch_interpolate_block_qpel_into(
    const uint8_t *samples, size_t samples_len, size_t width, size_t height, size_t stride,
    int32_t mv_x, int32_t mv_y, int32_t origin_x, int32_t origin_y,
    size_t block_w, size_t block_h, uint8_t rounding, uint32_t bits_per_pixel,
    uint8_t *out, size_t out_len);

/*
 * One sample by half-sample interpolation: from a half a sample to the right where half_x is not 0,
 * half a sample down where half_y is not 0. b stands to the right of a, c and d below them. Only the
 * low bit of rounding counts. Never refused.
 */
uint8_t hencouch_interpolate_pixel(
    uint8_t a, uint8_t b, uint8_t c, uint8_t d,
    uint8_t half_x, uint8_t half_y, uint8_t rounding, uint8_t *sample);

/*
 * A vector's horizontal or vertical, in half samples, as whole samples, rounded down, and 1 where
 * half a sample is left, 0 where none is; or in quarter samples, as whole samples, rounded down, and
 * 0 to 3 quarters. Never refused.
 */
uint8_t hencouch_split_half_pel(int32_t mv, int32_t *whole, uint8_t *half);
uint8_t hencouch_split_quarter_pel(int32_t mv, int32_t *whole, uint8_t *fraction);

/*
 * The reference's sample at column x and row y, both clamped into it.
 *
 * Refused:
 *    4, 5  as above
 */
uint8_t hencouch_fetch_clamped(
    const uint8_t *samples, size_t samples_len, size_t width, size_t height, size_t stride,
    int32_t x, int32_t y, uint8_t *sample);

/*
 * The reference's samples from column x and row y on, block_w columns and block_h rows of any number,
 * row by row; coordinates outside it are clamped into it.
 *
 * Refused:
 *    4, 5  as above
 *   12  out_len not block_w * block_h
 */
uint8_t hencouch_copy_block(
    const uint8_t *samples, size_t samples_len, size_t width, size_t height, size_t stride,
    int32_t x, int32_t y, size_t block_w, size_t block_h, uint8_t *out, size_t out_len);

/*
 * Predicts a block's luma by half-sample interpolation in mode 0, by quarter-sample interpolation in
 * mode 1. bits_per_pixel counts in mode 1 only.
 *
 * Refused:
 *    2  mode neither 0 nor 1
 *    3  mode 1, bits_per_pixel not 1..8
 *    4, 5  as above
 *    8  origin_x or origin_y outside -4096..4096, or mv_x or mv_y outside -2048..2047
 *   12  out_len not block_w * block_h
 *   14  block_w or block_h neither 8 nor 16
 *   31  rounding above 1
 */
uint8_t hencouch_predict_luma_block(
    const uint8_t *samples, size_t samples_len, size_t width, size_t height, size_t stride,
    uint32_t mode, uint32_t bits_per_pixel,
    int32_t mv_x, int32_t mv_y, int32_t origin_x, int32_t origin_y,
    size_t block_w, size_t block_h, uint8_t rounding, uint8_t *out, size_t out_len);

/*
 * The same for the 16 x 16 luma samples of a macroblock whose corner is at origin_x, origin_y: by one
 * vector, or by four, one for each of its 8 x 8 blocks, 0 and 1 above 2 and 3. vectors holds each
 * one's horizontal, then vertical. Each block is predicted by itself, as from a copy of its own.
 *
 * Refused:
 *    2, 3, 4, 5, 8  as above, 8 for each block's vector and own corner
 *   12  out_len not 256
 *   31  rounding above 1
 */
uint8_t hencouch_predict_luma_macroblock(
    const uint8_t *samples, size_t samples_len, size_t width, size_t height, size_t stride,
    uint32_t mode, uint32_t bits_per_pixel,
    int32_t mv_x, int32_t mv_y, int32_t origin_x, int32_t origin_y,
    uint8_t rounding, uint8_t *out, size_t out_len);
uint8_t hencouch_predict_luma_macroblock_4mv(
    const uint8_t *samples, size_t samples_len, size_t width, size_t height, size_t stride,
    uint32_t mode, uint32_t bits_per_pixel,
    const int32_t vectors[8], int32_t origin_x, int32_t origin_y,
    uint8_t rounding, uint8_t *out, size_t out_len);

/*
 * The 8 x 8 forward transform of 64 residuals, eight to a row, at 8 bits: doubles, rows, then
 * columns; coefficients rounded to nearest, halves away from zero, cut to -2048..2047.
 *
 * Refused:
 *   12  residual_len or out_len not 64
 *   13  a residual outside -255..255
 */
uint8_t hencouch_forward_dct_8x8(
    const int32_t *residual, size_t residual_len, int32_t *out, size_t out_len);

/*
 * The levels of 64 transform coefficients: by the second method, or by the first where
 * first_method is not 0. weights is the matrix of the first method; its length counts under both.
 *
 * Refused:
 *   10  quantiser not 1..31
 *   11  first method, a zero weight
 *   12  coefficients_len, weights_len or out_len not 64
 *   13  a coefficient outside -2048..2047
 */
uint8_t hencouch_quantise_block(
    const int32_t *coefficients, size_t coefficients_len, uint32_t quantiser, uint8_t first_method,
    const uint8_t *weights, size_t weights_len, int32_t *out, size_t out_len);

/*
 * What 64 levels stand for under the second method.
 *
 * Refused:
 *   10  quantiser not 1..31
 *   12  levels_len or out_len not 64
 *   13  a level outside -2047..2047
 */
uint8_t hencouch_inverse_block(
    const int32_t *levels, size_t levels_len, uint32_t quantiser, int32_t *out, size_t out_len);

/*
 * 64 levels, eight to a row, put into scan order, and back. scan: 0 alternate horizontal,
 * 1 alternate vertical, 2 zigzag.
 *
 * Refused:
 *   12, 13  as above
 *   14  scan not 0..2
 */
uint8_t hencouch_forward_scan(
    const int32_t *levels, size_t levels_len, uint32_t scan, int32_t *out, size_t out_len);
uint8_t hencouch_inverse_scan(
    const int32_t *levels, size_t levels_len, uint32_t scan, int32_t *out, size_t out_len);

/*
 * The events of 64 levels in scan order: lasts 1 for the last event and 0 for any other, runs of
 * zeros, non-zero levels, each area 64 long and 0 after the events. Their number goes to *count.
 *
 * Refused:
 *   12  a length not 64
 *   13  a level outside -2047..2047
 */
uint8_t hencouch_levels_to_events(
    const int32_t *levels, size_t levels_len, uint8_t *lasts, size_t lasts_len,
    uint8_t *runs, size_t runs_len, int32_t *out_levels, size_t out_levels_len, uint8_t *count);

/*
 * The number of the scan of an inter block, to *scan: 1 where interlaced and alternate_scan are both
 * not 0, else 2. Never refused.
 */
uint8_t hencouch_inter_scan(uint8_t interlaced, uint8_t alternate_scan, uint32_t *scan);

/*
 * The source picture's samples of the macroblock at column and row, which count macroblocks: 16 x 16
 * of luma, or 8 x 8 of a chroma plane, row by row; past the right or bottom edge the last column or
 * row is repeated. width and height are luma's for both. Luma is width x height samples, chroma half
 * as many, rounded up, each way, row by row.
 *
 * Refused:
 *    6  width or height not 1..4096
 *    7  y_len or chroma_len below the samples of its plane
 *    8  column or row at or above width or height over 16, rounded up
 *   12  out_len not 256 for luma, not 64 for chroma
 */
uint8_t hencouch_source_luma_block(
    const uint8_t *y, size_t y_len, size_t width, size_t height,
    size_t column, size_t row, uint8_t *out, size_t out_len);
uint8_t hencouch_source_chroma_block(
    const uint8_t *chroma, size_t chroma_len, size_t width, size_t height,
    size_t column, size_t row, uint8_t *out, size_t out_len);

/*
 * The motion vector of the macroblock at column and row, which count macroblocks. The source is
 * width x height luma samples, row by row; the reference plane is reference[0..reference_len), rows
 * stride apart; coordinates outside either are clamped into it. mode 0 is half samples, 1 quarter
 * samples; bits_per_pixel counts in mode 1 only. The vector, in half or quarter samples, horizontal
 * then vertical, goes to vector, and its sum of absolute differences to sum[0].
 *
 * Refused:
 *    1  fcode not 1..7
 *    2  mode neither 0 nor 1
 *    3  mode 1, bits_per_pixel not 1..8
 *    4  ref_width or ref_height not 1..4096, or stride not ref_width..8192
 *    5  reference_len not above (ref_height - 1) * stride + ref_width - 1
 *    6  width or height not 1..4096
 *    7  source_len below width * height
 *    8  column or row at or above width or height over 16, rounded up
 *   12  vector_len not 2 or sum_len not 1
 */
uint8_t hencouch_estimate_motion(
    const uint8_t *source, size_t source_len, size_t width, size_t height,
    size_t column, size_t row,
    const uint8_t *reference, size_t reference_len,
    size_t ref_width, size_t ref_height, size_t stride,
    uint32_t mode, uint32_t bits_per_pixel, uint32_t fcode,
    int32_t *vector, size_t vector_len, uint32_t *sum, size_t sum_len);

/*
 * The vectors of the macroblock's four 8 x 8 blocks, 0 and 1 above 2 and 3, searched for around a
 * seed in half or quarter samples. Each vector's horizontal, then vertical, goes to vectors, and
 * the four sums go to sums.
 *
 * Refused:
 *    1, 2, 3, 4, 5, 6, 7, 8  as above
 *    9  seed_x or seed_y outside -32F..32F - 1, F being 2^(fcode - 1)
 *   12  vectors_len not 8 or sums_len not 4
 */
uint8_t hencouch_estimate_motion_4mv(
    const uint8_t *source, size_t source_len, size_t width, size_t height,
    size_t column, size_t row,
    const uint8_t *reference, size_t reference_len,
    size_t ref_width, size_t ref_height, size_t stride,
    uint32_t mode, uint32_t bits_per_pixel, uint32_t fcode, int32_t seed_x, int32_t seed_y,
    int32_t *vectors, size_t vectors_len, uint32_t *sums, size_t sums_len);

/*
 * How far the luma of the macroblock at column and row lies from its mean: the sum of its 256
 * samples' distances from it, the mean's fraction dropped. The source is as above.
 *
 * Refused:
 *    6, 7, 8  as above
 */
uint8_t hencouch_intra_activity(
    const uint8_t *source, size_t source_len, size_t width, size_t height,
    size_t column, size_t row, uint32_t *activity);

/*
 * The residual of the macroblock at column and row: source less prediction, in six blocks of 64,
 * eight to a row: luma 0 and 1 above 2 and 3, Cb, Cr. The source is width x height luma samples and
 * half as many, rounded up, each way of Cb and Cr, row by row; coordinates outside are clamped into
 * it. The prediction is 16 x 16 luma samples and 8 x 8 of Cb and Cr, row by row.
 *
 * Refused:
 *    6  width or height not 1..4096
 *    7  y_len, cb_len or cr_len below the samples of its plane
 *    8  column or row at or above width or height over 16, rounded up
 *   12  pred_y_len not 256, pred_cb_len or pred_cr_len not 64, or out_len not 384
 */
uint8_t hencouch_macroblock_residual(
    const uint8_t *y, size_t y_len, const uint8_t *cb, size_t cb_len,
    const uint8_t *cr, size_t cr_len, size_t width, size_t height, size_t column, size_t row,
    const uint8_t *pred_y, size_t pred_y_len, const uint8_t *pred_cb, size_t pred_cb_len,
    const uint8_t *pred_cr, size_t pred_cr_len, int32_t *out, size_t out_len);

/*
 * The events of a block's 64 residuals, eight to a row: transformed, quantised (by the first method
 * where first_method is not 0), put into scan order, and written as hencouch_levels_to_events does.
 *
 * Refused:
 *   10  quantiser not 1..31
 *   11  first method, a zero weight
 *   12  a length not 64, that of weights under either method
 *   13  a residual outside -255..255
 *   14  scan not 0..2
 */
uint8_t hencouch_quantise_inter_block(
    const int32_t *residual, size_t residual_len, uint32_t quantiser, uint8_t first_method,
    const uint8_t *weights, size_t weights_len, uint32_t scan, uint8_t *lasts, size_t lasts_len,
    uint8_t *runs, size_t runs_len, int32_t *levels, size_t levels_len, uint8_t *count);

/*
 * The same for the six blocks of a macroblock's residual: block b has 64 b to 64 b + 63 of each
 * area, and counts[b] events.
 *
 * Refused:
 *   10, 11, 13, 14  as above
 *   12  weights_len not 64, or another length not 384
 */
uint8_t hencouch_quantise_inter_residual(
    const int32_t *residual, size_t residual_len, uint32_t quantiser, uint8_t first_method,
    const uint8_t *weights, size_t weights_len, uint32_t scan, uint8_t *lasts, size_t lasts_len,
    uint8_t *runs, size_t runs_len, int32_t *levels, size_t levels_len, uint8_t counts[6]);

/*
 * Which of six blocks have an event. patterns[0] is luma's: block 0 worth 8, block 3 worth 1;
 * patterns[1] is chroma's: Cb worth 2, Cr worth 1. Never refused.
 */
uint8_t hencouch_inter_cbp(const uint8_t counts[6], uint8_t patterns[2]);

/*
 * Searches for the macroblock at column and row and codes its residual; the arguments are as above.
 * Written are its vector and sum; the four blocks' vectors and sums, seeded by the one, where
 * vectors is 4, and 0 where it is 1; luma's and chroma's patterns; the six blocks' events and
 * counts. The residual is taken against the lent prediction, whatever the vectors are.
 *
 * Refused:
 *    1, 2, 3, 4, 5  as for hencouch_estimate_motion
 *    6, 7, 8  as for hencouch_macroblock_residual
 *   10, 11  as for hencouch_quantise_inter_block
 *   12  pred_y_len not 256; pred_cb_len, pred_cr_len or weights_len not 64; lasts_len, runs_len or
 *       levels_len not 384
 *   14  vectors neither 1 nor 4, or scan not 0..2
 */
uint8_t hencouch_code_macroblock(
    uint32_t fcode, uint32_t mode, uint32_t bits_per_pixel, uint32_t quantiser,
    uint8_t first_method, uint32_t vectors, uint32_t scan,
    const uint8_t *reference, size_t reference_len,
    size_t ref_width, size_t ref_height, size_t stride,
    const uint8_t *y, size_t y_len, const uint8_t *cb, size_t cb_len,
    const uint8_t *cr, size_t cr_len, size_t width, size_t height, size_t column, size_t row,
    const uint8_t *weights, size_t weights_len,
    const uint8_t *pred_y, size_t pred_y_len, const uint8_t *pred_cb, size_t pred_cb_len,
    const uint8_t *pred_cr, size_t pred_cr_len,
    uint8_t *lasts, size_t lasts_len, uint8_t *runs, size_t runs_len,
    int32_t *levels, size_t levels_len,
    int32_t vector[2], uint32_t *sum, int32_t four_vectors[8], uint32_t four_sums[4],
    uint8_t patterns[2], uint8_t counts[6]);

/*
 * Starts a picture's run: its macroblocks one after the other, row by row, a step for each. The run
 * is five numbers, which the caller keeps: width, height, the macroblocks given, their events and
 * their vectors' sums. Whatever they are, each call answers as is said here; a number that would
 * reach 2^64 goes on from 0.
 *
 * Refused:
 *    6  width or height not 1..4096
 */
uint8_t hencouch_open(size_t width, size_t height, uint64_t run[5]);

/*
 * Where the run's next macroblock stands, column to place[0] and row to place[1]: run[2] % C and
 * run[2] / C, C being run[0] over 16, rounded up; run[2] and 0 where C is 0. Never refused.
 */
uint8_t hencouch_next_place(const uint64_t run[5], uint64_t place[2]);

/*
 * Searches for the run's next macroblock and codes its residual, as hencouch_code_macroblock does
 * at column run[2] % C and row run[2] / C, C being run[0] over 16, rounded up; the other arguments
 * are as above. The run is then one macroblock further.
 *
 * Refused:
 *   21  after the last macroblock: run[2] not below the macroblocks of run[0] x run[1] samples
 *   22  width not run[0] or height not run[1]
 *    1, 2, 3, 4, 5, 6, 7, 10, 11, 12, 14  as above, after 21 and 22
 */
uint8_t hencouch_step(
    uint64_t run[5],
    uint32_t fcode, uint32_t mode, uint32_t bits_per_pixel, uint32_t quantiser,
    uint8_t first_method, uint32_t vectors, uint32_t scan,
    const uint8_t *reference, size_t reference_len,
    size_t ref_width, size_t ref_height, size_t stride,
    const uint8_t *y, size_t y_len, const uint8_t *cb, size_t cb_len,
    const uint8_t *cr, size_t cr_len, size_t width, size_t height,
    const uint8_t *weights, size_t weights_len,
    const uint8_t *pred_y, size_t pred_y_len, const uint8_t *pred_cb, size_t pred_cb_len,
    const uint8_t *pred_cr, size_t pred_cr_len,
    uint8_t *lasts, size_t lasts_len, uint8_t *runs, size_t runs_len,
    int32_t *levels, size_t levels_len,
    int32_t vector[2], uint32_t *sum, int32_t four_vectors[8], uint32_t four_sums[4],
    uint8_t patterns[2], uint8_t counts[6]);

/*
 * The totals of a run at its end: macroblocks, events, sums. The run is only read.
 *
 * Refused:
 *   23  before the last macroblock: run[2] below the macroblocks of run[0] x run[1] samples
 */
uint8_t hencouch_close(const uint64_t run[5], uint64_t totals[3]);

/*
 * The prediction made here: for callers who have none to lend. A macroblock's 384 samples come from
 * the reference's three planes, its vector or its four, and a rounding type, 0 or 1.
 *
 * The reference's chroma planes have half of luma's sides, rounded up, and one stride for both. Luma
 * is predicted as hencouch_predict_luma_macroblock does; chroma by half-sample interpolation in
 * either mode, 8 x 8 samples at the chroma vector, clamped at the chroma planes' own edges.
 *
 * The chroma vector is in half samples of chroma, its horizontal and its vertical each by itself. In
 * mode 1 every luma vector is first halved toward zero, of four each before they are added. One
 * vector is then in quarters of a chroma sample: its whole samples, rounded down, stay, and a
 * fraction of 1, 2 or 3 quarters becomes a half. Four are added: the sum's size over 16 gives whole
 * samples, of the remainder 0 to 2 add nothing, 3 to 13 a half, 14 and 15 a whole; the sign returns
 * last.
 */

/*
 * The chroma vector of a macroblock's one vector, or of its four, to vector, horizontal, then
 * vertical. vectors holds each one's horizontal, then vertical. mode 0 is half samples, 1 quarter
 * samples.
 *
 * Refused:
 *    2  mode neither 0 nor 1
 *    8  a vector's horizontal or vertical outside -2048..2047
 */
uint8_t hencouch_chroma_vector(uint32_t mode, int32_t mv_x, int32_t mv_y, int32_t vector[2]);
uint8_t hencouch_chroma_vector_4mv(uint32_t mode, const int32_t vectors[8], int32_t vector[2]);

/*
 * Predicts the macroblock at column and row, which count macroblocks: 16 x 16 samples to y, 8 x 8 to
 * cb and cr, row by row. By one vector, or by four, one for each of its 8 x 8 luma blocks, 0 and 1
 * above 2 and 3. width, height and stride are luma's. bits_per_pixel counts in mode 1 only, and for
 * luma only.
 *
 * Refused:
 *    2  mode neither 0 nor 1
 *    3  mode 1, bits_per_pixel not 1..8
 *    4  width or height not 1..4096, stride not width..8192, or chroma_stride not from chroma's
 *       width, (width + 1) / 2, to 8192
 *    5  ref_y_len not above (height - 1) * stride + width - 1, or ref_cb_len or ref_cr_len not above
 *       the same of chroma's sides and stride; after every 4
 *    8  column or row above 256, or above 255 where there are four vectors; or a vector's horizontal
 *       or vertical outside -2048..2047
 *   12  y_len not 256, or cb_len or cr_len not 64
 *   31  rounding above 1
 */
uint8_t hencouch_predict_macroblock(
    const uint8_t *ref_y, size_t ref_y_len, const uint8_t *ref_cb, size_t ref_cb_len,
    const uint8_t *ref_cr, size_t ref_cr_len,
    size_t width, size_t height, size_t stride, size_t chroma_stride,
    uint32_t mode, uint32_t bits_per_pixel, int32_t mv_x, int32_t mv_y,
    size_t column, size_t row, uint8_t rounding,
    uint8_t *y, size_t y_len, uint8_t *cb, size_t cb_len, uint8_t *cr, size_t cr_len);
uint8_t hencouch_predict_macroblock_4mv(
    const uint8_t *ref_y, size_t ref_y_len, const uint8_t *ref_cb, size_t ref_cb_len,
    const uint8_t *ref_cr, size_t ref_cr_len,
    size_t width, size_t height, size_t stride, size_t chroma_stride,
    uint32_t mode, uint32_t bits_per_pixel, const int32_t vectors[8],
    size_t column, size_t row, uint8_t rounding,
    uint8_t *y, size_t y_len, uint8_t *cb, size_t cb_len, uint8_t *cr, size_t cr_len);

/*
 * Searches for the macroblock at column and row, predicts it by the vectors found, the four where
 * vectors is 4, and codes its residual against that; the arguments are as above, and what is written
 * as for hencouch_code_macroblock. A reader who has the reference's planes, the record and rounding
 * gets the same 384 samples by hencouch_predict_macroblock, or by the form for four vectors. The
 * sums are at rounding type 0, whatever rounding is.
 *
 * Refused:
 *    1, 2, 3  as for hencouch_estimate_motion
 *    4, 5  as for hencouch_predict_macroblock, of ref_width and ref_height
 *    6, 7, 8  as for hencouch_macroblock_residual
 *   10, 11  as for hencouch_quantise_inter_block
 *   12  weights_len not 64; lasts_len, runs_len or levels_len not 384
 *   14  vectors neither 1 nor 4, or scan not 0..2
 *   31  rounding above 1
 */
uint8_t hencouch_code_predicted_macroblock(
    uint32_t fcode, uint32_t mode, uint32_t bits_per_pixel, uint32_t quantiser,
    uint8_t first_method, uint32_t vectors, uint32_t scan, uint8_t rounding,
    const uint8_t *ref_y, size_t ref_y_len, const uint8_t *ref_cb, size_t ref_cb_len,
    const uint8_t *ref_cr, size_t ref_cr_len,
    size_t ref_width, size_t ref_height, size_t stride, size_t chroma_stride,
    const uint8_t *y, size_t y_len, const uint8_t *cb, size_t cb_len,
    const uint8_t *cr, size_t cr_len, size_t width, size_t height, size_t column, size_t row,
    const uint8_t *weights, size_t weights_len,
    uint8_t *lasts, size_t lasts_len, uint8_t *runs, size_t runs_len,
    int32_t *levels, size_t levels_len,
    int32_t vector[2], uint32_t *sum, int32_t four_vectors[8], uint32_t four_sums[4],
    uint8_t patterns[2], uint8_t counts[6]);

/*
 * Does the same for the run's next macroblock: what hencouch_step is to hencouch_code_macroblock.
 * The two kinds of step may follow each other in a run.
 *
 * Refused:
 *   21, 22  as for hencouch_step
 *    1, 2, 3, 4, 5, 6, 7, 10, 11, 12, 14, 31  as above, after 21 and 22
 */
uint8_t hencouch_step_predicted(
    uint64_t run[5],
    uint32_t fcode, uint32_t mode, uint32_t bits_per_pixel, uint32_t quantiser,
    uint8_t first_method, uint32_t vectors, uint32_t scan, uint8_t rounding,
    const uint8_t *ref_y, size_t ref_y_len, const uint8_t *ref_cb, size_t ref_cb_len,
    const uint8_t *ref_cr, size_t ref_cr_len,
    size_t ref_width, size_t ref_height, size_t stride, size_t chroma_stride,
    const uint8_t *y, size_t y_len, const uint8_t *cb, size_t cb_len,
    const uint8_t *cr, size_t cr_len, size_t width, size_t height,
    const uint8_t *weights, size_t weights_len,
    uint8_t *lasts, size_t lasts_len, uint8_t *runs, size_t runs_len,
    int32_t *levels, size_t levels_len,
    int32_t vector[2], uint32_t *sum, int32_t four_vectors[8], uint32_t four_sums[4],
    uint8_t patterns[2], uint8_t counts[6]);

#ifdef __cplusplus
}
#endif

#endif
