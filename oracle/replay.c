/*
 * Makes every call of crates/compare/data/calls (docs/STORED.md) through include/hencouch.h and
 * holds the library to the stored answers: the reply, every element of every lent area, 0xa5 on
 * either side of it, and what is only read as it was. Prints a line an entry and ends with 1 where
 * an answer differs or an entry has no call.
 */
#include <hencouch.h>
#include <stdio.h>
#include <stdlib.h>
#include <string.h>

enum { GUARD = 64, MOST = 32, FILL = 0xa5 };

/* An area of a call: what is lent for reading has its elements in the file. */
struct area {
    uint8_t *store;
    size_t count, size;
    const uint8_t *from;
    int lent;
};

static struct area areas[MOST];
static int used;
/* The file, the call that is made, the next of its slots, and its next answer. */
static const uint8_t *at, *end, *call, *slot, *answer;

static void stop(const char *why)
{
    fprintf(stderr, "replay: %s\n", why);
    exit(1);
}

static uint64_t number(const uint8_t **from, size_t size)
{
    uint64_t n = 0;
    if ((size_t)(end - *from) < size)
        stop("the calls end early");
    for (; size > 0; size--)
        n = n << 8 | *(*from)++;
    return n;
}

static uint64_t next_slot(void)
{
    return number(&slot, 8);
}

/* An element in the machine's own order. */
static void put(uint8_t *to, size_t size, uint64_t n)
{
    uint8_t byte = (uint8_t)n;
    uint32_t word = (uint32_t)n;
    memcpy(to, size == 1 ? (void *)&byte : size == 4 ? (void *)&word : (void *)&n, size);
}

static uint8_t *area(size_t count, size_t size, const uint8_t *from, int lent)
{
    struct area *a = &areas[used++];
    if (used == MOST)
        stop("too many areas");
    *a = (struct area){malloc(2 * GUARD + count * size), count, size, from, lent};
    if (a->store == NULL)
        stop("no memory");
    memset(a->store, FILL, 2 * GUARD + count * size);
    return a->store + GUARD;
}

/* The two slots of an area: where it stands, and how many elements it has. */
static const uint8_t *placed(size_t *count)
{
    uint64_t place = next_slot();
    *count = (size_t)next_slot();
    if (place > (uint64_t)(end - call))
        stop("an area past the end");
    return call + place;
}

static void *lends(size_t *count, size_t size)
{
    placed(count);
    return area(*count, size, NULL, 1);
}

static void *filled(size_t *count, size_t size, int lent)
{
    const uint8_t *from = placed(count);
    uint8_t *first = area(*count, size, from, lent);
    for (size_t i = 0; i < *count; i++)
        put(first + i * size, size, number(&from, size));
    return first;
}

static void *reads(size_t *count, size_t size)
{
    return filled(count, size, 0);
}

static void declared(size_t count, size_t n)
{
    if (count != n)
        stop("an area of another length than declared");
}

/* The same with n elements. */
static void *lends_all(size_t n, size_t size)
{
    size_t count;
    void *first = lends(&count, size);
    declared(count, n);
    return first;
}

static void *filled_all(size_t n, size_t size, int lent)
{
    size_t count;
    void *first = filled(&count, size, lent);
    declared(count, n);
    return first;
}

/* Whether an area holds the elements that stand in the file from `from` on, or 0xa5 where it is NULL. */
static int holds(const struct area *a, const uint8_t *from)
{
    uint8_t element[8];
    const uint8_t *first = a->store + GUARD;
    int same = 1;
    memset(element, FILL, sizeof element);
    for (size_t i = 0; i < a->count; i++) {
        if (from != NULL)
            put(element, a->size, number(&from, a->size));
        same &= memcmp(first + i * a->size, element, a->size) == 0;
    }
    return same;
}

static int guarded(const struct area *a)
{
    const uint8_t *after = a->store + GUARD + a->count * a->size;
    int same = 1;
    for (size_t i = 0; i < GUARD; i++)
        same &= a->store[i] == FILL && after[i] == FILL;
    return same;
}

/* Holds all areas to the answer, which stands in their order, and gives them back. */
static int answered(uint8_t reply)
{
    int same = 1;
    for (int i = 0; i < used; i++) {
        struct area *a = &areas[i];
        same &= holds(a, a->lent && reply == 0 ? answer : a->from) && guarded(a);
        if (a->lent && reply == 0)
            answer += a->count * a->size;
        free(a->store);
    }
    used = 0;
    return same;
}

#define U8(x) uint8_t x = (uint8_t)next_slot()
#define U32(x) uint32_t x = (uint32_t)next_slot()
#define I32(x) int32_t x = (int32_t)(uint32_t)next_slot()
#define SIZE(x) size_t x = (size_t)next_slot()
#define READS(type, x) size_t x##_len; const type *x = reads(&x##_len, sizeof(type))
#define READS_ALL(type, x, n) const type *x = filled_all(n, sizeof(type), 0)
#define LENDS(type, x) size_t x##_len; type *x = lends(&x##_len, sizeof(type))
#define LENDS_ALL(type, x, n) type *x = lends_all(n, sizeof(type))
#define REFERENCE READS(uint8_t, samples); SIZE(width); SIZE(height); SIZE(stride)
#define SEARCHED READS(uint8_t, reference); SIZE(ref_width); SIZE(ref_height); SIZE(stride)
#define PLACE SIZE(width); SIZE(height); SIZE(column); SIZE(row)
#define PLANES READS(uint8_t, y); READS(uint8_t, cb); READS(uint8_t, cr)
#define PREDICTION READS(uint8_t, pred_y); READS(uint8_t, pred_cb); READS(uint8_t, pred_cr)
#define REF_PLANES READS(uint8_t, ref_y); READS(uint8_t, ref_cb); READS(uint8_t, ref_cr)
#define THREE_SEARCHED REF_PLANES; SIZE(ref_width); SIZE(ref_height); SIZE(stride); SIZE(chroma_stride)
#define THREE_PLANES REF_PLANES; SIZE(width); SIZE(height); SIZE(stride); SIZE(chroma_stride); \
    U32(mode); U32(bits_per_pixel)
#define PREDICTED SIZE(column); SIZE(row); U8(rounding); LENDS(uint8_t, y); LENDS(uint8_t, cb); \
    LENDS(uint8_t, cr)
#define EVENTS LENDS(uint8_t, lasts); LENDS(uint8_t, runs); LENDS(int32_t, levels)
#define QUANTISING U32(quantiser); U8(first_method)
#define SETTINGS U32(fcode); U32(mode); U32(bits_per_pixel); QUANTISING; U32(vectors); U32(scan)
#define RECORD LENDS_ALL(int32_t, vector, 2); LENDS_ALL(uint32_t, sum, 1); \
    LENDS_ALL(int32_t, four_vectors, 8); LENDS_ALL(uint32_t, four_sums, 4); \
    LENDS_ALL(uint8_t, patterns, 2); LENDS_ALL(uint8_t, counts, 6)
#define BLOCK I32(mv_x); I32(mv_y); I32(origin_x); I32(origin_y); SIZE(block_w); SIZE(block_h); U8(rounding)

static uint8_t interpolate_block_into(void)
{
    REFERENCE; BLOCK; LENDS(uint8_t, out);
    return hencouch_interpolate_block_into(samples, samples_len, width, height, stride, mv_x, mv_y,
        origin_x, origin_y, block_w, block_h, rounding, out, out_len);
}

static uint8_t interpolate_block_qpel_into(void)
{
    REFERENCE; BLOCK; U32(bits_per_pixel); LENDS(uint8_t, out);
    return hencouch_interpolate_block_qpel_into(samples, samples_len, width, height, stride, mv_x,
        mv_y, origin_x, origin_y, block_w, block_h, rounding, bits_per_pixel, out, out_len);
}

static uint8_t interpolate_pixel(void)
{
    U8(a); U8(b); U8(c); U8(d); U8(half_x); U8(half_y); U8(rounding); LENDS_ALL(uint8_t, sample, 1);
    return hencouch_interpolate_pixel(a, b, c, d, half_x, half_y, rounding, sample);
}

static uint8_t split_half_pel(void)
{
    I32(mv); LENDS_ALL(int32_t, whole, 1); LENDS_ALL(uint8_t, half, 1);
    return hencouch_split_half_pel(mv, whole, half);
}

static uint8_t split_quarter_pel(void)
{
    I32(mv); LENDS_ALL(int32_t, whole, 1); LENDS_ALL(uint8_t, fraction, 1);
    return hencouch_split_quarter_pel(mv, whole, fraction);
}

static uint8_t fetch_clamped(void)
{
    REFERENCE; I32(x); I32(y); LENDS_ALL(uint8_t, sample, 1);
    return hencouch_fetch_clamped(samples, samples_len, width, height, stride, x, y, sample);
}

static uint8_t copy_block(void)
{
    REFERENCE; I32(x); I32(y); SIZE(block_w); SIZE(block_h); LENDS(uint8_t, out);
    return hencouch_copy_block(samples, samples_len, width, height, stride, x, y, block_w, block_h,
        out, out_len);
}

static uint8_t predict_luma_block(void)
{
    REFERENCE; U32(mode); U32(bits_per_pixel); BLOCK; LENDS(uint8_t, out);
    return hencouch_predict_luma_block(samples, samples_len, width, height, stride, mode,
        bits_per_pixel, mv_x, mv_y, origin_x, origin_y, block_w, block_h, rounding, out, out_len);
}

static uint8_t predict_luma_macroblock(void)
{
    REFERENCE; U32(mode); U32(bits_per_pixel); I32(mv_x); I32(mv_y); I32(origin_x); I32(origin_y);
    U8(rounding); LENDS(uint8_t, out);
    return hencouch_predict_luma_macroblock(samples, samples_len, width, height, stride, mode,
        bits_per_pixel, mv_x, mv_y, origin_x, origin_y, rounding, out, out_len);
}

static uint8_t predict_luma_macroblock_4mv(void)
{
    REFERENCE; U32(mode); U32(bits_per_pixel); READS_ALL(int32_t, vectors, 8); I32(origin_x);
    I32(origin_y); U8(rounding); LENDS(uint8_t, out);
    return hencouch_predict_luma_macroblock_4mv(samples, samples_len, width, height, stride, mode,
        bits_per_pixel, vectors, origin_x, origin_y, rounding, out, out_len);
}

static uint8_t forward_dct_8x8(void)
{
    READS(int32_t, residual); LENDS(int32_t, out);
    return hencouch_forward_dct_8x8(residual, residual_len, out, out_len);
}

static uint8_t quantise_block(void)
{
    READS(int32_t, coefficients); QUANTISING; READS(uint8_t, weights); LENDS(int32_t, out);
    return hencouch_quantise_block(coefficients, coefficients_len, quantiser, first_method, weights,
        weights_len, out, out_len);
}

static uint8_t inverse_block(void)
{
    READS(int32_t, levels); U32(quantiser); LENDS(int32_t, out);
    return hencouch_inverse_block(levels, levels_len, quantiser, out, out_len);
}

static uint8_t forward_scan(void)
{
    READS(int32_t, levels); U32(scan); LENDS(int32_t, out);
    return hencouch_forward_scan(levels, levels_len, scan, out, out_len);
}

static uint8_t inverse_scan(void)
{
    READS(int32_t, levels); U32(scan); LENDS(int32_t, out);
    return hencouch_inverse_scan(levels, levels_len, scan, out, out_len);
}

static uint8_t levels_to_events(void)
{
    READS(int32_t, levels); LENDS(uint8_t, lasts); LENDS(uint8_t, runs); LENDS(int32_t, out_levels);
    LENDS_ALL(uint8_t, count, 1);
    return hencouch_levels_to_events(levels, levels_len, lasts, lasts_len, runs, runs_len,
        out_levels, out_levels_len, count);
}

static uint8_t inter_scan(void)
{
    U8(interlaced); U8(alternate_scan); LENDS_ALL(uint32_t, scan, 1);
    return hencouch_inter_scan(interlaced, alternate_scan, scan);
}

static uint8_t source_luma_block(void)
{
    READS(uint8_t, y); PLACE; LENDS(uint8_t, out);
    return hencouch_source_luma_block(y, y_len, width, height, column, row, out, out_len);
}

static uint8_t source_chroma_block(void)
{
    READS(uint8_t, chroma); PLACE; LENDS(uint8_t, out);
    return hencouch_source_chroma_block(chroma, chroma_len, width, height, column, row, out, out_len);
}

static uint8_t estimate_motion(void)
{
    READS(uint8_t, source); PLACE; SEARCHED; U32(mode); U32(bits_per_pixel); U32(fcode);
    LENDS(int32_t, vector); LENDS(uint32_t, sum);
    return hencouch_estimate_motion(source, source_len, width, height, column, row, reference,
        reference_len, ref_width, ref_height, stride, mode, bits_per_pixel, fcode, vector,
        vector_len, sum, sum_len);
}

static uint8_t estimate_motion_4mv(void)
{
    READS(uint8_t, source); PLACE; SEARCHED; U32(mode); U32(bits_per_pixel); U32(fcode);
    I32(seed_x); I32(seed_y); LENDS(int32_t, vectors); LENDS(uint32_t, sums);
    return hencouch_estimate_motion_4mv(source, source_len, width, height, column, row, reference,
        reference_len, ref_width, ref_height, stride, mode, bits_per_pixel, fcode, seed_x, seed_y,
        vectors, vectors_len, sums, sums_len);
}

static uint8_t intra_activity(void)
{
    READS(uint8_t, source); PLACE; LENDS_ALL(uint32_t, activity, 1);
    return hencouch_intra_activity(source, source_len, width, height, column, row, activity);
}

static uint8_t macroblock_residual(void)
{
    PLANES; PLACE; PREDICTION; LENDS(int32_t, out);
    return hencouch_macroblock_residual(y, y_len, cb, cb_len, cr, cr_len, width, height, column, row,
        pred_y, pred_y_len, pred_cb, pred_cb_len, pred_cr, pred_cr_len, out, out_len);
}

static uint8_t quantise_inter_block(void)
{
    READS(int32_t, residual); QUANTISING; READS(uint8_t, weights); U32(scan); EVENTS;
    LENDS_ALL(uint8_t, count, 1);
    return hencouch_quantise_inter_block(residual, residual_len, quantiser, first_method, weights,
        weights_len, scan, lasts, lasts_len, runs, runs_len, levels, levels_len, count);
}

static uint8_t quantise_inter_residual(void)
{
    READS(int32_t, residual); QUANTISING; READS(uint8_t, weights); U32(scan); EVENTS;
    LENDS_ALL(uint8_t, counts, 6);
    return hencouch_quantise_inter_residual(residual, residual_len, quantiser, first_method, weights,
        weights_len, scan, lasts, lasts_len, runs, runs_len, levels, levels_len, counts);
}

static uint8_t inter_cbp(void)
{
    READS_ALL(uint8_t, counts, 6); LENDS_ALL(uint8_t, patterns, 2);
    return hencouch_inter_cbp(counts, patterns);
}

static uint8_t code_macroblock(void)
{
    SETTINGS; SEARCHED; PLANES; PLACE; READS(uint8_t, weights); PREDICTION; EVENTS; RECORD;
    return hencouch_code_macroblock(fcode, mode, bits_per_pixel, quantiser, first_method, vectors,
        scan, reference, reference_len, ref_width, ref_height, stride, y, y_len, cb, cb_len, cr,
        cr_len, width, height, column, row, weights, weights_len, pred_y, pred_y_len, pred_cb,
        pred_cb_len, pred_cr, pred_cr_len, lasts, lasts_len, runs, runs_len, levels, levels_len,
        vector, sum, four_vectors, four_sums, patterns, counts);
}

static uint8_t open_run(void)
{
    SIZE(width); SIZE(height); LENDS_ALL(uint64_t, run, 5);
    return hencouch_open(width, height, run);
}

static uint8_t next_place(void)
{
    READS_ALL(uint64_t, run, 5); LENDS_ALL(uint64_t, place, 2);
    return hencouch_next_place(run, place);
}

/* The run of a step: as it is before, then as it is after. */
static uint64_t *changed_run(void)
{
    uint64_t *run = filled_all(5, sizeof *run, 1);
    size_t after;
    placed(&after);
    declared(after, 5);
    return run;
}

static uint8_t step(void)
{
    uint64_t *run = changed_run();
    SETTINGS; SEARCHED; PLANES; SIZE(width); SIZE(height); READS(uint8_t, weights); PREDICTION;
    EVENTS; RECORD;
    return hencouch_step(run, fcode, mode, bits_per_pixel, quantiser, first_method, vectors, scan,
        reference, reference_len, ref_width, ref_height, stride, y, y_len, cb, cb_len, cr, cr_len,
        width, height, weights, weights_len, pred_y, pred_y_len, pred_cb, pred_cb_len, pred_cr,
        pred_cr_len, lasts, lasts_len, runs, runs_len, levels, levels_len, vector, sum,
        four_vectors, four_sums, patterns, counts);
}

static uint8_t close_run(void)
{
    READS_ALL(uint64_t, run, 5); LENDS_ALL(uint64_t, totals, 3);
    return hencouch_close(run, totals);
}

static uint8_t chroma_vector(void)
{
    U32(mode); I32(mv_x); I32(mv_y); LENDS_ALL(int32_t, vector, 2);
    return hencouch_chroma_vector(mode, mv_x, mv_y, vector);
}

static uint8_t chroma_vector_4mv(void)
{
    U32(mode); READS_ALL(int32_t, vectors, 8); LENDS_ALL(int32_t, vector, 2);
    return hencouch_chroma_vector_4mv(mode, vectors, vector);
}

static uint8_t predict_macroblock(void)
{
    THREE_PLANES; I32(mv_x); I32(mv_y); PREDICTED;
    return hencouch_predict_macroblock(ref_y, ref_y_len, ref_cb, ref_cb_len, ref_cr, ref_cr_len,
        width, height, stride, chroma_stride, mode, bits_per_pixel, mv_x, mv_y, column, row,
        rounding, y, y_len, cb, cb_len, cr, cr_len);
}

static uint8_t predict_macroblock_4mv(void)
{
    THREE_PLANES; READS_ALL(int32_t, vectors, 8); PREDICTED;
    return hencouch_predict_macroblock_4mv(ref_y, ref_y_len, ref_cb, ref_cb_len, ref_cr, ref_cr_len,
        width, height, stride, chroma_stride, mode, bits_per_pixel, vectors, column, row, rounding,
        y, y_len, cb, cb_len, cr, cr_len);
}

static uint8_t code_predicted_macroblock(void)
{
    SETTINGS; U8(rounding); THREE_SEARCHED; PLANES; PLACE; READS(uint8_t, weights); EVENTS; RECORD;
    return hencouch_code_predicted_macroblock(fcode, mode, bits_per_pixel, quantiser, first_method,
        vectors, scan, rounding, ref_y, ref_y_len, ref_cb, ref_cb_len, ref_cr, ref_cr_len,
        ref_width, ref_height, stride, chroma_stride, y, y_len, cb, cb_len, cr, cr_len, width,
        height, column, row, weights, weights_len, lasts, lasts_len, runs, runs_len, levels,
        levels_len, vector, sum, four_vectors, four_sums, patterns, counts);
}

static uint8_t step_predicted(void)
{
    uint64_t *run = changed_run();
    SETTINGS; U8(rounding); THREE_SEARCHED; PLANES; SIZE(width); SIZE(height);
    READS(uint8_t, weights); EVENTS; RECORD;
    return hencouch_step_predicted(run, fcode, mode, bits_per_pixel, quantiser, first_method,
        vectors, scan, rounding, ref_y, ref_y_len, ref_cb, ref_cb_len, ref_cr, ref_cr_len,
        ref_width, ref_height, stride, chroma_stride, y, y_len, cb, cb_len, cr, cr_len, width,
        height, weights, weights_len, lasts, lasts_len, runs, runs_len, levels, levels_len, vector,
        sum, four_vectors, four_sums, patterns, counts);
}

struct entry {
    const char *name;
    uint8_t (*call)(void);
    int equal, refused, different;
};

/* In the header's order: the entry with number 1 first. */
static struct entry entries[] = {
    {"interpolate_block_into", interpolate_block_into, 0, 0, 0},
    {"interpolate_block_qpel_into", interpolate_block_qpel_into, 0, 0, 0},
    {"interpolate_pixel", interpolate_pixel, 0, 0, 0},
    {"split_half_pel", split_half_pel, 0, 0, 0},
    {"split_quarter_pel", split_quarter_pel, 0, 0, 0},
    {"fetch_clamped", fetch_clamped, 0, 0, 0},
    {"copy_block", copy_block, 0, 0, 0},
    {"predict_luma_block", predict_luma_block, 0, 0, 0},
    {"predict_luma_macroblock", predict_luma_macroblock, 0, 0, 0},
    {"predict_luma_macroblock_4mv", predict_luma_macroblock_4mv, 0, 0, 0},
    {"forward_dct_8x8", forward_dct_8x8, 0, 0, 0},
    {"quantise_block", quantise_block, 0, 0, 0},
    {"inverse_block", inverse_block, 0, 0, 0},
    {"forward_scan", forward_scan, 0, 0, 0},
    {"inverse_scan", inverse_scan, 0, 0, 0},
    {"levels_to_events", levels_to_events, 0, 0, 0},
    {"inter_scan", inter_scan, 0, 0, 0},
    {"source_luma_block", source_luma_block, 0, 0, 0},
    {"source_chroma_block", source_chroma_block, 0, 0, 0},
    {"estimate_motion", estimate_motion, 0, 0, 0},
    {"estimate_motion_4mv", estimate_motion_4mv, 0, 0, 0},
    {"intra_activity", intra_activity, 0, 0, 0},
    {"macroblock_residual", macroblock_residual, 0, 0, 0},
    {"quantise_inter_block", quantise_inter_block, 0, 0, 0},
    {"quantise_inter_residual", quantise_inter_residual, 0, 0, 0},
    {"inter_cbp", inter_cbp, 0, 0, 0},
    {"code_macroblock", code_macroblock, 0, 0, 0},
    {"open", open_run, 0, 0, 0},
    {"next_place", next_place, 0, 0, 0},
    {"step", step, 0, 0, 0},
    {"close", close_run, 0, 0, 0},
    {"chroma_vector", chroma_vector, 0, 0, 0},
    {"chroma_vector_4mv", chroma_vector_4mv, 0, 0, 0},
    {"predict_macroblock", predict_macroblock, 0, 0, 0},
    {"predict_macroblock_4mv", predict_macroblock_4mv, 0, 0, 0},
    {"code_predicted_macroblock", code_predicted_macroblock, 0, 0, 0},
    {"step_predicted", step_predicted, 0, 0, 0},
};

enum { ENTRIES = sizeof entries / sizeof entries[0] };

/* The call whose length is read next; 0 ends the file. */
static int replay(int made)
{
    size_t len = (size_t)number(&at, 4);
    if (len == 0)
        return 0;
    if ((size_t)(end - at) < len)
        stop("the calls end early");
    call = slot = at;
    at += len;
    uint8_t which = (uint8_t)number(&slot, 1), wanted = (uint8_t)number(&slot, 1);
    answer = call + number(&slot, 4);
    if (which == 0 || which > ENTRIES || answer > at)
        stop("a call of no entry");
    struct entry *e = &entries[which - 1];
    uint8_t reply = e->call();
    if (answered(wanted) && reply == wanted) {
        e->equal++;
        e->refused += reply != 0;
    } else {
        e->different++;
        printf("call %d differs: %s, reply %d, wanted %d\n", made, e->name, reply, wanted);
    }
    return 1;
}

static uint8_t *whole(const char *name, size_t *len)
{
    FILE *file = fopen(name, "rb");
    if (file == NULL || fseek(file, 0, SEEK_END) != 0)
        stop("no file of calls");
    *len = (size_t)ftell(file);
    rewind(file);
    uint8_t *bytes = malloc(*len);
    if (bytes == NULL || fread(bytes, 1, *len, file) != *len)
        stop("the calls cannot be read");
    fclose(file);
    return bytes;
}

int main(int count, char **words)
{
    size_t len;
    int bad = 0, made = 1;
    if (count != 2)
        stop("one word: the file of calls");
    at = whole(words[1], &len);
    end = at + len;
    while (replay(made))
        made++;
    bad |= at != end;
    for (int i = 0; i < ENTRIES; i++) {
        struct entry *e = &entries[i];
        printf("%s: %d equal, %d of them refused\n", e->name, e->equal, e->refused);
        bad |= e->different != 0 || e->equal == 0;
    }
    printf("%d calls%s\n", made - 1, bad ? ": DIFFERENT" : "");
    return bad;
}
