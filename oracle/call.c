/* Calls the library four times, and fails where an answer is not the one named here. First a
 * 16 x 16 block from a slope, half a sample to the right: each sample lies between two that are 4
 * apart. Then the vector of a macroblock whose picture is the reference moved by 3 samples and 1: 6
 * and 2 half samples, sum 0. Then the same macroblock, searched for with one vector and with four,
 * and coded: its chroma and the whole prediction are flat, so each luma block has events and neither
 * chroma block has any, patterns 15 and 0. Last it is coded against the prediction that the library
 * makes by the vectors found, which leaves nothing: patterns 0 and 0.
 *
 * README.md shows the lines between `shown` and `so far`; `make call` holds it to them. */
#include <stdio.h>
#include <string.h>

#include "hencouch.h"

enum { WIDTH = 48, HEIGHT = 32 };

static int wrong = 0;

static void expect(const char *what, long got, long wanted) {
    if (got == wanted)
        return;
    fprintf(stderr, "call: %s is %ld, not %ld\n", what, got, wanted);
    wrong = 1;
}

static void predict(void) {
    uint8_t plane[WIDTH * HEIGHT];
    for (int y = 0; y < HEIGHT; y++)
        for (int x = 0; x < WIDTH; x++)
            plane[y * WIDTH + x] = (uint8_t)(4 * x + y);
    /* shown */
    /* The 16 x 16 block at 8, 8, half a sample to the right, rounding type 0. */
    uint8_t out[256];
    uint8_t reply = hencouch_interpolate_block_into(plane, sizeof plane, WIDTH, HEIGHT, WIDTH,
                                                    1, 0, 8, 8, 16, 16, 0, out, sizeof out);
    /* so far */
    expect("the prediction's reply", reply, 0);
    for (int y = 0; y < 16; y++)
        for (int x = 0; x < 16; x++)
            expect("a predicted sample", out[16 * y + x], 4 * (8 + x) + (8 + y) + 2);
    printf("predicted %d %d %d ...\n", out[0], out[1], out[2]);
}

static uint8_t texture(int x, int y) { return (uint8_t)(x * x * 7 + y * y * 13 + x * y * 5); }

static void pictures(uint8_t *source, uint8_t *reference) {
    for (int y = 0; y < HEIGHT; y++)
        for (int x = 0; x < WIDTH; x++) {
            source[y * WIDTH + x] = texture(x + 3, y + 1);
            reference[y * WIDTH + x] = texture(x, y);
        }
}

static void search(void) {
    uint8_t source[WIDTH * HEIGHT], plane[WIDTH * HEIGHT];
    size_t column = 1, row = 0;
    pictures(source, plane);
    /* shown */
    /* One vector for a macroblock: half samples, 8 bits per pixel, fcode 1. */
    int32_t vector[2];
    uint32_t sum[1];
    uint8_t reply = hencouch_estimate_motion(source, sizeof source, WIDTH, HEIGHT, column, row,
                                             plane, sizeof plane, WIDTH, HEIGHT, WIDTH,
                                             0, 8, 1, vector, 2, sum, 1);
    /* so far */
    expect("the search's reply", reply, 0);
    expect("the vector's horizontal part", vector[0], 6);
    expect("the vector's vertical part", vector[1], 2);
    expect("the vector's sum", sum[0], 0);
    printf("vector %d %d, sum %u\n", (int)vector[0], (int)vector[1], (unsigned)sum[0]);
}

/* What a macroblock is coded from, and what comes of it. */
static struct {
    uint8_t y[WIDTH * HEIGHT], plane[WIDTH * HEIGHT], cb[WIDTH * HEIGHT / 4], cr[WIDTH * HEIGHT / 4];
    uint8_t weights[64];
} from;
static struct {
    uint8_t lasts[384], runs[384], patterns[2], counts[6];
    int32_t levels[384], vector[2], four_vectors[8];
    uint32_t sum, four_sums[4];
} coded;

static void flat_chroma(void) {
    pictures(from.y, from.plane);
    memset(from.cb, 128, sizeof from.cb);
    memset(from.cr, 128, sizeof from.cr);
    memset(from.weights, 16, sizeof from.weights);
}

static void expect_coded(uint8_t reply, int luma_pattern, const int counts[6]) {
    expect("the coding's reply", reply, 0);
    expect("the coded vector's horizontal part", coded.vector[0], 6);
    expect("the coded vector's vertical part", coded.vector[1], 2);
    expect("the coded vector's sum", coded.sum, 0);
    for (int b = 0; b < 4; b++) {
        expect("a block's horizontal part", coded.four_vectors[2 * b], 6);
        expect("a block's vertical part", coded.four_vectors[2 * b + 1], 2);
        expect("a block's sum", coded.four_sums[b], 0);
    }
    expect("the luma pattern", coded.patterns[0], luma_pattern);
    expect("the chroma pattern", coded.patterns[1], 0);
    printf("patterns %d %d, counts", coded.patterns[0], coded.patterns[1]);
    for (int b = 0; b < 6; b++) {
        expect("a block's count of events", coded.counts[b], counts[b]);
        printf(" %d", coded.counts[b]);
    }
    printf("\n");
}

/* fcode 1, half samples, 8 bits per pixel, quantiser 5, second method, four vectors, zigzag. */
static void code(void) {
    static const int wanted_counts[6] = {58, 58, 57, 60, 0, 0};
    uint8_t pred_y[256], pred_cb[64], pred_cr[64];
    size_t column = 1, row = 0;
    flat_chroma();
    memset(pred_y, 128, sizeof pred_y);
    memset(pred_cb, 128, sizeof pred_cb);
    memset(pred_cr, 128, sizeof pred_cr);
    uint8_t reply = hencouch_code_macroblock(1, 0, 8, 5, 0, 4, 2,
                                             from.plane, sizeof from.plane, WIDTH, HEIGHT, WIDTH,
                                             from.y, sizeof from.y, from.cb, sizeof from.cb,
                                             from.cr, sizeof from.cr,
                                             WIDTH, HEIGHT, column, row, from.weights, 64,
                                             pred_y, 256, pred_cb, 64, pred_cr, 64,
                                             coded.lasts, 384, coded.runs, 384, coded.levels, 384,
                                             coded.vector, &coded.sum, coded.four_vectors,
                                             coded.four_sums, coded.patterns, coded.counts);
    expect_coded(reply, 15, wanted_counts);
}

/* The same with rounding type 0; the reference's chroma is the source's. */
static void code_predicted(void) {
    static const int nothing[6];
    size_t column = 1, row = 0;
    flat_chroma();
    uint8_t reply = hencouch_code_predicted_macroblock(1, 0, 8, 5, 0, 4, 2, 0,
                                                       from.plane, sizeof from.plane,
                                                       from.cb, sizeof from.cb,
                                                       from.cr, sizeof from.cr,
                                                       WIDTH, HEIGHT, WIDTH, WIDTH / 2,
                                                       from.y, sizeof from.y,
                                                       from.cb, sizeof from.cb,
                                                       from.cr, sizeof from.cr,
                                                       WIDTH, HEIGHT, column, row,
                                                       from.weights, 64, coded.lasts, 384,
                                                       coded.runs, 384, coded.levels, 384,
                                                       coded.vector, &coded.sum,
                                                       coded.four_vectors, coded.four_sums,
                                                       coded.patterns, coded.counts);
    expect_coded(reply, 0, nothing);
}

int main(void) {
    predict();
    search();
    code();
    code_predicted();
    return wrong;
}
