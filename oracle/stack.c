/* Measures how much stack the library's calls take: each runs on a stack of its own that was painted
 * before, and the paint that is gone afterwards was used. With a number of KiB the program fails
 * where a call took more. A call's arguments and its caller's frame here are in the figures. */
#define _XOPEN_SOURCE 700
#include "hencouch.h"
#include <stdio.h>
#include <stdlib.h>
#include <string.h>
#include <ucontext.h>

enum { ROOM = 1 << 17, TURNS = 672, PAINT = 0xA5, WIDTH = 176, HEIGHT = 144, COLUMNS = 11, ROWS = 9 };

static unsigned char room[ROOM] __attribute__((aligned(4096)));
static ucontext_t home, away;

/* The bytes that a call takes. */
static size_t used(void (*call)(void)) {
    memset(room, PAINT, ROOM);
    if (getcontext(&away) != 0) {
        perror("getcontext");
        exit(2);
    }
    away.uc_stack.ss_sp = room;
    away.uc_stack.ss_size = ROOM;
    away.uc_link = &home;
    makecontext(&away, call, 0);
    if (swapcontext(&home, &away) != 0) {
        perror("swapcontext");
        exit(2);
    }
    size_t unused = 0;
    while (unused < ROOM && room[unused] == PAINT) unused++;
    return ROOM - unused;
}

/* What the calls are told, set between them; the areas are as long as any answer. */
static uint8_t y[WIDTH * HEIGHT], reference[WIDTH * HEIGHT], cb[WIDTH * HEIGHT], cr[WIDTH * HEIGHT];
static uint8_t weights[64], pred_y[256], pred_cb[64], pred_cr[64], bytes[384], more_bytes[384];
static int32_t numbers[384], more_numbers[384], vectors[8], vector[2];
static uint32_t sums[4], sum[1], mode, fcode, four, first_method, scan;
static size_t column, row;
static uint8_t counts[6], patterns[2], reply;
static uint64_t run[5], places[3];

static void nothing(void) { reply = 0; }

static void half(void) {
    reply = hencouch_interpolate_block_into(reference, sizeof reference, WIDTH, HEIGHT, WIDTH,
        vectors[0], vectors[1], 16 * (int32_t)column, 16 * (int32_t)row, 16, 16, 1, bytes, 256);
}

static void quarter(void) {
    reply = hencouch_interpolate_block_qpel_into(reference, sizeof reference, WIDTH, HEIGHT, WIDTH,
        vectors[0], vectors[1], 16 * (int32_t)column, 16 * (int32_t)row, 16, 16, 1, 8, bytes, 256);
}

static void macroblock(void) {
    reply = hencouch_predict_luma_macroblock(reference, sizeof reference, WIDTH, HEIGHT, WIDTH, mode, 8,
        vectors[0], vectors[1], 16 * (int32_t)column, 16 * (int32_t)row, 1, bytes, 256);
}

static void macroblock_4mv(void) {
    reply = hencouch_predict_luma_macroblock_4mv(reference, sizeof reference, WIDTH, HEIGHT, WIDTH,
        mode, 8, vectors, 16 * (int32_t)column, 16 * (int32_t)row, 1, bytes, 256);
}

static void transform(void) { reply = hencouch_forward_dct_8x8(numbers, 64, more_numbers, 64); }

static void activity(void) {
    reply = hencouch_intra_activity(y, sizeof y, WIDTH, HEIGHT, column, row, sums);
}

static void residual(void) {
    reply = hencouch_macroblock_residual(y, sizeof y, cb, sizeof cb, cr, sizeof cr, WIDTH, HEIGHT,
        column, row, pred_y, 256, pred_cb, 64, pred_cr, 64, numbers, 384);
}

static void events(void) {
    reply = hencouch_quantise_inter_residual(numbers, 384, 1, (uint8_t)first_method, weights, 64, scan,
        bytes, 384, more_bytes, 384, more_numbers, 384, counts);
}

static void search(void) {
    reply = hencouch_estimate_motion(y, sizeof y, WIDTH, HEIGHT, column, row, reference,
        sizeof reference, WIDTH, HEIGHT, WIDTH, mode, 8, fcode, vector, 2, sums, 1);
}

static void search_4mv(void) {
    reply = hencouch_estimate_motion_4mv(y, sizeof y, WIDTH, HEIGHT, column, row, reference,
        sizeof reference, WIDTH, HEIGHT, WIDTH, mode, 8, fcode, 5, -3, vectors, 8, sums, 4);
}

static void code(void) {
    reply = hencouch_code_macroblock(fcode, mode, 8, 1, (uint8_t)first_method, four, scan, reference,
        sizeof reference, WIDTH, HEIGHT, WIDTH, y, sizeof y, cb, sizeof cb, cr, sizeof cr, WIDTH,
        HEIGHT, column, row, weights, 64, pred_y, 256, pred_cb, 64, pred_cr, 64, bytes, 384,
        more_bytes, 384, numbers, 384, vector, sum, vectors, sums, patterns, counts);
}

static void step(void) {
    reply = hencouch_step(run, fcode, mode, 8, 1, (uint8_t)first_method, four, scan, reference,
        sizeof reference, WIDTH, HEIGHT, WIDTH, y, sizeof y, cb, sizeof cb, cr, sizeof cr, WIDTH,
        HEIGHT, weights, 64, pred_y, 256, pred_cb, 64, pred_cr, 64, bytes, 384, more_bytes, 384,
        numbers, 384, vector, sum, vectors, sums, patterns, counts);
}

static void predict(void) {
    reply = hencouch_predict_macroblock(reference, sizeof reference, cb, sizeof cb, cr, sizeof cr,
        WIDTH, HEIGHT, WIDTH, WIDTH / 2, mode, 8, vectors[0], vectors[1], column, row, 1, pred_y, 256,
        pred_cb, 64, pred_cr, 64);
}

static void predict_4mv(void) {
    reply = hencouch_predict_macroblock_4mv(reference, sizeof reference, cb, sizeof cb, cr, sizeof cr,
        WIDTH, HEIGHT, WIDTH, WIDTH / 2, mode, 8, vectors, column, row, 1, pred_y, 256, pred_cb, 64,
        pred_cr, 64);
}

static void code_predicted(void) {
    reply = hencouch_code_predicted_macroblock(fcode, mode, 8, 1, (uint8_t)first_method, four, scan, 1,
        reference, sizeof reference, cb, sizeof cb, cr, sizeof cr, WIDTH, HEIGHT, WIDTH, WIDTH / 2, y,
        sizeof y, cb, sizeof cb, cr, sizeof cr, WIDTH, HEIGHT, column, row, weights, 64, bytes, 384,
        more_bytes, 384, numbers, 384, vector, sum, vectors, sums, patterns, counts);
}

static void step_predicted(void) {
    reply = hencouch_step_predicted(run, fcode, mode, 8, 1, (uint8_t)first_method, four, scan, 1,
        reference, sizeof reference, cb, sizeof cb, cr, sizeof cr, WIDTH, HEIGHT, WIDTH, WIDTH / 2, y,
        sizeof y, cb, sizeof cb, cr, sizeof cr, WIDTH, HEIGHT, weights, 64, bytes, 384, more_bytes, 384,
        numbers, 384, vector, sum, vectors, sums, patterns, counts);
}

static void next_place(void) { reply = hencouch_next_place(run, places); }

static const struct {
    const char *name;
    void (*call)(void);
} entries[] = {
    {"interpolate_block_into", half}, {"interpolate_block_qpel_into", quarter},
    {"predict_luma_macroblock", macroblock}, {"predict_luma_macroblock_4mv", macroblock_4mv},
    {"forward_dct_8x8", transform}, {"intra_activity", activity}, {"macroblock_residual", residual},
    {"quantise_inter_residual", events}, {"estimate_motion", search},
    {"estimate_motion_4mv", search_4mv}, {"code_macroblock", code}, {"step", step},
    {"next_place", next_place}, {"predict_macroblock", predict},
    {"predict_macroblock_4mv", predict_4mv}, {"code_predicted_macroblock", code_predicted},
    {"step_predicted", step_predicted},
};

/* A number below n, the same in every run. */
static int below(int n) {
    static uint32_t state = 1;
    state = state * 1664525 + 1013904223;
    return (int)((state >> 8) % (uint32_t)n);
}

/* The arguments of a turn: every mode, method and vector count with every fcode, and any place,
 * vectors, some of which leave the picture, and residuals. */
static void tell(int turn) {
    mode = turn & 1;
    first_method = turn >> 1 & 1;
    four = turn >> 2 & 1 ? 4 : 1;
    fcode = 1 + turn % 7;
    scan = turn % 3;
    column = (size_t)below(COLUMNS);
    row = (size_t)below(ROWS);
    for (int i = 0; i < 8; i++) vectors[i] = below(200) - 100;
    for (int i = 0; i < 384; i++) numbers[i] = below(511) - 255;
    if (hencouch_open(WIDTH, HEIGHT, run) != 0) exit(2);
    run[2] = row * COLUMNS + column;
}

int main(int words, char **word) {
    size_t most = words > 1 ? (size_t)atol(word[1]) * 1024 : 0, all = 0;
    for (int i = 0; i < WIDTH * HEIGHT; i++) {
        int x = i % WIDTH, down = i / WIDTH;
        y[i] = (uint8_t)(x * x / 9 + down * down / 5);
        reference[i] = (uint8_t)((x + 3) * (x + 3) / 9 + (down - 2) * (down - 2) / 5);
        cb[i] = cr[i] = (uint8_t)(i * 7);
    }
    memset(weights, 16, sizeof weights);
    printf("%zu bytes with no call\n", used(nothing));
    for (size_t e = 0; e < sizeof entries / sizeof *entries; e++) {
        size_t here = 0;
        for (int turn = 0; turn < TURNS; turn++) {
            tell(turn);
            size_t now = used(entries[e].call);
            if (reply != 0) {
                printf("%s: refused with %d\n", entries[e].name, reply);
                return 2;
            }
            if (now > here) here = now;
        }
        printf("%-27s %6zu bytes\n", entries[e].name, here);
        if (here > all) all = here;
    }
    printf("at most %zu bytes, %.1f KiB", all, (double)all / 1024);
    if (most == 0) return puts("") == EOF;
    printf(", of %zu KiB that the header allows\n", most / 1024);
    return all > most;
}
