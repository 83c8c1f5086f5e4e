/* Writes the clip that `make run` shows: a comb with two bees walking on it. The source is the
 * comb with the bees two steps on, the reference the comb before, and each macroblock's prediction
 * is the reference at its own place, as if nothing had moved. */
#include <stdio.h>

enum { WIDTH = 96, HEIGHT = 64, CHROMA_WIDTH = WIDTH / 2, CHROMA_HEIGHT = HEIGHT / 2 };

/* A cell is 12 across, every other row of cells half a cell aside: its wall is bright, its bottom
 * dark. */
static int comb(int x, int y) {
    int row = y / 10;
    int dx = (x + 6 * (row % 2)) % 12 - 6;
    int dy = y % 10 - 5;
    int wall = 4 * dx * dx + 5 * dy * dy;
    return 70 + (wall > 100 ? 90 : wall * 9 / 10) + (x * 7 + y * 13) % 5;
}

/* A bee at (bx, by), 16 long: striped, its outline dark. -1 where it is not. */
static int bee(int x, int y, int bx, int by) {
    int dx = x - bx, dy = y - by;
    int shape = 25 * dx * dx + 64 * dy * dy;
    if (shape > 1600)
        return -1;
    if (shape > 1250)
        return 30;
    return dx / 3 % 2 == 0 ? 190 : 60;
}

static int luma(int x, int y, int step) {
    int first = bee(x, y, 30 + 3 * step, 26 - step);
    int second = bee(x, y, 70 - 2 * step, 42 + step);
    return first >= 0 ? first : second >= 0 ? second : comb(x, y);
}

static void put(int byte) { putchar(byte); }

static void plane(int step) {
    for (int y = 0; y < HEIGHT; y++)
        for (int x = 0; x < WIDTH; x++)
            put(luma(x, y, step));
}

static void grey(int width, int height) {
    for (int n = 0; n < width * height; n++)
        put(128);
}

int main(void) {
    /* width and height, high byte first; fcode 1, half samples, quantiser 5, one vector */
    int header[] = {WIDTH / 256, WIDTH % 256, HEIGHT / 256, HEIGHT % 256, 1, 0, 5, 1};
    for (int n = 0; n < 8; n++)
        put(header[n]);
    plane(2);
    grey(CHROMA_WIDTH, CHROMA_HEIGHT);
    grey(CHROMA_WIDTH, CHROMA_HEIGHT);
    plane(0);
    for (int row = 0; row < HEIGHT / 16; row++)
        for (int column = 0; column < WIDTH / 16; column++) {
            for (int n = 0; n < 256; n++)
                put(luma(16 * column + n % 16, 16 * row + n / 16, 0));
            grey(16, 8);
        }
    return ferror(stdout) != 0;
}
