/* broodline with an exit status, which a Rattle program has not: 1 where its output cannot be
 * written. */
#include <stdint.h>

uint8_t hencouch_play(int32_t input);

int main(void) { return hencouch_play(0); }
