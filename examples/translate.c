/* Translates one guest address through the second stage and prints the answer and the entries read for it.
 *
 *     rust/build library
 *     cc -std=c99 -Iinclude examples/translate.c target/staticlib/libexports.a -o translate
 */
#include <inttypes.h>
#include <stdio.h>

#include "balcumentri.h"

enum { BASE = 0x80000000, LENGTH = 0x11000 };

static uint8_t image[LENGTH];

/* Eight bytes, little-endian, at a machine address. */
static void put(uint64_t address, uint64_t value)
{
    for (int i = 0; i < 8; i++)
        image[address - BASE + (uint64_t)i] = (uint8_t)(value >> (8 * i));
}

int main(void)
{
    uint64_t hart[BALCUMENTRI_HART_WORDS];
    uint64_t out[BALCUMENTRI_TRANSLATION_WORDS];

    put(0x80004008, 0x20002001); /* root: to the table at 80008000 */
    put(0x80008000, 0x20002401); /* to the table at 80009000 */
    put(0x80009008, 0x200040d7); /* a leaf: the page at 80010000 */

    balcumentri_reset(1, 1, 0, hart, BALCUMENTRI_HART_WORDS); /* VS */
    hart[3 + balcumentri_place(0x680)] = UINT64_C(0x8000000000080004); /* hgatp: Sv39x4, root at 80004000 */

    if (balcumentri_translate(hart, BALCUMENTRI_HART_WORDS, BASE, image, LENGTH, BALCUMENTRI_LOAD, 0x40001008, 8, out,
                              BALCUMENTRI_TRANSLATION_WORDS) != BALCUMENTRI_WRITTEN) {
        fprintf(stderr, "translate: a slice has a wrong length\n");
        return 1;
    }
    if (out[0] == BALCUMENTRI_ADDRESS)
        printf("address %" PRIx64 "\n", out[1]);
    else if (out[0] == BALCUMENTRI_REFUSED)
        printf("refused %" PRIx64 "\n", out[1]);
    else
        printf("fault %" PRIx64 " %" PRIx64 " %" PRIx64 " %" PRIx64 " %" PRIx64 "\n", out[1], out[2], out[3], out[4],
               out[5]);
    for (uint64_t i = 0; i < out[6]; i++) {
        const uint64_t *read = out + 7 + 4 * i;
        printf("read %" PRIx64 " %" PRIx64 " %" PRIx64 " %" PRIx64 "\n", read[0], read[1], read[2], read[3]);
    }
    return 0;
}
