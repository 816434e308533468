/* Empty slices as C has them, a null pointer and the number 0: as an image they are taken, as words they have a wrong length.
 * Prints what each call returns without a hart, without room for its result, and without both; then accesses to an empty image.
 *
 *     rust/build library
 *     cc -std=c99 -Iinclude examples/empty-slices.c target/staticlib/libexports.a -o empty-slices
 */
#include <inttypes.h>
#include <stdio.h>
#include <string.h>

#include "balcumentri.h"

static uint64_t hart[BALCUMENTRI_HART_WORDS];
static uint64_t out[BALCUMENTRI_GUEST_WORDS];

/* A call by its name, its result's words, and the arguments that stand between the two slices, each with its comma. */
#define TRY(name, words, ...)                                                                                       \
    printf(#name " %" PRIu64 " %" PRIu64 " %" PRIu64 "\n", balcumentri_##name(NULL, 0, __VA_ARGS__ out, words),     \
           balcumentri_##name(hart, BALCUMENTRI_HART_WORDS, __VA_ARGS__ NULL, 0),                                   \
           balcumentri_##name(NULL, 0, __VA_ARGS__ NULL, 0))

/* The hart after a write to a register. In M it is done: its instruction's word, here 0, is not looked at. */
static void write_register(uint64_t number, uint64_t value)
{
    uint64_t next[BALCUMENTRI_ACCESS_WORDS];

    balcumentri_write(hart, BALCUMENTRI_HART_WORDS, number, value, 0, next, BALCUMENTRI_ACCESS_WORDS);
    memcpy(hart, next, sizeof hart);
}

/* An access over no bytes. */
static void access_nothing(const char *name, uint64_t kind)
{
    uint64_t returned = balcumentri_translate(hart, BALCUMENTRI_HART_WORDS, 0x1000, NULL, 0, kind, 0x1000, 4, out,
                                              BALCUMENTRI_TRANSLATION_WORDS);
    printf("%s returned %" PRIu64 ": %s %" PRIu64 ", %" PRIu64 " reads\n", name, returned,
           out[0] == BALCUMENTRI_FAULT ? "fault" : "no fault", out[1], out[6]);
}

/* What a hypervisor load or store over no bytes came to. */
static void guest_access(const char *name, uint64_t returned)
{
    printf("%s returned %" PRIu64 ": %s %" PRIu64 ", %" PRIu64 " reads\n", name, returned,
           out[BALCUMENTRI_HART_WORDS] == BALCUMENTRI_TRAPPED ? "trapped" : "not trapped", out[BALCUMENTRI_HART_WORDS + 1],
           out[BALCUMENTRI_ACCESS_WORDS]);
}

static void access_in(const char *mode)
{
    printf("in %s:\n", mode);
    access_nothing("fetch", BALCUMENTRI_FETCH);
    access_nothing("load", BALCUMENTRI_LOAD);
    access_nothing("store", BALCUMENTRI_STORE);
}

int main(void)
{
    printf("reset %" PRIu64 "\n", balcumentri_reset(0, 3, 0, NULL, 0));
    balcumentri_reset(0, 3, 0, hart, BALCUMENTRI_HART_WORDS);

    TRY(passes, 1, );
    TRY(translate, BALCUMENTRI_TRANSLATION_WORDS, 0x1000, NULL, 0, BALCUMENTRI_LOAD, 0x1000, 4, );
    TRY(read, BALCUMENTRI_ACCESS_WORDS, 0x300, 0, );
    TRY(write, BALCUMENTRI_ACCESS_WORDS, 0x300, 0, 0, );
    TRY(set, BALCUMENTRI_ACCESS_WORDS, 0x300, 0, true, 0, );
    TRY(clear, BALCUMENTRI_ACCESS_WORDS, 0x300, 0, true, 0, );
    TRY(trap, BALCUMENTRI_STEP_WORDS, 3, 0, 0, 0, false, );
    TRY(ecall, BALCUMENTRI_STEP_WORDS, );
    TRY(ebreak, BALCUMENTRI_STEP_WORDS, );
    TRY(mret, BALCUMENTRI_STEP_WORDS, 0, );
    TRY(sret, BALCUMENTRI_STEP_WORDS, 0, );
    TRY(wfi, BALCUMENTRI_STEP_WORDS, 0, );
    TRY(sfence_vma, BALCUMENTRI_STEP_WORDS, 0, );
    TRY(hfence_vvma, BALCUMENTRI_STEP_WORDS, 0, );
    TRY(hfence_gvma, BALCUMENTRI_STEP_WORDS, 0, );
    TRY(interrupt, BALCUMENTRI_STEP_WORDS, );
    TRY(hlv, BALCUMENTRI_GUEST_WORDS, 0x1000, NULL, 0, 4, false, 0x1000, 0, );
    TRY(hlvx, BALCUMENTRI_GUEST_WORDS, 0x1000, NULL, 0, 4, 0x1000, 0, );
    TRY(hsv, BALCUMENTRI_GUEST_WORDS, 0x1000, NULL, 0, 4, 0x1000, 0, 0, );

    uint64_t written = 0;
    for (size_t i = 0; i < BALCUMENTRI_GUEST_WORDS; i++)
        written |= out[i];
    printf("written %" PRIu64 "\n", written);

    access_in("M");
    guest_access("hlv", balcumentri_hlv(hart, BALCUMENTRI_HART_WORDS, 0x1000, NULL, 0, 4, false, 0x1000, 0, out,
                                        BALCUMENTRI_GUEST_WORDS));
    guest_access("hlvx", balcumentri_hlvx(hart, BALCUMENTRI_HART_WORDS, 0x1000, NULL, 0, 4, 0x1000, 0, out,
                                          BALCUMENTRI_GUEST_WORDS));
    guest_access("hsv", balcumentri_hsv(hart, BALCUMENTRI_HART_WORDS, 0x1000, NULL, 0, 4, 0x1000, 0, 0, out,
                                        BALCUMENTRI_GUEST_WORDS));
    write_register(0x280, UINT64_C(0x8000000000000001)); /* vsatp */
    write_register(0x680, UINT64_C(0x8000000000000000)); /* hgatp */
    hart[0] = 1;                                         /* V */
    hart[1] = 1;                                         /* privilege: VS */
    access_in("VS");
    return 0;
}
