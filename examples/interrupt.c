/* Takes an interrupt: the guest's timer, which the hypervisor hands down to it. Then the guest waits, and its WFI traps into the
 * hypervisor. Prints what each call came to and where the hart goes on, and the registers that the interrupt and the trap wrote:
 * the trap's value, in stval, is the word of the WFI.
 *
 *     rust/build library
 *     cc -std=c99 -Iinclude examples/interrupt.c target/staticlib/libexports.a -o interrupt
 */
#include <inttypes.h>
#include <stdio.h>
#include <string.h>

#include "balcumentri.h"

enum { WFI = 0x10500073 };

static uint64_t hart[BALCUMENTRI_HART_WORDS];
static uint64_t out[BALCUMENTRI_STEP_WORDS];

/* A stored register. */
static uint64_t *reg(uint64_t number)
{
    return hart + 3 + balcumentri_place(number);
}

/* Prints what a call came to, with these words where it was done, and where the hart goes on: the next hart, in the last one's
 * place. */
static int come_to(const char *done, uint64_t returned)
{
    if (returned != BALCUMENTRI_WRITTEN) {
        fprintf(stderr, "interrupt: a slice has a wrong length\n");
        return 1;
    }
    memcpy(hart, out, sizeof hart);
    uint64_t came_to = out[BALCUMENTRI_HART_WORDS], number = out[BALCUMENTRI_HART_WORDS + 1];
    if (came_to == BALCUMENTRI_INTERRUPTED)
        printf("interrupted %" PRIx64 "\n", number);
    else if (came_to == BALCUMENTRI_TRAPPED)
        printf("trapped %" PRIx64 "\n", number);
    else if (came_to == BALCUMENTRI_REFUSED)
        printf("refused %" PRIx64 "\n", number);
    else
        printf("%s\n", done);
    printf("V %" PRIx64 ", privilege %" PRIx64 ", pc %" PRIx64 "\n", hart[0], hart[1], hart[2]);
    return 0;
}

/* Takes the interrupt that is due, if one is. */
static int interrupt(void)
{
    return come_to("none is due", balcumentri_interrupt(hart, BALCUMENTRI_HART_WORDS, out, BALCUMENTRI_STEP_WORDS));
}

/* Waits for the next one. */
static int wait_for_it(void)
{
    return come_to("waited", balcumentri_wfi(hart, BALCUMENTRI_HART_WORDS, WFI, out, BALCUMENTRI_STEP_WORDS));
}

int main(void)
{
    balcumentri_reset(1, 0, 0x1000, hart, BALCUMENTRI_HART_WORDS); /* VU at 1000 */
    *reg(0x205) = 0x4001;                                          /* vstvec: vectored, from 4000 on */
    *reg(0x304) = 1 << 6;                                          /* mie: VS's timer */
    *reg(0x603) = 1 << 6;                                          /* hideleg: to VS */
    if (interrupt())
        return 1;
    *reg(0x344) = 1 << 6; /* mip */
    if (interrupt())
        return 1;
    printf("vscause %" PRIx64 ", vsepc %" PRIx64 "\n", *reg(0x242), *reg(0x241));

    *reg(0x600) |= 1 << 21; /* hstatus: VTW, so that WFI in VS is a virtual instruction */
    *reg(0x302) = 1 << 22;  /* medeleg: these, to HS */
    *reg(0x105) = 0x2000;   /* stvec */
    if (wait_for_it())
        return 1;
    printf("scause %" PRIx64 ", sepc %" PRIx64 ", stval %" PRIx64 "\n", *reg(0x142), *reg(0x141), *reg(0x143));
    return 0;
}
