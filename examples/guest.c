/* A hypervisor in HS reads and writes its guest's memory through two stages: it stores with HSV, loads that back with HLV, with its
 * sign and without, and with HLVX, and then loads where the guest has no page. Prints what each call came to, the entries read for
 * the first and the last, the bytes stored, and the registers that the fault wrote.
 *
 *     rust/build library
 *     cc -std=c99 -Iinclude examples/guest.c target/staticlib/libexports.a -o guest
 */
#include <inttypes.h>
#include <stdio.h>
#include <string.h>

#include "balcumentri.h"

enum { BASE = 0x80000000, LENGTH = 0x6000 };
enum { HSV_H = 0x66b54073, HLV_H = 0x64054573, HLV_HU = 0x64154573, HLVX_HU = 0x64354573, HLV_D = 0x6c054573 };

static uint8_t image[LENGTH];
static uint64_t hart[BALCUMENTRI_HART_WORDS];
static uint64_t out[BALCUMENTRI_GUEST_WORDS];

/* Eight bytes, little-endian, at a machine address. */
static void put(uint64_t address, uint64_t value)
{
    for (int i = 0; i < 8; i++)
        image[address - BASE + (uint64_t)i] = (uint8_t)(value >> (8 * i));
}

/* A stored register. */
static uint64_t *reg(uint64_t number)
{
    return hart + 3 + balcumentri_place(number);
}

/* Prints what a call came to, with the value that it answered, and puts the next hart in the last one's place. */
static int come_to(const char *name, uint64_t returned)
{
    if (returned != BALCUMENTRI_WRITTEN) {
        fprintf(stderr, "guest: a slice has a wrong length\n");
        return 1;
    }
    memcpy(hart, out, sizeof hart);
    uint64_t came_to = out[BALCUMENTRI_HART_WORDS], number = out[BALCUMENTRI_HART_WORDS + 1];
    if (came_to == BALCUMENTRI_DONE)
        printf("%s: done, value %" PRIx64, name, out[BALCUMENTRI_STEP_WORDS]);
    else
        printf("%s: %s %" PRIx64, name, came_to == BALCUMENTRI_TRAPPED ? "trapped" : "refused", number);
    printf(", pc %" PRIx64 "\n", hart[2]);
    return 0;
}

/* Prints the entries read. */
static void list(void)
{
    for (uint64_t i = 0; i < out[BALCUMENTRI_ACCESS_WORDS]; i++) {
        const uint64_t *read = out + BALCUMENTRI_ACCESS_WORDS + 1 + 4 * i;
        printf("read %" PRIx64 " %" PRIx64 " %" PRIx64 " %" PRIx64 "\n", read[0], read[1], read[2], read[3]);
    }
}

static int load(const char *name, uint64_t width, bool is_signed, uint64_t address, uint32_t word)
{
    return come_to(name, balcumentri_hlv(hart, BALCUMENTRI_HART_WORDS, BASE, image, LENGTH, width, is_signed, address, word,
                                         out, BALCUMENTRI_GUEST_WORDS));
}

static int load_executable(const char *name, uint64_t width, uint64_t address, uint32_t word)
{
    return come_to(name, balcumentri_hlvx(hart, BALCUMENTRI_HART_WORDS, BASE, image, LENGTH, width, address, word, out,
                                          BALCUMENTRI_GUEST_WORDS));
}

static int store(const char *name, uint64_t width, uint64_t address, uint64_t value, uint32_t word)
{
    return come_to(name, balcumentri_hsv(hart, BALCUMENTRI_HART_WORDS, BASE, image, LENGTH, width, address, value, word, out,
                                         BALCUMENTRI_GUEST_WORDS));
}

int main(void)
{
    put(0x80000028, 0x200000df); /* hgatp's root: a leaf, guest physical 140000000 is machine address 80000000, 1 GiB */
    put(0x80004008, 0x500000cf); /* vsatp's root: a leaf, virtual 40000000 is guest physical 140000000, 1 GiB */

    balcumentri_reset(0, 1, 0x1000, hart, BALCUMENTRI_HART_WORDS); /* HS at 1000 */
    *reg(0x280) = UINT64_C(0x8000000000140004);                    /* vsatp: Sv39, root at guest physical 140004000 */
    *reg(0x680) = UINT64_C(0x8000000000080000);                    /* hgatp: Sv39x4, root at 80000000 */
    *reg(0x600) |= 1 << 8;                                         /* hstatus: SPVP, as the guest's supervisor */
    *reg(0x302) = 1 << 13;                                         /* medeleg: load page faults, to HS */
    *reg(0x105) = 0x2000;                                          /* stvec */

    if (store("HSV.H", 2, 0x40005002, 0x1234fffe, HSV_H))
        return 1;
    list();
    printf("stored %x %x %x %x\n", image[0x5001], image[0x5002], image[0x5003], image[0x5004]);
    if (load("HLV.H", 2, true, 0x40005002, HLV_H) || load("HLV.HU", 2, false, 0x40005002, HLV_HU))
        return 1;
    if (load_executable("HLVX.HU", 2, 0x40005002, HLVX_HU))
        return 1;
    if (load("HLV.D", 8, true, 0x80005000, HLV_D))
        return 1;
    list();
    printf("scause %" PRIx64 ", sepc %" PRIx64 ", stval %" PRIx64 "\n", *reg(0x142), *reg(0x141), *reg(0x143));
    return 0;
}
