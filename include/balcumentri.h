/* Balcumentri: a RISC-V hart with the hypervisor extension, as a proved library.
 *
 * Link with target/staticlib/libexports.a, which `rust/build library` makes. The library keeps no state and allocates nothing.
 *
 * A slice is a pointer and the number of its words (or bytes). Where the number is 0 nothing is read or written through the
 * pointer, which may be null. The slices of one call do not overlap. The image's bytes are written by balcumentri_hsv alone.
 *
 * What a call with slices returns:
 *   BALCUMENTRI_WRITTEN       the result is in out
 *   BALCUMENTRI_WRONG_LENGTH  a slice has a wrong length; nothing is written
 *   BALCUMENTRI_WRONG_KIND    (a translation's alone) no kind of access has that number; nothing is written
 *
 * A hart, 34 words:
 *   0  V            1  privilege: 0 U, 1 S, 3 M            2  pc
 *   3 + place       the register kept at a place, 0 to 30, in this order: stvec sscratch sepc scause stval satp; vsstatus and the
 *                   same six of VS; mstatus medeleg mideleg mie mtvec mscratch mepc mcause mtval mip mtinst mtval2; hstatus hedeleg
 *                   hideleg htval htinst hgatp. The views are not kept: sstatus, of mstatus; sie, hie and vsie, of mie; sip, hip,
 *                   hvip and vsip, of mip. Nor are the constants hgeie and hgeip.
 *
 * An event's result, 36 words:
 *   0 to 33   the next hart
 *   34        what the event came to: 0 done, 1 trapped, 2 refused, 3 interrupted
 *   35        0, the trap's cause, the refusal's number, the interrupt's number: that of its bit in mip
 *
 * A register access's result, 37 words: the same, and
 *   36        the value answered, 0 where the access trapped or was refused
 *
 * A translation's result, 147 words (the hart stays as it is):
 *   0         0 an address, 1 a fault, 2 refused
 *   1         the address, the fault's cause, the refusal's number. A fault's cause is its kind's own: 1, 12, 20 of a fetch, 4, 5, 13, 21
 *             of a load, 6, 7, 15, 23 of a store
 *   2 to 5    the fault's value, second value, instruction word and guest-address flag, else 0. The word is 3000 (hex) where the second
 *             stage failed on the way to an entry of the guest's own tables, whose guest physical address the second value has
 *   6         how many entries were read
 *   7 to 146  thirty-five places of four words, in the order of the reads: stage (1 first, 2 second), level (at the root 2, 3 or 4 where
 *             MODE is 8, 9 or 10), machine address, value; unused places are 0
 *
 * A hypervisor load's or store's result, 178 words: an event's, and
 *   36        the value loaded, extended to 64 bits; 0 of a store, and where the event trapped or was refused
 *   37        how many entries were read
 *   38 to 177 thirty-five places of four words, as a translation's
 *
 * A register access, a return, WFI, a fence and a hypervisor load or store take the word of their instruction: its 32 bits, as they
 * were recorded. Where the event traps with cause 2 or 22 the trap's value is the word, zero-extended: mtval, stval or vstval holds
 * it then. Else the word is not looked at. It need not fit the event, since nothing decodes it. (A trap request's word is what
 * mtinst or htinst takes.)
 */
#ifndef BALCUMENTRI_H
#define BALCUMENTRI_H

#include <stdbool.h>
#include <stddef.h>
#include <stdint.h>

#ifdef __cplusplus
extern "C" {
#endif

#define BALCUMENTRI_WRITTEN 0
#define BALCUMENTRI_WRONG_LENGTH 1
#define BALCUMENTRI_WRONG_KIND 2

#define BALCUMENTRI_HART_WORDS 34
#define BALCUMENTRI_STEP_WORDS 36
#define BALCUMENTRI_ACCESS_WORDS 37
#define BALCUMENTRI_TRANSLATION_WORDS 147
#define BALCUMENTRI_GUEST_WORDS 178
/* How many places the list of reads has: as many as five levels over five can fill. */
#define BALCUMENTRI_PLACES 35

/* What an event or a translation came to. */
#define BALCUMENTRI_DONE 0
#define BALCUMENTRI_TRAPPED 1
#define BALCUMENTRI_ADDRESS 0
#define BALCUMENTRI_FAULT 1
#define BALCUMENTRI_REFUSED 2
#define BALCUMENTRI_INTERRUPTED 3

#define BALCUMENTRI_FETCH 0
#define BALCUMENTRI_LOAD 1
#define BALCUMENTRI_STORE 2

/* What the two lookups answer where a hart keeps no such register. */
#define BALCUMENTRI_NO_PLACE 31
#define BALCUMENTRI_NO_NUMBER 4096

/* A hart with this V, privilege and pc, whatever they are, whose registers hold what a write of 0 leaves. out: 34 words. */
uint64_t balcumentri_reset(uint64_t v, uint64_t privilege, uint64_t pc, uint64_t *out, size_t out_words);

/* Check 2: out[0] is 1 where the hart can be one, else 0. out: 1 word. */
uint64_t balcumentri_passes(const uint64_t *hart, size_t hart_words, uint64_t *out, size_t out_words);

/* The translation of an access over an image: bytes from the machine address base on. out: 147 words. */
uint64_t balcumentri_translate(const uint64_t *hart, size_t hart_words, uint64_t base, const uint8_t *bytes, size_t length,
                               uint64_t kind, uint64_t address, uint64_t width, uint64_t *out, size_t out_words);

/* The hypervisor loads and stores HLV, HLVX and HSV of 1, 2, 4 or 8 bytes (HLVX: 2 or 4) over an image, at a guest's virtual
 * address: translated as V=1 with privilege hstatus.SPVP. A fault is delivered as a trap of the hart's own mode. HLV sign-extends
 * what it loads where its flag says so, HLVX never does. HSV stores the low bytes of the value into the image, little-endian, where
 * it is done; else the image stays as it is. out: 178 words. */
uint64_t balcumentri_hlv(const uint64_t *hart, size_t hart_words, uint64_t base, const uint8_t *bytes, size_t length,
                         uint64_t width, bool is_signed, uint64_t address, uint32_t word, uint64_t *out, size_t out_words);
uint64_t balcumentri_hlvx(const uint64_t *hart, size_t hart_words, uint64_t base, const uint8_t *bytes, size_t length,
                          uint64_t width, uint64_t address, uint32_t word, uint64_t *out, size_t out_words);
uint64_t balcumentri_hsv(const uint64_t *hart, size_t hart_words, uint64_t base, uint8_t *bytes, size_t length, uint64_t width,
                         uint64_t address, uint64_t value, uint32_t word, uint64_t *out, size_t out_words);

/* Register access by number. A set or a clear writes where its flag says so. out: 37 words. */
uint64_t balcumentri_read(const uint64_t *hart, size_t hart_words, uint64_t number, uint32_t word, uint64_t *out,
                          size_t out_words);
uint64_t balcumentri_write(const uint64_t *hart, size_t hart_words, uint64_t number, uint64_t value, uint32_t word,
                           uint64_t *out, size_t out_words);
uint64_t balcumentri_set(const uint64_t *hart, size_t hart_words, uint64_t number, uint64_t value, bool writes, uint32_t word,
                         uint64_t *out, size_t out_words);
uint64_t balcumentri_clear(const uint64_t *hart, size_t hart_words, uint64_t number, uint64_t value, bool writes,
                           uint32_t word, uint64_t *out, size_t out_words);

/* A trap request: a fault that a translation answered, or another cause. out: 36 words. */
uint64_t balcumentri_trap(const uint64_t *hart, size_t hart_words, uint64_t cause, uint64_t value, uint64_t second,
                          uint64_t word, bool flag, uint64_t *out, size_t out_words);

/* The instructions ECALL, EBREAK, MRET, SRET, WFI, SFENCE.VMA, HFENCE.VVMA and HFENCE.GVMA. out: 36 words. */
uint64_t balcumentri_ecall(const uint64_t *hart, size_t hart_words, uint64_t *out, size_t out_words);
uint64_t balcumentri_ebreak(const uint64_t *hart, size_t hart_words, uint64_t *out, size_t out_words);
uint64_t balcumentri_mret(const uint64_t *hart, size_t hart_words, uint32_t word, uint64_t *out, size_t out_words);
uint64_t balcumentri_sret(const uint64_t *hart, size_t hart_words, uint32_t word, uint64_t *out, size_t out_words);
uint64_t balcumentri_wfi(const uint64_t *hart, size_t hart_words, uint32_t word, uint64_t *out, size_t out_words);
uint64_t balcumentri_sfence_vma(const uint64_t *hart, size_t hart_words, uint32_t word, uint64_t *out, size_t out_words);
uint64_t balcumentri_hfence_vvma(const uint64_t *hart, size_t hart_words, uint32_t word, uint64_t *out, size_t out_words);
uint64_t balcumentri_hfence_gvma(const uint64_t *hart, size_t hart_words, uint32_t word, uint64_t *out, size_t out_words);

/* Takes the interrupt that is due: interrupted; where none is, done, and the hart is as it was. out: 36 words. */
uint64_t balcumentri_interrupt(const uint64_t *hart, size_t hart_words, uint64_t *out, size_t out_words);

/* The place of the register that a hart keeps with a number, and the number of the register at a place. */
uint64_t balcumentri_place(uint64_t number);
uint64_t balcumentri_number(uint64_t place);

#ifdef __cplusplus
}
#endif

#endif
