/*
 * ht1130.h - the proved HT1130 engine, for C: what a board links. A bench also
 * takes ht1130_tools.h: the mask checker, scripts, instructions, the assembler,
 * readings.
 *
 * Link with libht1130.a, which `tools/staticlibs` writes (x86-64). Nothing
 * here allocates, blocks, keeps state of its own or calls back: a call works on
 * the memory that it is lent and returns.
 *
 * Pointers. Each is valid for its length for the whole call and not NULL, also
 * where the length is 0 (pass any object's address then). What a call may write
 * (no `const`) overlaps nothing else that it is lent. Calls on different memory
 * may run at the same time.
 *
 * Stack. A call takes under 4 KB. Of the C library only memcpy and memset are
 * used.
 *
 * Refusals. Bad input is refused before anything happens: the machine record
 * and every lent buffer are then as they were. The lowest number that holds is
 * answered.
 *   1 mask not HT1130_MASK bytes
 *   2 image or report buffer not HT1130_IMAGE, HT1130_REPORT bytes
 *   3 nibble other than an option over 15, INT over 1
 *   4 option outside its list, wake nibbles too
 *   5 machine field outside its range, or halted with a fault
 *   7 unknown kind
 */
#ifndef HT1130_H
#define HT1130_H

#include <stddef.h>
#include <stdint.h>

#ifdef __cplusplus
extern "C" {
#endif

enum { HT1130_MASK = 4096, HT1130_IMAGE = 166, HT1130_REPORT = 48 };

/* outputs.channel when sound is off; options.rate for the external clock. */
enum { HT1130_CHANNEL_OFF = 16, HT1130_RATE_EXTERNAL = 255 };

/*
 * The machine record: 204 bytes, 4-byte aligned. Bytes 15, 19, 34, 35, 202 and
 * 203 are padding of no defined value: compare fields, not bytes. A host may read
 * and write any field; a call refuses what is out of range with 5. The offset of
 * each part stands beside it.
 */
typedef struct ht1130_machine {
    struct { uint8_t acc, r0, r1, r2, r3, r4; } registers;    /*  0  nibbles */
    struct { uint16_t pc; uint8_t cf, tf; } control;          /*  6  0-4095; 0, 1; 0, 1 */
    struct { uint8_t count, running; } timer;                 /* 10  0-255; 0, 1 */
    struct { uint8_t enabled, held, level; } interrupts;      /* 12  0, 1; 0, 1; 0 main, 1 subroutine, 2 interrupt */
    struct { uint16_t address; uint8_t carry; } stack;        /* 16  0-4095; 0, 1 */
    struct { uint8_t halted, fault; } status;                 /* 20  0, 1; 0-3 */
    struct { uint8_t pa, channel, mode; } outputs;            /* 22  nibble; 0-15, 16 off; 0 once, 1 loop */
    struct { uint8_t pm, ps, pp, intr; } pins;                /* 25  nibbles; INT 0, 1 */
    struct { uint8_t rate, commons, pm, ps, pp; } options;    /* 29  0-13 but 6, 255 external; 3, 4; wake nibbles of the ports */
    uint32_t cycles;                                          /* 36  goes on past its largest value to 0 */
    uint8_t memory[160];                                      /* 40  data memory 00h-7Fh, then E0h-FFh, nibbles */
    uint16_t gap;                                             /* 200 strays: see ht1130_gap_count; any value is in range */
} ht1130_machine;

/*
 * Power-on: options, and an image of 166 nibbles: ACC, R0-R4, memory. What the
 * record held before does not matter. Returns 0, or refuses with 2, 3 or 4.
 */
uint8_t ht1130_power_on(ht1130_machine *machine, uint8_t rate, uint8_t commons, uint8_t wake_pm,
                        uint8_t wake_ps, uint8_t wake_pp, const uint8_t *image, size_t image_len);

/* The kinds of event that ht1130_apply takes. */
enum { HT1130_RUN = 2, HT1130_PINS = 3, HT1130_INT = 4, HT1130_TMCLK = 5, HT1130_RES = 6 };

/*
 * An event. RUN takes at most `count` steps of the mask, fewer when it halts or
 * faults; PINS sets PM, PS, PP to a, b, c; INT sets the pin to a; TMCLK counts
 * `count` rising edges on a running timer with the external clock, halted or
 * not, and wakes nothing; RES resets. What a kind does not name is not looked
 * at, the mask included. Returns 0, or refuses with 1, 3, 5, or 7 for another
 * kind, 1 included (5 goes before 7): power-on is ht1130_power_on.
 */
uint8_t ht1130_apply(ht1130_machine *machine, uint16_t kind, uint16_t count, uint8_t a, uint8_t b,
                     uint8_t c, const uint8_t *mask, size_t mask_len);

/*
 * Writes the report: 44, 0, 16, 0, PC (2 bytes), cycle count (4), level,
 * halted, fault, PA, sound channel, sound mode, and 32 display nibbles, bit c
 * of nibble s being segment s at common c. Numbers are little-endian. Returns
 * 0, or refuses with 2 or 5.
 */
uint8_t ht1130_report(const ht1130_machine *machine, uint8_t *out, size_t out_len);

/* An answer of eight bytes is taken apart by these; ht1130_tools.h has more. */
#define HT1130_REFUSAL(answer) ((uint8_t)(answer))             /* 0, or the refusal */
#define HT1130_COUNT(answer) ((uint16_t)((answer) >> 32))      /* ht1130_gap_count, ht1130_way; 0 where it is refused */

/*
 * How often the mask touched data memory that is not there: reads and writes at
 * 80h-DFh since the last power-on, 65,535 for more. An instruction that reads and
 * writes counts two, one that faults none, nor does a refused Run; RES keeps the
 * count. Example: a machine powered on with R1 8 and all else 0 has counted 3
 * after MOV A,[R1R0] and INC [R1R0]. Refuses with 5.
 */
uint64_t ht1130_gap_count(const ht1130_machine *machine);

#ifdef __cplusplus
}
#endif

#endif
