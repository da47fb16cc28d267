/*
 * ht1130_tools.h - the proved mask checker with the way to a forbidden place and
 * the bound on how long an edge is held, scripts, instructions, the assembler and
 * the reading on the panel of the HT1130, for C: what a bench links beside the
 * engine of ht1130.h.
 *
 * Link with libht1130_tools.a, which `tools/staticlibs` writes (x86-64),
 * beside libht1130.a or alone: neither archive needs the other. What ht1130.h
 * says of pointers and refusals holds here too.
 *
 * Stack. ht1130_check and ht1130_way take about 62 KB each, ht1130_assemble about
 * 140 KB, ht1130_bound 74 KB and 64 bytes for each pair of the longest chain that
 * it follows, at most 337 KB; the other calls under 4 KB. Of the C library only
 * memcpy and memset are used.
 *
 * Refusals. The lowest number that holds is answered; of a script 1, then 6 or 7
 * of the first bad record, then 8, 3, 4, 9; of a text 2, 12, 14, then 13.
 *   1 mask not HT1130_MASK bytes
 *   2 marks or assembled mask not HT1130_MASK bytes, picture not HT1130_PICTURE
 *   3 nibble other than an option over 15, INT over 1; instruction field outside
 *     its pattern
 *   4 option outside its list, wake nibbles too
 *   5 address over 4,095, level over 2; machine field outside its range, or halted
 *     with a fault
 *   6 script over HT1130_SCRIPT bytes, record cut off, payload length wrong
 *   7 unknown kind
 *   8 first record not power-on, or no record
 *   9 report buffer under HT1130_REPORT bytes for each record
 *  10 the mask passes: there is no way to list
 *  11 list under three bytes for each pair of the way
 *  12 line of a text that cannot be read, or text over HT1130_TEXT bytes
 *  13 ORG outside 0 to 4,095, byte past address 4,095 or written twice; after
 *     these, operand outside its field, or conditional branch that does not fit
 *  14 label missing, not above its ORG, or defined again
 *  15 the mask fails: it has no bounds
 *  16 picture that shows no reading; reading that does not fit the glass
 */
#ifndef HT1130_TOOLS_H
#define HT1130_TOOLS_H

#include "ht1130.h"

#ifdef __cplusplus
extern "C" {
#endif

enum { HT1130_SCRIPT = 65535, HT1130_WAY = 36864, HT1130_TEXT = 65535, HT1130_PICTURE = 8 };

/*
 * The answers are a number of eight bytes, taken apart by HT1130_REFUSAL and
 * HT1130_COUNT of ht1130.h and by these. Where there is a refusal, all else is 0
 * but the offset, line or digit.
 */
#define HT1130_FAULT(answer) ((uint8_t)((answer) >> 8))        /* ht1130_check, ht1130_read */
#define HT1130_LEVEL(answer) ((uint8_t)((answer) >> 16))       /* ht1130_check */
#define HT1130_ADDRESS(answer) ((uint16_t)((answer) >> 32))    /* ht1130_check */
#define HT1130_OFFSET(answer) ((uint16_t)((answer) >> 32))     /* ht1130_check_script, ht1130_run_script */
#define HT1130_LINE(answer) ((uint32_t)((answer) >> 32))       /* ht1130_assemble */

/*
 * Checks a mask and writes its 4,096 mark bytes: 1 the code at this address may
 * run in level 0, 2 in level 1, 4 in level 2, added. The answer is 0 where the
 * mask passed: from a power-on that is accepted, no list of events faults in
 * which each Run has this mask. (A record that no power-on made, or a Run of
 * another mask, may fault.) Else it has the fault, address and level of the
 * lowest pair that may; such a mask need not fault, since every branch is taken
 * both ways and an enabled interrupt at any time. Refuses with 1 or 2.
 */
uint64_t ht1130_check(const uint8_t *mask, size_t mask_len, uint8_t *marks, size_t marks_len);

/*
 * Lists a way to the pair that ht1130_check names: a chain from address 0, level
 * 0, each pair after the first a successor of the one before, the last the pair
 * with the fault. No such chain has fewer pairs; which of several is free. Three
 * bytes a pair from the first byte of `list` on: address, low byte first, then
 * level. Bytes after the last pair stay. The answer has the count of pairs.
 * Refuses with 1, 10 or 11, and then writes nothing; HT1130_WAY bytes, three for
 * each of the 12,288 pairs, are never too few.
 */
uint64_t ht1130_way(const uint8_t *mask, size_t mask_len, uint8_t *list, size_t list_len);

/*
 * How long an edge can be held, for a pair of a mask that passes. In a subroutine
 * or an interrupt (level 1, 2) an edge is held; in level 0 it can be taken.
 *   HT1130_NOT_REACHED  the pair is not marked, or it is in level 0
 *   HT1130_NO_BOUND     a loop or a HALT can be reached in that level
 *   HT1130_BOUNDED      no chain from the pair to a return has more cycles than
 *                       HT1130_WAIT, the RET or RETI included, and one has as many
 * A machine at a bounded pair, not halted or faulted, has come to level 0 once its
 * steps have spent that many cycles, under any events but RES and power-on, each
 * Run with this mask. An edge that is held then, with interrupts enabled, is taken
 * by the next step.
 * Example: EI, JMP 001H at 0, RETI at 4, and INC R4, RETI at 8 are bounded by 1 at
 * address 4, by 2 at 8 and by 1 at 9, all in level 2; no other pair is reached
 * above level 0. Refuses with 1, 5 or 15.
 */
uint64_t ht1130_bound(const uint8_t *mask, size_t mask_len, uint16_t address, uint8_t level);
enum { HT1130_NOT_REACHED, HT1130_NO_BOUND, HT1130_BOUNDED };
#define HT1130_BOUND(answer) ((uint8_t)((answer) >> 8))        /* one of these three, where nothing is refused */
#define HT1130_WAIT(answer) ((uint32_t)((answer) >> 32))       /* the cycles where it is HT1130_BOUNDED, else 0 */

/*
 * Checks a whole script for a report buffer of `room` bytes; runs nothing. The
 * answer is 0, or the refusal (1, 3, 4, 6 to 9) with the offset of its record,
 * which is 0 for 1, 8, 9 and a script over 65,535 bytes.
 */
uint64_t ht1130_check_script(const uint8_t *mask, size_t mask_len, const uint8_t *script,
                             size_t script_len, size_t room);

/*
 * The same check for out_len bytes, then the script: a report of 48 bytes for
 * each of its records, from the first byte of `out` on. Bytes after the last
 * report stay. A refused script writes nothing.
 */
uint64_t ht1130_run_script(const uint8_t *mask, size_t mask_len, const uint8_t *script,
                           size_t script_len, uint8_t *out, size_t out_len);

/*
 * The instruction at an address. Refuses with 1 or 5; fault 1 where the bytes
 * read as none, and then all else is 0. Else a form and its operands, as in the
 * list below, its length in bytes and its cycles.
 */
uint64_t ht1130_read(const uint8_t *mask, size_t mask_len, uint16_t address);
#define HT1130_FORM(answer) ((uint8_t)((answer) >> 16))
#define HT1130_A(answer) ((uint8_t)((answer) >> 24))
#define HT1130_B(answer) ((uint16_t)((answer) >> 32))
#define HT1130_LENGTH(answer) ((uint8_t)((answer) >> 48))
#define HT1130_CYCLES(answer) ((uint8_t)((answer) >> 56))

/*
 * The bytes of an instruction: how many, the first and the second. Refuses with
 * 3 a form that is not in the list, or an operand outside its range. Operands
 * that a form does not have are not looked at, and read back as 0.
 */
uint64_t ht1130_write(uint8_t form, uint8_t a, uint16_t b);
#define HT1130_BYTES(answer) ((uint8_t)((answer) >> 8))
#define HT1130_FIRST(answer) ((uint8_t)((answer) >> 16))
#define HT1130_SECOND(answer) ((uint8_t)((answer) >> 24))

/*
 * The forms: the lines of the data sheet's instruction summary, in its order. M
 * is the memory at R1R0. Operands: X a nibble, N a register 0-4, XX a byte, all
 * in a; PAIR (0 R1R0, 1 R3R2), PORT (0 PM, 1 PS, 2 PP), PAGE (0 the current, 1
 * page 15) in a; a target in b.
 */
enum {
    HT1130_ADD_A_M, HT1130_ADC_A_M, HT1130_SUB_A_M, HT1130_SBC_A_M,
    HT1130_ADD_A_X, HT1130_SUB_A_X, HT1130_DAA,
    HT1130_AND_A_M, HT1130_OR_A_M, HT1130_XOR_A_M,
    HT1130_AND_M_A, HT1130_OR_M_A, HT1130_XOR_M_A,
    HT1130_AND_A_X, HT1130_OR_A_X, HT1130_XOR_A_X,
    HT1130_INC_A, HT1130_INC_RN, HT1130_INC_PAIR,
    HT1130_DEC_A, HT1130_DEC_RN, HT1130_DEC_PAIR,
    HT1130_MOV_A_RN, HT1130_MOV_RN_A, HT1130_MOV_A_PAIR, HT1130_MOV_PAIR_A,
    HT1130_MOV_A_X, HT1130_MOV_PAIR_XX /* PAIR in a, XX in b: 16 * R1 + R0, or R3 and R2 */, HT1130_MOV_R4_X,
    HT1130_RL_A, HT1130_RLC_A, HT1130_RR_A, HT1130_RRC_A,
    HT1130_IN_A_PORT, HT1130_OUT_PA_A,
    HT1130_JMP /* b 0-4095 */, HT1130_BRANCH /* b 0-2047; a as below */, HT1130_CALL /* b 0-4095 */,
    HT1130_RET, HT1130_RETI,
    HT1130_CLC, HT1130_STC, HT1130_EI, HT1130_DI, HT1130_NOP,
    HT1130_TIMER_XX, HT1130_TIMER_ON, HT1130_TIMER_OFF,
    HT1130_MOV_A_TMRL, HT1130_MOV_A_TMRH, HT1130_MOV_TMRL_A, HT1130_MOV_TMRH_A,
    HT1130_READ_R4A_PAGE, HT1130_READ_MR0A_PAGE,
    HT1130_SOUND_X, HT1130_SOUND_A, HT1130_SOUND_ONE, HT1130_SOUND_LOOP, HT1130_SOUND_OFF,
    HT1130_HALT
};

/* What a branch tests, in a: its code's five leading bits less 16. */
enum {
    HT1130_JA0, HT1130_JA1, HT1130_JA2, HT1130_JA3, HT1130_JNZ_R0, HT1130_JNZ_R1, HT1130_JZ_A, HT1130_JNZ_A,
    HT1130_JC, HT1130_JNC, HT1130_JTMR, HT1130_JNZ_R4
};

/*
 * Assembles a text into HT1130_MASK bytes: each line's at its address, 3Eh
 * elsewhere. The answer is then 0. Else it has the refusal (2, 12, 13 or 14) and
 * the first such line, counted from 1 (0 for 2, 1 for a text that is too long),
 * and `out` is as it was.
 *
 * Lines end in LF, which the last may lack; the first address is 0. A line is
 * blank, or `LABEL:` or none and then a line of the data sheet's instruction
 * summary or `ORG operand`. Letters are upper case, spaces free, one at least
 * between two words. A label is a letter, then letters or digits, and no word of
 * the summary (such as MOV, A, LOOP) nor ORG; on an ORG line it has the new
 * address. An operand is a number up to 65,535 (decimal, or hexadecimal ending in
 * H; it starts with a digit), a label, or sums and differences of operands, with
 * parentheses up to 16 deep. A conditional branch fits where its target has the
 * bit 11 of the address after it.
 */
uint64_t ht1130_assemble(const uint8_t *text, size_t text_len, uint8_t *out, size_t out_len);

/*
 * What an operator reads on a glass of four digits. A picture is eight nibbles:
 * digit k, leftmost 0, has the segments a, b, c, d in bits 0 to 3 of nibble 2k; e,
 * f, g in bits 0 to 2 of nibble 2k + 1, and the point after the digit in bit 3.
 *
 *   0 abcdef   1 bc       2 abdeg   3 abcdg     4 bcfg
 *   5 acdfg    6 acdefg   7 abc     8 abcdefg   9 abcdfg
 *
 * A picture shows blanks (or none), then a minus, g alone (or none), then digits
 * to the right end; at most one of these digits has its point lit. Zeros may
 * lead, and the point may be on the last digit. All blank is dark.
 *
 * The answer has HT1130_DARK 1 for dark, and then value and places 0; else the
 * digits as a signed whole number, minus zero as 0, and the count of them after
 * the point: -0.50 is the value -50 with 2 places (examples/readings.c prints it
 * as a person writes it). Refuses with 2, 3, or 16 and the leftmost digit k such
 * that no valid picture has the digits 0 to k of this one: after a digit or a
 * minus a blank is refused, at the right end a minus.
 */
uint64_t ht1130_glass_read(const uint8_t *picture, size_t len);
#define HT1130_DIGIT(answer) ((uint8_t)((answer) >> 8))        /* 0 to 3 where a picture is refused with 16, else 0 */
#define HT1130_DARK(answer) ((uint8_t)((answer) >> 16))        /* 0, 1 */
#define HT1130_PLACES(answer) ((uint8_t)((answer) >> 24))      /* 0 to 3 */
#define HT1130_VALUE(answer) ((int32_t)((answer) >> 32))       /* -999 to 9,999 */

/*
 * Draws a reading: `dark` other than 0 is dark, all blank, and then value and
 * places are not looked at. A number stands at the right with its minus before it
 * and the fewest digits: at least one, and one at least before a point, which is
 * lit where places is not 0. The answer is then 0, and the picture reads back as
 * this reading. Refuses with 2, or 16 (digit 0) where there are not digits enough:
 * 9999 and -999 are drawn, -1000 and 0.0001 are not. The picture is then as it was.
 */
uint64_t ht1130_glass_draw(uint8_t dark, int32_t value, uint8_t places, uint8_t *picture, size_t len);

/*
 * What an operator reads of a machine: display nibbles 0 to 7 (E0h-E7h) as a
 * report shows them, so that a halted machine is dark, and on three commons d and
 * the point are never lit: of the digits only 1, 4 and 7 can be read there.
 * Answers as ht1130_glass_read. Refuses with 5 or 16. Of a report that a host has,
 * ht1130_glass_read(report + 16, HT1130_PICTURE) answers the same.
 */
uint64_t ht1130_reading(const ht1130_machine *machine);

#ifdef __cplusplus
}
#endif

#endif
