/*
 * A host in C: it powers a machine, lets its program draw on the display,
 * presses a key, and prints what the 32 segments of each common show and how
 * often the program went where no memory is.
 *
 *   segments [MASK]     MASK is a file of 4,096 bytes; without it, the one below
 */
#include <stdio.h>
#include <stdlib.h>
#include <string.h>

#include "ht1130_tools.h"

/* Waits for PM bit 0 to fall, with one picture before it and one after. */
static const uint8_t program[] = {
    0x60, 0x0E, /* 000  MOV R3R2,E0h   the display */
    0x50, 0x00, /* 002  MOV R1R0,00h   the table's low index */
    0x25,       /* 004  MOV A,R2 */
    0x05,       /* 005  MOV [R1R0],A */
    0x27,       /* 006  MOV A,R3 */
    0x42, 0x01, /* 007  AND A,1        0 for E0h-EFh, 1 for F0h-FFh */
    0x4D,       /* 009  READF R4A      the low nibble is the first picture */
    0x07,       /* 00A  MOV [R3R2],A */
    0x14,       /* 00B  INC R2 */
    0x25,       /* 00C  MOV A,R2 */
    0xB8, 0x04, /* 00D  JNZ A,004h */
    0x16,       /* 00F  INC R3 */
    0x27,       /* 010  MOV A,R3 */
    0xB8, 0x04, /* 011  JNZ A,004h */
    0x32,       /* 013  IN A,PM */
    0x80, 0x13, /* 014  JA0 013h       not pressed */
    0x60, 0x0E, /* 016  MOV R3R2,E0h */
    0x25,       /* 018  MOV A,R2 */
    0x05,       /* 019  MOV [R1R0],A */
    0x27,       /* 01A  MOV A,R3 */
    0x42, 0x01, /* 01B  AND A,1 */
    0x4D,       /* 01D  READF R4A      the high nibble is the second picture */
    0x29,       /* 01E  MOV A,R4 */
    0x07,       /* 01F  MOV [R3R2],A */
    0x14,       /* 020  INC R2 */
    0x25,       /* 021  MOV A,R2 */
    0xB8, 0x18, /* 022  JNZ A,018h */
    0x16,       /* 024  INC R3 */
    0x27,       /* 025  MOV A,R3 */
    0xB8, 0x18, /* 026  JNZ A,018h */
    0x75,       /* 028  MOV A,5 */
    0x30,       /* 029  OUT PA,A */
    0x45, 0x03, /* 02A  SOUND 3 */
    0xE0, 0x2C, /* 02C  JMP 02Ch */
};

static const char *const pictures[2][4] = {
    { "....#.#.###.##..##..###.###.....",
      "....###..#...#...#...##.#.#.....",
      "....#.#..#...#...#....#.#.#.....",
      "....#.#..#..###.###.###.###....." },
    { ".........#.#.###.#.#............",
      ".........##..##..#.#............",
      ".........##..#....#.............",
      ".........#.#.###..#............." },
};

static void build(uint8_t mask[HT1130_MASK])
{
    memset(mask, 0x3E, HT1130_MASK); /* NOP */
    memcpy(mask, program, sizeof program);
    for (int segment = 0; segment < 32; segment++) {
        uint8_t column = 0;
        for (int picture = 0; picture < 2; picture++)
            for (int common = 0; common < 4; common++)
                if (pictures[picture][common][segment] == '#')
                    column |= 1u << (4 * picture + common);
        mask[0xF00 + segment] = column;
    }
}

static void load(uint8_t mask[HT1130_MASK], const char *name)
{
    FILE *file = fopen(name, "rb");
    if (file == NULL) {
        perror(name);
        exit(2);
    }
    size_t length = fread(mask, 1, HT1130_MASK, file);
    if (length != HT1130_MASK || fgetc(file) != EOF) {
        fprintf(stderr, "%s: not %d bytes\n", name, HT1130_MASK);
        exit(2);
    }
    fclose(file);
}

static void accepted(const char *call, uint8_t refusal)
{
    if (refusal != 0) {
        fprintf(stderr, "%s: refused with %u\n", call, refusal);
        exit(1);
    }
}

static void run(ht1130_machine *machine, uint16_t steps, const uint8_t mask[HT1130_MASK])
{
    accepted("run", ht1130_apply(machine, HT1130_RUN, steps, 0, 0, 0, mask, HT1130_MASK));
}

static void print_display(const ht1130_machine *machine)
{
    uint8_t report[HT1130_REPORT];
    accepted("report", ht1130_report(machine, report, sizeof report));
    printf("PC %03X, %u cycles, fault %u, PA %X, sound %u\n", (unsigned)machine->control.pc,
           (unsigned)machine->cycles, machine->status.fault, machine->outputs.pa, machine->outputs.channel);
    for (int common = 0; common < 4; common++) {
        printf("COM%d  ", common);
        for (int segment = 0; segment < 32; segment++)
            putchar(report[16 + segment] >> common & 1 ? '#' : '.');
        putchar('\n');
    }
}

/* A mask that goes where no memory is works by luck. */
static void print_strays(const ht1130_machine *machine)
{
    uint64_t answer = ht1130_gap_count(machine);
    accepted("count", HT1130_REFUSAL(answer));
    printf("%u reads and writes at 80h-DFh\n", HT1130_COUNT(answer));
}

static void print_way(const uint8_t mask[HT1130_MASK])
{
    static uint8_t list[HT1130_WAY];
    uint64_t answer = ht1130_way(mask, HT1130_MASK, list, sizeof list);
    accepted("way", HT1130_REFUSAL(answer));
    for (size_t pair = 0; pair < HT1130_COUNT(answer); pair++) {
        const uint8_t *bytes = list + 3 * pair;
        printf("%03X level %u\n", bytes[0] | (unsigned)bytes[1] << 8, bytes[2]);
    }
}

static void print_verdict(const uint8_t mask[HT1130_MASK])
{
    uint8_t marks[HT1130_MASK];
    uint64_t answer = ht1130_check(mask, HT1130_MASK, marks, sizeof marks);
    accepted("check", HT1130_REFUSAL(answer));
    if (HT1130_FAULT(answer) == 0) {
        printf("mask passed\n");
        return;
    }
    printf("mask may fault with %u at %03X in level %u, by this way:\n", HT1130_FAULT(answer),
           (unsigned)HT1130_ADDRESS(answer), HT1130_LEVEL(answer));
    print_way(mask);
}

static void expect(uint8_t refusal, uint8_t expected)
{
    if (refusal != expected) {
        fprintf(stderr, "refused with %u instead of %u\n", refusal, expected);
        exit(1);
    }
    printf(" %u", refusal);
}

/* What the numbers 1 to 11 and 15 look like from here; nothing is written by any of these. */
static void print_refusals(const ht1130_machine *machine, const uint8_t mask[HT1130_MASK])
{
    static const uint8_t image[HT1130_IMAGE];
    static const uint8_t power[] = { 6, 0, 1, 0, 2, 4, 0, 0, 0, 0 };
    static const uint8_t cut_off[] = { 5, 0, 6 };
    static const uint8_t unknown[] = { 0, 0, 9, 0 };
    static const uint8_t passing[HT1130_MASK];                     /* RR A throughout */
    static const uint8_t failing[HT1130_MASK] = { 0xF0, 0x10 };    /* CALL 010H, then RR A: back to the CALL in level 1 */
    ht1130_machine copy = *machine;
    uint8_t reports[HT1130_REPORT];

    printf("refused");
    expect(ht1130_apply(&copy, HT1130_RUN, 1, 0, 0, 0, mask, HT1130_MASK - 1), 1);
    expect(ht1130_report(&copy, reports, sizeof reports - 1), 2);
    expect(ht1130_apply(&copy, HT1130_PINS, 0, 16, 0, 0, mask, HT1130_MASK), 3);
    expect(ht1130_power_on(&copy, 6, 4, 0, 0, 0, image, sizeof image), 4);
    copy.control.pc = 4096;
    expect(ht1130_apply(&copy, HT1130_RES, 0, 0, 0, 0, mask, HT1130_MASK), 5);
    expect(HT1130_REFUSAL(ht1130_run_script(mask, HT1130_MASK, cut_off, sizeof cut_off, reports, sizeof reports)), 6);
    expect(HT1130_REFUSAL(ht1130_run_script(mask, HT1130_MASK, unknown, sizeof unknown, reports, sizeof reports)), 7);
    expect(HT1130_REFUSAL(ht1130_run_script(mask, HT1130_MASK, power, 0, reports, sizeof reports)), 8);
    expect(HT1130_REFUSAL(ht1130_run_script(mask, HT1130_MASK, power, sizeof power, reports, sizeof reports - 1)), 9);
    expect(HT1130_REFUSAL(ht1130_way(passing, HT1130_MASK, reports, sizeof reports)), 10);
    expect(HT1130_REFUSAL(ht1130_way(failing, HT1130_MASK, reports, 2)), 11);
    expect(HT1130_REFUSAL(ht1130_bound(failing, HT1130_MASK, 8, 2)), 15);
    putchar('\n');
}

int main(int argc, char **argv)
{
    static uint8_t mask[HT1130_MASK];
    static const uint8_t image[HT1130_IMAGE]; /* registers and memory start at 0 */
    ht1130_machine machine;

    if (argc > 1)
        load(mask, argv[1]);
    else
        build(mask);
    print_verdict(mask);

    accepted("power-on", ht1130_power_on(&machine, 0, 4, 0, 0, 0, image, sizeof image));
    run(&machine, 1000, mask);
    print_display(&machine);

    accepted("key", ht1130_apply(&machine, HT1130_PINS, 0, 0xE, 0xF, 0xF, mask, HT1130_MASK));
    run(&machine, 1000, mask);
    printf("key pressed\n");
    print_display(&machine);
    print_strays(&machine);

    print_refusals(&machine, mask);
    return 0;
}
