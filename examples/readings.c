/*
 * A bench in C: it draws readings into a mask's table, runs the mask, which shows
 * the next of them each time that a key goes up, and logs what an operator reads
 * after each event.
 *
 *   readings [MASK]     MASK is a file of 4,096 bytes; without it, the one below
 */
#include <stdio.h>
#include <stdlib.h>
#include <string.h>

#include "ht1130_tools.h"

enum { TABLE = 0xF00, PICTURES = 4 };

/* Copies a picture from the table to the display at each press; asleep after the last. */
static const char program[] =
    "SHOW:    MOV R3R2,0E0H\n"
    "DIGIT:   MOV A,0\n"
    "         READF R4A\n"      /* entry M: a to d in A, e to g and the point in R4 */
    "         MOV [R3R2],A\n"
    "         INC R2\n"
    "         MOV A,R4\n"
    "         MOV [R3R2],A\n"
    "         INC R2\n"
    "         INC [R1R0]\n"
    "         MOV A,R2\n"
    "         JA3 DOWN\n"
    "         JMP DIGIT\n"
    "DOWN:    IN A,PM\n"
    "         JA0 DOWN\n"
    "UP:      IN A,PM\n"
    "         JA0 NEXT\n"
    "         JMP UP\n"
    "NEXT:    MOV A,[R1R0]\n"
    "         JNZ A,SHOW\n"
    "         HALT\n"
    "         JMP SHOW\n";

static void accepted(const char *call, uint8_t refusal)
{
    if (refusal != 0) {
        fprintf(stderr, "%s: refused with %u\n", call, refusal);
        exit(1);
    }
}

/* A digit's two nibbles are a byte of the table. */
static void put(uint8_t mask[HT1130_MASK], int place, const uint8_t picture[HT1130_PICTURE])
{
    for (int k = 0; k < 4; k++)
        mask[TABLE + 4 * place + k] = picture[2 * k] | (uint8_t)(picture[2 * k + 1] << 4);
}

static void build(uint8_t mask[HT1130_MASK])
{
    static const struct { int32_t value; uint8_t places; } readings[PICTURES - 1] = { { 1234, 2 }, { -50, 2 }, { 7, 0 } };
    uint8_t picture[HT1130_PICTURE];

    accepted("text", HT1130_REFUSAL(ht1130_assemble((const uint8_t *)program, sizeof program - 1, mask, HT1130_MASK)));
    memset(picture, 15, sizeof picture); /* all lit first, points too: nothing that can be read */
    put(mask, 0, picture);
    for (int n = 1; n < PICTURES; n++) {
        uint64_t answer = ht1130_glass_draw(0, readings[n - 1].value, readings[n - 1].places, picture, sizeof picture);
        accepted("drawing", HT1130_REFUSAL(answer));
        put(mask, n, picture);
    }
}

static void load(uint8_t mask[HT1130_MASK], const char *name)
{
    FILE *file = fopen(name, "rb");
    if (file == NULL) {
        perror(name);
        exit(2);
    }
    size_t length = fread(mask, 1, HT1130_MASK, file);
    if (length != HT1130_MASK || fgetc(file) != EOF) {
        fprintf(stderr, "%s: not %d bytes\n", name, HT1130_MASK);
        exit(2);
    }
    fclose(file);
}

/* -50 with 2 places is -0.50. */
static void print_number(int32_t value, int places)
{
    static const int32_t ones[] = { 1, 10, 100, 1000 };
    int32_t size = value < 0 ? -value : value;

    printf("%s%ld", value < 0 ? "-" : "", (long)(size / ones[places]));
    if (places > 0)
        printf(".%0*ld", places, (long)(size % ones[places]));
}

static void log_reading(const char *event, const ht1130_machine *machine)
{
    uint64_t answer = ht1130_reading(machine);

    printf("%-9s ", event);
    if (HT1130_REFUSAL(answer) == 16) {
        printf("unreadable at digit %u\n", HT1130_DIGIT(answer));
        return;
    }
    accepted("reading", HT1130_REFUSAL(answer));
    if (HT1130_DARK(answer))
        printf("dark");
    else
        print_number(HT1130_VALUE(answer), HT1130_PLACES(answer));
    putchar('\n');
}

static void expect(uint64_t answer, uint8_t expected)
{
    if (HT1130_REFUSAL(answer) != expected) {
        fprintf(stderr, "refused with %u instead of %u\n", HT1130_REFUSAL(answer), expected);
        exit(1);
    }
    printf(" %u", HT1130_REFUSAL(answer));
}

/* What the numbers look like from here; nothing is written by any of these. */
static void print_refusals(const ht1130_machine *machine)
{
    uint8_t picture[HT1130_PICTURE] = { 0, 0, 0, 0, 0, 0, 0, 16 };
    ht1130_machine copy = *machine;

    printf("refused");
    expect(ht1130_glass_read(picture, sizeof picture - 1), 2);
    expect(ht1130_glass_read(picture, sizeof picture), 3);
    copy.control.pc = 4096;
    expect(ht1130_reading(&copy), 5);
    expect(ht1130_glass_draw(0, -1000, 0, picture, sizeof picture), 16);
    putchar('\n');
}

int main(int argc, char **argv)
{
    static uint8_t mask[HT1130_MASK];
    static const uint8_t image[HT1130_IMAGE]; /* registers and memory start at 0 */
    ht1130_machine machine;

    if (argc > 1)
        load(mask, argv[1]);
    else
        build(mask);

    /* PM0 is the key, and wakes the panel. */
    accepted("power-on", ht1130_power_on(&machine, 0, 4, 1, 0, 0, image, sizeof image));
    log_reading("power-on", &machine);
    accepted("run", ht1130_apply(&machine, HT1130_RUN, 1000, 0, 0, 0, mask, HT1130_MASK));
    log_reading("run", &machine);
    for (int press = 0; press <= PICTURES; press++) {
        for (int level = 0; level <= 1; level++) {
            uint8_t pm = (uint8_t)(14 | level);
            accepted("key", ht1130_apply(&machine, HT1130_PINS, 0, pm, 15, 15, mask, HT1130_MASK));
            accepted("run", ht1130_apply(&machine, HT1130_RUN, 1000, 0, 0, 0, mask, HT1130_MASK));
            log_reading(level == 0 ? "key down" : "key up", &machine);
        }
    }
    print_refusals(&machine);
    return 0;
}
