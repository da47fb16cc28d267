/*
 * A bench in C: it assembles a text, prints the bytes that are not NOP, checks the
 * mask, and says how long an edge can be held in either handler; or it prints the
 * refusal and the line.
 *
 *   assemble [TEXT]     TEXT is a file; without it, the text below
 */
#include <stdio.h>
#include <stdlib.h>
#include <string.h>

#include "ht1130_tools.h"

/* Counts the pulses at INT, and shows the count at port A. */
static const char program[] =
    "         JMP START\n"
    "\n"
    "         ORG 4\n"
    "         RETI\n"
    "\n"
    "         ORG 8\n"
    "PULSE:   INC R4\n"
    "         RETI\n"
    "\n"
    "         ORG 10H\n"
    "START:   MOV R4,0\n"
    "         EI\n"
    "SHOW:    CALL OUTPUT\n"
    "         JMP SHOW\n"
    "\n"
    "         ORG START+800H\n"
    "OUTPUT:  MOV A,R4\n"
    "         OUT PA,A\n"
    "         RET\n";

static size_t load(uint8_t *text, size_t room, const char *name)
{
    FILE *file = fopen(name, "rb");
    if (file == NULL) {
        perror(name);
        exit(2);
    }
    size_t length = fread(text, 1, room, file);
    fclose(file);
    return length;
}

/* Rows of 16 bytes, but for those that are NOP throughout. */
static void print_code(const uint8_t mask[HT1130_MASK])
{
    for (unsigned row = 0; row < HT1130_MASK; row += 16) {
        unsigned at = row;
        while (at < row + 16 && mask[at] == 0x3E)
            at++;
        if (at == row + 16)
            continue;
        printf("%03X ", row);
        for (at = row; at < row + 16; at++)
            printf(" %02X", mask[at]);
        putchar('\n');
    }
}

/* The most cycles from the start of a handler until the next edge can be taken. */
static void print_bound(const uint8_t mask[HT1130_MASK], uint16_t vector)
{
    uint64_t answer = ht1130_bound(mask, HT1130_MASK, vector, 2);
    printf("bound at %03X level 2: ", (unsigned)vector);
    switch (HT1130_BOUND(answer)) {
    case HT1130_NOT_REACHED:
        printf("not reached\n");
        break;
    case HT1130_NO_BOUND:
        printf("no bound\n");
        break;
    default:
        printf("%u\n", (unsigned)HT1130_WAIT(answer));
    }
}

static void print_verdict(const uint8_t mask[HT1130_MASK])
{
    static uint8_t marks[HT1130_MASK];
    uint64_t answer = ht1130_check(mask, HT1130_MASK, marks, sizeof marks);
    if (HT1130_FAULT(answer) != 0) {
        printf("mask may fault with %u at %03X in level %u\n", HT1130_FAULT(answer),
               (unsigned)HT1130_ADDRESS(answer), HT1130_LEVEL(answer));
        return;
    }
    printf("mask passed\n");
    print_bound(mask, 4); /* the timer's handler */
    print_bound(mask, 8); /* the edge's */
}

int main(int argc, char **argv)
{
    static uint8_t text[HT1130_TEXT + 1]; /* one byte more, so that a longer text is refused */
    static uint8_t mask[HT1130_MASK];
    size_t length = sizeof program - 1;

    if (argc > 1)
        length = load(text, sizeof text, argv[1]);
    else
        memcpy(text, program, length);
    uint64_t answer = ht1130_assemble(text, length, mask, sizeof mask);
    if (HT1130_REFUSAL(answer) != 0) {
        printf("refused %u at line %u\n", HT1130_REFUSAL(answer), (unsigned)HT1130_LINE(answer));
        return 0;
    }
    print_code(mask);
    print_verdict(mask);
    return 0;
}
