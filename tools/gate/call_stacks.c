/*
 * Calls each function of both libraries on a stack of its own, step by step, and writes what that stack holds from time to time and at the
 * end, a file a call, into the folder of its argument. A constant that is built on the stack stands in no section, and may be overwritten
 * before the call returns: tools/gate/find_list.py looks for it here. x86-64 Linux, as the archives are.
 */
#define _GNU_SOURCE
#include <fcntl.h>
#include <signal.h>
#include <stdio.h>
#include <stdlib.h>
#include <string.h>
#include <ucontext.h>
#include <unistd.h>

#include "ht1130.h"
#include "ht1130_tools.h"

enum { RED_ZONE = 128, TRAP_FLAG = 0x100 };

static _Alignas(16) uint8_t stack[1 << 20], other_stack[1 << 16];
static uint8_t *const top = stack + sizeof stack;
static ucontext_t host, call;
static volatile int file;
static volatile unsigned long steps, due;
static const uint8_t *volatile low;     /* what a call has touched so far starts here: frames of callees that returned too */

static ht1130_machine machine;
static uint8_t mask[HT1130_MASK], marks[HT1130_MASK], list[HT1130_WAY], image[HT1130_IMAGE], reports[3 * HT1130_REPORT];
static uint8_t assembled[HT1130_MASK], picture[HT1130_PICTURE];
/* power-on, a Run of 3 steps, RES */
static const uint8_t script[] = {6, 0, 1, 0, 2, 4, 0, 0, 0, 0, 2, 0, 2, 0, 3, 0, 0, 0, 6, 0};
/* a label above and one below, the deepest parentheses, two bytes and one */
static const char text[] = "TOP: JMP ((((((((((((((((END))))))))))))))))-1\nORG TOP+8\nEND: ADD A,[R1R0]\n";
static uint64_t answer;

static void stop(const char *what)
{
    fprintf(stderr, "call_stacks: %s\n", what);
    exit(1);
}

static void power_on(void) { answer = ht1130_power_on(&machine, 2, 4, 0, 0, 0, image, sizeof image); }
static void run(void) { answer = ht1130_apply(&machine, HT1130_RUN, 3, 0, 0, 0, mask, sizeof mask); }
static void pins(void) { answer = ht1130_apply(&machine, HT1130_PINS, 0, 15, 15, 15, mask, sizeof mask); }
static void report(void) { answer = ht1130_report(&machine, reports, HT1130_REPORT); }
static void gap_count(void) { answer = ht1130_gap_count(&machine); }
static void check(void) { answer = ht1130_check(mask, sizeof mask, marks, sizeof marks); }
static void way(void) { answer = ht1130_way(mask, sizeof mask, list, sizeof list); }
static void bound(void) { answer = ht1130_bound(mask, sizeof mask, 3, 1); }
static void deepest_bound(void) { answer = ht1130_bound(mask, sizeof mask, 8, 2); }
static void check_script(void) { answer = ht1130_check_script(mask, sizeof mask, script, sizeof script, sizeof reports); }
static void run_script(void) { answer = ht1130_run_script(mask, sizeof mask, script, sizeof script, reports, sizeof reports); }
static void read_at(void) { answer = ht1130_read(mask, sizeof mask, 2); }
static void write_one(void) { answer = ht1130_write(HT1130_JMP, 0, 1); }
static void glass_draw(void) { answer = ht1130_glass_draw(0, -50, 2, picture, sizeof picture); }
static void glass_read(void) { answer = ht1130_glass_read(picture, sizeof picture); }
static void reading(void) { answer = ht1130_reading(&machine); }
static void assemble(void) { answer = ht1130_assemble((const uint8_t *)text, sizeof text - 1, assembled, sizeof assembled); }

/* What must be found: a list of lengths, as the library reads them, in the frame of a callee that overwrites it. */
static __attribute__((noinline)) uint8_t lengths_held(void)
{
    volatile uint8_t lengths[256];
    uint8_t none;
    int first;

    for (first = 0; first < 256; first++) {
        mask[0] = (uint8_t)first;
        mask[1] = first == 0x37 ? 0x3e : 0;
        lengths[first] = HT1130_LENGTH(ht1130_read(mask, sizeof mask, 0));
    }
    none = lengths[0x35];
    for (first = 0; first < 256; first++)
        lengths[first] = 0;
    return none;
}
static void control(void) { answer = lengths_held(); }

/* After each instruction. Every 16 of them what was touched is written, and more rarely where it is much. */
static void stepped(int signal, siginfo_t *info, void *context)
{
    const uint8_t *sp = (const uint8_t *)((ucontext_t *)context)->uc_mcontext.gregs[REG_RSP] - RED_ZONE;

    (void)signal;
    (void)info;
    steps++;
    if (sp < stack || top <= sp)
        return;
    if (sp < low)
        low = sp;
    if (steps < due)
        return;
    if (write(file, low, (size_t)(top - low)) != top - low)
        _exit(1);
    due = steps + (top - low <= 4096 ? 16 : (unsigned long)(top - low) / 8);
}

static void (*called)(void);
static int steps_wanted = 1;    /* 0 for a call of a million instructions, which would take half a minute: only its end is looked at */

static void step_by_step(void)
{
    if (!steps_wanted) {
        called();
        return;
    }
    __asm__ volatile("pushfq; orq %0, (%%rsp); popfq" : : "i"(TRAP_FLAG) : "memory", "cc");
    called();
    __asm__ volatile("pushfq; andq %0, (%%rsp); popfq" : : "i"(~TRAP_FLAG) : "memory", "cc");
}

/* `wanted` is the answer: a call that was refused has shown nothing. */
static void on_a_stack(const char *folder, const char *name, void (*function)(void), uint64_t wanted)
{
    char path[4096];
    size_t unused;

    snprintf(path, sizeof path, "%s/%s.stack", folder, name);
    file = open(path, O_WRONLY | O_CREAT | O_TRUNC, 0666);
    if (file < 0)
        stop(path);
    called = function;
    steps = due = 0;
    low = top;
    memset(stack, 0, sizeof stack);
    getcontext(&call);
    call.uc_stack.ss_sp = stack;
    call.uc_stack.ss_size = sizeof stack;
    call.uc_link = &host;
    makecontext(&call, step_by_step, 0);
    swapcontext(&host, &call);
    for (unused = 0; unused < sizeof stack && stack[unused] == 0; unused++)
        ;
    if (answer != wanted || (steps != 0) != steps_wanted || unused == 0 || write(file, stack + unused, sizeof stack - unused) < 0)
        stop(path);
    close(file);
    printf("call_stacks: %s: %lu instructions, %zu bytes of stack\n", name, steps, sizeof stack - unused);
}

int main(int count, char **words)
{
    stack_t other = {.ss_sp = other_stack, .ss_size = sizeof other_stack};
    struct sigaction action = {.sa_sigaction = stepped, .sa_flags = SA_SIGINFO | SA_ONSTACK};

    if (count != 2)
        stop("usage: call_stacks FOLDER");
    sigaltstack(&other, NULL);
    sigaction(SIGTRAP, &action, NULL);
    memset(mask, 0x3e, sizeof mask);
    mask[0] = 0xe0;     /* JMP 000H: the mask passes, and the checker walks one pair */
    mask[1] = 0x00;
    mask[2] = 0x09;     /* ADD A,[R1R0] */
    on_a_stack(words[1], "power_on", power_on, 0);
    on_a_stack(words[1], "run", run, 0);
    on_a_stack(words[1], "pins", pins, 0);
    on_a_stack(words[1], "report", report, 0);
    machine.gap = 3;
    on_a_stack(words[1], "gap_count", gap_count, 3ull << 32);
    on_a_stack(words[1], "check", check, 0);
    on_a_stack(words[1], "check_script", check_script, 0);
    on_a_stack(words[1], "run_script", run_script, 0);
    on_a_stack(words[1], "read", read_at, 0x0101000000000000);      /* form 0, one byte, one cycle */
    on_a_stack(words[1], "write", write_one, 0x01e00200);           /* JMP 001H: two bytes, E0 01 */
    on_a_stack(words[1], "assemble", assemble, 0);
    on_a_stack(words[1], "glass_draw", glass_draw, 0);
    on_a_stack(words[1], "glass_read", glass_read, 0xffffffce02000000);    /* -0.50: value -50, two places */
    memcpy(machine.memory + 128, picture, sizeof picture);
    on_a_stack(words[1], "reading", reading, 0xffffffce02000000);
    mask[1] = 0x03;     /* JMP 003H, where no instruction is: the mask fails, and there is a way of two pairs */
    mask[3] = 0x35;
    on_a_stack(words[1], "way", way, 0x0000000200000000);
    mask[0] = 0xf0;     /* CALL 003H, JMP 000H; from 3 on RR A, RET: two cycles */
    mask[1] = 0x03;
    mask[2] = 0xe0;
    mask[3] = 0x00;
    mask[4] = 0x2e;
    on_a_stack(words[1], "bound", bound, 2ull << 32 | HT1130_BOUNDED << 8);
    memset(mask, 0x3e, sizeof mask);
    mask[0] = 0x2c;     /* EI, then NOPs round and round: the deepest walk, a frame for each address and one that meets the loop */
    steps_wanted = 0;
    on_a_stack(words[1], "deepest_bound", deepest_bound, HT1130_NO_BOUND << 8);
    steps_wanted = 1;
    on_a_stack(words[1], "control", control, 0);
    return 0;
}
