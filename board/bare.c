/* A board with no system: how it starts, reads and writes files of the machine that emulates it (semihosting), and measures a call.
   The stack is filled with a pattern before each call; the lowest word that lost it is the deepest that the call went. */
#include <stddef.h>
#include <stdint.h>
#include <stdio.h>
#include <unistd.h>
#include "watch.h"

enum { STACK_BYTES = 64 * 1024, PATTERN = 0x5ac3a53c };

static uint32_t stack[STACK_BYTES / 4] __attribute__((aligned(16), section(".stack"), used));

int main(void);
static void start(void);
static void fault(void);

/* ---- what processors differ in: a clock, a loop of two instructions a turn, a call to the emulator, the start */

#ifdef __riscv
enum { CLOCK_MASK = -1 };

static void prepare(void) {}

static uint32_t clock(void)
{
    uint32_t now;
    __asm__ volatile("csrr %0, minstret" : "=r"(now));
    return now;
}

static void loop(uint32_t turns) { __asm__ volatile("1: addi %0, %0, -1\nbnez %0, 1b" : "+r"(turns)); }

static uintptr_t host_call(uintptr_t kind, const void *words)
{
    register uintptr_t a0 __asm__("a0") = kind;
    register const void *a1 __asm__("a1") = words;
    __asm__ volatile(".option push\n.option norvc\n.balign 16\n"
                     "slli x0, x0, 0x1f\nebreak\nsrai x0, x0, 7\n.option pop"
                     : "+r"(a0) : "r"(a1) : "memory");
    return a0;
}

__attribute__((naked, section(".first"), used)) void _start(void)
{
    __asm__ volatile("la sp, stack_end\nla t0, %0\ncsrw mtvec, t0\nj %1" : : "i"(fault), "i"(start));
}
#else
/* SysTick counts down, in 24 bits. */
static volatile uint32_t *const systick = (volatile uint32_t *)0xe000e010;
enum { CLOCK_MASK = 0xffffff };

static void prepare(void)
{
#ifdef __ARM_ARCH_6M__
    /* A Cortex-M0 faults at an access that is not aligned; the larger one that stands in for it is told to. */
    *(volatile uint32_t *)0xe000ed14 |= 8;
#endif
    systick[1] = CLOCK_MASK;
    systick[0] = 5;
}

static uint32_t clock(void) { return -systick[2]; }

static void loop(uint32_t turns)
{
    __asm__ volatile(".syntax unified\n1: subs %0, #1\nbne 1b" : "+l"(turns) : : "cc");
}

static uintptr_t host_call(uintptr_t kind, const void *words)
{
    register uintptr_t r0 __asm__("r0") = kind;
    register const void *r1 __asm__("r1") = words;
    __asm__ volatile("bkpt 0xab" : "+r"(r0) : "r"(r1) : "memory");
    return r0;
}

extern uint32_t stack_end[];
__attribute__((section(".first"), used)) static void *const vectors[16] = {
    stack_end, start, fault, fault, fault, fault, fault, fault,
    fault, fault, fault, fault, fault, fault, fault, fault,
};
#endif

/* ---- files of the emulating machine: cases are read from one, answers are written to another */

enum { OPEN = 1, WRITE0 = 4, WRITE = 5, READ = 6, EXIT_EXTENDED = 0x20 };
enum { READ_BINARY = 1, WRITE_BINARY = 5, EXITED = 0x20026 };

static uintptr_t handle[2];

static uintptr_t opened(const char *name, size_t name_length, uintptr_t mode)
{
    return host_call(OPEN, (uintptr_t[]){ (uintptr_t)name, mode, name_length });
}

/* The emulator answers how many bytes it did not read or write. */
ssize_t read(int file, void *to, size_t n)
{
    return n - host_call(READ, (uintptr_t[]){ handle[file], (uintptr_t)to, n });
}

ssize_t write(int file, const void *from, size_t n)
{
    return n - host_call(WRITE, (uintptr_t[]){ handle[file], (uintptr_t)from, n });
}

static void say(const char *text) { host_call(WRITE0, text); }

static void say_number(uint32_t n)
{
    char digits[11], *first = digits + 10;
    *first = 0;
    do *--first = '0' + n % 10; while (n /= 10);
    say(first);
}

static void leave(uintptr_t status)
{
    for (;;) host_call(EXIT_EXTENDED, (uintptr_t[]){ EXITED, status });
}

/* ---- what printf and exit of the C library ask of a system: without memory of its own, printf writes byte by byte */

void _exit(int status) { for (;;) leave(status); }

#ifdef __PICOLIBC__
static int put(char byte, FILE *file)
{
    (void)file;
    return write(1, &byte, 1) == 1 ? byte : EOF;
}

static FILE output = FDEV_SETUP_STREAM(put, NULL, NULL, _FDEV_SETUP_WRITE);
FILE *const stdout = &output;
#else
int _write(int file, const char *from, int n) { return write(file, from, n); }
int _read(int file, char *to, int n) { return read(file, to, n); }
void *_sbrk(ptrdiff_t more) { return (void)more, (void *)-1; }
int _close(int file) { return (void)file, -1; }
int _fstat(int file, void *about) { return (void)file, (void)about, -1; }
int _isatty(int file) { return (void)file, 0; }
int _lseek(int file, int to, int from) { return (void)file, (void)to, (void)from, -1; }
int _kill(int process, int signal) { return (void)process, (void)signal, -1; }
int _getpid(void) { return 1; }
void _fini(void) {}
#endif

static __attribute__((aligned(4))) void fault(void)
{
    say("the processor faulted\n");
    leave(3);
}

/* ---- instructions: the emulator drives the clock by them, and a known loop tells how many make a tick */

enum { KNOWN_INSTRUCTIONS = 200000 };
static uint32_t known_ticks;

static uint32_t ticks_since(uint32_t then) { return (clock() - then) & CLOCK_MASK; }

static uint32_t instructions_since(uint32_t then)
{
    return (uint64_t)ticks_since(then) * KNOWN_INSTRUCTIONS / known_ticks;
}

static void start(void)
{
    prepare();
    uint32_t then = clock();
    loop(KNOWN_INSTRUCTIONS / 2);
    known_ticks = ticks_since(then);
    handle[0] = opened("cases", 5, READ_BINARY);
    handle[1] = opened("answers", 7, WRITE_BINARY);
    leave(main());
}

/* ---- what a call takes */

static uintptr_t called_at;
static uint32_t began, calls, most_stack, most_instructions, least_instructions = UINT32_MAX;
static uint64_t all_instructions;

/* Fills what lies below its own frame; a call that needs less than that frame is measured as if it needed it. */
void watch_from(uintptr_t called_with)
{
    for (volatile uint32_t *word = stack; (uintptr_t)word < stack_pointer; word++) *word = PATTERN;
    called_at = called_with;
    began = clock();
}

void watch_end(void)
{
    uint32_t took = instructions_since(began);
    const uint32_t *word = stack;
    while (*word == PATTERN) word++;
    uint32_t depth = called_at - (uintptr_t)word;
    if (word == stack) say("the stack was used up\n"), leave(3);
    if (depth > most_stack) most_stack = depth;
    if (took > most_instructions) most_instructions = took;
    if (took < least_instructions) least_instructions = took;
    all_instructions += took;
    calls++;
}

/* Says it for one function, and begins anew. */
void watch_report(const char *function)
{
    say("  "), say(function);
    say(": deepest stack of a call "), say_number(most_stack);
    say(" bytes of "), say_number(STACK_BYTES);
    say("; instructions of a call "), say_number(least_instructions);
    say(" to "), say_number(most_instructions);
    say(", on average "), say_number(calls ? all_instructions / calls : 0);
    say("\n");
    calls = most_stack = most_instructions = all_instructions = 0;
    least_instructions = UINT32_MAX;
}
