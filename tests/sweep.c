/* A guest with no operating system that makes a session of calls (session.h). Each call is made once undisturbed, and then for every instruction of the archive
 * that it runs with an interrupt taken before that very instruction, on the stack that it meets: answer and stores must come out the same, byte for byte.
 * The interrupt fills the bytes below the stack pointer, and each is tried with two noises, so that every bit there is once set and once cleared.
 *
 * How the interrupt comes exactly there: the processor steps through the call (trap flag), on another stack; before the instruction in question the
 * stepping ends and the local APIC is told to interrupt this processor, which it does as soon as the program goes on. Where it came is looked at.
 *
 * It prints a line an entry, `name calls points wrong`, and a total, and ends QEMU by isa-debug-exit with one of the codes below (status 2 * code + 1).
 * With NO_SSE the processor refuses SSE instructions. */
#include <stddef.h>
#include <stdint.h>

void *memcpy(void *to, const void *from, size_t length), *memset(void *to, int byte, size_t length);
int memcmp(const void *one, const void *other, size_t length);

static void begin(const char *name), made(uint64_t answer), fell(void);
static int again(void);
static void *landing[5]; /* where an exception in the call leads */
#define CALL(name, ...) \
    ({ \
        for (begin(#name); again();) \
            if (__builtin_setjmp(landing) == 0) \
                made(name(__VA_ARGS__)); \
            else \
                fell(); \
        s.answer; \
    })
#include "session.h"

enum { SAME = 16, WRONG = 17, NOT_SWEPT = 18, TRAPPED = 19 }; /* codes; QEMU's own failures have status 1 */
enum { STEP = 1, INTERRUPT = 32, TRAP_FLAG = 0x100 };
enum { NOISE = 0xa5, OTHER_NOISE = NOISE ^ 0xff }; /* each bit is 1 in one of them and 0 in the other */
enum { APIC_SPURIOUS = 0xf0, APIC_COMMAND = 0x300, APIC_ON = 0x1ff, APIC_TO_SELF = 0x44000 };

/* boot.s, console.ld, sweep.s */
extern const char archive_start[], archive_end[], keeps_below_end[];
extern uint64_t interrupt_met;
extern uint32_t interrupts_taken;
extern uint8_t interrupt_noise;
uint64_t keeps_below(uint64_t one, uint64_t other);
void gate(unsigned number, void (*entry)(void), unsigned stack), sse_on(void), step_entry(void), interrupt_entry(void);

/* What the processor leaves at an interrupt. */
struct frame {
    uint64_t address, segment, flags, stack, stack_segment;
};

static struct entry {
    const char *name;
    uint32_t calls, points, wrong;
    uint64_t first; /* where the interrupt came that led to the first wrong outcome */
} entries[80], *entry;

static struct stores before, calm; /* the stores before the call, and what it leaves undisturbed */
static enum { UNDISTURBED, SWEEPING, SWEPT } stage;
static uint32_t point, passed; /* the instruction that is interrupted; those of this run so far */
static uint64_t aimed;         /* its address */
static int wrong_here;         /* an interrupt at this point was seen to do harm */

static void out(uint16_t port, uint8_t value) { __asm__ volatile("outb %0, %1" : : "a"(value), "Nd"(port)); }

static uint8_t in(uint16_t port) {
    uint8_t value;
    __asm__ volatile("inb %1, %0" : "=a"(value) : "Nd"(port));
    return value;
}

static void say(const char *text) {
    for (; *text; text++) {
        for (int looks = 0; !(in(0x3fd) & 0x20) && looks < 100000; looks++)
            ;
        out(0x3f8, *text);
    }
}

static void say_in(unsigned base, const char *label, uint64_t number) {
    char text[21];
    char *at = text + sizeof text;
    *--at = 0;
    do
        *--at = "0123456789abcdef"[number % base];
    while (number /= base);
    say(label);
    say(at);
}

static void say_number(const char *label, uint64_t number) { say_in(10, label, number); }
static void say_hex(const char *label, uint64_t number) { say_in(16, label, number); }

__attribute__((noreturn)) static void end(uint8_t code) {
    out(0xf4, code);
    for (;;)
        __asm__ volatile("cli\n\thlt");
}

static void apic(uint32_t place, uint32_t value) { *(volatile uint32_t *)(0xfee00000u + (uintptr_t)place) = value; }

static void stepping(int on) {
    uint64_t flags;
    __asm__ volatile("pushfq\n\tpopq %0" : "=r"(flags) : : "memory");
    flags = on ? flags | TRAP_FLAG : flags & ~(uint64_t)TRAP_FLAG;
    __asm__ volatile("pushq %0\n\tpopfq" : : "r"(flags) : "memory", "cc");
}

static int between(uint64_t address, const void *start, const void *end) { return address >= (uintptr_t)start && address < (uintptr_t)end; }

/* The program stands before the instruction at this address. */
void step(struct frame *frame) {
    if (!between(frame->address, archive_start, archive_end) && !between(frame->address, (void *)keeps_below, keeps_below_end))
        return;
    if (++passed != point)
        return;
    aimed = frame->address;
    frame->flags &= ~(uint64_t)TRAP_FLAG;
    apic(APIC_COMMAND, APIC_TO_SELF | INTERRUPT);
}

static void say_where(void) {
    say(entry ? entry->name : "no call");
    say_number(", call ", entry ? entry->calls : 0);
    say_number(", interrupted before its instruction ", point);
}

__attribute__((noreturn)) static void stop(const char *why) {
    say_where();
    say(why);
    end(NOT_SWEPT);
}

/* An exception is an outcome, and a wrong one, where an interrupt led to it; elsewhere it ends the run. */
__attribute__((noreturn)) void guest_trapped(uint64_t number, uint64_t error, uint64_t address) {
    if (stage == SWEEPING && interrupts_taken == 1)
        __builtin_longjmp(landing, 1);
    say_where();
    say_number(": exception ", number);
    say_hex(", error 0x", error);
    say_hex(", at 0x", address);
    say("\n");
    end(TRAPPED);
}

static int same_name(const char *one, const char *other) {
    while (*one && *one == *other)
        one++, other++;
    return *one == *other;
}

static struct entry *entry_of(const char *name) {
    for (size_t i = 0; i < sizeof entries / sizeof *entries; i++)
        if (!entries[i].name || same_name(entries[i].name, name))
            return &entries[i];
    stop(": one entry too many comes after it\n");
}

/* A call, before it is made for the first time. */
static void begin(const char *name) {
    entry = entry_of(name);
    entry->name = name;
    entry->calls++;
    stage = UNDISTURBED;
    point = 0;
    interrupt_noise = OTHER_NOISE;
    before = s;
}

/* The same point with the other noise, or the next point. */
static void next(void) {
    interrupt_noise ^= 0xff;
    if (interrupt_noise == NOISE) {
        point++;
        wrong_here = 0;
    }
}

/* Is the call to be made again? Then the stores are as before it and, but for the first time, the processor steps from here on. */
static int again(void) {
    s = stage == SWEPT ? calm : before;
    if (stage != SWEEPING)
        return stage == UNDISTURBED;
    next();
    passed = 0;
    interrupts_taken = 0;
    stepping(1);
    return 1;
}

/* An interrupt was taken, at the right place. */
static void count(void) {
    if (interrupts_taken > 1 || interrupt_met != aimed)
        stop(": the interrupt came elsewhere\n");
    entry->points += interrupt_noise == NOISE;
}

static void wrong(void) {
    if (entry->wrong == 0)
        entry->first = aimed;
    entry->wrong += !wrong_here;
    wrong_here = 1;
}

/* The call has returned. One in which no interrupt came has no further instruction. */
static void made(uint64_t answer) {
    stepping(0);
    s.answer = answer;
    if (stage == UNDISTURBED) {
        calm = s;
        stage = SWEEPING;
        return;
    }
    if (interrupts_taken == 0 && point == 1)
        stop(": no instruction of the archive was met\n");
    if (interrupts_taken == 0)
        stage = SWEPT;
    else
        count();
    if (memcmp(&s, &calm, sizeof s) != 0)
        wrong();
}

/* The call ended in an exception, which has switched interrupts and stepping off. */
static void fell(void) {
    __asm__ volatile("cld\n\tsti");
    count();
    wrong();
}

static void say_entry(const struct entry *e) {
    say(e->name);
    say_number(" ", e->calls);
    say_number(" ", e->points);
    say_number(" ", e->wrong);
    if (e->wrong)
        say_hex(", first where interrupted at 0x", e->first);
    say("\n");
}

/* The sweep sees what it must: three of the five places at which keeps_below can be interrupted. */
static void see(void) {
    CALL(keeps_below, 40, 2);
    say_entry(entry);
    if (entry->points != 5 || entry->wrong != 3 || s.answer != 42)
        stop(": 3 wrong outcomes at 5 points were to be seen: the sweep sees nothing\n");
    memset(entries, 0, sizeof entries);
}

static void sum_up(void) {
    uint32_t count = 0, calls = 0, points = 0, wrong = 0;
    for (const struct entry *e = entries; e->name; e++) {
        say_entry(e);
        count++;
        calls += e->calls;
        points += e->points;
        wrong += e->wrong;
    }
    say_number("total: ", count);
    say_number(" entries, ", calls);
    say_number(" calls, interrupted at each of ", points);
    say_number(" instructions: ", wrong);
    say(" wrong\n");
    end(wrong ? WRONG : SAME);
}

void guest_main(void) {
#ifndef NO_SSE
    sse_on();
#endif
    gate(STEP, step_entry, 1);
    gate(INTERRUPT, interrupt_entry, 0);
    apic(APIC_SPURIOUS, APIC_ON);
    __asm__ volatile("sti");
    see();
    session();
    sum_up();
}
