/* Does the archive keep anything below its stack pointer? A guest's interrupt that runs on the stack that it meets
 * overwrites what stands there. This program makes a session of calls in child processes and compares what each
 * call left: first undisturbed; then one instruction at a time, and at each instruction of the archive the bytes below
 * the stack pointer are overwritten, as an interrupt there would do. That is done with two noises, each bit of which is 1 in
 * one of them and 0 in the other. tests/sweep.c does it with interrupts, in QEMU.
 *
 * The archive's code stands in the section `driver` (tests/redzone.sh renames its own), so that its bounds are known.
 * With the argument `self` a function that does use the bytes below its stack pointer joins the session: it must be seen.
 * Status 0: no call came out otherwise; 1: one did; 2: could not be tried. */
#define _GNU_SOURCE
#include <signal.h>
#include <stdint.h>
#include <stdio.h>
#include <stdlib.h>
#include <string.h>
#include <sys/mman.h>
#include <sys/ptrace.h>
#include <sys/uio.h>
#include <sys/user.h>
#include <sys/wait.h>
#include <unistd.h>

enum { CALLS = 700, BELOW = 256 };

static uint64_t left(const char *name, uint64_t answer), marked(uint64_t answer);
static void mark(void);
#define CALL(name, ...) (mark(), left(#name, marked(name(__VA_ARGS__))))
#include "session.h"

extern char __start_driver[], __stop_driver[];

/* What each call left, in memory that parent and child share. */
struct log {
    int calls;
    struct call {
        char name[32];
        struct stores left;
    } call[CALLS];
};

static struct log *book;
static int stepped; /* this child is stepped */

static uint64_t left(const char *name, uint64_t answer) {
    if (book->calls == CALLS)
        _exit(3);
    struct call *call = &book->call[book->calls++];
    snprintf(call->name, sizeof call->name, "%s", name);
    s.answer = answer;
    call->left = s;
    return answer;
}

/* The parent steps the child from one breakpoint to the next: through the call, and not through the book-keeping. */
static void mark(void) {
    if (stepped)
        __asm__ volatile("int3");
}
static uint64_t marked(uint64_t answer) {
    mark();
    return answer;
}

/* Keeps a number below its stack pointer for two instructions. */
__attribute__((section("driver"), noinline)) static uint64_t keeps_below(uint64_t number) {
    uint64_t read;
    __asm__ volatile("movq %1, -64(%%rsp)\n\tnop\n\tmovq -64(%%rsp), %0" : "=r"(read) : "r"(number) : "memory");
    return read;
}

/* A child that makes the session; where it is to be stepped, the first breakpoint stops it. */
static pid_t child(int self, int step) {
    pid_t pid = fork();
    if (pid == 0) {
        stepped = step;
        if (step && ptrace(PTRACE_TRACEME, 0, 0, 0) != 0)
            _exit(4);
        if (self)
            CALL(keeps_below, 7);
        session();
        _exit(0);
    }
    return pid;
}

static int within(uint64_t at) { return at >= (uintptr_t)__start_driver && at < (uintptr_t)__stop_driver; }

/* Steps the child to its end; gives the number of instructions of the archive at which the bytes below were overwritten, or -1.
 * A stop at a breakpoint comes from the kernel, one after a step from the trace. */
static long step(pid_t pid, int byte, int *status) {
    static uint8_t noise[BELOW];
    memset(noise, byte, sizeof noise);
    long points = 0;
    int inside = 0;
    for (waitpid(pid, status, 0); WIFSTOPPED(*status); waitpid(pid, status, 0)) {
        struct user_regs_struct regs;
        if (WSTOPSIG(*status) != SIGTRAP) {
            kill(pid, SIGKILL);
            waitpid(pid, status, 0);
            return points;
        }
        siginfo_t why;
        if (ptrace(PTRACE_GETREGS, pid, 0, &regs) != 0 || ptrace(PTRACE_GETSIGINFO, pid, 0, &why) != 0)
            return -1;
        if (why.si_code == SI_KERNEL)
            inside = !inside;
        if (inside && within(regs.rip)) {
            struct iovec from = {noise, sizeof noise}, to = {(void *)(regs.rsp - sizeof noise), sizeof noise};
            if (process_vm_writev(pid, &from, 1, &to, 1, 0) != sizeof noise)
                return -1;
            points++;
        }
        if (ptrace(inside ? PTRACE_SINGLESTEP : PTRACE_CONT, pid, 0, 0) != 0)
            return -1;
    }
    return points;
}

static struct log *shared(void) {
    void *at = mmap(0, sizeof(struct log), PROT_READ | PROT_WRITE, MAP_SHARED | MAP_ANONYMOUS, -1, 0);
    return at == MAP_FAILED ? NULL : at;
}

/* The calls that came out otherwise, each named once; how many. */
static int wrong(const struct log *calm, const struct log *stepped) {
    int count = 0;
    for (int i = 0; i < calm->calls; i++)
        if (i >= stepped->calls || memcmp(&calm->call[i], &stepped->call[i], sizeof calm->call[i]) != 0) {
            if (count++ == 0)
                printf("call %d, %s: it came out otherwise\n", i + 1, calm->call[i].name);
        }
    return count;
}

/* The session, stepped, with this noise: how many calls came out otherwise; -1: it could not be tried. */
static int tried(int self, int byte, const struct log *calm) {
    int status;
    book = shared();
    long points = book ? step(child(self, 1), byte, &status) : 0;
    if (points <= 0) {
        printf("the session could not be stepped\n");
        return -1;
    }
    int count = wrong(calm, book) + (!WIFEXITED(status) || WEXITSTATUS(status) != 0);
    printf("%ld instructions of the archive in %d calls, the bytes below the stack pointer overwritten with %#x at each: %d calls came out otherwise\n", points, calm->calls, byte, count);
    return count;
}

int main(int argc, char **argv) {
    int self = argc > 1 && strcmp(argv[1], "self") == 0, status;
    struct log *calm = book = shared();
    if (!calm)
        return 2;
    waitpid(child(self, 0), &status, 0);
    if (!WIFEXITED(status) || WEXITSTATUS(status) != 0) {
        printf("the session itself failed: status %#x after %d calls\n", status, calm->calls);
        return 2;
    }
    int first = tried(self, 0xa5, calm), second = tried(self, 0x5a, calm);
    if (first < 0 || second < 0)
        return 2;
    return first != 0 || second != 0;
}
