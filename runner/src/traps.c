// What the fuzz target needs of the machine: breakpoints that tell which blocks of the archive's code were run, memory between pages that nobody may touch,
// and the inputs of a call that died, stored for another day. Linux on x86-64.
#define _GNU_SOURCE
#include <fcntl.h>
#include <signal.h>
#include <stddef.h>
#include <stdint.h>
#include <string.h>
#include <sys/mman.h>
#include <ucontext.h>
#include <unistd.h>

enum { PAGE = 4096, BREAKPOINT = 0xcc };

static struct block { uint8_t *at, byte; } blocks[32768];
static size_t count, hits;

static void reached(int signal_number, siginfo_t *info, void *context) {
    (void)signal_number, (void)info;
    greg_t *next = &((ucontext_t *)context)->uc_mcontext.gregs[REG_RIP];
    uint8_t *at = (uint8_t *)*next - 1;
    size_t low = 0, high = count;
    while (low < high) {
        size_t middle = (low + high) / 2;
        if (blocks[middle].at < at) low = middle + 1; else high = middle;
    }
    if (low == count || blocks[low].at != at) _exit(3);
    // The block is known from now on and runs at full speed.
    *at = blocks[low].byte;
    *next -= 1;
    hits += 1;
}

// Breakpoints at these addresses, which ascend. 0 where they cannot be set.
int traps_set(uint8_t *const *addresses, size_t n) {
    if (n > sizeof blocks / sizeof *blocks) return 0;
    struct sigaction action = {.sa_sigaction = reached, .sa_flags = SA_SIGINFO};
    if (sigaction(SIGTRAP, &action, NULL)) return 0;
    for (size_t i = 0; i < n; i++) {
        uint8_t *page = (uint8_t *)((uintptr_t)addresses[i] & -(uintptr_t)PAGE);
        if (mprotect(page, PAGE, PROT_READ | PROT_WRITE | PROT_EXEC)) return 0;
        blocks[i] = (struct block){addresses[i], *addresses[i]};
    }
    count = n;
    for (size_t i = 0; i < n; i++) *addresses[i] = BREAKPOINT;
    return 1;
}

// Whether block i has not been run.
int traps_wait(size_t i) { return *blocks[i].at == BREAKPOINT; }

// How many of the blocks have been run.
size_t traps_hit(void) { return hits; }

// n pages that may be used between two that may not. NULL where there is no memory.
uint8_t *fence_pages(size_t n) {
    uint8_t *whole = mmap(NULL, (n + 2) * PAGE, PROT_NONE, MAP_PRIVATE | MAP_ANONYMOUS, -1, 0);
    if (whole == MAP_FAILED || mprotect(whole + PAGE, n * PAGE, PROT_READ | PROT_WRITE)) return NULL;
    return whole + PAGE;
}

static struct input { const uint8_t *bytes; size_t length; const char *path; } inputs[4];

static void died(int signal_number) {
    static const char words[] = "runner: the call died; its inputs are in the folder of findings\n";
    for (int i = 0; i < 4 && inputs[i].path; i++) {
        int file = open(inputs[i].path, O_WRONLY | O_CREAT | O_TRUNC, 0644);
        for (size_t at = 0; file >= 0 && at < inputs[i].length;) {
            ssize_t n = write(file, inputs[i].bytes + at, inputs[i].length - at);
            if (n <= 0) break;
            at += n;
        }
    }
    if (write(2, words, sizeof words - 1) < 0) _exit(4);
    _exit(signal_number == SIGALRM ? 5 : 4);
}

// Stores input i of the running call at this path if the call dies or passes the time of calls_may_last.
void keep_input(int i, const uint8_t *bytes, size_t length, const char *path) { inputs[i] = (struct input){bytes, length, path}; }

void watch_calls(void) {
    static uint8_t stack[1 << 16];
    sigaltstack(&(stack_t){.ss_sp = stack, .ss_size = sizeof stack}, NULL);
    struct sigaction action = {.sa_handler = died, .sa_flags = SA_ONSTACK};
    const int signals[] = {SIGSEGV, SIGBUS, SIGILL, SIGFPE, SIGABRT, SIGALRM};
    for (size_t i = 0; i < sizeof signals / sizeof *signals; i++) sigaction(signals[i], &action, NULL);
}

void calls_may_last(unsigned seconds) { alarm(seconds); }
