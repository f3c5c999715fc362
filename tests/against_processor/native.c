/* Runs functions on this processor from given states, and writes how they end.
 *
 *     native CODE JOBS RESULTS
 *
 * CODE is flat machine code. JOBS and RESULTS are bytes, numbers little-endian; states.py writes the one and reads the
 * other. JOBS begins with the pieces of the address space that tests use, the slots: their number, then of each its
 * address, its length (whole pages) and whether it may be written. Nothing is mapped around a slot, so an access that
 * leaves it faults. Then come the functions up to the end: the number of their places, the offset in CODE of each place
 * and of the end, the number of tests, and each test: the flags, the registers, the vectors, the number of its pieces
 * of memory, and of each piece its address, its length and its bytes.
 *
 * A function runs by single steps. Of each test the result is the signal that ended it (0: it returned), the number of
 * steps begun, the registers, the vectors and the flags (where it returned: those at the end), the bytes of each piece,
 * and how often each place was begun. A run of more than MOST_STEPS steps ends as by SIGALRM.
 */
#define _GNU_SOURCE
#include <fcntl.h>
#include <signal.h>
#include <stdint.h>
#include <stdio.h>
#include <stdlib.h>
#include <string.h>
#include <sys/mman.h>
#include <sys/stat.h>
#include <ucontext.h>
#include <unistd.h>

enum { MOST_SLOTS = 32, MOST_PIECES = 16, MOST_STEPS = 70000, TRAP_FLAG = 0x100 };

/* What the entry and the return below load and store; their offsets stand in the assembly. */
struct context {
    uint64_t regs[16];      /* 0, as the processor numbers them */
    uint8_t vecs[16][32];   /* 128 */
    uint64_t flags;         /* 640 */
    uint64_t target;        /* 648 */
    uint64_t own_stack;     /* 656 */
} context __attribute__((aligned(64)));

void enter(void);
void come_back(void);
void give_up(void);

#define EACH_VECTOR(X) X(0) X(1) X(2) X(3) X(4) X(5) X(6) X(7) X(8) X(9) X(10) X(11) X(12) X(13) X(14) X(15)
#define LOAD_VECTOR(N) "vmovdqu 128+32*" #N "+context(%rip), %ymm" #N "\n"
#define STORE_VECTOR(N) "vmovdqu %ymm" #N ", 128+32*" #N "+context(%rip)\n"
#define EACH_REGISTER(X) X(0, rax) X(1, rcx) X(2, rdx) X(3, rbx) X(5, rbp) X(6, rsi) X(7, rdi) X(8, r8) X(9, r9) \
    X(10, r10) X(11, r11) X(12, r12) X(13, r13) X(14, r14) X(15, r15)
#define LOAD_REGISTER(N, R) "movq 8*" #N "+context(%rip), %" #R "\n"
#define STORE_REGISTER(N, R) "movq %" #R ", 8*" #N "+context(%rip)\n"

__asm__(
    ".text\n"
    "enter:\n"
    "pushq %rbx\n pushq %rbp\n pushq %r12\n pushq %r13\n pushq %r14\n pushq %r15\n"
    "movq %rsp, 656+context(%rip)\n"
    EACH_VECTOR(LOAD_VECTOR)
    EACH_REGISTER(LOAD_REGISTER)
    "pushq 640+context(%rip)\n popfq\n"
    "movq 8*4+context(%rip), %rsp\n"
    "jmp *648+context(%rip)\n"
    "come_back:\n"
    EACH_REGISTER(STORE_REGISTER)
    "movq %rsp, 8*4+context(%rip)\n"
    "movq 656+context(%rip), %rsp\n"
    "pushfq\n popq 640+context(%rip)\n"
    EACH_VECTOR(STORE_VECTOR)
    "give_up:\n"
    "vzeroupper\n"
    "popq %r15\n popq %r14\n popq %r13\n popq %r12\n popq %rbp\n popq %rbx\n"
    "ret\n");

struct slot { uint64_t at, length, writable; uint8_t *mirror; };
struct piece { uint64_t at, length; };

static struct slot slots[MOST_SLOTS];
static uint64_t slot_count;
static uint8_t *code;
static uint64_t code_length;

/* the function that runs: its places, where each offset of the code is the place's number plus one or 0 */
static uint16_t *place_at;
static uint32_t *begun;
static volatile uint32_t steps;
static volatile int ended_by;

static void fail(const char *why) {
    perror(why);
    exit(2);
}

/* the bytes of a whole file */
static uint8_t *whole_file(const char *name, uint64_t *length) {
    struct stat status;
    int file = open(name, O_RDONLY);
    if (file < 0 || fstat(file, &status) != 0) fail(name);
    *length = (uint64_t)status.st_size;
    uint8_t *bytes = malloc(*length + 1);
    for (uint64_t done = 0; done < *length;) {
        ssize_t n = read(file, bytes + done, *length - done);
        if (n <= 0) fail(name);
        done += (uint64_t)n;
    }
    close(file);
    return bytes;
}

/* ends the run: goes on at give_up with the driver's own stack */
static void leave(ucontext_t *u, int signal) {
    ended_by = signal;
    u->uc_mcontext.gregs[REG_EFL] &= ~(long long)TRAP_FLAG;
    u->uc_mcontext.gregs[REG_RIP] = (long long)(uintptr_t)give_up;
    u->uc_mcontext.gregs[REG_RSP] = (long long)context.own_stack;
}

/* a single step: the instruction at the address where the run stands is the next one */
static void on_step(int signal, siginfo_t *info, void *data) {
    ucontext_t *u = data;
    uint64_t offset = (uint64_t)u->uc_mcontext.gregs[REG_RIP] - (uint64_t)(uintptr_t)code;
    (void)signal, (void)info;
    if (offset < code_length && place_at[offset] != 0) {
        begun[place_at[offset] - 1]++;
        if (++steps > MOST_STEPS) leave(u, SIGALRM);
    } else if ((uint64_t)u->uc_mcontext.gregs[REG_RIP] == (uint64_t)(uintptr_t)come_back) {
        u->uc_mcontext.gregs[REG_EFL] &= ~(long long)TRAP_FLAG;
    }
}

static void on_fault(int signal, siginfo_t *info, void *data) {
    (void)info;
    leave(data, signal);
}

/* the handlers have a stack of their own, since a function's may be anywhere */
static void handle_signals(void) {
    stack_t stack = {.ss_sp = malloc(1 << 16), .ss_size = 1 << 16};
    if (sigaltstack(&stack, NULL) != 0) fail("sigaltstack");
    int faults[] = {SIGSEGV, SIGBUS, SIGILL, SIGFPE};
    struct sigaction action = {.sa_flags = SA_SIGINFO | SA_ONSTACK};
    action.sa_sigaction = on_fault;
    for (unsigned i = 0; i < sizeof faults / sizeof *faults; i++)
        if (sigaction(faults[i], &action, NULL) != 0) fail("sigaction");
    action.sa_sigaction = on_step;
    if (sigaction(SIGTRAP, &action, NULL) != 0) fail("sigaction");
}

/* maps each slot at its address, and once more to be written by this driver */
static const uint8_t *map_slots(const uint8_t *from) {
    uint64_t total = 0, done = 0;
    memcpy(&slot_count, from, 8);
    from += 8;
    if (slot_count > MOST_SLOTS) fail("slots");
    for (uint64_t i = 0; i < slot_count; i++, from += 24) {
        memcpy(&slots[i], from, 24);
        total += slots[i].length;
    }
    int file = memfd_create("slots", 0);
    if (file < 0 || ftruncate(file, (off_t)total) != 0) fail("memfd_create");
    uint8_t *mirror = mmap(NULL, total, PROT_READ | PROT_WRITE, MAP_SHARED, file, 0);
    if (mirror == MAP_FAILED) fail("mmap");
    for (uint64_t i = 0; i < slot_count; i++) {
        int rights = PROT_READ | (slots[i].writable ? PROT_WRITE : 0);
        void *want = (void *)(uintptr_t)slots[i].at;
        void *got = mmap(want, slots[i].length, rights, MAP_SHARED | MAP_FIXED_NOREPLACE, file, (off_t)done);
        if (got != want) fail("a slot cannot be mapped");
        slots[i].mirror = mirror + done;
        done += slots[i].length;
    }
    return from;
}

/* where the driver writes the byte at an address of a slot */
static uint8_t *mirror_of(uint64_t at, uint64_t length) {
    for (uint64_t i = 0; i < slot_count; i++)
        if (at - slots[i].at < slots[i].length && length <= slots[i].length - (at - slots[i].at))
            return slots[i].mirror + (at - slots[i].at);
    fprintf(stderr, "no slot holds %#llx\n", (unsigned long long)at);
    exit(2);
}

static uint64_t number(const uint8_t **from) {
    uint64_t n;
    memcpy(&n, *from, 8);
    *from += 8;
    return n;
}

static void put(FILE *results, const void *bytes, uint64_t length) {
    if (fwrite(bytes, 1, length, results) != length) fail("results");
}

static void put_number(FILE *results, uint64_t n) {
    put(results, &n, 8);
}

/* the registers, vectors, flags and memory of a test; the return slot at the stack's end holds the way back */
static uint64_t load_test(const uint8_t **from, struct piece *pieces) {
    context.flags = number(from) | TRAP_FLAG | 2;
    memcpy(context.regs, *from, sizeof context.regs);
    *from += sizeof context.regs;
    memcpy(context.vecs, *from, sizeof context.vecs);
    *from += sizeof context.vecs;
    uint64_t count = number(from);
    if (count > MOST_PIECES) fail("pieces");
    for (uint64_t i = 0; i < count; i++) {
        pieces[i].at = number(from);
        pieces[i].length = number(from);
        memcpy(mirror_of(pieces[i].at, pieces[i].length), *from, pieces[i].length);
        *from += pieces[i].length;
    }
    uint64_t back = (uint64_t)(uintptr_t)come_back;
    memcpy(mirror_of(context.regs[4], 8), &back, 8);
    return count;
}

static void run_test(const uint8_t **from, FILE *results, uint64_t target, uint64_t places) {
    struct piece pieces[MOST_PIECES];
    uint64_t count = load_test(from, pieces);
    memset(begun, 0, places * sizeof *begun);
    steps = 0;
    ended_by = 0;
    context.target = target;
    enter();
    put_number(results, (uint64_t)ended_by);
    put_number(results, steps);
    put(results, context.regs, sizeof context.regs);
    put(results, context.vecs, sizeof context.vecs);
    put_number(results, context.flags);
    for (uint64_t i = 0; i < count; i++) put(results, mirror_of(pieces[i].at, pieces[i].length), pieces[i].length);
    put(results, begun, places * sizeof *begun);
}

static void run_function(const uint8_t **from, FILE *results) {
    uint64_t places = number(from), first = 0, end = 0;
    begun = calloc(places, sizeof *begun);
    for (uint64_t i = 0; i <= places; i++) {
        uint64_t offset = number(from);
        if (offset >= code_length + (i == places)) fail("an offset behind the code");
        if (i == 0) first = offset;
        if (i < places) place_at[offset] = (uint16_t)(i + 1);
        end = offset;
    }
    for (uint64_t tests = number(from); tests > 0; tests--)
        run_test(from, results, (uint64_t)(uintptr_t)code + first, places);
    memset(place_at + first, 0, (end - first) * sizeof *place_at);
    free(begun);
}

int main(int count, char **names) {
    if (count != 4) return 2;
    uint64_t jobs_length;
    uint8_t *bytes = whole_file(names[1], &code_length);
    const uint8_t *jobs = whole_file(names[2], &jobs_length), *from = map_slots(jobs);
    code = mmap(NULL, code_length, PROT_READ | PROT_WRITE, MAP_PRIVATE | MAP_ANONYMOUS, -1, 0);
    if (code == MAP_FAILED) fail("mmap");
    memcpy(code, bytes, code_length);
    if (mprotect(code, code_length, PROT_READ | PROT_EXEC) != 0) fail("mprotect");
    place_at = calloc(code_length + 1, sizeof *place_at);
    FILE *results = fopen(names[3], "wb");
    if (results == NULL) fail(names[3]);
    handle_signals();
    while (from < jobs + jobs_length) run_function(&from, results);
    return fclose(results) == 0 ? 0 : 2;
}
