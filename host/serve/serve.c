/*
 * serve: lets a program of another kind call the library's C entries.
 *
 * The archive is code for x86-64. The comparison program talks to this one through its standard input and output, so
 * it can run beside an emulator as well. Entries are there as HAS_name says, one flag for each that the header declares.
 *
 * Request:  op, then p, q, key (2 bytes each), times, len, row_len (4 bytes each), the record, the row. Low byte first.
 * Response: 1 there or 0 no such entry; answer, nanoseconds, stack bytes (8 bytes each), the record, the row afterwards.
 * times 0: one call on a stack of its own, to see how much of it is touched. Otherwise so many calls on fresh copies.
 */
#define _DEFAULT_SOURCE
#include <stdio.h>
#include <stdlib.h>
#include <string.h>
#include <sys/mman.h>
#include <time.h>

#include "concoursel.h"

enum { READ, FORWARD, UNDO, FIRST, COUNT, LEAST_FREE, UNDO_LISTING, WAITING, BLANK, VERDICT, NODE, TAKE_BACK };

struct request {
    uint8_t op;
    uint16_t p, q, key;
    uint32_t times, len, row_len;
};

static void fail(const char *why) {
    fprintf(stderr, "serve: %s\n", why);
    exit(3);
}

/* Makes the call of the request; 0 if the library has no such entry. */
static int call(const struct request *r, uint8_t *record, uint16_t *row, uint64_t *answer) {
    (void)record, (void)row, (void)answer;
    switch (r->op) {
#ifdef HAS_read
    case READ: *answer = concoursel_read(record, r->len); return 1;
#endif
#ifdef HAS_forward
    case FORWARD: *answer = concoursel_forward(record, r->len, r->p, r->q, r->key); return 1;
#endif
#ifdef HAS_undo
    case UNDO: *answer = concoursel_undo(record, r->len, r->key); return 1;
#endif
#ifdef HAS_first
    case FIRST: *answer = concoursel_first(record, r->len, r->p, r->q); return 1;
#endif
#ifdef HAS_count
    case COUNT: *answer = concoursel_count(record, r->len); return 1;
#endif
#ifdef HAS_least_free
    case LEAST_FREE: *answer = concoursel_least_free(record, r->len); return 1;
#endif
#ifdef HAS_undo_listing
    case UNDO_LISTING: *answer = concoursel_undo_listing(record, r->len, row, r->row_len); return 1;
#endif
#ifdef HAS_waiting
    case WAITING: *answer = concoursel_waiting(record, r->len, r->key, row, r->row_len); return 1;
#endif
#ifdef HAS_blank
    case BLANK: *answer = concoursel_blank(record, r->len); return 1;
#endif
#ifdef HAS_verdict
    case VERDICT: *answer = concoursel_verdict(record, r->len); return 1;
#endif
#ifdef HAS_node
    case NODE: *answer = concoursel_node(record, r->len, r->p); return 1;
#endif
#ifdef HAS_take_back
    case TAKE_BACK: *answer = concoursel_take_back(record, r->len, r->key, row, r->row_len); return 1;
#endif
    default: return 0;
    }
}

#define STACK_SIZE (4u << 20)
#define PATTERN 0xa7

#ifdef __x86_64__
/* A call waiting to be made on the other stack. */
static struct {
    const struct request *request;
    uint8_t *record;
    uint16_t *row;
    uint64_t answer;
    int there;
} job;

static void run_job(void) {
    job.there = call(job.request, job.record, job.row, &job.answer);
}

/* The bytes below the top of a fresh stack that the function touches. */
static uint64_t stack_of(void (*function)(void)) {
    static uint8_t *stack;
    if (!stack) stack = aligned_alloc(4096, STACK_SIZE);
    if (!stack) fail("no memory");
    memset(stack, PATTERN, STACK_SIZE);
    register uint8_t *top __asm__("r12") = stack + STACK_SIZE;
    register void (*target)(void) __asm__("r13") = function;
    __asm__ volatile("xchg %%rsp, %0\n\tcall *%1\n\tmov %0, %%rsp"
                     : "+r"(top)
                     : "r"(target)
                     : "rax", "rcx", "rdx", "rsi", "rdi", "r8", "r9", "r10", "r11", "xmm0", "xmm1", "xmm2", "xmm3",
                       "xmm4", "xmm5", "xmm6", "xmm7", "xmm8", "xmm9", "xmm10", "xmm11", "xmm12", "xmm13", "xmm14",
                       "xmm15", "memory", "cc");
    uint32_t lowest = 0;
    while (lowest < STACK_SIZE && stack[lowest] == PATTERN) lowest++;
    if (lowest < 4096) fail("the entry came near the end of its stack");
    return STACK_SIZE - lowest;
}

/* What the call touches beyond what reaching an entry that is not there touches: the entry's own need. */
static int call_for_stack(const struct request *r, uint8_t *record, uint16_t *row, uint64_t *answer, uint64_t *stack) {
    struct request nothing = *r;
    nothing.op = 255;
    job.record = record;
    job.row = row;
    job.request = &nothing;
    uint64_t before = stack_of(run_job);
    job.request = r;
    *stack = stack_of(run_job) - before;
    *answer = job.answer;
    return job.there;
}
#else
static int call_for_stack(const struct request *r, uint8_t *record, uint16_t *row, uint64_t *answer, uint64_t *stack) {
    *stack = 0;
    return call(r, record, row, answer);
}
#endif

static uint64_t now(void) {
    struct timespec time;
    if (clock_gettime(CLOCK_MONOTONIC, &time)) fail("no clock");
    return (uint64_t)time.tv_sec * 1000000000u + (uint64_t)time.tv_nsec;
}

/* A lent buffer ends right before a page that nobody may touch; 64 bytes before it hold a pattern. */
#define ROOM (1u << 20)
#define GUARD 64

static uint8_t *fence(void) {
    uint8_t *all = mmap(NULL, ROOM + 65536, PROT_READ | PROT_WRITE, MAP_PRIVATE | MAP_ANONYMOUS, -1, 0);
    if (all == MAP_FAILED || mprotect(all + ROOM, 65536, PROT_NONE)) fail("no memory");
    return all + ROOM;
}

static void take(void *to, size_t bytes) {
    if (bytes && fread(to, 1, bytes, stdin) != bytes) exit(0);
}

static uint64_t take_number(int bytes) {
    uint8_t in[8];
    uint64_t number = 0;
    take(in, (size_t)bytes);
    while (bytes--) number = number << 8 | in[bytes];
    return number;
}

static void give_number(uint64_t number) {
    for (int i = 0; i < 8; i++) putchar((int)(number >> 8 * i & 255));
}

static struct request take_request(void) {
    struct request r;
    r.op = (uint8_t)take_number(1);
    r.p = (uint16_t)take_number(2);
    r.q = (uint16_t)take_number(2);
    r.key = (uint16_t)take_number(2);
    r.times = (uint32_t)take_number(4);
    r.len = (uint32_t)take_number(4);
    r.row_len = (uint32_t)take_number(4);
    if (r.len > ROOM / 2 || r.row_len > ROOM / 8) fail("request too large");
    return r;
}

static int guards_stand(const uint8_t *start) {
    for (int i = 1; i <= GUARD; i++)
        if (start[-i] != PATTERN) return 0;
    return 1;
}

int main(void) {
    uint8_t *record_end = fence(), *row_end = fence(), *original = malloc(ROOM);
    if (!original) fail("no memory");
    for (;;) {
        struct request r = take_request();
        uint8_t *record = record_end - r.len;
        uint16_t *row = (uint16_t *)(void *)(row_end - 2 * (size_t)r.row_len);
        uint64_t answer = 0, time = 0, stack = 0;
        int there = 0;
        memset(record - GUARD, PATTERN, GUARD);
        memset((uint8_t *)row - GUARD, PATTERN, GUARD);
        take(original, r.len);
        take(row, 2 * (size_t)r.row_len);
        memcpy(record, original, r.len);
        if (r.times == 0) {
            there = call_for_stack(&r, record, row, &answer, &stack);
        } else {
            uint64_t start = now();
            for (uint32_t i = 0; i < r.times; i++) {
                memcpy(record, original, r.len);
                there = call(&r, record, row, &answer);
            }
            time = now() - start;
        }
        if (!guards_stand(record) || !guards_stand((uint8_t *)row)) fail("a call wrote before a lent buffer");
        putchar(there);
        give_number(answer);
        give_number(time);
        give_number(stack);
        fwrite(record, 1, r.len, stdout);
        fwrite(row, 2, r.row_len, stdout);
        if (fflush(stdout)) return 1;
    }
}
