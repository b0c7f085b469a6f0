/* The firmware's archive, tried from C against model.h: the published vector, every length, every single damaged bit, random blocks, every site;
 * and the stack that each call and the example use, measured on a painted stack. Blocks are lent read-only and end at a page that may not be touched. */
#define _GNU_SOURCE
#include <stdio.h>
#include <stdlib.h>
#include <string.h>
#include <sys/mman.h>
#include <unistd.h>

#include "model.h"
#include "siren_firmware.h"

#define MOST 1100
#define PAINT 0xa5
#define STACK 65536
/* The board has 1,024 bytes for everything. A call may take a quarter of it: a copy of the block, as 126 words, would take half. */
#define BOARD 1024
#define STACK_ALLOWED 256

static unsigned long tried;

static void same(const char *what, unsigned long which, unsigned got, unsigned want)
{
    tried++;
    if (got != want) {
        printf("firmware: %s %lu: answered %u, expected %u\n", what, which, got, want);
        exit(1);
    }
}

/* ---- a lent block: its last byte is the last of a page, the next page is forbidden, and while it is lent nothing may write to it */

static uint8_t *page;
static size_t page_size;

static void make_page(void)
{
    page_size = (size_t)sysconf(_SC_PAGESIZE);
    if (page_size < MOST)
        exit(1);
    page = mmap(NULL, 2 * page_size, PROT_READ | PROT_WRITE, MAP_PRIVATE | MAP_ANONYMOUS, -1, 0);
    if (page == MAP_FAILED || mprotect(page + page_size, page_size, PROT_NONE) != 0)
        exit(1);
}

static uint8_t lent_check(const uint8_t *bytes, size_t length)
{
    uint8_t *at = page + page_size - length;
    uint8_t answer;
    if (length != 0)
        memcpy(at, bytes, length);
    if (mprotect(page, page_size, PROT_READ) != 0)
        exit(1);
    answer = siren_block_check(at, length);
    if (mprotect(page, page_size, PROT_READ | PROT_WRITE) != 0)
        exit(1);
    return answer;
}

/* ---- the stack that a call uses: the call runs on a stack painted beforehand, and what it touched is no longer painted */

static uint8_t *painted;

static size_t touched(void)
{
    size_t i = 0;
    while (i < STACK && painted[i] == PAINT)
        i++;
    return STACK - i;
}

static uint64_t call_painted(void *function, uint64_t a, uint64_t b, uint64_t c, size_t *used)
{
    uint64_t answer;
    void *top = painted + STACK;
    memset(painted, PAINT, STACK);
#if defined(__x86_64__)
    __asm__ volatile("mov %%rsp, %%rbx\n\t"
                     "mov %[top], %%rsp\n\t"
                     "call *%[function]\n\t"
                     "mov %%rbx, %%rsp\n\t"
                     : "=a"(answer), "+D"(a), "+S"(b), "+d"(c)
                     : [top] "r"(top), [function] "r"(function)
                     : "rbx", "rcx", "r8", "r9", "r10", "r11", "xmm0", "xmm1", "xmm2", "xmm3", "xmm4", "xmm5", "xmm6", "xmm7", "xmm8",
                       "xmm9", "xmm10", "xmm11", "xmm12", "xmm13", "xmm14", "xmm15", "memory", "cc");
#elif defined(__aarch64__)
    register uint64_t x0 __asm__("x0") = a;
    register uint64_t x1 __asm__("x1") = b;
    register uint64_t x2 __asm__("x2") = c;
    __asm__ volatile("mov x19, sp\n\t"
                     "mov sp, %[top]\n\t"
                     "blr %[function]\n\t"
                     "mov sp, x19\n\t"
                     : "+r"(x0), "+r"(x1), "+r"(x2)
                     : [top] "r"(top), [function] "r"(function)
                     : "x3", "x4", "x5", "x6", "x7", "x8", "x9", "x10", "x11", "x12", "x13", "x14", "x15", "x16", "x17", "x18", "x19", "x30", "v0", "v1",
                       "v2", "v3", "v4", "v5", "v6", "v7", "v8", "v9", "v10", "v11", "v12", "v13", "v14", "v15", "v16", "v17", "v18", "v19", "v20", "v21",
                       "v22", "v23", "v24", "v25", "v26", "v27", "v28", "v29", "v30", "v31", "memory", "cc");
    answer = x0;
#else
#error "no way is known to call on another stack on this machine"
#endif
    *used = touched();
    return answer & 0xff;
}

/* A function that writes a copy of a block to its stack. Where a call puts no return address there, the measure of one that needs no stack is 0, as a
 * measure that sees nothing would be: this one it must see. */
static uint64_t __attribute__((noinline)) copies(const uint8_t *block, size_t length)
{
    volatile uint8_t copy[512];
    uint64_t sum = 0;
    for (size_t i = 0; i < length; i++)
        copy[i] = block[i];
    for (size_t i = 0; i < length; i++)
        sum += copy[i];
    return sum;
}

/* ---- the example, of example.c: what a controller does, and the same with what is printed of it */

void controller(void);
int example(void);

/* ---- numbers that are the same in each run */

static uint64_t seed = 88172645463325252u;

static uint64_t next_number(void)
{
    seed ^= seed << 13;
    seed ^= seed >> 7;
    seed ^= seed << 17;
    return seed;
}

static void random_bytes(uint8_t *at, size_t length)
{
    for (size_t i = 0; i < length; i++)
        at[i] = (uint8_t)(next_number() >> 24);
}

int main(void)
{
    uint8_t block[MOST], damaged[512];
    uint32_t s, t;

    make_page();
    painted = aligned_alloc(64, STACK);
    if (painted == NULL)
        return 1;

    /* the published vector: one site, slice 1 */
    random_bytes(block, sizeof block);
    model_one_site(block);
    model_sums(block, &s, &t);
    printf("one site, slice 1: s = %u, t = %u\n", s, t);
    if (s != 65538 || t != 8257785)
        return 1;
    same("published vector", 0, lent_check(block, 512), 0);

    /* every length, of a block whose first 512 bytes are right; and no bytes at all */
    for (size_t length = 0; length <= MOST; length++)
        same("length", length, lent_check(block, length), length == 512 ? 0 : 1);
    same("null with length", 0, siren_block_check(NULL, 0), 1);
    printf("lengths 0 to %d: 1 but for 512\n", MOST);

    /* every single bit damaged, in a block of one slice and in a full one */
    for (int full = 0; full <= 1; full++) {
        if (full) {
            random_bytes(block, 504);
            model_seal(block);
        }
        for (unsigned bit = 0; bit < 4096; bit++) {
            memcpy(damaged, block, 512);
            damaged[bit / 8] ^= (uint8_t)(1u << (bit % 8));
            same("damaged bit", bit, lent_check(damaged, 512), 2);
        }
    }
    printf("every single bit of two blocks damaged: 2\n");

    /* any bytes: right checks, wrong checks, sums that wrap, zeros */
    memset(damaged, 0, 512);
    same("zeros", 0, lent_check(damaged, 512), 0);
    memset(damaged, 0xff, 512);
    same("ones", 0, lent_check(damaged, 512), model_check(damaged, 512));
    for (unsigned long i = 0; i < 100000; i++) {
        random_bytes(damaged, 512);
        if (i % 2 == 0)
            model_seal(damaged);
        if (i % 10 == 8)
            damaged[504 + i % 8]++;
        same("random block", i, lent_check(damaged, 512), model_check(damaged, 512));
    }

    /* every site with each case of its own two bits, the other bits all unset, all set and mixed; and sites that are none */
    for (uint64_t site = 0; site <= 71; site++) {
        uint64_t asked = site == 71 ? UINT64_MAX : site;
        for (unsigned which = 0; which < 4; which++) {
            uint64_t bit = asked > 63 ? 0 : (uint64_t)1 << asked;
            uint64_t others[3] = {0, ~bit, next_number() & ~bit};
            for (int i = 0; i < 3; i++)
                for (int j = 0; j < 3; j++) {
                    uint64_t drill = others[i] | (which & 1 ? bit : 0), live = others[j] | (which & 2 ? bit : 0);
                    uint8_t want = asked > 63 ? 11 : which == 1 ? 1 : 0;
                    same("mark of site", asked, siren_site_mark(asked, drill, live), want);
                    same("model's mark of site", asked, model_mark(asked, drill, live), want);
                }
        }
    }
    printf("marks of sites 0 to 70 and of the largest number: 1 for drill without live, 11 above 63, else 0\n");

    /* the stack */
    size_t used, most_check = 0, most_mark = 0, of_controller, of_example;
    model_one_site(block);
    call_painted((void *)copies, (uint64_t)block, 512, 0, &used);
    same("a copy of a block is seen on the painted stack", used, used >= 512, 1);
    for (size_t length = 0; length <= MOST; length++) {
        uint64_t answer = call_painted((void *)siren_block_check, (uint64_t)block, length, 0, &used);
        same("length on the painted stack", length, (unsigned)answer, length == 512 ? 0 : 1);
        if (used > most_check)
            most_check = used;
    }
    for (uint64_t site = 0; site <= 70; site++) {
        uint64_t answer = call_painted((void *)siren_site_mark, site, 0xf0, 0x30, &used);
        same("site on the painted stack", site, (unsigned)answer, model_mark(site, 0xf0, 0x30));
        if (used > most_mark)
            most_mark = used;
    }
    call_painted((void *)controller, 0, 0, 0, &of_controller);
    call_painted((void *)example, 0, 0, 0, &of_example);
    printf("stack: block check %zu bytes, site mark %zu bytes, of %d allowed; the example's controller, both calls in it, %zu of %d; the whole example, which prints, %zu\n",
           most_check, most_mark, STACK_ALLOWED, of_controller, BOARD, of_example);
    if (most_check > STACK_ALLOWED || most_mark > STACK_ALLOWED || of_controller > BOARD) {
        printf("firmware: more stack than is allowed\n");
        return 1;
    }

    printf("firmware: %lu answers right\n", tried);
    return 0;
}
