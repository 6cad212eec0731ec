/* Which code for this processor. The proved bitcode is compiled several times: for any x86-64, and for each level of it that makes
   something faster. tools/dev staticlib puts all of it into one library, and writes a jump for each entry point to the code that is in
   use. This file chooses that code, once, before `main` begins. The choice changes no answer: all of it is the same bitcode, compiled by
   the same compiler. Nothing of this file is proved; tools/dev levels asks every level the same questions as the model. */

#ifdef LEVELS
#define HIDDEN __attribute__((visibility("hidden")))

/* An entry point: the code that it jumps to, and its code for each level, from 1 on. Where a level makes it no faster, that is the code of
   a lower level. */
struct entry {
    void *in_use;
    void *code[LEVELS];
};

HIDDEN extern struct entry wakeluri_entries[], wakeluri_entries_end[];

struct registers {
    unsigned a, b, c, d;
};

static struct registers cpuid(unsigned leaf) {
    struct registers r;
    __asm__("cpuid" : "=a"(r.a), "=b"(r.b), "=c"(r.c), "=d"(r.d) : "a"(leaf), "c"(0));
    return r;
}

/* Which registers the system keeps for a program: bits 1 and 2 for those of 128 and 256 bits, bits 5 to 7 for those of 512. */
static unsigned kept_registers(void) {
    unsigned low, high;
    __asm__("xgetbv" : "=a"(low), "=d"(high) : "c"(0));
    return low;
}

static int has(unsigned word, unsigned bits) {
    return (word & bits) == bits;
}

/* The level of the x86-64 psABI that the processor and the system have: 4, 3 or 1. (No code is compiled for level 2.) */
static unsigned level_here(void) {
    unsigned const sse3_ssse3_fma_cx16_sse41_sse42_movbe_popcnt = 1 << 0 | 1 << 9 | 1 << 12 | 1 << 13 | 1 << 19 | 1 << 20 | 1 << 22 | 1 << 23;
    unsigned const osxsave_avx_f16c = 1 << 27 | 1 << 28 | 1 << 29, lahf_lzcnt = 1 << 0 | 1 << 5;
    unsigned const bmi1_avx2_bmi2 = 1 << 3 | 1 << 5 | 1 << 8, avx512_f_dq_cd_bw_vl = 1u << 16 | 1u << 17 | 1u << 28 | 1u << 30 | 1u << 31;
    if (cpuid(0).a < 7 || cpuid(0x80000000u).a < 0x80000001u)
        return 1;
    struct registers one = cpuid(1), seven = cpuid(7);
    if (!has(one.c, sse3_ssse3_fma_cx16_sse41_sse42_movbe_popcnt | osxsave_avx_f16c) || !has(cpuid(0x80000001u).c, lahf_lzcnt)
        || !has(seven.b, bmi1_avx2_bmi2) || !has(kept_registers(), 0x06))
        return 1;
    return has(seven.b, avx512_f_dq_cd_bw_vl) && has(kept_registers(), 0xe6) ? 4 : 3;
}

/* Uses the code of a level, or of the best that the processor has where that is less; 0 asks for the best. Returns the level in use. */
unsigned long long wakeluri_use_level(unsigned long long level) {
    unsigned const best = level_here();
    unsigned const taken = level == 0 || best < level ? best : (unsigned)level;
    for (struct entry *e = wakeluri_entries; e != wakeluri_entries_end; e++)
        __atomic_store_n(&e->in_use, e->code[taken - 1], __ATOMIC_RELAXED);
    return taken;
}

__attribute__((constructor)) static void choose(void) {
    wakeluri_use_level(0);
}
#else
/* A library for one level alone. */
unsigned long long wakeluri_use_level(unsigned long long level) {
    (void)level;
    return 1;
}
#endif
