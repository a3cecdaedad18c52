/* The header and the archive from C: a run is fetched as far as it is needed, translated, placed and entered, and its block is found again,
 * until a write touches its code.
 *
 *     (cd crates/capi && rt lib)
 *     cc -std=c11 -Wall -Wextra -Werror -pedantic c/test.c crates/capi/out/libcapi.a -o crates/capi/out/c-test && crates/capi/out/c-test
 *
 * Ends with status 0, and prints nothing but that all is well, where everything is as expected. */
#define _DEFAULT_SOURCE
#include "emuko_x64_blocks.h"

#include <stdio.h>
#include <stdlib.h>
#include <string.h>
#include <sys/mman.h>

#define CHECK(condition) \
    do { \
        if (!(condition)) { \
            fprintf(stderr, "c/test.c:%d: not so: %s\n", __LINE__, #condition); \
            exit(1); \
        } \
    } while (0)

#define START 0x80000000u

/* ADDI x1, x0, 5; ADD x2, x1, x1; LD x3, 0(x1); what stands behind it is not needed. */
static const uint16_t code[] = {0x0093, 0x0050, 0x8133, 0x0010, 0xB183, 0x0000, 0x0093};

/* FENCE.I, which ends its block; ADDI x1, x0, 5. */
static const uint16_t fence_i[] = {0x100F, 0x0000, 0x0093, 0x0050};

/* C.LI a0, 5; C.ADDI a0, 1; ADD x11, x10, x10; C.JALR ra; what stands behind it is not needed. */
static const uint16_t mixed[] = {0x4515, 0x0505, 0x05B3, 0x00A5, 0x9082, 0x0001};

/* DIV x3, x1, x2; REM x4, x1, x2; DIVW x5, x1, x2; REMUW x6, x1, x2; DIV x0, x1, x0. */
static const uint16_t divisions[] = {0xC1B3, 0x0220, 0xE233, 0x0220, 0xC2BB, 0x0220, 0xF33B, 0x0220, 0xC033, 0x0200};

/* How many of the halfwords a translation needs. */
static size_t needed(const uint16_t *halfwords, size_t length, uint32_t limit) {
    size_t k = 0;
    for (uint32_t step = 0; step < limit && step < EMUKO_MOST_STEPS && k < length; step++) {
        uint16_t low = halfwords[k++];
        uint32_t word = emuko_expand(low);
        if ((low & 3) == 3) {
            if (k == length) return k;
            word = (uint32_t)halfwords[k++] << 16 | low;
        }
        if (emuko_word_kind(word) != EMUKO_STRAIGHT) return k;
    }
    return k;
}

/* The hart is the registers: x3 becomes 1000 + x1. */
static emuko_result load(void *hart, void *bus_data, void *bus_vtable, uint64_t instruction, uint64_t pc) {
    uint64_t *regs = hart;
    CHECK(bus_data == &regs[30] && bus_vtable == &regs[31]);
    CHECK(instruction == 0x0000B183 && pc == START + 8);
    regs[3] = 1000 + regs[1];
    return (emuko_result){pc + 4, 1};
}

static uint64_t address(emuko_helper helper) {
    uint64_t number;
    memcpy(&number, &helper, sizeof number);
    return number;
}

/* The block at an offset of the store. */
static emuko_block entry(uint8_t *store, uint64_t offset) {
    emuko_block block;
    void *at = store + offset;
    memcpy(&block, &at, sizeof block);
    return block;
}

static void kinds(void) {
    CHECK(emuko_word_kind(0x4020C1B3) == EMUKO_NOT_TAKEN);
    CHECK(emuko_word_kind(0x00500093) == EMUKO_STRAIGHT);
    CHECK(emuko_word_kind(0x0220C1B3) == EMUKO_STRAIGHT);
    CHECK(emuko_word_kind(0x0000006F) == EMUKO_ENDING);
    CHECK(emuko_word_kind(0x0000000F) == EMUKO_STRAIGHT);
    CHECK(emuko_word_kind(0x0000100F) == EMUKO_ENDING);
    CHECK(emuko_word_kind(0x0000B183) == EMUKO_MEMORY_HELPER);
    CHECK(emuko_word_kind(0x00008067) == EMUKO_ENDING);
    for (uint32_t funct3 = 1; funct3 < 8; funct3++) CHECK(emuko_word_kind(0x00008067 | funct3 << 12) == EMUKO_NOT_TAKEN);
}

/* What compressed halfwords are translated as, and those that a helper executes: a load, C.EBREAK, a reserved one, 0, half a word. */
static void expansions(void) {
    CHECK(emuko_expand(0x0001) == 0x00000013);
    CHECK(emuko_expand(0x0502) == 0x00051513);
    CHECK(emuko_expand(0x852E) == 0x00B00533);
    CHECK(emuko_expand(0x9082) == 0x000080E7);
    CHECK(emuko_expand(0xC111) == 0x00050263);
    CHECK(emuko_word_kind(emuko_expand(0x852E)) == EMUKO_STRAIGHT);
    CHECK(emuko_word_kind(emuko_expand(0xC111)) == EMUKO_ENDING);
    CHECK(!emuko_expand(0x4108) && !emuko_expand(0x9002) && !emuko_expand(0x9C45) && !emuko_expand(0x0000) && !emuko_expand(0x0093));
    uint32_t in_line = 0;
    for (uint32_t halfword = 0; halfword <= UINT16_MAX; halfword++) in_line += emuko_expand((uint16_t)halfword) != 0;
    CHECK(in_line == 16088 + 6206);
}

static uint8_t out[EMUKO_GREATEST_BLOCK];

/* A block that ends behind FENCE.I, and every refusal; then a load's block, translated, placed, inserted, found and entered. */
static void with_a_helper(uint8_t *store, size_t size) {
    size_t length = needed(code, sizeof code / sizeof code[0], 64);
    CHECK(length == 6);
    CHECK(needed(fence_i, sizeof fence_i / sizeof fence_i[0], 64) == 2);
    emuko_reply fenced = emuko_translate(START, 64, fence_i, sizeof fence_i / sizeof fence_i[0], 0, 0, out, sizeof out);
    CHECK(fenced.number == 0 && fenced.first == 67 && fenced.second == 1 && fenced.third == 4);

    uint64_t helper = address(load);
    emuko_reply reply = emuko_translate(START, 64, code, length, 0, helper, out, sizeof out);
    CHECK(reply.number == 0 && reply.second == 3 && reply.third == 12);
    CHECK(emuko_translate(START, 0, code, length, 0, 0, out, sizeof out).number == 1);
    CHECK(emuko_translate(START + 1, 1, code, length, 0, 0, out, sizeof out).first == START + 1);
    CHECK(emuko_translate(START, 1, code, 1, 0, 0, out, sizeof out).first == 1);
    CHECK(emuko_translate(START, 1, code, length, 0, 0, out, sizeof out - 1).number == 5);

    emuko_reply placed = emuko_place(out, reply.first, store, size, 5);
    CHECK(placed.number == 0 && placed.first == 8 && placed.second == 8 + reply.first);
    CHECK(emuko_place(out, reply.first, store, size, size + 1).number == 6);
    CHECK(emuko_place(out, reply.first, store, size, size).number == 7);

    emuko_entry entries[4] = {0};
    emuko_native_block block = {placed.first, (uint32_t)reply.second, reply.first, reply.third};
    CHECK(emuko_index_insert(entries, 4, 0, START, block).number == 0);
    emuko_entry found = emuko_index_find(entries, 4, 0, START);
    CHECK(found.in_use && found.block.count == 3 && found.block.span == 12);
    CHECK(found.block.length == reply.first && memcmp(store + found.block.offset, out, found.block.length) == 0);
    uint64_t regs[32] = {0};
    emuko_result result = entry(store, found.block.offset)(regs, regs, &regs[30], &regs[31], NULL, NULL);
    CHECK(result.next_pc == START + 12 && result.executed == 3);
    CHECK(regs[0] == 0 && regs[1] == 5 && regs[2] == 10 && regs[3] == 1005 && regs[4] == 0);

    /* Four bytes are written behind the block, then two that are the upper half of its last word. */
    CHECK(emuko_index_drop(entries, 4, START + 12, 4) == 0 && emuko_index_find(entries, 4, 0, START).in_use);
    CHECK(emuko_index_drop(entries, 4, START + 10, 2) == 1 && !emuko_index_find(entries, 4, 0, START).in_use);
}

/* The span of the block of so many halfwords. */
static uint64_t span_of(const uint16_t *halfwords, size_t length) {
    emuko_reply reply = emuko_translate(START, 64, halfwords, length, 0, 0, out, sizeof out);
    CHECK(reply.number == 0);
    return reply.third;
}

/* A word counts four bytes, a load too, and a halfword two, in line or not; a branch with funct3 2, which is not taken, none. A reply that
 * is no block has no third value. */
static void spans(void) {
    static const uint16_t in_line[] = {0x0093, 0x0050, 0x0001}, halfword[] = {0x0093, 0x0050, 0x4108},
                          load[] = {0x0093, 0x0050, 0xB083, 0x0000}, branch[] = {0x0093, 0x0050, 0x2063, 0x0000};
    uint16_t longest[2 * EMUKO_MOST_STEPS + 2], shortest[EMUKO_MOST_STEPS + 1];
    for (size_t k = 0; k < sizeof longest / sizeof longest[0]; k++) longest[k] = k % 2 ? 0x0050 : 0x0093;
    for (size_t k = 0; k < sizeof shortest / sizeof shortest[0]; k++) shortest[k] = 0x0001;
    CHECK(span_of(in_line, 3) == 6 && span_of(in_line + 2, 1) == 2);
    CHECK(span_of(halfword, 3) == 6 && span_of(halfword + 2, 1) == 2);
    CHECK(span_of(shortest, sizeof shortest / sizeof shortest[0]) == EMUKO_MOST_SPAN / 2);
    CHECK(span_of(load, 4) == 8 && span_of(branch, 4) == 4 && span_of(load, 3) == 4);
    CHECK(span_of(longest, sizeof longest / sizeof longest[0]) == EMUKO_MOST_SPAN);
    emuko_reply refused = emuko_translate(START, 64, branch + 2, 2, 0, 0, out, sizeof out);
    CHECK(refused.number == 4 && refused.first == 0x2063 && refused.second == 0 && refused.third == 0);
}

/* JALR with funct3 1 is not taken: number 4, and behind ADDI the block that ADDI has alone. An index made under earlier rules, in which
 * such a word has a block, is emptied once. */
static void reserved_jumps(void) {
    static const uint16_t jalr[] = {0x0093, 0x0050, 0x9067, 0x0000};
    static uint8_t alone[EMUKO_GREATEST_BLOCK];
    emuko_reply refused = emuko_translate(START, 64, jalr + 2, 2, 0, 0, out, sizeof out);
    CHECK(refused.number == 4 && refused.first == 0x9067 && refused.second == 0 && refused.third == 0);
    emuko_reply addi = emuko_translate(START, 64, jalr, 2, 0, 0, alone, sizeof alone);
    emuko_reply reply = emuko_translate(START, 64, jalr, 4, 0, 0, out, sizeof out);
    CHECK(reply.number == 0 && reply.first == 88 && reply.second == 1 && reply.third == 4);
    CHECK(addi.first == 88 && memcmp(out, alone, 88) == 0);

    uint32_t made_under = 0;
    emuko_entry entries[1] = {{0, START, {0, 1, 81, 4}, 1}};
    emuko_code_cache cache = {81};
    if (made_under != emuko_rules()) {
        emuko_index_empty(entries, 1, &cache);
        made_under = emuko_rules();
    }
    CHECK(made_under == 7 && cache.used == 0 && !emuko_index_find(entries, 1, 0, START).in_use);
}

/* A block of compressed instructions and a word: C.JALR links to the address two bytes behind its own, and jumps where ra led before. */
static void compressed(uint8_t *store, size_t size) {
    size_t length = needed(mixed, sizeof mixed / sizeof mixed[0], 64);
    CHECK(length == 5);
    emuko_reply reply = emuko_translate(START, 64, mixed, length, 0, 0, out, sizeof out);
    CHECK(reply.number == 0 && reply.second == 4 && reply.third == 10);
    emuko_reply placed = emuko_place(out, reply.first, store, size, 0);
    CHECK(placed.number == 0);
    uint64_t regs[32] = {0, START + 0x102};
    emuko_result result = entry(store, placed.first)(regs, NULL, NULL, NULL, NULL, NULL);
    CHECK(result.next_pc == START + 0x102 && result.executed == 4);
    CHECK(regs[0] == 0 && regs[1] == START + 10 && regs[10] == 6 && regs[11] == 12);

    /* C.NOP alone and behind a word; C.LW, which helper16 executes. */
    static const uint16_t nop[] = {0x0093, 0x0050, 0x0001}, load16[] = {0x4108};
    CHECK(emuko_translate(START, 64, nop + 2, 1, 0, 0, out, sizeof out).first == 81);
    CHECK(emuko_translate(START, 64, nop, 3, 0, 0, out, sizeof out).first == 102);
    CHECK(emuko_translate(START, 64, load16, 1, 0, 0, out, sizeof out).first == 88);
}

/* Divisions as usual, by zero, and where the signed quotient overflows. */
static void dividing(uint8_t *store, size_t size) {
    emuko_reply reply = emuko_translate(START, 64, divisions, sizeof divisions / sizeof divisions[0], 0, 0, out, sizeof out);
    CHECK(reply.number == 0 && reply.second == 5);
    emuko_reply placed = emuko_place(out, reply.first, store, size, 0);
    CHECK(placed.number == 0);
    const uint64_t minus_one = UINT64_MAX, most_negative = (uint64_t)1 << 63, minus_2_31 = 0xFFFFFFFF80000000;
    const uint64_t rows[][6] = {
        {(uint64_t)-7, 2, (uint64_t)-3, minus_one, (uint64_t)-3, 1},
        {7, 0, minus_one, 7, minus_one, 7},
        {most_negative, minus_one, most_negative, 0, 0, 0},
        {minus_2_31, minus_one, 0x80000000, 0, minus_2_31, minus_2_31},
    };
    for (size_t k = 0; k < sizeof rows / sizeof rows[0]; k++) {
        uint64_t regs[32] = {0, rows[k][0], rows[k][1]};
        emuko_result result = entry(store, placed.first)(regs, NULL, NULL, NULL, NULL, NULL);
        CHECK(result.next_pc == START + 20 && result.executed == 5 && regs[0] == 0);
        CHECK(memcmp(&regs[1], rows[k], sizeof rows[k]) == 0);
    }
}

_Static_assert(sizeof(emuko_reply) == 32, "a reply");
_Static_assert(sizeof(emuko_native_block) == 32 && offsetof(emuko_native_block, count) == 8 && offsetof(emuko_native_block, length) == 16
               && offsetof(emuko_native_block, span) == 24, "a block of the index");
_Static_assert(sizeof(emuko_entry) == 56 && offsetof(emuko_entry, pc) == 8 && offsetof(emuko_entry, block) == 16
               && offsetof(emuko_entry, in_use) == 48, "an entry of the index");

static int same(emuko_native_block a, emuko_native_block b) {
    return a.offset == b.offset && a.count == b.count && a.length == b.length && a.span == b.span;
}

/* Whether find shows this block under the key. */
static int shows(const emuko_entry *entries, size_t length, uint64_t satp, uint64_t pc, emuko_native_block block) {
    emuko_entry e = emuko_index_find(entries, length, satp, pc);
    return e.in_use && e.satp == satp && e.pc == pc && same(e.block, block);
}

/* Whether find shows nothing: an entry of zeros. */
static int none(const emuko_entry *entries, size_t length, uint64_t satp, uint64_t pc) {
    emuko_entry e = emuko_index_find(entries, length, satp, pc);
    return !e.in_use && !e.satp && !e.pc && same(e.block, (emuko_native_block){0});
}

/* Keys inserted, found, replaced and refused; then the index and the store's mark are emptied. */
static void indexing(void) {
    const uint64_t satp = (uint64_t)8 << 60 | 0x80001;
    const emuko_native_block a = {8, 3, 124, 12}, b = {(size_t)1 << 40, 64, EMUKO_GREATEST_BLOCK, EMUKO_MOST_SPAN}, c = {132, 1, 88, 2};
    emuko_entry entries[2] = {0};
    CHECK(none(entries, 2, satp, START));
    emuko_reply reply = emuko_index_insert(entries, 2, satp, START, a);
    CHECK(reply.number == 0 && reply.first == 0 && reply.second == 0 && reply.third == 0);
    reply = emuko_index_insert(entries, 2, satp, START + 4, b);
    CHECK(reply.number == 0 && reply.first == 1 && reply.second == 0 && entries[1].in_use == 1);
    CHECK(shows(entries, 2, satp, START, a) && shows(entries, 2, satp, START + 4, b));
    CHECK(none(entries, 2, 0, START) && none(entries, 2, satp, START + 8) && none(entries, 1, satp, START + 4));

    /* All are in use: a new key is refused, and one that is there replaced. */
    reply = emuko_index_insert(entries, 2, 0, START, c);
    CHECK(reply.number == 8 && reply.first == 0 && reply.second == 0);
    CHECK(shows(entries, 2, satp, START, a) && shows(entries, 2, satp, START + 4, b));
    reply = emuko_index_insert(entries, 2, satp, START + 4, c);
    CHECK(reply.number == 0 && reply.first == 1 && shows(entries, 2, satp, START + 4, c));

    emuko_code_cache cache = {4000};
    emuko_index_empty(entries, 2, &cache);
    CHECK(cache.used == 0 && !entries[0].in_use && !entries[1].in_use);
    CHECK(none(entries, 2, satp, START) && none(entries, 2, satp, START + 4));
    CHECK(entries[1].satp == satp && entries[1].pc == START + 4 && same(entries[1].block, c));
    /* A key in two entries in use, as in an array filled elsewhere: the first counts, and the second shows once the first is freed. */
    emuko_entry twice[3] = {{satp, START, a, 0}, {satp, START, b, 1}, {satp, START, c, 1}};
    CHECK(shows(twice, 3, satp, START, b));
    CHECK(emuko_index_insert(twice, 3, satp, START, a).first == 1 && shows(twice, 3, satp, START, a));
    twice[1].in_use = 0;
    CHECK(shows(twice, 3, satp, START, c));
    /* An index of no entries. */
    CHECK(none(NULL, 0, satp, START) && emuko_index_insert(NULL, 0, satp, START, a).number == 8);
}

/* Marks as C may write them: one byte of them 255, the first or the last, and all four. */
static void marks(void) {
    const emuko_native_block a = {8, 3, 124, 12}, b = {64, 5, 200, 20};
    for (size_t k = 0; k < 3; k++) {
        emuko_entry entries[3] = {0};
        entries[2].pc = START;
        uint8_t *mark = (uint8_t *)&entries[2].in_use;
        memset(k == 1 ? mark + 3 : mark, 255, k == 2 ? 4 : 1);
        const uint32_t written = entries[2].in_use;
        CHECK(shows(entries, 3, 0, START, (emuko_native_block){0}));
        /* The key is replaced where it stands, although others are free, and the mark stays. */
        CHECK(emuko_index_insert(entries, 3, 0, START, a).first == 2);
        CHECK(entries[2].in_use == written && shows(entries, 3, 0, START, a));
        CHECK(emuko_index_insert(entries, 3, 1, START, b).first == 0);
        CHECK(emuko_index_insert(entries, 3, 2, START, b).first == 1);
        CHECK(emuko_index_insert(entries, 3, 3, START, b).number == 8);
        emuko_code_cache cache = {1};
        emuko_index_empty(entries, 3, &cache);
        CHECK(entries[2].in_use == 0 && cache.used == 0);
    }
}

/* Whether a write drops the one entry that there is, whose block spans so many bytes. */
static int drops(uint64_t pc, uint64_t span, uint64_t address, uint64_t n) {
    emuko_entry one = {8, pc, {16, 1, 88, span}, 7};
    size_t number = emuko_index_drop(&one, 1, address, n);
    CHECK(number <= 1 && one.in_use == (number ? 0 : 7));
    CHECK(one.satp == 8 && one.pc == pc && same(one.block, (emuko_native_block){16, 1, 88, span}));
    return (int)number;
}

/* What a write touches: byte for byte, across the end of addresses, nothing where there are no bytes; then every entry in use that it
 * touches, under any satp, twice, with any mark. */
static void dropping(void) {
    CHECK(drops(START, 4, START + 3, 1) && !drops(START, 4, START + 4, 1));
    CHECK(drops(START, 4, START - 1, 2) && !drops(START, 4, START - 1, 1));
    const uint64_t end = UINT64_MAX - 3, sixteen = UINT64_MAX - 15;
    CHECK(drops(end, 8, 3, 1) && !drops(end, 8, 4, 1));
    CHECK(drops(0, 4, sixteen, 17) && !drops(0, 4, sixteen, 16));
    CHECK(!drops(START - 1, 1, START, UINT64_MAX) && drops(START - 2, 2, START, UINT64_MAX));
    CHECK(!drops(START, 8, START + 4, 0) && !drops(START, 0, START, 1) && !drops(START, 0, START - 1, 8));

    const emuko_native_block two = {0, 2, 95, 8};
    const emuko_entry filled[6] = {
        {0, START, two, 1}, {1, START, two, 0x100}, {1, START, two, UINT32_MAX},
        {0, START + 8, two, 1}, {0, START, two, 0}, {2, START - 7, two, 1},
    };
    emuko_entry entries[6];
    memcpy(entries, filled, sizeof entries);
    CHECK(emuko_index_drop(entries, 6, START, 1) == 4);
    for (size_t k = 0; k < 6; k++) {
        CHECK(entries[k].satp == filled[k].satp && entries[k].pc == filled[k].pc && same(entries[k].block, two));
        CHECK(entries[k].in_use == (k == 3));
    }
    CHECK(memcmp(&entries[3], &filled[3], 2 * sizeof filled[3]) == 0);
    CHECK(emuko_index_drop(entries, 6, START, 1) == 0 && emuko_index_drop(NULL, 0, START, 1) == 0);
    /* The first that was dropped is the first that a new key takes. */
    CHECK(emuko_index_insert(entries, 6, 3, START, two).first == 0 && entries[0].in_use == 1);
}

int main(void) {
    kinds();
    expansions();
    spans();
    reserved_jumps();
    indexing();
    marks();
    dropping();
    size_t size = 8192;
    uint8_t *store = mmap(NULL, size, PROT_READ | PROT_WRITE | PROT_EXEC, MAP_PRIVATE | MAP_ANONYMOUS, -1, 0);
    CHECK(store != MAP_FAILED);
    with_a_helper(store, size);
    compressed(store, size);
    dividing(store, size);
    puts("c/test.c: blocks were translated, placed and entered, found again and dropped");
    return 0;
}
