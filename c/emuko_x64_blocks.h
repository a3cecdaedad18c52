/* Blocks of x86-64 code for runs of RV64 words: the functions of the archive crates/capi/out/libcapi.a, which `rt lib` in crates/capi
 * writes, for C and C++ on x86-64 Linux. Their contracts stand in crates/capi/src/lib.rt.
 *
 * No function keeps a pointer. A pointer whose length is 0 is not read. What is lent to be written must not overlap anything else that is lent. */
#ifndef EMUKO_X64_BLOCKS_H
#define EMUKO_X64_BLOCKS_H

#include <stddef.h>
#include <stdint.h>

#ifdef __cplusplus
extern "C" {
#endif

/* The greatest and the least length of a block, the greatest number of guest instructions in it, whatever their size, and the greatest
 * number of bytes of the guest's code that it spans. */
#define EMUKO_GREATEST_BLOCK 4099
#define EMUKO_LEAST_BLOCK 67
#define EMUKO_MOST_STEPS 64
#define EMUKO_MOST_SPAN 256

/* By which rules the archive translates: a number that grows with every change to what a run is translated to.
 *
 *     7    compressed integer instructions are translated as the words that they expand to; before, helper16 executed every one of them
 *     6    JALR with funct3 1 to 7, which the RISC-V manual reserves, is not taken
 *     -    archives without this function took it as JALR
 *
 * An index whose blocks were made under other rules, or of which that is not known, is emptied by emuko_index_empty, once, before its next
 * use: what it shows for a key can be another block than the one that the code there is translated to now. Blocks hold the addresses of
 * their helpers: where these have moved, an index is emptied whatever the rules. */
uint32_t emuko_rules(void);

/* A number and its values, 0 where there are fewer. */
typedef struct {
    uint64_t number;
    uint64_t first;
    uint64_t second;
    uint64_t third;
} emuko_reply;

/* What becomes of a word of 32 bits. */
enum {
    EMUKO_NOT_TAKEN = 0,    /* a block ends before it */
    EMUKO_STRAIGHT = 1,     /* the block goes on behind it */
    EMUKO_ENDING = 2,       /* a jump, a branch or FENCE.I: it ends its block */
    EMUKO_MEMORY_HELPER = 3 /* a load or store: the memory helper executes it and ends the block */
};

/* One of the four above. */
uint32_t emuko_word_kind(uint32_t instr);

/* The word that a compressed halfword is translated as: its expansion by the RISC-V manual's chapter "C", hints included, where that is
 * EMUKO_STRAIGHT or EMUKO_ENDING. It still has 2 bytes of the guest's code: where its block goes on, and what it links to, is 2 behind its
 * pc. 0 for all others, which helper16 executes: loads and stores, floating point, C.EBREAK, and what the manual reserves; and for a
 * halfword whose low two bits are 3, which is the first of a word.
 *
 * A translation needs no halfword behind a word that is not EMUKO_STRAIGHT, and none behind a compressed one whose expansion is 0 or not
 * EMUKO_STRAIGHT: a caller that fetches one by one may stop there. */
uint32_t emuko_expand(uint16_t halfword);

/* Translates the guest's code from `start` on, at most `limit` instructions of it, into a block at the front of `out`. Behind the block,
 * and everywhere if refused, `out` is as before. The number, and first, second and third value:
 *
 *     0 length count span   a block
 *     1                     the limit is 0
 *     2 start               the start is odd
 *     3 index               the first instruction lacks its halfword of this index, 0 or 1
 *     4 word                the first word is not taken: neither translated nor handed to a helper
 *     5                     the output has fewer than EMUKO_GREATEST_BLOCK bytes, however short this block would be
 *
 * The span is how many bytes of the guest's code the block covers, from `start` on: the sizes of the instructions that it counts, added up, 4
 * for a word and 2 for a compressed halfword, whoever executes them. A word that is not taken and a halfword that is missing, before which
 * a block ends, are not counted and not spanned. */
emuko_reply emuko_translate(uint64_t start, uint32_t limit, const uint16_t *halfwords, size_t halfwords_len, uint64_t helper16,
                            uint64_t helper_mem, uint8_t *out, size_t out_len);

/* Copies code into a store behind the mark `used`, at a multiple of 4. All else in the store is as before.
 *
 *     0 offset mark    placed; the new mark
 *     6                the mark lies beyond the store's end
 *     7                the store has no room for the code */
emuko_reply emuko_place(const uint8_t *code, size_t code_len, uint8_t *store, size_t store_len, size_t used);

/* Where a block stands in a store; how many guest instructions it has; its length, in bytes of the store; and its span, in bytes of the
 * guest's code from the entry's pc on. The last three are the second, first and third value of its translation. An index keeps all of it as
 * it is given, and makes nothing of it but that emuko_index_drop goes by the span. */
typedef struct {
    size_t offset;
    uint32_t count;
    size_t length;
    uint64_t span;
} emuko_native_block;

/* An entry of an index of blocks: the key (the guest's address-space register and the start pc), the block, and the mark, which is 0 where
 * the entry is not in use and anything else where it is. An index is an array of entries; one of zeros has none in use.
 *
 * In an array that began with none in use and that only emuko_index_insert, emuko_index_drop and emuko_index_empty wrote, emuko_index_find
 * shows for each key the block last inserted for it since it was last freed, or none. In one that was filled otherwise a key may stand in
 * two entries in use: the first counts for finding and inserting. */
typedef struct {
    uint64_t satp;
    uint64_t pc;
    emuko_native_block block;
    uint32_t in_use;
} emuko_entry;

/* The record of a store: its mark, which emuko_place takes as `used` and gives anew as its second value. */
typedef struct {
    size_t used;
} emuko_code_cache;

/* The first entry in use that has the key; where there is none, an entry of zeros, so that in_use tells. It looks at one entry after the
 * other. */
emuko_entry emuko_index_find(const emuko_entry *entries, size_t entries_len, uint64_t satp, uint64_t pc);

/* Puts a block under its key. The first entry in use that has the key is written over, all but its mark; a new key takes the first entry
 * not in use, whose mark becomes 1. All other entries are as before.
 *
 *     0 index          inserted; the entry's index
 *     8                the key is new and every entry is in use, or there are none; all entries are as before
 *
 * Placing and inserting are two calls: where an 8 follows a placing, the store's mark has moved. The block stands there and will not be
 * found; a caller can empty both, place it again and insert it. */
emuko_reply emuko_index_insert(emuko_entry *entries, size_t entries_len, uint64_t satp, uint64_t pc, emuko_native_block block);

/* Empties the index and the store that its blocks stand in: every in_use and cache->used become 0. Keys and blocks stay readable in the
 * entries, and the store's bytes stay; what is placed next is written over them, so no block of before may be entered from then on. `cache`
 * is not NULL, also where there are no entries. An index made by other rules than emuko_rules says is emptied so, once. */
void emuko_index_empty(emuko_entry *entries, size_t entries_len, emuko_code_cache *cache);

/* Drops the blocks that a write of the guest touches: in_use becomes 0 in every entry in use, under every satp, whose block spans one of
 * the n bytes from `address` on. Nothing else changes, neither in these entries nor in the others. Returns how many they were. Both ranges
 * of bytes go on from 2^64 - 1 to 0. A write of no bytes touches nothing, also inside a block, and a span of 0, which no translation has,
 * is touched by nothing.
 *
 * The store's bytes and its mark stay, so that a helper may drop the block that has called it; the room of what was dropped is taken until
 * the store is emptied. It looks at every entry. */
size_t emuko_index_drop(emuko_entry *entries, size_t entries_len, uint64_t address, uint64_t n);

/* What a block, or a helper, returns. */
typedef struct {
    uint64_t next_pc;
    uint64_t executed;
} emuko_result;

/* A block, in memory that may be executed. `regs` are the 32 guest registers, the first of them 0; the next three arguments go on to a
 * helper, and the last two are not used. Division by zero and the signed overflow give the RISC-V manual's values and never a fault.
 *
 * If the guest's code has not changed in the bytes that a block spans since it was translated, entering it gives the manual's run of the
 * code as it is now, read for at most the block's count of instructions, the helper's included; so a word before which the block ended,
 * since it is not taken, may change. The premise is tested by nothing here: a block must not be entered any more once a byte that it spans
 * has changed.
 *
 * From an empty index, through any order of translations inserted, guest writes each followed by its drop, and emptyings, every entry in
 * use has its span unchanged since its translation. A caller that keeps blocks so calls emuko_index_drop for every write that reaches code,
 * those of stores, of devices and its own, before the next block is entered, with the address by which the code is fetched: a virtual one
 * where addresses are translated. Bytes written through another mapping, or by their physical address, are dropped once for each address by
 * which they can be fetched, whatever the satp; and where another mapping puts other code at addresses, these are dropped as if they had
 * been written.
 *
 * Behind FENCE.I, which ends its block, the guest may count on its stores to code being seen: whoever keeps blocks drops behind every write
 * those that it touches, or drops all of them behind every FENCE.I, at the latest before the next block is entered, and translates anew. */
typedef emuko_result (*emuko_block)(uint64_t *regs, void *hart, void *bus_data, void *bus_vtable, void *sbi_data, void *sbi_vtable);

/* A helper executes the guest instruction that stands at pc. Its address, as a number, is helper16 (for a compressed halfword for which
 * emuko_expand has no word) or helper_mem (for a load or store of 32 bits). */
typedef emuko_result (*emuko_helper)(void *hart, void *bus_data, void *bus_vtable, uint64_t instruction, uint64_t pc);

#ifdef __cplusplus
}
#endif

#endif
