/*
 * Each allocation refused once: the call says so, the table has the entries that it had, and the call succeeds when it
 * is made again. Only an attempt to make a block shorter may fail without a word. Each block is freed. Linked with --wrap=malloc, --wrap=realloc and --wrap=free.
 */
#include <stdio.h>
#include <stdlib.h>

#include "prefix_trie.h"

void *__real_malloc(size_t size);
void *__real_realloc(void *block, size_t size);
void __real_free(void *block);

/* The allocation that is refused: the next one is number 1. 0 refuses none. */
static unsigned long refused;

static int refuses(void) {
    return refused > 0 && --refused == 0;
}

/* The blocks that are allocated and not freed. */
static long blocks;

void *__wrap_malloc(size_t size) {
    void *made = refuses() ? NULL : __real_malloc(size);
    blocks += made != NULL;
    return made;
}

void *__wrap_realloc(void *block, size_t size) {
    void *made = refuses() ? NULL : __real_realloc(block, size);
    blocks += block == NULL && made != NULL;
    return made;
}

void __wrap_free(void *block) {
    blocks -= block != NULL;
    __real_free(block);
}

#define COUNT 200

static uint32_t address(uint32_t i) {
    return i * UINT32_C(2654435761);
}

static uint8_t length(uint32_t i) {
    return (uint8_t)(8 + i % 25);
}

static void must(int holds, const char *what, unsigned long n, uint32_t i) {
    if (holds) return;
    fprintf(stderr, "allocation %lu refused, insertion %u: %s\n", n, (unsigned)i, what);
    exit(1);
}

/* Whether the table has the first networks and no others. */
static int holds_first(const prefix_trie *table, uint32_t networks, size_t count) {
    uint64_t value = 0;
    size_t len4, len6;
    for (uint32_t i = 0; i < COUNT; i++) {
        uint32_t code = prefix_trie_v6_get(table, address(i), 0, 64, &value);
        if (code != (i < networks ? PREFIX_TRIE_DONE : PREFIX_TRIE_MISSING)) return 0;
        if (i < networks && value != i) return 0;
    }
    return prefix_trie_v4_len(table, &len4) == PREFIX_TRIE_DONE && len4 == count &&
           prefix_trie_v6_len(table, &len6) == PREFIX_TRIE_DONE && len6 == networks;
}

/* Compiles the table and shares the result, and returns how many calls were refused. */
static int compile(const prefix_trie *table, unsigned long n) {
    prefix_trie_table *compiled = NULL, *shared = NULL;
    prefix_trie_value found;
    int met = 0;
    uint32_t code = prefix_trie_compile(table, &compiled);
    if (code == PREFIX_TRIE_MEMORY) {
        met++;
        must(compiled == NULL, "a table that is not compiled", n, COUNT);
        code = prefix_trie_compile(table, &compiled);
    }
    must(code == PREFIX_TRIE_DONE, "compiling failed twice", n, COUNT);
    code = prefix_trie_table_share(compiled, &shared);
    if (code == PREFIX_TRIE_MEMORY) {
        met++;
        must(shared == NULL, "a table that is not shared", n, COUNT);
        code = prefix_trie_table_share(compiled, &shared);
    }
    must(code == PREFIX_TRIE_DONE, "sharing failed twice", n, COUNT);
    prefix_trie_table_free(compiled);
    found = prefix_trie_table_v6_lookup(shared, address(1), 0);
    must(found.code == PREFIX_TRIE_DONE && found.value == 1, "a lookup", n, COUNT);
    prefix_trie_table_free(shared);
    return met;
}

/* Inserts an array into a new table, and returns how many calls were refused. */
static int insert_all(unsigned long n) {
    static prefix_trie_v6_entry entries[COUNT];
    prefix_trie *table = prefix_trie_new();
    size_t done = 0, more = 0;
    int met = 0;
    uint32_t code;
    for (uint32_t i = 0; i < COUNT; i++) entries[i] = (prefix_trie_v6_entry){i, address(i), 0, 64, false};
    if (table == NULL) {
        met++;
        table = prefix_trie_new();
    }
    must(table != NULL, "no table", n, 0);
    code = prefix_trie_v6_insert_all(table, entries, COUNT, &done);
    if (code == PREFIX_TRIE_MEMORY) {
        met++;
        must(done < COUNT && holds_first(table, (uint32_t)done, 0), "an array that is not inserted", n, (uint32_t)done);
        code = prefix_trie_v6_insert_all(table, entries + done, COUNT - done, &more);
    }
    must(code == PREFIX_TRIE_DONE && done + more == COUNT, "an array failed twice", n, (uint32_t)done);
    must(holds_first(table, COUNT, 0), "the array", n, COUNT);
    prefix_trie_free(table);
    return met;
}

/* Fills a table while the n-th allocation is refused, and returns how many calls were refused. */
static int fill(unsigned long n) {
    prefix_trie *table;
    int met = 0;
    size_t before, count = 0;
    uint32_t code;
    refused = n;
    table = prefix_trie_new();
    if (table == NULL) {
        met++;
        table = prefix_trie_new();
    }
    must(table != NULL, "no table", n, 0);
    for (uint32_t i = 0; i < COUNT; i++) {
        prefix_trie_v4_len(table, &before);
        code = prefix_trie_v4_insert(table, address(i), length(i), i);
        if (code == PREFIX_TRIE_MEMORY) {
            met++;
            must(holds_first(table, i, before), "an IPv4 insertion changed entries", n, i);
            code = prefix_trie_v4_insert(table, address(i), length(i), i);
        }
        must(code == PREFIX_TRIE_DONE, "an IPv4 insertion failed twice", n, i);
        prefix_trie_v4_len(table, &count);
        code = prefix_trie_v6_insert(table, address(i), 0, 64, i);
        if (code == PREFIX_TRIE_MEMORY) {
            met++;
            must(holds_first(table, i, count), "an IPv6 insertion changed entries", n, i);
            code = prefix_trie_v6_insert(table, address(i), 0, 64, i);
        }
        must(code == PREFIX_TRIE_DONE, "an IPv6 insertion failed twice", n, i);
    }
    must(holds_first(table, COUNT, count), "the end", n, COUNT);
    met += compile(table, n);
    prefix_trie_free(table);
    met += insert_all(n);
    must(blocks == 0, "a block is not freed", n, COUNT);
    return met;
}

int main(void) {
    unsigned long n = 1, kept = 0;
    for (;; n++) {
        int met = fill(n);
        if (refused > 0) break;
        /* Compiling goes on if a block cannot be made shorter. */
        kept += met == 0;
    }
    printf("%lu allocations, each refused once, %lu of them for a shorter block\n", n - 1, kept);
    return n > 1 ? 0 : 1;
}
