/*
 * Four threads that look up addresses in one compiled table at the same time, each by a pointer of its own. The first
 * thread changes and frees the table that it was compiled from. The last pointer that is freed frees the compiled table.
 */
#include <pthread.h>
#include <stdio.h>
#include <stdlib.h>

#include "prefix_trie.h"

#define THREADS 4
#define ADDRESSES 10000
#define NETWORKS 2000

static uint32_t v4[ADDRESSES];
static prefix_trie_v6_address v6[ADDRESSES];
/* The longest matches in the table, from before it was compiled. */
static prefix_trie_found found4[ADDRESSES], found6[ADDRESSES];

static void must(int holds, const char *what) {
    if (holds) return;
    fprintf(stderr, "%s\n", what);
    exit(1);
}

static void must_be(prefix_trie_value got, prefix_trie_found wanted, const char *what) {
    must(got.code == wanted.code && got.value == wanted.value, what);
}

static void *look_up(void *shared) {
    prefix_trie_table *table = (prefix_trie_table *)shared;
    prefix_trie_value *results = malloc(ADDRESSES * sizeof *results);
    must(results != NULL, "no memory");
    for (size_t i = 0; i < ADDRESSES; i++) {
        must_be(prefix_trie_table_v4_lookup(table, v4[i]), found4[i], "an IPv4 lookup");
        must_be(prefix_trie_table_v6_lookup(table, v6[i].high, v6[i].low), found6[i], "an IPv6 lookup");
    }
    must(prefix_trie_table_v4_lookup_bulk(table, v4, results, ADDRESSES) == PREFIX_TRIE_DONE, "IPv4 lookups");
    for (size_t i = 0; i < ADDRESSES; i++) must_be(results[i], found4[i], "one of many IPv4 lookups");
    must(prefix_trie_table_v6_lookup_bulk(table, v6, results, ADDRESSES) == PREFIX_TRIE_DONE, "IPv6 lookups");
    for (size_t i = 0; i < ADDRESSES; i++) must_be(results[i], found6[i], "one of many IPv6 lookups");
    free(results);
    prefix_trie_table_free(table);
    return NULL;
}

/* A table whose networks have the addresses that are looked up, and these addresses. */
static prefix_trie *filled(void) {
    prefix_trie *table = prefix_trie_new();
    uint64_t bits = 1;
    must(table != NULL, "no table");
    for (uint32_t i = 0; i < ADDRESSES; i++) {
        bits = bits * UINT64_C(6364136223846793005) + UINT64_C(1442695040888963407);
        v4[i] = (uint32_t)(bits >> 32);
        v6[i].high = UINT64_C(0x20010db800000000) | bits >> 40;
        v6[i].low = bits;
        if (i >= NETWORKS) continue;
        must(prefix_trie_v4_insert(table, v4[i], (uint8_t)(1 + bits % 32), i) == PREFIX_TRIE_DONE, "an insertion");
        must(prefix_trie_v6_insert(table, v6[i].high, v6[i].low, (uint8_t)(40 + bits % 89), i) == PREFIX_TRIE_DONE,
             "an insertion");
    }
    for (size_t i = 0; i < ADDRESSES; i++) {
        found4[i] = prefix_trie_v4_match_address(table, v4[i]);
        found6[i] = prefix_trie_v6_match_address(table, v6[i].high, v6[i].low);
    }
    return table;
}

int main(void) {
    pthread_t threads[THREADS];
    prefix_trie *table = filled();
    prefix_trie_table *tables[THREADS];
    must(prefix_trie_compile(table, &tables[0]) == PREFIX_TRIE_DONE, "compile");
    for (int i = 1; i < THREADS; i++) {
        must(prefix_trie_table_share(tables[0], &tables[i]) == PREFIX_TRIE_DONE, "share");
    }
    for (int i = 0; i < THREADS; i++) must(pthread_create(&threads[i], NULL, look_up, tables[i]) == 0, "no thread");
    must(prefix_trie_clear(table) == PREFIX_TRIE_DONE, "clear");
    prefix_trie_free(table);
    for (int i = 0; i < THREADS; i++) must(pthread_join(threads[i], NULL) == 0, "join");
    printf("%d threads, each with %d lookups of both families as before\n", THREADS, 2 * ADDRESSES);
    return 0;
}
