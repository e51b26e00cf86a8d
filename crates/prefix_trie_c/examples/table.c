/* Routes for IPv4 and IPv6 from C. prefix-trie-sys/examples/table.rs prints the same. */
#include <inttypes.h>
#include <stdio.h>
#include <stdlib.h>

#include "prefix_trie.h"

#define V4(a, b, c, d) ((uint32_t)(a) << 24 | (uint32_t)(b) << 16 | (uint32_t)(c) << 8 | (uint32_t)(d))

static prefix_trie *table;

/* Ends the program if a call failed. */
static void done(uint32_t code) {
    if (code == PREFIX_TRIE_DONE) return;
    fprintf(stderr, "the call returned %" PRIu32 ": %s\n", code, prefix_trie_text(code));
    prefix_trie_free(table);
    exit(1);
}

static void print_v4(const prefix_trie_v4_entry *entry) {
    uint32_t a = entry->address;
    if (!entry->found) {
        puts("  no route");
        return;
    }
    printf("  %u.%u.%u.%u/%u: %" PRIu64 "\n", (unsigned)(a >> 24), (unsigned)(a >> 16 & 255), (unsigned)(a >> 8 & 255),
           (unsigned)(a & 255), (unsigned)entry->length, entry->value);
}

static void print_v6(const prefix_trie_v6_entry *entry) {
    printf("  %016" PRIx64 "%016" PRIx64 "/%u: %" PRIu64 "\n", entry->high, entry->low, (unsigned)entry->length,
           entry->value);
}

static void insert(void) {
    table = prefix_trie_new();
    done(table ? PREFIX_TRIE_DONE : PREFIX_TRIE_MEMORY);
    done(prefix_trie_v4_insert(table, V4(0, 0, 0, 0), 0, 1));
    done(prefix_trie_v4_insert(table, V4(10, 0, 0, 0), 8, 2));
    done(prefix_trie_v4_insert(table, V4(10, 1, 0, 0), 16, 3));
    done(prefix_trie_v4_insert(table, V4(192, 168, 7, 0), 24, 4));
    done(prefix_trie_v6_insert(table, UINT64_C(0x20010db800000000), 0, 32, 5));
    done(prefix_trie_v6_insert(table, UINT64_C(0x20010db800010000), 0, 48, 6));
}

static void look_up(void) {
    static const uint32_t burst[3] = {V4(10, 1, 2, 3), V4(10, 2, 0, 1), V4(8, 8, 8, 8)};
    prefix_trie_v4_entry matches[3], match;
    prefix_trie_v6_entry match6;
    prefix_trie_found found;
    uint64_t value;
    done(prefix_trie_v4_get(table, V4(10, 1, 0, 0), 16, &value));
    printf("10.1.0.0/16 has the value %" PRIu64 "\n", value);
    puts("the longest match of 10.1.2.3:");
    done(prefix_trie_v4_match(table, V4(10, 1, 2, 3), 32, &match));
    print_v4(&match);
    found = prefix_trie_v4_match_address(table, V4(10, 2, 0, 1));
    done(found.code);
    printf("10.2.0.1 is in a network of length %u: %" PRIu64 "\n", (unsigned)found.length, found.value);
    done(prefix_trie_v4_remove(table, 0, 0, &value));
    printf("removed the default route, %" PRIu64 "\n", value);
    puts("the longest matches of three addresses:");
    done(prefix_trie_v4_match_all(table, burst, matches, 3));
    for (int i = 0; i < 3; i++) print_v4(&matches[i]);
    puts("the longest match of 2001:db8:1::1:");
    done(prefix_trie_v6_match(table, UINT64_C(0x20010db800010000), 1, 128, &match6));
    print_v6(&match6);
    found = prefix_trie_v6_match_address(table, UINT64_C(0x20010db800020000), 1);
    done(found.code);
    printf("2001:db8:2::1 is in a network of length %u: %" PRIu64 "\n", (unsigned)found.length, found.value);
}

/* All IPv4 routes, two at a time. */
static void walk(void) {
    prefix_trie_v4_entry page[2];
    size_t count, all;
    done(prefix_trie_v4_len(table, &all));
    printf("%zu IPv4 routes:\n", all);
    done(prefix_trie_v4_next(table, 0, 0, true, page, 2, &count));
    while (count > 0) {
        for (size_t i = 0; i < count; i++) print_v4(&page[i]);
        done(prefix_trie_v4_next(table, page[count - 1].address, page[count - 1].length, false, page, 2, &count));
    }
}

/* A route with another value, the routes that contain an address, and a table without routes. */
static void change(void) {
    prefix_trie_replaced replaced = prefix_trie_v4_replace(table, V4(10, 0, 0, 0), 8, 9);
    prefix_trie_v4_entry shortest, covers[33];
    size_t count;
    done(replaced.code);
    printf("10.0.0.0/8 had the value %" PRIu64 "\n", replaced.value);
    puts("the shortest match of 10.1.2.3, and all its matches:");
    done(prefix_trie_v4_shortest(table, V4(10, 1, 2, 3), 32, &shortest));
    print_v4(&shortest);
    done(prefix_trie_v4_covers(table, V4(10, 1, 2, 3), 32, covers, 33, &count));
    for (size_t i = 0; i < count; i++) print_v4(&covers[i]);
    done(prefix_trie_clear(table));
    done(prefix_trie_v4_len(table, &count));
    printf("%zu IPv4 routes after clear\n", count);
}

/* Routes from an array, those in a network, and a compiled table that does not change. */
static void compile(void) {
    static const prefix_trie_v4_entry routes[3] = {
        {7, V4(10, 0, 0, 0), 8, false}, {8, V4(10, 1, 0, 0), 16, false}, {9, V4(192, 168, 7, 0), 24, false}};
    static const uint32_t burst[2] = {V4(10, 1, 2, 3), V4(8, 8, 8, 8)};
    prefix_trie_v4_entry contained[3];
    prefix_trie_value values[2];
    prefix_trie_table *compiled, *shared;
    size_t count;
    done(prefix_trie_v4_insert_all(table, routes, 3, &count));
    printf("inserted %zu routes; those in 10.0.0.0/7:\n", count);
    done(prefix_trie_v4_contained(table, V4(10, 0, 0, 0), 7, contained, 3, &count));
    for (size_t i = 0; i < count; i++) print_v4(&contained[i]);
    done(prefix_trie_compile(table, &compiled));
    done(prefix_trie_table_share(compiled, &shared));
    done(prefix_trie_clear(table));
    values[0] = prefix_trie_table_v4_lookup(compiled, V4(10, 2, 0, 1));
    printf("compiled: 10.2.0.1 has the value %" PRIu64 "\n", values[0].value);
    prefix_trie_table_free(compiled);
    done(prefix_trie_table_v4_lookup_bulk(shared, burst, values, 2));
    printf("two more: %" PRIu64 ", and code %" PRIu32 "\n", values[0].value, values[1].code);
    prefix_trie_table_free(shared);
}

/* The codes of calls that cannot be done. */
static void refuse(void) {
    uint64_t value;
    printf("no entry: %" PRIu32 "\n", prefix_trie_v4_get(table, V4(10, 1, 0, 0), 17, &value));
    printf("no match: %" PRIu32 "\n", prefix_trie_v4_match_address(table, V4(8, 8, 8, 8)).code);
    printf("length 33: %" PRIu32 "\n", prefix_trie_v4_insert(table, 0, 33, 1));
    printf("length 129: %" PRIu32 "\n", prefix_trie_v6_insert(table, 0, 0, 129, 1));
    printf("a second new: %" PRIu32 "\n", prefix_trie_c_new(&table));
    printf("null: %" PRIu32 " %" PRIu32 " %" PRIu32 "\n", prefix_trie_v4_get(NULL, 0, 0, &value),
           prefix_trie_v4_get(table, 0, 0, NULL), prefix_trie_v4_match_address(NULL, 0).code);
}

int main(void) {
    if (prefix_trie_version() != PREFIX_TRIE_VERSION) return 1;
    insert();
    look_up();
    walk();
    change();
    compile();
    refuse();
    prefix_trie_c_free(&table);
    prefix_trie_free(table);
    printf("after free: %" PRIu32 "\n", prefix_trie_v4_insert(table, 0, 0, 1));
    return 0;
}
