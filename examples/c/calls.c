/* Every function of the interface, with the eight numbers that it answers. Three switches with two ports each, so six packets where both
 * fields are mentioned, and three where the ports are not; the two tables name the fields in different orders, and the left one's counts. */
#include <inttypes.h>
#include <stdio.h>
#include <string.h>

#include "netkat.h"

#define ROWS 64

typedef struct {
    uint8_t kind[NETKAT_NODES];
    uint16_t first[NETKAT_NODES];
    uint16_t second[NETKAT_NODES];
    size_t nodes;
} policy;

typedef struct {
    uint8_t names[NETKAT_FIELDS * NETKAT_CELL];
    uint16_t sizes[NETKAT_FIELDS];
    size_t fields;
} table;

static table left_table, right_table;
static uint16_t packet[ROWS], parent[ROWS], trace[ROWS];
static uint64_t left[ROWS], right[ROWS], answer[NETKAT_NUMBERS];
static uint32_t work[NETKAT_WORK];
static netkat_row records[ROWS];

/* Lists with their lengths, as arguments. */
#define NAMES(t) (t).names, (t).fields * NETKAT_CELL, (t).sizes, (t).fields
#define TABLES NAMES(left_table), NAMES(right_table)
#define TEXT(t) (const uint8_t *)(t), strlen(t)
#define NODES(p) (p).kind, (p).nodes, (p).first, (p).nodes, (p).second, (p).nodes
#define LENT_ROWS(rows) packet, rows, left, rows, right, rows, parent, rows, trace, ROWS, work, NETKAT_WORK
#define LENT LENT_ROWS(ROWS)
#define ROWS_OF(rows) packet, rows, left, rows, right, rows

/* A field more; of a name that no cell holds, a length that says so. */
static void add_field(table *t, const char *name, uint16_t size) {
    uint8_t *cell = t->names + t->fields * NETKAT_CELL;
    size_t length = strlen(name);
    cell[0] = length > NETKAT_NAME ? NETKAT_NAME + 1 : (uint8_t)length;
    memcpy(cell + 1, name, length > NETKAT_NAME ? NETKAT_NAME : length);
    t->sizes[t->fields++] = size;
}

static void show(const char *call) {
    printf("%s:", call);
    for (size_t i = 0; i < NETKAT_NUMBERS; i++) {
        printf(" %" PRIu64, answer[i]);
    }
    printf("\n");
}

static void show_list(const char *name, const uint16_t *list, size_t length) {
    printf("  %s", name);
    for (size_t i = 0; i < length; i++) {
        printf(" %" PRIu16, list[i]);
    }
    printf("\n");
}

static void turn(const policy *one, const policy *other) {
    uint16_t values[] = {7, 7};
    const uint16_t outside[] = {1, 2};

    netkat_values(TABLES, NODES(*one), NODES(*other), 5, values, 2, answer);
    show("values of 5");
    show_list("values", values, 2);
    netkat_number(TABLES, NODES(*one), NODES(*other), values, 2, answer);
    show("number of these");
    netkat_values(TABLES, NODES(*one), NODES(*other), 6, values, 2, answer);
    show("values of 6");
    show_list("values", values, 2);
    netkat_number(TABLES, NODES(*one), NODES(*other), outside, 2, answer);
    show("number of 1, 2");
}

static policy read_policy(uint8_t side, const char *text) {
    policy p = {{0}, {0}, {0}, 0};
    netkat_read(TABLES, side, TEXT(text), p.kind, NETKAT_NODES, p.first, NETKAT_NODES, p.second, NETKAT_NODES, answer);
    printf("read ");
    show(text);
    p.nodes = answer[0] == NETKAT_DONE ? answer[1] : 0;
    return p;
}

/* What is refused before anything else: tables. The policies are not looked at. */
static void bad_tables(void) {
    table right_names = right_table;
    policy none = {{0}, {0}, {0}, 0};

    right_table.sizes[0]++;
    netkat_number(TABLES, NODES(none), NODES(none), NULL, 0, answer);
    show("two sizes for the left table's second name");
    right_table = right_names;
    add_field(&right_table, "dup", 2);
    netkat_number(TABLES, NODES(none), NODES(none), NULL, 0, answer);
    show("dup as the right table's third name");
    right_table = right_names;
    add_field(&right_table, "avlanwithalongname", 2);
    netkat_number(TABLES, NODES(none), NODES(none), NULL, 0, answer);
    show("a name of over fifteen letters");
    right_table = right_names;
    add_field(&right_table, "vlan", 0);
    netkat_number(TABLES, NODES(none), NODES(none), NULL, 0, answer);
    show("no values for the third field");
    right_table.fields = 0;
    netkat_number(TABLES, NODES(none), NODES(none), NULL, 0, answer);
    show("a table without names");
    netkat_number(NULL, 0, NULL, 0, right_table.names, NETKAT_CELL + 1, right_table.sizes, 1, NODES(none), NODES(none), NULL, 0, answer);
    show("a cell of seventeen bytes");
    right_table = right_names;
}

/* A thousand vlans that a policy may leave alone: they are in no number then, and show 0. */
static void unmentioned(void) {
    uint16_t values[] = {7, 7};
    const uint16_t last[] = {999, 1}, outside[] = {1000, 1};

    left_table.fields = 0;
    add_field(&left_table, "vlan", 1000);
    add_field(&left_table, "sw", 2);
    right_table = left_table;
    policy some = read_policy(1, "sw=0"), all = read_policy(2, "id"), both = read_policy(1, "vlan=0;sw=0");
    netkat_search(TABLES, NODES(some), NODES(all), LENT, answer);
    show("search");
    show_list("trace", trace, answer[1]);
    netkat_values(TABLES, NODES(some), NODES(all), 1, values, 2, answer);
    show("values of 1");
    show_list("values", values, 2);
    netkat_number(TABLES, NODES(some), NODES(all), last, 2, answer);
    show("number of 999, 1");
    netkat_number(TABLES, NODES(some), NODES(all), outside, 2, answer);
    show("number of 1000, 1");
    netkat_number(TABLES, NODES(some), NODES(all), last, 1, answer);
    show("number of 999 alone");
    netkat_search(TABLES, NODES(both), NODES(all), LENT, answer);
    show("search, vlans mentioned, so over 1,024 packets");
    netkat_policy(TABLES, NODES(both), answer);
    show("policy, the same");
}

int main(void) {
    add_field(&left_table, "sw", 3);
    add_field(&left_table, "port", 2);
    add_field(&right_table, "port", 2);
    add_field(&right_table, "sw", 3);
    bad_tables();

    policy one = read_policy(1, "sw=0;dup"), same = read_policy(2, "dup;sw=0"), other = read_policy(2, "sw=0;port<-1;dup");
    turn(&one, &other);
    read_policy(1, "sw=0;?");
    read_policy(1, "vlan=0");
    netkat_policy(TABLES, NODES(one), answer);
    show("policy");
    netkat_policies(TABLES, NODES(one), NODES(other), answer);
    show("policies");
    other.kind[1] = 10;
    netkat_policies(TABLES, NODES(one), NODES(other), answer);
    show("policies, one with a kind 10");
    other.kind[1] = 4;
    policy negated = read_policy(1, "!(sw=0+dup)");
    netkat_policy(TABLES, NODES(negated), answer);
    show("policy, a dup negated");

    netkat_search(TABLES, NODES(one), NODES(same), LENT, answer);
    show("search");
    size_t rows = answer[1];
    for (size_t i = 0; i < rows; i++) {
        printf("  %" PRIu16 " %" PRIu64 " %" PRIu64 ", parent %" PRIu16 "\n", packet[i], left[i], right[i], parent[i]);
        records[i] = (netkat_row){packet[i], left[i], right[i], parent[i]};
    }
    netkat_evidence(TABLES, NODES(one), NODES(same), ROWS_OF(rows), work, NETKAT_WORK, answer);
    show("evidence");
    netkat_evidence(TABLES, NODES(one), NODES(same), ROWS_OF(rows - 1), work, NETKAT_WORK, answer);
    show("evidence without its last row");
    netkat_evidence_rows(TABLES, NODES(one), NODES(same), records, rows, work, NETKAT_WORK, answer);
    show("evidence as records");
    netkat_evidence_rows(TABLES, NODES(one), NODES(same), records, rows - 1, work, NETKAT_WORK, answer);
    show("evidence as records, without the last");
    records[2].left = UINT64_C(1) << 63;
    records[2].parent = 65535;
    netkat_evidence_rows(TABLES, NODES(one), NODES(same), records, rows, work, NETKAT_WORK, answer);
    show("evidence as records, a mark of dup 63 in row 2");

    netkat_search(TABLES, NODES(one), NODES(other), LENT, answer);
    show("search");
    size_t length = answer[1];
    uint16_t entering = (uint16_t)answer[2];
    show_list("trace", trace, length);
    netkat_trace(TABLES, NODES(one), NODES(other), entering, trace, length, work, NETKAT_WORK, answer);
    show("trace");
    netkat_trace(TABLES, NODES(one), NODES(same), entering, trace, length, work, NETKAT_WORK, answer);
    show("trace of both");

    netkat_search_texts(TABLES, TEXT("sw=0;port<-1;dup"), TEXT("sw=0;dup"), LENT, answer);
    show("search of texts");
    show_list("trace", trace, answer[1]);
    netkat_search_texts(TABLES, TEXT("id"), TEXT("port=2"), LENT, answer);
    show("search of texts, no such value on the right");
    netkat_search_texts(TABLES, TEXT("id"), TEXT("vlan=0"), LENT, answer);
    show("search of texts, no such field on the right");

    netkat_search_texts(TABLES, TEXT("!(sw=0;port=0)"), TEXT("sw!=0+port!=0"), LENT, answer);
    show("search of texts, a negation and the same spelled out");

    netkat_search(TABLES, NODES(one), NODES(same), LENT_ROWS(2), answer);
    show("search, 2 rows lent, one short of the starting rows");
    netkat_search_texts(TABLES, TEXT("dup*;sw<-0"), TEXT("(id+dup;dup*);sw<-0"), LENT_ROWS(6), answer);
    show("search of texts, 6 rows lent");

    other.kind[1] = 10;
    netkat_search(TABLES, NODES(one), NODES(other), LENT, answer);
    show("search, no such kind on the right");
    netkat_policy(TABLES, NODES(other), answer);
    show("policy, no such kind");
    unmentioned();
    return 0;
}
