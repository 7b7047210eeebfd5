/* Three checks: one that ends in equal, whose table is then checked, one that ends in a telling trace, whose packets are then shown by their
 * values, and one that runs out of rows. */
#include <inttypes.h>
#include <stdio.h>
#include <stdlib.h>
#include <string.h>

#include "netkat.h"

#define ROWS 4096

typedef struct {
    uint8_t kind[NETKAT_NODES];
    uint16_t first[NETKAT_NODES];
    uint16_t second[NETKAT_NODES];
    size_t nodes;
} policy;

static uint16_t packet[ROWS], parent[ROWS], trace[ROWS];
static uint64_t left[ROWS], right[ROWS], answer[NETKAT_NUMBERS];
static uint32_t work[NETKAT_WORK];
static netkat_row records[ROWS];

/* Two fields in both tables, vlan with 1,000 values and sw with two: a name's length, the name, and what nobody reads. No policy here
 * mentions vlan, so the packets are 0 and 1, the values of sw, or 0 alone. */
#define FIELDS 2
static const uint8_t names[FIELDS][NETKAT_CELL] = {{4, 'v', 'l', 'a', 'n'}, {2, 's', 'w'}};
static const uint16_t sizes[FIELDS] = {1000, 2};
#define TABLE *names, sizeof names, sizes, FIELDS

/* A policy's three lists, as arguments. */
#define LISTS(p) (p).kind, (p).nodes, (p).first, (p).nodes, (p).second, (p).nodes

static void stop_if_refused(void) {
    if (answer[0] == NETKAT_REFUSED) {
        printf("refused by %" PRIu64 ", side %" PRIu64 ", place %" PRIu64 "\n", answer[1], answer[2], answer[3]);
        exit(1);
    }
}

static policy read_policy(uint8_t side, const char *text) {
    policy p;
    netkat_read(TABLE, TABLE, side, (const uint8_t *)text, strlen(text), p.kind, NETKAT_NODES, p.first, NETKAT_NODES, p.second,
                NETKAT_NODES, answer);
    stop_if_refused();
    p.nodes = answer[1];
    return p;
}

/* A packet of the two policies by its values; a field that neither mentions shows 0. */
static void show_packet(const policy *one, const policy *other, uint16_t number) {
    uint16_t values[FIELDS];
    netkat_values(TABLE, TABLE, LISTS(*one), LISTS(*other), number, values, FIELDS, answer);
    stop_if_refused();
    printf("  %" PRIu16 ": vlan %" PRIu16 ", sw %" PRIu16 "\n", number, values[0], values[1]);
}

static void check(const char *left_text, const char *right_text, size_t lent) {
    policy one = read_policy(1, left_text), other = read_policy(2, right_text);

    printf("%s against %s\n", left_text, right_text);
    netkat_search(TABLE, TABLE, LISTS(one), LISTS(other), packet, lent, left, lent, right, lent, parent, lent, trace, ROWS,
                  work, NETKAT_WORK, answer);
    if (answer[0] == NETKAT_REFUSED && answer[1] == NETKAT_ROWS_FULL) {
        printf("  more than %" PRIu64 " rows needed; the same traces up to length %" PRIu64 "\n", answer[3], answer[4]);
        return;
    }
    stop_if_refused();
    if (answer[0] == NETKAT_DONE) {
        size_t rows = answer[1];
        printf("  equal, %zu rows\n", rows);
        for (size_t i = 0; i < rows; i++) {
            printf("  %" PRIu16 " %" PRIu64 " %" PRIu64 "\n", packet[i], left[i], right[i]);
            records[i] = (netkat_row){packet[i], left[i], right[i], parent[i]};
        }
        netkat_evidence(TABLE, TABLE, LISTS(one), LISTS(other), packet, rows, left, rows, right, rows, work, NETKAT_WORK, answer);
        stop_if_refused();
        printf("  table %s\n", answer[0] == NETKAT_DONE ? "accepted" : "rejected");
        netkat_evidence_rows(TABLE, TABLE, LISTS(one), LISTS(other), records, rows, work, NETKAT_WORK, answer);
        stop_if_refused();
        printf("  table of records %s\n", answer[0] == NETKAT_DONE ? "accepted" : "rejected");
        netkat_evidence(TABLE, TABLE, LISTS(one), LISTS(other), NULL, 0, NULL, 0, NULL, 0, work, NETKAT_WORK, answer);
        stop_if_refused();
        printf("  empty table %s by rule %" PRIu64 "\n", answer[0] == NETKAT_DONE ? "accepted" : "rejected", answer[1]);
    } else {
        size_t length = answer[1];
        uint16_t entering = (uint16_t)answer[2];
        printf("  %s, entering %" PRIu16 ", trace", answer[0] == NETKAT_LEFT ? "left" : "right", entering);
        for (size_t i = 0; i < length; i++) {
            printf(" %" PRIu16, trace[i]);
        }
        netkat_trace(TABLE, TABLE, LISTS(one), LISTS(other), entering, trace, length, work, NETKAT_WORK, answer);
        stop_if_refused();
        printf("\n  the trace is %s alone\n", answer[0] == NETKAT_LEFT ? "left's" : answer[0] == NETKAT_RIGHT ? "right's" : "not one policy's");
        show_packet(&one, &other, entering);
        for (size_t i = 0; i < length; i++) {
            show_packet(&one, &other, trace[i]);
        }
    }
}

int main(void) {
    check("sw=0;dup", "dup;sw=0", ROWS);
    check("dup;sw<-1", "sw<-1;dup", ROWS);
    check("dup*", "id+dup;dup*", 2);
    return 0;
}
