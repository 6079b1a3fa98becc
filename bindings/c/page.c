/* The page of a prepared file on standard output; its cost, the sizes that just suffice and its spans on standard error; or why there is none.
 *
 *     (cd crates/gannozhi && rt lib)
 *     cc -O2 -o page bindings/c/page.c crates/gannozhi/out/libgannozhi.a
 *     ./page 36 < samples/ticket.prepared */
#include <ctype.h>
#include <inttypes.h>
#include <stdio.h>
#include <stdlib.h>
#include <string.h>

#include "gannozhi.h"

static const char usage[] = "usage: page [WIDTH [NEWLINE_COST [POLICY [RULE]]]] < FILE   (80 1 0 1 where they are not given)\n";

/* The sizes of the program `page`. */
enum { STACK = 512, MEMO = 1024, KEPT = 1024, FRONTIER = 256, PLANS = 2048, VISIT = 512, DEPTH = 64, OUTPUT = 32768, SPANS = 512 };
static const uint32_t sizes[GANNOZHI_SIZES] = {STACK, MEMO, KEPT, FRONTIER, PLANS, VISIT, DEPTH, OUTPUT, SPANS};

/* All that is lent, under the names of docs/MEMORY.md. */
static struct {
    uint32_t nodes[GANNOZHI_NODES][8], edges[GANNOZHI_EDGES], choices[GANNOZHI_CHOICES], texts[GANNOZHI_TEXTS][3];
    uint8_t bytes[GANNOZHI_BYTES];
    uint32_t tasks[STACK][9], results[STACK][2];
    uint64_t pending[STACK][7], index[2048] /* gannozhi_memo_slots(MEMO) */, entries[MEMO][6], kept[KEPT][6];
    uint64_t frontier[GANNOZHI_FRONTIER_WORDS * FRONTIER];
    uint32_t plans[PLANS][3];
    size_t visit[VISIT], depth[DEPTH];
    uint8_t output[OUTPUT];
    gannozhi_span spans[SPANS];
} lent;

#define LENT(slice) lent.slice, sizeof lent.slice / sizeof *lent.slice

/* Desk 0, whose work is held to the limit of the call alone. */
static gannozhi_desks desks = {.allowance = {UINT64_MAX}};

/* No file has more than 339,997 bytes; the one more shows that there is a surplus. */
static uint8_t file[339998];
static uint64_t answer[GANNOZHI_ANSWER];

/* A word of decimal digits, below 2^32. */
static int number_of(const char *word, uint32_t *number) {
    char *end;
    unsigned long long value = strtoull(word, &end, 10);
    *number = (uint32_t)value;
    return isdigit((unsigned char)*word) && *end == 0 && value <= UINT32_MAX;
}

int main(int count, char **words) {
    uint32_t setting[4] = {80, 1, 0, 1}; /* width, newline cost, policy, rule */
    for (int i = 1; i < count; i++) {
        if (strcmp(words[i], "--help") == 0) {
            fputs(usage, stdout);
            return 0;
        }
        if (i > 4 || !number_of(words[i], &setting[i - 1])) {
            fputs(usage, stderr);
            return 2;
        }
    }
    size_t length = fread(file, 1, sizeof file, stdin);
    uint32_t number = gannozhi_render(
        0, &desks, file, length, setting[0], setting[1], setting[2], setting[3], sizes, 1000000, 1000000, LENT(nodes), LENT(edges),
        LENT(choices), LENT(texts), LENT(bytes), LENT(tasks), LENT(results), LENT(pending), LENT(index), LENT(entries), LENT(kept),
        LENT(frontier), LENT(plans), LENT(visit), LENT(depth), LENT(output), LENT(spans), answer);
    if (number != 0) {
        fprintf(stderr, "refused %" PRIu32 " %s", number, gannozhi_refusal(number));
        if (answer[GANNOZHI_NEEDED] != 0) fprintf(stderr, ", needed %" PRIu64, answer[GANNOZHI_NEEDED]);
        fputs("\n", stderr);
        return 1;
    }
    fprintf(stderr, "overflow %016" PRIx64 "%016" PRIx64 ", burden %" PRIu64 ", work %" PRIu64 "\n", answer[GANNOZHI_OVERFLOW_HIGH],
            answer[GANNOZHI_OVERFLOW_LOW], answer[GANNOZHI_BURDEN], answer[GANNOZHI_WORK]);
    for (uint32_t i = 0; i < GANNOZHI_SIZES; i++) /* each by the word of its refusal */
        fprintf(stderr, "%s %s %" PRIu64, i == 0 ? "needs" : ",", gannozhi_refusal(13 + i), answer[GANNOZHI_NEEDS + i]);
    fputs("\n", stderr);
    for (uint64_t i = 0; i < answer[GANNOZHI_SPAN_COUNT]; i++) {
        const uint64_t *span = lent.spans[i]; /* annotation, start, end; its parent, `-` for none */
        fprintf(stderr, "span %" PRIu64 " %" PRIu64 " %" PRIu64, span[0], span[1], span[2]);
        if (span[3] == 0)
            fputs(" -\n", stderr);
        else
            fprintf(stderr, " %" PRIu64 "\n", span[3] - 1);
    }
    fwrite(lent.output, 1, answer[GANNOZHI_LENGTH], stdout);
    return 0;
}
