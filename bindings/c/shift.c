/* A shift's files in one go: up to 64 prepared files, and their pages on standard output, each with a newline behind it. For each file a line on
 * standard error, and its spans; a file that is refused does not hold up the next.
 *
 *     (cd crates/gannozhi && rt lib)
 *     cc -O2 -o shift bindings/c/shift.c crates/gannozhi/out/libgannozhi.a
 *     ./shift 36 1 0 1 samples/ticket.prepared samples/annotated.prepared */
#include <ctype.h>
#include <inttypes.h>
#include <stdio.h>
#include <stdlib.h>
#include <string.h>

#include "gannozhi.h"

static const char usage[] = "usage: shift WIDTH NEWLINE_COST POLICY RULE FILE ..\n";

/* Those of the program `page`, but for output and spans, which are those of all pages. */
enum { STACK = 512, MEMO = 1024, KEPT = 1024, FRONTIER = 256, PLANS = 2048, VISIT = 512, DEPTH = 64, OUTPUT = 1 << 20, SPANS = 1 << 14 };
static const uint32_t sizes[GANNOZHI_SIZES] = {STACK, MEMO, KEPT, FRONTIER, PLANS, VISIT, DEPTH, OUTPUT, SPANS};

/* All that is lent, under the names of docs/MEMORY.md. */
static struct {
    uint32_t nodes[GANNOZHI_NODES][8], edges[GANNOZHI_EDGES], choices[GANNOZHI_CHOICES], texts[GANNOZHI_TEXTS][3];
    uint8_t bytes[GANNOZHI_BYTES];
    uint32_t tasks[STACK][9], results[STACK][2];
    uint64_t pending[STACK][7], index[2048] /* gannozhi_memo_slots(MEMO) */, entries[MEMO][6], kept[KEPT][6];
    uint64_t frontier[GANNOZHI_FRONTIER_WORDS * FRONTIER];
    uint32_t plans[PLANS][3];
    size_t visit[VISIT], depth[DEPTH];
    uint8_t output[OUTPUT];
    gannozhi_span spans[SPANS];
    uint64_t answers[GANNOZHI_DOCUMENTS][GANNOZHI_ANSWER];
} lent;

#define LENT(slice) lent.slice, sizeof lent.slice / sizeof *lent.slice

/* Desk 0, whose work is held to the limit of each call alone. */
static gannozhi_desks desks = {.allowance = {UINT64_MAX}};
static uint64_t counts[GANNOZHI_NEEDS - GANNOZHI_WORK];

/* No file has more than 339,997 bytes; the one more shows that there is a surplus. One document more shows that there are too many. */
enum { MOST = 339998, ROOM = GANNOZHI_DOCUMENTS + 1 };
static uint8_t files[ROOM * MOST];
static uint32_t lengths[ROOM];

/* A word of decimal digits, below 2^32. */
static int number_of(const char *word, uint32_t *number) {
    char *end;
    unsigned long long value = strtoull(word, &end, 10);
    *number = (uint32_t)value;
    return isdigit((unsigned char)*word) && *end == 0 && value <= UINT32_MAX;
}

/* The bytes of a file behind those before it: how many there are. */
static uint32_t take(const char *name, size_t used) {
    FILE *input = fopen(name, "rb");
    if (input == NULL) {
        perror(name);
        exit(2);
    }
    size_t length = fread(files + used, 1, MOST, input);
    fclose(input);
    return (uint32_t)length;
}

static void refused(const char *name, uint64_t number, uint64_t needed) {
    fprintf(stderr, "%s: refused %" PRIu64 " %s", name, number, gannozhi_refusal((uint32_t)number));
    if (needed != 0) fprintf(stderr, ", needed %" PRIu64, needed);
    fputs("\n", stderr);
}

/* What a document got, whose page and spans begin there. */
static void tell(const char *name, const uint64_t *answer, const uint8_t *page, const gannozhi_span *spans) {
    fprintf(stderr, "%s: bytes %" PRIu64 ", spans %" PRIu64 ", overflow %016" PRIx64 "%016" PRIx64 ", burden %" PRIu64 ", work %" PRIu64 "\n",
            name, answer[GANNOZHI_LENGTH], answer[GANNOZHI_SPAN_COUNT], answer[GANNOZHI_OVERFLOW_HIGH], answer[GANNOZHI_OVERFLOW_LOW],
            answer[GANNOZHI_BURDEN], answer[GANNOZHI_WORK]);
    for (uint64_t i = 0; i < answer[GANNOZHI_SPAN_COUNT]; i++) {
        const uint64_t *span = spans[i]; /* annotation, start, end; its parent, `-` for none */
        fprintf(stderr, "span %" PRIu64 " %" PRIu64 " %" PRIu64, span[0], span[1], span[2]);
        if (span[3] == 0)
            fputs(" -\n", stderr);
        else
            fprintf(stderr, " %" PRIu64 "\n", span[3] - 1);
    }
    fwrite(page, 1, answer[GANNOZHI_LENGTH], stdout);
    putchar('\n');
}

int main(int count, char **words) {
    uint32_t setting[4]; /* width, newline cost, policy, rule */
    size_t used = 0, documents = 0, byte = 0, span = 0;
    int status = 0;
    if (count > 1 && strcmp(words[1], "--help") == 0) {
        fputs(usage, stdout);
        return 0;
    }
    for (int i = 0; i < 4; i++)
        if (i + 1 >= count || !number_of(words[i + 1], &setting[i])) {
            fputs(usage, stderr);
            return 2;
        }
    for (; documents < ROOM && (int)documents + 5 < count; documents++) {
        lengths[documents] = take(words[documents + 5], used);
        used += lengths[documents];
    }
    uint32_t number = gannozhi_file_all(
        0, &desks, counts, files, used, lengths, documents, setting[0], setting[1], setting[2], setting[3], sizes, 1000000, 1000000,
        LENT(nodes), LENT(edges), LENT(choices), LENT(texts), LENT(bytes), LENT(tasks), LENT(results), LENT(pending), LENT(index),
        LENT(entries), LENT(kept), LENT(frontier), LENT(plans), LENT(visit), LENT(depth), LENT(output), LENT(spans), LENT(answers));
    if (number != 0) {
        refused("shift", number, 0);
        return 1;
    }
    for (size_t i = 0; i < documents; i++) {
        const uint64_t *answer = lent.answers[i];
        if (answer[GANNOZHI_NUMBER] == 0)
            tell(words[i + 5], answer, lent.output + byte, lent.spans + span);
        else {
            refused(words[i + 5], answer[GANNOZHI_NUMBER], answer[GANNOZHI_NEEDED]);
            status = 1;
        }
        byte += answer[GANNOZHI_LENGTH];
        span += answer[GANNOZHI_SPAN_COUNT];
    }
    return status;
}
