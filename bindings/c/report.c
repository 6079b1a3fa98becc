/* A live report: rows inserted and removed, one step after the other. After each step a line on standard error; at the end the page on standard
 * output and its spans on standard error. A step that is refused leaves the report as it was, and the next is taken.
 *
 *     (cd crates/gannozhi && rt lib)
 *     cc -O2 -o report bindings/c/report.c crates/gannozhi/out/libgannozhi.a
 *     ./report 36 1 0 1 +0 samples/ticket.prepared +0 samples/annotated.prepared -1 */
#include <ctype.h>
#include <inttypes.h>
#include <stdio.h>
#include <stdlib.h>
#include <string.h>

#include "gannozhi.h"

static const char usage[] =
    "usage: report WIDTH NEWLINE_COST POLICY RULE STEP ..   (a step is +PLACE FILE, a row inserted, or -PLACE, a row removed)\n";

/* Those of the program `page`, but for output and spans, which are the whole page's; and room for the files of all rows. */
enum { STACK = 512, MEMO = 1024, KEPT = 1024, FRONTIER = 256, PLANS = 2048, VISIT = 512, DEPTH = 64, OUTPUT = 1 << 20, SPANS = 1 << 14 };
enum { FILES = 1 << 23 };
static const uint32_t sizes[GANNOZHI_SIZES] = {STACK, MEMO, KEPT, FRONTIER, PLANS, VISIT, DEPTH, OUTPUT, SPANS};

/* The report. Nothing but its steps writes here. */
static struct {
    uint32_t head[GANNOZHI_HEAD];
    gannozhi_row table[GANNOZHI_ROWS];
    uint8_t files[FILES], pages[OUTPUT];
    gannozhi_mark marks[SPANS];
} report;

/* Its page, and the working memory of an insertion, under the names of docs/MEMORY.md. */
static struct {
    uint8_t output[OUTPUT];
    gannozhi_span spans[SPANS];
    uint32_t nodes[GANNOZHI_NODES][8], edges[GANNOZHI_EDGES], choices[GANNOZHI_CHOICES], texts[GANNOZHI_TEXTS][3];
    uint8_t bytes[GANNOZHI_BYTES];
    uint32_t tasks[STACK][9], results[STACK][2];
    uint64_t pending[STACK][7], index[2048] /* gannozhi_memo_slots(MEMO) */, entries[MEMO][6], kept[KEPT][6];
    uint64_t frontier[GANNOZHI_FRONTIER_WORDS * FRONTIER];
    uint32_t plans[PLANS][3];
    size_t visit[VISIT], depth[DEPTH];
    uint8_t row_output[OUTPUT];
    gannozhi_span row_spans[SPANS];
} lent;

#define SLICE(array) array, sizeof array / sizeof *array
#define LENT(slice) SLICE(lent.slice)
#define HELD report.head, SLICE(report.table), SLICE(report.files), SLICE(report.pages), SLICE(report.marks), LENT(output), LENT(spans)

/* All steps are desk 0's, whose work is held to the limit of the step alone. */
static gannozhi_desks desks = {.allowance = {UINT64_MAX}};

/* No file has more than 339,997 bytes; the one more shows that there is a surplus. */
static uint8_t file[339998];
static uint64_t answer[GANNOZHI_ANSWER];

/* A word of decimal digits, at most so much. */
static int number_of(const char *word, uint64_t most, uint64_t *number) {
    char *end;
    unsigned long long value = strtoull(word, &end, 10);
    *number = value;
    return isdigit((unsigned char)*word) && *end == 0 && value <= most;
}

static uint32_t insert(size_t place, const char *name) {
    FILE *input = fopen(name, "rb");
    if (input == NULL) {
        perror(name);
        exit(2);
    }
    size_t length = fread(file, 1, sizeof file, input);
    fclose(input);
    return gannozhi_report_insert(
        0, &desks, place, file, length, sizes, 1000000, 1000000, HELD, LENT(nodes), LENT(edges), LENT(choices), LENT(texts), LENT(bytes),
        LENT(tasks), LENT(results), LENT(pending), LENT(index), LENT(entries), LENT(kept), LENT(frontier), LENT(plans), LENT(visit),
        LENT(depth), LENT(row_output), LENT(row_spans), answer);
}

static int misused(void) {
    fputs(usage, stderr);
    return 2;
}

int main(int count, char **words) {
    uint64_t setting[4]; /* width, newline cost, policy, rule */
    uint64_t place, length = 0, spans = 0; /* of the page that stands */
    int status = 0;
    if (count > 1 && strcmp(words[1], "--help") == 0) {
        fputs(usage, stdout);
        return 0;
    }
    for (int i = 0; i < 4; i++)
        if (i + 1 >= count || !number_of(words[i + 1], UINT32_MAX, &setting[i])) return misused();
    for (int i = 5; i < count; i++) {
        const char *step = words[i];
        if ((*step != '+' && *step != '-') || !number_of(step + 1, SIZE_MAX, &place)) return misused();
        if (*step == '+' && ++i == count) return misused();
    }
    if (gannozhi_report_open((uint32_t)setting[0], (uint32_t)setting[1], (uint32_t)setting[2], (uint32_t)setting[3], report.head) != 0) {
        fprintf(stderr, "refused 1 %s\n", gannozhi_refusal(1));
        return 1;
    }
    for (int i = 5; i < count; i++) {
        const char *step = words[i];
        number_of(step + 1, SIZE_MAX, &place);
        uint32_t number =
            *step == '+' ? insert(place, words[++i]) : gannozhi_report_remove(0, &desks, place, sizes, HELD, answer);
        if (number != 0) {
            fprintf(stderr, "%s: refused %" PRIu32 " %s", step, number, gannozhi_refusal(number));
            if (answer[GANNOZHI_NEEDED] != 0) fprintf(stderr, ", needed %" PRIu64, answer[GANNOZHI_NEEDED]);
            fputs("\n", stderr);
            status = 1;
            continue;
        }
        length = answer[GANNOZHI_LENGTH];
        spans = answer[GANNOZHI_SPAN_COUNT];
        fprintf(stderr, "%s: bytes %" PRIu64 ", spans %" PRIu64 ", overflow %016" PRIx64 "%016" PRIx64 ", burden %" PRIu64 ", work %" PRIu64 "\n",
                step, length, spans, answer[GANNOZHI_OVERFLOW_HIGH], answer[GANNOZHI_OVERFLOW_LOW], answer[GANNOZHI_BURDEN],
                answer[GANNOZHI_WORK]);
    }
    for (uint64_t i = 0; i < spans; i++) {
        const uint64_t *span = lent.spans[i]; /* annotation, start, end; its parent, `-` for none */
        fprintf(stderr, "span %" PRIu64 " %" PRIu64 " %" PRIu64, span[0], span[1], span[2]);
        if (span[3] == 0)
            fputs(" -\n", stderr);
        else
            fprintf(stderr, " %" PRIu64 "\n", span[3] - 1);
    }
    fwrite(lent.output, 1, length, stdout);
    return status;
}
