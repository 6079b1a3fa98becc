/* A prepared file's page, by the proved library libgannozhi.a (`cd crates/gannozhi && rt lib`), on x86-64.
 *
 * Every slice is a pointer and a number of items. A pointer is never null, also where there are no items, and is aligned for its items;
 * what is written overlaps nothing else. What lent memory holds at entry does not matter, but for the memory of a live report and the desks.
 * Where a slice is too short the library refuses by 1; no call has any other condition. The library allocates nothing, keeps nothing between
 * calls but in what it is lent, and calls nothing but memcpy and memset.
 *
 * docs/MEMORY.md says what the working memory is for. */
#ifndef GANNOZHI_H
#define GANNOZHI_H

#include <stddef.h>
#include <stdint.h>

#ifdef __cplusplus
extern "C" {
#endif

/* The sizes, in the order of the refusals 13 to 21. */
enum {
    GANNOZHI_STACK,
    GANNOZHI_MEMO,
    GANNOZHI_KEPT,
    GANNOZHI_FRONTIER,
    GANNOZHI_PLANS,
    GANNOZHI_VISIT,
    GANNOZHI_DEPTH,
    GANNOZHI_OUTPUT,
    GANNOZHI_SPANS,
    GANNOZHI_SIZES
};

/* The words of an answer. */
enum {
    GANNOZHI_NUMBER,         /* of the refusal, 1 to 22, 25, 26 or 28, of a report's step 23 or 24 too; 0: there is a page */
    GANNOZHI_NEEDED,         /* size that is needed: 13 to 21; else 0 */
    GANNOZHI_LENGTH,         /* bytes of the page, at the front of the output */
    GANNOZHI_SPAN_COUNT,     /* spans, at the front of the rows */
    GANNOZHI_OVERFLOW_HIGH,  /* of the page's cost under the call's rule, two halves of 128 bits */
    GANNOZHI_OVERFLOW_LOW,
    GANNOZHI_BURDEN,
    GANNOZHI_WORK,           /* from here on counts, on refusals too */
    GANNOZHI_FIT_CHECKS,
    GANNOZHI_MEMO_HITS,
    GANNOZHI_MEMO_MISSES,
    GANNOZHI_GENERATED,
    GANNOZHI_PRUNED,
    GANNOZHI_PEAK_FRONTIER,
    GANNOZHI_MEMO_ENTRIES,
    GANNOZHI_PLAN_NODES,
    GANNOZHI_VISITS,
    GANNOZHI_NEEDS,          /* from here on a page's nine needs, in the order of the sizes; on refusals 0 */
    GANNOZHI_ANSWER = GANNOZHI_NEEDS + GANNOZHI_SIZES
};

/* A page's needs are the sizes that just suffice: the greatest that was needed of each kind, whatever was lent. Lent exactly these, the same
 * call with the same limits gives the same page, cost, counts and needs. With exactly one of them smaller, and the others as they are, it is
 * refused by that kind's own number (13 to 21), and the size that is needed is above the one given and at most the need. Each is below 2^32
 * and can be put among the sizes as it is; the memo's index then has gannozhi_memo_slots of the memo's need. */

/* The word of a refusal in the rule; an empty string for a number that is none, so that it can be printed untested. */
static inline const char *gannozhi_refusal(uint32_t number) {
    static const char *const words[] = {
        "", "order",
        "short", "form", "limit", "surplus", "reference", "text", "space", "circle", "list", /* the file: 2 to 10 */
        "domain", "work", "stack", "memo", "kept", "frontier", "plans",                      /* the solver: 11 to 17 */
        "visit", "depth", "output", "spans", "visits",                                       /* the materializer: 18 to 22 */
        "place", "rows",                                                                     /* a report's steps: 23 and 24 */
        "indent", "cost",                                                                    /* the solver again: 25 and 26 */
        "", "desk", "documents"};                                                            /* 27 is none; 28 and, of a batch, 29 */
    return number < sizeof words / sizeof *words ? words[number] : "";
}

/* How many items to lend for a file's tables. */
#define GANNOZHI_NODES 4096
#define GANNOZHI_EDGES 16384
#define GANNOZHI_CHOICES 16384
#define GANNOZHI_TEXTS 4096
#define GANNOZHI_BYTES 65536

/* Words for each item of the frontier. */
#define GANNOZHI_FRONTIER_WORDS 14

/* How many words the memo's index has for so many entries. */
static inline size_t gannozhi_memo_slots(uint32_t entries) {
    size_t slots = 8;
    if (entries == 0) return 0;
    while (slots * 7 / 10 < entries) slots *= 2;
    return slots;
}

/* Work counted by desk. What can solve is called for a desk, 0 to 7, with the desks of all calls that share them: how much work each may do,
 * and how much it has done. They are kept between calls by the caller and nowhere else. The caller sets the allowances, and the spent counts at
 * the start; both may be set anew between any two calls.
 *
 * A call adds its work (GANNOZHI_WORK), also that of a refused call, to the spent count of its own desk; it alters no other word, and no call
 * alters an allowance. It is refused by 12 where that count would pass its allowance, or the call's work its work limit: so it has the lesser
 * of the two, and none where more is spent than allowed. A desk above 7 is 28, tested right after 1 and before all else, and is charged
 * nothing. Where there are no desks: desk 0, its allowance UINT64_MAX, its spent count 0. */
#define GANNOZHI_DESKS 8

typedef struct {
    uint64_t allowance[GANNOZHI_DESKS];
    uint64_t spent[GANNOZHI_DESKS];
} gannozhi_desks;

/* A span: annotation, start and end on the page, and 0 for no parent or one more than the parent's number. */
typedef uint64_t gannozhi_span[4];

/* The page of a file, or why there is none, for a desk; the answer's first word is returned too. On a refusal output and spans are unaltered,
 * and past the page's end they always are.
 *
 * The rule says what a line past the width is charged: 1 the square of the columns past it, 2 those columns themselves. Anything else is
 * refused by 1, as are a width of 0 and a policy above 1. */
uint32_t gannozhi_render(
    uint32_t desk, gannozhi_desks *desks,
    const uint8_t *file, size_t file_length,
    uint32_t width, uint32_t newline_cost, uint32_t policy, uint32_t rule,
    const uint32_t sizes[GANNOZHI_SIZES], uint64_t work_limit, uint64_t visit_limit,
    uint32_t (*nodes)[8], size_t nodes_length,      /* GANNOZHI_NODES */
    uint32_t *edges, size_t edges_length,           /* GANNOZHI_EDGES */
    uint32_t *choices, size_t choices_length,       /* GANNOZHI_CHOICES */
    uint32_t (*texts)[3], size_t texts_length,      /* GANNOZHI_TEXTS */
    uint8_t *bytes, size_t bytes_length,            /* GANNOZHI_BYTES */
    uint32_t (*tasks)[9], size_t tasks_length,      /* stack */
    uint32_t (*results)[2], size_t results_length,  /* stack */
    uint64_t (*pending)[7], size_t pending_length,  /* stack */
    uint64_t *index, size_t index_length,           /* gannozhi_memo_slots(memo) */
    uint64_t (*entries)[6], size_t entries_length,  /* memo */
    uint64_t (*kept)[6], size_t kept_length,        /* kept */
    uint64_t *frontier, size_t frontier_length,     /* GANNOZHI_FRONTIER_WORDS * frontier */
    uint32_t (*plans)[3], size_t plans_length,      /* plans */
    size_t *visit, size_t visit_length,             /* visit */
    size_t *depth, size_t depth_length,             /* depth */
    uint8_t *output, size_t output_length,          /* output */
    gannozhi_span *spans, size_t spans_length,      /* spans */
    uint64_t answer[GANNOZHI_ANSWER]);

/* Several files in one call, a batch: up to GANNOZHI_DOCUMENTS documents under one setting, with one list of sizes and one pair of limits, for
 * one desk. `files` has their bytes one behind the other, `lengths` the number of bytes of each; there are as many documents as lengths.
 *
 * Each document in order gets what gannozhi_render gives on that part of output and spans, and of their sizes, that is still free; the other
 * sizes and both limits are the batch's for each, and the allowance is what the desk then has left. The answer's words are its row of `answers`.
 * Pages stand one behind the other with nothing between: a page begins where the lengths (GANNOZHI_LENGTH) of those before it together end, its
 * spans likewise by GANNOZHI_SPAN_COUNT. Positions count from its own first byte, parents from its own first span. A document that is refused
 * takes no output and no spans, and the next is tried.
 *
 * What is returned is the batch's own number: 0, or why no document is tried. 1: as gannozhi_render with the whole sizes, or `answers` has fewer
 * rows than there are documents (than GANNOZHI_DOCUMENTS where there are more), or the lengths together pass `files`. Then 28, no such desk.
 * Then 29, more than GANNOZHI_DOCUMENTS. Desks, output, spans and answers are then unaltered.
 *
 * The counts, in the order of an answer's words from GANNOZHI_WORK on, are left as the last document's, and as 0 where the batch is refused;
 * they are not read. Where there is no document nothing is altered, the counts neither. Rows of `answers` past the documents, and output and
 * spans past the last page, are unaltered. */
#define GANNOZHI_DOCUMENTS 64

uint32_t gannozhi_file_all(
    uint32_t desk, gannozhi_desks *desks, uint64_t counts[GANNOZHI_NEEDS - GANNOZHI_WORK],
    const uint8_t *files, size_t files_length,
    const uint32_t *lengths, size_t lengths_length,
    uint32_t width, uint32_t newline_cost, uint32_t policy, uint32_t rule,
    const uint32_t sizes[GANNOZHI_SIZES], uint64_t work_limit, uint64_t visit_limit,
    uint32_t (*nodes)[8], size_t nodes_length,      /* GANNOZHI_NODES */
    uint32_t *edges, size_t edges_length,           /* GANNOZHI_EDGES */
    uint32_t *choices, size_t choices_length,       /* GANNOZHI_CHOICES */
    uint32_t (*texts)[3], size_t texts_length,      /* GANNOZHI_TEXTS */
    uint8_t *bytes, size_t bytes_length,            /* GANNOZHI_BYTES */
    uint32_t (*tasks)[9], size_t tasks_length,      /* stack */
    uint32_t (*results)[2], size_t results_length,  /* stack */
    uint64_t (*pending)[7], size_t pending_length,  /* stack */
    uint64_t *index, size_t index_length,           /* gannozhi_memo_slots(memo) */
    uint64_t (*entries)[6], size_t entries_length,  /* memo */
    uint64_t (*kept)[6], size_t kept_length,        /* kept */
    uint64_t *frontier, size_t frontier_length,     /* GANNOZHI_FRONTIER_WORDS * frontier */
    uint32_t (*plans)[3], size_t plans_length,      /* plans */
    size_t *visit, size_t visit_length,             /* visit */
    size_t *depth, size_t depth_length,             /* depth */
    uint8_t *output, size_t output_length,          /* output, of all pages */
    gannozhi_span *spans, size_t spans_length,      /* spans, of all pages */
    uint64_t (*answers)[GANNOZHI_ANSWER], size_t answers_length);

/* The counts that a file has, with its root and space text; and how many bytes its texts have together, which only a reader tells. */
enum {
    GANNOZHI_NODE_COUNT,
    GANNOZHI_EDGE_COUNT,
    GANNOZHI_CHOICE_COUNT,
    GANNOZHI_TEXT_COUNT,
    GANNOZHI_ANNOTATION_COUNT,
    GANNOZHI_ROOT,
    GANNOZHI_SPACE,
    GANNOZHI_FILE_COUNTS,
    GANNOZHI_BYTE_COUNT = GANNOZHI_FILE_COUNTS,
    GANNOZHI_COUNTS
};

/* A file into lent tables: 0, or the number of the refusal (1 to 10), which leaves the counts unaltered. Past its count a table holds
 * anything, and after a refusal it does from its start. Each text is well-formed UTF-8 (RFC 3629) without byte 10, or the refusal is 7. */
uint32_t gannozhi_read(
    const uint8_t *file, size_t file_length,
    uint32_t (*nodes)[8], size_t nodes_length,
    uint32_t *edges, size_t edges_length,
    uint32_t *choices, size_t choices_length,
    uint32_t (*texts)[3], size_t texts_length,
    uint8_t *bytes, size_t bytes_length,
    uint32_t counts[GANNOZHI_COUNTS]);

/* The one file that reads back to the counts and the tables, which stay as they are: 0, or the number of the refusal (1, 3, 4, 6 to 10, 20).
 * `size` is then the number of bytes written, or for 20 needed, else 0. A refusal alters no byte of `out`; past the file they are unaltered.
 * Of `bytes` as many are taken as the texts' lengths say together; each text by itself is well-formed UTF-8 (RFC 3629) without byte 10, or
 * the refusal is 7. */
uint32_t gannozhi_write(
    const uint32_t counts[GANNOZHI_FILE_COUNTS],
    uint32_t (*nodes)[8], size_t nodes_length,
    const uint32_t *edges, size_t edges_length,
    const uint32_t *choices, size_t choices_length,
    uint32_t (*texts)[3], size_t texts_length,
    const uint8_t *bytes, size_t bytes_length,
    uint8_t *out, size_t out_length,
    size_t *size);

/* Live reports: rows that come and go, each a prepared file, under one setting. The page is that of one document, whose root is a Seq of the
 * rows with a HardLine between neighbours; without rows it is empty.
 *
 * A report is in memory that the caller lends to each of its steps and leaves alone between them: head, table, files, pages and marks. It
 * stands at their front, and past it anything may stand, so a report can be moved to longer slices by copying what it holds. Memory of which
 * the head says more than 1,024 rows, or the table longer files, pages and marks than the slices are, is refused by 1 and is unaltered; on any
 * other the answer is that of the report that it holds, whoever wrote it. */
#define GANNOZHI_ROWS 1024

/* The words of a report's head. */
enum { GANNOZHI_ROW_COUNT, GANNOZHI_WIDTH, GANNOZHI_NEWLINE_COST, GANNOZHI_POLICY, GANNOZHI_RULE, GANNOZHI_HEAD };

/* A row of the table: the bytes of its file and of its page, its spans, its cost, the rule, 0. Files, pages and marks have those of the rows one
 * after the other, without anything in between. */
enum {
    GANNOZHI_ROW_FILE,
    GANNOZHI_ROW_PAGE,
    GANNOZHI_ROW_SPANS,
    GANNOZHI_ROW_OVERFLOW_HIGH,
    GANNOZHI_ROW_OVERFLOW_LOW,
    GANNOZHI_ROW_BURDEN,
    GANNOZHI_ROW_RULE,
    GANNOZHI_ROW = 8
};
typedef uint64_t gannozhi_row[GANNOZHI_ROW];

/* A span as a report keeps it: as gannozhi_span, but from its row's own first byte and first span. */
typedef uint32_t gannozhi_mark[4];

/* The head of a report without rows, under the setting: 0; or 1, where the setting is not right, and the head is unaltered. The other slices
 * need hold nothing then. */
uint32_t gannozhi_report_open(
    uint32_t width, uint32_t newline_cost, uint32_t policy, uint32_t rule, uint32_t head[GANNOZHI_HEAD]);

/* A file as a new row at a place, 0 to the number of rows: output and spans are then those of the whole page, and the answer tells its length,
 * spans and cost. Each span has its row's annotation; positions and parents are the whole page's. Only the new row is solved: counts are those
 * of a call on its file alone, and so are the needs but for output and spans, which are the whole page's.
 *
 * Refused in this order: 1; 28, no such desk; 23, the place is not there; 24, the report has 1,024 rows; as gannozhi_render refuses the file for
 * the same desk under the same sizes and limits; then by the whole page: 26, 20, 21, with its number of bytes or spans as the size that is
 * needed. On a refusal the report, output and spans are unaltered, and past the page's end output and spans always are. Row output and row
 * spans are working memory, as are the slices before them. */
uint32_t gannozhi_report_insert(
    uint32_t desk, gannozhi_desks *desks,
    size_t place, const uint8_t *file, size_t file_length,
    const uint32_t sizes[GANNOZHI_SIZES], uint64_t work_limit, uint64_t visit_limit,
    uint32_t head[GANNOZHI_HEAD],
    gannozhi_row *table, size_t table_length,       /* GANNOZHI_ROWS */
    uint8_t *files, size_t files_length,            /* bytes of all files, the new one too */
    uint8_t *pages, size_t pages_length,            /* output */
    gannozhi_mark *marks, size_t marks_length,      /* spans */
    uint8_t *output, size_t output_length,          /* output */
    gannozhi_span *spans, size_t spans_length,      /* spans */
    uint32_t (*nodes)[8], size_t nodes_length,      /* GANNOZHI_NODES */
    uint32_t *edges, size_t edges_length,           /* GANNOZHI_EDGES */
    uint32_t *choices, size_t choices_length,       /* GANNOZHI_CHOICES */
    uint32_t (*texts)[3], size_t texts_length,      /* GANNOZHI_TEXTS */
    uint8_t *bytes, size_t bytes_length,            /* GANNOZHI_BYTES */
    uint32_t (*tasks)[9], size_t tasks_length,      /* stack */
    uint32_t (*results)[2], size_t results_length,  /* stack */
    uint64_t (*pending)[7], size_t pending_length,  /* stack */
    uint64_t *index, size_t index_length,           /* gannozhi_memo_slots(memo) */
    uint64_t (*entries)[6], size_t entries_length,  /* memo */
    uint64_t (*kept)[6], size_t kept_length,        /* kept */
    uint64_t *frontier, size_t frontier_length,     /* GANNOZHI_FRONTIER_WORDS * frontier */
    uint32_t (*plans)[3], size_t plans_length,      /* plans */
    size_t *visit, size_t visit_length,             /* visit */
    size_t *depth, size_t depth_length,             /* depth */
    uint8_t *row_output, size_t row_output_length,  /* output */
    gannozhi_span *row_spans, size_t row_spans_length, /* spans */
    uint64_t answer[GANNOZHI_ANSWER]);

/* The row at a place taken away, and the page of those left, as above. Nothing is solved: counts are 0, and so are the needs but for output and
 * spans, the only sizes that are looked at. It needs no allowance and alters no spent count. Refused in this order: 1; 28; 23; 26, 20 and 21
 * by the whole page. */
uint32_t gannozhi_report_remove(
    uint32_t desk, gannozhi_desks *desks,
    size_t place, const uint32_t sizes[GANNOZHI_SIZES],
    uint32_t head[GANNOZHI_HEAD],
    gannozhi_row *table, size_t table_length,       /* GANNOZHI_ROWS */
    uint8_t *files, size_t files_length,            /* bytes of all files */
    uint8_t *pages, size_t pages_length,            /* output */
    gannozhi_mark *marks, size_t marks_length,      /* spans */
    uint8_t *output, size_t output_length,          /* output */
    gannozhi_span *spans, size_t spans_length,      /* spans */
    uint64_t answer[GANNOZHI_ANSWER]);

#ifdef __cplusplus
}
#endif

#endif
