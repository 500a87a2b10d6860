/* Makes each kind of mistake once, and prints what the calls answer. */
#include "fkv.h"

#include <inttypes.h>
#include <stdio.h>
#include <string.h>

static void show(const char *what, uint32_t status) {
    char name[16];
    fkv_name(status, name, sizeof name);
    printf("%s: %s\n", what, name);
}

/* What an operation answered, or the mark that stood there before where it has done nothing. */
static void show_answer(const char *what, uint32_t status, const fkv_answer *answer) {
    show(what, status);
    printf("  %" PRIu64 " %" PRIu64 " %" PRId64 "\n", answer->kind, answer->value.low, answer->value.high);
}

/* The name of each status, in room that was full, and what stands at the end of that. */
static void show_names(void) {
    for (uint32_t status = 0; status <= 43; status++) {
        char name[16];
        memset(name, 'x', sizeof name);
        fkv_name(status, name, sizeof name);
        printf("%" PRIu32 " %.16s %d\n", status, name, name[15]);
    }
}

static void try_counts(const fkv_settings *settings) {
    fkv_handle store = FKV_CLOSED, cursor = FKV_CLOSED;
    fkv_answer answer = {77, {77, 77}};
    fkv_pair pair = {.is_some = 77};
    show("counts", fkv_open(&store, FKV_COUNT, settings));
    show_answer("first", fkv_rmw(&store, "a", 1, -5, &answer), &answer);
    show_answer("second", fkv_rmw(&store, "a", 1, 9, &answer), &answer);
    show_answer("merge", fkv_merge(&store, "b", 1, 0, &answer), &answer);
    show_answer("below 0", fkv_upsert(&store, "a", 1, (fkv_number){UINT64_MAX, -1}, &answer), &answer);
    show_answer("too large", fkv_upsert(&store, "a", 1, (fkv_number){0, 1}, &answer), &answer);
    show_answer("greatest", fkv_upsert(&store, "c", 1, (fkv_number){UINT64_MAX, 0}, &answer), &answer);
    show_answer("wraps", fkv_rmw(&store, "c", 1, 1, &answer), &answer);
    show_answer("greatest", fkv_upsert(&store, "c", 1, (fkv_number){UINT64_MAX, 0}, &answer), &answer);
    show("list", fkv_list(&store, &cursor));
    for (int row = 0; row < 4; row++) {
        show("next", fkv_next(&cursor, &pair));
        printf("  %" PRIu64 " %" PRIu64 " %s %" PRIu64 " %" PRId64 "\n", pair.is_some, pair.length, pair.name, pair.value.low, pair.value.high);
    }
    show("close", fkv_close(&cursor));
    show("close", fkv_close(&store));
}

/* The kind of an answer, or whether there is a pair, and the first and the last byte of its cell. */
static void show_cell(const char *what, uint32_t status, const uint64_t *kind, const fkv_cell *cell) {
    show(what, status);
    printf("  %" PRIu64 " %d %d\n", *kind, cell->bytes[0], cell->bytes[63]);
}

static void try_cells(const fkv_settings *settings) {
    fkv_handle store = FKV_CLOSED, cursor = FKV_CLOSED, numbers = FKV_CLOSED;
    fkv_cell cell = {{1}};
    fkv_cell_answer answer = {77, {{77}}};
    fkv_answer number = {77, {77, 77}};
    fkv_cell_pair pair = {.is_some = 77};
    fkv_pair number_pair = {.is_some = 77};
    uint32_t has_cut = 77;
    cell.bytes[63] = 255;
    show("closed", fkv_put(&store, "a", 1, &cell));
    show("cells", fkv_open(&store, FKV_CELLS, settings));
    show("null cell", fkv_put(&store, "a", 1, NULL));
    show("no byte", fkv_put(&store, "", 0, &cell));
    show_cell("absent", fkv_get(&store, "a", 1, &answer), &answer.kind, &answer.cell);
    show("put", fkv_put(&store, "a", 1, &cell));
    show_cell("get", fkv_get(&store, "a", 1, &answer), &answer.kind, &answer.cell);
    cell.bytes[0] = 2;
    show("put again", fkv_put(&store, "a", 1, &cell));
    show("put another", fkv_put(&store, "b", 1, &cell));
    show("remove", fkv_remove(&store, "b", 1));
    show_cell("get removed", fkv_get(&store, "b", 1, &answer), &answer.kind, &answer.cell);
    show_answer("no numbers", fkv_rmw(&store, "a", 1, 5, &number), &number);
    show("compact", fkv_compact(&store, &has_cut));
    show("list", fkv_list(&store, &cursor));
    show("no numbers", fkv_next(&cursor, &number_pair));
    for (int row = 0; row < 2; row++) {
        show_cell("next", fkv_next_cell(&cursor, &pair), &pair.is_some, &pair.cell);
    }
    show("no cursor", fkv_next_cell(&store, &pair));
    show("a cursor", fkv_put(&cursor, "a", 1, &cell));
    show("numbers", fkv_open(&numbers, FKV_SUM, settings));
    show("no cells", fkv_put(&numbers, "a", 1, &cell));
    show_cell("no cells", fkv_get(&numbers, "a", 1, &answer), &answer.kind, &answer.cell);
    show("close", fkv_close(&numbers));
    show("close", fkv_close(&cursor));
    show("close", fkv_close(&store));
}

int main(void) {
    const char *long_name = "a name that has more than 31 bytes";
    fkv_settings settings = FKV_SETTINGS, bad = FKV_SETTINGS;
    fkv_handle store = FKV_CLOSED, cursor = FKV_CLOSED;
    fkv_answer answer = {77, {77, 77}};
    fkv_sizes sizes = {77, 77, 77};
    fkv_pair pair = {.is_some = 77};
    uint32_t has_cut = 77;
    bad.frames = 1;

    show("null", fkv_open(NULL, FKV_SUM, &settings));
    show("null settings", fkv_open(&store, FKV_SUM, NULL));
    show("closed", fkv_rmw(&store, "a", 1, 5, &answer));
    show("closed cursor", fkv_next(&cursor, &pair));
    show("close what is closed", fkv_close(&store));
    show("no kind", fkv_open(&store, 99, &settings));
    show("bad settings", fkv_open(&store, FKV_SUM, &bad));
    show("open", fkv_open(&store, FKV_SUM, &settings));
    show("open twice", fkv_open(&store, FKV_SUM, &settings));

    show_answer("null name", fkv_rmw(&store, NULL, 1, 5, &answer), &answer);
    show("null answer", fkv_rmw(&store, "a", 1, 5, NULL));
    show_answer("no byte", fkv_rmw(&store, "", 0, 5, &answer), &answer);
    show_answer("32 bytes", fkv_rmw(&store, long_name, 32, 5, &answer), &answer);
    show_answer("read nothing", fkv_read(&store, long_name, 31, &answer), &answer);
    show_answer("31 bytes", fkv_rmw(&store, long_name, 31, 5, &answer), &answer);
    show_answer("read", fkv_read(&store, long_name, 31, &answer), &answer);
    show_answer("below zero", fkv_rmw(&store, "b", 1, -7, &answer), &answer);
    show_answer("upsert", fkv_upsert(&store, "a", 1, (fkv_number){UINT64_MAX, 0}, &answer), &answer);
    show_answer("past 64 bits", fkv_rmw(&store, "a", 1, 1, &answer), &answer);
    show_answer("least", fkv_upsert(&store, "c", 1, (fkv_number){0, INT64_MIN}, &answer), &answer);
    show_answer("wraps", fkv_rmw(&store, "c", 1, -1, &answer), &answer);
    show_answer("merge", fkv_merge(&store, "b", 1, 10, &answer), &answer);
    show_answer("delete", fkv_delete(&store, "c", 1, &answer), &answer);
    show_answer("read deleted", fkv_read(&store, "c", 1, &answer), &answer);

    show("compact", fkv_compact(&store, &has_cut));
    printf("  %" PRIu32 "\n", has_cut);
    show("counts", fkv_counts(&store, &sizes));
    printf("  %d %" PRIu64 " %d\n", sizes.bytes > 0, sizes.evicted, sizes.moments > 0);
    show("one handle", fkv_list(&store, &store));
    show("no cursor", fkv_next(&store, &pair));
    printf("  %" PRIu64 "\n", pair.is_some);
    show("list", fkv_list(&store, &cursor));
    show("list twice", fkv_list(&store, &cursor));
    show("no store", fkv_read(&cursor, "a", 1, &answer));
    show("compact a cursor", fkv_compact(&cursor, &has_cut));
    show("counts of a cursor", fkv_counts(&cursor, &sizes));
    show("list a cursor", fkv_list(&cursor, &store));
    show("close", fkv_close(&store));
    show("close twice", fkv_close(&store));
    for (int row = 0; row < 5; row++) {
        show("next", fkv_next(&cursor, &pair));
        printf("  %" PRIu64 " %" PRIu64 " %s %" PRIu64 " %" PRId64 "\n", pair.is_some, pair.length, pair.name, pair.value.low, pair.value.high);
    }
    show("close the cursor", fkv_close(&cursor));

    show("maxima", fkv_open(&store, FKV_MAX, &settings));
    show_answer("first", fkv_rmw(&store, "a", 1, -5, &answer), &answer);
    show_answer("less", fkv_rmw(&store, "a", 1, -6, &answer), &answer);
    show_answer("too large", fkv_upsert(&store, "a", 1, (fkv_number){0, 1}, &answer), &answer);
    show_answer("greatest", fkv_upsert(&store, "b", 1, (fkv_number){INT64_MAX, 0}, &answer), &answer);
    show("list", fkv_list(&store, &cursor));
    for (int row = 0; row < 3; row++) {
        show("next", fkv_next(&cursor, &pair));
        printf("  %" PRIu64 " %" PRIu64 " %s %" PRIu64 " %" PRId64 "\n", pair.is_some, pair.length, pair.name, pair.value.low, pair.value.high);
    }
    show("close", fkv_close(&cursor));
    show("close", fkv_close(&store));
    show("capped", fkv_open(&store, FKV_CAPPED_SUM, &settings));
    show_answer("within", fkv_rmw(&store, "a", 1, 1000000, &answer), &answer);
    show_answer("above", fkv_rmw(&store, "a", 1, 1, &answer), &answer);
    show_answer("still", fkv_read(&store, "a", 1, &answer), &answer);
    show_answer("no merge", fkv_merge(&store, "a", 1, 1, &answer), &answer);
    show("close", fkv_close(&store));
    try_counts(&settings);
    try_cells(&settings);
    show_names();
    return 0;
}
