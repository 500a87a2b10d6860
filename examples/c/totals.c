/* Adds up the amounts of each name in a feed, and prints the table, names rising: `totals orders.csv`. */
#include "fkv.h"

#include <inttypes.h>
#include <stdio.h>
#include <stdlib.h>
#include <string.h>

/* Ends the program where a call has done nothing. */
static void check(uint32_t status, const char *call) {
    if (status == FKV_DONE) return;
    char name[16];
    fkv_name(status, name, sizeof name);
    fprintf(stderr, "totals: %s: %s\n", call, name);
    exit(1);
}

/* Prints a number of 128 bits. */
static void print_number(fkv_number number) {
    unsigned __int128 bits = (unsigned __int128)(uint64_t)number.high << 64 | number.low;
    if (number.high < 0) {
        putchar('-');
        bits = -bits;
    }
    char digits[40];
    size_t count = 0;
    do {
        digits[count++] = (char)('0' + (int)(bits % 10));
        bits /= 10;
    } while (bits != 0);
    while (count > 0) putchar(digits[--count]);
}

/* Adds the rows of a feed: a name, a comma and an amount. */
static void add_rows(fkv_handle *store, FILE *feed) {
    char line[128];
    while (fgets(line, sizeof line, feed)) {
        char *comma = strchr(line, ',');
        if (!comma) {
            fprintf(stderr, "totals: no comma in %s", line);
            exit(1);
        }
        fkv_answer answer;
        check(fkv_rmw(store, line, (size_t)(comma - line), strtoll(comma + 1, NULL, 10), &answer), "rmw");
    }
}

int main(int count, char **words) {
    if (count != 2) {
        fprintf(stderr, "usage: totals FEED\n");
        return 2;
    }
    FILE *feed = fopen(words[1], "r");
    if (!feed) {
        perror(words[1]);
        return 1;
    }
    fkv_handle store = FKV_CLOSED, cursor = FKV_CLOSED;
    fkv_settings settings = FKV_SETTINGS;
    check(fkv_open(&store, FKV_SUM, &settings), "open");
    add_rows(&store, feed);
    fclose(feed);

    fkv_pair pair;
    check(fkv_list(&store, &cursor), "list");
    for (check(fkv_next(&cursor, &pair), "next"); pair.is_some; check(fkv_next(&cursor, &pair), "next")) {
        printf("%s,", pair.name);
        print_number(pair.value);
        putchar('\n');
    }
    check(fkv_close(&cursor), "close");
    check(fkv_close(&store), "close");
    return 0;
}
