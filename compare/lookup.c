/* One lookup from C, from start to finish, and a call that is refused: it prints what it does, and fails if anything is not as it
 * should be. The words have one letter from an alphabet of two, the table is 2 5, and the tape 3 1 4. */
#include "visordate.h"

#include <stdio.h>
#include <string.h>

enum { H = 1, Q = 2, POSITION = 1, COUNT = 2, K = VISORDATE_DIMENSION(H, Q), SHEET = VISORDATE_SHEET(H, Q) };

static int failures = 0;

static void print_row(const char *name, const uint8_t *row, size_t len)
{
    printf("%-14s", name);
    for (size_t i = 0; i < len; i++)
        printf(" %d", row[i]);
    printf("\n");
}

/* Prints a row, and counts a failure if it is not the one that is wanted. */
static void expect_row(const char *name, const uint8_t *row, const uint8_t *wanted, size_t len)
{
    print_row(name, row, len);
    if (memcmp(row, wanted, len) != 0) {
        print_row("  but wanted", wanted, len);
        failures++;
    }
}

static void expect_result(const char *call, uint32_t result, uint32_t wanted)
{
    printf("%-14s %u\n", call, (unsigned)result);
    if (result != wanted) {
        printf("  but wanted   %u\n", (unsigned)wanted);
        failures++;
    }
}

static void look_up(void)
{
    static const uint8_t table[COUNT] = {2, 5}, tape[K] = {3, 1, 4};
    static const uint8_t want_second[K] = {4, 1, 3}, want_shift[1] = {1}, want_entry[1] = {5};
    static const uint8_t want_sheet[SHEET] = {0, 5, 0, 0, 2, 0, 0, 5, 0, 0, 2, 0, 0, 0, 0, 0, 2, 0, 0, 5, 0, 0, 0, 0};
    static const uint8_t want_other[SHEET] = {0, 5, 0, 0, 0, 2, 0, 5, 0, 0, 0, 2, 0, 0, 0, 0, 0, 2, 0, 5, 0, 0, 0, 0};
    uint8_t first[K], second[K], shift[1], sheet[SHEET] = {0}, other[SHEET] = {0}, entry[1];

    expect_result("request", visordate_request(H, Q, POSITION, tape, K, first, K, second, K, shift, 1), 0);
    expect_row("first query", first, tape, K);
    expect_row("second query", second, want_second, K);
    expect_row("shift", shift, want_shift, 1);

    expect_result("answer", visordate_answer(H, Q, table, COUNT, first, K, sheet, SHEET), 0);
    expect_row("first sheet", sheet, want_sheet, SHEET);
    expect_result("answer", visordate_answer(H, Q, table, COUNT, second, K, other, SHEET), 0);
    expect_row("second sheet", other, want_other, SHEET);

    expect_result("recover", visordate_recover(H, Q, POSITION, shift, 1, sheet, SHEET, other, SHEET, entry, 1), 0);
    expect_row("entry", entry, want_entry, 1);
}

/* A tape of no digits, at NULL: the request is refused, and writes nothing. */
static void be_refused(void)
{
    static const uint8_t unwritten[K] = {9, 9, 9};
    uint8_t first[K] = {9, 9, 9}, second[K] = {9, 9, 9}, shift[1] = {9};

    expect_result("request", visordate_request(H, Q, POSITION, NULL, 0, first, K, second, K, shift, 1), 7);
    expect_row("first query", first, unwritten, K);
    expect_row("second query", second, unwritten, K);
    expect_row("shift", shift, unwritten, 1);
}

int main(void)
{
    look_up();
    be_refused();
    printf("%s\n", failures == 0 ? "as it should be" : "NOT as it should be");
    return failures == 0 ? 0 : 1;
}
