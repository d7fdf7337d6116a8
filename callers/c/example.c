/* Plans, marks, reads, writes, lists and compares day files, fulfils wanted totals and forecasts plans by libcredits, books with idle seats
 * among them, and checks all that it sees.
 *
 *     example FOLDER       FOLDER is examples/ of this repository
 *
 * Files and buffers are blocks of exactly the length handed over, so that valgrind sees a byte read or written beside them. */
#include <assert.h>
#include <stdio.h>
#include <stdlib.h>
#include <string.h>

#include "credits.h"

#define UNTOUCHED 0xee /* what a buffer holds before a call */

/* The layout that the library was built with. */
static_assert(offsetof(credits_book, windows) == 8, "windows");
static_assert(offsetof(credits_book, classes) == 16, "classes");
static_assert(offsetof(credits_book, supplies) == 80, "supplies");
static_assert(offsetof(credits_book, caps) == 128, "caps");
static_assert(offsetof(credits_book, has_sheet) == 1664, "has_sheet");
static_assert(offsetof(credits_book, sheet) == 1668, "sheet");
static_assert(offsetof(credits_book, has_first) == 3204, "has_first");
static_assert(offsetof(credits_book, first) == 3208, "first");
static_assert(offsetof(credits_book, has_balances) == 3212, "has_balances");
static_assert(offsetof(credits_book, balances) == 3216, "balances");
static_assert(offsetof(credits_book, has_weights) == 3280, "has_weights");
static_assert(offsetof(credits_book, weights) == 3284, "weights");
static_assert(sizeof(credits_book) == 3304, "credits_book");
static_assert(offsetof(credits_read_result, offset) == 8, "offset of a read result");
static_assert(offsetof(credits_read_result, book) == 16, "book");
static_assert(sizeof(credits_read_result) == 3320, "credits_read_result");
static_assert(offsetof(credits_write_result, offset) == 8, "offset of a write result");
static_assert(offsetof(credits_write_result, length) == 16, "length");
static_assert(sizeof(credits_write_result) == 24, "credits_write_result");
static_assert(offsetof(credits_mark_result, offset) == 8, "offset of a mark result");
static_assert(offsetof(credits_mark_result, mark) == 16, "mark");
static_assert(offsetof(credits_mark_result, window) == 20, "window");
static_assert(offsetof(credits_mark_result, seat) == 24, "seat");
static_assert(offsetof(credits_mark_result, moves) == 28, "moves");
static_assert(sizeof(credits_mark_result) == 32, "credits_mark_result");
static_assert(offsetof(credits_better_result, offset) == 8, "offset of a better result");
static_assert(offsetof(credits_better_result, file) == 16, "file");
static_assert(offsetof(credits_better_result, start) == 24, "start");
static_assert(offsetof(credits_better_result, length) == 32, "length of a better result");
static_assert(sizeof(credits_better_result) == 40, "credits_better_result");
static_assert(offsetof(credits_fulfil_result, offset) == 8, "offset of a fulfil result");
static_assert(offsetof(credits_fulfil_result, length) == 16, "length of a fulfil result");
static_assert(offsetof(credits_fulfil_result, group) == 24, "group");
static_assert(sizeof(credits_fulfil_result) == 32, "credits_fulfil_result");
static_assert(offsetof(credits_forecast_result, refusal) == 0, "refusal of a forecast result");
static_assert(offsetof(credits_forecast_result, offset) == 8, "offset of a forecast result");
static_assert(offsetof(credits_forecast_result, length) == 16, "length of a forecast result");
static_assert(offsetof(credits_forecast_result, placed) == 24, "placed");
static_assert(sizeof(credits_forecast_result) == 120, "credits_forecast_result");
static_assert(CREDITS_SHEET_MAX == 2 * CREDITS_SEATS * CREDITS_WINDOWS, "CREDITS_SHEET_MAX");

static int checks = 0;

#define CHECK(fact) check((fact), #fact, __LINE__)

static void check(int holds, const char *fact, int line) {
    checks++;
    if (!holds) {
        fprintf(stderr, "example.c:%d: does not hold: %s\n", line, fact);
        exit(1);
    }
}

/* ---- bytes */

typedef struct {
    uint8_t *at;
    size_t length;
} bytes;

static bytes block(size_t length) {
    bytes b = {length == 0 ? NULL : malloc(length), length};
    CHECK(length == 0 || b.at != NULL);
    if (length != 0) memset(b.at, UNTOUCHED, length);
    return b;
}

static bytes copy(const uint8_t *from, size_t length) {
    bytes b = block(length);
    if (length != 0) memcpy(b.at, from, length);
    return b;
}

static bytes load(const char *folder, const char *name, const char *ending) {
    char path[512];
    uint8_t front[8192];
    snprintf(path, sizeof path, "%s/%s%s", folder, name, ending);
    FILE *f = fopen(path, "rb");
    CHECK(f != NULL);
    size_t length = fread(front, 1, sizeof front, f);
    CHECK(fclose(f) == 0 && length < sizeof front);
    return copy(front, length);
}

static int same(const uint8_t *a, bytes b, size_t length) {
    return length == b.length && memcmp(a, b.at, length) == 0;
}

/* Whether a buffer holds what it held before a call, from some byte on. */
static int untouched(bytes b, size_t from) {
    for (size_t i = from; i < b.length; i++)
        if (b.at[i] != UNTOUCHED) return 0;
    return 1;
}

/* ---- calls that are to be taken */

static credits_book book_in(bytes file) {
    credits_read_result r = credits_read(file.at, file.length);
    CHECK(r.refusal == CREDITS_OK && r.offset == 0);
    return r.book;
}

static bytes planned(bytes file) {
    bytes out = block(CREDITS_FILE_MAX);
    credits_write_result r = credits_plan(file.at, file.length, out.at, out.length);
    CHECK(r.refusal == CREDITS_OK && r.offset == 0 && r.length <= out.length && untouched(out, r.length));
    bytes plan = copy(out.at, r.length);
    free(out.at);
    return plan;
}

static bytes written(credits_book book) {
    bytes out = block(CREDITS_FILE_MAX);
    credits_write_result r = credits_write(book, out.at, out.length);
    CHECK(r.refusal == CREDITS_OK && r.offset == 0 && r.length <= out.length && untouched(out, r.length));
    bytes file = copy(out.at, r.length);
    free(out.at);
    return file;
}

static void expect_listing(bytes file, const char *folder, const char *name, const char *ending) {
    bytes text = load(folder, name, ending);
    bytes out = block(CREDITS_LISTING_MAX);
    credits_write_result r = credits_listing(file.at, file.length, out.at, out.length);
    CHECK(r.refusal == CREDITS_OK && r.offset == 0 && same(out.at, text, r.length) && untouched(out, r.length));
    free(out.at);
    free(text.at);
}

static size_t total(const credits_book *book, size_t seat) {
    size_t sum = 0;
    for (size_t w = 0; w < book->windows; w++) sum += book->sheet[seat][w];
    return sum;
}

/* ---- every example: listed, written again, planned, and the plan listed */

static const char *const examples[] = {"k01", "k02", "k03",  "k04",  "k05", "k06", "k07",        "k08",
                                       "k09", "k10a", "k10b", "k11", "k12", "full-alone", "full-fixed", "full-ladder",
                                       "pair-a", "pair-b", "first-k03", "first-k04", "first-three", "full-first",
                                       "standard", "balances-k05", "balances-k05b", "balances-three", "full-balances",
                                       "weights-k05", "weights-k05b", "weights-k06", "weights-three", "weights-close", "full-weights",
                                       "wanted-four", "wanted-given", "wanted-same"};

static void try_example(const char *folder, const char *name) {
    bytes file = load(folder, name, ".day");
    credits_book book = book_in(file);
    bytes again = written(book);
    CHECK(same(again.at, file, again.length));
    bytes plan = planned(file);
    credits_book fair = book_in(plan);
    CHECK(fair.has_sheet == 1 && fair.seats == book.seats && fair.windows == book.windows);
    CHECK(memcmp(fair.caps, book.caps, sizeof book.caps) == 0);
    CHECK(fair.has_first == book.has_first && fair.first == book.first);
    CHECK(fair.has_balances == book.has_balances && memcmp(fair.balances, book.balances, sizeof book.balances) == 0);
    CHECK(fair.has_weights == book.has_weights && memcmp(fair.weights, book.weights, sizeof book.weights) == 0);
    bytes moves = block(CREDITS_MOVES_MAX);
    credits_mark_result m = credits_mark(plan.at, plan.length, moves.at, moves.length);
    CHECK(m.refusal == CREDITS_OK && m.offset == 0 && m.mark == CREDITS_SETTLED);
    CHECK(m.window == 0 && m.seat == 0 && m.moves == 0 && untouched(moves, 0));
    expect_listing(file, folder, name, ".listing");
    expect_listing(plan, folder, name, ".planned.listing");
    printf("%-14s %2zu seats, %2zu windows: planned, %4zu bytes, mark 4\n", name, book.seats, book.windows, plan.length);
    free(moves.at);
    free(plan.at);
    free(again.at);
    free(file.at);
}

/* ---- a spoilt sheet: its chain, played until the sheet is settled */

static void play(credits_book *book, bytes moves, uint32_t count) {
    for (uint32_t i = 0; i < count; i++) {
        unsigned window = moves.at[3 * i], giver = moves.at[3 * i + 1], taker = moves.at[3 * i + 2];
        printf("  window %u from %u to %u\n", window, giver, taker);
        CHECK(0 < book->sheet[giver - 1][window - 1]);
        CHECK(book->sheet[taker - 1][window - 1] < book->caps[taker - 1][window - 1]);
        book->sheet[giver - 1][window - 1]--;
        book->sheet[taker - 1][window - 1]++;
    }
}

static credits_mark_result mark_and_play(credits_book *book) {
    bytes file = written(*book);
    bytes moves = block(CREDITS_MOVES_MAX);
    credits_mark_result m = credits_mark(file.at, file.length, moves.at, moves.length);
    CHECK(m.refusal == CREDITS_OK && untouched(moves, 3 * m.moves));
    printf("k08 mark %u, %u moves\n", m.mark, m.moves);
    play(book, moves, m.moves);
    free(moves.at);
    free(file.at);
    return m;
}

static void try_chain(const char *folder) {
    bytes file = load(folder, "k08", ".day");
    bytes moves = block(CREDITS_MOVES_MAX);
    credits_mark_result m = credits_mark(file.at, file.length, moves.at, moves.length);
    CHECK(m.mark == CREDITS_IMPROVABLE && m.moves == 2 && m.window == 0 && m.seat == 0);
    CHECK(memcmp(moves.at, "\1\2\1\2\3\2", 6) == 0 && untouched(moves, 6));
    credits_book book = book_in(file);
    CHECK(mark_and_play(&book).mark == CREDITS_IMPROVABLE);
    CHECK(mark_and_play(&book).mark == CREDITS_TIED);
    CHECK(mark_and_play(&book).mark == CREDITS_SETTLED);
    bytes plan = planned(file);
    credits_book fair = book_in(plan);
    for (size_t i = 0; i < fair.seats; i++) CHECK(total(&book, i) == total(&fair, i));
    printf("k08 settled: totals %zu %zu %zu, as planned\n", total(&fair, 0), total(&fair, 1), total(&fair, 2));
    free(plan.at);
    free(moves.at);
    free(file.at);
}

static void try_waste(const char *folder) {
    bytes file = load(folder, "k10a", ".day");
    bytes moves = block(CREDITS_MOVES_MAX);
    credits_mark_result m = credits_mark(file.at, file.length, moves.at, moves.length);
    CHECK(m.refusal == CREDITS_OK && m.mark == CREDITS_WASTEFUL && m.window == 1 && m.seat == 1 && m.moves == 0);
    CHECK(untouched(moves, 0));
    printf("k10a mark 1, window %u seat %u\n", m.window, m.seat);
    free(moves.at);
    free(file.at);
}

/* ---- the standard sheet: of all settled ones the highest, read seat by seat and window by window */

typedef uint16_t small_sheet[3][3];

static void put_sheet(credits_book *book, const small_sheet sheet) {
    for (size_t i = 0; i < 3; i++) memcpy(book->sheet[i], sheet[i], sizeof sheet[i]);
}

static void try_standard(const char *folder) {
    static const small_sheet standard = {{1, 2, 0}, {2, 0, 1}, {1, 0, 2}};
    static const small_sheet others[] = {{{1, 1, 1}, {3, 0, 0}, {0, 1, 2}},  /* highest window by window */
                                         {{1, 0, 2}, {2, 0, 1}, {1, 2, 0}},  /* highest from the last seat on */
                                         {{0, 1, 2}, {3, 0, 0}, {1, 1, 1}}}; /* lowest */
    bytes file = load(folder, "standard", ".day"), plan = planned(file), moves = block(CREDITS_MOVES_MAX);
    credits_book book = book_in(file);
    book.has_sheet = 1;
    put_sheet(&book, standard);
    bytes expected = written(book);
    CHECK(same(plan.at, expected, plan.length));
    /* the others are settled too, and planned again they give the standard sheet */
    for (size_t k = 0; k < sizeof others / sizeof others[0]; k++) {
        put_sheet(&book, others[k]);
        bytes other = written(book), again = planned(other);
        CHECK(credits_mark(other.at, other.length, moves.at, moves.length).mark == CREDITS_SETTLED);
        CHECK(!same(other.at, plan, other.length) && same(again.at, plan, again.length));
        free(again.at);
        free(other.at);
    }
    printf("standard planned: 1 2 0 / 2 0 1 / 1 0 2, and so with each of three other settled sheets\n");
    free(expected.at);
    free(moves.at);
    free(plan.at);
    free(file.at);
}

/* ---- the better of two sheets */

static credits_better_result better(bytes first, bytes second) {
    return credits_better(first.at, first.length, second.at, second.length);
}

/* The sheet body is the last part of its file but for the first seat, the balances and the weights. */
static int chosen(credits_better_result r, uint32_t number, bytes file) {
    credits_book book = book_in(file);
    size_t length = 2 * book.seats * book.windows;
    size_t after = (book.has_first ? 2 : 0) + (book.has_balances ? 2 * book.seats : 0) + (book.has_weights ? 16 : 0);
    return r.refusal == CREDITS_OK && r.offset == 0 && r.file == number && r.start == file.length - after - length && r.length == length;
}

static int turned_away(credits_better_result r, uint32_t number, size_t offset, uint32_t file) {
    return r.refusal == number && r.offset == offset && r.file == file && r.start == 0 && r.length == 0;
}

/* No list is higher than that of the planned sheet, and a sheet that passes has the same one. */
static void try_better(const char *folder, const char *name) {
    bytes file = load(folder, name, ".day"), plan = planned(file), moves = block(CREDITS_MOVES_MAX);
    credits_mark_result m = credits_mark(file.at, file.length, moves.at, moves.length);
    if (m.refusal != CREDITS_OK) { /* it has no sheet, or one that is not lawful */
        CHECK(turned_away(better(file, plan), m.refusal, m.offset, 1));
        CHECK(turned_away(better(plan, file), m.refusal, m.offset, 2));
    } else {
        int passes = m.mark == CREDITS_TIED || m.mark == CREDITS_SETTLED;
        CHECK(passes ? chosen(better(file, plan), 1, file) : chosen(better(file, plan), 2, plan));
        CHECK(chosen(better(plan, file), 1, plan) && chosen(better(file, file), 1, file));
        printf("%-14s its sheet or the planned one: %s\n", name, passes ? "the first of them" : "the planned one");
    }
    free(moves.at);
    free(plan.at);
    free(file.at);
}

/* All lines of the first file come before those of the second, and that the books differ comes last. */
static void try_refused_pairs(const char *folder) {
    bytes k08 = load(folder, "k08", ".day"), k12 = load(folder, "k12", ".day"), k11 = load(folder, "k11", ".day");
    bytes nothing = {NULL, 0}, one = copy(k08.at, 1);
    credits_book book = book_in(k08);
    book.sheet[0][0] = 1; /* window 1, whose supply is at 32, has one credit, and seat 2 has it */
    bytes above = written(book);
    CHECK(turned_away(better(above, one), CREDITS_REFUSED_ABOVE_SUPPLY, 32, 1));
    CHECK(turned_away(better(one, above), CREDITS_REFUSED_SHORT, 1, 1));
    CHECK(turned_away(better(k08, one), CREDITS_REFUSED_SHORT, 1, 2));
    CHECK(turned_away(better(nothing, nothing), CREDITS_REFUSED_SHORT, 0, 1));
    CHECK(turned_away(better(k12, above), CREDITS_REFUSED_ABOVE_SUPPLY, 32, 2));
    CHECK(turned_away(better(k08, k11), CREDITS_REFUSED_NO_SHEET, 0, 2));
    CHECK(turned_away(better(k08, k12), CREDITS_REFUSED_OTHER_BOOK, 0, 0));
    printf("pairs refused: the first file's refusals, then the second's, then that the books differ\n");
    free(above.at);
    free(one.at);
    free(k11.at);
    free(k12.at);
    free(k08.at);
}

/* ---- another seat comes first */

/* K3's book with that seat first, planned: which of its two seats has the credit more. The file keeps the first seat. */
static unsigned winner(credits_book book, uint16_t first) {
    book.has_first = 1;
    book.first = first;
    bytes file = written(book), plan = planned(file);
    credits_book fair = book_in(plan);
    CHECK(fair.has_first == 1 && fair.first == first && fair.has_sheet == 1);
    CHECK(plan.at[plan.length - 2] == first && plan.at[plan.length - 1] == 0);
    unsigned won = total(&fair, 0) == 2 ? 1 : 2;
    CHECK(total(&fair, won - 1) == 2 && total(&fair, 2 - won) == 1);
    printf("k03 with seat %u first: totals %zu %zu\n", first, total(&fair, 0), total(&fair, 1));
    free(plan.at);
    free(file.at);
    return won;
}

static void try_first_seats(const char *folder) {
    bytes k03 = load(folder, "k03", ".day"), other = load(folder, "first-k03", ".day");
    bytes plan = planned(k03), other_plan = planned(other);
    credits_book book = book_in(k03);
    CHECK(book.has_first == 0 && book.first == 0);
    CHECK(winner(book, 1) == 1 && winner(book, 2) == 2);
    /* a sheet that is settled on one day is tied on the other, and both have the same list */
    credits_book fair = book_in(plan);
    CHECK(fair.has_first == 0 && fair.first == 0);
    fair.has_first = 1;
    fair.first = 2;
    bytes tied = written(fair), moves = block(CREDITS_MOVES_MAX);
    credits_mark_result m = credits_mark(tied.at, tied.length, moves.at, moves.length);
    CHECK(m.mark == CREDITS_TIED && m.moves == 1 && memcmp(moves.at, "\1\1\2", 3) == 0 && untouched(moves, 3));
    CHECK(chosen(better(plan, other_plan), 1, plan) && chosen(better(other_plan, plan), 1, other_plan));
    printf("k03 planned with seat 1 first: tied where seat 2 comes first, with the same list\n");
    free(moves.at);
    free(tied.at);
    free(other_plan.at);
    free(plan.at);
    free(other.at);
    free(k03.at);
}

/* ---- balances carried over */

static credits_book with_balances(credits_book book, uint16_t one, uint16_t other) {
    book.has_balances = 1;
    book.balances[0] = one;
    book.balances[1] = other;
    return book;
}

/* The book of two seats with these balances, planned: its totals. The file keeps the balances, zeros too. */
static void expect_totals(credits_book book, uint16_t one, uint16_t other, size_t total_one, size_t total_other) {
    bytes file = written(with_balances(book, one, other)), plan = planned(file);
    credits_book fair = book_in(plan);
    CHECK(fair.has_balances == 1 && fair.balances[0] == one && fair.balances[1] == other && fair.balances[2] == 0);
    CHECK(plan.at[plan.length - 2] == other % 256 && plan.at[plan.length - 1] == other / 256);
    CHECK(total(&fair, 0) == total_one && total(&fair, 1) == total_other);
    printf("k05 with balances %u %u: totals %zu %zu\n", one, other, total(&fair, 0), total(&fair, 1));
    free(plan.at);
    free(file.at);
}

static void try_balances(const char *folder) {
    bytes k05 = load(folder, "k05", ".day"), other = load(folder, "balances-k05", ".day");
    bytes plan = planned(k05), other_plan = planned(other);
    credits_book book = book_in(k05);
    CHECK(book.has_balances == 0 && book.balances[0] == 0 && book.balances[1] == 0);
    expect_totals(book, 0, 0, 2, 2);
    expect_totals(book, 0, 4, 3, 1);
    expect_totals(book, 0, 50000, 4, 0);
    expect_totals(book, 50000, 0, 0, 4);
    /* the sheet that is settled without balances can be improved with them */
    credits_book fair = book_in(plan);
    bytes spoilt = written(with_balances(fair, 0, 4)), zeros = written(with_balances(fair, 0, 0)), moves = block(CREDITS_MOVES_MAX);
    credits_mark_result m = credits_mark(spoilt.at, spoilt.length, moves.at, moves.length);
    CHECK(m.mark == CREDITS_IMPROVABLE && m.moves == 1 && memcmp(moves.at, "\1\2\1", 3) == 0 && untouched(moves, 3));
    CHECK(chosen(better(spoilt, other_plan), 2, other_plan) && chosen(better(other_plan, spoilt), 1, other_plan));
    /* other balances are of another book, and zeros are not */
    CHECK(turned_away(better(plan, spoilt), CREDITS_REFUSED_OTHER_BOOK, 0, 0));
    CHECK(turned_away(better(spoilt, zeros), CREDITS_REFUSED_OTHER_BOOK, 0, 0));
    CHECK(zeros.length == plan.length + 6 + 4 && chosen(better(plan, zeros), 1, plan) && chosen(better(zeros, plan), 1, zeros));
    printf("k05 planned without balances: improvable with 0 4, of another book, and of the same book as with zeros\n");
    free(moves.at);
    free(zeros.at);
    free(spoilt.at);
    free(other_plan.at);
    free(plan.at);
    free(other.at);
    free(k05.at);
}

/* ---- weights of its own */

static const uint16_t built_in[8] = {1, 2, 3, 5, 8, 12, 20, 40};
static const uint16_t lowest[8] = {1, 2, 3, 4, 5, 6, 7, 8};
static const uint16_t highest[8] = {993, 994, 995, 996, 997, 998, 999, 1000};
static const uint16_t one_to_three[8] = {1, 3, 6, 10, 20, 50, 300, 1000}; /* those of weights-k05 */

static credits_book with_weights(credits_book book, const uint16_t *weights) {
    book.has_weights = 1;
    memcpy(book.weights, weights, sizeof book.weights);
    return book;
}

/* A seat of each class, and two windows that have together as many credits as the weights add up to. */
static credits_book all_classes(const uint16_t *weights) {
    credits_book book = {0};
    book.seats = 8;
    book.windows = 2;
    for (size_t i = 0; i < 8; i++) {
        book.classes[i] = (uint16_t)(i + 1);
        book.caps[i][0] = book.caps[i][1] = 4095;
        book.supplies[i % 2] += weights[i];
    }
    return with_weights(book, weights);
}

/* Each seat gets as many credits as its weight says, so that all levels are 1. The file keeps the weights. */
static void expect_shares(const char *name, const uint16_t *weights) {
    bytes file = written(all_classes(weights)), plan = planned(file);
    credits_book fair = book_in(plan);
    CHECK(fair.has_weights == 1 && memcmp(fair.weights, weights, sizeof fair.weights) == 0);
    CHECK(memcmp(plan.at + plan.length - 16, file.at + file.length - 16, 16) == 0);
    for (size_t i = 0; i < 8; i++) CHECK(total(&fair, i) == weights[i]);
    printf("a seat of each class, with the %s weights: totals %zu to %zu\n", name, total(&fair, 0), total(&fair, 7));
    free(plan.at);
    free(file.at);
}

static void try_weights(const char *folder) {
    bytes k05 = load(folder, "k05", ".day"), other = load(folder, "weights-k05", ".day");
    bytes plan = planned(k05), other_plan = planned(other);
    credits_book fair = book_in(plan), other_fair = book_in(other_plan);
    CHECK(fair.has_weights == 0 && fair.weights[0] == 0 && fair.weights[7] == 0);
    CHECK(total(&fair, 0) == 2 && total(&fair, 1) == 2 && total(&other_fair, 0) == 1 && total(&other_fair, 1) == 3);
    /* the sheet that is settled with the built-in weights can be improved with others */
    bytes spoilt = written(with_weights(fair, one_to_three)), moves = block(CREDITS_MOVES_MAX);
    credits_mark_result m = credits_mark(spoilt.at, spoilt.length, moves.at, moves.length);
    CHECK(m.mark == CREDITS_IMPROVABLE && m.moves == 1 && memcmp(moves.at, "\1\1\2", 3) == 0 && untouched(moves, 3));
    CHECK(chosen(better(spoilt, other_plan), 2, other_plan) && chosen(better(other_plan, spoilt), 1, other_plan));
    CHECK(turned_away(better(plan, spoilt), CREDITS_REFUSED_OTHER_BOOK, 0, 0));
    printf("k05 planned without weights: improvable with 1 3, and of another book\n");
    free(moves.at);
    free(spoilt.at);
    free(other_plan.at);
    free(plan.at);
    free(other.at);
    free(k05.at);
}

/* The built-in weights and none at all are of one book; a weight that no seat has makes another one. */
static void try_built_in_weights(const char *folder) {
    bytes k06 = load(folder, "k06", ".day"), named = load(folder, "weights-k06", ".day");
    credits_book book = with_weights(book_in(k06), built_in);
    bytes file = written(book);
    CHECK(same(file.at, named, file.length) && named.length == k06.length + 6 + 16);
    CHECK(chosen(better(k06, named), 1, k06) && chosen(better(named, k06), 1, named));
    book.weights[7] = 41; /* both seats are of lower classes */
    bytes other = written(book);
    CHECK(turned_away(better(other, k06), CREDITS_REFUSED_OTHER_BOOK, 0, 0));
    CHECK(turned_away(better(named, other), CREDITS_REFUSED_OTHER_BOOK, 0, 0));
    printf("k06 with the built-in weights: of the same book as without; with another weight of class 8: of another\n");
    free(other.at);
    free(file.at);
    free(named.at);
    free(k06.at);
}

/* ---- from wanted totals to a sheet */

/* A row of wanted totals, four bytes each, low byte first. */
static bytes row_of(const uint32_t *wants, size_t seats) {
    bytes row = block(4 * seats);
    for (size_t i = 0; i < 4 * seats; i++) row.at[i] = (uint8_t)(wants[i / 4] >> 8 * (i % 4));
    return row;
}

static credits_fulfil_result fulfil(bytes file, bytes row, bytes out) {
    return credits_fulfil(file.at, file.length, row.at, row.length, out.at, out.length);
}

/* The book with the sheet whose body is at the front of the buffer. */
static credits_book with_body(credits_book book, bytes body) {
    book.has_sheet = 1;
    for (size_t i = 0; i < book.seats; i++)
        for (size_t w = 0; w < book.windows; w++) {
            size_t at = 2 * (i * book.windows + w);
            book.sheet[i][w] = (uint16_t)(body.at[at] + 256 * body.at[at + 1]);
        }
    return book;
}

/* Whether the seats of a group want more than they can get. */
static int wants_too_much(const credits_book *book, const uint32_t *wants, uint32_t group) {
    uint64_t wanted = 0, can_get = 0;
    for (size_t i = 0; i < book->seats; i++) wanted += group >> i & 1 ? wants[i] : 0;
    for (size_t w = 0; w < book->windows; w++) {
        uint64_t caps = 0;
        for (size_t i = 0; i < book->seats; i++) caps += group >> i & 1 ? book->caps[i][w] : 0;
        can_get += caps < book->supplies[w] ? caps : book->supplies[w];
    }
    return can_get < wanted;
}

/* The mark of a lawful sheet. */
static uint32_t mark_of(credits_book book) {
    bytes file = written(book), moves = block(CREDITS_MOVES_MAX);
    credits_mark_result m = credits_mark(file.at, file.length, moves.at, moves.length);
    CHECK(m.refusal == CREDITS_OK);
    free(moves.at);
    free(file.at);
    return m.mark;
}

/* A sheet body comes, and the bytes after it are kept. Gives the book with that sheet, which is lawful. */
static credits_book fulfilled(bytes file, const uint32_t *wants) {
    credits_book book = book_in(file);
    size_t length = 2 * book.seats * book.windows;
    bytes row = row_of(wants, book.seats), out = block(length + 5);
    credits_fulfil_result r = fulfil(file, row, out);
    CHECK(r.refusal == CREDITS_OK && r.offset == 0 && r.length == length && r.group == 0 && untouched(out, length));
    book = with_body(book, out);
    for (size_t i = 0; i < book.seats; i++) CHECK(total(&book, i) == wants[i]);
    CHECK(mark_of(book) != 0);
    free(out.at);
    free(row.at);
    return book;
}

/* A group comes, and the buffer is left as it was. It has seats of the book only, and wants more than it can get. */
static uint32_t overasked(bytes file, const uint32_t *wants) {
    credits_book book = book_in(file);
    bytes row = row_of(wants, book.seats), out = block(2 * book.seats * book.windows);
    credits_fulfil_result r = fulfil(file, row, out);
    CHECK(r.refusal == CREDITS_OK && r.offset == 0 && r.length == 0 && untouched(out, 0));
    CHECK(r.group != 0 && (uint64_t)r.group >> book.seats == 0 && wants_too_much(&book, wants, r.group));
    free(out.at);
    free(row.at);
    return r.group;
}

/* A lawful sheet with the plan's totals is settled, as the plan is. With a credit more for any one seat there is no such sheet. */
static void try_planned_totals(const char *folder, const char *name) {
    bytes file = load(folder, name, ".day"), plan = planned(file);
    credits_book fair = book_in(plan);
    uint32_t wants[CREDITS_SEATS] = {0};
    for (size_t i = 0; i < fair.seats; i++) wants[i] = (uint32_t)total(&fair, i);
    CHECK(mark_of(fulfilled(file, wants)) == CREDITS_SETTLED);
    for (size_t i = 0; i < fair.seats; i++) {
        wants[i]++;
        overasked(file, wants);
        wants[i]--;
    }
    printf("%-14s its planned totals: a sheet; one credit more: a group\n", name);
    free(plan.at);
    free(file.at);
}

/* K8 has one credit in window 1, for seats 1 and 2, and three in window 2, two of them for seat 2 and all for seat 3. Each of the rows has
 * one reply only. */
static void try_wanted(const char *folder) {
    static const struct {
        uint32_t wants[3], group;
    } rows[] = {{{1, 2, 1}, 0}, {{0, 0, 0}, 0}, {{0, 3, 1}, 0}, {{2, 0, 0}, 1}, {{1, 3, 0}, 3}, {{0, 0, 4}, 4}, {{1, 1, 3}, 7}};
    static const uint32_t huge[] = {0, UINT32_MAX, 0}, halves[] = {0x80000000, 0x80000000, 0}; /* added up in 32 bits the halves give 0 */
    bytes file = load(folder, "k08", ".day"), row = row_of(rows[0].wants, 3), out = block(12);
    for (size_t k = 0; k < sizeof rows / sizeof rows[0]; k++) {
        const uint32_t *wants = rows[k].wants;
        if (rows[k].group == 0)
            fulfilled(file, wants);
        else
            CHECK(overasked(file, wants) == rows[k].group);
        printf("k08 with %u %u %u wanted: %s\n", wants[0], wants[1], wants[2], rows[k].group == 0 ? "a sheet" : "a group");
    }
    CHECK(overasked(file, huge) & 2 && overasked(file, halves) & 3);
    CHECK(fulfil(file, row, out).length == 12 && memcmp(out.at, "\1\0\0\0\0\0\2\0\0\0\1\0", 12) == 0);
    free(out.at);
    free(row.at);
    free(file.at);
}

/* Two books with the same supplies and caps, of which one has no sheet, and the other one that is not lawful and all else different. Either
 * row has one reply only. */
static void try_what_counts(const char *folder) {
    static const char *const names[] = {"wanted-four", "wanted-same"};
    static const uint16_t cells[4][3] = {{3, 2, 0}, {3, 0, 2}, {0, 2, 1}, {0, 0, 4}};
    static const uint32_t wants[] = {5, 5, 3, 4}, more[] = {5, 5, 4, 4};
    for (size_t k = 0; k < 2; k++) {
        bytes file = load(folder, names[k], ".day");
        credits_book book = fulfilled(file, wants);
        for (size_t i = 0; i < 4; i++) CHECK(memcmp(book.sheet[i], cells[i], sizeof cells[i]) == 0);
        CHECK(overasked(file, more) == 7);
        printf("%s with 5 5 3 4 wanted: its only sheet; with 5 5 4 4: seats 1 2 3\n", names[k]);
        free(file.at);
    }
}

/* ---- what a plan will take */

static credits_forecast_result forecast(bytes file) {
    return credits_forecast(file.at, file.length);
}

/* Whether a file is taken, and a plan of it will take that. */
static int will_take(credits_forecast_result r, size_t length, const uint32_t *placed) {
    return r.refusal == CREDITS_OK && r.offset == 0 && r.length == length && memcmp(r.placed, placed, sizeof r.placed) == 0;
}

/* The credits that the sheet places in a window. */
static uint32_t placed_in(const credits_book *book, size_t window) {
    uint32_t sum = 0;
    for (size_t i = 0; i < book->seats; i++) sum += book->sheet[i][window];
    return sum;
}

/* Reserve, then plan: a buffer of just that length takes the plan, whose windows have just those credits placed; one byte less, and the
 * plan asks for that length. A plan of the plan will take the same. */
static void try_forecast(const char *folder, const char *name) {
    bytes file = load(folder, name, ".day");
    credits_forecast_result f = forecast(file);
    CHECK(f.refusal == CREDITS_OK && f.offset == 0);
    bytes out = block(f.length), little = block(f.length - 1);
    credits_write_result r = credits_plan(file.at, file.length, out.at, out.length);
    CHECK(r.refusal == CREDITS_OK && r.length == f.length);
    credits_book fair = book_in(out);
    for (size_t w = 0; w < CREDITS_WINDOWS; w++) CHECK(f.placed[w] == (w < fair.windows ? placed_in(&fair, w) : 0));
    r = credits_plan(file.at, file.length, little.at, little.length);
    CHECK(r.refusal == CREDITS_REFUSED_BUFFER && r.offset == f.length && r.length == 0 && untouched(little, 0));
    CHECK(will_take(forecast(out), f.length, f.placed));
    printf("%-14s forecast: %4zu bytes, %4u credits in window 1; planned: the same\n", name, f.length, f.placed[0]);
    free(little.at);
    free(out.at);
    free(file.at);
}

/* Worked out by hand: two bytes, six for each entry, and the bodies; and of each window the lesser of the supply and the caps. */
static void try_known_forecasts(const char *folder) {
    static const struct {
        const char *name;
        size_t length;
        uint32_t placed[CREDITS_WINDOWS];
    } known[] = {{"k01", 50, {4, 4}}, {"k03", 40, {3}},    {"k08", 60, {1, 3}},    {"k09", 34, {0}},          {"k10a", 34, {2}},
                 {"k11", 34, {2}},    {"k12", 60, {1, 2}}, {"first-k03", 48, {3}}, {"balances-k05", 50, {4}}, {"weights-k05", 62, {4}}};
    for (size_t k = 0; k < sizeof known / sizeof known[0]; k++) {
        bytes file = load(folder, known[k].name, ".day");
        CHECK(will_take(forecast(file), known[k].length, known[k].placed));
        free(file.at);
    }
    bytes longest = load(folder, "full-weights", ".day");
    CHECK(forecast(longest).length == CREDITS_FILE_MAX);
    free(longest.at);
}

/* Without a sheet, and with one that is not lawful, a plan of the book will take the same. */
static void try_any_sheet(const char *folder) {
    bytes file = load(folder, "k08", ".day");
    credits_forecast_result f = forecast(file);
    credits_book book = book_in(file);
    memset(book.sheet, 0xff, sizeof book.sheet);
    bytes unlawful = written(book);
    book.has_sheet = 0;
    bytes without = written(book);
    CHECK(unlawful.length == f.length && without.length == f.length - 6 - 12);
    CHECK(will_take(forecast(unlawful), f.length, f.placed) && will_take(forecast(without), f.length, f.placed));
    printf("k08 without a sheet and with one that is not lawful: forecast as before\n");
    free(without.at);
    free(unlawful.at);
    free(file.at);
}

/* Caps that together are one below a supply of 4,095, the same and one above, and 65,536, which is 0 in two bytes. */
static void try_sums_of_caps(void) {
    static const uint16_t first[4] = {4000, 4000, 4000, 4095}, others[4] = {0, 0, 0, 4095}, last[4] = {94, 95, 96, 16};
    static const uint32_t placed[CREDITS_WINDOWS] = {4094, 4095, 4095, 4095};
    credits_book book = {.seats = 17, .windows = 4, .supplies = {4095, 4095, 4095, 4095}};
    for (size_t i = 0; i < 17; i++) {
        book.classes[i] = 1;
        memcpy(book.caps[i], i == 0 ? first : i == 16 ? last : others, sizeof first);
    }
    bytes file = written(book);
    CHECK(will_take(forecast(file), 2 + 4 * 6 + 34 + 8 + 136 + 136, placed));
    printf("caps just below, at and above a supply, and above two bytes: the lesser is forecast\n");
    free(file.at);
}

/* ---- refusals, which leave every buffer as it was */

static int refused(credits_write_result r, uint32_t number, size_t offset) {
    return r.refusal == number && r.offset == offset && r.length == 0;
}

static int all_zero(const credits_book *b) {
    static const credits_book zero;
    return b->seats == 0 && b->windows == 0 && b->has_sheet == 0 && b->has_first == 0 && b->first == 0 && b->has_balances == 0 &&
           b->has_weights == 0 && memcmp(b->weights, zero.weights, sizeof b->weights) == 0 &&
           memcmp(b->balances, zero.balances, sizeof b->balances) == 0 && memcmp(b->classes, zero.classes, sizeof b->classes) == 0 &&
           memcmp(b->supplies, zero.supplies, sizeof b->supplies) == 0 && memcmp(b->caps, zero.caps, sizeof b->caps) == 0 &&
           memcmp(b->sheet, zero.sheet, sizeof b->sheet) == 0;
}

static int unforecast(credits_forecast_result r, uint32_t number, size_t offset) {
    static const credits_forecast_result zero;
    return r.refusal == number && r.offset == offset && r.length == 0 && memcmp(r.placed, zero.placed, sizeof r.placed) == 0;
}

/* A file that read, plan, forecast and mark refuse alike. */
static void expect_refused(bytes file, uint32_t number, size_t offset) {
    credits_read_result r = credits_read(file.at, file.length);
    CHECK(r.refusal == number && r.offset == offset && all_zero(&r.book));
    CHECK(unforecast(forecast(file), number, offset));
    bytes out = block(CREDITS_FILE_MAX), moves = block(CREDITS_MOVES_MAX), text = block(CREDITS_LISTING_MAX);
    CHECK(refused(credits_plan(file.at, file.length, out.at, out.length), number, offset) && untouched(out, 0));
    credits_mark_result m = credits_mark(file.at, file.length, moves.at, moves.length);
    CHECK(m.refusal == number && m.offset == offset && untouched(moves, 0));
    CHECK(m.mark == 0 && m.window == 0 && m.seat == 0 && m.moves == 0);
    char line[64];
    int length = snprintf(line, sizeof line, "refused %u at %zu\n", number, offset);
    credits_write_result l = credits_listing(file.at, file.length, text.at, text.length);
    CHECK(l.refusal == CREDITS_OK && l.length == (size_t)length && memcmp(text.at, line, l.length) == 0 && untouched(text, l.length));
    printf("%zu bytes: %s", file.length, line);
    free(text.at);
    free(moves.at);
    free(out.at);
}

/* A book that has an idle seat with its class at that offset: neither planned nor forecast, whatever the buffer; and its file can be read
 * and written again. */
static void expect_idle(bytes file, size_t offset) {
    bytes again = written(book_in(file));
    const size_t lengths[] = {0, 1, file.length - 1, file.length, CREDITS_FILE_MAX};
    for (size_t k = 0; k < sizeof lengths / sizeof lengths[0]; k++) {
        bytes part = block(lengths[k]);
        CHECK(refused(credits_plan(file.at, file.length, part.at, part.length), CREDITS_REFUSED_IDLE, offset) && untouched(part, 0));
        free(part.at);
    }
    CHECK(unforecast(forecast(file), CREDITS_REFUSED_IDLE, offset));
    CHECK(same(again.at, file, again.length));
    free(again.at);
}

static void expect_idle_file(credits_book book, size_t offset) {
    bytes file = written(book);
    expect_idle(file, offset);
    free(file.at);
}

/* Two sheets of a book whose third seat is idle, one of them settled: listed, compared, and looked for by their totals as others are. */
static void try_idle(const char *folder) {
    static const uint32_t wants[] = {1, 2, 0, 1}, more[] = {0, 0, 1, 0};
    bytes spoilt = load(folder, "idle-four", ".day"), fair = load(folder, "idle-fair", ".day"), moves = block(CREDITS_MOVES_MAX);
    bytes line = load(folder, "idle-four", ".planned.listing");
    CHECK(same((const uint8_t *)"refused 22 at 30\n", line, 17));
    expect_idle(spoilt, 30);
    expect_idle(fair, 30);
    expect_listing(spoilt, folder, "idle-four", ".listing");
    expect_listing(fair, folder, "idle-fair", ".listing");
    credits_mark_result m = credits_mark(spoilt.at, spoilt.length, moves.at, moves.length);
    CHECK(m.refusal == CREDITS_OK && m.mark == CREDITS_IMPROVABLE && m.moves == 2);
    CHECK(memcmp(moves.at, "\1\2\1\2\4\2", 6) == 0 && untouched(moves, 6));
    CHECK(mark_of(book_in(fair)) == CREDITS_SETTLED);
    CHECK(chosen(better(spoilt, fair), 2, fair) && chosen(better(fair, spoilt), 1, fair));
    credits_book book = fulfilled(spoilt, wants), settled = book_in(fair);
    CHECK(memcmp(book.sheet, settled.sheet, sizeof book.sheet) == 0);
    CHECK(overasked(spoilt, more) == 4);
    printf("idle-four, idle-fair: refused 22 at 30 by plan and forecast; read, written, marked, compared and fulfilled\n");
    free(line.at);
    free(moves.at);
    free(fair.at);
    free(spoilt.at);
}

/* The lowest idle seat counts, and its class lies behind the contents, which have an entry more for each part. One cap of 1 is enough. */
static void try_idle_seats(const char *folder) {
    bytes file = load(folder, "wanted-same", ".day"); /* four seats, three windows, all seven entries, a sheet that is not lawful */
    const credits_book full = book_in(file);
    for (uint32_t parts = 0; parts < 16; parts++) {
        credits_book book = full;
        book.has_sheet = parts & 1;
        book.has_first = parts >> 1 & 1;
        book.has_balances = parts >> 2 & 1;
        book.has_weights = parts >> 3 & 1;
        size_t classes = 2 + 6 * (3 + book.has_sheet + book.has_first + book.has_balances + book.has_weights);
        for (size_t seat = 4; seat-- > 0;) { /* from the last seat on one more is idle each time */
            memset(book.caps[seat], 0, sizeof book.caps[seat]);
            expect_idle_file(book, classes + 2 * seat);
        }
        for (size_t seat = 0; seat < 4; seat++) { /* from the first seat on one more has a cap, in any window */
            expect_idle_file(book, classes + 2 * seat);
            book.caps[seat][seat % 3] = 1;
        }
        bytes mended = written(book), plan = planned(mended);
        CHECK(forecast(mended).refusal == CREDITS_OK && forecast(mended).length == plan.length);
        free(plan.at);
        free(mended.at);
    }
    printf("idle seats: refused by the lowest, at its class behind 3 to 7 entries; with a cap of 1 for each seat planned\n");
    free(file.at);
}

/* A book's faults by value come before its idle seats, up to the weights. */
static void try_idle_and_spoilt(const char *folder) {
    bytes file = load(folder, "wanted-same", ".day");
    credits_book book = book_in(file);
    memset(book.caps[0], 0, sizeof book.caps[0]);
    bytes idle = written(book);
    size_t classes = 2 + 7 * 6, caps = classes + 8 + 6, weights = idle.length - 16;
    expect_idle(idle, classes);
    idle.at[weights + 14] = 64; /* the weight of class 8, which class 7 has */
    expect_refused(idle, CREDITS_REFUSED_WEIGHTS, weights + 14);
    idle.at[caps + 23] = 16; /* the last cap's high byte */
    expect_refused(idle, CREDITS_REFUSED_CAP, caps + 22);
    idle.at[classes + 6] = 9; /* the last class */
    expect_refused(idle, CREDITS_REFUSED_CLASS, classes + 6);
    free(idle.at);
    free(file.at);
}

static void try_refused_files(const char *folder) {
    bytes nothing = {NULL, 0}, k11 = load(folder, "k11", ".day");
    bytes less = copy(k11.at, 25);
    expect_refused(nothing, CREDITS_REFUSED_SHORT, 0);
    expect_refused(less, CREDITS_REFUSED_END, 25);
    k11.at[20] = 9; /* its only class */
    expect_refused(k11, CREDITS_REFUSED_CLASS, 20);
    free(less.at);
    free(k11.at);
}

static void try_short_buffers(const char *folder) {
    bytes file = load(folder, "k08", ".day"), none = {NULL, 0};
    bytes moves = block(CREDITS_MOVES_MAX - 1), out = block(file.length - 1), text = block(CREDITS_LISTING_MAX - 1);
    credits_mark_result m = credits_mark(file.at, file.length, moves.at, moves.length);
    CHECK(m.refusal == CREDITS_REFUSED_BUFFER && m.offset == CREDITS_MOVES_MAX && m.mark == 0 && untouched(moves, 0));
    CHECK(refused(credits_plan(file.at, file.length, out.at, out.length), CREDITS_REFUSED_BUFFER, file.length) && untouched(out, 0));
    CHECK(refused(credits_write(book_in(file), out.at, out.length), CREDITS_REFUSED_BUFFER, file.length) && untouched(out, 0));
    CHECK(refused(credits_listing(file.at, file.length, text.at, text.length), CREDITS_REFUSED_BUFFER, CREDITS_LISTING_MAX));
    CHECK(untouched(text, 0));
    CHECK(refused(credits_plan(file.at, file.length, none.at, none.length), CREDITS_REFUSED_BUFFER, file.length));
    printf("buffers one byte too short: refused, untouched\n");
    free(text.at);
    free(out.at);
    free(moves.at);
    free(file.at);
}

/* A first seat has to be in the book; where none is named, the number beside is not looked at. */
static void try_wrong_first(const char *folder) {
    static const uint16_t wrong[] = {0, 3, 257, 65535};
    bytes file = load(folder, "first-k04", ".day"), k04 = load(folder, "k04", ".day"), out = block(CREDITS_FILE_MAX);
    credits_book book = book_in(file);
    CHECK(book.has_first == 1 && book.first == 2);
    book.has_first = 7; /* any number but 0 */
    bytes with = written(book);
    CHECK(with.length == file.length && same(with.at, file, with.length));
    free(with.at);
    for (size_t i = 0; i < sizeof wrong / sizeof wrong[0]; i++) {
        book.first = wrong[i];
        CHECK(refused(credits_write(book, out.at, out.length), CREDITS_REFUSED_FIRST, file.length - 2) && untouched(out, 0));
        file.at[file.length - 2] = wrong[i] % 256;
        file.at[file.length - 1] = wrong[i] / 256;
        expect_refused(file, CREDITS_REFUSED_FIRST, file.length - 2);
    }
    book.has_first = 0;
    bytes without = written(book);
    CHECK(same(without.at, k04, without.length) && without.length == file.length - 6 - 2);
    free(without.at);
    free(out.at);
    free(k04.at);
    free(file.at);
}

/* No balance is above 50,000. */
static void try_high_balances(const char *folder) {
    static const uint16_t wrong[] = {50001, 65535};
    bytes file = load(folder, "balances-k05b", ".day"), out = block(CREDITS_FILE_MAX);
    credits_book book = book_in(file);
    bytes highest = written(with_balances(book, 50000, 50000));
    CHECK(book_in(highest).balances[0] == 50000 && book_in(highest).balances[1] == 50000);
    for (size_t i = 0; i < sizeof wrong / sizeof wrong[0]; i++) {
        for (size_t seat = 0; seat < 2; seat++) {
            bytes above = copy(highest.at, highest.length);
            size_t at = above.length - 4 + 2 * seat;
            above.at[at] = wrong[i] % 256;
            above.at[at + 1] = wrong[i] / 256;
            expect_refused(above, CREDITS_REFUSED_BALANCES, at);
            credits_book spoilt = with_balances(book, seat == 0 ? wrong[i] : 0, wrong[i]);
            CHECK(refused(credits_write(spoilt, out.at, out.length), CREDITS_REFUSED_BALANCES, at) && untouched(out, 0));
            free(above.at);
        }
    }
    free(highest.at);
    free(out.at);
    free(file.at);
}

/* There is a balance for each seat. Those of seats that are not in the book are not looked at, and where there are none, no number is. */
static void try_wrong_balances(const char *folder) {
    bytes file = load(folder, "balances-k05b", ".day");
    credits_book book = book_in(file);
    CHECK(book.has_balances == 1 && book.balances[0] == 0 && book.balances[1] == 4 && book.balances[2] == 0);
    book.has_balances = 7; /* any number but 0 */
    book.balances[2] = 65535;
    bytes with = written(book);
    CHECK(same(with.at, file, with.length));
    book.has_balances = 0;
    book.balances[0] = 65535;
    bytes without = written(book);
    CHECK(without.length == file.length - 6 - 4 && book_in(without).has_balances == 0 && book_in(without).balances[0] == 0);
    file.at[30] = 2; /* the length of the balances, which end the file: one seat's */
    file.length -= 2;
    expect_refused(file, CREDITS_REFUSED_BALANCES, 30);
    free(without.at);
    free(with.at);
    free(file.at);
}

/* Weights as the last body of a file. */
static void put_weights(bytes file, const uint16_t *weights) {
    uint8_t *at = file.at + file.length - 16;
    for (size_t i = 0; i < 8; i++) {
        at[2 * i] = weights[i] % 256;
        at[2 * i + 1] = weights[i] / 256;
    }
}

/* Weights are 1 to 1,000, each greater than the one before: the first that is not is refused. */
static void try_wrong_weights(const char *folder) {
    static const struct {
        uint16_t weights[8];
        size_t place;
    } wrong[] = {{{0, 2, 3, 5, 8, 12, 20, 40}, 0},
                 {{5, 5, 3, 5, 8, 12, 20, 40}, 1},
                 {{7, 2000, 3, 5, 8, 12, 20, 40}, 1},
                 {{1, 2, 3, 5, 8, 12, 20, 1001}, 7}};
    bytes file = load(folder, "weights-k05b", ".day"), out = block(CREDITS_FILE_MAX);
    credits_book book = book_in(file);
    for (size_t i = 0; i < sizeof wrong / sizeof wrong[0]; i++) {
        size_t at = file.length - 16 + 2 * wrong[i].place;
        credits_book spoilt = with_weights(book, wrong[i].weights);
        CHECK(refused(credits_write(spoilt, out.at, out.length), CREDITS_REFUSED_WEIGHTS, at) && untouched(out, 0));
        put_weights(file, wrong[i].weights);
        expect_refused(file, CREDITS_REFUSED_WEIGHTS, at);
    }
    free(out.at);
    free(file.at);
}

/* There are eight weights; and where there are none, no number is looked at. */
static void try_number_of_weights(const char *folder) {
    bytes file = load(folder, "weights-k05b", ".day");
    credits_book book = book_in(file);
    CHECK(book.has_weights == 1 && memcmp(book.weights, one_to_three, sizeof book.weights) == 0);
    book.has_weights = 7; /* any number but 0 */
    bytes with = written(book);
    CHECK(same(with.at, file, with.length));
    book.has_weights = 0;
    book.weights[0] = 65535;
    bytes without = written(book);
    CHECK(without.length == file.length - 6 - 16 && book_in(without).has_weights == 0 && book_in(without).weights[0] == 0);
    file.at[30] = 14; /* the length of the weights, which end the file: seven of them */
    file.length -= 2;
    expect_refused(file, CREDITS_REFUSED_WEIGHTS, 30);
    free(without.at);
    free(with.at);
    free(file.at);
}

static int unfulfilled(credits_fulfil_result r, uint32_t number, size_t offset) {
    return r.refusal == number && r.offset == offset && r.length == 0 && r.group == 0;
}

/* The file's refusals come first, then that of the row, then that of the buffer, whether there would be a sheet or a group. */
static void try_refused_wants(const char *folder) {
    static const uint32_t few[] = {1, 2, 1}, many[] = {9, 9, 9};
    static const size_t lengths[] = {0, 1, 4, 8, 11, 13, 16, 128};
    bytes file = load(folder, "k08", ".day"), none = {NULL, 0}, out = block(12), little = block(11);
    bytes rows[] = {row_of(few, 3), row_of(many, 3)};
    for (size_t k = 0; k < 2; k++) {
        CHECK(unfulfilled(fulfil(file, rows[k], little), CREDITS_REFUSED_BUFFER, 12) && untouched(little, 0));
        CHECK(unfulfilled(fulfil(file, rows[k], none), CREDITS_REFUSED_BUFFER, 12));
        CHECK(unfulfilled(fulfil(none, rows[k], none), CREDITS_REFUSED_SHORT, 0));
    }
    for (size_t k = 0; k < sizeof lengths / sizeof lengths[0]; k++) {
        bytes row = block(lengths[k]);
        CHECK(unfulfilled(fulfil(file, row, out), CREDITS_REFUSED_WANTED_LENGTH, 0) && untouched(out, 0));
        CHECK(unfulfilled(fulfil(file, row, none), CREDITS_REFUSED_WANTED_LENGTH, 0));
        free(row.at);
    }
    printf("wanted totals: refused by the file, by a row of another length, and by a short buffer\n");
    free(rows[1].at);
    free(rows[0].at);
    free(little.at);
    free(out.at);
    free(file.at);
}

static void try_books(const char *folder) {
    bytes file = load(folder, "k08", ".day"), out = block(CREDITS_FILE_MAX);
    credits_book book = book_in(file);
    book.has_sheet = 7; /* any number but 0 */
    bytes with = written(book);
    CHECK(same(with.at, file, with.length));
    book.has_sheet = 0;
    bytes without = written(book);
    CHECK(without.length == file.length - 6 - 12 && book_in(without).has_sheet == 0);
    book.caps[2][1] = 4096; /* the last cap */
    CHECK(refused(credits_write(book, out.at, out.length), CREDITS_REFUSED_CAP, without.length - 2) && untouched(out, 0));
    book.seats = 33;
    CHECK(refused(credits_write(book, out.at, out.length), CREDITS_REFUSED_SEATS, 6) && untouched(out, 0));
    book.seats = SIZE_MAX;
    CHECK(refused(credits_write(book, out.at, out.length), CREDITS_REFUSED_SEATS, 6) && untouched(out, 0));
    printf("books in memory: with a sheet, without, and refused\n");
    free(without.at);
    free(with.at);
    free(out.at);
    free(file.at);
}

int main(int argc, char **argv) {
    const char *folder = argc == 2 ? argv[1] : "examples";
    for (size_t i = 0; i < sizeof examples / sizeof examples[0]; i++) try_example(folder, examples[i]);
    try_chain(folder);
    try_waste(folder);
    try_standard(folder);
    for (size_t i = 0; i < sizeof examples / sizeof examples[0]; i++) try_better(folder, examples[i]);
    try_first_seats(folder);
    try_balances(folder);
    expect_shares("built-in", built_in);
    expect_shares("lowest", lowest);
    expect_shares("highest", highest);
    try_weights(folder);
    try_built_in_weights(folder);
    for (size_t i = 0; i < sizeof examples / sizeof examples[0]; i++) try_planned_totals(folder, examples[i]);
    try_wanted(folder);
    try_what_counts(folder);
    for (size_t i = 0; i < sizeof examples / sizeof examples[0]; i++) try_forecast(folder, examples[i]);
    try_known_forecasts(folder);
    try_any_sheet(folder);
    try_sums_of_caps();
    try_idle(folder);
    try_idle_seats(folder);
    try_idle_and_spoilt(folder);
    try_refused_wants(folder);
    try_refused_pairs(folder);
    try_refused_files(folder);
    try_wrong_first(folder);
    try_high_balances(folder);
    try_wrong_balances(folder);
    try_wrong_weights(folder);
    try_number_of_weights(folder);
    try_short_buffers(folder);
    try_books(folder);
    printf("C: %d checks passed\n", checks);
    return 0;
}
