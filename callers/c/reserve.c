/* Tries the code of docs/GATEWAY.md, "Reserve, then plan", which callers/run puts into the file that is included here.
 *
 *     reserve FILE..       day files, refused ones too
 */
#include "reserve_and_plan.c"

#include <stdio.h>
#include <string.h>

static uint32_t slots[CREDITS_WINDOWS];
static int granted;

int reserve_slots(const uint32_t credits[CREDITS_WINDOWS]) {
    memcpy(slots, credits, sizeof slots);
    return granted;
}

static void check(int holds, const char *name, const char *fact) {
    if (holds) return;
    fprintf(stderr, "reserve: %s: does not hold: %s\n", name, fact);
    exit(1);
}

/* The cells of each window in the planned file are the slots that were reserved. */
static int fills_slots(const uint8_t *planned, size_t length) {
    credits_read_result r = credits_read(planned, length);
    for (size_t w = 0; w < CREDITS_WINDOWS; w++) {
        uint32_t sum = 0;
        for (size_t s = 0; s < CREDITS_SEATS; s++) sum += r.book.sheet[s][w];
        if (sum != slots[w]) return 0;
    }
    return r.refusal == CREDITS_OK && r.book.has_sheet == 1;
}

static void try_file(const char *name, const uint8_t *file, size_t length) {
    uint8_t out[CREDITS_FILE_MAX];
    credits_write_result right = credits_plan(file, length, out, sizeof out), plan;
    granted = 1;
    uint8_t *planned = reserve_and_plan(file, length, &plan);
    check(plan.refusal == right.refusal && plan.offset == right.offset && plan.length == right.length, name, "what the planner answers");
    check((planned != NULL) == (right.refusal == CREDITS_OK), name, "a block exactly where the file is not refused");
    check(planned == NULL || memcmp(planned, out, plan.length) == 0, name, "the planned file");
    check(planned == NULL || fills_slots(planned, plan.length), name, "as many credits as slots");
    free(planned);
    granted = 0;
    planned = reserve_and_plan(file, length, &plan);
    check(planned == NULL && plan.refusal == right.refusal && plan.length == 0, name, "no slots, no plan");
}

int main(int argc, char **argv) {
    for (int i = 1; i < argc; i++) {
        uint8_t file[8192];
        FILE *f = fopen(argv[i], "rb");
        check(f != NULL, argv[i], "the file can be opened");
        size_t length = fread(file, 1, sizeof file, f);
        check(fclose(f) == 0 && length < sizeof file, argv[i], "the file can be read");
        try_file(argv[i], file, length);
        try_file(argv[i], file, length == 0 ? 0 : length - 1);
    }
    printf("reserve, then plan, as docs/GATEWAY.md has it: %d files, each also without its last byte\n", argc - 1);
    return 0;
}
