/* credits.h: libcredits shares out message credits fairly by trading window.
 *
 * A day file holds a book (the seats' classes, the windows' supplies, a cap for each seat in each window, and perhaps the seat that comes
 * first today, a balance for each seat, which is what it received on earlier days, and its own weight for each class) and perhaps a sheet
 * (credits for each seat in each window). The calls read one, write one, mark its sheet, plan the fairest sheet, list it as text, choose
 * the better of two sheets of a book, find a sheet with wanted totals, and tell what a plan will take. What each call does is proved for
 * every file, every book and every buffer; the contracts are in crates/credits/specs/Calls.antt.
 *
 * What a caller owes, for every call:
 *   - A pointer points to as many bytes as the length after it says. They may be read, and written where it is not const. With length 0
 *     it may be NULL.
 *   - The bytes that a call writes overlap nothing that it reads.
 *   - 32 KB of stack.
 * Nothing else is asked: any bytes may be handed in as a file or as a row of wanted totals, and any numbers as a book. Every call ends.
 * None allocates, prints or stops the program. Results have padding, so they are to be compared field by field.
 *
 * Threads: the library has no global state. Calls may run at once where none writes what another reads or writes.
 */
#ifndef CREDITS_H
#define CREDITS_H

#include <stddef.h>
#include <stdint.h>

#ifdef __cplusplus
extern "C" {
#endif

#define CREDITS_SEATS 32         /* the most seats */
#define CREDITS_WINDOWS 24       /* the most windows */
#define CREDITS_FILE_MAX 3310    /* the longest day file, in bytes: room for any file that is planned or written */
#define CREDITS_SHEET_MAX 1536   /* the longest sheet body, in bytes: room for any that credits_fulfil writes */
#define CREDITS_MOVES_MAX 93     /* what credits_mark asks of its buffer, in bytes */
#define CREDITS_LISTING_MAX 3453 /* what credits_listing asks of its buffer, in bytes */

/* Why a call refused, and the offset that it gives. Checks run in this order, which is not that of the numbers; within one the lowest
 * offset counts. */
enum {
    CREDITS_OK = 0,
    CREDITS_REFUSED_SHORT = 1,          /* under 2 bytes                                        file length */
    CREDITS_REFUSED_ENTRIES = 2,        /* entries not 3 to 7                                   0 */
    CREDITS_REFUSED_CONTENTS = 3,       /* file ends within the contents                        file length */
    CREDITS_REFUSED_KIND = 4,           /* kinds not 1, 2, 3, then rising up to 7               that kind field */
    CREDITS_REFUSED_START = 5,          /* start not where the part before ends                 that start field */
    CREDITS_REFUSED_END = 6,            /* last body does not end at the file's end             file length */
    CREDITS_REFUSED_SEATS = 7,          /* seats: not 2 to 64 bytes, or odd                     that length field */
    CREDITS_REFUSED_WINDOWS = 8,        /* windows: not 2 to 48 bytes, or odd                   that length field */
    CREDITS_REFUSED_GRID = 9,           /* caps or sheet: not 2 x seats x windows bytes         that length field */
    CREDITS_REFUSED_CLASS = 10,         /* class not 1 to 8                                     that class */
    CREDITS_REFUSED_SUPPLY = 11,        /* supply above 4,095                                   that supply */
    CREDITS_REFUSED_CAP = 12,           /* cap above 4,095                                      that cap */
    CREDITS_REFUSED_FIRST = 18,         /* first seat: not 2 bytes, or not in the book          that length field, or that value */
    CREDITS_REFUSED_BALANCES = 19,      /* balances: not 2 x seats bytes, or above 50,000       that length field, or that value */
    CREDITS_REFUSED_WEIGHTS = 20,       /* weights: not 16 bytes, not 1 to 1,000 or not rising  that length field, or that value */
    CREDITS_REFUSED_NO_SHEET = 13,      /* mark, better: no sheet                               0 */
    CREDITS_REFUSED_ABOVE_CAP = 14,     /* mark, better: cell above its cap                     that cell */
    CREDITS_REFUSED_ABOVE_SUPPLY = 15,  /* mark, better: window's cells above its supply        that supply */
    CREDITS_REFUSED_IDLE = 22,          /* plan, forecast: idle seat: its caps are all zero     that seat's class */
    CREDITS_REFUSED_WANTED_LENGTH = 21, /* fulfil: wanted totals: not 4 x seats bytes           0 */
    CREDITS_REFUSED_BUFFER = 16,        /* the buffer is too short                              length needed */
    CREDITS_REFUSED_OTHER_BOOK = 17     /* better: the books differ, see credits_better         0 */
};

/* Marks. Tied and settled sheets pass. How fair a sheet is goes by levels: a seat's level is its balance plus its total, divided by the
 * weight of its class. The weights of classes 1 to 8 are the book's own; where it has none, they are 1, 2, 3, 5, 8, 12, 20 and 40. The
 * seat rule: of two seats with equal weights the odd credit goes to the one that comes earlier in the order of the day. That order runs
 * from the first seat up to the last and on from seat 1; where none is named, seat 1 comes first. */
enum {
    CREDITS_WASTEFUL = 1,   /* a window has credits left while a seat is below its cap there */
    CREDITS_IMPROVABLE = 2, /* a chain of moves makes the sheet fairer */
    CREDITS_TIED = 3,       /* as fair as can be, but a tie goes against the seat rule */
    CREDITS_SETTLED = 4     /* as fair as can be, and every tie goes by the seat rule */
};

/* A book in memory. Seats and windows count from 0 here; a cap or a credit is at [seat][window]. What credits_read gives has 0 in every
 * place that is not used; credits_write looks at used places only. Later versions add fields at its end alone, so offsets stay: a book
 * that is made by hand starts from `credits_book book = {0};`, and then what is added says that nothing is there. */
typedef struct {
    size_t seats;
    size_t windows;
    uint16_t classes[CREDITS_SEATS];
    uint16_t supplies[CREDITS_WINDOWS];
    uint16_t caps[CREDITS_SEATS][CREDITS_WINDOWS];
    uint32_t has_sheet; /* 0: there is no sheet; credits_read says 1 where there is one */
    uint16_t sheet[CREDITS_SEATS][CREDITS_WINDOWS];
    uint32_t has_first; /* 0: no seat is named, and seat 1 comes first; credits_read says 1 where one is named */
    uint16_t first;     /* the seat that comes first today, counted from 1 as in the file; credits_read gives 0 where none is named */
    uint32_t has_balances;            /* 0: there are no balances, which means zeros; credits_read says 1 where there are some */
    uint16_t balances[CREDITS_SEATS]; /* what each seat received on earlier days, 0 to 50,000; credits_read gives 0 where there are none */
    uint32_t has_weights; /* 0: the book has no weights of its own; credits_read says 1 where it has some */
    uint16_t weights[8];  /* the weights of classes 1 to 8, 1 to 1,000 and rising; credits_read gives 0 where there are none */
} credits_book;

/* An idle seat is one whose caps are all zero. credits_plan and credits_forecast take it for a clerical slip and turn the book away; every
 * other call takes such a book as any other. A seat with a cap of 1 in one window is not idle, whatever that window supplies. */

/* In each result: refusal 0 and offset 0 where the call did its work. At a refusal the other fields are all 0, but for `file` of a
 * credits_better_result, which then says whose refusal it is. */
typedef struct {
    uint32_t refusal;
    size_t offset;
    credits_book book;
} credits_read_result;

typedef struct {
    uint32_t refusal;
    size_t offset;
    size_t length; /* of what now stands at the front of the buffer */
} credits_write_result;

/* Windows and seats count from 1 here and in the moves; fields that a mark does not use are 0. */
typedef struct {
    uint32_t refusal;
    size_t offset;
    uint32_t mark;
    uint32_t window; /* mark 1: the lowest window with credits left for a seat */
    uint32_t seat;   /* mark 1: the lowest seat below its cap there */
    uint32_t moves;  /* marks 2 and 3: how many moves the chain has */
} credits_mark_result;

typedef struct {
    uint32_t refusal;
    size_t offset;
    uint32_t file; /* the file that is chosen, 1 or 2; at a refusal the file that it is of, and 0 for refusal 17, which is of both */
    size_t start;  /* where its sheet body starts in that file */
    size_t length; /* and how many bytes it has */
} credits_better_result;

/* Where there is a sheet, group is 0; where there is a group, length is 0, and the group has at least one seat and only seats of the book.
 * So with refusal 0, group tells which of the two came. */
typedef struct {
    uint32_t refusal;
    size_t offset;
    size_t length;  /* of the sheet body that now stands at the front of the buffer: 2 x seats x windows */
    uint32_t group; /* the seats that together want more than they can get: the lowest bit is seat 1, the highest seat 32 */
} credits_fulfil_result;

typedef struct {
    uint32_t refusal;
    size_t offset;
    size_t length;                    /* of the file that credits_plan will write, and so of the shortest buffer that it takes */
    uint32_t placed[CREDITS_WINDOWS]; /* the credits that each window will have placed */
} credits_forecast_result;

/* At a refusal no byte of a buffer changes. The bytes after what a call writes keep their values. */

/* The book and the sheet of a day file. Refusals 1 to 12, then 18 to 20. */
credits_read_result credits_read(const uint8_t *file, size_t file_len);

/* The day file of a book, to the front of `out`. Refusals 7, 8, 10, 11, 12, 18, 19, 20 (with offsets in the file that would be written),
 * and 16. */
credits_write_result credits_write(credits_book book, uint8_t *out, size_t out_len);

/* The mark of the sheet in a day file. Marks 2 and 3 write a chain to the front of `moves`: three bytes for each move, window, giver,
 * taker. Refusals 1 to 12, then 18 to 20, then 13 to 16. */
credits_mark_result credits_mark(const uint8_t *file, size_t file_len, uint8_t *moves, size_t moves_len);

/* The same day file with its standard sheet, to the front of `out`: of all settled sheets of the book the one whose cells, read seat by
 * seat and within a seat window by window, are highest in dictionary order. So one file is planned to the same bytes always. A sheet that
 * the file holds is ignored; a first seat, balances and weights are kept. A book with an idle seat is refused. Refusals 1 to 12, then 18 to
 * 20, then 22, then 16. */
credits_write_result credits_plan(const uint8_t *file, size_t file_len, uint8_t *out, size_t out_len);

/* A day file and its mark as text, to the front of `out`; there is no 0 byte at the end. For a file that credits_mark refuses the text is
 * "refused N at P". The only refusal is 16. */
credits_write_result credits_listing(const uint8_t *file, size_t file_len, uint8_t *out, size_t out_len);

/* Which of two sheets of one book is better: the file with the higher list, or the first where the lists are equal; and the part of that
 * file which is its sheet body. A list holds the seats' levels, lowest first, and the first place where two lists differ decides. Classes,
 * supplies, caps, balances and all eight weights must be the same, whether a seat has the class or not; zeros and no balances at all are
 * the same, and so are the weights 1, 2, 3, 5, 8, 12, 20, 40 and none at all. First seats may differ, since no list depends on them. Both
 * files may be the same bytes in memory. Refusals 1 to 12, then 18 to 20, then 13 to 15 of the first file, then those of the second, then
 * 17. */
credits_better_result credits_better(const uint8_t *first, size_t first_len, const uint8_t *second, size_t second_len);

/* A lawful sheet that gives every seat just the total that is wanted for it, or, where there is none, a group of seats that wants more
 * than it can get: more than the sum over the windows of the lesser of the supply and the group's caps there added together. `wanted` is a
 * row of one total for each seat, four bytes each, low byte first; every number is taken. The sheet goes as a sheet body to the front of
 * `out`: two bytes for each cell, low byte first, seat by seat and within a seat window by window. A group writes nothing, but `out` must
 * have room for the sheet body all the same. Which of several sheets or groups is given is left open. Cells of a sheet that the file holds
 * are neither used nor checked, and classes, first seat, balances and weights do not matter. Refusals 1 to 12, then 18 to 20, then 21, then
 * 16. */
credits_fulfil_result credits_fulfil(const uint8_t *file, size_t file_len, const uint8_t *wanted, size_t wanted_len, uint8_t *out,
                                     size_t out_len);

/* What a plan of a day file will take: the length of the file that credits_plan will write, so that a buffer of this length is long enough
 * and none that is shorter; and for each window the credits that its cells will add up to, which are the lesser of the supply and the caps
 * there added together. There is no buffer. Cells of a sheet that the file holds are neither used nor checked. At a refusal the length and
 * all of `placed` are 0, and so is what stands for windows that the book does not have. A book with an idle seat is refused, as by
 * credits_plan. Refusals 1 to 12, then 18 to 20, then 22: the same that credits_plan gives, but for 16. */
credits_forecast_result credits_forecast(const uint8_t *file, size_t file_len);

#ifdef __cplusplus
}
#endif

#endif
