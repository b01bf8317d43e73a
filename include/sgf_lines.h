/* The lines of play of a Go game with variations (Smart Game Format, FF[4]), split and judged in your own process.
 *
 * Link with -lsgflines (pkg-config sgflines). A line of play goes from the root of a game to a leaf. The library writes the same
 * records as the program sgfsplit. docs/OUTPUT.md of sgfsplit explains them, and the numbers of a row.
 *
 * The library has no state, so any number of threads may call it at once. It opens nothing, and never ends the process. Memory
 * comes from malloc, and all of it is freed before a call returns. A call takes less than 128 KiB of stack. Make no call in a
 * signal handler, or in a child process that was forked from a process with threads.
 *
 * The caller has to keep these rules:
 * - No pointer is NULL, even if its length is 0.
 * - `text` has `text_length` bytes, and nothing writes to them during the call. `room` has `room_length` bytes.
 * - Nothing else uses `room` or `answer` during the call. They overlap neither each other nor the other arguments.
 */
#ifndef SGF_LINES_H
#define SGF_LINES_H

#include <stdbool.h>
#include <stddef.h>
#include <stdint.h>

#ifdef __cplusplus
extern "C" {
#endif

/* How a line is written. */
enum sgf_lines_form {
    SGF_LINES_LIST = 0, /* a row: its place, its game, the number of its nodes, its verdict */
    SGF_LINES_SGF = 1,  /* a game without variations (Smart Game Format) */
    SGF_LINES_GTP = 2   /* a script (Go Text Protocol, version 2) */
};

/* How a call ended. */
enum sgf_lines_status {
    SGF_LINES_DONE = 0,           /* the call did all that was asked */
    SGF_LINES_NOT_SGF = 1,        /* the text isn't SGF; `at` is the offset of the first faulty byte, from 0 */
    SGF_LINES_ENDS_EARLY = 2,     /* the text ends too early; `at` is its length */
    SGF_LINES_TOO_LONG = 3,       /* the text has more than SGF_LINES_MAX_LENGTH bytes */
    SGF_LINES_NO_SUCH_LINE = 4,   /* no line has the place that was asked for; `at` is that place */
    SGF_LINES_UNKNOWN_FORM = 5,   /* no form has the number `form` */
    SGF_LINES_ROOM_TOO_SMALL = 6, /* the records have `bytes` bytes, more than `room_length` */
    SGF_LINES_OUT_OF_MEMORY = 7   /* memory was refused */
};

/* The greatest length of a text in bytes: 64 MiB. */
#define SGF_LINES_MAX_LENGTH 67108864

/* Which lines are written, and how. If all fields are 0, every line is written as a row. */
struct sgf_lines_asked {
    uint32_t form;  /* an enum sgf_lines_form */
    bool has_after; /* true: only the lines after the one with the place `after`; false: `after` is ignored */
    bool has_limit; /* true: at most the first `limit` of these lines; false: `limit` is ignored */
    uint64_t after; /* the place of a line, the first number of its row: the offset in bytes, from 0, of the `;` of its last node */
    uint64_t limit;
};

/* What sgf_lines_split reports. A number that has no meaning for the status is 0. */
struct sgf_lines_answer {
    uint64_t lines; /* DONE, ROOM_TOO_SMALL: the number of records, one a line; OUT_OF_MEMORY: how many there was memory for */
    uint64_t bytes; /* DONE, ROOM_TOO_SMALL: how many bytes the records have */
    uint64_t at;    /* NOT_SGF, ENDS_EARLY, NO_SUCH_LINE: as these statuses say */
};

/* Writes the records of the lines that are asked for to the front of the room. Returns an enum sgf_lines_status.
 * After every status except DONE the room is unchanged. After ROOM_TOO_SMALL, `bytes` is the room that the same call needs.
 *
 * The call first makes all records in memory of its own, also if the room turns out to be too small. So with any room it needs
 * memory for all of them, and for up to three times as many bytes while this memory grows. Besides, it needs memory for one record, and
 * 20 bytes or more for each parenthesis that opens a game or a variation. In the forms SGF and GTP each line is written with all its
 * nodes, so the records of 1,000 lines may be 1,000 times as long as the text. To need less, ask for some lines at a time by `limit`
 * and `after`. sgf_lines_count makes no records. */
uint32_t sgf_lines_split(const uint8_t *text, size_t text_length, const struct sgf_lines_asked *asked,
                         uint8_t *room, size_t room_length, struct sgf_lines_answer *answer);

/* What sgf_lines_count reports. A number that has no meaning for the status is 0. */
struct sgf_lines_counts {
    uint64_t games;
    uint64_t nodes; /* of these games, at every depth */
    uint64_t lines;
    uint64_t at; /* NOT_SGF, ENDS_EARLY: as these statuses say */
};

/* Counts games, nodes and lines. Returns an enum sgf_lines_status: DONE, NOT_SGF, ENDS_EARLY, TOO_LONG or OUT_OF_MEMORY. */
uint32_t sgf_lines_count(const uint8_t *text, size_t text_length, struct sgf_lines_counts *answer);

/* What the referee says of a line, by the Tromp-Taylor rules. */
enum sgf_lines_verdict {
    SGF_LINES_NO_VERDICT = 0, /* the status isn't DONE */
    SGF_LINES_SCORE = 1,      /* every node is legal, and the line has an area score */
    SGF_LINES_ILLEGAL = 2,    /* a node is illegal */
    SGF_LINES_NOT_GO = 3,     /* the line isn't judged: its game isn't Go */
    SGF_LINES_BAD_SIZE = 4    /* the line isn't judged: the board isn't a square of 1 to 52 points a side */
};

/* Why a node is illegal. If several reasons hold, the first in this order is given. docs/RULES.md of sgfsplit explains them. */
enum sgf_lines_reason {
    SGF_LINES_NO_REASON = 0, /* the verdict isn't ILLEGAL */
    SGF_LINES_MIXED = 1,     /* the node has moves and setup */
    SGF_LINES_TWO_MOVES = 2, /* the node has two moves or more */
    SGF_LINES_BAD_SETUP = 3, /* a value of AB, AW or AE names no rectangle of the board, or a value of PL is neither B nor W */
    SGF_LINES_BAD_POINT = 4, /* the move is neither a point of the board nor a pass */
    SGF_LINES_OVER = 5,      /* two passes in a row have ended the game */
    SGF_LINES_TURN = 6,      /* the other player must move */
    SGF_LINES_OCCUPIED = 7,  /* the point isn't empty */
    SGF_LINES_REPEAT = 8     /* the position was there before, since the last setup of stones */
};

/* What sgf_lines_judge reports. A number that has no meaning for the status or the verdict is 0. */
struct sgf_lines_judged {
    uint32_t verdict; /* an enum sgf_lines_verdict */
    uint32_t reason;  /* ILLEGAL: an enum sgf_lines_reason */
    uint32_t black;   /* SCORE: Black's area at the end of the line, in points */
    uint32_t white;   /* SCORE: White's area at the end of the line, in points */
    uint64_t turn;    /* ILLEGAL: the number of turns before the illegal node, plus 1 */
    uint64_t place;   /* ILLEGAL: the offset in bytes, from 0, of the `;` of the illegal node */
    uint64_t at;      /* NOT_SGF, ENDS_EARLY, NO_SUCH_LINE: as these statuses say */
    bool over;        /* SCORE: two passes in a row ended the game */
};

/* Judges the line with this place, which is the offset in bytes, from 0, of the `;` of its last node. The verdict is the one in the
 * row of the line. Returns an enum sgf_lines_status: DONE, NOT_SGF, ENDS_EARLY, TOO_LONG, NO_SUCH_LINE or OUT_OF_MEMORY.
 *
 * The call needs memory for the nodes of the line, and 20 bytes or more for each parenthesis that opens a game or a variation. */
uint32_t sgf_lines_judge(const uint8_t *text, size_t text_length, uint64_t place, struct sgf_lines_judged *answer);

#ifdef __cplusplus
}
#endif

#endif
