/* Calls libsgflines as the program sgfsplit would be called, and says the same on standard output and error, with the same status:
 *
 *   library split FORM AFTER LIMIT FILE    FORM is a number, AFTER and LIMIT are numbers or -
 *   library count FILE
 *   library judge FILE                     judges the lines with the places that are read from standard input, and writes their verdicts
 *   library threads FILE                   four threads at once over the same bytes, in every form, with small stacks
 *   library refused FILE                   each request for memory refused in turn, in every form (built with REFUSED)
 *   library memory FILE                    the memory of a split into a room that is too small, in every form (built with REFUSED)
 *
 * It is built with FORMS, the number of forms. Texts and rooms end where memory does, so that a byte too far is a fault. A room is tried with
 * one byte too few, and with some more.
 */
#define _GNU_SOURCE
#include <assert.h>
#include <limits.h>
#include <malloc.h>
#include <pthread.h>
#include <sgf_lines.h>
#include <stdio.h>
#include <stdlib.h>
#include <string.h>
#include <sys/mman.h>
#include <unistd.h>

static_assert(sizeof(struct sgf_lines_asked) == 24 && sizeof(struct sgf_lines_answer) == 24 && sizeof(struct sgf_lines_counts) == 32, "sizes");
static_assert(offsetof(struct sgf_lines_asked, has_after) == 4 && offsetof(struct sgf_lines_asked, has_limit) == 5, "flags");
static_assert(offsetof(struct sgf_lines_asked, after) == 8 && offsetof(struct sgf_lines_asked, limit) == 16, "numbers");
static_assert(offsetof(struct sgf_lines_answer, at) == 16 && offsetof(struct sgf_lines_counts, at) == 24, "places");
static_assert(sizeof(struct sgf_lines_judged) == 48 && offsetof(struct sgf_lines_judged, white) == 12, "size");
static_assert(offsetof(struct sgf_lines_judged, turn) == 16 && offsetof(struct sgf_lines_judged, over) == 40, "turn and end");

#define MARK 0xa5
#define check(condition) \
    do { \
        if (!(condition)) fprintf(stderr, "line %d: not so: %s\n", __LINE__, #condition), exit(9); \
    } while (0)

/* So many bytes that end where memory does. */
static uint8_t *at_the_end(size_t length) {
    size_t page = 4096, pages = (length / page + 1) * page;
    uint8_t *start = mmap(NULL, pages + page, PROT_READ | PROT_WRITE, MAP_PRIVATE | MAP_ANONYMOUS, -1, 0);
    check(start != MAP_FAILED && !mprotect(start + pages, page, PROT_NONE));
    return start + pages - length;
}

static void let_go(uint8_t *bytes, size_t length) {
    size_t page = 4096, pages = (length / page + 1) * page;
    check(!munmap(bytes + length - pages, pages + page));
}

static uint8_t *read_file(const char *name, size_t *length) {
    FILE *file = fopen(name, "rb");
    check(file && !fseek(file, 0, SEEK_END));
    *length = (size_t)ftell(file);
    rewind(file);
    uint8_t *bytes = at_the_end(*length);
    check(fread(bytes, 1, *length, file) == *length);
    fclose(file);
    return bytes;
}

static uint64_t number(const char *word) { return strtoull(word, NULL, 10); }

/* The row and the status of the program. */
static int say(uint32_t status, uint64_t at) {
    switch (status) {
    case SGF_LINES_DONE: return 0;
    case SGF_LINES_NOT_SGF: fprintf(stderr, "sgfsplit: byte %llu: not SGF\n", (unsigned long long)at); return 1;
    case SGF_LINES_ENDS_EARLY: fprintf(stderr, "sgfsplit: byte %llu: input ends too early\n", (unsigned long long)at); return 1;
    case SGF_LINES_TOO_LONG: fprintf(stderr, "sgfsplit: input is longer than %d bytes\n", SGF_LINES_MAX_LENGTH); return 1;
    case SGF_LINES_NO_SUCH_LINE: fprintf(stderr, "sgfsplit: no line ends at %llu\n", (unsigned long long)at); return 1;
    case SGF_LINES_OUT_OF_MEMORY: fprintf(stderr, "sgfsplit: out of memory\n"); return 4;
    default: return 8;
    }
}

/* Splits into a room of this size, all of whose bytes are a mark, and checks that only the records were put there. */
static uint32_t split(const uint8_t *text, size_t length, const struct sgf_lines_asked *asked, uint8_t *room, size_t size, struct sgf_lines_answer *answer) {
    memset(room, MARK, size);
    memset(answer, MARK, sizeof *answer);
    uint32_t status = sgf_lines_split(text, length, asked, room, size, answer);
    check(status <= SGF_LINES_OUT_OF_MEMORY);
    size_t written = status == SGF_LINES_DONE ? answer->bytes : 0;
    check(written <= size);
    for (size_t at = written; at < size; at++) check(room[at] == MARK);
    if (status != SGF_LINES_DONE && status != SGF_LINES_ROOM_TOO_SMALL) {
        check(answer->bytes == 0 && (answer->lines == 0 || status == SGF_LINES_OUT_OF_MEMORY));
        check(answer->at == 0 || status == SGF_LINES_NOT_SGF || status == SGF_LINES_ENDS_EARLY || status == SGF_LINES_NO_SUCH_LINE);
    }
    return status;
}

static int split_file(const struct sgf_lines_asked *asked, const char *name) {
    size_t length;
    uint8_t *text = read_file(name, &length), *none = at_the_end(0);
    struct sgf_lines_answer answer, again;
    uint32_t status = split(text, length, asked, none, 0, &answer);
    if (status == SGF_LINES_ROOM_TOO_SMALL) {
        size_t needed = answer.bytes;
        check(needed > 0 && answer.lines > 0 && answer.at == 0);
        uint8_t *room = at_the_end(needed + 100);
        check(split(text, length, asked, room + 101, needed - 1, &again) == SGF_LINES_ROOM_TOO_SMALL);
        check(!memcmp(&answer, &again, sizeof answer));
        check(split(text, length, asked, room, needed + 100, &again) == SGF_LINES_DONE);
        check(!memcmp(&answer, &again, sizeof answer));
        status = split(text, length, asked, room + 100, needed, &again);
        check(status == SGF_LINES_DONE && !memcmp(&answer, &again, sizeof answer));
        check(fwrite(room + 100, 1, needed, stdout) == needed && !fflush(stdout));
        let_go(room, needed + 100);
    } else if (status == SGF_LINES_DONE) {
        check(answer.lines == 0 && answer.bytes == 0 && answer.at == 0);
    }
    let_go(text, length);
    let_go(none, 0);
    return say(status, answer.at);
}

static int count_file(const char *name) {
    size_t length;
    uint8_t *text = read_file(name, &length);
    struct sgf_lines_counts counts;
    memset(&counts, MARK, sizeof counts);
    uint32_t status = sgf_lines_count(text, length, &counts);
    if (status == SGF_LINES_DONE) {
        check(counts.at == 0);
        printf("%llu %llu %llu\n", (unsigned long long)counts.games, (unsigned long long)counts.nodes, (unsigned long long)counts.lines);
    } else {
        check(counts.games == 0 && counts.nodes == 0 && counts.lines == 0);
    }
    let_go(text, length);
    return say(status, counts.at);
}

static const char *const reasons[] = {
    [SGF_LINES_MIXED] = "mixed",
    [SGF_LINES_TWO_MOVES] = "two-moves",
    [SGF_LINES_BAD_SETUP] = "bad-setup",
    [SGF_LINES_BAD_POINT] = "bad-point",
    [SGF_LINES_OVER] = "over",
    [SGF_LINES_TURN] = "turn",
    [SGF_LINES_OCCUPIED] = "occupied",
    [SGF_LINES_REPEAT] = "repeat",
};

/* Judges a line, and checks that what its status and its verdict have no use for is 0. */
static uint32_t judge(const uint8_t *text, size_t length, uint64_t place, struct sgf_lines_judged *judged) {
    memset(judged, MARK, sizeof *judged);
    uint32_t status = sgf_lines_judge(text, length, place, judged);
    check(status <= SGF_LINES_OUT_OF_MEMORY && status != SGF_LINES_UNKNOWN_FORM && status != SGF_LINES_ROOM_TOO_SMALL);
    check((status == SGF_LINES_DONE) == (judged->verdict != SGF_LINES_NO_VERDICT) && judged->verdict <= SGF_LINES_BAD_SIZE);
    check(judged->verdict == SGF_LINES_SCORE || (!judged->black && !judged->white && !judged->over));
    check((judged->verdict == SGF_LINES_ILLEGAL) == (judged->reason != SGF_LINES_NO_REASON) && judged->reason < sizeof reasons / sizeof *reasons);
    check((judged->verdict == SGF_LINES_ILLEGAL) == (judged->turn != 0) && (judged->turn || !judged->place));
    check(judged->at == 0 || status == SGF_LINES_NOT_SGF || status == SGF_LINES_ENDS_EARLY || status == SGF_LINES_NO_SUCH_LINE);
    return status;
}

/* The verdict as it stands in the line's row. */
static void write_verdict(const struct sgf_lines_judged *judged) {
    switch (judged->verdict) {
    case SGF_LINES_SCORE:
        printf("score %u %u %s\n", (unsigned)judged->black, (unsigned)judged->white, judged->over ? "over" : "open");
        break;
    case SGF_LINES_ILLEGAL:
        printf("illegal %llu %llu %s\n", (unsigned long long)judged->turn, (unsigned long long)judged->place, reasons[judged->reason]);
        break;
    default: printf("unjudged %s\n", judged->verdict == SGF_LINES_NOT_GO ? "game" : "size");
    }
}

static int judge_file(const char *name) {
    size_t length;
    uint8_t *text = read_file(name, &length);
    struct sgf_lines_judged judged;
    unsigned long long place;
    uint32_t status = SGF_LINES_DONE;
    while (status == SGF_LINES_DONE && scanf("%llu", &place) == 1) {
        status = judge(text, length, place, &judged);
        if (status == SGF_LINES_DONE) write_verdict(&judged);
    }
    let_go(text, length);
    return say(status, judged.at);
}

/* ---- four threads over the same bytes */

struct shared {
    const uint8_t *text;
    size_t length, needed[FORMS];
    uint8_t *wanted[FORMS];
    uint64_t place;
    struct sgf_lines_judged judged;
};

static void *in_thread(void *given) {
    const struct shared *shared = given;
    for (int turn = 0; turn < 60; turn++) {
        struct sgf_lines_asked asked = {.form = (uint32_t)turn % FORMS};
        struct sgf_lines_answer answer;
        struct sgf_lines_counts counts;
        struct sgf_lines_judged judged;
        size_t needed = shared->needed[asked.form];
        uint8_t *room = malloc(needed + 1);
        check(room && split(shared->text, shared->length, &asked, room, needed, &answer) == SGF_LINES_DONE);
        check(answer.bytes == needed && !memcmp(room, shared->wanted[asked.form], needed));
        check(sgf_lines_count(shared->text, shared->length, &counts) == SGF_LINES_DONE && counts.lines == answer.lines);
        check(judge(shared->text, shared->length, shared->place, &judged) == SGF_LINES_DONE);
        check(judged.verdict == shared->judged.verdict && judged.black == shared->judged.black && judged.place == shared->judged.place);
        free(room);
    }
    return NULL;
}

static int threads(const char *name) {
    struct shared shared;
    pthread_t started[4];
    shared.text = read_file(name, &shared.length);
    for (uint32_t form = 0; form < FORMS; form++) {
        struct sgf_lines_asked asked = {.form = form};
        struct sgf_lines_answer answer;
        uint8_t none[1];
        check(sgf_lines_split(shared.text, shared.length, &asked, none, 0, &answer) == SGF_LINES_ROOM_TOO_SMALL);
        shared.needed[form] = answer.bytes;
        check((shared.wanted[form] = malloc(answer.bytes)));
        check(sgf_lines_split(shared.text, shared.length, &asked, shared.wanted[form], answer.bytes, &answer) == SGF_LINES_DONE);
    }
    shared.place = number((const char *)shared.wanted[SGF_LINES_LIST]);
    check(judge(shared.text, shared.length, shared.place, &shared.judged) == SGF_LINES_DONE);
    pthread_attr_t small;
    check(!pthread_attr_init(&small) && !pthread_attr_setstacksize(&small, 128 * 1024));
    for (int at = 0; at < 4; at++) check(!pthread_create(&started[at], &small, in_thread, &shared));
    for (int at = 0; at < 4; at++) check(!pthread_join(started[at], NULL));
    for (int form = 0; form < FORMS; form++) free(shared.wanted[form]);
    return 0;
}

/* ---- each request for memory refused in turn; linked with --wrap for malloc, realloc and free */
#ifdef REFUSED

void *__real_malloc(size_t size);
void *__real_realloc(void *block, size_t size);
void __real_free(void *block);

static long asked_for, refused_at, blocks;
static size_t held, most_held; /* bytes that the library has; while a block is moved, its old place and its new one */

static void hold(size_t size) {
    held += size;
    if (held > most_held) most_held = held;
}

void *__wrap_malloc(size_t size) {
    void *block = refused_at && ++asked_for == refused_at ? NULL : __real_malloc(size);
    if (refused_at && block) blocks++, hold(malloc_usable_size(block));
    return block;
}

void *__wrap_realloc(void *block, size_t size) {
    check(block);
    if (!refused_at) return __real_realloc(block, size);
    if (++asked_for == refused_at) return NULL;
    size_t before = malloc_usable_size(block);
    void *moved = __real_realloc(block, size);
    if (moved) hold(malloc_usable_size(moved)), held -= before;
    return moved;
}

void __wrap_free(void *block) {
    if (refused_at && block) blocks--, held -= malloc_usable_size(block);
    __real_free(block);
}

/* Refuses each request of a split into a room of this size in turn: the answer is want of memory, and nothing else is told but how many lines
 * there was memory for. */
static long refused_split(const uint8_t *text, size_t length, uint32_t form, size_t size, long *most_lines) {
    struct sgf_lines_asked asked = {.form = form};
    struct sgf_lines_answer whole, answer;
    uint8_t *room = __real_malloc(size + 1);
    uint32_t status = split(text, length, &asked, room, size, &whole);
    for (long number = 1;; number++) {
        asked_for = blocks = 0;
        refused_at = number;
        uint32_t got = split(text, length, &asked, room, size, &answer);
        refused_at = 0;
        check(blocks == 0);
        if (asked_for < number) {
            check(got == status && !memcmp(&answer, &whole, sizeof answer));
            __real_free(room);
            return number - 1;
        }
        check(got == SGF_LINES_OUT_OF_MEMORY && answer.lines <= whole.lines);
        if ((long)answer.lines > *most_lines) *most_lines = (long)answer.lines;
    }
}

static long refused_count(const uint8_t *text, size_t length) {
    struct sgf_lines_counts whole, counts;
    uint32_t status = sgf_lines_count(text, length, &whole);
    for (long number = 1;; number++) {
        asked_for = blocks = 0;
        refused_at = number;
        uint32_t got = sgf_lines_count(text, length, &counts);
        refused_at = 0;
        check(blocks == 0);
        if (asked_for < number) {
            check(got == status && !memcmp(&counts, &whole, sizeof counts));
            return number - 1;
        }
        check(got == SGF_LINES_OUT_OF_MEMORY && !counts.games && !counts.nodes && !counts.lines && !counts.at);
    }
}

/* The same of a judge, and the refusal has no verdict. */
static long refused_judge(const uint8_t *text, size_t length, uint64_t place) {
    struct sgf_lines_judged whole, judged;
    uint32_t status = judge(text, length, place, &whole);
    for (long number = 1;; number++) {
        asked_for = blocks = 0;
        refused_at = number;
        uint32_t got = judge(text, length, place, &judged);
        refused_at = 0;
        check(blocks == 0);
        if (asked_for < number) {
            check(got == status && judged.verdict == whole.verdict && judged.reason == whole.reason && judged.black == whole.black);
            check(judged.white == whole.white && judged.turn == whole.turn && judged.place == whole.place && judged.over == whole.over);
            return number - 1;
        }
        check(got == SGF_LINES_OUT_OF_MEMORY && !judged.at);
    }
}

static int refused(const char *name) {
    size_t length;
    uint8_t *read = read_file(name, &length), *text = __real_malloc(length), *rows = __real_malloc(1 << 20);
    memcpy(text, read, length);
    long requests = refused_count(text, length), most_lines = 0;
    for (uint32_t form = 0; form < FORMS; form++) {
        requests += refused_split(text, length, form, 1 << 20, &most_lines);
        requests += refused_split(text, length, form, 0, &most_lines);
    }
    struct sgf_lines_asked asked = {.form = SGF_LINES_LIST};
    struct sgf_lines_answer answer;
    requests += refused_judge(text, length, length);
    if (sgf_lines_split(text, length, &asked, rows, 1 << 20, &answer) == SGF_LINES_DONE)
        for (uint8_t *row = rows; row < rows + answer.bytes; row = 1 + (uint8_t *)memchr(row, '\n', 1 << 20))
            requests += refused_judge(text, length, number((char *)row));
    __real_free(rows);
    printf("%ld requests refused, memory for %ld lines at most\n", requests, most_lines);
    __real_free(text);
    return 0;
}

/* A split into a room that is too small takes memory for all records, and at most for three times as many bytes, besides the text's nodes. */
static int memory(const char *name) {
    size_t length;
    uint8_t *text = read_file(name, &length), none[1];
    for (uint32_t form = 0; form < FORMS; form++) {
        struct sgf_lines_asked asked = {.form = form};
        struct sgf_lines_answer answer;
        held = most_held = 0;
        refused_at = LONG_MAX;
        uint32_t status = split(text, length, &asked, none, 0, &answer);
        refused_at = 0;
        check(status == SGF_LINES_ROOM_TOO_SMALL && held == 0);
        check(answer.bytes <= most_held && most_held <= 3 * answer.bytes + 32 * length + (1 << 18));
        printf("form %u: %zu bytes for records of %llu\n", (unsigned)form, most_held, (unsigned long long)answer.bytes);
    }
    let_go(text, length);
    return 0;
}

#endif

int main(int count, char **words) {
    const char *what = count > 2 ? words[1] : "";
    if (count == 6 && !strcmp(what, "split")) {
        struct sgf_lines_asked asked = {.form = (uint32_t)number(words[2])};
        if ((asked.has_after = strcmp(words[3], "-") != 0)) asked.after = number(words[3]);
        if ((asked.has_limit = strcmp(words[4], "-") != 0)) asked.limit = number(words[4]);
        return split_file(&asked, words[5]);
    }
    if (!strcmp(what, "count")) return count_file(words[2]);
    if (!strcmp(what, "judge")) return judge_file(words[2]);
    if (!strcmp(what, "threads")) return threads(words[2]);
#ifdef REFUSED
    if (!strcmp(what, "refused")) return refused(words[2]);
    if (!strcmp(what, "memory")) return memory(words[2]);
#endif
    return 2;
}
