/* Writes the row of each line of play of a file, as `sgfsplit split FILE` does.
 *
 *   cc examples/rows.c $(pkg-config --cflags --libs sgflines) -o rows && ./rows examples/corner.sgf
 */
#include <sgf_lines.h>
#include <stdio.h>
#include <stdlib.h>

/* Returns the first bytes of a file, at most one more than a text may have, and sets their number. Returns NULL if that fails. */
static uint8_t *read_file(const char *name, size_t *length) {
    FILE *file = fopen(name, "rb");
    uint8_t *bytes = malloc(SGF_LINES_MAX_LENGTH + 1);
    *length = file && bytes ? fread(bytes, 1, SGF_LINES_MAX_LENGTH + 1, file) : 0;
    if (!file || !bytes || ferror(file)) {
        free(bytes);
        bytes = NULL;
    }
    if (file) fclose(file);
    return bytes;
}

int main(int count, char **words) {
    size_t length, room_length = 4096;
    uint8_t *text = count == 2 ? read_file(words[1], &length) : NULL;
    uint8_t *room = malloc(room_length);
    struct sgf_lines_asked asked = {.form = SGF_LINES_LIST};
    struct sgf_lines_answer answer;
    if (!text || !room) return fprintf(stderr, "usage: rows FILE\n"), 3;

    uint32_t status = sgf_lines_split(text, length, &asked, room, room_length, &answer);
    if (status == SGF_LINES_ROOM_TOO_SMALL) {
        free(room);
        room_length = answer.bytes;
        room = malloc(room_length);
        if (!room) return fprintf(stderr, "out of memory\n"), 4;
        status = sgf_lines_split(text, length, &asked, room, room_length, &answer);
    }
    switch (status) {
    case SGF_LINES_DONE:
        if (fwrite(room, 1, answer.bytes, stdout) == answer.bytes && fflush(stdout) == 0) break;
        perror("writing failed");
        return 3;
    case SGF_LINES_NOT_SGF: fprintf(stderr, "byte %llu: not SGF\n", (unsigned long long)answer.at); break;
    case SGF_LINES_ENDS_EARLY: fprintf(stderr, "byte %llu: input ends too early\n", (unsigned long long)answer.at); break;
    case SGF_LINES_TOO_LONG: fprintf(stderr, "input is longer than %d bytes\n", SGF_LINES_MAX_LENGTH); break;
    default: fprintf(stderr, "out of memory\n");
    }
    free(text);
    free(room);
    return status == SGF_LINES_DONE ? 0 : 1;
}
