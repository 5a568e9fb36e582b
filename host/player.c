/* An example host: plays the tour of a folder.   player FOLDER [--width 36|48] [--stop-after STEPS] [--at SECONDS]
 * It reads the table tour.tab, or where there is none the typed lines tour.l6, and the stop list stops.in, and prints what the guide says;
 * progress goes to standard error. Where there are opening hours, windows.tab and exceptions.tab, the tour starts at the entry line for the
 * time of UTC, or not at all; --at gives another time, in seconds since 1970. Where there are corrections, corrections.tab, the recordings
 * that stand are put into the stop list (that of tours/museum.l6). With --stop-after it stops after so many steps and saves the tour as
 * tour.saved; the next call goes on from there. It is saved too where a refused tour can go on with more than was lent to it, and stays as it
 * was after any other refusal. Where a tour has no room for a block, its storage is extended once to all the words there are, and it goes
 * on. Words have 36 bits where no width is given; a saved tour goes on at its own. */
#include <errno.h>
#include <inttypes.h>
#include <stdio.h>
#include <stdlib.h>
#include <string.h>
#include <time.h>
#include <unistd.h>
#include "l6.h"

enum { WORDS = 4096, ENTRY = 16, LONG = 1000 }; /* the go-to of row 1, where a tour starts; a text that is not taken */
enum { DAY = 86400, DAYS_TO_2000 = 10957 };      /* in seconds; since 1970 */
static uint64_t table[8001], windows[4097], exceptions[4097]; /* one number more than is taken, so that a longer file is refused */
static uint64_t list[4097], standing[2048];
static uint8_t input[4096], typed[65536]; /* one byte more than is taken */
/* What the tour goes on with: these three are saved together, after the version of the library and with the entry. */
static uint64_t version = L6_VERSION;
static uint8_t state[L6_STATE_LENGTH], output[4096];
static uint64_t storage[WORDS];

/* The first bytes of a file; a missing one counts as empty. */
static size_t load(const char *name, void *bytes, size_t room) {
    FILE *file = fopen(name, "rb");
    size_t length = file ? fread(bytes, 1, room, file) : 0;
    if (file) fclose(file);
    return length;
}
/* Its numbers, low byte first as on this machine. No multiple of eight bytes counts as one number, which no table and no list has. */
static size_t numbers(const char *name, uint64_t *list, size_t room) {
    size_t bytes = load(name, list, room);
    return bytes % 8 == 0 ? bytes / 8 : 1;
}
/* All that is saved after the version, by fread or fwrite. */
#define EACH(call) (call(state, sizeof state, 1, file) && call(storage, sizeof storage, 1, file) \
                    && call(output, sizeof output, 1, file) && call(&table[ENTRY], sizeof table[ENTRY], 1, file))
/* Takes up a saved tour: NULL, or why it can't be. */
static const char *resume(FILE *file) {
    int good = fread(&version, sizeof version, 1, file);
    if (good && version != L6_VERSION) return "tour.saved is of another version of the library";
    return good && EACH(fread) ? NULL : "tour.saved is no saved tour";
}

/* Puts the recordings that stand into a stop list: records of ten codes, a room's letter and three digits each for the stop, its recording
 * and the stop to branch to. */
static uint64_t correct(size_t given) {
    size_t n = numbers("corrections.tab", list, sizeof list);
    uint64_t count = 0, answer = n == 0 ? 0 : l6_recordings(list, n, standing, sizeof standing / sizeof *standing, &count);
    for (size_t i = 0; i + 10 <= given; i += 10)
        for (uint64_t k = 0; k < count; k++)
            if (input[i + 1] * 100u + input[i + 2] * 10u + input[i + 3] == standing[2 * k])
                for (uint64_t j = 0, rest = standing[2 * k + 1]; j < 3; j++, rest /= 10) input[i + 6 - j] = rest % 10;
    return answer;
}
/* Starts a tour, where hours are kept at the entry line for the time. A clock that stands before 2000 shows none, and the museum is closed. */
static uint64_t begin(uint64_t width, uint64_t now) {
    size_t w = numbers("windows.tab", windows, sizeof windows), x = numbers("exceptions.tab", exceptions, sizeof exceptions);
    uint64_t answer = l6_fresh(width, state, sizeof state);
    if (answer != 0 || w + x == 0) return answer;
    if (now / DAY < DAYS_TO_2000) return fprintf(stderr, "the clock stands before 2000\n"), L6_CLOSED;
    return l6_hours(windows, w, exceptions, x, now / DAY - DAYS_TO_2000, now % DAY / 60, &table[ENTRY]);
}
/* Gives a tour all the words there are, in whole blocks. */
static int extend(void) {
    uint64_t d = l6_d(state), last = l6_s1(state) + WORDS / d * d - 1;
    if (last > 32767) last = 32767;
    if (l6_extend(storage, WORDS, state, sizeof state, last) != 0) return 0;
    fprintf(stderr, "no room for a block: extended to address %" PRIu64 "\n", last);
    return 1;
}
/* The table of the typed lines of tour.l6, where there is no tour.tab: the answer of l6_read, and its line. */
static uint64_t type(uint64_t width, size_t *length, uint64_t *line) {
    size_t given = access("tour.tab", F_OK) == 0 ? 0 : load("tour.l6", typed, sizeof typed);
    if (given == sizeof typed) return LONG;
    uint64_t rows = 0, answer = given == 0 ? 0 : l6_read(width, typed, given, table, 8000, &rows, line);
    if (rows != 0) *length = 10 * rows;
    return answer;
}
/* Saves a tour: a new file takes the place of the old one only when all of it is there. */
static int save(void) {
    FILE *file = fopen("tour.saving", "wb");
    int good = file && fwrite(&version, sizeof version, 1, file) && EACH(fwrite);
    return file && fclose(file) == 0 && good && rename("tour.saving", "tour.saved") == 0;
}
/* What a tour can go on with after a refusal; NULL where it can't. */
static const char *wanted(uint64_t refusal) {
    switch (refusal) {
    case L6_INPUT_SHORT: return "a longer stop list";
    case L6_NO_RUN: return "more storage";
    case L6_OUTPUT_FULL: return "a longer output";
    default: return NULL;
    }
}
/* The number of an argument's digits: whether it is one. */
static int number(const char *digits, uint64_t *to) {
    char *rest;
    errno = 0;
    *to = strtoull(digits, &rest, 10);
    return errno == 0 && *rest == 0 && *digits >= '0' && *digits <= '9';
}
static int end(int status, const char *why) {
    fprintf(stderr, "%s\n", why);
    return status;
}
int main(int count, char **arguments) {
    uint64_t width = 36, left = UINT64_MAX, now = time(NULL);
    struct { const char *name; uint64_t *to; } options[] = {{"--width", &width}, {"--stop-after", &left}, {"--at", &now}};
    for (int i = 2; i < count; i += 2) {
        int k = 0;
        while (k < 3 && strcmp(arguments[i], options[k].name) != 0) k++;
        if (k == 3 || i + 1 == count || !number(arguments[i + 1], options[k].to)) count = 0;
    }
    if (count < 2) return end(2, "usage: player FOLDER [--width 36|48] [--stop-after STEPS] [--at SECONDS]");
    if (l6_version() != L6_VERSION) return end(1, "libplayer.a and l6.h are of two versions");
    if (chdir(arguments[1]) != 0) return end(2, "there is no such folder");
    size_t length = numbers("tour.tab", table, sizeof table), given = load("stops.in", input, sizeof input);
    FILE *file = fopen("tour.saved", "rb");
    uint64_t entry;
    const char *why = file ? resume(file) : NULL;
    if (why) return end(1, why);
    entry = table[ENTRY];
    if (file) width = l6_width(state);
    uint64_t line = 0, fault = type(width, &length, &line);
    if (fault == LONG) return end(1, "tour.l6 has more than 65535 bytes");
    if (fault == L6_NO_WIDTH) return end(1, l6_words(fault));
    if (fault != 0) return fprintf(stderr, "tour.l6: %" PRIu64 " %" PRIu64 " %s\n", line, fault, l6_words(fault)), 1;
    if (file) table[ENTRY] = entry;
    uint64_t row, answer = correct(given);
    if (answer != 0) return end(1, l6_words(answer));
    answer = file ? fclose(file), L6_RUNNING : begin(width, now);
    if (answer != L6_RUNNING || (answer = l6_check(width, table, length, &row)) != 0) return end(1, l6_words(answer));
    if (row != 0) return fprintf(stderr, "row %" PRIu64 " is ill-formed\n", row), 1;

    int extended = 0;
    uint64_t steps = 0;
    while (answer == L6_RUNNING && left > 0) {
        uint64_t taken, limit = left < 1000 ? left : 1000, said = l6_written(state);
        answer = l6_run(table, length, storage, WORDS, input, given, output, sizeof output, state, sizeof state, limit, &taken);
        steps += taken;
        left -= taken;
        for (; said < l6_written(state) && said < sizeof output; said++) putchar(l6_character(output[said]));
        fprintf(stderr, "%" PRIu64 " steps, row %" PRIu64 ", %" PRIu64 " characters read\n", steps, l6_row(state), l6_taken(state));
        if (answer == L6_NO_RUN && !extended && extend()) extended = 1, answer = L6_RUNNING;
    }

    if (answer == L6_RUNNING) return save() ? end(0, "saved") : end(1, "can't save");
    if (answer == L6_FINISHED) return remove("tour.saved"), end(0, l6_words(answer));
    fprintf(stderr, "refused at row %" PRIu64 " by %" PRIu64 ": %s\n", l6_row(state), answer, l6_words(answer));
    if (wanted(answer) && save()) fprintf(stderr, "saved: it can go on with %s\n", wanted(answer));
    return 1;
}
