/* The functions of include/l6.h under other names, for compare.rs: so it calls the library through the header's declarations, which
 * nothing else checks. An empty buffer is handed over as NULL. */
#include "l6.h"

#define LENT(buffer) buffer##_length ? buffer : NULL, buffer##_length

uint64_t header_fresh(uint64_t width, uint8_t *state, size_t state_length) { return l6_fresh(width, LENT(state)); }
uint64_t header_step(const uint64_t *table, size_t table_length, uint64_t *storage, size_t storage_length, const uint8_t *input,
                     size_t input_length, uint8_t *output, size_t output_length, uint8_t *state, size_t state_length, uint64_t *report,
                     size_t report_length) {
    return l6_step(LENT(table), LENT(storage), LENT(input), LENT(output), LENT(state), LENT(report));
}
uint64_t header_run(const uint64_t *table, size_t table_length, uint64_t *storage, size_t storage_length, const uint8_t *input,
                    size_t input_length, uint8_t *output, size_t output_length, uint8_t *state, size_t state_length, uint64_t limit,
                    uint64_t *count) {
    return l6_run(LENT(table), LENT(storage), LENT(input), LENT(output), LENT(state), limit, count);
}
uint64_t header_check(uint64_t width, const uint64_t *table, size_t table_length, uint64_t *row) {
    return l6_check(width, LENT(table), row);
}
uint64_t header_defined(uint64_t width, const uint64_t *table, size_t table_length, uint64_t *row, uint64_t *field) {
    return l6_defined(width, LENT(table), row, field);
}
uint64_t header_count_blocks(const uint8_t *state, size_t state_length, uint64_t *counts, size_t counts_length) {
    return l6_count_blocks(LENT(state), LENT(counts));
}
uint64_t header_list_blocks(const uint8_t *state, size_t state_length, uint64_t live, uint64_t *list, size_t list_length) {
    return l6_list_blocks(LENT(state), live, LENT(list));
}
uint64_t header_hours(const uint64_t *windows, size_t windows_length, const uint64_t *exceptions, size_t exceptions_length, uint64_t day,
                      uint64_t minute, uint64_t *row) {
    return l6_hours(LENT(windows), LENT(exceptions), day, minute, row);
}
uint64_t header_recordings(const uint64_t *list, size_t list_length, uint64_t *output, size_t output_length, uint64_t *count) {
    return l6_recordings(LENT(list), LENT(output), count);
}
uint64_t header_silent(const uint64_t *stops, size_t stops_length, const uint64_t *pairs, size_t pairs_length, uint64_t *output,
                       size_t output_length, uint64_t *count) {
    return l6_silent(LENT(stops), LENT(pairs), LENT(output), count);
}
uint64_t header_repeated(const uint64_t *stops, size_t stops_length, uint64_t *output, size_t output_length, uint64_t *count) {
    return l6_repeated(LENT(stops), LENT(output), count);
}
uint64_t header_read(uint64_t width, const uint8_t *text, size_t text_length, uint64_t *table, size_t table_length, uint64_t *count,
                     uint64_t *line) {
    return l6_read(width, LENT(text), LENT(table), count, line);
}
uint64_t header_save(uint64_t width, const uint64_t *words, size_t words_length, uint8_t *bytes, size_t bytes_length, uint64_t *count) {
    return l6_save(width, LENT(words), LENT(bytes), count);
}
uint64_t header_load(uint64_t width, const uint8_t *bytes, size_t bytes_length, size_t n, uint64_t *words, size_t words_length) {
    return l6_load(width, LENT(bytes), n, LENT(words));
}
uint64_t header_extend(uint64_t *storage, size_t storage_length, uint8_t *state, size_t state_length, uint64_t last) {
    return l6_extend(LENT(storage), LENT(state), last);
}
/* The version of the header, and of the library. */
void header_version(uint64_t numbers[2]) {
    numbers[0] = L6_VERSION;
    numbers[1] = l6_version();
}
size_t header_saved_length(uint64_t width, size_t words) { return l6_saved_length(width, words); }

/* What the header reads of a state. */
void header_reads(const uint8_t *state, uint64_t numbers[10]) {
    numbers[0] = l6_kind(state);
    numbers[1] = l6_row(state);
    numbers[2] = l6_line(state);
    numbers[3] = l6_taken(state);
    numbers[4] = l6_written(state);
    numbers[5] = l6_d(state);
    numbers[6] = l6_s1(state);
    numbers[7] = l6_s2(state);
    numbers[8] = l6_width(state);
    numbers[9] = l6_words_set_up(state);
}
const char *header_words(uint64_t answer) { return l6_words(answer); }
char header_character(uint8_t code) { return l6_character(code); }
char header_field(uint64_t field) { return l6_field(field); }

/* The lengths, and the answers by their names: 0 and the refusals in their order, and then the others. */
const uint64_t header_constants[36] = {
    L6_STATE_LENGTH, L6_REPORT_LENGTH, L6_RUNNING, L6_TABLE_LENGTH, L6_BAD_ROW, L6_SET_UP_NUMBERS, L6_INPUT_BYTE, L6_INPUT_SHORT,
    L6_NOT_A_DIGIT, L6_DEFINITION_NUMBER, L6_BLOCK_SIZE, L6_ZERO_DIVISOR, L6_CHARACTER_COUNT, L6_UNSOUND, L6_BEFORE_SET_UP,
    L6_SECOND_SET_UP, L6_UNDEFINED_FIELD, L6_NOT_A_BLOCK, L6_OUTSIDE_BLOCK, L6_NO_RUN, L6_FIELD_FREED, L6_STACK_FULL, L6_STACK_EMPTY,
    L6_OUTPUT_FULL, L6_SUBTRAHEND_GREATER, L6_CORRECTIONS, L6_CORRECTIONS_LOOP, L6_CORRECTIONS_SHORT, L6_HOURS, L6_NO_WIDTH,
    L6_LAST_ADDRESS, L6_FINISHED,
    L6_BAD_STATE_LENGTH, L6_BAD_REPORT_LENGTH, L6_BAD_LIST_LENGTH, L6_CLOSED,
};

/* The answers of l6_defined. */
const uint64_t header_undefined[3] = {L6_KINDS, L6_NOT_DEFINED, L6_ILL_FORMED};

/* The answers of l6_save and l6_load. */
const uint64_t header_kept[3] = {L6_WORD_TOO_WIDE, L6_NOT_SAVED, L6_OUTPUT_SHORT};

/* The answers of l6_read. */
const uint64_t header_typed[3] = {L6_TYPED_LINE, L6_TYPED_LABEL, L6_TYPED_TOO_LONG};
