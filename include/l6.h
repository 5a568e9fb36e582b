/* The L6 tour engine for C: the functions of libplayer.a. docs/EMBEDDING.md says how to link it and what is proved.
 *
 * A host keeps four buffers and lends them to each call, with their lengths:
 *   table    numbers, ten for each row (document 01, "The table"); only read
 *   storage  the words of the tour's blocks, 4,096 at most are used; they need no first value
 *   input    the stop list, a six-bit code in each byte; only read. One of length 0 stands for a list that does not exist yet: each
 *            character taken is octal 77, and none is counted
 *   output   what the tour prints, a six-bit code in each byte; they need no first value
 * and the state, a buffer of L6_STATE_LENGTH bytes. State, storage and output go on together from call to call: whoever saves a
 * tour saves these three, and lends them with the same table and input when it goes on. They can be saved between any two calls and
 * be loaded in another process.
 *
 * Any bytes may stand in these buffers, and any lengths may be given: a call then answers with a refusal. What a host owes is what
 * C asks of every call: each pointer leads to so many numbers or bytes as the length beside it says (any pointer, NULL too, where
 * that is 0), one without a length, as row, count, line and field, to one number and is not NULL, 64-bit numbers lie on addresses
 * that 8 divides, and no buffer that a call writes overlaps another one of the call.
 *
 * Calls keep nothing of their own between them and share nothing, so threads may make them at once, each with its own state,
 * storage and output. No call allocates memory, and every call returns. */
#ifndef L6_H
#define L6_H

#include <stddef.h>
#include <stdint.h>

#ifdef __cplusplus
extern "C" {
#endif

/* The version of the library that this header goes with; l6_version answers that of the library that is linked. A saved tour goes
 * on with the version that saved it, so a host keeps the number beside it. */
#define L6_VERSION 1
uint64_t l6_version(void);

/* ---------------------------------------------------------------- answers */

/* What the calls answer. From 1 to 99 they are the refusals of document 01 and of the later tickets, with their numbers; a refused
 * step changes nothing. l6_words has each of them in words. */
enum {
    L6_RUNNING = 0,           /* the tour can go on; from calls other than l6_step and l6_run: done */

    L6_TABLE_LENGTH = 1,      /* the table has fewer than 20 numbers, more than 8,000, or no multiple of ten */
    L6_BAD_ROW = 2,           /* the row to take, or a test that it comes to, is missing, ill-formed or of another kind */
    L6_SET_UP_NUMBERS = 3,    /* the set-up's numbers are not allowed, or ask for more words than the storage has */
    L6_INPUT_BYTE = 4,        /* a byte of the input is above 63 */
    L6_INPUT_SHORT = 5,       /* the input has too few characters left */
    L6_NOT_A_DIGIT = 6,       /* a character to convert is no digit */
    L6_DEFINITION_NUMBER = 7, /* a number of a field's definition is out of range */
    L6_BLOCK_SIZE = 8,        /* a block of no words, or of more than the set-up allows, is wanted */
    L6_ZERO_DIVISOR = 9,      /* a division by zero */
    L6_CHARACTER_COUNT = 10,  /* more characters to take than a word has, 6 or 8, or more than 120 to print */
    L6_UNSOUND = 11,          /* the state is no sound one, or does not go with the storage, input and output lent */
    L6_BEFORE_SET_UP = 12,    /* an operation before the set-up */
    L6_SECOND_SET_UP = 13,    /* a second set-up */
    L6_UNDEFINED_FIELD = 14,  /* a field that is not defined */
    L6_NOT_A_BLOCK = 15,      /* a pointer that leads to no block in use */
    L6_OUTSIDE_BLOCK = 16,    /* a field whose word lies outside its block */
    L6_NO_RUN = 17,           /* no room for a block of that size */
    L6_FIELD_FREED = 18,      /* the field to change lies in the block that is freed */
    L6_STACK_FULL = 19,       /* a stack has 128 entries already */
    L6_STACK_EMPTY = 20,      /* a stack has no entry to restore or to return to */
    L6_OUTPUT_FULL = 21,      /* the output has no room for the characters */
    L6_SUBTRAHEND_GREATER = 22, /* a subtraction below zero */

    /* l6_read */
    L6_TYPED_LINE = 23,       /* a line, or an empty text, breaks the grammar */
    L6_TYPED_LABEL = 24,      /* a label that the line uses is missing, or its own is declared again */
    L6_TYPED_TOO_LONG = 25,   /* with this line the table has more than 800 rows, or more numbers than are lent */

    /* l6_recordings */
    L6_CORRECTIONS = 26,      /* a list of corrections of a wrong length, whose row 0 breaks its form, or a next index outside */
    L6_CORRECTIONS_LOOP = 27, /* the chain of corrections reaches a row a second time */
    L6_CORRECTIONS_SHORT = 28, /* the stops, or stops and recordings, to write have no room; of l6_silent and l6_repeated too */

    L6_HOURS = 29,            /* opening hours of a wrong length, with an entry that breaks the rules, or a minute above 1,439 */

    L6_KINDS = 30,            /* l6_defined: row 1 is no line, or a row names one of the wrong kind */

    L6_NO_WIDTH = 31,         /* the width, given or in the state, is neither 36 nor 48; judged first but for L6_BAD_STATE_LENGTH */
    L6_LAST_ADDRESS = 32,     /* l6_extend: a new last address that is none, or asks for more words than there are */

    /* l6_save and l6_load */
    L6_WORD_TOO_WIDE = 33,    /* a word to save does not fit the width */
    L6_NOT_SAVED = 34,        /* so many words have not so many bytes, or a bit of the words that fill up is one */
    L6_OUTPUT_SHORT = 35,     /* the bytes or words to write have no room */

    L6_FINISHED = 100,        /* the tour has come to its end */

    /* A buffer of a fixed length has another one. Nothing is changed. */
    L6_BAD_STATE_LENGTH = 101,  /* the state has not L6_STATE_LENGTH bytes */
    L6_BAD_REPORT_LENGTH = 102, /* the report has not L6_REPORT_LENGTH numbers */
    L6_BAD_LIST_LENGTH = 103,   /* the counts have not 2 numbers, or the list not two for each block */

    L6_CLOSED = 104,          /* by the opening hours no tour starts at this time */

    /* l6_defined */
    L6_NOT_DEFINED = 106,     /* a row uses a field that is not defined there on some path */
    L6_ILL_FORMED = 107       /* a row is ill-formed */
};

/* ---------------------------------------------------------------- the state */

/* The state's bytes. Numbers stand low byte first. Every buffer of this length is a state; one that is not sound is refused by
 * L6_UNSOUND at every step, and one of another width than 36 or 48 by L6_NO_WIDTH at every call. */
#define L6_STATE_LENGTH 6676

/* Where a host may look. The rest is laid out in docs/EMBEDDING.md. */
enum {
    L6_AT_KIND = 0,    /* 1 byte: where the tour stands, an L6_KIND_.. */
    L6_AT_ROW = 1,     /* 2 bytes: at an operation its row, otherwise 0 */
    L6_AT_LINE = 3,    /* 2 bytes: the row of the line; 0 where the tour is finished */
    L6_AT_TAKEN = 5,   /* 8 bytes: how many bytes of the input are taken */
    L6_AT_WRITTEN = 13, /* 8 bytes: how many bytes of the output are written */
    L6_AT_SET_UP = 21, /* three times 2 bytes: the set-up's largest block size, first and last address; zeros before it */
    L6_AT_WIDTH = 6675 /* 1 byte: how many bits a word has */
};

/* Where a tour stands: at the tests of a line, at an operation, at the exit of a line, or at its end. */
enum { L6_KIND_TESTS = 0, L6_KIND_OPERATION = 1, L6_KIND_EXIT = 2, L6_KIND_FINISHED = 3 };

/* The number of so many bytes. */
static inline uint64_t l6_number(const uint8_t *bytes, size_t length) {
    uint64_t number = 0;
    while (length > 0) number = number << 8 | bytes[--length];
    return number;
}

/* What stands in a state of L6_STATE_LENGTH bytes. In one that is refused by L6_UNSOUND these are any numbers: a host that takes
 * l6_written for an index compares it with its output's length first. */
static inline uint64_t l6_kind(const uint8_t *state) { return state[L6_AT_KIND]; }
static inline uint64_t l6_width(const uint8_t *state) { return state[L6_AT_WIDTH]; }
static inline uint64_t l6_line(const uint8_t *state) { return l6_number(state + L6_AT_LINE, 2); }
static inline uint64_t l6_taken(const uint8_t *state) { return l6_number(state + L6_AT_TAKEN, 8); }
static inline uint64_t l6_written(const uint8_t *state) { return l6_number(state + L6_AT_WRITTEN, 8); }

/* The set-up's largest block size d, its first address s1, which is storage[0], and its last s2; all 0 before a set-up. */
static inline uint64_t l6_d(const uint8_t *state) { return l6_number(state + L6_AT_SET_UP, 2); }
static inline uint64_t l6_s1(const uint8_t *state) { return l6_number(state + L6_AT_SET_UP + 2, 2); }
static inline uint64_t l6_s2(const uint8_t *state) { return l6_number(state + L6_AT_SET_UP + 4, 2); }

/* How many words are set up; 0 before a set-up. */
static inline uint64_t l6_words_set_up(const uint8_t *state) { return l6_d(state) == 0 ? 0 : l6_s2(state) - l6_s1(state) + 1; }

/* The row that the next step takes: that of the operation or of the line; 0 where the tour is finished. After a refusal it is the
 * row that was refused. */
static inline uint64_t l6_row(const uint8_t *state) {
    return l6_kind(state) == L6_KIND_OPERATION ? l6_number(state + L6_AT_ROW, 2) : l6_line(state);
}

/* ---------------------------------------------------------------- the calls */

/* A fresh tour of words of 36 or 48 bits: at the tests of row 1, nothing set up, defined, saved, taken or written. Each call that
 * is lent the state goes by its width.
 * Writes all of state. Answers 0, L6_NO_WIDTH, or L6_BAD_STATE_LENGTH; nothing is written then. The order of these is the order of
 * the tests. */
uint64_t l6_fresh(uint64_t width, uint8_t *state, size_t state_length);

/* The numbers of a report, each 0 where there is none. A store is its address, leftmost and rightmost bit, and the bits kept; one
 * into a bug or a null field is not reported. */
enum {
    L6_FREED = 0,        /* the address of the block freed */
    L6_DELIVERED = 1,    /* the address of the block delivered, */
    L6_SIZE = 2,         /* its size in words, */
    L6_COPIED = 3,       /* and the address of the block that it is a copy of */
    L6_FIRST_STORE = 4,  /* four numbers */
    L6_SECOND_STORE = 8  /* four numbers */
};
#define L6_REPORT_LENGTH 12

/* One step: the tests of a line, an operation, or the exit of a line.
 * Reads all buffers. Writes the report, and where the step is carried out state, storage and output; of a refused step, and of one
 * at the end of the tour, the report is zeros and nothing else is written.
 * Answers L6_BAD_STATE_LENGTH, L6_NO_WIDTH, L6_BAD_REPORT_LENGTH, another refusal, L6_RUNNING or L6_FINISHED. Where a length is
 * wrong nothing is written. */
uint64_t l6_step(const uint64_t *table, size_t table_length, uint64_t *storage, size_t storage_length, const uint8_t *input,
                 size_t input_length, uint8_t *output, size_t output_length, uint8_t *state, size_t state_length, uint64_t *report,
                 size_t report_length);

/* As many steps as limit says, or fewer up to the end of the tour or to a refusal. The steps before a refused one stand.
 * Reads all buffers. Writes state, storage and output where a step is carried out, and into count how many steps were taken, the
 * last one included where it was refused. With a limit of 0 it answers L6_RUNNING with a count of 0, whatever the buffers hold.
 * Answers L6_RUNNING, L6_FINISHED, a refusal, or L6_BAD_STATE_LENGTH, and then count is unchanged. */
uint64_t l6_run(const uint64_t *table, size_t table_length, uint64_t *storage, size_t storage_length, const uint8_t *input,
                size_t input_length, uint8_t *output, size_t output_length, uint8_t *state, size_t state_length, uint64_t limit,
                uint64_t *count);

/* The table check: whether every row is well-formed for words of so many bits, those too that no step comes to.
 * Reads the table. Answers 0 and writes into row the lowest ill-formed row, or 0 where there is none; or answers L6_NO_WIDTH, or
 * else L6_TABLE_LENGTH, and row is unchanged. */
uint64_t l6_check(uint64_t width, const uint64_t *table, size_t table_length, uint64_t *row);

/* Whether each field of a table for words of so many bits is defined before it is used: on every path that starts at row 1, takes
 * either outcome of each test, follows operations, DOs into the lines that they name, go-tos and next lines, and leads from a DONE
 * to the place after any DO. A definition row defines its name, a restore of a definition makes it unknown again. With a table that
 * gets a 0, a fresh tour that is played with this table alone is never refused by L6_UNDEFINED_FIELD.
 * Reads the table. Answers 0; or
 *   L6_NO_WIDTH or L6_TABLE_LENGTH, and row and field are unchanged;
 *   L6_ILL_FORMED, and writes into row the lowest ill-formed row, as l6_check does;
 *   L6_KINDS, and writes into row 1, where row 1 is no line, or the lowest row that names one of the wrong kind, all rows counted;
 *   L6_NOT_DEFINED, and writes into row the lowest row that some path reaches with a reference to a field that is not defined
 *   there, and into field the name number of the first such field of the row: l6_field gives its name.
 * field is otherwise unchanged. The order of these is the order of the tests. */
uint64_t l6_defined(uint64_t width, const uint64_t *table, size_t table_length, uint64_t *row, uint64_t *field);

/* How many blocks are in use, and how many are free.
 * Reads state. Writes the two numbers into counts, whose length is 2; where there was no set-up yet both are 0.
 * Answers 0, L6_BAD_STATE_LENGTH, L6_NO_WIDTH, L6_BAD_LIST_LENGTH, or L6_UNSOUND where the set-up numbers or the blocks in the
 * state are not sound; nothing is written then. The order of these is the order of the tests. */
uint64_t l6_count_blocks(const uint8_t *state, size_t state_length, uint64_t *counts, size_t counts_length);

/* The blocks in use (live is not 0) or the free ones (live is 0), the lowest first.
 * Reads state. Writes address and size of each into list, whose length is twice their number.
 * Answers 0, L6_BAD_STATE_LENGTH, L6_NO_WIDTH, L6_UNSOUND as above, or L6_BAD_LIST_LENGTH; nothing is written then. The order of
 * these is the order of the tests. */
uint64_t l6_list_blocks(const uint8_t *state, size_t state_length, uint64_t live, uint64_t *list, size_t list_length);

/* More storage while a tour runs, between steps: the words from the set-up's last address on, up to a new one, become free blocks.
 * The new last address is the old one plus a positive multiple of d. The storage is lent long enough from the start; the added
 * words are zeroed. All else carries on, in a tour that is finished or was refused by L6_NO_RUN too: right after an extension no
 * get and no duplicate is refused so.
 * Reads and writes storage and state. Answers 0, L6_BAD_STATE_LENGTH, L6_NO_WIDTH, L6_UNSOUND (how much of input and output is used
 * aside), L6_BEFORE_SET_UP, or L6_LAST_ADDRESS where the new last address is not of that form, passes 32,767, or makes more than
 * 4,096 words or more than are lent; nothing is changed then. The order of these is the order of the tests. */
uint64_t l6_extend(uint64_t *storage, size_t storage_length, uint8_t *state, size_t state_length, uint64_t last);

/* Opening hours: the row of the entry line at which a tour starts on a day, at a minute.
 * Days count from 0 on 1 January 2000, weekdays from 0, Monday, to 6. A window is four numbers: a weekday, the opening minute,
 * which is open, the closing minute, which is closed, and a row from 1 to 799; 0 <= opening < closing <= 1,440. An exception is
 * five: a day, the same three, and 0; or a day, three zeros, and 1 where that day is closed. If an exception names the day, only
 * those that do count, otherwise the windows of its weekday; the first that holds the minute gives the row.
 * Two empty lists are always closed.
 * Reads both lists, any numbers of any lengths. Answers 0 and writes into row; or answers L6_CLOSED or L6_HOURS, and row is
 * unchanged. docs/EMBEDDING.md says how a tour is started at a row. */
uint64_t l6_hours(const uint64_t *windows, size_t windows_length, const uint64_t *exceptions, size_t exceptions_length,
                  uint64_t day, uint64_t minute, uint64_t *row);

/* Re-recorded stops: of a museum's corrections to its list, the recording that stands for each stop.
 * The list is rows of four numbers: the index of the next row, a stop, an issue day and a recording. Row 0 has the index of the
 * first row and then zeros; the next index 0 ends the chain. Of the rows of a stop in the chain the one with the greatest issue day
 * stands, of several such the last. Rows that the chain does not reach have no bearing.
 * Reads list, any numbers of any length. Writes stop and recording of each row that stands at the start of output, in the order in
 * which the stops first occur in the chain, and into count how many rows they are; numbers past them stay. An output of two numbers
 * for each row has room in any case. The list is no output: one buffer must not be given as both.
 * It costs a look at each row and at those of the stops met so far that have its stop's remainder, by a number that grows with
 * them: some four at most where remainders are spread evenly, so that the cost grows as the rows do. Only where a chain has more
 * than 1,023 stops and the output has room for as many, but not for each row, the stops are counted first, by a pass over the chain
 * for each. A call takes some 37 kB of stack.
 * Answers 0, L6_CORRECTIONS, L6_CORRECTIONS_LOOP, or L6_CORRECTIONS_SHORT; output and count are unchanged then. The order of these
 * is the order of the tests, each over the whole list. */
uint64_t l6_recordings(const uint64_t *list, size_t list_length, uint64_t *output, size_t output_length, uint64_t *count);

/* Stops without a recording, and stops that stand twice: what a museum asks before it opens.
 * stops are the numbers of the stops on display. pairs are a stop and a recording each, as l6_recordings writes them; recording 0
 * is none, and a last number that is no pair is a stop without one.
 * l6_silent writes each of the stops that no pair with a recording has, in their order and as often as it stands there. l6_repeated
 * writes each that stands there twice or more, once, in the order in which they first occur.
 * Both write at the start of output, and into count how many they wrote; numbers past them stay. An output as long as stops has
 * room in any case. They look each stop up along pairs or stops, so the time grows with the product of two lengths.
 * Answers 0 or L6_CORRECTIONS_SHORT; output and count are unchanged then. */
uint64_t l6_silent(const uint64_t *stops, size_t stops_length, const uint64_t *pairs, size_t pairs_length, uint64_t *output,
                   size_t output_length, uint64_t *count);
uint64_t l6_repeated(const uint64_t *stops, size_t stops_length, uint64_t *output, size_t output_length, uint64_t *count);

/* Tours typed as L6 lines (docs/TOURS.md), for words of so many bits.
 * Reads text, all of it. Writes the table at the start of table, row 0 as zeros, and into count how many rows it has, ten numbers
 * each; the numbers past them stay, and line. Every table that is read passes l6_check at its width.
 * Answers 0; L6_NO_WIDTH, and nothing is written; or L6_TYPED_LINE, L6_TYPED_LABEL or L6_TYPED_TOO_LONG: then line is the line of
 * the fault, counted from 1, and nothing else is written. The lowest line with a fault decides, and on it the lower number.
 * Takes three passes over the text; one more where it has more than 800 labels, and one for each 800 DOs of a line that is refused,
 * each of which compares the label of every line with up to 800: the time can grow with the square of the text. A call takes some
 * 39 kB of stack. */
uint64_t l6_read(uint64_t width, const uint8_t *text, size_t text_length, uint64_t *table, size_t table_length, uint64_t *count,
                 uint64_t *line);

/* Words kept by bit columns, for a card. They are taken in groups of eight, the last filled up with zero words; for each bit place,
 * leftmost first, one byte holds that bit of the eight words, the first word highest. The width is the state's, 36 or 48; a
 * group has so many bytes, and no words have none. */

/* How many bytes so many words have. */
static inline size_t l6_saved_length(uint64_t width, size_t words) { return (words / 8 + (words % 8 != 0)) * width; }

/* Saves words.
 * Reads words. Writes l6_saved_length bytes at the start of bytes, and into count how many; bytes past them stay.
 * Answers 0, L6_NO_WIDTH, L6_WORD_TOO_WIDE, or L6_OUTPUT_SHORT where bytes has no room; nothing is written then. The order of these
 * is the order of the tests. */
uint64_t l6_save(uint64_t width, const uint64_t *words, size_t words_length, uint8_t *bytes, size_t bytes_length, uint64_t *count);

/* Loads n words: what l6_save wrote for them.
 * Reads bytes, all of which are those of the words. Writes n words at the start of words; words past them stay.
 * Answers 0, L6_NO_WIDTH, L6_NOT_SAVED where bytes has not the length that n words have, or words that fill up are not zero, or
 * L6_OUTPUT_SHORT where words has no room; nothing is written then. The order of these is the order of the tests. */
uint64_t l6_load(uint64_t width, const uint8_t *bytes, size_t bytes_length, size_t n, uint64_t *words, size_t words_length);

/* ---------------------------------------------------------------- for people */

/* An answer in words. */
static inline const char *l6_words(uint64_t answer) {
    switch (answer) {
    case L6_RUNNING: return "the tour can go on";
    case L6_TABLE_LENGTH: return "the table has fewer than 20 numbers, more than 8,000, or no multiple of ten";
    case L6_BAD_ROW: return "the row, or a test of it, is missing, ill-formed or of another kind than is needed here";
    case L6_SET_UP_NUMBERS: return "the set-up's numbers are not allowed, or ask for more words than there are";
    case L6_INPUT_BYTE: return "a byte of the stop list is above 63";
    case L6_INPUT_SHORT: return "the stop list has too few characters left";
    case L6_NOT_A_DIGIT: return "a character to convert is no digit";
    case L6_DEFINITION_NUMBER: return "a number of a field's definition is out of range";
    case L6_BLOCK_SIZE: return "a block of no words, or of more than the set-up allows, is wanted";
    case L6_ZERO_DIVISOR: return "a division by zero";
    case L6_CHARACTER_COUNT: return "more characters to take than a word has, or more than 120 to print";
    case L6_UNSOUND: return "the state is damaged, or does not go with the storage, stop list and output";
    case L6_BEFORE_SET_UP: return "an operation before the set-up";
    case L6_SECOND_SET_UP: return "a second set-up";
    case L6_UNDEFINED_FIELD: return "a field that is not defined";
    case L6_NOT_A_BLOCK: return "a pointer that leads to no block in use";
    case L6_OUTSIDE_BLOCK: return "a field whose word lies outside its block";
    case L6_NO_RUN: return "no room for a block of that size";
    case L6_FIELD_FREED: return "the field to change lies in the block that is freed";
    case L6_STACK_FULL: return "a stack has 128 entries already";
    case L6_STACK_EMPTY: return "a stack has no entry to restore or to return to";
    case L6_OUTPUT_FULL: return "there is no room for more output";
    case L6_SUBTRAHEND_GREATER: return "a subtraction below zero";
    case L6_TYPED_LINE: return "this line breaks the grammar";
    case L6_TYPED_LABEL: return "a label that this line uses is missing, or its own is declared again";
    case L6_TYPED_TOO_LONG: return "with this line the table has too many rows";
    case L6_CORRECTIONS: return "the list of corrections has a wrong length, a wrong row 0 or a next index outside";
    case L6_CORRECTIONS_LOOP: return "the chain of corrections reaches a row a second time";
    case L6_CORRECTIONS_SHORT: return "there is no room for the stops to write";
    case L6_HOURS: return "the opening hours break their rules, or the minute is above 1,439";
    case L6_KINDS: return "row 1 is no line, or a row names one of the wrong kind";
    case L6_NO_WIDTH: return "the width is neither 36 nor 48";
    case L6_LAST_ADDRESS: return "the new last address is none, or asks for more words than there are";
    case L6_WORD_TOO_WIDE: return "a word to save does not fit the width";
    case L6_NOT_SAVED: return "the bytes to load are not those of so many saved words";
    case L6_OUTPUT_SHORT: return "there is no room for what is saved or loaded";
    case L6_FINISHED: return "the tour has come to its end";
    case L6_BAD_STATE_LENGTH: return "the state's length is wrong";
    case L6_BAD_REPORT_LENGTH: return "the report's length is wrong";
    case L6_BAD_LIST_LENGTH: return "the list's length is wrong";
    case L6_CLOSED: return "closed at this time";
    case L6_NOT_DEFINED: return "a row uses a field that is not defined there";
    case L6_ILL_FORMED: return "a row is ill-formed";
    default: return "an answer that this header does not know";
    }
}

/* The character of a code of the output: a line's end for octal 77, '?' for a code that has no character. */
static inline char l6_character(uint8_t code) {
    return code > 63 ? '?' : "0123456789???????ABCDEFGHI?.?????JKLMNOPQR?????? ?STUVWXYZ?????\n"[code];
}

/* The name of a field by its number, 0 to 35; '?' for a number that names none. */
static inline char l6_field(uint64_t field) { return field > 35 ? '?' : "0123456789ABCDEFGHIJKLMNOPQRSTUVWXYZ"[field]; }

#ifdef __cplusplus
}
#endif

#endif
