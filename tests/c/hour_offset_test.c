/*
 * Tests the hour's offset from C: good, damaged, cut and empty records, each
 * in a block of exactly its length, so that a memory checker sees any access
 * outside.
 *
 *     hour_offset_test EXAMPLE.rec NEGATIVE.rec
 *
 * Faults go to standard error, with a last line of counts, and make the status
 * 1. Standard output has the answers to all cut and damaged records, to be
 * compared with those of the independent implementation.
 */
#include <inttypes.h>
#include <stdio.h>
#include <stdlib.h>
#include <string.h>

#include <pewatuno.h>

#define FILLED 0xA5 /* what the result holds before a call */
#define ROOM 8192

struct bytes {
    uint8_t at[ROOM];
    size_t length;
};

struct answer {
    uint32_t number;
    int64_t ticks;
};

#define TOLD 20 /* so many faults are told, all are counted */

static long passed, failed;

static void check(int holds, const char *what)
{
    if (holds) {
        passed++;
        return;
    }
    if (failed < TOLD)
        fprintf(stderr, "FAILED: %s\n", what);
    failed++;
}

/* A block of exactly this length. */
static uint8_t *block(size_t length)
{
    uint8_t *made = malloc(length);

    if (made == NULL) {
        fputs("no memory\n", stderr);
        exit(2);
    }
    return made;
}

static int is_filled(const uint8_t *result, size_t length)
{
    size_t place;

    for (place = 0; place < length; place++)
        if (result[place] != FILLED)
            return 0;
    return 1;
}

static int is_expected_number(uint32_t number)
{
    return number <= 7 || number == 10 || number == 12 || number == 15;
}

/* Calls with exact blocks and checks what holds of every call. */
static struct answer ask_with(size_t result_length, const uint8_t *records, size_t length)
{
    uint8_t *result = block(result_length), *lent = block(length);
    struct answer answer = {0, 0};

    memset(result, FILLED, result_length);
    memcpy(lent, records, length);
    answer.number = pewatuno_hour_offset(result, result_length, lent, length);
    check(is_expected_number(answer.number), "the number is one of this call");
    check(memcmp(lent, records, length) == 0, "the records are only read");
    if (answer.number == 0)
        answer.ticks = pewatuno_ticks(result);
    else
        check(is_filled(result, result_length), "a refusal leaves the result alone");
    free(result);
    free(lent);
    return answer;
}

static struct answer ask(const uint8_t *records, size_t length)
{
    return ask_with(PEWATUNO_RESULT_LENGTH, records, length);
}

static void expect_offset(struct answer answer, int64_t ticks, const char *what)
{
    check(answer.number == 0 && answer.ticks == ticks, what);
}

static void expect_number(struct answer answer, uint32_t number, const char *what)
{
    check(answer.number == number, what);
}

/* ---- Records, put together from those of the example ---- */

static struct bytes read_file(const char *path)
{
    static struct bytes file;
    FILE *from = fopen(path, "rb");

    if (from == NULL) {
        perror(path);
        exit(2);
    }
    file.length = fread(file.at, 1, ROOM, from);
    fclose(from);
    return file;
}

static void add(struct bytes *to, const uint8_t *from, size_t length)
{
    memcpy(to->at + to->length, from, length);
    to->length += length;
}

/* The example's records: PR, IM A%2FB, IM C, EX D. */
enum { PRICES = 0, FIRST = 55, SECOND = 121, EXPORT = 183, END = 236 };
enum { FIRST_NAME = FIRST + 4, SECOND_NAME = SECOND + 4, EXPORT_NAME = EXPORT + 4 };

static void add_part(struct bytes *to, const struct bytes *example, int from, int end)
{
    add(to, example->at + from, (size_t)(end - from));
}

/* ---- Good input ---- */

static void test_values(const struct bytes *example, const struct bytes *negative)
{
    expect_offset(ask(example->at, example->length), 9000 * 120, "the example's offset is 90.00");
    expect_offset(ask(negative->at, negative->length), -110000, "an offset below zero stays");
}

static void test_nothing_to_offset(const struct bytes *example)
{
    expect_offset(ask(example->at, 0), 0, "no records have offset 0");
    expect_offset(ask(example->at, FIRST), 0, "prices alone have offset 0");
    expect_offset(ask(example->at + EXPORT, END - EXPORT), 0, "exports alone have offset 0");
    expect_offset(ask(example->at, EXPORT), 0, "imports without exports have offset 0");
}

static void test_order_of_records(const struct bytes *example)
{
    struct bytes turned = {{0}, 0};

    add_part(&turned, example, EXPORT, END);
    add_part(&turned, example, SECOND, EXPORT);
    add_part(&turned, example, FIRST, SECOND);
    add_part(&turned, example, PRICES, FIRST);
    expect_offset(ask(turned.at, turned.length), 9000 * 120, "records may come in any order");
}

/* Both ranges at odd addresses. */
static void test_alignment(const struct bytes *example)
{
    uint8_t *result = block(PEWATUNO_RESULT_LENGTH + 1), *lent = block(example->length + 1);

    memset(result, FILLED, PEWATUNO_RESULT_LENGTH + 1);
    memcpy(lent + 1, example->at, example->length);
    check(pewatuno_hour_offset(result + 1, PEWATUNO_RESULT_LENGTH, lent + 1, example->length) == 0,
          "any alignment will do");
    check(pewatuno_ticks(result + 1) == 9000 * 120, "any alignment gives the offset");
    check(result[0] == FILLED, "the byte before the result stays");
    free(result);
    free(lent);
}

/* Null stands for nothing: for no records, and for no result. */
static void test_null(const struct bytes *example)
{
    uint8_t result[PEWATUNO_RESULT_LENGTH];

    memset(result, FILLED, sizeof result);
    check(pewatuno_hour_offset(result, sizeof result, NULL, 0) == 0, "null for no records");
    check(pewatuno_ticks(result) == 0, "null for no records has offset 0");
    check(pewatuno_hour_offset(NULL, 0, example->at, example->length) == 5, "null for no result: 5");
    check(pewatuno_hour_offset(NULL, 0, NULL, 0) == 5, "null for both: 5");
}

/* ---- Refusals ---- */

static void test_result_lengths(const struct bytes *example)
{
    static const size_t lengths[] = {0, 1, 7, 9, 16};
    size_t place;

    for (place = 0; place < sizeof lengths / sizeof *lengths; place++) {
        size_t length = lengths[place];

        expect_number(ask_with(length, example->at, END), 5, "result not eight long: 5");
        expect_number(ask_with(length, example->at, 0), 5, "5 for empty records too");
        expect_number(ask_with(length, example->at, 1), 5, "5 comes before 1");
    }
}

static void test_marks(const struct bytes *example)
{
    static const char *const marks[] = {"GH", "FI", "FE", "CO", "WD", "TB", "CL", "ZZ", "pr"};
    size_t place;

    for (place = 0; place < sizeof marks / sizeof *marks; place++) {
        struct bytes other = *example;

        memcpy(other.at + EXPORT, marks[place], 2);
        expect_number(ask(other.at, END), 2, "another mark: 2");
        expect_number(ask(other.at + EXPORT, 2), 2, "another mark alone: 2");
    }
}

static void test_hours(const struct bytes *example)
{
    struct bytes other = *example;

    other.at[SECOND + 2] = 6;
    other.at[SECOND_NAME] = ' ';
    expect_number(ask(other.at, END), 3, "another hour than the first record's: 3, before 4");
    other.at[SECOND + 2] = 25;
    expect_number(ask(other.at, END), 3, "hour 25: 3");
    other.at[SECOND + 2] = 5;
    expect_number(ask(other.at, END), 4, "a name with a blank: 4");
}

static void test_missing_price(const struct bytes *example)
{
    expect_number(ask(example->at + FIRST, END - FIRST), 15, "imports without PR: 15");
    expect_number(ask(example->at + FIRST, END - FIRST - 1), 1, "15 only at the end");
}

static void test_twice(const struct bytes *example, int from, int end, const char *what)
{
    struct bytes twice = *example;

    add_part(&twice, example, from, end);
    expect_number(ask(twice.at, twice.length), 10, what);
}

static void test_names_twice(const struct bytes *example)
{
    static const uint8_t plain[] = {'I', 'M', 5, 3, 'A', '/', 'B'};
    struct bytes twice = *example;

    add_part(&twice, example, FIRST, SECOND);
    twice.at[END + 4 + 3] = 'f';
    expect_number(ask(twice.at, twice.length), 10, "A%2fB is A%2FB: 10");
    twice.at[END + 4 + 4] = 'b';
    expect_number(ask(twice.at, twice.length), 0, "A%2fb is another name");
    twice.length = END;
    add(&twice, plain, sizeof plain);
    add_part(&twice, example, FIRST_NAME + 5, SECOND);
    expect_number(ask(twice.at, twice.length), 10, "A/B is A%2FB: 10");
}

/* So many copies of a record of one-letter name, each with its own letter. */
static struct bytes copies(const struct bytes *example, int from, int end, int count)
{
    struct bytes made = {{0}, 0};
    int letter;

    add_part(&made, example, PRICES, FIRST);
    for (letter = 'a'; letter < 'a' + count; letter++) {
        add_part(&made, example, from, end);
        made.at[made.length - (size_t)(end - from) + 4] = (uint8_t)letter;
    }
    return made;
}

static void test_full_hour(const struct bytes *example)
{
    struct bytes made = copies(example, SECOND, EXPORT, 16);

    expect_offset(ask(made.at, made.length), 0, "16 imports are taken");
    made = copies(example, SECOND, EXPORT, 17);
    expect_number(ask(made.at, made.length), 12, "a 17th import: 12");
    made = copies(example, EXPORT, END, 16);
    expect_offset(ask(made.at, made.length), 0, "16 exports are taken");
    made = copies(example, EXPORT, END, 17);
    expect_number(ask(made.at, made.length), 12, "a 17th export: 12");
}

/* ---- Cut and damaged input, whose answers are printed ---- */

/* Prints runs of equal answers as `FROM-TO: ANSWER`. */
struct runs {
    size_t from, count;
    struct answer answer;
};

static void end_run(struct runs *runs)
{
    if (runs->count == 0)
        return;
    printf("%zu", runs->from);
    if (runs->count > 1)
        printf("-%zu", runs->from + runs->count - 1);
    if (runs->answer.number == 0)
        printf(": offset %" PRId64 "\n", runs->answer.ticks);
    else
        printf(": %" PRIu32 "\n", runs->answer.number);
    runs->count = 0;
}

static void add_answer(struct runs *runs, size_t place, struct answer answer)
{
    int same = answer.number == runs->answer.number && answer.ticks == runs->answer.ticks;

    if (runs->count == 0 || !same) {
        end_run(runs);
        runs->from = place;
        runs->answer = answer;
    }
    runs->count++;
}

static void cut(const char *name, const struct bytes *good)
{
    struct runs runs = {0, 0, {0, 0}};
    size_t length;

    printf("# %s cut to so many bytes\n", name);
    for (length = 0; length <= good->length; length++)
        add_answer(&runs, length, ask(good->at, length));
    end_run(&runs);
}

static uint8_t flip_lowest(uint8_t byte) { return byte ^ 0x01; }
static uint8_t flip_highest(uint8_t byte) { return byte ^ 0x80; }
static uint8_t make_0(uint8_t byte) { return (void)byte, 0x00; }
static uint8_t make_255(uint8_t byte) { return (void)byte, 0xFF; }

static void damage(const char *name, const struct bytes *good, const char *how,
                   uint8_t (*damaged)(uint8_t))
{
    struct runs runs = {0, 0, {0, 0}};
    struct bytes spoilt = *good;
    size_t place;

    printf("# %s, the byte at the place %s\n", name, how);
    for (place = 0; place < good->length; place++) {
        spoilt.at[place] = damaged(good->at[place]);
        add_answer(&runs, place, ask(spoilt.at, spoilt.length));
        spoilt.at[place] = good->at[place];
    }
    end_run(&runs);
}

static void sweep(const char *name, const struct bytes *good)
{
    cut(name, good);
    damage(name, good, "with its lowest bit flipped", flip_lowest);
    damage(name, good, "with its highest bit flipped", flip_highest);
    damage(name, good, "made 0", make_0);
    damage(name, good, "made 255", make_255);
}

int main(int count, char **words)
{
    static struct bytes example, negative;

    if (count != 3) {
        fputs("usage: hour_offset_test EXAMPLE.rec NEGATIVE.rec\n", stderr);
        return 2;
    }
    example = read_file(words[1]);
    negative = read_file(words[2]);
    check(example.length == END, "the example's length");
    test_values(&example, &negative);
    test_nothing_to_offset(&example);
    test_order_of_records(&example);
    test_alignment(&example);
    test_null(&example);
    test_result_lengths(&example);
    test_marks(&example);
    test_hours(&example);
    test_missing_price(&example);
    test_twice(&example, PRICES, FIRST, "a second PR: 10");
    test_twice(&example, SECOND, EXPORT, "an import twice: 10");
    test_twice(&example, EXPORT, END, "an export twice: 10");
    test_names_twice(&example);
    test_full_hour(&example);
    sweep("example", &example);
    sweep("negative-offset", &negative);
    fprintf(stderr, "    %ld checks passed, %ld failed\n", passed, failed);
    return failed == 0 ? 0 : 1;
}
