/*
 * What the header alone gives: cents, meanings and the version. It is C and
 * C++, needs no library, and prints the version.
 */
#include <stdio.h>
#include <string.h>

#include <pewatuno.h>

#define NUMBERS 17 /* 0 to 16 */

static int passed, failed;

static void check(int holds, const char *what)
{
    if (holds) {
        passed++;
        return;
    }
    fprintf(stderr, "FAILED: %s\n", what);
    failed++;
}

struct rounding {
    int64_t ticks, cents;
};

/* Half a cent is 60 ticks. The last multiples of 120 are 7 below the greatest number and 8 above the least. */
static const struct rounding roundings[] = {
    {0, 0}, {1, 0}, {59, 0}, {60, 1}, {61, 1}, {119, 1}, {120, 1}, {121, 1}, {179, 1}, {180, 2},
    {-1, 0}, {-59, 0}, {-60, -1}, {-61, -1}, {-119, -1}, {-120, -1}, {-121, -1}, {-179, -1}, {-180, -2},
    {9000 * 120, 9000}, {-110000, -917},
    {INT64_MAX, INT64_MAX / 120}, {INT64_MAX - 67, INT64_MAX / 120}, {INT64_MAX - 68, INT64_MAX / 120 - 1},
    {INT64_MIN, INT64_MIN / 120}, {INT64_MIN + 68, INT64_MIN / 120}, {INT64_MIN + 69, INT64_MIN / 120 + 1},
};

static void test_cents(void)
{
    size_t place;

    for (place = 0; place < sizeof roundings / sizeof *roundings; place++)
        check(pewatuno_cents(roundings[place].ticks) == roundings[place].cents,
              "ticks at the edges round half away from zero");
}

/* The cents are the nearest ones, and of two that are as near those away from zero. */
static void test_cents_are_nearest(void)
{
    int64_t ticks;

    for (ticks = -5000; ticks <= 5000; ticks++) {
        int64_t over = pewatuno_cents(ticks) * 120 - ticks;

        check(-60 <= over && over <= 60, "the nearest cents");
        check(over != 60 || ticks > 0, "half a cent above zero goes up");
        check(over != -60 || ticks < 0, "half a cent below zero goes down");
    }
}

static void test_meanings(void)
{
    const char *other = pewatuno_meaning(NUMBERS);
    uint32_t number, earlier;

    check(strlen(other) > 0, "a meaning of 17");
    check(strcmp(pewatuno_meaning(UINT32_MAX), other) == 0, "all other numbers have one meaning");
    for (number = 0; number < NUMBERS; number++) {
        const char *meaning = pewatuno_meaning(number);

        check(strlen(meaning) > 0, "a meaning of each number");
        check(strcmp(meaning, other) != 0, "a number of the book is known");
        for (earlier = 0; earlier < number; earlier++)
            check(strcmp(meaning, pewatuno_meaning(earlier)) != 0, "each number has its own meaning");
    }
    check(strcmp(pewatuno_meaning(PEWATUNO_LIST_FAULT), "a list breaks its rule") == 0, "the meaning of 6");
}

static void test_version(void)
{
    char parts[40];

    sprintf(parts, "%d.%d.%d", PEWATUNO_VERSION_MAJOR, PEWATUNO_VERSION_MINOR, PEWATUNO_VERSION_PATCH);
    check(strcmp(parts, PEWATUNO_VERSION) == 0, "the version is its three parts");
}

int main(void)
{
    test_cents();
    test_cents_are_nearest();
    test_meanings();
    test_version();
    fprintf(stderr, "    %d checks passed, %d failed\n", passed, failed);
    puts(PEWATUNO_VERSION);
    return failed == 0 ? 0 : 1;
}
