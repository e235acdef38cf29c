/*
 * Calls from several threads at once: half of them on one example, half on
 * the other, all reading the same records, each with a result of its own and
 * just the stack that the header names. Every answer must be the one that a
 * single thread gets.
 *
 * The stacks are painted before and looked at afterwards: what a thread that
 * calls has touched, less what one touches that does not, is what the call
 * needs, and must not be more than the header says. Link with -z now: the
 * dynamic linker would work on the stack of the first call else.
 *
 *     threads_test EXAMPLE.rec NEGATIVE.rec
 */
#define _DEFAULT_SOURCE /* MAP_ANONYMOUS */
#include <pthread.h>
#include <stdio.h>
#include <string.h>
#include <sys/mman.h>
#include <unistd.h>

#include <pewatuno.h>

#define THREADS 4
#define ROUNDS 20000
#define ROOM 8192
#define STACK (32 * 1024) /* of a thread that calls */
#define CALL (24 * 1024)  /* of it the call's */
#define PAINT 0xA7

struct work {
    const uint8_t *records;
    size_t length;
    int64_t ticks;
    int rounds;
    long wrong;
    uint8_t *stack;
};

/* Every other call is refused, so that answers and refusals meet. */
static void *call(void *lent)
{
    struct work *work = lent;
    uint8_t result[PEWATUNO_RESULT_LENGTH];
    int round;

    for (round = 0; round < work->rounds; round++) {
        uint32_t number;

        memset(result, 0xA5, sizeof result);
        number = pewatuno_hour_offset(result, sizeof result, work->records, work->length);
        if (number != 0 || pewatuno_ticks(result) != work->ticks)
            work->wrong++;
        number = pewatuno_hour_offset(result, sizeof result, work->records, work->length - 1);
        if (number != PEWATUNO_ENDS_EARLY || pewatuno_ticks(result) != work->ticks)
            work->wrong++;
    }
    return NULL;
}

static size_t read_file(const char *path, uint8_t *to)
{
    FILE *from = fopen(path, "rb");
    size_t length;

    if (from == NULL)
        return 0;
    length = fread(to, 1, ROOM, from);
    fclose(from);
    return length;
}

/* A painted stack above a page that can't be touched; null without one. */
static uint8_t *new_stack(void)
{
    size_t page = (size_t)sysconf(_SC_PAGESIZE);
    uint8_t *room = mmap(NULL, page + STACK, PROT_READ | PROT_WRITE, MAP_PRIVATE | MAP_ANONYMOUS, -1, 0);

    if (room == MAP_FAILED || mprotect(room, page, PROT_NONE) != 0)
        return NULL;
    memset(room + page, PAINT, STACK);
    return room + page;
}

/* Bytes from the last that is not painted to the stack's top. */
static long touched(const uint8_t *stack)
{
    long place = 0;

    while (place < STACK && stack[place] == PAINT)
        place++;
    return STACK - place;
}

/* Runs threads at once, each on a stack of its own; -1 without threads. */
static int run(struct work *works, int number)
{
    pthread_t threads[THREADS];
    pthread_attr_t small;
    int place;

    for (place = 0; place < number; place++) {
        works[place].stack = new_stack();
        if (works[place].stack == NULL || pthread_attr_init(&small) != 0
            || pthread_attr_setstack(&small, works[place].stack, STACK) != 0
            || pthread_create(&threads[place], &small, call, &works[place]) != 0)
            return -1;
    }
    for (place = 0; place < number; place++)
        pthread_join(threads[place], NULL);
    return 0;
}

/* What is wrong with the answers and the stacks is said; 0 if nothing is. */
static int judge(const struct work *works, long idle)
{
    long wrong = 0, most = 0;
    int place;

    for (place = 0; place < THREADS; place++) {
        long own = touched(works[place].stack) - idle;

        wrong += works[place].wrong;
        most = own > most ? own : most;
    }
    if (wrong != 0)
        fprintf(stderr, "    %ld of %d answers are wrong\n", wrong, 2 * THREADS * ROUNDS);
    printf("    a call touches %ld bytes of its stack, and its thread %ld\n", most, idle);
    if (most > CALL)
        fprintf(stderr, "    the header says %d\n", CALL);
    return wrong != 0 || most > CALL;
}

int main(int count, char **words)
{
    static uint8_t records[2][ROOM];
    static const int64_t ticks[2] = {9000 * 120, -110000};
    struct work works[THREADS], idle = {NULL, 0, 0, 0, 0, NULL};
    size_t lengths[2];
    int place;

    if (count != 3) {
        fputs("usage: threads_test EXAMPLE.rec NEGATIVE.rec\n", stderr);
        return 2;
    }
    for (place = 0; place < 2; place++) {
        lengths[place] = read_file(words[1 + place], records[place]);
        if (lengths[place] == 0) {
            fprintf(stderr, "%s: no records\n", words[1 + place]);
            return 2;
        }
    }
    for (place = 0; place < THREADS; place++) {
        struct work one = {records[place % 2], lengths[place % 2], ticks[place % 2], ROUNDS, 0, NULL};

        works[place] = one;
    }
    if (run(&idle, 1) != 0 || run(works, THREADS) != 0) {
        fprintf(stderr, "    no thread on a stack of %d bytes\n", STACK);
        return 1;
    }
    return judge(works, touched(idle.stack));
}
