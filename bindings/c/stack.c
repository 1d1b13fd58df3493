/* Measures the stack that the calls use, over every recorded job and its book: each call runs on a stack that was painted before,
 * and the deepest byte that no longer has its colour tells how far it went. Prints the most for each call, and fails where one
 * reaches its limit.
 *
 *     stack CASES
 *
 * CASES is crates/recorded/stdin: records of a kind in one byte, a length as a little-endian u32, and so many bytes.
 * Those of kind 0 are whole jobs; the others are left out. */
#define _XOPEN_SOURCE 700

#include "rows.h"

#include <ucontext.h>

#define SPACE 65536
#define WHOLE_JOB 0

/* In bytes. */
#define FACTORS_LIMIT 1536
#define AFTER_LIMIT 2048
#define AT_RATES_LIMIT 2048
#define MARKS_LIMIT 2048
#define JOB_LIMIT 3072

enum call { NONE, FACTORS, AFTER, AT_RATES, REPORT, FIGURES, TABLE, MARKS, LOWEST, FIGURES_WITH, LOWEST_WITH, CALLS };

static _Alignas(64) uint8_t space[SPACE];
static ucontext_t here, there;

/* What the call on the painted stack is given. */
static enum call call;
static uint32_t rates[JELMORAND_MAX_RATES];
static const uint32_t periods[] = {500, 2, 100000, 1};
static uint8_t job[65536];
static size_t job_length;
static uint8_t second[JELMORAND_MAX_MEMBERS * JELMORAND_COEFFICIENTS_LENGTH];
static size_t second_length;
static uint8_t table[JELMORAND_TABLE_ROOM];
static size_t table_length;

static uint64_t factors[JELMORAND_MAX_MEMBERS];
static int64_t answers_at_rates[JELMORAND_MAX_RATES];
static uint64_t rows[JELMORAND_MAX_RATES * JELMORAND_MAX_MEMBERS];
static struct jelmorand_figures figures;
static uint8_t text[JELMORAND_TABLE_ROOM];
static uint32_t set;
static uint64_t marks[5];
static volatile int64_t answer;

/* The book of the job; one that is too short has none. */
static size_t book_length(void)
{
    return job_length < JELMORAND_JOB_LENGTH ? 0 : job_length - JELMORAND_JOB_LENGTH;
}

/* Lends the book's own numbers as a second set, so that it is refused nothing but what the job is. */
static void lend_own_numbers(void)
{
    const size_t members = book_length() > 0 ? job[JELMORAND_JOB_LENGTH] : 0;
    second_length = 0;
    for (size_t i = 0; i < members && i < JELMORAND_MAX_MEMBERS; i++, second_length += JELMORAND_COEFFICIENTS_LENGTH)
        memcpy(second + second_length, job + numbers_at(i), JELMORAND_COEFFICIENTS_LENGTH);
}

/* Lends the book's own table to be marked. On every second line a 9 stands over the rate's first digit, so that few entries there are
 * right. A book that is refused has no table. */
static void lend_own_table(void)
{
    const int64_t length = jelmorand_table(rates, JELMORAND_MAX_RATES, job + JELMORAND_JOB_LENGTH, book_length(), table, sizeof table);
    int lines = 0;
    table_length = length > 0 ? (size_t)length : 0;
    for (size_t i = 1; i < table_length; i++)
        if (table[i - 1] == '\n' && ++lines % 2 == 1)
            table[i] = '9';
}

static void make_call(void)
{
    const uint8_t *book = job + JELMORAND_JOB_LENGTH;
    switch (call) {
    case FACTORS:
        answer = jelmorand_factors(rates[1], book, book_length(), factors, JELMORAND_MAX_MEMBERS);
        break;
    case AFTER:
        answer = jelmorand_factors_after(periods, 4, book, book_length(), factors, JELMORAND_MAX_MEMBERS);
        break;
    case AT_RATES:
        answer = jelmorand_factors_at_rates(rates, JELMORAND_MAX_RATES, book, book_length(), JELMORAND_MAX_MEMBERS, answers_at_rates,
                                            JELMORAND_MAX_RATES, rows, JELMORAND_MAX_RATES * JELMORAND_MAX_MEMBERS);
        break;
    case REPORT:
        answer = jelmorand_report(job, job_length, text, JELMORAND_REPORT_ROOM);
        break;
    case FIGURES:
        answer = jelmorand_screen(job, job_length, &figures, factors, JELMORAND_MAX_MEMBERS);
        break;
    case TABLE:
        answer = jelmorand_table(rates, JELMORAND_MAX_RATES, book, book_length(), text, JELMORAND_TABLE_ROOM);
        break;
    case MARKS:
        answer = jelmorand_marks(table, table_length, book, book_length(), marks);
        break;
    case LOWEST:
        answer = jelmorand_lowest_rate(job, job_length);
        break;
    case FIGURES_WITH:
        answer = jelmorand_screen_with(job, job_length, second, second_length, &set, &figures, factors, JELMORAND_MAX_MEMBERS);
        break;
    case LOWEST_WITH:
        answer = jelmorand_lowest_rate_with(job, job_length, second, second_length, &set);
        break;
    default:
        break;
    }
}

/* How many bytes of a stack of one colour have another one after a call. */
static size_t touched(enum call which, int colour)
{
    size_t low = 0;
    call = which;
    memset(space, colour, SPACE);
    getcontext(&there);
    there.uc_stack.ss_sp = space;
    there.uc_stack.ss_size = SPACE;
    there.uc_link = &here;
    makecontext(&there, make_call, 0);
    swapcontext(&here, &there);
    while (low < SPACE && space[low] == (uint8_t)colour)
        low++;
    return SPACE - low;
}

/* The stack of one call: what is touched with it and is not without it. Two colours, since a byte may be left in the paint's own.
 * The call is made once before on the program's own stack, since the first memcpy has the loader look for it, and must answer the
 * same on the painted one; otherwise all of it counts as used. */
static size_t used(enum call which)
{
    static const int colours[] = {0xA5, 0x5A};
    size_t most = 0;
    call = which;
    make_call();
    const int64_t expected = answer;
    for (int i = 0; i < 2; i++) {
        answer = expected - 1;
        size_t bytes = touched(which, colours[i]) - touched(NONE, colours[i]);
        if (answer != expected)
            return SPACE;
        if (bytes > most)
            most = bytes;
    }
    return most;
}

/* The next recorded case and its kind; 0 where there is none. */
static int next_case(FILE *cases, int *kind)
{
    uint8_t head[5];
    if (fread(head, 1, sizeof head, cases) != sizeof head)
        return 0;
    *kind = head[0];
    job_length = 0;
    for (int i = 4; i > 0; i--)
        job_length = 256 * job_length + head[i];
    return job_length <= sizeof job && fread(job, 1, job_length, cases) == job_length;
}

/* The next recorded job; 0 where there is none. */
static int next_job(FILE *cases)
{
    int kind;
    while (next_case(cases, &kind))
        if (kind == WHOLE_JOB)
            return 1;
    return 0;
}

int main(int count, char **words)
{
    size_t most[CALLS] = {0};
    int jobs = 0;
    FILE *cases = count == 2 ? fopen(words[1], "rb") : NULL;
    if (cases == NULL) {
        fputs("usage: stack CASES\n", stderr);
        return 2;
    }
    for (uint32_t i = 0; i < JELMORAND_MAX_RATES; i++)
        rates[i] = i * 500;
    for (; next_job(cases); jobs++) {
        lend_own_numbers();
        lend_own_table();
        for (enum call which = FACTORS; which < CALLS; which++) {
            size_t bytes = used(which);
            if (bytes > most[which])
                most[which] = bytes;
        }
    }
    fclose(cases);
    printf("stack: the most over %d recorded jobs: a factor call %zu bytes, factors after periods %zu, "
           "a whole job with its report %zu, its figures %zu, a table of 200 rates %zu, its marks %zu, a lowest rate %zu\n",
           jobs, most[FACTORS], most[AFTER], most[REPORT], most[FIGURES], most[TABLE], most[MARKS], most[LOWEST]);
    printf("stack: a run at %d rates %zu bytes\n", JELMORAND_MAX_RATES, most[AT_RATES]);
    printf("stack with a second set of coefficients: a job's figures %zu bytes, a lowest rate %zu\n", most[FIGURES_WITH],
           most[LOWEST_WITH]);
    return jobs == 0 || most[FACTORS] >= FACTORS_LIMIT || most[AFTER] >= AFTER_LIMIT || most[AT_RATES] >= AT_RATES_LIMIT
        || most[MARKS] >= MARKS_LIMIT || most[REPORT] >= JOB_LIMIT || most[FIGURES] >= JOB_LIMIT || most[LOWEST] >= JOB_LIMIT
        || most[FIGURES_WITH] >= JOB_LIMIT || most[LOWEST_WITH] >= JOB_LIMIT;
}
