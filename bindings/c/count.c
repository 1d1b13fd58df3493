/* One call on the largest book, 16 members and 64 feeds, so that a tool that counts instructions has something to count.
 *
 *     count factors | report | figures | second | rates HOW_MANY
 *
 * Answers with status 0 where the call was accepted; a run at so many rates, where each of them was. */
#include "jelmorand.h"

#include <stdlib.h>
#include <string.h>

#define MEMBERS 16
#define FEEDS 64
#define HEADER 8
#define MEMBER 32
#define FEED 8
#define BOOK_LENGTH (HEADER + MEMBERS * MEMBER + FEEDS * FEED)
#define MOST_RATES 1000

static uint8_t job[JELMORAND_JOB_LENGTH + BOOK_LENGTH];
static uint8_t second[MEMBERS * JELMORAND_COEFFICIENTS_LENGTH];

static void put(uint8_t *at, uint64_t number, int bytes)
{
    for (int i = 0; i < bytes; i++)
        at[i] = (uint8_t)(number >> 8 * i);
}

/* So many feeds of member i, from those before it in turn. */
static int feeds_of(int i)
{
    return i < 5 ? i : 5 - (i == MEMBERS - 1);
}

/* Every member has a half-life of its own and all five numbers, and its feeds stand one after the other. */
static void make_book(uint8_t *book)
{
    int next = 1;
    put(book, MEMBERS, 1);
    put(book + 1, FEEDS, 1);
    put(book + 2, 1000, 2);
    for (int i = 0; i < MEMBERS; i++) {
        uint8_t *member = book + HEADER + MEMBER * i;
        put(member, 186000000000 + 977000000 * (uint64_t)i, 8);
        for (int k = 0; k < 5; k++)
            put(member + 8 + 4 * k, 1000 + 10 * (uint64_t)i + (uint64_t)k, 4);
        const int count = feeds_of(i);
        put(member + 28, count == 0 ? 0 : (uint64_t)next, 1);
        for (int k = 0; k < count; k++, next++) {
            uint8_t *feed = book + HEADER + MEMBER * MEMBERS + FEED * (next - 1);
            put(feed, 15000, 4);
            put(feed + 4, (uint64_t)(i - 1 - k), 1);
            put(feed + 5, k + 1 < count ? (uint64_t)next + 1 : 0, 1);
        }
    }
}

/* A dose job in indoor air at 4 pCi/L without uncertainty, for workers, at rate 18. */
static void make_job(void)
{
    const double value = 4;
    put(job, 18, 4);
    put(job + 4, 1, 1);
    put(job + 8, 6195, 4);
    put(job + 12, 1000000, 4);
    memcpy(job + 16, &value, sizeof value);
    put(job + 40, 250, 2);
    put(job + 42, 25, 2);
    put(job + 44, 32, 2);
    put(job + 46, 60, 2);
    make_book(job + JELMORAND_JOB_LENGTH);
}

/* A second set of numbers that are not the book's. */
static void make_second(void)
{
    for (size_t i = 0; i < sizeof second; i += 4)
        put(second + i, 2000 + i, 4);
}

/* A run at the rates 0, 100 and so on. The rates and the lists are there in any case, so that runs differ in what is run alone. */
static int run(size_t count)
{
    static uint32_t rates[MOST_RATES];
    static int64_t answers[MOST_RATES];
    static uint64_t rows[MOST_RATES * MEMBERS];
    if (count > MOST_RATES)
        return 2;
    for (uint32_t k = 0; k < MOST_RATES; k++)
        rates[k] = 100 * k;
    const int64_t ran = jelmorand_factors_at_rates(rates, count, job + JELMORAND_JOB_LENGTH, BOOK_LENGTH, MEMBERS, answers, MOST_RATES,
                                                   rows, MOST_RATES * MEMBERS);
    for (size_t k = 0; k < count; k++)
        if (answers[k] != MEMBERS)
            return 1;
    return ran != (int64_t)count;
}

int main(int count, char **words)
{
    static uint64_t factors[JELMORAND_MAX_MEMBERS];
    static uint8_t text[JELMORAND_REPORT_ROOM];
    struct jelmorand_figures figures;
    uint32_t set;
    make_job();
    make_second();
    if (count == 2 && strcmp(words[1], "factors") == 0)
        return jelmorand_factors(18, job + JELMORAND_JOB_LENGTH, BOOK_LENGTH, factors, MEMBERS) != MEMBERS;
    if (count == 2 && strcmp(words[1], "report") == 0)
        return jelmorand_report(job, sizeof job, text, sizeof text) <= 0 || text[0] != 'f';
    if (count == 2 && strcmp(words[1], "figures") == 0)
        return jelmorand_screen(job, sizeof job, &figures, factors, MEMBERS) != MEMBERS;
    if (count == 2 && strcmp(words[1], "second") == 0)
        return jelmorand_screen_with(job, sizeof job, second, sizeof second, &set, &figures, factors, MEMBERS) != MEMBERS;
    if (count == 3 && strcmp(words[1], "rates") == 0)
        return run(strtoul(words[2], NULL, 10));
    return 2;
}
