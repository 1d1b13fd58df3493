/* Makes every call with null pointers for lists of length 0, in all combinations with lists that are not. */
#include "rows.h"

static void check_lists(void)
{
    static const uint32_t period[] = {0, 1};
    uint8_t bytes[128];
    uint64_t list[2];
    for (int which = 0; which < 8; which++) {
        const size_t count = which & 1 ? 2 : 0;
        const size_t length = which & 2 ? one_feed(bytes, 0) : 0;
        const size_t room = which & 4 ? 2 : 0;
        const uint32_t *periods = count > 0 ? period : NULL;
        const uint8_t *book = length > 0 ? bytes : NULL;
        uint64_t *out = room > 0 ? list : NULL;
        const int64_t full = room > 0 ? 2 : -JELMORAND_LIST_TOO_SHORT;
        const int64_t read = length > 0 ? full : -JELMORAND_BOOK_TOO_SHORT;
        const int64_t after = jelmorand_factors_after(periods, count, book, length, out, room);
        expect(jelmorand_factors(0, book, length, out, room) == read, "the factors of null lists");
        expect(after == (count > 0 ? read : -JELMORAND_PERIODS_OUT_OF_RANGE), "the factors after periods of null lists");
    }
}

static void check_jobs(void)
{
    uint8_t job[256], out[JELMORAND_REPORT_ROOM];
    uint64_t list[2];
    struct jelmorand_figures figures;
    const size_t length = fan_job(job, 0, 0);
    expect(jelmorand_report(NULL, 0, NULL, 0) == -JELMORAND_BUFFER_TOO_SHORT, "the report of a null job into null");
    expect(jelmorand_report(NULL, 0, out, sizeof out) == 10, "the report of a null job");
    expect(jelmorand_report(job, length, NULL, 0) == -JELMORAND_BUFFER_TOO_SHORT, "the report into null");
    expect(jelmorand_screen(NULL, 0, &figures, NULL, 0) == -JELMORAND_JOB_TOO_SHORT, "the figures of a null job into null");
    expect(jelmorand_screen(NULL, 0, &figures, list, 2) == -JELMORAND_JOB_TOO_SHORT, "the figures of a null job");
    expect(jelmorand_screen(job, length, &figures, NULL, 0) == -JELMORAND_LIST_TOO_SHORT, "the figures with factors into null");
    expect(jelmorand_lowest_rate(NULL, 0) == -JELMORAND_JOB_TOO_SHORT, "the lowest rate of a null job");
}

/* A null second set of length 0 is not lent; so the number of the set in use is the book's. */
static void check_second_sets(void)
{
    uint8_t job[256], bytes[2 * JELMORAND_COEFFICIENTS_LENGTH];
    uint64_t list[2];
    struct jelmorand_figures figures;
    for (int which = 0; which < 8; which++) {
        const size_t length = which & 1 ? fan_job(job, 0, 4830) : 0;
        const size_t lent = which & 2 ? put_second(bytes, 0, 1000) : 0;
        const size_t room = which & 4 ? 2 : 0;
        const uint8_t *given = length > 0 ? job : NULL;
        const uint8_t *second = lent > 0 ? bytes : NULL;
        uint64_t *factors = room > 0 ? list : NULL;
        const uint32_t in_use = lent > 0 ? JELMORAND_SECOND_SET : JELMORAND_BOOK_SET;
        uint32_t set = MARK;
        const int64_t full = room > 0 ? 2 : -JELMORAND_LIST_TOO_SHORT;
        const int64_t answer = jelmorand_screen_with(given, length, second, lent, &set, &figures, factors, room);
        expect(answer == (length > 0 ? full : -JELMORAND_JOB_TOO_SHORT), "the figures of null lists and sets");
        expect(set == (length > 0 && room > 0 ? in_use : MARK), "the set in use for the figures of null lists and sets");
        set = MARK;
        const int64_t rate = jelmorand_lowest_rate_with(given, length, second, lent, &set);
        expect(rate == (length > 0 ? 0 : -JELMORAND_JOB_TOO_SHORT), "the lowest rate of null lists and sets");
        expect(set == (length > 0 ? in_use : MARK), "the set in use for the lowest rate of null lists and sets");
    }
}

static void check_tables(void)
{
    static const uint32_t zero[] = {0};
    uint8_t bytes[256], text[64];
    for (int which = 0; which < 8; which++) {
        const size_t count = which & 1;
        const size_t length = which & 2 ? one_feed(bytes, 0) : 0;
        const size_t room = which & 4 ? sizeof text : 0;
        const uint32_t *rates = count > 0 ? zero : NULL;
        const uint8_t *book = length > 0 ? bytes : NULL;
        uint8_t *out = room > 0 ? text : NULL;
        const int64_t full = room > 0 ? 22 : -JELMORAND_BUFFER_TOO_SHORT;
        const int64_t read = count > 0 ? full : -JELMORAND_RATE_COUNT_OUT_OF_RANGE;
        const int64_t answer = jelmorand_table(rates, count, book, length, out, room);
        expect(answer == (length > 0 ? read : -JELMORAND_BOOK_TOO_SHORT), "the table of null lists");
    }
}

static void check_marks(void)
{
    static const uint8_t line[] = "0 1.000E+00 1.000E+00\n";
    uint8_t bytes[128];
    for (int which = 0; which < 4; which++) {
        const size_t text_length = which & 1 ? sizeof line - 1 : 0;
        const size_t length = which & 2 ? one_feed(bytes, 0) : 0;
        const uint8_t *text = text_length > 0 ? line : NULL;
        const uint8_t *book = length > 0 ? bytes : NULL;
        uint64_t marks[5];
        const int64_t read = text_length > 0 ? 2 : -JELMORAND_TABLE_NOT_OF_FORM;
        const int64_t answer = jelmorand_marks(text, text_length, book, length, marks);
        expect(answer == (length > 0 ? read : -JELMORAND_BOOK_TOO_SHORT), "the marks of null lists");
    }
}

/* Only where there are rates and places for answers is anything run; the answer is that of the book, or else of the row. */
static void check_rates(void)
{
    static const uint32_t zeros[] = {0, 0};
    uint8_t bytes[128];
    int64_t places[2];
    uint64_t list[4];
    for (int which = 0; which < 32; which++) {
        const size_t count = which & 1 ? 2 : 0;
        const size_t length = which & 2 ? one_feed(bytes, 0) : 0;
        const size_t width = which & 4 ? 2 : 0;
        const size_t most = which & 8 ? 2 : 0;
        const size_t room = which & 16 ? 4 : 0;
        const uint32_t *rates = count > 0 ? zeros : NULL;
        const uint8_t *book = length > 0 ? bytes : NULL;
        int64_t *answered = most > 0 ? places : NULL;
        uint64_t *rows = room > 0 ? list : NULL;
        const int64_t full = width > 0 && room > 0 ? 2 : -JELMORAND_LIST_TOO_SHORT;
        const int64_t read = length > 0 ? full : -JELMORAND_BOOK_TOO_SHORT;
        const int64_t run = jelmorand_factors_at_rates(rates, count, book, length, width, answered, most, rows, room);
        expect(run == (count > 0 && most > 0 ? 2 : 0), "how many of null lists are run");
        expect(run == 0 || (places[0] == read && places[1] == read), "the answers at many rates of null lists");
    }
}

int main(void)
{
    check_lists();
    check_rates();
    check_jobs();
    check_second_sets();
    check_tables();
    check_marks();
    return counted("nulls");
}
