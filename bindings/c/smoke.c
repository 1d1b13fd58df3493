/* Makes every call on rows of document 01, on periods and on refusals, and says which answer is wrong, if one is. Those with a second
 * set of coefficients are in second.c, the marks of a table in marks.c, and runs at many rates in rates.c. */
#include "rows.h"

static void check_factors(void)
{
    static const uint32_t rates[] = {0, 100, 200};
    static const uint64_t factors[] = {PARENT_GRAINS, UINT64_C(549755813888), UINT64_C(366503875925)};
    uint8_t book[128];
    size_t length = one_feed(book, 0);
    for (int i = 0; i < 3; i++) {
        uint64_t out[3] = {MARK, MARK, MARK};
        expect(jelmorand_factors(rates[i], book, length, out, 3) == 2, "the count of members");
        expect(out[0] == PARENT_GRAINS && out[1] == factors[i], "a factor of the first row");
        expect(out[2] == MARK, "the place past the factors");
    }
    uint64_t out[2] = {MARK, MARK};
    expect(jelmorand_factors(100001, book, length, out, 2) == -JELMORAND_RATE_TOO_HIGH, "refusal 3");
    expect(jelmorand_factors(0, book, 0, out, 2) == -JELMORAND_BOOK_TOO_SHORT, "refusal 9");
    expect(jelmorand_factors(0, book, length, out, 1) == -JELMORAND_LIST_TOO_SHORT, "refusal 19");
    expect(jelmorand_factors(0, book, length, out, 0) == -JELMORAND_LIST_TOO_SHORT, "refusal 19 of no list");
    expect(out[0] == MARK && out[1] == MARK, "the list after a refusal");
}

/* At rate 300 this book's member keeps 60 of 64 parts each minute and gains one of the parent's, at 6,700 the same of 128. */
static void check_factors_after(void)
{
    static const uint32_t periods[][4] = {{300, 1}, {300, 2}, {300, 1, 6700, 1}, {6700, 1, 300, 1}};
    static const size_t lengths[] = {2, 2, 4, 4};
    static const uint64_t factors[] = {UINT64_C(1) << 34, UINT64_C(31) << 30, UINT64_C(31) << 29, UINT64_C(47) << 29};
    uint8_t book[128];
    size_t length = one_feed(book, 0);
    for (int i = 0; i < 4; i++) {
        uint64_t out[3] = {MARK, MARK, MARK};
        expect(jelmorand_factors_after(periods[i], lengths[i], book, length, out, 3) == 2, "the count of members after periods");
        expect(out[0] == PARENT_GRAINS && out[1] == factors[i], "a factor after periods");
        expect(out[2] == MARK, "the place past the factors after periods");
    }
}

/* What is answered to periods with a book and a list that are too short: their own refusal comes before both. */
static int64_t after_periods(const uint32_t *periods, size_t length)
{
    uint8_t book[1] = {0};
    uint64_t out[1] = {MARK};
    int64_t answer = jelmorand_factors_after(periods, length, book, 0, out, 0);
    expect(out[0] == MARK, "the list after refused periods");
    return answer;
}

static void check_refused_periods(void)
{
    static const uint32_t odd[] = {300, 1, 100000};
    static const uint32_t odd_too_high[] = {300, 1, 100001};
    static const uint32_t no_minutes[] = {300, 0};
    static const uint32_t too_long[] = {300, JELMORAND_MAX_MINUTES + 1};
    const size_t most = 2 * JELMORAND_MAX_PERIODS;
    uint32_t many[2 * JELMORAND_MAX_PERIODS + 2];
    for (size_t i = 0; i < most + 2; i++)
        many[i] = 1;
    expect(after_periods(odd_too_high, 3) == -JELMORAND_RATE_TOO_HIGH, "refusal 3 of an odd list");
    expect(after_periods(odd, 3) == -JELMORAND_PERIODS_OUT_OF_RANGE, "refusal 22 of an odd list");
    expect(after_periods(odd, 0) == -JELMORAND_PERIODS_OUT_OF_RANGE, "refusal 22 of no periods");
    expect(after_periods(no_minutes, 2) == -JELMORAND_PERIODS_OUT_OF_RANGE, "refusal 22 of no minutes");
    expect(after_periods(too_long, 2) == -JELMORAND_PERIODS_OUT_OF_RANGE, "refusal 22 of too many minutes");
    expect(after_periods(many, most + 2) == -JELMORAND_PERIODS_OUT_OF_RANGE, "refusal 22 of too many periods");
    expect(after_periods(many, most) == -JELMORAND_BOOK_TOO_SHORT, "refusal 9 after the most periods");
}

static void check_lists_after(void)
{
    static const uint32_t periods[] = {300, 1};
    uint8_t book[128];
    uint64_t out[2] = {MARK, MARK};
    const size_t length = one_feed(book, 0);
    expect(jelmorand_factors_after(periods, 2, book, length, out, 1) == -JELMORAND_LIST_TOO_SHORT, "refusal 19 after periods");
    expect(jelmorand_factors_after(periods, 2, book, length, out, 0) == -JELMORAND_LIST_TOO_SHORT, "refusal 19 after, of no list");
    expect(out[0] == MARK && out[1] == MARK, "the list that is too short after periods");
    expect(jelmorand_factors_after(periods, 2, book, length, out, 2) == 2, "a list of just n places after periods");
}

static void check_report(void)
{
    static const char text[] = "factor 0 1099511627776\nconcentration 37000\nverdict below\nlevel 37000\n"
                               "equilibrium none\nworking none\n";
    const size_t length = sizeof text - 1;
    uint8_t job[256];
    uint8_t out[JELMORAND_REPORT_ROOM];
    uint8_t *book = put_job(job, 0, 1610, 1.0);
    size_t job_length = JELMORAND_JOB_LENGTH + parent_alone(book, 1000);
    memset(out, MARK, sizeof out);
    expect(jelmorand_report(job, job_length, out, length - 1) == -JELMORAND_BUFFER_TOO_SHORT, "refusal 21 of a report");
    expect(jelmorand_report(job, 47, out, 9) == -JELMORAND_BUFFER_TOO_SHORT, "refusal 21 of a refused report");
    expect(untouched(out, sizeof out), "the buffer after refusal 21");
    expect(jelmorand_report(job, job_length, out, sizeof out) == (int64_t)length, "the report's length");
    expect(memcmp(out, text, length) == 0, "the report's text");
    expect(out[length] == MARK, "the byte past the report");
    expect(jelmorand_report(job, 47, out, sizeof out) == 10 && memcmp(out, "refused 1\n", 10) == 0, "refusal 1");
}

/* Document 01's row at 3.0 pCi/L, that is 111,000 mBq/m3, where one billionth of the target makes each verdict. */
static void check_verdicts(void)
{
    static const char *const lines[] = {"verdict above\n", "verdict close\n", "verdict below\n"};
    static const uint64_t verdicts[] = {JELMORAND_ABOVE, JELMORAND_CLOSE, JELMORAND_BELOW};
    for (uint32_t i = 0; i < 3; i++) {
        uint8_t job[256];
        char out[JELMORAND_REPORT_ROOM + 1] = {0};
        struct jelmorand_figures figures;
        uint64_t factors[2];
        const size_t length = JELMORAND_JOB_LENGTH + one_feed(put_job(job, 200, 1609 + i, 3.0), 1000);
        jelmorand_report(job, length, (uint8_t *)out, JELMORAND_REPORT_ROOM);
        expect(strstr(out, "concentration 111000\n") != NULL && strstr(out, lines[i]) != NULL, lines[i]);
        expect(jelmorand_screen(job, length, &figures, factors, 2) == 2, "the count of members of a job");
        expect(figures.concentration == 111000 && figures.verdict == verdicts[i], "a verdict as a number");
    }
}

/* The figures of a chain with alpha energy: at rate 100 its member has half the grains that it has at rate 0. */
static void check_figures(void)
{
    uint8_t job[256];
    struct jelmorand_figures figures;
    uint64_t factors[3] = {MARK, MARK, MARK};
    uint8_t *book = put_job(job, 100, 1000000000, 4.0);
    const size_t length = JELMORAND_JOB_LENGTH + one_feed(book, 0);
    put(book + 8 + 32 + 24, 1, 4);
    expect(jelmorand_screen(job, length, &figures, factors, 3) == 2 && figures.count == 2, "the count of the figures");
    expect(factors[0] == PARENT_GRAINS && factors[1] == PARENT_GRAINS / 2, "the factors of a job");
    expect(factors[2] == MARK, "the place past the factors of a job");
    expect(figures.concentration == 148000 && figures.level == UINT64_C(4000000000), "concentration and level");
    expect(figures.equilibrium == 500000 && figures.working == 20000, "equilibrium factor and working levels");
    expect(jelmorand_screen(job, JELMORAND_JOB_LENGTH + parent_alone(book, 0), &figures, factors, 1) == 1, "the parent alone");
    expect(figures.equilibrium == JELMORAND_NONE && figures.working == JELMORAND_NONE, "no equilibrium factor");
}

/* Neither the figures nor the list is touched by a refusal. */
static void check_refused_figures(void)
{
    uint8_t job[256];
    uint64_t factors[2] = {MARK, MARK};
    struct jelmorand_figures figures = {MARK, MARK, MARK, MARK, MARK, MARK};
    const struct jelmorand_figures before = figures;
    const size_t length = fan_job(job, 100, 1611);
    expect(jelmorand_screen(job, 0, &figures, factors, 2) == -JELMORAND_JOB_TOO_SHORT, "refusal 1 of the figures");
    expect(jelmorand_screen(job, length - 1, &figures, factors, 0) == -JELMORAND_BOOK_LENGTH_WRONG, "refusal 11 of the figures");
    expect(jelmorand_screen(job, length, &figures, factors, 1) == -JELMORAND_LIST_TOO_SHORT, "refusal 19 of the figures");
    expect(jelmorand_screen(job, length, &figures, factors, 0) == -JELMORAND_LIST_TOO_SHORT, "refusal 19 of figures, no list");
    expect(memcmp(&figures, &before, sizeof figures) == 0, "the figures after a refusal");
    expect(factors[0] == MARK && factors[1] == MARK, "the factors after a refusal");
}

static int is_below(const uint8_t *job, size_t length)
{
    char out[JELMORAND_REPORT_ROOM + 1] = {0};
    jelmorand_report(job, length, (uint8_t *)out, JELMORAND_REPORT_ROOM);
    return strstr(out, "verdict below\n") != NULL;
}

/* The risk is 483,000 / (100 + rate) billionths. Where it is just the target, as at rates 200 and 96,500, the grains that rounding may
 * have taken keep the verdict from 'below'; at rate 0 none are taken. */
static void check_lowest_rate(void)
{
    static const uint32_t targets[] = {4830, 4829, 1611, 1610, 5};
    static const uint32_t lowest[] = {0, 1, 200, 201, 96501};
    static const uint32_t own[] = {0, 200, 100000};
    uint8_t job[256];
    for (int i = 0; i < 5; i++) {
        for (int j = 0; j < 3; j++) {
            size_t length = fan_job(job, own[j], targets[i]);
            expect(jelmorand_lowest_rate(job, length) == (int64_t)lowest[i], "a lowest rate");
        }
        expect(is_below(job, fan_job(job, lowest[i], targets[i])), "the verdict at the lowest rate");
        expect(lowest[i] == 0 || !is_below(job, fan_job(job, lowest[i] - 1, targets[i])), "the verdict below the lowest rate");
    }
    expect(jelmorand_lowest_rate(job, fan_job(job, 200, 4)) == JELMORAND_NO_RATE, "a lowest rate where there is none");
    expect(!is_below(job, fan_job(job, 100000, 4)), "the verdict at the highest rate where there is none");
}

static void check_refused_lowest_rate(void)
{
    uint8_t job[256];
    const size_t length = fan_job(job, 100001, 1611);
    expect(jelmorand_lowest_rate(job, length) == -JELMORAND_RATE_TOO_HIGH, "refusal 3 of a lowest rate");
    fan_job(job, 100000, 1611);
    expect(jelmorand_lowest_rate(job, 0) == -JELMORAND_JOB_TOO_SHORT, "refusal 1 of a lowest rate, of no job");
    expect(jelmorand_lowest_rate(job, 47) == -JELMORAND_JOB_TOO_SHORT, "refusal 1 of a lowest rate");
    expect(jelmorand_lowest_rate(job, 48) == -JELMORAND_BOOK_TOO_SHORT, "refusal 9 of a lowest rate");
    expect(jelmorand_lowest_rate(job, length - 1) == -JELMORAND_BOOK_LENGTH_WRONG, "refusal 11 of a lowest rate");
}

/* The first row of the factors as a table, in exactly its room and in more. */
static void check_table(void)
{
    static const uint32_t rates[] = {0, 100, 200};
    static const char text[] = "0 1.000E+00 1.000E+00\n100 1.000E+00 5.000E-01\n200 1.000E+00 3.333E-01\n";
    const size_t length = sizeof text - 1;
    const size_t rooms[] = {length, JELMORAND_TABLE_ROOM};
    uint8_t book[128];
    uint8_t out[JELMORAND_TABLE_ROOM];
    size_t book_length = one_feed(book, 0);
    for (int i = 0; i < 2; i++) {
        memset(out, MARK, sizeof out);
        expect(jelmorand_table(rates, 3, book, book_length, out, rooms[i]) == (int64_t)length, "the table's length");
        expect(memcmp(out, text, length) == 0, "the table's text");
        expect(untouched(out + length, sizeof out - length), "the bytes past the table");
    }
}

static void check_refused_tables(void)
{
    static const uint32_t rates[JELMORAND_MAX_RATES + 1] = {0, 100, 200};
    static const uint32_t too_high[] = {0, 100001};
    uint8_t book[128];
    uint8_t out[JELMORAND_TABLE_ROOM];
    const size_t length = one_feed(book, 0);
    const size_t most = JELMORAND_MAX_RATES;
    const size_t room = sizeof out;
    memset(out, MARK, room);
    expect(jelmorand_table(too_high, 2, book, 0, out, room) == -JELMORAND_RATE_TOO_HIGH, "refusal 3 of a list");
    expect(jelmorand_table(rates, 0, book, 0, out, room) == -JELMORAND_BOOK_TOO_SHORT, "refusal 9 of a table");
    expect(jelmorand_table(rates, 0, book, length, out, 0) == -JELMORAND_RATE_COUNT_OUT_OF_RANGE, "refusal 20 of no rates");
    expect(jelmorand_table(rates, most + 1, book, length, out, room) == -JELMORAND_RATE_COUNT_OUT_OF_RANGE, "refusal 20");
    expect(jelmorand_table(rates, 3, book, length, out, 69) == -JELMORAND_BUFFER_TOO_SHORT, "refusal 21");
    expect(jelmorand_table(rates, 3, book, length, out, 0) == -JELMORAND_BUFFER_TOO_SHORT, "refusal 21 of no buffer");
    expect(untouched(out, room), "the buffer after a refusal");
    /* Lines of 22, 24 and 24 bytes, then 197 at rate 0. */
    expect(jelmorand_table(rates, most, book, length, out, room) == 70 + 197 * 22, "a table of the most rates");
}

static void check_version(void)
{
    expect(jelmorand_version() == JELMORAND_VERSION, "the library's version");
}

#define ROW(number, name, sentence) expect(strcmp(jelmorand_refusal_sentence(name), sentence) == 0, sentence);

static void check_sentences(void)
{
    static const int64_t unknown[] = {0, 25, -1, INT64_MAX};
    JELMORAND_REFUSALS(ROW)
    expect(strcmp(jelmorand_refusal_sentence(21), "the text is longer than the lent buffer") == 0, "the sentence of 21");
    for (int i = 0; i < 4; i++)
        expect(strstr(jelmorand_refusal_sentence(unknown[i]), "does not know") != NULL, "the sentence of an unknown number");
}

int main(void)
{
    check_version();
    check_sentences();
    check_figures();
    check_refused_figures();
    check_factors();
    check_factors_after();
    check_refused_periods();
    check_lists_after();
    check_report();
    check_verdicts();
    check_lowest_rate();
    check_refused_lowest_rate();
    check_table();
    check_refused_tables();
    return counted("smoke");
}
