/* Makes the calls with a second set of coefficients, on a row of document 01, on sets that are the book's and others, and on refusals,
 * and says which answer is wrong, if one is. */
#include "rows.h"

#define SETS_MEMBERS 2
#define MOST UINT32_C(4000000000)

/* The row's targets, and the lowest rate for each by the book's own set. */
#define ROWS 6
static const uint32_t targets[ROWS] = {4830, 4829, 1611, 1610, 5, 4};
static const int64_t lowest[ROWS] = {0, 1, 200, 201, 96501, JELMORAND_NO_RATE};

/* What a call leaves in all that it is lent. Each number is MARK before it, and so is that of the set. */
struct left {
    int64_t answer;
    uint32_t set;
    struct jelmorand_figures figures;
    uint64_t factors[SETS_MEMBERS + 1];
};

static struct left marked(void)
{
    const struct jelmorand_figures figures = {MARK, MARK, MARK, MARK, MARK, MARK};
    const struct left left = {0, MARK, figures, {MARK, MARK, MARK}};
    return left;
}

static struct left screened(const uint8_t *job, size_t length, size_t room)
{
    struct left left = marked();
    left.answer = jelmorand_screen(job, length, &left.figures, left.factors, room);
    return left;
}

static struct left screened_with(const uint8_t *job, size_t length, const uint8_t *second, size_t lent, size_t room)
{
    struct left left = marked();
    left.answer = jelmorand_screen_with(job, length, second, lent, &left.set, &left.figures, left.factors, room);
    return left;
}

/* Whether all but the number of the set is alike. */
static int alike(const struct left *one, const struct left *other)
{
    return one->answer == other->answer && memcmp(&one->figures, &other->figures, sizeof one->figures) == 0
        && memcmp(one->factors, other->factors, sizeof one->factors) == 0;
}

/* Whether a call answered this refusal, and left everything as it was. */
static int refused(const struct left *left, int64_t refusal)
{
    struct left before = marked();
    before.answer = -refusal;
    return alike(left, &before) && left->set == MARK;
}

/* Writes a second set over the numbers of the job's book. */
static void write_over(uint8_t *job, const uint8_t *second)
{
    for (size_t i = 0; i < SETS_MEMBERS; i++)
        memcpy(job + numbers_at(i), second + JELMORAND_COEFFICIENTS_LENGTH * i, JELMORAND_COEFFICIENTS_LENGTH);
}

static void check_not_lent(void)
{
    uint8_t job[256], second[64];
    const size_t length = fan_job(job, 200, 1611);
    const struct left expected = screened(job, length, 3);
    put_second(second, 0, 2000);
    const struct left answers[] = {screened_with(job, length, NULL, 0, 3), screened_with(job, length, second, 0, 3)};
    for (int i = 0; i < 2; i++)
        expect(alike(&answers[i], &expected) && answers[i].set == JELMORAND_BOOK_SET, "figures with no second set");
    for (int i = 0; i < ROWS; i++) {
        uint32_t set = MARK;
        fan_job(job, 200, targets[i]);
        expect(jelmorand_lowest_rate_with(job, length, second, 0, &set) == lowest[i], "a lowest rate with no second set");
        expect(set == JELMORAND_BOOK_SET, "the set in use for a lowest rate with no second set");
    }
}

/* At rate 200 and this target the book's own verdict is 'below'; the first row is the book's own set. A thousand of the parent's makes a
 * risk of 4,830 billionths, and one of the member's a third of that. */
static void check_figures_with_sets(void)
{
    static const struct { uint32_t of_parent, of_member; uint64_t verdict; } rows[] = {
        {0, 1000, JELMORAND_BELOW}, {0, 1001, JELMORAND_ABOVE}, {0, 999, JELMORAND_BELOW}, {0, 0, JELMORAND_BELOW},
        {333, 0, JELMORAND_BELOW}, {334, 0, JELMORAND_ABOVE}, {0, MOST, JELMORAND_ABOVE}, {MOST, 0, JELMORAND_ABOVE},
    };
    for (size_t i = 0; i < sizeof rows / sizeof rows[0]; i++) {
        uint8_t job[256], second[64];
        const size_t length = fan_job(job, 200, 1611);
        const size_t lent = put_second(second, rows[i].of_parent, rows[i].of_member);
        const struct left answer = screened_with(job, length, second, lent, 3);
        expect(answer.set == JELMORAND_SECOND_SET && answer.answer == 2, "the set in use and the count with a second set");
        expect(answer.figures.verdict == rows[i].verdict, "a verdict with a second set");
        write_over(job, second);
        const struct left expected = screened(job, length, 3);
        expect(alike(&answer, &expected), "figures with a second set, and with it written over the book's");
        expect(answer.factors[2] == MARK, "the place past the factors with a second set");
    }
}

/* A room that is 'above' by its book and 'below' by the second set, and working levels by the second set's weights. */
static void check_turned_figures(void)
{
    uint8_t job[256], second[64];
    const size_t length = fan_job(job, 200, 1609);
    const size_t lent = put_second(second, 0, 998);
    struct left answer = screened(job, length, 2);
    expect(answer.figures.verdict == JELMORAND_ABOVE && answer.figures.working == JELMORAND_NONE, "the book's own figures");
    put(second + 2 * JELMORAND_COEFFICIENTS_LENGTH - 4, 1, 4);
    answer = screened_with(job, length, second, lent, 2);
    expect(answer.figures.verdict == JELMORAND_BELOW, "a verdict that the second set turns");
    expect(answer.figures.equilibrium == 333333, "the equilibrium factor by the second set's weights");
    expect(answer.figures.working == 9999, "working levels by the second set's weights");
}

/* Where both risk and target are doubled, the lowest rate is what it was. */
static void check_lowest_rates(void)
{
    for (int i = 0; i < ROWS; i++) {
        uint8_t job[256], second[64];
        uint32_t set = MARK;
        const size_t length = fan_job(job, 100000, 2 * targets[i]);
        const size_t lent = put_second(second, 0, 2000);
        expect(jelmorand_lowest_rate_with(job, length, second, lent, &set) == lowest[i], "a lowest rate with a second set");
        expect(set == JELMORAND_SECOND_SET, "the set in use for a lowest rate");
        write_over(job, second);
        expect(jelmorand_lowest_rate(job, length) == lowest[i], "the lowest rate with the set written over the book's");
    }
}

/* Both calls refuse, and leave everything as it was. */
static void expect_refused(const uint8_t *job, size_t length, const uint8_t *second, size_t lent, int64_t refusal, const char *what)
{
    uint32_t set = MARK;
    const struct left answer = screened_with(job, length, second, lent, 3);
    expect(refused(&answer, refusal), what);
    expect(jelmorand_lowest_rate_with(job, length, second, lent, &set) == -refusal && set == MARK, what);
}

static void check_lengths(void)
{
    uint8_t job[256], second[128] = {0};
    const size_t length = fan_job(job, 200, 1611);
    for (size_t lent = 1; lent <= sizeof second; lent++)
        if (lent != SETS_MEMBERS * JELMORAND_COEFFICIENTS_LENGTH)
            expect_refused(job, length, second, lent, JELMORAND_SECOND_SET_OUT_OF_RANGE, "refusal 23 of a length");
}

/* Each number in turn, the first and the last among them: 4,000,000,000 and one more. */
static void check_numbers(void)
{
    uint8_t job[256], second[64];
    const size_t length = fan_job(job, 200, 1611);
    const size_t lent = put_second(second, 0, 0);
    for (size_t at = 0; at < lent; at += 4) {
        put_second(second, 0, 0);
        put(second + at, MOST + 1, 4);
        expect_refused(job, length, second, lent, JELMORAND_SECOND_SET_OUT_OF_RANGE, "refusal 23 of a number");
        put(second + at, MOST, 4);
        const struct left answer = screened_with(job, length, second, lent, 2);
        expect(answer.answer == 2 && answer.set == JELMORAND_SECOND_SET, "the largest number of a second set");
    }
}

/* 23 comes after the grounds of the job and the book, the book's own numbers among them, and before that of the list. */
static void check_order(void)
{
    uint8_t job[256], second[64];
    size_t length = fan_job(job, 100001, 1611);
    put_second(second, 0, MOST + 1);
    expect_refused(job, length, second, 40, JELMORAND_RATE_TOO_HIGH, "refusal 3 before 23");
    expect_refused(job, 47, second, 40, JELMORAND_JOB_TOO_SHORT, "refusal 1 before 23");
    length = fan_job(job, 200, 1611);
    expect_refused(job, length - 1, second, 40, JELMORAND_BOOK_LENGTH_WRONG, "refusal 11 before 23");
    put(job + length - 8, 100001, 4);
    expect_refused(job, length, second, 39, JELMORAND_FEED_OUT_OF_RANGE, "refusal 14 before 23");
    fan_job(job, 200, 1611);
    put(job + numbers_at(0), MOST + 1, 4);
    put_second(second, 0, 1000);
    expect_refused(job, length, second, 40, JELMORAND_MEMBER_OUT_OF_RANGE, "refusal 13 of the book's own numbers");
    fan_job(job, 200, 1611);
    struct left answer = screened_with(job, length, second, 40, 1);
    expect(refused(&answer, JELMORAND_LIST_TOO_SHORT), "refusal 19 with a second set");
    answer = screened_with(job, length, second, 39, 1);
    expect(refused(&answer, JELMORAND_SECOND_SET_OUT_OF_RANGE), "refusal 23 before 19");
}

int main(void)
{
    check_not_lent();
    check_figures_with_sets();
    check_turned_figures();
    check_lowest_rates();
    check_lengths();
    check_numbers();
    check_order();
    return counted("second");
}
