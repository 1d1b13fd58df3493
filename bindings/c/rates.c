/* Runs a book of document 01's rows at many rates: every answer and every place of the rows after it, with a rate that is too high, a
 * refused book, rows that are wide, narrow or cut short, and lists of other lengths, and says which answer is wrong, if one is. */
#include "rows.h"

#define MOST_RATES 5
#define MOST_PLACES 12

/* The member's factor at rate v is 100 parts of 100 + v. */
#define G PARENT_GRAINS
#define AT_100 UINT64_C(549755813888)
#define AT_200 UINT64_C(366503875925)
#define AT_100000 UINT64_C(1098413214)

/* Lists that are as they were. */
#define NO_ANSWERS {7, 7, 7, 7, 7}
#define NO_ROWS {7, 7, 7, 7, 7, 7, 7, 7, 7, 7, 7, 7}

/* What a run leaves. Each place is MARK before it. */
struct left {
    int64_t run;
    int64_t answers[MOST_RATES];
    uint64_t rows[MOST_PLACES];
};

/* The lists of a run: how many rates and places are lent, and how many places a row has. */
struct lent {
    size_t rates, width, answers, rows;
};

static struct left run(const uint32_t *rates, const uint8_t *book, size_t length, struct lent lent)
{
    struct left left;
    for (int i = 0; i < MOST_RATES; i++)
        left.answers[i] = (int64_t)MARK;
    for (int i = 0; i < MOST_PLACES; i++)
        left.rows[i] = MARK;
    left.run = jelmorand_factors_at_rates(rates, lent.rates, book, length, lent.width, left.answers, lent.answers, left.rows,
                                          lent.rows);
    return left;
}

/* The same of the book of document 01's first row. */
static struct left run_first(const uint32_t *rates, struct lent lent)
{
    uint8_t book[128];
    const size_t length = one_feed(book, 0);
    return run(rates, book, length, lent);
}

static int is(const struct left *left, const struct left *expected)
{
    return left->run == expected->run && memcmp(left->answers, expected->answers, sizeof left->answers) == 0
        && memcmp(left->rows, expected->rows, sizeof left->rows) == 0;
}

static const uint32_t first_rates[MOST_RATES] = {0, 100, 200, 100000, 0};

/* Rows that just hold the factors, and wider ones, whose other places stay as they were. */
static void check_rows(void)
{
    static const struct lent two = {3, 2, 3, 6}, four = {3, 4, 3, 12};
    static const struct left in_two = {3, {2, 2, 2, 7, 7}, {G, G, G, AT_100, G, AT_200, 7, 7, 7, 7, 7, 7}};
    static const struct left in_four = {3, {2, 2, 2, 7, 7}, {G, G, 7, 7, G, AT_100, 7, 7, G, AT_200, 7, 7}};
    struct left left = run_first(first_rates, two);
    expect(is(&left, &in_two), "rows of two places");
    left = run_first(first_rates, four);
    expect(is(&left, &in_four), "rows of four places");
}

/* A book of one member, in any order of the rates, the same one again too. */
static void check_parent_alone(void)
{
    static const uint32_t rates[] = {100000, 0, 100000};
    static const struct lent lent = {3, 1, 3, 3};
    static const struct left expected = {3, {1, 1, 1, 7, 7}, {G, G, G, 7, 7, 7, 7, 7, 7, 7, 7, 7}};
    uint8_t book[128];
    const struct left left = run(rates, book, parent_alone(book, 0), lent);
    expect(is(&left, &expected), "rows of the parent alone");
}

/* A rate that is too high is refused in its own row, and the rows after it are as they would be without it. */
static void check_high_rates(void)
{
    static const uint32_t high[] = {100001, UINT32_MAX};
    static const struct lent lent = {4, 3, 5, 12};
    static const struct left expected = {4, {2, -JELMORAND_RATE_TOO_HIGH, 2, 2, 7},
                                         {G, AT_100, 7, 7, 7, 7, G, AT_200, 7, G, G, 7}};
    for (int i = 0; i < 2; i++) {
        const uint32_t rates[] = {100, high[i], 200, 0};
        const struct left left = run_first(rates, lent);
        expect(is(&left, &expected), "a rate that is too high among others");
    }
}

/* Every row of a refused book is refused alike, save those whose rate is too high; and no row is too short for it. */
static void check_refused_books(void)
{
    static const uint32_t rates[] = {0, 100001, 100};
    static const size_t widths[] = {0, 1, 4, SIZE_MAX};
    for (int i = 0; i < 4; i++) {
        const struct lent lent = {3, widths[i], 3, 12};
        struct left expected = {3, {-JELMORAND_BOOK_TOO_SHORT, -JELMORAND_RATE_TOO_HIGH, -JELMORAND_BOOK_TOO_SHORT, 7, 7},
                                NO_ROWS};
        uint8_t book[128];
        const size_t length = one_feed(book, 0);
        struct left left = run(rates, book, 0, lent);
        expect(is(&left, &expected), "rows of no book");
        expected.answers[0] = expected.answers[2] = -JELMORAND_BOOK_LENGTH_WRONG;
        left = run(rates, book, length - 1, lent);
        expect(is(&left, &expected), "rows of a book that is too short");
        put(book + length - 8, 100001, 4);
        expected.answers[0] = expected.answers[2] = -JELMORAND_FEED_OUT_OF_RANGE;
        left = run(rates, book, length, lent);
        expect(is(&left, &expected), "rows of a book with a feed out of range");
    }
}

/* Rows of no place and of one, which are too short for two members, also where the list would have room. */
static void check_narrow_rows(void)
{
    static const uint32_t rates[] = {0, 100001, 200};
    static const struct left expected = {3, {-JELMORAND_LIST_TOO_SHORT, -JELMORAND_RATE_TOO_HIGH, -JELMORAND_LIST_TOO_SHORT, 7, 7},
                                         NO_ROWS};
    for (size_t width = 0; width < 2; width++) {
        for (size_t places = 0; places <= MOST_PLACES; places += 3) {
            const struct lent lent = {3, width, 3, places};
            const struct left left = run_first(rates, lent);
            expect(is(&left, &expected), "rows of fewer places than members");
        }
    }
}

/* With a list of so many places at width 3 the first rows are whole, the next may be cut short, and the rest are missing. A row that
 * is cut short takes two factors, and not one. */
static void check_short_lists(void)
{
    static const uint64_t factors[] = {G, AT_100, AT_200};
    for (size_t places = 0; places <= 9; places++) {
        const struct lent lent = {3, 3, 3, places};
        const struct left left = run_first(first_rates, lent);
        struct left expected = {3, NO_ANSWERS, NO_ROWS};
        for (size_t k = 0; k < 3; k++) {
            const int room = 3 * k + 2 <= places;
            expected.answers[k] = room ? 2 : -JELMORAND_LIST_TOO_SHORT;
            if (room)
                expected.rows[3 * k] = G, expected.rows[3 * k + 1] = factors[k];
        }
        expect(is(&left, &expected), "rows of a list that is too short");
    }
}

/* The first row of such a width is the whole list. The others are missing, also where a multiple of the width is a small number. */
static void check_wide_rows(void)
{
    static const size_t widths[] = {MOST_PLACES, MOST_PLACES + 1, SIZE_MAX / 4 + 1, SIZE_MAX / 2 + 1, SIZE_MAX - 1, SIZE_MAX};
    static const struct left expected = {5, {2, -JELMORAND_LIST_TOO_SHORT, -JELMORAND_LIST_TOO_SHORT, -JELMORAND_LIST_TOO_SHORT,
                                             -JELMORAND_LIST_TOO_SHORT},
                                         {G, G, 7, 7, 7, 7, 7, 7, 7, 7, 7, 7}};
    for (int i = 0; i < 6; i++) {
        const struct lent lent = {5, widths[i], 5, MOST_PLACES};
        const struct left left = run_first(first_rates, lent);
        expect(is(&left, &expected), "rows wider than the list");
    }
}

/* As many rates are run as there are of rates and of answers; what is behind either stays as it was. */
static void check_counts(void)
{
    static const uint64_t factors[MOST_RATES] = {G, AT_100, AT_200, AT_100000, G};
    for (size_t rates = 0; rates <= MOST_RATES; rates++) {
        for (size_t answers = 0; answers <= MOST_RATES; answers++) {
            const struct lent lent = {rates, 2, answers, MOST_PLACES};
            const size_t count = rates < answers ? rates : answers;
            const struct left left = run_first(first_rates, lent);
            struct left expected = {(int64_t)count, NO_ANSWERS, NO_ROWS};
            for (size_t k = 0; k < count; k++) {
                expected.answers[k] = 2;
                expected.rows[2 * k] = G;
                expected.rows[2 * k + 1] = factors[k];
            }
            expect(is(&left, &expected), "as many rates as answers");
        }
    }
}

/* Many more rates than a table has: each answer and row against a factor call's. */
static void check_many_rates(void)
{
    enum { COUNT = 10000, WIDTH = 3 };
    static uint32_t rates[COUNT];
    static int64_t answered[COUNT];
    static uint64_t rows[COUNT * WIDTH];
    uint8_t book[128];
    const size_t length = one_feed(book, 0);
    size_t alike = 0;
    for (uint32_t k = 0; k < COUNT; k++)
        rates[k] = k * 7919 % 101000;
    for (size_t i = 0; i < COUNT * WIDTH; i++)
        rows[i] = MARK;
    const int64_t count = jelmorand_factors_at_rates(rates, COUNT, book, length, WIDTH, answered, COUNT, rows, COUNT * WIDTH);
    for (size_t k = 0; k < COUNT; k++) {
        uint64_t out[WIDTH] = {MARK, MARK, MARK};
        const int64_t answer = jelmorand_factors(rates[k], book, length, out, WIDTH);
        alike += answered[k] == answer && memcmp(rows + WIDTH * k, out, sizeof out) == 0;
    }
    expect(count == COUNT && alike == COUNT, "many rates, each as by a factor call");
}

int main(void)
{
    check_rows();
    check_parent_alone();
    check_high_rates();
    check_refused_books();
    check_narrow_rows();
    check_short_lists();
    check_wide_rows();
    check_counts();
    check_many_rates();
    return counted("rates");
}
