/* Marks tables by books of document 01's rows, at the ends of what an entry holds, and texts that are not of the form, and says which
 * answer is wrong, if one is. */
#include "rows.h"

#define RIGHT 0
#define CLOSE 1
#define WRONG 2

/* What a call leaves. Each number is MARK before it. */
struct left {
    int64_t answer;
    uint64_t marks[5];
};

static struct left marked(const char *text, size_t text_length, const uint8_t *book, size_t length)
{
    struct left left = {0, {MARK, MARK, MARK, MARK, MARK}};
    left.answer = jelmorand_marks((const uint8_t *)text, text_length, book, length, left.marks);
    return left;
}

/* Whether a call answered this refusal, and left the marks as they were. */
static int refused(const struct left *left, int64_t refusal)
{
    const struct left before = {-refusal, {MARK, MARK, MARK, MARK, MARK}};
    return memcmp(left, &before, sizeof before) == 0;
}

/* Whether a call counted so many of each mark, and named this line and member. */
static int counted_as(const struct left *left, const uint64_t marks[5])
{
    return left->answer == (int64_t)(marks[RIGHT] + marks[CLOSE] + marks[WRONG])
        && memcmp(left->marks, marks, sizeof left->marks) == 0;
}

/* The first row's table, whose entries are right, and entries of it changed. */
static void check_rows(void)
{
    static const struct { const char *text; uint64_t marks[5]; } rows[] = {
        {"0 1.000E+00 1.000E+00\n100 1.000E+00 5.000E-01\n200 1.000E+00 3.333E-01\n", {6, 0, 0, 0, 0}},
        {"200 1.000E+00 3.333E-01\n0 1.000E+00 1.000E+00\n200 1.000E+00 3.333E-01\n", {6, 0, 0, 0, 0}},
        {"0 1.000E+00 1.000E+00\n100 1.000E+00 5.001E-01\n200 1.000E+00 3.333E-01\n", {5, 0, 1, 2, 1}},
        {"0 1.000E+00 1.000E+00\n100 1.000E+00 4.999E-01\n200 1.000E+00 3.334E-01\n", {4, 0, 2, 2, 1}},
        {"0 9.999E-01 1.000E+00\n100 1.000E+00 5.000E-01\n200 1.000E+00 3.333E-01\n", {5, 0, 1, 1, 0}},
        {"0 1.000E+00 1.000E+00\n100 1.000E+00 5.000E-01\n200 1.001E+00 3.333E+00\n", {4, 0, 2, 3, 0}},
        {"0 9.999E+00 9.999E+00\n100 0.000E+00 0.000E+00\n200 1.000E-99 1.000E-01\n", {0, 0, 6, 1, 0}},
        {"100000 1.000E+00 9.990E-04\n", {2, 0, 0, 0, 0}},
        {"100 1.000E+00 5.000E-02\n", {1, 0, 1, 1, 1}},
    };
    uint8_t book[128];
    const size_t length = one_feed(book, 0);
    for (size_t i = 0; i < sizeof rows / sizeof rows[0]; i++) {
        const struct left left = marked(rows[i].text, strlen(rows[i].text), book, length);
        expect(counted_as(&left, rows[i].marks), rows[i].text);
    }
}

/* The mark of the member's entry on this line, with that half-life in the first row's book. */
static int mark_of(const char *line, uint64_t half_life)
{
    uint8_t book[128];
    const size_t length = one_feed(book, 0);
    put(book + 8 + 32, half_life, 8);
    const struct left left = marked(line, strlen(line), book, length);
    expect(left.answer == 2 && left.marks[RIGHT] >= 1, "a line with the parent's entry right");
    return left.marks[RIGHT] == 2 ? RIGHT : left.marks[CLOSE] == 1 ? CLOSE : WRONG;
}

/* The factor of the half-lives in their order is 3 grains under 5 parts of 32 to 1 grain over, and the exact one up to 2 grains
 * higher. Just these 5 parts are where 1.562E-01 ends and 1.563E-01 begins. */
static void check_ends(void)
{
    static const uint64_t half_lives[] = {UINT64_C(13474781198826), UINT64_C(13474781198733), UINT64_C(13474781198641),
                                          UINT64_C(13474781198548), UINT64_C(13474781198455)};
    static const int lower[] = {RIGHT, RIGHT, CLOSE, CLOSE, WRONG};
    static const int upper[] = {WRONG, CLOSE, CLOSE, RIGHT, RIGHT};
    for (int i = 0; i < 5; i++) {
        expect(mark_of("100 1.000E+00 1.562E-01\n", half_lives[i]) == lower[i], "the end of an entry");
        expect(mark_of("100 1.000E+00 1.563E-01\n", half_lives[i]) == upper[i], "the beginning of an entry");
        expect(mark_of("100 1.000E+00 1.561E-01\n", half_lives[i]) == WRONG, "an entry under that");
        expect(mark_of("100 1.000E+00 1.564E-01\n", half_lives[i]) == WRONG, "an entry over that");
    }
}

/* The factor is 549,755,811 grains to 549,755,814; the entry of zero ends at 549,755,813.888. */
static void check_zero(void)
{
    static const uint64_t half_lives[] = {UINT64_C(4988164390488), UINT64_C(4988164381410), UINT64_C(4988164372332),
                                          UINT64_C(4988164363254)};
    static const int marks[] = {RIGHT, CLOSE, CLOSE, WRONG};
    for (int i = 0; i < 4; i++)
        expect(mark_of("100000 1.000E+00 0.000E+00\n", half_lives[i]) == marks[i], "the end of zero");
}

/* A parent, and two members with a hundred-thousandth of the one before and the longest half-lives: at rate 100,000 the last has no
 * grain, and the exact factor up to 4; the one before it has 457 and up to 459, more than an entry holds. */
static size_t two_small_feeds(uint8_t *book)
{
    const uint64_t longest = UINT64_C(60000000000000);
    uint8_t *end = put(put(put(put(book, 3, 1), 2, 1), 1000, 2), 0, 4);
    end = put_member(put_member(put_member(end, 1, 0, 0), longest, 0, 1), longest, 0, 2);
    end = put(put(end, 1, 4), 0, 4);
    return (size_t)(put(put(end, 1, 4), 1, 4) - book);
}

/* An entry may hold no whole grain. 3.638E-12 begins at 3.9995 grains, 3.639E-12 at 4.0006, and 1.000E-12 is 1.0995. */
static void check_parts_of_grains(void)
{
    static const struct { const char *entry; int mark; } rows[] = {
        {"0.000E+00", RIGHT}, {"1.000E-99", CLOSE}, {"9.999E-13", CLOSE}, {"1.000E-12", CLOSE}, {"3.637E-12", CLOSE},
        {"3.638E-12", CLOSE}, {"3.639E-12", WRONG}, {"9.999E-12", WRONG}, {"1.000E-11", WRONG}, {"9.999E+00", WRONG},
    };
    uint8_t book[128];
    const size_t length = two_small_feeds(book);
    for (size_t i = 0; i < sizeof rows / sizeof rows[0]; i++) {
        char line[64];
        snprintf(line, sizeof line, "100000 1.000E+00 4.156E-10 %s\n", rows[i].entry);
        const struct left left = marked(line, strlen(line), book, length);
        uint64_t marks[5] = {1, 1, 0, 0, 0};
        marks[rows[i].mark]++;
        if (rows[i].mark == WRONG)
            marks[3] = 1, marks[4] = 2;
        expect(counted_as(&left, marks), rows[i].entry);
    }
}

/* The text is as long as it is said to be. */
static void check_lengths(void)
{
    static const char text[] = "0 1.000E+00 1.000E+00\n100 1.000E+00 5.000E-01\n";
    static const uint64_t first[5] = {2, 0, 0, 0, 0}, both[5] = {4, 0, 0, 0, 0};
    uint8_t book[128];
    const size_t length = one_feed(book, 0);
    for (size_t end = 0; end <= sizeof text; end++) {
        const struct left left = marked(text, end, book, length);
        if (end == 22 || end == sizeof text - 1)
            expect(counted_as(&left, end == 22 ? first : both), "whole lines");
        else
            expect(refused(&left, JELMORAND_TABLE_NOT_OF_FORM), "refusal 24 of a line without its end");
    }
}

static void check_line_counts(void)
{
    static const char line[] = "0 1.000E+00 1.000E+00\n";
    static const uint64_t marks[5] = {2 * JELMORAND_MAX_RATES, 0, 0, 0, 0};
    char text[(JELMORAND_MAX_RATES + 1) * (sizeof line - 1)];
    uint8_t book[128];
    const size_t length = one_feed(book, 0);
    for (size_t i = 0; i < sizeof text; i++)
        text[i] = line[i % (sizeof line - 1)];
    struct left left = marked(text, sizeof text - (sizeof line - 1), book, length);
    expect(counted_as(&left, marks), "a table of the most lines");
    left = marked(text, sizeof text, book, length);
    expect(refused(&left, JELMORAND_TABLE_NOT_OF_FORM), "refusal 24 of too many lines");
}

/* Each with the row that it is a change of in the middle, so that a line before and after are of the form. */
static void check_forms(void)
{
    static const char *const lines[] = {
        "", " 100 1.000E+00 5.000E-01", "100  1.000E+00 5.000E-01", "100 1.000E+00  5.000E-01", "100 1.000E+00 5.000E-01 ",
        "100\t1.000E+00 5.000E-01", "100 1.000E+00 5.000E-01\r", "100 1.000E+00", "100", "100 1.000E+00 5.000E-01 1.000E+00",
        "1.000E+00 5.000E-01", "0100 1.000E+00 5.000E-01", "00 1.000E+00 1.000E+00", "+100 1.000E+00 5.000E-01",
        "-0 1.000E+00 1.000E+00", "1e2 1.000E+00 5.000E-01", "0.18 1.000E+00 5.000E-01", "100001 1.000E+00 5.000E-01",
        "4294967396 1.000E+00 5.000E-01", "18446744073709551716 1.000E+00 5.000E-01", "100 1.000E+00 5.000E-1",
        "100 1.000E+00 5.000E-001", "100 1.000E+00 5.00E-01", "100 1.000E+00 5.0000E-01", "100 1.000E+00 0.500E+00",
        "100 1.000E+00 0.000E-05", "100 1.000E+00 0.001E+00", "100 1.000E-00 5.000E-01", "100 1.000E+05 5.000E-01",
        "100 1.000e+00 5.000E-01", "100 1,000E+00 5.000E-01", "100 1.000E 00 5.000E-01", "100 1.000E+0: 5.000E-01",
        "100 :.000E+00 5.000E-01", "100 1.00/E+00 5.000E-01", "100 1 5.000E-01", "100 1.000E+00 0", "100 1.000E+00 none",
    };
    uint8_t book[128];
    const size_t length = one_feed(book, 0);
    for (size_t i = 0; i < sizeof lines / sizeof lines[0]; i++) {
        char text[256];
        snprintf(text, sizeof text, "0 1.000E+00 1.000E+00\n%s\n200 1.000E+00 3.333E-01\n", lines[i]);
        struct left left = marked(text, strlen(text), book, length);
        expect(refused(&left, JELMORAND_TABLE_NOT_OF_FORM), lines[i]);
        snprintf(text, sizeof text, "%s\n", lines[i]);
        left = marked(text, strlen(text), book, length);
        expect(refused(&left, JELMORAND_TABLE_NOT_OF_FORM), lines[i]);
    }
}

/* The book's grounds come before 24, and no rate is refused with 3. */
static void check_order(void)
{
    static const char good[] = "100 1.000E+00 5.000E-01\n";
    static const char *const texts[] = {"", "100001 1.000E+00 5.000E-01\n", "no table", good};
    for (int i = 0; i < 4; i++) {
        uint8_t book[128];
        const size_t length = one_feed(book, 0);
        struct left left = marked(texts[i], strlen(texts[i]), book, 0);
        expect(refused(&left, JELMORAND_BOOK_TOO_SHORT), "refusal 9 before 24");
        left = marked(texts[i], strlen(texts[i]), book, length - 1);
        expect(refused(&left, JELMORAND_BOOK_LENGTH_WRONG), "refusal 11 before 24");
        left = marked(texts[i], strlen(texts[i]), book, length);
        expect(texts[i] == good ? left.answer == 2 : refused(&left, JELMORAND_TABLE_NOT_OF_FORM), "refusal 24 and no other");
        put(book + length - 8, 100001, 4);
        left = marked(texts[i], strlen(texts[i]), book, length);
        expect(refused(&left, JELMORAND_FEED_OUT_OF_RANGE), "refusal 14 before 24");
    }
}

int main(void)
{
    check_rows();
    check_ends();
    check_zero();
    check_parts_of_grains();
    check_lengths();
    check_line_counts();
    check_forms();
    check_order();
    return counted("marks");
}
