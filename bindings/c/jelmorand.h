/* Jelmorand: chain balance and screening of radon, thoron and actinon indoors.
 *
 * Link with libjelmorand.a or libjelmorand.so (x86-64 Linux). All calls but jelmorand_refusal_sentence are proved to answer what is
 * said here for every input, on the condition that a C caller must keep and that nothing checks: each pointer is aligned for its
 * type, and has at least as many elements behind it as the length after it says, so it may be null where that length is 0;
 * `figures`, `set` and `marks`, which have no length, are never null; and what `out`, `answers`, `rows`, `figures`, `factors`, `set`
 * and `marks` point to overlaps nothing else that is passed. A length is at most PTRDIFF_MAX bytes; `width` may be any number. No
 * call allocates, blocks or keeps a pointer, and all may be called from several threads at once. Of the stack a call for factors or
 * for marks takes under 2 KB, the others under 3 KB, as measured.
 *
 * Every call answers an int64_t: the answer itself where it is not negative, and minus the number of the refusal otherwise. So a
 * refusal is met by  if (answer < 0),  and this one by  if (answer == -JELMORAND_BOOK_TOO_SHORT).  A run at many rates is never
 * refused as a whole: jelmorand_factors_at_rates writes such an answer for each rate.
 *
 * The bytes of a job, of a chain book and of a second set of coefficients are described, with an example, in docs/FORMAT.md. A job's
 * exposure is in quarter hours per day, 0 to 96. It used to be in whole hours, 0 to 24: a job written so would be taken for a quarter
 * of its exposure, so it must not be passed. For dose a group counts by its share of both groups' years, in whole hundredths.
 */
#ifndef JELMORAND_H
#define JELMORAND_H

#include <stddef.h>
#include <stdint.h>

#ifdef __cplusplus
extern "C" {
#endif

/* The version of this header: major * 1,000,000 + minor * 1,000 + patch, so that 10,000 is 0.10.0. */
#define JELMORAND_VERSION 10000

/* The version of the library, in the same form. What this header says holds where both have the same major and minor number and the
 * library's patch number is not lower. Ask once, before any other call, where the library is a shared object:
 *
 *     if (jelmorand_version() / 1000 != JELMORAND_VERSION / 1000 || jelmorand_version() < JELMORAND_VERSION) */
int64_t jelmorand_version(void);

/* The most members that a book has, so the most places that are written of a list of factors. This size and the next two will grow:
 * the book's next edition has up to 32 members. A program that is not compiled again with the larger ones is refused such a book,
 * with 19 or 21, and never gets more than it lends. */
#define JELMORAND_MAX_MEMBERS 16

/* No report has more bytes than this. */
#define JELMORAND_REPORT_ROOM 922

/* No table has more bytes than this. */
#define JELMORAND_TABLE_ROOM 33400

/* The most rates that a table has. */
#define JELMORAND_MAX_RATES 200

/* The most periods that jelmorand_factors_after takes. */
#define JELMORAND_MAX_PERIODS 32

/* The most minutes that a period has. */
#define JELMORAND_MAX_MINUTES 1440

/* What a call for the lowest rate answers where no rate gives 'below': one more than the highest rate, so no rate itself. */
#define JELMORAND_NO_RATE 100001

/* The bytes of a job before its chain book. */
#define JELMORAND_JOB_LENGTH 48

/* The bytes of one member in a second set of coefficients: its five numbers, 4 bytes each. */
#define JELMORAND_COEFFICIENTS_LENGTH 20

/* The values of a job's bytes 4 to 6. */
enum jelmorand_kind { JELMORAND_RISK = 0, JELMORAND_DOSE = 1 };
enum jelmorand_medium { JELMORAND_INDOOR_AIR = 0, JELMORAND_SOIL_GAS = 1, JELMORAND_GROUNDWATER = 2 };
enum jelmorand_unit { JELMORAND_PCI_PER_L = 0, JELMORAND_PCI_PER_M3 = 1, JELMORAND_BQ_PER_M3 = 2 };

/* The default exposures of source 001, a job's bytes 32 to 47, to initialise a uint16_t[8] with: days per year, years, quarter hours
 * per day and breathing in m3 per day, of the child and then of the adult. */
#define JELMORAND_RESIDENTIAL {350, 6, 96, 10, 350, 20, 96, 20}
#define JELMORAND_WORKER {0, 0, 0, 0, 250, 25, 32, 60}

/* The grounds for refusal: number, name and sentence, in the order in which they are checked, save that 22 comes straight after 3,
 * and 23 and 24 straight after 18. A factor call makes checks 3 and 9 to 19, and so does each row of many rates, a report 1 to 18 and
 * 21, its figures 1 to 19, a table 3, 9 to 18, 20 and 21, the factors after periods 3, 22 and 9 to 19, the lowest rate of a job 1 to
 * 18, the marks of a table 9 to 18 and 24. Check 23 is made where a second set of coefficients is lent, and only there. A later
 * version of the library may have more: a number that is not in this list is a refusal all the same. */
#define JELMORAND_REFUSALS(GROUND) \
    GROUND(1, JELMORAND_JOB_TOO_SHORT, \
           "the job has fewer than 48 bytes") \
    GROUND(2, JELMORAND_CODE_UNKNOWN, \
           "kind, medium or unit is not a listed value, or the job's zero byte is not zero") \
    GROUND(3, JELMORAND_RATE_TOO_HIGH, \
           "the rate exceeds 100,000") \
    GROUND(4, JELMORAND_TARGET_TOO_HIGH, \
           "the target exceeds 1,000,000,000") \
    GROUND(5, JELMORAND_ATTENUATION_OUT_OF_RANGE, \
           "the attenuation exceeds 1,000,000, or is not 1,000,000 for indoor air") \
    GROUND(6, JELMORAND_EXPOSURE_OUT_OF_RANGE, \
           "a group has days over 366, years over 100, quarter hours over 96 or breathing over 100, or both groups have 0 years") \
    GROUND(7, JELMORAND_READING_UNUSABLE, \
           "value or uncertainty has its sign bit set (minus zero too), is infinite or is not a number") \
    GROUND(8, JELMORAND_CONCENTRATION_TOO_HIGH, \
           "a converted part, their sum or the concentration exceeds 4,000,000,000 mBq/m3") \
    GROUND(9, JELMORAND_BOOK_TOO_SHORT, \
           "the book has fewer than 8 bytes") \
    GROUND(10, JELMORAND_COUNT_OUT_OF_RANGE, \
           "the book does not have 1 to 16 members, or has over 64 feeds") \
    GROUND(11, JELMORAND_BOOK_LENGTH_WRONG, \
           "the book is not 8 bytes long with 32 more a member and 8 more a feed") \
    GROUND(12, JELMORAND_DIVISOR_OR_ZEROS_WRONG, \
           "the working level divisor is 0, or one of the book's zero bytes is not zero") \
    GROUND(13, JELMORAND_MEMBER_OUT_OF_RANGE, \
           "a member's half-life is 0 or too long, or one of its five numbers exceeds 4,000,000,000") \
    GROUND(14, JELMORAND_FEED_OUT_OF_RANGE, \
           "a share is not 1 to 100,000, a from is not a member, or a first or next is not a feed") \
    GROUND(15, JELMORAND_FEED_NOT_ONCE, \
           "a feed comes up twice along the members' feeds, or never") \
    GROUND(16, JELMORAND_FEEDS_MISPLACED, \
           "the parent gas has a feed, or a later member has none") \
    GROUND(17, JELMORAND_FEED_NOT_FROM_LOWER, \
           "a feed does not come from a lower member than the one it feeds") \
    GROUND(18, JELMORAND_SHARES_OUT_TOO_HIGH, \
           "the shares out of one member add up to over 100,000") \
    GROUND(19, JELMORAND_LIST_TOO_SHORT, \
           "the lent list has fewer places than the book has members") \
    GROUND(20, JELMORAND_RATE_COUNT_OUT_OF_RANGE, \
           "the list of rates is empty or has over 200") \
    GROUND(21, JELMORAND_BUFFER_TOO_SHORT, \
           "the text is longer than the lent buffer") \
    GROUND(22, JELMORAND_PERIODS_OUT_OF_RANGE, \
           "the list of periods has an odd length, or does not have 1 to 32 periods of 1 to 1,440 minutes each") \
    GROUND(23, JELMORAND_SECOND_SET_OUT_OF_RANGE, \
           "the second set does not have exactly 20 bytes for each member, or one of its numbers exceeds 4,000,000,000") \
    GROUND(24, JELMORAND_TABLE_NOT_OF_FORM, \
           "the table is not 1 to 200 lines of the printed form, each a rate of at most 100,000 and an entry for each member")

/* The names with their numbers. */
#define JELMORAND_NAMED(number, name, sentence) name = number,
enum jelmorand_refusal { JELMORAND_REFUSALS(JELMORAND_NAMED) };
#undef JELMORAND_NAMED

/* The sentence of a refusal, without a full stop, from the list above. `number` is the refusal's, so minus the answer. A number
 * that is not in the list has a sentence too, which says so. The function is in refusals.c beside this header, and in the libraries
 * that bindings/install makes. */
const char *jelmorand_refusal_sentence(int64_t number);

/* The factor of every member of a chain book at one ventilation rate.
 *
 * rate: hundredths of an air change per hour, 0 to 100,000.
 * book: the bytes of the chain book.
 * out: where the factors go, in grains: one grain is 2^-40 of the parent gas's activity, so the parent has 1,099,511,627,776.
 *
 * Accepted, it writes the first n places of `out`, no others, and answers n, the number of members, 1 to 16.
 * Refused, it answers minus the refusal's number, and leaves `out` as it was. */
int64_t jelmorand_factors(uint32_t rate, const uint8_t *book, size_t book_len, uint64_t *out, size_t out_len);

/* The factor of every member of a chain book at each of many ventilation rates, in one run for which the book is read once.
 *
 * rates: hundredths of an air change per hour, each 0 to 100,000; any number of them, in any order.
 * book: the bytes of the chain book.
 * width: how many places of `rows` a row has. JELMORAND_MAX_MEMBERS is enough for every book; less and more are taken as they are.
 * answers: where the answer for each rate goes, answer k for rate k, counted from 0.
 * rows: where the factors go, in grains as in jelmorand_factors. Row k is the places k * width up to (k + 1) * width, fewer where the
 * list ends before that, and none where it ends before the row begins.
 *
 * It answers how many rates were run: rates_len, or answers_len where that is less, so 0 where either is. It is never refused as a
 * whole, so look at each answer before its row.
 *
 * Answer k and row k become what jelmorand_factors answers and leaves for rate k, the book and just that row: accepted, the answer is
 * n, the number of members, 1 to 16, and the first n places of the row hold the factors, while its other places are untouched;
 * refused, the answer is minus the refusal's number, and the row is untouched. So a rate that is too high is refused in its own row
 * alone, a book that is not accepted in every row, and a row of fewer than n places with JELMORAND_LIST_TOO_SHORT.
 *
 * A rate without a place for its answer is not run, and its row is untouched; so are the places of `answers` past the last rate, and
 * those of `rows` past the last row that was run. */
int64_t jelmorand_factors_at_rates(const uint32_t *rates, size_t rates_len, const uint8_t *book, size_t book_len, size_t width,
                                   int64_t *answers, size_t answers_len, uint64_t *rows, size_t rows_len);

/* The report of a whole job: its 48 bytes followed by the chain book.
 *
 * The text is ASCII, each line ends in a line feed, and no zero byte follows it. An accepted job has one line `factor`, the
 * member's number and its grains for each member; then `concentration` (mBq/m3), `verdict` (below, close or above),
 * `level` (mBq/m3), `equilibrium` (millionths, or none) and `working` (micro working levels, or none).
 * A refused job has a report too: the line `refused` and the number, only.
 *
 * It writes the text to the start of `out` and answers its length, which is never 0; what is behind the text is untouched. Where the
 * text is longer than `out` it answers -JELMORAND_BUFFER_TOO_SHORT and leaves `out` as it was; JELMORAND_REPORT_ROOM bytes suffice
 * for every text. No other refusal is answered here: the text says it. */
int64_t jelmorand_report(const uint8_t *job, size_t job_len, uint8_t *out, size_t out_len);

/* What jelmorand_screen says of an accepted job. */
struct jelmorand_figures {
    uint64_t verdict;       /* JELMORAND_BELOW, JELMORAND_CLOSE or JELMORAND_ABOVE */
    uint64_t concentration; /* mBq/m3 */
    uint64_t level;         /* mBq/m3 */
    uint64_t equilibrium;   /* millionths, or JELMORAND_NONE */
    uint64_t working;       /* micro working levels, or JELMORAND_NONE where the equilibrium factor is none */
    uint64_t count;         /* how many members the chain has */
};

/* The verdicts, from best to worst. 0 is none of them, so that figures which nobody filled clear no room. */
enum jelmorand_verdict { JELMORAND_BELOW = 1, JELMORAND_CLOSE = 2, JELMORAND_ABOVE = 3 };

/* An equilibrium factor, or working levels, where there is none. */
#define JELMORAND_NONE UINT64_MAX

/* What the report of a whole job says, as numbers.
 *
 * job: the bytes that jelmorand_report takes, 48 and the chain book.
 * figures: where the numbers go.
 * factors: where the factors go, in grains as in jelmorand_factors.
 *
 * Accepted, it fills `figures`, writes the first n places of `factors`, no others, and answers n, the number of members, 1 to 16.
 * Refused, it answers minus the refusal's number, and leaves `figures` and `factors` as they were. So look at the answer before the
 * figures, which may be those of an earlier call. The length of `factors` is looked at last. */
int64_t jelmorand_screen(const uint8_t *job, size_t job_len, struct jelmorand_figures *figures, uint64_t *factors,
                         size_t factors_len);

/* Whose coefficients are in use: the book's own, or the second set that was lent beside it. 0 is neither, so that a number which
 * nobody filled names no set. */
enum jelmorand_coefficient_set { JELMORAND_BOOK_SET = 1, JELMORAND_SECOND_SET = 2 };

/* What jelmorand_screen says, with a second set of coefficients in use where one is lent.
 *
 * job: the bytes that jelmorand_report takes, 48 and the chain book. The book's own coefficients are checked in either case.
 * second: the bytes of the second set: for each member of the book, in the book's order, its inhalation risk, submersion risk,
 * inhalation dose, submersion dose and alpha energy weight, each as it stands there: JELMORAND_COEFFICIENTS_LENGTH bytes a member, no
 * more and no fewer. With a length of 0 no set is lent, whether the pointer is null or not.
 * set: where the number of the set in use goes, JELMORAND_SECOND_SET where bytes are lent, even if they are the book's own, and
 * JELMORAND_BOOK_SET otherwise.
 * figures, factors: as in jelmorand_screen.
 *
 * Accepted, it fills `set`, and answers and fills all else as jelmorand_screen does: without a second set of this very job, and with
 * one of the job whose book has the second set written over its own numbers. Half-lives, feeds and working level divisor are the
 * book's, so the factors do not depend on whose coefficients are in use.
 * Refused, it answers minus the refusal's number, and leaves `set`, `figures` and `factors` as they were. The length of `factors` is
 * looked at last.
 *
 * A caller who means to lend a set looks at `set`: bytes that could not be read, and so are none, give the book's verdict. */
int64_t jelmorand_screen_with(const uint8_t *job, size_t job_len, const uint8_t *second, size_t second_len, uint32_t *set,
                              struct jelmorand_figures *figures, uint64_t *factors, size_t factors_len);

/* The table of a chain book: the factors at each of a list of ventilation rates, for printing.
 *
 * rates: hundredths of an air change per hour, each 0 to 100,000; 1 to 200 of them, in any order.
 * book: the bytes of the chain book.
 *
 * The text is ASCII, each line ends in a line feed, and no zero byte follows it. Each rate has one line, in the list's order:
 * the rate in whole hundredths, then each member's factor, with single spaces between. A factor, the one that jelmorand_factors
 * gives, is written as its share of the parent's: d.dddE-dd or d.dddE+00, first digit 1 to 9, rounded to the nearest, halves up;
 * 0 is 0.000E+00.
 *
 * Accepted, it writes the text to the start of `out` and answers its length; what is behind the text is untouched.
 * Refused, it answers minus the refusal's number, and leaves `out` as it was. The whole list is read for a rate that is too high
 * before its length is refused with 20, however long it is. The text's length is looked at last; JELMORAND_TABLE_ROOM bytes suffice
 * for every text. */
int64_t jelmorand_table(const uint32_t *rates, size_t rates_len, const uint8_t *book, size_t book_len, uint8_t *out,
                        size_t out_len);

/* The marks of a table that comes from elsewhere: which of its entries agree with a chain book.
 *
 * text: a table in the form that jelmorand_table writes, and nothing else: 1 to 200 lines, their rates in any order. A line is a
 * rate in hundredths of an air change per hour, 0 to 100,000 without leading zeros, then a space and an entry for each member of the
 * book, then a line feed. An entry is d.dddE-dd or d.dddE+00, first digit 1 to 9 and dd from 01 to 99, or 0.000E+00.
 * book: the bytes of the chain book.
 * marks: five places. The first three are for how many entries are right, close and wrong, in this order; the last two for the line,
 * from 1, and the member, from 0, of the first wrong entry in reading order, and both are 0 where none is wrong.
 *
 * The exact factor of member i is somewhere from the grains that jelmorand_factors gives to 2i grains above them, and at most the
 * parent's. An entry is right where all of that range, its ends too, is within half a unit of the entry's last printed place; wrong
 * where nothing of it is, fractions of a grain included; and close otherwise. What is just half a unit away is within it. So the
 * exact factor is within half a unit of a right entry, and not of a wrong one. Half a unit of 0.000E+00 is 0.0005 of the parent's.
 * What jelmorand_table writes of the same book is never wrong.
 *
 * Accepted, it fills `marks` and answers how many entries it has marked, so right, close and wrong together: for each line the
 * number of members.
 * Refused, it answers minus the refusal's number, and leaves `marks` as it was. The book is looked at first. A text that is not of
 * the form is refused with JELMORAND_TABLE_NOT_OF_FORM, and so is one with a rate that is too high. */
int64_t jelmorand_marks(const uint8_t *text, size_t text_len, const uint8_t *book, size_t book_len, uint64_t marks[5]);

/* The factor of every member of a chain book after periods of airing, minute by minute from a shut room: there the parent gas has
 * 1,099,511,627,776 grains, as it has always, and every other member 0.
 *
 * periods: rate and minutes in turn, so two numbers a period; 1 to 32 periods. A rate is in hundredths of an air change per hour,
 * 0 to 100,000; a period has 1 to 1,440 minutes, and begins with the factors that the one before it has left.
 * book: the bytes of the chain book.
 * out: where the factors at the end of the last period go, in grains as in jelmorand_factors.
 *
 * Accepted, it writes the first n places of `out`, no others, and answers n, the number of members, 1 to 16.
 * Refused, it answers minus the refusal's number, and leaves `out` as it was. The whole list is read for a rate that is too high
 * before anything else of it is refused with 22, however long it is. A number without minutes after it, at the end of the list,
 * counts as a rate: it is refused with 3 where it is too high, and with 22 otherwise.
 *
 * The time that it takes grows with the minutes of all periods together, at most 46,080. */
int64_t jelmorand_factors_after(const uint32_t *periods, size_t periods_len, const uint8_t *book, size_t book_len, uint64_t *out,
                                size_t out_len);

/* The lowest ventilation rate at which the verdict on a whole job is 'below'.
 *
 * job: the bytes that jelmorand_report takes, 48 and the chain book. Their own rate, the first four, is checked as it is there, and
 * otherwise ignored.
 *
 * Accepted, it answers the rate in hundredths of an air change per hour, 0 to 100,000, or JELMORAND_NO_RATE where no such rate gives
 * 'below'. With the answered rate written into its first four bytes, lowest byte first, the job's report has the line
 * `verdict below`; with any lower one it has another verdict.
 * Refused, it answers minus the refusal's number, the one that the job's report says.
 *
 * It takes two to five times as long as a report, as measured. */
int64_t jelmorand_lowest_rate(const uint8_t *job, size_t job_len);

/* What jelmorand_lowest_rate says, with a second set of coefficients in use where one is lent.
 *
 * job: as in jelmorand_lowest_rate.
 * second, set: as in jelmorand_screen_with.
 *
 * Accepted, it fills `set`, also where it answers JELMORAND_NO_RATE, and answers what jelmorand_lowest_rate does: without a second
 * set of this very job, and with one of the job whose book has the second set written over its own numbers.
 * Refused, it answers minus the refusal's number, the one that jelmorand_screen_with answers to the same job and set where `factors`
 * is long enough, and leaves `set` as it was. */
int64_t jelmorand_lowest_rate_with(const uint8_t *job, size_t job_len, const uint8_t *second, size_t second_len, uint32_t *set);

#ifdef __cplusplus
}
#endif

#endif
