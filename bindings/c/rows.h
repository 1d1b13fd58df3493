/* The rows of document 01 as bytes, and how an answer is looked at, for the tests beside this file. */
#ifndef ROWS_H
#define ROWS_H

#include "jelmorand.h"

#include <stdio.h>
#include <string.h>

#define PARENT_GRAINS UINT64_C(1099511627776)
#define MARK UINT64_C(7)

static int answers, failures;

static inline void expect(int holds, const char *what)
{
    answers++;
    if (!holds) {
        printf("wrong: %s\n", what);
        failures++;
    }
}

static inline int untouched(const uint8_t *out, size_t length)
{
    for (size_t i = 0; i < length; i++)
        if (out[i] != MARK)
            return 0;
    return 1;
}

static inline uint8_t *put(uint8_t *at, uint64_t number, int bytes)
{
    for (int i = 0; i < bytes; i++)
        *at++ = (uint8_t)(number >> (8 * i));
    return at;
}

static inline uint8_t *put_member(uint8_t *at, uint64_t half_life, uint32_t inhalation_risk, uint8_t first)
{
    at = put(at, half_life, 8);
    at = put(at, inhalation_risk, 4);
    at = put(at, 0, 8);
    at = put(at, 0, 8);
    return put(at, first, 4);
}

/* A working level divisor of 1,000, and no feeds: the parent alone. */
static inline size_t parent_alone(uint8_t *book, uint32_t inhalation_risk)
{
    uint8_t *end = put(put(put(put(book, 1, 1), 0, 1), 1000, 2), 0, 4);
    return (size_t)(put_member(end, 1, inhalation_risk, 0) - book);
}

/* A parent, and a member that one feed of 100,000 from it feeds. */
static inline size_t one_feed(uint8_t *book, uint32_t inhalation_risk)
{
    uint8_t *end = put(put(put(put(book, 2, 1), 1, 1), 1000, 2), 0, 4);
    end = put_member(end, 1, 0, 0);
    end = put_member(end, UINT64_C(2495329851600), inhalation_risk, 1);
    end = put(end, 100000, 4);
    return (size_t)(put(end, 0, 4) - book);
}

/* The job's 48 bytes: risk, indoor air, a value in pCi/L without uncertainty, residential exposure. */
static inline uint8_t *put_job(uint8_t *at, uint32_t rate, uint32_t target, double value)
{
    static const uint16_t residential[] = JELMORAND_RESIDENTIAL;
    uint64_t bits;
    memcpy(&bits, &value, sizeof bits);
    at = put(put(put(put(at, rate, 4), JELMORAND_RISK, 1), JELMORAND_INDOOR_AIR, 1), JELMORAND_PCI_PER_L, 1);
    at = put(put(at, 0, 1), target, 4);
    at = put(put(put(at, 1000000, 4), bits, 8), 0, 8);
    for (int i = 0; i < 8; i++)
        at = put(at, residential[i], 2);
    return at;
}

/* A job at 3.0 pCi/L whose member with a risk has 100 parts of 100 + rate. */
static inline size_t fan_job(uint8_t *job, uint32_t rate, uint32_t target)
{
    return JELMORAND_JOB_LENGTH + one_feed(put_job(job, rate, target, 3.0), 1000);
}

/* Where member i of the book has its five numbers, in a job with its book. */
static inline size_t numbers_at(size_t i)
{
    return JELMORAND_JOB_LENGTH + 8 + 32 * i + 8;
}

/* A second set for that job: the inhalation risks of its parent and of its member, and nothing else. */
static inline size_t put_second(uint8_t *at, uint32_t of_parent, uint32_t of_member)
{
    memset(at, 0, 2 * JELMORAND_COEFFICIENTS_LENGTH);
    put(at, of_parent, 4);
    put(at + JELMORAND_COEFFICIENTS_LENGTH, of_member, 4);
    return 2 * JELMORAND_COEFFICIENTS_LENGTH;
}

/* Says how many answers were right, and answers the status to end with. */
static inline int counted(const char *name)
{
    printf("%s: %d of %d answers right\n", name, answers - failures, answers);
    return failures != 0;
}

#endif
