/* Calls every function of dfb.h with every refusal of its row, with outputs longer than needed and with empty lists, and takes every kind of
 * answer apart by the header's inline functions. Expected numbers are from papers 01 and 02.
 *
 * C99 and C++17. Each list ends where its memory ends: the page behind it cannot be touched. */
#define _DEFAULT_SOURCE
#include "dfb.h"

#include <pthread.h>
#include <stdio.h>
#include <stdlib.h>
#include <string.h>
#include <sys/mman.h>

/* ---- lists ---- */

enum { PAGE = 4096, MOST_LISTS = 16 };

static struct list {
    unsigned char *memory, *contents, *before;
    size_t mapped, bytes;
} lists[MOST_LISTS];
static size_t list_count;

/* A list of so many bytes, filled with a pattern. */
static void *make_list(size_t bytes)
{
    size_t mapped = (bytes + PAGE - 1) / PAGE * PAGE;
    void *memory = mmap(NULL, mapped + PAGE, PROT_READ | PROT_WRITE, MAP_PRIVATE | MAP_ANONYMOUS, -1, 0);
    struct list *list = &lists[list_count++];
    if (memory == MAP_FAILED || list_count == MOST_LISTS || mprotect((unsigned char *)memory + mapped, PAGE, PROT_NONE) != 0)
        abort();
    list->memory = (unsigned char *)memory;
    list->mapped = mapped + PAGE;
    list->bytes = bytes;
    list->contents = list->memory + (mapped - bytes);
    list->before = (unsigned char *)malloc(bytes + 1);
    for (size_t i = 0; i < bytes; i++)
        list->contents[i] = (unsigned char)(0xA5u ^ (7u * i));
    return list->contents;
}

static void *zero_list(size_t bytes)
{
    return memset(make_list(bytes), 0, bytes);
}

static void drop_lists(void)
{
    while (list_count > 0) {
        struct list *list = &lists[--list_count];
        free(list->before);
        munmap(list->memory, list->mapped);
    }
}

static void remember(void)
{
    for (size_t i = 0; i < list_count; i++)
        memcpy(lists[i].before, lists[i].contents, lists[i].bytes);
}

/* Every list is as remembered, but for the first so many bytes of one of them (NULL: of none). */
static int is_unchanged_but(const void *changed, size_t bytes)
{
    for (size_t i = 0; i < list_count; i++) {
        size_t from = lists[i].contents == changed ? bytes : 0;
        if (memcmp(lists[i].before + from, lists[i].contents + from, lists[i].bytes - from) != 0)
            return 0;
    }
    return 1;
}

/* A list, by its number in the order in which they were made, is as remembered behind so many bytes. */
static int stays_behind(size_t number, size_t bytes)
{
    const struct list *list = &lists[number];
    return memcmp(list->contents + bytes, list->before + bytes, list->bytes - bytes) == 0;
}

/* ---- checks ---- */

static unsigned faults;

static void check(int line, int is_right, const char *what)
{
    if (is_right)
        return;
    faults++;
    fprintf(stderr, "tests/interface.c:%d: %s\n", line, what);
}

#define CHECK(condition) check(__LINE__, (condition) != 0, #condition)

/* A call is refused by a number, and no list changes. */
#define REFUSED(type, bits, base, number, call)                          \
    do {                                                                 \
        remember();                                                      \
        type answer_ = (call);                                           \
        check(__LINE__, answer_ == (base) + (number), #call);            \
        check(__LINE__, dfb_refusal_u##bits(answer_) == (number), #call); \
        check(__LINE__, dfb_refusal(answer_) == (number), #call);        \
        check(__LINE__, is_unchanged_but(NULL, 0), #call " changes");    \
    } while (0)
#define REFUSED_16(number, call) REFUSED(uint16_t, 16, 0x100u, number, call)
#define REFUSED_32(number, call) REFUSED(uint32_t, 32, 0x10000u, number, call)
#define REFUSED_64(number, call) REFUSED(uint64_t, 64, (uint64_t)1 << 63, number, call)

/* The same of a refusal that has an offset. */
#define REFUSED_AT(number, offset, call)                                                     \
    do {                                                                                     \
        REFUSED(uint64_t, 64, ((uint64_t)1 << 63) + (offset) * (uint64_t)256, number, call); \
        check(__LINE__, dfb_refusal_offset(call) == (offset), #call " has another offset");  \
    } while (0)

/* A call is accepted with an answer, and changes at most the first so many bytes of one list. */
#define ACCEPTED(type, bits, answer, changed, bytes, call)                  \
    do {                                                                    \
        remember();                                                         \
        type answer_ = (call);                                              \
        check(__LINE__, answer_ == (answer), #call);                        \
        check(__LINE__, dfb_refusal_u##bits(answer_) == 0, #call " is refused"); \
        check(__LINE__, dfb_refusal(answer_) == 0, #call " is refused");    \
        check(__LINE__, is_unchanged_but(changed, bytes), #call " changes more"); \
    } while (0)
#define ACCEPTED_16(answer, call) ACCEPTED(uint16_t, 16, answer, NULL, 0, call)
#define ACCEPTED_32(answer, changed, bytes, call) ACCEPTED(uint32_t, 32, answer, changed, bytes, call)
#define ACCEPTED_64(answer, changed, bytes, call) ACCEPTED(uint64_t, 64, answer, changed, bytes, call)

/* ---- the board ---- */

static uint16_t *state;
static uint64_t *totals;
static uint32_t *powers;
static uint8_t *out;

/* A board after reset, powers of 0, and an output of so many bytes. */
static void make_board(size_t out_len)
{
    state = (uint16_t *)zero_list(DFB_STATE * sizeof *state);
    totals = (uint64_t *)zero_list(DFB_TOTALS * sizeof *totals);
    powers = (uint32_t *)zero_list(DFB_POWERS * sizeof *powers);
    out = (uint8_t *)make_list(out_len);
}

static uint32_t command(uint8_t id, uint16_t information)
{
    return dfb_command(state, DFB_STATE, totals, DFB_TOTALS, id, information);
}

static uint32_t tick(size_t out_len)
{
    return dfb_tick(state, DFB_STATE, totals, DFB_TOTALS, powers, DFB_POWERS, out, out_len);
}

static void test_command(void)
{
    make_board(DFB_OUTPUT);
    ACCEPTED_32(0x6363u, state, 2, command(0x30, 0xFFFF));
    ACCEPTED_32(0xA316u, state, 2, command(0x30, 0xAB16));
    CHECK(state[0] == 0xA316);
    ACCEPTED_32(0x0032u, state, 4, command(0x31, 0xFFFF));
    CHECK(state[0] == 0xA316 && state[1] == 0x0032);
    ACCEPTED_32(0x0000u, state, 14, command(0x36, 0x0000));

    REFUSED_32(2u, dfb_command(state, DFB_STATE - 1, totals, DFB_TOTALS, 0x30, 0));
    REFUSED_32(2u, dfb_command(state, DFB_STATE, totals, DFB_TOTALS - 1, 0x30, 0));
    REFUSED_32(2u, dfb_command(NULL, 0, totals, DFB_TOTALS, 0x30, 0));
    REFUSED_32(2u, dfb_command(state, DFB_STATE, NULL, 0, 0x30, 0));
    REFUSED_32(1u, command(0x2F, 0));
    REFUSED_32(1u, command(0x37, 0));
    state[7] = 1024; /* C is 1024 */
    REFUSED_32(3u, command(0x30, 0));
    REFUSED_32(3u, command(0x37, 0));
    REFUSED_32(2u, dfb_command(state, DFB_STATE, totals, DFB_TOTALS - 1, 0x37, 0));
    state[7] = 0;
    totals[783] = 1;
    REFUSED_32(3u, command(0x30, 0));
    totals[783] = 0;
    state[6] = 0x0040;
    REFUSED_32(3u, command(0x30, 0));
}

/* A state and totals that are one element too long. */
static void test_long_lists(void)
{
    make_board(DFB_OUTPUT);
    uint16_t *long_state = (uint16_t *)zero_list((DFB_STATE + 1) * sizeof *long_state);
    uint64_t *long_totals = (uint64_t *)zero_list((DFB_TOTALS + 1) * sizeof *long_totals);
    uint32_t *long_powers = (uint32_t *)zero_list((DFB_POWERS + 1) * sizeof *long_powers);
    REFUSED_32(2u, dfb_command(long_state, DFB_STATE + 1, totals, DFB_TOTALS, 0x30, 0));
    REFUSED_32(2u, dfb_command(state, DFB_STATE, long_totals, DFB_TOTALS + 1, 0x30, 0));
    REFUSED_32(2u, dfb_read(long_state, DFB_STATE + 1, 0x30));
    REFUSED_32(2u, dfb_tick(long_state, DFB_STATE + 1, totals, DFB_TOTALS, powers, DFB_POWERS, out, DFB_OUTPUT));
    REFUSED_32(2u, dfb_tick(state, DFB_STATE, long_totals, DFB_TOTALS + 1, powers, DFB_POWERS, out, DFB_OUTPUT));
    REFUSED_32(2u, dfb_tick(state, DFB_STATE, totals, DFB_TOTALS, long_powers, DFB_POWERS + 1, out, DFB_OUTPUT));
}

static void test_read(void)
{
    make_board(DFB_OUTPUT);
    for (unsigned n = 0; n < 7; n++)
        CHECK(command((uint8_t)(0x30 + n), (uint16_t)n) == n);
    for (unsigned n = 0; n < 7; n++)
        ACCEPTED_32(n, NULL, 0, dfb_read(state, DFB_STATE, (uint8_t)(0x30 + n)));
    CHECK(command(0x30, 0x6343) == 0x6343);
    ACCEPTED_32(0x6343u, NULL, 0, dfb_read(state, DFB_STATE, 0x30));
    REFUSED_32(1u, dfb_read(state, DFB_STATE, 0x2F));
    REFUSED_32(1u, dfb_read(state, DFB_STATE, 0x37));
    REFUSED_32(2u, dfb_read(state, DFB_STATE - 1, 0x37));
    REFUSED_32(2u, dfb_read(NULL, 0, 0x30));
    state[7] = 9; /* not running, so neither is sound; a read looks at registers only */
    state[8] = 9;
    ACCEPTED_32(0x6343u, NULL, 0, dfb_read(state, DFB_STATE, 0x30));
    state[3] = 0x0017;
    REFUSED_32(3u, dfb_read(state, DFB_STATE, 0x30));
    REFUSED_32(3u, dfb_read(state, DFB_STATE, 0x37));
}

static void test_tick(void)
{
    make_board(DFB_OUTPUT + 5);
    ACCEPTED_32(DFB_IDLE, NULL, 0, tick(DFB_OUTPUT + 5));

    /* N = C = 2, powers 8 and 11 in bin 0: the total is 19, the code 0x0D */
    CHECK(command(0x30, 0x1120) == 0x1120);
    powers[0] = 8;
    CHECK(tick(DFB_OUTPUT + 5) == DFB_COLLECTED);
    CHECK(dfb_refusal_u32(DFB_COLLECTED) == 0 && dfb_report_words(DFB_COLLECTED) == 0 && dfb_report_number(DFB_COLLECTED) == 0);
    CHECK(totals[0] == 8 && totals[1] == 0 && state[7] == 1 && state[8] == 0);
    powers[0] = 11;
    remember();
    uint32_t answer = tick(DFB_OUTPUT + 5);
    CHECK(answer == 0x80120001u);
    CHECK(dfb_refusal_u32(answer) == 0 && dfb_report_words(answer) == 18 && dfb_report_number(answer) == 1);
    CHECK(out[0] == 0x4E && out[1] == 0x00 && out[2] == 0x0D && out[3] == 0x4E && out[4] == 0 && out[5] == 0);
    CHECK(memcmp(out + 54, lists[3].before + 54, DFB_OUTPUT + 5 - 54) == 0);
    CHECK(totals[0] == 0 && state[7] == 0 && state[8] == 1);

    /* N = 1, C = 2: reported, then waiting */
    CHECK(command(0x30, 0x1020) == 0x1020);
    CHECK(dfb_report_words(tick(DFB_OUTPUT)) == 18);
    ACCEPTED_32(DFB_WAITING, state, DFB_STATE * sizeof *state, tick(DFB_OUTPUT));
    CHECK(dfb_report_words(DFB_WAITING) == 0 && dfb_report_number(DFB_WAITING) == 0 && state[8] == 1);
}

/* Reports since the last accepted command: N = C = 1, so that each tick reports. */
static void test_report_numbers(void)
{
    make_board(DFB_OUTPUT);
    CHECK(command(0x30, 0x0020) == 0x0020);
    for (unsigned report = 1; report <= 65540; report++) {
        unsigned number = report < 65535 ? report : 65535;
        uint32_t answer = tick(DFB_OUTPUT);
        CHECK(dfb_report_words(answer) == 18 && dfb_report_number(answer) == number && state[8] == number && dfb_refusal(answer) == 0);
        if (report % 9362 == 0) { /* and a refused command keeps the number */
            REFUSED_32(1u, command(0x37, 0));
            REFUSED_32(2u, dfb_command(state, DFB_STATE, totals, DFB_TOTALS - 1, 0x30, 0x0020));
        }
    }
    ACCEPTED_32(0x0020u, state, DFB_STATE * sizeof *state, command(0x30, 0x0020)); /* the same value */
    CHECK(state[0] == 0x0020 && state[8] == 0);
    CHECK(dfb_report_number(tick(DFB_OUTPUT)) == 1);
    ACCEPTED_32(0x0000u, state, DFB_STATE * sizeof *state, command(0x36, 0x0000)); /* of another register */
    CHECK(state[8] == 0);
    CHECK(dfb_report_number(tick(DFB_OUTPUT)) == 1);

    /* any number is sound when running, and 0 when not */
    state[8] = 65533;
    CHECK(tick(DFB_OUTPUT) == 0x8012FFFEu);
    ACCEPTED_32(0x0000u, state, DFB_STATE * sizeof *state, command(0x30, 0x0000));
    ACCEPTED_32(DFB_IDLE, NULL, 0, tick(DFB_OUTPUT));
    state[8] = 1;
    REFUSED_32(3u, tick(DFB_OUTPUT));
    REFUSED_32(3u, command(0x30, 0x0020));
    REFUSED_32(3u, command(0x37, 0x0020));
    REFUSED_32(2u, tick(DFB_OUTPUT - 1));
    CHECK(dfb_report_number(tick(DFB_OUTPUT)) == 0 && dfb_report_number(tick(DFB_OUTPUT - 1)) == 0);
}

/* Reports of every size. */
static void test_reports(void)
{
    make_board(DFB_OUTPUT);
    for (unsigned setting = 0; setting < 3; setting++)
        for (unsigned enabled = 1; enabled <= 7; enabled++) {
            memset(state, 0, DFB_STATE * sizeof *state);
            for (unsigned n = 0; n < enabled; n++)
                CHECK(command((uint8_t)(0x36 - n), 0x0020) == 0x0020);
            uint16_t first = (uint16_t)(setting << 6 | (enabled == 7 ? 0x20u : 0u));
            CHECK(command(0x30, first) == first);
            uint32_t answer = tick(DFB_OUTPUT);
            CHECK(dfb_refusal_u32(answer) == 0);
            CHECK(dfb_report_words(answer) == enabled * dfb_band_count((uint8_t)setting) / 2);
        }
}

static void test_tick_refused(void)
{
    make_board(DFB_OUTPUT);
    CHECK(command(0x30, 0x0020) == 0x0020);
    REFUSED_32(2u, dfb_tick(state, DFB_STATE - 1, totals, DFB_TOTALS, powers, DFB_POWERS, out, DFB_OUTPUT));
    REFUSED_32(2u, dfb_tick(state, DFB_STATE, totals, DFB_TOTALS - 1, powers, DFB_POWERS, out, DFB_OUTPUT));
    REFUSED_32(2u, dfb_tick(state, DFB_STATE, totals, DFB_TOTALS, powers, DFB_POWERS - 1, out, DFB_OUTPUT));
    REFUSED_32(2u, tick(DFB_OUTPUT - 1));
    REFUSED_32(2u, dfb_tick(NULL, 0, totals, DFB_TOTALS, powers, DFB_POWERS, out, DFB_OUTPUT));
    REFUSED_32(2u, dfb_tick(state, DFB_STATE, NULL, 0, powers, DFB_POWERS, out, DFB_OUTPUT));
    REFUSED_32(2u, dfb_tick(state, DFB_STATE, totals, DFB_TOTALS, NULL, 0, out, DFB_OUTPUT));
    REFUSED_32(2u, dfb_tick(state, DFB_STATE, totals, DFB_TOTALS, powers, DFB_POWERS, NULL, 0));
    CHECK(dfb_report_words(tick(DFB_OUTPUT - 1)) == 0);
    state[7] = 1;
    REFUSED_32(3u, tick(DFB_OUTPUT));
    REFUSED_32(2u, tick(DFB_OUTPUT - 1));
    CHECK(dfb_report_words(tick(DFB_OUTPUT)) == 0);
    state[7] = 0;
    totals[0] = 1;
    REFUSED_32(3u, tick(DFB_OUTPUT));
    totals[0] = 0;
    state[0] = 0x00E0;
    REFUSED_32(3u, tick(DFB_OUTPUT));
}

/* ---- words and sets ---- */

static void test_sets(void)
{
    int16_t *samples = (int16_t *)make_list(8 * sizeof *samples), *again = (int16_t *)make_list(9 * sizeof *again);
    uint8_t *bytes = (uint8_t *)make_list(27);
    samples[0] = 1, samples[1] = -1, samples[2] = -32768;
    for (unsigned apid = 0; apid < 256; apid++) {
        size_t words = dfb_set_words((uint8_t)apid);
        CHECK(words <= DFB_MOST_WORDS);
        for (size_t n = 0; n <= 8; n++) {
            if (words == 0) {
                REFUSED_32(4u, dfb_pack((uint8_t)apid, samples, n, bytes, 27));
                REFUSED_32(4u, dfb_unpack((uint8_t)apid, bytes, 3 * n, again, 9));
            } else if (n != words) {
                REFUSED_32(2u, dfb_pack((uint8_t)apid, samples, n, bytes, 27));
                REFUSED_32(2u, dfb_unpack((uint8_t)apid, bytes, 3 * n, again, 9));
            } else {
                REFUSED_32(2u, dfb_pack((uint8_t)apid, samples, n, bytes, 3 * n - 1));
                ACCEPTED_32(3 * n, bytes, 3 * n, dfb_pack((uint8_t)apid, samples, n, bytes, 27));
                CHECK(bytes[0] == apid && bytes[1] == 0x00 && bytes[2] == 0x01);
                CHECK(bytes[3] == apid && bytes[4] == 0xFF && bytes[5] == 0xFF);
                CHECK(bytes[6] == apid && bytes[7] == 0x80 && bytes[8] == 0x00);
                REFUSED_32(2u, dfb_unpack((uint8_t)apid, bytes, 3 * n, again, n - 1));
                REFUSED_32(2u, dfb_unpack((uint8_t)apid, bytes, 3 * n - 1, again, 9));
                ACCEPTED_32(n, again, n * sizeof *again, dfb_unpack((uint8_t)apid, bytes, 3 * n, again, 9));
                CHECK(memcmp(samples, again, n * sizeof *again) == 0);
                bytes[3 * n - 3] ^= 1;
                REFUSED_32(5u, dfb_unpack((uint8_t)apid, bytes, 3 * n, again, 9));
                REFUSED_32(2u, dfb_unpack((uint8_t)apid, bytes, 3 * n, again, n - 1));
            }
        }
    }
    REFUSED_32(2u, dfb_pack(0x43, NULL, 0, bytes, 27));
    REFUSED_32(2u, dfb_pack(0x43, samples, 3, NULL, 0));
    REFUSED_32(2u, dfb_unpack(0x43, NULL, 0, again, 9));
    REFUSED_32(2u, dfb_unpack(0x43, bytes, 9, NULL, 0));
    REFUSED_32(4u, dfb_pack(DFB_APID_SPEC, NULL, 0, NULL, 0));
}

/* ---- the log ---- */

static void test_append(void)
{
    uint8_t *log = (uint8_t *)make_list(20);
    ACCEPTED_64(4u, log, 4, dfb_append(log, 20, 0, DFB_KIND_COMMAND, 0x30, 0xFFE3));
    ACCEPTED_64(8u, log, 8, dfb_append(log, 20, 4, DFB_KIND_WORD, 0x4E, 0x0C0F));
    ACCEPTED_64(13u, log, 13, dfb_append(log, 20, 8, DFB_KIND_SECOND_MARK, 0, 0x89ABCDEF));
    ACCEPTED_64(14u, log, 14, dfb_append(log, 20, 13, DFB_KIND_TICK, 0, 0));
    static const uint8_t expected[14] = {1, 0x30, 0xFF, 0xE3, 2, 0x4E, 0x0C, 0x0F, 3, 0x89, 0xAB, 0xCD, 0xEF, 4};
    CHECK(memcmp(log, expected, sizeof expected) == 0);

    REFUSED_64(9u, dfb_append(log, 20, 14, 0, 0x30, 0));
    REFUSED_64(9u, dfb_append(log, 20, 21, 5, 0, 0));
    REFUSED_64(1u, dfb_append(log, 20, 14, DFB_KIND_COMMAND, 0x37, 0));
    REFUSED_64(1u, dfb_append(log, 20, 21, DFB_KIND_COMMAND, 0x2F, 0x10000));
    REFUSED_64(4u, dfb_append(log, 20, 14, DFB_KIND_WORD, 0x42, 0));
    REFUSED_64(4u, dfb_append(log, 20, 21, DFB_KIND_WORD, 0x49, 0x10000));
    REFUSED_64(2u, dfb_append(log, 20, 21, DFB_KIND_TICK, 0, 0));
    REFUSED_64(2u, dfb_append(log, 20, SIZE_MAX, DFB_KIND_TICK, 0, 0));
    REFUSED_64(2u, dfb_append(log, 20, 14, DFB_KIND_COMMAND, 0x30, 0x10000));
    REFUSED_64(2u, dfb_append(log, 20, 14, DFB_KIND_WORD, 0x43, 0x10000));
    REFUSED_64(2u, dfb_append(NULL, 0, 0, DFB_KIND_TICK, 0, 0));
    for (unsigned kind = 1; kind <= 4; kind++) {
        size_t bytes = dfb_record_bytes((uint8_t)kind);
        REFUSED_64(2u, dfb_append(log, 20, 21 - bytes, (uint8_t)kind, kind == 2 ? 0x43 : 0x30, 0));
        CHECK(dfb_append(log, 20, 20 - bytes, (uint8_t)kind, kind == 2 ? 0x43 : 0x30, 0) == 20);
    }
    for (unsigned kind = 5; kind < 256; kind++)
        CHECK(dfb_record_bytes((uint8_t)kind) == 0);
    CHECK(dfb_record_bytes(0) == 0);
}

static void test_read_record(void)
{
    static const uint8_t bytes[14] = {1, 0x30, 0xFF, 0xE3, 2, 0x4E, 0x0C, 0x0F, 3, 0x89, 0xAB, 0xCD, 0xEF, 4};
    uint8_t *log = (uint8_t *)make_list(sizeof bytes);
    uint32_t *record = (uint32_t *)make_list(5 * sizeof *record);
    memcpy(log, bytes, sizeof bytes);
    enum { THREE = DFB_RECORD * sizeof(uint32_t) };
    ACCEPTED_64(4u, record, THREE, dfb_read_record(log, 14, 0, record, 5));
    CHECK(record[0] == DFB_KIND_COMMAND && record[1] == 0x30 && record[2] == 0xFFE3);
    ACCEPTED_64(8u, record, THREE, dfb_read_record(log, 14, 4, record, 5));
    CHECK(record[0] == DFB_KIND_WORD && record[1] == 0x4E && record[2] == 0x0C0F);
    ACCEPTED_64(13u, record, THREE, dfb_read_record(log, 14, 8, record, 5));
    CHECK(record[0] == DFB_KIND_SECOND_MARK && record[1] == 0 && record[2] == 0x89ABCDEF);
    ACCEPTED_64(14u, record, THREE, dfb_read_record(log, 14, 13, record, DFB_RECORD));
    CHECK(record[0] == DFB_KIND_TICK && record[1] == 0 && record[2] == 0);
    ACCEPTED_64(14u, record, THREE, dfb_read_record(log, 14, 14, record, 5));
    CHECK(record[0] == DFB_KIND_END && record[1] == 0 && record[2] == 0);
    ACCEPTED_64(0u, record, THREE, dfb_read_record(NULL, 0, 0, record, 5));

    REFUSED_64(2u, dfb_read_record(log, 14, 15, record, 5));
    REFUSED_64(2u, dfb_read_record(log, 14, SIZE_MAX, record, 5));
    REFUSED_64(2u, dfb_read_record(log, 14, 0, record, DFB_RECORD - 1));
    REFUSED_64(2u, dfb_read_record(log, 14, 14, record, 2));
    REFUSED_64(2u, dfb_read_record(log, 14, 0, NULL, 0));
    REFUSED_64(10u, dfb_read_record(log, 3, 0, record, 5));
    REFUSED_64(10u, dfb_read_record(log, 12, 8, record, 2));
    REFUSED_64(9u, dfb_read_record(log, 14, 1, record, 5));
    REFUSED_64(9u, dfb_read_record(log, 14, 1, record, 2));
    log[1] = 0x37;
    REFUSED_64(1u, dfb_read_record(log, 14, 0, record, 2));
    REFUSED_64(10u, dfb_read_record(log, 3, 0, record, 2));
    log[5] = 0x42;
    REFUSED_64(4u, dfb_read_record(log, 14, 4, record, 0));
}

static void test_listing(void)
{
    static const uint8_t bytes[] = {1, 0x30, 0x00, 0xE3, 2, 0x43, 0x00, 0x01, 2, 0x43, 0xFF, 0xFF, 2, 0x43, 0x80, 0x00, 3, 0, 0, 0, 7, 4};
    static const char text[] = "DFB LOG 1\nC 30 0063\nW 43 1 -1 -32768\nS 7\nT\nEND 6\n", empty[] = "DFB LOG 1\nEND 0\n";
    size_t length = sizeof bytes, room = dfb_listing_room(sizeof bytes);
    uint8_t *log = (uint8_t *)make_list(length), *listing = (uint8_t *)make_list(room + 9);
    memcpy(log, bytes, length);
    REFUSED_64(2u, dfb_listing(log, length, listing, room - 1));
    REFUSED_64(2u, dfb_listing(log, length, NULL, 0));
    ACCEPTED_64(sizeof text - 1, listing, sizeof text - 1, dfb_listing(log, length, listing, room + 9));
    CHECK(memcmp(listing, text, sizeof text - 1) == 0);
    ACCEPTED_64(sizeof empty - 1, listing, sizeof empty - 1, dfb_listing(NULL, 0, listing, dfb_listing_room(0)));
    CHECK(memcmp(listing, empty, sizeof empty - 1) == 0);

    static const char too_long[] = "DFB LOG 1\nBAD 11 65536\n";
    uint8_t *long_log = (uint8_t *)make_list(DFB_MOST_LISTED + 1), *long_text = (uint8_t *)make_list(dfb_listing_room(DFB_MOST_LISTED));
    memset(long_log, DFB_KIND_TICK, DFB_MOST_LISTED + 1);
    REFUSED_64(2u, dfb_listing(long_log, DFB_MOST_LISTED, long_text, dfb_listing_room(DFB_MOST_LISTED) - 1));
    ACCEPTED_64(16u + 2u * DFB_MOST_LISTED + 4u, long_text, dfb_listing_room(DFB_MOST_LISTED),
                dfb_listing(long_log, DFB_MOST_LISTED, long_text, dfb_listing_room(DFB_MOST_LISTED)));
    REFUSED_64(2u, dfb_listing(long_log, DFB_MOST_LISTED + 1, long_text, dfb_listing_room(DFB_MOST_LISTED + 1) - 1));
    ACCEPTED_64(sizeof too_long - 1, long_text, sizeof too_long - 1,
                dfb_listing(long_log, DFB_MOST_LISTED + 1, long_text, dfb_listing_room(DFB_MOST_LISTED + 1)));
    CHECK(memcmp(long_text, too_long, sizeof too_long - 1) == 0);
}

/* ---- command lists ---- */

enum { SEVEN = DFB_REGISTERS * sizeof(uint16_t) };

static uint8_t *command_list;
static uint16_t *registers;

/* The bytes of hexadecimal digits. */
static void put_digits(uint8_t *to, const char *digits)
{
    for (size_t i = 0; i < strlen(digits) / 2; i++) {
        unsigned byte = 0;
        sscanf(digits + 2 * i, "%2x", &byte);
        to[i] = (uint8_t)byte;
    }
}

/* The check of a list of hexadecimal digits, which ends where its memory ends, with so many registers. */
static uint64_t check_list(const char *digits, size_t registers_len)
{
    size_t length = strlen(digits) / 2;
    uint8_t *start = command_list + 64 - length;
    put_digits(start, digits);
    return dfb_check_commands(start, length, registers, registers_len);
}

/* A list that is accepted, and the registers that it leaves; a longer list of registers keeps its rest. */
static void accepts(const char *digits, const uint16_t expected[DFB_REGISTERS])
{
    for (size_t length = DFB_REGISTERS; length <= 9; length++) {
        memset(registers, 0xA5, 9 * sizeof *registers);
        CHECK(check_list(digits, length) == 0);
        CHECK(memcmp(registers, expected, SEVEN) == 0);
        CHECK(registers[7] == 0xA5A5 && registers[8] == 0xA5A5);
    }
    /* 2 where there is no room for the registers */
    for (size_t length = 0; length < DFB_REGISTERS; length++)
        REFUSED_AT(2u, 0u, check_list(digits, length));
}

/* A list that is refused, before any length of the registers is looked at. */
static void refuses(unsigned refusal, unsigned offset, const char *digits)
{
    for (size_t length = 0; length <= 9; length++) {
        check_list(digits, length); /* writes the list, so that the next call changes nothing by itself */
        REFUSED_AT(refusal, offset, check_list(digits, length));
    }
}

static void test_check_commands(void)
{
    static const uint16_t reset[DFB_REGISTERS] = {0}, first[DFB_REGISTERS] = {0x3223}, all[DFB_REGISTERS] = {0xAAB6, 1, 2, 0x23, 4, 0x36, 6};
    static const uint16_t over_and_off[DFB_REGISTERS] = {0x0103}, two[DFB_REGISTERS] = {0x3223, 0, 0, 0x0032};
    command_list = (uint8_t *)zero_list(64);
    registers = (uint16_t *)make_list(9 * sizeof *registers);
    CHECK(DFB_REGISTERS == 7);

    accepts("", reset);
    accepts("0300000000", reset);
    accepts("03FFFFFFFF", reset);
    accepts("01303223", first);
    accepts("0300000007" "01303223" "0300000007" "01330032" "0380000000", two);
    accepts("0130AAB6" "01310001" "01320002" "01330023" "01340004" "01350036" "01360006", all);
    /* N above C between two marks, and with no processor enabled */
    accepts("0300000007" "01300123" "01303223" "0300000008", first);
    accepts("01300103" "0300000007" "0300000008", over_and_off);
    accepts("01300123" "01300103" "0300000008", over_and_off);
    ACCEPTED_64(0u, registers, SEVEN, dfb_check_commands(NULL, 0, registers, 9));
    CHECK(memcmp(registers, reset, SEVEN) == 0);

    /* each refusal, as the first record and behind others */
    refuses(9, 0, "00");
    refuses(9, 4, "01303223" "0500000000");
    refuses(10, 0, "013032");
    refuses(10, 4, "01303223" "03000000");
    refuses(18, 0, "04");
    refuses(18, 4, "01303223" "02430001" "0300000007");
    refuses(18, 5, "0300000007" "02420001");
    refuses(1, 0, "01370020");
    refuses(1, 5, "0300000007" "012F0020" "0300000008");
    refuses(20, 0, "01300017");
    refuses(20, 4, "01303223" "01333232");
    refuses(19, 5, "0300000100" "03000000FF");
    refuses(19, 9, "0380000000" "01303223" "037FFFFFFF" "0300000000");
    refuses(21, 4, "01300123" "0300000007");
    refuses(21, 8, "01300103" "01360020" "0300000007" "01303223");
    /* at the end, the list's length */
    refuses(21, 4, "01300123");
    refuses(21, 13, "0300000007" "01303223" "01300123");

    /* two faults in one record: 9, 10, 18; 1, 20; 19, 21 */
    refuses(9, 0, "05");
    refuses(10, 0, "024200");
    refuses(10, 0, "0137FF");
    refuses(1, 0, "0137FFFF");
    refuses(19, 9, "0300000007" "01300123" "0300000006");
    /* in two records: the first */
    refuses(20, 0, "0130FFFF" "04");
    refuses(18, 0, "04" "0130FFFF");
    refuses(1, 4, "01300123" "01370000" "0300000007");
    refuses(21, 4, "01300123" "0300000007" "01370000");

    /* No list has 2^55 bytes. The pointer is not valid for so many, and need not be: the length is refused before a byte is read. */
    command_list[0] = 0;
    REFUSED_AT(2u, 0u, dfb_check_commands(command_list, (size_t)1 << 55, registers, 9));
    REFUSED_AT(2u, 0u, dfb_check_commands(command_list, SIZE_MAX, registers, DFB_REGISTERS));
    REFUSED_AT(2u, 0u, dfb_check_commands(command_list, (size_t)1 << 55, NULL, 0));
    REFUSED_AT(2u, 0u, dfb_check_commands(NULL, 0, NULL, 0));
    REFUSED_AT(9u, 0u, dfb_check_commands(command_list, 64, NULL, 0));
}

/* A list and an offset of more than 2^16 bytes. */
static void test_long_lists_of_commands(void)
{
    enum { COMMANDS = 300000 };
    uint8_t *commands = (uint8_t *)make_list(4 * COMMANDS + 1);
    registers = (uint16_t *)make_list(DFB_REGISTERS * sizeof *registers);
    for (size_t i = 0; i < COMMANDS; i++) {
        commands[4 * i] = DFB_KIND_COMMAND;
        commands[4 * i + 1] = (uint8_t)(0x30 + i % 7);
        commands[4 * i + 2] = 0;
        commands[4 * i + 3] = (uint8_t)(i % 0x17);
    }
    commands[4 * COMMANDS] = DFB_KIND_TICK;
    ACCEPTED_64(0u, registers, SEVEN, dfb_check_commands(commands, 4 * COMMANDS, registers, DFB_REGISTERS));
    for (size_t i = COMMANDS - 7; i < COMMANDS; i++)
        CHECK(registers[i % 7] == i % 0x17);
    REFUSED_AT(18u, 4u * COMMANDS, dfb_check_commands(commands, 4 * COMMANDS + 1, registers, DFB_REGISTERS));
}

/* ---- the items of a log ---- */

enum { WALK_BYTES = DFB_WALK * sizeof(uint64_t), ITEM_BYTES = DFB_ITEM * sizeof(uint64_t), MOST_ITEM = DFB_ITEM + 2 };

/* The walk's nine numbers end where their memory ends; a number stands before them. */
static uint64_t *walk, *item;

/* A call with a walk and a log of hexadecimal digits, which ends where its memory ends. */
static uint64_t walk_list(const char *digits, const uint64_t before[DFB_WALK], size_t item_len)
{
    size_t length = strlen(digits) / 2;
    uint8_t *start = command_list + 128 - length;
    put_digits(start, digits);
    memcpy(walk, before, WALK_BYTES);
    return dfb_walk_next(start, length, walk, DFB_WALK, item, item_len);
}

/* A call that gives an item and moves the walk; a longer item list keeps its rest, and one with no room is refused by 2. */
static void gives(const char *digits, const uint64_t before[DFB_WALK], const uint64_t found[DFB_ITEM], const uint64_t after[DFB_WALK])
{
    for (size_t length = DFB_ITEM; length <= MOST_ITEM; length++) {
        memset(item, 0xA5, MOST_ITEM * sizeof *item);
        CHECK(walk_list(digits, before, length) == 0);
        CHECK(memcmp(walk, after, WALK_BYTES) == 0 && memcmp(item, found, ITEM_BYTES) == 0);
        CHECK(item[DFB_ITEM] == 0xA5A5A5A5A5A5A5A5u && item[DFB_ITEM + 1] == item[DFB_ITEM]);
    }
    memcpy(walk, before, WALK_BYTES);
    for (size_t length = 0; length < DFB_ITEM; length++)
        REFUSED_AT(2u, 0u, walk_list(digits, before, length));
}

/* A call that is refused, before the length of the item list is looked at. */
static void gives_none(unsigned refusal, uint64_t offset, const char *digits, const uint64_t before[DFB_WALK])
{
    walk_list(digits, before, 0); /* writes log and walk, so that the next call changes nothing by itself */
    for (size_t length = 0; length <= MOST_ITEM; length++)
        REFUSED_AT(refusal, offset, walk_list(digits, before, length));
}

static const uint64_t WALK_START[DFB_WALK] = {0};

static void make_walk(void)
{
    command_list = (uint8_t *)zero_list(128);
    walk = (uint64_t *)make_list(WALK_BYTES + sizeof *walk) + 1;
    item = (uint64_t *)make_list(MOST_ITEM * sizeof *item);
}

static void test_walk_items(void)
{
    static const uint64_t end[DFB_ITEM] = {DFB_ITEM_KIND_END}, later_end[DFB_ITEM] = {DFB_ITEM_KIND_END, 9, 0, 5, 0};
    static const uint64_t at_nine[DFB_WALK] = {9, 5, 0x20, 0, 0, 0, 0, 0, 0x36};
    static const uint64_t command[DFB_ITEM] = {DFB_ITEM_KIND_COMMAND, 0, 4, 0x31, 0x12}, after_command[DFB_WALK] = {4, 1, 0, 0x12};
    static const uint64_t first[DFB_ITEM] = {DFB_ITEM_KIND_COMMAND, 9, 4, 0x30, 0x6363};
    static const uint64_t after_first[DFB_WALK] = {13, 6, 0x6363, 0, 0, 0, 0, 0, 0x36};
    static const uint64_t second[DFB_ITEM] = {DFB_ITEM_KIND_SECOND_MARK, 0, 5, 0xFFFFFFFE, 0}, after_second[DFB_WALK] = {5, 1};
    static const uint64_t tick[DFB_ITEM] = {DFB_ITEM_KIND_TICK, 0, 1, 0, 0}, after_tick[DFB_WALK] = {1, 1};
    static const uint64_t set[DFB_ITEM] = {DFB_ITEM_KIND_SET, 1, 12, DFB_APID_SCM_B1, 3}, after_set[DFB_WALK] = {13, 4};
    make_walk();
    CHECK(DFB_WALK == 9 && DFB_ITEM == 5 && DFB_WALK_PLACE == 0 && DFB_WALK_RECORDS == 1 && DFB_WALK_REGISTERS == 2);
    CHECK(DFB_ITEM_KIND == 0 && DFB_ITEM_OFFSET == 1 && DFB_ITEM_BYTES == 2 && DFB_ITEM_A == 3 && DFB_ITEM_B == 4);

    gives("", WALK_START, end, WALK_START);
    gives("040404040404040404", at_nine, later_end, at_nine);
    gives("0131001F" "00", WALK_START, command, after_command);
    gives("040404040404040404" "0130FFFF", at_nine, first, after_first);
    gives("03FFFFFFFE", WALK_START, second, after_second);
    gives("04", WALK_START, tick, after_tick);
    gives("04" "02480001" "0248FFFF" "02480001" "02480001", after_tick, set, after_set);
    /* an item list, like any other, may have more room and NULL has none */
    memcpy(walk, WALK_START, WALK_BYTES);
    CHECK(dfb_walk_next(NULL, 0, walk, DFB_WALK, item, DFB_ITEM) == 0 && memcmp(item, end, ITEM_BYTES) == 0);
    REFUSED_AT(2u, 0u, dfb_walk_next(NULL, 0, walk, DFB_WALK, NULL, 0));
    REFUSED_AT(2u, 0u, dfb_walk_next(NULL, 0, NULL, 0, NULL, 0));
    REFUSED_AT(2u, 0u, dfb_walk_next(NULL, 0, NULL, 0, item, DFB_ITEM));
}

/* A whole log, call by call: the registers say how many words the SPEC set has. */
static void test_walk(void)
{
    static const uint64_t expected[6][DFB_ITEM] = {{1, 0, 4, 0x31, 0x12}, {3, 4, 5, 258, 0}, {4, 9, 1, 0, 0},
                                                   {2, 10, 12, 0x43, 3}, {1, 22, 4, 0x30, 0x20}, {2, 26, 72, 0x4E, 18}};
    static const uint64_t after[DFB_WALK] = {98, 25, 0x20, 0x12}, end[DFB_ITEM] = {0, 98, 0, 25, 0};
    uint16_t stored[DFB_REGISTERS] = {0};
    uint64_t sets[DFB_COUNTS] = {0};
    make_walk();
    put_digits(command_list, "0131001F" "0300000102" "04" "02430001" "02430002" "02430003" "01300020");
    for (size_t i = 0; i < 18; i++)
        put_digits(command_list + 26 + 4 * i, "024E0C0D");
    memset(walk, 0, WALK_BYTES);
    for (size_t i = 0; i < 6; i++) {
        CHECK(dfb_walk_next(command_list, 98, walk, DFB_WALK, item, DFB_ITEM) == 0);
        CHECK(memcmp(item, expected[i], ITEM_BYTES) == 0);
        CHECK(walk[DFB_WALK_PLACE] == item[DFB_ITEM_OFFSET] + item[DFB_ITEM_BYTES]);
    }
    for (size_t i = 0; i < 3; i++) {
        CHECK(dfb_walk_next(command_list, 98, walk, DFB_WALK, item, DFB_ITEM) == 0);
        CHECK(memcmp(item, end, ITEM_BYTES) == 0 && memcmp(walk, after, WALK_BYTES) == 0);
    }
    CHECK(dfb_count_sets(command_list, 98, sets, DFB_COUNTS, stored, DFB_REGISTERS) == 0);
    for (size_t n = 0; n < DFB_REGISTERS; n++)
        CHECK(walk[DFB_WALK_REGISTERS + n] == stored[n]);
}

static void test_walk_refused(void)
{
    static const uint64_t on[DFB_WALK] = {0, 0, 0x20}, one[DFB_WALK] = {1, 1};
    static const uint64_t registers_wrong[7] = {0x00C0, 0x0040, 0x17, 0x10000, 0x10020, (uint64_t)1 << 63, UINT64_MAX};
    uint64_t before[DFB_WALK] = {0};
    make_walk();
    gives_none(9, 0, "00", WALK_START);
    gives_none(9, 1, "04" "05", one);
    gives_none(9, 4, "02430001" "00", WALK_START);
    gives_none(10, 0, "013000", WALK_START);
    gives_none(10, 1, "04" "03000000", one);
    gives_none(10, 4, "02430001" "024300", WALK_START);
    gives_none(5, 8, "02430001" "02430001" "04", WALK_START);
    gives_none(5, 4, "02430001" "01370000", WALK_START);
    gives_none(5, 4, "024E0C0C" "02430001", on);
    gives_none(5, 8, "02430001" "02430001", WALK_START); /* at the end, the log's length */
    gives_none(1, 0, "01370000", WALK_START);
    gives_none(1, 1, "04" "012F0000", one);
    gives_none(4, 0, "02420000", WALK_START);
    gives_none(6, 0, "024E0808", WALK_START);
    gives_none(7, 0, "024E0008", on);
    gives_none(7, 4, "024E0C0C" "024E0800", on);

    /* a walk that is not sound is refused by 3 at its place, before the record there, and behind 2 for a place past the log */
    for (size_t n = 0; n < DFB_REGISTERS; n++) {
        for (size_t i = 0; i < 7; i++) {
            if (n > 0 && i == 0)
                continue;
            if (n == 0 && i == 1)
                continue; /* 0x30 stores 0x0040 */
            memset(before, 0, sizeof before);
            before[DFB_WALK_REGISTERS + n] = registers_wrong[i];
            gives_none(3, 0, "00", before);
            gives_none(3, 0, "", before);
            before[DFB_WALK_PLACE] = 1;
            gives_none(3, 1, "04", before);
            gives_none(2, 1, "", before);
        }
    }
    memset(before, 0, sizeof before);
    before[DFB_WALK_RECORDS] = 1;
    gives_none(3, 0, "05", before);
    before[DFB_WALK_RECORDS] = UINT64_MAX;
    gives_none(3, 0, "04", before);
    before[DFB_WALK_PLACE] = 2;
    gives_none(2, 2, "04", before);
    before[DFB_WALK_PLACE] = ((uint64_t)1 << 55) - 1;
    gives_none(2, ((uint64_t)1 << 55) - 1, "05", before);
    before[DFB_WALK_PLACE] = (uint64_t)1 << 55;
    gives_none(2, 0, "05", before);
    before[DFB_WALK_PLACE] = UINT64_MAX;
    gives_none(2, 0, "05", before);

    /* a walk of another length than nine */
    command_list[0] = 0;
    for (size_t length = 0; length <= DFB_WALK + 1; length++) {
        memset(walk - 1, 0, WALK_BYTES + sizeof *walk);
        if (length != DFB_WALK)
            for (size_t item_len = 0; item_len <= MOST_ITEM; item_len++)
                REFUSED_AT(2u, 0u, dfb_walk_next(command_list, 1, length > DFB_WALK ? walk - 1 : walk, length, item, item_len));
    }
    /* No log has 2^55 bytes; the length is refused before a byte is read. */
    REFUSED_AT(2u, 0u, dfb_walk_next(command_list, (size_t)1 << 55, walk, DFB_WALK, item, DFB_ITEM));
    REFUSED_AT(2u, 0u, dfb_walk_next(command_list, SIZE_MAX, walk, DFB_WALK, item, DFB_ITEM));
    walk[DFB_WALK_RECORDS] = 1;
    REFUSED_AT(2u, 0u, dfb_walk_next(command_list, (size_t)1 << 55, walk, DFB_WALK, NULL, 0));
    REFUSED_AT(3u, 0u, dfb_walk_next(command_list, 1, walk, DFB_WALK, NULL, 0));
}

/* ---- counted logs ---- */

static uint8_t *counted_log;
static size_t counted_len, used;
static uint64_t *counts;
/* What counts and registers are to be. */
static uint64_t expected_counts[DFB_COUNTS];
static uint16_t expected_registers[DFB_REGISTERS];

/* A log of so many bytes, begun empty, and the first three lists. */
static void begin_log(size_t length)
{
    drop_lists();
    counted_log = (uint8_t *)make_list(length);
    counted_len = length;
    used = 0;
    counts = (uint64_t *)zero_list(sizeof expected_counts);
    registers = (uint16_t *)zero_list(sizeof expected_registers);
    memset(expected_counts, 0, sizeof expected_counts);
    memset(expected_registers, 0, sizeof expected_registers);
}

/* The first arguments of a call. */
#define COUNTED counted_log, counted_len, used, counts, DFB_COUNTS, registers, DFB_REGISTERS

/* The walk over the bytes used finds the counts and the registers that are kept. */
static int walk_agrees(void)
{
    uint64_t walked_counts[DFB_COUNTS] = {0};
    uint16_t walked_registers[DFB_REGISTERS] = {0};
    return dfb_count_sets(counted_log, used, walked_counts, DFB_COUNTS, walked_registers, DFB_REGISTERS) == 0 &&
           memcmp(walked_counts, counts, sizeof walked_counts) == 0 && memcmp(walked_registers, registers, sizeof walked_registers) == 0;
}

/* A call is accepted: it writes bytes behind those used and no others, and leaves counts and registers as expected. */
static void check_written(int line, const uint8_t *bytes, size_t length, uint64_t answer, const char *what)
{
    const uint8_t *before = lists[0].before;
    check(line, answer == used + length && dfb_refusal(answer) == 0, what);
    check(line, memcmp(counted_log, before, used) == 0 && memcmp(counted_log + used, bytes, length) == 0, what);
    check(line, memcmp(counted_log + used + length, before + used + length, counted_len - used - length) == 0, what);
    check(line, memcmp(counts, expected_counts, sizeof expected_counts) == 0, what);
    check(line, memcmp(registers, expected_registers, sizeof expected_registers) == 0, what);
    used += length;
    check(line, walk_agrees(), what);
}

#define WRITES(digits, call)                                                          \
    do {                                                                              \
        uint8_t bytes_[64];                                                           \
        put_digits(bytes_, digits);                                                   \
        remember();                                                                   \
        check_written(__LINE__, bytes_, strlen(digits) / 2, (call), #call);           \
    } while (0)

static void test_counted_log(void)
{
    static const int16_t samples[DFB_MOST_WORDS] = {1, -1, -32768, 32767, 256, -256, 0};
    begin_log(120);
    CHECK(DFB_COUNTS == 7);
    expected_registers[0] = 0x6363;
    WRITES("0130FFFF", dfb_counted_command(COUNTED, 0x30, 0xFFFF));
    expected_registers[6] = 0x0032;
    WRITES("0136FFFF", dfb_counted_command(COUNTED, 0x36, 0xFFFF));
    WRITES("0389ABCDEF", dfb_counted_mark(COUNTED, 0x89ABCDEF));
    WRITES("04", dfb_counted_tick(COUNTED));
    expected_counts[0] = 1;
    WRITES("02430001" "0243FFFF" "02438000", dfb_counted_set(COUNTED, DFB_APID_E_SVY, samples, 3));
    expected_counts[4] = 1;
    WRITES("02470001" "0247FFFF" "02478000" "02477FFF" "02470100" "0247FF00" "02470000", dfb_counted_set(COUNTED, DFB_APID_V_B1, samples, 7));
    REFUSED_64(5u, dfb_counted_set(COUNTED, DFB_APID_V_B1, samples, 6));
    REFUSED_64(1u, dfb_counted_command(COUNTED, 0x37, 0));
    expected_counts[0] = 2;
    WRITES("02430001" "0243FFFF" "02438000", dfb_counted_set(COUNTED, DFB_APID_E_SVY, samples, 3));
    expected_registers[0] = 0x0020;
    WRITES("01300020", dfb_counted_command(COUNTED, 0x30, 0x0020));

    /* room for all records of a call, and for one byte less */
    while (used < 120 - 12)
        WRITES("04", dfb_counted_tick(COUNTED));
    counted_len = 119;
    REFUSED_64(2u, dfb_counted_set(COUNTED, DFB_APID_SCM_B1, samples, 3));
    counted_len = 120;
    expected_counts[5] = 1;
    WRITES("02480001" "0248FFFF" "02488000", dfb_counted_set(COUNTED, DFB_APID_SCM_B1, samples, 3));
    REFUSED_64(2u, dfb_counted_tick(COUNTED));
}

/* Every APID with every number of samples; the place of its count. */
static void test_counted_sets(void)
{
    static const uint8_t apids[DFB_COUNTS] = {0x43, 0x44, 0x45, 0x46, 0x47, 0x48, 0x4E};
    begin_log(200);
    int16_t *samples = (int16_t *)make_list(8 * sizeof *samples);
    for (unsigned apid = 0; apid < 256; apid++) {
        size_t place = 0, words = dfb_set_words((uint8_t)apid);
        while (place < DFB_COUNTS && apids[place] != apid)
            place++;
        CHECK(dfb_count_place((uint8_t)apid) == place);
        for (size_t n = 0; n <= 8; n++) {
            if (words == 0) {
                REFUSED_64(4u, dfb_counted_set(COUNTED, (uint8_t)apid, samples + 8 - n, n));
            } else if (n != words) {
                REFUSED_64(5u, dfb_counted_set(COUNTED, (uint8_t)apid, samples + 8 - n, n));
            } else {
                uint8_t records[4 * DFB_MOST_WORDS];
                for (size_t i = 0; i < n; i++) {
                    uint16_t bits = (uint16_t)samples[8 - n + i];
                    records[4 * i] = DFB_KIND_WORD;
                    records[4 * i + 1] = (uint8_t)apid;
                    records[4 * i + 2] = (uint8_t)(bits >> 8);
                    records[4 * i + 3] = (uint8_t)(bits & 0xFFu);
                }
                expected_counts[place]++;
                remember();
                uint64_t answer = dfb_counted_set(COUNTED, (uint8_t)apid, samples + 8 - n, n);
                check_written(__LINE__, records, 4 * n, answer, "a set");
            }
        }
    }
    REFUSED_64(5u, dfb_counted_set(COUNTED, 0x43, NULL, 0));
    REFUSED_64(4u, dfb_counted_set(COUNTED, DFB_APID_SPEC, NULL, 0));
}

/* Reports of every size; one word and one byte less and more; a word under another APID; a code that is not legal. */
static void test_counted_reports(void)
{
    static uint8_t records[4 * 392];
    for (unsigned setting = 0; setting < 3; setting++)
        for (unsigned enabled = 1; enabled <= 7; enabled++) {
            size_t words = enabled * dfb_band_count((uint8_t)setting) / 2, bytes = 3 * words;
            begin_log(4 * 8 + 4 * words + 3);
            uint8_t *report = (uint8_t *)zero_list(bytes + 3), *start = report + 3;
            for (size_t i = 0; i < words; i++) {
                start[3 * i] = DFB_APID_SPEC;
                start[3 * i + 1] = dfb_compress_band((uint32_t)i * 2654435761u);
                start[3 * i + 2] = dfb_compress_band((uint32_t)i * 40503u);
                records[4 * i] = DFB_KIND_WORD;
                memcpy(records + 4 * i + 1, start + 3 * i, 3);
            }
            report[0] = DFB_APID_SPEC;
            REFUSED_64(6u, dfb_counted_report(COUNTED, start, bytes));
            REFUSED_64(6u, dfb_counted_report(COUNTED, NULL, 0));
            memset(expected_registers, 0, sizeof expected_registers);
            for (unsigned n = 0; n < enabled; n++) {
                expected_registers[6 - n] = 0x20;
                CHECK(dfb_counted_command(COUNTED, (uint8_t)(0x36 - n), 0x20) == used + 4);
                used += 4;
            }
            expected_registers[0] = (uint16_t)(setting << 6 | (enabled == 7 ? 0x20u : 0u));
            CHECK(dfb_counted_command(COUNTED, 0x30, expected_registers[0]) == used + 4);
            used += 4;
            CHECK(memcmp(expected_registers, registers, sizeof expected_registers) == 0);
            REFUSED_64(5u, dfb_counted_report(COUNTED, start + 3, bytes - 3));
            REFUSED_64(5u, dfb_counted_report(COUNTED, start, bytes - 1));
            REFUSED_64(5u, dfb_counted_report(COUNTED, report, bytes + 3));
            REFUSED_64(5u, dfb_counted_report(COUNTED, NULL, 0));
            const size_t places[] = {0, 1, 2, bytes / 2, bytes - 3, bytes - 2, bytes - 1};
            for (size_t i = 0; i < sizeof places / sizeof *places; i++) {
                size_t at = places[i];
                unsigned refusal = at % 3 == 0 ? 5 : 7;
                uint8_t byte = start[at];
                start[at] = at % 3 == 0 ? 0x4D : 0x08;
                REFUSED_64(refusal, dfb_counted_report(COUNTED, start, bytes));
                counted_len = used + 4 * words - 1; /* before 2 */
                REFUSED_64(refusal, dfb_counted_report(COUNTED, start, bytes));
                start[bytes - 3] = 0x43; /* 5 before 7, whichever word comes first */
                REFUSED_64(5u, dfb_counted_report(COUNTED, start, bytes));
                start[bytes - 3] = DFB_APID_SPEC;
                start[at] = byte;
                REFUSED_64(2u, dfb_counted_report(COUNTED, start, bytes));
                counted_len = lists[0].bytes;
            }
            expected_counts[6] = 1;
            remember();
            uint64_t answer = dfb_counted_report(COUNTED, start, bytes);
            check_written(__LINE__, records, 4 * words, answer, "a report");
        }
}

/* Calls of each kind, all refused by a number; a report of one processor at 36 bands. */
static void refuses_all(unsigned refusal, const uint8_t *report, size_t counts_len, size_t registers_len)
{
    static const int16_t samples[3] = {0};
    REFUSED_64(refusal, dfb_counted_command(counted_log, counted_len, used, counts, counts_len, registers, registers_len, 0x30, 0x0020));
    REFUSED_64(refusal, dfb_counted_mark(counted_log, counted_len, used, counts, counts_len, registers, registers_len, 0));
    REFUSED_64(refusal, dfb_counted_tick(counted_log, counted_len, used, counts, counts_len, registers, registers_len));
    REFUSED_64(refusal, dfb_counted_set(counted_log, counted_len, used, counts, counts_len, registers, registers_len, 0x43, samples, 3));
    REFUSED_64(refusal, dfb_counted_report(counted_log, counted_len, used, counts, counts_len, registers, registers_len, report, 54));
}

static void test_counted_refused(void)
{
    static const int16_t samples[3] = {0};
    begin_log(100);
    uint64_t *own_counts = counts, *long_counts = (uint64_t *)zero_list(8 * sizeof *counts);
    uint16_t *own_registers = registers, *long_registers = (uint16_t *)zero_list(8 * sizeof *registers);
    uint8_t *report = (uint8_t *)zero_list(54);
    memset(report, DFB_APID_SPEC, 54); /* 0x4E is a legal code too */
    registers[0] = 0x0020;
    used = 20;

    /* 2 for lists that are not 7 long, before 3 */
    for (unsigned fault = 0; fault < 2; fault++) {
        counts = long_counts, registers = long_registers;
        counts[0] = fault == 0 ? 0 : 21;
        refuses_all(2, report, 8, 7);
        refuses_all(2, report, 6, 7);
        refuses_all(2, report, 0, 7);
        refuses_all(2, report, 7, 8);
        refuses_all(2, report, 7, 6);
        refuses_all(2, report, 7, 0);
        counts = own_counts, registers = own_registers;
    }
    REFUSED_64(2u, dfb_counted_tick(counted_log, 100, 0, NULL, 0, registers, 7));
    REFUSED_64(2u, dfb_counted_tick(counted_log, 100, 0, counts, 7, NULL, 0));

    /* 3 for each register and each count, before 1, 4, 5, 6, 7 and 2 */
    for (unsigned n = 0; n < 2 * 7; n++) {
        if (n < 7)
            registers[n] = n == 0 ? 0x00E0 : 0x0040;
        else
            counts[n - 7] = n % 2 == 0 ? 21 : UINT64_MAX;
        refuses_all(3, report, 7, 7);
        REFUSED_64(3u, dfb_counted_command(COUNTED, 0x37, 0));
        REFUSED_64(3u, dfb_counted_set(COUNTED, 0x42, samples, 3));
        REFUSED_64(3u, dfb_counted_set(COUNTED, 0x43, samples, 2));
        REFUSED_64(3u, dfb_counted_report(COUNTED, report, 53));
        report[1] = 0x08;
        REFUSED_64(3u, dfb_counted_report(COUNTED, report, 54));
        report[1] = 0x4E;
        counted_len = 20;
        refuses_all(3, report, 7, 7);
        counted_len = 100;
        if (n < 7)
            registers[n] = n == 0 ? 0x0020 : 0;
        else
            counts[n - 7] = 20; /* equal to used is taken */
    }

    /* 2: no room, used at the end, past it, and the greatest number */
    for (size_t i = 0; i < 4; i++) {
        counted_len = 20;
        used = i == 3 ? SIZE_MAX : 20 + i;
        refuses_all(2, report, 7, 7);
        REFUSED_64(1u, dfb_counted_command(COUNTED, 0x2F, 0)); /* 1, 4, 5, 6 and 7 before it */
        REFUSED_64(4u, dfb_counted_set(COUNTED, DFB_APID_SPEC, samples, 2));
        REFUSED_64(5u, dfb_counted_set(COUNTED, 0x43, samples, 2));
        REFUSED_64(5u, dfb_counted_report(COUNTED, report, 51));
        report[53] = 0x08;
        REFUSED_64(7u, dfb_counted_report(COUNTED, report, 54));
        report[53] = 0x4E;
        registers[0] = 0;
        REFUSED_64(6u, dfb_counted_report(COUNTED, report, 51));
        registers[0] = 0x0020;
    }
    REFUSED_64(2u, dfb_counted_tick(NULL, 0, 20, counts, 7, registers, 7));
    REFUSED_64(3u, dfb_counted_tick(NULL, 0, 0, counts, 7, registers, 7)); /* the counts are 20 */
}

/* The counts of a log of hexadecimal digits, which ends where its memory ends. */
static uint64_t count_list(const char *digits, size_t counts_len, size_t registers_len)
{
    size_t length = strlen(digits) / 2;
    uint8_t *start = command_list + 64 - length;
    put_digits(start, digits);
    return dfb_count_sets(start, length, counts, counts_len, registers, registers_len);
}

/* A log that is accepted: its counts and final registers, in lists of 7 and of more, which keep their rest. */
static void counts_as(const char *digits, const uint64_t sets[DFB_COUNTS], const uint16_t stored[DFB_REGISTERS])
{
    for (size_t length = 7; length <= 9; length++) {
        memset(counts, 0xA5, 9 * sizeof *counts);
        memset(registers, 0xA5, 9 * sizeof *registers);
        CHECK(count_list(digits, length, 16 - length) == 0);
        CHECK(memcmp(counts, sets, 7 * sizeof *counts) == 0 && memcmp(registers, stored, 7 * sizeof *registers) == 0);
        CHECK(counts[7] == 0xA5A5A5A5A5A5A5A5u && counts[8] == counts[7] && registers[7] == 0xA5A5 && registers[8] == 0xA5A5);
    }
    for (size_t length = 0; length < 7; length++) {
        REFUSED_AT(2u, 0u, count_list(digits, length, 9));
        REFUSED_AT(2u, 0u, count_list(digits, 9, length));
    }
}

/* A log that is refused, before any length of a list is looked at. */
static void is_not_counted(unsigned refusal, unsigned offset, const char *digits)
{
    for (size_t length = 0; length <= 9; length++) {
        count_list(digits, length, 9 - length); /* writes the log, so that the next call changes nothing by itself */
        REFUSED_AT(refusal, offset, count_list(digits, length, 9 - length));
    }
    REFUSED_AT(refusal, offset, count_list(digits, 7, 7));
    REFUSED_AT(refusal, offset, count_list(digits, 9, 9));
}

static void test_count_sets(void)
{
    static const uint64_t none[7] = {0}, first[7] = {1}, two[7] = {1, 0, 1};
    static const uint16_t reset[7] = {0}, on[7] = {0x0020}, all[7] = {0x6363, 0x0032, 0, 0, 0, 0, 0x0016};
    command_list = (uint8_t *)zero_list(64);
    counts = (uint64_t *)make_list(9 * sizeof *counts);
    registers = (uint16_t *)make_list(9 * sizeof *registers);
    counts_as("", none, reset);
    counts_as("04" "0300000000" "04", none, reset);
    counts_as("0130FFFF" "0131FFFF" "01360016", none, all);
    counts_as("02430001" "0243FFFF" "02438000", first, reset);
    counts_as("02450001" "0245FFFF" "02458000" "01300020" "02430001" "0243FFFF" "02438000" "04", two, on);

    is_not_counted(9, 0, "00");
    is_not_counted(9, 4, "01300020" "05");
    is_not_counted(10, 1, "04" "013000");
    is_not_counted(10, 5, "04" "02430001" "024300");
    is_not_counted(1, 4, "01300020" "01370000");
    is_not_counted(4, 1, "04" "02420000");
    is_not_counted(5, 8, "02430001" "02430001" "04");
    is_not_counted(5, 4, "02430001" "01370000");
    is_not_counted(5, 8, "01300020" "024E0C0C" "02430001");
    is_not_counted(6, 0, "024E0808");
    is_not_counted(7, 4, "01300020" "024E0008");
    is_not_counted(7, 8, "01300020" "024E0C0C" "024E0800");
    /* at the end, the log's length */
    is_not_counted(5, 8, "02430001" "02430001");
    is_not_counted(5, 13, "04" "01300020" "02430001" "02430001");
    is_not_counted(5, 8, "01300020" "024E0C0C");

    /* No log has 2^55 bytes: see test_check_commands. */
    command_list[0] = 0;
    REFUSED_AT(2u, 0u, dfb_count_sets(command_list, (size_t)1 << 55, counts, 9, registers, 9));
    REFUSED_AT(2u, 0u, dfb_count_sets(command_list, SIZE_MAX, counts, 7, registers, 7));
    REFUSED_AT(2u, 0u, dfb_count_sets(command_list, (size_t)1 << 55, NULL, 0, NULL, 0));
    REFUSED_AT(2u, 0u, dfb_count_sets(NULL, 0, NULL, 0, NULL, 0));
    REFUSED_AT(9u, 0u, dfb_count_sets(command_list, 64, NULL, 0, NULL, 0));
    CHECK(dfb_count_sets(NULL, 0, counts, 7, registers, 7) == 0);
}

/* A log, counts and an offset of more than 2^16. */
static void test_long_counted_log(void)
{
    enum { SETS = 100000 };
    static const int16_t samples[3] = {-1, 0, 1};
    begin_log(12 * SETS + 1);
    for (size_t i = 0; i < SETS; i++)
        used = (size_t)dfb_counted_set(COUNTED, 0x46, samples, 3);
    CHECK(used == 12 * SETS && counts[3] == SETS && walk_agrees());
    CHECK(dfb_counted_tick(COUNTED) == 12 * SETS + 1);
    counted_log[12 * SETS] = 5;
    REFUSED_AT(9u, 12u * SETS, dfb_count_sets(counted_log, 12 * SETS + 1, counts, 7, registers, 7));
    REFUSED_AT(5u, 12u * SETS - 4u, dfb_count_sets(counted_log, 12 * SETS - 4, counts, 7, registers, 7));
}

/* ---- bands and codes ---- */

static void test_bands(void)
{
    ACCEPTED_16(4u, dfb_band_of(0, 4));
    ACCEPTED_16(32u, dfb_band_of(0, 512));
    for (unsigned setting = 0; setting < 256; setting++) {
        size_t count = dfb_band_count((uint8_t)setting);
        if (count == 0)
            REFUSED_16(12u, dfb_band_of((uint8_t)setting, 0));
        else
            ACCEPTED_16(count - 1, dfb_band_of((uint8_t)setting, 1023));
        REFUSED_16(12u, dfb_band_of((uint8_t)setting, 1024));
        REFUSED_16(12u, dfb_band_of((uint8_t)setting, 0xFFFF));
    }

    float *three = (float *)make_list(5 * sizeof *three);
    ACCEPTED_32(0u, three, 3 * sizeof *three, dfb_describe_band(2, 111, three, 5));
    CHECK(three[0] == 7936.0f && three[1] == 8064.0f && three[2] == 256.0f);
    ACCEPTED_32(0u, three, 3 * sizeof *three, dfb_describe_band(0, 0, three, 3));
    CHECK(three[0] == 0.0f && three[1] == 4.0f && three[2] == 8.0f);
    for (unsigned setting = 0; setting < 3; setting++) {
        uint8_t count = (uint8_t)dfb_band_count((uint8_t)setting);
        REFUSED_32(12u, dfb_describe_band((uint8_t)setting, count, three, 2));
        REFUSED_32(2u, dfb_describe_band((uint8_t)setting, (uint8_t)(count - 1), three, 2));
    }
    REFUSED_32(12u, dfb_describe_band(3, 0, three, 5));
    REFUSED_32(2u, dfb_describe_band(0, 0, NULL, 0));
}

static void test_cadence(void)
{
    static const float values[11] = {8, 4, 2, 1, 2, 4, 8, 16, 32, 64, 128};
    float *value = (float *)make_list(3 * sizeof *value);
    for (unsigned choice = 0; choice < 256; choice++) {
        if (choice > 10) {
            REFUSED_32(12u, dfb_cadence_of((uint8_t)choice, value, 3));
            REFUSED_32(12u, dfb_cadence_of((uint8_t)choice, NULL, 0));
            continue;
        }
        ACCEPTED_32(choice <= 3 ? DFB_RATE : DFB_PERIOD, value, sizeof *value, dfb_cadence_of((uint8_t)choice, value, 3));
        CHECK(value[0] == values[choice]);
        REFUSED_32(2u, dfb_cadence_of((uint8_t)choice, value, 0));
        REFUSED_32(2u, dfb_cadence_of((uint8_t)choice, NULL, 0));
    }
}

static void test_codes(void)
{
    CHECK(dfb_compress_band(7) == 0x07 && dfb_compress_band(8) == 0x0C && dfb_compress_band(9) == 0x0D);
    CHECK(dfb_compress_band(15) == 0x14 && dfb_compress_band(4294967295u) == 0xF4);
    ACCEPTED_64(14u, NULL, 0, dfb_expand_band(0x0F));
    ACCEPTED_64(3758096384u, NULL, 0, dfb_expand_band(0xEF));
    ACCEPTED_64(4294967296u, NULL, 0, dfb_expand_band(0xF4));
    REFUSED_64(7u, dfb_expand_band(0x08));
    REFUSED_64(7u, dfb_expand_band(0xF3));
    REFUSED_64(7u, dfb_expand_band(0xF5));
    REFUSED_64(7u, dfb_expand_band(0xF6));
    REFUSED_64(7u, dfb_expand_band(0xF7));
    REFUSED_64(7u, dfb_expand_band(0xF8));
    REFUSED_64(7u, dfb_expand_band(0xFF));

    CHECK(dfb_compress_sum(1023) == 0x03FF && dfb_compress_sum(1024) == 0x0600 && dfb_compress_sum(UINT64_MAX) == 0xDBFF);
    uint64_t *value = (uint64_t *)make_list(2 * sizeof *value);
    ACCEPTED_32(0u, value, sizeof *value, dfb_expand_sum(0xFC01, value, 2));
    CHECK(value[0] == (uint64_t)1 << 63);
    ACCEPTED_32(0u, value, sizeof *value, dfb_expand_sum(0xFC00, value, 1));
    CHECK(value[0] == 0);
    REFUSED_32(8u, dfb_expand_sum(0xFC02, value, 2));
    REFUSED_32(8u, dfb_expand_sum(0xFC02, NULL, 0));
    REFUSED_32(2u, dfb_expand_sum(0x0600, value, 0));
    REFUSED_32(2u, dfb_expand_sum(0x0600, NULL, 0));
}

/* ---- coarse totals ---- */

/* A fine band belongs to the band of its bins, by dfb_band_of. */
static void test_coarse_totals(void)
{
    uint64_t *fine = (uint64_t *)zero_list(DFB_FINE_TOTALS * sizeof *fine), *coarse = (uint64_t *)make_list(67 * sizeof *coarse);
    uint64_t *longer = (uint64_t *)make_list((DFB_FINE_TOTALS + 1) * sizeof *longer);
    CHECK(DFB_FINE_TOTALS == 112 && DFB_MOST_TOTAL == (uint64_t)1 << 49);
    for (uint8_t setting = 0; setting < 2; setting++) {
        size_t count = dfb_band_count(setting);
        /* each fine band by itself, in an output with room to spare: its total is that of one band */
        for (uint16_t bin = 0; bin < 1024; bin++) {
            size_t band = dfb_band_of(setting, bin), fine_band = dfb_band_of(2, bin);
            fine[fine_band] = 1000u + bin;
            ACCEPTED_32(count, coarse, count * sizeof *coarse, dfb_coarse_totals(setting, fine, DFB_FINE_TOTALS, coarse, 67));
            for (size_t b = 0; b < count; b++)
                CHECK(coarse[b] == (b == band ? 1000u + bin : 0u));
            fine[fine_band] = 0;
        }
        /* the totals of one spectrum */
        uint64_t expected[64] = {0};
        for (uint16_t bin = 0; bin < 1024; bin++) {
            fine[dfb_band_of(2, bin)] += 4294967295u - 3u * bin;
            expected[dfb_band_of(setting, bin)] += 4294967295u - 3u * bin;
        }
        ACCEPTED_32(count, coarse, count * sizeof *coarse, dfb_coarse_totals(setting, fine, DFB_FINE_TOTALS, coarse, count));
        CHECK(memcmp(coarse, expected, count * sizeof *coarse) == 0);

        /* 2^49 in every place is taken, and one more is not */
        for (size_t i = 0; i < DFB_FINE_TOTALS; i++)
            fine[i] = DFB_MOST_TOTAL;
        ACCEPTED_32(count, coarse, count * sizeof *coarse, dfb_coarse_totals(setting, fine, DFB_FINE_TOTALS, coarse, 67));
        CHECK(coarse[0] == DFB_MOST_TOTAL && coarse[count - 1] == (setting == 0 ? 4u : 2u) * DFB_MOST_TOTAL);
        memset(coarse, 0xA5, 67 * sizeof *coarse);
        for (size_t i = 0; i < DFB_FINE_TOTALS; i++) {
            fine[i] = i % 2 == 0 ? DFB_MOST_TOTAL + 1 : UINT64_MAX;
            REFUSED_32(24u, dfb_coarse_totals(setting, fine, DFB_FINE_TOTALS, coarse, 67));
            REFUSED_32(24u, dfb_coarse_totals(setting, fine, DFB_FINE_TOTALS, coarse, count));
            /* 2 before 24 */
            REFUSED_32(2u, dfb_coarse_totals(setting, fine, DFB_FINE_TOTALS, coarse, count - 1));
            REFUSED_32(2u, dfb_coarse_totals(setting, fine, DFB_FINE_TOTALS - 1, coarse, 67));
            fine[i] = DFB_MOST_TOTAL;
        }
        REFUSED_32(2u, dfb_coarse_totals(setting, fine, DFB_FINE_TOTALS, coarse, count - 1));
        REFUSED_32(2u, dfb_coarse_totals(setting, longer, DFB_FINE_TOTALS + 1, coarse, count));
        REFUSED_32(2u, dfb_coarse_totals(setting, fine, DFB_FINE_TOTALS - 1, coarse, count));
        REFUSED_32(2u, dfb_coarse_totals(setting, NULL, 0, coarse, 67));
        REFUSED_32(2u, dfb_coarse_totals(setting, fine, DFB_FINE_TOTALS, NULL, 0));
        memset(fine, 0, DFB_FINE_TOTALS * sizeof *fine);
    }
    /* 12 before 2 and 24 */
    for (unsigned setting = 2; setting < 256; setting++) {
        REFUSED_32(12u, dfb_coarse_totals((uint8_t)setting, fine, DFB_FINE_TOTALS, coarse, 67));
        fine[5] = UINT64_MAX;
        REFUSED_32(12u, dfb_coarse_totals((uint8_t)setting, fine, DFB_FINE_TOTALS, coarse, 67));
        REFUSED_32(12u, dfb_coarse_totals((uint8_t)setting, NULL, 0, NULL, 0));
        fine[5] = 0;
    }
}

/* ---- bursts ---- */

static void test_bursts(void)
{
    uint8_t *status = (uint8_t *)zero_list(33);
    uint32_t *criteria = (uint32_t *)zero_list(33 * sizeof *criteria);
    REFUSED_32(26u, dfb_burst_choose(status, 2, criteria, 2));
    REFUSED_32(28u, dfb_burst_finish(status, 2, criteria, 2));

    /* slot, and slots looked at: the first free one; then the smallest that is smaller than the offer */
    static const unsigned offers[4][3] = {{5, 0, 1}, {9, 1, 2}, {7, 0, 2}, {10, 0, 2}};
    for (unsigned i = 0; i < 4; i++) {
        uint32_t answer = dfb_burst_offer(status, 2, criteria, 2, offers[i][0]);
        CHECK(dfb_refusal_u32(answer) == 0);
        CHECK(dfb_offer_slot(answer) == offers[i][1] && dfb_offer_looked(answer) == offers[i][2]);
    }
    CHECK(status[0] == DFB_SLOT_HELD && status[1] == DFB_SLOT_HELD && criteria[0] == 10 && criteria[1] == 9);
    remember();
    uint32_t answer = dfb_burst_offer(status, 2, criteria, 2, 9);
    CHECK(dfb_refusal_u32(answer) == DFB_REFUSAL_TURNED_AWAY && dfb_offer_looked(answer) == 2);
    CHECK(is_unchanged_but(NULL, 0));

    CHECK(dfb_burst_choose(status, 2, criteria, 2) == 0);
    CHECK(status[0] == DFB_SLOT_SENDING && criteria[0] == 0 && criteria[1] == 9);
    REFUSED_32(27u, dfb_burst_choose(status, 2, criteria, 2));
    CHECK(dfb_burst_finish(status, 2, criteria, 2) == 0);
    CHECK(status[0] == DFB_SLOT_FREE && status[1] == DFB_SLOT_HELD && status[2] == DFB_SLOT_FREE);
    REFUSED_32(28u, dfb_burst_finish(status, 2, criteria, 2));

    /* the last of 32 slots, and every slot looked at */
    memset(status, DFB_SLOT_HELD, 33);
    status[31] = DFB_SLOT_FREE;
    answer = dfb_burst_offer(status, 32, criteria, 32, 4);
    CHECK(dfb_refusal_u32(answer) == 0 && dfb_offer_slot(answer) == 31 && dfb_offer_looked(answer) == 32);

    /* 2, then 3: more than 32 slots, a status over 2, two sending; before 25, 26, 27, 28 */
    for (unsigned fault = 0; fault < 3; fault++) {
        size_t count = fault == 0 ? 33 : 2;
        status[0] = fault == 1 ? 3 : fault == 2 ? DFB_SLOT_SENDING : DFB_SLOT_FREE;
        status[1] = fault == 2 ? DFB_SLOT_SENDING : DFB_SLOT_FREE;
        REFUSED_32(3u, dfb_burst_offer(status, count, criteria, count, 1));
        REFUSED_32(3u, dfb_burst_choose(status, count, criteria, count));
        REFUSED_32(3u, dfb_burst_finish(status, count, criteria, count));
        REFUSED_32(2u, dfb_burst_offer(status, count, criteria, count - 1, 1));
        REFUSED_32(2u, dfb_burst_choose(status, count - 1, criteria, count));
        REFUSED_32(2u, dfb_burst_finish(status, count, criteria, count - 1));
    }

    /* no slot at all */
    answer = dfb_burst_offer(NULL, 0, NULL, 0, 1);
    CHECK(dfb_refusal_u32(answer) == DFB_REFUSAL_TURNED_AWAY && dfb_offer_looked(answer) == 0);
    REFUSED_32(26u, dfb_burst_choose(NULL, 0, NULL, 0));
    REFUSED_32(28u, dfb_burst_finish(NULL, 0, NULL, 0));
    REFUSED_32(2u, dfb_burst_choose(NULL, 0, criteria, 1));
}

static void test_interval(void)
{
    uint32_t *index = (uint32_t *)zero_list((DFB_MOST_BLOCKS + 1) * sizeof *index);
    REFUSED_64(2u, dfb_choose_interval(index, DFB_MOST_BLOCKS + 1, 0, 0));
    REFUSED_64(29u, dfb_choose_interval(index, DFB_MOST_BLOCKS, 0, 0));
    REFUSED_64(26u, dfb_choose_interval(index, DFB_MOST_BLOCKS, 0, 1));
    REFUSED_64(26u, dfb_choose_interval(NULL, 0, 0, 1));
    REFUSED_64(29u, dfb_choose_interval(NULL, 0, 0, 0));
    for (size_t i = 0; i < DFB_MOST_BLOCKS; i++)
        index[i] = 5;
    uint64_t answer = dfb_choose_interval(index, DFB_MOST_BLOCKS, 0, UINT32_MAX);
    CHECK(dfb_refusal_u64(answer) == 0 && dfb_interval_first(answer) == 0 && dfb_interval_last(answer) == 15999);
    index[DFB_MOST_BLOCKS - 1] = 6;
    answer = dfb_choose_interval(index, DFB_MOST_BLOCKS, 0, 1);
    CHECK(dfb_refusal(answer) == 0 && dfb_interval_first(answer) == 15999 && dfb_interval_last(answer) == 15999);
    index[1] = 1, index[2] = 5, index[3] = 9, index[4] = 9, index[5] = 2, index[6] = 1;
    answer = dfb_choose_interval(index + 1, 6, 4, 10);
    CHECK(dfb_refusal_u64(answer) == 0 && dfb_interval_first(answer) == 1 && dfb_interval_last(answer) == 3);
}

/* ---- snapshots ---- */

static uint8_t *packet;
static uint32_t *header;
static int16_t *waveform;
static size_t packet_len, header_len, waveform_len;

/* The lists of a call, of so many elements. */
static void make_snapshot(size_t bytes, size_t numbers, size_t count)
{
    drop_lists();
    packet_len = bytes, header_len = numbers, waveform_len = count;
    packet = (uint8_t *)make_list(bytes);
    header = (uint32_t *)make_list(numbers * sizeof *header);
    waveform = (int16_t *)make_list(count * sizeof *waveform);
}

static uint32_t read_snapshot(void)
{
    return dfb_snapshot_read(packet, packet_len, header, header_len, waveform, waveform_len);
}

static uint32_t write_snapshot(void)
{
    return dfb_snapshot_write(header, header_len, waveform, waveform_len, packet, packet_len);
}

/* Offset and bytes of each number of a header in a packet: the table of document 000. */
static const struct field {
    size_t offset, bytes;
} fields[DFB_SNAPSHOT_HEADER] = {{1, 2}, {3, 2}, {5, 2}, {8, 4}, {12, 1}, {13, 1}, {14, 2}, {16, 1}, {17, 1}, {18, 2}};

/* Puts so many samples, high byte first. */
static void put_samples(uint8_t *to, const int16_t *from, size_t count)
{
    for (size_t i = 0; i < count; i++) {
        uint16_t bits = (uint16_t)from[i];
        to[2 * i] = (uint8_t)(bits >> 8);
        to[2 * i + 1] = (uint8_t)(bits & 0xFFu);
    }
}

/* Puts a packet of 20 bytes and so many samples, all high byte first. */
static void put_packet(uint8_t *to, const uint32_t numbers[DFB_SNAPSHOT_HEADER], const int16_t *from, size_t count)
{
    to[0] = 33;
    to[7] = 8;
    for (size_t n = 0; n < DFB_SNAPSHOT_HEADER; n++)
        for (size_t i = 0; i < fields[n].bytes; i++)
            to[fields[n].offset + i] = (uint8_t)(numbers[n] >> 8 * (fields[n].bytes - 1 - i) & 0xFFu);
    put_samples(to + 20, from, count);
}

/* A packet is read as numbers and so many samples, with lists of exactly their length and with longer ones, which keep their rest; and written
 * from them the same way. With one element less each is refused. */
static void reads_and_writes(const uint8_t *bytes, const uint32_t numbers[DFB_SNAPSHOT_HEADER], const int16_t *expected, size_t count)
{
    enum { TEN = DFB_SNAPSHOT_HEADER * sizeof(uint32_t) };
    size_t length = 20 + 2 * count;
    for (size_t more = 0; more < 3; more++) {
        make_snapshot(length, DFB_SNAPSHOT_HEADER + more, count + more);
        memcpy(packet, bytes, length);
        remember();
        uint32_t answer = read_snapshot();
        CHECK(answer == count && dfb_refusal(answer) == 0 && dfb_refusal_u32(answer) == 0);
        CHECK(memcmp(packet, bytes, length) == 0);
        CHECK(memcmp(header, numbers, TEN) == 0 && memcmp(waveform, expected, 2 * count) == 0);
        CHECK(stays_behind(1, TEN) && stays_behind(2, 2 * count));

        make_snapshot(length + more, DFB_SNAPSHOT_HEADER, count);
        memcpy(header, numbers, TEN);
        memcpy(waveform, expected, 2 * count);
        ACCEPTED_32(length, packet, length, write_snapshot());
        CHECK(memcmp(packet, bytes, length) == 0);
    }
    make_snapshot(length, DFB_SNAPSHOT_HEADER - 1, count);
    memcpy(packet, bytes, length);
    REFUSED_32(2u, read_snapshot());
    if (count > 0) {
        make_snapshot(length, DFB_SNAPSHOT_HEADER, count - 1);
        memcpy(packet, bytes, length);
        REFUSED_32(2u, read_snapshot());
    }
    make_snapshot(length - 1, DFB_SNAPSHOT_HEADER, count);
    memcpy(header, numbers, TEN);
    memcpy(waveform, expected, 2 * count);
    REFUSED_32(2u, write_snapshot());
}

/* Packets, numbers and samples by hand. */
static void test_snapshots(void)
{
    static const uint32_t none[DFB_SNAPSHOT_HEADER] = {0x0102, 0x0304, 0x0506, 0x0708090A, 0x0B, 0x00, 3072, 0x0D, 0x0E, 3071};
    static const uint32_t least[DFB_SNAPSHOT_HEADER] = {0, 0, 0, 0, 0, 0, 1, 0, 0, 0};
    static const uint32_t most[DFB_SNAPSHOT_HEADER] = {65535, 65535, 65535, 4294967295u, 255, 0x80, 3072, 255, 255, 255};
    static const int16_t eight[8] = {1, -1, -32768, 32767, 256, -256, 0, 0x1234};
    uint8_t bytes[20 + 2 * 128];
    int16_t expected[128] = {0};
    CHECK(DFB_SNAPSHOT_HEADER == 10 && DFB_MOST_SNAPSHOT_SAMPLES == 1024 && DFB_MOST_SNAPSHOT_BYTES == 2068);
    CHECK(DFB_SNAPSHOT_SWITCHES_8 == 3 && DFB_SNAPSHOT_COMPONENT_MASK == 5 && DFB_SNAPSHOT_PACKET_NUMBER == 9);
    put_digits(bytes, "21" "0102" "0304" "0506" "08" "0708090A" "0B" "00" "0C00" "0D" "0E" "0BFF");
    reads_and_writes(bytes, none, expected, 0);
    put_digits(bytes, "21" "0000" "0000" "0000" "08" "00000000" "00" "00" "0001" "00" "00" "0000");
    reads_and_writes(bytes, least, expected, 0);
    put_digits(bytes, "21" "FFFF" "FFFF" "FFFF" "08" "FFFFFFFF" "FF" "80" "0C00" "FF" "FF" "00FF");
    for (size_t i = 0; i < 128; i++)
        expected[i] = eight[i % 8];
    for (size_t i = 0; i < 16; i++)
        put_digits(bytes + 20 + 16 * i, "0001" "FFFF" "8000" "7FFF" "0100" "FF00" "0000" "1234");
    reads_and_writes(bytes, most, expected, 128);
}

/* Every mask; the samples differ. */
static void test_snapshot_masks(void)
{
    static const uint8_t ones_of_four[16] = {0, 1, 1, 2, 1, 2, 2, 3, 1, 2, 2, 3, 2, 3, 3, 4};
    static uint8_t bytes[DFB_MOST_SNAPSHOT_BYTES];
    static int16_t expected[DFB_MOST_SNAPSHOT_SAMPLES];
    for (size_t i = 0; i < DFB_MOST_SNAPSHOT_SAMPLES; i++)
        expected[i] = (int16_t)((int)(i * 40503u % 65536u) - 32768);
    for (uint32_t mask = 0; mask < 256; mask++) {
        uint32_t numbers[DFB_SNAPSHOT_HEADER] = {mask, 65535 - mask, 257 * mask, 0x89ABCDEF, 3, mask, 3072 - mask, 255 - mask, mask, 2 * mask};
        size_t count = (size_t)128 * (size_t)(ones_of_four[mask >> 4] + ones_of_four[mask & 15]);
        CHECK(dfb_snapshot_samples((uint8_t)mask) == count && dfb_snapshot_bytes((uint8_t)mask) == 20 + 2 * count);
        put_packet(bytes, numbers, expected, count);
        reads_and_writes(bytes, numbers, expected, count);
        /* one sample and one byte less and more, for reader and writer */
        for (size_t other = count == 0 ? 1 : count - 1; other <= count + 1; other += 2) {
            make_snapshot(DFB_MOST_SNAPSHOT_BYTES, DFB_SNAPSHOT_HEADER, other);
            memcpy(header, numbers, sizeof numbers);
            REFUSED_32(16u, write_snapshot());
            make_snapshot(20 + 2 * count + other - count, DFB_SNAPSHOT_HEADER, DFB_MOST_SNAPSHOT_SAMPLES);
            memcpy(packet, bytes, 20);
            REFUSED_32(16u, read_snapshot());
        }
    }
}

#define GOOD_SAMPLES ((size_t)128)
#define GOOD_BYTES (20 + 2 * GOOD_SAMPLES)

/* Lists of so many elements, with as much as fits of a packet that is accepted, of one component, number 1 of 2. */
static void make_good_snapshot(size_t bytes, size_t numbers, size_t count)
{
    static const uint32_t good[DFB_SNAPSHOT_HEADER] = {1, 2, 3, 4, 5, 0x40, 2, 6, 7, 1};
    uint8_t whole[GOOD_BYTES] = {0};
    make_snapshot(bytes, numbers, count);
    put_packet(whole, good, waveform, count < GOOD_SAMPLES ? count : GOOD_SAMPLES);
    memcpy(packet, whole, bytes < sizeof whole ? bytes : sizeof whole);
    memcpy(header, good, numbers < DFB_SNAPSHOT_HEADER ? numbers * sizeof *header : sizeof good);
}

/* Each number of a header: its greatest value is taken, and one more is refused. */
static void test_snapshot_fields(void)
{
    static const uint32_t greatest[DFB_SNAPSHOT_HEADER] = {65535, 65535, 65535, 4294967295u, 255, 255, 65535, 255, 255, 65535};
    for (size_t n = 0; n < DFB_SNAPSHOT_HEADER; n++) {
        make_good_snapshot(GOOD_BYTES, DFB_SNAPSHOT_HEADER, GOOD_SAMPLES);
        uint32_t good = header[n];
        header[n] = greatest[n];
        if (n == DFB_SNAPSHOT_COMPONENT_MASK) { /* its samples are 1024 */
            REFUSED_32(16u, write_snapshot());
        } else if (n == DFB_SNAPSHOT_TOTAL_PACKETS || n == DFB_SNAPSHOT_PACKET_NUMBER) {
            REFUSED_32(15u, write_snapshot());
        } else {
            ACCEPTED_32(GOOD_BYTES, packet, GOOD_BYTES, write_snapshot());
            for (size_t i = 0; i < fields[n].bytes; i++)
                CHECK(packet[fields[n].offset + i] == 0xFF);
            header[n] = good;
            CHECK(read_snapshot() == GOOD_SAMPLES && header[n] == greatest[n]);
        }
        if (n == DFB_SNAPSHOT_SWITCHES_8)
            continue;
        const uint32_t over[3] = {greatest[n] + 1, greatest[n] + 1 + good, 4294967295u};
        for (size_t i = 0; i < 3; i++) {
            header[n] = over[i];
            REFUSED_32(2u, write_snapshot());
        }
    }
}

/* The total of packets and the packet number; the SID and the auxiliary length. */
static void test_snapshot_limits(void)
{
    static const uint32_t taken[][2] = {{1, 0}, {2, 0}, {2, 1}, {256, 255}, {3071, 3070}, {3072, 0}, {3072, 3071}};
    static const uint32_t refused[][2] = {{0, 0}, {0, 1}, {0, 65535}, {1, 1}, {1, 256}, {2, 2}, {2, 3}, {256, 256}, {3072, 3072}, {3072, 3073},
                                          {3073, 0}, {3073, 3072}, {3328, 0}, {65535, 65534}, {65535, 65535}};
    enum { TAKEN = sizeof taken / sizeof *taken, ALL = TAKEN + sizeof refused / sizeof *refused };
    for (size_t i = 0; i < ALL; i++) {
        const uint32_t *range = i < TAKEN ? taken[i] : refused[i - TAKEN];
        make_good_snapshot(GOOD_BYTES, DFB_SNAPSHOT_HEADER, GOOD_SAMPLES);
        header[DFB_SNAPSHOT_TOTAL_PACKETS] = range[0];
        header[DFB_SNAPSHOT_PACKET_NUMBER] = range[1];
        put_packet(packet, header, waveform, GOOD_SAMPLES);
        if (i < TAKEN) { /* and each call leaves the bytes and numbers that are there */
            ACCEPTED_32(GOOD_BYTES, NULL, 0, write_snapshot());
            ACCEPTED_32(GOOD_SAMPLES, NULL, 0, read_snapshot());
        } else {
            REFUSED_32(15u, write_snapshot());
            REFUSED_32(15u, read_snapshot());
        }
    }
    for (unsigned byte = 0; byte < 256; byte++)
        for (size_t offset = 0; offset <= 7; offset += 7) {
            make_good_snapshot(GOOD_BYTES, DFB_SNAPSHOT_HEADER, GOOD_SAMPLES);
            packet[offset] = (uint8_t)byte;
            if (byte == (offset == 0 ? 33 : 8))
                ACCEPTED_32(GOOD_SAMPLES, NULL, 0, read_snapshot());
            else
                REFUSED_32(14u, read_snapshot());
        }
}

/* Every choice of faults at once gives the refusal that is first in order. */
static void test_snapshot_read_refused(void)
{
    enum { SHORT = 1, SID = 2, AUXILIARY = 4, TOTAL = 8, NUMBER = 16, FEWER = 32, MORE = 64, NUMBERS = 128, SAMPLES = 256, ALL = 512 };
    for (unsigned made = 1; made < ALL; made++) {
        size_t length = made & SHORT ? 19 : made & FEWER ? GOOD_BYTES - 1 : made & MORE ? GOOD_BYTES + 1 : GOOD_BYTES;
        make_good_snapshot(length, made & NUMBERS ? 9 : 10, made & SAMPLES ? GOOD_SAMPLES - 1 : GOOD_SAMPLES);
        if (made & SID)
            packet[0] = 34;
        if (made & AUXILIARY)
            packet[7] = 0;
        if (made & TOTAL)
            packet[14] = 0x0C; /* 3074 */
        if (made & NUMBER)
            packet[18] = 0x0C; /* 3073 */
        unsigned refusal = made & SHORT ? 16 : made & (SID | AUXILIARY) ? 14 : made & (TOTAL | NUMBER) ? 15 : made & (FEWER | MORE) ? 16 : 2;
        REFUSED_32(refusal, read_snapshot());
    }
    for (size_t length = 0; length < GOOD_BYTES; length++) {
        make_good_snapshot(length, 10, GOOD_SAMPLES);
        REFUSED_32(16u, read_snapshot());
    }
    for (size_t length = 0; length < 10; length++) {
        make_good_snapshot(GOOD_BYTES, length, GOOD_SAMPLES);
        REFUSED_32(2u, read_snapshot());
    }
    for (size_t length = 0; length < GOOD_SAMPLES; length++) {
        make_good_snapshot(GOOD_BYTES, 10, length);
        REFUSED_32(2u, read_snapshot());
    }
    make_good_snapshot(GOOD_BYTES, 10, GOOD_SAMPLES);
    REFUSED_32(16u, dfb_snapshot_read(NULL, 0, header, 10, waveform, GOOD_SAMPLES));
    REFUSED_32(16u, dfb_snapshot_read(NULL, 0, NULL, 0, NULL, 0));
    REFUSED_32(2u, dfb_snapshot_read(packet, GOOD_BYTES, NULL, 0, waveform, GOOD_SAMPLES));
    REFUSED_32(2u, dfb_snapshot_read(packet, GOOD_BYTES, header, 10, NULL, 0));
    packet[13] = 0; /* no component */
    REFUSED_32(2u, dfb_snapshot_read(packet, 20, NULL, 0, NULL, 0));
    ACCEPTED_32(0u, header, 10 * sizeof *header, dfb_snapshot_read(packet, 20, header, 10, NULL, 0));
    CHECK(header[DFB_SNAPSHOT_COMPONENT_MASK] == 0);
}

static void test_snapshot_write_refused(void)
{
    enum { NINE = 1, ELEVEN = 2, WIDE = 4, TOTAL = 8, NUMBER = 16, FEWER = 32, MORE = 64, BYTES = 128, ALL = 256 };
    for (unsigned made = 1; made < ALL; made++) {
        size_t numbers = made & NINE ? 9 : made & ELEVEN ? 11 : 10;
        size_t count = made & FEWER ? GOOD_SAMPLES - 1 : made & MORE ? GOOD_SAMPLES + 1 : GOOD_SAMPLES;
        make_good_snapshot(made & BYTES ? GOOD_BYTES - 1 : GOOD_BYTES, numbers, count);
        if (made & WIDE)
            header[DFB_SNAPSHOT_ARTEFACTS] = 256;
        if (made & TOTAL)
            header[DFB_SNAPSHOT_TOTAL_PACKETS] = 3073;
        if (made & NUMBER && numbers > 9)
            header[DFB_SNAPSHOT_PACKET_NUMBER] = 3073;
        unsigned refusal = made & (NINE | ELEVEN | WIDE) ? 2 : made & (TOTAL | NUMBER) ? 15 : made & (FEWER | MORE) ? 16 : 2;
        REFUSED_32(refusal, write_snapshot());
    }
    for (size_t length = 0; length < GOOD_BYTES; length++) {
        make_good_snapshot(length, 10, GOOD_SAMPLES);
        REFUSED_32(2u, write_snapshot());
    }
    for (size_t length = 0; length < 13; length++)
        if (length != 10) {
            make_good_snapshot(GOOD_BYTES, length, GOOD_SAMPLES);
            REFUSED_32(2u, write_snapshot());
        }
    for (size_t length = 0; length < 2 * GOOD_SAMPLES + 1; length++)
        if (length != GOOD_SAMPLES) {
            make_good_snapshot(GOOD_BYTES, 10, length);
            REFUSED_32(16u, write_snapshot());
        }
    make_good_snapshot(GOOD_BYTES, 10, GOOD_SAMPLES);
    REFUSED_32(2u, dfb_snapshot_write(NULL, 0, waveform, GOOD_SAMPLES, packet, GOOD_BYTES));
    REFUSED_32(2u, dfb_snapshot_write(NULL, 0, NULL, 0, NULL, 0));
    REFUSED_32(16u, dfb_snapshot_write(header, 10, NULL, 0, packet, GOOD_BYTES));
    REFUSED_32(2u, dfb_snapshot_write(header, 10, waveform, GOOD_SAMPLES, NULL, 0));
    header[DFB_SNAPSHOT_COMPONENT_MASK] = 0;
    REFUSED_32(16u, dfb_snapshot_write(header, 10, waveform, 1, packet, GOOD_BYTES));
    REFUSED_32(2u, dfb_snapshot_write(header, 10, NULL, 0, NULL, 0));
    ACCEPTED_32(20u, packet, 20, dfb_snapshot_write(header, 10, NULL, 0, packet, GOOD_BYTES));
    CHECK(packet[13] == 0);
}

/* ---- summed spectra ---- */

static uint8_t *sum_state, *sum_codes;
static uint64_t *sums;
static int16_t *pairs;
static size_t sum_state_len, sums_len, pairs_len, sum_codes_len;

/* The lists of a call, of so many elements; state, totals and pairs are 0. */
static void make_sums(size_t numbers, size_t count, size_t parts, size_t bytes)
{
    drop_lists();
    sum_state_len = numbers, sums_len = count, pairs_len = parts, sum_codes_len = bytes;
    sum_state = (uint8_t *)zero_list(numbers);
    sums = (uint64_t *)zero_list(count * sizeof *sums);
    pairs = (int16_t *)zero_list(parts * sizeof *pairs);
    sum_codes = (uint8_t *)make_list(bytes);
}

static void make_exact_sums(void)
{
    make_sums(DFB_SUM_STATE, DFB_SUM_TOTALS, DFB_SUM_PAIRS, DFB_SUM_OUTPUT);
}

static uint32_t sum(uint8_t component, uint8_t first, uint8_t second)
{
    return dfb_sum_component(sum_state, sum_state_len, sums, sums_len, component, first, second, pairs, pairs_len, sum_codes, sum_codes_len);
}

static void put_place(uint8_t next, uint8_t first, uint8_t second)
{
    sum_state[0] = next, sum_state[1] = first, sum_state[2] = second;
}

/* The pair of all bins. */
static void put_pair(int16_t re, int16_t im)
{
    for (size_t k = 0; k < DFB_SUM_BINS; k++)
        pairs[2 * k] = re, pairs[2 * k + 1] = im;
}

/* The masks that came with component 0, and the components so far as they were handed in. */
static uint8_t masks_handed[2];
static int16_t handed[DFB_SUM_COMPONENTS][DFB_SUM_PAIRS];

/* The exact sum of a run at a bin, over so many components. */
static uint64_t exact_sum(size_t run, size_t k, unsigned count)
{
    uint64_t total = 0;
    for (unsigned n = 0; n < count; n++)
        if (masks_handed[run] >> n & 1) {
            int64_t re = handed[n][2 * k], im = handed[n][2 * k + 1];
            total += (uint64_t)(re * re + im * im);
        }
    return total;
}

/* The sum code: the least exponent at which the value, rounded down, fits ten bits. */
static unsigned code_of(uint64_t value)
{
    unsigned exponent = 0;
    while (value >> exponent > 1023)
        exponent++;
    return exponent << 10 | (unsigned)(value >> exponent);
}

/* What a code stands for is at most the sum, equal to it under 1024, and otherwise short by less than 1/513 of it. */
static int is_within_bounds(unsigned code, uint64_t exact)
{
    uint64_t value = (uint64_t)(code & 1023u) << (code >> 10);
    return exact < 1024 ? value == exact : value <= exact && 513 * (exact - value) < exact;
}

static unsigned code_at(size_t place)
{
    return (unsigned)sum_codes[2 * place] << 8 | sum_codes[2 * place + 1];
}

/* The next component is accepted. State and totals are then those of the components handed in, and the output has their codes at the eighth
 * and is as it was before that. */
static void check_taken(int line, uint8_t component, uint8_t first, uint8_t second)
{
    unsigned count = component + 1u;
    int is_last = count == DFB_SUM_COMPONENTS, is_right = 1;
    memcpy(handed[component], pairs, sizeof handed[component]);
    if (component == 0)
        masks_handed[0] = first, masks_handed[1] = second;
    remember();
    uint32_t answer = sum(component, first, second);
    check(line, answer == (is_last ? 4096u : 0u), "the answer of a component");
    check(line, dfb_refusal(answer) == 0 && dfb_refusal_u32(answer) == 0, "a component is refused");
    check(line, sum_state[0] == (is_last ? 0 : count), "the next component");
    check(line, sum_state[1] == masks_handed[0] && sum_state[2] == masks_handed[1], "the masks in force");
    for (size_t place = 0; place < DFB_SUM_TOTALS; place++) {
        uint64_t exact = exact_sum(place / DFB_SUM_BINS, place % DFB_SUM_BINS, count);
        is_right &= sums[place] == (is_last ? 0 : exact);
        if (is_last)
            is_right &= code_at(place) == code_of(exact) && is_within_bounds(code_at(place), exact);
    }
    check(line, is_right, "the totals or the codes");
    size_t written = is_last ? DFB_SUM_OUTPUT : 0;
    check(line, memcmp(sum_codes + written, lists[3].before + written, sum_codes_len - written) == 0, "the rest of the output changes");
    check(line, memcmp(pairs, lists[2].before, sizeof handed[component]) == 0, "the pairs change");
}

#define TAKEN(component, first, second) check_taken(__LINE__, (uint8_t)(component), (uint8_t)(first), (uint8_t)(second))

/* Every code of a run. */
static int is_run_of(size_t run, unsigned code)
{
    for (size_t k = 0; k < DFB_SUM_BINS; k++)
        if (sum_codes[2048 * run + 2 * k] != code >> 8 || sum_codes[2048 * run + 2 * k + 1] != (code & 0xFFu))
            return 0;
    return 1;
}

/* Rounds by hand, one after the other: masks, eight pairs that stand in all bins, and the codes of both runs. */
static void test_sums(void)
{
    enum { LEAST = -32768, MOST = 32767 };
    static const struct {
        uint8_t first, second;
        int16_t parts[8][2];
        unsigned codes[2];
    } rounds[] = {
        /* 3*3 + 4*4 = 25 */
        {0x01, 0x03, {{3, 4}, {3, 4}, {3, 4}, {3, 4}, {3, 4}, {3, 4}, {3, 4}, {3, 4}}, {0x0019, 0x0032}},
        {0xFF, 0x00, {{-3, 4}, {3, -4}, {-3, -4}, {0, 5}, {0, -5}, {5, 0}, {-5, 0}, {4, 3}}, {0x00C8, 0x0000}},
        /* each component by itself: 1, 4, .. 64 */
        {0x01, 0xFE, {{1, 0}, {0, 2}, {3, 0}, {0, 4}, {5, 0}, {0, 6}, {7, 0}, {0, 8}}, {0x0001, 0x00CB}},
        {0x80, 0x7F, {{1, 0}, {0, 2}, {3, 0}, {0, 4}, {5, 0}, {0, 6}, {7, 0}, {0, 8}}, {0x0040, 0x008C}},
        {0x55, 0xAA, {{1, 0}, {0, 2}, {3, 0}, {0, 4}, {5, 0}, {0, 6}, {7, 0}, {0, 8}}, {0x0054, 0x0078}},
        /* 1010 + 13 = 1023 and 1024; those outside both masks hold anything */
        {0x03, 0x04, {{31, 7}, {3, 2}, {32, 0}, {LEAST, MOST}, {MOST, LEAST}, {LEAST, LEAST}, {-1, -1}, {MOST, MOST}}, {0x03FF, 0x0600}},
        /* 1025 is rounded down, 1026 = 513*2 */
        {0x01, 0x81, {{32, 1}, {9, 9}, {9, 9}, {9, 9}, {9, 9}, {9, 9}, {9, 9}, {0, -1}}, {0x0600, 0x0601}},
        /* 2046 and 2047; 2048 and 2050 */
        {0x03, 0x07, {{45, 4}, {2, -1}, {-1, 0}, {0, 0}, {0, 0}, {0, 0}, {0, 0}, {0, 0}}, {0x07FF, 0x07FF}},
        {0x10, 0x30, {{7, 7}, {7, 7}, {7, 7}, {7, 7}, {32, -32}, {1, 1}, {7, 7}, {7, 7}}, {0x0A00, 0x0A00}},
        /* 2^31 and 2^34; 3*2^31 and 7*2^31 */
        {0x10, 0xFF,
         {{LEAST, LEAST}, {LEAST, LEAST}, {LEAST, LEAST}, {LEAST, LEAST}, {LEAST, LEAST}, {LEAST, LEAST}, {LEAST, LEAST}, {LEAST, LEAST}},
         {0x5A00, 0x6600}},
        {0x29, 0xFE,
         {{LEAST, LEAST}, {LEAST, LEAST}, {LEAST, LEAST}, {LEAST, LEAST}, {LEAST, LEAST}, {LEAST, LEAST}, {LEAST, LEAST}, {LEAST, LEAST}},
         {0x5F00, 0x6380}},
        /* 2^31 - 131070, and 2^31 - 65535; 2^30, and 2^30 - 65535 */
        {0x01, 0x02, {{MOST, MOST}, {LEAST, MOST}, {1, 1}, {1, 1}, {1, 1}, {1, 1}, {1, 1}, {1, 1}}, {0x57FF, 0x57FF}},
        {0x04, 0x40, {{1, 1}, {1, 1}, {0, LEAST}, {1, 1}, {1, 1}, {1, 1}, {MOST, 0}, {1, 1}}, {0x5600, 0x53FF}},
        /* 256 has its high byte first */
        {0x08, 0x00, {{1, 1}, {1, 1}, {1, 1}, {-16, 0}, {1, 1}, {1, 1}, {1, 1}, {1, 1}}, {0x0100, 0x0000}},
        {0x00, 0x00, {{MOST, MOST}, {1, 1}, {1, 1}, {1, 1}, {1, 1}, {1, 1}, {1, 1}, {1, 1}}, {0x0000, 0x0000}},
    };
    CHECK(DFB_SUM_COMPONENTS == 8 && DFB_SUM_BINS == 1024 && DFB_SUM_STATE == 3 && DFB_SUM_TOTALS == 2048);
    CHECK(DFB_SUM_PAIRS == 2048 && DFB_SUM_OUTPUT == 4096 && DFB_REFUSAL_COMPONENT_OUT_OF_ORDER == 17);
    make_exact_sums();
    for (size_t i = 0; i < sizeof rounds / sizeof *rounds; i++) {
        for (unsigned n = 0; n < 8; n++) {
            put_pair(rounds[i].parts[n][0], rounds[i].parts[n][1]);
            TAKEN(n, n == 0 ? rounds[i].first : 0xFF, n == 0 ? rounds[i].second : n);
        }
        CHECK(is_run_of(0, rounds[i].codes[0]) && is_run_of(1, rounds[i].codes[1]));
        CHECK(sum_state[0] == 0 && sum_state[1] == rounds[i].first && sum_state[2] == rounds[i].second);
    }
}

/* Another pair in each bin: real part k in component 0, imaginary part -k in component 1. */
static void test_sum_bins(void)
{
    static const struct {
        size_t k;
        unsigned code;
    } squares[] = {{0, 0x0000}, {1, 0x0001}, {16, 0x0100}, {31, 0x03C1}, {32, 0x0600}, {33, 0x0620}, {64, 0x0E00}, {100, 0x1271},
                   {512, 0x2600}, {1000, 0x2BD0}, {1022, 0x2BFC}, {1023, 0x2BFE}};
    make_exact_sums();
    for (unsigned n = 0; n < 8; n++) {
        put_pair(n > 1 ? 77 : 0, n > 1 ? -77 : 0);
        for (size_t k = 0; n < 2 && k < DFB_SUM_BINS; k++)
            pairs[2 * k + n] = (int16_t)(n == 0 ? (int)k : -(int)k);
        TAKEN(n, 0x01, 0x02);
    }
    for (size_t i = 0; i < sizeof squares / sizeof *squares; i++)
        CHECK(code_at(squares[i].k) == squares[i].code && code_at(DFB_SUM_BINS + squares[i].k) == squares[i].code);
    /* one number of one bin, of each run */
    for (size_t place = 0; place < DFB_SUM_PAIRS; place += place == 1 ? 1021 : place == 1023 ? 1023 : 1)
        for (unsigned run = 0; run < 2; run++) {
            put_pair(0, 0);
            pairs[place] = -300; /* 90000 = 703 * 128 + 16 */
            for (unsigned n = 0; n < 8; n++)
                TAKEN(n, run == 0 ? 0x20 : 0, run == 1 ? 0x20 : 0);
            for (size_t i = 0; i < DFB_SUM_TOTALS; i++)
                CHECK(code_at(i) == (i == DFB_SUM_BINS * run + place / 2 ? 0x1EBFu : 0u));
        }
}

/* Every mask; the masks of later calls and those of a state at component 0 are not looked at, and stay after the eighth. */
static void test_sum_masks(void)
{
    make_exact_sums();
    for (unsigned mask = 0; mask < 256; mask++) {
        put_place(0, (uint8_t)(mask * 7), (uint8_t)(255 - mask * 3 % 256));
        for (unsigned n = 0; n < 8; n++) {
            put_pair((int16_t)(n * n + 1), (int16_t)(mask - 128 * n));
            TAKEN(n, n == 0 ? mask : mask + n, n == 0 ? 255 - mask : 0);
            if (n > 0)
                continue;
            REFUSED_32(17u, sum(0, 255, 255)); /* and the masks stay */
        }
        CHECK(sum_state[1] == mask && sum_state[2] == 255 - mask);
    }
}

/* Whole histories: pairs that differ everywhere, masks, and refused calls among the others. */
static void test_sum_histories(void)
{
    uint32_t seed = 1;
    make_sums(DFB_SUM_STATE, DFB_SUM_TOTALS, DFB_SUM_PAIRS, DFB_SUM_OUTPUT + 3);
    for (unsigned round = 0; round < 40; round++)
        for (unsigned n = 0; n < 8; n++) {
            for (size_t i = 0; i < DFB_SUM_PAIRS; i++) {
                seed = seed * 1664525u + 1013904223u;
                int part = (int)(seed >> 16) - 32768;
                pairs[i] = (int16_t)(round % 4 == 0 ? part : part / (1 << (3 * round % 16)));
            }
            uint8_t first = (uint8_t)(seed >> 8), second = (uint8_t)(seed >> 3), other = (uint8_t)(seed >> 20);
            if (other != n)
                REFUSED_32(17u, sum(other, first, second));
            if (seed >> 31)
                REFUSED_32(2u, dfb_sum_component(sum_state, 3, sums, 2048, (uint8_t)n, 1, 1, pairs, 2047, sum_codes, 4096));
            TAKEN(n, first, second);
            REFUSED_32(17u, sum((uint8_t)n, second, first));
            REFUSED_32(2u, dfb_sum_component(sum_state, 3, sums, 2048, (uint8_t)(n + 1), 1, 1, pairs, 2048, sum_codes, 4095));
        }
}

/* At every one of the eight calls: lists that are too short, too long, or not there; and a longer output, whose rest stays. */
static void test_sum_lengths(void)
{
    static const size_t lengths[][4] = {{0, 2048, 2048, 4096},    {1, 2048, 2048, 4096},   {2, 2048, 2048, 4096}, {4, 2048, 2048, 4096},
                                        {3, 0, 2048, 4096},       {3, 1024, 2048, 4096},   {3, 2047, 2048, 4096}, {3, 2049, 2048, 4096},
                                        {3, 4096, 2048, 4096},    {3, 2048, 0, 4096},      {3, 2048, 1024, 4096}, {3, 2048, 2047, 4096},
                                        {3, 2048, 2049, 4096},    {3, 2048, 4096, 4096},   {3, 2048, 2048, 0},    {3, 2048, 2048, 2048},
                                        {3, 2048, 2048, 4094},    {3, 2048, 2048, 4095}};
    for (uint8_t n = 0; n < 8; n++) {
        for (size_t i = 0; i < sizeof lengths / sizeof *lengths; i++) {
            make_sums(lengths[i][0], lengths[i][1], lengths[i][2], lengths[i][3]);
            memset(sum_state, n, sum_state_len);
            REFUSED_32(2u, sum(n, n, n));
        }
        make_exact_sums();
        put_place(n, 0xFF, 0x0F);
        REFUSED_32(2u, dfb_sum_component(NULL, 0, sums, 2048, n, 0xFF, 0x0F, pairs, 2048, sum_codes, 4096));
        REFUSED_32(2u, dfb_sum_component(sum_state, 3, NULL, 0, n, 0xFF, 0x0F, pairs, 2048, sum_codes, 4096));
        REFUSED_32(2u, dfb_sum_component(sum_state, 3, sums, 2048, n, 0xFF, 0x0F, NULL, 0, sum_codes, 4096));
        REFUSED_32(2u, dfb_sum_component(sum_state, 3, sums, 2048, n, 0xFF, 0x0F, pairs, 2048, NULL, 0));
        REFUSED_32(2u, dfb_sum_component(NULL, 0, NULL, 0, n, 0xFF, 0x0F, NULL, 0, NULL, 0));
    }
    static const size_t longer[] = {4097, 4098, 4100, 8192};
    for (size_t i = 0; i < sizeof longer / sizeof *longer; i++) {
        make_sums(DFB_SUM_STATE, DFB_SUM_TOTALS, DFB_SUM_PAIRS, longer[i]);
        for (unsigned n = 0; n < 16; n++) {
            put_pair((int16_t)(100 * n), -5);
            TAKEN(n % 8, 0x3C, 0xF7);
        }
    }
}

/* The number of a mask's components below one. */
static unsigned counted_below(unsigned mask, unsigned n)
{
    unsigned counted = 0;
    for (unsigned bit = 0; bit < n; bit++)
        counted += mask >> bit & 1u;
    return counted;
}

static void test_sum_unsound(void)
{
    static const size_t places[] = {0, 1, 1022, 1023, 1024, 1025, 2046, 2047};
    make_exact_sums();
    put_pair(1, 0);
    for (unsigned next = 8; next < 256; next++) {
        put_place((uint8_t)next, 0xFF, 0xFF);
        REFUSED_32(3u, sum((uint8_t)next, 0xFF, 0xFF));
        REFUSED_32(3u, sum(0, 0xFF, 0xFF));
        REFUSED_32(3u, sum((uint8_t)(next % 8), 0xFF, 0xFF));
    }
    /* at component 0 every total is 0, whatever the masks */
    for (size_t place = 0; place < DFB_SUM_TOTALS; place++) {
        put_place(0, (uint8_t)(place % 3 * 0x7F), (uint8_t)(0xFF >> place % 2));
        sums[place] = place % 5 == 0 ? (uint64_t)1 << (place % 64) : 1;
        REFUSED_32(3u, sum(0, 0xFF, 0xFF));
        sums[place] = 0;
    }
    /* after it, 2^31 for each component below the next that the run's own mask has */
    for (unsigned mask = 0; mask < 256; mask++)
        for (unsigned next = 1; next < 8; next++)
            for (unsigned run = 0; run < 2; run++) {
                unsigned own = run == 0 ? mask : 255 - mask;
                uint64_t most = (uint64_t)counted_below(own, next) << 31, half = (uint64_t)1 << 63;
                const uint64_t over[] = {most + 1, 2 * most + 1, half - 1, half, half + most, half + most + 1, UINT64_MAX};
                size_t place = DFB_SUM_BINS * run + places[(mask + next) % 8] % DFB_SUM_BINS;
                put_place((uint8_t)next, (uint8_t)mask, (uint8_t)(255 - mask));
                for (size_t i = 0; i < sizeof over / sizeof *over; i++) {
                    sums[place] = over[i];
                    REFUSED_32(3u, sum((uint8_t)next, 0xFF, 0xFF));
                }
                sums[place] = most;
                REFUSED_32(17u, sum((uint8_t)(next - 1), 0xFF, 0xFF)); /* sound, so the next refusal comes */
                uint32_t answer = sum((uint8_t)next, 0xFF, 0xFF);
                uint64_t total = most + (own >> next & 1u);
                if (next < 7)
                    CHECK(answer == 0 && sums[place] == total && sum_state[0] == next + 1);
                else
                    CHECK(answer == 4096 && sums[place] == 0 && code_at(place) == code_of(total) && sum_state[0] == 0);
                CHECK(sum_state[1] == mask && sum_state[2] == 255 - mask);
                memset(sums, 0, DFB_SUM_TOTALS * sizeof *sums);
            }
    /* all totals at the greatest limit: 7 * 2^31, and 2^34 after a last component of 2^31 */
    put_place(7, 0xFF, 0x7F);
    put_pair(-32768, -32768);
    for (size_t i = 0; i < DFB_SUM_TOTALS; i++)
        sums[i] = (uint64_t)7 << 31;
    CHECK(sum(7, 0, 0) == 4096 && is_run_of(0, 0x6600) && is_run_of(1, 0x6380));
}

/* At every place every other component. */
static void test_sum_order(void)
{
    make_exact_sums();
    for (unsigned n = 0; n < 8; n++) {
        for (unsigned component = 0; component < 256; component++)
            if (component != n)
                REFUSED_32(17u, sum((uint8_t)component, 0xFF, (uint8_t)component));
        put_pair(-32768, -32768);
        TAKEN(n, 0xF0, 0x3F);
        CHECK(sums[0] == (n == 7 ? 0 : (uint64_t)counted_below(0xF0, n + 1) << 31));
    }
    CHECK(is_run_of(0, 0x6200) && is_run_of(1, 0x6300)); /* 4 * 2^31 = 512 * 2^24, and 6 * 2^31 = 768 * 2^24 */
}

/* Every choice of faults at once gives the refusal that is first in order. */
static void test_sum_faults(void)
{
    enum { STATE = 1, COUNT = 2, PARTS = 4, BYTES = 8, NEXT = 16, FIRST = 32, SECOND = 64, COMPONENT = 128, ALL = 256 };
    for (unsigned made = 1; made < ALL; made++)
        for (unsigned turn = 0; turn < 4; turn++) {
            size_t more = turn % 2 ? 2 : 0; /* one element more, or one less */
            make_sums(made & STATE ? 2 + more : 3, made & COUNT ? 2047 + more : 2048, made & PARTS ? 2047 + more : 2048,
                      made & BYTES ? (turn % 2 ? 0 : 4095) : 4096);
            sum_state[0] = made & NEXT ? (turn < 2 ? 8 : 255) : 3;
            sum_state[1] = 0x05; /* 2 of the components so far */
            if (sum_state_len > 2)
                sum_state[2] = 0xF8; /* none of them */
            if (made & FIRST)
                sums[turn < 2 ? 0 : 1023] = ((uint64_t)1 << 32) + 1;
            if (made & SECOND)
                sums[turn < 2 ? 1024 : 2046] = 1;
            uint8_t component = made & COMPONENT ? (turn < 2 ? 2 : 11) : 3;
            unsigned refusal = made & (STATE | COUNT | PARTS | BYTES) ? 2 : made & (NEXT | FIRST | SECOND) ? 3 : 17;
            REFUSED_32(refusal, sum(component, 0xFF, 0xFF));
        }
}

/* ---- space packets ---- */

static uint16_t *packet_numbers; /* the count of an export, or the header of an import */
static size_t packet_numbers_len;

/* The lists of a call, of so many elements. */
static void make_packets(size_t numbers, size_t count, size_t bytes)
{
    drop_lists();
    packet_numbers_len = numbers, waveform_len = count, packet_len = bytes;
    packet_numbers = (uint16_t *)make_list(numbers * sizeof *packet_numbers);
    waveform = (int16_t *)make_list(count * sizeof *waveform);
    packet = (uint8_t *)make_list(bytes);
}

static uint64_t export_packets(uint8_t apid)
{
    return dfb_export_packets(apid, packet_numbers, packet_numbers_len, waveform, waveform_len, packet, packet_len);
}

static uint32_t import_packet(void)
{
    return dfb_import_packet(packet, packet_len, packet_numbers, packet_numbers_len, waveform, waveform_len);
}

static const uint8_t waveforms[6] = {0x43, 0x44, 0x45, 0x46, 0x47, 0x48};

/* Puts a header: 3 bits version, 1 type, 1 secondary header flag, 11 APID, 2 sequence flags, 14 count, 16 length. */
static void put_primary(uint8_t *to, const unsigned field[7])
{
    static const unsigned bits[7] = {3, 1, 1, 11, 2, 14, 16};
    uint64_t number = 0;
    for (size_t n = 0; n < 7; n++)
        number = number << bits[n] | field[n];
    for (size_t i = 0; i < 6; i++)
        to[i] = (uint8_t)(number >> 8 * (5 - i) & 0xFFu);
}

/* Puts one packet of so many samples. */
static void put_space_packet(uint8_t *to, uint8_t apid, unsigned count, const int16_t *from, size_t samples)
{
    const unsigned field[7] = {0, 0, 0, apid, 3, count, (unsigned)(2 * samples - 1)};
    put_primary(to, field);
    put_samples(to + 6, from, samples);
}

/* One packet of so many samples is imported, to lists of exactly their length and to longer ones, which keep their rest; with one element less,
 * and with a byte less or more of the packet, it is refused. */
static void imports(const uint8_t *bytes, uint8_t apid, unsigned count, const int16_t *expected, size_t samples)
{
    size_t length = 6 + 2 * samples;
    for (size_t more = 0; more < 3; more++) {
        make_packets(DFB_PACKET_NUMBERS + more, samples + more, length);
        memcpy(packet, bytes, length);
        remember();
        uint32_t answer = import_packet();
        CHECK(answer == samples && dfb_refusal(answer) == 0 && dfb_refusal_u32(answer) == 0);
        CHECK(packet_numbers[0] == apid && packet_numbers[1] == count && memcmp(waveform, expected, 2 * samples) == 0);
        CHECK(stays_behind(0, 2 * sizeof *packet_numbers) && stays_behind(1, 2 * samples) && stays_behind(2, 0));
    }
    for (unsigned fault = 0; fault < 4; fault++) {
        make_packets(fault == 0 ? 1 : 2, fault == 1 ? samples - 1 : samples, fault == 2 ? length - 1 : fault == 3 ? length + 1 : length);
        memcpy(packet, bytes, fault == 2 ? length - 1 : length);
        REFUSED_32(fault < 2 ? 2u : 23u, import_packet());
    }
}

/* So many samples are exported, to exactly as many bytes as their packets have, to more, which keep their rest, and to as many as
 * dfb_packets_room gives; to one byte less they are not. Each packet that dfb_packet_bytes finds is imported. */
static void exports(uint8_t apid, unsigned first, size_t samples)
{
    static uint8_t expected[50000];
    static int16_t given[24000];
    size_t most = dfb_set_words(apid) == 3 ? 2043 : 2044, packets = (samples + most - 1) / most, bytes = 6 * packets + 2 * samples;
    unsigned next = (first + (unsigned)packets) % 16384;
    if (bytes > sizeof expected || samples > sizeof given / sizeof *given)
        abort();
    for (size_t i = 0; i < samples; i++)
        given[i] = (int16_t)((int)((i * 40503u + first + apid) % 65536u) - 32768);
    for (size_t p = 0; p < packets; p++) {
        size_t left = samples - p * most;
        put_space_packet(expected + p * (6 + 2 * most), apid, (first + (unsigned)p) % 16384, given + p * most, left < most ? left : most);
    }
    const size_t lengths[] = {bytes, bytes + 1, bytes + 4096, dfb_packets_room(samples)};
    for (size_t i = 0; i < sizeof lengths / sizeof *lengths; i++) {
        make_packets(1, samples, lengths[i]);
        packet_numbers[0] = (uint16_t)first;
        memcpy(waveform, given, 2 * samples);
        remember();
        uint64_t answer = export_packets(apid);
        CHECK(answer == bytes && dfb_refusal(answer) == 0 && dfb_refusal_u64(answer) == 0);
        CHECK(packet_numbers[0] == next && stays_behind(1, 0) && memcmp(packet, expected, bytes) == 0 && stays_behind(2, bytes));
    }
    make_packets(1, samples, bytes - 1);
    packet_numbers[0] = (uint16_t)first;
    REFUSED_64(2u, export_packets(apid));

    size_t found = 0, at = 0, length;
    for (; (length = dfb_packet_bytes(expected + at, bytes - at)) != 0; at += length, found++) {
        size_t left = samples - found * most;
        CHECK(length == 6 + 2 * (left < most ? left : most) && length <= DFB_PACKET_BYTES && (length - 6) / 2 <= DFB_PACKET_SAMPLES);
        CHECK(dfb_packet_bytes(expected + at, length) == length && dfb_packet_bytes(expected + at, length - 1) == 0);
        imports(expected + at, apid, (first + (unsigned)found) % 16384, given + found * most, (length - 6) / 2);
    }
    CHECK(found == packets && at == bytes);
}

/* Packets by hand. */
static void test_packets(void)
{
    static const int16_t three[3] = {1, -1, -32768}, seven[7] = {32767, 256, -256, 0, 0x1234, 2, 3};
    uint8_t bytes[20];
    CHECK(DFB_PACKET_HEADER == 6 && DFB_PACKET_BYTES == 4096 && DFB_LAST_PACKET_COUNT == 16383 && DFB_PACKET_SAMPLES == 2044);
    put_digits(bytes, "0043" "C000" "0005" "0001" "FFFF" "8000");
    imports(bytes, 0x43, 0, three, 3);
    make_packets(1, 3, 12);
    packet_numbers[0] = 0;
    memcpy(waveform, three, sizeof three);
    CHECK(export_packets(0x43) == 12 && packet_numbers[0] == 1 && memcmp(packet, bytes, 12) == 0);
    put_digits(bytes, "0047" "FFFF" "000D" "7FFF" "0100" "FF00" "0000" "1234" "0002" "0003");
    imports(bytes, 0x47, 16383, seven, 7);
    make_packets(1, 7, 20);
    packet_numbers[0] = 16383;
    memcpy(waveform, seven, sizeof seven);
    CHECK(export_packets(0x47) == 20 && packet_numbers[0] == 0 && memcmp(packet, bytes, 20) == 0);
}

/* Every waveform: one set, packets that are full or lack a set, one set more, and several packets whose counts go over the last one. */
static void test_packet_sizes(void)
{
    for (size_t n = 0; n < sizeof waveforms; n++) {
        size_t words = dfb_set_words(waveforms[n]), most = words == 3 ? 2043 : 2044;
        const size_t counts_of[] = {words, 2 * words, most - words, most, most + words, 2 * most, 2 * most + words, 3 * most};
        for (size_t i = 0; i < sizeof counts_of / sizeof *counts_of; i++)
            for (unsigned first = 16381; first < 16384; first++)
                exports(waveforms[n], i % 2 ? first : 97 * (unsigned)i, counts_of[i]);
        exports(waveforms[n], 16380, 9 * most + words);
    }
}

/* dfb_packets_room is enough for every number of whole sets: it is at least what an export writes. */
static void test_packets_room(void)
{
    enum { MOST = 9 * 2044 };
    make_packets(1, MOST, dfb_packets_room(MOST));
    for (size_t samples = 1; samples <= MOST; samples++)
        for (size_t n = 0; n < 2; n++)
            if (samples % dfb_set_words(waveforms[n]) == 0 && (samples % 2043 < 30 || samples % 2044 < 30 || samples % 2043 > 2013)) {
                packet_numbers[0] = 0;
                uint64_t answer = dfb_export_packets(waveforms[n], packet_numbers, 1, waveform, samples, packet, dfb_packets_room(samples));
                CHECK(dfb_refusal(answer) == 0 && answer <= dfb_packets_room(samples) && dfb_packets_room(samples) - answer <= 12);
            }
    CHECK(dfb_packets_room(0) == 6);
}

/* The length of the first packet of a list, whatever else is in it. */
static void test_packet_bytes(void)
{
    for (size_t length = 0; length < 6; length++) {
        make_packets(0, 0, length);
        CHECK(dfb_packet_bytes(packet, length) == 0);
    }
    CHECK(dfb_packet_bytes(NULL, 0) == 0);
    make_packets(0, 0, 6 + 65536);
    for (unsigned length = 0; length < 65536; length += length % 256 == 0 || length % 256 > 253 ? 1u : 11u) {
        packet[4] = (uint8_t)(length >> 8), packet[5] = (uint8_t)(length & 0xFFu);
        size_t whole = 7 + (size_t)length;
        CHECK(dfb_packet_bytes(packet, packet_len) == whole && dfb_packet_bytes(packet, whole) == whole);
        CHECK(dfb_packet_bytes(packet, whole - 1) == 0 && dfb_packet_bytes(packet, 6) == 0);
    }
}

/* Every choice of faults at once gives the refusal that is first in order, here and in test_import_refused. */
static void test_export_refused(void)
{
    enum { NO_COUNT = 1, TWO_COUNTS = 2, APID = 4, FIRST = 8, NO_SAMPLES = 16, PART = 32, BYTES = 64, ALL = 128 };
    static const uint8_t other_apids[4] = {0x4E, 0x49, 0x42, 0xC3};
    static const uint16_t over[4] = {16384, 16385, 32768, 65535};
    for (size_t n = 0; n < sizeof waveforms; n++)
        for (unsigned made = 1; made < ALL; made++)
            for (unsigned turn = 0; turn < 4; turn++) {
                size_t words = dfb_set_words(waveforms[n]), samples = made & NO_SAMPLES ? 0 : made & PART ? 2 * words + 1 + turn % 2 : 2 * words;
                size_t room = 6 + 4 * words;
                make_packets(made & NO_COUNT ? 0 : made & TWO_COUNTS ? 2 : 1, samples, made & BYTES ? (turn % 2 ? room - 1 : 0) : room + 4);
                for (size_t i = 0; i < packet_numbers_len; i++)
                    packet_numbers[i] = made & FIRST ? over[turn] : 16383;
                unsigned refusal = made & (NO_COUNT | TWO_COUNTS) ? 2 : made & APID ? 4 : made & FIRST ? 22 : made & (NO_SAMPLES | PART) ? 23 : 2;
                REFUSED_64(refusal, export_packets(made & APID ? other_apids[turn] : waveforms[n]));
            }
    for (unsigned apid = 0; apid < 256; apid++)
        if (apid < 0x43 || apid > 0x48) {
            make_packets(1, 21, 100);
            packet_numbers[0] = 5;
            REFUSED_64(4u, export_packets((uint8_t)apid));
        }
    for (size_t length = 0; length < 48; length++) {
        make_packets(1, 21, length);
        packet_numbers[0] = 5;
        REFUSED_64(2u, export_packets(length % 2 ? 0x43 : 0x44));
    }
    make_packets(1, 21, 48);
    packet_numbers[0] = 5;
    REFUSED_64(2u, dfb_export_packets(0x43, NULL, 0, waveform, 21, packet, 48));
    REFUSED_64(23u, dfb_export_packets(0x43, packet_numbers, 1, NULL, 0, packet, 48));
    REFUSED_64(2u, dfb_export_packets(0x43, packet_numbers, 1, waveform, 21, NULL, 0));
    REFUSED_64(23u, dfb_export_packets(0x43, packet_numbers, 1, NULL, 0, NULL, 0));
    REFUSED_64(4u, dfb_export_packets(0x4E, packet_numbers, 1, NULL, 0, NULL, 0));
    REFUSED_64(2u, dfb_export_packets(0x4E, NULL, 0, NULL, 0, NULL, 0));
}

/* The lists of an import of so many bytes of data, with the header given and room for all samples. */
static void make_import(const unsigned field[7], size_t data)
{
    make_packets(2, data / 2, 6 + data);
    put_primary(packet, field);
}

/* Each field of a header: every value of it, of the APID all 2048. */
static void test_packet_fields(void)
{
    for (size_t n = 0; n < sizeof waveforms; n++)
        for (unsigned first = 0; first < 32; first++)
            for (unsigned flags = 0; flags < 4; flags++) {
                const unsigned field[7] = {first >> 2, first >> 1 & 1u, first & 1u, waveforms[n], flags, 4097 * flags, 41};
                make_import(field, 42);
                if (first == 0 && flags == 3)
                    CHECK(import_packet() == 21 && packet_numbers[0] == waveforms[n] && packet_numbers[1] == 4097 * 3);
                else
                    REFUSED_32(22u, import_packet());
            }
    for (unsigned apid = 0; apid < 2048; apid++) {
        const unsigned field[7] = {0, 0, 0, apid, 3, 7, 41};
        make_import(field, 42);
        if (apid >= 0x43 && apid <= 0x48)
            CHECK(import_packet() == 21 && packet_numbers[0] == apid && packet_numbers[1] == 7);
        else
            REFUSED_32(4u, import_packet());
    }
    const unsigned one_set[7] = {0, 0, 0, 0x45, 3, 0, 5};
    make_import(one_set, 6);
    for (unsigned count = 0; count < 16384; count++) {
        packet[2] = (uint8_t)(0xC0u | count >> 8), packet[3] = (uint8_t)(count & 0xFFu);
        CHECK(import_packet() == 3 && packet_numbers[0] == 0x45 && packet_numbers[1] == count);
    }
}

/* Data of every length up to over that of a packet, with a right length field; length fields that are not right; no data. */
static void test_packet_lengths(void)
{
    for (size_t n = 0; n < 2; n++) {
        size_t words = dfb_set_words(waveforms[n]);
        for (size_t data = 1; data < 4300; data += data < 100 || (data > 4000 && data < 4200) ? 1 : 2 * words + (data % 3 == 0)) {
            const unsigned field[7] = {0, 0, 0, waveforms[n], 3, 9, (unsigned)data - 1};
            make_import(field, data);
            if (data <= 4090 && data % (2 * words) == 0)
                CHECK(import_packet() == data / 2 && packet_numbers[1] == 9);
            else
                REFUSED_32(23u, import_packet());
        }
        /* 65,536 bytes, whose length field is the greatest */
        const unsigned greatest[7] = {0, 0, 0, waveforms[n], 3, 9, 65535};
        make_import(greatest, 65536);
        REFUSED_32(23u, import_packet());
        for (unsigned length = 0; length < 65536; length += length < 300 || length > 65300 ? 1u : 97u) {
            const unsigned field[7] = {0, 0, 0, waveforms[n], 3, 9, length};
            make_import(field, 0);
            REFUSED_32(23u, import_packet());
            make_import(field, 42);
            if (length != 41)
                REFUSED_32(23u, import_packet());
        }
    }
}

static void test_import_refused(void)
{
    enum { SHORT = 1, APID = 2, HIGH = 4, VERSION = 8, TYPE = 16, FLAG = 32, FLAGS = 64, LENGTH = 128, PART = 256, NUMBERS = 512, SAMPLES = 1024,
           ALL = 2048 };
    for (unsigned made = 1; made < ALL; made++)
        for (unsigned turn = 0; turn < 2; turn++) {
            uint8_t apid = waveforms[turn], bytes[6];
            size_t data = made & PART ? 42 + 1 + 3 * turn : 42;
            const unsigned field[7] = {made & VERSION ? 1 + turn : 0, made & TYPE ? 1u : 0, made & FLAG ? 1u : 0,
                                       (made & APID ? 0x4E : apid) + (made & HIGH ? 0x100u << turn : 0), made & FLAGS ? turn : 3, 5,
                                       (unsigned)data - 1 + (made & LENGTH ? 1 + turn : 0)};
            make_packets(made & NUMBERS ? turn : 2, made & SAMPLES ? 20 * turn : data / 2, made & SHORT ? 5 * turn : 6 + data);
            put_primary(bytes, field);
            memcpy(packet, bytes, packet_len < 6 ? packet_len : 6);
            unsigned refusal = made & SHORT ? 23 : made & (APID | HIGH) ? 4 : made & (VERSION | TYPE | FLAG | FLAGS) ? 22
                               : made & (LENGTH | PART) ? 23 : 2;
            REFUSED_32(refusal, import_packet());
        }
    for (size_t length = 0; length < 48; length++) {
        const unsigned field[7] = {0, 0, 0, 0x44, 3, 5, 41};
        make_import(field, 42);
        REFUSED_32(23u, dfb_import_packet(packet, length, packet_numbers, 2, waveform, 21));
        if (length < 21)
            REFUSED_32(2u, dfb_import_packet(packet, 48, packet_numbers, 2, waveform, length));
        if (length < 2)
            REFUSED_32(2u, dfb_import_packet(packet, 48, packet_numbers, length, waveform, 21));
    }
    REFUSED_32(23u, dfb_import_packet(NULL, 0, packet_numbers, 2, waveform, 21));
    REFUSED_32(23u, dfb_import_packet(NULL, 0, NULL, 0, NULL, 0));
    REFUSED_32(2u, dfb_import_packet(packet, 48, NULL, 0, waveform, 21));
    REFUSED_32(2u, dfb_import_packet(packet, 48, packet_numbers, 2, NULL, 0));
    REFUSED_32(2u, dfb_import_packet(packet, 48, NULL, 0, NULL, 0));
}

/* ---- the header by itself ---- */

static void test_meanings(void)
{
    static const uint8_t numbers[] = {1, 2, 3, 4, 5, 6, 7, 8, 9, 10, 11, 12, 14, 15, 16, 17, 18, 19, 20, 21, 22, 23, 24, 25, 26, 27, 28, 29};
    size_t found = 0;
    for (unsigned n = 0; n < 0x20000; n++) {
        int is_refusal = found < sizeof numbers && numbers[found] == n;
        CHECK((dfb_meaning(n) != NULL) == is_refusal);
        found += (size_t)is_refusal;
    }
    CHECK(strcmp(dfb_meaning(DFB_REFUSAL_ALREADY_SENDING), "a slot is already sending") == 0);
    CHECK(strcmp(dfb_meaning(3), "the state is not one that the board, the slots, the counting writer or a sum can have left") == 0);
    CHECK(strcmp(dfb_meaning(17), "the component is not the next one") == 0);
    CHECK(strcmp(dfb_meaning(14), "the packet's SID is not 33 or its auxiliary length is not 8") == 0);
    CHECK(strcmp(dfb_meaning(15), "the total of packets is over 3072, or the packet number is not below the total") == 0);
    CHECK(strcmp(dfb_meaning(16), "the packet is under 20 bytes, or its bytes or samples are not as many as its mask says") == 0);
    CHECK(strcmp(dfb_meaning(22), "a space packet's header field is not as stated, or the first count is over 16383") == 0);
    CHECK(strcmp(dfb_meaning(23), "a space packet has a wrong length, or its samples are none or not whole sets") == 0);
}

/* Answers that no function gives today are no refusals either, unless they are a base and a number. */
static void test_bases(void)
{
    CHECK(dfb_refusal_u16(0xFF) == 0 && dfb_refusal_u16(0x101) == 1 && dfb_refusal_u16(0x163) == 99);
    CHECK(dfb_refusal_u32(0xFFFFu) == 0 && dfb_refusal_u32(0x10001u) == 1 && dfb_refusal_u32(0x10063u) == 99);
    CHECK(dfb_refusal_u32(0x20001u) == 0 && dfb_refusal_u32(0x30001u) == 0 && dfb_refusal_u32(0x80010001u) == 0);
    CHECK(dfb_refusal_u32(0x2010019u) == 25 && dfb_offer_looked(0x2010019u) == 32);
    CHECK(dfb_refusal_u64(DFB_REFUSED_63 - 1) == 0 && dfb_refusal_u64(DFB_REFUSED_63 + 99) == 99);
    CHECK(DFB_STATE == 9 && DFB_REPORTED == 0x80000000u);
    CHECK(dfb_report_words(DFB_REPORTED + 65536 * 392) == 392 && dfb_report_words(DFB_REPORTED - 1) == 0);
    CHECK(dfb_report_number(DFB_REPORTED + 65536 * 392 + 65535) == 65535 && dfb_report_number(DFB_REPORTED - 1) == 0);
    CHECK(dfb_report_words(DFB_REPORTED + 65536 * 18 + 65535) == 18 && dfb_refusal_u32(DFB_REPORTED + 65536 * 392 + 65535) == 0);
    CHECK(dfb_offer_slot(0x20FFFFFu) == 0xFFFF && dfb_interval_first(0x12345678u) == 0x5678 && dfb_interval_last(0x12345678u) == 0x1234);
}

static void test_offsets(void)
{
    static const uint64_t offsets[] = {0, 1, 255, 256, 65536, ((uint64_t)1 << 55) - 1};
    for (size_t i = 0; i < sizeof offsets / sizeof *offsets; i++)
        for (unsigned refusal = 1; refusal < 100; refusal++) {
            uint64_t answer = DFB_REFUSED_63 + 256 * offsets[i] + refusal;
            CHECK(dfb_refusal_u64(answer) == refusal && dfb_refusal_offset(answer) == offsets[i]);
        }
    CHECK(dfb_refusal_offset(dfb_expand_band(0x08)) == 0);
}

static void test_version(void)
{
    char version[32];
    snprintf(version, sizeof version, "%d.%d.%d", DFB_VERSION_MAJOR, DFB_VERSION_MINOR, DFB_VERSION_PATCH);
    CHECK(strcmp(version, DFB_VERSION) == 0);
}

/* ---- calls side by side ---- */

enum { SPECTRA = 64, THREADS = 4 };

struct bench {
    uint16_t state[DFB_STATE];
    uint64_t totals[DFB_TOTALS];
    uint32_t powers[DFB_POWERS];
    uint8_t out[DFB_OUTPUT];
    uint64_t answers;
};

/* N = C = 8, seven processors, 112 bands: periods of spectra that differ, and the sum of answers and words. */
static void *run_board(void *argument)
{
    struct bench *bench = (struct bench *)argument;
    memset(bench, 0, sizeof *bench);
    for (unsigned n = 7; n-- > 0;)
        bench->answers += dfb_command(bench->state, DFB_STATE, bench->totals, DFB_TOTALS, (uint8_t)(0x30 + n), n == 0 ? 0x33A0 : 0x20);
    for (uint32_t t = 0; t < SPECTRA; t++) {
        for (uint32_t k = 0; k < DFB_POWERS; k++)
            bench->powers[k] = k * 2654435761u + t * 40503u;
        bench->answers = 31 * bench->answers + dfb_tick(bench->state, DFB_STATE, bench->totals, DFB_TOTALS, bench->powers, DFB_POWERS,
                                                        bench->out, DFB_OUTPUT);
        for (size_t i = 0; i < DFB_OUTPUT; i++)
            bench->answers = 31 * bench->answers + bench->out[i];
    }
    return NULL;
}

static void test_side_by_side(void)
{
    static struct bench alone, beside[THREADS];
    pthread_t threads[THREADS];
    run_board(&alone);
    CHECK(alone.answers != 0 && alone.state[7] == 0 && alone.state[8] == SPECTRA / 8);
    for (unsigned i = 0; i < THREADS; i++)
        CHECK(pthread_create(&threads[i], NULL, run_board, &beside[i]) == 0);
    for (unsigned i = 0; i < THREADS; i++) {
        CHECK(pthread_join(threads[i], NULL) == 0);
        CHECK(memcmp(&alone, &beside[i], sizeof alone) == 0);
    }
}

static const struct test {
    const char *name;
    void (*run)(void);
} tests[] = {
    {"command", test_command},
    {"long lists", test_long_lists},
    {"read", test_read},
    {"tick", test_tick},
    {"reports", test_reports},
    {"report numbers", test_report_numbers},
    {"tick refused", test_tick_refused},
    {"sets", test_sets},
    {"append", test_append},
    {"read_record", test_read_record},
    {"listing", test_listing},
    {"command lists", test_check_commands},
    {"long command lists", test_long_lists_of_commands},
    {"counted log", test_counted_log},
    {"counted sets", test_counted_sets},
    {"counted reports", test_counted_reports},
    {"counted calls refused", test_counted_refused},
    {"walk_items", test_walk_items},
    {"walk", test_walk},
    {"walk_refused", test_walk_refused},
    {"count_sets", test_count_sets},
    {"long counted log", test_long_counted_log},
    {"bands", test_bands},
    {"cadence", test_cadence},
    {"codes", test_codes},
    {"coarse totals", test_coarse_totals},
    {"bursts", test_bursts},
    {"interval", test_interval},
    {"snapshots", test_snapshots},
    {"snapshot masks", test_snapshot_masks},
    {"snapshot fields", test_snapshot_fields},
    {"snapshot limits", test_snapshot_limits},
    {"snapshot reads refused", test_snapshot_read_refused},
    {"snapshot writes refused", test_snapshot_write_refused},
    {"sums", test_sums},
    {"sums of bins", test_sum_bins},
    {"masks of sums", test_sum_masks},
    {"histories of sums", test_sum_histories},
    {"lengths of sums", test_sum_lengths},
    {"unsound sums", test_sum_unsound},
    {"order of components", test_sum_order},
    {"faults of sums", test_sum_faults},
    {"packets", test_packets},
    {"packet sizes", test_packet_sizes},
    {"packets room", test_packets_room},
    {"packet bytes", test_packet_bytes},
    {"exports refused", test_export_refused},
    {"packet fields", test_packet_fields},
    {"packet lengths", test_packet_lengths},
    {"imports refused", test_import_refused},
    {"meanings", test_meanings},
    {"bases", test_bases},
    {"offsets", test_offsets},
    {"version", test_version},
    {"side by side", test_side_by_side},
};

int main(void)
{
    unsigned passed = 0, failed = 0;
    for (size_t i = 0; i < sizeof tests / sizeof *tests; i++) {
        unsigned before = faults;
        tests[i].run();
        drop_lists();
        if (faults == before) {
            passed++;
        } else {
            failed++;
            printf("%s: failed\n", tests[i].name);
        }
    }
    printf("%u passed, %u failed\n", passed, failed);
    return failed != 0;
}
