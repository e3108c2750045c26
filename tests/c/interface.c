// Calls each function of the C interface on accepted and refused inputs, and checks what it answers and stores; after a refusal, that
// nothing behind an output pointer has changed. Writes one line, and exits with 1 if a check failed.
#include <stddef.h>
#include <stdio.h>
#include <string.h>

#include "yuthpram.h"

#define RECORD YUTHPRAM_RECORD_SIZE
#define CID YUTHPRAM_CID_SIZE
#define BOUND ((uint64_t)1 << 62)

// How many places an order has, and where an image's version information stands.
enum { PLACES = YUTHPRAM_PLACES, VERSIONS = 304 };
_Static_assert(YUTHPRAM_INTERFACE_VERSION == 2, "the interface of this program");
// The layout of the counts: five numbers, one behind the other.
#define STANDS(field, index) _Static_assert(offsetof(yuthpram_counts, field) == (index) * sizeof(size_t), #field)
STANDS(tidied, 0);
STANDS(skipped, 1);
STANDS(restated, 2);
STANDS(saved, 3);
STANDS(named, 4);
_Static_assert(sizeof(yuthpram_counts) == 5 * sizeof(size_t), "and nothing else");

// Every output that a call is lent, filled with a pattern before it.
static uint8_t out[400];
static uint64_t value;
static size_t count, saved;
static yuthpram_counts counts;
static int passed, failed;

static void reset(void)
{
    memset(out, 0xa5, sizeof out);
    value = 0x1122334455667788;
    count = 0x99;
    saved = 0x55;
    counts = (yuthpram_counts){ 0x11, 0x22, 0x33, 0x44, 0x66 };
}

static int same_counts(yuthpram_counts a, yuthpram_counts b)
{
    return a.tidied == b.tidied && a.skipped == b.skipped && a.restated == b.restated && a.saved == b.saved && a.named == b.named;
}

// Whether the output from a place on is as it was.
static int kept(size_t from)
{
    for (size_t i = from; i < sizeof out; i++)
        if (out[i] != 0xa5)
            return 0;
    return 1;
}

static int untouched(void)
{
    static const yuthpram_counts before = { 0x11, 0x22, 0x33, 0x44, 0x66 };
    return kept(0) && value == 0x1122334455667788 && count == 0x99 && saved == 0x55 && same_counts(counts, before);
}

static void expect(int ok, int line, const char *what)
{
    if (ok) {
        passed++;
        return;
    }
    failed++;
    fprintf(stderr, "line %d: %s\n", line, what);
}

#define CHECK(fact) expect(fact, __LINE__, #fact)
#define ACCEPTS(call) (reset(), expect((call) == 0, __LINE__, #call))
#define REFUSES(code, call) (reset(), expect((call) == (code) && untouched(), __LINE__, #code " " #call))

// Eight bytes of an image, the high byte first.
static void put(uint8_t *image, size_t at, uint64_t x)
{
    for (int i = 7; i >= 0; i--, x >>= 8)
        image[at + (size_t)i] = (uint8_t)x;
}

static uint64_t get(const uint8_t *image, size_t at)
{
    uint64_t x = 0;
    for (int i = 0; i < 8; i++)
        x = x << 8 | image[at + (size_t)i];
    return x;
}

static const uint64_t values[] = { 0, 63, 64, 16383, 16384, 1073741823, 1073741824, BOUND - 1 };
static const uint8_t sizes[] = { 1, 1, 2, 2, 4, 4, 8, 8 };

static void numbers(void)
{
    for (size_t i = 0; i < 8; i++) {
        uint64_t back = 0;
        size_t read = 0, more = 1;
        ACCEPTS(yuthpram_number_size(values[i], &count));
        CHECK(count == sizes[i]);
        ACCEPTS(yuthpram_number_write(values[i], out, sizes[i], &count));
        CHECK(count == sizes[i] && kept(count));
        CHECK(yuthpram_number_read(out, sizes[i], &back, &read, &more) == 0 && back == values[i] && read == count && more == 0);
        REFUSES(5, yuthpram_number_write(values[i], out, sizes[i] - 1u, &count));
    }
    REFUSES(YUTHPRAM_VARINT_BOUNDS_EXCEEDED, yuthpram_number_size(BOUND, &count));
    REFUSES(YUTHPRAM_VARINT_BOUNDS_EXCEEDED, yuthpram_number_size(UINT64_MAX, &count));
    REFUSES(4, yuthpram_number_write(BOUND, out, 8, &count));
    REFUSES(4, yuthpram_number_write(UINT64_MAX, out, 0, &count));

    static const uint8_t hundred[] = { 0x80, 0, 0, 100, 7 };
    ACCEPTS(yuthpram_number_read(hundred, 5, &value, &count, &saved));
    CHECK(value == 100 && count == 4 && saved == 2);
    REFUSES(3, yuthpram_number_read(hundred, 3, &value, &count, &saved));
    REFUSES(3, yuthpram_number_read(hundred, 0, &value, &count, &saved));
}

// How many bytes the shortest form of a number has.
static size_t least(uint64_t x)
{
    return x < 1 << 6 ? 1 : x < 1 << 14 ? 2 : x < 1 << 30 ? 4 : 8;
}

// A number in a form of 1, 2, 4 or 8 bytes.
static void put_number(uint8_t *at, uint64_t x, size_t size)
{
    for (size_t i = size; i > 0; i--, x >>= 8)
        at[i - 1] = (uint8_t)x;
    at[0] |= (uint8_t)(size == 1 ? 0 : size == 2 ? 0x40 : size == 4 ? 0x80 : 0xc0);
}

// Each number in each form that holds it, cut at each length: how many bytes the shortest form would have saved.
static void number_forms(void)
{
    for (size_t i = 0; i < 8; i++)
        for (size_t size = sizes[i]; size <= 8; size *= 2) {
            uint8_t src[9] = { 0 };
            put_number(src, values[i], size);
            for (size_t len = 0; len < size; len++)
                REFUSES(YUTHPRAM_UNEXPECTED_END, yuthpram_number_read(src, len, &value, &count, &saved));
            for (size_t len = size; len <= sizeof src; len++) {
                ACCEPTS(yuthpram_number_read(src, len, &value, &count, &saved));
                CHECK(value == values[i] && count == size && saved == size - sizes[i] && kept(0));
            }
        }
}

static void connection_ids(void)
{
    uint8_t wire[22] = { 3, 7, 8, 9, 1 };
    static const uint8_t image[CID] = { 3, 7, 8, 9 };
    ACCEPTS(yuthpram_cid_read(wire, 5, out, CID, &count));
    CHECK(count == 4 && memcmp(out, image, CID) == 0 && kept(CID));
    REFUSES(5, yuthpram_cid_read(wire, 5, out, CID - 1, &count));
    REFUSES(1, yuthpram_cid_read(wire, 3, out, CID, &count));
    REFUSES(1, yuthpram_cid_read(wire, 0, out, CID, &count));
    wire[0] = 21;
    REFUSES(1, yuthpram_cid_read(wire, 22, out, CID, &count));
    REFUSES(1, yuthpram_cid_read(wire, 22, out, 0, &count));

    ACCEPTS(yuthpram_cid_write(image, CID, out, 9, &count));
    CHECK(count == 4 && memcmp(out, image, 4) == 0 && kept(4));
    REFUSES(5, yuthpram_cid_write(image, CID, out, 3, &count));
    REFUSES(7, yuthpram_cid_write(image, CID - 1, out, 9, &count));
    uint8_t long_one[CID] = { 21 }, tail[CID] = { 3, 7, 8, 9, 1 };
    REFUSES(7, yuthpram_cid_write(long_one, CID, out, 9, &count));
    REFUSES(7, yuthpram_cid_write(tail, CID, out, 0, &count));
}

// Every refusal has its number, and words of its own; those that nothing gives yet too.
static void refusals(void)
{
    static const uint8_t numbers[] = {
        YUTHPRAM_OK, YUTHPRAM_MALFORMED, YUTHPRAM_ILLEGAL_VALUE, YUTHPRAM_UNEXPECTED_END, YUTHPRAM_VARINT_BOUNDS_EXCEEDED,
        YUTHPRAM_BUFFER_TOO_SHORT, YUTHPRAM_INVALID_ORDER, YUTHPRAM_ILL_FORMED, YUTHPRAM_LIMIT_REDUCED, YUTHPRAM_INVALID_DRAW, YUTHPRAM_CUT,
        YUTHPRAM_MISFIT, YUTHPRAM_SECOND_COPY, YUTHPRAM_CID_ABSENT, YUTHPRAM_CID_MISMATCH, YUTHPRAM_INVALID_SETTING,
        YUTHPRAM_INVALID_STREAM, YUTHPRAM_STREAM_LIMIT_EXCEEDED, YUTHPRAM_CONNECTION_LIMIT_EXCEEDED, YUTHPRAM_INVALID_FILE,
        YUTHPRAM_INVALID_ROLE, YUTHPRAM_INVALID_RANGE, 22,
    };
    for (uint8_t i = 0; i < sizeof numbers; i++) {
        CHECK(numbers[i] == i);
        for (uint8_t j = 0; j < i; j++)
            CHECK(strcmp(yuthpram_strerror(i), yuthpram_strerror(j)) != 0);
    }
    CHECK(strcmp(yuthpram_strerror(YUTHPRAM_ILLEGAL_VALUE), "illegal value") == 0);
    CHECK(strcmp(yuthpram_strerror(22), yuthpram_strerror(255)) == 0);
}

// The image of the default record.
static void default_record(uint8_t *image)
{
    CHECK(yuthpram_default(image, RECORD) == 0);
}

static void defaults(void)
{
    uint8_t image[RECORD];
    default_record(image);
    CHECK(get(image, 0) == 0 && get(image, 8) == 65527 && get(image, 64) == 3 && get(image, 72) == 25 && get(image, 80) == 2);
    size_t others = 0;
    for (size_t i = 88; i < RECORD; i++)
        others += image[i];
    CHECK(others == 0);
    ACCEPTS(yuthpram_default(out, sizeof out));
    CHECK(memcmp(out, image, RECORD) == 0 && kept(RECORD));
    REFUSES(5, yuthpram_default(out, RECORD - 1));
    REFUSES(5, yuthpram_default(out, 0));
}

static void checking(void)
{
    static const size_t flags[] = { 88, 89, 90, 99, 108, 130, 152, 174, 191, 192, 199, 255, 281, VERSIONS };
    uint8_t image[RECORD + 1] = { 0 };
    default_record(image);
    CHECK(yuthpram_check(image, RECORD, 0) == 0 && yuthpram_check(image, RECORD, 1) == 0);
    CHECK(yuthpram_check(image, RECORD - 1, 0) == 7 && yuthpram_check(image, RECORD + 1, 0) == 7);
    for (size_t i = 0; i < sizeof flags / sizeof *flags; i++) {
        default_record(image);
        image[flags[i]] = 2;
        CHECK(yuthpram_check(image, RECORD, 0) == 7);
    }
    for (size_t at = 90; at <= 99; at += 9) {
        default_record(image);
        image[at + 8] = 1; // a number that is absent
        CHECK(yuthpram_check(image, RECORD, 0) == 7);
        image[at] = 1;
        CHECK(yuthpram_check(image, RECORD, 0) == 0);
    }
    default_record(image);
    put(image, 0, BOUND);
    CHECK(yuthpram_check(image, RECORD, 0) == 7);
    put(image, 0, BOUND - 1);
    put(image, 64, 21); // ack_delay_exponent
    CHECK(yuthpram_check(image, RECORD, 0) == 2);
    default_record(image);
    image[174] = 1; // a token, which a server sends: it checks its record for the client that reads it
    CHECK(yuthpram_check(image, RECORD, YUTHPRAM_CLIENT) == YUTHPRAM_OK);
    CHECK(yuthpram_check(image, RECORD, YUTHPRAM_SERVER) == YUTHPRAM_ILLEGAL_VALUE && yuthpram_check(image, RECORD, 255) == 2);
    image[174] = 0;
    image[175] = 1;
    CHECK(yuthpram_check(image, RECORD, 0) == 7);
}

static void reading(void)
{
    // max_idle_timeout 100, grease_quic_bit, an unknown parameter, initial_source_connection_id 7 8 9
    static const uint8_t src[] = { 1, 2, 0x40, 100, 0x6a, 0xb2, 0, 27, 1, 5, 15, 3, 7, 8, 9 };
    static const uint8_t twice[] = { 1, 1, 5, 1, 1, 5 }, illegal[] = { 10, 1, 21 }, cut[] = { 1, 2, 5 };
    static const uint8_t token[18] = { 2, 16, 1 };
    uint8_t image[RECORD];
    ACCEPTS(yuthpram_read(0, src, sizeof src, out, sizeof out));
    CHECK(get(out, 0) == 100 && get(out, 8) == 65527 && out[89] == 1 && kept(RECORD));
    CHECK(out[130] == 1 && out[131] == 3 && out[132] == 7 && out[134] == 9 && out[135] == 0);
    default_record(image);
    ACCEPTS(yuthpram_read(1, src, 0, out, RECORD));
    CHECK(memcmp(out, image, RECORD) == 0);
    ACCEPTS(yuthpram_read(0, token, 18, out, RECORD));
    REFUSES(2, yuthpram_read(1, token, 18, out, RECORD));
    REFUSES(12, yuthpram_read(0, twice, 6, out, RECORD));
    REFUSES(10, yuthpram_read(0, cut, 3, out, RECORD));
    REFUSES(2, yuthpram_read(0, illegal, 3, out, RECORD));
    REFUSES(2, yuthpram_read(0, illegal, 3, out, 0));
    REFUSES(5, yuthpram_read(0, src, sizeof src, out, RECORD - 1));
}

// A parameter with a value of one byte over and over.
static size_t parameter(uint8_t *at, const uint8_t *id, size_t id_len, uint8_t byte, size_t len)
{
    memcpy(at, id, id_len);
    at[id_len] = (uint8_t)len;
    memset(at + id_len + 1, byte, len);
    return id_len + 1 + len;
}

// The known parameters, each with a value that a client accepts; behind them an unknown one twice, the second time with its identifier in eight
// bytes.
enum { KNOWN = 21, ALL = 23 };
static const struct { size_t id_len; uint8_t id[8], byte; size_t len; } sample[] = {
    { 1, { 0x01 }, 2, 1 },    { 1, { 0x03 }, 0xc1, 8 }, { 1, { 0x04 }, 2, 1 },  { 1, { 0x05 }, 2, 1 },       { 1, { 0x06 }, 2, 1 },
    { 1, { 0x07 }, 2, 1 },    { 1, { 0x08 }, 2, 1 },    { 1, { 0x09 }, 2, 1 },  { 1, { 0x0a }, 2, 1 },       { 1, { 0x0b }, 2, 1 },
    { 1, { 0x0e }, 2, 1 },    { 1, { 0x02 }, 9, 16 },   { 1, { 0x0c }, 0, 0 },  { 1, { 0x20 }, 2, 1 },       { 1, { 0x0d }, 1, 42 },
    { 1, { 0x00 }, 7, 20 },   { 1, { 0x0f }, 7, 1 },    { 1, { 0x10 }, 7, 0 },  { 2, { 0x6a, 0xb2 }, 0, 0 },
    { 8, { 0xc0, 0, 0, 0, 0xff, 0x04, 0xde, 0x1b }, 2, 1 }, { 1, { 0x11 }, 7, 8 },
    { 1, { 0x1b }, 5, 3 },    { 8, { 0xc0, 0, 0, 0, 0, 0, 0, 0x1b }, 6, 2 },
};
_Static_assert(sizeof sample / sizeof *sample == ALL, "a row for each");

static size_t put_sample(uint8_t *at, size_t i)
{
    return parameter(at, sample[i].id, sample[i].id_len, sample[i].byte, sample[i].len);
}

// Each known parameter is accepted once and refused the second time, also with a value that does not fit or has no family, and before a cut.
static void second_copies(void)
{
    for (size_t i = 0; i < KNOWN; i++) {
        uint8_t src[128];
        size_t id_len = sample[i].id_len, n = put_sample(src, i);
        ACCEPTS(yuthpram_read(YUTHPRAM_CLIENT, src, n, out, RECORD));
        for (size_t len = 0; len <= 42; len += 42) {
            size_t end = n + parameter(src + n, sample[i].id, id_len, 0, len);
            REFUSES(12, yuthpram_read(YUTHPRAM_CLIENT, src, end, out, RECORD));
            REFUSES(12, yuthpram_tidy(YUTHPRAM_CLIENT, src, end, out, sizeof out, &count));
            REFUSES(12, yuthpram_report(YUTHPRAM_CLIENT, src, end, &counts));
        }
        size_t end = n + put_sample(src + n, i);
        src[end] = 1;
        REFUSES(12, yuthpram_read(YUTHPRAM_CLIENT, src, end, out, RECORD));
        REFUSES(12, yuthpram_read(YUTHPRAM_CLIENT, src, end + 1, out, RECORD));
        REFUSES(12, yuthpram_tidy(YUTHPRAM_CLIENT, src, end, out, sizeof out, &count));
        REFUSES(12, yuthpram_report(YUTHPRAM_CLIENT, src, end, &counts));
    }
}

// What is read, tidied and reported with the same refusal.
static void refused_with(uint8_t refusal, const uint8_t *src, size_t len)
{
    REFUSES(refusal, yuthpram_read(YUTHPRAM_CLIENT, src, len, out, RECORD));
    REFUSES(refusal, yuthpram_tidy(YUTHPRAM_CLIENT, src, len, out, sizeof out, &count));
    REFUSES(refusal, yuthpram_report(YUTHPRAM_CLIENT, src, len, &counts));
}

// Each parameter, by itself and behind one that is accepted: cut off at every byte, the known ones with a value that does not fit, and a second
// time with one that does not fit, or cut off. The cut is found first, then the second copy, then the misfit, which stay whatever follows.
static void kinds(void)
{
    static const uint8_t before[] = { 0x1b, 1, 0 };
    for (size_t from = 0; from <= sizeof before; from += sizeof before)
        for (size_t i = 0; i < ALL; i++) {
            uint8_t src[256];
            memcpy(src, before, sizeof before);
            size_t n = from + put_sample(src + from, i);
            for (size_t cut = from + 1; cut < n; cut++)
                refused_with(YUTHPRAM_CUT, src, cut);
            if (i >= KNOWN)
                continue;
            size_t end = n + parameter(src + n, sample[i].id, sample[i].id_len, 1, 63);
            src[end] = 1;
            refused_with(YUTHPRAM_SECOND_COPY, src, end);
            refused_with(YUTHPRAM_SECOND_COPY, src, end + 1);
            refused_with(YUTHPRAM_CUT, src, end - 1);
            end = from + parameter(src + from, sample[i].id, sample[i].id_len, 1, 63);
            src[end] = 1;
            refused_with(YUTHPRAM_MISFIT, src, end);
            refused_with(YUTHPRAM_MISFIT, src, end + 1);
            refused_with(YUTHPRAM_CUT, src, end - 1);
        }
    // an ID of 20 bytes, and of 21; an address with a byte left over, and one with neither family besides
    static const uint8_t id = 0x0f, address = 0x0d;
    uint8_t src[64];
    ACCEPTS(yuthpram_read(YUTHPRAM_CLIENT, src, parameter(src, &id, 1, 7, 20), out, RECORD));
    refused_with(YUTHPRAM_MISFIT, src, parameter(src, &id, 1, 7, 21));
    refused_with(YUTHPRAM_MISFIT, src, parameter(src, &address, 1, 1, 43));
    refused_with(YUTHPRAM_ILLEGAL_VALUE, src, parameter(src, &address, 1, 0, 43));
}

// All of them, from each one on, forwards and backwards: always the same record, and tidied the same bytes, with the same report.
static void any_order(void)
{
    // active_connection_id_limit is at its default; the unknown ones are counted whole, the one with its identifier in eight bytes too
    static const yuthpram_counts due = { 154, 16, 3, 0, KNOWN };
    uint8_t record[RECORD], tidied[sizeof out];
    size_t stored = 0;
    for (size_t order = 0; order < 2 * ALL; order++) {
        uint8_t src[512];
        size_t len = 0;
        for (size_t i = 0; i < ALL; i++)
            len += put_sample(src + len, order < ALL ? (order + i) % ALL : (order + ALL - i) % ALL);
        ACCEPTS(yuthpram_read(YUTHPRAM_CLIENT, src, len, out, sizeof out));
        if (order == 0)
            memcpy(record, out, RECORD);
        CHECK(memcmp(out, record, RECORD) == 0 && kept(RECORD));
        ACCEPTS(yuthpram_tidy(YUTHPRAM_CLIENT, src, len, out, sizeof out, &count));
        if (order == 0)
            memcpy(tidied, out, stored = count);
        CHECK(count == stored && memcmp(out, tidied, stored) == 0 && kept(stored));
        ACCEPTS(yuthpram_report(YUTHPRAM_CLIENT, src, len, &counts));
        CHECK(same_counts(counts, due) && kept(0));
    }
    CHECK(get(record, 0) == 2 && record[89] == 1 && stored == due.tidied);
}

// A permutation of the places: the last place first.
static void backwards(uint8_t *order)
{
    for (uint8_t i = 0; i < PLACES; i++)
        order[i] = (uint8_t)(PLACES - 1 - i);
}

static void orders(void)
{
    uint8_t order[PLACES + 1] = { 0 };
    backwards(order);
    CHECK(yuthpram_check_order(order, PLACES) == 0);
    CHECK(yuthpram_check_order(order, PLACES - 1) == 6 && yuthpram_check_order(order, PLACES + 1) == 6 && yuthpram_check_order(order, 0) == 6);
    order[0] = 0;
    CHECK(yuthpram_check_order(order, PLACES) == 6);
    order[0] = PLACES;
    CHECK(yuthpram_check_order(order, PLACES) == 6);
}

// What is wrong with an order: a position and 6, or 0 and nothing stored.
static int fault_at(const uint8_t *order, size_t len, size_t position)
{
    reset();
    int found = yuthpram_order_fault(order, len, &count) == 6 && count == position;
    count = 0x99;
    return found && untouched();
}

static void order_faults(void)
{
    uint8_t order[64] = { 0 };
    backwards(order);
    ACCEPTS(yuthpram_order_fault(order, PLACES, &count));
    CHECK(untouched());
    CHECK(fault_at(NULL, 0, 0));
    for (size_t len = 0; len < sizeof order; len++)
        if (len != PLACES)
            CHECK(fault_at(order, len, len < PLACES ? len : PLACES));
    for (size_t at = 0; at < PLACES; at++) {
        uint8_t place = order[at];
        order[at] = PLACES;
        CHECK(fault_at(order, PLACES, at) && fault_at(order, 64, at) && yuthpram_check_order(order, PLACES) == 6);
        order[at] = 255;
        CHECK(fault_at(order, at + 1, at));
        order[at] = place;
    }
    // the later copy is at fault, unless an entry before it is out of range
    for (size_t first = 0; first < PLACES; first++)
        for (size_t second = first + 1; second < PLACES; second++) {
            uint8_t place = order[second], other = order[(first + second) / 2];
            order[second] = order[first];
            CHECK(fault_at(order, PLACES, second) && yuthpram_check_order(order, PLACES) == 6);
            order[(first + second) / 2] = PLACES;
            CHECK(fault_at(order, PLACES, (first + second) / 2));
            order[(first + second) / 2] = other;
            order[second] = place;
        }
}

static void writing(void)
{
    static const uint8_t catalogue[] = { 1, 2, 0x40, 100, 32, 2, 0x44, 0xb0, 15, 1, 9 };
    static const uint8_t ordered[] = { 15, 1, 9, 32, 2, 0x44, 0xb0, 1, 2, 0x40, 100 };
    uint8_t image[RECORD];
    default_record(image);
    ACCEPTS(yuthpram_write(image, RECORD, out, 0, &count));
    CHECK(count == 0 && kept(0));
    put(image, 0, 100);
    image[90] = 1;
    put(image, 91, 1200);
    image[130] = image[131] = 1;
    image[132] = 9;
    ACCEPTS(yuthpram_write(image, RECORD, out, sizeof out, &count));
    CHECK(count == 11 && memcmp(out, catalogue, 11) == 0 && kept(11));
    REFUSES(5, yuthpram_write(image, RECORD, out, 10, &count));
    image[281] = 1;
    REFUSES(6, yuthpram_write(image, RECORD, out, sizeof out, &count));
    backwards(image + 282);
    ACCEPTS(yuthpram_write(image, RECORD, out, 11, &count));
    CHECK(count == 11 && memcmp(out, ordered, 11) == 0 && kept(11));
    REFUSES(7, yuthpram_write(image, RECORD - 1, out, sizeof out, &count));
    image[131] = 21;
    REFUSES(7, yuthpram_write(image, RECORD, out, 0, &count));
}

// What each field is worth alone: the place of its flag, the place and value of its length.
static void field_lengths(void)
{
    static const struct { size_t flag, at, len, due; } alone[] = {
        { 88, 0, 0, 2 },    { 89, 0, 0, 3 },    { 90, 0, 0, 3 },   { 99, 0, 0, 10 },    { 108, 109, 2, 4 },
        { 130, 131, 2, 4 }, { 152, 153, 2, 4 }, { 174, 0, 0, 18 }, { 191, 218, 3, 46 }, { 255, 264, 4, 6 },
        { VERSIONS, 0, 0, 6 }, { VERSIONS, 305, 2, 14 }, { VERSIONS, 305, 14, 62 }, { VERSIONS, 305, 15, 67 }, { VERSIONS, 305, 16, 71 },
    };
    uint8_t image[RECORD];
    for (size_t i = 0; i < sizeof alone / sizeof *alone; i++) {
        default_record(image);
        image[alone[i].flag] = 1;
        if (alone[i].at != 0)
            image[alone[i].at] = (uint8_t)alone[i].len;
        if (alone[i].flag == 255)
            put(image, 256, 27);
        ACCEPTS(yuthpram_length(image, RECORD, &count));
        CHECK(count == alone[i].due && kept(0));
        ACCEPTS(yuthpram_write(image, RECORD, out, alone[i].due, &count));
        CHECK(count == alone[i].due);
        REFUSES(5, yuthpram_write(image, RECORD, out, alone[i].due - 1, &count));
    }
}

// A number at each place, on either side of each width: 0 and the defaults of the others are not due.
static void number_lengths(void)
{
    static const struct { uint64_t number; size_t due; } widths[] = {
        { 63, 3 }, { 64, 4 }, { 16383, 4 }, { 16384, 6 }, { 1073741823, 6 }, { 1073741824, 10 }, { BOUND - 1, 10 },
    };
    uint8_t image[RECORD];
    default_record(image);
    ACCEPTS(yuthpram_length(image, RECORD, &count));
    CHECK(count == 0 && kept(0));
    for (size_t place = 0; place < 11; place++)
        for (size_t i = 0; i < sizeof widths / sizeof *widths; i++) {
            default_record(image);
            put(image, 8 * place, widths[i].number);
            ACCEPTS(yuthpram_length(image, RECORD, &count));
            CHECK(count == widths[i].due && kept(0));
        }
}

// Whether an order is a permutation is not looked at; a malformed record is not measured.
static void order_lengths(void)
{
    uint8_t image[RECORD + 1] = { 0 };
    default_record(image);
    put(image, 0, 64);
    image[281] = 1;
    REFUSES(6, yuthpram_write(image, RECORD, out, sizeof out, &count));
    ACCEPTS(yuthpram_length(image, RECORD, &count));
    CHECK(count == 4);
    backwards(image + 282);
    ACCEPTS(yuthpram_length(image, RECORD, &count));
    CHECK(count == 4);
    image[281] = 0;
    REFUSES(7, yuthpram_length(image, RECORD, &count));
    default_record(image);
    put(image, 0, BOUND);
    REFUSES(7, yuthpram_length(image, RECORD, &count));
    default_record(image);
    REFUSES(7, yuthpram_length(image, RECORD - 1, &count));
    REFUSES(7, yuthpram_length(image, RECORD + 1, &count));
    REFUSES(7, yuthpram_length(NULL, 0, &count));
}

static void tidying(void)
{
    // unknown, initial_max_data 5 in eight bytes, ack_delay_exponent at its default
    static const uint8_t src[] = { 27, 0, 4, 8, 0xc0, 0, 0, 0, 0, 0, 0, 5, 0x40, 10, 1, 3 };
    static const uint8_t shortest[] = { 4, 1, 5 }, illegal[] = { 10, 1, 21 };
    ACCEPTS(yuthpram_tidy(1, src, sizeof src, out, sizeof out, &count));
    CHECK(count == 3 && memcmp(out, shortest, 3) == 0 && kept(3));
    ACCEPTS(yuthpram_tidy(1, shortest, 3, out, 3, &count));
    CHECK(count == 3 && memcmp(out, shortest, 3) == 0 && kept(3));
    REFUSES(5, yuthpram_tidy(1, src, sizeof src, out, 2, &count));
    REFUSES(10, yuthpram_tidy(1, src, sizeof src - 1, out, sizeof out, &count));
    REFUSES(2, yuthpram_tidy(0, illegal, 3, out, 0, &count));
}

// What is reported of an extension that is accepted. The first count is what tidying stores, and with the three behind it the length.
static void reports(uint8_t side, const uint8_t *src, size_t len, yuthpram_counts due, const char *what)
{
    size_t tidied = 0;
    CHECK(yuthpram_tidy(side, src, len, out, sizeof out, &tidied) == 0);
    reset();
    int accepted = yuthpram_report(side, src, len, &counts) == 0 && kept(0);
    expect(accepted && same_counts(counts, due), __LINE__, what);
    expect(counts.tidied == tidied && counts.tidied + counts.skipped + counts.restated + counts.saved == len, __LINE__, what);
}

// Tidied, skipped, restated, saved, named: counted by hand.
static void reporting(void)
{
    static const struct { const char *what; yuthpram_counts due; size_t len; uint8_t src[64]; } rows[] = {
        { "nothing", { 0, 0, 0, 0, 0 }, 0, { 0 } },
        { "unknown", { 0, 5, 0, 0, 0 }, 5, { 0x1b, 3, 0xaa, 0xbb, 0xcc } },
        { "unknown, twice", { 0, 4, 0, 0, 0 }, 4, { 0x1b, 0, 0x1b, 0 } },
        { "unknown, in longer forms", { 0, 14, 0, 0, 0 }, 14, { 0xc0, 0, 0, 0, 0, 0, 0, 0x1b, 0x80, 0, 0, 2, 0x40, 5 } },
        { "shortest", { 6, 0, 0, 0, 1 }, 6, { 1, 4, 0x80, 0, 0x75, 0x30 } },
        { "identifier of 2", { 3, 0, 0, 1, 1 }, 4, { 0x40, 1, 1, 5 } },
        { "identifier of 4", { 3, 0, 0, 3, 1 }, 6, { 0x80, 0, 0, 1, 1, 5 } },
        { "identifier of 8", { 3, 0, 0, 7, 1 }, 10, { 0xc0, 0, 0, 0, 0, 0, 0, 1, 1, 5 } },
        { "length of 2", { 3, 0, 0, 1, 1 }, 4, { 1, 0x40, 1, 5 } },
        { "length of 4", { 3, 0, 0, 3, 1 }, 6, { 1, 0x80, 0, 0, 1, 5 } },
        { "length of 8", { 3, 0, 0, 7, 1 }, 10, { 1, 0xc0, 0, 0, 0, 0, 0, 0, 1, 5 } },
        { "number of 2", { 3, 0, 0, 1, 1 }, 4, { 1, 2, 0x40, 5 } },
        { "number of 4", { 3, 0, 0, 3, 1 }, 6, { 1, 4, 0x80, 0, 0, 5 } },
        { "number of 8", { 3, 0, 0, 7, 1 }, 10, { 1, 8, 0xc0, 0, 0, 0, 0, 0, 0, 5 } },
        { "number of 8 for 2", { 4, 0, 0, 6, 1 }, 10, { 1, 8, 0xc0, 0, 0, 0, 0, 0, 0, 64 } },
        { "all three of 2", { 3, 0, 0, 3, 1 }, 6, { 0x40, 1, 0x40, 2, 0x40, 5 } },
        { "default", { 0, 0, 3, 0, 1 }, 3, { 0x0e, 1, 2 } },
        { "default, all three of 2", { 0, 0, 6, 0, 1 }, 6, { 0x40, 0x0e, 0x40, 2, 0x40, 2 } },
        { "default of 8", { 0, 0, 10, 0, 1 }, 10, { 3, 8, 0xc0, 0, 0, 0, 0, 0, 0xff, 0xf7 } },
        { "datagram size of 0", { 3, 0, 0, 0, 1 }, 3, { 0x20, 1, 0 } },
        { "datagram size of 0, all three of 2", { 3, 0, 0, 3, 1 }, 6, { 0x40, 0x20, 0x40, 2, 0x40, 0 } },
        { "min_ack_delay of 0, in 2", { 10, 0, 0, 1, 1 }, 11, { 0xc0, 0, 0, 0, 0xff, 4, 0xde, 0x1b, 2, 0x40, 0 } },
        { "flag, both of 4", { 3, 0, 0, 5, 1 }, 8, { 0x80, 0, 0x2a, 0xb2, 0x80, 0, 0, 0 } },
        { "ID, length of 2", { 5, 0, 0, 1, 1 }, 6, { 0x0f, 0x40, 3, 7, 8, 9 } },
        { "ID of none, length of 8", { 2, 0, 0, 7, 1 }, 9, { 0x0f, 0xc0 } },
        { "ID that looks like a number", { 4, 0, 0, 0, 1 }, 4, { 0x0f, 2, 0x40, 5 } },
        { "versions, length of 2", { 10, 0, 0, 1, 1 }, 11, { 0x11, 0x40, 8, 0, 0, 0, 1, 0, 0, 0, 1 } },
        { "versions that look like numbers, identifier of 8", { 10, 0, 0, 7, 1 }, 17,
          { 0xc0, 0, 0, 0, 0, 0, 0, 0x11, 8, 0x40, 5, 0x40, 5, 0x40, 5, 0x40, 5 } },
        { "one of each", { 3, 3, 3, 1, 2 }, 10, { 1, 2, 0x40, 5, 0x1b, 1, 0, 0x0e, 1, 2 } },
    };
    // of a server: an ID, a token and an address with a length in a longer form, and what looks like a number within
    static const struct { const char *what; yuthpram_counts due; size_t len; uint8_t src[64]; } of_server[] = {
        { "original_dst_cid, length of 8", { 4, 0, 0, 7, 1 }, 11, { 0, 0xc0, 0, 0, 0, 0, 0, 0, 2, 0x40, 5 } },
        { "retry_src_cid, identifier of 2", { 2, 0, 0, 1, 1 }, 3, { 0x40, 0x10, 0 } },
        { "token, identifier of 2, length of 4", { 18, 0, 0, 4, 1 }, 22, { 0x40, 2, 0x80, 0, 0, 16, 0x40, 5 } },
        { "address, length of 2", { 45, 0, 0, 1, 1 }, 46, { 0x0d, 0x40, 43, 127, 0, 0, 1, 0x40, 5, [27] = 2, 0x40, 5 } },
    };
    for (size_t i = 0; i < sizeof rows / sizeof *rows; i++)
        for (uint8_t side = 0; side < 2; side++)
            reports(side, rows[i].src, rows[i].len, rows[i].due, rows[i].what);
    for (size_t i = 0; i < sizeof of_server / sizeof *of_server; i++) {
        reports(YUTHPRAM_CLIENT, of_server[i].src, of_server[i].len, of_server[i].due, of_server[i].what);
        REFUSES(2, yuthpram_report(YUTHPRAM_SERVER, of_server[i].src, of_server[i].len, &counts));
        REFUSES(2, yuthpram_report(255, of_server[i].src, of_server[i].len, &counts));
    }
    // behind a number in a longer form: each refusal, and a value that is found behind the last one
    static const uint8_t cut[] = { 1, 2, 0x40, 5, 4, 2, 1 }, twice[] = { 1, 2, 0x40, 5, 1, 1, 5 }, left[] = { 1, 2, 0x40, 5, 4, 2, 1, 0 };
    static const uint8_t illegal[] = { 0x40, 10, 1, 21, 0x1b, 0 };
    REFUSES(YUTHPRAM_CUT, yuthpram_report(YUTHPRAM_CLIENT, cut, sizeof cut, &counts));
    REFUSES(YUTHPRAM_SECOND_COPY, yuthpram_report(YUTHPRAM_CLIENT, twice, sizeof twice, &counts));
    REFUSES(YUTHPRAM_MISFIT, yuthpram_report(YUTHPRAM_CLIENT, left, sizeof left, &counts));
    REFUSES(YUTHPRAM_ILLEGAL_VALUE, yuthpram_report(YUTHPRAM_CLIENT, illegal, sizeof illegal, &counts));
}

// Each count in its field: five that all differ, so that no two of them can be exchanged.
static void each_count(void)
{
    static const uint8_t src[] = {
        0x1b, 4, 0xaa, 0xbb, 0xcc, 0xdd, // unknown: 6 skipped
        0x0e, 1, 2, // active_connection_id_limit 2: 3 restated
        0x40, 0x0a, 1, 3, // ack_delay_exponent 3: 4 restated
        1, 2, 0x40, 5, // max_idle_timeout 5: 3 tidied, 1 saved
        4, 4, 0x80, 0, 0, 5, // initial_max_data 5: 3 tidied, 3 saved
        0x0c, 0, // disable_active_migration: 2 tidied
    };
    static const size_t due[] = { 3 + 3 + 2, 6, 3 + 4, 1 + 3, 5 };
    for (uint8_t side = 0; side < 2; side++) {
        ACCEPTS(yuthpram_report(side, src, sizeof src, &counts));
        CHECK(counts.tidied == 8);
        CHECK(counts.skipped == 6);
        CHECK(counts.restated == 7);
        CHECK(counts.saved == 4);
        CHECK(counts.named == 5);
        CHECK(memcmp(&counts, due, sizeof due) == 0 && kept(0));
        CHECK(counts.tidied + counts.skipped + counts.restated + counts.saved == sizeof src);
    }
}

// An extension that is put together, and the counts that are due to it.
struct mix { uint8_t src[1024]; size_t len; yuthpram_counts due; };

// The forms of a parameter's numbers, in bytes; a number that one does not hold is put in its shortest form.
struct forms { size_t id, len, value; };

static size_t form_of(uint64_t x, size_t size)
{
    return size < least(x) ? least(x) : size;
}

// A number; gives what its shortest form would save.
static size_t add(struct mix *m, uint64_t x, size_t size)
{
    size = form_of(x, size);
    put_number(m->src + m->len, x, size);
    m->len += size;
    return size - least(x);
}

// Counts the known parameter from a place on: as a default, or what is saved in it, and the rest.
static void name(struct mix *m, size_t from, int is_default, size_t more)
{
    m->due.named++;
    if (is_default) {
        m->due.restated += m->len - from;
        return;
    }
    m->due.saved += more;
    m->due.tidied += m->len - from - more;
}

// The known parameters: numbers, of places 0 to 10 first, with the default or 0 and with another value; of the others how long a value is.
enum { PLAIN = 11, NUMBERS = 13 };
static const struct { uint64_t id, usual, other; } with_number[NUMBERS] = {
    { 0x01, 0, 63 },        { 0x03, 65527, 1200 }, { 0x04, 0, 64 },        { 0x05, 0, 16383 },         { 0x06, 0, 16384 },
    { 0x07, 0, BOUND - 1 }, { 0x08, 0, 1 },        { 0x09, 0, BOUND / 4 }, { 0x0a, 3, 2 },             { 0x0b, 25, 16383 },
    { 0x0e, 2, 3 },         { 0x20, 0, 1 << 30 },  { 0xff04de1b, 0, 25000 },
};
static const struct { uint64_t id; size_t len; int of_server; } with_bytes[KNOWN - NUMBERS] = {
    { 0x00, 20, 1 }, { 0x02, 16, 1 }, { 0x0c, 0, 0 }, { 0x0d, 42, 1 }, { 0x0f, 8, 0 }, { 0x10, 0, 1 }, { 0x2ab2, 0, 0 },
    { 0x11, 12, 0 },
};

static void add_number(struct mix *m, size_t i, int is_usual, struct forms f)
{
    uint64_t x = is_usual ? with_number[i].usual : with_number[i].other;
    size_t from = m->len, more = add(m, with_number[i].id, f.id);
    more += add(m, form_of(x, f.value), f.len);
    more += add(m, x, f.value);
    name(m, from, is_usual && i < PLAIN, more);
}

// Its value is 1 over and over: an address has an ID of one byte.
static size_t add_bytes(struct mix *m, uint64_t id, size_t len, struct forms f)
{
    size_t more = add(m, id, f.id);
    more += add(m, len, f.len);
    memset(m->src + m->len, 1, len);
    m->len += len;
    return more;
}

// Each number, at its default and at another value, in each form of identifier, length and value.
static void number_reports(void)
{
    for (size_t i = 0; i < NUMBERS; i++)
        for (int forms = 0; forms < 128; forms++) {
            struct mix m = { .len = 0 };
            struct forms f = { (size_t)1 << forms % 4, (size_t)1 << forms / 4 % 4, (size_t)1 << forms / 16 % 4 };
            add_number(&m, i, forms < 64, f);
            reports(YUTHPRAM_SERVER, m.src, m.len, m.due, "a number in some form");
        }
}

// Numbers that look random, always the same ones.
static size_t draw(size_t below)
{
    static uint32_t x = 1;
    x ^= x << 13;
    x ^= x >> 17;
    x ^= x << 5;
    return x % below;
}

static void add_drawn(struct mix *m, size_t i, int *of_server)
{
    static const uint64_t unknown[] = { 0x1b, 0x3a, 0x21, 0x2ab1, 0xff04de1a, BOUND - 1 };
    struct forms f = { (size_t)1 << draw(4), (size_t)1 << draw(4), (size_t)1 << draw(4) };
    size_t from = m->len;
    if (draw(4) == 0) {
        add_bytes(m, unknown[draw(6)], draw(9), f);
        m->due.skipped += m->len - from;
        from = m->len;
    }
    if (i < NUMBERS) {
        add_number(m, i, draw(2) == 0, f);
        return;
    }
    name(m, from, 0, add_bytes(m, with_bytes[i - NUMBERS].id, with_bytes[i - NUMBERS].len, f));
    *of_server |= with_bytes[i - NUMBERS].of_server;
}

// Mixes of parameters in any order, each in some form: the counts are those by which it was put together, and what is cut is refused as in reading.
static void mixed_reports(void)
{
    for (int n = 0; n < 500; n++) {
        struct mix m = { .len = 0 };
        int of_server = 0, alike = 1;
        size_t places[KNOWN], most = draw(KNOWN + 1);
        for (size_t i = 0; i < KNOWN; i++)
            places[i] = i;
        for (size_t i = 0; i < most; i++) {
            size_t j = i + draw(KNOWN - i), place = places[j];
            places[j] = places[i];
            add_drawn(&m, place, &of_server);
        }
        reports(YUTHPRAM_CLIENT, m.src, m.len, m.due, "a mix");
        if (of_server)
            REFUSES(2, yuthpram_report(YUTHPRAM_SERVER, m.src, m.len, &counts));
        else
            reports(YUTHPRAM_SERVER, m.src, m.len, m.due, "a mix that a client may send");
        for (size_t cut = 0; cut < m.len; cut++) {
            uint8_t refusal = yuthpram_read(YUTHPRAM_CLIENT, m.src, cut, out, RECORD);
            reset();
            alike &= yuthpram_report(YUTHPRAM_CLIENT, m.src, cut, &counts) == refusal && (refusal == 0 || untouched());
        }
        CHECK(alike);
    }
}

// Whether the version information of an image is all zero.
static int no_versions(const uint8_t *image)
{
    for (size_t at = VERSIONS; at < RECORD; at++)
        if (image[at] != 0)
            return 0;
    return 1;
}

static void building(void)
{
    const uint64_t settings[YUTHPRAM_SETTINGS] = { 100, 101, 1 << 20, 1 << 16, 30000, 1472, 1, 1, 70000, 8, 1, 0 };
    const uint8_t cid[CID] = { 2, 5, 6 }, payload[16] = { 1, 2, 3 };
    uint8_t order[PLACES], image[RECORD], extension[YUTHPRAM_MAX_EXTENSION];
    backwards(order);
    ACCEPTS(yuthpram_new(settings, YUTHPRAM_SETTINGS, cid, CID, 40, payload, 3, order, PLACES, out, sizeof out));
    CHECK(kept(RECORD) && yuthpram_check(out, RECORD, 0) == 0);
    memcpy(image, out, RECORD);
    CHECK(get(image, 0) == 30000 && get(image, 8) == 1472 && get(image, 16) == 1 << 20 && get(image, 80) == 5);
    for (size_t at = 24; at < 48; at += 8)
        CHECK(get(image, at) == 1 << 16);
    CHECK(get(image, 48) == 100 && get(image, 56) == 101 && image[88] == 1 && image[89] == 1);
    CHECK(image[90] == 1 && get(image, 91) == 65535 && image[99] == 1 && get(image, 100) == 1000);
    CHECK(image[130] == 1 && memcmp(image + 131, cid, CID) == 0);
    CHECK(image[255] == 1 && get(image, 256) == 58 && image[264] == 3 && memcmp(image + 265, payload, 16) == 0);
    CHECK(no_versions(image));
    CHECK(image[281] == 1 && memcmp(image + 282, order, PLACES) == 0);

    // what was built can be written and read back, but for the reserved parameter and the order
    size_t n = 0;
    CHECK(yuthpram_write(image, RECORD, extension, sizeof extension, &n) == 0);
    ACCEPTS(yuthpram_read(0, extension, n, out, RECORD));
    memset(image + 255, 0, RECORD - 255);
    CHECK(memcmp(out, image, RECORD) == 0);
}

static void not_building(void)
{
    uint64_t settings[YUTHPRAM_SETTINGS] = { 0, 0, 0, 0, 0, 1200, 0, 0, 0, 0, 0, 0 };
    uint8_t cid[CID] = { 2, 5, 6 }, payload[16] = { 0 }, order[PLACES];
    const size_t n = YUTHPRAM_SETTINGS;
    backwards(order);
    ACCEPTS(yuthpram_new(settings, n, cid, CID, BOUND - 28, payload, 15, order, PLACES, out, RECORD));
    CHECK(out[90] == 0 && get(out, 91) == 0 && out[88] == 0 && get(out, 80) == 2);
    REFUSES(7, yuthpram_new(settings, n - 1, cid, CID, 0, payload, 0, order, PLACES, out, RECORD));
    REFUSES(7, yuthpram_new(settings, n, cid, CID - 1, 0, payload, 0, order, PLACES, out, RECORD));
    REFUSES(9, yuthpram_new(settings, n, cid, CID, BOUND - 27, payload, 0, order, PLACES, out, RECORD));
    REFUSES(9, yuthpram_new(settings, n, cid, CID, 0, payload, 16, order, PLACES, out, RECORD));
    REFUSES(6, yuthpram_new(settings, n, cid, CID, 0, payload, 0, order, PLACES - 1, out, RECORD));
    REFUSES(5, yuthpram_new(settings, n, cid, CID, 0, payload, 0, order, PLACES, out, RECORD - 1));
    settings[YUTHPRAM_SETTING_DATAGRAM_RECEIVE_BUFFER_SIZE] = settings[YUTHPRAM_SETTING_CID_LEN] = UINT64_MAX;
    ACCEPTS(yuthpram_new(settings, n, cid, CID, 0, payload, 0, order, PLACES, out, RECORD));
    CHECK(out[90] == 0 && get(out, 80) == 5);
    settings[YUTHPRAM_SETTING_RECEIVE_WINDOW] = BOUND;
    REFUSES(4, yuthpram_new(settings, n, cid, CID - 1, BOUND, payload, 16, order, 0, out, 0));
    settings[YUTHPRAM_SETTING_RECEIVE_WINDOW] = 0;
    cid[0] = 1;
    REFUSES(7, yuthpram_new(settings, n, cid, CID, BOUND, payload, 16, order, 0, out, 0));
}

static void resumption(void)
{
    uint8_t image[RECORD], cached[RECORD];
    default_record(image);
    default_record(cached);
    CHECK(yuthpram_validate_resumption_from(image, RECORD, cached, RECORD) == 0);
    put(cached, 16, 5); // initial_max_data
    CHECK(yuthpram_validate_resumption_from(image, RECORD, cached, RECORD) == 8);
    CHECK(yuthpram_validate_resumption_from(cached, RECORD, image, RECORD) == 0);
    CHECK(yuthpram_validate_resumption_from(image, RECORD - 1, cached, RECORD) == 7);
    CHECK(yuthpram_validate_resumption_from(image, RECORD, cached, 0) == 7);
    put(cached, 0, BOUND);
    CHECK(yuthpram_validate_resumption_from(image, RECORD, cached, RECORD) == 7);

    ACCEPTS(yuthpram_issue_cids_limit(image, RECORD, &value));
    CHECK(value == 2);
    put(image, 80, 9);
    ACCEPTS(yuthpram_issue_cids_limit(image, RECORD, &value));
    CHECK(value == 8);
    put(image, 0, BOUND); // not well formed, and an image all the same
    ACCEPTS(yuthpram_issue_cids_limit(image, RECORD, &value));
    CHECK(value == 8);
    REFUSES(7, yuthpram_issue_cids_limit(image, RECORD - 1, &value));
}

// Each datagram size resumed to from each: an absent one counts as 0. Reading and writing tell it from 0.
static void datagram_sizes(void)
{
    static const uint64_t sizes[] = { 0, 0, 1, 65535, BOUND - 1 }; // the first is absent
    static const uint8_t zero[] = { 0x20, 0x01, 0x00 };
    uint8_t images[5][RECORD];
    for (size_t i = 0; i < 5; i++) {
        default_record(images[i]);
        images[i][90] = i > 0;
        put(images[i], 91, sizes[i]);
    }
    for (size_t i = 0; i < 5; i++)
        for (size_t j = 0; j < 5; j++)
            CHECK(yuthpram_validate_resumption_from(images[i], RECORD, images[j], RECORD) == (sizes[i] < sizes[j] ? 8 : 0));

    for (size_t i = 0; i < 2; i++) {
        size_t due = 3 * i;
        ACCEPTS(yuthpram_read(YUTHPRAM_CLIENT, zero, due, out, RECORD));
        CHECK(memcmp(out, images[i], RECORD) == 0);
        ACCEPTS(yuthpram_write(images[i], RECORD, out, sizeof out, &count));
        CHECK(count == due && memcmp(out, zero, due) == 0 && kept(due));
        ACCEPTS(yuthpram_tidy(YUTHPRAM_CLIENT, zero, due, out, sizeof out, &count));
        CHECK(count == due && memcmp(out, zero, due) == 0 && kept(due));
    }
}

// Who is at the other end. A record's ID is absent, the one seen, one of other bytes, or one byte longer with equal bytes and zeros.
enum { ABSENT, SAME, OTHER, LONGER, STATES };
enum { INITIAL, ORIGINAL, RETRY, IDS };

static const uint8_t seen[IDS][CID] = { { 3, 7, 8, 9 }, { 8, 1, 2, 3, 4, 5, 6, 7, 8 }, { 2, 5, 6 } }, no_id[CID];

static const size_t id_at[IDS] = { 130, 108, 152 };

static void put_id(uint8_t *image, int id, int state)
{
    uint8_t *at = image + id_at[id];
    memset(at, 0, 1 + CID);
    if (state == ABSENT)
        return;
    at[0] = 1;
    memcpy(at + 1, seen[id], CID);
    if (state == OTHER)
        at[2] ^= 0x80;
    if (state == LONGER)
        at[1]++;
}

static uint8_t authenticate(uint8_t side, const uint8_t *image, uint8_t retried)
{
    return yuthpram_authenticate_cids(side, image, RECORD, seen[INITIAL], CID, seen[ORIGINAL], CID, retried, retried ? seen[RETRY] : no_id, CID);
}

// What RFC 9000 section 7.3 says of it.
static uint8_t due(int server, int initial, int original, int retry, int retried)
{
    if (initial == ABSENT || (!server && (original == ABSENT || (retried && retry == ABSENT))))
        return YUTHPRAM_CID_ABSENT;
    if (initial != SAME || (!server && (original != SAME || retry != (retried ? SAME : ABSENT))))
        return YUTHPRAM_CID_MISMATCH;
    return YUTHPRAM_OK;
}

static void authentication(void)
{
    uint8_t image[RECORD];
    default_record(image);
    for (int i = 0; i < STATES * STATES * STATES; i++) {
        int initial = i % STATES, original = i / STATES % STATES, retry = i / STATES / STATES;
        put_id(image, INITIAL, initial);
        put_id(image, ORIGINAL, original);
        put_id(image, RETRY, retry);
        for (uint8_t retried = 0; retried < 3; retried++) {
            CHECK(authenticate(YUTHPRAM_CLIENT, image, retried) == due(0, initial, original, retry, retried));
            CHECK(authenticate(YUTHPRAM_SERVER, image, retried) == due(1, initial, original, retry, retried));
            CHECK(authenticate(7, image, retried) == due(1, initial, original, retry, retried));
        }
    }
}

// What is not well formed comes before 13 and 14, and whether the side looks at it or not.
static void authentication_of_ill_formed(void)
{
    uint8_t image[RECORD], ids[IDS][CID];
    default_record(image);
    for (int state = ABSENT; state < STATES; state++) {
        put_id(image, INITIAL, state);
        put_id(image, ORIGINAL, SAME);
        put_id(image, RETRY, SAME);
        for (uint8_t side = 0; side < 2; side++) {
            for (int id = 0; id < IDS; id++) {
                static const struct { size_t at; uint8_t byte; } ill[] = { { 0, 21 }, { 0, 255 }, { 20, 1 } };
                for (size_t i = 0; i < 3; i++) {
                    memcpy(ids, seen, sizeof ids);
                    ids[id][ill[i].at] = ill[i].byte;
                    CHECK(yuthpram_authenticate_cids(side, image, RECORD, ids[0], CID, ids[1], CID, 1, ids[2], CID) == YUTHPRAM_ILL_FORMED);
                    image[id_at[id] + 1 + ill[i].at] ^= 0x80;
                    CHECK(authenticate(side, image, 1) == YUTHPRAM_ILL_FORMED);
                    image[id_at[id] + 1 + ill[i].at] ^= 0x80;
                }
            }
            // an ID of a Retry that was not seen
            CHECK(yuthpram_authenticate_cids(side, image, RECORD, seen[0], CID, seen[1], CID, 0, seen[2], CID) == YUTHPRAM_ILL_FORMED);
            // what is no image
            CHECK(yuthpram_authenticate_cids(side, image, RECORD - 1, seen[0], CID, seen[1], CID, 1, seen[2], CID) == YUTHPRAM_ILL_FORMED);
            CHECK(yuthpram_authenticate_cids(side, image, RECORD, seen[0], CID - 1, seen[1], CID, 1, seen[2], CID) == YUTHPRAM_ILL_FORMED);
            CHECK(yuthpram_authenticate_cids(side, image, RECORD, seen[0], CID, NULL, 0, 1, seen[2], CID) == YUTHPRAM_ILL_FORMED);
            CHECK(yuthpram_authenticate_cids(side, image, RECORD, seen[0], CID, seen[1], CID, 0, NULL, 0) == YUTHPRAM_ILL_FORMED);
        }
    }
}

// A record that a side may not read can be asked all the same.
static void authentication_of_illegal(void)
{
    uint8_t image[RECORD];
    default_record(image);
    put_id(image, INITIAL, SAME);
    put_id(image, ORIGINAL, SAME);
    CHECK(yuthpram_check(image, RECORD, YUTHPRAM_SERVER) == YUTHPRAM_ILLEGAL_VALUE); // no server is sent original_dst_cid
    CHECK(authenticate(YUTHPRAM_SERVER, image, 0) == YUTHPRAM_OK);
    put(image, 8, 1199); // max_udp_payload_size
    CHECK(yuthpram_check(image, RECORD, YUTHPRAM_CLIENT) == YUTHPRAM_ILLEGAL_VALUE);
    CHECK(authenticate(YUTHPRAM_CLIENT, image, 0) == YUTHPRAM_OK);
    CHECK(authenticate(YUTHPRAM_CLIENT, image, 1) == YUTHPRAM_CID_ABSENT);
}

// VERSION INFORMATION (RFC 9368): a chosen version, and 0 to 16 available ones.
enum { MOST_AVAILABLE = 16, CHOSEN = VERSIONS + 2, AVAILABLE = CHOSEN + 4 };

// A value with so many available versions, 0xff000001, 0xff000002 and so on, of which the chosen one is the first.
static size_t put_versions(uint8_t *at, size_t available)
{
    for (size_t i = 0; i <= available; i++) {
        const uint8_t version[4] = { 0xff, 0, 0, (uint8_t)(i == 0 ? 1 : i) };
        memcpy(at + 4 * i, version, 4);
    }
    return 4 + 4 * available;
}

// The parameter of a value, in its shortest form.
static size_t versions_parameter(uint8_t *at, const uint8_t *value, size_t len)
{
    size_t head = len < 64 ? 1 : 2;
    at[0] = 0x11;
    put_number(at + 1, len, head);
    memcpy(at + 1 + head, value, len);
    return 1 + head + len;
}

static size_t versions_of(uint8_t *at, size_t available)
{
    uint8_t value[4 + 4 * MOST_AVAILABLE];
    return versions_parameter(at, value, put_versions(value, available));
}

// Each number of available versions, in each form of identifier and length: read by a client, and by a server if the chosen one is among them; the image;
// tidied to the shortest form, of which the length has two bytes from 64 on.
static void versions(void)
{
    for (size_t n = 0; n <= MOST_AVAILABLE; n++)
        for (int forms = 0; forms < 16; forms++) {
            uint8_t value[4 + 4 * MOST_AVAILABLE], image[RECORD], shortest[YUTHPRAM_MAX_EXTENSION];
            size_t len = put_versions(value, n), stored = versions_parameter(shortest, value, len);
            struct mix m = { .len = 0 };
            size_t more = add(&m, 0x11, (size_t)1 << forms / 4);
            more += add(&m, len, (size_t)1 << forms % 4);
            memcpy(m.src + m.len, value, len);
            m.len += len;
            name(&m, 0, 0, more);
            default_record(image);
            image[VERSIONS] = 1;
            image[VERSIONS + 1] = (uint8_t)n;
            memcpy(image + CHOSEN, value, len);
            CHECK(stored == len + (n < 15 ? 2 : 3));
            for (uint8_t side = 0; side < 2; side++) {
                if (side == YUTHPRAM_SERVER && n == 0) {
                    REFUSES(YUTHPRAM_ILLEGAL_VALUE, yuthpram_read(side, m.src, m.len, out, RECORD));
                    continue;
                }
                ACCEPTS(yuthpram_read(side, m.src, m.len, out, sizeof out));
                CHECK(memcmp(out, image, RECORD) == 0 && kept(RECORD));
                ACCEPTS(yuthpram_tidy(side, m.src, m.len, out, stored, &count));
                CHECK(count == stored && memcmp(out, shortest, stored) == 0 && kept(stored));
                REFUSES(YUTHPRAM_BUFFER_TOO_SHORT, yuthpram_tidy(side, m.src, m.len, out, stored - 1, &count));
                reports(side, m.src, m.len, m.due, "version information");
            }
            ACCEPTS(yuthpram_length(image, RECORD, &count));
            CHECK(count == stored);
            ACCEPTS(yuthpram_write(image, RECORD, out, stored, &count));
            CHECK(count == stored && memcmp(out, shortest, stored) == 0 && kept(stored));
            REFUSES(YUTHPRAM_BUFFER_TOO_SHORT, yuthpram_write(image, RECORD, out, stored - 1, &count));
            CHECK(yuthpram_check(image, RECORD, YUTHPRAM_CLIENT) == YUTHPRAM_OK);
            CHECK(yuthpram_check(image, RECORD, YUTHPRAM_SERVER) == (n == 0 ? YUTHPRAM_ILLEGAL_VALUE : YUTHPRAM_OK));
        }
}

// Read, tidied and reported by a side, all with the same answer.
static void answered(uint8_t refusal, uint8_t side, const uint8_t *src, size_t len)
{
    reset();
    CHECK(yuthpram_read(side, src, len, out, RECORD) == refusal && (refusal == 0 || untouched()));
    reset();
    CHECK(yuthpram_tidy(side, src, len, out, sizeof out, &count) == refusal && (refusal == 0 || untouched()));
    reset();
    CHECK(yuthpram_report(side, src, len, &counts) == refusal && (refusal == 0 || untouched()));
}

// A value of each length that is not a chosen version and at most sixteen available ones.
static void versions_that_do_not_fit(void)
{
    uint8_t value[80], src[96];
    memset(value, 7, sizeof value);
    for (size_t len = 0; len <= sizeof value; len++) {
        size_t n = versions_parameter(src, value, len);
        if (len > 0)
            answered(YUTHPRAM_CUT, YUTHPRAM_CLIENT, src, n - 1);
        uint8_t refusal = len >= 4 && len <= 68 && len % 4 == 0 ? YUTHPRAM_OK : YUTHPRAM_MISFIT;
        answered(refusal, YUTHPRAM_CLIENT, src, n);
        answered(len == 4 ? YUTHPRAM_ILLEGAL_VALUE : refusal, YUTHPRAM_SERVER, src, n);
    }
}

// A version of 0 at each place is not allowed; a server has to find the chosen one at some place, and a client does not look for it. A record is checked by
// the same rules.
static void versions_not_allowed(void)
{
    for (size_t n = 0; n <= MOST_AVAILABLE; n++)
        for (size_t at = 0; at <= n; at++) {
            uint8_t src[80], image[RECORD], missing[RECORD], alone[RECORD];
            size_t len = versions_of(src, n), head = len - 4 - 4 * n;
            memset(src + head + 4 * at, 0, 4);
            answered(YUTHPRAM_ILLEGAL_VALUE, YUTHPRAM_CLIENT, src, len);
            answered(YUTHPRAM_ILLEGAL_VALUE, YUTHPRAM_SERVER, src, len);
            default_record(image);
            image[VERSIONS] = 1;
            image[VERSIONS + 1] = (uint8_t)n;
            memcpy(image + CHOSEN, src + head, 4 + 4 * n);
            CHECK(yuthpram_check(image, RECORD, YUTHPRAM_CLIENT) == YUTHPRAM_ILLEGAL_VALUE);
            CHECK(yuthpram_check(image, RECORD, YUTHPRAM_SERVER) == YUTHPRAM_ILLEGAL_VALUE);

            // the chosen one at no place, and only at this one
            len = versions_of(src, n);
            src[head] = 0xfe;
            answered(YUTHPRAM_OK, YUTHPRAM_CLIENT, src, len);
            answered(YUTHPRAM_ILLEGAL_VALUE, YUTHPRAM_SERVER, src, len);
            ACCEPTS(yuthpram_read(YUTHPRAM_CLIENT, src, len, missing, RECORD));
            memcpy(src + head + 4 * at, src + head, 4);
            uint8_t refusal = at == 0 ? YUTHPRAM_ILLEGAL_VALUE : YUTHPRAM_OK;
            answered(YUTHPRAM_OK, YUTHPRAM_CLIENT, src, len);
            answered(refusal, YUTHPRAM_SERVER, src, len);
            ACCEPTS(yuthpram_read(YUTHPRAM_CLIENT, src, len, alone, RECORD));
            CHECK(yuthpram_check(missing, RECORD, YUTHPRAM_CLIENT) == 0 && yuthpram_check(missing, RECORD, YUTHPRAM_SERVER) == 2);
            CHECK(yuthpram_check(alone, RECORD, YUTHPRAM_CLIENT) == 0 && yuthpram_check(alone, RECORD, YUTHPRAM_SERVER) == refusal);
        }
}

// Versions of which one byte is not 0, and a chosen one from which the available one differs in one byte.
static void versions_by_bytes(void)
{
    for (size_t byte = 0; byte < 4; byte++) {
        uint8_t value[8] = { 0 }, src[16];
        value[byte] = value[4 + byte] = 1;
        size_t len = versions_parameter(src, value, sizeof value);
        answered(YUTHPRAM_OK, YUTHPRAM_CLIENT, src, len);
        answered(YUTHPRAM_OK, YUTHPRAM_SERVER, src, len);
        memset(src + 2, 7, sizeof value);
        src[2 + byte] ^= 0x80;
        answered(YUTHPRAM_OK, YUTHPRAM_CLIENT, src, len);
        answered(YUTHPRAM_ILLEGAL_VALUE, YUTHPRAM_SERVER, src, len);
    }
}

// What is found before a version that is not allowed: each fault of a parameter, behind it or before it. And a number that is not allowed either.
static void versions_and_faults(void)
{
    static const struct { uint8_t refusal, len, src[6]; } others[] = {
        { YUTHPRAM_CUT, 3, { 1, 2, 5 } },
        { YUTHPRAM_SECOND_COPY, 4, { 0x0c, 0, 0x0c, 0 } },
        { YUTHPRAM_MISFIT, 4, { 1, 2, 5, 0 } },
        { YUTHPRAM_ILLEGAL_VALUE, 3, { 10, 1, 21 } },
        { YUTHPRAM_ILLEGAL_VALUE, 3, { 0x1b, 1, 5 } },
    };
    uint8_t good[80], bad[80], src[256];
    size_t len = versions_of(good, 2);
    versions_of(bad, 2);
    memset(bad + 2, 0, 4);
    for (size_t i = 0; i < sizeof others / sizeof *others; i++) {
        size_t n = others[i].len;
        memcpy(src, bad, len);
        memcpy(src + len, others[i].src, n);
        answered(others[i].refusal, YUTHPRAM_CLIENT, src, len + n);
        if (others[i].refusal == YUTHPRAM_CUT)
            continue; // what stands behind would be taken into it
        memcpy(src, others[i].src, n);
        memcpy(src + n, bad, len);
        answered(others[i].refusal, YUTHPRAM_CLIENT, src, n + len);
        // a fault of version information is found behind, or before
        src[n + 1]--;
        answered(others[i].refusal == YUTHPRAM_ILLEGAL_VALUE ? YUTHPRAM_MISFIT : others[i].refusal, YUTHPRAM_CLIENT, src, n + len - 1);
    }
    // a second copy, of whatever value, and cut
    const uint8_t *twice[] = { good, bad };
    for (size_t i = 0; i < 4; i++) {
        memcpy(src, twice[i / 2], len);
        memcpy(src + len, twice[i % 2], len);
        answered(YUTHPRAM_SECOND_COPY, YUTHPRAM_CLIENT, src, 2 * len);
        for (size_t cut = len + 1; cut < 2 * len; cut++)
            answered(YUTHPRAM_CUT, YUTHPRAM_CLIENT, src, cut);
        src[len + 1]--;
        answered(YUTHPRAM_SECOND_COPY, YUTHPRAM_CLIENT, src, 2 * len - 1);
    }
}

// What is not well formed: a count of more than 16, a version behind the last one, anything where it is absent. Every operation on a record but the issue limit
// refuses it, and an order or a side does not matter.
static void ill_formed_versions(void)
{
    static const struct { size_t count, at; int present; } ill[] = {
        { 17, 0, 1 }, { 255, 0, 1 }, { 0, AVAILABLE, 1 }, { 0, AVAILABLE + 3, 1 }, { 1, AVAILABLE + 4, 1 }, { 15, RECORD - 4, 1 }, { 15, RECORD - 1, 1 },
        { 1, 0, 0 }, { 17, 0, 0 }, { 0, CHOSEN, 0 }, { 0, CHOSEN + 3, 0 }, { 0, AVAILABLE, 0 }, { 1, AVAILABLE, 0 }, { 0, RECORD - 1, 0 },
    };
    uint8_t image[RECORD], good[RECORD];
    default_record(good);
    put_id(good, INITIAL, SAME);
    for (size_t i = 0; i < sizeof ill / sizeof *ill; i++) {
        memcpy(image, good, RECORD);
        image[VERSIONS] = (uint8_t)ill[i].present;
        image[VERSIONS + 1] = (uint8_t)ill[i].count;
        if (ill[i].present)
            image[CHOSEN] = 1;
        if (ill[i].at != 0)
            image[ill[i].at] = 1;
        for (uint8_t side = 0; side < 2; side++) {
            REFUSES(YUTHPRAM_ILL_FORMED, yuthpram_check(image, RECORD, side));
            REFUSES(YUTHPRAM_ILL_FORMED, authenticate(side, image, 0));
        }
        REFUSES(YUTHPRAM_ILL_FORMED, yuthpram_write(image, RECORD, out, sizeof out, &count));
        REFUSES(YUTHPRAM_ILL_FORMED, yuthpram_write(image, RECORD, out, 0, &count));
        REFUSES(YUTHPRAM_ILL_FORMED, yuthpram_length(image, RECORD, &count));
        REFUSES(YUTHPRAM_ILL_FORMED, yuthpram_validate_resumption_from(image, RECORD, good, RECORD));
        REFUSES(YUTHPRAM_ILL_FORMED, yuthpram_validate_resumption_from(good, RECORD, image, RECORD));
        ACCEPTS(yuthpram_issue_cids_limit(image, RECORD, &value));
        CHECK(value == 2);
    }
}

// Resumption, the issue limit and authentication do not look at version information.
static void versions_not_looked_at(void)
{
    uint8_t with[RECORD], without[RECORD];
    default_record(without);
    put_id(without, INITIAL, SAME);
    memcpy(with, without, RECORD);
    with[VERSIONS] = 1; // a chosen version of 0
    CHECK(yuthpram_check(with, RECORD, YUTHPRAM_SERVER) == YUTHPRAM_ILLEGAL_VALUE);
    CHECK(yuthpram_validate_resumption_from(with, RECORD, without, RECORD) == 0 && yuthpram_validate_resumption_from(without, RECORD, with, RECORD) == 0);
    CHECK(authenticate(YUTHPRAM_SERVER, with, 0) == YUTHPRAM_OK);
    ACCEPTS(yuthpram_issue_cids_limit(with, RECORD, &value));
    CHECK(value == 2);
}

// A record that has everything, as long as it can be: 385 bytes, in every order of a round.
static void longest_record(void)
{
    static const size_t ids[] = { 109, 131, 153, 218 };
    uint8_t image[RECORD], extension[YUTHPRAM_MAX_EXTENSION], rest[YUTHPRAM_MAX_EXTENSION];
    memset(image, 1, RECORD);
    for (size_t place = 0; place < 11; place++)
        put(image, 8 * place, BOUND - 1);
    put(image, 91, BOUND - 1);
    put(image, 100, BOUND - 1);
    for (size_t i = 0; i < sizeof ids / sizeof *ids; i++)
        image[ids[i]] = 20;
    put(image, 256, BOUND - 1 - (BOUND - 1 - 27) % 31);
    image[264] = 16;
    image[VERSIONS + 1] = MOST_AVAILABLE;
    size_t head = 1 + 2, own = head + 4 + 4 * MOST_AVAILABLE;
    for (uint8_t first = 0; first < PLACES; first++) {
        for (uint8_t i = 0; i < PLACES; i++)
            image[282 + i] = (uint8_t)((first + i) % PLACES);
        ACCEPTS(yuthpram_length(image, RECORD, &count));
        CHECK(count == YUTHPRAM_MAX_EXTENSION);
        ACCEPTS(yuthpram_write(image, RECORD, out, sizeof out, &count));
        CHECK(count == YUTHPRAM_MAX_EXTENSION && kept(count));
        memcpy(extension, out, YUTHPRAM_MAX_EXTENSION);
        REFUSES(YUTHPRAM_BUFFER_TOO_SHORT, yuthpram_write(image, RECORD, out, YUTHPRAM_MAX_EXTENSION - 1, &count));

        // place 21 stands behind those that come before it, and the rest is as without it
        uint8_t without[RECORD];
        memcpy(without, image, RECORD);
        memset(without + VERSIONS, 0, RECORD - VERSIONS);
        size_t stored = 0;
        int found = 0;
        ACCEPTS(yuthpram_write(without, RECORD, rest, sizeof rest, &stored));
        CHECK(stored == YUTHPRAM_MAX_EXTENSION - own);
        for (size_t from = 0; from <= stored; from++)
            found += extension[from] == 0x11 && extension[from + 1] == 0x40 && extension[from + 2] == 68 && memcmp(extension, rest, from) == 0
                && memcmp(extension + from + head, image + CHOSEN, 68) == 0 && memcmp(extension + from + own, rest + from, stored - from) == 0;
        CHECK(found == 1);
    }
}

// In an order version information stands at its own place, wherever that is.
static void versions_in_orders(void)
{
    static const uint8_t idle[] = { 1, 1, 5 }, grease[] = { 0x6a, 0xb2, 0 };
    for (size_t at = 0; at < PLACES; at++) {
        uint8_t image[RECORD], expected[16];
        size_t len = 0;
        default_record(image);
        put(image, 0, 5);
        image[89] = image[VERSIONS] = image[VERSIONS + 1] = image[281] = 1;
        memset(image + CHOSEN, 9, 8);
        for (size_t i = 0; i < PLACES; i++) {
            size_t place = i == at ? PLACES - 1 : i < at ? i : i - 1;
            image[282 + i] = (uint8_t)place;
            if (place == 0 || place == 19) {
                memcpy(expected + len, place == 0 ? idle : grease, 3);
                len += 3;
            }
            if (place == PLACES - 1)
                len += versions_parameter(expected + len, image + CHOSEN, 8);
        }
        ACCEPTS(yuthpram_write(image, RECORD, out, sizeof out, &count));
        CHECK(count == len && len == sizeof expected && memcmp(out, expected, len) == 0 && kept(len));
        ACCEPTS(yuthpram_read(YUTHPRAM_SERVER, expected, len, out, RECORD));
        memset(image + 281, 0, 1 + PLACES);
        CHECK(memcmp(out, image, RECORD) == 0);
    }
}

// What is no image is 7 in every function that takes one.
static void no_images(void)
{
    static const size_t at[] = { 88, 89, 90, 99, 108, 130, 152, 174, 191, 192, 199, 255, 281, VERSIONS, 98, 107 };
    uint8_t image[RECORD], good[RECORD];
    default_record(good);
    for (size_t i = 0; i < sizeof at / sizeof *at; i++) {
        default_record(image);
        image[at[i]] = 2; // a flag, or the last byte of a number that is absent
        REFUSES(YUTHPRAM_ILL_FORMED, yuthpram_check(image, RECORD, YUTHPRAM_CLIENT));
        REFUSES(YUTHPRAM_ILL_FORMED, yuthpram_write(image, RECORD, out, sizeof out, &count));
        REFUSES(YUTHPRAM_ILL_FORMED, yuthpram_length(image, RECORD, &count));
        REFUSES(YUTHPRAM_ILL_FORMED, yuthpram_validate_resumption_from(image, RECORD, good, RECORD));
        REFUSES(YUTHPRAM_ILL_FORMED, yuthpram_validate_resumption_from(good, RECORD, image, RECORD));
        REFUSES(YUTHPRAM_ILL_FORMED, authenticate(YUTHPRAM_SERVER, image, 0));
        REFUSES(YUTHPRAM_ILL_FORMED, yuthpram_issue_cids_limit(image, RECORD, &value));
    }
}

// A null pointer names the slice of no bytes: as an input, and as an output that has no room.
static void nothing(void)
{
    static const uint8_t src[] = { 1, 1, 5 }, cid[CID] = { 1, 9 };
    const uint64_t settings[YUTHPRAM_SETTINGS] = { 0 };
    uint8_t image[RECORD], order[PLACES];
    default_record(image);
    backwards(order);
    REFUSES(3, yuthpram_number_read(NULL, 0, &value, &count, &saved));
    REFUSES(5, yuthpram_number_write(5, NULL, 0, &count));
    REFUSES(4, yuthpram_number_write(BOUND, NULL, 0, &count));
    REFUSES(1, yuthpram_cid_read(NULL, 0, out, CID, &count));
    REFUSES(1, yuthpram_cid_read(NULL, 0, NULL, 0, &count));
    REFUSES(5, yuthpram_cid_read(cid, 2, NULL, 0, &count));
    REFUSES(7, yuthpram_cid_write(NULL, 0, out, sizeof out, &count));
    REFUSES(5, yuthpram_cid_write(cid, CID, NULL, 0, &count));
    REFUSES(5, yuthpram_default(NULL, 0));
    REFUSES(7, yuthpram_check(NULL, 0, YUTHPRAM_CLIENT));
    ACCEPTS(yuthpram_read(YUTHPRAM_SERVER, NULL, 0, out, RECORD));
    CHECK(memcmp(out, image, RECORD) == 0 && kept(RECORD));
    REFUSES(5, yuthpram_read(YUTHPRAM_SERVER, NULL, 0, NULL, 0));
    REFUSES(5, yuthpram_read(YUTHPRAM_SERVER, src, 3, NULL, 0));
    REFUSES(6, yuthpram_check_order(NULL, 0));
    REFUSES(7, yuthpram_write(NULL, 0, out, sizeof out, &count));
    ACCEPTS(yuthpram_write(image, RECORD, NULL, 0, &count));
    CHECK(count == 0);
    put(image, 0, 5);
    REFUSES(5, yuthpram_write(image, RECORD, NULL, 0, &count));
    ACCEPTS(yuthpram_tidy(YUTHPRAM_CLIENT, NULL, 0, NULL, 0, &count));
    CHECK(count == 0);
    REFUSES(5, yuthpram_tidy(YUTHPRAM_CLIENT, src, 3, NULL, 0, &count));
    ACCEPTS(yuthpram_report(YUTHPRAM_SERVER, NULL, 0, &counts));
    CHECK(same_counts(counts, (yuthpram_counts){ 0, 0, 0, 0, 0 }));
    REFUSES(7, yuthpram_new(NULL, 0, cid, CID, 0, NULL, 0, order, PLACES, out, RECORD));
    REFUSES(7, yuthpram_new(settings, YUTHPRAM_SETTINGS, NULL, 0, 0, NULL, 0, order, PLACES, out, RECORD));
    ACCEPTS(yuthpram_new(settings, YUTHPRAM_SETTINGS, cid, CID, 0, NULL, 0, order, PLACES, out, RECORD));
    CHECK(out[255] == 1 && out[264] == 0 && kept(RECORD));
    REFUSES(6, yuthpram_new(settings, YUTHPRAM_SETTINGS, cid, CID, 0, NULL, 0, NULL, 0, out, RECORD));
    REFUSES(5, yuthpram_new(settings, YUTHPRAM_SETTINGS, cid, CID, 0, NULL, 0, order, PLACES, NULL, 0));
    REFUSES(7, yuthpram_validate_resumption_from(NULL, 0, image, RECORD));
    REFUSES(7, yuthpram_validate_resumption_from(image, RECORD, NULL, 0));
    REFUSES(7, yuthpram_authenticate_cids(YUTHPRAM_CLIENT, NULL, 0, cid, CID, cid, CID, 1, cid, CID));
    REFUSES(7, yuthpram_authenticate_cids(YUTHPRAM_CLIENT, image, RECORD, NULL, 0, cid, CID, 1, cid, CID));
    REFUSES(7, yuthpram_authenticate_cids(YUTHPRAM_SERVER, image, RECORD, cid, CID, NULL, 0, 1, cid, CID));
    REFUSES(7, yuthpram_authenticate_cids(YUTHPRAM_SERVER, image, RECORD, cid, CID, cid, CID, 0, NULL, 0));
    REFUSES(13, yuthpram_authenticate_cids(YUTHPRAM_SERVER, image, RECORD, cid, CID, cid, CID, 1, cid, CID));
    REFUSES(7, yuthpram_issue_cids_limit(NULL, 0, &value));
}

// Of a yes or no, every number but 0 is yes.
static void yes_or_no(void)
{
    static const size_t at[] = {
        YUTHPRAM_SETTING_GREASE_QUIC_BIT, YUTHPRAM_SETTING_DATAGRAMS, YUTHPRAM_SETTING_SERVER, YUTHPRAM_SETTING_MIGRATION,
    };
    static const uint64_t yes[] = { 2, 256, BOUND, UINT64_MAX };
    static const uint8_t cid[CID] = { 1, 9 };
    uint8_t order[PLACES], image[RECORD];
    backwards(order);
    for (size_t i = 0; i < 4; i++) {
        uint64_t settings[YUTHPRAM_SETTINGS] = { 0 };
        settings[YUTHPRAM_SETTING_SERVER] = 1;
        settings[at[i]] = 1;
        ACCEPTS(yuthpram_new(settings, YUTHPRAM_SETTINGS, cid, CID, 0, NULL, 0, order, PLACES, image, RECORD));
        for (size_t j = 0; j < 4; j++) {
            settings[at[i]] = yes[j];
            ACCEPTS(yuthpram_new(settings, YUTHPRAM_SETTINGS, cid, CID, 0, NULL, 0, order, PLACES, out, RECORD));
            CHECK(memcmp(out, image, RECORD) == 0);
        }
    }
}

int main(void)
{
    refusals();
    numbers();
    number_forms();
    connection_ids();
    defaults();
    checking();
    reading();
    second_copies();
    kinds();
    any_order();
    orders();
    order_faults();
    writing();
    field_lengths();
    number_lengths();
    order_lengths();
    tidying();
    reporting();
    each_count();
    number_reports();
    mixed_reports();
    building();
    not_building();
    resumption();
    datagram_sizes();
    authentication();
    authentication_of_ill_formed();
    authentication_of_illegal();
    versions();
    versions_that_do_not_fit();
    versions_not_allowed();
    versions_by_bytes();
    versions_and_faults();
    ill_formed_versions();
    versions_not_looked_at();
    longest_record();
    versions_in_orders();
    no_images();
    nothing();
    yes_or_no();
    printf("%d passed, %d failed\n", passed, failed);
    return failed != 0;
}
