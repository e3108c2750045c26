// Copies a list of extensions (clients.txt) from standard input, with what the library reads in each, as a server, in place of what the list
// says: its lines of values, of unknown parameters and of tidied forms are left out and written anew. Exits with 1 if an extension is
// refused or there is none.
#include <inttypes.h>
#include <stdio.h>
#include <string.h>

#include "yuthpram.h"

enum { SERVER = 1, MOST = 2048 };

// The fields of a record's image that a client's extension can set.
static const char *const numbers[] = {
    "max_idle_timeout", "max_udp_payload_size", "initial_max_data", "initial_max_stream_data_bidi_local",
    "initial_max_stream_data_bidi_remote", "initial_max_stream_data_uni", "initial_max_streams_bidi", "initial_max_streams_uni",
    "ack_delay_exponent", "max_ack_delay", "active_connection_id_limit",
};
enum { NUMBERS = 11, MIGRATION = 88, GREASE = 89, DATAGRAM = 90, MIN_ACK_DELAY = 99, SOURCE = 130, VERSIONS = 304 };

static const uint64_t known[] = {
    0x00, 0x01, 0x02, 0x03, 0x04, 0x05, 0x06, 0x07, 0x08, 0x09, 0x0a, 0x0b, 0x0c, 0x0d, 0x0e, 0x0f, 0x10, 0x11, 0x20, 0x2ab2, 0xff04de1b,
};

static uint64_t number_at(const uint8_t *image, size_t at)
{
    uint64_t x = 0;
    for (size_t i = 0; i < 8; i++)
        x = x << 8 | image[at + i];
    return x;
}

static uint32_t version_at(const uint8_t *image, size_t at)
{
    return (uint32_t)image[at] << 24 | (uint32_t)image[at + 1] << 16 | (uint32_t)image[at + 2] << 8 | image[at + 3];
}

// The chosen version, then those that are available.
static void print_versions(const uint8_t *versions)
{
    printf("  version_information=0x%08" PRIx32 ":", version_at(versions, 2));
    for (size_t i = 1; i <= versions[1]; i++)
        printf(" 0x%08" PRIx32, version_at(versions, 2 + 4 * i));
    printf("\n");
}

static void print_hex(const char *before, const uint8_t *bytes, size_t len)
{
    printf("%s", before);
    for (size_t i = 0; i < len; i++)
        printf("%02x", bytes[i]);
    printf("\n");
}

// Every value that isn't the default.
static void print_values(const uint8_t *image, const uint8_t *defaults)
{
    for (size_t i = 0; i < NUMBERS; i++)
        if (number_at(image, 8 * i) != number_at(defaults, 8 * i))
            printf("  %s=%" PRIu64 "\n", numbers[i], number_at(image, 8 * i));
    if (image[MIGRATION])
        printf("  disable_active_migration\n");
    if (image[DATAGRAM])
        printf("  max_datagram_frame_size=%" PRIu64 "\n", number_at(image, DATAGRAM + 1));
    if (image[SOURCE])
        print_hex("  initial_src_cid=", image + SOURCE + 2, image[SOURCE + 1]);
    if (image[GREASE])
        printf("  grease_quic_bit\n");
    if (image[MIN_ACK_DELAY])
        printf("  min_ack_delay=%" PRIu64 "\n", number_at(image, MIN_ACK_DELAY + 1));
    if (image[VERSIONS])
        print_versions(image + VERSIONS);
}

static int is_known(uint64_t id)
{
    for (size_t i = 0; i < sizeof known / sizeof *known; i++)
        if (known[i] == id)
            return 1;
    return 0;
}

// Every parameter that isn't known, as it comes; of an extension that was accepted.
static int print_unknown(const uint8_t *bytes, size_t len)
{
    for (size_t at = 0; at < len;) {
        uint64_t id, size;
        size_t count, saved;
        if (yuthpram_number_read(bytes + at, len - at, &id, &count, &saved))
            return 1;
        at += count;
        if (yuthpram_number_read(bytes + at, len - at, &size, &count, &saved) || len - at - count < size)
            return 1;
        at += count;
        if (!is_known(id)) {
            printf("  unknown 0x%02" PRIx64 "=", id);
            print_hex("", bytes + at, (size_t)size);
        }
        at += (size_t)size;
    }
    return 0;
}

static int refused(const char *what, int number)
{
    fprintf(stderr, "%s: refused %d\n", what, number);
    return 1;
}

// 1 if the library refuses the extension, or its tidied form says something else.
static int print_extension(const uint8_t *bytes, size_t len)
{
    uint8_t image[YUTHPRAM_RECORD_SIZE], again[sizeof image], defaults[sizeof image], tidied[YUTHPRAM_MAX_EXTENSION];
    size_t count = 0;
    int number = yuthpram_read(SERVER, bytes, len, image, sizeof image);
    if (number)
        return refused("reading", number);
    if (yuthpram_default(defaults, sizeof defaults))
        return refused("default", 0);
    print_values(image, defaults);
    if (print_unknown(bytes, len))
        return refused("walking", 0);
    number = yuthpram_tidy(SERVER, bytes, len, tidied, sizeof tidied, &count);
    if (number)
        return refused("tidying", number);
    print_hex("tidied ", tidied, count);
    number = yuthpram_read(SERVER, tidied, count, again, sizeof again);
    return number || memcmp(image, again, sizeof image) ? refused("reading what was tidied", number) : 0;
}

// How many bytes the hexadecimal text has.
static size_t bytes_of(const char *text, uint8_t *bytes)
{
    size_t len = 0;
    unsigned byte;
    while (sscanf(text + 2 * len, "%2x", &byte) == 1)
        bytes[len++] = (uint8_t)byte;
    return len;
}

int main(void)
{
    static char line[2 * MOST];
    static uint8_t bytes[MOST];
    const char *extension = "extension ";
    int seen = 0, failed = 0;
    while (fgets(line, sizeof line, stdin)) {
        int derived = line[0] == ' ' || strncmp(line, "tidied ", 7) == 0;
        if (!derived)
            printf("%s", line);
        if (strncmp(line, extension, strlen(extension)) == 0) {
            failed |= print_extension(bytes, bytes_of(line + strlen(extension), bytes));
            seen++;
        }
    }
    return failed || seen == 0;
}
