/* Transport parameters of QUIC (RFC 9000, RFC 9221, RFC 9287, RFC 9368, draft-ietf-quic-ack-frequency-08): the C interface of Yuthpram.
 *
 * Every function takes any bytes, numbers and lengths, allocates nothing, keeps nothing, and returns YUTHPRAM_OK, which is 0, or the
 * number of a refusal. A call that is refused changes no byte behind its pointers. yuthpram_order_fault alone refuses nothing: 6 is its answer,
 * and comes with a position.
 *
 * A pointer and its length name a slice, and the pointer may be null if the length is 0. A pointer to a single number or struct is never null.
 * Inputs and outputs of one call do not overlap.
 *
 * The library is built for x86-64-v2 and runs on no older processor: SSE4.2 and popcnt are used
 * without a test.
 */
#ifndef YUTHPRAM_H
#define YUTHPRAM_H

#include <stddef.h>
#include <stdint.h>

#ifdef __cplusplus
extern "C" {
#endif

/* Raised whenever a program that was built with an older header would no longer work: when a size, a layout, a struct or the arguments of a
 * function change. 1 stands for every header before this macro, the last of them with images of 303 bytes and orders of 21 places. */
#define YUTHPRAM_INTERFACE_VERSION 2

/* The refusals: name, number, meaning. How one travels depends on what was read. 0x08 and 0x0a are
 * codes of transport parameters: there MALFORMED, ILLEGAL_VALUE, CUT, MISFIT, SECOND_COPY,
 * CID_ABSENT and CID_MISMATCH travel as TRANSPORT_PARAMETER_ERROR (0x08), LIMIT_REDUCED as
 * PROTOCOL_VIOLATION (0x0a). Settings of HTTP/3 will have a mapping of their own (0x0106, 0x0109).
 * 15 to 21, from INVALID_SETTING on, are given by nothing yet. */
#define YUTHPRAM_REFUSALS(X) \
    X(MALFORMED, 1, "malformed connection ID") \
    X(ILLEGAL_VALUE, 2, "illegal value") \
    X(UNEXPECTED_END, 3, "the input ends within a number") \
    X(VARINT_BOUNDS_EXCEEDED, 4, "a number of 2^62 or more") \
    X(BUFFER_TOO_SHORT, 5, "the output is shorter than the bytes due") \
    X(INVALID_ORDER, 6, "an order that is not a permutation of 0 to 21") \
    X(ILL_FORMED, 7, "what was handed in is not well formed: a record, connection ID or count of settings, or no image") \
    X(LIMIT_REDUCED, 8, "a remembered limit was reduced") \
    X(INVALID_DRAW, 9, "a drawn value out of range") \
    X(CUT, 10, "cut off: an identifier, a parameter's length or a setting's value that cannot be read, or a length beyond what is left") \
    X(MISFIT, 11, "a value that does not fit or fill its length, or an ID of over 20 bytes") \
    X(SECOND_COPY, 12, "a second copy of a known parameter") \
    X(CID_ABSENT, 13, "a connection ID that is needed is absent") \
    X(CID_MISMATCH, 14, "a connection ID is not the one seen, or is that of a Retry and none was seen") \
    X(INVALID_SETTING, 15, "a setting of HTTP/3 that is not allowed, or one sent twice") \
    X(INVALID_STREAM, 16, "a list of streams that cannot be started with, or a stream that is not listed") \
    X(STREAM_LIMIT_EXCEEDED, 17, "the limit of the stream is passed") \
    X(CONNECTION_LIMIT_EXCEEDED, 18, "the limit of the connection is passed") \
    X(INVALID_FILE, 19, "a file that is none of remembered parameters, or another version asked for") \
    X(INVALID_ROLE, 20, "no such role") \
    X(INVALID_RANGE, 21, "a lowest value above the highest")

enum {
    YUTHPRAM_OK = 0,
#define YUTHPRAM_NAMED(name, number, meaning) YUTHPRAM_##name = number,
    YUTHPRAM_REFUSALS(YUTHPRAM_NAMED)
#undef YUTHPRAM_NAMED
};

/* What a function returned, in words. */
static inline const char *yuthpram_strerror(uint8_t refusal)
{
    switch (refusal) {
    case YUTHPRAM_OK:
        return "accepted";
#define YUTHPRAM_TOLD(name, number, meaning) \
    case number: \
        return meaning;
        YUTHPRAM_REFUSALS(YUTHPRAM_TOLD)
#undef YUTHPRAM_TOLD
    default:
        return "no refusal";
    }
}

/* A side is the one that READS the extension, for which the value rules differ: a server may not be sent what only a server sends, and only a server
 * asks that the chosen version be available. So a server that checks the record it is about to send asks for YUTHPRAM_CLIENT. Any other number but 0
 * is a server too. */
enum { YUTHPRAM_CLIENT = 0, YUTHPRAM_SERVER = 1 };

/* IMAGES: how records and connection IDs are passed.
 *
 * The image of a connection ID has 21 bytes: its length, then its bytes, then zeros. The image of a record has 374. Numbers have the high
 * byte first; a flag is 0 or 1; what is absent is all zero.
 *   0  the eleven numbers of catalogue places 0 to 10, eight bytes each: max_idle_timeout, max_udp_payload_size, initial_max_data,
 *      initial_max_stream_data_bidi_local, _bidi_remote, _uni, initial_max_streams_bidi, _uni, ack_delay_exponent, max_ack_delay,
 *      active_connection_id_limit
 *  88  disable_active_migration (flag)
 *  89  grease_quic_bit (flag)
 *  90  max_datagram_frame_size: presence (flag), eight bytes
 *  99  min_ack_delay: presence (flag), eight bytes
 * 108  original_dst_cid: presence (flag), 21 bytes
 * 130  initial_src_cid: presence (flag), 21 bytes
 * 152  retry_src_cid: presence (flag), 21 bytes
 * 174  stateless_reset_token: presence (flag), 16 bytes
 * 191  preferred_address: presence (flag); IPv4: presence (flag), 4 address bytes, port (two bytes); IPv6: presence (flag), 16 address
 *      bytes, port (two bytes); connection ID, 21 bytes; token, 16 bytes
 * 255  grease_transport_parameter (reserved): presence (flag), identifier (eight bytes), payload length (one byte), payload (16 bytes)
 * 281  write_order: presence (flag), 22 places
 * 304  version_information: presence (flag), how many versions are available (one byte), chosen version (four bytes), 16 available versions (four
 *      bytes each, zero from that many on)
 *
 * Bytes are no image if they have another length, if one of the 14 flags is neither 0 nor 1, or if max_datagram_frame_size or min_ack_delay
 * is absent and not 0. Every function that takes an image refuses such bytes with ILL_FORMED, before it looks at anything else but the
 * settings of yuthpram_new.
 *
 * Whether what an image holds is well formed (numbers below 2^62, IDs of at most 20 bytes, at most 16 available versions, zeros behind them and in
 * whatever is absent) is another matter. Checking, writing, the length, building, resumption and yuthpram_authenticate_cids look at it, and refuse
 * with the same number; yuthpram_issue_cids_limit does not.
 */
#define YUTHPRAM_CID_SIZE 21
/* How many places an order has. */
#define YUTHPRAM_PLACES 22
#define YUTHPRAM_RECORD_SIZE 374

/* The longest extension of a well-formed record. */
#define YUTHPRAM_MAX_EXTENSION 385

/* What building takes besides a connection ID and drawn values: an array of YUTHPRAM_SETTINGS numbers. Of a yes or no, 0 is no and any
 * other number, of 2^62 or more too, is yes. */
enum {
    YUTHPRAM_SETTING_MAX_CONCURRENT_BIDI_STREAMS,
    YUTHPRAM_SETTING_MAX_CONCURRENT_UNI_STREAMS,
    YUTHPRAM_SETTING_RECEIVE_WINDOW,
    YUTHPRAM_SETTING_STREAM_RECEIVE_WINDOW,
    YUTHPRAM_SETTING_MAX_IDLE_TIMEOUT, /* milliseconds, 0 for none */
    YUTHPRAM_SETTING_MAX_UDP_PAYLOAD_SIZE,
    YUTHPRAM_SETTING_GREASE_QUIC_BIT, /* yes or no */
    YUTHPRAM_SETTING_DATAGRAMS, /* yes or no: whether there is a datagram_receive_buffer_size */
    YUTHPRAM_SETTING_DATAGRAM_RECEIVE_BUFFER_SIZE,
    YUTHPRAM_SETTING_CID_LEN, /* the generator's ID length */
    YUTHPRAM_SETTING_SERVER, /* yes or no: whether a server builds the record, to send it to a client */
    YUTHPRAM_SETTING_MIGRATION, /* yes or no: no if a server forbids it */
    YUTHPRAM_SETTINGS
};

/* How many bytes the shortest form of a number has. Refuses 4. */
uint8_t yuthpram_number_size(uint64_t value, size_t *count);

/* The number at the front of src, its byte count, and how many of these bytes its shortest form would have saved. Refuses 3. */
uint8_t yuthpram_number_read(const uint8_t *src, size_t src_len, uint64_t *value, size_t *count, size_t *saved);

/* Writes a number in its shortest form. Refuses 4, then 5. */
uint8_t yuthpram_number_write(uint64_t value, uint8_t *out, size_t out_len, size_t *count);

/* The connection ID behind the length byte at the front of src, as an image, and its byte count with the length byte. Refuses 1, then 5
 * if cid_len is below 21. */
uint8_t yuthpram_cid_read(const uint8_t *src, size_t src_len, uint8_t *cid, size_t cid_len, size_t *count);

/* Writes the connection ID of an image behind a length byte. Refuses 7, then 5. */
uint8_t yuthpram_cid_write(const uint8_t *cid, size_t cid_len, uint8_t *out, size_t out_len, size_t *count);

/* The image of the default record. Refuses 5 if record_len is below 374. */
uint8_t yuthpram_default(uint8_t *record, size_t record_len);

/* Checks a record for the side that is to read it: a server checks its own record for YUTHPRAM_CLIENT. Refuses 7, then 2. */
uint8_t yuthpram_check(const uint8_t *record, size_t record_len, uint8_t side);

/* Reads an extension for the side that reads. Refuses 10, 12, 2 or 11, then 5 if record_len is below 374: of each parameter in turn, from the
 * front, CUT is found first, then SECOND_COPY, then ILLEGAL_VALUE for a preferred address with neither family, then MISFIT; behind the last one
 * ILLEGAL_VALUE if a value rule is broken: among these are a version of 0 and, for a server, a chosen version that is not available. MISFIT and
 * SECOND_COPY stay whatever follows: the sender is wrong. What would be accepted and is cut off within a parameter is CUT; but CUT alone does not clear
 * the sender, who may have sent too large a length. What is accepted is accepted in every order of its whole parameters, with the same record; which
 * fault of a refused one is found depends on the order. */
uint8_t yuthpram_read(uint8_t side, const uint8_t *src, size_t src_len, uint8_t *record, size_t record_len);

/* Whether an order is a permutation of 0 to 21. Refuses 6. */
uint8_t yuthpram_check_order(const uint8_t *order, size_t order_len);

/* What is wrong with an order of any length: stores the position, from 0, of the first entry that is over 21 or repeats an earlier one, or
 * order_len if entries are only missing, and returns INVALID_ORDER. Returns OK and stores nothing exactly for a permutation of 0 to 21. Of more than 22
 * entries one of the first 23 is at fault, and those behind them change nothing. */
uint8_t yuthpram_order_fault(const uint8_t *order, size_t order_len, size_t *position);

/* Writes the extension of a record, in its order or, without one, in catalogue order. Refuses 7, 6, then 5. */
uint8_t yuthpram_write(const uint8_t *record, size_t record_len, uint8_t *out, size_t out_len, size_t *count);

/* The length of a record: how many bytes yuthpram_write stores of it in every order that is a permutation, so that room can be kept before the
 * order is drawn. Whether the order that the record has is a permutation is not looked at. At most YUTHPRAM_MAX_EXTENSION. Refuses 7. */
uint8_t yuthpram_length(const uint8_t *record, size_t record_len, size_t *count);

/* Reads an extension for the side that reads, and writes it in its one shortest form. Refuses as yuthpram_read does, then 5. */
uint8_t yuthpram_tidy(uint8_t side, const uint8_t *src, size_t src_len, uint8_t *out, size_t out_len, size_t *count);

/* Where the bytes of an extension go. The first four are bytes, and together they make its length. */
typedef struct {
    size_t tidied; /* the tidied length: what yuthpram_tidy stores */
    size_t skipped; /* whole parameters that are unknown */
    size_t restated; /* whole parameters of catalogue places 0 to 10 that restate a default, in whatever form */
    size_t saved; /* what shortest forms would have saved in the identifiers, lengths and numbers of the others */
    size_t named; /* how many different known parameters there are, with those that restate a default */
} yuthpram_counts;

/* Reports where the bytes of an extension go, for the side that reads. Refuses 10, 12, 2 or 11, as yuthpram_read does. What is accepted has the
 * same counts in every order of its whole parameters. */
uint8_t yuthpram_report(uint8_t side, const uint8_t *src, size_t src_len, yuthpram_counts *counts);

/* Builds a record to send, of YUTHPRAM_SETTINGS settings, the image of initial_src_cid, the draw for the reserved identifier, the
 * reserved payload (at most 15 bytes) and the order. It has no version information. Refuses 7 if settings_len is another, 4, 7 for the ID, 9, 6, then
 * 5 if record_len is below 374. */
uint8_t yuthpram_new(const uint64_t *settings, size_t settings_len, const uint8_t *cid, size_t cid_len, uint64_t draw,
                     const uint8_t *payload, size_t payload_len, const uint8_t *order, size_t order_len, uint8_t *record,
                     size_t record_len);

/* Whether a record may be resumed to from a cached one. An absent max_datagram_frame_size counts as 0, in either. Refuses 7, then 8. */
uint8_t yuthpram_validate_resumption_from(const uint8_t *record, size_t record_len, const uint8_t *cached, size_t cached_len);

/* How many connection IDs to issue to the peer of a record, well formed or not. Refuses 7 for what is no image. */
uint8_t yuthpram_issue_cids_limit(const uint8_t *record, size_t record_len, uint64_t *limit);

/* Who is at the other end (RFC 9000 section 7.3): holds the connection IDs of the peer's record to those that packets carried, for side, which is
 * ours. The IDs seen are images: initial_src_cid, the Source Connection ID of the peer's first Initial; original_dst_cid, the Destination
 * Connection ID of the client's first Initial; retry_src_cid, the Source Connection ID of the Retry if retry_seen is not 0. An image of it is handed
 * in either way: without a Retry anything but 21 zero bytes, NULL too, is refused with 7.
 * A server looks at initial_src_cid alone, a client at all three. Refuses 7 for what is no image or not well formed, looked at or not; then
 * CID_ABSENT; then CID_MISMATCH, for a retry_src_cid without Retry too. Whether the record is legal is not looked at: that is yuthpram_check. */
uint8_t yuthpram_authenticate_cids(uint8_t side, const uint8_t *record, size_t record_len, const uint8_t *initial_src_cid,
                                   size_t initial_src_cid_len, const uint8_t *original_dst_cid, size_t original_dst_cid_len,
                                   uint8_t retry_seen, const uint8_t *retry_src_cid, size_t retry_src_cid_len);

#ifdef __cplusplus
}
#endif

#endif
