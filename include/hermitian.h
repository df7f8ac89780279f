/* What the modem's firmware calls: encoding, reading back, table decoding by doubt or by
 * threshold and decoding from bit values for the Hermitian code y^4 + y = x^5 over GF(16), 64
 * places, superframes of eight codewords, and captures of received frames. Link libhermitian
 * (dist/make), or libmodem.a (rt lib in crates/modem).
 *
 * A call returns 0, or the number of its refusal. A refused call leaves every buffer as
 * it was; the status byte of a superframe is no such buffer, and then becomes 0. The library
 * keeps no state, allocates nothing and calls nothing back: any two calls on different buffers
 * may run at once.
 *
 * Lengths. Every buffer is a pointer and the true number of bytes behind it. A buffer that
 * is not of the size that a call asks for is refused. k is the rate, 6 to 52.
 *
 *   message   exactly k bytes, one symbol each, 0 to 15
 *   word      exactly 64 bytes, one symbol each, place 0 first
 *   frame     any length; the codeword takes 64 bytes of it from start on
 *   table     exactly 2048 bytes: 64 columns of sixteen costs, place 0 and symbol 0 first,
 *             two bytes each, high byte first; a place whose sixteen costs are equal is blank
 *   values    exactly 256 signed bytes: the four bit values of each symbol, place 0 and the
 *             highest bit first, -128 to 127; a positive value favours bit 0, a negative one
 *             bit 1, zero neither; a place whose four values are zero is blank
 *   report    exactly 14 bytes, high byte first: the total (4), the test words with a
 *             codeword within T (2), the pinned places (1), the changed places (1); 1 if
 *             another codeword is near too, else 0 (1), and the margin: the least total of
 *             such another one minus the answer's, 0 where there is none (4); the mark, 1
 *             or 0 (1)
 *   messages  exactly 8k bytes: eight messages, that of word 0 first
 *   superframe
 *             exactly 516 bytes: the version, 1; the length, 513, as 2 and 1; the rate; then
 *             512 symbols: place p of word v is byte 4 + 8p + v
 *   doubtful  a doubtful list: 0 to 12 places, one byte each, 0 to 63 and strictly rising
 *   capture   exactly 2117 + d bytes, where d places are doubtful: the version, 1 with up to 8
 *             doubtful places and 2 with more; the number of bytes that follow, 2114 + d, in
 *             two bytes, high byte first; the rate; d; the d places; then 64 records of 33
 *             bytes, a place and its column as in a table. Records may be in any order, each
 *             place once; every capture that is written has them in place order
 *
 * The rate. A codeword holds the values of a function of order at most M = k + 5. With b blank
 * places T is the largest number with 2T + b < 58 - M; a codeword that differs from some test
 * word in at most T places that are not blank is near. There is a T with up to 57 - M blank
 * places. Rate 6 repairs 23 wrong places, rate 39 six, rate 49 one; rate 52 repairs none beyond
 * its test words, and takes no blank place.
 *
 * The mark. Where it is 1 none of all 16^k codewords, near or not, costs less than the answer;
 * another may cost as much. With c changed places it is 1 exactly if the total minus the sum of
 * the 64 best costs is at most the sum of the smallest 64 - M - c gaps, second cost minus best
 * cost, of the other places. No gap is summed where that number is not positive; a blank place
 * is among the others, with gap 0. A cost of 65535 means 'at least' and is summed as 65535:
 * with pinned places the mark speaks of the sums as they stand, and not of true costs.
 *
 * Stack: table decoding touches some 14 kB of it without doubt, some 50 kB with eight
 * doubtful places and some 67 kB with twelve, and decoding a capture as much; making and
 * sorting one some 15 kB (bench/stack); taking a superframe apart some 14 kB
 * (bench/superframes).
 *
 * What C cannot check and the caller must see to:
 *   - a pointer is not null, also where its length is 0, and its bytes may be read, or
 *     written where the parameter is not const, for the length given;
 *   - no buffer is longer than PTRDIFF_MAX;
 *   - aliasing: the buffers of a call, the status byte among them, do not overlap, and nobody
 *     else writes any of them, or reads one that is not const, until the call returns.
 */
#ifndef HERMITIAN_H
#define HERMITIAN_H

#include <stddef.h>
#include <stdint.h>

#ifdef __cplusplus
extern "C" {
#endif

/* The library's version, as in the file VERSION; its major number changes where a caller has to. */
#define HERMITIAN_VERSION "1.0.0"
#define HERMITIAN_VERSION_MAJOR 1
#define HERMITIAN_VERSION_MINOR 0
#define HERMITIAN_VERSION_PATCH 0

#define HERMITIAN_PLACES 64
#define HERMITIAN_TABLE_BYTES 2048
#define HERMITIAN_BIT_VALUES 256
#define HERMITIAN_REPORT_BYTES 14
#define HERMITIAN_LEAST_RATE 6
#define HERMITIAN_MOST_RATE 52
#define HERMITIAN_MOST_DOUBT 12
#define HERMITIAN_SUPERFRAME_BYTES 516
#define HERMITIAN_SUPERFRAME_WORDS 8
#define HERMITIAN_CAPTURE_BYTES(doubtful) (2117 + (doubtful))
#define HERMITIAN_MOST_CAPTURE_BYTES 2129

enum hermitian_refusal {
    HERMITIAN_ACCEPTED = 0,
    HERMITIAN_UNKNOWN_RATE = 1, /* the rate is not one of 6 to 52 */
    HERMITIAN_WRONG_SIZE = 2,   /* a buffer of the wrong size, or no 64 bytes from the start */
    HERMITIAN_NO_SYMBOL = 3,    /* a symbol above 15 */
    HERMITIAN_WRONG_DOUBT = 4,  /* a doubt above 12, a maximum of 0 or above 12, or a faulty doubtful list */
    HERMITIAN_NO_PLACE = 5,     /* a place above 63 in a record of a capture */
    HERMITIAN_PLACE_TAKEN = 6,  /* a place that an earlier record of the capture has */
    HERMITIAN_NO_CODEWORD = 8,  /* the word is not a codeword */
    HERMITIAN_NONE_NEAR = 9,    /* no codeword is near */
    HERMITIAN_WRONG_VERSION = 10, /* a capture whose version is not 1 or 2 */
    HERMITIAN_WRONG_LENGTH = 11, /* a capture of a wrong size, or whose length is wrong */
    HERMITIAN_TOO_BLANK = 12,   /* more than 52 - k blank places at rate k */
    HERMITIAN_WRONG_SUPERFRAME = 14 /* a superframe not of 516 bytes, or its version or length wrong */
};

/* Writes the codeword of the message into frame[start] to frame[start + 63]; the other
 * bytes of the frame stay. start may be any number: a sum that would pass the end of the
 * frame, or of size_t, is refused.
 * Checks, in this order: rate; message of k bytes, and 64 bytes of the frame from start
 * on; symbols. Refusals: 1, 2, 3. */
uint8_t hermitian_encode(size_t rate,
                         const uint8_t *message, size_t message_length,
                         uint8_t *frame, size_t frame_length,
                         size_t start);

/* Writes the message of the codeword into the buffer of k bytes.
 * Checks, in this order: rate; word of 64 and buffer of k bytes; symbols; codeword.
 * Refusals: 1, 2, 3, 8. */
uint8_t hermitian_read_back(size_t rate,
                            const uint8_t *word, size_t word_length,
                            uint8_t *message, size_t message_length);

/* Decodes a table of costs with doubt 0 to 12: writes the message of the near codeword of
 * least total cost, and its report. The doubtful places are those of smallest gap, second
 * cost minus best cost; where the second is 65535 and the best is lower, it counts as 65535.
 * A blank place is never doubtful, wrong or changed, but each two of them take one from the
 * wrong places that are repaired.
 * With b blank and d doubtful places, and e others at which the symbol sent is not the best:
 * where e + d + T + b < 64 - M no other message than the one sent is ever written; where
 * also e <= T, and the symbol sent is best or second at each doubtful place, it is written
 * always, and byte 8 of the report is 0. M is k + 5, and T the largest number with
 * 2T + b < 58 - M. The second holds for every e <= T with up to six doubtful places.
 * Checks, in this order: rate; table of 2048, message buffer of k and report of 14 bytes;
 * doubt; blank places; nearness. Refusals: 1, 2, 4, 12, 9. */
uint8_t hermitian_decode_table(size_t rate,
                               const uint8_t *table, size_t table_length,
                               size_t doubt,
                               uint8_t *message, size_t message_length,
                               uint8_t *report, size_t report_length);

/* Decodes a table of costs with as many doubtful places as its gaps ask for: those whose gap is
 * smaller than the threshold, but one place at least, and no more than the maximum, most,
 * which is 1 to 12.
 * They are taken as hermitian_decode_table takes them: by the smallest gap, with gaps counted
 * as there, equal gaps by the lower place, and no blank place. So the answer is that of
 * hermitian_decode_table with a doubt of so many. Every threshold of 16 bits is taken.
 * Checks, in this order: rate; table of 2048, message buffer of k and report of 14 bytes; most;
 * blank places; nearness. Refusals: 1, 2, 4, 12, 9. */
uint8_t hermitian_decode_table_below(size_t rate,
                                     const uint8_t *table, size_t table_length,
                                     uint16_t threshold, size_t most,
                                     uint8_t *message, size_t message_length,
                                     uint8_t *report, size_t report_length);

/* Decodes bit values as hermitian_decode_table does the table that they make: a symbol costs
 * the sum of the magnitudes of those of its four values whose favoured bit it does not have.
 * The magnitude of -128 is 128, so no cost is above 512.
 * Checks, in this order: rate; 256 values, message buffer of k and report of 14 bytes; doubt;
 * blank places; nearness. Refusals: 1, 2, 4, 12, 9. */
uint8_t hermitian_decode_bits(size_t rate,
                              const int8_t *values, size_t values_length,
                              size_t doubt,
                              uint8_t *message, size_t message_length,
                              uint8_t *report, size_t report_length);

/* Writes the superframe of eight messages.
 * Checks, in this order: rate; messages of 8k and superframe of 516 bytes; symbols.
 * Refusals: 1, 2, 3. */
uint8_t hermitian_build_superframe(size_t rate,
                                   const uint8_t *messages, size_t messages_length,
                                   uint8_t *superframe, size_t superframe_length);

/* Decodes the eight words of a superframe, each as hermitian_decode_table does without doubt where
 * the symbol received costs 0 and every other one 1. The message of word v is written into bytes
 * kv to kv + k - 1 of messages; k is the rate that the superframe names. A word with none near
 * leaves these bytes as they were, and is named in *status, where word v counts 2^v: 0 if all
 * eight came back, 255 if none did. Such a call is accepted.
 * Where up to 8T consecutive symbols are altered, 48 at rate 39, and each is still 0 to 15, all
 * eight messages come back; T is that of no blank place, (52 - k)/2 rounded down.
 * Checks, in this order: superframe of 516 bytes, version, length; rate; messages of 8k bytes; all
 * 512 symbols. Refusals: 14, 1, 2, 3. */
uint8_t hermitian_take_superframe_apart(const uint8_t *superframe, size_t superframe_length,
                                        uint8_t *messages, size_t messages_length,
                                        uint8_t *status);

/* Decodes a capture, as a session does that was opened with its rate and doubtful list, got its
 * records and is closed: writes the message of the near codeword of least total cost, and its
 * report. k is the rate that the capture names, so a caller reads byte 3 of it first, or lends
 * exactly as many bytes as it expects.
 * Checks, in this order: capture of 2117 to 2129 bytes; version; length; rate; doubtful list, and
 * that its length suits the version; records, one after the other: place range, place taken;
 * message buffer of k and report of 14 bytes; blank places; nearness.
 * Refusals: 11, 10, 11, 1, 4, 5 or 6, 2, 12, 9. */
uint8_t hermitian_decode_capture(const uint8_t *capture, size_t capture_length,
                                 uint8_t *message, size_t message_length,
                                 uint8_t *report, size_t report_length);

/* Writes a capture with its records in place order. One that is in place order stays as it is, and
 * what was written decodes as the capture does.
 * Checks, in this order: those of a capture as above; a buffer of the capture's size.
 * Refusals: 11, 10, 11, 1, 4, 5 or 6, 2. */
uint8_t hermitian_sort_capture(const uint8_t *capture, size_t capture_length,
                               uint8_t *sorted, size_t sorted_length);

/* Writes the capture of a rate, a doubtful list and a table, its records in place order.
 * Checks, in this order: rate; doubtful list; table of 2048 bytes, and a capture buffer of 2117 and
 * one byte for each doubtful place. Refusals: 1, 4, 2. */
uint8_t hermitian_make_capture(size_t rate,
                               const uint8_t *doubtful, size_t doubtful_length,
                               const uint8_t *table, size_t table_length,
                               uint8_t *capture, size_t capture_length);

/* The fields of a report, by name. They are read here, in C, and not by the library. */
static inline uint32_t hermitian_report_number(const uint8_t *report, size_t at)
{
    return (uint32_t)report[at] << 24 | (uint32_t)report[at + 1] << 16 | (uint32_t)report[at + 2] << 8 | report[at + 3];
}

/* The sum of the answer's costs over the 64 places. */
static inline uint32_t hermitian_report_total(const uint8_t *report)
{
    return hermitian_report_number(report, 0);
}

/* The test words with a codeword within T. */
static inline uint16_t hermitian_report_tests(const uint8_t *report)
{
    return (uint16_t)(report[4] << 8 | report[5]);
}

/* The places where the answer's symbol costs 65535, which means 'at least'. */
static inline uint8_t hermitian_report_pinned(const uint8_t *report)
{
    return report[6];
}

/* The places, not blank, where the answer is not the best symbol. */
static inline uint8_t hermitian_report_changed(const uint8_t *report)
{
    return report[7];
}

/* 1 if another codeword is near, and so there is a margin; else 0. */
static inline uint8_t hermitian_report_has_margin(const uint8_t *report)
{
    return report[8];
}

/* How much more than the answer the cheapest other near codeword costs; 0 where there is none. */
static inline uint32_t hermitian_report_margin(const uint8_t *report)
{
    return hermitian_report_number(report, 9);
}

/* 1 if it is known that none of all 16^k codewords costs less than the answer; else 0. */
static inline uint8_t hermitian_report_mark(const uint8_t *report)
{
    return report[13];
}

/* What a returned number means, in a few words; 7 and 13 are given by no call here. */
static inline const char *hermitian_refusal_text(uint8_t refusal)
{
    switch (refusal) {
    case 0: return "accepted";
    case 1: return "rate not one of 6 to 52";
    case 2: return "a buffer of the wrong size, or no 64 bytes from the start";
    case 3: return "a symbol above 15";
    case 4: return "doubt above 12, a maximum of 0 or above 12, or a faulty doubtful list";
    case 5: return "a place above 63";
    case 6: return "a place already taken";
    case 7: return "writing or closing with a place missing";
    case 8: return "not a codeword";
    case 9: return "none near";
    case 10: return "capture version not 1 or 2";
    case 11: return "capture size or length wrong";
    case 12: return "too many blank places";
    case 13: return "a place that is not taken";
    case 14: return "a superframe not of 516 bytes, or its version or length wrong";
    default: return "no refusal of this library";
    }
}

#ifdef __cplusplus
}
#endif

#endif
