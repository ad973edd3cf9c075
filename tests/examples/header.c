/* What the header says of sizes, empty buffers, labels, letters, reports, quotes and refusals, held against the library. It is C99 and C++ alike. */
#include "dnalm.h"
#include <stdio.h>
#include <stdlib.h>
#include <string.h>

static void expect_at(int holds, int line)
{
    if (!holds) {
        printf("line %d does not hold\n", line);
        exit(1);
    }
}

#define EXPECT(holds) expect_at((holds), __LINE__)

static void fill(uint16_t *lengths, size_t count, uint32_t length)
{
    for (size_t i = 0; i < count; i++) {
        lengths[i] = (uint16_t)length;
    }
}

/* A label of so many bytes is converted to one of edition 3 with so many, and back to its bytes; for 0 it is too large. */
static void converted(const uint8_t *label, size_t length, size_t other_length)
{
    uint8_t other[DNALM_MOST_LABEL];
    uint8_t back[DNALM_MOST_LABEL];
    memset(other, 7, sizeof other);
    if (other_length == 0) {
        EXPECT(dnalm_convert_label(label, length, NULL, 0).refusal == DNALM_TOO_LARGE);
        return;
    }
    EXPECT(dnalm_convert_label(label, length, other, other_length - 1).refusal == DNALM_SHORT_BUFFER);
    EXPECT(other[0] == 7);
    dnalm_written w = dnalm_convert_label(label, length, other, sizeof other);
    EXPECT(w.refusal == DNALM_TAKEN && w.place == 0 && w.length == other_length && other[0] >> 4 == 3);
    EXPECT(w.length == sizeof other || other[w.length] == 7);
    w = dnalm_convert_label(other, w.length, back, sizeof back);
    EXPECT(w.refusal == DNALM_TAKEN && w.place == 0 && w.length == length && memcmp(back, label, length) == 0);
}

static void expect_quoted(dnalm_quoted q, uint32_t letters, uint32_t sheet_bytes, uint32_t starts)
{
    EXPECT(q.refusal == DNALM_TAKEN && q.letters == letters && q.sheet_bytes == sheet_bytes && q.starts == starts);
}

/* A quote that is refused by this number, whatever the strands; the other numbers are 0. */
static void not_quoted(const uint16_t *lengths, size_t count, uint32_t b, uint32_t refusal)
{
    for (uint32_t strands = 0; strands <= 65535; strands += 65535) {
        dnalm_quoted q = dnalm_quote(lengths, count, b, (uint16_t)strands);
        EXPECT(q.refusal == refusal && q.letters == 0 && q.sheet_bytes == 0 && q.starts == 0);
    }
}

/* Quotes of an order with so many letters; 16m + 1 starts for the m-th segment behind a lost one, one fewer where the first length is 2. */
static void quoted(const uint16_t *lengths, size_t count, uint32_t b, uint32_t letters)
{
    uint32_t sheet_bytes = (uint32_t)(count + 3) / 4;
    uint32_t starts = 0;
    for (uint32_t m = 1; m < count; m++) {
        starts += 16 * m + (m > 1 || lengths[0] > 2);
    }
    expect_quoted(dnalm_quote(lengths, count, b, 0), 0, 0, starts);
    expect_quoted(dnalm_quote(lengths, count, b, 1), letters, sheet_bytes, starts);
    expect_quoted(dnalm_quote(lengths, count, b, 65535), 65535 * letters, 65535 * sheet_bytes, starts);
}

/* A layout that is taken: strand and label are written in the sizes told, and read back; label converted, order quoted. Answers the letters. */
static size_t taken(const uint16_t *lengths, size_t count, uint32_t b)
{
    uint8_t bytes[DNALM_MOST_BYTES];
    uint8_t strand[DNALM_MOST_WRITTEN];
    uint8_t message[DNALM_MOST_BYTES];
    uint8_t sheet[DNALM_MOST_SHEET];
    uint8_t label[DNALM_MOST_LABEL];
    memset(bytes, 0x1B, sizeof bytes);
    dnalm_written w = dnalm_write(lengths, count, b, bytes, b, strand, sizeof strand);
    EXPECT(w.refusal == DNALM_TAKEN && w.place == 0);
    size_t letters = 0;
    int equal = 1;
    int old = b <= DNALM_MOST_OLD_BYTES;
    for (size_t i = 0; i < count; i++) {
        uint32_t t = 0;
        while ((2u * lengths[i] - 1) >> t != 0) {
            t++;
        }
        letters += lengths[i] + t + 6;
        equal = equal && lengths[i] == lengths[0];
        old = old && lengths[i] <= DNALM_MOST_OLD_LENGTH;
    }
    EXPECT(w.length == letters - 2);
    dnalm_written l = dnalm_write_label(lengths, count, b, label, sizeof label);
    EXPECT(l.refusal == DNALM_TAKEN && l.place == 0);
    EXPECT(l.length == (!old ? (28 + 9 * count) / 8 : equal ? 4 : (26 + 7 * count) / 8));
    EXPECT(label[0] >> 4 == (!old ? 3 : equal ? 1 : 2));
    dnalm_order o = dnalm_read_label(label, l.length);
    EXPECT(o.refusal == DNALM_TAKEN && o.b == b && o.count == count);
    for (size_t i = 0; i < DNALM_MOST_SEGMENTS; i++) {
        EXPECT(o.lengths[i] == (i < count ? lengths[i] : 0));
    }
    dnalm_counts c = dnalm_read(o.lengths, o.count, o.b, strand, w.length, message, sizeof message, sheet, sizeof sheet);
    EXPECT(c.refusal == DNALM_TAKEN && c.clean == count && c.corrected == 0 && c.lost == 0);
    EXPECT(memcmp(message, bytes, b) == 0);
    EXPECT(dnalm_write(lengths, count, b, bytes, b, strand, w.length - 1).refusal == DNALM_SHORT_BUFFER);
    EXPECT(dnalm_write_label(lengths, count, b, label, l.length - 1).refusal == DNALM_SHORT_BUFFER);
    EXPECT(dnalm_read_label(label, l.length - 1).refusal == DNALM_SHORT_BUFFER);
    converted(label, l.length, old ? (28 + 9 * count) / 8 : 0);
    quoted(lengths, count, b, (uint32_t)w.length);
    return w.length;
}

/* Every order of small numbers in equal lengths: the first refusal, and the sizes are enough. */
static void sizes(void)
{
    static uint16_t lengths[4 * (DNALM_MOST_BYTES + 1)];
    uint8_t bytes[DNALM_MOST_BYTES + 1];
    uint8_t strand[DNALM_MOST_WRITTEN];
    uint8_t label[DNALM_MOST_LABEL];
    size_t most = 0;
    size_t segments = 0;
    memset(bytes, 0x1B, sizeof bytes);
    for (uint32_t k = 0; k <= DNALM_MOST_LENGTH + 1; k++) {
        for (uint32_t b = 0; b <= DNALM_MOST_BYTES + 1; b++) {
            size_t count = k == 0 || 4 * b < k ? 1 : 4 * b / k;
            fill(lengths, count, k);
            dnalm_written w = dnalm_write(lengths, count, b, bytes, b, strand, sizeof strand);
            dnalm_written l = dnalm_write_label(lengths, count, b, label, sizeof label);
            EXPECT(w.refusal == l.refusal);
            if (k < DNALM_LEAST_LENGTH || k > DNALM_MOST_LENGTH) {
                EXPECT(l.refusal == DNALM_SEGMENT_LENGTH);
            } else if (b < 1 || b > DNALM_MOST_BYTES) {
                EXPECT(l.refusal == DNALM_MESSAGE_SIZE);
            } else if (count * k != 4 * b || count > DNALM_MOST_SEGMENTS) {
                EXPECT(l.refusal == DNALM_CUT);
            } else {
                size_t letters = taken(lengths, count, b);
                most = letters > most ? letters : most;
                segments = count > segments ? count : segments;
                continue;
            }
            EXPECT(w.place == 0 && w.length == 0 && l.place == 0 && l.length == 0);
            not_quoted(lengths, count, b, l.refusal);
        }
    }
    EXPECT(most == 2818);
    EXPECT(segments == DNALM_MOST_SEGMENTS);
    EXPECT((segments + 3) / 4 == DNALM_MOST_SHEET);
}

/* Lengths of their own for each segment: each most is met, and what is refused of them. */
static void mixed(void)
{
    static const uint16_t ends[12] = {8, 8, 16, 16, 32, 64, 64, 32, 16, 16, 8, 8};
    uint16_t lengths[DNALM_MOST_SEGMENTS + 1];
    uint8_t bytes[DNALM_MOST_BYTES];
    uint8_t out[DNALM_MOST_WRITTEN];
    EXPECT(taken(ends, 12, 72) == 420);
    fill(lengths, 48, 9);
    fill(lengths + 48, 16, 5);
    EXPECT(taken(lengths, 64, 128) == 1198);
    EXPECT(dnalm_write_label(lengths, 64, 128, out, sizeof out).length == 59);
    fill(lengths, 60, 33);
    fill(lengths + 60, 5, 17);
    EXPECT(taken(lengths, 64, 512) == DNALM_MOST_WRITTEN);
    EXPECT(dnalm_write_label(lengths, 64, 512, out, sizeof out).length == DNALM_MOST_LABEL);
    expect_quoted(dnalm_quote(lengths, 64, 512, 2), 2 * DNALM_MOST_WRITTEN, 2 * DNALM_MOST_SHEET, DNALM_MOST_STARTS);
    not_quoted(lengths, 63, 512, DNALM_CUT);
    not_quoted(lengths, 65, 512, DNALM_CUT);
    memset(bytes, 0x1B, sizeof bytes);
    EXPECT(dnalm_write(lengths, 63, 512, bytes, 512, out, sizeof out).refusal == DNALM_CUT);
    EXPECT(dnalm_write(lengths, 65, 512, bytes, 512, out, sizeof out).refusal == DNALM_CUT);
    lengths[64] = 257;
    EXPECT(dnalm_write(lengths, 65, 512, bytes, 512, out, sizeof out).refusal == DNALM_SEGMENT_LENGTH);
    EXPECT(dnalm_write(lengths, 65, 0, NULL, 0, NULL, 0).refusal == DNALM_SEGMENT_LENGTH);
    EXPECT(dnalm_write(lengths, 64, 0, NULL, 0, NULL, 0).refusal == DNALM_MESSAGE_SIZE);
    not_quoted(lengths, 65, 0, DNALM_SEGMENT_LENGTH);
    not_quoted(lengths, 64, 0, DNALM_MESSAGE_SIZE);
}

/* An empty buffer, or a layout of no lengths, may be NULL. */
static void empty(void)
{
    static const uint16_t two[2] = {2, 2};
    uint8_t bytes[1] = {0x1B};
    uint8_t message[2] = {7, 7};
    uint8_t sheet[2] = {7, 7};
    EXPECT(dnalm_write(two, 2, 0, NULL, 0, NULL, 0).refusal == DNALM_MESSAGE_SIZE);
    EXPECT(dnalm_write(two, 2, 1, NULL, 0, NULL, 0).refusal == DNALM_MESSAGE_SIZE);
    EXPECT(dnalm_write(two, 2, 1, bytes, 1, NULL, 0).refusal == DNALM_SHORT_BUFFER);
    EXPECT(dnalm_read(two, 2, 1, NULL, 0, NULL, 0, NULL, 0).refusal == DNALM_SHORT_BUFFER);
    EXPECT(dnalm_read(two, 2, 1, NULL, 0, message, 1, NULL, 0).refusal == DNALM_SHORT_BUFFER);
    EXPECT(dnalm_read(two, 2, 1, NULL, 0, NULL, 0, sheet, 1).refusal == DNALM_SHORT_BUFFER);
    EXPECT(message[0] == 7 && sheet[0] == 7);
    dnalm_counts c = dnalm_read(two, 2, 1, NULL, 0, message, 2, sheet, 2);
    EXPECT(c.refusal == DNALM_TAKEN && c.clean == 0 && c.corrected == 0 && c.lost == 2);
    EXPECT(message[0] == 0 && message[1] == 7 && sheet[0] == 0xA0 && sheet[1] == 7);
    dnalm_piece_at p = dnalm_piece(two, 2, 1, NULL, 0, 2);
    EXPECT(p.refusal == DNALM_TAKEN && p.start == 0 && p.length == 0);
    EXPECT(dnalm_piece(two, 2, 1, NULL, 0, 0).refusal == DNALM_NO_SUCH_SEGMENT);
    EXPECT(dnalm_report(two, 2, 1, NULL, 0, NULL, 0).refusal == DNALM_SHORT_BUFFER);
    EXPECT(dnalm_verdict(two, 2, 1, NULL, 0, 2).kind == DNALM_SAID_LOST_START);
    EXPECT(dnalm_verdict(two, 2, 1, NULL, 0, 0).refusal == DNALM_NO_SUCH_SEGMENT);
    EXPECT(dnalm_write_label(two, 2, 1, NULL, 0).refusal == DNALM_SHORT_BUFFER);
    EXPECT(dnalm_read_label(NULL, 0).refusal == DNALM_SHORT_BUFFER);
    EXPECT(dnalm_convert_label(NULL, 0, NULL, 0).refusal == DNALM_SHORT_BUFFER);
    EXPECT(dnalm_convert_label(NULL, 0, message, 2).refusal == DNALM_SHORT_BUFFER);
    EXPECT(dnalm_write(NULL, 0, 1, bytes, 1, NULL, 0).refusal == DNALM_CUT);
    EXPECT(dnalm_write(NULL, 0, 0, NULL, 0, NULL, 0).refusal == DNALM_MESSAGE_SIZE);
    EXPECT(dnalm_read(NULL, 0, 1, NULL, 0, message, 2, sheet, 2).refusal == DNALM_CUT);
    EXPECT(dnalm_piece(NULL, 0, 1, NULL, 0, 0).refusal == DNALM_CUT);
    EXPECT(dnalm_report(NULL, 0, 1, NULL, 0, NULL, 0).refusal == DNALM_CUT);
    EXPECT(dnalm_verdict(NULL, 0, 1, NULL, 0, 0).refusal == DNALM_CUT);
    EXPECT(dnalm_write_label(NULL, 0, 1, NULL, 0).refusal == DNALM_CUT);
    not_quoted(NULL, 0, 1, DNALM_CUT);
    not_quoted(NULL, 0, 0, DNALM_MESSAGE_SIZE);
}

/* A label of so many bytes is not converted by this number, whatever the buffer, which stays as it was. */
static void not_converted(const char *bytes, size_t length, uint32_t refusal)
{
    uint8_t out[DNALM_MOST_LABEL];
    memset(out, 7, sizeof out);
    EXPECT(dnalm_convert_label((const uint8_t *)bytes, length, NULL, 0).refusal == refusal);
    dnalm_written w = dnalm_convert_label((const uint8_t *)bytes, length, out, sizeof out);
    EXPECT(w.refusal == refusal && w.place == 0 && w.length == 0);
    for (size_t i = 0; i < sizeof out; i++) {
        EXPECT(out[i] == 7);
    }
}

/* A label of so many bytes is refused by this number, and the other numbers are 0. */
static void no_label(const char *bytes, size_t length, uint32_t refusal)
{
    dnalm_order o = dnalm_read_label((const uint8_t *)bytes, length);
    EXPECT(o.refusal == refusal && o.b == 0 && o.count == 0);
    for (size_t i = 0; i < DNALM_MOST_SEGMENTS; i++) {
        EXPECT(o.lengths[i] == 0);
    }
    not_converted(bytes, length, refusal);
}

/* Labels by what they need and what is refused of them; 20 20 40 83 00 and 30 08 10 08 0C are the lengths 2 and 6. */
static void labels(void)
{
    const uint8_t *old = (const uint8_t *)"\x20\x20\x40\x83\x00\xFF";
    const uint8_t *third = (const uint8_t *)"\x30\x08\x10\x08\x0C\xFF";
    uint8_t out[5];
    dnalm_order o = dnalm_read_label(old, 6);
    EXPECT(o.refusal == DNALM_TAKEN && o.b == 2 && o.count == 2 && o.lengths[0] == 2 && o.lengths[1] == 6);
    o = dnalm_read_label(third, 6);
    EXPECT(o.refusal == DNALM_TAKEN && o.b == 2 && o.count == 2 && o.lengths[0] == 2 && o.lengths[1] == 6);
    EXPECT(dnalm_convert_label(old, 6, out, 5).length == 5 && memcmp(out, third, 5) == 0);
    EXPECT(dnalm_convert_label(third, 6, out, 5).length == 5 && memcmp(out, old, 5) == 0);
    EXPECT(dnalm_convert_label((const uint8_t *)"\x30\x04\x10\x08\x04", 5, out, 4).length == 4 && memcmp(out, "\x10\x40\x20\x00", 4) == 0);
    no_label("\x20\x20\x40\x83", 4, DNALM_SHORT_BUFFER);
    no_label("\x20\x20", 2, DNALM_SHORT_BUFFER);
    no_label("\x20\x2F\xE0\x83", 4, DNALM_SHORT_BUFFER);
    no_label("\x30\x08\x10\x08", 4, DNALM_SHORT_BUFFER);
    no_label("\x30\x08", 2, DNALM_SHORT_BUFFER);
    no_label("\x30\x0B\xF8\x08", 4, DNALM_SHORT_BUFFER);
    no_label("\x40\x20\x40", 3, DNALM_SHORT_BUFFER);
    no_label("\x40\x20\x40\x83", 4, DNALM_LABEL);
    no_label("\x00\x40\x20\x00", 4, DNALM_LABEL);
    no_label("\x10\x40\x20\x01", 4, DNALM_LABEL);
    no_label("\x20\x20\x40\x83\x40", 5, DNALM_LABEL);
    no_label("\x30\x08\x10\x08\x0D", 5, DNALM_LABEL);
    no_label("\x20\x20\x41\x02\x00", 5, DNALM_LABEL);
    no_label("\x20\x20\x21\x00", 4, DNALM_LABEL);
    no_label("\x20\x00\x40\x40\x80", 5, DNALM_LABEL);
    no_label("\x20\x20\x40\x43\x80", 5, DNALM_SEGMENT_LENGTH);
    no_label("\x18\x22\x20\x00", 4, DNALM_SEGMENT_LENGTH);
    no_label("\x21\x10\x50\x41\x80", 5, DNALM_SEGMENT_LENGTH);
    no_label("\x31\x04\x14\x04\x06", 5, DNALM_SEGMENT_LENGTH);
    no_label("\x20\x00\x40\x83\x00", 5, DNALM_MESSAGE_SIZE);
    no_label("\x15\x70\x20\x00", 4, DNALM_MESSAGE_SIZE);
    no_label("\x38\x04\x10\x08\x04", 5, DNALM_MESSAGE_SIZE);
    no_label("\x20\x30\x40\x83\x00", 5, DNALM_CUT);
    no_label("\x20\x20\x00", 3, DNALM_CUT);
    no_label("\x30\x08\x00", 3, DNALM_CUT);
    no_label("\x10\x60\x20\x00", 4, DNALM_CUT);
    not_converted("\x30\x44\x11\x04\x06", 5, DNALM_TOO_LARGE);
    not_converted("\x31\x00\x0C\x00", 4, DNALM_TOO_LARGE);
}

/* What each byte is; an N in the place of an A and one in the place of a C, both corrected; their pieces. */
static void unknown(void)
{
    static const uint16_t two[2] = {2, 2};
    static const uint8_t known[5] = {'A', 'T', 'C', 'G', 'N'};
    const uint8_t *strand = (const uint8_t *)"NTTGGGTATTNGTAAAGC";
    uint8_t message[1];
    uint8_t sheet[1];
    for (int byte = 0; byte < 256; byte++) {
        int told = 0;
        while (told < 5 && known[told] != byte) {
            told++;
        }
        EXPECT(dnalm_letter((uint8_t)byte) == told);
    }
    EXPECT(dnalm_letter('N') == DNALM_UNKNOWN && dnalm_letter('n') == DNALM_FOREIGN);
    dnalm_counts c = dnalm_read(two, 2, 1, strand, 18, message, 1, sheet, 1);
    EXPECT(c.refusal == DNALM_TAKEN && c.clean == 0 && c.corrected == 2 && c.lost == 0);
    EXPECT(message[0] == 0x1B && sheet[0] == 0x50);
    dnalm_piece_at p = dnalm_piece(two, 2, 1, strand, 18, 2);
    EXPECT(p.refusal == DNALM_TAKEN && p.start == 8 && p.length == 10);
    EXPECT(dnalm_letter(strand[p.start + 2]) == DNALM_UNKNOWN);
}

static dnalm_said said(uint32_t kind, size_t at, char letter, uint8_t step)
{
    dnalm_said s = {DNALM_TAKEN, 0, kind, at, (uint8_t)letter, step};
    return s;
}

static void expect_said(dnalm_said s, dnalm_said e)
{
    EXPECT(s.refusal == e.refusal && s.place == e.place && s.kind == e.kind);
    EXPECT(s.at == e.at && s.letter == e.letter && s.step == e.step);
}

/* A strand of two segments: its report, in a buffer that is just long enough, and what is said of each segment. */
static void reported(const char *strand, const char *lines, dnalm_said first, dnalm_said second)
{
    static const uint16_t two[2] = {2, 2};
    const uint8_t *letters = (const uint8_t *)strand;
    size_t letters_length = strlen(strand);
    size_t length = strlen(lines);
    uint8_t out[DNALM_MOST_REPORT];
    memset(out, 7, sizeof out);
    EXPECT(dnalm_report(two, 2, 1, letters, letters_length, out, length - 1).refusal == DNALM_SHORT_BUFFER);
    EXPECT(out[0] == 7);
    dnalm_written w = dnalm_report(two, 2, 1, letters, letters_length, out, length);
    EXPECT(w.refusal == DNALM_TAKEN && w.place == 0 && w.length == length);
    EXPECT(memcmp(out, lines, length) == 0);
    w = dnalm_report(two, 2, 1, letters, letters_length, out, sizeof out);
    EXPECT(w.refusal == DNALM_TAKEN && w.length == length && out[length] == 7);
    expect_said(dnalm_verdict(two, 2, 1, letters, letters_length, 1), first);
    expect_said(dnalm_verdict(two, 2, 1, letters, letters_length, 2), second);
    EXPECT(dnalm_verdict(two, 2, 1, letters, letters_length, 3).refusal == DNALM_NO_SUCH_SEGMENT);
}

/* A line of each kind, and a report of 64 lines. */
static void reports(void)
{
    dnalm_said clean = said(DNALM_SAID_CLEAN, 0, 0, 0);
    dnalm_said lost_start = said(DNALM_SAID_LOST_START, 0, 0, 0);
    uint16_t lengths[DNALM_MOST_SEGMENTS];
    uint8_t out[DNALM_MOST_REPORT];
    reported("ATTGGGTATTCGTAAAGC", "1 clean\n2 clean\n", clean, clean);
    reported("ATTGGGTCTTCGTAAAGC", "1 sub 7 C\n2 clean\n", said(DNALM_SAID_SUB, 7, 'C', 0), clean);
    reported("NTTGGGTATTNGTAAAGC", "1 unknown\n2 sub 2 N\n", said(DNALM_SAID_UNKNOWN, 0, 0, 0), said(DNALM_SAID_SUB, 2, 'N', 0));
    reported("ATGGGTATTCGTAAAGCN", "1 del 1 T\n2 ins 10 N\n", said(DNALM_SAID_DEL, 1, 'T', 0), said(DNALM_SAID_INS, 10, 'N', 0));
    reported("ATTGGGTA", "1 clean\n2 lost 3\n", clean, said(DNALM_SAID_LOST, 0, 0, 3));
    reported("ATTGGGTCATCGTAAAGC", "1 lost 8\n2 lost start\n", said(DNALM_SAID_LOST, 0, 0, 8), lost_start);
    reported("", "1 lost 6\n2 lost start\n", said(DNALM_SAID_LOST, 0, 0, 6), lost_start);
    fill(lengths, DNALM_MOST_SEGMENTS, 2);
    dnalm_written w = dnalm_report(lengths, DNALM_MOST_SEGMENTS, 32, NULL, 0, out, sizeof out);
    EXPECT(w.refusal == DNALM_TAKEN && w.length == 883 && memcmp(out + 869, "64 lost start\n", 14) == 0);
    EXPECT(DNALM_MOST_REPORT == 15 * DNALM_MOST_SEGMENTS);
}

/* A foreign letter behind an N, letters too many and a full tally. */
static void refused(void)
{
    static const uint16_t two[2] = {2, 2};
    static uint8_t many[DNALM_MOST_LETTERS + 1];
    uint8_t message[1] = {7};
    uint8_t sheet[1] = {7};
    const uint8_t *letters = (const uint8_t *)"NTTgGGTATTCGTAAAGX";
    dnalm_counts c = dnalm_read(two, 2, 1, letters, 18, message, 1, sheet, 1);
    EXPECT(c.refusal == DNALM_FOREIGN_LETTER && c.place == 3);
    EXPECT(c.clean == 0 && c.corrected == 0 && c.lost == 0);
    dnalm_piece_at p = dnalm_piece(two, 2, 1, letters, 18, 1);
    EXPECT(p.refusal == DNALM_FOREIGN_LETTER && p.place == 3 && p.start == 0 && p.length == 0);
    dnalm_written w = dnalm_report(two, 2, 1, letters, 18, NULL, 0);
    EXPECT(w.refusal == DNALM_FOREIGN_LETTER && w.place == 3 && w.length == 0);
    dnalm_said v = said(0, 0, 0, 0);
    v.refusal = DNALM_FOREIGN_LETTER;
    v.place = 3;
    expect_said(dnalm_verdict(two, 2, 1, letters, 18, 3), v);
    c = dnalm_read(two, 2, 1, many, sizeof many, message, 1, sheet, 1);
    EXPECT(c.refusal == DNALM_OVERLONG && c.place == 0);
    EXPECT(dnalm_report(two, 2, 1, many, sizeof many, NULL, 0).refusal == DNALM_OVERLONG);
    EXPECT(dnalm_verdict(two, 2, 1, many, sizeof many, 0).refusal == DNALM_OVERLONG);
    EXPECT(message[0] == 7 && sheet[0] == 7);
    memset(many, 'A', sizeof many);
    EXPECT(dnalm_read(two, 2, 1, many, DNALM_MOST_LETTERS, message, 1, sheet, 1).refusal == DNALM_TAKEN);
    dnalm_tally t = {5, 10, 4294967295u, 3};
    dnalm_tallied s = dnalm_add_to_tally(t, 2, 0, 1);
    EXPECT(s.refusal == DNALM_TAKEN && s.strands == 6 && s.clean == 12 && s.corrected == 4294967295u && s.lost == 4);
    s = dnalm_add_to_tally(t, 2, 1, 1);
    EXPECT(s.refusal == DNALM_TALLY_FULL && s.strands == 5 && s.clean == 10 && s.corrected == 4294967295u && s.lost == 3);
}

int main(void)
{
    sizes();
    mixed();
    empty();
    labels();
    unknown();
    reports();
    refused();
    return 0;
}
