/* Quotes and orders 32 bytes in segments that are short at the ends, damages two letters, one to an N, reads the message back by the label and reports. */
#include "dnalm.h"
#include <stdio.h>
#include <string.h>

enum { B = 32, SEGMENTS = 8 };

static const uint16_t LENGTHS[SEGMENTS] = {8, 8, 16, 32, 32, 16, 8, 8};
static const char MESSAGE[] = "Barley seeds, lot 17, drawer 204";

static int refused(uint32_t refusal)
{
    if (refusal != DNALM_TAKEN) {
        printf("refused %u\n", (unsigned)refusal);
    }
    return refusal != DNALM_TAKEN;
}

int main(void)
{
    uint8_t label[DNALM_MOST_LABEL];
    uint8_t strand[DNALM_MOST_WRITTEN];
    uint8_t message[DNALM_MOST_BYTES];
    uint8_t sheet[DNALM_MOST_SHEET];
    uint8_t report[DNALM_MOST_REPORT];

    dnalm_quoted quoted = dnalm_quote(LENGTHS, SEGMENTS, B, 1);
    if (refused(quoted.refusal)) {
        return 1;
    }
    printf("letters %u sheet bytes %u starts %u\n", (unsigned)quoted.letters, (unsigned)quoted.sheet_bytes, (unsigned)quoted.starts);

    dnalm_written labelled = dnalm_write_label(LENGTHS, SEGMENTS, B, label, sizeof label);
    if (refused(labelled.refusal)) {
        return 1;
    }
    printf("label ");
    for (size_t i = 0; i < labelled.length; i++) {
        printf("%02X", label[i]);
    }
    printf("\n");

    dnalm_written written = dnalm_write(LENGTHS, SEGMENTS, B, (const uint8_t *)MESSAGE, B, strand, sizeof strand);
    if (refused(written.refusal)) {
        return 1;
    }
    printf("written %u letters\n", (unsigned)written.length);

    strand[2] = strand[2] == 'A' ? 'T' : 'A';
    strand[100] = 'N';

    dnalm_order order = dnalm_read_label(label, labelled.length);
    if (refused(order.refusal)) {
        return 1;
    }
    dnalm_counts counts = dnalm_read(order.lengths, order.count, order.b, strand, written.length, message, sizeof message, sheet, sizeof sheet);
    if (refused(counts.refusal)) {
        return 1;
    }
    printf("message %s\n", memcmp(message, MESSAGE, B) == 0 ? "equal" : "differs");
    printf("clean %u corrected %u lost %u\n", (unsigned)counts.clean, (unsigned)counts.corrected, (unsigned)counts.lost);

    for (uint32_t i = 0; i < order.count; i++) {
        int mark = sheet[i / 4] >> (6 - 2 * (i % 4)) & 3;
        if (mark != DNALM_CLEAN) {
            dnalm_piece_at piece = dnalm_piece(order.lengths, order.count, order.b, strand, written.length, i + 1);
            printf("segment %u at %u: %.*s\n", (unsigned)(i + 1), (unsigned)piece.start, (int)piece.length, (const char *)strand + piece.start);
        }
    }

    dnalm_written reported = dnalm_report(order.lengths, order.count, order.b, strand, written.length, report, sizeof report);
    if (refused(reported.refusal)) {
        return 1;
    }
    printf("%.*s", (int)reported.length, (const char *)report);
    return 0;
}
