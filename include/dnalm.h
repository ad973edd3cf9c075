/*
 * DNA-LM strands: letters, writing, reading, the pieces of segments, reports, labels, quotes and tallies.
 *
 * A message of B bytes is 4B symbols. It is written in the letters A, T, C and G, as l segments.
 * A layout lists their lengths, the symbols of the message in each segment from the first to the last:
 * 1 to 64 lengths, each 2 to 256, that sum to 4B. They may be equal, or short at the ends and long between.
 * A received strand may also have the letter N, which sequencers write where they could not decide. N is
 * read as A, and a segment with an N never counts as clean.
 * On every layout a strand with at most one letter changed, lost or added in each segment is read back
 * whole, if each segment that is hit in separator or syndrome is last or has an untouched one directly
 * after it. An N in a letter's place is a changed letter, in the place of an A too, and an extra N is an
 * added one; so a segment with an N is not untouched.
 *
 *     bash tools/library               proves the calls and writes target/lib/libdnalm.a (x86-64 Linux)
 *     cc -std=c99 -I include program.c target/lib/libdnalm.a
 *
 * Every call answers for all numbers, lengths and contents. It allocates nothing and keeps nothing
 * between calls, so several threads may call at once.
 *
 * A buffer is a pointer and a number of bytes, a layout a pointer and a number of lengths, and the pointer
 * has to be good for that many. Where the number is 0, nothing is read or written through the pointer, and
 * it may be any, NULL included. A layout is only read. A buffer that is written to overlaps no other of the
 * same call, nor the layout; it need not hold anything before.
 *
 * In an answer refusal is 0 where the call is taken, and else the number of the refusal: of several the
 * first in the order that is told for the call. place is 0, or, where refusal is 6, the place of the
 * first foreign letter, from 0. The other numbers of a refused call are 0, but for a tally's.
 * A refused call leaves all its buffers as they were.
 */
#ifndef DNALM_H
#define DNALM_H

#include <stddef.h>
#include <stdint.h>

#ifdef __cplusplus
extern "C" {
#endif

/* The limits, and the sizes that are enough for every order within them. */
enum {
    DNALM_LEAST_LENGTH = 2,     /* each length of a layout */
    DNALM_MOST_LENGTH = 256,
    DNALM_MOST_BYTES = 512,     /* B, the bytes of a strand's message; at least 1 */
    DNALM_MOST_SEGMENTS = 64,   /* l, the number of lengths; at least 1 */
    DNALM_MOST_LETTERS = 4096,  /* letters of a received strand */
    DNALM_MOST_WRITTEN = 2874,  /* letters of a written strand; with a letter added in each segment 2,938 */
    DNALM_MOST_SHEET = 16,      /* bytes of a sheet */
    DNALM_MOST_LABEL = 75,      /* bytes of a label that is written, also of a converted one */
    DNALM_MOST_REPORT = 960,    /* bytes of a report: 64 lines of at most 15 */
    DNALM_MOST_STARTS = 32319,  /* starts that the scans of one reading try */
    DNALM_MOST_OLD_LENGTH = 64, /* each length in a label of the old editions, 1 and 2 */
    DNALM_MOST_OLD_BYTES = 128  /* B in a label of the old editions */
};

/* The refusals by their numbers. The old editions of a label are 1 and 2. */
enum {
    DNALM_TAKEN = 0,
    DNALM_SEGMENT_LENGTH = 1,   /* a length is not 2 to 256, in an old edition 2 to 64, the first or any other */
    DNALM_MESSAGE_SIZE = 2,     /* B is not 1 to 512, in an old edition 1 to 128, or the message to write has not B bytes */
    DNALM_CUT = 3,              /* there are no lengths or more than 64, or their sum is not 4B */
    DNALM_OVERLONG = 4,         /* there are more than 4,096 letters */
    DNALM_SHORT_BUFFER = 5,     /* a buffer or a label has too few bytes */
    DNALM_FOREIGN_LETTER = 6,   /* a byte is none of A, T, C, G and N */
    DNALM_TALLY_FULL = 7,       /* a count would pass 4,294,967,295 */
    DNALM_LABEL = 8,            /* the edition is not 1 to 3, a spare bit is set, or 1 to 64 equal lengths are in edition 2 */
    DNALM_NO_SUCH_SEGMENT = 9,  /* the segment's number is not 1 to l */
    DNALM_TOO_LARGE = 13        /* a label to convert is too large for the old editions: a length above 64, or B above 128 */
};

/* What dnalm_letter answers for a byte that has no symbol. */
enum {
    DNALM_UNKNOWN = 4,          /* N */
    DNALM_FOREIGN = 5           /* no letter */
};

/* The marks of a sheet. */
enum {
    DNALM_CLEAN = 0,
    DNALM_CORRECTED = 1,        /* also a segment as it was written, but for N in the place of A */
    DNALM_LOST = 2
};

/* What is said of a segment: the kinds of dnalm_said. */
enum {
    DNALM_SAID_CLEAN = 0,       /* it stands as it was written */
    DNALM_SAID_UNKNOWN = 1,     /* it stands as it was written, but for N in the place of A */
    DNALM_SAID_SUB = 2,         /* a letter was changed */
    DNALM_SAID_DEL = 3,         /* a letter was left out */
    DNALM_SAID_INS = 4,         /* a letter was put in */
    DNALM_SAID_LOST = 5,        /* it is lost in a reading step */
    DNALM_SAID_LOST_START = 6   /* it is lost since no start was found for it */
};

/* What a writing answers. */
typedef struct dnalm_written {
    uint32_t refusal;
    size_t place;               /* of a strand and of a label always 0 */
    size_t length;              /* the bytes that are written: the letters of a strand, the bytes of a label or of a report */
} dnalm_written;

/* What a reading answers: how many segments have each mark, together l. */
typedef struct dnalm_counts {
    uint32_t refusal;
    size_t place;
    uint32_t clean;
    uint32_t corrected;
    uint32_t lost;
} dnalm_counts;

/* Where a segment's piece stands: length letters from letters[start] on. */
typedef struct dnalm_piece_at {
    uint32_t refusal;
    size_t place;
    size_t start;
    size_t length;
} dnalm_piece_at;

/* What happened to a segment. What its kind does not have is 0. */
typedef struct dnalm_said {
    uint32_t refusal;
    size_t place;
    uint32_t kind;              /* also 0 where the call is refused */
    size_t at;                  /* sub, del, ins: the place in the written segment, from 0 */
    uint8_t letter;             /* sub, ins: the received letter, N too; del: the written one */
    uint8_t step;               /* lost: the step, 3, 6, 7, 8 or 9 */
} dnalm_said;

/* What a label says: B, and the layout of the first count lengths. */
typedef struct dnalm_order {
    uint32_t refusal;
    uint32_t b;
    size_t count;
    uint16_t lengths[DNALM_MOST_SEGMENTS];  /* zeros behind the first count */
} dnalm_order;

/* What strands of one order take. */
typedef struct dnalm_quoted {
    uint32_t refusal;
    uint32_t letters;           /* to order, for all strands together */
    uint32_t sheet_bytes;       /* of their sheets, for all strands together */
    uint32_t starts;            /* the most that the scans of one reading try */
} dnalm_quoted;

/* How many strands were read, and their segments by mark. */
typedef struct dnalm_tally {
    uint32_t strands;
    uint32_t clean;
    uint32_t corrected;
    uint32_t lost;
} dnalm_tally;

/* The counts of a tally after a reading is added; where it is refused, those before. */
typedef struct dnalm_tallied {
    uint32_t refusal;
    uint32_t strands;
    uint32_t clean;
    uint32_t corrected;
    uint32_t lost;
} dnalm_tallied;

/*
 * Answers what a byte of a strand is: 0, 1, 2 or 3, the symbol of A, T, C or G; DNALM_UNKNOWN for N;
 * DNALM_FOREIGN for any other byte, lower-case letters included.
 *
 * It refuses nothing and writes to nothing.
 */
uint8_t dnalm_letter(uint8_t byte);

/*
 * Writes the strand of a message of B = b bytes, in segments of the lengths given, to the front of out.
 * A segment of length k has k + t + 6 letters, where t is the number of bits of 2k - 1; the first has two
 * letters fewer. No N is written.
 *
 * Refused, in this order: 1, 2, 3, 5 where out has fewer bytes than the strand has letters.
 * The bytes of out behind the strand are untouched.
 */
dnalm_written dnalm_write(const uint16_t *lengths, size_t lengths_count, uint32_t b,
                          const uint8_t *message, size_t message_length,
                          uint8_t *out, size_t out_length);

/*
 * Reads the letters that were received of a strand written for these lengths and B = b.
 * The B bytes of the message go to the front of message, with zeros for the symbols of a lost segment.
 * The sheet goes to the front of sheet, (l + 3) / 4 bytes: two bits for each segment, the first segment
 * in the highest bits of the first byte, 0 clean, 1 corrected, 2 lost; the bits that are left are 0.
 * N is read as A. A segment with an N that is as it was written, N taken as A, is marked corrected.
 *
 * Refused, in this order: 1, 2, 3, 4, 5 where message has fewer than B bytes or sheet too few, 6.
 * The bytes behind the message and behind the sheet are untouched.
 */
dnalm_counts dnalm_read(const uint16_t *lengths, size_t lengths_count, uint32_t b,
                        const uint8_t *letters, size_t letters_length,
                        uint8_t *message, size_t message_length,
                        uint8_t *sheet, size_t sheet_length);

/*
 * Answers which letters belong to a segment by that reading; the first segment is 1.
 * The pieces follow each other and are all the letters, N among them. The piece of a segment that a step
 * loses runs to the next start that was found or to the end; one without a start has an empty piece there.
 *
 * Refused, in this order: 1, 2, 3, 4, 6, 9. It writes to nothing.
 */
dnalm_piece_at dnalm_piece(const uint16_t *lengths, size_t lengths_count, uint32_t b,
                           const uint8_t *letters, size_t letters_length,
                           uint32_t segment);

/*
 * Writes a report of that reading to the front of out: a line for each segment, which is its number from 1,
 * a space, what happened to it and a line feed.
 *
 *     clean          it stands as it was written
 *     sub 7 C        the letter at place 7 of the written segment was changed to C
 *     del 7 C        the letter C at place 7 was left out
 *     ins 7 C        C was put in behind the first 7 letters
 *     unknown        it stands as it was written, but for N in the place of A
 *     lost 8         it is lost in that reading step: 3, 6, 7, 8 or 9
 *     lost start     it is lost since no start was found for it
 *
 * Places are counted from 0, in the segment written anew from the message that was read. Of several that fit,
 * N taken as A, it is the smallest. A received letter may be N.
 *
 * Refused, in this order: 1, 2, 3, 4, 6, 5 where out has fewer bytes than these lines; DNALM_MOST_REPORT are
 * enough for any. The bytes of out behind the lines are untouched.
 */
dnalm_written dnalm_report(const uint16_t *lengths, size_t lengths_count, uint32_t b,
                           const uint8_t *letters, size_t letters_length,
                           uint8_t *out, size_t out_length);

/*
 * Answers what the line of one segment says, in numbers; the first segment is 1.
 *
 * Refused, in this order: 1, 2, 3, 4, 6, 9. It writes to nothing.
 */
dnalm_said dnalm_verdict(const uint16_t *lengths, size_t lengths_count, uint32_t b,
                         const uint8_t *letters, size_t letters_length,
                         uint32_t segment);

/*
 * Writes the label of a layout and B = b to the front of out, the most significant bit first. It has the
 * oldest edition that can carry the order. The old editions, 1 and 2, carry lengths up to 64 and B up to 128:
 * equal lengths, of which one alone is equal, have edition 1, all others edition 2. With a length above 64 or
 * B above 128 the label has edition 3.
 *
 *     edition 1      edition 4 bits, the length 7, B 8, and 13 spare zero bits; 4 bytes
 *     edition 2      edition 4 bits, B 8, the number of lengths 7, each length 7, and spare zero bits to the
 *                    end of the byte; (26 + 7 * lengths_count) / 8 bytes, at most 59
 *     edition 3      edition 4 bits, B 10, the number of lengths 7, each length 9, and spare zero bits to the
 *                    end of the byte; (28 + 9 * lengths_count) / 8 bytes, at most 75
 *
 * Refused, in this order: 1, 2, 3, 5 where out has fewer bytes than the label; DNALM_MOST_LABEL are enough
 * for any. The bytes of out behind the label are untouched.
 */
dnalm_written dnalm_write_label(const uint16_t *lengths, size_t lengths_count, uint32_t b,
                                uint8_t *out, size_t out_length);

/*
 * Reads a label of edition 1, 2 or 3; one of edition 3 may carry any layout, also one that an old edition can
 * carry. The bytes it needs are told by itself: by editions 2 and 3 those of its own number of lengths, 0 to
 * 127, as above, at most 114 and 146; by edition 1, and by one that is not known, four. Bytes behind these are
 * not read.
 *
 * Refused, in this order: 5 where there are fewer bytes than it needs, or too few to tell them: none, or by
 * editions 2 and 3 fewer than three; 8, by edition 2 also for 1 to 64 equal lengths, whatever these are; 1, by
 * the old editions also for a length above 64; 2, by these also for B above 128; 3, by edition 1 where 4B is
 * not a multiple of the length, or makes more than 64 segments. It writes to nothing.
 */
dnalm_order dnalm_read_label(const uint8_t *bytes, size_t bytes_length);

/*
 * Converts a label to the other side and writes it to the front of out: a label of edition 1 or 2 becomes one
 * of edition 3, and a label of edition 3 becomes one of edition 1 if its lengths are equal, else one of
 * edition 2. It carries the same order, and converted once more it is the label that was read. Bytes behind
 * those that the label needs are not read. A reader that knows the old editions alone refuses by 8 each label
 * of edition 3 that carries an order.
 *
 * Refused, in this order: 5, 8, 1, 2, 3 as by dnalm_read_label; 13 for a label of edition 3 with a length
 * above 64 or B above 128; 5 where out has fewer bytes than the converted label: DNALM_MOST_LABEL are enough
 * for any. The bytes of out behind the label are untouched.
 */
dnalm_written dnalm_convert_label(const uint8_t *label, size_t label_length,
                                  uint8_t *out, size_t out_length);

/*
 * Answers what strands of these lengths and B = b take, without making them: their letters, for each strand
 * as many as dnalm_write writes, whatever the message; and the bytes of their sheets, (l + 3) / 4 for each.
 * starts is of one reading: behind a lost segment the reading steps try one start after the other for the
 * next ones, and this is how many they try at most, whatever letters are received; for no letters exactly
 * so many. A start counts past the strand's end too, and anew for each segment that is sought there. It is
 * 8 * l * (l - 1) + (l - 1), and one less if l is above 1 and the first length is 2. dnalm_read leaves out
 * starts at which nothing can stand.
 *
 * Refused, in this order: 1, 2, 3. It writes to nothing.
 */
dnalm_quoted dnalm_quote(const uint16_t *lengths, size_t lengths_count, uint32_t b, uint16_t strands);

/*
 * Adds one strand and the three counts of its reading to a tally. All four counts change, or none.
 *
 * Refused: 7. It writes to nothing; the new counts are in the answer.
 */
dnalm_tallied dnalm_add_to_tally(dnalm_tally t, uint32_t clean, uint32_t corrected, uint32_t lost);

#ifdef __cplusplus
}
#endif

#endif
