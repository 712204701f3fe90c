/* dfb.h: the stand-in for the Digital Fields Board, for C99 and C++ programs. Link libdfb.a or libdfb.so (pkg-config: dfb).
 *
 * Every function with external linkage is proved: for every input, refused ones too, its answer and the later contents of every list are
 * those of the rules (AUDIT.md). The inline functions take answers apart and give lengths; they are tested against the proved ones.
 * HANDBOOK.md has the rules for people: registers and their fields, reports, bands, words, the log and its items, command lists, counted logs, bursts,
 * snapshots, summed spectra, space packets, and a remedy for each refusal.
 *
 * A call ends in an answer or in a refusal, which has a number (enum dfb_refusal_number). A refused call changes nothing: the state and every
 * list are as they were. Nothing has to be checked before a call; lists of any length may be passed, and a wrong length is refused by 2, that
 * of a snapshot's packet by 16, that of a space packet to import, or of samples to export, by 23.
 * The refusals of a function are named in the order in which they are given. In an output longer than needed, all behind the part written
 * stays as it was.
 *
 * What a caller owes:
 * - A list is a pointer and then its length in elements. The pointer is valid for that many elements and aligned for their type.
 * - The elements of every list, an output too, have been written before the call; what was written does not matter.
 * - A list of length 0 may have any pointer, NULL too.
 * - No two lists of one call overlap.
 * - During a call no other thread writes to its lists, nor reads those that are not const.
 * The library has no state of its own, allocates nothing and calls nothing but memory functions of the C library. Calls on different lists
 * may run side by side in different threads.
 *
 * Platform: Linux on x86-64; glibc 2.14 or later.
 */
#ifndef DFB_H
#define DFB_H

#include <stddef.h>
#include <stdint.h>

/* The minor number rises with every function that is added or changed, the patch number with a ticket that adds and changes none; the
 * soname of libdfb.so is libdfb.so.MAJOR. */
#define DFB_VERSION "0.13.0"
#define DFB_VERSION_MAJOR 0
#define DFB_VERSION_MINOR 13
#define DFB_VERSION_PATCH 0

#ifdef __cplusplus
extern "C" {
#endif

/* ---- refusals ---- */

/* 13 is not used. */
enum dfb_refusal_number {
    DFB_REFUSAL_UNKNOWN_COMMAND = 1,         /* the command ID is outside 0x30 to 0x36 */
    DFB_REFUSAL_WRONG_LENGTH = 2,            /* a list has a wrong length, an output is too small, or a place or number does not fit */
    DFB_REFUSAL_UNSOUND_STATE = 3,           /* the state is not one that the board, the slots, the counting writer or a sum can have left */
    DFB_REFUSAL_UNKNOWN_APID = 4,            /* the APID is none of the seven, or 0x4E where a waveform's is wanted */
    DFB_REFUSAL_INCOMPLETE_SET = 5,          /* the words are not exactly one set */
    DFB_REFUSAL_NO_PROCESSOR_ENABLED = 6,    /* a SPEC word with no processor enabled */
    DFB_REFUSAL_ILLEGAL_BAND_CODE = 7,       /* the band code is not legal */
    DFB_REFUSAL_SUM_CODE_OVERFLOW = 8,       /* the sum code's value is 2^64 or more */
    DFB_REFUSAL_UNKNOWN_RECORD_KIND = 9,     /* the record kind is none of 1 to 4 */
    DFB_REFUSAL_TRUNCATED_BODY = 10,         /* the log ends within a record */
    DFB_REFUSAL_INPUT_TOO_LONG = 11,         /* the log is over 65,536 bytes */
    DFB_REFUSAL_OUT_OF_RANGE = 12,           /* a bin setting, band, FFT bin or NCAD choice is out of range, or a target is not 36 or 64 bands */
    DFB_REFUSAL_UNKNOWN_PACKET = 14,         /* the packet's SID is not 33 or its auxiliary length is not 8 */
    DFB_REFUSAL_PACKET_OUT_OF_RANGE = 15,    /* the total of packets is over 3072, or the packet number is not below the total */
    DFB_REFUSAL_WRONG_PACKET_LENGTH = 16,    /* the packet is under 20 bytes, or its bytes or samples are not as many as its mask says */
    DFB_REFUSAL_COMPONENT_OUT_OF_ORDER = 17, /* the component is not the next one */
    DFB_REFUSAL_KIND_NOT_IN_PROFILE = 18,    /* the record is neither a command nor a second mark */
    DFB_REFUSAL_SECOND_FALLS = 19,           /* the second is smaller than that of the mark before it */
    DFB_REFUSAL_VALUE_ALTERED = 20,          /* the register would store another value than the one sent */
    DFB_REFUSAL_AVERAGES_OVER_PERIOD = 21,   /* a processor is enabled and N is above C */
    DFB_REFUSAL_WRONG_HEADER_FIELD = 22,     /* a space packet's header field is not as stated, or the first count is over 16383 */
    DFB_REFUSAL_WRONG_DATA_LENGTH = 23,      /* a space packet has a wrong length, or its samples are none or not whole sets */
    DFB_REFUSAL_TOTAL_TOO_LARGE = 24,        /* a band total is over 2^49 */
    DFB_REFUSAL_TURNED_AWAY = 25,            /* no slot is free and no held slot has a smaller criterion */
    DFB_REFUSAL_NOTHING_TO_SEND = 26,        /* nothing is held to send, or no criterion is above 0 */
    DFB_REFUSAL_ALREADY_SENDING = 27,        /* a slot is already sending */
    DFB_REFUSAL_NONE_SENDING = 28,           /* no slot is sending */
    DFB_REFUSAL_ZERO_LIMIT = 29              /* the limit is 0 blocks */
};

/* The meaning of a refusal, as above; NULL for any other number. */
static inline const char *dfb_meaning(unsigned refusal)
{
    switch (refusal) {
    case DFB_REFUSAL_UNKNOWN_COMMAND: return "the command ID is outside 0x30 to 0x36";
    case DFB_REFUSAL_WRONG_LENGTH: return "a list has a wrong length, an output is too small, or a place or number does not fit";
    case DFB_REFUSAL_UNSOUND_STATE: return "the state is not one that the board, the slots, the counting writer or a sum can have left";
    case DFB_REFUSAL_UNKNOWN_APID: return "the APID is none of the seven, or 0x4E where a waveform's is wanted";
    case DFB_REFUSAL_INCOMPLETE_SET: return "the words are not exactly one set";
    case DFB_REFUSAL_NO_PROCESSOR_ENABLED: return "a SPEC word with no processor enabled";
    case DFB_REFUSAL_ILLEGAL_BAND_CODE: return "the band code is not legal";
    case DFB_REFUSAL_SUM_CODE_OVERFLOW: return "the sum code's value is 2^64 or more";
    case DFB_REFUSAL_UNKNOWN_RECORD_KIND: return "the record kind is none of 1 to 4";
    case DFB_REFUSAL_TRUNCATED_BODY: return "the log ends within a record";
    case DFB_REFUSAL_INPUT_TOO_LONG: return "the log is over 65,536 bytes";
    case DFB_REFUSAL_OUT_OF_RANGE: return "a bin setting, band, FFT bin or NCAD choice is out of range, or a target is not 36 or 64 bands";
    case DFB_REFUSAL_UNKNOWN_PACKET: return "the packet's SID is not 33 or its auxiliary length is not 8";
    case DFB_REFUSAL_PACKET_OUT_OF_RANGE: return "the total of packets is over 3072, or the packet number is not below the total";
    case DFB_REFUSAL_WRONG_PACKET_LENGTH: return "the packet is under 20 bytes, or its bytes or samples are not as many as its mask says";
    case DFB_REFUSAL_COMPONENT_OUT_OF_ORDER: return "the component is not the next one";
    case DFB_REFUSAL_KIND_NOT_IN_PROFILE: return "the record is neither a command nor a second mark";
    case DFB_REFUSAL_SECOND_FALLS: return "the second is smaller than that of the mark before it";
    case DFB_REFUSAL_VALUE_ALTERED: return "the register would store another value than the one sent";
    case DFB_REFUSAL_AVERAGES_OVER_PERIOD: return "a processor is enabled and N is above C";
    case DFB_REFUSAL_WRONG_HEADER_FIELD: return "a space packet's header field is not as stated, or the first count is over 16383";
    case DFB_REFUSAL_WRONG_DATA_LENGTH: return "a space packet has a wrong length, or its samples are none or not whole sets";
    case DFB_REFUSAL_TOTAL_TOO_LARGE: return "a band total is over 2^49";
    case DFB_REFUSAL_TURNED_AWAY: return "no slot is free and no held slot has a smaller criterion";
    case DFB_REFUSAL_NOTHING_TO_SEND: return "nothing is held to send, or no criterion is above 0";
    case DFB_REFUSAL_ALREADY_SENDING: return "a slot is already sending";
    case DFB_REFUSAL_NONE_SENDING: return "no slot is sending";
    case DFB_REFUSAL_ZERO_LIMIT: return "the limit is 0 blocks";
    default: return NULL;
    }
}

/* dfb_refusal(answer): the number of the refusal that an answer is, or 0 where the call was accepted. Pass the call itself, or a variable of
 * the type that the function answers: the type says how refusals are numbered, and an answer kept in a wider or narrower variable is taken
 * for another's. An accepted answer is the value itself, unless a function below takes it apart. dfb_compress_band and dfb_compress_sum
 * never refuse; do not pass their answers. */
#define dfb_refusal(answer)                                                                       \
    ((void)sizeof(char[sizeof(answer) == 2 || sizeof(answer) == 4 || sizeof(answer) == 8 ? 1 : -1]), \
     sizeof(answer) == 2 ? dfb_refusal_u16((uint16_t)(answer))                                    \
     : sizeof(answer) == 4 ? dfb_refusal_u32((uint32_t)(answer))                                  \
                           : dfb_refusal_u64((uint64_t)(answer)))

/* A refusal is a base plus its number, which no accepted answer of that function equals: the base is 0x100 in 16-bit answers (above 8-bit
 * values), 0x10000 in 32-bit answers (above 16-bit values) and 2^63 in 64-bit answers. Do not compare with a base by hand: reports and
 * accepted offers are above 0x10000 too. */
#define DFB_REFUSED_8 0x100u
#define DFB_REFUSED_16 0x10000u
#define DFB_REFUSED_63 0x8000000000000000u

/* The same by the type of the answer: dfb_band_of, the functions that answer 32 bits, those that answer 64. */
static inline unsigned dfb_refusal_u16(uint16_t answer)
{
    return answer < DFB_REFUSED_8 ? 0u : answer - DFB_REFUSED_8;
}

static inline unsigned dfb_refusal_u32(uint32_t answer)
{
    return (answer & 0x800F0000u) == DFB_REFUSED_16 ? (unsigned)(answer & 0xFFFFu) : 0u;
}

static inline unsigned dfb_refusal_u64(uint64_t answer)
{
    return answer < DFB_REFUSED_63 ? 0u : (unsigned)(answer & 0xFFu);
}

/* A refusal that has an offset is 2^63 + 256 * offset + its number: the offset. Refusals of dfb_check_commands, dfb_walk_next and dfb_count_sets
 * have one; it is 0 in those of every other function, which have none. */
static inline uint64_t dfb_refusal_offset(uint64_t answer)
{
    return (answer & ~DFB_REFUSED_63) >> 8;
}

/* ---- the board ---- */

/* A state is nine numbers: registers 0x30 to 0x36, the phase, and the reports since the last accepted command, counted up to 65,535. Totals
 * are 784 numbers. After reset all are 0: to reset the board, set them to 0. Keep both as the last call left them.
 *
 * The lengths that refusal 2 asks for: of the state, the totals and a tick's powers exactly, of its output at least. */
#define DFB_STATE 9
#define DFB_TOTALS 784
#define DFB_POWERS 7168
#define DFB_OUTPUT 1176

/* Sends a command to the register of an ID, 0x30 to 0x36: the value stored, or refusal 2, 3, 1. An accepted command sets the phase, the
 * number of reports and all totals to 0. Fields of the information: source 4:0, enable 5; in 0x30 also bins 7:6, NAVG 11:8 (N = 2^NAVG
 * spectra are averaged) and NCAD 15:12 (a period has C = 2^NCAD ticks). */
uint32_t dfb_command(uint16_t *state, size_t state_len, uint64_t *totals, size_t totals_len, uint8_t id, uint16_t information);

/* Reads a register: its value, or refusal 2 for the state's length, 3 for its registers, 1. */
uint32_t dfb_read(const uint16_t *state, size_t state_len, uint8_t id);

/* Accepted answers of dfb_tick: no processor is enabled or N is above C; the powers were added; the report of this period was made before.
 * A report is DFB_REPORTED + 65536 * words + number: dfb_report_words and dfb_report_number take it apart. */
#define DFB_IDLE 0u
#define DFB_COLLECTED 1u
#define DFB_WAITING 2u
#define DFB_REPORTED 0x80000000u

/* One tick with 7 rows of 1,024 powers, or refusal 2, 3. A report writes 3 bytes for each word from the start of out. */
uint32_t dfb_tick(uint16_t *state, size_t state_len, uint64_t *totals, size_t totals_len, const uint32_t *powers, size_t powers_len,
                  uint8_t *out, size_t out_len);

/* The words of the report that an answer of dfb_tick is; 0 where it is no report. */
static inline unsigned dfb_report_words(uint32_t answer)
{
    return answer < DFB_REPORTED ? 0u : (unsigned)(answer - DFB_REPORTED) >> 16;
}

/* The number of that report, which is the state's: 1 for the first since the last accepted command, and 65,535 from the 65,535th on; 0 where
 * it is no report. */
static inline unsigned dfb_report_number(uint32_t answer)
{
    return answer < DFB_REPORTED ? 0u : (unsigned)(answer & 0xFFFFu);
}

/* ---- words and sets ---- */

enum dfb_apid {
    DFB_APID_E_SVY = 0x43,
    DFB_APID_V_SVY = 0x44,
    DFB_APID_MAG_SVY = 0x45,
    DFB_APID_E_B1 = 0x46,
    DFB_APID_V_B1 = 0x47,
    DFB_APID_SCM_B1 = 0x48,
    DFB_APID_SPEC = 0x4E
};

/* The words of a waveform set; a word is one sample, and three bytes. */
enum dfb_words {
    DFB_WORDS_E_SVY = 3, /* E12S, E34S, E56S */
    DFB_WORDS_V_SVY = 7, /* V1S to V6S, VDC_AVG */
    DFB_WORDS_MAG_SVY = 3, /* MAGU, MAGV, MAGW */
    DFB_WORDS_E_B1 = 3, /* E12B1, E34B1, E56B1 */
    DFB_WORDS_V_B1 = 7, /* V1B1 to V6B1, VDC_AVG */
    DFB_WORDS_SCM_B1 = 3 /* SCMU_B1, SCMV_B1, SCMW_B1 */
};

/* No waveform set has more words. */
#define DFB_MOST_WORDS 7

/* The words of a waveform set by its APID; 0 for any other. */
static inline size_t dfb_set_words(uint8_t apid)
{
    switch (apid) {
    case DFB_APID_E_SVY: return DFB_WORDS_E_SVY;
    case DFB_APID_V_SVY: return DFB_WORDS_V_SVY;
    case DFB_APID_MAG_SVY: return DFB_WORDS_MAG_SVY;
    case DFB_APID_E_B1: return DFB_WORDS_E_B1;
    case DFB_APID_V_B1: return DFB_WORDS_V_B1;
    case DFB_APID_SCM_B1: return DFB_WORDS_SCM_B1;
    default: return 0;
    }
}

/* Packs one waveform set: the bytes written, 3 for each word, or refusal 4, then 2 where samples are not the set's number of words or out
 * is under 3 bytes for each. */
uint32_t dfb_pack(uint8_t apid, const int16_t *samples, size_t samples_len, uint8_t *out, size_t out_len);

/* Unpacks one waveform set: the samples written, or refusal 4, 2 where bytes are not 3 for each word or samples are fewer than the words,
 * then 5 where another APID stands among the words. */
uint32_t dfb_unpack(uint8_t apid, const uint8_t *bytes, size_t bytes_len, int16_t *samples, size_t samples_len);

/* ---- the log ---- */

enum dfb_kind {
    DFB_KIND_END = 0, /* only from dfb_read_record */
    DFB_KIND_COMMAND = 1,
    DFB_KIND_WORD = 2,
    DFB_KIND_SECOND_MARK = 3,
    DFB_KIND_TICK = 4
};

/* The bytes of a record in the log; 0 for any other kind. */
static inline size_t dfb_record_bytes(uint8_t kind)
{
    switch (kind) {
    case DFB_KIND_COMMAND: return 4;
    case DFB_KIND_WORD: return 4;
    case DFB_KIND_SECOND_MARK: return 5;
    case DFB_KIND_TICK: return 1;
    default: return 0;
    }
}

/* Appends one record behind the bytes used: the new number of bytes used, or a refusal. kind is 1 to 4, and 9 is the refusal of any other;
 * a is the ID of a command or the APID of a word, b its 16 bits, or the seconds of a mark; what a record does not have is not looked at.
 * Then 1 or 4 by a, then 2: used past the end, no room for the record, or, for a command or a word, a b of more than 16 bits. */
uint64_t dfb_append(uint8_t *log, size_t log_len, size_t used, uint8_t kind, uint8_t a, uint32_t b);

/* A record as numbers: kind, a and b. */
#define DFB_RECORD 3

/* Reads the record at a place of the log: the place after it, with kind, a and b as in dfb_append in numbers[0..3]; what the record does
 * not have is 0. At the log's end the answer is the same place and all three are 0 (DFB_KIND_END). Refusals: 2 for a place past the log,
 * 9, 10, 1 or 4, then 2 where numbers_len is under 3. */
uint64_t dfb_read_record(const uint8_t *log, size_t log_len, size_t at, uint32_t *numbers, size_t numbers_len);

/* A longer log is listed as refusal 11 and no more. */
#define DFB_MOST_LISTED 65536

/* The bytes that the listing of a log of this length needs at most, and that dfb_listing asks for. */
static inline size_t dfb_listing_room(size_t log_len)
{
    return log_len > DFB_MOST_LISTED ? 64 : 6 * log_len + 64;
}

/* Lists a log as the program setlist does: the bytes of text at the start of out, or refusal 2 where out is under
 * dfb_listing_room(log_len). The text is ASCII and does not end in 0. */
uint64_t dfb_listing(const uint8_t *log, size_t log_len, uint8_t *out, size_t out_len);

/* The number of registers, 0x30 to 0x36, in a list of registers alone. */
#define DFB_REGISTERS 7

/* ---- the items of a log ---- */

/* The log as dfb_listing reads it, one item a call. A walk is nine numbers, all 0 at the start of a log. Keep it as the last call left it. */
#define DFB_WALK 9

enum dfb_walk_place {
    DFB_WALK_PLACE = 0,     /* the bytes before the next item */
    DFB_WALK_RECORDS = 1,   /* the records before it */
    DFB_WALK_REGISTERS = 2  /* the seven registers in force */
};

/* An item is five numbers. */
#define DFB_ITEM 5

enum dfb_item_place {
    DFB_ITEM_KIND = 0,
    DFB_ITEM_OFFSET = 1,    /* of its first record */
    DFB_ITEM_BYTES = 2,     /* of its records */
    DFB_ITEM_A = 3,
    DFB_ITEM_B = 4
};

enum dfb_item_kind {
    DFB_ITEM_KIND_END = 0,          /* a: the records of the log; b, and its bytes: 0 */
    DFB_ITEM_KIND_COMMAND = 1,      /* a: the ID; b: the value stored */
    DFB_ITEM_KIND_SET = 2,          /* a finished set; a: the APID; b: the words */
    DFB_ITEM_KIND_SECOND_MARK = 3,  /* a: the seconds; b: 0 */
    DFB_ITEM_KIND_TICK = 4          /* a, b: 0 */
};

/* Gives the next item: 0 with the item in item[0..5] and the walk after it; at the log's end the walk stays, and a further call gives the
 * end again. A set's words stand in the log from its offset on, four bytes each; the registers in force are those of the walk after the
 * item. The refusal of a record has its offset: 9, 10, 5, then 1 for a command, 4, 6, 7 for a word; 5 with the log's length as offset for
 * a set cut by its end. Before these come 2, with offset 0, where log_len is 2^55 or more, walk_len is not 9 or the walk's place is 2^55
 * or more; 2, with that place as offset, where it is past the log; and 3, with the same offset, where the walk has more records than bytes
 * before its place, or a register that no command stores, one over 16 bits too. After them comes 2, with offset 0, where item_len is under
 * 5. */
uint64_t dfb_walk_next(const uint8_t *log, size_t log_len, uint64_t *walk, size_t walk_len, uint64_t *item, size_t item_len);

/* ---- command lists ---- */

/* Checks a planner's command list, a log that is read from reset: it has nothing but commands and second marks; seconds never fall; every
 * register stores exactly what is sent; and at each second mark and at the end no processor is enabled or N is at most C. 0 with the final
 * registers in registers[0..7], or the refusal of the first record at fault with its offset, which dfb_refusal_offset gives. Refusals of a
 * record: 9, 10, then 18, of a command 1, 20, of a second mark 19, 21; at the end 21, with the list's length as offset. Refusal 2, with
 * offset 0, comes before all these where log_len is 2^55 or more, and after them where registers_len is under 7. */
uint64_t dfb_check_commands(const uint8_t *log, size_t log_len, uint16_t *registers, size_t registers_len);

/* ---- counted logs ---- */

/* A counted log is a log, its bytes used, the number of finished sets of each APID, and the registers. A log begun empty has used 0, counts 0
 * and registers 0. Keep the log and all three as the last call left them: at any moment counts and registers are then those that dfb_count_sets gives for
 * the bytes used. To go on with a log made elsewhere, dfb_count_sets gives both, and used is its length. */
#define DFB_COUNTS 7

/* The place of an APID's count, with the APIDs in rising order; DFB_COUNTS for any other. */
static inline size_t dfb_count_place(uint8_t apid)
{
    return apid == DFB_APID_SPEC ? DFB_COUNTS - 1 : dfb_set_words(apid) != 0 ? (size_t)(apid - DFB_APID_E_SVY) : DFB_COUNTS;
}

/* Each call writes its records behind the bytes used as dfb_append does, all of them or none: the new number of bytes used, or a refusal. 2
 * first where counts_len is not 7 or registers_len is not 7; 3 where a register is not a value that a command stores, or a count is greater
 * than used; then those named below; last 2 where used is past the end or there is no room for all the records. */

/* A command, written as it is sent; its register then has the value stored. Refusal 1. */
uint64_t dfb_counted_command(uint8_t *log, size_t log_len, size_t used, uint64_t *counts, size_t counts_len, uint16_t *registers,
                             size_t registers_len, uint8_t id, uint16_t information);

/* A second mark. */
uint64_t dfb_counted_mark(uint8_t *log, size_t log_len, size_t used, uint64_t *counts, size_t counts_len, uint16_t *registers,
                          size_t registers_len, uint32_t seconds);

/* A tick. */
uint64_t dfb_counted_tick(uint8_t *log, size_t log_len, size_t used, uint64_t *counts, size_t counts_len, uint16_t *registers,
                          size_t registers_len);

/* One waveform set; the count of its APID rises by 1. Refusal 4, 0x4E too, then 5 where the samples are not exactly the set's. */
uint64_t dfb_counted_set(uint8_t *log, size_t log_len, size_t used, uint64_t *counts, size_t counts_len, uint16_t *registers,
                         size_t registers_len, uint8_t apid, const int16_t *samples, size_t samples_len);

/* One SPEC set, as the 3 bytes for each word that dfb_tick writes; the last count rises by 1. Refusal 6, 5 where the bytes are not exactly
 * those of one report by the registers, or a word is not under 0x4E, then 7. */
uint64_t dfb_counted_report(uint8_t *log, size_t log_len, size_t used, uint64_t *counts, size_t counts_len, uint16_t *registers,
                            size_t registers_len, const uint8_t *words, size_t words_len);

/* Counts the sets of a whole log, also one over 65,536 bytes, read from reset as dfb_listing reads it: 0 with the counts in counts[0..7] and the final
 * registers in registers[0..7], or the refusal of the record at fault with its offset: 9, 10, 5, then 1 for a command, 4, 6, 7 for a word; 5
 * with the log's length as offset for a set cut by its end. Refusal 2, with offset 0, comes before all these where log_len is 2^55 or more,
 * and after them where a list is under 7 long. */
uint64_t dfb_count_sets(const uint8_t *log, size_t log_len, uint64_t *counts, size_t counts_len, uint16_t *registers, size_t registers_len);

/* ---- bands and codes ---- */

/* The bands of a bin setting: 36, 64, 112 for 0, 1, 2; 0 for any other. A SPEC set has half as many words for each enabled processor. */
static inline size_t dfb_band_count(uint8_t setting)
{
    switch (setting) {
    case 0: return 36;
    case 1: return 64;
    case 2: return 112;
    default: return 0;
    }
}

/* The band of an FFT bin, or refusal 12. A 16-bit answer: dfb_refusal_u16. */
uint16_t dfb_band_of(uint8_t setting, uint16_t bin);

/* Low edge, centre and width of a band in hertz, exactly, in three[0..3]: 0, or refusal 12, then 2 where three_len is under 3. */
uint32_t dfb_describe_band(uint8_t setting, uint8_t band, float *three, size_t three_len);

/* Accepted answers of dfb_cadence_of. */
#define DFB_RATE 0u
#define DFB_PERIOD 1u

/* The cadence of an NCAD choice, exactly, in value[0]: DFB_RATE and a rate per second, or DFB_PERIOD and a period in seconds; or refusal
 * 12 for a choice over 10, then 2 where value_len is 0. */
uint32_t dfb_cadence_of(uint8_t choice, float *value, size_t value_len);

/* The band code of a value: the nearer of the two neighbouring legal values, and the upper one halfway; of UINT32_MAX it is 0xF4. The
 * value of a band code, at most 2^32, or refusal 7. */
uint8_t dfb_compress_band(uint32_t value);
uint64_t dfb_expand_band(uint8_t code);

/* The sum code of a value; 0 with the value of a sum code in value[0], or refusal 8, then 2 where value_len is 0. */
uint16_t dfb_compress_sum(uint64_t value);
uint32_t dfb_expand_sum(uint16_t code, uint64_t *value, size_t value_len);

/* ---- coarse totals ---- */

/* The lengths and the limit of dfb_coarse_totals: the totals of 112 bands, such as a processor's row of the board's totals, and the greatest
 * total that is taken, 2^49. No total of up to 4,096 spectra is greater. */
#define DFB_FINE_TOTALS 112
#define DFB_MOST_TOTAL 0x2000000000000u

/* Converts 112 totals to those of 36 bands (setting 0) or 64 (setting 1) of the same spectra: how many were written, dfb_band_count(setting),
 * or refusal 12 for any other setting, 2 where fine_len is not 112 or out_len under that count, 24 where a total is over 2^49. It speaks of
 * totals: printed values are rounded, and do not add up. */
uint32_t dfb_coarse_totals(uint8_t setting, const uint64_t *fine, size_t fine_len, uint64_t *out, size_t out_len);

/* ---- bursts ---- */

/* Up to 32 burst slots are two lists of one length: the status of each slot, and the criterion of each held one. The criterion of a free or
 * sending slot is not looked at, and an accepted call leaves it 0. All free after reset. */
#define DFB_MOST_SLOTS 32

enum dfb_slot {
    DFB_SLOT_FREE = 0,
    DFB_SLOT_HELD = 1,
    DFB_SLOT_SENDING = 2
};

/* Offers a block: the lowest free slot takes it, or, where none is free, the held slot with the smallest criterion (the lowest on a tie), if
 * the block's own is greater. Refusals: 2 for lists of different lengths, 3 for more than 32 slots, a status over 2 or two sending, 25 where
 * the block is turned away. dfb_offer_slot and dfb_offer_looked take the answer apart. */
uint32_t dfb_burst_offer(uint8_t *status, size_t status_len, uint32_t *criteria, size_t criteria_len, uint32_t criterion);

/* The slot that took the block, of an accepted offer. */
static inline unsigned dfb_offer_slot(uint32_t answer)
{
    return (unsigned)(answer & 0xFFFFu);
}

/* The number of slots that the offer looked at, of an accepted one and of one turned away (25): up to the first free one, or all. */
static inline unsigned dfb_offer_looked(uint32_t answer)
{
    return (unsigned)(answer >> 20);
}

/* Chooses the block to send next, the held one with the greatest criterion (the lowest slot on a tie): its slot, which is sending from now
 * on, or refusal 2 and 3 as above, 27, then 26. */
uint32_t dfb_burst_choose(uint8_t *status, size_t status_len, uint32_t *criteria, size_t criteria_len);

/* Ends the sending: the slot, which is free from now on, or refusal 2 and 3 as above, then 28. */
uint32_t dfb_burst_finish(uint8_t *status, size_t status_len, uint32_t *criteria, size_t criteria_len);

/* An index of more criteria is refused by 2. */
#define DFB_MOST_BLOCKS 16000

/* Chooses the interval of Burst 1 blocks to send next, from criteria with the oldest first. It starts at the greatest criterion (the oldest on
 * a tie) and grows by its older and its newer neighbour in turn: a neighbour joins if its criterion plus the bonus is at least that of the
 * start; a side that fails is closed; the interval has at most limit blocks. dfb_interval_first and dfb_interval_last take the answer apart;
 * or refusal 2, 29 for a limit of 0, 26. */
uint64_t dfb_choose_interval(const uint32_t *index, size_t index_len, uint32_t bonus, uint32_t limit);

/* The first and the last block of an interval. */
static inline unsigned dfb_interval_first(uint64_t answer)
{
    return (unsigned)(answer & 0xFFFFu);
}

static inline unsigned dfb_interval_last(uint64_t answer)
{
    return (unsigned)(answer >> 16 & 0xFFFFu);
}

/* ---- snapshots of the other analyser ---- */

/* A packet of a regular snapshot of the LFR (TM_LF_RSWF): 20 bytes, then 128 samples for each one bit of its component mask, every number
 * with the high byte first. Its header is a list of ten numbers, at these places. */
#define DFB_SNAPSHOT_HEADER 10

enum dfb_snapshot_field {
    DFB_SNAPSHOT_COARSE_DIFFERENCE = 0, /* 16 bits */
    DFB_SNAPSHOT_FINE_TIME = 1,         /* 16 bits */
    DFB_SNAPSHOT_SEQUENCE = 2,          /* 16 bits */
    DFB_SNAPSHOT_SWITCHES_8 = 3,        /* 32 bits, those at byte 8 */
    DFB_SNAPSHOT_SWITCHES_12 = 4,       /* 8 bits, those at byte 12 */
    DFB_SNAPSHOT_COMPONENT_MASK = 5,    /* 8 bits */
    DFB_SNAPSHOT_TOTAL_PACKETS = 6,     /* 16 bits, 1 to 3072 */
    DFB_SNAPSHOT_ARTEFACTS = 7,         /* 8 bits */
    DFB_SNAPSHOT_SNAPSHOT_NUMBER = 8,   /* 8 bits */
    DFB_SNAPSHOT_PACKET_NUMBER = 9      /* 16 bits, from 0, below the total */
};

/* No packet has more samples, and none more bytes. */
#define DFB_MOST_SNAPSHOT_SAMPLES 1024
#define DFB_MOST_SNAPSHOT_BYTES 2068

/* The samples of a packet by its component mask, and its bytes. */
static inline size_t dfb_snapshot_samples(uint8_t component_mask)
{
    size_t samples = 0;
    for (; component_mask != 0; component_mask = (uint8_t)(component_mask >> 1))
        samples += 128 * (size_t)(component_mask & 1);
    return samples;
}

static inline size_t dfb_snapshot_bytes(uint8_t component_mask)
{
    return 20 + 2 * dfb_snapshot_samples(component_mask);
}

/* Reads one packet: how many samples were written, in the order of the packet, with its header in header[0..10]; or refusal 16 where packet_len
 * is under 20, 14 where the SID is not 33 or the auxiliary length not 8, 15 where the total is over 3072 or the packet number not below the
 * total, 16 where packet_len is not what the mask says, then 2 where header_len is under 10 or samples_len under the number of samples. */
uint32_t dfb_snapshot_read(const uint8_t *packet, size_t packet_len, uint32_t *header, size_t header_len, int16_t *samples, size_t samples_len);

/* Writes one packet: how many bytes were written; or refusal 2 where header_len is not 10 or a number does not fit its bits, 15 as above, 16
 * where samples_len is not what the mask says, then 2 where packet_len is under dfb_snapshot_bytes(component_mask). */
uint32_t dfb_snapshot_write(const uint32_t *header, size_t header_len, const int16_t *samples, size_t samples_len, uint8_t *packet,
                            size_t packet_len);

/* ---- summed spectra of the other analyser ---- */

/* A summed spectrum of the LFR (FSUM): the powers of chosen components, real part squared plus imaginary part squared, summed bin by bin and
 * sent as sum codes (dfb_compress_sum). Eight components come one at a time, 0 to 7; two masks choose them for two sums, component n where bit
 * n is set. */
#define DFB_SUM_COMPONENTS 8
#define DFB_SUM_BINS 1024

/* The state: the next component, the first and the second mask; all 0 at the start. */
#define DFB_SUM_STATE 3

/* The running totals: 1,024 of the first mask, then 1,024 of the second; all 0 at the start. */
#define DFB_SUM_TOTALS 2048

/* The numbers of a component, real part first in each of 1,024 pairs, and the bytes of two runs of codes. */
#define DFB_SUM_PAIRS 2048
#define DFB_SUM_OUTPUT 4096

/* Adds one component to the totals of each mask that has it. The masks are taken with component 0 and hold for all eight; those of later calls
 * are not looked at, nor are those of a state whose next component is 0. The eighth component writes 1,024 sum codes of the first mask's
 * totals and then 1,024 of the second's to out[0..4096], high byte first, sets all totals to 0, and component 0 is next; the masks stay. How
 * many bytes were written: 4096, or 0 before the eighth; or refusal 2 where state_len is not 3, totals_len not 2048, pairs_len not 2048 or
 * out_len under 4096 (at every component), 3 where the next component is over 7 or a total is over 2^31 times the number of components that
 * its mask has counted so far (so any total but 0 where component 0 is next), then 17 where the component is not the next one. A component
 * outside both masks comes in its turn with its 2,048 numbers, which may be any. */
uint32_t dfb_sum_component(uint8_t *state, size_t state_len, uint64_t *totals, size_t totals_len, uint8_t component, uint8_t first_mask,
                           uint8_t second_mask, const int16_t *pairs, size_t pairs_len, uint8_t *out, size_t out_len);

/* ---- space packets ---- */

/* A space packet (CCSDS 133.0-B) of whole waveform sets of one APID: six bytes of primary header, then the samples without their APID bytes,
 * high byte first. The header has version 0, type 0, no secondary header, the APID, sequence flags 3, a count that is one more each packet and
 * 0 after 16383, and the bytes of data minus one. A packet has at most 4,096 bytes with its header. */
#define DFB_PACKET_HEADER 6
#define DFB_PACKET_BYTES 4096
#define DFB_LAST_PACKET_COUNT 16383

/* No packet has more samples: 292 sets of 7, or 681 sets of 3, which are 2,043. */
#define DFB_PACKET_SAMPLES 2044

/* Bytes that are enough for the packets of so many samples, whatever their APID. */
static inline size_t dfb_packets_room(size_t samples)
{
    return 2 * samples + DFB_PACKET_HEADER * (samples / 2043 + 1);
}

/* How many bytes the packet at the front of a list has, by its own length field; the next packet begins behind them. 0 where the list is shorter
 * than that, or than a header. */
static inline size_t dfb_packet_bytes(const uint8_t *bytes, size_t bytes_len)
{
    size_t packet;
    if (bytes_len < DFB_PACKET_HEADER)
        return 0;
    packet = DFB_PACKET_HEADER + 1 + 256 * (size_t)bytes[4] + bytes[5];
    return packet <= bytes_len ? packet : 0;
}

/* Exports whole sets of a waveform APID as packets, one after the other: the bytes written. Each packet has as many whole sets as fit, the last
 * one what is left. count[0] is the count of the first packet, and afterwards the next count. Refusal 2 where count_len is not 1, 4 (0x4E too),
 * 22 where count[0] is over 16383, 23 where the samples are none or not whole sets, then 2 where out is too small. */
uint64_t dfb_export_packets(uint8_t apid, uint16_t *count, size_t count_len, const int16_t *samples, size_t samples_len, uint8_t *out,
                            size_t out_len);

/* The numbers of a packet's header: APID and count. */
#define DFB_PACKET_NUMBERS 2

/* Imports one packet: how many samples were written, with APID and count in header[0..2]. Refusal 23 where packet_len is under 6, 4 where the
 * APID is none of the six waveforms' (0x4E too), 22 where another field of the header is not as above, 23 where the bytes behind the header are
 * not as many as its length field says, over 4,090, not whole sets, or none, then 2 where header_len is under 2 or samples_len under the number
 * of samples. */
uint32_t dfb_import_packet(const uint8_t *packet, size_t packet_len, uint16_t *header, size_t header_len, int16_t *samples,
                           size_t samples_len);

#ifdef __cplusplus
}
#endif

#endif
