/** @file
 * Budget payment orders under 107n: field messages, the draft, the rules,
 * completion and its lists, taking up part of what it proposes, MT103 lines, the bank's
 * charge, part of a year, the register of an order, and which payments leave first.
 *
 * For C11 and C++11 and later with gcc or clang; the library is made for x86-64 Linux.
 * kieselbrot_words.h has the names of fields, rules and refusals in English.
 *
 * An object that was compiled with the header of one major version does not link with the
 * library of another: the names that it refers to have the major version in them, as
 * kieselbrot_1_check for kieselbrot_check. Those who load the shared library by themselves
 * ask for these names; kieselbrot_version alone has one name in every version.
 * docs/CHANGES.md says what a caller changes from one version to the next.
 *
 * The functions are proved: each one's answer, and every buffer that it is lent,
 * equals a definition, for all inputs. They are total: buffers of any length may
 * be lent, none is kept, nothing is allocated and no byte outside is touched. A
 * buffer that is written must not overlap another argument, which `restrict` says. A
 * pointer may be null where its length is 0, as that of an empty C++ vector is; example.c
 * tries it for every function and argument. The pointers to 12, 15 and 64 places, which
 * have no length, must not be null.
 *
 * Every function may be called from several threads at once, as long as no two
 * calls share a lent buffer that one of them writes: nothing else is written, and there
 * is nothing to set up or to give back.
 *
 * Each answer has a number: 0 for success, else why it is refused. A refusal
 * changes no buffer. Values that do not belong to an answer are 0. Answers may have
 * padding, whose bytes are any: compare fields, not memory.
 *
 * Field, status and rule numbers are those of the form and of document 01. Texts
 * are bytes of Windows-1251, 0 to 25 of them; the empty text is a blank. Amounts
 * are in kopecks, rates in hundredths of a percent, lengths and sizes in bytes. Dates are
 * numbers YYYYMMDD: 20240101 is 1 January 2024. Each buffer has its length behind it. The
 * order of arguments is not alike everywhere: part takes the days before the year, shares
 * the year before the periods; complete has its sheet before the date, write_lines its
 * buffer behind the record.
 *
 * Layouts, numbers big-endian (the highest byte first):
 *
 *   message of version 1, which counts as the adviser's:
 *                 0  2 bytes   L, how many bytes follow these two, 6 to 31
 *                 2  1 byte    the version, 1
 *                 3  1 byte    the field
 *                 4  4 bytes   the revision, not 0
 *                 8  L - 6     the text
 *
 *   message of version 2:
 *                 0  2 bytes   L, how many bytes follow these two, 7 to 32
 *                 2  1 byte    the version, 2
 *                 3  1 byte    the party, 1 client or 2 adviser
 *                 4  1 byte    the field
 *                 5  4 bytes   the revision, not 0
 *                 9  L - 7     the text
 *
 *   sheet         slot i at 26 * i:
 *                 0  1 byte    the text's length
 *                 1  25 bytes  the text, and zero bytes behind it
 *
 *   draft         slot i at 31 * i:
 *                 0  4 bytes   the revision, 0 = never given
 *                 4  1 byte    the party that gave it, 1 client or 2 adviser; 0
 *                              exactly if the revision is 0
 *                 5  26 bytes  as in a sheet
 *
 *   register      line i at 20 * i:
 *                 0  12 bytes  the INN, 12 digits
 *                12  8 bytes   the kopecks
 *
 *   MT103 lines   five, each ended by a line feed (byte 10):
 *                 :26T:S       and field 101
 *                 :57D://RU    and field 14, then . and field 15
 *                 :59:/        and field 17
 *                 INN          and field 61, then .KPP and field 103
 *                 :72:/UIP/    and field 22
 *
 * A sheet or draft is malformed if it has another size, a length above 25 or a
 * byte behind a text that is not zero; a draft also if a slot has revision 0 and
 * a text or a party, or a revision and no known party.
 */
#ifndef KIESELBROT_H
#define KIESELBROT_H

#include <stddef.h>
#include <stdint.h>

/** The version of this header. The major one is raised where a caller must compile anew,
 * the minor one where something is added. */
#define KIESELBROT_VERSION_MAJOR 1
#define KIESELBROT_VERSION_MINOR 0
#define KIESELBROT_VERSION_PATCH 0

#ifndef __GNUC__
#error "kieselbrot.h needs gcc, clang or another compiler that takes __asm__ labels"
#endif

/* The name that an object refers to: with the major version. */
#define KIESELBROT_NAME_OF(major, name) "kieselbrot_" #major "_" #name
#define KIESELBROT_NAME_IN(major, name) KIESELBROT_NAME_OF(major, name)
#define KIESELBROT_NAME(name) __asm__(KIESELBROT_NAME_IN(KIESELBROT_VERSION_MAJOR, name))

/* An answer that must be looked at. */
#if (defined(__cplusplus) && __cplusplus >= 201703L) || \
    (defined(__STDC_VERSION__) && __STDC_VERSION__ > 201710L)
#define KIESELBROT_NODISCARD [[nodiscard]]
#else
#define KIESELBROT_NODISCARD __attribute__((__warn_unused_result__))
#endif

/* The answer depends on the arguments alone; or on them and the lent bytes, and nothing is
 * written. */
#define KIESELBROT_CONST __attribute__((__const__))
#define KIESELBROT_PURE __attribute__((__pure__))

/* The argument with this number is not null. */
#define KIESELBROT_NONNULL(number) __attribute__((__nonnull__(number)))

#define KIESELBROT_RESTRICT __restrict

#ifdef __cplusplus
#define KIESELBROT_STATIC_ASSERT(kept) static_assert(kept, #kept)
extern "C" {
#else
#define KIESELBROT_STATIC_ASSERT(kept) _Static_assert(kept, #kept)
#endif

/** How many fields there are, in slots from 0 on: 14, 15, 17, 22, 60, 61, 101 to
 * 109. */
#define KIESELBROT_FIELDS 15

/** A text's greatest length. */
#define KIESELBROT_TEXT_MAX 25

/** The size of a sheet, and of a slot in it. */
#define KIESELBROT_SHEET_SIZE 390
#define KIESELBROT_SHEET_SLOT_SIZE 26

/** The size of a draft, and of a slot in it. */
#define KIESELBROT_DRAFT_SIZE 465
#define KIESELBROT_DRAFT_SLOT_SIZE 31

/** The size of what stands before the text of a message of version 1 and of one of
 * version 2, and the size of the longest message. */
#define KIESELBROT_MESSAGE_HEAD_SIZE_1 8
#define KIESELBROT_MESSAGE_HEAD_SIZE_2 9
#define KIESELBROT_MESSAGE_MAX 34

/** The parties that write messages. */
#define KIESELBROT_CLIENT 1
#define KIESELBROT_ADVISER 2

/** The size of the longest block of MT103 lines, that with a code of 25 digits. */
#define KIESELBROT_LINES_BLOCK_MAX 137

/** The earliest date of an order. */
#define KIESELBROT_ORDER_DATE_MIN UINT32_C(20230925)

/** The entries of the record that R-7 gives. */
#define KIESELBROT_FIRST32 UINT32_C(20231001)
#define KIESELBROT_FIRST33 UINT32_C(20240101)
#define KIESELBROT_LAST02 UINT32_C(20231231)

/** The greatest amount, and the greatest limit of a charge, in kopecks. */
#define KIESELBROT_KOPECKS_MAX UINT64_C(1000000000000)

/** The greatest rate, in hundredths of a percent: the whole amount. */
#define KIESELBROT_RATE_MAX UINT64_C(10000)

/** How many places for shares there are: the greatest number of periods. */
#define KIESELBROT_SHARE_PLACES 12

/** The size of a register's line, and the greatest number of lines. */
#define KIESELBROT_LINE_SIZE 20
#define KIESELBROT_LINES_MAX 500

/** The least size of the output for pooled lines: as many places as a register can
 * have lines. */
#define KIESELBROT_POOL_SIZE 10000

/** The greatest amount of an order with a register, in kopecks. */
#define KIESELBROT_ORDER_MAX UINT64_C(1000000000000000)

/** How many places for arrival numbers there are: the greatest number of payments. */
#define KIESELBROT_PAYMENT_PLACES 64

/** The greatest balance, in kopecks. */
#define KIESELBROT_BALANCE_MAX UINT64_C(1000000000000000)

/** The numbers of the answers, in the order in which they are tested; 12 comes just
 * before 8 and, for entry, before 4, 13 just before 4, a part of 2 after 3, and for
 * write_lines 7 comes last. */
enum {
    KIESELBROT_OK = 0,
    KIESELBROT_MALFORMED = 1,     /**< draft or sheet malformed; for fresh, size not 465 */
    KIESELBROT_LENGTH = 2,        /**< a message under 2 bytes, its length not the rest or outside
                                     6 to 32; after 3, a length that its version does not allow;
                                     for write, text over 25 */
    KIESELBROT_UNKNOWN_VERSION = 3, /**< version not 1 or 2 */
    KIESELBROT_UNKNOWN_FIELD = 4, /**< field not listed */
    KIESELBROT_REVISION_ZERO = 5, /**< revision 0 */
    KIESELBROT_CLASH = 6,         /**< equal revision of the same party, other text */
    KIESELBROT_OUTPUT = 7,        /**< a sheet not of 390, a message buffer too short; for pool, an
                                     output under 10,000; for write_lines, a buffer shorter than
                                     the lines */
    KIESELBROT_BROKEN = 8,        /**< for check and write_lines, a broken rule; in completion and
                                     its pretest only 1 to 3 */
    KIESELBROT_ORDINARY = 9,      /**< completion or pretest of class O */
    KIESELBROT_NO_FILLING = 10,   /**< no filling keeps the rules */
    KIESELBROT_NO_LINES = 11,     /**< for write_lines, a sheet of class B or O; for read_lines, a
                                     block that is none of these lines */
    KIESELBROT_UNDATED = 12,      /**< for check, broken_rules, completion, write_lines and entry, an
                                     order date or an entry of the record that is no Gregorian
                                     date of the years 1900 to 2099, or an order date before
                                     20230925 */
    KIESELBROT_UNKNOWN_PARTY = 13, /**< party not 1 or 2; for write, also the client in version 1 */
    KIESELBROT_TARIFF = 14,       /**< for charge, an argument out of range or a least above the
                                     greatest */
    KIESELBROT_YEAR_PART = 15,    /**< for part and shares, an amount out of range or a year not of
                                     365 or 366 days; for part, days outside 1 to the year; for
                                     shares, not 1 to 12 periods, a period of 0 days, or periods
                                     that do not sum to the year */
    KIESELBROT_REGISTER = 16,     /**< for pool, a register not of 1 to 500 whole lines, a line whose
                                     INN is none or whose kopecks are out of range, or an order's
                                     amount out of range */
    KIESELBROT_DISCREPANCY = 17,  /**< for pool, the register's total is not the order's amount */
    KIESELBROT_QUEUE = 18,        /**< for leave, a balance, priority or amount out of range, over 64
                                     payments, or lists of different lengths */
    KIESELBROT_EQUAL_ARRIVALS = 19, /**< for leave, two equal arrival numbers */
    KIESELBROT_NOT_TAKEN_UP = 20    /**< for take_up, a slot of the set that can't take up its
                                       value */
};

/** A record of three dates, in any relation to each other. They say which statuses the
 * order's date allows; a date that equals an entry is allowed. */
typedef struct {
    uint32_t first32; /**< the first date for status 32 */
    uint32_t first33; /**< the first date for status 33 */
    uint32_t last02;  /**< the last date for status 02 */
} kieselbrot_record;

/** The answer of a check. */
typedef struct {
    uint8_t number; /**< 0, 1, 12 or 8 */
    uint8_t field;  /**< with 8: the field that the broken rule names */
    uint8_t rule;   /**< with 8: the first broken rule, 1 to 35 */
    uint8_t class_; /**< accepted: 'A', 'B' (budget payments) or 'O' (ordinary) */
} kieselbrot_check_answer;

/** The answer of asking for all broken rules. */
typedef struct {
    uint8_t number; /**< 0, 1 or 12 */
    uint64_t rules; /**< with 0: bit n is set exactly if the sheet breaks rule n, 1 to 35 */
} kieselbrot_broken_rules_answer;

/** The answer of asking for an entry of a list. The text is the first `length` of first and
 * second. */
typedef struct {
    uint8_t number; /**< 0, 12 or 4 */
    uint8_t length; /**< how many bytes the entry has, 1 or 2; 0 where there is none */
    uint8_t first;
    uint8_t second;
} kieselbrot_entry_answer;

/** The answer of reading a message. The text is `length` bytes of the message,
 * from place `text` on up to its end. */
typedef struct {
    uint8_t number;    /**< 0, 2, 3, 13, 4 or 5 */
    uint8_t version;   /**< the version, 1 or 2 */
    uint8_t party;     /**< the party, 1 or 2; 2 in version 1 */
    uint8_t field;     /**< the field's number */
    uint32_t revision; /**< the revision, not 0 */
    size_t text;       /**< the place in the message, from 0, where the text begins */
    size_t length;     /**< how many bytes the text has, 0 to 25 */
} kieselbrot_read_answer;

/** The answer of writing a message. */
typedef struct {
    uint8_t number;  /**< 0, 2, 3, 13, 4, 5 or 7 */
    size_t length;   /**< how many bytes were written at the buffer's start */
} kieselbrot_write_answer;

/** The answer of posting a message. */
typedef struct {
    uint8_t number;   /**< 0, 1, 2, 3, 13, 4, 5 or 6 */
    uint8_t standing; /**< 'n' newer, and stored; 's' same; 'o' older */
} kieselbrot_post_answer;

/** The answer of the test ahead of completion. */
typedef struct {
    uint8_t number; /**< 0, 1, 8 or 9 */
    uint8_t field;  /**< with 8: the field that the broken rule names; with 0: the
                     * field of the named rule, or 0 */
    uint8_t rule;   /**< with 8: the first broken rule, 1 to 3; with 0: the first of
                     * rules 5 to 9, 11 to 14, 16, 22 and 28, in the order of
                     * testing, that all fillings break, or 0 where there is none */
} kieselbrot_pretest_answer;

/** The answer of completing a draft. */
typedef struct {
    uint8_t number; /**< 0, 1, 7, 12, 8, 9 or 10 */
    uint8_t field;  /**< with 8: the field that the broken rule names */
    uint8_t rule;   /**< with 8: the first broken rule, 1 to 3 */
    uint16_t set;   /**< the filled slots, bit i for slot i */
    uint32_t ones;  /**< how many bits of the set are set */
    size_t count;   /**< the count of fillings up to and including the sheet; with
                     * 10: the count of all fillings, at most 960 to 1,104 by the date */
    size_t skipped; /**< with 0: how many statuses up to the sheet's were skipped; with 10:
                     * how many of all, at most 20 to 23 by the date */
} kieselbrot_complete_answer;

/** The same: completion is quick. */
typedef kieselbrot_complete_answer kieselbrot_quick_answer;

/** The answer of taking up part of a proposal. */
typedef struct {
    uint8_t number; /**< 0, 1, 7 or 20 */
    uint8_t field;  /**< with 20: the field of the lowest slot of the set that can't take up its
                     * value, or 0 for bit 15, which is no slot's */
} kieselbrot_take_up_answer;

/** The answer of writing MT103 lines. */
typedef struct {
    uint8_t number; /**< 0, 1, 12, 8, 11 or 7 */
    uint8_t field;  /**< with 8: the field that the broken rule names */
    uint8_t rule;   /**< with 8: the first broken rule, 1 to 35 */
    size_t length;  /**< how many bytes were written at the buffer's start: 113, 116, 132 or 137 */
} kieselbrot_lines_answer;

/** The answer of a charge. */
typedef struct {
    uint8_t number;   /**< 0 or 14 */
    uint64_t kopecks; /**< the charge */
} kieselbrot_charge_answer;

/** The answer of a part of a year: kopecks times year plus remainder is amount times
 * days exactly. */
typedef struct {
    uint8_t number;     /**< 0 or 15 */
    uint32_t remainder; /**< what is left of a kopeck, in parts of which the year's
                         * length makes one; below that length */
    uint64_t kopecks;   /**< the whole kopecks */
} kieselbrot_part_answer;

/** The answer of pooling a register. */
typedef struct {
    uint8_t number;     /**< 0, 7, 16 or 17 */
    size_t lines;       /**< how many pooled lines stand at the output's start, 1 to 500 */
    int64_t difference; /**< with 17: the register's total less the order's amount */
} kieselbrot_pool_answer;

/** The answer of which payments leave: sum plus left is the balance. */
typedef struct {
    uint8_t number; /**< 0, 18 or 19 */
    size_t paid;    /**< how many are paid: the first so many in the order */
    uint64_t sum;   /**< their sum */
    uint64_t left;  /**< what is left of the balance */
} kieselbrot_leave_answer;

/** The answer of asking for the version. */
typedef struct {
    uint32_t major; /**< as KIESELBROT_VERSION_MAJOR of the library's header */
    uint32_t minor; /**< as KIESELBROT_VERSION_MINOR */
    uint32_t patch; /**< as KIESELBROT_VERSION_PATCH */
} kieselbrot_version_answer;

/* The sizes and layouts that the library was made with. */
#define KIESELBROT_SIZE(type, size) KIESELBROT_STATIC_ASSERT(sizeof(kieselbrot_##type) == (size))
#define KIESELBROT_AT(type, field, place) \
    KIESELBROT_STATIC_ASSERT(offsetof(kieselbrot_##type, field) == (place))
KIESELBROT_STATIC_ASSERT(sizeof(size_t) == 8);
KIESELBROT_SIZE(record, 12);
KIESELBROT_AT(record, first32, 0);
KIESELBROT_AT(record, first33, 4);
KIESELBROT_AT(record, last02, 8);
KIESELBROT_SIZE(check_answer, 4);
KIESELBROT_AT(check_answer, number, 0);
KIESELBROT_AT(check_answer, field, 1);
KIESELBROT_AT(check_answer, rule, 2);
KIESELBROT_AT(check_answer, class_, 3);
KIESELBROT_SIZE(broken_rules_answer, 16);
KIESELBROT_AT(broken_rules_answer, number, 0);
KIESELBROT_AT(broken_rules_answer, rules, 8);
KIESELBROT_SIZE(entry_answer, 4);
KIESELBROT_AT(entry_answer, number, 0);
KIESELBROT_AT(entry_answer, length, 1);
KIESELBROT_AT(entry_answer, first, 2);
KIESELBROT_AT(entry_answer, second, 3);
KIESELBROT_SIZE(read_answer, 24);
KIESELBROT_AT(read_answer, number, 0);
KIESELBROT_AT(read_answer, version, 1);
KIESELBROT_AT(read_answer, party, 2);
KIESELBROT_AT(read_answer, field, 3);
KIESELBROT_AT(read_answer, revision, 4);
KIESELBROT_AT(read_answer, text, 8);
KIESELBROT_AT(read_answer, length, 16);
KIESELBROT_SIZE(write_answer, 16);
KIESELBROT_AT(write_answer, number, 0);
KIESELBROT_AT(write_answer, length, 8);
KIESELBROT_SIZE(post_answer, 2);
KIESELBROT_AT(post_answer, number, 0);
KIESELBROT_AT(post_answer, standing, 1);
KIESELBROT_SIZE(pretest_answer, 3);
KIESELBROT_AT(pretest_answer, number, 0);
KIESELBROT_AT(pretest_answer, field, 1);
KIESELBROT_AT(pretest_answer, rule, 2);
KIESELBROT_SIZE(complete_answer, 32);
KIESELBROT_SIZE(quick_answer, 32);
KIESELBROT_AT(complete_answer, number, 0);
KIESELBROT_AT(complete_answer, field, 1);
KIESELBROT_AT(complete_answer, rule, 2);
KIESELBROT_AT(complete_answer, set, 4);
KIESELBROT_AT(complete_answer, ones, 8);
KIESELBROT_AT(complete_answer, count, 16);
KIESELBROT_AT(complete_answer, skipped, 24);
KIESELBROT_SIZE(take_up_answer, 2);
KIESELBROT_AT(take_up_answer, number, 0);
KIESELBROT_AT(take_up_answer, field, 1);
KIESELBROT_SIZE(lines_answer, 16);
KIESELBROT_AT(lines_answer, number, 0);
KIESELBROT_AT(lines_answer, field, 1);
KIESELBROT_AT(lines_answer, rule, 2);
KIESELBROT_AT(lines_answer, length, 8);
KIESELBROT_SIZE(charge_answer, 16);
KIESELBROT_AT(charge_answer, number, 0);
KIESELBROT_AT(charge_answer, kopecks, 8);
KIESELBROT_SIZE(part_answer, 16);
KIESELBROT_AT(part_answer, number, 0);
KIESELBROT_AT(part_answer, remainder, 4);
KIESELBROT_AT(part_answer, kopecks, 8);
KIESELBROT_SIZE(pool_answer, 24);
KIESELBROT_AT(pool_answer, number, 0);
KIESELBROT_AT(pool_answer, lines, 8);
KIESELBROT_AT(pool_answer, difference, 16);
KIESELBROT_SIZE(leave_answer, 32);
KIESELBROT_AT(leave_answer, number, 0);
KIESELBROT_AT(leave_answer, paid, 8);
KIESELBROT_AT(leave_answer, sum, 16);
KIESELBROT_AT(leave_answer, left, 24);
KIESELBROT_SIZE(version_answer, 12);
KIESELBROT_AT(version_answer, major, 0);
KIESELBROT_AT(version_answer, minor, 4);
KIESELBROT_AT(version_answer, patch, 8);
#undef KIESELBROT_AT
#undef KIESELBROT_SIZE

KIESELBROT_STATIC_ASSERT(KIESELBROT_SHEET_SIZE == KIESELBROT_FIELDS * KIESELBROT_SHEET_SLOT_SIZE);
KIESELBROT_STATIC_ASSERT(KIESELBROT_DRAFT_SIZE == KIESELBROT_FIELDS * KIESELBROT_DRAFT_SLOT_SIZE);
KIESELBROT_STATIC_ASSERT(KIESELBROT_SHEET_SLOT_SIZE == 1 + KIESELBROT_TEXT_MAX);
KIESELBROT_STATIC_ASSERT(KIESELBROT_MESSAGE_MAX ==
                         KIESELBROT_MESSAGE_HEAD_SIZE_2 + KIESELBROT_TEXT_MAX);
KIESELBROT_STATIC_ASSERT(KIESELBROT_POOL_SIZE == KIESELBROT_LINES_MAX * KIESELBROT_LINE_SIZE);

/** Checks a sheet against the rules, in their order, and tells its class. Rule 10 lists
 * the statuses that the order's date allows by the record: 01 03 04 05 06 07 08 13 15 16
 * 17 19 20 23 24 27 28 29 30 31 at every date, 02 up to its last date, 32 and 33 from
 * their first. The date is tested of ordinary payments, too.
 *
 * @param sheet the sheet, KIESELBROT_SHEET_SIZE bytes
 * @param sheet_len its size
 * @param date the order's date, YYYYMMDD
 * @param record the dates of statuses 32, 33 and 02
 * @return the class; refused in this order: 1, 12, 8 with field and rule */
KIESELBROT_NODISCARD KIESELBROT_PURE kieselbrot_check_answer
kieselbrot_check(const uint8_t *sheet, size_t sheet_len, uint32_t date, kieselbrot_record record)
    KIESELBROT_NAME(check);

/** Tells all rules that a sheet breaks, where a check names the first of them. The set is
 * empty exactly if a check accepts the sheet; else the first of it in the order of
 * testing, in which 22 stands ahead of 21, is the rule that a check names. A rule is
 * judged by itself, whatever the others say of the texts that it reads; for an ordinary
 * payment only rules 1 to 4 are.
 *
 * @param sheet the sheet, KIESELBROT_SHEET_SIZE bytes
 * @param sheet_len its size
 * @param date the order's date, YYYYMMDD
 * @param record the dates of statuses 32, 33 and 02
 * @return the set; refused in this order: 1, 12 */
KIESELBROT_NODISCARD KIESELBROT_PURE kieselbrot_broken_rules_answer
kieselbrot_broken_rules(const uint8_t *sheet, size_t sheet_len, uint32_t date,
                        kieselbrot_record record) KIESELBROT_NAME(broken_rules);

/** Tells an entry of a field's list in completion: what a blank field is filled with. The
 * list of 101 is the statuses that the order's date allows, ascending; that of 106 "0",
 * "00" and the ten pairs of letters in rule 15's order; those of 108 and 109 are "0" and
 * "00"; those of 22, 60, 102, 104, 105 and 107 "0"; the other fields have none.
 *
 * @param field the field's number
 * @param place the entry's place, from 0
 * @param date the order's date, YYYYMMDD
 * @param record the dates of statuses 32, 33 and 02
 * @return the entry, or a length of 0 where there is none; refused in this order: 12, 4 */
KIESELBROT_NODISCARD KIESELBROT_CONST kieselbrot_entry_answer
kieselbrot_entry(uint8_t field, size_t place, uint32_t date, kieselbrot_record record)
    KIESELBROT_NAME(entry);

/** Reads a message of either version.
 *
 * @param message the message
 * @param message_len its size
 * @return its parts; refused in this order: 2, 3, 2 for a length that its version does not
 *         allow, 13, 4, 5 */
KIESELBROT_NODISCARD KIESELBROT_PURE kieselbrot_read_answer
kieselbrot_read(const uint8_t *message, size_t message_len) KIESELBROT_NAME(read);

/** Writes a message at the start of a buffer and leaves the rest. Version 1 is the
 * adviser's alone.
 *
 * @param version 1 or 2
 * @param party KIESELBROT_CLIENT or KIESELBROT_ADVISER
 * @param field the field's number
 * @param revision the revision, not 0
 * @param text the text, in Windows-1251
 * @param text_len its size, 0 to KIESELBROT_TEXT_MAX
 * @param buffer where the message goes; KIESELBROT_MESSAGE_MAX bytes are enough for any
 * @param buffer_len its size
 * @return how many bytes were written; refused in this order: 2, 3, 13, 4, 5, 7 */
KIESELBROT_NODISCARD kieselbrot_write_answer
kieselbrot_write(uint8_t version, uint8_t party, uint8_t field, uint32_t revision,
                 const uint8_t *KIESELBROT_RESTRICT text, size_t text_len,
                 uint8_t *KIESELBROT_RESTRICT buffer, size_t buffer_len) KIESELBROT_NAME(write);

/** Makes a draft fresh, whatever it held: all zero.
 *
 * @param draft the draft, KIESELBROT_DRAFT_SIZE bytes
 * @param draft_len its size
 * @return the number: 0 or 1 */
KIESELBROT_NODISCARD uint8_t kieselbrot_fresh(uint8_t *draft, size_t draft_len)
    KIESELBROT_NAME(fresh);

/** Posts a message to a draft: a higher revision of its field is stored, with its party;
 * the same revision, party and text again, and a lower revision, change nothing. At equal
 * revisions the adviser's stands over the client's, whichever came first: it is newer, and
 * the client's older. An empty text with a higher revision blanks the field.
 *
 * @param draft the draft, KIESELBROT_DRAFT_SIZE bytes, which is changed
 * @param draft_len its size
 * @param message the message
 * @param message_len its size
 * @return what the message was; refused in this order: 1 for the draft, the refusals of
 *         reading, 6 */
KIESELBROT_NODISCARD kieselbrot_post_answer
kieselbrot_post(uint8_t *KIESELBROT_RESTRICT draft, size_t draft_len,
                const uint8_t *KIESELBROT_RESTRICT message, size_t message_len)
    KIESELBROT_NAME(post);

/** Tells of an input of messages, end to end, which message each slot holds after all of
 * them were posted to a fresh draft: place i gets the number, from 1, of the message whose
 * revision, party and text slot i holds, or 0 if none names its field. The input is cut as
 * budgetorder does it: each message has 2 + L bytes, or what is left if that is less, and
 * after one that is refused with 2 nothing is read. Messages that are refused, or that
 * change nothing, are counted, too.
 *
 * @param input the messages
 * @param input_len their size
 * @param places where the numbers go, not null; all fifteen are written */
KIESELBROT_NONNULL(3)
void kieselbrot_origins(const uint8_t *KIESELBROT_RESTRICT input, size_t input_len,
                        uint64_t places[KIESELBROT_FIELDS]) KIESELBROT_NAME(origins);

/** Copies a draft's texts to a sheet, whatever that held, without the revisions and
 * parties.
 *
 * @param draft the draft, KIESELBROT_DRAFT_SIZE bytes
 * @param draft_len its size
 * @param sheet where the texts go, KIESELBROT_SHEET_SIZE bytes
 * @param sheet_len its size
 * @return the number: 0, 1 or 7 */
KIESELBROT_NODISCARD uint8_t
kieselbrot_copy(const uint8_t *KIESELBROT_RESTRICT draft, size_t draft_len,
                uint8_t *KIESELBROT_RESTRICT sheet, size_t sheet_len) KIESELBROT_NAME(copy);

/** Tests a draft ahead of completion. Where it names a rule, completing the draft
 * into any sheet buffer of the right size is refused with 10 and the count of all
 * fillings, at every date and record that 12 does not refuse; it names none exactly
 * when every filling keeps all twelve rules. The number is 0 where it names a rule,
 * too: ask the answer's `rule`.
 *
 * @param draft the draft, KIESELBROT_DRAFT_SIZE bytes
 * @param draft_len its size
 * @return the rule that all fillings break, if there is one; refused in this order: 1, 8, 9 */
KIESELBROT_NODISCARD KIESELBROT_PURE kieselbrot_pretest_answer
kieselbrot_pretest(const uint8_t *draft, size_t draft_len) KIESELBROT_NAME(pretest);

/** Completes a draft: writes the first filling that keeps all rules to the sheet,
 * whatever that held. A blank 101 is filled with the statuses that the date allows, as
 * in a check, in ascending order. They are 20 to 23, so that there are at most 960 to
 * 1,104 fillings.
 *
 * All fillings of a status are skipped, and counted, if one of rules 5, 7 to 14, 16, 19
 * to 24, 27, 28 and 30, which read neither 106, 108 nor 109, fails for it. Skipped are
 * exactly these statuses: with a sheet of those up to the sheet's, with 10 of all that the
 * date allows; a given 101 is the only one.
 *
 * @param draft the draft, KIESELBROT_DRAFT_SIZE bytes
 * @param draft_len its size
 * @param sheet where the filling goes, KIESELBROT_SHEET_SIZE bytes; it stands before the
 *              date, where kieselbrot_write_lines has its buffer behind the record
 * @param sheet_len its size
 * @param date the order's date, YYYYMMDD
 * @param record the dates of statuses 32, 33 and 02
 * @return what was filled; refused in this order: 1, 7, 12, 8, 9, 10 */
KIESELBROT_NODISCARD kieselbrot_complete_answer
kieselbrot_complete(const uint8_t *KIESELBROT_RESTRICT draft, size_t draft_len,
                    uint8_t *KIESELBROT_RESTRICT sheet, size_t sheet_len, uint32_t date,
                    kieselbrot_record record) KIESELBROT_NAME(complete);

/** The quick search: another name for kieselbrot_complete, whose answer has the number of
 * skipped statuses. */
KIESELBROT_NODISCARD static inline kieselbrot_quick_answer
kieselbrot_quick(const uint8_t *KIESELBROT_RESTRICT draft, size_t draft_len,
                 uint8_t *KIESELBROT_RESTRICT sheet, size_t sheet_len, uint32_t date,
                 kieselbrot_record record)
{
    return kieselbrot_complete(draft, draft_len, sheet, sheet_len, date, record);
}

/** Takes up part of a proposal: for each slot of the set posts the text that the sheet has
 * there to the draft as the adviser's, with the revision after its slot's, whichever party
 * gave that. The sheet need not be one that completion wrote; its texts outside the set are
 * not taken.
 *
 * If completing the draft at a date and record gave this sheet, and the set is a part of the
 * returned one, completing it again at the same date and record gives the very same sheet, a
 * count no larger, and the returned set without the slots taken up.
 *
 * @param draft the draft, KIESELBROT_DRAFT_SIZE bytes, which is changed
 * @param draft_len its size
 * @param sheet the proposal, KIESELBROT_SHEET_SIZE bytes
 * @param sheet_len its size
 * @param set the slots, bit i for slot i
 * @return refused in this order: 1 for a malformed draft, or a malformed sheet of 390 bytes;
 *         7 for a sheet of another size; 20 with the field of the lowest slot of the set
 *         that can't take up its value: the bit is no slot's (15), its field has no list of
 *         fillings (14, 15, 17, 61, 103), it is not blank in the draft, the sheet is blank
 *         there, or its revision is 4294967295, the greatest. A refusal takes up none of
 *         the values */
KIESELBROT_NODISCARD kieselbrot_take_up_answer
kieselbrot_take_up(uint8_t *KIESELBROT_RESTRICT draft, size_t draft_len,
                   const uint8_t *KIESELBROT_RESTRICT sheet, size_t sheet_len, uint16_t set)
    KIESELBROT_NAME(take_up);

/** Writes the MT103 lines of an accepted sheet of class A at the start of a buffer and leaves
 * the rest. They have 112 bytes and those of field 22.
 *
 * @param sheet the sheet, KIESELBROT_SHEET_SIZE bytes
 * @param sheet_len its size
 * @param date the order's date, YYYYMMDD
 * @param record the dates of statuses 32, 33 and 02
 * @param buffer where the lines go; KIESELBROT_LINES_BLOCK_MAX bytes are enough for any
 * @param buffer_len its size
 * @return how many bytes were written; refused in this order: 1, 12, 8 as in a check; 11 for
 *         class B or O; 7 for a buffer shorter than the lines */
KIESELBROT_NODISCARD kieselbrot_lines_answer
kieselbrot_write_lines(const uint8_t *KIESELBROT_RESTRICT sheet, size_t sheet_len, uint32_t date,
                       kieselbrot_record record, uint8_t *KIESELBROT_RESTRICT buffer,
                       size_t buffer_len) KIESELBROT_NAME(write_lines);

/** Reads MT103 lines: fills a sheet, whatever that held, with their seven texts, all others
 * blank. It is not meant to pass a check. Taken are exactly the blocks of these lines whose
 * texts keep rules 1, 2, 3, 5, 7, 9, 10 and 12 and make class A; rule 10 lists all 23
 * statuses, as no date is taken. What was written reads back as the same seven texts, and
 * each block that reads is what the lines of its texts are.
 *
 * @param block the lines
 * @param block_len their size
 * @param sheet where the texts go, KIESELBROT_SHEET_SIZE bytes
 * @param sheet_len its size
 * @return the number: 0; refused in this order: 7 for the sheet's size, 11 for any other
 *         block */
KIESELBROT_NODISCARD uint8_t
kieselbrot_read_lines(const uint8_t *KIESELBROT_RESTRICT block, size_t block_len,
                      uint8_t *KIESELBROT_RESTRICT sheet, size_t sheet_len)
    KIESELBROT_NAME(read_lines);

/** The bank's charge for an amount: amount times rate over 10,000, halves upward to
 * the whole kopeck, raised to the least, then lowered to the greatest.
 *
 * @param amount 1 to 10^12 kopecks
 * @param rate 0 to 10,000 hundredths of a percent
 * @param least the least charge, at most 10^12 kopecks, not above the greatest
 * @param greatest the greatest charge, at most 10^12 kopecks
 * @return the charge in kopecks; 14 if an argument is otherwise */
KIESELBROT_NODISCARD KIESELBROT_CONST kieselbrot_charge_answer
kieselbrot_charge(uint64_t amount, uint64_t rate, uint64_t least, uint64_t greatest)
    KIESELBROT_NAME(charge);

/** The part of a year's amount for so many days: amount times days over the year's
 * length, in whole kopecks, with the remainder.
 *
 * @param amount 1 to 10^12 kopecks
 * @param days 1 to the year's length; mind that they stand before the year here, where
 *             kieselbrot_shares has its periods behind it
 * @param year the year's length in days, 365 or 366
 * @return kopecks and remainder; 15 if an argument is otherwise, as days and year exchanged
 *         are, but for a whole year */
KIESELBROT_NODISCARD KIESELBROT_CONST kieselbrot_part_answer
kieselbrot_part(uint64_t amount, uint32_t days, uint32_t year) KIESELBROT_NAME(part);

/** Shares a year's amount among periods, given by their days. The first k shares sum to
 * the whole kopecks of the part for the days of the first k periods, and all of them to
 * the amount. Places past the last period are 0. All twelve places are written, or none.
 *
 * @param amount 1 to 10^12 kopecks
 * @param year the year's length in days, 365 or 366; mind that it stands before the periods
 *             here, where kieselbrot_part has it behind the days
 * @param periods the days of each period, at least 1, that sum to the year
 * @param periods_len how many periods there are, 1 to 12
 * @param shares where the shares go, in kopecks, not null; KIESELBROT_SHARE_PLACES places
 * @return the number: 0, or 15 if an argument is otherwise */
KIESELBROT_NODISCARD KIESELBROT_NONNULL(5) uint8_t
kieselbrot_shares(uint64_t amount, uint32_t year, const uint32_t *KIESELBROT_RESTRICT periods,
                  size_t periods_len, uint64_t shares[KIESELBROT_SHARE_PLACES])
    KIESELBROT_NAME(shares);

/** Pools the lines of an order's register: those of one INN become one line with their
 * sum, in the order of first appearance, at the start of the output; the rest of the
 * output is left.
 *
 * @param register_ 1 to 500 lines, each with an INN of 12 digits, whose check digits are
 *                  right, and 1 to 10^12 kopecks
 * @param register_len its size
 * @param amount the order's amount, 1 to 10^15 kopecks, and the register's total
 * @param output where the pooled lines go
 * @param output_len its size, at least KIESELBROT_POOL_SIZE, however few lines there are
 * @return how many pooled lines there are; refused in this order: 7, 16, 17 with the
 *         difference */
KIESELBROT_NODISCARD kieselbrot_pool_answer
kieselbrot_pool(const uint8_t *KIESELBROT_RESTRICT register_, size_t register_len, uint64_t amount,
                uint8_t *KIESELBROT_RESTRICT output, size_t output_len) KIESELBROT_NAME(pool);

/** Which payments leave an account first: by priority and, within one, by arrival, lower
 * numbers first, until the first that exceeds what is left; it and all after it wait.
 * Payment i has priority, arrival number and amount i of the three lists, which are of
 * one length, 0 to 64. The places get the arrival numbers of all payments in that order,
 * and 0 past the last; how many payments there are tells an arrival number of 0 from a
 * place past the last. All 64 places are written, or none.
 *
 * @param balance 0 to 10^15 kopecks
 * @param priorities of each payment, 1 to 5
 * @param priorities_len how many there are
 * @param arrivals of each payment, any number, no two equal
 * @param arrivals_len how many there are
 * @param amounts of each payment, 1 to 10^12 kopecks
 * @param amounts_len how many there are
 * @param places where the arrival numbers go, not null; KIESELBROT_PAYMENT_PLACES places
 * @return how many are paid, their sum, what is left; refused in this order: 18, 19 */
KIESELBROT_NODISCARD KIESELBROT_NONNULL(8) kieselbrot_leave_answer
kieselbrot_leave(uint64_t balance, const uint8_t *KIESELBROT_RESTRICT priorities,
                 size_t priorities_len, const uint32_t *KIESELBROT_RESTRICT arrivals,
                 size_t arrivals_len, const uint64_t *KIESELBROT_RESTRICT amounts,
                 size_t amounts_len, uint32_t places[KIESELBROT_PAYMENT_PLACES])
    KIESELBROT_NAME(leave);

/** The version of the library that is linked or loaded. This function has one name in every
 * major version, without a number in it.
 *
 * @return major, minor and patch */
KIESELBROT_NODISCARD KIESELBROT_CONST kieselbrot_version_answer kieselbrot_version(void);

#ifdef __cplusplus
}
#endif

#endif
