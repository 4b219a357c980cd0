/* The library's version; a small order: its messages are written, posted in the order of their arrival,
 * tested and completed, and the sheet is printed; all rules that it breaks with another
 * status, and which message each slot holds; then a client writes into it, too; a
 * correction dated back, also completed quickly; a proposal of which parts are taken up;
 * entries of completion's lists; the sheet's MT103 lines, read back; the bank's charge for a few amounts, parts of a year, a
 * year's amount shared among its months, the pooled lines of a register, and which payments
 * leave first; and null pointers with length 0 in every place.
 * The program checks its own results and returns 1 if one is not as expected. */

#include <inttypes.h>
#include <stdio.h>
#include <string.h>

#include "kieselbrot.h"

static const uint8_t fields[KIESELBROT_FIELDS] = {14,  15,  17,  22,  60,  61,  101, 102,
                                                  103, 104, 105, 106, 107, 108, 109};

static const kieselbrot_record given = {KIESELBROT_FIRST32, KIESELBROT_FIRST33, KIESELBROT_LAST02};

/* The order's date. */
static const uint32_t date = 20240115;

struct arrival {
    uint8_t field;
    uint32_t revision;
    const char *text;
    char standing; /* what posting it should answer */
};

/* Fields 22, 101 and 105 to 109 are left blank. */
static const struct arrival order[] = {
    {17, 1, "03100643000000014800", 'n'},
    {60, 1, "7701569743", 'n'},
    {61, 1, "6730054024", 'n'},
    {102, 1, "770301001", 'n'},
    {103, 1, "772801001", 'n'},
    {104, 2, "18201061201010000510", 'n'},
    {104, 1, "18210102010011000110", 'o'},
    {14, 1, "004525987", 'n'},
    {14, 1, "004525987", 's'},
    {15, 1, "40102810845370000004", 'n'},
    {101, 1, "08", 'n'},
    {101, 2, "", 'n'},
};

struct tariff {
    uint64_t amount, rate, least, greatest;
    uint8_t number;   /* what the charge should answer */
    uint64_t kopecks;
};

static const struct tariff tariffs[] = {
    /* 0.5 percent: half a kopeck and more goes upward, less does not */
    {100, 50, 0, KIESELBROT_KOPECKS_MAX, KIESELBROT_OK, 1},
    {99, 50, 0, KIESELBROT_KOPECKS_MAX, KIESELBROT_OK, 0},
    {KIESELBROT_KOPECKS_MAX, KIESELBROT_RATE_MAX, 0, KIESELBROT_KOPECKS_MAX, KIESELBROT_OK,
     KIESELBROT_KOPECKS_MAX},
    /* between 30 and 2,000 roubles: raised, neither, lowered */
    {100000, 50, 3000, 200000, KIESELBROT_OK, 3000},
    {1000000, 50, 3000, 200000, KIESELBROT_OK, 5000},
    {100000000, 50, 3000, 200000, KIESELBROT_OK, 200000},
    /* out of range, or the least above the greatest */
    {0, 50, 3000, 200000, KIESELBROT_TARIFF, 0},
    {KIESELBROT_KOPECKS_MAX + 1, 50, 3000, 200000, KIESELBROT_TARIFF, 0},
    {100000, KIESELBROT_RATE_MAX + 1, 3000, 200000, KIESELBROT_TARIFF, 0},
    {100000, 50, 3000, KIESELBROT_KOPECKS_MAX + 1, KIESELBROT_TARIFF, 0},
    {100000, 50, 3001, 3000, KIESELBROT_TARIFF, 0},
};

struct year_part {
    uint64_t amount;
    uint32_t days, year;
    uint8_t number; /* what the part should answer */
    uint64_t kopecks;
    uint32_t remainder;
};

static const struct year_part year_parts[] = {
    {1000, 31, 365, KIESELBROT_OK, 84, 340},
    {1000, 31, 366, KIESELBROT_OK, 84, 256},
    {KIESELBROT_KOPECKS_MAX, 366, 366, KIESELBROT_OK, KIESELBROT_KOPECKS_MAX, 0},
    {1, 1, 366, KIESELBROT_OK, 0, 1},
    /* another year, days outside it, an amount out of range */
    {1000, 31, 364, KIESELBROT_YEAR_PART, 0, 0},
    {1000, 0, 365, KIESELBROT_YEAR_PART, 0, 0},
    {1000, 366, 365, KIESELBROT_YEAR_PART, 0, 0},
    {0, 31, 365, KIESELBROT_YEAR_PART, 0, 0},
    {KIESELBROT_KOPECKS_MAX + 1, 31, 365, KIESELBROT_YEAR_PART, 0, 0},
};

static const uint32_t months[] = {31, 28, 31, 30, 31, 30, 31, 31, 30, 31, 30, 31};

static const uint64_t by_months[KIESELBROT_SHARE_PLACES] = {84, 77, 85, 82, 85, 82,
                                                            85, 85, 82, 85, 83, 85};

static int failures = 0;

static void expect(int kept, const char *what)
{
    if (!kept) {
        fprintf(stderr, "not as expected: %s\n", what);
        failures++;
    }
}

/* Writes a message of this version and party, reads it back and posts it. */
static kieselbrot_post_answer send_as(uint8_t version, uint8_t party, uint8_t *draft,
                                      const struct arrival *arrival)
{
    uint8_t message[KIESELBROT_MESSAGE_MAX];
    const size_t length = strlen(arrival->text);
    const size_t head_size =
        version == 1 ? KIESELBROT_MESSAGE_HEAD_SIZE_1 : KIESELBROT_MESSAGE_HEAD_SIZE_2;
    const kieselbrot_write_answer written =
        kieselbrot_write(version, party, arrival->field, arrival->revision,
                         (const uint8_t *)arrival->text, length, message, sizeof message);
    expect(written.number == KIESELBROT_OK && written.length == head_size + length, "writing");

    const kieselbrot_read_answer read = kieselbrot_read(message, written.length);
    expect(read.number == KIESELBROT_OK, "reading");
    expect(read.version == version && read.party == party, "whose message was read");
    expect(read.text == head_size, "the head that was read");
    expect(read.field == arrival->field && read.revision == arrival->revision, "what was read");
    expect(read.length == length && read.text + read.length == written.length,
           "where the text is");
    expect(memcmp(message + read.text, arrival->text, read.length) == 0, "the text that was read");

    return kieselbrot_post(draft, KIESELBROT_DRAFT_SIZE, message, written.length);
}

/* The adviser's message, in version 1. */
static kieselbrot_post_answer send_message(uint8_t *draft, const struct arrival *arrival)
{
    return send_as(1, KIESELBROT_ADVISER, draft, arrival);
}

static void print_sheet(const uint8_t *sheet)
{
    for (size_t slot = 0; slot < KIESELBROT_FIELDS; slot++) {
        const uint8_t *text = sheet + KIESELBROT_SHEET_SLOT_SIZE * slot;
        printf("%d %.*s\n", fields[slot], text[0], (const char *)text + 1);
    }
}

/* The text of field 101, which has slot 6. */
static const uint8_t *status(const uint8_t *sheet)
{
    return sheet + 6 * KIESELBROT_SHEET_SLOT_SIZE + 1;
}

/* Completes a draft quickly; answer and sheet must be those of completing it, with so many
 * statuses skipped. */
static void expect_quick(const uint8_t *draft, uint32_t dated, size_t skipped)
{
    uint8_t sheet[KIESELBROT_SHEET_SIZE] = {0}, slow[KIESELBROT_SHEET_SIZE] = {0};
    const kieselbrot_complete_answer completed =
        kieselbrot_complete(draft, KIESELBROT_DRAFT_SIZE, slow, sizeof slow, dated, given);
    const kieselbrot_quick_answer quick =
        kieselbrot_quick(draft, KIESELBROT_DRAFT_SIZE, sheet, sizeof sheet, dated, given);
    printf("quickly, dated %" PRIu32 ": number %d, count %lu, skipped %lu\n", dated,
           quick.number, (unsigned long)quick.count, (unsigned long)quick.skipped);
    expect(quick.number == completed.number && quick.field == completed.field &&
               quick.rule == completed.rule && quick.set == completed.set &&
               quick.ones == completed.ones && quick.count == completed.count,
           "a quick completion");
    expect(memcmp(sheet, slow, sizeof sheet) == 0, "its sheet");
    expect(quick.skipped == skipped, "the statuses that it skipped");
}

/* Tests a draft that no filling can save, and completes it all the same. */
static void expect_hopeless(const uint8_t *draft, uint8_t field, uint8_t rule)
{
    uint8_t sheet[KIESELBROT_SHEET_SIZE];
    const kieselbrot_pretest_answer named = kieselbrot_pretest(draft, KIESELBROT_DRAFT_SIZE);
    printf("hopeless: field %d, rule %d\n", named.field, named.rule);
    expect(named.number == KIESELBROT_OK && named.field == field && named.rule == rule,
           "the rule that all fillings break");

    const kieselbrot_complete_answer none =
        kieselbrot_complete(draft, KIESELBROT_DRAFT_SIZE, sheet, sizeof sheet, date, given);
    expect(none.number == KIESELBROT_NO_FILLING && none.count == 1056, "its completion");
    expect_quick(draft, date, 22);
}

/* What is refused, and that nothing changes. */
static void refuse(uint8_t *draft)
{
    uint8_t sheet[KIESELBROT_SHEET_SIZE] = {0};
    uint8_t before[KIESELBROT_DRAFT_SIZE];
    memcpy(before, draft, sizeof before);

    const struct arrival clash = {14, 1, "044525000", 0};
    expect(send_message(draft, &clash).number == KIESELBROT_CLASH, "a clash");
    expect(memcmp(before, draft, sizeof before) == 0, "the draft after a clash");

    const kieselbrot_read_answer unread = kieselbrot_read(before, 1);
    expect(unread.number == KIESELBROT_LENGTH && unread.text == 0 && unread.length == 0,
           "a message of one byte");

    const kieselbrot_check_answer broken = kieselbrot_check(sheet, sizeof sheet, date, given);
    expect(broken.number == KIESELBROT_BROKEN && broken.field == 14 && broken.rule == 1 &&
               broken.class_ == 0,
           "a blank sheet");
    expect(kieselbrot_check(sheet, sizeof sheet - 1, date, given).number == KIESELBROT_MALFORMED,
           "a short sheet");
    expect(kieselbrot_copy(draft, KIESELBROT_DRAFT_SIZE, sheet, sizeof sheet - 1) ==
               KIESELBROT_OUTPUT,
           "a short output");

    const kieselbrot_pretest_answer untested = kieselbrot_pretest(draft, KIESELBROT_DRAFT_SIZE - 1);
    expect(untested.number == KIESELBROT_MALFORMED && untested.field == 0 && untested.rule == 0,
           "a short draft");
}

/* A document number of the client's, and what the adviser's is to it. */
static const struct {
    uint8_t version, party;
    struct arrival arrival;
} document[] = {
    {2, KIESELBROT_CLIENT, {108, 1, "17", 'n'}},
    {2, KIESELBROT_CLIENT, {108, 1, "17", 's'}},
    {1, KIESELBROT_ADVISER, {108, 1, "18", 'n'}},
    {2, KIESELBROT_ADVISER, {108, 1, "18", 's'}},
    {2, KIESELBROT_CLIENT, {108, 1, "17", 'o'}},
    {2, KIESELBROT_CLIENT, {108, 2, "19", 'n'}},
    {1, KIESELBROT_ADVISER, {108, 1, "18", 'o'}},
};

/* Messages that are refused: what is written, and the same where it is read. */
static void refuse_parties(uint8_t *draft)
{
    const uint8_t text[] = "17";
    uint8_t message[KIESELBROT_MESSAGE_MAX], before[KIESELBROT_DRAFT_SIZE];
    memcpy(before, draft, sizeof before);

    expect(kieselbrot_write(1, KIESELBROT_CLIENT, 108, 1, text, 2, message, sizeof message)
                   .number == KIESELBROT_UNKNOWN_PARTY,
           "the client in version 1");
    expect(kieselbrot_write(2, 3, 108, 1, text, 2, message, sizeof message).number ==
               KIESELBROT_UNKNOWN_PARTY,
           "an unknown party");
    expect(kieselbrot_write(3, KIESELBROT_CLIENT, 108, 1, text, 2, message, sizeof message)
                   .number == KIESELBROT_UNKNOWN_VERSION,
           "an unknown version");

    const kieselbrot_write_answer written =
        kieselbrot_write(2, KIESELBROT_CLIENT, 108, 9, text, 2, message, sizeof message);
    message[3] = 3;
    const kieselbrot_read_answer unread = kieselbrot_read(message, written.length);
    expect(unread.number == KIESELBROT_UNKNOWN_PARTY && unread.version == 0 && unread.party == 0,
           "an unknown party to read");
    expect(kieselbrot_post(draft, KIESELBROT_DRAFT_SIZE, message, written.length).number ==
               KIESELBROT_UNKNOWN_PARTY,
           "an unknown party to post");
    /* version 2 does not allow an L of 6 */
    const uint8_t too_short[] = {0, 6, 2, KIESELBROT_CLIENT, 108, 0, 0, 1};
    expect(kieselbrot_read(too_short, sizeof too_short).number == KIESELBROT_LENGTH,
           "a length that the version does not allow");
    const struct arrival clash = {108, 2, "20", 0};
    expect(send_as(2, KIESELBROT_CLIENT, draft, &clash).number == KIESELBROT_CLASH,
           "a clash of the client's own");
    expect(memcmp(before, draft, sizeof before) == 0, "the draft after refused messages");

    /* a revision without a party */
    before[13 * KIESELBROT_DRAFT_SLOT_SIZE + 4] = 0;
    expect(kieselbrot_pretest(before, sizeof before).number == KIESELBROT_MALFORMED,
           "a slot without a party");
}

/* The client writes into the same order, on a draft of its own. */
static void write_as_client(const uint8_t *draft)
{
    uint8_t both[KIESELBROT_DRAFT_SIZE], sheet[KIESELBROT_SHEET_SIZE];
    memcpy(both, draft, sizeof both);
    for (size_t i = 0; i < sizeof document / sizeof document[0]; i++) {
        const struct arrival *arrival = &document[i].arrival;
        const kieselbrot_post_answer posted =
            send_as(document[i].version, document[i].party, both, arrival);
        printf("party %d, field %d, revision %lu: %c\n", document[i].party, arrival->field,
               (unsigned long)arrival->revision, posted.standing);
        expect(posted.number == KIESELBROT_OK && posted.standing == arrival->standing,
               "posting for a party");
    }
    /* field 108 has slot 13: revision 2 of the client's, of two bytes */
    static const uint8_t held[] = {0, 0, 0, 2, KIESELBROT_CLIENT, 2, '1', '9', 0};
    expect(memcmp(both + 13 * KIESELBROT_DRAFT_SLOT_SIZE, held, sizeof held) == 0,
           "what the client wrote");
    refuse_parties(both);

    const kieselbrot_complete_answer completed =
        kieselbrot_complete(both, sizeof both, sheet, sizeof sheet, date, given);
    expect(completed.number == KIESELBROT_OK && completed.set == 0x5C48,
           "completing with the client's document");
    expect(memcmp(sheet + 13 * KIESELBROT_SHEET_SLOT_SIZE, "\002" "19", 3) == 0,
           "the client's document in the sheet");
}

/* What is hopeless before any filling is tried, on a draft of its own. */
static void give_up(const uint8_t *draft)
{
    uint8_t hopeless[KIESELBROT_DRAFT_SIZE];
    memcpy(hopeless, draft, sizeof hopeless);

    const struct arrival no_kbk = {104, 3, "0", 0};
    expect(send_message(hopeless, &no_kbk).number == KIESELBROT_OK, "a KBK of 0");
    expect_hopeless(hopeless, 104, 28);

    const struct arrival one_off = {60, 2, "7701569744", 0};
    expect(send_message(hopeless, &one_off).number == KIESELBROT_OK, "an INN one digit off");
    expect_hopeless(hopeless, 60, 8);
}

/* Completes a draft into a sheet that holds nothing, and tells the status. */
static kieselbrot_complete_answer propose(const uint8_t *draft, uint8_t *sheet, uint32_t dated)
{
    memset(sheet, 0, KIESELBROT_SHEET_SIZE);
    const kieselbrot_complete_answer proposed = kieselbrot_complete(
        draft, KIESELBROT_DRAFT_SIZE, sheet, KIESELBROT_SHEET_SIZE, dated, given);
    printf("dated %" PRIu32 ": number %d, status %.2s, count %lu\n", dated, proposed.number,
           (const char *)status(sheet), (unsigned long)proposed.count);
    return proposed;
}

/* The bit of a field's slot in a set. */
static uint16_t bit(uint8_t field)
{
    for (size_t slot = 0; slot < KIESELBROT_FIELDS; slot++)
        if (fields[slot] == field)
            return (uint16_t)(1 << slot);
    return 0;
}

/* The revision in the slot of field 101. */
static uint32_t revision_101(const uint8_t *draft)
{
    const uint8_t *slot = draft + 6 * KIESELBROT_DRAFT_SLOT_SIZE;
    return (uint32_t)slot[0] << 24 | (uint32_t)slot[1] << 16 | (uint32_t)slot[2] << 8 | slot[3];
}

/* Takes up a part of a proposal on a copy of the draft, and completes that again: to the
 * same sheet, at this count, and without the slots taken up. */
static void expect_taken_up(const uint8_t *draft, const uint8_t *sheet,
                            kieselbrot_complete_answer proposed, uint16_t set, size_t count)
{
    uint8_t taken[KIESELBROT_DRAFT_SIZE], again[KIESELBROT_SHEET_SIZE];
    memcpy(taken, draft, sizeof taken);
    const kieselbrot_take_up_answer answer =
        kieselbrot_take_up(taken, sizeof taken, sheet, KIESELBROT_SHEET_SIZE, set);
    expect(answer.number == KIESELBROT_OK && answer.field == 0, "taking up");
    if ((set & bit(101)) != 0)
        expect(revision_101(taken) == revision_101(draft) + 1, "the revision after its slot's");

    const kieselbrot_complete_answer completed = propose(taken, again, date);
    expect(completed.number == KIESELBROT_OK && completed.count == count, "completing again");
    expect(completed.count <= proposed.count, "a count no larger");
    expect(completed.set == (proposed.set & ~set), "the set without the slots taken up");
    expect(memcmp(again, sheet, sizeof again) == 0, "the same sheet");
}

/* What can't be taken up, and that nothing changes. */
static void expect_not_taken_up(const uint8_t *draft, const uint8_t *sheet, size_t sheet_len,
                                uint16_t set, uint8_t number, uint8_t field)
{
    uint8_t taken[KIESELBROT_DRAFT_SIZE];
    memcpy(taken, draft, sizeof taken);
    const kieselbrot_take_up_answer answer =
        kieselbrot_take_up(taken, sizeof taken, sheet, sheet_len, set);
    printf("not taken up: number %d, field %d\n", answer.number, answer.field);
    expect(answer.number == number && answer.field == field, "what can't be taken up");
    expect(memcmp(taken, draft, sizeof taken) == 0, "the draft after a refusal");
}

/* The same order without the payer's INN and KPP: values of its proposal are taken up. */
static void take_up(const uint8_t *draft)
{
    const struct arrival no_inn = {60, 2, "0", 0}, no_kpp = {102, 2, "0", 0};
    uint8_t open[KIESELBROT_DRAFT_SIZE], sheet[KIESELBROT_SHEET_SIZE];

    memcpy(open, draft, sizeof open);
    expect(send_message(open, &no_inn).number == KIESELBROT_OK &&
               send_message(open, &no_kpp).number == KIESELBROT_OK,
           "a payer without INN and KPP");
    const kieselbrot_complete_answer proposed = propose(open, sheet, date);
    expect(proposed.number == KIESELBROT_OK && proposed.count == 97, "a proposal");

    expect_taken_up(open, sheet, proposed, 0, 97);
    expect_taken_up(open, sheet, proposed, bit(101), 1);
    expect_taken_up(open, sheet, proposed, bit(106), 9);
    expect_taken_up(open, sheet, proposed, bit(106) | bit(108) | bit(109), 3);
    expect_taken_up(open, sheet, proposed, proposed.set, 1);

    /* 61 has no list of fillings, 60 is given, bit 15 is no slot's; the lowest is named */
    expect_not_taken_up(open, sheet, sizeof sheet, bit(101) | bit(61), KIESELBROT_NOT_TAKEN_UP,
                        61);
    expect_not_taken_up(open, sheet, sizeof sheet, bit(101) | bit(60) | bit(61),
                        KIESELBROT_NOT_TAKEN_UP, 60);
    expect_not_taken_up(open, sheet, sizeof sheet, bit(101) | 0x8000, KIESELBROT_NOT_TAKEN_UP, 0);
    expect_not_taken_up(open, sheet, sizeof sheet - 1, bit(101), KIESELBROT_OUTPUT, 0);
}

/* The lines of the completed sheet, which is document 01's S. */
static const char lines[] = ":26T:S01\n"
                            ":57D://RU004525987.40102810845370000004\n"
                            ":59:/03100643000000014800\n"
                            "INN6730054024.KPP772801001\n"
                            ":72:/UIP/0\n";

static const size_t lines_len = sizeof lines - 1;

/* The slots of 60, 102 and 104 to 109 are not in the lines. */
static int is_in_lines(size_t slot)
{
    return slot != 4 && slot != 7 && slot < 9;
}

/* Reads a block: the seven texts of this sheet, all others blank. */
static void expect_read(const char *block, size_t block_len, const uint8_t *sheet)
{
    static const uint8_t blank[KIESELBROT_SHEET_SLOT_SIZE] = {0};
    uint8_t back[KIESELBROT_SHEET_SIZE];
    memset(back, 0xEE, sizeof back);
    const uint8_t number =
        kieselbrot_read_lines((const uint8_t *)block, block_len, back, sizeof back);
    expect(number == KIESELBROT_OK, "reading lines");
    for (size_t slot = 0; slot < KIESELBROT_FIELDS; slot++) {
        const size_t place = slot * KIESELBROT_SHEET_SLOT_SIZE;
        const uint8_t *text = is_in_lines(slot) ? sheet + place : blank;
        expect(memcmp(back + place, text, sizeof blank) == 0, "a text that was read");
    }
}

/* A block, or a sheet's size, that is refused; nothing changes. */
static void expect_not_read(const char *block, size_t block_len, size_t sheet_len, uint8_t number)
{
    uint8_t back[KIESELBROT_SHEET_SIZE + 1], before[KIESELBROT_SHEET_SIZE + 1];
    memset(back, 0xEE, sizeof back);
    memset(before, 0xEE, sizeof before);
    const uint8_t answer =
        kieselbrot_read_lines((const uint8_t *)block, block_len, back, sheet_len);
    expect(answer == number, "a block that is refused");
    expect(memcmp(back, before, sizeof back) == 0, "the sheet after a refusal");
}

/* Lines that are refused at this date into a buffer of this size; nothing changes. */
static void expect_not_written(const uint8_t *sheet, uint32_t dated, size_t buffer_len,
                               uint8_t number, uint8_t field, uint8_t rule)
{
    uint8_t buffer[KIESELBROT_LINES_BLOCK_MAX], before[KIESELBROT_LINES_BLOCK_MAX];
    memset(buffer, 0xEE, sizeof buffer);
    memset(before, 0xEE, sizeof before);
    const kieselbrot_lines_answer answer = kieselbrot_write_lines(
        sheet, KIESELBROT_SHEET_SIZE, dated, given, buffer, buffer_len);
    printf("no lines: number %d, field %d, rule %d\n", answer.number, answer.field, answer.rule);
    expect(answer.number == number && answer.field == field && answer.rule == rule &&
               answer.length == 0,
           "lines that are not written");
    expect(memcmp(buffer, before, sizeof buffer) == 0, "the buffer after a refusal");
}

/* Writes the lines of the completed sheet, prints them and reads them back. */
static void write_lines(const uint8_t *sheet)
{
    uint8_t buffer[KIESELBROT_LINES_BLOCK_MAX];
    memset(buffer, 0xEE, sizeof buffer);
    const kieselbrot_lines_answer written = kieselbrot_write_lines(
        sheet, KIESELBROT_SHEET_SIZE, date, given, buffer, sizeof buffer);
    expect(written.number == KIESELBROT_OK && written.length == lines_len, "writing lines");
    printf("%.*s", (int)written.length, (const char *)buffer);
    expect(memcmp(buffer, lines, lines_len) == 0, "the lines");
    for (size_t i = lines_len; i < sizeof buffer; i++)
        expect(buffer[i] == 0xEE, "the buffer behind the lines");
    expect_read((const char *)buffer, written.length, sheet);

    /* A byte too short; too early; without a recipient's INN; without the bank account and
     * the status, so that it is an ordinary payment. */
    uint8_t other[KIESELBROT_SHEET_SIZE];
    expect_not_written(sheet, date, lines_len - 1, KIESELBROT_OUTPUT, 0, 0);
    expect_not_written(sheet, KIESELBROT_ORDER_DATE_MIN - 1, 0, KIESELBROT_UNDATED, 0, 0);
    memcpy(other, sheet, sizeof other);
    memset(other + 5 * KIESELBROT_SHEET_SLOT_SIZE, 0, KIESELBROT_SHEET_SLOT_SIZE);
    expect_not_written(other, date, 0, KIESELBROT_BROKEN, 61, 6);
    memset(other + 1 * KIESELBROT_SHEET_SLOT_SIZE, 0, KIESELBROT_SHEET_SLOT_SIZE);
    memset(other + 6 * KIESELBROT_SHEET_SLOT_SIZE, 0, KIESELBROT_SHEET_SLOT_SIZE);
    expect_not_written(other, date, 0, KIESELBROT_NO_LINES, 0, 0);

    /* Without the last line feed; into a sheet of another size, whatever the block is. */
    expect_not_read(lines, lines_len - 1, sizeof other, KIESELBROT_NO_LINES);
    expect_not_read(lines, lines_len, sizeof other + 1, KIESELBROT_OUTPUT);
    expect_not_read(lines, 0, sizeof other + 1, KIESELBROT_OUTPUT);
}

/* The same order without the payer's INN and KPP, of this date and dated back to the year
 * before, when status 02 was allowed; and dates that are refused. */
static void date_back(const uint8_t *draft)
{
    const uint32_t back = 20231015;
    const kieselbrot_record no_date = {20230229, KIESELBROT_FIRST33, KIESELBROT_LAST02};
    const kieselbrot_record later = {KIESELBROT_FIRST32, KIESELBROT_FIRST33, date};
    const struct arrival no_inn = {60, 2, "0", 0}, no_kpp = {102, 2, "0", 0};
    uint8_t correction[KIESELBROT_DRAFT_SIZE];
    uint8_t sheet[KIESELBROT_SHEET_SIZE], before[KIESELBROT_SHEET_SIZE];
    kieselbrot_complete_answer proposed;
    kieselbrot_check_answer checked;

    memcpy(correction, draft, sizeof correction);
    expect(send_message(correction, &no_inn).number == KIESELBROT_OK &&
               send_message(correction, &no_kpp).number == KIESELBROT_OK,
           "a payer without INN and KPP");
    proposed = propose(correction, sheet, date);
    expect(proposed.number == KIESELBROT_OK && proposed.count == 97, "the order of this date");
    expect(memcmp(status(sheet), "04", 2) == 0, "its status");
    proposed = propose(correction, sheet, back);
    expect(proposed.number == KIESELBROT_OK && proposed.count == 49, "the order dated back");
    expect(memcmp(status(sheet), "02", 2) == 0, "its status of the year before");
    /* rule 23 fails for 01; 03, which 108 refuses, is tried */
    expect_quick(correction, date, 1);
    expect_quick(correction, back, 1);
    expect_quick(correction, KIESELBROT_ORDER_DATE_MIN - 1, 0);

    expect(kieselbrot_check(sheet, sizeof sheet, back, given).class_ == 'A', "02 at its date");
    checked = kieselbrot_check(sheet, sizeof sheet, date, given);
    expect(checked.number == KIESELBROT_BROKEN && checked.field == 101 && checked.rule == 10,
           "02 past its last date");
    expect(kieselbrot_check(sheet, sizeof sheet, date, later).class_ == 'A',
           "02 with a later last date");

    /* no day of the calendar, in the date and in the record; then a day too early */
    memcpy(before, sheet, sizeof before);
    expect(kieselbrot_check(sheet, sizeof sheet, 20231131, given).number == KIESELBROT_UNDATED &&
               kieselbrot_check(sheet, sizeof sheet, back, no_date).number == KIESELBROT_UNDATED,
           "dates that are refused");
    proposed = kieselbrot_complete(correction, sizeof correction, sheet, sizeof sheet,
                                   KIESELBROT_ORDER_DATE_MIN - 1, given);
    printf("dated %" PRIu32 ": number %d\n", KIESELBROT_ORDER_DATE_MIN - 1, proposed.number);
    expect(proposed.number == KIESELBROT_UNDATED && proposed.count == 0, "an order too early");
    expect(memcmp(sheet, before, sizeof sheet) == 0, "the sheet after a refusal");
}

/* What the bank asks. */
static void ask_charges(void)
{
    for (size_t i = 0; i < sizeof tariffs / sizeof tariffs[0]; i++) {
        const struct tariff *asked = &tariffs[i];
        const kieselbrot_charge_answer charged =
            kieselbrot_charge(asked->amount, asked->rate, asked->least, asked->greatest);
        printf("charge for %" PRIu64 ": number %d, %" PRIu64 "\n", asked->amount, charged.number,
               charged.kopecks);
        expect(charged.number == asked->number && charged.kopecks == asked->kopecks, "a charge");
    }
}

/* What a client owes who joins or leaves within the year. */
static void ask_parts(void)
{
    for (size_t i = 0; i < sizeof year_parts / sizeof year_parts[0]; i++) {
        const struct year_part *asked = &year_parts[i];
        const kieselbrot_part_answer part =
            kieselbrot_part(asked->amount, asked->days, asked->year);
        printf("part of %" PRIu64 " for %" PRIu32 " of %" PRIu32 " days: number %d, %" PRIu64
               ", remainder %" PRIu32 "\n",
               asked->amount, asked->days, asked->year, part.number, part.kopecks, part.remainder);
        expect(part.number == asked->number && part.kopecks == asked->kopecks &&
                   part.remainder == asked->remainder,
               "a part");
    }
}

/* What is owed in each month, in each of two periods, and what is refused. */
static void ask_shares(void)
{
    const uint32_t two[] = {306, 59}, short_of[] = {306, 58}, nothing[] = {365, 0};
    uint64_t shares[KIESELBROT_SHARE_PLACES];
    uint64_t before[KIESELBROT_SHARE_PLACES];
    uint64_t sum = 0;

    memset(shares, 0xEE, sizeof shares);
    expect(kieselbrot_shares(1000, 365, months, 12, shares) == KIESELBROT_OK, "shares of months");
    expect(memcmp(shares, by_months, sizeof shares) == 0, "the shares of the months");
    for (size_t i = 0; i < KIESELBROT_SHARE_PLACES; i++) {
        printf("month %d: %" PRIu64 "\n", (int)i + 1, shares[i]);
        sum += shares[i];
    }
    expect(sum == 1000, "the sum of the shares");

    /* whatever refuses it, the places stay */
    memcpy(before, shares, sizeof before);
    expect(kieselbrot_shares(1000, 366, months, 12, shares) == KIESELBROT_YEAR_PART &&
               kieselbrot_shares(1000, 364, months, 12, shares) == KIESELBROT_YEAR_PART &&
               kieselbrot_shares(0, 365, months, 12, shares) == KIESELBROT_YEAR_PART &&
               kieselbrot_shares(1000, 365, months, 0, shares) == KIESELBROT_YEAR_PART &&
               kieselbrot_shares(1000, 365, short_of, 2, shares) == KIESELBROT_YEAR_PART &&
               kieselbrot_shares(1000, 365, nothing, 2, shares) == KIESELBROT_YEAR_PART,
           "shares that are refused");
    expect(memcmp(shares, before, sizeof shares) == 0, "the places after a refusal");

    expect(kieselbrot_shares(1000, 365, two, 2, shares) == KIESELBROT_OK, "two shares");
    expect(shares[0] == 838 && shares[1] == 162, "what the two are");
    for (size_t i = 2; i < KIESELBROT_SHARE_PLACES; i++)
        expect(shares[i] == 0, "a place past the last period");
}

/* Writes a line of a register. */
static void put_line(uint8_t *line, const char *inn, uint64_t kopecks)
{
    memcpy(line, inn, 12);
    for (int i = 0; i < 8; i++)
        line[12 + i] = (uint8_t)(kopecks >> (56 - 8 * i));
}

/* Three lines of two persons, an order that is a kopeck more, and what is refused. */
static void ask_pool(void)
{
    static const char a[] = "781023456779", b[] = "123456789047", wrong[] = "781023456789";
    static uint8_t output[KIESELBROT_POOL_SIZE], before[KIESELBROT_POOL_SIZE];
    uint8_t lines[3 * KIESELBROT_LINE_SIZE], pooled[2 * KIESELBROT_LINE_SIZE];
    kieselbrot_pool_answer pool;

    put_line(lines, a, 5);
    put_line(lines + KIESELBROT_LINE_SIZE, b, 7);
    put_line(lines + 2 * KIESELBROT_LINE_SIZE, a, 1);
    put_line(pooled, a, 6);
    put_line(pooled + KIESELBROT_LINE_SIZE, b, 7);
    memset(output, 0xEE, sizeof output);
    memcpy(before, output, sizeof before);

    pool = kieselbrot_pool(lines, sizeof lines, 14, output, sizeof output);
    printf("register of 13, order of 14: number %d, difference %" PRId64 "\n", pool.number,
           pool.difference);
    expect(pool.number == KIESELBROT_DISCREPANCY && pool.difference == -1 && pool.lines == 0,
           "an order that differs");
    expect(kieselbrot_pool(lines, sizeof lines, 0, output, sizeof output).number ==
                   KIESELBROT_REGISTER &&
               kieselbrot_pool(lines, sizeof lines - 1, 13, output, sizeof output).number ==
                   KIESELBROT_REGISTER &&
               kieselbrot_pool(lines, 0, 13, output, sizeof output).number ==
                   KIESELBROT_REGISTER &&
               kieselbrot_pool(lines, sizeof lines, 13, output, sizeof output - 1).number ==
                   KIESELBROT_OUTPUT,
           "registers that are refused");
    expect(memcmp(output, before, sizeof output) == 0, "the output after a refusal");

    pool = kieselbrot_pool(lines, sizeof lines, 13, output, sizeof output);
    printf("register of 13, order of 13: number %d, %d pooled lines\n", pool.number,
           (int)pool.lines);
    expect(pool.number == KIESELBROT_OK && pool.lines == 2 && pool.difference == 0,
           "pooled lines");
    expect(memcmp(output, pooled, sizeof pooled) == 0, "what the pooled lines are");
    expect(memcmp(output + sizeof pooled, before + sizeof pooled,
                  sizeof output - sizeof pooled) == 0,
           "the output past the pooled lines");

    put_line(lines + KIESELBROT_LINE_SIZE, wrong, 7);
    expect(kieselbrot_pool(lines, sizeof lines, 13, output, sizeof output).number ==
               KIESELBROT_REGISTER,
           "a wrong check digit");
}

/* Three payments of which the balance covers two, and what is refused. */
static void ask_leave(void)
{
    const uint8_t priorities[] = {3, 1, 1}, wrong[] = {3, 1, 6};
    const uint32_t arrivals[] = {7, 9, 2}, equal[] = {7, 9, 7};
    const uint64_t amounts[] = {5, 5, 5};
    uint32_t places[KIESELBROT_PAYMENT_PLACES], before[KIESELBROT_PAYMENT_PLACES];
    kieselbrot_leave_answer leave;

    memset(places, 0xEE, sizeof places);
    memcpy(before, places, sizeof before);
    expect(kieselbrot_leave(10, wrong, 3, arrivals, 3, amounts, 3, places).number ==
                   KIESELBROT_QUEUE &&
               kieselbrot_leave(10, priorities, 3, arrivals, 3, amounts, 2, places).number ==
                   KIESELBROT_QUEUE &&
               kieselbrot_leave(KIESELBROT_BALANCE_MAX + 1, priorities, 3, arrivals, 3, amounts, 3,
                                places)
                       .number == KIESELBROT_QUEUE &&
               kieselbrot_leave(10, priorities, 3, equal, 3, amounts, 3, places).number ==
                   KIESELBROT_EQUAL_ARRIVALS,
           "payments that are refused");
    expect(memcmp(places, before, sizeof places) == 0, "the places after a refusal");

    leave = kieselbrot_leave(10, priorities, 3, arrivals, 3, amounts, 3, places);
    printf("payments %" PRIu32 " %" PRIu32 " %" PRIu32 " from 10: number %d, %d paid, sum %" PRIu64
           ", left %" PRIu64 "\n",
           places[0], places[1], places[2], leave.number, (int)leave.paid, leave.sum, leave.left);
    expect(leave.number == KIESELBROT_OK && leave.paid == 2 && leave.sum == 10 && leave.left == 0,
           "the payments that leave");
    expect(places[0] == 2 && places[1] == 9 && places[2] == 7, "the order of the payments");
    for (size_t i = 3; i < KIESELBROT_PAYMENT_PLACES; i++)
        expect(places[i] == 0, "a place past the last payment");
}

/* An entry of a field's list at a date is this text, or there is none. */
static void expect_entry(uint8_t field, size_t place, uint32_t on, const char *text)
{
    const kieselbrot_entry_answer entry = kieselbrot_entry(field, place, on, given);
    const size_t length = strlen(text);

    expect(entry.number == KIESELBROT_OK && entry.length == length, "an entry's length");
    expect(entry.first == (length < 1 ? 0 : (uint8_t)text[0]) &&
               entry.second == (length < 2 ? 0 : (uint8_t)text[1]),
           "an entry's bytes");
}

/* What completion may put into blank fields. */
static void ask_entries(void)
{
    size_t statuses = 0;
    kieselbrot_entry_answer refused;

    while (kieselbrot_entry(101, statuses, UINT32_C(20240101), given).length != 0)
        statuses++;
    expect(statuses == 22, "the statuses of 1 January 2024");
    expect_entry(101, 0, UINT32_C(20240101), "01");
    expect_entry(101, 1, UINT32_C(20240101), "03");
    expect_entry(101, 21, UINT32_C(20240101), "33");
    expect_entry(101, 1, UINT32_C(20231231), "02");
    expect_entry(101, 21, UINT32_C(20231231), "32");
    expect_entry(101, SIZE_MAX, UINT32_C(20231231), "");
    expect_entry(106, 2, date, "\xD3\xC2");
    expect_entry(106, 11, date, "\xCA\xDD");
    expect_entry(106, 12, date, "");
    expect_entry(108, 1, date, "00");
    expect_entry(22, 0, date, "0");
    expect_entry(22, 1, date, "");
    expect_entry(61, 0, date, "");

    refused = kieselbrot_entry(16, 0, date, given);
    expect(refused.number == KIESELBROT_UNKNOWN_FIELD && refused.length == 0 &&
               refused.first == 0 && refused.second == 0,
           "a field that is not listed");
    expect(kieselbrot_entry(16, 0, 0, given).number == KIESELBROT_UNDATED, "no date");
}

/* Null pointers with length 0, in every place that takes a length. */
static void lend_nothing(void)
{
    uint8_t draft[KIESELBROT_DRAFT_SIZE], sheet[KIESELBROT_SHEET_SIZE];
    uint8_t buffer[KIESELBROT_MESSAGE_MAX], output[KIESELBROT_POOL_SIZE];
    uint64_t shares[KIESELBROT_SHARE_PLACES];
    uint32_t places[KIESELBROT_PAYMENT_PLACES];
    const uint8_t priority = 1;
    const uint32_t arrival = 1;
    const uint64_t amount = 1;

    expect(kieselbrot_fresh(draft, sizeof draft) == KIESELBROT_OK, "a fresh draft");
    expect(kieselbrot_copy(draft, sizeof draft, sheet, sizeof sheet) == KIESELBROT_OK, "its sheet");
    expect(kieselbrot_check(NULL, 0, date, given).number == KIESELBROT_MALFORMED, "no sheet");
    expect(kieselbrot_read(NULL, 0).number == KIESELBROT_LENGTH, "no message");
    expect(kieselbrot_write(1, KIESELBROT_ADVISER, 14, 1, NULL, 0, buffer, sizeof buffer).length ==
               KIESELBROT_MESSAGE_HEAD_SIZE_1,
           "no text: a blank");
    expect(kieselbrot_write(1, KIESELBROT_ADVISER, 14, 1, NULL, 0, NULL, 0).number ==
               KIESELBROT_OUTPUT,
           "no buffer for a message");
    expect(kieselbrot_fresh(NULL, 0) == KIESELBROT_MALFORMED, "no draft to make fresh");
    expect(kieselbrot_post(draft, sizeof draft, NULL, 0).number == KIESELBROT_LENGTH,
           "no message to post");
    expect(kieselbrot_post(NULL, 0, NULL, 0).number == KIESELBROT_MALFORMED, "no draft to post to");
    expect(kieselbrot_copy(draft, sizeof draft, NULL, 0) == KIESELBROT_OUTPUT, "no sheet to copy to");
    expect(kieselbrot_copy(NULL, 0, sheet, sizeof sheet) == KIESELBROT_MALFORMED,
           "no draft to copy");
    expect(kieselbrot_pretest(NULL, 0).number == KIESELBROT_MALFORMED, "no draft to test");
    expect(kieselbrot_complete(draft, sizeof draft, NULL, 0, date, given).number ==
               KIESELBROT_OUTPUT,
           "no sheet to complete");
    expect(kieselbrot_complete(NULL, 0, NULL, 0, date, given).number == KIESELBROT_MALFORMED,
           "no draft to complete");
    expect(kieselbrot_take_up(draft, sizeof draft, NULL, 0, 0).number == KIESELBROT_OUTPUT,
           "no sheet to take up from");
    expect(kieselbrot_take_up(NULL, 0, sheet, sizeof sheet, 0).number == KIESELBROT_MALFORMED,
           "no draft to take up");
    expect(kieselbrot_write_lines(NULL, 0, date, given, NULL, 0).number == KIESELBROT_MALFORMED,
           "lines of no sheet");
    expect(kieselbrot_write_lines(sheet, sizeof sheet, date, given, NULL, 0).number ==
               KIESELBROT_BROKEN,
           "no buffer for lines");
    expect(kieselbrot_read_lines(NULL, 0, sheet, sizeof sheet) == KIESELBROT_NO_LINES, "no block");
    expect(kieselbrot_read_lines(NULL, 0, NULL, 0) == KIESELBROT_OUTPUT, "no sheet for a block");
    expect(kieselbrot_shares(1, 365, NULL, 0, shares) == KIESELBROT_YEAR_PART, "no periods");
    expect(kieselbrot_pool(NULL, 0, 1, output, sizeof output).number == KIESELBROT_REGISTER,
           "no register");
    expect(kieselbrot_pool(NULL, 0, 1, NULL, 0).number == KIESELBROT_OUTPUT, "no output");
    expect(kieselbrot_leave(7, NULL, 0, NULL, 0, NULL, 0, places).left == 7, "no payments");
    expect(kieselbrot_leave(7, &priority, 1, NULL, 0, NULL, 0, places).number == KIESELBROT_QUEUE,
           "a priority alone");
    expect(kieselbrot_leave(7, NULL, 0, &arrival, 1, &amount, 1, places).number ==
               KIESELBROT_QUEUE,
           "no priority");
    expect(kieselbrot_broken_rules(NULL, 0, date, given).number == KIESELBROT_MALFORMED,
           "the rules of no sheet");
    uint64_t origins[KIESELBROT_FIELDS];
    memset(origins, 0xEE, sizeof origins);
    kieselbrot_origins(NULL, 0, origins);
    for (size_t slot = 0; slot < KIESELBROT_FIELDS; slot++) {
        expect(origins[slot] == 0, "the origins in no input");
    }
}

/* All rules that the completed sheet breaks with another status, and none as it is. */
static void ask_broken_rules(const uint8_t *sheet)
{
    uint8_t other[KIESELBROT_SHEET_SIZE];

    memcpy(other, sheet, sizeof other);
    kieselbrot_broken_rules_answer broken =
        kieselbrot_broken_rules(other, sizeof other, date, given);
    expect(broken.number == KIESELBROT_OK && broken.rules == 0, "no broken rule");
    memcpy(other + 6 * KIESELBROT_SHEET_SLOT_SIZE + 1, "31", 2);
    broken = kieselbrot_broken_rules(other, sizeof other, date, given);
    printf("status 31: rules 0x%" PRIx64 "\n", broken.rules);
    expect(broken.number == KIESELBROT_OK &&
               broken.rules == (UINT64_C(1) << 20 | UINT64_C(1) << 21),
           "rules 20 and 21");
    broken = kieselbrot_broken_rules(other, sizeof other - 1, 0, given);
    expect(broken.number == KIESELBROT_MALFORMED && broken.rules == 0, "1 before 12");
    broken = kieselbrot_broken_rules(other, sizeof other, 0, given);
    expect(broken.number == KIESELBROT_UNDATED && broken.rules == 0, "no date");
}

/* Which of the order's messages, end to end, each slot holds. */
static void ask_origins(void)
{
    uint8_t input[KIESELBROT_MESSAGE_MAX * sizeof order / sizeof order[0]];
    uint64_t places[KIESELBROT_FIELDS], expected[KIESELBROT_FIELDS] = {0};
    size_t length = 0;

    for (size_t i = 0; i < sizeof order / sizeof order[0]; i++) {
        length += kieselbrot_write(1, KIESELBROT_ADVISER, order[i].field, order[i].revision,
                                   (const uint8_t *)order[i].text, strlen(order[i].text),
                                   input + length, sizeof input - length)
                      .length;
        for (size_t slot = 0; slot < KIESELBROT_FIELDS; slot++) {
            if (fields[slot] == order[i].field && order[i].standing == 'n') {
                expected[slot] = i + 1;
            }
        }
    }
    memset(places, 0xEE, sizeof places);
    kieselbrot_origins(input, length, places);
    expect(memcmp(places, expected, sizeof places) == 0, "the origins");
    /* Field 104 has slot 9; its sixth message stands over the seventh, which is older. */
    printf("field 104 is from message %" PRIu64 "\n", places[9]);
    expect(places[9] == 6, "the origin of 104");
}

/* The library's version, which is the header's. */
static void ask_version(void)
{
    const kieselbrot_version_answer version = kieselbrot_version();
    printf("version %" PRIu32 ".%" PRIu32 ".%" PRIu32 "\n", version.major, version.minor,
           version.patch);
    expect(version.major == KIESELBROT_VERSION_MAJOR && version.minor == KIESELBROT_VERSION_MINOR &&
               version.patch == KIESELBROT_VERSION_PATCH,
           "the version");
}

int main(void)
{
    uint8_t draft[KIESELBROT_DRAFT_SIZE];
    uint8_t sheet[KIESELBROT_SHEET_SIZE];

    ask_version();
    expect(kieselbrot_fresh(draft, sizeof draft) == KIESELBROT_OK, "a fresh draft");
    for (size_t i = 0; i < sizeof order / sizeof order[0]; i++) {
        const kieselbrot_post_answer posted = send_message(draft, &order[i]);
        printf("field %d, revision %lu: %c\n", order[i].field, (unsigned long)order[i].revision,
               posted.standing);
        expect(posted.number == KIESELBROT_OK && posted.standing == order[i].standing, "posting");
    }
    refuse(draft);
    give_up(draft);

    const kieselbrot_pretest_answer tested = kieselbrot_pretest(draft, sizeof draft);
    expect(tested.number == KIESELBROT_OK && tested.field == 0 && tested.rule == 0,
           "nothing hopeless");

    const kieselbrot_complete_answer completed =
        kieselbrot_complete(draft, sizeof draft, sheet, sizeof sheet, date, given);
    printf("number %d, count %lu, filled %d\n", completed.number, (unsigned long)completed.count,
           completed.ones);
    expect(completed.number == KIESELBROT_OK && completed.count == 1, "completing");
    expect(completed.ones == 7 && completed.set == 0x7C48, "the filled slots");
    expect_quick(draft, date, 0);
    print_sheet(sheet);

    const kieselbrot_check_answer checked = kieselbrot_check(sheet, sizeof sheet, date, given);
    printf("class %c\n", checked.class_);
    expect(checked.number == KIESELBROT_OK && checked.class_ == 'A', "the completed sheet");
    ask_broken_rules(sheet);
    ask_origins();
    write_as_client(draft);
    date_back(draft);
    take_up(draft);
    ask_entries();
    write_lines(sheet);
    ask_charges();
    ask_parts();
    ask_shares();
    ask_pool();
    ask_leave();
    lend_nothing();

    return failures != 0;
}
