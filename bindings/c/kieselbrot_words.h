/** @file
 * Fields, rules, refusals and parties in words, for people: English, in UTF-8. The library
 * decides; these texts say it. They are not proved.
 *
 * Made by tools/words from bindings/words.txt: change the texts there.
 *
 * A text that is returned is constant and never freed; NULL says that there is none. All
 * functions may be called from several threads at once.
 */
#ifndef KIESELBROT_WORDS_H
#define KIESELBROT_WORDS_H

#include "kieselbrot.h"

#ifdef __cplusplus
extern "C" {
#endif

/** The number of the field in a slot, from 0; 0 if there is no such slot. */
static inline uint8_t kieselbrot_slot_field(size_t slot)
{
    static const uint8_t fields[] = {14, 15, 17, 22, 60, 61, 101, 102, 103, 104, 105, 106, 107, 108, 109};
    return slot < sizeof fields ? fields[slot] : 0;
}

/** The slot of a field, from 0; KIESELBROT_FIELDS if the field is not listed. */
static inline size_t kieselbrot_field_slot(uint8_t field)
{
    size_t slot = 0;
    while (slot < KIESELBROT_FIELDS && kieselbrot_slot_field(slot) != field)
        slot++;
    return slot;
}

/** The name of a field. */
static inline const char *kieselbrot_field_name(uint8_t field)
{
    switch (field) {
    case 14: return "BIK";
    case 15: return "bank account";
    case 17: return "recipient account";
    case 22: return "code";
    case 60: return "payer's INN";
    case 61: return "recipient's INN";
    case 101: return "status";
    case 102: return "payer's KPP";
    case 103: return "recipient's KPP";
    case 104: return "KBK";
    case 105: return "OKTMO";
    case 106: return "basis";
    case 107: return "customs office";
    case 108: return "document";
    case 109: return "date";
    default: return NULL;
    }
}

/** The name of a party. */
static inline const char *kieselbrot_party_name(uint8_t party)
{
    switch (party) {
    case 1: return "client";
    case 2: return "adviser";
    default: return NULL;
    }
}

/** What a refusal's number says: a sentence without its full stop. */
static inline const char *kieselbrot_refusal_text(uint8_t number)
{
    switch (number) {
    case 1: return "the draft or the sheet is malformed: it can't be read as an order";
    case 2: return "the message has not the length that it tells, or none that its version allows; a text has at most 25 characters";
    case 3: return "the message's version is neither 1 nor 2";
    case 4: return "the field is not listed";
    case 5: return "the message's revision is 0";
    case 6: return "the draft has the message's revision of the same party with another text";
    case 7: return "the output is too short, or the sheet has not 390 bytes";
    case 8: return "a rule is broken";
    case 9: return "this is an ordinary order, not a budget payment: nothing is proposed";
    case 10: return "no filling keeps the rules";
    case 11: return "these are no MT103 lines, or the order has none, as it is no budget payment to an account at the treasury";
    case 12: return "these dates are refused: the order's date must not be before 20230925, and it and the record's three must be dates YYYYMMDD of the years 1900 to 2099";
    case 13: return "the message's party is neither the client nor the adviser, or it is the client in version 1, which is the adviser's alone";
    case 14: return "the amount, the rate or a limit of the charge is out of range, or the least is above the greatest";
    case 15: return "the amount is out of range, the year has neither 365 nor 366 days, or the days do not fit it";
    case 16: return "the register has not 1 to 500 whole lines, an INN in it is none, or an amount is out of range";
    case 17: return "the register's total is not the order's amount";
    case 18: return "the balance, a priority or an amount is out of range, there are over 64 payments, or lists of different lengths";
    case 19: return "two payments have one arrival number";
    case 20: return "a field of the set can't take up its value";
    default: return NULL;
    }
}

/** What a rule wants, 1 to 35, with {} where rules 10 and 19 name statuses. */
static inline const char *kieselbrot_rule_pattern(uint8_t rule)
{
    switch (rule) {
    case 1: return "the BIK (14) must be nine digits";
    case 2: return "the bank account (15) must be blank or 20 digits";
    case 3: return "the recipient account (17) must be 20 digits";
    case 4: return "the status (101) of an ordinary payment must be blank";
    case 5: return "digits 6 to 8 of a recipient account (17) at the treasury must be 643";
    case 6: return "none of 22, 60, 61 and 101 to 109 may be blank";
    case 7: return "the code (22) must be \"0\", or a UIN (20 or 25 digits, not all zero), or, if the recipient account (17) begins 03212, four digits, not all zero";
    case 8: return "the payer's INN (60) must be \"0\", or a foreign code (5 digits, not all zero), or an INN (10 or 12 digits that do not begin 00, with right check digits)";
    case 9: return "the recipient's INN (61) must be an INN of 10 digits that do not begin 00, with a right check digit";
    case 10: return "the status (101) must be one of {}";
    case 11: return "the payer's KPP (102) must be \"0\", or a KPP (nine digits that do not begin 00; the fifth and the sixth may be letters A to Z)";
    case 12: return "the recipient's KPP (103) must be a KPP (nine digits that do not begin 00; the fifth and the sixth may be letters A to Z)";
    case 13: return "the KBK (104) must be \"0\", or 20 digits, not all zero";
    case 14: return "the OKTMO (105) must be \"0\", or 8 digits, not all zero";
    case 15: return "the basis (106) must be \"0\", \"00\", or one of УВ, ИЛ, ПБ, ТГ, ТБ, ТД, ПВ, ИН, ПК, КЭ";
    case 16: return "the customs office (107) must be \"0\", or 8 digits";
    case 17: return "the document (108) must have 1 to 15 characters: Russian letters without Ё, Latin letters, digits and ASCII signs, no space and no hyphen; if the third is \";\", it must be a person identifier (two digits of 01 to 14, 22, 24, 25, 26, 28, 29, 30, then \";\" and at least one character)";
    case 18: return "the date (109) must be \"0\", \"00\", or a date DD.MM.YYYY of the years 1900 to 2099";
    case 19: return "with status {}, a recipient account (17) at the treasury must begin 03100";
    case 20: return "with status 31, a recipient account (17) at the treasury must begin 03212";
    case 21: return "with status 31 or 33, the code (22) must be a UIN (20 or 25 digits, not all zero)";
    case 22: return "if the recipient account (17) begins 03212, the code (22) must not be \"0\"";
    case 23: return "the payer's INN (60) must be an INN with status 01 or 32, one of 10 digits with 06 or 07, one of 12 digits with 17, and \"0\" with 30";
    case 24: return "with status 13, the payer's INN (60) must be an INN, or the code (22) a UIN";
    case 25: return "with status 03, 19, 20 or 24, the document (108) must be a person identifier, or \"0\" if the payer's INN (60) is an INN of 12 digits or the code (22) is a UIN";
    case 26: return "with status 31 or 33, the document (108) must be \"0\"";
    case 27: return "the payer's KPP (102) must be \"0\" if the payer's INN (60) has 12 digits; it must not be \"0\" if that has 5 digits, or 10 with another status than 01";
    case 28: return "if the recipient account (17) begins 03100, the KBK (104) must not be \"0\"";
    case 29: return "with a status other than 06, 07, 16, 17, 28, 30, 32 (customs), the basis (106) must be \"0\"";
    case 30: return "the customs office (107) must be 8 digits with status 06, 07, 16, 17, 28, 30 or 32 (customs), and \"0\" with any other";
    case 31: return "with a status other than 06, 07, 16, 17, 28, 30, 32 (customs), the date (109) must be \"0\"";
    case 32: return "if the basis (106) is a pair of letters, the document (108) must not be \"0\"";
    case 33: return "if the basis (106) is \"00\", the document (108) must be \"00\"";
    case 34: return "the date (109) must be \"00\" if the basis (106) is \"00\", and only then";
    case 35: return "if the document (108) begins \"14;\", a pension number (SNILS) must follow and nothing else: 11 digits, the last two of them right check digits if the first nine are above 001001998";
    default: return NULL;
    }
}

/** A size that is enough for the text of any rule, at any date. */
#define KIESELBROT_RULE_TEXT_SIZE 512

/* A text that is put together in a buffer, always ended by a zero byte. */
typedef struct {
    char *buffer;
    size_t size;
    size_t length;
} kieselbrot_words_made;

static inline void kieselbrot_words_put(kieselbrot_words_made *made, const char *text)
{
    for (; *text != 0; text++, made->length++) {
        if (made->length + 1 < made->size) {
            made->buffer[made->length] = *text;
            made->buffer[made->length + 1] = 0;
        }
    }
}

/* Whether the date allows a status: 1 or 0; all are, if the dates are refused. */
static inline int kieselbrot_words_allowed(const char *status, uint32_t date,
                                           kieselbrot_record record)
{
    for (size_t place = 0;; place++) {
        const kieselbrot_entry_answer entry = kieselbrot_entry(101, place, date, record);
        if (entry.number != KIESELBROT_OK)
            return 1;
        if (entry.length == 0)
            return 0;
        if (entry.first == (uint8_t)status[0] && entry.second == (uint8_t)status[1])
            return 1;
    }
}

/* The statuses that rule 10 lists at the date. */
static inline void kieselbrot_words_statuses(kieselbrot_words_made *made, uint32_t date,
                                             kieselbrot_record record)
{
    for (size_t place = 0;; place++) {
        const kieselbrot_entry_answer entry = kieselbrot_entry(101, place, date, record);
        const char status[] = {(char)entry.first, (char)entry.second, 0};
        if (entry.number != KIESELBROT_OK)
            kieselbrot_words_put(made, "those that the date allows");
        if (entry.number != KIESELBROT_OK || entry.length == 0)
            return;
        kieselbrot_words_put(made, place == 0 ? "" : ", ");
        kieselbrot_words_put(made, status);
    }
}

/* The statuses of rule 19 that the date allows. */
static inline void kieselbrot_words_treasury(kieselbrot_words_made *made, uint32_t date,
                                             kieselbrot_record record)
{
    static const char statuses[][3] = {"01", "02", "04", "06", "07", "13", "16", "17", "28", "30", "32"};
    const size_t count = sizeof statuses / sizeof statuses[0];
    const char *last = NULL;
    size_t put = 0;
    for (size_t place = 0; place < count; place++) {
        if (!kieselbrot_words_allowed(statuses[place], date, record))
            continue;
        if (last != NULL) {
            kieselbrot_words_put(made, put++ == 0 ? "" : ", ");
            kieselbrot_words_put(made, last);
        }
        last = statuses[place];
    }
    kieselbrot_words_put(made, put == 0 ? "" : " or ");
    kieselbrot_words_put(made, last);
}

/** Writes what a rule wants of an order with this date: a sentence without its full stop.
 * Rules 10 and 19 name the statuses that the date allows.
 *
 * @param rule the rule, 1 to 35
 * @param date the order's date, YYYYMMDD
 * @param record the dates of statuses 32, 33 and 02
 * @param buffer where the text goes, ended by a zero byte and cut off where it does not fit
 * @param buffer_len its size; KIESELBROT_RULE_TEXT_SIZE is enough for any
 * @return how long the whole text is, without the zero byte; 0 if there is no such rule */
static inline size_t kieselbrot_rule_text(uint8_t rule, uint32_t date, kieselbrot_record record,
                                          char *buffer, size_t buffer_len)
{
    kieselbrot_words_made made = {buffer, buffer_len, 0};
    const char *text = kieselbrot_rule_pattern(rule);
    if (buffer_len > 0)
        buffer[0] = 0;
    for (; text != NULL && *text != 0; text++) {
        const char letter[] = {*text, 0};
        if (*text != '{') {
            kieselbrot_words_put(&made, letter);
            continue;
        }
        if (rule == 19)
            kieselbrot_words_treasury(&made, date, record);
        else
            kieselbrot_words_statuses(&made, date, record);
        text++;
    }
    return made.length;
}

#ifdef __cplusplus
}
#endif

#endif
