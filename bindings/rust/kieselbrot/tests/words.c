/* Prints a line for each text of kieselbrot_words.h; its arguments are dates, four for each: the order's and the record's. */
#include <stdio.h>
#include <stdlib.h>
#include <string.h>

#include "kieselbrot_words.h"

static const char *shown(const char *text)
{
    return text == NULL ? "-" : text;
}

int main(int count, char **given)
{
    for (size_t slot = 0; slot <= KIESELBROT_FIELDS; slot++)
        printf("slot %zu %d\n", slot, kieselbrot_slot_field(slot));
    for (int i = 0; i <= 255; i++) {
        const uint8_t number = (uint8_t)i;
        printf("field %d %zu %s\n", i, kieselbrot_field_slot(number),
               shown(kieselbrot_field_name(number)));
        printf("party %d %s\n", i, shown(kieselbrot_party_name(number)));
        printf("refusal %d %s\n", i, shown(kieselbrot_refusal_text(number)));
    }
    for (int i = 1; i + 3 < count; i += 4) {
        uint32_t dates[4];
        for (int k = 0; k < 4; k++)
            dates[k] = (uint32_t)strtoul(given[i + k], NULL, 10);
        const kieselbrot_record record = {dates[1], dates[2], dates[3]};
        for (uint8_t rule = 0; rule <= 36; rule++) {
            char text[KIESELBROT_RULE_TEXT_SIZE], cut[7] = "??????";
            const size_t length = kieselbrot_rule_text(rule, dates[0], record, text, sizeof text);
            printf("rule %d %s\n", rule, text);
            /* it fits, and what does not is cut off */
            if (length != strlen(text) || length + 1 > sizeof text)
                return 1;
            if (kieselbrot_rule_text(rule, dates[0], record, cut, 5) != length ||
                strncmp(cut, text, 4) != 0 || strlen(cut) != (length < 4 ? length : 4) ||
                cut[5] != '?' || kieselbrot_rule_text(rule, dates[0], record, NULL, 0) != length)
                return 1;
        }
    }
    return 0;
}
