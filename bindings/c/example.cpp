// A small order in C++11: its messages are written and posted, it is completed, and the sheet is printed with the names of its fields; then
// what is wrong with another one is told in words. Null pointers of empty vectors are lent. The program checks its own results and returns 1
// if one is not as expected.
#include <array>
#include <cstdio>
#include <iostream>
#include <stdexcept>
#include <string>
#include <vector>

#include "kieselbrot_words.h"

namespace {

using draft_bytes = std::array<std::uint8_t, KIESELBROT_DRAFT_SIZE>;
using sheet_bytes = std::array<std::uint8_t, KIESELBROT_SHEET_SIZE>;

const kieselbrot_record given = {KIESELBROT_FIRST32, KIESELBROT_FIRST33, KIESELBROT_LAST02};
const std::uint32_t date = 20240115;

int failures = 0;

void expect(bool kept, const char *what)
{
    if (!kept) {
        std::cerr << "not as expected: " << what << '\n';
        failures++;
    }
}

// A refusal as an exception, in words.
void demand(std::uint8_t number)
{
    if (number != KIESELBROT_OK)
        throw std::runtime_error(kieselbrot_refusal_text(number));
}

void give(draft_bytes &draft, std::uint8_t field, std::uint32_t revision, const std::string &text)
{
    std::array<std::uint8_t, KIESELBROT_MESSAGE_MAX> message;
    const auto written =
        kieselbrot_write(2, KIESELBROT_ADVISER, field, revision,
                         reinterpret_cast<const std::uint8_t *>(text.data()), text.size(),
                         message.data(), message.size());
    demand(written.number);
    demand(kieselbrot_post(draft.data(), draft.size(), message.data(), written.length).number);
}

// The text of a slot.
std::string text_in(const sheet_bytes &sheet, std::size_t slot)
{
    const auto *start = sheet.data() + slot * KIESELBROT_SHEET_SLOT_SIZE;
    return std::string(reinterpret_cast<const char *>(start + 1), start[0]);
}

void complete(const draft_bytes &draft)
{
    sheet_bytes sheet;
    const auto completed = kieselbrot_complete(draft.data(), draft.size(), sheet.data(),
                                               sheet.size(), date, given);
    demand(completed.number);
    for (std::size_t slot = 0; slot < KIESELBROT_FIELDS; slot++) {
        const auto field = kieselbrot_slot_field(slot);
        const bool is_proposed = (completed.set >> slot & 1) == 1;
        std::cout << int(field) << ' ' << kieselbrot_field_name(field) << ": "
                  << text_in(sheet, slot) << (is_proposed ? " (proposed)" : "") << '\n';
    }
    expect(completed.count == 1 && completed.ones == 7, "the completion");
    expect(text_in(sheet, kieselbrot_field_slot(101)) == "01", "the status");
    const auto checked = kieselbrot_check(sheet.data(), sheet.size(), date, given);
    expect(checked.number == KIESELBROT_OK && checked.class_ == 'A', "the check");
}

// What stands in the way of an order without a KBK.
void explain(draft_bytes draft)
{
    give(draft, 104, 2, "0");
    const auto named = kieselbrot_pretest(draft.data(), draft.size());
    demand(named.number);
    std::array<char, KIESELBROT_RULE_TEXT_SIZE> wants;
    kieselbrot_rule_text(named.rule, date, given, wants.data(), wants.size());
    std::cout << kieselbrot_field_name(named.field) << ": " << wants.data() << '\n';
    expect(named.field == 104 && named.rule == 28, "the rule that all fillings break");
    try {
        complete(draft);
        expect(false, "a completion");
    } catch (const std::runtime_error &refusal) {
        std::cout << "refused: " << refusal.what() << '\n';
    }
}

// Vectors that hold nothing lend null pointers.
void lend_nothing()
{
    const std::vector<std::uint8_t> nothing;
    expect(kieselbrot_read(nothing.data(), nothing.size()).number == KIESELBROT_LENGTH,
           "reading nothing");
    expect(kieselbrot_check(nothing.data(), nothing.size(), date, given).number ==
               KIESELBROT_MALFORMED,
           "checking nothing");
}

} // namespace

int main()
{
    const auto version = kieselbrot_version();
    std::cout << "version " << version.major << '.' << version.minor << '.' << version.patch << '\n';
    expect(version.major == KIESELBROT_VERSION_MAJOR, "the version");

    draft_bytes draft;
    demand(kieselbrot_fresh(draft.data(), draft.size()));
    give(draft, 14, 1, "004525987");
    give(draft, 15, 1, "40102810845370000004");
    give(draft, 17, 1, "03100643000000014800");
    give(draft, 60, 1, "7701569743");
    give(draft, 61, 1, "6730054024");
    give(draft, 102, 1, "770301001");
    give(draft, 103, 1, "772801001");
    give(draft, 104, 1, "18201061201010000510");
    complete(draft);
    explain(draft);
    lend_nothing();
    return failures == 0 ? 0 : 1;
}
