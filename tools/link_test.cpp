// This shows that the header and its macros compile in C++ without a warning, and that a call links. `link_test SHEET` ends with status 0 where the
// sheet has types.
#include <cstdint>
#include <cstdio>
#include <type_traits>
#include <vector>
#include "jidwaleb.h"

static_assert(std::is_same<decltype(JIDWALEB_REFUSAL(std::uint64_t())), jidwaleb_refusal>::value, "the refusal is the enum");
static_assert(std::is_same<decltype(JIDWALEB_COUNT(std::uint64_t())), std::uint32_t>::value, "the count is 32 bits");
#if JIDWALEB_VERSION < 100
#error "the version is 0.1.0 or later"
#endif

// A refusal of a later version, which has no name here, is a refusal too.
static bool is_done(std::uint64_t answer) {
    switch (JIDWALEB_REFUSAL(answer)) {
    case JIDWALEB_DONE:
        return true;
    default:
        return false;
    }
}

int main(int count, char **arguments) {
    std::FILE *file = count > 1 ? std::fopen(arguments[1], "rb") : nullptr;
    if (!file) return 1;
    std::vector<std::uint8_t> sheet(1 << 17);
    sheet.resize(std::fread(sheet.data(), 1, sheet.size(), file));
    std::fclose(file);
    std::vector<std::uint32_t> words(JIDWALEB_MAX_WORDS);
    std::vector<double> floats(JIDWALEB_MAX_FLOATS);
    std::vector<std::uint16_t> of(JIDWALEB_MAX_ELEMENTS), table(4 * JIDWALEB_MAX_ELEMENTS);
    std::uint64_t answer = jidwaleb_types(sheet.data(), sheet.size(), words.data(), words.size(), floats.data(), floats.size(), of.data(), of.size(),
                                          table.data(), table.size());
    return is_done(answer) && JIDWALEB_COUNT(answer) > 0 && !is_done(std::uint64_t(25) << 32) ? 0 : 1;
}
