// Formats standard input at 60 columns.
//
//     c++ -std=c++20 -o notes notes.cc $(pkg-config --cflags --libs rudignals)
#include <rudignals.h>

#include <cstdint>
#include <iostream>
#include <iterator>
#include <span>
#include <stdexcept>
#include <string>
#include <vector>

namespace rudignals {

using Bytes = std::span<const std::uint8_t>;

struct Refused : std::runtime_error {
    std::uint32_t code, number;
    explicit Refused(std::uint64_t answer)
        : std::runtime_error(rudignals_code_words(rudignals_code_of(answer))), code(rudignals_code_of(answer)), number(rudignals_number_of(answer)) {}
};

inline std::uint32_t done(std::uint64_t answer) {
    if (rudignals_code_of(answer) != RUDIGNALS_DONE)
        throw Refused(answer);
    return rudignals_number_of(answer);
}

inline std::vector<std::uint8_t> format(Bytes options, Bytes notes) {
    std::vector<std::uint8_t> digest(done(rudignals_measure(options.data(), options.size(), notes.data(), notes.size())));
    done(rudignals_write(options.data(), options.size(), notes.data(), notes.size(), digest.data(), digest.size()));
    return digest;
}

} // namespace rudignals

int main() {
    std::uint8_t options[RUDIGNALS_MOST_BLOCK];
    const std::size_t length = rudignals_put_number(options, 0, RUDIGNALS_TAG_WIDTH, 60);
    const std::vector<std::uint8_t> notes(std::istreambuf_iterator<char>(std::cin), {});
    try {
        const auto digest = rudignals::format({options, length}, notes);
        std::cout.write(reinterpret_cast<const char *>(digest.data()), static_cast<std::streamsize>(digest.size())).flush();
    } catch (const rudignals::Refused &refused) {
        std::cerr << "refused: " << refused.what() << " (N " << refused.number << ")\n";
        return 1;
    }
    return std::cout ? 0 : 1;
}
