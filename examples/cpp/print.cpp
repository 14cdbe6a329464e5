// Does what `witc print`, `module`, `strip` and `compat PREV NEW` do, by the library; a refusal goes to standard error. Behind `./install PREFIX`, with PREFIX/lib/pkgconfig in PKG_CONFIG_PATH:
//
//     c++ -std=c++17 examples/cpp/print.cpp $(pkg-config --cflags --libs witc) -o print
//     ./print print < package.wasm
#include <iostream>
#include <iterator>
#include <string>
#include <string_view>
#include <vector>

#include "witc.hpp"

static void answer(const std::vector<std::string_view> &words, std::string_view bytes) {
    if (words[0] == "print") {
        std::cout << witc::package_text(bytes).view();
    } else if (words[0] == "module") {
        std::cout << witc::module_text(bytes).view();
    } else if (words[0] == "strip") {
        std::cout << witc::module_strip(bytes).view();
    } else {
        witc::require_compatible(bytes, words[1], words[2]);
        std::cout << "compatible\n";
    }
}

int main(int count, char **given) {
    std::vector<std::string_view> words(given + 1, given + count);
    bool plain = words.size() == 1 && (words[0] == "print" || words[0] == "module" || words[0] == "strip");
    if (!plain && !(words.size() == 3 && words[0] == "compat")) {
        std::cerr << "usage: print print | module | strip | compat PREV NEW\n";
        return 2;
    }
    std::string bytes(std::istreambuf_iterator<char>(std::cin), {});
    int status = 0;
    try {
        answer(words, bytes);
    } catch (const witc::refusal &r) {
        std::cerr << r.what() << " [code " << r.number() << ", detail " << r.detail() << "]\n";
        status = r.code() == witc::code::no_such_world || r.code() == witc::code::not_utf8 ? WITC_BAD_ARGUMENT : WITC_REFUSED;
    } catch (const std::bad_alloc &) {
        std::cerr << "out of memory\n";
        status = WITC_NO_MEMORY;
    }
    return std::cout.flush() ? status : WITC_REFUSED;
}
