// The samples of this repository, and bad input: ./test EXAMPLES, where EXAMPLES is the folder examples.
#include <cstdlib>
#include <fstream>
#include <iostream>
#include <iterator>
#include <string>
#include <type_traits>
#include <utility>
#include <vector>

#include "witc.hpp"

static_assert(!std::is_copy_constructible_v<witc::bytes> && std::is_nothrow_move_constructible_v<witc::bytes>);

static std::string folder;

static std::string sample(const std::string &name) {
    std::ifstream file(folder + "/" + name, std::ios::binary);
    return {std::istreambuf_iterator<char>(file), {}};
}

static void want(bool holds, std::string_view what) {
    if (holds) return;
    std::cerr << "test: " << what << '\n';
    std::exit(1);
}

template <class Call> static witc::refusal refusal_of(witc::code code, Call call) {
    try {
        static_cast<void>(call());
    } catch (const witc::refusal &r) {
        want(r.code() == code && r.number() == static_cast<std::uint32_t>(code), r.what());
        return r;
    }
    std::cerr << "test: not refused\n";
    std::exit(1);
}

static void moves() {
    witc::bytes text = witc::package_text(sample("packages/clock.wasm"));
    witc::bytes moved = std::move(text);
    want(text.empty() && text.data() == nullptr && text.view().empty(), "a value that was moved from has no bytes");
    want(moved.view() == sample("packages/clock.wit"), "a moved value has the bytes");
    moved = witc::package_text(sample("packages/files.wasm"));
    witc::bytes &same = moved;
    moved = std::move(same);
    want(moved.view() == sample("packages/files.wit"), "a value moved to itself keeps its bytes");
}

// The worlds of a package, compared.
static void compared(std::string_view package) {
    witc::require_compatible(package, "service", "service-next");
    want(witc::compatible(package, "service", "service-next") && !witc::compatible(package, "service", "service-bytes"), "worlds compared");
    const auto required = [&](std::string_view prev, std::string_view next) { return [=] { return witc::require_compatible(package, prev, next), 0; }; };
    const witc::refusal differs = refusal_of(witc::code::differs, required("service", "service-bytes"));
    want(differs.is_no() && differs.subject() == "handle" && !differs.cause() && !differs.clash() && !differs.has_offset(), "a world that differs");
    const witc::refusal nobody = refusal_of(witc::code::no_such_world, required("nobody", "service"));
    want(!nobody.is_no() && nobody.subject() == "nobody", "a world that isn't there");
    refusal_of(witc::code::no_such_world, [&] { return witc::compatible(package, "service", {}); });
    refusal_of(witc::code::not_utf8, required("service", "\xff"));
    refusal_of(witc::code::not_utf8, [&] { return witc::compatible(package, "service", "\xff"); });
}

// Bytes that are refused, and what they are.
static void refused(std::string_view package, std::string_view empty) {
    for (std::string_view bad : {std::string_view(), std::string_view("no package"), empty, package.substr(0, 40)}) {
        const witc::refusal r = refusal_of(witc::code::no_reading, [&] { return witc::package_text(bad); });
        want(r.has_offset() && r.offset() <= bad.size() && r.cause() && static_cast<std::uint32_t>(*r.cause()) == r.detail(), "where bytes are bad");
        want(witc::kinds(bad) == witc::kind_set{false, false, bad == empty}, "what bytes are");
    }
    want(refusal_of(witc::code::no_reading, [&] { return witc::package_text(empty); }).cause() == witc::cause::bad_preamble, "a cause");
    want(witc::kinds(package) == witc::kind_set{true, false, false}, "what a package is");
    refusal_of(witc::code::not_a_module, [&] { return witc::module_text(package); });
    refusal_of(witc::code::not_a_module, [&] { return witc::module_strip({}); });
    refusal_of(witc::code::bad_encoding, [&] { return witc::embed(package, "service", static_cast<witc::encoding>(3)); });
}

// Texts with a bound of their length, and of one less.
static void bounded(std::string_view package, std::string_view module, std::string_view world) {
    const std::string in_package(witc::package_text(package).view()), in_module(witc::module_text(module).view()), in_world(witc::world_text(world).view());
    want(witc::package_text_within(package, in_package.size()).view() == in_package, "the text of a package, with a bound");
    want(witc::module_text_within(module, in_module.size()).view() == in_module, "the text of a module, with a bound");
    want(witc::world_text_within(world, in_world.size()).view() == in_world, "the text of a world, with a bound");
    refusal_of(witc::code::text_too_long, [&] { return witc::package_text_within(package, in_package.size() - 1); });
    refusal_of(witc::code::text_too_long, [&] { return witc::module_text_within(module, in_module.size() - 1); });
    refusal_of(witc::code::text_too_long, [&] { return witc::world_text_within(world, in_world.size() - 1); });
}

// What a module carries.
static void carried(std::string_view package, std::string_view empty) {
    const witc::bytes data = witc::embed(package, "service"), alone = witc::world_package(data), made = witc::attach(empty, package, "service");
    want(witc::embed(alone, "service").view() == data.view(), "a world, taken out and put in again");
    want(witc::same_world(package, "service", alone, "service") && !witc::same_world(package, "service", package, "service-next"), "senses of worlds");
    want(witc::module_section(made, 0).view() == data.view() && witc::module_strip(made).view() == empty, "a section attached");
    refusal_of(witc::code::no_such_section, [&] { return witc::module_section(made, 1); });
    const std::string clock = sample("packages/clock.wasm");
    const witc::bytes both = witc::attach(made, clock, "clock", witc::encoding::utf16);
    want(witc::module_sections(both) == std::vector<std::string>{std::string(data.view()), witc::embed(clock, "clock", witc::encoding::utf16).view()}, "all sections");
    want(witc::module_sections(empty).empty(), "no sections");
    const witc::refusal twice = refusal_of(witc::code::clash, [&] { return witc::attach(made, package, "service"); });
    want(twice.clash() == witc::clash::export_ && twice.subject() == "handle" && !twice.is_no(), "a world attached twice");
    // A section that carries a world and has no data.
    const std::string hollow = std::string(empty) + std::string("\0\x0f\x0e" "component-type", 17);
    const witc::bytes nothing = witc::module_section(hollow, 0);
    want(nothing.empty() && nothing.data() == nullptr && nothing.view().empty(), "a section without data");
    want(witc::package_bytes(witc::module_package(made)).view() == witc::module_package(made).view(), "a package encoded anew");
    want(witc::world_text(data).view().find("world service {") != std::string::npos, "the text of a world");
    want(witc::world_json(data).view().find("\"name\":\"service\"") != std::string::npos, "the listing of a world");
    bounded(package, made, data);
}

// Packages of texts, and texts that are refused.
static void texts() {
    const std::string clock = sample("packages/clock.wit"), files = sample("packages/files.wit");
    want(witc::texts_package({{"clock.wit", clock}}).view() == sample("packages/clock.wasm"), "the package of a text");
    const std::vector<witc::text> both = {{"files.wit", files}, {"", clock}};
    want(witc::package_text(witc::texts_package(both, 1)).view() == files, "the package of a text that uses another");
    const witc::refusal alone = refusal_of(witc::code::bad_text, [&] { return witc::texts_package({both[0]}); });
    want(alone.what() == std::string("files.wit: line 4, column 7: no text has this package"), "the message of a text");
    want(alone.detail() == 0 && alone.has_offset() && alone.offset() == 54 && alone.subject().empty() && !alone.is_no(), "the place of a text");
    const witc::refusal two = refusal_of(witc::code::two_packages, [&] { return witc::texts_package(both); });
    want(two.what() == std::string("files.wit and text 1 begin with two packages") && two.detail() == 1 && !two.has_offset(), "two packages");
    for (std::size_t own : {std::size_t(0), std::size_t(3)}) refusal_of(witc::code::bad_count, [&] { return witc::texts_package(both, own); });
    refusal_of(witc::code::bad_count, [&] { return witc::texts_package({}); });
    const witc::refusal no_text = refusal_of(witc::code::not_utf8, [&] { return witc::texts_package({both[1], {"bad.wit", "\xff"}}); });
    want(no_text.what() == std::string("bad.wit isn't UTF-8") && no_text.detail() == 1, "a text that isn't UTF-8");
    want(refusal_of(witc::code::not_utf8, [&] { return witc::texts_package({{"\xff", clock}}); }).detail() == 0, "a name that isn't UTF-8");
    refusal_of(witc::code::bad_text, [&] { return witc::texts_package({{{}, {}}}); });
}

int main(int count, char **words) {
    if (count != 2) return 2;
    folder = words[1];
    const std::string module = sample("modules/service.wasm"), stripped = sample("modules/service.stripped.wasm"), package = sample("packages/services.wasm");
    const std::string empty("\0asm\1\0\0\0", 8);
    moves();
    want(witc::package_text(package).view() == sample("packages/services.wit"), "the text of a package");
    want(witc::module_text(module).view() == sample("modules/service.wit"), "the text of a module");
    want(witc::module_strip(module).view() == stripped, "a module stripped");
    want(witc::module_strip(stripped).view() == stripped && witc::module_strip(empty).view() == empty, "a module that has nothing to strip");
    want(witc::package_json(package).view().find("\"name\":\"service-next\"") != std::string::npos, "the listing of a package");
    compared(package);
    refused(package, empty);
    carried(package, empty);
    texts();
    std::cout << "c++: passed\n";
}
