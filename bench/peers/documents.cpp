// Reads one document many times with simdjson, and looks at each number and text in it.
//
//     documents IMPLEMENTATION FILE ROUNDS     IMPLEMENTATION is `fallback`, which needs no special instructions, or `best`
//
// Prints a sum over all that it saw, so that nothing is left out.
#include <simdjson.h>

#include <cstdint>
#include <cstdlib>
#include <iostream>
#include <string>

static uint64_t seen(simdjson::dom::element element) {
    uint64_t sum = 0;
    switch (element.type()) {
    case simdjson::dom::element_type::ARRAY:
        for (auto item : simdjson::dom::array(element)) sum += seen(item);
        return sum;
    case simdjson::dom::element_type::OBJECT:
        for (auto member : simdjson::dom::object(element)) sum += member.key.size() + seen(member.value);
        return sum;
    case simdjson::dom::element_type::STRING:
        return std::string_view(element).size();
    default:
        return uint64_t(int64_t(double(element) * 1000));
    }
}

int main(int argc, char **argv) {
    if (argc != 4) return 2;
    std::string wanted = argv[1];
    if (wanted != "best") {
        for (auto implementation : simdjson::get_available_implementations())
            if (implementation->name() == wanted) simdjson::get_active_implementation() = implementation;
        if (simdjson::get_active_implementation()->name() != wanted) return 3;
    }
    simdjson::padded_string text = simdjson::padded_string::load(argv[2]);
    simdjson::dom::parser parser;
    uint64_t sum = 0;
    for (long round = atol(argv[3]); round > 0; round--) sum += seen(parser.parse(text));
    std::cout << sum << "\n";
    return 0;
}
