// Counts the values of a JSON file, names not counted, by simdjson's stream of a document (On-Demand), round after
// round: `nest FILE BLOCKS ROUNDS`. Each string, name, number and literal is read. BLOCKS says nothing here.
#include <cstdint>
#include <cstdio>
#include <cstdlib>
#include <simdjson.h>

using namespace simdjson;

static uint64_t values_of(ondemand::value value) {
    uint64_t count = 1;
    switch (ondemand::json_type(value.type())) {
    case ondemand::json_type::array:
        for (auto item : value.get_array()) count += values_of(item.value());
        break;
    case ondemand::json_type::object:
        for (auto field : value.get_object()) {
            std::string_view name = field.unescaped_key();
            (void)name;
            count += values_of(field.value());
        }
        break;
    case ondemand::json_type::string: {
        std::string_view text = value.get_string();
        (void)text;
        break;
    }
    case ondemand::json_type::number: {
        double number = value.get_double();
        (void)number;
        break;
    }
    case ondemand::json_type::boolean: {
        bool is = value.get_bool();
        (void)is;
        break;
    }
    case ondemand::json_type::null:
        value.is_null();
        break;
    }
    return count;
}

int main(int count, char **words) {
    if (count != 4) return 2;
    auto bytes = padded_string::load(words[1]);
    if (bytes.error()) return 2;
    uint64_t values = 0;
    ondemand::parser parser;
    try {
        for (long round = 0; round < atol(words[3]); round++) {
            ondemand::document document = parser.iterate(bytes.value_unsafe());
            values = values_of(document.get_value());
        }
    } catch (const simdjson_error &error) {
        puts("no JSON text");
        return 0;
    }
    printf("%llu\n", (unsigned long long)values);
    return 0;
}
