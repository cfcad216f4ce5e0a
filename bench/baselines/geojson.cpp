// Answers a query over a GeoJSON file by simdjson's stream of a document (On-Demand), on one thread, in one pass:
//
//     geojson count|extent|area FILE      decodes what the verb wants, and passes over the rest
//     geojson all FILE                    count, extent and area, and decodes every number of the file
//     geojson in X Y X Y FILE             the offsets of the features whose positions all lie in a box
//     geojson has NAME VALUE FILE         the offsets of the features with this text
//
// It expects a FeatureCollection whose features have the members that RFC 7946 asks for, without a fault and without empty
// coordinates. Neither equal names nor rings are tested.
#include <algorithm>
#include <cstdint>
#include <cstdio>
#include <cstdlib>
#include <emmintrin.h>
#include <simdjson.h>
#include <string>
#include <string_view>

using namespace simdjson;
using ondemand::json_type;

struct Pos {
    int64_t x, y;
};

struct Extent {
    Pos low{INT64_MAX, INT64_MAX};
    Pos high{INT64_MIN, INT64_MIN};

    void widen(Pos p) {
        low = {std::min(low.x, p.x), std::min(low.y, p.y)};
        high = {std::max(high.x, p.x), std::max(high.y, p.y)};
    }

    bool is_empty() const { return low.x > high.x; }

    bool encloses(const Extent &other) const {
        return low.x <= other.low.x && low.y <= other.low.y && other.high.x <= high.x && other.high.y <= high.y;
    }
};

// What is gathered of the features' positions.
struct Gathered {
    Extent extent;
    __int128 area = 0;
};

// A coordinate in units of 10^-7, rounded to the nearest, ties to the even one.
static int64_t units(double coordinate) { return _mm_cvtsd_si64(_mm_set_sd(coordinate * 1e7)); }

static Pos position(ondemand::value value) {
    Pos p{0, 0};
    int at = 0;
    for (auto item : value.get_array()) {
        double number = item.get_double();
        if (at == 0) p.x = units(number);
        if (at == 1) p.y = units(number);
        at++;
    }
    return p;
}

// An array of positions: its shoelace sum.
static __int128 row(ondemand::value value, Gathered &gathered) {
    __int128 sum = 0;
    Pos last{0, 0};
    bool begun = false;
    for (auto item : value.get_array()) {
        Pos p = position(item.value());
        gathered.extent.widen(p);
        if (begun) sum += (__int128)last.x * p.y - (__int128)p.x * last.y;
        last = p;
        begun = true;
    }
    return sum;
}

// A polygon's rings: twice the exterior's area less those of the holes.
static __int128 rings(ondemand::value value, Gathered &gathered) {
    __int128 area = 0;
    bool is_hole = false;
    for (auto ring : value.get_array()) {
        __int128 sum = row(ring.value(), gathered);
        __int128 size = sum < 0 ? -sum : sum;
        area += is_hole ? -size : size;
        is_hole = true;
    }
    return area;
}

static void geometry(ondemand::object shape, Gathered &gathered, bool only_polygons) {
    std::string_view kind = shape["type"];
    if (kind == "GeometryCollection") {
        for (auto one : shape["geometries"].get_array()) geometry(one.get_object(), gathered, only_polygons);
        return;
    }
    bool is_area = kind == "Polygon" || kind == "MultiPolygon";
    if (only_polygons && !is_area) return;
    ondemand::value coordinates = shape["coordinates"];
    if (kind == "Point") {
        gathered.extent.widen(position(coordinates));
    } else if (kind == "MultiPoint" || kind == "LineString") {
        row(coordinates, gathered);
    } else if (kind == "MultiLineString") {
        rings(coordinates, gathered);
    } else if (kind == "Polygon") {
        gathered.area += rings(coordinates, gathered);
    } else {
        for (auto polygon : coordinates.get_array()) gathered.area += rings(polygon.value(), gathered);
    }
}

static void geometry_of(ondemand::object feature, Gathered &gathered, bool only_polygons) {
    ondemand::value value = feature["geometry"];
    if (value.type() == json_type::object) geometry(value.get_object(), gathered, only_polygons);
}

// The sum of a value's numbers, each of which is decoded.
static double numbers(ondemand::value value) {
    double sum = 0;
    switch (json_type(value.type())) {
    case json_type::array:
        for (auto item : value.get_array()) sum += numbers(item.value());
        break;
    case json_type::object:
        for (auto field : value.get_object()) sum += numbers(field.value());
        break;
    case json_type::number:
        sum = value.get_double();
        break;
    default:
        break;
    }
    return sum;
}

static bool has_text(ondemand::object feature, std::string_view name, std::string_view text) {
    ondemand::value properties = feature["properties"];
    if (properties.type() != json_type::object) return false;
    for (auto field : properties.get_object()) {
        std::string_view key = field.unescaped_key();
        ondemand::value value = field.value();
        if (key == name && value.type() == json_type::string && std::string_view(value.get_string()) == text) return true;
    }
    return false;
}

static std::string whole(__int128 value) {
    bool is_negative = value < 0;
    std::string text;
    do {
        int digit = (int)(value % 10);
        text.push_back((char)('0' + (digit < 0 ? -digit : digit)));
        value /= 10;
    } while (value != 0);
    if (is_negative) text.push_back('-');
    return {text.rbegin(), text.rend()};
}

static std::string fixed(int64_t value) {
    uint64_t size = value < 0 ? -(uint64_t)value : (uint64_t)value;
    std::string rest = std::to_string(size % 10000000);
    return (value < 0 ? "-" : "") + std::to_string(size / 10000000) + "." + std::string(7 - rest.size(), '0') + rest;
}

static std::string text_of(const Extent &extent) {
    if (extent.is_empty()) return "empty";
    return fixed(extent.low.x) + " " + fixed(extent.low.y) + " " + fixed(extent.high.x) + " " + fixed(extent.high.y);
}

static std::string gathered_answer(ondemand::document &document, std::string_view verb) {
    Gathered gathered;
    uint64_t features = 0;
    volatile double kept = 0;
    for (auto item : document["features"].get_array()) {
        features++;
        if (verb == "count") continue;
        ondemand::object feature = item.get_object();
        if (verb == "all") kept = kept + numbers(feature["properties"]);
        geometry_of(feature, gathered, verb == "area");
    }
    std::string count = std::to_string(features) + "\n", extent = text_of(gathered.extent) + "\n", area = whole(gathered.area) + "\n";
    return verb == "count" ? count : verb == "extent" ? extent : verb == "area" ? area : count + extent + area;
}

template <typename Holds> static std::string offsets(ondemand::document &document, const char *begin, Holds holds) {
    std::string text;
    for (auto item : document["features"].get_array()) {
        ondemand::value value = item.value();
        const char *at = value.raw_json_token().data();
        if (holds(value.get_object().value())) text += std::to_string(at - begin) + "\n";
    }
    return text;
}

static std::string answer(ondemand::document &document, const char *begin, char **words) {
    std::string_view verb = words[1];
    if (verb == "has")
        return offsets(document, begin, [&](ondemand::object feature) { return has_text(feature, words[2], words[3]); });
    if (verb != "in") return gathered_answer(document, verb);
    Extent box;
    box.low = {units(atof(words[2])), units(atof(words[3]))};
    box.high = {units(atof(words[4])), units(atof(words[5]))};
    return offsets(document, begin, [&](ondemand::object feature) {
        Gathered gathered;
        geometry_of(feature, gathered, false);
        return !gathered.extent.is_empty() && box.encloses(gathered.extent);
    });
}

int main(int count, char **words) {
    if (count < 3) return 2;
    auto bytes = padded_string::load(words[count - 1]);
    if (bytes.error()) return 2;
    ondemand::parser parser;
    try {
        ondemand::document document = parser.iterate(bytes.value_unsafe());
        std::string text = answer(document, bytes.value_unsafe().data(), words);
        fwrite(text.data(), 1, text.size(), stdout);
    } catch (const simdjson_error &error) {
        puts("not read");
    }
    return 0;
}
