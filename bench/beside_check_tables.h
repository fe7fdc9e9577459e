// What the checker in C++ reads (beside_check.cpp): files, names, texts of polygons, and tables.

#pragma once

#include <algorithm>
#include <cstdint>
#include <cstdio>
#include <cstdlib>
#include <cstring>
#include <fcntl.h>
#include <string>
#include <string_view>
#include <strings.h>
#include <sys/stat.h>
#include <unistd.h>
#include <vector>

using Area = __int128; // doubled square millimetres, and products of differences of coordinates
using std::string_view;
using std::vector;

static constexpr int64_t LIMIT = 20'000'000'000; // of a coordinate, in millimetres
static constexpr size_t MOST_ROWS = 200'000, MOST_POINTS = 100'000, MOST_SHAPES = 2'000'000, LONGEST_NAME = 40;
static constexpr uint32_t NONE = UINT32_MAX;

[[noreturn]] static void refuse(const char *code) {
    std::printf("refused %s\n", code);
    std::exit(code[0] == '6' ? 1 : 2);
}

static void need(bool holds, const char *code) {
    if (!holds) refuse(code);
}

// The bytes of a file, and a nought behind them, at which every loop over characters ends.
class Text {
  public:
    explicit Text(const std::string &path) {
        int file = open(path.c_str(), O_RDONLY);
        struct stat about;
        if (file < 0 || fstat(file, &about) != 0) fail(path);
        size = about.st_size;
        bytes = static_cast<char *>(std::malloc(size + 1));
        for (size_t done = 0; done < size;) {
            ssize_t got = read(file, bytes + done, size - done);
            if (got <= 0) fail(path);
            done += got;
        }
        close(file);
        bytes[size] = 0;
    }
    ~Text() { std::free(bytes); }
    Text(const Text &) = delete;
    Text &operator=(const Text &) = delete;

    char *begin() const { return bytes; }
    char *end() const { return bytes + size; }

  private:
    [[noreturn]] static void fail(const std::string &path) {
        std::fprintf(stderr, "beside_check: %s can't be read\n", path.c_str());
        std::exit(2);
    }

    char *bytes = nullptr;
    size_t size = 0;
};

// Letters and names.

// The value of a digit; above 9 where it is none.
static unsigned digit(char c) { return static_cast<unsigned char>(c) - static_cast<unsigned>('0'); }
static bool is_space(char c) { return c == ' ' || c == '\t' || c == '\n' || c == '\r'; }

// Which bytes an identifier may have.
struct Letters {
    bool is_allowed[256] = {};
    Letters() {
        for (unsigned char c : string_view("ABCDEFGHIJKLMNOPQRSTUVWXYZabcdefghijklmnopqrstuvwxyz0123456789._:/-")) is_allowed[c] = true;
    }
    bool operator[](char c) const { return is_allowed[static_cast<unsigned char>(c)]; }
};
static const Letters letters;

static bool is_name(string_view text) {
    return !text.empty() && text.size() <= LONGEST_NAME && std::all_of(text.begin(), text.end(), [](char c) { return letters[c]; });
}

static bool is_utf8(string_view text) {
    for (size_t i = 0; i < text.size();) {
        for (uint64_t word; i + 8 <= text.size(); i += 8) { // ASCII, eight letters at once
            std::memcpy(&word, &text[i], 8);
            if (word & 0x8080808080808080) break;
        }
        if (i == text.size()) return true;
        unsigned char c = text[i++];
        if (c < 0x80) continue;
        size_t more = c >= 0xc2 && c < 0xe0 ? 1 : c >= 0xe0 && c < 0xf0 ? 2 : c >= 0xf0 && c < 0xf5 ? 3 : 0;
        if (more == 0 || text.size() - i < more) return false;
        unsigned char next = text[i]; // too long a form, a surrogate, or past the last letter
        if ((c == 0xe0 && next < 0xa0) || (c == 0xed && next > 0x9f) || (c == 0xf0 && next < 0x90) || (c == 0xf4 && next > 0x8f)) return false;
        for (; more > 0; --more)
            if ((static_cast<unsigned char>(text[i++]) & 0xc0) != 0x80) return false;
    }
    return true;
}

// Names in the order in which they come, and their numbers by open addressing.
class Names {
  public:
    // False where the name is there.
    bool add(string_view name) {
        if (2 * names.size() >= slots.size()) grow();
        uint32_t &slot = slots[slot_of(name)];
        if (slot != NONE) return false;
        slot = names.size();
        names.push_back(name);
        return true;
    }
    uint32_t find(string_view name) const { return slots[slot_of(name)]; }
    size_t size() const { return names.size(); }
    string_view operator[](size_t number) const { return names[number]; }

  private:
    static uint64_t hash(string_view name) {
        uint64_t value = name.size() * 0x9E3779B97F4A7C15, word;
        const char *at = name.data();
        size_t left = name.size();
        for (; left >= 8; at += 8, left -= 8) {
            std::memcpy(&word, at, 8);
            value = (value ^ word) * 0xff51afd7ed558ccd;
            value ^= value >> 32;
        }
        word = 0;
        std::memcpy(&word, at, left);
        value = (value ^ word) * 0xff51afd7ed558ccd;
        return value ^ value >> 29;
    }
    size_t slot_of(string_view name) const {
        size_t mask = slots.size() - 1, slot = hash(name) & mask;
        while (slots[slot] != NONE && names[slots[slot]] != name) slot = (slot + 1) & mask;
        return slot;
    }
    void grow() {
        slots.assign(2 * slots.size(), NONE);
        for (size_t number = 0; number < names.size(); ++number) slots[slot_of(names[number])] = number;
    }

    vector<uint32_t> slots = vector<uint32_t>(1 << 12, NONE);
    vector<string_view> names;
};

// Polygons.

struct Point {
    int64_t x, y;
    bool operator<(const Point &other) const { return x != other.x ? x < other.x : y < other.y; }
    bool operator==(const Point &other) const { return x == other.x && y == other.y; }
};

// Polygons one behind the other: polygon i has the rings from polygons[i] to before polygons[i + 1], and a ring its points likewise.
struct Polygons {
    vector<Point> points;
    vector<uint32_t> rings{0}, polygons{0};
    vector<bool> is_hole, is_backwards;
    vector<Area> areas; // of each polygon
};

// A reader of one polygon's text. The byte at its end is a nought while it reads.
class Polygon_text {
  public:
    Polygon_text(string_view text, Polygons &out) : at(text.data()), end(text.data() + text.size()), out(out) {}

    void read() {
        skip();
        bool is_multi = strncasecmp(at, "MULTI", 5) == 0;
        at += is_multi ? 5 : 0;
        need(strncasecmp(at, "POLYGON", 7) == 0, "38");
        at += 7;
        skip();
        if (is_multi) take('(');
        do member();
        while (is_multi && has(','));
        if (is_multi) take(')');
        need(at == end, "38");
        out.polygons.push_back(out.rings.size() - 1);
    }

  private:
    void skip() {
        while (is_space(*at)) ++at;
    }
    bool has(char c) {
        if (*at != c) return false;
        ++at;
        skip();
        return true;
    }
    void take(char c) { need(has(c), "38"); }

    // A coordinate in whole millimetres.
    int64_t number() {
        const char *p = at;
        bool is_negative = *p == '-';
        if (*p == '-' || *p == '+') ++p;
        const char *start = p;
        int64_t value = 0;
        for (unsigned d; (d = digit(*p)) <= 9; ++p) {
            value = 10 * value + d;
            need(value <= LIMIT, "38");
        }
        size_t digits = p - start;
        int decimals = 0;
        if (*p == '.') {
            ++p;
            for (unsigned d; (d = digit(*p)) <= 9; ++p, ++digits) {
                if (decimals < 3) value = 10 * value + d, ++decimals;
                else need(d == 0, "38");
            }
        }
        for (; decimals < 3; ++decimals) value *= 10;
        need(digits > 0 && value <= LIMIT, "38");
        at = p;
        return is_negative ? -value : value;
    }

    void ring(bool is_hole) {
        take('(');
        size_t first = out.points.size();
        do {
            need(++count <= MOST_POINTS, "38");
            int64_t x = number();
            need(is_space(*at), "38");
            skip();
            out.points.push_back({x, number()});
            skip();
        } while (has(','));
        take(')');
        need(out.points.size() - first >= 4 && out.points[first] == out.points.back(), "38");
        out.rings.push_back(out.points.size());
        out.is_hole.push_back(is_hole);
    }

    void member() {
        take('(');
        ring(false);
        while (has(',')) ring(true);
        take(')');
    }

    const char *at, *end;
    Polygons &out;
    size_t count = 0;
};

// Tables.

// A reader of CSV that goes through the records of a text. Doubled quotes are made one where they stand.
class Table {
  public:
    explicit Table(const Text &text) : at(text.begin()), end(text.end()) {
        static constexpr string_view mark = "\xef\xbb\xbf"; // a byte order mark
        auto is_marked = [&] { return string_view(at, end - at).substr(0, 3) == mark; };
        if (is_marked()) at += 3;
        need(!is_marked(), "30");
        need(next(), "31");
        header = fields;
    }

    // How many header fields have a name, and the place of the last.
    int columns(string_view name, size_t &place) const {
        int count = 0;
        for (size_t i = 0; i < header.size(); ++i)
            if (header[i].size() == name.size() && strncasecmp(header[i].data(), name.data(), name.size()) == 0) ++count, place = i;
        return count;
    }
    size_t column(string_view name) const {
        size_t place = 0;
        int count = columns(name, place);
        need(count > 0, "31");
        need(count == 1, "32");
        return place;
    }

    bool next() {
        while (at < end && (*at == '\n' || *at == '\r')) ++at;
        if (at == end) return false;
        fields.clear();
        for (;;) {
            fields.push_back(*at == '"' ? quoted() : plain(at));
            if (at == end || *at != ',') break;
            ++at;
        }
        need(header.empty() || fields.size() == header.size(), "30");
        need(header.empty() || ++rows <= MOST_ROWS, "3a");
        return true;
    }

    string_view operator[](size_t column) const { return fields[column]; }
    string_view name(size_t column) const {
        need(is_name(fields[column]), "33");
        return fields[column];
    }
    void polygon(size_t column, Polygons &out) const {
        string_view text = fields[column];
        need(is_utf8(text), "30");
        char *behind = const_cast<char *>(text.data() + text.size()), kept = *behind;
        *behind = 0;
        Polygon_text(text, out).read();
        *behind = kept;
    }

  private:
    string_view plain(char *start) {
        while (at < end && *at != ',' && *at != '\n' && *at != '\r') ++at;
        return {start, static_cast<size_t>(at - start)};
    }
    // What stands behind the quote that ends a field belongs to it, up to the comma.
    string_view quoted() {
        char *start = ++at, *to = start;
        for (;;) {
            char *quote = static_cast<char *>(std::memchr(at, '"', end - at));
            if (!quote) quote = end;
            if (to != at) std::memmove(to, at, quote - at);
            to += quote - at;
            at = std::min(quote + 1, end);
            if (at == end || *at != '"') break;
            *to++ = '"';
            ++at;
        }
        string_view rest = plain(at);
        std::memmove(to, rest.data(), rest.size());
        return {start, static_cast<size_t>(to - start) + rest.size()};
    }

    char *at, *end;
    size_t rows = 0;
    vector<string_view> header, fields;
};
