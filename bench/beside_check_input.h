// The release and the certificate of the checker in C++ (beside_check.cpp).

#pragma once

#include "beside_check_tables.h"

// The release.

struct Release {
    Names parcels, pieces, classes;
    vector<uint32_t> parcel_of, class_of;    // of each piece
    vector<uint32_t> first_of, piece_numbers; // the pieces of parcel i: piece_numbers from first_of[i] to before first_of[i + 1]
    vector<int> percents;                    // of each class
    Polygons parcel_shapes, piece_shapes;
};

static void read_parcels(const Text &text, Release &release) {
    Table rows(text);
    size_t parcel = rows.column("parcel"), wkt = rows.column("wkt");
    while (rows.next()) {
        need(release.parcels.add(rows.name(parcel)), "34");
        rows.polygon(wkt, release.parcel_shapes);
    }
}

// Whole percent, from 0 to 100, in digits alone and without leading zeros.
static int percent_of(string_view text) {
    need(!text.empty() && text.size() <= 3 && (text.size() == 1 || text[0] != '0'), "3b");
    int value = 0;
    for (char c : text) {
        need(digit(c) <= 9, "3b");
        value = 10 * value + static_cast<int>(digit(c));
    }
    need(value <= 100, "3b");
    return value;
}

static void read_classes(const Text &text, Release &release) {
    Table rows(text);
    size_t name = rows.column("class"), percent = 0, eligible = 0;
    int percents = rows.columns("percent", percent), eligibles = rows.columns("eligible", eligible);
    need(percents < 2 && eligibles < 2, "32");
    need(percents + eligibles > 0, "31");
    while (rows.next()) {
        need(release.classes.add(rows.name(name)), "34");
        if (percents == 0) need(rows[eligible] == "0" || rows[eligible] == "1", "39");
        release.percents.push_back(percents > 0 ? percent_of(rows[percent]) : rows[eligible] == "1" ? 100 : 0);
    }
}

// Adds the pieces. Which parcel and class each one names is looked up when all three tables are read.
static void read_covers(const Text &text, Release &release, vector<string_view> &parcels, vector<string_view> &classes) {
    Table rows(text);
    size_t piece = rows.column("piece"), parcel = rows.column("parcel"), name = rows.column("class"), wkt = rows.column("wkt");
    while (rows.next()) {
        need(release.pieces.add(rows.name(piece)), "34");
        parcels.push_back(rows.name(parcel));
        classes.push_back(rows.name(name));
        rows.polygon(wkt, release.piece_shapes);
    }
}

static void join(Release &release, const vector<string_view> &parcels, const vector<string_view> &classes) {
    size_t pieces = release.pieces.size(), count = release.parcels.size();
    release.first_of.assign(count + 1, 0);
    for (size_t i = 0; i < pieces; ++i) {
        uint32_t parcel = release.parcels.find(parcels[i]), class_ = release.classes.find(classes[i]);
        need(parcel != NONE, "35");
        need(class_ != NONE, "36");
        release.parcel_of.push_back(parcel);
        release.class_of.push_back(class_);
        ++release.first_of[parcel + 1];
    }
    for (size_t i = 0; i < count; ++i) {
        need(release.first_of[i + 1] > 0, "37");
        release.first_of[i + 1] += release.first_of[i];
    }
    vector<uint32_t> next(release.first_of.begin(), release.first_of.end() - 1);
    release.piece_numbers.resize(pieces);
    for (size_t i = 0; i < pieces; ++i) release.piece_numbers[next[release.parcel_of[i]]++] = i;
}

// The certificate.

struct Triangle {
    Point corners[3];
};

struct Pair {
    uint32_t i, j;
    uint8_t edge;
    uint64_t key() const { return static_cast<uint64_t>(i) << 32 | j; }
};

// Piece i has the triangles from first_triangle[i] to before first_triangle[i + 1], and its flats likewise; so have parcels.
struct Certificate {
    vector<string_view> pieces, parcels;
    vector<Triangle> triangles, flats, parcel_flats;
    vector<uint32_t> first_triangle{0}, first_flat{0}, first_parcel_flat{0};
    vector<Pair> pairs;
};

// A reader of a certificate's text, of version 1 or 2. Blocks of exact splits and merges are read, and not kept.
class Certificate_text {
  public:
    explicit Certificate_text(const Text &text) : at(text.begin()), end(text.end()) {}

    void read(Certificate &out) {
        is_first = has("lpis-cert 1\n");
        need(is_first || has("lpis-cert 2\n"), "50");
        if (is_first) unit = 10, most = LIMIT / 10;
        while (has("piece ")) {
            out.pieces.push_back(name());
            uint32_t triangles = number(' '), flats = number('\n');
            shapes('t', triangles, triangle_count, out.triangles);
            shapes('f', flats, flat_count, out.flats);
            out.first_triangle.push_back(out.triangles.size());
            out.first_flat.push_back(out.flats.size());
        }
        while (has("parcel ")) {
            out.parcels.push_back(name());
            shapes('f', number('\n'), flat_count, out.parcel_flats);
            out.first_parcel_flat.push_back(out.parcel_flats.size());
        }
        while (!is_first && has("exact ")) {
            need(has("split ") || has("merge "), "51");
            name();
            vector<Triangle> unused;
            shapes('f', number('\n'), flat_count, unused);
        }
        need(has("pairs "), "53");
        uint32_t count = number('\n');
        out.pairs.reserve(std::min<size_t>(count, (end - at) / 8)); // a pair line has eight bytes or more
        for (; count > 0; --count) {
            need(has("s "), "53");
            uint32_t i = number(' '), j = number(' '), edge = number('\n');
            need(edge <= 5, "52");
            out.pairs.push_back({i, j, static_cast<uint8_t>(edge)});
        }
        need(has("end\n"), "53");
        need(at == end, "55");
    }

  private:
    template <size_t N> bool has(const char (&start)[N]) {
        for (size_t i = 0; i + 1 < N; ++i)
            if (at[i] != start[i]) return false;
        at += N - 1;
        return true;
    }

    string_view name() {
        const char *start = at;
        while (letters[*at]) ++at;
        string_view found(start, at - start);
        need(is_name(found) && *at == ' ', "51");
        ++at;
        return found;
    }
    // A whole number of at most so much, of one spelling, and the byte behind it.
    uint64_t digits(uint64_t greatest, char behind) {
        const char *p = at;
        uint64_t value = digit(*p++);
        need(value <= 9, "52");
        if (value > 0) {
            for (unsigned d; (d = digit(*p)) <= 9; ++p) {
                value = 10 * value + d;
                need(value <= greatest, "52");
            }
        }
        need(*p == behind, "52");
        at = p + 1;
        return value;
    }
    uint32_t number(char behind) { return digits(UINT32_MAX, behind); }
    int64_t coordinate(char behind) {
        bool is_negative = *at == '-';
        at += is_negative;
        int64_t value = digits(most, behind) * unit;
        need(value != 0 || !is_negative, "52");
        return is_negative ? -value : value;
    }
    Point point(char behind) {
        int64_t x = coordinate(' ');
        return {x, coordinate(behind)};
    }
    void shapes(char kind, uint32_t count, size_t &so_far, vector<Triangle> &out) {
        so_far += count;
        need(so_far <= MOST_SHAPES, "56");
        for (; count > 0; --count) {
            need(at[0] == kind && at[1] == ' ', "53");
            at += 2;
            Point a = point(' '), b = point(' ');
            out.push_back({{a, b, point('\n')}});
        }
    }

    const char *at, *end;
    bool is_first = false;
    int64_t unit = 1, most = LIMIT;
    size_t triangle_count = 0, flat_count = 0;
};
