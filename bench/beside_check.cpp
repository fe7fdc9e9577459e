// A checker in C++ of a release and its certificate: beside_check DIR CERT [read]. Beside it `bench/beside_check` measures the proved one.
//
// It does the tests of `lpis check` over the same four files, in the same order, on one thread: it reads tables and certificate whole,
// keeps each list as plain vectors, and tests the ten conditions one after the other, by sorting where something is to be found. It
// prints the same report, status 0, or `refused CODE` with the code of `lpis check`, status 1, or 2 where the code is one of a table or
// of a certificate's text. Of a wrong polygon text that is 38 alone, and of a certificate's text one of 50 to 56, not always the same:
// which of them it is takes a look at the whole line. Status 2 is also that a file can't be read. With `read` it reads and adds, and tests
// nothing: its report lacks the last line.

#include "beside_check_input.h"

// The ten conditions, one after the other.

// Above 0 where c lies left of the line from a to b, 0 on it, below 0 right of it.
static Area orient(const Point &a, const Point &b, const Point &c) {
    return static_cast<Area>(b.x - a.x) * (c.y - a.y) - static_cast<Area>(b.y - a.y) * (c.x - a.x);
}

static bool are_same(const vector<string_view> &found, const Names &wanted) {
    if (found.size() != wanted.size()) return false;
    for (size_t i = 0; i < found.size(); ++i)
        if (found[i] != wanted[i]) return false;
    return true;
}

static void test_names(const Release &release, const Certificate &cert) {
    need(are_same(cert.pieces, release.pieces) && are_same(cert.parcels, release.parcels), "60");
    for (size_t k = 0; k < cert.pairs.size(); ++k) {
        const Pair &pair = cert.pairs[k];
        need(pair.i < pair.j && pair.j < cert.triangles.size() && (k == 0 || cert.pairs[k - 1].key() < pair.key()), "60");
    }
}

static void test_triangles(const Certificate &cert) {
    for (size_t i = 0; i < cert.pieces.size(); ++i) need(cert.first_triangle[i] < cert.first_triangle[i + 1], "61");
    for (const auto &[corners] : cert.triangles) need(orient(corners[0], corners[1], corners[2]) > 0, "62");
    for (const auto *flats : {&cert.flats, &cert.parcel_flats}) {
        for (const auto &[corners] : *flats) {
            bool differ = !(corners[0] == corners[1]) && !(corners[1] == corners[2]) && !(corners[0] == corners[2]);
            need(differ && orient(corners[0], corners[1], corners[2]) == 0, "63");
        }
    }
}

// A set of the points of some polygons.
class Points {
  public:
    void clear() { points.clear(); }
    void add(const Polygons &shapes, uint32_t number) {
        auto first = shapes.points.begin();
        auto begin = first + shapes.rings[shapes.polygons[number]], end = first + shapes.rings[shapes.polygons[number + 1]];
        points.insert(points.end(), begin, end);
    }
    void sort() { std::sort(points.begin(), points.end()); }
    // Whether all corners of these triangles or flats are among them.
    bool have(const vector<Triangle> &shapes, uint32_t begin, uint32_t end) const {
        for (uint32_t k = begin; k < end; ++k)
            for (const Point &corner : shapes[k].corners)
                if (!std::binary_search(points.begin(), points.end(), corner)) return false;
        return true;
    }

  private:
    vector<Point> points;
};

static void test_corners(const Release &release, const Certificate &cert) {
    Points points;
    for (size_t i = 0; i < cert.pieces.size(); ++i) {
        points.clear();
        points.add(release.piece_shapes, i);
        points.sort();
        need(points.have(cert.triangles, cert.first_triangle[i], cert.first_triangle[i + 1]), "64");
        need(points.have(cert.flats, cert.first_flat[i], cert.first_flat[i + 1]), "64");
    }
    for (size_t i = 0; i < cert.parcels.size(); ++i) {
        if (cert.first_parcel_flat[i] == cert.first_parcel_flat[i + 1]) continue;
        points.clear();
        points.add(release.parcel_shapes, i);
        for (uint32_t k = release.first_of[i]; k < release.first_of[i + 1]; ++k) points.add(release.piece_shapes, release.piece_numbers[k]);
        points.sort();
        need(points.have(cert.parcel_flats, cert.first_parcel_flat[i], cert.first_parcel_flat[i + 1]), "64");
    }
}

// The shoelace sum of a ring, about its first point: in 64 bits while the points are within 134 kilometres of it.
static Area shoelace(const Point *points, uint32_t count) {
    static constexpr int64_t near = int64_t(1) << 27;
    Point first = points[0];
    int64_t sum = 0;
    bool is_near = count < 128;
    for (uint32_t i = 0; is_near && i + 1 < count; ++i) {
        int64_t x = points[i].x - first.x, y = points[i].y - first.y, next_x = points[i + 1].x - first.x, next_y = points[i + 1].y - first.y;
        is_near = (((x + near) | (y + near) | (next_x + near) | (next_y + near)) & ~(2 * near - 1)) == 0;
        if (is_near) sum += x * next_y - next_x * y;
    }
    if (is_near) return sum;
    Area large = 0;
    for (uint32_t i = 0; i + 1 < count; ++i) large += orient(first, points[i], points[i + 1]);
    return large;
}

// The doubled area of each polygon, and which of its rings are not in normal orientation.
static void add_areas(Polygons &shapes) {
    size_t rings = shapes.rings.size() - 1;
    shapes.is_backwards.resize(rings);
    for (size_t i = 0; i + 1 < shapes.polygons.size(); ++i) {
        Area area = 0;
        for (uint32_t ring = shapes.polygons[i]; ring < shapes.polygons[i + 1]; ++ring) {
            uint32_t first = shapes.rings[ring];
            Area sum = shoelace(&shapes.points[first], shapes.rings[ring + 1] - first);
            bool is_hole = shapes.is_hole[ring];
            shapes.is_backwards[ring] = is_hole ? sum > 0 : sum < 0;
            area += (sum < 0) == is_hole ? sum : -sum;
        }
        shapes.areas.push_back(area);
    }
}

// A list of edges, each from its lesser point to its greater with a sign, whose net counts are asked for.
class Edges {
  public:
    void clear() { edges.clear(); }
    void add(const Point &a, const Point &b, int sign) {
        if (a < b) edges.push_back({a, b, sign});
        else if (b < a) edges.push_back({b, a, -sign});
    }
    void add(const Polygons &shapes, uint32_t number, int sign) {
        for (uint32_t ring = shapes.polygons[number]; ring < shapes.polygons[number + 1]; ++ring) {
            int turned = shapes.is_backwards[ring] ? -sign : sign;
            for (uint32_t k = shapes.rings[ring]; k + 1 < shapes.rings[ring + 1]; ++k) add(shapes.points[k], shapes.points[k + 1], turned);
        }
    }
    void add(const vector<Triangle> &shapes, uint32_t begin, uint32_t end, int sign) {
        for (uint32_t k = begin; k < end; ++k) {
            const Point *corners = shapes[k].corners;
            add(corners[0], corners[1], sign);
            add(corners[1], corners[2], sign);
            add(corners[2], corners[0], sign);
        }
    }
    // Whether the net count of each edge is 0.
    bool cancel() {
        std::sort(edges.begin(), edges.end());
        for (size_t i = 0; i < edges.size();) {
            size_t next = i;
            int net = 0;
            while (next < edges.size() && edges[next].a == edges[i].a && edges[next].b == edges[i].b) net += edges[next++].sign;
            if (net != 0) return false;
            i = next;
        }
        return true;
    }

  private:
    struct Edge {
        Point a, b;
        int sign;
        bool operator<(const Edge &other) const { return a == other.a ? b < other.b : a < other.a; }
    };
    vector<Edge> edges;
};

static void test_edges(const Release &release, const Certificate &cert) {
    Edges edges;
    for (size_t i = 0; i < cert.pieces.size(); ++i) {
        edges.clear();
        edges.add(release.piece_shapes, i, 1);
        edges.add(cert.triangles, cert.first_triangle[i], cert.first_triangle[i + 1], -1);
        edges.add(cert.flats, cert.first_flat[i], cert.first_flat[i + 1], -1);
        need(edges.cancel(), "65");
    }
    for (size_t i = 0; i < cert.parcels.size(); ++i) {
        edges.clear();
        edges.add(release.parcel_shapes, i, 1);
        for (uint32_t k = release.first_of[i]; k < release.first_of[i + 1]; ++k) edges.add(release.piece_shapes, release.piece_numbers[k], -1);
        edges.add(cert.parcel_flats, cert.first_parcel_flat[i], cert.first_parcel_flat[i + 1], -1);
        need(edges.cancel(), "66");
    }
}

struct Box {
    int64_t left, right, bottom, top;
    explicit Box(const Triangle &triangle) {
        auto [a, b, c] = triangle.corners;
        left = std::min({a.x, b.x, c.x}), right = std::max({a.x, b.x, c.x});
        bottom = std::min({a.y, b.y, c.y}), top = std::max({a.y, b.y, c.y});
    }
    bool is_near(const Box &other) const { return left < other.right && other.left < right && bottom < other.top && other.bottom < top; }
};

// Finds the near pairs of boxes, strip by strip: a strip is as high as a box on average, and has its boxes from left to right. A pair
// counts in the strip in which the upper of its two lower sides lies.
class Strips {
  public:
    explicit Strips(const vector<Box> &boxes) : boxes(boxes) {
        int64_t heights = 0, highest = -LIMIT;
        for (const Box &box : boxes) {
            heights += box.top - box.bottom;
            lowest = std::min(lowest, box.bottom), leftmost = std::min(leftmost, box.left);
            highest = std::max(highest, box.top);
        }
        int64_t count = boxes.size(), most = 4 * count + 16;
        height = std::max(heights / count, (highest - lowest) / most) + 1;
        firsts.assign((highest - lowest) / height + 2, 0);
        for (const Box &box : boxes)
            for (int64_t strip = strip_of(box.bottom); strip <= strip_of(box.top); ++strip) ++firsts[strip + 1];
        for (size_t strip = 1; strip < firsts.size(); ++strip) firsts[strip] += firsts[strip - 1];
        vector<uint32_t> next(firsts.begin(), firsts.end() - 1);
        places.resize(firsts.back());
        for (size_t i = 0; i < boxes.size(); ++i)
            for (int64_t strip = strip_of(boxes[i].bottom); strip <= strip_of(boxes[i].top); ++strip)
                places[next[strip]++] = {static_cast<uint32_t>((boxes[i].left - leftmost) / STEP), static_cast<uint32_t>(i)};
    }

    // Calls `found` with the numbers of each near pair, once.
    template <class Found> void each_pair(Found found) {
        vector<Box> row;
        for (size_t strip = 0; strip + 1 < firsts.size(); ++strip) {
            Place *place = &places[firsts[strip]];
            size_t count = firsts[strip + 1] - firsts[strip];
            std::sort(place, place + count);
            row.clear();
            for (size_t i = 0; i < count; ++i) row.push_back(boxes[place[i].number]);
            int64_t base = lowest + static_cast<int64_t>(strip) * height;
            for (size_t i = 0; i < count; ++i)
                for (size_t j = i + 1; j < count && place[j].left * STEP + leftmost < row[i].right; ++j)
                    if (row[i].is_near(row[j]) && std::max(row[i].bottom, row[j].bottom) >= base) found(place[i].number, place[j].number);
        }
    }

  private:
    // The left side of a box, in whole steps from the leftmost, so that it has 32 bits.
    static constexpr int64_t STEP = 16;
    struct Place {
        uint32_t left, number;
        bool operator<(const Place &other) const { return left != other.left ? left < other.left : number < other.number; }
    };
    int64_t strip_of(int64_t y) const { return (y - lowest) / height; }

    const vector<Box> &boxes;
    int64_t lowest = LIMIT, leftmost = LIMIT, height = 1;
    vector<uint32_t> firsts; // strip s has the places from firsts[s] to before firsts[s + 1]
    vector<Place> places;
};

// Pair lines ascend, and name each near pair where all of them are near and there are as many. Else the near pairs are listed.
static void test_near_pairs(const Certificate &cert) {
    if (cert.triangles.empty()) return;
    vector<Box> boxes(cert.triangles.begin(), cert.triangles.end());
    bool are_near = std::all_of(cert.pairs.begin(), cert.pairs.end(), [&](const Pair &pair) { return boxes[pair.i].is_near(boxes[pair.j]); });
    Strips strips(boxes);
    size_t count = 0;
    strips.each_pair([&](uint32_t, uint32_t) { ++count; });
    if (are_near && count == cert.pairs.size()) return;
    auto key_less = [](const Pair &pair, uint64_t key) { return pair.key() < key; };
    strips.each_pair([&](uint32_t i, uint32_t j) {
        uint64_t key = Pair{std::min(i, j), std::max(i, j), 0}.key();
        auto line = std::lower_bound(cert.pairs.begin(), cert.pairs.end(), key, key_less);
        need(line != cert.pairs.end() && line->key() == key, "67");
    });
    refuse("68");
}

// The third corner of a triangle is left of its edge, since it is counter-clockwise: those of the other are tested.
static void test_separators(const Certificate &cert) {
    for (const Pair &pair : cert.pairs) {
        bool is_first = pair.edge < 3;
        const Triangle &left = cert.triangles[is_first ? pair.i : pair.j], &right = cert.triangles[is_first ? pair.j : pair.i];
        int k = pair.edge % 3;
        const Point &a = left.corners[k], &b = left.corners[k == 2 ? 0 : k + 1];
        for (const Point &corner : right.corners) need(orient(a, b, corner) <= 0, "69");
    }
}

// The report.

// Appends five times a number with so many digits behind the point: half a square millimetre is 5 / 10^7 square metres.
static void print_number(std::string &out, Area number, int places) {
    if (number < 0) {
        out += '-';
        number = -number;
    }
    Area value = 5 * number;
    char digits[48];
    int count = 0;
    for (; value > INT64_MAX; value /= 10) digits[count++] = '0' + static_cast<int>(value % 10);
    for (uint64_t rest = value; count <= places || rest > 0; rest /= 10) digits[count++] = '0' + rest % 10;
    while (count > places) out += digits[--count];
    out += '.';
    while (count > 0) out += digits[--count];
}

static void print_areas(std::string &out, Area area, Area eligible) {
    out += " area ";
    print_number(out, area, 7);
    out += " eligible ";
    print_number(out, eligible, 9);
    out += '\n';
}

static std::string report(const Release &release, const char *last) {
    std::string out;
    out.reserve(64 * release.parcels.size() + 128);
    out += "parcels " + std::to_string(release.parcels.size()) + " pieces " + std::to_string(release.pieces.size()) + "\n";
    Area areas = 0, eligibles = 0;
    for (size_t i = 0; i < release.parcels.size(); ++i) {
        Area area = release.parcel_shapes.areas[i], eligible = 0;
        for (uint32_t k = release.first_of[i]; k < release.first_of[i + 1]; ++k) {
            uint32_t piece = release.piece_numbers[k];
            eligible += release.piece_shapes.areas[piece] * release.percents[release.class_of[piece]];
        }
        areas += area, eligibles += eligible;
        out += "parcel ";
        out += release.parcels[i];
        print_areas(out, area, eligible);
    }
    out += "total";
    print_areas(out, areas, eligibles);
    return out + last;
}

int main(int count, char **words) {
    bool tests = count == 3;
    if (!tests && !(count == 4 && string_view(words[3]) == "read")) {
        std::fprintf(stderr, "beside_check: two words are wanted, a folder and a certificate, and perhaps `read`\n");
        return 2;
    }
    std::string folder = words[1];
    Text parcels(folder + "/parcels.csv"), covers(folder + "/covers.csv"), classes(folder + "/classes.csv"), text(words[2]);

    Release release;
    vector<string_view> parcel_names, class_names;
    read_parcels(parcels, release);
    read_covers(covers, release, parcel_names, class_names);
    read_classes(classes, release);
    join(release, parcel_names, class_names);
    Certificate cert;
    Certificate_text(text).read(cert);

    if (tests) {
        test_names(release, cert);
        test_triangles(cert);
        test_corners(release, cert);
    }
    add_areas(release.parcel_shapes);
    add_areas(release.piece_shapes);
    if (tests) {
        test_edges(release, cert);
        test_near_pairs(cert);
        test_separators(cert);
    }
    std::string out = report(release, tests ? "yes\n" : "");
    std::fwrite(out.data(), 1, out.size(), stdout);
    return 0;
}
