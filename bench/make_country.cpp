// Writes a country for `lpis country`, region by region, with a true certificate of each: make_country PARCELS MOST OUT [SOURCE]
//
// A grid of quadrilaterals of about 100 metres with jittered corners, each of three pieces and four triangles. Every tenth has a corner of a
// piece in the middle of an edge, where its parcel has none (a T-junction, for which its block has a flat). Each 50th row is a road of 10
// metres, in parcels of 4 kilometres of two pieces each, whose straight borders have the corners of the cells beside it as T-junctions.
// The land is cut into tiles through the middles of cells, until a region has at most MOST parcels, so that guests are there on every
// seam. Nothing is kept but one region: corners are functions of their places. With SOURCE the tables of the whole are written there too.
// The last line has the counts: regions, parcels, pieces, rows of parcels, parcels in several regions.
#include <sys/stat.h>

#include <algorithm>
#include <array>
#include <cstdint>
#include <cstdio>
#include <cstdlib>
#include <string>
#include <unordered_map>
#include <utility>
#include <vector>

using Number = std::int64_t;
constexpr Number STEP = 100'000, JITTER = 20'000, ROAD = 10'000;  // millimetres
constexpr int ROAD_ROWS = 50, ROAD_COLUMNS = 40;
constexpr Number EAST = 400'000'000, NORTH = 5'300'000'000;

struct Point { Number x, y; };
struct Box { Number x0, y0, x1, y1; };
struct Triangle { Point p[3]; };
using Ring = std::vector<Point>;

// A parcel: its ring, its pieces with their triangles, and its flats.
struct Piece { Ring ring; std::vector<Triangle> triangles; char kind; };
struct Parcel { std::string name; Ring ring; std::vector<Piece> pieces; std::vector<Triangle> flats; };

static int columns, rows;

static bool is_road(int row) { return row % ROAD_ROWS == ROAD_ROWS / 2; }

// How many roads lie below a row.
static Number roads_below(int row) { return (row + ROAD_ROWS - 1 - ROAD_ROWS / 2) / ROAD_ROWS; }

static Number height(int row) { return NORTH + row * STEP - roads_below(row) * (STEP - ROAD); }

// An even number from -JITTER to JITTER, of a place.
static Number jitter(std::uint64_t place) {
  std::uint64_t z = place * 0x9E3779B97F4A7C15u + 0x632BE59BD9B4E019u;
  z = (z ^ (z >> 30)) * 0xBF58476D1CE4E5B9u;
  z = (z ^ (z >> 27)) * 0x94D049BB133111EBu;
  z ^= z >> 31;
  return 2 * static_cast<Number>(z % (JITTER + 1)) - JITTER;
}

static Point corner(int column, int row) {
  std::uint64_t place = (static_cast<std::uint64_t>(row) << 32) | static_cast<std::uint64_t>(column) << 1;
  bool is_straight = row == 0 || row == rows || is_road(row) || is_road(row - 1);
  Number x = column == 0 || column == columns ? 0 : jitter(place), y = is_straight ? 0 : jitter(place | 1);
  return {EAST + column * STEP + x, height(row) + y};
}

static Box box_of(const Ring& ring) {
  Box box{ring[0].x, ring[0].y, ring[0].x, ring[0].y};
  for (Point p : ring) box = {std::min(box.x0, p.x), std::min(box.y0, p.y), std::max(box.x1, p.x), std::max(box.y1, p.y)};
  return box;
}

static bool meets(const Box& a, const Box& b) { return a.x0 < b.x1 && b.x0 < a.x1 && a.y0 < b.y1 && b.y0 < a.y1; }

static std::string named(char letter, Number number) {
  char text[32];
  std::snprintf(text, sizeof text, "%c%09lld", letter, static_cast<long long>(number));
  return text;
}

static Parcel cell(int column, int row) {
  Point a = corner(column, row), b = corner(column + 1, row), c = corner(column + 1, row + 1), d = corner(column, row + 1);
  Point m{(a.x + b.x + c.x + d.x) / 4, (a.y + b.y + c.y + d.y) / 4};
  Number number = static_cast<Number>(row) * columns + column;
  Parcel parcel{named('P', number), {a, b, c, d}, {}, {}};
  if (number % 10 == 0) {
    Point t{(a.x + b.x) / 2, (a.y + b.y) / 2};
    parcel.pieces.push_back({{a, t, b, m}, {{a, t, m}, {t, b, m}}, 'A'});
    parcel.flats.push_back({a, b, t});
  } else {
    parcel.pieces.push_back({{a, b, m}, {{a, b, m}}, 'A'});
  }
  parcel.pieces.push_back({{b, c, m}, {{b, c, m}}, 'B'});
  parcel.pieces.push_back({{c, d, a, m}, {{c, d, m}, {d, a, m}}, number % 3 ? 'A' : 'C'});
  return parcel;
}

// A parcel of a road, from a column that is a multiple of ROAD_COLUMNS.
static Parcel road(int first, int row) {
  int last = std::min(columns, first + ROAD_COLUMNS), half = (first + last) / 2;
  auto at = [&](int column, int line) { return Point{EAST + column * STEP, height(line)}; };
  Point a = at(first, row), m = at(half, row), b = at(last, row), c = at(last, row + 1), n = at(half, row + 1), d = at(first, row + 1);
  Parcel parcel{named('R', static_cast<Number>(row) * columns + first), {a, b, c, d}, {}, {}};
  if (half == first) {
    parcel.pieces.push_back({{a, b, c, d}, {{a, b, c}, {a, c, d}}, 'C'});
    return parcel;
  }
  parcel.pieces.push_back({{a, m, n, d}, {{a, m, n}, {a, n, d}}, 'C'});
  parcel.pieces.push_back({{m, b, c, n}, {{m, b, c}, {m, c, n}}, 'C'});
  parcel.flats = {{a, b, m}, {c, d, n}};
  return parcel;
}

// Texts.

static void metres(std::string& out, Number value) {
  char text[32];
  std::snprintf(text, sizeof text, "%lld.%03lld", static_cast<long long>(value / 1000), static_cast<long long>(value % 1000));
  out += text;
}

static void polygon(std::string& out, const Ring& ring) {
  out += "\"POLYGON((";
  for (std::size_t i = 0; i <= ring.size(); i++) {
    if (i > 0) out += ',';
    metres(out, ring[i % ring.size()].x);
    out += ' ';
    metres(out, ring[i % ring.size()].y);
  }
  out += "))\"\n";
}

static void corners(std::string& out, char kind, const Triangle& t) {
  out += kind;
  for (Point p : t.p) out += ' ' + std::to_string(p.x) + ' ' + std::to_string(p.y);
  out += '\n';
}

static void put(const std::string& path, const std::string& text, const char* mode = "wb") {
  std::FILE* file = std::fopen(path.c_str(), mode);
  if (!file || std::fwrite(text.data(), 1, text.size(), file) != text.size() || std::fclose(file) != 0) {
    std::fprintf(stderr, "%s: it could not be written\n", path.c_str());
    std::exit(1);
  }
}

static const char CLASSES[] = "class,percent\nA,100\nB,0\nC,37\n";

static void add_rows(const Parcel& parcel, std::string& parcels, std::string& covers) {
  parcels += parcel.name + ',';
  polygon(parcels, parcel.ring);
  for (std::size_t k = 0; k < parcel.pieces.size(); k++) {
    covers += parcel.name + '-' + std::to_string(k + 1) + ',' + parcel.name + ',' + parcel.pieces[k].kind + ',';
    polygon(covers, parcel.pieces[k].ring);
  }
}

// Certificates.

static Number turn(Point a, Point b, Point c) { return (b.x - a.x) * (c.y - a.y) - (b.y - a.y) * (c.x - a.x); }

static bool separates(const Triangle& left, const Triangle& right, int edge) {
  Point a = left.p[edge], b = left.p[(edge + 1) % 3];
  return std::all_of(right.p, right.p + 3, [&](Point p) { return turn(a, b, p) <= 0; });
}

static int separator(const Triangle& one, const Triangle& two) {
  for (int k = 0; k < 3; k++) if (separates(one, two, k)) return k;
  for (int k = 0; k < 3; k++) if (separates(two, one, k)) return 3 + k;
  std::fputs("two triangles that no edge separates\n", stderr);
  std::exit(1);
}

using Pairs = std::vector<std::pair<std::uint32_t, std::uint32_t>>;

// All pairs of triangles whose boxes meet, by squares of two steps.
static Pairs near_pairs(const std::vector<Triangle>& triangles) {
  std::vector<Box> boxes;
  std::unordered_map<Number, std::vector<std::uint32_t>> squares;
  constexpr Number SIDE = 2 * STEP;
  for (std::uint32_t i = 0; i < triangles.size(); i++) {
    Box box = box_of({triangles[i].p, triangles[i].p + 3});
    boxes.push_back(box);
    for (Number x = box.x0 / SIDE; x <= box.x1 / SIDE; x++)
      for (Number y = box.y0 / SIDE; y <= box.y1 / SIDE; y++) squares[x * 1'000'003 + y].push_back(i);
  }
  Pairs pairs;
  for (auto& [place, here] : squares)
    for (std::size_t i = 0; i < here.size(); i++)
      for (std::size_t j = i + 1; j < here.size(); j++)
        if (meets(boxes[here[i]], boxes[here[j]])) pairs.push_back({here[i], here[j]});
  std::sort(pairs.begin(), pairs.end());
  pairs.erase(std::unique(pairs.begin(), pairs.end()), pairs.end());
  return pairs;
}

static std::string certificate(const std::vector<Parcel>& parcels) {
  std::string text = "lpis-cert 2\n", tail;
  std::vector<Triangle> triangles;
  for (const Parcel& parcel : parcels) {
    for (std::size_t k = 0; k < parcel.pieces.size(); k++) {
      text += "piece " + parcel.name + '-' + std::to_string(k + 1) + ' ' + std::to_string(parcel.pieces[k].triangles.size()) + " 0\n";
      for (const Triangle& t : parcel.pieces[k].triangles) {
        corners(text, 't', t);
        triangles.push_back(t);
      }
    }
    tail += "parcel " + parcel.name + ' ' + std::to_string(parcel.flats.size()) + '\n';
    for (const Triangle& t : parcel.flats) corners(tail, 'f', t);
  }
  text += tail;
  Pairs pairs = near_pairs(triangles);
  text += "pairs " + std::to_string(pairs.size()) + '\n';
  for (auto [i, j] : pairs) text += "s " + std::to_string(i) + ' ' + std::to_string(j) + ' ' + std::to_string(separator(triangles[i], triangles[j])) + '\n';
  return text + "end\n";
}

// The tiling. A region has the cells of these columns and rows whole or in part: `is_cut` says on which sides a cut goes through the middle.

struct Tile { int column0, column1, row0, row1; Box box; };

static Number most, regions = 0, row_count = 0, parcel_count = 0, piece_count = 0, several = 0;
static std::string tiling = "lpis-country 1\n", out;

// The parcels whose boxes meet a tile, in the order of the whole.
template <class Take> static void parcels_in(const Tile& tile, Take take) {
  for (int row = std::max(0, tile.row0 - 1); row <= std::min(rows - 1, tile.row1 + 1); row++) {
    int step = is_road(row) ? ROAD_COLUMNS : 1, first = std::max(0, tile.column0 - 1) / step * step;
    for (int column = first; column <= std::min(columns - 1, tile.column1 + 1); column += step) {
      Parcel parcel = is_road(row) ? road(column, row) : cell(column, row);
      Box box = box_of(parcel.ring);
      if (meets(box, tile.box)) take(std::move(parcel), box);
    }
  }
}

static void write_region(const Tile& tile) {
  char name[32];
  std::snprintf(name, sizeof name, "r%04lld", static_cast<long long>(++regions));
  tiling += std::string("region ") + name + '\n';
  std::string folder = out + '/' + name, parcels = "parcel,wkt\n", covers = "piece,parcel,class,wkt\n";
  std::vector<Parcel> all;
  parcels_in(tile, [&](Parcel parcel, Box box) {
    row_count++;
    // It is counted in the tile of its box's first corner; it is in several where the box is not in one.
    if (tile.box.x0 <= box.x0 && box.x0 < tile.box.x1 && tile.box.y0 <= box.y0 && box.y0 < tile.box.y1) {
      parcel_count++;
      piece_count += static_cast<Number>(parcel.pieces.size());
      several += box.x1 > tile.box.x1 || box.y1 > tile.box.y1;
    }
    add_rows(parcel, parcels, covers);
    all.push_back(std::move(parcel));
  });
  mkdir(folder.c_str(), 0755);
  put(folder + "/parcels.csv", parcels);
  put(folder + "/covers.csv", covers);
  put(folder + "/classes.csv", CLASSES);
  put(folder + "/cert.txt", certificate(all));
}

// Cuts a tile through the middle of a column or a row, the longer way.
static void part(const Tile& tile) {
  Number across = tile.column1 - tile.column0 + 1, along = tile.row1 - tile.row0 + 1, wanted = (across * along * 102 / 100 + most - 1) / most;
  if (across * along <= most) return write_region(tile);
  Tile low = tile, high = tile;
  if (across >= along) {
    int column = tile.column0 + static_cast<int>(across * (wanted / 2) / wanted);
    Number cut = EAST + column * STEP + STEP / 2;
    tiling += "x " + std::to_string(cut) + '\n';
    low.column1 = high.column0 = column;
    low.box.x1 = high.box.x0 = cut;
  } else {
    int row = tile.row0 + static_cast<int>(along * (wanted / 2) / wanted);
    row += is_road(row);
    Number cut = height(row) + STEP / 2;
    tiling += "y " + std::to_string(cut) + '\n';
    low.row1 = high.row0 = row;
    low.box.y1 = high.box.y0 = cut;
  }
  part(low);
  part(high);
}

static void write_source(const std::string& folder, const Tile& whole) {
  std::string parcels = "parcel,wkt\n", covers = "piece,parcel,class,wkt\n";
  mkdir(folder.c_str(), 0755);
  put(folder + "/classes.csv", CLASSES);
  put(folder + "/parcels.csv", "");
  put(folder + "/covers.csv", "");
  auto flush = [&] {
    put(folder + "/parcels.csv", parcels, "ab");
    put(folder + "/covers.csv", covers, "ab");
    parcels.clear();
    covers.clear();
  };
  parcels_in(whole, [&](const Parcel& parcel, Box) {
    add_rows(parcel, parcels, covers);
    if (covers.size() > 50'000'000) flush();
  });
  flush();
}

int main(int count, char** words) {
  if (count < 4) return std::fputs("make_country PARCELS MOST OUT [SOURCE]\n", stderr), 2;
  Number parcels = std::atoll(words[1]);
  most = std::atoll(words[2]);
  out = words[3];
  for (columns = 1; static_cast<Number>(columns) * columns < parcels; columns++) {}
  rows = static_cast<int>(parcels / columns);
  mkdir(out.c_str(), 0755);
  constexpr Number FAR = 20'000'000'001;
  Tile whole{0, columns - 1, 0, rows - 1, {-FAR, -FAR, FAR, FAR}};
  part(whole);
  put(out + "/country.txt", tiling);
  put(out + "/classes.csv", CLASSES);
  if (count > 4) write_source(words[4], whole);
  std::printf("regions %lld parcels %lld pieces %lld rows %lld several %lld\n", static_cast<long long>(regions), static_cast<long long>(parcel_count),
              static_cast<long long>(piece_count), static_cast<long long>(row_count), static_cast<long long>(several));
}
