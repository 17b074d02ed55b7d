// The peers: each holds marks and counts those of a pane, with the sum of their grades and the worst. Only the register and its twin tell visits and what was
// rebuilt, and only they look whether a mark that is inserted is there already.
#ifndef PEERS_HPP
#define PEERS_HPP

#include "markregister.h"
#include "twin.h"
#include "work.hpp"

#include <algorithm>
#include <cstdlib>
#include <utility>
#include <vector>

// gcc warns of Boost's own insertion where it is inlined, and Boost of its own headers.
#define BOOST_ALLOW_DEPRECATED_HEADERS
#pragma GCC diagnostic push
#pragma GCC diagnostic ignored "-Wmaybe-uninitialized"
#include <boost/geometry.hpp>
#include <boost/geometry/index/rtree.hpp>
#include <boost/iterator/function_output_iterator.hpp>
#pragma GCC diagnostic pop

struct Counted {
    uint32_t marks = 0, visits = 0, sum = 0, worst = 0;
};

// The words of a table, touched once before any clock runs.
using Words = std::vector<uint32_t>;

// The work has no call that is refused.
inline void accept(uint32_t number) {
    if (number != 0) abort();
}

class Register {
    Words words;

public:
    explicit Register(uint32_t n) : words(register_words(n)) {
        uint32_t live;
        accept(register_open(words.data(), words.size(), n, &live));
    }

    uint32_t insert(Mark m) {
        uint32_t live, rebuilt;
        accept(register_insert(words.data(), words.size(), m.x, m.y, m.tag, m.grade, &live, &rebuilt));
        return rebuilt;
    }

    uint32_t strike(Mark m) {
        uint32_t live, rebuilt;
        accept(register_strike(words.data(), words.size(), m.x, m.y, m.tag, &live, &rebuilt));
        return rebuilt;
    }

    Counted count(Pane p) const {
        Counted c;
        accept(register_count(words.data(), words.size(), p.x1, p.x2, p.y1, p.y2, &c.marks, &c.visits, &c.sum, &c.worst));
        return c;
    }
};

class Twin {
protected:
    Words words;

public:
    explicit Twin(uint32_t n) : words(register_words(n)) {
        uint32_t live;
        accept(twin_open(words.data(), n, &live));
    }

    uint32_t insert(Mark m) {
        uint32_t live, rebuilt;
        accept(twin_insert(words.data(), m.x, m.y, m.tag, m.grade, &live, &rebuilt));
        return rebuilt;
    }

    uint32_t strike(Mark m) {
        uint32_t live, rebuilt;
        accept(twin_strike(words.data(), m.x, m.y, m.tag, &live, &rebuilt));
        return rebuilt;
    }

    Counted count(Pane p) const {
        Counted c;
        accept(twin_count(words.data(), p.x1, p.x2, p.y1, p.y2, &c.marks, &c.visits, &c.sum, &c.worst));
        return c;
    }
};

// The twin with the register's way of counting: what the proof costs, and not the way.
class Parted : public Twin {
public:
    using Twin::Twin;

    Counted count(Pane p) const {
        Counted c;
        accept(twin_count_parted(words.data(), p.x1, p.x2, p.y1, p.y2, &c.marks, &c.visits, &c.sum, &c.worst));
        return c;
    }
};

// Every mark is looked at. A column for each number, which the compiler makes vectors of.
class Scan {
    std::vector<uint32_t> x, y, tag, grade;

    template <class Step> void each_column(Step step) {
        for (std::vector<uint32_t> *column : {&x, &y, &tag, &grade}) step(*column);
    }

public:
    explicit Scan(uint32_t n) {
        each_column([=](auto &column) { column.reserve(n); });
    }

    uint32_t insert(Mark m) {
        x.push_back(m.x);
        y.push_back(m.y);
        tag.push_back(m.tag);
        grade.push_back(m.grade);
        return 0;
    }

    uint32_t strike(Mark m) {
        for (size_t i = 0; i < tag.size(); i++)
            if (tag[i] == m.tag && x[i] == m.x && y[i] == m.y) {
                each_column([=](auto &column) {
                    column[i] = column.back();
                    column.pop_back();
                });
                return 0;
            }
        abort();
    }

    Counted count(Pane p) const {
        Counted c;
        for (size_t i = 0; i < x.size(); i++) {
            uint32_t in = (p.x1 <= x[i]) & (x[i] < p.x2) & (p.y1 <= y[i]) & (y[i] < p.y2), g = in * grade[i];
            c.marks += in;
            c.sum += g;
            c.worst = std::max(c.worst, g);
        }
        return c;
    }
};

template <class Strategy> class Boost {
    using Point = boost::geometry::model::point<uint32_t, 2, boost::geometry::cs::cartesian>;
    using Box = boost::geometry::model::box<Point>;

    struct Label {
        uint32_t tag, grade;
        bool operator==(const Label &other) const { return tag == other.tag; }
    };

    using Value = std::pair<Point, Label>;
    boost::geometry::index::rtree<Value, Strategy> tree;

    static Value value(Mark m) { return {Point(m.x, m.y), {m.tag, m.grade}}; }

public:
    explicit Boost(uint32_t) {}

    uint32_t insert(Mark m) {
        tree.insert(value(m));
        return 0;
    }

    uint32_t strike(Mark m) {
        if (tree.remove(value(m)) != 1) abort();
        return 0;
    }

    // Goes through what is found without keeping it. Boost's boxes have all their ends, and no trial pane is empty.
    Counted count(Pane p) const {
        Counted c;
        auto each = [&c](const Value &v) {
            c.sum += v.second.grade;
            c.worst = std::max(c.worst, v.second.grade);
        };
        Box box(Point(p.x1, p.y1), Point(p.x2 - 1, p.y2 - 1));
        c.marks = static_cast<uint32_t>(tree.query(boost::geometry::index::intersects(box), boost::make_function_output_iterator(each)));
        return c;
    }
};

using RStar = Boost<boost::geometry::index::rstar<16>>;
using Quadratic = Boost<boost::geometry::index::quadratic<16>>;

#endif
