// The calls on a tree, by C: calls AXES SHAPE ROWS. Compiled with -DWRAPPER, by juicedelta.hpp; with -DPEER_BOOST or
// -DPEER_SPATIALINDEX, by Boost.Geometry's rtree<.., rstar<51>> or libspatialindex's R*-tree, which need their headers. Prints a
// line of nanoseconds a call and a checksum for each kind of call; `bytes` are resident bytes a row.
#include "draw.hpp"
#include <algorithm>
#include <cstdlib>
#include <iterator>
#include <numeric>
#include <string>
#include <utility>
#include <vector>

#if defined(PEER_BOOST)
#include <boost/geometry.hpp>
#include <boost/geometry/index/rtree.hpp>
#include <boost/iterator/function_output_iterator.hpp>
namespace bg = boost::geometry;
namespace bgi = boost::geometry::index;

template <int Axes> class Tree {
    using Box = BoxOf<Axes>;
    using At = bg::model::point<int32_t, Axes, bg::cs::cartesian>;
    using Row = std::pair<bg::model::box<At>, int64_t>;
    bgi::rtree<Row, bgi::rstar<51>> tree;
    static At at(const int32_t *numbers)
    {
        if constexpr (Axes == 1)
            return At(numbers[0]);
        else if constexpr (Axes == 2)
            return At(numbers[0], numbers[1]);
        else
            return At(numbers[0], numbers[1], numbers[2]);
    }
    static bg::model::box<At> of(const Box &box) { return {at(box.min), at(box.max)}; }

public:
    void insert(int64_t id, const Box &box) { tree.insert(Row(of(box), id)); }
    void remove(int64_t id, const Box &box) { tree.remove(Row(of(box), id)); }
    int64_t search(const Box &box)
    {
        int64_t sum = 0;
        auto add = [&](const Row &row) { sum += row.second; };
        tree.query(bgi::intersects(of(box)), boost::make_function_output_iterator(add));
        return sum;
    }
    int64_t count(const Box &box)
    {
        int64_t rows = 0;
        auto add = [&](const Row &) { rows++; };
        tree.query(bgi::intersects(of(box)), boost::make_function_output_iterator(add));
        return rows;
    }
    int64_t nearest(const int32_t *point)
    {
        int64_t rows = 0;
        auto add = [&](const Row &) { rows++; };
        tree.query(bgi::nearest(at(point), 10), boost::make_function_output_iterator(add));
        return rows;
    }
};
#elif defined(PEER_SPATIALINDEX)
#include <spatialindex/capi/sidx_api.h>

template <int Axes> class Tree {
    using Box = BoxOf<Axes>;
    IndexH tree;
    struct Ends {
        double min[Axes], max[Axes];
        Ends(const int32_t *least, const int32_t *most)
        {
            std::copy(least, least + Axes, min);
            std::copy(most, most + Axes, max);
        }
        explicit Ends(const Box &box) : Ends(box.min, box.max) {}
    };

public:
    Tree()
    {
        IndexPropertyH properties = IndexProperty_Create();
        IndexProperty_SetIndexType(properties, RT_RTree);
        IndexProperty_SetIndexVariant(properties, RT_Star);
        IndexProperty_SetIndexStorage(properties, RT_Memory);
        IndexProperty_SetDimension(properties, Axes);
        IndexProperty_SetIndexCapacity(properties, 51);
        IndexProperty_SetLeafCapacity(properties, 51);
        tree = Index_Create(properties);
    }
    void insert(int64_t id, const Box &box)
    {
        Ends ends(box);
        Index_InsertData(tree, id, ends.min, ends.max, Axes, nullptr, 0);
    }
    void remove(int64_t id, const Box &box)
    {
        Ends ends(box);
        Index_DeleteData(tree, id, ends.min, ends.max, 2);
    }
    int64_t search(const Box &box)
    {
        Ends ends(box);
        int64_t *ids = nullptr, sum = 0;
        uint64_t total = 0;
        Index_Intersects_id(tree, ends.min, ends.max, Axes, &ids, &total);
        for (uint64_t at = 0; at < total; at++)
            sum += ids[at];
        Index_Free(ids);
        return sum;
    }
    int64_t count(const Box &box)
    {
        Ends ends(box);
        uint64_t total = 0;
        Index_Intersects_count(tree, ends.min, ends.max, Axes, &total);
        return int64_t(total);
    }
    int64_t nearest(const int32_t *point)
    {
        Ends ends(point, point);
        int64_t *ids = nullptr;
        uint64_t total = 10;
        Index_NearestNeighbors_id(tree, ends.min, ends.max, Axes, &ids, &total);
        Index_Free(ids);
        return 10; // with those that are as near as the tenth
    }
};
#elif defined(WRAPPER)
#include "juicedelta.hpp"

template <int Axes> class Tree {
    using Box = BoxOf<Axes>;
    juicedelta::Tree<Axes> tree;
    static juicedelta::Box<Axes> of(const Box &box)
    {
        juicedelta::Box<Axes> made;
        std::copy(std::begin(box.min), std::end(box.min), made.min.begin());
        std::copy(std::begin(box.max), std::end(box.max), made.max.begin());
        return made;
    }

public:
    void insert(int64_t id, const Box &box) { tree.insert(id, of(box)); }
    void remove(int64_t id, const Box &) { tree.remove(id); }
    int64_t look_up(int64_t id) { return tree.get(id)->min[0]; }
    int64_t search(const Box &box)
    {
        std::vector<int64_t> ids = tree.search(of(box));
        return std::accumulate(ids.begin(), ids.end(), int64_t(0));
    }
    int64_t count(const Box &box) { return int64_t(tree.count(of(box))); }
    int64_t nearest(const int32_t *point)
    {
        juicedelta::Point<Axes> at;
        std::copy(point, point + Axes, at.at.begin());
        return int64_t(tree.nearest(at, 10).size());
    }
};
#else
#include "juicedelta.h"

template <int Axes> class Tree {
    using Box = BoxOf<Axes>;
    juicedelta_handle tree = {};
    std::vector<int64_t> ids = std::vector<int64_t>(16);
    static const int32_t *of(const Box &box) { return box.min; }

public:
    Tree() { juicedelta_tree_open(&tree, Axes, 51, 1, 2); }
    void insert(int64_t id, const Box &box) { juicedelta_tree_insert(&tree, id, of(box), 2 * Axes); }
    void remove(int64_t id, const Box &) { juicedelta_tree_remove(&tree, id); }
    int64_t look_up(int64_t id)
    {
        int32_t box[2 * Axes] = {};
        juicedelta_tree_get(&tree, id, box, 2 * Axes);
        return box[0];
    }
    int64_t search(const Box &box)
    {
        uint64_t total = 0;
        while (juicedelta_tree_search(&tree, JUICEDELTA_TOUCHES, of(box), 2 * Axes, ids.data(), ids.size(), &total) == JUICEDELTA_BUFFER_TOO_SMALL)
            ids.resize(2 * total);
        return std::accumulate(ids.data(), ids.data() + total, int64_t(0));
    }
    int64_t count(const Box &box)
    {
        uint64_t total = 0;
        juicedelta_tree_count(&tree, JUICEDELTA_TOUCHES, of(box), 2 * Axes, &total);
        return int64_t(total);
    }
    int64_t nearest(const int32_t *point)
    {
        int64_t nearest[10];
        int32_t boxes[20 * Axes];
        uint64_t total = 0;
        juicedelta_tree_nearest(&tree, point, Axes, nearest, 10, boxes, 20 * Axes, &total);
        return int64_t(total);
    }
};
#endif

template <int Axes> static void measure(Shape shape, uint64_t rows)
{
    const uint64_t few = 2000, many = 200;
    // A hundredth of the rows is a thousand of 100,000.
    const int32_t ten = reach(Axes, shape, rows, 10), thousand = reach(Axes, shape, rows, rows / 100 + 1);
    auto around = [=](uint64_t turn, int32_t grow) { return window<Axes>(shape, rows, turn, grow); };
    auto scattered = [=](uint64_t turn) { return turn * 7919 % rows; };
    std::vector<BoxOf<Axes>> boxes;
    for (uint64_t row = 1; row <= rows; row++)
        boxes.push_back(box_of<Axes>(shape, row, 0));
    const double before = resident();
    Tree<Axes> tree;
    timed("insert", rows, [&](uint64_t at) { return tree.insert(int64_t(at + 1), boxes[at]), 0; });
    std::printf("bytes %.1f 0\n", (resident() - before) / double(rows));
#if !defined(PEER_BOOST) && !defined(PEER_SPATIALINDEX)
    timed("look_up", rows, [&](uint64_t at) { return tree.look_up(int64_t(scattered(at) + 1)); });
#endif
    timed("search_10", few, [&](uint64_t at) { return tree.search(around(at, ten)); });
    timed("search_1000", many, [&](uint64_t at) { return tree.search(around(at, thousand)); });
    timed("count_1000", many, [&](uint64_t at) { return tree.count(around(at, thousand)); });
    timed("nearest_10", few, [&](uint64_t at) { return tree.nearest(around(at, ten).min); });
    timed("delete", rows / 2, [&](uint64_t at) {
        uint64_t row = scattered(at);
        return tree.remove(int64_t(row + 1), boxes[row]), 0;
    });
    BoxOf<Axes> all;
    std::fill_n(all.min, Axes, 0), std::fill_n(all.max, Axes, 2000000);
    timed("left", 1, [&](uint64_t) { return tree.search(all); });
}

int main(int count, char **words)
{
    const std::vector<std::string> names = {"uniform", "clustered", "dense", "sorted"};
    const auto name = std::find(names.begin(), names.end(), count == 4 ? words[2] : "");
    if (name == names.end())
        return 2;
    const Shape shape = Shape(name - names.begin());
    const uint64_t axes = std::strtoull(words[1], nullptr, 10), rows = std::strtoull(words[3], nullptr, 10);
    axes == 1 ? measure<1>(shape, rows) : axes == 2 ? measure<2>(shape, rows) : measure<3>(shape, rows);
}
