// The work of a map program: rows loaded at once, windows, the nearest rows, moves, joins, many windows in a call, trees that are kept,
// and moves that are told to the windows that see them. map ROWS: for each line of input that names a kind of work, it does that work
// and prints, for each part, a line with a name, nanoseconds a call or a row, and a checksum; then an empty line. `bytes` are resident
// bytes a row. So programs can take turns, each with its trees made. Compiled with -DPEER_BOOST or -DPEER_SPATIALINDEX it does the same
// with Boost.Geometry's rtree or libspatialindex; work that it can't do prints nothing.
#include "draw.hpp"
#include <algorithm>
#include <cstdlib>
#include <iostream>
#include <memory>
#include <string>
#include <thread>
#include <utility>
#include <vector>

struct Rows {
    std::vector<int64_t> ids;
    std::vector<Box> boxes;
};

// What a window is told of a row that left it, came into it, or moved in it.
struct Change {
    int64_t window, id;
    int kind;
};

static int64_t sum_of(const Change *changes, size_t count)
{
    int64_t sum = 0;
    for (size_t at = 0; at < count; at++)
        sum += 3 * changes[at].window + changes[at].id + changes[at].kind;
    return sum;
}

#if defined(PEER_BOOST)
#include <boost/geometry.hpp>
#include <boost/geometry/index/rtree.hpp>
#include <boost/iterator/function_output_iterator.hpp>
namespace bg = boost::geometry;
namespace bgi = boost::geometry::index;

template <int Most> class TreeOf {
    using At = bg::model::point<int32_t, 2, bg::cs::cartesian>;
    using Area = bg::model::box<At>;
    using Row = std::pair<Area, int64_t>;
    bgi::rtree<Row, bgi::rstar<Most>> tree;
    static Area of(const Box &box) { return {At(box.min[0], box.min[1]), At(box.max[0], box.max[1])}; }

public:
    TreeOf() = default;
    explicit TreeOf(const Rows &rows)
    {
        std::vector<Row> all;
        all.reserve(rows.ids.size());
        for (size_t at = 0; at < rows.ids.size(); at++)
            all.emplace_back(of(rows.boxes[at]), rows.ids[at]);
        tree = bgi::rtree<Row, bgi::rstar<Most>>(all);
    }
    void insert(int64_t id, const Box &box) { tree.insert(Row(of(box), id)); }
    void remove(int64_t id, const Box &box) { tree.remove(Row(of(box), id)); }
    int64_t search(const Box &box) const
    {
        int64_t sum = 0;
        auto add = [&](const Row &row) { sum += row.second; };
        tree.query(bgi::intersects(of(box)), boost::make_function_output_iterator(add));
        return sum;
    }
    void find(const Box &box, std::vector<int64_t> &ids) const
    {
        ids.clear();
        auto add = [&](const Row &row) { ids.push_back(row.second); };
        tree.query(bgi::intersects(of(box)), boost::make_function_output_iterator(add));
        std::sort(ids.begin(), ids.end());
    }
    int64_t nearest(const int32_t *at, unsigned k) const
    {
        int64_t rows = 0;
        auto add = [&](const Row &) { rows++; };
        tree.query(bgi::nearest(At(at[0], at[1]), k), boost::make_function_output_iterator(add));
        return rows;
    }
};
using Tree = TreeOf<51>;
using Small = TreeOf<16>;

// Rows and windows by hand: a tree of each, and their boxes by id.
template <class Any> class LiveOf {
    Any rows, windows;
    std::vector<Box> boxes, views;
    std::vector<int64_t> before, after;
    std::vector<Change> changes;
    // Lists what was found before and after, of one window or of one row.
    template <class Make> int64_t told(bool tells_moves, Make make)
    {
        changes.clear();
        for (auto old = before.begin(), now = after.begin(); old != before.end() || now != after.end();) {
            if (now == after.end() || (old != before.end() && *old < *now))
                changes.push_back(make(*old++, 0));
            else if (old == before.end() || *now < *old)
                changes.push_back(make(*now++, 1));
            else {
                if (tells_moves)
                    changes.push_back(make(*old, 2));
                old++, now++;
            }
        }
        return sum_of(changes.data(), changes.size());
    }

public:
    explicit LiveOf(const Rows &all) : boxes(all.ids.size() + 1)
    {
        for (size_t at = 0; at < all.ids.size(); at++)
            rows.insert(all.ids[at], boxes[size_t(all.ids[at])] = all.boxes[at]);
    }
    void watch(int64_t window, const Box &box)
    {
        views.resize(size_t(window) + 1);
        windows.insert(window, views[size_t(window)] = box);
    }
    void unwatch(int64_t window) { windows.remove(window, views[size_t(window)]); }
    int64_t move(int64_t id, const Box &box)
    {
        Box &own = boxes[size_t(id)];
        windows.find(own, before), windows.find(box, after);
        rows.remove(id, own), rows.insert(id, own = box);
        return told(true, [&](int64_t window, int kind) { return Change{window, id, kind}; });
    }
    int64_t shift(int64_t window, const Box &box)
    {
        Box &own = views[size_t(window)];
        rows.find(own, before), rows.find(box, after);
        windows.remove(window, own), windows.insert(window, own = box);
        return told(false, [&](int64_t id, int kind) { return Change{window, id, kind}; });
    }
    int64_t search(const Box &box) const { return rows.search(box); }
};
using Live = LiveOf<Tree>;
using SmallLive = LiveOf<Small>;
#elif defined(PEER_SPATIALINDEX)
#include <spatialindex/capi/sidx_api.h>

class Tree {
    IndexH tree;
    struct Ends {
        double min[2], max[2];
        explicit Ends(const Box &box) : min{double(box.min[0]), double(box.min[1])}, max{double(box.max[0]), double(box.max[1])} {}
    };
    static IndexPropertyH properties()
    {
        IndexPropertyH made = IndexProperty_Create();
        IndexProperty_SetIndexType(made, RT_RTree);
        IndexProperty_SetIndexVariant(made, RT_Star);
        IndexProperty_SetIndexStorage(made, RT_Memory);
        IndexProperty_SetDimension(made, 2);
        IndexProperty_SetIndexCapacity(made, 51);
        IndexProperty_SetLeafCapacity(made, 51);
        return made;
    }
    // What the stream of its loader reads.
    static inline const Rows *source;
    static inline size_t place;
    static inline double ends[4];
    static int next(int64_t *id, double **min, double **max, uint32_t *axes, const uint8_t **data, size_t *length)
    {
        if (place == source->ids.size())
            return 1;
        const Box &box = source->boxes[place];
        ends[0] = box.min[0], ends[1] = box.min[1], ends[2] = box.max[0], ends[3] = box.max[1];
        *id = source->ids[place++], *min = ends, *max = ends + 2, *axes = 2, *data = nullptr, *length = 0;
        return 0;
    }

public:
    explicit Tree(const Rows &rows)
    {
        source = &rows, place = 0;
        tree = Index_CreateWithStream(properties(), next);
    }
    int64_t search(const Box &box) const
    {
        Ends wide(box);
        int64_t *ids = nullptr, sum = 0;
        uint64_t total = 0;
        Index_Intersects_id(tree, wide.min, wide.max, 2, &ids, &total);
        for (uint64_t at = 0; at < total; at++)
            sum += ids[at];
        Index_Free(ids);
        return sum;
    }
};
#else
#include "juicedelta.h"

static void must(int32_t code)
{
    if (code != JUICEDELTA_OK) {
        std::fprintf(stderr, "map: code %d\n", int(code));
        std::exit(1);
    }
}
static const int32_t *of(const Box &box) { return box.min; }

class Tree {
    juicedelta_handle tree = {};

public:
    Tree() { must(juicedelta_tree_open(&tree, 2, 51, 1, 2)); }
    explicit Tree(const Rows &rows)
    {
        uint64_t at = 0;
        must(juicedelta_tree_open_rows(&tree, 2, 51, rows.ids.data(), rows.ids.size(), of(rows.boxes[0]), 4 * rows.ids.size(), 1, 2, &at));
    }
    Tree(const std::string &bytes, bool is_dump)
    {
        auto text = reinterpret_cast<const uint8_t *>(bytes.data());
        must(is_dump ? juicedelta_tree_open_dump(&tree, 2, text, bytes.size(), 1, 2) : juicedelta_tree_open_bytes(&tree, 2, text, bytes.size(), 1, 2));
    }
    Tree(const Tree &) = delete;
    ~Tree() { juicedelta_close(&tree); }
    void insert(int64_t id, const Box &box) { must(juicedelta_tree_insert(&tree, id, of(box), 4)); }
    void remove(int64_t id, const Box &) { must(juicedelta_tree_remove(&tree, id)); }
    void move(int64_t id, const Box &box) { must(juicedelta_tree_move(&tree, id, of(box), 4)); }
    int64_t search(const Box &box) const
    {
        thread_local std::vector<int64_t> ids(1 << 18);
        uint64_t total = 0;
        int64_t sum = 0;
        must(juicedelta_tree_search(&tree, JUICEDELTA_TOUCHES, of(box), 4, ids.data(), ids.size(), &total));
        for (uint64_t at = 0; at < total; at++)
            sum += ids[at];
        return sum;
    }
    int64_t search_many(const std::vector<Box> &windows, std::vector<int64_t> &ids) const
    {
        std::vector<uint64_t> starts(windows.size());
        uint64_t total = 0;
        int64_t sum = 0;
        must(juicedelta_tree_search_many(&tree, JUICEDELTA_TOUCHES, of(windows[0]), 4 * windows.size(), starts.data(), starts.size(), ids.data(), ids.size(), &total));
        for (uint64_t at = 0; at < total; at++)
            sum += ids[at];
        return sum;
    }
    int64_t nearest(const int32_t *point, unsigned k) const
    {
        int64_t ids[10];
        int32_t boxes[40];
        uint64_t total = 0;
        must(juicedelta_tree_nearest(&tree, point, 2, ids, k, boxes, 4 * k, &total));
        return int64_t(total);
    }
    int64_t join(const Tree &other, std::vector<int64_t> &left, std::vector<int64_t> &right) const
    {
        uint64_t total = 0;
        int64_t sum = 0;
        must(juicedelta_tree_join(&tree, &other.tree, left.data(), left.size(), right.data(), right.size(), &total));
        for (uint64_t at = 0; at < total; at++)
            sum += left[at];
        return sum;
    }
    std::string text(bool is_dump) const
    {
        std::string bytes;
        for (uint64_t total = 0;; bytes.resize(total)) {
            auto text = reinterpret_cast<uint8_t *>(&bytes[0]);
            int32_t code = is_dump ? juicedelta_tree_dump(&tree, text, bytes.size(), &total) : juicedelta_tree_to_bytes(&tree, text, bytes.size(), &total);
            if (code != JUICEDELTA_BUFFER_TOO_SMALL)
                return must(code), bytes;
        }
    }
};

class Live {
    juicedelta_handle live = {};
    std::vector<int64_t> windows, ids;
    std::vector<uint8_t> kinds;
    std::vector<Change> changes;
    // Lists what an edit told.
    int64_t told(int32_t code, uint64_t count)
    {
        must(code);
        if (windows.size() < count)
            windows.resize(count), ids.resize(count), kinds.resize(count);
        if (count > 0)
            must(juicedelta_live_changes(&live, windows.data(), windows.size(), ids.data(), ids.size(), kinds.data(), kinds.size(), &count));
        changes.clear();
        for (size_t at = 0; at < count; at++)
            changes.push_back({windows[at], ids[at], kinds[at]});
        return sum_of(changes.data(), changes.size());
    }

public:
    explicit Live(const Rows &all)
    {
        uint64_t count = 0;
        must(juicedelta_live_open(&live, 2, 51, 1, 2));
        for (size_t at = 0; at < all.ids.size(); at++)
            must(juicedelta_live_insert(&live, all.ids[at], of(all.boxes[at]), 4, &count));
    }
    Live(const Live &) = delete;
    ~Live() { juicedelta_close(&live); }
    void watch(int64_t window, const Box &box)
    {
        uint64_t count = 0;
        must(juicedelta_live_watch(&live, window, of(box), 4, &count));
    }
    void unwatch(int64_t window)
    {
        uint64_t count = 0;
        must(juicedelta_live_unwatch(&live, window, &count));
    }
    int64_t move(int64_t id, const Box &box)
    {
        uint64_t count = 0;
        int32_t code = juicedelta_live_move(&live, id, of(box), 4, &count);
        return told(code, count);
    }
    int64_t shift(int64_t window, const Box &box)
    {
        uint64_t count = 0;
        int32_t code = juicedelta_live_shift(&live, window, of(box), 4, &count);
        return told(code, count);
    }
    int64_t search(const Box &box) const
    {
        thread_local std::vector<int64_t> found(1 << 18);
        uint64_t total = 0;
        int64_t sum = 0;
        must(juicedelta_tree_search(&live, JUICEDELTA_TOUCHES, of(box), 4, found.data(), found.size(), &total));
        for (uint64_t at = 0; at < total; at++)
            sum += found[at];
        return sum;
    }
};
#endif

// Windows of ten rows and of a thousand.
static void windows_of(const Tree &tree, uint64_t rows, const char *ten, const char *thousand)
{
    const int32_t near = reach(rows, 10), far = reach(rows, 1000);
    timed(ten, 20000, [&](uint64_t at) { return tree.search(window(rows, at, near)); });
    timed(thousand, 1000, [&](uint64_t at) { return tree.search(window(rows, at, far)); });
}

#if !defined(PEER_SPATIALINDEX)
template <class Any> static void nearest_of(const Any &tree, uint64_t rows, const char *one, const char *ten)
{
    timed(one, 20000, [&](uint64_t at) { return tree.nearest(window(rows, at, 50).min, 1); });
    timed(ten, 20000, [&](uint64_t at) { return tree.nearest(window(rows, at, 50).min, 10); });
}

// Two pairs a row: rows of the other tree are drawn by other numbers, and wider.
static Rows others_of(uint64_t rows)
{
    Rows made;
    const int32_t grow = reach(rows, 2) - 50 > 0 ? reach(rows, 2) - 50 : 0;
    for (uint64_t row = 1; row <= rows; row++)
        made.ids.push_back(int64_t(row)), made.boxes.push_back(box_of(row + (uint64_t(1) << 40), grow));
    return made;
}

static void joins(const Tree &tree, uint64_t rows)
{
    const Rows others = others_of(rows);
    timed("asked", rows, [&](uint64_t at) { return tree.search(others.boxes[at]); });
#if !defined(PEER_BOOST)
    const Tree other(others);
    std::vector<int64_t> left(8 * rows), right(8 * rows);
    double begun = now();
    int64_t sum = tree.join(other, left, right);
    std::printf("join %.0f %lld\n", (now() - begun) / double(rows), static_cast<long long>(sum));
#endif
}

// A row that goes to another place, and its old box.
struct Move {
    int64_t id;
    Box there, back;
};

// Moves of a tenth of the rows, other rows for each number. They stand in a list, as they come to a program, so that no side waits for
// the list that rows are drawn from.
static std::vector<Move> moves_of(const Rows &all, uint64_t tenth)
{
    const uint64_t rows = all.ids.size(), some = rows / 10;
    std::vector<Move> moves;
    for (uint64_t turn = tenth % 10 * some; moves.size() < some; turn++) {
        const uint64_t row = turn * 7919 % rows;
        Box there = all.boxes[row];
        there.min[0] += 30, there.max[0] += 30;
        moves.push_back({all.ids[row], there, all.boxes[row]});
    }
    return moves;
}

// Rows are moved, and others are removed and inserted, and all go back, so that each turn meets the same tree. A turn takes rows that
// none before it took: the ids of rows that were removed and inserted stand one after another at the end of a map, which is faster
// than where they were.
static void moves(Tree &tree, const Rows &all, uint64_t turn)
{
    const std::vector<Move> fed = moves_of(all, 2 * turn), others = moves_of(all, 2 * turn + 1);
    auto replace = [&](int64_t id, const Box &old, const Box &box) { return tree.remove(id, old), tree.insert(id, box), 0; };
#if !defined(PEER_BOOST)
    timed("move", fed.size(), [&](uint64_t at) { return tree.move(fed[at].id, fed[at].there), 0; });
#endif
    timed("replace", others.size(), [&](uint64_t at) { return replace(others[at].id, others[at].back, others[at].there); });
#if !defined(PEER_BOOST)
    timed("move_back", fed.size(), [&](uint64_t at) { return tree.move(fed[at].id, fed[at].back), 0; });
#endif
    timed("replace_back", others.size(), [&](uint64_t at) { return replace(others[at].id, others[at].there, others[at].back); });
}

// A screen that shows a hundred rows, a few steps on.
static Box screen(uint64_t rows, uint64_t number, int32_t steps)
{
    Box box = box_of(number + (uint64_t(1) << 41), reach(rows, 100));
    return box.min[0] += steps, box.max[0] += steps, box;
}

// The work of live windows, each part under its name behind the kind of tree.
template <class Any> class Told {
    const Rows &all;
    const std::string kind;
    const uint64_t rows = all.ids.size();
    Any live{all};
    uint64_t watched = 0;
    const std::vector<Move> fed = moves_of(all, 0);
    template <class Call> void timed(const char *name, uint64_t calls, Call call) { ::timed((kind + name).c_str(), calls, call); }

public:
    Told(const Rows &all, const char *kind) : all(all), kind(kind) {}
    // At least so many windows are there; then rows move and go back.
    void moves(uint64_t windows, const char *move, const char *back)
    {
        for (; watched < windows; watched++)
            live.watch(int64_t(watched), screen(rows, watched, 0));
        timed(move, fed.size(), [&](uint64_t at) { return live.move(fed[at].id, fed[at].there); });
        timed(back, fed.size(), [&](uint64_t at) { return live.move(fed[at].id, fed[at].back); });
    }
    // So many windows pan, beside two searches for each, and pan back.
    void pans(uint64_t windows)
    {
        timed("two_searches", windows, [&](uint64_t at) { return live.search(screen(rows, at, 0)) + live.search(screen(rows, at, 200)); });
        timed("shift", windows, [&](uint64_t at) { return live.shift(int64_t(at), screen(rows, at, 200)); });
        timed("shift_back", windows, [&](uint64_t at) { return live.shift(int64_t(at), screen(rows, at, 0)); });
    }
    // A window over everything, and then a thousand more over one place. They are gone again at the end.
    void crowds()
    {
        const uint64_t some = rows / 100;
        const int64_t over_all = 1 << 20, last = over_all + 1000;
        auto stretched = [&](uint64_t row, uint64_t by) { Box box = all.boxes[row]; return box.max[0] += int32_t(by), box; };
        live.watch(over_all, {{-2000000, -2000000}, {3000000, 3000000}});
        timed("all_seen", some, [&](uint64_t at) { return live.move(all.ids[at / 2], stretched(at / 2, 1 - at % 2)); });
        for (int64_t window = over_all + 1; window <= last; window++) {
            const int32_t by = int32_t(window - over_all);
            Box box = all.boxes[0];
            box.min[0] -= by, box.min[1] -= by, box.max[0] += by, box.max[1] += by;
            live.watch(window, box);
        }
        timed("crowd", some, [&](uint64_t at) { return live.move(all.ids[0], stretched(0, 1 - at % 2)); });
        for (int64_t window = over_all; window <= last; window++)
            live.unwatch(window);
    }
    // Does one of these kinds of work.
    void work(const std::string &name)
    {
        if (name == "crowds")
            crowds();
        else if (name == "told_10000")
            moves(10000, "told_10000", "back_10000");
        else if (name == "told_100000")
            moves(100000, "told_100000", "back_100000");
        else if (name == "pans")
            pans(10000);
    }
};
#endif

#if !defined(PEER_BOOST) && !defined(PEER_SPATIALINDEX)
// Each way of keeping a tree: the time a row to write and to read it, and its bytes a row.
static void kept(const Tree &tree, uint64_t rows, bool is_dump, const char *write, const char *read, const char *size)
{
    double begun = now();
    const std::string bytes = tree.text(is_dump);
    double written = now();
    const Tree again(bytes, is_dump);
    double opened = now();
    const int same = again.text(is_dump) == bytes;
    std::printf("%s %.0f %d\n%s %.0f %d\n%s %.1f %d\n", write, (written - begun) / double(rows), same, read, (opened - written) / double(rows), same, size, double(bytes.size()) / double(rows), same);
}

static void many_windows(const Tree &tree, uint64_t rows)
{
    const uint64_t count = 100000;
    std::vector<Box> windows;
    for (uint64_t turn = 0; turn < count; turn++)
        windows.push_back(window(rows, turn, reach(rows, 10)));
    std::vector<int64_t> ids(64 * count);
    timed("calls", count, [&](uint64_t at) { return tree.search(windows[at]); });
    double begun = now();
    int64_t sum = tree.search_many(windows, ids);
    std::printf("many %.0f %lld\n", (now() - begun) / double(count), static_cast<long long>(sum));
}

// The time that `threads` threads take for a window each.
static double side_by_side(const Tree &tree, uint64_t rows, unsigned threads)
{
    const uint64_t count = 200000;
    std::vector<std::thread> all;
    double begun = now();
    for (unsigned thread = 0; thread < threads; thread++)
        all.emplace_back([&tree, rows, thread] {
            volatile int64_t sum = 0;
            for (uint64_t turn = 0; turn < count; turn++)
                sum = sum + tree.search(window(rows, turn * 4 + thread, reach(rows, 10)));
        });
    for (std::thread &thread : all)
        thread.join();
    return (now() - begun) / double(count * threads);
}
#endif

// The rows, and the trees that the work so far made of them.
class Program {
    Rows all;
    const uint64_t rows;
    std::unique_ptr<Tree> packed, inserted;
    uint64_t turns = 0; // of moves
#if defined(PEER_BOOST)
    std::unique_ptr<Small> small;
    std::unique_ptr<Told<SmallLive>> small_told;
#endif
#if !defined(PEER_SPATIALINDEX)
    std::unique_ptr<Told<Live>> told;
#endif
    void load()
    {
        packed.reset();
        const double before = resident(), begun = now();
        packed = std::make_unique<Tree>(all);
        const double loaded = now();
        std::printf("load %.0f 0\nbytes %.1f 0\n", (loaded - begun) / double(rows), (resident() - before) / double(rows));
    }
#if !defined(PEER_SPATIALINDEX)
    void insert()
    {
        inserted = std::make_unique<Tree>();
        timed("insert", rows, [&](uint64_t at) { return inserted->insert(all.ids[at], all.boxes[at]), 0; });
    }
    void nearest()
    {
        nearest_of(*inserted, rows, "nearest_1", "nearest_10");
#if defined(PEER_BOOST)
        if (!small) {
            small = std::make_unique<Small>();
            for (uint64_t at = 0; at < rows; at++)
                small->insert(all.ids[at], all.boxes[at]);
        }
        nearest_of(*small, rows, "small_1", "small_10");
#endif
    }
    void live(const std::string &name)
    {
        if (!told)
            told = std::make_unique<Told<Live>>(all, "");
        told->work(name);
#if defined(PEER_BOOST)
        if (!small_told)
            small_told = std::make_unique<Told<SmallLive>>(all, "small_");
        small_told->work(name);
#endif
    }
#endif

public:
    explicit Program(uint64_t rows) : rows(rows)
    {
        for (uint64_t row = 1; row <= rows; row++)
            all.ids.push_back(int64_t(row)), all.boxes.push_back(box_of(row, 0));
        all.ids.shrink_to_fit(), all.boxes.shrink_to_fit();
    }
    // Does one kind of work.
    void work(const std::string &name)
    {
        if (name == "load")
            return load();
        if (name == "packed")
            return windows_of(*packed, rows, "packed_10", "packed_1000");
#if !defined(PEER_SPATIALINDEX)
        if (name == "joins")
            return joins(*packed, rows);
        if (name == "insert")
            return insert();
        if (name == "inserted")
            return windows_of(*inserted, rows, "inserted_10", "inserted_1000");
        if (name == "nearest")
            return nearest();
        if (name == "moves")
            return moves(*inserted, all, turns++);
        if (name == "crowds" || name == "told_10000" || name == "told_100000" || name == "pans")
            return live(name);
#if !defined(PEER_BOOST)
        if (name == "many")
            return many_windows(*packed, rows);
        if (name == "threads")
            std::printf("one_thread %.0f 0\n", side_by_side(*packed, rows, 1)), std::printf("four_threads %.0f 0\n", side_by_side(*packed, rows, 4));
        if (name == "kept")
            kept(*packed, rows, true, "dump", "open_dump", "dump_bytes"), kept(*packed, rows, false, "to_bytes", "open_bytes", "bytes_bytes");
#endif
#endif
    }
};

int main(int count, char **words)
{
    Program program(count > 1 ? std::strtoull(words[1], nullptr, 10) : 100000);
    for (std::string name; std::getline(std::cin, name);) {
        program.work(name);
        std::puts("");
        std::fflush(stdout);
    }
}
