// Tests of juicedelta.hpp. Each check names its line; the first that fails ends the program with status 1. With the word
// `memory` it tries one call that finds no memory: faults/refuse.c refuses the allocations between the two marks.
#include "juicedelta.hpp"

#include <atomic>
#include <cstdio>
#include <cstdlib>
#include <limits>
#include <malloc.h>
#include <map>
#include <new>
#include <numeric>
#include <set>
#include <thread>
#include <type_traits>
#include <unistd.h>

#define CHECK(truth)                                                                                                   \
    do {                                                                                                               \
        if (!(truth)) {                                                                                                \
            std::fprintf(stderr, "%s:%d: %s\n", __FILE__, __LINE__, #truth);                                           \
            std::exit(1);                                                                                              \
        }                                                                                                              \
    } while (0)

using juicedelta::Change;
using juicedelta::Kind;
using juicedelta::Live;
using juicedelta::Relation;
using juicedelta::Shell;
using juicedelta::Tree;

// How often this thread called `new`, which call from now on is refused, and what is done first in the next one; and how many
// bytes the program holds by it, and held at most.
static thread_local int allocations, refused_allocation;
static thread_local void (*when_allocating)();
static std::atomic<std::size_t> held, most_held;

void *operator new(std::size_t size)
{
    if (auto call = std::exchange(when_allocating, nullptr))
        call();
    allocations++;
    void *memory = refused_allocation > 0 && --refused_allocation == 0 ? nullptr : std::malloc(size);
    if (!memory)
        throw std::bad_alloc();
    held += malloc_usable_size(memory);
    most_held = std::max(most_held.load(), held.load());
    return memory;
}
void operator delete(void *memory) noexcept
{
    held -= memory ? malloc_usable_size(memory) : 0;
    std::free(memory);
}
void operator delete(void *memory, std::size_t) noexcept { operator delete(memory); }

// The code that a call throws.
template <class Call> static juicedelta_code refused(Call call)
{
    try {
        call();
    } catch (const juicedelta::Error &error) {
        return error.code();
    }
    return JUICEDELTA_OK;
}

// The code, and the place that the error tells, or -1.
template <class Call> static std::pair<juicedelta_code, int> refused_at(Call call)
{
    try {
        call();
    } catch (const juicedelta::Error &error) {
        return {error.code(), error.at() ? int(*error.at()) : -1};
    }
    return {JUICEDELTA_OK, -1};
}

template <int D> static juicedelta::Box<D> cube(std::int32_t min, std::int32_t max)
{
    juicedelta::Box<D> box;
    for (int axis = 0; axis < D; axis++)
        box.min[axis] = min, box.max[axis] = max;
    return box;
}

template <int D> static void tree()
{
    static_assert(!std::is_copy_constructible_v<Tree<D>> && !std::is_copy_assignable_v<Tree<D>>);
    static_assert(std::is_nothrow_move_constructible_v<Tree<D>> && std::is_nothrow_move_assignable_v<Tree<D>>);
    Tree<D> tree(5);
    for (int id = 0; id < 200; id++)
        tree.insert(id, cube<D>(10 * id, 10 * id + 5));
    tree.remove(100);
    const Tree<D> &read_only = tree;
    CHECK(read_only.size() == 199 && read_only.count(cube<D>(0, 2000)) == 199 && read_only.count(cube<D>(995, 1012)) == 2);
    auto ids = read_only.search(cube<D>(0, 2000));
    CHECK(ids.size() == 199);
    auto rows = read_only.search_rows(cube<D>(45, 45));
    CHECK(rows.size() == 1 && rows[0].id == 4 && rows[0].box.min[D - 1] == 40 && rows[0].box.max[0] == 45);
    juicedelta::Point<D> point = {};
    point.at[0] = -10;
    auto nearest = read_only.nearest(point, 3);
    CHECK(nearest.size() == 3 && nearest[0].id == 0 && nearest[1].id == 1 && nearest[2].id == 2);
    CHECK(nearest[2].box.min[0] == 20 && nearest[2].box.max[D - 1] == 25);
    CHECK(read_only.nearest(point, 0).empty() && read_only.nearest(point, 1000).size() == 199);
    CHECK(read_only.get(7)->max[0] == 75 && !read_only.get(100) && read_only.dump() == tree.dump());
    tree.move(7, cube<D>(-20, 0));
    CHECK(tree.nearest(point)[0].id == 7 && tree.count(cube<D>(70, 75)) == 0 && tree.size() == 199);
    tree.move(7, cube<D>(70, 75));
    std::string dump = tree.dump();
    tree.move(7, cube<D>(70, 75));
    CHECK(tree.dump() == dump);
    CHECK(refused([&] { tree.move(7, cube<D>(1, 0)); }) == JUICEDELTA_BAD_BOX && tree.get(7)->min[D - 1] == 70);
    CHECK(refused([&] { tree.move(100, cube<D>(0, 1)); }) == JUICEDELTA_ID_MISSING && tree.size() == 199);
#if __cplusplus >= 202002L
    std::int64_t buffer[3] = {-1, -1, -1};
    CHECK(tree.search(cube<D>(0, 25), buffer) == 3 && buffer[0] + buffer[1] + buffer[2] == 3);
    CHECK(tree.search(cube<D>(0, 2000), buffer) == 199 && tree.search(cube<D>(0, 25), std::span<std::int64_t>()) == 3);
#endif
    Tree<D> read = Tree<D>::from_dump(tree.dump());
    CHECK(read.size() == 199 && read.get(199)->min[D - 1] == 1990 && read.count(cube<D>(995, 1012)) == 2);
    Tree<D> moved = std::move(read);
    CHECK(moved.size() == 199);
    tree = std::move(moved);
    CHECK(tree.size() == 199 && moved.handle()->object == nullptr);
    tree.clear();
    CHECK(tree.size() == 0 && tree.search(cube<D>(0, 2000)).empty() && tree.nearest(point, 3).empty());
}

using Ids = std::vector<std::int64_t>;

// The ids of the rows that a window finds, by rising ids, in each way that a search tells them.
template <int D> static Ids found(const Tree<D> &tree, const juicedelta::Box<D> &window, Relation relation)
{
    auto ids = tree.search(window, relation);
    std::sort(ids.begin(), ids.end());
    auto rows = tree.search_rows(window, relation);
    CHECK(rows.size() == ids.size() && tree.count(window, relation) == ids.size());
    for (auto &row : rows) {
        CHECK(std::binary_search(ids.begin(), ids.end(), row.id));
        CHECK(row.box.min == tree.get(row.id)->min && row.box.max == tree.get(row.id)->max);
    }
#if __cplusplus >= 202002L
    Ids buffer(200);
    CHECK(tree.search(window, std::span(buffer), relation) == ids.size());
#endif
    return ids;
}

// Rows of which each lies in the next.
template <int D> static void relations()
{
    Tree<D> tree;
    for (int id = 0; id < 100; id++)
        tree.insert(id, cube<D>(-id, id));
    CHECK(found(tree, cube<D>(97, 200), Relation::touches) == (Ids{97, 98, 99}));
    CHECK(found(tree, cube<D>(-2, 2), Relation::within) == (Ids{0, 1, 2}));
    CHECK(found(tree, cube<D>(-97, 97), Relation::holds) == (Ids{97, 98, 99}));
    CHECK(tree.search(cube<D>(-2, 2)).size() == 100 && tree.search_rows(cube<D>(-2, 2)).size() == 100);
    CHECK(tree.count(cube<D>(99, 99)) == 1);
    // A window without a point.
    CHECK(found(tree, cube<D>(1, 0), Relation::touches).empty() && found(tree, cube<D>(1, 0), Relation::within).empty());
    CHECK(found(tree, cube<D>(1, 0), Relation::holds).size() == 100);
}

template <int D> static bool touch(const juicedelta::Box<D> &one, const juicedelta::Box<D> &other)
{
    for (int axis = 0; axis < D; axis++)
        if (one.min[axis] > other.max[axis] || other.min[axis] > one.max[axis])
            return false;
    return true;
}

static Ids sorted(Ids ids) { return std::sort(ids.begin(), ids.end()), ids; }

// Calls for many rows, windows and points beside those for one, and beside loops.
template <int D> static void many_rows()
{
    std::vector<juicedelta::Row<D>> rows;
    std::vector<juicedelta::Box<D>> windows;
    std::vector<juicedelta::Point<D>> points;
    int last = 0;
    for (int id = 0; id < 1500; id++) {
        int at = id * 7919 % 15000;
        rows.push_back({id, cube<D>(at, at + id % 30)});
        last = std::max(last, at + id % 30);
        if (id % 50 == 0) {
            windows.push_back(cube<D>(at, at + 400));
            points.push_back({windows.back().min});
        }
    }
    Tree<D> tree = Tree<D>::from_rows(rows.begin(), rows.begin() + 1000, 8);
    tree.insert_rows(std::vector<juicedelta::Row<D>>(rows.begin() + 1000, rows.end()));
    CHECK(tree.size() == 1500 && !tree.empty() && *tree.bounds() == cube<D>(0, last) && !Tree<D>().bounds());
    std::vector<juicedelta::Row<D>> read(tree.rows().begin(), tree.rows().end());
    std::sort(read.begin(), read.end(), [](auto &one, auto &other) { return one.id < other.id; });
    CHECK(read == rows && Tree<D>().rows().begin() == Tree<D>().rows().end() && Tree<D>().empty());
    auto found = tree.search_many(windows, Relation::within);
    auto counts = tree.count_many(windows, Relation::within);
    auto nearest = tree.nearest_many(points, 3);
    CHECK(found.size() == 30 && counts.size() == 30 && nearest.size() == 30);
    for (std::size_t place = 0; place < windows.size(); place++) {
        Ids own(found[place].begin(), found[place].end()), to;
        CHECK(sorted(own) == sorted(tree.search(windows[place], Relation::within)) && own.size() == counts[place]);
        tree.search_to(std::back_inserter(to), windows[place], Relation::within);
        CHECK(sorted(to) == sorted(own) && found[place].empty() == own.empty() && nearest[place].size() == 3);
        auto first = tree.nearest(points[place], 3), box = tree.nearest_to({points[place].at, points[place].at}, 3);
        CHECK(first == box && first[0].id == *nearest[place].begin() && first[2].id == *(nearest[place].end() - 1));
        auto within = tree.within(points[place], 2000);
        CHECK(within == tree.nearest(points[place], within.size()));
        CHECK(within.size() == 1500 || tree.nearest(points[place], within.size() + 1) != within);
    }
    CHECK(tree.search_many(std::vector<juicedelta::Box<D>>()).size() == 0 && tree.count_many(std::vector<juicedelta::Box<D>>()).empty());
    CHECK(tree.within({cube<D>(0, 0).min}, 0).size() == 1 && tree.within({cube<D>(0, 0).min}, UINT64_MAX).size() == 1500);
    auto half = Tree<D>::from_rows(rows.begin(), rows.begin() + 300);
    Ids pairs, wanted, own;
    for (auto [left, right] : half.join(tree))
        pairs.push_back(left * 10000 + right);
    for (auto [left, right] : half.join())
        own.push_back(left * 10000 + right);
    for (int left = 0; left < 300; left++)
        for (int right = 0; right < 1500; right++)
            if (touch(rows[left].box, rows[right].box))
                wanted.push_back(left * 10000 + right);
    CHECK(sorted(pairs) == wanted);
    auto is_other = [](auto it) { return it % 10000 >= 300 || it / 10000 >= it % 10000; };
    wanted.erase(std::remove_if(wanted.begin(), wanted.end(), is_other), wanted.end());
    CHECK(sorted(own) == wanted);
    auto same = Tree<D>::from_bytes(tree.to_bytes());
    CHECK(same.size() == 1500 && same.dump() == tree.dump() && *same.get(77) == rows[77].box);
}

// Rows and windows as maps, and what an edit tells by the definition: which pairs of a window and a row that touch it came and left,
// and which stayed though the row has another box.
template <int D> struct Plain {
    using Boxes = std::map<std::int64_t, juicedelta::Box<D>>;
    Boxes rows, windows;
    std::set<std::pair<std::int64_t, std::int64_t>> pairs() const
    {
        std::set<std::pair<std::int64_t, std::int64_t>> found;
        for (auto &[window, view] : windows)
            for (auto &[id, box] : rows)
                if (touch(view, box))
                    found.insert({window, id});
        return found;
    }
    template <class Edit> std::vector<Change> edited(Edit edit)
    {
        const auto before = pairs();
        const Boxes old = rows;
        edit();
        const auto after = pairs();
        auto all = before;
        all.insert(after.begin(), after.end());
        std::vector<Change> changes;
        for (auto &[window, id] : all)
            if (!after.count({window, id}))
                changes.push_back({window, id, Kind::left});
            else if (!before.count({window, id}))
                changes.push_back({window, id, Kind::came});
            else if (old.at(id) != rows.at(id))
                changes.push_back({window, id, Kind::moved});
        return changes;
    }
};

// A copy of what each window sees, which follows the changes alone.
using Copies = std::map<std::int64_t, std::set<std::int64_t>>;
static void follow(Copies &copies, const std::vector<Change> &changes)
{
    for (auto &change : changes)
        if (change.kind == Kind::left)
            CHECK(copies[change.window].erase(change.id) == 1);
        else if (change.kind == Kind::came)
            CHECK(copies[change.window].insert(change.id).second);
        else
            CHECK(copies[change.window].count(change.id) == 1);
}

// Random edits of live windows beside maps, and reads of their rows.
template <int D> static void live()
{
    static_assert(!std::is_copy_constructible_v<Live<D>> && !std::is_copy_assignable_v<Live<D>>);
    static_assert(std::is_nothrow_move_constructible_v<Live<D>> && std::is_nothrow_move_assignable_v<Live<D>>);
    Live<D> live(5);
    Plain<D> plain;
    Copies copies;
    unsigned state = 1;
    auto below = [&](unsigned n) { return int((state = state * 1664525 + 1013904223) >> 8) % int(n); };
    auto told = [&](std::vector<Change> own, std::vector<Change> wanted) {
        follow(copies, own);
        CHECK(own == wanted && live.changes() == own);
    };
    live.reserve(40, 12, 100);
    for (int turn = 0; turn < 3000; turn++) {
        const int id = below(40), window = below(12) - 6, at = below(100), kind = below(8);
        const auto box = cube<D>(at, at + below(10)), view = cube<D>(at, at + below(60));
        if (kind < 3 && plain.rows.count(id))
            told(live.move(id, box), plain.edited([&] { plain.rows[id] = box; }));
        else if (kind < 3)
            told(live.insert(id, box), plain.edited([&] { plain.rows[id] = box; }));
        else if (kind == 3 && plain.rows.count(id))
            told(live.remove(id), plain.edited([&] { plain.rows.erase(id); }));
        else if (kind < 7 && plain.windows.count(window))
            told(live.shift(window, view), plain.edited([&] { plain.windows[window] = view; }));
        else if (kind < 7)
            told(live.watch(window, view), plain.edited([&] { plain.windows[window] = view; }));
        else if (plain.windows.count(window))
            told(live.unwatch(window), plain.edited([&] { plain.windows.erase(window); }));
    }
    for (auto &[window, view] : plain.windows)
        CHECK(live.rows(window) == Ids(copies[window].begin(), copies[window].end()) && sorted(live.search(view)) == live.rows(window));
    for (auto &[id, box] : plain.rows)
        CHECK(*live.get(id) == box);
    std::map<std::int64_t, juicedelta::Box<D>> windows;
    for (auto &window : live.windows())
        windows[window.id] = window.box;
    CHECK(windows == plain.windows && live.size() == plain.rows.size() && !live.empty() && !live.get(99));
    CHECK(live.count(*live.bounds()) == live.size() && live.nearest({cube<D>(50, 50).min}, live.size()) == live.within({cube<D>(50, 50).min}, 200));
    Live<D> moved = std::move(live);
    CHECK(moved.size() == plain.rows.size() && live.handle()->object == nullptr && live.handle()->count == 0);
    CHECK(refused([&] { live.changes(); }) == JUICEDELTA_CLOSED);
}

// The least box of whole numbers, by the definition.
static void grids()
{
    const double origins[] = {0, -1e6, 0.3, 1e9};
    for (double scale : {1.0, 1e7, 1 / 3.0, 0.1})
        for (double origin : origins) {
            if (scale * origin > 1e14)
                continue;
            juicedelta::Grid grid(scale, {origin, -origin, origin});
            auto back = [&](double k, int axis) { return (axis % 2 ? -origin : origin) + k / scale; };
            for (int turn = 0; turn < 500; turn++) {
                juicedelta::FloatBox<3> box;
                for (int axis = 0; axis < 3; axis++) {
                    box.min[axis] = back(turn * 4000037 - 1000000000, axis) + (turn % 3 ? turn / 500.0 / scale : 0);
                    box.max[axis] = box.min[axis] + (turn % 5 ? turn / 100.0 / scale : 0);
                }
                auto whole = grid.box(box);
                auto floats = grid.floats(whole);
                for (int axis = 0; axis < 3; axis++) {
                    CHECK(floats.min[axis] == back(whole.min[axis], axis) && floats.max[axis] == back(whole.max[axis], axis));
                    CHECK(floats.min[axis] <= box.min[axis] && box.min[axis] < back(whole.min[axis] + 1.0, axis));
                    CHECK(floats.max[axis] >= box.max[axis] && box.max[axis] > back(whole.max[axis] - 1.0, axis));
                }
                CHECK(grid.box(floats) == whole && grid.point<3>({floats.min}).at == whole.min);
            }
        }
    juicedelta::Grid degrees(1e7);
    CHECK((degrees.box<2>({{13.405, 52.52}, {13.40500001, 52.52}}) == juicedelta::Box<2>{{134050000, 525200000}, {134050001, 525200000}}));
    const double nan = std::numeric_limits<double>::quiet_NaN(), most = std::numeric_limits<double>::infinity();
    auto is_refused = [](auto call) {
        try {
            call();
        } catch (const std::logic_error &) {
            return true;
        }
        return false;
    };
    const double wrong[][2] = {{nan, 0}, {0, nan}, {-300, 0}, {0, 300}, {-most, 0}, {0, most}, {1, 0}};
    for (auto [min, max] : wrong)
        CHECK(is_refused([&] { degrees.box<1>({{min}, {max}}); }));
    CHECK(is_refused([&] { degrees.point<1>({{nan}}); }) && is_refused([&] { degrees.point<1>({{214.8}}); }));
    for (double scale : {0.0, -1.0, nan, most})
        CHECK(is_refused([&] { juicedelta::Grid grid(scale); }));
    CHECK(is_refused([&] { juicedelta::Grid grid(1, 1e15); }) && is_refused([&] { juicedelta::Grid grid(1, nan); }));
}

// Each code once, but OUT_OF_MEMORY and ENDED.
static void codes()
{
    using juicedelta::detail::check;
    Tree<2> tree, moved = std::move(tree);
    Shell shell;
    juicedelta::Box<2> box = {{0, 0}, {1, 1}};
    std::int64_t id;
    std::int32_t ends[4] = {0, 0, 1, 1};
    std::uint64_t total;
    moved.insert(1, box);
    CHECK(refused([&] { tree.insert(1, box); }) == JUICEDELTA_CLOSED);
    CHECK(refused([&] { tree.search_rows(box); }) == JUICEDELTA_CLOSED);
    CHECK(refused([&] { tree.nearest({}); }) == JUICEDELTA_CLOSED);
    CHECK(refused([&] { check(juicedelta_tree_len(shell.handle(), &total)); }) == JUICEDELTA_OTHER_KIND);
    CHECK(refused([&] { check(juicedelta_tree_open(moved.handle(), 2, 51, 1, 2)); }) == JUICEDELTA_ALREADY_OPEN);
    CHECK(refused([] { Tree<2> tree(52); }) == JUICEDELTA_BAD_CAPACITY);
    CHECK(refused([&] { moved.insert(2, {{0, 2}, {1, 1}}); }) == JUICEDELTA_BAD_BOX);
    CHECK(refused([&] { moved.insert(1, box); }) == JUICEDELTA_ID_TAKEN);
    CHECK(refused([&] { moved.remove(2); }) == JUICEDELTA_ID_MISSING);
    auto search = [&] { check(juicedelta_tree_search(moved.handle(), 0, ends, 4, &id, 0, &total)); };
    CHECK(refused(search) == JUICEDELTA_BUFFER_TOO_SMALL);
    CHECK(refused([] { check(JUICEDELTA_TOO_LONG); }) == JUICEDELTA_TOO_LONG);
    CHECK(refused([] { Tree<2>::from_dump("rtree 2 5 1 0\n"); }) == JUICEDELTA_BAD_DUMP);
    CHECK(refused([&] { Tree<3>::from_dump(moved.dump()); }) == JUICEDELTA_BAD_DUMP);
    CHECK(refused([&] { check(juicedelta_tree_count(moved.handle(), 0, ends, 3, &total)); }) == JUICEDELTA_BAD_LENGTH);
    CHECK(refused([&] { check(juicedelta_tree_open(tree.handle(), 4, 51, 1, 2)); }) == JUICEDELTA_BAD_AXES);
    CHECK(refused([&] { moved.count(box, static_cast<Relation>(3)); }) == JUICEDELTA_BAD_RELATION);
    CHECK(std::string(juicedelta::Error(JUICEDELTA_ID_TAKEN).what()) == "the id is taken");
    CHECK(std::string(juicedelta::Error(JUICEDELTA_BAD_RELATION).what()) == "a relation is touches, within or holds");
    CHECK(std::string(juicedelta::Error(JUICEDELTA_BAD_BYTES + 1).what()) == "unknown code");
    // Many rows: the place of the one that is refused.
    using Rows = std::vector<juicedelta::Row<2>>;
    const Rows bad = {{5, box}, {6, {{0, 2}, {1, 1}}}}, taken = {{5, box}, {6, box}, {5, box}};
    CHECK(refused_at([&] { Tree<2>::from_rows(bad); }) == std::pair(JUICEDELTA_BAD_BOX, 1));
    CHECK(refused_at([&] { moved.insert_rows(bad); }) == std::pair(JUICEDELTA_BAD_BOX, 1));
    CHECK(refused_at([&] { Tree<2>::from_rows(taken); }) == std::pair(JUICEDELTA_ID_TAKEN, 2));
    CHECK(refused_at([&] { moved.insert_rows(taken); }) == std::pair(JUICEDELTA_ID_TAKEN, 2));
    CHECK(refused_at([&] { moved.insert(1, box); }) == std::pair(JUICEDELTA_ID_TAKEN, -1));
    CHECK(refused([&] { Tree<2>::from_rows(taken, 4); }) == JUICEDELTA_BAD_CAPACITY);
    CHECK(refused([&] { check(juicedelta_tree_bounds(Tree<1>().handle(), ends, 2)); }) == JUICEDELTA_EMPTY);
    CHECK(refused([&] { Tree<2>::from_bytes("none"); }) == JUICEDELTA_BAD_BYTES);
    CHECK(refused([&] { Tree<3>::from_bytes(moved.to_bytes()); }) == JUICEDELTA_BAD_BYTES);
    CHECK(refused([&] { moved.nearest_to({{0, 2}, {1, 1}}); }) == JUICEDELTA_BAD_BOX);
    CHECK(refused([&] { tree.join(moved); }) == JUICEDELTA_CLOSED && refused([&] { moved.join(tree); }) == JUICEDELTA_CLOSED);
    CHECK(juicedelta::version() == JUICEDELTA_VERSION_NUMBER);
    CHECK(moved.size() == 1);
}

// And those of live windows.
static void live_codes()
{
    using juicedelta::detail::check;
    Live<2> closed, live = std::move(closed);
    Tree<2> tree;
    const juicedelta::Box<2> box = {{0, 0}, {1, 1}}, bad = {{0, 2}, {1, 1}};
    std::int64_t ids[2];
    std::uint8_t kinds[2];
    std::uint64_t total;
    CHECK(live.insert(1, box).empty() && live.watch(5, box) == (std::vector<Change>{{5, 1, Kind::came}}));
    CHECK(refused([&] { closed.insert(1, box); }) == JUICEDELTA_CLOSED && refused([&] { closed.rows(5); }) == JUICEDELTA_CLOSED);
    CHECK(refused([&] { closed.windows(); }) == JUICEDELTA_CLOSED && refused([&] { closed.reserve(1, 1, 1); }) == JUICEDELTA_CLOSED);
    CHECK(refused([&] { check(juicedelta_live_remove(tree.handle(), 1, &total)); }) == JUICEDELTA_OTHER_KIND);
    CHECK(refused([&] { check(juicedelta_tree_remove(live.handle(), 1)); }) == JUICEDELTA_OTHER_KIND);
    CHECK(refused([&] { check(juicedelta_live_open(live.handle(), 2, 51, 1, 2)); }) == JUICEDELTA_ALREADY_OPEN);
    CHECK(refused([&] { check(juicedelta_live_open(closed.handle(), 4, 51, 1, 2)); }) == JUICEDELTA_BAD_AXES);
    CHECK(refused([] { Live<2> live(4); }) == JUICEDELTA_BAD_CAPACITY);
    for (auto call : {&Live<2>::insert, &Live<2>::move, &Live<2>::watch, &Live<2>::shift})
        CHECK(refused([&] { (live.*call)(1, bad); }) == JUICEDELTA_BAD_BOX);
    CHECK(refused([&] { live.insert(1, box); }) == JUICEDELTA_ID_TAKEN && refused([&] { live.watch(5, box); }) == JUICEDELTA_ID_TAKEN);
    CHECK(refused([&] { live.move(5, box); }) == JUICEDELTA_ID_MISSING && refused([&] { live.shift(1, box); }) == JUICEDELTA_ID_MISSING);
    CHECK(refused([&] { live.remove(5); }) == JUICEDELTA_ID_MISSING && refused([&] { live.unwatch(1); }) == JUICEDELTA_ID_MISSING);
    CHECK(refused([&] { live.rows(1); }) == JUICEDELTA_ID_MISSING && refused([&] { live.reserve(UINT64_MAX, 0, 0); }) == JUICEDELTA_OUT_OF_MEMORY);
    auto changes = [&](std::size_t room) { check(juicedelta_live_changes(live.handle(), ids, room, ids, 0, kinds, 0, &total)); };
    CHECK(refused([&] { changes(0); }) == JUICEDELTA_BUFFER_TOO_SMALL && refused([&] { changes(1); }) == JUICEDELTA_BAD_LENGTH);
    CHECK(live.changes() == (std::vector<Change>{{5, 1, Kind::came}}) && live.rows(5) == Ids{1});
}

// The list of an edit's changes finds no memory: the edit stands, and `changes` tells them.
static void untold()
{
    Live<1> live;
    for (int id = 0; id < 100; id++)
        live.insert(id, {{id}, {id}});
    bool is_refused = false;
    refused_allocation = 1;
    try {
        live.watch(1, {{0}, {99}});
    } catch (const std::bad_alloc &) {
        is_refused = true;
    }
    refused_allocation = 0;
    CHECK(is_refused && live.changes().size() == 100 && live.rows(1).size() == 100);
}

// A tree of `rows` rows in a line, and whether a search finds those from `first` to `last`.
static Tree<1> line(int rows)
{
    Tree<1> tree;
    for (int id = 0; id < rows; id++)
        tree.insert(id, {{id}, {id}});
    return tree;
}
static bool finds(const Tree<1> &tree, int first, int last)
{
    auto ids = tree.search({{first}, {last}});
    std::sort(ids.begin(), ids.end());
    std::vector<std::int64_t> wanted(ids.size());
    std::iota(wanted.begin(), wanted.end(), first);
    return ids == wanted && ids.size() == std::size_t(last - first + 1);
}

// And whether one for rows does.
static bool finds_rows(const Tree<1> &tree, int first, int last)
{
    auto rows = tree.search_rows({{first}, {last}});
    std::sort(rows.begin(), rows.end(), [](auto &one, auto &other) { return one.id < other.id; });
    for (std::size_t at = 0; at < rows.size(); at++)
        if (rows[at].id != first + int(at) || rows[at].box.min[0] != rows[at].id || rows[at].box.max[0] != rows[at].id)
            return false;
    return rows.size() == std::size_t(last - first + 1);
}

// A search allocates its result and nothing else, once the thread has memory enough, and a dump little more than its text.
static void results()
{
    static Tree<1> tree = line(10000);
    CHECK(finds(tree, 0, 5999));
    for (int rows : {0, 1, 20, 65, 1044, 6000}) {
        int before = allocations;
        auto ids = tree.search({{0}, {rows - 1}});
        CHECK(allocations - before == (rows > 0) && ids.size() == std::size_t(rows) && ids.capacity() == ids.size());
        before = allocations;
        auto boxes = tree.search_rows({{0}, {rows - 1}});
        CHECK(allocations - before == (rows > 0) && boxes.size() == ids.size() && boxes.capacity() == boxes.size());
        before = allocations;
        CHECK(tree.nearest({{5000}}, rows).size() == ids.size() && allocations - before == (rows > 0));
    }
    auto rows = tree.rows();
    Ids ids;
    for (auto &row : rows)
        ids.push_back(row.id);
    CHECK(ids.size() == 10000 && std::set<std::int64_t>(ids.begin(), ids.end()).size() == 10000);
    when_allocating = [] { CHECK(finds(tree, 100, 199)); };
    CHECK(finds(tree, 500, 599) && !when_allocating);
    std::size_t before = held;
    most_held = before;
    std::string dump = tree.dump();
    CHECK(dump.size() > 100000 && most_held - before < dump.size() * 3 / 2);
}

// Each allocation of a thread's first search is refused in turn. The last is memory to keep, which the search can do without.
template <class Search> static void refusals(int needed, Search search)
{
    for (int nth = 1; nth <= needed + 2; nth++) {
        std::thread([=] {
            Tree<1> tree = line(1000);
            bool is_refused = false;
            refused_allocation = nth;
            try {
                search(tree);
            } catch (const std::bad_alloc &) {
                is_refused = true;
            }
            refused_allocation = 0;
            CHECK(is_refused == (nth <= needed) && finds(tree, 0, 999) && finds_rows(tree, 0, 999));
        }).join();
    }
}

// A tree that a thread keeps to its end is searched after the memory for searches is gone.
static void last_search()
{
    static bool is_found;
    struct AtEnd {
        Tree<1> tree = line(100);
        ~AtEnd() { is_found = finds(tree, 0, 99); }
    };
    std::thread([] {
        thread_local AtEnd at_end;
        CHECK(finds(at_end.tree, 0, 49));
    }).join();
    CHECK(is_found);
}

static void many()
{
    constexpr std::size_t mebibyte = 1 << 20, page = 4096;
    Tree<1> tree = line(1048576);
    std::size_t before = held;
    most_held = before;
    CHECK(finds(tree, 0, 131071) && held - before < mebibyte + page);
    most_held = before;
    CHECK(tree.search({{0}, {1048575}}).size() == 1048576);
    CHECK(most_held - before < 9 * mebibyte + 2 * page && held - before < mebibyte + page);
    CHECK(finds_rows(tree, 0, 1048575) && finds_rows(tree, 7, 65542) && held - before < mebibyte + page);
    CHECK(tree.size() == 1048576 && tree.count({{7}, {1006}}) == 1000);
}

// Four threads read one tree and live windows side by side: each finds what one alone finds.
static void readers()
{
    const Tree<1> tree = line(3000);
    Live<1> edited;
    edited.insert(7, {{7}, {9}}), edited.watch(1, {{0}, {8}}), edited.move(7, {{8}, {9}});
    const Live<1> &live = edited;
    std::vector<std::thread> threads;
    for (int thread = 0; thread < 4; thread++)
        threads.emplace_back([&tree, &live, thread] {
            for (int turn = 0; turn < 200; turn++) {
                int first = (thread * 700 + turn * 13) % 2000, last = first + turn * 5 % 1000;
                CHECK(finds(tree, first, last) && finds_rows(tree, first, last));
                CHECK(tree.get(first)->min[0] == first && tree.size() == 3000 && tree.nearest({{last}})[0].id == last);
                CHECK(tree.count({{first}, {last}}, Relation::holds) == (first == last));
                CHECK(live.rows(1) == Ids{7} && live.changes() == (std::vector<Change>{{1, 7, Kind::moved}}) && live.windows()[0].id == 1);
                CHECK(live.search({{9}, {9}}) == Ids{7} && live.join(tree).size() == 2);
            }
        });
    for (auto &thread : threads)
        thread.join();
}

static void shell()
{
    Shell shell(5);
    CHECK(shell.execute("CREATE VIRTUAL TABLE t USING rtree_i32(id, a, b); INSERT INTO t VAL").empty());
    CHECK(shell.execute("UES (1, 2, 3); SELECT * FROM t; SELECT * FROM u;") == "1|2|3\nrefused 4 5: no such table\n");
    auto [refused_any, output] = shell.finish();
    CHECK(refused_any && output.empty());
    CHECK(refused([&] { shell.execute(""); }) == JUICEDELTA_ENDED);
}

static void memory()
{
    Tree<2> tree;
    CHECK(write(2, "<", 1) == 1);
    juicedelta_code code = refused([&] { tree.insert(1, {{0, 0}, {1, 1}}); });
    CHECK(write(2, ">", 1) == 1);
    CHECK(code == JUICEDELTA_OUT_OF_MEMORY && tree.size() == 0);
}

int main(int count, char **)
{
    if (count > 1) {
        memory();
    } else {
        tree<1>();
        tree<2>();
        tree<3>();
        relations<1>();
        relations<2>();
        relations<3>();
        many_rows<1>();
        many_rows<2>();
        many_rows<3>();
        live<1>();
        live<2>();
        live<3>();
        grids();
        codes();
        live_codes();
        untold();
        results();
        refusals(2, [](const Tree<1> &tree) { tree.search({{0}, {999}}); });
        refusals(3, [](const Tree<1> &tree) { tree.search_rows({{0}, {999}}); });
        last_search();
        readers();
        if (__cplusplus < 202002L) // once is enough
            many();
        shell();
    }
    std::puts("bindings/cpp: passed");
    return 0;
}
