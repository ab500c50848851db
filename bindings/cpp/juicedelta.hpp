// juicedelta.hpp: trees of boxes, live windows and script shells for C++17, over the calls of juicedelta.h.
//
//     juicedelta::Tree<2> shops;
//     shops.insert(1, {{10, 5}, {14, 9}});
//     for (std::int64_t id : shops.search({{0, 0}, {20, 8}})) ...
//
// A tree, live windows or a shell own what they hold. They can be moved, not copied; what was moved from is closed. Methods that are const
// may be called by several threads at once; any other method may overlap no call on the same object, which the program sees
// to. A call that is refused throws an Error with its code, and changes nothing but where juicedelta.h says so. Boxes hold
// both ends. A list of rows is any range of them; a list of boxes or points is a vector, an array or a span.
// A thread keeps the memory that its searches write to, 1 MiB at most; a search that needs more than is kept runs twice.
#ifndef JUICEDELTA_HPP
#define JUICEDELTA_HPP

#include "juicedelta.h"
#include "juicedelta_grid.h"

#include <algorithm>
#include <array>
#include <cstddef>
#include <cstdint>
#include <cstring>
#include <iterator>
#include <new>
#include <optional>
#include <random>
#include <stdexcept>
#include <string>
#include <string_view>
#include <type_traits>
#include <utility>
#include <vector>
#if __cplusplus >= 202002L
#include <span>
#endif

namespace juicedelta {
// A call that was refused.
class Error : public std::runtime_error {
public:
    explicit Error(std::int32_t code, std::optional<std::uint64_t> at = {})
        : std::runtime_error(Words(code).text), code_(static_cast<juicedelta_code>(code)), at_(at)
    {
    }
    juicedelta_code code() const noexcept { return code_; }
    std::optional<std::uint64_t> at() const noexcept { return at_; } // Of many rows, the place of the one that is refused.
private:
    struct Words {
        char text[200] = {}; // More than any code has, and a zero byte.
        explicit Words(std::int32_t code)
        {
            std::uint64_t length;
            juicedelta_words(code, reinterpret_cast<std::uint8_t *>(text), sizeof text - 1, &length);
        }
    };
    juicedelta_code code_;
    std::optional<std::uint64_t> at_;
};

// The library's version: 1002003 stands for 1.2.3. That of the header is JUICEDELTA_VERSION_NUMBER.
inline std::uint32_t version() noexcept { return juicedelta_version(); }

// Boxes, points and rows of D axes.
template <int D> struct Box {
    std::array<std::int32_t, D> min, max;
    friend bool operator==(const Box &one, const Box &other) { return one.min == other.min && one.max == other.max; }
    friend bool operator!=(const Box &one, const Box &other) { return !(one == other); }
};
template <int D> struct Point {
    std::array<std::int32_t, D> at;
    friend bool operator==(const Point &one, const Point &other) { return one.at == other.at; }
    friend bool operator!=(const Point &one, const Point &other) { return !(one == other); }
};
template <int D> struct Row {
    std::int64_t id;
    Box<D> box;
    friend bool operator==(const Row &one, const Row &other) { return one.id == other.id && one.box == other.box; }
    friend bool operator!=(const Row &one, const Row &other) { return !(one == other); }
};

// What many windows or points find: `many[i]` has the ids of place i, from `begin()` to `end()`.
struct Many {
    struct Ids {
        const std::int64_t *first, *last;
        const std::int64_t *begin() const noexcept { return first; }
        const std::int64_t *end() const noexcept { return last; }
        std::size_t size() const noexcept { return static_cast<std::size_t>(last - first); }
        bool empty() const noexcept { return first == last; }
    };
    std::vector<std::int64_t> ids;
    std::vector<std::uint64_t> starts; // One more than there are places: the last is where all end.
    std::size_t size() const noexcept { return starts.empty() ? 0 : starts.size() - 1; }
    Ids operator[](std::size_t place) const { return {ids.data() + starts[place], ids.data() + starts[place + 1]}; }
};

// What a window is told of a row: it left the window, it came into it, or it got another box and is in it as before.
enum class Kind : std::uint8_t { left = JUICEDELTA_LEFT, came = JUICEDELTA_CAME, moved = JUICEDELTA_MOVED };
struct Change {
    std::int64_t window, id;
    Kind kind;
    friend bool operator==(const Change &one, const Change &other)
    {
        return one.window == other.window && one.id == other.id && one.kind == other.kind;
    }
    friend bool operator!=(const Change &one, const Change &other) { return !(one == other); }
};

// Which rows a window finds: those with a box that has a point in common with it, lies within it, or holds it.
enum class Relation : std::uint32_t { touches = JUICEDELTA_TOUCHES, within = JUICEDELTA_WITHIN, holds = JUICEDELTA_HOLDS };

namespace detail {
// Throws what a call of juicedelta.h answered, unless it is JUICEDELTA_OK or this other code.
inline void check(std::int32_t code, std::int32_t other = JUICEDELTA_OK)
{
    if (code != JUICEDELTA_OK && code != other)
        throw Error(code);
}

// Throws what a call for many rows answered, with the place of the row that it wrote.
inline void check_at(std::int32_t code, std::uint64_t at)
{
    if (code == JUICEDELTA_BAD_BOX || code == JUICEDELTA_ID_TAKEN)
        throw Error(code, at);
    check(code);
}

// Two random words.
struct Keys {
    std::random_device device;
    std::uint64_t word() { return std::uint64_t{device()} << 32 | device(); }
    std::uint64_t first = word(), second = word();
};

// Opens by a call that takes two random words behind the others.
template <class Call, class... Words> void open(Call call, juicedelta_handle *handle, Words... words)
{
    const Keys keys;
    check(call(handle, words..., keys.first, keys.second));
}

// The bytes of a text. The calls take no null pointer, which an empty view may have.
inline const std::uint8_t *bytes_of(std::string_view text) { return (const std::uint8_t *)(text.data() ? text.data() : ""); }

// The items that a call writes which tells how many there are; it is called again with more room if they need it.
template <class Items, class Call> Items filled(std::size_t room, Call call)
{
    for (Items items;;) {
        items.resize(room + 1); // so that no pointer is null
        std::uint64_t total = 0;
        std::int32_t code = call(items.data(), room, &total);
        room = static_cast<std::size_t>(total);
        check(code, JUICEDELTA_BUFFER_TOO_SMALL);
        if (code == JUICEDELTA_OK) {
            items.resize(room);
            return items;
        }
    }
}

// The memory that a thread's searches write to. A search takes it out, since a program's own `operator new` may search too.
class Kept {
public:
    static std::vector<std::byte> take()
    {
        auto bytes = is_over ? std::vector<std::byte>() : std::exchange(own.bytes, {});
        if (bytes.empty())
            bytes.resize(512);
        return bytes;
    }
    static void put(std::vector<std::byte> bytes) noexcept
    {
        if (!is_over)
            own.bytes = std::move(bytes);
    }
    // Makes these bytes more than that many, unless that is too much to keep.
    static void widen(std::vector<std::byte> &bytes, std::size_t needed) noexcept
    {
        constexpr std::size_t most = 1 << 20;
        try {
            if (needed <= most)
                bytes = std::vector<std::byte>(std::min(2 * needed, most));
        } catch (const std::bad_alloc &) { // No more is kept then.
        }
    }
private:
    ~Kept() { is_over = true; } // Other objects of the thread may search when they end.
    std::vector<std::byte> bytes;
    static thread_local Kept own;
    static thread_local bool is_over;
};
inline thread_local Kept Kept::own;
inline thread_local bool Kept::is_over = false;

// The ids that a search writes. If the kept memory is too small it is called again, and more is kept.
template <class Search> std::vector<std::int64_t> found_ids(Search search)
{
    std::vector<std::byte> bytes = Kept::take();
    auto front = reinterpret_cast<std::int64_t *>(bytes.data());
    std::uint64_t total = 0;
    std::int32_t code = search(front, bytes.size() / sizeof *front, &total);
    check(code, JUICEDELTA_BUFFER_TOO_SMALL);
    std::vector<std::int64_t> ids(front, front + (code == JUICEDELTA_OK ? total : 0));
    if (code == JUICEDELTA_BUFFER_TOO_SMALL) {
        ids = filled<std::vector<std::int64_t>>(static_cast<std::size_t>(total), search);
        Kept::widen(bytes, ids.size() * sizeof *front);
    }
    Kept::put(std::move(bytes));
    return ids;
}

// The items that a call writes as lists, one behind another, to such memory: each takes `Bytes` of them all. The call gets the
// front of the lists and the number of items that they have room for. `read` makes the items of them.
template <std::size_t Bytes, class Call, class Read> auto found(Call call, Read read)
{
    std::vector<std::byte> bytes = Kept::take(), more, *used = &bytes;
    for (;;) {
        const std::size_t room = used->size() / Bytes;
        auto front = reinterpret_cast<std::int64_t *>(used->data());
        std::uint64_t total = 0;
        std::int32_t code = call(front, room, &total);
        check(code, JUICEDELTA_BUFFER_TOO_SMALL);
        if (code == JUICEDELTA_BUFFER_TOO_SMALL) {
            used = &more;
            more.resize(static_cast<std::size_t>(total) * Bytes);
            continue;
        }
        auto items = read(front, room, static_cast<std::size_t>(total));
        if (used == &more)
            Kept::widen(bytes, more.size());
        Kept::put(std::move(bytes));
        return items;
    }
}

// The rows that a search writes, as a list of ids and one of boxes.
template <int D, class Search> std::vector<Row<D>> found_rows(Search search)
{
    auto boxes_of = [](std::int64_t *ids, std::size_t room) { return reinterpret_cast<std::int32_t *>(ids + room); };
    auto call = [&](std::int64_t *ids, std::size_t room, std::uint64_t *total) {
        return search(ids, room, boxes_of(ids, room), 2 * D * room, total);
    };
    return found<sizeof(Row<D>)>(call, [&](std::int64_t *ids, std::size_t room, std::size_t total) {
        const std::int32_t *boxes = boxes_of(ids, room);
        std::vector<Row<D>> rows(total);
        for (auto &row : rows) {
            row.id = *ids++;
            std::memcpy(&row.box, boxes, sizeof row.box);
            boxes += 2 * D;
        }
        return rows;
    });
}

// The changes that a call writes, as a list of windows, one of ids and one of kinds.
template <class Call> std::vector<Change> found_changes(Call call)
{
    auto kinds_of = [](std::int64_t *windows, std::size_t room) { return reinterpret_cast<std::uint8_t *>(windows + 2 * room); };
    auto lists = [&](std::int64_t *windows, std::size_t room, std::uint64_t *total) {
        return call(windows, room, windows + room, room, kinds_of(windows, room), room, total);
    };
    return found<2 * sizeof(std::int64_t) + 1>(lists, [&](std::int64_t *windows, std::size_t room, std::size_t total) {
        const std::uint8_t *kinds = kinds_of(windows, room);
        std::vector<Change> changes(total);
        for (std::size_t at = 0; at < total; at++)
            changes[at] = {windows[at], windows[room + at], static_cast<Kind>(kinds[at])};
        return changes;
    });
}

// Rows as the calls take them: a list of ids, and one of boxes. No pointer is null.
template <int D> struct Lists {
    std::vector<std::int64_t> ids;
    std::vector<Box<D>> boxes;
    template <class Iterator> Lists(Iterator first, Iterator last)
    {
        for (; first != last; ++first) {
            const Row<D> &row = *first;
            ids.push_back(row.id);
            boxes.push_back(row.box);
        }
        ids.reserve(1), boxes.reserve(1);
    }
    const std::int32_t *numbers() const noexcept { return reinterpret_cast<const std::int32_t *>(boxes.data()); }
    std::size_t length() const noexcept { return 2 * D * boxes.size(); }
};

// The numbers of a list of boxes or of points, and how many they are.
template <class Item> struct Numbers {
    const std::int32_t *front;
    std::size_t items, length;
    template <class Items> explicit Numbers(const Items &items)
        : front(reinterpret_cast<const std::int32_t *>(std::data(items))), items(std::size(items)),
          length(std::size(items) * (sizeof(Item) / sizeof(std::int32_t)))
    {
        static_assert(std::is_same_v<std::remove_cv_t<std::remove_reference_t<decltype(*std::data(items))>>, Item>);
        if (length == 0)
            front = &none;
    }
private:
    static constexpr std::int32_t none = 0;
};

// What a call finds at many places. It is called again with more room if that is needed.
template <class Call> Many found_many(std::size_t places, std::size_t room, Call call)
{
    Many many;
    many.starts.resize(places + 1);
    many.ids = filled<std::vector<std::int64_t>>(room, [&](std::int64_t *ids, std::size_t length, std::uint64_t *total) {
        return call(many.starts.data(), places, ids, length, total);
    });
    many.starts.back() = many.ids.size();
    return many;
}

// The pairs that a join finds.
template <class Call> std::vector<std::pair<std::int64_t, std::int64_t>> found_pairs(std::size_t room, Call call)
{
    std::vector<std::int64_t> right;
    auto left = filled<std::vector<std::int64_t>>(room, [&](std::int64_t *ids, std::size_t length, std::uint64_t *total) {
        right.resize(length + 1);
        return call(ids, length, right.data(), length, total);
    });
    std::vector<std::pair<std::int64_t, std::int64_t>> pairs(left.size());
    for (std::size_t at = 0; at < left.size(); at++)
        pairs[at] = {left[at], right[at]};
    return pairs;
}

// A handle that is closed at its end.
class Owner {
public:
    Owner() = default;
    Owner(Owner &&other) noexcept : handle_(std::exchange(other.handle_, {})) {}
    Owner &operator=(Owner &&other) noexcept { return close(), handle_ = std::exchange(other.handle_, {}), *this; }
    ~Owner() { close(); }
    void close() noexcept { juicedelta_close(&handle_); } // Closing twice does nothing.
    juicedelta_handle *handle() noexcept { return &handle_; } // For the calls of juicedelta.h. It stays the owner's.
    const juicedelta_handle *handle() const noexcept { return &handle_; }
private:
    juicedelta_handle handle_ = {};
};
} // namespace detail

// Rows that are searched by boxes: those of a tree, or of live windows.
template <int D> class Searchable : public detail::Owner {
    static_assert(D >= 1 && D <= 3, "a tree has one, two or three axes");
public:
    using Id = std::int64_t;
    using Pairs = std::vector<std::pair<Id, Id>>;
    std::optional<Box<D>> get(Id id) const
    {
        return box_or_none(JUICEDELTA_ID_MISSING, [&](auto... box) { return juicedelta_tree_get(handle(), id, box...); });
    }
    // The least box around all rows, if there are any.
    std::optional<Box<D>> bounds() const
    {
        return box_or_none(JUICEDELTA_EMPTY, [&](auto... box) { return juicedelta_tree_bounds(handle(), box...); });
    }
    std::size_t size() const
    {
        std::uint64_t rows = 0;
        detail::check(juicedelta_tree_len(handle(), &rows));
        return static_cast<std::size_t>(rows);
    }
    bool empty() const { return size() == 0; }
    // All rows, in an order of the tree's own: `for (const Row<D> &row : tree.rows())`. They are read a few thousand at a
    // time; the tree stays where and as it is meanwhile.
    class Rows;
    Rows rows() const { return Rows(*this); }
    // The ids of the rows that the window finds, in no stated order, the rows with their boxes, and how many they are.
    std::vector<Id> search(const Box<D> &window, Relation relation = Relation::touches) const
    {
        return detail::found_ids(asking(juicedelta_tree_search, window, relation));
    }
    std::vector<Row<D>> search_rows(const Box<D> &window, Relation relation = Relation::touches) const
    {
        return detail::found_rows<D>(asking(juicedelta_tree_search_rows, window, relation));
    }
    // Writes the ids behind each other to an output iterator, and answers what is behind the last.
    template <class Output> Output search_to(Output to, const Box<D> &window, Relation relation = Relation::touches) const
    {
        const auto ids = search(window, relation);
        return std::copy(ids.begin(), ids.end(), std::move(to));
    }
    std::size_t count(const Box<D> &window, Relation relation = Relation::touches) const
    {
        std::uint64_t rows = 0;
        detail::check(asking(juicedelta_tree_count, window, relation)(&rows));
        return static_cast<std::size_t>(rows);
    }
#if __cplusplus >= 202002L
    // Writes the ids to the start of the span, if it has room for all. Answers how many there are.
    std::size_t search(const Box<D> &window, std::span<Id> ids, Relation relation = Relation::touches) const
    {
        Id none;
        std::uint64_t total = 0;
        auto search = asking(juicedelta_tree_search, window, relation);
        detail::check(search(ids.empty() ? &none : ids.data(), ids.size(), &total), JUICEDELTA_BUFFER_TOO_SMALL);
        return static_cast<std::size_t>(total);
    }
#endif
    // What each window of a list finds, or how many rows.
    template <class Boxes> Many search_many(const Boxes &windows, Relation relation = Relation::touches) const
    {
        const detail::Numbers<Box<D>> list(windows);
        return detail::found_many(list.items, 16 * list.items, [&](auto... to) {
            const auto number = static_cast<std::uint32_t>(relation);
            return juicedelta_tree_search_many(handle(), number, list.front, list.length, to...);
        });
    }
    template <class Boxes>
    std::vector<std::uint64_t> count_many(const Boxes &windows, Relation relation = Relation::touches) const
    {
        const detail::Numbers<Box<D>> list(windows);
        std::vector<std::uint64_t> counts(list.items + 1); // so that no pointer is null
        detail::check(juicedelta_tree_count_many(handle(), static_cast<std::uint32_t>(relation), list.front, list.length,
                                                 counts.data(), list.items));
        counts.pop_back();
        return counts;
    }
    // The `most` rows nearest to the point or the box, the nearest first, of equal ones the lower id first.
    std::vector<Row<D>> nearest(const Point<D> &point, std::size_t most = 1) const
    {
        return first_rows(most, [&](auto... to) { return juicedelta_tree_nearest(handle(), point.at.data(), D, to...); });
    }
    std::vector<Row<D>> nearest_to(const Box<D> &box, std::size_t most = 1) const
    {
        return first_rows(most, [&](auto... to) { return juicedelta_tree_nearest_to(handle(), numbers(box), 2 * D, to...); });
    }
    // The ids of the `most` rows nearest to each point of a list.
    template <class Points> Many nearest_many(const Points &points, std::size_t most = 1) const
    {
        const detail::Numbers<Point<D>> list(points);
        const std::size_t each = std::min(most, size());
        return detail::found_many(list.items, each * list.items, [&](auto... to) {
            return juicedelta_tree_nearest_many(handle(), list.front, list.length, each, to...);
        });
    }
    // As `nearest`, all rows that are at most so far away.
    std::vector<Row<D>> within(const Point<D> &point, std::uint64_t distance) const
    {
        // A full list may not be all.
        return detail::found_rows<D>([&](auto ids, std::size_t room, auto boxes, std::size_t length, std::uint64_t *total) {
            auto code = juicedelta_tree_within(handle(), point.at.data(), D, distance, ids, room, boxes, length, total);
            if (code != JUICEDELTA_OK || *total < room)
                return code;
            *total = 2 * room + 1;
            return std::int32_t{JUICEDELTA_BUFFER_TOO_SMALL};
        });
    }
    // Each pair of rows, one of this tree and one of the other, whose boxes touch, once, in no stated order.
    Pairs join(const Searchable &other) const
    {
        return detail::found_pairs(size(), [&](auto... to) { return juicedelta_tree_join(handle(), other.handle(), to...); });
    }
    // Each pair of two rows of this tree, the lower id first.
    Pairs join() const
    {
        return detail::found_pairs(size(), [&](auto... to) { return juicedelta_tree_join_self(handle(), to...); });
    }
    std::string dump() const { return text_of(juicedelta_tree_dump); }
    // The tree in a compact form, of which `from_bytes` makes the same tree. It is no text.
    std::string to_bytes() const { return text_of(juicedelta_tree_to_bytes); }
protected:
    Searchable() = default;
    Searchable(Searchable &&) = default;
    Searchable &operator=(Searchable &&) = default;
    ~Searchable() = default;
    // The calls take a box as its minima, and behind them its maxima, which it is.
    static_assert(std::is_standard_layout_v<Box<D>> && sizeof(Box<D>) == 2 * D * sizeof(std::int32_t));
    static_assert(sizeof(Point<D>) == D * sizeof(std::int32_t));
    static const std::int32_t *numbers(const Box<D> &box) noexcept { return reinterpret_cast<const std::int32_t *>(&box); }
private:
    // The box that a call writes, or none if it answers that code.
    template <class Call> static std::optional<Box<D>> box_or_none(std::int32_t none, Call call)
    {
        Box<D> box;
        const std::int32_t code = call(reinterpret_cast<std::int32_t *>(&box), 2 * D);
        detail::check(code, none);
        return code == JUICEDELTA_OK ? std::optional(box) : std::nullopt;
    }
    // A call for the rows that a window finds, which takes the buffers.
    template <class Call> auto asking(Call call, const Box<D> &window, Relation relation) const
    {
        return [this, call, &window, relation](auto... to) {
            return call(handle(), static_cast<std::uint32_t>(relation), numbers(window), 2 * D, to...);
        };
    }
    // The first rows, at most that many, that a call writes.
    template <class Call> std::vector<Row<D>> first_rows(std::size_t most, Call call) const
    {
        const std::size_t rows = std::min(most, size());
        return detail::found_rows<D>([&](auto ids, std::size_t room, auto boxes, std::size_t, std::uint64_t *total) {
            *total = rows;
            if (room < rows)
                return std::int32_t{JUICEDELTA_BUFFER_TOO_SMALL};
            const std::int32_t code = call(ids, rows, boxes, 2 * D * rows, total);
            *total = rows;
            return code;
        });
    }
    template <class Call> std::string text_of(Call call) const
    {
        return detail::filled<std::string>(4096, [&](char *to, auto... more) {
            return call(handle(), reinterpret_cast<std::uint8_t *>(to), more...);
        });
    }
};

template <int D> class Searchable<D>::Rows {
public:
    class iterator {
    public:
        using iterator_category = std::input_iterator_tag;
        using value_type = Row<D>;
        using difference_type = std::ptrdiff_t;
        using pointer = const Row<D> *;
        using reference = const Row<D> &;
        reference operator*() const { return part_[at_]; }
        pointer operator->() const { return &part_[at_]; }
        iterator &operator++()
        {
            if (++at_ == part_.size())
                read();
            return *this;
        }
        void operator++(int) { ++*this; }
        // Only the end has no part.
        friend bool operator==(const iterator &one, const iterator &other)
        {
            return one.part_.empty() && other.part_.empty();
        }
        friend bool operator!=(const iterator &one, const iterator &other) { return !(one == other); }
    private:
        friend class Rows;
        iterator() = default;
        explicit iterator(const Searchable &tree) : tree_(&tree) { read(); }
        void read()
        {
            const std::size_t left = tree_->size() - static_cast<std::size_t>(place_);
            part_ = tree_->first_rows(std::min<std::size_t>(left, 4096), [&](auto... to) {
                return juicedelta_tree_rows(tree_->handle(), place_, to...);
            });
            place_ += part_.size();
            at_ = 0;
        }
        const Searchable *tree_ = nullptr;
        std::vector<Row<D>> part_;
        std::uint64_t place_ = 0;
        std::size_t at_ = 0;
    };
    iterator begin() const { return iterator(*tree_); }
    iterator end() const { return iterator(); }
private:
    friend class Searchable;
    explicit Rows(const Searchable &tree) : tree_(&tree) {}
    const Searchable *tree_;
};

// A map from ids to boxes of D axes, 1 to 3, that is searched by boxes.
template <int D> class Tree : public Searchable<D> {
    using Searchable<D>::numbers;
public:
    using typename Searchable<D>::Id;
    using Searchable<D>::handle;
    // No rows, in nodes of at most `capacity` cells.
    explicit Tree(std::uint32_t capacity = 51) { detail::open(juicedelta_tree_open, handle(), D, capacity); }
    // These rows, packed all at once: much sooner made and searched than by many insertions.
    template <class Rows> static Tree from_rows(const Rows &rows, std::uint32_t capacity = 51)
    {
        return from_rows(std::begin(rows), std::end(rows), capacity);
    }
    template <class Iterator> static Tree from_rows(Iterator first, Iterator last, std::uint32_t capacity = 51)
    {
        Tree tree(Closed{});
        const detail::Lists<D> lists(first, last);
        const detail::Keys keys;
        std::uint64_t at = 0;
        auto open = [&](auto... rows) {
            return juicedelta_tree_open_rows(tree.handle(), D, capacity, rows..., keys.first, keys.second, &at);
        };
        const std::int32_t code = open(lists.ids.data(), lists.ids.size(), lists.numbers(), lists.length());
        detail::check_at(code, at);
        return tree;
    }
    // The tree of a dump, which `dump` or a script's `.nodes` wrote; if its nodes stand in another order, its rows, packed.
    static Tree from_dump(std::string_view text)
    {
        Tree tree(Closed{});
        detail::open(juicedelta_tree_open_dump, tree.handle(), D, detail::bytes_of(text), text.size());
        return tree;
    }
    // The tree that `to_bytes` wrote.
    static Tree from_bytes(std::string_view bytes)
    {
        Tree tree(Closed{});
        detail::open(juicedelta_tree_open_bytes, tree.handle(), D, detail::bytes_of(bytes), bytes.size());
        return tree;
    }
    void insert(Id id, const Box<D> &box) { detail::check(juicedelta_tree_insert(handle(), id, numbers(box), 2 * D)); }
    // All of these rows or, if one is refused, none.
    template <class Rows> void insert_rows(const Rows &rows) { insert_rows(std::begin(rows), std::end(rows)); }
    template <class Iterator> void insert_rows(Iterator first, Iterator last)
    {
        const detail::Lists<D> lists(first, last);
        std::uint64_t at = 0;
        const std::int32_t code = juicedelta_tree_insert_rows(handle(), lists.ids.data(), lists.ids.size(), lists.numbers(),
                                                              lists.length(), &at);
        detail::check_at(code, at);
    }
    void remove(Id id) { detail::check(juicedelta_tree_remove(handle(), id)); }
    // Gives the row with that id this box.
    void move(Id id, const Box<D> &box) { detail::check(juicedelta_tree_move(handle(), id, numbers(box), 2 * D)); }
    void clear() { detail::check(juicedelta_tree_clear(handle())); }
private:
    struct Closed {};
    explicit Tree(Closed) {}
};

// Rows, and windows over them, each an id and a box. A window sees the rows that touch it. Each edit answers what it told the
// windows, by rising window and then by rising id: a copy that drops what left and adds what came is what the window sees.
// An edit that throws an Error changed nothing. If `std::bad_alloc` is thrown, its list alone found no memory: `changes` tells it.
template <int D> class Live : public Searchable<D> {
    using Searchable<D>::numbers;
public:
    using typename Searchable<D>::Id;
    using Searchable<D>::handle;
    using Searchable<D>::rows;
    // No rows and no windows, in nodes of at most `capacity` cells.
    explicit Live(std::uint32_t capacity = 51) { detail::open(juicedelta_live_open, handle(), D, capacity); }
    std::vector<Change> insert(Id id, const Box<D> &box) { return edited(juicedelta_live_insert, id, numbers(box), 2 * D); }
    // Gives the row with that id this box. The same box tells nothing.
    std::vector<Change> move(Id id, const Box<D> &box) { return edited(juicedelta_live_move, id, numbers(box), 2 * D); }
    std::vector<Change> remove(Id id) { return edited(juicedelta_live_remove, id); }
    // A new window, which is told of each row that it sees.
    std::vector<Change> watch(Id window, const Box<D> &box) { return edited(juicedelta_live_watch, window, numbers(box), 2 * D); }
    // Gives the window this box, as a screen that pans or zooms.
    std::vector<Change> shift(Id window, const Box<D> &box) { return edited(juicedelta_live_shift, window, numbers(box), 2 * D); }
    // Takes the window out. It is told that each row left.
    std::vector<Change> unwatch(Id window) { return edited(juicedelta_live_unwatch, window); }
    // Makes room for `rows` more rows and `windows` more windows, and for `changes` windows or rows that one edit looks at: those
    // around its old box and its new one. The edits that follow need memory for their answers alone, as long as each looks at no
    // more than that, and together they insert or move at most `rows` rows, and watch or shift at most `windows` windows.
    void reserve(std::uint64_t rows, std::uint64_t windows, std::uint64_t changes)
    {
        detail::check(juicedelta_live_reserve(handle(), rows, windows, changes));
    }
    // What the last edit told.
    std::vector<Change> changes() const
    {
        return detail::found_changes([&](auto... to) { return juicedelta_live_changes(handle(), to...); });
    }
    // The ids of the rows that the window sees, rising.
    std::vector<Id> rows(Id window) const
    {
        return detail::found_ids([&](auto... to) { return juicedelta_live_rows(handle(), window, to...); });
    }
    // The windows, in no stated order.
    std::vector<Row<D>> windows() const
    {
        return detail::found_rows<D>([&](auto ids, std::size_t room, auto boxes, std::size_t length, std::uint64_t *total) {
            const std::int32_t code = juicedelta_live_windows(handle(), 0, ids, room, boxes, length, total);
            return code == JUICEDELTA_OK && *total > room ? std::int32_t{JUICEDELTA_BUFFER_TOO_SMALL} : code;
        });
    }
private:
    template <class Call, class... Words> std::vector<Change> edited(Call call, Words... words)
    {
        std::uint64_t count = 0;
        detail::check(call(handle(), words..., &count));
        return count == 0 ? std::vector<Change>() : changes();
    }
};

// Boxes and points of floats, and a grid that makes whole numbers of them, and floats again, as juicedelta_grid.h says.
template <int D> struct FloatBox {
    std::array<double, D> min, max;
};
template <int D> struct FloatPoint {
    std::array<double, D> at;
};
class Grid {
public:
    // `scale` whole numbers a unit, from an origin on, one for all axes or one for each.
    explicit Grid(double scale, double origin = 0) : Grid(scale, {origin, origin, origin}) {}
    Grid(double scale, std::array<double, 3> origin) : grid_{scale, {origin[0], origin[1], origin[2]}}
    {
        if (!juicedelta_grid_is_fine(&grid_, 3))
            throw std::invalid_argument("a grid's scale is above 0, and its origin at most 2^49 steps from 0");
    }
    // The least box of whole numbers that holds this one. NaN, what is outside of the grid and a min above its max throw.
    template <int D> Box<D> box(const FloatBox<D> &from) const
    {
        std::array<double, 2 * D> numbers;
        std::copy(from.max.begin(), from.max.end(), std::copy(from.min.begin(), from.min.end(), numbers.begin()));
        std::array<std::int32_t, 2 * D> to;
        if (juicedelta_grid_box(&grid_, D, numbers.data(), to.data()) != 0)
            throw std::out_of_range("a box is outside of the grid, has a min above its max, or no number");
        Box<D> box;
        std::copy_n(to.begin(), D, box.min.begin());
        std::copy_n(to.begin() + D, D, box.max.begin());
        return box;
    }
    // The nearest point of whole numbers.
    template <int D> Point<D> point(const FloatPoint<D> &from) const
    {
        Point<D> to;
        if (juicedelta_grid_point(&grid_, D, from.at.data(), to.at.data()) != 0)
            throw std::out_of_range("a point is outside of the grid, or no number");
        return to;
    }
    template <int D> FloatBox<D> floats(const Box<D> &from) const
    {
        FloatBox<D> to;
        juicedelta_grid_floats(&grid_, D, from.min.data(), D, to.min.data());
        juicedelta_grid_floats(&grid_, D, from.max.data(), D, to.max.data());
        return to;
    }
private:
    juicedelta_grid grid_;
};

// A script shell: it is fed a script in whatever parts.
class Shell : public detail::Owner {
public:
    explicit Shell(std::uint32_t capacity = 51) { detail::open(juicedelta_script_open, handle(), capacity); }
    // Feeds the shell some text, and answers what it prints.
    std::string execute(std::string_view text)
    {
        detail::check(juicedelta_script_exec(handle(), detail::bytes_of(text), text.size()));
        return output();
    }
    // Ends the script: whether any statement of it was refused, and what its end prints.
    std::pair<bool, std::string> finish()
    {
        std::uint32_t refused = 0;
        detail::check(juicedelta_script_finish(handle(), &refused));
        return {refused != 0, output()};
    }
private:
    std::string output()
    {
        auto text = detail::filled<std::string>(0, [&](char *bytes, std::size_t room, std::uint64_t *length) {
            detail::check(juicedelta_script_output_length(handle(), length));
            return juicedelta_script_output(handle(), (std::uint8_t *)bytes, room);
        });
        detail::check(juicedelta_script_drop_output(handle()));
        return text;
    }
};
} // namespace juicedelta
#endif
