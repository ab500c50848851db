// Rows, windows, times and memory, for the programs here. All draw the same rows and windows.
#ifndef DRAW_HPP
#define DRAW_HPP
#include <chrono>
#include <cstdint>
#include <cstdio>
#include <cstdlib>
#include <malloc.h>
#include <unistd.h>

template <int Axes> struct BoxOf {
    int32_t min[Axes], max[Axes];
};
using Box = BoxOf<2>;

// How rows lie.
enum class Shape { uniform, clustered, dense, sorted };

// Numbers that look random (the finalizer of SplitMix64: Steele, Lea, Flood 2014).
inline uint64_t mixed(uint64_t seed)
{
    uint64_t z = seed + 0x9E3779B97F4A7C15u;
    z = (z ^ (z >> 30)) * 0xBF58476D1CE4E5B9u;
    z = (z ^ (z >> 27)) * 0x94D049BB133111EBu;
    return z ^ (z >> 31);
}
// The lower end on an axis of the row with this number.
inline int32_t low_of(Shape shape, uint64_t row, uint64_t axis)
{
    const uint64_t seed = mixed(row * 8 + axis), cluster = row % 100 * 8 + axis + 4;
    switch (shape) {
    case Shape::clustered: return int32_t(mixed(cluster) % 1000000 + seed % 5000);
    case Shape::dense: return int32_t(seed % 10);
    case Shape::sorted: return int32_t(axis == 0 ? row : seed % 1000000);
    default: return int32_t(seed % 1000000);
    }
}
// The box of the row with this number, wider by `grow` at each end.
template <int Axes> BoxOf<Axes> box_of(Shape shape, uint64_t row, int32_t grow)
{
    BoxOf<Axes> box;
    for (uint64_t axis = 0; axis < Axes; axis++) {
        uint64_t seed = mixed(row * 8 + axis);
        int32_t low = low_of(shape, row, axis), side = int32_t(mixed(seed) % (shape == Shape::dense ? 10 : 100));
        box.min[axis] = low - grow, box.max[axis] = low + side + grow;
    }
    return box;
}
inline Box box_of(uint64_t row, int32_t grow) { return box_of<2>(Shape::uniform, row, grow); }
// Half the side of a window that holds some `held` of the rows.
inline int32_t reach(int axes, Shape shape, uint64_t rows, uint64_t held)
{
    using Wide = unsigned __int128;
    const Wide span = shape == Shape::clustered ? 5000 : shape == Shape::dense ? 10 : 1000000;
    const auto power = [axes](Wide base) { return axes == 1 ? base : axes == 2 ? base * base : base * base * base; };
    const Wide whole = power(span) * held / (shape == Shape::clustered ? rows / 100 + 1 : rows);
    Wide side = 0;
    for (Wide bit = 1 << 20; bit > 0; bit /= 2)
        if (power(side + bit) <= whole)
            side += bit;
    return int32_t(side / 2);
}
inline int32_t reach(uint64_t rows, uint64_t held) { return reach(2, Shape::uniform, rows, held); }
// The window around the row of that turn.
template <int Axes> BoxOf<Axes> window(Shape shape, uint64_t rows, uint64_t turn, int32_t grow)
{
    return box_of<Axes>(shape, mixed(turn) % rows + 1, grow);
}
inline Box window(uint64_t rows, uint64_t turn, int32_t grow) { return window<2>(Shape::uniform, rows, turn, grow); }

// Nanoseconds.
inline double now() { return std::chrono::duration<double, std::nano>(std::chrono::steady_clock::now().time_since_epoch()).count(); }
// Prints the nanoseconds of a call, and the sum of what the calls answered.
template <class Call> void timed(const char *name, uint64_t calls, Call call)
{
    int64_t sum = 0;
    double begun = now();
    for (uint64_t at = 0; at < calls; at++)
        sum += call(at);
    std::printf("%s %.0f %lld\n", name, (now() - begun) / double(calls), static_cast<long long>(sum));
}
// Resident memory in bytes, without the program's own file, after what was freed is given back.
inline double resident()
{
    malloc_trim(0);
    long pages = 0, of_files = 0;
    FILE *file = std::fopen("/proc/self/statm", "r");
    if (file == nullptr || std::fscanf(file, "%*d %ld %ld", &pages, &of_files) != 2)
        std::exit(1);
    std::fclose(file);
    return double(pages - of_files) * double(sysconf(_SC_PAGESIZE));
}

#endif
