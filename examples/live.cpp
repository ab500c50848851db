#include <juicedelta.hpp>
#include <iostream>

int main()
{
    juicedelta::Live<2> carts;
    carts.insert(7, {{1, 1}, {2, 2}});
    carts.watch(1, {{0, 0}, {9, 9}});
    for (auto [window, id, kind] : carts.move(7, {{10, 1}, {11, 2}}))
        std::cout << "row " << id << (kind == juicedelta::Kind::left ? " left " : " is in ") << "window " << window << "\n";
}
