// ndarray_layout.hpp in a program without exceptions: what the calls that begin with try_ give.
#include "ndarray_layout.hpp"

#include <cstdio>

static int checked, failed;

static void check(bool holds, int line, const char *what) {
    checked++;
    if (holds) return;
    failed++;
    std::printf("test_results.cpp:%d: %s\n", line, what);
}

#define CHECK(fact) check((fact), __LINE__, #fact)

using ints = nd::view<int>;

static int numbers[12] = {0, 1, 2, 3, 4, 5, 6, 7, 8, 9, 10, 11};

static void test_new() {
    const auto view = ints::try_new(numbers, 12, {3, 4}), far = ints::try_new(numbers, 12, {3, 4}, {5, 1});
    CHECK(view.has_value() && (*view)(2, 3) == 11 && view->find(3, 0) == nullptr);
    CHECK(!far && far.error() == ND_OUT_OF_BOUNDS);
    CHECK(ints::try_new(numbers, 12, view->as_c().layout).has_value());
    CHECK(ints::try_from_byte_strides(numbers, 12, {3}, {16})->size() == 3);
    CHECK(ints::try_from_byte_strides(numbers, 12, {3}, {15}).error() == ND_INCOMPATIBLE_LAYOUT);
}

static void test_made_of(const ints &view) {
    const auto row = view.try_slice({nd::index(1), nd::all});
    CHECK(row && (*row)(0) == 4 && view.try_slice({nd::index(3), nd::all}).error() == ND_OUT_OF_BOUNDS);
    CHECK(view.try_reshape({2, 6}).has_value() && view.try_reshape({5}).error() == ND_INCOMPATIBLE_SHAPE);
    CHECK(view.try_permuted_axes({1, 0}).has_value() && view.try_permuted_axes({0, 0}).error() == ND_INCOMPATIBLE_SHAPE);
    CHECK(view.try_broadcast({2, 3, 4}).has_value() && view.try_broadcast({5}).error() == ND_INCOMPATIBLE_SHAPE);
    CHECK(view.try_windows({2, 2}).has_value() && view.try_windows({2}).error() == ND_INCOMPATIBLE_SHAPE);
    CHECK(view.try_exact_chunks({2, 2}).has_value() && view.try_exact_chunks({0, 2}).error() == ND_UNSUPPORTED);
    CHECK(view.try_split_at(0, 1)->second(1, 3) == 11 && view.try_split_at(2, 1).error() == ND_OUT_OF_BOUNDS);
}

int main() {
    test_new();
    if (const auto view = ints::try_new(numbers, 12, {3, 4})) test_made_of(*view);
    std::printf("%d checked, %d failed\n", checked, failed);
    return failed != 0 || checked != 12;
}
