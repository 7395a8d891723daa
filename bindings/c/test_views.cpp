// ndarray_layout.hpp: what its classes give and refuse, with a class like std::layout_stride's mapping, and that where it is.
#include "ndarray_layout.hpp"

#include <algorithm>
#include <array>
#include <cstdio>
#include <numeric>
#include <string>
#include <vector>
#if __has_include(<ranges>)
#include <ranges>
#endif

static int checked, failed;

static void check(bool holds, int line, const char *what) {
    checked++;
    if (holds) return;
    failed++;
    std::printf("test_views.cpp:%d: %s\n", line, what);
}

#define CHECK(fact) check((fact), __LINE__, #fact)

// The status with which a call is refused, where the text is that of its reason, or else its own.
template <class Call>
static std::int32_t refused(Call call) {
    try {
        call();
    } catch (const nd::error &error) {
        const bool has_reason = error.reason().rule != ND_RULE_NONE;
        char text[200];
        nd_reason_text(&error.reason(), text, sizeof text);
        return error.what() == std::string(has_reason ? text : nd_status_message(error.status())) ? error.status() : -1;
    }
    return ND_OK;
}

// The numbers of a view, row by row, with a slash after each row.
template <class Rows>
static std::string text_of(const Rows &rows) {
    std::string text;
    for (const auto row : rows) {
        for (const int number : row) text += std::to_string(number) + ' ';
        text += '/';
    }
    return text;
}

// Like a mapping of std::layout_stride, of two axes.
struct mapping_like {
    struct extents_type {
        using index_type = int;
        std::array<int, 2> lengths;
        explicit extents_type(std::array<int, 2> given) : lengths(given) {}
        static constexpr std::size_t rank() { return 2; }
        int extent(std::size_t axis) const { return lengths[axis]; }
    };
    extents_type of;
    std::array<int, 2> strides;
    mapping_like(extents_type given, std::array<int, 2> steps) : of(given), strides(steps) {}
    const extents_type &extents() const { return of; }
    int stride(std::size_t axis) const { return strides[axis]; }
};

static std::vector<int> numbers(12);

static void test_views() {
    const nd::view<int> view(numbers.data(), 12, {3, 4}), back(numbers.data(), 12, {3, 4}, {-4, 1});
    CHECK(view.axes() == 2 && view.size() == 12 && view.length(1) == 4 && view.data() == numbers.data());
    CHECK(view(2, 3) == 11 && back(2, 3) == 3 && view.find(0, 1) == &numbers[1]);
    CHECK(view.find(3, 0) == nullptr && view.find(0, 4) == nullptr && view.find(0, -1) == nullptr && view.find(0) == nullptr);
    CHECK(refused([&] { (void)view(3, 0); }) == ND_OUT_OF_BOUNDS && refused([&] { (void)view.length(2); }) == ND_OUT_OF_BOUNDS);
    CHECK(refused([&] { nd::view<int>(numbers.data(), 11, {3, 4}); }) == ND_OUT_OF_BOUNDS);
    CHECK(refused([&] { nd::view<int>(numbers.data(), 12, {3, 4}, {1, 1}); }) == ND_UNSUPPORTED);
    CHECK(refused([&] { nd::view<const int>(numbers.data(), 12, {3, 4}, {1, 1}); }) == ND_OK);
    CHECK(refused([&] { nd::view<int>(numbers.data(), 12, {3, 4}, {4}); }) == ND_INCOMPATIBLE_LAYOUT);
    CHECK(nd::view<int>(numbers.data(), 12, {3, 4}, ND_COLUMN_MAJOR)(1, 1) == 4);
    CHECK(nd::view<int>(numbers.data(), 12, back.as_c().layout)(0, 0) == 8);
    view(1, 1) = 50;
    CHECK(numbers[5] == 50);
    numbers[5] = 5;
}

static void test_cursors() {
    const nd::view<int> view(numbers.data(), 12, {3, 4}), back = view.slice({nd::from(0, -1), nd::from(1, 2)});
    const auto at = back.cursor<2>();
    CHECK(at(0, 0) == 9 && at(2, 1) == 3 && at.length(0) == 3 && at.length(1) == 2 && *at.find(1, 1) == 7);
    CHECK(at.find(3, 0) == nullptr && at.find(0, 2) == nullptr && at.find(-1, 0) == nullptr);
    CHECK(refused([&] { (void)at(0, 2); }) == ND_OUT_OF_BOUNDS && refused([&] { (void)at.length(2); }) == ND_OUT_OF_BOUNDS);
    CHECK(refused([&] { (void)view.cursor<1>(); }) == ND_INCOMPATIBLE_SHAPE);
    CHECK(at.row(1).size() == 2 && at.row(1).data() == &numbers[5] && at.row(1).stride() == 2 && at.row(2)[1] == 3);
    CHECK(refused([&] { (void)at.row(3); }) == ND_OUT_OF_BOUNDS && view.reshape({12}).cursor<1>().row().size() == 12);
    at(1, 0) = 50;
    CHECK(numbers[5] == 50);
    numbers[5] = 5;
    const nd::view<const int> cube(numbers.data(), 12, {2, 3, 2}), five(numbers.data(), 12, {1, 2, 1, 3, 2});
    const nd::view<const int> one(numbers.data(), 12, {});
    CHECK(one() == 0 && one.find() == numbers.data() && one.cursor<0>()() == 0 && one.find(0) == nullptr);
    CHECK(cube.cursor<3>().row(1, 2)[1] == 11 && refused([&] { (void)cube.cursor<3>().row(0, 3); }) == ND_OUT_OF_BOUNDS);
    CHECK(cube.cursor<3>()(1, 2, 1) == 11 && cube(1, 2, 1) == 11 && five(0, 1, 0, 2, 1) == 11 && five.cursor<5>()(0, 1, 0, 2, 1) == 11);
}

// Parts and tiles of a cursor, and planes.
static void test_parts() {
    const nd::view<int> view(numbers.data(), 12, {3, 4});
    const nd::cursor<const int, 2> at = view.slice({nd::from(0, -1), nd::all});
    std::vector<int> sums, lengths;
    CHECK(at.crop(1, 1, 2, 3)(0, 0) == 5 && at.crop(1, 1, 2, 3).row(1)[2] == 3 && at.crop(3, 4, 0, 0).length(0) == 0);
    CHECK(refused([&] { (void)at.crop(1, 1, 3, 3); }) == ND_OUT_OF_BOUNDS && refused([&] { (void)at.crop(0, 2, 1, -1); }) == ND_OUT_OF_BOUNDS);
    for (const nd::cursor<const int, 2> tile : at.tiles(2, 3)) {
        sums.push_back(tile(0, 0));
        lengths.push_back(static_cast<int>(10 * tile.length(0) + tile.length(1)));
    }
    CHECK((sums == std::vector{8, 11, 0, 3}) && (lengths == std::vector{23, 21, 13, 11}) && at.tiles(0, 1).begin() == at.tiles(0, 1).end());
    const auto up = nd::view<int>::from_row0(&numbers[8], {0, -16, 4, 3, 4});
    const auto even = nd::view<const int>::over_plane(numbers.data(), 12, {4, 16, 8, 3, 2});
    CHECK(up(0, 1) == 9 && up(2, 0) == 0 && up.data() == numbers.data() && even(2, 1) == 11 && even(0, 0) == 1);
    CHECK(nd::view<int>::try_over_plane(numbers.data(), 12, {8, 16, 8, 3, 3}).error().status == ND_OUT_OF_BOUNDS);
    CHECK(nd::view<int>::try_from_row0(numbers.data(), {0, 16, 2, 3, 3}).error().status == ND_INCOMPATIBLE_LAYOUT);
}

// A view is passed as a cursor of its axes, of its elements or of const ones; a cursor of others isn't one of these.
static int sum_of(nd::cursor<const int, 2> at) { return at(0, 1) + at(1, 0); }
static void add_to(nd::cursor<int, 2> at, int number) { at(1, 0) += number; }
static_assert(!std::is_convertible_v<nd::view<const int>, nd::cursor<int, 2>>);
static_assert(!std::is_convertible_v<nd::cursor<const int, 2>, nd::cursor<int, 2>>);
static_assert(!std::is_convertible_v<nd::view<int>, nd::cursor<unsigned, 2>>);

static void test_views_as_cursors() {
    const nd::view<int> view(numbers.data(), 12, {3, 4}), back = view.slice({nd::from(0, -1), nd::from(1)});
    const nd::view<const int> fixed = back;
    CHECK(sum_of(view) == 5 && sum_of(back) == 15 && sum_of(fixed) == 15 && sum_of(view.cursor<2>()) == 5);
    add_to(back, 70);
    CHECK(numbers[5] == 75);
    numbers[5] = 5;
    CHECK(refused([&] { (void)sum_of(view.reshape({12})); }) == ND_INCOMPATIBLE_SHAPE);
}

// Each element of views at random, and what lies around their indices, beside the places that the library has.
static void test_elements_beside_places() {
    std::vector<unsigned char> bytes(64);
    std::iota(bytes.begin(), bytes.end(), std::uint8_t{1});
    const nd::view<unsigned char> whole(bytes.data(), 64, {4, 4, 4});
    int found = 0;
    for (int round = 0; round < 512; round++) {
        const auto part = [](int bits) { return nd::from(bits / 2 % 2, (1 + bits / 4) * (bits % 2 == 0 ? 1 : -1)); };
        const auto view = whole.slice({part(round % 8), part(round / 8 % 8), part(round / 64)});
        const auto at = view.cursor<3>();
        for (std::size_t cell = 0; cell < 125; cell++) {
            const std::array<std::size_t, 3> index{cell / 25, cell / 5 % 5, cell % 5};
            std::size_t place = 0;
            const bool is_index = nd_layout_place(&view.as_c().layout, index.data(), 3, &place) == ND_OK;
            const unsigned char *const expected = is_index ? &bytes[place] : nullptr;
            if (view.find(index[0], index[1], index[2]) != expected || at.find(index[0], index[1], index[2]) != expected) CHECK(false);
            if (is_index && (&view(index[0], index[1], index[2]) != expected || &at(index[0], index[1], index[2]) != expected)) CHECK(false);
            if (is_index) found++;
        }
    }
    CHECK(found > 5000);
}

// The elements of a row by each call of an iterator, and by algorithms that go back and forth.
static void test_elements_of_rows() {
    std::vector<int> mixed{5, 9, 1, 7, 3, 8};
    const nd::view<int> view(mixed.data(), 6, {2, 3}), columns = view.permuted_axes({1, 0});
    for (const nd::row<int> row : columns.rows()) std::sort(row.begin(), row.end());
    CHECK(text_of(view.rows()) == "5 3 1 /7 9 8 /");
    for (const nd::row<int> row : view.slice({nd::index(1), nd::from(0, -1)}).rows()) std::reverse(row.begin(), row.end());
    CHECK(text_of(view.rows()) == "5 3 1 /8 9 7 /");
    const nd::row<int> row = *columns.slice({nd::index(0), nd::all}).rows().begin();
    const auto first = row.begin(), end = row.end();
    CHECK(end - first == 2 && first[1] == 8 && *(first + 1) == 8 && *(1 + first) == 8 && *(end - 2) == 5 && *--row.end() == 8);
    CHECK(first < end && end > first && first <= first && end >= first && !(end < first) && !(first > end) && first + 2 == end);
    auto at = end;
    CHECK(*(at -= 1) == 8 && at-- == first + 1 && at == first && (at += 2) == end);
    const nd::row<const int> twice = *nd::view<const int>(mixed.data(), 6, {2}, {0}).rows().begin();
    CHECK(std::accumulate(twice.begin(), twice.end(), 0) == 10 && std::count(twice.begin(), twice.end(), 5) == 2);
#ifdef __cpp_lib_ranges
    static_assert(std::ranges::random_access_range<nd::row<int>> && std::ranges::sized_range<nd::row<int>>);
    std::ranges::sort(row, std::ranges::greater{});
    CHECK(row[0] == 8 && row[1] == 5);
#endif
}

static void test_rows() {
    const nd::view<int> view(numbers.data(), 12, {3, 4});
    CHECK(text_of(view.rows()) == "0 1 2 3 /4 5 6 7 /8 9 10 11 /" && view.rows().size() == 3);
    CHECK(text_of(view.rows(ND_COLUMN_MAJOR)) == "0 4 8 /1 5 9 /2 6 10 /3 7 11 /");
    CHECK(text_of(view.joined_rows()) == "0 1 2 3 4 5 6 7 8 9 10 11 /");
    CHECK(refused([&] { (void)view.rows(2); }) == ND_BAD_ARGUMENT && refused([&] { (void)view.joined_rows(2); }) == ND_BAD_ARGUMENT);
    for (const nd::row<int> row : view.rows()) CHECK(row.stride() == 1 && row.size() == 4 && row.data() == &row[0]);
    const auto third = (*view.slice({nd::index(2), nd::from(0, -1)}).rows().begin()).begin(); /* (of a row that is gone) */
    auto next = third;
    CHECK(*third == 11 && *next++ == 11 && *next == 10 && next != third && *next.operator->() == 10);
    for (const nd::row<int> row : view.slice({nd::index(1), nd::all}).rows()) row[1] = 50;
    CHECK(numbers[5] == 50);
    numbers[5] = 5;
    CHECK(text_of(nd::view<int>(numbers.data(), 12, {0, 4}).rows()).empty());
}

// Two and three views in step, by hand and as a range of tuples.
static void test_rows_in_step() {
    std::vector<int> copied(6, 0), added(6, 1);
    const nd::view<int> view(numbers.data(), 12, {3, 4}), part = view.slice({nd::range(0, 2), nd::range(1, 4)});
    const nd::view<int> to(copied.data(), 6, {2, 3}), sums(added.data(), 6, {2, 3});
    auto both = nd::joined_rows(to, nd::view<const int>(part));
    CHECK(both.size() == 2);
    for (const auto [into, from] : both) std::copy(from.begin(), from.end(), into.begin());
    CHECK(text_of(to.joined_rows()) == "1 2 3 5 6 7 /" && both.size() == 0);
    for (const auto [sum, first, second] : nd::joined_rows(sums, to, part))
        for (std::size_t at = 0; at < sum.size(); at++) sum[at] += first[at] + second[at];
    CHECK(text_of(sums.rows()) == "3 5 7 /11 13 15 /");
    CHECK(nd::joined_rows(to, sums).size() == 1 && nd::joined_rows(ND_COLUMN_MAJOR, to, part).size() == 3);
    for (const auto [alone] : nd::joined_rows(to)) CHECK(alone.size() == 6 && alone.data() == copied.data());
    CHECK(refused([&] { (void)nd::joined_rows(to, view); }) == ND_INCOMPATIBLE_SHAPE);
    CHECK(refused([&] { (void)nd::joined_rows(2, to, part); }) == ND_BAD_ARGUMENT);
#ifdef __cpp_lib_ranges
    static_assert(std::ranges::input_range<decltype(view.rows())> && std::ranges::input_range<decltype(both)>);
    int sum = 0;
    std::ranges::for_each(view.rows(), [&](nd::row<int> row) { sum += row[0]; });
    CHECK(sum == 12);
#endif
}

static void test_views_of_views() {
    const nd::view<int> view(numbers.data(), 12, {3, 4});
    CHECK(text_of(view.slice({nd::from(0, -1), nd::range(0, 4, 2)}).rows()) == "8 10 /4 6 /0 2 /");
    CHECK(text_of(view.slice({nd::from(1), nd::range(1, 3)}).rows()) == "5 6 /9 10 /");
    CHECK(text_of(view.slice({nd::range(2, 9), nd::range(1, 3)}, ND_CLAMPED).rows()) == "9 10 /");
    CHECK(view.slice({nd::new_axis, nd::index(2), nd::all})(0, 1) == 9);
    CHECK(text_of(view.permuted_axes({1, 0}).rows()) == "0 4 8 /1 5 9 /2 6 10 /3 7 11 /");
    CHECK(text_of(view.reshape({2, 6}).rows()) == "0 1 2 3 4 5 /6 7 8 9 10 11 /");
    const nd::view<const int> wide = view.slice({nd::index(1), nd::range(0, 2)}).broadcast({2, 2}), fixed = view;
    CHECK(text_of(wide.rows()) == "4 5 /4 5 /" && fixed(2, 3) == 11);
    CHECK(refused([&] { (void)view.slice({nd::all}); }) == ND_INCOMPATIBLE_SHAPE);
    CHECK(refused([&] { (void)view.slice({nd::range(0, 9), nd::all}); }) == ND_OUT_OF_BOUNDS);
    CHECK(refused([&] { (void)view.permuted_axes({0, 0}); }) == ND_INCOMPATIBLE_SHAPE);
    CHECK(refused([&] { (void)view.reshape({5}); }) == ND_INCOMPATIBLE_SHAPE);
    CHECK(refused([&] { (void)view.broadcast({3, 5}); }) == ND_INCOMPATIBLE_SHAPE);
}

// Blocks, parts, the diagonal and stretches, as C has them.
static void test_parts_of_views() {
    const nd::view<int> view(numbers.data(), 12, {3, 4});
    CHECK(text_of(view.windows({2, 3}).slice({nd::index(1), nd::index(1), nd::all, nd::all}).rows()) == "5 6 7 /9 10 11 /");
    CHECK(text_of(view.exact_chunks({2, 2}).slice({nd::index(0), nd::index(1), nd::all, nd::all}).rows()) == "2 3 /6 7 /");
    CHECK(text_of(view.diag().rows()) == "0 5 10 /");
    const auto [left, right] = view.split_at(1, 3);
    CHECK(text_of(left.rows()) == "0 1 2 /4 5 6 /8 9 10 /" && text_of(right.rows()) == "3 /7 /11 /");
    const auto all = view.stretch(), lower = view.slice({nd::from(1), nd::all}).stretch();
    CHECK(all && all->data() == numbers.data() && all->size() == 12 && lower && (*lower)[0] == 4 && lower->size() == 8);
    CHECK(!view.stretch(ND_COLUMN_MAJOR) && !left.stretch());
    CHECK(refused([&] { (void)view.windows({2}); }) == ND_INCOMPATIBLE_SHAPE);
    CHECK(refused([&] { (void)view.exact_chunks({0, 1}); }) == ND_UNSUPPORTED);
    CHECK(refused([&] { (void)view.split_at(1, 5); }) == ND_OUT_OF_BOUNDS && refused([&] { (void)view.stretch(2); }) == ND_BAD_ARGUMENT);
    const auto lines = nd::view<int>::from_byte_strides(numbers.data(), 12, {3, 2}, {-16, 4});
    CHECK(text_of(lines.rows()) == "8 9 /4 5 /0 1 /");
    CHECK(refused([&] { (void)nd::view<int>::from_byte_strides(numbers.data(), 12, {3, 2}, {-15, 4}); }) == ND_INCOMPATIBLE_LAYOUT);
}

static void test_sharing() {
    const nd::view<int> view(numbers.data(), 12, {3, 4});
    const std::vector<std::vector<nd::elem>> apart{{nd::index(0), nd::all}, {nd::index(2), nd::all}};
    CHECK(!view.first_intersection(apart));
    const auto pair = view.first_intersection({{nd::index(0), nd::all}, {nd::index(2), nd::all}, {nd::all, nd::index(3)}});
    CHECK(pair && pair->first < pair->second && pair->second == 2);
    CHECK(refused([&] { (void)view.first_intersection({{nd::index(9), nd::all}}); }) == ND_OUT_OF_BOUNDS);
    const nd::view<int> even = view.slice({nd::all, nd::from(0, 2)}), odd = view.slice({nd::all, nd::from(1, 2)});
    CHECK(!nd::share_element(even, odd) && nd::share_element(nd::view<const int>(even), view.slice({nd::index(1), nd::all})));
    const nd::view<int> other(numbers.data() + 1, 6, {2, 3});
    CHECK(refused([&] { (void)nd::share_element(view, other); }) == ND_BAD_ARGUMENT);
}

// What errors say: the rule that is broken, with the caller's axes.
template <class Call>
static std::string said(Call call) {
    try {
        call();
    } catch (const nd::error &error) {
        return error.what();
    }
    return "nothing";
}

static void test_reasons() {
    using ints = nd::view<int>;
    const ints view(numbers.data(), 12, {3, 4});
    CHECK(said([&] { (void)view.slice({nd::all, nd::index(9)}); }) == "axis 1: index 9 is out of bounds of length 4");
    CHECK(said([&] { (void)view.slice({nd::from(0, 0), nd::all}); }) == "axis 0: the step is 0");
    CHECK(said([&] { (void)view.permuted_axes({0, 0}); }) == "axis 1: it is missing, where each of 2 axes has to be once");
    CHECK(said([&] { (void)view.reshape({5}); }) == "the new shape has 5 indices, and the layout has 12");
    CHECK(said([&] { (void)view.broadcast({3, 5}); }) == "axis 1: length 4 can't be broadcast to 5");
    CHECK(said([&] { (void)view.windows({2, 0}); }) == "axis 1: the length of a window is 0, and has to be above 0");
    CHECK(said([&] { (void)view.exact_chunks({2}); }) == "a chunk has 1 lengths for 2 axes, and needs one for each");
    CHECK(said([&] { (void)view.split_at(2, 0); }) == "axis 2: there are 2 axes, counted from 0");
    CHECK(said([&] { ints(numbers.data(), 11, {3, 4}); }) == "the highest place 11 is past a buffer of 11 elements");
    CHECK(said([&] { ints(numbers.data(), 12, {std::size_t{1} << 62, 2}); }) ==
          "the product of the lengths that are not 0 is above the limit 2**63 - 1");
    CHECK(said([&] { ints(numbers.data(), 12, {3, 4}, {5, 1}); }) == "the highest place 13 is past a buffer of 12 elements");
    CHECK(said([&] { (void)nd::joined_rows(view, ints(numbers.data(), 12, {4, 3})); }) ==
          "axis 0: view 1 has length 4, and the first one 3");
    CHECK(said([&] { (void)nd::joined_rows(view, ints(numbers.data(), 12, {12})); }) == "view 1 has 1 axes, and the first one 2");
    CHECK(said([&] { (void)view(3, 0); }) == nd_status_message(ND_OUT_OF_BOUNDS));
    try {
        (void)view.slice({nd::all, nd::index(9)});
    } catch (const nd::error &error) {
        CHECK(error.reason().rule == ND_RULE_INDEX && error.reason().axis == 1 && error.reason().number == 9);
    }
    CHECK(view.try_slice({nd::all, nd::index(9)}).error().reason.size == 4);
}

// What the calls that begin with try_ give: a view, or a status, and no exception.
static void test_results() {
    using ints = nd::view<int>;
    const auto view = ints::try_new(numbers.data(), 12, {3, 4}), far = ints::try_new(numbers.data(), 12, {3, 4}, {5, 1});
    CHECK(view.has_value() && (*view)(2, 3) == 11 && !far && far.error() == ND_OUT_OF_BOUNDS);
    const auto row = view->try_slice({nd::index(1), nd::all}), none = view->try_slice({nd::index(3), nd::all});
    CHECK(row && (*row)(0) == 4 && !none && none.error() == ND_OUT_OF_BOUNDS);
    CHECK(view->try_reshape({2, 6}).has_value() && view->try_reshape({5}).error() == ND_INCOMPATIBLE_SHAPE);
    CHECK(view->try_permuted_axes({1, 0}).has_value() && view->try_broadcast({5}).error() == ND_INCOMPATIBLE_SHAPE);
    CHECK(view->try_windows({2, 2}).has_value() && view->try_exact_chunks({2}).error() == ND_INCOMPATIBLE_SHAPE);
    CHECK(view->try_split_at(0, 1)->second(1, 3) == 11 && view->try_split_at(2, 1).error() == ND_OUT_OF_BOUNDS);
    CHECK(ints::try_from_byte_strides(numbers.data(), 12, {3}, {16})->size() == 3);
    CHECK(ints::try_from_byte_strides(numbers.data(), 12, {3}, {15}).error() == ND_INCOMPATIBLE_LAYOUT);
    CHECK(ints::try_new(numbers.data(), 12, view->as_c().layout).has_value());
}

static void test_mappings() {
    const nd::view<int> view(numbers.data(), 12, {3, 4}), part = view.slice({nd::range(1, 3), nd::range(0, 4, 2)});
    const auto [first, mapping] = part.to_mapping<mapping_like>();
    CHECK(first == &numbers[4] && mapping.extents().extent(0) == 2 && mapping.extents().extent(1) == 2);
    CHECK(mapping.stride(0) == 4 && mapping.stride(1) == 2);
    CHECK(text_of(nd::view<int>::from_mapping(first, 8, mapping).rows()) == "4 6 /8 10 /");
    const auto from_six = [&, first = first, mapping = mapping] { (void)nd::view<int>::from_mapping(first, 6, mapping); };
    CHECK(refused(from_six) == ND_OUT_OF_BOUNDS);
    CHECK(refused([&] { (void)view.slice({nd::index(0), nd::all}).to_mapping<mapping_like>(); }) == ND_INCOMPATIBLE_SHAPE);
    CHECK(refused([&] { (void)view.slice({nd::from(0, -1), nd::all}).to_mapping<mapping_like>(); }) == ND_UNSUPPORTED);
    const nd::view<const int> windows(numbers.data(), 12, {3, 2}, {1, 1}), near(numbers.data(), 12, {3, 2}, {2, 3});
    CHECK(refused([&] { (void)windows.to_mapping<mapping_like>(); }) == ND_UNSUPPORTED);
    CHECK(refused([&] { (void)near.to_mapping<mapping_like>(); }) == ND_UNSUPPORTED);
    const nd::view<const int> wide = view.slice({nd::index(0), nd::all}).broadcast({2, 4});
    CHECK(refused([&] { (void)wide.to_mapping<mapping_like>(); }) == ND_UNSUPPORTED);
    CHECK(part.permuted_axes({1, 0}).to_mapping<mapping_like>().second.stride(1) == 4);
    CHECK(view.slice({nd::range(2, 3), nd::all}).to_mapping<mapping_like>().second.stride(0) == 1);
    const auto empty = view.slice({nd::range(1, 1), nd::all}).to_mapping<mapping_like>().second;
    CHECK(empty.extents().extent(0) == 0 && empty.stride(0) == 4 && empty.stride(1) == 1);
    const nd::view<const int> column(numbers.data(), 12, {3, 1}, {2, 5}), none(numbers.data(), 12, {std::size_t{1} << 31, 0});
    CHECK(column.to_mapping<mapping_like>().second.stride(0) == 2);
    CHECK(nd::view<int>(numbers.data(), 12, {3, 0}).to_mapping<mapping_like>().second.stride(0) == 1);
    CHECK(refused([&] { (void)none.to_mapping<mapping_like>(); }) == ND_OVERFLOW);
    const std::ptrdiff_t great = std::ptrdiff_t{1} << 32; // (of a buffer that isn't there, and isn't read)
    const nd::view<const int> far(numbers.data(), std::size_t{1} << 33, {2, 2}, {great, 1});
    CHECK(refused([&] { (void)far.to_mapping<mapping_like>(); }) == ND_OVERFLOW);
    const std::size_t wide_side = std::size_t{1} << 16; // (its elements lie 2^32 apart, which no int holds)
    const nd::view<const int> large(numbers.data(), wide_side * wide_side, {wide_side, wide_side});
    CHECK(refused([&] { (void)large.to_mapping<mapping_like>(); }) == ND_OVERFLOW);
    const nd::view<const int> turned(numbers.data(), 12, {3, 4}, {4, -1});
    CHECK(refused([&] { (void)turned.to_mapping<mapping_like>(); }) == ND_UNSUPPORTED);
#ifdef __cpp_lib_mdspan
    const auto span = part.to_mdspan<2>();
    CHECK(span.extent(0) == 2 && (span[std::array<std::size_t, 2>{1, 1}]) == 10);
    CHECK(text_of(nd::view<int>::from_mapping(span.data_handle(), 8, span.mapping()).rows()) == "4 6 /8 10 /");
    CHECK(refused([&] { (void)view.slice({nd::from(0, -1), nd::all}).to_mdspan<2>(); }) == ND_UNSUPPORTED);
    std::puts("with <mdspan>");
#endif
}

int main() {
    std::iota(numbers.begin(), numbers.end(), 0);
    test_views();
    test_cursors();
    test_parts();
    test_views_as_cursors();
    test_elements_beside_places();
    test_elements_of_rows();
    test_rows();
    test_rows_in_step();
    test_views_of_views();
    test_parts_of_views();
    test_sharing();
    test_reasons();
    test_results();
    test_mappings();
    std::printf("%d checked, %d failed\n", checked, failed);
    return failed != 0;
}
