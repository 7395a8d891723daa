// ndarray_layout.h for C++17: views of a program's own elements, whose rows are spans. What a call refuses is an `nd::error`,
// with the status and its text; `find` returns null instead. The library has no names of C++: all is inline here.
#ifndef NDARRAY_LAYOUT_HPP
#define NDARRAY_LAYOUT_HPP

#include "ndarray_layout_rows.hpp"

#include <array>
#include <cstddef>
#include <initializer_list>
#include <iterator>
#include <limits>
#include <optional>
#include <stdexcept>
#include <tuple>
#include <type_traits>
#include <utility>
#include <vector>
#if __has_include(<expected>)
#include <expected>
#endif
#if __has_include(<mdspan>)
#include <mdspan>
#endif

namespace nd {

// What a call gives, or else why it refuses: a std::expected, or a class like it before C++23. The calls whose names begin with
// try_ give one, and throw nothing but std::bad_alloc.
#ifdef __cpp_lib_expected
template <class Value>
using result = std::expected<Value, fault>;
using refusal = std::unexpected<fault>;
#else
struct refusal {
    fault of;
};
template <class Value>
class [[nodiscard]] result {
public:
    result(Value value) : value_(std::move(value)), of_{ND_OK} {}
    result(refusal given) : of_(given.of) {}
    [[nodiscard]] bool has_value() const { return value_.has_value(); }
    explicit operator bool() const { return has_value(); }
    const Value &operator*() const { return *value_; }
    const Value *operator->() const { return &*value_; }
    [[nodiscard]] const fault &error() const { return of_; }

private:
    std::optional<Value> value_;
    fault of_;
};
#endif

// The value of a result; throws where there is none.
template <class Value>
Value expect(const result<Value> &found) {
    if (!found.has_value()) refuse(found.error());
    return *found;
}

// The refusal of a status, with the reason that a call writes.
template <class Why>
refusal refused(std::int32_t status, Why why) {
    fault of{status};
    if (why(&of.reason) != ND_OK || of.reason.status != status) of.reason = nd_reason{};
    return refusal{of};
}

// Elements of slices, as ND_ALL, ND_RANGE, ND_RANGE_BY, ND_FROM, ND_FROM_BY, ND_INDEX and ND_NEW_AXIS() are.
using elem = nd_slice_elem;
inline constexpr elem all ND_ALL;
inline constexpr elem new_axis ND_NEW_AXIS();
template <class Start, class End, class Step = int>
constexpr elem range(Start start, End end, Step step = 1) {
    ND_EXPECT_COORDINATES((is_coordinate_v<Start> && is_coordinate_v<End> && is_coordinate_v<Step>));
    return ND_RANGE_BY(start, end, step);
}
template <class Start, class Step = int>
constexpr elem from(Start start, Step step = 1) {
    ND_EXPECT_COORDINATES((is_coordinate_v<Start> && is_coordinate_v<Step>));
    return ND_FROM_BY(start, step);
}
template <class Coordinate>
constexpr elem index(Coordinate coordinate) {
    ND_EXPECT_COORDINATES(is_coordinate_v<Coordinate>);
    return ND_INDEX(coordinate);
}

ND_BEGIN_SIZED

// A layout over `len` elements from `data` on, which the program keeps. A view of const elements is accepted as read-only, one
// of others as owned; `broadcast` gives a view of const elements. Constructors and calls throw `nd::error`.
template <class T>
class view {
    template <class>
    friend class view;
    static constexpr std::int32_t mode = std::is_const_v<T> ? ND_READ_ONLY : ND_OWNED;

public:
    using shape_list = std::initializer_list<std::size_t>;
    using strides_list = std::initializer_list<std::ptrdiff_t>;

    view(T *data, std::size_t len, shape_list shape, std::int32_t order = ND_ROW_MAJOR)
        : view(expect(try_new(data, len, shape, order))) {}
    // The lowest element is the first of the buffer.
    view(T *data, std::size_t len, shape_list shape, strides_list strides) : view(expect(try_new(data, len, shape, strides))) {}
    view(T *data, std::size_t len, const nd_layout &layout) : view(expect(try_new(data, len, layout))) {}

    [[nodiscard]] static result<view> try_new(T *data, std::size_t len, shape_list shape, std::int32_t order = ND_ROW_MAJOR) {
        nd_layout layout;
        const std::int32_t status = nd_layout_from_shape(shape.begin(), shape.size(), order, &layout);
        if (status == ND_OK) return try_new(data, len, layout);
        const std::vector<std::ptrdiff_t> none(shape.size(), 0); // (whose span is 0: the shape is too large, or has too many axes)
        return refused(status, [&](nd_reason *to) { return why(shape, none.data(), none.size(), len, to); });
    }
    [[nodiscard]] static result<view> try_new(T *data, std::size_t len, shape_list shape, strides_list strides) {
        return try_strides(data, len, shape, strides.begin(), strides.size());
    }
    [[nodiscard]] static result<view> try_new(T *data, std::size_t len, const nd_layout &layout) {
        nd_view to;
        const nd_data buffer{sizeof(T), len};
        const std::int32_t status = nd_view_of(&layout, buffer, mode, &to);
        if (status == ND_OK) return view(data, to);
        return refused(status, [&](nd_reason *why) { return nd_layout_check_reason(&layout, buffer, mode, why); });
    }
    // Strides in bytes, each a multiple of an element's: others are ND_INCOMPATIBLE_LAYOUT, and need nd_view_over_bytes.
    [[nodiscard]] static result<view> try_from_byte_strides(T *data, std::size_t len, shape_list shape, strides_list strides) {
        std::vector<std::ptrdiff_t> counted(strides.size());
        const auto status = nd_strides_from_bytes(strides.begin(), strides.size(), sizeof(T), counted.data());
        if (status != ND_OK) return refusal{fault{status}};
        return try_strides(data, len, shape, counted.data(), counted.size());
    }
    [[nodiscard]] static view from_byte_strides(T *data, std::size_t len, shape_list shape, strides_list strides) {
        return expect(try_from_byte_strides(data, len, shape, strides));
    }

    // Of rows and columns: a plane of a buffer of `len` elements; or one by the pointer to its row 0, as `data[i]` of an AVFrame, whose
    // `offset` isn't looked at. nd_views_over_planes, nd_views_from_row0.
    [[nodiscard]] static view over_plane(T *data, std::size_t len, const nd_plane &plane) {
        return expect(try_over_plane(data, len, plane));
    }
    [[nodiscard]] static result<view> try_over_plane(T *data, std::size_t len, const nd_plane &plane) {
        return made_of(plane, {sizeof(T), len}, 1, [&](const nd_view &) { return data; });
    }
    [[nodiscard]] static view from_row0(T *row0, const nd_plane &plane) { return expect(try_from_row0(row0, plane)); }
    [[nodiscard]] static result<view> try_from_row0(T *row0, const nd_plane &plane) {
        return made_of(plane, {sizeof(T), 0}, 0, [&](const nd_view &of) { return row0 - of.layout.start; });
    }

    [[nodiscard]] const nd_view &as_c() const { return view_; }
    [[nodiscard]] T *data() const { return data_; }
    [[nodiscard]] std::size_t axes() const { return view_.layout.axes; }
    [[nodiscard]] std::size_t size() const { return nd_layout_size(&view_.layout); }
    [[nodiscard]] std::size_t length(std::size_t axis) const {
        if (axis >= axes()) refuse(ND_OUT_OF_BOUNDS);
        return view_.layout.shape[axis];
    }

    // The element of an index, each coordinate compared; null, or an error, where it is no index. Coordinates are integers: others
    // don't compile. For an element alone: a loop takes the rows of a view or of a cursor, over which compilers go by vectors.
    template <class... Coordinates>
    [[nodiscard]] T *find(Coordinates... coordinates) const {
        ND_EXPECT_COORDINATES((is_coordinate_v<Coordinates> && ...));
        if constexpr (sizeof...(Coordinates) > ND_MAX_AXES) return nullptr;
        else return axes() == sizeof...(Coordinates) ? at<sizeof...(Coordinates)>().find(coordinates...) : nullptr;
    }
    template <class... Coordinates>
    T &operator()(Coordinates... coordinates) const {
        ND_EXPECT_COORDINATES((is_coordinate_v<Coordinates> && ...));
        static_assert(sizeof...(Coordinates) <= ND_MAX_AXES, "no view has so many axes");
        if (axes() != sizeof...(Coordinates)) refuse(ND_OUT_OF_BOUNDS);
        return at<sizeof...(Coordinates)>()(coordinates...);
    }

    // For loops that write: ND_INCOMPATIBLE_SHAPE where the view has another count of axes. A view becomes one where it is passed.
    template <std::size_t Axes>
    [[nodiscard]] nd::cursor<T, Axes> cursor() const {
        if (axes() != Axes) refuse(ND_INCOMPATIBLE_SHAPE);
        return at<Axes>();
    }
    template <class Other, std::size_t Axes, class = std::enable_if_t<std::is_same_v<Other, T> || std::is_same_v<Other, const T>>>
    operator nd::cursor<Other, Axes>() const {
        return cursor<Axes>();
    }

    [[nodiscard]] nd::rows<T> rows(std::int32_t order = ND_ROW_MAJOR) const { return rows_by(nd_view_rows, order); }
    [[nodiscard]] nd::rows<T> joined_rows(std::int32_t order = ND_ROW_MAJOR) const {
        return rows_by(nd_view_joined_rows, order);
    }

    [[nodiscard]] view slice(std::initializer_list<elem> elems, std::int32_t fit = ND_STRICT) const {
        return expect(try_slice(elems, fit));
    }
    [[nodiscard]] result<view> try_slice(std::initializer_list<elem> elems, std::int32_t fit = ND_STRICT) const {
        return made<T>(nd_layout_slice, nd_layout_slice_reason, elems.begin(), elems.size(), fit);
    }
    [[nodiscard]] view permuted_axes(shape_list axes) const { return expect(try_permuted_axes(axes)); }
    [[nodiscard]] result<view> try_permuted_axes(shape_list axes) const {
        return made<T>(nd_layout_permuted_axes, nd_layout_permuted_axes_reason, axes.begin(), axes.size());
    }
    [[nodiscard]] view reshape(shape_list shape, std::int32_t order = ND_ROW_MAJOR) const {
        return expect(try_reshape(shape, order));
    }
    [[nodiscard]] result<view> try_reshape(shape_list shape, std::int32_t order = ND_ROW_MAJOR) const {
        return made<T>(nd_layout_reshape, nd_layout_reshape_reason, shape.begin(), shape.size(), order);
    }
    [[nodiscard]] view<const T> broadcast(shape_list shape) const { return expect(try_broadcast(shape)); }
    [[nodiscard]] result<view<const T>> try_broadcast(shape_list shape) const {
        return made<const T>(nd_layout_broadcast, nd_layout_broadcast_reason, shape.begin(), shape.size());
    }
    [[nodiscard]] view<const T> windows(shape_list window) const { return expect(try_windows(window)); }
    [[nodiscard]] result<view<const T>> try_windows(shape_list window) const {
        return made<const T>(nd_layout_windows, nd_layout_windows_reason, window.begin(), window.size());
    }
    [[nodiscard]] view exact_chunks(shape_list chunk) const { return expect(try_exact_chunks(chunk)); }
    [[nodiscard]] result<view> try_exact_chunks(shape_list chunk) const {
        return made<T>(nd_layout_exact_chunks, nd_layout_exact_chunks_reason, chunk.begin(), chunk.size());
    }
    [[nodiscard]] view diag() const {
        return expect(made<T>(nd_layout_diag, [](const nd_layout *, nd_reason *) { return ND_OK; }));
    }
    // The parts below a coordinate of an axis, and from it on.
    [[nodiscard]] std::pair<view, view> split_at(std::size_t axis, std::size_t index) const {
        return expect(try_split_at(axis, index));
    }
    [[nodiscard]] result<std::pair<view, view>> try_split_at(std::size_t axis, std::size_t index) const {
        std::pair<view, view> both(*this, *this);
        const auto status = nd_layout_split_at(&view_.layout, axis, index, &both.first.view_.layout, &both.second.view_.layout);
        if (status == ND_OK) return both;
        return refused(status, [&](nd_reason *why) { return nd_layout_split_at_reason(&view_.layout, axis, index, why); });
    }

    // All elements as one row with the stride 1, where they follow one another in an order.
    [[nodiscard]] std::optional<row<T>> stretch(std::int32_t order = ND_ROW_MAJOR) const {
        std::size_t first = 0, end = 0;
        std::int32_t found = 0;
        expect_ok(nd_view_stretch(&view_, order, &first, &end, &found));
        if (found == 0) return std::nullopt;
        return row<T>(data_ + first, nd_row{first, end - first, 1});
    }
    // The positions of two slices that share an index, the less first. `slices`: a range of ranges of elements.
    template <class Slices = std::initializer_list<std::initializer_list<elem>>>
    [[nodiscard]] std::optional<std::pair<std::size_t, std::size_t>> first_intersection(const Slices &slices,
                                                                                        std::int32_t fit = ND_STRICT) const {
        std::vector<elem> elems;
        std::vector<std::size_t> counts;
        for (const auto &slice : slices) {
            elems.insert(elems.end(), std::begin(slice), std::end(slice));
            counts.push_back(std::size(slice));
        }
        std::array<std::size_t, 2> pair{};
        std::int32_t found = 0;
        expect_ok(nd_layout_first_intersection(&view_.layout, elems.data(), elems.size(), counts.data(), counts.size(), fit,
                                               pair.data(), &found));
        if (found == 0) return std::nullopt;
        return std::pair(pair[0], pair[1]);
    }

    template <class Other, class = std::enable_if_t<std::is_same_v<const Other, T>>>
    view(const view<Other> &other) : data_(other.data_), view_(other.view_) {}

    // From and to a mapping of std::layout_stride, or of a class like it, over the same elements. A mapping has no start: the
    // pointer is that of the first element. Its strides are 1 or more, and of two axes one has a stride of at least the other's
    // length times the other's stride: what isn't so is ND_UNSUPPORTED, and ND_OVERFLOW what its type of indices can't hold: a
    // length, a stride, or how far the elements lie apart. Strides of axes of length 1 become 1.
    template <class Mapping>
    [[nodiscard]] static view from_mapping(T *data, std::size_t len, const Mapping &mapping) {
        nd_layout layout{0, Mapping::extents_type::rank(), {}, {}};
        static_assert(Mapping::extents_type::rank() <= ND_MAX_AXES);
        for (std::size_t axis = 0; axis < layout.axes; axis++) {
            layout.shape[axis] = static_cast<std::size_t>(mapping.extents().extent(axis));
            layout.strides[axis] = static_cast<std::ptrdiff_t>(mapping.stride(axis));
        }
        return view(data, len, layout);
    }
    template <class Mapping>
    [[nodiscard]] std::pair<T *, Mapping> to_mapping() const {
        using extents = typename Mapping::extents_type;
        using number = typename extents::index_type;
        std::array<number, extents::rank()> lengths{}, strides{};
        std::size_t span = size() > 0 ? 1 : 0;
        if (axes() != extents::rank()) refuse(ND_INCOMPATIBLE_SHAPE);
        for (std::size_t axis = 0; axis < axes(); axis++) {
            const std::size_t len = view_.layout.shape[axis], stride = mapped_stride(axis);
            lengths[axis] = static_cast<number>(len);
            strides[axis] = static_cast<number>(stride);
            if (size() > 0) span += (len - 1) * stride;
            const bool keeps_length = static_cast<std::size_t>(lengths[axis]) == len;
            const bool keeps_stride = static_cast<std::size_t>(strides[axis]) == stride;
            if (!keeps_length || !keeps_stride) refuse(ND_OVERFLOW);
        }
        if (span > static_cast<std::size_t>(std::numeric_limits<number>::max())) refuse(ND_OVERFLOW);
        return {data_ + view_.layout.start, Mapping(extents(lengths), strides)};
    }
#ifdef __cpp_lib_mdspan
    template <std::size_t Rank>
    [[nodiscard]] auto to_mdspan() const {
        using extents = std::dextents<std::size_t, Rank>;
        const auto [first, mapping] = to_mapping<std::layout_stride::mapping<extents>>();
        return std::mdspan<T, extents, std::layout_stride>(first, mapping);
    }
#endif

private:
    template <std::size_t Axes>
    nd::cursor<T, Axes> at() const {
        return {data_, view_.layout};
    }

    // The stride of an axis in a mapping: that of the view, or without an index that of a shape without gaps.
    std::size_t mapped_stride(std::size_t axis) const {
        const nd_layout &of = view_.layout;
        const auto stride = static_cast<std::size_t>(of.strides[axis]);
        std::size_t inner = 1;
        if (of.shape[axis] == 1) return 1;
        for (std::size_t other = 0; other < of.axes; other++) {
            if (size() == 0 && other > axis && of.shape[other] > 0) inner *= of.shape[other];
            if (size() == 0 || other == axis || of.shape[other] == 1) continue;
            if (of.strides[axis] < 1 || of.strides[other] < 1) refuse(ND_UNSUPPORTED);
            const auto beside = static_cast<std::size_t>(of.strides[other]);
            if (stride < beside * of.shape[other] && beside < stride * of.shape[axis]) refuse(ND_UNSUPPORTED);
        }
        if (size() > 0 && of.strides[axis] < 1) refuse(ND_UNSUPPORTED);
        return size() == 0 ? inner : stride;
    }

    view(T *data, const nd_view &of) : data_(data), view_(of) {}

    static std::int32_t why(shape_list shape, const std::ptrdiff_t *strides, std::size_t count, std::size_t len, nd_reason *to) {
        return nd_view_from_strides_reason(shape.begin(), shape.size(), strides, count, {sizeof(T), len}, mode, to);
    }
    static result<view> try_strides(T *data, std::size_t len, shape_list shape, const std::ptrdiff_t *strides, std::size_t count) {
        nd_view to;
        const nd_data buffer{sizeof(T), len};
        const auto status = nd_view_from_strides(shape.begin(), shape.size(), strides, count, buffer, mode, &to);
        if (status == ND_OK) return view(data, to);
        return refused(status, [&](nd_reason *reason) { return why(shape, strides, count, len, reason); });
    }
    template <class Data>
    static result<view> made_of(const nd_plane &plane, nd_data buffer, int has_data, Data data) {
        nd_view to;
        const auto status = nd_views_of_planes(&plane, 1, buffer, has_data, mode, &to);
        if (status != ND_OK) return refusal{fault{status}};
        return view(data(to), to);
    }
    // A view over the same elements, of the layout that a call makes, or why it makes none.
    template <class Element, class Call, class Why, class... Arguments>
    result<view<Element>> made(Call call, Why say_why, Arguments... arguments) const {
        view<Element> other(data_, view_);
        const std::int32_t status = call(&view_.layout, arguments..., &other.view_.layout);
        if (status == ND_OK) return other;
        return refused(status, [&](nd_reason *to) { return say_why(&view_.layout, arguments..., to); });
    }
    template <class Call>
    [[nodiscard]] nd::rows<T> rows_by(Call call, std::int32_t order) const {
        nd_row_iter all_of;
        expect_ok(call(&view_, order, &all_of));
        return {data_, all_of};
    }

    T *data_;
    nd_view view_;
};

// The rows of several views of one shape in step: `for (auto [to, from] : nd::joined_rows(picture, part))`. They are along the
// axes that are joined in all views, so those of all are equally long, and elements at one position have one index. Views of
// other shapes are ND_INCOMPATIBLE_SHAPE.
template <class... T>
[[nodiscard]] rows_in_step<T...> joined_rows(std::int32_t order, const view<T> &...views) {
    const std::array<const nd_view *, sizeof...(T)> given{&views.as_c()...};
    nd_rows_iter left;
    fault of{nd_views_of_joined_rows(given.data(), given.size(), order, &left)};
    if (of.status == ND_INCOMPATIBLE_SHAPE) nd_put_shapes_reason(given.data(), given.size(), &of.reason);
    if (of.status != ND_OK) refuse(of);
    return {std::tuple<T *...>(views.data()...), left};
}
template <class... T>
[[nodiscard]] rows_in_step<T...> joined_rows(const view<T> &...views) {
    return joined_rows(ND_ROW_MAJOR, views...);
}

// Whether an element of one view and one of another, over the same elements, share a byte: where it is so, a loop that copies one
// to the other reads what it has written. ND_BAD_ARGUMENT where their data() differ.
template <class First, class Second>
[[nodiscard]] bool share_element(const view<First> &first, const view<Second> &second) {
    std::int32_t answer = 0;
    if (static_cast<const void *>(first.data()) != second.data()) refuse(ND_BAD_ARGUMENT);
    expect_ok(nd_views_share_element(&first.as_c(), &second.as_c(), &answer));
    return answer != 0;
}

ND_END_SIZED
} // namespace nd

#endif
