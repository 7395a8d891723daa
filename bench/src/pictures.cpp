// Loops of codecs from C++ over cursors, and over arrays of xtensor, Boost.MultiArray and Eigen where these are installed, each beside the
// loops by hand of pictures.h.
#include "ndarray_layout.hpp"

#include "pictures.h"

#include <algorithm>

#if __has_include(<xtensor/xadapt.hpp>)
#include <xtensor/xadapt.hpp>
#include <xtensor/xmath.hpp>
#include <xtensor/xnoalias.hpp>
#include <xtensor/xstrided_view.hpp>
#include <xtensor/xview.hpp>
#define HAS_XTENSOR
#endif
#if __has_include(<boost/multi_array.hpp>)
#include <boost/multi_array.hpp>
#define HAS_BOOST
#endif
#if __has_include(<Eigen/Core>)
#include <Eigen/Core>
#define HAS_EIGEN
#endif

using word = std::size_t;

// A plane of a side, 0 to 2: its bytes, and how many rows and columns it has.
static byte *plane_of(bool is_to, int plane) { return is_to ? now.to[plane] : now.from[plane]; }
static word rows_of(const nd_view *view, int plane) { return view->layout.shape[0] / (plane == 0 ? 1 : 2); }
static word columns_of(const nd_view *view, int plane) { return view->layout.shape[1] / (plane == 0 ? 1 : 2); }
static std::ptrdiff_t pitch_of(const nd_view *view, int plane) { return view->layout.strides[0] / (plane == 0 ? 1 : 2); }

// Each block of the luma with its alpha: `each(top, left, alpha)`.
template <class Each>
static word for_blocks(const nd_view *view, Each each) {
    for (word top = 0; top + BLOCK <= view->layout.shape[0]; top += BLOCK)
        for (word left = 0; left + BLOCK <= view->layout.shape[1]; left += BLOCK) each(top, left, alpha_of(top, left));
    return 0;
}

// The calls of each library, in a struct of one form; those that it has no form for are loops over its elements.
struct cursors {
    using plane = nd::cursor<byte, 2>;
    static plane of(const nd_view *view, bool is_to, int plane) {
        const nd_plane given{0, pitch_of(view, plane), 1, rows_of(view, plane), columns_of(view, plane)};
        return nd::view<byte>::over_plane(plane_of(is_to, plane), sizeof now.to[0], given);
    }
    static void fill(plane at) {
        for (word line = 0; line < at.length(0); line++)
            for (byte &item : at.row(line)) item = 7;
    }
    static void invert(plane at) {
        for (word line = 0; line < at.length(0); line++)
            for (byte &item : at.row(line)) item = static_cast<byte>(~item);
    }
    static void copy(plane to, plane from) {
        for (word line = 0; line < to.length(0); line++) {
            const auto row = to.row(line), beside = from.row(line);
            for (word column = 0; column < row.size(); column++) row[column] = beside[column];
        }
    }
    static void blur(plane at) {
        for (word line = 1; line + 1 < at.length(0); line++) {
            const auto up = at.row(line - 1), row = at.row(line), down = at.row(line + 1);
            byte *const means = now.means + (line - 1) * (row.size() - 2);
            if (row.stride() == 1) mean_row(up.data(), row.data(), down.data(), 1, row.size() - 2, means);
            else mean_row(up.data(), row.data(), down.data(), row.stride(), row.size() - 2, means);
        }
    }
    template <word Side>
    static void blend(const plane &to, const plane &from, word top, word left, int alpha) {
        const plane under = to.crop(top, left, Side, Side), over = from.crop(top, left, Side, Side);
        for (word line = 0; line < Side; line++) {
            byte *const first = under.row(line).data();
            const byte *const read = over.row(line).data();
            for (word column = 0; column < Side; column++) first[column] = blended(first[column], read[column], alpha);
        }
    }
    static void sum(plane at) {
        word count = 0;
        for (const plane tile : at.tiles(TILE, TILE)) {
            unsigned sum = 0;
            for (word line = 0; line < TILE; line++) {
                const byte *const first = tile.row(line).data();
                for (word column = 0; column < TILE; column++) sum += first[column];
            }
            now.sums[count++] = sum;
        }
    }
    static void separate(word rows, word columns, word count) {
        const auto packed = nd::view<byte>(now.packed, sizeof now.packed, {rows, columns, count}).permuted_axes({2, 0, 1}).cursor<3>();
        const auto apart = nd::view<byte>(now.apart, sizeof now.apart, {count, rows, columns}).cursor<3>();
        for (word channel = 0; channel < count; channel++) {
            for (word line = 0; line < rows; line++) {
                const auto row = apart.row(channel, line), beside = packed.row(channel, line);
                std::copy(beside.begin(), beside.end(), row.begin());
            }
        }
    }
};

#ifdef HAS_XTENSOR
// (a view of all bytes, padding too: an adaptor with strides of its own fills what lies between rows)
static auto adapted(byte *first, word rows, word columns) {
    const std::array<word, 2> shape{rows, columns};
    return xt::adapt(first, rows * columns, xt::no_ownership(), shape);
}
static auto part_of(decltype(adapted(nullptr, 0, 0)) whole, word top, word left, word rows, word columns) {
    return xt::view(std::move(whole), xt::range(top, top + rows), xt::range(left, left + columns));
}
struct xtensor {
    using plane = decltype(part_of(adapted(nullptr, 0, 0), 0, 0, 0, 0));
    static plane of(const nd_view *view, bool is_to, int plane) {
        return part_of(adapted(plane_of(is_to, plane), rows_of(view, plane), static_cast<word>(pitch_of(view, plane))), 0, 0, rows_of(view, plane), columns_of(view, plane));
    }
    static void fill(plane at) { at.fill(7); }
    static void invert(plane at) { xt::noalias(at) = ~at; }
    static void copy(plane to, const plane &from) { xt::noalias(to) = from; }
    static void blur(plane at) {
        const word rows = at.shape(0) - 2, columns = at.shape(1) - 2;
        auto means = adapted(now.means, rows, columns);
        const auto part = [&](word down, word right) {
            return xt::cast<int>(xt::view(at, xt::range(down, down + rows), xt::range(right, right + columns)));
        };
        xt::noalias(means) = xt::cast<byte>((part(0, 0) + part(0, 1) + part(0, 2) + part(1, 0) + part(1, 1) + part(1, 2) + part(2, 0) + part(2, 1) + part(2, 2)) / 9);
    }
    template <word Side>
    static void blend(plane &to, plane &from, word top, word left, int alpha) {
        auto under = xt::view(to, xt::range(top, top + Side), xt::range(left, left + Side));
        const auto over = xt::view(from, xt::range(top, top + Side), xt::range(left, left + Side));
        xt::noalias(under) = xt::cast<byte>((xt::cast<int>(under) * (256 - alpha) + xt::cast<int>(over) * alpha) >> 8);
    }
    static void sum(plane at) {
        word count = 0;
        for (word top = 0; top + TILE <= at.shape(0); top += TILE)
            for (word left = 0; left + TILE <= at.shape(1); left += TILE)
                now.sums[count++] = xt::sum<unsigned>(xt::view(at, xt::range(top, top + TILE), xt::range(left, left + TILE)), xt::evaluation_strategy::immediate)();
    }
    static void separate(word rows, word columns, word count) {
        const std::array<word, 3> packed{rows, columns, count}, apart{count, rows, columns};
        auto to = xt::adapt(static_cast<byte *>(now.apart), rows * columns * count, xt::no_ownership(), apart);
        const auto from = xt::adapt(static_cast<byte *>(now.packed), rows * columns * count, xt::no_ownership(), packed);
        xt::noalias(to) = xt::transpose(from, {2, 0, 1});
    }
};
#endif

#ifdef HAS_BOOST
struct multi_array {
    using range = boost::multi_array_types::index_range;
    using plane = boost::multi_array_ref<byte, 2>::array_view<2>::type;
    static plane of(const nd_view *view, bool is_to, int plane) {
        boost::multi_array_ref<byte, 2> whole(plane_of(is_to, plane), boost::extents[static_cast<long>(rows_of(view, plane))][pitch_of(view, plane)]);
        return whole[boost::indices[range()][range(0, static_cast<long>(columns_of(view, plane)))]];
    }
    static void fill(plane at) {
        for (auto row : at)
            for (byte &item : row) item = 7;
    }
    static void invert(plane at) {
        for (auto row : at)
            for (byte &item : row) item = static_cast<byte>(~item);
    }
    static void copy(plane to, const plane &from) { to = from; }
    static void blur(plane at) {
        byte *means = now.means;
        for (word line = 0; line + 2 < at.shape()[0]; line++)
            for (word column = 0; column + 2 < at.shape()[1]; column++) {
                int sum = 0;
                for (word near = 0; near < 9; near++) sum += at[static_cast<long>(line + near / 3)][static_cast<long>(column + near % 3)];
                *means++ = static_cast<byte>(sum / 9);
            }
    }
    static plane part(plane &of, word top, word left, word side) {
        const long row = static_cast<long>(top), column = static_cast<long>(left), length = static_cast<long>(side);
        return of[boost::indices[range(row, row + length)][range(column, column + length)]];
    }
    template <word Side>
    static void blend(plane &to, plane &from, word top, word left, int alpha) {
        plane under = part(to, top, left, Side), over = part(from, top, left, Side);
        for (long row = 0; row < static_cast<long>(Side); row++)
            for (long column = 0; column < static_cast<long>(Side); column++) under[row][column] = blended(under[row][column], over[row][column], alpha);
    }
    static void sum(plane at) {
        word count = 0;
        for (word top = 0; top + TILE <= at.shape()[0]; top += TILE)
            for (word left = 0; left + TILE <= at.shape()[1]; left += TILE) {
                unsigned sum = 0;
                for (auto row : part(at, top, left, TILE))
                    for (const byte item : row) sum += item;
                now.sums[count++] = sum;
            }
    }
    static void separate(word rows, word columns, word count) {
        boost::multi_array_ref<byte, 3> packed(now.packed, boost::extents[rows][columns][count]), apart(now.apart, boost::extents[count][rows][columns]);
        for (long channel = 0; channel < static_cast<long>(count); channel++) apart[channel] = packed[boost::indices[range()][range()][channel]];
    }
};
#endif

#ifdef HAS_EIGEN
struct eigen {
    using array = Eigen::Array<byte, Eigen::Dynamic, Eigen::Dynamic, Eigen::RowMajor>;
    using plane = Eigen::Map<array, 0, Eigen::OuterStride<>>;
    static plane of(const nd_view *view, bool is_to, int plane) {
        return {plane_of(is_to, plane), static_cast<long>(rows_of(view, plane)), static_cast<long>(columns_of(view, plane)), Eigen::OuterStride<>(pitch_of(view, plane))};
    }
    static void fill(plane at) { at.setConstant(7); }
    static void invert(plane at) {
        at = at.unaryExpr([](byte item) { return static_cast<byte>(~item); });
    }
    static void copy(plane to, const plane &from) { to = from; }
    static void blur(plane at) {
        const long rows = at.rows() - 2, columns = at.cols() - 2;
        Eigen::Map<array> means(now.means, rows, columns);
        const auto part = [&](long down, long right) { return at.block(down, right, rows, columns).cast<int>(); };
        means = ((part(0, 0) + part(0, 1) + part(0, 2) + part(1, 0) + part(1, 1) + part(1, 2) + part(2, 0) + part(2, 1) + part(2, 2)) / 9).cast<byte>();
    }
    template <word Side>
    static void blend(plane &to, plane &from, word top, word left, int alpha) {
        constexpr int side = static_cast<int>(Side);
        auto under = to.block<side, side>(static_cast<long>(top), static_cast<long>(left));
        const auto over = from.block<side, side>(static_cast<long>(top), static_cast<long>(left));
        under = under.binaryExpr(over, [alpha](byte one, byte other) { return blended(one, other, alpha); });
    }
    static void sum(plane at) {
        word count = 0;
        for (long top = 0; top + TILE <= at.rows(); top += TILE)
            for (long left = 0; left + TILE <= at.cols(); left += TILE) now.sums[count++] = at.block<TILE, TILE>(top, left).cast<unsigned>().sum();
    }
    static void separate(word rows, word columns, word count) {
        const long high = static_cast<long>(rows), wide = static_cast<long>(columns), step = static_cast<long>(count);
        using strides = Eigen::Stride<Eigen::Dynamic, Eigen::Dynamic>;
        for (long channel = 0; channel < step; channel++)
            Eigen::Map<array>(now.apart + channel * high * wide, high, wide) = Eigen::Map<array, 0, strides>(now.packed + channel, high, wide, strides(wide * step, step));
    }
};
#endif

// The loops of a library, as print_alike calls them.
template <class Of>
struct loops {
    static size_t fill(const nd_view *view, void *) { return Of::fill(Of::of(view, true, 0)), 0; }
    static size_t invert(const nd_view *view, void *) { return Of::invert(Of::of(view, true, 0)), 0; }
    static size_t copy(const nd_view *view, void *) { return Of::copy(Of::of(view, true, 0), Of::of(view, false, 0)), 0; }
    static size_t blur(const nd_view *view, void *) { return Of::blur(Of::of(view, true, 0)), 0; }
    static size_t sum(const nd_view *view, void *) { return Of::sum(Of::of(view, true, 0)), 0; }
    static size_t separate(const nd_view *view, void *) { return Of::separate(view->layout.shape[0], view->layout.shape[1], channels), 0; }
    static size_t blend(const nd_view *view, void *) {
        typename Of::plane to[3] = {Of::of(view, true, 0), Of::of(view, true, 1), Of::of(view, true, 2)};
        typename Of::plane from[3] = {Of::of(view, false, 0), Of::of(view, false, 1), Of::of(view, false, 2)};
        return for_blocks(view, [&](word top, word left, int alpha) {
            Of::template blend<BLOCK>(to[0], from[0], top, left, alpha);
            Of::template blend<BLOCK / 2>(to[1], from[1], top / 2, left / 2, alpha);
            Of::template blend<BLOCK / 2>(to[2], from[2], top / 2, left / 2, alpha);
        });
    }
    static void print(const char *name, const nd_view *view) {
        print_alike(name, "fill", fill, fill_by_hand, view);
        print_alike(name, "invert", invert, invert_by_hand, view);
        print_alike(name, "copy", copy, copy_by_hand, view);
        print_alike(name, "blur by 3x3", blur, blur_by_hand, view);
        print_alike(name, "nhwc to nchw", separate, planes_by_hand, view);
        print_alike(name, "blends of 8x8, 4:2:0", blend, blends_by_hand, view);
        print_alike(name, "sums of 16x16", sum, sums_by_hand, view);
    }
};

int main(int count, char **words) {
    const nd_view view = plane_view(0);
    begin(count, words);
    loops<cursors>::print("C++: ", &view);
#ifdef HAS_XTENSOR
    loops<xtensor>::print("xtensor: ", &view);
#endif
#ifdef HAS_BOOST
    loops<multi_array>::print("Boost.MultiArray: ", &view);
#endif
#ifdef HAS_EIGEN
    loops<eigen>::print("Eigen: ", &view);
#endif
    return 0;
}
