/** \file vejgodat.hpp
 *
 * The calls of vejgodat.h for C++17, which says what each takes, checks and costs: buffers are views, what a call
 * writes comes back as a vector, and a refusal is an exception. Nothing here is proved; what is, is behind the C calls.
 * Calls that aren't here, and the readers of parts and messages, are taken from vejgodat.h, which this file includes.
 */
#ifndef VEJGODAT_HPP
#define VEJGODAT_HPP

#include <stdexcept>
#include <string>
#include <type_traits>
#include <utility>
#include <vector>

#include "vejgodat.h"

#if defined(__BYTE_ORDER__) && __BYTE_ORDER__ != __ORDER_LITTLE_ENDIAN__
#error "vejgodat.hpp gives tables of std::int64_t to the library, which takes little-endian ones"
#endif

namespace vejgodat {

/// A call refused: the number, which vejgodat.h names, its words, and for tables, meshes and parts the first place at fault.
class refused : public std::runtime_error {
public:
    explicit refused(std::uint32_t number, const std::string &place = {})
        : std::runtime_error("refusal " + std::to_string(number) + ", " + vejgodat_refusal_text(number)
                             + (place.empty() ? "" : ": " + place)),
          number_(number), place_(place) {}
    std::uint32_t number() const noexcept { return number_; }
    const std::string &place() const noexcept { return place_; }

private:
    std::uint32_t number_;
    std::string place_;
};

/// Elements of somebody else's memory, from a pointer and a count or from a container that has data() and size().
template <class T> struct view {
    T *data;
    std::size_t size;

    view(T *first, std::size_t count) : data(first), size(count) {}
    template <class C, class = std::enable_if_t<std::is_convertible<decltype(std::declval<C &>().data()), T *>::value>>
    view(C &&all) : data(all.data()), size(all.size()) {}
};

using bytes = std::vector<std::uint8_t>;
using table = std::vector<std::int64_t>;
using numbers = std::vector<std::uint32_t>;
using bytes_view = view<const std::uint8_t>;
using table_view = view<const std::int64_t>;
using numbers_view = view<const std::uint32_t>;

namespace detail {
inline void must(std::uint32_t refusal) {
    if (refusal != VEJGODAT_OK)
        throw refused(refusal);
}
inline void must(const vejgodat_fault &fault) {
    if (fault.refusal != VEJGODAT_OK || fault.fault == VEJGODAT_OK)
        return must(fault.refusal);
    std::string text(vejgodat_write_fault(fault, nullptr, 0) + 1, ' ');
    text.resize(vejgodat_write_fault(fault, &text[0], text.size()));
    throw refused(fault.fault, text);
}
inline const std::uint8_t *raw(table_view t) { return reinterpret_cast<const std::uint8_t *>(t.data); }
inline std::size_t length(table_view t) { return 8 * t.size; }

/// The bytes that `write (out, out_len)` writes, as many as `need` says.
template <class Write> bytes written(std::uint32_t refusal, std::uint64_t need, Write write) {
    must(refusal);
    bytes out(static_cast<std::size_t>(need));
    must(write(out.data(), out.size()).refusal);
    return out;
}
/// The table of P ranks that `write (out, out_len)` writes.
template <class Write> table made(std::size_t ranks, Write write) {
    must(ranks > VEJGODAT_MAX_RANKS ? VEJGODAT_RANKS : VEJGODAT_OK);
    table out(ranks + 1);
    must(write(reinterpret_cast<std::uint8_t *>(out.data()), 8 * out.size()).refusal);
    return out;
}
/// The list that `write (out, out_len)` writes into at most `room` entries.
template <class Write> numbers listed(std::size_t room, Write write) {
    numbers out(room);
    const auto answer = write(out.data(), out.size());
    must(answer.refusal);
    out.resize(answer.count);
    return out;
}
} // namespace detail

#define VEJGODAT_BYTES(b) (b).data, (b).size
#define VEJGODAT_ENTRIES(t) detail::raw(t), detail::length(t)
#define VEJGODAT_WRITE(call, ...) [&](auto *out, std::size_t out_len) { return call(__VA_ARGS__, out, out_len); }

// Tables, and who sends.
inline void check_table(table_view t) { detail::must(vejgodat_table_fault(VEJGODAT_ENTRIES(t))); }
inline vejgodat_range table_range(table_view t, std::uint32_t rank) {
    const auto range = vejgodat_table_range(VEJGODAT_ENTRIES(t), rank);
    detail::must(range.refusal);
    return range;
}
inline table write_table(numbers_view first, numbers_view count) {
    return detail::made(first.size, VEJGODAT_WRITE(vejgodat_write_table, static_cast<std::uint32_t>(first.size),
                                                   VEJGODAT_BYTES(first), VEJGODAT_BYTES(count)));
}
inline table table_from_leaves(std::uint32_t ranks, numbers_view leaves) {
    return detail::made(ranks, VEJGODAT_WRITE(vejgodat_table_from_leaves, ranks, VEJGODAT_BYTES(leaves)));
}
inline table table_from_weights(numbers_view weights, numbers_view leaves) {
    return detail::made(weights.size,
                        VEJGODAT_WRITE(vejgodat_table_from_weights, VEJGODAT_BYTES(weights), VEJGODAT_BYTES(leaves)));
}
inline vejgodat_range trees_sent(table_view old, table_view next, std::uint32_t sender, std::uint32_t receiver) {
    const auto range = vejgodat_trees_sent(VEJGODAT_ENTRIES(old), VEJGODAT_ENTRIES(next), sender, receiver);
    detail::must(range.refusal);
    return range;
}
inline numbers send_set(table_view old, table_view next, std::uint32_t rank) {
    return detail::listed(old.size, VEJGODAT_WRITE(vejgodat_send_set, VEJGODAT_ENTRIES(old), VEJGODAT_ENTRIES(next), rank));
}
inline numbers receive_set(table_view old, table_view next, std::uint32_t rank) {
    return detail::listed(old.size, VEJGODAT_WRITE(vejgodat_receive_set, VEJGODAT_ENTRIES(old), VEJGODAT_ENTRIES(next), rank));
}

// Meshes and parts.
inline void check_mesh(bytes_view mesh) { detail::must(vejgodat_mesh_fault(VEJGODAT_BYTES(mesh))); }
inline bytes brick(std::uint32_t a, std::uint32_t b, std::uint32_t c, bool x = false, bool y = false, bool z = false) {
    const auto need = vejgodat_brick_length(a, b, c);
    return detail::written(need.refusal, need.length, VEJGODAT_WRITE(vejgodat_write_brick, a, b, c, x, y, z));
}
inline bytes import_triangle(bytes_view text) {
    const auto need = vejgodat_triangle_length(VEJGODAT_BYTES(text));
    return detail::written(need.refusal, need.length, VEJGODAT_WRITE(vejgodat_import_triangle, VEJGODAT_BYTES(text)));
}
inline bytes cut(bytes_view mesh, table_view t, std::uint32_t rank) {
    const auto need = vejgodat_part_length(VEJGODAT_BYTES(mesh), VEJGODAT_ENTRIES(t), rank);
    return detail::written(need.refusal, need.length,
                           VEJGODAT_WRITE(vejgodat_cut_part, VEJGODAT_BYTES(mesh), VEJGODAT_ENTRIES(t), rank));
}
inline void check_part(bytes_view part, table_view t, std::uint32_t rank) {
    detail::must(vejgodat_part_fault(VEJGODAT_BYTES(part), VEJGODAT_ENTRIES(t), rank));
}

// Moving a part: the messages to all receivers, end to end, and the area in which a rank's new part is assembled.
inline bytes build_all(bytes_view part, table_view old, table_view next, std::uint32_t sender, std::uint32_t epoch) {
    const auto need = vejgodat_build_all_length(VEJGODAT_BYTES(part), VEJGODAT_ENTRIES(old), VEJGODAT_ENTRIES(next), sender);
    return detail::written(need.refusal, need.length,
                           VEJGODAT_WRITE(vejgodat_build_all, VEJGODAT_BYTES(part), VEJGODAT_ENTRIES(old),
                                          VEJGODAT_ENTRIES(next), sender, epoch));
}
/// The messages that stand end to end in `all`.
inline std::vector<bytes_view> messages(bytes_view all) {
    std::vector<bytes_view> found;
    std::size_t at = 0;
    while (const std::uint8_t *next = vejgodat_next_message(VEJGODAT_BYTES(all), &at))
        found.emplace_back(next, static_cast<std::size_t>(vejgodat_message_bytes(next)));
    return found;
}
class area {
public:
    area(table_view old, table_view next, std::uint32_t rank, std::uint32_t dimension, std::uint32_t epoch) {
        const auto need = vejgodat_area_length(VEJGODAT_ENTRIES(old), VEJGODAT_ENTRIES(next), rank, dimension);
        held = detail::written(need.refusal, need.length,
                               VEJGODAT_WRITE(vejgodat_open_area, VEJGODAT_ENTRIES(old), VEJGODAT_ENTRIES(next), rank,
                                              dimension, epoch));
    }
    void deliver(bytes_view message) { detail::must(vejgodat_deliver(held.data(), held.size(), VEJGODAT_BYTES(message))); }
    vejgodat_progress progress() const { return vejgodat_progress_of(held.data(), held.size()); }
    bytes close() const {
        return detail::written(VEJGODAT_OK, vejgodat_area_part_bytes(held.data()),
                               VEJGODAT_WRITE(vejgodat_close_area, held.data(), held.size()));
    }

private:
    bytes held;
};

#undef VEJGODAT_BYTES
#undef VEJGODAT_ENTRIES
#undef VEJGODAT_WRITE

} // namespace vejgodat

#endif // VEJGODAT_HPP
