// vejgodat.hpp: its calls on good input, and what it throws; views take only what has the elements.
#include <vejgodat.hpp>
#include <vejgodat.hpp>

#include <array>
#include <cstdio>

static int failures = 0;

static void expect(bool as_meant, const char *what) {
    if (!as_meant) {
        std::printf("refused.cc: %s\n", what);
        ++failures;
    }
}

template <class Call> static void throws(std::uint32_t number, const std::string &place, Call call) {
    try {
        call();
        std::printf("refused.cc: no refusal %u\n", number);
        ++failures;
    }
    catch (const vejgodat::refused &refusal) {
        expect(refusal.number() == number && refusal.place() == place, refusal.what());
        expect(std::string(refusal.what()).find(vejgodat_refusal_text(number)) != std::string::npos, "the words");
    }
}

// a container of other elements, or one that can't be written, is no view
static_assert(std::is_convertible<std::vector<std::int64_t> &, vejgodat::table_view>::value, "");
static_assert(std::is_convertible<const std::array<std::int64_t, 3> &, vejgodat::table_view>::value, "");
static_assert(!std::is_convertible<std::vector<std::int32_t> &, vejgodat::table_view>::value, "");
static_assert(!std::is_convertible<std::vector<std::uint64_t> &, vejgodat::table_view>::value, "");
static_assert(!std::is_convertible<std::vector<char> &, vejgodat::bytes_view>::value, "");
static_assert(!std::is_convertible<const vejgodat::bytes &, vejgodat::view<std::uint8_t>>::value, "");

int main() {
    using namespace vejgodat;
    const table old{0, -4, -4, 8}, next{0, 2, 5, 8}, damaged{0, 3, 2, 8};
    const numbers first{0, 3, 3}, count{4, 1, 5}, none;
    const std::string text = "2 3 0\n1 1 2 3\n2 2 3 4\n";
    const bytes_view element(reinterpret_cast<const std::uint8_t *>(text.data()), text.size());

    check_table(old);
    expect(write_table(first, count) == old, "write_table");
    expect(table_range(old, 1).first == 3 && table_range(old, 1).count == 1, "table_range");
    expect(table_from_leaves(2, numbers{1, 1}) == table({0, 1, 2}), "table_from_leaves");
    expect(table_from_weights(numbers{1, 3}, numbers{1, 1, 1, 1}) == table({0, 1, 4}), "table_from_weights");
    expect(send_set(old, next, 0) == numbers({0, 1}) && receive_set(old, next, 2) == numbers({2}), "sets");
    expect(trees_sent(old, next, 0, 1).first == 2 && trees_sent(old, next, 0, 1).count == 1, "trees_sent");
    throws(VEJGODAT_TABLE, "rank 1: negative count", [&] { check_table(damaged); });
    throws(VEJGODAT_RANKS, "", [] { check_table(table{}); });
    throws(VEJGODAT_RANKS, "", [&] { table_from_leaves(4000000000u, count); });
    throws(VEJGODAT_PARTITION, "", [&] { write_table(first, none); });
    throws(VEJGODAT_PARTITION, "", [&] { table_from_leaves(1, none); });
    throws(VEJGODAT_WEIGHTS, "", [&] { table_from_weights(numbers{0}, count); });
    throws(VEJGODAT_INDEX, "", [&] { table_range(old, 3); });
    throws(VEJGODAT_DIFFER, "", [&] { send_set(old, table{0, 8}, 0); });
    throws(VEJGODAT_TABLE, "", [&] { trees_sent(old, damaged, 0, 0); });

    bytes mesh = brick(2, 2, 2), broken = mesh;
    check_mesh(mesh);
    check_mesh(import_triangle(element));
    broken[8 + 5] = 1;
    throws(VEJGODAT_MESH, "tree 0: zero bytes not zero, or region not below 4,096", [&] { check_mesh(broken); });
    throws(VEJGODAT_EXTENT, "", [] { brick(0, 1, 1); });
    throws(VEJGODAT_TEXT, "", [] { import_triangle(bytes{}); });
    throws(VEJGODAT_MESH, "", [&] { cut(broken, old, 0); });

    bytes part = cut(mesh, old, 1);
    check_part(part, old, 1);
    throws(VEJGODAT_PART, "header or length", [&] { check_part(bytes{}, old, 1); });
    throws(VEJGODAT_INDEX, "", [&] { check_part(part, old, 3); });

    area opened(old, next, 1, 3, 9);
    expect(opened.progress().heard == 0 && opened.progress().due == 3, "progress");
    throws(VEJGODAT_MISSING, "", [&] { opened.close(); });
    throws(VEJGODAT_LAYOUT, "", [&] { opened.deliver(bytes{}); });
    throws(VEJGODAT_INDEX, "", [&] { area(old, next, 1, 4, 9); });
    for (std::uint32_t p = 0; p < 3; ++p) {
        const bytes all = build_all(cut(mesh, old, p), old, next, p, 9);
        for (bytes_view message : messages(all))
            if (vejgodat_message_receiver(message.data) == 1) {
                opened.deliver(message);
                throws(VEJGODAT_HEARD, "", [&] { opened.deliver(message); });
            }
    }
    expect(opened.close() == cut(mesh, next, 1), "close");
    throws(VEJGODAT_PART, "", [&] { build_all(bytes{}, old, next, 1, 9); });
    expect(messages(bytes{}).empty(), "no message");
    return failures == 0 ? 0 : 1;
}
