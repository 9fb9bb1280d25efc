// flow.c in C++17:  c++ -std=c++17 flow.cc $(pkg-config --cflags --libs vejgodat)
#include <vejgodat.hpp>

#include <cstdio>

int main() {
    const std::uint32_t ranks = 3, epoch = 7;
    try {
        const vejgodat::bytes mesh = vejgodat::brick(4, 3, 2, true);
        vejgodat::numbers leaves(24, 1);
        const vejgodat::table old = vejgodat::table_from_leaves(ranks, leaves);
        for (std::size_t tree = 0; tree < 5; ++tree)
            leaves[tree] = 8;
        const vejgodat::table next = vejgodat::table_from_leaves(ranks, leaves);

        std::vector<vejgodat::area> areas;
        for (std::uint32_t q = 0; q < ranks; ++q)
            areas.emplace_back(old, next, q, 3, epoch);
        unsigned messages = 0;
        for (std::uint32_t p = 0; p < ranks; ++p) {
            const vejgodat::bytes all = vejgodat::build_all(vejgodat::cut(mesh, old, p), old, next, p, epoch);
            for (vejgodat::bytes_view message : vejgodat::messages(all)) {
                areas[vejgodat_message_receiver(message.data)].deliver(message);
                ++messages;
            }
        }
        for (std::uint32_t q = 0; q < ranks; ++q)
            if (areas[q].close() != vejgodat::cut(mesh, next, q)) {
                std::printf("the part of rank %u is another\n", q);
                return 1;
            }
        std::printf("%u ranks, %u messages, each part as cut\n", ranks, messages);
    }
    catch (const vejgodat::refused &refusal) {
        std::printf("%s\n", refusal.what());
        return 1;
    }
    return 0;
}
