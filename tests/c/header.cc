// The header as C++17 takes it: included twice, its functions called and linked as C.
#include <vejgodat.h>
#include <vejgodat.h>

#include <cstdio>
#include <vector>

int main() {
    const uint32_t leaves[2] = {4, 4};
    std::vector<uint8_t> table(VEJGODAT_TABLE_BYTES(3));
    const auto made = vejgodat_table_from_leaves(3, leaves, 2, table.data(), table.size());
    const auto range = vejgodat_table_range(table.data(), table.size(), 1);
    const bool as_meant = made.refusal == VEJGODAT_OK && range.first == 0 && range.count == 2
        && vejgodat_version() == VEJGODAT_VERSION;
    if (!as_meant)
        std::printf("header.cc: %s\n", vejgodat_refusal_text(made.refusal));
    return as_meant ? 0 : 1;
}
