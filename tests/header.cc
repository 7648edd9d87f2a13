// The header from C++: it compiles, and a call through it works.
#include "c34.h"
#include <cstdio>

int main()
{
    int32_t (*check)(const uint8_t *, size_t) = c34_check_curve;
    const uint8_t none[1] = {0};
    if (c34_check_curve(nullptr, 0) != -C34_REFUSED_CURVE_LENGTH || check(none, 0) != -C34_REFUSED_CURVE_LENGTH)
        return 1;
    if (c34_reduce_curve(nullptr, 0, 5, nullptr, 0) != -C34_REFUSED_FRACTIONS)
        return 1;
    if (c34_compare_words(nullptr, 0, nullptr, 0, nullptr, 0) != -C34_REFUSED_CURVE_LENGTH)
        return 1;
    if (c34_common_part(nullptr, 0, nullptr, 0, nullptr, 0, nullptr, 0) != -C34_REFUSED_CURVE_LENGTH)
        return 1;
    if (c34_common_multiple(nullptr, 0, nullptr, 0, nullptr, 0, nullptr, 0) != -C34_REFUSED_CURVE_LENGTH)
        return 1;
    if (c34_sum_by_parts(nullptr, 0, nullptr, 0, nullptr, 0, nullptr, 0) != -C34_REFUSED_CURVE_LENGTH)
        return 1;
    if (c34_quick_sum(nullptr, 0, nullptr, 0, nullptr, 0, nullptr, 0) != -C34_REFUSED_CURVE_LENGTH)
        return 1;
    if (c34_quick_double(nullptr, 0, nullptr, 0, nullptr, 0) != -C34_REFUSED_CURVE_LENGTH)
        return 1;
    if (c34_quick_serves(nullptr, 0, nullptr, 0, nullptr, 0) != -C34_REFUSED_CURVE_LENGTH)
        return 1;
    if (c34_shorten(nullptr, 0, nullptr, 0, nullptr, 0) != -C34_REFUSED_CURVE_LENGTH)
        return 1;
    if (c34_lengthen(nullptr, 0, nullptr, 0, nullptr, 0) != -C34_REFUSED_CURVE_LENGTH)
        return 1;
    std::puts("header: usable from C++");
    return 0;
}
