/* The calls of calls.c, overlap_calls.c, quick_calls.c, short_calls.c and points_calls.c under the library's names, so
   that tests/vectors.c and tests/points.c make them in place of the archives'. */
#include "calls.c"
#include "overlap_calls.c"
#include "quick_calls.c"
#include "short_calls.c"
#include "points_calls.c"

typedef const uint8_t *bytes;

int32_t c34_check_curve(bytes c, size_t nc)
{
    return base_check_curve(c, nc);
}

int32_t c34_check_divisor(bytes c, size_t nc, bytes a, size_t na)
{
    return base_check_divisor(c, nc, a, na);
}

int32_t c34_sum(bytes c, size_t nc, bytes a, size_t na, bytes b, size_t nb, uint8_t *out, size_t room)
{
    return base_sum(c, nc, a, na, b, nb, out, room);
}

int32_t c34_double(bytes c, size_t nc, bytes a, size_t na, uint8_t *out, size_t room)
{
    return base_double(c, nc, a, na, out, room);
}

int32_t c34_negative(bytes c, size_t nc, bytes a, size_t na, uint8_t *out, size_t room)
{
    return base_negative(c, nc, a, na, out, room);
}

int32_t c34_multiple(bytes c, size_t nc, bytes a, size_t na, int64_t n, uint8_t *out, size_t room)
{
    return base_multiple(c, nc, a, na, n, out, room);
}

int32_t c34_list_sum(bytes c, size_t nc, bytes list, size_t n, uint8_t *out, size_t room)
{
    return base_list_sum(c, nc, list, n, out, room);
}

int32_t c34_common_part(bytes c, size_t nc, bytes a, size_t na, bytes b, size_t nb, uint8_t *out, size_t room)
{
    return base_common_part(c, nc, a, na, b, nb, out, room);
}

int32_t c34_common_multiple(bytes c, size_t nc, bytes a, size_t na, bytes b, size_t nb, uint8_t *out, size_t room)
{
    return base_common_multiple(c, nc, a, na, b, nb, out, room);
}

int32_t c34_sum_by_parts(bytes c, size_t nc, bytes a, size_t na, bytes b, size_t nb, uint8_t *out, size_t room)
{
    return base_sum_by_parts(c, nc, a, na, b, nb, out, room);
}

int32_t c34_quick_sum(bytes c, size_t nc, bytes a, size_t na, bytes b, size_t nb, uint8_t *out, size_t room)
{
    return base_quick_sum(c, nc, a, na, b, nb, out, room);
}

int32_t c34_quick_double(bytes c, size_t nc, bytes a, size_t na, uint8_t *out, size_t room)
{
    return base_quick_double(c, nc, a, na, out, room);
}

int32_t c34_quick_serves(bytes c, size_t nc, bytes a, size_t na, bytes b, size_t nb)
{
    return base_quick_serves(c, nc, a, na, b, nb);
}

int32_t c34_compare(bytes c, size_t nc, bytes a, size_t na, bytes b, size_t nb)
{
    return base_compare(c, nc, a, na, b, nb);
}

int32_t c34_compare_words(bytes c, size_t nc, bytes a, size_t na, bytes b, size_t nb)
{
    return base_compare_words(c, nc, a, na, b, nb);
}

int32_t c34_count(bytes c, size_t nc, bytes list, size_t n, uint32_t kind)
{
    return base_count(c, nc, list, n, kind);
}

int32_t c34_reduce_curve(bytes fractions, size_t n, uint32_t p, uint8_t *out, size_t room)
{
    return base_reduce_curve(fractions, n, p, out, room);
}

int32_t c34_shorten(bytes c, size_t nc, bytes a, size_t na, uint8_t *out, size_t room)
{
    return base_shorten(c, nc, a, na, out, room);
}

int32_t c34_lengthen(bytes c, size_t nc, bytes a, size_t na, uint8_t *out, size_t room)
{
    return base_lengthen(c, nc, a, na, out, room);
}

int32_t bench_points_sum(bytes c, size_t nc, const uint32_t *points, size_t n, uint8_t *out, size_t room)
{
    return base_points_sum(c, nc, points, n, out, room);
}

int32_t bench_points_of(bytes c, size_t nc, bytes a, size_t na, uint32_t *out, size_t room)
{
    return base_points_of(c, nc, a, na, out, room);
}
