/* A call as data, made by the archive: see call.h. */
#include "call.h"

int32_t by_library(const struct call *c)
{
    struct slice k = c->curve, a = c->a, b = c->b;
    switch (c->verb) {
    case CHECK_CURVE:
        return c34_check_curve(k.at, k.len);
    case CHECK_DIVISOR:
        return c34_check_divisor(k.at, k.len, a.at, a.len);
    case SUM:
        return c34_sum(k.at, k.len, a.at, a.len, b.at, b.len, c->out, c->out_len);
    case DOUBLE:
        return c34_double(k.at, k.len, a.at, a.len, c->out, c->out_len);
    case NEGATIVE:
        return c34_negative(k.at, k.len, a.at, a.len, c->out, c->out_len);
    case MULTIPLE:
        return c34_multiple(k.at, k.len, a.at, a.len, c->n, c->out, c->out_len);
    case LIST_SUM:
        return c34_list_sum(k.at, k.len, a.at, a.len, c->out, c->out_len);
    case COMPARE:
        return c34_compare(k.at, k.len, a.at, a.len, b.at, b.len);
    case COUNT:
        return c34_count(k.at, k.len, a.at, a.len, c->kind);
    case REDUCE_CURVE:
        return c34_reduce_curve(k.at, k.len, c->p, c->out, c->out_len);
    case COMPARE_WORDS:
        return c34_compare_words(k.at, k.len, a.at, a.len, b.at, b.len);
    case COMMON_PART:
        return c34_common_part(k.at, k.len, a.at, a.len, b.at, b.len, c->out, c->out_len);
    case COMMON_MULTIPLE:
        return c34_common_multiple(k.at, k.len, a.at, a.len, b.at, b.len, c->out, c->out_len);
    case SUM_BY_PARTS:
        return c34_sum_by_parts(k.at, k.len, a.at, a.len, b.at, b.len, c->out, c->out_len);
    case QUICK_SUM:
        return c34_quick_sum(k.at, k.len, a.at, a.len, b.at, b.len, c->out, c->out_len);
    case QUICK_DOUBLE:
        return c34_quick_double(k.at, k.len, a.at, a.len, c->out, c->out_len);
    case QUICK_SERVES:
        return c34_quick_serves(k.at, k.len, a.at, a.len, b.at, b.len);
    case SHORTEN:
        return c34_shorten(k.at, k.len, a.at, a.len, c->out, c->out_len);
    default:
        return c34_lengthen(k.at, k.len, a.at, a.len, c->out, c->out_len);
    }
}
