/* The epochs of a cluster in plain C, on masks of nodes. */
#include "plain.h"

static uint32_t bit(uint32_t node)
{
    return (uint32_t)1 << node;
}

void FN(epochs_fresh)(struct plain_epochs *e)
{
    *e = (struct plain_epochs){1, 0, 0, 0, 0};
}

uint32_t FN(epochs_join)(struct plain_epochs *e, uint32_t node)
{
    if (node >= PLAIN_NODES)
        return 22;
    if (e->members & bit(node))
        return 17;
    e->members |= bit(node);
    e->need &= ~bit(node);
    e->enforcing &= ~bit(node);
    return 0;
}

uint32_t FN(epochs_leave)(struct plain_epochs *e, uint32_t node)
{
    if (node >= PLAIN_NODES)
        return 22;
    if (!(e->members & bit(node)))
        return 2;
    if (e->need & bit(node))
        return 10013;
    e->members &= ~bit(node);
    e->enforcing &= ~bit(node);
    return 0;
}

uint32_t FN(epochs_start)(struct plain_epochs *e, uint32_t node)
{
    if (node >= PLAIN_NODES)
        return 22;
    if (!(e->members & bit(node)))
        return 2;
    if (e->recovery == 0) {
        if (e->current == UINT64_MAX)
            return 28;
        e->recovery = e->current++;
    }
    e->need |= bit(node);
    e->enforcing |= bit(node);
    return 0;
}

uint32_t FN(epochs_enforce)(struct plain_epochs *e, uint32_t node)
{
    if (node >= PLAIN_NODES)
        return 22;
    if (!(e->members & bit(node)))
        return 2;
    if (e->recovery == 0)
        return 10033;
    e->enforcing |= bit(node);
    return 0;
}

uint32_t FN(epochs_finish)(struct plain_epochs *e, uint32_t node)
{
    if (node >= PLAIN_NODES)
        return 22;
    if (!(e->members & bit(node)))
        return 2;
    if (!(e->need & bit(node)))
        return 22;
    e->need &= ~bit(node);
    if (e->need == 0)
        e->recovery = 0;
    return 0;
}

uint32_t FN(epochs_stop_enforcing)(struct plain_epochs *e, uint32_t node)
{
    if (node >= PLAIN_NODES)
        return 22;
    if (!(e->members & bit(node)))
        return 2;
    if (e->recovery != 0)
        return 10013;
    e->enforcing &= ~bit(node);
    return 0;
}

uint32_t FN(epochs_may_reclaim)(const struct plain_epochs *e, uint32_t node)
{
    if (node >= PLAIN_NODES)
        return 22;
    return e->recovery != 0 && (e->members & bit(node)) && (e->need & bit(node)) && (e->members & ~e->enforcing) == 0;
}
