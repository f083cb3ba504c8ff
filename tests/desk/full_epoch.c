/* full_epoch: the one refusal of the epochs that no list of calls reaches (01, "Cluster epochs", Start: 28), on records set by hand.
   Prints nothing and exits 0, or says which line is wrong and exits 1. */
#include "stellcircle.h"

#include <stdio.h>

static int wrong;

static void expect(int holds, int line)
{
    if (!holds) {
        fprintf(stderr, "full_epoch: line %d\n", line);
        wrong = 1;
    }
}

static int same(const struct sc_epochs *a, const struct sc_epochs *b)
{
    return a->current == b->current && a->recovery == b->recovery && a->members == b->members && a->need == b->need && a->enforcing == b->enforcing;
}

int main(void)
{
    const struct sc_epochs full = {.current = UINT64_MAX, .recovery = 0, .members = 5, .need = 0, .enforcing = 4};
    struct sc_epochs e = full;
    expect(sc_epochs_start(&e, 0) == 28 && same(&e, &full), __LINE__);
    expect(sc_epochs_start(&e, 32) == 22 && same(&e, &full), __LINE__);
    expect(sc_epochs_start(&e, 1) == 2 && same(&e, &full), __LINE__);

    const struct sc_epochs last = {.current = UINT64_MAX - 1, .recovery = 0, .members = 5, .need = 0, .enforcing = 4};
    const struct sc_epochs started = {.current = UINT64_MAX, .recovery = UINT64_MAX - 1, .members = 5, .need = 1, .enforcing = 5};
    const struct sc_epochs both = {.current = UINT64_MAX, .recovery = UINT64_MAX - 1, .members = 5, .need = 5, .enforcing = 5};
    e = last;
    expect(sc_epochs_start(&e, 0) == 0 && same(&e, &started), __LINE__);
    expect(sc_epochs_start(&e, 2) == 0 && same(&e, &both), __LINE__);
    expect(sc_epochs_finish(&e, 0) == 0 && sc_epochs_finish(&e, 2) == 0 && e.recovery == 0 && e.current == UINT64_MAX, __LINE__);
    expect(sc_epochs_start(&e, 2) == 28, __LINE__);
    return wrong;
}
