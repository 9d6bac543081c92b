/* The C half of tools/library.sh: document 01's first bench case through the archive, and the three refusals that the
 * Rust wrapper can never meet. The last line is 'N passed, M failed'. */
#include "kevrespil.h"

int printf(const char *, ...);

static int passed, failed;

static void is(const char *what, struct kevrespil_answer answer, uint32_t number, uint64_t value)
{
    if (answer.number == number && answer.value == value) {
        passed++;
        return;
    }
    failed++;
    printf("%s: answered %u with %llu, expected %u with %llu\n", what, (unsigned)answer.number,
           (unsigned long long)answer.value, (unsigned)number, (unsigned long long)value);
}

static struct kevrespil fresh, damaged;

int main(void)
{
    struct kevrespil *k = &fresh;
    is("swap", kevrespil_begin(k, 0, KEVRESPIL_SWAP, 0, 1, 1), KEVRESPIL_STARTED, 0);
    is("swap's step", kevrespil_go(k, 0, false, 0), KEVRESPIL_DONE, 0);
    is("swap back", kevrespil_begin(k, 0, KEVRESPIL_SWAP, 0, 1, 0), KEVRESPIL_STARTED, 0);
    is("its step", kevrespil_go(k, 0, false, 0), KEVRESPIL_DONE, 1);
    is("retire", kevrespil_begin(k, 0, KEVRESPIL_RETIRE, 1, 0, 0), KEVRESPIL_STARTED, 0);
    for (int step = 1; step <= 31; step++) {
        struct kevrespil_answer answer = kevrespil_go(k, 0, false, 0);
        if (step == 20)
            is("step 20 of the first retire", answer, KEVRESPIL_RECLAIMED, 1);
        else if (step == 31)
            is("step 31 of the first retire", answer, KEVRESPIL_DONE, 1);
        else
            is("a step of the first retire", answer, KEVRESPIL_STEPPED, 0);
    }
    is("one more step", kevrespil_go(k, 0, false, 0), KEVRESPIL_IDLE, 0);

    is("a table too short",
       kevrespil_step(k->ids, 4506, k->next, 4096, k->state, 4096, k->words, 85, k->guards, 1024, 0, false, 0),
       KEVRESPIL_TABLE_SIZE, 0);
    is("no kind", kevrespil_begin(k, 0, (enum kevrespil_kind)13, 0, 0, 0), KEVRESPIL_NO_OPERATION, 0);
    is("kind 0, which is a step", kevrespil_begin(k, 0, (enum kevrespil_kind)0, 0, 0, 0), KEVRESPIL_NO_OPERATION, 0);
    is("an unused field", kevrespil_begin(k, 0, KEVRESPIL_ACQUIRE, 0, 0, 1), KEVRESPIL_NO_OPERATION, 0);
    is("no kind on a table too short",
       kevrespil_start(k->ids, 4506, k->next, 4096, k->state, 4096, k->words, 85, k->guards, 1024, 16, 13, 0, 0, 0),
       KEVRESPIL_NO_OPERATION, 0);
    is("a record above 2^16", kevrespil_begin(k, 0, KEVRESPIL_RELEASE, 65537, 0, 0), KEVRESPIL_RECORD, 0);
    is("a thread above 2^8", kevrespil_begin(k, 256, KEVRESPIL_ACQUIRE, 0, 0, 0), KEVRESPIL_THREAD, 0);
    damaged.ids[1] = 1; /* head_available, a locked null */
    is("acquire", kevrespil_begin(&damaged, 0, KEVRESPIL_ACQUIRE, 0, 0, 0), KEVRESPIL_STARTED, 0);
    is("a damaged cell", kevrespil_go(&damaged, 0, false, 0), KEVRESPIL_OUT_OF_RANGE, 0);

    printf("%d passed, %d failed\n", passed, failed);
    return failed != 0;
}
