/* Four threads, each with a session and a stop of its own, on the network of examples/a.max: of the 5 that arrive, 2 are left without arc 1. Prints how
 * many threads found that in each round. With -DSHARED all of them use one session, one after the other, and nothing says that they wait
 * for each other, which dmf.h forbids. */
#define _DEFAULT_SOURCE
#include <dmf.h>
#include <pthread.h>
#include <stdio.h>
#include <unistd.h>

enum { THREADS = 4, ROUNDS = 20, NODES = 4, ARCS = 5, PAUSE = 200000 };

static dmf_session *opened(void)
{
    static const uint32_t tails[] = {1, 1, 2, 2, 3}, heads[] = {2, 3, 3, 4, 4};
    static const uint64_t capacities[] = {3, 2, 5, 2, 3};
    dmf_session *session = NULL;
    size_t bad_arc;
    dmf_session_new(NODES, 1, NODES, tails, ARCS, heads, ARCS, capacities, ARCS, 9, &session, &bad_arc);
    return session;
}

/* Whether a round finds what it should; the session is then as it was. The flag of the stop is not raised. */
static int round_is_right(dmf_session *session, dmf_stop *stop)
{
    uint32_t worst;
    uint64_t loss, value, flows[ARCS], gain;
    const uint32_t arc = 5;
    uint8_t side[NODES], text[1000];
    size_t found, length;
    if (dmf_session_solve(session) != DMF_OK || dmf_session_value(session) != 5)
        return 0;
    if (dmf_session_worst_arcs_until(session, NULL, 0, &worst, 1, &loss, 1, &found, stop) != DMF_OK || worst != 1 || loss != 3)
        return 0;
    if (dmf_session_second_gains_until(session, &arc, 1, &gain, 1, stop) != DMF_OK || gain != 0)
        return 0;
    if (dmf_session_side(session, side, NODES) != DMF_OK || side[0] != 1 || side[1] != 0)
        return 0;
    if (dmf_session_solution(session, text, sizeof text, &length) != DMF_OK || text[0] != 's')
        return 0;
    if (dmf_session_close(session, worst) != DMF_OK || dmf_session_solve(session) != DMF_OK || dmf_session_value(session) != 2)
        return 0;
    if (dmf_session_maximum_flow(session, &value, flows, ARCS, NULL, 0) != DMF_OK || value != 2)
        return 0;
    if (dmf_session_cap(session, 5, 9) != DMF_OK || dmf_session_add(session, 1, 4, 7) != DMF_OK || dmf_session_shut(session, 2) != DMF_OK)
        return 0;
    return dmf_session_undo(session, 3) == DMF_OK && dmf_session_redo(session, 3) == DMF_OK && dmf_session_undo(session, 6) == DMF_OK;
}

static void *play(void *shared)
{
    static int yes;
    dmf_session *session = shared == NULL ? opened() : shared;
    dmf_stop *stop = NULL;
    int right = dmf_stop_new(&stop) == DMF_OK && session != NULL;
    for (int i = 0; i < ROUNDS && right; i++)
        right = round_is_right(session, stop);
    dmf_stop_free(stop);
    if (shared == NULL)
        dmf_session_free(session);
    return right ? &yes : NULL;
}

int main(void)
{
#ifdef SHARED
    dmf_session *shared = opened();
#else
    dmf_session *shared = NULL;
#endif
    pthread_t threads[THREADS];
    int right = 0;
    for (int i = 0; i < THREADS; i++) {
        if (pthread_create(&threads[i], NULL, play, shared) != 0)
            return 1;
        if (shared != NULL)
            usleep(PAUSE);
    }
    for (int i = 0; i < THREADS; i++) {
        void *answer;
        right += pthread_join(threads[i], &answer) == 0 && answer != NULL;
    }
    dmf_session_free(shared);
    printf("%d\n", right);
    return 0;
}
