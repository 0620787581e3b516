/* The limit of a network of five arcs, and what closing one would cost.
 *     cc -o limit limit.c $(pkg-config --cflags --libs dmf) && ./limit */
#include <dmf.h>
#include <inttypes.h>
#include <stdio.h>

int main(void)
{
    const uint32_t tails[] = {1, 1, 2, 2, 3}, heads[] = {2, 3, 3, 4, 4};
    const uint64_t capacities[] = {3, 2, 5, 2, 3};
    uint64_t flows[5];
    dmf_session *session = NULL;
    size_t bad_arc;
    enum dmf_status status = dmf_session_new(4, 1, 4, tails, 5, heads, 5, capacities, 5, 100, &session, &bad_arc);

    if (status != DMF_OK) {
        fprintf(stderr, "limit: %s\n", dmf_status_text(status));
        return 1;
    }
    if (dmf_session_solve(session) != DMF_OK || dmf_session_flows(session, flows, 5) != DMF_OK)
        return 1;
    for (int i = 0; i < 5; i++)
        printf("%" PRIu32 " -> %" PRIu32 ": %" PRIu64 " of %" PRIu64 "\n", tails[i], heads[i], flows[i], capacities[i]);
    if (dmf_session_close(session, 1) == DMF_OK && dmf_session_solve(session) == DMF_OK)
        printf("without arc 1: %" PRIu64 "\n", dmf_session_value(session));
    if (dmf_session_undo(session, 2) == DMF_OK)
        printf("again: %" PRIu64 "\n", dmf_session_value(session));
    dmf_session_free(session);
    return 0;
}
