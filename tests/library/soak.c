/* Takes so many steps in two sessions of the library: one that lives all the time, and one in whose place another comes every 50 rounds. Prints for
 * each tenth of the rounds how many bytes of the heap were in use at most, and at last how many are left when both are freed.
 *
 * A round steps on, so that the history forgets its oldest states, and then takes some of that back. From there it takes random steps of
 * every kind and undoes them all: the network, the flow and the limit have to be as before. */
#include <dmf.h>
#include <malloc.h>
#include <stdio.h>
#include <stdlib.h>
#include <string.h>

enum { NODES = 40, ARCS = 160, PAST = 100, FORWARD = 30, BACK = 60, STEPS = 20, A_ROUND = FORWARD + 2 * STEPS, ROUNDS = 50, TENTHS = 10 };

struct network {
    uint32_t tails[ARCS], heads[ARCS];
    uint64_t capacities[ARCS];
};

/* What a round leaves as it was. */
struct seen {
    uint64_t value, flows[ARCS], capacities[ARCS];
    uint8_t side[NODES];
};

static uint64_t drawn = 1990;

/* A random number below the limit. */
static uint64_t draw(uint64_t limit)
{
    drawn = drawn * 6364136223846793005u + 1442695040888963407u;
    return (drawn >> 33) % limit;
}

static void want(int is_so, const char *what)
{
    if (!is_so) {
        fprintf(stderr, "%s\n", what);
        exit(1);
    }
}

static dmf_session *opened(void)
{
    static struct network network;
    dmf_session *session = NULL;
    size_t bad_arc;
    for (int i = 0; i < ARCS; i++) {
        network.tails[i] = 1 + (uint32_t)draw(NODES);
        network.heads[i] = 1 + (uint32_t)draw(NODES);
        network.capacities[i] = draw(1000);
    }
    want(dmf_session_new(NODES, 1, NODES, network.tails, ARCS, network.heads, ARCS, network.capacities, ARCS, PAST, &session, &bad_arc) == DMF_OK,
         "a session was refused");
    return session;
}

static struct seen look(const dmf_session *session)
{
    struct seen seen;
    memset(&seen, 0, sizeof seen);
    seen.value = dmf_session_value(session);
    want(dmf_session_flows(session, seen.flows, ARCS) == DMF_OK && dmf_session_capacities(session, seen.capacities, ARCS) == DMF_OK &&
             dmf_session_side(session, seen.side, NODES) == DMF_OK,
         "the state is another one");
    return seen;
}

static void take_random_step(dmf_session *session)
{
    uint64_t arc = 1 + draw(ARCS), node = 1 + draw(NODES);
    switch (draw(8)) {
    case 0: dmf_session_cap(session, arc, draw(1000)); break;
    case 1: dmf_session_close(session, arc); break;
    case 2: dmf_session_shut(session, node); break;
    case 3: dmf_session_add(session, node, 1 + draw(NODES), draw(1000)); break;
    case 4: dmf_session_undo(session, draw(2)); break;
    case 5: dmf_session_redo(session, draw(2)); break;
    default: want(dmf_session_solve(session) == DMF_OK, "a solve was refused");
    }
}

/* Capacities and solves, until the history is full and has forgotten some states. */
static void step_on(dmf_session *session)
{
    for (int step = 0; step < FORWARD || dmf_session_past(session) < PAST; step += 2) {
        enum dmf_status status = dmf_session_cap(session, 1 + draw(ARCS), draw(1000));
        want(status == DMF_OK && dmf_session_solve(session) == DMF_OK, "a step was refused");
    }
}

static void take_round(dmf_session *session)
{
    uint8_t text[16384];
    uint64_t flows[2 * ARCS], losses[2 * ARCS], place, greatest;
    static const uint32_t numbers[10] = {1, 2, 3, 4, 5, 6, 7, 8, 9, 10};
    uint32_t firsts[10], seconds[10];
    size_t length, found;
    struct seen before, after;
    uint32_t past;
    step_on(session);
    want(dmf_session_undo(session, BACK) == DMF_OK && dmf_session_solve(session) == DMF_OK, "a step was refused");
    before = look(session);
    past = dmf_session_past(session);
    for (int step = 0; step < STEPS; step++) {
        want(dmf_session_cap(session, 1 + draw(ARCS), draw(1000)) != DMF_NO_MEMORY, "no memory");
        /* So the round takes back its own steps alone. */
        if (dmf_session_past(session) > past)
            take_random_step(session);
    }
    want(dmf_session_solve(session) == DMF_OK, "a solve was refused");
    want(dmf_session_flows(session, flows, dmf_session_arcs(session)) == DMF_OK &&
             dmf_session_check(session, flows, dmf_session_arcs(session), &place) == DMF_OK,
         "the flow is not greatest");
    want(dmf_session_arc_losses(session, numbers, 10, losses, 10) == DMF_OK && dmf_session_node_losses(session, numbers, 10, losses, 10) == DMF_OK,
         "losses were refused");
    want(dmf_session_worst_nodes(session, firsts, 10, losses, 10, &found) == DMF_OK && found == 10 &&
             dmf_session_worst_arcs(session, NULL, 0, firsts, 10, losses, 10, &found) == DMF_OK && found == 10 &&
             dmf_session_worst_pairs(session, NULL, 0, firsts, 10, seconds, 10, losses, 10, &found) == DMF_OK && found == 10 &&
             dmf_session_pair_losses(session, firsts, 10, seconds, 10, flows, 10) == DMF_OK && memcmp(flows, losses, sizeof *flows * 10) == 0,
         "the worst losses were refused, or are others");
    want(dmf_session_second_gains(session, firsts, 10, losses, 10) == DMF_OK &&
             dmf_session_new_arc_gains(session, firsts, 0, seconds, 0, flows, 0, losses, 0) == DMF_OK,
         "gains were refused");
    want(dmf_session_maximum_flow(session, &greatest, flows, dmf_session_arcs(session), text, NODES) == DMF_OK &&
             greatest == dmf_session_value(session) && dmf_session_check(session, flows, dmf_session_arcs(session), &place) == DMF_OK,
         "the other flow is not greatest");
    want(dmf_session_problem(session, text, sizeof text, &length) == DMF_OK && dmf_session_solution(session, text, sizeof text, &length) == DMF_OK,
         "a text was refused");
    want(dmf_session_undo(session, dmf_session_past(session) - past) == DMF_OK, "too few states are kept");
    after = look(session);
    want(memcmp(&before, &after, sizeof before) == 0, "a round has changed the session");
}

static size_t in_use(void)
{
    struct mallinfo2 heap = mallinfo2();
    return heap.uordblks + heap.hblkhd;
}

int main(int count, char **words)
{
    long rounds = (count == 2 ? atol(words[1]) : 0) / (2 * A_ROUND), tenth = rounds / TENTHS;
    size_t most = 0, before;
    dmf_session *old, *young = NULL;
    printf("%ld\n", TENTHS * tenth);
    before = in_use();
    old = opened();
    for (long round = 1; round <= TENTHS * tenth; round++) {
        if (young == NULL)
            young = opened();
        take_round(old);
        take_round(young);
        most = in_use() > most ? in_use() : most;
        if (round % ROUNDS == 0) {
            dmf_session_free(young);
            young = NULL;
        }
        if (round % tenth == 0) {
            printf("%zu\n", most);
            most = 0;
        }
    }
    dmf_session_free(old);
    dmf_session_free(young);
    printf("%zu\n", in_use() - before);
    return 0;
}
