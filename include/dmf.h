/* dmf.h: maximum flows, minimum cuts and what-if sessions, in your own process.
 *
 * A session is a network with a flow on it, and the states before and after the present one. Nodes are numbered from 1,
 * and so are arcs, in the order in which they came in. Capacities and flows are whole numbers, in any unit. There may be
 * several arcs between two nodes, arcs from a node to itself, into the source and out of the sink. A closed arc keeps its
 * number, and has capacity 0 and no flow.
 *
 * Who owns what.  A session is yours from the call that opens it, dmf_session_new, dmf_session_read or dmf_session_copy, until
 * you give it to dmf_session_free. It is on the heap of malloc, and holds no file, thread or lock. Arrays and texts stay yours: a
 * call reads or writes the places that you lend it, and only while it runs.
 * Pointers.  Only a pointer beside a length of 0 may be NULL, and those of dmf_session_free and dmf_stop_free. What a call writes
 * may not overlap anything else that the same call is given. A length counts elements, and must be true.
 * Threads.  One call at a time for a session; calls that take a const session count too. It need not be the same thread each
 * time. Calls for different sessions may run at the same time if malloc may. The same holds for a dmf_stop. No call blocks or
 * starts a thread, and none may be made from a signal handler. After a fork each process has its own copy of the session; if
 * other threads were running, the child must not make any call, since it must not call malloc.
 * Time.  A solve may take long, and so may cap, close and shut if the flow runs over many paths, steps over many states, the
 * losses, gains, and a maximum flow. Every other call looks at each arc a few times at most. Another thread can end a call whose
 * name ends with _until, by a dmf_stop, and no other call.
 * Memory.  A session takes some 35 bytes an arc, 80 after its first solve, and 110 after the first change that takes flow
 * off. Any call below may answer DMF_NO_MEMORY unless a comment says that it takes none; then free something and try again.
 * Limits.  2 to 16,777,216 nodes, up to 134,217,728 arcs, closed ones counted. The capacities add up to at most 2^64 - 1.
 * Refusals.  A call that returns anything but DMF_OK has left the session as it was, and the arrays too, but for dmf_session_run:
 * only what its comment says has been written. No call prints, aborts, or changes errno on purpose. Each comment names what the call may
 * answer besides DMF_OK and DMF_NO_MEMORY.
 */
#ifndef DMF_H
#define DMF_H

#include <stddef.h>
#include <stdint.h>

#ifdef __cplusplus
extern "C" {
#endif

#define DMF_VERSION "0.2.0"
#define DMF_ABI 0            /* the number of this interface */
#define DMF_MAX_PAST 1000000 /* the largest bound of a history */

/* What a call answers. The numbers never change. */
enum dmf_status {
    DMF_OK = 0,
    DMF_NO_MEMORY = 1,       /* malloc or realloc returned NULL */
    DMF_NO_SUCH_NODE = 2,    /* a node's number is 0 or past the last */
    DMF_NO_SUCH_ARC = 3,     /* an arc's number is 0 or past the last */
    DMF_CLOSED = 4,          /* the arc is closed */
    DMF_TOO_MANY_ARCS = 5,   /* the network has as many arcs as it may have */
    DMF_SUM_TOO_LARGE = 6,   /* the capacities would add up to more than 2^64 - 1 */
    DMF_NOTHING_TO_UNDO = 7, /* fewer states are kept before the present one */
    DMF_NOTHING_TO_REDO = 8, /* fewer undone states are kept */
    DMF_NOT_GREATEST = 9,    /* some flow has a larger value */
    DMF_BAD_LENGTH = 10,     /* an array has another length than it should, or a text does not fit */
    DMF_BAD_NUMBER = 11,     /* the number of nodes, the source, the sink or the bound is out of range, or source and sink are one */
    DMF_BAD_TEXT = 12,       /* the text is not a problem text */
    DMF_OVER_CAPACITY = 13,  /* the flow on an arc exceeds its capacity */
    DMF_NOT_CONSERVED = 14,  /* more flow enters a node than leaves it, or less */
    DMF_NEGATIVE = 15,       /* more flow enters the source than leaves it */
    DMF_STOPPED = 16         /* the flag of a dmf_stop was raised */
};

/* The first fault of a problem text. The numbers never change. */
enum dmf_fault {
    DMF_FAULT_PROBLEM_LINE_EXPECTED = 1,  /* a line before the line `p max NODES ARCS`, or no such line */
    DMF_FAULT_SECOND_PROBLEM_LINE = 2,
    DMF_FAULT_UNKNOWN_LINE = 3,           /* a line that begins with another letter than c, p, n and a */
    DMF_FAULT_NOT_MAX = 4,                /* a problem, but not of maximum flow */
    DMF_FAULT_FIELD_COUNT = 5,            /* too few fields, or too many */
    DMF_FAULT_NOT_A_NUMBER = 6,
    DMF_FAULT_TOO_LARGE = 7,              /* a number exceeds 2^64 - 1 */
    DMF_FAULT_COUNT_OUT_OF_RANGE = 8,     /* the number of nodes, or of arcs */
    DMF_FAULT_NODE_OUT_OF_RANGE = 9,      /* no such node */
    DMF_FAULT_NEITHER_SOURCE_NOR_SINK = 10,
    DMF_FAULT_TERMINAL_NAMED_TWICE = 11,
    DMF_FAULT_SAME_TERMINALS = 12,        /* source and sink are the same */
    DMF_FAULT_ARC_BEFORE_TERMINALS = 13,  /* an arc before source and sink */
    DMF_FAULT_TOO_MANY_ARCS = 14,         /* more arcs than the problem line says */
    DMF_FAULT_TOO_FEW_ARCS = 15,
    DMF_FAULT_TERMINAL_MISSING = 16,      /* source or sink missing */
    DMF_FAULT_SUM_TOO_LARGE = 17          /* capacities past 64 bits */
};

/* The words for an enum dmf_status, such as "no such arc". They live as long as the program. */
static inline const char *dmf_status_text(int status)
{
    switch (status) {
    case DMF_OK: return "no error";
    case DMF_NO_MEMORY: return "no memory";
    case DMF_NO_SUCH_NODE: return "no such node";
    case DMF_NO_SUCH_ARC: return "no such arc";
    case DMF_CLOSED: return "arc is closed";
    case DMF_TOO_MANY_ARCS: return "too many arcs";
    case DMF_SUM_TOO_LARGE: return "capacities past 64 bits";
    case DMF_NOTHING_TO_UNDO: return "nothing to undo";
    case DMF_NOTHING_TO_REDO: return "nothing to redo";
    case DMF_NOT_GREATEST: return "flow is not greatest";
    case DMF_BAD_LENGTH: return "array has the wrong length";
    case DMF_BAD_NUMBER: return "number out of range";
    case DMF_BAD_TEXT: return "not a problem text";
    case DMF_OVER_CAPACITY: return "flow exceeds the capacity of an arc";
    case DMF_NOT_CONSERVED: return "flow is not conserved at a node";
    case DMF_NEGATIVE: return "more flow enters the source than leaves it";
    case DMF_STOPPED: return "stopped";
    default: return "unknown status";
    }
}

/* The words for an enum dmf_fault, as `dmf solve` prints them. They live as long as the program. */
static inline const char *dmf_fault_text(int fault)
{
    switch (fault) {
    case DMF_FAULT_PROBLEM_LINE_EXPECTED: return "problem line expected";
    case DMF_FAULT_SECOND_PROBLEM_LINE: return "second problem line";
    case DMF_FAULT_UNKNOWN_LINE: return "unknown line";
    case DMF_FAULT_NOT_MAX: return "not a max problem";
    case DMF_FAULT_FIELD_COUNT: return "wrong number of fields";
    case DMF_FAULT_NOT_A_NUMBER: return "not a number";
    case DMF_FAULT_TOO_LARGE: return "number too large";
    case DMF_FAULT_COUNT_OUT_OF_RANGE: return "count out of range";
    case DMF_FAULT_NODE_OUT_OF_RANGE: return "no such node";
    case DMF_FAULT_NEITHER_SOURCE_NOR_SINK: return "neither source nor sink";
    case DMF_FAULT_TERMINAL_NAMED_TWICE: return "terminal named twice";
    case DMF_FAULT_SAME_TERMINALS: return "source and sink are the same";
    case DMF_FAULT_ARC_BEFORE_TERMINALS: return "arc before source and sink";
    case DMF_FAULT_TOO_MANY_ARCS: return "too many arcs";
    case DMF_FAULT_TOO_FEW_ARCS: return "too few arcs";
    case DMF_FAULT_TERMINAL_MISSING: return "source or sink missing";
    case DMF_FAULT_SUM_TOO_LARGE: return "capacities past 64 bits";
    default: return "unknown fault";
    }
}

/* A session. What it holds is private. */
typedef struct dmf_session dmf_session;

/* A hold of a flag by which one thread ends the long calls of others. Each thread has a stop of its own. */
typedef struct dmf_stop dmf_stop;

/* The version of the library, which may be newer than DMF_VERSION: 10,000 times the first number, 100 times the second, and
 * the third. */
uint32_t dmf_version(void);

/* The number of the library's interface, which is also in the name of its file, libdmf.so.0. A program that was compiled with another
 * DMF_ABI must not call the library. */
uint32_t dmf_abi(void);

/* ---- To open and to free ------------------------------------------------------------------------------------------- */

/* Opens a session on a network of `nodes` nodes. Arc i + 1 leaves node tails[i], enters heads[i], and has
 * capacities[i]; the flow is 0. The three lengths must be the same, or the answer is DMF_BAD_LENGTH. The session keeps
 * up to `past` states before the present one, from 0 to DMF_MAX_PAST. DMF_BAD_NUMBER, DMF_NO_SUCH_NODE, DMF_TOO_MANY_ARCS,
 * DMF_SUM_TOO_LARGE.
 *
 * On DMF_OK *session is the new session, and *bad_arc is unchanged. Otherwise *session is unchanged, and *bad_arc is the index
 * of the first arc that is refused, if one of the last three is the answer; otherwise it may be any number. */
enum dmf_status dmf_session_new(uint32_t nodes, uint32_t source, uint32_t sink,
                                const uint32_t *tails, size_t tail_count,
                                const uint32_t *heads, size_t head_count,
                                const uint64_t *capacities, size_t capacity_count,
                                uint32_t past, dmf_session **session, size_t *bad_arc);

/* Opens a session on a problem text of `length` bytes in the DIMACS format; no byte after it is read, and it needs no 0 at
 * its end. `past` is as above. DMF_BAD_NUMBER, DMF_BAD_TEXT. On DMF_OK *session is the new session, otherwise it is unchanged.
 * After DMF_BAD_TEXT *line is the line of the first fault, counted from 1, and *fault an enum dmf_fault; after any other
 * answer both are 0. */
enum dmf_status dmf_session_read(const uint8_t *text, size_t length, uint32_t past,
                                 dmf_session **session, uint64_t *line, uint32_t *fault);

/* Opens another session with the same states before and after the present one, and the same bound. The two share nothing: a
 * change of one is not seen in the other. Takes time and memory for each arc, and for each flow that these states' changes
 * moved. On DMF_OK *copy is the new session, otherwise it is unchanged. */
enum dmf_status dmf_session_copy(const dmf_session *session, dmf_session **copy);

/* Frees a session, which must not be used or freed again: nothing checks that. Does nothing at NULL. Takes no memory. */
void dmf_session_free(dmf_session *session);

/* ---- Changes: each that is DMF_OK appends a state, drops the undone ones, and forgets the oldest past the bound -------- */

/* Gives an arc another capacity. Takes what flows above it off the arc, and off paths through it. DMF_NO_SUCH_ARC,
 * DMF_CLOSED, DMF_SUM_TOO_LARGE. */
enum dmf_status dmf_session_cap(dmf_session *session, uint64_t arc, uint64_t capacity);

/* Adds an arc without flow, whose number is then dmf_session_arcs(session). DMF_NO_SUCH_NODE, DMF_TOO_MANY_ARCS, DMF_SUM_TOO_LARGE. */
enum dmf_status dmf_session_add(dmf_session *session, uint64_t tail, uint64_t head, uint64_t capacity);

/* Closes an arc, as if its capacity became 0; only undo opens it again. DMF_NO_SUCH_ARC, DMF_CLOSED. */
enum dmf_status dmf_session_close(dmf_session *session, uint64_t arc);

/* Closes every open arc that leaves or enters a node, as one change. DMF_NO_SUCH_NODE. */
enum dmf_status dmf_session_shut(dmf_session *session, uint64_t node);

/* Augments the present flow to a maximum flow. Appends a state even if it was one. Refused only if memory is short. */
enum dmf_status dmf_session_solve(dmf_session *session);

/* Does the same, unless the flag of `stop` is raised before the solve is done. Then the answer is DMF_STOPPED, and the session is as
 * it was, with its history. The flag is looked at before the solve, and after each augmenting path. It stays raised. */
enum dmf_status dmf_session_solve_until(dmf_session *session, dmf_stop *stop);

/* ---- Flags, which end a call from another thread -------------------------------------------------------------------------- */

/* Makes a flag, which is not raised, and a stop that holds it. On DMF_OK *stop is the new stop, otherwise it is unchanged. */
enum dmf_status dmf_stop_new(dmf_stop **stop);

/* Makes another stop that holds the same flag, for another thread. On DMF_OK *other is the new stop, otherwise it is unchanged. */
enum dmf_status dmf_stop_share(dmf_stop *stop, dmf_stop **other);

/* Raises the flag, at once for all that hold it. Takes no memory. */
void dmf_stop_raise(dmf_stop *stop);

/* Takes the flag down. Takes no memory. */
void dmf_stop_clear(dmf_stop *stop);

/* Frees a stop; the last one frees the flag. It must not be used or freed again. Does nothing at NULL. Takes no memory. */
void dmf_stop_free(dmf_stop *stop);

/* ---- Steps: all of them, or none; 0 steps are DMF_OK --------------------------------------------------------------------- */

/* Steps back by this many states: the session is again in that state, arc for arc. DMF_NOTHING_TO_UNDO. Takes no memory. */
enum dmf_status dmf_session_undo(dmf_session *session, uint64_t steps);

/* Steps forward by this many undone states. DMF_NOTHING_TO_REDO. Takes memory only if an added arc comes back. */
enum dmf_status dmf_session_redo(dmf_session *session, uint64_t steps);

/* ---- Many commands in one call -------------------------------------------------------------------------------------------- */

/* What a command does, and the numbers that it has. The numbers of the kinds never change. */
enum dmf_command {
    DMF_COMMAND_CAP = 1,   /* an arc and its new capacity */
    DMF_COMMAND_ADD = 2,   /* a tail, a head and a capacity */
    DMF_COMMAND_CLOSE = 3, /* an arc */
    DMF_COMMAND_SHUT = 4,  /* a node */
    DMF_COMMAND_SOLVE = 5,
    DMF_COMMAND_UNDO = 6,  /* how many steps */
    DMF_COMMAND_REDO = 7   /* how many steps */
};

/* Carries out commands, one after another, as the calls above do. Command k is the enum dmf_command kinds[k]; its numbers are
 * firsts[k], seconds[k] and thirds[k], as many as it has. values[k] becomes the value of the flow after it. Stops at the first
 * command that is refused, and answers what its call does, or DMF_BAD_NUMBER if it is no enum dmf_command. *done becomes how
 * many commands were carried out. What they did stays, since the history may have forgotten the state before them: to be able
 * to go back, copy the session first. The other values are unchanged. The five lengths must be the same, otherwise the answer
 * is DMF_BAD_LENGTH and nothing is done. */
enum dmf_status dmf_session_run(dmf_session *session, const uint32_t *kinds, size_t kind_count,
                                const uint64_t *firsts, size_t first_count,
                                const uint64_t *seconds, size_t second_count,
                                const uint64_t *thirds, size_t third_count,
                                uint64_t *values, size_t value_count, size_t *done);

/* ---- The present state: none of these changes it; the side and what stands below it take memory, the others do not ------- */

uint64_t dmf_session_value(const dmf_session *session);  /* the value of the flow */
uint32_t dmf_session_past(const dmf_session *session);   /* how many states undo can step back */
uint32_t dmf_session_future(const dmf_session *session); /* how many states redo can step forward */
uint32_t dmf_session_nodes(const dmf_session *session);
uint32_t dmf_session_source(const dmf_session *session);
uint32_t dmf_session_sink(const dmf_session *session);
size_t dmf_session_arcs(const dmf_session *session);     /* how many arcs there are, closed ones too */

/* The flow on each arc, or its capacity: arc i + 1 is at index i. `count` is dmf_session_arcs(session), or the answer is
 * DMF_BAD_LENGTH. */
enum dmf_status dmf_session_flows(const dmf_session *session, uint64_t *flows, size_t count);
enum dmf_status dmf_session_capacities(const dmf_session *session, uint64_t *capacities, size_t count);

/* The ends, capacities and flows of arcs first .. first + count - 1, and which of them are closed: at index k each array has the
 * number of arc first + k, and `closed` has 1 if that arc is closed, otherwise 0. Each length is `count`, or 0 for an array that
 * is not wanted; otherwise the answer is DMF_BAD_LENGTH. DMF_NO_SUCH_ARC if `first` is 0, or if the last of these arcs is past
 * dmf_session_arcs(session). */
enum dmf_status dmf_session_arc_range(const dmf_session *session, uint64_t first, size_t count,
                                      uint32_t *tails, size_t tail_count,
                                      uint32_t *heads, size_t head_count,
                                      uint64_t *capacities, size_t capacity_count,
                                      uint64_t *flows, size_t flow_count,
                                      uint8_t *closed, size_t closed_count);

/* What the last step moved: the arcs whose flow in the present state differs from that in the state before it, in ascending order.
 * At index k, `arcs` gets the number of such an arc, `before` its flow in the state before, and `after` its flow now. Each array
 * gets as many as it has room for, from index 0 on; its other elements are unchanged, and a length may be 0. *found becomes how
 * many such arcs there are, which may be more. DMF_NOTHING_TO_UNDO if no state is kept before the present one. */
enum dmf_status dmf_session_moved(const dmf_session *session, uint32_t *arcs, size_t arc_count,
                                  uint64_t *before, size_t before_count,
                                  uint64_t *after, size_t after_count, size_t *found);

/* The side of the smallest minimum cut: side[v - 1] becomes 1 if every minimum cut has node v on the source's side, otherwise 0.
 * The arcs that leave the side are the limit: their capacities add up to the value. `count` is dmf_session_nodes(session), or
 * the answer is DMF_BAD_LENGTH. DMF_NOT_GREATEST if the present flow is not a maximum flow: solve first. */
enum dmf_status dmf_session_side(const dmf_session *session, uint8_t *side, size_t count);

/* A maximum flow of the present network, whatever the session's own flow is. It is found by a method that is many times faster
 * than dmf_session_solve on hard networks, but it need not be the flow that a solve makes, and the session stays as it is.
 * *value becomes its value, flows[i] the flow on arc i + 1, and side[v - 1] what dmf_session_side writes there after a solve.
 * `flow_count` is dmf_session_arcs(session), or 0 if no flows are wanted; `side_count` is dmf_session_nodes(session), or 0 if
 * no side is wanted, which is faster; otherwise the answer is DMF_BAD_LENGTH. Only DMF_OK writes anything. */
enum dmf_status dmf_session_maximum_flow(const dmf_session *session, uint64_t *value,
                                         uint64_t *flows, size_t flow_count,
                                         uint8_t *side, size_t side_count);

/* What arcs are worth: losses[k] becomes how much less the greatest value is if only arc arcs[k] is closed, 0 for a closed arc.
 * Or what nodes are worth: how much less it is if only the arcs at node nodes[k] are closed, 0 for the source and the sink. The
 * lengths must be the same, or the answer is DMF_BAD_LENGTH. DMF_NO_SUCH_ARC or DMF_NO_SUCH_NODE, whatever the flow is.
 * DMF_NOT_GREATEST if the present flow is not a maximum flow: solve first. One call for many is much faster than to close each and
 * solve. */
enum dmf_status dmf_session_arc_losses(const dmf_session *session, const uint32_t *arcs, size_t arc_count,
                                       uint64_t *losses, size_t loss_count);
enum dmf_status dmf_session_node_losses(const dmf_session *session, const uint32_t *nodes, size_t node_count,
                                        uint64_t *losses, size_t loss_count);

/* What two arcs are worth together: losses[k] becomes how much less the greatest value is if only arcs firsts[k] and seconds[k] are
 * closed, which may be the same arc. The three lengths must be the same, or the answer is DMF_BAD_LENGTH. DMF_NO_SUCH_ARC,
 * whatever the flow is. DMF_NOT_GREATEST as above. Let pairs with the same first arc stand together: that is much faster. */
enum dmf_status dmf_session_pair_losses(const dmf_session *session, const uint32_t *firsts, size_t first_count,
                                        const uint32_t *seconds, size_t second_count,
                                        uint64_t *losses, size_t loss_count);

/* The arcs, the nodes other than the source and the sink, or the pairs of arcs whose loss is greatest, the greatest first.
 * Equal losses are in the order of the numbers; pairs have firsts[k] < seconds[k], and are in the order of firsts[k], then of
 * seconds[k]. `among` chooses the arcs that may be listed, also in pairs: arc j only if among[j - 1] is not 0. `among_count` is
 * dmf_session_arcs(session), or 0 for all arcs. The other lengths must be the same. Otherwise the answer is DMF_BAD_LENGTH,
 * whatever the flow is. DMF_NOT_GREATEST as above. *found becomes how many elements of each array are written, from index 0 on:
 * all, or as many as there are such arcs, nodes or pairs. The other elements are unchanged. A short list takes less time than a
 * long one. */
enum dmf_status dmf_session_worst_arcs(const dmf_session *session, const uint8_t *among, size_t among_count,
                                       uint32_t *arcs, size_t arc_count,
                                       uint64_t *losses, size_t loss_count, size_t *found);
enum dmf_status dmf_session_worst_nodes(const dmf_session *session, uint32_t *nodes, size_t node_count,
                                        uint64_t *losses, size_t loss_count, size_t *found);
enum dmf_status dmf_session_worst_pairs(const dmf_session *session, const uint8_t *among, size_t among_count,
                                        uint32_t *firsts, size_t first_count,
                                        uint32_t *seconds, size_t second_count,
                                        uint64_t *losses, size_t loss_count, size_t *found);

/* What a second arc would bring: gains[k] becomes how much greater the greatest value is if only an open arc with the ends and the
 * capacity of arc arcs[k] is added, 0 for a closed arc. Or what a new arc would bring: how much greater it is if only an arc
 * from tails[k] to heads[k] of capacity capacities[k] is added. The lengths must be the same, or the answer is DMF_BAD_LENGTH.
 * DMF_NO_SUCH_ARC or DMF_NO_SUCH_NODE, whatever the flow is. DMF_NOT_GREATEST as above. DMF_TOO_MANY_ARCS or DMF_SUM_TOO_LARGE
 * only if the network cannot take four more arcs for each of these, of its capacity: then ask for fewer at once. One call for many
 * arcs is much faster than to add each and solve. */
enum dmf_status dmf_session_second_gains(const dmf_session *session, const uint32_t *arcs, size_t arc_count,
                                         uint64_t *gains, size_t gain_count);
enum dmf_status dmf_session_new_arc_gains(const dmf_session *session, const uint32_t *tails, size_t tail_count,
                                          const uint32_t *heads, size_t head_count,
                                          const uint64_t *capacities, size_t capacity_count,
                                          uint64_t *gains, size_t gain_count);

/* Each does the same as the call without _until in its name, unless the flag of `stop` is raised before it is done. Then the answer
 * is DMF_STOPPED, and nothing is written. The flag is looked at before each arc, node or pair is valued, and it stays raised.
 * DMF_BAD_LENGTH, DMF_NO_SUCH_ARC, DMF_NO_SUCH_NODE and DMF_NOT_GREATEST are answered whether or not it is raised. If there is
 * nothing to value, the answer may be DMF_OK although it is raised. */
enum dmf_status dmf_session_arc_losses_until(const dmf_session *session, const uint32_t *arcs, size_t arc_count,
                                             uint64_t *losses, size_t loss_count, dmf_stop *stop);
enum dmf_status dmf_session_node_losses_until(const dmf_session *session, const uint32_t *nodes, size_t node_count,
                                              uint64_t *losses, size_t loss_count, dmf_stop *stop);
enum dmf_status dmf_session_pair_losses_until(const dmf_session *session, const uint32_t *firsts, size_t first_count,
                                              const uint32_t *seconds, size_t second_count,
                                              uint64_t *losses, size_t loss_count, dmf_stop *stop);
enum dmf_status dmf_session_worst_arcs_until(const dmf_session *session, const uint8_t *among, size_t among_count,
                                             uint32_t *arcs, size_t arc_count,
                                             uint64_t *losses, size_t loss_count, size_t *found, dmf_stop *stop);
enum dmf_status dmf_session_worst_nodes_until(const dmf_session *session, uint32_t *nodes, size_t node_count,
                                              uint64_t *losses, size_t loss_count, size_t *found, dmf_stop *stop);
enum dmf_status dmf_session_worst_pairs_until(const dmf_session *session, const uint8_t *among, size_t among_count,
                                              uint32_t *firsts, size_t first_count,
                                              uint32_t *seconds, size_t second_count,
                                              uint64_t *losses, size_t loss_count, size_t *found, dmf_stop *stop);
enum dmf_status dmf_session_second_gains_until(const dmf_session *session, const uint32_t *arcs, size_t arc_count,
                                               uint64_t *gains, size_t gain_count, dmf_stop *stop);
enum dmf_status dmf_session_new_arc_gains_until(const dmf_session *session, const uint32_t *tails, size_t tail_count,
                                                const uint32_t *heads, size_t head_count,
                                                const uint64_t *capacities, size_t capacity_count,
                                                uint64_t *gains, size_t gain_count, dmf_stop *stop);

/* Judges `count` flows, one for each arc, of the present network; the session's own flow does not matter. DMF_OK: they are a
 * maximum flow. DMF_OVER_CAPACITY: *place is the number of the first arc with too much. DMF_NOT_CONSERVED: *place is the number
 * of the first node at which flow is lost or made. DMF_NEGATIVE. DMF_NOT_GREATEST: they are a flow, and some flow has a larger
 * value. DMF_BAD_LENGTH if `count` is not dmf_session_arcs(session). *place is 0 if no place is named. */
enum dmf_status dmf_session_check(const dmf_session *session, const uint64_t *flows, size_t count, uint64_t *place);

/* The problem text of the open arcs, or the solution text, into `room` bytes. *length becomes the length of the whole text,
 * unless the answer is DMF_NO_MEMORY, which leaves it unchanged. If it exceeds `room`, the answer is DMF_BAD_LENGTH, and
 * nothing is written: so ask first with a room of 0 bytes, and then with that length. No 0 is added. */
enum dmf_status dmf_session_problem(const dmf_session *session, uint8_t *text, size_t room, size_t *length);
enum dmf_status dmf_session_solution(const dmf_session *session, uint8_t *text, size_t room, size_t *length);

#ifdef __cplusplus
}
#endif

#endif
