/* One thread ends the solve of another, by a flag that each holds by a stop of its own. Its arguments are a file with a problem
 * text, which takes some seconds to solve, and after how many milliseconds the flag is raised, or `after` for a raise once it is
 * solved. Prints what the solve answered, and how many microseconds of processor time it took after the raise. */
#define _POSIX_C_SOURCE 200809L
#include <dmf.h>
#include <pthread.h>
#include <stdio.h>
#include <stdlib.h>
#include <string.h>
#include <time.h>

static struct timespec raised;
static clockid_t solving;

static void fail(const char *what)
{
    fprintf(stderr, "%s\n", what);
    exit(1);
}

struct later {
    dmf_stop *stop;
    long milliseconds;
};

static void *raise_later(void *given)
{
    struct later *later = given;
    struct timespec pause = {later->milliseconds / 1000, later->milliseconds % 1000 * 1000000};
    nanosleep(&pause, NULL);
    clock_gettime(solving, &raised);
    dmf_stop_raise(later->stop);
    dmf_stop_free(later->stop);
    return NULL;
}

static dmf_session *opened(const char *path)
{
    FILE *file = fopen(path, "rb");
    static uint8_t text[1 << 25];
    size_t length = file ? fread(text, 1, sizeof text, file) : 0;
    dmf_session *session;
    uint64_t line;
    uint32_t fault;
    if (!file || fclose(file) != 0 || dmf_session_read(text, length, 9, &session, &line, &fault) != DMF_OK)
        fail("no session");
    return session;
}

int main(int count, char **words)
{
    struct later later;
    dmf_stop *stop;
    dmf_session *session;
    pthread_t thread;
    struct timespec ended;
    enum dmf_status answer;
    int is_after;
    if (count != 3)
        fail("usage: stops PROBLEM MILLISECONDS|after");
    session = opened(words[1]);
    if (dmf_stop_new(&stop) != DMF_OK || dmf_stop_share(stop, &later.stop) != DMF_OK)
        fail("no stop");
    is_after = strcmp(words[2], "after") == 0;
    later.milliseconds = is_after ? 0 : atol(words[2]);
    if (pthread_getcpuclockid(pthread_self(), &solving) != 0)
        fail("no clock");
    if (!is_after && pthread_create(&thread, NULL, raise_later, &later) != 0)
        fail("no thread");
    answer = dmf_session_solve_until(session, stop);
    clock_gettime(solving, &ended);
    if (is_after && pthread_create(&thread, NULL, raise_later, &later) != 0)
        fail("no thread");
    if (pthread_join(thread, NULL) != 0)
        fail("no thread");
    if (answer == DMF_STOPPED && (dmf_session_value(session) != 0 || dmf_session_past(session) != 0))
        fail("a stopped solve changed the session");
    printf("%s %ld\n", dmf_status_text((int)answer), (ended.tv_sec - raised.tv_sec) * 1000000 + (ended.tv_nsec - raised.tv_nsec) / 1000);
    dmf_stop_free(stop);
    dmf_stop_free(NULL);
    dmf_session_free(session);
    return 0;
}
