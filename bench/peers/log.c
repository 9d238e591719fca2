/* Commits entries one at a time in libraft's fixture in memory: no message is encoded, no text read or printed.
 *
 *     log SERVERS ENTRIES
 *
 * Ends with 0 once each server has applied each entry.
 */
#include <raft.h>
#include <raft/fixture.h>
#include <stdio.h>
#include <stdlib.h>
#include <string.h>

static unsigned long applied;

static int apply(struct raft_fsm *fsm, const struct raft_buffer *buf, void **result) {
    (void)fsm;
    (void)buf;
    *result = NULL;
    applied++;
    return 0;
}

static int snapshot(struct raft_fsm *fsm, struct raft_buffer *bufs[], unsigned *n_bufs) {
    (void)fsm;
    *n_bufs = 1;
    *bufs = raft_malloc(sizeof **bufs);
    if (*bufs == NULL) return RAFT_NOMEM;
    (*bufs)[0].len = 8;
    (*bufs)[0].base = raft_calloc(1, 8);
    return (*bufs)[0].base == NULL ? RAFT_NOMEM : 0;
}

static int restore(struct raft_fsm *fsm, struct raft_buffer *buf) {
    (void)fsm;
    raft_free(buf->base);
    return 0;
}

static void freed(struct raft_apply *request, int status, void *result) {
    (void)status;
    (void)result;
    free(request);
}

int main(int argc, char **argv) {
    if (argc != 3) return 2;
    unsigned servers = (unsigned)atoi(argv[1]);
    unsigned long entries = strtoul(argv[2], NULL, 10);
    static struct raft_fixture fixture;
    static struct raft_fsm machines[7];
    struct raft_configuration configuration;
    for (unsigned i = 0; i < servers; i++) {
        machines[i].version = 1;
        machines[i].apply = apply;
        machines[i].snapshot = snapshot;
        machines[i].restore = restore;
    }
    if (raft_fixture_initialize(&fixture) != 0) return 3;
    for (unsigned i = 0; i < servers; i++)
        if (raft_fixture_grow(&fixture, &machines[i]) != 0) return 3;
    /* The fixture copies its whole log for each entry that joins it, so the log is kept short. */
    for (unsigned i = 0; i < servers; i++) {
        raft_set_snapshot_threshold(raft_fixture_get(&fixture, i), 64);
        raft_set_snapshot_trailing(raft_fixture_get(&fixture, i), 16);
    }
    if (raft_fixture_configuration(&fixture, servers, &configuration) != 0) return 3;
    if (raft_fixture_bootstrap(&fixture, &configuration) != 0) return 3;
    raft_configuration_close(&configuration);
    if (raft_fixture_start(&fixture) != 0) return 3;
    raft_fixture_elect(&fixture, 0);
    struct raft *leader = raft_fixture_get(&fixture, 0);
    for (unsigned long i = 0; i < entries; i++) {
        struct raft_buffer buffer = {raft_calloc(1, 64), 64};
        struct raft_apply *request = malloc(sizeof *request);
        if (buffer.base == NULL || request == NULL) return 3;
        if (raft_apply(leader, request, &buffer, 1, freed) != 0) return 4;
        if (!raft_fixture_step_until_applied(&fixture, servers, raft_last_index(leader), 10000)) return 5;
    }
    printf("%lu\n", applied);
    return 0;
}
