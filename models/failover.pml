/* Failover of the database server: a log, its standby, and nodes that write to the server.
 *
 * A chunk is known by its number. The server answers a commit only if the standby has the chunk;
 * with ASYNCHRONOUS it does not wait, and chunks may be lost. The server that takes over has
 * another timeline, and at least what the standby has. Leases decide nothing here: a takeover of
 * the shard may happen at any time, within its budget.
 */
#include "properties.pml"
#ifndef FAILOVERS
#define FAILOVERS 1
#endif
#ifndef TAKEOVERS
#define TAKEOVERS 1
#endif
#ifndef LOSSES
#define LOSSES 1
#endif
#ifndef CHUNKS
#define CHUNKS 3
#endif

#define NO_NODE 2
/* a commit under way */
#define SENT 1
#define WRITTEN 2
#define REFUSED 3

typedef Log { byte chunk[CHUNKS]; byte count; byte epoch; byte owner };
Log server, standby;                   /* the server that accepts commits, and its standby */
byte timeline;
byte acknowledged[CHUNKS], acknowledged_count;  /* ghost */
byte left_at_failover = CHUNKS;        /* ghost: what the new server has */
byte writer = NO_NODE;                 /* ghost */
byte serial = 1;

byte node_epoch[2], node_timeline[2], known_count[2], commit_state[2], pending[2], first[2];
byte commit_timeline[2], known_last[2];
bit drives[2];
byte failovers_left = FAILOVERS, takeovers_left = TAKEOVERS, losses_left = LOSSES;

inline copy_log(to, from) {
  k = 0;
  do
  :: k < CHUNKS -> to.chunk[k] = from.chunk[k]; k = k + 1
  :: else -> break
  od;
  k = 0; to.count = from.count; to.epoch = from.epoch; to.owner = from.owner
}

#ifdef no_server_check
#define SERVER_FITS(i) true
#else
#define SERVER_FITS(i) (node_timeline[i] == timeline)
#endif
#ifdef no_fence
#define EPOCH_FITS(i) true
#else
#define EPOCH_FITS(i) (node_epoch[i] == server.epoch && server.owner == i)
#endif
#if defined(ASYNCHRONOUS) || defined(answers_early)
#define STANDBY_HAS(n) true
#else
#define STANDBY_HAS(n) (failovers_left == 0 || standby.count >= n)
#endif

proctype node(byte i) {
  byte k;
  do
  :: atomic { takeovers_left > 0 && server.owner != i ->
       takeovers_left = takeovers_left - 1; server.owner = i; server.epoch = server.epoch + 1;
       writer = NO_NODE }
  :: atomic { !drives[i] && server.owner == i && server.count < CHUNKS ->
       server.epoch = server.epoch + 1; writer = NO_NODE;
       node_epoch[i] = server.epoch; node_timeline[i] = timeline; known_count[i] = server.count;
       drives[i] = 1; commit_state[i] = 0; pending[i] = 0 }
  /* -- a chunk, after what this node knows; only after the answer to the one before */
  :: atomic { drives[i] && commit_state[i] == 0 && known_count[i] < CHUNKS ->
       pending[i] = serial; serial = serial + 1; first[i] = known_count[i];
       commit_state[i] = SENT }
  :: atomic { commit_state[i] == SENT ->
       if
       :: EPOCH_FITS(i) && SERVER_FITS(i) ->
          require(ONE_WRITER, writer == NO_NODE || writer == i);
          writer = i;
          require(KEPT, server.count == first[i]);
          server.chunk[server.count] = pending[i]; server.count = server.count + 1;
          commit_state[i] = WRITTEN; commit_timeline[i] = timeline
       :: else -> commit_state[i] = REFUSED
       fi }
  /* the answer: of the same server, when the standby has the chunk */
  :: atomic { commit_state[i] == WRITTEN && commit_timeline[i] == timeline &&
       STANDBY_HAS(first[i] + 1) ->
       known_count[i] = first[i] + 1;
       acknowledged[first[i]] = pending[i];
       if
       :: acknowledged_count < known_count[i] -> acknowledged_count = known_count[i]
       :: else
       fi;
       commit_state[i] = 0; pending[i] = 0 }
  :: atomic { commit_state[i] == REFUSED -> commit_state[i] = 0; pending[i] = 0; drives[i] = 0 }
  /* the answer is lost, or its server is gone: the shard is loaded again */
  :: atomic { commit_state[i] != 0 && losses_left > 0 ->
       losses_left = losses_left - 1;
#ifdef no_load_after_loss
       known_count[i] = first[i];
#else
       drives[i] = 0;
#endif
       commit_state[i] = 0; pending[i] = 0 }
  :: atomic { commit_state[i] == WRITTEN && commit_timeline[i] != timeline ->
       commit_state[i] = 0; pending[i] = 0; drives[i] = 0 }
  :: atomic { drives[i] && commit_state[i] == 0 &&
       (server.owner != i || node_timeline[i] != timeline) -> drives[i] = 0 }
  od
}

proctype world() {
  byte k;
  do
  :: atomic { failovers_left > 0 && standby.count < server.count ->
       k = standby.count;
       standby.chunk[k] = server.chunk[k]; standby.count = k + 1; k = 0 }
  :: atomic { failovers_left > 0 -> standby.epoch = server.epoch; standby.owner = server.owner;
       failovers_left = failovers_left - 1;
#ifdef promotes_any
       if
       :: standby.count > 0 -> standby.count = standby.count - 1;
          standby.chunk[standby.count] = 0
       :: else
       fi;
#endif
       left_at_failover = standby.count;
       copy_log(server, standby);
       timeline = timeline + 1;
       writer = NO_NODE }
  :: atomic { timeout ->
#ifndef ASYNCHRONOUS
       k = 0;
       do
       :: k < acknowledged_count ->
          require(KEPT, k < server.count &&
            (acknowledged[k] == 0 || server.chunk[k] == acknowledged[k]));
          k = k + 1
       :: else -> break
       od;
#endif
       require(DRIVEN, server.count == CHUNKS);
       break }
  od
}

init {
  atomic {
    server.epoch = 1; drives[0] = 1; node_epoch[0] = 1;
    choose_budget(takeovers_left); choose_budget(losses_left); choose_budget(failovers_left);
    run node(0); run node(1); run world()
  }
}
