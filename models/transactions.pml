/* Transactional steps: a function whose effect and record are one transaction of the database.
 *
 * Two nodes, one shard, one saga with one such step. The transaction has the fence of the shard,
 * and its answer may be lost. Then the shard is loaded again, and the transaction may be committed
 * late. A takeover may happen at any time. Commits of the shard are one step of its owner here,
 * because external.pml and commits.pml check them.
 */
#include "properties.pml"
#ifndef TAKEOVERS
#define TAKEOVERS 1
#endif
#ifndef LOSSES
#define LOSSES 1
#endif
#ifndef FAILURES
#define FAILURES 1
#endif

/* the step in the log */
#define WAITING 0
#define STARTED 1
#define COMMITTED 2
#define FAILED 3
/* the attempt, as a node knows it */
#define NO_ATTEMPT 0
#define TO_CALL 1
#define CALL_RUNS 2
#define TRANSACTION_SENT 3
#define HAS_SUCCEEDED 4
#define HAS_FAILED 5
#define UNKNOWN 6

byte owner, epoch = 1, log_step, effects;
bit has_record, has_ended;
byte node_epoch[2], attempt[2];
bit drives[2], is_answered[2], is_ok[2];
bit is_late; byte late_epoch;
byte takeovers_left = TAKEOVERS, losses_left = LOSSES, failures_left = FAILURES;

#ifdef no_fence
#define FITS(epoch_) true
#else
#define FITS(epoch_) (epoch_ == epoch)
#endif

/* RECORD and COMMIT: the record is refused if the fence does not fit, or if there is one */
inline commit_step(epoch_, ok_) {
  if
#ifdef no_record
  :: FITS(epoch_) -> effects = effects + 1; ok_ = 1
#else
  :: FITS(epoch_) && !has_record -> has_record = 1; effects = effects + 1; ok_ = 1
#endif
  :: else -> ok_ = 0
  fi
}

#define OWNS(i) (drives[i] && owner == i && node_epoch[i] == epoch)

inline load_shard(i_) {
#ifndef loads_without_epoch
  epoch = epoch + 1;
#endif
  node_epoch[i_] = epoch; drives[i_] = 1;
  if
  :: log_step != STARTED -> attempt[i_] = NO_ATTEMPT
#ifdef forgets_record
  :: log_step == STARTED -> attempt[i_] = TO_CALL
#else
  :: log_step == STARTED && has_record -> attempt[i_] = HAS_SUCCEEDED
  :: log_step == STARTED && !has_record -> attempt[i_] = TO_CALL
#endif
  fi;
  is_answered[i_] = 0; is_ok[i_] = 0
}

proctype node(byte i) {
  bit ok;
  do
  :: atomic { takeovers_left > 0 && owner != i && !has_ended ->
       takeovers_left = takeovers_left - 1; owner = i; epoch = epoch + 1; load_shard(i) }
  :: atomic { drives[i] && owner == i && attempt[i] == UNKNOWN && !has_ended -> load_shard(i) }
  :: atomic { drives[i] && owner != i && attempt[i] != TRANSACTION_SENT ->
       drives[i] = 0; attempt[i] = NO_ATTEMPT }
  /* -- the engine: commits of the shard */
  :: atomic { OWNS(i) && log_step == WAITING -> log_step = STARTED; attempt[i] = TO_CALL }
  :: atomic { OWNS(i) && attempt[i] == HAS_SUCCEEDED && log_step == STARTED ->
       log_step = COMMITTED; attempt[i] = NO_ATTEMPT }
  :: atomic { OWNS(i) && attempt[i] == HAS_FAILED && log_step == STARTED ->
       log_step = FAILED; attempt[i] = NO_ATTEMPT }
  :: atomic { OWNS(i) && log_step > STARTED && !has_ended ->
       has_ended = 1;
       require(EFFECT_IF_COMMITTED, effects == (log_step == COMMITTED)) }
  /* -- the function */
  :: atomic { drives[i] && attempt[i] == TO_CALL -> attempt[i] = CALL_RUNS }
  :: atomic { attempt[i] == CALL_RUNS && failures_left > 0 ->
       failures_left = failures_left - 1; attempt[i] = HAS_FAILED }
  :: atomic { attempt[i] == CALL_RUNS -> attempt[i] = TRANSACTION_SENT; is_answered[i] = 0 }
  :: atomic { attempt[i] == TRANSACTION_SENT && !is_answered[i] ->
       commit_step(node_epoch[i], ok);
       require(NOTHING_AFTER_END, !ok || !has_ended);
       is_answered[i] = 1; is_ok[i] = ok; ok = 0 }
  :: atomic { attempt[i] == TRANSACTION_SENT && is_answered[i] ->
       if
       :: is_ok[i] -> attempt[i] = HAS_SUCCEEDED
       :: else -> attempt[i] = UNKNOWN
       fi;
       is_answered[i] = 0; is_ok[i] = 0 }
  /* the answer is lost: the transaction may be committed later */
  :: atomic { attempt[i] == TRANSACTION_SENT && losses_left > 0 && !is_late ->
       losses_left = losses_left - 1;
       if
       :: !is_answered[i] -> is_late = 1; late_epoch = node_epoch[i]
       :: else
       fi;
       attempt[i] = UNKNOWN; is_answered[i] = 0; is_ok[i] = 0 }
  od
}

active proctype world() {
  bit ok;
  do
  :: atomic { is_late ->
       commit_step(late_epoch, ok);
       require(NOTHING_AFTER_END, !ok || !has_ended);
       is_late = 0; late_epoch = 0; ok = 0 }
  :: atomic { timeout -> require(ENDS_OR_WAITS, has_ended); break }
  od
}

init {
  atomic {
    drives[0] = 1; node_epoch[0] = 1;
    choose_budget(takeovers_left); choose_budget(losses_left); choose_budget(failures_left);
    run node(0); run node(1)
  }
}
