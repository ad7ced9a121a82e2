/* External compensations, and what follows the last failure (`on_exhausted`).
 *
 * One saga whose only committed step is undone by workers. Its node may crash, and the next one
 * loads the shard. A worker fails at most FAILURES times. After TRIES failures, the compensation is
 * called again (ON_EXHAUSTED 0), waits for an operator (1), or counts as failed (2).
 */
#include "properties.pml"
#ifndef TRIES
#define TRIES 2
#endif
#ifndef FAILURES
#define FAILURES 2
#endif
#ifndef CRASHES
#define CRASHES 1
#endif
#ifndef LAPSES
#define LAPSES 1
#endif
#ifndef ON_EXHAUSTED
#define ON_EXHAUSTED 0
#endif
#define RETRY 0
#define ASK 1
#define FAIL 2

/* the step in the log */
#define COMMITTED 0
#define UNDOING 1
#define UNDONE 2
#define UNDO_FAILED 3
/* the attempt, as its node knows it */
#define NO_ATTEMPT 0
#define START_PENDING 1
#define TO_OFFER 2
#define OFFERED 3
#define TO_SUSPEND 4
#define FOR_RETRY 5
#define TO_PERSON 6
#define FOR_PERSON 7
#define HAS_SUCCEEDED 8
#define HAS_FAILED 9
#define UNKNOWN_PENDING 10
/* its row, and its suspension */
#define NO_ROW 0
#define ROW_OPEN 1
#define ROW_UNKNOWN 2
#define ROW_SUCCEEDED 3
#define ROW_FAILED 4
#define ROW_SUSPENDED 5
#define ROW_PERSON 6
#define ROW_SETTLED 7
#define AFTER_FAILURE 1
#define AFTER_UNKNOWN 2
#define BY_PERSON 3
/* commits */
#define START_UNDO 1
#define STORE_SUCCESS 2
#define STORE_FAILURE 3
#define STORE_LAST_FAILURE 4
#define PUT_OFFER 5
#define PUT_FOR_RETRY 6
#define PUT_UNKNOWN 7
#define PUT_PERSON 8

byte log_step, log_attempt, epoch = 1, row, suspension, lease;
bit is_leased, has_ended;
bit effect = 1;                         /* ghost: the effect of the step */
bit is_done_acknowledged, has_person_failed;    /* ghost */
byte node_epoch = 1, attempt, operation;
bit is_answered, is_ok;
byte late_operation, late_epoch, late_attempt;
byte failures_left = FAILURES, doubts_left = 1, crashes_left = CRASHES, lapses_left = LAPSES;
byte answers_left = 1;                  /* of the operator */

inline execute(operation_, epoch_, ok_) {
  ok_ = (epoch_ == epoch);
#ifdef no_fence
  ok_ = 1;
#endif
  if
  :: (operation_ == STORE_FAILURE || operation_ == STORE_LAST_FAILURE) && row == ROW_SUCCEEDED ->
     ok_ = 0
  :: else
  fi;
  if
  :: ok_ && operation_ == START_UNDO ->
     log_step = UNDOING; log_attempt = log_attempt + 1; row = ROW_OPEN; lease = 0; is_leased = 0;
     suspension = 0; is_done_acknowledged = 0
  :: ok_ && operation_ == STORE_SUCCESS -> log_step = UNDONE; row = ROW_SETTLED; has_ended = 1
  :: ok_ && operation_ == STORE_FAILURE ->
     require(DONE_IS_KEPT, !is_done_acknowledged);
     log_step = COMMITTED; row = ROW_SETTLED
  :: ok_ && operation_ == STORE_LAST_FAILURE ->
     require(DONE_IS_KEPT, !is_done_acknowledged);
     log_step = UNDO_FAILED; row = ROW_SETTLED; has_ended = 1
  :: ok_ && operation_ == PUT_OFFER ->
     if
     :: row == NO_ROW || row == ROW_SUSPENDED || row == ROW_PERSON -> row = ROW_OPEN; is_leased = 0
     :: else
     fi
  :: ok_ && operation_ >= PUT_FOR_RETRY ->
     if
     :: row == ROW_OPEN || row == ROW_UNKNOWN || row == ROW_SUSPENDED || row == ROW_FAILED ->
        is_leased = 0;
        if
        :: operation_ == PUT_PERSON -> row = ROW_PERSON
        :: else -> row = ROW_SUSPENDED
        fi
     :: else
     fi;
     if
     :: operation_ == PUT_FOR_RETRY -> suspension = AFTER_FAILURE
     :: operation_ == PUT_UNKNOWN -> suspension = AFTER_UNKNOWN
     :: operation_ == PUT_PERSON -> suspension = BY_PERSON
     fi
  :: else
  fi;
  if
  :: ok_ && has_ended ->
     require(EFFECT_IF_COMMITTED, effect == (log_step == UNDO_FAILED));
     require(EFFECT_IF_COMMITTED, log_step != UNDO_FAILED || ON_EXHAUSTED == FAIL ||
       has_person_failed)
  :: else
  fi
}

/* after_failure: the engine knows of a failure only if it decides what follows */
inline handle_failure() {
  if
  :: log_attempt < TRIES || has_person_failed -> attempt = HAS_FAILED
  :: log_attempt >= TRIES && !has_person_failed ->
#ifdef fails_when_exhausted
     attempt = HAS_FAILED
#else
     if
     :: ON_EXHAUSTED == RETRY -> attempt = TO_SUSPEND
     :: ON_EXHAUSTED == ASK -> attempt = TO_PERSON
     :: ON_EXHAUSTED == FAIL -> attempt = HAS_FAILED
     fi
#endif
  fi
}

inline load_shard() {
  epoch = epoch + 1; node_epoch = epoch;
  if
  :: log_step != UNDOING -> attempt = NO_ATTEMPT
  :: log_step == UNDOING && suspension == 0 -> attempt = TO_OFFER
  :: log_step == UNDOING && suspension == BY_PERSON -> attempt = FOR_PERSON
  :: log_step == UNDOING && (suspension == AFTER_FAILURE || suspension == AFTER_UNKNOWN) ->
     attempt = FOR_RETRY
  fi;
#ifdef forgets_suspension
  if
  :: attempt == FOR_RETRY -> attempt = OFFERED
  :: else
  fi;
#endif
  operation = 0; is_answered = 0; is_ok = 0
}

#define MAY_DECIDE (operation == 0 && !has_ended)

active proctype node() {
  bit ok;
  do
  :: atomic { operation != 0 && !is_answered ->
       execute(operation, node_epoch, ok); is_answered = 1; is_ok = ok; ok = 0 }
  :: atomic { operation != 0 && is_answered ->
       if
       :: !is_ok -> load_shard()
       :: is_ok && (operation == START_UNDO || operation == PUT_OFFER) -> attempt = OFFERED
       :: is_ok && (operation == PUT_FOR_RETRY || operation == PUT_UNKNOWN) -> attempt = FOR_RETRY
       :: is_ok && operation == PUT_PERSON -> attempt = FOR_PERSON
       :: is_ok && operation >= STORE_SUCCESS && operation <= STORE_LAST_FAILURE ->
          attempt = NO_ATTEMPT
       fi;
       operation = 0; is_answered = 0; is_ok = 0 }
  :: atomic { MAY_DECIDE && attempt == NO_ATTEMPT && log_step == COMMITTED ->
       attempt = START_PENDING; operation = START_UNDO }
  :: atomic { MAY_DECIDE && attempt == TO_OFFER -> operation = PUT_OFFER }
  :: atomic { MAY_DECIDE && attempt == TO_SUSPEND -> operation = PUT_FOR_RETRY }
  :: atomic { MAY_DECIDE && attempt == UNKNOWN_PENDING -> operation = PUT_UNKNOWN }
  :: atomic { MAY_DECIDE && attempt == TO_PERSON -> operation = PUT_PERSON }
  :: atomic { MAY_DECIDE && attempt == HAS_SUCCEEDED -> operation = STORE_SUCCESS }
  :: atomic { MAY_DECIDE && attempt == HAS_FAILED && log_attempt < TRIES ->
       operation = STORE_FAILURE }
  :: atomic { MAY_DECIDE && attempt == HAS_FAILED && log_attempt >= TRIES ->
       operation = STORE_LAST_FAILURE }
  :: atomic { MAY_DECIDE && attempt == FOR_RETRY -> attempt = TO_OFFER }   /* the pause is over */
  :: atomic { MAY_DECIDE && (attempt == OFFERED || attempt == TO_OFFER) && row == ROW_UNKNOWN ->
       attempt = UNKNOWN_PENDING }
  :: atomic { MAY_DECIDE && (attempt == OFFERED || attempt == TO_OFFER || attempt == FOR_RETRY ||
       attempt == FOR_PERSON) && row == ROW_SUCCEEDED -> attempt = HAS_SUCCEEDED }
  :: atomic { MAY_DECIDE && (attempt == OFFERED || attempt == TO_OFFER) && row == ROW_FAILED ->
       handle_failure() }
  /* an operator repaired the effect, reports a failure, or retries the call */
  :: atomic { MAY_DECIDE && attempt == FOR_PERSON && answers_left > 0 ->
       answers_left = answers_left - 1;
       if
       :: effect = 0; attempt = HAS_SUCCEEDED
       :: effect -> has_person_failed = 1; attempt = HAS_FAILED
       :: attempt = TO_SUSPEND
       fi }
  od
}

#define HAS_TASK 1
#define WORK_DONE 2
#define WORK_NOT_DONE 3
#define WORK_IN_DOUBT 4
#define MAY_ACT (held_lease == lease && held_attempt == log_attempt && log_step == UNDOING && \
  row != ROW_SETTLED)
#ifdef counts_old_leases
#define LEASE_COUNTS true
#else
#define LEASE_COUNTS (held_lease == lease)
#endif
proctype worker() {
  byte work, held_lease, held_attempt;
  do
  :: atomic { work == 0 && row == ROW_OPEN && !is_leased ->
       require(NOTHING_AFTER_END, !has_ended);
       is_leased = 1; lease = lease + 1; held_lease = lease; held_attempt = log_attempt;
       work = HAS_TASK }
  :: atomic { work == HAS_TASK && (!effect || MAY_ACT) ->
       require(NOTHING_AFTER_END, !effect || !has_ended);
       effect = 0; work = WORK_DONE }
  :: atomic { work == HAS_TASK && effect && failures_left > 0 ->
       failures_left = failures_left - 1; work = WORK_NOT_DONE }
  :: atomic { (work == HAS_TASK || work == WORK_DONE) && doubts_left > 0 ->
       doubts_left = doubts_left - 1; work = WORK_IN_DOUBT }
  :: atomic { work == WORK_DONE ->
       if
       :: held_attempt == log_attempt && (row == ROW_OPEN || row == ROW_UNKNOWN ||
          row == ROW_SUSPENDED || row == ROW_FAILED) ->
          row = ROW_SUCCEEDED; is_done_acknowledged = 1
       :: else
       fi;
       work = 0; held_lease = 0; held_attempt = 0 }
  :: atomic { work == WORK_NOT_DONE || work == WORK_IN_DOUBT ->
       if
       :: held_attempt == log_attempt && LEASE_COUNTS && row == ROW_OPEN ->
          if
          :: work == WORK_NOT_DONE -> row = ROW_FAILED
          :: else -> row = ROW_UNKNOWN
          fi
       :: else
       fi;
       work = 0; held_lease = 0; held_attempt = 0 }
  od
}

proctype world() {
  bit ok;
  do
  :: atomic { crashes_left > 0 ->
       crashes_left = crashes_left - 1;
       if
       :: operation != 0 && !is_answered ->
          late_operation = operation; late_epoch = node_epoch
       :: else
       fi;
       load_shard() }
  :: atomic { late_operation != 0 ->
       execute(late_operation, late_epoch, ok); late_operation = 0; late_epoch = 0; ok = 0 }
  :: atomic { lapses_left > 0 && is_leased -> lapses_left = lapses_left - 1; is_leased = 0 }
  :: atomic { timeout ->
       require(ENDS_OR_WAITS, has_ended || (row == ROW_PERSON && suspension == BY_PERSON));
       break }
  od
}

init {
  atomic {
    choose_budget(crashes_left); choose_budget(lapses_left); choose_budget(failures_left);
    choose_budget(answers_left);
    run worker();
#if WORKERS > 1
    run worker();
#endif
    run world()
  }
}
