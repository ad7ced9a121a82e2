/* The last failure of an external action (`on_exhausted`), and an abort before or after it.
 *
 * One saga with one step. Its node may crash, and the next one loads the shard. After TRIES
 * failures, the action is called again (ON_EXHAUSTED 0), waits for an operator (1), or has failed
 * (2). An abort drains the saga: a failed attempt ends, and one in doubt is called again.
 */
#include "properties.pml"
#ifndef TRIES
#define TRIES 1
#endif
#ifndef FAILURES
#define FAILURES 2
#endif
#ifndef CRASHES
#define CRASHES 1
#endif
#ifndef LAPSES
#define LAPSES 1
#endif
#ifndef ABORTS
#define ABORTS 1
#endif
#ifndef ON_EXHAUSTED
#define ON_EXHAUSTED 0
#endif
#define RETRY 0
#define ASK 1
#define FAIL 2

/* the step in the log */
#define WAITING 0
#define STARTED 1
#define COMMITTED 2
#define FAILED 3
#define UNDONE 4
/* the attempt, as its node knows it */
#define NO_ATTEMPT 0
#define START_PENDING 1
#define TO_OFFER 2
#define OFFERED 3
#define TO_SUSPEND 4
#define FOR_RETRY 5
#define TO_PERSON 6
#define FOR_PERSON 7
#define DOUBT_PENDING 8
#define IN_DOUBT 9
#define HAS_SUCCEEDED 10
#define HAS_FAILED 11
/* its row, and its suspension */
#define NO_ROW 0
#define ROW_OPEN 1
#define ROW_UNKNOWN 2
#define ROW_SUCCEEDED 3
#define ROW_FAILED 4
#define ROW_SUSPENDED 5
#define ROW_PERSON 6
#define ROW_SETTLED 7
#define AFTER_FAILURE 1
#define AFTER_UNKNOWN 2
#define BY_PERSON 3
/* commits */
#define START 1
#define STORE_SUCCESS 2
#define STORE_FAILURE 3
#define PUT_OFFER 4
#define PUT_FOR_RETRY 5
#define PUT_UNKNOWN 6
#define PUT_PERSON 7
#define ABORT_SAGA 8
#define END_SAGA 9

byte log_step, log_attempt, epoch = 1, row, suspension, lease;
bit is_leased, is_aborted, has_ended;
bit effect, is_done_acknowledged;       /* ghost */
byte node_epoch = 1, attempt, operation;
bit is_answered, is_ok, abort_requested, drains;
bit has_unknown_call;                   /* an earlier node may have repeated the call */
bit is_by_hand;                         /* what an operator did counts once the report is stored */
byte late_operation, late_epoch;
byte failures_left = FAILURES, doubts_left = 1, crashes_left = CRASHES, lapses_left = LAPSES;
byte answers_left = 1, aborts_left = ABORTS;    /* of the operator */

inline end_saga() {
  if
  :: is_aborted && log_step == COMMITTED -> log_step = UNDONE; effect = 0
  :: else
  fi;
  has_ended = 1;
  require(EFFECT_IF_COMMITTED, effect == (log_step == COMMITTED))
}

inline execute(operation_, epoch_, ok_) {
  ok_ = (epoch_ == epoch);
#ifdef no_fence
  ok_ = 1;
#endif
  if
  :: operation_ == STORE_FAILURE && row == ROW_SUCCEEDED -> ok_ = 0
  :: else
  fi;
  if
  :: ok_ && operation_ == START ->
     log_step = STARTED; log_attempt = log_attempt + 1; row = ROW_OPEN; lease = 0; is_leased = 0;
     suspension = 0; is_done_acknowledged = 0
  :: ok_ && operation_ == STORE_SUCCESS ->
     log_step = COMMITTED; row = ROW_SETTLED;
     if
     :: is_by_hand -> effect = 1
     :: else
     fi
  :: ok_ && operation_ == STORE_FAILURE ->
     require(DONE_IS_KEPT, !is_done_acknowledged);
     row = ROW_SETTLED; suspension = 0;
     if
     :: log_attempt < TRIES -> log_step = WAITING
     :: else -> log_step = FAILED
     fi
  :: ok_ && operation_ == PUT_OFFER ->
     if
     :: row == NO_ROW || row == ROW_SUSPENDED || row == ROW_PERSON -> row = ROW_OPEN; is_leased = 0
     :: else
     fi
  :: ok_ && operation_ >= PUT_FOR_RETRY && operation_ <= PUT_PERSON ->
     if
     :: row == ROW_OPEN || row == ROW_UNKNOWN || row == ROW_SUSPENDED || row == ROW_FAILED ->
        is_leased = 0;
        if
        :: operation_ == PUT_PERSON -> row = ROW_PERSON
        :: else -> row = ROW_SUSPENDED
        fi
     :: else
     fi;
     if
     :: operation_ == PUT_FOR_RETRY -> suspension = AFTER_FAILURE
     :: operation_ == PUT_UNKNOWN -> suspension = AFTER_UNKNOWN
     :: operation_ == PUT_PERSON -> suspension = BY_PERSON
     fi
  :: ok_ && operation_ == ABORT_SAGA -> is_aborted = 1
  :: ok_ && operation_ == END_SAGA -> end_saga()
  :: else
  fi
}

/* after_failure */
inline handle_failure() {
  has_unknown_call = 0;
  if
  :: log_attempt < TRIES || is_aborted || ON_EXHAUSTED == FAIL -> attempt = HAS_FAILED
  :: log_attempt >= TRIES && !is_aborted && ON_EXHAUSTED == RETRY -> attempt = TO_SUSPEND
  :: log_attempt >= TRIES && !is_aborted && ON_EXHAUSTED == ASK -> attempt = TO_PERSON
  fi
}

inline load_shard() {
  epoch = epoch + 1; node_epoch = epoch;
  if
  :: log_step != STARTED -> attempt = NO_ATTEMPT
  :: log_step == STARTED && suspension == 0 -> attempt = TO_OFFER
  :: log_step == STARTED && suspension == BY_PERSON -> attempt = FOR_PERSON
  :: log_step == STARTED && suspension == AFTER_FAILURE -> attempt = FOR_RETRY
  :: log_step == STARTED && suspension == AFTER_UNKNOWN -> attempt = IN_DOUBT
  fi;
#ifndef ends_repeated
  has_unknown_call = (attempt == FOR_RETRY);
#endif
  is_by_hand = 0; drains = is_aborted; operation = 0; is_answered = 0; is_ok = 0
}

#define MAY_DECIDE (operation == 0 && !has_ended)

active proctype node() {
  bit ok;
  do
  :: atomic { operation != 0 && !is_answered ->
       execute(operation, node_epoch, ok); is_answered = 1; is_ok = ok; ok = 0 }
  :: atomic { operation != 0 && is_answered ->
       if
       :: !is_ok -> load_shard()
       :: is_ok && operation == START -> attempt = OFFERED
       :: is_ok && operation == PUT_OFFER && attempt == TO_OFFER -> attempt = OFFERED
       :: is_ok && operation == PUT_FOR_RETRY && attempt == TO_SUSPEND -> attempt = FOR_RETRY
       :: is_ok && operation == PUT_UNKNOWN && attempt == DOUBT_PENDING -> attempt = IN_DOUBT
       :: is_ok && operation == PUT_PERSON && attempt == TO_PERSON -> attempt = FOR_PERSON
       :: is_ok && (operation == STORE_SUCCESS || operation == STORE_FAILURE) ->
          attempt = NO_ATTEMPT
       :: is_ok && operation == ABORT_SAGA -> abort_requested = 0; drains = 1
       :: is_ok && operation == END_SAGA -> skip
       fi;
       operation = 0; is_answered = 0; is_ok = 0 }
  :: atomic { MAY_DECIDE && attempt == NO_ATTEMPT && log_step == WAITING && !is_aborted ->
       attempt = START_PENDING; operation = START }
  :: atomic { MAY_DECIDE && attempt == NO_ATTEMPT && (log_step > STARTED ||
       (log_step == WAITING && is_aborted)) -> operation = END_SAGA }
  :: atomic { MAY_DECIDE && abort_requested && !is_aborted -> operation = ABORT_SAGA }
  :: atomic { MAY_DECIDE && attempt == TO_OFFER -> operation = PUT_OFFER }
  :: atomic { MAY_DECIDE && attempt == TO_SUSPEND -> operation = PUT_FOR_RETRY }
  :: atomic { MAY_DECIDE && attempt == DOUBT_PENDING -> operation = PUT_UNKNOWN }
  :: atomic { MAY_DECIDE && attempt == TO_PERSON -> operation = PUT_PERSON }
  :: atomic { MAY_DECIDE && attempt == HAS_SUCCEEDED -> operation = STORE_SUCCESS }
  :: atomic { MAY_DECIDE && attempt == HAS_FAILED -> operation = STORE_FAILURE }
  /* the pause is over */
  :: atomic { MAY_DECIDE && (attempt == FOR_RETRY || attempt == IN_DOUBT) && !drains ->
       attempt = TO_OFFER }
  /* END_FAILED, END_EXHAUSTED, CALL_NOW */
  :: atomic { drains && operation == 0 && attempt != START_PENDING ->
       drains = 0;
       if
       :: (attempt == TO_SUSPEND || attempt == FOR_RETRY) && !has_unknown_call ->
          attempt = HAS_FAILED
       :: (attempt == TO_SUSPEND || attempt == FOR_RETRY) && has_unknown_call -> attempt = TO_OFFER
#ifndef drain_keeps_exhausted
       :: attempt == TO_PERSON || attempt == FOR_PERSON -> attempt = HAS_FAILED
#endif
#ifdef drain_ends_doubted
       :: attempt == IN_DOUBT -> attempt = HAS_FAILED
#else
       :: attempt == IN_DOUBT -> attempt = TO_OFFER
#endif
       :: else
       fi }
  /* -- reports: ExternalQueue._deliver */
  :: atomic { MAY_DECIDE && (attempt == OFFERED || attempt == TO_OFFER) && row == ROW_UNKNOWN ->
       attempt = DOUBT_PENDING }
  :: atomic { MAY_DECIDE && (attempt == OFFERED || attempt == TO_OFFER || attempt == FOR_RETRY ||
       attempt == FOR_PERSON || attempt == IN_DOUBT) && row == ROW_SUCCEEDED ->
       attempt = HAS_SUCCEEDED }
  :: atomic { MAY_DECIDE && (attempt == OFFERED || attempt == TO_OFFER || attempt == IN_DOUBT) &&
       row == ROW_FAILED -> handle_failure() }
  /* an operator performed it by hand, reports the failure, or retries the call */
  :: atomic { MAY_DECIDE && attempt == FOR_PERSON && answers_left > 0 ->
       answers_left = answers_left - 1;
       if
       :: is_by_hand = 1; attempt = HAS_SUCCEEDED
       :: !effect -> attempt = HAS_FAILED
       :: attempt = TO_SUSPEND
       fi }
  od
}

#define HAS_TASK 1
#define WORK_DONE 2
#define WORK_NOT_DONE 3
#define WORK_IN_DOUBT 4
#define MAY_ACT (held_lease == lease && held_attempt == log_attempt && log_step == STARTED && \
  row != ROW_SETTLED)
proctype worker() {
  byte work, held_lease, held_attempt;
  do
  :: atomic { work == 0 && row == ROW_OPEN && !is_leased ->
       require(NOTHING_AFTER_END, !has_ended);
       is_leased = 1; lease = lease + 1; held_lease = lease; held_attempt = log_attempt;
       work = HAS_TASK }
  :: atomic { work == HAS_TASK && (effect || MAY_ACT) ->
       require(NOTHING_AFTER_END, effect || !has_ended);
       effect = 1; work = WORK_DONE }
  :: atomic { work == HAS_TASK && !effect && failures_left > 0 ->
       failures_left = failures_left - 1; work = WORK_NOT_DONE }
  :: atomic { (work == HAS_TASK || work == WORK_DONE) && doubts_left > 0 ->
       doubts_left = doubts_left - 1; work = WORK_IN_DOUBT }
  :: atomic { work == WORK_DONE ->
       if
       :: held_attempt == log_attempt && (row == ROW_OPEN || row == ROW_UNKNOWN ||
          row == ROW_SUSPENDED || row == ROW_FAILED) ->
          row = ROW_SUCCEEDED; is_done_acknowledged = 1
       :: else
       fi;
       work = 0; held_lease = 0; held_attempt = 0 }
  :: atomic { work == WORK_NOT_DONE || work == WORK_IN_DOUBT ->
       if
#ifdef replaces_success
       :: held_attempt == log_attempt && (row == ROW_OPEN || row == ROW_SUCCEEDED) &&
#else
       :: held_attempt == log_attempt && held_lease == lease && row == ROW_OPEN &&
#endif
          work == WORK_NOT_DONE -> row = ROW_FAILED
       :: held_attempt == log_attempt && held_lease == lease && row == ROW_OPEN &&
          work == WORK_IN_DOUBT -> row = ROW_UNKNOWN
       :: else
       fi;
       work = 0; held_lease = 0; held_attempt = 0 }
  od
}

proctype world() {
  bit ok;
  do
  :: atomic { aborts_left > 0 && !has_ended -> aborts_left = aborts_left - 1; abort_requested = 1 }
  :: atomic { crashes_left > 0 ->
       crashes_left = crashes_left - 1;
       if
       :: operation != 0 && !is_answered -> late_operation = operation; late_epoch = node_epoch
       :: else
       fi;
       load_shard() }
  :: atomic { late_operation != 0 ->
       execute(late_operation, late_epoch, ok); late_operation = 0; late_epoch = 0; ok = 0 }
  :: atomic { lapses_left > 0 && is_leased -> lapses_left = lapses_left - 1; is_leased = 0 }
  :: atomic { timeout ->
       require(ENDS_OR_WAITS, has_ended ||
         (row == ROW_PERSON && suspension == BY_PERSON && !is_aborted));
       break }
  od
}

init {
  atomic {
    choose_budget(crashes_left); choose_budget(lapses_left); choose_budget(failures_left);
    choose_budget(answers_left); choose_budget(aborts_left);
    run worker();
#if WORKERS > 1
    run worker();
#endif
    run world()
  }
}
