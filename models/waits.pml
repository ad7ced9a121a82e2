/* Waits: an approval with a time, the answer of an operator, an early report, and an abort.
 *
 * One step, which waits for an operator. With TIMED, it fails at its time. The node may crash, or
 * lose the answer to a commit; then the shard is loaded again, and a late commit may follow. The
 * answer to an operator's request is stored in the commit of the outcome.
 */
#include "properties.pml"
#ifndef CRASHES
#define CRASHES 1
#endif
#ifndef ABORTS
#define ABORTS 1
#endif
#ifndef REQUESTS
#define REQUESTS 1
#endif
#ifndef TIMED
#define TIMED 1
#endif

/* the step in the log */
#define WAITING 0
#define STARTED 1
#define COMMITTED 2
#define FAILED 3
/* the attempt, as its node knows it */
#define NO_ATTEMPT 0
#define START_PENDING 1
#define TO_SUSPEND 2
#define SUSPENDED 3
#define APPROVED 4
#define EXPIRED 5
#define GIVEN_UP 6
/* a request of an operator */
#define NO_REQUEST 0
#define REQUESTED 1
#define ANSWERED_YES 2
#define ANSWERED_NO 3
/* commits */
#define START 1
#define PUT_SUSPENDED 2
#define STORE_APPROVED 3
#define STORE_EXPIRED 4
#define STORE_GIVEN_UP 5
#define ABORT_SAGA 6
#define PUT_EARLY_REPORT 7
#define REFUSE_REQUEST 8
#define END 9

byte log_step, epoch = 1, request;
bit is_suspended, has_early_report, is_aborted, has_ended, is_due;
byte node_epoch = 1, attempt, operation;
bit is_answered, is_ok, abort_requested, has_timer, drains;
byte late_operation, late_epoch;
byte crashes_left = CRASHES, aborts_left = ABORTS, requests_left = REQUESTS;

inline execute(operation_, epoch_, ok_) {
  ok_ = (epoch_ == epoch);
#ifdef no_fence
  ok_ = 1;
#endif
  if
  :: ok_ && operation_ == START -> log_step = STARTED
  :: ok_ && operation_ == PUT_SUSPENDED -> is_suspended = 1
  :: ok_ && operation_ == STORE_APPROVED ->
     log_step = COMMITTED; is_suspended = 0;
     if
     :: request == REQUESTED -> request = ANSWERED_YES
     :: else
     fi
  :: ok_ && (operation_ == STORE_EXPIRED || operation_ == STORE_GIVEN_UP) ->
     require(DONE_IS_KEPT, request != ANSWERED_YES);
     log_step = FAILED; is_suspended = 0
  :: ok_ && operation_ == ABORT_SAGA -> is_aborted = 1
  :: ok_ && operation_ == PUT_EARLY_REPORT -> has_early_report = 1; request = ANSWERED_YES
  :: ok_ && operation_ == REFUSE_REQUEST && request == REQUESTED -> request = ANSWERED_NO
  :: ok_ && operation_ == END -> has_ended = 1
  :: else
  fi
}

inline begin_attempt() {
#ifdef forgets_early_report
  attempt = TO_SUSPEND
#else
  if
  :: has_early_report -> attempt = APPROVED
  :: else -> attempt = TO_SUSPEND
  fi
#endif
}

inline load_shard() {
  epoch = epoch + 1; node_epoch = epoch;
  if
  :: log_step != STARTED -> attempt = NO_ATTEMPT
  :: log_step == STARTED && is_suspended -> attempt = SUSPENDED
  :: log_step == STARTED && !is_suspended -> begin_attempt()
  fi;
#ifdef no_timer_after_load
  has_timer = 0;
#else
  has_timer = (attempt == SUSPENDED && TIMED);
#endif
  drains = is_aborted; operation = 0; is_answered = 0; is_ok = 0
}

#define MAY_DECIDE (operation == 0 && !has_ended)

active proctype node() {
  bit ok;
  do
  :: atomic { operation != 0 && !is_answered ->
       execute(operation, node_epoch, ok); is_answered = 1; is_ok = ok; ok = 0 }
  :: atomic { operation != 0 && is_answered ->
       if
       :: !is_ok -> load_shard()
       :: is_ok && operation == START -> begin_attempt()
       :: is_ok && operation == PUT_SUSPENDED && attempt == TO_SUSPEND ->
          attempt = SUSPENDED; has_timer = TIMED
       :: is_ok && operation >= STORE_APPROVED && operation <= STORE_GIVEN_UP ->
          attempt = NO_ATTEMPT
       :: is_ok && operation == ABORT_SAGA -> drains = 1; abort_requested = 0
       :: else
       fi;
       operation = 0; is_answered = 0; is_ok = 0 }
  :: atomic { MAY_DECIDE && attempt == NO_ATTEMPT && log_step == WAITING && !is_aborted ->
       attempt = START_PENDING; operation = START }
  :: atomic { MAY_DECIDE && attempt == TO_SUSPEND -> operation = PUT_SUSPENDED }
  :: atomic { MAY_DECIDE && attempt == APPROVED -> operation = STORE_APPROVED }
  :: atomic { MAY_DECIDE && attempt == EXPIRED -> operation = STORE_EXPIRED }
  :: atomic { MAY_DECIDE && attempt == GIVEN_UP -> operation = STORE_GIVEN_UP }
  :: atomic { MAY_DECIDE && abort_requested && !is_aborted -> operation = ABORT_SAGA }
  :: atomic { MAY_DECIDE && attempt == NO_ATTEMPT && (log_step > STARTED ||
       (log_step == WAITING && is_aborted)) -> operation = END }
  /* -- the timer, and the drain of an aborted saga */
  :: atomic { attempt == SUSPENDED && has_timer && is_due -> has_timer = 0; attempt = EXPIRED }
  :: atomic { drains && attempt != START_PENDING ->
       drains = 0;
       if
#ifndef drain_keeps_waits
       :: attempt == SUSPENDED || attempt == TO_SUSPEND -> attempt = GIVEN_UP
#endif
       :: else
       fi }
  /* -- the operator's request */
  :: atomic { MAY_DECIDE && request == REQUESTED ->
       if
       :: attempt == SUSPENDED ->
          attempt = APPROVED;
#ifdef answers_before_commit
          request = ANSWERED_YES;
#endif
          skip
       :: attempt == NO_ATTEMPT && log_step == WAITING && !has_early_report ->
          operation = PUT_EARLY_REPORT
       :: attempt == NO_ATTEMPT && log_step > STARTED -> operation = REFUSE_REQUEST
       :: else
       fi }
  od
}

active proctype world() {
  bit ok;
  do
  :: atomic { requests_left > 0 && !has_ended && request == NO_REQUEST ->
       requests_left = requests_left - 1; request = REQUESTED }
  :: atomic { aborts_left > 0 && !has_ended ->
       aborts_left = aborts_left - 1; abort_requested = 1 }
#if TIMED
  :: atomic { !is_due && is_suspended -> is_due = 1 }
#endif
  :: atomic { crashes_left > 0 ->
       crashes_left = crashes_left - 1;
       if
       :: operation != 0 && !is_answered -> late_operation = operation; late_epoch = node_epoch
       :: else
       fi;
       load_shard() }
  :: atomic { late_operation != 0 ->
       execute(late_operation, late_epoch, ok); late_operation = 0; late_epoch = 0; ok = 0 }
  :: atomic { timeout ->
       require(ENDS_OR_WAITS, has_ended || (is_suspended && !TIMED && !is_aborted));
       require(DONE_IS_KEPT, request != ANSWERED_YES || log_step == COMMITTED || is_aborted);
       break }
  od
}

init {
  atomic {
    choose_budget(crashes_left); choose_budget(aborts_left); choose_budget(requests_left)
  }
}
