/* The state of the database, of the nodes and of the workers, and the budgets. */
#ifndef CRASHES
#define CRASHES 0
#endif
#ifndef LAPSES
#define LAPSES 0
#endif
#ifndef LOSSES
#define LOSSES 0
#endif
#ifndef WORKER_LAPSES
#define WORKER_LAPSES 0
#endif
#ifndef WORKER_CRASHES
#define WORKER_CRASHES 0
#endif
#ifndef STOPS
#define STOPS 0
#endif
#ifndef ABORTS
#define ABORTS 1
#endif
#ifndef EARLY_REPORTS
#define EARLY_REPORTS 0
#endif
#ifndef RETRIES
#define RETRIES 0
#endif
#ifndef TRIES
#define TRIES 1
#endif
#ifndef MAX_UNKNOWN
#define MAX_UNKNOWN 1
#endif
#ifndef WORKERS
#define WORKERS 1
#endif
#ifndef OPERATOR_REPORTS
#define OPERATOR_REPORTS 1
#endif
#ifndef INTERNAL_FAILURES
#define INTERNAL_FAILURES 1
#endif

#define NO_NODE 2
#define DATABASE 2
/* a step in a log */
#define WAITING 0
#define STARTED 1
#define COMMITTED 2
#define FAILED 3
#define UNDOING 4
#define COMPENSATED 5
/* what a node knows of the external attempt; PENDING: its row is being stored */
#define NO_ATTEMPT 0
#define CLAIMED 1
#define OFFER_PENDING 2
#define OFFERED 3
#define UNKNOWN_PENDING 4
#define IN_DOUBT 5
#define PERSON_PENDING 6
#define FOR_PERSON 7
#define HAS_SUCCEEDED 8
#define HAS_FAILED 9
#define GIVEN_UP 10
/* the attempt of the internal step, and of the compensation that is under way */
#define NEW_CALL 1
#define REPEATED_CALL 2
#define CALL_RUNS 3
#define CALL_SUCCEEDED 4
#define CALL_FAILED 5
#define CALL_GIVEN_UP 6
/* the row of external_attempts */
#define NO_ROW 0
#define ROW_OPEN 1
#define ROW_UNKNOWN 2
#define ROW_SUCCEEDED 3
#define ROW_FAILED 4
#define ROW_SUSPENDED 5
#define ROW_WITHDRAWN 6
#define ROW_PERSON 7
#define ROW_SETTLED 8
/* the row of suspensions */
#define BY_UNKNOWN 1
#define BY_PERSON 2
/* what a commit stores: an event of the log, or a row without one (PUT) */
#define START_EXTERNAL 1
#define START_INTERNAL 2
#define EXTERNAL_SUCCEEDED 3
#define EXTERNAL_FAILED 4
#define EXTERNAL_GIVEN_UP 5
#define INTERNAL_SUCCEEDED 6
#define INTERNAL_FAILED 7
#define INTERNAL_GIVEN_UP 8
#define ABORT_SAGA 9
#define START_UNDO 10
#define UNDONE 11
#define PUT_OFFER 12
#define PUT_SUSPENDED 13
#define PUT_PERSON 14
#define PUT_WITHDRAWN 15
#define PUT_EARLY_REPORT 16
#define HAS_LINES(operation) (operation < PUT_OFFER)
/* a commit under way, and a shard as its node knows it */
#define SENT 1
#define WRITTEN 2
#define REFUSED 3
#define TO_LOAD 1
#define DRIVES 2
/* a worker */
#define IDLE 0
#define HAS_TASK 1
#define WORK_DONE 2
#define WORK_NOT_DONE 3
#define WORK_IN_DOUBT 4

/* the log, as each node knows it and as the database has it */
byte log_external[3], log_internal[3], log_attempt[3], log_end[3];
bit log_aborted[3];
byte owner = NO_NODE, epoch;
bit is_live[2];                 /* the lease of a node, by the clock of the database */
byte row, worker_lease, reported_lease;
bit is_leased;                  /* the lease of the worker has not ended */
byte suspension, suspension_count;
bit has_early_report;
byte writer = NO_NODE;          /* ghost: the node that has written in this epoch */
bit external_effect, internal_effect;   /* ghost: the effects that exist */
bit is_done_acknowledged;       /* ghost: a worker received the answer to its success */

bit is_up[2], holds_lease[2];   /* by its own count */
byte driving[2], node_epoch[2];
byte external_attempt[2], unknown_count[2];
bit is_uncalled[2], drains[2], wants_withdrawal[2];
byte internal_call[2], compensation_call[2];
byte commit_operation[2], commit_state[2];
bit is_withdrawn[2];            /* the answer to PUT_WITHDRAWN */
byte late_operation, late_epoch, late_node;
byte held_lease[WORKERS], held_attempt[WORKERS], work[WORKERS];
byte crashes_left = CRASHES, lapses_left = LAPSES, losses_left = LOSSES, stops_left = STOPS;
byte worker_lapses_left = WORKER_LAPSES, worker_crashes_left = WORKER_CRASHES;
byte aborts_left = ABORTS, early_reports_left = EARLY_REPORTS, retries_left = RETRIES;
byte operator_reports_left = OPERATOR_REPORTS;
bit abort_requested, retry_requested;

#define DRAINING(i) (log_aborted[i] || log_external[i] == FAILED || log_internal[i] == FAILED)
#define MAY_GIVE_UP(i) (is_uncalled[i] && (log_aborted[i] || log_attempt[i] < TRIES))
#define ACTIVE(i) (is_up[i] && driving[i] == DRIVES)
#define MAY_DECIDE(i) (ACTIVE(i) && commit_operation[i] == 0 && !log_end[i])
#define IS_QUIET(i) (log_external[i] != STARTED && log_internal[i] != STARTED)
#define UNDOES(i) (log_external[i] == UNDOING || log_internal[i] == UNDOING)
#ifdef no_lease_before_call
#define MAY_CALL(i) ACTIVE(i)
#else
#define MAY_CALL(i) (ACTIVE(i) && holds_lease[i])
#endif
