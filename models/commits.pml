/* Group commits: decisions that wait for a commit, and commits of several of them.
 *
 * Two nodes and one shard, whose saga has one external attempt. The engine decides on what it
 * knows, before the earlier decisions are stored. A statement stores all decisions that wait, and
 * changes the row of the attempt once. A takeover may happen at any time: leases decide nothing.
 */
#include "properties.pml"
#ifndef TAKEOVERS
#define TAKEOVERS 1
#endif
#ifndef LOSSES
#define LOSSES 1
#endif
#ifndef WORKERS
#define WORKERS 1
#endif
#ifndef QUEUE
#define QUEUE 3
#endif

#define NO_NODE 2
/* a decision: an event of the log, or a row without one */
#define START 1
#define SUCCEEDED 2
#define FAILED 3
#define END 4
#define PUT_OFFER 5
#define PUT_SUSPENDED 6
#define HAS_LINE(entry) (entry < PUT_OFFER)
#define HAS_ROW(entry) (entry != END)
/* the attempt, as a node knows it */
#define NO_ATTEMPT 0
#define START_PENDING 1
#define TO_OFFER 2
#define OFFERED 3
#define IN_DOUBT 4
#define REPORTED 5
/* its row */
#define NO_ROW 0
#define ROW_OPEN 1
#define ROW_UNKNOWN 2
#define ROW_SUCCEEDED 3
#define ROW_FAILED 4
#define ROW_SUSPENDED 5
#define ROW_SETTLED 6

byte owner, epoch = 1, lines, row, writer = NO_NODE;
byte stored_outcome;            /* of the attempt: SUCCEEDED or FAILED */
bit has_ended, is_suspended, is_leased;
byte acknowledged_lines;        /* ghost: what was acknowledged to a caller */
bit is_done_acknowledged, effect;

typedef Entries { byte entry[QUEUE] };
Entries queue[2];
byte queued[2], sent[2], node_epoch[2], known_lines[2], attempt[2], outcome[2];
bit is_answered[2], is_ok[2], drives[2], has_row_pending[2];
Entries late; byte late_count, late_epoch, late_node, late_first;
byte stored_first[2];           /* the lines before the commit under way */
byte takeovers_left = TAKEOVERS, losses_left = LOSSES;
byte failures_left = 1, doubts_left = 1, lapses_left = 1;   /* of workers and their leases */
byte lease;

inline put_row(entry_) {
  if
  :: entry_ == START -> row = ROW_OPEN
  :: entry_ == PUT_OFFER ->
     if
     :: row == NO_ROW || row == ROW_SUSPENDED -> row = ROW_OPEN; is_leased = 0
     :: else
     fi
  :: entry_ == PUT_SUSPENDED ->
     if
     :: row == ROW_OPEN || row == ROW_UNKNOWN || row == ROW_FAILED ->
        row = ROW_SUSPENDED; is_leased = 0
     :: else
     fi
  :: entry_ == SUCCEEDED || entry_ == FAILED ->
     require(DONE_IS_KEPT, !is_done_acknowledged || entry_ == SUCCEEDED);
     row = ROW_SETTLED; is_leased = 0
  :: else
  fi
}

/* The statement of a commit: entry[0..count-1], after `first_` lines of the shard. */
inline execute(node_, epoch_, entries_, count_, first_, ok_) {
#ifdef no_fence
  ok_ = 1;
#else
  ok_ = (epoch_ == epoch);
#endif
  k = 0; last = 0;
  do
  :: k < count_ ->
     if
     :: HAS_ROW(entries_.entry[k]) ->
#ifdef any_row_counts
        if
        :: last = entries_.entry[k]
        :: last != 0
        fi
#else
        last = entries_.entry[k]
#endif
     :: else
     fi;
     if
     :: entries_.entry[k] == FAILED && row == ROW_SUCCEEDED -> ok_ = 0
     :: else
     fi;
     k = k + 1
  :: else -> break
  od;
  if
  :: ok_ ->
     require(ONE_WRITER, writer == NO_NODE || writer == node_);
     writer = node_;
     if
     :: last != 0 -> put_row(last)
     :: else
     fi;
     k = 0; added = 0;
     do
     :: k < count_ ->
        if
        :: HAS_LINE(entries_.entry[k]) -> added = added + 1
        :: else
        fi;
        if
        :: entries_.entry[k] == SUCCEEDED || entries_.entry[k] == FAILED ->
           stored_outcome = entries_.entry[k]; is_suspended = 0
        :: entries_.entry[k] == PUT_SUSPENDED -> is_suspended = 1
        :: entries_.entry[k] == END ->
           has_ended = 1;
           require(EFFECT_IF_COMMITTED, effect == (stored_outcome == SUCCEEDED))
        :: else
        fi;
        k = k + 1
     :: else -> break
     od;
     if
     :: added > 0 ->
        require(KEPT, first_ == lines);  /* directly after what its session knows */
        lines = lines + added
     :: else
     fi
  :: else
  fi;
  k = 0; last = 0; added = 0
}

inline clear_entries(node_) {
  k = 0;
  do
  :: k < QUEUE -> queue[node_].entry[k] = 0; k = k + 1
  :: else -> break
  od;
  k = 0; queued[node_] = 0; sent[node_] = 0
}

/* Remove the entries of the commit from the queue, and keep those that came later. */
inline remove_sent(node_) {
  k = 0;
  do
  :: k < QUEUE ->
     if
     :: k + sent[node_] < QUEUE -> queue[node_].entry[k] = queue[node_].entry[k + sent[node_]]
     :: else -> queue[node_].entry[k] = 0
     fi;
     k = k + 1
  :: else -> break
  od;
  k = 0; queued[node_] = queued[node_] - sent[node_]; sent[node_] = 0
}

inline decide(node_, entry_) {
  queue[node_].entry[queued[node_]] = entry_; queued[node_] = queued[node_] + 1;
  if
  :: HAS_LINE(entry_) -> known_lines[node_] = known_lines[node_] + 1
  :: else
  fi
}

/* What a node does after its commit, for each entry in its order. */
inline finish_entries(node_) {
  k = 0;
  do
  :: k < sent[node_] ->
     if
     :: queue[node_].entry[k] == START -> attempt[node_] = OFFERED
     :: queue[node_].entry[k] == PUT_OFFER ->
        if
        :: attempt[node_] == TO_OFFER -> attempt[node_] = OFFERED; has_row_pending[node_] = 0
        :: else -> has_row_pending[node_] = 0
        fi
     :: queue[node_].entry[k] == PUT_SUSPENDED -> has_row_pending[node_] = 0
     :: queue[node_].entry[k] == END -> acknowledged_lines = lines
     :: else
     fi;
     k = k + 1
  :: else -> break
  od;
  k = 0
}

#define DECIDES(i) (drives[i] && queued[i] < QUEUE)

proctype node(byte i) {
  byte k, last, added, ok;
  do
  :: atomic { takeovers_left > 0 && owner != i ->
       takeovers_left = takeovers_left - 1; owner = i; epoch = epoch + 1; writer = NO_NODE }
  /* -- load: nothing of the shard is being stored */
  :: atomic { !drives[i] && owner == i && !has_ended && sent[i] == 0 ->
#ifndef loads_without_epoch
       epoch = epoch + 1; writer = NO_NODE;
#endif
       clear_entries(i);
       node_epoch[i] = epoch; drives[i] = 1; known_lines[i] = lines; outcome[i] = 0;
       has_row_pending[i] = 0;
       if
       :: lines == 0 -> attempt[i] = NO_ATTEMPT
       :: lines > 0 && stored_outcome == 0 && is_suspended -> attempt[i] = IN_DOUBT
       :: lines > 0 && stored_outcome == 0 && !is_suspended -> attempt[i] = TO_OFFER
       :: stored_outcome != 0 -> attempt[i] = REPORTED; outcome[i] = stored_outcome
       fi }
  :: atomic { drives[i] && owner != i && sent[i] == 0 && queued[i] == 0 -> drives[i] = 0 }
  /* -- a commit of all that waits */
  :: atomic { drives[i] && queued[i] > 0 && sent[i] == 0 ->
       sent[i] = queued[i]; is_answered[i] = 0; k = 0; added = 0;
       do
       :: k < queued[i] ->
          if
          :: HAS_LINE(queue[i].entry[k]) -> added = added + 1
          :: else
          fi;
          k = k + 1
       :: else -> break
       od;
       stored_first[i] = known_lines[i] - added; k = 0; added = 0 }
  :: atomic { sent[i] > 0 && !is_answered[i] ->
       execute(i, node_epoch[i], queue[i], sent[i], stored_first[i], ok);
       is_answered[i] = 1; is_ok[i] = ok; ok = 0 }
  :: atomic { sent[i] > 0 && is_answered[i] ->
       if
       :: is_ok[i] -> finish_entries(i); remove_sent(i)
       :: else ->
#ifdef keeps_later_entries
          remove_sent(i)
#else
          clear_entries(i); drives[i] = 0
#endif
       fi;
       is_answered[i] = 0; is_ok[i] = 0 }
  /* an answer is lost: the statement may be executed later */
  :: atomic { sent[i] > 0 && losses_left > 0 && late_count == 0 ->
       losses_left = losses_left - 1;
       if
       :: !is_answered[i] ->
          late_count = sent[i]; late_epoch = node_epoch[i]; late_node = i;
          late_first = stored_first[i]; k = 0;
          do
          :: k < QUEUE -> late.entry[k] = queue[i].entry[k]; k = k + 1
          :: else -> break
          od;
          k = 0
       :: else
       fi;
#ifdef keeps_later_entries
       remove_sent(i);
#else
       clear_entries(i); drives[i] = 0;
#endif
       is_answered[i] = 0; is_ok[i] = 0 }
  :: atomic { late_count > 0 && late_node == i ->
       execute(late_node, late_epoch, late, late_count, late_first, ok);
       late_count = 0; late_epoch = 0; late_node = 0; late_first = 0; ok = 0; k = 0;
       do
       :: k < QUEUE -> late.entry[k] = 0; k = k + 1
       :: else -> break
       od;
       k = 0 }
  /* -- decisions */
  :: atomic { DECIDES(i) && attempt[i] == NO_ATTEMPT ->
       attempt[i] = START_PENDING; decide(i, START) }
  :: atomic { DECIDES(i) && attempt[i] == TO_OFFER && !has_row_pending[i] ->
       has_row_pending[i] = 1; decide(i, PUT_OFFER) }
  :: atomic { DECIDES(i) && attempt[i] == IN_DOUBT && !has_row_pending[i] -> attempt[i] = TO_OFFER }
  :: atomic { DECIDES(i) && (attempt[i] == OFFERED || attempt[i] == TO_OFFER) &&
       (row == ROW_SUCCEEDED || row == ROW_FAILED ||
       (row == ROW_UNKNOWN && !has_row_pending[i])) ->
       if
       :: row == ROW_UNKNOWN ->
          attempt[i] = IN_DOUBT; has_row_pending[i] = 1; decide(i, PUT_SUSPENDED)
       :: row == ROW_SUCCEEDED ->
          attempt[i] = REPORTED; outcome[i] = SUCCEEDED; decide(i, SUCCEEDED)
       :: row == ROW_FAILED -> attempt[i] = REPORTED; outcome[i] = FAILED; decide(i, FAILED)
       fi }
  :: atomic { DECIDES(i) && attempt[i] == IN_DOUBT && !has_row_pending[i] &&
       (row == ROW_SUCCEEDED || row == ROW_FAILED) ->
       attempt[i] = REPORTED;
       if
       :: row == ROW_SUCCEEDED -> outcome[i] = SUCCEEDED
       :: else -> outcome[i] = FAILED
       fi;
       decide(i, outcome[i]) }
  /* the end follows in the same commit, or in a later one */
  :: atomic { DECIDES(i) && attempt[i] == REPORTED && known_lines[i] == 2 -> decide(i, END) }
  od
}

#define HAS_TASK 1
#define WORK_DONE 2
#define WORK_NOT_DONE 3
#define WORK_IN_DOUBT 4
proctype worker() {
  byte work, held_lease;
  do
  :: atomic { work == 0 && row == ROW_OPEN && !is_leased ->
       require(NOTHING_AFTER_END, !has_ended);
       is_leased = 1; lease = lease + 1; held_lease = lease; work = HAS_TASK }
  :: atomic { work == HAS_TASK && (effect || (held_lease == lease && row != ROW_SETTLED)) ->
       effect = 1; work = WORK_DONE }
  :: atomic { work == HAS_TASK && !effect && (failures_left > 0 || held_lease != lease) ->
       if
       :: held_lease == lease -> failures_left = failures_left - 1
       :: else
       fi;
       work = WORK_NOT_DONE }
  :: atomic { (work == HAS_TASK || work == WORK_DONE) && doubts_left > 0 ->
       doubts_left = doubts_left - 1; work = WORK_IN_DOUBT }
  /* a success counts under any lease, and replaces a failure that no commit has stored yet */
  :: atomic { work == WORK_DONE ->
       if
       :: row == ROW_OPEN || row == ROW_UNKNOWN || row == ROW_SUSPENDED || row == ROW_FAILED ->
          row = ROW_SUCCEEDED; is_done_acknowledged = 1
       :: else
       fi;
       work = 0; held_lease = 0 }
  :: atomic { work == WORK_NOT_DONE || work == WORK_IN_DOUBT ->
       if
       :: row == ROW_OPEN && held_lease == lease && work == WORK_NOT_DONE -> row = ROW_FAILED
       :: row == ROW_OPEN && held_lease == lease && work == WORK_IN_DOUBT -> row = ROW_UNKNOWN
       :: else
       fi;
       work = 0; held_lease = 0 }
  od
}

proctype world() {
  do
  :: atomic { lapses_left > 0 && is_leased -> lapses_left = lapses_left - 1; is_leased = 0 }
  :: atomic { timeout ->
       require(ENDS_OR_WAITS, has_ended);
       require(DONE_IS_KEPT, row == ROW_SETTLED);
       require(KEPT, acknowledged_lines <= lines);
       break }
  od
}

init {
  atomic {
    drives[0] = 1; node_epoch[0] = 1;
    choose_budget(takeovers_left); choose_budget(losses_left);
    choose_budget(lapses_left);
    run node(0); run node(1); run worker();
#if WORKERS > 1
    run worker();
#endif
    run world()
  }
}
