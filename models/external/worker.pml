/* A worker: it claims the attempt at any node, has its effect or not, and reports. */
#define IS_NEWEST(w) \
  (held_lease[w] == worker_lease && held_attempt[w] == log_attempt[DATABASE] && \
  row != ROW_SETTLED && row != NO_ROW)
#define HAS_ATTEMPT(w) \
  (work[w] != IDLE && held_lease[w] == worker_lease && held_attempt[w] == log_attempt[DATABASE])
/* the premise of idempotency keys: no new effect under an old lease after a later failure */
#ifdef acts_under_old_lease
#define MAY_ACT(w) true
#else
#define MAY_ACT(w) IS_NEWEST(w)
#endif

inline stop_work(s_) { work[s_] = IDLE; held_lease[s_] = 0; held_attempt[s_] = 0 }

proctype worker(byte w) {
  byte v;
  do
  :: atomic { work[w] == IDLE && row == ROW_OPEN && (worker_lease == 0 || !is_leased) &&
       (is_up[0] || is_up[1]) ->
       if
       :: is_up[0] -> v = 0
       :: is_up[1] -> v = 1
       fi;
       require(NOTHING_AFTER_END, !log_end[DATABASE]);
       worker_lease = (worker_lease % 7) + 1; is_leased = 1;
       held_lease[w] = worker_lease; held_attempt[w] = log_attempt[DATABASE]; work[w] = HAS_TASK;
       if
       :: driving[v] == DRIVES && external_attempt[v] != NO_ATTEMPT &&
          log_attempt[v] == log_attempt[DATABASE] -> is_uncalled[v] = 0
       :: else
       fi;
       v = 0 }
  :: atomic { work[w] == HAS_TASK && (external_effect || MAY_ACT(w)) ->
       if
       :: !external_effect ->
          require(NOTHING_AFTER_END, !log_end[DATABASE]); external_effect = 1
       :: else
       fi;
       work[w] = WORK_DONE }
  :: atomic { work[w] == HAS_TASK && !external_effect -> work[w] = WORK_NOT_DONE }
  :: atomic { work[w] == HAS_TASK || work[w] == WORK_DONE -> work[w] = WORK_IN_DOUBT }
  /* a success counts under any lease */
  :: atomic { work[w] == WORK_DONE && (is_up[0] || is_up[1]) ->
       if
       :: held_attempt[w] == log_attempt[DATABASE] && (row == ROW_OPEN || row == ROW_UNKNOWN ||
          row == ROW_SUSPENDED || row == ROW_FAILED) ->
          row = ROW_SUCCEEDED; reported_lease = held_lease[w]; is_done_acknowledged = 1
       :: else
       fi;
       stop_work(w) }
  :: atomic { (work[w] == WORK_NOT_DONE || work[w] == WORK_IN_DOUBT) && (is_up[0] || is_up[1]) ->
       if
       :: held_attempt[w] == log_attempt[DATABASE] && held_lease[w] == worker_lease &&
          reported_lease != worker_lease &&
          (row == ROW_OPEN || (row == ROW_SUSPENDED && work[w] == WORK_NOT_DONE)) ->
          reported_lease = worker_lease;
          if
          :: work[w] == WORK_NOT_DONE -> row = ROW_FAILED
          :: else -> row = ROW_UNKNOWN
          fi
       :: else
       fi;
       stop_work(w) }
#if WORKER_CRASHES
  :: atomic { work[w] != IDLE && worker_crashes_left > 0 ->
       worker_crashes_left = worker_crashes_left - 1; stop_work(w) }
#endif
  od
}
