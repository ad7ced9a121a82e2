/* Operators, clocks and crashes, and the check of the last state. */
inline leave_late_commit(l_) {
  if
  :: commit_state[l_] == SENT && late_operation == 0 ->
     late_operation = commit_operation[l_]; late_epoch = node_epoch[l_]; late_node = l_
  :: else
  fi
}

proctype world() {
  byte i, ok, withdrew;
  do
#if ABORTS
  :: atomic { aborts_left > 0 && !log_end[DATABASE] ->
       aborts_left = aborts_left - 1; abort_requested = 1 }
#endif
#if RETRIES
  :: atomic { retries_left > 0 && row == ROW_PERSON ->
       retries_left = retries_left - 1; retry_requested = 1 }
#endif
  /* a node is silent for the time of its lease: by its own count, then by the database's clock */
#ifndef no_heartbeat
#if LAPSES
  :: atomic { lapses_left > 0 -> lapses_left = lapses_left - 1;
       if
       :: is_up[0] && holds_lease[0] -> holds_lease[0] = 0
       :: is_up[1] && holds_lease[1] -> holds_lease[1] = 0
       fi }
#endif
#else
  :: atomic { holds_lease[0] -> holds_lease[0] = 0 }
  :: atomic { holds_lease[1] -> holds_lease[1] = 0 }
#endif
#if LAPSES || CRASHES || defined(no_heartbeat)
  :: atomic { is_live[0] && !(is_up[0] && holds_lease[0]) -> is_live[0] = 0 }
  :: atomic { is_live[1] && !(is_up[1] && holds_lease[1]) -> is_live[1] = 0 }
#endif
#if LOSSES
  /* an answer is lost, and the commit may be executed later */
  :: atomic { losses_left > 0 && (commit_operation[0] != 0 || commit_operation[1] != 0) ->
       if
       :: commit_operation[0] != 0 -> i = 0
       :: commit_operation[1] != 0 -> i = 1
       fi;
       losses_left = losses_left - 1; leave_late_commit(i);
       commit_operation[i] = 0; commit_state[i] = 0; is_withdrawn[i] = 0;
       driving[i] = TO_LOAD; i = 0 }
#endif
#if LOSSES || CRASHES
  :: atomic { late_operation != 0 ->
       execute(late_node, late_epoch, late_operation, ok, withdrew);
       late_operation = 0; late_epoch = 0; late_node = 0; ok = 0; withdrew = 0 }
#endif
#if CRASHES
  :: atomic { crashes_left > 0 && is_up[0] && is_up[1] ->
       crashes_left = crashes_left - 1;
       if
       :: i = 0
       :: i = 1
       fi;
       leave_late_commit(i); forget_shard(i); is_up[i] = 0; holds_lease[i] = 0; i = 0 }
#endif
#if STOPS
  /* Coordinator._close and HAND_OVER */
  :: atomic { stops_left > 0 && is_up[0] && is_up[1] && commit_operation[0] == 0 &&
       internal_call[0] < CALL_RUNS && compensation_call[0] < CALL_RUNS &&
       external_attempt[0] < HAS_SUCCEEDED && !wants_withdrawal[0] ->
       stops_left = stops_left - 1;
       if
       :: owner == 0 -> owner = NO_NODE; raise_epoch()
       :: else
       fi;
       forget_shard(0); is_up[0] = 0; holds_lease[0] = 0; is_live[0] = 0 }
#endif
  /* the lease of a worker that is gone ends */
  :: atomic { is_leased && !HAS_ATTEMPT(0) && !HAS_ATTEMPT(WORKERS - 1) -> is_leased = 0 }
#if WORKER_LAPSES
#ifdef no_worker_heartbeat
  :: atomic { is_leased -> is_leased = 0 }
#else
  :: atomic { worker_lapses_left > 0 && is_leased ->
       worker_lapses_left = worker_lapses_left - 1; is_leased = 0 }
#endif
#endif
#ifndef FORMULAS
  :: atomic { timeout ->
       require(DRIVEN, log_end[DATABASE] ||
         (owner != NO_NODE && is_up[owner] && driving[owner] == DRIVES));
       require(ENDS_OR_WAITS, log_end[DATABASE] ||
         (row == ROW_PERSON && suspension == BY_PERSON));
       break }
#endif
  od
}
