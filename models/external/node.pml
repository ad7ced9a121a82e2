/* A node: its lease, takeovers, loads, commits, the decisions of the engine, and its calls. */
inline send(s_, operation_) { commit_operation[s_] = operation_; commit_state[s_] = SENT }

proctype node(byte i) {
  byte ok, withdrew;
  do
  /* -- the lease, takeovers and loads */
#ifndef no_heartbeat
  :: atomic { is_up[i] && !holds_lease[i] ->
       is_live[i] = 1; holds_lease[i] = 1;
#ifndef no_load_after_lapse
       if
       :: driving[i] == DRIVES -> driving[i] = TO_LOAD
       :: else
       fi
#endif
     }
#endif
  :: atomic { is_up[i] && holds_lease[i] && driving[i] == 0 && !log_end[DATABASE] &&
#ifdef no_takeover
       (owner == NO_NODE || owner == i) ->
#else
       (owner == NO_NODE || owner == i || !is_live[owner]) ->
#endif
       owner = i; raise_epoch(); driving[i] = TO_LOAD }
  :: atomic { is_up[i] && driving[i] == TO_LOAD && commit_operation[i] == 0 ->
       if
       :: owner == i -> raise_epoch(); node_epoch[i] = epoch; driving[i] = DRIVES; recover(i)
       :: else -> forget_shard(i)
       fi }
  /* -- commits */
  :: atomic { commit_state[i] == SENT ->
       execute(i, node_epoch[i], commit_operation[i], ok, withdrew);
       is_withdrawn[i] = withdrew;
       if
       :: ok -> commit_state[i] = WRITTEN
       :: else -> commit_state[i] = REFUSED
       fi;
       ok = 0; withdrew = 0 }
  :: atomic { is_up[i] && commit_state[i] >= WRITTEN -> finish_commit(i) }
  /* -- what the engine decides */
  :: atomic { MAY_DECIDE(i) && !drains[i] && log_external[i] == WAITING &&
       external_attempt[i] == NO_ATTEMPT && !DRAINING(i) && log_attempt[i] < TRIES ->
       external_attempt[i] = CLAIMED; is_uncalled[i] = 1; unknown_count[i] = 0;
       send(i, START_EXTERNAL) }
  :: atomic { MAY_DECIDE(i) && log_internal[i] == WAITING && internal_call[i] == 0 &&
       !DRAINING(i) -> internal_call[i] = NEW_CALL; send(i, START_INTERNAL) }
  :: atomic { MAY_DECIDE(i) && abort_requested ->
       if
       :: !log_aborted[i] && !UNDOES(i) && log_external[i] != COMPENSATED &&
          log_internal[i] != COMPENSATED -> send(i, ABORT_SAGA)
       :: else -> abort_requested = 0
       fi }
  :: atomic { MAY_DECIDE(i) && external_attempt[i] == HAS_SUCCEEDED ->
       send(i, EXTERNAL_SUCCEEDED) }
  :: atomic { MAY_DECIDE(i) && external_attempt[i] == HAS_FAILED ->
       drains[i] = (log_attempt[i] >= TRIES); send(i, EXTERNAL_FAILED) }
  :: atomic { MAY_DECIDE(i) && external_attempt[i] == GIVEN_UP ->
       drains[i] = (log_attempt[i] >= TRIES); send(i, EXTERNAL_GIVEN_UP) }
  :: atomic { MAY_DECIDE(i) && internal_call[i] == CALL_SUCCEEDED -> send(i, INTERNAL_SUCCEEDED) }
  :: atomic { MAY_DECIDE(i) && internal_call[i] == CALL_FAILED ->
       drains[i] = 1; send(i, INTERNAL_FAILED) }
  :: atomic { MAY_DECIDE(i) && internal_call[i] == CALL_GIVEN_UP ->
       drains[i] = 1; send(i, INTERNAL_GIVEN_UP) }
  :: atomic { MAY_DECIDE(i) && DRAINING(i) && IS_QUIET(i) && !UNDOES(i) &&
       (log_external[i] == COMMITTED || log_internal[i] == COMMITTED) -> send(i, START_UNDO) }
  :: atomic { MAY_DECIDE(i) && compensation_call[i] == CALL_SUCCEEDED -> send(i, UNDONE) }
  /* -- what AttemptMachine decides */
  :: atomic { MAY_DECIDE(i) && external_attempt[i] == OFFER_PENDING -> send(i, PUT_OFFER) }
  :: atomic { MAY_DECIDE(i) && external_attempt[i] == UNKNOWN_PENDING -> send(i, PUT_SUSPENDED) }
  :: atomic { MAY_DECIDE(i) && external_attempt[i] == PERSON_PENDING -> send(i, PUT_PERSON) }
  :: atomic { MAY_DECIDE(i) && wants_withdrawal[i] ->
       wants_withdrawal[i] = 0;
       if
       :: external_attempt[i] == OFFERED -> send(i, PUT_WITHDRAWN)
       :: else
       fi }
  :: atomic { ACTIVE(i) && !drains[i] && external_attempt[i] == IN_DOUBT &&
       commit_operation[i] != PUT_SUSPENDED -> external_attempt[i] = OFFER_PENDING }
  :: atomic { ACTIVE(i) && drains[i] -> /* AttemptMachine.drain */
       drains[i] = 0;
       if
       :: external_attempt[i] == OFFERED && MAY_GIVE_UP(i) &&
          commit_operation[i] != PUT_WITHDRAWN -> wants_withdrawal[i] = 1
       :: (external_attempt[i] == IN_DOUBT || external_attempt[i] == UNKNOWN_PENDING ||
          external_attempt[i] == FOR_PERSON || external_attempt[i] == PERSON_PENDING) &&
          MAY_GIVE_UP(i) -> external_attempt[i] = GIVEN_UP
       :: external_attempt[i] == IN_DOUBT && !MAY_GIVE_UP(i) -> external_attempt[i] = OFFER_PENDING
       :: else
       fi }
  /* -- reports of workers: ExternalReports._deliver */
  :: atomic { ACTIVE(i) && log_attempt[i] == log_attempt[DATABASE] &&
       (row == ROW_SUCCEEDED || row == ROW_FAILED || row == ROW_UNKNOWN) &&
       (external_attempt[i] == OFFERED || external_attempt[i] == OFFER_PENDING ||
       ((external_attempt[i] == IN_DOUBT || external_attempt[i] == FOR_PERSON) &&
       row != ROW_UNKNOWN)) ->
       if
       :: row == ROW_SUCCEEDED -> external_attempt[i] = HAS_SUCCEEDED
       :: row == ROW_FAILED -> external_attempt[i] = HAS_FAILED
       :: row == ROW_UNKNOWN ->
#ifndef stays_uncalled
          is_uncalled[i] = 0;
#endif
          unknown_count[i] = unknown_count[i] + 1;
          if
          :: unknown_count[i] > MAX_UNKNOWN -> external_attempt[i] = PERSON_PENDING
          :: else -> external_attempt[i] = UNKNOWN_PENDING
          fi
       fi }
  /* -- an operator, who knows what happened, or lets it be called again */
  :: atomic { ACTIVE(i) && external_attempt[i] == FOR_PERSON && commit_operation[i] == 0 &&
       operator_reports_left > 0 ->
       operator_reports_left = operator_reports_left - 1;
       if
       :: external_effect -> external_attempt[i] = HAS_SUCCEEDED
       :: else -> external_attempt[i] = HAS_FAILED
       fi }
  :: atomic { MAY_DECIDE(i) && external_attempt[i] == FOR_PERSON && retry_requested ->
       retry_requested = 0; unknown_count[i] = 0; external_attempt[i] = UNKNOWN_PENDING }
  /* -- functions */
  :: atomic { MAY_CALL(i) && (internal_call[i] == NEW_CALL || internal_call[i] == REPEATED_CALL) &&
       commit_operation[i] != START_INTERNAL && log_internal[i] == STARTED ->
       require(CALLED_BY_OWNER, owner == i);
       require(NOTHING_AFTER_END, !log_end[DATABASE]);
       internal_call[i] = CALL_RUNS }
  :: atomic { is_up[i] && internal_call[i] == CALL_RUNS && (owner == i || internal_effect) ->
       if
       :: !internal_effect ->
          require(NOTHING_AFTER_END, !log_end[DATABASE]); internal_effect = 1
       :: else
       fi;
       internal_call[i] = CALL_SUCCEEDED }
#if INTERNAL_FAILURES
  :: atomic { is_up[i] && internal_call[i] == CALL_RUNS && !internal_effect ->
       internal_call[i] = CALL_FAILED }
#endif
  :: atomic { MAY_CALL(i) && (compensation_call[i] == NEW_CALL ||
       compensation_call[i] == REPEATED_CALL) && UNDOES(i) ->
       require(CALLED_BY_OWNER, owner == i);
       require(NOTHING_AFTER_END, !log_end[DATABASE]);
       compensation_call[i] = CALL_RUNS }
  :: atomic { is_up[i] && compensation_call[i] == CALL_RUNS ->
       if
       :: log_external[i] == UNDOING -> external_effect = 0
       :: log_internal[i] == UNDOING -> internal_effect = 0
       :: else
       fi;
       compensation_call[i] = CALL_SUCCEEDED }
#if EARLY_REPORTS
  :: atomic { MAY_DECIDE(i) && early_reports_left == 1 && log_external[i] == WAITING &&
       log_attempt[i] == 0 && !DRAINING(i) && !has_early_report &&
       external_attempt[i] == NO_ATTEMPT ->
       early_reports_left = 0; external_effect = 1; send(i, PUT_EARLY_REPORT) }
#endif
  od
}
