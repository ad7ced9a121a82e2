/* What a node does with a shard that it loads again, loses, or that a commit changed. */
inline forget_shard(f_) {
  external_attempt[f_] = NO_ATTEMPT; is_uncalled[f_] = 0; unknown_count[f_] = 0; drains[f_] = 0;
  wants_withdrawal[f_] = 0; internal_call[f_] = 0; compensation_call[f_] = 0;
  commit_operation[f_] = 0; commit_state[f_] = 0; is_withdrawn[f_] = 0;
  log_external[f_] = WAITING; log_internal[f_] = WAITING; log_attempt[f_] = 0; log_aborted[f_] = 0;
  log_end[f_] = 0; node_epoch[f_] = 0; driving[f_] = 0
}

inline read_log(c_) {
  log_external[c_] = log_external[DATABASE]; log_internal[c_] = log_internal[DATABASE];
  log_attempt[c_] = log_attempt[DATABASE]; log_aborted[c_] = log_aborted[DATABASE];
  log_end[c_] = log_end[DATABASE]
}

/* AttemptMachine.begin of the external attempt */
inline begin_attempt(g_) {
  if
  :: has_early_report -> external_attempt[g_] = HAS_SUCCEEDED
  :: !has_early_report && DRAINING(g_) && MAY_GIVE_UP(g_) && log_attempt[g_] > 1 ->
     external_attempt[g_] = GIVEN_UP
  :: !has_early_report && !(DRAINING(g_) && MAY_GIVE_UP(g_) && log_attempt[g_] > 1) ->
     if
     :: row == NO_ROW -> external_attempt[g_] = OFFER_PENDING
     :: else -> external_attempt[g_] = OFFERED; drains[g_] = DRAINING(g_)
     fi
  fi
}

/* core.recovery.recover, AttemptMachine.resume */
inline recover(r_) {
  if
  :: log_external[r_] != STARTED || (external_attempt[r_] != NO_ATTEMPT &&
     log_attempt[r_] != log_attempt[DATABASE] && external_attempt[r_] != CLAIMED) ->
     external_attempt[r_] = NO_ATTEMPT
  :: else
  fi;
  read_log(r_);
  wants_withdrawal[r_] = 0; is_withdrawn[r_] = 0;
  if
  :: log_external[r_] != STARTED ->
     external_attempt[r_] = NO_ATTEMPT; is_uncalled[r_] = 0; unknown_count[r_] = 0
  :: log_external[r_] == STARTED && external_attempt[r_] == NO_ATTEMPT ->
     is_uncalled[r_] = 0; unknown_count[r_] = suspension_count;
     if
     :: suspension == BY_UNKNOWN -> external_attempt[r_] = IN_DOUBT
     :: suspension == BY_PERSON -> external_attempt[r_] = FOR_PERSON
     :: suspension == 0 && has_early_report -> external_attempt[r_] = HAS_SUCCEEDED
     :: suspension == 0 && !has_early_report -> external_attempt[r_] = OFFER_PENDING
     fi
  :: log_external[r_] == STARTED && external_attempt[r_] != NO_ATTEMPT ->
     if
     :: external_attempt[r_] == OFFERED -> external_attempt[r_] = OFFER_PENDING
     :: external_attempt[r_] == CLAIMED -> begin_attempt(r_)
     :: (external_attempt[r_] == HAS_FAILED || external_attempt[r_] == GIVEN_UP) &&
        row == ROW_SUCCEEDED -> external_attempt[r_] = HAS_SUCCEEDED
     :: else
     fi
  fi;
  if
  :: log_internal[r_] == STARTED ->
     if
     :: internal_call[r_] == 0 || internal_call[r_] == NEW_CALL ->
        internal_call[r_] = REPEATED_CALL
     :: else
     fi
  :: else -> internal_call[r_] = 0
  fi;
  if
  :: UNDOES(r_) ->
     if
     :: compensation_call[r_] == 0 -> compensation_call[r_] = REPEATED_CALL
     :: else
     fi
  :: else -> compensation_call[r_] = 0
  fi;
  drains[r_] = DRAINING(r_)
}

/* ShardRunner.committed, ShardRunner.failed */
inline finish_commit(h_) {
  if
  :: commit_state[h_] == WRITTEN ->
     apply(h_, commit_operation[h_]);
     if
     :: commit_operation[h_] == START_EXTERNAL -> begin_attempt(h_)
     :: commit_operation[h_] == START_INTERNAL ->
        if
        :: log_aborted[h_] -> internal_call[h_] = CALL_GIVEN_UP
        :: else
        fi
     :: commit_operation[h_] == EXTERNAL_SUCCEEDED || commit_operation[h_] == EXTERNAL_FAILED ||
        commit_operation[h_] == EXTERNAL_GIVEN_UP ->
        external_attempt[h_] = NO_ATTEMPT; is_uncalled[h_] = 0; unknown_count[h_] = 0
     :: commit_operation[h_] == INTERNAL_SUCCEEDED || commit_operation[h_] == INTERNAL_FAILED ||
        commit_operation[h_] == INTERNAL_GIVEN_UP -> internal_call[h_] = 0
     :: commit_operation[h_] == ABORT_SAGA -> drains[h_] = 1
     :: commit_operation[h_] == PUT_OFFER ->
        if
        :: external_attempt[h_] == OFFER_PENDING ->
           external_attempt[h_] = OFFERED; drains[h_] = DRAINING(h_)
        :: else
        fi
     :: commit_operation[h_] == PUT_SUSPENDED ->
        if
        :: external_attempt[h_] == UNKNOWN_PENDING ->
           external_attempt[h_] = IN_DOUBT; drains[h_] = (drains[h_] || DRAINING(h_))
        :: else
        fi
     :: commit_operation[h_] == PUT_PERSON ->
        if
        :: external_attempt[h_] == PERSON_PENDING -> external_attempt[h_] = FOR_PERSON
        :: else
        fi
     :: commit_operation[h_] == PUT_WITHDRAWN -> /* AttemptMachine.withdrawn */
        if
        :: is_withdrawn[h_] &&
           (external_attempt[h_] == OFFERED || external_attempt[h_] == OFFER_PENDING) ->
           external_attempt[h_] = GIVEN_UP
        :: else
        fi
     :: commit_operation[h_] == START_UNDO -> compensation_call[h_] = NEW_CALL
     :: commit_operation[h_] == UNDONE -> compensation_call[h_] = 0
     :: else
     fi
  :: else -> driving[h_] = TO_LOAD
  fi;
  commit_operation[h_] = 0; commit_state[h_] = 0; is_withdrawn[h_] = 0
}
