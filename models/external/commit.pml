/* The statement of a commit: the fence, the rows of the attempt, and the event of the log. */
inline apply(log, operation) {
  if
  :: operation == START_EXTERNAL ->
     log_external[log] = STARTED; log_attempt[log] = log_attempt[log] + 1
  :: operation == START_INTERNAL -> log_internal[log] = STARTED
  :: operation == EXTERNAL_SUCCEEDED -> log_external[log] = COMMITTED
  :: operation == EXTERNAL_FAILED || operation == EXTERNAL_GIVEN_UP ->
     if
     :: log_attempt[log] < TRIES -> log_external[log] = WAITING
     :: else -> log_external[log] = FAILED
     fi
  :: operation == INTERNAL_SUCCEEDED -> log_internal[log] = COMMITTED
  :: operation == INTERNAL_FAILED || operation == INTERNAL_GIVEN_UP -> log_internal[log] = FAILED
  :: operation == ABORT_SAGA -> log_aborted[log] = 1
  :: operation == START_UNDO ->
     if
     :: log_external[log] == COMMITTED -> log_external[log] = UNDOING
     :: else -> log_internal[log] = UNDOING
     fi
  :: operation == UNDONE ->
     if
     :: log_external[log] == UNDOING -> log_external[log] = COMPENSATED
     :: else -> log_internal[log] = COMPENSATED
     fi
  :: else
  fi;
  if
  :: !DRAINING(log) && log_external[log] == COMMITTED && log_internal[log] == COMMITTED ->
     log_end[log] = 1
  :: DRAINING(log) && log_external[log] != STARTED && log_external[log] != COMMITTED &&
     log_external[log] != UNDOING && log_internal[log] != STARTED &&
     log_internal[log] != COMMITTED && log_internal[log] != UNDOING -> log_end[log] = 2
  :: else
  fi
}

inline raise_epoch() { epoch = epoch + 1; writer = NO_NODE }

#ifdef withdraws_claimed
#define MAY_WITHDRAW (row == ROW_OPEN || row == ROW_WITHDRAWN)
#else
#define MAY_WITHDRAW (worker_lease == 0 && (row == ROW_OPEN || row == ROW_WITHDRAWN))
#endif

/* a report that came before its step, which never started: an operator sees it (core.reports) */
#define HAS_UNUSED_REPORT (has_early_report && log_attempt[DATABASE] == 0)

inline put_row(node_, operation_) {
  if
  :: operation_ == START_EXTERNAL ->
     reported_lease = 0; worker_lease = 0; is_leased = 0; suspension = 0; suspension_count = 0;
     is_done_acknowledged = 0;
     if
     :: log_attempt[DATABASE] == 0 && !DRAINING(node_) && !has_early_report -> row = ROW_OPEN
     :: else -> row = NO_ROW
     fi
  :: operation_ == PUT_OFFER ->
     if
     :: row == NO_ROW || row == ROW_SUSPENDED || row == ROW_WITHDRAWN || row == ROW_PERSON ->
        row = ROW_OPEN; is_leased = 0
     :: else
     fi
  :: operation_ == PUT_SUSPENDED || operation_ == PUT_PERSON ->
     if
     :: row == ROW_OPEN || row == ROW_UNKNOWN || row == ROW_SUSPENDED || row == ROW_FAILED ->
        is_leased = 0;
        if
        :: operation_ == PUT_SUSPENDED -> row = ROW_SUSPENDED
        :: else -> row = ROW_PERSON
        fi
     :: else
     fi;
     if
     :: operation_ == PUT_SUSPENDED -> suspension = BY_UNKNOWN
     :: else -> suspension = BY_PERSON
     fi;
     suspension_count = unknown_count[node_]
  :: operation_ == EXTERNAL_SUCCEEDED || operation_ == EXTERNAL_FAILED ||
     operation_ == EXTERNAL_GIVEN_UP ->
     require(DONE_IS_KEPT, !is_done_acknowledged || operation_ == EXTERNAL_SUCCEEDED);
     row = ROW_SETTLED; is_leased = 0; suspension = 0; suspension_count = 0;
     reported_lease = 0; worker_lease = 0; has_early_report = 0
  :: operation_ == PUT_EARLY_REPORT -> has_early_report = 1
  :: else
  fi
}

inline withdraw(withdrew_) {
  if
  :: MAY_WITHDRAW -> row = ROW_WITHDRAWN; withdrew_ = 1
  :: else -> withdrew_ = 0
  fi
}

/* Execute a commit of a node under an epoch; `ok_`: whether the shard is in its answer. */
inline execute(node_, epoch_, operation_, ok_, withdrew_) {
  withdrew_ = 0;
#ifdef no_fence
  ok_ = 1;
#else
  ok_ = (epoch_ == epoch);
#endif
  if
  :: (operation_ == EXTERNAL_FAILED || operation_ == EXTERNAL_GIVEN_UP) &&
     row == ROW_SUCCEEDED -> ok_ = 0 /* its shard would be null, which the table refuses */
  :: else
  fi;
  if
  :: ok_ ->
#ifndef WITHOUT_ONE_WRITER
     require(ONE_WRITER, writer == NO_NODE || writer == node_);
#endif
     writer = node_;
     if
     :: operation_ == PUT_WITHDRAWN -> withdraw(withdrew_)
     :: else -> put_row(node_, operation_)
     fi;
     apply(DATABASE, operation_);
     if
     :: log_end[DATABASE] ->
        require(EFFECT_IF_COMMITTED, HAS_UNUSED_REPORT ||
          external_effect == (log_external[DATABASE] == COMMITTED));
        require(EFFECT_IF_COMMITTED,
          internal_effect == (log_internal[DATABASE] == COMMITTED))
     :: else
     fi
#ifdef withdraws_unfenced
  :: !ok_ && operation_ == PUT_WITHDRAWN -> withdraw(withdrew_)
#endif
  :: else
  fi
}
