/* Child sagas: a parent, its child, and the saga that undoes the child.
 *
 * Two nodes may drive the parent, one after the other. The start of a child is a commit of another
 * shard, so no epoch of the parent fences it. A node that lost the parent may still start the
 * child. Commits of the parent are fenced, which external.pml checks. Here each is one step.
 */
#include "properties.pml"
#ifndef TAKEOVERS
#define TAKEOVERS 1
#endif
#ifndef ABORTS
#define ABORTS 1
#endif

/* the step of the parent that is a child saga */
#define WAITING 0
#define STARTED 1
#define COMMITTED 2
#define FAILED 3
#define UNDOING 4
#define UNDONE 5
/* a saga */
#define ABSENT 0
#define OPEN 1
#define COMPLETED 2
#define RECOVERED 3
/* the job of a node that follows a child */
#define NO_JOB 0
#define STARTS_CHILD 1
#define FOLLOWS_CHILD 2
#define STARTS_UNDO 3
#define FOLLOWS_UNDO 4

byte owner, step, child, undo_saga, effects;
bit is_aborted, has_other_failed, has_ended, child_is_aborted, child_has_effect;
byte child_starter = 2;
byte job[2];
byte takeovers_left = TAKEOVERS, aborts_left = ABORTS;

#define DRAINING (is_aborted || has_other_failed || step == FAILED)
#define OWNS(i) (owner == i && !has_ended)

inline end_parent() {
  has_ended = 1;
  require(EFFECT_IF_COMMITTED, effects == (step == COMMITTED));
  require(NOTHING_AFTER_END, child != OPEN && undo_saga != OPEN)
}

inline start_child(i_) {
  require(NOTHING_AFTER_END, !has_ended || child != ABSENT);
  if
  :: child == ABSENT -> child = OPEN; child_starter = i_
#ifdef new_key_per_node
  :: child != ABSENT && child_starter != i_ ->
     effects = effects + 1; child_starter = i_   /* another child, which completes at once */
#endif
  :: else   /* a saga has the key: it is the child */
  fi
}

proctype node(byte i) {
  do
  :: atomic { takeovers_left > 0 && owner != i && !has_ended ->
       takeovers_left = takeovers_left - 1; owner = i; job[i] = NO_JOB }
  :: atomic { owner != i && (job[i] == FOLLOWS_CHILD || job[i] == FOLLOWS_UNDO) -> job[i] = NO_JOB }
  :: atomic { OWNS(i) && step == WAITING && !DRAINING -> step = STARTED; job[i] = STARTS_CHILD }
  /* -- a node that loaded the parent looks for the child */
#ifndef no_follow_after_load
  :: atomic { OWNS(i) && step == STARTED && job[i] == NO_JOB ->
       if
       :: child == ABSENT ->
#ifdef skips_missing_child
          if
          :: DRAINING -> step = FAILED
          :: else -> job[i] = STARTS_CHILD
          fi
#else
          job[i] = STARTS_CHILD
#endif
       :: else -> job[i] = FOLLOWS_CHILD
       fi }
  :: atomic { OWNS(i) && step == UNDOING && job[i] == NO_JOB -> job[i] = STARTS_UNDO }
#endif
  /* -- starts, which no epoch of the parent fences */
  :: atomic { job[i] == STARTS_CHILD -> start_child(i); job[i] = FOLLOWS_CHILD }
  :: atomic { job[i] == STARTS_UNDO ->
       require(NOTHING_AFTER_END, !has_ended || undo_saga != ABSENT);
       if
       :: undo_saga == ABSENT -> undo_saga = OPEN
       :: else
       fi;
       job[i] = FOLLOWS_UNDO }
  /* -- a child is aborted with its parent */
  :: atomic { OWNS(i) && job[i] == FOLLOWS_CHILD && is_aborted && child == OPEN &&
       !child_is_aborted -> child_is_aborted = 1 }
#ifdef no_wait_for_abort
  :: atomic { OWNS(i) && job[i] == FOLLOWS_CHILD && is_aborted && step == STARTED ->
       step = FAILED; job[i] = NO_JOB }
#endif
  /* -- reports */
  :: atomic { OWNS(i) && job[i] == FOLLOWS_CHILD && step == STARTED && child > OPEN ->
       job[i] = NO_JOB;
#ifdef failure_is_success
       step = COMMITTED
#else
       if
       :: child == COMPLETED -> step = COMMITTED
       :: child == RECOVERED -> step = FAILED
       fi
#endif
     }
  :: atomic { OWNS(i) && job[i] == FOLLOWS_UNDO && step == UNDOING && undo_saga > OPEN ->
       job[i] = NO_JOB; step = UNDONE }
  /* -- the engine */
  :: atomic { OWNS(i) && DRAINING && step == COMMITTED -> step = UNDOING; job[i] = STARTS_UNDO }
  :: atomic { OWNS(i) && !DRAINING && step == COMMITTED -> end_parent() }
  :: atomic { OWNS(i) && DRAINING && (step == WAITING || step == FAILED || step == UNDONE) ->
       end_parent() }
  od
}

/* The child has one effect, and the saga that undoes it removes the effect. */
active proctype sagas() {
  do
  :: atomic { child == OPEN && !child_has_effect && !child_is_aborted ->
       require(NOTHING_AFTER_END, !has_ended);
       child_has_effect = 1; effects = effects + 1 }
  :: atomic { child == OPEN && child_has_effect && !child_is_aborted -> child = COMPLETED }
  :: atomic { child == OPEN && !child_has_effect -> child = RECOVERED }
  :: atomic { child == OPEN && child_is_aborted ->
       if
       :: child_has_effect -> child_has_effect = 0; effects = effects - 1
       :: else
       fi;
       child = RECOVERED }
  :: atomic { undo_saga == OPEN ->
       if
       :: child_has_effect -> child_has_effect = 0; effects = effects - 1
       :: else
       fi;
       undo_saga = COMPLETED }
  od
}

active proctype world() {
  do
  :: atomic { aborts_left > 0 && !has_ended && step < UNDOING ->
       aborts_left = aborts_left - 1;
       if
       :: is_aborted = 1
       :: has_other_failed = 1
       fi }
  :: atomic { timeout -> require(ENDS_OR_WAITS, has_ended); break }
  od
}

init {
  atomic {
    choose_budget(takeovers_left); choose_budget(aborts_left);
    run node(0); run node(1)
  }
}
