/* Limits over all nodes, and pauses.
 *
 * Two nodes, one slot, and a call at each node. A statement lists the slots of its node, takes one
 * more, and releases the others; its answer may be lost. An operator pauses and resumes the step,
 * and the notification of a node may be lost.
 */
#include "properties.pml"
#ifndef LOSSES
#define LOSSES 1
#endif
#ifndef SILENCES
#define SILENCES 1
#endif
#ifndef PAUSES
#define PAUSES 1
#endif

#define NO_NODE 2
/* the call at a node */
#define WAITS 0
#define REQUESTS 1
#define GRANTED 2
#define RUNS 3
#define RELEASES 4
#define ENDED 5

byte slot = NO_NODE;            /* the node that has the slot in the database */
bit is_live[2] = 1, is_up[2] = 1, was_silent[2];
bit is_answered[2], is_granted[2], has_slot[2];
byte call[2];
bit is_paused, knows_pause[2], is_notified[2];
byte losses_left = LOSSES, silences_left = SILENCES, pauses_left = PAUSES;

#define HAVE_ENDED ((call[0] == ENDED || !is_up[0]) && (call[1] == ENDED || !is_up[1]))
#define RUNNING(i) (call[i] == RUNS && !was_silent[i])

/* TAKE: release what the node does not list, and take a slot that no live node has. */
inline take_slot(i_, wants_) {
#ifndef no_release
  if
#ifdef lists_nothing
  :: slot == i_ -> slot = NO_NODE
#else
  :: slot == i_ && !has_slot[i_] -> slot = NO_NODE
#endif
  :: else
  fi;
#endif
  is_granted[i_] = 0;
  if
  :: wants_ && (slot == NO_NODE ||
#ifdef takes_live_slots
     slot != i_
#endif
#ifdef keeps_gone_slots
     false
#endif
#if !defined(takes_live_slots) && !defined(keeps_gone_slots)
     (slot != i_ && !is_live[slot])
#endif
     ) -> slot = i_; is_granted[i_] = 1
  :: else
  fi
}

proctype node(byte i) {
  do
  :: atomic { is_up[i] && call[i] == WAITS && !knows_pause[i] -> call[i] = REQUESTS }
  :: atomic { is_up[i] && (call[i] == REQUESTS || call[i] == RELEASES) && !is_answered[i] ->
       take_slot(i, call[i] == REQUESTS); is_answered[i] = 1 }
  :: atomic { is_up[i] && call[i] == REQUESTS && is_answered[i] ->
       is_answered[i] = 0;
       if
       :: is_granted[i] -> has_slot[i] = 1; call[i] = GRANTED
       :: else -> call[i] = WAITS
       fi }
  :: atomic { is_up[i] && call[i] == RELEASES && is_answered[i] ->
       is_answered[i] = 0; call[i] = ENDED }
  /* the answer is lost: the next statement repairs it */
  :: atomic { is_answered[i] && losses_left > 0 ->
       losses_left = losses_left - 1; is_answered[i] = 0; is_granted[i] = 0;
       if
       :: call[i] == REQUESTS -> call[i] = WAITS
       :: else
       fi }
  /* -- the call; an attempt that is paused by now leaves its slot to others */
  :: atomic { is_up[i] && call[i] == GRANTED && knows_pause[i] ->
       has_slot[i] = 0; take_slot(i, 0); call[i] = WAITS }
  :: atomic { is_up[i] && call[i] == GRANTED && !knows_pause[i] ->
       call[i] = RUNS; require(WITHIN_LIMIT, RUNNING(0) + RUNNING(1) <= 1) }
  :: atomic { is_up[i] && call[i] == RUNS -> has_slot[i] = 0; call[i] = RELEASES }
#ifdef lists_nothing
  :: atomic { is_up[i] && call[i] == RUNS && slot == i -> slot = NO_NODE } /* another statement */
#endif
  /* -- pauses: a notification, or a look */
  :: atomic { is_up[i] && is_notified[i] -> is_notified[i] = 0; knows_pause[i] = is_paused }
#ifndef no_look_at_pauses
  :: atomic { is_up[i] && knows_pause[i] != is_paused -> knows_pause[i] = is_paused }
#endif
  od
}

proctype world() {
  byte i;
  do
  :: atomic { pauses_left > 0 && !is_paused ->
       pauses_left = pauses_left - 1; is_paused = 1; is_notified[0] = 1; is_notified[1] = 1 }
  :: atomic { is_paused ->
       is_paused = 0; is_notified[0] = 1;
       if
       :: is_notified[1] = 1
       :: losses_left > 0 -> losses_left = losses_left - 1; is_notified[1] = 0
       fi }
  /* a node is silent past its lease, and may be gone */
  :: atomic { silences_left > 0 ->
       silences_left = silences_left - 1;
       if
       :: i = 0
       :: i = 1
       fi;
       is_live[i] = 0; was_silent[i] = 1;
       if
       :: is_up[i] = 0
       :: skip
       fi;
       i = 0 }
  :: atomic { is_up[0] && !is_live[0] -> is_live[0] = 1 }
  :: atomic { is_up[1] && !is_live[1] -> is_live[1] = 1 }
#ifndef FORMULAS
  :: atomic { timeout -> require(ENDS_OR_WAITS, HAVE_ENDED); break }
#endif
  od
}

init {
  atomic {
    choose_budget(losses_left); choose_budget(silences_left); choose_budget(pauses_left);
    run node(0); run node(1); run world()
  }
}

#ifdef FORMULAS
ltl ends { <> HAVE_ENDED }
#endif
