/* External attempts: nodes, leases, workers, claims, reports, unknown outcomes, and an abort.
 *
 * Two nodes, one shard, one saga. Its external step is claimed by workers at any node; its internal
 * step and all compensations are called by the node that drives the shard. Each fault has a budget
 * that is chosen in the beginning, so all runs are finite: the last state of each is checked
 * (`timeout` in external/world.pml). Runs of mutants that are not finite have formulas.
 */
#include "properties.pml"
#include "external/state.pml"
#include "external/commit.pml"
#include "external/recovery.pml"
#include "external/node.pml"
#include "external/worker.pml"
#include "external/world.pml"

init {
  atomic {
    is_up[0] = 1; holds_lease[0] = 1; is_live[0] = 1;
    is_up[1] = 1; holds_lease[1] = 1; is_live[1] = 1;
    owner = 0; epoch = 1; driving[0] = DRIVES; node_epoch[0] = 1;
#ifdef SEQUENTIAL
    log_internal[0] = COMMITTED; log_internal[DATABASE] = COMMITTED; internal_effect = 1;
#endif
    choose_budget(crashes_left); choose_budget(lapses_left); choose_budget(losses_left);
    choose_budget(worker_lapses_left); choose_budget(worker_crashes_left);
    choose_budget(stops_left); choose_budget(aborts_left); choose_budget(early_reports_left);
    choose_budget(retries_left); choose_budget(operator_reports_left);
    run node(0); run node(1); run worker(0);
#if WORKERS > 1
    run worker(1);
#endif
    run world()
  }
}

#define IS_OVER (log_end[DATABASE] || (row == ROW_PERSON && suspension == BY_PERSON))
#define IS_DRIVEN \
  (log_end[DATABASE] || (owner != NO_NODE && is_up[owner] && driving[owner] == DRIVES))
#ifdef FORMULAS
ltl ends { <> IS_OVER }
ltl driven { [] <> IS_DRIVEN }
#endif
