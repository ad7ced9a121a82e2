/* The properties that all models share. `require` asserts one of them by its number, so that
 * models/run can name the property that a counterexample violates. models/README.md explains each.
 */
#define ONE_WRITER 1
#define EFFECT_IF_COMMITTED 2
#define DONE_IS_KEPT 3
#define NOTHING_AFTER_END 4
#define ENDS_OR_WAITS 5
#define DRIVEN 6
#define CALLED_BY_OWNER 7
#define KEPT 8
#define WITHIN_LIMIT 9
#define require(property, condition) assert((condition) || (property == 0))

/* Choose how often a fault happens in this run: 0 up to its limit. */
inline choose_budget(budget) {
  do
  :: budget > 0 -> budget = budget - 1
  :: break
  od
}
