package sagas;

/** What {@link Client#batch} does with each saga of a filter. The notes are for people. */
public sealed interface BatchAction {
  /**
   * Aborts open sagas that were not asked to abort.
   *
   * @param note why, or null
   */
  record Abort(@Nullable String note) implements BatchAction {}

  /**
   * Marks sagas as repaired by hand.
   *
   * @param note what was done
   */
  record Resolve(String note) implements BatchAction {}

  /**
   * Has attempts called again whose outcome is unknown, or that are used up.
   *
   * @param note why, or null
   */
  record Retry(@Nullable String note) implements BatchAction {}

  /**
   * Reports that a step is done.
   *
   * @param result its result, as for {@link Client#complete}; null is JSON's null
   * @param note why, or null
   */
  record Complete(@Nullable Object result, @Nullable String note) implements BatchAction {}

  /**
   * Reports that a step failed permanently, without an effect.
   *
   * @param error what happened
   * @param note why, or null
   */
  record Fail(String error, @Nullable String note) implements BatchAction {}
}
