package sagas;

/** The time of {@link Client#await} is over, and the saga is still open. Wait again. */
public final class WaitTimeoutException extends SagasException {
  private static final long serialVersionUID = 1;
  private final transient @Nullable Saga saga;

  WaitTimeoutException(String key, @Nullable Saga saga) {
    super("the saga '" + key + "' has not ended in time" + waitsOf(saga) + "; wait again", null);
    this.saga = saga;
  }

  private static String waitsOf(@Nullable Saga saga) {
    if (saga == null || saga.waits().isEmpty()) return "";
    Saga.Waiting wait = saga.waits().get(0);
    String what = wait.isCompensation() ? "the compensation of step '" : "step '";
    return ": " + what + wait.step() + "' waits (" + wait.why() + ")";
  }

  /**
   * Returns the saga as it was seen last, or null if no service answered in time. {@link
   * Saga#waits} says what it waits for.
   */
  public @Nullable Saga saga() {
    return saga;
  }
}
