package sagas;

/** There was no effect. Another attempt follows, as often as {@code tries} of the step says. */
public final class Retry extends OutcomeException {
  private static final long serialVersionUID = 1;

  /**
   * Makes one.
   *
   * @param message what happened, for people
   */
  public Retry(String message) {
    super(message, null);
  }

  /**
   * Makes one with a cause. The cause is not stored.
   *
   * @param message what happened, for people
   * @param cause what was caught, or null
   */
  public Retry(String message, @Nullable Throwable cause) {
    super(message, cause);
  }
}
