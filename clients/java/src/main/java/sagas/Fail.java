package sagas;

/** There was no effect, none will follow, and further attempts are useless. */
public final class Fail extends OutcomeException {
  private static final long serialVersionUID = 1;

  /**
   * Makes one.
   *
   * @param message what happened, for people
   */
  public Fail(String message) {
    super(message, null);
  }

  /**
   * Makes one with a cause. The cause is not stored.
   *
   * @param message what happened, for people
   * @param cause what was caught, or null
   */
  public Fail(String message, @Nullable Throwable cause) {
    super(message, cause);
  }
}
