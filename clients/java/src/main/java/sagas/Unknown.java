package sagas;

/** The effect may have happened. The attempt repeats after its back-off, with the same idempotency
 * key. Each other exception and error means the same. */
public final class Unknown extends OutcomeException {
  private static final long serialVersionUID = 1;

  /**
   * Makes one.
   *
   * @param message what happened, for people
   */
  public Unknown(String message) {
    super(message, null);
  }

  /**
   * Makes one with a cause. The cause is not stored.
   *
   * @param message what happened, for people
   * @param cause what was caught, or null
   */
  public Unknown(String message, @Nullable Throwable cause) {
    super(message, cause);
  }
}
