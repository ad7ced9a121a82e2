package sagas;

/**
 * A task needs an optional step, and that step has failed. {@link #failure} is what it raised. Look
 * at {@link Task#failureOf} first.
 */
public final class StepFailedException extends SagasException {
  private static final long serialVersionUID = 1;

  /** What the step raised. */
  private final String failure;

  StepFailedException(String step, String failure) {
    super("the optional step '" + step + "' has failed", null);
    this.failure = failure;
  }

  /** Returns what the step raised. */
  public String failure() {
    return failure;
  }
}
