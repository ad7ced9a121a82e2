package sagas;

/**
 * A step has no result that is in effect, or is none that the task's step needs. If sagas that were
 * started before have no such need, look at {@link Task#results} first.
 */
public final class MissingResultException extends SagasException {
  private static final long serialVersionUID = 1;

  MissingResultException(String message) {
    super(message, null);
  }
}
