package sagas;

/**
 * The thread of a call was interrupted, or its client was closed. The request may have been carried
 * out. After an interruption, the thread's interrupted status is set again.
 */
public final class CanceledException extends SagasException {
  private static final long serialVersionUID = 1;

  CanceledException(String message) {
    super(message, null);
  }
}
