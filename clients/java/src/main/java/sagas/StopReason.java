package sagas;

/** Why a function should stop; see {@link Task#stopReason}. */
public enum StopReason {
  /** The saga was aborted. The function's thread is interrupted once for each attempt. */
  ABORTED,
  /** Another step failed, so the saga is about to be planned. The thread is not interrupted. */
  FAILED,
  /** Another worker has the task, or its outcome was reported. The thread is interrupted. */
  LOST,
  /** The worker was closed, and its shutdown timeout is over. The thread is interrupted. */
  CLOSING;

  static @Nullable StopReason of(@Nullable String text) {
    if (text == null) {
      return null;
    }
    return switch (text) {
      case "aborted" -> ABORTED;
      case "failed" -> FAILED;
      default -> null;
    };
  }
}
