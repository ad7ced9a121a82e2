package sagas;

import com.fasterxml.jackson.databind.JsonNode;
import java.util.concurrent.Future;

/** A task that this worker has. */
final class Held {
  final JsonNode task;
  final long claimed; // System.nanoTime when its lease began
  final long begin; // the latest time to begin it, so that its first heartbeat comes in time
  volatile @Nullable Progress progress;
  volatile @Nullable StopReason stopReason;
  volatile @Nullable Future<?> heartbeat; // the next one
  final Scope beats; // ends with the function
  @Nullable Progress sent; // used by one heartbeat at a time

  // used under the lock of its run
  @Nullable Thread thread; // that calls the function now
  boolean isInterrupted; // before its function was called

  /** How far a function is. */
  record Progress(double fraction, @Nullable String detail) {}

  Held(JsonNode task, long claimed, Scope calls) {
    this.task = task;
    this.claimed = claimed;
    this.begin = claimed + (long) (task.path("seconds").asDouble() / 2 * 1e9);
    this.stopReason = StopReason.of(task.path("cancelled").textValue());
    this.beats = calls.child();
  }

  String name() {
    return text("name");
  }

  String attemptId() {
    return text("attempt_id");
  }

  String text(String name) {
    return task.path(name).asText();
  }

  JsonNode value(String name) {
    return task.path(name);
  }

  boolean isClaimedAborted() {
    return "aborted".equals(task.path("cancelled").textValue());
  }
}
