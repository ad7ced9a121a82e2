package sagas;

import com.fasterxml.jackson.databind.JsonNode;
import com.fasterxml.jackson.databind.node.ObjectNode;
import java.io.IOException;
import java.lang.System.Logger.Level;
import java.time.Duration;
import java.util.concurrent.Future;
import java.util.concurrent.RejectedExecutionException;
import java.util.concurrent.TimeUnit;
import sagas.Connection.Request;

/** Renews the leases of running functions, and returns those of tasks that did not begin. */
final class Leases {
  static final int HEARTBEATS = 3; // in the time of a lease
  private static final Duration LONGEST_BEAT = Duration.ofSeconds(10); // for one heartbeat
  private static final Duration RETURNED = Duration.ofMillis(500); // the shortest lease

  private final Run run;
  private final Duration each;
  private final Duration timeout;

  Leases(Run run) {
    this.run = run;
    this.each = run.worker.lease.dividedBy(HEARTBEATS);
    this.timeout = Times.min(LONGEST_BEAT, each.dividedBy(2));
  }

  /** What a heartbeat says. */
  private record Beat(boolean isAnswered, @Nullable StopReason reason) {
    static final Beat NOTHING = new Beat(true, null);
    static final Beat SILENCE = new Beat(false, null);
  }

  void keep(Held held) {
    held.beats.onEnd(() -> cancel(held.heartbeat));
    plan(held, held.claimed + each.toNanos(), Connection.FIRST_PAUSE);
  }

  private void plan(Held held, long at, Duration pause) {
    if (held.beats.isOver()) {
      return;
    }
    try {
      held.heartbeat =
          run.timer.schedule(
              () -> run.threads.execute(() -> renew(held, pause)),
              Math.max(0, at - System.nanoTime()),
              TimeUnit.NANOSECONDS);
      if (held.beats.isOver()) {
        cancel(held.heartbeat);
      }
    } catch (RejectedExecutionException error) {
      // the worker has ended
    }
  }

  private static void cancel(@Nullable Future<?> heartbeat) {
    if (heartbeat != null) {
      heartbeat.cancel(false);
    }
  }

  /**
   * Renews a lease. If a heartbeat is not answered, the next service gets one soon, so that the lease
   * outlasts it.
   */
  private void renew(Held held, Duration pause) {
    long began = System.nanoTime();
    Beat beat;
    try {
      beat = beat(held.beats, held, run.worker.lease);
    } catch (InterruptedException error) {
      return; // the worker has ended
    }
    if (!beat.isAnswered()) {
      plan(held, System.nanoTime() + pause.toNanos(), Times.min(pause.multipliedBy(2), each));
      return;
    }
    if (beat.reason() == StopReason.LOST) {
      run.stop(held, StopReason.LOST, true);
      return;
    }
    if (beat.reason() == StopReason.ABORTED) { // it cancels an attempt once
      boolean isFirst = held.stopReason != StopReason.ABORTED && !held.isClaimedAborted();
      run.stop(held, StopReason.ABORTED, isFirst);
    } else if (beat.reason() != null) {
      run.stop(held, beat.reason(), false);
    }
    plan(held, began + each.toNanos(), Connection.FIRST_PAUSE);
  }

  /** Sends one heartbeat, with the progress. */
  private Beat beat(Scope scope, Held held, Duration lease) throws InterruptedException {
    ObjectNode body = Values.object();
    body.put("lease", held.text("lease")).put("seconds", Times.seconds(lease));
    Held.Progress progress = held.progress;
    if (progress != null && progress != held.sent) {
      body.put("progress", progress.fraction());
      body.put("detail", progress.detail() == null ? "" : progress.detail());
    }
    String path = "/v1/tasks/" + Connection.escaped(held.attemptId()) + "/heartbeat";
    String service = run.worker.connection.service();
    try {
      JsonNode answer =
          run.worker.connection.ask(scope, service, Request.post(path, body, timeout));
      held.sent = progress;
      return new Beat(true, StopReason.of(answer.path("cancelled").textValue()));
    } catch (ProblemException problem) {
      if (!problem.isRepeated()) {
        Connection.LOGGER.log(
            Level.WARNING, "{0}: {1}", held.attemptId(), problem.getMessage());
        boolean isLost =
            problem.status() == 404
                || problem.status() == 409
                || problem.name().equals(ProblemException.INVALID_LEASE);
        return isLost ? new Beat(true, StopReason.LOST) : Beat.NOTHING;
      }
    } catch (IOException error) {
      if (scope.isOver()) {
        return Beat.NOTHING; // the function has ended
      }
    }
    run.worker.connection.turnFrom(service);
    return Beat.SILENCE;
  }

  /** Cuts the lease of a task. If the service does not learn of that, it expires. */
  void giveBack(Held held) {
    run.threads.execute(
        () -> {
          try (Scope within = run.within()) {
            if (!beat(within, held, RETURNED).isAnswered()) {
              beat(within, held, RETURNED); // to the next service, or over an open connection
            }
          } catch (InterruptedException error) {
            // the worker has ended
          } finally {
            run.done();
          }
        });
  }
}
