package sagas;

import com.fasterxml.jackson.databind.JsonNode;
import com.fasterxml.jackson.databind.node.ArrayNode;
import com.fasterxml.jackson.databind.node.ObjectNode;
import java.lang.System.Logger.Level;
import java.time.Duration;
import java.util.ArrayDeque;
import java.util.ArrayList;
import java.util.Deque;
import java.util.List;
import sagas.Connection.Request;

/** The reports of a worker: as many in one request as have come while the last one was sent. */
final class Outbox {
  private static final int MOST_SENDERS = 4;
  private static final int LARGEST_BATCH = 100;
  private static final int MOST_BYTES = 256 << 10; // of one request, except that of a single report
  private static final Duration SHORTEST = Duration.ofSeconds(1); // timeout of an attempt

  private final Run run;
  private final Duration timeout;
  private final Deque<Report.Of> waiting = new ArrayDeque<>();
  private int senders;

  Outbox(Run run) {
    this.run = run;
    // if one service does not answer, another one gets the outcome within the lease
    Duration third = run.worker.lease.dividedBy(Leases.HEARTBEATS);
    this.timeout = Times.min(Run.LATE, Times.max(third, SHORTEST));
  }

  void add(Report.Of report) {
    synchronized (this) {
      waiting.add(report);
      if (senders == MOST_SENDERS) {
        return;
      }
      senders++;
    }
    run.threads.execute(this::send);
  }

  private void send() {
    while (true) {
      List<Report.Of> batch = batch();
      if (batch.isEmpty()) {
        return;
      }
      try {
        deliver(batch);
      } catch (InterruptedException error) {
        // the worker has ended
      } catch (RuntimeException | StackOverflowError error) {
        Connection.LOGGER.log(
            Level.ERROR, "reports were given up: {0}", error.getClass().getName());
      } finally {
        run.reported(batch.size());
      }
    }
  }

  /** Takes reports out. If there are none, this sender ends. */
  private synchronized List<Report.Of> batch() {
    List<Report.Of> batch = new ArrayList<>();
    int bytes = 0;
    while (!waiting.isEmpty() && batch.size() < LARGEST_BATCH) {
      bytes += waiting.peek().size();
      if (!batch.isEmpty() && bytes > MOST_BYTES) {
        break;
      }
      batch.add(waiting.poll());
    }
    if (batch.isEmpty()) {
      senders--;
    }
    return batch;
  }

  /** The claim that goes with reports, and what it brought. */
  private static final class Next {
    @Nullable ObjectNode claim;
    @Nullable JsonNode found;

    Next(@Nullable ObjectNode claim) {
      this.claim = claim;
    }

    void read(JsonNode answer) {
      if (answer.path("next").isObject()) {
        found = answer.path("next");
        claim = null;
      }
    }
  }

  /** Repeats reports until each is answered. */
  private void deliver(List<Report.Of> reports) throws InterruptedException {
    Next next = new Next(run.next());
    boolean isClaiming = next.claim != null;
    try (Scope within = run.within()) {
      List<Report.Of> left = reports;
      Duration pause = Connection.FIRST_PAUSE;
      while (left.size() > 1) {
        try {
          left = together(within, left, next);
        } catch (ProblemException problem) {
          if (problem.refusesWorker()) {
            if (problem.status() == 403 && next.claim != null) {
              next.claim = null; // no more tasks may be claimed with them
              continue;
            }
            run.refuse(problem);
            return;
          }
          break;
        } catch (UnreachableException error) {
          break;
        }
        if (left.size() < 2 || !within.sleep(pause.toNanos())) {
          break;
        }
        pause = Times.min(pause.multipliedBy(2), Connection.LONGEST_PAUSE);
      }
      for (Report.Of report : left) { // a single one, and those whose batch was refused
        alone(within, report, next);
      }
    } finally {
      if (isClaiming) {
        run.claimedNext(next.found);
      }
    }
  }

  private Request request(String path, ObjectNode body, Next next) {
    if (next.claim != null) {
      body.set("next", next.claim);
    }
    return Request.post(path, body, timeout).upTo(Run.LATE);
  }

  /** Reports several tasks at once. It returns those that are to be repeated. */
  private List<Report.Of> together(Scope within, List<Report.Of> batch, Next next)
      throws InterruptedException {
    ObjectNode body = Values.object();
    ArrayNode reports = body.putArray("reports");
    batch.forEach(report -> reports.add(report.json(false)));
    JsonNode answer =
        run.worker.connection.repeat(within, request("/v1/tasks/report", body, next));
    next.read(answer);
    if (answer.path("reports").size() != batch.size()) {
      return batch;
    }
    List<Report.Of> left = new ArrayList<>();
    for (int at = 0; at < batch.size(); at++) {
      JsonNode reply = answer.path("reports").path(at);
      if (reply.path("kept").asBoolean() || !reply.path("problem").isObject()) {
        continue;
      }
      ProblemException problem = ProblemException.of(reply.path("problem"));
      Report.Of again = problem.isRepeated() ? batch.get(at) : instead(batch.get(at), problem);
      if (again != null) {
        left.add(again);
      }
    }
    return left;
  }

  /** Reports one task. */
  private void alone(Scope within, Report.Of first, Next next) throws InterruptedException {
    Report.Of report = first;
    while (report != null) {
      String outcome = report.report().outcome();
      String attempt = report.held().attemptId();
      String path = "/v1/tasks/" + Connection.escaped(attempt) + "/" + outcome;
      try {
        next.read(
            run.worker.connection.repeat(within, request(path, report.json(true), next)));
        return;
      } catch (ProblemException problem) {
        if (next.claim != null && problem.refusesWorker() && problem.status() == 403) {
          next.claim = null; // no more tasks may be claimed with it
          continue;
        }
        report = instead(report, problem);
      } catch (UnreachableException error) {
        Connection.LOGGER.log(
            Level.WARNING,
            "{0}: the report {1} was given up: {2}",
            attempt,
            outcome,
            error.getMessage());
        return;
      }
    }
  }

  /** Returns the report to send instead of one that the service refuses, or null. */
  private Report.@Nullable Of instead(Report.Of report, ProblemException problem) {
    boolean isUnstorable = problem.status() == 413 || problem.status() == 422;
    if (isUnstorable
        && report.report() instanceof Report.Succeeded succeeded
        && !succeeded.isReplaced()) {
      Connection.LOGGER.log(
          Level.WARNING,
          "{0}: the result was refused: {1}",
          report.held().attemptId(),
          problem.getMessage());
      return report.with(Report.unstorable(problem.detail()));
    }
    if (problem.refusesWorker()) {
      run.refuse(problem);
    } else {
      Connection.LOGGER.log(
          Level.WARNING,
          "{0}: the report {1} was not kept: {2}",
          report.held().attemptId(),
          report.report().outcome(),
          problem.getMessage());
    }
    return null;
  }
}
