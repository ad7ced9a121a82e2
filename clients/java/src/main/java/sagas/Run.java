package sagas;

import com.fasterxml.jackson.databind.JsonNode;
import com.fasterxml.jackson.databind.node.ObjectNode;
import java.io.IOException;
import java.lang.System.Logger.Level;
import java.time.Duration;
import java.util.ArrayDeque;
import java.util.ArrayList;
import java.util.Deque;
import java.util.HashSet;
import java.util.List;
import java.util.Map;
import java.util.Set;
import java.util.concurrent.Executor;
import java.util.concurrent.ExecutorService;
import java.util.concurrent.Executors;
import java.util.concurrent.RejectedExecutionException;
import java.util.concurrent.ScheduledThreadPoolExecutor;
import java.util.concurrent.TimeUnit;
import java.util.concurrent.atomic.AtomicInteger;
import sagas.Connection.Request;

/** The work of a worker from its start to its end: claims, and calls of functions. */
final class Run {
  private static final Duration AHEAD = Duration.ofMillis(100); // as much is claimed ahead
  private static final int MOST_AHEAD = 90;
  private static final int LARGEST_CLAIM = 100;
  private static final int MOST_REPORTS = 128; // functions that ended, and are not reported yet
  private static final Duration LOOK = Duration.ofMillis(500); // at what was claimed ahead
  private static final Duration END_PAUSE = Duration.ofSeconds(1); // between ends of a claim
  private static final Duration END_TIMEOUT = Duration.ofSeconds(5); // of one of them
  private static final Duration GRACE = Duration.ofSeconds(5); // after a wait or a shutdown timeout
  static final Duration LATE = Duration.ofSeconds(40); // for an answer, next to the wait

  final Worker worker;
  final Scope calls = new Scope(); // of functions and heartbeats
  private final Scope reported = calls.child(); // of reports, and of returns of tasks
  private final Scope answers = calls.child(); // of the claim that is under way at the stop
  private final Scope claims = new Scope();
  private final Map<String, Worker.Function> functions;
  private final List<String> steps;
  private final Leases leases;
  private final Outbox outbox;
  final ExecutorService threads; // of claims, reports, heartbeats and, by default, functions
  final ScheduledThreadPoolExecutor timer;
  private final Executor executor;

  // under the lock of this object
  private final Deque<Held> queue = new ArrayDeque<>(); // claimed, and not begun
  private final Set<Held> running = new HashSet<>();
  private final Set<String> unknownSteps = new HashSet<>(); // which were logged
  private int busy; // claims, functions, reports, and returns of tasks
  private int reports; // in the outbox, or under way
  private long moves; // how often the queue changed
  private long lastMoves = -1;
  private long mean = AHEAD.toNanos(); // that a function took lately
  private boolean isClaiming; // a request for tasks is under way
  private boolean wasAnswered; // a claim was
  private boolean isClosing; // the shutdown timeout is over
  private boolean isEnded;
  private @Nullable ProblemException refusal;

  Run(Worker worker, Map<String, Worker.Function> functions) {
    this.worker = worker;
    this.functions = functions;
    this.steps = functions.keySet().stream().sorted().toList();
    this.leases = new Leases(this);
    this.outbox = new Outbox(this);
    AtomicInteger count = new AtomicInteger();
    this.threads =
        Executors.newCachedThreadPool(
            task -> daemon(task, "sagas-" + worker.name + "-" + count.incrementAndGet()));
    this.timer =
        new ScheduledThreadPoolExecutor(1, task -> daemon(task, "sagas-" + worker.name + "-timer"));
    this.timer.setRemoveOnCancelPolicy(true);
    this.executor = worker.executor == null ? threads : worker.executor;
  }

  private static Thread daemon(Runnable task, String name) {
    Thread thread = new Thread(task, name);
    thread.setDaemon(true);
    return thread;
  }

  // -- from the start to the end

  void start() {
    busy = 1;
    long look = LOOK.toMillis();
    timer.scheduleWithFixedDelay(this::lookAhead, look, look, TimeUnit.MILLISECONDS);
    threads.execute(this::claimTasks);
    // not a daemon: it keeps the JVM alive while the worker works
    new Thread(this::supervise, "sagas-" + worker.name).start();
  }

  void stop() {
    claims.close();
    changed();
  }

  /** Waits for the stop, and then for the rest. */
  private void supervise() {
    try {
      claims.sleep(Long.MAX_VALUE / 2);
      Duration late = worker.wait.plus(GRACE);
      // An answer with tasks may be on its way: if it were not read, they would be held until their
      // leases expire.
      timer.schedule(answers::close, late.toMillis(), TimeUnit.MILLISECONDS);
      giveBack();
      if (worker.shutdownTimeout != null && !isIdleWithin(worker.shutdownTimeout)) {
        interruptAll();
      }
      synchronized (this) {
        while (busy > 0 && !isClosing) {
          wait();
        }
      }
      if (!isIdleWithin(GRACE)) {
        leave();
      }
      isIdleWithin(GRACE.plus(END_PAUSE));
    } catch (InterruptedException error) {
      Connection.LOGGER.log(Level.WARNING, "a worker was interrupted, and ends");
    } finally {
      claims.close();
      calls.close();
      timer.shutdownNow();
      threads.shutdown();
      synchronized (this) {
        isEnded = true;
        notifyAll();
      }
    }
  }

  private synchronized boolean isIdleWithin(Duration limit) throws InterruptedException {
    long until = System.nanoTime() + Times.nanos(limit);
    while (busy > 0) {
      long left = until - System.nanoTime();
      if (left <= 0) {
        return false;
      }
      TimeUnit.NANOSECONDS.timedWait(this, left);
    }
    return true;
  }

  /** Waits for the end. The first interruption stops, and a further one interrupts functions. */
  void join() {
    boolean wasInterrupted = false;
    while (true) {
      try {
        synchronized (this) {
          while (!isEnded) {
            wait();
          }
        }
        break;
      } catch (InterruptedException error) {
        if (claims.isClosed()) {
          interruptAll();
        }
        stop();
        wasInterrupted = true;
      }
    }
    if (wasInterrupted) {
      Thread.currentThread().interrupt();
    }
  }

  synchronized @Nullable ProblemException refusal() {
    return refusal;
  }

  /** Stops the worker, because the service refuses it. */
  void refuse(ProblemException problem) {
    synchronized (this) {
      if (refusal == null) {
        refusal = problem;
        Connection.LOGGER.log(Level.ERROR, "the service refuses the worker: {0}", problem.getMessage());
      }
    }
    stop();
  }

  /** Interrupts running functions, and gives up reports that no service answers for a while. */
  private void interruptAll() {
    answers.close();
    List<Held> interrupted;
    synchronized (this) {
      if (isClosing) {
        return;
      }
      isClosing = true;
      interrupted = new ArrayList<>(running);
      notifyAll();
    }
    interrupted.forEach(held -> stop(held, StopReason.CLOSING, true));
    timer.schedule(reported::close, GRACE.toMillis(), TimeUnit.MILLISECONDS);
  }

  /** Waits no more for functions that continue although they were interrupted. */
  private void leave() {
    List<Held> left;
    synchronized (this) {
      left = new ArrayList<>(running);
      running.clear();
    }
    for (Held held : left) {
      Connection.LOGGER.log(
          Level.WARNING,
          "{0} of {1} continues after it was interrupted. The worker does not wait for it, and its"
              + " outcome is not reported",
          held.name(),
          held.attemptId());
      held.beats.close();
      done();
    }
  }

  /** Returns the time of a report, or of a return: it ends some time after the shutdown timeout. */
  Scope within() {
    synchronized (this) {
      return isClosing ? calls.child(GRACE) : reported.child();
    }
  }

  synchronized void changed() {
    notifyAll();
  }

  synchronized void begun() {
    busy++;
  }

  synchronized void done() {
    busy--;
    notifyAll();
  }

  // -- claims

  private synchronized int free() {
    return worker.concurrency - running.size();
  }

  /** Returns how many tasks to claim ahead, while functions are short. */
  private synchronized int ahead() {
    if (mean >= AHEAD.toNanos()) {
      return 0;
    }
    long each = Math.max(mean, 1_000_000);
    return (int) Math.min(MOST_AHEAD, AHEAD.toNanos() / each * worker.concurrency);
  }

  private ObjectNode claim(int limit, Duration wait) {
    ObjectNode claim = Values.object();
    steps.forEach(claim.putArray("steps")::add);
    claim.put("limit", limit).put("wait", Times.seconds(wait));
    return claim.put("lease", Times.seconds(worker.lease)).put("worker", worker.name);
  }

  /** Returns what to claim with a report, or null. Its answer goes to {@link #claimedNext}. */
  synchronized @Nullable ObjectNode next() {
    int limit = Math.min(LARGEST_CLAIM, free() + ahead() - queue.size());
    if (isClaiming || claims.isClosed() || limit < 1 || queue.size() > limit / 2) {
      return null;
    }
    isClaiming = true;
    return claim(limit, Duration.ZERO);
  }

  void claimedNext(@Nullable JsonNode found) {
    synchronized (this) {
      isClaiming = false;
    }
    if (found != null) {
      add(found);
    }
    if (claims.isClosed()) {
      giveBack(); // they came after the stop
    }
    changed();
  }

  /** Waits at the service while there is nothing to do, until the worker is stopped. */
  private void claimTasks() {
    try {
      while (!claims.isClosed()) {
        ObjectNode claim = awaitIdle();
        if (claim == null) {
          break;
        }
        Duration wait = Duration.ofMillis((long) (claim.path("wait").asDouble() * 1000));
        Request request =
            Request.post("/v1/tasks/claim", claim, wait.plus(LATE)).waiting(wait);
        JsonNode found = worker.connection.repeat(claims, request, this::waitFor);
        synchronized (this) {
          isClaiming = false;
          wasAnswered = true;
        }
        add(found);
      }
    } catch (ProblemException problem) {
      refuse(problem);
    } catch (UnreachableException | InterruptedException error) {
      // the worker was stopped
    } finally {
      giveBack();
      done();
    }
  }

  /** Waits until tasks are to be claimed, and returns the claim; null if the worker is stopped. */
  private synchronized @Nullable ObjectNode awaitIdle() throws InterruptedException {
    while (!claims.isClosed()) {
      if (!isClaiming && queue.isEmpty() && free() > 0 && reports < MOST_REPORTS) {
        isClaiming = true;
        // the first answer comes at once: it says which steps are unknown there
        return claim(
            Math.min(LARGEST_CLAIM, free() + ahead()), wasAnswered ? worker.wait : Duration.ZERO);
      }
      wait();
    }
    return null;
  }

  /** Sends a claim. If the worker is stopped while it waits, the service is asked to end it. */
  private ObjectNode waitFor(String service, Request request)
      throws IOException, InterruptedException {
    try (Scope unanswered = answers.child()) {
      if (!request.waitTime().isZero()) {
        begun();
        Scope.Hook hook =
            claims.onEnd(() -> threads.execute(() -> endAtStop(unanswered, service)));
        unanswered.onEnd(
            () -> {
              hook.close();
              done();
            });
      }
      return worker.connection.ask(answers, service, request);
    }
  }

  /**
   * Asks a service to end the claims of this worker's name that wait there. It repeats that until the
   * claim is answered, because the claim may not have arrived yet, or a balancer may lead the request
   * to a service that does not have it. An older service refuses it.
   */
  private void endAtStop(Scope unanswered, String service) {
    Request request =
        Request.post(
            "/v1/tasks/claim/end", Values.object().put("worker", worker.name), END_TIMEOUT);
    try {
      do {
        try {
          worker.connection.ask(unanswered, service, request);
        } catch (ProblemException problem) {
          if (!problem.isRepeated()) {
            return;
          }
        } catch (IOException error) {
          // once more
        }
      } while (unanswered.sleep(END_PAUSE.toNanos()));
    } catch (InterruptedException error) {
      // the worker ends
    }
  }

  /** Takes the tasks of an answer, and begins what can begin. */
  private void add(JsonNode found) {
    long now = System.nanoTime();
    List<String> unknown = new ArrayList<>();
    synchronized (this) {
      for (JsonNode task : found.path("tasks")) {
        if (functions.containsKey(task.path("name").asText())) {
          queue.add(new Held(task, now, calls));
          moves++;
        }
      }
      for (JsonNode step : found.path("unknown_steps")) {
        if (unknownSteps.add(step.asText())) {
          unknown.add(step.asText());
        }
      }
    }
    for (String step : unknown) {
      Connection.LOGGER.log(
          Level.WARNING,
          "no definition of the service has the step {0}. Check its name, or add the definition",
          step);
    }
    begin();
  }

  /** Calls the functions of tasks that can begin. */
  void begin() {
    List<Held> started = new ArrayList<>();
    synchronized (this) {
      while (!queue.isEmpty() && free() > 0 && reports < MOST_REPORTS && !claims.isClosed()) {
        Held held = queue.poll();
        moves++;
        if (System.nanoTime() - held.begin > 0) {
          held.beats.close();
          continue; // it is another worker's, or soon will be
        }
        busy++;
        running.add(held);
        started.add(held);
      }
    }
    for (Held held : started) {
      leases.keep(held);
      try {
        executor.execute(() -> perform(held));
      } catch (RejectedExecutionException error) {
        Connection.LOGGER.log(
            Level.WARNING, "the executor rejected {0}; it returns to the service", held.name());
        synchronized (this) {
          running.remove(held);
        }
        held.beats.close();
        leases.giveBack(held);
      }
    }
  }

  /** Returns tasks that were claimed ahead, and did not begin for a while. */
  private void lookAhead() {
    boolean isStill;
    synchronized (this) {
      isStill = !queue.isEmpty() && moves == lastMoves;
      lastMoves = moves;
      if (isStill) {
        mean = Math.max(mean, LOOK.toNanos());
      }
    }
    if (isStill) {
      giveBack();
    }
  }

  /** Cuts the leases of tasks that did not begin. */
  private void giveBack() {
    List<Held> back;
    synchronized (this) {
      back = new ArrayList<>(queue);
      queue.clear();
      busy += back.size();
    }
    for (Held held : back) {
      held.beats.close();
      leases.giveBack(held);
    }
    changed();
  }

  // -- functions

  /** Calls a task's function. */
  private void perform(Held held) {
    if (held.stopReason == StopReason.LOST) {
      drop(held);
      return;
    }
    long began = System.nanoTime();
    Report report = call(held);
    long took = System.nanoTime() - began;
    held.beats.close();
    synchronized (this) {
      if (!running.remove(held)) {
        return; // the worker does not wait for it
      }
      mean += (took - mean) / 4;
      moves++;
      reports++;
    }
    outbox.add(new Report.Of(held, report));
    begin();
  }

  /** Drops a task that was lost while it waited for a thread of the executor. */
  private void drop(Held held) {
    synchronized (this) {
      if (running.remove(held)) {
        busy--;
        notifyAll();
      }
    }
    held.beats.close();
    begin();
  }

  private Report call(Held held) {
    Report report;
    synchronized (this) {
      held.thread = Thread.currentThread();
      if (held.isInterrupted) {
        held.thread.interrupt();
      }
    }
    try {
      report = Report.of(functions.get(held.name()).call(held), worker.values);
    } catch (Throwable thrown) {
      report = Report.of(thrown);
      if (!(thrown instanceof OutcomeException)) {
        Connection.LOGGER.log(
            Level.WARNING,
            "{0} of {1}: the outcome is unknown: {2}{3}",
            held.name(),
            held.attemptId(),
            thrown instanceof SagasException ? thrown.getMessage() : thrown.getClass().getName(),
            thrown.getStackTrace().length == 0 ? "" : " at " + thrown.getStackTrace()[0]);
      }
    }
    synchronized (this) {
      held.thread = null;
      Thread.interrupted(); // it was meant for the function
    }
    return report;
  }

  /** Says why a function should stop, and may interrupt it. */
  synchronized void stop(Held held, StopReason reason, boolean isInterrupting) {
    if (!running.contains(held)) {
      return;
    }
    held.stopReason = reason;
    if (!isInterrupting) {
      return;
    }
    if (held.thread == null) {
      held.isInterrupted = true;
    } else {
      held.thread.interrupt();
    }
  }

  /** Reports that were in the outbox are answered. */
  void reported(int count) {
    synchronized (this) {
      reports -= count;
      busy -= count;
      notifyAll();
    }
    begin();
  }
}
