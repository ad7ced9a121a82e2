package sagas;

import com.fasterxml.jackson.core.type.TypeReference;
import com.fasterxml.jackson.databind.JavaType;
import com.fasterxml.jackson.databind.ObjectMapper;
import java.net.InetAddress;
import java.net.UnknownHostException;
import java.net.http.HttpClient;
import java.time.Duration;
import java.util.ArrayList;
import java.util.LinkedHashMap;
import java.util.List;
import java.util.Map;
import java.util.concurrent.Executor;

/**
 * Performs steps for a service: it claims tasks, calls functions and reports outcomes.
 *
 * <p>A task may be performed more than once, so functions pass their {@link Task#idempotencyKey} on.
 * What a function returns or throws is its outcome; see {@link StepFunction}. A running function
 * renews its lease. If functions are short, one request claims several tasks; those that do not begin
 * within half a second return to the service. Reports are repeated until they are answered.
 *
 * <p>Declare all functions first, then call {@link #run} or {@link #start}:
 *
 * <pre>{@code
 * try (Worker worker = Worker.builder("http://127.0.0.1:8080").build()) {
 *   worker.step("trip", "car", Trip.class, task -> cars.book(task.input(), task.idempotencyKey()));
 *   worker.compensation("trip", "car", Trip.class, Car.class,
 *       task -> cars.cancel(task.result().id(), task.idempotencyKey()));
 *   Runtime.getRuntime().addShutdownHook(new Thread(worker::close));
 *   worker.run();
 * }
 * }</pre>
 */
public final class Worker implements AutoCloseable {
  private static final Duration SHORTEST_LEASE = Duration.ofMillis(500);
  private static final Duration LONGEST_LEASE = Duration.ofHours(1);
  private static final Duration LONGEST_WAIT = Duration.ofSeconds(30);
  private static final int LONGEST_NAME = 64;

  final Connection connection;
  final Values values;
  final int concurrency;
  final Duration lease;
  final Duration wait;
  final String name;
  final @Nullable Duration shutdownTimeout;
  final @Nullable Executor executor;
  private final Map<String, Function> functions = new LinkedHashMap<>();
  private @Nullable Run run;
  private boolean isClosed;

  /** Calls the function of a step. */
  interface Function {
    @Nullable Object call(Held held) throws Exception;
  }

  private Worker(Builder builder) {
    if (builder.concurrency < 1) {
      throw new IllegalArgumentException("concurrency " + builder.concurrency + " is not positive");
    }
    if (builder.lease.compareTo(SHORTEST_LEASE) < 0 || builder.lease.compareTo(LONGEST_LEASE) > 0) {
      throw new IllegalArgumentException(
          "lease " + builder.lease + " is not between half a second and an hour");
    }
    if (builder.wait.isNegative() || builder.wait.compareTo(LONGEST_WAIT) > 0) {
      throw new IllegalArgumentException(
          "wait " + builder.wait + " is not between 0 and 30 seconds");
    }
    connection = new Connection(builder.urls, builder.token, builder.http);
    values = new Values(builder.mapper, null, null);
    concurrency = builder.concurrency;
    lease = builder.lease;
    wait = builder.wait;
    name = Report.cut(builder.name == null ? defaultName() : builder.name, LONGEST_NAME);
    shutdownTimeout = builder.shutdownTimeout;
    executor = builder.executor;
  }

  private static String defaultName() {
    String host;
    try {
      host = InetAddress.getLocalHost().getHostName();
    } catch (UnknownHostException error) {
      host = "java";
    }
    return host + "-" + ProcessHandle.current().pid();
  }

  /**
   * Begins a worker of a service.
   *
   * @param url its address, for example {@code http://127.0.0.1:8080}
   */
  public static Builder builder(String url) {
    return new Builder(url);
  }

  /** Options of a worker. */
  public static final class Builder {
    private final List<String> urls = new ArrayList<>();
    private @Nullable String token;
    private @Nullable HttpClient http;
    private @Nullable ObjectMapper mapper;
    private @Nullable Executor executor;
    private @Nullable String name;
    private @Nullable Duration shutdownTimeout;
    private int concurrency = 16;
    private Duration lease = Duration.ofSeconds(30);
    private Duration wait = Duration.ofSeconds(20);

    private Builder(String url) {
      urls.add(url);
    }

    /**
     * Adds services over the same database. The worker begins with a random one of all, and stays
     * there while it answers. If one does not answer, it asks the next one.
     */
    public Builder services(String... further) {
      urls.addAll(List.of(further));
      return this;
    }

    /** Sends a token with each request (default: none). */
    public Builder token(@Nullable String token) {
      this.token = token;
      return this;
    }

    /** Sets how many functions run at once (default: 16). */
    public Builder concurrency(int functions) {
      this.concurrency = functions;
      return this;
    }

    /**
     * Calls functions in an executor (default: threads of the worker's own). It should have as many
     * threads as {@link #concurrency} says: a task that waits there keeps its lease. The worker never
     * shuts it down. A task that the executor rejects returns to the service.
     */
    public Builder executor(Executor executor) {
      this.executor = executor;
      return this;
    }

    /**
     * Sets after how long another worker may have the task of a worker that is gone, from half a
     * second to an hour (default: 30 seconds). A running function renews its lease three times in
     * this time. If a service does not answer that within a sixth of it, and ten seconds at most, the
     * next service is asked.
     */
    public Builder lease(Duration lease) {
      this.lease = lease;
      return this;
    }

    /**
     * Sets for how long a request for tasks waits at the service, at most 30 seconds (default: 20
     * seconds).
     */
    public Builder waitTime(Duration wait) {
      this.wait = wait;
      return this;
    }

    /** Names the worker, for people, in at most 64 characters (default: of host and process). */
    public Builder name(String name) {
      this.name = name;
      return this;
    }

    /**
     * Sets for how long a closed worker waits for running functions (default: without limit). Then it
     * interrupts them, and ends within ten seconds. A function that has not ended five seconds later
     * is left alone, and its outcome is not reported. A report that no service answers for five
     * seconds is given up.
     */
    public Builder shutdownTimeout(Duration timeout) {
      this.shutdownTimeout = timeout;
      return this;
    }

    /** Replaces the HTTP client; see {@link Client.Builder#httpClient}. */
    public Builder httpClient(HttpClient http) {
      this.http = http;
      return this;
    }

    /** Replaces the mapper of inputs and results; see {@link Client.Builder#mapper}. */
    public Builder mapper(ObjectMapper mapper) {
      this.mapper = mapper;
      return this;
    }

    /**
     * Makes the worker. It sends nothing.
     *
     * @throws IllegalArgumentException if an address, the token or an option is not valid
     */
    public Worker build() {
      return new Worker(this);
    }
  }

  /**
   * Declares the function that performs a step.
   *
   * <p>If the input does not fit its type, the function is not called, and the outcome is unknown, so
   * that a worker with another type can perform the task.
   *
   * @param saga the name of the definition
   * @param step the name of the step as declared: {@code ship}, or {@code hotel/room} of an included
   *     saga
   * @param input what Jackson makes of the saga's input; {@link
   *     com.fasterxml.jackson.databind.JsonNode} keeps the JSON
   * @param function what to call
   * @return this worker
   * @throws IllegalArgumentException if the step has a function already
   * @throws IllegalStateException if the worker was started
   */
  public <I> Worker step(String saga, String step, Class<I> input, StepFunction<I> function) {
    return step(saga, step, values.typeOf(input), function);
  }

  /** Declares a function whose input is generic; see {@link #step(String, String, Class,
   * StepFunction)}. */
  public <I> Worker step(
      String saga, String step, TypeReference<I> input, StepFunction<I> function) {
    return step(saga, step, values.typeOf(input), function);
  }

  private <I> Worker step(String saga, String step, JavaType input, StepFunction<I> function) {
    return declare(
        saga + "/" + step, held -> function.perform(new Task<>(held, values, input)));
  }

  /**
   * Declares the function that undoes a step. An abort does not interrupt it.
   *
   * @param saga the name of the definition
   * @param step the name of the step as declared
   * @param input what Jackson makes of the saga's input
   * @param result what Jackson makes of the step's result
   * @param function what to call
   * @return this worker
   * @throws IllegalArgumentException if the compensation has a function already
   * @throws IllegalStateException if the worker was started
   */
  public <I, R> Worker compensation(
      String saga,
      String step,
      Class<I> input,
      Class<R> result,
      CompensationFunction<I, R> function) {
    return compensation(saga, step, values.typeOf(input), values.typeOf(result), function);
  }

  /** Declares a compensation of generic types; see {@link #compensation(String, String, Class, Class,
   * CompensationFunction)}. */
  public <I, R> Worker compensation(
      String saga,
      String step,
      TypeReference<I> input,
      TypeReference<R> result,
      CompensationFunction<I, R> function) {
    return compensation(saga, step, values.typeOf(input), values.typeOf(result), function);
  }

  private <I, R> Worker compensation(
      String saga,
      String step,
      JavaType input,
      JavaType result,
      CompensationFunction<I, R> function) {
    return declare(
        saga + "/" + step + "/undo",
        held -> {
          function.undo(new CompensationTask<>(held, values, input, result));
          return null;
        });
  }

  private synchronized Worker declare(String name, Function function) {
    if (run != null) {
      throw new IllegalStateException("the worker was started; declare " + name + " before");
    }
    if (functions.putIfAbsent(name, function) != null) {
      throw new IllegalArgumentException(name + " is declared twice; remove one of them");
    }
    return this;
  }

  /**
   * Starts to work, in threads of the worker's own, and returns at once. {@link #join} waits for the
   * end.
   *
   * @return this worker
   * @throws IllegalStateException if it was started or closed before, or has no function
   */
  public synchronized Worker start() {
    if (run != null || isClosed) {
      throw new IllegalStateException("a worker is started once; make another one");
    }
    if (functions.isEmpty()) {
      throw new IllegalStateException("the worker has no function; declare one with step");
    }
    run = new Run(this, Map.copyOf(functions));
    run.start();
    return this;
  }

  /**
   * Works until the worker is closed by another thread, or the service refuses it. If this thread is
   * interrupted, the worker stops gracefully, and the interrupted status is set again.
   *
   * @throws ProblemException if the service refuses the worker, for example {@code Unauthorized} or
   *     {@code Forbidden}
   * @throws IllegalStateException as {@link #start}
   */
  public void run() {
    start().join();
  }

  /**
   * Waits until the worker has ended. If this thread is interrupted, the worker stops gracefully, and
   * the interrupted status is set again.
   *
   * @throws ProblemException if the service refuses the worker
   * @throws IllegalStateException if it was not started
   */
  public void join() {
    Run started = started();
    if (started == null) {
      throw new IllegalStateException("the worker was not started");
    }
    started.join();
    if (started.refusal() != null) {
      throw started.refusal();
    }
  }

  private synchronized @Nullable Run started() {
    return run;
  }

  /** Has the worker stop gracefully, as {@link #close}, and returns at once. */
  public void stop() {
    Run started;
    synchronized (this) {
      isClosed = true;
      started = run;
    }
    if (started != null) {
      started.stop();
    }
  }

  /**
   * Stops gracefully: the worker claims nothing more, returns tasks that did not begin, waits for
   * running functions, and reports their outcomes. It returns when that is done. A function must not
   * call it; {@link #stop} may be called anywhere.
   *
   * <p>A request for tasks that waits at the service ends at once, and the tasks that it brings return
   * to the service. If the service is an older one, or a balancer leads the request to another one,
   * that may take as long as {@link Builder#waitTime} says.
   *
   * <p>If this thread is interrupted, running functions are interrupted, as after the {@link
   * Builder#shutdownTimeout}, and the interrupted status is set again.
   */
  @Override
  public void close() {
    stop();
    Run started = started();
    if (started != null) {
      started.join();
    }
  }
}
