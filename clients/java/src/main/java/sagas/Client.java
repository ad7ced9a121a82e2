package sagas;

import com.fasterxml.jackson.databind.JsonNode;
import com.fasterxml.jackson.databind.ObjectMapper;
import com.fasterxml.jackson.databind.node.ObjectNode;
import java.net.http.HttpClient;
import java.time.Duration;
import java.util.ArrayDeque;
import java.util.ArrayList;
import java.util.Deque;
import java.util.List;
import java.util.Locale;
import java.util.Map;
import java.util.Spliterator;
import java.util.Spliterators.AbstractSpliterator;
import java.util.function.Consumer;
import java.util.function.Function;
import java.util.stream.Stream;
import java.util.stream.StreamSupport;
import sagas.Connection.Request;

/**
 * Starts sagas, looks at them and changes them. Any number of threads may use it.
 *
 * <p>A call blocks, and repeats its request until a service answers, for at most {@link
 * Builder#timeout} (default: one minute). All requests may be repeated: the key makes a start one
 * saga, and the same report is one report.
 *
 * <p>Each call may throw
 *
 * <ul>
 *   <li>{@link ProblemException} if the service refuses the request,
 *   <li>{@link UnreachableException} if no service answers in time,
 *   <li>{@link CanceledException} if its thread is interrupted or the client is closed,
 *   <li>{@link IllegalArgumentException} if an argument is not valid. Nothing was sent then.
 * </ul>
 */
public final class Client implements AutoCloseable {
  private static final Duration LONGEST_WAIT = Duration.ofSeconds(30); // of one request
  private static final Duration LONGEST_WAY = Duration.ofMillis(500); // of an answer to it

  private final Connection connection;
  private final Values values;
  private final Duration timeout;
  private final Scope scope = new Scope();

  private Client(Builder builder) {
    connection = new Connection(builder.urls, builder.token, builder.http);
    values = new Values(builder.mapper, builder.codec, builder.blobs);
    timeout = builder.timeout;
  }

  /**
   * Begins a client of a service.
   *
   * @param url its address, for example {@code http://127.0.0.1:8080}
   */
  public static Builder builder(String url) {
    return new Builder(url);
  }

  /** Options of a client. */
  public static final class Builder {
    private final List<String> urls = new ArrayList<>();
    private @Nullable String token;
    private @Nullable HttpClient http;
    private @Nullable ObjectMapper mapper;
    private @Nullable Codec codec;
    private @Nullable Blobs blobs;
    private Duration timeout = Duration.ofMinutes(1);

    private Builder(String url) {
      urls.add(url);
    }

    /**
     * Adds services over the same database. The client begins with a random one of all, and stays
     * there while it answers. If one does not answer, it asks the next one.
     */
    public Builder services(String... further) {
      urls.addAll(List.of(further));
      return this;
    }

    /** Sends a token with each request (default: none). */
    public Builder token(@Nullable String token) {
      this.token = token;
      return this;
    }

    /**
     * Sets for how long a call repeats its request while no service answers (default: one minute).
     */
    public Builder timeout(Duration timeout) {
      this.timeout = timeout;
      return this;
    }

    /**
     * Replaces the HTTP client, for example for TLS or a proxy (default: one that connects directly
     * and follows no redirects).
     */
    public Builder httpClient(HttpClient http) {
      this.http = http;
      return this;
    }

    /**
     * Replaces the mapper of inputs and results (default: one that converts nothing silently, and
     * ignores properties that a type does not have).
     */
    public Builder mapper(ObjectMapper mapper) {
      this.mapper = mapper;
      return this;
    }

    /**
     * Decodes inputs and results of sagas (default: they are as the service answers them, {@code
     * {"$codec": ...}} if they are encoded).
     */
    public Builder codec(Codec codec) {
      this.codec = codec;
      return this;
    }

    /** Reads large inputs and results of sagas (default: they are references). */
    public Builder blobs(Blobs blobs) {
      this.blobs = blobs;
      return this;
    }

    /**
     * Makes the client. It sends nothing.
     *
     * @throws IllegalArgumentException if an address or the token is not valid
     */
    public Client build() {
      return new Client(this);
    }
  }

  /** Starts a saga with the default options; see {@link #start(String, String, Object,
   * StartOptions)}. */
  public Started start(String definition, String key, @Nullable Object input) {
    return start(definition, key, input, StartOptions.none());
  }

  /**
   * Starts a saga, or finds the one that has the key. When it returns, the saga is stored.
   *
   * @param definition the name of the definition
   * @param key 1 to 512 printable characters
   * @param input what Jackson writes, for example a record; null is JSON's null
   * @param options labels, deadline, version and trace context
   * @throws ProblemException {@code KeyConflict} if the key has another definition, version or input,
   *     {@code NoSuchDefinition} if the service has no such definition, {@code InvalidKey}
   */
  public Started start(
      String definition, String key, @Nullable Object input, StartOptions options) {
    ObjectNode body = Values.object();
    body.put("definition", definition).put("key", key);
    body.set("input", values.write(input, "input"));
    if (!options.labels().isEmpty()) {
      options.labels().forEach(body.putObject("labels")::put);
    }
    if (options.deadline() != null) {
      body.put("deadline", Times.seconds(options.deadline()));
    }
    if (options.version() != null) {
      body.put("version", options.version());
    }
    Request request = Request.post("/v1/sagas", body, Connection.ANSWER);
    if (options.traceparent() != null) {
      request = request.with(Map.of("Traceparent", options.traceparent()));
    }
    JsonNode answer = send(request);
    return new Started(
        answer.path("key").asText(),
        answer.path("definition").asText(),
        answer.path("version").asInt(),
        answer.path("new").asBoolean());
  }

  /**
   * Returns a saga as it is now.
   *
   * @throws ProblemException {@code NoSuchSaga} if no saga has the key
   * @throws CannotDecodeException if the codec or the blob store cannot read a value
   */
  public Saga get(String key) {
    return new Saga(send(Request.get(path(key), Duration.ZERO)), values);
  }

  /**
   * Waits until a saga is over, that is until its phase is not {@link Phase#OPEN}.
   *
   * @param key the saga's key
   * @param limit how long to wait
   * @throws WaitTimeoutException if it is still open; its {@link WaitTimeoutException#saga} says
   *     what it waits for
   * @throws ProblemException {@code NoSuchSaga} if no saga has the key
   */
  public Saga await(String key, Duration limit) {
    Scope within = scope.child(limit);
    Saga last = null;
    try (within) {
      while (true) {
        long left = Math.max(0, Math.min(within.left(), LONGEST_WAIT.toNanos()));
        if (last == null && left < LONGEST_WAIT.toNanos()) {
          left -= Math.min(left / 10, LONGEST_WAY.toNanos()); // so that it is seen in time
        }
        Duration wait = Duration.ofNanos(left);
        String query = String.format(Locale.ROOT, "/wait?seconds=%.3f", Times.seconds(wait));
        Saga saga = new Saga(send(Request.get(path(key) + query, wait), within), values);
        if (saga.isOver()) {
          return saga;
        }
        last = saga;
        if (within.left() <= 0) {
          throw new WaitTimeoutException(key, last);
        }
      }
    } catch (UnreachableException error) {
      if (within.left() <= 0) {
        throw new WaitTimeoutException(key, last);
      }
      throw error;
    }
  }

  /**
   * Aborts a saga: no further step starts, and a plan decides what is undone.
   *
   * @param key the saga's key
   * @param note why, for people, or null
   * @return false if the saga is over or was aborted before
   */
  public boolean abort(String key, @Nullable String note) {
    ObjectNode body = ReportOptions.none().withNote(note).into(Values.object());
    return post(path(key) + "/abort", body).path("aborted").asBoolean();
  }

  /** Reports that a step is done; see {@link #complete(String, String, Object, ReportOptions)}. */
  public void complete(String key, String step, @Nullable Object result) {
    complete(key, step, result, ReportOptions.none());
  }

  /**
   * Reports that a step is done, for example an approval. The same report twice is one.
   *
   * @param key the saga's key
   * @param step the step's name
   * @param result what Jackson writes; null is JSON's null
   * @param options note, compensation, and whether the report may be early
   * @throws ProblemException {@code ConflictingReport} if another outcome was reported first, {@code
   *     StepNotWaiting} if the step waits for no report, {@code Forbidden} if the token may not
   *     decide it
   */
  public void complete(
      String key, String step, @Nullable Object result, ReportOptions options) {
    ObjectNode body = options.into(Values.object());
    body.set("result", values.write(result, "result"));
    post(path(key, step) + "/complete", body);
  }

  /** Reports that a step failed; see {@link #fail(String, String, String, ReportOptions)}. */
  public void fail(String key, String step, String error) {
    fail(key, step, error, ReportOptions.none());
  }

  /**
   * Reports that a step failed permanently, without an effect. Its errors are those of {@link
   * #complete(String, String, Object, ReportOptions)}.
   *
   * @param key the saga's key
   * @param step the step's name
   * @param error what happened, for people
   * @param options note, compensation, and whether the report may be early
   */
  public void fail(String key, String step, String error, ReportOptions options) {
    post(path(key, step) + "/fail", options.into(Values.object()).put("error", error));
  }

  /**
   * Has an attempt called again whose outcome is unknown, or that was the last one.
   *
   * @param key the saga's key
   * @param step the step's name
   * @param options note and compensation
   * @throws ProblemException {@code StepNotWaiting} if the step waits for no operator, {@code
   *     Forbidden} if the token is not an operator's
   */
  public void retry(String key, String step, ReportOptions options) {
    post(path(key, step) + "/retry", options.into(Values.object()));
  }

  /**
   * Counts the sagas of a filter, and changes nothing. {@link Batch#apply} acts on them.
   *
   * @param action what is to be done with each
   * @param filter which sagas
   * @throws ProblemException {@code InvalidRequest} if the filter does not fit the action, {@code
   *     Forbidden} if the token is not an operator's
   */
  public Batch batch(BatchAction action, BatchFilter filter) {
    ObjectNode body = Values.object();
    body.set("filter", filter.json());
    String note;
    String word;
    if (action instanceof BatchAction.Abort abort) {
      word = "abort";
      note = abort.note();
    } else if (action instanceof BatchAction.Resolve resolve) {
      word = "resolve";
      note = resolve.note();
    } else if (action instanceof BatchAction.Retry retry) {
      word = "retry";
      note = retry.note();
    } else if (action instanceof BatchAction.Complete complete) {
      word = "complete";
      note = complete.note();
      body.set("result", values.write(complete.result(), "result"));
    } else {
      BatchAction.Fail fail = (BatchAction.Fail) action;
      word = "fail";
      note = fail.note();
      body.put("error", fail.error());
    }
    if (note != null) {
      body.put("note", note);
    }
    return new Batch(this, "/v1/bulk/" + word, body);
  }

  /**
   * Lists sagas, the newest first. The stream loads a page at a time, as it is read, and its reading
   * throws what a call may throw.
   */
  public Stream<Summary> list(Filter filter) {
    return pages(after -> "/v1/sagas?" + filter.query(after), "sagas", Summary::of);
  }

  /**
   * Lists decisions on sagas that the token may see, the newest first. The stream loads a page at a
   * time, as that of {@link #list}.
   */
  public Stream<Decision> decisions(DecisionFilter filter) {
    return pages(after -> "/v1/decisions?" + filter.query(after), "decisions", Decision::of);
  }

  private <V> Stream<V> pages(
      Function<@Nullable String, String> path, String field, Function<JsonNode, V> value) {
    return StreamSupport.stream(new Pages<>(path, field, value), false);
  }

  private final class Pages<V> extends AbstractSpliterator<V> {
    private final Function<@Nullable String, String> path;
    private final String field;
    private final Function<JsonNode, V> value;
    private final Deque<V> page = new ArrayDeque<>();
    private @Nullable String after;
    private boolean isLast;

    Pages(Function<@Nullable String, String> path, String field, Function<JsonNode, V> value) {
      super(Long.MAX_VALUE, Spliterator.ORDERED | Spliterator.NONNULL | Spliterator.DISTINCT);
      this.path = path;
      this.field = field;
      this.value = value;
    }

    @Override
    public boolean tryAdvance(Consumer<? super V> consumer) {
      while (page.isEmpty() && !isLast) {
        JsonNode answer = send(Request.get(path.apply(after), Duration.ZERO));
        answer.path(field).forEach(entry -> page.add(value.apply(entry)));
        JsonNode next = answer.path("next");
        after = next.isNull() ? null : next.asText();
        isLast = after == null;
      }
      if (page.isEmpty()) {
        return false;
      }
      consumer.accept(page.poll());
      return true;
    }
  }

  /** Returns the events of a saga so far, in their order. */
  public List<HistoryEvent> history(String key) {
    JsonNode answer = send(Request.get(path(key) + "/log", Duration.ZERO));
    return Values.list(answer.path("events"), HistoryEvent::of);
  }

  /**
   * Opens a stream of events. It has all events from the moment that this returns.
   *
   * @param filter which events, and after which one
   */
  public EventStream events(EventFilter filter) {
    try {
      return new EventStream(connection, scope, filter, timeout);
    } catch (InterruptedException error) {
      throw interrupted();
    }
  }

  /**
   * Closes the client: calls that are under way throw {@link CanceledException}, and streams of
   * events end.
   */
  @Override
  public void close() {
    scope.close();
  }

  JsonNode post(String path, JsonNode body) {
    return send(Request.post(path, body, Connection.ANSWER));
  }

  private JsonNode send(Request request) {
    return send(request, scope);
  }

  private JsonNode send(Request request, Scope outer) {
    try (Scope within = outer.child(request.waitTime().plus(timeout))) {
      return connection.repeat(within, request);
    } catch (InterruptedException error) {
      throw interrupted();
    } catch (UnreachableException error) {
      if (scope.isClosed()) {
        throw new CanceledException("the client was closed");
      }
      if (!outer.isOver()) { // its caller still waits for it
        connection.turnFrom(error.url());
      }
      throw error;
    }
  }

  private static CanceledException interrupted() {
    Thread.currentThread().interrupt();
    return new CanceledException("the thread was interrupted; repeat the call");
  }

  private static String path(String key) {
    if (key.isEmpty()) {
      throw new IllegalArgumentException("the key is empty");
    }
    return "/v1/sagas/" + Connection.escaped(key);
  }

  private static String path(String key, String step) {
    if (step.isEmpty()) {
      throw new IllegalArgumentException("the name of the step is empty");
    }
    return path(key) + "/steps/" + Connection.escaped(step);
  }
}
