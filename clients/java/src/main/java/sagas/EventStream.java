package sagas;

import java.io.BufferedReader;
import java.io.EOFException;
import java.io.IOException;
import java.io.InputStream;
import java.io.InputStreamReader;
import java.net.http.HttpResponse;
import java.net.http.HttpResponse.BodyHandlers;
import java.net.http.HttpTimeoutException;
import java.nio.charset.StandardCharsets;
import java.time.Duration;
import java.util.Map;
import java.util.concurrent.CompletableFuture;
import java.util.concurrent.Flow;
import java.util.concurrent.TimeUnit;
import sagas.Connection.Request;

/**
 * A stream of events, for one subscriber.
 *
 * <p>If the connection breaks, the stream continues after the last event, until it is closed. If
 * events were lost, one named {@link Event#MISSED} says so. The subscriber is called by one thread
 * of the stream, which reads no further event before it is requested. So a slow subscriber may miss
 * events.
 *
 * <p>{@code onError} gets a {@link ProblemException} if the service refuses the stream later, or what
 * the subscriber itself threw. {@code onComplete} follows {@link #close} and the client's.
 */
public final class EventStream implements Flow.Publisher<Event>, AutoCloseable {
  private static final Duration QUIET = Duration.ofSeconds(45); // the service writes each 15 s
  private static final Duration ENDLESS = Duration.ofDays(36_500);
  private static final int LONGEST_PROBLEM = 1 << 16;

  private final Connection connection;
  private final Scope scope;
  private final String path;
  private final CompletableFuture<Void> ended = new CompletableFuture<>();
  private String last; // the ID of the last event
  private @Nullable Event first; // that was read while the stream was opened
  private BufferedReader lines;
  private volatile InputStream body;
  private volatile @Nullable Thread thread; // that calls the subscriber
  private boolean isSubscribed;
  private long demand;
  private boolean isCanceled;
  private @Nullable RuntimeException violation;

  EventStream(Connection connection, Scope outer, EventFilter filter, Duration timeout)
      throws InterruptedException {
    this.connection = connection;
    this.scope = outer.child();
    this.path = filter.path();
    this.last = filter.after() == null ? "" : filter.after();
    scope.onEnd(this::hangUp);
    scope.onEnd(this::wake);
    try {
      connect(timeout);
    } catch (RuntimeException | InterruptedException error) {
      scope.close();
      throw error;
    }
  }

  /**
   * Begins the stream for its subscriber.
   *
   * @throws IllegalStateException through {@code onError} if it has a subscriber already
   */
  @Override
  public void subscribe(Flow.Subscriber<? super Event> subscriber) {
    boolean isSecond;
    synchronized (this) {
      isSecond = isSubscribed;
      isSubscribed = true;
    }
    if (isSecond) {
      subscriber.onSubscribe(new Subscription(true));
      subscriber.onError(new IllegalStateException("the stream has a subscriber already"));
      return;
    }
    subscriber.onSubscribe(new Subscription(false));
    Thread publishing = new Thread(() -> publish(subscriber), "sagas-events");
    publishing.setDaemon(true);
    thread = publishing;
    publishing.start();
  }

  /** Ends the stream, and waits until its subscriber is called no more. */
  @Override
  public void close() {
    scope.close();
    Thread publishing = thread;
    if (publishing != null && publishing != Thread.currentThread()) {
      ended.join();
    }
  }

  private final class Subscription implements Flow.Subscription {
    private final boolean isSecond;

    Subscription(boolean isSecond) {
      this.isSecond = isSecond;
    }

    @Override
    public void request(long count) {
      if (isSecond) {
        return;
      }
      synchronized (EventStream.this) {
        if (count < 1) {
          violation = new IllegalArgumentException("request " + count + " is not positive");
        }
        demand = demand + count < 0 ? Long.MAX_VALUE : demand + count;
        EventStream.this.notifyAll();
      }
    }

    @Override
    public void cancel() {
      if (isSecond) {
        return;
      }
      synchronized (EventStream.this) {
        isCanceled = true;
        EventStream.this.notifyAll();
      }
      scope.close();
    }
  }

  private void publish(Flow.Subscriber<? super Event> subscriber) {
    try {
      while (isRequested()) {
        Event event = next();
        synchronized (this) {
          if (isCanceled) {
            return;
          }
        }
        if (event == null) {
          break;
        }
        subscriber.onNext(event);
      }
      if (!isCanceled()) {
        subscriber.onComplete();
      }
    } catch (RuntimeException | InterruptedException error) {
      if (!isCanceled()) {
        subscriber.onError(error);
      }
    } finally {
      scope.close();
      ended.complete(null);
    }
  }

  private synchronized void wake() {
    notifyAll();
  }

  private synchronized boolean isCanceled() {
    return isCanceled;
  }

  /** Waits for a request of the subscriber, and returns false once the stream is closed. */
  private synchronized boolean isRequested() throws InterruptedException {
    while (demand == 0 && violation == null && !isCanceled && !scope.isOver()) {
      wait();
    }
    if (violation != null) {
      throw violation;
    }
    if (demand != Long.MAX_VALUE) {
      demand--;
    }
    return !isCanceled && !scope.isOver();
  }

  /** Returns the next event, or null once the stream is closed. */
  private @Nullable Event next() throws InterruptedException {
    while (!scope.isOver()) {
      try {
        return read();
      } catch (IOException error) {
        hangUp();
        // something may be there that ends each stream at once
        if (scope.sleep(Connection.FIRST_PAUSE.toNanos())) {
          try {
            connect(ENDLESS);
          } catch (UnreachableException closed) {
            return null;
          }
        }
      }
    }
    return null;
  }

  private Event read() throws IOException {
    if (first != null) {
      Event event = first;
      first = null;
      return event;
    }
    while (true) {
      Event event = within(QUIET, this::block);
      if (event != null) {
        return event;
      }
    }
  }

  private interface Reading<T> {
    T read() throws IOException;
  }

  /** Reads, and hangs up if nothing comes for a time. */
  private <T> T within(Duration limit, Reading<T> reading) throws IOException {
    CompletableFuture<Void> alarm = new CompletableFuture<>();
    alarm.thenRun(this::hangUp);
    alarm.completeOnTimeout(null, limit.toMillis(), TimeUnit.MILLISECONDS);
    try {
      return reading.read();
    } finally {
      alarm.cancel(false);
    }
  }

  /** Reads up to an empty line: an event, or null if there is only a comment or an ID. */
  private @Nullable Event block() throws IOException {
    String name = "";
    String id = last;
    StringBuilder data = null;
    while (true) {
      String line = lines.readLine();
      if (line == null) {
        throw new EOFException("the stream ended"); // an incomplete event is sent again
      }
      if (line.isEmpty()) {
        last = id;
        return data == null ? null : Event.of(name, id, data.toString());
      }
      int colon = line.indexOf(':');
      String field = colon < 0 ? line : line.substring(0, colon);
      String value = colon < 0 ? "" : line.substring(colon + 1);
      value = value.startsWith(" ") ? value.substring(1) : value;
      switch (field) {
        case "event" -> name = value;
        case "id" -> id = value;
        case "data" -> {
          data = data == null ? new StringBuilder() : data.append('\n');
          data.append(value);
        }
        default -> {}
      }
    }
  }

  /** Asks for the stream until a service answers, for at most a time. */
  private void connect(Duration limit) throws InterruptedException {
    Throwable error = new HttpTimeoutException("no answer in time");
    Duration pause = Connection.FIRST_PAUSE;
    try (Scope within = scope.child(limit)) {
      while (true) {
        String service = connection.service();
        try {
          open(within, service);
          return;
        } catch (ProblemException problem) {
          if (!problem.isRepeated()) {
            throw problem;
          }
          error = problem;
        } catch (IOException failure) {
          error = failure;
        }
        connection.turnFrom(service);
        if (within.isOver()) {
          throw new UnreachableException(service, error);
        }
        connection.logSilence(service, error);
        if (!within.sleep(pause.toNanos())) {
          throw new UnreachableException(service, error);
        }
        pause = Times.min(pause.multipliedBy(2), Connection.LONGEST_PAUSE);
      }
    }
  }

  /**
   * Asks a service for the stream, and reads what comes first: the ID after which it continues if
   * the connection breaks.
   */
  private void open(Scope within, String service) throws IOException, InterruptedException {
    Map<String, String> headers =
        last.isEmpty()
            ? Map.of("Accept", "text/event-stream")
            : Map.of("Accept", "text/event-stream", "Last-Event-ID", last);
    Request request = Request.get(path, Duration.ZERO).with(headers);
    HttpResponse<InputStream> response =
        connection.exchange(
            within,
            connection.prepared(service, request).build(),
            BodyHandlers.ofInputStream(),
            Connection.ANSWER);
    body = response.body();
    if (scope.isOver()) {
      hangUp();
    }
    lines = new BufferedReader(new InputStreamReader(body, StandardCharsets.UTF_8));
    try {
      first =
          within(
              Connection.ANSWER,
              () -> {
                check(response);
                return block();
              });
    } catch (IOException | RuntimeException error) {
      hangUp();
      throw error;
    }
    connection.logAnswer();
  }

  private static void check(HttpResponse<InputStream> response) throws IOException {
    if (response.statusCode() != 200) {
      byte[] text = response.body().readNBytes(LONGEST_PROBLEM);
      throw ProblemException.of(response.statusCode(), text, Duration.ZERO);
    }
    String type = response.headers().firstValue("Content-Type").orElse("");
    if (!type.startsWith("text/event-stream")) {
      throw new IOException(
          "something other than the service answered: that is not a stream of events");
    }
  }

  private void hangUp() {
    InputStream open = body;
    if (open != null) {
      try {
        open.close();
      } catch (IOException error) {
        // it is closed
      }
    }
  }
}
