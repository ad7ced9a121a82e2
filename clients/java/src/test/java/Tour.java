import com.fasterxml.jackson.databind.JsonNode;
import com.fasterxml.jackson.databind.ObjectMapper;
import com.fasterxml.jackson.databind.node.ObjectNode;
import java.math.BigDecimal;
import java.time.Duration;
import java.util.ArrayList;
import java.util.List;
import java.util.Map;
import java.util.concurrent.CountDownLatch;
import java.util.concurrent.ExecutionException;
import java.util.concurrent.Executors;
import java.util.concurrent.Flow;
import java.util.concurrent.LinkedBlockingQueue;
import java.util.concurrent.RejectedExecutionException;
import java.util.concurrent.TimeUnit;
import java.util.concurrent.atomic.AtomicInteger;
import sagas.Batch;
import sagas.BatchAction;
import sagas.BatchFilter;
import sagas.CanceledException;
import sagas.CannotDecodeException;
import sagas.Client;
import sagas.Event;
import sagas.EventFilter;
import sagas.EventStream;
import sagas.Fail;
import sagas.Filter;
import sagas.MissingResultException;
import sagas.Phase;
import sagas.ProblemException;
import sagas.ReportOptions;
import sagas.Retry;
import sagas.Saga;
import sagas.StopReason;
import sagas.UnreachableException;
import sagas.WaitTimeoutException;
import sagas.Worker;

/**
 * What Java alone has, at a real service: Tour URL. It needs the definitions of
 * clients/contract/test_java.py.
 */
public final class Tour {
  private static final Duration LONG = Duration.ofSeconds(60);
  private static final ObjectMapper JSON = new ObjectMapper();
  private static String url;
  private static Client client;

  private record Order(int amount, String to, BigDecimal price, Size size) {}

  private enum Size {
    SMALL,
    LARGE
  }

  private record Pair(Order order, List<Integer> numbers) {}

  private interface Calls {
    void run() throws Exception;
  }

  private static void check(boolean holds, Object... seen) {
    if (!holds) {
      throw new AssertionError(List.of(seen).toString());
    }
  }

  private static <T extends Throwable> T thrown(Class<T> type, Calls calls) {
    try {
      calls.run();
    } catch (Throwable error) {
      check(type.isInstance(error), error);
      return type.cast(error);
    }
    throw new AssertionError("nothing was thrown");
  }

  private static Worker.Builder worker() {
    return Worker.builder(url).lease(Duration.ofSeconds(3)).waitTime(Duration.ofSeconds(5));
  }

  /** What a function returns or throws, and how often it is called for it. */
  private static void outcomes() throws Exception {
    Map<String, Object> cases =
        Map.ofEntries(
            Map.entry("value", Map.of("n", 1)),
            Map.entry("not finite", Map.of("n", Double.NaN)),
            Map.entry("half a pair", "\uD83D"),
            Map.entry("no bean", new Object()),
            Map.entry("fail", new Fail("no")),
            Map.entry("wrapped", new ExecutionException(new Fail("no"))),
            Map.entry("retry", new Retry("not yet")),
            Map.entry("error", new NoClassDefFoundError("Gone")),
            Map.entry("stack", new StackOverflowError()));
    Map<String, AtomicInteger> calls = new java.util.concurrent.ConcurrentHashMap<>();
    try (Worker worker = worker().build()) {
      worker.step(
          "one",
          "a",
          JsonNode.class,
          task -> {
            String name = task.input().path("case").asText();
            if (calls.computeIfAbsent(name, one -> new AtomicInteger()).getAndIncrement() > 0) {
              return "again";
            }
            Object outcome = cases.get(name);
            if (outcome instanceof Exception exception) {
              throw exception;
            }
            if (outcome instanceof Error error) {
              throw error;
            }
            return outcome;
          });
      worker.start();
      thrown(IllegalStateException.class, worker::start);
      thrown(
          IllegalStateException.class,
          () -> worker.step("one", "b", JsonNode.class, task -> null));
      for (String name : cases.keySet()) {
        client.start("one", "outcome " + name, Map.of("case", name));
      }
      while (client.get("outcome error").waits().stream()
          .noneMatch(wait -> wait.why().equals("program_error"))) {
        Thread.sleep(50);
      }
      check(client.get("outcome error").waits().get(0).detail().contains("Tour.java:"));
      client.retry("outcome error", "a", ReportOptions.none());
      for (String name : cases.keySet()) {
        Saga saga = client.await("outcome " + name, LONG);
        int called = calls.get(name).get();
        String result = String.valueOf(saga.results().get("a"));
        switch (name) {
          case "value" -> check(called == 1 && result.equals("{\"n\":1}"), saga, result);
          case "not finite", "half a pair", "no bean" ->
              check(called == 1 && result.contains("unstorable"), name, called, result);
          case "fail" -> check(called == 1 && saga.phase() == Phase.RECOVERED, name, called, saga);
          default ->
              check(called == 2 && result.equals("\"again\""), name, called, result);
        }
      }
    }
  }

  /** What is read into a type, and what is not: without the value in the error. */
  private static void types() throws Exception {
    Map<String, Boolean> cases =
        Map.ofEntries(
            Map.entry("{'amount': 3, 'to': 'Rome', 'price': 12.10, 'size': 'LARGE'}", true),
            Map.entry("{'amount': 3, 'more': 1}", true),
            Map.entry("{'amount': '3'}", false),
            Map.entry("{'amount': 3.5}", false),
            Map.entry("{'amount': null}", false),
            Map.entry("{}", false),
            Map.entry("{'amount': 3, 'to': 7}", false),
            Map.entry("{'amount': 3, 'to': true}", false),
            Map.entry("{'amount': 3, 'size': 'HUGE'}", false),
            Map.entry("{'amount': 3, 'size': 1}", false),
            Map.entry("[3]", false),
            Map.entry("'secret'", false));
    int count = 0;
    for (Map.Entry<String, Boolean> one : cases.entrySet()) {
      String key = "type-" + count++;
      client.start("one", key, JSON.readTree(one.getKey().replace('\'', '"')));
      Saga saga = client.get(key);
      if (one.getValue()) {
        check(saga.input(Order.class).amount() == 3, one);
      } else {
        String text =
            thrown(CannotDecodeException.class, () -> saga.input(Order.class)).getMessage();
        check(!text.contains("HUGE") && !text.contains("secret"), text);
      }
      client.abort(key, null);
    }
    thrown(MissingResultException.class, () -> client.get("type-0").resultOf("a", Order.class));
    Order order = new Order(3, "Rome", new BigDecimal("12.10"), Size.SMALL);
    client.start("one", "typed", new Pair(order, List.of(1, 2)));
    client.complete("typed", "a", order);
    check(client.await("typed", LONG).resultOf("a", Order.class).to().equals("Rome"));
    check(client.get("typed").input(Pair.class).numbers().equals(List.of(1, 2)));
    check(client.history("typed").stream().anyMatch(event -> event.event().equals("note")));
  }

  /** Progress, an interruption by an abort, and a stop that waits and then interrupts. */
  private static void stops() throws Exception {
    LinkedBlockingQueue<String> heard = new LinkedBlockingQueue<>();
    CountDownLatch never = new CountDownLatch(1);
    Worker worker = worker().shutdownTimeout(Duration.ofMillis(300)).build();
    worker.step(
        "one",
        "a",
        JsonNode.class,
        task -> {
          task.progress(0.5, "half");
          heard.add("called " + task.key());
          try {
            never.await();
          } catch (InterruptedException error) {
            heard.add(task.stopReason() + " " + task.key());
            throw task.stopReason() == StopReason.ABORTED ? new Fail("stopped") : error;
          }
          return null;
        });
    worker.start();
    client.start("one", "aborted", null);
    check("called aborted".equals(heard.poll(60, TimeUnit.SECONDS)));
    while (client.get("aborted").progress().isEmpty()) {
      thrown(
          WaitTimeoutException.class, () -> client.await("aborted", Duration.ofMillis(200)));
    }
    check(client.get("aborted").progress().get(0).fraction() == 0.5);
    client.abort("aborted", "no more");
    check("ABORTED aborted".equals(heard.poll(60, TimeUnit.SECONDS)));
    check(client.await("aborted", LONG).isAborted());
    client.start("one", "closed", null);
    check("called closed".equals(heard.poll(60, TimeUnit.SECONDS)));
    worker.close();
    check("CLOSING closed".equals(heard.poll()));
    try (Worker next = worker().build()) {
      next.step("one", "a", JsonNode.class, task -> task.attempt());
      next.start();
      check(client.await("closed", LONG).phase() == Phase.COMPLETED);
    }
  }

  /** Functions in an executor that is given; one that rejects a task returns it to the service. */
  private static void executors() throws Exception {
    var threads = Executors.newSingleThreadExecutor(task -> new Thread(task, "mine"));
    AtomicInteger rejections = new AtomicInteger();
    try (Worker worker =
        worker()
            .executor(
                task -> {
                  if (rejections.getAndIncrement() == 0) {
                    throw new RejectedExecutionException();
                  }
                  threads.execute(task);
                })
            .build()) {
      worker.step("one", "a", JsonNode.class, task -> Thread.currentThread().getName());
      worker.start();
      client.start("one", "mine", null);
      check(client.await("mine", LONG).resultOf("a", String.class).equals("mine"));
      check(rejections.get() > 1);
    }
    check(!threads.isShutdown());
    threads.shutdown();
  }

  /** A retry of an exhausted step, and batches. */
  private static void operators() throws Exception {
    AtomicInteger calls = new AtomicInteger();
    try (Worker worker = worker().build()) {
      worker.step(
          "spent",
          "a",
          JsonNode.class,
          task -> {
            if (calls.getAndIncrement() < 3) {
              throw new Retry("full");
            }
            return 1;
          });
      worker.start();
      List<String> keys = List.of("spent-0", "spent-1", "spent-2");
      keys.forEach(key -> client.start("spent", key, null));
      BatchFilter filter = BatchFilter.all().withKind("exhausted").withStep("a");
      BatchAction retry = new BatchAction.Retry("once more");
      Batch batch = client.batch(retry, filter);
      while (batch.count() < 3) {
        Thread.sleep(50); // until the service has seen all of them
        batch = client.batch(retry, filter);
      }
      client.retry(keys.get(0), "a", ReportOptions.none().withNote("by hand"));
      check(client.await(keys.get(0), LONG).phase() == Phase.COMPLETED);
      Batch old = batch;
      check(
          thrown(ProblemException.class, old::apply)
              .name()
              .equals(ProblemException.COUNT_CHANGED));
      Batch.Result result = client.batch(retry, filter).apply();
      check(result.done() == 2 && result.refused().isEmpty() && result.left() == 0, result);
      keys.forEach(key -> check(client.await(key, LONG).phase() == Phase.COMPLETED, key));
    }
    check(client.list(Filter.all().withDefinition("spent").withPageSize(1)).limit(2).count() == 2);
  }

  /** Events by request, and after the ID of one. */
  private static void events() throws Exception {
    LinkedBlockingQueue<Event> heard = new LinkedBlockingQueue<>();
    CountDownLatch over = new CountDownLatch(1);
    EventStream stream = client.events(EventFilter.all().withKey("event"));
    Flow.Subscription[] held = new Flow.Subscription[1];
    stream.subscribe(
        new Flow.Subscriber<>() {
          @Override
          public void onSubscribe(Flow.Subscription subscription) {
            held[0] = subscription;
          }

          @Override
          public void onNext(Event event) {
            heard.add(event);
          }

          @Override
          public void onError(Throwable error) {}

          @Override
          public void onComplete() {
            over.countDown();
          }
        });
    client.start("one", "event", null);
    client.complete("event", "a", 1);
    client.await("event", LONG);
    check(heard.isEmpty());
    held[0].request(1);
    Event first = heard.poll(60, TimeUnit.SECONDS);
    check(first.name().equals("saga_started") && first.at() != null, first);
    check(heard.isEmpty(), heard);
    held[0].request(Long.MAX_VALUE);
    List<String> names = new ArrayList<>();
    while (!names.contains("saga_ended")) {
      names.add(heard.poll(60, TimeUnit.SECONDS).name());
    }
    stream.close();
    check(over.getCount() == 0);
  }

  /** Calls that no service answers, that are interrupted, and whose client is closed. */
  private static void faults() throws Exception {
    try (Client silent =
        Client.builder("http://127.0.0.1:9").timeout(Duration.ofMillis(300)).build()) {
      thrown(UnreachableException.class, () -> silent.get("x"));
    }
    try (Client other =
        Client.builder("http://127.0.0.1:9").services(url).token("sagas_x").build()) {
      check(other.get("typed").key().equals("typed")); // the next service answers
    }
    Thread waits = Thread.currentThread();
    client.start("asked", "waits", null);
    Thread interrupts = new Thread(waits::interrupt);
    interrupts.start();
    thrown(CanceledException.class, () -> client.await("waits", LONG));
    check(Thread.interrupted());
    interrupts.join();
    Client closed = Client.builder(url).build();
    new Thread(closed::close).start();
    thrown(CanceledException.class, () -> closed.await("waits", LONG));
    for (String wrong : List.of("nowhere", "ftp://x", "http://u:secret@x", "http:// x")) {
      String text =
          thrown(IllegalArgumentException.class, () -> Client.builder(wrong).build()).getMessage();
      check(!text.contains("secret"), text);
    }
    for (String key : List.of("", "\uD83D")) {
      thrown(IllegalArgumentException.class, () -> client.get(key));
      thrown(RuntimeException.class, () -> client.start("one", key, null));
    }
    thrown(IllegalStateException.class, () -> worker().build().start());
  }

  /** Runs all of them. */
  public static void main(String[] arguments) throws Exception {
    url = arguments[0];
    client = Client.builder(url).build();
    outcomes();
    types();
    stops();
    executors();
    operators();
    events();
    faults();
    client.close();
    ObjectNode end = JSON.createObjectNode().put("tour", "ended");
    System.out.println(end);
  }
}
