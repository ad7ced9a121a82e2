import com.fasterxml.jackson.databind.JsonNode;
import com.fasterxml.jackson.databind.ObjectMapper;
import com.fasterxml.jackson.databind.node.ArrayNode;
import com.fasterxml.jackson.databind.node.ObjectNode;
import java.io.BufferedReader;
import java.io.FileDescriptor;
import java.io.FileOutputStream;
import java.io.IOException;
import java.io.InputStreamReader;
import java.io.PrintStream;
import java.net.InetAddress;
import java.net.ServerSocket;
import java.net.Socket;
import java.net.StandardProtocolFamily;
import java.net.UnixDomainSocketAddress;
import java.nio.channels.Channels;
import java.nio.channels.SocketChannel;
import java.nio.charset.StandardCharsets;
import java.time.Duration;
import java.util.ArrayList;
import java.util.HashMap;
import java.util.List;
import java.util.Map;
import java.util.concurrent.ConcurrentHashMap;
import java.util.concurrent.CountDownLatch;
import java.util.concurrent.ExecutorService;
import java.util.concurrent.Executors;
import java.util.concurrent.Flow;
import sagas.CanceledException;
import sagas.Client;
import sagas.CompensationTask;
import sagas.DecidedSaga;
import sagas.Decision;
import sagas.DecisionFilter;
import sagas.Event;
import sagas.EventFilter;
import sagas.EventStream;
import sagas.Fail;
import sagas.Filter;
import sagas.Phase;
import sagas.ProblemException;
import sagas.ReportOptions;
import sagas.Retry;
import sagas.Saga;
import sagas.StartOptions;
import sagas.Started;
import sagas.StopReason;
import sagas.Summary;
import sagas.Task;
import sagas.Unknown;
import sagas.UnreachableException;
import sagas.WaitTimeoutException;
import sagas.Worker;

/** The commands of the contract suite, with the client and the worker of Java. */
public final class ContractDriver {
  private static final ObjectMapper JSON = new ObjectMapper();
  private static final PrintStream OUT =
      new PrintStream(new FileOutputStream(FileDescriptor.out), false, StandardCharsets.UTF_8);

  private final ExecutorService threads = Executors.newCachedThreadPool(ContractDriver::daemon);
  private final Map<String, Running> workers = new ConcurrentHashMap<>();
  private final Map<String, CountDownLatch> released = new ConcurrentHashMap<>();
  private final Map<String, Integer> counts = new HashMap<>();
  private volatile Client client;
  private volatile EventStream stream;

  private ContractDriver() {}

  private static Thread daemon(Runnable task) {
    Thread thread = new Thread(task);
    thread.setDaemon(true);
    return thread;
  }

  /** A worker, and what says that it has ended. */
  private record Running(Worker worker, CountDownLatch over) {}

  private static synchronized void say(JsonNode line) {
    OUT.print(line + "\n");
    OUT.flush();
  }

  private static ObjectNode note(String note) {
    return JSON.createObjectNode().put("note", note);
  }

  private static ObjectNode described(Throwable error) {
    ObjectNode found = JSON.createObjectNode();
    if (error instanceof ProblemException problem) {
      found.put("name", problem.name()).put("status", problem.status());
      return found.put("text", problem.detail());
    }
    String name = "Other";
    if (error instanceof WaitTimeoutException) {
      name = "Timeout";
    } else if (error instanceof UnreachableException) {
      name = "Unreachable";
    } else if (error instanceof IllegalArgumentException) {
      name = "InvalidArgument";
    } else if (error instanceof CanceledException) {
      name = "Canceled";
    }
    return found.put("name", name).put("status", 0).put("text", error.toString());
  }

  private static Duration seconds(JsonNode number) {
    return Duration.ofNanos((long) (number.asDouble() * 1e9));
  }

  private static List<String> urls(JsonNode url) {
    List<String> urls = new ArrayList<>();
    if (url.isTextual()) {
      urls.add(url.textValue());
    }
    url.forEach(one -> urls.add(one.textValue()));
    return urls;
  }

  private static String[] further(List<String> urls) {
    return urls.subList(1, urls.size()).toArray(String[]::new);
  }

  private static Map<String, String> texts(JsonNode object) {
    Map<String, String> texts = new HashMap<>();
    object.fields().forEachRemaining(one -> texts.put(one.getKey(), one.getValue().asText()));
    return texts;
  }

  private static ReportOptions options(JsonNode command) {
    ReportOptions options = ReportOptions.none().withNote(command.path("note").textValue());
    return command.path("undo").asBoolean() ? options.ofCompensation() : options;
  }

  private static JsonNode shown(Decision entry) {
    ObjectNode result = JSON.createObjectNode();
    result.put("number", entry.number()).put("decision", entry.decision());
    result.put("at", entry.at() != null).put("by", entry.by()).put("via", entry.via());
    result.put("note", entry.note()).put("bulk", entry.isBulk()).put("subject", entry.subject());
    ArrayNode sagas = result.putArray("sagas");
    for (DecidedSaga saga : entry.sagas()) {
      sagas
          .addObject()
          .put("key", saga.key())
          .put("definition", saga.definition())
          .put("step", saga.step())
          .put("undo", saga.undo())
          .put("answer", saga.answer());
    }
    return result;
  }

  private static JsonNode shown(Saga saga) {
    ObjectNode shown = JSON.createObjectNode();
    shown.put("key", saga.key()).put("definition", saga.definition());
    shown.put("version", saga.version());
    shown.put("phase", saga.phase().text()).put("over", saga.isOver());
    shown.put("aborted", saga.isAborted());
    shown.set("input", saga.input());
    shown.set("states", JSON.valueToTree(saga.states()));
    ObjectNode results = shown.putObject("results");
    saga.results().forEach(results::set);
    shown.set("errors", JSON.valueToTree(saga.errors()));
    return shown;
  }

  private JsonNode carryOut(JsonNode command) throws Exception {
    String key = command.path("key").asText();
    String step = command.path("step").asText();
    ObjectNode nothing = JSON.createObjectNode();
    switch (command.path("do").asText()) {
      case "open" -> {
        if (client != null) {
          client.close();
        }
        List<String> urls = urls(command.path("url"));
        client =
            Client.builder(urls.get(0))
                .services(further(urls))
                .token(command.path("token").textValue())
                .build();
        return nothing.put("language", "java");
      }
      case "start" -> {
        return start(command, key);
      }
      case "get" -> {
        return shown(client.get(key));
      }
      case "wait" -> {
        return shown(client.await(key, seconds(command.path("timeout"))));
      }
      case "abort" -> {
        return nothing.put("aborted", client.abort(key, command.path("note").textValue()));
      }
      case "complete" -> client.complete(key, step, command.path("result"), options(command));
      case "fail" -> client.fail(key, step, command.path("error").asText(), options(command));
      case "list" -> {
        ArrayNode keys = nothing.putArray("keys");
        ArrayNode versions = nothing.putArray("versions");
        String phase = command.path("phase").textValue();
        Filter filter =
            Filter.all()
                .withPageSize(command.path("page").asInt())
                .withDefinition(command.path("definition").textValue())
                .withSearch(command.path("search").textValue())
                .withLabels(texts(command.path("labels")))
                .withPhase(phase == null ? null : Phase.valueOf(phase.toUpperCase()));
        for (Summary saga : (Iterable<Summary>) client.list(filter)::iterator) {
          keys.add(saga.key());
          versions.add(saga.version());
        }
      }
      case "decisions" -> {
        ArrayNode decisions = nothing.putArray("decisions");
        DecisionFilter filter =
            DecisionFilter.all()
                .withPageSize(command.path("page").asInt())
                .withKey(command.path("key").textValue())
                .withDefinition(command.path("definition").textValue())
                .withDecision(command.path("decision").textValue());
        client.decisions(filter).forEach(entry -> decisions.add(shown(entry)));
      }
      case "events" -> follow(command);
      case "events_stop" -> stream.close();
      case "worker" -> work(command);
      case "stop" -> {
        Running running = workers.remove(command.path("worker").asText());
        running.worker().close();
        running.over().await();
        running.worker().join();
      }
      case "release" -> hold(key, step).countDown();
      default -> throw new IllegalStateException("unknown command");
    }
    return nothing;
  }

  private JsonNode start(JsonNode command, String key) {
    StartOptions options =
        StartOptions.none()
            .withLabels(texts(command.path("labels")))
            .withTraceparent(command.path("traceparent").textValue());
    if (command.has("deadline")) {
      options = options.withDeadline(seconds(command.path("deadline")));
    }
    if (command.has("version")) {
      options = options.withVersion(command.path("version").asInt());
    }
    Started started =
        client.start(command.path("definition").asText(), key, command.path("input"), options);
    return JSON.createObjectNode()
        .put("key", started.key())
        .put("version", started.version())
        .put("new", started.isNew());
  }

  private void follow(JsonNode command) {
    stream =
        client.events(
            EventFilter.all()
                .withKey(command.path("key").textValue())
                .withDefinition(command.path("definition").textValue()));
    stream.subscribe(
        new Flow.Subscriber<>() {
          private Flow.Subscription subscription;

          @Override
          public void onSubscribe(Flow.Subscription subscription) {
            this.subscription = subscription;
            subscription.request(1);
          }

          @Override
          public void onNext(Event event) {
            if (event.name().equals(Event.MISSED)) {
              say(note("missed"));
            } else {
              ObjectNode data = event.data().deepCopy();
              say(note("event").set("event", data.put("name", event.name())));
            }
            subscription.request(1);
          }

          @Override
          public void onError(Throwable error) {
            say(note("events_ended").set("error", described(error)));
          }

          @Override
          public void onComplete() {}
        });
  }

  private void work(JsonNode command) {
    String name = command.path("worker").asText();
    List<String> urls = urls(command.path("url"));
    Worker worker =
        Worker.builder(urls.get(0))
            .services(further(urls))
            .token(command.path("token").textValue())
            .name(name)
            .concurrency(command.path("concurrency").asInt())
            .lease(seconds(command.path("lease")))
            .waitTime(seconds(command.path("wait")))
            .build();
    for (JsonNode word : command.path("steps")) {
      String saga = word.asText().substring(0, word.asText().indexOf('/'));
      String step = word.asText().substring(saga.length() + 1);
      if (step.endsWith("/undo")) {
        step = step.substring(0, step.length() - "/undo".length());
        worker.compensation(
            saga, step, JsonNode.class, JsonNode.class, task -> play(command, task, task.result()));
      } else {
        worker.step(saga, step, JsonNode.class, task -> play(command, task, null));
      }
    }
    Running running = new Running(worker, new CountDownLatch(1));
    workers.put(name, running);
    worker.start();
    threads.execute(
        () -> {
          RuntimeException fault = null;
          try {
            worker.join();
          } catch (RuntimeException error) {
            fault = error;
          }
          running.over().countDown();
          if (workers.remove(name, running)) {
            JsonNode error = fault == null ? JSON.nullNode() : described(fault);
            say(note("worker_ended").put("worker", name).set("error", error));
          }
        });
  }

  private Object play(JsonNode command, Task<JsonNode> task, JsonNode result) throws Exception {
    if (command.has("act")) {
      return act(command.path("act").asText(), task, result);
    }
    String worker = command.path("worker").asText();
    String suffix = task.isCompensation() ? "/undo" : "";
    String action = task.step() + suffix;
    if (!command.path("quiet").asBoolean()) {
      ObjectNode called = note("called").put("worker", worker);
      called.put("name", task.saga() + "/" + task.declaredStep() + suffix).put("key", task.key());
      called.put("step", task.step()).put("undo", task.isCompensation());
      called.put("attempt", task.attempt()).put("idempotency_key", task.idempotencyKey());
      called.set("results", results(task));
      called.set("result", result);
      called.put("traceparent", task.traceparent()).put("declared_step", task.declaredStep());
      if (task.index().isPresent()) {
        called.put("index", task.index().getAsInt());
      } else {
        called.putNull("index");
      }
      called.put("item_key", task.itemKey());
      called.set("item", task.item(JsonNode.class));
      called.set("given", task.given(JsonNode.class));
      say(called);
    }
    JsonNode input = task.input();
    if (!input.path("script").isObject()) {
      return input;
    }
    ObjectNode done = JSON.createObjectNode().put("done", action);
    switch (word(input.path("script").path(action), task.key() + "\n" + action)) {
      case "ok" -> {
        return done;
      }
      case "echo" -> {
        return input.path("value");
      }
      case "nothing" -> {
        return null;
      }
      case "fail" -> throw new Fail("no");
      case "retry" -> throw new Retry("not yet");
      case "unknown" -> throw new Unknown("who knows");
      case "throw" -> throw new IllegalStateException("a bug");
      case "timeout" -> {
        try (ServerSocket silent = new ServerSocket(0, 1, InetAddress.getLoopbackAddress())) {
          silent.setSoTimeout(10);
          return silent.accept();
        }
      }
      case "refused" -> {
        new Socket("127.0.0.1", 9).close();
        throw new Fail("it was not refused");
      }
      case "hold" -> {
        try {
          hold(task.key(), action).await();
          return done;
        } catch (InterruptedException error) {
          say(canceled(worker, task));
          throw new Fail("no");
        }
      }
      case "doubt" -> {
        try {
          hold(task.key(), action).await();
          return done;
        } catch (InterruptedException error) {
          say(canceled(worker, task));
          throw new Unknown("who knows");
        }
      }
      case "deaf" -> {
        while (true) {
          try {
            hold(task.key(), action).await();
            return done;
          } catch (InterruptedException error) {
            // it waits for its release alone
          }
        }
      }
      case "big" -> {
        return Map.of("text", "x".repeat(1_000_000));
      }
      case "huge" -> {
        return Map.of("text", "x".repeat(3_000_000));
      }
      default -> throw new Fail("unknown word");
    }
  }

  private static JsonNode results(Task<?> task) {
    ObjectNode results = JSON.createObjectNode();
    task.results().forEach(results::set);
    return results;
  }

  private static JsonNode canceled(String worker, Task<?> task) {
    String reason = task.stopReason() == StopReason.LOST ? "lease" : "abort";
    ObjectNode canceled = note("canceled").put("worker", worker).put("key", task.key());
    return canceled.put("step", task.step()).put("why", reason);
  }

  /** Does what a program at a socket says. */
  private static Object act(String path, Task<JsonNode> task, JsonNode result) throws IOException {
    ObjectNode call = JSON.createObjectNode();
    call.put("saga", task.saga()).put("key", task.key()).put("step", task.step());
    call.put("undo", task.isCompensation()).put("attempt", task.attempt());
    call.put("attempt_id", task.attemptId()).put("idempotency_key", task.idempotencyKey());
    call.put(
        "original_idempotency_key",
        task instanceof CompensationTask<?, ?> undo ? undo.originalIdempotencyKey() : null);
    call.set("input", task.input());
    call.set("results", results(task));
    call.set("result", result);
    try (SocketChannel link = SocketChannel.open(StandardProtocolFamily.UNIX)) {
      link.connect(UnixDomainSocketAddress.of(path));
      Channels.newOutputStream(link).write((call + "\n").getBytes(StandardCharsets.UTF_8));
      JsonNode answer =
          JSON.readTree(Channels.newReader(link, StandardCharsets.UTF_8));
      switch (answer.path("do").asText()) {
        case "ok" -> {
          return answer.path("value");
        }
        case "fail" -> throw new Fail("no");
        case "retry" -> throw new Retry("not yet");
        default -> throw new Unknown("who knows");
      }
    }
  }

  /** Returns what the next call of a saga's step does. */
  private synchronized String word(JsonNode words, String name) {
    int at = counts.merge(name, 1, Integer::sum) - 1;
    return words.isEmpty() ? "ok" : words.path(Math.min(at, words.size() - 1)).asText();
  }

  private CountDownLatch hold(String key, String step) {
    return released.computeIfAbsent(key + "\n" + step, name -> new CountDownLatch(1));
  }

  private void answer(JsonNode command) {
    ObjectNode answer = JSON.createObjectNode().set("id", command.path("id"));
    try {
      answer.set("value", carryOut(command));
    } catch (Exception error) {
      answer.set("error", described(error));
    }
    say(answer);
  }

  /** Carries out commands until the end of the input. */
  public static void main(String[] arguments) throws IOException {
    ContractDriver driver = new ContractDriver();
    BufferedReader lines =
        new BufferedReader(new InputStreamReader(System.in, StandardCharsets.UTF_8));
    for (String line = lines.readLine(); line != null; line = lines.readLine()) {
      JsonNode command = JSON.readTree(line);
      if (command.path("do").asText().equals("end")) {
        ObjectNode answer = JSON.createObjectNode().set("id", command.path("id"));
        say(answer.set("value", JSON.createObjectNode()));
        break;
      }
      driver.threads.execute(() -> driver.answer(command));
    }
    System.exit(0);
  }
}
