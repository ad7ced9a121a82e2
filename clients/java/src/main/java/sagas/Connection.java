package sagas;

import com.fasterxml.jackson.databind.JsonNode;
import com.fasterxml.jackson.databind.node.ObjectNode;
import java.io.IOException;
import java.lang.System.Logger;
import java.lang.System.Logger.Level;
import java.net.ConnectException;
import java.net.URI;
import java.net.URLEncoder;
import java.net.http.HttpClient;
import java.net.http.HttpRequest;
import java.net.http.HttpRequest.BodyPublishers;
import java.net.http.HttpResponse;
import java.net.http.HttpResponse.BodyHandlers;
import java.net.http.HttpTimeoutException;
import java.nio.charset.StandardCharsets;
import java.time.Duration;
import java.util.ArrayList;
import java.util.List;
import java.util.Map;
import java.util.concurrent.CancellationException;
import java.util.concurrent.CompletableFuture;
import java.util.concurrent.ExecutionException;
import java.util.concurrent.ThreadLocalRandom;
import java.util.concurrent.TimeUnit;
import java.util.concurrent.TimeoutException;

/** Requests to one or more services over one database. */
final class Connection {
  static final Logger LOGGER = System.getLogger("sagas");
  static final Duration FIRST_PAUSE = Duration.ofMillis(100);
  static final Duration LONGEST_PAUSE = Duration.ofSeconds(5);
  static final Duration ANSWER = Duration.ofSeconds(20); // of a client's request
  private static final Duration CONNECT = Duration.ofSeconds(10);

  private final List<String> services = new ArrayList<>();
  private final @Nullable String token;
  private final HttpClient http;
  private int current; // the service that is asked now
  private boolean isSilent; // it was logged that none answers

  Connection(List<String> urls, @Nullable String token, @Nullable HttpClient http) {
    for (String url : urls) {
      services.add(address(url));
    }
    current = ThreadLocalRandom.current().nextInt(services.size()); // many clients spread over them
    if (token != null && !token.chars().allMatch(letter -> letter > ' ' && letter <= '~')) {
      throw new IllegalArgumentException(
          "the token has a character that no token has, for example a line break; copy it again");
    }
    this.token = token;
    this.http = http == null ? direct() : http;
  }

  private static HttpClient direct() {
    return HttpClient.newBuilder()
        .version(HttpClient.Version.HTTP_1_1)
        .connectTimeout(CONNECT)
        .followRedirects(HttpClient.Redirect.NEVER)
        .proxy(HttpClient.Builder.NO_PROXY)
        .build();
  }

  private static String address(String url) {
    try {
      URI parsed = URI.create(url);
      String scheme = String.valueOf(parsed.getScheme());
      if (parsed.getHost() != null
          && parsed.getRawUserInfo() == null
          && (scheme.equalsIgnoreCase("http") || scheme.equalsIgnoreCase("https"))) {
        return url.replaceFirst("/+$", "");
      }
    } catch (IllegalArgumentException error) {
      // it is refused below, without its user and password
    }
    throw new IllegalArgumentException(
        "'%s' is not the address of a service; write, for example, http://127.0.0.1:8080"
            .formatted(url.substring(url.lastIndexOf('@') + 1)));
  }

  /** What is asked, of any service. */
  record Request(
      String method,
      String path,
      byte @Nullable [] body,
      Duration timeout, // of one attempt
      Duration longest, // each attempt that takes its timeout doubles that of the next, up to this
      Duration waitTime, // of the service, before it answers
      Map<String, String> headers) {

    static Request get(String path, Duration wait) {
      return new Request("GET", path, null, wait.plus(ANSWER), Duration.ZERO, wait, Map.of());
    }

    static Request post(String path, JsonNode body, Duration timeout) {
      byte[] text = Values.bytes(body);
      return new Request("POST", path, text, timeout, Duration.ZERO, Duration.ZERO, Map.of());
    }

    Request within(Duration attempt) {
      return new Request(method, path, body, attempt, longest, waitTime, headers);
    }

    Request upTo(Duration attempt) {
      return new Request(method, path, body, timeout, attempt, waitTime, headers);
    }

    Request waiting(Duration atService) {
      return new Request(method, path, body, timeout, longest, atService, headers);
    }

    Request with(Map<String, String> further) {
      return new Request(method, path, body, timeout, longest, waitTime, further);
    }
  }

  /** Sends a request to a service once. */
  interface Attempt {
    ObjectNode send(String service, Request request) throws IOException, InterruptedException;
  }

  synchronized String service() {
    return services.get(current);
  }

  /** Asks the next service from now on, unless another call turned already. */
  synchronized void turnFrom(String service) {
    if (services.get(current).equals(service)) {
      current = (current + 1) % services.size();
    }
  }

  /** Logs once that a service does not answer, until one does. */
  void logSilence(String service, Throwable error) {
    synchronized (this) {
      if (isSilent) {
        return;
      }
      isSilent = true;
    }
    LOGGER.log(Level.WARNING, "{0} does not answer: {1}. Retrying", service, textOf(error));
  }

  synchronized void logAnswer() {
    isSilent = false;
  }

  /** Returns what an error says, which some errors of the JDK leave out. */
  static String textOf(Throwable error) {
    if (error instanceof ConnectException && error.getMessage() == null) {
      return "the connection was refused";
    }
    return error.getMessage() == null ? error.getClass().getSimpleName() : error.getMessage();
  }

  HttpRequest.Builder prepared(String service, Request request) {
    HttpRequest.Builder builder = HttpRequest.newBuilder(URI.create(service + request.path()));
    if (request.body() == null) {
      builder.method(request.method(), BodyPublishers.noBody());
    } else {
      builder.method(request.method(), BodyPublishers.ofByteArray(request.body()));
      builder.header("Content-Type", "application/json");
    }
    if (token != null) {
      builder.header("Authorization", "Bearer " + token);
    }
    request.headers().forEach(builder::header);
    return builder;
  }

  /** Sends a request, and waits for the answer's head, or all of it, by its kind of body. */
  <T> HttpResponse<T> exchange(
      Scope scope, HttpRequest request, HttpResponse.BodyHandler<T> body, Duration timeout)
      throws IOException, InterruptedException {
    CompletableFuture<HttpResponse<T>> reply = http.sendAsync(request, body);
    Scope.Hook hook = scope.onEnd(() -> reply.cancel(true));
    try {
      return reply.get(Math.min(timeout.toNanos(), scope.left()), TimeUnit.NANOSECONDS);
    } catch (TimeoutException error) {
      reply.cancel(true);
      throw new HttpTimeoutException("no answer in time");
    } catch (InterruptedException error) {
      reply.cancel(true);
      throw error;
    } catch (CancellationException error) {
      throw new IOException("the request was canceled");
    } catch (ExecutionException error) {
      if (error.getCause() instanceof IOException cause) {
        throw cause;
      }
      throw new IOException(error.getCause().toString());
    } finally {
      hook.close();
    }
  }

  /**
   * Sends a request to a service once. An answer that is not a success is a {@link
   * ProblemException}. One that is not a JSON object is no answer of the service: a page of a proxy,
   * for example.
   */
  ObjectNode ask(Scope scope, String service, Request request)
      throws IOException, InterruptedException {
    HttpResponse<byte[]> response =
        exchange(
            scope,
            prepared(service, request).build(),
            BodyHandlers.ofByteArray(),
            request.timeout());
    if (response.statusCode() >= 300) {
      throw ProblemException.of(response.statusCode(), response.body(), retryAfter(response));
    }
    if (!(Values.tree(response.body()) instanceof ObjectNode answer)) {
      throw new IOException(
          "something other than the service answered: that is not a JSON object");
    }
    logAnswer();
    return answer;
  }

  static Duration retryAfter(HttpResponse<?> response) {
    String text = response.headers().firstValue("Retry-After").orElse("");
    boolean isNumber = text.matches("[0-9]{1,2}") && Integer.parseInt(text) <= 30;
    return isNumber ? Duration.ofSeconds(Integer.parseInt(text)) : Duration.ZERO;
  }

  /**
   * Repeats a request until a service answers it, or the scope ends.
   *
   * @throws ProblemException if the service refuses it
   * @throws UnreachableException if the scope has ended
   */
  ObjectNode repeat(Scope scope, Request request) throws InterruptedException {
    return repeat(scope, request, (service, asked) -> ask(scope, service, asked));
  }

  /** Repeats a request with attempts that may outlast the scope. */
  ObjectNode repeat(Scope scope, Request request, Attempt attempt) throws InterruptedException {
    Duration pause = FIRST_PAUSE;
    Throwable last = new HttpTimeoutException("no answer in time");
    for (boolean isFirst = true; ; isFirst = false) {
      String service = service();
      Duration requested = Duration.ZERO;
      boolean isProblem = false;
      try {
        return attempt.send(service, request);
      } catch (ProblemException problem) {
        if (!problem.isRepeated()) {
          logAnswer();
          throw problem;
        }
        isProblem = true;
        requested = problem.pause();
        last = problem;
      } catch (HttpTimeoutException error) {
        if (request.timeout().compareTo(request.longest()) < 0) {
          Duration doubled = request.timeout().multipliedBy(2);
          request = request.within(Times.min(doubled, request.longest()));
        }
      } catch (IOException error) {
        if (!scope.isOver()) {
          last = error;
        }
      }
      if (scope.isOver()) {
        throw new UnreachableException(service, last);
      }
      turnFrom(service);
      if (isFirst && !isProblem) {
        continue; // a connection that was kept is closed at times: once more, and at once
      }
      logSilence(service, last);
      if (!scope.sleep(Times.max(Times.jittered(pause), requested).toNanos())) {
        throw new UnreachableException(service, last);
      }
      pause = Times.min(pause.multipliedBy(2), LONGEST_PAUSE);
    }
  }

  /** Writes a key or a name as a part of a path. */
  static String escaped(String text) {
    if (!Values.isText(text)) {
      throw new IllegalArgumentException("half of a surrogate pair in a key or a name");
    }
    if (text.equals(".") || text.equals("..")) {
      return text.replace(".", "%2E");
    }
    return URLEncoder.encode(text, StandardCharsets.UTF_8).replace("+", "%20");
  }
}
