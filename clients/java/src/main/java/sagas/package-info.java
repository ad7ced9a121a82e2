/**
 * A client and a worker for the HTTP service {@code sagas serve}.
 *
 * <p>A {@link sagas.Client} starts sagas and waits for them:
 *
 * <pre>{@code
 * try (Client client = Client.builder("http://127.0.0.1:8080").token("sagas_...").build()) {
 *   client.start("trip", "order-1", new Trip("Rome"));
 *   Saga saga = client.await("order-1", Duration.ofSeconds(30));
 *   Car car = saga.resultOf("car", Car.class);
 * }
 * }</pre>
 *
 * <p>A {@link sagas.Worker} performs steps. A value that a function returns means that the effect
 * happened. {@link sagas.Fail} and {@link sagas.Retry} mean that there was none. Anything else that
 * it throws means that the outcome is unknown:
 *
 * <pre>{@code
 * try (Worker worker = Worker.builder("http://127.0.0.1:8080").token("sagas_...").build()) {
 *   worker.step("trip", "car", Trip.class,
 *       task -> cars.book(task.input().to(), task.idempotencyKey()));
 *   worker.run();
 * }
 * }</pre>
 *
 * <p>All errors of the package are {@link sagas.SagasException}s, except {@link
 * java.lang.IllegalArgumentException} for an argument that is not valid: then nothing was sent.
 *
 * <p>No argument and no value is {@code null}, unless its type has {@link sagas.Nullable}. The
 * package needs {@code java.net.http} and Jackson's {@code databind} only.
 */
package sagas;
