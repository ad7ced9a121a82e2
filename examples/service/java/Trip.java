import com.fasterxml.jackson.databind.JsonNode;
import java.util.Map;
import sagas.Client;
import sagas.Fail;
import sagas.Worker;

/**
 * Starts a trip, and works until Ctrl-C. In the folder of the repository, with a service of
 * examples/service/definitions:
 *
 * <pre>
 *   clients/java/build sagas.jar
 *   java -cp "sagas.jar:/usr/share/java/*" examples/service/java/Trip.java URL KEY [TOKEN]
 * </pre>
 */
public class Trip {
  record Flight(String seat, String key) {}

  record Car(int id, String seat) {}

  public static void main(String[] arguments) {
    String token = arguments.length > 2 ? arguments[2] : null;
    try (Client client = Client.builder(arguments[0]).token(token).build();
        Worker worker = Worker.builder(arguments[0]).token(token).build()) {
      worker
          .step("trip", "flight", JsonNode.class, task -> new Flight("12A", task.idempotencyKey()))
          .step("trip", "car", JsonNode.class, task -> {
            if (task.input().path("car").asText().equals("none")) {
              throw new Fail("no car is wanted"); // there was no effect, and none will follow
            }
            return new Car(7, task.resultOf("flight", Flight.class).seat());
          })
          .step("trip", "hotel", JsonNode.class, task -> Map.of("room", 21))
          .compensation("trip", "hotel", JsonNode.class, JsonNode.class,
              task -> System.out.println("canceled: room " + task.result().path("room")));
      client.start("trip", arguments[1], Map.of("car", "none"));
      Runtime.getRuntime().addShutdownHook(new Thread(worker::close)); // Ctrl-C
      worker.run();
    }
  }
}
