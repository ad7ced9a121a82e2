// A caller made from openapi.json alone, with Java's own library.
//
//     java Caller.java URL TOKEN KEY

import java.net.URI;
import java.net.http.HttpClient;
import java.net.http.HttpRequest;
import java.net.http.HttpResponse;

class Caller {
    static final HttpClient CLIENT =
        HttpClient.newBuilder().version(HttpClient.Version.HTTP_1_1).build();
    static String url, token;

    static HttpResponse<String> send(String method, String path, String body) throws Exception {
        var request = HttpRequest.newBuilder(URI.create(url + path))
            .header("Authorization", "Bearer " + token)
            .header("Content-Type", "application/json")
            .method(method, HttpRequest.BodyPublishers.ofString(body))
            .build();
        return CLIENT.send(request, HttpResponse.BodyHandlers.ofString());
    }

    public static void main(String[] words) throws Exception {
        url = words[0];
        token = words[1];
        var start = "{\"definition\":\"order\",\"key\":\"" + words[2] + "\"}";
        var first = send("POST", "/v1/sagas", start);
        System.out.println(first.statusCode() + " " + first.headers().firstValue("Location").get());
        System.out.println(send("POST", "/v1/sagas", start).statusCode());
        var where = first.headers().firstValue("Location").get();
        while (!send("GET", where, "").body().contains("\"why\":\"approval\"")) {
            Thread.sleep(50);
        }
        var decided = send("POST", where + "/steps/review/fail", "{\"error\":\"no\"}");
        System.out.println(decided.statusCode());
        var over = send("GET", where + "/wait?seconds=20", "");
        System.out.println(over.body().contains("\"phase\":\"recovered\"") ? "recovered" : over.body());
    }
}
