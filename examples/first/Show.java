// Shows the pledges of some receipts.
//
// usage: java -Djdk.httpclient.allowRestrictedHeaders=connection Show.java http://localhost:8080 BOOK RECEIPT..
import java.net.URI;
import java.net.http.HttpClient;
import java.net.http.HttpRequest;
import java.net.http.HttpResponse.BodyHandlers;

public class Show {
    public static void main(String[] words) throws Exception {
        var client = HttpClient.newBuilder().version(HttpClient.Version.HTTP_1_1).build();
        for (int at = 2; at < words.length; at++) {
            // The service answers one connection at a time, so each request asks for its connection to be closed.
            var request = HttpRequest.newBuilder(URI.create(words[0] + "/books/" + words[1] + "/held"))
                .header("Pledge-Receipt", words[at]).header("Connection", "close").build();
            var reply = client.send(request, BodyHandlers.ofString());
            System.out.println(reply.statusCode() + " " + reply.body());
        }
    }
}
