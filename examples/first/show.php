<?php
// Shows the pledges of some receipts.
//
// usage: php show.php http://localhost:8080 BOOK RECEIPT..
[, $base, $book] = $argv;
foreach (array_slice($argv, 3) as $receipt) {
    // The service answers one connection at a time, so each request closes its connection.
    $fields = ["Pledge-Receipt: $receipt", "Connection: close"];
    $call = curl_init("$base/books/$book/held");
    curl_setopt_array($call, [CURLOPT_HTTPHEADER => $fields, CURLOPT_RETURNTRANSFER => true]);
    $text = curl_exec($call);
    // The status can be 200 although the reply ended before its last byte. If it ended in its head, the text is empty.
    if ($text === false || $text === "") {
        fwrite(STDERR, "no whole reply: " . curl_error($call) . "\n");
        exit(1);
    }
    echo curl_getinfo($call, CURLINFO_RESPONSE_CODE), "\n", $text;
}
