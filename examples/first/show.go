// Shows the pledges of some receipts.
//
// usage: go run show.go http://localhost:8080 BOOK RECEIPT..
package main

import (
	"io"
	"log"
	"net/http"
	"net/url"
	"os"
)

func main() {
	address, _ := url.Parse(os.Args[1] + "/books/" + os.Args[2] + "/held") // Do reports an address that is none.
	client := http.Client{Timeout: 30e9}                                   // Nanoseconds; without it there is no limit.
	for _, receipt := range os.Args[3:] {
		request := &http.Request{URL: address, Header: http.Header{"Pledge-Receipt": {receipt}}, Close: true}
		if reply, err := client.Do(request); err != nil { // The service answers one connection at a time, hence Close.
			log.Fatal(err)
		} else if text, err := io.ReadAll(reply.Body); err != nil { // The reply was cut.
			log.Fatal(err)
		} else {
			os.Stdout.WriteString(reply.Status + "\n" + string(text))
		}
	}
}
