"""Shows the pledges of some receipts, by the library requests.

usage: python3 show.py http://localhost:8080 BOOK RECEIPT..
"""
import sys

import requests

base, book, *receipts = sys.argv[1:]
for receipt in receipts:
    # The service answers one connection at a time: Connection: close ends it after the reply. requests.get makes a
    # connection for each call; a Session would keep one.
    reply = requests.get(
        f"{base}/books/{book}/held", headers={"Pledge-Receipt": receipt, "Connection": "close"}, timeout=30,
    )
    # Some versions of requests report no error if a reply ends before its last byte. If it ends in its head, the body
    # is empty.
    if not reply.content or len(reply.content) < int(reply.headers.get("Content-Length", 0)):
        sys.exit("the reply was cut")
    print(reply.status_code, reply.text)
