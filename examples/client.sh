# What the two scripts in bash share; it is read by them, and not run. URL is the service, BOOK the number of a book,
# and HEADER the field with the caller's key or receipt.

# Sends a request, and again where no reply came: ask METHOD PATH [BODY]. SAID is the reply, HTTP its status, and CODE
# the code of a refusal or 0. SENT is how many sendings without a reply may have been done. It fails by 1 where the
# service refused, and by 2 where it did not answer, or answered 491 or 492. ONCE=1 before it sends nothing again that
# may have been done.
ask() {
    local left=3 status told bytes wait
    CODE=0 SENT=0
    while ((left-- > 0)); do
        # The header goes in by a file, since a command line is seen by others.
        SAID=$(curl -s --max-time 30 -X "$1" -H 'Connection: close' -H @<(printf '%s\n' "$HEADER") \
            ${3+--data-binary "$3"} -w '\n%{http_code} %{size_request} %header{retry-after}' \
            "$URL/books/$BOOK$2") && status=0 || status=$?
        told=${SAID##*$'\n'} SAID=${SAID%$'\n'*}
        SAID=${SAID%$'\n'}
        read -r HTTP bytes wait <<<"$told"
        # Each reply has a body. If a reply was cut in its head, curl reports no error, and an empty body.
        if ((status == 0 && HTTP == 200)) && [ -n "$SAID" ]; then return 0; fi
        CODE=$(said code)
        CODE=${CODE:-0}
        # After 491 and 492 it is not known whether the request was done, as after no reply.
        case $CODE in 0 | 491 | 492) ;; *) return 1 ;; esac
        # It was not done where no byte was sent, or where the proxy says that it handed nothing on.
        if ((bytes > 0)) && [ "$(said handed_on)" != false ]; then
            SENT=$((SENT + 1))
            if ((${ONCE:-0})); then return 2; fi
        elif ((bytes > 0)); then
            # What the proxy refuses for good is not better the next time.
            case $HTTP in 429 | 502 | 503 | 504) ;; *) return 2 ;; esac
        fi
        if ((left > 0)); then
            echo "no reply to $1 $2; sent again" >&2
            sleep "${wait:-0.5}"
        fi
    done
    return 2
}

# A member of the last reply, by its name.
said() {
    sed -n 's/^{.*"'"$1"'":"\{0,1\}\([^",}]*\).*/\1/p' <<<"$SAID"
}

# The number that the next entry has, by the statement of the last reply.
next_entry() {
    echo $(($(grep -c '^Entry ' <<<"$SAID" || true) + 1))
}

# Pence as pounds.
money() {
    printf '%d.%02d' $(($1 / 100)) $(($1 % 100))
}

# Ends the script by what the last request met.
stop() {
    if ((CODE)); then echo "stopped: $CODE $(said name)" >&2; else echo "stopped: no reply (HTTP $HTTP)" >&2; fi
    exit 1
}
