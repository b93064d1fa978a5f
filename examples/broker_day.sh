#!/usr/bin/env bash
# A broker's day by curl: terms, a pledge, a repayment over the counter, tomorrow's bookings, and the book as rows
# in the evening.
#
# usage: broker_day.sh URL BOOK KEY [LOST]      or the variables PLEDGE_URL, PLEDGE_BOOK and PLEDGE_KEY
#
# LOST is the number of a pledge whose receipt was lost. Run twice on one day, it does everything else once.
set -euo pipefail
. "$(dirname "$0")/client.sh"
usage="usage: broker_day.sh URL BOOK KEY [LOST]"
URL=${1:-${PLEDGE_URL:?$usage}} BOOK=${2:-${PLEDGE_BOOK:?$usage}}
HEADER="Pledge-Key: ${3:-${PLEDGE_KEY:?$usage}}" LOST=${4:-}
today=$(date -u +%F) tomorrow=$(date -u -d tomorrow +%F)

# The first terms, which may stand already: with the same numbers they are answered again.
if ask POST /terms '{"keep_after":0,"keep_before":0,"rate":2667,"version":1}'; then
    echo "terms $(said version)"
elif ((CODE == 406)); then
    echo "the book has other terms, and they stay"
else
    stop
fi

# A pledge under a reference of our own, by which a repeat is known: it never makes a second pledge.
ask POST /pledges '{"article":"Gold ring","five_days":true,"kind":"fixed","pence":10000,"ref":"'"$today"' 1"}' || stop
number=$(said number)
echo "pledge $number receipt $(said receipt)"

# Ten pounds, under a number of our own, so that they are never entered twice; and then too much.
ask POST "/pledges/$number/repay" '{"pence":1000,"seq":1}' || stop
echo "repaid $(money "$(said pence)") on $(said day)"
ask GET "/pledges/$number" || stop
if ! ask POST "/pledges/$number/repay" '{"pence":1000000,"seq":'"$(next_entry)"'}'; then
    case $CODE in
        204) echo "too much: owing is $(money "$(said total)")" ;;
        305) echo "the pledge is closed by now" ;;
        *) stop ;;
    esac
fi

# Confirms what is asked for tomorrow, as long as there is room, and refuses the rest.
ask GET "/days/$tomorrow" || stop
while read -r _ asked word window; do
    [ "$word" = window ] || continue
    if ! ask POST "/pledges/$asked/decide" '{"yes":true}'; then
        ((CODE == 408)) || stop
        ask POST "/pledges/$asked/decide" '{"yes":false}' || stop
    fi
    echo "booking of pledge $asked for window $window $(said booking)"
done <<<"$SAID"

# A new receipt. It is never sent again by itself: a second one would make the first new receipt worthless.
if [ -n "$LOST" ]; then
    if ONCE=1 ask POST "/pledges/$LOST/declare" '{"paper":"sworn"}'; then
        echo "new receipt $(said receipt)"
    elif ((SENT > 0)); then
        echo "no reply: a new receipt may have been made. Declare again only if the pawnor did not get it."
    elif ((CODE == 0)); then
        echo "nothing was sent, so no receipt was made"
    else
        stop
    fi
fi

ask GET "/days/$today" || stop
echo "$SAID"
ask GET /export || stop
echo "the book has $(grep -c '^P,' <<<"$SAID") pledges and $(grep -c '^E,' <<<"$SAID") entries"
