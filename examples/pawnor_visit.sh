#!/usr/bin/env bash
# A pawnor's visit by curl: looks at a pledge by its receipt, asks for a window tomorrow, pays ten pounds, and
# redeems the rest.
#
# usage: pawnor_visit.sh URL BOOK RECEIPT      or the variables PLEDGE_URL, PLEDGE_BOOK and PLEDGE_RECEIPT
#
# Who has the receipt has the article, so better say it by the environment: a command line is seen by others of the
# machine.
set -euo pipefail
. "$(dirname "$0")/client.sh"
usage="usage: pawnor_visit.sh URL BOOK RECEIPT"
URL=${1:-${PLEDGE_URL:?$usage}} BOOK=${2:-${PLEDGE_BOOK:?$usage}}
HEADER="Pledge-Receipt: ${3:-${PLEDGE_RECEIPT:?$usage}}"
tomorrow=$(date -u -d tomorrow +%F)

if ! ask GET /held; then
    ((CODE == 402)) || stop
    echo "this receipt is not live" >&2
    exit 1
fi
echo "$SAID"

# A window of tomorrow. Asked again for the same one nothing changes, so it may be repeated.
if ask POST /held/ask '{"day":"'"$tomorrow"'","window":3}'; then
    echo "window $(said window) of $(said day) $(said booking)"
elif (($? == 1)); then
    echo "no booking: $CODE $(said name)"
else
    stop
fi

# Pays once: the number of the entry is taken from the statement before the first sending, and is the same in a repeat.
ask GET /held || stop
if ask POST /held/repay '{"pence":1000,"seq":'"$(next_entry)"'}'; then
    echo "repaid $(money "$(said pence)") as entry $(said seq)"
else
    case $CODE in
        204) echo "that is more than is owing: $(money "$(said total)")" ;;
        301) echo "another entry came first; look at the statement" ;;
        *) stop ;;
    esac
fi

# Pays all that is owing. A repeat can't pay twice: where the first was done it is refused as 402, since the receipt was
# surrendered. Where another sum is owing by now, as on the next day, it is paid only if a person says so.
ask GET /held || stop
paid=$(sed -n 's/^Owing \([0-9]*\)\.\([0-9]*\)$/\1\2/p' <<<"$SAID")
paid=$((10#$paid))
until ask POST /held/redeem '{"paid":'"$paid"'}'; do
    if ((CODE == 310)); then
        printf 'Owing is %s now, and not %s. Pay that? (yes) ' "$(money "$(said total)")" "$(money "$paid")"
        read -r answer || answer=
        echo
        if [ "$answer" != yes ]; then
            echo "not redeemed"
            exit
        fi
        paid=$(said total)
    elif ((CODE == 303)); then
        echo "the broker holds it back"
        exit
    elif ((CODE == 402 && SENT > 0)); then
        echo "redeemed, it seems: the reply was lost, and the receipt is not live any more. The broker can tell."
        exit
    else
        stop
    fi
done
echo "redeemed on $(said redeemed) for $(money "$(said paid)")"
