"""Days, as the rules count them."""
import datetime
import time

# A script takes fewer seconds, unless the machine is overloaded.
LONGEST = 900


def await_midnight():
    """Waits until midnight (UTC) is over, if it is near. The scripts that import this module reckon with one day, which is
    to be the service's day until they have ended."""
    left = 86_400 - time.time() % 86_400
    if left < LONGEST:
        print(f"        it is nearly midnight (UTC): this begins in {left:.0f} seconds", flush=True)
        time.sleep(left + 1)


await_midnight()


def today():
    return datetime.datetime.now(datetime.timezone.utc).date()


def six_months_after(day):
    """The same day six months later, cut to its month's last day."""
    month = day.month + 6
    year, month = day.year + (month - 1) // 12, (month - 1) % 12 + 1
    for last in (day.day, 30, 29, 28):
        try:
            return datetime.date(year, month, last)
        except ValueError:
            pass
