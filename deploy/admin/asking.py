"""The proxy as a caller meets it: whether it answers, by which certificate, and whether it has taken up its files."""
import contextlib
import http.client
import os
import re
import ssl
import subprocess
import time

import proxy
import services
from settings import PROXY, SETTINGS, Stop

# A certificate that is good for so few days is WRONG.
SHORT_CERTIFICATE = 14
PATIENCE = 10


def host_name():
    with contextlib.suppress(OSError), open(os.path.join(SETTINGS, "name.conf")) as file:
        found = re.search(r"^\s*server_name\s+([^\s;]+)", file.read(), re.M)
        if found:
            return found[1]
    return "localhost"


def context_for(verified):
    context = ssl.create_default_context()
    if not verified:
        context.check_hostname, context.verify_mode = False, ssl.CERT_NONE
    return context


class ByName(http.client.HTTPSConnection):
    """A connection to this machine's proxy that asks for the service's own name."""

    def connect(self):
        http.client.HTTPConnection.connect(self)
        self.sock = self._context.wrap_socket(self.sock, server_hostname=host_name())


def proxy_connection(verified=False):
    return contextlib.closing(ByName(PROXY, timeout=PATIENCE, context=context_for(verified)))


def answers_through_proxy(book):
    """What keeps a book's store from answering through the proxy; nothing if it answers."""
    try:
        with proxy_connection() as connection:
            connection.request("GET", f"/books/{book}{services.PROBE}", headers={"Host": host_name()})
            reply = connection.getresponse()
            said = reply.read()
    except (OSError, http.client.HTTPException) as why:
        return f"the proxy at {PROXY} does not answer: {why}"
    return None if services.PROBE_ANSWER in said else f"{reply.status} {said[:80].decode(errors='replace').strip()}"


def code_through_proxy(book, key):
    """The code of the refusal of a request for a pledge that is not there, with this key."""
    with proxy_connection() as connection:
        heads = {"Host": host_name(), "Pledge-Key": key}
        connection.request("GET", f"/books/{book}/pledges/999999999", headers=heads)
        reply = connection.getresponse()
        found = re.search(rb'"code":(\d+)', reply.read())
    return int(found[1]) if found else reply.status


def certificate():
    """For how many days the certificate that the proxy shows is good, and why browsers refuse it, if they do."""
    with proxy_connection() as connection:
        connection.connect()
        shown = ssl.DER_cert_to_PEM_cert(connection.sock.getpeercert(True))
    ran = subprocess.run(["openssl", "x509", "-noout", "-enddate"], input=shown, capture_output=True, text=True)
    ends = ssl.cert_time_to_seconds(ran.stdout.strip().partition("=")[2])
    refused = None
    try:
        with proxy_connection(verified=True) as connection:
            connection.connect()
    except ssl.SSLCertVerificationError as why:
        refused = why.verify_message
    return int((ends - time.time()) // 86400), refused


def start_of(pid):
    """When a process began, in seconds since 1970."""
    with open(f"/proc/{pid}/stat") as file:
        ticks = int(file.read().rpartition(")")[2].split()[19])
    boot = time.time() - time.clock_gettime(time.CLOCK_BOOTTIME)
    return boot + (ticks + 1) / os.sysconf("SC_CLK_TCK")


def state_of_certificate(wrong, notes):
    """For how many days it is good, if the proxy shows one."""
    try:
        days, refused = certificate()
    except (OSError, ValueError, IndexError) as why:
        wrong.append(
            f"the proxy at {PROXY} shows no certificate: {why}. Is its site enabled? `ls -l /etc/nginx/sites-enabled`, and "
            "if `pawnd` is not there: `ln -s ../sites-available/pawnd /etc/nginx/sites-enabled/pawnd`, then `pawnd-admin "
            "reload`"
        )
        return None
    if days < SHORT_CERTIFICATE:
        how_long = f"is good for {days} days" if days >= 0 else f"ended {-days} days ago"
        wrong.append(f"the certificate {how_long}: `certbot renew`, then `pawnd-admin reload`")
    if refused:
        notes.append(f"browsers refuse the certificate: {refused}")
    return days


def state_of_proxy(has_begun):
    wrong, notes, state = [], [], {"runs": False, "certificate_days": None}
    master = proxy.nginx_master()
    if master is None:
        wrong.append("nginx does not run: `systemctl start nginx`, then `journalctl -u nginx` if it does not start")
        return state, wrong, notes
    state["runs"] = True
    try:
        proxy.run("nginx", "-t", "-q", fails="nginx refuses its files, so it goes on by the old ones, and would not start at the "
                  "next boot. Mend them, then run `pawnd-admin reload`")
    except Stop as why:
        wrong.append(str(why))
    if proxy.is_of_another_machine():
        notes.append("there is no store main here: the proxy of another machine reaches the stores, and has the certificate "
                     "and the map of books")
    else:
        state["certificate_days"] = state_of_certificate(wrong, notes)
    # A command that has begun reloads nginx before it ends.
    begun = max(map(start_of, proxy.workers(master)), default=0)
    for path in () if has_begun else proxy.TAKEN_UP:
        if proxy.changed_at(path) > begun:
            wrong.append(f"nginx has not taken up {path}, which was changed since: `pawnd-admin reload`")
    return state, wrong, notes
