"""Measures the server: requests a second and the 99th percentile, beside nginx and a small server over PyLD; and a soak.

Run by hand, at the top of the repository, with wrk, nginx and python3-pyld of the system's packages:

    python3 bench/serve.py            the table
    python3 bench/serve.py soak 600   so many seconds of requests, revisions and evictions, with every reply checked

The program is build/tulleshale (./tulleshale makes it), or the one that TULLESHALE names. All runs on one machine, over the
loopback interface, wrk beside what it measures. nginx serves a file of the reply's size. The server over PyLD answers the
same requests by Python's http.server, with a thread for each connection.

What counts are the ratios in one run. In a soak each client keeps its connection, takes the requests below at random, and
compares each reply with the one that was worked out beforehand; others have contexts loaded anew and taken out meanwhile.
"""

import http.client
import json
import os
import pathlib
import random
import re
import shutil
import subprocess
import sys
import tempfile
import threading
import time

TOP = pathlib.Path(__file__).resolve().parent.parent
PROGRAM = os.environ.get("TULLESHALE", str(TOP / "build/tulleshale"))
SECONDS = 5
WORKERS = (1, 2, 4)
CONTEXT = {"@context": {"n": "http://e/n", "k": {"@id": "http://e/k", "@type": "@id"}}}
NAME = "http://xmlns.com/foaf/0.1/name"
ANN = {"document": {"@id": "http://a.example/1", NAME: "Ann"}}
LOADED = {"document": {"@context": "http://c/x", "@id": "http://e/1", "n": "a", "k": "http://e/2"}}
REPLIES = {
    "ann": b'[{"@id":"http://a.example/1","http://xmlns.com/foaf/0.1/name":[{"@value":"Ann"}]}]',
    "loaded": b'[{"@id":"http://e/1","http://e/k":[{"@id":"http://e/2"}],"http://e/n":[{"@value":"a"}]}]',
}
BODIES = {"ann": json.dumps(ANN), "loaded": json.dumps(LOADED)}


def free_port():
    """A port that nobody listens at."""
    import socket

    with socket.socket() as probe:
        probe.bind(("127.0.0.1", 0))
        return probe.getsockname()[1]


def wait_for(port):
    """Until something listens there."""
    import socket

    for _ in range(200):
        with socket.socket() as probe:
            if probe.connect_ex(("127.0.0.1", port)) == 0:
                return
        time.sleep(0.05)
    raise SystemExit("the server doesn't listen")


class Server:
    """The server, in a folder of its own with one context."""

    def __init__(self, workers):
        self.folder = pathlib.Path(tempfile.mkdtemp())
        contexts = self.folder / "contexts"
        contexts.mkdir()
        (contexts / "index").write_text("http://c/x x.jsonld\n")
        (contexts / "x.jsonld").write_text(json.dumps(CONTEXT))
        self.port = free_port()
        words = [PROGRAM, "serve", f"127.0.0.1:{self.port}", str(workers), "1000000", "0"]
        self.child = subprocess.Popen(words, cwd=self.folder, stdout=subprocess.DEVNULL)
        wait_for(self.port)

    def memory(self):
        """What it has in memory, in bytes."""
        text = pathlib.Path(f"/proc/{self.child.pid}/status").read_text()
        return int(re.search(r"VmRSS:\s+(\d+)", text)[1]) * 1024

    def stop(self):
        self.child.kill()
        self.child.wait()
        shutil.rmtree(self.folder)


NGINX = """
worker_processes {workers};
daemon off;
error_log stderr error;
pid {folder}/pid;
events {{ worker_connections 64; }}
http {{
    access_log off;
    keepalive_requests 100000000;
    client_body_temp_path {folder};
    proxy_temp_path {folder};
    fastcgi_temp_path {folder};
    uwsgi_temp_path {folder};
    scgi_temp_path {folder};
    server {{ listen 127.0.0.1:{port}; root {folder}; location / {{ default_type application/ld+json; }} }}
}}
"""


class Nginx:
    """nginx, which serves a file of the reply's size."""

    def __init__(self, workers, reply):
        self.folder = pathlib.Path(tempfile.mkdtemp())
        os.chmod(self.folder, 0o755)
        (self.folder / "expand").write_bytes(reply)
        self.port = free_port()
        text = NGINX.format(workers=workers, folder=self.folder, port=self.port)
        (self.folder / "conf").write_text(text)
        self.child = subprocess.Popen(["nginx", "-c", str(self.folder / "conf"), "-p", str(self.folder)], stderr=subprocess.DEVNULL)
        wait_for(self.port)

    def stop(self):
        self.child.terminate()
        self.child.wait()
        shutil.rmtree(self.folder, ignore_errors=True)


PYLD = """
import http.server, json, sys
from pyld import jsonld
CONTEXT = json.loads(sys.argv[2])
def load(url, options=None):
    return {"contextUrl": None, "documentUrl": url, "document": CONTEXT, "contentType": "application/ld+json"}
jsonld.set_document_loader(load)
class Handler(http.server.BaseHTTPRequestHandler):
    protocol_version = "HTTP/1.1"
    disable_nagle_algorithm = True
    def do_POST(self):
        body = self.rfile.read(int(self.headers["Content-Length"]))
        made = jsonld.expand(json.loads(body)["document"])
        text = json.dumps(made, separators=(",", ":"), sort_keys=True).encode()
        head = f"HTTP/1.1 200 OK\\r\\nContent-Length: {len(text)}\\r\\n\\r\\n".encode()
        self.wfile.write(head + text)
    def log_message(self, *words):
        pass
http.server.ThreadingHTTPServer(("127.0.0.1", int(sys.argv[1])), Handler).serve_forever()
"""


class Pyld:
    """A small server over PyLD."""

    def __init__(self):
        self.port = free_port()
        words = ["/usr/bin/python3", "-c", PYLD, str(self.port), json.dumps(CONTEXT)]
        self.child = subprocess.Popen(words, stderr=subprocess.DEVNULL)
        wait_for(self.port)

    def stop(self):
        self.child.kill()
        self.child.wait()


SCRIPT = """
wrk.method = "POST"
wrk.body = [==[%s]==]
"""


def measured(port, connections, body):
    """Requests a second, and the 99th percentile in microseconds."""
    words = ["wrk", "-t1", f"-c{connections}", f"-d{SECONDS}s", "--latency"]
    with tempfile.NamedTemporaryFile("w", suffix=".lua") as script:
        if body:
            script.write(SCRIPT % body)
            script.flush()
            words += ["-s", script.name]
        out = subprocess.run(words + [f"http://127.0.0.1:{port}/expand"], capture_output=True, text=True, check=True).stdout
    if "Non-2xx" in out:
        raise SystemExit(out)
    rate = float(re.search(r"Requests/sec:\s+([\d.]+)", out)[1])
    value, unit = re.search(r"99%\s+([\d.]+)(us|ms|s)", out).groups()
    return rate, float(value) * {"us": 1, "ms": 1e3, "s": 1e6}[unit]


def of(server, connections, body):
    """What is measured of a server, which is stopped then."""
    try:
        return measured(server.port, connections, body)
    finally:
        server.stop()


def table():
    print("| request | workers | requests a second | 99th percentile | nginx | PyLD |")
    print("|---|---|---|---|---|---|")
    for name, body in BODIES.items():
        for workers in WORKERS:
            rate, late = of(Server(workers), workers, body)
            nginx, nginx_late = of(Nginx(workers, REPLIES[name]), workers, None)
            pyld, pyld_late = of(Pyld(), workers, body)
            print(
                f"| {name} | {workers} | {rate:,.0f} | {late:,.0f} us | {nginx:,.0f} ({nginx / rate:.1f} times), {nginx_late:,.0f} us"
                f" | {pyld:,.0f} (1/{rate / pyld:.0f}), {pyld_late:,.0f} us |"
            )


def ask(connection, path, body):
    connection.request("POST", path, body)
    reply = connection.getresponse()
    return reply.status, reply.read()


class Soak:
    """Clients whose every reply is checked, and others that change the store meanwhile."""

    def __init__(self, server, seconds):
        self.server = server
        self.until = time.monotonic() + seconds
        self.asked = 0
        self.wrong = []
        self.lock = threading.Lock()

    def ask_at_random(self, seed):
        draws = random.Random(seed)
        connection = http.client.HTTPConnection("127.0.0.1", self.server.port)
        asked = 0
        while time.monotonic() < self.until:
            name = draws.choice(("ann", "loaded"))
            got = ask(connection, "/expand", BODIES[name])
            asked += 1
            if got != (200, REPLIES[name]):
                self.wrong.append((name, got))
            # a session has 65,536 items at most
            if asked % 60_000 == 0:
                connection = http.client.HTTPConnection("127.0.0.1", self.server.port)
        with self.lock:
            self.asked += asked

    def change_at_random(self, seed):
        draws = random.Random(seed)
        connection = http.client.HTTPConnection("127.0.0.1", self.server.port)
        while time.monotonic() < self.until:
            path = draws.choice(("/revise", "/evict"))
            status, body = ask(connection, path, '{"iri":"http://c/x"}')
            if status not in (200, 404, 409):
                self.wrong.append((path, status, body))
            time.sleep(draws.random() / 50)

    def run(self):
        clients = [threading.Thread(target=self.ask_at_random, args=(k,)) for k in range(3)]
        clients.append(threading.Thread(target=self.change_at_random, args=(9,)))
        for client in clients:
            client.start()
        first = self.server.memory()
        print(f"memory at the start: {first / 1e6:.1f} MB")
        while any(client.is_alive() for client in clients):
            time.sleep(min(30, max(1, self.until - time.monotonic())))
            print(f"memory: {self.server.memory() / 1e6:.1f} MB", flush=True)
        for client in clients:
            client.join()
        last = self.server.memory()
        each = (last - first) / max(1, self.asked)
        print(f"requests: {self.asked:,}, wrong: {len(self.wrong)}, bytes a request: {each:.0f}")
        for wrong in self.wrong[:5]:
            print(wrong)
        return 1 if self.wrong else 0


def soak(seconds):
    server = Server(4)
    try:
        return Soak(server, seconds).run()
    finally:
        server.stop()


if __name__ == "__main__":
    if sys.argv[1:2] == ["soak"]:
        sys.exit(soak(float(sys.argv[2])))
    table()
