"""Times heads of requests, whole and byte by byte, beside Python's http.client, and replies.

Run by hand, at the top of the repository: python3 bench/heads.py

Where nginx and wrk are installed, nginx's own figures for small requests come with it: one worker answers requests with
the first head and a fixed body over the loopback interface, and the processor time of that worker is taken, for its own
work and for the system's calls apart. The program here makes no system calls, so that only the first compares.

A small program, the crate ld_head_bench, reads one head again and again. What counts are the ratios to Python in one run,
and the columns of one kind: twice the size should take twice the time, also where each byte comes alone. Times are those
of the processor; what the program takes for its start is measured apart and left out.
"""

import http.client
import io
import os
import pathlib
import re
import shutil
import socket
import subprocess
import tempfile
import time

from times import best

TOP = pathlib.Path(__file__).resolve().parent.parent
ROUNDS = 100_000
# fields beyond those that a request needs, and the bytes of each one's value
HEADS = ((0, 0), (2, 20), (12, 40), (7, 200), (14, 200), (28, 200), (56, 200), (56, 250))


def head_of(fields, value):
    """The head that the program reads."""
    more = b"X-Some-Field: " + b"v" * value + b"\r\n"
    return b"POST /expand HTTP/1.1\r\nHost: server.example\r\nContent-Length: 107\r\n" + more * fields + b"\r\n"


def microseconds(program, kind, fields, value, rounds=ROUNDS):
    """What one round takes."""
    whole = best([program, kind, str(fields), str(value), str(rounds)])
    start = best([program, kind, str(fields), str(value), "0"])
    return (whole - start) / rounds * 1e6


def python_microseconds(head, rounds=2_000, runs=5):
    """What Python takes for a request line and its fields."""
    times = []
    for _ in range(runs):
        begin = time.process_time()
        for _ in range(rounds):
            source = io.BytesIO(head)
            source.readline().split()
            http.client.parse_headers(source)
        times.append(time.process_time() - begin)
    return min(times) / rounds * 1e6


NGINX = """
user root;
worker_processes 1;
pid {folder}/pid;
error_log {folder}/error;
events {{ worker_connections 64; }}
http {{
    access_log off;
    keepalive_requests 100000000;
    server {{
        listen 127.0.0.1:{port};
        location / {{ default_type application/ld+json; return 200 "{body}"; }}
    }}
}}
"""

# posts the bytes of a small document
WRK = """
wrk.method = "POST"
wrk.body = string.rep("x", 107)
"""


def free_port():
    with socket.socket() as probe:
        probe.bind(("127.0.0.1", 0))
        return probe.getsockname()[1]


def worker_of(parent):
    """The process of the worker, once it is there."""
    for _ in range(100):
        children = pathlib.Path(f"/proc/{parent}/task/{parent}/children").read_text().split()
        if children:
            return int(children[0])
        time.sleep(0.05)
    raise SystemExit("nginx has no worker")


def processor_times(process):
    """Its own time and the system's, in seconds."""
    fields = pathlib.Path(f"/proc/{process}/stat").read_text().rsplit(")", 1)[1].split()
    tick = os.sysconf("SC_CLK_TCK")
    return int(fields[11]) / tick, int(fields[12]) / tick


def nginx_microseconds():
    """What a request takes nginx's worker: its own processor time, and the system's."""
    with tempfile.TemporaryDirectory() as folder:
        port = free_port()
        path = pathlib.Path(folder)
        (path / "conf").write_text(NGINX.format(folder=folder, port=port, body="x" * 82))
        (path / "post.lua").write_text(WRK)
        server = subprocess.Popen(["nginx", "-p", folder, "-c", str(path / "conf"), "-g", "daemon off;"], stderr=subprocess.DEVNULL)
        try:
            worker = worker_of(server.pid)
            before = processor_times(worker)
            said = subprocess.run(["wrk", "-t1", "-c8", "-d5s", "-s", str(path / "post.lua"), f"http://127.0.0.1:{port}/expand"], stdout=subprocess.PIPE, check=True, text=True).stdout
            after = processor_times(worker)
        finally:
            server.terminate()
            server.wait()
        requests = int(re.search(r"(\d+) requests in", said).group(1))
    return tuple((end - start) / requests * 1e6 for start, end in zip(before, after))


def main():
    folder = TOP / "crates" / "ld_head_bench"
    # rt has no command that only builds a program: this proves and builds it, and runs it once.
    subprocess.run(["rt", "run", "--", "whole", "1", "1", "1"], cwd=folder, stdout=subprocess.DEVNULL, stderr=subprocess.DEVNULL, check=True)
    program = str(folder / "out" / "ld_head_bench")
    print(f"{'bytes':>6} {'whole':>8} {'by byte':>8} {'Python':>8} {'ratio':>6}  microseconds a head")
    for fields, value in HEADS:
        head = head_of(fields, value)
        whole, by_byte = (microseconds(program, kind, fields, value) for kind in ("whole", "bytes"))
        python = python_microseconds(head)
        print(f"{len(head):6} {whole:8.2f} {by_byte:8.2f} {python:8.2f} {python / whole:6.1f}")
    reply = microseconds(program, "replies", 0, 0)
    print(f"a reply: {reply:.2f} microseconds")
    if shutil.which("nginx") and shutil.which("wrk"):
        own, system = nginx_microseconds()
        both = microseconds(program, "whole", 0, 0) + reply
        print(f"nginx, a small request: {own:.2f} microseconds and {system:.2f} of the system's; a head and a reply here: {both:.2f}, ratio {own / both:.1f}")


if __name__ == "__main__":
    main()
