#!/usr/bin/env python3
"""A small payment service: HTTP in front, `lynx serve` behind, on Python's standard library.

    python3 examples/service/serve.py                 # http://127.0.0.1:8080, its stores in examples/service/stores

README.md tells of the calls, and how a request number comes from the client's idempotency key.
"""
import argparse
import http.client
import json
import os
import signal
import sys
import threading
from http.server import BaseHTTPRequestHandler, ThreadingHTTPServer

from bank import ACCOUNTS, HERE, TOP, Bank, Store, lynx


class Handler(BaseHTTPRequestHandler):
    """The calls, as README.md has them."""

    bank = web = None

    def log_message(self, *_):
        pass

    def answer(self, status, body, kind="application/json"):
        data = body if isinstance(body, bytes) else json.dumps(body).encode()
        self.send_response(status)
        self.send_header("Content-Type", f"{kind}; charset=utf-8")
        self.send_header("Content-Length", str(len(data)))
        self.end_headers()
        self.wfile.write(data)

    def do_GET(self):
        if self.path == "/":
            with open(os.path.join(HERE, "page.html"), "rb") as file:
                return self.answer(200, file.read(), "text/html")
        if self.path == "/status" or self.path.startswith("/chain/"):
            return self.passed_on()
        return self.answer(200, self.bank.state()) if self.path == "/state" else self.answer(404, {"error": "no such page"})

    def passed_on(self):
        """What the store tells of itself, so that its page stands beside this one."""
        asked = http.client.HTTPConnection("127.0.0.1", self.bank.store.status, timeout=10)
        try:
            asked.request("GET", self.path, headers={"Connection": "close"})
            answer = asked.getresponse()
            self.answer(answer.status, answer.read(), answer.headers.get_content_type())
        except (OSError, http.client.HTTPException):
            self.answer(503, {"error": "the store isn't running"})
        finally:
            asked.close()

    def do_POST(self):
        try:
            given = json.loads(self.rfile.read(min(int(self.headers.get("Content-Length") or 0), 65536)) or b"{}")
        except ValueError:
            given = None
        if not isinstance(given, dict):
            return self.answer(400, {"error": "no JSON object"})
        calls = {"/deposits": self.moved, "/payments": self.moved, "/kill": self.killed, "/audit": self.audited, "/slow": self.slowed,
                 "/shut": self.shut}
        return calls.get(self.path, lambda _: self.answer(404, {"error": "no such call"}))(given)

    def killed(self, _):
        self.bank.store.process.kill()
        self.answer(200, {"killed": True})

    def audited(self, _):
        self.answer(200, {"order": self.bank.audit()})

    def slowed(self, given):
        self.bank.is_slow = given.get("slow") is True
        self.answer(200, {"slow": self.bank.is_slow})

    def shut(self, _):
        self.answer(200, {"ends": True})
        threading.Thread(target=self.web.shutdown).start()

    def moved(self, given):
        """Does a deposit or a payment, where it makes sense."""
        key, amount, names = self.headers.get("Idempotency-Key"), given.get("amount"), ("from", "to")[self.path == "/deposits":]
        if not key:
            return self.answer(400, {"error": "a header Idempotency-Key is wanted"})
        if isinstance(amount, bool) or not isinstance(amount, int) or not 0 < amount < 2 ** 63:
            return self.answer(400, {"error": "an amount is a whole number above 0"})
        if any(not isinstance(given.get(name), str) or given[name] not in ACCOUNTS for name in names):
            return self.answer(404, {"error": "no such account"})
        if given.get("from") == given["to"]:
            return self.answer(400, {"error": "one account pays another"})
        try:
            answer = self.bank.move("deposit" if self.path == "/deposits" else "payment", given, key)
        except lynx.Clash:
            return self.answer(422, {"error": "this key was used for another request"})
        except lynx.LynxError as fault:
            return self.answer(503, {"error": fault.reason})
        if isinstance(answer, lynx.Refused):
            return self.answer(402, {"error": f"not enough: {answer.text}"})
        return self.answer(200 if answer.again else 201, {"chain": str(answer.chain), "again": answer.again})


def main():
    words = argparse.ArgumentParser(description="A small payment service on Lynx")
    built = os.path.join(TOP, "crates", "lynx", "out", "lynx")
    words.add_argument("--lynx", default=built if os.path.exists(built) else "lynx", help="the program, that of the path where none is built")
    words.add_argument("--folder", default=os.path.join(HERE, "stores"), help="where the stores are")
    words.add_argument("--port", type=int, default=8080, help="of HTTP")
    given = words.parse_args()
    os.makedirs(given.folder, exist_ok=True)
    store = Store(given.lynx, given.folder)
    bank = Handler.bank = Bank(store, given.folder)
    web = Handler.web = ThreadingHTTPServer(("127.0.0.1", given.port), Handler)
    watching = threading.Thread(target=store.watch)
    for thread in (watching, threading.Thread(target=bank.follow, daemon=True)):
        thread.start()
    signal.signal(signal.SIGTERM, lambda *_: threading.Thread(target=web.shutdown).start())
    print(f"http://127.0.0.1:{given.port}", flush=True)
    try:
        web.serve_forever()
    except KeyboardInterrupt:
        pass
    bank.end()
    watching.join()
    print("\n".join(store.lines), flush=True)
    return store.process.returncode


if __name__ == "__main__":
    sys.exit(main())
