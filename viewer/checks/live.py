"""One sign-in anew: a Chromium that is recorded, from the click to the token, at a page and a provider that the check itself serves."""
import base64
import hashlib
import json
import os
import shutil
import socket
import ssl
import subprocess
import tempfile
import threading
import time

import browser
import capture
from recorder import Recorder

from .traffic import program, requests_of

IDP, RP = "https://accounts.idp.example", "https://rp.example"
CONFIG = IDP + "/fedcm.json"
CALL = {"identity": {"context": "signup", "providers": [{"configURL": CONFIG, "clientId": "shop", "nonce": "n-7"}]}}
PAGE = """<!doctype html><title>shop</title><style>button { position: fixed; inset: 0; width: 100%%; height: 100%% }</style>
<button onclick='navigator.credentials.get(%s).catch(error => { document.title = error.name; })'>Sign in</button>""" % json.dumps(CALL)
ENDPOINTS = {"accounts_endpoint": "/accounts", "id_assertion_endpoint": "/assert", "login_url": "/login",
             "client_metadata_endpoint": "/client"}
ACCOUNT = {"id": "u-1", "name": "Ann Okafor", "email": "ann@idp.example"}
JSON = {"Content-Type": "application/json"}
PATIENCE = 120
CORS = {"Access-Control-Allow-Origin": RP, "Access-Control-Allow-Credentials": "true"}
PAGES = {
    ("rp.example", "/"): ({"Content-Type": "text/html"}, PAGE),
    ("accounts.idp.example", "/login"): ({"Content-Type": "text/html", "Set-Login": "logged-in",
                                         "Set-Cookie": "session=for-ann-only; Path=/; Secure; HttpOnly; SameSite=None"}, "signed in"),
    ("idp.example", "/.well-known/web-identity"): (JSON, json.dumps({"provider_urls": [CONFIG]})),
    ("accounts.idp.example", "/fedcm.json"): (JSON, json.dumps(ENDPOINTS)),
    ("accounts.idp.example", "/accounts"): (JSON, json.dumps({"accounts": [ACCOUNT]})),
    ("accounts.idp.example", "/client"): ({**JSON, "Access-Control-Allow-Origin": RP}, json.dumps({"privacy_policy_url": RP + "/privacy"})),
    ("accounts.idp.example", "/assert"): ({**JSON, **CORS}, json.dumps({"token": "a-token"})),
}


# A key and a certificate of its own, and the mark by which the browser takes it.
def certificate(folder):
    key, cert = os.path.join(folder, "key.pem"), os.path.join(folder, "cert.pem")
    made = ["openssl", "req", "-x509", "-newkey", "ec", "-pkeyopt", "ec_paramgen_curve:prime256v1", "-nodes", "-days", "2", "-keyout", key,
            "-out", cert, "-subj", "/CN=rp.example", "-addext", "subjectAltName=DNS:rp.example,DNS:idp.example,DNS:*.idp.example"]
    subprocess.run(made, check=True, stdout=subprocess.DEVNULL, stderr=subprocess.DEVNULL)
    public = subprocess.run(["openssl", "x509", "-in", cert, "-pubkey", "-noout"], check=True, stdout=subprocess.PIPE).stdout
    der = subprocess.run(["openssl", "pkey", "-pubin", "-outform", "der"], check=True, input=public, stdout=subprocess.PIPE).stdout
    return key, cert, base64.b64encode(hashlib.sha256(der).digest()).decode()


# Serves the page and the provider on a port of this machine, and keeps each request as it was read.
class Server:
    def __init__(self, key, cert):
        self.context = ssl.SSLContext(ssl.PROTOCOL_TLS_SERVER)
        self.context.load_cert_chain(cert, key)
        self.socket = socket.create_server(("127.0.0.1", 0))
        self.port, self.read = self.socket.getsockname()[1], []
        threading.Thread(target=self.accept, daemon=True).start()

    def accept(self):
        while True:
            try:
                connection = self.socket.accept()[0]
            except OSError:
                return
            threading.Thread(target=self.serve, args=(connection,), daemon=True).start()

    def serve(self, connection):
        try:
            with self.context.wrap_socket(connection, server_side=True) as stream:
                rest = b""
                while True:
                    rest = self.one(stream, rest)
        except (OSError, EOFError):
            pass

    # Reads one request and answers it; what was read of the next.
    def one(self, stream, rest):
        def more():
            data = stream.recv(65536)
            if not data:
                raise EOFError
            return data
        while b"\r\n\r\n" not in rest:
            rest += more()
        end = rest.index(b"\r\n\r\n") + 4
        lines = rest[:end].decode("latin-1").split("\r\n")
        fields = {name.lower(): value.strip() for name, _, value in (line.partition(":") for line in lines[1:] if line)}
        while len(rest) < end + int(fields.get("content-length", 0)):
            rest += more()
        end += int(fields.get("content-length", 0))
        self.read.append(rest[:end])
        page = PAGES.get((fields["host"], lines[0].split(" ")[1].split("?")[0]))
        status, (heads, body) = ("200 OK", page) if page else ("404 Not Found", ({}, ""))
        heads = {**heads, "Content-Length": len(body)}
        text = "HTTP/1.1 %s\r\n%s\r\n%s" % (status, "".join("%s: %s\r\n" % head for head in heads.items()), body)
        stream.sendall(text.encode())
        return rest[end:]


def seen(recorder, method, test=lambda params: True):
    found = []

    def done():
        found.extend(event for event in recorder.events if event["method"] == method and test(event["params"]))
        return bool(found)
    if not recorder.go_on(PATIENCE, done):
        last = ", ".join(event["method"] for event in recorder.events[-5:])
        raise RuntimeError("the recorded browser never told %s; it last told: %s" % (method, last or "nothing"))
    return found[0]["params"]


# Waits until the page stands, whatever events were told of it.
def stands(recorder, session, url):
    deadline = time.monotonic() + PATIENCE
    while time.monotonic() < deadline:
        try:
            asked = "location.href === %s && document.readyState === 'complete'" % json.dumps(url)
            if recorder.ask("Runtime.evaluate", session, seconds=PATIENCE, expression=asked)["result"].get("value"):
                return
        except RuntimeError:
            pass
        recorder.go_on(0.1)
    raise RuntimeError("the recorded browser never showed " + url)


# From the provider's page over the click at the shop to the token.
def sign_in(recorder):
    session = recorder.sessions[recorder.start(IDP + "/login")]
    stands(recorder, session, IDP + "/login")
    recorder.send("Page.navigate", session, url=RP + "/")
    stands(recorder, session, RP + "/")
    for kind in ("mousePressed", "mouseReleased"):
        recorder.send("Input.dispatchMouseEvent", session, type=kind, x=60, y=60, button="left", clickCount=1)
    dialog = seen(recorder, "FedCm.dialogShown")
    recorder.send("FedCm.selectAccount", session, dialogId=dialog["dialogId"], accountIndex=0)
    seen(recorder, "Runtime.bindingCalled", lambda params: '"result"' in params["payload"])
    recorder.go_on(0.5)


def recorded(folder):
    key, cert, mark = certificate(folder)
    server = Server(key, cert)
    flags = [*browser.FLAGS, "--host-resolver-rules=MAP *.example:443 127.0.0.1:%d" % server.port,
             "--ignore-certificate-errors-spki-list=" + mark]
    recorder = Recorder(browser.find(), folder, flags)
    try:
        sign_in(recorder)
    finally:
        recorder.close()
        server.socket.close()
    return server, [recorder.netlog, recorder.protocol]


# The recording becomes a pair that `audit` passes, with the requests that the server read, byte for byte.
def live(tally, page):
    if not shutil.which("openssl"):
        print("viewer: there is no openssl to make certificates with, so no sign-in is recorded here")
        return
    with tempfile.TemporaryDirectory(prefix="viewer-live-") as folder:
        server, paths = recorded(folder)
        seen_, profile = capture.convert(page.browser, paths, values=True)
        labelled = capture.convert(page.browser, paths)[1]
    read = sorted(request for request in server.read if b"Sec-Fetch-Dest: webidentity\r\n" in request)
    for result in (seen_, profile):
        tally.same("recorded, %s: each request as the server read it" % result["order"], sorted(requests_of(result)), read)
        tally.same("recorded, %s: requests in no call" % result["order"], (result["isWhole"], result["apart"]), (True, 0))
    tally.same("recorded: requests", len(read), 5)
    events = [json.loads(line) for line in profile["script"].splitlines()]
    get = next(event for event in events if event.get("do") == "get")
    tally.same("recorded: the call", (get.get("activation"), get["context"], get["providers"][0]["nonce"]), (True, "signup", "n-7"))
    tally.true("recorded: the token", '"see":"token","token":"a-token"' in profile["transcript"])
    tally.same("recorded: clauses", set(profile["clauses"].values()), {"judged"})
    left = [secret for secret in ("for-ann-only", "a-token", "Ann Okafor", "ann@idp", "n-7", "u-1") if secret in labelled["pair"]]
    tally.same("recorded: values beside labels", left, [])
    if program():
        for result in (profile, labelled):
            tally.same("recorded: audit", capture.judge("audit", result["pair"], program())[1].get("out"), "audited")
        print("\n".join(capture.verdict(profile, program())))
