"""A Chromium with a new profile that is recorded: its NetLog, and of its DevTools protocol what a conversion reads."""
import json
import os
import time

from browser import Ended, Pipe

FLAGS = ("--no-first-run", "--no-default-browser-check", "--no-startup-window", "--net-log-capture-mode=Everything")
HOOK = os.path.join(os.path.dirname(os.path.abspath(__file__)), "hook.js")
KEPT = {"Target.attachedToTarget", "Target.targetCreated", "Target.targetInfoChanged", "Target.targetDestroyed", "FedCm.dialogShown",
        "FedCm.dialogClosed", "Runtime.bindingCalled", "Network.requestWillBeSent", "Network.requestWillBeSentExtraInfo",
        "Network.responseReceived", "Network.responseReceivedExtraInfo", "Network.loadingFinished", "Network.loadingFailed"}
ASKED = {"FedCm.enable", "FedCm.selectAccount", "FedCm.clickDialogButton", "FedCm.dismissDialog", "Target.attachToTarget",
         "Network.getResponseBody", "Storage.getCookies"}


class Recorder(Pipe):
    def __init__(self, program, folder, flags=()):
        self.netlog, self.protocol = os.path.join(folder, "netlog.json"), os.path.join(folder, "protocol.jsonl")
        self.asked, self.kinds, self.answers, self.sessions = {}, {}, {}, {}
        self.log = open(self.protocol, "w", encoding="utf-8")
        with open(HOOK, encoding="utf-8") as file:
            self.hook = file.read()
        super().__init__([program, *FLAGS, *flags, "--user-data-dir=" + os.path.join(folder, "profile"), "--log-net-log=" + self.netlog])

    def keep(self, way, message):
        self.log.write(json.dumps({"t": time.time() * 1000, "d": way, "m": message}, separators=(",", ":")) + "\n")

    def send(self, method, session=None, **members):
        self.number += 1
        message = {"id": self.number, "method": method, "params": members}
        if session:
            message["sessionId"] = session
        if method in ASKED:
            self.asked[self.number] = method
            self.keep(">", message)
        self.write(message)
        return self.number

    # Takes messages for so many seconds, or until `done` says so; whether it did.
    def go_on(self, seconds, done=lambda: False):
        deadline = time.monotonic() + seconds
        while not done():
            left = deadline - time.monotonic()
            message = self.read(left) if left > 0 else None
            if message is None:
                return False
            self.take(message)
        return True

    def take(self, message):
        method, params = message.get("method"), message.get("params", {})
        if message.get("id") in self.asked or method in KEPT:
            self.keep("<", message)
        if "id" in message:
            self.answers[message["id"]] = message
        elif method == "Target.attachedToTarget":
            self.attached(params["sessionId"], params["targetInfo"])
        elif method == "Network.requestWillBeSent":
            self.kinds[message["sessionId"], params["requestId"]] = params.get("type")
        elif method == "Network.loadingFinished" and self.kinds.get((message["sessionId"], params["requestId"])) == "FedCM":
            self.send("Network.getResponseBody", message["sessionId"], requestId=params["requestId"])
        else:
            self.events.append(message)

    # A new page waits until it is watched.
    def attached(self, session, target):
        if target["type"] == "page":
            self.sessions[target["targetId"]] = session
            for method, members in (("Network.enable", {}), ("Page.enable", {}), ("Runtime.enable", {}),
                                    ("Runtime.addBinding", {"name": "__fedcmTell"}),
                                    ("Page.addScriptToEvaluateOnNewDocument", {"source": self.hook, "runImmediately": True}),
                                    ("FedCm.enable", {"disableRejectionDelay": False})):
                self.send(method, session, **members)
        self.send("Runtime.runIfWaitingForDebugger", session)

    def ask(self, method, session=None, seconds=60, **members):
        number = self.send(method, session, **members)
        if not self.go_on(seconds, lambda: number in self.answers):
            raise Ended("the browser gives no answer to %s" % method)
        answer = self.answers.pop(number)
        if "error" in answer:
            raise RuntimeError("%s: %s" % (method, answer["error"]["message"]))
        return answer["result"]

    # Opens the first page; what comes from now on is recorded.
    def start(self, url):
        self.ask("Storage.getCookies")
        self.ask("Target.setDiscoverTargets", discover=True)
        self.ask("Target.setAutoAttach", autoAttach=True, waitForDebuggerOnStart=True, flatten=True)
        return self.ask("Target.createTarget", url=url)["targetId"]

    # Goes on until the browser is closed by hand.
    def until_closed(self):
        try:
            while True:
                self.go_on(3600)
        except Ended:
            pass

    def close(self):
        self.end(lambda: self.ask("Browser.close", seconds=10))
        self.log.close()
