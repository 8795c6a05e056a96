"""Headless Chromium, driven over its pipe by the DevTools protocol: what bench/page needs of it, with the standard library alone."""
import base64
import fcntl
import json
import os
import select
import subprocess
import time

NOT_TAKEN = {"503": b")]}'\n{\"not_taken\":\"MEMORY\"}\n", "429": b")]}'\n{\"not_taken\":\"TOO_MANY_REQUESTS\",\"retry_after\":60}\n"}
KEYS = {"Tab": 9, "Enter": 13, " ": 32, "ArrowDown": 40, "ArrowUp": 38}


class Browser:
    """The process, and the messages to and from it: each ends with a zero byte."""

    def __init__(self, folder):
        to_it, self.into = os.pipe()
        self.out, from_it = os.pipe()
        ends = [fcntl.fcntl(end, fcntl.F_DUPFD_CLOEXEC, 10) for end in (to_it, from_it)]  # away from 3 and 4, which they become
        words = ["chromium", "--headless", "--remote-debugging-pipe", f"--user-data-dir={folder}", "--ignore-certificate-errors", "--no-first-run", "--disable-gpu",
                 "--disable-background-networking", "--disable-component-update", "--disable-sync", "--disable-dev-shm-usage", "--hide-scrollbars"]
        if os.geteuid() == 0:
            words.append("--no-sandbox")
        self.process = subprocess.Popen(["bash", "-c", f'exec "$@" 3<&{ends[0]} 4>&{ends[1]}', "bash", *words], pass_fds=ends, stdout=subprocess.DEVNULL, stderr=subprocess.DEVNULL,
                                        env={**os.environ, "TMPDIR": os.path.dirname(folder)})
        for end in (to_it, from_it, *ends):
            os.close(end)
        self.readable = select.poll()  # not select, which takes no descriptor above 1,023
        self.readable.register(self.out, select.POLLIN)
        self.last, self.held, self.pages = 0, b"", {}

    def post(self, method, session=None, **words):
        """Sends a message, and waits for nothing: its number."""
        self.last += 1
        message = {"id": self.last, "method": method, "params": words, **({"sessionId": session} if session else {})}
        os.write(self.into, json.dumps(message).encode() + b"\0")
        return self.last

    def call(self, method, session=None, **words):
        """Sends a message, and gives its answer; meanwhile each page hears its events."""
        number = self.post(method, session, **words)
        while True:
            message = self.next()
            if message.get("id") == number:
                if "error" in message:
                    raise RuntimeError(f"{method}: {message['error']}")
                return message["result"]
            self.hear(message)

    def hear(self, message):
        page = self.pages.get(message.get("sessionId"))
        if page and "method" in message:
            page.hear(message["method"], message["params"])

    def next(self, seconds=60):
        until = time.monotonic() + seconds
        while b"\0" not in self.held:
            if not self.readable.poll(max(0, until - time.monotonic()) * 1000):
                raise RuntimeError(f"Chromium said nothing for {seconds} seconds")
            got = os.read(self.out, 1 << 20)
            if not got:
                raise RuntimeError("Chromium has ended")
            self.held += got
        message, self.held = self.held.split(b"\0", 1)
        return json.loads(message)

    def end(self):
        self.process.kill()
        self.process.wait()
        os.close(self.into)
        os.close(self.out)


class Page:
    """One page of a user, who has a name and a password, and whose cookies, storage and passwords no other page sees."""

    def __init__(self, browser, user, password, width, height):
        self.browser, self.user, self.password = browser, user, password
        self.sent, self.faults, self.held, self.is_holding, self.lost = [], [], [], False, None
        context = browser.call("Target.createBrowserContext")["browserContextId"]
        target = browser.call("Target.createTarget", url="about:blank", browserContextId=context)["targetId"]
        self.session = browser.call("Target.attachToTarget", targetId=target, flatten=True)["sessionId"]
        browser.pages[self.session] = self
        for domain in ("Page", "Runtime", "Log", "DOM", "Accessibility"):
            self.call(f"{domain}.enable")
        stages = [{"urlPattern": "*", "requestStage": stage} for stage in ("Request", "Response")]
        self.call("Fetch.enable", handleAuthRequests=True, patterns=stages)
        self.resize(width, height)

    def call(self, method, **words):
        return self.browser.call(method, self.session, **words)

    def post(self, method, **words):
        self.browser.post(method, self.session, **words)

    def resize(self, width, height):
        self.call("Emulation.setDeviceMetricsOverride", width=width, height=height, deviceScaleFactor=1, mobile=False)

    def hear(self, method, said):
        """What the page does by itself: requests, which may be held or lost, questions for a password, dialogs and faults."""
        if method == "Fetch.authRequired":
            answer = {"response": "ProvideCredentials", "username": self.user, "password": self.password}
            self.post("Fetch.continueWithAuth", requestId=said["requestId"], authChallengeResponse=answer)
        elif method == "Fetch.requestPaused":
            self.pass_on(said)
        elif method == "Page.javascriptDialogOpening":
            self.faults.append(f"a dialog: {said['message']}")
            self.post("Page.handleJavaScriptDialog", accept=True)
        elif method == "Runtime.exceptionThrown":
            self.faults.append(f"an exception: {said['exceptionDetails']}")
        elif method == "Log.entryAdded" and said["entry"]["source"] == "security":
            self.faults.append(f"security: {said['entry']['text']}")

    def pass_on(self, said):
        """Passes a request or an answer on. POSTs are noted; `lost` says at which stage the next one is lost, or that it is told 503 or 429."""
        number, is_answer, is_post = said["requestId"], "responseStatusCode" in said or "responseErrorReason" in said, said["request"]["method"] == "POST"
        if is_post and not is_answer:
            self.sent.append((said["request"]["url"], said["request"]["headers"].get("Request-Id"), said["request"].get("postData")))
        if is_post and self.lost == ("answer" if is_answer else "request"):
            self.lost = None
            self.post("Fetch.failRequest", requestId=number, errorReason="ConnectionReset")
        elif is_post and self.lost in NOT_TAKEN and not is_answer:
            self.post("Fetch.fulfillRequest", requestId=number, responseCode=int(self.lost), body=base64.b64encode(NOT_TAKEN[self.lost]).decode())
            self.lost = None
        elif is_post and self.is_holding and not is_answer:
            self.held.append(number)
        else:
            self.post("Fetch.continueRequest", requestId=number)

    def release(self):
        """Passes on what was held, in the order in which it came."""
        self.is_holding = False
        for number in self.held:
            self.post("Fetch.continueRequest", requestId=number)
        self.held = []

    def run(self, text):
        """The value of an expression, where it is a promise of what it promises."""
        told = self.call("Runtime.evaluate", expression=text, awaitPromise=True, returnByValue=True)
        if "exceptionDetails" in told:
            raise RuntimeError(f"{text}: {told['exceptionDetails']}")
        return told["result"].get("value")

    def until(self, condition, seconds=30, is_reloaded=False):
        """Waits until an expression holds, which is looked at twenty times a second. Of a page that isn't there yet none holds. With `is_reloaded` it is loaded anew each second."""
        until, reloaded = time.monotonic() + seconds, time.monotonic()
        while not self.call("Runtime.evaluate", expression=f"Boolean({condition})", returnByValue=True)["result"].get("value") is True:
            if time.monotonic() > until:
                raise RuntimeError(f"{condition} doesn't hold after {seconds} seconds; the page says {self.run('document.body.innerText')}")
            if is_reloaded and time.monotonic() > reloaded + 1:
                self.call("Page.reload")
                reloaded = time.monotonic()
            time.sleep(0.05)

    def until_sent(self, count, seconds=10):
        """Waits until so many POSTs were sent."""
        until = time.monotonic() + seconds
        while len(self.sent) < count:
            if time.monotonic() > until:
                raise RuntimeError(f"{len(self.sent)} POSTs, and not {count}: {self.sent}")
            self.run("0")
            time.sleep(0.02)

    def load(self, address, condition):
        self.call("Page.navigate", url=address)
        self.until(f"document.readyState === 'complete' && ({condition})")

    def reload(self, condition):
        """Loads the page anew. What is there before it has gone says nothing."""
        self.run("document.body.dataset.old = 1")
        self.call("Page.reload")
        self.until(f"document.body && !document.body.dataset.old && document.readyState === 'complete' && ({condition})")

    def click(self, chosen, times=1, before=0):
        """Presses what a selector chooses, in its middle, so many times as one who presses twice does, and has pressed so often before."""
        place = self.run(f"(() => {{ const it = document.querySelector({json.dumps(chosen)}); it.scrollIntoView({{block: 'center'}});"
                         " const box = it.getBoundingClientRect(); return [box.x + box.width / 2, box.y + box.height / 2]; })()")
        for count in range(before + 1, before + times + 1):
            for kind in ("mousePressed", "mouseReleased"):
                self.call("Input.dispatchMouseEvent", type=kind, x=place[0], y=place[1], button="left", clickCount=count)

    def key(self, name, is_shifted=False):
        words = {"key": name, "code": "Space" if name == " " else name, "windowsVirtualKeyCode": KEYS[name], "modifiers": 8 if is_shifted else 0}
        text = {"Enter": "\r", " ": " "}.get(name)
        self.call("Input.dispatchKeyEvent", type="keyDown" if text else "rawKeyDown", **words, **({"text": text} if text else {}))
        self.call("Input.dispatchKeyEvent", type="keyUp", **words)

    def write(self, text):
        """Writes where the focus is."""
        self.call("Input.insertText", text=text)

    def picture(self):
        """What is seen of the page, as PNG."""
        return base64.b64decode(self.call("Page.captureScreenshot", format="png")["data"])
