"""pygerrit2 as it is, for a desk: an `auth` that says who asks and gives each command an id, and a client with it. A module.

It wants Debian's package python3-pygerrit2. A command is any call that isn't a GET. Its id is kept until its answer came, so a call that ended without one is made
again, before any other, and acts once. `caller.id` may be set to an id of your own before a call.
"""
import secrets

from pygerrit2.rest import GerritRestAPI
from requests.adapters import HTTPAdapter
from requests.auth import AuthBase, HTTPBasicAuth
from urllib3.util import Retry


class Caller(AuthBase):
    """Who asks: an account, straight at the desk, or a user with a password, at the proxy before it."""

    def __init__(self, account=None, user=None, password=None, epoch=None):
        """`epoch` is a call that tells the present epoch, as `retry.this_day` does for a team's desk; without it each request is in epoch 0."""
        self.id, self.basic, self.account = None, HTTPBasicAuth(user, password) if user else None, account
        self.present, self.epoch = epoch, None

    def __call__(self, request):
        if self.basic:
            self.basic(request)
        else:
            request.headers["X-Account"] = str(self.account)
        if request.method != "GET":
            if self.epoch is None and self.present:
                self.epoch = self.present()
            self.id = self.id or secrets.token_hex(16)
            request.headers["Request-Id"] = self.id
            if self.epoch is not None:
                request.headers["Request-Epoch"] = str(self.epoch)
            request.register_hook("response", self.answered)
        return request

    def answered(self, response, **_):
        """After an answer of the desk the next command gets an id of its own. A refusal is one; 429 and 503 are none, nor is a text without its second line's end."""
        if response.status_code not in (429, 503) and response.content.startswith(b")]}'\n") and response.content.count(b"\n") == 2:
            self.id = self.epoch = None


def client_for(url, caller, certificate=True):
    """A client of pygerrit2, which sends again what brought no answer: the same request, with its id.

    `certificate` is a file with the proxy's certificate, where that is none that the system trusts. pygerrit2 is given no `auth`: it would begin each path with
    Gerrit's /a/, which a desk doesn't have. So its session gets it.
    """
    client = GerritRestAPI(url, verify=certificate)
    client.session.auth = caller
    client.session.trust_env = False
    again = Retry(total=8, backoff_factor=0.1, status_forcelist=(429, 500, 502, 503, 504), allowed_methods=None)
    client.session.mount(url, HTTPAdapter(max_retries=again))
    return client
