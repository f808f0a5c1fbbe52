"""A session as servers and people write it: calls of people at shops go to 300 providers, 200 of them in flight at a time and going on in a
random order: by a chooser, by a prompt, by a permission that is kept, to several providers; some fail at a step, are cancelled, closed or
disconnected. Heads have dates and tags, as each provider's server writes them. A seed makes it the same at each run."""
import itertools
import json
import random
from typing import NamedTuple

PROVIDERS = 300
IN_FLIGHT = 200
SITES = 2_000
CLIENTS = 500
# Events from one tick of the clock to the next.
A_TICK = 40
BEGIN = 1_700_000_000
# Beyond the numbers of pages and calls of visits.
LATER = 1_000_000
HEADER = {"fedcm": 1, "now": BEGIN, "rules": "com\nexample\nco.example"}
# How many calls of a score end so.
ENDINGS = {
    "chooser": 4,
    "prompt": 3,
    "approved": 3,
    "kept": 2,
    "disconnected": 2,
    "no well-known file": 1,
    "no endpoints": 1,
    "signed out": 1,
    "cancelled": 1,
    "closed": 1,
    "refused": 1,
}
# Those of which some offer several providers.
SEVERAL = ("chooser", "approved", "cancelled")
NAMES = ["Ann Okafor", "Ben Lee", "Zoë Quist", "Łukasz Nowak", "José Muñoz", "Chidi Eze", "Mai Trần", "王芳", "Αλέξης Παππάς", "Sam O'Neil"]
SERVERS = ["nginx", "nginx/1.24.0", "Apache/2.4.57 (Debian)", "cloudflare", "gunicorn", "Microsoft-IIS/10.0"]


class Provider(NamedTuple):
    """A provider: its address, and how its server writes heads and bodies."""

    number: int
    host: str
    path: str
    server: str
    lower: bool
    escapes: bool

    def origin(self):
        return f"https://{self.host}"

    def config(self):
        return f"{self.origin()}/{self.path}"


def providers(chance):
    for number in range(PROVIDERS):
        host = f"accounts.idp{number}.{chance.choice(['example', 'co.example', 'com'])}"
        path = chance.choice(["fedcm.json", "v2/config.json", "web/fedcm-config.json"])
        yield Provider(number, host, path, chance.choice(SERVERS), chance.random() < 0.3, chance.random() < 0.5)


def text_of(status, fields, body=""):
    return "".join([f"HTTP/1.1 {status}\r\n", *(f"{name}: {value}\r\n" for name, value in fields), "\r\n", body])


def answer(provider, chance, body, status="200 OK", kind="application/json; charset=utf-8", fields=()):
    """A reply as the provider's server writes it."""
    written = body if isinstance(body, str) else json.dumps(body, ensure_ascii=provider.escapes)
    head = [
        ("Date", f"Tue, 14 Nov 2023 22:{chance.randrange(60):02}:{chance.randrange(60):02} GMT"),
        ("Server", provider.server),
        ("Content-Type", kind),
        ("Content-Length", len(written.encode())),
        ("Cache-Control", "no-store"),
        ("ETag", f'W/"{chance.getrandbits(64):x}"'),
        *fields,
    ]
    return text_of(status, [(name.lower() if provider.lower else name, value) for name, value in head], written)


def session_cookie(chance):
    return f"sid={chance.getrandbits(96):024x}; Path=/; Secure; HttpOnly; SameSite=None"


class Visit:
    """A person's visit to a shop's page that calls once, and how the call ends."""

    def __init__(self, number, offered, chance):
        self.page, self.call, self.chance = number, number, chance
        self.ending = chance.choices(list(ENDINGS), list(ENDINGS.values()))[0]
        count = chance.choice([1, 1, 1, 2, 3]) if self.ending in SEVERAL else 1
        self.offered = chance.sample(offered, count)
        self.taken = chance.randrange(count)
        self.provider = self.offered[self.taken]
        self.site = f"https://shop{number % SITES}.example"
        self.client = f"client-{number % CLIENTS}"
        self.account = f"{chance.getrandbits(60):x}"

    def before(self):
        if self.ending == "kept":
            yield {"do": "have", "what": "kept", "page": self.site, "provider": self.provider.origin(), "account": self.account}

    def events(self):
        yield from self.begin()
        if self.ending == "no well-known file":
            yield self.reply(0, "wellknown", "<html></html>", status="404 Not Found", kind="text/html")
            return
        for place in range(len(self.offered)):
            yield from self.files(place)
        if self.ending == "signed out":
            yield from self.signed_out()
        elif self.ending != "no endpoints":
            for place in range(len(self.offered)):
                yield self.reply(place, "accounts", {"accounts": self.accounts(place)})
            yield from self.decided()

    def begin(self):
        path = self.chance.choice(["/", "/join", f"/checkout?cart={self.page}"])
        yield {"do": "load", "page": self.page, "url": self.site + path}
        call = {"do": "get", "page": self.page, "call": self.call, "providers": [self.options(one) for one in self.offered]}
        if self.chance.random() < 0.3:
            call["mediation"] = "optional"
        if self.chance.random() < 0.2:
            call["context"] = "signup"
        yield call

    def options(self, provider):
        options = {"config": provider.config(), "client": self.client, "nonce": f"{self.chance.getrandbits(96):x}"}
        if self.page % 7 == 0:
            options["login_hint"] = f"user{self.page}"
        return options

    def reply(self, place, to, body, **how):
        text = answer(self.offered[place], self.chance, body, **how)
        return {"do": "reply", "call": self.call, "provider": place, "to": to, "text": text}

    def files(self, place):
        provider = self.offered[place]
        yield self.reply(place, "wellknown", {"provider_urls": [provider.config()]})
        endpoints = {} if self.ending == "no endpoints" else {
            "accounts_endpoint": "/accounts",
            "client_metadata_endpoint": "/client-metadata",
            "id_assertion_endpoint": "/id-assertion",
            "disconnect_endpoint": "/disconnect",
            "login_url": "/login",
        }
        icons = [{"url": f"{provider.origin()}/icon-{size}.png", "size": size} for size in (32, 40)]
        branding = {"background_color": "#fff", "color": "#1a73e8", "icons": icons}
        yield self.reply(place, "config", endpoints | {"branding": branding})

    def accounts(self, place):
        """One account for a prompt, else three; the person's own is the first."""
        host = self.offered[place].host
        accounts = []
        for index in range(1 if self.ending == "prompt" else 3):
            name = self.chance.choice(NAMES)
            accounts.append({
                "id": self.account if index == 0 else f"{self.chance.getrandbits(60):x}",
                "name": name,
                "given_name": name.split()[0],
                "email": f"user{self.page + index}@{host.removeprefix('accounts.')}",
                "picture": f"https://{host}/picture/{self.page + index}?size=96",
                "login_hints": [f"user{self.page}", f"user{self.page + index}@mail.example"],
            })
        if self.ending == "approved":
            accounts[0]["approved_clients"] = [self.client]
        return accounts

    def signed_out(self):
        """The provider knows nobody: the person closes the dialog, and signs in at the provider."""
        yield self.reply(0, "accounts", {"error": "login_required"}, status="401 Unauthorized")
        yield {"do": "cancel", "call": self.call}
        fields = [("Set-Login", "logged-in"), ("Set-Cookie", session_cookie(self.chance))]
        page = LATER + self.provider.number
        yield {"do": "load", "page": page, "url": self.provider.origin() + "/login", "text": text_of("200 OK", fields)}

    def decided(self):
        """What the person does once the accounts are there."""
        if self.ending == "closed":
            yield {"do": "closepage", "page": self.page}
        elif self.ending == "cancelled":
            yield {"do": "cancel", "call": self.call}
        else:
            yield from self.agreed()
            yield from self.granted()

    def agreed(self):
        """The clicks, and the client's links between them, where anything is asked."""
        if self.ending not in ("prompt", "kept"):
            yield {"do": "choose", "call": self.call, "provider": self.taken, "account": self.account}
        if self.ending not in ("approved", "kept"):
            links = {"privacy_policy_url": f"{self.site}/privacy", "terms_of_service_url": f"{self.site}/terms"}
            yield self.reply(self.taken, "metadata", links)
            yield {"do": "continue", "call": self.call}

    def granted(self):
        allowed = [("Access-Control-Allow-Origin", self.site), ("Access-Control-Allow-Credentials", "true")]
        if self.ending == "refused":
            error = {"code": "access_denied", "url": f"{self.provider.origin()}/why"}
            yield self.reply(self.taken, "assertion", {"error": error}, fields=allowed)
            return
        yield self.reply(self.taken, "assertion", {"token": f"{self.chance.getrandbits(1024):x}"}, fields=allowed)
        if self.ending == "disconnected":
            yield from self.disconnects(allowed)

    def disconnects(self, allowed):
        self.call += LATER
        config = self.provider.config()
        yield {"do": "disconnect", "page": self.page, "call": self.call, "config": config, "client": self.client, "hint": self.account}
        yield from self.files(0)
        yield self.reply(0, "disconnect", {"account_id": self.account}, fields=allowed)


def interleaved(visits, chance):
    """The events of these visits, some in flight at a time and going on in a random order."""
    waiting = (visit.events() for visit in visits)
    flying = list(itertools.islice(waiting, IN_FLIGHT))
    while flying:
        place = chance.randrange(len(flying))
        event = next(flying[place], None)
        if event:
            yield event
        else:
            flying[place] = flying[-1]
            flying[-1:] = itertools.islice(waiting, 1)


def ticking(events):
    """The events with the clock's ticks between them."""
    for count, event in enumerate(events, 1):
        yield event
        if count % A_TICK == 0:
            yield {"do": "at", "time": BEGIN + count // A_TICK}


def session(calls):
    """The events of the session with so many calls."""
    chance = random.Random(1)
    known = list(providers(chance))
    for provider in known:
        if provider.number % 4:
            yield {"do": "have", "what": "login", "origin": provider.origin(), "status": "logged-in"}
        yield {"do": "have", "what": "cookie", "url": provider.origin() + "/", "text": session_cookie(chance)}
    visits = [Visit(number, known, chance) for number in range(calls)]
    for visit in visits:
        yield from visit.before()
    yield from ticking(interleaved(visits, chance))
