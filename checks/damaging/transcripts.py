"""What the program may write for an input, and with which status."""
import base64
import json
import re

from .cases import LIMIT
from .scripts import NEXT, NEXT_TRANSCRIPT

DONE, USAGE, BAD, TOO_LONG, NOT_TWINS, FAULTY, DIFFERS = 0, 1, 2, 6, 7, 8, 10
# With words that are a form, and where reading and writing do not fail and memory suffices.
STATUSES = {"run": {DONE, BAD, TOO_LONG}, "check": {DONE, BAD, TOO_LONG}, "twin": {DONE, BAD, TOO_LONG, NOT_TWINS}, "make": {DONE}}
STATUSES |= {"audit": {DONE, BAD, TOO_LONG, FAULTY}, "compare": {DONE, BAD, TOO_LONG, DIFFERS}}
# The record that comes last, by the word and the status; none where the input is too long.
LAST = {("run", DONE): "end", ("run", BAD): "bad", ("twin", DONE): "twins", ("twin", BAD): "bad", ("twin", NOT_TWINS): "not-twins"}
LAST["make", DONE] = "summary"
LAST |= {("audit", DONE): "audited", ("audit", BAD): "bad", ("audit", FAULTY): "faulty"}
LAST |= {("compare", DONE): "alike", ("compare", BAD): "bad", ("compare", DIFFERS): "differs"}
# The members of a record beside `line` and `out`, and those that it may have or not, for each of its forms.
EVENT_RECORDS = {
    "request": [("call kind provider text", ""), ("call kind provider raw", "")],
    "dialog": [
        ("accounts call context dialog site", ""),
        ("account call context dialog disclosure site", "privacy terms"),
        ("call dialog provider site step", "detail"),
    ],
    "window": [("call provider url", "")],
    "dropped": [("call provider step", "detail")],
    "result": [("auto call page provider see token", ""), ("call page see", ""), ("call page see step", "code detail url")],
    "ignored": [("why", "")],
}
LAST_RECORDS = {
    "end": ("events", ""),
    "bad": ("cause line", "member"),
    "twins": ("compared quiet", ""),
    "not-twins": ("clause event", ""),
    "audited": ("records", ""),
    "faulty": ("clause line", ""),
    "alike": ("requests", ""),
    "differs": ("line what", "call due due_raw kind provider"),
    "summary": ("calls dialogs events ignored mix requests tokens", ""),
}
STEPS = """call-pending config-scheme no-activation no-site silent-prevented active-many provider-twice logged-out well-known-reply well-known-shape well-known-other
    config-reply config-shape endpoint-origin config-other accounts-reply accounts-shape accounts-empty accounts-hints silent-no-account user-cancelled
    window-shut aborted assertion-reply assertion-cors assertion-shape provider-error not-connected no-disconnect disconnect-reply
    disconnect-cors disconnect-shape"""
MEMBERS = """fedcm now rules what origin status page provider account url text raw time call mediation mode activation context providers
    config client nonce login_hint domain_hint params to hint"""
DETAILS = """head coding length chunk short status mime json accounts_endpoint id_assertion_endpoint login_url client_metadata_endpoint
    disconnect_endpoint"""
WHATS = """record missing further head method target host accept sec-fetch-dest origin content-type content-length cookie client_id nonce
    account_id disclosure_text_shown is_auto_selected params account_hint body token page auto"""
WORDS = {
    "kind": "wellknown config accounts metadata assertion disconnect token",
    "dialog": "choose prompt mismatch",
    "context": "signin signup use continue",
    "see": "token disconnected NetworkError NotAllowedError AbortError IdentityCredentialError",
    "why": "no-page page-insecure no-call call-ended not-waited not-offered no-account nobody-waits",
    "step": STEPS,
    "cause": "not-json no-kind member bad-url call-twice have-late time-back too-many no-next",
    "member": MEMBERS,
    "clause": "header kind member load origins count record call head origin cookie consent token",
    "detail": DETAILS,
    "what": WHATS,
}
WORDS = {name: set(words.split()) for name, words in WORDS.items()}
# Members that are no texts.
NUMBERS = set("line call page provider events compared quiet event calls dialogs ignored mix requests tokens records".split())
FLAGS = {"auto", "disclosure", "connected"}
ACCOUNT = ("connected email id name provider", "given_name picture")
SEEN = {"call-pending": "NotAllowedError", "aborted": "AbortError", "provider-error": "IdentityCredentialError"}
# The names of a request's fields by its kind; `Cookie` may follow in three of them.
READING = ["Host", "Accept", "Sec-Fetch-Dest"]
POSTING = READING + ["Origin", "Content-Type", "Content-Length"]
FIELDS = {kind: READING for kind in ("wellknown", "config", "accounts")}
FIELDS |= {"metadata": READING + ["Origin"], "assertion": POSTING, "disconnect": POSTING}
WITH_COOKIE = {"accounts", "assertion", "disconnect"}
TARGET = re.compile(r"[!-~]+\Z")
# Lines that are not blank, and lines that divide two scripts.
FILLED = re.compile(rb"^[ \t\r]*[^ \t\r\n]", re.M)
DIVIDING = {
    form: re.compile(rb"^[ \t\r]*" + re.escape(line) + rb"[ \t\r]*$", re.M)
    for form, line in (("twin", NEXT), ("audit", NEXT_TRANSCRIPT), ("compare", NEXT_TRANSCRIPT))
}


class Fault(Exception):
    """What is wrong with a run."""


def need(holds, what):
    if not holds:
        raise Fault(what)


def form_of(words):
    """The first word, where the words are a form of the program."""
    if words in ([b"run"], [b"check"], [b"twin"], [b"audit"], [b"compare"]):
        return words[0].decode()
    if len(words) == 2 and words[0] == b"make" and re.fullmatch(rb"[1-9][0-9]{0,4}", words[1]) and int(words[1]) <= 20_000:
        return "make"
    return None


def refuse_number(text):
    raise Fault("a number that is no integer: " + text)


def record_of(line):
    """The record of a line, which has to be the compact text of an object with its members in the order of their names."""
    try:
        text = line.decode()
        record = json.loads(text, parse_float=refuse_number, parse_constant=refuse_number)
    except ValueError as error:
        raise Fault(f"a line is no JSON: {error}") from error
    need(isinstance(record, dict) and isinstance(record.get("out"), str), "a line is no record")
    compact = json.dumps(record, ensure_ascii=False, sort_keys=True, separators=(",", ":"))
    need(compact == text, "a record is not compact, or its members are not in order")
    return record


def check_members(record, needed, free):
    names = set(record) - {"out"}
    needed = set(needed.split())
    return needed <= names <= needed | set(free.split())


def check_values(record):
    """Each member is of its kind, and a word where it is one of a closed list."""
    for name, value in record.items():
        if name in NUMBERS:
            need(type(value) is int and value >= 0, f"{name} is no number")
        elif name in FLAGS:
            need(isinstance(value, bool), f"{name} is neither true nor false")
        elif name == "account":
            check_account(value)
        elif name == "accounts":
            need(isinstance(value, list) and len(value) > 1, "accounts are no list of several")
            for account in value:
                check_account(account)
        else:
            need(isinstance(value, str), f"{name} is no text")
            need(name not in WORDS or value in WORDS[name], f"the word {value!r} of {name}")


def check_account(account):
    need(isinstance(account, dict) and check_members(account, *ACCOUNT), "the members of an account")
    check_values(account)


def base64_of(text):
    try:
        return base64.b64decode(text, validate=True)
    except ValueError as error:
        raise Fault(f"no base64: {error}") from error


def check_request(record):
    """A request has the lines and the fields of its kind and no others, whatever stood in the script."""
    if "text" in record:
        raw = record["text"].encode()
        need(raw.isascii(), "a request that is no ASCII stands as a text")
    else:
        raw = base64_of(record["raw"])
        need(not raw.isascii(), "a request that is ASCII stands in base64")
    kind = record["kind"]
    head, gap, body = raw.decode("latin-1").partition("\r\n\r\n")
    first, *fields = head.split("\r\n")
    posts = kind in ("assertion", "disconnect")
    method, _, target = first.removesuffix(" HTTP/1.1").partition(" ")
    need(gap and method == ("POST" if posts else "GET") and TARGET.match(target), "the first line of a request")
    need(not re.search("[\r\n\0]", "".join(fields)), "a control byte in a request's head")
    names = [field.partition(": ")[0] for field in fields]
    allowed = [FIELDS[kind]] + ([FIELDS[kind] + ["Cookie"]] if kind in WITH_COOKIE else [])
    need(names in allowed, f"the fields of a request: {names}")
    need(fields[1] == "Accept: application/json" and fields[2] == "Sec-Fetch-Dest: webidentity", "the fixed fields of a request")
    need(not body or posts and fields[5] == f"Content-Length: {len(body)}", "the body of a request")


def check_event_record(record):
    need(record["out"] in EVENT_RECORDS, f"a record {record['out']!r}")
    forms = EVENT_RECORDS[record["out"]]
    need(any(check_members(record, needed + " line", free) for needed, free in forms), f"the members of a record: {sorted(record)}")
    check_values(record)
    if record["out"] == "request":
        check_request(record)
    if "account" in record:
        need(record["disclosure"] != record["account"]["connected"], "what the prompt discloses")
    if "step" in record:
        step = record["step"]
        need(("detail" in record) == (step.endswith("-reply") or step in ("endpoint-origin", "config-other")), f"the detail of {step}")
        need(("code" in record) == (step == "provider-error"), f"the code of {step}")
        need(record.get("see", SEEN.get(step, "NetworkError")) == SEEN.get(step, "NetworkError"), f"what a page sees of {step}")


def check_last(record, wanted):
    need(record["out"] == wanted, f"the last record is {record['out']!r}")
    need(check_members(record, *LAST_RECORDS[wanted]), f"the members of the last record: {sorted(record)}")
    check_values(record)
    need(wanted != "bad" or ("member" in record) == (record["cause"] == "member"), "a member beside another cause")


def check_finding(record):
    """What `check` says of a bad line, or of a member that is read over, whatever its name is."""
    need(record["out"] in ("bad", "unread"), f"a finding {record['out']!r}")
    if record["out"] == "bad":
        check_last(record, "bad")
    else:
        need(check_members(record, "line member", ""), f"the members of a finding: {sorted(record)}")
        need(type(record["line"]) is int and isinstance(record["member"], str), "the line or the member of a finding")


def check_findings(records, status, source):
    lines = lines_in(source)
    for record in records:
        check_finding(record)
    numbers = [record["line"] for record in records]
    need(numbers == sorted(numbers) and all(1 <= number <= lines + 1 for number in numbers), "the lines of findings")
    need(status == TOO_LONG or (status == BAD) == any(record["out"] == "bad" for record in records), f"status {status} by the findings")


def lines_in(source):
    """How many lines an input has."""
    return source.count(b"\n") + (not source.endswith(b"\n") and source != b"")


def check_line_numbers(records, last, source):
    """Records come in the order of their lines, each of a line that is there, and before the bad one; the end counts the events."""
    lines = lines_in(source)
    before = 2
    for record in records:
        number = record["line"]
        need(before <= number <= lines, f"line {number} after line {before}, of {lines}")
        before = number
    if last and last["out"] == "bad":
        bad = last["line"]
        need(before < bad or not records, "the bad line is not the last")
        need(1 <= bad <= max(1, lines), f"bad is line {bad} of {lines}")
    if last and last["out"] == "end":
        events = sum(1 for _ in FILLED.finditer(source)) - 1
        need(last["events"] == events, f"{last['events']} events of {events}")


def check_divided_end(form, last, source):
    """The line that is missing or bad where a line divides the input, the first event that only one of two scripts has, and the line or the
    number of the records of a transcript."""
    lines = lines_in(source)
    if last["out"] == "bad":
        need(1 <= last["line"] <= lines + 1, f"bad is line {last['line']} of {lines}")
        need(last["cause"] != "no-next" or not DIVIDING[form].search(source), "a dividing line was not seen")
    if last["out"] == "not-twins":
        need((last["event"] == 0) == (last["clause"] == "header"), "the event of a clause")
    if last["out"] == "audited":
        need(last["records"] <= lines, f"{last['records']} records of {lines} lines")
    if last["out"] == "faulty":
        need(2 < last["line"] <= lines, f"faulty is line {last['line']} of {lines}")
    if last["out"] == "alike":
        need(last["requests"] <= lines, f"{last['requests']} requests of {lines} lines")
    if last["out"] == "differs":
        check_difference(last, lines)


def check_difference(last, lines):
    """What a request or a token is known by stands there but for a line that is no record; a value that is due, once."""
    about = {"call", "kind", "provider"} & set(last)
    need(len(about) == (0 if last["what"] == "record" else 3), f"what differs: {sorted(about)}")
    need(last["what"] != "record" or 2 < last["line"] <= lines, f"no record is line {last['line']} of {lines}")
    need(not {"due", "due_raw"} <= set(last), "two values that are due")


def check_status(form, status, source):
    if form is None:
        need(status == USAGE, f"status {status} where the words are no form")
        return
    need(status in STATUSES[form], f"status {status}")
    if form != "make":
        need(status != TOO_LONG or len(source) > LIMIT, "too long within the limit")
        need(status in (BAD, TOO_LONG) or len(source) <= LIMIT, f"status {status} beyond the limit")


def check(words, source, status, written):
    """Raises a Fault where the program may not end with this status, or may not write this, for these words and this input."""
    form = form_of(words)
    check_status(form, status, source)
    need(not written or written.endswith(b"\n"), "the last line does not end")
    records = [record_of(line) for line in written.split(b"\n")[:-1]]
    if form == "check":
        check_findings(records, status, source)
        return
    wanted = LAST.get((form, status))
    last = None
    if wanted:
        need(records, "nothing is written")
        last = records.pop()
        check_last(last, wanted)
    need(form == "run" or not records, "more than one record")
    for record in records:
        check_event_record(record)
    if form == "run":
        check_line_numbers(records, last, source)
    elif form in DIVIDING and last:
        check_divided_end(form, last, source)
