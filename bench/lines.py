"""Lines of scripts."""
import json

HEADER = '{"fedcm":1,"now":0,"rules":""}\n'
OK = "HTTP/1.1 200 OK\r\nContent-Type: application/json\r\n"
ENDPOINTS = {"accounts_endpoint": "/accounts", "id_assertion_endpoint": "/assert", "login_url": "/login"}


def compact(value):
    return json.dumps(value, separators=(",", ":"))


def line(**members):
    return compact(members) + "\n"


def raw_reply(call, to, text):
    return line(do="reply", call=call, to=to, text=text)


def reply(call, to, body, fields=""):
    """A good reply with further fields, each with its CRLF, and a body of JSON."""
    return raw_reply(call, to, f"{OK}{fields}\r\n{compact(body)}")
