"""Django's cache and its sessions by django_craq.py, with the settings of django_settings.py.

usage: django_program.py HOST:PORT ..      does some calls, and again after each line of its input
"""
import sys

import django
import django_settings
from django.conf import settings
from rounds import rounds

django_settings.CACHES["default"]["LOCATION"] = sys.argv[1:]
settings.configure(**{name: it for name, it in vars(django_settings).items() if name.isupper()}, SECRET_KEY="a test's")
django.setup()

from django.contrib.sessions.backends.cache import SessionStore  # noqa: E402
from django.core.cache import cache  # noqa: E402

before = SessionStore()
before["user"] = "alice"
before.save()


def calls():
    cache.set("page", {"title": "craq"}, 60)
    assert cache.get("page") == {"title": "craq"} and cache.get("page", version=2) is None
    cache.set("short", 1, 60)
    assert cache.touch("short", -1) and cache.get("short") is None and cache.add("short", 2, 60)
    assert cache.touch("short", 120) and not cache.touch("none") and cache.add("none", 1, 0) and "none" not in cache
    assert not cache.add("short", 3) and cache.incr("short", 5) == 7 and cache.delete("short")
    assert cache.get_or_set("made", lambda: [1, 2], None) == [1, 2]
    cache.set_many({"a": 1, "b": 2})
    assert cache.get_many(["a", "b", "c"]) == {"a": 1, "b": 2}
    # a session of an earlier round is still there, and a new one is kept
    assert SessionStore(before.session_key)["user"] == "alice"
    session = SessionStore()
    session["user"] = "bob"
    session.save()
    again = SessionStore(session.session_key)
    assert again["user"] == "bob"
    again.flush()
    assert not again.exists(session.session_key)
    cache.clear()
    assert cache.get("a") is None
    before.save(must_create=True)


rounds(calls)
