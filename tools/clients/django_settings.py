# Settings of Django: its cache and its sessions on a chain. django_craq.py and what it imports stand on Python's path.
CACHES = {
    "default": {
        "BACKEND": "django_craq.CraqCache",
        "LOCATION": ["127.0.0.1:11211", "127.0.0.1:11212", "127.0.0.1:11213"],
        "TIMEOUT": 300,
    },
}
SESSION_ENGINE = "django.contrib.sessions.backends.cache"
SESSION_CACHE_ALIAS = "default"
SESSION_COOKIE_AGE = 8 * 3600
