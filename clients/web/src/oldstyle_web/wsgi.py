"""The application for any server of WSGI, over what the environment names."""
import atexit
import os
import sys

from .application import create_app
from .settings import Misuse, settings_from

# The status of a worker by which gunicorn ends, and doesn't start another one.
NO_START = 3

try:
    application = create_app(settings_from(os.environ))
except Misuse as why:
    print(f"oldstyle-web: {why}", file=sys.stderr, flush=True)
    sys.exit(NO_START)
atexit.register(application.close)
