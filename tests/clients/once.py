"""once.py: one call, as once.c makes it, of the Python client: the name of its error, and how many whole seconds it
took."""
import errno
import time

import keyretain

begun, said = time.monotonic(), "answered"
try:
    with keyretain.Client() as client:
        client.hello(1, 1)
except OSError as error:
    said = errno.errorcode[error.errno]
print(said, int(time.monotonic() - begun + 0.2))
