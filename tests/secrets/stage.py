"""A daemon, a session bus and keyretain-secrets, and a client's calls. FOLDER is where it is installed. Names and types
are those of the Secret Service API 0.2."""
import os
import subprocess
import sys
import tempfile
from contextlib import contextmanager

sys.path.insert(0, os.path.join(os.path.dirname(os.path.abspath(__file__)), "../credentials"))
from helpers import (FOLDER, PATIENCE, attempt, compare, conclude, daemon, looking,  # noqa: E402,F401
                     outcome, run, skipped, text_of, until, write)
from jeepney import DBusAddress, MessageType, new_method_call  # noqa: E402
from jeepney.io.blocking import open_dbus_connection  # noqa: E402

NAME, ROOT = "org.freedesktop.secrets", "/org/freedesktop/secrets"
SECRET = "org.freedesktop.Secret."
SERVICE, COLLECTION, ITEM, SESSION = (SECRET + it for it in ("Service", "Collection", "Item", "Session"))
PROPERTIES = "org.freedesktop.DBus.Properties"
SESSION_COLLECTION = f"{ROOT}/collection/session"
RING = "secret-service"
# One user's bus, or one that lets all in: then it is keyretain-secrets that looks who asks. On a busy machine who
# connects may take longer than the five seconds that a bus has for it, and what it starts longer than 25.
CONFIGURATION = """<!DOCTYPE busconfig PUBLIC "-//freedesktop//DTD D-Bus Bus Configuration 1.0//EN"
 "http://www.freedesktop.org/standards/dbus/1.0/busconfig.dtd"><busconfig><type>session</type>
<listen>unix:path={}/bus</listen><auth>EXTERNAL</auth><policy context="default"><allow send_destination="*"/>
<allow receive_sender="*"/><allow own="*"/>{}</policy><servicedir>{}</servicedir>
<limit name="auth_timeout">60000</limit><limit name="service_start_timeout">60000</limit></busconfig>"""


@contextmanager
def bus(everybody=False, services="", **ids):
    """A bus that the environment names, of a user if one is named. In `services` are the files of those that it
    starts."""
    with tempfile.TemporaryDirectory(prefix="keyretain.") as folder:
        os.chmod(folder, 0o777 if ids else 0o755)
        write(f"{folder}/configuration",
              CONFIGURATION.format(folder, '<allow user="*"/>' if everybody else "", services or folder))
        with subprocess.Popen(["dbus-daemon", f"--config-file={folder}/configuration", "--nofork", "--print-address"],
                              stdout=subprocess.PIPE, stderr=subprocess.DEVNULL, **ids) as process:
            os.environ["DBUS_SESSION_BUS_ADDRESS"] = process.stdout.readline().decode().strip()
            try:
                yield process
            finally:
                process.kill()


@contextmanager
def secrets(*words, **ids):
    """keyretain-secrets on the bus, of a user if one is named. Answers its process."""
    with subprocess.Popen([f"{FOLDER}/bin/keyretain-secrets", *words], stderr=subprocess.PIPE, **ids) as process:
        with Caller() as caller:
            until(lambda: caller.call("NameHasOwner", "s", NAME, path="/", interface="org.freedesktop.DBus",
                                      name="org.freedesktop.DBus")[0] or process.poll() is not None)
        try:
            yield process
        finally:
            process.kill()


class Caller:
    """A client: a connection to the bus."""

    def __init__(self):
        self.connection = open_dbus_connection(auth_timeout=PATIENCE)

    def __enter__(self):
        return self

    def __exit__(self, *_):
        self.connection.close()

    def message(self, member, signature="", *body, path=ROOT, interface=SERVICE, name=NAME):
        return new_method_call(DBusAddress(path, name, interface), member, signature or None, body)

    def call(self, *words, **named):
        """What is answered; or the last word of an error's name."""
        reply = self.connection.send_and_get_reply(self.message(*words, **named), timeout=PATIENCE)
        if reply.header.message_type is MessageType.error:
            return reply.header.fields[4].rpartition(".")[2]  # ERROR_NAME
        return tuple(reply.body)

    def open_plain(self):
        return self.call("OpenSession", "sv", "plain", ("s", ""))[1]

    def create(self, session, attributes, secret, label="a label", replace=False, path=SESSION_COLLECTION):
        properties = {f"{ITEM}.Label": ("s", label), f"{ITEM}.Attributes": ("a{ss}", attributes)}
        answer = self.call("CreateItem", "a{sv}(oayays)b", properties, (session, b"", secret, "text/plain"), replace,
                           path=path, interface=COLLECTION)
        return answer if isinstance(answer, str) else answer[0]

    def search(self, attributes):
        return self.call("SearchItems", "a{ss}", attributes)

    def secret(self, item, session):
        answer = self.call("GetSecret", "o", session, path=item, interface=ITEM)
        return answer if isinstance(answer, str) else answer[0]

    def get(self, path, interface, name):
        answer = self.call("Get", "ss", interface, name, path=path, interface=PROPERTIES)
        return answer if isinstance(answer, str) else answer[0]

    def set(self, path, interface, name, value):
        return self.call("Set", "ssv", interface, name, value, path=path, interface=PROPERTIES)
