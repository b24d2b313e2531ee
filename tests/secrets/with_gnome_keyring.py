"""with_gnome_keyring.py: beside gnome-keyring, which has a collection `session` too: what the manual has a user type
stores nothing there."""
import subprocess

from stage import FOLDER, NAME, Caller, bus, compare, conclude, daemon, run, until

with daemon(), bus(), Caller() as caller:
    with subprocess.Popen(["gnome-keyring-daemon", "--start", "--foreground", "--components=secrets"],
                          stdout=subprocess.DEVNULL, stderr=subprocess.DEVNULL) as other:
        compare("it has the name", True, until(lambda: caller.call(
            "NameHasOwner", "s", NAME, path="/", interface="org.freedesktop.DBus", name="org.freedesktop.DBus")[0]))
        status, _, told = run([f"{FOLDER}/bin/keyretain-secrets"])
        compare("keyretain-secrets", (3, True), (status, b"gnome-keyring-d's (process " in told))
        status = run(["secret-tool", "store", "--collection=keyretain", "--label=x", "a", "b"], "s3cret")[0]
        compare("nothing is stored by the name", (True, 1), (status != 0, run(["secret-tool", "lookup", "a", "b"])[0]))
        other.kill()
conclude()
