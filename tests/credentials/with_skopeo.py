"""with_skopeo.py [PROGRAM]: docker-credential-keyretain as skopeo(1) uses it, or podman(1): login, a request with what
is kept, and logout, at a registry on this machine."""
import base64
import json
import os
import sys
import tempfile
import threading
from http.server import BaseHTTPRequestHandler, ThreadingHTTPServer

from helpers import FOLDER, compare, conclude, daemon, helper, run, skipped, write

PROGRAM = sys.argv[1] if len(sys.argv) > 1 else "skopeo"
USER, PASSWORD = "alice", "s3 \u20ac:"


class Registry(BaseHTTPRequestHandler):
    """One repository, x, for who has the password."""

    def log_message(self, *_):
        pass

    def do_GET(self):
        given = self.headers.get("Authorization")
        wanted = "Basic " + base64.b64encode(f"{USER}:{PASSWORD}".encode()).decode()
        body = json.dumps({"name": "x", "tags": ["one", "two"]}).encode()
        self.send_response(200 if given == wanted else 401)
        self.send_header("Docker-Distribution-Api-Version", "registry/2.0")
        if given != wanted:
            self.send_header("WWW-Authenticate", 'Basic realm="x"')
        self.send_header("Content-Type", "application/json")
        self.send_header("Content-Length", str(len(body)))
        self.end_headers()
        self.wfile.write(body)


def try_registry(server, folder):
    place = f"127.0.0.1:{server.server_port}"
    write(folder + "/auth.json", json.dumps({"credHelpers": {place: "keyretain"}}))
    environment = {"PATH": f"{FOLDER}/bin:{os.environ['PATH']}", "REGISTRY_AUTH_FILE": folder + "/auth.json",
                   "HOME": folder, "XDG_RUNTIME_DIR": folder, "DOCKER_CONFIG": folder}

    def tried(*words, given=""):
        return run([PROGRAM, *words], given, environment)

    def login(password):
        return tried("login", "--tls-verify=false", "--username", USER, "--password-stdin", place, given=password)[0]

    def kept():
        return run(helper("docker", "get"), place)

    said = run([PROGRAM, "login", "--get-login", place], "", {**environment, "REGISTRY_AUTH_FILE": folder + "/none"})[2]
    if b"not logged in" not in said:
        return skipped(f"docker-credential-keyretain as {PROGRAM} uses it: it can't run here, even without it")
    compare("a wrong password", True, login("wrong") != 0)
    compare("isn't kept", 1, kept()[0])
    compare("login", 0, login(PASSWORD))
    compare("what is kept", {"ServerURL": place, "Username": USER, "Secret": PASSWORD}, json.loads(kept()[1] or b"{}"))
    with open(folder + "/auth.json", encoding="ascii") as file:
        compare("nothing is kept in the file", False, "auths" in file.read())
    if PROGRAM == "skopeo":
        status, out, _ = tried("list-tags", "--tls-verify=false", f"docker://{place}/x")
        compare("a request", (0, ["one", "two"]), (status, json.loads(out or b"{}").get("Tags")))
    compare("who is logged in", (0, USER), (tried("login", "--get-login", place)[0],
                                            tried("login", "--get-login", place)[1].decode().strip()))
    compare("logout", 0, tried("logout", place)[0])
    compare("nothing is kept", 1, kept()[0])
    compare("logout, again", 0, tried("logout", place)[0])
    compare("a request without credentials", True,
            PROGRAM != "skopeo" or tried("list-tags", "--tls-verify=false", f"docker://{place}/x")[0] != 0)


with tempfile.TemporaryDirectory(prefix="keyretain.") as scratch, daemon(), \
        ThreadingHTTPServer(("127.0.0.1", 0), Registry) as registry:
    registry.daemon_threads = True
    threading.Thread(target=registry.serve_forever, daemon=True).start()
    try_registry(registry, scratch)
    registry.shutdown()
conclude()
