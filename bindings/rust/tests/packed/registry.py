#!/usr/bin/env python3
"""A registry for cargo on this machine, which takes one package: registry.py FILE. It writes its port to FILE, and then serves."""
import hashlib
import http.server
import json
import pathlib
import sys

entries, archives = {}, {}


def taken(message):
    """Keeps the package that cargo publishes: the length of its description, that, the length of the archive, and that."""
    at = 4 + int.from_bytes(message[:4], "little")
    told, archive = json.loads(message[4:at]), message[at + 4 :]
    name, version = told["name"], told["vers"]
    archives[f"/{name}-{version}.crate"] = archive
    kept = {"name": name, "vers": version, "deps": [], "yanked": False, "features": told["features"], "links": told["links"]}
    entries[f"/{name[:2]}/{name[2:4]}/{name}"] = json.dumps({**kept, "cksum": hashlib.sha256(archive).hexdigest()}).encode()


class Registry(http.server.BaseHTTPRequestHandler):
    """What cargo asks for: the registry's description, an entry of its index, and an archive."""

    def answer(self, status, text):
        self.send_response(status)
        self.send_header("Content-Length", str(len(text)))
        self.end_headers()
        self.wfile.write(text)

    def do_GET(self):
        here = f"http://127.0.0.1:{self.server.server_port}"
        about = json.dumps({"dl": here + "/{crate}-{version}.crate", "api": here}).encode()
        found = {"/config.json": about, **entries, **archives}.get(self.path)
        self.answer(404 if found is None else 200, found or b"")

    def do_PUT(self):
        taken(self.rfile.read(int(self.headers["Content-Length"])))
        self.answer(200, b'{"warnings": {}}')

    def log_message(self, *words):
        pass


server = http.server.HTTPServer(("127.0.0.1", 0), Registry)
pathlib.Path(sys.argv[1]).write_text(f"{server.server_port}\n")
server.serve_forever()
