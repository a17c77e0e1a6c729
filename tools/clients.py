#!/usr/bin/env python3
"""Tries clients of others against a server.

    tools/clients.py COMMAND..

COMMAND runs `padd` (a path, or several words). A server is started in a fresh folder; Python's `websockets` and node's `ws` each
type into one pad and hear their commit, `curl`, Python's `urllib` and node's `fetch` read its text by the API, and `sqlite3`
looks into the server's database. Each is skipped with a word where its program isn't there. The exit status is 1 where one failed.
"""
import asyncio
import json
import os
import shutil
import socket
import subprocess
import sys
import tempfile
import urllib.request

NODE = """
const WebSocket = require('ws');
const link = new WebSocket(process.argv[1]);
link.on('open', () => link.send(JSON.stringify({type: 'CLIENT_READY', padId: 'p', token: 't.node'})));
link.on('message', (bytes) => {
  const message = JSON.parse(bytes);
  if (message.type === 'CLIENT_VARS') {
    const vars = message.data.collab_client_vars;
    const length = vars.initialAttributedText.text.length.toString(36);
    const data = {type: 'USER_CHANGES', baseRev: vars.rev, changeset: `Z:${length}>4+4$node`, apool: {numToAttrib: {}, nextNum: 0}};
    link.send(JSON.stringify({type: 'COLLABROOM', data}));
  } else if (message.type === 'COLLABROOM' && message.data.type === 'ACCEPT_COMMIT') process.exit(0);
});
link.on('close', () => process.exit(1));
setTimeout(() => process.exit(1), 10000);
"""

FETCH = "fetch(process.argv[1]).then((r) => r.text()).then((t) => console.log(t)).catch(() => process.exit(1));"


def free_port():
    with socket.socket() as s:
        s.bind(("127.0.0.1", 0))
        return s.getsockname()[1]


class Skipped(Exception):
    """The program isn't there."""


def program(name):
    path = shutil.which(name)
    if path is None:
        raise Skipped(f"{name} is not there")
    return path


async def type_by_websockets(url):
    import websockets

    async with websockets.connect(url) as link:
        await link.send(json.dumps({"type": "CLIENT_READY", "padId": "p", "token": "t.python"}))
        while True:
            message = json.loads(await link.recv())
            if message.get("type") == "CLIENT_VARS":
                variables = message["data"]["collab_client_vars"]
                length = len(variables["initialAttributedText"]["text"])
                data = {"type": "USER_CHANGES", "baseRev": variables["rev"], "changeset": f"Z:{length}>6+6$python",
                        "apool": {"numToAttrib": {}, "nextNum": 0}}
                await link.send(json.dumps({"type": "COLLABROOM", "data": data}))
            elif message.get("data", {}).get("type") == "ACCEPT_COMMIT":
                return True


def websockets_client(pads, api, folder):
    try:
        import websockets  # noqa: F401
    except ImportError as error:
        raise Skipped("Python's websockets is not there") from error
    return asyncio.run(asyncio.wait_for(type_by_websockets(pads), 10))


def ws_client(pads, api, folder):
    node = program("node")
    environment = dict(os.environ, NODE_PATH=os.environ.get("NODE_PATH", "/usr/share/nodejs"))
    if subprocess.run([node, "-e", "require('ws')"], env=environment, capture_output=True, check=False).returncode != 0:
        raise Skipped("node's ws is not there")
    return subprocess.run([node, "-e", NODE, pads], env=environment, check=False).returncode == 0


def has_text(reply):
    return json.loads(reply)["code"] == 0 and "\n" in json.loads(reply)["data"]["text"]


def curl_client(pads, api, folder):
    reply = subprocess.run([program("curl"), "-s", "-S", f"{api}/getText?apikey=key&padID=p"], capture_output=True, check=False)
    return has_text(reply.stdout)


def urllib_client(pads, api, folder):
    with urllib.request.urlopen(f"{api}/getText", data=b"apikey=key&padID=p") as reply:
        return has_text(reply.read())


def fetch_client(pads, api, folder):
    reply = subprocess.run([program("node"), "-e", FETCH, f"{api}/getText?apikey=key&padID=p"], capture_output=True, check=False)
    return has_text(reply.stdout)


def sqlite_client(_, group, folder):
    sqlite = program("sqlite3")
    rows = subprocess.run([sqlite, f"{folder}/directory.db", "pragma integrity_check; select * from kept;"], capture_output=True, text=True, check=False)
    return rows.stdout.startswith("ok\n") and group in rows.stdout


def group_made(api):
    with urllib.request.urlopen(f"{api}/createGroup?apikey=key") as reply:
        return json.loads(reply.read())["data"]["groupID"]


def tried(client, *where):
    """Whether a client didn't fail."""
    try:
        went = client(*where)
        print(f"{client.__name__}: {'well' if went else 'FAILED'}")
        return went
    except Skipped as why:
        print(f"{client.__name__}: skipped, {why}")
        return True


def main():
    went = True
    with tempfile.TemporaryDirectory() as folder:
        ports = [f"127.0.0.1:{free_port()}" for _ in range(2)]
        server = subprocess.Popen(sys.argv[1:] + ["serve", *ports, folder, "key"], stdout=subprocess.PIPE)
        try:
            if server.stdout.readline() != b"ready\n":
                print("the server did not begin")
                return 1
            where = (f"ws://{ports[0]}/", f"http://{ports[1]}/api/1", folder)
            for client in (websockets_client, ws_client, curl_client, urllib_client, fetch_client):
                went &= tried(client, *where)
            group = group_made(where[1])
        finally:
            server.kill()
            server.wait()
        # the server alone has the database while it runs
        went &= tried(sqlite_client, "", group, folder)
    return 0 if went else 1


sys.exit(main())
