"""The process that speaks to browsers: it gets facts on standard input, shows them to each page that has the token, and writes commands to standard output.

`python3 -m osdp_port.page.server`. Its settings are the first line of its input, so that nobody reads the token in the list of programs. It asks for the token in each address, takes no request for another host, and no web socket of another origin. A page
that takes nothing is sent nothing more until it does, and then what is new alone."""
import asyncio
import hmac
import json
import os
import sys
import time
from pathlib import Path

from aiohttp import WSMsgType, web

from ..turns import CLOCK
from .commands import checked
from .desk import Bad
from .files import report_of, trace_of
from .model import PARTS, Model
from .pages import Pages

FILES = Path(__file__).resolve().parent / "web"
KINDS = {".html": "text/html", ".css": "text/css", ".js": "text/javascript", ".svg": "image/svg+xml"}
TICK = 0.25  # seconds
POLICY = "default-src 'none'; script-src 'self'; style-src 'self'; img-src 'self'; connect-src 'self'; base-uri 'none'; form-action 'none'; frame-ancestors 'none'"
HEADERS = {"Content-Security-Policy": POLICY, "X-Content-Type-Options": "nosniff", "Referrer-Policy": "no-referrer", "Cache-Control": "no-store", "X-Frame-Options": "DENY",
           "Cross-Origin-Opener-Policy": "same-origin", "Cross-Origin-Resource-Policy": "same-origin"}
OWN = ("same-origin", "none")  # who may ask for a file: the page itself, or a person by the address


class Server:
    """The pages, what they show, and the way to the line."""

    def __init__(self, settings, reader):
        self.reader = reader
        self.settings, self.model = settings, Model(settings)
        self.pages = Pages(lambda what: self.commands({"do": what}))
        self.numbers, self.hosts = 0, set()
        self.files = {each.name: (each.read_bytes(), KINDS[each.suffix]) for each in FILES.iterdir() if each.suffix in KINDS}

    @staticmethod
    def commands(command):
        sys.stdout.write(json.dumps(command) + "\n")
        sys.stdout.flush()

    # who may ask

    def refuses(self, request):
        """Why a request isn't answered: another host, another origin, no token."""
        host, origin = request.headers.get("Host", ""), request.headers.get("Origin")
        if host not in self.hosts:
            return "host"
        if origin is not None and origin != f"http://{host}":
            return "origin"
        if request.headers.get("Sec-Fetch-Site", "none") not in OWN:
            return "site"
        token = request.match_info.get("token", "")
        return None if hmac.compare_digest(token.encode(), self.settings["token"].encode()) else "token"

    @web.middleware
    async def asked(self, request, handler):
        if request.method != "GET" or self.refuses(request):
            return web.Response(status=404, headers=HEADERS, text="nothing is here\n")
        try:
            return await handler(request)
        except web.HTTPException:
            return web.Response(status=404, headers=HEADERS, text="nothing is here\n")

    async def file(self, request):
        """A file of the page, or one that is kept."""
        name = request.match_info["name"] or "page.html"
        if name in self.files:
            data, kind = self.files[name]
            return web.Response(body=data, content_type=kind, charset="utf-8", headers=HEADERS)
        kept = await self.kept(name)
        if kept is None:
            raise web.HTTPNotFound
        data, kind, called = kept
        return web.Response(body=data, content_type=kind, charset="utf-8", headers={**HEADERS, "Content-Disposition": f'attachment; filename="{called}"'})

    async def kept(self, name):
        """What is to be kept: the report of a test or of the trace, the trace, the settings."""
        model = self.model
        if name == "test.txt" and model.trial["lines"]:
            return "".join(f"{line}\n" for line in model.trial["lines"]).encode(), "text/plain", f"osdp-test-{model.trial['what']['address']}.txt"
        if name == "settings.csv":
            return model.setup.file().encode(), "text/csv", "osdp-settings.csv"
        if name == "line.trace" and model.line["trace"]:
            return await asyncio.to_thread(trace_of, model.line["trace"]), "text/plain", "osdp-line.trace"
        if name == "report.html" and model.line["trace"]:
            made = await asyncio.to_thread(report_of, self.settings, model.line["trace"])
            return (made, "text/html", "osdp-report.html") if made else None
        return None

    # a page

    async def line(self, request):
        """The web socket of a page."""
        if request.headers.get("Origin") != f"http://{request.headers['Host']}":
            raise web.HTTPNotFound
        socket = web.WebSocketResponse(max_msg_size=4096, heartbeat=4.0, compress=False)
        page = self.pages.comes(request.query.get("key", "")[:40])
        if page is None:
            raise web.HTTPNotFound
        await socket.prepare(request)
        sends = asyncio.ensure_future(self.sends(socket, page))
        try:
            async for message in socket:
                if message.type != WSMsgType.TEXT or not page.may_command():
                    break
                self.takes(page, message.data)
        finally:
            sends.cancel()
            self.pages.goes(page)
        return socket

    def takes(self, page, text):
        """A page orders something. What it may not, or doesn't say right, does nothing."""
        try:
            command = json.loads(text)
            if not isinstance(command, dict):
                return
            if command.get("do") in ("take", "give"):
                self.pages.takes(page) if command["do"] == "take" else self.pages.gives(page)
            elif command.get("do") == "reveal":
                page.is_revealed = command.get("on") is True
                page.versions.pop("cards", None), page.versions.pop("told", None), page.versions.pop("pages", None)
            elif self.pages.has_control(page):
                self.orders(page, command)
        except (ValueError, RecursionError, Bad):
            return

    def orders(self, page, command):
        if command.get("do") == "name" and isinstance(command.get("row"), int) and isinstance(command.get("place"), str):
            self.model.setup.names(command["row"], command["place"])
            self.model.changed("setup")
            return
        command = checked(command)
        if command["do"] == "order":
            self.numbers += 1
            command.update(number=self.numbers, since=time.clock_gettime(CLOCK))
        self.commands(command)

    async def sends(self, socket, page):
        """Sends a page what is new to it, as fast as it takes that, and at most each quarter of a second."""
        while not socket.closed:
            frame = self.frame(page)
            if frame:
                await socket.send_str(json.dumps(frame, separators=(",", ":")))
            await asyncio.sleep(TICK)

    def frame(self, page):
        """The parts that have changed since a page was sent them, and what came on the timelines."""
        frame = {}
        for part in PARTS:
            version = self.model.versions[part]
            if page.versions.get(part) != version and (part != "counts" or self.model.ticks % 4 == 0 or "counts" not in page.versions):
                page.versions[part], frame[part] = version, self.model.part(part, page.is_revealed)
        if page.versions.get("pages") != self.pages.version:
            page.versions["pages"], frame["pages"] = self.pages.version, self.pages.shown(page)
        buckets = self.model.listener.since(page.bucket)
        if buckets:
            page.bucket, frame["buckets"] = buckets[-1][0], buckets
        return frame

    # its life

    async def ticks(self):
        while True:
            await asyncio.sleep(TICK)
            self.model.tick()
            self.pages.looks()

    async def facts(self):
        """Takes facts until there are no more."""
        while line := await self.reader.readline():
            for fact in json.loads(line):
                self.model.takes(fact)

    async def goes(self):
        app = web.Application(middlewares=[self.asked], client_max_size=1024)
        app.router.add_get("/{token}/line", self.line)
        app.router.add_get("/{token}/{name:[a-z.]*}", self.file)
        app.router.add_route("*", "/{rest:.*}", self.file)
        runner = web.AppRunner(app, access_log=None, handle_signals=False)
        await runner.setup()
        host, _, port = self.settings["listen"].rpartition(":")
        site = web.TCPSite(runner, host.strip("[]"), int(port), backlog=64)
        try:
            await site.start()
        except OSError as error:
            self.commands({"do": "fails", "why": f"the page can't be at {self.settings['listen']}: {os.strerror(error.errno or 0)}"})
            return
        at = site._server.sockets[0].getsockname()[1]
        self.hosts = {f"{host}:{at}"} | ({f"localhost:{at}"} if host == "127.0.0.1" else set())
        reading = await self.model.listener.begins()
        self.commands({"do": "listens", "address": f"http://{host}:{at}/{self.settings['token']}/", "is_open": host not in ("127.0.0.1", "[::1]", "localhost")})
        ticks = asyncio.ensure_future(self.ticks())
        await self.facts()
        ticks.cancel()
        await self.model.listener.ends(reading)


async def served():
    """Reads the settings, and shows the line until there are no more facts."""
    reader = asyncio.StreamReader(limit=1 << 25)
    await asyncio.get_running_loop().connect_read_pipe(lambda: asyncio.StreamReaderProtocol(reader), sys.stdin)
    settings = await reader.readline()
    if settings:
        await Server(json.loads(settings), reader).goes()


def main():
    asyncio.run(served())


if __name__ == "__main__":
    main()
