"""Pages behind `krb.wsgi` and `krb.asgi`, for servers of Debian: KEYTAB and REPLAYS name their files."""

import logging
import os

import krb
import krb.asgi
import krb.wsgi

logging.basicConfig(format="%(levelname)s %(name)s: %(message)s", level=logging.INFO)
acceptor = krb.Acceptor(os.environ["KEYTAB"], replay_cache=krb.FileReplayCache(os.environ["REPLAYS"]), server="HTTP")


def page(environ, start_response):
    context, size = environ["krb.context"], int(environ.get("CONTENT_LENGTH") or 0)
    text = "You are %s, %s.\n" % (environ["REMOTE_USER"], context.client) + environ["wsgi.input"].read(size).decode()
    start_response("200 OK", [("Content-Type", "text/plain"), ("Content-Length", str(len(text))), ("X-Worker", str(os.getpid()))])
    return [text.encode()]


async def bare_page(scope, receive, send):
    if scope["type"] == "websocket":
        await receive()
        await send({"type": "websocket.accept"})
        await send({"type": "websocket.send", "text": "You are %s.\n" % scope["user"].display_name})
        await send({"type": "websocket.close", "code": 1000})
        return
    body, more = b"", True
    while more:
        message = await receive()
        body, more = body + message.get("body", b""), message.get("more_body", False)
    text = ("You are %s, %s.\n" % (scope["user"].display_name, scope["krb.context"].client)).encode() + body
    await send({"type": "http.response.start", "status": 200, "headers": [(b"content-length", b"%d" % len(text))]})
    await send({"type": "http.response.body", "body": text})


def starlette_page():
    from starlette.applications import Starlette
    from starlette.authentication import requires
    from starlette.middleware import Middleware
    from starlette.responses import PlainTextResponse
    from starlette.routing import Route

    @requires("authenticated")
    async def get(request):
        client = request.user.context.client
        return PlainTextResponse("You are %s, %s.\n" % (request.user.display_name, client) + (await request.body()).decode())

    return Starlette(routes=[Route("/", get, methods=["GET", "POST"])], middleware=[Middleware(krb.asgi.Negotiate, acceptor=acceptor)])


def fastapi_page():
    from fastapi import FastAPI, Request
    from fastapi.responses import PlainTextResponse

    made = FastAPI()
    made.add_middleware(krb.asgi.Negotiate, acceptor=acceptor)

    @made.api_route("/", methods=["GET", "POST"], response_class=PlainTextResponse)
    async def get(request: Request):
        return "You are %s, %s.\n" % (request.user.identity, request.user.context.client) + (await request.body()).decode()

    return made


application = krb.wsgi.Negotiate(page, acceptor)
bare = krb.asgi.Negotiate(bare_page, acceptor)


if __name__ == "__main__":
    import sys
    from wsgiref.simple_server import make_server

    make_server("127.0.0.1", int(sys.argv[1]), application).serve_forever()
