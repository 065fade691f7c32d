#!/usr/bin/env python3
"""Answers clients of gRPC over HTTP/2 from a schema server, which speaks gRPC-Web: each message of a reflection stream is handed
on as a request of its own, so that a client that waits for a reply before it asks again gets it.

usage: bridge.py ADDRESS SERVER     as in: bridge.py 127.0.0.1:8081 127.0.0.1:8080

It needs Debian's package python3-grpcio, and says where it listens; at port 0 that is a free one.
"""
import asyncio
import functools
import http.client
import os
import signal
import struct
import sys

import grpc.aio

PATHS = [f"/grpc.reflection.{version}.ServerReflection/ServerReflectionInfo" for version in ("v1", "v1alpha")]
CODES = {b"grpc-status:%d\r\n" % code.value[0]: code for code in grpc.StatusCode}
SECONDS = 60


class NoResponse(Exception):
    """The server gave no whole gRPC-Web response."""


def ask(server, path, message):
    """The bytes of the response to a message."""
    connection = http.client.HTTPConnection(server, timeout=SECONDS)
    try:
        body = struct.pack(">BI", 0, len(message)) + message
        connection.request("POST", path, body, {"content-type": "application/grpc-web+proto"})
        answer = connection.getresponse()
        if answer.status != 200:
            raise NoResponse(f"HTTP status {answer.status}")
        return answer.read()
    except (OSError, http.client.HTTPException) as fault:
        raise NoResponse(str(fault) or type(fault).__name__) from fault
    finally:
        connection.close()


def read(response):
    """The replies in a response, and the status code in its trailers."""
    replies = []
    while len(response) >= 5:
        flag, size = struct.unpack_from(">BI", response)
        message, response = response[5 : 5 + size], response[5 + size :]
        if flag & 0x80 and message in CODES:
            return replies, CODES[message]
        replies.append(message)
    raise NoResponse("a response without a status")


async def answer(server, path, requests, context):
    """The replies to a stream of requests, which a status other than OK ends."""
    async for message in requests:
        try:
            replies, code = read(await asyncio.to_thread(ask, server, path, message))
        except NoResponse as fault:
            await context.abort(grpc.StatusCode.UNAVAILABLE, f"no response of the schema server: {fault}")
        for reply in replies:
            yield reply
        if code != grpc.StatusCode.OK:
            await context.abort(code)


class Reflection(grpc.GenericRpcHandler):
    """Both versions of the service. Messages go through as bytes, since their handlers have no serializers."""

    def __init__(self, server):
        self.server = server

    def service(self, call):
        if call.method in PATHS:
            return grpc.stream_stream_rpc_method_handler(functools.partial(answer, self.server, call.method))
        return None


async def main(address, server):
    # Without SO_REUSEPORT, with which two bridges would share a port in silence.
    bridge = grpc.aio.server(handlers=[Reflection(server)], options=[("grpc.so_reuseport", 0)])
    try:
        port = bridge.add_insecure_port(address)
    except RuntimeError as fault:
        # At once, since grpcio may wait for ever for the end of a server that was not started.
        print(fault, file=sys.stderr, flush=True)
        os._exit(1)
    await bridge.start()
    print(f"listening on {address.rpartition(':')[0]}:{port}", flush=True)
    await bridge.wait_for_termination()


if __name__ == "__main__":
    if len(sys.argv) != 3:
        sys.exit(__doc__)
    signal.signal(signal.SIGINT, signal.SIG_DFL)  # Ctrl-C ends it at once, too.
    asyncio.run(main(*sys.argv[1:]))
