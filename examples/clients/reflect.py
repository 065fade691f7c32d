#!/usr/bin/env python3
"""Asks a schema server what services it knows, and builds messages of them without generated code.

usage: reflect.py URL             the names of all services
       reflect.py URL SERVICE     its methods, and of each a request message with sample values as JSON

It needs Python's protobuf runtime and, once, the code of the reflection protocol itself:
protoc -I tests --python_out=examples/clients tests/reflection.proto
"""
import http.client
import struct
import sys
import urllib.error
import urllib.request

try:
    from google.protobuf import descriptor_pb2, descriptor_pool, json_format, message_factory

    import reflection_pb2 as reflection
except ImportError as error:
    sys.exit(f"{error}; {__doc__.splitlines()[-2]} {__doc__.splitlines()[-1]}")

PATH = "/grpc.reflection.v1.ServerReflection/ServerReflectionInfo"


def answer_of(url, body):
    """The bytes with which the service answers a body. Where it gives none, the program ends with one line."""
    if not url.startswith(("http://", "https://")):
        sys.exit(f"{url} is no URL: it begins with http://")
    request = urllib.request.Request(url.rstrip("/") + PATH, body, {"content-type": "application/grpc-web+proto"})
    try:
        with urllib.request.urlopen(request) as answer:
            return answer.read()
    except urllib.error.HTTPError as error:
        sys.exit(f"{url}: HTTP status {error.code}, so it is no schema server")
    except (OSError, ValueError, http.client.HTTPException) as error:
        sys.exit(f"{url}: {getattr(error, 'reason', error)}")


def frames_of(url, response):
    """The frames of a response: a flag and a message each."""
    while response:
        size = int.from_bytes(response[1:5], "big")
        if len(response) < 5 + size:
            sys.exit(f"{url}: no gRPC-Web response, so it is no schema server")
        yield response[0], response[5 : 5 + size]
        response = response[5 + size :]


def ask(url, *requests):
    """The replies to requests, which are sent as one gRPC-Web stream of frames: a flag, a length, a message."""
    body = b""
    for request in requests:
        message = request.SerializeToString()
        body += struct.pack(">BI", 0, len(message)) + message
    replies = []
    for flag, message in frames_of(url, answer_of(url, body)):
        if not flag & 0x80:
            replies.append(reflection.ServerReflectionResponse.FromString(message))
        elif message != b"grpc-status:0\r\n":
            sys.exit(f"{url}: {message.decode(errors='replace').strip()}")
    if len(replies) < len(requests):
        sys.exit(f"{url}: no gRPC-Web response, so it is no schema server")
    for reply in replies:
        if reply.HasField("error_response"):
            sys.exit(f"error {reply.error_response.error_code}: {reply.error_response.error_message}")
    return replies


def services_of(url):
    request = reflection.ServerReflectionRequest(list_services="")
    return [service.name for service in ask(url, request)[0].list_services_response.service]


def pool_of(url, symbol):
    """A pool with the file that defines a symbol and all that it imports."""
    request = reflection.ServerReflectionRequest(file_containing_symbol=symbol)
    response = ask(url, request)[0].file_descriptor_response
    files = [descriptor_pb2.FileDescriptorProto.FromString(file) for file in response.file_descriptor_proto]
    waiting = {file.name: file for file in files}
    pool = descriptor_pool.DescriptorPool()

    def add(file):
        for name in file.dependency:
            if name in waiting:
                add(waiting.pop(name))
        pool.Add(file)

    while waiting:
        add(waiting.popitem()[1])
    return pool


def class_of(descriptor):
    if hasattr(message_factory, "GetMessageClass"):
        return message_factory.GetMessageClass(descriptor)
    return message_factory.MessageFactory(descriptor.file.pool).GetPrototype(descriptor)


def sample(message, depth=0):
    """Gives each field that is not repeated and in no oneof a value: its name, its number, or a sample of its message."""
    for field in message.DESCRIPTOR.fields:
        if field.label == field.LABEL_REPEATED or field.containing_oneof:
            continue
        if field.cpp_type == field.CPPTYPE_MESSAGE:
            if depth < 2:
                sample(getattr(message, field.name), depth + 1)
        elif field.cpp_type == field.CPPTYPE_STRING:
            setattr(message, field.name, field.name.encode() if field.type == field.TYPE_BYTES else field.name)
        elif field.cpp_type == field.CPPTYPE_ENUM:
            setattr(message, field.name, field.enum_type.values[-1].number)
        else:
            setattr(message, field.name, field.number % 2)
    return message


def main(url, name=None):
    if name is None:
        print(*services_of(url), sep="\n")
        return
    for method in pool_of(url, name).FindServiceByName(name).methods:
        print(f"{method.name}: {method.input_type.full_name} -> {method.output_type.full_name}")
        request = sample(class_of(method.input_type)())
        assert class_of(method.input_type).FromString(request.SerializeToString()) == request
        print(" ", json_format.MessageToJson(request, indent=None))


if __name__ == "__main__":
    if len(sys.argv) not in (2, 3):
        sys.exit(__doc__)
    main(*sys.argv[1:])
