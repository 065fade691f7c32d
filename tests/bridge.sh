#!/usr/bin/env bash
# examples/clients/bridge.py, through which clients of gRPC over HTTP/2 are answered, between a client over grpcio and the service
# over examples/. Where grpcio, protobuf's runtime or protoc is not installed (packages python3-grpcio, python3-protobuf and
# protobuf-compiler) nothing is tested.
set -u
cd "$(dirname "$(readlink -f "$0")")/.." || exit 2
. tests/common.bash
needs protoc
find_python 'grpc.aio, google.protobuf.message' || skip 'Python with grpcio and protobuf'
. tests/serving.bash
protoc -I tests --python_out="$folder" tests/reflection.proto || exit 1

start --root examples
service=127.0.0.1:$port
: >"$folder/bridge"
"$python" -B examples/clients/bridge.py 127.0.0.1:0 "$service" >"$folder/bridge" 2>"$folder/bridge_faults" &
bridge=$!
if ! says_port "$bridge" "$folder/bridge"; then
    echo "$0: the bridge was not started: $(cat "$folder/bridge" "$folder/bridge_faults")"
    exit 1
fi
address=127.0.0.1:$port

# What a client is told that sends a request only when it has read the reply to the one before, while another stream is open that
# sends nothing.
cat >"$folder/client.py" <<'PYTHON'
import queue
import sys

import grpc
from google.protobuf import descriptor_pb2

import reflection_pb2 as reflection

channel = grpc.insecure_channel(sys.argv[1], options=[("grpc.enable_http_proxy", 0)])


class Stream:
    def __init__(self, method):
        self.requests = queue.SimpleQueue()
        self.replies = channel.stream_stream(method)(iter(self.requests.get, None), timeout=20)

    def ask(self, message):
        self.requests.put(message)
        return reflection.ServerReflectionResponse.FromString(next(self.replies))

    def end(self):
        self.requests.put(None)
        print("replies behind the end:", len(list(self.replies)), self.replies.code().name)

    def fail(self, message):
        try:
            print(self.ask(message))
        except grpc.RpcError as fault:
            print("fault:", fault.code().name)
        self.requests.put(None)


def request(**asked):
    return reflection.ServerReflectionRequest(**asked).SerializeToString()


paths = [f"/grpc.reflection.{version}.ServerReflection/ServerReflectionInfo" for version in sys.argv[2:]]
idle = Stream("/grpc.reflection.v1.ServerReflection/ServerReflectionInfo")
for path in paths:
    stream = Stream(path)
    for service in stream.ask(request(list_services="")).list_services_response.service:
        print("service:", service.name)
    for symbol in ("shop.orders.OrderService", "shop.orders.Order"):
        print("symbol:", symbol)
        for file in stream.ask(request(file_containing_symbol=symbol)).file_descriptor_response.file_descriptor_proto:
            print(descriptor_pb2.FileDescriptorProto.FromString(file).name, file.hex())
    print("error:", stream.ask(request(file_by_filename="shop/none.proto")).error_response.error_code)
    print("error:", stream.ask(b"").error_response.error_message)
    stream.end()
    stream = Stream(path)
    stream.ask(request(list_services=""))
    stream.fail(b"\x3a\x02a")
    Stream(path).fail(bytes(65537))
Stream("/grpc.reflection.v1beta.ServerReflection/ServerReflectionInfo").fail(request(list_services=""))
idle.end()
PYTHON

# files NAMES..: these files with the bytes that protoc wrote for them.
files() {
    local name
    for name in "$@"; do
        echo "shop/$name.proto $(<"tests/examples/shop/$name.hex")"
    done
}

# asks WORDS..: runs the client, whose lines are those of the file `wanted`.
asks() {
    PYTHONPATH=$folder timeout 60 "$python" -B "$folder/client.py" "$address" "$@" >"$folder/got" 2>&1 || fail "the client ended with $?"
    same 'what the client is told' "$folder/wanted" "$folder/got"
}

# Each request is a stream of its own for the service, so what a file imports comes again with the second symbol.
for _ in v1 v1alpha; do
    printf 'service: %s\n' shop.catalog.CatalogService shop.orders.OrderService shop.reports.v1.ReportService tour.Guide tour.Nobody
    echo 'symbol: shop.orders.OrderService'
    files orders/order_service money/money time/timestamp catalog/product customers/customer orders/order
    echo 'symbol: shop.orders.Order'
    files orders/order money/money time/timestamp catalog/product customers/customer
    printf '%s\n' 'error: 5' 'error: empty request' 'replies behind the end: 0 OK' 'fault: INVALID_ARGUMENT' 'fault: RESOURCE_EXHAUSTED'
done >"$folder/wanted"
printf '%s\n' 'fault: UNIMPLEMENTED' 'replies behind the end: 0 OK' >>"$folder/wanted"
asks v1 v1alpha

timeout 20 "$python" -B examples/clients/bridge.py "$address" "$service" >"$folder/second" 2>&1
[ "$?" = 1 ] && ! grep -q '^listening' "$folder/second" || fail "a second bridge at the same port: $(<"$folder/second")"

# Without a service.
stop
sed -i '/^idle = /,$d' "$folder/client.py"
echo 'Stream(paths[0]).fail(request(list_services=""))' >>"$folder/client.py"
echo 'fault: UNAVAILABLE' >"$folder/wanted"
asks v1

kill "$bridge" 2>/dev/null || fail 'the bridge has ended by itself'
wait "$bridge" 2>/dev/null
[ ! -s "$folder/bridge_faults" ] || fail "the bridge said $(<"$folder/bridge_faults")"
[ "$failures" = 0 ]
