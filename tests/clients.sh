#!/usr/bin/env bash
# examples/clients/reflect.py, a client over Python's protobuf runtime, against the service over examples/. Where the runtime
# or protoc is not installed (packages python3-protobuf and protobuf-compiler) nothing is tested.
set -u
cd "$(dirname "$(readlink -f "$0")")/.." || exit 2
. tests/common.bash
needs protoc
find_python google.protobuf.json_format || skip 'Python with protobuf'
. tests/serving.bash
start --root examples
protoc -I tests --python_out="$folder" tests/reflection.proto || exit 1

# prints TITLE WORDS..: what the client prints is what stands on the input.
prints() {
    local title=$1
    shift
    cat >"$folder/wanted"
    PYTHONPATH=$folder timeout 60 "$python" -B examples/clients/reflect.py "$url" "$@" >"$folder/said" 2>&1
    # The request of PlaceOrder holds a whole order: that it was built and parsed is enough.
    sed '/^PlaceOrder/ { n; d; }' "$folder/said" >"$folder/got"
    same "$title" "$folder/wanted" "$folder/got"
}

prints 'the services' <<'TEXT'
shop.catalog.CatalogService
shop.orders.OrderService
shop.reports.v1.ReportService
tour.Guide
tour.Nobody
TEXT
prints 'a service with its methods and messages' shop.orders.OrderService <<'TEXT'
PlaceOrder: shop.orders.PlaceOrderRequest -> shop.orders.PlaceOrderResponse
CancelOrder: shop.orders.CancelOrderRequest -> shop.orders.CancelOrderResponse
  {"orderId": "order_id"}
FollowOrder: shop.orders.FollowOrderRequest -> shop.orders.FollowOrderResponse
  {"orderId": "order_id"}
RecordScans: shop.orders.RecordScansRequest -> shop.orders.RecordScansResponse
  {"orderId": "order_id"}
Discuss: shop.orders.DiscussRequest -> shop.orders.DiscussResponse
  {"orderId": "order_id", "text": "text"}
TEXT
prints 'a service that is not there' shop.Nowhere <<'TEXT'
error 5: not found
TEXT

# No answer: one line, which names the URL.
served=$url
url=${served#http://}
prints 'no URL' <<TEXT
$url is no URL: it begins with http://
TEXT
url=$served/elsewhere
prints 'another path' <<TEXT
$url: grpc-status:12
TEXT
stop
url=$served
prints 'nothing that listens' <<TEXT
$url: [Errno 111] Connection refused
TEXT
mkfifo "$folder/port"
"$python" - >"$folder/port" <<'SERVER' &
import http.server

class Answer(http.server.BaseHTTPRequestHandler):
    def do_POST(self):
        if self.path.startswith("/page/"):
            self.send_response(200)
            self.end_headers()
            self.wfile.write(b"<html>")
        else:
            self.send_error(404)

    def log_message(self, *words):
        pass

server = http.server.HTTPServer(("127.0.0.1", 0), Answer)
print(server.server_port, flush=True)
server.serve_forever()
SERVER
read -r port <"$folder/port"
url=http://127.0.0.1:$port
prints 'another server' <<TEXT
$url: HTTP status 404, so it is no schema server
TEXT
url=$url/page
prints 'a page' <<TEXT
$url: no gRPC-Web response, so it is no schema server
TEXT
[ "$failures" = 0 ]
