#!/usr/bin/env bash
# examples/clients/explore.html in a headless Chromium, through nginx with the guide's routes before the service over examples/: the
# services, and the text of each file, which compiles to the same descriptor but for the order of nested messages. Where chromium,
# nginx or python3-protobuf is not installed nothing is tested.
set -u
cd "$(dirname "$(readlink -f "$0")")/.." || exit 2
. tests/common.bash
needs chromium nginx
find_python google.protobuf.message || skip 'Python with protobuf'
. tests/serving.bash
. tests/nginx.bash

# opens: an nginx with the routes of the guide's first block for nginx at a free port, which `page` names; the page is its own. It takes
# half a minute for the file `held`.
opens() {
    local turn
    {
        sed -n '/^```nginx$/,/^```$/p' docs/GUIDE.md | sed '1d; /^```$/,$d' | sed "s/:8080/:$port/; s|/srv/pages|$folder/pages|"
        echo "location = /held { root $folder/pages; limit_rate 10; }"
    } >"$folder/routes"
    for ((turn = 0; turn < 20; turn++)); do
        page=127.0.0.1:$((20000 + RANDOM % 12000))
        ! open_gateway "$page" "$folder/routes" || return 0
    done
    echo "$0: nginx was not started: $(<"$folder/nginx/faults")"
    exit 1
}

# The page, with a mark that it has shown all. Chromium prints a page when its virtual time has run out, which stands still only while a
# request is under way: here one is until the mark is there.
write_page() {
    local held='const held = new AbortController(); fetch("held", { cache: "no-store", signal: held.signal }).catch(() => {});'
    sed 's/^await follow();$/&\ndocument.documentElement.dataset.shown = "all";\nheld.abort();/' examples/clients/explore.html
    echo "<script>$held</script>"
}

# shows SYMBOL: the page of a symbol, as a browser has it when it has shown all, in the file `shown.html`. With a number of its own it
# comes from nginx, and not from what the browser kept. A browser that ends too soon is started again, three times in all.
shows() {
    local turn
    for ((turn = 0; turn < 3; turn++)); do
        visits=$((visits + 1))
        timeout 60 chromium --headless --no-sandbox --disable-gpu --no-proxy-server --user-data-dir="$folder/chromium" \
            --virtual-time-budget=10000 --dump-dom "http://$page/explore.html?$visits#$1" >"$folder/shown.html" 2>"$folder/chromium_faults"
        ! grep -q '<html[^>]* data-shown="all"' "$folder/shown.html" || return 0
    done
    fail "the page of '$1' has not shown all. It had: $("$python" "$folder/parts.py" "$folder/unshown" <"$folder/shown.html")
$(tail -n 3 "$folder/chromium_faults")"
    exit 1
}

# Of a page on standard input: its services, shown and hidden, what it says, and its files, whose text goes to the folder that is named.
cat >"$folder/parts.py" <<'PYTHON'
import html.parser
import pathlib
import sys


class Parts(html.parser.HTMLParser):
    def __init__(self):
        super().__init__()
        self.open = []
        self.text = ""

    def handle_starttag(self, tag, attributes):
        if tag in ("li", "h2", "pre", "p"):
            self.text = ""
            self.kind = "hidden:" if ("hidden", "") in attributes else "service:"

    def handle_data(self, data):
        self.text += data

    def handle_endtag(self, tag):
        if tag == "li":
            print(self.kind, self.text)
        elif tag == "p":
            print("says:", self.text)
        elif tag == "h2":
            self.file = pathlib.Path(sys.argv[1], self.text)
        elif tag == "pre":
            print("file:", self.file.relative_to(sys.argv[1]))
            self.file.parent.mkdir(parents=True, exist_ok=True)
            self.file.write_text(self.text)


Parts().feed(sys.stdin.read())
PYTHON

# The files of two sets that differ by more than the order of nested messages, but for those that only the second has.
cat >"$folder/compare.py" <<'PYTHON'
import sys

from google.protobuf import descriptor_pb2


def sort(message):
    message.nested_type.sort(key=lambda nested: nested.name)
    for nested in message.nested_type:
        sort(nested)


def files(path):
    with open(path, "rb") as file:
        read = {file.name: file for file in descriptor_pb2.FileDescriptorSet.FromString(file.read()).file}
    for file in read.values():
        for message in file.message_type:
            sort(message)
    return {name: file.SerializeToString(deterministic=True) for name, file in read.items()}


shown, whole = map(files, sys.argv[1:])
print(*[name for name in shown if shown[name] != whole[name]], sep="\n", end="")
PYTHON

# pages SYMBOLS: what the pages of these symbols have, once, in the order of names, in the file `all`.
pages() {
    local symbol
    : >"$folder/parts"
    for symbol in "$@"; do
        shows "$symbol"
        "$python" "$folder/parts.py" "$folder/shown" <"$folder/shown.html" >>"$folder/parts" || fail "the page of '$symbol' is no page"
    done
    sort -u "$folder/parts" >"$folder/all"
}

mkdir "$folder/shown" "$folder/unshown" "$folder/pages" || exit 2
write_page >"$folder/pages/explore.html"
if [ "$(grep -c '^held[.]abort' "$folder/pages/explore.html")" != 1 ]; then
    fail 'explore.html ends in another way, and has no place for the mark'
    exit 1
fi
head -c 50 /dev/zero >"$folder/pages/held"
visits=0
start --root examples
opens
services=(shop.catalog.CatalogService shop.orders.OrderService shop.reports.v1.ReportService tour.Guide tour.Nobody)
pages "${services[@]}"
{
    printf 'file: %s\n' shop/catalog/catalog_service.proto shop/catalog/product.proto shop/customers/customer.proto \
        shop/money/money.proto shop/orders/order.proto shop/orders/order_service.proto shop/reports/v1/report_service.proto shop/shop.proto \
        shop/time/timestamp.proto tour/enums.proto tour/fields.proto tour/tour.proto
    printf 'service: %s\n' "${services[@]}"
} >"$folder/wanted"
same 'the pages of all services' "$folder/wanted" "$folder/all"

"$program" compile --root "$folder/shown" >"$folder/shown.pb" || fail 'the text of the files does not compile'
"$program" compile --root examples >"$folder/examples.pb"
"$python" "$folder/compare.py" "$folder/shown.pb" "$folder/examples.pb" >"$folder/got" 2>&1
[ ! -s "$folder/got" ] || fail "files whose text means something else: $(<"$folder/got")"

pages '' none
grep -v '^service' "$folder/all" >"$folder/got"
printf 'says: %s\n' 'Choose a service.' 'No answer: error 5: not found' >"$folder/wanted"
same 'the first page, and the page of a symbol that is none' "$folder/wanted" "$folder/got"

echo '<script type="module">const filter = document.querySelector("input"); filter.value = "GUI"; filter.dispatchEvent(new Event("input"));</script>' \
    >>"$folder/pages/explore.html"
pages ''
grep -v '^says' "$folder/all" >"$folder/got"
printf '%s\n' "${services[@]/#/hidden: }" | grep -v Guide >"$folder/wanted"
echo 'service: tour.Guide' >>"$folder/wanted"
same 'the services that a filter leaves' "$folder/wanted" "$folder/got"

stop
pages ''
echo 'says: No answer: HTTP status 502' >"$folder/wanted"
same 'the page without a service' "$folder/wanted" "$folder/all"
close_gateway
[ "$failures" = 0 ]
