# Read by the scripts that put nginx before the service.

# open_gateway ADDRESS LINES [BESIDE]: an nginx that listens there, and whose server has the lines of this file, beside which those of
# another may stand; sets `gateway`. `gateway_processes` is how many processes it answers by, one if it is not set. False where it ended, as
# it does where the address is taken; `nginx/faults` says why.
open_gateway() {
    local turn
    rm -rf "$folder/nginx"
    mkdir "$folder/nginx" || exit 2
    {
        echo "daemon off; worker_processes ${gateway_processes:-1}; pid pid; error_log log; events {}"
        # As root, nginx would read pages as a user who may not enter this folder.
        [ "$(id -u)" != 0 ] || echo 'user root;'
        echo 'http { access_log off; client_body_temp_path a; proxy_temp_path b; fastcgi_temp_path c; uwsgi_temp_path d; scgi_temp_path e;'
        [ "$#" -lt 3 ] || cat "$3"
        echo "server { listen $1;"
        cat "$2"
        echo '} }'
    } >"$folder/nginx/conf"
    nginx -p "$folder/nginx" -c "$folder/nginx/conf" 2>"$folder/nginx/faults" &
    gateway=$!
    # It names its process when it listens.
    for ((turn = 0; turn < 600; turn++)); do
        [ ! -s "$folder/nginx/pid" ] || return 0
        kill -0 "$gateway" 2>/dev/null || return 1
        sleep 0.1
    done
    return 1
}

close_gateway() {
    kill "$gateway"
    wait "$gateway" 2>/dev/null
}
