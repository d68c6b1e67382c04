#!/bin/sh
# Starts the services that values go to, on ports of their own under a folder of its own, and ends them. For whoever tries tools/history.py and tools/mqtt.py.
#
#     tries/services.sh start FOLDER [postgres] [mosquitto] [prometheus]    # prints a line each: its name, and where it is; without a name the first two
#     tries/services.sh stop FOLDER [postgres] [mosquitto] [prometheus]     # ends them; without a name all that run
#     tries/services.sh again FOLDER NAME                                   # starts one again that was ended, on the port it had, over what it kept
#
# They are Debian's: apt-get update && apt-get install -y postgresql mosquitto mosquitto-clients prometheus python3-psycopg python3-paho-mqtt
# The Python packages serve /usr/bin/python3. PostgreSQL runs as the user postgres where root starts it, since it refuses root. prometheus scrapes what
# FOLDER/prometheus.yml says, or examples/prometheus.yml where that is not there.
set -u
what=${1:-}; folder=${2:-}
[ -n "$folder" ] || { sed -n 's/^# \{0,1\}//p' "$0" | sed -n 3,5p >&2; exit 1; }
shift 2
here=$(cd "$(dirname "$0")" && pwd)
mkdir -p "$folder" && folder=$(cd "$folder" && pwd) || exit 4

missing() { echo "$1 is not there: apt-get update && apt-get install -y $2" >&2; exit 4; }
free_port() { python3 -c 'import socket; s = socket.socket(); s.bind(("127.0.0.1", 0)); print(s.getsockname()[1])'; }
port_of() { [ -s "$folder/$1.port" ] || free_port > "$folder/$1.port"; cat "$folder/$1.port"; }
reached() {  # waits until something listens at the port $1
    python3 -c 'import socket, sys, time
until = time.time() + 30
while time.time() < until:
    try:
        socket.create_connection(("127.0.0.1", int(sys.argv[1])), 1).close()
        sys.exit(0)
    except OSError:
        time.sleep(0.05)
sys.exit(1)' "$1"
}
as_owner() { if [ "$(id -u)" = 0 ]; then setpriv --reuid=postgres --regid=postgres --init-groups -- "$@"; else "$@"; fi; }

start_postgres() {
    tools=$(ls -d /usr/lib/postgresql/*/bin 2>/dev/null | tail -1)
    [ -n "$tools" ] || missing PostgreSQL postgresql
    data="$folder/postgres"; port=$(port_of postgres)
    if [ ! -e "$data/PG_VERSION" ]; then
        mkdir -p "$data"
        [ "$(id -u)" != 0 ] || { chown postgres "$data"; chmod o+x "$folder"; }
        as_owner "$tools/initdb" -D "$data" -U plant -A trust -E UTF8 --no-locale > "$folder/initdb.log" 2>&1 || { tail -3 "$folder/initdb.log" >&2; exit 4; }
    fi
    as_owner "$tools/pg_ctl" -D "$data" -w -t 60 -l "$data/log" -o "-p $port -c listen_addresses=127.0.0.1 -c unix_socket_directories=''" start > /dev/null \
        || { tail -3 "$data/log" >&2; exit 4; }
    echo "postgres postgresql://plant@127.0.0.1:$port/postgres"
}
start_mosquitto() {
    [ -x /usr/sbin/mosquitto ] || command -v mosquitto > /dev/null || missing mosquitto "mosquitto mosquitto-clients"
    port=$(port_of mosquitto)
    printf 'listener %s 127.0.0.1\nallow_anonymous true\n' "$port" > "$folder/mosquitto.conf"
    PATH=$PATH:/usr/sbin nohup mosquitto -c "$folder/mosquitto.conf" > "$folder/mosquitto.log" 2>&1 &
    echo $! > "$folder/mosquitto.pid"
    reached "$port" || { tail -3 "$folder/mosquitto.log" >&2; exit 4; }
    echo "mosquitto 127.0.0.1:$port"
}
start_prometheus() {
    command -v prometheus > /dev/null || missing prometheus prometheus
    port=$(port_of prometheus)
    [ -e "$folder/prometheus.yml" ] || cp "$here/../examples/prometheus.yml" "$folder/prometheus.yml"
    nohup prometheus --config.file="$folder/prometheus.yml" --storage.tsdb.path="$folder/prometheus" --web.listen-address="127.0.0.1:$port" \
        > "$folder/prometheus.log" 2>&1 &
    echo $! > "$folder/prometheus.pid"
    reached "$port" || { tail -3 "$folder/prometheus.log" >&2; exit 4; }
    echo "prometheus http://127.0.0.1:$port"
}
ended() {
    case $1 in
    postgres)
        tools=$(ls -d /usr/lib/postgresql/*/bin | tail -1)
        [ ! -e "$folder/postgres/postmaster.pid" ] || as_owner "$tools/pg_ctl" -D "$folder/postgres" -m fast -w stop > /dev/null ;;
    *)
        [ ! -e "$folder/$1.pid" ] || { pid=$(cat "$folder/$1.pid"); kill "$pid" 2>/dev/null
            for _ in $(seq 100); do kill -0 "$pid" 2>/dev/null || break; sleep 0.05; done; rm -f "$folder/$1.pid"; } ;;
    esac
}

names=${*:-postgres mosquitto}
[ "$what" != stop ] || names=${*:-postgres mosquitto prometheus}
for name in $names; do
    case $what:$name in
    start:postgres | start:mosquitto | start:prometheus | again:postgres | again:mosquitto | again:prometheus) "start_$name" || exit 4 ;;
    stop:postgres | stop:mosquitto | stop:prometheus) ended "$name" ;;
    *) echo "tries/services.sh: $what $name is nothing that it does; its head says what it does" >&2; exit 1 ;;
    esac
done
