# nginx in front of a group of three nodes, by the files of examples/operating as they stand but for addresses and folders. To be sourced after
# tools/parts/group.sh, by a script in the repository's root.

# starts one over files of sites, in a folder of its own: NAME FILE..; sets `nginx_process`
run_nginx() {
    local at=$group/$1 p file
    shift
    mkdir "$at"
    {
        echo "daemon off; pid $at/pid; error_log $at/error.log; events { worker_connections 512; }"
        [ "$(id -u)" -ne 0 ] || echo "user root root;"
        echo "http {"
        for p in client_body proxy fastcgi uwsgi scgi; do echo "${p}_temp_path $at/$p;"; done
        for file; do echo "include $file;"; done
        echo "}"
    } > "$at/nginx.conf"
    nginx -q -t -c "$at/nginx.conf" -e "$at/error.log"
    nginx -c "$at/nginx.conf" -e "$at/error.log" &
    nginx_process=$!
}

# the example as a file, which listens there, with further changes: FILE LISTEN WORD..
site_at() {
    local p file=$1 listen=$2 words=()
    shift 2
    for p in 1 2 3; do words+=(-e "s/10\.0\.0\.$p:8001/${http[p - 1]}/"); done
    sed "${words[@]}" -e "s/listen 127.0.0.1:8080/listen $listen/" -e "s,/var/lib/nginx/deskrauf,$file.cache," \
        -e "s,/var/log/nginx/deskrauf.log,$file.log," "$@" examples/operating/nginx.conf > "$file"
}

# waits until one answers: URL
is_up() { curl -s -o "$group/first" --retry 30 --retry-delay 1 --retry-connrefused "$1/_newest"; }

# starts it: sets `front`, its URL, and `front_process`; and `outer`, the URL of the server that shows the files of $group/beside beside its pages
start_front() {
    local port outer_port
    port=$(free_port)
    outer_port=$(free_port)
    site_at "$group/site.conf" "127.0.0.1:$port"
    sed -e "s/listen 127.0.0.1:8081/listen 127.0.0.1:$outer_port/" -e "s,/srv/pages,$group/beside," -e "s,http://127.0.0.1:8080,http://127.0.0.1:$port," \
        -e "s,/var/log/nginx/deskrauf-beside.log,$group/outer.log," examples/operating/nginx-beside.conf > "$group/beside.conf"
    run_nginx front "$group/site.conf" "$group/beside.conf"
    front_process=$nginx_process
    front=http://127.0.0.1:$port
    outer=http://127.0.0.1:$outer_port
    is_up "$front"
}

# one behind TLS, where the editor ed has that password, and a tunnel to it: PASSWORD; sets `tunnel`, its host and port, and `guard_processes`
start_guarded() {
    local far near
    far=$(free_port)
    openssl req -x509 -newkey rsa:2048 -nodes -days 2 -subj /CN=site.example -addext subjectAltName=DNS:site.example \
        -keyout "$group/key.pem" -out "$group/cert.pem" 2> "$group/said"
    printf 'ed:%s\n' "$(printf %s "$1" | openssl passwd -apr1 -stdin)" > "$group/editors"
    site_at "$group/guarded.conf" "127.0.0.1:$far ssl" -e "s,^server {,& ssl_certificate $group/cert.pem; ssl_certificate_key $group/key.pem;," \
        -e 's/allow 127.0.0.1; deny all;//' -e "s,# satisfy any; \(.*\) /etc/nginx/editors;,\1 $group/editors;,"
    run_nginx guarded "$group/guarded.conf"
    guard_processes=("$nginx_process")
    curl -s -k -o "$group/first" --retry 30 --retry-delay 1 --retry-connrefused "https://127.0.0.1:$far/_newest"
    near=$(free_port)
    sed -e "s/listen 127.0.0.1:8001/listen 127.0.0.1:$near/" -e "s,https://site.example,https://127.0.0.1:$far," \
        -e "s,/etc/ssl/certs/ca-certificates.crt,$group/cert.pem," examples/operating/tunnel.conf > "$group/tunnel.conf"
    run_nginx tunnel "$group/tunnel.conf"
    guard_processes+=("$nginx_process")
    tunnel=127.0.0.1:$near
    is_up "http://$tunnel"
}
