# shellcheck shell=bash disable=SC2154
# Tests files that curl, wget and Python write, and that they read what the program writes. tools/cookies sources it.

# Files of curl and of Python, and ours for both.
python3 - <<'END' && pass || fail 'MozillaCookieJar: FAILED'
import http.cookiejar
jar = http.cookiejar.MozillaCookieJar()
for name, domain, secure, expires in [('a', 'shop.a.example', False, 4121282317), ('b', '.a.example', True, None)]:
    jar.set_cookie(http.cookiejar.Cookie(0, name, '1', None, False, domain, domain[0] == '.', domain[0] == '.', '/', True, secure, expires, False, None, None, {}))
jar.save('python.txt', ignore_discard=True)
END
prints 'a=1; b=1' header "$now" https://shop.a.example/ python.txt
prints 'a=1' header "$now" http://shop.a.example/ python.txt
prints '' set "$now" https://shop.a.example/ 'c=3; Max-Age=4000000000' python.txt
python3 -c "import http.cookiejar as c; j = c.MozillaCookieJar(); j.load('python.txt'); assert len(j) == 2, list(j)" && pass || fail 'MozillaCookieJar: FAILED to load'
if command -v curl > "$temp/why"; then
    # Without a server curl only reads the file and writes it again.
    curl -s -b python.txt -c curl.txt file:///dev/null || true
    runs header "$now" https://shop.a.example/ curl.txt
    # curl drops a line whose expiry is empty, which is that of a session cookie in Python's files.
    [ "$(sed 's/; /\n/g' "$temp/stdout" | sort)" = $'a=1\nc=3' ] && pass || fail 'curl.txt: FAILED' "$temp/stdout" "$temp/stderr"
else
    echo 'curl: skipped: it is not installed'
fi

# Files that curl, wget and Python write of a server's cookies, for a name and for both kinds of addresses: the cookies are found,
# and an edit of one of them leaves the lines of the others as they were.
cat > server.py <<'END'
import http.server, socket, threading
COOKIES = ['plain=1', 'space=x\u00a0', 'relative=1; Path=foo', 'empty=1; Path=', 'quoted=1; Path="/quoted"', 'only=1; HttpOnly',
           'far=1; Expires=Fri, 31 Dec 12345 23:59:59 GMT', 'age=1; Max-Age=99999999999', 'edited=1']
class Handler(http.server.BaseHTTPRequestHandler):
    def do_GET(self):
        self.send_response(200)
        for cookie in COOKIES:
            self.send_header('Set-Cookie', cookie.encode().decode('latin-1'))
        sent = self.headers.get('Cookie', '').encode('latin-1')
        self.send_header('Content-Length', str(len(sent)))
        self.end_headers()
        self.wfile.write(sent)
    def log_message(self, *arguments):
        pass
class V6(http.server.HTTPServer):
    address_family = socket.AF_INET6
servers = [http.server.HTTPServer(('127.0.0.1', 0), Handler)]
port = servers[0].server_port
try:
    servers.append(V6(('::1', port), Handler))
except OSError:
    pass
for server in servers:
    threading.Thread(target=server.serve_forever).start()
print(port, len(servers), flush=True)
END
cat > python.py <<'END'
import http.cookiejar, sys, urllib.request
action, url, file = sys.argv[1:]
jar = http.cookiejar.MozillaCookieJar(file)
if action == 'load':
    jar.load(ignore_discard=True, ignore_expires=True)
reply = urllib.request.build_opener(urllib.request.HTTPCookieProcessor(jar)).open(url)
if action == 'load':
    sys.stdout.buffer.write(reply.read())
else:
    jar.save(ignore_discard=True, ignore_expires=True)
END
unset http_proxy HTTP_PROXY all_proxy ALL_PROXY
python3 server.py > port.txt &
server=$!
for _ in {1..100}; do [ -s port.txt ] && break || sleep 0.1; done
read -r port servers < port.txt

# visits PROGRAM URL FILE: has a program write the cookies of the server.
visits() {
    case $1 in
        curl) curl -s -o page.html -c "$3" "$2" ;;
        wget) wget -q -O page.html --keep-session-cookies --save-cookies "$3" "$2" ;;
        python3) python3 python.py save "$2" "$3" ;;
    esac
}

# revisits PROGRAM URL FILE: has a program send the cookies of a file to the server, and prints them, one a line.
revisits() {
    case $1 in
        curl) curl -s -b "$3" "$2" ;;
        wget) wget -q -O - --load-cookies "$3" "$2" ;;
        python3) python3 python.py load "$2" "$3" ;;
    esac | sed 's/; */\n/g'
}

# names: prints the sorted names of the cookies of the header that the program printed, each before a space.
names() { tr ';' '\n' < "$temp/stdout" | sed 's/=.*//; s/^ //' | sort | tr '\n' ' '; }

# wrote PROGRAM HOST NAME..: checks a file that the program wrote: the host gets the cookies of these names; an edit of one cookie
# changes its line alone, the program then sends that cookie and another one, and removing it leaves the other lines.
wrote() {
    local url=http://$2:$port/ file=$1.txt sent=$'edited=2\nplain=1'
    if ! command -v "$1" > "$temp/why"; then
        echo "$1: skipped: it is not installed"
        return
    fi
    rm -f "$file"
    visits "$1" "$url" "$file"
    runs header "$url" "$file"
    [ "$(names)" = "$(printf '%s\n' "${@:3}" | sort | tr '\n' ' ')" ] && pass || fail "$1, $2: FAILED: its cookies are $(names)" "$file" "$temp/stderr"
    # curl writes the quotation marks around a path.
    if [ "$1" = curl ]; then
        runs header "${url}quoted" "$file"
        [ "$(names)" = "$(printf '%s\n' quoted "${@:3}" | sort | tr '\n' ' ')" ] && pass || fail "$1, $2: FAILED: its quoted path" "$file" "$temp/stdout"
    fi
    grep -v edited "$file" > others.txt
    prints '' set "$url" 'edited=2' "$file"
    grep -v edited "$file" | cmp -s - others.txt && [ "$(grep -c $'edited\t2' "$file")" = 1 ] && pass || fail "$1, $2: FAILED: an edit changed other lines" "$file"
    # Python sends the cookies of a host without a dot only if the line has `.local` behind it.
    [ "$1" != python3 ] || [ "$2" = 127.0.0.1 ] || sent=plain=1
    [ "$(revisits "$1" "$url" "$file" | grep -aE '^(edited|plain)=' | sort)" = "$sent" ] && pass || fail "$1, $2: FAILED: what it sends after an edit" "$file"
    runs remove "$file" "$2" / edited
    [ "$status" = 0 ] && cmp -s "$file" others.txt && pass || fail "$1, $2: FAILED: a removal changed other lines" "$file" "$temp/stderr"
}
hosts='localhost 127.0.0.1 [::1]'
[ "$servers" = 2 ] || { echo '[::1]: skipped: there is no IPv6' && hosts='localhost 127.0.0.1'; }
for host in $hosts; do
    wrote curl "$host" plain space empty only far age edited
    wrote python3 "$host" plain space empty only far age edited
    if [ "$host" = '[::1]' ]; then
        echo 'wget, [::1]: skipped: it writes an IPv6 address and a port as one, which cannot be told from another address'
    else
        wrote wget "$host" plain space only far age edited
    fi
done

# A file of headers, which curl reads: the program and curl send the same cookies of it to each host.
cat > headers.txt <<'END'
Set-Cookie: name=1; Domain=a.example
set-cookie:dot=2; domain=.a.example; path=/p; SameSite=Lax
SET-COOKIE:  case="3"; Domain=Shop.A.Example; HttpOnly
Set-Cookie: slash=4; Domain=a.example; Path=p
Set-Cookie: quoted=5; Domain=a.example; Path="/p"
Set-Cookie: secure=6; Domain=a.example; Secure
Set-Cookie: lasting=7; Domain=b.example; Expires=Fri, 31 Dec 2038 23:59:59 GMT
Set-Cookie: expired=8; Domain=b.example; Expires=Fri, 31 Dec 1999 23:59:59 GMT
Set-Cookie: address=9; Domain=127.0.0.1
END

# sends URL COOKIE..: the program and curl must send these cookies of headers.txt to the URL.
sends() {
    local own theirs
    own=$("$program" header "$now" "$1" headers.txt | sed 's/; /\n/g' | sort) || true
    theirs=$(curl -s -b headers.txt --connect-to "::127.0.0.1:$port" "$1" | sed 's/; /\n/g' | sort) || true
    if [ "$own" = "$(printf '%s\n' "${@:2}" | sort)" ] && [ "$theirs" = "$own" ]; then
        pass
    else
        fail "headers.txt, $1: FAILED: the program sends"$'\n'"$own"$'\n'"and curl"$'\n'"$theirs"
    fi
}
if command -v curl > "$temp/why"; then
    sends http://a.example/ name=1 slash=4
    sends http://shop.a.example/p/q name=1 dot=2 'case="3"' slash=4 quoted=5
    sends http://www.b.example/ lasting=7
    sends http://127.0.0.1/ address=9
    sends http://c.example/ ''
else
    echo 'curl: skipped: it is not installed'
fi
kill "$server"
wait "$server" 2> "$temp/why" || true
