# What the scripts of this folder count with, in the folder $work, and where they listen; each reads this file.
touch "$work/passed" "$work/failed"

# check WHAT WANTED GOT: counted in files, since the end of a pipe is a shell of its own.
check() {
    if [ "$2" = "$3" ]; then
        echo "$1" >>"$work/passed"
    else
        echo "$1" >>"$work/failed"
        printf 'failed: %s\nwanted: %s\ngot: %s\n' "$1" "$2" "$3"
    fi
}

# free_port: a port of 127.0.0.1 at which nobody listens now, below those that the system gives to who connects: so none of these takes it
# meanwhile, and who connects too early isn't connected with itself.
free_port() {
    python3 -c 'import random, socket
while True:
    port = random.SystemRandom().randrange(12000, 32000)
    with socket.socket() as probe:
        try:
            probe.bind(("127.0.0.1", port))
        except OSError:
            continue
    print(port)
    break'
}
