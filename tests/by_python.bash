# For the scripts of this folder that hand the built program to one of Python: they source it from the top.

# by_python SCRIPT: runs the script on the built program, in place of the one that calls it. Without python3 nothing is tested.
by_python() {
    local program=$PWD/crates/aspaview/out/aspaview
    if ! command -v python3 >/dev/null; then
        echo "there is no python3"
        echo "0 passed, 0 failed"
        exit
    fi
    # `rt ci` has built the program; where it hasn't, the launcher does.
    [ -x "$program" ] || ./aspaview run </dev/null
    exec python3 -B "$1" "$program"
}
