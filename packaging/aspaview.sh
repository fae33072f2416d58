#!/bin/sh
# Runs the installed program with the words given, in the folder that it is called from: output, status, and silence on standard error are the
# program's alone. It answers --help and --version itself, by the texts that were installed beside the program.
lib=$(readlink -f -- "$0")
lib=${lib%/*/*}/lib/aspaview
case ${1-} in
--version) exec cat "$lib/version.txt" ;;
--help | -h | help)
    case ${2-} in
    '') exec cat "$lib/help.txt" ;;
    *[!a-z0-9]*) ;;
    *) [ ! -f "$lib/lines/$2" ] || exec cat "$lib/lines/$2" ;;
    esac
    echo "aspaview: no line of a script begins with '$2'; aspaview --help names all lines" >&2
    exit 2
    ;;
esac
exec "$lib/aspaview" "$@"
