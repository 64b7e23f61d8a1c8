#!/bin/sh
# Writes the functions, structs and codes of include/osi.h as HTML pages into a folder, by doxygen. The header's comments are plain
# ones: a comment that begins a line is of what follows, another of what stands before it.
#
#   packaging/doxygen.sh FOLDER
set -eu
[ $# = 1 ] || { sed -n '2,/^set/s/^# \{0,1\}//p' "$0" >&2; exit 2; }
cd "$(dirname "$0")/.."
mkdir -p "$1"
room=$(mktemp -d)
trap 'rm -rf "$room"' EXIT
# (headings of parts stay plain comments)
sed -e '/^\/\* ----/b' -e 's|for #if|for \\#if|' -e 's|^\( *\)/\* |\1/** |' -e 's|^/\*$|/** @file|' -e 's|\([;,u)] *\)/\* |\1/**< |' include/osi.h >"$room/osi.h"
(cd "$room" && doxygen -) <<END
PROJECT_NAME = osi-session
PROJECT_NUMBER = $(scripts/version)
PROJECT_BRIEF = "One end of an OSI session (X.225) over TPKT"
INPUT = osi.h
OUTPUT_DIRECTORY = $room/made
GENERATE_LATEX = NO
OPTIMIZE_OUTPUT_FOR_C = YES
EXTRACT_ALL = YES
MARKDOWN_SUPPORT = NO
PREDEFINED = OSI_LOOK=
MACRO_EXPANSION = YES
EXPAND_ONLY_PREDEF = YES
HTML_TIMESTAMP = NO
HTML_DYNAMIC_MENUS = NO
SEARCHENGINE = NO
HAVE_DOT = NO
QUIET = YES
WARNINGS = NO
END
cp -R "$room/made/html/." "$1"
