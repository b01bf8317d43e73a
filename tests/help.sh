#!/usr/bin/env bash
# The help of the program and of its commands is exactly this text. The last row of the help, the foot of the manual page and both changelogs
# have the version of the file VERSION. A new word comes into this text by `packaging/words.py --write`.
. "$(dirname "$0")/lib.sh"
version=$(cat "$top/VERSION")
name=$(basename "$SGFSPLIT")

# shows WORDS..: the program writes the text on standard input for these words and --help.
shows() {
    cat > want
    "$SGFSPLIT" "$@" --help > got 2> err || failed "the help of '$*' ends with $?"
    [ ! -s err ] || failed "the help of '$*' says $(cat err)"
    same want got "the help of '$*'"
}

shows <<TEXT
Splits Go games with variations into their single lines of play

Usage: $name <COMMAND>

Commands:
  split  Writes one record per line of play, in the order of the file
  count  Counts the games, nodes and lines of play
  help   Print this message or the help of the given subcommand(s)

Options:
  -h, --help  Print help

Example:
  sgfsplit split --form sgf joseki.sgf > lines.sgf

writes each line of play of joseki.sgf, from the root of its game to a leaf, as
a game of its own. FILE is a Smart Game Format collection (FF[4]), at most
64 MiB. Without FILE, or if it is -, standard input is read.

Exit status: 0 all is written, 1 the input or the place of --after is refused,
2 the command line is wrong, 3 a file could not be opened, read or written, 4
out of memory.

sgfsplit $version
TEXT

shows split <<TEXT
Writes one record per line of play, in the order of the file

Usage: $name split [OPTIONS] [FILE]

Arguments:
  [FILE]  The collection to read; none or -: standard input

Options:
      --form <FORM>    How each line of play is written [default: list] [possible values: list, sgf, gtp]
      --after <PLACE>  Only the lines that follow the line of this place
      --limit <N>      At most N lines, the first ones
  -h, --help           Print help

Forms:
  list  a row for each line: PLACE GAME NODES VERDICT
  sgf   a game without variations for each line, its values as they stand
  gtp   a script of the Go Text Protocol for each line, with its comments

PLACE is the offset in bytes, from 0, of the ';' of the line's last node. GAME
is the number of its game, from 1. NODES is the number of its nodes.

Verdicts:
  score BLACK WHITE open     each player's area; the game isn't over
  score BLACK WHITE over     the same, after two passes in a row
  illegal TURN PLACE REASON  the first illegal turn, from 1, and its node
  unjudged game              the game isn't Go
  unjudged size              the board isn't a square of 1 to 52 points a side

Reasons, of which the first that holds is given:
  mixed      the node has moves and setup
  two-moves  the node has two moves or more
  bad-setup  a stone isn't a point or rectangle of the board, or PL isn't B or W
  bad-point  the move is neither a point of the board nor a pass
  over       two passes in a row have ended the game
  turn       the other player must move
  occupied   the point isn't empty
  repeat     the position was there before, since the last setup of stones

The first ten lines, and then the ten lines after the line of place 4711, are
  sgfsplit split --limit 10 joseki.sgf
  sgfsplit split --limit 10 --after 4711 joseki.sgf

Some engines cut long rows and run the rest of a comment as a command. Remove
the comments of an unknown file before an engine reads the script:
  sgfsplit split --form gtp game.sgf | grep -v '^#' | gnugo --mode gtp
Records in sgf and gtp form keep escape sequences for terminals.
TEXT

shows count <<TEXT
Counts the games, nodes and lines of play

Usage: $name count [FILE]

Arguments:
  [FILE]  The collection to read; none or -: standard input

Options:
  -h, --help  Print help

Example:
  sgfsplit count joseki.sgf

writes the numbers of games, nodes and lines of play.
TEXT

grep -qx "\.Os sgfsplit $version" "$top/man/sgfsplit.1" || failed "the manual page's foot isn't of version $version"
grep -q "^sgfsplit ($version) " <(head -n 1 "$top/packaging/changelog") || failed "packaging/changelog doesn't begin with version $version"
[ "$(grep -m 1 '^## ' "$top/CHANGELOG.md")" = "## $version" ] || failed "CHANGELOG.md doesn't begin with version $version"

# It is also the text that packaging/words.py makes of the words of packaging/words.txt, laid out as clap does.
needs python3
for command in '' $(words command); do
    "$top/packaging/words.py" --help-of "$name" $command > want
    "$SGFSPLIT" $command --help > got 2> err || failed "the help of '$command' ends with $?"
    [ ! -s err ] || failed "the help of '$command' says $(cat err)"
    same want got "the help of '$command'"
done
