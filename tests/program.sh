#!/usr/bin/env bash
# Runs the program on real files: exit status, standard output, standard error, and files left as they were. What the jobs
# write, and which command lines there are, is tested in crates/job_tests and crates/command_tests.
# Usage: tests/program.sh PROGRAM, a file named typetool, as its help says. The last line is 'N passed, M failed'.
set -u
program=$(realpath "$1")
examples=$(realpath "$(dirname "$0")/../examples")
texts=$(realpath "$(dirname "$0")/help")
front=$("$(dirname "$0")/front.sh")
# The newest release that the changelog has.
version=$(sed -n 's/^## \([0-9][^ ,]*\).*/\1/p' "$(dirname "$0")/../CHANGELOG.md" | head -n 1)
place=$(mktemp -d)
trap 'rm -rf "$place"' EXIT
cd "$place" || exit 2
passed=0 failed=0

# check NAME STATUS OUT ERR WORD..: runs the program on the words and compares.
check() {
    local name=$1 status=$2 out=$3 err=$4
    shift 4
    "$program" "$@" >out.txt 2>err.txt
    verdict "$name" "$status" $? "$out" "$err"
}

# verdict NAME STATUS GOT OUT ERR: compares a status and what stands in out.txt and err.txt.
verdict() {
    printf '%b' "$4" >want_out.txt
    printf '%b' "$5" >want_err.txt
    if [ "$2" = "$3" ] && cmp -s out.txt want_out.txt && cmp -s err.txt want_err.txt; then
        passed=$((passed + 1))
    else
        failed=$((failed + 1))
        printf 'FAILED %s: status %s, wanted %s\n' "$1" "$3" "$2"
        head -c 300 out.txt err.txt
    fi
}

# same NAME WORD..: status 0, and just the bytes of want.bin.
same() {
    local name=$1
    shift
    if "$program" "$@" >out.txt 2>err.txt && cmp -s out.txt want.bin && [ ! -s err.txt ]; then
        passed=$((passed + 1))
    else
        failed=$((failed + 1))
        echo "FAILED $name"
    fi
}

# A name for each sequence of bytes that the rows share.
head='Script started on X\n'
printf '%bab' "$head" >ab.script
printf '%b' "$head" >empty.script
printf 'no line' >headless.script
printf '0.000000 1\n0.500000 1\n' >ab.timing
: >empty.timing

check 'before the second chunk' 0 'a' '' due --at 0.499999 ab.script ab.timing
check 'at the second chunk' 0 'ab' '' due --at 0.5 ab.script ab.timing

check 'what a recording holds' 0 'chunks 2\nbytes 2\nlength 0.500000\nheader 20\ntrailer 0\n' '' info ab.script ab.timing
# screen_of TEXT: the 24 lines of a screen that begins with TEXT, with an LF for each empty line that TEXT leaves out.
screen_of() {
    local text=$1 plain=${1//'\n'/}
    local ends=$(((${#text} - ${#plain}) / 2))
    while [ $ends -lt 24 ]; do
        text+='\n'
        ends=$((ends + 1))
    done
    printf '%s' "$text"
}

# titled NAME TITLE WORD..: a page whose title and heading are TITLE.
titled() {
    "$program" page "${@:3}" >page.html 2>err.txt
    local status=$?
    grep -aE '^<(title|h1)>' page.html >out.txt
    verdict "$1" 0 $status "<title>$2</title>\n<h1>$2</h1>\n" ''
}

titled 'a page is called as its script' ab ab.script ab.timing
cp ab.script '<i>.&.script'
titled 'a name that is no markup' '&lt;i&gt;.&amp;' './<i>.&.script' ab.timing
titled 'a title' 'Words: "a", b' --title 'Words: "a", b' ab.script ab.timing
titled 'an empty title' '' --title= ab.script ab.timing
titled 'a title that is no markup' '&lt;/title&gt;&lt;script&gt;x()&lt;/script&gt; &amp;amp;' \
    --title '</title><script>x()</script> &amp;' ab.script ab.timing
titled 'control characters in a title' '?[31m ? ? ?' --title $'\e[31m \n \x7f \xc2\x9b' ab.script ab.timing
check 'a title that is not UTF-8' 2 '' 'typetool: an argument is not UTF-8\n' page --title $'a\xff' ab.script ab.timing

E='\x1b'
check 'a screen before the second chunk' 0 "$(screen_of a)" '' screen --at 0.499999 ab.script ab.timing
check 'a screen at the second chunk' 0 "$(screen_of ab)" '' screen --at 0.5 ab.script ab.timing
printf '%b%b' "$head" "${E}[cx" >asks.script
printf '0 3\n0 1\n' >asks.timing
check 'an answer' 0 '1b5b3f313b3263\n' '' reports --at 0 asks.script asks.timing

# What follows a fault: what to do about it.
hint() { printf 'typetool: hint: %s\\n' "$1"; }
keeps='typetool mend keeps what can be read'
headless='typetool mend --headless takes a typescript without its header line'
streams='typetool mend writes this in the classic format'
swapped='the timing file comes second: SCRIPT TIMING'
interrupted='the typescript is empty: was a save interrupted?'
unpack='gunzip, bunzip2, unxz or unzstd it first'
missing='no such file or directory'
seconds=$(hint 'SECONDS is digits, and a point and digits where wanted: 12.5')
unwritten="typetool: write fault\n$(hint 'writing standard output')"

# The commands that read a pair and write to standard output alone, as their help tells them, each with what it must have.
mapfile -t reading < <(sed -n 's/^Usage: typetool \(.*\) <SCRIPT> \[TIMING\]$/\1/p' "$texts"/*.txt |
    sed 's/ \[OPTIONS\]//; s/<SECONDS>/1/; s/<TEXT>/a/')

# refused NAME STATUS FAULT HINT SCRIPT TIMING: a damaged pair, which is only told, whatever the command. That of find is
# no answer.
refused() {
    local command words wanted
    for command in "${reading[@]}"; do
        read -ra words <<<"$command"
        wanted=$2
        [ "${words[0]}" != find ] || wanted=3
        check "$1: ${words[0]}" "$wanted" '' "typetool: $3\n$(hint "$4")" "${words[@]}" "$5" "$6" </dev/null
    done
}

timing() { printf '%b' "$1" >bad.timing; }
timing '0.5 3\n'; refused 'a short script' 1 'typescript ends inside chunk 0' "$keeps" ab.script bad.timing
timing '0.1 1\nO 0.1 5\n'; refused 'multi-stream' 1 'timing line 2: multi-stream format' "$keeps" ab.script bad.timing
timing '0.1 1\nO 0.1 5\n'; refused 'multi-stream, empty script' 1 'timing line 2: multi-stream format' "$keeps" /dev/null bad.timing
timing '.5 1\n'; refused 'a bad delay' 1 'timing line 1: bad delay' "$keeps" headless.script bad.timing
timing '\n1 2 3\n'; refused 'a bad count' 1 'timing line 2: bad count' "$keeps" ab.script bad.timing
timing '1 1\r\n'; refused 'a CR is no blank' 1 'timing line 1: bad count' "$keeps" ab.script bad.timing
timing '1000000.000001 0\n'; refused 'a delay too large' 1 'timing line 1: delay too large' "$keeps" empty.script bad.timing
timing '0 1048577\n'; refused 'a chunk too long' 1 'timing line 1: chunk too long' "$keeps" empty.script bad.timing
yes '0 0' | head -n 1000001 >many.timing
refused 'too many chunks' 1 'timing line 1000001: too many chunks' "$keeps" empty.script many.timing
head -n 1000000 many.timing >most.timing
check 'as many chunks as there may be' 0 '' '' due --at 1 empty.script most.timing
(yes '0 1048576' | head -n 1024; echo '0 1') >long.timing
refused 'too many bytes' 1 'timing line 1025: too many bytes' "$keeps" empty.script long.timing
refused 'no header line' 1 'typescript has no header line' "$headless" headless.script empty.timing
refused 'a missing file' 3 'cannot open nowhere' "$missing" nowhere ab.timing
refused 'a missing timing' 3 'cannot open nowhere' "$missing" ab.script nowhere
refused 'both missing: the script is opened first' 3 'cannot open neither' "$missing" neither nowhere
refused 'a directory' 3 'read fault' 'reading .' . ab.timing
timing 'O 0.5 1\n'; refused 'all streams' 1 'timing line 1: multi-stream format' "$streams" ab.script bad.timing
timing ' \n\n\tI'; refused 'streams behind blank lines' 1 'timing line 3: multi-stream format' "$streams" ab.script bad.timing
timing 'OX 0.5 1\n'; refused 'a word that is no stream' 1 'timing line 1: multi-stream format' "$keeps" ab.script bad.timing
timing 'Script started on'; refused 'nearly a typescript' 1 'timing line 1: multi-stream format' "$keeps" ab.script bad.timing
timing '\nScript started on X\n'; refused 'a typescript behind a line' 1 'timing line 2: multi-stream format' "$keeps" ab.script bad.timing
refused 'an empty script' 1 'typescript has no header line' "$interrupted" /dev/null empty.timing
refused 'script and timing swapped' 1 'timing line 1: multi-stream format' "$swapped" ab.timing ab.script
timing '\x1f\x8b\x08\x00ab'; refused 'a gzip file as timing' 1 'timing line 1: bad delay' "$unpack" ab.script bad.timing
# unpacked NAME TIMING FAULT HINT: what is told of a timing file that begins so.
unpacked() {
    timing "$2"
    check "$1" 1 '' "typetool: timing line 1: $3\n$(hint "$4")" info ab.script bad.timing
}
unpacked 'a bzip2 file' 'BZh9' 'multi-stream format' "$unpack"
unpacked 'not all of it' 'BZ' 'multi-stream format' "$keeps"
unpacked 'an xz file' '\xfd7zXZ\x00' 'bad delay' "$unpack"
unpacked 'a file of zstd' '(\xb5/\xfd\n1 1\n' 'bad delay' "$unpack"
unpacked 'another byte in it' '(\xb5/\xfe' 'bad delay' "$keeps"

check 'bad seconds' 2 '' "typetool: bad seconds\n$seconds" due --at .5 nowhere nowhere

# status NAME STATUS WORD..: what clap tells of a mistake is its own text, of which only the place and the status count.
status() {
    local name=$1 status=$2
    shift 2
    "$program" "$@" >out.txt 2>err.txt
    local got=$? told=out.txt silent=err.txt
    if [ "$status" != 0 ]; then told=err.txt silent=out.txt; fi
    if [ "$got" = "$status" ] && [ -s $told ] && [ ! -s $silent ]; then
        passed=$((passed + 1))
    else
        failed=$((failed + 1))
        printf 'FAILED %s: status %s, wanted %s\n' "$name" "$got" "$status"
    fi
}

# Each help text whole, as tests/help has it: people read those against docs/COMMANDS.md and docs/FORMATS.md.
for text in "$texts"/*.txt; do
    command=$(basename "$text" .txt)
    if [ "$command" = typetool ]; then
        words=()
        printf '%s\n' "$front" >want.bin
    else
        words=("$command")
        cp "$text" want.bin
    fi
    same "help: $command" "${words[@]}" --help
    same "short help: $command" "${words[@]}" -h
    same "help of: $command" help "${words[@]}"
done

check 'the version' 0 "typetool $version\n" '' --version
check 'the version by a letter' 0 "typetool $version\n" '' -V
"$program" >out.txt 2>err.txt
verdict 'no command: the help' 2 $? '' "$front\n"
status 'help of an unknown command' 2 help play
status 'an unknown command' 2 play
status 'a missing path' 2 due --at 1

# saved NAME STATUS ERR LINES SCRIPT TIMING: saves what LINES ask for into new.script and new.timing.
saved() {
    rm -f new.script new.timing
    printf '%b' "$4" | "$program" save "$5" "$6" new.script new.timing >out.txt 2>err.txt
    verdict "$1" "$2" $? '' "$3"
}

# holds NAME FILE TEXT: a file has this text.
holds() {
    printf '%b' "$3" >want.bin
    if cmp -s "$2" want.bin; then
        passed=$((passed + 1))
    else
        failed=$((failed + 1))
        echo "FAILED $1: $2"
    fi
}

saved 'an insert' 0 '' 'insert 1 0.25 58\n' ab.script ab.timing
holds 'an insert' new.script "$head"aXb
holds 'an insert' new.timing '0.000000 1\n0.250000 1\n0.500000 1\n'
check 'what was saved is read' 0 'aXb' '' due --at 1 new.script new.timing
stay=$(hint 'NEWSCRIPT and NEWTIMING stay, empty: remove them before you try again')
saved 'a bad range' 1 "typetool: request line 3: E6 BadRange\n$stay" 'delete 0 1\n\ndelete 5 6\n' ab.script ab.timing
holds 'a bad range' new.script ''
holds 'a bad range' new.timing ''
saved 'a short script' 1 "typetool: typescript ends inside chunk 0\n$(hint "$keeps")" 'nonsense' empty.script ab.timing
holds 'a short script' new.script ''

# same_text NAME FILE: a file has the text of want.bin.
same_text() {
    if cmp -s "$2" want.bin; then
        passed=$((passed + 1))
    else
        failed=$((failed + 1))
        echo "FAILED $1"
        cat "$2"
    fi
}

# absent NAME FILE: there is no such file.
absent() {
    if [ -e "$2" ]; then
        failed=$((failed + 1))
        echo "FAILED $1: $2"
    else
        passed=$((passed + 1))
    fi
}

# Creating is exclusive, and what was there stays as it is.
# uncreated NAME PATH HINT NEWSCRIPT NEWTIMING: PATH can't be created; of the files beside the new ones none is left.
uncreated() {
    "$program" save ab.script ab.timing "$4" "$5" </dev/null >out.txt 2>err.txt
    verdict "$1" 3 $? '' "typetool: cannot create $2\n$(hint "$3")"
    if [ "$4.part" != "$2" ]; then absent "$1" "$4.part"; fi
    if [ "$5.part" != "$2" ]; then absent "$1" "$5.part"; fi
}
exists='it exists already'
rm -f new.script new.timing
echo kept >there
ln -s nowhere dangling
uncreated 'an existing script' there "$exists" there new.timing
holds 'an existing script' there 'kept\n'
absent 'no timing is created after a script that exists' new.timing
uncreated 'an existing timing' there "$exists" new.script there
holds 'a script created before' new.script ''
rm -f new.script
uncreated 'a dangling link' dangling "$exists" dangling new.timing
uncreated 'the same path twice' new.script "$exists" new.script new.script
rm -f new.script
uncreated 'a directory' . "$exists" . new.timing
uncreated 'a new directory' new.folder/ 'it is a directory' new.folder/ new.timing
uncreated 'no such directory' nowhere/new "$missing" nowhere/new new.timing
uncreated 'its own script' ab.script "$exists" ab.script new.timing
uncreated 'no directory' there/new 'Not a directory (os error 20)' there/new new.timing

# The files beside the new ones: both are made before anything is read.
echo kept >new.script.part
uncreated 'an existing file beside the script' new.script.part "$exists" new.script new.timing
holds 'an existing file beside the script' new.script.part 'kept\n'
holds 'an existing file beside the script' new.timing ''
rm -f new.script new.timing new.script.part
echo kept >new.timing.part
uncreated 'an existing file beside the timing' new.timing.part "$exists" new.script new.timing
holds 'an existing file beside the timing' new.timing.part 'kept\n'
rm -f new.script new.timing new.timing.part
uncreated 'names that meet' new.part "$exists" new.part new
rm -f new new.part
long=$(printf 'x%.0s' $(seq 252))
uncreated 'a name too long for a file beside it' "$long.part" 'File name too long (os error 36)' "$long" new.timing
rm -f "$long" new.timing

# Who may use the new files: who may use the old ones, where those are regular files.
chmod 640 ab.script
chmod 404 ab.timing
saved 'the bits of the old files' 0 '' '' ab.script ab.timing
printf '%s\n' '640 new.script' '404 new.timing' >want.bin
stat -c '%a %n' new.script new.timing >bits
same_text 'the bits of the old files' bits
rm -f new.script new.timing
(umask 027; "$program" mend <(cat ab.script) <(cat ab.timing) new.script new.timing >out.txt 2>err.txt)
verdict 'a pair from pipes' 0 $? '' ''
printf '%s\n' '640 new.script' '640 new.timing' >want.bin
stat -c '%a %n' new.script new.timing >bits
same_text 'the bits that the umask leaves' bits
chmod 644 ab.script ab.timing
mkdir folder
(cd folder && "$program" save ../ab.script ../ab.timing "$place/folder/new.script" ./new.timing </dev/null)
holds 'a pair in two spellings of a folder' folder/new.script "$head"ab
holds 'a pair in two spellings of a folder' folder/new.timing '0.000000 1\n0.500000 1\n'
rm -rf folder new.script new.timing

"$program" save nowhere ab.timing new.script new.timing </dev/null >out.txt 2>err.txt
verdict 'a missing script' 3 $? '' "typetool: cannot open nowhere\n$(hint "$missing")"
absent 'nothing is created where a file is missing' new.script
unread="typetool: read fault\n$(hint 'reading standard input')"
"$program" save ab.script ab.timing new.script new.timing 0>>there >out.txt 2>err.txt
verdict 'a standard input that is only written' 3 $? '' "$unread"
absent 'a standard input that is only written' new.script.part
rm -f new.script new.timing
"$program" save ab.script ab.timing new.script new.timing <. >out.txt 2>err.txt
verdict 'a directory as standard input' 3 $? '' "$unread"
rm -f new.script new.timing
"$program" save ab.script . new.script new.timing </dev/null >out.txt 2>err.txt
verdict 'a directory as timing' 3 $? '' "typetool: read fault\n$(hint 'reading .')"
rm -f new.script new.timing
head -c 4000 /dev/zero | od -An -v -tx1 | tr -d ' \n' | sed 's/^/insert 0 0 /' >long.requests
(ulimit -f 1; trap '' XFSZ; exec "$program" save ab.script ab.timing new.script new.timing <long.requests >out.txt 2>err.txt)
got=$?
: >out.txt
verdict 'a limit on file size' 3 $got '' "typetool: write fault\n$(hint 'writing new.script')"
holds 'the script is empty where it can not be whole' new.script ''
holds 'no timing before the script is whole' new.timing ''
absent 'no file beside the script' new.script.part
absent 'no file beside the timing' new.timing.part

# mended NAME STATUS OUT ERR SCRIPT TIMING [FLAG..]: mends a pair into new.script and new.timing.
mended() {
    rm -f new.script new.timing
    "$program" mend "${@:7}" "$5" "$6" new.script new.timing </dev/null >out.txt 2>err.txt
    verdict "$1" "$2" $? "$3" "$4"
}

# untimed N: that so many bytes have no timing.
untimed() {
    printf '%s bytes behind the last chunk have no timing\\n' "$1"
}

printf '%baX' "$head" >cut.script
printf '0.000000 1\n0.250000 1\n0.500000 1\n' >axb.timing
mended 'a script that ends early' 1 '1 chunks left out\n' '' cut.script axb.timing
holds 'a script that ends early' new.script "$head"aX
holds 'a script that ends early' new.timing '0.000000 1\n0.250000 1\n'
check 'what was mended is read' 0 'aX' '' due --at 1 new.script new.timing
timing 'O 0.5 1\nI 0.25 1\nO 0.25 1\n'
mended 'inputs in a log of their own' 0 '1 inputs and 0 signals left out\n' '' ab.script bad.timing
holds 'inputs in a log of their own' new.script "$head"ab
holds 'inputs in a log of their own' new.timing '0.500000 1\n0.500000 1\n'
printf '%baib' "$head" >aib.script
timing 'H 0 OUTPUT_LOG x\nH 0 INPUT_LOG x\nO 0.5 1\nI 0.25 1\nO 0.25 1\n'
mended 'inputs in the typescript' 0 '1 inputs and 0 signals left out\n' '' aib.script bad.timing
holds 'inputs in the typescript' new.script "$head"ab
holds 'inputs in the typescript' new.timing '0.500000 1\n0.500000 1\n'
timing '0.5 1\nzero\n'
mended 'a line that is none' 1 "timing line 2: multi-stream format, 1 lines left out\n$(untimed 1)" '' ab.script bad.timing
holds 'a line that is none' new.script "$head"ab
holds 'a line that is none' new.timing '0.500000 1\n'
timing '0 1\r\n\r\n0.5 1\r\n'
mended 'lines that end in CR LF' 0 'timing has CR LF\n' '' ab.script bad.timing
holds 'lines that end in CR LF' new.timing '0.000000 1\n0.500000 1\n'
lost="timing line 1: bad stream, 2 lines left out\n"
mended 'script and timing swapped' 1 "$lost$(untimed 11)" "$(hint "$swapped")" ab.timing ab.script
timing 'OX 0.5 1\nO 0.1 1\n'
mended 'a stream that is none' 1 "$lost$(untimed 2)" '' ab.script bad.timing
timing '\x1f\x8b\x08\x00ab'
mended 'a gzip file as timing' 1 "timing line 1: bad delay, 1 lines left out\n$(untimed 2)" "$(hint "$unpack")" ab.script bad.timing
cp bad.timing packed.script
timing '4 0.5 2\n'
mended 'a gzip file as typescript, beside a log of sudo' 1 "$(untimed 4)" "$(hint "$unpack")" packed.script bad.timing --headless
timing '0.5 x\n'
mended 'one beside a first line with a fault' 1 "timing line 1: bad count, 1 lines left out\n$(untimed 6)" "$(hint "$unpack")" \
    packed.script bad.timing --headless
mended 'one without a header line' 1 '' "typetool: typescript has no header line\n$(hint "$headless")" packed.script bad.timing
timing '0.5 2\n'
mended 'one beside a whole timing' 1 "$(untimed 4)" '' packed.script bad.timing --headless
mended 'a whole pair' 0 '' '' ab.script ab.timing
holds 'a whole pair' new.script "$head"ab
holds 'a whole pair' new.timing '0.000000 1\n0.500000 1\n'
mended 'no header line' 1 '' "typetool: typescript has no header line\n$(hint "$headless")" headless.script ab.timing
holds 'no header line' new.script ''
holds 'no header line' new.timing ''
absent 'no header line' new.script.part
mended 'an empty script' 1 '' "typetool: typescript has no header line\n$(hint "$interrupted")" /dev/null ab.timing
mended 'a header that is made' 1 "$(untimed 5)" '' headless.script ab.timing --headless
holds 'a header that is made' new.script 'Script started\nno line'
printf '%bold\nScript done on X\n%bab' "$head" 'Script started on Y\n' >appended.script
mended 'a typescript that was appended to' 0 '' '' appended.script ab.timing --last
holds 'a typescript that was appended to' new.script 'Script started on Y\nab'
# redacted NAME STATUS OUT TEXT SCRIPT TIMING [FLAG..]: takes a text out of a pair into new.script and new.timing.
redacted() {
    rm -f new.script new.timing
    "$program" redact "${@:7}" "$4" "$5" "$6" new.script new.timing </dev/null >out.txt 2>err.txt
    verdict "redacted: $1" "$2" $? "$3" ''
}
printf '%bsecret x' "$head" >secret.script
printf '0 2\n0.5 6\n' >secret.timing
redacted 'over the border of two chunks' 0 'redacted 1\n' secret secret.script secret.timing
check 'what is left of a secret' 0 '****** x' '' due --at 1 new.script new.timing
check 'its delays and counts' 0 'chunks 2\nbytes 8\nlength 0.500000\nheader 20\ntrailer 0\n' '' info new.script new.timing
printf '%bsex\bcret' "$head" >typed.script
printf '0 8\n' >typed.timing
redacted 'what was typed with a correction' 1 'redacted 0\n+ 0 0.000000 1 1 secret\n' secret typed.script typed.timing
printf '%baaa' "$head" >aaa.script
printf '0 3\n' >aaa.timing
redacted 'overlapping' 0 'redacted 2\n' aa aaa.script aaa.timing
printf '%bab' "$head" >trailed.script
printf '0 1\n' >trailed.timing
redacted 'into the trailer' 1 'redacted 1\n' ab trailed.script trailed.timing
# Under xterm the size is that of the old first line, also where the new one tells none.
printf 'Script started on X [TERM="xterm" COLUMNS="100" LINES="30"]\n\033[1;95H1\033[1;96H00' >sized.script
printf '0 17\n' >sized.timing
redacted 'out of the size' 1 "redacted 1\n+ 0 0.000000 1 95 $(printf '%94s' '')100\n" 100 sized.script sized.timing --profile xterm
holds 'out of the size' new.script 'Script started on X [TERM="xterm" COLUMNS="***" LINES="30"]\n\033[1;95H1\033[1;96H00'
rm -f new.script new.timing
check 'redacted: out of the size, played at another' 1 'redacted 1\n' \
    'typetool: note: size: recorded at 100x30, played at 80x2 (see typetool check)\n' \
    redact --profile xterm --size 80x2 100 sized.script sized.timing new.script new.timing
printf '%b日本x' "$head" >japan.script
printf '0 2\n0.5 5\n' >japan.timing
redacted 'a character that a chunk cuts' 0 'redacted 1\n' 日本 japan.script japan.timing --profile xterm
holds 'a character that a chunk cuts' new.script "$head******x"
holds 'a character that a chunk cuts' new.timing '0.000000 2\n0.500000 5\n'
printf '%b\rsex\033[Dcret' "$head" >drawn.script
printf '0 11\n' >drawn.timing
redacted 'what was drawn in parts' 1 'redacted 0\n+ 0 0.000000 1 1 secret\n' secret drawn.script drawn.timing --profile xterm --size 6x2
rm -f new.script new.timing
check 'a secret in a damaged pair' 3 '' "typetool: typescript ends inside chunk 1\n$(hint "$keeps")" \
    redact a aaa.script secret.timing new.script new.timing
rm -f new.script new.timing
check 'a secret with a star' 2 '' 'typetool: bad text\n' redact 'a*' nowhere nowhere none none
check 'a secret with a star, under xterm' 2 '' 'typetool: bad text\n' redact --profile xterm '*' nowhere nowhere none none
# made NAME WORD..: the words make new.script and new.timing, and nothing is told.
made() {
    rm -f new.script new.timing
    "$program" "${@:2}" new.script new.timing </dev/null >out.txt 2>err.txt
    verdict "$1" 0 $? '' ''
}

# delayed NAME DELAYS: the new chunks have these delays.
delayed() {
    cut -d' ' -f1 new.timing >delays
    holds "$1" delays "$2"
}

printf '%bab\033[2Jc' "$head" >gone.script
printf '0 2\n1 4\n1 1\n' >gone.timing
made 'a cut' cut --from 0.5 --to 1.5 gone.script gone.timing
delayed 'a cut' '0.000000\n0.500000\n0.500000\n'
check 'before a cut' 0 "$(screen_of ab)" '' screen --at 0.499999 new.script new.timing
check 'where a cut stands' 0 "$(screen_of '')" '' screen --at 0.5 new.script new.timing
check 'behind a cut' 0 "$(screen_of '  c')" '' screen --at 1 new.script new.timing
check 'what a cut asks for' 0 '\n' '' reports --at 1 new.script new.timing
made 'a cut in which nothing is due' cut --from 1 --to 1.9 gone.script gone.timing
holds 'a cut in which nothing is due' new.script "$head"'ab\033[2Jc'
holds 'a cut in which nothing is due' new.timing '0.000000 2\n1.000000 4\n0.100000 1\n'
made 'a cut that ends where it begins' cut --from 1 --to 1 --profile xterm gone.script gone.timing
holds 'a cut that ends where it begins' new.script "$head"'ab\033[2Jc'
holds 'a cut that ends where it begins' new.timing '0.000000 2\n1.000000 4\n1.000000 1\n'
made 'an excerpt' excerpt --from 1.5 --profile xterm gone.script gone.timing
delayed 'an excerpt' '0.000000\n0.500000\n'
check 'at the end of an excerpt' 0 "$(screen_of '  c')" '' screen --at 0.5 --profile xterm new.script new.timing
made 'an excerpt of a beginning' excerpt --to 1 gone.script gone.timing
delayed 'an excerpt of a beginning' '0.000000\n1.000000\n'
full=$(printf 'A%.0s' $(seq 80))
printf '%b%s\033[?3h\033[1;132HBC' "$head" "$full" >broad.script
printf '0 80\n1 5\n1 9\n1 1\n' >broad.timing
made 'an excerpt of 132 columns' excerpt --from 2.5 broad.script broad.timing
check 'a wrap that is pending' 0 "$(screen_of "$(printf '%131sB' '')\\nC")" '' screen --at 0.5 new.script new.timing
"$program" screen --state --at 0 broad.script broad.timing >state.txt 2>err.txt
got=$?
: >out.txt
verdict 'a state' 0 $got '' ''
{ printf '%b\033[7;31' "$head"; cat state.txt; printf C; } >stated.script
printf '0 %s\n' $(($(wc -c <state.txt) + 7)) >stated.timing
check 'a state behind what is pending' 0 "$(screen_of "$full\\nC")" '' screen --at 0 stated.script stated.timing
check 'both texts of a screen' 2 '' 'typetool: --state and --escaped exclude each other\n' \
    screen --at 0 --escaped --state nowhere nowhere
rm -f new.script new.timing
check 'the note of a cut' 0 '' 'typetool: note: size: recorded at 100x30, played at 80x2 (see typetool check)\n' \
    cut --from 0 --to 1 --profile xterm --size 80x2 sized.script sized.timing new.script new.timing
rm -f new.script new.timing
check 'a cut of a damaged pair' 1 '' "typetool: typescript ends inside chunk 1\n$(hint "$keeps")" \
    cut --from 0 --to 1 aaa.script secret.timing new.script new.timing
holds 'a cut of a damaged pair' new.script ''
rm -f new.script new.timing
check 'a cut over a script that exists' 3 '' "typetool: cannot create there\n$(hint "$exists")" \
    cut --from 0 --to 1 ab.script ab.timing there new.timing
holds 'a cut over a script that exists' there 'kept\n'
absent 'a cut over a script that exists' new.timing
"$program" cut --from 0 --to 1 ab.script ab.timing new.script new.timing 0>>there >&- 2>err.txt
got=$?
: >out.txt
verdict 'a cut reads no standard input and writes no standard output' 0 $got '' ''
chmod 640 gone.script
chmod 404 gone.timing
made 'the bits of a cut' cut --from 0 --to 1 gone.script gone.timing
printf '%s\n' '640 new.script' '404 new.timing' >want.bin
stat -c '%a %n' new.script new.timing >bits
same_text 'the bits of a cut' bits
# The state is one chunk more.
yes '0.000001 0' | head -n 1000000 >many.timing
rm -f new.script new.timing
check 'an excerpt of too many chunks' 1 '' "typetool: E4 TooManyChunks\n$stay" \
    excerpt empty.script many.timing new.script new.timing
holds 'an excerpt of too many chunks' new.script ''
holds 'an excerpt of too many chunks' new.timing ''
absent 'an excerpt of too many chunks' new.script.part
absent 'an excerpt of too many chunks' new.timing.part
rm -f new.script new.timing
status 'a cut of one file' 2 cut --from 0 --to 1 ab.script
status 'a cut without its end' 2 cut --from 0 ab.script ab.timing none none

check 'both headers' 2 '' 'typetool: --last and --headless exclude each other\n' mend --last --headless nowhere nowhere none none
status 'mend with a profile' 2 mend --profile vt100 ab.script ab.timing none none
rm -f new.script new.timing
"$program" mend ab.script ab.timing there new.timing </dev/null >out.txt 2>err.txt
verdict 'mending over a script that exists' 3 $? '' "typetool: cannot create there\n$(hint "$exists")"
holds 'mending over a script that exists' there 'kept\n'
absent 'mending over a script that exists' new.timing
"$program" mend nowhere ab.timing new.script new.timing </dev/null >out.txt 2>err.txt
verdict 'mending a missing script' 3 $? '' "typetool: cannot open nowhere\n$(hint "$missing")"
absent 'mending a missing script' new.script
"$program" mend ab.script ab.timing new.script new.timing 0>>there >out.txt 2>err.txt
verdict 'mending reads no standard input' 0 $? '' ''
rm -f new.script new.timing
"$program" mend cut.script axb.timing new.script new.timing >/dev/full 2>err.txt
got=$?
: >out.txt
verdict 'losses told to a full device' 3 $got '' "$unwritten"
holds 'losses told to a full device' new.script ''
holds 'losses told to a full device' new.timing ''
absent 'losses told to a full device' new.timing.part
rm -f new.script new.timing
"$program" mend cut.script axb.timing new.script new.timing >&- 2>err.txt
verdict 'losses told to a closed output' 3 $? '' "$unwritten"
rm -f new.script new.timing
{ printf '%b' "$head"; head -c 4000 /dev/zero; } >zero.script
(ulimit -f 1; trap '' XFSZ; exec "$program" mend zero.script axb.timing new.script new.timing >out.txt 2>err.txt)
got=$?
: >out.txt
verdict 'mending under a limit on file size' 3 $got '' "typetool: write fault\n$(hint 'writing new.script')"
holds 'no mended timing before the script is whole' new.timing ''

# imported NAME STATUS OUT ERR RECORDING: imports a recording into new.script and new.timing.
imported() {
    rm -f new.script new.timing
    "$program" import "$5" new.script new.timing </dev/null >out.txt 2>err.txt
    verdict "imported: $1" "$2" $? "$3" "$4"
}
sized='Script started on unknown [COLUMNS="80" LINES="24"]\n'
printf '{"version": 2, "width": 80, "height": 24}\n[0.5, "o", "a"]\n[0.75, "i", "x"]\n[1, "o", "b"]\n' >ab.cast
imported 'an asciicast' 0 '1 inputs, 0 markers, 0 resizes and 0 others left out\n' '' ab.cast
holds 'an asciicast' new.script "${sized}ab"
holds 'an asciicast' new.timing '0.500000 1\n0.500000 1\n'
check 'what was imported is read' 0 'a' '' due --at 0.75 new.script new.timing
printf '{"stdout": [[0.5, "a"],\n[0.25, "b"], [0.1, ""], [0.1, "c"]], "width": 80, "height": 24, "version": 1}' >one.cast
imported 'an asciicast of version 1' 0 '' '' one.cast
holds 'an asciicast of version 1' new.script "${sized}abc"
holds 'an asciicast of version 1' new.timing '0.500000 1\n0.250000 1\n0.200000 1\n'
printf '\x00\x00\x00\x00\x00\x00\x00\x00\x01\x00\x00\x00a\x01\x00\x00\x00\x20\xa1\x07\x00\x05\x00\x00\x00bc' >ab.ttyrec
imported 'a ttyrec that ends early' 1 'chunk 1 cut to 2 of 5 bytes\n' '' ab.ttyrec
holds 'a ttyrec that ends early' new.script 'Script started on unknown\nabc'
holds 'a ttyrec that ends early' new.timing '0.000000 1\n1.500000 2\n'
printf '{"ver": "2.3", "id": 1, "pos": 0, "timing": "=80x24+500>1", "out_txt": "a"}\n{"id": 2}\n' >ab.tlog
imported 'messages of tlog' 1 'recording line 2: bad event, 1 lines left out\n' '' ab.tlog
holds 'messages of tlog' new.script "${sized}a"
holds 'messages of tlog' new.timing '0.500000 1\n'
printf '\x1f\x8b\x08\x00abcdefgh' >packed.cast
imported 'a compressed recording' 1 '' \
    "typetool: recording is compressed\n$(hint "$unpack")" packed.cast
holds 'a compressed recording' new.script ''
holds 'a compressed recording' new.timing ''
absent 'a compressed recording' new.script.part
formless='typetool: recording of no known form\n'
imported 'a typescript' 1 '' "$formless$(hint 'a typescript needs its timing file: SCRIPT TIMING')" ab.script
imported 'an empty file' 1 '' "$formless$(hint 'asciicast, ttyrec and tlog are read')" empty.timing
holds 'an empty file' new.script ''
absent 'an empty file' new.timing.part
imported 'a directory' 3 '' "typetool: read fault\n$(hint 'reading .')" .
chmod 640 ab.cast
imported 'the bits of the recording' 0 '1 inputs, 0 markers, 0 resizes and 0 others left out\n' '' ab.cast
printf '%s\n' '640 new.script' '640 new.timing' >want.bin
stat -c '%a %n' new.script new.timing >bits
same_text 'the bits of the recording' bits
# One path in place of a pair.
check 'what is due of an asciicast' 0 'a' '' due --at 0.75 ab.cast
printf '\0\0\0\0\0\0\0\0\3\0\0\0abc' >whole.ttyrec
check 'the screen of a ttyrec, of a size' 0 'abc\n' '' screen --at 0 --size 5x1 whole.ttyrec
check 'an asciicast as a VT100' 0 "$(screen_of ab)" '' screen --at 1 --profile vt100 ab.cast
printf 'delete 0 1\nscreen 1\n' >delete.requests
"$program" session --size 80x1 ab.cast <delete.requests >out.txt 2>err.txt
verdict 'a session of an asciicast' 0 $? 'ok\nb\n' 'typetool: note: size: recorded at 80x24, played at 80x1 (see typetool check)\n'
"$program" page ab.cast >page.html 2>err.txt
grep -ao '<title>.*</title>' page.html >out.txt
verdict 'the title of its page' 0 $? '<title>ab</title>\n' ''
printf '%s\n' '{"version": 2, "width": 80, "height": 24}' '[0, "o", "a"]' '[1, "r", "90x30"]' >resized.cast
check 'changes of size' 1 'started unknown\nsize 80x24\nnote resizes: 1 left out\n' '' check resized.cast
check 'a note of them' 0 "$(screen_of a)" 'typetool: note: resizes: 1 left out (see typetool check)\n' screen --at 0 resized.cast
# alone NAME FAULT HINT RECORDING: one that is only told, whatever the command.
alone() {
    local command words wanted
    for command in "${reading[@]}"; do
        read -ra words <<<"$command"
        wanted=1
        [ "${words[0]}" != find ] || wanted=3
        check "$1: ${words[0]}" "$wanted" '' "typetool: $2\n$(hint "$3")" "${words[@]}" "$4" </dev/null
    done
}
printf '%s\n' '{"version": 2}' '[1, "o", "a"]' '[2, "o", "b"' >torn.cast
alone 'a line with a fault' 'recording line 3: bad event' 'typetool import writes what can be read' torn.cast
alone 'a compressed recording' 'recording is compressed' "$unpack" packed.cast
alone 'a typescript alone' 'recording of no known form' 'a typescript needs its timing file: SCRIPT TIMING' ab.script
check 'a recording that ends early' 1 '' "typetool: recording ends inside chunk 1\n$(hint 'typetool import writes what can be read')" \
    info ab.ttyrec
check 'another file' 1 '' "$formless$(hint 'asciicast, ttyrec and tlog are read')" info ab.timing
check 'a text that is missing' 3 '' "$formless$(hint 'asciicast, ttyrec and tlog are read (or TEXT is missing)')" \
    find ab.script ab.timing
check 'a missing recording' 3 '' "typetool: cannot open nowhere\n$(hint "$missing")" info nowhere
check 'a directory in place of a pair' 3 '' "typetool: read fault\n$(hint 'reading .')" info .
check 'an empty path' 3 '' "typetool: cannot open \n$(hint "$missing")" info ab.script ''
status 'save of one file' 2 save ab.cast
status 'import with a profile' 2 import --profile xterm ab.cast none none
status 'import of a pair' 2 import ab.script ab.timing none none
rm -f new.script new.timing
check 'importing over a script that exists' 3 '' "typetool: cannot create there\n$(hint "$exists")" \
    import ab.cast there new.timing
holds 'importing over a script that exists' there 'kept\n'
absent 'importing over a script that exists' new.timing
check 'importing into one file' 3 '' "typetool: cannot create new.script\n$(hint "$exists")" \
    import ab.cast new.script new.script
rm -f new.script
check 'importing a missing recording' 3 '' "typetool: cannot open no?[31mwhere\n$(hint "$missing")" \
    import $'no\e[31mwhere' new.script new.timing
absent 'importing a missing recording' new.script
"$program" import one.cast new.script new.timing 0>>there >out.txt 2>err.txt
verdict 'importing reads no standard input' 0 $? '' ''
rm -f new.script new.timing
"$program" import ab.ttyrec new.script new.timing >/dev/full 2>err.txt
got=$?
: >out.txt
verdict 'what was not imported, told to a full device' 3 $got '' "$unwritten"
holds 'what was not imported, told to a full device' new.script ''
holds 'what was not imported, told to a full device' new.timing ''
absent 'what was not imported, told to a full device' new.timing.part
rm -f new.script new.timing
{ printf '{"version": 2}\n[0, "o", "'; head -c 4000 /dev/zero | tr '\0' x; printf '"]\n'; } >long.cast
(ulimit -f 1; trap '' XFSZ; exec "$program" import long.cast new.script new.timing >out.txt 2>err.txt)
got=$?
: >out.txt
verdict 'importing under a limit on file size' 3 $got '' "typetool: write fault\n$(hint 'writing new.script')"
holds 'no imported timing before the script is whole' new.timing ''
rm -f new.script new.timing

printf '%b%b' "$head" "a${E}[m${E}[3;1Hb" >three.script
printf '0 1\n0 3\n1.5 7\n' >three.timing
check 'changes by a moment' 0 '0 0.000000 1\n2 1.500000 3\n' '' changes --to 2 three.script three.timing

check 'the session as text' 0 'a\n\nb\n' '' transcript three.script three.timing
check 'the session as text, by a moment' 0 'a\n' '' transcript --to 1 three.script three.timing
# On 24 lines the first row leaves at the LF behind 24, the next one at that behind 25, and the others as all is erased.
printf '%b%b' "$head" "$(printf '%d\\r\\n' $(seq 25))26${E}[2J" >left.script
printf '0 87\n1 6\n1 4\n' >left.timing
check 'rows that left' 0 "$(printf '%d\\n' $(seq 26))" '' transcript left.script left.timing
check 'rows that left after a moment' 0 "$(printf '%d\\n' $(seq 3 26))" '' transcript --from 1.5 left.script left.timing
check 'rows between two moments' 0 "$(printf '%d\\n' $(seq 2 26))" '' transcript --from 0.5 --to 1 left.script left.timing
check 'no row' 0 '' '' transcript --to 0 empty.script empty.timing

check 'a text that came' 0 '+ 0 0.000000 1 1 a\n' '' find a three.script three.timing
check 'a text that came later' 0 '+ 2 1.500000 3 1 b\n' '' find --from 1 --to 1.5 b three.script three.timing
check 'a text that never came' 1 '' '' find c three.script three.timing
check 'a text that came too late' 1 '' '' find --to 1.499999 b three.script three.timing
check 'a text that stands already' 0 '= 2 1.000000 1 1 a\n' '' find --from 1 a three.script three.timing
seen() { # what it is, the body (one chunk), the text, the lines, flags
    printf '%b%b' "$head" "$2" >seen.script
    printf '0 %d\n' "$(printf '%b' "$2" | wc -c)" >seen.timing
    check "$1" "$([ -n "$4" ]; echo $?)" "$4" '' find "${@:5}" "$3" seen.script seen.timing
}
seen 'a text that scrolled off' "a$(printf '\\n%.0s' $(seq 30))" a '~ 0 0.000000 1 1 a\n'
seen 'a text that was written over' 'err\rok ' err '~ 0 0.000000 1 1 err\n'
seen 'a text that was written again' "err\r${E}[Kerr" err '+ 0 0.000000 1 1 err\n'
printf '%b--help' "$head" >flag.script
printf '0 6\n' >flag.timing
check 'a text that looks like a flag' 0 '+ 0 0.000000 1 1 --help\n' '' find -- --help flag.script flag.timing
check 'a text of spaces' 2 '' 'typetool: bad text\n' find '  ' nowhere nowhere
check 'a text with a tab' 2 '' 'typetool: bad text\n' find $'a\tb' nowhere nowhere

# The same on a terminal of today.
today=(--profile xterm --size 9x3)
seen 'today: a text that scrolled off' 'a\n\n\nb' a '~ 0 0.000000 1 1 a\n' "${today[@]}"
seen 'today: a text that was written over' 'err\rok ' err '~ 0 0.000000 1 1 err\n' "${today[@]}"
seen 'today: a column of its own for each cell' '日本x' x '+ 0 0.000000 1 5 日本x\n' "${today[@]}"
seen 'today: over the margin' 'Tokyo 0123' '0123' '+ 0 0.000000 1 7 Tokyo 0123\n' "${today[@]}"
seen 'today: a last column that is free' 'Tokyo 東京' 東京 '+ 0 0.000000 1 7 Tokyo 東京\n' "${today[@]}"
seen 'today: a last column that is free, and a narrow one' 'Tokyo 東\r\nx' 東x '' "${today[@]}"
seen 'today: two columns that are free' 'abcdefg\r\n日' g日 '' "${today[@]}"
seen 'today: a space on the margin' 'abcdefgh ij' 'h i' '' "${today[@]}"
seen 'today: a mark' 'xe\xcc\x81y' $'e\xcc\x81' '+ 0 0.000000 1 2 xe\xcc\x81y\n' "${today[@]}"
seen 'today: what stands behind a mark' 'xe\xcc\x81y' y '+ 0 0.000000 1 3 xe\xcc\x81y\n' "${today[@]}"
seen 'today: no normal form' 'xe\xcc\x81y' é '' "${today[@]}"
seen 'today: half a character that is written over' '日\rx' 日 '~ 0 0.000000 1 1 日\n' "${today[@]}"
# REP is one byte's work: of the row that it fills and leaves nothing is seen.
seen 'today: a text that REP left' "ab${E}[4b" abb '' --profile xterm --size 3x1
seen 'today: a text before REP' "ab${E}[4b" ab '~ 0 0.000000 1 1 ab\n' --profile xterm --size 3x1
seen 'today: a text at the end of REP' "ab${E}[4b" bbb '+ 0 0.000000 1 1 bbb\n' --profile xterm --size 3x1
printf '%bsecret%b' "$head" "${E}[?1049hother${E}[?1049l" >sheets.script
printf '0 2\n0.5 4\n0.5 13\n0.5 8\n' >sheets.timing
check 'today: behind another sheet' 0 \
    '+ 1 0.500000 1 1 secret\n- 2 1.000000 1 1 secret\n+ 3 1.500000 1 1 secret\n' '' \
    find "${today[@]}" secret sheets.script sheets.timing
check 'today: what another sheet shows' 0 '+ 2 1.000000 1 7       other\n- 3 1.500000 1 7       other\n' '' \
    find "${today[@]}" othe sheets.script sheets.timing
check 'today: what stands at a moment' 0 '= 4 2.000000 1 1 secret\n' '' find --from 2 "${today[@]}" secret sheets.script sheets.timing
check 'a bad size before a bad text' 2 '' 'typetool: bad size: 2x1 to 1000x500, with --profile xterm\n' \
    find --profile xterm --size 1x1 '' nowhere nowhere
check 'a size without xterm' 2 '' 'typetool: bad size: 2x1 to 1000x500, with --profile xterm\n' find --size 80x24 a nowhere nowhere
check 'bad seconds before a bad text' 2 '' "typetool: bad seconds\n$seconds" find --to x '' nowhere nowhere
check 'a bad profile before a bad text' 2 '' 'typetool: bad profile: vt100, vt102, xterm or auto\n' find --profile x '' nowhere nowhere

# A recording that was made for another terminal: the note stands behind the fault where there is one.
printf 'Script started on X [TERM="xterm" COLUMNS="120" LINES="40"]\n%b' "${E}[5Q${E}[?1049h" >wide.script
printf '0.5 12\n' >wide.timing
printf '%b' "$head${E}[P" >delete.script
printf '0 3\n' >delete.timing
note='typetool: note: size: recorded at 120x40, played at 80x24; term: recorded under xterm, played as vt100 (see typetool check, or try --profile xterm)\n'
facts='started X\nterm xterm\nsize 120x40\nnote size: recorded at 120x40, played at 80x24\n'
check 'a check' 1 "${facts}note term: recorded under xterm, played as vt100\nunplayed 1 ESC [ ? 1049 h\nunplayed 1 ESC [ Q\ntry --profile xterm\n" '' \
    check wide.script wide.timing
check 'a check without a note' 0 'started X\n' '' check ab.script ab.timing
check 'a check of a sequence of a VT102' 1 'started X\nunplayed 1 ESC [ P\ntry --profile xterm\n' '' check delete.script delete.timing
check 'a check by a terminal of today' 1 'started X\nterm xterm\nsize 120x40\nunplayed 1 ESC [ Q\n' '' \
    check --profile xterm wide.script wide.timing
check 'a check by a terminal of today, of a size' 1 \
    'started X\nterm xterm\nsize 120x40\nnote size: recorded at 120x40, played at 90x30\nunplayed 1 ESC [ Q\n' '' \
    check --profile xterm --size 90x30 wide.script wide.timing
check 'a check as a VT102' 0 'started X\n' '' check --profile vt102 delete.script delete.timing
check 'a note beside a screen' 0 "$(screen_of '')" "$note" screen --at 1 wide.script wide.timing
check 'a note beside reports' 0 '\n' "$note" reports --at 1 wide.script wide.timing
check 'a note beside no find line' 1 '' "$note" find a wide.script wide.timing
check 'no note beside what is due' 0 '' '' due --at 0 wide.script wide.timing
timing '0.5 99\n'
check 'no note of a pair that is not read' 1 '' "typetool: typescript ends inside chunk 0\n$(hint "$keeps")" screen --at 1 wide.script bad.timing
"$program" reports --at 1 wide.script wide.timing >/dev/full 2>err.txt
got=$?
: >out.txt
verdict 'a note behind a fault' 3 $got '' "$unwritten$note"

# asked NAME STATUS LINES OUT SCRIPT TIMING [FLAG..]: a session over request lines, with nothing on standard error.
asked() {
    local name=$1 wanted=$2 lines=$3 out=$4 script=$5 timing=$6
    shift 6
    printf '%b' "$lines" | "$program" session "$@" "$script" "$timing" >out.txt 2>err.txt
    verdict "$name" "$wanted" $? "$out" ''
}

asked 'a report of a deleted chunk' 0 'reports 0\ndelete 0 1\nreports 0\nscreen 0\n' \
    "1b5b3f313b3263\\nok\\n\\n$(screen_of x)" asks.script asks.timing
printf '%b0123456789' "$head" >ten.script
yes '0 1' | head -n 10 >ten.timing
asked 'refused edits' 1 'delete 3 3\ninsert 11 0 -\ninsert 0 1000000.000001 -\nlog\n' \
    'refused E6 BadRange\nrefused E1 NoSuchChunk\nrefused E2 DelayTooLarge\nend\n' ten.script ten.timing
asked 'no lines' 0 '' '' ab.script ab.timing
asked 'a terminal at every chunk' 0 'screen 9\nscreen 0\n' "$(screen_of ab)$(screen_of a)" ab.script ab.timing --every 1
check 'every with a sign' 2 '' 'typetool: bad number of chunks: 1 to 1000000\n' session --every=+5 nowhere nowhere
check 'every out of its range' 2 '' 'typetool: bad number of chunks: 1 to 1000000\n' session --every 0 nowhere nowhere

# The second profile and the escaped print.
printf 'Script started on X\nabcdef\033[1;2H\033[2P\033[c' >edits.script
printf '0.5 19\n' >edits.timing
check 'cells deleted under a VT102' 0 "$(screen_of adef)" '' screen --at 1 --profile vt102 edits.script edits.timing
asked 'a session of a VT102' 0 'reports 1\nscreen 1\n' '1b5b3f3663\n'"$(screen_of adef)" \
    edits.script edits.timing --profile vt102
check 'another profile' 2 '' 'typetool: bad profile: vt100, vt102, xterm or auto\n' screen --at 1 --profile vt220 nowhere nowhere
check 'a size out of its range' 2 '' 'typetool: bad size: 2x1 to 1000x500, with --profile xterm\n' \
    screen --at 1 --profile xterm --size 1x24 nowhere nowhere
check 'a size without the terminal of today' 2 '' 'typetool: bad size: 2x1 to 1000x500, with --profile xterm\n' \
    reports --at 1 --size 80x24 nowhere nowhere
check 'bad seconds before a bad size' 2 '' "typetool: bad seconds\n$seconds" screen --at x --size 0x0 nowhere nowhere

# The terminal of today, at the size that the first line tells or that is asked for.
printf 'Script started on X [TERM="xterm" COLUMNS="12" LINES="2"]\n%b' "Tokyo 東京\r\nna\303\257ve${E}[6n" >today.script
printf '0.5 24\n' >today.timing
check 'a screen of today' 0 'Tokyo 東京\nnaïve\n' '' screen --at 1 --profile xterm today.script today.timing
check 'a text that draws a screen of today again' 0 \
    "${E}[1;1HTokyo 東京${E}[2;1Hnaïve${E}[0m${E}[2;6H" '' screen --at 1 --escaped --profile xterm today.script today.timing
check 'a screen of today, of a size' 0 'Tokyo 東\n京\nnaïve\n' \
    'typetool: note: size: recorded at 12x2, played at 8x3 (see typetool check)\n' \
    screen --at 1 --profile xterm --size 8x3 today.script today.timing
check 'the terminal that the first line tells' 0 'Tokyo 東京\nnaïve\n' '' screen --at 1 --profile auto today.script today.timing
sed 's/X$/X [TERM="vt102"]/' edits.script >vt102.script
check 'a VT102 that the first line tells, with a size that it leaves unused' 0 "$(screen_of adef)" '' \
    screen --at 1 --profile auto --size 8x3 vt102.script edits.timing
redacted 'out of the name of that terminal' 1 'redacted 1\n' vt102 vt102.script edits.timing --profile auto
"$program" page --profile xterm today.script today.timing >today.html 2>err.txt
status=$?
grep -a '^\[[0-9[]' today.html >out.txt
verdict 'a page of today' 0 $status \
    '[[12,2],\n[0.000000,0,1,1],\n[0.500000,0,2,6,1,[0,"Tokyo ",512,"東京"],2,[0,"naïve"]]]\n' ''
check 'changes of today' 0 '0 0.500000 1 2\n' '' changes --to 1 --profile xterm today.script today.timing
check 'the session as text of today' 0 'Tokyo 東京\nnaïve\n' '' transcript --profile xterm today.script today.timing
check 'what a terminal of today has answered' 0 '1b5b323b3652\n' '' reports --at 1 --profile xterm today.script today.timing
asked 'a session of today' 0 'screen 1\nreports 1\nchanges - 1\ninsert 0 0 e697a50d0a\nscreen 0\nscreen 1\nlog\n' \
    'Tokyo 東京\nnaïve\n1b5b323b3652\n0 0.500000 1 2\nend\nok\n日\n\nTokyo 東京\nnaïve\ninsert 0 0.000000 e697a50d0a\nend\n' \
    today.script today.timing --profile xterm
printf 'screen 1\ndelete 1 2\n' |
    "$program" session --profile xterm --size 8x3 today.script today.timing >out.txt 2>err.txt
verdict 'a session of today, of a size' 1 $? 'Tokyo 東\n京\nnaïve\nrefused E6 BadRange\n' \
    'typetool: note: size: recorded at 12x2, played at 8x3 (see typetool check)\n'
"$program" picture --at 1 --profile xterm today.script today.timing >today.svg 2>err.txt
status=$?
grep '^<g transform="translate' today.svg | grep '<text' >out.txt
narrow='<tspan x="0 10 20 30 40 50">Tokyo </tspan>'
verdict 'a picture of today' 0 $status \
    "<g transform=\"translate(0 0)\"><text y=\"15\">$narrow<tspan x=\"60\">東</tspan><tspan x=\"80\">京</tspan></text></g>\n\
<g transform=\"translate(0 20)\"><text y=\"15\"><tspan x=\"0 10 20 30 40\">naïve</tspan></text></g>\n" ''
# A first line, and the size that it tells, if it does.
for row in 'COLUMNS="1" LINES="24";1x24' 'COLUMNS="12" LINES="501";12x501' 'COLUMNS="12";' 'COLUMNS="0x10" LINES="2";' ';'; do
    told=${row%;*} size=${row#*;}
    printf 'Script started on X [TERM="xterm" %s]\nab' "$told" >told.script
    printf '0.5 2\n' >told.timing
    check "80x24 where the first line tells $told" 0 "$(screen_of ab)" \
        "${size:+typetool: note: size: recorded at $size, played at 80x24 (see typetool check)\n}" \
        screen --at 1 --profile xterm told.script told.timing
done
check 'the escaped print' 0 '\033[?7l\033)0\033[1;1Hadef\033[0m\017\033[?7h\033[1;2H' '' \
    screen --at 1 --escaped --profile vt102 edits.script edits.timing
"$program" session ab.script ab.timing 0>>there >out.txt 2>err.txt
verdict 'a session without an input to read' 3 $? '' "$unread"
"$program" session empty.script ab.timing 0>>there >out.txt 2>err.txt
verdict 'an input is read before the recording' 3 $? '' "$unread"
: >out.txt
printf 'info\n' >one.request
for command in "${reading[@]}"; do
    read -ra words <<<"$command"
    "$program" "${words[@]}" ab.script ab.timing <one.request >/dev/full 2>err.txt
    verdict "${words[0]} into a full device" 3 $? '' "$unwritten"
    "$program" "${words[@]}" ab.script ab.timing <one.request >&- 2>err.txt
    verdict "${words[0]} into a closed output" 3 $? '' "$unwritten"
done
yes 'screen 9' | head -n 400 >many.requests
(ulimit -f 1; trap '' XFSZ; exec "$program" session ab.script ab.timing <many.requests >limited.txt 2>err.txt)
verdict 'a session and a limit on file size' 3 $? '' "$unwritten"

# Where whoever reads standard output is gone nothing is told.
# gone NAME WORD..: the status is 3, and nothing stands on standard error.
gone() {
    local name=$1
    shift
    { sleep 0.3; "$program" "$@" <many.requests 2>err.txt; echo $? >got; } | :
    : >out.txt
    verdict "nobody reads: $name" 3 "$(cat got)" '' ''
}
printf 'Script started on X [TERM="xterm" COLUMNS="120" LINES="40"]\nab' >noted.script
for command in "${reading[@]}"; do
    read -ra words <<<"$command"
    gone "${words[0]}" "${words[@]}" noted.script ab.timing
done
rm -f new.script new.timing
gone mend mend cut.script axb.timing new.script new.timing
holds 'nobody reads what was lost' new.script ''
absent 'nobody reads what was lost' new.script.part
rm -f new.script new.timing
gone import import ab.ttyrec new.script new.timing
holds 'nobody reads what was not imported' new.script ''
gone find find a ab.script ab.timing
gone help --help
gone version --version
"$program" --help >/dev/full 2>err.txt
got=$?
: >out.txt
verdict 'help into a full device' 3 $got '' "$unwritten"

# A file that may not be read.
cp "$program" own
chmod 755 . own
cp ab.script locked.script
chmod 0 locked.script
as_other=()
if [ "$(id -u)" = 0 ]; then as_other=(setpriv --reuid 65534 --regid 65534 --clear-groups); fi
"${as_other[@]}" ./own info locked.script ab.timing >out.txt 2>err.txt
verdict 'a file that may not be read' 3 $? '' "typetool: cannot open locked.script\n$(hint 'permission denied')"

# What comes from outside can't move a reader's cursor, turn a line around or forge one.
# named NAME PATH TOLD: a file of this path is missing, and its path is told so.
named() { check "$1" 3 '' "typetool: cannot open $3\n$(hint "$missing")" info "$2" ab.timing; }
named 'a name with ESC' $'no\e[2Jname' 'no?[2Jname'
named 'a name with LF' $'no\ntypetool: all is well' 'no?typetool: all is well'
named 'a name with CR and TAB' $'no\r\tname' 'no??name'
named 'a name with DEL' $'no\x7fname' 'no?name'
named 'a name with U+0080' $'no\xc2\x80name' 'no?name'
named 'a name with U+009B' $'no\xc2\x9b2Jname' 'no?2Jname'
named 'a name with U+00A0' $'no\xc2\xa0name' $'no\xc2\xa0name'
named 'a name with U+2027 and U+2028' $'no\xe2\x80\xa7\xe2\x80\xa8name' $'no\xe2\x80\xa7?name'
named 'a name with U+202E and U+202F' $'no\xe2\x80\xae\xe2\x80\xafname' $'no?\xe2\x80\xafname'
named 'a name with U+2065, U+2066, U+2069 and U+206A' $'\xe2\x81\xa5\xe2\x81\xa6\xe2\x81\xa9\xe2\x81\xaa' $'\xe2\x81\xa5??\xe2\x81\xaa'
named 'a name beyond ASCII' 'naïve 東京 🙂' 'naïve 東京 🙂'
check 'a name that is no UTF-8' 2 '' 'typetool: an argument is not UTF-8\n' info $'no\xffname' ab.timing
check 'a name of half a character' 2 '' 'typetool: an argument is not UTF-8\n' info $'no\xc3' ab.timing
"$program" save ab.script ab.timing $'there\e/new' new.timing </dev/null >out.txt 2>err.txt
verdict 'a name that can not be created' 3 $? '' "typetool: cannot create there?/new\n$(hint "$missing")"
mkdir $'a\e[7mfolder'
check 'a name in a hint' 3 '' "typetool: read fault\n$(hint 'reading a?[7mfolder')" info $'a\e[7mfolder' ab.timing
# quoted NAME WORD TOLD WORD..: what clap tells of a word quotes it so, in lines of its own.
quoted() {
    local name=$1 told=$2
    shift 2
    "$program" "$@" >out.txt 2>err.txt
    if [ $? = 2 ] && head -n 1 err.txt | grep -qF -- "'$told'" && ! LC_ALL=C grep -q $'[\x01-\x09\x0b-\x1f\x7f]' err.txt; then
        passed=$((passed + 1))
    else
        failed=$((failed + 1))
        echo "FAILED $name"
        cat -v err.txt
    fi
}
quoted 'a command with ESC' 'pl?[31may' $'pl\e[31may'
quoted 'a command with LF' 'pl?error: all is well' $'pl\nerror: all is well'
quoted 'a flag with U+009B' '--t?2Jo' due $'--t\xc2\x9b2Jo' 1
quoted 'a word too many with U+202E' '?word' info ab.script ab.timing $'\xe2\x80\xaeword'

# A note's parts are cut. What the header tells is ASCII there.
letters=$(printf 'x%.0s' $(seq 200))
printf 'Script started on X [TERM="%s"]\n' "$letters" >noted.script
check 'a long note is cut' 0 "$(screen_of '')" "typetool: note: term: recorded under ${letters:0:179}.. (see typetool check, or try --profile xterm)\n" \
    screen --at 0 noted.script empty.timing
printf 'Script started on X [TERM="%s"]\n' "${letters:0:162}" >noted.script
check 'a note of 200 characters' 0 "$(screen_of '')" \
    "typetool: note: term: recorded under ${letters:0:162}, played as vt100 (see typetool check, or try --profile xterm)\n" screen --at 0 noted.script empty.timing
printf 'Script started on X [TERM="%s"]\n' "${letters:0:163}" >noted.script
check 'a note of 201 characters' 0 "$(screen_of '')" \
    "typetool: note: term: recorded under ${letters:0:163}, played as vt10.. (see typetool check, or try --profile xterm)\n" screen --at 0 noted.script empty.timing
printf 'Script started on X [TERM="a%b[2Jb"]\n' "$E" >noted.script
check 'a header with ESC' 0 "$(screen_of '')" \
    'typetool: note: term: recorded under a?[2Jb, played as vt100 (see typetool check, or try --profile xterm)\n' screen --at 0 noted.script empty.timing

# 40 MiB in chunks of the greatest length, each of its own digits.
printf '%b' "$head" >long.script
for chunk in $(seq 10 49); do
    yes "$chunk" | tr -d '\n' | head -c 1048576 >>long.script
done
yes '0.5 1048576' | head -n 40 >long.timing
tail -n +2 long.script >want.bin
same 'a long recording' due --at 20 long.script long.timing
tail -n +2 long.script | head -c 7340032 >want.bin
same 'a part of a long recording' due --at 3.5 long.script long.timing
# The end of the last chunk fills the screen.
for _ in $(seq 24); do yes 49 | tr -d '\n' | head -c 80; echo; done >want.bin
same 'the screen of a long recording' screen --at 20 long.script long.timing

# 8 MiB that are answered by 53 MiB. Where there is room to read the pair and not to keep its replies, memory is refused to
# them alone.
printf "${E}[x%.0s" $(seq 349525) >asked.bin
{
    printf '%b' "$head"
    for chunk in $(seq 8); do cat asked.bin; done
} >asked.script
yes '0 1048575' | head -n 8 >asked.timing
{
    yes 1b5b323b313b313b3131323b3131323b313b3078 | head -n 2796200 | tr -d '\n'
    echo
} >want.bin
same 'many replies' reports --at 0 asked.script asked.timing
tail -n +2 asked.script >want.bin
printf '#!/bin/bash\nulimit -v 60000\nexec "%s" "$@"\n' "$program" >limited
chmod +x limited
whole=$program program=./limited
same 'a pair that memory is there for' due --at 0 asked.script asked.timing
check 'memory refused to replies' 3 '' 'typetool: out of memory\n' reports --at 0 asked.script asked.timing
program=$whole
rm long.script asked.script asked.bin want.bin

# The shipped recording, against a count of its timing file's bytes.
cp "$examples/tour.script" "$examples/tour.timing" .
for at in 0 1 2.5 7 100; do
    bytes=$(awk -v at=$at '{ due += $1; if (due <= at + 0.0000001) n += $2 } END { print n + 0 }' tour.timing)
    tail -n +2 tour.script | head -c "$bytes" >want.bin
    same "the tour at $at" due --at $at tour.script tour.timing
done
if cmp -s tour.script "$examples/tour.script" && cmp -s tour.timing "$examples/tour.timing"; then
    passed=$((passed + 1))
else
    failed=$((failed + 1))
    echo 'FAILED: the files changed'
fi

echo "$passed passed, $failed failed"
[ "$failed" = 0 ]
