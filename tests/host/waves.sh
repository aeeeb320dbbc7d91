#!/usr/bin/env bash
# Runs the demo, checks its waveform file and, where sigrok-cli is installed, decodes it: the bytes on the wires have to
# be those that the demo says it sent.
set -eu
cd "$(dirname "$0")/../.."
bash examples/build.sh
vcd=target/demo.vcd sent=target/demo.sent
target/rig --sent $vcd >$sent || { cat $sent; echo "waves: the demo did not see what it has to see"; exit 1; }

# Every signal is declared once, in its scope, and has a level at time 0; times rise; only declared signals change, and
# to 0 or 1.
awk -v wanted="doorbell.TXD chime.RXD chime.REPLY_TXD chime.SCK chime.MOSI chime.MISO chime.SS" '
    function bad(why) { print "waves: " FILENAME ":" FNR ": " why; failed = 1; exit 1 }
    $1 == "$scope" { scope = $3 }
    $1 == "$var" { if ($2 != "wire" || $3 != 1 || $4 in name) bad("declaration"); name[$4] = scope "." $5; count[scope "." $5]++ }
    /^#/ { time = substr($1, 2) + 0; if (times++ ? time <= last : time != 0) bad("time"); last = time }
    /^[^$#]/ { if ($0 !~ /^[01][!-~]$/ || !(substr($0, 2) in name)) bad("level"); if (time == 0) first[substr($0, 2)]++; else changes++ }
    END {
        if (failed) exit 1
        number = split(wanted, list, " ")
        for (i = 1; i <= number; i++) if (count[list[i]] != 1) bad(list[i] " is not declared once")
        for (code in name) { declared++; if (first[code] != 1) bad(name[code] " has no level at time 0") }
        if (declared != number) bad("a signal that is not expected")
        printf "waves: %d signals, %d changes in %.1f us, times rise\n", declared, changes, last / 1000
    }' $vcd

if ! command -v sigrok-cli >/dev/null; then
    echo "waves: sigrok-cli is not installed, the demo's waveforms were not decoded"
    exit 0
fi

# sigrok 0.5 leaves the scope out of a channel's name; a later one may put it before.
channels=$(sigrok-cli -I vcd -i $vcd --show | sed -n 's/^- \(.*\): logic$/\1/p')
channel() { grep -E "^(.*[./])?$1\$" <<<"$channels"; }
decode() { sigrok-cli -I vcd -i $vcd -P "$1" -A "$2" | sed 's/^[^:]*: //'; }
# The bytes of the lines that begin with this word, one to a line.
sent_bytes() { sed -n "s/^$1 //p" $sent | tr ' ' '\n'; }
compare() {
    [ -s "$2" ] || { echo "waves: $1: the demo sent nothing"; exit 1; }
    diff "$2" "$3" >target/waves.diff || { echo "waves: $1: sent (<), decoded (>):"; cat target/waves.diff; exit 1; }
}

uart="uart:rx=$(channel TXD):tx=$(channel REPLY_TXD):baudrate=$(sed -n 's/^baud //p' $sent)"
spi="spi:clk=$(channel SCK):mosi=$(channel MOSI):miso=$(channel MISO):cs=$(channel SS):cpol=0:cpha=0:bitorder=msb-first"
sent_bytes line >target/waves.line
sent_bytes reply >target/waves.reply
decode "$uart" uart=rx-data:rx-warnings >target/waves.line.decoded
decode "$uart" uart=tx-data:tx-warnings >target/waves.reply.decoded
compare "doorbell TXD" target/waves.line target/waves.line.decoded
compare "chime REPLY_TXD" target/waves.reply target/waves.reply.decoded

# A line for each time that SS is low: the bytes on MOSI, a tab, those on MISO.
paste <(decode "$spi" spi=mosi-transfer) <(decode "$spi" spi=miso-transfer) >target/waves.spi
sed -n 's/^program //p' $sent >target/waves.program
sed -n 's/^read //p' $sent >target/waves.read
sed -n 's/^\(02 [^\t]*\)\t.*/\1/p' target/waves.spi >target/waves.program.decoded
sed -n 's/^03 [^\t]*\t.. .. .. .. //p' target/waves.spi >target/waves.read.decoded
compare "flash page program on MOSI" target/waves.program target/waves.program.decoded
compare "flash read on MISO" target/waves.read target/waves.read.decoded
echo "waves: sigrok-cli decodes $(wc -l <target/waves.line) bytes on the line, $(wc -l <target/waves.reply) replies," \
    "$(wc -l <target/waves.program) page programs, $(wc -l <target/waves.read) flash read: as sent"
