#!/bin/sh
# synth.sh [--flat] [--names] TOP OUT.v FILE.v ..
#
# Makes a netlist that backspace reads out of Verilog files, with yosys (0.23 was tried). The modules stay as they are, unless
# --flat makes one of them. With --names, which makes one of them too, nets that the sources name keep their names. A file whose
# name ends in .sv is read as SystemVerilog. What has no meaning in such a netlist is refused by its names in the sources.
set -eu

flatten=
split='splitnets -ports'
keep=
release=
while :; do
    case ${1-} in
        --flat) ;;
        --names)
            keep='flatten
setattr -set keep 1 w:* w:$* %d'
            release='setattr -unset keep w:*
opt_clean'
            ;;
        *) break ;;
    esac
    flatten=-flatten
    split=
    shift
done
if [ $# -lt 3 ]; then
    echo "usage: synth.sh [--flat] [--names] TOP OUT.v FILE.v .." >&2
    exit 2
fi
top=$1
out=$2
shift 2

map=$(dirname "$0")/bs_map.v
work=$(mktemp -d)
trap 'rm -rf "$work"' EXIT

for file in "$@"; do
    case $file in
        *.sv) echo "read_verilog -sv \"$file\"" ;;
        *) echo "read_verilog \"$file\"" ;;
    esac
done > "$work/read"

# runs the script from standard input behind the reading of the files
run() {
    cat "$work/read" - > "$work/script"
    if ! yosys -q -l "$work/log" -s "$work/script" > /dev/null 2> "$work/errors"; then
        grep -h '^ERROR\|ERROR:' "$work/errors" | sort -u >&2
        exit 1
    fi
}

# refuses the names that a file lists, for this reason
refuse() {
    if [ -s "$work/$1" ]; then
        echo "synth.sh: $2:" >&2
        sed 's/^/  /' "$work/$1" >&2
        exit 1
    fi
}

# What the sources have, before anything is changed.
run << END
hierarchy -check -top $top
proc
flatten
tribuf
opt_clean
select -write $work/tristate t:\$tribuf %co1:+[Y] w:* %i
select -write $work/latch t:\$dlatch t:\$adlatch %u t:\$dlatchsr %u t:\$sr %u %co1:+[Q] w:* %i
select -write $work/two t:\$dffsr t:\$aldff %u %co1:+[Q] w:* %i
select -write $work/falling t:\$dff t:\$adff %u t:\$dffsr %u t:\$aldff %u r:CLK_POLARITY=1'0 %i %co1:+[Q] w:* %i
check
END
refuse tristate "driven with z at times, which backspace has no value for"
refuse latch "a latch"
refuse two "a flip-flop with an asynchronous load, or with both an asynchronous set and reset"
refuse falling "a flip-flop on the falling edge of its clock"
sed -n 's/^.*Wire \(.*\) is used but has no driver.*$/synth.sh: tied to 0, since nothing drives it: \1/p' "$work/log" | sort -u >&2

# The input ports to which an instance connects nothing, as yosys commands that connect them to 0.
run << END
hierarchy -check -top $top
proc
write_rtlil $work/modules
END
awk '
    function width() { return $2 == "width" ? $3 : 1 }
    $1 == "module" { module = $2 }
    $1 == "wire" && (/ input [0-9]/ || / inout [0-9]/) && FNR == NR { inputs[module] = inputs[module] " " $NF; size[module, $NF] = width() }
    FNR == NR { next }
    $1 == "cell" { kind = $2; name = $3; split("", given) }
    $1 == "connect" && !($3 == "{" && $4 == "}") { given[$2] = 1 }
    $1 == "end" && kind != "" {
        count = split(inputs[kind], ports, " ")
        for (i = 1; i <= count; i++)
            if (!(ports[i] in given)) {
                zeros = sprintf("%0" size[kind, ports[i]] "d", 0)
                printf "cd %s\nconnect -port %s %s %d'"'"'b%s\ncd\n", module, name, ports[i], size[kind, ports[i]], zeros
            }
        kind = ""
    }
' "$work/modules" "$work/modules" > "$work/ties"

# The steps:
#   synth -nordff -nofsm        gates and flip-flops: memories become flip-flops, a state machine keeps its register
#   dffunmap, dfflegalize       all flip-flops on the rising edge, with their initial value; enables and synchronous resets stay
#                               in them as dffe and dffr (one with both keeps its reset), synchronous sets become gates
#   abc -g ..                   only gates that Verilog has as primitives
#   setundef -undriven -zero    a net without a driver would be refused as Undriven
#   insbuf -buf bs_obuf A Y     an output that is a flip-flop's net or an input gets its own buf, so the register keeps its name
#   techmap -map bs_map.v       yosys's cells become primitives, dff, and dffs where they begin at 1
#   splitnets -ports            without --flat: vectors joined by concatenations are not read
echo 'module bs_obuf (input A, output Y); endmodule' > "$work/buffer.v"
run << END
hierarchy -check -top $top
proc
script $work/ties
$keep
memory -nordff
setundef -undriven -zero
synth -nordff -nofsm $flatten -top $top
dffunmap -srst-only t:\$_SDFF*1*
dfflegalize -cell \$_DFF_P_ 01 -cell \$_DFFE_PP_ 0 -cell \$_SDFF_PP0_ 0 -cell \$_DFF_P??_ 01
abc -g AND,OR,XOR,NAND,NOR,XNOR
$release
setundef -undriven -zero
splitnets w:\$*
opt_clean
read_verilog -lib $work/buffer.v
insbuf -buf bs_obuf A Y
opt_clean -purge
techmap -map $map
delete =bs_obuf
opt_clean
$split
write_verilog -noattr $work/netlist
END
# yosys writes the name of a primitive as an escaped one, which is no keyword
sed 's/\\\(and\|nand\|or\|nor\|xor\|xnor\|not\|buf\) /\1 /' "$work/netlist" > "$out"
