# Read by the scripts beside it: a large netlist with each primitive, in groups.

# The cells of a group: one for each name of a primitive.
cells='number std_const 16 7
wire std_wire 16
add std_add 16
sub std_sub 16
and std_and 16
or std_or 16
xor std_xor 16
not std_not 16
eq std_eq 16
neq std_neq 16
lt std_lt 16
gt std_gt 16
le std_le 16
ge std_ge 16
lsh std_lsh 16
rsh std_rsh 16
low std_slice 16 4
pad std_pad 4 16
mux fil_mux 16
part fil_slice 16 11 4
join fil_concat 8 8
reg std_reg 16
mem std_mem_d1 16 16 4
table comb_mem_d1 16 12 4
grid std_mem_d2 16 4 4 4 4
field comb_mem_d2 16 3 5 4 4
mult std_mult_pipe 16
delay fil_delay 16
fast fil_fast_mult 16
seq fil_seq_mult 16'

# $1 groups of these 30 cells and of 90 assignments; all assignments are guarded where $2 is 1, and else most.
# A group reads four wires of the one before: the numbers v and x, the bits c and d.
# Of two assignments of one port, exactly one has a guard that is true, so there is no Conflict.
groups() {
    CELLS=$cells awk -v groups="$1" -v all="$2" '
        # The guard with this number, of eight forms.
        function guard(i) {
            i %= 8
            if (i == 0) return c
            if (i == 1) return "(" v " == " x ")"
            if (i == 2) return "(" v " != " x ")"
            if (i == 3) return "(" v " < " x ")"
            if (i == 4) return "(" v " > " x ")"
            if (i == 5) return "((" v " <= " x ") & " c ")"
            if (i == 6) return "((" v " >= " x ") | " c " | !" d ")"
            return "(!" c " & !(" v " < " x ") & 1\047d1)"
        }
        function set(port, source) {
            turn++
            print "set " g port " = " (all ? guard(turn) " ? " : "") source
        }
        function always(port, source) { print "set " port " = " (all ? "(" c " | !" c ") ? " : "") source }
        function either(port, one, other) {
            turn++
            print "set " g port " = " guard(turn) " ? " one
            print "set " g port " = !" guard(turn) " ? " other
        }
        function reckon(name) { either(name ".left", v, "16\047d" k + 1); always(g name ".right", g "reg.out") }
        function compare(name) { either(name ".left", v, x); either(name ".right", x, "16\047d" k % 100) }
        function shift(name, places) { either(name ".left", v, x); set(name ".right", places) }
        function multiply(name) { either(name ".left", v, x); set(name ".right", g "reg.out") }
        function memory(name, data) {
            set(name ".addr0", g "low.out")
            set(name ".write_data", data)
            set(name ".write_en", g "neq.out")
        }
        function arithmetic() {
            reckon("add"); reckon("sub"); reckon("and"); reckon("or"); reckon("xor")
            compare("eq"); compare("neq"); compare("lt"); compare("gt"); compare("le"); compare("ge")
            shift("lsh", "16\047d3"); shift("rsh", g "pad.out")
            set("not.in", v); set("low.in", g "reg.out"); set("pad.in", g "low.out"); set("part.in", v)
            set("join.high", g "part.out"); set("join.low", "8\047d3")
            set("mux.sel", g "lt.out"); either("mux.tru", v, g "add.out"); set("mux.fal", g "not.out")
            set("wire.in", g "mux.out")
        }
        function states() {
            either("reg.in", g "add.out", g "sub.out"); always(g "reg.write_en", "1\047d1")
            either("delay.in", v, g "fast.out")
            memory("mem", v); memory("table", g "add.out"); memory("grid", g "xor.out"); memory("field", x)
            set("grid.addr1", g "low.out"); set("field.addr1", g "low.out")
            set("mult.go", "1\047d1"); set("seq.go", g "reg.done")
            multiply("mult"); multiply("fast"); multiply("seq")
        }
        function wires() {
            always("v" k, g "wire.out"); always("x" k, g "reg.out")
            always("c" k, g "lt.out"); always("d" k, g "eq.out")
        }
        BEGIN {
            print "net groups\nin a 16\nin go 1\nout q 16"
            for (k = 0; k < groups; k++) print "wire v" k " 16\nwire x" k " 16\nwire c" k " 1\nwire d" k " 1"
            count = split(ENVIRON["CELLS"], cells, "\n")
            for (k = 0; k < groups; k++) for (i = 1; i <= count; i++) print "cell g" k "." cells[i]
            v = "a"; x = "16\047d5"; c = "go"; d = "1\047d1"
            for (k = 0; k < groups; k++) {
                g = "g" k "."
                arithmetic(); states(); wires()
                v = "v" k; x = "x" k; c = "c" k; d = "d" k
            }
            always("q", x)
            print "end"
        }'
}
