"""Texts of any size, for sizes.py. Each function gives the files of a size, by their names."""

SUM = "net sum\nin a 8\nout q 8\nset q = a\nend\n"
MAC = """comp Mac<G: 1>(@interface[G] go: 1, @[G, G+1] a: 8, @[G, G+1] b: 8, @[G, G+1] c: 8) -> (@[G+2, G+3] out: 8) {
  M := new FastMult[8]; First := new Delay[8]; Second := new Delay[8]; A := new Add[8];
  p := M<G>(a, b); c1 := First<G>(c); c2 := Second<G+1>(c1.out); s := A<G+2>(p.out, c2.out);
  out = s.out;
}
"""
COUNTER = "net counter\nout q 8\ncell r std_reg 8\ncell a std_add 8\nset a.left = r.out\nset a.right = 8'd1\nset r.in = a.out\n" \
    "set r.write_en = 1'd1\nset q = r.out\nend\n"
ONCE = '{"version":1,"cycles":1,"inputs":[]}'


def netlist(lines, head="net n\nin a 1\nout q 1\n"):
    return head + "".join(f"{line}\n" for line in lines) + "end\n"


def guarded(guard):
    return {"f.net": netlist([f"set q = {guard} ? 1'd1"]), "s.json": ONCE}


# Netlists.


def bytes_of_netlist(size):
    """Wires with long names, each driven from the one before under a guard; the netlist's name takes up what is left."""
    name = "pipeline.stage.w{:06}".format
    count = size // 98
    lines = [f"wire {name(i)} 1" for i in range(count)] + [f"set {name(0)} = a"]
    lines += [f"set {name(i)} = (a != 1'd0) ? {name(i - 1)}" for i in range(1, count)]
    body = netlist(lines + [f"set q = {name(count - 1)}"], "\nin a 1\nout q 1\n")
    return {"f.net": "net " + "n" * (size - 4 - len(body)) + body, "s.json": ONCE}


def nots(size):
    return guarded("!" * size + "a")


def brackets(size):
    guard = "a"
    for depth in range(size):
        guard = f"({guard} {'&|'[depth % 2]} a)"
    return guarded(guard)


def bottomless(size):
    """So many guards some 32,000 nodes deep: at each depth of brackets the longest run of `!` that the limit of nesting lets stand."""
    guard = "a"
    for depth in range(256, 0, -1):
        guard = f"(a & {'!' * (256 - depth)}{guard})"
    return {"f.net": netlist([f"set q = {guard} ? 1'd1"] * size), "s.json": ONCE}


def long_list(weight):
    return guarded("(" + " & ".join(["a"] * (weight - 2)) + ")")


def many_sets(weight):
    return {"f.net": netlist(["set q = a"] * weight), "s.json": ONCE}


def long_loop(size):
    lines = [f"wire w{i:06} 1" for i in range(size)] + [f"set w{i:06} = w{(i + 1) % size:06}" for i in range(size)]
    return {"f.net": netlist(lines)}


def sizes_of_memories(words):
    return [65536] * (words // 65536) + [words % 65536] * (words % 65536 > 0)


def loops(size):
    """Pairs of wires that read one another, and before them, by name, wires that read the first pair and lie on no loop."""
    lines = [f"wire {side}{i:06} 1" for i in range(size) for side in "abc"]
    for i in range(size):
        lines += [f"set a{i:06} = b000000", f"set b{i:06} = c{i:06}", f"set c{i:06} = b{i:06}"]
    return {"f.net": netlist(lines)}


def number(digits):
    return {"f.net": netlist([f"set q = 1'd{'1' * digits}"])}


def memories(words):
    return {"f.net": netlist([f"ext m{i} std_mem_d1 1 {size} 16" for i, size in enumerate(sizes_of_memories(words))]), "s.json": ONCE}


# Stimuli of netlists.


def stimulus(text):
    return {"f.net": SUM, "s.json": text}


def cycles(count):
    return stimulus(f'{{"version":1,"cycles":{count},"inputs":[]}}')


def entries(count):
    inputs = ",".join(f'{{"from":{i},"set":{{"a":{i % 256}}}}}' for i in range(count))
    return stimulus(f'{{"version":1,"cycles":9,"inputs":[{inputs}]}}')


def bytes_of_stimulus(size):
    text = '{"version":1,"cycles":1,"inputs":[]'
    return stimulus(text + " " * (size - len(text) - 1) + "}")


def lists(depth):
    return stimulus("[" * depth + "]" * depth)


def keys(count):
    return stimulus("{" + ",".join(f'"k{i}":{i}' for i in range(count)) + "}")


def same_keys(count):
    return stimulus('{"version":1,"cycles":1,"inputs":[' + ",".join(['{"from":0,"from":1,"set":{}}'] * count) + "]}")


def digits(count):
    return stimulus(f'{{"version":1,"cycles":{"1" * count},"inputs":[]}}')


def wide_value(count):
    value = "9" * count
    return stimulus(f'{{"version":2,"cycles":1,"inputs":[{{"from":0,"set":{{"a":"{value}"}}}}]}}')


# Filament.


def fil(text, transactions=""):
    return {"f.fil": text, "s.json": f'{{"version":2,"transactions":[{transactions}]}}'}


def started(start, more=""):
    return fil(MAC, f'{{"start":{start},"inputs":{{"a":2,"b":3,"c":1}}{more}}}')


def rows_of_mac(count):
    return started(count - 3)


def repeated(count):
    return started(0, f',"repeat":{{"times":{count},"every":1}}')


def one_by_one(count):
    return fil(MAC, ",".join(f'{{"start":{i},"inputs":{{"a":2,"b":3,"c":1}}}}' for i in range(count)))


def bytes_of_transactions(size):
    text = '{"version":1,"transactions":[]'
    return fil(MAC) | {"s.json": text + " " * (size - len(text) - 1) + "}"}


def far(digits):
    return fil(f"comp A<G: {'9' * digits}>() -> () {{ }}")


def padded(text, size):
    return text + "/*" + "x" * (size - len(text) - 4) + "*/"


def bytes_of_fil(size):
    parts = [f"comp c{i}<G: 1>(@[G, G+1] a: 8) -> (@[G, G+1] o: 8) {{ n := new Not[8]<G>(a); o = n.out; }}\n" for i in range(size // 100)]
    return fil(padded("".join(parts), size))


def fil_brackets(depth):
    return fil("(" * depth)


def delay(size):
    return fil(f"comp A<G: {size}>() -> () {{ }}")


def offset(size):
    return fil(f"comp A<G: 4096>(@interface[G] go: 1) -> () {{ X := new Not[1]; x := X<G+{size}>(1'd0); }}")


def events(count):
    return fil("comp A<" + ", ".join(f"E{i}: 1" for i in range(count)) + ">() -> () { }")


def fil_weight(weight):
    """9,999 instances of a component that weighs 99, and statements, which weigh 1 each."""
    part = "comp Part<G: 98>() -> () { X := new Not[1]; x := X<G+94>(1'd0); }\n"
    lines = [f"x{i} := new Part;" for i in range(9999)] + [f"n{i} := new Not[1];" for i in range(weight - 999_901)]
    return fil(part + "comp main<G: 98>() -> () {\n" + "\n".join(lines) + "\n}\n")


def fil_chain(depth, times=1):
    """Components, each with so many instances of the one before."""
    parts = ["comp c0<G: 1>(@[G, G+1] a: 1) -> (@[G, G+1] o: 1) { n := new Not[1]<G>(a); o = n.out; }\n"]
    for i in range(1, depth + 1):
        inner = "".join(f"x{t} := new c{i - 1}<G>(a); " for t in range(times))
        parts.append(f"comp c{i}<G: 1>(@[G, G+1] a: 1) -> (@[G, G+1] o: 1) {{ {inner}o = x0.o; }}\n")
    return fil("".join(parts), '{"start":0,"inputs":{"a":1}}')


def fil_doubling(depth):
    return fil_chain(depth, 2)


def fil_ports(count):
    """A component with so many inputs, all of which are given, and so many outputs."""
    ins = ", ".join(f"@[G, G+1] a{i}: 1" for i in range(count))
    outs = ", ".join(f"@[G, G+1] o{i}: 1" for i in range(count))
    sets = "".join(f"o{i} = a{i};\n" for i in range(count))
    use = f"comp main<G: 1>(@[G, G+1] a: 1) -> () {{ w := new Wide<G>({', '.join(['a'] * count)}); }}\n"
    return fil(f"comp Wide<G: 1>({ins}) -> ({outs}) {{\n{sets}}}\n{use}")


def shared(depth):
    """Components, each of which uses its one instance of the one before twice: 2^depth uses of the innermost."""
    parts = ["comp c0<G: 1>(@interface[G] go: 1) -> () { n := new Not[1]<G>(1'd0); }\n"]
    for i in range(1, depth + 1):
        uses = f"X := new c{i - 1}; x := X<G>(); y := X<G+{2 ** (i - 1)}>();"
        parts.append(f"comp c{i}<G: {2**i}>(@interface[G] go: 1) -> () {{ {uses} }}\n")
    return fil("".join(parts), '{"start":0,"inputs":{}}')


def one_instance(count):
    """So many invocations of one instance, each in a row of its own."""
    uses = "".join(f"x{i} := X<G+{i}>(1'd0);\n" for i in range(count))
    return fil(f"comp A<G: 4096>(@interface[G] go: 1) -> () {{ X := new Not[1];\n{uses}}}\n")


# Calyx.


def cal(text):
    return {"f.futil": text, "s.json": '{"version":1,"cycles":1,"inputs":[]}'}


def cal_cycles(count):
    """A loop without an end."""
    wires = "group g { r.in = 1'd1; r.write_en = 1'd1; g[done] = r.done; } q = r.out;"
    text = component("r = std_reg(1);", wires, "while go { g; }", face="() -> (q: 1)")
    return {"f.futil": text, "s.json": f'{{"version":1,"cycles":{count},"inputs":[{{"from":0,"set":{{"go":1}}}}]}}'}


def component(cells="", wires="", control=None, name="main", face="() -> ()"):
    end = "" if control is None else f" control {{ {control} }}"
    return f"component {name}{face} {{ cells {{ {cells} }} wires {{ {wires} }}{end} }}\n"


def bytes_of_cal(size):
    parts = [component(f"n = std_not({1 + i % 64});", name=f"c{i}") for i in range(size // 70)]
    return cal(padded("".join(parts), size))


def cal_parentheses(depth):
    """A guard whose parentheses stand so deep, counted with the two brackets round them."""
    return cal(component(wires=f"o = {'(' * (depth - 2)}1'd1{')' * (depth - 2)} ? 1'd1;", face="() -> (o: 1)"))


def cal_nots(depth):
    return cal(component(wires=f"o = {'!' * (depth - 2)}1'd1 ? 1'd1;", face="() -> (o: 1)"))


def cal_control(depth):
    inner = "".join(f"{('seq', 'par', 'while a', 'if a')[i % 4]} {{ g; " for i in range(depth - 2))
    wires = "group g { r.in = a; r.write_en = 1'd1; g[done] = r.done; }"
    return cal(component("r = std_reg(1);", wires, inner + "} " * (depth - 2), face="(a: 1) -> ()"))


def cal_chain(depth, times=1):
    parts = [component("n = std_not(1);", name="c0")]
    parts += [component(" ".join(f"x{t} = c{i - 1}();" for t in range(times)), name=f"c{i}") for i in range(1, depth + 1)]
    return cal("".join(parts))


def cal_doubling(depth):
    return cal_chain(depth, 2)


def cal_weight(weight):
    """Components that double, four of them in the last, and registers, which weigh 1 each."""
    parts = [component(name="k0")]
    parts += [component(f"a = k{i - 1}(); b = k{i - 1}();", name=f"k{i}") for i in range(1, 18)]
    cells = "".join(f"p{i} = k{i}(); " for i in (17, 16, 15, 14)) + "".join(f"r{i} = std_reg(1);\n" for i in range(weight - 983_033))
    return cal("".join(parts) + component(cells))


def cal_memories(words):
    return cal(component("".join(f"@external m{i} = std_mem_d1(1, {size}, 16);\n" for i, size in enumerate(sizes_of_memories(words)))))


def enables(count):
    wires = "group g { r.in = 1'd1; r.write_en = 1'd1; g[done] = r.done; }"
    return cal(component("r = std_reg(1);", wires, "seq { " + "g;" * count + " }"))


def together(count):
    cells = "".join(f"r{i} = std_reg(1);\n" for i in range(count))
    wires = "".join(f"group g{i} {{ r{i}.in = 1'd1; r{i}.write_en = 1'd1; g{i}[done] = r{i}.done; }}\n" for i in range(count))
    return cal(component(cells, wires, "par { " + "".join(f"g{i};\n" for i in range(count)) + "}"))


def cal_loop(size):
    cells = "".join(f"w{i:05} = std_wire(1);\n" for i in range(size))
    return cal(component(cells, "".join(f"w{i:05}.in = w{(i + 1) % size:05}.out;\n" for i in range(size))))


def cal_many_nots(count):
    return cal(component(wires="".join(f"o = {'!' * 62}1'd1 ? 1'd1;\n" for _ in range(count)), face="() -> (o: 1)"))


# Components of which the outputs read the inputs.


def wide_cal(count):
    """A component with so many inputs and outputs, of which each output reads each input."""
    ins, outs = (", ".join(f"{side}{i}: 1" for i in range(count)) for side in "ao")
    wires = f"w.in = {' | '.join(f'a{i}' for i in range(count))} ? 1'd1;\n" + "".join(f"o{i} = w.out;\n" for i in range(count))
    return component("w = std_wire(1);", wires, name="wide", face=f"({ins}) -> ({outs})")


def cal_reach(count):
    return cal(wide_cal(count) + component("x = wide();"))


def cal_reach_loop(count):
    """A cell of it whose last output is its first input."""
    return cal(wide_cal(count) + component("x = wide();", f"x.a0 = x.o{count - 1};"))


def cal_reach_cells(count):
    """As many cells of it as it has inputs."""
    return cal(wide_cal(count) + component("".join(f"x{i} = wide();\n" for i in range(count))))


def wide_fil(count):
    """A component with so many inputs and outputs, of which each output is the sum of the inputs up to it."""
    ins, outs = (", ".join(f"@[G, G+1] {side}{i}: 1" for i in range(count)) for side in "ao")
    body = "s0 := new Not[1]<G>(a0);\n" + "".join(f"s{i} := new Or[1]<G>(s{i - 1}.out, a{i});\n" for i in range(1, count))
    body += "".join(f"o{i} = s{i}.out;\n" for i in range(count))
    return f"comp Wide<G: 1>(@interface[G] go: 1, {ins}) -> ({outs}) {{\n{body}}}\n"


def fil_reach(count):
    """An instance of it."""
    use = f"w := new Wide<G>({', '.join(['a'] * count)});"
    return fil(f"{wide_fil(count)}comp main<G: 1>(@interface[G] go: 1, @[G, G+1] a: 1) -> () {{ {use} }}\n")


def fil_reach_loop(count):
    """An instance of it and one of Not: each is given what the other makes, in two cycles."""
    use = f"W := new Wide; N := new Not[1]; n := N<G>(a); w := W<G>({', '.join(['n.out'] + ['a'] * (count - 1))}); "
    use += f"later := W<G+1>({', '.join(['a'] * count)}); back := N<G+1>(later.o{count - 1});"
    return fil(f"{wide_fil(count)}comp main<G: 2>(@interface[G] go: 1, @[G, G+2] a: 1) -> () {{ {use} }}\n")


def cal_long_parts_loop(count, idle=0):
    """So many cells, one behind another, of a component of as many wires between its input and its output, beside a loop. Other
    inputs of the component are idle."""
    wires = "".join(f"w{i}.in = {f'w{i - 1}.out' if i else 'a'};\n" for i in range(count)) + f"o = w{count - 1}.out;\n"
    idle_ports = "".join(f", b{i}: 1" for i in range(idle))
    long = component("".join(f"w{i} = std_wire(1);\n" for i in range(count)), wires, name="long", face=f"(a: 1{idle_ports}) -> (o: 1)")
    cells = "l = std_wire(1);\n" + "".join(f"x{i} = long();\n" for i in range(count))
    return cal(long + component(cells, "l.in = l.out;\n" + "".join(f"x{i}.a = x{i - 1}.o;\n" for i in range(1, count))))


def cal_idle_ports_loop(count):
    """The same where the component has more ports than its text names."""
    return cal_long_parts_loop(count, 3 * count)


def fil_long_parts_loop(count):
    """So many instances, one behind another, of a component of as many between its input and its output, beside a loop."""
    long = "comp Long<G: 1>(@interface[G] go: 1, @[G, G+1] a: 1) -> (@[G, G+1] o: 1) {\n"
    long += "".join(f"s{i} := new Not[1]<G>({f's{i - 1}.out' if i else 'a'});\n" for i in range(count)) + f"o = s{count - 1}.out;\n}}\n"
    use = "M := new Not[1]; N := new Not[1]; n := N<G>(a); m := M<G>(n.out); later := M<G+1>(a); back := N<G+1>(later.out);\n"
    use += "".join(f"x{i} := new Long<G>({f'x{i - 1}.o' if i else 'a'});\n" for i in range(count))
    return fil(f"{long}comp main<G: 2>(@interface[G] go: 1, @[G, G+2] a: 1) -> () {{ {use} }}\n")


def cal_wide_parts_loop(count):
    """So many cells, one behind another, of a component with as many inputs and outputs, each read by another output, beside a loop."""
    cells = "l = std_wire(1);\n" + "".join(f"x{i} = wide();\n" for i in range(count))
    return cal(wide_cal(count) + component(cells, "l.in = l.out;\n" + "".join(f"x{i}.a0 = x{i - 1}.o{i - 1};\n" for i in range(1, count))))


def cal_wide_holders_loop(count):
    """So many components with a cell each of a component with as many inputs and outputs, before one with a loop."""
    holders = "".join(component("x = wide();", f"x.a0 = a; o = x.o{i};", name=f"h{i}", face="(a: 1) -> (o: 1)") for i in range(count))
    cells = "".join(f"y{i} = h{i}();\n" for i in range(count))
    return cal(wide_cal(count) + holders + component(f"l = std_wire(1);\n{cells}", "l.in = l.out;\n"))


def fil_wide_holders_loop(count):
    """So many components with an instance each of a component with as many outputs, before one with a loop."""
    outs = ", ".join(f"@[G, G+1] o{i}: 1" for i in range(count))
    wide = f"comp Wide<G: 1>(@interface[G] go: 1, @[G, G+1] a: 1) -> ({outs}) {{\nn := new Not[1]<G>(a);\n" + "".join(f"o{i} = n.out;\n" for i in range(count)) + "}\n"
    face = "(@interface[G] go: 1, @[G, G+1] a: 1) -> (@[G, G+1] o: 1)"
    holders = "".join(f"comp h{i}<G: 1>{face} {{ x := new Wide<G>(a); o = x.o{i}; }}\n" for i in range(count))
    use = "M := new Not[1]; N := new Not[1]; m := M<G>(a); n := N<G>(m.out); later := N<G+1>(a); back := M<G+1>(later.out);"
    return fil(f"{wide}{holders}comp main<G: 2>(@interface[G] go: 1, @[G, G+2] a: 1) -> () {{ {use} }}\n")


def lead(count):
    """A component that leads so many inputs to as many outputs."""
    ins, outs = (", ".join(f"{side}{i}: 1" for i in range(count)) for side in "ao")
    return component(wires="".join(f"o{i} = a{i};\n" for i in range(count)), name="lead", face=f"({ins}) -> ({outs})")


def long_names(count):
    """A cell of it with a name as long as the text of its component."""
    return cal(lead(count) + component("x" * len(lead(count)) + " = lead();"))


def long_name_loop(count):
    """The same beside a loop, for which ports are put in the order of their full names."""
    return cal(lead(count) + component("w = std_wire(1); " + "x" * len(lead(count)) + " = lead();", "w.in = w.out;"))


def fil_long_names(count):
    ins, outs = (", ".join(f"@[G, G+1] {side}{i}: 1" for i in range(count)) for side in "ao")
    lead = f"comp Lead<G: 1>({ins}) -> ({outs}) {{\n" + "".join(f"o{i} = a{i};\n" for i in range(count)) + "}\n"
    return fil(lead + f"comp main<G: 1>() -> () {{ {'x' * len(lead)} := new Lead; }}\n")


def fil_long_name_loop(count):
    """An instance of a component with so many ports, whose name is as long as that component's text, beside a loop."""
    ins, outs = (", ".join(f"@[G, G+1] {side}{i}: 1" for i in range(count)) for side in "ao")
    lead = f"comp Lead<G: 1>(@interface[G] go: 1, {ins}) -> ({outs}) {{\n" + "".join(f"o{i} = a{i};\n" for i in range(count)) + "}\n"
    name = "x" * len(lead)
    use = f"M := new Not[1]; N := new Not[1]; n := N<G>(a); m := M<G>(n.out); later := M<G+1>(a); back := N<G+1>(later.out); "
    use += f"{name} := new Lead; l := {name}<G>({', '.join(['a'] * count)});"
    return fil(f"{lead}comp main<G: 2>(@interface[G] go: 1, @[G, G+2] a: 1) -> () {{ {use} }}\n")


def many_cells(count):
    """So many cells of a component with as many outputs, which depend on nothing."""
    outs = ", ".join(f"o{i}: 1" for i in range(count))
    wide = component(wires="".join(f"o{i} = 1'd1;\n" for i in range(count)), name="wide", face=f"() -> ({outs})")
    return cal(wide + component("".join(f"x{i} = wide();\n" for i in range(count))))


def many_instances(count):
    outs = ", ".join(f"@[G, G+1] o{i}: 1" for i in range(count))
    wide = f"comp Wide<G: 1>() -> ({outs}) {{\n" + "".join(f"o{i} = 1'd1;\n" for i in range(count)) + "}\n"
    return fil(wide + "comp main<G: 1>() -> () {\n" + "".join(f"x{i} := new Wide;\n" for i in range(count)) + "}\n")


# Names whose hashes meet.

MEETING = []


def meeting_wires(count):
    return {"f.net": netlist(f"wire {name} 1" for name in MEETING[:count])}


def meeting_instances(count):
    return fil("comp A<G: 1>() -> () {\n" + "".join(f"{name} := new Not[1];\n" for name in MEETING[:count]) + "}\n")
