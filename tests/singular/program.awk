# Turns test vectors (the head of tests/vectors.txt says how they read) into a Singular program that prints the right side
# of each line: awk -v definition=definition.sing -f program.awk FILE | Singular -q
BEGIN { printf "< \"%s\";\n", definition }

# A record KIND:n,n,... as an intvec.
function record(part) {
    sub(/:$/, "", part)
    gsub(/[:]/, ",", part)
    return "intvec(" part ")"
}

# The records of an argument, as a list.
function records(text,    parts, count, i, j, times, out) {
    count = text == "-" ? 0 : split(text, parts, "+")
    out = ""
    for (i = 1; i <= count; i++) {
        times = index(parts[i], "*") ? parts[i] + 0 : 1
        sub(/^[0-9]*\*/, "", parts[i])
        for (j = 0; j < times; j++)
            out = out (out == "" ? "" : ",") record(parts[i])
    }
    return "list(" out ")"
}

# The ring of a curve 34:p,c0,...,c8, unless it is the last one.
function ring(curve,    n) {
    if (curve == last)
        return
    last = curve
    split(curve, n, /[:,]/)
    print "if (defined(Q)) { kill Q; } if (defined(R)) { kill R; }"
    printf "ring R = %s,(y,x),wp(4,3);\n", n[2]
    printf "qring Q = std(ideal(y^3+x^4+%s*x*y^2+%s*x^2*y+%s*x^3+%s*y^2+%s*x*y+%s*x^2+%s*y+%s*x+%s));\n",
        n[11], n[10], n[9], n[8], n[7], n[6], n[5], n[4], n[3]
}

/^#/ || NF == 0 { next }

{
    sub(/ = .*/, "")
    for (i = 2; i <= NF; i++)
        argument[i] = $i == "\"" ? argument[i] : $i
    a = argument[3]
    b = argument[4]
    if ($1 != "curve")
        ring(argument[2])
}

$1 == "curve" {
    split(argument[2], n, /[:,]/)
    c = n[3]
    for (i = 4; i <= 11; i++)
        c = c "," n[i]
    printf "curve_text(bigint(%s), intvec(%s));\n", n[2], c
}
$1 == "divisor" { printf "divisor_text(%s);\n", record(a) }
$1 == "sum" || $1 == "road" { printf "record_text(reduced(product(%s)));\n", records(a "+" b) }
$1 == "double" { printf "record_text(reduced(product(%s)));\n", records(a "+" a) }
$1 == "neg" { printf "record_text(star(ideal_of(%s)));\n", record(a) }
$1 == "mul" { printf "record_text(multiple(%s, bigint(%s)));\n", record(a), b }
$1 == "lsum" { printf "record_text(reduced(product(%s)));\n", records(a) }
$1 == "negsum" { printf "record_text(star(product(%s)));\n", records(a) }
$1 == "gcd" { printf "record_text(ideal_of(%s) + ideal_of(%s));\n", record(a), record(b) }
$1 == "lcm" { printf "record_text(reduced(intersect(ideal_of(%s), ideal_of(%s))));\n", record(a), record(b) }
