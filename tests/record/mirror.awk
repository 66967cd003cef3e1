# Reads the limits of crates/common/src/lib.rt, then the structs of crates/edge_index/src/lib.rt and crates/policy/src/lib.rt that are
# laid out as C does, and prints these in C. What it cannot read is an error, so that no field goes missing.

BEGIN {
    c["bool"] = "bool"; c["u8"] = "uint8_t"; c["u16"] = "uint16_t"; c["u32"] = "uint32_t"; c["u64"] = "uint64_t"; c["usize"] = "size_t"
    print "#include <stdbool.h>\n#include <stddef.h>\n#include <stdint.h>\n"
}

function stop(why) {
    printf "%s:%d: %s\n", FILENAME, FNR, why | "cat >&2"
    failed = 1
    exit 1
}

# pub const MOST_EDGES: usize = 512;
/^pub const [A-Z_]+: usize = [0-9]+;$/ {
    limit[substr($3, 1, length($3) - 1)] = $6 + 0
}

# #[repr(C)]
# pub struct Record {
/^pub struct / && as_in_c {
    name = $3
    structs[name] = 1
    printf "struct %s {\n", name
    next
}

{ as_in_c = /^#\[repr\(C\)\]$/ }

name != "" && /^}/ {
    print "};\n"
    c[name] = "struct " name
    name = ""
}

name == "" || /^ *\/\// || /^ *$/ { next }

# pub objects: u8,    pub edge_labels: [u8; MOST_EDGES],    pub firsts: [u16; 16],    pub index: EdgeIndex,
/^    pub [a-z_]+: ([a-z_]+::)?[A-Za-z0-9]+,$/ || /^    pub [a-z_]+: \[[A-Za-z0-9]+; [A-Z_0-9]+\],$/ {
    gsub(/[a-z_]+::|[\[\]:;,]/, "")
    if (!($3 in c)) stop("no C type is known for " $3)
    if (NF == 3) {
        printf "    %s %s;\n", c[$3], $2
    } else {
        if ($4 !~ /^[0-9]+$/ && !($4 in limit)) stop("no limit is known of the name " $4)
        printf "    %s %s[%d];\n", c[$3], $2, ($4 in limit) ? limit[$4] : $4
    }
    next
}

{ stop("a field of another form: " $0) }

END {
    if (!failed && !("Record" in structs && "EdgeIndex" in structs && "Memo" in structs)) {
        stop("the structs Record, EdgeIndex and Memo are not there")
    }
}
