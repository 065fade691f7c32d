# Writes so many proto3 sources of about 13 kB each below a folder, the same ones each time:
#     awk -v folder=FOLDER -v files=FILES -f bench/sources.awk
# Source 0 is imported by all others. Each other one imports a few earlier ones, so that chains of imports grow longer
# with the number of sources, but much more slowly. All imports are used, for protoc warns of one that is not.

# ---- which source is where, and what it imports

function area_of(i) { return i == 0 ? "common" : areas[i % 8 + 1] }

function path_of(i) { return sprintf("%s/part_%04d.proto", area_of(i), i) }

function package_of(i) { return "bench." area_of(i) (i % 3 == 1 ? ".internal" : "") }

function type_of(i, noun) { return sprintf("%s%04d", nouns[noun % 8 + 1], i) }

function status_of(i, k) { return sprintf("%s%04d", statuses[k + 1], i) }

# The source that this one imports publicly, or -1.
function public_of(i) { return i >= 5 && i % 4 == 1 ? int(i * 3 / 4) : -1 }

function add_import(i, target) {
    if (target >= i || target in is_imported)
        return
    is_imported[target] = 1
    imports[++import_count] = target
}

function gather_imports(i) {
    split("", is_imported)
    import_count = 0
    add_import(i, int(i / 2))
    add_import(i, 0)
    if (i % 5 != 0)
        add_import(i, i - 1)
    add_import(i, int(i * 3 / 4))
}

# A source that this one sees though it does not import it, behind as many public imports as there are, or -1.
function seen_through(i,    k, target, last) {
    last = -1
    for (k = 1; k <= import_count; k++)
        for (target = public_of(imports[k]); target >= 0; target = public_of(target))
            if (!(target in is_imported))
                last = target
    return last
}

# The name of a type of the source j as the source i may spell it: from the innermost scope, in full, or in full
# behind a dot.
function spelled(i, j, name, way) {
    if (way % 3 == 1)
        return "." package_of(j) "." name
    if (way % 3 == 2)
        return package_of(j) "." name
    if (index(package_of(i) ".", package_of(j) ".") == 1)
        return name
    return substr(package_of(j), length("bench.") + 1) "." name
}

# ---- lines of the source that is being written

function put(text) { print text > path }

function put_comment(indent, k,    words) {
    words = remarks[k % remark_count + 1]
    put(indent (indent != "" && k % 9 == 4 ? "/* " words " */" : "// " words))
}

function put_head(i,    k) {
    put("// Part " i " of the " area_of(i) " area, a generated source.")
    put("//")
    for (k = 0; k < 4; k++)
        put_comment("", i + k)
    put("syntax = \"proto3\";\n\npackage " package_of(i) ";\n")
    for (k = 1; k <= import_count; k++)
        put("import " (imports[k] == public_of(i) ? "public " : "") "\"" path_of(imports[k]) "\";")
    put("\noption go_package = \"example.com/bench/" area_of(i) "\";")
    put("option java_multiple_files = true;")
    put("option java_package = \"com.example.bench." area_of(i) "\";")
    if (i % 10 == 7)
        put("option deprecated = true;")
}

function put_enum(i, k,    name, prefix, v) {
    name = status_of(i, k)
    prefix = toupper(statuses[k + 1]) sprintf("%04d", i)
    put("")
    put_comment("", 3 * i + k)
    put_comment("", 3 * i + k + 1)
    put("enum " name " {")
    if (k == 1)
        put("  option allow_alias = true;")
    if (k == 2)
        put("  reserved -9 to -5, 20 to 29;\n  reserved \"" prefix "_LOST\";")
    put("  " prefix "_UNSPECIFIED = 0;")
    for (v = 1; v <= 5; v++) {
        put_comment("  ", i + k + v)
        put("  " prefix "_" values[v] " = " v (v == 4 ? " [deprecated = true];" : ";"))
    }
    if (k == 1)
        put("  " prefix "_BEGUN = 1;  // The same as " values[1] ".")
    if (k == 2)
        put("  " prefix "_REFUSED = -1;\n  " prefix "_LEAST = -2147483648;")
    put("}")
}

function put_nested(i, m) {
    put("  // One line of it.\n  message Line {")
    put("    string label = 1;\n    sint64 amount_minor = 2;")
    put("    repeated Stage stages = 3" (m % 3 == 1 ? " [packed = true];" : ";"))
    if (m % 4 == 0) {
        put("    // What was noted on the line.")
        put("    message Note {\n      string text = 1;\n      " type_of(i, m) ".Stage at = 2;")
        put("      Note reply_to = 3;\n    }")
        put("    repeated Note notes = 4;")
    }
    put("  }\n")
    put("  // How far it has come.\n  enum Stage {")
    put("    STAGE_UNSPECIFIED = 0;\n    STAGE_OPEN = 1;\n    STAGE_CLOSED = 2;\n  }\n")
}

# Scalar fields, some of them optional or repeated, some with options.
function put_scalars(i, m,    f, at, label, options) {
    for (f = 0; f < 6; f++) {
        at = (i * 7 + m * 5 + f) % scalar_count + 1
        label = options = ""
        if (f == 1 || f == 4)
            label = "optional "
        if (f == 2) {
            label = "repeated "
            if (scalar_types[at] != "string" && scalar_types[at] != "bytes")
                options = " [packed = " (m % 2 ? "true" : "false") "]"
        }
        if (f == 3 && m % 3 == 0)
            options = " [deprecated = true]"
        if (f == 5 && m % 3 == 1)
            options = " [json_name = \"" scalar_names[at] "Value\"]"
        if (f == 0 && scalar_types[at] ~ /64/)
            options = " [jstype = JS_STRING]"
        put_comment("  ", i + 2 * m + f)
        put("  " label scalar_types[at] " " scalar_names[at] " = " (f + 1) options ";")
    }
}

# Fields, maps and a oneof of types of this source and of a source that it sees.
function put_references(i, m, seen) {
    put("  " type_of(i, m + 1) " next = 10;")
    put("  repeated " spelled(i, seen, type_of(seen, m), m) " linked = 11;")
    put("  " spelled(i, seen, status_of(seen, m % 3), i + m + 1) " linked_status = 12;")
    put_comment("  ", 5 * i + m)
    if (m % 3 == 0)
        put("  map<string, Line> lines = 20;\n  map<int32, " status_of(i, 0) "> statuses = 21;")
    else if (m % 3 == 1)
        put("  map<string, string> labels = 22;")
    else
        put("  map<uint64, " spelled(i, seen, type_of(seen, m + 2), m + 1) "> linked_by_number = 23;")
    if (m % 2 == 0) {
        put("  oneof origin {\n    string typed_by = 30;")
        put("    " spelled(i, seen, type_of(seen, m + 1) ".Line", m + 2) " taken_from = 31 [json_name = \"from\"];")
        put("    Stage left_at = 32;\n  }")
    }
}

function put_message(i, m, seen) {
    put("")
    put_comment("", i + 3 * m)
    put("//")
    put_comment("", i + 3 * m + 1)
    put_comment("", i + 3 * m + 2)
    put("message " type_of(i, m) " {")
    if (m % 5 == 4)
        put("  option deprecated = true;\n")
    if (m % 4 == 2)
        put("  reserved 7, 40 to 48, 1000 to max;\n  reserved \"old_label\", \"older_label\";\n")
    put_nested(i, m)
    put_scalars(i, m)
    put_references(i, m, seen)
    put("}")
}

function put_service(i, seen,    name) {
    name = sprintf("%s%04d", "Exchange", i)
    put("")
    put_comment("", i)
    put_comment("", i + 1)
    put("service " name " {")
    if (i % 6 == 5)
        put("  option deprecated = true;\n")
    put("  // Asks for one.\n  rpc Get(" type_of(i, 0) ") returns (" type_of(i, 1) ") {")
    put("    option idempotency_level = NO_SIDE_EFFECTS;\n  }\n")
    put("  // Asks for many.\n  rpc List(" type_of(i, 2) ")")
    put("      returns (stream " spelled(i, seen, type_of(seen, 3), i) ");\n")
    put("  // Hands many over.\n  rpc Send(stream " type_of(i, 4) ".Line) returns (" type_of(i, 5) ");\n")
    put("  // Hands over and asks.\n  rpc Exchange(stream " type_of(i, 6) ") returns (stream " type_of(i, 7) ") {")
    put("    option deprecated = true;\n    option idempotency_level = IDEMPOTENT;\n  }\n}")
}

# The message m names types of the import m, or of what is seen through one, or else of the source itself.
function write_source(i,    m, seen, through) {
    path = folder "/" path_of(i)
    gather_imports(i)
    through = seen_through(i)
    put_head(i)
    for (m = 0; m < 3; m++)
        put_enum(i, m)
    for (m = 0; m < 8; m++) {
        seen = i
        if (m < import_count)
            seen = imports[m + 1]
        else if (m == import_count && through >= 0)
            seen = through
        else if (import_count > 0 && m % 2)
            seen = imports[m % import_count + 1]
        put_message(i, m, seen)
    }
    put_service(i, i > 0 ? imports[1] : i)
    close(path)
}

BEGIN {
    split("billing catalog delivery identity ledger messaging search storage", areas, " ")
    split("Account Batch Contract Delivery Event Filter Grant Holding", nouns, " ")
    split("Status Origin Result", statuses, " ")
    split("OPENED ACCEPTED SHIPPED RETURNED ENDED", values, " ")
    scalar_count = split("string int64 uint32 bool bytes double fixed64 sint32 string float uint64 int32 sfixed64 " \
        "fixed32 sint64 sfixed32", scalar_types, " ")
    split("display_name amount_minor revision is_active checksum weight created_at offset_minutes contact_address " \
        "ratio size_bytes retry_count expires_at color_code difference balance", scalar_names, " ")
    remark_count = split("Written once and never changed afterwards.|What is left out has its default." \
        "|Older readers pass over it, newer ones must not.|Counted from one, and never used again." \
        "|Kept for as long as the other side asks for it.|The unit is the smallest one of the currency." \
        "|Two of them are equal where their names are.", remarks, "|")
    system("mkdir -p '" folder "/common'")
    for (k = 1; k <= 8; k++)
        system("mkdir -p '" folder "/" areas[k] "'")
    for (i = 0; i < files; i++)
        write_source(i)
}
