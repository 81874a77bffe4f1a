# Writes the manual page of section 3 from the header's comments: awk -f install/manual.awk include/kundratu_pool.h

function plain(text) {
    gsub(/\\/, "\\e", text)
    gsub(/-/, "\\-", text)
    sub(/^[.']/, "\\\\\\&&", text)
    return text
}

# Ends a list or a piece of code, if the page is within one.
function end_block() {
    if (block == "code")
        page = page ".fi\n.RE\n"
    if (block == "list")
        page = page ".PP\n"
    block = ""
}

# One line of a comment.
function comment_line(text) {
    if (text ~ /^    /) {
        if (block != "code") {
            end_block()
            page = page ".PP\n.RS 4\n.nf\n"
            block = "code"
        }
        page = page plain(substr(text, 5)) "\n"
    } else if (text == "") {
        end_block()
        page = page ".PP\n"
    } else if (text ~ /^- /) {
        page = page ".IP \\(bu 2\n" plain(substr(text, 3)) "\n"
        block = "list"
    } else if (text ~ /^@param /) {
        split(text, words, " ")
        sub(/^@param +[a-z]+ +/, "", text)
        page = page ".TP\n.I " words[2] "\n" plain(text) "\n"
    } else if (text ~ /^@return /) {
        sub(/^@return +/, "", text)
        page = page ".TP\n.B Returns\n" plain(text) "\n"
    } else {
        sub(/^ +/, "", text)
        page = page plain(text) "\n"
    }
}

function declaration_line(text) {
    declared = declared (declared == "" ? "" : " ") text
    gsub(/ +/, " ", declared)
    if (declared !~ /;$/)
        return
    gsub(/KDR_(NODISCARD|CALL) | KDR_NONNULL/, "", declared)
    name = declared
    sub(/\(.*/, "", name)
    sub(/.*[ *]/, "", name)
    synopsis = synopsis "\\fB" plain(declared) "\\fP\n"
    calls = calls ".SS " name "()\n" kept
    declared = kept = ""
}

/KDR_VERSION "/ { version = $3; gsub(/"/, "", version) }

/^\/\*\*/ {
    in_comment = 1
    page = ""
    sub(/^\/\*\* ?/, "")
    sub(/^ *\*/, "")
}

in_comment {
    is_last = sub(/ ?\*\/$/, "")
    sub(/^ \* ?/, "")
    if (/^@file/)
        is_file = 1
    else if ($0 != "" || page != "")
        comment_line($0)
    if (is_last) {
        end_block()
        in_comment = 0
        if (is_file)
            description = page
        else
            kept = page
        is_file = 0
    }
    next
}

/^ +KDR_[A-Z_]+ = [0-9]/ {
    text = $0
    sub(/.*\/\*\*< /, "", text)
    sub(/ \*\/$/, "", text)
    statuses = statuses ".TP\n.B " $1 "\n" plain(text) "\n"
    next
}

/^[A-Za-z_ *]* \**KDR_CALL / || declared != "" { declaration_line($0) }

END {
    print ".TH KUNDRATU_POOL 3 \"\" \"kundratu_pool " version "\" \"Library calls\""
    print ".SH NAME\nkundratu_pool \\- pool of places that threads take and return without a lock"
    print ".SH SYNOPSIS\n.nf\n\\fB#include <kundratu_pool.h>\\fP\n"
    printf "%s.fi\n.SH DESCRIPTION\n%s.SH STATUSES\n%s.SH CALLS\n%s", synopsis, description, statuses, calls
}
