"""What tests/pages runs and looks for: the commands behind the pages' exit statuses, rows and sentences.

A command is one of bash. It is run among the cases of tests/cases with the programs on its path, and a row of
docs/CHECK.md where the pages are installed.
"""
FORMAT, CHECK, EXPLAIN = "docs/FORMAT.md", "docs/CHECK.md", "docs/EXPLAIN.md"
NRMATCH, NRCHECK, NREXPLAIN, NRREPORT = "share/nrmatch.1", "share/nrcheck.1", "share/nrexplain.1", "share/nrreport.1"
# Of each program: the page and the manual page that have its facts, the crate that has its exit statuses, and the crate
# of the codes that they list.
PROGRAMS = {"nrmatch": (FORMAT, NRMATCH, "mt_report", "mt_terms"), "nrcheck": (CHECK, NRCHECK, "mt_report", "mt_match_file")}
# The crates that have codes, and the crate that has the exit statuses, by the first field of an answer.
CODE_CRATES = ("mt_terms", "mt_match_file", "mt_explained")
ANSWERS = {"match": "mt_report", "check": "mt_report"}
# The codes of mt_terms that a program never has: only rounds spend a budget.
NOT_CODES_OF = {"nrmatch": set(), "nrcheck": {41}}

# A market with 100,000 applicants, and the same in too little memory.
LARGE = "{ echo match,1; seq -f applicant,a%.0f 100000; } > large.csv;"
FEW_KIB = f"{LARGE} ulimit -v 8192;"
ONE, ONE_MATCH = "one_post_too_few.csv", "one_post_too_few.csv.stdout"
NOBODY, NOBODY_MATCH = "nobody.csv", "nobody.csv.stdout"
COUPLE, COUPLE_MATCH = "couple_displaces_a_single.csv", "couple_displaces_a_single.csv.stdout"

# Of each program and exit status: how its words begin, and commands that end with it.
STATUSES = {
    "nrmatch": {
        0: ("a match was published and wholly written", [f"nrmatch {NOBODY}", "nrmatch --help", "nrmatch --version"]),
        2: ("a refusal with code 10 to 22: the input is at fault", ["nrmatch unknown_kind.csv"]),
        3: ("a refusal with code 41: the budget is spent", ["nrmatch --budget 9 no_stable_match.csv"]),
        4: ("a refusal with code 30: memory ran out", [f"{FEW_KIB} nrmatch large.csv"]),
        5: (
            "a refusal with code 31: the input can't be opened or read; or, with any answer, the output couldn't be wholly written",
            ["nrmatch missing.csv", f"nrmatch {NOBODY} > /dev/full", "nrmatch unknown_kind.csv > /dev/full"],
        ),
        6: ("a match was published with couples set aside", ["nrmatch --budget 9 --set-aside no_stable_match.csv"]),
        64: ("the command line is wrong", ["nrmatch --none", f"nrmatch {NOBODY} {NOBODY}"]),
    },
    "nrcheck": {
        0: (
            "the match is stable, and its quotas and counts are right; or without a match the market is accepted",
            [f"nrcheck {NOBODY} {NOBODY_MATCH}", f"nrcheck {NOBODY}", "nrcheck --help", "nrcheck --version"],
        ),
        1: ("a finding against the match", [f"sed s/a3,-/a3,P1/ {ONE_MATCH} | nrcheck {ONE} /dev/stdin"]),
        2: (
            "a refusal with code 10 to 22, or 50 to 55, or 57 or 58: a file is at fault",
            [f"nrcheck unknown_kind.csv {NOBODY}", f"nrcheck {NOBODY} {NOBODY}", "nrcheck unknown_kind.csv"],
        ),
        4: ("a refusal with code 30: memory ran out", [f"{FEW_KIB} nrcheck large.csv {NOBODY_MATCH}"]),
        5: (
            "a refusal with code 31: a file can't be opened or read; or, with any answer, the line couldn't be wholly written",
            [f"nrcheck missing.csv {NOBODY}", f"nrcheck {NOBODY} missing.csv", f"nrcheck {NOBODY} {NOBODY_MATCH} > /dev/full"],
        ),
        64: ("the command line is wrong", ["nrcheck", f"nrcheck --all {NOBODY}", f"nrcheck {NOBODY} {NOBODY} {NOBODY}", f"nrcheck --none {NOBODY} {NOBODY}"]),
    },
}

# Each limit of docs/FORMAT.md by its name in the source. The budget isn't among these.
LIMITS = {
    "input bytes": "bytes",
    "applicants, members included": "applicants",
    "programs": "programs",
    "couples": "couples",
    "list entries in all; a pair counts as two": "entries",
    "bytes of an id": "id_bytes",
    "quota": "quota",
    "workers": "workers",
}
# Sentences with limits, without separators of thousands.
LIMIT_SENTENCES = {
    FORMAT: [
        "1 to {workers}, and {default_workers} if it isn't given;",
        "1 to {most_budget}, and {default_budget} if it isn't given",
        "1 to {most_orders}, and {default_orders} if it isn't given",
        "An id has 1 to {id_bytes} bytes (version 2: {id_bytes_2})",
        "A quota is one to four ASCII digits, 0 to {quota};",
        "| the input has more than {bytes} bytes |",
    ],
    NRMATCH: [
        "1 to {workers}; {default_workers} if it isn't given",
        "1 to {most_budget}; {default_budget} if it isn't given",
        "1 to {most_orders}; {default_orders} if it isn't given",
        "An id has 1 to {id_bytes} bytes, in version 2 up to {id_bytes_2},",
        "The input has more than {bytes} bytes.",
        "{bytes} bytes of input; {applicants} applicants, members of couples included; {programs} programs; {couples} couples; "
        "{entries} list entries in all, in version 2 {entries_2}, where a pair counts as two; quotas up to {quota}.",
    ],
    CHECK: ["An id of up to {id_bytes_2} bytes is printed, whatever the market's version."],
}

# What a row calls its input, if it isn't written out: the command that makes the input, the run itself, or a file.
INPUTS = {
    "67,108,865 bytes of any kind": "head -c 67108865 /dev/zero",
    "two byte order marks, then `match,1`": r"printf '\xef\xbb\xbf\xef\xbb\xbfmatch,1\n'",
    "nothing": "true",
    "`match,1`, then `program,p1,0` to `program,p20001,0`": "{ echo match,1; seq -f program,p%.0f,0 20001; }",
    "a market without a stable match": "cat no_stable_match.csv",
}
RUNS = {"any, in too little memory": f"{FEW_KIB} nrmatch large.csv", "a FILE that is missing": "nrmatch missing.csv"}
FILES = {
    "a file that is missing": "missing.csv",
    "an empty file": "/dev/null",
    "67,108,865 bytes of any kind": "<(head -c 67108865 /dev/zero)",
    "any, in too little memory": "large.csv",
}

# Runs a program with a standard input that doesn't block and is empty (0), or with such a standard output (1).
NOT_BLOCKING = (
    "python3 -c 'import os, sys; end = int(sys.argv[1]); pipe = os.pipe(); os.set_inheritable(pipe[1 - end], True); "
    "os.set_blocking(pipe[end], False); os.dup2(pipe[end], end); os.execvp(sys.argv[2], sys.argv[2:])'"
)
NOT_UTF_8 = r"$'\xff.csv'"
LONGEST_ID = "a" * 64
UNKNOWN_KIND, READ_FAULT = ["match,1,refused,13,UnknownKind,2,-"], ["match,1,refused,31,ReadFault,0,-"]
STABLE = ["check,1,stable"]
# Files with @ for a comma, and the codes by which they are refused if it is a semicolon, and if it is a tab.
OTHER_COMMAS = r"""
for file in match@1 'match,1\nprogram@P' 'match,1\ncouple,c@a@b' 'match,1\napplicant,a@P' 'match,1\nprogram,P,1@a'
do for comma in ';' '\t'; do printf "${file//@/$comma}" | nrmatch | cut -d, -f4; done; done"""
OTHER_COMMAS_CODES = ["12", "12", "13", "13", "14", "14", "15", "15", "16", "16"]
# Sentences, each with its page, a command, what that writes, and its exit status.
BEHAVIOUR = [
    (FORMAT, "standard input if it is left out or `-`", "nrmatch - < unknown_kind.csv", UNKNOWN_KIND, 2),
    (NRMATCH, "is standard input too", "cat unknown_kind.csv | nrmatch --workers 1 -", UNKNOWN_KIND, 2),
    (CHECK, "`-` is standard input", f"nrcheck {ONE} - < {ONE_MATCH}", STABLE, 0),
    (NRCHECK, "is standard input", f"cat {ONE} | nrcheck - {ONE_MATCH}", STABLE, 0),
    (FORMAT, "`./-` is a file with that name", f"cp unknown_kind.csv ./-; nrmatch ./- < {NOBODY}", UNKNOWN_KIND, 2),
    (CHECK, "`./-` is a file with that name", f"cp {ONE_MATCH} ./-; nrcheck {ONE} ./- < {NOBODY}", STABLE, 0),
    (
        FORMAT,
        "A FILE whose name isn't UTF-8 is a wrong command line, even if the file exists",
        f"cp {NOBODY} {NOT_UTF_8}; nrmatch {NOT_UTF_8}",
        [],
        64,
    ),
    (NRMATCH, "A name that isn't UTF-8 is a wrong command line.", f"nrmatch {NOT_UTF_8}", [], 64),
    (
        CHECK,
        "A name that isn't UTF-8 is a wrong command line.",
        f"cp {NOBODY} {NOT_UTF_8}; nrcheck {NOT_UTF_8} {NOBODY_MATCH}",
        [],
        64,
    ),
    (NRCHECK, "A name that isn't UTF-8 is a wrong command line.", f"nrcheck {NOBODY} {NOT_UTF_8}", [], 64),
    (
        FORMAT,
        "LF, CR LF or a CR alone ends a record",
        rf"""for end in '\n' '\r\n' '\r'; do sed -z "s/\n/$end/g" {ONE} | nrmatch | cmp - {ONE_MATCH} || exit 9; done""",
        [],
        0,
    ),
    (NRMATCH, "LF, CR LF or a CR alone ends a record.", r"printf 'match,1\rpost,P,1\r' | nrmatch", UNKNOWN_KIND, 2),
    (
        FORMAT,
        "Input that ends inside quotes is accepted: the field ends there.",
        r"""printf 'match,1\napplicant,"a1' | nrmatch""",
        ["match,1,published", "applicant,a1,-", "totals,1,1,0,0"],
        0,
    ),
    (NRMATCH, "Input that ends inside quotes is accepted.", r"""printf 'match,1\n"post' | nrmatch""", UNKNOWN_KIND, 2),
    (
        FORMAT,
        "TERM, INT, HUP and QUIT do so; while it reads or works, nothing has been written.",
        "mkfifo fifo; exec 3<> fifo; ulimit -c 0; "
        "for it in TERM INT HUP QUIT; do timeout --preserve-status -s $it 0.3 nrmatch fifo; echo $?; done",
        ["143", "130", "129", "131"],
        0,
    ),
    (
        FORMAT,
        "So does XFSZ, which a limit of file size (`ulimit -f`) sends when the output reaches it.",
        f"{LARGE} ulimit -c 0; ulimit -f 1; nrmatch large.csv > short; kill -l $?",
        ["XFSZ"],
        0,
    ),
    (
        NRMATCH,
        "A limit of file size (ulimit -f) sends XFSZ when the output reaches it.",
        f"{LARGE} ulimit -c 0; ulimit -f 1; nrmatch < large.csv > short; kill -l $?",
        ["XFSZ"],
        0,
    ),
    (FORMAT, "Semicolons or tabs for commas give 12 to 16.", OTHER_COMMAS, OTHER_COMMAS_CODES, 0),
    (NRMATCH, "Semicolons or tabs for commas give 12 to 16.", OTHER_COMMAS, OTHER_COMMAS_CODES, 0),
    (FORMAT, "The status is 5 if XFSZ is ignored.", f"{LARGE} trap '' XFSZ; ulimit -f 1; nrmatch large.csv > short", [], 5),
    (FORMAT, "A standard input that doesn't block fails at once if it has nothing yet.", f"{NOT_BLOCKING} 0 nrmatch", READ_FAULT, 5),
    (
        NRMATCH,
        "A standard input that doesn't block fails at once if it has nothing yet.",
        f"{NOT_BLOCKING} 0 nrmatch --workers 1",
        READ_FAULT,
        5,
    ),
    (FORMAT, "or a standard output that doesn't block was full", f"{LARGE} {NOT_BLOCKING} 1 nrmatch large.csv", [], 5),
    (
        CHECK,
        "Each `program` and `totals` record may be there more than once, and each is compared.",
        f"{{ grep -v applicant {ONE_MATCH}; cat {ONE_MATCH}; echo program,P1,1,0,3; }} | nrcheck {ONE} /dev/stdin",
        ["check,1,differs,12"],
        1,
    ),
    (
        CHECK,
        "All others are judged by their lists.",
        f"sed 's/^match.*/aside,c/; s/a,x/a,-/; s/b,x/b,-/' {COUPLE_MATCH} | nrcheck {COUPLE} /dev/stdin",
        ["check,1,blocks,applicant,s,x"],
        1,
    ),
    (
        NRCHECK,
        "their quotas and counts are compared too, each as often as it comes.",
        f"{{ cat {ONE_MATCH}; grep totals {ONE_MATCH}; echo totals,3,1,2,1; }} | nrcheck {ONE} /dev/stdin",
        ["check,1,differs,9"],
        1,
    ),
    (
        CHECK,
        "That holds for proposals too.",
        f"sed s/P1,1,1,3/P1,1,1,03/ {ONE_MATCH} | nrcheck {ONE} /dev/stdin",
        ["check,1,refused,51,OtherFields,match,5,-"],
        2,
    ),
    (
        NRCHECK,
        "Proposals aren't compared, but the field has to be a number.",
        f"sed s/P1,1,1,3/P1,1,1,9/ {ONE_MATCH} | nrcheck {ONE} /dev/stdin",
        STABLE,
        0,
    ),
    (
        CHECK,
        "An id of up to 64 bytes is printed, whatever the market's version.",
        f"echo applicant,{LONGEST_ID},- | nrcheck {ONE} /dev/stdin",
        [f"check,1,refused,52,NoSuchApplicant,match,1,{LONGEST_ID}"],
        2,
    ),
    (
        CHECK,
        "What isn't an id isn't printed: ID is `-` there.",
        f"echo applicant,{LONGEST_ID}a,- | nrcheck {ONE} /dev/stdin",
        ["check,1,refused,52,NoSuchApplicant,match,1,-"],
        2,
    ),
    (
        CHECK,
        "At 30 FILE is `market` until the market has been read and accepted, and then `match`.",
        f"ulimit -v 40000; nrcheck {NOBODY} /dev/zero",
        ["check,1,refused,30,OutOfMemory,match,0,-"],
        4,
    ),
    (
        CHECK,
        "A market's refusal comes before every fault of the match, also of a match that can't be read.",
        "nrcheck unknown_kind.csv missing.csv",
        ["check,1,refused,13,UnknownKind,market,2,-"],
        2,
    ),
    (FORMAT, "standard error says why, as `nrmatch: market.csv: No such file or directory`.", "nrmatch market.csv 2>&1 > /dev/null", ["nrmatch: market.csv: No such file or directory"], 5),
    (CHECK, "standard error says why, as `nrcheck: match.csv: No such file or directory`.", f"nrcheck {ONE} match.csv 2>&1 > /dev/null", ["nrcheck: match.csv: No such file or directory"], 5),
]
