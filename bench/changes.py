"""The kinds of change that docs/CHANGING.md leads through: the nearest thing that exists, and in which order the work is done.

What is written here is written by hand. The files are found by bench/changing.py. A path in an order is tried: it must exist.
"""
import dataclasses


@dataclasses.dataclass(eq=False)
class Thing:
    """A thing that exists: what it is, a pattern that names it in code, a pattern that names it in what users read."""
    what: str
    names: str
    said: str = ""
    # What files name besides that have a case for each such thing: a pattern of another one.
    beside: str = ""
    # What files do not name that know this one alone.
    without: str = ""
    # These crates alone, or all but these, where the word means something else.
    only: set = dataclasses.field(default_factory=set)
    but: set = dataclasses.field(default_factory=set)


@dataclasses.dataclass
class Change:
    """A kind of change: what to do in which order and why, and the things whose files show where."""
    title: str
    order: list
    things: list
    # What a user sees of it, one of SEEN, and such a change as the contents tell it.
    seen: str
    such: str


INTRODUCTION = [
    "This page is for whoever changes the programs. It leads from a kind of change to the files. `bench/changing.py --write` makes it "
    "from the tree, and `bench/documents.py` fails where it is not what the tree says.",
    "Each section takes the nearest thing that exists. It lists the files that name that thing, by layer, the lowest first. "
    "Comments are not counted. A name that ends in `/` is a folder of proofs: those of a function, or of all functions of a file. "
    "`beside` another pattern a file names both, so it has a case for each thing, and a new one needs a case too. `without` it a file "
    "knows that one thing alone: look whether the new thing is like it. In any other list a file has a case for the thing or uses it.",
    "`bench/changing.py WORD` lists all files that name a word: code, documents, man pages, completions, scripts and rows. A section "
    "tells where to run it. For a change that has no section, run it with the nearest words that exist. Names of crates behind the word "
    "narrow it: `bench/changing.py final flow_case`.",
]

SEEN = ["the text of a workflow", "a policy", "a run, its session and its report", "refusals, limits and statuses", "words of a call",
        "a case", "lists and logs", "reasons and findings", "pictures and pages", "programs and libraries"]

BEGIN = [
    "Read the definitions first. What a layer promises is said in the words of `flow_model`, and a new thing begins there.",
    "Go up layer by layer. `rt check` in a crate's folder proves it. The first file that does not fit is the next one to change.",
    "A case that is missing in a `match` is a fault that the compiler tells. So is a missing line of a definition by cases. A missing "
    "alternative in a list (`MODES`, `OPTIONS`), in a parser of bytes, in a row, or behind a `_ =>` is told by no compiler: the lists "
    "below name them.",
]

END = [
    "Write rows for what users see (`crates/test_cases/data`), and change the counts in `crates/test_cases/stdout` and its README. A row "
    "costs the proof nothing.",
    "Where a meaning can be turned by one line, add an edit to `must-fail/` of the crate. A crate has four to eight edits, or none. "
    "Where a line changes that an edit has as `old`, change the edit.",
    "Write a line in `CHANGELOG.md`. Change the README of each crate that changed, and the documents that the lists name. Where a "
    "promise changes, `docs/PROMISES.md` and `docs/DEFINITIONS.md` have its words. A new crate has a line in `crates.txt`, a figure in "
    "`SECONDS` of `prove` and a place in `docs/ARCHITECTURE.md`.",
    "Run `bench/words.py`. It compares man pages, completions, editors' files and reference with the code for the words of `flow`: modes, "
    "options, reserved words, commands and statements of `flow duty`. Nothing compares the words of `flowdesk` and of a case's policy.",
    "Run `bench/documents.py`, which tries each example, and `bench/changing.py --write`.",
    "Run `rt ci`. Of each script that a list names the head says whether it reads what changed: run it.",
]

# Where a constraint or a word of texts is read and printed.
TEXTS = {"flow_form", "flow_lex", "flow_grammar", "flow_reader", "flow_text"}
# Where a form of goal is known as it is written.
WRITTEN = TEXTS | {"flow_expand", "flow_lint", "flow_lint_cli", "flow_view", "flow_why_cli", "flow_gen"}
# How code names the word before a goal, and forms of goals in what they mean.
ISO = r"\bIso\b|\bisos\b|iso_word|iso_text|\(iso |, iso\(|iso ins"
GOALS = r"\b([Ii]so|iso_\w+|[Ii]solat\w+)\b"
CHOICES = r"\b([Ee]ither|[Cc]hoices?|[Cc]hoose|alternatives?|branch\w*)\b"
MEANING = {"flow_model", "flow_laws", "flow_fold_laws", "flow_run_laws", "test_laws"}
# Where a reserved word stands in lists that no compiler compares.
RESERVED = ("A new reserved word stands in lists, which no compiler compares: `flow_reader/src/reserved_words.rt`, "
            "`flow_fault/src/keywords.rt` with `flow_fault/specs/Keywords.antt`, and the texts of `flow_why_cli/src/hint_words.rt`. In "
            "`flow_policy/src/symbol.rt` and `flow_policy/specs/Names.antt`, `begins_reserved` has the letters with which reserved words "
            "begin.")

CHANGES = [
    # the text of a workflow
    Change("A form of goal that is short for others", [
        "Grammar and texts read it and `flow_expand` writes it out: both have a case for each form. What is above `flow_expand` sees "
        "what it is short for.",
        "Four crates above go through forms as they are written, and need a case too: `flow_lint` (also `flow_lint_cli`), `flow_view`, "
        "`flow_gen` and the hints of `flow_why_cli`.",
        "The grammar has its level: a new word stands where an atom may stand, and a new operator between those that bind tighter and "
        "looser. Where its mark is new, `flow_lex/src/bytes.rt` reads it.",
        RESERVED,
    ], [Thing("forms of goals as they are written, a case for each", ISO, r"\biso\(|\bnop\W+iso\b|\"iso\"", beside=r"[Nn]op", only=WRITTEN),
        Thing("files that know `iso` alone", ISO, without=r"[Nn]op", only=WRITTEN),
        Thing("lists of words and of letters", r"begins_reserved|is_keyword_near|\"precedes\"|wanted_words")],
        "the text of a workflow", "`opt(GOAL)`"),
    Change("A form of goal with traces of its own", [
        "It needs all that the section above has, and a meaning.",
        "It begins with its traces: `flow_model/specs/Trace.antt` (its blocks), `flow_model/specs/Resolution.antt`, "
        "`flow_model/specs/Ready.antt`. Then come the laws, the goals of `flow_goal`, and the plans.",
        "A form that is gone in a resolution, as a choice is, adds a case in the proofs on marks alone. One that stays, as an isolated "
        "part does, is something that plans keep: `flow_plan/src/parts.rt` and what stands beside it.",
        "`flow_gen` has a case in a proof in any event, and one in code where the form is to be generated. `bench/worst.py` tries it where "
        "it could be slow.",
        "Proofs that go by goals without naming a form are not listed: `rt check` of each crate tells the next one.",
    ], [Thing("definitions and laws, a case for each form", GOALS, beside=CHOICES, only=MEANING),
        Thing("goals and what stands on them, a case for each form", GOALS, beside=CHOICES, but=WRITTEN | MEANING | {"flow_svg", "flow_names"}),
        Thing("plans that keep an isolated part", r"\bisolat\w*|[iI]solated|\bParts\b|parts_of", without=CHOICES,
              only={"flow_plan", "flow_weave", "flow_excise", "flow_reason"})],
        "the text of a workflow", "an operator beside `*`, `|` and `+`"),
    Change("A kind of leaf", [
        "A leaf that tests or changes facts is a label: `flow_model/src/labels.rt`. What it does to what holds is "
        "`flow_model/specs/Facts.antt`.",
        "A leaf that is performed outside, as an event is, is one more thing for a gate. It changes what `flow_residual` and `flow_crew` "
        "know of claims, too.",
        RESERVED,
    ], [Thing("labels, a case for each", r"\bIns\b|\bins\b|ins_word", r"`ins |\bins [a-z]|`!", beside=r"\bAbsent\b|\babsent\b"),
        Thing("what knows a leaf that changes a fact", r"\bIns\b|\bins\b|ins_word", without=r"\bAbsent\b|\babsent\b"),
        Thing("what knows a leaf that tests a fact", r"\bAbsent\b|\babsent\b", without=r"\bIns\b|\bins\b|ins_word",
              but={"flow_event_log", "flow_log_cli"})],
        "the text of a workflow", "a test of two facts"),
    Change("What a text notes of an event", [
        "A note stands behind a name in `event`. It is read by `flow_reader/src/scripts.rt` and kept in the workflow.",
        "A note for the gate alone is `flow_gate/src/note_gate.rt`, and the laws of runs by that gate are in `flow_crew`. A note that "
        "changes what may come next is a rule of runs: it begins in `flow_model/specs/Run.antt`.",
        "`bench/changing.py Note` lists all files that hand notes on.",
    ], [Thing("a note that a task fails some times", r"FailFirst|fail_first|first_failures|failing", r"\bfail [0-9N]\b|\"fail\""),
        Thing("notes as they are read, kept and printed", r"\bNote\b", without=r"FailFirst|fail_first|first_failures|failing",
              only=TEXTS | {"flow_expand", "flow_workflow", "flow_gate", "flow_crew", "flow_model", "flow_move"})],
        "the text of a workflow", "`event pay fail 2`"),
    Change("A form of constraint", [
        "A form that the others can say is short for them: `flow_model/specs/Constraint.antt` says what it means, and "
        "`flow_workflow/src/shorthands.rt` writes it out. `flow_rules` and all above see what it is short for.",
        "Where it has neither one nor two names, its printing needs a case of its own (`flow_text/proofs/SaidPrintable.antt`), and "
        "`flow_expand/src/rule_names.rt` counts its names.",
        "A form that the others cannot say is a `Constraint` of its own: the normal forms and the ways change, as the second list has "
        "them. `flow_view/src/arrows.rt` draws those that are orders.",
        RESERVED,
        "Scripts that judge texts by themselves have the forms as words: those of the first list.",
    ], [Thing("a form that is short for others", r"\b[Nn]eeds\b|needs_word|\bneeding\b|begins_reserved",
              r"`needs |^constraint needs|\bneeds [a-z_]+ [a-z_]+[;`,]|precedes\W+needs|\bneeds a b|['\"]needs|\.needs\b",
              only=TEXTS | {"flow_model", "flow_workflow", "flow_expand", "flow_fault", "flow_why_cli", "flow_policy", "test_calls"}),
        Thing("a constraint of its own, a case for each", r"\bOrder\b", r"['\"]order['\"]|\border\W+precedes", beside=r"\bNever\b|\bNot\b")],
        "the text of a workflow", "`together a b`"),
    Change("A pattern of constraints in the documents", [
        "A pattern is written with the forms that exist, so no code changes. `docs/COOKBOOK.md` has it, in full or as text and one line. "
        "`docs/DOCUMENTS.md` has the form of its blocks. `bench/documents.py --write` writes `crates/test_cases/data/cookbook.rows`.",
        "`bench/templates.py` has the meaning of each template by hand. `crates/test_cases/data/patterns.rows` has rows for it.",
        "`docs/GUIDE.md` and `docs/SURPRISES.md` point to patterns by their sections. A form that no page has an example of is in "
        "`docs/reference/text.md`.",
    ], [], "the text of a workflow", "a template `not succession(a, b)`"),
    # a policy
    Change("A statement of a policy", [
        "A statement is read by stages, from tokens: `flow_policy/src/stage.rt`. What it forbids is asked in `flow_roles`, after what the "
        "run refuses.",
        "The words of statements are in `flow_policy/src/stage.rt`, and what they leave is kept in tables: `flow_policy/src/tie.rt`, "
        "`flow_policy/src/tie_table.rt`, `flow_policy/src/role_table.rt`, with `flow_policy/specs/Policy.antt`.",
        "A policy of a case has these statements too: `flow_case` splits the text of a policy, and `flow_case_why` says why one is refused "
        "and what is wanted in its place.",
        "`flow_policy_lint` looks at what statements leave, and `flow_stages` and `flow_questions` at who is left.",
        "A reply has its word in three tables; see [a refusal](#a-refusal).",
    ], [Thing("a statement that ties events", r"[Ss]eparat", r"\bseparate [a-z]|`separate`|\bseparate\W+bind\b|\"separate\"",
              only={"flow_model", "flow_ask", "flow_duty_laws", "flow_policy", "flow_roles", "flow_duty", "flow_findings", "flow_reply", "flow_case", "flow_case_why",
                    "flow_case_words", "flow_step", "flow_staff", "flow_questions_cli", "flow_run_why_words", "flow_c"}),
        Thing("what looks at ties", r"\b[Tt]ies?\b|IsTie|\bSeparate\b", only={"flow_policy_lint", "flow_stages", "flow_questions", "flow_staff"})],
        "a policy", "`limit pay 3`"),
    Change("A statement of a case's policy", [
        "`flow_case/src/kind.rt` has its word and how it is read, with `flow_case/specs/Reading.antt`. `flow_case/src/rules.rt` keeps what it "
        "gives, and `flow_case/src/ruled.rt` asks it; `flow_case/src/bar.rt` names the rule that keeps a user from something.",
        "`flow_case/src/split.rt` and `flow_case/src/members.rt` go through the text by words, and pass over statements that are not theirs.",
        "`flow_case_why/src/wanted.rt` tells how each statement is written, in two texts, and `flow_case_why/src/policy.rt` the first thing "
        "that is wrong.",
        "Both editors' files have its word by hand: `editors/vim/syntax/flow.vim` and `editors/vscode/syntaxes/flow.tmLanguage.json`. "
        "`bench/words.py` compares them.",
        "Above `flow_case`, only `flow_case_why` has a case for each statement. `flow_policy_lint` looks at what a question needs of them.",
    ], [Thing("a statement about events, and one about roles", r"\bKind\b|Kind::|\bFinal\b|\b[Ff]inals?\b|\bBack\b|\bkind_of\b|\bgivens?\b",
              r"`final\b|^final [a-z]|\bfinal [a-z_]+(, [a-z_]+)*;|\bfinal\W+back\b|\"final\"",
              only={"flow_case", "flow_policy_lint", "flow_questions_cli"}),
        Thing("what tells of statements", r"\bseparate\b|\bfinal\b|wanted|\bSubject\b", only={"flow_case_why"}),
        Thing("a refusal by such a statement", r"\bFinal\b|\bNotBack\b|\bBackRole\b|refusal\.Final|\bfinal_\w+|\"final\"",
              only={"flow_ask", "flow_case_words", "flow_case_talk", "flow_reply", "flow_step", "flow_move"})],
        "a policy", "`final`, `back` and `close`"),
    Change("A line of a session of users", [
        "A line of users is data of `flow_policy/src/duty.rt`, answered in `flow_duty/src/replies.rt`. `flow_run_why_words/src/line_words.rt` "
        "has it in a text and in two lists.",
        "`include/flow.h` and `bindings/python/flow/case.py` have the user of a line as a number of the call.",
    ], [Thing("a line that names the caller", r"Duty::As|Duty\.As|\bAs\b|\"as |as_line|b\"as\"", r"`as [A-Z]+`|^as [a-z]+$|\bfacts\W+as\b",
              only={"flow_policy", "flow_duty", "flow_roles", "flow_run_why_words", "flow_run_why_cli"})],
        "a policy", "`as NAME`"),
    # a run
    Change("A kind of entry of a history", [
        "`flow_model/specs/Run.antt` says when an entry is allowed, and what state it leaves. The laws come next: `flow_laws` shows that "
        "every legal history keeps what it must, and `flow_duty_laws` what becomes of who has a leaf.",
        "An entry that takes leaves back changes what is still possible: `flow_residual/src/residual.rt`, `flow_residual/src/claims.rt`; "
        "and what holds: `flow_facts/src/world.rt`.",
        "`flow_core` makes every entry through `enter` (`flow_core/src/run.rt`), also those of a file that is opened again "
        "(`flow_core/src/make.rt`).",
        "A history is written and read in two forms: as lines (`flow_record/src/history.rt`) and as records of 16 bytes "
        "(`flow_keep/src/body.rt`). Whoever calls the library keeps these records: `include/flow.h` has their length.",
        "An entry that answers a claim, or takes back one, is in the next section too.",
        "Where a caller asks for it, it needs [a command of sessions](#a-command-of-sessions) too.",
    ], [Thing("entries, a case for each", r"\bRewound\b|record_rewound", r"\brewound\b|\bdid [0-9L]", beside=r"\bDid\b|record_did"),
        Thing("what knows an entry that takes leaves back", r"[Rr]ewound", without=r"\bDid\b|record_did"),
        Thing("what knows an entry that adds a leaf", r"\bDid\b|record_did", without=r"[Rr]ewound")],
        "a run, its session and its report", "`skipped LEAF`"),
    Change("An entry that answers a claim", [
        "It needs all that the section above has, and what stands in this list.",
        "Who may answer a claim is asked in `flow_roles/src/take.rt` (`is_of_another`). A claim that is answered is out no more: "
        "`flow_standing/src/claims.rt`, `flow_core/specs/Holding.antt`.",
        "An event log has a lifecycle for it: `flow_export/src/log_event.rt` has its word, and `flow_export/src/xes_form.rt` the transition.",
        "Its command is named by `include/flow.h` and is a method of `bindings/python/flow/case.py`; `examples/tools/named_history` and "
        "`examples/tools/numbered_session` go through entries or commands by their words.",
    ], [Thing("what knows a result that comes too late", r"\bLate\b|\blate\b|record_late", r"\blate [0-9CN]|['\"`]late['\"`]|\bdone\W+failed\W+late\b|failed\W+late",
              without=r"\bDid\b", but={"flow_disk", "flow_conflict"}),
        Thing("who holds a claim", r"is_of_another|IsOfAnother|\bHolder\b"),
        Thing("what is out, in code; who goes by the words of entries, in scripts", r"\bOut\b", only={"flow_standing"},
              said=r"\b(took|done|failed)\b['\"]?[|, ]+['\"]?\b(done|failed|late)\b")],
        "a run, its session and its report", "`gave CLAIM`"),
    Change("A command of sessions", [
        "A command that makes an entry is a call of `flow_core/src/asks.rt`. One that only looks is a call of "
        "`flow_core/src/next.rt`.",
        "Its refusals, and their order, stand in the table of answers: `flow_core/specs/Answers.antt`. `flow_core/specs/Ask.antt` "
        "leads each command to that table.",
        "Users of a policy and kept runs answer the same asks: `flow_roles/src/answer.rt`, `flow_keep/src/asked.rt`.",
        "`flow_run_why_words/src/line_words.rt` has the commands in a text and in a list, which no compiler compares.",
        "`flow_cli` has no file that knows a command. A line of the library is a command too: `include/flow.h`, "
        "`bindings/python/flow/case.py`.",
        "A command that cases have too is in [a command of a case](#a-command-of-a-case).",
    ], [Thing("commands that make an entry, a case for each", r"[Rr]ewind", r"\brewind\b", beside=r"\b[Cc]ommit\b|ask_commit"),
        Thing("what knows a step back", r"[Rr]ewind", without=r"\b[Cc]ommit\b|ask_commit"),
        Thing("a command that only looks", r"\bEnabled\b|\benabled\b", r"`enabled`|\|enabled\||^enabled$|'enabled'|\benabled\W+journal\b|def enabled",
              but={"flow_core", "flow_grammar"})],
        "a run, its session and its report", "`undo CLAIM`, `ahead`"),
    Change("What a step back may undo", [
        "`IsOpen` in `flow_model/specs/Run.antt` says where a choice is still free. `flow_laws` stands on it.",
        "In code a place is noted as open when its leaf is pushed: `flow_residual/src/residual.rt`.",
        "What a case forbids besides is `final`: see [a statement of a case's policy](#a-statement-of-a-cases-policy).",
    ], [Thing("a place at which another choice is free", r"\bIsOpen\b|open_index", r"open index|other choice is free|another (free )?choice|other free choice")],
        "a run, its session and its report", "back to any choice by number"),
    Change("What a run comes to", [
        "What a run comes to is said in `flow_model/specs/Verdict.antt`; its status and its line come from there.",
        "A status of its own is in [an exit status](#an-exit-status).",
    ], [Thing("verdicts, a case for each", r"\bSpent\b|\bspent\b", r"verdict spent|spent LIMIT|\bverdict\b.*\bspent\b|['\"`]spent", beside=r"\bCommitted\b|\bcommitted\b",
              but={"flow_run_laws", "flow_case_talk"}),
        Thing("the verdict as data", r"verdict_of|\bVerdict\b", only={"flow_model", "flow_reply", "flow_front", "flow_step", "flow_desk", "flow_case_page"})],
        "a run, its session and its report", "`verdict paused`"),
    Change("A way to perform tasks", [
        "A gate is an `impl` of `Gate`. What any gate of its type may answer is its ghost member `gives`. Several threads may ask it at a "
        "time.",
        "A gate that goes by names is made of the workflow's events, so it needs a program of its own: `flow_cli::flow` is handed its gate "
        "before a text is read. A result that comes later is told by `Core::done` and `Core::fail`, without a gate.",
        "`docs/TASKS.md` tells users how tasks are performed, and `examples/tools/perform` performs them.",
    ], [Thing("the gate of `flow`", r"NoteGate|note_gate"),
        Thing("a gate of a program's own", r"DeskGate|impl Gate for|as Gate", r"\bDeskGate\b|impl Gate|trait `Gate`")],
        "a run, its session and its report", "a gate that calls a service"),
    # refusals, limits and statuses
    Change("A refusal", [
        "A refusal of an input has its cause (`flow_front/specs/Refusal.antt`), its status (`flow_front/src/status.rt`) and its text "
        "(`flow_findings/src/refused.rt`) in one place each. The order of refusals is the order of stages: `docs/reference/statuses.md`.",
        "A refusal of a text is data of `flow_form`, found by the reader or by the check of names. `flow_desk/src/stop.rt` tells its line "
        "and column, `flow_why_cli/src/refusal_words.rt` its reason, and `flow_fault/src/hint.rt` a hint.",
        "A refusal of a call of a run is data of `flow_ask/src/refusal.rt`, and has its place in the table of answers. Its word stands in "
        "three tables: `flow_reply/src/answer.rt` (reports), `flow_case_words/src/refused.rt` (cases) and `flow_step/src/json.rt` (the "
        "library), each with its definition.",
        "docs/reference has each refusal with its cause: of commands `docs/reference/sessions_and_reports.md` and "
        "`docs/reference/policies.md`, of texts `docs/reference/text.md`. `bindings/python/README.md` has those of a step as a table. "
        "`docs/SURPRISES.md` has those that people meet.",
        "`bench/duties.py` and `bench/model.py` answer commands by themselves.",
    ], [Thing("a refusal of a text: of its bytes, its grammar, its names", r"\bNotAscii\b|\bTooDeep\b|\bRepeated\b",
              r"(refused: |`)(byte|deep|repeated)\b"),
        Thing("a refusal of a workflow", r"\bRecursive\b", r"\brecursive\b|in a ring"),
        Thing("a refusal of what is compiled", r"\bTooManyWays\b", r"refused: options"),
        Thing("a refusal of an input of one mode", r"\bJournals\b", r"refused: journals",
              only={"flow_findings", "flow_front", "flow_cli", "flow_cli_laws"}),
        Thing("a refusal of a call of a run", r"\bNoChoice\b", r"no-choice|no other choice"),
        Thing("a refusal of a duty", r"\bSeparate\b|\bSeparated\b|Denied::", r"refused separate|`separate`, `bind`",
              only={"flow_ask", "flow_roles", "flow_reply", "flow_case_words", "flow_step", "flow_case_talk", "flow_run_why_words", "flow_duty"}),
        Thing("a refusal of a kept file", r"\bForeign\b", r"refused: foreign|\bforeign\b")],
        "refusals, limits and statuses", "`busy N` of `take`"),
    Change("A limit", [
        "A limit is a constant of `flow_model/src/limits.rt`, which code and clauses name.",
        "A limit of a session or a journal is looked at where that is read. A limit of a workflow has a refusal of its own, with a "
        "place in the order of refusals: `flow_expand/specs/Refusals.antt`, or `flow_excise/src/limits.rt` for what is compiled.",
        "A limit has a row at it and a row past it.",
        "To change a limit is one line in `limits.rt`, and its figure in documents, rows, scripts and texts of the code. Run "
        "`bench/changing.py '16[,_]?384'` with its figure.",
        "`MOST_LEAVES` is also the width of sets (`leaf_rows/src/lib.rt`) and of the rows of plans (`flow_plan/src/table.rt`). "
        "`MOST_ENTRIES`, `MOST_WORKERS`, `GREATEST_SEED` and `GREATEST_SIZE` are figures in a proof of `flow_words`.",
        "The table of limits is in `docs/reference/statuses.md`. `docs/BENCHES.md` and `docs/SCALE.md` tell what was measured at a limit.",
    ], [Thing("a limit of sessions and journals", r"MOST_LINES|16_?384", r"16[,_]?384"),
        Thing("a limit of a workflow's text", r"MOST_FLOWS|Part::Flows|Part\.Flows|\bFlows\b", r"\b256\b.*sub-workflows|sub-workflows.*\b256\b|refused: flows|MOST_FLOWS"),
        Thing("a limit of what is compiled", r"GREATEST_BULK|TooBulky|\bBulk\b", r"262[,_]?144")],
        "refusals, limits and statuses", "16,384 lines become 65,536"),
    Change("A limit on cases", [
        "A case has the limits of its texts and its run. Those of its files are constants beside what reads them: moves and locks in "
        "`flow_case_files/src`, bytes of a text in `flow_case_files/src/folder.rt`, the history in `flow_case_begin/src/texts.rt`, the trail in "
        "`flow_trail/src/trail.rt`, threads in `flow_call/src/words.rt`.",
        "What is past a limit is said in words, with a status: `flow_call_cases/src/faults.rt`, `flow_call_move/src/said.rt`, "
        "`flow_call_folders/src/unseen.rt`.",
        "A limit of a line of the trail, as of a note, is looked at where a line is told: `flow_trail/src/tell.rt`, with a `TellRefusal`. It is "
        "also one where a line is read back (`flow_trail/src/read_all.rt`), else a case can be written that is not opened.",
        "`docs/reference/cases.md` tells it where the command stands. The table of `docs/reference/statuses.md` has limits of texts and "
        "runs. `man/flowdesk.1` and the help of "
        "`flow_call_cases/src/words.rt` tell what an option takes.",
        "For a limit on threads or seconds see [an option of `flowdesk`](#an-option-of-flowdesk).",
    ], [Thing("what a trail refuses to tell", r"TellRefusal|\bFull\b", only={"flow_trail", "flow_case_cli", "flow_case_book", "flow_case_talk"},
              said=r"(--|\\-\\-)note\b"),
        Thing("how often a case is moved", r"MOST_MOVES", r"1,000 times|MOST_MOVES|before-"),
        Thing("how long a history, a text and a trail of a case are", r"MOST_STEPS|GREATEST_TEXT|GREATEST_RUN|MOST_BYTES",
              only={"flow_case_begin", "flow_case_files", "flow_case_book", "flow_case_seen", "flow_case_cli", "flow_trail", "flow_call_cases", "flow_call_folders",
                    "flow_call_move", "flow_call_texts", "flow_desk", "flow_call"}, said=r"\b65,536 entries|MOST_STEPS"),
        Thing("who says what is past a limit", r"fn said_of|fn say_\w+|fn why_\w+", only={"flow_call_cases", "flow_call_move", "flow_call_folders"})],
        "refusals, limits and statuses", "a case has at most 100 notes"),
    Change("An exit status", [
        "A status of `flow` stands in `flow_front/src/status.rt`, in order; `flowkeep` has one more (`flow_keep_cli/src/status.rt`), and "
        "`flowdesk` two (`flow_call/src/status.rt`).",
        "The calls of `flowdesk` return it. The second list has those that return status 8.",
        "Its table is in `docs/reference/statuses.md`. Each man page has its own below EXIT STATUS, and the comment of a call of the library "
        "has those of `include/flow.h`, with `bindings/python/flow/library.py` and `bindings/rust/src/lib.rs`.",
    ], [Thing("the status that a case is in use, of `flowdesk` alone", r"\bBUSY\b", r"\bBUSY\b|^\| 9 \||statuse?s? (is |of )?9\b|^\.B(R|I)? 9\b"),
        Thing("the status that a file failed", r"\bDISK\b|KeepStatus::Disk|KeepStatus\.Disk", r"\bDISK\b|^\| 8 \||[Ss]tatus 8\b|^\.B 8\b",
              only={"flow_call", "flow_keep_cli", "flowkeep", "flow_call_cases", "flow_call_folders", "flow_call_logs", "flow_call_move", "flow_call_policies", "flow_call_texts"}),
        Thing("statuses of `flow` and of the library", r"\bSpent\b|Status::|FLOW_\w+", r"FLOW_SPENT|\bSPENT\b",
              only={"flow_front", "flow_keep_cli", "flow_c", "flow"})],
        "refusals, limits and statuses", "status 10"),
    # words of a call
    Change("A mode", [
        "Where no crate answers yet what it asks, it has a crate of its own over workflows and plans, with a line in `crates.txt` and in "
        "`SECONDS` of `prove`.",
        "A mode is a chain of stages (`Then`), so each refusal comes where its stage is. A refusal that is new is a section above.",
        "Where its second part is a text of its own, `flow_record` reads it, and `flow_front/specs/Refusal.antt` has its causes.",
        "The text of what it finds is printed in `flow_findings`, or in `flow_reply` where it is of a run.",
        "`flow_cli/specs/Output.antt` says of each mode whether it reads, asks a gate and starts threads. A mode with threads stands in "
        "`find` of `Crew` in `flow_cli/src/call.rt`, any other in the `find` above it. Only `flow_crew` and `flow_audit` start threads.",
        "A mode without threads that reads an input is one of the library too: `include/flow.h`, `flow_c/src/request.rt` and its "
        "definition, `bindings/python/flow/library.py`, `bindings/rust/src/lib.rs`.",
        "Rows of a mode stand in a file of their own, which `crates/test_cases/args` names. `bench/hostile.py` calls every mode.",
    ], [Thing("a mode that reads a list of leaves", r"\bTrace\b|\btrace\b|trace_text|IsTraced", r"`?flow trace\b|\|trace\||`trace`|\btrace\W+verify\b|'trace:|FLOW_TRACE|\bTRACE\b",
              only={"flow_words", "flow_cli", "flow_cli_laws", "flow", "flow_c"}),
        Thing("what that mode asks", r"check_trace|\bChecked\b|\bread_journal\b", but={"flow_trace", "flow_record"}),
        Thing("a mode with threads", r"\b[Aa]udit\b|audit_text|Auditors|IsAudited", r"`?flow audit\b|\|audit\||`audit`|^ *audit$|'audit:|^\.B audit|\bduty audit\b",
              only={"flow_words", "flow_cli", "flow_cli_laws", "flow_findings", "flow_front", "flow"})],
        "words of a call", "`flow MODE`"),
    Change("An option of `flow`", [
        "An option of `flow` is a number with bounds: an `arg` of the command in `flow_words/src/command.rt`. An option without a number, or "
        "with a word, is a new kind of rule there.",
        "The bounds stand as figures in `crates/flow_words/proofs/request/request_in/Answers.antt`.",
        "`flow_c/src/request.rt` and `flow_c/specs/Calls.antt` make a whole request, with each option.",
        "It acts where the mode is: `bench/changing.py` with the mode's word lists that. An option of `audit` acts in "
        "`flow_audit/src/cuts.rt` and `flow_audit/src/audits.rt`, with `flow_audit/specs/Cuts.antt`, and `flow_cli/src/audit.rt` hands it on.",
        "Where it turns the form of what is written, the printer of each finding is handed it, and so are `flow_cli/specs/Finding.antt` "
        "and the laws: the second list has the printers.",
        "Its words are in `flow_words/src/help.rt`, `flow_words/src/usage.rt`, `man/flow.1`, both completions and "
        "`docs/reference/statuses.md`: `bench/words.py` compares them.",
    ], [Thing("an option with a number", r"GREATEST_SIZE|\bsize\b", r"(--|\\-\\-)size",
              only={"flow_words", "flow_cli", "flow_cli_laws", "flow_model", "flow_gen", "flow_reply", "flow_c"}),
        Thing("printers of what a mode finds", r"\bprint_(check|checked|verified|findings|summary|report|refused|reply)\b|finding_text"),
        Thing("where an audit acts", r"\bcut_\w+|cuts?_of|\baudit_all\b|\bAudits?\b|MOST_JOURNALS", only={"flow_audit", "flow_cli", "flow_findings"})],
        "words of a call", "`flow audit --first N`"),
    Change("A call of `flowdesk`", [
        "Its command is made beside what answers it, in a crate `flow_call_*`: texts, logs, cases, policies, a move, folders. "
        "`crates/flowdesk/src/words.rt` names the commands, and `crates/flowdesk/src/main.rt` leads each to its call.",
        "What it says is made in a crate `flow_*_cli`, or in `flow_list`, `flow_export` and the crates of pages.",
        "Its words are in `man/flowdesk.1`, twice in each completion (the list of calls, its options), and in docs/reference. A new status or an old "
        "one with one more meaning is in `docs/reference/statuses.md`. `README.md` names the calls that a reader meets first.",
        "`crates/test_cases/src/main.rt` calls what answers it; `crates/test_cases/args` names the rows.",
    ], [Thing("a question to a policy", r"\bstaffed\b|\bstaffed_\w+|\w+_staffed\b", r"\bstaffed\b"),
        Thing("a call on a folder of cases", r"export_command|\bexport\b|\bexported\b", r"flowdesk export|\blist export\b|\blist\W+export\b",
              only={"flowdesk", "flow_call_folders"})],
        "words of a call", "`flowdesk compare A B`"),
    Change("An option of `flowdesk`", [
        "An option is a line beside its call, made by `option` or `flag` of `flow_call/src/words.rt`, and read there by its name. An option "
        "of each command of a case stands in `flow_call_cases/src/words.rt`.",
        "Its words are in `man/flowdesk.1`, in each completion, and in docs/reference. `bench/changing.py --states` finds all places of "
        "an option. Nothing compares them.",
        "What it sets is handed to what answers the call: look from the first file of the list.",
        "An option that is a filter of lists, or a form of export, has a section below.",
    ], [Thing("an option of one call", r"\"states\"", r"(--|\\-\\-)states"),
        Thing("an option of each command of a case", r"\"note\"|\"wait\"", r"(--|\\-\\-)note\b", only={"flow_call_cases", "flow_call_move", "flow_call"}),
        Thing("an option of several calls, with threads", r"\"jobs\"|MOST_JOBS", r"(--|\\-\\-)jobs")],
        "words of a call", "`--limit N`"),
    Change("A word of a call of `flowkeep`", [
        "`flowkeep` reads its words itself: `flow_keep_cli/src/words.rt`, with `flow_keep_cli/specs/Words.antt`. Its usage and its help are "
        "texts of `flow_keep_cli/src/call.rt`, which `flow_keep_cli/specs/Lines.antt` has too.",
        "What it answers is a call of `flow_keep_cli/src/call.rt`, with `flow_keep_cli/specs/Course.antt`. What it needs of the file is "
        "`flow_keep`.",
        "A command in its session is [a command of sessions](#a-command-of-sessions).",
        "Its words are in `man/flowkeep.1`, in each completion, and in `docs/reference/sessions_and_reports.md`. Rows are "
        "`crates/test_cases/data/keep.rows`; `bench/kept.py` calls it.",
    ], [Thing("the option `--steps` of `flowkeep`", r"\"--steps\"|steps_of|IsSteps\b|asks_for_help|\bIsHelp\b|\bIsCall\b|\bUSAGE\b|\bHELP\b|\busage\b",
              r"flowkeep.*(--|\\-\\-)steps|_unused --steps|flowkeep --help|flowkeep\)$|(--|\\-\\-)steps.*flowkeep", only={"flow_keep_cli", "flowkeep"})],
        "words of a call", "`flowkeep FILE --check`"),
    # a case
    Change("A command of a case", [
        "Its word is read in `flow_names`: `flow_names/src/verb.rt` has the words, `flow_names/src/command.rt` the commands, "
        "`flow_names/src/read.rt` what stands behind each.",
        "`flow_case_talk/src/plan.rt` leads each command to what is done for it. A command that only looks is "
        "answered in `flow_case_talk/src/looks.rt`: its last case is `_ =>`, which prints the report, so the compiler tells nothing there.",
        "`flow_case_talk/src/reply.rt` hands on who asks and which form. A command that asks by whom needs the speaker from there.",
        "A member of what is answered as JSON: `flow_case_talk/src/made.rt`, `flow_case_talk/src/refused.rt` and `flow_case_talk/src/todo.rt`.",
        "A command that makes an entry asks `flow_core` by an `Ask`: see [a command of sessions](#a-command-of-sessions).",
        "As a word of the command line it stands in `COMMANDS` of `flow_call_cases/src/words.rt`, whose length is a figure.",
        "Completions have it in a list, and so have `man/flowdesk.1` and the table of `docs/reference/cases.md`. Rows are "
        "`crates/test_cases/data/dialogues.rows`; `bench/cases.py` calls commands.",
    ], [Thing("a command that only looks", r"\b(History|Undone)\b|\"history\"|history, undone|history_text", r"\bhistory\W+undone\b|`undone|\"undone\"",
              only={"flow_names", "flow_case_talk", "flow_call_cases", "test_crashes", "flow_case_book"}),
        Thing("who hands on the speaker and the form", r"\bAsker\b|\bspeaker\b|\bForm\b|\brespond\b|\blook_text\b", only={"flow_case_talk"}),
        Thing("a command that makes entries", r"\bTidy\b|\btidy_\w+|\"tidy\"", r"\btidy\b",
              only={"flow_names", "flow_case_talk", "flow_call_cases", "flow_case_book", "test_crashes"})],
        "a case", "`flowdesk mine CASE`"),
    Change("A file of a case", [
        "`flow_case_files/src/made.rt` writes it with the folder, and `flow_case_files/src/folder.rt` reads it. "
        "`flow_case_files/src/moved.rt` takes it along when a case is moved.",
        "`flow_call_cases/src/made.rt` has the option of `new` for it. A case that is read again is opened in "
        "`flow_case_book/src/opened.rt`. Lists and exports read cases in `flow_call_folders/src/read.rt`, without a lock: their files are "
        "`CaseFiles`.",
        "A file that no seal covers can be changed by anybody: `docs/reference/cases.md` says so.",
        "What is shown of it is on the page of a case: `flow_call_cases/src/paged.rt` hands it to `flow_case_page/src/shown.rt`, "
        "`docs/reference/pictures_and_pages.md` tells what a page has. In a list or an export it is a member of a line, below.",
        "`bench/moves.py`, `bench/cases.py` and `bench/pages.py` make folders of cases.",
    ], [Thing("the file `tidy`", r"\bTIDY\b|\b(is_)?tidied\b|\"tidy\"", r"`tidy`|(--|\\-\\-)tidy|\"tidy\""),
        Thing("who names the files of a case", r"\bTRAIL\b|\bENTRIES\b|\bPOLICY\b|\bWORKFLOW\b|\"policy\"|\bCaseFiles\b",
              only={"flow_case_files", "flow_call_cases", "flow_call_folders", "flow_call_move", "flow_call_policies", "flow_call_texts", "flow_call"},
              said=r"trail\.jsonl"),
        Thing("what the page of a case is made of", r"\bshown_case\b|\bcase_page\b|pub fn \w*page\w*|\bpaged\b|\bShown\b",
              only={"flow_call_cases", "flow_case_page", "flow_folder_page", "flow_call_folders"})],
        "a case", "a title, in `CASE/title`"),
    Change("A member of a line of the trail", [
        "A line is data of `flow_trail/src/line.rt`. It is printed in `flow_trail/src/print.rt`, and read back byte for byte in "
        "`flow_trail/src/read.rt`, with `flow_trail/specs/Lines.antt`. A trail that exists must be read too.",
        "Who makes an entry is an `Asker` of `flow_case_cli/src/asker.rt`, made of the words of a call in `flow_call_cases/src/asked.rt`. A move "
        "tells each line again: `flow_call_move/src/retold.rt`.",
        "It is shown by `history` (`flow_case_talk/src/looks.rt`), on the page of a case (`flow_case_page/src/history.rt`), and as a column of an "
        "event log, below.",
        "`docs/reference/cases.md` shows a line. Scripts read trails by their members: those of the list.",
    ], [Thing("the member `note`", r"\bnote\b", r"\"note\"|counts\W+note|(--|\\-\\-)note\b",
              only={"flow_trail", "flow_case_cli", "flow_case_book", "flow_case_talk", "flow_case_page", "flow_case_seen", "flow_export", "flow_call_cases",
                    "flow_call_move"})],
        "a case", "from which machine an entry came"),
    Change("A check of `flowdesk verify`", [
        "The lines of the trail are read, with their seals, in `flow_trail`: a line that is none is found there when the case is opened. "
        "Whether they tell just the entries is `flow_trail/src/checked.rt` and `flow_trail/src/compare.rt`, with `flow_trail/specs/Due.antt`.",
        "What is found is a `VerifyRefusal` of `flow_trail/src/refusal.rt`, with its words. `flow_case_book/src/book.rt` promises when each "
        "comes, and `flow_call_cases/src/whole.rt` prints it and what means nothing.",
        "A check when a case is opened, and not only in `verify`, is in `flow_case_begin` and `flow_case_book/src/opened.rt`.",
        "`docs/reference/cases.md`, `docs/GUIDE.md`, `man/flowdesk.1` and `docs/PROMISES.md` tell what `verify` finds. `bench/cases.py` "
        "damages cases.",
    ], [Thing("what `verify` finds", r"VerifyRefusal", r"flowdesk verify|\bverify\b.*\b(seal|trail|[Cc]ase|CASE)\b|\b(seal|case)\b.*\bverify\b",
              only={"flow_trail", "flow_case_book", "flow_call_cases", "flow_case_cli", "test_crashes", "flow_case_seen"}),
        Thing("a line of the trail that is refused", r"\bBadLine\b|ReadRefusal", only={"flow_trail", "flow_case_begin", "flow_case_book", "flow_case_seen", "flow_call_cases",
                                                                                    "flow_call_folders", "flow_case_cli", "flow_list"})],
        "a case", "times in the trail do not go back"),
    Change("How a case stands", [
        "A state is one of `flow_case_state/src/state.rt`, with its word and its definition (`flow_case_state/specs/State.antt`, "
        "`flow_case_state/specs/Words.antt`).",
        "`flow_list/src/span.rt` reads its word, and `flow_list/src/words.rt` shows it. `flow_folder_page/src/stand.rt` has a row for each.",
        "`flow_call_folders/src/listed.rt` has the words of `--state` in a list. So have the completions, which no script compares.",
        "`todo` tells it in words of its own: `flow_case_talk/src/todo.rt`. The tables of states are in `docs/reference/cases.md` and, of a page, in "
        "`docs/reference/pictures_and_pages.md`.",
    ], [Thing("a state of a case", r"StuckByDuties|stuck_by_duties|CaseState::|CaseState\.", r"stuck_by_duties")],
        "a case", "`paused` in `flowdesk list`"),
    # lists and logs
    Change("A filter of lists", [
        "A filter is a member of `Filter` in `flow_list/src/filter.rt`, with `flow_list/specs/Filter.antt`. Its value is read in "
        "`flow_list/src/span.rt` where it is a word of its own.",
        "`flow_call_folders/src/listed.rt` has its option and makes the `Filter`.",
        "What it asks of a case must be in the line: `flow_list/src/line.rt`, next section.",
    ], [Thing("a filter of lists", r"\bFilter\b|\buntil\b|IsOld|IsShown|span_in|\"older\"", r"(--|\\-\\-)older", only={"flow_list", "flow_call_folders"})],
        "lists and logs", "`list --out USER`"),
    Change("What a line of a list tells", [
        "A line is `CaseLine` of `flow_list/src/line.rt`. `flow_list/src/words.rt` writes it in words and `flow_list/src/json.rt` as an object; "
        "neither goes by a list of members, so the compiler does not tell what is left out.",
        "A page of a folder has data of its own, `flow_folder_page/src/data.rt`. `flow_call_folders/src/paged.rt` makes it of the line.",
        "The members of the object are in the row `--json` of `docs/reference/cases.md`.",
    ], [Thing("what is out, of a line", r"\bTaskOut\b|\bouts?\b|\"out\"", r"`out`|\[\"out\"\]|, `out`", only={"flow_list", "flow_folder_page", "flow_call_folders"})],
        "lists and logs", "the last note, in `list --json`"),
    Change("A column of an event log", [
        "A column is a member of `LogRow` in `flow_export/src/log_row.rt`. Its definition is `said` in `flow_export/specs/Rows.antt`. That "
        "what is written is read back is `flow_export/specs/ReadBack.antt`, with its law in `flow_export/src/read_back.rt`.",
        "Each form writes it by itself: `csv_form`, `json_form`, `sql_form` and `xes_form` of `flow_export/src`. CSV and SQL have a list of names, "
        "too, which no compiler compares with the fields.",
        "Where it is of the trail, it comes by `Teller`: `flow_case_seen/src/tellers.rt`.",
        "Who reads the log by columns: `bench/log_forms.py` and `bench/many.py`; as `flowdesk log` goes by names of "
        "columns, it takes one more.",
        "The table of columns is in `docs/reference/cases.md`.",
    ], [Thing("the column `lifecycle`", r"\blifecycle\b|\bLifecycle\b", r"\blifecycle\b"),
        Thing("the column `note`, which comes of the trail", r"\bTeller\b|\bnote\b|\bread_back\b", r"`counts`, `note`|counts\W+note",
              only={"flow_export", "flow_case_seen", "flow_list"})],
        "lists and logs", "how long each task was out"),
    Change("A form of an event log", [
        "A form is a file `*_form.rt` of `flow_export/src`, with a definition, and a case of `Form` in `flow_call_folders/src/exported.rt`: head, "
        "rows of a case, end.",
        "Its word stands there in two lists, `called` and `Names`. Completions have it behind `--form`: in `completions/flow.bash` for `export`, "
        "in `completions/_flow` for all calls.",
        "`man/flowdesk.1` and `docs/reference/cases.md` tell each form. `bench/log_forms.py` reads each form back.",
        "`docs/ARCHITECTURE.md` names the forms.",
    ], [Thing("the form `xes`", r"\bXes\b|xes_\w+|XES_|\"xes\"", r"\bxes\b|\bXES\b", but={"flow_view"})],
        "lists and logs", "`export --form ocel`"),
    Change("What `flowdesk log` tells", [
        "What is found of a case of a log is a `Verdict` of `flow_conformance/src/judge.rt`, and what keeps an event from fitting a `Cause`. "
        "`flow_log` finds it, and `flow_log_cli` judges the sequences of a log.",
        "Three printers write it: `text_form`, `csv_form` and `json_form` of `flow_conformance/src`. `flow_call_logs/src/told.rt` has the options "
        "and the forms.",
        "`docs/reference/logs.md` has its lines, columns and members. `bench/logs.py` and `bench/fits.py` judge logs by themselves.",
    ], [Thing("verdicts and forms of a log", r"\bwrite_(text|csv|json)\b|\bForm::|\bDeviates?\b|\bUndecided\b|\bCause\b",
              r"flowdesk log.*(--|\\-\\-)form|text csv json|\(svg mermaid dot text csv|\bdeviates\b",
              only={"flow_conformance", "flow_call_logs", "flow_log_cli", "flow_log"})],
        "lists and logs", "`log --form xml`, one more verdict"),
    # reasons and findings
    Change("A reason of `why` and `explain`", [
        "A reason is data of `flow_reason/src/reason.rt`. `flow_reason/specs/Reasons.antt` says when it holds, and in which order they are "
        "asked; `flow_reason/src/leaf.rt` asks them.",
        "In words it is printed by `flow_reason/src/words.rt`, and of a session by `flow_run_why_words/src/reason_words.rt`. As JSON it is "
        "printed by `flow_case_why/src/object.rt` for a case, and by `flow_run_why_words/src/reason_json.rt` for a session. "
        "`flow_case_talk/src/details.rt` adds the words of constraints.",
        "The words of JSON are in `docs/reference/text.md` and `docs/reference/cases.md`. `bench/blocked.py` judges each reason by "
        "itself.",
    ], [Thing("a reason, a case for each", r"WaitsByConstraints|waits_by_constraints|GivenUp|given_up", r"waits_by_constraints|given_up",
              but={"flow_residual", "flow_plan"}),
        Thing("who asks for a reason", r"why_leaf|\bReason\b|push_reason|push_why", without=r"WaitsByConstraints|GivenUp",
              only={"flow_reason", "flow_case_why", "flow_case_talk", "flow_case_page", "flow_folder_page", "flow_run_why_words", "flow_run_why_cli", "flow_call_move"})],
        "reasons and findings", "`waits_by_duty`"),
    Change("A finding of `flowdesk lint`", [
        "A finding is a kind of `flow_lint/src/kind.rt`, found in a file of its own, and told in the order of `flow_lint/src/findings.rt`, with "
        "`flow_lint/specs/Finding.antt`.",
        "Its word, its line and its object are in `flow_lint_cli/src/words.rt` and `flow_lint_cli/src/json.rt`. "
        "`flow_lint_cli/src/places.rt` has the place of the word in the text, and `flow_lint_cli/src/things.rt` leads to it.",
        "A finding of a policy is `flow_policy_lint/src/findings.rt` and `flow_questions_cli/src/finding_words.rt`, the second list.",
        "`man/flowdesk.1` lists the kinds, and the tables of `docs/reference/text.md` and `docs/reference/policies.md` do. Rows are "
        "`crates/test_cases/data/lint.rows` and `crates/test_cases/data/questions.rows`.",
    ], [Thing("a finding of a text", r"LoneIso|lone_iso|\bisos\b", r"lone_iso|among goals that are done|inside an iso", only={"flow_lint", "flow_lint_cli"}),
        Thing("a finding of a policy", r"IdleRole|idle_role|\bUnmetBind\b|unmet_bind", r"idle_role|unmet_bind")],
        "reasons and findings", "`double_not`"),
    Change("A hint where a text is refused", [
        "A hint is found by `flow_fault/src/hint.rt`, with `flow_fault/specs/Hints.antt`. Its word in JSON and its line are in "
        "`flow_why_cli/src/hint_words.rt`.",
        "A hint for a line of a session or a journal is in `flow_run_why_words/src/line_words.rt`, and for a policy in "
        "`flow_case_why/src/policy.rt`.",
    ], [Thing("a hint", r"GreatNumber|great_number|\bBrackets\b", r"great_number|`hint`")],
        "reasons and findings", "`wrong_case`: Take in place of take"),
    # pictures and pages
    Change("A form of picture", [
        "A picture is data (`flow_view/src/picture.rt`) with places. A form without places is nodes and edges: `flow_chart`. One with "
        "places is a crate beside `flow_svg`.",
        "Which printer is called is decided in `flow_desk/src/depict.rt`. Its word stands in `flow_call_texts/src/drawn.rt` and is read in "
        "`flow_call/src/sheet.rt`. A text inside it is escaped in `flow_draw/src/escape.rt`.",
        "Completions have the word behind `--form`, `man/flowdesk.1` and `docs/reference/pictures_and_pages.md` tell the forms. "
        "`bench/pictures.py` tries forms and marks.",
    ], [Thing("a form of picture", r"\b[Mm]ermaid\b|print_mermaid|in_mermaid", r"\b[Mm]ermaid\b")],
        "pictures and pages", "`draw --form png`"),
    Change("A mark of a leaf", [
        "A mark says where a run stands at a leaf: `flow_view/src/mark.rt`. `flow_desk/specs/Mark.antt` has their order.",
        "Each form shows it: `flow_svg/src/style.rt` has its colours by day and by night, `flow_chart/src/words.rt` its class.",
        "Cases have marks too, and the words of pages: `flow_case_page/src/tasks.rt`. The table of marks is in "
        "`docs/reference/pictures_and_pages.md`.",
    ], [Thing("a mark", r"\bClaimed\b|\bclaimed\b", r"\bclaimed\b",
              only={"flow_view", "flow_draw", "flow_svg", "flow_chart", "flow_desk", "flow_page", "flow_case_page", "flow_folder_page", "flow_call_cases"}),
        Thing("who makes marks", r"\bMark\b|marks_of|\bmarked\b", without=r"\bClaimed\b|\bclaimed\b",
              only={"flow_view", "flow_draw", "flow_svg", "flow_chart", "flow_desk", "flow_case_page", "flow_folder_page", "flow_call_texts", "flow_call_cases"})],
        "pictures and pages", "a mark for what was taken back"),
    Change("A style of pictures and pages", [
        "Colours and lines of an SVG are `flow_svg/src/style.rt`, of a page `flow_page/src/style.rt`: one text each, by day and by night.",
        "A choice of styles is a member of `Sheet` (`flow_draw/src/sheet.rt`), read in `flow_call/src/sheet.rt`, with an option in "
        "`flow_call_texts/src/drawn.rt`; a page has its options in `flow_call_cases/src/words.rt`. `flow_desk/src/depict.rt` hands the sheet to "
        "each printer.",
        "Pictures in the documents are printed by the program: those below `docs/pictures`. `bench/browser.py` and `bench/pages.py` look at "
        "styles.",
    ], [Thing("where a style is printed", r"\bSTYLE\b|push_style|@media", r"prefers-color-scheme|[Bb]y night|at night|dark"),
        Thing("what a picture is asked for", r"\bSheet\b|\bfold\b|\bsheet_in\b", r"(--|\\-\\-)fold\b",
              only={"flow_call_logs", "test_cases", "flow_draw", "flow_svg", "flow_chart", "flow_desk", "flow_call", "flow_call_texts", "flow_call_cases", "flow_case_page"})],
        "pictures and pages", "`draw --style print`"),
    Change("A part of a page", [
        "A page is made of parts: `flow_case_page/src/shown.rt` for a case, `flow_folder_page/src/shown.rt` for a folder. `flow_page` has what "
        "both are written with, and escapes texts.",
        "What it needs of the case is handed by `flow_call_cases/src/paged.rt`, and of the folder by `flow_call_folders/src/paged.rt`.",
        "`docs/reference/pictures_and_pages.md` tells what a page has; `bench/pages.py` and `bench/browser.py` look at it.",
    ], [Thing("what steps back took, on the page of a case", r"\bundone\w*|push_undone|write_undone", r"\b[Uu]ndone\b.*page|page.*\b[Uu]ndone\b",
              only={"flow_case_page", "flow_call_cases"}),
        Thing("who is stuck, on the page of a folder", r"\b[Ss]tuck\w*", only={"flow_folder_page", "flow_call_folders"}, said=r"stuck.*page|page.*stuck")],
        "pictures and pages", "the notes of a case"),
    # programs and libraries
    Change("A program beside `flow`", [
        "A program is a folder below `crates` with `src/main.rt`, and `specs/` and `proofs/` where it has clauses. `stdin` and `args` are "
        "what the gate gives it, and `stdout` is what it must write.",
        "Its line in `crates.txt` stands among the programs. `prove NAME` makes it: its usage names the programs. The gate refuses a program "
        "that takes more of the runtime than `HANDLES` allows.",
        "`install` copies it: its head and its loop name the programs. It has a page of its own below `man`, a line `complete` in "
        "`completions/flow.bash`, the first line and a case in `completions/_flow`, a row in the table of `README.md`, and a place in `PROGRAMS` of "
        "`bench/documents.py`. `bench/installed.py` tries what is installed. `docs/PROVING.md` tells what `prove` makes.",
        "`flow_front` reads and prepares. `flow_core` and `flow_crew` run. `flow_reply` and `flow_findings` print. `flow_io` "
        "writes. `answer_alone` of `flow_cli/src/call.rt` answers a whole call of every mode without threads and is handed no runtime: a "
        "program or a library for another language exports that.",
    ], [Thing("programs and what they call", r"\bmain\b|\bread_input\b|\bprepare\b|\banswer_alone\b",
              r"\bflow flowkeep flowdesk\b|\bflow, flowkeep|\"flowkeep\", \"flowdesk\"|complete -F|#compdef|\bflow_keep_cli\b.*programs|man/flowkeep|^flowkeep:|flowkeep\.1|crates/flowkeep",
              only={"embedding", "flow", "flowkeep", "flowdesk", "flow_cli", "flow_keep_cli", "flow_desk", "flow_front"})],
        "programs and libraries", "`flowwatch`"),
    Change("A call of the library", [
        "A call is exported by `flow_c/src/lib.rt`, with what it promises in `flow_c/specs/Calls.antt`. What it answers is made in a crate "
        "without C: `flow_step` is that of `flow_step`.",
        "`include/flow.h` declares it, and `include/flow.map` names it: without a line there a program that links `libflow.so` does not find it.",
        "Python loads it in `bindings/python/flow/library.py`, and `bindings/python/flow/case.py` or `bindings/python/flow/workflow.py` has the method. "
        "Rust declares it in `bindings/rust/src/lib.rs`. `bindings/python/README.md` and `bindings/rust/README.md` show it, and "
        "`docs/PROMISES.md` and `docs/ARCHITECTURE.md` tell of the library.",
        "`bench/library.c` calls it for `bench/library.py` (by `bench/library_calls.py`), and `examples/c/step.c` shows it.",
        "`prove` and `install` take the library as it is. `bench/installed.py` compares calls, modes and statuses of header, map, code and "
        "bindings.",
    ], [Thing("the calls of the library", r"flow_answer|answer_bytes|flow_step\b|step_bytes|IsHandedOver|hand_over", r"\bflow_(answer|step)\b(?!/)", only={"flow_c"}),
        Thing("what a step tells, as JSON", r"\bpush_\w+|\bjson\w*", only={"flow_step"}, said=r"came\[|\"entries\"")],
        "programs and libraries", "`flow_undo`"),
    Change("A place where runs are kept, a source or a sink", [
        "A disk is an `impl` of `Disk`: bytes at places, with syncs, and what a crash may leave. `flow_keep` and `flow_trail` write to one.",
        "A source and a sink are traits of `flow_io`, with counted faults. `test_doubles` has some to copy.",
    ], [Thing("the disk of `flowkeep`", r"FileDisk|file_disk", but={"flow_call_cases"}),
        Thing("a disk in memory", r"MemDisk|mem_disk"),
        Thing("who calls a disk for a kept run", r"\bDisk\b", only={"flow_keep", "flow_keep_cli", "flowkeep"}),
        Thing("who calls a disk for a trail and a case", r"\bDisk\b",
              only={"flow_trail", "flow_case_cli", "flow_case_book", "flow_case_seen", "flow_case_files", "test_crashes"}),
        Thing("a source over std's reader", r"StdSource|std_source"),
        Thing("what reads a source or writes to a sink", r"\bread_all\b|\bwrite_all\b",
              only={"flow_front", "flow_keep_cli", "flow_cli", "embedding"})],
        "programs and libraries", "a disk over a database"),
]
