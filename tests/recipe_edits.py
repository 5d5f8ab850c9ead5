"""The edits that HACKING's recipe "add a request" asks for, for a request of each kind that `tests/recipe` adds.

`["hello"]` names no document. `["total",doc,CUR]` is a look that replies what `sum` does. `["count",doc]` reads how many operations the
document has logged. recipe_change.py has the edits for a change."""

from typing import List, NamedTuple, Tuple

ROW = "tests/whole-program/rows"


class Edit(NamedTuple):
    """An edit: the kind of its request, the step, the file, what the step says of the place, and its pairs of old and new text. `{N}` in
    an old text is a number, and `{N+1}` in the new one the next."""

    kind: str
    step: int
    file: str
    places: List[str]
    pairs: List[Tuple[str, str]]


def behind(line: str, new: str) -> Tuple[str, str]:
    """A pair: this text, and behind it another."""
    return line, line + new


def entry(kind: str, before: str, new: str) -> Edit:
    """An entry of the table, before that of another word."""
    return Edit(kind, 1, "protocol.json", ["an entry"], [(f'    {{"word": "{before}"', f'    {new},\n    {{"word": "{before}"')])


def clients(kind: str, javascript: Tuple[str, str], python: Tuple[str, str], tests: Tuple[str, str]) -> List[Edit]:
    """A method of the sessions in JavaScript and Python, and its tests."""
    return [
        Edit(kind, 2, "clients/js/session.mjs", ["session"], [javascript]),
        Edit(kind, 2, "clients/python/jcrdt/session.py", ["session.py"], [python]),
        Edit(kind, 2, "clients/js/test/session.test.mjs", ["test"], [behind("  equal(await client.version(), 2);\n", tests[0])]),
        Edit(kind, 2, "clients/python/tests/test_session.py", ["test"], [
            ("def test_what_is_read_is_what_was_put(", tests[1] + "\n\n\ndef test_what_is_read_is_what_was_put(")]),
    ]


LINES = "crates/replica_tests/src/lines.rt"
LENGTH = "static REQUESTS: [(&str, &str); {N}] = [\n", "static REQUESTS: [(&str, &str); {N+1}] = [\n"
EDITS_COUNT = "| `crates/*/must-fail` | {N} |", "| `crates/*/must-fail` | {N+1} |"

# ---- Without a document.

REQUESTS = "Request.TheVariants.{Quit, Version, Of}", "Request.TheVariants.{Quit, Version, Hello, Of}"
LINE_REPLIES = "{Opened, Bound, Version, Bye}", "{Opened, Bound, Version, Welcome, Bye}"

BARE = [
    entry("bare", "version", '{"word": "hello", "kind": "bare", "items": [], "replies": ["welcome"], "says": ["`[\\"welcome\\"]`"]}'),
    *clients("bare", behind('  version = async () => (await this.ask("version"))[0];\n', '  hello = async () => void (await this.ask("hello"));\n'),
             behind('        return int(self.ask("version")[0])\n', '\n    def hello(self) -> None:\n        self.ask("hello")\n'),
             ("  await client.hello();\n", "def test_hello(alice: Session) -> None:\n    alice.hello()")),
    Edit("bare", 3, LINES, ["kind_of", "REQUESTS", "its length", "a reply"], [
        behind('        Request::Version => "version",\n', '        Request::Hello => "hello",\n'),
        LENGTH,
        behind('    ("[\\"version\\"]", "version"),\n', '    ("[\\"hello\\"]", "hello"),\n'),
        behind('    assert!(rt; is_written_as(rt.alloc(), LineReply::Version, "[\\"version\\",2]\\n"));\n',
               '    assert!(rt; is_written_as(rt.alloc(), LineReply::Welcome, "[\\"welcome\\"]\\n"));\n')]),
    Edit("bare", 4, "docs/FORMATS.md", ["an example"], [behind('["version"]\n    ["version",2]\n', '["hello"]\n    ["welcome"]\n')]),
    Edit("bare", 4, f"{ROW}/hello/stdin", [f"{ROW}/version_2-version"], [('["version"]', '["hello"]')]),
    Edit("bare", 4, f"{ROW}/hello/stdout", [f"{ROW}/version_2-version"], [('["version",2]', '["welcome"]')]),
    Edit("bare", 4, "crates/session_core/must-fail/hello_ends_the_session.edit", ["planted bug"], [
        ("", "breaks: Session::answer_request\nfile: src/session.rt\nold: Request::Hello => LineReply::Welcome,\nnew: Request::Hello => LineReply::Bye,\n")]),
    Edit("bare", 4, "docs/VERIFICATION.md", ["VERIFICATION"], [EDITS_COUNT]),
    Edit("bare", 6, "crates/line_proto/src/request.rt", ["variants"], [behind("    Version,\n", "    /// Whether the session is there.\n    Hello,\n")]),
    Edit("bare", 6, "crates/line_proto/src/line_reply.rt", ["variants", "Drop"], [
        behind("    Version,\n", "    /// The session is there.\n    Welcome,\n"),
        behind("            LineReply::Version => {}\n", "            LineReply::Welcome => {}\n")]),
    Edit("bare", 7, "crates/line_proto/specs/Written.antt", ["request_data"], [
        REQUESTS, behind('request_data Version = list_data (string (codes "version") ∷ [])\n', 'request_data Hello = list_data (string (codes "hello") ∷ [])\n')]),
    Edit("bare", 7, "crates/line_proto/specs/Reading.antt", ["bare_requests"], [
        REQUESTS, ('(codes "version", Version) ∷ []', '(codes "version", Version) ∷ (codes "hello", Hello) ∷ []')]),
    Edit("bare", 7, "crates/line_proto/specs/Replies.antt", ["line_reply_data"], [
        LINE_REPLIES, behind('line_reply_data Version = worded (codes "version") (count_data 2 ∷ [])\n',
                             'line_reply_data Welcome = worded (codes "welcome") []\n')]),
    Edit("bare", 8, "crates/line_proto/src/parse.rt", ["bare_request"], [behind('        "quit" => Some(Request::Quit),\n', '        "hello" => Some(Request::Hello),\n')]),
    Edit("bare", 8, "crates/line_proto/src/write.rt", ["own_line"], [
        behind('        LineReply::Version => numbered("[\\"version\\",", VERSION),\n', '        LineReply::Welcome => fixed("[\\"welcome\\"]\\n"),\n')]),
    Edit("bare", 9, "crates/session_rules/specs/Session.antt", ["Serves"], [
        REQUESTS, behind("  Serves s Version response t = (response ≡ line_reply.Version) × (t ≡ s)\n",
                         "  Serves s Hello response t = (response ≡ line_reply.Welcome) × (t ≡ s)\n")]),
    Edit("bare", 9, "crates/session_core/src/session.rt", ["answer_request"], [
        behind("            Request::Version => LineReply::Version,\n", "            Request::Hello => LineReply::Welcome,\n")]),
]

# ---- A reading at a cursor.

TOTAL_ANSWER = """
pub returns-in-Total : goal.returns-in-Total
returns-in-Total c =
    rw c.in-Total.is
    (subst (λ (a : Reply). (a ≡ reply.Refused NoMemory) ⊎ LooksHere (tree_facts c.args.tree.now) (tree_values c.args.tree.now) look.Total c.args.cursor.now a)
    (sym c.total_reply.ensures) (reading_answered (IsSum (tree_facts c.args.tree.now)) (λ x. reply.Total x) c.args.cursor.now c.sum-in-Total.result c.sum-in-Total.ensures.reading))
"""
TOTAL_REPLY = """
fn total_reply(answer: Result<i128, Refusal>) -> Reply
    ensures { result ≡ reply_with (λ x. Reply.Total x) answer }
{
    match answer {
        Ok(sum) => Reply::Total(sum),
        Err(cause) => Reply::Refused(cause),
    }
}

fn sum_reply("""

LOOK = [
    entry("look", "deliver", '{"word": "total", "kind": "look", "items": ["doc", "CUR"], "replies": ["total"], '
          '"says": ["`[\\"total\\",TEXT]`"], "replica": true}'),
    *clients("look", behind('  version = async () => (await this.ask("version"))[0];\n',
                            '  /** @param {string} document @param {Cursor} cursor @returns {Promise<number | bigint>} */\n'
                            '  total = async (document, cursor) => integer((await this.ask("total", document, cursor))[0]);\n'),
             behind('        return int(self.ask("sum", document, cursor)[0])\n',
                    '\n    def total(self, document: str, cursor: Cursor) -> int:\n        return int(self.ask("total", document, cursor)[0])\n'),
             ('  equal(await client.total("d", [0, "total"]), 0);\n', 'def test_total(alice: Session) -> None:\n    assert alice.total("d", [0, "total"]) == 0')),
    Edit("look", 2, "tests/rules.mjs", ["rules"], [
        behind('      case "sum": return String(node.sum);\n', '      case "total": return String(node.sum);\n')]),
    Edit("look", 3, LINES, ["kind_of", "REQUESTS", "its length", "a reply"], [
        behind('        Look::Sum => "sum",\n', '        Look::Total => "total",\n'),
        LENGTH,
        behind('    ("[\\"sum\\",\\"d\\",[0]]", "sum"),\n', '    ("[\\"total\\",\\"d\\",[0]]", "total"),\n'),
        behind('    assert!(rt; is_answered_as(rt.alloc(), Reply::Known, "[\\"known\\"]\\n"));\n',
               '    assert!(rt; is_answered_as(rt.alloc(), Reply::Total(3), "[\\"total\\",\\"3\\"]\\n"));\n')]),
    Edit("look", 10, "crates/doc_api/src/ask.rt", ["Look"], [behind("    /// The sum of the counter.\n    Sum,\n", "    /// The sum once more.\n    Total,\n")]),
    Edit("look", 10, "crates/doc_api/src/reply.rt", ["Reply", "Drop"], [
        behind("    Sum(i128),\n", "    /// The sum once more.\n    Total(i128),\n"), behind("            Reply::Sum(_) => {}\n", "            Reply::Total(_) => {}\n")]),
    Edit("look", 10, "docs/RULES.md", ["RULES"], [
        behind("| sum | the sum of the numbers in the counter at the cursor |\n", "| total | the same |\n")]),
    Edit("look", 11, "crates/doc_rules/specs/Answers.antt", ["LooksHere"], [
        behind("LooksHere f values look.Sum = ReadsHere (IsSum f) reply.Sum\n", "LooksHere f values look.Total = ReadsHere (IsSum f) reply.Total\n")]),
    Edit("look", 11, "crates/doc_rules/proofs/OneAnswer.antt", ["OneAnswer"], [
        behind("one_look f values look.Sum = one_here (IsSum f) reply.Sum (one_sum f values)\n",
               "one_look f values look.Total = one_here (IsSum f) reply.Total (one_sum f values)\n")]),
    Edit("look", 12, "crates/line_proto/specs/Reading.antt", ["looks"], [
        ('(codes "sum", look.Sum) ∷ []', '(codes "sum", look.Sum)\n    ∷ (codes "total", look.Total) ∷ []')]),
    Edit("look", 12, "crates/line_proto/specs/Written.antt", ["look_word"], [
        behind('look_word look.Sum = codes "sum"\n', 'look_word look.Total = codes "total"\n')]),
    Edit("look", 12, "crates/line_proto/specs/Replies.antt", ["reply_data"], [
        ("Reply.TheVariants.{Items, Conflicts, Show, Sum, Operations}", "Reply.TheVariants.{Items, Conflicts, Show, Sum, Total, Operations}"),
        behind('reply_data (Sum total) = worded (codes "sum") (string (signed_decimal total) ∷ [])\n',
               'reply_data (Total total) = worded (codes "total") (string (signed_decimal total) ∷ [])\n')]),
    Edit("look", 12, "crates/line_proto/src/parse.rt", ["look_of"], [behind('        "sum" => Some(Look::Sum),\n', '        "total" => Some(Look::Total),\n')]),
    Edit("look", 12, "crates/line_proto/src/heap_line.rt", [], [
        behind('        Reply::Sum(total) => tagged_line(alloc, "sum", total),\n', '        Reply::Total(total) => tagged_line(alloc, "total", total),\n')]),
    Edit("look", 13, "crates/replica_core/src/read.rt", ["look_at"], [
        behind("        Look::Sum => sum_reply(sum(tree, cursor)),\n", "        Look::Total => total_reply(sum(tree, cursor)),\n"), ("\nfn sum_reply(", TOTAL_REPLY)]),
    Edit("look", 13, "crates/replica_core/proofs/read/look_at/Answers.antt", ["look_at"], [
        behind("c.args.cursor.now c.sum.result c.sum.ensures.reading))\n", TOTAL_ANSWER)]),
]

# ---- A reading of the document without a cursor.

COUNT_READ = """    // How many operations are logged.
    fn count(&self) -> Reply
        ensures { (name : List ℕ) (counts : Counts)
            → MayAnswer (replica_with name self.now) counts (query.State State.Count) result }
    {
        Reply::Count(self.log().len() as u64)
    }

    // The held operations, and what each waits for.
    fn waiting"""

COUNT_ANSWER = """
pub returns-in-Count-clause-answer : goal.returns-in-Count-clause-answer
returns-in-Count-clause-answer c name = rw c.in-Count.is (c.count.ensures name c.args.counts)
"""

STATE = [
    entry("state", "version", '{"word": "count", "kind": "state", "items": ["doc"], "replies": ["count"], '
          '"says": ["`[\\"count\\",n]`: how many operations are logged"]}'),
    *clients("state", behind('  version = async () => (await this.ask("version"))[0];\n',
                             '  /** @param {string} document @returns {Promise<number>} */\n'
                             '  count = async (document) => (await this.ask("count", document))[0];\n'),
             behind('        return int(self.ask("account", document)[0])\n',
                    '\n    def count(self, document: str) -> int:\n        return int(self.ask("count", document)[0])\n'),
             ('  equal(await client.count("d"), (await client.size("d")).logged);\n', 'def test_count(alice: Session) -> None:\n    assert alice.count("d") == 0')),
    Edit("state", 3, LINES, ["kind_of", "REQUESTS", "its length", "a reply"], [
        behind('        State::Account => "account",\n', '        State::Count => "count",\n'),
        LENGTH,
        behind('    ("[\\"account\\",\\"d\\"]", "account"),\n', '    ("[\\"count\\",\\"d\\"]", "count"),\n'),
        behind('    assert!(rt; is_answered_as(rt.alloc(), Reply::Forgotten, "[\\"forgotten\\"]\\n"));\n',
               '    assert!(rt; is_answered_as(rt.alloc(), Reply::Count(3), "[\\"count\\",3]\\n"));\n')]),
    Edit("state", 14, "crates/doc_api/src/ask.rt", ["State"], [
        behind("    /// How many of the logged operations are the asking seat's.\n    Account,\n", "    /// How many operations are logged.\n    Count,\n")]),
    Edit("state", 14, "crates/doc_api/src/reply.rt", ["Reply", "Drop"], [
        behind("    Account(u64),\n", "    /// How many operations are logged.\n    Count(u64),\n"),
        behind("            Reply::Account(_) => {}\n", "            Reply::Count(_) => {}\n")]),
    Edit("state", 15, "crates/doc_rules/specs/Answers.antt", ["state_reply"], [
        behind("state_reply r counts state.Account = reply.Account counts.mine\n", "state_reply r counts state.Count = reply.Count (length r.log)\n")]),
    Edit("state", 16, "crates/line_proto/specs/Written.antt", ["state_word"], [
        behind('state_word state.Account = codes "account"\n', 'state_word state.Count = codes "count"\n')]),
    Edit("state", 16, "crates/line_proto/specs/Reading.antt", ["states"], [
        ('(codes "account", state.Account) ∷ ', '(codes "account", state.Account) ∷ (codes "count", state.Count) ∷ ')]),
    Edit("state", 16, "crates/line_proto/specs/Replies.antt", ["reply_data"], [
        ("TheVariants.{Account, Size, Copied, Refused}", "TheVariants.{Account, Count, Size, Copied, Refused}"),
        behind('reply_data (Account n) = worded (codes "account") (count_data n ∷ [])\n', 'reply_data (Count n) = worded (codes "count") (count_data n ∷ [])\n')]),
    Edit("state", 16, "crates/line_proto/specs/Writing.antt", ["needs_heap"], [
        ("TheVariants.{Account, Size, Copied, Refused, Keys, Items}", "TheVariants.{Account, Count, Size, Copied, Refused, Keys, Items}"),
        behind("needs_heap (Account n) = false\n", "needs_heap (Count n) = false\n")]),
    Edit("state", 16, "crates/line_proto/src/parse.rt", ["state_of_word"], [behind('        "account" => Some(State::Account),\n', '        "count" => Some(State::Count),\n')]),
    Edit("state", 16, "crates/line_proto/src/write.rt", [], [
        behind('        Reply::Account(n) => Some(numbered("[\\"account\\",", *n)),\n', '        Reply::Count(n) => Some(numbered("[\\"count\\",", *n)),\n')]),
    Edit("state", 17, "crates/replica_core/src/read.rt", ["read_state"], [
        behind("            State::Account => Reply::Account(counts.mine),\n", "            State::Count => self.count(),\n"),
        ("    // The held operations, and what each waits for.\n    fn waiting", COUNT_READ)]),
    Edit("state", 17, "crates/replica_core/proofs/body/Body/read_state/Answers.antt", ["read_state"], [
        behind("returns-in-Held-clause-answer c name = rw c.in-Held.is (c.waiting.ensures name c.args.counts)\n", COUNT_ANSWER)]),
]

EDITS = [*BARE, *LOOK, *STATE]
