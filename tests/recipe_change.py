"""The edits that HACKING's recipe "add a request" asks for, for a change: `["discard",doc,ID]` lets go of the operation that is held under
an id, and says `discarded` where none is, too. So it is no `forget`, which then refuses."""

from typing import List

from recipe_edits import EDITS_COUNT, LENGTH, LINES, ROW, Edit, behind, clients, entry

COMMANDS = "Command.TheVariants.{Change, Deliver, Forget}", "Command.TheVariants.{Change, Deliver, Forget, Discard}"


def change(step: int, file: str, places: List[str], *pairs: "tuple[str, str]") -> Edit:
    """An edit for the change, in crates/."""
    return Edit("change", step, f"crates/{file}", places, list(pairs))


# ---- What it means.

KEEPS = """
-- nor does letting go of one
discards_keeps : (r s : Replica) (i : Id) → IsValidReplica r → s ≡ without_held i r → IsValidReplica s
discards_keeps r s i k is =
    subst IsValidReplica (sym is) (kept_from (without_held_tidy i (tidy_from k)) (λ o c. k.waits o (held_before o c)))
  where
    held_before : (o : Op) → Contains (without_held i r).held o → Contains r.held o
    held_before o c = (filter-Contains (λ o. not (id_eq o.id i)) r.held c).0

-- ---- commands
"""

MEANING = [
    change(18, "doc_api/src/ask.rt", ["Command"], behind(
        "    /// A held operation is dropped.\n    Forget(Id),\n", "    /// The operation that is held under this id, if one is, is dropped.\n    Discard(Id),\n")),
    change(18, "doc_api/src/reply.rt", ["Reply", "Drop"],
           behind("    /// The operation is held no longer.\n    Forgotten,\n", "    /// No operation is held under the id.\n    Discarded,\n"),
           behind("            Reply::Forgotten => {}\n", "            Reply::Discarded => {}\n")),
    change(19, "doc_rules/specs/Events.antt", ["Does", "IsWellMade"], COMMANDS,
           ("Reply.TheVariants.{Applied, Known, Held, Forgotten, Refused}", "Reply.TheVariants.{Applied, Known, Held, Forgotten, Discarded, Refused}"),
           behind("Does r (Forget i) reply s = Forgets r i (find_id r.held i) reply s\n",
                  "Does r (Discard i) reply s = (reply ≡ Discarded) × (s ≡ without_held i r)\n"),
           behind("IsWellMade (Forget i) = Unit {0}\n", "IsWellMade (Discard i) = Unit {0}\n")),
    change(19, "doc_rules/specs/Memory.antt", ["DoesAll"], COMMANDS,
           behind("DoesAll r (Forget i) reply s h = Unit {0}\n", "DoesAll r (Discard i) reply s h = Unit {0}\n")),
    change(20, "doc_rules/proofs/Kept.antt", [], COMMANDS, ("\n-- ---- commands\n", KEEPS),
           behind("does_keeps r s (Forget i) reply named made k h = forgets_keeps r s i (find_id r.held i) reply k h\n",
                  "does_keeps r s (Discard i) reply named made k h = discards_keeps r s i k h.1\n")),
    change(20, "doc_rules/proofs/OneOutcome.antt", [], COMMANDS,
           behind("one_outcome r s t (Forget i) x y (a, p) (b, q) = one_forgetting r s t i (find_id r.held i) x y a b\n",
                  "one_outcome r s t (Discard i) x y (a, p) (b, q) = (a.0 ∙ sym b.0, a.1 ∙ sym b.1)\n")),
    change(20, "doc_rules/proofs/Refusing.antt", [], COMMANDS,
           behind("does_same r s (Forget i) cause forgets = forgets_same r s i (find_id r.held i) cause forgets\n",
                  "does_same r s (Discard i) cause h = let is = h.0 in cc\n")),
    change(20, "doc_rules/proofs/Shared.antt", [], COMMANDS,
           behind("does_on r s (Forget i) reply h = forgets_on r s i (find_id r.held i) reply h\n",
                  "does_on r s (Discard i) reply h = stays (count_in reply) (ap count_in h.0) (ap (λ x. x.name) h.1) (ap (λ x. x.log) h.1)\n")),
]

# ---- How it is read and answered.

READ = """fn read_discarding(id: &Value) -> Result<DocRequest, Refusal>
    ensures { result ≡ discarding_from (view id.now) }
{
    match read_id(id) {
        Some(id) => Ok(DocRequest::Discard(id)),
        None => Err(Refusal::BadRequest),
    }
}

fn read_copied("""
FOUND = """discarding-Ok : (verb document : List ℕ) (a : Data) → verb ≡ codes "discard" → OkWrites verb document (a ∷ []) (discarding_from a)
discarding-Ok verb document a is asked h =
    let id = option_map-Some ask.Discard (id_from a) asked (ok_or-Ok _ BadRequest asked h) in
    let made = ReadsId-from_answer a (Some id.0) id.1 in
    writes_one verb _ document a _ asked _ is made.0 (sym id.2) refl made.1

copied-Ok : """

READING = [
    change(21, "line_proto/src/request.rt", ["DocRequest"], behind(
        "    /// Drop a held operation.\n    Forget(Id),\n", "    /// Drop the operation that is held under an id, if one is.\n    Discard(Id),\n")),
    change(21, "line_proto/src/parse.rt", ["short_request"],
           ("{copied_from, delivery_from, forgetting_from, short_request};", "{copied_from, delivery_from, forgetting_from};\n"
            "ghost use Rattle.line_proto.specs.Reading.{discarding_from, short_request};"),
           behind('        "forget" => read_forgetting(third),\n', '        "discard" => read_discarding(third),\n'), ("fn read_copied(", READ)),
    change(21, "line_proto/src/write.rt", [], behind('        Reply::Forgotten => Some(fixed("[\\"forgotten\\"]\\n")),\n',
                                                     '        Reply::Discarded => Some(fixed("[\\"discarded\\"]\\n")),\n')),
    change(21, "line_proto/specs/Reading.antt", ["short_request"],
           ("abbrev pub copied_from : ", "abbrev pub discarding_from : Data → Result DocRequest Refusal\n"
            "discarding_from d = ok_or (option_map ask.Discard (id_from d)) BadRequest\n\nabbrev pub copied_from : "),
           ('    else (if bytes_eq verb (codes "copied") then copied_from d\n    else look_from verb d)))\n',
            '    else (if bytes_eq verb (codes "discard") then discarding_from d\n'
            '    else (if bytes_eq verb (codes "copied") then copied_from d\n    else look_from verb d))))\n')),
    change(21, "line_proto/specs/Written.antt", ["doc_request_data", "is_doc_request"],
           behind('doc_request_data document (ask.Forget id) = asks (codes "forget") document (id_data id ∷ [])\n',
                  'doc_request_data document (ask.Discard id) = asks (codes "discard") document (id_data id ∷ [])\n'),
           behind("is_doc_request (ask.Forget id) = is_id id\n", "is_doc_request (ask.Discard id) = is_id id\n")),
    change(21, "line_proto/specs/Replies.antt", ["reply_data"],
           ("Reply.TheVariants.{Applied, Known, Held, Forgotten}", "Reply.TheVariants.{Applied, Known, Held, Forgotten, Discarded}"),
           behind('reply_data Forgotten = worded (codes "forgotten") []\n', 'reply_data Discarded = worded (codes "discarded") []\n')),
    change(21, "line_proto/specs/Writing.antt", ["needs_heap"],
           ("Reply.TheVariants.{Applied, Known, Held, Waiting, Forgotten}", "Reply.TheVariants.{Applied, Known, Held, Waiting, Forgotten, Discarded}"),
           behind("needs_heap Forgotten = false\n", "needs_heap Discarded = false\n")),
    change(22, "line_proto/proofs/Found.antt", ["short_request-Ok"],
           ("forgetting_from, copied_from, short_request, ", "forgetting_from, discarding_from, copied_from, short_request, "), ("copied-Ok : ", FOUND),
           ('(codes "copied") _ _ (copied-Ok verb document a) (look-Ok verb document a))))\n',
            '(codes "discard") _ _ (discarding-Ok verb document a)\n'
            '    (by_word (OkWrites verb document (a ∷ [])) verb (codes "copied") _ _ (copied-Ok verb document a) (look-Ok verb document a)))))\n')),
    change(22, "line_proto/proofs/Refusing.antt", ["short_request-caused"],
           ('    (by_word (IsCaused d) verb (codes "copied") _ _ (λ is. ok_or-caused d _) (look-caused d verb a))))\n',
            '    (by_word (IsCaused d) verb (codes "discard") _ _ (λ is. ok_or-caused d _)\n'
            '    (by_word (IsCaused d) verb (codes "copied") _ _ (λ is. ok_or-caused d _) (look-caused d verb a)))))\n')),
    change(22, "line_proto/proofs/Requests.antt", [], behind("reads_doc_request document (ask.Forget id) h = rw (id_from-id_data id h) refl\n",
                                                             "reads_doc_request document (ask.Discard id) h = rw (id_from-id_data id h) refl\n")),
]

# ---- What does it.

DISCARD = """    /// Drops the operation that is held under an id, if one is. Allocates nothing.
    pub fn discard(&mut self, id: Id) -> Reply
        ensures { Does self.old (command.Discard id) result self.new }
    {
        drop(self.body.remove(id));
        Reply::Discarded
    }

    /// Answers a query, and changes nothing."""
ANSWERS = """use Rattle.std.proofs.Common.{refl, ap, inl}
use Rattle.doc_api.specs.declared.ask.Command.TheVariants as command
use Rattle.doc_api.specs.declared.reply.Reply.TheVariants as reply
use Rattle.replica_core.specs.Whole.{replica_with}
use Rattle.replica_core.proofs.Keeping.{whole_next}
use Rattle.replica_core.proofs.replica.Replica.discard.Goals as goal

pub invariant_of-self : goal.invariant_of-self
invariant_of-self c =
    whole_next c.self.inside.name c.self.inside.body c.remove.new.self (command.Discard c.args.id) reply.Discarded c.self.invariant tt
    (inl (refl, ap (replica_with c.self.inside.name) c.remove.ensures.rest))

pub returns : goal.returns
returns c = rw (← c.self.view_is) (refl, ap (replica_with c.self.inside.name) c.remove.ensures.rest)
"""
SERVED = """
pub returns-in-Discard : goal.returns-in-Discard
returns-in-Discard g c =
    served_as g.A.DocAccess c.args.access.now c.act-in-Discard.new.access c.args.self.now c.act-in-Discard.new.self c.act-in-Discard.result c.args.ask (ask.Discard c.in-Discard.id) c.in-Discard.is c.act-in-Discard.ensures
"""
FORGOT = "c.act-in-Forget.result c.args.ask (ask.Forget c.in-Forget.id) c.in-Forget.is c.act-in-Forget.ensures\n"

DOING = [
    change(23, "replica_core/src/replica.rt", ["act", "may_log"],
           ("    /// Answers a query, and changes nothing.", DISCARD), behind("            Command::Forget(_) => false,\n", "            Command::Discard(_) => false,\n"),
           behind("            Command::Forget(id) => forgotten_reply(self.forget(id)),\n", "            Command::Discard(id) => self.discard(id),\n")),
    change(23, "replica_core/specs/Memory.antt", ["MayLack", "MayLog"], COMMANDS, behind("MayLack r (Forget i) = ⊥\n", "MayLack r (Discard i) = ⊥\n"),
           behind("MayLog r (Forget i) = ⊥\n", "MayLog r (Discard i) = ⊥\n")),
    change(23, "replica_core/proofs/Lacking.antt", [],
           behind("may_lack r (command.Forget i) logs = logs\n", "may_lack r (command.Discard i) logs = logs\n"),
           behind("log_kept r (command.Forget i) answer s silent (inl does) = kept_by_forgetting r i (find_id r.held i) answer s does\n",
                  "log_kept r (command.Discard i) answer s silent (inl does) = ap (λ (x : Replica). x.log) does.1\n")),
    change(23, "replica_core/proofs/replica/Replica/discard/Answers.antt", [], ("", ANSWERS)),
    change(24, "locked_doc/proofs/Growth.antt", [], COMMANDS,
           behind("does_grows r s (Forget i) reply few h = forgets_grows r s i (find_id r.held i) reply h\n",
                  "does_grows r s (Discard i) reply few h = stays r s most_logged (ap (λ x. x.log) h.1)\n")),
    change(24, "session_rules/specs/Session.antt", ["deed_of"], behind("deed_of o (ask.Forget i) = Ok (act (command.Forget i))\n",
                                                                       "deed_of o (ask.Discard i) = Ok (act (command.Discard i))\n")),
    change(24, "session_rules/proofs/Applying.antt", [], COMMANDS,
           behind("does_first r s (Forget named) count dropped i h = forgets_first r s named (find_id r.held named) count dropped i h\n",
                  "does_first r s (Discard named) count dropped i h = let no : true ≡ false = ap is_applied h.0 in cc\n")),
    change(24, "session_rules/proofs/Sounding.antt", [], behind("good_deed name o (ask.Forget i) deed made h = subst IsGoodDeed (ok_same h) tt\n",
                                                                "good_deed name o (ask.Discard i) deed made h = subst IsGoodDeed (ok_same h) tt\n")),
    change(24, "session_core/specs/Answered.antt", ["does_short"], COMMANDS,
           behind("does_short r s (Forget i) reply forgets = forgets_short r s i (find_id r.held i) reply forgets\n",
                  "does_short r s (Discard i) reply discards = ap needs_heap discards.0\n")),
    change(24, "session_core/src/doc_requests.rt", ["perform"],
           behind("            DocRequest::Forget(id) => self.act(access, Command::Forget(id)),\n",
                  "            DocRequest::Discard(id) => self.act(access, Command::Discard(id)),\n")),
    change(24, "session_core/proofs/open_document/OpenDocument/perform/Answers.antt", ["perform"], behind(FORGOT, SERVED)),
]

# ---- The library.

LIBRARY_READ = """fn read_discarding(id: &Value) -> Result<Ask, Refusal>
    ensures { result ≡ ask_discarding (view id.now) }
{
    match read_id(id) {
        Some(id) => Ok(Ask::Act(Command::Discard(id))),
        None => Err(Refusal::BadRequest),
    }
}

fn read_where("""
LIBRARY_FOUND = """discarding-Ok : (verb : List ℕ) (a : Data) → verb ≡ codes "discard" → OkWrites verb (a ∷ []) (ask_discarding a)
discarding-Ok verb a is asked h =
    let id = option_map-Some (λ id. Act (Discard id)) (id_from a) asked (ok_or-Ok _ BadRequest asked h) in
    let made = ReadsId-from_answer a (Some id.0) id.1 in
    subst (AsksFor (worded verb (a ∷ []))) id.2 ((λ i. worded (is i) (sym made.0 i ∷ [])), made.1)

where-Ok : """
LIBRARY_ACT = """            Command::Discard(id) => {
                let reply = self.replica.act(Command::Discard(id));
                self.tell(reply)
            }
"""

LIBRARY = [
    change(25, "replica_c/src/read.rt", [],
           ("{ask_forgetting, short_ask, ask_ops, ask_chains, ask_change};", "{ask_forgetting, ask_discarding, short_ask};\n"
            "ghost use Rattle.replica_c.specs.Asking.{ask_ops, ask_chains, ask_change};"),
           behind('        "forget" => read_forgetting(item),\n', '        "discard" => read_discarding(item),\n'), ("fn read_where(", LIBRARY_READ)),
    change(25, "replica_c/src/open.rt", ["act"], behind(
        "                let reply = self.replica.act(Command::Forget(id));\n                self.tell(reply)\n            }\n", LIBRARY_ACT)),
    change(25, "replica_c/specs/Asking.antt", ["short_ask"], COMMANDS,
           ("-- where a place is, as a cursor\n", "abbrev pub ask_discarding : Data → Result Ask Refusal\n"
            "ask_discarding d = ok_or (option_map (λ id. Act (Discard id)) (id_from d)) BadRequest\n\n-- where a place is, as a cursor\n"),
           ('    else (if bytes_eq verb (codes "cursor") then ask_where d\n', '    else (if bytes_eq verb (codes "discard") then ask_discarding d\n'
            '    else (if bytes_eq verb (codes "cursor") then ask_where d\n'), ("    else ask_look verb d))))\n", "    else ask_look verb d)))))\n")),
    change(25, "replica_c/specs/Serving.antt", ["own_ids"], COMMANDS, behind("own_ids (Forget i) reply = []\n", "own_ids (Discard i) reply = []\n")),
    change(25, "replica_c/specs/Written.antt", ["AsksFor"], COMMANDS,
           behind('AsksFor d (Act (Forget id)) = (d ≡ worded (codes "forget") (id_data id ∷ [])) × IsTrue (is_id id)\n',
                  'AsksFor d (Act (Discard id)) = (d ≡ worded (codes "discard") (id_data id ∷ [])) × IsTrue (is_id id)\n')),
    change(25, "replica_c/proofs/Written.antt", [], COMMANDS, ("ask_delivery, ask_forgetting, ask_where,", "ask_delivery, ask_forgetting, ask_discarding, ask_where,"),
           behind("asks_written d (Act (Forget id)) (is, within) = ap ask_from is ∙ rw (id_from-id_data id within) refl\n",
                  "asks_written d (Act (Discard id)) (is, within) = ap ask_from is ∙ rw (id_from-id_data id within) refl\n"),
           ("where-Ok : ", LIBRARY_FOUND),
           ('    (by_word (OkWrites verb (a ∷ [])) verb (codes "cursor") ', '    (by_word (OkWrites verb (a ∷ [])) verb (codes "discard") _ _ (discarding-Ok verb a)\n'
            '    (by_word (OkWrites verb (a ∷ [])) verb (codes "cursor") '), ("(index-Ok verb a) (look-Ok verb a)))))\n", "(index-Ok verb a) (look-Ok verb a))))))\n")),
]

# ---- The table, the clients and the tests.

BUG = ("breaks: OpenDocument::perform\nfile: src/doc_requests.rt\nold: self.act(access, Command::Discard(id)),\n"
       "new: self.act(access, Command::Forget(id)),\n")
CASE = """    Case {
        name: "discard",
        replica: b"srv-1",
        before: (Before::Nothing, 0, 0),
        rows: &[
            (Deed::Deliver, SECOND, Digest::Held),
            (Deed::Discard, SECOND, Digest::Discarded),
            (Deed::Discard, SECOND, Digest::Discarded),
            (Deed::Forget, SECOND, Digest::Refused(Refusal::NotHeld)),
        ],
        logged: 0,
    },
    Case {
        name: "forget_not_held",
"""
EXAMPLE = """["discard","d",[3,"p"]]
    ["discarded"]
["deliver","d",["op",[1,"p"],[],[[["m",0]],"k"],["assign",1]]]
    ["applied",2,0,[1,"p"]]
"""
ASKED = """["open","d"]
["deliver","d",["op",[2,"p"],[["p",1]],[[["m",0]],"k"],["assign",2]]]
["discard","d",[2,"p"]]
["held","d"]
["discard","d",[2,"p"]]
["discard","d",2]
["quit"]
"""
REPLIED = """["opened",1]
["held",[[1,"p"]]]
["discarded"]
["waiting",[]]
["discarded"]
["no",2,"bad-request"]
["bye"]
"""

AROUND = [
    entry("change", "account", '{"word": "discard", "kind": "change", "items": ["doc", "ID"], "replies": ["discarded"], '
          '"says": ["`[\\"discarded\\"]`: no operation is held under the id"], "replica": true}'),
    *clients("change", behind('  forget = (document, id) => this.ask("forget", document, id);\n',
                              '  /** @param {string} document @param {Id} id */\n  discard = (document, id) => this.ask("discard", document, id);\n'),
             behind('        self.ask("forget", document, operation_id)\n',
                    '\n    def discard(self, document: str, operation_id: Id) -> None:\n        self.ask("discard", document, operation_id)\n'),
             ('  await client.discard("d", [9, "nobody"]);\n', 'def test_discard(alice: Session) -> None:\n    alice.discard("d", [9, "nobody"])')),
    Edit("change", 2, "tests/rules.mjs", ["rules"], [
        behind('      case "forget": return this.#forget(first);\n', '      case "discard": return this.#discard(first);\n'),
        ('  /** @param {any} id\n   *  @returns {Answer} */\n  #forget(id) {\n', '  /** @param {any} id\n   *  @returns {Answer} */\n  #discard(id) {\n'
         '    if (!isId(id)) throw new Refused(2);\n    this.#held.delete(keyOf(id));\n    return { reply: ["discarded"] };\n  }\n\n'
         '  /** @param {any} id\n   *  @returns {Answer} */\n  #forget(id) {\n')]),
    Edit("change", 3, LINES, ["kind_of", "REQUESTS", "its length", "a reply"], [
        behind('        DocRequest::Forget(_) => "forget",\n', '        DocRequest::Discard(_) => "discard",\n'),
        LENGTH,
        behind('    ("[\\"forget\\",\\"d\\",[1,\\"p\\"]]", "forget"),\n', '    ("[\\"discard\\",\\"d\\",[1,\\"p\\"]]", "discard"),\n'),
        behind('    assert!(rt; is_answered_as(rt.alloc(), Reply::Known, "[\\"known\\"]\\n"));\n',
               '    assert!(rt; is_answered_as(rt.alloc(), Reply::Discarded, "[\\"discarded\\"]\\n"));\n')]),
    Edit("change", 4, "docs/FORMATS.md", ["an example"], [
        ('["deliver","d",["op",[1,"p"],[],[[["m",0]],"k"],["assign",1]]]\n    ["applied",2,0,[1,"p"]]\n', EXAMPLE)]),
    Edit("change", 4, f"{ROW}/discard/stdin", [f"{ROW}/version_2-version"], [("", ASKED)]),
    Edit("change", 4, f"{ROW}/discard/stdout", [f"{ROW}/version_2-version"], [("", REPLIED)]),
    Edit("change", 4, "crates/session_core/must-fail/discards_as_forget.edit", ["planted bug"], [("", BUG)]),
    Edit("change", 4, "docs/VERIFICATION.md", ["VERIFICATION"], [EDITS_COUNT]),
    Edit("change", 26, "crates/replica_tests/src/tests/samples.rt", ["Deed", "Digest"], [
        behind("    Forgotten,\n    Account(u64),\n", "    Discarded,\n"),
        behind("        Reply::Forgotten => Digest::Forgotten,\n", "        Reply::Discarded => Digest::Discarded,\n"),
        behind("    /// It is dropped.\n    Forget,\n", "    /// It is dropped, if it is held.\n    Discard,\n"),
        behind("        Deed::Forget => Ok(Command::Forget(op.id())),\n", "        Deed::Discard => Ok(Command::Discard(op.id())),\n")]),
    Edit("change", 26, "crates/replica_tests/src/tests.rt", ["ONE_BY_ONE"], [
        ("const ONE_BY_ONE: [Case; {N}] = [\n", "const ONE_BY_ONE: [Case; {N+1}] = [\n"), ('    Case {\n        name: "forget_not_held",\n', CASE)]),
]

CHANGE = [*MEANING, *READING, *DOING, *LIBRARY, *AROUND]
