#!/usr/bin/env python3
"""Wrong definitions, each of which a law must refuse.

A must-fail edit is a wrong body under right definitions. Here it is the other way round: one row of the machine's definitions
(crates/dr_model/specs) is wrong, and no body is looked at. The crates up to the laws are copied, the row is changed, with what
else has to say the same, and `rt check` proves crate after crate until one refuses. It must be a crate of laws, and in it
neither a table of costs nor a list of what is told. A row that no law sees is marked so, and must go through them all.

wrong_definitions.py [--in FOLDER] [--verbose] [NAME..]     tries all rows, or these; exit status 1 where one isn't as it should be
wrong_definitions.py --list                                 names them

A folder that is given is kept, and a later run in it begins with what was proved there. It takes two or three minutes for each
row, and is no part of the gate. docs/GATE.md has what it said last.
"""
import argparse
import re
import shutil
import subprocess
import sys
import tempfile
from pathlib import Path

TOP = Path(__file__).resolve().parent.parent
CRATES = (
    "dr_logic dr_ids dr_model dr_facts dr_laws_sessions dr_laws_attempts dr_laws_messages dr_laws_cuts dr_laws_closed "
    "dr_laws_targets dr_laws_sound dr_laws_fuses dr_laws_freezes dr_laws_flashes dr_laws_recovery dr_laws_orders dr_laws_commits dr_laws_return dr_laws_sites dr_laws_progress dr_laws_answers"
).split()
# What counts events, lists what is told of which kind, or says how a definition is cut into parts: no law.
TECHNICAL = re.compile(r"Costs|Spends|EntryLengths|Counting|Limits|Texts|Cases|Does|Journal|Emits")
ERROR = re.compile(r"^\./(?:proofs|specs)/(\S+?)\.antt:(\d+):\d+: error: (.*)$")
BEHIND = re.compile(r"declarations? that depends? on")
LOST = re.compile(r"^fn (\S+): (?!proved)(.*)$")


class Row:
    """A wrong row of the definitions, with what else has to say the same so that they stay of one piece. One that no law sees is
    held by exact clauses alone: it must be let through."""

    def __init__(self, name, says, *edits, seen=True):
        self.name = name
        self.says = says
        self.edits = edits  # (file, old text that stands there once, new text); a file of several has them joined by blanks
        self.seen = seen


def spec(name):
    return f"dr_model/specs/{name}.antt"


def attempts(name):
    return f"dr_laws_attempts/proofs/{name}.antt"


def messages(name):
    return f"dr_laws_messages/proofs/{name}.antt"


def facts(name):
    return f"dr_facts/proofs/{name}.antt"


def sound(name):
    return f"dr_laws_sound/proofs/{name}.antt"


# a refusal that asks only whether something is recorded, and the modules on orders that name it
UNRECORDED = (
    spec("SessionEntries"),
    "-- it is let go, where it is held\n",
    "-- nor any other\nabbrev pub unrecorded_refusal : ℕ → ℕ → Control → Option Refusal\nunrecorded_refusal a n k = if (fields_at k a).recording then None else Some (Void n)\n\n-- it is let go, where it is held\n",
)
IN_ORDERS = (
    " ".join((facts("SharedEntries"), sound("RefusedWrites"), sound("FitsOrders"))),
    "hold_on, void_refusal, free_on,",
    "hold_on, void_refusal, unrecorded_refusal, free_on,",
)

ROWS = [
    Row(
        "resume_that_blanks",
        "a resumed primary has zeros on its first track",
        (spec("Moves"), "carried (LandBoth n v t) volume", "carried (Resume v state) volume contents write = Some (0, zeros)\ncarried (LandBoth n v t) volume"),
        (spec("Rows"), "next_bytes write (Store v", "next_bytes write (Resume v state) T = at (T v).bytes 0 zeros\nnext_bytes write (Store v"),
        (spec("Rows"), "Moves.{Move, Land,", "Moves.{Move, Resume, Land,"),
        (sound("RowsAfter"), "  bytes-after m q = untouched", "  bytes-after (Resume v state) q = ap (λ old. cond (nat_eq q 0) zeros old) (untouched v q)\n  bytes-after m q = untouched"),
        (sound("RowsAfter"), "Moves.{Move, ", "Moves.{Move, Resume, "),
    ),
    Row(
        "dropped_write_says_wrote",
        "a write on a FlashCopy target is dropped, and the answer is that it was written",
        (spec("Entries"), "land_on n v t k = Do (Make (if (fields_at k v).related then Overwrite n v t else Land n v t))", "land_on n v t k = Do (if (fields_at k v).related then Drop n else Make (Land n v t))"),
        (facts("SharedEntries"), "pub over : May (Make (Overwrite n v t))", "pub over : May (Drop n)"),
        (facts("SharedEntries"), "Ok w (Make (cond b (Overwrite n v t) (Land n v t)))", "Ok w (cond b (Drop n) (Make (Land n v t)))"),
        (facts("SharedEntries"), "Carry.{Act, Make, ", "Carry.{Act, Make, Drop, "),
        (sound("DoesPlans"), "over = λ u any. does.Overwrites n v t is free;", "over = λ u any. does.Drops n v t is;"),
        (sound("Lands"), "Do (Make (cond b (Overwrite p.w v p.track) (Land p.w v p.track)))) is_k", "Do (cond b (Drop p.w) (Make (Land p.w v p.track)))) is_k"),
        (sound("Lands"), "(Do (Make (Overwrite p.w v p.track))) (ap (λ b. Do (Make (cond b (Overwrite p.w v p.track) (Land p.w v p.track)))) is)", "(Do (Drop p.w)) (ap (λ b. Do (cond b (Drop p.w) (Make (Land p.w v p.track)))) is)"),
        (sound("Lands"), "        record { runs = on; allowed = record { low = (waits w s p one).low; from = f.source; related = related; forward = forward; settled = settled; let_go = (back-parts f open_to).1 }; fits = tt; group = ((s.rows.structure.flags v).persists, uncounted-by w.control s.attempts v (λ t. false_true writable t.inhibits)); ready = may-ack w s p one on },", "        each-on (λ p a. a.landed) _ (may-ack w s p one on).coming,"),
        (sound("Lands"), "use Rattle.dr_model.specs.Allowed.", "use Rattle.dr_laws_closed.proofs.Pendings.{each-on}\nuse Rattle.dr_model.specs.Allowed."),
    ),
    Row(
        "waiting_write_says_wrote",
        "a write that waits on a held volume is answered as written",
        (spec("WriteEntries"), "says_written k n v t = if waits k v t then Held n else Done (Wrote n)", "says_written k n v t = if waits k v t then Done (Wrote n) else Done (Wrote n)"),
        (sound("RefusedWrites"), "refusal_said (cond b (Held n) (Done (Wrote n)))", "refusal_said (cond b (Done (Wrote n)) (Done (Wrote n)))"),
    ),
    Row(
        "aborted_attempt_counts",
        "an attempt that was aborted counts as one of the groups that an @run forms",
        (spec("Forming"), "still_left committed after left = if committed && is_idle after then left - 1 else left", "still_left committed after left = if is_idle after then left - 1 else left"),
    ),
    Row(
        "hold_without_begin",
        "the first hold of an attempt tells a freeze, and not that the attempt begins",
        (spec("Moves"), "Suspended, TakenOver, Begin, Cut,", "Suspended, TakenOver, Frozen as Begin, Cut,"),
        (facts("Emits"), "emits (Hold v s n first) = Begins ∷ Cuts ∷ []", "emits (Hold v s n first) = Freezes ∷ Cuts ∷ []"),
        (facts("Emits"), "act_emits (OpenAttempt v s n) = Begins ∷", "act_emits (OpenAttempt v s n) = Freezes ∷"),
        (facts("Emits"), "all_tags p (Begins ∷ Cuts ∷ []) ≡ true → L es → L (cond first (Begin s n", "all_tags p (Freezes ∷ Cuts ∷ []) ≡ true → L es → L (cond first (Frozen s n"),
        (facts("Emits"), "by_moves Freezes = false\n", ""),
        (facts("Emits"), "known (Begin s n ∷ Cut s n v", "known (Frozen s n ∷ Cut s n v"),
        (facts("Emits"), "rest-tags p Begins (Cuts", "rest-tags p Freezes (Cuts"),
        (
            "dr_laws_cuts/proofs/Told.antt dr_laws_closed/proofs/Told.antt dr_laws_recovery/proofs/OnTracks.antt dr_laws_recovery/proofs/Takes.antt",
            "Begin, Cut",
            "Frozen as Begin, Cut",
        ),
    ),
    Row(
        "freeze_without_long_busy",
        "a freeze suspends its primaries, and doesn't make them long busy",
        (spec("WriteEntries"), "freeze_on l m v k = if is_between k l m v then Do (Make (Suspend v true)) else Pass", "freeze_on l m v k = if is_between k l m v then Do (Make (Suspend v false)) else Pass"),
        (sound("FitsHolds"), "Then w (cond b (Do (Make (Suspend v true))) Pass)", "Then w (cond b (Do (Make (Suspend v false))) Pass)"),
        (sound("DoesPlans"), "(Make (moves.Suspend v true)) (λ j is. does.Suspends v true)", "(Make (moves.Suspend v false)) (λ j is. does.Suspends v false)"),
    ),
    Row(
        "suspension_keeps_the_state",
        "a primary that is suspended keeps the state of its pair, as a Metro Mirror primary that can't reach its secondary",
        (spec("Pairs"), "suspended busy f = record (voided f) { primary_state = Suspended; long_busy", "suspended busy f = record (voided f) { long_busy"),
    ),
    Row(
        "flash_hold_holds_nothing",
        "a host write on a volume that has a flash hold alone doesn't wait",
        (spec("Pairs"), "held f = f.coordination || f.long_busy || f.flash_hold", "held f = f.coordination || f.long_busy"),
    ),
    Row(
        "resumed_full_duplex_with_tracks_left",
        "a resumed Metro Mirror pair is Full Duplex, whatever is out of sync",
        (spec("Pairs"), "next_state f = if is_metro f.primary && is_bare f.out_of_sync then FullDuplex else CopyPending", "next_state f = if is_metro f.primary then FullDuplex else CopyPending"),
    ),
    Row(
        "recovery_commits_what_goes_back",
        "a recovery commits the targets that were decided to go back",
        (spec("RecoveryPlans"), "settle_on s (RevertAll n) m = revert_flashed s m n", "settle_on s (RevertAll n) m = commit_flashed s m n"),
        (
            facts("SharedEntries"),
            "settle-fine s (RevertAll n) m commit revert = where-fine (λ k. is_flashed n (fields_at k m.c.0)) (Make (Revert m.c.0 m.a.0 s n)) (λ w h so. revert refl n w h)",
            "settle-fine s (RevertAll n) m commit revert = where-fine (λ k. is_flashed n (fields_at k m.c.0)) (Make (Commit m.c.0 m.a.0 s n)) (λ w h so. commit refl n w h)",
        ),
        (facts("SharedEntries"), "settle-fine : (s : ℕ) (d : Decision) (m : Member) → (lets_revert d ≡ false →", "settle-fine : (s : ℕ) (d : Decision) (m : Member) → (lets_revert d ≡ lets_revert d →"),
        (facts("SharedEntries"), "→ ((m : Member) → In m ms → lets_revert d ≡ false →", "→ ((m : Member) → In m ms → lets_revert d ≡ lets_revert d →"),
        (sound("FitsRecovery"), "Then v (settle_on i (RevertAll n) m v.control) more", "Then v (settle_on i (RevertSome n n) m v.control) more"),
        (sound("FitsRecovery"), "Along v (map (settle_on i (RevertAll n)) ms ++ ds)", "Along v (map (settle_on i (RevertSome n n)) ms ++ ds)"),
        (sound("FitsRecovery"), "loop Reverts (settle_on i (RevertAll n)) ds", "loop Reverts (settle_on i (RevertSome n n)) ds"),
        (sound("FitsRecovery"), "settles (RevertAll n) is = reverting n (λ q e. let no : RevertAll n ≡ CommitRest q = sym is ∙ e in absurd cc)", "settles (RevertAll n) is = committing n is"),
    ),
    Row(
        "order_that_no_fence_stops",
        "an order is carried out whatever its epoch",
        (spec("Messages"), "starts == f.starts m.server && nat_le (f.fence m.session m.server) m.epoch", "starts == f.starts m.server && nat_le m.epoch m.epoch"),
    ),
    Row(
        "delivered_report_raises_no_fence",
        "a report that a message asks for leaves its server's fence as it was",
        (spec("MessagePlans"), "(heard m.session m.server m.epoch m.order.work f)", "(heard m.session m.server 0 m.order.work f)"),
        (
            messages("Messages"),
            "    subst (λ r. Flights (record k { flight = answered m r (heard m.session m.server m.epoch m.order.work k.flight) })) (reply-still m.session m.order.work (members_on m.server x.members) k (heard m.session m.server m.epoch m.order.work k.flight))\n"
            "    (flights-made (record k { flight = heard m.session m.server m.epoch m.order.work k.flight }) (groups-flight k (heard m.session m.server m.epoch m.order.work k.flight) groups) law\n"
            "    (flights-heard-at k m.session m.server m.epoch m.order.work flights (fits-known k flights m here)) m (still m.order.work) x found m.order.work refl\n"
            "    (heard-reaches k.flight m.session m.server m.epoch m.order.work (flights.fences m.session) (fits-known k flights m here)) did silent)",
            "    subst (λ r. Flights (record k { flight = answered m r (heard m.session m.server 0 m.order.work k.flight) })) (reply-still m.session m.order.work (members_on m.server x.members) k (heard m.session m.server 0 m.order.work k.flight))\n"
            "    (flights-made (record k { flight = heard m.session m.server 0 m.order.work k.flight }) (groups-flight k (heard m.session m.server 0 m.order.work k.flight) groups) law\n"
            "    (flights-heard-at k m.session m.server 0 m.order.work flights (omega arith)) m (still m.order.work) x found m.order.work refl\n"
            "    (heard-reaches k.flight m.session m.server 0 m.order.work (flights.fences m.session) (omega arith)) did silent)",
        ),
        (messages("Messages"), "In m (heard m.session m.server m.epoch work k.flight).messages", "In m (heard m.session m.server 0 work k.flight).messages"),
    ),
    Row(
        "exchanged_report_raises_no_fence",
        "a report that an exchange asks for leaves its server's fence as it was",
        (spec("SessionPlans"), "messages.heard s server (k.flight.epoch s) work k.flight", "messages.heard s server 0 work k.flight"),
        (
            messages("Replies"),
            "    flights-taken-by (record k { flight = fenced s server (k.flight.epoch s) k.flight }) (groups-flight k (fenced s server (k.flight.epoch s) k.flight) groups) law (flights-heard k s server phases.Report flights) s server x found phases.Report lost\n"
            "    (λ e. fence-reaches k.flight s server (k.flight.epoch s) (flights.fences s) (omega arith)) done",
            "    flights-taken-by (record k { flight = fenced s server 0 k.flight }) (groups-flight k (fenced s server 0 k.flight) groups) law (flights-heard-at k s server 0 phases.Report flights (omega arith)) s server x found phases.Report lost\n"
            "    (λ e. fence-reaches k.flight s server 0 (flights.fences s) (omega arith)) done",
        ),
    ),
    Row(
        "lost_master_keeps_its_epoch",
        "no epoch begins where a master's server stops",
        (spec("Messages"), "then f.epoch s + 1 else f.epoch s }", "then f.epoch s else f.epoch s }"),
        ("dr_facts/proofs/Sessions.antt", "(λ b. cond b (f.epoch s + 1) (f.epoch s))", "(λ b. cond b (f.epoch s) (f.epoch s))"),
        (messages("Turns"), "epoch-stays s e = ap (λ b. cond b (f.epoch s + 1) (f.epoch s)) e", "epoch-stays s e = ap (λ b. cond b (f.epoch s) (f.epoch s)) e"),
        (messages("Turns"), "epoch-begins s e = ap (λ b. cond b (f.epoch s + 1) (f.epoch s)) e", "epoch-begins s e = ap (λ b. cond b (f.epoch s) (f.epoch s)) e"),
        (messages("Turns"), "f.fence s x ≤ cond b (f.epoch s + 1) (f.epoch s)\n        by true was = omega arith", "f.fence s x ≤ cond b (f.epoch s) (f.epoch s)\n        by true was = omega arith"),
    ),
    Row(
        "abort_into_lost_keeps_its_epoch",
        "no epoch begins where an abort makes a master Lost",
        (spec("Messages"), "then raised s f else f", "then f else f"),
        (messages("Turns"), "Aside f (cond b (raised s f) f) s\n      by true = aside-raised f s", "Aside f (cond b f f) s\n      by true = aside-same f s"),
        (messages("Turns"), "(cond b (raised s f) f).fence s x ≤ (cond b (raised s f) f).epoch s\n      by true = fences-raised f s (flights.fences s) x", "(cond b f f).fence s x ≤ (cond b f f).epoch s\n      by true = flights.fences s x"),
        (messages("Losses"), "(cond (is_lost (Some q)) (raised s f) f)", "(cond (is_lost (Some q)) f f)"),
        (messages("Losses"), "    abort-by m is phase.Lost e fits = subst (λ ks. FlightFits (raised s f) s", "    abort-by m is phase.Lost e fits = subst (λ ks. FlightFits f s"),
        (messages("Losses"), "(cond (is_lost (phases.aborted_phase m.phase)) (raised s f) f)", "(cond (is_lost (phases.aborted_phase m.phase)) f f)"),
        (messages("Losses"), "(cond (is_lost o) (raised s f) f)", "(cond (is_lost o) f f)"),
    ),
    Row(
        "epoch_anew_with_the_session",
        "where a session ends, its number's epochs begin anew",
        (spec("Messages"), "filter (λ m. not (m.session == s)) f.messages }", "filter (λ m. not (m.session == s)) f.messages; epoch = at f.epoch s 0 }"),
    ),
    Row(
        "reply_of_any_epoch",
        "a master takes a reply whatever its epoch",
        (spec("MessagePlans"), "is_awaited f r m = m.epoch == f.epoch m.session && ", "is_awaited f r m = m.epoch == m.epoch && "),
        (messages("Taken"), "and_parts (m.epoch == f.epoch m.session) (is_owed_order", "and_parts (m.epoch == m.epoch) (is_owed_order"),
        (messages("Taken"), "and_parts (m.epoch == f.epoch m.session) _ awaits", "and_parts (m.epoch == m.epoch) _ awaits"),
    ),
    Row(
        "reply_to_other_work",
        "a master takes a reply whatever work it answers",
        (spec("MessagePlans"), "is_same_work p.work o.work && p.number == o.number", "is_same_work o.work o.work && p.number == o.number"),
        (messages("Taken"), "and_parts (is_same_work (phases.numbered w n).work o.work)", "and_parts (is_same_work o.work o.work)"),
    ),
    Row(
        "reply_to_another_number",
        "a master takes a reply whatever the number of its order",
        (spec("MessagePlans"), "is_same_work p.work o.work && p.number == o.number", "is_same_work p.work o.work && o.number == o.number"),
        (messages("Taken"), "o.work) ((phases.numbered w n).number == o.number) h in", "o.work) (o.number == o.number) h in"),
    ),
    Row(
        "report_taken_twice",
        "a master takes a reply of a server that it owes nothing any more",
        (spec("MessagePlans"), "is_owed_order (phases.order_for r.master m.server) m.order", "is_owed_order (phases.order_if (phases.is_among m.server r.master.servers) (phases.work_in r.master.phase) r.master.number) m.order"),
        (messages("Taken"), "(is_owed_order (phases.order_for r.master m.server) m.order) awaits in", "(is_owed_order (phases.order_if (phases.is_among m.server r.master.servers) (phases.work_in r.master.phase) r.master.number) m.order) awaits in"),
        (messages("Taken"), "let o = owed-order (phases.is_among m.server r.master.owed) (phases.work_in", "let o = owed-order (phases.is_among m.server r.master.servers) (phases.work_in"),
    ),
    Row(
        "hold_of_an_older_attempt",
        "a hold of an older attempt is carried out",
        (spec("SessionEntries"), "    else if nat_lt (fields_at k a).attempt n then None\n    else Some (Stale n (fields_at k a).attempt)", "    else if nat_lt n (n + 1) then None\n    else Some (Stale n (fields_at k a).attempt)"),
        (spec("SessionEntries"), "Prelude.{ℕ, max, Bool, false, ◌&&◌,", "Prelude.{ℕ, ◌+◌, max, Bool, false, ◌&&◌,"),
        (attempts("Orders"), "newer a n k h none = by (nat_lt (fields_at k a).attempt n) refl (sym (ap (λ t. cond t None (cond (nat_lt (fields_at k a).attempt n) None", "newer a n k h none = by (nat_lt n (n + 1)) refl (sym (ap (λ t. cond t None (cond (nat_lt n (n + 1)) None"),
        (attempts("Orders"), "by : (t : Bool) → nat_lt (fields_at k a).attempt n ≡ t → cond t None", "by : (t : Bool) → nat_lt n (n + 1) ≡ t → cond t None"),
    ),
    Row(
        "finish_that_leaves_the_attempt",
        "a Finish leaves the number of its primary's last attempt as it was",
        (spec("Pairs"), "past_attempt n f = record (voided f) { attempt = max f.attempt n }", "past_attempt n f = record (voided f) { attempt = max f.attempt 0 }"),
        (attempts("Moves"), "tried v (max (T v).attempt n) false false (ending v (max (T v).attempt n)", "tried v (max (T v).attempt 0) false false (ending v (max (T v).attempt 0)"),
    ),
    Row(
        "send_without_begin",
        "the first order of an attempt is sent, and the attempt doesn't begin",
        (spec("MessagePlans"), "sessions = if begins then changed s begun k.sessions else k.sessions;", "sessions = if begins then k.sessions else k.sessions;"),
        (sound("Journal"), "few true = length-changed s attempted k.sessions", "few true = omega arith"),
        (
            sound("FitsMessages"),
            "    sent-idle = sound-tables w (changed i begun k.sessions) (sent i server o k.flight) groups attempts\n"
            "        (flights-sent begins i server (begun x) (record r { master = phases.begun r.master }) o groups attempts flights found-begun (ap (option_map (λ (r : Mirror). record r { master = phases.begun r.master })) posts.mirror)\n"
            "        (ap (λ b. phases.order_if b (Some phases.Hold) (r.master.number + 1)) owed ∙ ap Some (sym opens.order))) s\n",
            "    sent-idle = sound-flight w (sent i server o k.flight) (flights-sent k i server x r o s.groups s.attempts s.flights posts.found posts.mirror posts.order) s\n",
        ),
    ),
    Row(
        "release_of_any_attempt",
        "a release asks only whether something is recorded, not for which attempt",
        UNRECORDED,
        (spec("SessionEntries"), "release_entries a n = refuse_if (void_refusal a n)", "release_entries a n = refuse_if (unrecorded_refusal a n)"),
        IN_ORDERS,
        (facts("SharedEntries"), "member-fine phases.Release s n m may why = fine-refuse K Ok Why (void_refusal m.a.0 n) _ why.void", "member-fine phases.Release s n m may why = fine-refuse K Ok Why (unrecorded_refusal m.a.0 n) _ why.unrecorded"),
        (facts("SharedEntries"), "    pub void : (k : Control) → WhyNot Why (void_refusal m.a.0 n k)", "    pub void : (k : Control) → WhyNot Why (void_refusal m.a.0 n k)\n    pub unrecorded : (k : Control) → WhyNot Why (unrecorded_refusal m.a.0 n k)"),
        (sound("Awaits"), "      void = λ k. why-any _;", "      void = λ k. why-any _;\n      unrecorded = λ k. why-any _;"),
        (sound("DoesPlans"), "        void = λ j. late so _ (void-why m.a.0 n j);", "        void = λ j. late so _ (void-why m.a.0 n j);\n        unrecorded = λ j. late so _ (why-if NoStop (fields_at j m.a.0).recording None (Some (Void n)) tt refl);"),
        (sound("RefusedWrites"), "member-first phases.Release s n m = first-refuse (void_refusal m.a.0 n)", "member-first phases.Release s n m = first-refuse (unrecorded_refusal m.a.0 n)"),
        (sound("FitsOrders"), "refused v (void_refusal m.a.0 n) (free_on m.a.0 ∷ ds) st.sound", "refused v (unrecorded_refusal m.a.0 n) (free_on m.a.0 ∷ ds) st.sound"),
        (sound("FitsOrders"), "(by (last-recorded v m rest st (met (records n (fields_at v.control m.a.0)) (Void n) none)) (fields_at v.control m.a.0).coordination)", "(by (records-last v m rest st (met (fields_at v.control m.a.0).recording (Void n) none)) (fields_at v.control m.a.0).coordination)"),
    ),
    Row(
        "seal_of_any_attempt",
        "a seal asks only whether something is recorded, not for which attempt",
        UNRECORDED,
        (spec("SessionEntries"), "seal_entries s a b n = refuse_if (void_refusal a n)", "seal_entries s a b n = refuse_if (unrecorded_refusal a n)"),
        ("dr_laws_cuts/proofs/SealEnds.antt", "{is_drained, void_refusal,", "{is_drained, unrecorded_refusal,"),
        ("dr_laws_cuts/proofs/SealEnds.antt", "last-by : void_refusal a n", "last-by : unrecorded_refusal a n"),
        ("dr_laws_cuts/proofs/SealEnds.antt", "    last : void_refusal a n", "    last : unrecorded_refusal a n"),
        ("dr_laws_cuts/proofs/SealEnds.antt", "checks (void_refusal a n)", "checks (unrecorded_refusal a n)"),
    ),
    Row(
        "late_revert_of_any_flash",
        "a revert takes back whatever is revertible, not only what its attempt flashed",
        (spec("SessionEntries"), "    if is_flashed n (fields_at k c) then Do (Make (Revert c a s n))", "    if (fields_at k c).revertible then Do (Make (Revert c a s (fields_at k c).sequence))"),
        (facts("SharedEntries"), "pub revert : May (Make (Revert m.c.0 m.a.0 s n))", "pub revert : (w : World) → K w → Ok w (Make (Revert m.c.0 m.a.0 s (fields_at w.control m.c.0).sequence))"),
        (facts("SharedEntries"), "(is_flashed n (fields_at w.control m.c.0)) (Do (Make (Revert m.c.0 m.a.0 s n)))", "(fields_at w.control m.c.0).revertible (Do (Make (Revert m.c.0 m.a.0 s (fields_at w.control m.c.0).sequence)))"),
        (sound("DoesPlans"), "does.OrdersRevert s m i n", "does.OrdersRevert s m i (fields_at u.control m.c.0).sequence"),
        (sound("RefusedWrites"), "(is_flashed n (fields_at w.control m.c.0)) _ _ tt", "(fields_at w.control m.c.0).revertible _ _ tt"),
        (sound("FitsOrders"), "(by send (is_flashed n (fields_at v.control m.c.0)) (nat_lt", "(by send (fields_at v.control m.c.0).revertible (nat_lt"),
        (sound("FitsOrders"), "(b under : Bool) → is_flashed n (fields_at v.control m.c.0) ≡ b", "(b under : Bool) → (fields_at v.control m.c.0).revertible ≡ b"),
        (sound("FitsOrders"), "(Do (Make (Revert m.c.0 m.a.0 i n)))", "(Do (Make (Revert m.c.0 m.a.0 i (fields_at v.control m.c.0).sequence)))"),
        (sound("FitsOrders"), "      by send false true none floor =\n", "      by send false true plain floor =\n          let none : is_flashed n (fields_at v.control m.c.0) ≡ false = ap (λ b. b && nat_eq (fields_at v.control m.c.0).sequence n) plain in\n"),
        (sound("FitsOrders"), "      by send false false none floor = go", "      by send false false plain floor = let none : is_flashed n (fields_at v.control m.c.0) ≡ false = ap (λ b. b && nat_eq (fields_at v.control m.c.0).sequence n) plain in go"),
    ),
    Row(
        "late_commit_of_any_flash",
        "a commit settles whatever is revertible, not only what its attempt flashed",
        (spec("SessionEntries"), "is_committed n (fields_at k c) || is_flashed n (fields_at k c) then None", "is_committed n (fields_at k c) || (fields_at k c).revertible then None"),
        (spec("SessionEntries"), "Do (Make (Commit c a s n))", "Do (Make (Commit c a s (fields_at k c).sequence))"),
        (attempts("Orders"), "is_committed n (fields_at k c) ≡ false → is_flashed n (fields_at k c) ≡ true", "is_committed n (fields_at k c) ≡ false → (fields_at k c).revertible ≡ true"),
        (attempts("Orders"), "by (or_cases (is_committed n (fields_at k c)) (is_flashed n (fields_at k c)) (either (is_committed n (fields_at k c) || is_flashed n (fields_at k c)) h))", "by (or_cases (is_committed n (fields_at k c)) (fields_at k c).revertible (either (is_committed n (fields_at k c) || (fields_at k c).revertible) h))"),
        (attempts("Orders"), "(is_committed n (fields_at k c) ≡ true) ⊎ (is_flashed n (fields_at k c) ≡ true) → is_flashed n (fields_at k c) ≡ true", "(is_committed n (fields_at k c) ≡ true) ⊎ ((fields_at k c).revertible ≡ true) → (fields_at k c).revertible ≡ true"),
        (attempts("Orders"), "flag = (and_parts (fields_at k m.c.0).revertible (nat_eq (fields_at k m.c.0).sequence n) (commit-passed m.c.0 n k passes none)).0", "flag = commit-passed m.c.0 n k passes none"),
        (facts("SharedEntries"), "pub commit : May (Make (Commit m.c.0 m.a.0 s n))", "pub commit : (w : World) → K w → Ok w (Make (Commit m.c.0 m.a.0 s (fields_at w.control m.c.0).sequence))"),
        (
            facts("SharedEntries"),
            "(unless-fine (λ k. is_committed n (fields_at k m.c.0)) (Make (Commit m.c.0 m.a.0 s n)) may.commit)",
            "(λ w k. fine-if K Ok Why w (is_committed n (fields_at w.control m.c.0)) Pass (Do (Make (Commit m.c.0 m.a.0 s (fields_at w.control m.c.0).sequence))) tt (may.commit w k))",
        ),
        (sound("DoesPlans"), "does.OrdersCommit s m i n", "does.OrdersCommit s m i (fields_at u.control m.c.0).sequence"),
        (sound("FitsOrders"), "(Do (Make (Commit m.c.0 m.a.0 i n)))", "(Do (Make (Commit m.c.0 m.a.0 i (fields_at v.control m.c.0).sequence)))"),
    ),
    Row(
        "late_finish_of_a_later_attempt",
        "a Finish lets a primary go that records a later attempt",
        (spec("SessionEntries"), "is_past n f = nat_lt n f.attempt || ", "is_past n f = (nat_lt n f.attempt && not f.recording) || "),
        (
            "dr_laws_sessions/proofs/Silent.antt",
            "by (or_cases (nat_lt n (fields_at k m.a.0).attempt) (nat_eq",
            "by (or_cases (nat_lt n (fields_at k m.a.0).attempt && not (fields_at k m.a.0).recording) (nat_eq",
        ),
        ("dr_laws_sessions/proofs/Silent.antt", "by : (nat_lt n (fields_at k m.a.0).attempt ≡ true) ⊎", "by : ((nat_lt n (fields_at k m.a.0).attempt && not (fields_at k m.a.0).recording) ≡ true) ⊎"),
        ("dr_laws_sessions/proofs/Silent.antt", "ltb-true n (fields_at k m.a.0).attempt newer in", "ltb-true n (fields_at k m.a.0).attempt (and_parts (nat_lt n (fields_at k m.a.0).attempt) (not (fields_at k m.a.0).recording) newer).0 in"),
        (attempts("Orders"), "by (or_cases (nat_lt n (fields_at k m.a.0).attempt) (nat_eq", "by (or_cases (nat_lt n (fields_at k m.a.0).attempt && not (fields_at k m.a.0).recording) (nat_eq"),
        (attempts("Orders"), "by : (nat_lt n (fields_at k m.a.0).attempt ≡ true) ⊎", "by : ((nat_lt n (fields_at k m.a.0).attempt && not (fields_at k m.a.0).recording) ≡ true) ⊎"),
        (attempts("Orders"), "ltb-true n (fields_at k m.a.0).attempt above in", "ltb-true n (fields_at k m.a.0).attempt (and_parts (nat_lt n (fields_at k m.a.0).attempt) (not (fields_at k m.a.0).recording) above).0 in"),
        ("dr_laws_orders/proofs/Older.antt", "arith, Bool, true, false, cond, nat_eq, nat_lt,", "arith, Bool, true, false, cond, not, ◌&&◌, nat_eq, nat_lt,"),
        ("dr_laws_orders/proofs/Older.antt", "(or_parts (nat_lt n (fields_at u.control q.a.0).attempt) _ past)", "(or_parts (nat_lt n (fields_at u.control q.a.0).attempt && not (fields_at u.control q.a.0).recording) _ past)"),
    ),
    Row(
        "repeated_hold_empties_again",
        "a hold that comes again is done again, and what changed since counts no more",
        (spec("SessionEntries"), "    if records n (fields_at k a) then Pass\n", "    if records n (fields_at k a) then Do (Make (Hold a s n false))\n"),
        (facts("SharedEntries"), "(records n (fields_at w.control m.a.0)) Pass _ tt (by", "(records n (fields_at w.control m.a.0)) (Do (Make (Hold m.a.0 s n false))) _ (may.hold w k) (by"),
        (sound("RefusedWrites"), "(records n (fields_at w.control m.a.0)) Pass _ tt tt", "(records n (fields_at w.control m.a.0)) _ _ tt tt"),
        (sound("Awaits"), "attempt o.number) Pass (Do (cond", "attempt o.number) (Do (Make (Hold m.a.0 i o.number false))) (Do (cond"),
        (sound("FitsOrders"), "Then v (cond p Pass (Do (cond q (OpenAttempt", "Then v (cond p (Do (Make (Hold m.a.0 i n false))) (Do (cond q (OpenAttempt"),
        (sound("FitsOrders"), "Then v (cond p Pass (Do (cond (nat_lt (last_of v.control i) n) (OpenAttempt", "Then v (cond p (Do (Make (Hold m.a.0 i n false))) (Do (cond (nat_lt (last_of v.control i) n) (OpenAttempt"),
    ),
    Row(
        "repeated_flash_sets_aside_again",
        "a flash that comes again is done again, and sets the view of the first one aside",
        (spec("SessionEntries"), "if is_flashed n (fields_at k c) then Pass else Do (Make (Flash c b a s n))", "if is_flashed n (fields_at k c) then Do (Make (Flash c b a s n)) else Do (Make (Flash c b a s n))"),
        (facts("SharedEntries"), "(unless-fine (λ k. is_flashed n (fields_at k m.c.0)) (Make (Flash m.c.0 m.b.0 m.a.0 s n)) may.flash)", "(λ w k. fine-if K Ok Why w (is_flashed n (fields_at w.control m.c.0)) _ _ (may.flash w k) (may.flash w k))"),
        (sound("RefusedWrites"), "(is_flashed n (fields_at w.control m.c.0)) Pass _ tt tt", "(is_flashed n (fields_at w.control m.c.0)) _ _ tt tt"),
        (sound("FitsOrders"), "Then v (cond b Pass (Do (Make (Flash m.c.0 m.b.0 m.a.0 i n))))", "Then v (cond b (Do (Make (Flash m.c.0 m.b.0 m.a.0 i n))) (Do (Make (Flash m.c.0 m.b.0 m.a.0 i n))))"),
    ),
    Row(
        "member_added_without_raising",
        "a member that is added has its attempt and its target's floor as they were",
        (spec("SessionEntries"), "raise_attempt_on a n k = if nat_lt (fields_at k a).attempt n then", "raise_attempt_on a n k = if nat_lt (fields_at k a).attempt 0 then"),
        (spec("SessionEntries"), "raise_floor_on c n k = if nat_lt (fields_at k c).floor n then", "raise_floor_on c n k = if nat_lt (fields_at k c).floor 0 then"),
        (facts("SharedEntries"), "where-fine (λ k. nat_lt (fields_at k m.a.0).attempt n) (Make (RaiseAttempt", "where-fine (λ k. nat_lt (fields_at k m.a.0).attempt 0) (Make (RaiseAttempt"),
        (facts("SharedEntries"), "where-fine (λ k. nat_lt (fields_at k m.c.0).floor n) (Make (RaiseFloor", "where-fine (λ k. nat_lt (fields_at k m.c.0).floor 0) (Make (RaiseFloor"),
        (sound("FitsMembers"), "refl (by (nat_lt (fields_at v.control c).floor n) refl)", "refl (by (nat_lt (fields_at v.control c).floor 0) refl)"),
        (sound("FitsMembers"), "by : (b : Bool) → nat_lt (fields_at v.control c).floor n ≡ b", "by : (b : Bool) → nat_lt (fields_at v.control c).floor 0 ≡ b"),
        (sound("FitsMembers"), "past = ltb-false (fields_at v.control c).floor n lt", "past = ltb-false (fields_at v.control c).floor 0 lt"),
        (sound("FitsMembers"), "refl (by (nat_lt (fields_at w.control a).attempt n) refl)", "refl (by (nat_lt (fields_at w.control a).attempt 0) refl)"),
        (sound("FitsMembers"), "by : (b : Bool) → nat_lt (fields_at w.control a).attempt n ≡ b", "by : (b : Bool) → nat_lt (fields_at w.control a).attempt 0 ≡ b"),
        (sound("FitsMembers"), "let low = ltb-true (fields_at w.control a).attempt n lt in", "let low = ltb-true (fields_at w.control a).attempt 0 lt in"),
        (sound("FitsMembers"), "raised (ltb-false (fields_at w.control a).attempt n lt)", "raised (ltb-false (fields_at w.control a).attempt 0 lt)"),
    ),
    Row(
        "silent_report_raises_no_fence",
        "a report that an exchange asks for leaves its server's fence as it was where the master doesn't learn of it",
        (spec("SessionPlans"), "messages.heard s server (k.flight.epoch s) work k.flight", "messages.heard s server (if reply then k.flight.epoch s else 0) work k.flight"),
        (sound("FitsExchanges"), "answers false = sound-flight v _ (flights-heard v.control i server o.work e.sound.flights) e.sound", "answers false = sound-flight v _ (flights-heard-at v.control i server 0 o.work e.sound.flights (omega arith)) e.sound"),
        (sound("FitsExchanges"), "Replies.{flights-answered, flights-heard}", "Replies.{flights-answered, flights-heard-at}"),
        (
            sound("FitsExchanges"),
            "(heard i server (v.control.flight.epoch i) o.work v.control.flight) (heard-messages i server (v.control.flight.epoch i) o.work v.control.flight)",
            "(heard i server (cond reply (v.control.flight.epoch i) 0) o.work v.control.flight) (heard-messages i server (cond reply (v.control.flight.epoch i) 0) o.work v.control.flight)",
        ),
        (
            sound("FitsExchanges"),
            "    goes-heard : (ss : List Session) → AllGoOn v.control ss v.control.flight → AllGoOn v.control ss (heard i server (v.control.flight.epoch i) o.work v.control.flight)\n"
            "    goes-heard ss h = goes-still v.control v.control.flight _ ss (λ q here. subst (In q) (heard-messages i server (v.control.flight.epoch i) o.work v.control.flight) here) (heard-epoch i server (v.control.flight.epoch i) o.work v.control.flight) h",
            "    goes-heard : (epoch : ℕ) (ss : List Session) → AllGoOn v.control ss v.control.flight → AllGoOn v.control ss (heard i server epoch o.work v.control.flight)\n"
            "    goes-heard epoch ss h = goes-still v.control v.control.flight _ ss (λ q here. subst (In q) (heard-messages i server epoch o.work v.control.flight) here) (heard-epoch i server epoch o.work v.control.flight) h",
        ),
        (sound("FitsExchanges"), "goes true = goes-heard _", "goes true = goes-heard (v.control.flight.epoch i) _"),
        (sound("FitsExchanges"), "goes false = goes-heard v.control.sessions", "goes false = goes-heard 0 v.control.sessions"),
        ("dr_laws_orders/proofs/FlightGoesOn.antt", "exchanged-goes i server false work ms k = goes-heard i server (k.flight.epoch i) work", "exchanged-goes i server false work ms k = goes-heard i server 0 work"),
        (sound("FlightCounts"), "by k reply n (counted-heard n (length k.servers) s server (k.flight.epoch s) o.work k.flight h)", "by k reply n (counted-heard n (length k.servers) s server (cond reply (k.flight.epoch s) 0) o.work k.flight h)"),
        (sound("FlightCounts"), "CountedBy k n (messages.heard s server (k.flight.epoch s) o.work k.flight)", "CountedBy k n (messages.heard s server (cond b (k.flight.epoch s) 0) o.work k.flight)"),
        seen=False,
    ),
    Row(
        "old_order_named_by_its_epoch",
        "an old order is refused, and the answer names its epoch instead of its message",
        (spec("MessagePlans"), "Some (OldMessage m.number)", "Some (OldMessage m.epoch)"),
    ),
    Row(
        "start_counted_as_the_first",
        "each start of a server counts as its first, so that an order from before a later one is carried out",
        (spec("Messages"), "starts = at f.starts server (f.starts server + 1)", "starts = at f.starts server 1"),
        (sound("FlightCounts"), "f.starts server (f.starts server + 1) one (λ q ne. more.starts q)", "f.starts server 1 (omega arith) (λ q ne. more.starts q)"),
    ),
    Row(
        "raised_floor_copies_on",
        "a revert of an older attempt has the target's tracks copied in the background from then on",
        (spec("Pairs"), "with_floor n f = record f { floor = n }", "with_floor n f = record f { floor = n; nocopy = false }"),
        ("dr_facts/proofs/Lawful.antt",
         "  lawful-floor i = lawful-paired (with_floor i f) old.out_of_sync_low old.change_recording_low old.blank_low law.primary law.secondary",
         "  lawful-floor i = record { sets = law.sets; primary = law.primary; secondary = law.secondary; relation = λ h. let o = law.relation h in (o.0, refl, o.2, o.3, o.4, o.5, o.6, o.7, o.8, o.9, o.10, o.11, o.12, o.13, o.14) }"),
        (sound("KeepsStructure"),
         "  kept-structure (RaiseFloor v n) a = paired (RaiseFloor v n) (lawful-floor _ _ (old.lawful v) n) (λ q h. h)",
         "  kept-structure (RaiseFloor v n) a = structure-at v _ (record {\n"
         "    lawful = lawful-floor _ _ (old.lawful v) n;\n"
         "    sets = let s = old.sets v in record { apart = s.apart; noted_held = s.noted_held; rewritten_held = s.rewritten_held };\n"
         "    flags = let g = old.flags v in record { persists = g.persists; records = g.records; unchanged = g.unchanged; some = g.some };\n"
         "    reverts = λ e. let r = old.reverts v e in record { records = r.records; forward = r.forward; apart = r.apart; noted_held = r.noted_held; rewritten_held = r.rewritten_held; unchanged = r.unchanged; kept = r.kept };\n"
         "    defined = old.defined v;\n    from = old.flash v;\n    loop = no_loop v;\n    onto = λ u. old.flash u v;\n    restores = stays-restores v;\n  })"),
    ),
    Row(
        "torn_gate_is_read_by_its_last_bit",
        "a gate that is cut short chooses its slot by the last bit of what is left there, which a fill with 00 or 01 leaves 0",
        (spec("Carry"), "gate_turned (Some bytes) new = equal (bit (byte bytes 0) 0) new", "gate_turned (Some bytes) new = equal (bit (byte bytes (length bytes - 1)) 7) new"),
        (spec("Carry"), "◌++◌, filter, Option", "◌++◌, filter, length, Option"),
        ("dr_model/proofs/StagedChecks.antt", "new_gate : counts 7 7 (Some (1 ∷ [])) true ≡ true", "new_gate : counts 7 7 (Some (128 ∷ [])) true ≡ true"),
        ("dr_model/proofs/StagedChecks.antt", "in_the_gate : left (goes (Some (after 7 (Some (1 ∷ [])))))", "in_the_gate : left (goes (Some (after 7 (Some (128 ∷ [])))))"),
    ),
    Row(
        "fuse_at_1_stays",
        "a fuse that lets one device write pass lets one more pass after it",
        (spec("Carry"), "lowered n f = record f { after = f.after - n }", "lowered n f = record f { after = if nat_le f.after n then min f.after 1 else f.after - n }"),
        (spec("Carry"), "List, [], ◌∷◌, ◌++◌, filter,", "List, [], ◌∷◌, ◌++◌, filter, min,"),
    ),
    Row(
        "fuse_counts_its_partner",
        "what a server writes is counted by the fuse of its partner's server, too, once for each update of a volume",
        (spec("Carry"), "spent w s n = record w { control = record w.control { fuse = at w.control.fuse s (lower n (w.control.fuse s)) } }",
         "spent w s n = record w { control = record w.control { fuse = at (beside w s) s (lower n (w.control.fuse s)) } }"),
        (spec("Carry"), "-- n writes of server s were done\n",
         "-- the server of the partner of a volume\nabbrev pub partner_server : Control → Option ℕ → ℕ\npartner_server k None = 0\npartner_server k (Some v) = (k.volume (k.volume v).fields.primary_partner).server\n\n"
         "-- the fuses, with a write less for the partner of server s\nabbrev pub beside : World → ℕ → ℕ → Option Fuse\n"
         "beside w s = let q : ℕ = partner_server w.control (find (λ v. nat_eq (w.control.volume v).server s) w.control.volumes) in at w.control.fuse q (lower 1 (w.control.fuse q))\n\n"
         "-- n writes of server s were done\n"),
        (spec("Carry"), "use Rattle.dr_logic.specs.Tables.{at}\n", "use Rattle.std.specs.List.{find}\nuse Rattle.dr_logic.specs.Tables.{at}\n"),
        (sound("Turns"), "control = record (moved_in w m).control { fuse = at w.control.fuse u.server f; pending = settled m w.control.pending };",
         "control = record (moved_in w m).control { fuse = at (beside (moved_in w m) u.server) u.server f; pending = settled m w.control.pending };"),
        (sound("Turns"), "fused w s f = record w { control = record w.control { fuse = at w.control.fuse s f } }", "fused w s f = record w { control = record w.control { fuse = at (beside w s) s f } }"),
        (sound("Turns"), "attempt_begun, opened_by}", "attempt_begun, beside, opened_by}"),
        (sound("KeepsSound"), "w.control.on (at w.control.fuse x f) w.control.link w.control.paths s.groups;", "w.control.on (at (beside w x) x f) w.control.link w.control.paths s.groups;"),
        (sound("KeepsSound"), "recovered, Entry, Next, check, now}", "recovered, Entry, Next, beside, check, now}"),
    ),
    Row(
        "numbers_anew_in_an_empty_flight",
        "where the last message in flight is lost, messages are numbered from 1 again, so that an old number is carried out",
        (spec("Messages"), "lost n f = record f { messages = filter (λ m. not (m.number == n)) f.messages }",
         "lost n f = record f { messages = filter (λ m. not (m.number == n)) f.messages; made = made_left (filter (λ m. not (m.number == n)) f.messages) f.made }"),
        (spec("Messages"), "-- the message of that number is gone\n",
         "-- numbers begin anew where no message is left\nabbrev pub made_left : List Message → ℕ → ℕ\nmade_left [] n = 0\nmade_left (m ∷ ms) n = n\n\n-- the message of that number is gone\n"),
        (sound("FlightCounts"), "(λ m h. fewer m _ (counted-fewer m count (λ (q : Message). not (q.number == n)) k.flight h))",
         "(λ m h. fewer m _ (counted-dropped m count (filter (λ (q : Message). not (q.number == n)) k.flight.messages) k.flight (counted-fewer m count (λ (q : Message). not (q.number == n)) k.flight h)))"),
        (sound("FlightCounts"), "counted-left : (n c s l : ℕ)",
         "counted-dropped : (n c : ℕ) (ms : List Message) (f : Flight) → IsCounted n c (record f { messages = ms }) → IsCounted n c (record f { messages = ms; made = messages.made_left ms f.made })\n"
         "counted-dropped n c [] f h = record { made = omega arith; starts = h.starts; epochs = h.epochs; numbers = λ m here. absurd here; once = h.once; homes = h.homes }\n"
         "counted-dropped n c (m ∷ ms) f h = h\n\ncounted-left : (n c s l : ℕ)"),
    ),
    Row(
        "received_track_joins_out_of_sync",
        "a track that comes to a recording volume is out of sync, and isn't noted as changed since",
        (spec("Pairs"), "out_of_sync = if is_part f.primary && not f.recording then insert f.out_of_sync t else f.out_of_sync;\n  change_recording = if is_part f.primary && f.recording then insert f.change_recording t else f.change_recording;",
         "out_of_sync = if is_part f.primary then insert f.out_of_sync t else f.out_of_sync;"),
        (facts("Lawful"), "(low-more (is_part f.primary && not f.recording) f.out_of_sync t lt old.out_of_sync_low) (low-more (is_part f.primary && f.recording) f.change_recording t lt old.change_recording_low)",
         "(low-more (is_part f.primary) f.out_of_sync t lt old.out_of_sync_low) old.change_recording_low"),
        (facts("Lawful"), "if_false _ _ (ap (λ b. b && not f.recording) h) ∙ o.5, if_false _ _ (ap (λ b. b && f.recording) h) ∙ o.6))", "if_false _ _ h ∙ o.5, o.6))"),
    ),
    Row(
        "received_track_joins_no_set",
        "a track that a secondary receives is stored, and neither out of sync nor noted as changed where the secondary is a primary too",
        (spec("Pairs"), "received last f t = record (written f t) { seal = 0;", "received last f t = record f { blank = remove f.blank t; seal = 0;"),
        (facts("Lawful"), "lawful-received last t lt is = let w = lawful-written t lt in lawful-paired (received last f t) w.sets.out_of_sync_low w.sets.change_recording_low (blank-less t) w.primary (λ h. false_true h is)",
         "lawful-received last t lt is = lawful-paired (received last f t) old.out_of_sync_low old.change_recording_low (blank-less t) law.primary (λ h. false_true h is)"),
        ("dr_laws_cuts/proofs/KeepsCut.antt", "unsent (Store v t u last) (λ rec. landed-there v t _ _ rec (landed_out (is_part f.primary) f.recording (insert f.out_of_sync t) f.out_of_sync rec)", "unsent (Store v t u last) (λ rec. landed-there v t _ _ rec refl"),
        ("dr_laws_cuts/proofs/KeepsSent.antt", "sent (Store v t u last) a (λ x h rec k q lt i. old.sent v x h rec k q lt (ap (λ x. contains x q) (sym (landed_out (is_part f.primary) f.recording (insert f.out_of_sync t) f.out_of_sync rec)) ∙ i))", "sent (Store v t u last) a (old.sent v)"),
        (sound("KeepsSeals"), "sent (Store v t u last) a (λ x h k rec nz is q. ap (λ s. contains s q) (landed_out (is_part f.primary) f.recording (insert f.out_of_sync t) f.out_of_sync rec) ∙ old.sent v x h k rec nz is q)", "sent (Store v t u last) a (old.sent v)"),
        (sound("KeepsRecorders"), "changed (Store v t u last) (record { holds = o.holds; global = o.global; pending = o.pending; none = λ h. none-written (is_part f.primary) f.recording f.change_recording t h (o.none h) })", "changed (Store v t u last) (record { holds = o.holds; global = o.global; pending = o.pending; none = o.none })"),
    ),
    Row(
        "received_beside_a_hold",
        "a track comes to a volume that coordination holds",
        (spec("Allowed"), "  pub free : (fields T v).coordination ≡ false\n  pub sent", "  pub sent"),
        ("dr_laws_cuts/proofs/Still.antt", "kept = kept; free = free (fields T v).coordination refl; sent", "kept = kept; sent"),
    ),
    Row(
        "received_before_it_is_sent",
        "a track comes to a recording volume that still has to send what the track was",
        (spec("Allowed"), "\n  pub sent : (fields T v).recording ≡ true → contains (fields T v).out_of_sync t ≡ false", ""),
        ("dr_laws_cuts/proofs/Still.antt", "; sent = λ rec. false_true plain (first v rec) }", " }"),
    ),
    Row(
        "leaving_drops_what_is_unsent",
        "a volume that leaves its primary has nothing out of sync from then on",
        (spec("Moves"), "fields_left (LeavePrimary v) u = no_secondary u.fields", "fields_left (LeavePrimary v) u = record (no_secondary u.fields) { out_of_sync = empty }"),
        (spec("Moves"), "FinSet.{contains}", "FinSet.{contains, empty}"),
        (facts("Lawful"), "  pub lawful-taken_over :",
         "  pub lawful-emptied : IsLawful n (record (no_secondary f) { out_of_sync = empty })\n"
         "  lawful-emptied = lawful-paired (record (no_secondary f) { out_of_sync = empty }) (in_none _) old.change_recording_low old.blank_low (λ h. let o = law.primary h in (o.0, o.1, o.2, o.3, o.4, refl, o.6)) (λ h. (refl, refl, refl))\n\n"
         "  pub lawful-taken_over :"),
        (sound("KeepsStructure"), "(LeavePrimary v) (lawful-no_secondary _ _ (old.lawful v))", "(LeavePrimary v) (lawful-emptied _ _ (old.lawful v))"),
        (sound("KeepsStructure"), "lawful-no_secondary, ", "lawful-no_secondary, lawful-emptied, "),
    ),
    Row(
        "leaving_is_not_told",
        "a volume leaves its primary, and the journal isn't told that it was taken over",
        (spec("Moves"), "told (LeavePrimary v) u = TakenOver v ∷ []\n", ""),
        (facts("Emits"), "emits (LeavePrimary v) = Takes ∷ []\n", ""),
        (facts("Emits"), "TakeOver, LeavePrimary, ", "TakeOver, "),
        seen=False,
    ),
    Row(
        "any_secondary_becomes_a_primary",
        "a secondary of Global Copy becomes a primary, and so does one of its own new partner",
        (spec("Allowed"), "pub second : is_part (fields T v).secondary ≡ true → Cascaded kind u (fields T v).secondary (fields T v).secondary_partner", "pub second : is_part (fields T v).secondary ≡ true → kind ≡ Global"),
        (spec("Allowed"), "Laws.{Cascaded, source", "Laws.{source"),
        (spec("Allowed"), "pub from_free : is_part (fields T u).secondary ≡ true → Cascaded kind v (fields T u).secondary (fields T u).secondary_partner", "pub from_free : is_part (fields T u).secondary ≡ true → v ≢ (fields T u).secondary_partner"),
    ),
    Row(
        "primaries_of_each_other",
        "the new primary of a volume may be its secondary",
        (spec("Allowed"), "pub from_free : is_part (fields T u).secondary ≡ true → Cascaded kind v (fields T u).secondary (fields T u).secondary_partner", "pub from_free : is_part (fields T u).secondary ≡ true → is_metro (fields T u).secondary ≡ true"),
    ),
    Row(
        "secondary_of_a_member_is_cascaded",
        "the secondary of a member becomes a primary, and stays a secondary",
        (spec("Attempts"), "InAttempt k (MakePrimary v u kind state full) = is_part (fields_at k v).secondary ≡ true → SecondaryOfNone k v\n", ""),
        (spec("Attempts"), "MakeSecondary, MakePrimary, Yield, Hold,", "MakeSecondary, Yield, Hold,"),
    ),
    Row(
        "pair_excused_by_what_its_secondary_has_not_sent",
        "both volumes of a pair contain the same outside what either has unsent, also where the secondary has it unsent to a third",
        (spec("Laws"), "unsent r t ≡ false → (its_secondary s ≡ Some v → unsent s t ≡ false) → r.bytes t ≡ s.bytes t", "unsent r t ≡ false → unsent s t ≡ false → r.bytes t ≡ s.bytes t"),
    ),
    Row(
        "secondary_of_a_global_copy_is_cascaded",
        "mkpprc -cascade takes a secondary of Global Copy, too",
        (spec("PairEntries"), "(is_metro (fields_at k a).secondary && not (nat_eq (fields_at k a).secondary_partner b))", "(is_part (fields_at k a).secondary && not (nat_eq (fields_at k a).secondary_partner b))"),
    ),
    Row(
        "cascaded_to_its_own_primary",
        "mkpprc -cascade may name the volume's own primary",
        (spec("PairEntries"), "(is_metro (fields_at k a).secondary && not (nat_eq (fields_at k a).secondary_partner b))", "is_metro (fields_at k a).secondary"),
    ),
    Row(
        "secondary_of_a_member_is_taken_by_cascade",
        "mkpprc -cascade takes the secondary of a member",
        (spec("Sessions"), "is_copy v x = list_any (λ m. m.b.0 == v || m.c.0 == v) x.members", "is_copy v x = list_any (λ m. m.c.0 == v) x.members"),
    ),
    Row(
        "member_over_a_cascaded_secondary",
        "a member is added whose secondary is a primary, too",
        (spec("SessionPlans"), "lead_refusal b k = if is_part (fields_at k b).primary then Some (pair_state k b) else None", "lead_refusal b k = None"),
    ),
    Row(
        "write_passes_a_held_second_site",
        "a host write goes over to a cascaded volume that coordination holds",
        (spec("WriteEntries"), "is_held_back k v = holds_back (fields_at k (partner_of k v))", "is_held_back k v = false"),
    ),
    Row(
        "third_site_loses_nothing",
        "no step takes a write from the third site",
        (spec("TakenWrites"), "is_third k a v = let u : ℕ = (fields_at k a).primary_partner in is_cascaded (fields_at k u) && is_primary_of v (fields_at k u)", "is_third k a v = false"),
    ),
    Row(
        "unfreezeflash_frees_all_others",
        "an unfreezeflash ends the flash holds of the volumes outside its logical subsystem",
        (spec("WriteEntries"), "is_held_in k l v = nat_eq (subsystem v) l && (", "is_held_in k l v = not (nat_eq (subsystem v) l) && ("),
        (sound("FitsHolds"), "let runs : Runs w v = (and_parts (is_running v w.control) _ (and_parts (nat_eq (subsystem v) l) _ is).1).0 in (record", "let runs : Runs w v = (and_parts (is_running v w.control) _ (and_parts (not (nat_eq (subsystem v) l)) _ is).1).0 in (record"),
        (sound("FitsHolds"), "◌&&◌, nat_eq, List,", "◌&&◌, not, nat_eq, List,"),
    ),
    Row(
        "thaw_lifts_nothing",
        "an unfreezepprc leaves its primaries long busy",
        (spec("Pairs"), "thawed f = record f { long_busy = false }", "thawed f = f"),
        (facts("Lawful"), "lawful-paired (thawed f) old.out_of_sync_low old.change_recording_low old.blank_low (λ h. let o = law.primary h in (o.0, o.1, o.2, refl, o.4", "lawful-paired (thawed f) old.out_of_sync_low old.change_recording_low old.blank_low (λ h. let o = law.primary h in (o.0, o.1, o.2, o.3, o.4"),
    ),
    Row(
        "expire_leaves_flash_holds",
        "an @expire leaves flash holds",
        (spec("Pairs"), "  long_busy = false;\n  flash_hold = false;\n", "  long_busy = false;\n  flash_hold = f.flash_hold;\n"),
        ("dr_laws_flashes/proofs/Waits.antt", "hold-left (Lift v) u h = absurd cc", "hold-left (Lift v) u h = inr h"),
    ),
    Row(
        "link_down_leaves_it_up",
        "a link that is up stays up by @link down",
        (spec("Plans"), "if joins x y a b then up else k.link x y", "if joins x y a b then up || k.link x y else k.link x y"),
        (sound("Steps"), "(λ x y. cond (joins x y a b) up (w.control.link x y))", "(λ x y. cond (joins x y a b) (up || w.control.link x y) (w.control.link x y))"),
        (sound("Steps"), "link = λ x y. cond (joins x y a b) up (k.link x y) }", "link = λ x y. cond (joins x y a b) (up || k.link x y) (k.link x y) }"),
        (sound("Steps"), "◌∙◌, subst, Bool, false, cond, List,", "◌∙◌, subst, Bool, false, cond, ◌||◌, List,"),
    ),
    Row(
        "torn_bytes_are_zeros",
        "torn XX fills the block with 00",
        (spec("Plans"), "torn_bytes (Fill b) = Some (replicate 64 b)", "torn_bytes (Fill b) = Some (replicate 64 0)"),
    ),
    Row(
        "drain_says_none",
        "a drain answers ok 0 whatever it has sent",
        (spec("Plans"), "says = always (Done (Counted (length ts)));", "says = always (Done (Counted 0));"),
    ),
    Row(
        "drain_of_some_says_none",
        "a drain of at most K tracks answers ok 0 whatever it has sent",
        (spec("Plans"), "says = always (Done (Counted (length ts)));", "says = always (Done (Counted (if is_some most then 0 else length ts)));"),
    ),
    Row(
        "copy_says_none",
        "an @copy answers ok 0 whatever it has copied",
        (spec("Plans"), "∷ times count (copy_one k t))\n    (Done (Counted count))", "∷ times count (copy_one k t))\n    (Done (Counted 0))"),
    ),
    Row(
        "destage_says_one",
        "an @destage answers ok 1 if nothing was staged",
        (spec("Plans"), "(Done (Counted (redo_writes (k.volume v).staged)))", "(Done (Counted 1))"),
    ),
]


def edited(text, old, new, where):
    if text.count(old) != 1:
        raise SystemExit(f"{where}: this stands there {text.count(old)} times and not once: {old}")
    return text.replace(old, new)


def changed(folder, row):
    """The row written into the copy; gives back what stood there."""
    before = {}
    for names, old, new in row.edits:
        for name in names.split():
            path = folder / "crates" / name
            text = path.read_text(encoding="utf-8")
            before.setdefault(path, text)
            path.write_text(edited(text, old, new, f"{row.name}: {name}"), encoding="utf-8")
    return before


def copied(folder):
    (folder / "crates").mkdir(parents=True, exist_ok=True)
    for name in CRATES:
        shutil.copytree(TOP / "crates" / name, folder / "crates" / name, ignore=shutil.ignore_patterns("out", "must-fail", "edits"), dirs_exist_ok=True)
    wanted = [line for line in (TOP / "crates.txt").read_text().splitlines() if line.split(":")[0] in CRATES]
    (folder / "crates.txt").write_text("\n".join(wanted) + "\n")
    shutil.copy(TOP / "HANDLES", folder / "HANDLES")


def first_refusal(folder):
    """The first crate that isn't proved, with the errors and the laws that lost their proof; None where all are."""
    for name in CRATES:
        done = subprocess.run(["rt", "check"], cwd=folder / "crates" / name, capture_output=True, text=True)
        lines = (done.stdout + done.stderr).splitlines()
        errors = [m.groups() for m in map(ERROR.match, lines) if m]
        lost = [m.group(1).split("::")[-1] for m in map(LOST.match, lines) if m]
        if done.returncode or errors:
            return name, errors, lost, lines
    return None


def tried(folder, row, verbose):
    before = changed(folder, row)
    try:
        refusal = first_refusal(folder)
    finally:
        for path, text in before.items():
            path.write_text(text, encoding="utf-8")
    print(f"{row.name}: {row.says}", flush=True)
    if refusal is None:
        print("  LET THROUGH" if row.seen else "  let through, as known: no law sees it", flush=True)
        return not row.seen
    crate, errors, lost, lines = refusal
    roots = [error for error in errors if not BEHIND.search(error[2])]
    modules = sorted({module for module, _, _ in roots})
    print(f"  refused by {crate}: {' '.join(modules)}")
    for module, line, text in roots if verbose else []:
        print(f"    {module}:{line}: {text[:200]}")
    if verbose and not roots:
        print("\n".join(lines[-20:]))
    print(f"  laws without a proof: {' '.join(lost)}", flush=True)
    if not crate.startswith("dr_laws_") or not lost or not modules or any(map(TECHNICAL.search, modules)):
        print("  NOT BY A LAW", flush=True)
        return False
    if not row.seen:
        print("  A LAW SEES IT", flush=True)
    return row.seen


def main():
    parser = argparse.ArgumentParser(description=__doc__.split("\n\n")[0])
    parser.add_argument("names", nargs="*")
    parser.add_argument("--in", dest="folder", type=Path)
    parser.add_argument("--list", action="store_true")
    parser.add_argument("--verbose", action="store_true")
    args = parser.parse_args()
    if args.list:
        for row in ROWS:
            print(f"{row.name}: {row.says}", flush=True)
        return 0
    rows = [row for row in ROWS if not args.names or row.name in args.names]
    with tempfile.TemporaryDirectory() as scratch:
        folder = args.folder or Path(scratch)
        copied(folder)
        good = [tried(folder, row, args.verbose) for row in rows]
    print(f"{sum(good)} of {len(good)} as they should be: refused by a law, but for those that are known to be seen by none")
    return 0 if all(good) and good else 1


if __name__ == "__main__":
    sys.exit(main())
