"""What is answered to lines on control messages, as far as it follows from the answers before: a second reading of the rules, which knows
nothing of volumes. What an order finds on its members is taken as it is told."""
import re

WORK = {"Coordinating": "Hold", "Releasing": "Release", "Draining": "Seal", "Flashing": "Flash", "Committing": "Commit",
        "Reverting": "Revert", "Finishing": "Finish", "Lost": "Report"}
MOST = 256

# The refusals that an order may find on its members, and those of a stop in it.
OF_MEMBERS = ("E05", "E06", "E07", "E10", "E11", "E16", "E17", "E21")


class Session:
    """A session's master, and what its number keeps. Who is owed is True, False, or None where it isn't known."""

    def __init__(self, home, servers):
        self.home = self.master = home
        self.servers = servers
        self.epoch = 1
        self.fence = {server: 0 for server in servers}
        self.paused = False
        self.phase, self.number = "Idle", 0
        self.owed = {server: False for server in servers}

    def enters(self, phase, number, known=True):
        self.phase, self.number = phase, number
        owed = phase != "Idle"
        self.owed = {server: owed if known or not owed else None for server in self.servers}

    def order(self):
        """The work of the phase, with its number."""
        work = WORK[self.phase]
        return work, 0 if work == "Report" else self.number


class Message:
    """An order, or the reply to one where `starts` is None."""

    def __init__(self, session, epoch, server, order, starts):
        self.session, self.epoch, self.server, self.order, self.starts = session, epoch, server, order, starts


class Model:
    """Servers, links, sessions and messages."""

    def __init__(self, servers, masters, primaries):
        self.names = list(servers)
        self.on = {server: True for server in servers}
        self.starts = {server: 0 for server in servers}
        self.down = set()
        self.sessions = {session: Session(server, primaries) for session, server in masters.items()}
        self.messages = {}
        self.made = 0
        self.full = []
        self.ran = None

    # ---- what is known

    def reaches(self, a, b):
        return frozenset((a, b)) not in self.down

    def link_down(self, a, b):
        low, high = sorted((a, b), key=self.names.index)
        return f"E06 link down {low} {high}"

    def committed(self):
        """The sessions with the groups that were committed in full since this was asked last."""
        told, self.full = self.full, []
        return told

    def of_older_attempts(self):
        """The orders in flight whose attempt is over, but for those that ask of any attempt."""
        return [number for number, message in self.messages.items()
                if message.starts is not None and 0 < message.order[1] < self.sessions[message.session].number]

    def goes_to(self, session, server, phase, number):
        """The master has taken a reply of the server, and is in this phase then."""
        of = self.sessions[session]
        if phase == of.phase:
            of.owed[server] = None if phase == "Draining" else False
            return
        if of.phase == "Committing" and phase == "Finishing":
            self.full.append((session, number))
        of.enters(phase, number)

    def lost(self, server):
        """A server was on, and is off: its masters are lost."""
        for of in self.sessions.values():
            if of.master == server:
                of.epoch += 1
                of.enters("Lost", of.number)

    # ---- lines

    def before(self, line):
        """What is to be known of a line before it is carried out."""
        self.was_on = dict(self.on)
        self.ran = None

    def wants_look(self, line, answer):
        word = line.split(" ")[0]
        return answer.startswith("E21 ") or word in ("@run", "@recover", "@start", "failbackpprc") or (
            word == "@exchange" and not answer.startswith("ok"))

    def saw_servers(self, on):
        for server, is_on in on.items():
            if self.was_on[server] and not is_on and self.on[server]:
                self.lost(server)
            self.on[server] = is_on
        self.was_on = dict(self.on)

    def saw_phase(self, session, seen):
        """A master is seen in a phase behind a refused exchange, whose hold may have begun an attempt, or behind the groups of a line."""
        of = self.sessions[session]
        if seen and seen != (of.phase, of.number):
            of.enters(*seen, known=of.phase == "Idle" and session != self.ran)
        if session == self.ran:
            of.owed = {server: None if owed else owed for server, owed in of.owed.items()}

    def after(self, line, answer):
        """Why the answer is a wrong one, if it is."""
        word, *rest = line.split(" ")
        on = {"@send": self.send, "@deliver": self.deliver, "@lose": self.lose, "@exchange": self.exchange, "@abort": self.abort,
              "@run": self.run, "@stop": self.stop, "@start": self.start, "@link": self.link, "rmgmir": self.dismiss, "mkgmir": self.appoint,
              "pausegmir": self.pause, "resumegmir": self.resume}.get(word)
        return on(answer, *rest) if on else None

    def master_refusal(self, session, server, begins=True):
        """Why the master has no order for the server; None too where it isn't known."""
        of = self.sessions[session]
        if not of.master:
            return "E15 out of order none"
        if not self.on[of.master]:
            return f"E05 server off {of.master}"
        if of.phase == "Idle":
            return "E15 out of order Idle" if of.paused else None
        return None if of.owed[server] is not False else f"E15 out of order {of.phase}"

    def judged(self, answer, refusal, maybe=None):
        """An answer where the refusal is known, or where it may be another one."""
        if refusal:
            return None if answer == refusal else f"not {refusal}"
        if maybe and answer == maybe:
            return None
        return None if answer.startswith("ok ") else "it isn't refused so"

    def posted(self, answer):
        self.made += 1
        return None if answer == f"ok m{self.made}" else f"not ok m{self.made}"

    def send(self, answer, session, server):
        of = self.sessions[session]
        refusal = self.master_refusal(session, server)
        if refusal:
            return None if answer == refusal else f"not {refusal}"
        if of.phase != "Idle" and of.owed[server] is None:
            of.owed[server] = not answer.startswith("E15 ")
            if not of.owed[server]:
                return None if answer == f"E15 out of order {of.phase}" else "another phase"
        if len(self.messages) >= MOST:
            return None if answer == "E04 limit messages" else "not E04 limit messages"
        if of.phase == "Idle":
            of.enters("Coordinating", of.number + 1)
        fault = self.posted(answer)
        self.messages[self.made] = Message(session, of.epoch, server, of.order(), self.starts[server])
        return fault

    def deliver(self, answer, number):
        message = self.messages.get(int(number))
        if not message:
            return None if answer == "E02 unknown message" else "not E02 unknown message"
        if message.starts is None:
            return self.deliver_reply(answer, int(number), message)
        return self.deliver_order(answer, int(number), message)

    def deliver_order(self, answer, number, message):
        of = self.sessions[message.session]
        refusal = None
        if not self.on[message.server]:
            refusal = f"E05 server off {message.server}"
        elif not of.master:
            refusal = "E15 out of order none"
        elif not self.reaches(of.master, message.server):
            refusal = self.link_down(of.master, message.server)
        elif len(self.messages) >= MOST:
            refusal = "E04 limit messages"
        elif message.starts != self.starts[message.server] or message.epoch < of.fence[message.server]:
            refusal = f"E25 old message {number}"
        if refusal:
            return None if answer == refusal else f"not {refusal}"
        if not answer.startswith("ok "):
            return None if answer.startswith(OF_MEMBERS) else "no refusal of its members"
        if message.order[0] == "Report":
            of.fence[message.server] = max(of.fence[message.server], message.epoch)
        fault = self.posted(answer)
        self.messages[self.made] = Message(message.session, message.epoch, message.server, message.order, None)
        return fault

    def deliver_reply(self, answer, number, message):
        of = self.sessions[message.session]
        if not of.master:
            return None if answer == "E15 out of order none" else "not E15 out of order none"
        if not self.on[of.master]:
            return None if answer == f"E05 server off {of.master}" else f"{of.master} is off"
        if not self.reaches(of.master, message.server):
            refusal = self.link_down(of.master, message.server)
            return None if answer == refusal else f"not {refusal}"
        old = f"E25 old message {number}"
        awaited = of.phase != "Idle" and message.epoch == of.epoch and message.order == of.order()
        owed = of.owed[message.server]
        if not awaited or owed is False:
            return None if answer == old else f"not {old}"
        if owed is None and answer == old:
            of.owed[message.server] = False
            return None
        return self.taken(answer, message.session, message.server)

    def taken(self, answer, session, server):
        match = re.fullmatch(r"ok (\w+) (\d+)", answer)
        if not match:
            return "no phase"
        self.goes_to(session, server, match[1], int(match[2]))
        return None

    def lose(self, answer, number):
        known = self.messages.pop(int(number), None) is not None
        return self.judged_as(answer, "ok" if known else "E02 unknown message")

    @staticmethod
    def judged_as(answer, wanted):
        return None if answer == wanted else f"not {wanted}"

    def exchange(self, answer, session, server, noreply=None):
        of = self.sessions[session]
        refusal = self.master_refusal(session, server)
        if refusal:
            return self.judged_as(answer, refusal)
        if of.owed[server] is None and answer == f"E15 out of order {of.phase}":
            of.owed[server] = False
            return None
        if not self.on[server]:
            return self.judged_as(answer, f"E05 server off {server}")
        if not self.reaches(of.master, server):
            return self.judged_as(answer, self.link_down(of.master, server))
        if not answer.startswith("ok "):
            return None if answer.startswith(OF_MEMBERS) else "no refusal of its members"
        if of.phase == "Lost":
            of.fence[server] = max(of.fence[server], of.epoch)
        if of.phase == "Idle":
            of.enters("Coordinating", of.number + 1)
        return None if noreply else self.taken(answer, session, server)

    def run(self, answer, session, groups):
        self.ran = session
        match = re.fullmatch(r"ok Idle (\d+)", answer)
        if match:
            self.full.append((session, int(match[1])))

    def abort(self, answer, session):
        of = self.sessions[session]
        if not of.master:
            return self.judged_as(answer, "E15 out of order none")
        after = {"Coordinating": "Finishing", "Releasing": "Finishing", "Draining": "Finishing", "Flashing": "Reverting", "Committing": "Lost"}
        if of.phase not in after:
            return self.judged_as(answer, f"E15 out of order {of.phase}")
        if not self.on[of.master]:
            return self.judged_as(answer, f"E05 server off {of.master}")
        of.enters(after[of.phase], of.number)
        of.epoch += of.phase == "Lost"
        return self.judged_as(answer, f"ok {of.phase} {of.number}")

    def stop(self, answer, server, *fuse):
        if not fuse and self.on[server]:
            self.on[server] = False
            self.lost(server)
        return self.judged_as(answer, "ok")

    def start(self, answer, server):
        if not self.on[server]:
            self.starts[server] += 1
            self.on[server] = not answer.startswith("E21 ")
            self.was_on = dict(self.on)
        return None

    def link(self, answer, a, b, way):
        (self.down.discard if way == "up" else self.down.add)(frozenset((a, b)))
        return self.judged_as(answer, "ok")

    def dismiss(self, answer, *words):
        of = self.sessions[words[-1]]
        if not self.on[of.master]:
            return self.judged_as(answer, f"E05 server off {of.master}")
        if of.phase != "Idle":
            return self.judged_as(answer, f"E14 in formation {of.phase} {of.number}")
        of.master = None
        return self.judged_as(answer, "ok")

    def appoint(self, answer, *words):
        of = self.sessions[words[-1]]
        if not self.on[of.home]:
            return self.judged_as(answer, f"E05 server off {of.home}")
        of.master, of.paused = of.home, False
        of.epoch += 1
        of.enters("Idle", of.number)
        return self.judged_as(answer, "ok")

    def pause(self, answer, *words):
        return self.pauses(answer, words[-1], True)

    def resume(self, answer, *words):
        return self.pauses(answer, words[-1], False)

    def pauses(self, answer, session, paused):
        of = self.sessions[session]
        if not self.on[of.master]:
            return self.judged_as(answer, f"E05 server off {of.master}")
        of.paused = paused
        return self.judged_as(answer, "ok")
