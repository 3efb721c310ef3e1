"""Native servers: what each has heard, what it replies, and its acts.

A server accepts one client at a time. At the client's turn it hears words and the turn; at its own it gives its reply in blocks, and then
hands over.
"""
from . import calls, words
from .world import CLIENT, MOVED, SERVICE

KEPT = 64


def reply(rule, config, position, request):
    """What a rule replies to a request."""
    if rule == "echo":
        return list(request)
    if rule == "feed":
        return [config[position]] if position < len(config) else []
    if rule == "sum":
        return [sum(request) & words.ALL]
    return []


class Server:
    """A native server of a port."""

    def __init__(self, port, rule, config=(), alias=None):
        self.port, self.rule, self.config, self.alias = port, rule, config, alias
        self.position, self.request, self.left, self.client = 0, [], [], None
        # What a console was sent.
        self.printed = []
        # What passes at the port, each as the words of a record's line.
        self.notes = []

    def notes_seen(self, watch):
        """The notes that an observer sees."""
        return [note for note in self.notes if watch == "all" or note[0] == {"replies": "reply", "said": "said"}[watch]]

    def replied(self):
        """Its next reply, which is computed now."""
        answer = reply(self.rule, self.config, self.position, self.request)
        if self.alias is None:
            self.position = min(self.position + 1, words.ALL)
        return answer

    def words(self, given):
        """The client sends words."""
        self.notes.append(("said", *given))
        if self.alias is not None:
            self.printed += given
        else:
            self.request = (self.request + given)[:KEPT]

    def over(self):
        """The client hands over, and it replies."""
        self.notes.append(("over",))
        self.replies()

    def replies(self):
        """The reply is computed."""
        self.left = self.replied()
        self.notes.append(("reply", *self.left))
        self.request = []

    def ended(self):
        """The talk has ended."""
        self.notes.append(("ended",))
        self.client, self.request, self.left = None, [], []

    def taken(self, client):
        """A client is taken, or taken up with an empty request; at its own turn what was moved of the reply is left out."""
        self.client, self.request, self.left = client, [], []
        self.notes.append(("taken", "client" if client.talk.turn == CLIENT else "server", client.talk.moved))
        if client.talk.turn != CLIENT:
            self.replies()
            self.left = self.left[self.moved_before(client.talk):]

    def moved_before(self, talk):
        """How many words of its reply it leaves out, since they were moved before."""
        return talk.moved

    def deed(self, world, pick):
        """What its next act does; nothing where it isn't ready."""
        if self.port.gone or world.is_held(self.port):
            return None
        if self.client is None:
            return self.accepts(world, pick)
        talk = self.client.talk
        if pick is not None or talk.turn == CLIENT or not world.is_free(self.client) or not calls.receives(world, self.client, CLIENT):
            return None
        return self.gives(world, talk) if self.left else lambda: self.hands_over(world, talk)

    def accepts(self, world, pick):
        """It accepts, or takes up, whom the move picks."""
        met = calls.is_met(world, pick, [self.port]) if pick is not None and pick.kind == calls.THREAD else None

        def doing():
            if met == 0:
                calls.accept(pick, self.port, SERVICE)
            else:
                pick.talk.peer = SERVICE
            self.taken(pick)
        return doing if met in (0, 2) else None

    def gives(self, world, talk):
        """It gives a block of its reply."""
        try:
            block = calls.Block(world, self.client, self.left, 0, len(self.left))
        except calls.Waits:
            return None
        if block.full:
            return lambda: calls.end_call(self.client, calls.FULL)
        if world.is_frozen(None, block.space):
            return None

        def doing():
            block.move()
            talk.moved = min(MOVED, talk.moved + block.length)
            del self.left[:block.length]
        return doing

    def hands_over(self, world, talk):
        """It hands over the turn, never with a reference."""
        if calls.wanted(world, self.client, CLIENT) is not None:
            self.client.registers[1] = 0
        calls.end_call(self.client, calls.OK)
        calls.hand_over(talk)


class Replay(Server):
    """What gives the replies of a list in the place of a server: each whole, and empty ones behind the end."""

    def __init__(self, port, given):
        super().__init__(port, None)
        self.given = list(given)

    def replied(self):
        """The next reply of its list."""
        return self.given.pop(0) if self.given else []

    def moved_before(self, talk):
        """It leaves nothing out."""
        return 0
