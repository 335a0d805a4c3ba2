"""What a record reports of a run: actions, and the values that they used and made.

A *value* is what one action made or what came from outside: a file mostly. An *action* is one execution of a tool. Each value that an
action made rests on each value that it used. `Record.happened` leaves out what did not happen and refuses what contradicts itself.
"""
import terminal

DONE, CACHED, FAILED, NEVER = "done", "cached", "failed", "never"
STATES = (DONE, CACHED, FAILED, NEVER)


def refuse(place, what):
    """Refuses what stands at a place of a record."""
    raise terminal.Wrong(f"{place}: {what}")


class Value:
    """A value: its identity in the record, its path and checksum where there are any, whether it came from outside, and its place."""

    def __init__(self, identity, path="", checksum="", outside=False, place=""):
        self.identity, self.path, self.checksum, self.outside = identity, path, checksum, outside
        self.place = place or f"value `{identity}`"


class Action:
    """An execution: its name, its tool, the groups around it from the outermost, each a pair of a kind and a name, what it used and made as pairs of a role
    and the identity of a value, its state, its software in words, and its place."""

    def __init__(self, name, tool, used=(), made=(), group=(), state=DONE, software="", place=""):
        self.name, self.tool, self.group, self.state, self.software = name, tool, tuple(group), state, software
        self.used, self.made = list(used), list(made)
        self.place = place or f"action `{name}`"


class Record:
    """The actions and values of a run, each under its name."""

    def __init__(self):
        self.actions, self.values = {}, {}

    def add_value(self, value):
        """Takes a value, which must be new."""
        if value.identity in self.values:
            refuse(value.place, f"the value `{value.identity}` is there twice, and before at {self.values[value.identity].place}")
        self.values[value.identity] = value

    def add_action(self, action):
        """Takes an action, which must be new."""
        if action.name in self.actions:
            refuse(action.place, f"the action `{action.name}` is there twice, and before at {self.actions[action.name].place}")
        if action.state not in STATES:
            refuse(action.place, f"the state `{action.state}` is none of {', '.join(STATES)}")
        self.actions[action.name] = action

    def happened(self):
        """Returns the actions that came to an end, and the maker of each value with the role, as two tables. What a failed action made,
        and an action that is a mere look-up of another's results, is not there."""
        makers = self.makers()
        real = {}
        for action in self.actions.values():
            if action.state in (FAILED, NEVER):
                continue
            for _, value in action.used:
                self.need(action, value, makers)
            made = [value for _, value in action.made if makers[value][0] is action]
            if action.state == DONE or made or not action.made:
                real[action.name] = action
        refuse_circle(real, makers)
        return list(real.values()), makers

    def makers(self):
        """Returns for each value the action that made it, and the role. A cached action is the maker where no other one is."""
        makers = {}
        for action in self.actions.values():
            if action.state in (FAILED, NEVER):
                continue
            for role, value in action.made:
                known = self.values.get(value)
                if known is None:
                    refuse(action.place, f"it made `{value}`, which is no value of the record")
                if known.outside:
                    refuse(action.place, f"it made `{value}`, which came from outside ({known.place})")
                other = makers.get(value, (None, None))[0]
                if other is action:
                    refuse(action.place, f"it made `{value}` twice")
                if other is not None and DONE == other.state == action.state:
                    refuse(action.place, f"it made `{value}`, and so did `{other.name}` ({other.place})")
                if other is None or other.state == CACHED:
                    makers[value] = action, role
        return makers

    def need(self, action, value, makers):
        """Refuses a used value that is not known, that nothing made, or whose maker made nothing."""
        known = self.values.get(value)
        if known is None:
            refuse(action.place, f"it used `{value}`, which is no value of the record")
        if not known.outside and value not in makers:
            other = next((other for other in self.actions.values() if any(made == value for _, made in other.made)), None)
            if other is not None:
                refuse(action.place, f"it used `{value}`, and `{other.name}`, which makes it, has the state {other.state} ({other.place})")
            refuse(action.place, f"it used `{value}`, which no action made and which did not come from outside")


def refuse_circle(actions, makers):
    """Refuses actions that use what comes of what they make, with one circle of them."""
    before = {name: {makers[value][0].name for _, value in action.used if value in makers} & actions.keys() for name, action in actions.items()}
    after, left = {name: [] for name in actions}, {name: len(names) for name, names in before.items()}
    for name, names in before.items():
        for other in names:
            after[other].append(name)
    ready = [name for name, count in left.items() if not count]
    while ready:
        name = ready.pop()
        del left[name]
        for other in after[name]:
            left[other] -= 1
            if not left[other]:
                ready.append(other)
    if left:
        way, name = [], next(iter(left))
        while name not in way:
            way.append(name)
            name = next(other for other in before[name] if other in left)
        circle = way[way.index(name):]
        refuse(actions[name].place, "it uses what comes of what it makes: " + ", ".join(f"`{other}`" for other in reversed(circle)))
