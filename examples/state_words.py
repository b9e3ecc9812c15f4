"""Words for the fields of a saved state, which the parts share."""


def of_chip(fields, chip):
    """The fields of one chip by their names."""
    return {name: value for (owner, name), value in fields.items() if owner == chip}


def yes(flag, text, other=""):
    return text if flag else other


def joined(*texts):
    return ", ".join(text for text in texts if text)


def onoff(flag):
    return "on" if flag else "off"
