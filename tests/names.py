"""How the console has to show a name (host/name.h), by Python's own tables of characters."""
import codecs
import unicodedata

# By their classes, and the three marks, which Unicode classes as letters.
TURNING = {'LRE', 'RLE', 'LRO', 'RLO', 'PDF', 'LRI', 'RLI', 'FSI', 'PDI'}
MARKS = {'LEFT-TO-RIGHT MARK', 'RIGHT-TO-LEFT MARK', 'ARABIC LETTER MARK'}

codecs.register_error('each byte', lambda error: ('?' * (error.end - error.start), error.end))


def is_shown(character):
    return (unicodedata.category(character) not in ('Cc', 'Zl', 'Zp') and
            unicodedata.bidirectional(character) not in TURNING and unicodedata.name(character, '') not in MARKS)


def shown(name):
    """The bytes of a name as text, `?` for each that is not shown."""
    characters = name.decode(errors='each byte')
    return ''.join(one if is_shown(one) else '?' * len(one.encode()) for one in characters)
