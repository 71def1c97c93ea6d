"""The fields of a status word, CPSR or an SPSR (document 01, "The state block"), and how the console tells that two differ."""

MODES = {0x10: 'User', 0x11: 'FIQ', 0x12: 'IRQ', 0x13: 'Supervisor', 0x16: 'Monitor', 0x17: 'Abort', 0x1A: 'Hyp',
         0x1B: 'Undefined', 0x1F: 'System'}

# Each field with its bits, from its highest; IT's lower two lie above the others.
FIELDS = {'N': [31], 'Z': [30], 'C': [29], 'V': [28], 'Q': [27], 'IT': [15, 14, 13, 12, 11, 10, 26, 25],
          'bits 24-21': [24, 23, 22, 21], 'IL': [20], 'GE': [19, 18, 17, 16], 'E': [9], 'A': [8], 'I': [7], 'F': [6], 'T': [5],
          'mode': [4, 3, 2, 1, 0]}


def told(field, word):
    """What a field of a word holds."""
    bits = FIELDS[field]
    value = int(''.join(str(word >> bit & 1) for bit in bits), 2)
    if len(bits) == 1:
        return 'set' if value else 'clear'
    return MODES[value] if field == 'mode' and value in MODES else f'0x{value:02X}'


def differing_fields(word, due, other):
    """The fields in which a word differs from another, which was, or is due."""
    values = [(field, told(field, word), told(field, other)) for field in FIELDS]
    return '; '.join(f'{field} {value}, {due} {another}' for field, value, another in values if value != another)
