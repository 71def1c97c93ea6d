"""The sentences of a page of `console --html`: what each of its elements may say, line by line, as patterns."""
from status import FIELDS, MODES

REGISTERS = ('R8_usr R9_usr R10_usr R11_usr R12_usr SP_usr LR_usr R8_fiq R9_fiq R10_fiq R11_fiq R12_fiq SP_fiq LR_fiq '
             'LR_irq SP_irq LR_svc SP_svc LR_abt SP_abt LR_und SP_und LR_mon SP_mon ELR_hyp SP_hyp SPSR_fiq SPSR_irq '
             'SPSR_svc SPSR_abt SPSR_und SPSR_mon SPSR_hyp CPSR PC SCR HCR SCTLR_s SCTLR_ns HSCTLR VBAR_s VBAR_ns '
             'HVBAR MVBAR HDCR').split()


def any_of(*patterns):
    return f'({"|".join(patterns)})'


# The parts of sentences: numbers, names, and what is told of a Step.
NUMBER, COUNT, BYTE, WORD = '[0-9]+', '[0-9]{1,3}(,[0-9]{3})*', '0x[0-9A-F]{2}', '0x[0-9A-F]{8}'
ANSWER = f'{NUMBER} ' + any_of(*'DONE BAD_SIZE BAD_MODE BAD_STATE BAD_EVENT NOT_HERE NO_REGISTER NO_RIGHT SHORT BAD_RECORD '
                               'BAD_COUNT WRONG_STEP TRAILING FULL CLOSED NO_ROOM DISABLED OWN_REGISTER NOT_BANKED UNKNOWN'.split())
REASONED = any_of(r'16 DISABLED \(HVC is disabled: SCR\.HCE is 0\)', r'16 DISABLED \(SMC is disabled: SCR\.SCD is 1\)',
                  r'3 BAD_STATE \(bits 24-21 of the saved word are not 0\)',
                  r'4 BAD_EVENT \(not known in the old layout\)',
                  r'4 BAD_EVENT \(a virtual line: in the new layout HCR\.VF and VI signal a guest\)',
                  r'17 OWN_REGISTER \(its own register, reached by another instruction\)',
                  r'7 NO_RIGHT \((no banked register is accessible from User|not accessible from this mode and state)\)')
REGISTER = any_of(*REGISTERS)
BANKED = any_of(*REGISTERS[:REGISTERS.index('CPSR')], r'no register \(R [01] SYSm 0x[01][0-9A-F]\)')
RECORD = any_of('the Start', 'a Step', 'the End')
MODE = any_of(*MODES.values())
LINE = any_of('SError', 'FIQ', 'IRQ', 'virtual FIQ', 'virtual IRQ')
EVENT = any_of('Undefined Instruction', 'SVC', 'SMC', 'HVC', 'Hyp Trap', 'Monitor Trap',
               '(external )?(Prefetch|Data) Abort( of stage 2)?', 'debug Prefetch Abort',
               'interrupt check, no line', f'interrupt check, lines {LINE}( and {LINE})*',
               f'banked (read of|write of {WORD} to) {BANKED}',
               f'note: {REGISTER} becomes {WORD}',
               'exception return(, LR less [248])?',
               f'exception return, A {NUMBER}, which must be (0, 2, 4 or 8|0 from Hyp)',
               f'event of code {NUMBER}, which is none',
               f'((Prefetch|Data) Abort|interrupt check|banked read|(banked write|note) of {WORD}), A {NUMBER}, above {NUMBER}')
EVENT += f'(, A {NUMBER}, which must be 0)?(, B {NUMBER}, which must be 0)?'
IN_MODE = any_of(f'(Secure|Non-secure) {MODE}', 'Monitor with NS [01]')
STATE = (any_of(IN_MODE, f'mode {BYTE}, which is none') +
         any_of(', nothing masked', ', masked A( I)?( F)?', ', masked I( F)?', ', masked F'))
ILLEGAL = any_of(f'mode {BYTE} is none', '(Monitor|Hyp) is above Exception level [12]', 'Hyp with NS 0',
                 f'Non-secure {MODE} with TGE 1')
RETURN = any_of(f'returns( to {IN_MODE} at {WORD})?',  # where to, unless nobody judged it and the rules refuse it
                rf'illegal return \({ILLEGAL}\): stays in {IN_MODE}, IL becomes 1, goes on at {WORD}')
OUTCOME = any_of(f'refused with {ANSWER}', f'refused with {REASONED}', f'reads {WORD}', 'written', 'takes nothing',
                 f'((virtual )?(SError|FIQ|IRQ): )?enters ({MODE}|no) mode at {BYTE}', RETURN)

VALUE = any_of('set', 'clear', BYTE, MODE)
DIFFERENCE, CHANGE = (f'{any_of(*FIELDS)} {VALUE}, {due} {VALUE}' for due in ('due', 'was'))

# The sentences, by element.
SAID = {
    'h1': ': ' + any_of('accepted, 0 Steps', f'accepted, {NUMBER} Steps: {NUMBER} done, {NUMBER} refused',
                        f'refused {ANSWER} at byte {NUMBER} after {NUMBER} Steps'),
    'pre': any_of(
        f'{RECORD} of {NUMBER} bytes was due; only {NUMBER} are there',
        f'the Start of {NUMBER} bytes was due, or of {NUMBER} in the old layout; only {NUMBER} are there',
        f'{RECORD} was due, of length {NUMBER} and kind {NUMBER}(, or of {NUMBER} and {NUMBER} in the old layout)?; '
        f'length {NUMBER} and kind {NUMBER} are there'
        '(, a Step of the (new layout behind a Start of the old|old layout behind a Start of the new) one)?',
        f'the Start counts {NUMBER} Steps; there may be {NUMBER}',
        f'the Start counts {NUMBER} Steps, the End {NUMBER}',
        'the trace was whole, and more bytes follow its End',
        f'Step {NUMBER} at byte {NUMBER}: {EVENT}',
        f'it was in {STATE}',
        f'the rules give: {OUTCOME}',
        f'(answer number|answer value|{REGISTER}) {WORD} due, {WORD} found(: {DIFFERENCE}(; {DIFFERENCE})*)?'),
    'p': any_of(
        'This Step', ',',  # before its links and between them
        'warning: no Step was done, so the trace shows nothing of what the unit runs',
        f'code {NUMBER}, A {WORD}, B {WORD}', f'CPSR: {CHANGE}(; {CHANGE})*',
        r'There is nothing to draw: the Start itself is refused\.',
        r'A column is one Step, with a bar in the mode that it was in\.',
        rf'A column is {NUMBER} Steps\. The height of a bar is the share of them that were in the mode, '
        r'or were entries, returns or refusals; a single one still shows\.',
        r'There is no Step to list\.',
        r'A Step opens to the words that it changed\.',
        rf'Step {COUNT} is not listed\.',
        rf'Steps {COUNT} to {COUNT} are not listed\.',
        r'Behind the wrong Step nothing was judged\. What follows is as it was recorded\.',
        r'No word changed\.'),
    'a': any_of('in the timeline', 'in the list'),
    'h2': any_of('Modes by Step', 'Steps'),
    'li': any_of(f'entries, which took an exception: {COUNT}', f'returns, legal or not: {COUNT}',
                 f'refusals, by the rules: {COUNT}', 'the first bad Step', 'recorded behind it, not judged',
                 'the mode at the end'),
    'text': any_of(  # in a picture, where an event's name may be cut to its first word
        'guest', 'Secure', 'no mode', 'entries', 'returns', 'refusals', MODE, COUNT, 'end', f'Step {COUNT} WRONG',
        f'stops here: {ANSWER} at byte {NUMBER}', 'SVC', 'SMC', 'HVC', 'Prefetch( Abort)?', 'Data Abort', 'Hyp Trap',
        'Monitor Trap', 'interrupt( check)?', 'banked read', 'banked write', 'note', 'return'),
    'title': f'Step {NUMBER}: {EVENT}; {STATE}',  # of a Step in a picture
    'span': any_of('Step', 'at byte', 'event', 'it was in', 'outcome', NUMBER, EVENT, STATE, OUTCOME,
                   f'; the rules give: {OUTCOME}'),
    'b': 'WRONG',
    'th': any_of('word', 'before', 'after', 'due', 'found', 'answer number', 'answer value', REGISTER),
    'td': any_of(WORD, f'differs(: {DIFFERENCE}(; {DIFFERENCE})*)?'),
    'style': any_of(r'(\\[0-9A-F]+)+', r'(at byte|before|due|found)\\A0'),  # what it puts on the page: signs by their numbers
}
