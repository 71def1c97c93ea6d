#!/usr/bin/env python3
"""mutants.py SCRIPT: tries tools/mutants on a few mutants. Ends with `N passed, M failed`."""
import os
import subprocess
import sys
import tempfile

SCRIPT = os.path.abspath(sys.argv[1])
# B 1 allowed for each of codes 1 to 10 and 13; a mask not set, a refusal gone, a condition turned round, a label gone; a wrong
# count.
# Of a disabled call: the refusal gone, the trap forgotten, SMC by the bit of HVC, HVC by the bit of SMC.
# Of a return: each row of the list of illegal ones gone, IL forgotten, an odd address, A from Hyp, a saved word not looked at.
# Of debug and the layouts: another A, HDCR not asked, a state where it does not go to Hyp, known in the old layout,
# unknown in the new one, a kind above the new Start's.
# Of a virtual line: of another event, the one alone, the other alone, none, and any check or any event with such a bit.
# Of the batch: an answer too many, more events than answers, an event left out.
# Of the counts: a code too few, refused Steps counted as done, a sum that just fits, room that just does.
# Of a session: the most Steps refused, the other layout, a byte too many held, a head judged too often, a block kept,
# a feeding after closing.
# Of a recording: the most events refused, room that just does, bytes before the offset as room, no end of the buffer, no kind.
# Of an instruction word: a bit of a field in the other one's place, a should-be bit not asked, any bit given, condition 15,
# register 15, A 64, parts and a word that are left as they were, a buffer too long.
KILLED = [
    *(f'LARGEST: [CODE_{code}] = {{ {a}, [[0 => 1]] }},' for code, a in [
        ('UNDEFINED', 0), ('SVC', 0), ('SMC', 0), ('HVC', 0), ('PREFETCH_ABORT', 4), ('DATA_ABORT', 3), ('HYP_TRAP', 0),
        ('MONITOR_TRAP', 0), ('INTERRUPT_CHECK', 31), ('BANKED_READ', 63), ('RETURN', 8)]),
    'masks_of_hyp: [[masks |= CPSR_F => ]];',
    'refusal_of: [[return NO_RIGHT => ]];',
    'refusal_of: [[return OWN_REGISTER => ]];',
    'offset_of: if ([[target == MODE_HYP && mode_of(block) != MODE_HYP && exception != IRQ && exception != FIQ => not]])',
    'act: [[case CODE_NOTE: => ]]',
    'second_step_in: if (number == DONE [[&& => ||]] event.code == CODE_NOTE)',
    'refusal_of: [[return DISABLED => ]];',
    'is_disabled: return !is_smc_trapped(block) [[&& => ||]] is_one(block, SCR, SCR_SCD);',
    'is_disabled: return !is_smc_trapped(block) && is_one(block, SCR, [[SCR_SCD => SCR_HCE]]);',
    'is_disabled: return !is_one(block, SCR, [[SCR_HCE => SCR_SCD]]);',
    'is_illegal: if (is_reserved_mode(mode)) [[return true => ]];',
    'is_illegal: if (is_higher_level(block, mode)) [[return true => ]];',
    'is_illegal: if (is_hyp_with_ns_0(block, mode)) [[return true => ]];',
    'is_in(mode, EL1_MODES) && is_one(block, SCR, SCR_NS) && is_one(block, HCR, [[HCR_TGE => HCR_FMO]]);',
    'cpsr_of_return: return with(saved, CPSR_MODE, false) | mode_of(block) [[| => &]] CPSR_IL;',
    'pc_of_return: return with(address_of_return(block, a), t ? [[1 => 0]] : 3, false);',
    'is_taken_off: [[return a == 0 => ]];',
    'refusal_of: [[return BAD_STATE => ]];',
    'is_debug: return event->code == CODE_PREFETCH_ABORT && event->a == [[ABORT_DEBUG => ABORT_STAGE_2]];',
    'is_debug_to_hyp: return is_debug(event) [[&& => ||]] is_one(block, HDCR, HDCR_TDE);',
    'is_debug_to_hyp: if ([[is_secure(block) || mode_of(block) == MODE_HYP => not]])',
    'is_unknown_in: return is_debug(event) [[|| => &&]] (event->code == CODE_NOTE && event->a == HDCR);',
    'is_unknown_in: if (layout == [[OLD_LAYOUT => NEW_LAYOUT]])',
    'has_virtual_line: return event->code == [[CODE_INTERRUPT_CHECK => CODE_BANKED_READ]] && '
    '(event->a & (LINE_VFIQ | LINE_VIRQ)) != 0;',
    'has_virtual_line: return event->code == CODE_INTERRUPT_CHECK && (event->a & ([[LINE_VFIQ => LINE_VIRQ]] | LINE_VIRQ)) != 0;',
    'has_virtual_line: return event->code == CODE_INTERRUPT_CHECK && (event->a & (LINE_VFIQ | [[LINE_VIRQ => LINE_VFIQ]])) != 0;',
    'has_virtual_line: return event->code == CODE_INTERRUPT_CHECK && (event->a & (LINE_VFIQ [[| => &]] LINE_VIRQ)) != 0;',
    'has_virtual_line: return event->code == CODE_INTERRUPT_CHECK [[&& => ||]] (event->a & (LINE_VFIQ | LINE_VIRQ)) != 0;',
    'second_layout_of: return get_half(header + 2) [[== => >=]] START[NEW_LAYOUT].kind ? NEW_LAYOUT : OLD_LAYOUT;',
    'judge: if (n [[> => >=]] MOST_STEPS) {',
    'second_batch: for (size_t i = 0; i [[< => <=]] events_len; i++)',
    'second_batch: if (events_len [[!= => <]] answers_len || block_len != BLOCK_SIZE)',
    'second_batch: for (size_t i = [[0 => 1]]; i < events_len; i++)',
    'known_code: return code < [[CODES => CODE_RETURN]] ? code : 0;',
    'count_step: [[return => ]];',
    'would_pass: if (more->word[i] [[> => >=]] UINT32_MAX - before->word[i])',
    'second_count_lines: if (lines_len [[< => <=]] text.length)',
    'take_start: if (n [[> => >=]] MOST_STEPS)',
    'take_start: session->stage = layout == [[OLD_LAYOUT => NEW_LAYOUT]] ? STAGE_OLD_NEXT : STAGE_NEXT;',
    'take_byte: if (session->held [[>= => >]] record_due(session).length)',
    'take_byte: if (session->held [[== => >=]] HEADER_SIZE && !second_is_due(session->unfinished, due))',
    'keep_fault: [[memset(session->block, 0, sizeof session->block) => ]];',
    'second_feed: [[return CLOSED => ]];',
    'second_record: if (events_len [[> => >=]] MOST_STEPS)',
    'has_room: return buffer_len - offset [[>= => >]] length;',
    'has_room: return buffer_len [[- => +]] offset >= length;',
    'has_room: [[return false => ]];',
    'write_header: [[put_half(bytes + 2, record.kind) => ]];',
    'PLACE: [R] = { PART_A, [[5 => 4]] },',
    'ENCODING: { [[15 => 14]], 12, .given = 0xF },',
    'has_given_bits: [[return false => ]];',
    'enum largest: LARGEST_CONDITION = [[14 => 15]],',
    'enum largest: LARGEST_REGISTER = [[14 => 15]]',
    'enum largest: LARGEST_A = [[63 => 64]],',
    'second_read_instruction: [[put_parts(parts, NO_PARTS) => ]];',
    'second_write_instruction: [[put_word(word, 0) => ]];',
    'second_read_instruction: if (parts_len [[!= => <]] PARTS_SIZE)',
]
LIVING = 'LARGEST: [[[CODE_SVC => CODE_SMC]]] = { 0, 0 },'
NO_MUTANT = 'is_one: return [[nothing => something]];'
results = []


def expect(name, held, seen=''):
    results.append(bool(held))
    print(f'ok      {name}' if held else f'FAILED  {name}: {seen}', flush=True)


def mutants(*arguments):
    told = subprocess.run([SCRIPT, *arguments], stdout=subprocess.PIPE, stderr=subprocess.STDOUT, check=False, text=True)
    return told.returncode, told.stdout.splitlines()


def try_project():
    """With the project's own file."""
    seen = mutants('--entries')
    expect('each explained mutant can be made', seen[0] == 0, seen)
    status, lines = mutants('--steps', '200000', '--traces', '2000', *KILLED, LIVING)
    due = f'{len(KILLED) + 1} mutants, {len(KILLED)} killed, 1 survivors, all explained'
    expect('chosen mutants are killed, an explained one lives', status == 0 and lines[-1] == due, lines)


def try_file(path):
    """With a file that explains the wrong one."""
    with open(path, 'w', encoding='utf-8') as file:
        file.write(f'A reason.\n    {KILLED[0]}\n')
    status, lines = mutants('--steps', '20000', '--explained', path, KILLED[0], LIVING)
    expect('a survivor without a reason is told', status == 1 and f'lives, and is not explained: {LIVING}' in lines, lines)
    expect('a reason for one that is killed is told', f'is explained, and was killed: {KILLED[0]}' in lines, lines)
    with open(path, 'w', encoding='utf-8') as file:
        file.write(f'A reason.\n    {NO_MUTANT}\n')
    status, lines = mutants('--entries', '--explained', path)
    expect('a reason for none that can be made is told',
           status == 1 and f'is explained, and cannot be made: {NO_MUTANT}' in lines, lines)


try_project()
with tempfile.TemporaryDirectory() as room:
    try_file(os.path.join(room, 'mutants.txt'))
print(f'{results.count(True)} passed, {results.count(False)} failed')
sys.exit(0 if all(results) else 1)
